/*
 * A host in C: decides the sample sheet's queries, one by one and as a run, says what stopped a denied one, adds a rule
 * and asks again, and adds one that waits for a switch.
 *
 *   cc -std=c99 -Wall -I include examples/decide.c target/staticlib/libmungaite.a -o target/decide
 */
#include "mungaite.h"

#include <stdio.h>
#include <string.h>

struct query {
    uint16_t source, destination, class_, action;
    uint32_t switches;
};

static const uint8_t sample[] = {
    0x01, 0x00, 0x50, 0x00, 0x01, 0x00, 0x04, 0x00, 0x02,                         /* 1 group, 4 rules, 2 constraints */
    0x06, 0x01, 0x00, 0x14, 0x00, 0x15,                                           /* group 0: 20, 21 */
    0x0B, 0x02, 0x00, 0x0A, 0x80, 0x00, 0x00, 0x05, 0x00, 0x01, 0x01,             /* allow 10 to g0, 5, 1 */
    0x0B, 0x02, 0x00, 0x14, 0x00, 0x1E, 0x00, 0x05, 0x00, 0x02, 0x01,             /* allow 20 to 30, 5, 2 */
    0x08, 0x03, 0x00, 0x0C, 0x00, 0x14, 0x00, 0x05,                               /* transition 12 to 20 */
    0x0B, 0x02, 0x00, 0x0D, 0x00, 0x15, 0x00, 0x05, 0x00, 0x01, 0x00,             /* allow 13 to 21, 5, 1, off */
    0x0D, 0x04, 0x00, 0x05, 0x00, 0x01, 0x00, 0x0A, 0x00, 0x15, 0x02, 0x00, 0x0A, /* roster on 10, 21: 10 */
    0x0B, 0x04, 0x00, 0x05, 0x00, 0x02, 0x00, 0x14, 0x00, 0x1E, 0x01              /* separation of 20, 30 */
};

static const uint8_t empty[MUNGAITE_EMPTY] = {0x01, 0x00, 0x09};

/* Allow group 0, which is 20 and 21, at 20: class 5, action 3, on. It shares 20 with rule 1, which lets 20 at 30. */
static const uint8_t rule[] = {0x0B, 0x02, 0x80, 0x00, 0x00, 0x14, 0x00, 0x05, 0x00, 0x03, 0x01};

/* The switch of the cleaning hour. While it is on, allow 15 at 30: class 5, action 4. */
#define CLEANING 0

static const uint8_t waiting[] = {0x0B, 0x02, 0x00, 0x0F, 0x00, 0x1E,
                                  0x00, 0x05, 0x00, 0x04, MUNGAITE_ON_SWITCH(CLEANING)};

/* The rows of a run. */
static const uint16_t rows[] = {
    MUNGAITE_ROW(10, 21, 5, 1, 0),                        /* row 0 */
    MUNGAITE_ROW(12, 20, 9, 9, 0),                        /* row 1 */
    MUNGAITE_ROW(20, 30, 5, 2, 0),                        /* row 2 */
    MUNGAITE_ROW(1024, 21, 5, 1, 0),                      /* row 3, whose source is no type */
    MUNGAITE_ROW(15, 30, 5, 4, MUNGAITE_SWITCH(CLEANING)) /* row 4 */
};

static const char *const step_names[] = {
    [MUNGAITE_STEP_CONDITION] = "condition",
    [MUNGAITE_STEP_SOURCE] = "source",
    [MUNGAITE_STEP_DESTINATION] = "destination",
    [MUNGAITE_STEP_CLASS] = "class",
    [MUNGAITE_STEP_ACTION] = "action"
};

static void print_type(uint16_t type)
{
    if (type >= MUNGAITE_GROUP(0)) {
        printf("g%u", (unsigned)(type - MUNGAITE_GROUP(0)));
    } else {
        printf("%u", (unsigned)type);
    }
}

static void print_decision(uint64_t answer)
{
    unsigned third = MUNGAITE_THIRD(answer);
    unsigned fourth = MUNGAITE_FOURTH(answer);

    switch (MUNGAITE_KIND(answer)) {
    case MUNGAITE_NOT_PERMITTED:
        if (answer == MUNGAITE_NO_RULES) {
            printf("NotPermitted, no rules\n");
        } else {
            printf("NotPermitted, nearest rule %u, which stops at the %s\n", fourth, step_names[third]);
        }
        break;
    case MUNGAITE_PERMITTED:
        printf("Permitted, rule %u\n", fourth);
        break;
    case MUNGAITE_UNKNOWN:
        printf("UnKnown, rule %u, constraint %u\n", third, fourth);
        break;
    default:
        printf("refusal %u at place %u\n", third, fourth);
    }
}

static void ask(struct query q, const uint8_t *image, size_t length)
{
    unsigned k;

    print_type(q.source);
    printf(", ");
    print_type(q.destination);
    printf(", %u, %u", (unsigned)q.class_, (unsigned)q.action);
    for (k = 0; k < 32; k++) {
        if (q.switches & MUNGAITE_SWITCH(k)) {
            printf(", s%u", k);
        }
    }
    printf(": ");
    print_decision(mungaite_decide(q.source, q.destination, q.class_, q.action, q.switches, image, length));
}

/* Asks the first rows at once: each row's answer, then what the run says. */
static void run(size_t count, const uint8_t *image, size_t length)
{
    uint64_t answers[sizeof rows / sizeof rows[0] / MUNGAITE_ROW_NUMBERS];
    uint64_t answer = mungaite_run(rows, MUNGAITE_ROW_NUMBERS * count, answers, count, image, length);
    size_t i;

    if (MUNGAITE_KIND(answer) == MUNGAITE_REFUSED) {
        print_decision(answer);
        return;
    }
    for (i = 0; i < count; i++) {
        printf("row %u: ", (unsigned)i);
        print_decision(answers[i]);
    }
    if (answer == MUNGAITE_FIT) {
        printf("fit\n");
    } else {
        printf("not fit, row %u is not Permitted\n", (unsigned)MUNGAITE_FOURTH(answer));
    }
}

/* Adds a record to the image that a buffer starts with: the new image's length, or 0. */
static size_t add(uint8_t *buffer, size_t size, const uint8_t *record, size_t record_length)
{
    uint64_t answer = mungaite_add(buffer, size, record, record_length);
    size_t length = (size_t)buffer[1] << 8 | buffer[2];

    if (MUNGAITE_KIND(answer) != MUNGAITE_PERMITTED) {
        print_decision(answer);
        return 0;
    }
    printf("added rule %u, the image has %u bytes\n", (unsigned)MUNGAITE_FOURTH(answer), (unsigned)length);
    return length;
}

int main(void)
{
    static const struct query queries[] = {
        {10, 21, 5, 1, 0},   {10, MUNGAITE_GROUP(0), 5, 1, 0}, {13, 21, 5, 1, 0},
        {12, 20, 9, 9, 0},   {20, 30, 5, 2, 0},                {10, 21, 5, 2, 0},
        {1024, 21, 5, 1, 0}, {32769, 21, 5, 1, 0},             {1023, 21, 5, 1, 0}};
    static const struct query denied = {15, 30, 5, 4, 0}, cleaning = {15, 30, 5, 4, MUNGAITE_SWITCH(CLEANING)};
    static uint8_t buffer[256];
    size_t length, i;

    for (i = 0; i < sizeof queries / sizeof queries[0]; i++) {
        ask(queries[i], sample, sizeof sample);
    }
    printf("without rules: ");
    ask(queries[0], empty, sizeof empty);
    run(3, sample, sizeof sample);

    memcpy(buffer, sample, sizeof sample);
    length = add(buffer, sizeof buffer, rule, sizeof rule);
    if (length == 0) {
        return 1;
    }
    ask(queries[4], buffer, length);
    run(4, buffer, length);

    length = add(buffer, sizeof buffer, waiting, sizeof waiting);
    if (length == 0) {
        return 1;
    }
    ask(denied, buffer, length);
    ask(cleaning, buffer, length);
    run(5, buffer, length);
    return 0;
}
