/*
 * The header at its ends: the type of each function, each constant and each macro, and calls at the extremes. What is
 * expected was worked out from the documents by hand. tests/header.sh builds and runs this file.
 *
 * The calls are made on the largest policy, whose records are these:
 *
 *   group g, 0 to 255         64 members: g, g + 1, .. g + 63
 *   rule r, 0 to 1023         allow type r to group r % 256, class 65535, action r, while switch r % 32 is on
 *   constraint c, 0 to 255    class 65535, action 768 + c, arguments 768 + c and c, a roster of the types 0 to 15
 *
 * So a rule covers queries of its own source alone. Constraint c applies to the queries that rule 768 + c covers, and
 * fails where the destination is c, since that rule's source is not in the roster.
 */
#include "mungaite.h"
#include "mungaite.h"

#include <stdio.h>
#include <string.h>

/* The functions' types. */
static uint64_t (*const check)(const uint8_t *, size_t) = mungaite_check;
static uint64_t (*const decide)(uint16_t, uint16_t, uint16_t, uint16_t, uint32_t, const uint8_t *,
                                size_t) = mungaite_decide;
static uint64_t (*const run)(const uint16_t *, size_t, uint64_t *, size_t, const uint8_t *, size_t) = mungaite_run;
static uint64_t (*const record)(uint16_t, uint16_t, const uint8_t *, size_t) = mungaite_record;
static uint64_t (*const add)(uint8_t *, size_t, const uint8_t *, size_t) = mungaite_add;
static uint64_t (*const build)(const uint8_t *, size_t, uint8_t *, size_t) = mungaite_build;
static uint64_t (*const convert)(const uint8_t *, size_t, uint8_t *, size_t) = mungaite_convert;

/* Constants and macros: each one's value and size in bytes, with expressions as arguments and beside operators. */
#define CLAIM_(line, holds) extern const char claim_##line[(holds) ? 1 : -1]
#define CLAIM(line, holds) CLAIM_(line, holds)
#define IS(macro, value, size) CLAIM(__LINE__, (macro) == (value) && sizeof(macro) == (size))

#define PARTS UINT64_C(0xFEDCBA9876543210)

IS(MUNGAITE_NOT_PERMITTED, 0, 4);
IS(MUNGAITE_PERMITTED, 1, 4);
IS(MUNGAITE_REFUSED, 2, 4);
IS(MUNGAITE_UNKNOWN, 3, 4);
IS(MUNGAITE_KIND(PARTS | 1), 0xBA98, 2);
IS(MUNGAITE_KIND(UINT64_MAX), 65535, 2);
IS(MUNGAITE_THIRD(PARTS | 1), 0x7654, 2);
IS(MUNGAITE_THIRD(UINT64_MAX), 65535, 2);
IS(MUNGAITE_FOURTH(PARTS | 1), 0x3211, 2);
IS(MUNGAITE_FOURTH(UINT64_MAX), 65535, 2);
IS(MUNGAITE_BUILD_REFUSAL(PARTS | 1), 0xFEDC, 2);
IS(MUNGAITE_BUILD_REFUSAL(UINT64_MAX), 65535, 2);
IS(MUNGAITE_BUILD_REST(PARTS | 1) + 1, UINT64_C(0xBA9876543212), 8);
IS(MUNGAITE_BUILD_REST(UINT64_MAX), UINT64_C(281474976710655), 8);
IS(MUNGAITE_STEP_CONDITION, 0, 4);
IS(MUNGAITE_STEP_SOURCE, 1, 4);
IS(MUNGAITE_STEP_DESTINATION, 2, 4);
IS(MUNGAITE_STEP_CLASS, 3, 4);
IS(MUNGAITE_STEP_ACTION, 4, 4);
IS(MUNGAITE_NO_RULES, 65535, 8);
IS(MUNGAITE_FIT + 1, UINT64_C(4294967297), 8);
IS(MUNGAITE_MOST_ROWS, 64, 4);
IS(MUNGAITE_ROW_NUMBERS, 6, 4);
IS(MUNGAITE_GROUP(0), 32768, 2);
IS(MUNGAITE_GROUP(0 ? 0 : 255), 33023, 2);
IS(MUNGAITE_SWITCH(4) + 1, 17, 4);
IS(MUNGAITE_SWITCH(0 ? 0 : 31), 2147483648, 4);
IS(MUNGAITE_OFF, 0, 1);
IS(MUNGAITE_ON, 1, 1);
IS(MUNGAITE_ON_SWITCH(0), 2, 1);
IS(MUNGAITE_ON_SWITCH(0 ? 0 : 31), 33, 1);
IS(MUNGAITE_GROUPS, 0, 4);
IS(MUNGAITE_RULES, 1, 4);
IS(MUNGAITE_CONSTRAINTS, 2, 4);
IS(MUNGAITE_LARGEST, 55561, 4);
IS(MUNGAITE_EMPTY, 9, 4);

/* Counts and lengths of the largest policy, and where its last records stand. */
enum { GROUPS = 256, RULES = 1024, CONSTRAINTS = 256, MEMBERS = 64, LISTED = 16 };
enum { GROUP_LENGTH = 130, ALLOW_LENGTH = 11, ROSTER_LENGTH = 43, LARGEST = 55561 };
enum { LAST_GROUP = 33159, LAST_RULE = 44542, LAST_CONSTRAINT = 55518, LAST_TYPE = 55559 };

static uint8_t largest[LARGEST], image[LARGEST], buffer[LARGEST + 1];
static char text[200000];

static int failures;

static void expect(int line, uint64_t got, uint64_t wanted)
{
    if (got != wanted) {
        printf("tests/header.c:%d: 0x%016llx, not 0x%016llx\n", line, (unsigned long long)got,
               (unsigned long long)wanted);
        failures++;
    }
}

#define EXPECT(got, wanted) expect(__LINE__, (uint64_t)(got), (uint64_t)(wanted))

/* An answer is the number of these parts, and the macros read them from it. */
static void says(int line, uint64_t answer, unsigned kind, unsigned third, unsigned fourth)
{
    expect(line, answer, kind * UINT64_C(4294967296) + third * UINT64_C(65536) + fourth);
    expect(line, MUNGAITE_KIND(answer), kind);
    expect(line, MUNGAITE_THIRD(answer), third);
    expect(line, MUNGAITE_FOURTH(answer), fourth);
}

#define SAYS(answer, kind, third, fourth) says(__LINE__, answer, kind, third, fourth)

/* The same of mungaite_build's answer. */
static void built(int line, uint64_t answer, unsigned refusal, uint64_t rest)
{
    expect(line, answer, refusal * UINT64_C(281474976710656) + rest);
    expect(line, MUNGAITE_BUILD_REFUSAL(answer), refusal);
    expect(line, MUNGAITE_BUILD_REST(answer), rest);
}

#define BUILT(answer, refusal, rest) built(__LINE__, answer, refusal, rest)

static uint8_t *put(uint8_t *at, unsigned number)
{
    *at++ = (uint8_t)(number / 256);
    *at++ = (uint8_t)(number % 256);
    return at;
}

static uint8_t *put_group(uint8_t *at, unsigned g)
{
    unsigned i;

    *at++ = GROUP_LENGTH;
    *at++ = 1;
    for (i = 0; i < MEMBERS; i++) {
        at = put(at, g + i);
    }
    return at;
}

static uint8_t *put_rule(uint8_t *at, unsigned r, unsigned group)
{
    *at++ = ALLOW_LENGTH;
    *at++ = 2;
    at = put(put(put(put(at, r), 32768 + group), 65535), r);
    *at++ = (uint8_t)(2 + r % 32);
    return at;
}

static uint8_t *put_constraint(uint8_t *at, unsigned c)
{
    unsigned i;

    *at++ = ROSTER_LENGTH;
    *at++ = 4;
    at = put(put(put(put(at, 65535), 768 + c), 768 + c), c);
    *at++ = 2;
    for (i = 0; i < LISTED; i++) {
        at = put(at, i);
    }
    return at;
}

/* The image of the first groups, rules and constraints, where rules name group `last` as group 0: its length. */
static size_t put_image(uint8_t *to, unsigned groups, unsigned rules, unsigned constraints, unsigned last)
{
    uint8_t *at = to + 9;
    unsigned n;

    for (n = 0; n < groups; n++) {
        at = put_group(at, n);
    }
    for (n = 0; n < rules; n++) {
        at = put_rule(at, n, n % GROUPS == last ? 0 : n % GROUPS);
    }
    for (n = 0; n < constraints; n++) {
        at = put_constraint(at, n);
    }
    to[0] = 1;
    put(put(put(put(to + 1, (unsigned)(at - to)), groups), rules), constraints);
    return (size_t)(at - to);
}

/* A query of the largest policy, under a word. */
static uint64_t ask(unsigned source, unsigned destination, unsigned class_, unsigned action, uint32_t word)
{
    return decide((uint16_t)source, (uint16_t)destination, (uint16_t)class_, (uint16_t)action, word, largest, LARGEST);
}

static void test_check(void)
{
    static const unsigned counts[] = {MUNGAITE_GROUPS, MUNGAITE_RULES, MUNGAITE_CONSTRAINTS};
    static const unsigned limits[] = {GROUPS, RULES, CONSTRAINTS};
    unsigned s;

    EXPECT(check(largest, MUNGAITE_LARGEST), 0);
    SAYS(check(largest, MUNGAITE_LARGEST - 1), MUNGAITE_REFUSED, 3, 0);
    put_image(image, 0, 0, 0, 0);
    EXPECT(check(image, MUNGAITE_EMPTY), 0);
    SAYS(check(image, MUNGAITE_EMPTY - 1), MUNGAITE_REFUSED, 1, 0);
    for (s = 0; s < 3; s++) {
        put_image(image, 0, 0, 0, 0);
        put(image + 3 + 2 * counts[s], limits[s] + 1);
        SAYS(check(image, MUNGAITE_EMPTY), MUNGAITE_REFUSED, 4, 3 + 2 * counts[s]);
    }
}

/* The last field of the largest image is no type: every function says so, and writes nothing. */
static void test_last_place(void)
{
    static const uint16_t row[] = {MUNGAITE_ROW(0, 0, 0, 0, 0)};
    uint64_t answer = 77;

    memcpy(image, largest, LARGEST);
    put(image + LAST_TYPE, 1024);
    memcpy(buffer, image, LARGEST);
    SAYS(check(image, LARGEST), MUNGAITE_REFUSED, 6, LAST_TYPE);
    SAYS(decide(0, 0, 0, 0, 0, image, LARGEST), MUNGAITE_REFUSED, 6, LAST_TYPE);
    SAYS(run(row, MUNGAITE_ROW_NUMBERS, &answer, 1, image, LARGEST), MUNGAITE_REFUSED, 6, LAST_TYPE);
    SAYS(record(MUNGAITE_GROUPS, 0, image, LARGEST), MUNGAITE_REFUSED, 6, LAST_TYPE);
    SAYS(add(buffer, LARGEST, largest + LAST_RULE, ALLOW_LENGTH), MUNGAITE_REFUSED, 6, LAST_TYPE);
    SAYS(convert(image, LARGEST, buffer, LARGEST), MUNGAITE_REFUSED, 6, LAST_TYPE);
    EXPECT(answer, 77);
    EXPECT(memcmp(buffer, image, LARGEST), 0);
}

static void test_records(void)
{
    static const unsigned sections[] = {MUNGAITE_GROUPS, MUNGAITE_RULES, MUNGAITE_CONSTRAINTS};
    static const unsigned past[] = {GROUPS, RULES, CONSTRAINTS, 65535};
    unsigned s, n;

    SAYS(record(MUNGAITE_GROUPS, 0, largest, LARGEST), MUNGAITE_PERMITTED, 9, GROUP_LENGTH);
    SAYS(record(MUNGAITE_GROUPS, 255, largest, LARGEST), MUNGAITE_PERMITTED, LAST_GROUP, GROUP_LENGTH);
    SAYS(record(MUNGAITE_RULES, 1023, largest, LARGEST), MUNGAITE_PERMITTED, LAST_RULE, ALLOW_LENGTH);
    SAYS(record(MUNGAITE_CONSTRAINTS, 255, largest, LARGEST), MUNGAITE_PERMITTED, LAST_CONSTRAINT, ROSTER_LENGTH);
    for (s = 0; s < 3; s++) {
        SAYS(record((uint16_t)sections[s], (uint16_t)past[s], largest, LARGEST), MUNGAITE_REFUSED, 14, 0);
    }
    for (n = 0; n < 4; n++) {
        SAYS(record(MUNGAITE_CONSTRAINTS + 1, (uint16_t)past[n], largest, LARGEST), MUNGAITE_REFUSED, 14, 0);
        SAYS(record((uint16_t)past[n], 0, largest, LARGEST), MUNGAITE_REFUSED, 14, 0);
    }
}

static void test_decisions(void)
{
    const uint32_t last = MUNGAITE_SWITCH(31);

    SAYS(ask(1023, 318, 65535, 1023, last), MUNGAITE_PERMITTED, 0, 1023);
    SAYS(ask(1023, MUNGAITE_GROUP(255), 65535, 1023, last), MUNGAITE_PERMITTED, 0, 1023);
    SAYS(ask(1023, 255, 65535, 1023, last), MUNGAITE_UNKNOWN, 1023, 255);
    SAYS(ask(1023, 318, 65535, 1022, last), MUNGAITE_NOT_PERMITTED, MUNGAITE_STEP_ACTION, 1023);
    SAYS(ask(1023, 318, 65534, 1023, last), MUNGAITE_NOT_PERMITTED, MUNGAITE_STEP_CLASS, 1023);
    SAYS(ask(1023, 319, 65535, 1023, last), MUNGAITE_NOT_PERMITTED, MUNGAITE_STEP_DESTINATION, 1023);
    SAYS(ask(1023, MUNGAITE_GROUP(254), 65535, 1023, last), MUNGAITE_NOT_PERMITTED, MUNGAITE_STEP_DESTINATION, 1023);
    SAYS(ask(MUNGAITE_GROUP(255), 318, 65535, 1023, last), MUNGAITE_NOT_PERMITTED, MUNGAITE_STEP_SOURCE, 31);
    SAYS(ask(1023, 318, 65535, 1023, 0), MUNGAITE_NOT_PERMITTED, MUNGAITE_STEP_CONDITION, 0);
    SAYS(ask(1024, 1024, 65535, 1023, last), MUNGAITE_REFUSED, 8, 0);
    SAYS(ask(MUNGAITE_GROUP(256), 318, 65535, 1023, last), MUNGAITE_REFUSED, 8, 0);
    SAYS(ask(1023, MUNGAITE_GROUP(256), 65535, 1023, last), MUNGAITE_REFUSED, 9, 0);
    put_image(image, GROUPS, 0, 0, 0);
    EXPECT(decide(MUNGAITE_GROUP(255), 0, 0, 0, 0, image, LAST_GROUP + GROUP_LENGTH), MUNGAITE_NO_RULES);
}

/* Each switch alone, and all others: rule 992 + k waits for switch k. Under the others the first rule that is on stops
 * at its source. */
static void test_switches(void)
{
    uint16_t rows[2][32 * MUNGAITE_ROW_NUMBERS];
    uint64_t answers[32];
    unsigned k;

    for (k = 0; k < 32; k++) {
        const uint16_t source = (uint16_t)(992 + k), destination = (uint16_t)(287 + k);
        const uint32_t alone = MUNGAITE_SWITCH(k), others = ~alone;
        const uint16_t on[] = {MUNGAITE_ROW(source, destination, 65535, source, others | alone)};
        const uint16_t single[] = {MUNGAITE_ROW(source, destination, 65535, source, 1 ? alone : 0)};
        const uint16_t left[] = {MUNGAITE_ROW(source, destination, 65535, source, others)};
        const uint16_t wanted[] = {source, destination, 65535, source, k < 16 ? 0 : (uint16_t)(1u << (k - 16)),
                                   k < 16 ? (uint16_t)(1u << k) : 0};

        EXPECT(sizeof single, sizeof wanted);
        EXPECT(memcmp(single, wanted, sizeof wanted), 0);
        SAYS(ask(source, destination, 65535, source, alone), MUNGAITE_PERMITTED, 0, source);
        SAYS(ask(source, destination, 65535, source, others), MUNGAITE_NOT_PERMITTED, MUNGAITE_STEP_SOURCE, k == 0);
        EXPECT(run(on, MUNGAITE_ROW_NUMBERS, answers, 1, largest, LARGEST), MUNGAITE_FIT);
        memcpy(rows[0] + MUNGAITE_ROW_NUMBERS * k, single, sizeof single);
        memcpy(rows[1] + MUNGAITE_ROW_NUMBERS * k, left, sizeof left);
    }
    EXPECT(run(rows[0], 32 * MUNGAITE_ROW_NUMBERS, answers, 32, largest, LARGEST), MUNGAITE_FIT);
    for (k = 0; k < 32; k++) {
        SAYS(answers[k], MUNGAITE_PERMITTED, 0, 992 + k);
    }
    SAYS(run(rows[1], 32 * MUNGAITE_ROW_NUMBERS, answers, 32, largest, LARGEST), MUNGAITE_NOT_PERMITTED, 0, 0);
    for (k = 0; k < 32; k++) {
        SAYS(answers[k], MUNGAITE_NOT_PERMITTED, MUNGAITE_STEP_SOURCE, k == 0);
    }
}

/* The most rows, of which the last is not Permitted, and one more. */
static void test_run(void)
{
    static const uint16_t fits[] = {MUNGAITE_ROW(1023, MUNGAITE_GROUP(255), 65535, 1023, MUNGAITE_SWITCH(31))};
    static const uint16_t fails[] = {MUNGAITE_ROW(1023, 255, 65535, 1023, MUNGAITE_SWITCH(31))};
    uint16_t rows[(MUNGAITE_MOST_ROWS + 1) * MUNGAITE_ROW_NUMBERS];
    uint64_t answers[MUNGAITE_MOST_ROWS + 1];
    const size_t numbers = MUNGAITE_MOST_ROWS * MUNGAITE_ROW_NUMBERS;
    unsigned n;

    for (n = 0; n <= MUNGAITE_MOST_ROWS; n++) {
        memcpy(rows + MUNGAITE_ROW_NUMBERS * n, n == 63 ? fails : fits, sizeof fits);
        answers[n] = 77;
    }
    SAYS(run(rows, numbers + MUNGAITE_ROW_NUMBERS, answers, MUNGAITE_MOST_ROWS + 1, largest, LARGEST), MUNGAITE_REFUSED,
         16, 0);
    SAYS(run(rows, 0, answers, 0, largest, LARGEST), MUNGAITE_REFUSED, 16, 0);
    SAYS(run(rows, numbers, answers, MUNGAITE_MOST_ROWS - 1, largest, LARGEST), MUNGAITE_REFUSED, 17, 0);
    SAYS(run(rows, numbers - 1, answers, MUNGAITE_MOST_ROWS, largest, LARGEST), MUNGAITE_REFUSED, 17, 0);
    EXPECT(answers[0], 77);
    SAYS(run(rows, numbers, answers, MUNGAITE_MOST_ROWS, largest, LARGEST), MUNGAITE_NOT_PERMITTED, 0, 63);
    SAYS(answers[62], MUNGAITE_PERMITTED, 0, 1023);
    SAYS(answers[63], MUNGAITE_UNKNOWN, 1023, 255);
    EXPECT(answers[64], 77);
    EXPECT(run(rows, numbers - MUNGAITE_ROW_NUMBERS, answers, 63, largest, LARGEST), MUNGAITE_FIT);
}

/* A record is added to an image that lacks just that one, in a buffer that just holds the new image. */
static void add_last(int line, size_t length, unsigned number, const uint8_t *part, size_t part_length)
{
    memcpy(image, buffer, length);
    says(line, add(buffer, length + part_length - 1, part, part_length), MUNGAITE_REFUSED, 13, 0);
    expect(line, memcmp(buffer, image, length), 0);
    says(line, add(buffer, length + part_length, part, part_length), MUNGAITE_PERMITTED, 0, number);
}

static void test_add(void)
{
    static const uint8_t other[] = {4, 1, 3, 255};
    uint8_t rule[ALLOW_LENGTH];

    buffer[LARGEST] = 77;
    add_last(__LINE__, put_image(buffer, 255, 0, 0, 0), 255, largest + LAST_GROUP, GROUP_LENGTH);
    EXPECT(memcmp(buffer + 9, largest + 9, GROUPS * GROUP_LENGTH), 0);
    add_last(__LINE__, put_image(buffer, GROUPS, 1023, CONSTRAINTS, GROUPS), 1023, largest + LAST_RULE, ALLOW_LENGTH);
    EXPECT(memcmp(buffer, largest, LARGEST), 0);
    add_last(__LINE__, put_image(buffer, GROUPS, RULES, 255, GROUPS), 255, largest + LAST_CONSTRAINT, ROSTER_LENGTH);
    EXPECT(memcmp(buffer, largest, LARGEST), 0);

    SAYS(add(buffer, MUNGAITE_LARGEST, other, sizeof other), MUNGAITE_REFUSED, 12, 0);
    SAYS(add(buffer, MUNGAITE_LARGEST, largest + LAST_GROUP, GROUP_LENGTH), MUNGAITE_REFUSED, 20, 0);
    SAYS(add(buffer, MUNGAITE_LARGEST, other, sizeof other - 1), MUNGAITE_REFUSED, 10, 0);
    memcpy(rule, largest + LAST_RULE, sizeof rule);
    rule[10] = MUNGAITE_ON_SWITCH(31);
    SAYS(add(buffer, MUNGAITE_LARGEST, rule, sizeof rule), MUNGAITE_REFUSED, 12, 0);
    rule[10] = MUNGAITE_ON_SWITCH(32);
    SAYS(add(buffer, MUNGAITE_LARGEST, rule, sizeof rule), MUNGAITE_REFUSED, 11, 10);
    EXPECT(memcmp(buffer, largest, LARGEST), 0);
    EXPECT(buffer[LARGEST], 77);
}

/* Rules 0 to 33 of a policy with each condition byte: off, on, and each switch. */
static void test_conditions(void)
{
    size_t length = put_image(buffer, 0, 0, 0, 0);
    uint8_t rule[ALLOW_LENGTH];
    unsigned n, k;

    for (n = 0; n < 34; n++) {
        put_rule(rule, n, 0);
        put(rule + 4, n);
        rule[10] = n == 0 ? MUNGAITE_OFF : n == 1 ? MUNGAITE_ON : MUNGAITE_ON_SWITCH(n - 2);
        SAYS(add(buffer, LARGEST, rule, sizeof rule), MUNGAITE_PERMITTED, 0, n);
        length += ALLOW_LENGTH;
    }
    SAYS(decide(0, 0, 65535, 0, 0xFFFFFFFF, buffer, length), MUNGAITE_NOT_PERMITTED, MUNGAITE_STEP_SOURCE, 1);
    SAYS(decide(1, 1, 65535, 1, 0, buffer, length), MUNGAITE_PERMITTED, 0, 1);
    for (k = 0; k < 32; k++) {
        const uint16_t n_ = (uint16_t)(2 + k);

        SAYS(decide(n_, n_, 65535, n_, MUNGAITE_SWITCH(k), buffer, length), MUNGAITE_PERMITTED, 0, n_);
        SAYS(decide(n_, n_, 65535, n_, ~MUNGAITE_SWITCH(k), buffer, length), MUNGAITE_NOT_PERMITTED,
             MUNGAITE_STEP_SOURCE, 1);
    }
}

/* The largest policy as text: the text's length. */
static size_t type_policy(void)
{
    char *at = text;
    unsigned n, i;

    for (n = 0; n < GROUPS; n++) {
        at += sprintf(at, "group");
        for (i = 0; i < MEMBERS; i++) {
            at += sprintf(at, " %u", n + i);
        }
        at += sprintf(at, "\n");
    }
    for (n = 0; n < RULES; n++) {
        at += sprintf(at, "allow %u g%u 65535 %u s%u\n", n, n % GROUPS, n, n % 32);
    }
    for (n = 0; n < CONSTRAINTS; n++) {
        at += sprintf(at, "limit 65535 %u %u %u 2 0 1 2 3 4 5 6 7 8 9 10 11 12 13 14 15\n", 768 + n, 768 + n, n);
    }
    return (size_t)(at - text);
}

static void test_build(void)
{
    const size_t length = type_policy(), first_row = strcspn(text, "\n");
    const uint8_t *bytes = (const uint8_t *)text;

    EXPECT(length > 65535, 1);
    memset(buffer, 77, sizeof buffer);
    BUILT(build(bytes, 0, buffer, MUNGAITE_EMPTY - 1), 13, 0);
    EXPECT(buffer[0], 77);
    BUILT(build(bytes, 0, buffer, MUNGAITE_EMPTY), 0, 9);
    BUILT(build(bytes, length, buffer, MUNGAITE_LARGEST), 0, 55561);
    EXPECT(memcmp(buffer, largest, LARGEST), 0);
    EXPECT(buffer[LARGEST], 77);
    strcpy(text + length, "group 1023");
    BUILT(build(bytes, length + 10, buffer, MUNGAITE_LARGEST), 12, length);
    strcpy(text + length, "group 0 1024");
    BUILT(build(bytes, length + 12, buffer, MUNGAITE_LARGEST), 11, length);
    strcpy(text + length, "allow 0 0 0 0 s32");
    BUILT(build(bytes, length + 17, buffer, MUNGAITE_LARGEST), 18, length);
    memcpy(text + length, text, first_row);
    BUILT(build(bytes, length + first_row, buffer, MUNGAITE_LARGEST), 20, length);
}

/* The largest image, whose last group is a twin of the first: it goes, and the rules that name it name the first. */
static void test_convert(void)
{
    memcpy(image, largest, LARGEST);
    put_group(image + LAST_GROUP, 0);
    SAYS(check(image, LARGEST), MUNGAITE_REFUSED, 19, LAST_GROUP);
    memset(buffer, 77, sizeof buffer);
    SAYS(convert(image, LARGEST, buffer, LARGEST - GROUP_LENGTH - 1), MUNGAITE_REFUSED, 13, 0);
    EXPECT(buffer[0], 77);
    SAYS(convert(image, LARGEST, buffer, LARGEST - GROUP_LENGTH), MUNGAITE_PERMITTED, 0, 55431);
    EXPECT(put_image(image, 255, RULES, CONSTRAINTS, 255), 55431);
    EXPECT(memcmp(buffer, image, 55431), 0);
    EXPECT(buffer[55431], 77);
    SAYS(convert(largest, LARGEST, buffer, LARGEST), MUNGAITE_PERMITTED, 0, MUNGAITE_LARGEST);
    EXPECT(memcmp(buffer, largest, LARGEST), 0);
}

int main(void)
{
    EXPECT(put_image(largest, GROUPS, RULES, CONSTRAINTS, GROUPS), LARGEST);
    test_check();
    test_last_place();
    test_records();
    test_decisions();
    test_switches();
    test_run();
    test_add();
    test_conditions();
    test_build();
    test_convert();
    return failures != 0;
}
