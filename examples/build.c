/*
 * A host in C: builds a policy from text and asks it, then shows the row that a refused text was refused for.
 *
 *   cc -std=c99 -Wall -I include examples/build.c target/staticlib/libmungaite.a -o target/build
 */
#include "mungaite.h"

#include <stdio.h>
#include <string.h>

/* The sample sheet, and a rule for the cleaning hour: it is on while switch 0 is. */
static const char sample[] =
    "group 20 21\n"
    "\n"
    "allow 10 g0 5 1 on\n"
    "allow 20 30 5 2 on\n"
    "trans 12 20 5\n"
    "allow 13 21 5 1 off\n"
    "allow 15 30 5 4 s0\n"
    "\n"
    "limit 5 1 10 21 2 10\n"
    "limit 5 2 20 30 1\n";

/* Texts with a row that is refused, for another cause each. */
static const char capital[] = "group 20 21\n\nallow 10 g0 5 1 on\nallow 20 30 5 2 On\ntrans 12 20 5\n";
static const char undefined[] = "allow 10 g0 5 1 on\ngroup 20 21\n";
static const char returns[] = "group 20 21\r\nallow 10 g0 5 1 on\r\n";
static const char no_switch[] = "group 20 21\nallow 15 30 5 4 s32\n";
static const char twin[] = "group 20 21\ngroup 22\ngroup 20 21\n";

static uint8_t buffer[MUNGAITE_LARGEST];

static void ask(uint16_t source, uint16_t destination, uint16_t class_, uint16_t action, uint32_t switches,
                const uint8_t *image, size_t length)
{
    uint64_t answer = mungaite_decide(source, destination, class_, action, switches, image, length);
    unsigned third = MUNGAITE_THIRD(answer);
    unsigned fourth = MUNGAITE_FOURTH(answer);

    printf("    %u, %u, %u, %u", (unsigned)source, (unsigned)destination, (unsigned)class_, (unsigned)action);
    printf("%s: ", switches & MUNGAITE_SWITCH(0) ? " in the cleaning hour" : "");
    switch (MUNGAITE_KIND(answer)) {
    case MUNGAITE_NOT_PERMITTED:
        printf("NotPermitted\n");
        break;
    case MUNGAITE_PERMITTED:
        printf("Permitted, rule %u\n", fourth);
        break;
    case MUNGAITE_UNKNOWN:
        printf("UnKnown, rule %u, constraint %u\n", third, fourth);
        break;
    default:
        printf("refusal %u at place %u\n", third, fourth);
    }
}

static const char *cause(unsigned refusal)
{
    switch (refusal) {
    case 11:
        return "a word breaks its rule";
    case 12:
        return "the section is full";
    case 13:
        return "the buffer is too short";
    case 20:
        return "a group row before has these members";
    default:
        return "the row is outside the form";
    }
}

/* Prints bytes on one line, those that cannot be shown by their numbers. */
static void print_row(const char *row, size_t length)
{
    size_t i;

    for (i = 0; i < length; i++) {
        if (row[i] >= ' ' && row[i] <= '~') {
            putchar(row[i]);
        } else {
            printf("\\x%02x", (unsigned)(unsigned char)row[i]);
        }
    }
}

/* Says which row was refused: the rows before it are counted by their line feeds. */
static void print_refused(const char *text, size_t length, unsigned refusal, size_t place)
{
    size_t row = 1, end = place, i;

    for (i = 0; i < place; i++) {
        row += text[i] == '\n';
    }
    while (end < length && text[end] != '\n') {
        end++;
    }
    printf("row %u, \"", (unsigned)row);
    print_row(text + place, end - place);
    printf("\": %s (refusal %u at place %u)\n", cause(refusal), refusal, (unsigned)place);
}

/* Builds a text in the buffer. A refused one leaves the image of the rows before, whose length is in bytes 1 and 2. */
static size_t build(const char *text)
{
    uint64_t answer = mungaite_build((const uint8_t *)text, strlen(text), buffer, sizeof buffer);

    if (MUNGAITE_BUILD_REFUSAL(answer) == 0) {
        printf("built, the image has %u bytes\n", (unsigned)MUNGAITE_BUILD_REST(answer));
        return (size_t)MUNGAITE_BUILD_REST(answer);
    }
    print_refused(text, strlen(text), MUNGAITE_BUILD_REFUSAL(answer), (size_t)MUNGAITE_BUILD_REST(answer));
    return (size_t)buffer[1] << 8 | buffer[2];
}

int main(void)
{
    static const uint8_t more[] = {0x0B, 0x02, 0x00, 0x0A, 0x00, 0x1E, 0x00, 0x05, 0x00, 0x03, 0x01};
    size_t length = build(sample);
    uint64_t answer;

    ask(10, MUNGAITE_GROUP(0), 5, 1, 0, buffer, length);
    ask(13, 21, 5, 1, 0, buffer, length);
    ask(12, 20, 9, 9, 0, buffer, length);
    ask(20, 30, 5, 2, 0, buffer, length);
    ask(15, 30, 5, 4, 0, buffer, length);
    ask(15, 30, 5, 4, MUNGAITE_SWITCH(0), buffer, length);

    /* What was built can be added to: allow 10 to 30, class 5, action 3, on. */
    answer = mungaite_add(buffer, sizeof buffer, more, sizeof more);
    if (MUNGAITE_KIND(answer) != MUNGAITE_PERMITTED) {
        printf("refusal %u\n", (unsigned)MUNGAITE_THIRD(answer));
        return 1;
    }
    length = (size_t)buffer[1] << 8 | buffer[2];
    printf("added rule %u, the image has %u bytes\n", (unsigned)MUNGAITE_FOURTH(answer), (unsigned)length);
    ask(20, 30, 5, 2, 0, buffer, length);

    length = build(capital);
    printf("the rows before make an image of %u bytes\n", (unsigned)length);
    ask(10, 21, 5, 1, 0, buffer, length);
    ask(20, 30, 5, 2, 0, buffer, length);

    build(undefined);
    build(returns);
    build(no_switch);
    build(twin);
    return 0;
}
