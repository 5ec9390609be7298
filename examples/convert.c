/*
 * A host in C: takes an image from the time when twins were accepted, converts it, and asks it with the groups' new
 * numbers.
 *
 *   cc -std=c99 -Wall -I include examples/convert.c target/staticlib/libmungaite.a -o target/convert-host
 */
#include "mungaite.h"

#include <stdio.h>
#include <string.h>

/* Groups 0 and 1 are twins: 1 goes, 2 becomes 1, and rules and constraints follow. */
static const uint8_t stored[] = {
    0x01, 0x00, 0x48, 0x00, 0x03, 0x00, 0x03, 0x00, 0x01,             /* 3 groups, 3 rules, 1 constraint */
    0x06, 0x01, 0x00, 0x14, 0x00, 0x15,                               /* group 0: 20, 21 */
    0x06, 0x01, 0x00, 0x14, 0x00, 0x15,                               /* group 1: 20, 21 */
    0x06, 0x01, 0x00, 0x1E, 0x00, 0x1F,                               /* group 2: 30, 31 */
    0x0B, 0x02, 0x00, 0x0A, 0x80, 0x01, 0x00, 0x05, 0x00, 0x01, 0x01, /* allow 10 to g1, 5, 1 */
    0x0B, 0x02, 0x00, 0x14, 0x80, 0x02, 0x00, 0x05, 0x00, 0x02, 0x01, /* allow 20 to g2, 5, 2 */
    0x08, 0x03, 0x00, 0x0C, 0x80, 0x00, 0x00, 0x05,                   /* transition 12 to g0 */
    0x0F, 0x04, 0x00, 0x05, 0x00, 0x01, 0x00, 0x0A, 0x80, 0x01, 0x02, /* roster on 10, g1: */
    0x00, 0x0A, 0x80, 0x02                                            /*     10, g2 */
};

/* As long as the stored image, which is always enough; and what stands in it before anything is written. */
static uint8_t buffer[sizeof stored];
#define UNTOUCHED 0x77

static void print_answer(uint64_t answer)
{
    unsigned third = MUNGAITE_THIRD(answer);
    unsigned fourth = MUNGAITE_FOURTH(answer);

    switch (MUNGAITE_KIND(answer)) {
    case MUNGAITE_NOT_PERMITTED:
        printf("NotPermitted\n");
        break;
    case MUNGAITE_PERMITTED:
        printf("Permitted, rule %u\n", fourth);
        break;
    case MUNGAITE_UNKNOWN:
        printf("UnKnown, rule %u, constraint %u\n", third, fourth);
        break;
    default:
        printf("refusal %u at place %u\n", third, fourth);
    }
}

/* How many groups an image has, and the place of group g: a record starts with its own length. */
static unsigned group_count(const uint8_t *image)
{
    return (unsigned)image[3] << 8 | image[4];
}

static const uint8_t *group(const uint8_t *image, unsigned g)
{
    const uint8_t *record = image + MUNGAITE_EMPTY;

    while (g-- > 0) {
        record += record[0];
    }
    return record;
}

/* The new number of an old group: that of the group with its members, of which there is one. */
static unsigned new_number(const uint8_t *old, unsigned g, const uint8_t *converted)
{
    const uint8_t *record = group(old, g);
    unsigned n = 0;

    while (n < group_count(converted) && memcmp(group(converted, n), record, record[0]) != 0) {
        n++;
    }
    return n;
}

/* Asks about a group by its old number. */
static void ask(uint16_t source, unsigned g, uint16_t class_, uint16_t action, size_t length)
{
    unsigned n = new_number(stored, g, buffer);

    printf("%u, g%u, %u, %u, now g%u: ", (unsigned)source, g, (unsigned)class_, (unsigned)action, n);
    print_answer(mungaite_decide(source, MUNGAITE_GROUP(n), class_, action, 0, buffer, length));
}

int main(void)
{
    uint8_t damaged[sizeof stored];
    uint64_t answer;
    size_t length, i;

    printf("the stored image: ");
    print_answer(mungaite_check(stored, sizeof stored));

    /* A buffer that cannot hold the new image, and an image that is refused for more than twins, leave it as it was. */
    memset(buffer, UNTOUCHED, sizeof buffer);
    memcpy(damaged, stored, sizeof stored);
    damaged[37] = 34;
    printf("into 65 bytes: ");
    print_answer(mungaite_convert(stored, sizeof stored, buffer, 65));
    printf("with condition 34: ");
    print_answer(mungaite_convert(damaged, sizeof damaged, buffer, sizeof buffer));
    for (i = 0; i < sizeof buffer && buffer[i] == UNTOUCHED; i++) {
    }
    printf("untouched: %u bytes of %u\n", (unsigned)i, (unsigned)sizeof buffer);

    answer = mungaite_convert(stored, sizeof stored, buffer, sizeof buffer);
    if (MUNGAITE_KIND(answer) == MUNGAITE_REFUSED) {
        print_answer(answer);
        return 1;
    }
    length = MUNGAITE_FOURTH(answer);
    printf("converted, %u bytes became %u\n", (unsigned)sizeof stored, (unsigned)length);
    printf("accepted: %s\n", mungaite_check(buffer, length) == 0 ? "yes" : "no");
    ask(10, 0, 5, 1, length);
    ask(10, 1, 5, 1, length);
    ask(20, 2, 5, 2, length);
    ask(12, 1, 9, 9, length);
    ask(10, 2, 5, 1, length);

    /* A twin cannot be added, and an image without twins comes out as it is. */
    printf("30, 31 added: ");
    print_answer(mungaite_add(buffer, sizeof buffer, group(stored, 2), 6));
    answer = mungaite_convert(buffer, length, damaged, sizeof damaged);
    printf("converted again: %s\n",
           MUNGAITE_FOURTH(answer) == length && memcmp(damaged, buffer, length) == 0 ? "the same" : "another");
    return 0;
}
