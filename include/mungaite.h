/*
 * Mungaite: permissions for a policy image, called from C.
 *
 * Each function answers with a 64-bit number. But for mungaite_build's, it has four 16-bit parts, the highest first:
 *
 *   0, 0, steps, rule          NotPermitted, and the rule that came nearest with the steps that it passed, 0 to 4
 *   0, 0, 0, 65535             NotPermitted by a policy without rules
 *   0, 1, 0, rule              Permitted
 *   0, 3, rule, constraint     UnKnown
 *   0, 2, number, place        a refusal
 *   0, 0, 0, 0                 from mungaite_check: accepted
 *   0, 1, place, length        from mungaite_record: where the record stands
 *   0, 1, 0, number            from mungaite_add: the new record's number
 *   0, 1, 0, length            from mungaite_convert: the new image's length
 *   0, 1, 0, 0                 from mungaite_run: fit, every row is Permitted
 *   0, 0, 0, row               from mungaite_run: not fit, and the first row that is not Permitted
 *
 * mungaite_build's answer has two parts, of 16 and of 48 bits, since a place in a text may be beyond 16:
 *
 *   0, length                  built, and the image's length
 *   number, place              a refusal
 *
 * So 0 is a success of mungaite_check alone. From mungaite_decide it is NotPermitted, with no step and rule 0, from
 * mungaite_run it says that row 0 is not Permitted, and mungaite_build never gives it. NotPermitted is many numbers:
 * look at a decision's MUNGAITE_KIND, and compare a run's answer with MUNGAITE_FIT.
 *
 * An allow rule is off, on, or waits for one of 32 switches, numbered 0 to 31. Each query says by its switch word which
 * switches are on: switch k where bit k is set, MUNGAITE_SWITCH(k). A rule that waits for switch k is on for queries
 * that have it on and off for all others, where it is to cover the query and where a constraint asks about the rules. In
 * a record the condition is the last byte, 0 off, 1 on, 2 to 33 for switches 0 to 31; a text says off, on, s0 to s31.
 *
 * Groups with the same members are twins, and no policy has any: an image with twins is refused (19, at the first group
 * that repeats an earlier one), and so is a twin that is to be added (20). Images from the time when twins were
 * accepted go through mungaite_convert once. A group of one member and that basic type are no twins.
 *
 * A pointer must be valid for the bytes, numbers or slots whose count is given with it. mungaite_add, mungaite_build
 * and mungaite_convert write to their buffers and mungaite_run to its answers; what they write must not overlap
 * anything else that is lent, and nothing else is written. A refused call writes nothing, but for mungaite_build's. The
 * functions keep nothing between calls and use no heap. They may be called from several threads, as long as nothing is
 * written by one thread while another uses it.
 */
#ifndef MUNGAITE_H
#define MUNGAITE_H

#include <stddef.h>
#include <stdint.h>

#ifdef __cplusplus
extern "C" {
#endif

/* The second part of an answer. */
#define MUNGAITE_NOT_PERMITTED 0 /* also: an image is accepted, a run is not fit */
#define MUNGAITE_PERMITTED 1     /* also: a record was found or added, an image converted, a run is fit */
#define MUNGAITE_REFUSED 2
#define MUNGAITE_UNKNOWN 3

/* The second, third and fourth part of an answer, but for mungaite_build's. The first is always 0. */
#define MUNGAITE_KIND(answer) ((uint16_t)(((answer) >> 32) & 0xFFFFu))
#define MUNGAITE_THIRD(answer) ((uint16_t)(((answer) >> 16) & 0xFFFFu))
#define MUNGAITE_FOURTH(answer) ((uint16_t)((answer) & 0xFFFFu))

/* The two parts of an answer of mungaite_build: the refusal's number, 0 where the image was built; and the image's
 * length, or the place in the text of the refused row's first byte. */
#define MUNGAITE_BUILD_REFUSAL(answer) ((uint16_t)((uint64_t)(answer) >> 48))
#define MUNGAITE_BUILD_REST(answer) ((uint64_t)(answer) & (((uint64_t)1 << 48) - 1))

/* A rule is put to a query in these steps, in this order; each one's value is how many come before it. So the third
 * part of NotPermitted, the steps that passed before the first that failed, is the step that failed. The rule named is
 * the lowest of those that pass the most. A rule that is off, by itself or by its switch, passes no step. A transition
 * always passes the first and has no class and no action step, so it stops at its source or its destination. */
#define MUNGAITE_STEP_CONDITION 0   /* the rule is on, by itself or by its switch */
#define MUNGAITE_STEP_SOURCE 1      /* the query's source is within the rule's */
#define MUNGAITE_STEP_DESTINATION 2 /* the query's destination is within the rule's */
#define MUNGAITE_STEP_CLASS 3       /* the query's class is the rule's */
#define MUNGAITE_STEP_ACTION 4      /* the query's action is the rule's; here it is all that is amiss */

/* The whole answer NotPermitted of a policy without rules. Where there are rules and all are off, the answer is 0. */
#define MUNGAITE_NO_RULES ((uint64_t)0xFFFFu)

/* The whole answer of mungaite_run where every row is Permitted, and the most rows that it takes. */
#define MUNGAITE_FIT ((uint64_t)MUNGAITE_PERMITTED << 32)
#define MUNGAITE_MOST_ROWS 64

/* A row of mungaite_run as its six numbers, to be written in a list of them. */
#define MUNGAITE_ROW_NUMBERS 6
#define MUNGAITE_ROW(source, destination, class_, action, switches)                                                    \
    (source), (destination), (class_), (action), (uint16_t)((uint32_t)(switches) >> 16), (uint16_t)(switches)

/* The type field of group g. A basic type, 0 to 1023, is its own type field. */
#define MUNGAITE_GROUP(g) ((uint16_t)(0x8000u + (g)))

/* Switch k, 0 to 31, in a switch word: 0 is no switch, and several are put together with |. */
#define MUNGAITE_SWITCH(k) ((uint32_t)1 << (k))

/* The condition byte of an allow rule. */
#define MUNGAITE_OFF ((uint8_t)0)
#define MUNGAITE_ON ((uint8_t)1)
#define MUNGAITE_ON_SWITCH(k) ((uint8_t)(2 + (k))) /* on while switch k is */

/* The sections of an image. */
#define MUNGAITE_GROUPS 0
#define MUNGAITE_RULES 1
#define MUNGAITE_CONSTRAINTS 2

/* The lengths, in bytes, of the largest image that is accepted and of the empty policy. */
#define MUNGAITE_LARGEST 55561
#define MUNGAITE_EMPTY 9

/* Checks an image: 0 where it is accepted, else the refusal (1 to 7, 19). */
uint64_t mungaite_check(const uint8_t *image, size_t length);

/* Checks the image and decides a query on it, while the switches of the word `switches` are on: the decision, or the
 * refusal (1 to 7, 19, then 8, 9). Where it is NotPermitted and not MUNGAITE_NO_RULES, mungaite_record finds the rule
 * that came nearest. */
uint64_t mungaite_decide(uint16_t source, uint16_t destination, uint16_t class_, uint16_t action, uint32_t switches,
                         const uint8_t *image, size_t length);

/* Checks the image once and decides 1 to 64 rows on it. A row is six numbers: source, destination, class, action, and
 * the high and the low half of its switch word (MUNGAITE_ROW); `numbers` counts all of them, and `rows` the slots of
 * the answers. Slot k gets what mungaite_decide gives for row k, a refusal (8 or 9) included, and all rows are
 * answered. The answer is MUNGAITE_FIT where every row is Permitted, else the number of the first row that is
 * NotPermitted, UnKnown or refused, counted from 0. The call itself is refused where the image is (1 to 7, 19), then
 * where there is no whole row or more than 64 (16), then where `numbers` is not 6 times `rows` (17); no slot is written
 * then, so each holds what it held before. */
uint64_t mungaite_run(const uint16_t *queries, size_t numbers, uint64_t *answers, size_t rows, const uint8_t *image,
                      size_t length);

/* Checks the image and finds record n of a section: its place and length, or the refusal (1 to 7, 19, then 14). A
 * section above 2 has no record. */
uint64_t mungaite_record(uint16_t section, uint16_t n, const uint8_t *image, size_t length);

/* Adds a record to the image that the buffer starts with, in place, at the end of the record's section: the record's
 * number, or the refusal (1 to 7, 19, then 10, 11, 20, 12, 13) and no byte is changed. A group whose members are those
 * of one that is there gives 20, also where the section is full. The new image's length stands in bytes 1 and 2; the
 * bytes past it stay as they were. */
uint64_t mungaite_add(uint8_t *buffer, size_t length, const uint8_t *record, size_t record_length);

/* Builds a policy from text, at the front of the buffer: the image's length, or the refusal (18, 11, 20, 12, 13) and
 * the place of the refused row. Look at MUNGAITE_BUILD_REFUSAL, then at MUNGAITE_BUILD_REST.
 *
 * Each row of the text is a record, which is added to the empty policy as mungaite_add adds it:
 *
 *   group 20 21               members, 1 to 64
 *   allow 10 g0 5 1 on        source, destination, class, action, condition
 *   trans 12 20 5             source, destination, class
 *   limit 5 1 10 21 2 10      class, action, first and second argument, predicate, list of 0 to 16 types
 *
 *   word                      the form, else 18            its rule, else 11
 *   member                    0 to 32767                   0 to 1023, and above the one before it
 *   source, destination,      0 to 32767, or               0 to 1023, or a group whose row stands before; group rows
 *     argument, list type       g0 to g32767                 are g0, g1 and so on, in their order
 *   class, action             0 to 65535                   any
 *   predicate                 0 to 255                     0 ban, 1 separation, 2 roster, 3 companion; a roster has a
 *                                                            list of 1 to 16 types, the others have none
 *   condition                 on, off, or s0 to s31        any
 *
 * One space separates words, and none stands at a row's ends. Numbers are decimal, without sign or leading zeros. A row
 * ends at a line feed or at the end of the text, where no NUL is wanted. An empty row is skipped. There are no
 * comments, tabs, carriage returns or byte order marks.
 *
 * Rows are added in order up to the first that is refused, for the first of these that is true of it. The place is that
 * of the row's first byte: with n line feeds before it, it is row n + 1 of the text.
 *
 *   18  the row is outside the form
 *   11  a word breaks its rule
 *   20  a group row with the members of a group row before it
 *   12  the policy has 256 groups, 1024 rules (allow, trans) or 256 constraints (limit) already
 *   13  the buffer is too short for one more record; MUNGAITE_LARGEST bytes hold every policy
 *
 * A refused text leaves the image of the rows before at the buffer's front, whole, with its length in bytes 1 and 2:
 * what stood there is gone. Do not decide by it, since the limits of later rows are not in it; to keep the policy in
 * use, build the next one in another buffer. But a buffer under MUNGAITE_EMPTY bytes is left as it was, with 13 at
 * place 0, whatever the text. The bytes past the image stay as they were, on a refusal too. */
uint64_t mungaite_build(const uint8_t *text, size_t text_length, uint8_t *buffer, size_t length);

/* Writes an image without its twins to the front of the buffer: the new image's length, or the refusal (1 to 7, then 13
 * where the buffer cannot hold the new image) and no byte is changed. The bytes past the new image stay as they were.
 *
 * The image is checked but for its twins; this function alone takes them. Of the groups with the same members the
 * lowest stays and the others go, later groups move down, and each rule and each constraint names the groups by their
 * new numbers. Rules and constraints keep theirs. An image without twins comes out byte for byte. A buffer as long as
 * the image is always enough. A group's new number is the number of the group in the new image that has its members: a
 * query whose groups are changed to their new numbers gets the answer that it got before. */
uint64_t mungaite_convert(const uint8_t *image, size_t length, uint8_t *buffer, size_t buffer_length);

#ifdef __cplusplus
}
#endif

#endif
