/* farigolenc: run records and live coding of ratios, as docs/FORMAT.md says.
 *
 * A run is a rate, a side of the disc (1 to 26, or 0 for none), a list of
 * positions (0 to 2^62 - 1) and as many ratios, at most 4096 of each. A ratio is
 * the 64 bits of an IEEE 754 double; all calls work on the bits, so that 0 and -0
 * differ and every not-a-number is kept. Rates are 44100, 48000, 88200, 96000,
 * 176400 and 192000. A record that is written has 18 to 61709 bytes. Its fields
 * are the rate's, where the side is not 0 the side's, the count's, the positions'
 * and the ratios'.
 *
 * A record has one of two forms, which the tag of its positions' field tells. The
 * old form, tag 3, has no code for a step outside -2^31 + 1 to 2^31, such as a
 * long pause makes; its records have at most 55325 bytes. The wide form, tag 5,
 * has a code for each step between positions, and takes at most 3500 points. A run
 * that both forms take has a record in each, and farigolenc_to_wide and
 * farigolenc_to_old make each out of the other. A span, live addition, stepping and
 * an explanation know of no form, and their limit is 4096. The calls that compare
 * have no limit: they are given what was read, and take lists of any length.
 *
 * A record is read in two parts. farigolenc_check says by one number whether it is
 * sound, and how long it is; farigolenc_describe says the same, and its rate, side,
 * count and form. farigolenc_fetch gives the points. The first two are lent no output,
 * and none needs another before it.
 *
 * The answer of a call that can refuse begins with a number, 0 for success or the
 * number of a refusal, and a place, 0 on success; farigolenc_check puts both into
 * one number:
 *
 *   no.  given when                                            place
 *    1   rate not in the list                                  0
 *    2   as many ratios as positions are not given             0
 *    3   more than 4096 points, or 3500 in the wide form       0
 *    4   a position above 2^62 - 1                             first such index
 *    5   old form: a step outside -2^31 + 1 to 2^31            first such index
 *    6   output shorter than what would be written             0
 *    7   a kept state is bad                                   0
 *    8   stepping: all given, body used up                     0
 *   10   bytes end inside a field                              field
 *   11   wrong tag                                             field
 *   12   a rate not 4 long, a count not 2, or a side not 1     field
 *   13   rate in the record not in the list                    field
 *   14   a rate was expected (not 0) and differs               field
 *   15   count above 4096, or 3500 in the wide form            field, or 0 in
 *                                                              making a reader
 *   16   an output has room for fewer than count numbers       field
 *   17   the positions' field is not the coding of count       field
 *        positions
 *   18   the ratios' field is not the coding (or open form)    field, or 0 in
 *        of count ratios                                       stepping
 *   20   side in the record not 1 to 26                        field
 *   21   side above 26                                         0
 *   22   an index not below the number of ratios               0
 *
 * Indices count from 0; the step at index n is
 * (t[n] - t[n-1]) - (t[n-1] - t[n-2]). "Field" is the offset of the field's tag
 * in the record; for 15 it is always that of the count's field.
 *
 * On success an output keeps what it held past the part that was written. On a
 * refusal every other returned number is 0, but for which of two records it was; a
 * kept state is unchanged, and all outputs are 0 from end to end.
 *
 * What a caller owes: each pointer is not null and is aligned for its type,
 * also where the length beside it is 0; the whole length, counted in elements,
 * is valid to read, and for outputs and the live state valid to write; what a
 * call writes overlaps nothing else that is lent to it, and no other thread
 * uses it meanwhile. Outputs may hold anything before the call.
 *
 * No call allocates memory. Of the stack check, describe, fetch and the moves take
 * about 6 KiB, open reading 5, writing 3, a live addition 4 and a step 7 with the
 * states that are handed over, and the others less; a test holds each to 8 KiB.
 *
 * What no input can do: where that is kept, no record, number or state, however
 * damaged or made up, makes a call read or write memory that was not lent to
 * it, stop the program, or fail to return. Answers depend on the arguments
 * alone; nothing is kept between calls but the states below.
 */

#ifndef FARIGOLENC_H
#define FARIGOLENC_H

/* The version of this header. The major number grows by one, and the minor goes
 * back to 0, when something that stands here changes or goes, so that a program
 * must be looked at and compiled again; the minor grows by one when something is
 * added. Records have no version. */
#define FARIGOLENC_VERSION_MAJOR 5
#define FARIGOLENC_VERSION_MINOR 0

#include <stddef.h>
#include <stdint.h>

#ifdef __cplusplus
extern "C" {
#endif

/* Largest side, and largest number of points, points in the wide form, ratios in a
 * window, bytes in a record that farigolenc_write or a move writes, and bytes that
 * farigolenc_live_add writes. */
#define FARIGOLENC_SIDES 26
#define FARIGOLENC_POINTS 4096
#define FARIGOLENC_WIDE_POINTS 3500
#define FARIGOLENC_WINDOW 127
#define FARIGOLENC_RECORD 61709
#define FARIGOLENC_RATIO_FORM 9

/* The forms of a record, by the tag of the positions' field. */
#define FARIGOLENC_OLD 3
#define FARIGOLENC_WIDE 5

/* Writes the record of a run; with side 0 it has no field for the side. A `form`
 * of FARIGOLENC_WIDE is the wide form, and every other number is the old one, so
 * that the form of an answer can be handed back. Tests 1, 21, then 2 to 6 in order:
 * 3 with the limit of the form, and 5 in the old form alone. */
typedef struct {
    uint32_t number, place;
    uint64_t length; /* bytes written */
} farigolenc_write_answer;

farigolenc_write_answer farigolenc_write(
    uint32_t rate, uint32_t side, uint32_t form,
    const uint64_t *positions, size_t positions_length,
    const uint64_t *ratios, size_t ratios_length,
    uint8_t *out, size_t out_length);

/* Whether the record at the start of `record` is sound, that is, what farigolenc_write
 * writes for some run; bytes after it are not looked at. `expected` is the rate that
 * the record must have, or 0 for any. Takes records of both forms. No output is lent.
 *
 * The answer is one number. Of a sound record it is the size, the bytes of the record:
 * 18 to FARIGOLENC_RECORD. Else it is 65536 times the number of the refusal plus the
 * place, so 655360 or more. It is never 0:
 *
 *   checked < 65536    a sound record of so many bytes
 *   checked / 65536    else the number of the refusal
 *   checked % 65536    and its place
 *
 * Takes the fields in order, and in each tests 10 (head), 11, 12, 10 (body), then its
 * contents: 13 and 14 of the rate, 20 of the side, 15 (above 4096) of the count, 17 of
 * the positions, 18 of the ratios. In the wide form 15 is tested once more, with 3500,
 * straight after 11 of the positions' field and before its body. Of the stack it takes
 * about 6 KiB, whatever the count is. */
uint32_t farigolenc_check(
    uint32_t expected,
    const uint8_t *record, size_t record_length);

/* What farigolenc_check answers, in full, with the same tests and as much stack. */
typedef struct {
    uint32_t number, place;
    uint32_t rate;
    uint32_t side; /* 0 where the record has no field for it */
    uint32_t count;
    uint32_t form; /* FARIGOLENC_OLD or FARIGOLENC_WIDE; 0 on a refusal */
    uint64_t size; /* bytes of the record */
} farigolenc_describe_answer;

farigolenc_describe_answer farigolenc_describe(
    uint32_t expected,
    const uint8_t *record, size_t record_length);

/* Fills the outputs with the positions and the ratios of a sound record, as many as its
 * count; room for FARIGOLENC_POINTS numbers is always enough. No other call need come
 * before it: it tests all that farigolenc_check tests, in the same order, and 16 straight
 * after 15 (above 4096) of the count, before the positions' field. So it refuses by 16,
 * or else as the check does, with the same number and place. A wide record that states
 * 3501 to 4096 points is refused by 16 where an output is too short for them, and else
 * by 15. A program for a header before 5.0 that called farigolenc_read_strict calls
 * this and farigolenc_describe. */
typedef struct {
    uint32_t number, place;
    uint32_t count;
} farigolenc_fetch_answer;

farigolenc_fetch_answer farigolenc_fetch(
    uint32_t expected,
    const uint8_t *record, size_t record_length,
    uint64_t *positions, size_t positions_length,
    uint64_t *ratios, size_t ratios_length);

/* Reads a record openly: any open form is accepted in the ratios' field, also one that
 * farigolenc_write would not write. The tests and their order are those of
 * farigolenc_fetch, and the outputs are filled as by it; the answer has what
 * farigolenc_describe answers, with the size as `used`. */
typedef struct {
    uint32_t number, place;
    uint32_t rate;
    uint32_t side; /* 0 where the record has no field for it */
    uint32_t count;
    uint32_t form; /* FARIGOLENC_OLD or FARIGOLENC_WIDE; 0 on a refusal */
    uint64_t used; /* bytes of the record */
} farigolenc_read_answer;

farigolenc_read_answer farigolenc_read_open(
    uint32_t expected,
    const uint8_t *record, size_t record_length,
    uint64_t *positions, size_t positions_length,
    uint64_t *ratios, size_t ratios_length);

/* Moves a record to the other form: farigolenc_to_wide one that is in the old form,
 * farigolenc_to_old one that is in the wide form. The run in it stays the same: rate,
 * side, positions and ratios. A record that is moved there and back comes out byte
 * for byte as it was, where both moves are accepted. Bytes after the record are not
 * looked at and not carried over, and the output may not overlap the record.
 *
 * Tests those of farigolenc_check in their order, with no rate expected. The tag of
 * the form moved to is a wrong one: 11 at the positions' field, before 15 of the wide
 * form and before the body. After the whole record toward the wide form 3, above 3500
 * points, and toward the old form 5; then 6, by the length of the record that would
 * be written.
 *
 * That one may be longer than the one read; FARIGOLENC_RECORD bytes are always room
 * enough. On a refusal the output is 0 from end to end, also where a part of the
 * record was written already. Of the stack a move takes about as much as
 * farigolenc_check, whatever the count is. */
typedef struct {
    uint32_t number, place;
    uint64_t length; /* bytes written */
    uint64_t used;   /* bytes of the record that was read */
} farigolenc_move_answer;

farigolenc_move_answer farigolenc_to_wide(
    const uint8_t *record, size_t record_length,
    uint8_t *out, size_t out_length);

farigolenc_move_answer farigolenc_to_old(
    const uint8_t *record, size_t record_length,
    uint8_t *out, size_t out_length);

/* The time from the first position to the last, rounded down to the whole
 * millisecond below: at 48000 16 samples forwards are 0, and backwards -1; 48
 * backwards are -1, and 49 are -2. It is 0 for no position or one. Tests 1, 3 and
 * 4, the last over all positions. Before version 4.0 it was rounded toward zero. */
typedef struct {
    uint32_t number, place;
    int64_t milliseconds;
} farigolenc_span_answer;

farigolenc_span_answer farigolenc_span(
    uint32_t rate,
    const uint64_t *positions, size_t positions_length);

/* The state of live coding. The cells hold the window, oldest ratio first; those
 * from `fill` on mean nothing. A state is bad, and refused by 7, if `fill` is
 * not the smaller of 127 and `seen`, or `seen` is above 4096. */
typedef struct {
    uint64_t ratios[FARIGOLENC_WINDOW];
    uint64_t fill;
    uint64_t seen; /* ratios added so far */
} farigolenc_live;

/* A fresh state, all zeros. */
farigolenc_live farigolenc_live_new(void);

/* Writes the bytes of one more ratio (1 to 9) and adds it to the window: with
 * room the cell at `fill` takes it, else all cells move down by one and the last
 * takes it. The bytes of successive additions, joined, are the body of the
 * ratios' field. Tests 7, 3 (where 4096 were seen) and 6. */
farigolenc_write_answer farigolenc_live_add(
    farigolenc_live *state,
    uint64_t ratio,
    uint8_t *out, size_t out_length);

/* The state of stepping through the body of a ratios' field, with the window as
 * in farigolenc_live. A state is bad, and refused by 7, if `fill` is not the
 * smaller of 127 and `seen`, `seen` is above `count`, `count` is above 4096, or
 * `place` is past the body. */
typedef struct {
    uint64_t place; /* offset in the body */
    uint64_t count; /* ratios that the body should give */
    uint64_t seen;  /* ratios given so far */
    uint64_t ratios[FARIGOLENC_WINDOW];
    uint64_t fill;
} farigolenc_cursor;

/* A fresh state for a body of `count` ratios. Tests 15, and on a refusal gives
 * the fresh state of count 0. */
typedef struct {
    uint32_t number, place;
    farigolenc_cursor cursor;
} farigolenc_cursor_answer;

farigolenc_cursor_answer farigolenc_cursor_new(uint64_t count);

/* Reads the next ratio, strictly: only a form that would be written. `next` is the
 * state after it, and on a refusal the state that was given. Tests 7; where `count`
 * were given, 8 if the body is used up, else 18; before that, 18 if the bytes at
 * `place` begin with no ratio form that would be written for a next ratio. */
typedef struct {
    uint32_t number, place;
    uint64_t ratio;
    farigolenc_cursor next;
} farigolenc_step_answer;

farigolenc_step_answer farigolenc_step(
    const uint8_t *body, size_t body_length,
    farigolenc_cursor cursor);

/* What kind of double a ratio is. Never refuses. */
#define FARIGOLENC_NUMBER 0
#define FARIGOLENC_INFINITY 1
#define FARIGOLENC_NAN 2

typedef struct {
    uint32_t kind;
    uint32_t negative; /* 1 for a negative infinity, else 0 */
    double value;      /* of a number, else 0 */
    uint64_t bits;     /* of a not-a-number, else 0 */
} farigolenc_kind_answer;

farigolenc_kind_answer farigolenc_kind(uint64_t ratio);

/* Why the ratio at `index` has the bytes that farigolenc_write gives it. Its
 * window is the last 127 ratios before it, or all of them where they are fewer;
 * place 0 is the ratio just before it. The sum for a ratio of the window is the
 * number of leading zero bytes plus the number of trailing ones of its bits xor
 * those of the ratio at `index`.
 *
 *   reason                    what holds of the window             bytes
 *   FARIGOLENC_REFERENCE      `at` is the smallest place with an   1
 *                             equal ratio
 *   FARIGOLENC_XOR            none is equal; `at` is the smallest  3 to 8
 *                             place with the largest sum, which
 *                             is 2 or more
 *   FARIGOLENC_EXCEPTION      none is equal; the largest sum, 0    9
 *                             or 1, is `sum`
 *   FARIGOLENC_EMPTY_WINDOW   it is empty: `index` is 0            9
 *
 * A member that a reason does not have is 0. Ratios after `index`, and those
 * more than 127 before it, have no part in the answer. Tests 3 and 22. */
#define FARIGOLENC_REFERENCE 1
#define FARIGOLENC_XOR 2
#define FARIGOLENC_EXCEPTION 3
#define FARIGOLENC_EMPTY_WINDOW 4

typedef struct {
    uint32_t number, place;
    uint32_t reason;            /* 0 on a refusal */
    uint32_t at;                /* place in the window */
    uint32_t leading, trailing; /* zero bytes, for FARIGOLENC_XOR */
    uint32_t sum;               /* for FARIGOLENC_XOR leading + trailing */
} farigolenc_explain_answer;

farigolenc_explain_answer farigolenc_explain(
    const uint64_t *ratios, size_t ratios_length,
    uint64_t index);

/* What differs between two records, the first and the second:
 *
 *   1. Give what farigolenc_describe answers of each, with no rate expected, to
 *      farigolenc_compare_overall.
 *   2. Where that refuses nothing, fetch the points of each by farigolenc_fetch, with no
 *      rate expected, into outputs of its own that have room for its count.
 *   3. Ask farigolenc_compare_positions and then farigolenc_compare_ratios at each index
 *      below both counts, from 0 up.
 *
 * Everything that differs is answered once, and nothing that is equal. Two records of
 * the same bytes have no difference, whatever follows either; any others have at
 * least one.
 *
 *   what                            `first` and `second`
 *   FARIGOLENC_NO_DIFFERENCE        0
 *   FARIGOLENC_DIFFERENT_RATE       rates
 *   FARIGOLENC_DIFFERENT_SIDE       sides, 0 for none
 *   FARIGOLENC_DIFFERENT_COUNT      numbers of points
 *   FARIGOLENC_DIFFERENT_FORM       forms, FARIGOLENC_OLD or FARIGOLENC_WIDE
 *   FARIGOLENC_DIFFERENT_POSITION   positions at `index`
 *   FARIGOLENC_DIFFERENT_RATIO      ratios at `index`, 64 bits each
 *   FARIGOLENC_MORE_POINTS          how many points only the longer run has, and 0
 *
 * The kinds are what farigolenc_kind answers of each ratio. A member that a difference
 * does not have is 0, in a kind every member, so that `what` alone tells. */
#define FARIGOLENC_NO_DIFFERENCE 0
#define FARIGOLENC_DIFFERENT_RATE 1
#define FARIGOLENC_DIFFERENT_SIDE 2
#define FARIGOLENC_DIFFERENT_COUNT 3
#define FARIGOLENC_DIFFERENT_FORM 4
#define FARIGOLENC_DIFFERENT_POSITION 5
#define FARIGOLENC_DIFFERENT_RATIO 6
#define FARIGOLENC_MORE_POINTS 7

typedef struct {
    uint32_t what;
    uint64_t index; /* of a position or a ratio */
    uint64_t first, second;
    farigolenc_kind_answer first_kind, second_kind; /* of ratios */
} farigolenc_difference_answer;

/* The differences that are of no index, by what farigolenc_describe answered of each
 * record. Where it refused a record this refuses with the same number and place, the
 * first record before the second; `which` says which it was, and every difference is
 * 0. After step 1 that is not 14. Tests nothing else: an answer that no call gave is
 * taken as it stands. The sizes have no part in it. */
typedef struct {
    uint32_t number, place;
    uint32_t which; /* the record that was refused, 1 or 2; else 0 */
    farigolenc_difference_answer rate, side, count, form;
    farigolenc_difference_answer more; /* points that only the longer run has */
} farigolenc_overall_answer;

farigolenc_overall_answer farigolenc_compare_overall(
    farigolenc_describe_answer first,
    farigolenc_describe_answer second);

/* The difference between two runs' positions, or ratios, at `index`. Lent are those
 * that were fetched, the first `count` numbers of each output and no more: past them an
 * output holds what it held before. At an index that not both have there is no
 * difference. Never refuses. */
farigolenc_difference_answer farigolenc_compare_positions(
    const uint64_t *first, size_t first_length,
    const uint64_t *second, size_t second_length,
    uint64_t index);

farigolenc_difference_answer farigolenc_compare_ratios(
    const uint64_t *first, size_t first_length,
    const uint64_t *second, size_t second_length,
    uint64_t index);

#ifdef __cplusplus
}
#endif

#endif
