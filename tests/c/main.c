/* Calls every function of farigolenc.h from C99: writes a run in both forms, checks
 * it, fetches its points, reads it openly, moves it from each form to the other,
 * adds its ratios live, steps through them, explains each, lays records side by
 * side, and tries sides, forms, kinds, spans, reasons and refusals. Prints "ok" and
 * returns 0, or says what differs and returns 1. */

#include "farigolenc.h"

#include <stdio.h>
#include <string.h>

#define POINTS 300
#define SIDE 3
#define ROOM (POINTS + 5)
#define DIRT 0xA5
#define LAST_POSITION ((UINT64_C(1) << 62) - 1)

/* The states have no padding. */
typedef char live_is_packed[sizeof(farigolenc_live) == 129 * 8 ? 1 : -1];
typedef char cursor_is_packed[sizeof(farigolenc_cursor) == 131 * 8 ? 1 : -1];

/* The members of a reading's answer stand in the order of the header. */
typedef char rate_is_third[offsetof(farigolenc_read_answer, rate) == 8 ? 1 : -1];
typedef char side_is_fourth[offsetof(farigolenc_read_answer, side) == 12 ? 1 : -1];
typedef char count_is_fifth[offsetof(farigolenc_read_answer, count) == 16 ? 1 : -1];
typedef char form_is_sixth[offsetof(farigolenc_read_answer, form) == 20 ? 1 : -1];
typedef char used_is_last[offsetof(farigolenc_read_answer, used) == 24 ? 1 : -1];
typedef char reading_is_32_bytes[sizeof(farigolenc_read_answer) == 32 ? 1 : -1];

/* So do those of describe and of fetch. */
typedef char described_rate[offsetof(farigolenc_describe_answer, rate) == 8 ? 1 : -1];
typedef char described_side[offsetof(farigolenc_describe_answer, side) == 12 ? 1 : -1];
typedef char described_count[offsetof(farigolenc_describe_answer, count) == 16 ? 1 : -1];
typedef char described_form[offsetof(farigolenc_describe_answer, form) == 20 ? 1 : -1];
typedef char size_is_last[offsetof(farigolenc_describe_answer, size) == 24 ? 1 : -1];
typedef char described_is_32_bytes[sizeof(farigolenc_describe_answer) == 32 ? 1 : -1];
typedef char fetched_count_is_last[offsetof(farigolenc_fetch_answer, count) == 8 ? 1 : -1];
typedef char fetched_is_12_bytes[sizeof(farigolenc_fetch_answer) == 12 ? 1 : -1];

/* So do those of a move's. */
typedef char length_is_third[offsetof(farigolenc_move_answer, length) == 8 ? 1 : -1];
typedef char moved_used_is_last[offsetof(farigolenc_move_answer, used) == 16 ? 1 : -1];
typedef char moved_is_24_bytes[sizeof(farigolenc_move_answer) == 24 ? 1 : -1];

/* And those of a comparison's. */
typedef char index_is_second[offsetof(farigolenc_difference_answer, index) == 8 ? 1 : -1];
typedef char first_is_third[offsetof(farigolenc_difference_answer, first) == 16 ? 1 : -1];
typedef char second_is_fourth[offsetof(farigolenc_difference_answer, second) == 24 ? 1 : -1];
typedef char kind_is_fifth[offsetof(farigolenc_difference_answer, first_kind) == 32 ? 1 : -1];
typedef char kind_is_last[offsetof(farigolenc_difference_answer, second_kind) == 56 ? 1 : -1];
typedef char difference_is_80_bytes[sizeof(farigolenc_difference_answer) == 80 ? 1 : -1];
typedef char which_is_third[offsetof(farigolenc_overall_answer, which) == 8 ? 1 : -1];
typedef char first_difference[offsetof(farigolenc_overall_answer, rate) == 16 ? 1 : -1];
typedef char side_is_second[offsetof(farigolenc_overall_answer, side) == 96 ? 1 : -1];
typedef char count_is_third[offsetof(farigolenc_overall_answer, count) == 176 ? 1 : -1];
typedef char form_is_fourth[offsetof(farigolenc_overall_answer, form) == 256 ? 1 : -1];
typedef char more_is_last[offsetof(farigolenc_overall_answer, more) == 336 ? 1 : -1];
typedef char overall_is_416_bytes[sizeof(farigolenc_overall_answer) == 416 ? 1 : -1];

static int differences = 0;

static void check(int same, const char *what)
{
    if (!same) {
        printf("differs: %s\n", what);
        differences++;
    }
}

static int all_are(const void *memory, size_t length, int byte)
{
    const unsigned char *bytes = (const unsigned char *)memory;
    size_t i;
    for (i = 0; i < length; i++) {
        if (bytes[i] != byte) {
            return 0;
        }
    }
    return 1;
}

static const uint32_t forms[2] = {FARIGOLENC_OLD, FARIGOLENC_WIDE};

/* Numbers that are no form's, with which the old form is written. */
static const uint32_t other_forms[] = {0, 1, 2, 4, 6, 7, 256 + 5, 65536 + 5, UINT32_MAX};

/* Checks a record, asks what it holds and fetches the points. What the three calls answer must fit
 * together: check and describe say the same, never 16, and fetch says the same unless it is 16.
 * Answers as open reading would, by the fetch and, where that gives the points, by describe. */
static farigolenc_read_answer check_and_fetch(uint32_t expected, const uint8_t *record,
                                              size_t length, uint64_t *positions,
                                              size_t positions_room, uint64_t *ratios,
                                              size_t ratios_room)
{
    const uint32_t checked = farigolenc_check(expected, record, length);
    const farigolenc_describe_answer described = farigolenc_describe(expected, record, length);
    const farigolenc_fetch_answer fetched = farigolenc_fetch(
        expected, record, length, positions, positions_room, ratios, ratios_room);
    farigolenc_read_answer read = {0, 0, 0, 0, 0, 0, 0};

    if (checked < 65536) {
        check(described.number == 0 && described.place == 0, "describe beside a sound check");
        check(described.size == checked && checked <= length, "the size of a sound record");
        check(fetched.number == 0 || fetched.number == 16, "fetch beside a sound check");
    } else {
        check(described.number == checked / 65536 && described.place == checked % 65536,
              "describe beside a refused check");
        check(described.number >= 10 && described.number != 16, "the number of a refused check");
        check(described.rate == 0 && described.side == 0 && described.count == 0 &&
                  described.form == 0 && described.size == 0,
              "the rest of a refused describe");
        check(fetched.number != 0, "fetch beside a refused check");
    }
    if (fetched.number != 16) {
        check(fetched.number == described.number && fetched.place == described.place,
              "the refusal of fetch");
        check(fetched.count == described.count, "the count of fetch");
    }
    read.number = fetched.number;
    read.place = fetched.place;
    read.count = fetched.count;
    if (fetched.number == 0) {
        read.rate = described.rate;
        read.side = described.side;
        read.form = described.form;
        read.used = described.size;
    }
    return read;
}

typedef farigolenc_read_answer reading(uint32_t, const uint8_t *, size_t, uint64_t *, size_t,
                                       uint64_t *, size_t);

static reading *const readings[2] = {check_and_fetch, farigolenc_read_open};

typedef farigolenc_move_answer moving(const uint8_t *, size_t, uint8_t *, size_t);

/* Each moves to the form of the same index. */
static moving *const moves[2] = {farigolenc_to_old, farigolenc_to_wide};

static uint64_t bits_of(double value)
{
    uint64_t bits;
    memcpy(&bits, &value, sizeof bits);
    return bits;
}

/* The listing example of document 01. */
static const uint8_t example[46] = {
    1, 0, 4, 0, 1, 0x77, 0, 2, 0, 2, 0, 3, 3, 0, 0x11,
    0, 0, 0, 0, 0, 0, 0, 0, 0, 0, 0, 0, 0, 0, 3, 0xC0, 0,
    4, 0, 0x0B, 0xFF, 0x3F, 0xE0, 0, 0, 0, 0, 0, 0, 0, 0};

static void check_example(void)
{
    const uint64_t positions[3] = {0, 960, 1920};
    const uint64_t half = UINT64_C(0x3FE0000000000000);
    const uint64_t ratios[3] = {UINT64_C(0x3FE0000000000000), UINT64_C(0x3FE0000000000000),
                                UINT64_C(0x3FE0000000000000)};
    uint8_t out[50];
    uint64_t read_positions[3], read_ratios[3];
    farigolenc_write_answer written;
    farigolenc_read_answer read;
    farigolenc_span_answer span;

    memset(out, DIRT, sizeof out);
    memset(read_positions, DIRT, sizeof read_positions);
    memset(read_ratios, DIRT, sizeof read_ratios);
    written = farigolenc_write(96000, 0, FARIGOLENC_OLD, positions, 3, ratios, 3, out, sizeof out);
    check(written.number == 0 && written.place == 0 && written.length == 46, "example, written");
    check(memcmp(out, example, 46) == 0, "example, bytes");
    check(all_are(out + 46, 4, DIRT), "example, bytes past the record");

    read = check_and_fetch(0, example, 46, read_positions, 3, read_ratios, 3);
    check(read.number == 0 && read.place == 0 && read.rate == 96000 && read.side == 0 &&
              read.count == 3 && read.form == FARIGOLENC_OLD && read.used == 46,
          "example, read");
    check(memcmp(read_positions, positions, sizeof positions) == 0, "example, positions");
    check(read_ratios[0] == half && read_ratios[1] == half && read_ratios[2] == half,
          "example, ratios");

    span = farigolenc_span(96000, positions, 3);
    check(span.number == 0 && span.place == 0 && span.milliseconds == 20, "example, span");
}

/* A run with references, xor forms and exceptions, and steps of several rows, in the wide form
 * also of its last. */
static void make_run(uint32_t form, uint64_t *positions, uint64_t *ratios)
{
    uint64_t noise = 88172645463325252u, position = 1000;
    size_t i;
    for (i = 0; i < POINTS; i++) {
        noise ^= noise << 13;
        noise ^= noise >> 7;
        noise ^= noise << 17;
        position += 480 + (i % 3 == 0 ? noise % 4000 : 0);
        position += form == FARIGOLENC_WIDE && i % 20 == 7 ? noise >> 16 : 0;
        positions[i] = position;
        switch (i % 4) {
        case 0:
            ratios[i] = noise;
            break;
        case 1:
            ratios[i] = bits_of((double)(noise % 100) / 10.0);
            break;
        case 2:
            ratios[i] = bits_of((double)(i / 40));
            break;
        default:
            ratios[i] = ratios[i - 1 - noise % 3];
        }
    }
}

static void check_reading(const char *which, farigolenc_read_answer read, uint32_t form,
                          uint64_t length, const uint64_t *positions, const uint64_t *ratios,
                          const uint64_t *read_positions, const uint64_t *read_ratios)
{
    check(read.number == 0 && read.place == 0 && read.rate == 48000 && read.side == SIDE &&
              read.count == POINTS && read.form == form && read.used == length,
          which);
    check(memcmp(read_positions, positions, POINTS * 8) == 0, "positions that were read");
    check(memcmp(read_ratios, ratios, POINTS * 8) == 0, "ratios that were read");
    check(all_are(read_positions + POINTS, (ROOM - POINTS) * 8, DIRT), "positions past the run");
    check(all_are(read_ratios + POINTS, (ROOM - POINTS) * 8, DIRT), "ratios past the run");
}

/* The reason names the form that stands in the body, by its size and first bytes. */
static void check_form(farigolenc_explain_answer why, const uint8_t *form, uint64_t size)
{
    check(why.number == 0 && why.place == 0, "explaining");
    switch (why.reason) {
    case FARIGOLENC_REFERENCE:
        check(size == 1 && form[0] == why.at, "explaining, reference");
        break;
    case FARIGOLENC_XOR:
        check(size == 10 - why.sum && form[0] == 128 + why.at, "explaining, xor form");
        check(form[1] == 16 * why.trailing + 8 - why.sum, "explaining, counts of an xor form");
        break;
    case FARIGOLENC_EXCEPTION:
    case FARIGOLENC_EMPTY_WINDOW:
        check(size == 9 && form[0] == 255, "explaining, exception");
        break;
    default:
        check(0, "explaining, reason");
    }
}

static void check_run(uint32_t form)
{
    static uint64_t positions[POINTS], ratios[POINTS];
    static uint64_t read_positions[ROOM], read_ratios[ROOM];
    static uint8_t record[FARIGOLENC_RECORD], joined[POINTS * FARIGOLENC_RATIO_FORM];
    farigolenc_write_answer written;
    farigolenc_live live;
    farigolenc_cursor_answer making;
    farigolenc_step_answer step;
    farigolenc_cursor cursor;
    const uint8_t *body;
    size_t field, length, total = 0, i;

    make_run(form, positions, ratios);
    written = farigolenc_write(48000, SIDE, form, positions, POINTS, ratios, POINTS, record,
                               sizeof record);
    check(written.number == 0 && written.place == 0 && written.length > 22, "run, written");
    if (written.number != 0) {
        return;
    }

    memset(read_positions, DIRT, sizeof read_positions);
    memset(read_ratios, DIRT, sizeof read_ratios);
    check_reading("check and fetch",
                  check_and_fetch(48000, record, sizeof record, read_positions, ROOM, read_ratios,
                                  ROOM),
                  form, written.length, positions, ratios, read_positions, read_ratios);
    memset(read_positions, DIRT, sizeof read_positions);
    memset(read_ratios, DIRT, sizeof read_ratios);
    check_reading("open reading",
                  farigolenc_read_open(0, record, (size_t)written.length, read_positions, ROOM,
                                       read_ratios, ROOM),
                  form, written.length, positions, ratios, read_positions, read_ratios);

    /* The ratios' field stands after those of rate, side and count (16 bytes) and of the
     * positions. */
    field = 19 + ((size_t)record[17] << 8 | record[18]);
    length = (size_t)record[field + 1] << 8 | record[field + 2];
    body = record + field + 3;
    check(record[field] == 4 && field + 3 + length == written.length, "run, ratios' field");

    live = farigolenc_live_new();
    check(all_are(&live, sizeof live, 0), "fresh live state");
    for (i = 0; i < POINTS; i++) {
        written = farigolenc_live_add(&live, ratios[i], joined + total, sizeof joined - total);
        check(written.number == 0 && written.place == 0, "live addition");
        total += (size_t)written.length;
    }
    check(total == length && memcmp(joined, body, length) == 0, "joined live additions");
    check(live.seen == POINTS && live.fill == FARIGOLENC_WINDOW, "live state");
    check(memcmp(live.ratios, ratios + POINTS - FARIGOLENC_WINDOW, sizeof live.ratios) == 0,
          "live window");

    making = farigolenc_cursor_new(POINTS);
    check(making.number == 0 && making.place == 0 && making.cursor.count == POINTS, "making");
    cursor = making.cursor;
    for (i = 0; i < POINTS; i++) {
        step = farigolenc_step(body, length, cursor);
        check(step.number == 0 && step.place == 0 && step.ratio == ratios[i], "step");
        check(step.next.seen == i + 1 && step.next.place > cursor.place, "cursor after a step");
        check_form(farigolenc_explain(ratios, POINTS, i), body + cursor.place,
                   step.next.place - cursor.place);
        cursor = step.next;
    }
    step = farigolenc_step(body, length, cursor);
    check(step.number == 8 && step.place == 0 && step.ratio == 0, "end of stepping");
    check(memcmp(&step.next, &cursor, sizeof cursor) == 0, "cursor at the end");
    step = farigolenc_step(body, length - 1, cursor);
    check(step.number == 7 && step.ratio == 0, "cursor past the body");
}

/* The example's record with a side: its field of four bytes stands between rate and count. */
static void put_side(uint8_t *record, uint8_t side)
{
    memcpy(record, example, 7);
    record[7] = 6;
    record[8] = 0;
    record[9] = 1;
    record[10] = side;
    memcpy(record + 11, example + 7, 39);
}

static void check_sides(void)
{
    const uint64_t points[3] = {0, 960, 1920};
    const uint64_t half = UINT64_C(0x3FE0000000000000);
    const uint64_t halves[3] = {UINT64_C(0x3FE0000000000000), UINT64_C(0x3FE0000000000000),
                                UINT64_C(0x3FE0000000000000)};
    uint8_t sided[50], out[52];
    uint64_t read_positions[4], read_ratios[4];
    farigolenc_write_answer written;
    farigolenc_read_answer read;
    uint32_t side;
    int open;

    for (side = 1; side <= FARIGOLENC_SIDES; side++) {
        put_side(sided, (uint8_t)side);
        memset(out, DIRT, sizeof out);
        written = farigolenc_write(96000, side, FARIGOLENC_OLD, points, 3, halves, 3, out,
                                   sizeof out);
        check(written.number == 0 && written.place == 0 && written.length == 50, "side, written");
        check(memcmp(out, sided, 50) == 0, "side, bytes");
        check(all_are(out + 50, 2, DIRT), "side, bytes past the record");
        for (open = 0; open < 2; open++) {
            memset(read_positions, DIRT, sizeof read_positions);
            memset(read_ratios, DIRT, sizeof read_ratios);
            read = readings[open](96000, out, sizeof out, read_positions, 4, read_ratios, 4);
            check(read.number == 0 && read.place == 0 && read.rate == 96000, "side, read");
            check(read.side == side && read.count == 3 && read.used == 50, "side, numbers read");
            check(memcmp(read_positions, points, sizeof points) == 0, "side, positions");
            check(read_ratios[0] == half && read_ratios[1] == half && read_ratios[2] == half,
                  "side, ratios");
            check(all_are(read_positions + 3, 8, DIRT) && all_are(read_ratios + 3, 8, DIRT),
                  "side, outputs past the run");
        }
    }
}

/* The largest record of each form, without a side and with one: every step takes 36 bits, in the
 * wide form 69, and every ratio nine bytes. */
static void check_largest(uint32_t form, size_t points, uint64_t far, size_t length)
{
    static uint64_t positions[FARIGOLENC_POINTS], ratios[FARIGOLENC_POINTS];
    static uint8_t largest[FARIGOLENC_RECORD];
    farigolenc_write_answer written;
    size_t i;

    for (i = 0; i < points; i++) {
        positions[i] = i % 2 * far;
        ratios[i] = i % 128 * ((UINT64_C(1) << 56) + 1);
    }
    written = farigolenc_write(44100, FARIGOLENC_SIDES, form, positions, points, ratios, points,
                               largest, length);
    check(written.number == 0 && written.length == length, "largest record");
    written = farigolenc_write(44100, FARIGOLENC_SIDES, form, positions, points, ratios, points,
                               largest, length - 1);
    check(written.number == 6 && written.length == 0, "largest record, a byte too few");
    check(all_are(largest, length - 1, 0), "largest record, a byte too few");
    written = farigolenc_write(44100, 0, form, positions, points, ratios, points, largest, length);
    check(written.number == 0 && written.length == length - 4, "largest record without a side");
}

static void check_kind(uint64_t ratio, uint32_t kind, uint32_t negative, uint64_t value,
                       uint64_t bits, const char *what)
{
    farigolenc_kind_answer answer = farigolenc_kind(ratio);
    check(answer.kind == kind && answer.negative == negative &&
              bits_of(answer.value) == value && answer.bits == bits,
          what);
}

static void check_kinds(void)
{
    const uint64_t sign = UINT64_C(1) << 63;
    const uint64_t infinity = UINT64_C(0x7FF0000000000000);
    check_kind(bits_of(1.5), FARIGOLENC_NUMBER, 0, bits_of(1.5), 0, "kind of 1.5");
    check_kind(sign, FARIGOLENC_NUMBER, 0, sign, 0, "kind of -0");
    check_kind(1, FARIGOLENC_NUMBER, 0, 1, 0, "kind of a subnormal");
    check_kind(infinity, FARIGOLENC_INFINITY, 0, 0, 0, "kind of infinity");
    check_kind(infinity | sign, FARIGOLENC_INFINITY, 1, 0, 0, "kind of -infinity");
    check_kind(infinity + 1, FARIGOLENC_NAN, 0, 0, infinity + 1, "kind of a not-a-number");
    check_kind(UINT64_MAX, FARIGOLENC_NAN, 0, 0, UINT64_MAX, "kind of all ones");
}

/* The span of two positions, in milliseconds. */
static void check_span(uint32_t rate, uint64_t first, uint64_t last, int64_t milliseconds,
                       const char *what)
{
    const uint64_t positions[2] = {first, last};
    farigolenc_span_answer span = farigolenc_span(rate, positions, 2);
    check(span.number == 0 && span.place == 0 && span.milliseconds == milliseconds, what);
}

static void check_spans(void)
{
    const uint64_t top = (UINT64_C(1) << 62) - 1;
    const uint64_t back[2] = {1000, 0};
    const uint64_t above[2] = {0, UINT64_C(1) << 62};
    farigolenc_span_answer span;

    check_span(48000, 0, 16, 0, "span of a third of a millisecond");
    check_span(48000, 16, 0, -1, "span of a third of a millisecond backwards");
    check_span(48000, 48, 0, -1, "span of a millisecond backwards");
    check_span(48000, 49, 0, -2, "span of a sample more backwards");
    check_span(48000, 1000, 0, -21, "span backwards, rounded down");
    check_span(44100, 0, top, INT64_C(104573379102661857), "longest span");
    check_span(44100, top, 0, -INT64_C(104573379102661858), "longest span backwards");
    span = farigolenc_span(48000, back, 0);
    check(span.number == 0 && span.place == 0 && span.milliseconds == 0, "span of nothing");
    span = farigolenc_span(48001, back, 2);
    check(span.number == 1 && span.place == 0 && span.milliseconds == 0, "span, unlisted rate");
    span = farigolenc_span(48000, above, 2);
    check(span.number == 4 && span.place == 1 && span.milliseconds == 0, "span, large position");
}

static void check_reason(const uint64_t *ratios, size_t count, uint64_t index, uint32_t reason,
                         uint32_t at, uint32_t leading, uint32_t trailing, uint32_t sum,
                         const char *what)
{
    farigolenc_explain_answer why = farigolenc_explain(ratios, count, index);
    check(why.number == 0 && why.place == 0, what);
    check(why.reason == reason && why.at == at, what);
    check(why.leading == leading && why.trailing == trailing && why.sum == sum, what);
}

static void refuse_reason(const uint64_t *ratios, size_t count, uint64_t index, uint32_t number,
                          const char *what)
{
    farigolenc_explain_answer why = farigolenc_explain(ratios, count, index);
    check(why.number == number && why.place == 0, what);
    check(why.reason == 0 && why.at == 0, what);
    check(why.leading == 0 && why.trailing == 0 && why.sum == 0, what);
}

static void check_reasons(void)
{
    static uint64_t many[FARIGOLENC_POINTS + 1];
    const uint64_t equal[4] = {1, 2, 2, 1};
    const uint64_t xored[2] = {UINT64_C(0xC01A666666666666), UINT64_C(0xC00E666666666666)};
    const uint64_t two[2] = {0, UINT64_C(0x0001020304050600)};
    const uint64_t one[2] = {0, UINT64_C(0x0001020304050607)};
    const uint64_t none[2] = {0, UINT64_C(0x0101020304050607)};
    const uint64_t nearer[3] = {1, 2, 3};
    const uint64_t farther[3] = {UINT64_C(0x1000000000000000), 1, UINT64_C(0x1000000000000002)};
    const size_t most = FARIGOLENC_POINTS;
    size_t i;

    check_reason(equal, 4, 3, FARIGOLENC_REFERENCE, 2, 0, 0, 0, "reason, equal ratio");
    check_reason(equal, 4, 2, FARIGOLENC_REFERENCE, 0, 0, 0, 0, "reason, equal ratio before");
    check_reason(xored, 2, 1, FARIGOLENC_XOR, 0, 1, 6, 7, "reason, xor with the sum 7");
    check_reason(two, 2, 1, FARIGOLENC_XOR, 0, 1, 1, 2, "reason, xor with the sum 2");
    check_reason(nearer, 3, 2, FARIGOLENC_XOR, 0, 7, 0, 7, "reason, the nearer of equal sums");
    check_reason(farther, 3, 2, FARIGOLENC_XOR, 1, 7, 0, 7, "reason, a larger sum behind");
    check_reason(one, 2, 1, FARIGOLENC_EXCEPTION, 0, 0, 0, 1, "reason, best sum 1");
    check_reason(none, 2, 1, FARIGOLENC_EXCEPTION, 0, 0, 0, 0, "reason, best sum 0");
    check_reason(xored, 2, 0, FARIGOLENC_EMPTY_WINDOW, 0, 0, 0, 0, "reason, empty window");
    check_reason(xored, 1, 0, FARIGOLENC_EMPTY_WINDOW, 0, 0, 0, 0, "reason, one ratio");

    /* Bytes that are all the same, so that sums are 0; each comes again after 127, then 128. */
    for (i = 0; i <= most; i++) {
        many[i] = UINT64_C(0x0101010101010101) * (i % FARIGOLENC_WINDOW);
    }
    check_reason(many, most, 126, FARIGOLENC_EXCEPTION, 0, 0, 0, 0, "reason, 126 ratios before");
    check_reason(many, most, 127, FARIGOLENC_REFERENCE, 126, 0, 0, 0, "reason, equal 127 back");
    check_reason(many, most, most - 1, FARIGOLENC_REFERENCE, 126, 0, 0, 0, "reason, last of all");
    for (i = 0; i <= most; i++) {
        many[i] = UINT64_C(0x0101010101010101) * (i % (FARIGOLENC_WINDOW + 1));
    }
    check_reason(many, most, 128, FARIGOLENC_EXCEPTION, 0, 0, 0, 0, "reason, equal 128 back");

    refuse_reason(many, most + 1, 0, 3, "reason, too many");
    refuse_reason(many, most + 1, 9999, 3, "reason, too many, and none at the index");
    refuse_reason(many, most, most, 22, "reason, index 4096");
    refuse_reason(xored, 2, 2, 22, "reason, index 2 of 2");
    refuse_reason(xored, 2, 3, 22, "reason, index 3 of 2");
    refuse_reason(xored, 2, (UINT64_C(1) << 32) + 1, 22, "reason, index above 32 bits");
    refuse_reason(xored, 2, UINT64_MAX, 22, "reason, largest index");
    refuse_reason(xored, 0, 0, 22, "reason, no ratios");
}

static void refuse_form(uint32_t rate, uint32_t side, uint32_t form, const uint64_t *positions,
                        size_t points, size_t ratios, size_t room, uint32_t number, uint32_t place,
                        const char *what)
{
    static const uint64_t values[FARIGOLENC_POINTS + 1] = {1, 2, 3};
    uint8_t out[200];
    farigolenc_write_answer written;

    memset(out, DIRT, sizeof out);
    written = farigolenc_write(rate, side, form, positions, points, values, ratios, out, room);
    check(written.number == number && written.place == place && written.length == 0, what);
    check(all_are(out, room, 0) && all_are(out + room, sizeof out - room, DIRT), what);
}

/* A run that is refused alike in both forms. */
static void refuse_writing(uint32_t rate, uint32_t side, const uint64_t *positions, size_t points,
                           size_t ratios, size_t room, uint32_t number, uint32_t place,
                           const char *what)
{
    int i;
    for (i = 0; i < 2; i++) {
        refuse_form(rate, side, forms[i], positions, points, ratios, room, number, place, what);
    }
}

static void refuse_reading(uint32_t expected, const uint8_t *record, size_t length, size_t room,
                           uint32_t number, uint32_t place, const char *what)
{
    static uint64_t positions[FARIGOLENC_POINTS], ratios[FARIGOLENC_POINTS];
    farigolenc_read_answer read;
    int open;

    for (open = 0; open < 2; open++) {
        memset(positions, DIRT, sizeof positions);
        memset(ratios, DIRT, sizeof ratios);
        read = readings[open](expected, record, length, positions, room, ratios, FARIGOLENC_POINTS);
        check(read.number == number && read.place == place, what);
        check(read.rate == 0 && read.side == 0 && read.count == 0, what);
        check(read.form == 0 && read.used == 0, what);
        check(all_are(positions, room * 8, 0) && all_are(ratios, sizeof ratios, 0), what);
        check(all_are(positions + room, (FARIGOLENC_POINTS - room) * 8, DIRT), what);
    }
}

/* Moves a record to a form with just enough room, then with more; the record may end before the
 * bytes do. */
static void check_move(int form, const uint8_t *bytes, size_t bytes_length, size_t used,
                       const uint8_t *record, size_t length, const char *what)
{
    static uint8_t out[FARIGOLENC_RECORD];
    size_t rooms[2], i;
    farigolenc_move_answer moved;

    rooms[0] = length;
    rooms[1] = sizeof out;
    for (i = 0; i < 2; i++) {
        memset(out, DIRT, sizeof out);
        moved = moves[form](bytes, bytes_length, out, rooms[i]);
        check(moved.number == 0 && moved.place == 0, what);
        check(moved.length == length && moved.used == used, what);
        check(memcmp(out, record, length) == 0, what);
        check(all_are(out + length, sizeof out - length, DIRT), what);
    }
}

static void refuse_move(int form, const uint8_t *bytes, size_t length, size_t room,
                        uint32_t number, uint32_t place, const char *what)
{
    static uint8_t out[FARIGOLENC_RECORD];
    farigolenc_move_answer moved;

    memset(out, DIRT, sizeof out);
    moved = moves[form](bytes, length, out, room);
    check(moved.number == number && moved.place == place, what);
    check(moved.length == 0 && moved.used == 0, what);
    check(all_are(out, room, 0) && all_are(out + room, sizeof out - room, DIRT), what);
}

/* Moves the record of each form of a run to the other, with just enough room and a byte less, and
 * neither to the form that it is in. */
static void check_there_and_back(const uint8_t *const records[2], const size_t lengths[2],
                                 uint32_t at, const char *what)
{
    int form;
    for (form = 0; form < 2; form++) {
        const uint8_t *from = records[1 - form], *to = records[form];
        const size_t used = lengths[1 - form], length = lengths[form];
        check_move(form, from, used, used, to, length, what);
        refuse_move(form, from, used, length - 1, 6, 0, what);
        refuse_move(form, from, used, 0, 6, 0, what);
        refuse_move(form, from, used - 1, length, 10, at + 3 + (from[at + 1] << 8 | from[at + 2]),
                    what);
        refuse_move(form, to, length, length, 11, at, what);
        refuse_move(form, to, at + 3, length, 11, at, what);
        refuse_move(form, to, at + 2, length, 10, at, what);
    }
}

/* Refusals by the side, and those whose places a side shifts. */
static void check_side_refusals(void)
{
    const uint64_t sound[3] = {0, 10, 20};
    const uint64_t above[3] = {0, 10, UINT64_C(1) << 62};
    const uint32_t high[] = {27, 28, 255, 256, 256 + 4, 65536, UINT32_C(1) << 31, UINT32_MAX};
    const uint8_t none[] = {0, 27, 28, 128, 255};
    uint8_t record[50], twice[54];
    size_t i;

    for (i = 0; i < sizeof high / sizeof high[0]; i++) {
        refuse_writing(48000, high[i], sound, 3, 3, 200, 21, 0, "writing, side above 26");
        refuse_writing(48001, high[i], sound, 3, 3, 200, 1, 0, "writing, rate before side");
        refuse_writing(48000, high[i], sound, 3, 2, 200, 21, 0, "writing, side before ratios");
        refuse_writing(48000, high[i], above, 3, 3, 200, 21, 0, "writing, side before positions");
        refuse_writing(48000, high[i], sound, 3, 3, 0, 21, 0, "writing, side before output");
    }
    refuse_writing(48000, 26, sound, 3, 2, 200, 2, 0, "writing, last side, a ratio missing");
    refuse_writing(48000, 1, sound, 3, 3, 40, 6, 0, "writing, a side, short output");

    for (i = 0; i < sizeof none / sizeof none[0]; i++) {
        put_side(record, none[i]);
        refuse_reading(0, record, 50, 8, 20, 7, "reading, no side");
        refuse_reading(0, record, 11, 8, 20, 7, "reading, no side, at the end of the bytes");
        refuse_reading(44100, record, 50, 8, 14, 0, "reading, expected rate before side");
        record[14] = 0xFF;
        refuse_reading(0, record, 50, 0, 20, 7, "reading, side before count and output");
        record[6] = 1;
        refuse_reading(0, record, 50, 8, 13, 0, "reading, rate before side");
    }
    put_side(record, 4);
    for (i = 7; i < 11; i++) {
        refuse_reading(0, record, i, 8, 10, 7, "reading, side cut");
    }
    for (i = 11; i < 16; i++) {
        refuse_reading(0, record, i, 8, 10, 11, "reading, count cut behind a side");
    }
    refuse_reading(0, record, 16, 8, 10, 16, "reading, positions cut behind a side");
    refuse_reading(0, record, 49, 8, 10, 36, "reading, ratios cut behind a side");
    refuse_reading(0, record, 50, 2, 16, 11, "reading, short output behind a side");
    record[14] = 0x10;
    refuse_reading(0, record, 50, 8, 15, 11, "reading, count too large behind a side");
    put_side(record, 4);
    record[11] = 3;
    refuse_reading(0, record, 50, 8, 11, 11, "reading, wrong tag behind a side");
    put_side(record, 4);
    record[35] = 1;
    refuse_reading(0, record, 50, 8, 17, 16, "reading, a fill bit behind a side");
    put_side(record, 4);
    record[49] = 2;
    refuse_reading(0, record, 50, 8, 18, 36, "reading, no such place behind a side");
    for (i = 0; i < 256; i++) {
        put_side(record, 4);
        record[9] = (uint8_t)i;
        if (i != 1) {
            refuse_reading(0, record, 50, 8, 12, 7, "reading, length of a side");
            refuse_reading(0, record, 10, 8, 12, 7, "reading, length of a side before its body");
        }
        put_side(record, 4);
        record[7] = (uint8_t)i;
        if (i != 2 && i != 6) {
            refuse_reading(0, record, 50, 8, 11, 7, "reading, neither side nor count");
        }
    }

    /* A second side, and one before the rate or after the count. */
    put_side(record, 4);
    memcpy(twice, record, 11);
    memcpy(twice + 11, record + 7, 43);
    refuse_reading(0, twice, 54, 8, 11, 11, "reading, a second side");
    refuse_reading(0, record + 7, 43, 8, 11, 0, "reading, a side before the rate");
    memcpy(twice, example, 12);
    memcpy(twice + 12, record + 7, 4);
    memcpy(twice + 16, example + 12, 34);
    refuse_reading(0, twice, 50, 8, 11, 12, "reading, a side after the count");
}

static void check_refusals(void)
{
    const uint64_t sound[3] = {0, 10, 20};
    const uint64_t above[3] = {0, 10, UINT64_C(1) << 62};
    const uint64_t far[3] = {0, 0, (UINT64_C(1) << 31) + 1};
    uint8_t damaged[46], out[20];
    uint64_t positions[4], ratios[4];
    farigolenc_live live = farigolenc_live_new(), before;
    farigolenc_write_answer written;
    farigolenc_cursor_answer making;
    farigolenc_read_answer read;

    refuse_writing(0, 0, sound, 3, 3, 200, 1, 0, "writing, unlisted rate");
    refuse_writing(48000, 0, sound, 3, 2, 200, 2, 0, "writing, a ratio missing");
    refuse_writing(48000, 0, above, 3, 3, 200, 4, 2, "writing, large position");
    refuse_form(48000, 0, FARIGOLENC_OLD, far, 3, 3, 200, 5, 2, "writing, large step");
    refuse_writing(48000, 0, sound, 3, 3, 40, 6, 0, "writing, short output");
    refuse_writing(48000, 0, sound, 3, 3, 0, 6, 0, "writing, no output");

    refuse_reading(0, example, 0, 8, 10, 0, "reading nothing");
    refuse_reading(0, example, 45, 8, 10, 32, "reading, ratios cut");
    refuse_reading(44100, example, 46, 8, 14, 0, "reading, another rate expected");
    refuse_reading(0, example, 46, 2, 16, 7, "reading, short output");
    memcpy(damaged, example, 46);
    damaged[6] = 1;
    refuse_reading(0, damaged, 46, 8, 13, 0, "reading, unlisted rate");
    memcpy(damaged, example, 46);
    damaged[7] = 3;
    refuse_reading(0, damaged, 46, 8, 11, 7, "reading, wrong tag");
    memcpy(damaged, example, 46);
    damaged[31] = 1;
    refuse_reading(0, damaged, 46, 8, 17, 12, "reading, a fill bit");
    memcpy(damaged, example, 46);
    damaged[45] = 2;
    refuse_reading(0, damaged, 46, 8, 18, 32, "reading, no such place");

    /* Place 1 holds the same ratio as place 0: good openly, and no sound record. */
    damaged[45] = 1;
    memset(positions, DIRT, sizeof positions);
    memset(ratios, DIRT, sizeof ratios);
    read = farigolenc_read_open(0, damaged, 46, positions, 4, ratios, 4);
    check(read.number == 0 && read.side == 0 && read.used == 46, "open reading of another place");
    read = check_and_fetch(0, damaged, 46, positions, 4, ratios, 4);
    check(read.number == 18 && read.place == 32, "check and fetch of another place");
    check(all_are(positions, sizeof positions, 0) && all_are(ratios, sizeof ratios, 0),
          "check and fetch of another place");

    memset(out, DIRT, sizeof out);
    before = live;
    written = farigolenc_live_add(&live, 7, out, 8);
    check(written.number == 6 && written.place == 0 && written.length == 0, "live, short output");
    check(all_are(out, 8, 0) && all_are(out + 8, 12, DIRT), "live, short output");
    check(memcmp(&live, &before, sizeof live) == 0, "live, state after a refusal");
    live.fill = 128;
    live.seen = 128;
    before = live;
    written = farigolenc_live_add(&live, 7, out, sizeof out);
    check(written.number == 7 && written.place == 0 && written.length == 0, "live, bad state");
    check(all_are(out, sizeof out, 0), "live, bad state");
    check(memcmp(&live, &before, sizeof live) == 0, "live, bad state after a refusal");
    live = farigolenc_live_new();
    live.fill = FARIGOLENC_WINDOW;
    live.seen = FARIGOLENC_POINTS;
    written = farigolenc_live_add(&live, 7, out, sizeof out);
    check(written.number == 3 && written.place == 0 && written.length == 0, "live, too many");

    making = farigolenc_cursor_new(FARIGOLENC_POINTS + 1);
    check(making.number == 15 && making.place == 0, "making, count too large");
    check(all_are(&making.cursor, sizeof making.cursor, 0), "making, count too large");
}

/* The one number that a check answers, also with bytes behind it unless the record is cut; what is
 * lent stays as it is. */
static void check_number(uint32_t expected, const uint8_t *record, size_t length, uint32_t number,
                         const char *what)
{
    static uint8_t bytes[FARIGOLENC_RECORD + 3];
    const int cut = number / 65536 == 10;

    check(farigolenc_check(expected, record, length) == number, what);
    memset(bytes, DIRT, sizeof bytes);
    memcpy(bytes, record, length);
    check(farigolenc_check(expected, bytes, length + (cut ? 0 : 3)) == number, what);
    check(memcmp(bytes, record, length) == 0 &&
              all_are(bytes + length, sizeof bytes - length, DIRT),
          what);
}

/* What the check answers as one number: sizes, and refusals with their places. */
static void check_numbers(void)
{
    static uint64_t positions[FARIGOLENC_WIDE_POINTS], ratios[FARIGOLENC_WIDE_POINTS];
    static uint8_t largest[FARIGOLENC_RECORD];
    const uint8_t least[18] = {1, 0, 4, 0, 1, 0x77, 0, 2, 0, 2, 0, 0, 3, 0, 0, 4, 0, 0};
    uint8_t record[50];
    farigolenc_write_answer written;
    size_t i;

    check_number(0, example, 46, 46, "number of a sound record");
    check_number(96000, example, 46, 46, "number of a sound record of the rate expected");
    check_number(0, least, 18, 18, "number of the smallest record");
    check_number(48000, example, 46, 917504, "number of 14 at 0");
    check_number(0, example, 0, 655360, "number of 10 at 0");
    check_number(0, example, 7, 655367, "number of 10 at 7");
    check_number(0, example, 45, 655392, "number of 10 at 32");
    memcpy(record, example, 46);
    record[6] = 1;
    check_number(0, record, 46, 851968, "number of 13 at 0");
    memcpy(record, example, 46);
    record[9] = 3;
    check_number(0, record, 46, 786439, "number of 12 at 7");
    memcpy(record, example, 46);
    record[10] = 0x10;
    check_number(0, record, 46, 983047, "number of 15 at 7");
    memcpy(record, example, 46);
    record[31] = 1;
    check_number(0, record, 46, 1114124, "number of 17 at 12");
    memcpy(record, example, 46);
    record[45] = 1;
    check_number(0, record, 46, 1179680, "number of 18 at 32");
    put_side(record, 4);
    check_number(0, record, 50, 50, "number of a sound record with a side");
    record[10] = 27;
    check_number(0, record, 50, 1310727, "number of 20 at 7");
    record[10] = 4;
    record[36] = 9;
    check_number(0, record, 50, 720932, "number of 11 at 36");

    /* The longest record, and the largest place of a refusal. */
    for (i = 0; i < FARIGOLENC_WIDE_POINTS; i++) {
        positions[i] = i % 2 * LAST_POSITION;
        ratios[i] = i % 128 * ((UINT64_C(1) << 56) + 1);
    }
    written = farigolenc_write(44100, FARIGOLENC_SIDES, FARIGOLENC_WIDE, positions,
                               FARIGOLENC_WIDE_POINTS, ratios, FARIGOLENC_WIDE_POINTS, largest,
                               sizeof largest);
    check(written.number == 0 && written.length == sizeof largest, "the longest record, written");
    check_number(44100, largest, sizeof largest, FARIGOLENC_RECORD, "number of the longest record");
    check_number(0, largest, sizeof largest - 1, 685566, "number of 10 at 30206");
    largest[30206] = 9;
    check_number(0, largest, sizeof largest, 751102, "number of 11 at 30206");
    largest[30206] = 4;
    largest[sizeof largest - 1] ^= 1;
    largest[sizeof largest - 9] = 0xFE;
    check_number(0, largest, sizeof largest, 1209854, "number of 18 at 30206");
}

/* A host whose lathe stands at 48000. Of joined records it checks each before it does anything else,
 * then asks what the record holds, lends room for as many points and no more, and fetches them.
 * Returns how many points it got in all. It stops at the first record that is not sound, and says
 * its number and place. */
static size_t host(const uint8_t *bytes, size_t length, uint32_t *number, uint32_t *place)
{
    static uint64_t positions[FARIGOLENC_POINTS], ratios[FARIGOLENC_POINTS];
    size_t points = 0;

    *number = *place = 0;
    while (length > 0) {
        const uint32_t checked = farigolenc_check(48000, bytes, length);
        farigolenc_describe_answer described;
        farigolenc_fetch_answer fetched;
        if (checked >= 65536) {
            *number = checked / 65536;
            *place = checked % 65536;
            return points;
        }
        if (checked < 18 || checked > length) {
            check(0, "host, a size that no record here has");
            return points;
        }
        described = farigolenc_describe(0, bytes, checked);
        check(described.number == 0 && described.rate == 48000, "host, rate");
        check(described.size == checked, "host, size");
        if (described.count > FARIGOLENC_POINTS) {
            check(0, "host, more points than any record has");
            return points;
        }
        memset(positions, DIRT, sizeof positions);
        memset(ratios, DIRT, sizeof ratios);
        fetched = farigolenc_fetch(described.rate, bytes, checked, positions, described.count,
                                   ratios, described.count);
        check(fetched.number == 0 && fetched.place == 0, "host, fetch");
        check(fetched.count == described.count, "host, count");
        points += fetched.count;
        bytes += checked;
        length -= checked;
    }
    return points;
}

static void check_host(void)
{
    static uint64_t positions[POINTS], ratios[POINTS];
    static uint8_t bytes[3 * FARIGOLENC_RECORD];
    uint32_t number, place;
    size_t length = 0;
    int form;

    for (form = 0; form < 2; form++) {
        make_run(forms[form], positions, ratios);
        length += (size_t)farigolenc_write(48000, SIDE, forms[form], positions, POINTS, ratios,
                                           POINTS, bytes + length, sizeof bytes - length).length;
        length += (size_t)farigolenc_write(48000, 0, forms[form], positions, 0, ratios, 0,
                                           bytes + length, sizeof bytes - length).length;
        length += (size_t)farigolenc_write(48000, 0, forms[form], positions, 7, ratios, 7,
                                           bytes + length, sizeof bytes - length).length;
    }
    check(host(bytes, length, &number, &place) == 2 * POINTS + 14 && number == 0,
          "host, sound records");
    check(host(bytes, length - 1, &number, &place) == 2 * POINTS + 7 && number == 10,
          "host, the last record cut");
    memcpy(bytes + length, example, 46);
    check(host(bytes, length + 46, &number, &place) == 2 * POINTS + 14, "host, another rate");
    check(number == 14 && place == 0, "host, another rate");
    bytes[length + 6] = 1;
    check(host(bytes, length + 46, &number, &place) == 2 * POINTS + 14, "host, no rate");
    check(number == 13 && place == 0, "host, no rate");
    bytes[7] = 9;
    check(host(bytes, length, &number, &place) == 0 && number == 11 && place == 7,
          "host, the first record damaged");
    check(host(bytes, 0, &number, &place) == 0 && number == 0, "host, nothing");
}

/* Rooms around the count of the example: a fetch with too little is refused by 16, and the check
 * takes the record all the while. */
static void check_rooms(void)
{
    uint64_t positions[6], ratios[6];
    farigolenc_fetch_answer fetched;
    size_t room, other;

    for (room = 0; room < 6; room++) {
        for (other = 0; other < 6; other++) {
            memset(positions, DIRT, sizeof positions);
            memset(ratios, DIRT, sizeof ratios);
            fetched = farigolenc_fetch(96000, example, 46, positions, room, ratios, other);
            check(farigolenc_check(96000, example, 46) == 46, "check beside any room");
            if (room < 3 || other < 3) {
                check(fetched.number == 16 && fetched.place == 7 && fetched.count == 0,
                      "fetch, too little room");
                check(all_are(positions, room * 8, 0) && all_are(ratios, other * 8, 0),
                      "fetch, too little room, zeros");
                check(all_are(positions + room, (6 - room) * 8, DIRT) &&
                          all_are(ratios + other, (6 - other) * 8, DIRT),
                      "fetch, too little room, past it");
            } else {
                check(fetched.number == 0 && fetched.place == 0 && fetched.count == 3,
                      "fetch, room enough");
                check(positions[2] == 1920 && ratios[2] == UINT64_C(0x3FE0000000000000),
                      "fetch, points");
                check(all_are(positions + 3, 24, DIRT) && all_are(ratios + 3, 24, DIRT),
                      "fetch, past the points");
            }
        }
    }
}

static void put_position(uint8_t *bytes, uint64_t position)
{
    int i;
    for (i = 0; i < 8; i++) {
        bytes[i] = (uint8_t)(position >> (56 - 8 * i));
    }
}

/* The example's rate and ratios with other positions, in the wide form: two, and the code of the
 * step at the third. Returns the record's length. */
static size_t put_wide(uint8_t *record, uint64_t first, uint64_t second, const uint8_t *code,
                       size_t size)
{
    memcpy(record, example, 12);
    record[12] = FARIGOLENC_WIDE;
    record[13] = 0;
    record[14] = (uint8_t)(16 + size);
    put_position(record + 15, first);
    put_position(record + 23, second);
    memcpy(record + 31, code, size);
    memcpy(record + 31 + size, example + 32, 14);
    return 45 + size;
}

/* Three positions are written with this code, read, and written again in the form that was read. */
static void check_step(uint64_t first, uint64_t second, uint64_t third, const uint8_t *code,
                       size_t size, const char *what)
{
    const uint64_t half = UINT64_C(0x3FE0000000000000);
    uint64_t positions[3], ratios[3], read_positions[3], read_ratios[3];
    uint8_t record[60], out[60];
    size_t length = put_wide(record, first, second, code, size);
    farigolenc_write_answer written;
    farigolenc_read_answer read;
    int open;

    positions[0] = first;
    positions[1] = second;
    positions[2] = third;
    ratios[0] = ratios[1] = ratios[2] = half;
    written = farigolenc_write(96000, 0, FARIGOLENC_WIDE, positions, 3, ratios, 3, out, sizeof out);
    check(written.number == 0 && written.place == 0 && written.length == length, what);
    check(memcmp(out, record, length) == 0, what);
    for (open = 0; open < 2; open++) {
        read = readings[open](96000, record, length, read_positions, 3, read_ratios, 3);
        check(read.number == 0 && read.place == 0 && read.rate == 96000 && read.side == 0, what);
        check(read.count == 3 && read.form == FARIGOLENC_WIDE && read.used == length, what);
        check(memcmp(read_positions, positions, sizeof positions) == 0, what);
        check(memcmp(read_ratios, ratios, sizeof ratios) == 0, what);
        memset(out, DIRT, sizeof out);
        written = farigolenc_write(read.rate, read.side, read.form, read_positions, read.count,
                                   read_ratios, read.count, out, sizeof out);
        check(written.number == 0 && written.length == length, what);
        check(memcmp(out, record, length) == 0, what);
    }
}

static void refuse_step(uint64_t first, uint64_t second, const uint8_t *code, size_t size,
                        const char *what)
{
    uint8_t record[60];
    size_t length = put_wide(record, first, second, code, size);
    refuse_reading(0, record, length, 3, 17, 12, what);
}

/* Codes of the last two rows, 11110 with 32 bits and 11111 with 64, and three fill bits. */
static void check_steps(void)
{
    const uint64_t middle = UINT64_C(1) << 40, top = LAST_POSITION, far = UINT64_C(1) << 31;
    const uint8_t most[5] = {0xF4, 0, 0, 0, 0};
    const uint8_t least[5] = {0xF4, 0, 0, 0, 8};
    const uint8_t above[9] = {0xF8, 0, 0, 0, 4, 0, 0, 0, 8};
    const uint8_t below[9] = {0xFF, 0xFF, 0xFF, 0xFF, 0xFC, 0, 0, 0, 0};
    const uint8_t largest[9] = {0xFB, 0xFF, 0xFF, 0xFF, 0xFF, 0xFF, 0xFF, 0xFF, 0xF0};
    const uint8_t smallest[9] = {0xFC, 0, 0, 0, 0, 0, 0, 0, 0x10};
    const uint8_t raw_none[9] = {0xF8, 0, 0, 0, 0, 0, 0, 0, 0};
    const uint8_t raw_most[9] = {0xF8, 0, 0, 0, 4, 0, 0, 0, 0};
    const uint8_t raw_least[9] = {0xFF, 0xFF, 0xFF, 0xFF, 0xFC, 0, 0, 0, 8};
    const uint8_t raw_64[9] = {0xF8, 0, 0, 0, 0, 0, 0, 2, 0};
    const uint8_t last[9] = {0xFC, 0, 0, 0, 0, 0, 0, 0, 0};
    const uint8_t one_above[9] = {0xFB, 0xFF, 0xFF, 0xFF, 0xFF, 0xFF, 0xFF, 0xFF, 0xF8};
    const uint8_t one_below[9] = {0xFC, 0, 0, 0, 0, 0, 0, 0, 8};
    const uint8_t fill[9] = {0xF8, 0, 0, 0, 4, 0, 0, 0, 9};
    const uint8_t old_most[5] = {0xF8, 0, 0, 0, 0};

    check_step(middle, middle, middle + far, most, 5, "wide, step 2^31");
    check_step(middle, middle, middle - far + 1, least, 5, "wide, step -2^31 + 1");
    check_step(middle, middle, middle + far + 1, above, 9, "wide, step 2^31 + 1");
    check_step(middle, middle, middle - far, below, 9, "wide, step -2^31");
    check_step(top, 0, top, largest, 9, "wide, step 2^63 - 2");
    check_step(0, top, 0, smallest, 9, "wide, step -(2^63 - 2)");

    refuse_step(middle, middle, raw_none, 9, "reading, step 0 in 64 bits");
    refuse_step(middle, middle, raw_64, 9, "reading, step 64 in 64 bits");
    refuse_step(middle, middle, raw_most, 9, "reading, step 2^31 in 64 bits");
    refuse_step(middle, middle, raw_least, 9, "reading, step -2^31 + 1 in 64 bits");
    refuse_step(middle, middle, last, 9, "reading, step -2^63");
    refuse_step(0, top, last, 9, "reading, step -2^63 from the last position");
    refuse_step(0, top, largest, 9, "reading, a position above 64 bits");
    refuse_step(top, top, above, 9, "reading, a position far above the last");
    refuse_step(0, 0, below, 9, "reading, a position far below 0");
    refuse_step(top, 0, one_above, 9, "reading, the position 2^62");
    refuse_step(0, top, one_below, 9, "reading, the position -1");
    refuse_step(middle, middle, fill, 9, "reading, a fill bit behind 64 bits");
    refuse_step(middle, middle, above, 8, "reading, 64 bits cut");
    refuse_step(middle, middle, old_most, 5, "reading, the old code of 2^31");
}

static void check_forms(void)
{
    const uint64_t points[3] = {0, 960, 1920};
    const uint64_t far[3] = {0, 0, (UINT64_C(1) << 31) + 1};
    const uint64_t halves[3] = {UINT64_C(0x3FE0000000000000), UINT64_C(0x3FE0000000000000),
                                UINT64_C(0x3FE0000000000000)};
    uint8_t record[46], out[46];
    uint64_t positions[3], ratios[3];
    farigolenc_write_answer written;
    farigolenc_read_answer read;
    size_t i;

    /* The steps of the example have the same codes in both forms. */
    memcpy(record, example, 46);
    record[12] = FARIGOLENC_WIDE;
    written = farigolenc_write(96000, 0, FARIGOLENC_WIDE, points, 3, halves, 3, out, 46);
    check(written.number == 0 && written.length == 46, "wide example, written");
    check(memcmp(out, record, 46) == 0, "wide example, bytes");
    read = check_and_fetch(0, record, 46, positions, 3, ratios, 3);
    check(read.number == 0 && read.form == FARIGOLENC_WIDE && read.used == 46, "wide example");
    check(memcmp(positions, points, sizeof points) == 0, "wide example, positions");

    for (i = 0; i < sizeof other_forms / sizeof other_forms[0]; i++) {
        memset(out, DIRT, sizeof out);
        written = farigolenc_write(96000, 0, other_forms[i], points, 3, halves, 3, out, 46);
        check(written.number == 0 && written.length == 46, "another number for the old form");
        check(memcmp(out, example, 46) == 0, "another number for the old form, bytes");
        refuse_form(96000, 0, other_forms[i], far, 3, 3, 200, 5, 2,
                    "another number for the old form, large step");
    }
    for (i = 0; i < 256; i++) {
        if (i != FARIGOLENC_OLD && i != FARIGOLENC_WIDE) {
            record[12] = (uint8_t)i;
            refuse_reading(0, record, 46, 8, 11, 12, "reading, no form's tag");
        }
    }
}

static void check_moves(void)
{
    static uint64_t positions[POINTS], ratios[POINTS];
    static uint8_t old[FARIGOLENC_RECORD], wide[FARIGOLENC_RECORD];
    const uint8_t *const run[2] = {old, wide};
    uint8_t listed[50], sided[50], damaged[46];
    const uint8_t *const lists[2] = {example, listed};
    const size_t sizes[2] = {46, 46};
    size_t lengths[2], i;
    int form;

    /* The steps of the example have the same codes in both forms; bytes follow the record. */
    memcpy(listed, example, 46);
    memset(listed + 46, DIRT, 4);
    listed[12] = FARIGOLENC_WIDE;
    check_there_and_back(lists, sizes, 12, "moving the example");
    check_move(0, listed, 50, 46, example, 46, "moving, bytes behind the record");

    for (form = 0; form < 2; form++) {
        put_side(sided, SIDE);
        sided[16] = (uint8_t)forms[form];
        memcpy(listed, sided, 50);
        listed[16] = (uint8_t)forms[1 - form];
        check_move(form, listed, 50, 50, sided, 50, "moving, a side");
        refuse_move(form, sided, 50, 50, 11, 16, "moving, a side, another form");
        sided[10] = 27;
        refuse_move(form, sided, 50, 50, 20, 7, "moving, no side");

        refuse_move(form, example, 0, 46, 10, 0, "moving nothing");
        refuse_move(form, example, 0, 0, 10, 0, "moving nothing to nothing");
        memcpy(damaged, example, 46);
        damaged[12] = (uint8_t)forms[1 - form];
        damaged[45] = 1;
        refuse_move(form, damaged, 46, 46, 18, 32, "moving, an open form");
        damaged[31] = 1;
        refuse_move(form, damaged, 46, 46, 17, 12, "moving, a fill bit");
        damaged[12] = (uint8_t)forms[form];
        refuse_move(form, damaged, 46, 46, 11, 12, "moving, another form before a fill bit");
        damaged[9] = 3;
        refuse_move(form, damaged, 46, 46, 12, 7, "moving, length of the count before a form");
        damaged[6] = 1;
        refuse_move(form, damaged, 46, 46, 13, 0, "moving, unlisted rate");
        for (i = 0; i < 256; i++) {
            memcpy(damaged, example, 46);
            damaged[12] = (uint8_t)i;
            if (i != forms[1 - form]) {
                refuse_move(form, damaged, 46, 46, 11, 12, "moving, no tag to move from");
            }
        }
    }

    /* Steps of several rows, so that the record is longer in the wide form. */
    make_run(FARIGOLENC_OLD, positions, ratios);
    lengths[0] = (size_t)farigolenc_write(48000, SIDE, FARIGOLENC_OLD, positions, POINTS, ratios,
                                          POINTS, old, sizeof old).length;
    lengths[1] = (size_t)farigolenc_write(48000, SIDE, FARIGOLENC_WIDE, positions, POINTS, ratios,
                                          POINTS, wide, sizeof wide).length;
    check(lengths[0] > 22 && lengths[1] > lengths[0], "moving a run, written");
    check_there_and_back(run, lengths, 16, "moving a run");
    check_move(1, old, sizeof old, lengths[0], wide, lengths[1], "moving, zeros behind the record");

    /* A long pause before the point of index 7, and more behind it. */
    make_run(FARIGOLENC_WIDE, positions, ratios);
    lengths[1] = (size_t)farigolenc_write(48000, SIDE, FARIGOLENC_WIDE, positions, POINTS, ratios,
                                          POINTS, wide, sizeof wide).length;
    refuse_move(0, wide, lengths[1], sizeof old, 5, 7, "moving, long pause");
    refuse_move(0, wide, lengths[1], 0, 5, 7, "moving, long pause, no output");
    refuse_move(0, wide, lengths[1] - 1, 0, 10, 19 + (wide[17] << 8 | wide[18]),
                "moving, long pause, ratios cut");
    refuse_move(1, wide, lengths[1], sizeof old, 11, 16, "moving, long pause, in its form");
}

/* A count around the limits, in a record of which all positions are 0 and all ratios the same; the
 * forms have the same code for it. */
static void check_limit(uint32_t side, uint32_t points)
{
    static uint64_t zeros[FARIGOLENC_POINTS], positions[FARIGOLENC_POINTS];
    static uint64_t ratios[FARIGOLENC_POINTS];
    static uint8_t record[FARIGOLENC_RECORD], other[FARIGOLENC_RECORD];
    const uint32_t count_at = side == 0 ? 7 : 11, at = count_at + 5;
    const size_t most = FARIGOLENC_POINTS, cut = at + 100;
    const int too_many = points > FARIGOLENC_WIDE_POINTS;
    farigolenc_write_answer written;
    farigolenc_read_answer read;
    size_t length, i;
    int form, open;

    written = farigolenc_write(48000, side, FARIGOLENC_OLD, zeros, points, zeros, points, record,
                               sizeof record);
    check(written.number == 0, "limit, written in the old form");
    length = (size_t)written.length;
    if (too_many) {
        refuse_form(48000, side, FARIGOLENC_WIDE, zeros, points, points, 200, 3, 0,
                    "writing, too many for the wide form");
    } else {
        written = farigolenc_write(48000, side, FARIGOLENC_WIDE, zeros, points, zeros, points,
                                   record, sizeof record);
        check(written.number == 0 && written.length == length, "limit, written in the wide form");
    }

    for (form = 0; form < 2; form++) {
        record[at] = (uint8_t)forms[form];
        refuse_reading(0, record, length, points - 1, 16, count_at, "limit, short output");
        for (i = 0; i < 3; i++) {
            refuse_reading(0, record, at + i, most, 10, at, "limit, head cut");
            refuse_move(form, record, at + i, length, 10, at, "limit, moving, head cut");
        }
        refuse_move(form, record, length, length, 11, at, "limit, moving to its form");
        refuse_move(form, record, at + 3, length, 11, at, "limit, moving to its form, no body");
        if (!too_many) {
            memcpy(other, record, length);
            other[at] = (uint8_t)forms[1 - form];
            check_move(1 - form, record, length, length, other, length, "limit, moved");
        } else if (forms[form] == FARIGOLENC_WIDE) {
            refuse_move(0, record, length, length, 15, count_at, "limit, moving to the old form");
            refuse_move(0, record, at + 3, 0, 15, count_at, "limit, moving, no body");
        } else {
            refuse_move(1, record, length, length, 3, 0, "limit, moving to the wide form");
            refuse_move(1, record, length, 0, 3, 0, "limit, moving to the wide form, no output");
            refuse_move(1, record, length - 1, 0, 10, (uint32_t)(length - 11 - points),
                        "limit, moving to the wide form, ratios cut");
        }
        if (forms[form] == FARIGOLENC_WIDE && too_many) {
            refuse_reading(0, record, length, most, 15, count_at, "limit, wide");
            refuse_reading(0, record, at + 3, most, 15, count_at, "limit, wide, no body");
            refuse_reading(0, record, cut, most, 15, count_at, "limit, wide, body cut");
            record[cut] = 1;
            refuse_reading(0, record, length, most, 15, count_at, "limit, wide, no coding");
            record[cut] = 0;
            continue;
        }
        refuse_reading(0, record, cut, most, 10, at, "limit, body cut");
        record[at + 3] = 0xFF;
        refuse_reading(0, record, length, most, 17, at, "limit, no coding");
        record[at + 3] = 0;
        for (open = 0; open < 2; open++) {
            read = readings[open](0, record, length, positions, most, ratios, most);
            check(read.number == 0 && read.place == 0 && read.count == points, "limit, read");
            check(read.form == forms[form] && read.used == length, "limit, read in its form");
        }
    }
    record[at] = 9;
    refuse_reading(0, record, length, most, 11, at, "limit, no form's tag");
    for (form = 0; form < 2; form++) {
        record[at] = (uint8_t)forms[form];
        record[at - 2] = 0x10;
        record[at - 1] = 1;
        refuse_reading(0, record, length, most, 15, count_at, "more than any form takes");
        refuse_reading(0, record, at, most, 15, count_at, "more than any form takes, no positions");
        refuse_move(form, record, length, length, 15, count_at, "moving more than any form takes");
    }
}

/* Tests of writing that know the form. */
static void check_form_refusals(void)
{
    static uint64_t many[FARIGOLENC_POINTS + 1];
    const uint64_t far[3] = {0, 0, LAST_POSITION};
    const uint64_t wide = FARIGOLENC_WIDE_POINTS + 1;

    refuse_form(48000, 0, FARIGOLENC_OLD, far, 3, 3, 200, 5, 2, "writing, long pause");
    refuse_form(48000, 0, FARIGOLENC_OLD, far, 3, 3, 0, 5, 2, "writing, long pause, no output");
    refuse_form(48000, 0, FARIGOLENC_WIDE, far, 3, 3, 0, 6, 0, "writing, wide, no output");
    refuse_form(48000, 0, FARIGOLENC_WIDE, far, 3, 3, 57, 6, 0, "writing, wide, short output");
    refuse_writing(48000, 0, many, FARIGOLENC_POINTS + 1, FARIGOLENC_POINTS + 1, 200, 3, 0,
                   "writing, too many for both forms");
    many[3] = LAST_POSITION + 1;
    refuse_form(48000, 0, FARIGOLENC_WIDE, many, wide, wide, 200, 3, 0,
                "writing, wide, too many before a large position");
    refuse_form(48000, 0, FARIGOLENC_WIDE, many, wide, wide - 1, 200, 2, 0,
                "writing, wide, a ratio missing before too many");
    refuse_form(48000, 0, FARIGOLENC_OLD, many, wide, wide, 200, 4, 3,
                "writing, not too many for the old form");
}

/* Calls that know no form take as many points as the old one. */
static void check_formless_limits(void)
{
    static const uint64_t positions[FARIGOLENC_POINTS + 1] = {0};
    farigolenc_live live = farigolenc_live_new();
    uint8_t out[FARIGOLENC_RATIO_FORM];

    check(farigolenc_span(48000, positions, FARIGOLENC_POINTS).number == 0, "span of 4096 points");
    check(farigolenc_span(48000, positions, FARIGOLENC_POINTS + 1).number == 3,
          "span of 4097 points");
    check(farigolenc_cursor_new(FARIGOLENC_POINTS).number == 0, "making, count of 4096");
    live.fill = FARIGOLENC_WINDOW;
    live.seen = FARIGOLENC_POINTS - 1;
    check(farigolenc_live_add(&live, 7, out, sizeof out).number == 0, "live, ratio 4096");
    check(live.seen == FARIGOLENC_POINTS, "live, ratio 4096");
}

/* A difference as it should be answered; the kinds are those of the values. */
typedef struct {
    uint32_t what;
    uint64_t index, first, second;
} difference;

static int same_kind(farigolenc_kind_answer kind, farigolenc_kind_answer other)
{
    return kind.kind == other.kind && kind.negative == other.negative &&
           bits_of(kind.value) == bits_of(other.value) && kind.bits == other.bits;
}

static int is_difference(farigolenc_difference_answer answer, difference wanted)
{
    const farigolenc_kind_answer none = {0, 0, 0.0, 0};
    const int is_ratio = wanted.what == FARIGOLENC_DIFFERENT_RATIO;
    return answer.what == wanted.what && answer.index == wanted.index &&
           answer.first == wanted.first && answer.second == wanted.second &&
           same_kind(answer.first_kind, is_ratio ? farigolenc_kind(wanted.first) : none) &&
           same_kind(answer.second_kind, is_ratio ? farigolenc_kind(wanted.second) : none);
}

static const difference no_difference = {FARIGOLENC_NO_DIFFERENCE, 0, 0, 0};

/* The same difference with the records in the other order. */
static difference swapped(difference wanted)
{
    difference other = wanted;
    if (wanted.what != FARIGOLENC_MORE_POINTS) {
        other.first = wanted.second;
        other.second = wanted.first;
    }
    return other;
}

/* A record that was read to be compared. */
typedef struct {
    farigolenc_describe_answer described;
    uint64_t positions[FARIGOLENC_POINTS], ratios[FARIGOLENC_POINTS];
} read_record;

static void read_to_compare(read_record *record, const uint8_t *bytes, size_t length)
{
    memset(record, DIRT, sizeof *record);
    record->described = farigolenc_describe(0, bytes, length);
    if (record->described.count > FARIGOLENC_POINTS) {
        check(0, "describing to compare, more points than any record has");
        memset(&record->described, 0, sizeof record->described);
    } else if (record->described.number == 0) {
        const size_t count = record->described.count;
        check(farigolenc_fetch(0, bytes, length, record->positions, count, record->ratios, count)
                      .number == 0,
              "fetching to compare");
    }
}

/* Compares two records as the header says, and checks that this is the list of differences. */
static void check_list(const read_record *first, const read_record *second,
                       const difference *wanted, size_t count, const char *what)
{
    const uint64_t m = first->described.count, n = second->described.count;
    const uint64_t beyond[] = {m < n ? m : n, m < n ? n : m, FARIGOLENC_POINTS, UINT64_MAX};
    farigolenc_difference_answer found[2 * POINTS + 5];
    farigolenc_overall_answer overall =
        farigolenc_compare_overall(first->described, second->described);
    size_t listed = 0, next = 0, i;
    uint64_t index;

    check(overall.number == 0 && overall.place == 0 && overall.which == 0, what);
    found[listed++] = overall.rate;
    found[listed++] = overall.side;
    found[listed++] = overall.count;
    found[listed++] = overall.form;
    for (index = 0; index < m && index < n; index++) {
        found[listed++] =
            farigolenc_compare_positions(first->positions, m, second->positions, n, index);
        found[listed++] = farigolenc_compare_ratios(first->ratios, m, second->ratios, n, index);
    }
    found[listed++] = overall.more;
    for (i = 0; i < listed; i++) {
        if (found[i].what == FARIGOLENC_NO_DIFFERENCE) {
            check(is_difference(found[i], no_difference), what);
        } else {
            check(next < count && is_difference(found[i], wanted[next]), what);
            next++;
        }
    }
    check(next == count, what);
    for (i = 0; i < sizeof beyond / sizeof beyond[0]; i++) {
        check(is_difference(farigolenc_compare_positions(first->positions, m, second->positions, n,
                                                         beyond[i]),
                            no_difference),
              what);
        check(is_difference(farigolenc_compare_ratios(first->ratios, m, second->ratios, n,
                                                      beyond[i]),
                            no_difference),
              what);
    }
}

/* The list of differences of two records in one order, and in the other; each with itself has none.
 * At most 2 * POINTS + 5 are wanted. */
static void check_comparison(const uint8_t *first, size_t first_length, const uint8_t *second,
                             size_t second_length, const difference *wanted, size_t count,
                             const char *what)
{
    static read_record records[2];
    static difference others[2 * POINTS + 5];
    size_t i;

    read_to_compare(&records[0], first, first_length);
    read_to_compare(&records[1], second, second_length);
    for (i = 0; i < count; i++) {
        others[i] = swapped(wanted[i]);
    }
    check_list(&records[0], &records[1], wanted, count, what);
    check_list(&records[1], &records[0], others, count, what);
    check_list(&records[0], &records[0], wanted, 0, what);
    check_list(&records[1], &records[1], wanted, 0, what);
}

/* What describe answered of two records, of which one was refused, the first or the second. */
static void refuse_comparison(farigolenc_describe_answer first, farigolenc_describe_answer second,
                              uint32_t number, uint32_t place, uint32_t which, const char *what)
{
    farigolenc_overall_answer overall = farigolenc_compare_overall(first, second);
    check(overall.number == number && overall.place == place && overall.which == which, what);
    check(is_difference(overall.rate, no_difference), what);
    check(is_difference(overall.side, no_difference), what);
    check(is_difference(overall.count, no_difference), what);
    check(is_difference(overall.form, no_difference), what);
    check(is_difference(overall.more, no_difference), what);
}

/* Bytes that are refused, as the first record, as the second and as both, beside a sound one and
 * beside nothing. */
static void check_refused(const uint8_t *bytes, size_t length, uint32_t number, uint32_t place,
                          const char *what)
{
    static read_record refused, sound, nothing;

    read_to_compare(&refused, bytes, length);
    read_to_compare(&sound, example, 46);
    read_to_compare(&nothing, example, 0);
    refuse_comparison(refused.described, sound.described, number, place, 1, what);
    refuse_comparison(sound.described, refused.described, number, place, 2, what);
    refuse_comparison(refused.described, refused.described, number, place, 1, what);
    refuse_comparison(refused.described, nothing.described, number, place, 1, what);
    refuse_comparison(nothing.described, refused.described, 10, 0, 1, what);
}

static void check_refused_comparisons(void)
{
    const farigolenc_describe_answer sound = {0, 0, 96000, 0, 3, FARIGOLENC_OLD, 46};
    const farigolenc_describe_answer odd = {14, 7, 48000, 2, 9, FARIGOLENC_WIDE, 5};
    const farigolenc_describe_answer most = {UINT32_MAX, UINT32_MAX, 0, 0, 0, 0, 0};
    uint8_t damaged[50];
    size_t i;

    /* Each byte that is changed, the number that it is refused by, and the place. */
    static const struct {
        uint8_t at, byte, number, place;
    } faults[] = {{0, 2, 11, 0},   {2, 3, 12, 0},   {6, 1, 13, 0},    {7, 9, 11, 7},
                  {9, 3, 12, 7},   {10, 16, 15, 7}, {12, 4, 11, 12},  {31, 1, 17, 12},
                  {32, 7, 11, 32}, {45, 1, 18, 32}, {34, 10, 18, 32}, {34, 12, 10, 32}};

    for (i = 0; i < sizeof faults / sizeof faults[0]; i++) {
        memcpy(damaged, example, 46);
        damaged[faults[i].at] = faults[i].byte;
        check_refused(damaged, 46, faults[i].number, faults[i].place, "comparing, a changed byte");
    }
    check_refused(example, 7, 10, 7, "comparing, no count");
    check_refused(example, 45, 10, 32, "comparing, a byte missing");
    put_side(damaged, 27);
    check_refused(damaged, 50, 20, 7, "comparing, no side");

    /* Answers that describe gives with a rate expected, or not at all. */
    refuse_comparison(odd, sound, 14, 7, 1, "comparing, refused by a number of no use here");
    refuse_comparison(sound, odd, 14, 7, 2, "comparing, refused by a number of no use here");
    refuse_comparison(odd, most, 14, 7, 1, "comparing, two such numbers");
    refuse_comparison(most, odd, UINT32_MAX, UINT32_MAX, 1, "comparing, largest numbers");
}

/* Answers of describe that are no refusals, of which every member may be made up. */
static void check_made_up_answers(void)
{
    const farigolenc_describe_answer least = {0, 9, 0, 0, 0, 0, 0};
    const farigolenc_describe_answer most = {0,          8,          UINT32_MAX, UINT32_MAX,
                                             UINT32_MAX, UINT32_MAX, UINT64_MAX};
    const difference rate = {FARIGOLENC_DIFFERENT_RATE, 0, 0, UINT32_MAX};
    const difference side = {FARIGOLENC_DIFFERENT_SIDE, 0, 0, UINT32_MAX};
    const difference count = {FARIGOLENC_DIFFERENT_COUNT, 0, 0, UINT32_MAX};
    const difference form = {FARIGOLENC_DIFFERENT_FORM, 0, 0, UINT32_MAX};
    const difference more = {FARIGOLENC_MORE_POINTS, 0, UINT32_MAX, 0};
    farigolenc_overall_answer overall = farigolenc_compare_overall(least, most);

    check(overall.number == 0 && overall.place == 0 && overall.which == 0, "made up answers");
    check(is_difference(overall.rate, rate), "made up answers, rate");
    check(is_difference(overall.side, side), "made up answers, side");
    check(is_difference(overall.count, count), "made up answers, count");
    check(is_difference(overall.form, form), "made up answers, form");
    check(is_difference(overall.more, more), "made up answers, more");
    overall = farigolenc_compare_overall(most, least);
    check(is_difference(overall.rate, swapped(rate)), "made up answers, swapped, rate");
    check(is_difference(overall.side, swapped(side)), "made up answers, swapped, side");
    check(is_difference(overall.count, swapped(count)), "made up answers, swapped, count");
    check(is_difference(overall.form, swapped(form)), "made up answers, swapped, form");
    check(is_difference(overall.more, more), "made up answers, swapped, more");
}

/* Two ratios that differ, and what is known of the first's kind. */
static void check_compared_kind(uint64_t ratio, uint64_t other, uint32_t kind, uint32_t negative,
                                uint64_t value, uint64_t bits, const char *what)
{
    const uint64_t first[2] = {7, ratio}, second[2] = {7, other};
    const difference wanted = {FARIGOLENC_DIFFERENT_RATIO, 1, ratio, other};
    farigolenc_difference_answer answer = farigolenc_compare_ratios(first, 2, second, 2, 1);
    farigolenc_kind_answer known;

    known.kind = kind;
    known.negative = negative;
    known.bits = bits;
    memcpy(&known.value, &value, sizeof value);
    check(is_difference(answer, wanted) && same_kind(answer.first_kind, known), what);
    answer = farigolenc_compare_ratios(second, 2, first, 2, 1);
    check(is_difference(answer, swapped(wanted)) && same_kind(answer.second_kind, known), what);
}

/* Slices of any lengths, lent to both calls, of which one takes the numbers as positions. */
static void check_compared_slices(void)
{
    const uint64_t first[3] = {5, 6, UINT64_MAX}, second[4] = {5, 8, 0, 9};
    const difference position = {FARIGOLENC_DIFFERENT_POSITION, 1, 6, 8};
    const difference last = {FARIGOLENC_DIFFERENT_POSITION, 2, UINT64_MAX, 0};
    const difference ratio = {FARIGOLENC_DIFFERENT_RATIO, 2, UINT64_MAX, 0};
    const uint64_t beyond[] = {3, 4, 5, (UINT64_C(1) << 32) + 1, UINT64_C(1) << 61, UINT64_MAX};
    size_t i;

    check(is_difference(farigolenc_compare_positions(first, 3, second, 4, 0), no_difference),
          "comparing, equal positions");
    check(is_difference(farigolenc_compare_ratios(first, 3, second, 4, 0), no_difference),
          "comparing, equal ratios");
    check(is_difference(farigolenc_compare_positions(first, 3, second, 4, 1), position),
          "comparing, positions");
    check(is_difference(farigolenc_compare_positions(second, 4, first, 3, 1), swapped(position)),
          "comparing, positions swapped");
    check(is_difference(farigolenc_compare_positions(first, 3, second, 4, 2), last),
          "comparing, last positions");
    check(is_difference(farigolenc_compare_ratios(first, 3, second, 4, 2), ratio),
          "comparing, last ratios");
    for (i = 0; i < sizeof beyond / sizeof beyond[0]; i++) {
        check(is_difference(farigolenc_compare_positions(first, 3, second, 4, beyond[i]),
                            no_difference),
              "comparing positions beyond one or both");
        check(is_difference(farigolenc_compare_ratios(second, 4, first, 3, beyond[i]),
                            no_difference),
              "comparing ratios beyond one or both");
    }
    for (i = 0; i < 3; i++) {
        check(is_difference(farigolenc_compare_positions(first, i, second, 4, i), no_difference),
              "comparing positions at the first's end");
        check(is_difference(farigolenc_compare_positions(first, 3, second, i, i), no_difference),
              "comparing positions at the second's end");
        check(is_difference(farigolenc_compare_ratios(first, i, second, 4, i), no_difference),
              "comparing ratios at the first's end");
        check(is_difference(farigolenc_compare_ratios(first, 3, second, i, i), no_difference),
              "comparing ratios at the second's end");
        check(is_difference(farigolenc_compare_ratios(first, 3, first, 3, i), no_difference),
              "comparing ratios with themselves");
    }
}

static void check_compared_kinds(void)
{
    const uint64_t sign = UINT64_C(1) << 63, infinity = UINT64_C(0x7FF0000000000000);
    const uint64_t half = bits_of(0.5);

    check_compared_kind(half, bits_of(-0.5), FARIGOLENC_NUMBER, 0, half, 0, "comparing 0.5");
    check_compared_kind(0, sign, FARIGOLENC_NUMBER, 0, 0, 0, "comparing 0 with -0");
    check_compared_kind(sign, 0, FARIGOLENC_NUMBER, 0, sign, 0, "comparing -0 with 0");
    check_compared_kind(1, infinity, FARIGOLENC_NUMBER, 0, 1, 0, "comparing a subnormal");
    check_compared_kind(infinity, infinity | sign, FARIGOLENC_INFINITY, 0, 0, 0,
                        "comparing infinity");
    check_compared_kind(infinity | sign, infinity, FARIGOLENC_INFINITY, 1, 0, 0,
                        "comparing -infinity");
    check_compared_kind(infinity + 1, infinity, FARIGOLENC_NAN, 0, 0, infinity + 1,
                        "comparing a not-a-number");
    check_compared_kind(UINT64_MAX, UINT64_MAX - 1, FARIGOLENC_NAN, 0, 0, UINT64_MAX,
                        "comparing two not-a-numbers");
}

/* The record of the first points of a run. */
static size_t put_run(uint8_t *record, uint32_t rate, uint32_t side, uint32_t form,
                      const uint64_t *positions, const uint64_t *ratios, size_t points)
{
    farigolenc_write_answer written = farigolenc_write(rate, side, form, positions, points, ratios,
                                                       points, record, FARIGOLENC_RECORD);
    check(written.number == 0, "comparing, a run written");
    return (size_t)written.length;
}

static void check_comparisons(void)
{
    static uint64_t positions[POINTS], ratios[POINTS], later[POINTS], others[POINTS];
    static uint8_t first[FARIGOLENC_RECORD], second[FARIGOLENC_RECORD];
    static difference wanted[2 * POINTS + 5];
    const difference rate = {FARIGOLENC_DIFFERENT_RATE, 0, 96000, 48000};
    const difference side = {FARIGOLENC_DIFFERENT_SIDE, 0, 0, 26};
    const difference sides = {FARIGOLENC_DIFFERENT_SIDE, 0, 1, 26};
    const difference form = {FARIGOLENC_DIFFERENT_FORM, 0, FARIGOLENC_OLD, FARIGOLENC_WIDE};
    uint8_t record[50], other[50];
    size_t lengths[2], count, i;

    memcpy(record, example, 46);
    memset(record + 46, DIRT, 4);
    check_comparison(example, 46, record, 46, wanted, 0, "comparing, equal records");
    check_comparison(example, 46, record, 50, wanted, 0, "comparing, bytes behind a record");
    record[4] = 0;
    record[5] = 0xBB;
    record[6] = 0x80;
    check_comparison(example, 46, record, 50, &rate, 1, "comparing, rate");
    put_side(other, 26);
    check_comparison(example, 46, other, 50, &side, 1, "comparing, side");
    put_side(record, 1);
    check_comparison(record, 50, other, 50, &sides, 1, "comparing, two sides");
    memcpy(record, example, 46);
    record[12] = FARIGOLENC_WIDE;
    check_comparison(example, 46, record, 46, &form, 1, "comparing, form");

    /* Runs that differ in nothing but their points: at each index in both, and in their number. */
    make_run(FARIGOLENC_WIDE, positions, ratios);
    for (i = 0; i < POINTS; i++) {
        later[i] = positions[i] + 1;
        others[i] = ratios[i] ^ UINT64_C(1) << i % 64;
    }
    lengths[0] = put_run(first, 48000, SIDE, FARIGOLENC_WIDE, positions, ratios, POINTS);
    for (i = 0; i < POINTS; i += 23) {
        wanted[0].what = FARIGOLENC_DIFFERENT_POSITION;
        wanted[1].what = FARIGOLENC_DIFFERENT_RATIO;
        wanted[0].index = wanted[1].index = i;
        wanted[0].first = positions[i];
        wanted[1].first = ratios[i];
        wanted[0].second = positions[i] = later[i];
        lengths[1] = put_run(second, 48000, SIDE, FARIGOLENC_WIDE, positions, ratios, POINTS);
        check_comparison(first, lengths[0], second, lengths[1], wanted, 1, "comparing, position");
        wanted[1].second = ratios[i] = others[i];
        lengths[1] = put_run(second, 48000, SIDE, FARIGOLENC_WIDE, positions, ratios, POINTS);
        check_comparison(first, lengths[0], second, lengths[1], wanted, 2, "comparing, point");
        positions[i] = wanted[0].first;
        lengths[1] = put_run(second, 48000, SIDE, FARIGOLENC_WIDE, positions, ratios, POINTS);
        check_comparison(first, lengths[0], second, lengths[1], wanted + 1, 1, "comparing, ratio");
        ratios[i] = wanted[1].first;

        wanted[0].what = FARIGOLENC_DIFFERENT_COUNT;
        wanted[1].what = FARIGOLENC_MORE_POINTS;
        wanted[0].index = wanted[1].index = wanted[1].second = 0;
        wanted[0].first = POINTS;
        wanted[0].second = i;
        wanted[1].first = POINTS - i;
        lengths[1] = put_run(second, 48000, SIDE, FARIGOLENC_WIDE, positions, ratios, i);
        check_comparison(first, lengths[0], second, lengths[1], wanted, 2, "comparing, count");
    }

    /* Runs that differ in everything. */
    make_run(FARIGOLENC_OLD, positions, ratios);
    lengths[0] = put_run(first, 96000, 0, FARIGOLENC_OLD, positions, ratios, POINTS);
    for (i = 0; i < POINTS; i++) {
        later[i] = positions[i] + 1;
        others[i] = ~ratios[i];
    }
    lengths[1] = put_run(second, 48000, 26, FARIGOLENC_WIDE, later, others, POINTS - 2);
    wanted[0] = rate;
    wanted[1] = side;
    wanted[2].what = FARIGOLENC_DIFFERENT_COUNT;
    wanted[2].index = 0;
    wanted[2].first = POINTS;
    wanted[2].second = POINTS - 2;
    wanted[3] = form;
    count = 4;
    for (i = 0; i < POINTS - 2; i++) {
        wanted[count].what = FARIGOLENC_DIFFERENT_POSITION;
        wanted[count].index = i;
        wanted[count].first = positions[i];
        wanted[count++].second = later[i];
        wanted[count].what = FARIGOLENC_DIFFERENT_RATIO;
        wanted[count].index = i;
        wanted[count].first = ratios[i];
        wanted[count++].second = others[i];
    }
    wanted[count].what = FARIGOLENC_MORE_POINTS;
    wanted[count].index = wanted[count].second = 0;
    wanted[count++].first = 2;
    check_comparison(first, lengths[0], second, sizeof second, wanted, count,
                     "comparing, everything differs");
}

int main(void)
{
    const uint32_t limits[] = {3499, 3500, 3501, 3502, 4095, 4096};
    size_t i;

    check_example();
    check_run(FARIGOLENC_OLD);
    check_run(FARIGOLENC_WIDE);
    check_sides();
    check_largest(FARIGOLENC_OLD, FARIGOLENC_POINTS, 5000, 55325);
    check_largest(FARIGOLENC_WIDE, FARIGOLENC_WIDE_POINTS, LAST_POSITION, FARIGOLENC_RECORD);
    check_steps();
    check_forms();
    for (i = 0; i < sizeof limits / sizeof limits[0]; i++) {
        check_limit(0, limits[i]);
        check_limit(SIDE, limits[i]);
    }
    check_moves();
    check_form_refusals();
    check_formless_limits();
    check_kinds();
    check_spans();
    check_reasons();
    check_refusals();
    check_side_refusals();
    check_numbers();
    check_host();
    check_rooms();
    check_comparisons();
    check_compared_slices();
    check_compared_kinds();
    check_made_up_answers();
    check_refused_comparisons();
    if (differences != 0) {
        return 1;
    }
    printf("ok\n");
    return 0;
}
