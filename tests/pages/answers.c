/* What the library says to the examples of docs/FORMAT.md, in the words of that page.
   record BYTE..                   check, as one number and in full, and fetch, with room for three points: all that they give, a line each
   reading RATE ROOM ROOM BYTE..   check, its one number, fetch and open reading, a line each, `10 at 0`, `taken` or `taken, side 4, wide form`, with
                                   this rate expected and room for so many positions and ratios; of fetch no side and no form
   writing RATE SIDE FORM NUMBER NUMBER ROOM   the record of so many positions and ratios, all 0, with room for so many bytes, or the refusal
   moving FORM ROOM BYTE..         a move to this form, with room for so many bytes: the bytes used, and the record or the refusal, a tab between
   longest SIDE FORM               a longest record of this side and form, as it stands
   bounds                          of sides, points and records, as the header has them
   forms                           the numbers of the old and of the wide form, as the header has them
   step FORM NUMBER                the bits that a third position with this step adds to the body, or the refusal
   coded FORM POSITION..           the body of the positions' field of these positions, or the refusal
   positions FORM COUNT BYTE..     the positions of this body of the positions' field, or the refusal's number
   form RATIO..                    the bytes of the last of these ratios
   ratios COUNT BYTE..             the ratios of this body of the ratios' field, by fetch and by open reading, a line each
   reason INDEX RATIO..            why the ratio of this index has its form, or the refusal
   span RATE POSITION..            the milliseconds of the span, or the refusal
   comparing BYTE.. and BYTE..     what differs between the records that these inputs begin with, a line each, or `nothing`, or the refusal
   differences                     the numbers of the differences, as the header has them
   live FILL SEEN                  the number that an addition to this state gives
   reader FILL SEEN COUNT OFFSET LENGTH   the number that a step of this reader gives, over so many bytes 00
   widths                          sign and bits of the integers, in the order of the page
   version                         that of the header
   Bytes and ratios are hex; `none` stands for none of them or of positions, and for no rate expected. */
#include "farigolenc.h"

#include <inttypes.h>
#include <stdio.h>
#include <stdlib.h>
#include <string.h>

enum { POINTS = FARIGOLENC_POINTS, LENGTH = 0xFFFF, BYTES = 18 + 2 * LENGTH + 16 };

static uint8_t bytes[BYTES], body[BYTES];
static size_t length, body_length;
static uint64_t positions[POINTS], ratios[POINTS];

static size_t take_bytes(char **words, uint8_t *to)
{
    size_t taken;
    for (taken = 0; *words != NULL && strcmp(*words, "none") != 0; words++) {
        if (taken == BYTES || strlen(*words) != 2) {
            exit(2);
        }
        to[taken++] = (uint8_t)strtoul(*words, NULL, 16);
    }
    return taken;
}

static uint64_t decimal(const char *word)
{
    return strtoull(word, NULL, 10);
}

/* Numbers of a base, or `none`; answers how many. */
static size_t take_numbers(char **words, int base, uint64_t *to)
{
    size_t taken;
    for (taken = 0; *words != NULL && strcmp(*words, "none") != 0; words++) {
        if (taken == POINTS) {
            exit(2);
        }
        to[taken++] = strtoull(*words, NULL, base);
    }
    return taken;
}

static void number(uint64_t value, int size)
{
    while (size-- > 0) {
        bytes[length++] = (uint8_t)(value >> 8 * size);
    }
}

/* The fields of rate and count, and the head of the positions' field. */
static void begin(uint32_t form, size_t count, size_t positions_length)
{
    if (count > POINTS || body_length > LENGTH) {
        exit(2);
    }
    length = 0;
    number(UINT64_C(0x01000400017700), 7);
    number(UINT64_C(0x020002), 3);
    number(count, 2);
    number(form, 1);
    number(positions_length, 2);
}

static void put_body(void)
{
    memcpy(bytes + length, body, body_length);
    length += body_length;
}

/* The points by fetch, with the rest by describe, or all by open reading. */
static farigolenc_read_answer read_all(int open)
{
    const farigolenc_describe_answer described = farigolenc_describe(0, bytes, length);
    farigolenc_fetch_answer fetched;
    farigolenc_read_answer read = {0, 0, 0, 0, 0, 0, 0};
    if (open) {
        return farigolenc_read_open(0, bytes, length, positions, POINTS, ratios, POINTS);
    }
    fetched = farigolenc_fetch(0, bytes, length, positions, POINTS, ratios, POINTS);
    if (fetched.number != described.number || fetched.place != described.place || fetched.count != described.count) {
        exit(3);
    }
    read.number = fetched.number;
    read.count = fetched.count;
    read.form = described.form;
    return read;
}

static void print_bytes(const uint8_t *from, size_t size)
{
    size_t i;
    for (i = 0; i < size; i++) {
        printf("%s%02X", i == 0 ? "" : " ", from[i]);
    }
    putchar('\n');
}

static void print_positions(uint32_t count)
{
    uint32_t i;
    for (i = 0; i < count; i++) {
        printf("%s%" PRIu64, i == 0 ? "" : " ", positions[i]);
    }
    printf("%s\n", count == 0 ? "none" : "");
}

static void print_ratios(uint32_t count)
{
    uint32_t i;
    for (i = 0; i < count; i++) {
        printf("%s%016" PRIX64, i == 0 ? "" : " ", ratios[i]);
    }
    printf("%s\n", count == 0 ? "none" : "");
}

static void record(char **words)
{
    farigolenc_describe_answer described;
    farigolenc_fetch_answer fetched;
    length = take_bytes(words, bytes);
    described = farigolenc_describe(0, bytes, length);
    fetched = farigolenc_fetch(0, bytes, length, positions, 3, ratios, 3);
    printf("check %" PRIu32 "\nnumber %" PRIu32 "\nplace %" PRIu32 "\nrate %" PRIu32 "\nside %" PRIu32 "\ncount %" PRIu32 "\nform %" PRIu32
           "\nsize %" PRIu64 "\n",
           farigolenc_check(0, bytes, length), described.number, described.place, described.rate, described.side, described.count, described.form,
           described.size);
    if (fetched.number != 0 || fetched.place != 0 || fetched.count != described.count) {
        printf("fetched otherwise\n");
    }
    printf("positions ");
    print_positions(fetched.count);
    printf("ratios ");
    print_ratios(fetched.count);
}

/* Whether an output is 0 as far as it was lent, and past that as it was. */
static int cleared(const uint64_t *output, size_t room, uint64_t held)
{
    size_t i;
    for (i = 0; i < POINTS; i++) {
        if (output[i] != (i < room ? 0 : held)) {
            return 0;
        }
    }
    return 1;
}

/* Number and place of a refusal, and whether all else is 0. */
static void print_refused(uint32_t number, uint32_t place, int nothing)
{
    printf("%" PRIu32 " at %" PRIu32 "%s\n", number, place, nothing ? "" : ", and not cleared");
}

/* What was taken, with its side and form where they are not 0 and the old one. */
static void print_taken(uint32_t place, uint32_t side, uint32_t form, uint64_t size)
{
    printf(place == 0 && size <= length ? "taken" : "taken, with a wrong place or length");
    if (side != 0) {
        printf(", side %" PRIu32, side);
    }
    if (form != FARIGOLENC_OLD) {
        printf(form == FARIGOLENC_WIDE ? ", wide form" : ", with a wrong form");
    }
    putchar('\n');
}

static void all_readings(uint32_t expected, size_t positions_room, size_t ratios_room)
{
    const uint64_t held = UINT64_C(0xA5A5A5A5A5A5A5A5);
    const farigolenc_describe_answer d = farigolenc_describe(expected, bytes, length);
    farigolenc_fetch_answer f;
    farigolenc_read_answer r;

    if (d.number == 0) {
        print_taken(d.place, d.side, d.form, d.size);
    } else {
        print_refused(d.number, d.place, d.rate == 0 && d.side == 0 && d.count == 0 && d.form == 0 && d.size == 0);
    }
    printf("%" PRIu32 "\n", farigolenc_check(expected, bytes, length));

    memset(positions, 0xA5, sizeof positions);
    memset(ratios, 0xA5, sizeof ratios);
    f = farigolenc_fetch(expected, bytes, length, positions, positions_room, ratios, ratios_room);
    if (f.number == 0) {
        printf(f.place == 0 && f.count == d.count ? "taken\n" : "taken, with a wrong place or count\n");
    } else {
        print_refused(f.number, f.place, f.count == 0 && cleared(positions, positions_room, held) && cleared(ratios, ratios_room, held));
    }

    memset(positions, 0xA5, sizeof positions);
    memset(ratios, 0xA5, sizeof ratios);
    r = farigolenc_read_open(expected, bytes, length, positions, positions_room, ratios, ratios_room);
    if (r.number == 0) {
        print_taken(r.place, r.side, r.form, r.used);
    } else {
        print_refused(r.number, r.place, r.rate == 0 && r.side == 0 && r.count == 0 && r.form == 0 && r.used == 0 &&
                      cleared(positions, positions_room, held) && cleared(ratios, ratios_room, held));
    }
}

static void print_refusal(farigolenc_write_answer written)
{
    printf("refused %" PRIu32 " at %" PRIu32 "\n", written.number, written.place);
}

static void writing(uint32_t rate, uint32_t side, uint32_t form, size_t positions_count, size_t ratios_count, size_t room)
{
    static const uint64_t zeros[POINTS + 1];
    farigolenc_write_answer written;
    size_t i;
    if (positions_count > POINTS + 1 || ratios_count > POINTS + 1 || room > sizeof bytes) {
        exit(2);
    }
    memset(bytes, 0xA5, sizeof bytes);
    written = farigolenc_write(rate, side, form, zeros, positions_count, zeros, ratios_count, bytes, room);
    if (written.number == 0) {
        print_bytes(bytes, (size_t)written.length);
    } else {
        print_refusal(written);
    }
    for (i = written.number == 0 ? (size_t)written.length : 0; i < sizeof bytes; i++) {
        if (bytes[i] != (written.number != 0 && i < room ? 0 : 0xA5)) {
            printf("and a wrong byte at %zu\n", i);
            return;
        }
    }
}

static void moving(uint32_t form, size_t room)
{
    farigolenc_move_answer moved;
    size_t i;
    if (room > sizeof body) {
        exit(2);
    }
    memset(body, 0xA5, sizeof body);
    moved = (form == FARIGOLENC_WIDE ? farigolenc_to_wide : farigolenc_to_old)(bytes, length, body, room);
    printf("%" PRIu64 "\t", moved.used);
    if (moved.number == 0) {
        print_bytes(body, (size_t)moved.length);
    } else {
        printf("refused %" PRIu32 " at %" PRIu32 "\n", moved.number, moved.place);
    }
    if (moved.number == 0 ? moved.place != 0 : moved.length != 0) {
        printf("and a wrong place or length\n");
    }
    for (i = moved.number == 0 ? (size_t)moved.length : 0; i < sizeof body; i++) {
        if (body[i] != (moved.number != 0 && i < room ? 0 : 0xA5)) {
            printf("and a wrong byte at %zu\n", i);
            return;
        }
    }
}

/* Each step is in the form's last row. Each ratio is an exception: it has eight times the same byte, which comes back after 200 ratios. */
static void longest(uint32_t side, uint32_t form)
{
    const int wide = form == FARIGOLENC_WIDE;
    const size_t count = wide ? FARIGOLENC_WIDE_POINTS : POINTS;
    farigolenc_write_answer written;
    size_t i;
    for (i = 0; i < count; i++) {
        positions[i] = (uint64_t)(i % 2) << (wide ? 40 : 20);
        ratios[i] = (i % 200 + 1) * UINT64_C(0x0101010101010101);
    }
    written = farigolenc_write(96000, side, form, positions, count, ratios, count, bytes, sizeof bytes);
    fwrite(bytes, 1, (size_t)written.length, stdout);
}

static void step(uint32_t form, int64_t step)
{
    const uint64_t middle = UINT64_C(1) << 40, run[3] = {middle, middle, middle + (uint64_t)step};
    farigolenc_write_answer written = farigolenc_write(48000, 0, form, run, 3, ratios, 3, bytes, sizeof bytes);
    size_t i;
    if (written.number != 0) {
        print_refusal(written);
        return;
    }
    for (i = 8 * 31; i < 8 * (15 + (size_t)(bytes[13] * 256 + bytes[14])); i++) {
        putchar('0' + (bytes[i / 8] >> (7 - i % 8) & 1));
    }
    putchar('\n');
}

static void coded(uint32_t form, char **words)
{
    const size_t count = take_numbers(words, 10, positions);
    farigolenc_write_answer written = farigolenc_write(48000, 0, form, positions, count, ratios, count, bytes, sizeof bytes);
    if (written.number != 0) {
        print_refusal(written);
        return;
    }
    print_bytes(bytes + 15, (size_t)(bytes[13] * 256 + bytes[14]));
}

static void form(char **words)
{
    farigolenc_live state = farigolenc_live_new();
    farigolenc_write_answer added = {0, 0, 0};
    for (; *words != NULL; words++) {
        added = farigolenc_live_add(&state, strtoull(*words, NULL, 16), bytes, FARIGOLENC_RATIO_FORM);
    }
    print_bytes(bytes, (size_t)added.length);
}

/* A record with this body of positions, and ratios that are all 0. */
static void body_of_positions(uint32_t form, size_t count)
{
    const size_t ratios_length = count == 0 ? 0 : 8 + count;
    int open;
    begin(form, count, body_length);
    put_body();
    number(4, 1);
    number(ratios_length, 2);
    memset(bytes + length, 0, ratios_length);
    if (ratios_length > 0) {
        bytes[length] = 0xFF;
    }
    length += ratios_length;
    for (open = 0; open < 2; open++) {
        farigolenc_read_answer read = read_all(open);
        if (read.number != 0) {
            printf("%" PRIu32 "\n", read.number);
        } else if (read.form == form) {
            print_positions(read.count);
        }
    }
}

/* A record with this body of ratios, and positions that are all 0. */
static void body_of_ratios(size_t count)
{
    const size_t positions_length = count < 2 ? 8 * count : 16 + (count - 2 + 7) / 8;
    int open;
    begin(FARIGOLENC_OLD, count, positions_length);
    memset(bytes + length, 0, positions_length);
    length += positions_length;
    number(4, 1);
    number(body_length, 2);
    put_body();
    for (open = 0; open < 2; open++) {
        farigolenc_read_answer read = read_all(open);
        if (read.number != 0) {
            printf("%" PRIu32 "\n", read.number);
        } else {
            print_ratios(read.count);
        }
    }
}

static void reason(uint64_t index, char **words)
{
    const size_t count = take_numbers(words, 16, ratios);
    farigolenc_explain_answer why = farigolenc_explain(ratios, count, index);
    if (why.number != 0 && why.reason == 0) {
        printf("refused %" PRIu32 " at %" PRIu32 "\n", why.number, why.place);
    } else if (why.reason == FARIGOLENC_REFERENCE) {
        printf("equal to place %" PRIu32 "\n", why.at);
    } else if (why.reason == FARIGOLENC_XOR && why.sum == why.leading + why.trailing) {
        printf("xor with place %" PRIu32 ", %" PRIu32 " leading and %" PRIu32 " trailing zero bytes\n", why.at, why.leading, why.trailing);
    } else if (why.reason == FARIGOLENC_EXCEPTION) {
        printf("exception, best sum %" PRIu32 "\n", why.sum);
    } else if (why.reason == FARIGOLENC_EMPTY_WINDOW) {
        printf("exception, window empty\n");
    }
}

static void span(uint32_t rate, char **words)
{
    const size_t count = take_numbers(words, 10, positions);
    farigolenc_span_answer answer = farigolenc_span(rate, positions, count);
    if (answer.number != 0 && answer.milliseconds == 0) {
        printf("refused %" PRIu32 " at %" PRIu32 "\n", answer.number, answer.place);
    } else if (answer.number == 0 && answer.place == 0) {
        printf("%" PRId64 "\n", answer.milliseconds);
    }
}

static void live(char **words)
{
    farigolenc_live state = farigolenc_live_new();
    state.fill = decimal(words[0]);
    state.seen = decimal(words[1]);
    printf("%" PRIu32 "\n", farigolenc_live_add(&state, 0, bytes, FARIGOLENC_RATIO_FORM).number);
}

static void reader(char **words)
{
    farigolenc_cursor state = farigolenc_cursor_new(0).cursor;
    state.fill = decimal(words[0]);
    state.seen = decimal(words[1]);
    state.count = decimal(words[2]);
    state.place = decimal(words[3]);
    body_length = (size_t)decimal(words[4]);
    if (body_length > sizeof body) {
        exit(2);
    }
    printf("%" PRIu32 "\n", farigolenc_step(body, body_length, state).number);
}

/* What is lent, by types that the header's declarations must have. */
typedef uint32_t lent_rate, lent_side, lent_form;
typedef uint64_t lent_point, lent_count, lent_index;
static farigolenc_write_answer (*const write_call)(
    lent_rate, lent_side, lent_form, const lent_point *, size_t, const lent_point *, size_t, uint8_t *, size_t) = farigolenc_write;
static uint32_t (*const check_call)(lent_rate, const uint8_t *, size_t) = farigolenc_check;
static farigolenc_describe_answer (*const describe_call)(lent_rate, const uint8_t *, size_t) = farigolenc_describe;
static farigolenc_fetch_answer (*const fetch_call)(
    lent_rate, const uint8_t *, size_t, lent_point *, size_t, lent_point *, size_t) = farigolenc_fetch;
static farigolenc_read_answer (*const read_call)(
    lent_rate, const uint8_t *, size_t, lent_point *, size_t, lent_point *, size_t) = farigolenc_read_open;
static farigolenc_move_answer (*const move_calls[2])(const uint8_t *, size_t, uint8_t *, size_t) = {farigolenc_to_wide, farigolenc_to_old};
static farigolenc_span_answer (*const span_call)(lent_rate, const lent_point *, size_t) = farigolenc_span;
static farigolenc_write_answer (*const add_call)(farigolenc_live *, lent_point, uint8_t *, size_t) = farigolenc_live_add;
static farigolenc_cursor_answer (*const making_call)(lent_count) = farigolenc_cursor_new;
static farigolenc_explain_answer (*const explain_call)(const lent_point *, size_t, lent_index) = farigolenc_explain;
static farigolenc_difference_answer (*const compare_calls[2])(const lent_point *, size_t, const lent_point *, size_t, lent_index) = {
    farigolenc_compare_positions, farigolenc_compare_ratios};

/* Sign and bits of one integer. */
#define WIDTH(integer) ((integer) = -1, printf("%s\t%d\n", (integer) > 0 ? "unsigned" : "signed", (int)(8 * sizeof(integer))))

/* The same of several that must agree. */
#define SAME(one, other) ((one) = -1, (other) = -1, (sizeof(one) == sizeof(other) && ((one) > 0) == ((other) > 0)) ? (void)0 : exit(2))

static void widths(void)
{
    lent_rate rate;
    lent_side side;
    lent_form form;
    lent_point point;
    lent_count count;
    lent_index index;
    farigolenc_explain_answer why;
    farigolenc_write_answer written;
    uint32_t checked;
    farigolenc_describe_answer described;
    farigolenc_fetch_answer fetched;
    farigolenc_read_answer read;
    farigolenc_move_answer moved;
    farigolenc_span_answer span;
    farigolenc_cursor_answer made;
    farigolenc_step_answer stepped;
    farigolenc_live state;
    farigolenc_cursor cursor;
    farigolenc_overall_answer overall;
    farigolenc_difference_answer d;
    if (!compare_calls[0] || !compare_calls[1] || !write_call || !check_call || !describe_call || !fetch_call || !read_call || !move_calls[0] || !move_calls[1] || !span_call || !add_call || !making_call || !explain_call) {
        exit(2);
    }
    SAME(rate, side);
    SAME(rate, form);
    WIDTH(rate);
    WIDTH(point);
    SAME(read.number, read.place);
    SAME(read.number, described.number);
    SAME(read.number, described.place);
    SAME(read.number, fetched.number);
    SAME(read.number, fetched.place);
    SAME(read.number, written.number);
    SAME(read.number, written.place);
    SAME(read.number, moved.number);
    SAME(read.number, moved.place);
    SAME(read.number, span.number);
    SAME(read.number, span.place);
    SAME(read.number, made.number);
    SAME(read.number, made.place);
    SAME(read.number, stepped.number);
    SAME(read.number, stepped.place);
    SAME(read.number, why.number);
    SAME(read.number, why.place);
    SAME(read.number, overall.number);
    SAME(read.number, overall.place);
    WIDTH(read.number);
    WIDTH(checked);
    SAME(read.rate, described.rate);
    SAME(read.rate, described.side);
    SAME(read.rate, described.count);
    SAME(read.rate, described.form);
    SAME(read.rate, fetched.count);
    SAME(read.rate, read.side);
    SAME(read.rate, read.count);
    SAME(read.rate, read.form);
    WIDTH(read.rate);
    SAME(written.length, moved.length);
    WIDTH(written.length);
    SAME(read.used, moved.used);
    SAME(read.used, described.size);
    WIDTH(read.used);
    WIDTH(span.milliseconds);
    WIDTH(count);
    WIDTH(stepped.ratio);
    SAME(state.fill, state.seen);
    SAME(state.fill, cursor.fill);
    SAME(state.fill, cursor.seen);
    SAME(state.fill, cursor.count);
    SAME(state.fill, cursor.place);
    WIDTH(state.fill);
    WIDTH(index);
    SAME(why.reason, why.at);
    SAME(why.reason, why.leading);
    SAME(why.reason, why.trailing);
    SAME(why.reason, why.sum);
    WIDTH(why.reason);
    SAME(overall.which, d.what);
    WIDTH(overall.which);
    SAME(index, d.index);
    SAME(index, d.first);
    SAME(index, d.second);
    WIDTH(d.index);
}

static const struct {
    uint32_t what;
    const char *word;
} differences[] = {
    {FARIGOLENC_NO_DIFFERENCE, "nothing"},
    {FARIGOLENC_DIFFERENT_RATE, "rate"},
    {FARIGOLENC_DIFFERENT_SIDE, "side"},
    {FARIGOLENC_DIFFERENT_COUNT, "count"},
    {FARIGOLENC_DIFFERENT_FORM, "form"},
    {FARIGOLENC_DIFFERENT_POSITION, "position"},
    {FARIGOLENC_DIFFERENT_RATIO, "ratio"},
    {FARIGOLENC_MORE_POINTS, "more"},
};

/* The word and the bits of a ratio, by its kind. */
static void kind_and_bits(farigolenc_kind_answer kind, uint64_t ratio)
{
    static const char *const kinds[] = {[FARIGOLENC_NUMBER] = "number", [FARIGOLENC_INFINITY] = "infinity", [FARIGOLENC_NAN] = "nan"};
    printf(" %s %016" PRIx64, kinds[kind.kind], ratio);
}

/* The line of a difference, if it is one; answers how many. */
static int difference(farigolenc_difference_answer d)
{
    if (d.what == FARIGOLENC_NO_DIFFERENCE) {
        return 0;
    }
    printf("%s", differences[d.what].word);
    if (d.what == FARIGOLENC_DIFFERENT_POSITION || d.what == FARIGOLENC_DIFFERENT_RATIO) {
        printf(" %" PRIu64, d.index);
    }
    if (d.what == FARIGOLENC_DIFFERENT_RATIO) {
        kind_and_bits(d.first_kind, d.first);
        kind_and_bits(d.second_kind, d.second);
    } else {
        printf(" %" PRIu64, d.first);
        if (d.what != FARIGOLENC_MORE_POINTS) {
            printf(" %" PRIu64, d.second);
        }
    }
    printf("\n");
    return 1;
}

static void comparing(char **words)
{
    static uint8_t other_bytes[BYTES];
    static uint64_t others[2][POINTS];
    size_t other_length;
    farigolenc_describe_answer first, second;
    farigolenc_overall_answer overall;
    uint64_t i;
    int lines;
    char **end = words;
    while (*end != NULL && strcmp(*end, "and") != 0) {
        end++;
    }
    if (*end == NULL) {
        exit(2);
    }
    *end = NULL;
    length = take_bytes(words, bytes);
    other_length = take_bytes(end + 1, other_bytes);
    first = farigolenc_describe(0, bytes, length);
    second = farigolenc_describe(0, other_bytes, other_length);
    overall = farigolenc_compare_overall(first, second);
    if (overall.number != 0) {
        printf("refused %" PRIu32 " at %" PRIu32 " in %" PRIu32 "\n", overall.number, overall.place, overall.which);
        return;
    }
    if (farigolenc_fetch(0, bytes, length, positions, first.count, ratios, first.count).number != 0 ||
        farigolenc_fetch(0, other_bytes, other_length, others[0], second.count, others[1], second.count).number != 0) {
        exit(3);
    }
    lines = difference(overall.rate);
    lines += difference(overall.side);
    lines += difference(overall.count);
    lines += difference(overall.form);
    for (i = 0; i < first.count || i < second.count; i++) {
        lines += difference(farigolenc_compare_positions(positions, first.count, others[0], second.count, i));
        lines += difference(farigolenc_compare_ratios(ratios, first.count, others[1], second.count, i));
    }
    lines += difference(overall.more);
    if (lines == 0) {
        printf("nothing\n");
    }
}

int main(int count, char **words)
{
    const char *mode = count > 1 ? words[1] : "";
    if (strcmp(mode, "record") == 0) {
        record(words + 2);
    } else if (strcmp(mode, "reading") == 0 && count > 5) {
        const uint64_t room[2] = {decimal(words[3]), decimal(words[4])};
        length = take_bytes(words + 5, bytes);
        if (room[0] > POINTS || room[1] > POINTS) {
            return 2;
        }
        all_readings(strcmp(words[2], "none") == 0 ? 0 : (uint32_t)decimal(words[2]), (size_t)room[0], (size_t)room[1]);
    } else if (strcmp(mode, "writing") == 0 && count == 8) {
        writing((uint32_t)decimal(words[2]), (uint32_t)decimal(words[3]), (uint32_t)decimal(words[4]), (size_t)decimal(words[5]), (size_t)decimal(words[6]),
                (size_t)decimal(words[7]));
    } else if (strcmp(mode, "moving") == 0 && count > 4) {
        length = take_bytes(words + 4, bytes);
        moving((uint32_t)decimal(words[2]), (size_t)decimal(words[3]));
    } else if (strcmp(mode, "longest") == 0 && count == 4) {
        longest((uint32_t)decimal(words[2]), (uint32_t)decimal(words[3]));
    } else if (strcmp(mode, "bounds") == 0) {
        printf("side\t0 to %d\npoints\t0 to %d\t0 to %d\nrecord\t%d\n", FARIGOLENC_SIDES, FARIGOLENC_POINTS, FARIGOLENC_WIDE_POINTS, FARIGOLENC_RECORD);
    } else if (strcmp(mode, "forms") == 0) {
        printf("old\t%d\nwide\t%d\n", FARIGOLENC_OLD, FARIGOLENC_WIDE);
    } else if (strcmp(mode, "step") == 0 && count == 4) {
        step((uint32_t)decimal(words[2]), strtoll(words[3], NULL, 10));
    } else if (strcmp(mode, "coded") == 0 && count > 3) {
        coded((uint32_t)decimal(words[2]), words + 3);
    } else if (strcmp(mode, "positions") == 0 && count > 4) {
        body_length = take_bytes(words + 4, body);
        body_of_positions((uint32_t)decimal(words[2]), (size_t)decimal(words[3]));
    } else if (strcmp(mode, "form") == 0) {
        form(words + 2);
    } else if (strcmp(mode, "ratios") == 0 && count > 3) {
        body_length = take_bytes(words + 3, body);
        body_of_ratios((size_t)decimal(words[2]));
    } else if (strcmp(mode, "reason") == 0 && count > 3) {
        reason(decimal(words[2]), words + 3);
    } else if (strcmp(mode, "span") == 0 && count > 3) {
        span((uint32_t)decimal(words[2]), words + 3);
    } else if (strcmp(mode, "comparing") == 0) {
        comparing(words + 2);
    } else if (strcmp(mode, "differences") == 0) {
        for (size_t i = 0; i < sizeof differences / sizeof *differences; i++) {
            printf("%" PRIu32 "\t%s\n", differences[i].what, differences[i].word);
        }
    } else if (strcmp(mode, "live") == 0 && count == 4) {
        live(words + 2);
    } else if (strcmp(mode, "reader") == 0 && count == 7) {
        reader(words + 2);
    } else if (strcmp(mode, "widths") == 0) {
        widths();
    } else if (strcmp(mode, "version") == 0) {
        printf("%d.%d\n", FARIGOLENC_VERSION_MAJOR, FARIGOLENC_VERSION_MINOR);
    } else {
        return 2;
    }
    return 0;
}
