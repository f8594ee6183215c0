/* Measures how much of the stack the calls need, each on a thread of its own whose
 * stack was painted before, less what a thread needs that calls nothing. Records of few points and of
 * as many as a form takes, of several kinds of ratios and steps, sound, cut and damaged. Prints the
 * most bytes of each call, and returns 1 where one takes more than include/farigolenc.h says. */

#define _POSIX_C_SOURCE 200809L

#include "farigolenc.h"

#include <pthread.h>
#include <stdio.h>
#include <stdlib.h>
#include <string.h>

#define STACK (256 * 1024)
#define PAINT 0xA5
#define ROOM FARIGOLENC_POINTS

/* What the header says of check and describe, and what is held of the others. */
#define CHECK_STACK (8 * 1024)
#define OTHER_STACK (8 * 1024)

static uint8_t record[FARIGOLENC_RECORD], out[FARIGOLENC_RECORD];
static size_t length, points;
static uint32_t run_form;
static farigolenc_live full;
static uint64_t positions[ROOM], ratios[ROOM], read_positions[ROOM], read_ratios[ROOM];
static volatile uint64_t kept;

static void *nothing(void *unused)
{
    return unused;
}

static void *check_it(void *unused)
{
    kept = farigolenc_check(0, record, length);
    return unused;
}

static void *describe_it(void *unused)
{
    kept = farigolenc_describe(0, record, length).size;
    return unused;
}

static void *fetch_it(void *unused)
{
    kept = farigolenc_fetch(0, record, length, read_positions, ROOM, read_ratios, ROOM).count;
    return unused;
}

static void *read_it(void *unused)
{
    kept = farigolenc_read_open(0, record, length, read_positions, ROOM, read_ratios, ROOM).used;
    return unused;
}

static void *move_to_wide(void *unused)
{
    kept = farigolenc_to_wide(record, length, out, sizeof out).length;
    return unused;
}

static void *move_to_old(void *unused)
{
    kept = farigolenc_to_old(record, length, out, sizeof out).length;
    return unused;
}

static void *write_it(void *unused)
{
    kept = farigolenc_write(48000, 4, run_form, positions, points, ratios, points, out, sizeof out)
               .length;
    return unused;
}

/* To a full window, a ratio that is not in it. */
static void *add_to_it(void *unused)
{
    farigolenc_live state = full;
    kept = farigolenc_live_add(&state, UINT64_C(0x0123456789ABCDEF), out, sizeof out).length;
    return unused;
}

/* From a full window, a ratio that is not in it. */
static void *step_from_it(void *unused)
{
    static const uint8_t body[9] = {255, 1, 35, 69, 103, 137, 171, 205, 239};
    farigolenc_cursor cursor = farigolenc_cursor_new(FARIGOLENC_POINTS).cursor;
    memcpy(cursor.ratios, full.ratios, sizeof cursor.ratios);
    cursor.fill = full.fill;
    cursor.seen = full.seen;
    kept = farigolenc_step(body, sizeof body, cursor).ratio;
    return unused;
}

static void *explain_it(void *unused)
{
    kept = farigolenc_explain(ratios, points, points - 1).number;
    return unused;
}

static void *span_it(void *unused)
{
    kept = (uint64_t)farigolenc_span(48000, positions, points).milliseconds;
    return unused;
}

static void *compare_it(void *unused)
{
    const farigolenc_describe_answer described = farigolenc_describe(0, record, length);
    kept = farigolenc_compare_overall(described, described).number;
    kept += farigolenc_compare_ratios(ratios, points, positions, points, points - 1).what;
    return unused;
}

static struct {
    const char *name;
    void *(*call)(void *);
    size_t limit, most;
} calls[] = {
    {"check", check_it, CHECK_STACK, 0},
    {"describe", describe_it, CHECK_STACK, 0},
    {"fetch", fetch_it, OTHER_STACK, 0},
    {"open reading", read_it, OTHER_STACK, 0},
    {"move to wide", move_to_wide, OTHER_STACK, 0},
    {"move to old", move_to_old, OTHER_STACK, 0},
    {"writing", write_it, OTHER_STACK, 0},
    {"live addition", add_to_it, OTHER_STACK, 0},
    {"a step", step_from_it, OTHER_STACK, 0},
    {"explaining", explain_it, OTHER_STACK, 0},
    {"span", span_it, OTHER_STACK, 0},
    {"describing and comparing", compare_it, OTHER_STACK, 0},
};

enum { CALLS = sizeof calls / sizeof calls[0] };

/* How far down a thread that makes a call changes its painted stack. */
static size_t depth(void *(*call)(void *))
{
    static unsigned char *stack;
    pthread_attr_t attributes;
    pthread_t thread;
    size_t untouched = 0;

    if (stack == NULL && posix_memalign((void **)&stack, 4096, STACK) != 0) {
        exit(2);
    }
    memset(stack, PAINT, STACK);
    /* Symbols are resolved before, on this thread. */
    call(NULL);
    if (pthread_attr_init(&attributes) != 0 ||
        pthread_attr_setstack(&attributes, stack, STACK) != 0 ||
        pthread_create(&thread, &attributes, call, NULL) != 0 || pthread_join(thread, NULL) != 0) {
        exit(2);
    }
    pthread_attr_destroy(&attributes);
    while (untouched < STACK && stack[untouched] == PAINT) {
        untouched++;
    }
    return STACK - untouched;
}

static void measure(void)
{
    const size_t least = depth(nothing);
    size_t i;
    for (i = 0; i < CALLS; i++) {
        const size_t bytes = depth(calls[i].call) - least;
        if (bytes > calls[i].most) {
            calls[i].most = bytes;
        }
    }
}

static void make_points(size_t count, uint32_t form, int kind)
{
    const uint64_t far = form == FARIGOLENC_WIDE ? UINT64_C(1) << 40 : 5000;
    uint64_t noise = 88172645463325252u;
    size_t i;
    for (i = 0; i < count; i++) {
        noise ^= noise << 13;
        noise ^= noise >> 7;
        noise ^= noise << 17;
        positions[i] = 960 * i + (kind == 0 ? 0 : i % 2 * far);
        switch (kind) {
        case 0:
            ratios[i] = 1;
            break;
        case 1:
            ratios[i] = noise;
            break;
        case 2:
            ratios[i] = UINT64_C(0x3FF0000000000000) | noise >> 40;
            break;
        default:
            ratios[i] = i % 3 == 0 || i < 128 ? noise : ratios[i - 1 - noise % 127];
        }
    }
}

int main(void)
{
    const uint32_t forms[2] = {FARIGOLENC_OLD, FARIGOLENC_WIDE};
    const size_t most[2] = {FARIGOLENC_POINTS, FARIGOLENC_WIDE_POINTS};
    int failed = 0, form, kind;
    size_t i, n;

    full = farigolenc_live_new();
    for (i = 0; i < FARIGOLENC_WINDOW; i++) {
        farigolenc_live_add(&full, i * UINT64_C(0x9E3779B97F4A7C15), out, sizeof out);
    }
    for (form = 0; form < 2; form++) {
        /* To wide no more than the wide form takes are moved. */
        const size_t counts[4] = {8, 64, FARIGOLENC_WIDE_POINTS, most[form]};
        for (n = 0; n < 4; n++) {
            for (kind = 0; kind < 4; kind++) {
                farigolenc_write_answer written;
                make_points(counts[n], forms[form], kind);
                written = farigolenc_write(48000, 4, forms[form], positions, counts[n], ratios,
                                           counts[n], record, sizeof record);
                if (written.number != 0) {
                    printf("stack: a run was refused by %u\n", (unsigned)written.number);
                    return 1;
                }
                length = (size_t)written.length;
                points = counts[n];
                run_form = forms[form];
                measure();
                length--;
                measure();
                record[length++] ^= 1;
                measure();
            }
        }
    }
    for (i = 0; i < CALLS; i++) {
        printf("stack: %s %lu bytes\n", calls[i].name, (unsigned long)calls[i].most);
        if (calls[i].most > calls[i].limit) {
            printf("stack: more than %lu\n", (unsigned long)calls[i].limit);
            failed = 1;
        }
    }
    return failed;
}
