/* Inputs for the test of the listing program that are too long to be stored. FORM is the tag of the positions' field, 3 for the old form and 5
   for the wide one; SIDE is 0 for none.
   record FORM SIDE     the largest record, in the old form of 55,321 bytes, in the wide one of 61,705, and with a side of four more. Two
                        positions take turns, 0 and 5000 or the last of all, so that each step stands in the last row; each ratio is an
                        exception: i % 128 in the top byte and in the lowest
   text FORM SIDE       its listing
   stated FORM SIDE N   good fields up to the count, the head of the positions with the stated length N, and zeros, 70,000 bytes in all */
#include <stdio.h>
#include <stdlib.h>
#include <string.h>

enum { RATE = 44100 };

/* of the form: its tag, the largest number of points, the position that takes turns with 0, the bytes of the positions, and of a step the
   prefix, its bits and those behind it */
static const struct form {
    int tag, points;
    unsigned long long far;
    int length, prefix, prefix_bits, bits;
} forms[] = {
    {3, 4096, 5000, 18439, 15, 4, 32},
    {5, 3500, (1ULL << 62) - 1, 30187, 31, 5, 64},
};

static void number(unsigned long long x, int n) {
    while (n-- > 0) putchar((int)(x >> 8 * n & 255));
}

static void head(int tag, int n) {
    number(tag, 1);
    number(n, 2);
}

static unsigned char_bits, bits_held;

/* the low n bits of x, from the top bit of each byte down */
static void bits(unsigned long long x, int n) {
    while (n-- > 0) {
        char_bits = char_bits << 1 | (unsigned)(x >> n & 1);
        if (++bits_held == 8) {
            putchar((int)char_bits);
            char_bits = bits_held = 0;
        }
    }
}

static unsigned long long position(const struct form *form, int i) { return i % 2 * form->far; }

static unsigned long long ratio(int i) { return i % 128 * ((1ULL << 56) + 1); }

static void front(int side, int points) {
    head(1, 4);
    number(RATE, 4);
    if (side) {
        head(6, 1);
        number(side, 1);
    }
    head(2, 2);
    number(points, 2);
}

static void record(const struct form *form, int side) {
    front(side, form->points);
    head(form->tag, form->length);
    bits(position(form, 0), 64);
    bits(position(form, 1), 64);
    for (int i = 2; i < form->points; i++) {
        bits(form->prefix, form->prefix_bits);
        bits(position(form, i) - 2 * position(form, i - 1) + position(form, i - 2), form->bits);
    }
    while (bits_held) bits(0, 1);
    head(4, 9 * form->points);
    for (int i = 0; i < form->points; i++) {
        number(255, 1);
        number(ratio(i), 8);
    }
}

static void text(const struct form *form, int side) {
    printf("rate %d\n", RATE);
    if (side) printf("side %d\n", side);
    printf("count %d\nspan %llu\n", form->points, form->far / RATE * 1000 + form->far % RATE * 1000 / RATE);
    for (int i = 0; i < form->points; i++) printf("%llu %016llx\n", position(form, i), ratio(i));
}

static void stated(const struct form *form, int side, int n) {
    front(side, 3);
    head(form->tag, n);
    for (int i = side ? 19 : 15; i < 70000; i++) putchar(0);
}

int main(int n, char **words) {
    const struct form *form;
    int side;
    if (n < 4) return 1;
    form = &forms[atoi(words[2]) == 5];
    side = atoi(words[3]);
    if (n == 4 && !strcmp(words[1], "record")) record(form, side);
    else if (n == 4 && !strcmp(words[1], "text")) text(form, side);
    else if (n == 5 && !strcmp(words[1], "stated")) stated(form, side, atoi(words[4]));
    else return 1;
    return 0;
}
