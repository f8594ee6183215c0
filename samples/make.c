/* Writes the sample records: a steady take, a drifting one, the drifting one cut
 * short, one of a side of the disc, that one taken again, and one in the wide form
 * with a long pause.
 * Usage: make DIRECTORY */
#include "farigolenc.h"

#include <stdio.h>
#include <string.h>

#define STEADY 24
#define DRIFTING 40
#define CUT 100
#define SIDED 12
#define SIDE 4
#define RETAKEN 14
#define PAUSED 16
#define PAUSED_SIDE 2
#define NIGHT (UINT64_C(9) * 3600 * 96000)

static int store(const char *directory, const char *name, const uint8_t *bytes, size_t length)
{
    char path[4096];
    FILE *file;
    size_t stored;
    snprintf(path, sizeof path, "%s/%s", directory, name);
    file = fopen(path, "wb");
    if (file == NULL) {
        return 1;
    }
    stored = fwrite(bytes, 1, length, file);
    return fclose(file) != 0 || stored != length;
}

static uint64_t bits(double value)
{
    uint64_t ratio;
    memcpy(&ratio, &value, sizeof ratio);
    return ratio;
}

int main(int count, char **words)
{
    uint64_t positions[DRIFTING], ratios[DRIFTING];
    uint8_t out[FARIGOLENC_RECORD];
    farigolenc_write_answer steady, drifting, sided, retaken, paused;
    int i;

    if (count != 2) {
        return 2;
    }

    /* Every 10 ms at 96 kHz, at half speed. */
    for (i = 0; i < STEADY; i++) {
        positions[i] = (uint64_t)i * 960;
        ratios[i] = bits(0.5);
    }
    steady = farigolenc_write(96000, 0, FARIGOLENC_OLD, positions, STEADY, ratios, STEADY, out,
                              sizeof out);
    if (steady.number != 0 || store(words[1], "steady", out, steady.length)) {
        return 1;
    }

    /* About every 10 ms at 48 kHz, with a ratio that wanders around 1. */
    for (i = 0; i < DRIFTING; i++) {
        positions[i] = (uint64_t)(100000 + i * 480 + (i * i * 7) % 13 - i / 3);
        ratios[i] = bits(1.0 + (double)((i * i * 5) % 29 - 14) / 4096.0);
    }
    drifting = farigolenc_write(48000, 0, FARIGOLENC_OLD, positions, DRIFTING, ratios, DRIFTING,
                                out, sizeof out);
    if (drifting.number != 0 || store(words[1], "drifting", out, drifting.length)) {
        return 1;
    }
    if (store(words[1], "cut", out, CUT)) {
        return 1;
    }

    /* The beginning of side 4: every 10 ms at 44.1 kHz, with a ratio that settles at 1. */
    for (i = 0; i < SIDED; i++) {
        positions[i] = (uint64_t)i * 441;
        ratios[i] = bits(1.0 + (i < 8 ? (double)(8 - i) / 1024.0 : 0.0));
    }
    sided = farigolenc_write(44100, SIDE, FARIGOLENC_OLD, positions, SIDED, ratios, SIDED, out,
                             sizeof out);
    if (sided.number != 0 || store(words[1], "sided", out, sided.length)) {
        return 1;
    }

    /* The same taken again, two points longer: one position is a sample late, and one ratio is a
     * not-a-number. */
    for (i = SIDED; i < RETAKEN; i++) {
        positions[i] = (uint64_t)i * 441;
        ratios[i] = bits(1.0);
    }
    positions[5] += 1;
    ratios[3] = UINT64_C(0x7FF8000000000000);
    retaken = farigolenc_write(44100, SIDE, FARIGOLENC_OLD, positions, RETAKEN, ratios, RETAKEN,
                               out, sizeof out);
    if (retaken.number != 0 || store(words[1], "retaken", out, retaken.length)) {
        return 1;
    }

    /* The end of one take and the beginning of the next, every 10 ms at 96 kHz: between them the
     * tape was rewound, and the clock went on for nine hours. Only the wide form has codes for the
     * step into the pause and the one back. */
    for (i = 0; i < PAUSED; i++) {
        positions[i] = (uint64_t)i * 960 + (i < PAUSED / 2 ? 0 : NIGHT);
        ratios[i] = bits(1.0 + (double)(i % (PAUSED / 2)) / 2048.0);
    }
    paused = farigolenc_write(96000, PAUSED_SIDE, FARIGOLENC_WIDE, positions, PAUSED, ratios,
                              PAUSED, out, sizeof out);
    return paused.number != 0 || store(words[1], "wide", out, paused.length);
}
