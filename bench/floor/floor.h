/* What the programs of this folder share: whole files in memory, and the numbers of a metric file. */
#ifndef FLOOR_H
#define FLOOR_H

#include <stddef.h>
#include <stdint.h>
#include <stdio.h>
#include <stdlib.h>

enum { CHARACTERS = 128, NO_STEP = 0, LIGATURE = 0x8000, MOST_KERNS = 512, MOST_BYTES = 1 << 21 };

/* The metrics of the one font, at its design size, in scaled points. */
typedef struct {
    int32_t width[CHARACTERS], height[CHARACTERS], depth[CHARACTERS], kern[MOST_KERNS], space[3];
    /* What two characters make: nothing, 1 + the number of a kern, or LIGATURE and a character. */
    uint16_t pair[CHARACTERS][CHARACTERS];
    uint8_t has[CHARACTERS];
} Font;

/* A file in memory. */
typedef struct {
    uint8_t *bytes;
    size_t length;
} File;

static File read_file(const char *path)
{
    FILE *file = fopen(path, "rb");
    File it = {malloc(MOST_BYTES), 0};
    if (!file || !it.bytes) {
        perror(path);
        exit(2);
    }
    it.length = fread(it.bytes, 1, MOST_BYTES, file);
    fclose(file);
    return it;
}

/* Four bytes as a number, the highest first. */
static int32_t number_at(const uint8_t *bytes)
{
    return (int32_t)((uint32_t)bytes[0] << 24 | (uint32_t)bytes[1] << 16 | (uint32_t)bytes[2] << 8 | bytes[3]);
}

/* A fix_word times the size, as TeX rounds it. */
static int32_t scaled(const uint8_t *fix, int32_t size)
{
    int32_t alpha = 16;
    while (size >= 0x800000) {
        size /= 2;
        alpha += alpha;
    }
    int64_t product = ((((int64_t)fix[3] * size) / 256 + (int64_t)fix[2] * size) / 256 + (int64_t)fix[1] * size) / (256 / alpha);
    return (int32_t)(fix[0] == 0 ? product : product - (int64_t)alpha * size);
}

/* The steps of a character, up to the last. The first step for a pair counts. */
static void read_steps(Font *font, int character, const uint8_t *steps, int at)
{
    if (steps[4 * at] > 128)
        at = 256 * steps[4 * at + 2] + steps[4 * at + 3];
    for (;;) {
        const uint8_t *step = steps + 4 * at;
        if (step[0] <= 128 && step[1] < CHARACTERS && !font->pair[character][step[1]])
            font->pair[character][step[1]] = (uint16_t)(step[2] >= 128 ? 1 + 256 * (step[2] - 128) + step[3] : LIGATURE | step[3]);
        if (step[0] >= 128)
            return;
        at += step[0] + 1;
    }
}

/* Reads a metric file without a check. Its twelve lengths come first, each of two bytes. */
static Font read_font(const char *path)
{
    Font font = {0};
    uint8_t *tfm = read_file(path).bytes;
    int length[12];
    for (int i = 0; i < 12; i++)
        length[i] = tfm[2 * i] << 8 | tfm[2 * i + 1];
    int first = length[2], last = length[3];
    int32_t size = number_at(tfm + 28) >> 4;
    const uint8_t *info = tfm + 24 + 4 * length[1], *widths = info + 4 * (last - first + 1), *heights = widths + 4 * length[4];
    const uint8_t *depths = heights + 4 * length[5], *steps = depths + 4 * length[6] + 4 * length[7], *kerns = steps + 4 * length[8];
    for (int i = 0; i < length[9]; i++)
        font.kern[i] = scaled(kerns + 4 * i, size);
    for (int i = first; i <= last && i < CHARACTERS; i++) {
        const uint8_t *it = info + 4 * (i - first);
        font.has[i] = 1;
        font.width[i] = scaled(widths + 4 * it[0], size);
        font.height[i] = scaled(heights + 4 * (it[1] >> 4), size);
        font.depth[i] = scaled(depths + 4 * (it[1] & 15), size);
        if ((it[2] & 3) == 1)
            read_steps(&font, i, steps, it[3]);
    }
    for (int i = 0; i < 3; i++)
        font.space[i] = scaled(kerns + 4 * (length[9] + length[10] + 1 + i), size);
    free(tfm);
    return font;
}

#endif
