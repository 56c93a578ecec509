#include "inputs.h"

#include <stdarg.h>
#include <stdio.h>
#include <stdlib.h>
#include <string.h>

static const uint8_t PATTERN = 0xa5;

void fail(const char *format, ...) {
    va_list words;
    va_start(words, format);
    vfprintf(stderr, format, words);
    va_end(words);
    fputc('\n', stderr);
    fflush(NULL);
    _Exit(1); /* without the report of a sanitizer on what is not freed yet */
}

/* The files that were read, which are kept until the program ends. */
static uint8_t *files[MOST_FONTS + 2];
static size_t file_count;

void append(struct input *input, const uint8_t *bytes, size_t size) {
    if (!size) return;
    input->bytes = realloc(input->bytes, input->size + size);
    REQUIRE(input->bytes, "out of memory");
    memcpy(input->bytes + input->size, bytes, size);
    input->size += size;
}

int is_equal(const struct input *one, const struct input *other) {
    return one->size == other->size && (!one->size || !memcmp(one->bytes, other->bytes, one->size));
}

int has_text(const struct input *input, const char *text) {
    size_t length = strlen(text);
    for (size_t at = 0; at + length <= input->size; at++)
        if (!memcmp(input->bytes + at, text, length)) return 1;
    return 0;
}

struct input read_file(const char *path) {
    FILE *file = fopen(path, "rb");
    REQUIRE(file, "cannot read %s", path);
    struct input input = {malloc(1), 0};
    uint8_t piece[4096];
    for (size_t count; (count = fread(piece, 1, sizeof piece, file)) > 0;) append(&input, piece, count);
    fclose(file);
    REQUIRE(file_count < MOST_FONTS + 2, "too many files");
    files[file_count++] = input.bytes;
    return input;
}

struct fonts read_fonts(char **words, int count) {
    struct fonts fonts = {.count = (size_t)count};
    REQUIRE(count <= MOST_FONTS, "at most %d fonts", MOST_FONTS);
    for (int at = 0; at < count; at++) {
        char *equals = strchr(words[at], '=');
        REQUIRE(equals, "not NAME=PATH: %s", words[at]);
        struct input file = read_file(equals + 1);
        fonts.all[at] = (struct boxglue_font){(uint8_t *)words[at], (size_t)(equals - words[at]), file.bytes, file.size};
    }
    return fonts;
}

struct output new_output(size_t room) {
    struct output output = {malloc(room + MARGIN), room};
    memset(output.bytes, PATTERN, room + MARGIN);
    return output;
}

void free_output(struct output *output) {
    free(output->bytes);
}

void require_untouched(const struct output *output, size_t from, const char *when) {
    for (size_t at = from; at < output->room + MARGIN; at++) REQUIRE(output->bytes[at] == PATTERN, "%s: byte %zu of a buffer of %zu was written", when, at, output->room);
}
