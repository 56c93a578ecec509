/* Files that are inputs, outputs with a margin, and the end of a test that failed. */
#ifndef INPUTS_H
#define INPUTS_H

#include "boxglue.h"

enum { MARGIN = 64, MOST_FONTS = 512 };

/* Bytes of a file, or of this program. */
struct input {
    uint8_t *bytes;
    size_t size;
};

/* Fonts that were named on the command line. */
struct fonts {
    struct boxglue_font all[MOST_FONTS];
    size_t count;
};

/* A buffer of the caller: `room` bytes, and a margin that no call may write to. All bytes begin with a pattern. */
struct output {
    uint8_t *bytes;
    size_t room;
};

/* Says what is wrong, and ends the program with status 1. */
void fail(const char *format, ...) __attribute__((format(printf, 1, 2), noreturn));

/* Fails if something does not hold. */
#define REQUIRE(holds, ...) do { if (!(holds)) fail(__VA_ARGS__); } while (0)

struct input read_file(const char *path);

/* Appends bytes to those of an input, which malloc gave or which are none. */
void append(struct input *input, const uint8_t *bytes, size_t size);

/* Whether two inputs have the same bytes, and whether one has this text in it. */
int is_equal(const struct input *one, const struct input *other);
int has_text(const struct input *input, const char *text);

/* Reads the fonts of words NAME=PATH. */
struct fonts read_fonts(char **words, int count);

struct output new_output(size_t room);
void free_output(struct output *output);

/* Fails if a byte from this place on is not as it was. */
void require_untouched(const struct output *output, size_t from, const char *when);

#endif
