/* The least work of the bench's item `list`: a program that knows the one file of this item, and writes the same listing as boxglue, byte for byte.

   It is a limit, not a reader of DVI: it expects one font, characters below 128, movements to the right and down, and little else.
   As boxglue does, it walks the pages twice, first to find what is wrong with any of them, then to write.

       list DVI METRICS > LISTING

   bench/floor.py builds it, compares the listings and counts instructions. */
#include <string.h>

#include "floor.h"

enum { SET1 = 128, BOP = 139, EOP, PUSH, POP, RIGHT1, W0 = 147, W1, X0 = 152, X1, DOWN1 = 157, FONT0 = 171, FONT_DEF1 = 243, FILL = 223 };
enum { PREAMBLE = 15, BOP_BYTES = 44, FONT_DEF_BYTES = 20, ROOM = 65536, LINE = 256, DEEP = 100, HEAD = 24, DIGITS = 16 };

typedef struct {
    int64_t h, v, w, x;
} State;

static Font font;
static char pairs[201], heads[CHARACTERS][HEAD], room[ROOM + LINE], tail[DIGITS + 2], *out = room;
static int head_lengths[CHARACTERS], tail_length, pages;
static int64_t tail_number = INT64_MIN;

/* Writes a number of two digits or more by pairs, so that it ends at `end`; returns where it begins. */
static char *digits(uint32_t number, char *end)
{
    while (number >= 100) {
        memcpy(end -= 2, pairs + 2 * (number % 100), 2);
        number /= 100;
    }
    if (number >= 10)
        return memcpy(end - 2, pairs + 2 * number, 2);
    *--end = (char)('0' + number);
    return end;
}

/* The texts that come again and again: numbers of two digits, and what a line has before its numbers. */
static void make_texts(void)
{
    for (int i = 0; i < 100; i++)
        sprintf(pairs + 2 * i, "%02d", i);
    for (int i = 0; i < CHARACTERS; i++)
        head_lengths[i] = sprintf(heads[i], "glyph 0 %d ", i);
}

/* The end of a line, which stays the same on a whole line of text. */
static void make_tail(int64_t v)
{
    char number[DIGITS];
    char *from = digits((uint32_t)v, number + DIGITS);
    int length = (int)(number + DIGITS - from);
    tail_number = v;
    tail_length = length + 2;
    tail[0] = ' ';
    memcpy(tail + 1, from, (size_t)length);
    tail[length + 1] = '\n';
}

static int write_out(void)
{
    int is_written = fwrite(room, 1, (size_t)(out - room), stdout) == (size_t)(out - room);
    out = room;
    return is_written;
}

/* The line of a glyph. Each piece is copied at a fixed size, of which its length then counts. */
static int write_glyph(int code, const State *at)
{
    char number[2 * DIGITS];
    char *from = digits((uint32_t)at->h, number + DIGITS);
    if (at->v != tail_number)
        make_tail(at->v);
    memcpy(out, heads[code], HEAD);
    out += head_lengths[code];
    memcpy(out, from, DIGITS);
    out += number + DIGITS - from;
    memcpy(out, tail, sizeof tail);
    out += tail_length;
    return out <= room + ROOM || write_out();
}

static int32_t operand(const uint8_t *bytes, int count)
{
    int32_t value = (int8_t)bytes[0];
    for (int i = 1; i < count; i++)
        value = (int32_t)((uint32_t)value << 8 | bytes[i]);
    return value;
}

/* Carries out what is not a character. Returns how many bytes of operands it has, or -1. */
static int step(uint8_t code, const uint8_t *bytes, State *at, State **top, int is_printed)
{
    if (code == W0 || code == X0)
        return at->h += code == W0 ? at->w : at->x, 0;
    if (code >= RIGHT1 && code < W0)
        return at->h += operand(bytes, code - RIGHT1 + 1), code - RIGHT1 + 1;
    if (code >= W1 && code < X0)
        return at->h += at->w = operand(bytes, code - W1 + 1), code - W1 + 1;
    if (code >= X1 && code < DOWN1)
        return at->h += at->x = operand(bytes, code - X1 + 1), code - X1 + 1;
    if (code >= DOWN1 && code < DOWN1 + 4)
        return at->v += operand(bytes, code - DOWN1 + 1), code - DOWN1 + 1;
    if (code == PUSH)
        return *(*top)++ = *at, 0;
    if (code == POP)
        return *at = *--*top, 0;
    if (code == BOP) {
        if (is_printed)
            out += sprintf(out, "page %d counts 0 0 0 0 0 0 0 0 0 0\n", ++pages);
        *at = (State){0, 0, 0, 0};
        return BOP_BYTES;
    }
    return code == EOP || code == FONT0 ? 0 : code == FONT_DEF1 ? FONT_DEF_BYTES : -1;
}

/* All pages: whether each is right, and, if so asked, their lines. */
static int walk(const uint8_t *from, const uint8_t *end, int is_printed)
{
    State at = {0, 0, 0, 0}, stack[DEEP], *top = stack;
    while (from < end) {
        uint8_t code = *from++;
        if (code < SET1) {
            if (!font.has[code] || (is_printed && !write_glyph(code, &at)))
                return 0;
            at.h += font.width[code];
        } else {
            int count = step(code, from, &at, &top, is_printed);
            if (count < 0 || at.v != (int32_t)at.v)
                return 0;
            from += count;
        }
        if (at.h != (int32_t)at.h)
            return 0;
    }
    return 1;
}

int main(int count, char **words)
{
    if (count != 3)
        return 2;
    File dvi = read_file(words[1]);
    font = read_font(words[2]);
    make_texts();
    size_t end = dvi.length;
    while (dvi.bytes[end - 1] == FILL)
        end--;
    const uint8_t *from = dvi.bytes + PREAMBLE, *post = dvi.bytes + number_at(dvi.bytes + end - 5);
    return !(walk(from, post, 0) && walk(from, post, 1) && write_out());
}
