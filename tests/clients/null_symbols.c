/* The symbols of the library with tests in front of them: a pointer that is null, or not aligned as its type, gives status 99. A program is linked with
 * -Wl,--wrap=boxglue_run and so on. */
#define BOXGLUE_NO_INLINE
#include "boxglue.h"

enum { NULL_POINTER = 99 };

/* Whether a pointer may be passed for something of this alignment. */
#define IS_GOOD(pointer, alignment) ((pointer) && (uintptr_t)(pointer) % (alignment) == 0)
#define GOOD_BYTES(pointer) IS_GOOD(pointer, 1)
#define GOOD_STRUCTS(pointer) IS_GOOD(pointer, _Alignof(size_t))

/* Declares a symbol and the one in front of it, and passes a call on where its pointers are good. */
#define SYMBOL(name, parameters, words, good) \
    uint32_t __real_boxglue_##name parameters; \
    uint32_t __wrap_boxglue_##name parameters; \
    uint32_t __wrap_boxglue_##name parameters { return (good) ? __real_boxglue_##name words : (uint32_t)NULL_POINTER; }

SYMBOL(run,
       (const uint8_t *script, size_t script_size, const struct boxglue_font *fonts, size_t font_count, uint8_t *answers, size_t answers_room,
        uint8_t *dvi, size_t dvi_room, struct boxglue_lengths *lengths),
       (script, script_size, fonts, font_count, answers, answers_room, dvi, dvi_room, lengths),
       GOOD_BYTES(script) && GOOD_STRUCTS(fonts) && GOOD_BYTES(answers) && GOOD_BYTES(dvi))

SYMBOL(run_replies,
       (const uint8_t *script, size_t script_size, const struct boxglue_font *fonts, size_t font_count, struct boxglue_reply *replies, size_t reply_room,
        uint8_t *dvi, size_t dvi_room, struct boxglue_reply_sizes *sizes),
       (script, script_size, fonts, font_count, replies, reply_room, dvi, dvi_room, sizes),
       GOOD_BYTES(script) && GOOD_STRUCTS(fonts) && GOOD_STRUCTS(replies) && GOOD_BYTES(dvi))

SYMBOL(list,
       (const uint8_t *dvi, size_t dvi_size, const struct boxglue_font *fonts, size_t font_count, uint8_t *text, size_t text_room, size_t *size),
       (dvi, dvi_size, fonts, font_count, text, text_room, size),
       GOOD_BYTES(dvi) && GOOD_STRUCTS(fonts) && GOOD_BYTES(text))

SYMBOL(paint,
       (const uint8_t *dvi, size_t dvi_size, const struct boxglue_font *fonts, size_t font_count, uint32_t page, uint32_t dpi, uint32_t width, uint32_t height,
        uint8_t *text, size_t text_room, size_t *size),
       (dvi, dvi_size, fonts, font_count, page, dpi, width, height, text, text_room, size),
       GOOD_BYTES(dvi) && GOOD_STRUCTS(fonts) && GOOD_BYTES(text))

SYMBOL(fonts,
       (const uint8_t *dvi, size_t dvi_size, struct boxglue_dvi_font *fonts, size_t font_room, uint8_t *text, size_t text_room, struct boxglue_font_sizes *sizes),
       (dvi, dvi_size, fonts, font_room, text, text_room, sizes),
       GOOD_BYTES(dvi) && GOOD_STRUCTS(fonts) && GOOD_BYTES(text))

SYMBOL(marks,
       (const uint8_t *dvi, size_t dvi_size, const struct boxglue_font *fonts, size_t font_count, struct boxglue_page *pages, size_t page_room,
        struct boxglue_mark *marks, size_t mark_room, uint8_t *text, size_t text_room, struct boxglue_mark_sizes *sizes),
       (dvi, dvi_size, fonts, font_count, pages, page_room, marks, mark_room, text, text_room, sizes),
       GOOD_BYTES(dvi) && GOOD_STRUCTS(fonts) && GOOD_STRUCTS(pages) && GOOD_STRUCTS(marks) && GOOD_BYTES(text))

SYMBOL(job_new, (struct boxglue_job *job, const struct boxglue_font *fonts, size_t font_count), (job, fonts, font_count), GOOD_STRUCTS(fonts))

SYMBOL(job_commands, (struct boxglue_job *job, const uint8_t *script, size_t script_size), (job, script, script_size), GOOD_BYTES(script))

SYMBOL(job_run,
       (struct boxglue_job *job, const uint8_t *script, size_t script_size, struct boxglue_reply *replies, size_t reply_room, size_t *count),
       (job, script, script_size, replies, reply_room, count),
       GOOD_BYTES(script) && GOOD_STRUCTS(replies))

SYMBOL(job_answers, (struct boxglue_job *job, uint8_t *text, size_t text_room, size_t *size), (job, text, text_room, size), GOOD_BYTES(text))

SYMBOL(job_take, (struct boxglue_job *job, uint8_t *dvi, size_t dvi_room, size_t *size), (job, dvi, dvi_room, size), GOOD_BYTES(dvi))
