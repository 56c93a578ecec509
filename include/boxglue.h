/**
 * @file boxglue.h
 * @brief The typesetter boxglue as a library for C.
 *
 * A script has commands that put text, rules and glue into boxes and paragraphs, and ship boxes as pages of a DVI file. boxglue_run and boxglue_run_replies run a whole
 * script. The calls boxglue_job_.. run a script piece by piece, in a job that keeps fonts, boxes and pages. The other calls read DVI files and metric files (TFM), which
 * have the sizes of a font's characters.
 *
 * The functions work on bytes in memory. They start no thread and take no lock, so several threads may call them at once.
 * Between two calls the library keeps only what a struct boxglue_job holds. docs/LIBRARY.md shows how to link a program, and has callers in C, Python and Rust.
 *
 * In the names of parameters, a *size* is a number of bytes, a *count* is a number of structs, and a *room* is the capacity of a buffer in bytes or structs.
 *
 * The caller must keep these rules. The library checks none of them.
 *
 * - **Memory.** The caller owns all memory that it passes. The library reads its inputs and writes its outputs only during the call, and keeps no pointer to them.
 *   It frees what it allocates before it returns, except for the memory of a job, which stays allocated between calls.
 * - **Allocator.** The library calls malloc, realloc and free of the program. The three must come from one allocator. malloc and realloc must align a block to each power
 *   of two up to 16 that divides its size: a block of 24 bytes to 8. Each C library does so; if you replace its allocator, yours must do so too.
 * - **Null pointers.** In C and C++ through this header, a pointer that has a size, a count or a room beside it may be null if that number is 0. No other pointer may be
 *   null, such as a pointer to a job or to the sizes of outputs. No pointer within a struct boxglue_font may be null: for an empty file, pass the address of any byte.
 *   A call of the library's symbols from another language must not pass null at all.
 * - **Alignment.** Pointers to structs must be aligned as C aligns them.
 * - **Overlap.** An output must not overlap another output or an input. Inputs may overlap each other. The struct boxglue_job of a call is an output.
 * - **Size.** Each input and each output must be below 2^63 bytes.
 * - **Stack.** The stack must have space left. Boxes 200 deep, the deepest that there are, ran with 256 KiB left, and most calls need far less.
 * - **Signals and fork.** Do not call the library from a signal handler, or from the child of a process with threads after fork.
 *
 * Each function except boxglue_version, boxglue_proved and boxglue_job_free returns one of enum boxglue_status, and its description names all that it can return.
 * A script, a DVI file or a metric file may have any bytes: every input has a status.
 */
#ifndef BOXGLUE_H
#define BOXGLUE_H

#include <stddef.h>
#include <stdint.h>

#ifdef __cplusplus
extern "C" {
#endif

/**
 * @brief What boxglue_version returns for the library that this header describes, 1.2.0.
 *
 * It is 10,000 times the first number, plus 100 times the second, plus the third. The second number rises when a version adds calls, statuses or structs.
 * From 1.2.0 on, a version that changes existing ones raises the first number, so a program runs with each library that has the same first number and is not
 * older than the header. In 1.2.0 struct boxglue_dvi_font got two fields.
 */
#define BOXGLUE_VERSION 10200
/** @brief The first number of the version. */
#define BOXGLUE_VERSION_MAJOR (BOXGLUE_VERSION / 10000)
/** @brief The second number of the version. */
#define BOXGLUE_VERSION_MINOR (BOXGLUE_VERSION / 100 % 100)
/** @brief The third number of the version. */
#define BOXGLUE_VERSION_PATCH (BOXGLUE_VERSION % 100)
/** @brief The version as a text. */
#define BOXGLUE_VERSION_STRING "1.2.0"

/** @brief What a call returns. */
enum boxglue_status {
    /** The library accepted everything. The outputs are written. */
    BOXGLUE_ACCEPTED = 0,
    /** The library refused the script, one of its commands, the end of the job, or the file. The text, a reply or the fault says why. The outputs are written. */
    BOXGLUE_REFUSED = 1,
    /** The system refused memory, and there is no result. The buffers are unchanged. The library allocates memory only after its tests for BOXGLUE_BAD_FONT_NAME,
     * BOXGLUE_OUT_OF_RANGE, BOXGLUE_NO_JOB and BOXGLUE_JOB_EXISTS have passed. */
    BOXGLUE_OUT_OF_MEMORY = 2,
    /** The name of a font does not have 1 to 255 bytes. The library tests this first. The buffers are unchanged. */
    BOXGLUE_BAD_FONT_NAME = 3,
    /** A buffer is too small. The sizes say what the call needs. The buffers are unchanged. */
    BOXGLUE_BUFFER_TOO_SMALL = 4,
    /** The DVI file is good and does not have this page. The buffers are unchanged. */
    BOXGLUE_NO_SUCH_PAGE = 5,
    /** A number is out of its range. The buffers are unchanged. */
    BOXGLUE_OUT_OF_RANGE = 6,
    /** The script was run, and a command or the end of the job was refused as OutOfMemory. The outputs are written. If the system refuses memory only for the bytes of the
     * DVI file, the answer is Device (docs/COMMANDS.md, section 7), the job is over, and the status is BOXGLUE_REFUSED. */
    BOXGLUE_REFUSED_MEMORY = 7,
    /** The handle does not have a job. Nothing is written. */
    BOXGLUE_NO_JOB = 8,
    /** The handle already has a job, which is unchanged. */
    BOXGLUE_JOB_EXISTS = 9,
    /** The commands were run, or the job was finished, and the system refused memory for the text of the answers. These answers are lost. What the commands did stays, and
     * so do the answers of earlier calls that were not handed over yet. */
    BOXGLUE_ANSWERS_LOST = 10
};

/**
 * @brief A font that the caller passes.
 *
 * If several fonts have one name, the first one counts. Neither pointer may be null, even if its size is 0.
 */
struct boxglue_font {
    /** The name by which scripts and DVI files select the font, 1 to 255 bytes. */
    const uint8_t *name;
    /** The number of bytes of the name. */
    size_t name_size;
    /** The bytes of its metric file (TFM). */
    const uint8_t *bytes;
    /** The number of these bytes. */
    size_t bytes_size;
};

/** @brief The sizes of the outputs of boxglue_run, in bytes. */
struct boxglue_lengths {
    /** The number of bytes of the answers. */
    size_t answers;
    /** The number of bytes of the DVI file. */
    size_t dvi;
};

/** @brief A font that a DVI file defines. The area of its name is left out. */
struct boxglue_dvi_font {
    /** The number by which pages select it, and which a listing shows. */
    int32_t number;
    /** The size at which the file uses it, in DVI units: 1 to 2^27 - 1. A DVI unit of boxglue's own files is a scaled point, 1/65536 of a point. */
    int32_t size;
    /** The design size in DVI units, as the DVI file gives it. The library does not compare it with a metric file. */
    int32_t design_size;
    /** The check sum of the metric file, as the DVI file gives it. */
    uint32_t check_sum;
    /** Where its name begins in the text. */
    size_t name_start;
    /** How many bytes the name has, 0 to 255. */
    size_t name_size;
};

/** @brief The sizes of the outputs of boxglue_fonts. */
struct boxglue_font_sizes {
    /** The number of fonts. */
    size_t fonts;
    /** The number of bytes of the text. */
    size_t text;
};

/** @brief A page of a DVI file. */
struct boxglue_page {
    /** The ten counts of the page. */
    int32_t counts[10];
    /** The index of its first mark among all marks. */
    size_t first_mark;
    /** The number of its marks, which follow each other. */
    size_t marks;
};

/** @brief What a mark is. */
enum boxglue_mark_kind {
    /** A character of a font. */
    BOXGLUE_GLYPH = 1,
    /** A black bar. */
    BOXGLUE_RULE = 2,
    /** A text for the program that reads the file. */
    BOXGLUE_SPECIAL = 3
};

/** @brief A mark of a page: a glyph, a rule or a special, in DVI units. Fields that its kind does not have are 0. */
struct boxglue_mark {
    /** One of enum boxglue_mark_kind. */
    uint32_t kind;
    /** The number of a glyph's font, as in struct boxglue_dvi_font. */
    int32_t font;
    /** A glyph's character. */
    int32_t code;
    /** How far the mark is to the right of the page's origin. The place of a rule is its lower left corner. */
    int32_t h;
    /** How far the mark is below the page's origin. */
    int32_t v;
    /** A rule's height, above 0. */
    int32_t height;
    /** A rule's width, above 0; or a glyph's width in the metric file of its font. */
    int32_t width;
    /** The size of a special's text in bytes. */
    uint32_t text_size;
    /** Where a special's text begins in the DVI file that was passed. */
    uint64_t text_start;
};

/** @brief The sizes of the outputs of boxglue_marks, and the units of the file. A DVI unit is num / den times 10^-7 metres, enlarged by mag / 1000. */
struct boxglue_mark_sizes {
    /** The number of pages. */
    size_t pages;
    /** The number of marks. */
    size_t marks;
    /** The number of bytes of the text. */
    size_t text;
    /** The numerator of the unit. */
    int32_t num;
    /** The denominator of the unit. */
    int32_t den;
    /** The magnification. */
    int32_t mag;
};

/** @brief Why a file is refused. Fields that the refusal does not have are 0. */
struct boxglue_fault {
    /** One of enum boxglue_refusal, or 0 if nothing was refused. */
    uint32_t number;
    /** One of enum boxglue_dvi_cause if the number is BOXGLUE_REFUSAL_BAD_DVI, and of enum boxglue_tfm_cause if it is BOXGLUE_REFUSAL_BAD_TFM. */
    uint32_t cause;
    /** The number by which the DVI file selects the font whose metric file is refused. */
    int32_t font;
    /** Where the DVI file breaks a rule: the number of bytes before that place. */
    uint64_t place;
    /** How many bytes the name of the missing font has. */
    size_t name_size;
};

/** @brief A number of scaled points, of which 65,536 are a point. */
struct boxglue_measure {
    /** The number, or 0 if is_unfit is 1. */
    int32_t value;
    /** 1 if the number in the metric file is too large, else 0. */
    uint32_t is_unfit;
};

/** @brief A character of a font, in scaled points. A character that is not there has zeros. */
struct boxglue_glyph {
    /** 1 if the font has the character, else 0. */
    uint32_t is_there;
    /** The width. */
    int32_t width;
    /** The height above the baseline. */
    int32_t height;
    /** The depth below the baseline. */
    int32_t depth;
    /** The italic correction. */
    struct boxglue_measure italic;
};

/** @brief The characters of a font: row N has character N. */
struct boxglue_glyph_table {
    /** The rows. */
    struct boxglue_glyph rows[256];
};

/** @brief The numbers of a font beside its characters, in scaled points. A parameter that the metric file does not have is 0. */
struct boxglue_font_parameters {
    /** The size at which the font was measured. */
    int32_t size;
    /** The design size in the metric file. */
    int32_t design_size;
    /** The check sum in the metric file: four bytes, the highest first. */
    uint32_t check_sum;
    /** Parameter 1 as in the file: a ratio in units of 1/2^20, by which characters lean. It does not depend on the size. */
    int32_t slant;
    /** Parameter 2: the width of a space. */
    int32_t space;
    /** Parameter 3: how much a space stretches. */
    int32_t stretch;
    /** Parameter 4: how much a space shrinks. */
    int32_t shrink;
    /** Parameter 5: the height of an x. */
    struct boxglue_measure x_height;
    /** Parameter 6: the width of an em. */
    struct boxglue_measure quad;
    /** Parameter 7: the space that TeX adds at the end of a sentence. */
    struct boxglue_measure extra_space;
};

/** @brief What a step of a font is. */
enum boxglue_step_kind {
    /** Space between the two characters. */
    BOXGLUE_STEP_KERN = 1,
    /** One character that replaces both. */
    BOXGLUE_STEP_LIGATURE = 2
};

/** @brief What a font puts between two characters, or in their place. Fields that its kind does not have are 0. */
struct boxglue_font_step {
    /** The first character, 0 to 255. */
    uint32_t character;
    /** The character after it, 0 to 255. */
    uint32_t following;
    /** One of enum boxglue_step_kind. */
    uint32_t kind;
    /** The width of the kern between them, in scaled points. */
    int32_t kern;
    /** The character that replaces both. */
    uint32_t ligature;
};

/**
 * @brief Run a script with these fonts.
 *
 * If a buffer is too small, the call has run the script in vain, and a second call runs it again. Begin with buffers that usually suffice.
 *
 * @param script, script_size  the script
 * @param fonts, font_count  the fonts that the script may load
 * @param answers, answers_room  a buffer for the answers to the commands, one line each (docs/FORMATS.md), or for the one line of a script that is refused as a whole
 * @param dvi, dvi_room  a buffer for the bytes of the DVI file. A script that ships no page has none. If the end was refused, the bytes are not a DVI file: they are
 *        the pages without the end of the file, or after Device a beginning of the file
 * @param lengths  the sizes of both outputs, or on BOXGLUE_BUFFER_TOO_SMALL the sizes that the buffers need. The rest of each buffer is unchanged
 * @return BOXGLUE_ACCEPTED, BOXGLUE_REFUSED, BOXGLUE_OUT_OF_MEMORY, BOXGLUE_BAD_FONT_NAME, BOXGLUE_BUFFER_TOO_SMALL or BOXGLUE_REFUSED_MEMORY.
 *         BOXGLUE_OUT_OF_MEMORY and BOXGLUE_BAD_FONT_NAME leave *lengths unchanged
 */
uint32_t boxglue_run(const uint8_t *script, size_t script_size,
                     const struct boxglue_font *fonts, size_t font_count,
                     uint8_t *answers, size_t answers_room,
                     uint8_t *dvi, size_t dvi_room,
                     struct boxglue_lengths *lengths);

/**
 * @brief List the marks of all pages of a DVI file.
 *
 * @param dvi, dvi_size  the DVI file
 * @param fonts, font_count  the fonts that its pages may select
 * @param text, text_room  a buffer for the listing (docs/FORMATS.md), or for the line of the refusal
 * @param size  the number of bytes of the text, or on BOXGLUE_BUFFER_TOO_SMALL the size that the buffer needs. The rest of the buffer is unchanged
 * @return BOXGLUE_ACCEPTED, BOXGLUE_REFUSED, BOXGLUE_OUT_OF_MEMORY, BOXGLUE_BAD_FONT_NAME or BOXGLUE_BUFFER_TOO_SMALL.
 *         BOXGLUE_OUT_OF_MEMORY and BOXGLUE_BAD_FONT_NAME leave *size unchanged
 */
uint32_t boxglue_list(const uint8_t *dvi, size_t dvi_size,
                      const struct boxglue_font *fonts, size_t font_count,
                      uint8_t *text, size_t text_room,
                      size_t *size);

/**
 * @brief Paint the rules of a page of a DVI file as a plain PBM file.
 *
 * The library tests the names of the fonts first, then the numbers.
 *
 * @param dvi, dvi_size  the DVI file
 * @param fonts, font_count  the fonts that its pages may select
 * @param page  the page, counted from 1
 * @param dpi  pixels an inch, 1 to 10000
 * @param width  the width of the bitmap in pixels, 1 to 10000
 * @param height  the height of the bitmap in pixels, 1 to 10000
 * @param text, text_room  a buffer for the bitmap as plain PBM (docs/FORMATS.md), or for the line of the refusal
 * @param size  the number of bytes of the text, or on BOXGLUE_BUFFER_TOO_SMALL the size that the buffer needs. The rest of the buffer is unchanged
 * @return BOXGLUE_ACCEPTED, BOXGLUE_REFUSED, BOXGLUE_OUT_OF_MEMORY, BOXGLUE_BAD_FONT_NAME, BOXGLUE_BUFFER_TOO_SMALL, BOXGLUE_NO_SUCH_PAGE or BOXGLUE_OUT_OF_RANGE.
 *         Only BOXGLUE_ACCEPTED, BOXGLUE_REFUSED and BOXGLUE_BUFFER_TOO_SMALL write *size
 */
uint32_t boxglue_paint(const uint8_t *dvi, size_t dvi_size,
                       const struct boxglue_font *fonts, size_t font_count,
                       uint32_t page, uint32_t dpi, uint32_t width, uint32_t height,
                       uint8_t *text, size_t text_room,
                       size_t *size);

/**
 * @brief Paint the rules of a page of a DVI file as bits.
 *
 * A byte has eight pixels of a row, the leftmost in the highest bit, and 1 is black. A row has (width + 7) / 8 bytes; the bits after its last pixel are 0.
 * After the line "P4" and a line with width and height, the rows are a raw PBM file.
 *
 * @param dvi, dvi_size  the DVI file
 * @param fonts, font_count  the fonts that its pages may select
 * @param page  the page, counted from 1
 * @param dpi  pixels an inch, 1 to 10000
 * @param width  the width of the bitmap in pixels, 1 to 10000
 * @param height  the height of the bitmap in pixels, 1 to 10000
 * @param bits, bits_room  a buffer for the rows of the bitmap from the top, or for the line of the refusal
 * @param size  the number of bytes, or on BOXGLUE_BUFFER_TOO_SMALL the size that the buffer needs. The rest of the buffer is unchanged
 * @return BOXGLUE_ACCEPTED, BOXGLUE_REFUSED, BOXGLUE_OUT_OF_MEMORY, BOXGLUE_BAD_FONT_NAME, BOXGLUE_BUFFER_TOO_SMALL, BOXGLUE_NO_SUCH_PAGE or
 *         BOXGLUE_OUT_OF_RANGE. Only BOXGLUE_ACCEPTED, BOXGLUE_REFUSED and BOXGLUE_BUFFER_TOO_SMALL write *size
 */
uint32_t boxglue_paint_bits(const uint8_t *dvi, size_t dvi_size,
                            const struct boxglue_font *fonts, size_t font_count,
                            uint32_t page, uint32_t dpi, uint32_t width, uint32_t height,
                            uint8_t *bits, size_t bits_room,
                            size_t *size);

/**
 * @brief Read the fonts that a DVI file defines after its pages.
 *
 * Each font that a page selects is defined there, so these are the names that the other calls need. The call needs no metric files. It checks the beginning and the end
 * of the file and the chain of its pages, and does not read the pages.
 *
 * @param dvi, dvi_size  the DVI file
 * @param fonts, font_room  a buffer for the fonts in the order of the file. A font that is defined twice comes twice. A file that is refused has no fonts
 * @param text, text_room  a buffer for their names, one after the other, or for the line of the refusal
 * @param sizes  the numbers of fonts and of bytes, or on BOXGLUE_BUFFER_TOO_SMALL the sizes that the buffers need. The rest of each buffer is unchanged
 * @return BOXGLUE_ACCEPTED, BOXGLUE_REFUSED, BOXGLUE_OUT_OF_MEMORY or BOXGLUE_BUFFER_TOO_SMALL. BOXGLUE_OUT_OF_MEMORY leaves *sizes unchanged
 */
uint32_t boxglue_fonts(const uint8_t *dvi, size_t dvi_size,
                       struct boxglue_dvi_font *fonts, size_t font_room,
                       uint8_t *text, size_t text_room,
                       struct boxglue_font_sizes *sizes);

/**
 * @brief Read the marks of all pages of a DVI file.
 *
 * Buffers of dvi_size / 46 pages, dvi_size marks and 64 bytes always suffice, so one call is enough.
 *
 * @param dvi, dvi_size  the DVI file
 * @param fonts, font_count  the fonts that its pages may select
 * @param pages, page_room  a buffer for the pages
 * @param marks, mark_room  a buffer for their marks, in the order of a listing
 * @param text, text_room  a buffer for the line of a refusal. A file that is refused has no pages and no marks, and its units are 0
 * @param sizes  the numbers of pages, marks and bytes of the text, and the file's units, or on BOXGLUE_BUFFER_TOO_SMALL the sizes that the buffers need.
 *        The rest of each buffer is unchanged
 * @return BOXGLUE_ACCEPTED, BOXGLUE_REFUSED, BOXGLUE_OUT_OF_MEMORY, BOXGLUE_BAD_FONT_NAME or BOXGLUE_BUFFER_TOO_SMALL.
 *         BOXGLUE_OUT_OF_MEMORY and BOXGLUE_BAD_FONT_NAME leave *sizes unchanged
 */
uint32_t boxglue_marks(const uint8_t *dvi, size_t dvi_size,
                       const struct boxglue_font *fonts, size_t font_count,
                       struct boxglue_page *pages, size_t page_room,
                       struct boxglue_mark *marks, size_t mark_room,
                       uint8_t *text, size_t text_room,
                       struct boxglue_mark_sizes *sizes);

/**
 * @brief Check a DVI file as boxglue_list does, and give the reason of a refusal in numbers.
 *
 * @param dvi, dvi_size  the DVI file
 * @param fonts, font_count  the fonts that its pages may select
 * @param fault  the reason, or zeros if the file is accepted. If the buffer is too small, fault->name_size is the size that it needs
 * @param name, name_room  a buffer for the name of the missing font, at most 255 bytes, if the reason is BOXGLUE_REFUSAL_NO_FONT. The rest of the buffer is unchanged
 * @return BOXGLUE_ACCEPTED, BOXGLUE_REFUSED, BOXGLUE_OUT_OF_MEMORY, BOXGLUE_BAD_FONT_NAME or BOXGLUE_BUFFER_TOO_SMALL.
 *         BOXGLUE_OUT_OF_MEMORY has the fault BOXGLUE_REFUSAL_OUT_OF_MEMORY. BOXGLUE_BAD_FONT_NAME leaves *fault unchanged
 */
uint32_t boxglue_check(const uint8_t *dvi, size_t dvi_size,
                       const struct boxglue_font *fonts, size_t font_count,
                       struct boxglue_fault *fault,
                       uint8_t *name, size_t name_room);

/**
 * @brief Read the metrics of a font, for a program that sets text itself.
 *
 * All sizes are those that a job uses when it sets text in this font.
 *
 * @param tfm, tfm_size  the metric file
 * @param size  a size in scaled points, 1 to 2^27 - 1, or 0 for the design size. The library tests it first
 * @param glyphs  the characters 0 to 255
 * @param parameters  the other numbers
 * @param steps, step_room  a buffer with a step for each two characters for which the font has a kern or a ligature, in the order of the first character and then of the
 *        second. 65,536 steps always suffice; most fonts have fewer than 1,000. A job does not use a step whose second character the font does not have. The rest of the
 *        buffer is unchanged
 * @param count  the number of steps, or on BOXGLUE_BUFFER_TOO_SMALL the number that the buffer needs
 * @param fault  the reason of a refusal, BOXGLUE_REFUSAL_BAD_TFM or BOXGLUE_REFUSAL_DIMENSION_TOO_LARGE, or zeros if the file is accepted
 * @return BOXGLUE_ACCEPTED, BOXGLUE_REFUSED, BOXGLUE_OUT_OF_MEMORY, BOXGLUE_BUFFER_TOO_SMALL or BOXGLUE_OUT_OF_RANGE.
 *         BOXGLUE_REFUSED writes only *fault, BOXGLUE_BUFFER_TOO_SMALL only *count, and BOXGLUE_OUT_OF_MEMORY and BOXGLUE_OUT_OF_RANGE nothing
 */
uint32_t boxglue_metrics(const uint8_t *tfm, size_t tfm_size,
                         int32_t size,
                         struct boxglue_glyph_table *glyphs,
                         struct boxglue_font_parameters *parameters,
                         struct boxglue_font_step *steps, size_t step_room,
                         size_t *count,
                         struct boxglue_fault *fault);

/**
 * @brief Return the version of the library, as BOXGLUE_VERSION counts it, so that a program can compare the two.
 *
 * @return the version
 */
uint32_t boxglue_version(void);

/**
 * @brief Say whether the library is proved.
 *
 * @return 1 if the library is proved, or 0 if it was built without proofs, with run-time checks that end the program by a trap when they fail
 */
uint32_t boxglue_proved(void);

/**
 * @brief A text in a library that was built without proofs: "UNPROVED, with run-time checks". In a proved library its address is null.
 *
 * The linker may fix that address when it links the program, so ask boxglue_proved, which the library that runs answers.
 */
#if defined(__GNUC__) || defined(__clang__)
extern const char boxglue_unproved[] __attribute__((weak));
#endif

/**
 * @brief A handle of a job that is kept between calls: struct boxglue_job job = {0};
 *
 * Memory of the job stays allocated from boxglue_job_new to boxglue_job_free. Give a handle to one call at a time, and do not copy it. It may move from one thread to
 * another between two calls if a lock, the start or the join of a thread, or an atomic operation in the order memory_order_seq_cst puts the first call before the second.
 * Any thread may therefore free the job.
 */
struct boxglue_job {
    /** Only the library may read and write this. It is null if there is no job. */
    void *at;
};

/**
 * @brief Make a job with these fonts, for a handle that has none.
 *
 * The job copies the fonts, so the caller may free names and bytes after the call. Free the job by boxglue_job_free.
 *
 * @param job  the handle
 * @param fonts, font_count  the fonts that scripts may load
 * @return BOXGLUE_ACCEPTED, BOXGLUE_OUT_OF_MEMORY, BOXGLUE_BAD_FONT_NAME or BOXGLUE_JOB_EXISTS, which is tested first.
 *         The last three leave the handle unchanged
 */
uint32_t boxglue_job_new(struct boxglue_job *job,
                         const struct boxglue_font *fonts, size_t font_count);

/**
 * @brief Run a piece of a script, and keep the answers for boxglue_job_answers.
 *
 * A piece has whole lines; the last one may lack its line feed. Several pieces do what one script of them does, and their lines are numbered as its lines.
 * The library reads a piece whole before it runs the first command. If a line is bad, it refuses the piece: it runs nothing of it, does not count its lines, and answers
 * with one line such as "refused 2 BadScript 7 Word". After the end of the job each command is answered JobOver, and the job does not change.
 *
 * @param job  the handle
 * @param script, script_size  the piece
 * @return BOXGLUE_ACCEPTED, BOXGLUE_REFUSED, BOXGLUE_OUT_OF_MEMORY, BOXGLUE_REFUSED_MEMORY, BOXGLUE_NO_JOB or BOXGLUE_ANSWERS_LOST.
 *         BOXGLUE_OUT_OF_MEMORY means that nothing was run, there is no answer, and the job is unchanged. BOXGLUE_ANSWERS_LOST means that the commands were run, their
 *         lines count, and their answers are lost
 */
uint32_t boxglue_job_commands(struct boxglue_job *job,
                              const uint8_t *script, size_t script_size);

/**
 * @brief Hand over the answers of all pieces since the last call that returned BOXGLUE_ACCEPTED. The job then forgets them.
 *
 * @param job  the handle
 * @param text, text_room  a buffer for the answers
 * @param size  the number of their bytes, which may be 0, or on BOXGLUE_BUFFER_TOO_SMALL the size that the buffer needs. The rest of the buffer is unchanged
 * @return BOXGLUE_ACCEPTED, BOXGLUE_BUFFER_TOO_SMALL or BOXGLUE_NO_JOB. BOXGLUE_BUFFER_TOO_SMALL loses nothing. BOXGLUE_NO_JOB leaves *size unchanged
 */
uint32_t boxglue_job_answers(struct boxglue_job *job,
                             uint8_t *text, size_t text_room,
                             size_t *size);

/**
 * @brief Hand over the bytes of the DVI file that were written since the last call that returned BOXGLUE_ACCEPTED.
 *
 * The pieces that these calls hand over make up the file: no byte is left out, and none comes twice. The job writes a page when it is shipped, and the end of the file
 * when the job is finished. It keeps all bytes of the file until it is freed.
 *
 * @param job  the handle
 * @param dvi, dvi_room  a buffer for the bytes
 * @param size  the number of the bytes, which may be 0, or on BOXGLUE_BUFFER_TOO_SMALL the size that the buffer needs. The rest of the buffer is unchanged
 * @return BOXGLUE_ACCEPTED, BOXGLUE_BUFFER_TOO_SMALL or BOXGLUE_NO_JOB. BOXGLUE_BUFFER_TOO_SMALL loses nothing. BOXGLUE_NO_JOB leaves *size unchanged
 */
uint32_t boxglue_job_take(struct boxglue_job *job,
                          uint8_t *dvi, size_t dvi_room,
                          size_t *size);

/**
 * @brief End the job: write the end of the DVI file, and answer by the line that begins with "end: ".
 *
 * boxglue_job_answers and boxglue_job_take work after this call as before it. If the end is refused, the line has the refusal. ListsOpen, OutOfMemory and JobOver
 * write no byte and leave the job unchanged; after the first two it may go on and be finished later. Device ends the job, after a beginning of the file was written.
 *
 * @param job  the handle
 * @return BOXGLUE_ACCEPTED, BOXGLUE_REFUSED, BOXGLUE_REFUSED_MEMORY, BOXGLUE_NO_JOB or BOXGLUE_ANSWERS_LOST.
 *         BOXGLUE_ANSWERS_LOST means that the line is lost; if the job has ended, the next call answers JobOver
 */
uint32_t boxglue_job_finish(struct boxglue_job *job);

/** @brief What the reply to a line is. docs/COMMANDS.md, section 3, has the answers of each command, and docs/FORMATS.md their numbers. */
enum boxglue_reply_kind {
    /** The command was done, and has nothing to report. */
    BOXGLUE_REPLY_OK = 0,
    /** The command, or the end of the job, was refused. The reply has refusal, and cause if the refusal is BOXGLUE_REFUSAL_BAD_TFM. */
    BOXGLUE_REPLY_REFUSED = 1,
    /** The piece or the script was refused for this line, and nothing of it was run. The reply has refusal, which is BOXGLUE_REFUSAL_BAD_SCRIPT, and cause. */
    BOXGLUE_REPLY_BAD_LINE = 2,
    /** A box was packed. The reply has box and badness. */
    BOXGLUE_REPLY_PACKED = 3,
    /** A box was measured. The reply has box_kind and box. */
    BOXGLUE_REPLY_MEASURED = 4,
    /** The register that was measured is void. */
    BOXGLUE_REPLY_MEASURED_VOID = 5,
    /** The items of a text were added. The reply has their count and missing. */
    BOXGLUE_REPLY_SHAPED = 6,
    /** Items were added. The reply has their count. */
    BOXGLUE_REPLY_ADDED = 7,
    /** A paragraph was broken. The reply has the count of its lines, pass, overhang and demerits. */
    BOXGLUE_REPLY_PARAGRAPH = 8,
    /** A box was split. The reply has box, which is the front, badness, has_rest and rest. */
    BOXGLUE_REPLY_SPLIT = 9,
    /** The register whose box was to be split is void. */
    BOXGLUE_REPLY_SPLIT_VOID = 10,
    /** A page was shipped. The reply has the count of pages so far. */
    BOXGLUE_REPLY_SHIPPED = 11,
    /** The job was ended. The reply has the count of pages, and bytes. Its line is 0, as it is if the end is refused. */
    BOXGLUE_REPLY_END = 12
};

/** @brief Why a command, the end of a job, a piece, a script or a file is refused. docs/REFUSALS.md explains each number. */
enum boxglue_refusal {
    /** The system refused memory. */
    BOXGLUE_REFUSAL_OUT_OF_MEMORY = 1,
    /** A line does not have the form of a command. The cause is one of enum boxglue_line_cause. */
    BOXGLUE_REFUSAL_BAD_SCRIPT = 2,
    /** A size or a total does not fit: its absolute value is more than 1,073,741,823 scaled points. */
    BOXGLUE_REFUSAL_DIMENSION_TOO_LARGE = 3,
    /** The slot has no font, no font is current, or no font has the name. */
    BOXGLUE_REFUSAL_NO_FONT = 4,
    /** The metric file breaks a rule. The cause is one of enum boxglue_tfm_cause. */
    BOXGLUE_REFUSAL_BAD_TFM = 5,
    /** The slot already has a font. */
    BOXGLUE_REFUSAL_SLOT_TAKEN = 6,
    /** The command needs an open list. */
    BOXGLUE_REFUSAL_NO_OPEN_LIST = 7,
    /** The command does not belong in the innermost list. */
    BOXGLUE_REFUSAL_WRONG_MODE = 8,
    /** The register holds a box of the other kind. */
    BOXGLUE_REFUSAL_WRONG_KIND = 9,
    /** The list would have more than 65,536 items. */
    BOXGLUE_REFUSAL_LIST_TOO_LONG = 10,
    /** More than 64 lists would be open, or boxes would be more than 200 deep. */
    BOXGLUE_REFUSAL_TOO_DEEP = 11,
    /** Glue of the paragraph, or of the list to be split, shrinks by an infinite order. */
    BOXGLUE_REFUSAL_INFINITE_SHRINK = 12,
    /** The paragraph has more than 8,192 legal places for breaks. */
    BOXGLUE_REFUSAL_TOO_MANY_BREAKS = 13,
    /** A place or a size of the page does not fit. */
    BOXGLUE_REFUSAL_HUGE_PAGE = 14,
    /** The job has already shipped 65,535 pages. */
    BOXGLUE_REFUSAL_TOO_MANY_PAGES = 15,
    /** The job would have shipped more than 16,777,216 nodes. */
    BOXGLUE_REFUSAL_TOO_MUCH_SHIPPED = 16,
    /** A list is still open at the end of the job. */
    BOXGLUE_REFUSAL_LISTS_OPEN = 17,
    /** The bytes of the DVI file could not be kept, and the job is over. */
    BOXGLUE_REFUSAL_DEVICE = 18,
    /** The job was over before this command. */
    BOXGLUE_REFUSAL_JOB_OVER = 19,
    /** The DVI file breaks a rule. The cause is one of enum boxglue_dvi_cause. No command is refused for this. */
    BOXGLUE_REFUSAL_BAD_DVI = 20,
    /** The register is void. */
    BOXGLUE_REFUSAL_VOID_BOX = 21,
    /** A special has more than 65,535 bytes, or the job would have shipped more than 1,048,576 bytes of specials. */
    BOXGLUE_REFUSAL_TOO_MUCH_SPECIAL = 22
};

/** @brief Why a metric file is refused (docs/FORMATS.md, section 9). */
enum boxglue_tfm_cause {
    /** The file has fewer than 24 bytes, or fewer than its first number says. */
    BOXGLUE_TFM_TOO_SHORT = 1,
    /** The twelve numbers at the front of the file contradict each other. */
    BOXGLUE_TFM_COUNTS = 2,
    /** The design size is below one point. */
    BOXGLUE_TFM_DESIGN_SIZE = 3,
    /** A character names an entry that its table does not have. */
    BOXGLUE_TFM_CHAR_INFO = 4,
    /** A size is 16 design sizes or more, or a table does not begin with 0. */
    BOXGLUE_TFM_FIX_WORD = 5,
    /** A rule for ligatures or kerns names a character or an entry that is not there, or the rules go past their end. */
    BOXGLUE_TFM_LIG_KERN = 6
};

/** @brief Which rule a DVI file breaks (docs/FORMATS.md, section 7). */
enum boxglue_dvi_cause {
    /** The file does not end with at least four bytes 223, after at least six other bytes. */
    BOXGLUE_DVI_TRAILER = 1,
    /** The version at the end is not 2. */
    BOXGLUE_DVI_VERSION = 2,
    /** A byte begins no instruction, or the instruction is not allowed at its place. */
    BOXGLUE_DVI_OPCODE = 3,
    /** A pointer names a wrong place, or a page is not in the chain of pages. */
    BOXGLUE_DVI_POINTER = 4,
    /** The postamble does not have the number of pages. */
    BOXGLUE_DVI_COUNT = 5,
    /** The file does not begin with a preamble of version 2 whose units are positive and equal the postamble's. */
    BOXGLUE_DVI_PREAMBLE = 6,
    /** The postamble or the end of the file cuts an instruction off. */
    BOXGLUE_DVI_TRUNCATED = 7,
    /** A pop has no push, a page ends with an open push, or more pushes are open than 1,024 or than the postamble says. */
    BOXGLUE_DVI_STACK = 8,
    /** A selected font is not defined both before its selection and after all pages, or a definition has a bad size or differs from the first of its number. */
    BOXGLUE_DVI_FONT = 9,
    /** A page sets a character that its font does not have, or sets it without a font. */
    BOXGLUE_DVI_GLYPH = 10,
    /** A place leaves the range of signed 32 bits. */
    BOXGLUE_DVI_RANGE = 11
};

/** @brief Why a line is bad (docs/FORMATS.md, section 2). */
enum boxglue_line_cause {
    /** A byte is not printable ASCII, 32 to 126. */
    BOXGLUE_LINE_BYTE = 1,
    /** The first field is not a command, or another is not a keyword or parameter that may stand there. */
    BOXGLUE_LINE_WORD = 2,
    /** The line ends before a field that its command needs. */
    BOXGLUE_LINE_MISSING = 3,
    /** A field comes after the end of the command. */
    BOXGLUE_LINE_EXTRA = 4,
    /** A field is not a number, or a number or a font's size is out of its range. */
    BOXGLUE_LINE_NUMBER = 5,
    /** A field is not a dimension, or the dimension is too large. */
    BOXGLUE_LINE_DIMENSION = 6,
    /** The name of a font does not have 1 to 255 letters, digits, hyphens, underscores and periods. */
    BOXGLUE_LINE_NAME = 7
};

/** @brief The kind of a box that was measured. */
enum boxglue_box_kind {
    /** An hbox. */
    BOXGLUE_BOX_HORIZONTAL = 0,
    /** A vbox or a vtop. */
    BOXGLUE_BOX_VERTICAL = 1
};

/** @brief The sizes of a box, in scaled points, of which 65,536 are a point. */
struct boxglue_box_sizes {
    /** The width. */
    int32_t width;
    /** The height above the reference point. */
    int32_t height;
    /** The depth below the reference point. */
    int32_t depth;
};

/** @brief The reply to a line of a script, or to the end of a job. Fields that its kind does not have are 0. */
struct boxglue_reply {
    /** The number of the line, from 1. */
    uint64_t line;
    /** One of enum boxglue_reply_kind. */
    uint32_t kind;
    /** One of enum boxglue_refusal, or 0 if nothing was refused. */
    uint32_t refusal;
    /** One of enum boxglue_tfm_cause if the refusal is BadTfm, and of enum boxglue_line_cause if the line is bad, else 0. */
    uint32_t cause;
    /** One of enum boxglue_box_kind. */
    uint32_t box_kind;
    /** The sizes of the box, or of the front of a split. */
    struct boxglue_box_sizes box;
    /** The sizes of the rest of a split. */
    struct boxglue_box_sizes rest;
    /** 1 if a split left a rest, else 0. */
    uint32_t has_rest;
    /** The badness of the box, 0 to 10000, or 1000000 if it is overfull. */
    uint32_t badness;
    /** The pass that broke the paragraph, 1 to 3, or 0 for an empty paragraph. */
    uint32_t pass;
    /** How many characters of the text the font does not have, or UINT32_MAX for that many or more. */
    uint32_t missing;
    /** The number of items, lines or pages. */
    uint64_t count;
    /** The number of bytes of the file. */
    uint64_t bytes;
    /** How far the lines of the paragraph stick out, in scaled points. */
    int64_t overhang;
    /** The demerits of the lines. */
    int64_t demerits;
};

/** @brief The sizes of the outputs of boxglue_run_replies. */
struct boxglue_reply_sizes {
    /** The number of replies. */
    size_t replies;
    /** The number of bytes of the DVI file. */
    size_t dvi;
};

/**
 * @brief Run a piece of a script as boxglue_job_commands does, and hand over the replies at once, as numbers.
 *
 * The job keeps no answer of this piece, so none can be lost. Answers of earlier pieces stay in it.
 *
 * @param job  the handle
 * @param script, script_size  the piece
 * @param replies, reply_room  a buffer with a reply for each line that has a command, in order, or for the one reply of a piece with a bad line. The library tests its
 *        capacity before it runs a line: one more than the piece has line feeds always suffices. The rest of the buffer is unchanged
 * @param count  the number of replies, or on BOXGLUE_BUFFER_TOO_SMALL the number that the buffer needs
 * @return BOXGLUE_ACCEPTED, BOXGLUE_REFUSED, BOXGLUE_OUT_OF_MEMORY, BOXGLUE_BUFFER_TOO_SMALL, BOXGLUE_REFUSED_MEMORY or BOXGLUE_NO_JOB.
 *         BOXGLUE_REFUSED_MEMORY means that a reply is refused as OutOfMemory. BOXGLUE_OUT_OF_MEMORY and BOXGLUE_BUFFER_TOO_SMALL mean that nothing was run.
 *         BOXGLUE_OUT_OF_MEMORY and BOXGLUE_NO_JOB leave *count unchanged
 */
uint32_t boxglue_job_run(struct boxglue_job *job,
                         const uint8_t *script, size_t script_size,
                         struct boxglue_reply *replies, size_t reply_room,
                         size_t *count);

/**
 * @brief End the job as boxglue_job_finish does, with one reply.
 *
 * The job keeps no answer of this call. Answers of earlier calls stay in it.
 *
 * @param job  the handle
 * @param reply  the reply
 * @return BOXGLUE_ACCEPTED, BOXGLUE_REFUSED, BOXGLUE_REFUSED_MEMORY or BOXGLUE_NO_JOB. BOXGLUE_NO_JOB leaves *reply unchanged
 */
uint32_t boxglue_job_end(struct boxglue_job *job,
                         struct boxglue_reply *reply);

/**
 * @brief Run a script with these fonts as boxglue_run does, with its replies as numbers.
 *
 * If a buffer is too small, the script was run, and a second call runs it again.
 *
 * @param script, script_size  the script
 * @param fonts, font_count  the fonts that the script may load
 * @param replies, reply_room  a buffer with a reply for each line that has a command, in order, and then the reply of the end; or for the one reply of a script with a
 *        bad line
 * @param dvi, dvi_room  a buffer for the bytes of the DVI file, as in boxglue_run
 * @param sizes  the numbers of replies and of bytes, or on BOXGLUE_BUFFER_TOO_SMALL the sizes that the buffers need. The rest of each buffer is unchanged
 * @return BOXGLUE_ACCEPTED, BOXGLUE_REFUSED, BOXGLUE_OUT_OF_MEMORY, BOXGLUE_BAD_FONT_NAME, BOXGLUE_BUFFER_TOO_SMALL or BOXGLUE_REFUSED_MEMORY.
 *         BOXGLUE_BUFFER_TOO_SMALL leaves the buffers unchanged; BOXGLUE_OUT_OF_MEMORY and BOXGLUE_BAD_FONT_NAME leave *sizes unchanged
 */
uint32_t boxglue_run_replies(const uint8_t *script, size_t script_size,
                             const struct boxglue_font *fonts, size_t font_count,
                             struct boxglue_reply *replies, size_t reply_room,
                             uint8_t *dvi, size_t dvi_room,
                             struct boxglue_reply_sizes *sizes);

/** @brief What an item of a box is. */
enum boxglue_item_kind {
    /** A character of a font. */
    BOXGLUE_ITEM_GLYPH = 1,
    /** A kern that the font puts between two characters. */
    BOXGLUE_ITEM_FONT_KERN = 2,
    /** A kern of a command. */
    BOXGLUE_ITEM_KERN = 3,
    /** Glue. */
    BOXGLUE_ITEM_GLUE = 4,
    /** A penalty. */
    BOXGLUE_ITEM_PENALTY = 5,
    /** A rule. */
    BOXGLUE_ITEM_RULE = 6,
    /** A special. */
    BOXGLUE_ITEM_SPECIAL = 7,
    /** A horizontal box. */
    BOXGLUE_ITEM_HBOX = 8,
    /** A vertical box. */
    BOXGLUE_ITEM_VBOX = 9
};

/** @brief A number of scaled points of 128 bits: high times 2^64, plus low. If a page can be shipped, high is 0 or, for a negative number, -1. */
struct boxglue_wide_dimen {
    /** The lower 64 bits. */
    uint64_t low;
    /** The upper 64 bits, with the sign. */
    int64_t high;
};

/** @brief A box or an item of a box, in scaled points. Fields that its kind does not have are 0. */
struct boxglue_item {
    /** The number of boxes that contain it: 0 for the box itself. */
    uint32_t level;
    /** One of enum boxglue_item_kind. */
    uint32_t kind;
    /** How far the item is to the right of the outermost box's reference point. The item's place is the start of a glyph, kern, glue, penalty or special, the reference
     * point of a box, or the lower left corner of a rule. */
    struct boxglue_wide_dimen right;
    /** The same place, downward. */
    struct boxglue_wide_dimen down;
    /** The distance from glue to the next item. */
    struct boxglue_wide_dimen set_width;
    /** The width of a glyph, rule or box, the amount of a kern, or the natural width of glue. A running size of a rule is the size of its box. */
    int32_t width;
    /** The height of a glyph, rule or box. */
    int32_t height;
    /** The depth of a glyph, rule or box. */
    int32_t depth;
    /** How far a box in a list is moved: down in a horizontal list, to the right in a vertical one. */
    int32_t shift;
    /** How much glue stretches. */
    int32_t stretch;
    /** The order of the stretch: 0 normal, 1 fil, 2 fill, 3 filll. */
    uint32_t stretch_order;
    /** How much glue shrinks. */
    int32_t shrink;
    /** The order of the shrink. */
    uint32_t shrink_order;
    /** How a box's glue is set: 0 if all glue has its natural width; 1 if glue of setting_order stretches by ratio_num / ratio_den of its stretch; 2 if it shrinks by this
     * ratio of its shrink. */
    uint32_t setting;
    /** The order of the glue that stretches or shrinks in a box. */
    uint32_t setting_order;
    /** The numerator of a box's ratio. */
    int64_t ratio_num;
    /** The denominator of a box's ratio. */
    int64_t ratio_den;
    /** The slot of a glyph's font. */
    uint32_t slot;
    /** A glyph's character. */
    uint32_t code;
    /** A penalty's number. */
    int32_t penalty;
    /** The running sizes of a rule: the sum of 1 for its width, 2 for its height and 4 for its depth. */
    uint32_t running;
    /** Where a special's text begins in the text buffer. */
    uint64_t text_start;
    /** The size of a special's text in bytes. */
    uint64_t text_size;
};

/** @brief The sizes of the outputs of boxglue_job_items. */
struct boxglue_item_sizes {
    /** The number of items. */
    size_t items;
    /** The number of bytes of the texts of specials. */
    size_t text;
};

/**
 * @brief List the box in a register: an item for the box, and then the box's items in order.
 *
 * An inner box comes before its items, which are one level deeper. A void register has no items. The job is unchanged.
 *
 * @param job  the handle
 * @param register_number  the register, 0 to 32767
 * @param items, item_room  a buffer for the items
 * @param text, text_room  a buffer for the texts of the specials, one after the other
 * @param sizes  the numbers of items and of bytes, or on BOXGLUE_BUFFER_TOO_SMALL the sizes that the buffers need. The rest of each buffer is unchanged
 * @return BOXGLUE_ACCEPTED, or the first that applies of BOXGLUE_NO_JOB, BOXGLUE_OUT_OF_RANGE and BOXGLUE_BUFFER_TOO_SMALL.
 *         BOXGLUE_BUFFER_TOO_SMALL leaves the buffers unchanged; BOXGLUE_OUT_OF_RANGE and BOXGLUE_NO_JOB leave *sizes unchanged
 */
uint32_t boxglue_job_items(struct boxglue_job *job,
                           uint32_t register_number,
                           struct boxglue_item *items, size_t item_room,
                           uint8_t *text, size_t text_room,
                           struct boxglue_item_sizes *sizes);

/**
 * @brief Free all memory of the job, whether it was finished or not.
 *
 * The handle is null then, and may get another job. A handle without a job is unchanged.
 *
 * @param job  the handle
 */
void boxglue_job_free(struct boxglue_job *job);

/* The library does not have the functions below, which are only for C and C++: texts of the statuses and refusals, and calls by the names above.
 *
 * Such a call passes an address of its own if a size, a count or a room is 0, so the pointer beside it may be null. A script may have any type, such as char *.
 * boxglue_typed.h has the commands of scripts as calls. (boxglue_run)(..) in parentheses calls the library itself, and so does each call if BOXGLUE_NO_INLINE is defined
 * before this header. Strict C89 has no inline functions, and needs BOXGLUE_NO_INLINE. */
#ifndef BOXGLUE_NO_INLINE

/**
 * @brief Return a status in a few words, as for a message.
 *
 * @param status  one of enum boxglue_status
 * @return the words
 */
static inline const char *boxglue_status_text(uint32_t status) {
    switch (status) {
    case BOXGLUE_ACCEPTED: return "accepted";
    case BOXGLUE_REFUSED: return "refused: the text, or a reply, says why";
    case BOXGLUE_OUT_OF_MEMORY: return "out of memory";
    case BOXGLUE_BAD_FONT_NAME: return "the name of a font does not have 1 to 255 bytes";
    case BOXGLUE_BUFFER_TOO_SMALL: return "a buffer is too small: the sizes say what is needed";
    case BOXGLUE_NO_SUCH_PAGE: return "the DVI file has no page of this number";
    case BOXGLUE_OUT_OF_RANGE: return "a number is out of its range";
    case BOXGLUE_REFUSED_MEMORY: return "refused: there was no memory for a command, or for the end of the job";
    case BOXGLUE_NO_JOB: return "the handle has no job";
    case BOXGLUE_JOB_EXISTS: return "the handle has a job already";
    case BOXGLUE_ANSWERS_LOST: return "the commands were run, and there was no memory for their answers";
    default: return "not a status of boxglue";
    }
}

/**
 * @brief Return the name of a refusal, such as "NoFont", as answers have it.
 *
 * @param number  one of enum boxglue_refusal
 * @return the name, or "unknown"
 */
static inline const char *boxglue_refusal_name(uint32_t number) {
    static const char *const names[] = {
        "OutOfMemory", "BadScript", "DimensionTooLarge", "NoFont", "BadTfm", "SlotTaken", "NoOpenList", "WrongMode", "WrongKind", "ListTooLong", "TooDeep",
        "InfiniteShrink", "TooManyBreaks", "HugePage", "TooManyPages", "TooMuchShipped", "ListsOpen", "Device", "JobOver", "BadDvi", "VoidBox", "TooMuchSpecial"
    };
    return number >= 1 && number <= sizeof names / sizeof *names ? names[number - 1] : "unknown";
}

/**
 * @brief Return the name of the rule that a DVI file breaks, such as "Trailer", as answers have it.
 *
 * @param cause  one of enum boxglue_dvi_cause
 * @return the name, or "unknown"
 */
static inline const char *boxglue_bad_dvi_name(uint32_t cause) {
    static const char *const names[] = {
        "Trailer", "Version", "Opcode", "Pointer", "Count", "Preamble", "Truncated", "Stack", "Font", "Glyph", "Range"
    };
    return cause >= 1 && cause <= sizeof names / sizeof *names ? names[cause - 1] : "unknown";
}

/**
 * @brief Return the name of the rule that a metric file breaks, such as "TooShort", as answers have it.
 *
 * @param cause  one of enum boxglue_tfm_cause
 * @return the name, or "unknown"
 */
static inline const char *boxglue_bad_tfm_name(uint32_t cause) {
    static const char *const names[] = {"TooShort", "Counts", "DesignSize", "CharInfo", "FixWord", "LigKern"};
    return cause >= 1 && cause <= sizeof names / sizeof *names ? names[cause - 1] : "unknown";
}

/** @cond */
static inline const uint8_t *boxglue_bytes_at(const void *at, size_t size) {
    static uint8_t none;
    return size ? (const uint8_t *)at : &none;
}

static inline uint8_t *boxglue_room_at(uint8_t *at, size_t size) {
    static uint8_t none;
    return size ? at : &none;
}

static inline const struct boxglue_font *boxglue_fonts_at(const struct boxglue_font *at, size_t size) {
    static struct boxglue_font none;
    return size ? at : &none;
}

static inline struct boxglue_dvi_font *boxglue_dvi_fonts_at(struct boxglue_dvi_font *at, size_t size) {
    static struct boxglue_dvi_font none;
    return size ? at : &none;
}

static inline struct boxglue_page *boxglue_pages_at(struct boxglue_page *at, size_t size) {
    static struct boxglue_page none;
    return size ? at : &none;
}

static inline struct boxglue_mark *boxglue_marks_at(struct boxglue_mark *at, size_t size) {
    static struct boxglue_mark none;
    return size ? at : &none;
}

static inline struct boxglue_font_step *boxglue_font_steps_at(struct boxglue_font_step *at, size_t size) {
    static struct boxglue_font_step none;
    return size ? at : &none;
}

static inline struct boxglue_reply *boxglue_replies_at(struct boxglue_reply *at, size_t size) {
    static struct boxglue_reply none;
    return size ? at : &none;
}

static inline struct boxglue_item *boxglue_items_at(struct boxglue_item *at, size_t size) {
    static struct boxglue_item none;
    return size ? at : &none;
}

static inline uint32_t boxglue_run_or_null(const void *script, size_t script_size,
                                           const struct boxglue_font *fonts, size_t font_count,
                                           uint8_t *answers, size_t answers_room,
                                           uint8_t *dvi, size_t dvi_room,
                                           struct boxglue_lengths *lengths) {
    return boxglue_run(boxglue_bytes_at(script, script_size), script_size,
                       boxglue_fonts_at(fonts, font_count), font_count,
                       boxglue_room_at(answers, answers_room), answers_room,
                       boxglue_room_at(dvi, dvi_room), dvi_room,
                       lengths);
}

static inline uint32_t boxglue_list_or_null(const uint8_t *dvi, size_t dvi_size,
                                            const struct boxglue_font *fonts, size_t font_count,
                                            uint8_t *text, size_t text_room,
                                            size_t *size) {
    return boxglue_list(boxglue_bytes_at(dvi, dvi_size), dvi_size,
                        boxglue_fonts_at(fonts, font_count), font_count,
                        boxglue_room_at(text, text_room), text_room,
                        size);
}

static inline uint32_t boxglue_paint_or_null(const uint8_t *dvi, size_t dvi_size,
                                             const struct boxglue_font *fonts, size_t font_count,
                                             uint32_t page, uint32_t dpi, uint32_t width, uint32_t height,
                                             uint8_t *text, size_t text_room,
                                             size_t *size) {
    return boxglue_paint(boxglue_bytes_at(dvi, dvi_size), dvi_size,
                         boxglue_fonts_at(fonts, font_count), font_count,
                         page, dpi, width, height,
                         boxglue_room_at(text, text_room), text_room,
                         size);
}

static inline uint32_t boxglue_paint_bits_or_null(const uint8_t *dvi, size_t dvi_size,
                                                  const struct boxglue_font *fonts, size_t font_count,
                                                  uint32_t page, uint32_t dpi, uint32_t width, uint32_t height,
                                                  uint8_t *bits, size_t bits_room,
                                                  size_t *size) {
    return boxglue_paint_bits(boxglue_bytes_at(dvi, dvi_size), dvi_size,
                              boxglue_fonts_at(fonts, font_count), font_count,
                              page, dpi, width, height,
                              boxglue_room_at(bits, bits_room), bits_room,
                              size);
}

static inline uint32_t boxglue_fonts_or_null(const uint8_t *dvi, size_t dvi_size,
                                             struct boxglue_dvi_font *fonts, size_t font_room,
                                             uint8_t *text, size_t text_room,
                                             struct boxglue_font_sizes *sizes) {
    return boxglue_fonts(boxglue_bytes_at(dvi, dvi_size), dvi_size,
                         boxglue_dvi_fonts_at(fonts, font_room), font_room,
                         boxglue_room_at(text, text_room), text_room,
                         sizes);
}

static inline uint32_t boxglue_marks_or_null(const uint8_t *dvi, size_t dvi_size,
                                             const struct boxglue_font *fonts, size_t font_count,
                                             struct boxglue_page *pages, size_t page_room,
                                             struct boxglue_mark *marks, size_t mark_room,
                                             uint8_t *text, size_t text_room,
                                             struct boxglue_mark_sizes *sizes) {
    return boxglue_marks(boxglue_bytes_at(dvi, dvi_size), dvi_size,
                         boxglue_fonts_at(fonts, font_count), font_count,
                         boxglue_pages_at(pages, page_room), page_room,
                         boxglue_marks_at(marks, mark_room), mark_room,
                         boxglue_room_at(text, text_room), text_room,
                         sizes);
}

static inline uint32_t boxglue_check_or_null(const uint8_t *dvi, size_t dvi_size,
                                             const struct boxglue_font *fonts, size_t font_count,
                                             struct boxglue_fault *fault,
                                             uint8_t *name, size_t name_room) {
    return boxglue_check(boxglue_bytes_at(dvi, dvi_size), dvi_size,
                         boxglue_fonts_at(fonts, font_count), font_count,
                         fault,
                         boxglue_room_at(name, name_room), name_room);
}

static inline uint32_t boxglue_metrics_or_null(const uint8_t *tfm, size_t tfm_size,
                                               int32_t size,
                                               struct boxglue_glyph_table *glyphs,
                                               struct boxglue_font_parameters *parameters,
                                               struct boxglue_font_step *steps, size_t step_room,
                                               size_t *count,
                                               struct boxglue_fault *fault) {
    return boxglue_metrics(boxglue_bytes_at(tfm, tfm_size), tfm_size,
                           size,
                           glyphs,
                           parameters,
                           boxglue_font_steps_at(steps, step_room), step_room,
                           count,
                           fault);
}

static inline uint32_t boxglue_job_new_or_null(struct boxglue_job *job,
                                               const struct boxglue_font *fonts, size_t font_count) {
    return boxglue_job_new(job, boxglue_fonts_at(fonts, font_count), font_count);
}

static inline uint32_t boxglue_job_commands_or_null(struct boxglue_job *job,
                                                    const void *script, size_t script_size) {
    return boxglue_job_commands(job, boxglue_bytes_at(script, script_size), script_size);
}

static inline uint32_t boxglue_job_answers_or_null(struct boxglue_job *job,
                                                   uint8_t *text, size_t text_room,
                                                   size_t *size) {
    return boxglue_job_answers(job, boxglue_room_at(text, text_room), text_room,
                               size);
}

static inline uint32_t boxglue_job_take_or_null(struct boxglue_job *job,
                                                uint8_t *dvi, size_t dvi_room,
                                                size_t *size) {
    return boxglue_job_take(job, boxglue_room_at(dvi, dvi_room), dvi_room,
                            size);
}

static inline uint32_t boxglue_job_run_or_null(struct boxglue_job *job,
                                               const void *script, size_t script_size,
                                               struct boxglue_reply *replies, size_t reply_room,
                                               size_t *count) {
    return boxglue_job_run(job, boxglue_bytes_at(script, script_size), script_size,
                           boxglue_replies_at(replies, reply_room), reply_room,
                           count);
}

static inline uint32_t boxglue_job_items_or_null(struct boxglue_job *job, uint32_t register_number,
                                                 struct boxglue_item *items, size_t item_room,
                                                 uint8_t *text, size_t text_room,
                                                 struct boxglue_item_sizes *sizes) {
    return boxglue_job_items(job, register_number,
                             boxglue_items_at(items, item_room), item_room,
                             boxglue_room_at(text, text_room), text_room,
                             sizes);
}

static inline uint32_t boxglue_run_replies_or_null(const void *script, size_t script_size,
                                                   const struct boxglue_font *fonts, size_t font_count,
                                                   struct boxglue_reply *replies, size_t reply_room,
                                                   uint8_t *dvi, size_t dvi_room,
                                                   struct boxglue_reply_sizes *sizes) {
    return boxglue_run_replies(boxglue_bytes_at(script, script_size), script_size,
                               boxglue_fonts_at(fonts, font_count), font_count,
                               boxglue_replies_at(replies, reply_room), reply_room,
                               boxglue_room_at(dvi, dvi_room), dvi_room,
                               sizes);
}

#define boxglue_run boxglue_run_or_null
#define boxglue_list boxglue_list_or_null
#define boxglue_paint boxglue_paint_or_null
#define boxglue_paint_bits boxglue_paint_bits_or_null
#define boxglue_fonts boxglue_fonts_or_null
#define boxglue_marks boxglue_marks_or_null
#define boxglue_check boxglue_check_or_null
#define boxglue_metrics boxglue_metrics_or_null
#define boxglue_job_new boxglue_job_new_or_null
#define boxglue_job_commands boxglue_job_commands_or_null
#define boxglue_job_answers boxglue_job_answers_or_null
#define boxglue_job_take boxglue_job_take_or_null
#define boxglue_job_run boxglue_job_run_or_null
#define boxglue_job_items boxglue_job_items_or_null
#define boxglue_run_replies boxglue_run_replies_or_null

/** @endcond */
#endif

#ifdef __cplusplus
}
#endif

#endif
