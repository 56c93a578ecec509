/**
 * @file boxglue_typed.h
 * @brief The commands of scripts as calls, for C and C++.
 *
 *     struct boxglue_typed page;
 *     uint32_t status = boxglue_typed_new(&page, NULL, 0);
 *     if (!status) status = boxglue_do_hbox(&page, BOXGLUE_NATURAL, 0, 7);
 *     if (!status) status = boxglue_do_rule(&page, BOXGLUE_PT(1), BOXGLUE_PT(1), 0);
 *     if (!status) status = boxglue_do_end(&page);
 *     if (!status) printf("%d sp wide\n", (int)page.reply.box.width);
 *     if (!status) status = boxglue_do_ship(&page, 7);
 *     if (!status) status = boxglue_do_finish(&page);
 *     boxglue_typed_free(&page);
 *
 * All calls are inline functions over boxglue_job_run of boxglue.h, and the library exports none of them. C99 or C++98 is enough.
 *
 * Each boxglue_do call tests its arguments, runs one command (docs/COMMANDS.md, section 3), and stores the reply in the handle. A call has the name of its
 * command, except boxglue_do_load for `font`, boxglue_do_set_dimension, boxglue_do_set_glue and boxglue_do_set_number for `set`, and boxglue_do_finish, which
 * ends the job. It returns one of these statuses:
 *
 * - BOXGLUE_ACCEPTED: The command was done. `reply` has what it answers.
 * - BOXGLUE_REFUSED: The command was refused and changed nothing. `reply.refusal` says why, and boxglue_refusal_name names it.
 * - BOXGLUE_REFUSED_MEMORY: The same, because the system refused memory.
 * - BOXGLUE_OUT_OF_RANGE: An argument is not allowed in a script, and nothing was sent. `fault` says what is wrong with it, and `place` where in a text.
 * - BOXGLUE_OUT_OF_MEMORY: The system refused memory, and nothing was run. A text of more than 200 bytes needs memory from malloc, which the call frees.
 * - BOXGLUE_NO_JOB: The handle is null, or has no job.
 *
 * A handle may be null in all calls. Give a handle to one call at a time, and do not copy it. You may run scripts on its job, too: boxglue_job_run(&page.job, ..).
 * No other pointer may be null unless the size or the count beside it is 0.
 */
#ifndef BOXGLUE_TYPED_H
#define BOXGLUE_TYPED_H

#include "boxglue.h"

#include <stdlib.h>
#include <string.h>

#ifdef __cplusplus
extern "C" {
#endif

/** @cond */
#if defined(__GNUC__) || defined(__clang__)
#define BOXGLUE_MUST_CHECK __attribute__((warn_unused_result))
#else
#define BOXGLUE_MUST_CHECK
#endif
/** @endcond */

/** @brief A dimension in scaled points, of which 65,536 are a point. It fits if its absolute value is at most 1,073,741,823. */
typedef int32_t boxglue_sp;

/** @brief Points, as a dimension. A fraction of a scaled point is cut off. */
#define BOXGLUE_PT(points) ((boxglue_sp)((points) * 65536))
/** @brief A size of a rule that comes from the box around the rule. */
#define BOXGLUE_RUNNING ((boxglue_sp)(-2147483647 - 1))
/** @brief Stands for a register: the box goes into the enclosing list. */
#define BOXGLUE_IN_LIST (-1)

/** @brief What is wrong with an argument. */
enum boxglue_argument_fault {
    /** Nothing is wrong. */
    BOXGLUE_FAULT_NONE = 0,
    /** A number is out of its range. */
    BOXGLUE_FAULT_NUMBER = 1,
    /** A dimension does not fit. */
    BOXGLUE_FAULT_DIMENSION = 2,
    /** A byte of a text is not 32 to 126, or a byte of a font's name is not a letter, a digit, `-`, `_` or `.`. */
    BOXGLUE_FAULT_BYTE = 3,
    /** The name of a font does not have 1 to 255 bytes. */
    BOXGLUE_FAULT_NAME = 4
};

/** @brief How the size of a box is found. */
enum boxglue_target {
    /** Its natural size. */
    BOXGLUE_NATURAL = 0,
    /** The given size. */
    BOXGLUE_TO = 1,
    /** Its natural size plus the given size. */
    BOXGLUE_SPREAD = 2
};

/** @brief An order of stretch and shrink. The unit of an amount of an infinite order is 1/65536 of it: BOXGLUE_PT(1) of BOXGLUE_FIL is 1fil. */
enum boxglue_order {
    /** Scaled points. */
    BOXGLUE_NORMAL = 0,
    /** The first infinite order. */
    BOXGLUE_FIL = 1,
    /** The second infinite order. */
    BOXGLUE_FILL = 2,
    /** The third infinite order. */
    BOXGLUE_FILLL = 3
};

/** @brief Glue. */
struct boxglue_glue {
    /** The natural width. */
    boxglue_sp width;
    /** The stretch. */
    boxglue_sp plus;
    /** The shrink. */
    boxglue_sp minus;
    /** The order of the stretch, one of enum boxglue_order. */
    uint32_t plus_order;
    /** The order of the shrink, one of enum boxglue_order. */
    uint32_t minus_order;
};

/** @brief The parameters that are dimensions (docs/COMMANDS.md, section 1). */
enum boxglue_dimension_parameter {
    /** The greatest depth of a vbox; what is more becomes height. */
    BOXGLUE_BOXMAXDEPTH = 0,
    /** The same for the front of a split. */
    BOXGLUE_SPLITMAXDEPTH = 1,
    /** The space between boxes below which lineskip replaces baselineskip. */
    BOXGLUE_LINESKIPLIMIT = 2,
    /** The width of a paragraph's lines. */
    BOXGLUE_HSIZE = 3,
    /** The width of a paragraph's first lines. */
    BOXGLUE_FIRSTSIZE = 4,
    /** How far pages are moved to the right. */
    BOXGLUE_HOFFSET = 5,
    /** How far pages are moved down. */
    BOXGLUE_VOFFSET = 6
};

/** @brief The parameters that are glues (docs/COMMANDS.md, section 1). */
enum boxglue_glue_parameter {
    /** From the top of the rest of a split to its first baseline. */
    BOXGLUE_SPLITTOPSKIP = 0,
    /** From one baseline to the next in a vertical list. */
    BOXGLUE_BASELINESKIP = 1,
    /** Between boxes that would be too close. */
    BOXGLUE_LINESKIP = 2,
    /** At the end of a paragraph. */
    BOXGLUE_PARFILLSKIP = 3
};

/** @brief The parameters that are numbers (docs/COMMANDS.md, section 1). */
enum boxglue_number_parameter {
    /** The greatest badness of a line in pass 1. */
    BOXGLUE_PRETOLERANCE = 0,
    /** The greatest badness of a line in pass 2. */
    BOXGLUE_TOLERANCE = 1,
    /** Added to the badness of each line. */
    BOXGLUE_LINEPENALTY = 2,
    /** The demerits if tight and loose lines meet. */
    BOXGLUE_ADJDEMERITS = 3,
    /** The penalty after a paragraph's first line. */
    BOXGLUE_CLUBPENALTY = 4,
    /** The penalty before a paragraph's last line. */
    BOXGLUE_WIDOWPENALTY = 5,
    /** The penalty between any two lines of a paragraph. */
    BOXGLUE_INTERLINEPENALTY = 6,
    /** How many lines firstsize sets, 0 to 32. */
    BOXGLUE_FIRSTLINES = 7
};

/** @brief A job, with the reply and the fault of its last call. Only these calls may write it. */
struct boxglue_typed {
    /** The job. */
    struct boxglue_job job;
    /** The reply to the last command that was run. */
    struct boxglue_reply reply;
    /** What is wrong with an argument of the last call, one of enum boxglue_argument_fault. */
    uint32_t fault;
    /** Where in the text or the name of the last call the bad byte is, from 0, if the fault is BOXGLUE_FAULT_BYTE. */
    size_t place;
};

/**
 * @brief Make a job with these fonts, as boxglue_job_new does.
 *
 * The call overwrites the handle, so free an earlier job first.
 *
 * @param typed  the handle
 * @param fonts, font_count  the fonts that `load` may name
 * @return BOXGLUE_ACCEPTED, BOXGLUE_OUT_OF_MEMORY, BOXGLUE_BAD_FONT_NAME or BOXGLUE_NO_JOB, which means a null handle
 */
static inline BOXGLUE_MUST_CHECK uint32_t boxglue_typed_new(struct boxglue_typed *typed, const struct boxglue_font *fonts, size_t font_count) {
    if (!typed) return BOXGLUE_NO_JOB;
    memset(typed, 0, sizeof *typed);
    typed->job.at = NULL;
    return boxglue_job_new(&typed->job, fonts, font_count);
}

/**
 * @brief Free the job, if there is one.
 *
 * @param typed  the handle
 */
static inline void boxglue_typed_free(struct boxglue_typed *typed) {
    if (typed) boxglue_job_free(&typed->job);
}

/**
 * @brief Test whether a text may stand in a line of `text` or `special`: all its bytes must be 32 to 126, since scripts have no escapes.
 *
 * @param text, size  the text
 * @param place  the place of the first other byte, from 0, written at BOXGLUE_OUT_OF_RANGE. It may be null
 * @return BOXGLUE_ACCEPTED or BOXGLUE_OUT_OF_RANGE
 */
static inline BOXGLUE_MUST_CHECK uint32_t boxglue_quote(const void *text, size_t size, size_t *place) {
    const unsigned char *bytes = (const unsigned char *)text;
    size_t at;
    for (at = 0; at < size; at++) {
        if (bytes[at] < 32 || bytes[at] > 126) {
            if (place) *place = at;
            return BOXGLUE_OUT_OF_RANGE;
        }
    }
    return BOXGLUE_ACCEPTED;
}

/** @cond */
/* Below are the texts of commands. A line is a handle, its text so far, and its end. */

enum { BOXGLUE_LINE_ROOM = 256, BOXGLUE_SHORT_TEXT = 200 };

struct boxglue_line {
    struct boxglue_typed *typed;
    char *at;
    uint32_t fault;
    char text[BOXGLUE_LINE_ROOM];
};

static inline void boxglue_line_add(struct boxglue_line *line, const char *text) {
    size_t size = strlen(text);
    memcpy(line->at, text, size);
    line->at += size;
}

static inline void boxglue_line_begin(struct boxglue_line *line, struct boxglue_typed *typed, const char *word) {
    line->typed = typed;
    line->at = line->text;
    line->fault = BOXGLUE_FAULT_NONE;
    if (typed) {
        typed->fault = BOXGLUE_FAULT_NONE;
        typed->place = 0;
    }
    boxglue_line_add(line, word);
}

static inline void boxglue_line_refuse(struct boxglue_line *line, uint32_t fault) {
    if (!line->fault) line->fault = fault;
}

/* The digits of a number, two at a time from the last ones on, and then all ten bytes at once: what is after the digits is overwritten by what follows. */
static inline void boxglue_line_digits(struct boxglue_line *line, uint32_t number) {
    static const char PAIRS[] =
        "0001020304050607080910111213141516171819202122232425262728293031323334353637383940414243444546474849"
        "5051525354555657585960616263646566676869707172737475767778798081828384858687888990919293949596979899";
    char digits[20] = {0};
    char *first = digits + 10;
    while (number >= 10) {
        first -= 2;
        memcpy(first, PAIRS + number % 100 * 2, 2);
        number /= 100;
    }
    /* One digit is left over, unless the first pair was taken whole. */
    if (number || first == digits + 10) *--first = (char)('0' + (char)number);
    memcpy(line->at, first, 10);
    line->at += digits + 10 - first;
}

static inline void boxglue_line_number(struct boxglue_line *line, int32_t number, int32_t least, int32_t most) {
    if (number < least || number > most) boxglue_line_refuse(line, BOXGLUE_FAULT_NUMBER);
    *line->at++ = ' ';
    if (number < 0) *line->at++ = '-';
    boxglue_line_digits(line, number < 0 ? 0u - (uint32_t)number : (uint32_t)number);
}

static inline void boxglue_line_register(struct boxglue_line *line, int32_t number) {
    boxglue_line_number(line, number, 0, 32767);
}

static inline void boxglue_line_dimension(struct boxglue_line *line, boxglue_sp dimension) {
    if (dimension < -1073741823 || dimension > 1073741823) boxglue_line_refuse(line, BOXGLUE_FAULT_DIMENSION);
    boxglue_line_number(line, dimension, -2147483647 - 1, 2147483647);
    *line->at++ = 's';
    *line->at++ = 'p';
}

static inline void boxglue_line_size(struct boxglue_line *line, boxglue_sp size) {
    if (size == BOXGLUE_RUNNING) boxglue_line_add(line, " *");
    else boxglue_line_dimension(line, size);
}

/* An amount of an infinite order: 65536ths with five digits after the point, which are read as the same number. */
static inline void boxglue_line_amount(struct boxglue_line *line, int32_t amount, const char *order) {
    uint32_t size = amount < 0 ? 0u - (uint32_t)amount : (uint32_t)amount, rest = size % 65536, digit = 0;
    if (size > 1073741823) boxglue_line_refuse(line, BOXGLUE_FAULT_DIMENSION);
    boxglue_line_add(line, amount < 0 ? " -" : " ");
    boxglue_line_digits(line, size / 65536);
    *line->at++ = '.';
    /* The nearest of the fractions of 10^5. */
    rest = (uint32_t)(((uint64_t)rest * 200000 + 65536) / 131072);
    for (digit = 10000; digit; digit /= 10) boxglue_line_digits(line, rest / digit % 10);
    boxglue_line_add(line, order);
}

static inline void boxglue_line_stretch(struct boxglue_line *line, const char *word, boxglue_sp amount, uint32_t order) {
    if (order > BOXGLUE_FILLL) boxglue_line_refuse(line, BOXGLUE_FAULT_NUMBER);
    if (!amount) return;
    boxglue_line_add(line, word);
    if (order == BOXGLUE_NORMAL) boxglue_line_dimension(line, amount);
    else boxglue_line_amount(line, amount, order == BOXGLUE_FIL ? "fil" : order == BOXGLUE_FILL ? "fill" : "filll");
}

static inline void boxglue_line_glue(struct boxglue_line *line, const struct boxglue_glue *glue) {
    boxglue_line_dimension(line, glue->width);
    boxglue_line_stretch(line, " plus", glue->plus, glue->plus_order);
    boxglue_line_stretch(line, " minus", glue->minus, glue->minus_order);
}

/* Runs a text of one command. */
static inline BOXGLUE_MUST_CHECK uint32_t boxglue_line_run(struct boxglue_typed *typed, const char *text, size_t size) {
    size_t count = 0;
    return boxglue_job_run(&typed->job, text, size, &typed->reply, 1, &count);
}

/* Runs the line, unless a script cannot have it. */
static inline BOXGLUE_MUST_CHECK uint32_t boxglue_line_end(struct boxglue_line *line) {
    if (!line->typed) return BOXGLUE_NO_JOB;
    line->typed->fault = line->fault;
    return line->fault ? (uint32_t)BOXGLUE_OUT_OF_RANGE : boxglue_line_run(line->typed, line->text, (size_t)(line->at - line->text));
}

/* Runs the line with a text after it. */
static inline BOXGLUE_MUST_CHECK uint32_t boxglue_line_end_text(struct boxglue_line *line, const void *text, size_t size) {
    size_t before;
    char *whole;
    uint32_t status;
    if (!line->typed) return BOXGLUE_NO_JOB;
    if (boxglue_quote(text, size, &line->typed->place)) boxglue_line_refuse(line, BOXGLUE_FAULT_BYTE);
    if (size <= BOXGLUE_SHORT_TEXT || line->fault) {
        if (!line->fault && size) memcpy(line->at, text, size);
        if (!line->fault) line->at += size;
        return boxglue_line_end(line);
    }
    before = (size_t)(line->at - line->text);
    whole = (char *)malloc(before + size);
    if (!whole) return BOXGLUE_OUT_OF_MEMORY;
    memcpy(whole, line->text, before);
    memcpy(whole + before, text, size);
    status = boxglue_line_run(line->typed, whole, before + size);
    free(whole);
    return status;
}

/* A command of a word and a register. */
static inline BOXGLUE_MUST_CHECK uint32_t boxglue_line_of_register(struct boxglue_typed *typed, const char *word, int32_t box) {
    struct boxglue_line line;
    boxglue_line_begin(&line, typed, word);
    boxglue_line_register(&line, box);
    return boxglue_line_end(&line);
}

/* A command that adds the box of a register. */
static inline BOXGLUE_MUST_CHECK uint32_t boxglue_line_of_shift(struct boxglue_typed *typed, const char *word, int32_t box, boxglue_sp shift) {
    struct boxglue_line line;
    boxglue_line_begin(&line, typed, word);
    boxglue_line_register(&line, box);
    boxglue_line_add(&line, " shift");
    boxglue_line_dimension(&line, shift);
    return boxglue_line_end(&line);
}

/* A command that opens a box. */
static inline BOXGLUE_MUST_CHECK uint32_t boxglue_line_of_box(struct boxglue_typed *typed, const char *word, enum boxglue_target target, boxglue_sp size, int32_t into) {
    struct boxglue_line line;
    boxglue_line_begin(&line, typed, word);
    if (target != BOXGLUE_NATURAL) {
        boxglue_line_add(&line, target == BOXGLUE_TO ? " to" : " spread");
        boxglue_line_dimension(&line, size);
    }
    if (into != BOXGLUE_IN_LIST) {
        boxglue_line_add(&line, " into");
        boxglue_line_register(&line, into);
    }
    return boxglue_line_end(&line);
}

/** @endcond */

/** @name Fonts
 * @{ */

/**
 * @brief Load a font into a slot.
 *
 * @param typed  the handle
 * @param slot  the slot, 0 to 255
 * @param name  the name of the font, which ends with a byte 0
 * @param at  the size in scaled points, 1 to 2^27 - 1, or 0 for the design size
 * @return BOXGLUE_ACCEPTED, BOXGLUE_REFUSED, BOXGLUE_REFUSED_MEMORY, BOXGLUE_OUT_OF_RANGE, BOXGLUE_OUT_OF_MEMORY or BOXGLUE_NO_JOB
 */
static inline BOXGLUE_MUST_CHECK uint32_t boxglue_do_load(struct boxglue_typed *typed, int32_t slot, const char *name, boxglue_sp at) {
    static const char MORE[] = "-_.";
    struct boxglue_line line;
    size_t size = strlen(name), place;
    char whole[BOXGLUE_LINE_ROOM + 64];
    boxglue_line_begin(&line, typed, "font");
    boxglue_line_number(&line, slot, 0, 255);
    if (size < 1 || size > 255) boxglue_line_refuse(&line, BOXGLUE_FAULT_NAME);
    for (place = 0; place < size && !line.fault; place++) {
        char it = name[place];
        if (!((it >= '0' && it <= '9') || (it >= 'A' && it <= 'Z') || (it >= 'a' && it <= 'z') || strchr(MORE, it))) {
            boxglue_line_refuse(&line, BOXGLUE_FAULT_BYTE);
            if (typed) typed->place = place;
        }
    }
    if (at < 0 || at > 134217727) boxglue_line_refuse(&line, BOXGLUE_FAULT_NUMBER);
    if (!typed || line.fault) return boxglue_line_end(&line);
    *line.at++ = ' ';
    place = (size_t)(line.at - line.text);
    memcpy(whole, line.text, place);
    memcpy(whole + place, name, size);
    line.at = line.text;
    if (at) {
        boxglue_line_add(&line, " at");
        boxglue_line_dimension(&line, at);
    }
    memcpy(whole + place + size, line.text, (size_t)(line.at - line.text));
    return boxglue_line_run(typed, whole, place + size + (size_t)(line.at - line.text));
}

/**
 * @brief Make the font of a slot the current one.
 *
 * @param typed  the handle
 * @param slot  the slot, 0 to 255
 * @return BOXGLUE_ACCEPTED, BOXGLUE_REFUSED, BOXGLUE_REFUSED_MEMORY, BOXGLUE_OUT_OF_RANGE, BOXGLUE_OUT_OF_MEMORY or BOXGLUE_NO_JOB
 */
static inline BOXGLUE_MUST_CHECK uint32_t boxglue_do_use(struct boxglue_typed *typed, int32_t slot) {
    struct boxglue_line line;
    boxglue_line_begin(&line, typed, "use");
    boxglue_line_number(&line, slot, 0, 255);
    return boxglue_line_end(&line);
}

/** @}
 * @name Lists
 * @{ */

/**
 * @brief Open the list of an hbox.
 *
 * @param typed  the handle
 * @param target  how the width of the box is found
 * @param size  the size for this target; ignored for BOXGLUE_NATURAL
 * @param into  the register for the box, 0 to 32767, or BOXGLUE_IN_LIST
 * @return BOXGLUE_ACCEPTED, BOXGLUE_REFUSED, BOXGLUE_REFUSED_MEMORY, BOXGLUE_OUT_OF_RANGE, BOXGLUE_OUT_OF_MEMORY or BOXGLUE_NO_JOB
 */
static inline BOXGLUE_MUST_CHECK uint32_t boxglue_do_hbox(struct boxglue_typed *typed, enum boxglue_target target, boxglue_sp size, int32_t into) {
    return boxglue_line_of_box(typed, "hbox", target, size, into);
}

/**
 * @brief Open the list of a vbox.
 *
 * @param typed  the handle
 * @param target  how the height of the box is found
 * @param size  the size for this target; ignored for BOXGLUE_NATURAL
 * @param into  the register for the box, 0 to 32767, or BOXGLUE_IN_LIST
 * @return BOXGLUE_ACCEPTED, BOXGLUE_REFUSED, BOXGLUE_REFUSED_MEMORY, BOXGLUE_OUT_OF_RANGE, BOXGLUE_OUT_OF_MEMORY or BOXGLUE_NO_JOB
 */
static inline BOXGLUE_MUST_CHECK uint32_t boxglue_do_vbox(struct boxglue_typed *typed, enum boxglue_target target, boxglue_sp size, int32_t into) {
    return boxglue_line_of_box(typed, "vbox", target, size, into);
}

/**
 * @brief Open the list of a vtop.
 *
 * @param typed  the handle
 * @param target  how the height of the box is found
 * @param size  the size for this target; ignored for BOXGLUE_NATURAL
 * @param into  the register for the box, 0 to 32767, or BOXGLUE_IN_LIST
 * @return BOXGLUE_ACCEPTED, BOXGLUE_REFUSED, BOXGLUE_REFUSED_MEMORY, BOXGLUE_OUT_OF_RANGE, BOXGLUE_OUT_OF_MEMORY or BOXGLUE_NO_JOB
 */
static inline BOXGLUE_MUST_CHECK uint32_t boxglue_do_vtop(struct boxglue_typed *typed, enum boxglue_target target, boxglue_sp size, int32_t into) {
    return boxglue_line_of_box(typed, "vtop", target, size, into);
}

/**
 * @brief Open a paragraph in a vertical list.
 *
 * @param typed  the handle
 * @return BOXGLUE_ACCEPTED, BOXGLUE_REFUSED, BOXGLUE_REFUSED_MEMORY, BOXGLUE_OUT_OF_MEMORY or BOXGLUE_NO_JOB
 */
static inline BOXGLUE_MUST_CHECK uint32_t boxglue_do_par(struct boxglue_typed *typed) {
    struct boxglue_line line;
    boxglue_line_begin(&line, typed, "par");
    return boxglue_line_end(&line);
}

/**
 * @brief End the innermost list. The reply is BOXGLUE_REPLY_PACKED or BOXGLUE_REPLY_PARAGRAPH.
 *
 * @param typed  the handle
 * @return BOXGLUE_ACCEPTED, BOXGLUE_REFUSED, BOXGLUE_REFUSED_MEMORY, BOXGLUE_OUT_OF_MEMORY or BOXGLUE_NO_JOB
 */
static inline BOXGLUE_MUST_CHECK uint32_t boxglue_do_end(struct boxglue_typed *typed) {
    struct boxglue_line line;
    boxglue_line_begin(&line, typed, "end");
    return boxglue_line_end(&line);
}

/** @}
 * @name Items
 * @{ */

/**
 * @brief Add a text in the current font. The reply is BOXGLUE_REPLY_SHAPED.
 *
 * @param typed  the handle
 * @param text, size  the text, whose bytes must be 32 to 126
 * @return BOXGLUE_ACCEPTED, BOXGLUE_REFUSED, BOXGLUE_REFUSED_MEMORY, BOXGLUE_OUT_OF_RANGE, BOXGLUE_OUT_OF_MEMORY or BOXGLUE_NO_JOB
 */
static inline BOXGLUE_MUST_CHECK uint32_t boxglue_do_text(struct boxglue_typed *typed, const void *text, size_t size) {
    struct boxglue_line line;
    boxglue_line_begin(&line, typed, "text ");
    return boxglue_line_end_text(&line, text, size);
}

/**
 * @brief Add a character of the current font. The reply is BOXGLUE_REPLY_SHAPED.
 *
 * @param typed  the handle
 * @param code  the character, 0 to 255
 * @return BOXGLUE_ACCEPTED, BOXGLUE_REFUSED, BOXGLUE_REFUSED_MEMORY, BOXGLUE_OUT_OF_RANGE, BOXGLUE_OUT_OF_MEMORY or BOXGLUE_NO_JOB
 */
static inline BOXGLUE_MUST_CHECK uint32_t boxglue_do_char(struct boxglue_typed *typed, int32_t code) {
    struct boxglue_line line;
    boxglue_line_begin(&line, typed, "char");
    boxglue_line_number(&line, code, 0, 255);
    return boxglue_line_end(&line);
}

/**
 * @brief Add a kern.
 *
 * @param typed  the handle
 * @param amount  the amount
 * @return BOXGLUE_ACCEPTED, BOXGLUE_REFUSED, BOXGLUE_REFUSED_MEMORY, BOXGLUE_OUT_OF_RANGE, BOXGLUE_OUT_OF_MEMORY or BOXGLUE_NO_JOB
 */
static inline BOXGLUE_MUST_CHECK uint32_t boxglue_do_kern(struct boxglue_typed *typed, boxglue_sp amount) {
    struct boxglue_line line;
    boxglue_line_begin(&line, typed, "kern");
    boxglue_line_dimension(&line, amount);
    return boxglue_line_end(&line);
}

/**
 * @brief Add glue.
 *
 * @param typed  the handle
 * @param glue  the glue
 * @return BOXGLUE_ACCEPTED, BOXGLUE_REFUSED, BOXGLUE_REFUSED_MEMORY, BOXGLUE_OUT_OF_RANGE, BOXGLUE_OUT_OF_MEMORY or BOXGLUE_NO_JOB
 */
static inline BOXGLUE_MUST_CHECK uint32_t boxglue_do_glue(struct boxglue_typed *typed, const struct boxglue_glue *glue) {
    struct boxglue_line line;
    boxglue_line_begin(&line, typed, "glue");
    boxglue_line_glue(&line, glue);
    return boxglue_line_end(&line);
}

/**
 * @brief Add a penalty.
 *
 * @param typed  the handle
 * @param penalty  the penalty, -500,000,000 to 500,000,000
 * @return BOXGLUE_ACCEPTED, BOXGLUE_REFUSED, BOXGLUE_REFUSED_MEMORY, BOXGLUE_OUT_OF_RANGE, BOXGLUE_OUT_OF_MEMORY or BOXGLUE_NO_JOB
 */
static inline BOXGLUE_MUST_CHECK uint32_t boxglue_do_penalty(struct boxglue_typed *typed, int32_t penalty) {
    struct boxglue_line line;
    boxglue_line_begin(&line, typed, "penalty");
    boxglue_line_number(&line, penalty, -500000000, 500000000);
    return boxglue_line_end(&line);
}

/**
 * @brief Add a rule.
 *
 * @param typed  the handle
 * @param width  the width, or BOXGLUE_RUNNING in a vertical list
 * @param height  the height, or BOXGLUE_RUNNING in a horizontal list
 * @param depth  the depth, or BOXGLUE_RUNNING in a horizontal list
 * @return BOXGLUE_ACCEPTED, BOXGLUE_REFUSED, BOXGLUE_REFUSED_MEMORY, BOXGLUE_OUT_OF_RANGE, BOXGLUE_OUT_OF_MEMORY or BOXGLUE_NO_JOB
 */
static inline BOXGLUE_MUST_CHECK uint32_t boxglue_do_rule(struct boxglue_typed *typed, boxglue_sp width, boxglue_sp height, boxglue_sp depth) {
    struct boxglue_line line;
    boxglue_line_begin(&line, typed, "rule");
    boxglue_line_size(&line, width);
    boxglue_line_size(&line, height);
    boxglue_line_size(&line, depth);
    return boxglue_line_end(&line);
}

/**
 * @brief Add a special, a text for the program that reads the file.
 *
 * @param typed  the handle
 * @param text, size  the text, whose bytes must be 32 to 126
 * @return BOXGLUE_ACCEPTED, BOXGLUE_REFUSED, BOXGLUE_REFUSED_MEMORY, BOXGLUE_OUT_OF_RANGE, BOXGLUE_OUT_OF_MEMORY or BOXGLUE_NO_JOB
 */
static inline BOXGLUE_MUST_CHECK uint32_t boxglue_do_special(struct boxglue_typed *typed, const void *text, size_t size) {
    struct boxglue_line line;
    boxglue_line_begin(&line, typed, "special ");
    return boxglue_line_end_text(&line, text, size);
}

/** @}
 * @name Boxes in registers
 * @{ */

/**
 * @brief Add the box of a register, which becomes void. The reply is BOXGLUE_REPLY_ADDED.
 *
 * @param typed  the handle
 * @param box  the register, 0 to 32767
 * @param shift  how far the box is moved: down in a horizontal list, to the right in a vertical one
 * @return BOXGLUE_ACCEPTED, BOXGLUE_REFUSED, BOXGLUE_REFUSED_MEMORY, BOXGLUE_OUT_OF_RANGE, BOXGLUE_OUT_OF_MEMORY or BOXGLUE_NO_JOB
 */
static inline BOXGLUE_MUST_CHECK uint32_t boxglue_do_box(struct boxglue_typed *typed, int32_t box, boxglue_sp shift) {
    return boxglue_line_of_shift(typed, "box", box, shift);
}

/**
 * @brief Add a copy of the box of a register. The reply is BOXGLUE_REPLY_ADDED.
 *
 * @param typed  the handle
 * @param box  the register, 0 to 32767
 * @param shift  how far the box is moved: down in a horizontal list, to the right in a vertical one
 * @return BOXGLUE_ACCEPTED, BOXGLUE_REFUSED, BOXGLUE_REFUSED_MEMORY, BOXGLUE_OUT_OF_RANGE, BOXGLUE_OUT_OF_MEMORY or BOXGLUE_NO_JOB
 */
static inline BOXGLUE_MUST_CHECK uint32_t boxglue_do_copy(struct boxglue_typed *typed, int32_t box, boxglue_sp shift) {
    return boxglue_line_of_shift(typed, "copy", box, shift);
}

/**
 * @brief Add the items of the hbox of a register, which becomes void. The reply is BOXGLUE_REPLY_ADDED.
 *
 * @param typed  the handle
 * @param box  the register, 0 to 32767
 * @return BOXGLUE_ACCEPTED, BOXGLUE_REFUSED, BOXGLUE_REFUSED_MEMORY, BOXGLUE_OUT_OF_RANGE, BOXGLUE_OUT_OF_MEMORY or BOXGLUE_NO_JOB
 */
static inline BOXGLUE_MUST_CHECK uint32_t boxglue_do_unhbox(struct boxglue_typed *typed, int32_t box) {
    return boxglue_line_of_register(typed, "unhbox", box);
}

/**
 * @brief Add copies of the items of the hbox of a register. The reply is BOXGLUE_REPLY_ADDED.
 *
 * @param typed  the handle
 * @param box  the register, 0 to 32767
 * @return BOXGLUE_ACCEPTED, BOXGLUE_REFUSED, BOXGLUE_REFUSED_MEMORY, BOXGLUE_OUT_OF_RANGE, BOXGLUE_OUT_OF_MEMORY or BOXGLUE_NO_JOB
 */
static inline BOXGLUE_MUST_CHECK uint32_t boxglue_do_unhcopy(struct boxglue_typed *typed, int32_t box) {
    return boxglue_line_of_register(typed, "unhcopy", box);
}

/**
 * @brief Add the items of the vbox of a register, which becomes void. The reply is BOXGLUE_REPLY_ADDED.
 *
 * @param typed  the handle
 * @param box  the register, 0 to 32767
 * @return BOXGLUE_ACCEPTED, BOXGLUE_REFUSED, BOXGLUE_REFUSED_MEMORY, BOXGLUE_OUT_OF_RANGE, BOXGLUE_OUT_OF_MEMORY or BOXGLUE_NO_JOB
 */
static inline BOXGLUE_MUST_CHECK uint32_t boxglue_do_unvbox(struct boxglue_typed *typed, int32_t box) {
    return boxglue_line_of_register(typed, "unvbox", box);
}

/**
 * @brief Add copies of the items of the vbox of a register. The reply is BOXGLUE_REPLY_ADDED.
 *
 * @param typed  the handle
 * @param box  the register, 0 to 32767
 * @return BOXGLUE_ACCEPTED, BOXGLUE_REFUSED, BOXGLUE_REFUSED_MEMORY, BOXGLUE_OUT_OF_RANGE, BOXGLUE_OUT_OF_MEMORY or BOXGLUE_NO_JOB
 */
static inline BOXGLUE_MUST_CHECK uint32_t boxglue_do_unvcopy(struct boxglue_typed *typed, int32_t box) {
    return boxglue_line_of_register(typed, "unvcopy", box);
}

/**
 * @brief Move the last item of the list into a register if it is a box; otherwise make the register void.
 *
 * @param typed  the handle
 * @param into  the register, 0 to 32767
 * @return BOXGLUE_ACCEPTED, BOXGLUE_REFUSED, BOXGLUE_REFUSED_MEMORY, BOXGLUE_OUT_OF_RANGE, BOXGLUE_OUT_OF_MEMORY or BOXGLUE_NO_JOB
 */
static inline BOXGLUE_MUST_CHECK uint32_t boxglue_do_lastbox(struct boxglue_typed *typed, int32_t into) {
    return boxglue_line_of_register(typed, "lastbox", into);
}

/**
 * @brief Split the vbox of a register. The reply is BOXGLUE_REPLY_SPLIT or BOXGLUE_REPLY_SPLIT_VOID.
 *
 * @param typed  the handle
 * @param box  the register, 0 to 32767, which keeps the rest
 * @param to  the height of the front
 * @param into  the register for the front, 0 to 32767
 * @return BOXGLUE_ACCEPTED, BOXGLUE_REFUSED, BOXGLUE_REFUSED_MEMORY, BOXGLUE_OUT_OF_RANGE, BOXGLUE_OUT_OF_MEMORY or BOXGLUE_NO_JOB
 */
static inline BOXGLUE_MUST_CHECK uint32_t boxglue_do_vsplit(struct boxglue_typed *typed, int32_t box, boxglue_sp to, int32_t into) {
    struct boxglue_line line;
    boxglue_line_begin(&line, typed, "vsplit");
    boxglue_line_register(&line, box);
    boxglue_line_add(&line, " to");
    boxglue_line_dimension(&line, to);
    boxglue_line_add(&line, " into");
    boxglue_line_register(&line, into);
    return boxglue_line_end(&line);
}

/**
 * @brief Measure the box of a register. The reply is BOXGLUE_REPLY_MEASURED or BOXGLUE_REPLY_MEASURED_VOID.
 *
 * @param typed  the handle
 * @param box  the register, 0 to 32767
 * @return BOXGLUE_ACCEPTED, BOXGLUE_REFUSED, BOXGLUE_REFUSED_MEMORY, BOXGLUE_OUT_OF_RANGE, BOXGLUE_OUT_OF_MEMORY or BOXGLUE_NO_JOB
 */
static inline BOXGLUE_MUST_CHECK uint32_t boxglue_do_measure(struct boxglue_typed *typed, int32_t box) {
    return boxglue_line_of_register(typed, "measure", box);
}

/**
 * @brief Make a register void.
 *
 * @param typed  the handle
 * @param box  the register, 0 to 32767
 * @return BOXGLUE_ACCEPTED, BOXGLUE_REFUSED, BOXGLUE_REFUSED_MEMORY, BOXGLUE_OUT_OF_RANGE, BOXGLUE_OUT_OF_MEMORY or BOXGLUE_NO_JOB
 */
static inline BOXGLUE_MUST_CHECK uint32_t boxglue_do_void(struct boxglue_typed *typed, int32_t box) {
    return boxglue_line_of_register(typed, "void", box);
}

/** @}
 * @name Parameters and pages
 * @{ */

/**
 * @brief Set a parameter that is a dimension.
 *
 * @param typed  the handle
 * @param which  the parameter
 * @param value  the dimension
 * @return BOXGLUE_ACCEPTED, BOXGLUE_REFUSED, BOXGLUE_REFUSED_MEMORY, BOXGLUE_OUT_OF_RANGE, BOXGLUE_OUT_OF_MEMORY or BOXGLUE_NO_JOB
 */
static inline BOXGLUE_MUST_CHECK uint32_t boxglue_do_set_dimension(struct boxglue_typed *typed, enum boxglue_dimension_parameter which, boxglue_sp value) {
    static const char *const NAMES[] = {"set boxmaxdepth", "set splitmaxdepth", "set lineskiplimit", "set hsize", "set firstsize", "set hoffset", "set voffset"};
    struct boxglue_line line;
    boxglue_line_begin(&line, typed, NAMES[(unsigned)which % 7u]);
    if ((unsigned)which > 6u) boxglue_line_refuse(&line, BOXGLUE_FAULT_NUMBER);
    boxglue_line_dimension(&line, value);
    return boxglue_line_end(&line);
}

/**
 * @brief Set a parameter that is a glue.
 *
 * @param typed  the handle
 * @param which  the parameter
 * @param value  the glue
 * @return BOXGLUE_ACCEPTED, BOXGLUE_REFUSED, BOXGLUE_REFUSED_MEMORY, BOXGLUE_OUT_OF_RANGE, BOXGLUE_OUT_OF_MEMORY or BOXGLUE_NO_JOB
 */
static inline BOXGLUE_MUST_CHECK uint32_t boxglue_do_set_glue(struct boxglue_typed *typed, enum boxglue_glue_parameter which, const struct boxglue_glue *value) {
    static const char *const NAMES[] = {"set splittopskip", "set baselineskip", "set lineskip", "set parfillskip"};
    struct boxglue_line line;
    boxglue_line_begin(&line, typed, NAMES[(unsigned)which % 4u]);
    if ((unsigned)which > 3u) boxglue_line_refuse(&line, BOXGLUE_FAULT_NUMBER);
    boxglue_line_glue(&line, value);
    return boxglue_line_end(&line);
}

/**
 * @brief Set a parameter that is a number.
 *
 * @param typed  the handle
 * @param which  the parameter
 * @param value  the number: 0 to 32 for BOXGLUE_FIRSTLINES, else -500,000,000 to 500,000,000
 * @return BOXGLUE_ACCEPTED, BOXGLUE_REFUSED, BOXGLUE_REFUSED_MEMORY, BOXGLUE_OUT_OF_RANGE, BOXGLUE_OUT_OF_MEMORY or BOXGLUE_NO_JOB
 */
static inline BOXGLUE_MUST_CHECK uint32_t boxglue_do_set_number(struct boxglue_typed *typed, enum boxglue_number_parameter which, int32_t value) {
    static const char *const NAMES[] = {"set pretolerance", "set tolerance", "set linepenalty", "set adjdemerits", "set clubpenalty", "set widowpenalty",
                                        "set interlinepenalty", "set firstlines"};
    struct boxglue_line line;
    boxglue_line_begin(&line, typed, NAMES[(unsigned)which % 8u]);
    if ((unsigned)which > 7u) boxglue_line_refuse(&line, BOXGLUE_FAULT_NUMBER);
    boxglue_line_number(&line, value, which == BOXGLUE_FIRSTLINES ? 0 : -500000000, which == BOXGLUE_FIRSTLINES ? 32 : 500000000);
    return boxglue_line_end(&line);
}

/**
 * @brief Set one of the ten counts of the pages that follow.
 *
 * @param typed  the handle
 * @param which  the count, 0 to 9
 * @param value  the number
 * @return BOXGLUE_ACCEPTED, BOXGLUE_REFUSED, BOXGLUE_REFUSED_MEMORY, BOXGLUE_OUT_OF_RANGE, BOXGLUE_OUT_OF_MEMORY or BOXGLUE_NO_JOB
 */
static inline BOXGLUE_MUST_CHECK uint32_t boxglue_do_count(struct boxglue_typed *typed, int32_t which, int32_t value) {
    struct boxglue_line line;
    boxglue_line_begin(&line, typed, "count");
    boxglue_line_number(&line, which, 0, 9);
    boxglue_line_number(&line, value, -2147483647 - 1, 2147483647);
    return boxglue_line_end(&line);
}

/**
 * @brief Ship the box of a register as the next page. The register becomes void, and the reply is BOXGLUE_REPLY_SHIPPED.
 *
 * @param typed  the handle
 * @param box  the register, 0 to 32767
 * @return BOXGLUE_ACCEPTED, BOXGLUE_REFUSED, BOXGLUE_REFUSED_MEMORY, BOXGLUE_OUT_OF_RANGE, BOXGLUE_OUT_OF_MEMORY or BOXGLUE_NO_JOB
 */
static inline BOXGLUE_MUST_CHECK uint32_t boxglue_do_ship(struct boxglue_typed *typed, int32_t box) {
    return boxglue_line_of_register(typed, "ship", box);
}

/**
 * @brief End the job as boxglue_job_end does. The reply is BOXGLUE_REPLY_END.
 *
 * Take the bytes of the file by boxglue_job_take(&typed->job, ..).
 *
 * @param typed  the handle
 * @return BOXGLUE_ACCEPTED, BOXGLUE_REFUSED, BOXGLUE_REFUSED_MEMORY or BOXGLUE_NO_JOB
 */
static inline BOXGLUE_MUST_CHECK uint32_t boxglue_do_finish(struct boxglue_typed *typed) {
    if (!typed) return BOXGLUE_NO_JOB;
    typed->fault = BOXGLUE_FAULT_NONE;
    return boxglue_job_end(&typed->job, &typed->reply);
}

/** @} */

#ifdef __cplusplus
}
#endif

#endif
