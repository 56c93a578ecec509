#include "reply_text.h"

#include <inttypes.h>
#include <stdarg.h>
#include <stdio.h>
#include <string.h>

enum { ONE_POINT = 65536 };

static const char *const REFUSALS[] = {
    "", "OutOfMemory", "BadScript", "DimensionTooLarge", "NoFont", "BadTfm", "SlotTaken", "NoOpenList",
    "WrongMode", "WrongKind", "ListTooLong", "TooDeep", "InfiniteShrink", "TooManyBreaks", "HugePage", "TooManyPages",
    "TooMuchShipped", "ListsOpen", "Device", "JobOver", NULL, "VoidBox", "TooMuchSpecial"};
static const char *const TFM_CAUSES[] = {"", "TooShort", "Counts", "DesignSize", "CharInfo", "FixWord", "LigKern"};
static const char *const LINE_CAUSES[] = {"", "Byte", "Word", "Missing", "Extra", "Number", "Dimension", "Name"};

static void say(struct input *text, const char *format, ...) __attribute__((format(printf, 2, 3)));

static void say(struct input *text, const char *format, ...) {
    char line[128];
    va_list words;
    va_start(words, format);
    int size = vsnprintf(line, sizeof line, format, words);
    va_end(words);
    REQUIRE(size >= 0 && (size_t)size < sizeof line, "a text is too long");
    append(text, (const uint8_t *)line, (size_t)size);
}

/* TeX: The Program, section 103. */
static void say_dimension(struct input *text, int32_t dimension) {
    int64_t rest = dimension, delta = 10;
    if (rest < 0) say(text, "-");
    rest = rest < 0 ? -rest : rest;
    say(text, "%" PRId64 ".", rest / ONE_POINT);
    rest = 10 * (rest % ONE_POINT) + 5;
    do {
        if (delta > ONE_POINT) rest += 32768 - 50000;
        say(text, "%" PRId64, rest / ONE_POINT);
        rest = 10 * (rest % ONE_POINT);
        delta *= 10;
    } while (rest > delta);
    say(text, "pt");
}

/* Says the sizes of a box, and takes them out of the reply. */
static void say_box(struct input *text, struct boxglue_box_sizes *box) {
    const int32_t sizes[] = {box->width, box->height, box->depth};
    for (int at = 0; at < 3; at++) {
        say(text, at ? " " : "");
        say_dimension(text, sizes[at]);
    }
    *box = (struct boxglue_box_sizes){0};
}

static const char *name_of(const char *const names[], size_t count, uint32_t number) {
    REQUIRE(number && number < count && names[number], "no name has the number %u", number);
    return names[number];
}

#define NAME_OF(names, number) name_of(names, sizeof names / sizeof *names, number)

/* The number of a field, which is taken out of the reply. */
#define TAKEN(field) taken_number(&(field), sizeof(field))

static uint64_t taken_number(void *field, size_t size) {
    uint64_t number = 0;
    memcpy(&number, field, size);
    memset(field, 0, size);
    return number;
}

static void say_refusal(struct input *text, struct boxglue_reply *reply) {
    uint32_t refusal = (uint32_t)TAKEN(reply->refusal);
    say(text, "refused %u %s", refusal, NAME_OF(REFUSALS, refusal));
    if (refusal == BOXGLUE_REFUSAL_BAD_TFM) say(text, " %s", NAME_OF(TFM_CAUSES, (uint32_t)TAKEN(reply->cause)));
}

static void say_split(struct input *text, struct boxglue_reply *reply) {
    say(text, "split ");
    say_box(text, &reply->box);
    say(text, " badness %" PRIu64 " rest ", TAKEN(reply->badness));
    uint64_t has_rest = TAKEN(reply->has_rest);
    REQUIRE(has_rest <= 1, "a split has %" PRIu64 " rests", has_rest);
    if (has_rest) say_box(text, &reply->rest);
    else say(text, "void");
}

/* Says what a command answered, and takes it out of the reply. */
static void say_answer(struct input *text, struct boxglue_reply *reply, uint32_t kind) {
    switch (kind) {
    case BOXGLUE_REPLY_OK: say(text, "ok"); break;
    case BOXGLUE_REPLY_REFUSED: say_refusal(text, reply); break;
    case BOXGLUE_REPLY_PACKED:
        say(text, "packed ");
        say_box(text, &reply->box);
        say(text, " badness %" PRIu64, TAKEN(reply->badness));
        break;
    case BOXGLUE_REPLY_MEASURED:
        say(text, "measured %s ", TAKEN(reply->box_kind) ? "vbox" : "hbox");
        say_box(text, &reply->box);
        break;
    case BOXGLUE_REPLY_MEASURED_VOID: say(text, "measured void"); break;
    case BOXGLUE_REPLY_SHAPED:
        say(text, "added %" PRIu64, TAKEN(reply->count));
        say(text, " missing %" PRIu64, TAKEN(reply->missing));
        break;
    case BOXGLUE_REPLY_ADDED: say(text, "added %" PRIu64, TAKEN(reply->count)); break;
    case BOXGLUE_REPLY_PARAGRAPH:
        say(text, "paragraph lines %" PRIu64, TAKEN(reply->count));
        say(text, " pass %" PRIu64, TAKEN(reply->pass));
        say(text, " overhang %" PRId64, (int64_t)TAKEN(reply->overhang));
        say(text, " demerits %" PRId64, (int64_t)TAKEN(reply->demerits));
        break;
    case BOXGLUE_REPLY_SPLIT: say_split(text, reply); break;
    case BOXGLUE_REPLY_SPLIT_VOID: say(text, "split void"); break;
    case BOXGLUE_REPLY_SHIPPED: say(text, "shipped %" PRIu64, TAKEN(reply->count)); break;
    case BOXGLUE_REPLY_END:
        say(text, "pages %" PRIu64, TAKEN(reply->count));
        say(text, " bytes %" PRIu64, TAKEN(reply->bytes));
        break;
    default: fail("a reply has kind %u", kind);
    }
}

static void say_reply(struct input *text, struct boxglue_reply reply) {
    static const struct boxglue_reply NOTHING;
    uint32_t kind = (uint32_t)TAKEN(reply.kind);
    uint64_t line = TAKEN(reply.line);
    if (kind == BOXGLUE_REPLY_BAD_LINE) {
        say_refusal(text, &reply);
        say(text, " %" PRIu64 " %s", line, NAME_OF(LINE_CAUSES, (uint32_t)TAKEN(reply.cause)));
    } else {
        if (line) say(text, "%" PRIu64 ": ", line);
        else say(text, "end: ");
        say_answer(text, &reply, kind);
    }
    say(text, "\n");
    REQUIRE(!memcmp(&reply, &NOTHING, sizeof reply), "a reply of kind %u has another number", kind);
}

void say_replies(struct input *text, const struct boxglue_reply *replies, size_t count) {
    for (size_t at = 0; at < count; at++) say_reply(text, replies[at]);
}

uint32_t status_of(const struct boxglue_reply *replies, size_t count) {
    uint32_t status = BOXGLUE_ACCEPTED;
    for (size_t at = 0; at < count; at++) {
        if (replies[at].refusal == BOXGLUE_REFUSAL_OUT_OF_MEMORY) return BOXGLUE_REFUSED_MEMORY;
        if (replies[at].refusal) status = BOXGLUE_REFUSED;
    }
    return status;
}
