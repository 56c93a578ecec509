#include "whole_calls.h"
#include "heap.h"
#include "reply_text.h"

#include <stdio.h>
#include <stdlib.h>
#include <string.h>

static const size_t UNSET = (size_t)-1;
enum { NOTHING, COMMAND, DEVICE, SAME, KINDS };

/* The bytes of an item of the first output. */
static size_t item_size(enum call call) {
    return call == FONTS ? sizeof(struct boxglue_dvi_font) : call == REPLIES ? sizeof(struct boxglue_reply) : 1;
}

/* Whether a call has two outputs. */
static int has_two(const struct request *request) {
    return request->call == RUN || request->call == FONTS || request->call == REPLIES;
}

static uint32_t call_library(const struct request *request, struct result *result, const size_t rooms[2]) {
    const struct input *input = &request->input;
    const struct boxglue_font *fonts = request->fonts.all;
    size_t count = request->fonts.count, *sizes = result->sizes;
    uint8_t *first = result->outputs[0].bytes, *second = result->outputs[1].bytes;
    struct boxglue_lengths lengths = {UNSET, UNSET};
    struct boxglue_font_sizes font_sizes = {UNSET, UNSET};
    struct boxglue_reply_sizes reply_sizes = {UNSET, UNSET};
    uint32_t status = 0;
    switch (request->call) {
    case RUN:
        status = boxglue_run(input->bytes, input->size, fonts, count, first, rooms[0], second, rooms[1], &lengths);
        sizes[0] = lengths.answers, sizes[1] = lengths.dvi;
        break;
    case LIST:
        status = boxglue_list(input->bytes, input->size, fonts, count, first, rooms[0], &sizes[0]);
        break;
    case PAINT:
        status = boxglue_paint(input->bytes, input->size, fonts, count, request->page, request->dpi, request->width, request->height, first, rooms[0], &sizes[0]);
        break;
    case PAINT_BITS:
        status = boxglue_paint_bits(input->bytes, input->size, fonts, count, request->page, request->dpi, request->width, request->height, first, rooms[0], &sizes[0]);
        break;
    case FONTS:
        status = boxglue_fonts(input->bytes, input->size, (struct boxglue_dvi_font *)first, rooms[0] / item_size(FONTS), second, rooms[1], &font_sizes);
        sizes[0] = font_sizes.fonts == UNSET ? UNSET : font_sizes.fonts * item_size(FONTS), sizes[1] = font_sizes.text;
        break;
    case REPLIES:
        status = boxglue_run_replies(input->bytes, input->size, fonts, count, (struct boxglue_reply *)first, rooms[0] / item_size(REPLIES), second, rooms[1], &reply_sizes);
        sizes[0] = reply_sizes.replies == UNSET ? UNSET : reply_sizes.replies * item_size(REPLIES), sizes[1] = reply_sizes.dvi;
    }
    return status;
}

/* A call in which the growth of this number is refused, none for 0. Counts the growths. */
static struct result counted_call(const struct request *request, const size_t rooms[2], size_t refused, size_t *growths) {
    struct result result = {.outputs = {new_output(rooms[0]), new_output(rooms[1])}, .sizes = {UNSET, has_two(request) ? UNSET : 0}};
    heap_begin(refused);
    result.status = COUNTED(call_library(request, &result, rooms));
    *growths = heap_growths();
    REQUIRE(heap_live() == 0, "growth %zu refused: %ld blocks are not freed", refused, heap_live());
    return result;
}

struct result make_call(const struct request *request, const size_t rooms[2]) {
    size_t growths;
    return counted_call(request, rooms, 0, &growths);
}

void free_result(struct result *result) {
    for (int at = 0; at < 2; at++) free_output(&result->outputs[at]);
}

static int is_written(uint32_t status) {
    return status == BOXGLUE_ACCEPTED || status == BOXGLUE_REFUSED || status == BOXGLUE_REFUSED_MEMORY;
}

/* The replies of a call. */
static const struct boxglue_reply *replies_of(const struct result *result) {
    return (const struct boxglue_reply *)result->outputs[0].bytes;
}

/* Fails where the status of a call is not that of its replies. */
static void require_status(const struct result *result) {
    uint32_t wanted = status_of(replies_of(result), result->sizes[0] / item_size(REPLIES));
    REQUIRE(result->status == wanted, "the status is %u, and the replies say %u", result->status, wanted);
}

/* Fails where a call wrote a byte, or a size, that its status leaves alone. */
static void require_tidy(const struct request *request, const struct result *result, const char *when) {
    int has_sizes = is_written(result->status) || result->status == BOXGLUE_BUFFER_TOO_SMALL;
    if (request->call == REPLIES && is_written(result->status)) require_status(result);
    for (int at = 0; at < 2; at++) {
        int unset = result->sizes[at] == UNSET || (at && !has_two(request));
        REQUIRE(has_sizes ? result->sizes[at] != UNSET : unset, "%s: status %u, and size %d is %zu", when, result->status, at, result->sizes[at]);
        require_untouched(&result->outputs[at], is_written(result->status) ? result->sizes[at] : 0, when);
    }
}

/* A call with rooms that are too small. */
static void require_too_small(const struct request *request, const size_t needed[2], const size_t rooms[2]) {
    struct result result = make_call(request, rooms);
    require_tidy(request, &result, "too small");
    REQUIRE(result.status == BOXGLUE_BUFFER_TOO_SMALL, "with too little room the status is %u", result.status);
    REQUIRE(!memcmp(result.sizes, needed, sizeof result.sizes), "with too little room other sizes are needed");
    free_result(&result);
}

struct result checked_call(const struct request *request) {
    size_t none[2] = {0, 0};
    struct result first = make_call(request, none);
    require_tidy(request, &first, "no room");
    if (first.status != BOXGLUE_BUFFER_TOO_SMALL) return first;
    struct result result = make_call(request, first.sizes);
    require_tidy(request, &result, "enough room");
    REQUIRE(is_written(result.status), "with what it needs the status is %u", result.status);
    REQUIRE(!memcmp(result.sizes, first.sizes, sizeof first.sizes), "the sizes were not those that were needed");
    for (int at = 0; at < 2; at++) {
        size_t rooms[2] = {first.sizes[0], first.sizes[1]};
        if (!rooms[at]) continue;
        rooms[at] -= at ? 1 : item_size(request->call);
        require_too_small(request, first.sizes, rooms);
    }
    free_result(&first);
    return result;
}

/* Whether the answers or the replies of a run have this end of a line. */
static int has_line(const struct request *request, const struct result *result, const char *line) {
    struct input texts = {0};
    if (request->call == RUN) append(&texts, result->outputs[0].bytes, result->sizes[0]);
    if (request->call == REPLIES) say_replies(&texts, replies_of(result), result->sizes[0] / item_size(REPLIES));
    int has = has_text(&texts, line);
    free(texts.bytes);
    return has;
}

static int is_same(const struct result *result, const struct result *other) {
    for (int at = 0; at < 2; at++)
        if (result->sizes[at] != other->sizes[at] || memcmp(result->outputs[at].bytes, other->outputs[at].bytes, other->sizes[at])) return 0;
    return result->status == other->status;
}

/* What came of a call in which a growth was refused. */
static int kind_of(const struct request *request, const struct result *result, const struct result *whole, size_t refused) {
    if (result->status == BOXGLUE_OUT_OF_MEMORY) return NOTHING;
    if (is_same(result, whole)) return SAME;
    if (result->status == BOXGLUE_REFUSED_MEMORY && has_line(request, result, MEMORY_LINE)) return COMMAND;
    REQUIRE(result->status == BOXGLUE_REFUSED && has_line(request, result, DEVICE_LINE), "growth %zu refused: status %u, and other outputs", refused, result->status);
    return DEVICE;
}

void refuse_growths(const struct request *request) {
    struct result whole = checked_call(request);
    size_t rooms[2], counts[KINDS] = {0}, all, growths;
    /* An answer that names a refusal may be longer than the one without. */
    for (int at = 0; at < 2; at++) rooms[at] = 8 * (whole.sizes[at] == UNSET ? 0 : whole.sizes[at]) + 4096 * item_size(request->call);
    struct result counted = counted_call(request, rooms, 0, &all);
    free_result(&counted);
    for (size_t refused = 1; refused <= all; refused++) {
        struct result result = counted_call(request, rooms, refused, &growths);
        require_tidy(request, &result, "a growth refused");
        counts[kind_of(request, &result, &whole, refused)]++;
        free_result(&result);
    }
    free_result(&whole);
    printf("growths %zu: nothing done %zu, a command refused %zu, the device failed %zu, no difference %zu\n", all, counts[NOTHING], counts[COMMAND], counts[DEVICE], counts[SAME]);
}
