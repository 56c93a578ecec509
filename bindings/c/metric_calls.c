#include "metric_calls.h"
#include "heap.h"

#include <stdio.h>
#include <string.h>

enum { GLYPHS, PARAMETERS, STEPS, PARTS };
enum { SOME_STEPS = 16, CHARACTERS = 256 };

static const size_t NO_COUNT = (size_t)-1;
static const struct boxglue_fault NO_FAULT = {99, 99, 99, 99, 99};

/* What a call gives. */
struct metric_result {
    uint32_t status;
    struct output outputs[PARTS];
    size_t count;
    struct boxglue_fault fault;
};

static const struct boxglue_glyph *glyphs_of(const struct metric_result *result) {
    return ((const struct boxglue_glyph_table *)result->outputs[GLYPHS].bytes)->rows;
}

static const struct boxglue_font_parameters *parameters_of(const struct metric_result *result) {
    return (const struct boxglue_font_parameters *)result->outputs[PARAMETERS].bytes;
}

static const struct boxglue_font_step *steps_of(const struct metric_result *result) {
    return (const struct boxglue_font_step *)result->outputs[STEPS].bytes;
}

/* The bytes that a call writes to each output. */
static void set_sizes(const struct metric_result *result, size_t sizes[PARTS]) {
    sizes[GLYPHS] = sizeof(struct boxglue_glyph_table), sizes[PARAMETERS] = sizeof(struct boxglue_font_parameters);
    sizes[STEPS] = result->count * sizeof(struct boxglue_font_step);
}

/* A call with room for this number of steps, in which the growth of this number is refused, none for 0. */
static struct metric_result call_metrics(const struct input *tfm, int32_t size, size_t room, size_t refused) {
    struct metric_result result = {.count = room, .fault = NO_FAULT};
    size_t sizes[PARTS];
    set_sizes(&result, sizes);
    for (int part = 0; part < PARTS; part++) result.outputs[part] = new_output(sizes[part]);
    result.count = NO_COUNT;
    heap_begin(refused);
    result.status = COUNTED(boxglue_metrics(tfm->bytes, tfm->size, size, (struct boxglue_glyph_table *)result.outputs[GLYPHS].bytes,
                                            (struct boxglue_font_parameters *)result.outputs[PARAMETERS].bytes,
                                            (struct boxglue_font_step *)result.outputs[STEPS].bytes, room, &result.count, &result.fault));
    REQUIRE(heap_live() == 0, "metrics: %ld blocks are not freed", heap_live());
    return result;
}

static void free_metrics(struct metric_result *result) {
    for (int part = 0; part < PARTS; part++) free_output(&result->outputs[part]);
}

static int is_fault(const struct boxglue_fault *fault, uint32_t number, uint32_t cause) {
    return fault->number == number && fault->cause == cause && fault->font == 0 && fault->place == 0 && fault->name_size == 0;
}

/* Fails where the fault does not fit the status. */
static void require_fault(const struct metric_result *result, const char *when) {
    const struct boxglue_fault *fault = &result->fault;
    uint32_t number = fault->number, cause = fault->cause;
    if (result->status == BOXGLUE_ACCEPTED) REQUIRE(is_fault(fault, 0, 0), "%s: a file that is accepted has the fault %u", when, number);
    else if (result->status != BOXGLUE_REFUSED) REQUIRE(!memcmp(fault, &NO_FAULT, sizeof *fault), "%s: status %u, and the fault was written", when, result->status);
    else if (number == BOXGLUE_REFUSAL_BAD_TFM)
        REQUIRE(is_fault(fault, number, cause) && cause >= BOXGLUE_TFM_TOO_SHORT && cause <= BOXGLUE_TFM_LIG_KERN, "%s: the cause is %u", when, cause);
    else REQUIRE(is_fault(fault, BOXGLUE_REFUSAL_DIMENSION_TOO_LARGE, 0), "%s: the fault is %u", when, number);
}

/* Fails where a call wrote what its status leaves alone. */
static void require_tidy_metrics(const struct metric_result *result, const char *when) {
    uint32_t status = result->status;
    int has_count = status == BOXGLUE_ACCEPTED || status == BOXGLUE_BUFFER_TOO_SMALL;
    size_t sizes[PARTS];
    REQUIRE(has_count || status == BOXGLUE_REFUSED || status == BOXGLUE_OUT_OF_MEMORY || status == BOXGLUE_OUT_OF_RANGE, "%s: the status is %u", when, status);
    REQUIRE(has_count == (result->count != NO_COUNT), "%s: status %u, and the count is %zu", when, status, result->count);
    require_fault(result, when);
    set_sizes(result, sizes);
    for (int part = 0; part < PARTS; part++) require_untouched(&result->outputs[part], status == BOXGLUE_ACCEPTED ? sizes[part] : 0, when);
}

static int are_equal_metrics(const struct metric_result *one, const struct metric_result *other) {
    size_t sizes[PARTS];
    if (one->status != other->status || one->count != other->count || memcmp(&one->fault, &other->fault, sizeof one->fault)) return 0;
    if (one->status != BOXGLUE_ACCEPTED) return 1;
    set_sizes(one, sizes);
    for (int part = 0; part < PARTS; part++)
        if (memcmp(one->outputs[part].bytes, other->outputs[part].bytes, sizes[part])) return 0;
    return 1;
}

/* A call with no room, and where that is too little, one with what it needs, and one with a step less. */
static struct metric_result checked_metrics(const struct input *tfm, int32_t size) {
    struct metric_result none = call_metrics(tfm, size, 0, 0);
    require_tidy_metrics(&none, "no room");
    if (none.status != BOXGLUE_BUFFER_TOO_SMALL) return none;
    size_t count = none.count;
    struct metric_result result = call_metrics(tfm, size, count, 0);
    require_tidy_metrics(&result, "enough room");
    REQUIRE(result.status == BOXGLUE_ACCEPTED && result.count == count, "with what it needs the status is %u, and the count %zu", result.status, result.count);
    struct metric_result small = call_metrics(tfm, size, count - 1, 0);
    require_tidy_metrics(&small, "too small");
    REQUIRE(small.status == BOXGLUE_BUFFER_TOO_SMALL && small.count == count, "with too little room the status is %u, and the count %zu", small.status, small.count);
    free_metrics(&none), free_metrics(&small);
    return result;
}

/* Prints a number, or "unfit". */
static void print_measure(const struct boxglue_measure *measure) {
    REQUIRE(measure->is_unfit <= 1 && !(measure->is_unfit && measure->value), "a number that does not fit is %d", measure->value);
    if (measure->is_unfit) printf(" unfit");
    else printf(" %d", measure->value);
}

static void print_parameters(const struct boxglue_font_parameters *given) {
    printf("size %d %d check %u slant %d space %d %d %d", given->size, given->design_size, given->check_sum, given->slant, given->space, given->stretch, given->shrink);
    print_measure(&given->x_height), print_measure(&given->quad), print_measure(&given->extra_space);
    putchar('\n');
}

static void print_glyph(const struct boxglue_glyph *glyph, int code) {
    int has_sizes = glyph->width || glyph->height || glyph->depth || glyph->italic.value || glyph->italic.is_unfit;
    REQUIRE(glyph->is_there == 1 || (glyph->is_there == 0 && !has_sizes), "character %d is not there, and has sizes", code);
    if (!glyph->is_there) return;
    printf("glyph %d %d %d %d", code, glyph->width, glyph->height, glyph->depth);
    print_measure(&glyph->italic);
    putchar('\n');
}

static void print_step(const struct boxglue_font_step *step) {
    int is_kern = step->kind == BOXGLUE_STEP_KERN;
    REQUIRE(is_kern || step->kind == BOXGLUE_STEP_LIGATURE, "a step is of kind %u", step->kind);
    REQUIRE(is_kern ? !step->ligature : !step->kern, "a step of kind %u has what another one has", step->kind);
    if (is_kern) printf("kern %u %u %d\n", step->character, step->following, step->kern);
    else printf("ligature %u %u %u\n", step->character, step->following, step->ligature);
}

void print_metrics(const struct input *tfm, int32_t size) {
    struct metric_result result = checked_metrics(tfm, size);
    printf("status %u\n", result.status);
    if (result.status == BOXGLUE_REFUSED) {
        printf("refused %u %s", result.fault.number, boxglue_refusal_name(result.fault.number));
        printf(result.fault.cause ? " %s\n" : "%s\n", result.fault.cause ? boxglue_bad_tfm_name(result.fault.cause) : "");
    }
    if (result.status == BOXGLUE_ACCEPTED) {
        print_parameters(parameters_of(&result));
        for (int code = 0; code < CHARACTERS; code++) print_glyph(&glyphs_of(&result)[code], code);
        for (size_t at = 0; at < result.count; at++) print_step(&steps_of(&result)[at]);
    }
    free_metrics(&result);
}

void refuse_metric_growths(const struct input *tfm, int32_t size) {
    struct metric_result whole = checked_metrics(tfm, size);
    size_t room = whole.status == BOXGLUE_ACCEPTED ? whole.count : 0, all = heap_growths(), refused_calls = 0;
    for (size_t refused = 1; refused <= all; refused++) {
        struct metric_result result = call_metrics(tfm, size, room, refused);
        require_tidy_metrics(&result, "a growth refused");
        REQUIRE(result.status == BOXGLUE_OUT_OF_MEMORY || are_equal_metrics(&result, &whole), "growth %zu refused: status %u, and other metrics", refused, result.status);
        refused_calls += result.status == BOXGLUE_OUT_OF_MEMORY;
        free_metrics(&result);
    }
    free_metrics(&whole);
    printf("growths %zu: nothing done %zu, a command refused 0, the device failed 0, no difference %zu\n", all, refused_calls, all - refused_calls);
}

uint32_t random_metrics(const struct input *tfm, int32_t size) {
    struct metric_result result = call_metrics(tfm, size, SOME_STEPS, 0);
    uint32_t status = result.status;
    require_tidy_metrics(&result, "random bytes");
    REQUIRE(status <= BOXGLUE_REFUSED || status == BOXGLUE_BUFFER_TOO_SMALL, "metrics returns %u", status);
    free_metrics(&result);
    return status;
}
