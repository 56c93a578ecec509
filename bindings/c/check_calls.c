#include "check_calls.h"
#include "heap.h"

#include <stdio.h>
#include <string.h>

enum { NAME_ROOM = 255 };

static const struct boxglue_fault UNSET = {99, 99, 99, 99, 99};

/* What a call gives. */
struct check_result {
    uint32_t status;
    struct boxglue_fault fault;
    struct output name;
};

/* A call in which the growth of this number is refused, none for 0. */
static struct check_result call_check(const struct input *dvi, const struct fonts *fonts, size_t room, size_t refused) {
    struct check_result result = {.fault = UNSET, .name = new_output(room)};
    heap_begin(refused);
    result.status = COUNTED(boxglue_check(dvi->bytes, dvi->size, fonts->all, fonts->count, &result.fault, result.name.bytes, room));
    REQUIRE(heap_live() == 0, "check: %ld blocks are not freed", heap_live());
    return result;
}

static int are_equal_faults(const struct boxglue_fault *one, const struct boxglue_fault *other) {
    return one->number == other->number && one->cause == other->cause && one->font == other->font && one->place == other->place && one->name_size == other->name_size;
}

/* Fails where a call wrote a byte or a number that its status leaves alone, or the fault does not fit the status. */
static void require_tidy_check(const struct check_result *result, const char *when) {
    uint32_t status = result->status, number = result->fault.number;
    require_untouched(&result->name, status == BOXGLUE_REFUSED ? result->fault.name_size : 0, when);
    REQUIRE((status == BOXGLUE_BAD_FONT_NAME) == are_equal_faults(&result->fault, &UNSET), "%s: status %u, and the number is %u", when, status, number);
    REQUIRE((status == BOXGLUE_ACCEPTED) == (number == 0), "%s: status %u, and the number is %u", when, status, number);
    REQUIRE((status == BOXGLUE_OUT_OF_MEMORY) == (number == BOXGLUE_REFUSAL_OUT_OF_MEMORY), "%s: status %u, and the number is %u", when, status, number);
    REQUIRE(number == BOXGLUE_REFUSAL_NO_FONT || status == BOXGLUE_BAD_FONT_NAME || result->fault.name_size == 0, "%s: refusal %u has a name", when, number);
}

/* A call with a buffer for the longest name. An exact buffer gives the same; with one byte less the name is not written. */
static struct check_result checked_check(const struct input *dvi, const struct fonts *fonts) {
    struct check_result result = call_check(dvi, fonts, NAME_ROOM, 0);
    require_tidy_check(&result, "check");
    size_t size = result.status == BOXGLUE_REFUSED ? result.fault.name_size : 0;
    struct check_result exact = call_check(dvi, fonts, size, 0);
    require_tidy_check(&exact, "an exact buffer");
    REQUIRE(exact.status == result.status && are_equal_faults(&exact.fault, &result.fault) && !memcmp(exact.name.bytes, result.name.bytes, size), "an exact buffer gives another fault");
    free_output(&exact.name);
    if (size) {
        struct check_result small = call_check(dvi, fonts, size - 1, 0);
        require_tidy_check(&small, "too small");
        REQUIRE(small.status == BOXGLUE_BUFFER_TOO_SMALL && are_equal_faults(&small.fault, &result.fault), "with too little room the status is %u", small.status);
        free_output(&small.name);
    }
    return result;
}

/* Prints the line of a refusal. */
static void print_line(const struct boxglue_fault *fault) {
    printf("refused %u %s", fault->number, boxglue_refusal_name(fault->number));
    if (fault->number == BOXGLUE_REFUSAL_BAD_DVI) printf(" %llu %s", (unsigned long long)fault->place, boxglue_bad_dvi_name(fault->cause));
    if (fault->number == BOXGLUE_REFUSAL_BAD_TFM) printf(" %s", boxglue_bad_tfm_name(fault->cause));
    putchar('\n');
}

void print_check(const struct input *dvi, const struct fonts *fonts) {
    struct check_result result = checked_check(dvi, fonts);
    printf("%u %d \"%.*s\"\n", result.status, result.fault.font, (int)result.fault.name_size, (const char *)result.name.bytes);
    if (result.status == BOXGLUE_REFUSED) print_line(&result.fault);
    free_output(&result.name);
}

void refuse_check_growths(const struct input *dvi, const struct fonts *fonts) {
    struct check_result whole = call_check(dvi, fonts, NAME_ROOM, 0);
    size_t all = heap_growths(), refused_calls = 0;
    for (size_t refused = 1; refused <= all; refused++) {
        struct check_result result = call_check(dvi, fonts, NAME_ROOM, refused);
        require_tidy_check(&result, "a growth refused");
        REQUIRE(result.status == BOXGLUE_OUT_OF_MEMORY || (result.status == whole.status && are_equal_faults(&result.fault, &whole.fault)),
                "growth %zu refused: status %u, and another fault", refused, result.status);
        refused_calls += result.status == BOXGLUE_OUT_OF_MEMORY;
        free_output(&result.name);
    }
    free_output(&whole.name);
    printf("growths %zu: nothing done %zu, a command refused 0, the device failed 0, no difference %zu\n", all, refused_calls, all - refused_calls);
}
