#include "random_inputs.h"
#include "metric_calls.h"
#include "whole_calls.h"

#include <stdio.h>
#include <stdlib.h>
#include <string.h>

enum { LONGEST = 2048, ROOM = 1 << 16, STATUSES = 8 };
enum role { SCRIPT, DVI, METRICS };
static const char *const NAMES[] = {"script", "dvi", "tfm"};

/* xorshift64*, from a fixed seed. */
static uint64_t state = 0x9e3779b97f4a7c15;

size_t below(size_t bound) {
    state ^= state >> 12, state ^= state << 25, state ^= state >> 27;
    return (size_t)((state * 0x2545f4914f6cdd1dULL >> 33) % bound);
}

void fill(uint8_t *bytes, size_t count) {
    for (size_t at = 0; at < count; at++) bytes[at] = (uint8_t)below(256);
}

/* The next byte string: random bytes; or a copy of a good input with up to eight other bytes; or a beginning of one and random bytes. */
static struct input next_string(const struct input *good, size_t number) {
    if (number % 3 == 0) {
        struct input random = {malloc(LONGEST), below(LONGEST)};
        fill(random.bytes, random.size);
        return random;
    }
    struct input copy = {malloc(good->size), good->size};
    memcpy(copy.bytes, good->bytes, good->size);
    if (number % 3 == 1)
        for (size_t changes = 1 + below(8); changes > 0; changes--) copy.bytes[below(copy.size)] = (uint8_t)below(256);
    else {
        size_t kept = below(copy.size);
        fill(copy.bytes + kept, copy.size - kept);
    }
    return copy;
}

/* Makes a call, and counts its status. */
static void count_call(const struct request *request, size_t statuses[STATUSES]) {
    static const uint32_t ALLOWED[] = {[RUN] = 0x13, [LIST] = 0x13, [PAINT] = 0x33, [PAINT_BITS] = 0x33, [FONTS] = 0x13}; /* a bit for each status */
    size_t rooms[2] = {ROOM, ROOM};
    if (request->call == FONTS) rooms[0] -= ROOM % sizeof(struct boxglue_dvi_font);
    struct result result = make_call(request, rooms);
    REQUIRE(result.status < 32 && ALLOWED[request->call] >> result.status & 1, "call %d returns %u", request->call, result.status);
    statuses[result.status]++;
    free_result(&result);
}

static void count_script(const struct input *script, const struct boxglue_font *font, size_t statuses[STATUSES]) {
    struct request request = {.call = RUN, .input = *script, .fonts = {.all = {*font}, .count = 1}};
    count_call(&request, statuses);
}

static void count_dvi(const struct input *dvi, const struct boxglue_font *font, size_t statuses[STATUSES]) {
    static const enum call CALLS[] = {LIST, PAINT, PAINT_BITS, FONTS};
    for (size_t at = 0; at < sizeof CALLS / sizeof *CALLS; at++) {
        struct request request = {.call = CALLS[at], .input = *dvi, .fonts = {.all = {*font}, .count = 1}, .page = 1, .dpi = 72, .width = 40, .height = 30};
        count_call(&request, statuses);
    }
}

static void count_role(enum role role, const struct samples *samples, const struct input *string, size_t statuses[STATUSES]) {
    struct boxglue_font font = samples->font;
    if (role == SCRIPT) count_script(string, &font, statuses);
    if (role == DVI) count_dvi(string, &font, statuses);
    if (role == METRICS) {
        font.bytes = string->bytes, font.bytes_size = string->size;
        count_script(&samples->script, &font, statuses);
        count_dvi(&samples->dvi, &font, statuses);
        statuses[random_metrics(string, (int32_t)below(1 << 27))]++;
    }
}

void try_random(const struct samples *samples, size_t count) {
    const struct input goods[] = {samples->script, samples->dvi, {(uint8_t *)samples->font.bytes, samples->font.bytes_size}};
    for (int role = SCRIPT; role <= METRICS; role++) {
        size_t statuses[STATUSES] = {0};
        for (size_t number = 0; number < count; number++) {
            struct input string = next_string(&goods[role], number);
            count_role((enum role)role, samples, &string, statuses);
            free(string.bytes);
        }
        printf("%s %zu:", NAMES[role], count);
        for (int status = 0; status < STATUSES; status++)
            if (statuses[status]) printf(" status %d %zu", status, statuses[status]);
        printf("\n");
    }
}
