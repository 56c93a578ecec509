#include "job_calls.h"
#include "heap.h"

#include <stdio.h>
#include <string.h>

enum { AGAIN, COMMAND, DEVICE, LOST, SAME, KINDS };

/* Whether a text is another one without a part of it. */
static int lacks_a_part(const struct input *text, const struct input *whole) {
    size_t from = 0;
    while (from < text->size && from < whole->size && text->bytes[from] == whole->bytes[from]) from++;
    size_t rest = text->size - from;
    return text->size < whole->size && !memcmp(text->bytes + from, whole->bytes + whole->size - rest, rest);
}

/* What came of calls in which a growth was refused. */
static int kind_of(const struct job_result *result, const struct job_result *whole, size_t refused) {
    const size_t *statuses = result->statuses;
    int is_whole = is_equal(&result->dvi, &whole->dvi);
    if (statuses[BOXGLUE_ANSWERS_LOST]) {
        REQUIRE(is_whole && lacks_a_part(&result->answers, &whole->answers), "growth %zu refused: answers are lost, and there are other outputs", refused);
        return LOST;
    }
    if (is_whole && is_equal(&result->answers, &whole->answers)) return statuses[BOXGLUE_OUT_OF_MEMORY] ? AGAIN : SAME;
    REQUIRE(!statuses[BOXGLUE_OUT_OF_MEMORY], "growth %zu refused: a call that was made again gives other outputs", refused);
    if (statuses[BOXGLUE_REFUSED_MEMORY] && has_text(&result->answers, MEMORY_LINE)) return COMMAND;
    REQUIRE(statuses[BOXGLUE_REFUSED] && has_text(&result->answers, DEVICE_LINE), "growth %zu refused: no call says so, and there are other outputs", refused);
    return DEVICE;
}

void refuse_job_growths(const struct pieces *pieces) {
    struct job_result whole = run_pieces(pieces, 0);
    size_t counts[KINDS] = {0};
    for (size_t refused = 1; refused <= whole.growths; refused++) {
        struct job_result result = run_pieces(pieces, refused);
        counts[kind_of(&result, &whole, refused)]++;
        free_job_result(&result);
    }
    printf("growths %zu: made again %zu, a command refused %zu, the device failed %zu, answers lost %zu, no difference %zu\n",
           whole.growths, counts[AGAIN], counts[COMMAND], counts[DEVICE], counts[LOST], counts[SAME]);
    free_job_result(&whole);
}
