#include "random_pieces.h"
#include "heap.h"
#include "item_calls.h"
#include "job_calls.h"
#include "random_inputs.h"
#include "whole_calls.h"

#include <stdio.h>
#include <stdlib.h>
#include <string.h>

enum { OF_ONE_JOB = 40, MOST_LINES = 6, LONGEST = 200 };
static const char BAD_PIECE[] = "refused 2 BadScript ";

/* The pieces of a job that are not bad, as one script, and what came of them. */
struct joined {
    struct input script;
    struct job_result result;
    size_t bad;
};

static struct input random_bytes(void) {
    struct input input = {malloc(LONGEST), below(LONGEST)};
    fill(input.bytes, input.size);
    return input;
}

/* Some lines of a script from a place on, which moves to their end. */
static struct input some_lines(const struct input *script, size_t *place) {
    size_t from = *place;
    for (size_t lines = 1 + below(MOST_LINES); lines && *place < script->size; ++*place) lines -= script->bytes[*place] == '\n';
    struct input input = {0};
    append(&input, script->bytes + from, *place - from);
    return input;
}

/* Where a line of the script begins. */
static size_t random_line(const struct input *script) {
    size_t from = below(script->size);
    while (from && script->bytes[from - 1] != '\n') from--;
    return from;
}

/* The next piece: half of them go through the script from its beginning, again and again. */
static struct input next_piece(const struct input *script, size_t number) {
    static size_t next;
    if (number % 6 == 5) return random_bytes();
    if (next == script->size) next = 0;
    if (number % 6 < 3) return some_lines(script, &next);
    size_t place = random_line(script);
    struct input piece = some_lines(script, &place);
    if (number % 6 == 4) piece.bytes[below(piece.size)] = (uint8_t)below(256);
    return piece;
}

/* Appends a piece that is not bad, as whole lines, and its answers. */
static void keep_piece(struct joined *joined, const struct input *piece, const struct input *answers) {
    append(&joined->script, piece->bytes, piece->size);
    if (piece->size && piece->bytes[piece->size - 1] != '\n') append(&joined->script, (const uint8_t *)"\n", 1);
    append(&joined->result.answers, answers->bytes, answers->size);
}

static void count_status(struct joined *joined, uint32_t status) {
    REQUIRE(status <= BOXGLUE_REFUSED, "a random piece has status %u", status);
    joined->result.statuses[status]++;
}

/* Runs a piece. A bad one has a line of its own, and counts for nothing. */
static void try_piece(struct boxglue_job *job, const struct input *piece, struct joined *joined) {
    uint32_t status = COUNTED(boxglue_job_commands(job, piece->bytes, piece->size));
    struct input answers = {0};
    take_all(job, boxglue_job_answers, &answers);
    take_all(job, boxglue_job_take, &joined->result.dvi);
    try_items(job);
    if (status == BOXGLUE_REFUSED && answers.size > strlen(BAD_PIECE) && !memcmp(answers.bytes, BAD_PIECE, strlen(BAD_PIECE))) joined->bad++;
    else {
        count_status(joined, status);
        keep_piece(joined, piece, &answers);
    }
    free(answers.bytes);
}

/* Fails where one run gives something else. */
static void require_one_run(const struct joined *joined, const struct boxglue_font *font) {
    uint8_t none = 0;
    struct request request = {.call = RUN, .input = joined->script, .fonts = {.all = {*font}, .count = 1}};
    if (!request.input.bytes) request.input.bytes = &none;
    struct result result = checked_call(&request);
    struct input answers = {result.outputs[0].bytes, result.sizes[0]}, dvi = {result.outputs[1].bytes, result.sizes[1]};
    REQUIRE(result.status == whole_status(&joined->result), "the status of one run is %u", result.status);
    REQUIRE(is_equal(&answers, &joined->result.answers), "one run has other answers than its pieces");
    REQUIRE(is_equal(&dvi, &joined->result.dvi), "one run has another file than its pieces");
    free_result(&result);
}

/* Runs the next pieces on a job, and ends it. */
static struct joined try_job(const struct input *script, const struct boxglue_font *font, size_t first, size_t count) {
    struct joined joined = {0};
    struct boxglue_job job = {0};
    heap_begin(0);
    REQUIRE(COUNTED(boxglue_job_new(&job, font, 1)) == BOXGLUE_ACCEPTED, "there is no job");
    for (size_t number = first; number < first + count; number++) {
        struct input piece = next_piece(script, number);
        try_piece(&job, &piece, &joined);
        free(piece.bytes);
    }
    count_status(&joined, COUNTED(boxglue_job_finish(&job)));
    take_all(&job, boxglue_job_answers, &joined.result.answers);
    take_all(&job, boxglue_job_take, &joined.result.dvi);
    free_job(&job);
    REQUIRE(!heap_live(), "%ld blocks are not freed", heap_live());
    return joined;
}

void try_pieces(const struct input *script, const struct boxglue_font *font, size_t count) {
    size_t jobs = 0, bad = 0, pages = 0, statuses[2] = {0};
    for (size_t number = 0; number < count; number += OF_ONE_JOB, jobs++) {
        struct joined joined = try_job(script, font, number, count - number < OF_ONE_JOB ? count - number : OF_ONE_JOB);
        require_one_run(&joined, font);
        for (int status = 0; status < 2; status++) statuses[status] += joined.result.statuses[status];
        bad += joined.bad, pages += joined.result.dvi.size > 0;
        free_job_result(&joined.result);
        free(joined.script.bytes);
    }
    printf("pieces %zu: accepted %zu, some refused %zu, bad %zu; jobs %zu, with a file %zu\n", count, statuses[0], statuses[1], bad, jobs, pages);
}
