#include "job_calls.h"
#include "heap.h"
#include "item_calls.h"
#include "reply_calls.h"

#include <stdlib.h>

static const size_t UNSET = (size_t)-1;

/* Makes a call with this room, and appends what it hands over where all is not null. Returns the size that it says. */
static size_t call_with_room(struct boxglue_job *job, hand_over *call, size_t room, struct input *all) {
    struct output output = new_output(room);
    size_t growths = heap_growths(), size = UNSET;
    uint32_t status = COUNTED(call(job, output.bytes, room, &size));
    REQUIRE(heap_growths() == growths, "what is handed over takes memory");
    uint32_t wanted = size > room ? BOXGLUE_BUFFER_TOO_SMALL : BOXGLUE_ACCEPTED;
    REQUIRE(size != UNSET && status == wanted, "with room for %zu bytes of %zu the status is %u", room, size, status);
    require_untouched(&output, status == BOXGLUE_ACCEPTED ? size : 0, "handed over");
    if (status == BOXGLUE_ACCEPTED && all) append(all, output.bytes, size);
    free_output(&output);
    return size;
}

void take_all(struct boxglue_job *job, hand_over *call, struct input *all) {
    size_t size = call_with_room(job, call, 0, NULL);
    if (size) {
        REQUIRE(call_with_room(job, call, size - 1, NULL) == size, "with a byte too little another size is needed");
        REQUIRE(call_with_room(job, call, size, all) == size, "the size was not the one that was needed");
    }
    REQUIRE(call_with_room(job, call, MARGIN, NULL) == 0, "something is handed over twice");
}

void free_job(struct boxglue_job *job) {
    heap_count(1);
    boxglue_job_free(job);
    heap_count(0);
    REQUIRE(!job->at, "the handle of a job that was freed is not null");
}

/* Counts a status. Returns whether the call was made: there was memory for it. */
static int is_made(struct job_result *result, uint32_t status) {
    REQUIRE(status < STATUS_COUNT, "the status is %u", status);
    result->statuses[status]++;
    REQUIRE(result->statuses[BOXGLUE_OUT_OF_MEMORY] < 2, "memory was refused once, and two calls had none");
    return status != BOXGLUE_OUT_OF_MEMORY;
}

static struct boxglue_job make_job(const struct fonts *fonts, struct job_result *result) {
    struct boxglue_job job = {0};
    while (!is_made(result, COUNTED(boxglue_job_new(&job, fonts->all, fonts->count)))) REQUIRE(!job.at && !heap_live(), "a job that was not made is not freed");
    REQUIRE(job.at && heap_live() > 0, "there is no job");
    return job;
}

static uint32_t make_run(struct boxglue_job *job, const struct input *piece, int as_replies, struct job_result *result) {
    return as_replies ? reply_to_piece(job, piece, &result->answers) : COUNTED(boxglue_job_commands(job, piece->bytes, piece->size));
}

static void run_piece(struct boxglue_job *job, const struct input *piece, int as_replies, struct job_result *result) {
    while (!is_made(result, make_run(job, piece, as_replies, result))) {
        size_t answers = call_with_room(job, boxglue_job_answers, 0, NULL), bytes = call_with_room(job, boxglue_job_take, 0, NULL);
        REQUIRE(!answers && !bytes, "a piece that was not run has %zu bytes of answers, and %zu of the file", answers, bytes);
    }
}

static void take_both(struct boxglue_job *job, struct job_result *result) {
    take_all(job, boxglue_job_answers, &result->answers);
    take_all(job, boxglue_job_take, &result->dvi);
}

/* Ends a job, again where memory was refused for it. */
static void finish_job(struct boxglue_job *job, int as_replies, struct job_result *result) {
    uint32_t status;
    do {
        status = as_replies ? reply_to_end(job, &result->answers) : COUNTED(boxglue_job_finish(job));
        REQUIRE(is_made(result, status), "the end of a job has status %u", status);
        take_both(job, result);
    } while (status == BOXGLUE_REFUSED_MEMORY);
}

/* The piece of this number, from 0, which begins at this byte: pieces have from no line to most lines. Or there is one piece of all lines. */
static struct input piece_at(const struct pieces *pieces, size_t from, size_t number) {
    const struct input *script = &pieces->script;
    if (!pieces->most) return *script;
    size_t end = from;
    for (size_t lines = (7 * number + 3) % (pieces->most + 1); lines && end < script->size; end++) lines -= script->bytes[end] == '\n';
    return (struct input){script->bytes + from, end - from};
}

struct job_result run_pieces(const struct pieces *pieces, size_t refused) {
    struct job_result result = {0};
    heap_begin(refused);
    struct boxglue_job job = make_job(&pieces->fonts, &result);
    for (size_t from = 0, number = 0; from < pieces->script.size; number++) {
        struct input piece = piece_at(pieces, from, number);
        run_piece(&job, &piece, pieces->as_replies, &result);
        try_items(&job);
        take_both(&job, &result);
        from += piece.size;
    }
    finish_job(&job, pieces->as_replies, &result);
    result.growths = heap_growths();
    free_job(&job);
    REQUIRE(!heap_live(), "growth %zu refused: %ld blocks are not freed", refused, heap_live());
    return result;
}

void free_job_result(struct job_result *result) {
    free(result->answers.bytes);
    free(result->dvi.bytes);
}

uint32_t whole_status(const struct job_result *result) {
    if (result->statuses[BOXGLUE_REFUSED_MEMORY]) return BOXGLUE_REFUSED_MEMORY;
    return result->statuses[BOXGLUE_REFUSED] ? BOXGLUE_REFUSED : BOXGLUE_ACCEPTED;
}
