#include "reply_calls.h"
#include "heap.h"
#include "reply_text.h"

static const size_t UNSET = (size_t)-1;

/* Runs a piece with this room for replies. Fails where something is written that should not be. */
static uint32_t run_with_room(struct boxglue_job *job, const struct input *piece, size_t room, size_t *count, struct input *texts) {
    struct output output = new_output(room * sizeof(struct boxglue_reply));
    struct boxglue_reply *replies = (struct boxglue_reply *)output.bytes;
    *count = UNSET;
    uint32_t status = COUNTED(boxglue_job_run(job, piece->bytes, piece->size, replies, room, count));
    int is_run = status == BOXGLUE_ACCEPTED || status == BOXGLUE_REFUSED || status == BOXGLUE_REFUSED_MEMORY;
    REQUIRE((*count == UNSET) == (status == BOXGLUE_OUT_OF_MEMORY), "status %u, and the number of replies is %zu", status, *count);
    REQUIRE(status == BOXGLUE_OUT_OF_MEMORY || (status == BOXGLUE_BUFFER_TOO_SMALL) == (*count > room), "with room for %zu replies of %zu the status is %u", room, *count, status);
    require_untouched(&output, is_run ? *count * sizeof *replies : 0, "replies");
    if (is_run) {
        REQUIRE(status == status_of(replies, *count), "the status is %u, and the replies say %u", status, status_of(replies, *count));
        say_replies(texts, replies, *count);
    }
    free_output(&output);
    return status;
}

uint32_t reply_to_piece(struct boxglue_job *job, const struct input *piece, struct input *texts) {
    size_t needed, count;
    uint32_t status = run_with_room(job, piece, 0, &needed, texts);
    if (status != BOXGLUE_BUFFER_TOO_SMALL) return status;
    status = run_with_room(job, piece, needed - 1, &count, texts);
    if (status == BOXGLUE_OUT_OF_MEMORY) return status;
    REQUIRE(status == BOXGLUE_BUFFER_TOO_SMALL && count == needed, "with a reply too little the status is %u, and %zu are needed", status, count);
    return run_with_room(job, piece, needed, &count, texts);
}

uint32_t reply_to_end(struct boxglue_job *job, struct input *texts) {
    struct output output = new_output(sizeof(struct boxglue_reply));
    struct boxglue_reply *reply = (struct boxglue_reply *)output.bytes;
    uint32_t status = COUNTED(boxglue_job_end(job, reply));
    require_untouched(&output, sizeof *reply, "the reply of the end");
    REQUIRE(status == status_of(reply, 1), "the status of the end is %u, and its reply says %u", status, status_of(reply, 1));
    say_replies(texts, reply, 1);
    free_output(&output);
    return status;
}
