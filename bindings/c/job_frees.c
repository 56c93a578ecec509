#include "heap.h"
#include "job_calls.h"

#include <stdio.h>

/* Where the line that begins at this byte ends, with its line feed. */
static size_t line_end(const struct input *script, size_t from) {
    while (from < script->size && script->bytes[from] != '\n') from++;
    return from < script->size ? from + 1 : from;
}

/* Runs the first bytes of a script on a job, as one piece, and frees the job with all that waits in it. Returns how many blocks it had. */
static long free_after(const struct pieces *pieces, size_t size, int is_finished) {
    struct boxglue_job job = {0};
    heap_begin(0);
    REQUIRE(COUNTED(boxglue_job_new(&job, pieces->fonts.all, pieces->fonts.count)) == BOXGLUE_ACCEPTED, "there is no job");
    uint32_t status = COUNTED(boxglue_job_commands(&job, pieces->script.bytes, size));
    REQUIRE(status <= BOXGLUE_REFUSED, "a piece of %zu bytes has status %u", size, status);
    if (is_finished) status = COUNTED(boxglue_job_finish(&job));
    REQUIRE(status <= BOXGLUE_REFUSED, "the end after %zu bytes has status %u", size, status);
    long blocks = heap_live();
    free_job(&job);
    REQUIRE(!heap_live(), "a job is freed after %zu bytes of its script, and %ld of %ld blocks are not", size, heap_live(), blocks);
    return blocks;
}

void free_after_each_line(const struct pieces *pieces) {
    size_t jobs = 0;
    long most = 0;
    for (size_t size = 0, last = 1; last; jobs += 2) {
        for (int is_finished = 0; is_finished < 2; is_finished++) {
            long blocks = free_after(pieces, size, is_finished);
            if (blocks > most) most = blocks;
        }
        last = size < pieces->script.size;
        size = line_end(&pieces->script, size);
    }
    printf("freed %zu jobs of up to %ld blocks\n", jobs, most);
}
