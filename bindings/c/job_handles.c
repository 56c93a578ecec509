#include "job_calls.h"
#include "heap.h"

#include <string.h>

static const uint8_t SCRIPT[] = "hbox into 0\nend\n";

static void require_status(uint32_t status, uint32_t wanted, const char *call) {
    REQUIRE(status == wanted, "%s: the status is %u and not %u", call, status, wanted);
}

/* Fails where a call that hands bytes over writes something for a handle without a job. */
static void require_nothing(struct boxglue_job *job, hand_over *call, const char *name) {
    struct output output = new_output(MARGIN);
    size_t size = 7;
    require_status(call(job, output.bytes, output.room, &size), BOXGLUE_NO_JOB, name);
    require_untouched(&output, 0, name);
    REQUIRE(size == 7, "%s: the size is written", name);
    free_output(&output);
}

/* Fails where a call writes a reply for a handle without a job. */
static void require_no_replies(struct boxglue_job *job) {
    const struct boxglue_reply before = {.line = 7, .kind = BOXGLUE_REPLY_END};
    struct boxglue_reply reply = before;
    size_t count = 7;
    require_status(boxglue_job_run(job, SCRIPT, sizeof SCRIPT - 1, &reply, 1, &count), BOXGLUE_NO_JOB, "boxglue_job_run");
    require_status(boxglue_job_end(job, &reply), BOXGLUE_NO_JOB, "boxglue_job_end");
    REQUIRE(count == 7 && !memcmp(&reply, &before, sizeof reply), "a reply is written for a handle without a job");
}

static void require_no_job(struct boxglue_job *job) {
    heap_begin(0);
    heap_count(1);
    require_status(boxglue_job_commands(job, SCRIPT, sizeof SCRIPT - 1), BOXGLUE_NO_JOB, "boxglue_job_commands");
    require_status(boxglue_job_finish(job), BOXGLUE_NO_JOB, "boxglue_job_finish");
    require_no_replies(job);
    boxglue_job_free(job);
    heap_count(0);
    require_nothing(job, boxglue_job_answers, "boxglue_job_answers");
    require_nothing(job, boxglue_job_take, "boxglue_job_take");
    REQUIRE(!job->at && !heap_growths(), "a call without a job does something");
}

void require_handles(void) {
    struct boxglue_job job = {0};
    static const uint8_t letters[256] = {'a'};
    const struct boxglue_font nameless = {SCRIPT, 0, SCRIPT, 0}, long_name = {letters, sizeof letters, SCRIPT, 0};
    require_no_job(&job);
    require_status(COUNTED(boxglue_job_new(&job, &nameless, 1)), BOXGLUE_BAD_FONT_NAME, "boxglue_job_new");
    require_status(COUNTED(boxglue_job_new(&job, &long_name, 1)), BOXGLUE_BAD_FONT_NAME, "boxglue_job_new");
    require_no_job(&job);
    require_status(COUNTED(boxglue_job_new(&job, &nameless, 0)), BOXGLUE_ACCEPTED, "boxglue_job_new");
    void *at = job.at;
    long live = heap_live();
    for (size_t count = 0; count < 2; count++) require_status(COUNTED(boxglue_job_new(&job, &nameless, count)), BOXGLUE_JOB_EXISTS, "boxglue_job_new");
    REQUIRE(job.at == at && heap_live() == live, "a second job changes the handle");
    require_status(COUNTED(boxglue_job_commands(&job, SCRIPT, sizeof SCRIPT - 1)), BOXGLUE_ACCEPTED, "boxglue_job_commands");
    free_job(&job);
    REQUIRE(!heap_live(), "%ld blocks are not freed", heap_live());
    require_no_job(&job);
}
