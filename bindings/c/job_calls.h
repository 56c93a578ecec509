/* A script that is run on a job piece by piece. */
#ifndef JOB_CALLS_H
#define JOB_CALLS_H

#include "inputs.h"

enum { STATUS_COUNT = BOXGLUE_ANSWERS_LOST + 1 };

/* A script with its fonts, how many lines a piece of it has at most, 0 for one piece of all lines, and whether it is run by the calls whose replies are numbers. */
struct pieces {
    struct input script;
    struct fonts fonts;
    size_t most;
    int as_replies;
};

/* What came of all calls on a job: how many of them returned each status, the answers, the bytes of the file, and how many growths of memory there were. */
struct job_result {
    size_t statuses[STATUS_COUNT];
    struct input answers, dvi;
    size_t growths;
};

/* One of the two calls that hand bytes over. */
typedef uint32_t hand_over(struct boxglue_job *job, uint8_t *bytes, size_t room, size_t *size);

/* Appends all that a call hands over: it is made with too little room, and then with what it needs. Fails where a byte is written that should not be, or where
 * something is handed over twice. */
void take_all(struct boxglue_job *job, hand_over *call, struct input *all);

/* Frees a job. Fails where the handle is not null then. */
void free_job(struct boxglue_job *job);

/* Runs the pieces on a job of their own, where the growth of this number is refused, none for 0. A call that had no memory is made again. */
struct job_result run_pieces(const struct pieces *pieces, size_t refused);

void free_job_result(struct job_result *result);

/* The status that one run of the whole script would have. */
uint32_t whole_status(const struct job_result *result);

/* Refuses each growth of the calls in turn, and prints how they end. */
void refuse_job_growths(const struct pieces *pieces);

/* Frees jobs after each line of a script, finished and not, with all answers and bytes waiting. Fails where a block of one is not freed. */
void free_after_each_line(const struct pieces *pieces);

/* Fails where a call on a handle without a job, or with one already, does something. */
void require_handles(void);

#endif
