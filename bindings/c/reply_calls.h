/* The calls on a job whose replies are numbers. */
#ifndef REPLY_CALLS_H
#define REPLY_CALLS_H

#include "inputs.h"

/* Runs a piece with no room, with too little, and then with what it needs, and appends the texts of its replies. Fails where something is written that should not be, or
 * where the status is not that of the replies. */
uint32_t reply_to_piece(struct boxglue_job *job, const struct input *piece, struct input *texts);

/* Ends a job, and appends the text of the reply. */
uint32_t reply_to_end(struct boxglue_job *job, struct input *texts);

#endif
