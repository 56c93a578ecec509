/* Replies as the lines that boxglue_run and boxglue_job_answers give for them. */
#ifndef REPLY_TEXT_H
#define REPLY_TEXT_H

#include "inputs.h"

/* Appends the lines of replies. Fails where a reply has a number that its kind does not have. */
void say_replies(struct input *text, const struct boxglue_reply *replies, size_t count);

/* The status of a call with these replies. */
uint32_t status_of(const struct boxglue_reply *replies, size_t count);

#endif
