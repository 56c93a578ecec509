/* The call that lists the box in a register. */
#ifndef ITEM_CALLS_H
#define ITEM_CALLS_H

#include "inputs.h"

/* Runs a script on a job, and prints the items of the box in a register: a line each, and then the glyphs, rules and specials that they show, as boxglue_list does, if
 * the reference point of the box is at (0, 0). The call is made with exact buffers and with too small ones. Fails where a byte is written that should not be, memory
 * is taken, or the job changes. */
void print_items(const struct input *script, const struct fonts *fonts, uint32_t register_number);

/* Lists the box of a random register with random rooms. Fails as above, and where the status does not fit the rooms, or the rows are not those of a box. */
void try_items(struct boxglue_job *job);

#endif
