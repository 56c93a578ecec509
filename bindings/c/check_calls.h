/* The call that says in numbers why a DVI file is refused. */
#ifndef CHECK_CALLS_H
#define CHECK_CALLS_H

#include "inputs.h"

/* Checks a DVI file with a buffer for the longest name, with an exact one and with too small a one. Prints the status and the fault, and then the line that boxglue_list
 * writes for it, made from the numbers. Fails where a byte is written that should not be. */
void print_check(const struct input *dvi, const struct fonts *fonts);

/* Checks it with each growth of memory refused in turn, and prints how many there were. */
void refuse_check_growths(const struct input *dvi, const struct fonts *fonts);

#endif
