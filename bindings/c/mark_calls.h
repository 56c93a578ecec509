/* The call that gives the marks of a DVI file as structs. */
#ifndef MARK_CALLS_H
#define MARK_CALLS_H

#include "inputs.h"

/* Reads the marks of a DVI file with rooms that always suffice, with exact rooms and with too little, and prints them: as boxglue_list does, and after each glyph its
 * width. Fails where a byte is written that should not be. */
void print_marks(const struct input *dvi, const struct fonts *fonts);

/* Reads them with each growth of memory refused in turn, and prints how many there were. */
void refuse_mark_growths(const struct input *dvi, const struct fonts *fonts);

#endif
