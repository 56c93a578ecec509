/* Random pieces of scripts on jobs. */
#ifndef RANDOM_PIECES_H
#define RANDOM_PIECES_H

#include "inputs.h"

/* Runs this many pieces on jobs that are ended in turn: lines of a good script, the same with a byte changed, and random bytes. Prints the counts of the statuses.
 * Fails where the answers and the bytes of a job are not those of one run of its pieces without the bad ones, or where memory is not freed. */
void try_pieces(const struct input *script, const struct boxglue_font *font, size_t count);

#endif
