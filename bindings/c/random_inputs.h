/* Random bytes as scripts, DVI files and metric files. */
#ifndef RANDOM_INPUTS_H
#define RANDOM_INPUTS_H

#include "inputs.h"

/* Good inputs, copies of which are damaged: the script and the DVI file use a font of this name. */
struct samples {
    struct input script, dvi;
    struct boxglue_font font;
};

/* The next number below a bound, and the next bytes, of a generator that begins from a fixed seed. */
size_t below(size_t bound);
void fill(uint8_t *bytes, size_t count);

/* Gives the library this many byte strings as each of the three, from a fixed generator, and prints the counts of the statuses.
 * Fails where a call returns what is no status of it, or leaves memory that is not freed. */
void try_random(const struct samples *samples, size_t count);

#endif
