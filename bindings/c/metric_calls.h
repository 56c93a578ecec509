/* The call that gives the metrics of a font as structs. */
#ifndef METRIC_CALLS_H
#define METRIC_CALLS_H

#include "inputs.h"

/* Reads the metrics of a metric file at a size, with no room for steps, with an exact one and with one step less, and prints them: the status, the numbers,
 * each character, and each step. Fails where a byte is written that should not be. */
void print_metrics(const struct input *tfm, int32_t size);

/* Reads them with each growth of memory refused in turn, and prints how many there were. */
void refuse_metric_growths(const struct input *tfm, int32_t size);

/* Reads the metrics of random bytes, and returns the status. Fails where it is no status of the call. */
uint32_t random_metrics(const struct input *tfm, int32_t size);

#endif
