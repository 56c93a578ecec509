/* The calls that keep nothing, each with two outputs: the second one of a listing and of a bitmap has no bytes. */
#ifndef WHOLE_CALLS_H
#define WHOLE_CALLS_H

#include "inputs.h"

enum call { RUN, LIST, PAINT, PAINT_BITS, FONTS, REPLIES };

/* What a call is given. */
struct request {
    enum call call;
    struct input input;
    struct fonts fonts;
    uint32_t page, dpi, width, height;
};

/* What a call gives: its status, the outputs, and their sizes in bytes. */
struct result {
    uint32_t status;
    struct output outputs[2];
    size_t sizes[2];
};

/* Makes a call with outputs of these rooms, in bytes. */
struct result make_call(const struct request *request, const size_t rooms[2]);

void free_result(struct result *result);

/* Makes a call with too little room, and then with what it needs. Fails where a byte is written that should not be. */
struct result checked_call(const struct request *request);

/* Refuses each growth of a call in turn, and prints how the calls end. */
void refuse_growths(const struct request *request);

#endif
