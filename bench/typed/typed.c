/* Times the calls of boxglue_typed.h beside the same commands as texts that are made by hand, by snprintf: one text for all of them, and one for each. It prints the
 * least of some rounds, in microseconds a command. `typed WAY ROUNDS` runs one of the three ways, 0 to 2, so often, for callgrind. */
#define _POSIX_C_SOURCE 200809L
#include "boxglue_typed.h"

#include <stdio.h>
#include <time.h>

enum { PAIRS = 2000, ROUNDS = 200, COMMANDS = 2 * PAIRS + 2 };

static double seconds(void) {
    struct timespec time;
    clock_gettime(CLOCK_PROCESS_CPUTIME_ID, &time);
    return (double)time.tv_sec + (double)time.tv_nsec * 1e-9;
}

static uint32_t by_calls(struct boxglue_typed *typed) {
    uint32_t wrong = boxglue_do_hbox(typed, BOXGLUE_NATURAL, 0, 0);
    for (int at = 0; at < PAIRS; at++) wrong |= boxglue_do_rule(typed, 65536 + at, 65536, 0) | boxglue_do_kern(typed, -at);
    return wrong | boxglue_do_end(typed);
}

static uint32_t by_text(struct boxglue_typed *typed) {
    static char text[64 * COMMANDS];
    static struct boxglue_reply replies[COMMANDS + 1];
    size_t count;
    int size = sprintf(text, "hbox into 0\n");
    for (int at = 0; at < PAIRS; at++) size += sprintf(text + size, "rule %dsp 65536sp 0sp\nkern %dsp\n", 65536 + at, -at);
    size += sprintf(text + size, "end\n");
    return boxglue_job_run(&typed->job, text, (size_t)size, replies, COMMANDS + 1, &count);
}

static uint32_t one(struct boxglue_typed *typed, const char *text, int size) {
    struct boxglue_reply reply;
    size_t count;
    return boxglue_job_run(&typed->job, text, (size_t)size, &reply, 1, &count);
}

static uint32_t by_texts(struct boxglue_typed *typed) {
    char text[256];
    uint32_t wrong = one(typed, "hbox into 0\n", 12);
    for (int at = 0; at < PAIRS; at++) {
        wrong |= one(typed, text, snprintf(text, sizeof text, "rule %dsp %dsp %dsp\n", 65536 + at, 65536, 0));
        wrong |= one(typed, text, snprintf(text, sizeof text, "kern %dsp\n", -at));
    }
    return wrong | one(typed, "end\n", 4);
}

static double least(struct boxglue_typed *typed, uint32_t (*run)(struct boxglue_typed *)) {
    double found = 1e9;
    for (int round = 0; round < ROUNDS; round++) {
        double began = seconds(), took;
        if (run(typed)) return -1;
        took = seconds() - began;
        if (took < found) found = took;
    }
    return found / COMMANDS * 1e6;
}

int main(int count, char **words) {
    static uint32_t (*const WAYS[])(struct boxglue_typed *) = {by_calls, by_text, by_texts};
    struct boxglue_typed typed;
    if (boxglue_typed_new(&typed, NULL, 0)) return 2;
    if (count == 3) {
        uint32_t wrong = 0;
        for (int rounds = atoi(words[2]); rounds > 0; rounds--) wrong |= WAYS[(words[1][0] - '0') % 3](&typed);
        boxglue_typed_free(&typed);
        return (int)wrong;
    }
    double calls = least(&typed, by_calls), text = least(&typed, by_text), texts = least(&typed, by_texts);
    printf("C\t%.3f\t%.3f\t%.3f\n", calls, text, texts);
    boxglue_typed_free(&typed);
    return 0;
}
