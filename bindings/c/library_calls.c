/* Makes each call of the library on inputs that are files, for tests/run --library; tests/common/library_build.py builds and runs it.
 *
 *     library_calls [--refuse] run SCRIPT [NAME=TFM ..]
 *     library_calls [--refuse] list DVI [NAME=TFM ..]
 *     library_calls [--refuse] paint PAGE DPI WIDTH HEIGHT DVI [NAME=TFM ..]
 *     library_calls [--refuse] paint_bits PAGE DPI WIDTH HEIGHT DVI [NAME=TFM ..]
 *     library_calls [--refuse] fonts DVI
 *     library_calls [--refuse] marks DVI [NAME=TFM ..]
 *     library_calls [--refuse] check DVI [NAME=TFM ..]
 *     library_calls [--refuse] metrics SIZE TFM ..
 *     library_calls [--refuse] run_replies SCRIPT [NAME=TFM ..]
 *     library_calls [--refuse] job MOST SCRIPT [NAME=TFM ..]
 *     library_calls [--refuse] job_replies MOST SCRIPT [NAME=TFM ..]
 *     library_calls random COUNT SCRIPT DVI NAME=TFM
 *     library_calls pieces COUNT SCRIPT NAME=TFM
 *     library_calls frees SCRIPT [NAME=TFM ..]
 *     library_calls items REGISTER SCRIPT [NAME=TFM ..]
 *     library_calls handles
 *     library_calls version
 *
 * It prints a line with the status and the sizes of both outputs, and then the outputs; `marks` prints the status and the units, and then a listing;
 * `check` the status, the number of a font and the name of one, and then the line of a refusal;
 * `metrics` the status, the numbers, the characters and the steps of each file at a size. `job` runs the
 * script on a job, in pieces of at most MOST lines, or in one piece where MOST is 0.
 * `run_replies` and `job_replies` print the texts of the replies that came as numbers.
 * `frees` frees jobs after each line of the script. With --refuse each growth of memory is refused in turn instead, and the ways in which the calls ended are counted.
 * Where something is wrong, a line on standard error says so, and the status of the program is 1. */
#include "check_calls.h"
#include "item_calls.h"
#include "job_calls.h"
#include "mark_calls.h"
#include "metric_calls.h"
#include "random_inputs.h"
#include "random_pieces.h"
#include "reply_text.h"
#include "whole_calls.h"

#include <stdio.h>
#include <stdlib.h>
#include <string.h>

static void print_outputs(uint32_t status, const uint8_t *first, size_t first_size, const uint8_t *second, size_t second_size) {
    printf("%u %zu %zu\n", status, first_size, second_size);
    fwrite(first, 1, first_size, stdout);
    fwrite(second, 1, second_size, stdout);
}

/* Prints the fonts of a DVI file, a line each: number, size, name, design size, check sum. */
static void print_fonts(const struct result *result) {
    const struct boxglue_dvi_font *fonts = (const struct boxglue_dvi_font *)result->outputs[0].bytes;
    size_t count = result->sizes[0] / sizeof *fonts;
    printf("%u %zu %zu\n", result->status, count, result->sizes[1]);
    for (size_t at = 0; at < count; at++)
        printf("%d %d %.*s %d %u\n", fonts[at].number, fonts[at].size, (int)fonts[at].name_size, result->outputs[1].bytes + fonts[at].name_start, fonts[at].design_size, fonts[at].check_sum);
    if (!count) fwrite(result->outputs[1].bytes, 1, result->sizes[1], stdout);
}

/* Prints the texts of the replies to a script, and the file. */
static void print_replies(const struct result *result) {
    struct input texts = {0};
    say_replies(&texts, (const struct boxglue_reply *)result->outputs[0].bytes, result->sizes[0] / sizeof(struct boxglue_reply));
    print_outputs(result->status, texts.bytes, texts.size, result->outputs[1].bytes, result->sizes[1]);
    free(texts.bytes);
}

static void make_request(const struct request *request, int refuses) {
    if (refuses) {
        refuse_growths(request);
        return;
    }
    struct result result = checked_call(request);
    int is_written = result.status <= BOXGLUE_REFUSED || result.status == BOXGLUE_REFUSED_MEMORY;
    if (!is_written) printf("%u 0 0\n", result.status);
    else if (request->call == FONTS) print_fonts(&result);
    else if (request->call == REPLIES) print_replies(&result);
    else print_outputs(result.status, result.outputs[0].bytes, result.sizes[0], result.outputs[1].bytes, result.sizes[1]);
    free_result(&result);
}

static uint32_t number(const char *word) {
    char *end;
    unsigned long long value = strtoull(word, &end, 10);
    REQUIRE(*word && !*end && value <= UINT32_MAX, "not a number: %s", word);
    return (uint32_t)value;
}

static void run_random(char **words, int count) {
    REQUIRE(count == 4, "random needs COUNT SCRIPT DVI NAME=TFM");
    struct samples samples = {read_file(words[1]), read_file(words[2]), read_fonts(words + 3, 1).all[0]};
    try_random(&samples, number(words[0]));
}

static void run_random_pieces(char **words, int count) {
    REQUIRE(count == 3, "pieces needs COUNT SCRIPT NAME=TFM");
    struct input script = read_file(words[1]);
    struct boxglue_font font = read_fonts(words + 2, 1).all[0];
    try_pieces(&script, &font, number(words[0]));
}

static void run_frees(char **words, int count) {
    REQUIRE(count >= 1, "frees needs SCRIPT");
    struct pieces pieces = {read_file(words[0]), read_fonts(words + 1, count - 1), 0, 0};
    free_after_each_line(&pieces);
}

/* Calls a function with a DVI file and fonts. */
static void run_on_file(char **words, int count, void (*call)(const struct input *dvi, const struct fonts *fonts)) {
    REQUIRE(count >= 1, "a DVI file is missing");
    struct input dvi = read_file(words[0]);
    struct fonts fonts = read_fonts(words + 1, count - 1);
    call(&dvi, &fonts);
}

static void run_metrics(char **words, int count, int refuses) {
    REQUIRE(count >= 2, "metrics needs SIZE TFM");
    char *end;
    long size = strtol(words[0], &end, 10);
    REQUIRE(*words[0] && !*end && size >= INT32_MIN && size <= INT32_MAX, "not a size: %s", words[0]);
    for (int at = 1; at < count; at++) {
        struct input tfm = read_file(words[at]);
        if (refuses) refuse_metric_growths(&tfm, (int32_t)size);
        else print_metrics(&tfm, (int32_t)size);
    }
}

static void run_items(char **words, int count) {
    REQUIRE(count >= 2, "items needs REGISTER SCRIPT");
    struct input script = read_file(words[1]);
    struct fonts fonts = read_fonts(words + 2, count - 2);
    print_items(&script, &fonts, number(words[0]));
}

static void run_job(char **words, int count, int refuses, int as_replies) {
    REQUIRE(count >= 2, "a job needs MOST SCRIPT");
    struct pieces pieces = {read_file(words[1]), read_fonts(words + 2, count - 2), number(words[0]), as_replies};
    if (refuses) {
        refuse_job_growths(&pieces);
        return;
    }
    struct job_result result = run_pieces(&pieces, 0);
    print_outputs(whole_status(&result), result.answers.bytes, result.answers.size, result.dvi.bytes, result.dvi.size);
    free_job_result(&result);
}

/* The request of the words of a call. */
static struct request read_request(enum call call, char **words, int count) {
    struct request request = {.call = call};
    if (call == PAINT || call == PAINT_BITS) {
        REQUIRE(count >= 4, "paint needs PAGE DPI WIDTH HEIGHT");
        request.page = number(words[0]), request.dpi = number(words[1]), request.width = number(words[2]), request.height = number(words[3]);
        words += 4, count -= 4;
    }
    REQUIRE(count >= 1, "a file is missing");
    request.input = read_file(words[0]);
    request.fonts = read_fonts(words + 1, count - 1);
    return request;
}

int main(int count, char **words) {
    static const char *const CALLS[] = {[RUN] = "run", [LIST] = "list", [PAINT] = "paint", [PAINT_BITS] = "paint_bits", [FONTS] = "fonts", [REPLIES] = "run_replies"};
    int refuses = count > 1 && !strcmp(words[1], "--refuse");
    words += 1 + refuses, count -= 1 + refuses;
    REQUIRE(count >= 1, "the name of a call is missing");
    REQUIRE(boxglue_version() == BOXGLUE_VERSION, "the library is version %u, and the header is for %d", boxglue_version(), BOXGLUE_VERSION);
    if (!strcmp(words[0], "version")) return printf("%u\n", boxglue_version()) < 0;
    if (!strcmp(words[0], "random")) return run_random(words + 1, count - 1), 0;
    if (!strcmp(words[0], "pieces")) return run_random_pieces(words + 1, count - 1), 0;
    if (!strcmp(words[0], "job")) return run_job(words + 1, count - 1, refuses, 0), 0;
    if (!strcmp(words[0], "job_replies")) return run_job(words + 1, count - 1, refuses, 1), 0;
    if (!strcmp(words[0], "frees")) return run_frees(words + 1, count - 1), 0;
    if (!strcmp(words[0], "marks")) return run_on_file(words + 1, count - 1, refuses ? refuse_mark_growths : print_marks), 0;
    if (!strcmp(words[0], "check")) return run_on_file(words + 1, count - 1, refuses ? refuse_check_growths : print_check), 0;
    if (!strcmp(words[0], "metrics")) return run_metrics(words + 1, count - 1, refuses), 0;
    if (!strcmp(words[0], "items")) return run_items(words + 1, count - 1), 0;
    if (!strcmp(words[0], "handles")) return require_handles(), 0;
    int call = RUN;
    while (strcmp(words[0], CALLS[call])) REQUIRE(++call <= REPLIES, "no call %s", words[0]);
    struct request request = read_request((enum call)call, words + 1, count - 1);
    make_request(&request, refuses);
    return 0;
}
