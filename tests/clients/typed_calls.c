/* Makes random documents by the calls of boxglue_typed.h and by their scripts, and compares the replies and the files: typed_calls DOCUMENTS METRICS.
 * It is C99 and C++98, so that each language compiles all calls. */
#include "boxglue_typed.h"

#include <stdio.h>

enum { MOST_WORDS = 8 };

/* Some bytes. */
struct text {
    char *at;
    size_t size;
};

static void fail(const char *what, size_t number) {
    fprintf(stderr, "%s: %lu\n", what, (unsigned long)number);
    exit(1);
}

static void *memory(size_t size) {
    void *at = malloc(size ? size : 1);
    if (!at) fail("no memory for bytes", size);
    return at;
}

static struct text file_of(const char *path) {
    struct text text;
    FILE *file = fopen(path, "rb");
    long size = 0;
    if (!file || fseek(file, 0, SEEK_END) || (size = ftell(file)) < 0 || fseek(file, 0, SEEK_SET)) fail("a file that cannot be read", 0);
    text.size = (size_t)size;
    text.at = (char *)memory(text.size + 1);
    if (fread(text.at, 1, text.size, file) != text.size || fclose(file)) fail("a file that is not read", text.size);
    text.at[text.size] = 0;
    return text;
}

static int32_t number(const char *word) {
    return (int32_t)strtol(word, NULL, 10);
}

static boxglue_sp running(const char *word) {
    return *word == '*' ? BOXGLUE_RUNNING : number(word);
}

static struct boxglue_glue glue(char *const *words) {
    struct boxglue_glue made;
    made.width = number(words[0]);
    made.plus = number(words[1]);
    made.plus_order = (uint32_t)number(words[2]);
    made.minus = number(words[3]);
    made.minus_order = (uint32_t)number(words[4]);
    return made;
}

/* The place of a name among others, which end with null. */
static int place(const char *name, const char *const *names) {
    int at = 0;
    while (names[at] && strcmp(names[at], name)) at++;
    return names[at] ? at : -1;
}

static uint32_t set(struct boxglue_typed *typed, char *const *words) {
    static const char *const DIMENSIONS[] = {"boxmaxdepth", "splitmaxdepth", "lineskiplimit", "hsize", "firstsize", "hoffset", "voffset", NULL};
    static const char *const GLUES[] = {"splittopskip", "baselineskip", "lineskip", "parfillskip", NULL};
    static const char *const NUMBERS[] = {"pretolerance", "tolerance", "linepenalty", "adjdemerits", "clubpenalty", "widowpenalty", "interlinepenalty", "firstlines", NULL};
    int at = place(words[1], DIMENSIONS);
    struct boxglue_glue value;
    if (at >= 0) return boxglue_do_set_dimension(typed, (enum boxglue_dimension_parameter)at, number(words[2]));
    at = place(words[1], GLUES);
    if (at < 0) return boxglue_do_set_number(typed, (enum boxglue_number_parameter)place(words[1], NUMBERS), number(words[2]));
    value = glue(words + 2);
    return boxglue_do_set_glue(typed, (enum boxglue_glue_parameter)at, &value);
}

static uint32_t box_of(struct boxglue_typed *typed, char *const *words) {
    enum boxglue_target target = words[1][0] == 't' ? BOXGLUE_TO : words[1][0] == 's' ? BOXGLUE_SPREAD : BOXGLUE_NATURAL;
    int32_t into = words[3][0] == '-' ? BOXGLUE_IN_LIST : number(words[3]);
    if (words[0][0] == 'h') return boxglue_do_hbox(typed, target, number(words[2]), into);
    return (words[0][1] == 'b' ? boxglue_do_vbox : boxglue_do_vtop)(typed, target, number(words[2]), into);
}

/* The calls that have a number alone. */
static uint32_t of_number(struct boxglue_typed *typed, char *const *words) {
    typedef uint32_t (*call)(struct boxglue_typed *, int32_t);
    static const char *const NAMES[] = {"use", "char", "kern", "penalty", "unhbox", "unhcopy", "unvbox", "unvcopy", "lastbox", "measure", "void", "ship", NULL};
    static const call CALLS[] = {boxglue_do_use, boxglue_do_char, boxglue_do_kern, boxglue_do_penalty, boxglue_do_unhbox, boxglue_do_unhcopy, boxglue_do_unvbox,
                                 boxglue_do_unvcopy, boxglue_do_lastbox, boxglue_do_measure, boxglue_do_void, boxglue_do_ship};
    int at = place(words[0], NAMES);
    if (at < 0) fail(words[0], 0);
    return CALLS[at](typed, number(words[1]));
}

/* Makes the call of a line, which is cut into words but for a text. */
static uint32_t make(struct boxglue_typed *typed, char *line) {
    char *words[MOST_WORDS];
    size_t count = 0;
    struct boxglue_glue value;
    if (!strncmp(line, "text ", 5)) return boxglue_do_text(typed, line + 5, strlen(line + 5));
    if (!strncmp(line, "special ", 8)) return boxglue_do_special(typed, line + 8, strlen(line + 8));
    for (line = strtok(line, " "); line && count < MOST_WORDS; line = strtok(NULL, " ")) words[count++] = line;
    if (!strcmp(words[0], "font")) return boxglue_do_load(typed, number(words[1]), words[2], words[3][0] == '-' ? 0 : number(words[3]));
    if (!strcmp(words[0], "par")) return boxglue_do_par(typed);
    if (!strcmp(words[0], "end")) return boxglue_do_end(typed);
    if (!strcmp(words[0], "set")) return set(typed, words);
    if (!strcmp(words[0], "glue")) return value = glue(words + 1), boxglue_do_glue(typed, &value);
    if (!strcmp(words[0], "rule")) return boxglue_do_rule(typed, running(words[1]), running(words[2]), running(words[3]));
    if (!strcmp(words[0], "box")) return boxglue_do_box(typed, number(words[1]), number(words[2]));
    if (!strcmp(words[0], "copy")) return boxglue_do_copy(typed, number(words[1]), number(words[2]));
    if (!strcmp(words[0], "vsplit")) return boxglue_do_vsplit(typed, number(words[1]), number(words[2]), number(words[3]));
    if (!strcmp(words[0], "count")) return boxglue_do_count(typed, number(words[1]), number(words[2]));
    return count == 4 ? box_of(typed, words) : of_number(typed, words);
}

/* Compares a script and its calls. */
static void compare(struct text script, char *calls, const struct boxglue_font *font, size_t document) {
    struct boxglue_reply_sizes sizes = {0, 0};
    struct boxglue_reply *replies = (struct boxglue_reply *)memory((script.size + 2) * sizeof *replies);
    size_t room = 1 << 20, size = 0, line = 0;
    uint8_t *dvi = (uint8_t *)memory(room), *taken = (uint8_t *)memory(room);
    struct boxglue_typed typed;
    char *next;
    if (boxglue_run_replies(script.at, script.size, font, 1, replies, script.size + 2, dvi, room, &sizes) > BOXGLUE_REFUSED) fail("no run of document", document);
    if (boxglue_typed_new(&typed, font, 1)) fail("no job of document", document);
    for (; *calls; calls = next, line++) {
        next = calls + strcspn(calls, "\n");
        if (*next) *next++ = 0;
        if (make(&typed, calls) > BOXGLUE_REFUSED) fail("a call without a reply in document", document);
        if (memcmp(&typed.reply, &replies[line], sizeof typed.reply)) fail("another reply to line", line + 1);
    }
    if (boxglue_do_finish(&typed) > BOXGLUE_REFUSED || memcmp(&typed.reply, &replies[line], sizeof typed.reply)) fail("another end of document", document);
    if (boxglue_job_take(&typed.job, taken, room, &size) || size != sizes.dvi || memcmp(taken, dvi, size)) fail("another file of document", document);
    boxglue_typed_free(&typed);
    free(replies);
    free(taken);
    free(dvi);
}

int main(int count, char **words) {
    struct text data, metrics, script;
    struct boxglue_font font;
    size_t documents = 0;
    char *at, *next;
    if (count != 3) fail("DOCUMENTS METRICS", 0);
    data = file_of(words[1]);
    metrics = file_of(words[2]);
    font.name = (const uint8_t *)"cmr10";
    font.name_size = 5;
    font.bytes = (const uint8_t *)metrics.at;
    font.bytes_size = metrics.size;
    for (at = data.at; *at; at = next) {
        script.size = (size_t)strtoul(at + strlen("document "), &script.at, 10);
        script.at++;
        at = script.at + script.size;
        next = strstr(at, "\ndocument ");
        if (next) *next++ = 0;
        else next = data.at + data.size;
        compare(script, at, &font, documents++);
    }
    printf("%lu documents\n", (unsigned long)documents);
    free(data.at);
    free(metrics.at);
    return 0;
}
