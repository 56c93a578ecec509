/* Calls the library for C from many threads and processes at once; callers_at_once.py builds and runs it.
 *
 *     callers_at_once WAY WORKERS ROUNDS SCRIPT [NAME=TFM ..]
 *
 * threads   each thread makes all calls again and again, and has a job of its own
 * passed    jobs go from one thread to the next after each piece, through a queue with a lock, and the thread that ends one frees it
 * forks     a process without threads has a job half done; it and each of its children make the other half of it, and all calls
 * killed    children that make all calls are ended in the middle: by SIGKILL, or by a handler that calls _exit; their buffers are shared, and have margins
 * exits     the program ends by exit while its threads are inside calls
 * misuse    threads use one job without a lock, which the header forbids: this shows what a tool sees of the library's code
 *
 * All that comes is compared with what one thread got before. Where something is wrong, a line on standard error says so, and the status is 1. */
#include "inputs.h"

#include <pthread.h>
#include <signal.h>
#include <stdatomic.h>
#include <stdio.h>
#include <stdlib.h>
#include <string.h>
#include <sys/mman.h>
#include <sys/wait.h>
#include <time.h>
#include <unistd.h>

enum { OUTPUTS = 12, LINES = 5, MOST_WORKERS = 64, STACK = 320 << 10, PAGE = 1, DPI = 72, WIDTH = 40, HEIGHT = 30, ROOM = 1 << 21 };

/* What all calls on a script and its file give, one output after the other. */
struct outcome {
    uint32_t statuses[OUTPUTS];
    struct input outputs[OUTPUTS];
    int count;
};

static struct input script;
static struct fonts fonts;
static struct outcome wanted;
static int workers, rounds;

static void keep(struct outcome *outcome, uint32_t status, struct output *output, size_t size) {
    require_untouched(output, size, "a call");
    outcome->statuses[outcome->count] = status;
    append(&outcome->outputs[outcome->count++], output->bytes, size);
    free_output(output);
}

static void run_script(struct outcome *outcome) {
    struct boxglue_lengths sizes = {0, 0};
    uint32_t status = boxglue_run(script.bytes, script.size, fonts.all, fonts.count, NULL, 0, NULL, 0, &sizes);
    REQUIRE(status == BOXGLUE_BUFFER_TOO_SMALL, "with no room the status is %u", status);
    struct output answers = new_output(sizes.answers), dvi = new_output(sizes.dvi);
    status = boxglue_run(script.bytes, script.size, fonts.all, fonts.count, answers.bytes, answers.room, dvi.bytes, dvi.room, &sizes);
    keep(outcome, status, &answers, sizes.answers);
    keep(outcome, status, &dvi, sizes.dvi);
}

static void run_replies(struct outcome *outcome) {
    struct boxglue_reply_sizes sizes = {0, 0};
    boxglue_run_replies(script.bytes, script.size, fonts.all, fonts.count, NULL, 0, NULL, 0, &sizes);
    struct output replies = new_output(sizes.replies * sizeof(struct boxglue_reply)), dvi = new_output(sizes.dvi);
    uint32_t status = boxglue_run_replies(script.bytes, script.size, fonts.all, fonts.count, (struct boxglue_reply *)replies.bytes, sizes.replies, dvi.bytes, dvi.room, &sizes);
    keep(outcome, status, &replies, replies.room);
    keep(outcome, status, &dvi, sizes.dvi);
}

static void read_texts(struct outcome *outcome, const struct input *dvi) {
    size_t size = 0;
    boxglue_list(dvi->bytes, dvi->size, fonts.all, fonts.count, NULL, 0, &size);
    struct output listing = new_output(size);
    uint32_t status = boxglue_list(dvi->bytes, dvi->size, fonts.all, fonts.count, listing.bytes, listing.room, &size);
    keep(outcome, status, &listing, size);
    boxglue_paint(dvi->bytes, dvi->size, fonts.all, fonts.count, PAGE, DPI, WIDTH, HEIGHT, NULL, 0, &size);
    struct output bitmap = new_output(size);
    status = boxglue_paint(dvi->bytes, dvi->size, fonts.all, fonts.count, PAGE, DPI, WIDTH, HEIGHT, bitmap.bytes, bitmap.room, &size);
    keep(outcome, status, &bitmap, size);
}

static void read_tables(struct outcome *outcome, const struct input *dvi) {
    struct boxglue_font_sizes sizes = {0, 0};
    boxglue_fonts(dvi->bytes, dvi->size, NULL, 0, NULL, 0, &sizes);
    struct output rows = new_output(sizes.fonts * sizeof(struct boxglue_dvi_font)), names = new_output(sizes.text);
    uint32_t status = boxglue_fonts(dvi->bytes, dvi->size, (struct boxglue_dvi_font *)rows.bytes, sizes.fonts, names.bytes, names.room, &sizes);
    keep(outcome, status, &rows, rows.room);
    keep(outcome, status, &names, sizes.text);
    struct boxglue_mark_sizes found = {0, 0, 0, 0, 0, 0};
    boxglue_marks(dvi->bytes, dvi->size, fonts.all, fonts.count, NULL, 0, NULL, 0, NULL, 0, &found);
    struct output pages = new_output(found.pages * sizeof(struct boxglue_page)), marks = new_output(found.marks * sizeof(struct boxglue_mark));
    status = boxglue_marks(dvi->bytes, dvi->size, fonts.all, fonts.count, (struct boxglue_page *)pages.bytes, found.pages, (struct boxglue_mark *)marks.bytes, found.marks, NULL, 0, &found);
    keep(outcome, status, &pages, pages.room);
    keep(outcome, status, &marks, marks.room);
}

static void make_all_calls(struct outcome *outcome) {
    run_script(outcome);
    run_replies(outcome);
    read_texts(outcome, &outcome->outputs[1]);
    read_tables(outcome, &outcome->outputs[1]);
}

static void require_wanted(struct outcome *outcome) {
    for (int at = 0; at < wanted.count; at++) {
        int is_same = outcome->statuses[at] == wanted.statuses[at] && is_equal(&outcome->outputs[at], &wanted.outputs[at]);
        REQUIRE(is_same, "output %d is another than one thread got", at);
        free(outcome->outputs[at].bytes);
    }
}

/* A job on its way through a script: its handle, the next byte of the script, and the bytes of its file so far. */
struct way {
    struct boxglue_job job;
    size_t from;
    struct input dvi;
};

static void begin(struct way *way) {
    *way = (struct way){.from = 0};
    uint32_t status = boxglue_job_new(&way->job, fonts.all, fonts.count);
    REQUIRE(status == BOXGLUE_ACCEPTED, "a new job has status %u", status);
}

static void take(struct way *way) {
    size_t size = 0;
    boxglue_job_take(&way->job, NULL, 0, &size);
    struct output bytes = new_output(size);
    uint32_t status = boxglue_job_take(&way->job, bytes.bytes, bytes.room, &size);
    REQUIRE(status == BOXGLUE_ACCEPTED, "the bytes of a job have status %u", status);
    append(&way->dvi, bytes.bytes, size);
    free_output(&bytes);
}

/* Runs some lines of a job. Returns whether there are more. */
static int run_lines(struct way *way) {
    size_t end = way->from, count;
    for (int lines = LINES; lines && end < script.size; end++) lines -= script.bytes[end] == '\n';
    struct boxglue_reply replies[LINES + 1];
    boxglue_job_run(&way->job, script.bytes + way->from, end - way->from, replies, LINES + 1, &count);
    way->from = end;
    take(way);
    return end < script.size;
}

static void end(struct way *way) {
    struct boxglue_reply reply;
    boxglue_job_end(&way->job, &reply);
    take(way);
    REQUIRE(is_equal(&way->dvi, &wanted.outputs[1]), "the file of a job is another than one call made");
    boxglue_job_free(&way->job);
    free(way->dvi.bytes);
}

static void run_job(void) {
    struct way way;
    begin(&way);
    while (run_lines(&way)) {}
    end(&way);
}

static void *make_rounds(void *unused) {
    for (int round = 0; round < rounds; round++) {
        struct outcome outcome = {.count = 0};
        make_all_calls(&outcome);
        require_wanted(&outcome);
        run_job();
    }
    return unused;
}

/* Starts threads with little more stack than the header asks for. */
static void start_threads(pthread_t *threads, void *(*call)(void *)) {
    pthread_attr_t attributes;
    REQUIRE(!pthread_attr_init(&attributes) && !pthread_attr_setstacksize(&attributes, STACK), "no stack of %d bytes", STACK);
    for (int at = 0; at < workers; at++) REQUIRE(!pthread_create(&threads[at], &attributes, call, NULL), "a thread does not start");
    pthread_attr_destroy(&attributes);
}

static void run_threads(void *(*call)(void *)) {
    pthread_t threads[MOST_WORKERS];
    start_threads(threads, call);
    for (int at = 0; at < workers; at++) pthread_join(threads[at], NULL);
}

/* The jobs that wait for a thread, and how many are left to be ended. */
static struct way queue[MOST_WORKERS];
static int waiting, left;
static pthread_mutex_t lock = PTHREAD_MUTEX_INITIALIZER;

/* Takes a job out of the queue, or makes one of those that are left. Returns whether there was one. */
static int next_job(struct way *way) {
    pthread_mutex_lock(&lock);
    int has = waiting > 0, makes = !has && left > 0;
    if (has) *way = queue[--waiting];
    left -= makes;
    pthread_mutex_unlock(&lock);
    if (makes) begin(way);
    return has || makes;
}

static void *pass_jobs(void *unused) {
    struct way way;
    while (next_job(&way)) {
        if (!run_lines(&way)) {
            end(&way);
            continue;
        }
        pthread_mutex_lock(&lock);
        queue[waiting++] = way;
        pthread_mutex_unlock(&lock);
    }
    return unused;
}

static void require_ended(pid_t child, int number) {
    int status = 0;
    REQUIRE(waitpid(child, &status, 0) == child, "a child is lost");
    REQUIRE(number ? WIFSIGNALED(status) && WTERMSIG(status) == number : WIFEXITED(status) && !WEXITSTATUS(status), "a child ended with %d", status);
}

/* A child makes the rest of the job of its parent, and all calls. */
static void run_child(struct way *way) {
    while (run_lines(way)) {}
    end(way);
    make_rounds(NULL);
    _exit(0);
}

static void run_forks(void) {
    struct way way;
    pid_t children[MOST_WORKERS];
    begin(&way);
    for (size_t half = script.size / 2; way.from < half;) run_lines(&way);
    for (int at = 0; at < workers; at++)
        if (!(children[at] = fork())) run_child(&way);
    while (run_lines(&way)) {}
    end(&way);
    make_rounds(NULL);
    for (int at = 0; at < workers; at++) require_ended(children[at], 0);
}

/* A buffer that a child shares, and whose margin no call may write to. */
static uint8_t *shared;

static void leave(int number) {
    (void)number;
    _exit(0);
}

static void call_for_ever(void) {
    struct boxglue_lengths sizes;
    for (;;) {
        boxglue_run(script.bytes, script.size, fonts.all, fonts.count, shared, ROOM, shared + ROOM + MARGIN, ROOM, &sizes);
        run_job();
    }
}

static void require_margins(void) {
    for (int at = 0; at < MARGIN; at++) REQUIRE(!shared[ROOM + at] && !shared[2 * ROOM + MARGIN + at], "a child that was ended wrote beyond a buffer");
}

static void kill_children(void) {
    shared = mmap(NULL, 2 * (ROOM + MARGIN), PROT_READ | PROT_WRITE, MAP_SHARED | MAP_ANONYMOUS, -1, 0);
    REQUIRE(shared != MAP_FAILED, "no shared memory");
    for (int at = 0; at < workers * rounds; at++) {
        int number = at % 2 ? SIGKILL : SIGUSR1;
        signal(SIGUSR1, leave);
        pid_t child = fork();
        if (!child) call_for_ever();
        nanosleep(&(struct timespec){0, 1000L * (at * 7919 % 5000)}, NULL);
        kill(child, number);
        require_ended(child, number == SIGKILL ? SIGKILL : 0);
        require_margins();
    }
    make_rounds(NULL);
}

static atomic_int inside;

static void *call_until_the_end(void *unused) {
    for (;;) {
        atomic_fetch_add(&inside, 1);
        run_job();
    }
    return unused;
}

/* Ends while threads are inside calls, which no handler of this program interrupts. */
static void exit_inside(void) {
    pthread_t threads[MOST_WORKERS];
    start_threads(threads, call_until_the_end);
    while (atomic_load(&inside) < workers * rounds) nanosleep(&(struct timespec){0, 100000}, NULL);
    printf("exits: %d workers, after %d jobs were begun\n", workers, atomic_load(&inside));
    exit(0);
}

static struct boxglue_job misused;

static void *use_without_lock(void *unused) {
    static const uint8_t line[] = "void 0\n";
    for (int round = 0; round < rounds; round++) boxglue_job_commands(&misused, line, sizeof line - 1);
    return unused;
}

int main(int count, char **words) {
    REQUIRE(count >= 5, "callers_at_once WAY WORKERS ROUNDS SCRIPT [NAME=TFM ..]");
    workers = atoi(words[2]), rounds = atoi(words[3]);
    REQUIRE(workers > 0 && workers <= MOST_WORKERS && rounds > 0, "1 to %d workers, and 1 round or more", MOST_WORKERS);
    script = read_file(words[4]);
    fonts = read_fonts(words + 5, count - 5);
    make_all_calls(&wanted);
    left = workers * rounds;
    const char *way = words[1];
    if (!strcmp(way, "threads")) run_threads(make_rounds);
    else if (!strcmp(way, "passed")) run_threads(pass_jobs);
    else if (!strcmp(way, "forks")) run_forks();
    else if (!strcmp(way, "killed")) kill_children();
    else if (!strcmp(way, "exits")) exit_inside();
    else if (!strcmp(way, "misuse") && !boxglue_job_new(&misused, NULL, 0)) run_threads(use_without_lock);
    else fail("no way %s", way);
    for (int at = 0; at < wanted.count; at++) free(wanted.outputs[at].bytes);
    printf("%s: %d outputs of each round, %d workers, %d rounds\n", way, wanted.count, workers, rounds);
    return 0;
}
