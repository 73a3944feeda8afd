/* Makes many calls of every function with drawn numbers, texts and lists. Each answer is compared with the plain calendar's; a list
 * is written to for the answer alone, and no byte beside a list is read or written. Then threads make the same calls at the same
 * time, each in an order of its own and interrupted by other calls, and have to get the same answers. Prints a line for each
 * function; fails if an answer differs, if not all calls were made, or if none of them had an answer, or all. */
#define _POSIX_C_SOURCE 200809L
#include "calls.h"
#include "lent_list.h"
#include "plain_calendar.h"
#include "sheet_texts.h"

#include <signal.h>
#include <stdio.h>
#include <stdlib.h>
#include <string.h>
#include <unistd.h>

#ifdef WITHOUT_THREADS
static const char how[] = "one after the other, as there are no threads here";
#else
#include <pthread.h>
#include <time.h>
static const char how[] = "in threads at the same time";
#endif

/* The calls are made in blocks, each of which draws from a sequence of its own. A block has so many bursts of each function, and a
 * burst so many calls; if they take lists, on LENGTHS lengths for each text and numbers. A list has up to ROOM entries, more than
 * any answer takes. */
enum { BLOCKS = 40, BURSTS = 50, BURST = 25, LENGTHS = 5, ROOM = TC_SLICE_BUFFER_LENGTH + 50, WORKERS = 4 };
#define MEANT (1ul * BLOCKS * BURSTS * BURST)

/* What one run of the blocks needs and finds, for each function where there are several. */
typedef struct {
    int number;
    volatile int is_done;
    uint32_t sequence;
    input in;
    lent text, out;
    uint64_t digests[CALLS];
    unsigned long made[CALLS], refused[CALLS], differ[CALLS];
} worker;

/* Worker 0 is compared with the plain calendar, and the others by digests with it. It leaves for each function what this was given
 * when it last had an answer. */
static worker workers[1 + WORKERS];
static tally tallies[CALLS];
static uint64_t digests[BLOCKS][CALLS];
static input answered[CALLS];

/* The call that worker 0 makes, or one of those that the others make, for a message if it does not come back. */
static const char *volatile current = "";

static void print_error(const char *text) {
    if (write(STDERR_FILENO, text, strlen(text)) < 0) _exit(2);
}

static void stop_at_fault(int number) {
    print_error(current);
    print_error(number == SIGSEGV || number == SIGBUS ? ": touched memory that it was not lent\n" : ": stopped by a signal\n");
    _exit(1);
}

static void handle(int number, void (*handler)(int)) {
    struct sigaction action;
    memset(&action, 0, sizeof action);
    action.sa_handler = handler;
    sigaction(number, &action, NULL);
}

static void stop_at_faults(void) {
    static const int faults[] = {SIGSEGV, SIGBUS, SIGILL, SIGFPE, SIGABRT};
    for (size_t i = 0; i < LENGTH(faults); i++) handle(faults[i], stop_at_fault);
}

/* Adds bytes to a digest, which is their polynomial at an odd number. */
static void digest(uint64_t *sum, const void *bytes, size_t size) {
    for (size_t i = 0; i < size; i++) *sum = (*sum + ((const uint8_t *)bytes)[i] + 1) * 1099511628211u;
}

/* The numbers given to a call and, if it takes lists, their lengths. */
static numbers given(const call *of, const input *in) {
    numbers list = {(int)strlen(of->letters), {0}};
    memcpy(list.values, in->values, (size_t)list.count * sizeof list.values[0]);
    if (of->takes_text) list.values[list.count++] = (uint32_t)in->text_length;
    if (of->entry_size != 0) list.values[list.count++] = (uint32_t)in->out_length;
    return list;
}

/* After the fields of an answer with a list stands whether all other bytes were kept, and here also whether its bytes are those of
 * the plain calendar. */
static void compare_with_plain(worker *w, int c, numbers answer, size_t written) {
    static uint32_t plain_out[ROOM];
    input in = w->in;
    numbers expected;

    in.out = plain_out;
    expected = calls[c].plain(&in);
    if (calls[c].entry_size != 0) {
        expected.values[expected.count++] = 1;
        expected.values[expected.count++] = 1;
        answer.values[answer.count++] = memcmp(w->out.list, plain_out, written) == 0;
    }
    compare(&tallies[c], given(&calls[c], &w->in), answer, expected);
}

/* How many bytes of the list are the answer. */
static size_t written_bytes(const call *of, const input *in, numbers answer) {
    if (answer.values[0] != TC_OK) return 0;
    return (answer.values[1] < in->out_length ? answer.values[1] : in->out_length) * of->entry_size;
}

static numbers ask(worker *w, int c) {
    const call *of = &calls[c];
    numbers answer;
    size_t written = 0;
    int refused;

    if (w->number == 0) current = of->name;
    answer = of->library(&w->in);
    refused = is_refused(answer);
    w->made[c]++;
    w->refused[c] += (unsigned long)refused;
    if (of->entry_size != 0) {
        written = written_bytes(of, &w->in, answer);
        digest(&w->digests[c], w->out.list, written);
        answer.values[answer.count++] = is_kept(&w->out, written) && is_kept(&w->text, 0);
    }
    digest(&w->digests[c], answer.values, (size_t)answer.count * sizeof answer.values[0]);
    if (w->number == 0) compare_with_plain(w, c, answer, written);
    if (w->number == 0 && !refused) answered[c] = w->in;
    return answer;
}

static numbers ask_with_lists(worker *w, int c, const uint8_t *text, size_t text_length, size_t out_length) {
    numbers answer;
    lend(&w->text, text, 1, text_length, &w->sequence);
    lend(&w->out, NULL, calls[c].entry_size, out_length, &w->sequence);
    w->in.text = w->text.list;
    w->in.text_length = text_length;
    w->in.out = w->out.list;
    w->in.out_length = out_length;
    answer = ask(w, c);
    take_back(&w->text);
    take_back(&w->out);
    return answer;
}

/* One half are texts of the form; the others have one byte changed, are cut, have one byte more, or many more. */
static size_t draw_text(worker *w, uint8_t *text) {
    const uint32_t *n = w->in.values;
    size_t length = text_of((char *)text, 1 + (int)(draw(&w->sequence) % 9), n[0], n[1], n[2]);
    uint32_t choice = draw(&w->sequence) % 8, number = draw(&w->sequence);
    uint8_t byte = (uint8_t)(number >> 16);

    memcpy(text + length, w->text.noise, ROOM - length);
    switch (choice) {
    case 0: text[number % length] = byte; return length;
    case 1: return number % length;
    case 2: text[length] = byte; return length + 1;
    case 3: return number % (ROOM + 1);
    default: return length;
    }
}

/* On no entry, from which the call says how many it takes; then on one too few, just enough, one more, and any number. */
static void ask_on_lengths(worker *w, int c) {
    uint8_t text[ROOM];
    size_t text_length, takes = 0;

    draw_values(&w->in, &calls[c], 0, &w->sequence);
    text_length = draw_text(w, text);
    for (int i = 0; i < LENGTHS; i++) {
        const size_t lengths[LENGTHS] = {0, takes == 0 ? 0 : takes - 1, takes, takes + 1, draw(&w->sequence) % (ROOM + 1)};
        numbers answer = ask_with_lists(w, c, text, text_length, lengths[i]);
        if (answer.values[0] == TC_BUFFER_TOO_SMALL && answer.values[1] < ROOM) takes = answer.values[1];
    }
}

static void burst_on_lists(worker *w, int c) {
    for (int i = 0; i < BURST; i += LENGTHS) ask_on_lengths(w, c);
}

static void burst_of_numbers(worker *w, int c) {
    draw_values(&w->in, &calls[c], 0, &w->sequence);
    for (int i = 0; i < BURST; i++) {
        draw_values(&w->in, &calls[c], calls[c].same, &w->sequence);
        ask(w, c);
    }
}

static void burst(worker *w, int c) {
    if (calls[c].entry_size != 0)
        burst_on_lists(w, c);
    else
        burst_of_numbers(w, c);
}

static void bursts_in_turn(worker *w) {
    for (int i = 0; i < BURSTS * CALLS; i++) burst(w, i % CALLS);
}

static void bursts_by_function(worker *w) {
    for (int i = 0; i < BURSTS * CALLS; i++) burst(w, i / BURSTS);
}

/* In even blocks, which the workers come to at about the same time, they all call the same function. */
static void run_block(worker *w, int block) {
    w->sequence = 20261116u + (uint32_t)block * 2654435769u;
    memset(w->digests, 0, sizeof w->digests);
    if (block % 2 == 0)
        bursts_by_function(w);
    else
        bursts_in_turn(w);
}

/* A worker has to find the digests of worker 0. */
static void compare_digests(worker *w, int block) {
    if (w->number == 0) memcpy(digests[block], w->digests, sizeof w->digests);
    for (int c = 0; c < CALLS; c++) w->differ[c] += w->digests[c] != digests[block][c];
}

/* Each worker starts at an even block of its own and goes on in odd steps of its own, which reach every block. */
static void *run(void *of) {
    static const int steps[1 + WORKERS] = {1, 3, 7, 9, 11};
    worker *w = of;
    uint32_t sequence = 1;
    open_lent(&w->text, &sequence);
    open_lent(&w->out, &sequence);
    for (int i = 0; i < BLOCKS; i++) {
        int block = (w->number * BLOCKS / WORKERS + i * steps[w->number]) % BLOCKS;
        run_block(w, block);
        compare_digests(w, block);
    }
    close_lent(&w->text);
    close_lent(&w->out);
    w->is_done = 1;
    return NULL;
}

#ifdef WITHOUT_THREADS
static void run_workers(void) {
    for (int i = 1; i <= WORKERS; i++) run(&workers[i]);
}
#else
static void stop_if(int error) {
    if (error == 0) return;
    fprintf(stderr, "threads: %s\n", strerror(error));
    exit(1);
}

/* Makes every call, on the last numbers that had an answer, while a call of the thread is under way. */
static void call_within_call(int number) {
    uint32_t out[TC_SLICE_BUFFER_LENGTH];
    (void)number;
    for (int c = 0; c < CALLS; c++) {
        input in = answered[c];
        in.text = (const uint8_t *)example_text;
        in.text_length = strlen(example_text);
        in.out = out;
        in.out_length = LENGTH(out);
        calls[c].library(&in);
    }
}

static int are_done(void) {
    int done = 0;
    for (int i = 1; i <= WORKERS; i++) done += workers[i].is_done;
    return done == WORKERS;
}

/* Again and again, at any place in a call. So calls overlap also where the threads share one processor. */
static void interrupt_workers(const pthread_t *threads) {
    const struct timespec pause = {0, 20000};
    for (int i = 0; !are_done(); i++) {
        if (i % WORKERS == 0) nanosleep(&pause, NULL);
        pthread_kill(threads[1 + i % WORKERS], SIGUSR1);
    }
}

static void start_workers(pthread_t *threads) {
    for (int i = 1; i <= WORKERS; i++) stop_if(pthread_create(&threads[i], NULL, run, &workers[i]));
}

static void run_workers(void) {
    pthread_t threads[1 + WORKERS];
    handle(SIGUSR1, call_within_call);
    start_workers(threads);
    interrupt_workers(threads);
    for (int i = 1; i <= WORKERS; i++) stop_if(pthread_join(threads[i], NULL));
}
#endif

/* 1 if all of a worker's calls were made, some with an error and some without, and no digest differs. */
static int is_whole(const worker *w, int c) {
    return w->made[c] == MEANT && 0 < w->refused[c] && w->refused[c] < MEANT && w->differ[c] == 0;
}

static int report(int c) {
    const worker *first = &workers[0];
    unsigned long differ = 0;
    int is_right = tallies[c].compared == MEANT && tallies[c].differ == 0;

    for (int i = 0; i <= WORKERS; i++) {
        differ += workers[i].differ[c];
        is_right = is_right && is_whole(&workers[i], c);
    }
    printf("%s: %lu calls, %lu with an answer, %lu without, %lu differ; %d blocks again, %lu differ\n", calls[c].name,
           first->made[c], first->made[c] - first->refused[c], first->refused[c], tallies[c].differ, WORKERS * BLOCKS, differ);
    if (!is_right) printf("%s: not as it is meant, %lu calls, with and without an answer\n", calls[c].name, MEANT);
    return is_right;
}

static void run_all(void) {
    for (int i = 0; i <= WORKERS; i++) workers[i].number = i;
    run(&workers[0]);
    current = "a call of a worker";
    run_workers();
}

static int report_all(void) {
    unsigned long made = 0;
    int failed = 0;
    for (int c = 0; c < CALLS; c++) {
        failed += !report(c);
        made += tallies[c].compared;
    }
    printf("%lu calls compared, and made again by each of %d workers, %s\n", made, WORKERS, how);
    return failed == 0 ? 0 : 1;
}

int main(void) {
    plain_fill();
    stop_at_faults();
    for (int c = 0; c < CALLS; c++) tallies[c].name = calls[c].name;
    run_all();
    return report_all();
}
