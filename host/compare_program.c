/* Runs the program month_sheet on many inputs, and compares what it prints with the sheet of the plain calendar [sheet-program].
 * Usage: compare_program PROGRAM. Prints how many were compared; fails if any output differs or not all were compared. */
#define _POSIX_C_SOURCE 200809L
#include "compare.h"
#include "plain_calendar.h"
#include "sheet_texts.h"

#include <errno.h>
#include <fcntl.h>
#include <signal.h>
#include <spawn.h>
#include <stdio.h>
#include <stdlib.h>
#include <string.h>
#include <sys/wait.h>
#include <time.h>
#include <unistd.h>

extern char **environ;

/* How many bytes are put beside a text to make an input too long, and which. */
enum { MEGABYTE = 1 << 20 };
static const size_t sizes[] = {1,   20,  21,  28,   47,   48,   49,   63,   64,   65,    127,   128,   129,
                               255, 256, 257, 1023, 1024, 1025, 4095, 4096, 4097, 65535, 65536, 65537, MEGABYTE};
static const uint8_t fills[] = {'\n', '0', 0};

/* Two texts of the form; the example without its last line feed, and with one too many. */
static const char *const samples[] = {example_text, longest_text, "market=4\nyear=2022\nmonth=12",
                                      "market=4\nyear=2022\nmonth=12\n\n"};
enum { FORMS_OF_SAMPLES = 2, BYTES_OF_SAMPLES = 28 + 48 + 27 + 29 };

/* Of the texts that tc_month_sheet is asked about, every 61st. */
enum { EVERY = 61 };
static tally inputs = {.name = "month_sheet",
                       .meant = MONTHS + (VALUE_TEXTS + DAMAGED_TEXTS + DRAWN_TEXTS + EVERY - 1) / EVERY +
                                4 * FORMS_OF_SAMPLES * LENGTH(sizes) * LENGTH(fills) + BYTES_OF_SAMPLES};

/* The program; the process that runs it now, or 0; the seconds in which all inputs have to be compared. */
static char *program;
static volatile pid_t running;
enum { SECONDS = 120 };

/* When the time for all inputs is up: the program, which may not end by itself, is stopped, and so is the comparison. */
static void stop(int number) {
    static const char message[] = "month_sheet: not all inputs were compared in time\n";
    (void)number;
    if (running > 0) kill(running, SIGKILL);
    _exit(write(STDERR_FILENO, message, sizeof message - 1) < 0 ? 2 : 1);
}

static void give_up(const char *what) {
    perror(what);
    exit(1);
}

/* A pipe, of which the program gets only the end that is its standard input or output. */
static void open_pipe(int *ends) {
    if (pipe(ends) != 0) give_up("pipe");
    for (int i = 0; i < 2; i++)
        if (fcntl(ends[i], F_SETFD, FD_CLOEXEC) != 0) give_up("pipe");
}

/* A file of these bytes, open at its start. */
static int open_file(const uint8_t *text, size_t length) {
    FILE *file = tmpfile();
    int copy;
    if (file == NULL || fwrite(text, 1, length, file) != length || fflush(file) != 0) give_up("file");
    copy = dup(fileno(file));
    fclose(file);
    if (copy < 0 || lseek(copy, 0, SEEK_SET) != 0 || fcntl(copy, F_SETFD, FD_CLOEXEC) != 0) give_up("file");
    return copy;
}

/* Starts the program on these and closes them here. SIGPIPE, which is ignored here, ends it as usual. */
static void start(int in, int out) {
    char *words[] = {program, NULL};
    posix_spawn_file_actions_t actions;
    posix_spawnattr_t attributes;
    sigset_t signals;
    pid_t id;

    sigemptyset(&signals);
    sigaddset(&signals, SIGPIPE);
    posix_spawnattr_init(&attributes);
    posix_spawnattr_setsigdefault(&attributes, &signals);
    posix_spawnattr_setflags(&attributes, POSIX_SPAWN_SETSIGDEF);
    posix_spawn_file_actions_init(&actions);
    posix_spawn_file_actions_adddup2(&actions, in, STDIN_FILENO);
    posix_spawn_file_actions_adddup2(&actions, out, STDOUT_FILENO);
    errno = posix_spawn(&id, program, &actions, &attributes, words, environ);
    if (errno != 0) give_up(program);
    posix_spawn_file_actions_destroy(&actions);
    posix_spawnattr_destroy(&attributes);
    running = id;
    close(in);
    close(out);
}

/* Writes up to step bytes at a time, with a pause of a millisecond before the next, and closes. Stops early if the program no
 * longer reads, as it need not read what is too long anyway. */
static void deliver(int out, const uint8_t *text, size_t length, size_t step) {
    const struct timespec pause = {0, 1000000};
    while (length > 0) {
        ssize_t written = write(out, text, length < step ? length : step);
        if (written <= 0) break;
        text += written;
        length -= (size_t)written;
        if (length > 0 && step < MEGABYTE) nanosleep(&pause, NULL);
    }
    close(out);
}

/* What a program has printed, up to a limit that no right output reaches, how many bytes, and how it ended: 0 by itself. */
enum { LIMIT = 256 };
typedef struct {
    char bytes[LIMIT];
    size_t length;
    int status;
} output;

static output read_output(int in) {
    output printed = {.length = 0};
    ssize_t count;
    while (printed.length < LIMIT && (count = read(in, printed.bytes + printed.length, LIMIT - printed.length)) > 0)
        printed.length += (size_t)count;
    close(in);
    if (waitpid(running, &printed.status, 0) != running) give_up("wait");
    running = 0;
    return printed;
}

static output plain_output(const uint8_t *text, size_t length) {
    output printed = {.status = 0};
    tc_count_result answer = plain_month_sheet(text, length, (uint8_t *)printed.bytes, LIMIT);
    if (answer.error != 0) answer.count = (uint32_t)sprintf(printed.bytes, "refused=%lu\n", (unsigned long)answer.error);
    printed.length = answer.count;
    return printed;
}

/* How many bytes, the first place at which two outputs differ, the byte there, and how the program ended. */
static numbers of_output(const output *printed, size_t place) {
    numbers list = {4, {(uint32_t)printed->length, (uint32_t)place, 0, (uint32_t)printed->status}};
    if (place < printed->length) list.values[2] = (uint8_t)printed->bytes[place];
    return list;
}

/* The input comes from a file if step is 0, else through a pipe, up to step bytes at a time. */
static void ask(const uint8_t *text, size_t length, size_t step) {
    numbers in = {2, {(uint32_t)length, (uint32_t)step}};
    output printed, expected = plain_output(text, length);
    int to[2], from[2];
    size_t place = 0;

    open_pipe(from);
    if (step == 0) {
        start(open_file(text, length), from[1]);
    } else {
        open_pipe(to);
        start(to[0], from[1]);
        deliver(to[1], text, length, step);
    }
    printed = read_output(from[0]);
    while (place < expected.length && place < printed.length && printed.bytes[place] == expected.bytes[place]) place++;
    if (compare(&inputs, in, of_output(&printed, place), of_output(&expected, place)))
        printf("  output: %.*s\n", (int)printed.length, printed.bytes);
}

/* Every third from a file, the others through a pipe. */
static void ask_quickly(const uint8_t *text, size_t length) { ask(text, length, inputs.compared % 3 == 0 ? 0 : MEGABYTE); }

static void ask_month(uint32_t market, uint32_t year, uint32_t month) {
    char text[64];
    ask_quickly((uint8_t *)text, text_of(text, 1, market, year, month));
}

static void ask_every_61st(const uint8_t *text, size_t size, size_t length) {
    static unsigned long number;
    (void)size;
    if (number++ % EVERY == 0) ask_quickly(text, length);
}

/* A text of the form with so many bytes after it, before it, in all, and between it and a second one. */
static void ask_too_long(const char *text, size_t size, uint8_t fill) {
    static uint8_t input[64 + MEGABYTE + 64];
    size_t own = strlen(text);
    memset(input, fill, sizeof input);
    memcpy(input, text, own);
    ask_quickly(input, own + size);
    ask_quickly(input, size);
    memcpy(input + own + size, text, own);
    ask_quickly(input, own + size + own);
    memset(input, fill, own);
    ask_quickly(input + own, size + own);
}

static void all_too_long(void) {
    for (int i = 0; i < FORMS_OF_SAMPLES; i++)
        for (size_t size = 0; size < LENGTH(sizes); size++)
            for (size_t fill = 0; fill < LENGTH(fills); fill++) ask_too_long(samples[i], sizes[size], fills[fill]);
}

/* In steps of every size, with a pause after each. */
static void all_paused(void) {
    for (size_t i = 0; i < LENGTH(samples); i++)
        for (size_t step = 1; step <= strlen(samples[i]); step++) ask((const uint8_t *)samples[i], strlen(samples[i]), step);
}

int main(int argc, char **argv) {
    if (argc != 2) {
        fprintf(stderr, "usage: compare_program PROGRAM\n");
        return 2;
    }
    program = argv[1];
    signal(SIGPIPE, SIG_IGN);
    signal(SIGALRM, stop);
    alarm(SECONDS);
    plain_fill();
    each_month(ask_month);
    value_texts(ask_every_61st);
    damaged_texts(ask_every_61st);
    drawn_texts(ask_every_61st);
    all_too_long();
    all_paused();
    return finish(&inputs, 1);
}
