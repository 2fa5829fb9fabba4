/* krl-simulator: `krl script` and `krl random` over the proved library krl_simulator, whose assembly is in `rules`.
 * This part reads standard input and writes standard output and standard error; the library does the rest.
 *
 *     cc -std=c11 -I ../../crates/krl_simulator main.c rules/$(uname -m)-linux.s -o krl-simulator
 */
#define _POSIX_C_SOURCE 200809L
#include <errno.h>
#include <signal.h>
#include <stdio.h>
#include <stdlib.h>
#include <string.h>
#include <unistd.h>

#include "krl_simulator.h"

/* A script has at most 1 MiB, and the library refuses one that has a byte more. The output starts with 1 MiB of room
 * and has at most 1 GiB. Reports repeat words, so they have room for these and for the longest help. */
enum { MOST_TEXT = (1 << 20) + 1, FIRST_ROOM = 1 << 20, MOST_ROOM = 1 << 30, REPORTS = 1 << 16 };

typedef struct bytes {
    uint8_t *at;
    size_t length;
} bytes;

static uint8_t *room_of(uint8_t *old, size_t length) {
    uint8_t *room = realloc(old, length);
    if (!room) {
        fputs("krl: out of memory\n", stderr);
        exit(1);
    }
    return room;
}

/* The words of the command line, with a zero byte between each two. */
static bytes words_of(int count, char **words) {
    static const char name[] = "krl";
    bytes all = { room_of(NULL, sizeof name), sizeof name - 1 };
    memcpy(all.at, name, sizeof name);
    for (int i = 1; i < count; i++) {
        size_t length = strlen(words[i]) + 1;
        all.at = room_of(all.at, all.length + 1 + length);
        memcpy(all.at + all.length + 1, words[i], length);
        all.length += length;
    }
    return all;
}

/* Reads standard input to its end, or as far as the room goes. Returns 0 or the number of the error. */
static int read_all(bytes *text) {
    while (text->length < MOST_TEXT) {
        ssize_t count = read(STDIN_FILENO, text->at + text->length, MOST_TEXT - text->length);
        if (count == 0) return 0;
        if (count > 0) text->length += (size_t)count;
        else if (errno != EINTR) return errno;
    }
    return 0;
}

/* Whether all bytes were written. */
static bool write_all(int file, const uint8_t *at, size_t length) {
    while (length > 0) {
        ssize_t count = write(file, at, length);
        if (count == 0 || (count < 0 && errno != EINTR)) return false;
        if (count > 0) {
            at += count;
            length -= (size_t)count;
        }
    }
    return true;
}

/* What a run is made of. */
typedef struct request {
    bytes words, text;
    int failure;
} request;

static krl_ending run(const request *it, bytes output, bytes reports) {
    return krl_simulator_run(
        it->words.at, it->words.length, it->text.at, it->text.length, it->failure,
        output.at, output.length, reports.at, reports.length);
}

/* Runs it with as much room as its output takes. The same request gives the same output, so it may be made again. */
static krl_ending run_whole(const request *it, bytes *output, bytes reports) {
    krl_ending ended = run(it, *output, reports);
    while (ended.printed == output->length && output->length < MOST_ROOM) {
        output->length *= 2;
        output->at = room_of(output->at, output->length);
        ended = run(it, *output, reports);
    }
    return ended;
}

int main(int count, char **words) {
    request it = { .words = words_of(count, words), .text = { room_of(NULL, MOST_TEXT), 0 } };
    if (krl_simulator_reads(it.words.at, it.words.length)) it.failure = read_all(&it.text);
    bytes output = { room_of(NULL, FIRST_ROOM), FIRST_ROOM };
    bytes reports = { room_of(NULL, REPORTS + it.words.length), REPORTS + it.words.length };
    krl_ending ended = run_whole(&it, &output, reports);

    /* A closed pipe is an error like others. The library reports an error as it does an output without room. */
    signal(SIGPIPE, SIG_IGN);
    if (!write_all(STDOUT_FILENO, output.at, ended.printed)) {
        output.length = 0;
        ended = run(&it, output, reports);
    }
    write_all(STDERR_FILENO, reports.at, ended.reported);
    return ended.status;
}
