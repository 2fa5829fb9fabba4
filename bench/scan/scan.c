/* What a scan of a client's own cache takes from C, only by the call of the library: a client holds a table of 10,000
 * rows with values of as many bytes as the first word is, and scans 100 of them at a time, at one place after another.
 * It prints the least and the middle one of 501 rounds, in nanoseconds of processor time for a scan, and those of a
 * scan of one row.
 */
#define _POSIX_C_SOURCE 199309L
#include <inttypes.h>
#include <stdio.h>
#include <stdlib.h>
#include <string.h>
#include <time.h>

#include "krl.h"

enum { ROWS = 10000, STEP = 10, SCAN = 100, RANGES = ROWS / SCAN - 1, CALLS = 1000, ROUNDS = 501, PREFIX = 8 };

static krl_handle server;
static krl_handle client;
static uint8_t letters[1 << 16];

/* Ends the program if something is not as it should be. */
static void expect(bool is_so, const char *what)
{
    if (!is_so) {
        fprintf(stderr, "scan: %s\n", what);
        exit(1);
    }
}

static uint64_t number_at(const uint8_t *bytes)
{
    uint64_t number = 0;
    for (int i = 7; i >= 0; i--)
        number = number << 8 | bytes[i];
    return number;
}

static krl_reply step(krl_handle *to, const uint8_t *message, uint64_t length)
{
    return to == &server ? krl_server_step(to, message, length).reply : krl_client_step(to, message, length);
}

/* Hands over all that `from` has to send, and returns how many bytes that was. */
static uint64_t hand_over(krl_handle *from, krl_handle *to)
{
    /* No disk is measured here: what was reported counts as kept. */
    krl_confirm(from, krl_confirm(from, 0).detail);
    krl_reply taken = krl_take(from, letters, sizeof letters);
    expect(taken.code == KRL_DONE, "take");
    for (uint64_t at = 0; at < taken.detail;) {
        uint64_t length = number_at(letters + at);
        expect(step(to, letters + at + PREFIX, length).code == KRL_DONE, "step");
        at += PREFIX + length;
    }
    return taken.detail;
}

static void settle(void)
{
    while (hand_over(&client, &server) + hand_over(&server, &client) > 0) {
    }
}

/* The client holds each row and each gap of the table. */
static void hold_all(void)
{
    static krl_row rows[ROWS];
    krl_reply reply = krl_client_scan(&client, 0, KRL_END, rows, ROWS);
    while (reply.code == KRL_MISS) {
        expect(krl_client_lock(&client, reply.detail, KRL_END, KRL_RANGE_S_S).code == KRL_DONE, "lock");
        settle();
        reply = krl_client_scan(&client, 0, KRL_END, rows, ROWS);
    }
    expect(reply.code == KRL_DONE && reply.detail == ROWS, "the whole table");
}

static void start(uint64_t length)
{
    static krl_row entries[ROWS];
    for (uint64_t i = 0; i < ROWS; i++) {
        entries[i] = (krl_row){ .key = STEP * (i + 1), .length = length };
        memset(entries[i].bytes, (int)(i % 255 + 1), length);
    }
    krl_reply opened = krl_server_open(&server, KRL_DEFAULT_ROOM, KRL_DEFAULT_REACH, 0, entries, ROWS, NULL, 0);
    expect(opened.code == KRL_DONE, "server_open");
    expect(krl_client_open(&client, 0, 1).code == KRL_DONE, "client_open");
    settle();
    hold_all();
}

static uint64_t nanos(void)
{
    struct timespec now;
    clock_gettime(CLOCK_PROCESS_CPUTIME_ID, &now);
    return (uint64_t)now.tv_sec * 1000000000 + (uint64_t)now.tv_nsec;
}

/* One scan of this many rows; the ranges of two scans, one after the other, are no neighbors. */
static void scan(uint64_t turn, uint64_t count)
{
    static krl_row rows[SCAN];
    uint64_t lo = STEP + STEP * SCAN * (7 * turn % RANGES);
    krl_reply reply = krl_client_scan(&client, lo, lo + STEP * count, rows, SCAN);
    bool is_right = reply.code == KRL_DONE && reply.detail == count && rows[count - 1].key == lo + STEP * (count - 1);
    expect(is_right, "a scan");
}

static int compare(const void *one, const void *other)
{
    uint64_t a = *(const uint64_t *)one, b = *(const uint64_t *)other;
    return (a > b) - (a < b);
}

static void measure(uint64_t count)
{
    static uint64_t rounds[ROUNDS];
    for (int round = 0; round < ROUNDS; round++) {
        uint64_t begun = nanos();
        for (uint64_t turn = 0; turn < CALLS; turn++)
            scan(turn, count);
        rounds[round] = nanos() - begun;
    }
    qsort(rounds, ROUNDS, sizeof rounds[0], compare);
    printf("%" PRIu64 " %" PRIu64 " %" PRIu64 "\n", count, rounds[0] / CALLS, rounds[ROUNDS / 2] / CALLS);
}

int main(int count, char **words)
{
    uint64_t length = count > 1 ? strtoull(words[1], NULL, 10) : 8;
    expect(length <= KRL_MAX_VALUE_BYTES, "a value has at most 32 bytes");
    start(length);
    measure(SCAN);
    measure(1);
    return 0;
}
