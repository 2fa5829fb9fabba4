/* What grants of several slots cost, by the library only: a server and its clients in one process. Each message is
 * spelled and read, and handed over in memory.
 *
 *     grants reads REACH ROWS     a first scan of this many rows (lock, grant and acknowledgement, until the rows are
 *                                 there), and giving them back: nanoseconds of the processor, the least and the middle
 *                                 one of the rounds
 *     grants waiters REACH        the memory of a server with 64 clients, of which 63 wait for 200 slots of the first
 */
#define _POSIX_C_SOURCE 199309L
#include <inttypes.h>
#include <stdbool.h>
#include <stdio.h>
#include <stdlib.h>
#include <string.h>
#include <time.h>

#include "krl.h"

enum { ENTRIES = 10000, STEP = 10, MOST = 200, CALLS = 200, ROUNDS = 101, CLIENTS = 64, PREFIX = 8, CLIENT_AT = 2 };

static krl_handle server;
static krl_handle clients[CLIENTS];
static uint8_t letters[1 << 20];

static void expect(bool is_so, const char *what)
{
    if (!is_so) {
        fprintf(stderr, "grants: %s\n", what);
        exit(1);
    }
}

static uint64_t number_at(const uint8_t *bytes)
{
    uint64_t number = 0;
    for (int i = PREFIX - 1; i >= 0; i--)
        number = number << 8 | bytes[i];
    return number;
}

static void step(bool to_server, const uint8_t *message, uint64_t length)
{
    krl_reply reply = to_server ? krl_server_step(&server, message, length).reply
                                : krl_client_step(&clients[message[CLIENT_AT]], message, length);
    expect(reply.code == KRL_DONE, "a step is refused");
}

/* Hands over what is to be sent, and returns how many bytes that was. */
static uint64_t hand_over(krl_handle *from)
{
    krl_confirm(from, krl_confirm(from, 0).detail);
    krl_reply taken = krl_take(from, letters, sizeof letters);
    expect(taken.code == KRL_DONE, "krl_take is refused");
    for (uint64_t at = 0; at < taken.detail;) {
        uint64_t length = number_at(letters + at);
        step(from != &server, letters + at + PREFIX, length);
        at += PREFIX + length;
    }
    return taken.detail;
}

/* Hands messages over until there are no more. */
static void settle(int count)
{
    uint64_t moved;
    do {
        moved = hand_over(&server);
        for (int i = 0; i < count; i++)
            moved += hand_over(&clients[i]);
    } while (moved > 0);
}

static void open_all(uint64_t reach, int count)
{
    static krl_row entries[ENTRIES];
    for (uint64_t i = 0; i < ENTRIES; i++)
        entries[i] = (krl_row){ .key = STEP * (i + 1), .length = 8, .bytes = { (uint8_t)i } };
    krl_reply opened = krl_server_open(&server, KRL_DEFAULT_ROOM, reach, 0, entries, ENTRIES, NULL, 0);
    expect(opened.code == KRL_DONE, "the server is not opened: a reach is 1 to 128");
    for (int i = 0; i < count; i++)
        expect(krl_client_open(&clients[i], (uint64_t)i, 1).code == KRL_DONE, "a client is not opened");
    settle(count);
}

/* Locks what the client lacks of the range, and returns by how many requests. */
static uint64_t lock_all(krl_handle *client, int count, uint64_t lo, uint64_t hi, uint32_t mode)
{
    static krl_row rows[MOST];
    uint64_t requests = 0;
    krl_reply reply = krl_client_scan(client, lo, hi, rows, MOST);
    for (; reply.code == KRL_MISS; requests++) {
        expect(krl_client_lock(client, reply.detail, hi, mode).code == KRL_DONE, "a lock is refused");
        settle(count);
        reply = krl_client_scan(client, lo, hi, rows, MOST);
    }
    expect(reply.code == KRL_DONE, "a scan is refused");
    return requests;
}

static uint64_t nanos(void)
{
    struct timespec now;
    clock_gettime(CLOCK_PROCESS_CPUTIME_ID, &now);
    return (uint64_t)now.tv_sec * 1000000000 + (uint64_t)now.tv_nsec;
}

static int compare(const void *one, const void *other)
{
    uint64_t a = *(const uint64_t *)one, b = *(const uint64_t *)other;
    return (a > b) - (a < b);
}

static void reads(uint64_t reach, uint64_t rows)
{
    static uint64_t first[ROUNDS], back[ROUNDS];
    uint64_t requests = 0, turn = 0;
    expect(rows >= 1 && rows <= MOST, "a scan has 1 to 200 rows");
    open_all(reach, 1);
    for (int round = 0; round < ROUNDS; round++) {
        for (int call = 0; call < CALLS; call++, turn++) {
            uint64_t lo = STEP + STEP * (977 * turn % (ENTRIES - 2 * MOST));
            uint64_t begun = nanos();
            requests += lock_all(&clients[0], 1, lo, lo + STEP * rows, KRL_RANGE_S_S);
            uint64_t read = nanos();
            expect(krl_client_forget(&clients[0], 0, KRL_END).code == KRL_DONE, "a forget is refused");
            settle(1);
            first[round] += (read - begun) / CALLS;
            back[round] += (nanos() - read) / CALLS;
        }
    }
    qsort(first, ROUNDS, sizeof first[0], compare);
    qsort(back, ROUNDS, sizeof back[0], compare);
    printf("| %" PRIu64 " | %" PRIu64 " | %.0f ", reach, rows, (double)requests / (double)turn);
    printf("| %" PRIu64 " (%" PRIu64 ") | %" PRIu64 " (%" PRIu64 ") |\n", first[0], first[ROUNDS / 2], back[0],
           back[ROUNDS / 2]);
}

/* The memory of the process, in kilobytes. */
static long memory(void)
{
    long size = 0;
    char line[200];
    FILE *status = fopen("/proc/self/status", "r");
    expect(status != NULL, "there is no /proc/self/status");
    while (fgets(line, sizeof line, status) != NULL && sscanf(line, "VmRSS: %ld", &size) != 1) {
    }
    fclose(status);
    return size;
}

static void waiters(uint64_t reach)
{
    const uint64_t lo = STEP, hi = STEP * (MOST + 1);
    open_all(reach, CLIENTS);
    long joined = memory();
    lock_all(&clients[0], CLIENTS, lo, hi, KRL_RANGE_X_X);
    krl_reply pin = krl_client_pin(&clients[0], lo, hi);
    expect(pin.code == KRL_DONE, "a pin is refused");
    for (int i = 1; i < CLIENTS; i++)
        expect(krl_client_lock(&clients[i], lo, hi, KRL_RANGE_S_S).code == KRL_DONE, "a lock is refused");
    settle(CLIENTS);
    long waiting = memory();
    expect(krl_client_unpin(&clients[0], pin.detail).code == KRL_DONE, "an unpin is refused");
    expect(krl_client_forget(&clients[0], 0, KRL_END).code == KRL_DONE, "a forget is refused");
    settle(CLIENTS);
    printf("| %" PRIu64 " | %ld | %ld | %ld |\n", reach, joined, waiting, memory());
}

int main(int count, char **words)
{
    uint64_t reach = count > 2 ? strtoull(words[2], NULL, 10) : 0;
    if (count == 4 && strcmp(words[1], "reads") == 0)
        reads(reach, strtoull(words[3], NULL, 10));
    else if (count == 3 && strcmp(words[1], "waiters") == 0)
        waiters(reach);
    else
        expect(false, "usage: grants reads REACH ROWS, or grants waiters REACH");
    return 0;
}
