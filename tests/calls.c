/* Each operation of the table in docs/CALLS.md, "Which locks a call takes", as the table has it.
 *
 * `calls_table.h`, which tests/embed makes from the table, has a macro for each cell: what is called first, the code by
 * which it asks for a lock, that lock, and how it learns that there is no row. Another client holds the whole range
 * before each operation. An operation that asks MOST times makes no progress. The status is 0 if none does.
 */
#include "krl.h"
#include <stdio.h>
#include <stdlib.h>
#include <string.h>

enum { CLIENTS = 2, ROWS = 16, MOST = 8, ROUNDS = 8, HI = 100 };

static krl_handle server, clients[CLIENTS];
static krl_row rows[ROWS];

static void want(bool holds, const char *operation, uint64_t key, const char *what) {
    if (!holds) {
        fprintf(stderr, "calls: %s %d: %s\n", operation, (int)key, what);
        exit(1);
    }
}

/* Nothing here has a disk: what was reported counts as kept. */
static void hand_over(krl_handle *from) {
    static uint8_t bytes[1 << 16];
    krl_confirm(from, krl_confirm(from, 0).detail);
    krl_reply all = krl_take(from, bytes, sizeof bytes);
    want(all.code == KRL_DONE, "take", 0, "refused");
    for (uint64_t at = 0, length; at < all.detail; at += length) {
        memcpy(&length, bytes + at, 8);
        at += 8;
        if (from != &server)
            krl_server_step(&server, bytes + at, length);
        else
            krl_client_step(&clients[bytes[at + KRL_CLIENT_AT]], bytes + at, length);
    }
}

static void settle(void) {
    for (int round = 0; round < ROUNDS; round++) {
        for (int number = 0; number < CLIENTS; number++)
            hand_over(&clients[number]);
        hand_over(&server);
    }
}

static bool finds_none(krl_reply scanned) { return scanned.code == KRL_DONE && scanned.detail == 0; }

/* Reads from `lo` on, and returns how many rows there are. */
static uint64_t read_range(krl_handle *handle, uint64_t lo, uint64_t hi) {
    krl_reply reply;
    for (int asked = 0; (reply = READ_FIRST(handle, lo, hi, rows, ROWS)).code == READ_CODE; asked++) {
        uint64_t p = reply.detail;
        want(asked < MOST, "read", lo, "it asks for ever");
        want(READ_LOCK.code == KRL_DONE, "read", lo, "the lock is refused");
        settle();
    }
    want(reply.code == KRL_DONE, "read", lo, "refused");
    return reply.detail;
}

/* Writes, and returns whether there was a row to change. */
#define WRITES(name, OPERATION, FIRST)                                                                                 \
    static bool name(krl_handle *handle, uint64_t k) {                                                                 \
        read_range(&clients[1], 0, HI);                                                                                \
        krl_reply reply;                                                                                               \
        for (uint64_t asked = 0; (reply = FIRST).code == OPERATION##_CODE; asked++) {                                  \
            if (asked > 0 && OPERATION##_NO_ROW)                                                                       \
                return false;                                                                                          \
            want(asked < MOST, #name, k, "it asks for ever");                                                          \
            want(OPERATION##_LOCK.code == KRL_DONE, #name, k, "the lock is refused");                                  \
            settle();                                                                                                  \
        }                                                                                                              \
        want(reply.code == KRL_DONE, #name, k, "refused");                                                             \
        settle();                                                                                                      \
        want(krl_client_status(handle).outcome == KRL_APPLIED, #name, k, "not applied");                               \
        return true;                                                                                                   \
    }

WRITES(insert, INSERT, INSERT_FIRST(handle, k, (const uint8_t *)"new", 3))
WRITES(put, PUT, PUT_FIRST(handle, k, (const uint8_t *)"put", 3))
WRITES(erase, DELETE, DELETE_FIRST(handle, k))

int main(void) {
    static const uint64_t keys[] = {10, 11, 12, 30, 50};
    for (size_t i = 0; i < sizeof keys / sizeof *keys; i++)
        rows[i] = (krl_row){.key = keys[i]};
    want(krl_server_open(&server, KRL_DEFAULT_ROOM, KRL_DEFAULT_REACH, 0, rows, 5, NULL, 0).code == KRL_DONE, "open", 0,
         "refused");
    for (uint64_t number = 0; number < CLIENTS; number++)
        want(krl_client_open(&clients[number], number, 1).code == KRL_DONE, "open", number, "refused");
    settle();
    krl_handle *handle = &clients[0];
    want(insert(handle, 20), "insert", 20, "no row");
    want(put(handle, 20) && put(handle, 10), "put", 20, "no row");
    want(!put(handle, 25), "put", 25, "there is a row");
    /* Next to a key, before a gap, the last one, and none. */
    want(erase(handle, 10) && erase(handle, 12) && erase(handle, 20) && erase(handle, 50), "delete", 10, "no row");
    want(!erase(handle, 25) && !erase(handle, 10), "delete", 25, "there is a row");
    want(read_range(&clients[1], 0, HI) == 2, "read", 0, "not the rows that are left");
    return 0;
}
