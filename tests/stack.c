/* How many bytes of stack each call of the library takes, on a thread whose stack is painted before. Prints the most,
 * and ends with status 1 if that is above what krl.h promises. A thread's own start counts too, some 4,000 bytes. */
#define _GNU_SOURCE
#include "krl.h"
#include <pthread.h>
#include <stdio.h>
#include <string.h>
#include <sys/mman.h>

enum { PROMISED = 32000, STACK = 1 << 20, PAINT = 0xA5, ROWS = 100, ROUNDS = 8, BOUNDS = 63 };

static krl_handle server, client;
static krl_row rows[ROWS];
static uint64_t bounds[BOUNDS];
static krl_part parts[KRL_SHARDS];
static uint8_t bytes[1 << 20];
static const uint8_t *message;
static size_t length;

static void server_open(void) { krl_server_open(&server, KRL_DEFAULT_ROOM, KRL_DEFAULT_REACH, 0, rows, ROWS, NULL, 0); }
static void client_open(void) { krl_client_open(&client, 0, 1); }
static void server_step(void) { krl_server_step(&server, message, length); }
static void client_step(void) { krl_client_step(&client, message, length); }
static void client_lock(void) { krl_client_lock(&client, 0, KRL_TOP, KRL_RANGE_X_X); }
static void client_put(void) { krl_client_put(&client, 3, rows[3].bytes, 8); }
static void client_delete(void) { krl_client_delete(&client, 3); }
static void client_take_put(void) { krl_client_take_put(&client, 4, rows[4].bytes, 8); }
static void client_take_insert(void) { krl_client_take_insert(&client, ROWS, rows[4].bytes, 8); }
static void client_scan(void) { krl_client_scan(&client, 0, 8, rows, ROWS); }
static void reader_scan(void) {
    krl_reader reader = krl_reader_of(&client);
    krl_reader_scan(&reader, 0, 8, rows, ROWS);
}
static void reader_scan_leased(void) {
    const krl_lease lease = krl_lease_new();
    krl_reader reader = krl_reader_of(&client);
    krl_leased_scan scan = krl_reader_scan_leased(&reader, 0, 8, rows, ROWS);
    krl_leased_scan_answer(&scan, &lease, 0);
}
static void reader_status(void) {
    krl_reader reader = krl_reader_of(&client);
    krl_reader_status(&reader);
}
static void client_forget(void) { krl_client_forget(&client, 0, KRL_TOP); }
static void client_lower(void) { krl_client_lower(&client, 0, KRL_TOP, KRL_RANGE_S_S); }
static void client_tick(void) { krl_client_tick(&client); }
static void client_status(void) { krl_client_status(&client); }
static void server_nudge(void) { krl_server_nudge(&server, 0); }
static void server_held(void) { krl_server_held(&server, 0); }
static void server_next_held(void) { krl_server_next_held(&server, 0, 0); }
static void server_may_read(void) { krl_server_may_read(&server, 0, 0, 1); }
static void server_rows(void) { krl_server_rows(&server, 0, KRL_TOP, rows, ROWS); }
static krl_lease_table table;
static void lease_table_new(void) {
    const krl_terms terms = {1000, 25};
    table = krl_lease_table_new(&terms, 1000);
}
static void leases(void) {
    const krl_stored_lease stored = {1, 0, 0};
    const krl_sign sign = {.incarnation = 1};
    krl_lease lease = krl_lease_new();
    krl_lease_take_terms(&lease, 1, 1000, 1);
    krl_lease_table_store_has(&table, 0, &stored);
    krl_lease_table_committed(&table, krl_lease_table_commit(&table).detail);
    krl_lease_table_open(&table, 1);
    krl_lease_table_sign(&table, 0, &sign, 2);
    krl_lease_table_take_terms(&table, 0);
    krl_lease_table_admit(&table, 0, 2, 5000);
    krl_lease_table_register(&table, 0, 2, 5000);
    krl_lease_table_succeed(&table, 0, krl_lease_table_evict(&table, 0, KRL_FOR_EVER - 1).detail);
    krl_lease_table_leave(&table, 0);
    krl_lease_table_revise(&table, 9000);
    krl_lease_table_shows(&table, 0);
}
static void shard_of(void) { krl_shard_of(bounds, BOUNDS, KRL_END); }
static void all_parts(void) { krl_parts(bounds, BOUNDS, 0, KRL_TOP, parts, KRL_SHARDS); }
static void client_leave(void) { krl_client_leave(&client); }
static void client_close(void) { krl_close(&client); }
static void server_close(void) { krl_close(&server); }

static size_t most;

static void *run(void *call) {
    (*(void (**)(void))call)();
    return NULL;
}

/* Makes the call on a painted stack, and notes how much of the paint is gone. */
static void measure(void (*call)(void)) {
    uint8_t *stack = mmap(NULL, STACK, PROT_READ | PROT_WRITE, MAP_PRIVATE | MAP_ANONYMOUS, -1, 0);
    memset(stack, PAINT, STACK);
    pthread_attr_t attributes;
    pthread_t thread;
    pthread_attr_init(&attributes);
    pthread_attr_setstack(&attributes, stack, STACK);
    if (pthread_create(&thread, &attributes, run, &call) == 0) {
        pthread_join(thread, NULL);
    }
    size_t clean = 0;
    while (clean < STACK && stack[clean] == PAINT) {
        clean++;
    }
    munmap(stack, STACK);
    most = STACK - clean > most ? STACK - clean : most;
}

static krl_handle *asked;
static size_t taken;
static void confirm_all(void) { krl_confirm(asked, krl_confirm(asked, 0).detail); }
static void take_all(void) { taken = krl_take(asked, bytes, sizeof bytes).detail; }

/* Hands over all that the handle sends. Nothing here has a disk: what was reported counts as kept. */
static void carry(krl_handle *from, void (*step)(void)) {
    asked = from;
    measure(confirm_all);
    measure(take_all);
    for (size_t at = 0; at < taken; at += length) {
        uint64_t frame;
        memcpy(&frame, bytes + at, 8);
        at += 8;
        message = bytes + at;
        length = frame;
        measure(step);
    }
}

static void settle(void) {
    for (int round = 0; round < ROUNDS; round++) {
        carry(&client, server_step);
        carry(&server, client_step);
    }
}

int main(void) {
    for (uint64_t key = 0; key < ROWS; key++) {
        rows[key] = (krl_row){.key = key, .length = 8};
    }
    for (size_t i = 0; i < BOUNDS; i++) {
        bounds[i] = i + 1;
    }
    void (*const calls[])(void) = {server_open, client_open, client_lock, client_scan, client_put, client_delete,
                                   client_take_put, client_take_insert, client_tick, server_nudge, server_held,
                                   server_next_held, server_may_read, server_rows, client_status, reader_scan,
                                   reader_scan_leased, reader_status, lease_table_new, leases, shard_of, all_parts,
                                   client_lower, client_forget, client_leave, client_close, server_close};
    for (size_t i = 0; i < sizeof calls / sizeof calls[0]; i++) {
        measure(calls[i]);
        settle();
    }
    printf("%zu bytes of stack at most\n", most);
    return most > PROMISED;
}
