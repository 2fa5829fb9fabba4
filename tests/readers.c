/* Many threads read one client at once.
 *
 * First the memory that the library took is read-only while the threads read: a call that wrote anything there would
 * end the program. Then the client changes under the exclusive side of a lock, and the threads read under its shared
 * side: each scan has to show the last change. The status is 0 if all is so.
 */
#define _GNU_SOURCE
#include "krl.h"
#include <pthread.h>
#include <stdio.h>
#include <stdlib.h>
#include <string.h>
#include <sys/mman.h>

enum { THREADS = 4, READS = 1000, CHANGES = 100, ROOM = 8, KEY = 15 };
static const size_t ARENA = (size_t)64 << 20;

static uint8_t *arena;
static size_t taken;
static krl_handle server, client;

static void want(bool holds, const char *what) {
    if (!holds) {
        fprintf(stderr, "readers: %s\n", what);
        exit(1);
    }
}

/* The library takes memory from the arena, and none is used twice. Each block has its size before it. */
void *__wrap_malloc(size_t size) {
    uint8_t *block = arena + taken;
    taken += 16 + (size + 15) / 16 * 16;
    want(taken <= ARENA, "the arena is too small");
    memcpy(block, &size, sizeof size);
    return block + 16;
}

void *__wrap_realloc(void *at, size_t size) {
    size_t old = 0;
    void *new = __wrap_malloc(size);
    if (at != NULL) {
        memcpy(&old, (uint8_t *)at - 16, sizeof old);
        memcpy(new, at, old < size ? old : size);
    }
    return new;
}

void __wrap_free(void *at) { (void)at; }

static void hand_over(krl_handle *from, krl_handle *to, bool to_server) {
    static uint8_t bytes[1 << 16];
    /* Nothing here has a disk: what was reported counts as kept. */
    krl_confirm(from, krl_confirm(from, 0).detail);
    krl_reply all = krl_take(from, bytes, sizeof bytes);
    want(all.code == KRL_DONE, "take");
    for (uint64_t at = 0, length; at < all.detail; at += length) {
        memcpy(&length, bytes + at, 8);
        at += 8;
        uint32_t code = to_server ? krl_server_step(to, bytes + at, length).reply.code
                                  : krl_client_step(to, bytes + at, length).code;
        want(code == KRL_DONE, "a step");
    }
}

static void talk(krl_handle *who) {
    for (int i = 0; i < 4; i++) {
        hand_over(who, &server, true);
        hand_over(&server, who, false);
        want(krl_client_tick(who).code == KRL_DONE, "a tick");
    }
}

static bool same_rows(const krl_row *a, const krl_row *b, uint64_t count) {
    for (uint64_t i = 0; i < count; i++) {
        if (a[i].key != b[i].key || a[i].length != b[i].length || memcmp(a[i].bytes, b[i].bytes, a[i].length) != 0) {
            return false;
        }
    }
    return true;
}

/* What the calls with the handle returned before the threads began. */
static krl_row rows[ROOM];
static krl_reply scanned, missed;
static krl_held held;
static krl_client_state state;

static void *read_what_stays(void *unused) {
    krl_reader reader = krl_reader_of(&client);
    for (int i = 0; i < READS; i++) {
        krl_row found[ROOM] = {{0}};
        krl_reply reply = krl_reader_scan(&reader, 0, 100, found, ROOM);
        want(reply.code == scanned.code && reply.detail == scanned.detail, "a scan");
        want(same_rows(found, rows, reply.detail), "the rows of a scan");
        want(krl_reader_scan(&reader, 0, 100, found, 1).code == KRL_TOO_SHORT, "a room that is too short");
        want(krl_reader_scan(&reader, 9, 9, found, ROOM).code == KRL_BAD_SPAN, "a span of no points");
        reply = krl_reader_scan(&reader, 0, 2000, found, ROOM);
        want(reply.code == missed.code && reply.detail == missed.detail, "a scan of what it does not know");
        krl_held here = krl_reader_held(&reader, KEY);
        want(here.reply.code == KRL_DONE && here.range == held.range && here.key == held.key, "what is held");
        krl_client_state now = krl_reader_status(&reader);
        want(now.reply.code == KRL_DONE && now.seen == state.seen && now.number == state.number, "the status");
    }
    return unused;
}

static pthread_rwlock_t lock = PTHREAD_RWLOCK_WRITER_NONRECURSIVE_INITIALIZER_NP;
static uint64_t version;
static bool ends;

static void *read_what_changes(void *unused) {
    const krl_lease lease = krl_lease_new();
    for (bool goes_on = true; goes_on;) {
        krl_row found[ROOM];
        uint64_t shown = 0;
        pthread_rwlock_rdlock(&lock);
        krl_reader reader = krl_reader_of(&client);
        krl_leased_scan scan = krl_reader_scan_leased(&reader, KEY, KEY + 1, found, ROOM);
        krl_reply reply = krl_leased_scan_answer(&scan, &lease, 0);
        want(reply.code == KRL_DONE && reply.detail == 1, "a scan of what changes");
        memcpy(&shown, found[0].bytes, sizeof shown);
        want(shown == version, "a scan shows no older value");
        goes_on = !ends;
        pthread_rwlock_unlock(&lock);
    }
    return unused;
}

static void start(pthread_t *threads, void *(*run)(void *)) {
    for (int i = 0; i < THREADS; i++) {
        want(pthread_create(&threads[i], NULL, run, NULL) == 0, "a thread");
    }
}

static void join(pthread_t *threads) {
    for (int i = 0; i < THREADS; i++) {
        pthread_join(threads[i], NULL);
    }
}

static void put(uint64_t value) {
    want(krl_client_put(&client, KEY, (const uint8_t *)&value, sizeof value).code == KRL_DONE, "a put");
    talk(&client);
    krl_client_state now = krl_client_status(&client);
    want(now.write == KRL_WRITE_JUDGED && now.outcome == KRL_APPLIED, "the put is applied");
    version = value;
}

static void open_all(void) {
    krl_row entries[] = {{10, 2, {1, 2}}, {KEY, 8, {0}}, {30, 1, {7}}};
    krl_reply opened = krl_server_open(&server, KRL_DEFAULT_ROOM, KRL_DEFAULT_REACH, 0, entries, 3, NULL, 0);
    want(opened.code == KRL_DONE, "the server");
    want(krl_client_open(&client, 3, 1).code == KRL_DONE, "the client");
    talk(&client);
    want(krl_client_lock(&client, 0, 100, KRL_RANGE_X_X).code == KRL_DONE, "the lock");
    talk(&client);
}

static void test_reading(pthread_t *threads) {
    scanned = krl_client_scan(&client, 0, 100, rows, ROOM);
    want(scanned.code == KRL_DONE && scanned.detail == 3, "what is scanned");
    krl_row none[ROOM];
    missed = krl_client_scan(&client, 0, 2000, none, ROOM);
    held = krl_client_held(&client, KEY);
    state = krl_client_status(&client);
    want(mprotect(arena, ARENA, PROT_READ) == 0, "memory that is read-only");
    start(threads, read_what_stays);
    join(threads);
    want(mprotect(arena, ARENA, PROT_READ | PROT_WRITE) == 0, "memory");
}

static void test_changing(pthread_t *threads) {
    start(threads, read_what_changes);
    for (uint64_t value = 1; value <= CHANGES; value++) {
        pthread_rwlock_wrlock(&lock);
        put(value);
        pthread_rwlock_unlock(&lock);
    }
    pthread_rwlock_wrlock(&lock);
    ends = true;
    pthread_rwlock_unlock(&lock);
    join(threads);
}

static uint32_t code_by(const krl_handle *handle) {
    krl_row found[ROOM];
    krl_reader reader = krl_reader_of(handle);
    uint32_t code = krl_reader_scan(&reader, 0, 100, found, ROOM).code;
    want(krl_reader_held(&reader, KEY).reply.code == code && krl_reader_status(&reader).reply.code == code, "one code");
    return code;
}

int main(void) {
    pthread_t threads[THREADS];
    arena = mmap(NULL, ARENA, PROT_READ | PROT_WRITE, MAP_PRIVATE | MAP_ANONYMOUS, -1, 0);
    want(arena != MAP_FAILED, "an arena");
    want(code_by(&client) == KRL_CLOSED, "a reader of a closed handle");
    open_all();
    want(code_by(&server) == KRL_NO_CLIENT, "a reader of a server");
    test_reading(threads);
    test_changing(threads);
    want(krl_client_leave(&client).code == KRL_DONE, "a Bye");
    want(code_by(&client) == KRL_GONE, "a reader of a client that has left");
    krl_close(&client);
    krl_close(&server);
    return 0;
}
