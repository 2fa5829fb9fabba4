/* A server and two clients in one process: messages go from one to the other in memory, and there is no disk.
 *
 * Client 0 reads a range and keeps it. Client 1 inserts into that range, which calls client 0 back. Client 0 reads the
 * range again and sees the new row. A second scan of it sends nothing.
 *
 * With the word --leases the server gives leases, and client 0 is cut off while it has the range. It answers from its
 * cache until its lease ends, and nothing from then on. A little later the server evicts it, and client 1 inserts. The
 * program counts the time by itself.
 *
 * This host pins nothing, no client changes what it has read, and only one client reads. So it needs neither writes
 * that are bound to a pin, nor to give something back before it asks for more: `docs/EMBEDDING.md` has these rules.
 *
 *     cc -std=c11 -I FOLDER_OF_krl.h two_clients.c libkrl.a -o two_clients
 */
#include <inttypes.h>
#include <stdio.h>
#include <stdlib.h>
#include <string.h>

#include "krl.h"

enum { CLIENTS = 2, ROOM = 1 << 16, ROWS = 16, PREFIX = 8, MAX_ROUNDS = 1000 };

/* What the host of the server reads and writes itself of messages: `docs/WIRE.md` has them. */
enum { VERSION = 1, KIND_AT = 1, HELLO = 0, BYE = 1, SHORTEST = 18 };

#define MILLISECOND UINT64_C(1000000)
enum { LEASE = 600, DRIFT = 25, STEP = 100 };

/* A client, and what its host keeps. */
typedef struct client {
    krl_handle handle;
    uint64_t incarnation;
    krl_lease lease;
    /* Nothing that it sends arrives, and nothing reaches it. */
    bool is_cut_off;
} client;

/* What a store keeps of a client's leases. */
typedef struct kept_lease {
    uint64_t longest;
    uint32_t is_unleased;
} kept_lease;

static const krl_terms no_leases = { .length = KRL_FOR_EVER, .drift = DRIFT };
static const krl_terms leases = { .length = LEASE * MILLISECOND, .drift = DRIFT };

static krl_handle server;
static krl_terms terms;
static krl_lease_table table;
static kept_lease kept_leases[CLIENTS];
static client clients[CLIENTS];
static unsigned long delivered;
static uint64_t elapsed;

/* Ends the program if a call did not do what it should. */
static void expect(const char *what, krl_reply reply)
{
    if (reply.code != KRL_DONE) {
        fprintf(stderr, "two_clients: %s: code %" PRIu32 ", detail %" PRIu64 "\n", what, reply.code, reply.detail);
        exit(1);
    }
}

/* Reads a number, the lowest byte first. */
static uint64_t number_at(const uint8_t *bytes)
{
    uint64_t number = 0;
    for (int i = 7; i >= 0; i--)
        number = number << 8 | bytes[i];
    return number;
}

/* What the clock of a client's machine shows, and that of the server's. No two show the same. */
static uint64_t client_clock(int number)
{
    return elapsed + 1000 * MILLISECOND * (uint64_t)(number + 1);
}

static uint64_t server_clock(void)
{
    return elapsed + 77 * MILLISECOND;
}

/* How many of the server's notes are on the disk. */
static uint64_t notes;

/* One more is: what rests on it may leave. */
static void confirm_note(void)
{
    expect("confirm", krl_confirm(&server, ++notes));
}

/* What a server has to keep would go to the disk here, before any message leaves: this of a client's lease, */
static void keep_lease(uint64_t number)
{
    krl_lease_shown shown = krl_lease_table_shows(&table, number);
    kept_lease *before = &kept_leases[number];
    if (before->longest == shown.longest && before->is_unleased == shown.is_unleased)
        return;
    *before = (kept_lease){ shown.longest, shown.is_unleased };
    printf("keep: client %" PRIu64 " may have leases of %" PRIu64 " ms%s\n", number, shown.longest / MILLISECOND,
           shown.is_unleased ? ", and one without end" : "");
}

/* and this of a step. What is kept of a lease comes before the registration that rests on it. */
static void keep(const krl_change *change)
{
    static const char *const names[] = { "nothing", "registered", "left", "judged" };
    if (change->kind == KRL_UNCHANGED)
        return;
    if (change->kind == KRL_LEFT)
        expect("leave", krl_lease_table_leave(&table, change->client));
    keep_lease(change->client);
    printf("keep: client %" PRIu64 " %s\n", change->client, names[change->kind]);
    confirm_note();
}

/* A commit of all that is to be kept: it is made at once. */
static void commit(void)
{
    krl_reply begun = krl_lease_table_commit(&table);
    expect("commit", begun);
    expect("committed", krl_lease_table_committed(&table, begun.detail));
}

/* What the server makes of a message, and has to keep. */
static krl_change step_server(const uint8_t *message, size_t length)
{
    krl_stepped stepped = krl_server_step(&server, message, length);
    expect("server_step", stepped.reply);
    return stepped.change;
}

/* Whether the server may have the message. A Hello that has to wait for the end of an older lease is dropped. */
static bool hears(const uint8_t *message)
{
    if (message[KIND_AT] != HELLO)
        return true;
    uint64_t number = number_at(message + KRL_CLIENT_AT), incarnation = number_at(message + KRL_INCARNATION_AT);
    return krl_lease_table_admit(&table, number, incarnation, server_clock()).code == KRL_DONE;
}

static void to_server(const uint8_t *message, size_t length)
{
    if (!hears(message))
        return;
    krl_change change = step_server(message, length);
    if (change.kind == KRL_REGISTERED)
        expect("register", krl_lease_table_register(&table, change.client, change.number, server_clock()));
    keep(&change);
}

static void to_client(const uint8_t *message, size_t length)
{
    client *to = &clients[number_at(message + KRL_CLIENT_AT)];
    if (!to->is_cut_off)
        expect("client_step", krl_client_step(&to->handle, message, length));
}

static void to_nobody(const uint8_t *message, size_t length)
{
    (void)message, (void)length;
}

/* Takes a client's sign, and answers it by terms after a commit. Returns whether there are some. */
static bool say_sign(int number)
{
    client *of = &clients[number];
    krl_sign sign = { .incarnation = of->incarnation, .stamp = client_clock(number), .length = of->lease.length };
    krl_reply heard = krl_lease_table_sign(&table, (uint64_t)number, &sign, server_clock());
    if (heard.code == KRL_GONE)
        return false;
    expect("sign", heard);
    commit();
    krl_grant grant = krl_lease_table_take_terms(&table, (uint64_t)number);
    expect("take_terms", grant.reply);
    if (grant.is_there)
        krl_lease_take_terms(&of->lease, grant.stamp, grant.length, client_clock(number));
    return grant.is_there;
}

static bool holds_lease(int number)
{
    return krl_lease_holds(&clients[number].lease, client_clock(number));
}

/* Evicts a client: the next incarnation sends Hello, and Bye. It is the host's own. */
static void evict(uint64_t number, uint64_t successor)
{
    uint64_t numbers[] = { number, successor };
    uint8_t message[SHORTEST] = { VERSION };
    for (int i = 0; i < 16; i++)
        message[KRL_CLIENT_AT + i] = (uint8_t)(numbers[i / 8] >> 8 * (i % 8));
    for (uint8_t kind = HELLO; kind <= BYE; kind++) {
        message[KIND_AT] = kind;
        krl_change change = step_server(message, sizeof message);
        if (change.kind == KRL_REGISTERED)
            expect("succeed", krl_lease_table_succeed(&table, number, successor));
        keep(&change);
    }
}

/* Evicts each client whose lease has ended. */
static void evict_silent(void)
{
    for (uint64_t number = 0; number < CLIENTS; number++) {
        krl_reply successor = krl_lease_table_evict(&table, number, server_clock());
        expect("evict", successor);
        if (successor.detail != 0)
            evict(number, successor.detail);
    }
}

/* Takes the messages of `from`, and hands each to `deliver`. Returns how many there were. */
static int hand_over(krl_handle *from, void (*deliver)(const uint8_t *, size_t))
{
    static uint8_t room[ROOM];
    krl_reply taken = krl_take(from, room, sizeof room);
    expect("take", taken);
    int count = 0;
    for (uint64_t at = 0; at < taken.detail; count++) {
        uint64_t length = number_at(room + at);
        deliver(room + at + PREFIX, length);
        at += PREFIX + length;
    }
    delivered += (unsigned long)count;
    return count;
}

/* Hands messages over until nobody has one to send. */
static void settle(void)
{
    for (int round = 0; round < MAX_ROUNDS; round++) {
        int count = 0;
        for (int number = 0; number < CLIENTS; number++) {
            bool arrives = !clients[number].is_cut_off && holds_lease(number);
            count += hand_over(&clients[number].handle, arrives ? to_server : to_nobody);
        }
        count += hand_over(&server, to_client);
        if (count == 0)
            return;
    }
    fprintf(stderr, "two_clients: they never stop talking\n");
    exit(1);
}

/* Starts a client. Its host sends a sign first, and no Hello before it has terms; the server may have spent the
 * incarnation, to evict the one before. */
static void join(int number)
{
    client *of = &clients[number];
    do {
        krl_close(&of->handle);
        of->incarnation++;
        of->lease = krl_lease_new();
        expect("client_open", krl_client_open(&of->handle, (uint64_t)number, of->incarnation));
        expect("confirm", krl_confirm(&of->handle, 1));
    } while (!say_sign(number));
}

/* A step of time. A client that is not cut off sends a sign and a tick, and the server evicts one that has been silent
 * for too long. */
static void pass_time(void)
{
    elapsed += STEP * MILLISECOND;
    for (int number = 0; number < CLIENTS; number++) {
        if (!clients[number].is_cut_off)
            say_sign(number);
        expect("tick", krl_client_tick(&clients[number].handle));
    }
    evict_silent();
    settle();
}

/* What a client's cache answers, if its lease holds. The clock is read after the rows. */
static krl_reply scan_cache(int number, uint64_t lo, uint64_t hi, krl_row *rows)
{
    client *of = &clients[number];
    krl_reader reader = krl_reader_of(&of->handle);
    krl_leased_scan found = krl_reader_scan_leased(&reader, lo, hi, rows, ROWS);
    return krl_leased_scan_answer(&found, &of->lease, client_clock(number));
}

/* Scans a client's cache, and locks what it lacks until the cache answers. */
static void scan(int number, uint64_t lo, uint64_t hi)
{
    krl_row rows[ROWS];
    unsigned long before = delivered;
    krl_reply reply = scan_cache(number, lo, hi, rows);
    for (int asked = 0; reply.code == KRL_MISS && asked < ROWS; asked++) {
        expect("lock", krl_client_lock(&clients[number].handle, reply.detail, hi, KRL_RANGE_S_S));
        settle();
        reply = scan_cache(number, lo, hi, rows);
    }
    if (reply.code == KRL_LEASE_ENDED) {
        printf("client %d answers nothing: its lease has ended\n", number);
        return;
    }
    expect("scan", reply);
    printf("client %d reads:", number);
    for (uint64_t i = 0; i < reply.detail; i++)
        printf(" %" PRIu64 "=%.*s", rows[i].key, (int)rows[i].length, (const char *)rows[i].bytes);
    printf(" (%s)\n", delivered == before ? "from its cache" : "after messages");
}

static krl_client_state status_of(int number)
{
    krl_client_state state = krl_client_status(&clients[number].handle);
    expect("status", state.reply);
    return state;
}

/* Asks for the gap in which a key would stand. */
static void ask_for_gap(int number, uint64_t key)
{
    expect("lock", krl_client_lock(&clients[number].handle, key, key + 1, KRL_RANGE_I_N));
    settle();
}

/* Inserts a row, if the client has the gap. */
static void insert(int number, uint64_t key, const char *value)
{
    if (status_of(number).lock == KRL_LOCK_WAITING) {
        printf("client %d waits for the gap at %" PRIu64 "\n", number, key);
        return;
    }
    const uint8_t *bytes = (const uint8_t *)value;
    expect("insert", krl_client_insert(&clients[number].handle, key, bytes, strlen(value)));
    settle();
    bool is_applied = status_of(number).outcome == KRL_APPLIED;
    printf("client %d inserts %" PRIu64 ": %s\n", number, key, is_applied ? "applied" : "refused");
}

static krl_row row(uint64_t key, const char *value)
{
    krl_row made = { .key = key, .length = strlen(value) };
    memcpy(made.bytes, value, made.length);
    return made;
}

/* The server is there, and client 1 calls client 0 back. */
static void call_back(void)
{
    scan(0, 0, 100);
    scan(0, 0, 100);
    ask_for_gap(1, 15);
    insert(1, 15, "fifteen");
    scan(0, 0, 100);
    scan(0, 0, 100);
    scan(1, 15, 16);
}

/* Client 0 can't be called back. */
static void cut_off(void)
{
    clients[0].is_cut_off = true;
    printf("client 0 is cut off\n");
    ask_for_gap(1, 17);
    for (int step = 1; step <= 8; step++) {
        pass_time();
        printf("%d ms\n", step * STEP);
        scan(0, 0, 100);
        insert(1, 17, "seventeen");
    }
    clients[0].is_cut_off = false;
    printf("client 0 joins again\n");
    join(0);
    settle();
    scan(0, 0, 100);
}

static void start(void)
{
    const krl_row entries[] = { row(10, "ten"), row(20, "twenty") };
    krl_reply opened = krl_server_open(&server, KRL_DEFAULT_ROOM, KRL_DEFAULT_REACH, 0, entries, 2, NULL, 0);
    expect("server_open", opened);
    table = krl_lease_table_new(&terms, 0);
    for (uint64_t number = 0; number < CLIENTS; number++) {
        /* If nothing was kept of leases, a client may have one without end. */
        kept_leases[number].is_unleased = 1;
        keep_lease(number);
    }
    printf("keep: epoch %" PRIu64 "\n", opened.detail);
    confirm_note();
    commit();
    expect("open", krl_lease_table_open(&table, server_clock()));
    for (int number = 0; number < CLIENTS; number++)
        join(number);
    settle();
}

static void stop(void)
{
    for (int number = 0; number < CLIENTS; number++)
        expect("leave", krl_client_leave(&clients[number].handle));
    settle();
    for (int number = 0; number < CLIENTS; number++)
        krl_close(&clients[number].handle);
    krl_close(&server);
}

int main(int count, char **words)
{
    bool is_leased = count == 2 && strcmp(words[1], "--leases") == 0;
    if (count != 1 && !is_leased) {
        fprintf(stderr, "two_clients: expected --leases, or no word\n");
        return 1;
    }
    terms = is_leased ? leases : no_leases;
    start();
    call_back();
    if (is_leased)
        cut_off();
    stop();
    return 0;
}
