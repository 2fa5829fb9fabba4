/* Runs a server and a client through the exports of krl_embed in one process, and refuses each allocation in turn.
 *
 *     embed N      the Nth allocation is refused (none if N is 0)
 *
 * A call that is refused for want of memory is made again, and must then be done; what is lost is sent again by a tick.
 * In the end the client must have read and written what it has without a refusal. The status is 0 if it has, 1 if it
 * has not, and 2 if fewer than N allocations were made.
 * What the calls on leases answer is compared too: they take no memory.
 */
#include "krl.h"
#include <stdio.h>
#include <stdlib.h>
#include <string.h>

static long refused, seen;

void *__real_malloc(size_t size);
void *__real_realloc(void *at, size_t size);

static bool refuses(void) { return ++seen == refused; }
void *__wrap_malloc(size_t size) { return refuses() ? NULL : __real_malloc(size); }
void *__wrap_realloc(void *at, size_t size) { return refuses() ? NULL : __real_realloc(at, size); }

static void want(bool holds, const char *what) {
    if (!holds) {
        fprintf(stderr, "embed %ld: %s\n", refused, what);
        exit(1);
    }
}

/* A call that is refused for want of memory is made again. */
#define AGAIN(reply, call)                                                                                             \
    do {                                                                                                               \
        reply = call;                                                                                                  \
        if (reply.code == KRL_OUT_OF_MEMORY) reply = call;                                                             \
        want(reply.code == KRL_DONE || reply.code == KRL_UNSAID, #call);                                               \
    } while (0)

static int changes;

/* How many bytes may be taken; 0 also if some wait and none of them may leave. */
static uint64_t ready(krl_handle *handle) {
    krl_reply reply = krl_take(handle, NULL, 0);
    return reply.code == KRL_TOO_SHORT ? reply.detail : 0;
}

/* The server's notes, each of which is confirmed as soon as it was reported. */
static uint64_t notes;

/* One note was reported, and before that this many bytes could be taken: they still can, and no more than they. */
static void keep(krl_handle *server, uint64_t before) {
    krl_reply reply = krl_confirm(server, 0);
    want(reply.code == KRL_DONE && reply.detail == ++notes, "a note");
    want(ready(server) == before, "what does not rest on it");
    want(krl_confirm(server, notes - 1).code == KRL_DONE && ready(server) == before, "one too few");
    reply = krl_confirm(server, notes + 1);
    want(reply.code == KRL_NOT_TOLD && reply.detail == notes && ready(server) == before, "one too many");
    want(krl_confirm(server, notes).code == KRL_DONE && ready(server) >= before, "what is kept");
    want(krl_take(server, NULL, 0).code != KRL_UNKEPT, "all is kept");
}

static void hand_over(krl_handle *from, krl_handle *to, bool to_server) {
    static uint8_t bytes[65536];
    krl_reply taken = krl_take(from, bytes, sizeof bytes), reply;
    want(taken.code == KRL_DONE, "take");
    for (uint64_t at = 0, length; at < taken.detail; at += length) {
        memcpy(&length, bytes + at, 8);
        at += 8;
        if (to_server) {
            uint64_t before = ready(to);
            krl_stepped stepped = krl_server_step(to, bytes + at, length);
            if (stepped.reply.code == KRL_OUT_OF_MEMORY) {
                want(stepped.change.kind == KRL_UNCHANGED, "a refused step has changed something");
                stepped = krl_server_step(to, bytes + at, length);
            }
            want(stepped.reply.code == KRL_DONE || stepped.reply.code == KRL_UNSAID, "step of the server");
            changes += stepped.change.kind != KRL_UNCHANGED;
            if (stepped.change.kind != KRL_UNCHANGED) keep(to, before);
        } else {
            AGAIN(reply, krl_client_step(to, bytes + at, length));
        }
    }
}

static void talk(krl_handle *client, krl_handle *server) {
    krl_reply reply;
    for (int i = 0; i < 4; i++) {
        hand_over(client, server, true);
        hand_over(server, client, false);
        AGAIN(reply, krl_client_tick(client));
    }
}

/* A client's first message goes to the server, which reports that the client has registered. Answers whether it
 * reported something: it reports nothing if memory is refused for that. */
static bool registers(krl_handle *server, uint64_t number) {
    krl_handle client = {0};
    uint8_t bytes[256];
    uint64_t length;
    krl_reply reply;
    AGAIN(reply, krl_client_open(&client, number, 1));
    want(krl_confirm(&client, 1).code == KRL_DONE, "its incarnation");
    want(krl_take(&client, bytes, sizeof bytes).code == KRL_DONE, "its Hello");
    memcpy(&length, bytes, 8);
    krl_stepped stepped = krl_server_step(server, bytes + 8, length);
    if (stepped.reply.code == KRL_OUT_OF_MEMORY) stepped = krl_server_step(server, bytes + 8, length);
    want(stepped.change.kind == KRL_REGISTERED, "that it registers");
    krl_close(&client);
    return stepped.reply.code == KRL_DONE;
}

/* Takes what may leave, and returns how many bytes that was. Nothing may leave afterwards; nothing waits, if `all`. */
static uint64_t take_some(krl_handle *server, bool all) {
    static uint8_t bytes[4096];
    uint64_t length = ready(server);
    if (length > 0) {
        krl_reply reply = krl_take(server, bytes, sizeof bytes);
        want(reply.code == KRL_DONE && reply.detail == length, "what may leave");
    }
    krl_reply reply = krl_take(server, bytes, sizeof bytes);
    want(reply.code == (all ? KRL_DONE : KRL_UNKEPT) && (!all || reply.detail == 0), "what has to wait");
    return length;
}

/* A host that judges on while it commits: each message leaves as soon as the notes are confirmed that it rests on. */
static void take_as_it_is_kept(void) {
    krl_handle server = {0};
    krl_reply reply;
    AGAIN(reply, krl_server_open(&server, KRL_DEFAULT_ROOM, KRL_DEFAULT_REACH, 0, NULL, 0, NULL, 0));
    want(take_some(&server, true) == 0 && krl_confirm(&server, 1).code == KRL_DONE, "the start");
    bool first = registers(&server, 0), second = registers(&server, 1), third = registers(&server, 2);
    want(take_some(&server, !first && !second && !third) == 0, "nothing is kept");
    want(krl_confirm(&server, 2).code == KRL_DONE, "the first note");
    want((take_some(&server, !second && !third) > 0) == first, "the first message");
    bool fourth = registers(&server, 3);
    want(take_some(&server, !second && !third && !fourth) == 0, "no more is kept");
    want(krl_confirm(&server, 4).code == KRL_DONE, "two more notes");
    want((take_some(&server, !fourth) > 0) == (second || third), "two more messages");
    want(krl_confirm(&server, 6).code == KRL_NOT_TOLD && krl_confirm(&server, 5).code == KRL_DONE, "the last note");
    want((take_some(&server, true) > 0) == fourth, "the last message");
    krl_close(&server);
}

/* Client 3, which holds nothing, puts a value to the entry 20 and takes the lock for that. */
static void put_with_its_lock(krl_handle *client, krl_handle *server) {
    static const uint8_t bytes[KRL_MAX_VALUE_BYTES + 1];
    krl_reply reply;
    want(krl_client_take_put(client, 20, bytes, sizeof bytes).code == KRL_BAD_VALUE, "a value that is too long");
    want(krl_client_take_insert(client, KRL_END, bytes, 1).code == KRL_BAD_POINT, "a key that is none");
    want(krl_client_put(client, 20, bytes, 1).code == KRL_NOT_HELD, "a put without its lock");
    AGAIN(reply, krl_client_take_put(client, 20, bytes, 1));
    want(krl_client_take_insert(client, 25, bytes, 1).code == KRL_WRITING, "a second write");
    talk(client, server);
    krl_client_state state = krl_client_status(client);
    want(state.write == KRL_WRITE_JUDGED && state.outcome == KRL_APPLIED && state.number == 1, "the put");
    want(krl_client_held(client, 20).key == KRL_KEY_PART_X, "the lock that it took");
}

/* Client 3 holds the entries 10, 15, 20 and 30 and END, with the gaps below them. This one asks for a part of that, and
 * waits. */
static void keep_waiting(krl_handle *other, krl_handle *server) {
    uint64_t clients[KRL_CLIENTS];
    krl_reply reply;
    AGAIN(reply, krl_client_open(other, 4, 1));
    want(krl_confirm(other, 1).code == KRL_DONE, "the other incarnation");
    talk(other, server);
    AGAIN(reply, krl_client_lock(other, 12, 13, KRL_RANGE_S_S));
    talk(other, server);
    krl_waiting waiting = krl_server_waiter(server, 4);
    want(waiting.reply.code == KRL_DONE && waiting.waits == 1 && waiting.request == 1, "that it waits");
    want(waiting.point == 12 && waiting.hi == 13 && waiting.mode == KRL_RANGE_S_S, "for what it waits");
    want(krl_server_waiter(server, 3).waits == 0, "a client that does not wait");
    reply = krl_server_waited_for(server, 4, clients, KRL_CLIENTS);
    want(reply.code == KRL_DONE && reply.detail == 1 && clients[0] == 3, "whom it waits for");
    reply = krl_server_waited_for(server, 4, clients, 0);
    want(reply.code == KRL_TOO_SHORT && reply.detail == 1, "a room for nobody");
    want(krl_server_held(server, 3).detail == 5 && krl_server_held(server, 4).detail == 0, "what is held");
    want(krl_server_held(server, 64).code == KRL_BAD_CLIENT, "a number that is no client's");
}

/* The entries are 10, 15, 20 and 30. */
static void read_rows(krl_handle *client, krl_handle *server) {
    krl_row rows[4] = {{0}};
    krl_handle closed = {0};
    krl_page page = krl_server_rows(server, 11, 30, rows, 4);
    want(page.reply.code == KRL_DONE && page.reply.detail == 2 && page.next == 30, "the rows of a range");
    want(rows[0].key == 15 && rows[1].key == 20 && rows[2].key == 0, "which rows they are");
    want(krl_confirm(server, page.after).code == KRL_DONE, "the notes on which they rest");
    want(krl_confirm(server, page.after + 1).code == KRL_NOT_TOLD, "they are all that were reported");
    page = krl_server_rows(server, 0, KRL_TOP, rows, 3);
    want(page.reply.detail == 3 && page.next == 30 && rows[2].key == 20, "as many as there is room for");
    page = krl_server_rows(server, 0, 9, rows, 0);
    want(page.reply.code == KRL_DONE && page.reply.detail == 0 && page.next == 9, "a range without rows");
    want(krl_server_rows(client, 0, 9, rows, 4).reply.code == KRL_NO_SERVER, "the rows of a client");
    page = krl_server_rows(&closed, 0, 9, rows, 4);
    want(page.reply.code == KRL_CLOSED && page.next == 0 && page.after == 0, "the rows of nobody");
}

/* Client 3 holds RangeX-X from 11 to 15. It gives back a part of that at 15, and nothing of any other point. */
static void give_back_a_part(krl_handle *client) {
    krl_reply reply;
    want(krl_client_lower(client, 15, 16, KRL_RANGE_X_X + 1).code == KRL_BAD_MODE, "it is not a mode");
    want(krl_client_lower(client, 16, 16, KRL_N).code == KRL_BAD_SPAN, "a span of no point");
    AGAIN(reply, krl_client_lower(client, 15, 16, KRL_RANGE_S_S));
    krl_held held = krl_client_held(client, 15), next = krl_client_held(client, 16);
    want(held.range == KRL_RANGE_PART_S && held.key == KRL_KEY_PART_S, "the part that it keeps");
    want(krl_client_held(client, 14).range == KRL_RANGE_PART_X && next.range == KRL_RANGE_PART_X, "all else");
}

/* A client's lease of 1,000, and of 2,000 later. */
static void lease_runs_from_the_sign(void) {
    krl_lease lease = krl_lease_new();
    want(lease.end == KRL_FOR_EVER && lease.length == 0 && lease.stamp == 0, "a lease without terms");
    krl_lease_take_terms(&lease, 100, 1000, 900);
    want(lease.end == 1100 && lease.length == 1000 && lease.stamp == 100, "terms that were on their way for long");
    want(krl_lease_holds(&lease, 1099) && !krl_lease_holds(&lease, 1100), "the end of a lease");
    krl_lease_take_terms(&lease, 100, 2000, 900);
    want(lease.end == 1100, "terms that answer no later sign");
    krl_lease_take_terms(&lease, 1000, 2000, 1100);
    want(lease.end == 1100, "terms that come too late");
    krl_lease_take_terms(&lease, 1000, 2000, 1099);
    want(lease.end == 3000 && lease.length == 2000 && lease.stamp == 1000, "terms that renew");
}

/* The client knows the rows 10, 15 and 20 of this range. The lease ends at 1,100. */
static void scan_by_a_lease(const krl_handle *client) {
    krl_row rows[4] = {{0}};
    krl_lease lease = krl_lease_new();
    krl_lease_take_terms(&lease, 100, 1000, 900);
    krl_reader reader = krl_reader_of(client), closed = {0};
    krl_leased_scan none = {0};
    want(krl_leased_scan_answer(&none, &lease, 0).code == KRL_CLOSED, "no scan");
    krl_leased_scan scan = krl_reader_scan_leased(&reader, 0, 21, rows, 4);
    krl_reply reply = krl_leased_scan_answer(&scan, &lease, 1099);
    want(reply.code == KRL_DONE && reply.detail == 3 && rows[2].key == 20, "a scan by a lease that holds");
    want(krl_leased_scan_answer(&scan, &lease, 1099).code == KRL_CLOSED, "a scan that was answered");
    scan = krl_reader_scan_leased(&reader, 0, 21, rows, 4);
    reply = krl_leased_scan_answer(&scan, &lease, 1100);
    want(reply.code == KRL_LEASE_ENDED && reply.detail == 0, "a scan by a lease that has ended");
    const krl_lease next = krl_lease_new();
    want(krl_leased_scan_answer(&scan, &next, 1099).code == KRL_CLOSED, "a later lease");
    scan = krl_reader_scan_leased(&reader, 0, 21, rows, 2);
    reply = krl_leased_scan_answer(&scan, &lease, 1099);
    want(reply.code == KRL_TOO_SHORT && reply.detail == 3, "a room that is too short, by a lease");
    scan = krl_reader_scan_leased(&reader, 9, 9, rows, 4);
    want(krl_leased_scan_answer(&scan, &lease, 1099).code == KRL_BAD_SPAN, "a span of no points, by a lease");
    scan = krl_reader_scan_leased(&closed, 0, 21, rows, 4);
    want(krl_leased_scan_answer(&scan, &lease, 1099).code == KRL_CLOSED, "a closed reader, by a lease");
}

static const krl_terms terms = {1000, 25};

/* A table over a store in which the longest lease is 3,000. Incarnation 7 of clients 5 and 6 is registered, and 6 may
 * have a lease without end; that of client 4 has left. */
static krl_lease_table table_of(const krl_terms *granted) {
    const krl_stored_lease stored[] = {{7, 1, 0}, {7, 0, 0}, {7, 0, 2}};
    krl_lease_table table = krl_lease_table_new(granted, 3000);
    for (uint64_t i = 0; i < 3; i++)
        want(krl_lease_table_store_has(&table, 4 + i, &stored[i]).code == KRL_DONE, "what is stored");
    return table;
}

/* Makes a commit. */
static void commit(krl_lease_table *table) {
    krl_reply begun = krl_lease_table_commit(table);
    want(begun.code == KRL_DONE && krl_lease_table_committed(table, begun.detail).code == KRL_DONE, "a commit");
}

/* That of a server which begins at 7,000. */
static krl_lease_table begun_table(void) {
    krl_lease_table table = table_of(&terms);
    commit(&table);
    want(krl_lease_table_open(&table, 7000).code == KRL_DONE, "a server that begins");
    return table;
}

static uint32_t sign(krl_lease_table *table, uint64_t client, krl_sign sent, uint64_t now) {
    return krl_lease_table_sign(table, client, &sent, now).code;
}

static void begins_after_its_first_commit(void) {
    const krl_stored_lease stored = {7, 0, 0};
    krl_lease_table table = table_of(&terms);
    want(krl_lease_table_open(&table, 7000).code == KRL_CLOSED, "no commit has begun");
    want(krl_lease_table_leave(&table, 64).code == KRL_CLOSED, "a call before the server begins");
    want(krl_lease_table_committed(&table, 1).code == KRL_NOT_TOLD, "a commit that has not begun");
    krl_reply first = krl_lease_table_commit(&table);
    want(first.code == KRL_DONE && first.detail == 1, "the first commit");
    want(krl_lease_table_store_has(&table, 5, &stored).code == KRL_OPEN_ALREADY, "too late to be stored");
    want(krl_lease_table_open(&table, 7000).code == KRL_CLOSED, "no commit is made");
    want(krl_lease_table_committed(&table, 1).code == KRL_DONE, "it is made");
    want(krl_lease_table_open(&table, 7000).code == KRL_DONE, "the start");
    want(krl_lease_table_open(&table, 7000).code == KRL_OPEN_ALREADY, "a second start");
    want(krl_lease_table_leave(&table, 64).code == KRL_BAD_CLIENT, "no client");
    krl_lease_shown nobody = krl_lease_table_shows(&table, 64);
    want(nobody.reply.code == KRL_BAD_CLIENT && nobody.longest == 0, "nobody's lease");
}

static void evicts_after_the_lease(void) {
    krl_lease_table table = begun_table();
    want(krl_lease_table_evict(&table, 5, 10749).detail == 0, "before its end");
    want(krl_lease_table_evict(&table, 5, 10750).detail == 8, "at its end");
    want(krl_lease_table_evict(&table, 5, 0).detail == 8, "until it has left");
    want(sign(&table, 5, (krl_sign){.incarnation = 7}, 10750) == KRL_GONE, "a sign of one that is evicted");
    want(krl_lease_table_register(&table, 5, 7, 10750).code == KRL_BAD_INCARNATION, "the same again");
    want(krl_lease_table_succeed(&table, 5, 8).code == KRL_DONE, "the host's own incarnation");
    want(!krl_lease_table_shows(&table, 5).is_present && !krl_lease_table_shows(&table, 5).is_unleased, "nobody's");
    want(krl_lease_table_leave(&table, 5).code == KRL_DONE, "the Bye");
    want(krl_lease_table_evict(&table, 5, KRL_FOR_EVER).detail == 0, "one that has left");
    want(krl_lease_table_evict(&table, 6, KRL_FOR_EVER).detail == 0, "one that may answer for ever");
    want(sign(&table, 6, (krl_sign){.incarnation = 7, .length = 2000}, 7100) == KRL_DONE, "its sign");
    want(krl_lease_table_shows(&table, 6).end == 9600, "and no more");
}

static void grants_after_a_commit(void) {
    krl_lease_table table = begun_table();
    krl_reply earlier = krl_lease_table_commit(&table);
    want(sign(&table, 9, (krl_sign){.incarnation = 1, .stamp = 42}, 7100) == KRL_DONE, "a sign");
    want(krl_lease_table_committed(&table, earlier.detail).code == KRL_DONE, "a commit from before it");
    want(!krl_lease_table_take_terms(&table, 9).is_there, "too early");
    commit(&table);
    krl_grant grant = krl_lease_table_take_terms(&table, 9);
    want(grant.is_there && grant.incarnation == 1 && grant.stamp == 42 && grant.length == 1000, "the terms");
    want(!krl_lease_table_take_terms(&table, 9).is_there, "they are there once");
    want(krl_lease_table_take_terms(&table, 64).reply.code == KRL_BAD_CLIENT, "nobody's terms");
}

/* Whether incarnation 8 of this client may send Hello, whose host knows this. */
static bool admits(uint64_t client, uint64_t over, uint32_t is_vouched, uint64_t now) {
    krl_lease_table table = begun_table();
    sign(&table, client, (krl_sign){.incarnation = 8, .over = over, .is_vouched = is_vouched}, 7000);
    uint32_t code = krl_lease_table_admit(&table, client, 8, now).code;
    want(code == KRL_DONE || code == KRL_STILL_ANSWERS, "a Hello");
    want((krl_lease_table_register(&table, client, 8, now).code == KRL_DONE) == (code == KRL_DONE), "its registration");
    return code == KRL_DONE;
}

static void hears_a_greater_incarnation(void) {
    want(admits(4, 0, 0, 7000), "the one before has left");
    want(!admits(5, 0, 0, 10749) && !admits(5, 0, 2, 10749) && admits(5, 0, 0, 10750), "the end of its lease");
    want(admits(5, 7, 0, 7000) && !admits(5, 6, 0, 7000), "who has the lock file of the registered one");
    want(!admits(6, 0, 0, KRL_FOR_EVER) && admits(6, 0, 2, 7000), "an operator's word");
}

/* What servers keep that run one after another. */
static void outlives_a_server(void) {
    const krl_terms endless = {KRL_FOR_EVER, 25};
    krl_lease_table table = begun_table(), other = table_of(&endless);
    want(krl_lease_table_shows(&table, 5).end == 10750, "a client of an older server");
    want(!krl_lease_table_shows(&table, 5).is_unleased && krl_lease_table_shows(&table, 6).is_unleased == 1, "stored");
    want(krl_lease_table_shows(&table, 9).is_unleased == 1, "a client of which nothing is stored");
    want(krl_lease_table_shows(&other, 5).is_unleased == 1, "a start without leases");
    want(krl_lease_table_revise(&table, 10749).code == KRL_DONE, "while older leases run");
    want(krl_lease_table_shows(&table, 5).longest == 3000, "they may run for so long");
    want(krl_lease_table_revise(&table, 10750).code == KRL_DONE, "once they have ended");
    want(krl_lease_table_shows(&table, 5).longest == 1000, "this server's run for so long");
}

static void give_leases(void) {
    lease_runs_from_the_sign();
    begins_after_its_first_commit();
    evicts_after_the_lease();
    grants_after_a_commit();
    hears_a_greater_incarnation();
    outlives_a_server();
}

/* Shards need no handle. These begin at 0, 10 and 20. */
static void versions(void) {
    want(krl_version() == KRL_VERSION, "the version of the header");
}

static void cut(void) {
    const uint64_t bounds[] = {10, 20}, falling[] = {20, 10}, first[] = {0};
    krl_part parts[3];
    want(krl_shard_of(bounds, 2, 9).detail == 0 && krl_shard_of(bounds, 2, 10).detail == 1, "the shard of a bound");
    want(krl_shard_of(bounds, 2, KRL_END).detail == 2 && krl_shard_of(NULL, 0, 7).detail == 0, "the last shard");
    want(krl_shard_of(falling, 2, KRL_TOP).code == KRL_BAD_SHARDS, "bounds that fall");
    want(krl_shard_of(first, 1, 7).code == KRL_BAD_SHARDS, "a bound of 0");
    want(krl_shard_of(bounds, 2, KRL_TOP).code == KRL_BAD_POINT, "a point of no shard");
    krl_reply reply = krl_parts(bounds, 2, 5, 25, parts, 3);
    want(reply.code == KRL_DONE && reply.detail == 3, "the parts");
    want(parts[0].shard == 0 && parts[0].lo == 5 && parts[0].hi == 10, "the first part");
    want(parts[2].shard == 2 && parts[2].lo == 20 && parts[2].hi == 25, "the last part");
    reply = krl_parts(bounds, 2, 19, 21, parts, 1);
    want(reply.code == KRL_TOO_SHORT && reply.detail == 2 && parts[0].lo == 5, "a room for one part");
    want(krl_parts(bounds, 2, 5, 5, parts, 3).code == KRL_BAD_SPAN, "parts of no span");
}

/* No server has room for nothing or a reach of nothing, or more than the most of either. One with room for two entries
 * takes no third. */
static void refuse_limits(void) {
    const krl_row entries[] = {{10, 0, {0}}, {20, 0, {0}}, {30, 0, {0}}};
    krl_handle server = {0};
    krl_reply reply;
    want(krl_server_open(&server, 0, KRL_DEFAULT_REACH, 0, NULL, 0, NULL, 0).code == KRL_BAD_ROOM, "room for no entry");
    reply = krl_server_open(&server, KRL_MAX_ROOM + 1, KRL_DEFAULT_REACH, 0, NULL, 0, NULL, 0);
    want(reply.code == KRL_BAD_ROOM, "too great a room");
    want(seen == 0 && !server.is_open, "a room that is refused");
    want(krl_server_open(&server, 2, 0, 0, NULL, 0, NULL, 0).code == KRL_BAD_REACH, "grants of no slot");
    want(krl_server_open(&server, 2, KRL_MAX_REACH + 1, 0, NULL, 0, NULL, 0).code == KRL_BAD_REACH, "too far");
    want(seen == 0 && !server.is_open, "a reach that is refused");
    reply = krl_server_open(&server, 2, KRL_DEFAULT_REACH, 0, entries, 3, NULL, 0);
    if (reply.code == KRL_OUT_OF_MEMORY)
        reply = krl_server_open(&server, 2, KRL_DEFAULT_REACH, 0, entries, 3, NULL, 0);
    want(reply.code == KRL_FULL && !server.is_open, "more entries than room");
}

int main(int count, char **words) {
    krl_handle server = {0}, client = {0}, other = {0};
    krl_row entries[] = {{10, 2, {1, 2}}, {20, 0, {0}}, {30, 1, {7}}}, rows[4];
    krl_reply reply;
    refused = count > 1 ? atol(words[1]) : 0;
    give_leases();
    want(seen == 0, "leases take memory");
    cut();
    versions();
    refuse_limits();
    take_as_it_is_kept();
    AGAIN(reply, krl_server_open(&server, KRL_DEFAULT_ROOM, KRL_DEFAULT_REACH, 0, entries, 3, NULL, 0));
    want(reply.detail == 1, "the epoch");
    keep(&server, 0);
    AGAIN(reply, krl_client_open(&client, 3, 1));
    want(krl_take(&client, NULL, 0).code == KRL_UNKEPT, "a Hello before its incarnation");
    want(krl_confirm(&client, 2).code == KRL_NOT_TOLD && krl_confirm(&client, 1).code == KRL_DONE, "the incarnation");
    talk(&client, &server);
    put_with_its_lock(&client, &server);
    AGAIN(reply, krl_client_lock(&client, 0, 100, KRL_RANGE_X_X));
    talk(&client, &server);
    AGAIN(reply, krl_client_insert(&client, 15, (const uint8_t *)"abc", 3));
    talk(&client, &server);
    krl_client_state state = krl_client_status(&client);
    want(state.write == KRL_WRITE_JUDGED && state.outcome == KRL_APPLIED && state.number == 2, "the write");
    AGAIN(reply, krl_client_scan(&client, 0, 21, rows, 4));
    want(reply.detail == 3 && rows[1].key == 15 && rows[1].length == 3 && !memcmp(rows[1].bytes, "abc", 4), "the scan");
    want(krl_client_scan(&client, 0, 21, rows, 2).code == KRL_TOO_SHORT, "a room that is too short");
    scan_by_a_lease(&client);
    keep_waiting(&other, &server);
    read_rows(&client, &server);
    give_back_a_part(&client);
    AGAIN(reply, krl_client_leave(&client));
    want(krl_client_tick(&client).code == KRL_GONE, "a client that has left");
    AGAIN(reply, krl_client_leave(&client));
    hand_over(&client, &server, true);
    want(krl_server_record(&server, 3).record.left == 1 && changes == 5, "what was kept");
    want(krl_server_waiter(&server, 4).waits == 0 && krl_server_held(&server, 4).detail == 1, "what was waited for");
    krl_close(&other);
    krl_close(&client);
    krl_close(&server);
    want(krl_client_tick(&client).code == KRL_CLOSED && krl_take(&server, NULL, 0).code == KRL_CLOSED, "closed");
    return seen < refused ? 2 : 0;
}
