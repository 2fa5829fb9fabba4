/* A server with room for 1,048,576 entries, and 64 clients in the same process: they insert 1,000,000 rows, each reads
 * its part of them, the server is dropped and started again on what was kept, all clients report, and it serves again.
 * For each phase a line: the phase, the seconds of processor time and on the wall, and VmRSS and VmSize at its end, in
 * kilobytes. The last lines are the bytes of the longest report and VmHWM. It stops if a row is not as it should be.
 */
#define _POSIX_C_SOURCE 199309L
#include <inttypes.h>
#include <string.h>

#include "common.h"

enum { CLIENTS = KRL_CLIENTS, PART = 15625, ROWS = CLIENTS * PART, STEP = 10, LOCKED_AT_ONCE = 8 };
/* No factor of PART, so that places by this stride are all places of a part. */
enum { STRIDE = 7919 };
enum { REPORT = 2, KIND_AT = 1 };

static krl_handle server;
static krl_handle clients[CLIENTS];
static uint8_t letters[1 << 20];
/* The clients that may have something to send: a bit for each. */
static uint64_t talkative;
static uint64_t longest_report;

/* What the host keeps: the rows by their places, and for each part one row that is added later. */
static krl_row kept[ROWS];
static uint64_t kept_count;
static krl_row added[CLIENTS];
static krl_record records[CLIENTS];
static uint64_t epoch;

static uint64_t key_of(uint64_t place)
{
    return STEP * (place + 1);
}

/* The points of a part begin here, and end where those of the next one begin. */
static uint64_t part_begin(uint64_t part)
{
    return STEP * PART * part + 1;
}

/* The value of a row, by its key and how often it was put: all 32 bytes. */
static void value_of(uint64_t key, uint64_t puts, uint8_t *bytes)
{
    uint64_t words[4] = { key, puts, key * UINT64_C(6364136223846793005), ~key };
    memcpy(bytes, words, sizeof words);
}

static void keep(const krl_change *change)
{
    if (change->kind != KRL_JUDGED)
        return;
    expect(change->outcome == KRL_APPLIED, "each write is applied");
    uint64_t key = change->row.key;
    if (key % STEP != 0) {
        added[key / STEP / PART] = change->row;
        kept_count++;
        return;
    }
    kept[key / STEP - 1] = change->row;
    kept_count += change->write == KRL_INSERT;
}

static uint64_t take(krl_handle *from)
{
    /* No disk is measured here: what was reported counts as kept. */
    krl_confirm(from, krl_confirm(from, 0).detail);
    krl_reply taken = krl_take(from, letters, sizeof letters);
    expect(taken.code == KRL_DONE, "what was sent is taken");
    return taken.detail;
}

static void hear_client(uint64_t number)
{
    uint64_t end = take(&clients[number]);
    for (uint64_t at = 0; at < end;) {
        uint64_t length = number_at(letters + at);
        const uint8_t *message = letters + at + PREFIX;
        if (message[KIND_AT] == REPORT && length > longest_report)
            longest_report = length;
        krl_stepped stepped = krl_server_step(&server, message, length);
        expect(stepped.reply.code == KRL_DONE, "the server takes a message");
        keep(&stepped.change);
        at += PREFIX + length;
    }
}

static void hear_server(void)
{
    uint64_t end = take(&server);
    for (uint64_t at = 0; at < end;) {
        uint64_t length = number_at(letters + at);
        const uint8_t *message = letters + at + PREFIX;
        uint64_t number = number_at(message + KRL_CLIENT_AT);
        expect(krl_client_step(&clients[number], message, length).code == KRL_DONE, "a client takes a message");
        talkative |= UINT64_C(1) << number;
        at += PREFIX + length;
    }
}

static void hear_clients(void)
{
    while (talkative != 0) {
        uint64_t number = (uint64_t)__builtin_ctzll(talkative);
        talkative &= talkative - 1;
        hear_client(number);
    }
}

/* Hands over all messages, from those of this client on, until none is left. */
static void settle(uint64_t number)
{
    talkative |= UINT64_C(1) << number;
    while (talkative != 0) {
        hear_clients();
        hear_server();
    }
}

static void tell_progress(const char *phase, uint64_t done)
{
    if (done % 8 == 0)
        fprintf(stderr, "million: %s: %" PRIu64 " of %d rows\n", phase, done * PART, ROWS);
}

static void lock(uint64_t number, uint64_t point, uint64_t hi, uint32_t mode)
{
    expect(krl_client_lock(&clients[number], point, hi, mode).code == KRL_DONE, "a lock is asked for");
    settle(number);
    expect(krl_client_status(&clients[number]).lock == KRL_LOCK_GRANTED, "a lock is granted");
}

static void expect_applied(uint64_t number)
{
    settle(number);
    krl_client_state state = krl_client_status(&clients[number]);
    expect(state.write == KRL_WRITE_JUDGED && state.outcome == KRL_APPLIED, "a write is applied");
}

static void insert(uint64_t number, uint64_t key)
{
    uint8_t value[KRL_MAX_VALUE_BYTES];
    value_of(key, 0, value);
    expect(krl_client_insert(&clients[number], key, value, sizeof value).code == KRL_DONE, "an insert is asked for");
    expect_applied(number);
}

static void open_all(void)
{
    krl_reply reply = krl_server_open(&server, KRL_MAX_ROOM, KRL_DEFAULT_REACH, 0, NULL, 0, NULL, 0);
    expect(reply.code == KRL_DONE, "the server starts");
    epoch = reply.detail;
    for (uint64_t number = 0; number < CLIENTS; number++) {
        expect(krl_client_open(&clients[number], number, 1).code == KRL_DONE, "a client starts");
        settle(number);
    }
}

static void forget(uint64_t number, uint64_t lo, uint64_t hi)
{
    expect(krl_client_forget(&clients[number], lo, hi).code == KRL_DONE, "a range is given back");
    settle(number);
}

/* One lock, of all after the last key, lets a client insert all rows of its part. */
static void fill_part(uint64_t part)
{
    lock(part, part_begin(part), KRL_TOP, KRL_RANGE_X_X);
    for (uint64_t n = 0; n < PART; n++)
        insert(part, key_of(part * PART + n * STRIDE % PART));
    forget(part, 0, KRL_TOP);
}

static void fill(void)
{
    for (uint64_t part = 0; part < CLIENTS; part++) {
        fill_part(part);
        tell_progress("fill", part + 1);
    }
    expect(kept_count == ROWS, "all rows were inserted");
}

static void read_part(uint64_t part)
{
    uint64_t end = part_begin(part + 1);
    for (uint64_t n = 0; n < PART; n += LOCKED_AT_ONCE)
        lock(part, key_of(part * PART + n), end, KRL_RANGE_S_S);
}

static void read_all(void)
{
    for (uint64_t part = 0; part < CLIENTS; part++) {
        read_part(part);
        tell_progress("read", part + 1);
    }
}

/* What a cache shows is not evidence of the index of the server that has started again: each client reads it again. */
static void read_anew(void)
{
    for (uint64_t number = 0; number < CLIENTS; number++)
        forget(number, 0, KRL_TOP);
    expect(krl_server_held(&server, 0).detail == 0, "all is given back");
    read_all();
}

static bool is_same(const krl_row *one, const krl_row *other)
{
    return one->key == other->key && one->length == other->length && memcmp(one->bytes, other->bytes, one->length) == 0;
}

static bool has_value(const krl_row *row, uint64_t puts)
{
    uint8_t value[KRL_MAX_VALUE_BYTES];
    value_of(row->key, puts, value);
    return row->length == sizeof value && memcmp(row->bytes, value, sizeof value) == 0;
}

/* Scans the client's part and answers how many rows it has: each has to be as it was kept and as it was written. */
static uint64_t scan_part(uint64_t part)
{
    static krl_row rows[PART + 1];
    krl_reply reply = krl_client_scan(&clients[part], part_begin(part), part_begin(part + 1), rows, PART + 1);
    expect(reply.code == KRL_DONE, "a part is scanned");
    uint64_t extra = added[part].length != 0;
    expect(reply.detail == PART + extra, "a part has all its rows");
    expect(extra == 0 || (is_same(&rows[0], &added[part]) && has_value(&rows[0], 0)), "an added row is right");
    expect(rows[extra].key == key_of(part * PART), "a part begins with its first row");
    for (uint64_t n = 0; n < PART; n++) {
        const krl_row *row = &rows[extra + n];
        expect(is_same(row, &kept[part * PART + n]), "a row is as it was kept");
        expect(has_value(row, n == 0 ? extra : 0), "a row is as it was written");
    }
    return reply.detail;
}

static void scan_all(void)
{
    uint64_t count = 0;
    for (uint64_t part = 0; part < CLIENTS; part++)
        count += scan_part(part);
    expect(count == kept_count, "the scans have all rows");
}

static void drop(void)
{
    for (uint64_t number = 0; number < CLIENTS; number++) {
        krl_recorded recorded = krl_server_record(&server, number);
        expect(recorded.reply.code == KRL_DONE && recorded.record.last == PART, "the record of a client is right");
        records[number] = recorded.record;
    }
    krl_close(&server);
}

static void start_again(void)
{
    krl_reply reply = krl_server_open(&server, KRL_MAX_ROOM, KRL_DEFAULT_REACH, epoch, kept, ROWS, records, CLIENTS);
    expect(reply.code == KRL_DONE && reply.detail == epoch + 1, "the server starts again");
    epoch = reply.detail;
    expect(krl_server_status(&server).phase == KRL_RECOVERING, "it waits for reports");
}

static void report_all(void)
{
    for (uint64_t number = 0; number < CLIENTS; number++) {
        expect(krl_client_tick(&clients[number]).code == KRL_DONE, "a client ticks");
        settle(number);
        bool is_last = number == CLIENTS - 1;
        expect((krl_server_status(&server).phase == KRL_SERVING) == is_last, "it serves after the last report");
    }
    expect(krl_server_held(&server, 0).detail == PART, "what a client holds is known again");
}

/* Puts the first row of the part after the client's own, and inserts one in front of it: the other client is called
 * back. */
static void write_beside(uint64_t number)
{
    uint64_t key = key_of((number + 1) % CLIENTS * PART);
    uint8_t value[KRL_MAX_VALUE_BYTES];
    lock(number, key, key + 1, KRL_RANGE_X_X);
    value_of(key, 1, value);
    expect(krl_client_put(&clients[number], key, value, sizeof value).code == KRL_DONE, "a put is asked for");
    expect_applied(number);
    insert(number, key - 1);
    forget(number, key - STEP + 1, key + 1);
}

static void write_again(void)
{
    for (uint64_t number = 0; number < CLIENTS; number++)
        write_beside(number);
    expect(kept_count == ROWS + CLIENTS, "each client has added a row");
    for (uint64_t part = 0; part < CLIENTS; part++)
        lock(part, part_begin(part), key_of(part * PART) + 1, KRL_RANGE_S_S);
}

/* What Linux reports of this process under the name, in kilobytes. */
static uint64_t kilobytes(const char *name)
{
    char line[256];
    uint64_t found = 0;
    FILE *status = fopen("/proc/self/status", "r");
    expect(status != NULL, "/proc/self/status is read");
    while (fgets(line, sizeof line, status) != NULL)
        if (strncmp(line, name, strlen(name)) == 0)
            found = strtoull(line + strlen(name) + 1, NULL, 10);
    fclose(status);
    return found;
}

static void run(const char *phase, void (*what)(void))
{
    uint64_t worked = nanos_of(CLOCK_PROCESS_CPUTIME_ID), begun = nanos_of(CLOCK_MONOTONIC);
    what();
    worked = nanos_of(CLOCK_PROCESS_CPUTIME_ID) - worked;
    begun = nanos_of(CLOCK_MONOTONIC) - begun;
    printf("%-12s %10.3f %10.3f %10" PRIu64 " %10" PRIu64 "\n", phase, (double)worked / 1e9, (double)begun / 1e9,
           kilobytes("VmRSS"), kilobytes("VmSize"));
    fflush(stdout);
}

/* What this program keeps is written to once, so that it counts from the beginning. */
static void begin(void)
{
    memset(kept, 1, sizeof kept);
}

int main(void)
{
    printf("%-12s %10s %10s %10s %10s\n", "phase", "processor", "wall", "VmRSS", "VmSize");
    run("begin", begin);
    run("open", open_all);
    run("fill", fill);
    run("read", read_all);
    run("scan", scan_all);
    run("drop", drop);
    run("start", start_again);
    run("report", report_all);
    run("scan-again", scan_all);
    run("read-anew", read_anew);
    run("scan-anew", scan_all);
    run("write-again", write_again);
    run("scan-last", scan_all);
    printf("longest report, bytes: %" PRIu64 "\nVmHWM: %" PRIu64 "\n", longest_report, kilobytes("VmHWM"));
    return 0;
}
