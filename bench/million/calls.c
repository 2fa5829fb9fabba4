/* What single messages cost a server that is full, at 1,024, 65,536 and 1,048,576 entries, with room for just as many.
 * A line gives the kind, the entries, the nanoseconds of processor time, and for how many messages. `run.sh` describes
 * what the kinds are. twin.rs does the same with a server over maps of Rust's library. It stops if an answer is not as
 * it should be.
 */
#define _POSIX_C_SOURCE 199309L
#include <inttypes.h>
#include <string.h>

#include "common.h"

enum { BATCH = 1000, BATCHES = 20, STEP = 10, FIRST_SLOTS = 100 };
enum { VERSION = 1, HELLO = 0, REPORT = 2, LOCK = 3, INSERT = 4, DELETE = 6, RELEASE = 7 };
enum { LOCK_BYTES = 59, MAX_MESSAGE = 64, ANSWERS = 1 << 20 };

/* A client as far as its messages go. */
struct sender {
    uint64_t number;
    uint64_t incarnation;
    uint64_t seen;
    uint64_t asked;
    uint64_t written;
};

struct message {
    size_t length;
    uint8_t bytes[MAX_MESSAGE];
};

static krl_handle server;
static uint64_t entries;
static uint64_t epoch;
static krl_row rows[KRL_MAX_ROOM];
static uint8_t report[64 + 9 * (KRL_MAX_ROOM + 1)];
static struct message batch[2 * BATCH];
static uint8_t answers[ANSWERS];
static uint64_t word = 1;

static uint64_t key_of(uint64_t place)
{
    return STEP * place + 9;
}

static uint64_t next(void)
{
    word = word * UINT64_C(6364136223846793005) + UINT64_C(1442695040888963407);
    return word >> 33;
}

static uint8_t *spell_byte(uint8_t *at, uint8_t byte)
{
    *at = byte;
    return at + 1;
}

static uint8_t *spell(uint8_t *at, uint64_t number)
{
    for (int i = 0; i < 8; i++)
        at[i] = (uint8_t)(number >> 8 * i);
    return at + 8;
}

static uint8_t *spell_count(uint8_t *at, uint32_t count)
{
    for (int i = 0; i < 4; i++)
        at[i] = (uint8_t)(count >> 8 * i);
    return at + 4;
}

static uint8_t *spell_head(uint8_t *at, uint8_t kind, const struct sender *sender)
{
    at = spell_byte(at, VERSION);
    at = spell_byte(at, kind);
    at = spell(at, sender->number);
    return spell(at, sender->incarnation);
}

static uint8_t *spell_request(struct message *message, uint8_t kind, const struct sender *sender)
{
    uint8_t *at = spell_head(message->bytes, kind, sender);
    at = spell(at, epoch);
    return spell(at, sender->seen);
}

static void end(struct message *message, const uint8_t *at)
{
    message->length = (size_t)(at - message->bytes);
}

/* A lock of the slots of this many entries, from this one on. It is granted by one push. */
static void spell_lock(struct message *message, struct sender *sender, uint64_t place, uint64_t slots, uint8_t mode)
{
    uint8_t *at = spell_request(message, LOCK, sender);
    at = spell(at, ++sender->asked);
    at = spell(at, key_of(place));
    at = spell(at, key_of(place + slots - 1) + 1);
    end(message, spell_byte(at, mode));
    sender->seen++;
}

static void spell_release(struct message *message, const struct sender *sender, uint64_t lo, uint64_t hi)
{
    uint8_t *at = spell_request(message, RELEASE, sender);
    at = spell(at, lo);
    at = spell(at, hi);
    end(message, spell_byte(at, KRL_N));
}

static void spell_delete(struct message *message, struct sender *sender, uint64_t place)
{
    uint8_t *at = spell_request(message, DELETE, sender);
    at = spell(at, ++sender->written);
    end(message, spell(at, key_of(place)));
    sender->seen++;
}

static void spell_insert(struct message *message, struct sender *sender, uint64_t place)
{
    uint8_t *at = spell_request(message, INSERT, sender);
    at = spell(at, ++sender->written);
    at = spell(at, key_of(place));
    at = spell_byte(at, 8);
    end(message, spell(at, place));
    sender->seen++;
}

/* Takes what the server has sent since the last time: this many messages. */
static void expect_answers(uint64_t count)
{
    /* No disk is measured here: what was reported counts as kept. */
    krl_confirm(&server, krl_confirm(&server, 0).detail);
    krl_reply taken = krl_take(&server, answers, sizeof answers);
    expect(taken.code == KRL_DONE, "the answers are taken");
    for (uint64_t at = 0; at < taken.detail; at += PREFIX + number_at(answers + at))
        count--;
    expect(count == 0, "each message is answered as it should be");
}

static void print(const char *kind, uint64_t begun, uint64_t count)
{
    uint64_t took = nanos_of(CLOCK_PROCESS_CPUTIME_ID) - begun;
    printf("%s %" PRIu64 " %" PRIu64 " %" PRIu64 "\n", kind, entries, took, count);
}

static uint64_t tell(const struct message *messages, uint64_t count)
{
    uint64_t applied = 0;
    for (uint64_t n = 0; n < count; n++) {
        krl_stepped stepped = krl_server_step(&server, messages[n].bytes, messages[n].length);
        expect(stepped.reply.code == KRL_DONE, "a message is taken");
        applied += stepped.change.kind == KRL_JUDGED && stepped.change.outcome == KRL_APPLIED;
    }
    return applied;
}

/* Hands over the messages of the batch, and prints the time. */
static void time_batch(const char *kind, uint64_t count, uint64_t answered, uint64_t applied)
{
    uint64_t begun = nanos_of(CLOCK_PROCESS_CPUTIME_ID);
    uint64_t changes = tell(batch, count);
    print(kind, begun, BATCH);
    expect(changes == applied, "each write is applied, and nothing else changes");
    expect_answers(answered);
}

static void say_hello(const char *kind, const struct sender *sender)
{
    struct message message;
    end(&message, spell_head(message.bytes, HELLO, sender));
    uint64_t begun = nanos_of(CLOCK_PROCESS_CPUTIME_ID);
    krl_stepped stepped = krl_server_step(&server, message.bytes, message.length);
    print(kind, begun, 1);
    expect(stepped.change.kind == KRL_REGISTERED, "a client registers");
    expect_answers(1);
}

/* A lock of one slot among the first `among`, and its release: both count as one. */
static void time_locks(const char *kind, struct sender *sender, uint64_t among)
{
    for (uint64_t n = 0; n < BATCH; n++) {
        uint64_t place = next() % among;
        spell_lock(&batch[2 * n], sender, place, 1, KRL_RANGE_S_S);
        spell_release(&batch[2 * n + 1], sender, STEP * place, STEP * (place + 1));
    }
    time_batch(kind, 2 * BATCH, BATCH, 0);
}

/* A place for each number below BATCH, in no order; no two are the same. */
static uint64_t place_of(uint64_t n, uint64_t shift)
{
    uint64_t apart = (entries - 1) / BATCH;
    return 377 * n % BATCH * apart + shift % apart;
}

static void time_writes(struct sender *sender)
{
    uint64_t shift = next();
    for (uint64_t n = 0; n < BATCH; n++)
        spell_lock(&batch[n], sender, place_of(n, shift), 2, KRL_RANGE_X_X);
    expect(tell(batch, BATCH) == 0, "a lock changes nothing that is kept");
    expect_answers(BATCH);
    for (uint64_t n = 0; n < BATCH; n++)
        spell_delete(&batch[n], sender, place_of(n, shift));
    time_batch("delete", BATCH, BATCH, BATCH);
    for (uint64_t n = 0; n < BATCH; n++)
        spell_insert(&batch[n], sender, place_of(n, shift));
    time_batch("insert", BATCH, BATCH, BATCH);
    spell_release(&batch[0], sender, 0, KRL_TOP);
    expect(tell(batch, 1) == 0, "a release changes nothing that is kept");
}

/* The server starts again on all rows, and waits for one client. */
static void start(const krl_record *record, size_t records)
{
    uint64_t begun = nanos_of(CLOCK_PROCESS_CPUTIME_ID);
    krl_reply reply = krl_server_open(&server, entries, KRL_DEFAULT_REACH, epoch, rows, entries, record, records);
    print("start", begun, 1);
    expect(reply.code == KRL_DONE, "the server starts");
    epoch = reply.detail;
}

/* The report of a client that reads each row and each gap. */
static size_t spell_report(const struct sender *sender)
{
    uint8_t *at = spell(spell_head(report, REPORT, sender), epoch);
    at = spell_count(at, 1);
    at = spell(spell(at, 0), KRL_TOP);
    at = spell_byte(at, KRL_RANGE_PART_S);
    at = spell_count(at, (uint32_t)entries + 1);
    for (uint64_t place = 0; place < entries; place++)
        at = spell_byte(spell(at, key_of(place)), KRL_KEY_PART_S);
    at = spell_byte(spell(at, KRL_END), KRL_KEY_PART_S);
    return (size_t)(at - report);
}

static void time_report(const struct sender *sender)
{
    size_t length = spell_report(sender);
    expect(krl_server_status(&server).phase == KRL_RECOVERING, "the server waits for a report");
    uint64_t begun = nanos_of(CLOCK_PROCESS_CPUTIME_ID);
    krl_stepped stepped = krl_server_step(&server, report, length);
    print("report", begun, 1);
    expect(stepped.reply.code == KRL_DONE, "the report is taken");
    expect(krl_server_status(&server).phase == KRL_SERVING, "the server serves");
    expect(krl_server_held(&server, sender->number).detail == entries + 1, "the client holds all");
}

static void time_all(uint64_t count)
{
    krl_record record = { .client = 0, .incarnation = 1 };
    struct sender reader = { .number = 0, .incarnation = 1 };
    struct sender writer = { .number = 1, .incarnation = 1 };
    entries = count;
    epoch = 0;
    for (uint64_t place = 0; place < entries; place++)
        rows[place] = (krl_row){ .key = key_of(place), .length = 8 };
    start(&record, 1);
    time_report(&reader);
    reader.incarnation = 2;
    say_hello("give-back", &reader);
    say_hello("hello", &writer);
    for (int n = 0; n < BATCHES; n++) {
        time_locks("near", &writer, FIRST_SLOTS);
        time_locks("far", &writer, entries);
        time_writes(&writer);
    }
    krl_close(&server);
}

int main(void)
{
    time_all(1024);
    time_all(65536);
    time_all(KRL_MAX_ROOM);
    return 0;
}
