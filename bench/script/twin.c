/* The twin of `krl script` in C, written from docs/PROTOCOL.md: a script on standard input, its transcript on standard
 * output, each line written before the next is run. It has every word but `modes`, no more entries than a line of
 * `seed` has room for, and assumes that every request for memory is met. */
#include <stdint.h>
#include <stdio.h>
#include <stdlib.h>
#include <string.h>
#include <unistd.h>

#define END 9223372036854775807ULL
#define TOP 9223372036854775808ULL
#define CLIENTS 64
#define MAX_ENTRIES 64
#define MAX_TEXT 1048576
#define MAX_LINE 256
#define MAX_LINES 10000
#define MAX_DELIVERIES 100000

enum range { RANGE_N, RANGE_S, RANGE_I, RANGE_X };
enum key { KEY_N, KEY_S, KEY_U, KEY_X };
struct mode { uint8_t range, key; };

static const struct { const char *name; struct mode mode; } MODES[13] = {
    {"N", {RANGE_N, KEY_N}},        {"S", {RANGE_N, KEY_S}},        {"U", {RANGE_N, KEY_U}},
    {"X", {RANGE_N, KEY_X}},        {"RangeS-S", {RANGE_S, KEY_S}}, {"RangeS-U", {RANGE_S, KEY_U}},
    {"RangeI-N", {RANGE_I, KEY_N}}, {"RangeI-S", {RANGE_I, KEY_S}}, {"RangeI-U", {RANGE_I, KEY_U}},
    {"RangeI-X", {RANGE_I, KEY_X}}, {"RangeX-S", {RANGE_X, KEY_S}}, {"RangeX-U", {RANGE_X, KEY_U}},
    {"RangeX-X", {RANGE_X, KEY_X}},
};

static int compatible(struct mode a, struct mode b) {
    int ranges = !a.range || !b.range || (a.range == b.range && a.range != RANGE_X);
    int keys = !a.key || !b.key || a.key + b.key <= KEY_S + KEY_U;
    return ranges && keys && !(a.key == KEY_U && b.key == KEY_U);
}

static struct mode join(struct mode a, struct mode b) {
    struct mode both = {a.range | b.range, a.key > b.key ? a.key : b.key};
    if (both.range == RANGE_S && both.key == KEY_X) both.range = RANGE_X;
    return both;
}

/* The index: its entries in key order. Slot i is entry i, and slot `entries` is END. */
static struct { uint64_t key, value; } entry[MAX_ENTRIES];
static int entries;

/* What each client has learned (`held`) and what the server granted it, by slot. */
static struct client {
    int runs, joined, waits;
    struct mode held[MAX_ENTRIES + 1], granted[MAX_ENTRIES + 1];
} client[CLIENTS];

struct message {
    enum { HELLO, EPOCH, LOCK, GRANT, ABSENT } kind;
    int client, slot;
    uint64_t point;
    struct mode mode;
};
static struct message *messages;
static size_t sent, room, delivered;

static void send(struct message m) {
    if (sent == room) messages = realloc(messages, (room = room ? 2 * room : 64) * sizeof *messages);
    messages[sent++] = m;
}

static int slot_of(uint64_t point) {
    int low = 0, high = entries;
    while (low < high) {
        int middle = (low + high) / 2;
        if (entry[middle].key < point) low = middle + 1;
        else high = middle;
    }
    return low;
}

static void judge(struct message m) {
    int slot = slot_of(m.point);
    int has_entry = slot < entries && entry[slot].key == m.point;
    if (!has_entry && m.mode.range == RANGE_N && m.mode.key != KEY_N) {
        send((struct message){.kind = ABSENT, .client = m.client});
        return;
    }
    struct mode wanted = join(m.mode, client[m.client].granted[slot]);
    for (int c = 0; c < CLIENTS; c++)
        if (c != m.client && !compatible(wanted, client[c].granted[slot])) return;
    client[m.client].granted[slot] = wanted;
    send((struct message){.kind = GRANT, .client = m.client, .slot = slot, .mode = wanted});
}

static void deliver(struct message m) {
    switch (m.kind) {
    case HELLO: send((struct message){.kind = EPOCH, .client = m.client}); break;
    case EPOCH: client[m.client].joined = 1; break;
    case LOCK: judge(m); break;
    case GRANT:
        client[m.client].held[m.slot] = m.mode;
        client[m.client].waits = 0;
        break;
    case ABSENT: client[m.client].waits = 0; break;
    }
}

/* A line that is printed. */
static char line[8192];
static size_t used;

static void put(const char *text) {
    size_t n = strlen(text);
    memcpy(line + used, text, n);
    used += n;
}

static void put_number(uint64_t number) {
    char digits[20];
    int n = 0;
    do digits[n++] = '0' + number % 10; while (number /= 10);
    while (n) line[used++] = digits[--n];
}

static void write_line(void) {
    line[used++] = '\n';
    for (size_t at = 0; at < used;) {
        ssize_t n = write(1, line + at, used - at);
        if (n <= 0) exit(1);
        at += n;
    }
    used = 0;
}

static void refuse(const char *name) { put("refused "); put(name); write_line(); }

static void fault(unsigned long number, const char *text) {
    put("fault line "); put_number(number); put(": "); put(text); write_line();
    exit(1);
}

/* The words of a line. */
static struct { const char *at; size_t length; } word[MAX_LINE];
static int words;

static int is(int i, const char *text) {
    return strlen(text) == word[i].length && !memcmp(word[i].at, text, word[i].length);
}

static int read_number(const char *at, size_t length, uint64_t *number) {
    if (length == 3 && !memcmp(at, "END", 3)) { *number = END; return 1; }
    if (length == 3 && !memcmp(at, "TOP", 3)) { *number = TOP; return 1; }
    if (length < 1 || length > 20) return 0;
    *number = 0;
    for (size_t i = 0; i < length; i++) {
        unsigned digit = (unsigned char)at[i] - '0';
        if (digit > 9 || *number > (UINT64_MAX - digit) / 10) return 0;
        *number = *number * 10 + digit;
    }
    return 1;
}

static unsigned long number;
static int has_world;

static void count(int n) {
    if (words - 1 < n) fault(number, "missing argument");
    if (words - 1 > n) fault(number, "extra argument");
}

static uint64_t number_at(int i) {
    uint64_t n;
    if (!read_number(word[i].at, word[i].length, &n)) fault(number, "bad number");
    return n;
}

static void seed(void) {
    static uint64_t keys[MAX_ENTRIES], values[MAX_ENTRIES];
    if (words < 2) fault(number, "missing argument");
    for (int i = 1; i < words; i++) {
        const char *equals = memchr(word[i].at, '=', word[i].length);
        size_t n = equals ? equals - word[i].at : 0;
        if (!equals || !read_number(word[i].at, n, &keys[i - 1])
            || !read_number(equals + 1, word[i].length - n - 1, &values[i - 1]))
            fault(number, "bad pair");
    }
    if (has_world) fault(number, "late seed");
    has_world = 1;
    for (int i = 0; i < words - 1; i++) {
        int at = slot_of(keys[i]);
        const char *refusal = keys[i] >= END ? "BadKey" : at < entries && entry[at].key == keys[i] ? "Twice" : NULL;
        if (refusal) { entries = 0; refuse(refusal); return; }
        memmove(entry + at + 1, entry + at, (entries++ - at) * sizeof *entry);
        entry[at].key = keys[i];
        entry[at].value = values[i];
    }
}

static void start(uint64_t c) {
    if (c >= CLIENTS) { refuse("BadClient"); return; }
    if (client[c].runs) { refuse("Running"); return; }
    client[c].runs = 1;
    send((struct message){.kind = HELLO, .client = c});
}

static void lock(uint64_t c, uint64_t point, struct mode mode) {
    if (c >= CLIENTS) refuse("BadClient");
    else if (!client[c].runs) refuse("Down");
    else if (point > END) refuse("BadPoint");
    else if (!client[c].joined) refuse("NotJoined");
    else if (client[c].waits) refuse("Busy");
    else {
        client[c].waits = 1;
        send((struct message){.kind = LOCK, .client = c, .point = point, .mode = mode});
    }
}

static void settle(void) {
    for (int i = 0; i < MAX_DELIVERIES; i++) {
        if (delivered == sent) return;
        deliver(messages[delivered]);
        delivered++;
    }
    if (delivered < sent) { put("unsettled"); write_line(); }
}

static void scan(uint64_t c, uint64_t lo, uint64_t hi) {
    if (c >= CLIENTS) { refuse("BadClient"); return; }
    if (!client[c].runs) { refuse("Down"); return; }
    if (lo >= hi || hi > TOP) { refuse("BadSpan"); return; }
    int first = slot_of(lo);
    uint64_t p = lo;
    for (int slot = first; p < hi; slot++) {
        struct mode held = client[c].held[slot];
        uint64_t at = slot < entries ? entry[slot].key : END;
        if (held.range == RANGE_S || held.range == RANGE_X || (p == at && held.key)) { p = at + 1; continue; }
        put("miss "); put_number(p); write_line();
        return;
    }
    put("rows");
    for (int slot = first; slot < entries && entry[slot].key < hi; slot++) {
        put(" "); put_number(entry[slot].key); put("="); put_number(entry[slot].value);
    }
    write_line();
}

static void hold(uint64_t c, uint64_t point) {
    if (c >= CLIENTS) { refuse("BadClient"); return; }
    if (point > END) { refuse("BadPoint"); return; }
    int slot = slot_of(point);
    struct mode held = client[c].held[slot];
    uint64_t at = slot < entries ? entry[slot].key : END;
    put("hold "); line[used++] = "NSIX"[held.range]; put(" "); line[used++] = "NSUX"[point == at ? held.key : 0];
    write_line();
}

static void obey(void) {
    if (is(0, "seed")) { seed(); return; }
    if (is(0, "client")) { count(1); uint64_t c = number_at(1); has_world = 1; start(c); return; }
    if (is(0, "lock")) {
        count(3);
        uint64_t c = number_at(1), point = number_at(2);
        int mode = 0;
        while (mode < 13 && !is(3, MODES[mode].name)) mode++;
        if (mode == 13) fault(number, "bad mode");
        has_world = 1;
        lock(c, point, MODES[mode].mode);
        return;
    }
    if (is(0, "settle")) { count(0); has_world = 1; settle(); return; }
    if (is(0, "scan")) {
        count(3);
        uint64_t c = number_at(1), lo = number_at(2), hi = number_at(3);
        has_world = 1;
        scan(c, lo, hi);
        return;
    }
    if (is(0, "hold")) { count(2); uint64_t c = number_at(1), p = number_at(2); has_world = 1; hold(c, p); return; }
    fault(number, "unknown word");
}

static void run_line(const char *at, size_t length) {
    if (number > MAX_LINES) fault(number, "too many lines");
    if (length > MAX_LINE) fault(number, "line too long");
    if (length && at[0] == '#') return;
    words = 0;
    for (size_t i = 0; i < length;) {
        if (at[i] == ' ') { i++; continue; }
        size_t from = i;
        while (i < length && at[i] != ' ') i++;
        word[words].at = at + from;
        word[words++].length = i - from;
    }
    if (words) obey();
}

int main(void) {
    static char text[MAX_TEXT + 4096];
    size_t size = 0;
    for (ssize_t n; (n = read(0, text + size, 4096)) > 0;)
        if ((size += n) > MAX_TEXT) fault(0, "text too long");
    for (size_t at = 0; at < size;) {
        const char *end = memchr(text + at, '\n', size - at);
        size_t length = end ? (size_t)(end - text) - at : size - at;
        number++;
        run_line(text + at, end && length && text[at + length - 1] == '\r' ? length - 1 : length);
        at += length + 1;
    }
    return 0;
}
