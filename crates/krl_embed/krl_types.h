/* The numbers, codes and records of `krl.h`, which includes this file. */
#ifndef KRL_TYPES_H
#define KRL_TYPES_H

#include <stdbool.h>
#include <stddef.h>
#include <stdint.h>

/* The version of this interface. Two versions with the same major number and the same minor one fit one another. */
#define KRL_VERSION_MAJOR 0
#define KRL_VERSION_MINOR 1
#define KRL_VERSION_PATCH 0
#define KRL_VERSION (KRL_VERSION_MAJOR * 1000000 + KRL_VERSION_MINOR * 1000 + KRL_VERSION_PATCH)

/* The last point. Keys lie below it. */
#define KRL_END UINT64_C(9223372036854775807)

/* One past the last point: the greatest end of a span. */
#define KRL_TOP UINT64_C(9223372036854775808)

/* Clients are numbered from 0. */
#define KRL_CLIENTS 64

/* For how many entries a server has room if nothing asks for another number. */
#define KRL_DEFAULT_ROOM 65536

/* For how many entries a server can have room, at most. */
#define KRL_MAX_ROOM 1048576

/* The most bytes of a value. */
#define KRL_MAX_VALUE_BYTES 32

/* How many slots one grant of a server takes at most if nothing asks for another number. */
#define KRL_DEFAULT_REACH 8

/* How many slots one grant of a server can take, at most. */
#define KRL_MAX_REACH 128

/* The moment that never comes, and the length of a lease that does not end. */
#define KRL_FOR_EVER UINT64_MAX

/* The most shards: one more than there may be bounds. */
#define KRL_SHARDS 64

/* Where a message's client stands in its bytes, and its incarnation: eight bytes each, the lowest first. In a
 * message to the server that is the sender, in a message to a client the one that is spoken to. */
#define KRL_CLIENT_AT 2
#define KRL_INCARNATION_AT 10

/* What a call answers. */
enum krl_code {
    /* It is done. */
    KRL_DONE = 0,
    /* It is done, but memory for what it sends was refused: nothing more waits to be sent, as if those messages had
     * been lost. Ticks and nudges send again what matters. What a server's step changed is still reported, and has
     * to be kept. */
    KRL_UNSAID = 1,
    /* Memory was refused. */
    KRL_OUT_OF_MEMORY = 2,
    /* The handle is closed, or the server of a table of leases has not begun, or a scan was answered. */
    KRL_CLOSED = 3,
    /* The handle is open already, or the server of a table of leases has begun. */
    KRL_OPEN_ALREADY = 4,
    /* The handle keeps a server, not a client. */
    KRL_NO_CLIENT = 5,
    /* The handle keeps a client, not a server. */
    KRL_NO_SERVER = 6,
    /* The client has left, or its incarnation answers nothing any more. */
    KRL_GONE = 7,
    /* The bytes are no message; the detail is the reason, a `krl_fault`. */
    KRL_BAD_MESSAGE = 8,
    /* There is too little room for what was found; the detail is how much there has to be. Nothing was written. */
    KRL_TOO_SHORT = 9,
    /* The client does not know the whole range; the detail is the least point that it does not know. */
    KRL_MISS = 10,
    /* The client's write to a key of the range is not answered yet; the detail is that key. */
    KRL_PENDING = 11,
    /* A report contradicts what the server knows; the detail is the client that sent it. Two processes under one
     * number, or a server that was started on an older store, are the ways to come here. */
    KRL_ALARM = 12,
    /* A client's number of 64 or more. */
    KRL_BAD_CLIENT = 13,
    /* No number is left: for an incarnation, an epoch, a request, a write or a commit. */
    KRL_SPENT = 14,
    /* A record that no client can have, or whose client has one before it; the detail is the place of the first. */
    KRL_BAD_RECORD = 15,
    /* An entry with a value of more than 32 bytes; the detail is its place. Or such a value in a write. */
    KRL_BAD_VALUE = 16,
    /* Some entry has a key of KRL_END or more. */
    KRL_BAD_KEY = 17,
    /* Some key stands twice among the entries. */
    KRL_TWICE = 18,
    /* There are more entries than there is room for. */
    KRL_FULL = 19,
    /* A mode that is none. */
    KRL_BAD_MODE = 20,
    /* A point above KRL_END, or a written key of KRL_END or more. */
    KRL_BAD_POINT = 21,
    /* A span that does not begin below its end, or ends above KRL_TOP. */
    KRL_BAD_SPAN = 22,
    /* The client has learned no epoch yet. */
    KRL_NOT_JOINED = 23,
    /* The client waits for the answer to a lock request. */
    KRL_BUSY = 24,
    /* The client does not hold what the write needs, or there is no such pin. */
    KRL_NOT_HELD = 25,
    /* The span meets a pin. */
    KRL_PINNED = 26,
    /* A write is not answered yet, or the span contains its key. */
    KRL_WRITING = 27,
    /* The client has eight pins. */
    KRL_TOO_MANY_PINS = 28,
    /* An incarnation of 0, which no server takes, or one that is not greater than the registered one. */
    KRL_BAD_INCARNATION = 29,
    /* Bounds that make no shards: there are more than 63, or one is not above the one before it, or is 0 or above
     * KRL_END. */
    KRL_BAD_SHARDS = 30,
    /* Room for no entry, or for more than KRL_MAX_ROOM. */
    KRL_BAD_ROOM = 31,
    /* Messages wait, and each of them rests on a note that is not confirmed. The detail is how many notes were
     * reported. Nothing was taken. */
    KRL_UNKEPT = 32,
    /* More notes were confirmed than were reported, and the detail is how many were reported; or a commit that has not
     * begun. Nothing has changed. */
    KRL_NOT_TOLD = 33,
    /* Grants of no slot, or of more than KRL_MAX_REACH. */
    KRL_BAD_REACH = 34,
    /* The incarnation that is registered may still answer. */
    KRL_STILL_ANSWERS = 35,
    /* The client's lease has ended: what its cache answers may be outdated. */
    KRL_LEASE_ENDED = 36
};

/* What is wrong with bytes that are no message: the first fault from the left. */
enum krl_fault {
    /* The bytes end within a field, or a count promises more than they can hold. */
    KRL_FAULT_SHORT = 0,
    /* The version is not 1. */
    KRL_FAULT_VERSION = 1,
    /* No message in this direction has this kind. */
    KRL_FAULT_KIND = 2,
    /* A span does not begin below its end, or ends above KRL_TOP. */
    KRL_FAULT_SPAN = 3,
    /* No mode has this tag. */
    KRL_FAULT_MODE = 4,
    /* No part has this tag. */
    KRL_FAULT_PART = 5,
    /* No outcome has this tag. */
    KRL_FAULT_OUTCOME = 6,
    /* A flag is neither 0 nor 1. */
    KRL_FAULT_FLAG = 7,
    /* A value has more than 32 bytes. */
    KRL_FAULT_LENGTH = 8,
    /* A grant has no holding, or more than 128. */
    KRL_FAULT_COUNT = 9,
    /* A holding does not lie after the one before it. */
    KRL_FAULT_ORDER = 10,
    /* Bytes follow the message. */
    KRL_FAULT_TRAILING = 11
};

/* A mode: a part for the gap below an entry, and a part for the entry. */
enum krl_mode {
    KRL_N = 0,
    KRL_S = 1,
    KRL_U = 2,
    KRL_X = 3,
    KRL_RANGE_S_S = 4,
    KRL_RANGE_S_U = 5,
    KRL_RANGE_I_N = 6,
    KRL_RANGE_I_S = 7,
    KRL_RANGE_I_U = 8,
    KRL_RANGE_I_X = 9,
    KRL_RANGE_X_S = 10,
    KRL_RANGE_X_U = 11,
    KRL_RANGE_X_X = 12
};

/* What is held of a gap. */
enum krl_range_part { KRL_RANGE_PART_N = 0, KRL_RANGE_PART_S = 1, KRL_RANGE_PART_I = 2, KRL_RANGE_PART_X = 3 };

/* What is held of an entry. */
enum krl_key_part { KRL_KEY_PART_N = 0, KRL_KEY_PART_S = 1, KRL_KEY_PART_U = 2, KRL_KEY_PART_X = 3 };

/* How a write was judged. Only KRL_APPLIED changed the index. */
enum krl_outcome {
    /* No write was judged. */
    KRL_NO_OUTCOME = 0,
    /* The index has changed as the write asks. */
    KRL_APPLIED = 1,
    /* An insert of a key that is an entry already. */
    KRL_EXISTS = 2,
    /* A put or a delete of a key that is no entry. */
    KRL_ABSENT = 3,
    /* The client did not hold what the write needs. */
    KRL_OUTCOME_NOT_HELD = 4,
    /* An insert into an index that has as many entries as it has room for. */
    KRL_OUTCOME_FULL = 5
};

/* What a write does. */
enum krl_write_kind { KRL_INSERT = 0, KRL_PUT = 1, KRL_DELETE = 2 };

/* What a server's step changed of what survives. */
enum krl_change_kind {
    /* Nothing. */
    KRL_UNCHANGED = 0,
    /* The client registered with this incarnation. Its record is { client, incarnation, last 0, KRL_NO_OUTCOME, left
     * 0 }, in the place of its older record, or after all others. */
    KRL_REGISTERED = 1,
    /* The client left: in its record `left` is 1. */
    KRL_LEFT = 2,
    /* A write of the client was judged: in its record `last` is the write's number and `outcome` its outcome. If
     * that is KRL_APPLIED, the write changed the index too. */
    KRL_JUDGED = 3
};

/* The last lock request of a client. */
enum krl_lock_status {
    KRL_LOCK_NOT_ASKED = 0,
    /* It is not answered yet. */
    KRL_LOCK_WAITING = 1,
    KRL_LOCK_GRANTED = 2,
    /* There was no entry to lock. */
    KRL_LOCK_ABSENT = 3,
    /* A new epoch took it away: ask again. */
    KRL_LOCK_DROPPED = 4
};

/* The last write of a client. */
enum krl_write_status {
    KRL_NOT_WRITTEN = 0,
    /* It is not answered yet. */
    KRL_WRITE_WAITING = 1,
    /* It was judged: `outcome` has the result. */
    KRL_WRITE_JUDGED = 2
};

/* The phase of a server. */
enum krl_phase {
    /* It waits for reports of clients that were registered when it started. It answers no request. */
    KRL_RECOVERING = 0,
    KRL_SERVING = 1
};

/* A client or a server. One of zeros is closed. The host keeps it where it is and neither reads, writes nor copies
 * one that is open, but by `krl_reader_of`. */
typedef struct krl_handle {
    bool is_open;
    void *at;
} krl_handle;

/* What a handle keeps, as one of many threads reads it. One of zeros is closed. */
typedef struct krl_reader {
    bool is_open;
    const void *at;
} krl_reader;

/* A code, and its detail: 0 if the code describes none. */
typedef struct krl_reply {
    uint32_t code;
    uint64_t detail;
} krl_reply;

/* An entry of the index: its key, and a value of `length` bytes. The bytes after them are zeros if the library
 * writes a row, and are not read if it is given one. */
typedef struct krl_row {
    uint64_t key;
    uint64_t length;
    uint8_t bytes[KRL_MAX_VALUE_BYTES];
} krl_row;

/* What is kept of a client that ever registered. */
typedef struct krl_record {
    /* The client's number, from 0 to 63. */
    uint64_t client;
    /* Its last registered incarnation, from 1 to KRL_END. */
    uint64_t incarnation;
    /* The number of its last judged write, at most KRL_END, or 0. */
    uint64_t last;
    /* How that write was judged, by a `krl_outcome`: KRL_NO_OUTCOME exactly if `last` is 0. */
    uint32_t outcome;
    /* 1 if that incarnation has left, otherwise 0. */
    uint32_t left;
} krl_record;

/* What a server's step changed of what survives. Fields that the kind does not name are 0. */
typedef struct krl_change {
    /* A `krl_change_kind`. */
    uint32_t kind;
    /* KRL_JUDGED: a `krl_outcome`. */
    uint32_t outcome;
    /* The client. */
    uint64_t client;
    /* KRL_REGISTERED: the incarnation. KRL_JUDGED: the write's number. */
    uint64_t number;
    /* KRL_JUDGED: a `krl_write_kind`. */
    uint64_t write;
    /* KRL_JUDGED: the key, and the value of an insert or a put. */
    krl_row row;
} krl_change;

/* What a server's step answers. `change` is KRL_UNCHANGED unless the code is KRL_DONE or KRL_UNSAID. */
typedef struct krl_stepped {
    krl_reply reply;
    krl_change change;
} krl_stepped;

/* What a client shows of itself. All else is 0 unless the code is KRL_DONE. */
typedef struct krl_client_state {
    krl_reply reply;
    /* The epoch that it has joined; 0 before it has joined one. */
    uint64_t epoch;
    /* The number of the last push that it has accepted in this epoch. */
    uint64_t seen;
    /* A `krl_lock_status`. */
    uint32_t lock;
    /* A `krl_write_status`. */
    uint32_t write;
    /* The number of its last write, or 0. */
    uint64_t number;
    /* KRL_WRITE_JUDGED: a `krl_outcome`. */
    uint64_t outcome;
} krl_client_state;

/* What a client believes that it holds at a point. Both parts are N unless the code is KRL_DONE. */
typedef struct krl_held {
    krl_reply reply;
    /* A `krl_range_part`. */
    uint32_t range;
    /* A `krl_key_part`. */
    uint32_t key;
} krl_held;

/* What a server shows of itself. All else is 0 unless the code is KRL_DONE. */
typedef struct krl_server_state {
    krl_reply reply;
    /* Its epoch: one more for each start. */
    uint64_t epoch;
    /* A `krl_phase`. */
    uint64_t phase;
} krl_server_state;

/* A client's record at a server. All else is 0 unless the code is KRL_DONE. */
typedef struct krl_recorded {
    krl_reply reply;
    krl_record record;
} krl_recorded;

/* How a client waits at a server. All else is 0 unless the code is KRL_DONE and it waits. */
typedef struct krl_waiting {
    krl_reply reply;
    /* The number of its lock request. */
    uint64_t request;
    /* It asks for the points from this one on below `hi`, and waits at the slot of this one. */
    uint64_t point;
    uint64_t hi;
    /* A `krl_mode`. */
    uint32_t mode;
    /* 1 if it waits. */
    uint32_t waits;
} krl_waiting;

/* What a client holds at a slot of a server. All else is 0 unless the code is KRL_DONE and it holds something. */
typedef struct krl_held_slot {
    krl_reply reply;
    /* The slot's points, from `lo` on below `hi`. The last one, `hi` - 1, is its entry, or KRL_END. */
    uint64_t lo;
    uint64_t hi;
    /* A `krl_mode` other than KRL_N. */
    uint32_t mode;
    /* 1 if it holds something. */
    uint32_t holds;
} krl_held_slot;

/* Entries of a server's index. All else is 0 unless the code is KRL_DONE. */
typedef struct krl_page {
    krl_reply reply;
    /* The key at which the entries of the range begin that are left out, or the end of the range if none is. */
    uint64_t next;
    /* They rest on this many notes of the handle, from the first one on. */
    uint64_t after;
} krl_page;

/* Leases. Moments and lengths are in nanoseconds. */

/* The lease of one incarnation of a client, by the client's clock. */
typedef struct krl_lease {
    /* From this moment on the client answers nothing from its cache. KRL_FOR_EVER: the lease does not end. */
    uint64_t end;
    /* What the last terms granted, which each sign states: 0 before the first terms. */
    uint64_t length;
    /* The sign that the last terms answered: the moment at which it was sent. */
    uint64_t stamp;
} krl_lease;

/* What a scan has answered, while it waits for its lease. Only the library reads and writes it: one of zeros was
 * answered before. */
typedef struct krl_leased_scan {
    krl_reply found;
    uint32_t waits;
} krl_leased_scan;

/* What a server grants. */
typedef struct krl_terms {
    /* The length of each lease: KRL_FOR_EVER if the server has no leases. */
    uint64_t length;
    /* How much further the server's clock may go than a client's meanwhile, in a hundred. */
    uint32_t drift;
} krl_terms;

/* A client's sign, as its server's host takes it. */
typedef struct krl_sign {
    uint64_t incarnation;
    /* When it was sent, by the client's clock. The terms return it as it is. */
    uint64_t stamp;
    /* The length of the lease by which the client lives: 0 before its first terms, and KRL_FOR_EVER if its lease does
     * not end. */
    uint64_t length;
    /* The incarnation of which its host knows that it answers no more, since no process of it is left. 0 if it knows
     * of none. */
    uint64_t over;
    /* 0 if nobody vouches for anything. Any other number: an operator vouches that no older incarnation answers any
     * more. */
    uint32_t is_vouched;
} krl_sign;

/* What a store has of a client, as a server starts. */
typedef struct krl_stored_lease {
    /* The incarnation that was registered last, or 0. */
    uint64_t incarnation;
    /* 0 if it has not left. */
    uint32_t has_left;
    /* 0 if each lease that the client may have ends. Any other number: it may have one that does not end, as each
     * client of a store has that keeps nothing of leases. */
    uint32_t is_unleased;
} krl_stored_lease;

/* The terms that may leave to a client. All else is 0 unless the code is KRL_DONE and there are some. */
typedef struct krl_grant {
    krl_reply reply;
    uint64_t incarnation;
    /* That of the sign which they answer. */
    uint64_t stamp;
    /* The length of the lease from that moment on. */
    uint64_t length;
    /* 1 if there are terms. */
    uint32_t is_there;
} krl_grant;

/* What a table of leases shows of a client. All else is 0 unless the code is KRL_DONE. */
typedef struct krl_lease_shown {
    krl_reply reply;
    /* The incarnation that was registered last, or 0. */
    uint64_t registered;
    /* If that may answer, until when, by the server's clock. KRL_FOR_EVER: its lease does not end. */
    uint64_t end;
    /* The greatest incarnation of which a sign has come since the server started, or 0. */
    uint64_t signer;
    /* What the store has to have: no lease that ends and may still run is longer than this. It is the same for all
     * clients. */
    uint64_t longest;
    /* 1 if the registered incarnation may answer. */
    uint32_t is_present;
    /* What the store has to have: 1 if the client may have a lease that does not end. */
    uint32_t is_unleased;
} krl_lease_shown;

/* What a table of leases has of a client. Only the library reads and writes it. */
typedef struct krl_lease_row {
    uint64_t registered;
    uint64_t end;
    uint64_t signer;
    uint64_t over;
    uint64_t asked;
    uint64_t stamp;
    uint64_t commits;
    uint32_t standing;
    uint32_t older;
    uint32_t is_asked;
    uint32_t is_unleased;
} krl_lease_row;

/* A table of leases. Only the library reads and writes it; it may be copied, and needs no call at its end. */
typedef struct krl_lease_table {
    uint64_t length;
    uint64_t longest;
    uint64_t old_end;
    uint64_t begun;
    uint64_t made;
    uint32_t drift;
    uint32_t is_open;
    krl_lease_row rows[KRL_CLIENTS];
} krl_lease_table;

/* What one shard has of a span: the points from `lo` on below `hi`. */
typedef struct krl_part {
    /* The shard, from 0. */
    uint64_t shard;
    uint64_t lo;
    uint64_t hi;
} krl_part;

#endif
