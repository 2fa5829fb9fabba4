/* krl_client: a client of a krl server over a network, for C and every language that calls C.
 *
 * A client joins a server, or all servers of a map of shards, as one of 64 numbers. It locks ranges of keys, keeps
 * their rows in a cache, and answers reads from there without a message. A thread of the library keeps the connection
 * and makes it again after it breaks.
 *
 *     krlc_options options = {.size = sizeof options, .servers = "127.0.0.1:7400"};
 *     krlc_error error;
 *     krlc_client *client;
 *     krlc_rows *rows = krlc_rows_new();
 *     if (krlc_join(&options, &client, &error) != KRLC_OK
 *         || krlc_insert(client, 15, "hello", 5, 0, &error) > KRLC_ANSWERS
 *         || krlc_read(client, 10, 20, rows, 0, &error) != KRLC_OK)
 *         fprintf(stderr, "%s\n", error.sentence);
 *
 * Results. Each call returns a code. KRLC_OK means that it did what it should. A code up to KRLC_ANSWERS is another
 * answer, such as KRLC_EXISTS or KRLC_MISS: nothing failed, and `error` is not written. A greater code is an error, and
 * then `error` has the code and a sentence for people. `error` may be null. An output parameter is written only if the
 * code is KRLC_OK, unless its call describes something else.
 *
 * Ranges. A range has the keys from `lo` on below `hi`. `lo` is at most `hi`, and `hi` at most KRLC_TOP; otherwise the
 * call returns KRLC_BAD_RANGE. Keys are below KRLC_END.
 *
 * Threads. Calls that take a client, a pin or a reader may be made by any threads at the same time, except the call
 * that frees it: no other call may use it during that call or after it. Calls that take rows or an error are made by
 * one thread at a time for each of these. Which thread makes a call never matters.
 *
 * Waiting. A call with a `timeout_ms` waits for an answer for at most that many milliseconds, and at most a year. 0
 * means the client's timeout. `krlc_join`, `krlc_evict` and `krlc_free` wait as they describe. Every other call waits
 * for at most one step of the client, which takes microseconds.
 *
 * Misuse. A null pointer where none may be, a handle that was freed, and text that is not UTF-8 return KRLC_MISUSE. A
 * freed handle is detected as long as fewer than 1,000 handles of its kind have been freed since. No call unwinds into
 * its caller: a fault of the library returns KRLC_INTERNAL.
 *
 * Processes. A client does not survive `fork`: in the child, calls that take a client or a pin of the parent return
 * KRLC_FORKED, and freeing it there leaves the parent's client as it is. The child may join under another number. It
 * has the parent's lock file open: if the parent is killed, its number is not free again before the child has ended or
 * has called `exec`. The library starts no process, installs no signal handler, and its writes raise no SIGPIPE. Once
 * loaded, it stays until the process ends.
 *
 * The end. A process that calls `exit`, or returns from `main`, leaves with each of its clients, and waits at most a
 * second for that. From then on their calls return KRLC_LEFT, also in functions that were given to `atexit` before the
 * first client joined. `_exit`, a signal and Go's `os.Exit` end a process without that. Then a server at a Unix socket
 * evicts its clients at once, and another server when their leases have ended.
 */
#ifndef KRL_CLIENT_H
#define KRL_CLIENT_H

#include <stdbool.h>
#include <stddef.h>
#include <stdint.h>

#if defined(__cplusplus) && __cplusplus >= 201703L
#define KRLC_NODISCARD [[nodiscard]]
#elif defined(__GNUC__)
#define KRLC_NODISCARD __attribute__((warn_unused_result))
#else
#define KRLC_NODISCARD
#endif

#ifdef __cplusplus
extern "C" {
#endif

/* The version of this interface. Two versions with the same major and the same minor number fit each other. */
#define KRLC_VERSION_MAJOR 0
#define KRLC_VERSION_MINOR 1
#define KRLC_VERSION_PATCH 0
#define KRLC_VERSION (KRLC_VERSION_MAJOR * 1000000 + KRLC_VERSION_MINOR * 1000 + KRLC_VERSION_PATCH)

/* One past the greatest key. */
#define KRLC_END UINT64_C(9223372036854775807)

/* The greatest end of a range: one past KRLC_END, since a range may include the gap after the last key. */
#define KRLC_TOP UINT64_C(9223372036854775808)

/* The numbers of clients are 0 and greater, and below this. */
#define KRLC_NUMBERS 64

/* The most bytes of a value. */
#define KRLC_MAX_VALUE_BYTES 32

/* The most bytes of an error's sentence, with the zero that ends it. */
#define KRLC_MAX_SENTENCE_BYTES 500

/* A lease that does not end. */
#define KRLC_FOR_EVER UINT64_MAX

/* What a call returns. */
typedef enum krlc_code {
    /* The call did what it should. A write was applied. */
    KRLC_OK = 0,

    /* Answers. */

    /* An insert of a key that has a row. */
    KRLC_EXISTS = 1,
    /* A put or a delete of a key that has no row, or a read of one. */
    KRLC_ABSENT = 2,
    /* An insert into a table that has as many rows as its server has room for. */
    KRLC_FULL = 3,
    /* The client did not hold what the write needs: the write changed nothing, and may be made again. */
    KRLC_NOT_HELD = 4,
    /* The cache does not have the whole range. */
    KRLC_MISS = 5,
    /* The range did not change within the time. */
    KRLC_UNCHANGED = 6,
    /* There are more rows than the caller has room for. */
    KRLC_TOO_SHORT = 7,
    /* The greatest code of an answer; no call returns it. */
    KRLC_ANSWERS = 15,

    /* Errors of the caller. */

    /* A null pointer, a freed handle, text that is not UTF-8, or an option that is missing or contradicts another. */
    KRLC_MISUSE = 16,
    /* The range begins above its end, ends above KRLC_TOP, or is empty and may not be. */
    KRLC_BAD_RANGE = 17,
    /* The key is KRLC_END or greater. */
    KRLC_BAD_KEY = 18,
    /* The value has more than KRLC_MAX_VALUE_BYTES bytes. */
    KRLC_TOO_LONG = 19,
    /* The client's number is above 63. */
    KRLC_BAD_NUMBER = 20,
    /* The text of the servers is not a list of addresses; or what answers at the only one is not a krl server. */
    KRLC_BAD_ADDRESS = 21,
    /* The file of the map of shards cannot be read, or is not a map. */
    KRLC_BAD_MAP = 22,
    /* A file for TLS cannot be read or does not fit the others; or the library was built without TLS. */
    KRLC_BAD_TLS = 23,
    /* The lock file cannot be used, or is that of another number. */
    KRLC_LOCK_FILE = 24,
    /* The range meets a pin of this client. */
    KRLC_PINNED = 25,
    /* The client has eight pins. */
    KRLC_TOO_MANY_PINS = 26,
    /* The client has left. */
    KRLC_LEFT = 27,
    /* The client or the pin belongs to the parent of this process. */
    KRLC_FORKED = 28,
    /* Another client has the lock file, in this or another process; or those of all numbers are in use. */
    KRLC_LOCK_FILE_TAKEN = 29,

    /* Errors after which a write may have been applied, or may still be: see `krlc_is_unknown_outcome`. */

    /* No answer came within the timeout. A write was sent: see KRLC_NOT_MADE. */
    KRLC_TIMED_OUT = 40,
    /* No answer came within the timeout, and the server reported why it does not serve the client. */
    KRLC_UNSERVED = 41,
    /* The server's store is an older copy or another one: the client drops its cache and its pins, and joins again. */
    KRLC_STORE_WENT_BACK = 42,
    /* The client's lease ended during the write: the client drops its cache and its pins, and joins again. */
    KRLC_LEASE_ENDED = 43,
    /* The client's thread has ended because of a fault of the library. */
    KRLC_STOPPED = 44,
    /* A fault of the library, which is printed on standard error. */
    KRLC_INTERNAL = 45,
    /* Of one of several writes: it may have been applied, or may still be. No call returns it. */
    KRLC_UNKNOWN = 46,

    /* Other errors: a write that returned one of these changes nothing. */

    /* This side of the connection has no right to the client's number. */
    KRLC_TURNED_AWAY = 60,
    /* The server serves another shard, or by another map. */
    KRLC_OTHER_SHARD = 61,
    /* The write is bound to a pin, and the pin is void: the write was not made. */
    KRLC_PIN_IS_VOID = 62,
    /* Memory was refused. */
    KRLC_OUT_OF_MEMORY = 63,
    /* The system has no thread for the client's connection. */
    KRLC_NO_THREAD = 64,
    /* The write was not sent within the timeout: the client was not connected, or waited for a lock. The error has the
     * server's reason if it gave one. Or the server's store went back, or the client's thread ended, before the write
     * was sent: the error's text states which. Also of one of several writes: it was not made. */
    KRLC_NOT_MADE = 66,
    /* Nothing listens at the only address of the servers: it has refused connections for a second, or there is no such
     * socket. Only a client that joins returns it. */
    KRLC_NOTHING_LISTENS = 67
} krlc_code;

/* Why a server does not serve a client. The numbers are those of `docs/STREAM.md`. */
typedef enum krlc_reason {
    /* The server gave no reason, or the error is another one. */
    KRLC_NO_REASON = -1,
    /* It reads messages of another version. */
    KRLC_REASON_VERSION = 0,
    /* It has no client of this number. */
    KRLC_REASON_CLIENT_NUMBER = 1,
    /* It knows a later incarnation of the client: another process is that client, or it was evicted. */
    KRLC_REASON_INCARNATION = 2,
    /* It has all the connections that it takes. */
    KRLC_REASON_FULL = 3,
    /* It recovers, and waits for the reports of other clients. */
    KRLC_REASON_MISSING = 4,
    /* An earlier incarnation of the client may still answer from its cache: its process lives, or its lease runs. */
    KRLC_REASON_LEASE_RUNS = 5,
    /* This side of the connection has no right to the client's number. */
    KRLC_REASON_DENIED = 6,
    /* It serves another shard, or by another map. */
    KRLC_REASON_OTHER_SHARD = 7,
    /* The client's clock is more than a day ahead of the server's. */
    KRLC_REASON_FAR_AHEAD = 8,
    /* It serves another store than the one that the client has seen. */
    KRLC_REASON_OTHER_STORE = 9
} krlc_reason;

/* A client. */
typedef struct krlc_client krlc_client;

/* A pinned range of a client. */
typedef struct krlc_pin krlc_pin;

/* What reads without being a client. */
typedef struct krlc_reader krlc_reader;

/* Room for the rows of one answer, which is used again by the next. */
typedef struct krlc_rows krlc_rows;

/* A row. The bytes past the value's length have no meaning. */
typedef struct krlc_row {
    uint64_t key;
    /* The number of bytes of the value, at most KRLC_MAX_VALUE_BYTES. */
    uint64_t length;
    uint8_t bytes[KRLC_MAX_VALUE_BYTES];
} krlc_row;

/* What a write of several does. */
typedef enum krlc_kind {
    /* As `krlc_insert`. */
    KRLC_INSERT = 0,
    /* As `krlc_put`. */
    KRLC_PUT = 1,
    /* As `krlc_set`. */
    KRLC_SET = 2,
    /* As `krlc_delete`, which uses the key of the row only. */
    KRLC_DELETE = 3,
} krlc_kind;

/* One write of several, and what became of it. */
typedef struct krlc_write {
    /* A `krlc_kind`. */
    uint32_t kind;
    /* Written by the call: KRLC_OK or another answer of this write; KRLC_UNKNOWN; or KRLC_NOT_MADE. */
    uint32_t outcome;
    krlc_row row;
} krlc_write;

/* What went wrong. */
typedef struct krlc_error {
    /* A `krlc_code`. */
    uint32_t code;
    /* The shard that refused the call, from 0; -1 if there is no map or no shard did. */
    int32_t shard;
    /* A `krlc_reason`: with KRLC_UNSERVED that of the server, otherwise KRLC_NO_REASON. */
    int32_t reason;
    /* In English, in UTF-8, ended by a zero. */
    char sentence[KRLC_MAX_SENTENCE_BYTES];
} krlc_error;

/* How a client joins. A pointer may be null and a number 0 where a default is named. Later versions append members, so
 * a caller sets `size` to the size of this struct and the rest to zero: `krlc_options options = {.size = sizeof
 * options, .servers = "127.0.0.1:7400"}`. A size that is not that of a released version is KRLC_MISUSE. The texts are
 * read by `krlc_join` only. */
typedef struct krlc_options {
    size_t size;
    /* The addresses of the servers over one store, with commas between them: "127.0.0.1:7400",
     * "tls:db1:7400,tls:db2:7400", "unix:/run/krl.socket". Either this or `map` is not null. */
    const char *servers;
    /* The file of a map of shards. */
    const char *map;
    /* With `servers` and `number`, the lock file of this number on this machine, which is made if there is none. With
     * `map` or `numbers`, an existing folder for such files: one for each number and each shard. If it is null, and
     * `number` and `numbers` are 0, the client takes the first number that is free, by a lock file in the folder `krl`
     * of $XDG_STATE_HOME or of $HOME/.local/state, which is made if there is none. This is for servers with leases: a
     * server without them cannot distinguish a silent client of another machine from one that is gone. */
    const char *lock_file;
    /* The client's number, from 0 to 63: one process at a time may be the client of a number. */
    uint32_t number;
    /* In place of `number`, several numbers, of which the client takes the first that is free. Each is a bit: 1 << 3 is
     * for the number 3. A number whose lock file another process has is skipped at once, and one that the server
     * reports as in use is skipped after a second. */
    uint64_t numbers;
    /* How long a call waits for an answer, in milliseconds, at most a year: 15,000 by default. */
    uint64_t timeout_ms;
    /* How long `krlc_join` waits, in milliseconds, while another process has the number, as its server reports it: as
     * long as the timeout by default. */
    uint64_t wait_if_in_use_ms;
    /* The files for TLS, as PEM: the authority's certificate, this side's certificate and its key. All of them or none
     * are null. */
    const char *tls_authority;
    const char *tls_certificate;
    const char *tls_key;
    /* The table's name in certificates: none by default. */
    const char *table;
    /* With `map`, the range of keys that the client uses: it joins only the shards that have some of them. All keys by
     * default, which is also 0 and 0. */
    uint64_t lo;
    uint64_t hi;
} krlc_options;

/* What a client shows of its connection to a server. */
typedef struct krlc_status {
    /* The shard, by its place in the map; 0 without a map. */
    uint64_t shard;
    /* How many times the server had started when the client joined it, or 0 while the client joins. */
    uint64_t epoch;
    /* The client's incarnation: each is greater than the one before, and each end of a lease begins another. */
    uint64_t incarnation;
    /* For how many milliseconds the client may still answer from its cache if nothing more comes from the server, or
     * KRLC_FOR_EVER from a server without leases. */
    uint64_t lease_left_ms;
    /* Whether there is a connection at this moment. */
    bool is_connected;
} krlc_status;

/* The KRLC_VERSION of the library: a program that loads it compares it with the header's. */
uint32_t krlc_version(void);

/* The name of a code, such as "KRLC_TIMED_OUT"; "?" for a number that is not a code. It is never freed. */
const char *krlc_code_name(uint32_t code);

/* Whether a write that returned this code may have been applied, or may still be. A read of the key by the same client
 * waits until that is decided, and shows it; other clients may read the key before. */
bool krlc_is_unknown_outcome(uint32_t code);

/* Clients. */

/* Joins, and waits until the server serves the client. The client is freed by `krlc_free`. The shards of a map may be
 * changing: it waits until the timeout for a server that is of another shard or is not there, and continues by a next
 * map in its file. Errors: KRLC_MISUSE, KRLC_BAD_NUMBER, KRLC_BAD_ADDRESS, KRLC_BAD_MAP, KRLC_BAD_TLS, KRLC_BAD_RANGE,
 * KRLC_LOCK_FILE, KRLC_LOCK_FILE_TAKEN, KRLC_NO_THREAD, KRLC_TIMED_OUT, KRLC_NOTHING_LISTENS, KRLC_UNSERVED,
 * KRLC_TURNED_AWAY, KRLC_OTHER_SHARD, KRLC_OUT_OF_MEMORY. Then `client` is null. */
KRLC_NODISCARD uint32_t krlc_join(const krlc_options *options, krlc_client **client, krlc_error *error);

/* Ends the client of a number for good, if its process is gone and will not come back: an operator's call. It joins by
 * the options as an incarnation that is greater than that one, which takes all from it, and leaves. Only `servers`,
 * `number`, `lock_file` and the options for TLS are set.
 *
 * A client with a lease is evicted when that ends: this call waits a minute at most for it. A client that lives is not
 * evicted, since its lease does not end. *The process of a client without a lease has to be dead*: one that runs may
 * continue to answer from its cache with outdated rows. Errors: those of `krlc_join`; KRLC_UNSERVED, by
 * KRLC_REASON_LEASE_RUNS, if the lease does not end in time. */
KRLC_NODISCARD uint32_t krlc_evict(const krlc_options *options, krlc_error *error);

/* Gives back all that the client holds, and waits until each server has that on its disk. From then on its calls and
 * writes by its pins return KRLC_LEFT, and its cache has nothing. To leave again is KRLC_OK. Errors: KRLC_TIMED_OUT,
 * KRLC_UNSERVED, KRLC_TURNED_AWAY, KRLC_OTHER_SHARD, KRLC_STOPPED: other clients may wait for what this client held. */
KRLC_NODISCARD uint32_t krlc_leave(krlc_client *client, uint64_t timeout_ms, krlc_error *error);

/* Frees a client. One that has not left leaves, and this call waits at most a second for that. Pins may be freed before
 * or after it; the client's number is free again after both. A null pointer and a freed client change nothing. */
void krlc_free(krlc_client *client);

/* From now on, calls whose `timeout_ms` is 0 wait for this many milliseconds, from 1 to a year: greater numbers count
 * as a year. Errors: KRLC_MISUSE for 0. */
KRLC_NODISCARD uint32_t krlc_set_timeout(krlc_client *client, uint64_t timeout_ms, krlc_error *error);

/* From now on the client keeps what it reads until another client wants to write it. Otherwise, where others have
 * written more of its rows than its cache has answered scans, it gives back what it has just written, and takes no lock
 * to read: each read there asks the server, also while that is down, and `krlc_cached` returns KRLC_MISS, until the
 * client has tried again after some hundred reads. What was pinned, or watched for changes, it keeps; and so does a
 * client of a map. A tenure counts as a scan. Call this to read while the server is down. Errors: KRLC_MISUSE. */
KRLC_NODISCARD uint32_t krlc_keep_all(krlc_client *client, krlc_error *error);

/* From now on the client follows the file `map` of its options: it continues by each map that it finds there whose
 * version is greater. Calls at shards that are the same in the next map notice nothing; calls at the others wait, and
 * are made by the next map. A pin no longer holds at a shard that has changed. Errors: KRLC_MISUSE if the client has no
 * map with a version; KRLC_NO_THREAD. */
KRLC_NODISCARD uint32_t krlc_follow(krlc_client *client, krlc_error *error);

/* Reads the files for TLS again: connections that are made from now on use them. Errors: KRLC_BAD_TLS, also if the
 * client has none. Then the earlier ones stay. */
KRLC_NODISCARD uint32_t krlc_reload_tls(krlc_client *client, krlc_error *error);

/* The client's number: the one that was free. KRLC_NUMBERS if the client cannot be used. */
uint32_t krlc_number(krlc_client *client);

/* How many shards the client has joined: 1 without a map. 0 if the client cannot be used. */
size_t krlc_joined(krlc_client *client);

/* The status at one of these, from 0 on. Errors: KRLC_MISUSE, also for a place beyond them. */
KRLC_NODISCARD uint32_t krlc_status_at(krlc_client *client, size_t place, krlc_status *status, krlc_error *error);

/* Reads. The rows of an answer are the range of the table at one moment of the call, in the order of their keys. An
 * empty range has no rows. */

/* Reads from the cache only: KRLC_OK, or KRLC_MISS if the cache does not have the whole range. It sends nothing, takes
 * no lock, and does not wait for other reads. Errors: KRLC_MISUSE, KRLC_FORKED, and KRLC_BAD_RANGE as of `krlc_read`,
 * with a map also for keys of a shard that the client has not joined; the sentence is left out. */
KRLC_NODISCARD uint32_t krlc_cached(krlc_client *client, uint64_t lo, uint64_t hi, krlc_rows *rows);

/* The same into the caller's room for `room` rows. `count` receives the number of the rows: also with KRLC_TOO_SHORT,
 * if that is more than the room has, and then the first rows fill the room. */
KRLC_NODISCARD uint32_t krlc_cached_into(krlc_client *client, uint64_t lo, uint64_t hi, krlc_row *at, size_t room,
                                         size_t *count);

/* Reads one row from the cache only: KRLC_OK, and then `row` receives it; KRLC_ABSENT if the cache has the key and
 * there is no row; or KRLC_MISS. Errors: KRLC_MISUSE, KRLC_BAD_KEY, KRLC_FORKED. */
KRLC_NODISCARD uint32_t krlc_cached_row(krlc_client *client, uint64_t key, krlc_row *row);

/* The tenure of a range that is not empty: KRLC_OK, or KRLC_MISS if the cache does not have the whole range. If two
 * calls return the same tenure of a range, its rows were the same at each moment from the first call to the second: the
 * client has held the range without a break, and has written nothing there. A program that keeps what it has loaded
 * elsewhere while the rows stayed as they were takes the tenure, loads, and uses what it has loaded as long as the
 * tenure is the same. A new tenure may also be due to the loss of another range, if the client has lost thousands of
 * keys. Tenures of different clients or ranges are not compared. It sends nothing, and does not wait for other reads.
 * Errors: KRLC_MISUSE, KRLC_FORKED, KRLC_BAD_RANGE; the sentence is left out. */
KRLC_NODISCARD uint32_t krlc_tenure(krlc_client *client, uint64_t lo, uint64_t hi, uint64_t *tenure);

/* Reads from the cache if that has the range; otherwise locks what it lacks, and waits. Errors: KRLC_BAD_RANGE,
 * KRLC_TIMED_OUT, KRLC_UNSERVED, KRLC_TURNED_AWAY, KRLC_OTHER_SHARD, KRLC_STORE_WENT_BACK, KRLC_OUT_OF_MEMORY,
 * KRLC_STOPPED, KRLC_LEFT. */
KRLC_NODISCARD uint32_t krlc_read(krlc_client *client, uint64_t lo, uint64_t hi, krlc_rows *rows, uint64_t timeout_ms,
                                  krlc_error *error);

/* Reads the rows as the server's store has them, over a connection of its own, and keeps nothing: it takes no lock, and
 * no write waits for this client because of it. More than 128 rows, and the parts of several shards, are read one part
 * after another, each at a moment of its own. It does not wait for a write of this client whose outcome is unknown.
 * Threads that make this call take turns. Errors: those of `krlc_read`. */
KRLC_NODISCARD uint32_t krlc_read_once(krlc_client *client, uint64_t lo, uint64_t hi, krlc_rows *rows,
                                       uint64_t timeout_ms, krlc_error *error);

/* Reads one row, as `krlc_read` does: KRLC_OK, and then `row` receives it; or KRLC_ABSENT if there is none. Errors:
 * KRLC_BAD_KEY, and those of `krlc_read`. */
KRLC_NODISCARD uint32_t krlc_get(krlc_client *client, uint64_t key, krlc_row *row, uint64_t timeout_ms,
                                 krlc_error *error);

/* Waits for at most this many milliseconds, with 0 not at all, until the client no longer knows that the range has just
 * these rows. KRLC_OK means that a read may have something new; KRLC_UNCHANGED that the time is over. It sends nothing.
 * For a range that the cache does not have, it is KRLC_OK at once. The rows are those of an earlier answer, in the
 * order of their keys. Errors: KRLC_MISUSE, KRLC_BAD_RANGE, KRLC_TOO_LONG, KRLC_STOPPED. */
KRLC_NODISCARD uint32_t krlc_wait_for_change(krlc_client *client, uint64_t lo, uint64_t hi, const krlc_row *rows,
                                             size_t count, uint64_t timeout_ms, krlc_error *error);

/* Gives back what the client holds of the range, and waits until a write on its way is answered. Errors: those of
 * `krlc_read`, and KRLC_PINNED. */
KRLC_NODISCARD uint32_t krlc_forget(krlc_client *client, uint64_t lo, uint64_t hi, uint64_t timeout_ms,
                                    krlc_error *error);

/* Writes. Each waits until the server has it on its disk, or has refused it. Answers: KRLC_EXISTS and KRLC_FULL of an
 * insert, KRLC_ABSENT of a put and of a delete. Errors: KRLC_BAD_KEY, KRLC_TOO_LONG, KRLC_TIMED_OUT, KRLC_UNSERVED,
 * KRLC_NOT_MADE, KRLC_TURNED_AWAY, KRLC_OTHER_SHARD, KRLC_STORE_WENT_BACK, KRLC_LEASE_ENDED, KRLC_OUT_OF_MEMORY,
 * KRLC_STOPPED, KRLC_LEFT. `bytes` may be null if the length is 0. */

/* Inserts a row. */
KRLC_NODISCARD uint32_t krlc_insert(krlc_client *client, uint64_t key, const void *bytes, size_t length,
                                    uint64_t timeout_ms, krlc_error *error);

/* Replaces the value of a row. */
KRLC_NODISCARD uint32_t krlc_put(krlc_client *client, uint64_t key, const void *bytes, size_t length,
                                 uint64_t timeout_ms, krlc_error *error);

/* Gives a key this value, whether or not it has a row. It is a put, and an insert if there is no row; and so on in
 * turn, for as long as other clients make and delete the row in between. All its writes together take `timeout_ms` at
 * most. Answers: KRLC_OK, or KRLC_FULL if there was no row and there is no room for one. */
KRLC_NODISCARD uint32_t krlc_set(krlc_client *client, uint64_t key, const void *bytes, size_t length,
                                 uint64_t timeout_ms, krlc_error *error);

/* Deletes a row. */
KRLC_NODISCARD uint32_t krlc_delete(krlc_client *client, uint64_t key, uint64_t timeout_ms, krlc_error *error);

/* Makes several writes in one call, one after the other: their outcomes are written to `writes`. A write whose outcome
 * is KRLC_EXISTS, KRLC_ABSENT or KRLC_FULL ends no other one, and the call returns KRLC_OK. It is not a transaction:
 * other clients may see the first writes without the others, also after a crash, and may write in between. With a map,
 * the writes of each shard are made in their order, and those of all shards at the same time. All writes together take
 * `timeout_ms` at most. Errors: those of `krlc_insert`, for the first write that was not judged; and KRLC_MISUSE,
 * KRLC_TOO_LONG and KRLC_BAD_KEY before any write is made. After an error at each server at most one write is
 * KRLC_UNKNOWN: a read of its key by this client shows it. Those that are KRLC_NOT_MADE change nothing. */
KRLC_NODISCARD uint32_t krlc_write_all(krlc_client *client, krlc_write *writes, size_t count, uint64_t timeout_ms,
                                       krlc_error *error);

/* Pins. While a pin lives, no other client takes what this client holds of the range: others wait. A client has at most
 * eight pins at a server. A pin becomes void if the client's lease ends or the server's store goes back. */

/* Pins the range as the client holds it, without reading it. Without a map it does not wait; with one it does what
 * `krlc_pin_for_read` does. The range is not empty. Errors: KRLC_BAD_RANGE, KRLC_TOO_MANY_PINS, KRLC_STORE_WENT_BACK,
 * KRLC_LEASE_ENDED, KRLC_UNSERVED, KRLC_LEFT. Then `pin` is null, which holds for the next three calls too. */
KRLC_NODISCARD uint32_t krlc_pin_held(krlc_client *client, uint64_t lo, uint64_t hi, krlc_pin **pin,
                                      uint64_t timeout_ms, krlc_error *error);

/* Reads the range and pins it. `rows` may be null. Errors: those of `krlc_read`, and KRLC_TOO_MANY_PINS. */
KRLC_NODISCARD uint32_t krlc_pin_for_read(krlc_client *client, uint64_t lo, uint64_t hi, krlc_rows *rows,
                                          krlc_pin **pin, uint64_t timeout_ms, krlc_error *error);

/* The same, and no other client pins an overlapping range for an update while the pin lives: to read the range, and
 * then to write there. */
KRLC_NODISCARD uint32_t krlc_pin_for_update(krlc_client *client, uint64_t lo, uint64_t hi, krlc_rows *rows,
                                            krlc_pin **pin, uint64_t timeout_ms, krlc_error *error);

/* The same, and no other client reads the range while the pin lives: for threads that pin and write through one
 * client at the same time. */
KRLC_NODISCARD uint32_t krlc_pin_for_write(krlc_client *client, uint64_t lo, uint64_t hi, krlc_rows *rows,
                                           krlc_pin **pin, uint64_t timeout_ms, krlc_error *error);

/* Whether no other client has taken anything of the range since it was pinned: KRLC_OK, or KRLC_PIN_IS_VOID, for which
 * no sentence is written. A caller asks after its work: the answer is that of a moment of this call. */
KRLC_NODISCARD uint32_t krlc_pin_holds(krlc_pin *pin);

/* Writes that are made while the pin holds, or never. The key may be outside the range, but with a map at a shard that
 * has a part of it. Answers and errors: those of `krlc_insert`, and KRLC_PIN_IS_VOID. */
KRLC_NODISCARD uint32_t krlc_pin_insert(krlc_pin *pin, uint64_t key, const void *bytes, size_t length,
                                        uint64_t timeout_ms, krlc_error *error);
KRLC_NODISCARD uint32_t krlc_pin_put(krlc_pin *pin, uint64_t key, const void *bytes, size_t length,
                                     uint64_t timeout_ms, krlc_error *error);
KRLC_NODISCARD uint32_t krlc_pin_set(krlc_pin *pin, uint64_t key, const void *bytes, size_t length,
                                     uint64_t timeout_ms, krlc_error *error);
KRLC_NODISCARD uint32_t krlc_pin_delete(krlc_pin *pin, uint64_t key, uint64_t timeout_ms, krlc_error *error);

/* Makes several writes as `krlc_write_all` does, each while the pin holds, or never. With a pin of
 * `krlc_pin_for_write`, writes in its range ask for no locks. Errors: those of `krlc_write_all`, and KRLC_PIN_IS_VOID.
 * */
KRLC_NODISCARD uint32_t krlc_pin_write_all(krlc_pin *pin, krlc_write *writes, size_t count, uint64_t timeout_ms,
                                           krlc_error *error);

/* Ends a pin: other clients get the range that they wait for. A null pointer and a freed pin change nothing. If the
 * client was freed before, its last pin may wait a second for servers that do not answer. */
void krlc_pin_free(krlc_pin *pin);

/* Readers. A reader is not a client: it has no number, no lock file and no lease, and keeps nothing. Each call asks the
 * server, and waits for the timeout of the reader's options at most. A reader follows the file `map` of its options,
 * also while it connects: if a server does not answer or is of another shard, it asks by the next map that it finds
 * there. A server takes 1,024 readers next to its clients. Threads that call one reader take turns. A reader belongs to
 * its process, as a client does. */

/* Connects a reader by `servers` or `map`, `timeout_ms` and the options for TLS; with a map to the shards of the keys
 * from `lo` on below `hi`. It is freed by `krlc_reader_free`. Errors: KRLC_MISUSE, also if an option is set that only
 * clients have; KRLC_BAD_ADDRESS, KRLC_BAD_MAP, KRLC_BAD_TLS, KRLC_BAD_RANGE, KRLC_TIMED_OUT, KRLC_NOTHING_LISTENS,
 * KRLC_UNSERVED, KRLC_TURNED_AWAY, KRLC_OTHER_SHARD. Then `reader` is null. */
KRLC_NODISCARD uint32_t krlc_reader_connect(const krlc_options *options, krlc_reader **reader, krlc_error *error);

/* Reads the rows as the server's store has them, as `krlc_read_once` does. Errors: KRLC_BAD_RANGE, KRLC_TIMED_OUT,
 * KRLC_UNSERVED, KRLC_TURNED_AWAY, KRLC_OTHER_SHARD; KRLC_STORE_WENT_BACK, if the store lacks what an earlier call of
 * this reader may have returned. */
KRLC_NODISCARD uint32_t krlc_reader_read(krlc_reader *reader, uint64_t lo, uint64_t hi, krlc_rows *rows,
                                         krlc_error *error);

/* Reads one row in the same way: KRLC_OK, and then `row` receives it; or KRLC_ABSENT if there is none. Errors:
 * KRLC_BAD_KEY, and those of `krlc_reader_read`. */
KRLC_NODISCARD uint32_t krlc_reader_get(krlc_reader *reader, uint64_t key, krlc_row *row, krlc_error *error);

/* Frees a reader. A null pointer and a freed reader change nothing. */
void krlc_reader_free(krlc_reader *reader);

/* Rows. */

/* Room for rows, which is freed by `krlc_rows_free`. It grows as answers need it. Null if memory was refused. */
krlc_rows *krlc_rows_new(void);

/* The rows of the last answer, and their number in `count`. They are borrowed until the next call that takes these rows
 * other than this one. Null, with a count of 0, for a null or freed pointer; a call that failed leaves no rows. */
const krlc_row *krlc_rows_get(const krlc_rows *rows, size_t *count);

/* Frees rows. A null pointer and freed rows change nothing. */
void krlc_rows_free(krlc_rows *rows);

#ifdef __cplusplus
}
#endif

#endif
