/* krl_cache: reads cached tables of PostgreSQL from memory, for C and every language that calls C.
 *
 * The database has the extension `krl`, and any SQL writes the tables. A read from memory returns what a SELECT would
 * return at one moment of the call, and sends nothing. What is not in memory is answered by the database. docs/CACHE.md
 * describes the cache, and the crate krl_cache is the same for Rust.
 *
 *     krlcache_options options = {.size = sizeof options, .database = "postgres://shop@127.0.0.1/shop",
 *                                 .lock_folder = "/var/lib/shop/krl"};
 *     krlcache_error error;
 *     krlcache_cache *cache;
 *     krlcache_table *items;
 *     krlcache_rows *rows = krlcache_rows_new();
 *     const krlcache_value key = {.kind = KRLCACHE_INTEGER, .integer = 15};
 *     int64_t price;
 *     if (krlcache_open(&options, &cache, &error) != KRLCACHE_OK
 *         || krlcache_table_open(cache, "item", &items, &error) != KRLCACHE_OK
 *         || krlcache_get(items, &key, 1, rows, &error) > KRLCACHE_ANSWERS)
 *         errx(1, "%s", error.sentence);
 *     if (krlcache_int64(rows, 0, krlcache_find_column(rows, 0, "price"), &price, &error) == KRLCACHE_OK)
 *         printf("%lld\n", (long long)price);
 *
 * Results. Each call returns a code. KRLCACHE_OK means that it did what it should. A code up to KRLCACHE_ANSWERS is
 * another answer, such as KRLCACHE_ABSENT or KRLCACHE_IS_NULL: nothing failed, and `error` is not written. A greater
 * code is an error, and then `error` has the code and a sentence for people. `error` may be null. An output parameter
 * is written only if the code is KRLCACHE_OK. A code has the number that a code of the same name has in krl_client.h.
 *
 * Rows. A read puts its rows into the caller's `krlcache_rows`, which is used again by the next read. They stay as they
 * are until the next read into it or until it is freed, whatever becomes of the cache, the table and the database, and
 * so does what calls return that borrow from them. They are kept as PostgreSQL sends them, and converted when a column
 * is read. `row` is the place of a row, from 0, and `column` that of a column in the order of the table, from 0.
 *
 * Threads. Calls that take a cache or a table may be made by any threads at the same time, except the call that frees
 * it: no other call may use it during that call or after it. Rows are filled, shared and freed by one thread at a time,
 * and looked at by any number of threads while none of these calls is made. Which thread makes a call never matters.
 *
 * Waiting. The calls whose names begin with `krlcache_cached`, those of rows, `krlcache_fault`, `krlcache_table_fault`
 * and `krlcache_statistics_of` wait for nobody. `krlcache_close` waits until what the process holds is given back, for
 * two seconds at most, and the others for the database: at most for the option `timeout_ms`, and for a second more
 * until the database has ended a statement that is late.
 *
 * Misuse. A null pointer where none may be, a handle that was freed, and text that is not UTF-8 return KRLCACHE_MISUSE.
 * A freed handle is detected as long as fewer than 1,000 handles of its kind have been freed since. No call unwinds
 * into its caller: a fault of the library returns KRLCACHE_INTERNAL.
 *
 * Processes. A cache does not survive `fork`: in the child, calls that take a cache or a table of the parent return
 * KRLCACHE_FORKED, since nothing is taken back from the child's copy of the rows, and freeing it there leaves the
 * parent's as it is. Rows that were read before stay. The child may open a cache of its own. The library starts no
 * process and installs no signal handler, and once loaded, it stays until the process ends.
 *
 * The end. A process that calls `exit`, or returns from `main`, gives back all that its caches hold, and waits at most
 * a second for that. `_exit`, a signal and Go's `os.Exit` end a process without that. Then commits wait for its rows
 * until krl's server evicts it: at a Unix socket at once, otherwise when its lease has ended.
 */
#ifndef KRL_CACHE_H
#define KRL_CACHE_H

#include <stdbool.h>
#include <stddef.h>
#include <stdint.h>

#if defined(__cplusplus) && __cplusplus >= 201703L
#define KRLCACHE_NODISCARD [[nodiscard]]
#elif defined(__GNUC__)
#define KRLCACHE_NODISCARD __attribute__((warn_unused_result))
#else
#define KRLCACHE_NODISCARD
#endif

#ifdef __cplusplus
extern "C" {
#endif

/* The version of this interface. Two versions with the same major and the same minor number fit each other. */
#define KRLCACHE_VERSION_MAJOR 0
#define KRLCACHE_VERSION_MINOR 1
#define KRLCACHE_VERSION_PATCH 0
#define KRLCACHE_VERSION (KRLCACHE_VERSION_MAJOR * 1000000 + KRLCACHE_VERSION_MINOR * 1000 + KRLCACHE_VERSION_PATCH)

/* The most bytes of an error's sentence, with the zero that ends it. */
#define KRLCACHE_MAX_SENTENCE_BYTES 500

/* The place of a column that a row does not have. */
#define KRLCACHE_NO_COLUMN SIZE_MAX

/* What a call returns. */
typedef enum krlcache_code {
    /* The call did what it should. */
    KRLCACHE_OK = 0,

    /* Answers. */

    /* The key has no row. */
    KRLCACHE_ABSENT = 2,
    /* Not all of the rows are in memory. */
    KRLCACHE_MISS = 5,
    /* The column is NULL. */
    KRLCACHE_IS_NULL = 8,
    /* The greatest code of an answer; no call returns it. */
    KRLCACHE_ANSWERS = 15,

    /* Errors. */

    /* A null pointer, a freed handle, text that is not UTF-8, a row that an answer does not have, or an option that is
     * missing or contradicts another. */
    KRLCACHE_MISUSE = 16,
    /* The key is not one of the table: it has other columns, or they are of other types. */
    KRLCACHE_BAD_KEY = 18,
    /* The numbers of krl's clients are not a range of some of 0 to 63. */
    KRLCACHE_BAD_NUMBER = 20,
    /* The text of the option `database` is not an address of PostgreSQL. */
    KRLCACHE_BAD_ADDRESS = 21,
    /* A file for TLS cannot be read or does not fit the others. */
    KRLCACHE_BAD_TLS = 23,
    /* The cache or the table belongs to the parent of this process. */
    KRLCACHE_FORKED = 28,
    /* A fault of the library, which is printed on standard error. */
    KRLCACHE_INTERNAL = 45,
    /* Memory was refused. */
    KRLCACHE_OUT_OF_MEMORY = 63,
    /* The database refused the call, or did not answer in time. */
    KRLCACHE_DATABASE = 80,
    /* The database has no extension `krl`, or one of another version. */
    KRLCACHE_NO_EXTENSION = 82,
    /* The key has several rows: `krlcache_get_all` reads all of them. */
    KRLCACHE_SEVERAL_ROWS = 83,
    /* The row has no such column, or its type does not fit. */
    KRLCACHE_BAD_COLUMN = 84,
    /* The system refused the folder of the lock files, a thread or a connection. */
    KRLCACHE_SYSTEM = 85,
    /* Rows are not kept. Only `krlcache_fault` and `krlcache_table_fault` return it. */
    KRLCACHE_AWAY = 86
} krlcache_code;

/* The type of a value of a key. */
typedef enum krlcache_kind {
    /* Of a column of type smallint, integer or bigint: the member `integer`. */
    KRLCACHE_INTEGER = 0,
    /* Of a column of type text or varchar: `length` bytes in UTF-8. They need no zero at their end. */
    KRLCACHE_TEXT = 1,
    /* Of a column of type uuid: 16 bytes, in the order in which they are written. */
    KRLCACHE_UUID = 2
} krlcache_kind;

/* A cache. */
typedef struct krlcache_cache krlcache_cache;

/* A table of a cache. */
typedef struct krlcache_table krlcache_table;

/* Room for the rows of one answer, which is used again by the next. */
typedef struct krlcache_rows krlcache_rows;

/* The value of one column of a key. A key of a table has a value of each of the columns that `krl.cache` was given, in
 * their order: by default those of the primary key. */
typedef struct krlcache_value {
    /* A `krlcache_kind`. */
    uint32_t kind;
    int64_t integer;
    const void *bytes;
    size_t length;
} krlcache_value;

/* What went wrong. */
typedef struct krlcache_error {
    /* A `krlcache_code`. */
    uint32_t code;
    /* In English, in UTF-8, ended by a zero. */
    char sentence[KRLCACHE_MAX_SENTENCE_BYTES];
    /* With KRLCACHE_DATABASE the code that the database reported, such as "42501", ended by a zero. It is empty if the
     * database was not reached or did not answer in time, and with every other code. */
    char sqlstate[6];
} krlcache_error;

/* How a cache is opened. A pointer may be null and a number 0 where a default is named. Later versions append members,
 * so a caller sets `size` to the size of this struct and the rest to zero: `krlcache_options options = {.size = sizeof
 * options}`. A size that is not that of a released version is KRLCACHE_MISUSE. The texts are read by `krlcache_open`
 * only. */
typedef struct krlcache_options {
    size_t size;
    /* Where the database is, without a password: "postgres://shop@127.0.0.1:5432/shop". A host on another machine takes
     * `?sslmode=verify-full` or another mode. */
    const char *database;
    /* The user that connects, and the password: both or none. By default the user of the address, without a password.
     * */
    const char *user;
    const char *password;
    /* The folder of the lock files by which processes of this machine keep off each other's numbers of krl's clients.
     * It is made if there is none, and all processes of the machine name the same one. */
    const char *lock_folder;
    /* The numbers of krl's clients, of which the process takes the first that is free: from `first_number` on below
     * `end_number`. By default, which is also 0 and 0, 0 to 55: the extension has those from 56 on. Two machines have
     * to have different numbers. */
    uint32_t first_number;
    uint32_t end_number;
    /* About how many bytes of rows are kept of each table: 64 MiB by default. */
    uint64_t memory;
    /* How long a read waits for an answer from the database, in milliseconds: 30,000 by default. */
    uint64_t timeout_ms;
    /* What the process shows to krl's servers if they listen over TLS, as PEM: the authority's certificate, this side's
     * certificate and its key. All of them or none are null. */
    const char *tls_authority;
    const char *tls_certificate;
    const char *tls_key;
    /* The table's name in certificates of krl: none by default. */
    const char *tls_table;
} krlcache_options;

/* What was done for a table since it was opened. The numbers may be of different moments. */
typedef struct krlcache_statistics {
    /* Keys that were answered from memory, and by the database. */
    uint64_t hits;
    uint64_t misses;
    /* Questions to the database for rows that are to be kept; keys whose rows were kept; and keys whose rows were not:
     * a transaction was about to change them, or others had taken them back. */
    uint64_t loads;
    uint64_t kept;
    uint64_t unkept;
    /* Misses while there was a fault: `krlcache_table_fault` reports it. */
    uint64_t away;
    /* Keys whose rows were dropped because there was no room for them. */
    uint64_t evictions;
    /* Keys whose rows are in memory now, and about how many bytes they take. */
    uint64_t keys;
    uint64_t bytes;
} krlcache_statistics;

/* The KRLCACHE_VERSION of the library: a program that loads it compares it with the header's. */
uint32_t krlcache_version(void);

/* The name of a code, such as "KRLCACHE_MISS"; "?" for a number that is not a code. It is never freed. */
const char *krlcache_code_name(uint32_t code);

/* Caches. */

/* Opens a cache, which `krlcache_close` frees. A process needs one, however many tables it reads: it is one client of
 * krl. It does not connect yet. Errors: KRLCACHE_MISUSE, KRLCACHE_BAD_NUMBER, KRLCACHE_BAD_ADDRESS, KRLCACHE_BAD_TLS,
 * KRLCACHE_DATABASE if a file of the address cannot be used, KRLCACHE_SYSTEM. Then `cache` is null. */
KRLCACHE_NODISCARD uint32_t krlcache_open(const krlcache_options *options, krlcache_cache **cache,
                                          krlcache_error *error);

/* Gives back all that the process holds in krl, so that no writer waits for it, waits until that is done, for two
 * seconds at most, and frees the cache. Tables that are still open are read from the database. A null pointer and a
 * freed cache change nothing. */
void krlcache_close(krlcache_cache *cache);

/* Why the rows of no table are kept at present, while the database answers all reads: KRLCACHE_OK if krl and the
 * extension are not known to be away, otherwise KRLCACHE_AWAY with a sentence. Errors: KRLCACHE_MISUSE,
 * KRLCACHE_FORKED. */
KRLCACHE_NODISCARD uint32_t krlcache_fault(krlcache_cache *cache, krlcache_error *error);

/* Tables. */

/* Opens a table by its name in SQL: one that is not in lower case stands in quotes. One without a schema is looked up
 * by the role's search path, once. Each call begins with empty memory: a process opens a table once.
 * `krlcache_table_free` frees it, before its cache or after it. One that is not cached is read from the database, by
 * its primary key, and its rows are kept after `krl.cache` was called. Errors: KRLCACHE_NO_EXTENSION,
 * KRLCACHE_DATABASE; KRLCACHE_BAD_KEY if the columns of the key have changed since the table was cached, or if it is
 * not cached and has no primary key. Then `table` is null. */
KRLCACHE_NODISCARD uint32_t krlcache_table_open(krlcache_cache *cache, const char *name, krlcache_table **table,
                                                krlcache_error *error);

/* Frees a table and what is kept of it. A null pointer and a freed table change nothing. */
void krlcache_table_free(krlcache_table *table);

/* Why the rows of a table are not kept at present: KRLCACHE_OK if nothing is known, otherwise KRLCACHE_AWAY with the
 * sentence of `krlcache_fault`, or with what is so of this table, such as a missing right, or that it is not cached.
 * Errors: KRLCACHE_MISUSE, KRLCACHE_FORKED. */
KRLCACHE_NODISCARD uint32_t krlcache_table_fault(krlcache_table *table, krlcache_error *error);

/* Writes what was done for a table. Errors: KRLCACHE_MISUSE, KRLCACHE_FORKED. */
KRLCACHE_NODISCARD uint32_t krlcache_statistics_of(krlcache_table *table, krlcache_statistics *statistics,
                                                   krlcache_error *error);

/* Reads. Each empties `rows` first, so a call that returns another code than KRLCACHE_OK leaves no rows. Errors of all:
 * KRLCACHE_MISUSE, KRLCACHE_BAD_KEY, KRLCACHE_FORKED; and of those that ask the database, KRLCACHE_DATABASE and
 * KRLCACHE_SYSTEM. */

/* Reads the row of a key with this many columns: its place is 0. Answers: KRLCACHE_ABSENT if there is none. Errors:
 * KRLCACHE_SEVERAL_ROWS too. */
KRLCACHE_NODISCARD uint32_t krlcache_get(krlcache_table *table, const krlcache_value *key, size_t columns,
                                         krlcache_rows *rows, krlcache_error *error);

/* The same from memory only: it sends nothing and waits for nobody. Answers: KRLCACHE_ABSENT if the key is known to
 * have no row, KRLCACHE_MISS if that is not known. What is missing is loaded by a `krlcache_get`, and not by this. */
KRLCACHE_NODISCARD uint32_t krlcache_cached_get(krlcache_table *table, const krlcache_value *key, size_t columns,
                                                krlcache_rows *rows, krlcache_error *error);

/* Reads the rows of `count` keys, whose values follow each other, all as they are at one moment of the call. A row has
 * the place of its key: `krlcache_has_row` returns whether a key has one. Errors: KRLCACHE_SEVERAL_ROWS too. */
KRLCACHE_NODISCARD uint32_t krlcache_get_many(krlcache_table *table, const krlcache_value *keys, size_t count,
                                              size_t columns, krlcache_rows *rows, krlcache_error *error);

/* The same from memory only. Answers: KRLCACHE_MISS if not all of the keys are in memory. */
KRLCACHE_NODISCARD uint32_t krlcache_cached_get_many(krlcache_table *table, const krlcache_value *keys, size_t count,
                                                     size_t columns, krlcache_rows *rows, krlcache_error *error);

/* Reads all rows of a key, for a table whose key columns are not unique, in no particular order. */
KRLCACHE_NODISCARD uint32_t krlcache_get_all(krlcache_table *table, const krlcache_value *key, size_t columns,
                                             krlcache_rows *rows, krlcache_error *error);

/* Reads the rows with keys from `first` to `last`, both included, in the order of their keys and as they are at one
 * moment of the call, of a table whose key is one integer. A range of more than 4,096 keys is always read from the
 * database. */
KRLCACHE_NODISCARD uint32_t krlcache_range(krlcache_table *table, int64_t first, int64_t last, krlcache_rows *rows,
                                           krlcache_error *error);

/* The same from memory only. Answers: KRLCACHE_MISS if not all of the keys are in memory. */
KRLCACHE_NODISCARD uint32_t krlcache_cached_range(krlcache_table *table, int64_t first, int64_t last,
                                                  krlcache_rows *rows, krlcache_error *error);

/* Rows. */

/* Room for rows, which is freed by `krlcache_rows_free`. It grows as answers need it. Null if memory was refused. */
krlcache_rows *krlcache_rows_new(void);

/* Another handle of the same rows, which keeps them when `rows` is filled again or freed. The rows themselves are not
 * copied. Null for a null or freed pointer, or if memory was refused. */
krlcache_rows *krlcache_rows_share(const krlcache_rows *rows);

/* Frees rows. A null pointer and freed rows change nothing. */
void krlcache_rows_free(krlcache_rows *rows);

/* The number of places of rows: those of `krlcache_get_many` have one for each key. 0 for a null or freed pointer. */
size_t krlcache_rows_count(const krlcache_rows *rows);

/* Whether there is a row at this place. */
bool krlcache_has_row(const krlcache_rows *rows, size_t row);

/* The number of columns of a row; 0 if there is no such row. */
size_t krlcache_columns(const krlcache_rows *rows, size_t row);

/* The place of the column of this name, as the database has it, without quotes: KRLCACHE_NO_COLUMN if there is none. */
size_t krlcache_find_column(const krlcache_rows *rows, size_t row, const char *name);

/* The name of a column, in UTF-8: `length` bytes without a zero at their end, borrowed from the rows. Null if there is
 * no such column. */
const char *krlcache_column_name(const krlcache_rows *rows, size_t row, size_t column, size_t *length);

/* The number (oid) of a column's type, as `pg_type` has it; 0 if there is no such column. */
uint32_t krlcache_column_type(const krlcache_rows *rows, size_t row, size_t column);

/* Values. Each call writes the value of a column. Answers: KRLCACHE_IS_NULL, and KRLCACHE_ABSENT if the key at this
 * place has no row. Errors: KRLCACHE_MISUSE; KRLCACHE_BAD_COLUMN if there is no such column, or if the call is not for
 * its type. */

/* Of a column of type smallint, integer or bigint. */
KRLCACHE_NODISCARD uint32_t krlcache_int64(const krlcache_rows *rows, size_t row, size_t column, int64_t *value,
                                           krlcache_error *error);

/* Of a column of type real or double precision. */
KRLCACHE_NODISCARD uint32_t krlcache_double(const krlcache_rows *rows, size_t row, size_t column, double *value,
                                            krlcache_error *error);

/* Of a column of type boolean. */
KRLCACHE_NODISCARD uint32_t krlcache_bool(const krlcache_rows *rows, size_t row, size_t column, bool *value,
                                          krlcache_error *error);

/* Of a column of type text, varchar, char, name, citext, json, jsonb or xml, or of an enum: `length` bytes without a
 * zero at their end, borrowed from the rows. */
KRLCACHE_NODISCARD uint32_t krlcache_text(const krlcache_rows *rows, size_t row, size_t column, const char **value,
                                          size_t *length, krlcache_error *error);

/* Of a column of any type: `length` bytes in PostgreSQL's binary format, borrowed from the rows. */
KRLCACHE_NODISCARD uint32_t krlcache_bytes(const krlcache_rows *rows, size_t row, size_t column, const void **value,
                                           size_t *length, krlcache_error *error);

/* For bindings that convert rows by themselves: all columns of a row one after another, of each an int32_t with its
 * length, in the byte order of this machine, and its bytes as `krlcache_bytes` returns them. The length of NULL is -1,
 * and no bytes follow it. They are borrowed from the rows, and `length` is that of all. `layout` is what distinguishes
 * the names and types of the row's columns from those of others: two rows with the same one have the same columns, as
 * long as some handle has had one of them without a break. Null if there is no such row. */
const void *krlcache_packed(const krlcache_rows *rows, size_t row, size_t *length, const void **layout);

/* `krlcache_cached_get` and `krlcache_packed` by one call, which reports no sentence. */
KRLCACHE_NODISCARD uint32_t krlcache_cached_packed(krlcache_table *table, const krlcache_value *key, size_t columns,
                                                   krlcache_rows *rows, const void **packed, size_t *length,
                                                   const void **layout);

#ifdef __cplusplus
}
#endif

#endif
