/* A reader of the drive of a cached table, in C, which does what reader.rs does.
 *
 *     reader NAME DATABASE FOLDER
 *
 * It notes what it reads in FOLDER/notes-NAME-THREAD, in the lines of notes.rs, and in FOLDER/notes-NAME what all
 * threads have counted, and ends when there is a file FOLDER/end. A read that fails for another reason than the
 * database ends it with a sentence.
 */
#define _DEFAULT_SOURCE
#include "krl_cache.h"

#include <err.h>
#include <fcntl.h>
#include <inttypes.h>
#include <pthread.h>
#include <stdatomic.h>
#include <stdio.h>
#include <stdlib.h>
#include <string.h>
#include <time.h>
#include <unistd.h>

/* As mod cache and reader.rs have them. */
enum { KEYS = 40, MOST_KEYS = 6, THREADS = 2, MEMORY = 1 << 13, TIMEOUT_MS = 5000 };

/* In nanoseconds: how long the same keys are read again and again; and in microseconds: the pause between two reads,
 * the one after a read that failed, and the one between two notes of counts. */
enum { BURST = 30 * 1000 * 1000, PAUSE = 100, AWAY = 20 * 1000, COUNTS = 100 * 1000 };

enum { LONGEST_LINE = 1000, LONGEST_PATH = 4096 };

/* How a thread calls the cache. */
enum way { ONE, SEVERAL, RANGE, WAYS };

/* Reads of the keys from `start` on below `end`. */
struct burst {
    int64_t start, end;
    enum way way;
    bool is_cached_first;
};

struct row {
    int64_t key, token;
};

struct read {
    uint64_t from, to;
    size_t count;
    struct row rows[MOST_KEYS];
};

struct thread {
    int notes;
    unsigned seed;
    krlcache_rows *rows;
};

static const char *name, *folder;
static krlcache_table *items;
static atomic_bool is_over;
static atomic_uint_fast64_t reads, failed;

/* The machine's clock in nanoseconds. */
static uint64_t now(void) {
    struct timespec time;
    clock_gettime(CLOCK_REALTIME, &time);
    return (uint64_t)time.tv_sec * 1000000000 + (uint64_t)time.tv_nsec;
}

static bool has_ended(void) {
    char path[LONGEST_PATH];
    snprintf(path, sizeof path, "%s/end", folder);
    return access(path, F_OK) == 0;
}

/* A new file of notes, of a thread or, for a negative number, of the process. */
static int create_notes(int thread) {
    char path[LONGEST_PATH];
    if (thread < 0)
        snprintf(path, sizeof path, "%s/notes-%s", folder, name);
    else
        snprintf(path, sizeof path, "%s/notes-%s-%d", folder, name, thread);
    int notes = open(path, O_WRONLY | O_CREAT | O_EXCL | O_APPEND | O_CLOEXEC, 0644);
    if (notes < 0)
        err(1, "%s", path);
    return notes;
}

/* Each line is one write, so a process that is killed leaves whole lines. */
static void write_line(int notes, const char *line, size_t length) {
    if (write(notes, line, length) != (ssize_t)length)
        err(1, "a note is not written");
}

static void note_read(int notes, const struct burst *burst, const struct read *read) {
    char line[LONGEST_LINE];
    int length = snprintf(line, sizeof line, "R %" PRIu64 " %" PRIu64 " %" PRId64 " %" PRId64, read->from, read->to,
                          burst->start, burst->end);
    for (size_t i = 0; i < read->count; i++)
        length += snprintf(line + length, sizeof line - (size_t)length, " %" PRId64 " %" PRId64, read->rows[i].key,
                           read->rows[i].token);
    line[length++] = '\n';
    write_line(notes, line, (size_t)length);
}

static void note_counts(int notes) {
    krlcache_statistics counted;
    krlcache_error error;
    char line[LONGEST_LINE];
    if (krlcache_statistics_of(items, &counted, &error) != KRLCACHE_OK)
        errx(1, "%s", error.sentence);
    int length = snprintf(line, sizeof line, "C %" PRIuFAST64 " %" PRIuFAST64 " %" PRIu64 " %" PRIu64 "\n",
                          atomic_load(&reads), atomic_load(&failed), counted.hits, counted.misses);
    write_line(notes, line, (size_t)length);
}

/* Calls the cache: for what is in memory only, or for all rows. */
static uint32_t call(const struct burst *burst, bool is_cached, krlcache_rows *rows, krlcache_error *error) {
    krlcache_value keys[MOST_KEYS];
    const size_t count = (size_t)(burst->end - burst->start);
    for (size_t i = 0; i < count; i++)
        keys[i] = (krlcache_value){.kind = KRLCACHE_INTEGER, .integer = burst->end - 1 - (int64_t)i};
    switch (burst->way) {
    case ONE:
        return (is_cached ? krlcache_cached_get : krlcache_get)(items, keys, 1, rows, error);
    case SEVERAL:
        return (is_cached ? krlcache_cached_get_many : krlcache_get_many)(items, keys, count, 1, rows, error);
    default:
        return (is_cached ? krlcache_cached_range : krlcache_range)(items, burst->start, burst->end - 1, rows, error);
    }
}

static int64_t number_of(const krlcache_rows *rows, size_t row, const char *column) {
    int64_t number;
    krlcache_error error;
    uint32_t code = krlcache_int64(rows, row, krlcache_find_column(rows, row, column), &number, &error);
    if (code != KRLCACHE_OK)
        errx(1, "the column %s: %s", column, krlcache_code_name(code));
    return number;
}

/* The rows in the order of their keys: those of several keys have the places of the keys, the last one first. */
static void take_rows(const struct burst *burst, const krlcache_rows *rows, struct read *read) {
    const size_t count = krlcache_rows_count(rows);
    if (count > MOST_KEYS)
        errx(1, "%zu rows of at most %d keys", count, MOST_KEYS);
    for (size_t i = 0; i < count; i++) {
        const size_t row = burst->way == SEVERAL ? count - 1 - i : i;
        if (krlcache_has_row(rows, row))
            read->rows[read->count++] = (struct row){number_of(rows, row, "id"), number_of(rows, row, "token")};
    }
}

/* Returns whether the database has answered, if it was asked. */
static bool read_keys(const struct thread *thread, const struct burst *burst, struct read *read) {
    krlcache_error error = {.code = KRLCACHE_OK};
    *read = (struct read){.from = now()};
    uint32_t code = KRLCACHE_MISS;
    if (burst->is_cached_first)
        code = call(burst, true, thread->rows, &error);
    if (code == KRLCACHE_MISS)
        code = call(burst, false, thread->rows, &error);
    if (code == KRLCACHE_DATABASE || code == KRLCACHE_SYSTEM)
        return false;
    if (code != KRLCACHE_OK && code != KRLCACHE_ABSENT)
        errx(1, "%s: %s", krlcache_code_name(code), error.sentence);
    take_rows(burst, thread->rows, read);
    read->to = now();
    return true;
}

static bool has_same_rows(const struct read *one, const struct read *other) {
    return one->count == other->count && memcmp(one->rows, other->rows, one->count * sizeof *one->rows) == 0;
}

/* Of reads after each other that show the same rows the first and the last are noted. */
static void read_burst(const struct thread *thread, const struct burst *burst) {
    const uint64_t end = now() + BURST;
    struct read first = {.count = 0}, last = {.count = 0}, read;
    bool has_first = false, has_last = false;
    while (now() < end) {
        if (!read_keys(thread, burst, &read)) {
            atomic_fetch_add(&failed, 1);
            usleep(AWAY);
            break;
        }
        atomic_fetch_add(&reads, 1);
        if (has_first && has_same_rows(&first, &read)) {
            last = read;
            has_last = true;
        } else {
            if (has_last)
                note_read(thread->notes, burst, &last);
            note_read(thread->notes, burst, &read);
            first = read;
            has_first = true;
            has_last = false;
        }
        usleep(PAUSE);
    }
    if (has_last)
        note_read(thread->notes, burst, &last);
}

static int64_t draw_below(struct thread *thread, int64_t end) {
    return rand_r(&thread->seed) % end;
}

static void *read_on(void *given) {
    struct thread *thread = given;
    while (!atomic_load(&is_over)) {
        struct burst burst = {.start = draw_below(thread, KEYS), .way = (enum way)draw_below(thread, WAYS)};
        burst.end = burst.start + 1 + (burst.way == ONE ? 0 : draw_below(thread, MOST_KEYS));
        if (burst.end > KEYS)
            burst.end = KEYS;
        burst.is_cached_first = draw_below(thread, 2) == 0;
        read_burst(thread, &burst);
    }
    return NULL;
}

/* Opens the table once the database answers. Returns whether it did so before the drive ended. */
static bool open_table(krlcache_cache *cache) {
    while (!has_ended()) {
        if (krlcache_table_open(cache, "item", &items, NULL) == KRLCACHE_OK)
            return true;
        usleep(AWAY);
    }
    return false;
}

static void read_until_the_end(void) {
    pthread_t running[THREADS];
    struct thread threads[THREADS];
    const int notes = create_notes(-1);
    for (int i = 0; i < THREADS; i++) {
        threads[i] = (struct thread){.seed = (unsigned)now() ^ (unsigned)i};
        threads[i].notes = create_notes(i);
        threads[i].rows = krlcache_rows_new();
        if (threads[i].rows == NULL || pthread_create(&running[i], NULL, read_on, &threads[i]) != 0)
            errx(1, "a thread does not start");
    }
    while (!has_ended()) {
        usleep(COUNTS);
        note_counts(notes);
    }
    atomic_store(&is_over, true);
    for (int i = 0; i < THREADS; i++) {
        pthread_join(running[i], NULL);
        krlcache_rows_free(threads[i].rows);
    }
}

int main(int count, char **words) {
    if (count != 4)
        errx(2, "the words are NAME DATABASE FOLDER");
    name = words[1];
    folder = words[3];
    char locks[LONGEST_PATH];
    snprintf(locks, sizeof locks, "%s/locks", folder);
    krlcache_options options = {.size = sizeof options, .database = words[2], .lock_folder = locks};
    options.memory = MEMORY;
    options.timeout_ms = TIMEOUT_MS;
    krlcache_cache *cache;
    krlcache_error error;
    if (krlcache_open(&options, &cache, &error) != KRLCACHE_OK)
        errx(1, "%s", error.sentence);
    if (open_table(cache))
        read_until_the_end();
    krlcache_close(cache);
    krlcache_table_free(items);
    return 0;
}
