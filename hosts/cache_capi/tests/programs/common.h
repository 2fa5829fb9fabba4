/* What the test programs share. A program gets a database and a folder of lock files as words. What it prints is a
 * request to the test, which answers it by a line: `Site::serve` of the test has the requests. */
#ifndef COMMON_H
#define COMMON_H

#define _DEFAULT_SOURCE
#include <inttypes.h>
#include <krl_cache.h>
#include <stdio.h>
#include <stdlib.h>
#include <string.h>
#include <time.h>
#include <unistd.h>

/* How many seconds a program waits for what has to come. */
enum { PATIENCE = 60 };

/* Ends the program unless this holds. */
#define WANT(holds) want_at((holds), #holds, __FILE__, __LINE__)

static inline void want_at(bool holds, const char *what, const char *file, int line) {
    if (!holds) {
        fprintf(stderr, "%s:%d: %s\n", file, line, what);
        exit(1);
    }
}

/* Ends the program unless a call returns this code. */
#define EXPECT(code, call) expect_at((code), (call), #call, __FILE__, __LINE__)

static inline void expect_at(uint32_t code, uint32_t found, const char *call, const char *file, int line) {
    if (code != found) {
        fprintf(stderr, "%s:%d: %s returns %s and not %s\n", file, line, call, krlcache_code_name(found),
                krlcache_code_name(code));
        exit(1);
    }
}

/* Has the test do what the line asks for. */
static inline void ask(const char *line) {
    char answer[16] = "";
    printf("%s\n", line);
    fflush(stdout);
    WANT(fgets(answer, sizeof answer, stdin) != NULL && strcmp(answer, "done\n") == 0);
}

#ifndef __cplusplus

static inline krlcache_cache *open_cache(char **words) {
    krlcache_options options = {.size = sizeof options, .database = words[1], .lock_folder = words[2]};
    krlcache_error error = {0};
    krlcache_cache *cache = NULL;
    if (krlcache_open(&options, &cache, &error) != KRLCACHE_OK) {
        fprintf(stderr, "%s\n", error.sentence);
        exit(1);
    }
    return cache;
}

static inline krlcache_table *open_table(krlcache_cache *cache, const char *name) {
    krlcache_error error = {0};
    krlcache_table *table = NULL;
    if (krlcache_table_open(cache, name, &table, &error) != KRLCACHE_OK) {
        fprintf(stderr, "%s\n", error.sentence);
        exit(1);
    }
    return table;
}

static inline krlcache_value integer(int64_t number) {
    krlcache_value value = {.kind = KRLCACHE_INTEGER, .integer = number};
    return value;
}

static inline krlcache_value text(const char *text) {
    krlcache_value value = {.kind = KRLCACHE_TEXT, .bytes = text, .length = strlen(text)};
    return value;
}

/* Whether a column of a row is this text. */
static inline bool is_text(const krlcache_rows *rows, size_t row, const char *column, const char *expected) {
    const char *found = NULL;
    size_t length = 0;
    size_t place = krlcache_find_column(rows, row, column);
    EXPECT(KRLCACHE_OK, krlcache_text(rows, row, place, &found, &length, NULL));
    return length == strlen(expected) && memcmp(found, expected, length) == 0;
}

static inline int64_t number_of(const krlcache_rows *rows, size_t row, const char *column) {
    int64_t number = 0;
    EXPECT(KRLCACHE_OK, krlcache_int64(rows, row, krlcache_find_column(rows, row, column), &number, NULL));
    return number;
}

/* Reads a key until its row is in memory. */
static inline void read_into_memory(krlcache_table *table, const krlcache_value *key, size_t columns,
                                    krlcache_rows *rows) {
    time_t end = time(NULL) + PATIENCE;
    while (krlcache_cached_get(table, key, columns, rows, NULL) == KRLCACHE_MISS) {
        WANT(time(NULL) < end);
        WANT(krlcache_get(table, key, columns, rows, NULL) <= KRLCACHE_ANSWERS);
        usleep(1000);
    }
}

#endif

#endif
