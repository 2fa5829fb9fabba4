/* The time of a read from memory through C, as cached_gets.rs measures it: the middle one of the batches in
 * nanoseconds, by krlcache_get, by krlcache_cached_get, and by krlcache_get with the conversion of two columns.
 *
 *     cached_gets DATABASE LOCK_FOLDER READS BATCHES
 */
#define _DEFAULT_SOURCE
#include <krl_cache.h>
#include <stdio.h>
#include <stdlib.h>
#include <time.h>
#include <unistd.h>

static const krlcache_value key = {.kind = KRLCACHE_INTEGER, .integer = 3};
static krlcache_table *items;
static krlcache_rows *rows;
static uint64_t reads, batches;

static void want(bool holds) {
    if (!holds)
        exit(1);
}

static void get(void) { want(krlcache_get(items, &key, 1, rows, NULL) == KRLCACHE_OK); }

static void cached_get(void) { want(krlcache_cached_get(items, &key, 1, rows, NULL) == KRLCACHE_OK); }

static void get_columns(void) {
    int64_t price = 0;
    const char *name = NULL;
    size_t length = 0;
    get();
    want(krlcache_int64(rows, 0, krlcache_find_column(rows, 0, "price"), &price, NULL) == KRLCACHE_OK);
    want(krlcache_text(rows, 0, krlcache_find_column(rows, 0, "name"), &name, &length, NULL) == KRLCACHE_OK);
    want(price == 30 && length == 6);
}

static int by_size(const void *a, const void *b) {
    double one = *(const double *)a, other = *(const double *)b;
    return one < other ? -1 : one > other;
}

static double nanoseconds(void) {
    struct timespec now;
    clock_gettime(CLOCK_MONOTONIC, &now);
    return (double)now.tv_sec * 1e9 + (double)now.tv_nsec;
}

static double middle(void (*read)(void)) {
    double *times = calloc(batches, sizeof *times);
    want(times != NULL);
    for (uint64_t batch = 0; batch < batches; batch++) {
        double began = nanoseconds();
        for (uint64_t i = 0; i < reads; i++)
            read();
        times[batch] = (nanoseconds() - began) / (double)reads;
    }
    qsort(times, batches, sizeof *times, by_size);
    double found = times[batches / 2];
    free(times);
    return found;
}

int main(int count, char **words) {
    want(count == 5);
    reads = strtoull(words[3], NULL, 10);
    batches = strtoull(words[4], NULL, 10);
    krlcache_options options = {.size = sizeof options, .database = words[1], .lock_folder = words[2]};
    krlcache_cache *cache = NULL;
    want(krlcache_open(&options, &cache, NULL) == KRLCACHE_OK);
    want(krlcache_table_open(cache, "item", &items, NULL) == KRLCACHE_OK);
    rows = krlcache_rows_new();
    while (krlcache_cached_get(items, &key, 1, rows, NULL) == KRLCACHE_MISS) {
        get();
        usleep(1000);
    }
    double of_get = middle(get), of_cached_get = middle(cached_get);
    printf("%.1f %.1f %.1f\n", of_get, of_cached_get, middle(get_columns));
    krlcache_table_free(items);
    krlcache_close(cache);
    krlcache_rows_free(rows);
    return 0;
}
