/* Threads read two rows through one table while the test changes both in each transaction: no thread reads one of them
 * without the other, nor an earlier number after a later one. */
#include "common.h"
#include <pthread.h>
#include <stdatomic.h>

enum { READERS = 4, WRITES = 20 };

static krlcache_table *items;
static atomic_bool is_over;
static atomic_int_fast64_t written, hits;

/* Reads both rows in one of three ways. */
static bool read_both(krlcache_rows *rows, int way) {
    const krlcache_value keys[] = {integer(4), integer(5)};
    switch (way) {
    case 0:
        EXPECT(KRLCACHE_OK, krlcache_get_many(items, keys, 2, 1, rows, NULL));
        return true;
    case 1:
        EXPECT(KRLCACHE_OK, krlcache_range(items, 4, 5, rows, NULL));
        return true;
    default:
        return krlcache_cached_range(items, 4, 5, rows, NULL) == KRLCACHE_OK;
    }
}

static void *read_all_the_time(void *unused) {
    krlcache_rows *rows = krlcache_rows_new();
    int way = 0;
    while (!atomic_load(&is_over)) {
        const int64_t known = atomic_load(&written);
        way = (way + 1) % 3;
        if (!read_both(rows, way))
            continue;
        const int64_t first = number_of(rows, 0, "price");
        WANT(krlcache_rows_count(rows) == 2 && first == number_of(rows, 1, "price") && first >= known);
        if (way == 2)
            atomic_fetch_add(&hits, 1);
    }
    krlcache_rows_free(rows);
    return unused;
}

int main(int count, char **words) {
    WANT(count == 3);
    krlcache_cache *cache = open_cache(words);
    items = open_table(cache, "item");
    ask("sql UPDATE item SET price = 0");
    pthread_t threads[READERS];
    for (int i = 0; i < READERS; i++)
        WANT(pthread_create(&threads[i], NULL, read_all_the_time, NULL) == 0);
    for (int64_t number = 1; number <= WRITES; number++) {
        char line[100];
        const int64_t before = atomic_load(&hits);
        time_t end = time(NULL) + PATIENCE;
        while (atomic_load(&hits) == before) {
            WANT(time(NULL) < end);
            usleep(1000);
        }
        snprintf(line, sizeof line, "write 104 106 UPDATE item SET price = %" PRId64 " WHERE id IN (4, 5)", number);
        ask(line);
        atomic_store(&written, number);
    }
    atomic_store(&is_over, true);
    for (int i = 0; i < READERS; i++)
        WANT(pthread_join(threads[i], NULL) == 0);
    krlcache_close(cache);
    krlcache_table_free(items);
    return 0;
}
