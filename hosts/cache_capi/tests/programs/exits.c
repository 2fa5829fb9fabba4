/* A process that keeps a row and returns from `main` without closing its cache. */
#include "common.h"

int main(int count, char **words) {
    WANT(count == 3);
    krlcache_table *items = open_table(open_cache(words), "item");
    krlcache_rows *rows = krlcache_rows_new();
    krlcache_value key = integer(3);
    do
        EXPECT(KRLCACHE_OK, krlcache_get(items, &key, 1, rows, NULL));
    while (krlcache_cached_get(items, &key, 1, rows, NULL) != KRLCACHE_OK);
    return 0;
}
