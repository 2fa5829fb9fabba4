/* The time of a cached read through C, as cached_reads.rs measures it: the middle one of the batches in nanoseconds,
 * by krlc_cached and by krlc_cached_into.
 *
 *     cached_reads SERVERS LOCK_FILE ROWS READS BATCHES
 */
#define _POSIX_C_SOURCE 200809L
#include <inttypes.h>
#include <krl_client.h>
#include <stdio.h>
#include <stdlib.h>
#include <time.h>

static krlc_client *client;
static krlc_rows *rows;
static krlc_row *room;
static uint64_t row_count, reads, batches;

static void want(bool holds) {
    if (!holds)
        exit(1);
}

static void borrow(void) {
    size_t count = 0;
    want(krlc_cached(client, 0, row_count, rows) == KRLC_OK);
    want(krlc_rows_get(rows, &count)->key == 0 && count == row_count);
}

static void copy(void) {
    size_t count = 0;
    want(krlc_cached_into(client, 0, row_count, room, row_count, &count) == KRLC_OK);
    want(room->key == 0 && count == row_count);
}

static int by_size(const void *a, const void *b) {
    double one = *(const double *)a, other = *(const double *)b;
    return one < other ? -1 : one > other;
}

static double nanoseconds(void) {
    struct timespec now;
    clock_gettime(CLOCK_MONOTONIC, &now);
    return (double)now.tv_sec * 1e9 + (double)now.tv_nsec;
}

static double middle(void (*read)(void)) {
    double *times = calloc(batches, sizeof *times);
    want(times != NULL);
    for (uint64_t batch = 0; batch < batches; batch++) {
        double began = nanoseconds();
        for (uint64_t i = 0; i < reads; i++)
            read();
        times[batch] = (nanoseconds() - began) / (double)reads;
    }
    qsort(times, batches, sizeof *times, by_size);
    double found = times[batches / 2];
    free(times);
    return found;
}

int main(int word_count, char **words) {
    want(word_count == 6);
    row_count = strtoull(words[3], NULL, 10);
    reads = strtoull(words[4], NULL, 10);
    batches = strtoull(words[5], NULL, 10);
    krlc_options options = {.size = sizeof options, .servers = words[1], .number = 1, .lock_file = words[2]};
    want(krlc_join(&options, &client, NULL) == KRLC_OK);
    rows = krlc_rows_new();
    room = calloc(row_count, sizeof *room);
    want(rows != NULL && room != NULL && krlc_read(client, 0, row_count, rows, 0, NULL) == KRLC_OK);
    double borrowed = middle(borrow);
    printf("%.1f %.1f\n", borrowed, middle(copy));
    krlc_free(client);
    krlc_rows_free(rows);
    free(room);
    return 0;
}
