/* Many threads use two clients at once. One client writes two rows together while it has pinned them to write, and
 * threads of the other one never read one of the two without the other. After each update somebody reads it. */
#include "common.h"
#include <pthread.h>
#include <sched.h>
#include <stdatomic.h>

enum { READERS = 3, UPDATES = 60, OWN_WRITES = 20 };

static krlc_client *writing, *reading;
static atomic_bool is_done;
static atomic_int reads;

static void *update(void *unused) {
    krlc_error error;
    for (uint32_t i = 1; i <= UPDATES; i++) {
        krlc_pin *pin = NULL;
        EXPECT(KRLC_OK, krlc_pin_for_write(writing, 10, 21, NULL, &pin, 0, &error));
        EXPECT(KRLC_OK, krlc_pin_put(pin, 12, &i, sizeof i, 0, &error));
        EXPECT(KRLC_OK, krlc_pin_put(pin, 18, &i, sizeof i, 0, &error));
        EXPECT(KRLC_OK, krlc_pin_holds(pin));
        int before = atomic_load(&reads);
        krlc_pin_free(pin);
        while (atomic_load(&reads) == before)
            sched_yield();
    }
    atomic_store(&is_done, true);
    return unused;
}

static uint32_t number_of(const krlc_row *row) {
    uint32_t number = 0;
    WANT(row->length == sizeof number);
    memcpy(&number, row->bytes, sizeof number);
    return number;
}

static void *read_both(void *unused) {
    krlc_error error;
    krlc_rows *rows = krlc_rows_new();
    uint32_t last = 0;
    while (!atomic_load(&is_done) || last < UPDATES) {
        size_t count = 0;
        if (krlc_cached(reading, 10, 21, rows) != KRLC_OK)
            EXPECT(KRLC_OK, krlc_read(reading, 10, 21, rows, 0, &error));
        const krlc_row *row = krlc_rows_get(rows, &count);
        WANT(count == 2 && number_of(&row[0]) == number_of(&row[1]) && number_of(&row[0]) >= last);
        last = number_of(&row[0]);
        atomic_fetch_add(&reads, 1);
    }
    krlc_rows_free(rows);
    return unused;
}

/* Writes rows of its own by the client that the others read through. */
static void *write_own(void *unused) {
    krlc_error error;
    krlc_status status;
    krlc_rows *rows = krlc_rows_new();
    for (uint64_t i = 0; i < OWN_WRITES; i++) {
        size_t count = 0;
        EXPECT(KRLC_OK, krlc_insert(reading, 1000 + i, &i, sizeof i, 0, &error));
        EXPECT(KRLC_OK, krlc_read(reading, 1000 + i, 1001 + i, rows, 0, &error));
        const krlc_row *row = krlc_rows_get(rows, &count);
        WANT(count == 1 && row->key == 1000 + i && memcmp(row->bytes, &i, sizeof i) == 0);
        EXPECT(KRLC_OK, krlc_status_at(reading, 0, &status, &error));
        EXPECT(KRLC_OK, krlc_delete(reading, 1000 + i, 0, &error));
    }
    krlc_rows_free(rows);
    return unused;
}

int main(int argument_count, char **arguments) {
    world world = world_of(argument_count, arguments);
    pthread_t threads[READERS + 2];
    uint32_t none = 0;
    writing = join(&world, 0);
    reading = join(&world, 1);
    EXPECT(KRLC_OK, krlc_insert(writing, 12, &none, sizeof none, 0, NULL));
    EXPECT(KRLC_OK, krlc_insert(writing, 18, &none, sizeof none, 0, NULL));
    for (int i = 0; i < READERS; i++)
        WANT(pthread_create(&threads[i], NULL, read_both, NULL) == 0);
    WANT(pthread_create(&threads[READERS], NULL, update, NULL) == 0);
    WANT(pthread_create(&threads[READERS + 1], NULL, write_own, NULL) == 0);
    for (int i = 0; i < READERS + 2; i++)
        WANT(pthread_join(threads[i], NULL) == 0);
    WANT(atomic_load(&reads) >= UPDATES);
    krlc_free(writing);
    krlc_free(reading);
    return 0;
}
