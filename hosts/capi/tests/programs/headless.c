/* A process whose first thread has ended, and whose client lives: another thread waits until the input ends, and reads
 * from the cache. It prints a line when the first thread is about to end. */
#include "common.h"
#include <pthread.h>

static krlc_client *client;
static krlc_rows *rows;

static void *read_at_the_end(void *unused) {
    (void)unused;
    while (getchar() != EOF)
        continue;
    EXPECT(KRLC_OK, krlc_cached(client, 0, 20, rows));
    EXPECT(KRLC_OK, krlc_leave(client, 5000, NULL));
    krlc_free(client);
    krlc_rows_free(rows);
    exit(0);
}

int main(int argument_count, char **arguments) {
    world world = world_of(argument_count, arguments);
    pthread_t thread;
    client = join(&world, 0);
    rows = krlc_rows_new();
    EXPECT(KRLC_OK, krlc_read(client, 0, 20, rows, 0, NULL));
    WANT(pthread_create(&thread, NULL, read_at_the_end, NULL) == 0);
    puts("reads");
    fflush(stdout);
    pthread_exit(NULL);
}
