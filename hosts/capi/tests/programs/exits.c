/* A process that ends without leaving: it prints a line, and returns from `main` when its input ends. Another thread is
 * within calls then, and a child that was forked has ended before. */
#define _POSIX_C_SOURCE 200809L
#include "common.h"
#include <pthread.h>
#include <sys/wait.h>
#include <unistd.h>

static krlc_client *client;

static void *read_on(void *unused) {
    (void)unused;
    while (krlc_cached(client, 0, 20, NULL) <= KRLC_ANSWERS)
        continue;
    return NULL;
}

static uint64_t incarnation(void) {
    krlc_status status;
    EXPECT(KRLC_OK, krlc_status_at(client, 0, &status, NULL));
    return status.incarnation;
}

/* What the parent holds is not given back by a child. */
static void end_a_child(void) {
    uint64_t before = incarnation();
    pid_t child = fork();
    if (child == 0)
        exit(0);
    WANT(waitpid(child, NULL, 0) == child);
    EXPECT(KRLC_OK, krlc_set(client, 5, "new", 3, 0, NULL));
    WANT(incarnation() == before);
}

int main(int argument_count, char **arguments) {
    world world = world_of(argument_count, arguments);
    krlc_rows *rows = krlc_rows_new();
    pthread_t thread;
    client = join(&world, 0);
    EXPECT(KRLC_OK, krlc_set_timeout(client, 8000, NULL));
    end_a_child();
    EXPECT(KRLC_OK, krlc_read(client, 0, 20, rows, 0, NULL));
    WANT(pthread_create(&thread, NULL, read_on, NULL) == 0);
    puts("reads");
    fflush(stdout);
    while (getchar() != EOF)
        continue;
    return 0;
}
