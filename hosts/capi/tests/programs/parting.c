/* A client whose server goes away while four threads write: the calls time out, and no signal ends the program. It
 * prints a line when it has joined, and the test that started it then ends the server. */
#include "common.h"
#include <pthread.h>
#include <signal.h>

static krlc_client *client;

static void *write_on(void *key) {
    krlc_error error;
    uint32_t code;
    while ((code = krlc_put(client, (uint64_t)(uintptr_t)key, "new", 3, 0, &error)) <= KRLC_ANSWERS)
        continue;
    /* A client sends one write at a time: of the others, those that wait were not sent. */
    WANT(code == KRLC_NOT_MADE || code == KRLC_TIMED_OUT || code == KRLC_UNSERVED);
    WANT(krlc_is_unknown_outcome(code) == (code != KRLC_NOT_MADE));
    return NULL;
}

int main(int argument_count, char **arguments) {
    world world = world_of(argument_count, arguments);
    pthread_t threads[4];
    signal(SIGPIPE, SIG_DFL);
    client = join(&world, 0);
    EXPECT(KRLC_OK, krlc_set_timeout(client, 500, NULL));
    puts("joined");
    fflush(stdout);
    for (uintptr_t i = 0; i < 4; i++)
        WANT(pthread_create(&threads[i], NULL, write_on, (void *)(i + 1)) == 0);
    for (int i = 0; i < 4; i++)
        WANT(pthread_join(threads[i], NULL) == 0);
    /* On a slow machine the calls may time out before the server goes. */
    uint32_t left = krlc_leave(client, 0, NULL);
    WANT(left == KRLC_OK || left == KRLC_TIMED_OUT || left == KRLC_UNSERVED);
    krlc_free(client);
    return 0;
}
