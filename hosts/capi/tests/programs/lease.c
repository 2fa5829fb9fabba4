/* A client whose lease ends, since its server has gone away: from then on its cache has nothing, and its pin is void.
 * It prints a line when it has pinned a range, and the test that started it then ends the server. */
#include "common.h"
#include <sched.h>

int main(int argument_count, char **arguments) {
    world world = world_of(argument_count, arguments);
    krlc_error error;
    krlc_status status;
    krlc_pin *pin = NULL;
    krlc_rows *rows = krlc_rows_new();
    krlc_client *client = join(&world, 0);
    EXPECT(KRLC_OK, krlc_pin_for_update(client, 10, 20, rows, &pin, 0, &error));
    EXPECT(KRLC_OK, krlc_set_timeout(client, 500, &error));
    puts("pinned");
    fflush(stdout);
    while (krlc_pin_holds(pin) == KRLC_OK)
        sched_yield();
    EXPECT(KRLC_PIN_IS_VOID, krlc_pin_holds(pin));
    EXPECT(KRLC_PIN_IS_VOID, krlc_pin_insert(pin, 15, "late", 4, 0, &error));
    WANT(!krlc_is_unknown_outcome(error.code));
    /* On a slow machine a lease may end before its server does. */
    do
        EXPECT(KRLC_OK, krlc_status_at(client, 0, &status, &error));
    while (status.is_connected || status.epoch > 0);
    EXPECT(KRLC_MISS, krlc_cached(client, 10, 20, rows));
    EXPECT(KRLC_TIMED_OUT, krlc_read(client, 10, 20, rows, 0, &error));
    krlc_pin_free(pin);
    krlc_free(client);
    krlc_rows_free(rows);
    return 0;
}
