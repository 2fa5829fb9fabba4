/* Clients of the first free number, whose lock files are in the folder of a user. */
#define _POSIX_C_SOURCE 200809L /* setenv */
#include "common.h"

static krlc_error error;

/* From now on this folder has the lock files. */
static void use_state(const world *world, const char *name) {
    char folder[512];
    snprintf(folder, sizeof folder, "%s/%s", world->folder, name);
    WANT(setenv("XDG_STATE_HOME", folder, 1) == 0);
}

static krlc_client *connected(const krlc_options *any, uint32_t number) {
    krlc_client *client = NULL;
    EXPECT(KRLC_OK, krlc_join(any, &client, &error));
    WANT(krlc_number(client) == number);
    return client;
}

static void expect_none(uint32_t code, const krlc_options *options, const char *part) {
    krlc_client *client = NULL;
    EXPECT(code, krlc_join(options, &client, &error));
    WANT(client == NULL && strstr(error.sentence, part) != NULL);
}

int main(int argument_count, char **arguments) {
    world world = world_of(argument_count, arguments);
    krlc_options any = {.size = sizeof any, .servers = world.place, .timeout_ms = LONG_MS};
    use_state(&world, "here");
    krlc_client *first = connected(&any, 0), *second = connected(&any, 1);
    krlc_free(first);
    first = connected(&any, 0);
    /* Another user, or another machine, has other lock files: the server reports that both numbers are in use. */
    use_state(&world, "there");
    krlc_client *third = connected(&any, 2);
    krlc_free(first);
    krlc_free(second);
    krlc_free(third);
    any.number = 3;
    expect_none(KRLC_MISUSE, &any, "lock_file");
    any.number = 0, any.numbers = 1 << 3;
    expect_none(KRLC_MISUSE, &any, "lock_file");
    EXPECT(KRLC_MISUSE, krlc_evict(&any, NULL));
    any.numbers = 0;
    WANT(setenv("XDG_STATE_HOME", "/dev/null", 1) == 0);
    expect_none(KRLC_LOCK_FILE, &any, "/dev/null/krl can't be made");
    WANT(unsetenv("XDG_STATE_HOME") == 0 && unsetenv("HOME") == 0);
    expect_none(KRLC_LOCK_FILE, &any, "set HOME");
    return 0;
}
