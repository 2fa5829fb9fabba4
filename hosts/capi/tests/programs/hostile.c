/* Calls that no program should make: null pointers, freed handles, invalid lengths and texts, and a child of
 * `fork`. Each has to be refused, and to leave the client as it is. */
#include "common.h"
#include <stddef.h>
#include <sys/wait.h>
#include <unistd.h>

static krlc_error error;

static void *const NOWHERE = (void *)8;

static void null_pointers(krlc_client *client, krlc_rows *rows) {
    krlc_pin *pin = NULL;
    krlc_row row = {0};
    size_t count = 9;
    EXPECT(KRLC_MISUSE, krlc_join(NULL, &client, &error));
    WANT(client == NULL && strstr(error.sentence, "null") != NULL);
    EXPECT(KRLC_MISUSE, krlc_join(NULL, NULL, NULL));
    EXPECT(KRLC_MISUSE, krlc_evict(NULL, &error));
    EXPECT(KRLC_MISUSE, krlc_leave(NULL, 0, &error));
    EXPECT(KRLC_MISUSE, krlc_set_timeout(NULL, 5, &error));
    EXPECT(KRLC_MISUSE, krlc_keep_all(NULL, &error));
    EXPECT(KRLC_MISUSE, krlc_follow(NULL, &error));
    EXPECT(KRLC_MISUSE, krlc_reload_tls(NULL, &error));
    WANT(krlc_joined(NULL) == 0 && krlc_number(NULL) == KRLC_NUMBERS);
    EXPECT(KRLC_MISUSE, krlc_cached(NULL, 1, 2, rows));
    EXPECT(KRLC_MISUSE, krlc_cached_into(NULL, 1, 2, &row, 1, &count));
    EXPECT(KRLC_MISUSE, krlc_cached_row(NULL, 1, &row));
    uint64_t tenure = 0;
    EXPECT(KRLC_MISUSE, krlc_tenure(NULL, 1, 2, &tenure));
    EXPECT(KRLC_MISUSE, krlc_read(NULL, 1, 2, rows, 0, NULL));
    EXPECT(KRLC_MISUSE, krlc_get(NULL, 1, &row, 0, &error));
    EXPECT(KRLC_MISUSE, krlc_read_once(NULL, 1, 2, rows, 0, &error));
    EXPECT(KRLC_MISUSE, krlc_reader_connect(NULL, NULL, &error));
    EXPECT(KRLC_MISUSE, krlc_reader_read(NULL, 1, 2, rows, &error));
    EXPECT(KRLC_MISUSE, krlc_reader_get(NULL, 1, &row, &error));
    EXPECT(KRLC_MISUSE, krlc_wait_for_change(NULL, 1, 2, NULL, 0, 1, &error));
    EXPECT(KRLC_MISUSE, krlc_forget(NULL, 1, 2, 0, &error));
    EXPECT(KRLC_MISUSE, krlc_insert(NULL, 1, "", 0, 0, &error));
    EXPECT(KRLC_MISUSE, krlc_put(NULL, 1, "", 0, 0, &error));
    EXPECT(KRLC_MISUSE, krlc_set(NULL, 1, "", 0, 0, &error));
    EXPECT(KRLC_MISUSE, krlc_delete(NULL, 1, 0, &error));
    krlc_write write = {.kind = KRLC_DELETE, .row = {.key = 1}};
    EXPECT(KRLC_MISUSE, krlc_write_all(NULL, &write, 1, 0, &error));
    WANT(write.outcome == KRLC_NOT_MADE);
    EXPECT(KRLC_MISUSE, krlc_pin_write_all(NULL, &write, 1, 0, &error));
    EXPECT(KRLC_MISUSE, krlc_pin_held(NULL, 1, 2, &pin, 0, &error));
    EXPECT(KRLC_MISUSE, krlc_pin_for_read(NULL, 1, 2, rows, &pin, 0, &error));
    EXPECT(KRLC_MISUSE, krlc_pin_holds(NULL));
    EXPECT(KRLC_MISUSE, krlc_pin_insert(NULL, 1, "", 0, 0, &error));
    EXPECT(KRLC_MISUSE, krlc_pin_put(NULL, 1, "", 0, 0, &error));
    EXPECT(KRLC_MISUSE, krlc_pin_set(NULL, 1, "", 0, 0, &error));
    EXPECT(KRLC_MISUSE, krlc_pin_delete(NULL, 1, 0, &error));
    WANT(krlc_rows_get(NULL, &count) == NULL && count == 0 && krlc_rows_get(NULL, NULL) == NULL);
    krlc_free(NULL);
    krlc_pin_free(NULL);
    krlc_reader_free(NULL);
    krlc_rows_free(NULL);
}

static void null_rooms(krlc_client *client, krlc_rows *rows) {
    krlc_row row = {0};
    size_t count = 9;
    EXPECT(KRLC_OK, krlc_read(client, 10, 20, rows, 0, NULL));
    EXPECT(KRLC_MISUSE, krlc_read(client, 10, 20, NULL, 0, &error));
    EXPECT(KRLC_MISUSE, krlc_cached(client, 10, 20, NULL));
    EXPECT(KRLC_MISUSE, krlc_cached_into(client, 10, 20, NULL, 1, &count));
    EXPECT(KRLC_MISUSE, krlc_cached_into(client, 10, 20, &row, 1, NULL));
    EXPECT(KRLC_MISUSE, krlc_status_at(client, 0, NULL, &error));
    EXPECT(KRLC_MISUSE, krlc_pin_held(client, 10, 20, NULL, 0, &error));
    EXPECT(KRLC_MISUSE, krlc_pin_for_write(client, 10, 20, rows, NULL, 0, &error));
    EXPECT(KRLC_MISUSE, krlc_set_timeout(client, 0, &error));
    /* None of them has pinned anything. */
    EXPECT(KRLC_OK, krlc_forget(client, 10, 20, 0, &error));
    EXPECT(KRLC_OK, krlc_set_timeout(client, UINT64_MAX, &error));
    EXPECT(KRLC_OK, krlc_read(client, 10, 20, rows, UINT64_MAX, &error));
    EXPECT(KRLC_OK, krlc_set_timeout(client, LONG_MS, &error));
}

static void lengths(krlc_client *client) {
    krlc_row row = {.key = 1, .length = 33};
    EXPECT(KRLC_TOO_LONG, krlc_insert(client, 1, NOWHERE, 33, 0, &error));
    EXPECT(KRLC_TOO_LONG, krlc_put(client, 1, NOWHERE, SIZE_MAX, 0, &error));
    EXPECT(KRLC_MISUSE, krlc_put(client, 1, NULL, 1, 0, &error));
    EXPECT(KRLC_TOO_LONG, krlc_set(client, 1, NOWHERE, 33, UINT64_MAX, &error));
    EXPECT(KRLC_TOO_LONG, krlc_wait_for_change(client, 1, 2, &row, 1, 1, &error));
    row.length = UINT64_MAX;
    EXPECT(KRLC_TOO_LONG, krlc_wait_for_change(client, 1, 2, &row, 1, 1, &error));
    EXPECT(KRLC_MISUSE, krlc_wait_for_change(client, 1, 2, &row, SIZE_MAX, 1, &error));
    EXPECT(KRLC_MISUSE, krlc_wait_for_change(client, 1, 2, NULL, 1, 1, &error));
    EXPECT(KRLC_BAD_KEY, krlc_insert(client, UINT64_MAX, "", 0, 0, &error));
    EXPECT(KRLC_BAD_KEY, krlc_delete(client, KRLC_END, 0, &error));
    EXPECT(KRLC_BAD_RANGE, krlc_forget(client, 0, UINT64_MAX, 0, &error));
}

static void expect_no_join(uint32_t wanted, const krlc_options *options, const char *word) {
    krlc_client *client = NOWHERE;
    EXPECT(wanted, krlc_join(options, &client, &error));
    WANT(client == NULL && error.code == wanted);
    if (strstr(error.sentence, word) == NULL) {
        fprintf(stderr, "'%s' does not name '%s'\n", error.sentence, word);
        exit(1);
    }
}

/* A client whose process lives is not evicted from its own machine. */
static void evictions(const krlc_options *good) {
    krlc_options bad = *good;
    EXPECT(KRLC_MISUSE, krlc_evict(&bad, &error));
    WANT(strstr(error.sentence, "time") != NULL);
    bad.timeout_ms = 0;
    EXPECT(KRLC_LOCK_FILE_TAKEN, krlc_evict(&bad, &error));
    bad.number = 0, bad.numbers = 1 << 5;
    EXPECT(KRLC_MISUSE, krlc_evict(&bad, &error));
    bad.servers = NULL;
    EXPECT(KRLC_MISUSE, krlc_evict(&bad, NULL));
}

/* The first free one of several numbers. Those of a folder have the names of other lock files. */
static void numbers(const world *world) {
    krlc_client *clients[2] = {NULL};
    krlc_options several = {.size = sizeof several, .servers = world->place, .lock_file = world->folder,
                            .timeout_ms = LONG_MS};
    several.numbers = UINT64_C(1) << 63 | 1 << 20;
    for (int i = 0; i < 2; i++)
        EXPECT(KRLC_OK, krlc_join(&several, &clients[i], &error));
    WANT(krlc_number(clients[0]) == 20 && krlc_number(clients[1]) == 63);
    expect_no_join(KRLC_LOCK_FILE_TAKEN, &several, "");
    krlc_free(clients[0]);
    EXPECT(KRLC_OK, krlc_join(&several, &clients[0], &error));
    WANT(krlc_number(clients[0]) == 20);
    several.number = 20;
    expect_no_join(KRLC_MISUSE, &several, "both");
    several.number = 0, several.lock_file = "/nowhere";
    expect_no_join(KRLC_LOCK_FILE, &several, "");
    krlc_free(clients[0]);
    krlc_free(clients[1]);
    WANT(krlc_number(clients[1]) == KRLC_NUMBERS);
}

static void options(const world *world) {
    char lock_file[512];
    snprintf(lock_file, sizeof lock_file, "%s/hostile.lock", world->folder);
    const krlc_options good = {.size = sizeof good, .servers = world->place, .number = 5, .lock_file = lock_file,
                               .timeout_ms = LONG_MS};
    krlc_options bad = good;
    bad.size = 0;
    expect_no_join(KRLC_MISUSE, &bad, "size");
    bad.size = SIZE_MAX;
    expect_no_join(KRLC_MISUSE, &bad, "size");
    /* Each smaller one cuts members off, or one in half. */
    for (bad.size = 1; bad.size < sizeof bad; bad.size++)
        expect_no_join(KRLC_MISUSE, &bad, "size");
    bad = good, bad.servers = NULL;
    expect_no_join(KRLC_MISUSE, &bad, "servers");
    bad = good, bad.map = "/nowhere/map.toml";
    expect_no_join(KRLC_MISUSE, &bad, "both");
    bad.servers = NULL;
    expect_no_join(KRLC_BAD_MAP, &bad, "/nowhere/map.toml");
    bad = good, bad.servers = "here";
    expect_no_join(KRLC_BAD_ADDRESS, &bad, "here");
    bad = good, bad.servers = "\xff\xfe";
    expect_no_join(KRLC_MISUSE, &bad, "UTF-8");
    bad = good, bad.lock_file = NULL;
    expect_no_join(KRLC_MISUSE, &bad, "lock_file");
    bad = good, bad.lock_file = "/nowhere/client.lock";
    expect_no_join(KRLC_LOCK_FILE, &bad, "");
    bad = good, bad.number = 64;
    expect_no_join(KRLC_BAD_NUMBER, &bad, "63");
    bad.number = UINT32_MAX;
    expect_no_join(KRLC_BAD_NUMBER, &bad, "63");
    bad = good, bad.hi = 5;
    expect_no_join(KRLC_MISUSE, &bad, "map");
    bad = good, bad.table = "orders";
    expect_no_join(KRLC_MISUSE, &bad, "tls_authority");
    bad.tls_authority = bad.tls_certificate = bad.tls_key = "/nowhere/file";
    expect_no_join(KRLC_BAD_TLS, &bad, "/nowhere/file");
    /* Nobody listens at the port of no service. */
    bad = good, bad.servers = "127.0.0.1:1", bad.timeout_ms = 50;
    expect_no_join(KRLC_TIMED_OUT, &bad, "did not answer");
    bad.timeout_ms = LONG_MS;
    expect_no_join(KRLC_NOTHING_LISTENS, &bad, "nothing listens at 127.0.0.1:1");

    /* The options of a later version, whose new member is set or not. */
    struct {
        krlc_options options;
        const char *later;
    } longer = {good, "set"};
    longer.options.size = sizeof longer;
    expect_no_join(KRLC_MISUSE, &longer.options, "does not know");
    longer.later = NULL;
    krlc_client *client = NULL;
    EXPECT(KRLC_OK, krlc_join(&longer.options, &client, &error));
    bad = good, bad.number = 6;
    expect_no_join(KRLC_LOCK_FILE_TAKEN, &bad, "");
    evictions(&good);
    krlc_free(client);
    bad = good, bad.timeout_ms = 0;
    EXPECT(KRLC_OK, krlc_evict(&bad, &error));
}

static void freed_handles(const world *world, krlc_rows *rows) {
    krlc_client *client = join(world, 1);
    krlc_pin *pin = NULL;
    size_t count = 9;
    EXPECT(KRLC_OK, krlc_pin_for_read(client, 10, 20, rows, &pin, 0, &error));
    krlc_pin_free(pin);
    krlc_pin_free(pin);
    EXPECT(KRLC_MISUSE, krlc_pin_holds(pin));
    EXPECT(KRLC_MISUSE, krlc_pin_put(pin, 1, "", 0, 0, &error));
    WANT(strstr(error.sentence, "freed") != NULL);
    krlc_free(client);
    krlc_free(client);
    EXPECT(KRLC_MISUSE, krlc_cached(client, 10, 20, rows));
    EXPECT(KRLC_MISUSE, krlc_read(client, 10, 20, rows, 0, &error));
    WANT(strstr(error.sentence, "freed") != NULL);
    EXPECT(KRLC_MISUSE, krlc_insert(client, 1, "", 0, 0, &error));
    EXPECT(KRLC_MISUSE, krlc_pin_held(client, 10, 20, &pin, 0, &error));
    EXPECT(KRLC_MISUSE, krlc_leave(client, 0, &error));
    WANT(krlc_joined(client) == 0);
    krlc_rows *other = krlc_rows_new();
    krlc_rows_free(other);
    krlc_rows_free(other);
    client = join(world, 1);
    EXPECT(KRLC_MISUSE, krlc_read(client, 10, 20, other, 0, &error));
    WANT(krlc_rows_get(other, &count) == NULL && count == 0);
    krlc_free(client);
}

/* The child has the parent's cache, which nobody keeps up to date there. */
static void child(const world *world, krlc_client *client, krlc_pin *pin, krlc_rows *rows) {
    krlc_row row = {0};
    krlc_rows *own_rows = krlc_rows_new();
    size_t count = 0;
    WANT(krlc_rows_get(rows, &count) != NULL && count == 1);
    EXPECT(KRLC_FORKED, krlc_cached(client, 10, 20, rows));
    EXPECT(KRLC_FORKED, krlc_cached_into(client, 10, 20, &row, 1, &count));
    EXPECT(KRLC_FORKED, krlc_read(client, 10, 20, rows, 0, &error));
    EXPECT(KRLC_FORKED, krlc_insert(client, 1, "", 0, 0, &error));
    EXPECT(KRLC_FORKED, krlc_pin_for_read(client, 10, 20, rows, &pin, 0, &error));
    EXPECT(KRLC_FORKED, krlc_leave(client, 0, &error));
    WANT(strstr(error.sentence, "parent") != NULL);
    krlc_free(client);
    krlc_rows_free(rows);
    /* It has its own client, which serves as any other. */
    client = join(world, 3);
    EXPECT(KRLC_OK, krlc_insert(client, 40, "child", 5, 0, &error));
    EXPECT(KRLC_OK, krlc_read(client, 40, 41, own_rows, 0, &error));
    EXPECT(KRLC_OK, krlc_cached(client, 40, 41, own_rows));
    EXPECT(KRLC_OK, krlc_leave(client, 0, &error));
    krlc_free(client);
    krlc_rows_free(own_rows);
    _exit(0);
}

static void fork_of(const world *world, krlc_client *client, krlc_rows *rows) {
    int status = 0;
    krlc_pin *pin = NULL;
    EXPECT(KRLC_OK, krlc_insert(client, 15, "row", 3, 0, &error));
    /* The gap after the pinned range ends here. */
    EXPECT(KRLC_OK, krlc_insert(client, 30, "bound", 5, 0, &error));
    EXPECT(KRLC_OK, krlc_pin_for_read(client, 10, 20, rows, &pin, 0, &error));
    pid_t process = fork();
    if (process == 0) {
        EXPECT(KRLC_FORKED, krlc_pin_holds(pin));
        EXPECT(KRLC_FORKED, krlc_pin_put(pin, 15, "", 0, 0, &error));
        krlc_pin_free(pin);
        child(world, client, pin, rows);
    }
    WANT(waitpid(process, &status, 0) == process && WIFEXITED(status) && WEXITSTATUS(status) == 0);
    EXPECT(KRLC_OK, krlc_pin_holds(pin));
    EXPECT(KRLC_OK, krlc_cached(client, 10, 20, rows));
    EXPECT(KRLC_OK, krlc_pin_put(pin, 15, "mine", 4, 0, &error));
    krlc_pin_free(pin);
    EXPECT(KRLC_EXISTS, krlc_insert(client, 40, "parent", 6, 0, &error));
}

int main(int argument_count, char **arguments) {
    world world = world_of(argument_count, arguments);
    krlc_client *client = join(&world, 0);
    krlc_rows *rows = krlc_rows_new();
    null_pointers(client, rows);
    null_rooms(client, rows);
    lengths(client);
    options(&world);
    numbers(&world);
    freed_handles(&world, rows);
    fork_of(&world, client, rows);
    EXPECT(KRLC_OK, krlc_leave(client, 0, &error));
    krlc_free(client);
    krlc_rows_free(rows);
    return 0;
}
