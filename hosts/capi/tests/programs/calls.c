/* Each call of krl_client.h, by two clients of one table: the codes and rows that they answer. */
#include "common.h"

static krlc_error error;

static void writes(krlc_client *client, krlc_rows *rows) {
    uint64_t keys[] = {15, 17, 150};
    const char *values[] = {"five", "", "last"};
    EXPECT(KRLC_OK, krlc_insert(client, 15, "fifteen", 7, 0, &error));
    EXPECT(KRLC_OK, krlc_insert(client, 17, NULL, 0, 0, NULL));
    EXPECT(KRLC_OK, krlc_insert(client, 150, "last", 4, 0, &error));
    EXPECT(KRLC_EXISTS, krlc_insert(client, 15, "again", 5, 0, &error));
    EXPECT(KRLC_OK, krlc_put(client, 15, "five", 4, 0, &error));
    EXPECT(KRLC_ABSENT, krlc_put(client, 16, "six", 3, 0, &error));
    EXPECT(KRLC_ABSENT, krlc_delete(client, 16, 0, &error));
    EXPECT(KRLC_OK, krlc_insert(client, 18, "eight", 5, 0, &error));
    EXPECT(KRLC_OK, krlc_delete(client, 18, 0, &error));
    EXPECT(KRLC_OK, krlc_read(client, 0, KRLC_TOP, rows, 0, &error));
    WANT(are(rows, 3, keys, values));
    EXPECT(KRLC_OK, krlc_set(client, 18, "made", 4, 0, &error));
    EXPECT(KRLC_OK, krlc_set(client, 18, "set", 3, 0, &error));
    EXPECT(KRLC_OK, krlc_read(client, 18, 19, rows, 0, &error));
    WANT(are(rows, 1, (uint64_t[]){18}, (const char *[]){"set"}));
    EXPECT(KRLC_OK, krlc_delete(client, 18, 0, &error));
    EXPECT(KRLC_BAD_KEY, krlc_set(client, KRLC_END, "", 0, 0, &error));
    EXPECT(KRLC_BAD_KEY, krlc_insert(client, KRLC_END, "", 0, 0, &error));
    WANT(error.code == KRLC_BAD_KEY && error.shard == -1 && error.reason == KRLC_NO_REASON);
    WANT(strlen(error.sentence) > 10);
    EXPECT(KRLC_TOO_LONG, krlc_put(client, 15, "123456789 123456789 123456789 123", 33, 0, &error));
    EXPECT(KRLC_OK, krlc_put(client, 15, "123456789 123456789 123456789 12", 32, 0, &error));
    EXPECT(KRLC_OK, krlc_put(client, 15, "five", 4, 0, &error));
}

static krlc_write write_of(krlc_kind kind, uint64_t key, const char *value) {
    krlc_write write = {.kind = kind, .outcome = 999, .row = {.key = key, .length = strlen(value)}};
    memcpy(write.row.bytes, value, strlen(value));
    return write;
}

/* Several writes in one call: with a map, at both shards. Afterwards the table is what it was. */
static void several(krlc_client *client, krlc_rows *rows) {
    krlc_write writes[] = {
        write_of(KRLC_INSERT, 20, "twenty"), write_of(KRLC_INSERT, 160, "far"),  write_of(KRLC_INSERT, 20, "again"),
        write_of(KRLC_PUT, 20, "20"),        write_of(KRLC_PUT, 21, "none"),     write_of(KRLC_SET, 21, "made"),
        write_of(KRLC_SET, 21, "set"),       write_of(KRLC_DELETE, 22, ""),
    };
    const krlc_code wanted[] = {KRLC_OK, KRLC_OK, KRLC_EXISTS, KRLC_OK, KRLC_ABSENT, KRLC_OK, KRLC_OK, KRLC_ABSENT};
    EXPECT(KRLC_OK, krlc_write_all(client, writes, 8, 0, &error));
    for (size_t i = 0; i < 8; i++)
        WANT(writes[i].outcome == wanted[i]);
    EXPECT(KRLC_OK, krlc_read(client, 20, 161, rows, 0, &error));
    WANT(are(rows, 4, (uint64_t[]){20, 21, 150, 160}, (const char *[]){"20", "set", "last", "far"}));
    krlc_write deletes[] = {write_of(KRLC_DELETE, 20, ""), write_of(KRLC_DELETE, 21, ""),
                            write_of(KRLC_DELETE, 160, "")};
    EXPECT(KRLC_OK, krlc_write_all(client, deletes, 3, 0, &error));
    WANT(deletes[0].outcome == KRLC_OK && deletes[1].outcome == KRLC_OK && deletes[2].outcome == KRLC_OK);
    EXPECT(KRLC_OK, krlc_write_all(client, NULL, 0, 0, &error));
    krlc_write bad[] = {write_of(KRLC_INSERT, 20, ""), write_of(KRLC_INSERT, KRLC_END, "")};
    EXPECT(KRLC_BAD_KEY, krlc_write_all(client, bad, 2, 0, &error));
    WANT(bad[0].outcome == KRLC_NOT_MADE && bad[1].outcome == KRLC_NOT_MADE);
    bad[1] = (krlc_write){.kind = KRLC_PUT, .row = {.key = 21, .length = 33}};
    EXPECT(KRLC_TOO_LONG, krlc_write_all(client, bad, 2, 0, &error));
    bad[1].kind = 4;
    EXPECT(KRLC_MISUSE, krlc_write_all(client, bad, 2, 0, &error));
    EXPECT(KRLC_MISUSE, krlc_write_all(client, NULL, 2, 0, &error));
    EXPECT(KRLC_OK, krlc_read(client, 20, 22, rows, 0, &error));
    WANT(are(rows, 0, NULL, NULL));
}

static void reads(krlc_client *client, krlc_rows *rows) {
    uint64_t keys[] = {15, 17};
    const char *values[] = {"five", ""};
    krlc_row room[3] = {0};
    size_t count = 0;
    EXPECT(KRLC_OK, krlc_read(client, 10, 20, rows, 0, &error));
    WANT(are(rows, 2, keys, values));
    EXPECT(KRLC_OK, krlc_cached(client, 10, 20, rows));
    WANT(are(rows, 2, keys, values));
    EXPECT(KRLC_OK, krlc_cached(client, 12, 12, rows));
    WANT(are(rows, 0, keys, values));
    EXPECT(KRLC_OK, krlc_cached_into(client, 10, 20, room, 3, &count));
    WANT(count == 2 && room[0].key == 15 && memcmp(room[0].bytes, "five", 4) == 0 && room[1].length == 0);
    EXPECT(KRLC_TOO_SHORT, krlc_cached_into(client, 10, 20, room + 2, 1, &count));
    WANT(count == 2 && room[2].key == 15);
    EXPECT(KRLC_TOO_SHORT, krlc_cached_into(client, 10, 20, NULL, 0, &count));
    WANT(count == 2);
    EXPECT(KRLC_OK, krlc_forget(client, 10, 20, 0, &error));
    EXPECT(KRLC_MISS, krlc_cached(client, 10, 20, rows));
    WANT(are(rows, 0, keys, values));
    count = 7;
    EXPECT(KRLC_MISS, krlc_cached_into(client, 10, 20, room, 3, &count));
    WANT(count == 7);
    EXPECT(KRLC_MISS, krlc_cached_row(client, 15, room));
    EXPECT(KRLC_OK, krlc_read(client, 10, 20, rows, 0, &error));
    EXPECT(KRLC_OK, krlc_cached_row(client, 15, room));
    WANT(room[0].key == 15 && room[0].length == 4 && memcmp(room[0].bytes, "five", 4) == 0);
    EXPECT(KRLC_ABSENT, krlc_cached_row(client, 16, room));
    WANT(room[0].key == 15);
    EXPECT(KRLC_BAD_KEY, krlc_cached_row(client, KRLC_END, room));
    EXPECT(KRLC_ABSENT, krlc_get(client, 19, room, 0, &error));
    WANT(room[0].key == 15);
    EXPECT(KRLC_BAD_KEY, krlc_get(client, KRLC_END, room, 0, &error));
    EXPECT(KRLC_OK, krlc_forget(client, 10, 20, 0, &error));
    EXPECT(KRLC_MISS, krlc_cached_row(client, 15, room));
    room[0].key = 0;
    EXPECT(KRLC_OK, krlc_get(client, 15, room, 0, &error));
    WANT(room[0].key == 15 && room[0].length == 4 && memcmp(room[0].bytes, "five", 4) == 0);
    EXPECT(KRLC_OK, krlc_cached_row(client, 15, room));
    EXPECT(KRLC_OK, krlc_forget(client, 10, 20, 0, &error));
    EXPECT(KRLC_BAD_RANGE, krlc_cached(client, 20, 10, rows));
    EXPECT(KRLC_BAD_RANGE, krlc_cached_into(client, 0, KRLC_TOP + 1, room, 3, &count));
    EXPECT(KRLC_BAD_RANGE, krlc_read(client, 20, 10, rows, 0, &error));
    EXPECT(KRLC_BAD_RANGE, krlc_forget(client, 20, 10, 0, &error));
    EXPECT(KRLC_BAD_RANGE, krlc_wait_for_change(client, 20, 10, NULL, 0, 1, &error));
    /* Over the bound of the shards, if there are some. */
    EXPECT(KRLC_OK, krlc_read(client, 15, 151, rows, 0, &error));
    EXPECT(KRLC_OK, krlc_cached(client, 15, 151, rows));
}

/* Without a lock, by the client and by a reader, which has no number. */
static void reads_once(const world *world, krlc_client *client, krlc_rows *rows) {
    uint64_t keys[] = {15, 17, 150};
    const char *values[] = {"five", "", "last"};
    krlc_row row = {0};
    EXPECT(KRLC_OK, krlc_forget(client, 10, 200, 0, &error));
    EXPECT(KRLC_OK, krlc_read_once(client, 10, 200, rows, 0, &error));
    WANT(are(rows, 3, keys, values));
    EXPECT(KRLC_MISS, krlc_cached(client, 15, 16, rows));
    EXPECT(KRLC_BAD_RANGE, krlc_read_once(client, 20, 10, rows, 0, &error));
    texts texts;
    krlc_reader *reader = NULL;
    krlc_options options = options_of(world, 0, &texts);
    EXPECT(KRLC_MISUSE, krlc_reader_connect(&options, &reader, &error));
    WANT(reader == NULL);
    options.lock_file = NULL;
    EXPECT(KRLC_OK, krlc_reader_connect(&options, &reader, &error));
    EXPECT(KRLC_OK, krlc_reader_read(reader, 10, 200, rows, &error));
    WANT(are(rows, 3, keys, values));
    EXPECT(KRLC_BAD_RANGE, krlc_reader_read(reader, 20, 10, rows, &error));
    WANT(are(rows, 0, keys, values));
    EXPECT(KRLC_OK, krlc_reader_get(reader, 15, &row, &error));
    WANT(row.key == 15 && row.length == 4 && memcmp(row.bytes, "five", 4) == 0);
    EXPECT(KRLC_ABSENT, krlc_reader_get(reader, 16, &row, &error));
    EXPECT(KRLC_BAD_KEY, krlc_reader_get(reader, KRLC_END, &row, &error));
    WANT(row.key == 15);
    krlc_reader_free(reader);
    krlc_reader_free(reader);
    EXPECT(KRLC_MISUSE, krlc_reader_read(reader, 10, 20, rows, &error));
}

static void changes(krlc_client *client, krlc_client *other, krlc_rows *rows) {
    size_t count = 0;
    EXPECT(KRLC_OK, krlc_read(client, 10, 200, rows, 0, &error));
    const krlc_row *known = krlc_rows_get(rows, &count);
    WANT(count == 3);
    EXPECT(KRLC_UNCHANGED, krlc_wait_for_change(client, 10, 200, known, count, 10, &error));
    EXPECT(KRLC_OK, krlc_wait_for_change(client, 10, 200, known, count - 1, LONG_MS, &error));
    EXPECT(KRLC_OK, krlc_put(other, 150, "next", 4, 0, &error));
    EXPECT(KRLC_OK, krlc_wait_for_change(client, 10, 200, known, count, LONG_MS, &error));
    EXPECT(KRLC_OK, krlc_read(client, 150, 151, rows, 0, &error));
    WANT(are(rows, 1, (uint64_t[]){150}, (const char *[]){"next"}));
}

static void tenures(krlc_client *client, krlc_client *other, krlc_rows *rows) {
    uint64_t first = 0, next = 0, last = 0;
    EXPECT(KRLC_OK, krlc_read(client, 10, 20, rows, 0, &error));
    EXPECT(KRLC_OK, krlc_tenure(client, 10, 20, &first));
    EXPECT(KRLC_OK, krlc_tenure(client, 10, 20, &next));
    WANT(first == next);
    EXPECT(KRLC_OK, krlc_put(other, 15, "five", 4, 0, &error));
    EXPECT(KRLC_MISS, krlc_tenure(client, 10, 20, &next));
    EXPECT(KRLC_OK, krlc_read(client, 10, 20, rows, 0, &error));
    EXPECT(KRLC_OK, krlc_tenure(client, 10, 20, &next));
    WANT(next != first);
    EXPECT(KRLC_OK, krlc_put(client, 15, "five", 4, 0, &error));
    EXPECT(KRLC_OK, krlc_tenure(client, 10, 20, &last));
    WANT(last != next && last != first);
    EXPECT(KRLC_BAD_RANGE, krlc_tenure(client, 20, 10, &last));
    EXPECT(KRLC_BAD_RANGE, krlc_tenure(client, 10, 10, &last));
    EXPECT(KRLC_MISUSE, krlc_tenure(client, 10, 20, NULL));
}

static void pins(krlc_client *client, krlc_rows *rows) {
    krlc_pin *pin = NULL, *second = NULL;
    EXPECT(KRLC_OK, krlc_pin_for_update(client, 10, 20, rows, &pin, 0, &error));
    WANT(are(rows, 2, (uint64_t[]){15, 17}, (const char *[]){"five", ""}));
    EXPECT(KRLC_OK, krlc_pin_put(pin, 15, "pinned", 6, 0, &error));
    EXPECT(KRLC_OK, krlc_pin_insert(pin, 16, "new", 3, 0, &error));
    EXPECT(KRLC_EXISTS, krlc_pin_insert(pin, 16, "new", 3, 0, &error));
    EXPECT(KRLC_OK, krlc_pin_delete(pin, 16, 0, &error));
    EXPECT(KRLC_ABSENT, krlc_pin_delete(pin, 16, 0, &error));
    EXPECT(KRLC_OK, krlc_pin_set(pin, 16, "made", 4, 0, &error));
    EXPECT(KRLC_OK, krlc_pin_set(pin, 16, "set", 3, 0, &error));
    EXPECT(KRLC_OK, krlc_pin_delete(pin, 16, 0, &error));
    EXPECT(KRLC_TOO_LONG, krlc_pin_put(pin, 15, "", 33, 0, &error));
    krlc_write writes[] = {write_of(KRLC_INSERT, 16, "new"), write_of(KRLC_DELETE, 16, ""), write_of(KRLC_PUT, 16, "")};
    EXPECT(KRLC_OK, krlc_pin_write_all(pin, writes, 3, 0, &error));
    WANT(writes[0].outcome == KRLC_OK && writes[1].outcome == KRLC_OK && writes[2].outcome == KRLC_ABSENT);
    EXPECT(KRLC_OK, krlc_pin_holds(pin));
    EXPECT(KRLC_PINNED, krlc_forget(client, 10, 20, 0, &error));
    EXPECT(KRLC_OK, krlc_pin_held(client, 30, 40, &second, 0, &error));
    krlc_pin_free(second);
    krlc_pin_free(pin);
    EXPECT(KRLC_OK, krlc_forget(client, 10, 20, 0, &error));
    EXPECT(KRLC_OK, krlc_pin_for_read(client, 10, 200, NULL, &pin, 0, &error));
    krlc_pin_free(pin);
    EXPECT(KRLC_OK, krlc_pin_for_write(client, 10, 20, rows, &pin, 0, &error));
    krlc_pin_free(pin);
    EXPECT(KRLC_BAD_RANGE, krlc_pin_for_read(client, 10, 10, rows, &pin, 0, &error));
    WANT(pin == NULL);
    krlc_pin *many[9] = {NULL};
    for (uint64_t i = 0; i < 8; i++)
        EXPECT(KRLC_OK, krlc_pin_held(client, 2 * i, 2 * i + 1, &many[i], 0, &error));
    EXPECT(KRLC_TOO_MANY_PINS, krlc_pin_held(client, 16, 17, &many[8], 0, &error));
    for (int i = 0; i < 9; i++)
        krlc_pin_free(many[i]);
}

static void shows(krlc_client *client, const world *world) {
    krlc_status status = {0};
    size_t joined = krlc_joined(client);
    WANT(krlc_number(client) == 0);
    WANT(joined == (strcmp(world->kind, "map") == 0 ? 2 : 1));
    for (size_t place = 0; place < joined; place++) {
        EXPECT(KRLC_OK, krlc_status_at(client, place, &status, &error));
        WANT(status.shard == place && status.epoch == 1 && status.incarnation > 0 && status.is_connected);
        WANT((status.lease_left_ms == KRLC_FOR_EVER) == (strcmp(world->kind, "leased") != 0));
    }
    EXPECT(KRLC_MISUSE, krlc_status_at(client, joined, &status, &error));
    EXPECT(strcmp(world->kind, "tls") == 0 ? KRLC_OK : KRLC_BAD_TLS, krlc_reload_tls(client, &error));
    EXPECT(strcmp(world->kind, "map") == 0 ? KRLC_OK : KRLC_MISUSE, krlc_follow(client, &error));
}

/* A client that waits until it times out, since the other one's pin keeps it waiting. */
static void waits(krlc_client *client, krlc_client *other, krlc_rows *rows) {
    krlc_pin *pin = NULL, *second = NULL, *none = NULL;
    /* The gap after the pinned range ends here. */
    EXPECT(KRLC_OK, krlc_insert(other, 315, "bound", 5, 0, &error));
    EXPECT(KRLC_OK, krlc_pin_for_write(other, 300, 310, NULL, &pin, 0, &error));
    EXPECT(KRLC_OK, krlc_pin_for_read(client, 320, 330, rows, &second, 0, &error));
    EXPECT(KRLC_OK, krlc_set_timeout(client, 50, &error));
    EXPECT(KRLC_TIMED_OUT, krlc_read(client, 300, 310, rows, 0, &error));
    WANT(krlc_is_unknown_outcome(error.code));
    EXPECT(KRLC_OK, krlc_set_timeout(client, LONG_MS, &error));
    /* Timeouts of single calls: the client's would be longer than the test may take. A write that waits for its lock is
     * not sent, and so is not made. */
    EXPECT(KRLC_TIMED_OUT, krlc_read(client, 300, 310, rows, 50, &error));
    EXPECT(KRLC_NOT_MADE, krlc_insert(client, 301, "", 0, 50, &error));
    EXPECT(KRLC_NOT_MADE, krlc_put(client, 301, "", 0, 50, &error));
    EXPECT(KRLC_NOT_MADE, krlc_set(client, 301, "", 0, 50, &error));
    EXPECT(KRLC_NOT_MADE, krlc_delete(client, 301, 50, &error));
    /* The client knows by itself that the first key has no row. */
    krlc_write writes[] = {write_of(KRLC_DELETE, 320, ""), write_of(KRLC_PUT, 301, ""), write_of(KRLC_PUT, 321, "")};
    EXPECT(KRLC_NOT_MADE, krlc_write_all(client, writes, 3, 50, &error));
    WANT(writes[0].outcome == KRLC_ABSENT && writes[1].outcome == KRLC_NOT_MADE && writes[2].outcome == KRLC_NOT_MADE);
    WANT(krlc_is_unknown_outcome(KRLC_UNKNOWN) && !krlc_is_unknown_outcome(KRLC_NOT_MADE));
    EXPECT(KRLC_TIMED_OUT, krlc_pin_for_read(client, 300, 310, rows, &none, 50, &error));
    EXPECT(KRLC_TIMED_OUT, krlc_pin_for_update(client, 300, 310, rows, &none, 50, &error));
    EXPECT(KRLC_TIMED_OUT, krlc_pin_for_write(client, 300, 310, rows, &none, 50, &error));
    WANT(none == NULL);
    EXPECT(KRLC_NOT_MADE, krlc_pin_insert(second, 301, "", 0, 50, &error));
    EXPECT(KRLC_NOT_MADE, krlc_pin_put(second, 301, "", 0, 50, &error));
    EXPECT(KRLC_NOT_MADE, krlc_pin_set(second, 301, "", 0, 50, &error));
    EXPECT(KRLC_NOT_MADE, krlc_pin_delete(second, 301, 50, &error));
    krlc_pin_free(second);
    krlc_pin_free(pin);
    EXPECT(KRLC_OK, krlc_read(client, 300, 310, rows, 0, &error));
}

int main(int argument_count, char **arguments) {
    world world = world_of(argument_count, arguments);
    WANT(krlc_version() == KRLC_VERSION);
    WANT(strcmp(krlc_code_name(KRLC_MISS), "KRLC_MISS") == 0 && strcmp(krlc_code_name(999), "?") == 0);
    krlc_client *client = join(&world, 0), *other = join(&world, 1);
    krlc_rows *rows = krlc_rows_new();
    WANT(rows != NULL);
    writes(client, rows);
    several(client, rows);
    reads(client, rows);
    reads_once(&world, client, rows);
    changes(client, other, rows);
    tenures(client, other, rows);
    pins(client, rows);
    shows(client, &world);
    waits(client, other, rows);
    EXPECT(KRLC_OK, krlc_leave(client, 0, &error));
    EXPECT(KRLC_LEFT, krlc_read(client, 10, 20, rows, 0, &error));
    EXPECT(KRLC_LEFT, krlc_insert(client, 1, "", 0, 0, &error));
    krlc_write late = write_of(KRLC_INSERT, 1, "");
    EXPECT(KRLC_LEFT, krlc_write_all(client, &late, 1, 0, &error));
    WANT(late.outcome == KRLC_NOT_MADE);
    EXPECT(KRLC_MISS, krlc_cached(client, 10, 20, rows));
    krlc_free(client);
    /* The number is free again. A pin may be freed after its client, and before. */
    client = join(&world, 0);
    krlc_pin *pin = NULL;
    EXPECT(KRLC_OK, krlc_pin_for_read(client, 10, 20, rows, &pin, 0, &error));
    krlc_free(client);
    EXPECT(KRLC_LEFT, krlc_pin_put(pin, 15, "", 0, 0, &error));
    krlc_pin_free(pin);
    krlc_free(join(&world, 0));
    krlc_free(other);
    krlc_rows_free(rows);
    return 0;
}
