/* Each call, with its answers and its errors. */
#include "common.h"

static krlcache_cache *cache;
static krlcache_table *items;
static krlcache_rows *rows;
static krlcache_error error;

static bool reports(const char *what) { return strstr(error.sentence, what) != NULL; }

static void rows_from_memory(void) {
    krlcache_value key = integer(3), none = integer(51);
    EXPECT(KRLCACHE_MISS, krlcache_cached_get(items, &key, 1, rows, &error));
    WANT(krlcache_rows_count(rows) == 0 && !krlcache_has_row(rows, 0));
    EXPECT(KRLCACHE_OK, krlcache_get(items, &key, 1, rows, &error));
    WANT(krlcache_rows_count(rows) == 1 && krlcache_has_row(rows, 0) && !krlcache_has_row(rows, 1));
    WANT(number_of(rows, 0, "id") == 3 && number_of(rows, 0, "price") == 30 && is_text(rows, 0, "name", "item 3"));
    read_into_memory(items, &key, 1, rows);
    WANT(is_text(rows, 0, "name", "item 3"));
    read_into_memory(items, &none, 1, rows);
    EXPECT(KRLCACHE_ABSENT, krlcache_cached_get(items, &none, 1, rows, &error));
    EXPECT(KRLCACHE_ABSENT, krlcache_get(items, &none, 1, rows, &error));
    WANT(krlcache_rows_count(rows) == 0);
}

/* Keys 3 and 51 are of the stripe that the key 103 of krl guards. */
static void a_row_that_is_taken_back(void) {
    krlcache_value key = integer(3);
    read_into_memory(items, &key, 1, rows);
    krlcache_rows *before = krlcache_rows_share(rows);
    ask("write 103 104 UPDATE item SET name = 'lamp', price = NULL WHERE id = 3");
    EXPECT(KRLCACHE_MISS, krlcache_cached_get(items, &key, 1, rows, &error));
    WANT(krlcache_rows_count(rows) == 0);
    EXPECT(KRLCACHE_OK, krlcache_get(items, &key, 1, rows, &error));
    WANT(is_text(rows, 0, "name", "lamp"));
    int64_t price = 7;
    EXPECT(KRLCACHE_IS_NULL, krlcache_int64(rows, 0, 2, &price, &error));
    WANT(price == 7);
    /* Rows that were read stay as they were. */
    WANT(is_text(before, 0, "name", "item 3"));
    krlcache_rows_free(before);
}

static void several_rows(void) {
    krlcache_value keys[] = {integer(13), integer(77), integer(12)};
    EXPECT(KRLCACHE_OK, krlcache_get_many(items, keys, 3, 1, rows, &error));
    WANT(krlcache_rows_count(rows) == 3 && !krlcache_has_row(rows, 1));
    WANT(number_of(rows, 0, "id") == 13 && number_of(rows, 2, "id") == 12);
    int64_t number = 0;
    EXPECT(KRLCACHE_ABSENT, krlcache_int64(rows, 1, 0, &number, &error));
    EXPECT(KRLCACHE_OK, krlcache_get_many(items, keys, 0, 1, rows, &error));
    WANT(krlcache_rows_count(rows) == 0);
    for (size_t i = 0; i < 3; i++)
        read_into_memory(items, &keys[i], 1, rows);
    EXPECT(KRLCACHE_OK, krlcache_cached_get_many(items, keys, 3, 1, rows, &error));
    WANT(krlcache_rows_count(rows) == 3 && number_of(rows, 2, "id") == 12);
    EXPECT(KRLCACHE_OK, krlcache_range(items, 10, 19, rows, &error));
    WANT(krlcache_rows_count(rows) == 10 && number_of(rows, 9, "id") == 19);
    EXPECT(KRLCACHE_OK, krlcache_cached_range(items, 12, 13, rows, &error));
    WANT(krlcache_rows_count(rows) == 2 && number_of(rows, 1, "id") == 13);
    EXPECT(KRLCACHE_MISS, krlcache_cached_range(items, 30, 39, rows, &error));
    EXPECT(KRLCACHE_OK, krlcache_range(items, 20, 19, rows, &error));
    WANT(krlcache_rows_count(rows) == 0);
    EXPECT(KRLCACHE_OK, krlcache_range(items, INT64_MIN, INT64_MAX, rows, &error));
    WANT(krlcache_rows_count(rows) == 40);
}

static void keys_of_several_columns(void) {
    krlcache_table *places = open_table(cache, "public.place"), *notes = open_table(cache, "note");
    uint8_t id[16];
    memset(id, 0xa0, sizeof id);
    krlcache_value key[] = {text("at"), {.kind = KRLCACHE_UUID, .bytes = id, .length = sizeof id}};
    read_into_memory(places, key, 2, rows);
    WANT(is_text(rows, 0, "The Name", "Vienna"));
    krlcache_value two[] = {text("de"), key[1], key[0], key[1]};
    EXPECT(KRLCACHE_OK, krlcache_get_many(places, two, 2, 2, rows, &error));
    WANT(krlcache_rows_count(rows) == 2 && !krlcache_has_row(rows, 0) && is_text(rows, 1, "country", "at"));
    const void *bytes = NULL;
    size_t length = 0;
    EXPECT(KRLCACHE_OK, krlcache_bytes(rows, 1, 1, &bytes, &length, &error));
    WANT(length == sizeof id && memcmp(bytes, id, length) == 0);

    krlcache_value ada = text("ada");
    EXPECT(KRLCACHE_OK, krlcache_get_all(notes, &ada, 1, rows, &error));
    WANT(krlcache_rows_count(rows) == 2 && is_text(rows, 0, "author", "ada"));
    EXPECT(KRLCACHE_SEVERAL_ROWS, krlcache_get(notes, &ada, 1, rows, &error));
    WANT(reports("the key ada has several rows: krlcache_get_all reads all of them"));
    WANT(krlcache_rows_count(rows) == 0);
    EXPECT(KRLCACHE_BAD_KEY, krlcache_range(notes, 0, 1, rows, &error));
    krlcache_table_free(places);
    krlcache_table_free(notes);
}

static void values_of_each_type(void) {
    krlcache_table *kinds = open_table(cache, "kinds");
    krlcache_value one = integer(1), two = integer(2);
    EXPECT(KRLCACHE_OK, krlcache_get(kinds, &one, 1, rows, &error));
    WANT(number_of(rows, 0, "small") == -2 && number_of(rows, 0, "number") == -3 && number_of(rows, 0, "big") == -4);
    double single = 0, longer = 0;
    EXPECT(KRLCACHE_OK, krlcache_double(rows, 0, krlcache_find_column(rows, 0, "single"), &single, &error));
    EXPECT(KRLCACHE_OK, krlcache_double(rows, 0, krlcache_find_column(rows, 0, "long"), &longer, &error));
    WANT(single == 0.5 && longer == -0.25);
    bool is_so = false;
    EXPECT(KRLCACHE_OK, krlcache_bool(rows, 0, krlcache_find_column(rows, 0, "is_so"), &is_so, &error));
    WANT(is_so);
    const void *bytes = NULL;
    size_t length = 0, column = krlcache_find_column(rows, 0, "bytes");
    EXPECT(KRLCACHE_OK, krlcache_bytes(rows, 0, column, &bytes, &length, &error));
    WANT(length == 2 && memcmp(bytes, "\0\xff", 2) == 0);
    WANT(krlcache_columns(rows, 0) == 16 && krlcache_column_type(rows, 0, column) == 17);
    WANT(is_text(rows, 0, "json", "{\"a\": 1}") && is_text(rows, 0, "mood", "glad"));
    const char *name = krlcache_column_name(rows, 0, column, &length);
    WANT(length == 5 && memcmp(name, "bytes", 5) == 0);

    /* The type does not fit, or there is no such column. */
    int64_t number = 0;
    EXPECT(KRLCACHE_BAD_COLUMN, krlcache_int64(rows, 0, column, &number, &error));
    WANT(reports("the column \"bytes\" is of type bytea, which this call does not read"));
    EXPECT(KRLCACHE_BAD_COLUMN, krlcache_double(rows, 0, 0, &single, &error));
    EXPECT(KRLCACHE_BAD_COLUMN, krlcache_int64(rows, 0, 16, &number, &error));
    WANT(reports("there is no column 16 in a row of 16"));
    WANT(krlcache_find_column(rows, 0, "weight") == KRLCACHE_NO_COLUMN);
    EXPECT(KRLCACHE_BAD_COLUMN, krlcache_int64(rows, 0, KRLCACHE_NO_COLUMN, &number, &error));
    WANT(krlcache_column_type(rows, 0, 16) == 0 && krlcache_column_name(rows, 0, 16, &length) == NULL);

    EXPECT(KRLCACHE_OK, krlcache_get(kinds, &two, 1, rows, &error));
    for (size_t place = 1; place < 16; place++)
        EXPECT(KRLCACHE_IS_NULL, krlcache_bytes(rows, 0, place, &bytes, &length, &error));
    krlcache_table_free(kinds);
}

static void packed_rows(void) {
    krlcache_value key = integer(5);
    EXPECT(KRLCACHE_OK, krlcache_get(items, &key, 1, rows, &error));
    size_t length = 0;
    const void *layout = NULL, *other = NULL;
    const uint8_t *packed = krlcache_packed(rows, 0, &length, &layout);
    int32_t of_id = 0;
    memcpy(&of_id, packed, sizeof of_id);
    WANT(of_id == 4 && packed[7] == 5 && length == 4 + 4 + 4 + strlen("item 5") + 4 + 8);
    WANT(krlcache_packed(rows, 1, &length, &other) == NULL && other == NULL);
    read_into_memory(items, &key, 1, rows);
    WANT(krlcache_packed(rows, 0, &length, &layout) != NULL && layout != NULL);
    EXPECT(KRLCACHE_OK, krlcache_cached_get(items, &key, 1, rows, &error));
    WANT(krlcache_packed(rows, 0, &length, &other) != NULL && other == layout);
    const void *again = NULL;
    size_t length_again = 0;
    EXPECT(KRLCACHE_OK, krlcache_cached_packed(items, &key, 1, rows, &again, &length_again, &other));
    WANT(again == krlcache_packed(rows, 0, &length, &layout) && length == length_again && other == layout);
    key = integer(38);
    EXPECT(KRLCACHE_MISS, krlcache_cached_packed(items, &key, 1, rows, &again, &length_again, &other));
    WANT(krlcache_rows_count(rows) == 0);
}

static void errors(void) {
    krlcache_table *none = items;
    EXPECT(KRLCACHE_DATABASE, krlcache_table_open(cache, "missing", &none, &error));
    WANT(none == NULL && error.code == KRLCACHE_DATABASE);
    WANT(reports("relation \"missing\" does not exist") && strcmp(error.sqlstate, "42P01") == 0);
    krlcache_value lamp = text("lamp"), both[] = {integer(3), integer(4)};
    EXPECT(KRLCACHE_BAD_KEY, krlcache_get(items, &lamp, 1, rows, &error));
    WANT(reports("the key lamp is not one of public.item: expected an integer"));
    EXPECT(KRLCACHE_BAD_KEY, krlcache_cached_get(items, both, 2, rows, &error));
    WANT(strcmp(krlcache_code_name(KRLCACHE_BAD_KEY), "KRLCACHE_BAD_KEY") == 0);
    WANT(strcmp(krlcache_code_name(7), "?") == 0 && krlcache_version() == KRLCACHE_VERSION);
}

static void not_cached(void) {
    krlcache_table *plain = open_table(cache, "plain");
    krlcache_value key = integer(3);
    EXPECT(KRLCACHE_ABSENT, krlcache_get(plain, &key, 1, rows, &error));
    ask("sql INSERT INTO plain VALUES (3); ALTER TABLE plain ADD COLUMN name text");
    EXPECT(KRLCACHE_OK, krlcache_get(plain, &key, 1, rows, &error));
    WANT(krlcache_columns(rows, 0) == 2 && krlcache_find_column(rows, 0, "name") == 1);
    EXPECT(KRLCACHE_AWAY, krlcache_table_fault(plain, &error));
    WANT(reports("the table public.plain is not cached: call SELECT krl.cache('public.plain')"));
    WANT(strcmp(error.sqlstate, "") == 0);
    krlcache_table_free(plain);
}

static void what_was_done(void) {
    krlcache_statistics counted = {0};
    EXPECT(KRLCACHE_OK, krlcache_statistics_of(items, &counted, &error));
    WANT(counted.hits > 0 && counted.misses > 0 && counted.kept > 0 && counted.keys > 0 && counted.bytes > 0);
    EXPECT(KRLCACHE_OK, krlcache_fault(cache, &error));
    EXPECT(KRLCACHE_OK, krlcache_table_fault(items, &error));
}

/* The database answers while krl is away. */
static void krl_is_away(char **words) {
    krlcache_cache *other = open_cache(words);
    krlcache_table *table = open_table(other, "item");
    krlcache_value key = integer(3);
    ask("sql CREATE TABLE right_state AS SELECT servers FROM krl.state");
    ask("sql UPDATE krl.state SET servers = 'unix:/nowhere/krl.socket'");
    time_t end = time(NULL) + PATIENCE;
    while (krlcache_fault(other, &error) != KRLCACHE_AWAY) {
        WANT(time(NULL) < end);
        EXPECT(KRLCACHE_OK, krlcache_get(table, &key, 1, rows, &error));
        usleep(1000);
    }
    WANT(error.code == KRLCACHE_AWAY && strlen(error.sentence) > 0);
    EXPECT(KRLCACHE_AWAY, krlcache_table_fault(table, &error));
    ask("sql UPDATE krl.state SET servers = right_state.servers FROM right_state");
    read_into_memory(table, &key, 1, rows);
    krlcache_close(other);
    krlcache_table_free(table);
}

/* What is in memory is read while the database is away. Then all is given back. */
static void the_end(void) {
    krlcache_value three = integer(3), none = integer(39);
    read_into_memory(items, &three, 1, rows);
    krlcache_rows *last = krlcache_rows_share(rows);
    ask("stop");
    EXPECT(KRLCACHE_OK, krlcache_get(items, &three, 1, rows, &error));
    WANT(is_text(rows, 0, "name", "lamp"));
    EXPECT(KRLCACHE_DATABASE, krlcache_get(items, &none, 1, rows, &error));
    WANT(reports("the database: cannot connect to "));
    ask("start");
    krlcache_close(cache);
    EXPECT(KRLCACHE_MISS, krlcache_cached_get(items, &three, 1, rows, &error));
    EXPECT(KRLCACHE_OK, krlcache_get(items, &three, 1, rows, &error));
    WANT(is_text(rows, 0, "name", "lamp"));
    krlcache_table_free(items);
    WANT(is_text(last, 0, "name", "lamp") && is_text(rows, 0, "name", "lamp"));
    krlcache_rows_free(last);
}

int main(int count, char **words) {
    WANT(count == 3);
    cache = open_cache(words);
    items = open_table(cache, "item");
    rows = krlcache_rows_new();
    rows_from_memory();
    a_row_that_is_taken_back();
    several_rows();
    keys_of_several_columns();
    values_of_each_type();
    packed_rows();
    errors();
    not_cached();
    what_was_done();
    krl_is_away(words);
    the_end();
    krlcache_rows_free(rows);
    return 0;
}
