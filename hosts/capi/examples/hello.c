/* Writes a row and reads its range, from a krl server and then from the client's cache.
 *
 *     hello SERVERS LOCK_FILE
 */
#include <inttypes.h>
#include <krl_client.h>
#include <stdio.h>

static int fail(const krlc_error *error) {
    fprintf(stderr, "hello: %s: %s\n", krlc_code_name(error->code), error->sentence);
    return 1;
}

static void print(const krlc_rows *rows) {
    size_t count = 0;
    const krlc_row *row = krlc_rows_get(rows, &count);
    for (; count > 0; row++, count--)
        printf("%" PRIu64 "=%.*s\n", row->key, (int)row->length, (const char *)row->bytes);
}

static int greet(krlc_client *client, krlc_rows *rows) {
    krlc_error error;
    /* An answer such as KRLC_EXISTS is not an error. */
    if (krlc_insert(client, 15, "hello", 5, 0, &error) > KRLC_ANSWERS)
        return fail(&error);
    if (krlc_read(client, 10, 20, rows, 0, &error) != KRLC_OK)
        return fail(&error);
    if (krlc_cached(client, 10, 20, rows) == KRLC_OK)
        print(rows);
    return krlc_leave(client, 0, &error) == KRLC_OK ? 0 : fail(&error);
}

int main(int count, char **words) {
    if (count != 3) {
        fputs("usage: hello SERVERS LOCK_FILE\n", stderr);
        return 2;
    }
    krlc_options options = {.size = sizeof options, .servers = words[1], .number = 3, .lock_file = words[2]};
    krlc_error error;
    krlc_client *client = NULL;
    if (krlc_join(&options, &client, &error) != KRLC_OK)
        return fail(&error);
    krlc_rows *rows = krlc_rows_new();
    int status = greet(client, rows);
    krlc_rows_free(rows);
    krlc_free(client);
    return status;
}
