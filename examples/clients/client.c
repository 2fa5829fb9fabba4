/* A client in C: client 127.0.0.1:7400. */
#include <err.h>
#include <krl_client.h>
#include <stdio.h>

static krlc_error error;

/* Ends the program after an error. A code up to KRLC_ANSWERS is an answer. */
static uint32_t checked(uint32_t code) {
    if (code > KRLC_ANSWERS)
        errx(1, "%s", error.sentence);
    return code;
}

static void show(const char *what, const krlc_rows *rows) {
    size_t count;
    const krlc_row *row = krlc_rows_get(rows, &count);
    if (count == 0)
        printf("%s: no row\n", what);
    for (; count > 0; row++, count--)
        printf("%s: %llu=%.*s\n", what, (unsigned long long)row->key, (int)row->length, (const char *)row->bytes);
}

int main(int count, char **words) {
    krlc_options options = {.size = sizeof options, .servers = count > 1 ? words[1] : ""};
    krlc_client *client;
    checked(krlc_join(&options, &client, &error));              /* takes the first free number */
    printf("client %u\n", (unsigned)krlc_number(client));

    krlc_row row;
    if (checked(krlc_get(client, 15, &row, 0, &error)) == KRLC_ABSENT)
        printf("get: no row\n");
    krlc_rows *rows = krlc_rows_new();
    checked(krlc_read(client, 10, 20, rows, 0, &error));        /* asks the server, and keeps the range */
    show("read", rows);
    if (krlc_cached(client, 10, 20, rows) == KRLC_OK)           /* no message; KRLC_MISS if the cache lacks a part */
        show("cached", rows);

    if (checked(krlc_put(client, 15, "hello", 5, 0, &error)) == KRLC_ABSENT)
        printf("put: there is no row\n");                       /* `krlc_set` inserts it, or replaces its value */
    checked(krlc_set(client, 15, "hello", 5, 0, &error));

    krlc_pin *pin;
    checked(krlc_pin_for_update(client, 10, 20, rows, &pin, 0, &error)); /* nobody else pins it for an update */
    show("pinned", rows);
    checked(krlc_pin_put(pin, 15, "world", 5, 0, &error));      /* made while the pin holds, or never */
    krlc_pin_free(pin);

    size_t known;
    checked(krlc_read(client, 10, 20, rows, 0, &error));
    show("now", rows);
    checked(krlc_delete(client, 15, 0, &error));
    const krlc_row *now = krlc_rows_get(rows, &known);
    while (checked(krlc_wait_for_change(client, 10, 20, now, known, 1000, &error)) == KRLC_UNCHANGED)
        ;
    checked(krlc_read(client, 10, 20, rows, 0, &error));
    show("changed", rows);

    krlc_client *none;
    options.servers = "127.0.0.1:1";
    if (krlc_join(&options, &none, &error) > KRLC_ANSWERS)
        printf("error: %s\n", error.sentence);
    krlc_rows_free(rows);
    krlc_free(client);                                          /* gives everything back */
    return 0;
}
