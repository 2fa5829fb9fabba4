/* What the programs that try the calls share. */
#ifndef COMMON_H
#define COMMON_H

#include "krl_client.h"
#include <stdio.h>
#include <stdlib.h>
#include <string.h>

/* Ends the program if a condition is false. */
#define WANT(holds)                                                                                \
    do {                                                                                           \
        if (!(holds)) {                                                                            \
            fprintf(stderr, "%s:%d: not so: %s\n", __FILE__, __LINE__, #holds);                    \
            exit(1);                                                                               \
        }                                                                                          \
    } while (0)

/* Ends the program if a call returns another code than this. */
#define EXPECT(wanted, call)                                                                       \
    do {                                                                                           \
        uint32_t code_ = (call);                                                                   \
        if (code_ != (wanted)) {                                                                   \
            fprintf(stderr, "%s:%d: %s: %s, and not %s\n", __FILE__, __LINE__, #call,              \
                    krlc_code_name(code_), krlc_code_name(wanted));                                \
            exit(1);                                                                               \
        }                                                                                          \
    } while (0)

/* No call of a test waits longer. */
enum { LONG_MS = 60000 };

/* Where the clients join: a kind, which is "servers", "leased", "map" or "tls", the place, and the folder of lock
 * files. */
typedef struct world {
    const char *kind, *place, *folder;
} world;

static inline world world_of(int count, char **words) {
    WANT(count == 4);
    return (world){words[1], words[2], words[3]};
}

/* Room for the texts of options. */
typedef struct texts {
    char lock_file[512], authority[512], certificate[512], key[512];
} texts;

/* The options of a client of this number. */
static inline krlc_options options_of(const world *world, uint32_t number, texts *texts) {
    snprintf(texts->lock_file, sizeof texts->lock_file, "%s/own-%u.lock", world->folder, number);
    snprintf(texts->authority, sizeof texts->authority, "%s/authority.crt", world->folder);
    snprintf(texts->certificate, sizeof texts->certificate, "%s/client-%u.crt", world->folder, number);
    snprintf(texts->key, sizeof texts->key, "%s/client-%u.key", world->folder, number);
    krlc_options options = {.size = sizeof options, .number = number, .timeout_ms = LONG_MS};
    options.lock_file = texts->lock_file;
    if (strcmp(world->kind, "map") == 0) {
        options.map = world->place;
        options.lock_file = world->folder;
    } else {
        options.servers = world->place;
    }
    if (strcmp(world->kind, "tls") == 0) {
        options.tls_authority = texts->authority;
        options.tls_certificate = texts->certificate;
        options.tls_key = texts->key;
    }
    return options;
}

static inline krlc_client *join(const world *world, uint32_t number) {
    texts texts;
    krlc_options options = options_of(world, number, &texts);
    krlc_client *client = NULL;
    krlc_error error = {0};
    uint32_t code = krlc_join(&options, &client, &error);
    if (code != KRLC_OK) {
        fprintf(stderr, "a client does not join: %s: %s\n", krlc_code_name(code), error.sentence);
        exit(1);
    }
    WANT(client != NULL);
    return client;
}

/* Whether the rows are those of this many keys, each with the text of its value. */
static inline bool are(const krlc_rows *rows, size_t wanted, const uint64_t *keys, const char **values) {
    size_t count = 99;
    const krlc_row *row = krlc_rows_get(rows, &count);
    bool same = count == wanted;
    for (size_t i = 0; same && i < count; i++) {
        size_t length = strlen(values[i]);
        same = row[i].key == keys[i] && row[i].length == length && memcmp(row[i].bytes, values[i], length) == 0;
    }
    return same;
}

#endif
