/* krl.hpp without exceptions: each call returns its value or its error. */
#include <krl.hpp>

#include <cstdlib>
#include <iostream>
#include <type_traits>

namespace {

using namespace std::chrono_literals;

void want(bool holds, const char *what) {
    if (!holds) {
        std::cerr << "expected: not so: " << what << '\n';
        std::exit(1);
    }
}

template <class T> void fails(krlc_code code, const krl::expected<T> &answer) {
    want(!answer && answer.error().code() == code && *answer.error().what() != 0, krlc_code_name(code));
}

krl::options options(char **words, std::uint32_t number) {
    krl::options options;
    options.servers = words[2];
    options.lock_file = std::string(words[3]) + "/own-" + std::to_string(number) + ".lock";
    options.number = number;
    options.timeout = 60s;
    return options;
}

static_assert(std::is_same_v<krl::answer<int>, krl::expected<int>>);
static_assert(!std::is_constructible_v<krl::client, krl::options>);

void reads_and_writes(krl::client &client) {
    krl::expected<krl::outcome> written = client.insert(15, "fifteen");
    want(written && *written == krl::outcome::applied, "an insert");
    written = client.insert(15, "again");
    want(written && *written == krl::outcome::exists, "an answer that is no error");
    krl::expected<krl::rows> rows = client.read(10, 20);
    want(rows && rows->size() == 1 && (*rows)[0].value == "fifteen", "a read");
    krl::expected<bool> is_cached = client.cached(10, 20, *rows);
    want(is_cached && *is_cached, "a cached read");
    want(client.forget(10, 20).has_value(), "a call without a value");
    is_cached = client.cached(10, 20, *rows);
    want(is_cached.has_value() && !*is_cached, "a miss is no error");
    krl::expected<krl::pinned> pinned = client.pin_for_update(10, 20);
    want(pinned && pinned->rows.size() == 1 && *pinned->pin.put(15, "pinned") == krl::outcome::applied, "a pin");
    fails(KRLC_PINNED, client.forget(10, 20));
    krl::expected<bool> holds = pinned->pin.holds();
    want(holds && *holds, "a pin that holds");
    pinned->pin.release();
    fails(KRLC_MISUSE, pinned->pin.holds());
    fails(KRLC_MISUSE, pinned->pin.put(15, ""));
}

} // namespace

int main(int count, char **words) {
    want(count == 4, "three words");
    krl::expected<krl::client> client = krl::client::join(options(words, 0));
    want(client.has_value(), "a client that has joined");
    reads_and_writes(*client);
    fails(KRLC_LOCK_FILE_TAKEN, krl::client::join(options(words, 0)));
    fails(KRLC_BAD_RANGE, client->read(2, 1));
    krl::rows rows;
    fails(KRLC_BAD_RANGE, client->cached(2, 1, rows));
    fails(KRLC_BAD_KEY, client->insert(krl::end_of_keys, ""));
    fails(KRLC_BAD_TLS, client->reload_tls());
    auto status = client->status();
    want(status && status->size() == 1, "the status");
    krl::client moved = *std::move(client);
    want(moved.leave().has_value(), "a client that leaves");
    fails(KRLC_LEFT, moved.read(1, 2));
    return 0;
}
