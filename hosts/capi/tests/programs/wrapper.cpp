/* krl.hpp and krl_reader.hpp: what each class does, that handles move, and that errors are thrown. */
#include <krl_reader.hpp>

#include <cstdlib>
#include <iostream>
#include <type_traits>
#include <vector>

namespace {

using namespace std::chrono_literals;

void want(bool holds, const char *what) {
    if (!holds) {
        std::cerr << "wrapper: not so: " << what << '\n';
        std::exit(1);
    }
}

template <class Call> void throws(krlc_code code, Call &&call) {
    try {
        call();
    } catch (const krl::error &error) {
        want(error.code() == code && *error.what() != 0, krlc_code_name(code));
        return;
    }
    want(false, krlc_code_name(code));
}

krl::options options(char **words, std::uint32_t number) {
    krl::options options;
    options.servers = words[2];
    options.lock_file = std::string(words[3]) + "/own-" + std::to_string(number) + ".lock";
    options.number = number;
    return options;
}

krl::client join(char **words, std::uint32_t number) {
    krl::options with_timeout = options(words, number);
    with_timeout.timeout = 60s;
    return krl::client(with_timeout);
}

static_assert(!std::is_copy_constructible_v<krl::client> && std::is_nothrow_move_constructible_v<krl::client>);
static_assert(!std::is_copy_constructible_v<krl::pin> && std::is_nothrow_move_assignable_v<krl::pin>);
static_assert(!std::is_copy_constructible_v<krl::rows> && std::is_nothrow_move_constructible_v<krl::rows>);

void reads_and_writes(krl::client &client, krl::client &other) {
    want(client.insert(15, "fifteen") == krl::outcome::applied, "an insert");
    want(client.insert(15, "again") == krl::outcome::exists, "a second insert");
    want(client.put(16, "sixteen") == krl::outcome::absent, "a put of no row");
    want(client.insert(17, std::string_view("a\0b", 3)) == krl::outcome::applied, "a value with a zero");
    krl::rows rows = client.read(10, 20);
    want(rows.size() == 2 && rows[0].key == 15 && rows[0].value == "fifteen", "the first row");
    std::vector<std::uint64_t> keys;
    for (auto [key, value] : rows)
        keys.push_back(key + value.size());
    want(keys == std::vector<std::uint64_t>{22, 20}, "the rows in their order");
    want(std::distance(rows.begin(), rows.end()) == 2, "iterators");
    want(client.cached(10, 20, rows) && rows.size() == 2, "a cached read");
    want(!client.wait_for_change(10, 20, rows, 10ms), "no change");
    want(other.put(15, "other") == krl::outcome::applied, "a put of the other client");
    want(client.wait_for_change(10, 20, rows, 60s), "a change");
    want(!client.cached(10, 20, rows) && rows.empty() && rows.begin() == rows.end(), "a miss leaves no rows");
    want(other.erase(17) == krl::outcome::applied, "an erase");
    client.read(10, 20, rows);
    want(rows.size() == 1 && rows[0].value == "other", "the row of the other client");
    want(client.set(17, "set") == krl::outcome::applied, "a set of no row");
    want(client.set(17, "again") == krl::outcome::applied, "a set of a row");
    want(client.get(17) == "again" && !client.get(18), "one row, and none");
    want(client.erase(17) == krl::outcome::applied, "an erase of what was set");
}

void reads_once(char **words, krl::client &client) {
    client.forget(0, krl::end_of_ranges);
    want(krl::read_once(client, 10, 20)[0].value == "other", "a read that is not kept");
    krl::rows rows;
    want(!client.cached(15, 16, rows), "nothing of it is kept");
    krl::options options;
    options.servers = words[2];
    options.timeout = 60s;
    krl::reader reader(options);
    want(reader.read(10, 20).size() == 1 && reader.get(15) == "other" && !reader.get(16), "the rows of a reader");
    krl::reader moved = std::move(reader);
    want(moved.get(15) == "other", "a reader that was moved");
    throws(KRLC_MISUSE, [&] { (void)reader.get(15); });
    throws(KRLC_BAD_RANGE, [&] { (void)moved.read(20, 10); });
    options.number = 3;
    throws(KRLC_MISUSE, [&] { krl::reader numbered(options); });
}

void several(krl::client &client) {
    krl::batch batch;
    want(batch.empty(), "a batch of nothing");
    client.write_all(batch);
    batch.insert(40, "forty").insert(40, "again").set(41, "set").put(42, "none").erase(41);
    want(batch.size() == 5 && batch.at(0) == KRLC_NOT_MADE, "a batch that is not written");
    client.write_all(batch);
    want(batch.at(0) == KRLC_OK && batch.at(1) == KRLC_EXISTS && batch.at(2) == KRLC_OK, "the first outcomes");
    want(batch.at(3) == KRLC_ABSENT && batch.at(4) == KRLC_OK, "the last outcomes");
    krl::rows rows = client.read(40, 43);
    want(rows.size() == 1 && rows[0].value == "forty", "the rows of a batch");
    batch.clear();
    batch.erase(40).put(41, std::string(33, 'x'));
    throws(KRLC_TOO_LONG, [&] { client.write_all(batch); });
    want(batch.at(0) == KRLC_NOT_MADE && batch.at(1) == KRLC_NOT_MADE, "a batch that was refused");
    krl::pin pin = client.pin_for_write(40, 50).pin;
    batch.clear();
    pin.write_all(batch.erase(40).insert(41, "one"), 60s);
    want(batch.at(0) == KRLC_OK && batch.at(1) == KRLC_OK, "a batch by a pin");
    pin.release();
    throws(KRLC_MISUSE, [&] { pin.write_all(batch); });
    want(client.erase(41) == krl::outcome::applied, "an erase after a batch");
}

void changes(krl::client &client, krl::client &other) {
    krl::changes changes = client.changes(60, 70);
    want(changes.next(0ms) && changes.rows().empty(), "the first state");
    want(!changes.next(10ms), "no change of a range");
    want(other.insert(65, "one") == krl::outcome::applied, "an insert to be seen");
    want(changes.next(60s) && changes.rows().size() == 1 && changes.rows()[0].value == "one", "the next state");
    want(other.put(65, "two") == krl::outcome::applied, "a put to be seen");
    want(changes.next(60s) && changes.rows()[0].value == "two", "a state with another value");
    want(other.erase(65) == krl::outcome::applied, "an erase to be seen");
    want(changes.next(60s) && changes.rows().empty(), "the last state");
    throws(KRLC_BAD_RANGE, [&] { (void)client.changes(60, 60); });
}

/* The client's own timeout would be longer than the test may take. */
void timeouts(krl::client &client, krl::client &other) {
    /* The gap after the pinned range ends here. */
    want(other.insert(315, "bound") == krl::outcome::applied, "an insert");
    auto held = other.pin_for_write(300, 310);
    auto own = client.pin_for_read(320, 330);
    throws(KRLC_TIMED_OUT, [&] { (void)client.read(300, 310, 50ms); });
    throws(KRLC_NOT_MADE, [&] { (void)client.insert(301, "", 50ms); });
    throws(KRLC_NOT_MADE, [&] { (void)client.set(301, "", 50ms); });
    throws(KRLC_NOT_MADE, [&] { (void)client.erase(301, 50ms); });
    throws(KRLC_TIMED_OUT, [&] { (void)client.pin_for_update(300, 310, 50ms); });
    throws(KRLC_NOT_MADE, [&] { (void)own.pin.put(301, "", 50ms); });
    throws(KRLC_NOT_MADE, [&] { (void)own.pin.set(301, "", 50ms); });
    throws(KRLC_NOT_MADE, [&] { (void)own.pin.erase(301, 50ms); });
    held.pin.release();
    want(client.read(300, 310, 60s).empty(), "a read after the pin");
}

void numbers(char **words) {
    krl::options several;
    several.servers = words[2];
    several.lock_file = words[3];
    several.numbers = 1 << 5 | 1 << 6;
    krl::client first(several), second(several);
    want(first.number() == 5 && second.number() == 6, "the first free numbers");
    throws(KRLC_LOCK_FILE_TAKEN, [&] { krl::client third(several); });
}

void pins(krl::client &client) {
    auto [rows, pin] = client.pin_for_update(10, 20);
    want(rows.size() == 1 && pin.holds(), "a pin");
    krl::pin &empty = pin;
    throws(KRLC_PINNED, [&] { client.forget(10, 20); });
    want(pin.put(15, "pinned") == krl::outcome::applied, "a put by a pin");
    want(pin.insert(16, "new") == krl::outcome::applied, "an insert by a pin");
    krl::pin moved = std::move(pin);
    want(moved.erase(16) == krl::outcome::applied && moved.holds(), "a pin that was moved");
    want(moved.set(16, "set") == krl::outcome::applied, "a set by a pin");
    want(moved.erase(16) == krl::outcome::applied, "an erase by a pin");
    throws(KRLC_MISUSE, [&] { (void)empty.holds(); });
    moved.release();
    client.forget(10, 20);
    {
        krl::pin held = client.pin_held(10, 20);
        auto read = client.pin_for_read(30, 40);
        auto written = client.pin_for_write(50, 60);
        want(held.holds() && read.rows.empty() && written.pin.holds(), "three pins");
    }
    client.forget(0, krl::end_of_ranges);
}

} // namespace

int main(int count, char **words) {
    want(count == 4, "three words");
    krl::client client = join(words, 0), other = join(words, 1);
    reads_and_writes(client, other);
    reads_once(words, client);
    several(client);
    changes(client, other);
    pins(client);
    timeouts(client, other);
    numbers(words);
    krl::client moved = std::move(client);
    want(moved.status().size() == 1 && moved.status()[0].epoch == 1, "the status");
    throws(KRLC_MISUSE, [&] { (void)client.read(1, 2); });
    throws(KRLC_BAD_RANGE, [&] { (void)moved.read(2, 1); });
    krl::rows rows;
    throws(KRLC_BAD_RANGE, [&] { (void)moved.cached(2, 1, rows); });
    throws(KRLC_BAD_KEY, [&] { (void)moved.insert(krl::end_of_keys, ""); });
    throws(KRLC_TOO_LONG, [&] { (void)moved.insert(1, std::string(33, 'x')); });
    throws(KRLC_LOCK_FILE_TAKEN, [&] { join(words, 1); });
    throws(KRLC_LOCK_FILE_TAKEN, [&] { krl::evict(options(words, 1)); });
    krl::evict(options(words, 2));
    throws(KRLC_MISUSE, [&] { krl::client nowhere{krl::options()}; });
    throws(KRLC_BAD_TLS, [&] { moved.reload_tls(); });
    moved.set_timeout(30s);
    moved.keep_all();
    throws(KRLC_MISUSE, [&] { moved.follow(); });
    auto after = moved.pin_for_read(10, 20);
    moved.leave();
    throws(KRLC_LEFT, [&] { (void)moved.read(1, 2); });
    throws(KRLC_LEFT, [&] { (void)after.pin.put(15, ""); });
    return 0;
}
