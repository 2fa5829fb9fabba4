/* The classes for C++. */
#include "common.h"
#include <krl_cache.hpp>

namespace {

using namespace std::string_literals;
using namespace std::string_view_literals;

/* Whether a call throws this error. */
template <class Call> void throws(krlcache_code code, Call call) {
    try {
        call();
    } catch (const krlcache::error &failed) {
        expect_at(code, failed.code(), failed.what(), __FILE__, __LINE__);
        return;
    }
    WANT(!"it throws");
}

krlcache::options options_of(char **words) {
    krlcache::options options;
    options.database = words[1];
    options.lock_folder = words[2];
    options.timeout = std::chrono::seconds(60);
    return options;
}

/* Reads a key until its row is in memory. */
void read_into_memory(const krlcache::table &items, krlcache::rows &rows, int key) {
    const auto end = std::chrono::steady_clock::now() + std::chrono::seconds(PATIENCE);
    while (items.cached_get(rows, key) == krlcache::found::unknown) {
        WANT(std::chrono::steady_clock::now() < end);
        items.get_into(rows, key);
        usleep(1000);
    }
}

void rows_of_one_key(const krlcache::table &items) {
    krlcache::rows lamp = items.get(3);
    WANT(lamp.size() == 1 && lamp[0] && lamp[0].get<std::string_view>("name") == "item 3");
    WANT(lamp[0].get<std::int64_t>("price") == 30 && lamp[0].get<std::string>(1) == "item 3");
    WANT(lamp[0].columns() == 3 && lamp[0].name(2) == "price" && lamp[0].type(2) == 20);
    WANT(lamp[0].get<krlcache::bytes>(0).size == 4);
    WANT(items.get(51).empty());
    krlcache::rows rows;
    read_into_memory(items, rows, 3);
    WANT(items.cached_get(rows, 3) == krlcache::found::row && rows[0].get<std::string_view>(1) == "item 3");
    krlcache::rows before = rows.share();
    ask("write 103 104 UPDATE item SET name = 'lamp', price = NULL WHERE id = 3");
    WANT(items.cached_get(rows, 3) == krlcache::found::unknown && rows.empty());
    WANT(items.get_into(rows, 3) && rows[0].get<std::string_view>("name") == "lamp");
    WANT(!rows[0].get<std::optional<std::int64_t>>("price"));
    throws(KRLCACHE_IS_NULL, [&] { (void)rows[0].get<std::int64_t>("price"); });
    WANT(before[0].get<std::string_view>("name") == "item 3");
    read_into_memory(items, rows, 51);
    WANT(items.cached_get(rows, 51) == krlcache::found::absent);
}

void several_rows(const krlcache::table &items) {
    const std::vector<int> keys = {13, 77, 12};
    krlcache::rows some = items.get_many(keys);
    WANT(some.size() == 3 && some[0] && !some[1] && some[2].get<std::int64_t>("id") == 12);
    throws(KRLCACHE_ABSENT, [&] { (void)some[1].get<std::int64_t>("id"); });
    std::int64_t key = 10;
    for (krlcache::row row : items.range(10, 19))
        WANT(row.get<std::int64_t>("id") == key++);
    WANT(key == 20);
    krlcache::rows rows;
    for (int one : keys)
        read_into_memory(items, rows, one);
    WANT(items.cached_get_many(rows, keys) && rows.size() == 3);
    WANT(items.cached_range(rows, 12, 13) && rows.size() == 2 && !items.cached_range(rows, 30, 39));
}

void keys_of_several_columns(const krlcache::cache &cache) {
    const krlcache::table places = cache.table("place"), notes = cache.table("note");
    krlcache::uuid id;
    id.fill(0xa0);
    WANT(places.get("at", id)[0].get<std::string_view>("The Name") == "Vienna");
    const std::vector<std::tuple<std::string, krlcache::uuid>> both = {{"de"s, id}, {"at"s, id}};
    krlcache::rows found = places.get_many(both);
    WANT(!found[0] && found[1].get<std::string>("country") == "at");
    WANT(notes.get_all("ada"sv).size() == 2);
    throws(KRLCACHE_SEVERAL_ROWS, [&] { (void)notes.get("ada"s); });
    WANT(cache.table("kinds").get(1)[0].get<double>("single") == 0.5);
    WANT(cache.table("kinds").get(1)[0].get<bool>("is_so"));
}

void errors(const krlcache::cache &cache, const krlcache::table &items) {
    const krlcache::table plain = cache.table("plain");
    WANT(plain.get(3).empty() && plain.fault().value().find("is not cached") != std::string::npos);
    try {
        (void)cache.table("missing");
    } catch (const krlcache::error &failed) {
        WANT(failed.code() == KRLCACHE_DATABASE && failed.sqlstate() == "42P01");
    }
    throws(KRLCACHE_BAD_KEY, [&] { (void)items.get("lamp"); });
    krlcache::rows lamp = items.get(3);
    throws(KRLCACHE_BAD_COLUMN, [&] { (void)lamp[0].get<double>("id"); });
    throws(KRLCACHE_BAD_COLUMN, [&] { (void)lamp[0].get<std::int64_t>("weight"); });
    throws(KRLCACHE_MISUSE, [] { krlcache::cache{krlcache::options()}; });
    WANT(!cache.fault() && !items.fault() && items.statistics().hits > 0);
}

} // namespace

int main(int count, char **words) {
    WANT(count == 3);
    krlcache::cache cache(options_of(words));
    krlcache::table items = cache.table("item");
    rows_of_one_key(items);
    several_rows(items);
    keys_of_several_columns(cache);
    errors(cache, items);
    krlcache::cache moved = std::move(cache);
    throws(KRLCACHE_MISUSE, [&] { (void)cache.fault(); });
    moved.close();
    WANT(items.get(3)[0].get<std::string_view>("name") == "lamp");
    return 0;
}
