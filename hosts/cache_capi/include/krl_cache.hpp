/* krl_cache.hpp: cached tables of PostgreSQL for C++17, over krl_cache.h, which describes each call in full.
 *
 *     krlcache::options options;
 *     options.database = "postgres://shop@127.0.0.1/shop";
 *     options.lock_folder = "/var/lib/shop/krl";
 *     krlcache::cache cache(options);
 *     krlcache::table items = cache.table("item");
 *     krlcache::rows lamp = items.get(15);
 *     if (!lamp.empty())
 *         std::cout << lamp[0].get<std::string_view>("name") << '\n';
 *     for (krlcache::row row : items.range(10, 19))
 *         std::cout << row.get<std::optional<std::int64_t>>("price").value_or(0) << '\n';
 *
 * Caches, tables and rows free themselves and can only be moved. A cache and its tables serve many threads; rows are
 * filled by one thread at a time. Each error is thrown as a krlcache::error, and std::bad_alloc if memory was refused.
 * A destructor throws nothing.
 *
 * Keys. A value of a key is an integer, a text, or a krlcache::uuid: `items.get(15)`, `places.get("at", id)`. Several
 * keys are a std::vector of them, of std::tuples if a key has several columns.
 */
#ifndef KRL_CACHE_HPP
#define KRL_CACHE_HPP

#include "krl_cache.h"

#include <algorithm>
#include <array>
#include <chrono>
#include <cstddef>
#include <cstdint>
#include <iterator>
#include <memory>
#include <new>
#include <optional>
#include <stdexcept>
#include <string>
#include <string_view>
#include <tuple>
#include <type_traits>
#include <utility>
#include <vector>

namespace krlcache {

/* What a call failed with: `what` is a sentence for people, and `sqlstate` the code that the database reported, if it
 * did. */
class error : public std::runtime_error {
  public:
    explicit error(const krlcache_error &failed)
        : std::runtime_error(failed.sentence), code_(static_cast<krlcache_code>(failed.code)) {
        std::copy(std::begin(failed.sqlstate), std::end(failed.sqlstate), sqlstate_.begin());
    }
    error(krlcache_code code, const char *sentence) : std::runtime_error(sentence), code_(code) {}

    krlcache_code code() const noexcept { return code_; }
    std::string_view sqlstate() const noexcept { return sqlstate_.data(); }

  private:
    krlcache_code code_;
    std::array<char, sizeof krlcache_error::sqlstate> sqlstate_ = {};
};

/* The bytes of a uuid, in the order in which they are written. */
using uuid = std::array<std::uint8_t, 16>;

/* The bytes of a column in PostgreSQL's binary format, borrowed from the rows. */
struct bytes {
    const std::uint8_t *data = nullptr;
    std::size_t size = 0;
};

/* What a read from memory only has found. */
enum class found : std::uint32_t {
    row = KRLCACHE_OK,
    /* The key is known to have no row. */
    absent = KRLCACHE_ABSENT,
    /* It is not in memory. */
    unknown = KRLCACHE_MISS,
};

/* How a cache is opened, as `krlcache_options`: an empty text and a zero stand for the default. */
struct options {
    std::string database;
    std::string user;
    std::string password;
    std::string lock_folder;
    std::uint32_t first_number = 0;
    std::uint32_t end_number = 0;
    std::uint64_t memory = 0;
    std::chrono::milliseconds timeout{0};
    std::string tls_authority;
    std::string tls_certificate;
    std::string tls_key;
    std::string tls_table;
};

namespace detail {

/* Throws the error of a call, if it has failed. */
inline std::uint32_t answered(std::uint32_t code, const krlcache_error &failed) {
    if (code == KRLCACHE_OUT_OF_MEMORY)
        throw std::bad_alloc();
    if (code > KRLCACHE_ANSWERS)
        throw error(failed);
    return code;
}

/* The sentence of a call that reports why rows are not kept; nothing if they are. */
template <class Call, class Handle> std::optional<std::string> fault_of(Call call, Handle *handle) {
    krlcache_error away;
    const std::uint32_t code = call(handle, &away);
    if (code == KRLCACHE_AWAY)
        return away.sentence;
    answered(code, away);
    return std::nullopt;
}

/* Frees what a call has made: a deleter for `std::unique_ptr`. */
template <auto Free> struct freed_by {
    template <class T> void operator()(T *made) const noexcept { Free(made); }
};

inline const char *or_null(const std::string &text) { return text.empty() ? nullptr : text.c_str(); }

/* A value of a key, which borrows a text and a uuid. */
template <class Integer, std::enable_if_t<std::is_integral_v<Integer>, int> = 0>
krlcache_value value_of(Integer number) {
    static_assert(sizeof(Integer) < 8 || std::is_signed_v<Integer>, "a bigint has a sign");
    return {KRLCACHE_INTEGER, static_cast<std::int64_t>(number), nullptr, 0};
}
inline krlcache_value value_of(std::string_view text) { return {KRLCACHE_TEXT, 0, text.data(), text.size()}; }
inline krlcache_value value_of(const uuid &id) { return {KRLCACHE_UUID, 0, id.data(), id.size()}; }

template <class Key> struct columns_of : std::integral_constant<std::size_t, 1> {
    static void append(std::vector<krlcache_value> &values, const Key &key) { values.push_back(value_of(key)); }
};
template <class... Values>
struct columns_of<std::tuple<Values...>> : std::integral_constant<std::size_t, sizeof...(Values)> {
    static void append(std::vector<krlcache_value> &values, const std::tuple<Values...> &key) {
        std::apply([&](const Values &...value) { (values.push_back(value_of(value)), ...); }, key);
    }
};

template <class Keys> std::vector<krlcache_value> values_of(const Keys &keys) {
    std::vector<krlcache_value> values;
    for (const auto &key : keys)
        columns_of<typename Keys::value_type>::append(values, key);
    return values;
}

template <class T> struct is_optional : std::false_type {};
template <class T> struct is_optional<std::optional<T>> : std::true_type {};

} // namespace detail

/* A row of an answer, which is borrowed from its rows. A column is named, or has a place in the order of the table. */
class row {
  public:
    row(const krlcache_rows *rows, std::size_t place) noexcept : rows_(rows), place_(place) {}

    /* Whether the key at this place has a row. */
    explicit operator bool() const noexcept { return krlcache_has_row(rows_, place_); }

    /* The value of a column, as a std::int64_t, double, bool, std::string_view, std::string or krlcache::bytes; or as a
     * std::optional of one, which is empty for NULL. Otherwise NULL is an error, by KRLCACHE_IS_NULL. */
    template <class T> T get(std::size_t column) const {
        if constexpr (detail::is_optional<T>::value) {
            return value<typename T::value_type>(column);
        } else {
            std::optional<T> found = value<T>(column);
            if (!found)
                throw error(KRLCACHE_IS_NULL, "the column is NULL: read a std::optional");
            return *std::move(found);
        }
    }
    template <class T> T get(const std::string &name) const {
        return get<T>(krlcache_find_column(rows_, place_, name.c_str()));
    }

    /* The number of columns, and the name and the type (oid) of each. */
    std::size_t columns() const noexcept { return krlcache_columns(rows_, place_); }
    std::string_view name(std::size_t column) const noexcept {
        std::size_t length = 0;
        const char *name = krlcache_column_name(rows_, place_, column, &length);
        return {name, length};
    }
    std::uint32_t type(std::size_t column) const noexcept { return krlcache_column_type(rows_, place_, column); }

  private:
    /* The value of a column, unless it is NULL. */
    template <class T> std::optional<T> value(std::size_t column) const {
        if constexpr (std::is_same_v<T, std::int64_t>) {
            return number<T>(krlcache_int64, column);
        } else if constexpr (std::is_same_v<T, double>) {
            return number<T>(krlcache_double, column);
        } else if constexpr (std::is_same_v<T, bool>) {
            return number<T>(krlcache_bool, column);
        } else if constexpr (std::is_same_v<T, bytes>) {
            const void *at = nullptr;
            std::size_t length = 0;
            if (!is_there(krlcache_bytes, column, &at, &length))
                return std::nullopt;
            return bytes{static_cast<const std::uint8_t *>(at), length};
        } else {
            const char *at = nullptr;
            std::size_t length = 0;
            if (!is_there(krlcache_text, column, &at, &length))
                return std::nullopt;
            return T(at, length);
        }
    }
    template <class T, class Call> std::optional<T> number(Call call, std::size_t column) const {
        T value = {};
        return is_there(call, column, &value) ? std::optional<T>(value) : std::nullopt;
    }
    /* Whether the call has written a value: the column is not NULL. */
    template <class Call, class... Out> bool is_there(Call call, std::size_t column, Out... out) const {
        krlcache_error failed;
        const std::uint32_t code = detail::answered(call(rows_, place_, column, out..., &failed), failed);
        if (code == KRLCACHE_ABSENT)
            throw error(KRLCACHE_ABSENT, "the key has no row");
        return code == KRLCACHE_OK;
    }

    const krlcache_rows *rows_;
    std::size_t place_;
};

/* The rows of an answer. They stay as they are until they are given to another read, which uses their room. */
class rows {
  public:
    class iterator {
      public:
        using iterator_category = std::input_iterator_tag;
        using value_type = row;
        using difference_type = std::ptrdiff_t;
        using pointer = const row *;
        using reference = row;

        iterator(const krlcache_rows *rows, std::size_t place) noexcept : rows_(rows), place_(place) {}
        row operator*() const noexcept { return row(rows_, place_); }
        iterator &operator++() noexcept { return ++place_, *this; }
        iterator operator++(int) noexcept { return iterator(rows_, place_++); }
        friend bool operator==(iterator a, iterator b) noexcept { return a.place_ == b.place_; }
        friend bool operator!=(iterator a, iterator b) noexcept { return a.place_ != b.place_; }

      private:
        const krlcache_rows *rows_;
        std::size_t place_;
    };

    rows() : rows(krlcache_rows_new()) {}

    /* The number of places: those of `get_many` have one for each key. */
    std::size_t size() const noexcept { return krlcache_rows_count(room_.get()); }
    bool empty() const noexcept { return size() == 0; }
    /* The row at a place below the size. */
    row operator[](std::size_t place) const noexcept { return row(room_.get(), place); }
    iterator begin() const noexcept { return iterator(room_.get(), 0); }
    iterator end() const noexcept { return iterator(room_.get(), size()); }

    /* The same rows, which stay when these are given to another read. */
    rows share() const { return rows(krlcache_rows_share(room_.get())); }

    krlcache_rows *handle() const noexcept { return room_.get(); }

  private:
    explicit rows(krlcache_rows *room) : room_(room) {
        if (!room_)
            throw std::bad_alloc();
    }

    std::unique_ptr<krlcache_rows, detail::freed_by<krlcache_rows_free>> room_;
};

/* A table of a cache. It may live longer than its cache. */
class table {
  public:
    explicit table(krlcache_table *opened) noexcept : table_(opened) {}

    /* The row of a key, which has these values: no rows if there is none. */
    template <class... Values> [[nodiscard]] rows get(const Values &...values) const {
        rows into;
        get_into(into, values...);
        return into;
    }
    /* The same, into rows that were there before: whether there is a row. */
    template <class... Values> bool get_into(rows &into, const Values &...values) const {
        const krlcache_value key[] = {detail::value_of(values)...};
        return call(krlcache_get, into, key, sizeof...(values)) == KRLCACHE_OK;
    }
    /* The same from memory only: it sends nothing and waits for nobody. */
    template <class... Values> [[nodiscard]] found cached_get(rows &into, const Values &...values) const {
        const krlcache_value key[] = {detail::value_of(values)...};
        return static_cast<found>(call(krlcache_cached_get, into, key, sizeof...(values)));
    }
    /* The rows of several keys, at the places of their keys, as they are at one moment. */
    template <class Key> [[nodiscard]] rows get_many(const std::vector<Key> &keys) const {
        rows into;
        const auto values = detail::values_of(keys);
        const std::size_t columns = detail::columns_of<Key>::value;
        call(krlcache_get_many, into, values.data(), keys.size(), columns);
        return into;
    }
    /* The same from memory only: false if not all of the keys are there. */
    template <class Key> [[nodiscard]] bool cached_get_many(rows &into, const std::vector<Key> &keys) const {
        const auto values = detail::values_of(keys);
        const std::size_t columns = detail::columns_of<Key>::value;
        return call(krlcache_cached_get_many, into, values.data(), keys.size(), columns) == KRLCACHE_OK;
    }
    /* All rows of a key, for a table whose key columns are not unique. */
    template <class... Values> [[nodiscard]] rows get_all(const Values &...values) const {
        rows into;
        const krlcache_value key[] = {detail::value_of(values)...};
        call(krlcache_get_all, into, key, sizeof...(values));
        return into;
    }
    /* The rows with keys from `first` to `last`, both included, as they are at one moment. */
    [[nodiscard]] rows range(std::int64_t first, std::int64_t last) const {
        rows into;
        call(krlcache_range, into, first, last);
        return into;
    }
    /* The same from memory only: false if not all of the keys are there. */
    [[nodiscard]] bool cached_range(rows &into, std::int64_t first, std::int64_t last) const {
        return call(krlcache_cached_range, into, first, last) == KRLCACHE_OK;
    }

    /* Why the rows of this table are not kept at present; nothing if they are. */
    [[nodiscard]] std::optional<std::string> fault() const {
        return detail::fault_of(krlcache_table_fault, table_.get());
    }

    /* What was done for the table since it was opened. */
    [[nodiscard]] krlcache_statistics statistics() const {
        krlcache_statistics counted = {};
        krlcache_error failed;
        detail::answered(krlcache_statistics_of(table_.get(), &counted, &failed), failed);
        return counted;
    }

    krlcache_table *handle() const noexcept { return table_.get(); }

  private:
    template <class Call, class... Words> std::uint32_t call(Call call, rows &into, Words... words) const {
        krlcache_error failed;
        return detail::answered(call(table_.get(), words..., into.handle(), &failed), failed);
    }

    std::unique_ptr<krlcache_table, detail::freed_by<krlcache_table_free>> table_;
};

/* A cache: a process needs one. Its destructor gives back all that the process holds, and waits until that is done. */
class cache {
  public:
    explicit cache(const options &wanted) {
        krlcache_options options = {};
        options.size = sizeof options;
        options.database = detail::or_null(wanted.database);
        options.user = detail::or_null(wanted.user);
        options.password = detail::or_null(wanted.password);
        options.lock_folder = detail::or_null(wanted.lock_folder);
        options.first_number = wanted.first_number;
        options.end_number = wanted.end_number;
        options.memory = wanted.memory;
        options.timeout_ms = wanted.timeout.count() > 0 ? static_cast<std::uint64_t>(wanted.timeout.count()) : 0;
        options.tls_authority = detail::or_null(wanted.tls_authority);
        options.tls_certificate = detail::or_null(wanted.tls_certificate);
        options.tls_key = detail::or_null(wanted.tls_key);
        options.tls_table = detail::or_null(wanted.tls_table);
        krlcache_cache *opened = nullptr;
        krlcache_error failed;
        detail::answered(krlcache_open(&options, &opened, &failed), failed);
        cache_.reset(opened);
    }

    /* Opens a table, which a process does once for each. */
    [[nodiscard]] krlcache::table table(const std::string &name) const {
        krlcache_table *opened = nullptr;
        krlcache_error failed;
        detail::answered(krlcache_table_open(cache_.get(), name.c_str(), &opened, &failed), failed);
        return krlcache::table(opened);
    }
    /* Why the rows of no table are kept at present, while the database answers all reads; nothing if they are. */
    [[nodiscard]] std::optional<std::string> fault() const { return detail::fault_of(krlcache_fault, cache_.get()); }
    /* Gives back all that the process holds now. Tables are read from the database from then on. */
    void close() noexcept { cache_.reset(); }

    krlcache_cache *handle() const noexcept { return cache_.get(); }

  private:
    std::unique_ptr<krlcache_cache, detail::freed_by<krlcache_close>> cache_;
};

} // namespace krlcache

#endif
