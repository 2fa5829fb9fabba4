/* krl.hpp: a client of a krl server for C++17, over krl_client.h, which describes each call in full.
 *
 *     krl::options options;
 *     options.servers = "127.0.0.1:7400";
 *     krl::client client(options);
 *     if (client.insert(15, "hello") == krl::outcome::exists)
 *         std::cout << "there is a row already\n";
 *     for (auto [key, value] : client.read(10, 20))
 *         std::cout << key << '=' << value << '\n';
 *     auto [read, pin] = client.pin_for_update(10, 20);
 *
 * Clients, pins and rows free themselves and can only be moved. A client and its pins serve many threads, rows one.
 *
 * Errors. Each error is thrown as a krl::error, and std::bad_alloc if memory was refused. A destructor throws nothing.
 * With KRL_EXPECTED defined before the header is included, and if the compiler has no exceptions, nothing is thrown:
 * each `krl::answer<T>` below is then a `krl::expected<T>`, which has the value or the error, and not the value itself:
 *
 *     krl::expected<krl::client> client = krl::client::join(options);
 *     if (!client)
 *         std::cerr << client.error().what() << '\n';
 */
#ifndef KRL_HPP
#define KRL_HPP

#include "krl_client.h"

#include <algorithm>
#include <chrono>
#include <cstddef>
#include <cstdint>
#include <cstring>
#include <iterator>
#include <memory>
#include <new>
#include <optional>
#include <stdexcept>
#include <string>
#include <string_view>
#include <type_traits>
#include <utility>
#include <variant>
#include <vector>

#if !defined(KRL_EXPECTED) && !defined(__cpp_exceptions)
#define KRL_EXPECTED
#endif

namespace krl {

/* Files of one program may be compiled with different choices. */
#ifdef KRL_EXPECTED
inline namespace returning {
#else
inline namespace throwing {
#endif

/* One past the greatest key, and the greatest end of a range. */
inline constexpr std::uint64_t end_of_keys = KRLC_END;
inline constexpr std::uint64_t end_of_ranges = KRLC_TOP;

/* What a call failed with: `what` is a sentence for people. */
class error : public std::runtime_error {
  public:
    explicit error(const krlc_error &failed)
        : std::runtime_error(failed.sentence), code_(static_cast<krlc_code>(failed.code)), shard_(failed.shard),
          reason_(static_cast<krlc_reason>(failed.reason)) {}
    error(krlc_code code, const char *sentence) : std::runtime_error(sentence), code_(code) {}

    krlc_code code() const noexcept { return code_; }
    /* The shard that refused the call, from 0, or -1. */
    int shard() const noexcept { return shard_; }
    /* With KRLC_UNSERVED and KRLC_NOT_MADE, why the server does not serve the client, if it gave a reason. */
    krlc_reason reason() const noexcept { return reason_; }
    /* Whether a write that failed with it may have been applied, or may still be: a read of the key shows it. */
    bool is_unknown_outcome() const noexcept { return krlc_is_unknown_outcome(code_); }

  private:
    krlc_code code_;
    int shard_ = -1;
    krlc_reason reason_ = KRLC_NO_REASON;
};

/* How a write was judged. Only `applied` has changed the table. */
enum class outcome : std::uint32_t {
    applied = KRLC_OK,
    exists = KRLC_EXISTS,
    absent = KRLC_ABSENT,
    full = KRLC_FULL,
    not_held = KRLC_NOT_HELD,
};

/* A row of an answer. The value is borrowed from the rows. */
struct row {
    std::uint64_t key;
    std::string_view value;
};

#ifdef KRL_EXPECTED

/* A value, or the error that a call failed with. It is true if it has a value, whatever that is. */
template <class T> class [[nodiscard]] expected {
  public:
    expected(T value) : content_(std::in_place_index<0>, std::move(value)) {}
    expected(krl::error failed) : content_(std::in_place_index<1>, std::move(failed)) {}

    bool has_value() const noexcept { return content_.index() == 0; }
    explicit operator bool() const noexcept { return has_value(); }
    /* The value, if there is one. */
    T &operator*() & noexcept { return *std::get_if<0>(&content_); }
    const T &operator*() const & noexcept { return *std::get_if<0>(&content_); }
    T &&operator*() && noexcept { return std::move(*std::get_if<0>(&content_)); }
    T *operator->() noexcept { return std::get_if<0>(&content_); }
    const T *operator->() const noexcept { return std::get_if<0>(&content_); }
    /* The error, if there is no value. */
    const krl::error &error() const noexcept { return *std::get_if<1>(&content_); }

  private:
    std::variant<T, krl::error> content_;
};

template <> class [[nodiscard]] expected<void> {
  public:
    expected() = default;
    expected(krl::error failed) : failed_(std::move(failed)) {}

    bool has_value() const noexcept { return !failed_; }
    explicit operator bool() const noexcept { return has_value(); }
    const krl::error &error() const noexcept { return *failed_; }

  private:
    std::optional<krl::error> failed_;
};

template <class T> using answer = expected<T>;

#else

template <class T> using answer = T;

#endif

namespace detail {

/* What a call returns, or its error. */
template <class Make>
answer<std::invoke_result_t<Make>> answered(std::uint32_t code, const krlc_error &failed, Make make) {
    if (code > KRLC_ANSWERS) {
#ifdef KRL_EXPECTED
        return error(failed);
#else
        if (code == KRLC_OUT_OF_MEMORY)
            throw std::bad_alloc();
        throw error(failed);
#endif
    }
    if constexpr (std::is_void_v<std::invoke_result_t<Make>>) {
        make();
        return answer<void>();
    } else {
        return make();
    }
}

/* The outcome of a write. */
inline answer<outcome> judged(std::uint32_t code, const krlc_error &failed) {
    return answered(code, failed, [&] { return static_cast<outcome>(code); });
}

/* The error of a call that writes no sentence. */
inline krlc_error named(std::uint32_t code) {
    krlc_error failed = {code, -1, KRLC_NO_REASON, {}};
    std::string_view name = krlc_code_name(code);
    name.copy(failed.sentence, sizeof failed.sentence - 1);
    return failed;
}

inline std::uint64_t milliseconds(std::chrono::milliseconds time) {
    return time.count() > 0 ? static_cast<std::uint64_t>(time.count()) : 0;
}

inline const char *or_null(const std::string &text) { return text.empty() ? nullptr : text.c_str(); }

/* Frees what a call has made: a deleter for `std::unique_ptr`. */
template <auto Free> struct freed_by {
    template <class T> void operator()(T *made) const noexcept { Free(made); }
};

} // namespace detail

/* The rows of an answer, in the order of their keys. They may be given to another read, which uses their room. */
class rows {
  public:
    class iterator {
      public:
        using iterator_category = std::input_iterator_tag;
        using value_type = row;
        using difference_type = std::ptrdiff_t;
        using pointer = const row *;
        using reference = row;

        iterator() = default;
        explicit iterator(const krlc_row *at) noexcept : at_(at) {}
        row operator*() const noexcept {
            return {at_->key, {reinterpret_cast<const char *>(at_->bytes), static_cast<std::size_t>(at_->length)}};
        }
        iterator &operator++() noexcept { return ++at_, *this; }
        iterator operator++(int) noexcept { return iterator(at_++); }
        friend bool operator==(iterator a, iterator b) noexcept { return a.at_ == b.at_; }
        friend bool operator!=(iterator a, iterator b) noexcept { return a.at_ != b.at_; }

      private:
        const krlc_row *at_ = nullptr;
    };
    using const_iterator = iterator;
    using value_type = row;

    /* Rows that got no memory where nothing can be thrown: a call refuses them with KRLC_MISUSE. */
    rows() : room_(krlc_rows_new()) {
#ifndef KRL_EXPECTED
        if (!room_)
            throw std::bad_alloc();
#endif
    }

    const krlc_row *data() const noexcept { return krlc_rows_get(room_.get(), nullptr); }
    std::size_t size() const noexcept {
        std::size_t count = 0;
        krlc_rows_get(room_.get(), &count);
        return count;
    }
    bool empty() const noexcept { return size() == 0; }
    iterator begin() const noexcept { return iterator(data()); }
    iterator end() const noexcept { return iterator(data() + size()); }
    /* The row at a place below the size. */
    row operator[](std::size_t place) const noexcept { return *iterator(data() + place); }

    krlc_rows *get() const noexcept { return room_.get(); }

  private:
    std::unique_ptr<krlc_rows, detail::freed_by<krlc_rows_free>> room_;
};

/* Several writes that are made in one call, as `krlc_write_all`, and what became of each. */
class batch {
  public:
    batch &insert(std::uint64_t key, std::string_view value) { return add(KRLC_INSERT, key, value); }
    batch &put(std::uint64_t key, std::string_view value) { return add(KRLC_PUT, key, value); }
    batch &set(std::uint64_t key, std::string_view value) { return add(KRLC_SET, key, value); }
    batch &erase(std::uint64_t key) { return add(KRLC_DELETE, key, {}); }

    std::size_t size() const noexcept { return writes_.size(); }
    bool empty() const noexcept { return writes_.empty(); }
    void clear() noexcept { writes_.clear(); }
    krlc_write *data() noexcept { return writes_.data(); }

    /* What became of the write at a place below the size: the code of its outcome, as `outcome` has it, KRLC_UNKNOWN or
     * KRLC_NOT_MADE. It is KRLC_NOT_MADE before the batch is written. */
    krlc_code at(std::size_t place) const { return static_cast<krlc_code>(writes_.at(place).outcome); }

  private:
    /* A value that is too long keeps its length, by which it is refused. */
    batch &add(krlc_kind kind, std::uint64_t key, std::string_view value) {
        krlc_write write = {};
        write.kind = kind;
        write.outcome = KRLC_NOT_MADE;
        write.row.key = key;
        write.row.length = value.size();
        value.copy(reinterpret_cast<char *>(write.row.bytes), sizeof write.row.bytes);
        writes_.push_back(write);
        return *this;
    }

    std::vector<krlc_write> writes_;
};

/* How long a call waits for an answer: a call that is given none waits for its client's timeout. */
using timeout = std::chrono::milliseconds;

/* A pinned range: other clients wait for it until this is destroyed. It may live longer than its client. */
class pin {
  public:
    explicit pin(krlc_pin *taken) noexcept : pin_(taken) {}

    /* Whether no other client has taken anything of the range since it was pinned. Ask after the work. */
    [[nodiscard]] answer<bool> holds() const {
        std::uint32_t code = krlc_pin_holds(pin_.get());
        if (code == KRLC_PIN_IS_VOID)
            return false;
        return detail::answered(code, detail::named(code), [] { return true; });
    }
    /* These writes are made while the pin holds, or never: otherwise the error is KRLC_PIN_IS_VOID. */
    [[nodiscard]] answer<outcome> insert(std::uint64_t key, std::string_view value, timeout time = {}) {
        return written(krlc_pin_insert, key, value, time);
    }
    [[nodiscard]] answer<outcome> put(std::uint64_t key, std::string_view value, timeout time = {}) {
        return written(krlc_pin_put, key, value, time);
    }
    [[nodiscard]] answer<outcome> set(std::uint64_t key, std::string_view value, timeout time = {}) {
        return written(krlc_pin_set, key, value, time);
    }
    [[nodiscard]] answer<outcome> erase(std::uint64_t key, timeout time = {}) {
        krlc_error failed;
        return detail::judged(krlc_pin_delete(pin_.get(), key, detail::milliseconds(time), &failed), failed);
    }
    /* Makes the writes of the batch as `client::write_all` does, each while the pin holds, or never. */
    answer<void> write_all(batch &writes, timeout time = {}) {
        krlc_error failed;
        const auto waits = detail::milliseconds(time);
        const auto code = krlc_pin_write_all(pin_.get(), writes.data(), writes.size(), waits, &failed);
        return detail::answered(code, failed, [] {});
    }
    /* Ends the pin now. Later calls are refused. */
    void release() noexcept { pin_.reset(); }

    krlc_pin *get() const noexcept { return pin_.get(); }

  private:
    using write_call = std::uint32_t (*)(krlc_pin *, std::uint64_t, const void *, std::size_t, std::uint64_t,
                                         krlc_error *);

    answer<outcome> written(write_call call, std::uint64_t key, std::string_view value, timeout time) {
        krlc_error failed;
        std::uint64_t waits = detail::milliseconds(time);
        return detail::judged(call(pin_.get(), key, value.data(), value.size(), waits, &failed), failed);
    }

    std::unique_ptr<krlc_pin, detail::freed_by<krlc_pin_free>> pin_;
};

/* Rows that were read and are pinned. */
struct pinned {
    krl::rows rows;
    krl::pin pin;
};

/* How a client joins, as `krlc_options`: an empty text and a zero stand for the default. */
struct options {
    std::string servers;
    std::string map;
    std::string lock_file;
    std::uint32_t number = 0;
    /* In place of `number`, several of which the first free one is taken: bit 3 is for the number 3. */
    std::uint64_t numbers = 0;
    std::chrono::milliseconds timeout{0};
    std::chrono::milliseconds wait_if_in_use{0};
    std::string tls_authority;
    std::string tls_certificate;
    std::string tls_key;
    std::string table;
    std::uint64_t lo = 0;
    std::uint64_t hi = 0;
};

namespace detail {

inline krlc_options options_of(const options &wanted) {
    krlc_options options = {};
    options.size = sizeof options;
    options.servers = or_null(wanted.servers);
    options.map = or_null(wanted.map);
    options.lock_file = or_null(wanted.lock_file);
    options.number = wanted.number;
    options.numbers = wanted.numbers;
    options.timeout_ms = milliseconds(wanted.timeout);
    options.wait_if_in_use_ms = milliseconds(wanted.wait_if_in_use);
    options.tls_authority = or_null(wanted.tls_authority);
    options.tls_certificate = or_null(wanted.tls_certificate);
    options.tls_key = or_null(wanted.tls_key);
    options.table = or_null(wanted.table);
    options.lo = wanted.lo;
    options.hi = wanted.hi;
    return options;
}

} // namespace detail

/* Ends the client of a number for good, as `krlc_evict`: its process has to be dead. */
inline answer<void> evict(const options &wanted) {
    krlc_options options = detail::options_of(wanted);
    krlc_error failed;
    return detail::answered(krlc_evict(&options, &failed), failed, [] {});
}

/* The states of a range, one after the other, of a client that outlives this. The first is that of the first call. Each
 * later one is that of a later moment and differs from the one before: states in between may be missed, and the last
 * one is not. An error ends nothing, and the next call continues. */
class changes {
  public:
    changes(krlc_client *client, std::uint64_t lo, std::uint64_t hi) : client_(client), lo_(lo), hi_(hi) {}

    /* Waits for the next state: false if the range has not changed within the time. A read that it needs waits for the
     * client's timeout all the same. */
    [[nodiscard]] answer<bool> next(std::chrono::milliseconds time) {
        using clock = std::chrono::steady_clock;
        const clock::time_point end = clock::now() + time;
        for (;;) {
            const auto left = std::chrono::duration_cast<std::chrono::milliseconds>(end - clock::now());
            if (has_read_ && is_unchanged(left))
                return false;
            krlc_error failed;
            const std::uint32_t code = krlc_read(client_, lo_, hi_, rows_.get(), 0, &failed);
            if (code > KRLC_ANSWERS)
                return detail::answered(code, failed, [] { return false; });
            if (!has_read_ || differs())
                break;
            if (left.count() <= 0)
                return false;
        }
        has_read_ = true;
        known_.assign(rows_.data(), rows_.data() + rows_.size());
        return true;
    }
    /* The rows of the last state; none after an error. */
    const krl::rows &rows() const noexcept { return rows_; }

  private:
    /* Why a wait failed shows in the read that follows. */
    bool is_unchanged(std::chrono::milliseconds left) const {
        return krlc_wait_for_change(client_, lo_, hi_, known_.data(), known_.size(), detail::milliseconds(left),
                                    nullptr) == KRLC_UNCHANGED;
    }
    bool differs() const {
        return !std::equal(known_.begin(), known_.end(), rows_.data(), rows_.data() + rows_.size(),
                           [](const krlc_row &a, const krlc_row &b) {
                               return a.key == b.key && a.length == b.length &&
                                      std::memcmp(a.bytes, b.bytes, static_cast<std::size_t>(a.length)) == 0;
                           });
    }

    krlc_client *client_;
    std::uint64_t lo_;
    std::uint64_t hi_;
    bool has_read_ = false;
    krl::rows rows_;
    std::vector<krlc_row> known_;
};

/* A client that has joined. Its destructor leaves, and waits at most a second for that. */
class client {
  public:
    static answer<client> join(const options &wanted) {
        krlc_options options = detail::options_of(wanted);
        krlc_client *joined = nullptr;
        krlc_error failed;
        std::uint32_t code = krlc_join(&options, &joined, &failed);
        return detail::answered(code, failed, [&] { return client(joined); });
    }
#ifndef KRL_EXPECTED
    explicit client(const options &wanted) : client(join(wanted)) {}
#endif

    /* The rows of a range: from the cache if that has it, otherwise from the servers. */
    [[nodiscard]] answer<krl::rows> read(std::uint64_t lo, std::uint64_t hi, timeout time = {}) {
        krl::rows found;
        krlc_error failed;
        std::uint32_t code = krlc_read(client_.get(), lo, hi, found.get(), detail::milliseconds(time), &failed);
        return detail::answered(code, failed, [&] { return std::move(found); });
    }
    /* The same, into rows that were there before. */
    answer<void> read(std::uint64_t lo, std::uint64_t hi, krl::rows &into, timeout time = {}) {
        return done(krlc_read, lo, hi, into.get(), detail::milliseconds(time));
    }
    /* The value of a row, read as a range is; none if there is no row. */
    [[nodiscard]] answer<std::optional<std::string>> get(std::uint64_t key, timeout time = {}) {
        krlc_row row;
        krlc_error failed;
        const std::uint32_t code = krlc_get(client_.get(), key, &row, detail::milliseconds(time), &failed);
        return detail::answered(code, failed, [&] {
            using value = std::optional<std::string>;
            return code == KRLC_OK ? value((*krl::rows::iterator(&row)).value) : value();
        });
    }
    /* Reads from the cache only, without a message: false if that does not have the whole range. */
    [[nodiscard]] answer<bool> cached(std::uint64_t lo, std::uint64_t hi, krl::rows &into) {
        std::uint32_t code = krlc_cached(client_.get(), lo, hi, into.get());
        if (code <= KRLC_ANSWERS)
            return code == KRLC_OK;
        return detail::answered(code, detail::named(code), [] { return false; });
    }

    [[nodiscard]] answer<outcome> insert(std::uint64_t key, std::string_view value, timeout time = {}) {
        return written(krlc_insert, key, value, time);
    }
    [[nodiscard]] answer<outcome> put(std::uint64_t key, std::string_view value, timeout time = {}) {
        return written(krlc_put, key, value, time);
    }
    /* Gives a key this value, whether or not it has a row. */
    [[nodiscard]] answer<outcome> set(std::uint64_t key, std::string_view value, timeout time = {}) {
        return written(krlc_set, key, value, time);
    }
    [[nodiscard]] answer<outcome> erase(std::uint64_t key, timeout time = {}) {
        krlc_error failed;
        return detail::judged(krlc_delete(client_.get(), key, detail::milliseconds(time), &failed), failed);
    }

    /* Makes the writes of the batch in one call: `batch::at` shows what became of each, also after an error. */
    answer<void> write_all(batch &writes, timeout time = {}) {
        return done(krlc_write_all, writes.data(), writes.size(), detail::milliseconds(time));
    }

    /* Pins what the client holds of the range, without reading it. */
    [[nodiscard]] answer<krl::pin> pin_held(std::uint64_t lo, std::uint64_t hi, timeout time = {}) {
        krlc_pin *taken = nullptr;
        krlc_error failed;
        std::uint32_t code = krlc_pin_held(client_.get(), lo, hi, &taken, detail::milliseconds(time), &failed);
        return detail::answered(code, failed, [&] { return krl::pin(taken); });
    }
    /* Read a range and pin it: to read it only, to write there next, or so that nobody else reads it. */
    [[nodiscard]] answer<pinned> pin_for_read(std::uint64_t lo, std::uint64_t hi, timeout time = {}) {
        return pinned_by(krlc_pin_for_read, lo, hi, time);
    }
    [[nodiscard]] answer<pinned> pin_for_update(std::uint64_t lo, std::uint64_t hi, timeout time = {}) {
        return pinned_by(krlc_pin_for_update, lo, hi, time);
    }
    [[nodiscard]] answer<pinned> pin_for_write(std::uint64_t lo, std::uint64_t hi, timeout time = {}) {
        return pinned_by(krlc_pin_for_write, lo, hi, time);
    }

    /* Waits until the client no longer knows that the range has just these rows: false after the time. */
    [[nodiscard]] answer<bool> wait_for_change(std::uint64_t lo, std::uint64_t hi, const krl::rows &known,
                                       std::chrono::milliseconds time) {
        krlc_error failed;
        std::uint32_t code = krlc_wait_for_change(client_.get(), lo, hi, known.data(), known.size(),
                                                  detail::milliseconds(time), &failed);
        return detail::answered(code, failed, [&] { return code == KRLC_OK; });
    }
    /* The states of a range that is not empty, one after the other, for as long as this client lives. */
    [[nodiscard]] answer<krl::changes> changes(std::uint64_t lo, std::uint64_t hi) {
        krlc_error none = detail::named(KRLC_BAD_RANGE);
        const bool is_range = lo < hi && hi <= end_of_ranges;
        return detail::answered(is_range ? KRLC_OK : KRLC_BAD_RANGE, none,
                                [&] { return krl::changes(client_.get(), lo, hi); });
    }
    /* Gives back what the client holds of the range. */
    answer<void> forget(std::uint64_t lo, std::uint64_t hi, timeout time = {}) {
        return done(krlc_forget, lo, hi, detail::milliseconds(time));
    }

    /* The client's number: the one of `numbers` that was free. */
    [[nodiscard]] std::uint32_t number() const noexcept { return krlc_number(client_.get()); }
    /* What the client shows of each shard that it has joined, or of its one server. */
    [[nodiscard]] answer<std::vector<krlc_status>> status() const {
        std::vector<krlc_status> shown(krlc_joined(client_.get()));
        krlc_error failed;
        std::uint32_t code = KRLC_OK;
        for (std::size_t place = 0; place < shown.size() && code == KRLC_OK; place++)
            code = krlc_status_at(client_.get(), place, &shown[place], &failed);
        return detail::answered(code, failed, [&] { return std::move(shown); });
    }
    /* How long calls wait from now on that are given no timeout. */
    answer<void> set_timeout(timeout time) { return done(krlc_set_timeout, detail::milliseconds(time)); }
    /* From now on the client keeps what it reads, or follows its map: see `krlc_keep_all` and `krlc_follow`. */
    answer<void> keep_all() { return done(krlc_keep_all); }
    answer<void> follow() { return done(krlc_follow); }
    answer<void> reload_tls() { return done(krlc_reload_tls); }
    /* Gives back all that the client holds, and waits until each server has that on its disk. */
    answer<void> leave(timeout time = {}) { return done(krlc_leave, detail::milliseconds(time)); }

    krlc_client *get() const noexcept { return client_.get(); }

  private:
    /* A call of C that returns only a code. */
    template <class Call, class... Words> answer<void> done(Call call, Words... words) {
        krlc_error failed;
        return detail::answered(call(client_.get(), words..., &failed), failed, [] {});
    }

    using write_call = std::uint32_t (*)(krlc_client *, std::uint64_t, const void *, std::size_t, std::uint64_t,
                                         krlc_error *);

    answer<outcome> written(write_call call, std::uint64_t key, std::string_view value, timeout time) {
        krlc_error failed;
        std::uint64_t waits = detail::milliseconds(time);
        return detail::judged(call(client_.get(), key, value.data(), value.size(), waits, &failed), failed);
    }

    using pin_call = std::uint32_t (*)(krlc_client *, std::uint64_t, std::uint64_t, krlc_rows *, krlc_pin **,
                                       std::uint64_t, krlc_error *);

    explicit client(krlc_client *joined) noexcept : client_(joined) {}
    answer<pinned> pinned_by(pin_call call, std::uint64_t lo, std::uint64_t hi, timeout time) {
        krl::rows found;
        krlc_pin *taken = nullptr;
        krlc_error failed;
        std::uint64_t waits = detail::milliseconds(time);
        std::uint32_t code = call(client_.get(), lo, hi, found.get(), &taken, waits, &failed);
        return detail::answered(code, failed, [&] { return pinned{std::move(found), krl::pin(taken)}; });
    }

    std::unique_ptr<krlc_client, detail::freed_by<krlc_free>> client_;
};

#ifdef KRL_EXPECTED
} // namespace returning
#else
} // namespace throwing
#endif
} // namespace krl

#endif
