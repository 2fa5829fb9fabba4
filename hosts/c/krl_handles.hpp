/* krl_handles.hpp: the handles of krl.h for C++17, header only. krl.h describes each call in full.
 *
 *     krl::handles::client client(3, incarnation);         // closes itself, and may be moved
 *     disk.keep(incarnation);
 *     client.confirm(client.notes());                      // what rests on it may leave
 *     client.take([&](krl::handles::message sent) { network.send(sent.data(), sent.size()); });
 *     client.step(received);
 *     std::vector<krl::handles::row> room;
 *     auto found = client.scan(10, 20, room);
 *     if (auto *missed = std::get_if<krl::handles::miss>(&found))
 *         client.lock(missed->point, 20, krl::handles::mode::range_s_s);
 *
 * A code that a host meets in its ordinary work is a result; any other one is thrown as a krl::handles::error. A handle
 * serves one call at a time. `shared_client` lets many threads scan one client at once.
 *
 * It is for hosts with a network and a disk of their own (docs/EMBEDDING.md). krl.hpp is a client with a network.
 */
#ifndef KRL_HANDLES_HPP
#define KRL_HANDLES_HPP

#include "krl.h"

#include <cstddef>
#include <cstdint>
#include <cstring>
#include <memory>
#include <mutex>
#include <new>
#include <shared_mutex>
#include <stdexcept>
#include <string>
#include <string_view>
#include <type_traits>
#include <utility>
#include <variant>
#include <vector>

namespace krl::handles {

/* What a call answers. */
enum class code : std::uint32_t {
    done = KRL_DONE,
    unsaid = KRL_UNSAID,
    out_of_memory = KRL_OUT_OF_MEMORY,
    gone = KRL_GONE,
    bad_message = KRL_BAD_MESSAGE,
    too_short = KRL_TOO_SHORT,
    miss = KRL_MISS,
    pending = KRL_PENDING,
    alarm = KRL_ALARM,
    not_joined = KRL_NOT_JOINED,
    busy = KRL_BUSY,
    not_held = KRL_NOT_HELD,
    pinned = KRL_PINNED,
    writing = KRL_WRITING,
    too_many_pins = KRL_TOO_MANY_PINS,
    unkept = KRL_UNKEPT,
};

/* A mode of a lock: a part for the gap below an entry, and a part for the entry. */
enum class mode : std::uint32_t {
    n = KRL_N,
    s = KRL_S,
    u = KRL_U,
    x = KRL_X,
    range_s_s = KRL_RANGE_S_S,
    range_s_u = KRL_RANGE_S_U,
    range_i_n = KRL_RANGE_I_N,
    range_i_s = KRL_RANGE_I_S,
    range_i_u = KRL_RANGE_I_U,
    range_i_x = KRL_RANGE_I_X,
    range_x_s = KRL_RANGE_X_S,
    range_x_u = KRL_RANGE_X_U,
    range_x_x = KRL_RANGE_X_X,
};

/* A call that failed as none should: its code and detail are those of krl.h. */
class error : public std::runtime_error {
  public:
    error(const char *call, krl_reply failed)
        : std::runtime_error(std::string(call) + ": code " + std::to_string(failed.code) + ", detail " +
                             std::to_string(failed.detail)),
          reply(failed) {}

    krl_reply reply;
};

/* Values that lie one after the other, and are borrowed. */
template <class T> class view {
  public:
    view() = default;
    view(T *first, std::size_t count) noexcept : first_(first), count_(count) {}
    template <class Container,
              class = std::enable_if_t<std::is_convertible_v<decltype(std::declval<Container &>().data()), T *>>>
    view(Container &&values) noexcept : first_(values.data()), count_(values.size()) {}

    T *data() const noexcept { return first_; }
    std::size_t size() const noexcept { return count_; }
    bool empty() const noexcept { return count_ == 0; }
    T *begin() const noexcept { return first_; }
    T *end() const noexcept { return first_ + count_; }
    T &operator[](std::size_t place) const noexcept { return first_[place]; }

  private:
    T *first_ = nullptr;
    std::size_t count_ = 0;
};

/* The bytes of a message. */
using message = view<const std::uint8_t>;

/* A row, as `krl_row`. */
struct row : krl_row {
    row() noexcept : krl_row{} {}
    row(std::uint64_t at, std::string_view value) : krl_row{} {
        if (value.size() > KRL_MAX_VALUE_BYTES)
            throw std::length_error("a value has at most 32 bytes");
        key = at;
        length = value.size();
        if (!value.empty())
            std::memcpy(bytes, value.data(), value.size());
    }
    std::string_view value() const noexcept {
        return {reinterpret_cast<const char *>(bytes), static_cast<std::size_t>(length)};
    }
};
static_assert(sizeof(row) == sizeof(krl_row) && std::is_trivially_copyable_v<row>);

/* The client does not know the whole range: the least point that it does not know. */
struct miss {
    std::uint64_t point;
};
/* The client's write to this key of the range is not answered yet. */
struct pending {
    std::uint64_t key;
};
/* The rows of a scan, borrowed from its room; or why there are none. */
using scanned = std::variant<view<const row>, miss, pending>;

namespace detail {

/* Throws unless the call was done. */
inline krl_reply done(const char *call, krl_reply reply) {
    if (reply.code == KRL_OUT_OF_MEMORY)
        throw std::bad_alloc();
    if (reply.code != KRL_DONE && reply.code != KRL_UNSAID)
        throw error(call, reply);
    return reply;
}

/* The code of a call of a client that a host meets in its ordinary work. */
inline code ordinary(const char *call, krl_reply reply) {
    switch (reply.code) {
    case KRL_GONE:
    case KRL_NOT_JOINED:
    case KRL_BUSY:
    case KRL_NOT_HELD:
    case KRL_PINNED:
    case KRL_WRITING:
    case KRL_TOO_MANY_PINS:
        return static_cast<code>(reply.code);
    default:
        return static_cast<code>(done(call, reply).code);
    }
}

/* Scans by a call that takes room, which grows as it has to. */
template <class Scan> scanned scan(std::vector<row> &room, Scan &&call) {
    krl_reply reply = call(room.data(), room.size());
    if (reply.code == KRL_TOO_SHORT) {
        room.resize(static_cast<std::size_t>(reply.detail));
        reply = call(room.data(), room.size());
    }
    if (reply.code == KRL_MISS)
        return miss{reply.detail};
    if (reply.code == KRL_PENDING)
        return pending{reply.detail};
    done("a scan", reply);
    return view<const row>(room.data(), static_cast<std::size_t>(reply.detail));
}

inline std::uint64_t number_at(const std::uint8_t *bytes) noexcept {
    std::uint64_t number = 0;
    for (int place = 7; place >= 0; place--)
        number = number << 8 | bytes[place];
    return number;
}

struct close {
    void operator()(krl_handle *handle) const noexcept {
        krl_close(handle);
        delete handle;
    }
};

} // namespace detail

/* What a client and a server have in common. It closes itself, and may be moved: the handle stays in its place. */
class handle {
  public:
    krl_handle *get() const noexcept { return at_.get(); }

    /* How many notes were reported: the first is the opening, and each change of a server's step is one more. */
    std::uint64_t notes() const { return detail::done("krl_confirm", krl_confirm(get(), 0)).detail; }

    /* Confirms that the first `count` notes are on the disk. */
    void confirm(std::uint64_t count) { detail::done("krl_confirm", krl_confirm(get(), count)); }

    /* Calls `deliver` with each message that may leave, in their order, and returns whether more wait for a
     * confirmation. The message is borrowed during the call. */
    template <class Deliver> bool take(Deliver &&deliver) {
        for (;;) {
            krl_reply reply = krl_take(get(), room_.data(), room_.size());
            if (reply.code == KRL_UNKEPT)
                return true;
            if (reply.code == KRL_TOO_SHORT) {
                room_.resize(static_cast<std::size_t>(reply.detail));
                continue;
            }
            if (detail::done("krl_take", reply).detail == 0)
                return false;
            std::size_t end = static_cast<std::size_t>(reply.detail);
            for (std::size_t at = 0, length = 0; at < end; at += prefix + length) {
                length = static_cast<std::size_t>(detail::number_at(room_.data() + at));
                deliver(message(room_.data() + at + prefix, length));
            }
        }
    }

  protected:
    handle() : at_(new krl_handle{}), room_(4096) {}

  private:
    static constexpr std::size_t prefix = 8;

    std::unique_ptr<krl_handle, detail::close> at_;
    std::vector<std::uint8_t> room_;
};

/* A pinned range of a client. It has to end before the client does, and as any call of the client does. */
class pin {
  public:
    pin(pin &&other) noexcept : of_(std::exchange(other.of_, nullptr)), number_(other.number_) {}
    pin &operator=(pin &&other) noexcept {
        release();
        of_ = std::exchange(other.of_, nullptr);
        number_ = other.number_;
        return *this;
    }
    ~pin() { release(); }

    /* Frees the range now. */
    void release() noexcept {
        if (of_ != nullptr)
            krl_client_unpin(std::exchange(of_, nullptr), number_);
    }

  private:
    friend class client;
    pin(krl_handle *of, std::uint64_t number) noexcept : of_(of), number_(number) {}

    krl_handle *of_;
    std::uint64_t number_;
};

/* A client of this number, in an incarnation that is greater than each earlier one. */
class client : public handle {
  public:
    client(std::uint64_t number, std::uint64_t incarnation) {
        detail::done("krl_client_open", krl_client_open(get(), number, incarnation));
    }

    /* Takes a message: `code::gone` after the client has left, and `code::bad_message` for bytes that are not one. */
    code step(message heard) {
        krl_reply reply = krl_client_step(get(), heard.data(), heard.size());
        if (reply.code == KRL_BAD_MESSAGE)
            return code::bad_message;
        return detail::ordinary("krl_client_step", reply);
    }
    /* sends again what is not answered. */
    code tick() { return detail::ordinary("krl_client_tick", krl_client_tick(get())); }
    code lock(std::uint64_t point, std::uint64_t hi, mode wanted) {
        auto number = static_cast<std::uint32_t>(wanted);
        return detail::ordinary("krl_client_lock", krl_client_lock(get(), point, hi, number));
    }
    code insert(std::uint64_t key, std::string_view value) {
        krl_reply reply = krl_client_insert(get(), key, bytes_of(value), value.size());
        return detail::ordinary("krl_client_insert", reply);
    }
    code put(std::uint64_t key, std::string_view value) {
        krl_reply reply = krl_client_put(get(), key, bytes_of(value), value.size());
        return detail::ordinary("krl_client_put", reply);
    }
    code erase(std::uint64_t key) { return detail::ordinary("krl_client_delete", krl_client_delete(get(), key)); }
    /* As `insert` and `put`, and asks for the lock that the change needs. */
    code take_insert(std::uint64_t key, std::string_view value) {
        krl_reply reply = krl_client_take_insert(get(), key, bytes_of(value), value.size());
        return detail::ordinary("krl_client_take_insert", reply);
    }
    code take_put(std::uint64_t key, std::string_view value) {
        krl_reply reply = krl_client_take_put(get(), key, bytes_of(value), value.size());
        return detail::ordinary("krl_client_take_put", reply);
    }

    /* Scans the cache. The rows lie in the room, which grows as it has to. */
    scanned scan(std::uint64_t lo, std::uint64_t hi, std::vector<row> &room) const {
        return detail::scan(
            room, [&](row *at, std::size_t count) { return krl_client_scan(get(), lo, hi, at, count); });
    }
    code forget(std::uint64_t lo, std::uint64_t hi) {
        return detail::ordinary("krl_client_forget", krl_client_forget(get(), lo, hi));
    }
    /* Gives back what the client holds of the range above this mode. */
    code lower(std::uint64_t lo, std::uint64_t hi, mode keep) {
        auto number = static_cast<std::uint32_t>(keep);
        return detail::ordinary("krl_client_lower", krl_client_lower(get(), lo, hi, number));
    }
    /* Pins the range as the client holds it. */
    std::variant<pin, code> pin_range(std::uint64_t lo, std::uint64_t hi) {
        krl_reply reply = krl_client_pin(get(), lo, hi);
        code answered = detail::ordinary("krl_client_pin", reply);
        if (answered != code::done)
            return answered;
        return pin(get(), reply.detail);
    }

    krl_client_state status() const {
        krl_client_state state = krl_client_status(get());
        detail::ordinary("krl_client_status", state.reply);
        return state;
    }
    /* Sends Bye, which gives back all that the client holds. */
    void leave() { detail::done("krl_client_leave", krl_client_leave(get())); }

  private:
    static const std::uint8_t *bytes_of(std::string_view value) noexcept {
        return reinterpret_cast<const std::uint8_t *>(value.data());
    }
};

/* A client that many threads scan at once, each with room of its own, while one at a time does anything else. */
class shared_client {
  public:
    explicit shared_client(client &&own) : client_(std::move(own)) {}

    /* Scans the cache next to other scans. */
    scanned scan(std::uint64_t lo, std::uint64_t hi, std::vector<row> &room) const {
        std::shared_lock<std::shared_mutex> among(turns_);
        krl_reader reader = krl_reader_of(client_.get());
        return detail::scan(
            room, [&](row *at, std::size_t count) { return krl_reader_scan(&reader, lo, hi, at, count); });
    }
    /* Calls `use` with the client while no thread scans. What leaves is taken here too: then nothing that the client
     * gives up leaves while a scan still sees it. */
    template <class Use> decltype(auto) with(Use &&use) {
        std::unique_lock<std::shared_mutex> alone(turns_);
        return std::forward<Use>(use)(client_);
    }

  private:
    mutable std::shared_mutex turns_;
    client client_;
};

/* What a server starts on. */
struct kept {
    std::uint64_t epoch = 0;
    view<const row> rows;
    view<const krl_record> records;
    std::size_t room = KRL_DEFAULT_ROOM;
    std::size_t reach = KRL_DEFAULT_REACH;
};

/* A server. */
class server : public handle {
  public:
    explicit server(const kept &of = {}) {
        krl_reply opened = krl_server_open(get(), of.room, of.reach, of.epoch, of.rows.data(), of.rows.size(),
                                           of.records.data(), of.records.size());
        epoch_ = detail::done("krl_server_open", opened).detail;
    }
    std::uint64_t epoch() const noexcept { return epoch_; }

    /* Judges a message: what has changed has to be on the disk, and confirmed, before anything that rests on it can be
     * taken. Bytes that are not a message, and reports that contradict what the server knows, throw an error. */
    [[nodiscard]] krl_change step(message heard) {
        krl_stepped stepped = krl_server_step(get(), heard.data(), heard.size());
        detail::done("krl_server_step", stepped.reply);
        return stepped.change;
    }
    /* Sends again to a client what it may have missed. */
    void nudge(std::uint64_t client) { detail::done("krl_server_nudge", krl_server_nudge(get(), client)); }
    krl_server_state status() const {
        krl_server_state state = krl_server_status(get());
        detail::done("krl_server_status", state.reply);
        return state;
    }
    /* The clients whose reports it waits for while it recovers. */
    std::vector<std::uint64_t> missing() const {
        std::vector<std::uint64_t> clients(KRL_CLIENTS);
        krl_reply reply = krl_server_missing(get(), clients.data(), clients.size());
        clients.resize(static_cast<std::size_t>(detail::done("krl_server_missing", reply).detail));
        return clients;
    }

  private:
    std::uint64_t epoch_ = 0;
};

} // namespace krl::handles

#endif
