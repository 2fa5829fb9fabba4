/* A reader or a writer of the drive in hosts/drive, by krl.hpp, which does what those of nodes.rs do.
 *
 *     drive_client reader|writer NUMBER SERVERS FOLDER
 *
 * It notes what it reads and writes in FOLDER/client-NUMBER.log, in the lines of log.rs, and ends when there is a file
 * FOLDER/end. The drive kills it, and compares all notes. KRL_CERTIFICATES names the folder of certificates for TLS.
 */
#include <krl.hpp>

#include <array>
#include <chrono>
#include <cstdlib>
#include <filesystem>
#include <fstream>
#include <iostream>
#include <mutex>
#include <optional>
#include <sstream>
#include <thread>

namespace {

using namespace std::chrono_literals;

constexpr std::array<std::uint64_t, 2> writers{1, 3};
constexpr std::uint64_t keys = 10, step = 10;
constexpr auto timeout = 3000ms;

struct range {
    std::uint64_t lo, hi;
};

/* The keys of a writer lie in this range, and nobody else writes there. */
range range_of(std::uint64_t writer) {
    return {1000 * writer, 1000 * writer + keys * step + 1};
}

/* In this range it writes once, so that readers keep it while servers die. */
range still_range_of(std::uint64_t writer) {
    range own = range_of(writer);
    return {own.lo + 10000, own.hi + 10000};
}

/* The machine's clock in nanoseconds. */
std::uint64_t now() {
    auto since = std::chrono::system_clock::now().time_since_epoch();
    return static_cast<std::uint64_t>(std::chrono::duration_cast<std::chrono::nanoseconds>(since).count());
}

/* A number as eight bytes, the highest first. */
std::string bytes_of(std::uint64_t number) {
    std::string bytes(8, '\0');
    for (std::size_t place = 8; place > 0; number >>= 8)
        bytes[--place] = static_cast<char>(number & 0xff);
    return bytes;
}

std::uint64_t number_of(std::string_view bytes) {
    std::uint64_t number = 0;
    for (char byte : bytes)
        number = number << 8 | static_cast<unsigned char>(byte);
    return number;
}

/* A log that is open at its end: several threads may write to it. */
class log {
  public:
    log(const std::string &folder, const std::string &number) {
        std::string path = folder + "/client-" + number + ".log";
        std::ifstream old(path, std::ios::binary | std::ios::ate);
        bool is_torn = old && old.tellg() > 0 && (old.seekg(-1, std::ios::end), old.get() != '\n');
        file_.open(path, std::ios::binary | std::ios::app);
        if (is_torn)
            file_ << " torn\n" << std::flush;
    }

    template <class... Words> void note(const Words &...words) {
        std::ostringstream line;
        const char *before = "";
        ((line << before << words, before = " "), ...);
        write(line.str());
    }
    void note_read(std::uint64_t begun, range of, const krl::rows &rows) {
        std::ostringstream line;
        line << "R " << begun << ' ' << now() << ' ' << of.lo << ' ' << of.hi;
        for (auto [key, value] : rows)
            line << ' ' << key << ' ' << number_of(value);
        write(line.str());
    }

  private:
    /* By one call of the system, as far as that goes: a kill leaves at most the last line torn. */
    void write(const std::string &line) {
        std::lock_guard<std::mutex> alone(turns_);
        file_ << line + '\n' << std::flush;
    }

    std::mutex turns_;
    std::ofstream file_;
};

bool is_unanswered(const krl::error &failed) {
    return failed.code() == KRLC_TIMED_OUT || failed.code() == KRLC_UNSERVED || failed.code() == KRLC_LEASE_ENDED ||
           failed.code() == KRLC_NOT_MADE;
}

krl::options options_of(const std::string &number, const std::string &servers, const std::string &folder) {
    krl::options options;
    options.servers = servers;
    options.number = static_cast<std::uint32_t>(std::stoul(number));
    options.lock_file = folder + "/client-" + number + ".lock";
    /* A server that recovers, or is being started, answers late. */
    options.timeout = 5 * timeout;
    if (servers.find("tls:") != std::string::npos) {
        std::string pki = std::getenv("KRL_CERTIFICATES");
        options.tls_authority = pki + "/authority.crt";
        options.tls_certificate = pki + "/client-" + number + ".crt";
        options.tls_key = pki + "/client-" + number + ".key";
    }
    return options;
}

/* Joins. While no server runs, it tries again. */
krl::client joined(const krl::options &options) {
    auto end = std::chrono::steady_clock::now() + options.timeout;
    while (true) {
        try {
            return krl::client(options);
        } catch (const krl::error &failed) {
            if (failed.code() != KRLC_NOTHING_LISTENS || std::chrono::steady_clock::now() >= end)
                throw;
        }
    }
}

/* A process of the drive. */
class node {
  public:
    node(const std::string &number, const std::string &servers, const std::string &folder)
        : number_(std::stoul(number)), end_(folder + "/end"), client_(joined(options_of(number, servers, folder))),
          log_(folder, number) {
        client_.set_timeout(timeout);
    }

    /* Reads every writer's ranges again and again, in two threads: one reads from the cache only, the other asks the
     * server for what the cache lacks. */
    void read_all() {
        std::thread cached([this] { read_again(true); });
        read_again(false);
        cached.join();
    }

    /* Writes its keys, one after the other: an insert if there is no entry, now and then a delete, otherwise a put. It
     * reads the key from its cache then. */
    void write_all() {
        fill();
        krl::rows rows;
        for (std::uint64_t turn = 0; runs(); turn++) {
            std::uint64_t key = range_of(number_).lo + step * (1 + turn % keys);
            std::uint64_t value = turn % 7 == 0 ? 0 : now();
            auto make = [&] { return value == 0 ? client_.erase(key) : client_.put(key, bytes_of(value)); };
            if (write(key, value, make) == krl::outcome::absent && value != 0)
                insert(key);
            std::uint64_t begun = now();
            if (client_.cached(key, key + 1, rows))
                log_.note_read(begun, {key, key + 1}, rows);
        }
    }

    void leave() { client_.leave(); }

  private:
    bool runs() const { return !std::filesystem::exists(end_); }

    void read_again(bool from_cache) {
        range first = range_of(writers[0]), second = range_of(writers[1]);
        /* One callback takes a whole range from the cache. Single keys stay there. */
        std::array<range, 7> ranges{range{first.lo, second.hi},
                                    range{first.lo + step, first.lo + step + 1},
                                    first,
                                    still_range_of(writers[0]),
                                    range{second.lo + step, second.lo + step + 1},
                                    second,
                                    still_range_of(writers[1])};
        krl::rows rows;
        for (std::size_t turn = 0; runs(); turn++) {
            range of = ranges[turn % ranges.size()];
            std::uint64_t begun = now();
            if (from_cache ? client_.cached(of.lo, of.hi, rows) : read(of, rows))
                log_.note_read(begun, of, rows);
            std::this_thread::sleep_for(1ms);
        }
    }

    bool read(range of, krl::rows &rows) {
        try {
            client_.read(of.lo, of.hi, rows);
            return true;
        } catch (const krl::error &failed) {
            if (!is_unanswered(failed))
                throw;
            return false;
        }
    }

    /* Inserts the rows of the still range that are not there. If no answer comes, another turn does it. */
    void fill() {
        range still = still_range_of(number_);
        krl::rows rows;
        if (!read(still, rows))
            return;
        for (std::uint64_t key = still.lo + step; key < still.hi; key += step) {
            bool is_there = false;
            for (auto [there, value] : rows)
                is_there |= there == key;
            if (!is_there)
                insert(key);
        }
    }

    void insert(std::uint64_t key) {
        std::uint64_t value = now();
        write(key, value, [&] { return client_.insert(key, bytes_of(value)); });
    }

    /* A write of the value, or a delete for 0. One that is not answered may have changed the table, or still may. */
    template <class Write> std::optional<krl::outcome> write(std::uint64_t key, std::uint64_t value, Write &&make) {
        log_.note("B", value == 0 ? now() : value, key, value == 0 ? "-" : std::to_string(value));
        try {
            krl::outcome outcome = make();
            log_.note("A", now(), key, outcome == krl::outcome::applied ? 1 : 0);
            return outcome;
        } catch (const krl::error &failed) {
            if (!is_unanswered(failed))
                throw;
            return std::nullopt;
        }
    }

    std::uint64_t number_;
    std::string end_;
    krl::client client_;
    log log_;
};

} // namespace

int main(int count, char **words) try {
    if (count != 5) {
        std::cerr << "usage: drive_client reader|writer NUMBER SERVERS FOLDER\n";
        return 2;
    }
    node own(words[2], words[3], words[4]);
    if (std::string(words[1]) == "reader")
        own.read_all();
    else
        own.write_all();
    own.leave();
    return 0;
} catch (const std::exception &failed) {
    std::cerr << "drive_client: " << failed.what() << '\n';
    return 1;
}
