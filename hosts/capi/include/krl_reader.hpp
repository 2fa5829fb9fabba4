/* krl_reader.hpp: reads that are not kept, for C++17, over krl_client.h, which describes each call in full.
 *
 *     krl::options options;
 *     options.servers = "127.0.0.1:7400";
 *     krl::reader reader(options);
 *     for (auto [key, value] : reader.read(10, 20))
 *         std::cout << key << '=' << value << '\n';
 *
 * Errors are those of krl.hpp.
 */
#ifndef KRL_READER_HPP
#define KRL_READER_HPP

#include "krl.hpp"

namespace krl {

#ifdef KRL_EXPECTED
inline namespace returning {
#else
inline namespace throwing {
#endif

/* A reader is not a client: it has no number and no lock file, and keeps nothing. Threads that use it take turns. */
class reader {
  public:
    /* The options that only clients have are not set. */
    static answer<reader> connect(const options &wanted) {
        krlc_options options = detail::options_of(wanted);
        krlc_reader *connected = nullptr;
        krlc_error failed;
        std::uint32_t code = krlc_reader_connect(&options, &connected, &failed);
        return detail::answered(code, failed, [&] { return reader(connected); });
    }
#ifndef KRL_EXPECTED
    explicit reader(const options &wanted) : reader(connect(wanted)) {}
#endif

    /* The rows of a range, as the servers have them. */
    [[nodiscard]] answer<krl::rows> read(std::uint64_t lo, std::uint64_t hi) {
        krl::rows found;
        krlc_error failed;
        std::uint32_t code = krlc_reader_read(reader_.get(), lo, hi, found.get(), &failed);
        return detail::answered(code, failed, [&] { return std::move(found); });
    }
    /* The value of a row; none if there is no row. */
    [[nodiscard]] answer<std::optional<std::string>> get(std::uint64_t key) {
        krlc_row row;
        krlc_error failed;
        const std::uint32_t code = krlc_reader_get(reader_.get(), key, &row, &failed);
        return detail::answered(code, failed, [&] {
            using value = std::optional<std::string>;
            return code == KRLC_OK ? value((*krl::rows::iterator(&row)).value) : value();
        });
    }

  private:
    explicit reader(krlc_reader *connected) noexcept : reader_(connected) {}

    std::unique_ptr<krlc_reader, detail::freed_by<krlc_reader_free>> reader_;
};

/* The rows of a range, as the servers have them: the client does not keep them. */
[[nodiscard]] inline answer<krl::rows> read_once(const client &client, std::uint64_t lo, std::uint64_t hi,
                                                 timeout time = {}) {
    krl::rows found;
    krlc_error failed;
    std::uint32_t code = krlc_read_once(client.get(), lo, hi, found.get(), detail::milliseconds(time), &failed);
    return detail::answered(code, failed, [&] { return std::move(found); });
}

#ifdef KRL_EXPECTED
} // namespace returning
#else
} // namespace throwing
#endif
} // namespace krl

#endif
