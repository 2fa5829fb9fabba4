/* A storage engine's use of krl: nodes share the space map of a disk, and each allocates extents from it.
 *
 * The table has a row for each extent that is in use: the key is the extent, the value its owner. A node looks for free
 * extents in its cache, and takes one while it has pinned the range that it looked at, so that no two nodes take the
 * same one.
 *
 *     storage_engine SERVERS LOCK_FOLDER
 */
#include <krl.hpp>

#include <iostream>
#include <string>
#include <thread>

namespace {

constexpr std::uint64_t extents = 12;

class node {
  public:
    node(const std::string &servers, const std::string &folder, std::uint32_t number)
        : name_("node " + std::to_string(number)), client_(options(servers, folder, number)) {}

    /* Takes extents until none is free, and returns how many. */
    std::uint64_t fill() {
        std::uint64_t taken = 0;
        while (take_one())
            taken++;
        return taken;
    }

    std::size_t owned() {
        std::size_t count = 0;
        for (auto [extent, owner] : client_.read(0, extents))
            count += owner == name_ ? 1 : 0;
        return count;
    }

  private:
    bool take_one() {
        auto [used, pin] = client_.pin_for_update(0, extents);
        std::uint64_t free = 0;
        for (auto [extent, owner] : used)
            free += extent == free ? 1 : 0;
        return free < extents && pin.insert(free, name_) == krl::outcome::applied;
    }

    static krl::options options(const std::string &servers, const std::string &folder, std::uint32_t number) {
        krl::options options;
        options.servers = servers;
        options.lock_file = folder + "/node-" + std::to_string(number) + ".lock";
        options.number = number;
        return options;
    }

    std::string name_;
    krl::client client_;
};

} // namespace

int main(int count, char **words) try {
    if (count != 3) {
        std::cerr << "usage: storage_engine SERVERS LOCK_FOLDER\n";
        return 2;
    }
    node first(words[1], words[2], 0), second(words[1], words[2], 1);
    std::uint64_t of_first = 0;
    std::thread other([&] { of_first = first.fill(); });
    std::uint64_t of_second = second.fill();
    other.join();
    std::cout << of_first + of_second << " extents taken\n";
    return first.owned() + second.owned() == extents ? 0 : 1;
} catch (const krl::error &error) {
    std::cerr << "storage_engine: " << error.what() << '\n';
    return 1;
}
