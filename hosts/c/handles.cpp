/* A server and two clients in one process, by krl_handles.hpp: messages go from one to the other in memory, and what
 * has to be kept goes to no disk. Client 0 reads a range and keeps it while several threads scan it; client 1 inserts
 * into that range, which calls client 0 back.
 *
 *     c++ -std=c++17 -I FOLDER_OF_krl.h handles.cpp libkrl.a -o handles
 */
#include "krl_handles.hpp"

#include <atomic>
#include <cstdlib>
#include <iostream>
#include <thread>

namespace {

using namespace krl::handles;

constexpr std::uint64_t lo = 0, hi = 100;

void want(bool holds, const char *what) {
    if (!holds) {
        std::cerr << "handles: not so: " << what << '\n';
        std::exit(1);
    }
}

/* A server and its two clients. */
class world {
  public:
    world() : server_(kept{0, rows_, {}}) {
        server_.confirm(server_.notes());
        for (std::uint64_t number = 0; number < 2; number++)
            clients_.push_back(std::make_unique<shared_client>(joined(number)));
        settle();
    }

    shared_client &client_of(std::size_t number) { return *clients_[number]; }

    /* Hands messages over until nobody has one to send. */
    void settle() {
        for (std::size_t said = 1; said > 0;) {
            said = 0;
            for (auto &each : clients_)
                each->with([&](client &from) { from.take([&](message sent) { said++, hear(sent); }); });
            want(!server_.take([&](message sent) { said++, deliver(sent); }), "all is kept");
        }
    }

    /* Scans, and locks what the cache lacks. */
    std::string read(std::size_t number) {
        std::vector<row> room;
        for (;;) {
            scanned found = client_of(number).scan(lo, hi, room);
            if (auto *rows = std::get_if<view<const row>>(&found))
                return text(*rows);
            std::uint64_t point = std::get<miss>(found).point;
            code asked = client_of(number).with([&](client &it) { return it.lock(point, hi, mode::range_s_s); });
            want(asked == code::done, "a lock is asked for");
            settle();
        }
    }

  private:
    static client joined(std::uint64_t number) {
        client made(number, 1);
        /* The incarnation would be on the disk here. */
        made.confirm(made.notes());
        return made;
    }

    void hear(message sent) {
        krl_change change = server_.step(sent);
        /* The change would be on the disk here. */
        if (change.kind != KRL_UNCHANGED)
            server_.confirm(server_.notes());
    }

    void deliver(message sent) {
        std::uint64_t number = sent[KRL_CLIENT_AT];
        client_of(number).with([&](client &to) { want(to.step(sent) == code::done, "a message is heard"); });
    }

    static std::string text(view<const row> rows) {
        std::string all;
        for (const row &each : rows)
            all += " " + std::to_string(each.key) + "=" + std::string(each.value());
        return all;
    }

    std::vector<row> rows_{{10, "ten"}, {20, "twenty"}};
    server server_;
    std::vector<std::unique_ptr<shared_client>> clients_;
};

/* Several threads scan at once while another one has the client tick. */
void scan_at_once(shared_client &shared) {
    std::atomic<int> wrong{0};
    std::vector<std::thread> threads;
    for (int number = 0; number < 3; number++)
        threads.emplace_back([&] {
            std::vector<row> room;
            for (int count = 0; count < 1000; count++) {
                scanned found = shared.scan(lo, hi, room);
                auto *rows = std::get_if<view<const row>>(&found);
                wrong += rows == nullptr || rows->size() != 2;
            }
        });
    for (int count = 0; count < 100; count++)
        shared.with([](client &it) { want(it.tick() == code::done, "a tick"); });
    for (std::thread &each : threads)
        each.join();
    want(wrong == 0, "each scan has two rows");
}

void pins(world &all, shared_client &shared) {
    shared.with([](client &it) {
        std::vector<pin> taken;
        for (std::uint64_t number = 0; number < 8; number++)
            taken.push_back(std::get<pin>(it.pin_range(number, number + 1)));
        want(std::get<code>(it.pin_range(9, 10)) == code::too_many_pins, "a ninth pin");
        want(it.forget(lo, hi) == code::pinned, "a pinned range is kept");
        pin moved = std::move(taken.back());
        moved.release();
        taken.clear();
        want(it.forget(lo, hi) == code::done, "a range without a pin is given back");
    });
    all.settle();
}

void faults() {
    try {
        server refused(kept{0, {}, {}, 0});
        want(false, "no room is refused");
    } catch (const error &failed) {
        want(failed.reply.code == KRL_BAD_ROOM, "the code of no room");
    }
    client unkept(3, 1);
    want(unkept.take([](message) { want(false, "nothing leaves before it is kept"); }), "messages wait");
    const std::uint8_t none[] = {1, 2, 3};
    want(unkept.step(message(none, sizeof none)) == code::bad_message, "bytes that are no message");
    client moved = std::move(unkept);
    moved.leave();
    want(moved.lock(0, 1, mode::s) == code::gone && moved.step(message(none, 3)) == code::gone, "it has left");
}

} // namespace

int main() {
    world all;
    std::cout << "client 0 reads" << all.read(0) << '\n';
    scan_at_once(all.client_of(0));
    all.client_of(1).with([](client &it) { want(it.lock(15, 16, mode::range_i_n) == code::done, "a gap"); });
    all.settle();
    all.client_of(1).with([](client &it) {
        want(it.insert(15, "fifteen") == code::done && it.insert(16, "") == code::writing, "one write at a time");
    });
    all.settle();
    want(all.client_of(1).with([](client &it) { return it.status().outcome; }) == KRL_APPLIED, "it is applied");
    std::cout << "client 0 reads" << all.read(0) << '\n';
    pins(all, all.client_of(0));
    faults();
    return 0;
}
