// A client in C++17: client 127.0.0.1:7400.
#include <iostream>
#include <krl.hpp>

void show(std::string_view what, const krl::rows &rows) {
    if (rows.empty())
        std::cout << what << ": no row\n";
    for (auto [key, value] : rows)
        std::cout << what << ": " << key << '=' << value << '\n';
}

int main(int count, char **words) try {
    krl::options options;
    options.servers = count > 1 ? words[1] : "";
    krl::client client(options);                                // takes the first free number
    std::cout << "client " << client.number() << '\n';

    std::cout << "get: " << client.get(15).value_or("no row") << '\n';
    krl::rows rows = client.read(10, 20);                       // asks the server, and keeps the range
    show("read", rows);
    if (client.cached(10, 20, rows))                            // no message; false if the cache lacks a part
        show("cached", rows);

    if (client.put(15, "hello") == krl::outcome::absent)
        std::cout << "put: there is no row\n";                  // `set` inserts it, or replaces its value
    if (client.set(15, "hello") == krl::outcome::full)
        std::cout << "the table is full\n";
    {
        auto [pinned, pin] = client.pin_for_update(10, 20);     // nobody else pins it for an update
        show("pinned", pinned);
        if (pin.put(15, "world") == krl::outcome::absent)       // made while the pin holds, or never
            std::cout << "the row is gone\n";
    }
    krl::changes changes = client.changes(10, 20);              // the rows now, and again after each change
    if (changes.next(std::chrono::seconds(60)))
        show("now", changes.rows());
    if (client.erase(15) == krl::outcome::applied && changes.next(std::chrono::seconds(60)))
        show("changed", changes.rows());

    try {
        options.servers = "127.0.0.1:1";
        krl::client none(options);
    } catch (const krl::error &error) {
        std::cout << "error: " << error.what() << '\n';
    }
    client.leave();                                             // gives everything back
} catch (const std::exception &error) {
    std::cerr << error.what() << '\n';
    return 1;
}
