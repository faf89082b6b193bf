// One call between two hosts in one process, in C++: what a program has to do, without a net. Prints what is asked and what comes back.
#include "homa.hpp"
#include <iostream>
#include <string>
#include <utility>

static std::string text(const homa::bytes &it) { return {it.begin(), it.end()}; }

// A datagram comes to a host, which answers what is asked.
static void come(homa::host &host, std::uint16_t from, const homa::bytes &datagram) {
    const std::optional<homa_asked> asked = host.deliver(from, datagram, 0);
    if (!asked) return;
    std::cout << "service " << asked->service << " is asked: " << text(host.whole()) << '\n';
    const std::string answer = "good day";
    if (host.deliver(from, datagram, 0, answer)) throw std::logic_error("it asks with an answer in hand");
}

// Hands the frames of a host's last step to the other host, and so on.
static void hand_over(std::vector<homa::host> &hosts, std::uint16_t from) {
    std::vector<std::pair<std::uint16_t, homa::bytes>> frames;
    hosts[from].frames([&](std::uint16_t to, homa::view frame) { frames.emplace_back(to, frame.copied()); });
    for (const auto &[to, frame] : frames) {
        homa::host &host = hosts[to];
        come(host, from, frame);
        host.entries([&](const homa_entry_info &entry) {
            if (entry.kind == HOMA_DONE) std::cout << "done: " << text(host.whole()) << '\n';
        });
        hand_over(hosts, to);
    }
}

int main() {
    std::vector<homa::host> hosts; // they move as the vector grows
    for (std::uint16_t i = 0; i < 2; i++) hosts.emplace_back(homa::service_settings(), i, 1);
    const homa_call_id id = hosts[0].call(1, 7, std::string("hello"), 0);
    hand_over(hosts, 0);
    try {
        std::cout << hosts[0].call(id.client, 7, std::string("hello"), 0).number << '\n'; // a host doesn't call itself
    } catch (const homa::refused &it) {
        std::cout << "refused, " << it.what() << '\n';
    }
}
