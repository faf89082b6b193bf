// A server in C++ that answers ten ticks after it was asked: its host keeps what asks (homa::late_host), so the program keeps the calls' ids
// alone. Two hosts in one process; ticks are counted by hand. Prints when each call is told, and when it is done.
#include "homa.hpp"
#include <deque>
#include <iostream>
#include <string>

struct datagram {
    std::uint16_t from;
    homa::bytes it;
};
struct job {
    homa_call_id id;
    std::uint64_t ready;
    homa::bytes answer;
};

static std::deque<datagram> under_way;
static std::deque<job> jobs;

static void send(homa::host &host, std::uint16_t from) {
    host.frames([from](std::uint16_t, homa::view frame) { under_way.push_back({from, frame.copied()}); });
}

// A datagram comes to the server. A call that asks is put to work; one that is at work already needs nothing.
static void come_to_server(homa::late_host &server, const homa::bytes &it, std::uint64_t now) {
    homa_asked asked;
    if (server.deliver(0, it, now, asked) != homa::late_host::came::asks) return;
    homa::bytes answer = server.whole();
    std::cout << "tick " << now << ": call " << asked.id.number << " is told\n";
    jobs.push_back({asked.id, now + 10, homa::bytes(answer.rbegin(), answer.rend())});
}

static void come_to_client(homa::host &client, const homa::bytes &it, std::uint64_t now) {
    if (client.deliver(1, it, now)) throw std::logic_error("nobody calls the client");
    client.entries([&](const homa_entry_info &entry) {
        if (entry.kind != HOMA_DONE) return;
        const homa::bytes response = client.whole();
        std::cout << "tick " << now << ": call " << entry.id.number << " is done: " << std::string(response.begin(), response.end()) << '\n';
    });
}

int main() {
    const homa_settings settings = homa::service_settings();
    homa::host client(settings, 0, 1);
    homa::late_host server(settings, 1, 1, 16, settings.life);
    for (const char *request : {"hello", "good day"}) {
        (void)client.call(1, 7, std::string(request), 0);
        send(client, 0);
    }
    for (std::uint64_t now = 0; now < 20; now++) {
        for (; !under_way.empty(); under_way.pop_front()) {
            const datagram it = under_way.front();
            if (it.from == 0) come_to_server(server, it.it, now), send(server, 1);
            else come_to_client(client, it.it, now), send(client, 0);
        }
        for (; !jobs.empty() && jobs.front().ready <= now; jobs.pop_front())
            if (server.answer(jobs.front().id, jobs.front().answer, now) == homa::late_host::answered::step) send(server, 1);
        client.turn(now), send(client, 0);
        server.turn(now), send(server, 1);
    }
    std::cout << server.at_work() << " calls are kept at the end\n";
}
