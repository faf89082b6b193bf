// homa.hpp: hosts that move, and answers that come late. Two hosts in one process, ticks by hand: fifty calls, of one packet and of several by
// turns, each answered up to sixty ticks after it was told. By the settings, a call of several packets waits as long as it has to, and one
// of one packet for its patience of 24 ticks. Prints what failed, and 'late_host: N passed, M failed'.
#include "homa.hpp"
#include <cstdio>
#include <deque>
#include <map>
#include <string>

static unsigned passed, failed;

static void check(bool holds, const char *what) {
    if (holds) passed++;
    else {
        failed++;
        std::printf("failed: %s\n", what);
    }
}

struct datagram {
    std::uint16_t to;
    homa::bytes it;
};

struct job {
    std::uint64_t told, due;
    homa_call_id id;
    std::size_t len;
};

struct net {
    homa::host client;
    homa::late_host server;
    std::deque<datagram> under_way{};
    std::vector<job> jobs{};
    std::map<homa_call_id, homa::bytes, homa::call_less> given{};
    unsigned told = 0, again = 0, done = 0, timeouts = 0, due_done = 0;

    void send(homa::host &from) {
        from.frames([this](std::uint16_t to, homa::view it) { under_way.push_back({to, it.copied()}); });
    }

    void read_client() {
        client.entries([this](const homa_entry_info &it) {
            timeouts += it.kind == HOMA_TIMEOUT;
            if (it.kind != HOMA_DONE) return;
            done++;
            check(client.whole() == given[it.id], "a response of the bytes that were given");
        });
        send(client);
    }

    void come(const datagram &it, std::uint64_t now) {
        homa_asked asked;
        if (it.to == 1) {
            check(!client.deliver(0, it.it, now), "the client isn't asked");
            return read_client();
        }
        switch (server.deliver(1, it.it, now, asked)) {
        case homa::late_host::came::step: return send(server);
        case homa::late_host::came::asks:
            jobs.push_back({now, now + told++ * 7 % 61, asked.id, server.whole().size()});
            return;
        case homa::late_host::came::at_work: again++; return;
        case homa::late_host::came::full: check(false, "there is room"); return;
        }
    }

    void answer_what_is_due(std::uint64_t now) {
        for (std::size_t i = 0; i < jobs.size();) {
            if (jobs[i].due > now) {
                i++;
                continue;
            }
            const job it = jobs[i];
            jobs.erase(jobs.begin() + static_cast<std::ptrdiff_t>(i));
            const homa::bytes answer(10 + it.id.number, static_cast<std::uint8_t>(it.id.number));
            given[it.id] = answer;
            due_done += it.len > 1400 || it.due - it.told <= 24;
            check(server.answer(it.id, answer, now) == homa::late_host::answered::step, "an answer");
            send(server);
            check(server.answer(it.id, answer, now) == homa::late_host::answered::gone, "a second answer");
        }
    }

    void tick(std::uint64_t now) {
        answer_what_is_due(now);
        do {
            while (!under_way.empty()) {
                const datagram it = std::move(under_way.front());
                under_way.pop_front();
                come(it, now);
            }
            client.turn(now);
            read_client();
            server.turn(now);
            send(server);
        } while (!under_way.empty());
    }
};

static homa::host made(const homa_settings &settings, std::uint16_t id) { return homa::host(settings, id, 1); }

static void moves(const homa_settings &settings) {
    std::vector<homa::host> hosts;
    for (std::uint16_t i = 0; i < 2; i++) hosts.push_back(made(settings, i));
    const homa::host moved = std::move(hosts[0]);
    try {
        hosts[0].turn(5);
        check(false, "a host that was moved away");
    } catch (const homa::refused &it) {
        check(it.code() == HOMA_NOT_OPEN && std::string(it.what()) == "homa_turn: not open", "a host that was moved away");
    }
    hosts[0] = made(settings, 0);
    hosts[0].turn(5);
    check(!hosts[0].next_turn(), "and one that takes its place");
}

static void rooms(const homa_settings &settings) {
    homa::late_host server(settings, 0, 1, 1, 10);
    homa::host client = made(settings, 1);
    homa_asked asked;
    homa::bytes first, second;
    (void)client.call(0, 7, std::string("one"), 0);
    client.frames([&](std::uint16_t, homa::view it) { first = it.copied(); });
    (void)client.call(0, 7, std::string("two"), 0);
    client.frames([&](std::uint16_t, homa::view it) { second = it.copied(); });
    using came = homa::late_host::came;
    using answered = homa::late_host::answered;
    check(server.deliver(1, first, 0, asked) == came::asks && server.whole().size() == 3, "it is told");
    const homa_call_id id = asked.id;
    check(server.deliver(1, first, 1, asked) == came::at_work, "it isn't told again");
    check(server.deliver(1, second, 11, asked) == came::full, "there is room for one, and it is fresh for ten ticks");
    check(server.answer(id, homa::bytes{1, 2}, 12) == answered::later, "an answer behind these");
    check(server.deliver(1, first, 12, asked) == came::step && server.at_work() == 0, "goes with the next datagram that asks");
    check(server.deliver(1, second, 12, asked) == came::asks && server.decline(asked.id), "declined");
    check(!server.decline(id) && server.deliver(1, second, 12, asked) == came::asks, "and told again");
    try {
        (void)server.answer(asked.id, {}, 12);
        check(false, "an answer of no bytes");
    } catch (const homa::refused &it) {
        check(it.code() == HOMA_NO_BYTES && server.at_work() == 1, "an answer of no bytes");
    }
}

int main() {
    homa_settings settings;
    homa_usual(&settings);
    settings.life = 1000;
    moves(settings);
    rooms(settings);
    net it{made(settings, 1), homa::late_host(settings, 0, 1, 16, 1000)};
    for (std::uint64_t now = 0; now < 500; now++) {
        if (now < 100 && now % 2 == 0) {
            const homa_call_id id = it.client.call(0, 7, homa::bytes(now % 4 ? 100 : 3000, static_cast<std::uint8_t>(now)), now);
            check(id.client == 1, "a call");
            it.send(it.client);
        }
        it.tick(now);
    }
    check(it.told == 50 && it.again > 0, "each call is told once");
    check(it.done == it.due_done && it.done + it.timeouts == 50 && it.timeouts > 0, "each call ends as it is due");
    check(it.server.at_work() == 0, "nothing is left");
    std::printf("late_host: %u passed, %u failed\n", passed, failed);
    return failed > 0;
}
