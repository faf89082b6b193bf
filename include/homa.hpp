// A host as an object of C++17. It is open from its constructor to its destructor, moves and isn't copied. A frame takes no block of the heap.
// homa.h says what each call does, and what a program must guarantee.
#ifndef HOMA_HPP
#define HOMA_HPP

#include "homa.h"
#include <array>
#include <new>
#include <optional>
#include <stdexcept>
#include <string>
#include <tuple>
#include <type_traits>
#include <utility>
#include <vector>

namespace homa {

using bytes = std::vector<std::uint8_t>;

// Bytes that are lent: of a vector, an array, a string.
class view {
    const std::uint8_t *at = HOMA_NONE;
    std::size_t len = 0;

public:
    view() = default;
    view(const void *it, std::size_t size) : at(it ? static_cast<const std::uint8_t *>(it) : HOMA_NONE), len(size) {}
    template <class Of, class = decltype(std::declval<const Of &>().data())>
    view(const Of &of) : view(of.data(), of.size() * sizeof *of.data()) {}
    const std::uint8_t *data() const { return at; }
    std::size_t size() const { return len; }
    bool empty() const { return len == 0; }
    bytes copied() const { return bytes(at, at + len); }
};

struct call_less {
    bool operator()(const homa_call_id &a, const homa_call_id &b) const {
        return std::tie(a.client, a.incarnation, a.number) < std::tie(b.client, b.incarnation, b.number);
    }
};

// What a call throws that isn't done, as "homa_call: full"; if there is no memory it is std::bad_alloc. Nothing happened to the host then.
class refused : public std::runtime_error {
    std::uint32_t result;

public:
    refused(const char *call, std::uint32_t code) : std::runtime_error(std::string(call) + ": " + homa_text_of(code)), result(code) {}
    std::uint32_t code() const { return result; }
    // Whether the program made a mistake; otherwise it is HOMA_FULL, for now, or HOMA_SPENT, for as long as this incarnation lasts.
    bool is_mistake() const { return HOMA_IS_MISTAKE(result); }
};

inline homa_settings service_settings() {
    homa_settings it;
    homa_service(&it);
    return it;
}

class host {
protected:
    homa_host handle = HOMA_CLOSED;

    host() = default;
    static void need(std::uint32_t result, const char *call) {
        if (result == HOMA_NO_MEMORY) throw std::bad_alloc();
        if (result != HOMA_OK) throw refused(call, result);
    }

public:
    host(const homa_settings &settings, std::uint16_t id, std::uint32_t incarnation, std::uint64_t last = 0) {
        std::uint32_t wrong = homa_wrong_setting(&settings);
        need(homa_open(&settings, id, incarnation, last, &handle), wrong ? homa_text_of_setting(wrong) : "homa_open");
    }
    ~host() { homa_close(&handle); }
    host(host &&other) noexcept : handle(std::exchange(other.handle, homa_host HOMA_CLOSED)) {}
    host &operator=(host &&other) noexcept {
        std::swap(handle, other.handle);
        return *this;
    }

    [[nodiscard]] homa_call_id call(std::uint16_t server, std::uint8_t service, view request, std::uint64_t now) {
        homa_call_id id;
        need(homa_call(&handle, server, service, request.data(), request.size(), now, &id), "homa_call");
        return id;
    }

    // A datagram came, with an answer or without one. Returns the call that asks for one, if one does; nothing happened then.
    [[nodiscard]] std::optional<homa_asked> deliver(std::uint16_t from, view datagram, std::uint64_t now, view answer = {}) {
        homa_asked asked;
        std::uint32_t result = homa_deliver(&handle, from, datagram.data(), datagram.size(), now, answer.data(), answer.size(), &asked);
        if (result == HOMA_ASKS) return asked;
        need(result, "homa_deliver");
        return std::nullopt;
    }

    void turn(std::uint64_t now) { need(homa_turn(&handle, now), "homa_turn"); }

    // The tick before which no turn does anything. None if none does before the next call or datagram.
    [[nodiscard]] std::optional<std::uint64_t> next_turn() {
        std::uint64_t at;
        return homa_next_turn(&handle, &at) == HOMA_OK ? std::optional<std::uint64_t>(at) : std::nullopt;
    }

    // The frames of the last step, each with the host that it goes to: send(std::uint16_t, view). The bytes are lent until `send` returns.
    template <class Send> void frames(Send send) {
        std::array<std::uint8_t, 1500> room;
        homa_frame_info info;
        for (std::size_t i = 0, count = homa_frames(&handle); i < count; i++) {
            need(homa_frame(&handle, i, room.data(), room.size(), &info), "homa_frame");
            send(info.to, view(room.data(), info.len));
        }
    }

    // The level of frame i of the last step, 0 to 7, where 7 goes first.
    std::uint32_t level(std::size_t i) { return homa_frame_level(&handle, i); }

    // The entries of the last step: see(const homa_entry_info &), or see(const homa_entry_info &, const homa_more_info &).
    template <class See> void entries(See see) {
        homa_entry_info info;
        homa_more_info more;
        for (std::size_t i = 0, count = homa_entries(&handle); i < count; i++) {
            need(homa_entry(&handle, i, &info), "homa_entry");
            need(homa_entry_more(&handle, i, &more), "homa_entry_more");
            if constexpr (std::is_invocable_v<See, const homa_entry_info &, const homa_more_info &>) see(info, more);
            else see(info);
        }
    }

    // How many calls are live, the tick of the last step, and what was counted from the opening on.
    std::uint32_t live() { return homa_live(&handle); }
    std::uint64_t last() { return homa_last(&handle); }
    homa_counts counts() {
        homa_counts it;
        homa_counts_of(&handle, &it);
        return it;
    }

    // The message that became whole in the last step: the request that is asked about or was answered, or the response of a call. Into a
    // vector whose room is kept, or into a new one.
    void whole(bytes &to) {
        std::size_t len = homa_whole_len(&handle);
        to.resize(len + 1); // a byte more than it has, so that the room is never empty
        need(homa_whole(&handle, to.data(), to.size(), &len), "homa_whole");
        to.resize(len);
    }
    bytes whole() {
        bytes message;
        whole(message);
        return message;
    }
};

// A host that keeps the datagrams that ask (homa_open_late): a call is reported once while it is kept; its answer may come later. Calls,
// turns, frames and entries are those of every host. docs/use/library.md, 'An answer that isn't ready', says how long a call waits.
class late_host : public host {
public:
    enum class came { step, asks, at_work, full };
    enum class answered { step, later, gone };

    // It keeps `kept` calls, 1 to 4,096; a kept datagram is delivered at most `keep` ticks after it came, 0 to `life`.
    late_host(const homa_settings &settings, std::uint16_t id, std::uint32_t incarnation, std::uint32_t kept, std::uint32_t keep, std::uint64_t last = 0) {
        std::uint32_t wrong = homa_wrong_setting(&settings);
        need(homa_open_late(&settings, id, incarnation, last, kept, keep, &handle), wrong ? homa_text_of_setting(wrong) : "homa_open_late");
    }

    // How many calls are kept.
    std::uint64_t at_work() { return homa_count(&handle, HOMA_COUNT_KEPT); }

    // A datagram came. `asks`: `asked` needs an answer, and is reported once while it is kept; whole() has the request. `at_work` and `full`: it
    // asks again, or there is no room to keep it; nothing happened, and there is nothing to read.
    [[nodiscard]] came deliver(std::uint16_t from, view datagram, std::uint64_t now, homa_asked &asked) {
        switch (std::uint32_t result = homa_deliver(&handle, from, datagram.data(), datagram.size(), now, HOMA_NONE, 0, &asked)) {
        case HOMA_ASKS: return came::asks;
        case HOMA_AT_WORK: return came::at_work;
        case HOMA_FULL: return came::full;
        default: need(result, "homa_deliver"); return came::step;
        }
    }

    // The answer to a call that asked, of 1 to 1,000,000 bytes. `step`: it is done; an entry HOMA_RAN says that the answer was taken, and
    // without one it is kept for the next datagram that asks. `later`: there was no step, and it is kept. `gone`: no such call waits.
    [[nodiscard]] answered answer(const homa_call_id &id, view given, std::uint64_t now) {
        switch (std::uint32_t result = homa_answer(&handle, &id, given.data(), given.size(), now)) {
        case HOMA_LATER: return answered::later;
        case HOMA_GONE: return answered::gone;
        default: need(result, "homa_answer"); return answered::step;
        }
    }

    // No answer will come: if the call asks again, it is reported again. Returns whether it was kept.
    bool decline(const homa_call_id &id) { return homa_decline(&handle, &id) == HOMA_OK; }
};

} // namespace homa
#endif
