// A memory to judge in which nobody sees when an access takes effect: it waits in a slot, takes effect in a tick by
// chance, whole, and is answered in a later one, so that accesses pass one another. Requests come from two ports by
// turns, and port 1 keeps the line that it loaded last. Bugs can be turned on.
#pragma once

#include "replay_cache.hpp"

#include <random>

namespace replay {

enum class HiddenBug {
    None,
    StaleByte,  // what port 1 keeps isn't given up when port 0 stores to it
    LostLane,   // a partial store doesn't write its last byte if another store took effect in its line in this tick
    LostAnswer, // each 1,000th load gets no answer
    NewThenOld, // port 1 sees what port 0 stores only once that is answered: the regular law lets it pass
};

class HiddenMemory {
public:
    explicit HiddenMemory(HiddenBug planted = HiddenBug::None) : bug(planted) {}

    // Takes a request, or refuses it in this tick: no slot is free.
    bool accept(const Request &request) {
        if (slots.size() == SLOTS) return false;
        beside += !slots.empty();
        slots.push_back({request, Answer{request.is_store, request.id, {}}, port, false});
        port = 1 - port;
        return true;
    }

    // Two accesses may take effect, and one that did may be answered.
    std::optional<Answer> tick() {
        has_stored = false;
        for (int turn = 0; turn < 2; turn++)
            if (Slot *slot = chosen(); slot && !slot->is_done) take_effect(*slot);
        Slot *slot = chosen();
        if (!slot || !slot->is_done) return std::nullopt;
        if (bug == HiddenBug::NewThenOld && slot->port == 0 && slot->request.is_store) write_to(late, slot->request, slot->request.size);
        passed += slot != &slots.front();
        Answer answer = slot->answer;
        slots.erase(slots.begin() + (slot - slots.data()));
        if (bug == HiddenBug::LostAnswer && !answer.is_store && ++loads % 1000 == 0) return std::nullopt;
        return answer;
    }

    // How many requests met others that were open, and how many answers passed older ones: for a test that has to have met it.
    uint64_t beside = 0, passed = 0;

private:
    static constexpr uint64_t LINE = 64;
    static constexpr size_t SLOTS = 8;
    using Line = std::array<uint8_t, LINE>;

    struct Slot {
        Request request;
        Answer answer;
        unsigned port;
        bool is_done;
    };

    Slot *chosen() {
        size_t at = random() % SLOTS;
        return at < slots.size() ? &slots[at] : nullptr;
    }

    static bool touches(const Request &request, uint64_t line) {
        return request.address / LINE <= line && (request.address + request.size - 1) / LINE >= line;
    }

    void take_effect(Slot &slot) {
        slot.is_done = true;
        if (slot.request.is_store) write(slot);
        else read(slot);
    }

    void read(Slot &slot) {
        const Request &request = slot.request;
        uint64_t line = request.address / LINE;
        bool is_late = bug == HiddenBug::NewThenOld && slot.port == 1;
        bool keeps = !is_late && slot.port == 1 && (request.address + request.size - 1) / LINE == line;
        if (keeps && !(has_kept && kept_line == line)) {
            has_kept = true;
            kept_line = line;
            kept = memory[line];
        }
        for (unsigned i = 0; i < request.size; i++) {
            uint64_t at = request.address + i;
            const Line &from = keeps ? kept : is_late ? late[at / LINE] : memory[at / LINE];
            slot.answer.data[i] = from[at % LINE];
        }
    }

    void write(const Slot &slot) {
        const Request &request = slot.request;
        if (touches(request, kept_line) && !(bug == HiddenBug::StaleByte && slot.port == 0)) has_kept = false;
        unsigned last = request.size - 1;
        while (!request.has(last)) last--;
        bool loses = bug == HiddenBug::LostLane && has_stored && touches(request, stored_line) && last + 1 < request.size;
        write_to(memory, request, loses ? last : request.size);
        if (slot.port == 1) write_to(late, request, request.size);
        has_stored = true;
        stored_line = request.address / LINE;
    }

    // Writes the bytes that are enabled but one, if it is a byte of the request.
    static void write_to(std::unordered_map<uint64_t, Line> &lines, const Request &request, unsigned but) {
        for (unsigned i = 0; i < request.size; i++) {
            uint64_t at = request.address + i;
            if (request.has(i) && i != but) lines[at / LINE][at % LINE] = request.data[i];
        }
    }

    HiddenBug bug;
    std::mt19937_64 random{7};
    std::vector<Slot> slots; // the oldest first
    std::unordered_map<uint64_t, Line> memory; // zeros at first
    std::unordered_map<uint64_t, Line> late;   // what port 1 sees, with a bug
    unsigned port = 0;
    bool has_kept = false, has_stored = false;
    uint64_t kept_line = 0, stored_line = 0, loads = 0;
    Line kept{};
};

} // namespace replay
