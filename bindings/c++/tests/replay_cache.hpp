// A cache to judge: non-blocking, write-back, direct-mapped, over a memory that answers late. It isn't Kroft's
// machine: what is accepted while a line is on its way stands in a list, and is replayed when the line comes.
//
// An access of up to 64 bytes lies in one line or two, which are looked up at once; its answer comes when both
// have given theirs. Bugs can be turned on, each of a kind that caches have had.
#pragma once

#include <array>
#include <cstdint>
#include <deque>
#include <optional>
#include <unordered_map>
#include <vector>

namespace replay {

enum class Bug {
    None,
    StoresFirst,    // a line that comes takes the stores that wait for it before it gives the loads their bytes
    WholeWords,     // a store that hits writes the words that it touches whole, whatever bytes it enables
    StaleRefill,    // a miss on a line that is on its way back to memory is filled from what memory still has
    LostAnswer,     // each 5,000th load gets no answer
    TwiceAnswered,  // each 5,000th load gets its answer twice
    StaysClean,     // a store that hits leaves its line clean, so that an eviction drops it
    ShortTag,       // the lowest bit of the tag isn't compared: two lines of a set are taken for one
    LateVictim,     // a victim's bytes are taken when they reach memory, and not when it is evicted
    OldLast,        // of two write-backs of one line the older bytes reach memory last
    FillLast,       // a line that comes takes the place of what the stores that waited for it wrote
    FirstOffset,    // a load that joins a miss gets its bytes from where the first request of the miss lies
    FifthDropped,   // the fifth request that waits for a line writes nothing
    MissWritesAll,  // a store that waited for its line writes all its bytes, whatever it enables
    NoForwarding,   // a load that hits in the cycle behind a store that hits gets the line as it was before
};

struct Request {
    bool is_store = false;
    uint64_t id = 0;
    uint64_t address = 0;
    unsigned size = 0;
    uint64_t enables = 0;
    std::array<uint8_t, 64> data{};
    bool has(unsigned i) const { return i < size && (enables >> i & 1) != 0; }
};

struct Answer {
    bool is_store = false;
    uint64_t id = 0;
    std::array<uint8_t, 64> data{};
};

class Cache {
public:
    explicit Cache(Bug planted = Bug::None) : bug(planted) {}

    // Takes a request, or refuses it in this cycle: a set is busy with another line, or no register is free.
    bool accept(const Request &request) {
        uint64_t lines[2] = {request.address / LINE, (request.address + request.size - 1) / LINE};
        unsigned parts = lines[0] == lines[1] ? 1 : 2, misses = 0;
        for (unsigned i = 0; i < parts; i++) {
            const Frame &frame = frames[lines[i] % FRAMES];
            if (frame.pending && !is_in(frame, lines[i])) return false;
            misses += !is_in(frame, lines[i]);
        }
        if (misses > REGISTERS - registers.size()) return false;
        unsigned slot = new_slot(request, parts);
        for (unsigned i = 0; i < parts; i++) access(lines[i], slot);
        return true;
    }

    // A cycle: what memory has ready comes, and at most one answer is given.
    std::optional<Answer> tick() {
        now++;
        if (!write_backs.empty() && write_backs.front().ready <= now) {
            WriteBack back = write_backs.front();
            write_backs.pop_front();
            for (WriteBack &later : write_backs)
                if (bug == Bug::OldLast && later.line == back.line) std::swap(later.bytes, back.bytes);
            memory[back.line] = bug == Bug::LateVictim ? frames[back.line % FRAMES].bytes : back.bytes;
        }
        for (size_t i = 0; i < registers.size(); i++)
            if (registers[i].ready <= now) {
                fill(registers[i]);
                registers.erase(registers.begin() + long(i));
                break;
            }
        if (answers.empty()) return std::nullopt;
        Answer answer = answers.front();
        answers.pop_front();
        return answer;
    }

    // What happened, for a test that has to have met it.
    uint64_t hits_under_miss = 0, secondary_misses = 0, refilled_from_write_backs = 0, split = 0;

private:
    static constexpr uint64_t LINE = 64;
    static constexpr size_t FRAMES = 8, REGISTERS = 3;
    using Line = std::array<uint8_t, LINE>;

    struct Frame {
        bool valid = false, pending = false, dirty = false;
        uint64_t line = 0;
        Line bytes{};
    };
    struct Register {
        uint64_t line, ready;
        std::vector<unsigned> waiting; // slots, in the order of their acceptance
    };
    struct WriteBack {
        uint64_t line, ready;
        Line bytes;
    };
    struct Slot {
        Request request;
        unsigned parts = 0; // that haven't given theirs
        Answer answer;
    };

    bool is_in(const Frame &frame, uint64_t line) const {
        uint64_t compared = bug == Bug::ShortTag ? 2 * FRAMES : 1; // (a frame's lines have its index)
        return frame.valid && frame.line / compared == line / compared;
    }

    unsigned new_slot(const Request &request, unsigned parts) {
        unsigned slot;
        if (free_slots.empty()) {
            slot = unsigned(slots.size());
            slots.emplace_back();
        } else {
            slot = free_slots.back();
            free_slots.pop_back();
        }
        slots[slot].request = request;
        slots[slot].parts = parts;
        slots[slot].answer = Answer{request.is_store, request.id, {}};
        split += parts - 1;
        return slot;
    }

    void access(uint64_t line, unsigned slot) {
        Frame &frame = frames[line % FRAMES];
        if (is_in(frame, line) && !frame.pending) {
            hits_under_miss += !registers.empty();
            perform(frame, slot, true);
            return;
        }
        if (is_in(frame, line)) {
            secondary_misses++;
            for (Register &each : registers)
                if (each.line == frame.line) each.waiting.push_back(slot);
            return;
        }
        if (frame.valid && frame.dirty) write_backs.push_back({frame.line, now + 40, frame.bytes});
        frame = Frame{true, true, false, line, {}};
        registers.push_back({line, now + 10 + (line * 7 + now) % 30, {slot}});
    }

    void fill(const Register &due) {
        Frame &frame = frames[due.line % FRAMES];
        frame.bytes = memory[due.line];
        for (const WriteBack &back : write_backs)
            if (back.line == due.line) {
                refilled_from_write_backs++;
                if (bug != Bug::StaleRefill) frame.bytes = back.bytes;
            }
        frame.pending = false;
        if (bug == Bug::StoresFirst) {
            for (unsigned slot : due.waiting)
                if (slots[slot].request.is_store) perform(frame, slot, false);
            for (unsigned slot : due.waiting)
                if (!slots[slot].request.is_store) perform(frame, slot, false);
            return;
        }
        const Line came = frame.bytes;
        for (size_t i = 0; i < due.waiting.size(); i++) {
            Request &request = slots[due.waiting[i]].request;
            if (bug == Bug::FifthDropped && i == 4) request.enables = 0;
            if (bug == Bug::MissWritesAll && request.is_store) request.enables = ~uint64_t{0};
            uint64_t first = slots[due.waiting[0]].request.address;
            if (bug == Bug::FirstOffset && !request.is_store && first % LINE + request.size <= LINE) request.address = first;
            perform(frame, due.waiting[i], false);
        }
        if (bug == Bug::FillLast) frame.bytes = came;
    }

    // The part of an access that lies in this line.
    void perform(Frame &frame, unsigned number, bool hit) {
        Slot &slot = slots[number];
        Request &request = slot.request;
        bool is_late = bug == Bug::NoForwarding && hit && stored_in == frame.line && stored_at + 1 == now;
        const Line seen = is_late ? before_store : frame.bytes;
        if (hit && request.is_store) {
            before_store = frame.bytes;
            stored_in = frame.line;
            stored_at = now;
        }
        for (unsigned i = 0; i < request.size; i++) {
            uint64_t at = request.address + i;
            if (at / LINE % FRAMES != frame.line % FRAMES) continue;
            bool whole = bug == Bug::WholeWords && hit && touches_word(request, i);
            if (!request.is_store) slot.answer.data[i] = seen[at % LINE];
            else if (request.has(i) || whole) frame.bytes[at % LINE] = request.data[i];
        }
        frame.dirty |= request.is_store && !(bug == Bug::StaysClean && hit);
        if (--slot.parts == 0) give(number);
    }

    // Whether the access enables a byte of the word that its byte i lies in.
    static bool touches_word(const Request &request, unsigned i) {
        for (unsigned k = 0; k < request.size; k++)
            if ((request.address + k) / 4 == (request.address + i) / 4 && request.has(k)) return true;
        return false;
    }

    void give(unsigned number) {
        const Answer &answer = slots[number].answer;
        bool chosen = !answer.is_store && ++loads % 5000 == 0;
        if (!(chosen && bug == Bug::LostAnswer)) answers.push_back(answer);
        if (chosen && bug == Bug::TwiceAnswered) answers.push_back(answer);
        free_slots.push_back(number);
    }

    Bug bug;
    uint64_t now = 0, loads = 0, stored_in = 0, stored_at = 0; // where and when the last store hit
    Line before_store{};
    std::array<Frame, FRAMES> frames;
    std::vector<Register> registers;
    std::deque<WriteBack> write_backs;
    std::unordered_map<uint64_t, Line> memory; // zeros at first
    std::vector<Slot> slots;
    std::vector<unsigned> free_slots;
    std::deque<Answer> answers;
};

} // namespace replay
