// Kroft for C++17, over kroft.h; link with libkroft. It includes kroft_history.hpp, which lies beside it.
//
// kroft::FlatJudge looks on while a memory system of yours is used, and says of each answer whether flat
// memory could have given it: a memory without caches, queues and order of its own, in which an access
// happens at the moment of its request. Tell it of each request when it is accepted, in that order, and of
// each answer when it comes, in any order:
//
//     kroft::FlatJudge judge;
//     expect(judge.store(1, 0x8000, 4, data));    // each returns a verdict, which is true if all is well
//     expect(judge.load(2, 0x8002, 8));
//     expect(judge.value(2, bytes));              // the load's answer
//     expect(judge.stored(1));                    // the store's answer
//     for (const kroft::Access &lost : judge.unanswered()) ..
//
// kroft::History sees nothing but requests and responses, and judges by the regular law: an operation takes
// effect at some moment between the two, each of its bytes for itself. Nobody has to say which moment:
//
//     kroft::History history;
//     expect(history.store_request(1, 0x8000, data, 4));
//     expect(history.load_request(2, 0x8002, 8));
//     expect(history.load_response(2, bytes, 8));  // before or after the store: either is lawful
//     for (const kroft_history_operation &lost : history.open_loads()) ..
//
// kroft::History(kroft::Law::Atomic) judges by the atomic law: an operation takes effect at one moment, in each aligned
// unit that it touches. An answer may be undecided there, which is no fault: the unit can be forgotten.
//
// kroft::Traffic makes the accesses of a bench, from a seed: kroft::Traffic(plan, seed)(number).
//
// kroft::Machine is a lockup-free cache over banks of memory, whose loads get what flat memory held when they were
// accepted: a reference to drive, and to look into:
//
//     kroft::Machine machine;
//     machine.load(7, 5);
//     while (std::optional<kroft::Step> step = machine.pump()) ..  // step->answer: the value of load 7 comes
#pragma once

#include "kroft.h"
#include "kroft_history.hpp"

#include <algorithm>
#include <array>
#include <cstddef>
#include <cstdint>
#include <cstdio>
#include <cstring>
#include <functional>
#include <memory>
#include <new>
#include <optional>
#include <stdexcept>
#include <string>
#include <unordered_map>
#include <utility>
#include <vector>

namespace kroft {

/// The bytes of an access: 1 to MAX_SIZE.
inline constexpr unsigned MAX_SIZE = 64;

/// The byte enables of an access that touches all of its bytes. Bit i stands for byte i; bits at or past the
/// size count for nothing.
inline constexpr uint64_t ALL_BYTES = ~uint64_t{0};

/// The data of an access: as many bytes as its size count, the first of the lowest address.
using Bytes = std::array<uint8_t, MAX_SIZE>;

enum class Kind : uint8_t { Load, Store };

/// One access, as its request told it.
struct Access {
    Kind kind = Kind::Load;
    uint64_t id = 0;
    uint64_t address = 0;
    unsigned size = 0;
    uint64_t enables = 0;
    uint64_t call = 0; ///< the call of the judge that told it: 1 is the first

    bool has_byte(unsigned i) const { return i < size && (enables >> i & 1) != 0; }
};

/// What is wrong with a request or an answer.
enum class Reason : uint8_t {
    Nothing,      ///< it is right
    BadSize,      ///< a request of no bytes, or of more than MAX_SIZE
    OutOfRange,   ///< a request with bytes outside of memory
    NoBytes,      ///< a store that enables no byte
    IdInUse,      ///< a request under an id that waits for its answer
    NothingOwed,  ///< an answer to an id that waits for none of its kind
    WrongData,    ///< a value that isn't the one that is owed
    UnknownData,  ///< a value with X or Z in a byte that is enabled (from a simulation that has them)
    Failed,       ///< a store that was answered with an error, though its bytes are in memory's range
    BrokenLibrary ///< the library refuses a step that is flat memory's: it isn't the one of this header
};

/// A reason in words.
inline const char *text_of(Reason reason) {
    switch (reason) {
    case Reason::Nothing: return "right";
    case Reason::BadSize: return "an access is of 1 to 64 bytes";
    case Reason::OutOfRange: return "bytes outside of memory";
    case Reason::NoBytes: return "a store of no byte";
    case Reason::IdInUse: return "the id still waits for its answer";
    case Reason::NothingOwed: return "an answer that nobody waits for";
    case Reason::WrongData: return "wrong data";
    case Reason::UnknownData: return "X or Z in the data";
    case Reason::Failed: return "a store inside of memory failed";
    case Reason::BrokenLibrary: return "not the library of this header";
    }
    return "no reason";
}

/// What the judge says of a request or an answer: true if it is right.
struct Verdict {
    Reason reason = Reason::Nothing;
    Access access;    ///< the access that it is about; of an answer that nobody waits for, its id alone
    Bytes owed{};     ///< WrongData: what the load was owed (bytes that aren't enabled are 0)
    Bytes got{};      ///< WrongData: what came (bytes that aren't enabled are 0)
    uint64_t call = 0; ///< the call of the judge that this is the verdict of

    explicit operator bool() const { return reason == Reason::Nothing; }

    /// One line for a log, as `load 7 of 4 bytes at 0x8000: wrong data: owed 00c0ff00, got 00c0fe00`. A byte
    /// that isn't enabled is `--`.
    std::string text() const {
        std::string line = access.kind == Kind::Load ? "load " : "store ";
        line += std::to_string(access.id);
        if (reason != Reason::NothingOwed) line += " of " + std::to_string(access.size) + " bytes at 0x" + address_digits();
        line += std::string(": ") + text_of(reason);
        if (reason == Reason::WrongData) line += ": owed " + digits(owed) + ", got " + digits(got);
        return line;
    }

private:
    std::string address_digits() const {
        char line[17];
        snprintf(line, sizeof line, "%llx", static_cast<unsigned long long>(access.address));
        return line;
    }

    std::string digits(const Bytes &bytes) const {
        std::string line;
        for (unsigned i = 0; i < access.size; i++) {
            char two[3] = "--";
            if (access.has_byte(i)) snprintf(two, sizeof two, "%02x", bytes[i]);
            line += two;
        }
        return line;
    }
};

/// The addresses that memory has: `first` to `last`, both included. All that 64 bits can name at first.
struct Range {
    uint64_t first = 0;
    uint64_t last = ~uint64_t{0};

    /// Whether so many bytes, at least one, from an address on lie in it.
    bool has(uint64_t address, unsigned size) const {
        return first <= address && address <= last && size - 1 <= last - address;
    }
};

/// The bytes of a page of memory.
inline constexpr size_t PAGE_BYTES = 4096;

/// What memory holds at first: writes the PAGE_BYTES bytes from `address` on, a multiple of PAGE_BYTES, to
/// `bytes`, which are zeros before. If it throws, it is asked again when the page is touched again.
using Image = std::function<void(uint64_t address, uint8_t *bytes)>;

/// Judges accesses by flat memory: each takes effect at its request.
///
/// Memory takes a page of PAGE_BYTES when one of its bytes is touched for the first time, and the judge's
/// table half a megabyte for each 65,536 words that are owed at once. One judge is used by one thread at a
/// time. It may be moved, not copied; std::logic_error from a call of one that was moved from. A load or a store
/// that throws, as its image or std::bad_alloc do, wasn't told.
class FlatJudge {
public:
    /// A judge of memory with these addresses, and with these bytes at first: zeros if no image is given.
    explicit FlatJudge(Range addresses = {}, Image first_bytes = {}) : held(std::make_unique<State>()) {
        held->range = addresses;
        held->image = std::move(first_bytes);
    }

    FlatJudge(FlatJudge &&) noexcept = default;
    FlatJudge &operator=(FlatJudge &&) noexcept = default;

    /// A load was accepted: from now on it is owed what its bytes hold now. Else, with nothing changed:
    /// BadSize, OutOfRange or IdInUse. Loads and stores have ids of their own each; an id is free again once
    /// its answer came.
    [[nodiscard]] Verdict load(uint64_t id, uint64_t address, unsigned size, uint64_t enables = ALL_BYTES) {
        Access access = request(Kind::Load, id, address, size, enables);
        if (Reason reason = fault_of(access, state().loads.count(id)); reason != Reason::Nothing) return verdict(reason, access);
        make_pages(access);
        make_tags();
        Load &load = state().loads[id];
        load.access = access;
        Verdict result = verdict(Reason::Nothing, access);
        for_each_word(access, [&](const Part &part) {
            load.tags[load.words] = take_tag();
            kroft_event event{};
            event.kind = KROFT_LOAD;
            event.tag = uint16_t(load.tags[load.words]);
            event.at = part.at;
            if (!step(part.page, load.tags[load.words++], event, accepted())) result.reason = Reason::BrokenLibrary;
        });
        return result;
    }

    /// A load's value came: `data` has as many bytes as the load asked for. WrongData, or NothingOwed: then
    /// nothing changed. A load with a wrong value has its answer, and its id is free.
    [[nodiscard]] Verdict value(uint64_t id, const void *data) {
        state().call++;
        auto found = state().loads.find(id);
        if (found == state().loads.end()) return stray(Kind::Load, id);
        Load load = found->second;
        state().loads.erase(found);
        Verdict result = verdict(Reason::Nothing, load.access);
        unsigned word = 0;
        for_each_word(load.access, [&](const Part &part) {
            Reason reason = take(load.tags[word++], part, static_cast<const uint8_t *>(data), result);
            result.reason = std::max(result.reason, reason);
        });
        return result;
    }

    /// A load was answered with an error instead of a value: it is owed nothing any more. Or NothingOwed.
    [[nodiscard]] Verdict failed_load(uint64_t id) { return drop_load(id, Reason::Nothing); }

    /// A load was answered with X or Z in a byte that it enables: UnknownData, and the load has its answer.
    /// Or NothingOwed. For a bench whose data has more than two states.
    [[nodiscard]] Verdict unknown_value(uint64_t id) { return drop_load(id, Reason::UnknownData); }

    /// A store was accepted: from now on its bytes hold `data`, and it waits for its answer. Else, with
    /// nothing changed: BadSize, OutOfRange, NoBytes or IdInUse.
    [[nodiscard]] Verdict store(uint64_t id, uint64_t address, unsigned size, const void *data,
                                uint64_t enables = ALL_BYTES) {
        Access access = request(Kind::Store, id, address, size, enables);
        if (Reason reason = fault_of(access, state().stores.count(id)); reason != Reason::Nothing) return verdict(reason, access);
        make_pages(access);
        state().stores.emplace(id, access);
        Verdict result = write(access, data);
        if (!result) state().stores.erase(id);
        return result;
    }

    /// A store was accepted that no answer follows. Else BadSize, OutOfRange or NoBytes.
    [[nodiscard]] Verdict post(uint64_t id, uint64_t address, unsigned size, const void *data,
                               uint64_t enables = ALL_BYTES) {
        Access access = request(Kind::Store, id, address, size, enables);
        if (Reason reason = fault_of(access, 0); reason != Reason::Nothing) return verdict(reason, access);
        make_pages(access);
        return write(access, data);
    }

    /// A store's answer came. Or NothingOwed.
    [[nodiscard]] Verdict stored(uint64_t id) { return drop_store(id, Reason::Nothing); }

    /// A store was answered with an error: Failed, for flat memory has its bytes since its request. Or
    /// NothingOwed.
    [[nodiscard]] Verdict failed_store(uint64_t id) { return drop_store(id, Reason::Failed); }

    /// The accesses that wait for their answers, in the order of their requests. At the end of a run that has
    /// come to rest, these answers are lost.
    std::vector<Access> unanswered() const {
        std::vector<Access> open;
        for (const auto &entry : state().loads) open.push_back(entry.second.access);
        for (const auto &entry : state().stores) open.push_back(entry.second);
        std::sort(open.begin(), open.end(), [](const Access &a, const Access &b) { return a.call < b.call; });
        return open;
    }

    /// How many accesses wait for their answers.
    size_t unanswered_count() const { return state().loads.size() + state().stores.size(); }

    /// The byte that memory holds at an address now.
    uint8_t byte_at(uint64_t address) { return page_of(address).words[word_in_page(address)].b[address % WORD]; }

    /// How many words the library's judge has been asked about.
    uint64_t steps() const { return state().step_count; }

private:
    static constexpr unsigned WORD = sizeof(kroft_word);
    static constexpr unsigned MAX_WORDS = MAX_SIZE / WORD + 1; // not aligned, 64 bytes lie in 17 words

    // A page is memory enough for a step of one of its words: a step reads and writes no other word.
    struct Page {
        std::array<kroft_word, PAGE_BYTES / WORD> words;
    };

    struct Load {
        Access access;
        unsigned words = 0;
        std::array<uint32_t, MAX_WORDS> tags; // of each word that has an enabled byte
    };

    // The part of an access in one word.
    struct Part {
        Page &page;
        uint32_t at;    // the word in the page
        uint8_t lanes;  // the bytes of the word that are enabled
        int begin;      // the access's byte in lane 0: below 0 if the access begins in a later lane
        unsigned byte(unsigned lane) const { return unsigned(begin + int(lane)); }
    };

    static uint32_t word_in_page(uint64_t address) { return uint32_t(address % PAGE_BYTES / WORD); }

    static kroft_answer accepted() {
        kroft_answer answer{};
        answer.kind = KROFT_ACCEPTED;
        return answer;
    }

    Access request(Kind kind, uint64_t id, uint64_t address, unsigned size, uint64_t enables) {
        state().call++;
        if (size < MAX_SIZE) enables &= (uint64_t{1} << size) - 1;
        return {kind, id, address, size, enables, state().call};
    }

    Reason fault_of(const Access &access, size_t in_use) const {
        if (access.size < 1 || access.size > MAX_SIZE) return Reason::BadSize;
        if (!state().range.has(access.address, access.size)) return Reason::OutOfRange;
        if (access.kind == Kind::Store && access.enables == 0) return Reason::NoBytes;
        return in_use ? Reason::IdInUse : Reason::Nothing;
    }

    Verdict verdict(Reason reason, const Access &access) const {
        Verdict result;
        result.reason = reason;
        result.access = access;
        result.call = state().call;
        return result;
    }

    Verdict stray(Kind kind, uint64_t id) const {
        Access unknown;
        unknown.kind = kind;
        unknown.id = id;
        return verdict(Reason::NothingOwed, unknown);
    }

    // Calls `use` with each word of the access that has an enabled byte, the lowest first.
    template <class Use> void for_each_word(const Access &access, Use use) {
        unsigned skew = unsigned(access.address % WORD);
        unsigned words = (skew + access.size + WORD - 1) / WORD;
        for (unsigned n = 0; n < words; n++) {
            int begin = int(n * WORD) - int(skew);
            uint8_t lanes = uint8_t((begin < 0 ? access.enables << -begin : access.enables >> begin) & 15);
            if (lanes == 0) continue;
            uint64_t address = access.address - skew + n * WORD;
            use(Part{page_of(address), word_in_page(address), lanes, begin});
        }
    }

    // Makes the pages of an access before its first step, for an image may throw.
    void make_pages(const Access &access) {
        for_each_word(access, [](const Part &) {});
    }

    Page &page_of(uint64_t address) {
        State &now = state();
        uint64_t number = address / PAGE_BYTES;
        if (now.last_page && number == now.last_number) return *now.last_page;
        auto found = now.pages.find(number);
        if (found == now.pages.end()) {
            auto page = std::make_unique<Page>();
            if (now.image) now.image(number * PAGE_BYTES, reinterpret_cast<uint8_t *>(page->words.data()));
            found = now.pages.emplace(number, std::move(page)).first;
        }
        now.last_number = number;
        now.last_page = found->second.get();
        return *now.last_page;
    }

    // Makes a table if the tags that are left may be too few for an access.
    void make_tags() {
        State &now = state();
        if (now.free_tags.size() < MAX_WORDS && now.new_tag + MAX_WORDS > now.tables.size() * KROFT_TAGS)
            now.tables.emplace_back(KROFT_TAGS);
    }

    // A tag that is owed nothing: its low 16 bits are the judge's, the others say in which table.
    uint32_t take_tag() {
        State &now = state();
        if (now.free_tags.empty()) return now.new_tag++;
        uint32_t tag = now.free_tags.back();
        now.free_tags.pop_back();
        return tag;
    }

    bool step(Page &page, uint32_t tag, const kroft_event &event, const kroft_answer &answer) {
        std::vector<kroft_due> &due = state().tables[tag / KROFT_TAGS];
        state().step_count++;
        kroft_word right;
        return kroft_flat_judge(page.words.data(), page.words.size(), due.data(), &event, &answer, &right) == KROFT_OK;
    }

    // Takes the value of one word of a load. Its bytes that aren't enabled are as they are owed. The tag is
    // free after it, whatever came.
    Reason take(uint32_t tag, const Part &part, const uint8_t *data, Verdict &result) {
        kroft_event event{};
        event.kind = KROFT_TAKE;
        kroft_answer answer{};
        answer.kind = KROFT_VALUE;
        answer.tag = uint16_t(tag);
        const kroft_due due = state().tables[tag / KROFT_TAGS][answer.tag];
        const kroft_word owed = due.word;
        if (!due.owed) return Reason::BrokenLibrary;
        answer.word = owed;
        for (unsigned lane = 0; lane < WORD; lane++)
            if (part.lanes >> lane & 1) {
                answer.word.b[lane] = data ? data[part.byte(lane)] : owed.b[lane];
                result.owed[part.byte(lane)] = owed.b[lane];
                result.got[part.byte(lane)] = answer.word.b[lane];
            }
        state().free_tags.push_back(tag);
        if (step(part.page, tag, event, answer)) return Reason::Nothing;
        answer.word = owed;
        return step(part.page, tag, event, answer) ? Reason::WrongData : Reason::BrokenLibrary;
    }

    Verdict write(const Access &access, const void *data) {
        Verdict result = verdict(Reason::Nothing, access);
        for_each_word(access, [&](const Part &part) {
            kroft_event event{};
            event.kind = KROFT_STORE;
            event.at = part.at;
            event.lanes = part.lanes;
            for (unsigned lane = 0; lane < WORD; lane++)
                if (part.lanes >> lane & 1) event.word.b[lane] = static_cast<const uint8_t *>(data)[part.byte(lane)];
            if (!step(part.page, 0, event, accepted())) result.reason = Reason::BrokenLibrary;
        });
        return result;
    }

    Verdict drop_load(uint64_t id, Reason reason) {
        Verdict result = value(id, nullptr);
        if (result) result.reason = reason;
        return result;
    }

    Verdict drop_store(uint64_t id, Reason reason) {
        state().call++;
        auto found = state().stores.find(id);
        if (found == state().stores.end()) return stray(Kind::Store, id);
        Access access = found->second;
        state().stores.erase(found);
        return verdict(reason, access);
    }

    struct State {
        Range range;
        Image image;
        std::unordered_map<uint64_t, std::unique_ptr<Page>> pages;
        uint64_t last_number = 0;
        Page *last_page = nullptr;
        std::vector<std::vector<kroft_due>> tables{std::vector<kroft_due>(KROFT_TAGS)}; // what the tags are owed
        std::vector<uint32_t> free_tags;
        uint32_t new_tag = 0;
        std::unordered_map<uint64_t, Load> loads;
        std::unordered_map<uint64_t, Access> stores;
        uint64_t call = 0;
        uint64_t step_count = 0;
    };

    State &state() const {
        if (!held) throw std::logic_error("a judge that was moved from");
        return *held;
    }

    std::unique_ptr<State> held; // none of one that was moved from
};

// ---- traffic for a bench

/// An access of traffic: a load or a store of some bytes of one block.
struct TrafficAccess {
    uint64_t number = 0;    ///< its number in the traffic
    uint32_t requester = 0; ///< who asks
    uint64_t turn = 0;      ///< how many accesses this requester had before
    Kind kind = Kind::Load;
    uint64_t address = 0;
    unsigned size = 0;
    uint64_t enables = 0; ///< the bytes that a store writes
    Bytes data{};         ///< what it writes
};

/// Random loads and stores that caches find hard, from a seed: the access of each number. kroft.h says what the members
/// of a plan are.
class Traffic {
public:
    /// std::invalid_argument: a number of the plan isn't as its description says.
    Traffic(const kroft_traffic_plan &plan, uint64_t seed) : drawn_by(plan), drawn_from(seed) { (*this)(0); }

    TrafficAccess operator()(uint64_t number) const {
        TrafficAccess made;
        kroft_traffic_access row{};
        if (kroft_traffic_draw(&drawn_by, drawn_from, number, &row, made.data.data(), made.data.size()) != KROFT_OK)
            throw std::invalid_argument("no plan of traffic");
        made.number = number;
        made.requester = row.requester;
        made.turn = row.turn;
        made.kind = row.enables ? Kind::Store : Kind::Load;
        made.address = row.address;
        made.size = row.length;
        made.enables = row.enables;
        return made;
    }

private:
    kroft_traffic_plan drawn_by;
    uint64_t drawn_from;
};

// ---- the machine

/// The numbers of a machine that is asked for nothing else. kroft.h says which there may be.
inline constexpr kroft_shape USUAL_SHAPE = {2, 4, 8, 4, 1024, 4, 4, 8, 8, 8};

/// No machine has these numbers, or its image hasn't as many words as memory.
class BadShape : public std::invalid_argument {
public:
    explicit BadShape(uint32_t result) : std::invalid_argument(kroft_text(result)), fault(result) {}

    uint32_t fault; ///< KROFT_FAIL_BAD_BLOCK_WORDS to KROFT_FAIL_BAD_IMAGE
};

/// What a request for a word finds.
enum class Lookup : uint32_t { Hit = KROFT_HIT, Join = KROFT_JOIN, Miss = KROFT_MISS };

/// An event of a machine, and its answer.
struct Step {
    kroft_event event;
    kroft_answer answer;
};

/// An event that reads only some of its row's members; the others are 0.
inline kroft_event event_of(uint32_t kind, uint32_t at, uint16_t tag = 0) {
    kroft_event event{};
    event.kind = kind;
    event.at = at;
    event.tag = tag;
    return event;
}

inline kroft_event load_of(uint16_t tag, uint32_t at) { return event_of(KROFT_LOAD, at, tag); }
inline kroft_event prefetch_of(uint32_t at) { return event_of(KROFT_PREFETCH, at); }
inline kroft_event evict_of(uint32_t block) { return event_of(KROFT_EVICT, block); }
inline kroft_event store_of(uint32_t at, kroft_word word, uint8_t lanes = 15) {
    kroft_event event = event_of(KROFT_STORE, at);
    event.word = word;
    event.lanes = lanes;
    return event;
}

/// A lockup-free cache over banks of memory. The caller makes its events, in any order; every load gets the word that
/// flat memory held when it was accepted. It is moved, not copied, and used by one thread at a time; std::logic_error
/// from a call of one that was moved from. What there isn't (a register, a place, a bank) is no value.
class Machine {
public:
    /// A machine over the words of an image, or over zeros. BadShape, or std::bad_alloc.
    explicit Machine(const kroft_shape &shape = USUAL_SHAPE, const std::vector<kroft_word> &image = {}) {
        // (numbers are judged before any zeros are made for them)
        const kroft_word none{};
        uint32_t status = kroft_machine_open(&handle, &shape, image.empty() ? &none : image.data(), image.size());
        if (status == KROFT_FAIL_BAD_IMAGE && image.empty()) {
            const std::vector<kroft_word> zeros(shape.words);
            status = kroft_machine_open(&handle, &shape, zeros.data(), zeros.size());
        }
        if (status == KROFT_FAIL_OUT_OF_MEMORY) throw std::bad_alloc();
        if (status != KROFT_OK) throw BadShape(status);
    }
    ~Machine() { kroft_machine_close(&handle); }
    Machine(Machine &&other) noexcept : handle(std::exchange(other.handle, kroft_machine KROFT_NO_MACHINE)) {}
    Machine &operator=(Machine &&other) noexcept {
        Machine taken(std::move(other));
        std::swap(handle, taken.handle);
        return *this;
    }
    Machine(const Machine &) = delete;
    Machine &operator=(const Machine &) = delete;

    /// Makes one event. A refusal is an answer as any other: it changes nothing. std::invalid_argument: the row is none.
    kroft_answer apply(const kroft_event &event) {
        kroft_answer answer{};
        if (told(kroft_machine_apply(&handle, &event, &answer)) == KROFT_FAIL_NO_EVENT) throw std::invalid_argument("no event");
        return answer;
    }
    kroft_answer load(uint16_t tag, uint32_t at) { return apply(load_of(tag, at)); }
    kroft_answer store(uint32_t at, kroft_word word, uint8_t lanes = 15) { return apply(store_of(at, word, lanes)); }
    kroft_answer prefetch(uint32_t at) { return apply(prefetch_of(at)); }
    kroft_answer evict(uint32_t block) { return apply(evict_of(block)); }

    /// The driver's event, made, with its answer: the first that is possible of a take, a process, an arrival, a service
    /// and a drain. None if nothing is on its way.
    std::optional<Step> pump() {
        Step made{};
        if (told(kroft_machine_pump(&handle, &made.event, &made.answer)) != KROFT_OK) return std::nullopt;
        return made;
    }

    /// What is on its way, weighed: each event of `pump` lowers it, and at 0 there is none.
    uint64_t weight() const { return weighed().first; }

    /// Whether memory has everything: nothing waits, and no word is dirty.
    bool settled() const { return weighed().second; }

    /// Drives these requests in rounds until nothing is on its way (kroft.h says what a round is). With `busy` below
    /// `latency` banks are pipelines. std::invalid_argument, with nothing asked: the latency is more than 1000, there are
    /// more than 16777216 requests, or one is no load, store, prefetch or eviction. Or std::bad_alloc.
    kroft_counts drive(const std::vector<kroft_event> &requests, uint32_t latency, uint32_t busy) {
        kroft_counts counts{};
        const kroft_event none{};
        const kroft_event *rows = requests.empty() ? &none : requests.data();
        uint32_t status = told(kroft_machine_drive(&handle, latency, busy, rows, requests.size(), &counts));
        if (status == KROFT_FAIL_OUT_OF_MEMORY) throw std::bad_alloc();
        if (status != KROFT_OK) throw std::invalid_argument("requests that can't be driven");
        return counts;
    }
    kroft_counts drive(const std::vector<kroft_event> &requests, uint32_t latency = 10) { return drive(requests, latency, latency); }

    /// Begins rounds, which are those of `drive` and are made one at a time by `round`: nothing is counted yet. Rounds that
    /// were begun before end. Until `end_rounds` they alone make the machine's events: `apply`, `pump` and `drive` throw
    /// std::logic_error. std::invalid_argument, with everything as it was: the latency is more than 1000. Or std::bad_alloc.
    void begin_rounds(uint32_t latency, uint32_t busy) {
        uint32_t status = told(kroft_machine_begin_rounds(&handle, latency, busy));
        if (status == KROFT_FAIL_OUT_OF_MEMORY) throw std::bad_alloc();
        if (status != KROFT_OK) throw std::invalid_argument("a latency of more than 1000 rounds");
    }
    void begin_rounds(uint32_t latency = 10) { begin_rounds(latency, latency); }

    /// Makes one round, in which this request is offered, or none; the row tells what became of it, and which load was
    /// answered. std::invalid_argument, with no round made: it is no load, store, prefetch or eviction. std::logic_error: no
    /// rounds were begun, or 2^48 were made.
    kroft_round_row round(const kroft_event &request) { return round(&request, 1); }
    kroft_round_row round() {
        const kroft_event none{};
        return round(&none, 0);
    }

    /// What was counted since the rounds were begun. std::logic_error: none were.
    kroft_counts round_counts() const {
        kroft_counts counts{};
        told(kroft_machine_round_counts(&handle, &counts));
        return counts;
    }

    /// Ends the rounds; the machine stays as it is. std::logic_error: none were begun.
    void end_rounds() { told(kroft_machine_end_rounds(&handle)); }

    /// What a request for a word would find now. Nothing is asked.
    std::optional<Lookup> find(uint32_t at) const {
        std::optional<uint32_t> found = view<uint32_t>(kroft_machine_find, at);
        return found ? std::optional<Lookup>(static_cast<Lookup>(*found)) : std::nullopt;
    }

    // ---- what is in it; kroft.h describes the rows
    std::optional<kroft_word> bank_word(uint32_t at) const { return view<kroft_word>(kroft_machine_bank_word, at); }
    std::optional<kroft_register_view> miss_register(uint32_t slot) const { return view<kroft_register_view>(kroft_machine_register, slot); }
    std::optional<kroft_field_view> field(uint32_t slot, uint32_t i) const { return view<kroft_field_view>(kroft_machine_field, slot, i); }
    std::optional<kroft_target_view> target(uint32_t slot, uint32_t i, uint32_t place) const {
        return view<kroft_target_view>(kroft_machine_target, slot, i, place);
    }
    std::optional<kroft_frame_view> frame(uint32_t frame) const { return view<kroft_frame_view>(kroft_machine_frame, frame); }
    std::optional<kroft_frame_word_view> frame_word(uint32_t frame, uint32_t i) const {
        return view<kroft_frame_word_view>(kroft_machine_frame_word, frame, i);
    }
    std::optional<kroft_arrival_view> stack_entry(uint32_t place) const { return view<kroft_arrival_view>(kroft_machine_stack_entry, place); }
    std::optional<kroft_queued_view> queue_entry(uint32_t place) const { return view<kroft_queued_view>(kroft_machine_queue_entry, place); }
    std::optional<kroft_command_view> bank_command(uint32_t bank, uint32_t place) const {
        return view<kroft_command_view>(kroft_machine_bank_command, bank, place);
    }
    std::optional<kroft_arrival_view> bank_answer(uint32_t bank, uint32_t place) const {
        return view<kroft_arrival_view>(kroft_machine_bank_answer, bank, place);
    }
    std::optional<kroft_answer> reply(uint32_t place) const { return view<kroft_answer>(kroft_machine_reply, place); }

private:
    kroft_machine handle = KROFT_NO_MACHINE;

    static uint32_t told(uint32_t status) {
        if (status == KROFT_FAIL_CLOSED) throw std::logic_error("a machine that was moved from");
        if (status == KROFT_FAIL_IN_ROUNDS) throw std::logic_error("rounds are under way, and make the events");
        if (status == KROFT_FAIL_NO_ROUNDS) throw std::logic_error("no rounds were begun");
        return status;
    }

    std::pair<uint64_t, bool> weighed() const {
        uint64_t weight = 0;
        uint32_t settled = 0;
        told(kroft_machine_weight(&handle, &weight, &settled));
        return {weight, settled != 0};
    }

    kroft_round_row round(const kroft_event *request, size_t offered) {
        kroft_round_row row{};
        uint32_t status = told(kroft_machine_round(&handle, request, offered, &row));
        if (status == KROFT_FAIL_NO_EVENT) throw std::invalid_argument("no request");
        if (status != KROFT_OK) throw std::logic_error("as many rounds as may be were made");
        return row;
    }

    template <class Row, class Ask, class... Places> std::optional<Row> view(Ask ask, Places... places) const {
        Row row{};
        if (told(ask(&handle, places..., &row)) != KROFT_OK) return std::nullopt;
        return row;
    }
};

} // namespace kroft
