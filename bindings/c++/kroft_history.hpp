// The histories of kroft.hpp, which says what they are for: over kroft.h, for C++17.
#pragma once

#include "kroft.h"

#include <bitset>
#include <cstddef>
#include <cstdint>
#include <new>
#include <optional>
#include <stdexcept>
#include <utility>
#include <vector>

namespace kroft {

/// The laws by which a history can be judged.
enum class Law : uint32_t { Regular = KROFT_REGULAR_LAW, Flat = KROFT_FLAT_LAW, Atomic = KROFT_ATOMIC_LAW };

/// What stands beyond the image before the first store.
enum class Beyond : uint32_t { Zeros = KROFT_ZEROS, Unknown = KROFT_UNKNOWN };

/// What an event is told: true if the history with it is one of the law.
class HistoryVerdict {
public:
    explicit HistoryVerdict(uint32_t number) : status(number) {}

    explicit operator bool() const { return status == KROFT_OK; }

    /// Whether there is no verdict, which the atomic law alone says: the event is none that is wrong, and none that was taken.
    bool is_undecided() const { return status == KROFT_FAIL_UNDECIDED; }

    /// The number of the fault, as in kroft.h; KROFT_OK if there is none.
    uint32_t fault() const { return status; }

    const char *text() const { return kroft_text(status); }

private:
    uint32_t status;
};

/// A history by a law over the image of a memory, from address 0 on. It is moved, not copied; std::logic_error from a
/// call of one that was moved from. A call throws std::bad_alloc if there is too little memory, and then everything is as
/// it was.
class History {
public:
    /// By the atomic law memory has aligned units of 1, 2, 4 or 8 bytes; the other laws have units of 1. 0: the largest
    /// that the law has.
    explicit History(Law law = Law::Regular, const std::vector<uint8_t> &image = {}, Beyond beyond = Beyond::Zeros, unsigned unit = 0)
        : judged_by(law) {
        if (unit == 0) unit = law == Law::Atomic ? 8 : 1;
        const uint8_t *bytes = some(image.data(), image.size());
        done(kroft_history_open(&handle, static_cast<uint32_t>(law), unit, static_cast<uint32_t>(beyond), bytes, image.size()));
    }
    ~History() { kroft_history_close(&handle); }
    History(History &&other) noexcept
        : handle(std::exchange(other.handle, kroft_history KROFT_NO_HISTORY)), judged_by(other.judged_by) {}
    History &operator=(History &&other) noexcept {
        History taken(std::move(other));
        std::swap(handle, taken.handle);
        judged_by = taken.judged_by;
        return *this;
    }
    History(const History &) = delete;
    History &operator=(const History &) = delete;

    /// The law by which it is judged.
    Law law() const {
        if (!handle.open) done(KROFT_FAIL_CLOSED);
        return judged_by;
    }

    /// What is answered of a byte whose enable isn't set isn't judged: bit k of `enables` is the one of byte k.
    [[nodiscard]] HistoryVerdict load_request(uint64_t number, uint64_t address, size_t length, uint64_t enables = ~uint64_t{0}) {
        return told(kroft_history_load_request(&handle, number, address, length, enables));
    }

    [[nodiscard]] HistoryVerdict load_response(uint64_t number, const uint8_t *bytes, size_t length) {
        return told(kroft_history_load_response(&handle, number, some(bytes, length), length));
    }

    /// Of these bytes those are stored whose enable is set: bit k of `enables` is the one of byte k.
    [[nodiscard]] HistoryVerdict store_request(uint64_t number, uint64_t address, const uint8_t *bytes, size_t length,
                                               uint64_t enables = ~uint64_t{0}) {
        return told(kroft_history_store_request(&handle, number, address, some(bytes, length), length, enables));
    }

    [[nodiscard]] HistoryVerdict store_response(uint64_t number) { return told(kroft_history_store_response(&handle, number)); }

    /// What the load that is open under a number may return for the byte at an address, if it is answered now; none if
    /// no such load asks for that byte, or if the atomic law has no verdict. By that law it is said of this byte alone.
    std::optional<std::bitset<256>> may_return(uint64_t number, uint64_t address) const {
        uint8_t row[KROFT_SET_BYTES];
        if (told(kroft_history_may_return(&handle, number, address, row)).fault() != KROFT_OK) return std::nullopt;
        std::bitset<256> set;
        for (size_t byte = 0; byte < set.size(); byte++) set[byte] = row[byte / 8] >> byte % 8 & 1;
        return set;
    }

    /// The place of the first of these bytes that the load that is open under a number may not return; none if there is
    /// none, if no load of this length is open under it, or if the answer is undecided.
    std::optional<uint64_t> wrong_place(uint64_t number, const uint8_t *bytes, size_t length) const {
        std::optional<kroft_history_reason> reason = why(number, bytes, length);
        return reason ? std::optional<uint64_t>(reason->wrong_place) : std::nullopt;
    }

    /// Why the load that is open under a number may not return the first wrong one of these bytes: who stored it, and who
    /// overwrote that; none if no byte is wrong, if no load of this length is open under the number, or if the answer is
    /// undecided.
    std::optional<kroft_history_reason> why(uint64_t number, const uint8_t *bytes, size_t length) const {
        kroft_history_reason reason{};
        if (told(kroft_history_why(&handle, number, some(bytes, length), length, &reason)).fault() != KROFT_FAIL_WRONG_BYTE) return std::nullopt;
        return reason;
    }

    /// Where the unit begins for whose sake an answer was undecided; none if no answer was since an event was taken last,
    /// or a unit forgotten.
    std::optional<uint64_t> undecided() const {
        uint64_t address = 0;
        if (told(kroft_history_undecided(&handle, &address)).fault() != KROFT_OK) return std::nullopt;
        return address;
    }

    /// Forgets the unit in which the byte at an address lies, of a history by the atomic law; std::invalid_argument: the law
    /// has no units. From there on its bytes are unknown, and the other units are judged on.
    void forget(uint64_t address) { done(kroft_history_forget(&handle, address)); }

    /// Counts from here on, anew if it did so before: of each operation that is requested from now on, its answer. A load's
    /// answer then takes longer.
    void cover() { done(kroft_history_cover(&handle)); }

    /// What was counted; none if nothing is.
    std::optional<kroft_history_counts> coverage() const {
        kroft_history_counts counts{};
        if (told(kroft_history_coverage(&handle, &counts)).fault() != KROFT_OK) return std::nullopt;
        return counts;
    }

    /// The operations that are open, in the order of their requests.
    std::vector<kroft_history_operation> open_loads() const { return operations(KROFT_LOAD); }
    std::vector<kroft_history_operation> open_stores() const { return operations(KROFT_STORE); }

private:
    kroft_history handle = KROFT_NO_HISTORY;
    Law judged_by;

    // (what is proved of the library is of pointers that aren't null)
    static const uint8_t *some(const uint8_t *bytes, size_t length) {
        static const uint8_t none = 0;
        return length == 0 ? &none : bytes;
    }

    static void done(uint32_t status) {
        if (status == KROFT_FAIL_OUT_OF_MEMORY) throw std::bad_alloc();
        if (status == KROFT_FAIL_CLOSED) throw std::logic_error("a history that was moved from");
        if (status == KROFT_FAIL_NO_LAW || status == KROFT_FAIL_NO_UNITS) throw std::invalid_argument(kroft_text(status));
    }

    static HistoryVerdict told(uint32_t status) {
        done(status);
        return HistoryVerdict(status);
    }

    std::vector<kroft_history_operation> operations(uint32_t kind) const {
        std::vector<kroft_history_operation> found;
        kroft_history_operation it{};
        uint64_t count = 0;
        while (told(kroft_history_unanswered(&handle, kind, found.size(), &it, &count)).fault() == KROFT_OK) found.push_back(it);
        return found;
    }
};

} // namespace kroft
