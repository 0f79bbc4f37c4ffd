/* kroft::History: what the laws say of small histories, and memories with hidden moments that are judged over many
   accesses. */
#include "kroft.h"

namespace {
int nulls = 0; /* the bytes that the library is given and that are none */
}
#define LOOKED_AT(bytes, call) (nulls += (bytes) == nullptr, call)
#define kroft_history_load_response(history, number, bytes, n) LOOKED_AT(bytes, kroft_history_load_response(history, number, bytes, n))
#define kroft_history_store_request(history, number, at, bytes, n, on) LOOKED_AT(bytes, kroft_history_store_request(history, number, at, bytes, n, on))
#define kroft_history_why(history, number, bytes, n, reason) LOOKED_AT(bytes, kroft_history_why(history, number, bytes, n, reason))
#include "../kroft.hpp"

#include <cstdio>
#include <map>
#include <random>

namespace {

int failures = 0;

void check(bool holds, const char *what) {
    if (holds) return;
    failures++;
    std::printf("not so: %s\n", what);
}

void a_load_with_enables() {
    const uint8_t stored[2] = {0x11, 0x22}, beside[2] = {0x99, 0x22}, wrong[2] = {0x11, 0x99};
    for (kroft::Law law : {kroft::Law::Regular, kroft::Law::Flat, kroft::Law::Atomic}) {
        kroft::History history(law);
        check(history.store_request(1, 0x1000, stored, 2) && history.store_response(1), "a store");
        check(history.load_request(1, 0x1000, 2, 4).fault() == KROFT_FAIL_NO_BYTE_ENABLED, "a load of no byte");
        check(bool(history.load_request(1, 0x1000, 2, 2)), "a load of one byte of two");
        auto may = history.may_return(1, 0x1000);
        check(may && may->count() == 256u, "a byte that isn't enabled may be anything");
        check(!history.load_response(1, wrong, 2), "the byte that is enabled is judged");
        check(bool(history.load_response(1, beside, 2)), "the other isn't");
    }
}

void a_load_beside_a_store() {
    const uint8_t stored[2] = {0x5a, 0x5b}, wrong[2] = {0x5a, 0x5b}, right[2] = {0x5a, 0};
    for (kroft::Law law : {kroft::Law::Regular, kroft::Law::Flat}) {
        kroft::History history(law);
        check(bool(history.store_request(1, 0x1000, stored, 2, 1)), "a store");
        check(bool(history.load_request(1, 0x1000, 2)), "a load");
        auto may = history.may_return(1, 0x1000);
        check(may && may->count() == (law == kroft::Law::Regular ? 2u : 1u) && may->test(0x5a), "a set");
        check(!history.may_return(1, 0x1002), "no such byte");
        kroft::HistoryVerdict said = history.load_response(1, wrong, 2);
        check(history.wrong_place(1, wrong, 2) == 1u && !history.wrong_place(1, right, 2), "the place of a wrong byte");
        check(!said && said.fault() == KROFT_FAIL_WRONG_BYTE, "a wrong byte");
        check(history.open_loads().size() == 1 && history.open_loads()[0].address == 0x1000, "an open load");
        check(bool(history.load_response(1, right, 2)), "the right bytes");
        kroft::History moved(std::move(history));
        check(moved.law() == law && bool(moved.store_response(1)) && moved.open_stores().empty(), "moved");
        kroft::History assigned(kroft::Law::Atomic);
        assigned = std::move(moved);
        check(assigned.law() == law && bool(assigned.load_request(1, 0x1000, 1)), "assigned");
        for (kroft::History *empty : {&history, &moved}) {
            bool threw = false;
            try {
                (void)empty->load_request(1, 0, 1);
            } catch (const std::logic_error &) {
                threw = true;
            }
            check(threw, "moved from");
            threw = false;
            try {
                empty->law();
            } catch (const std::logic_error &) {
                threw = true;
            }
            check(threw, "the law of one that was moved from");
        }
    }
}

/* No bytes are none of any load or store, wherever they are. */
void no_bytes() {
    const std::vector<uint8_t> empty;
    kroft::History history;
    check(bool(history.load_request(1, 0x1000, 1)), "a load");
    check(history.load_response(1, empty.data(), 0).fault() == KROFT_FAIL_WRONG_LENGTH, "an answer without a byte");
    check(history.store_request(1, 0x1000, nullptr, 0).fault() == KROFT_FAIL_BAD_RANGE, "a store without a byte");
    check(!history.wrong_place(1, nullptr, 0) && !history.why(1, nullptr, 0), "no wrong byte");
    check(nulls == 0, "no null comes to the library");
}

/* New then old, and a unit that is torn: the atomic law refuses them. */
void new_then_old() {
    const uint8_t old[1] = {0}, later[1] = {0x5a};
    for (kroft::Law law : {kroft::Law::Regular, kroft::Law::Atomic}) {
        kroft::History history(law);
        bool is_atomic = law == kroft::Law::Atomic;
        check(history.store_request(1, 0x13, later, 1) && history.load_request(1, 0x13, 1), "requests");
        check(history.load_response(1, later, 1) && history.load_request(2, 0x13, 1), "new");
        check(history.load_response(2, old, 1).fault() == (is_atomic ? KROFT_FAIL_WRONG_BYTE : KROFT_OK), "then old");
        check(history.open_loads().size() == (is_atomic ? 1u : 0u), "a load that is still open");
    }
    const uint8_t ones[2] = {0x11, 0x11}, twos[2] = {0x22, 0x22}, torn[2] = {0x11, 0x22};
    for (unsigned unit : {1u, 2u, 4u, 8u}) {
        kroft::History history(kroft::Law::Atomic, {}, kroft::Beyond::Zeros, unit);
        check(history.store_request(1, 0x20, ones, 2) && history.store_request(2, 0x20, twos, 2), "two stores");
        check(history.store_response(1) && history.store_response(2) && history.load_request(1, 0x20, 2), "a load behind them");
        check(bool(history.load_response(1, torn, 2)) == (unit == 1), "a torn unit");
    }
}

/* Why a byte is wrong: the store that put it there, and the one that overwrote it. */
void reasons() {
    const uint8_t first[1] = {0x5a}, second[1] = {0x11}, other[1] = {0x33};
    kroft::History history;
    check(history.store_request(21, 8, first, 1) && history.store_response(21), "a store");
    check(history.store_request(22, 8, second, 1) && history.store_response(22), "another behind it");
    check(bool(history.load_request(1, 8, 1)), "a load behind both");
    auto why = history.why(1, first, 1);
    check(why && why->reason == KROFT_REASON_STORE_OVERWRITTEN && why->stored == 21 && why->stored_at == 0, "who stored it");
    check(why && why->overwritten_by == 22 && why->overwritten_at == 2, "and who overwrote it");
    why = history.why(1, other, 1);
    check(why && why->reason == KROFT_REASON_NEVER_THERE && why->place == 0, "a byte of nowhere");
    check(!history.why(1, second, 1) && !history.why(2, first, 1), "no byte is wrong");
}

bool has_counted(const kroft::History &history, uint64_t loads, uint64_t choices, uint64_t beside_store, uint64_t overtaking) {
    auto counts = history.coverage();
    return counts && counts->loads == loads && counts->choices == choices && counts->beside_store == beside_store &&
           counts->overtaking == overtaking;
}

/* What is counted, once it is asked for; also of one that is moved. */
void coverage() {
    const uint8_t old[2] = {0, 0}, later[1] = {0x5a};
    for (kroft::Law law : {kroft::Law::Regular, kroft::Law::Flat, kroft::Law::Atomic}) {
        kroft::History first(law);
        check(!first.coverage(), "nothing is counted");
        first.cover();
        check(first.load_request(1, 0x10, 2) && first.store_request(1, 0x11, later, 1) && first.load_request(2, 0x10, 1), "requests");
        check(first.load_response(2, old, 1) && has_counted(first, 1, 0, 0, 1), "a load that overtakes another");
        kroft::History history(std::move(first));
        check(history.load_response(1, old, 2) && history.store_response(1), "a load beside a store");
        check(has_counted(history, 2, law == kroft::Law::Flat ? 0 : 1, 1, 1), "it is counted");
        history.cover();
        check(has_counted(history, 0, 0, 0, 0), "counts begin anew");
    }
}

/* A unit without a verdict is told as such, and forgotten; the rest is judged on. */
void undecided() {
    kroft::History history(kroft::Law::Atomic);
    check(bool(history.load_request(7, 0x43, 1)), "a load that stays open");
    for (uint8_t number = 1; number <= 13; number++) check(bool(history.store_request(number, 0x43, &number, 1)), "a store");
    check(!history.undecided(), "nothing undecided yet");
    kroft::HistoryVerdict said = history.store_response(13);
    check(!said && said.is_undecided() && history.undecided() == 0x40u, "undecided");
    history.forget(*history.undecided());
    check(bool(history.store_response(13)) && !history.undecided(), "forgotten");
    const uint8_t wrong[1] = {1};
    kroft::History many(kroft::Law::Atomic);
    check(bool(many.load_request(7, 0x43, 1)), "a load beside many stores");
    for (uint8_t number = 1; number <= 80; number++) check(bool(many.store_request(number, 0x43, &number, 1)), "a store");
    check(many.load_response(7, wrong, 1).is_undecided() && !many.wrong_place(7, wrong, 1) && !many.why(7, wrong, 1), "no byte is known to be wrong");
    check(history.load_request(1, 0x48, 1) && !history.load_response(1, wrong, 1), "another unit");
    for (bool forgets : {false, true}) {
        bool threw = false;
        try {
            if (forgets) kroft::History().forget(0);
            else kroft::History(kroft::Law::Regular, {}, kroft::Beyond::Zeros, 8);
        } catch (const std::invalid_argument &) {
            threw = true;
        }
        check(threw, "the regular law has no units");
    }
}

/* A byte that two ports have a copy of. A load reads one copy at a moment of its own; a store writes both at one moment, or
   with a bug each at its own. How many accesses go well until one is blamed. */
long copies_until_blame(long most, kroft::Law law, bool apart, unsigned seed) {
    struct Waiting {
        bool is_store;
        unsigned port, left; /* how many copies it has still to come to */
        uint8_t byte;
    };
    std::mt19937 random(seed);
    std::map<uint64_t, Waiting> waiting;
    uint8_t copies[2] = {0, 0};
    kroft::History history(law);
    for (long number = 0; number < most; number++) {
        bool is_store = random() % 2 == 0;
        Waiting it{is_store, static_cast<unsigned>(random() % 2), is_store && apart ? 2u : 1u, static_cast<uint8_t>(random())};
        if (waiting.size() < 4) {
            if (it.is_store) (void)history.store_request(number, 0x1000, &it.byte, 1);
            else (void)history.load_request(number, 0x1000, 1);
            waiting.emplace(number, it);
        }
        for (auto at = waiting.begin(); at != waiting.end();) {
            Waiting &moved = at->second;
            if (moved.left > 0 && random() % 2 == 0) {
                moved.left--;
                if (!moved.is_store) moved.byte = copies[moved.port];
                else if (apart) copies[moved.left] = moved.byte;
                else copies[0] = copies[1] = moved.byte;
            }
            if (moved.left > 0 || random() % 2 == 0) {
                ++at;
                continue;
            }
            if (moved.is_store ? !history.store_response(at->first) : !history.load_response(at->first, &moved.byte, 1)) return number;
            at = waiting.erase(at);
        }
    }
    return most;
}

/* A memory whose accesses take effect at moments of their own; with a bug it loses one store in eight. How many accesses
   go well until one is blamed: all, of one without a bug. */
long accesses_until_blame(long most, bool loses, unsigned seed) {
    struct Waiting {
        bool is_store;
        uint64_t address;
        uint8_t byte;
        bool is_done;
    };
    std::mt19937 random(seed);
    std::map<uint64_t, Waiting> waiting;
    std::vector<uint8_t> memory(16);
    kroft::History history;
    for (long number = 0; number < most; number++) {
        Waiting it{random() % 2 == 0, random() % 16, static_cast<uint8_t>(random()), false};
        if (it.is_store) (void)history.store_request(number, it.address, &it.byte, 1);
        else (void)history.load_request(number, it.address, 1);
        waiting.emplace(number, it);
        for (auto at = waiting.begin(); at != waiting.end();) {
            Waiting &moved = at->second;
            if (!moved.is_done && random() % 2 == 0) {
                moved.is_done = true;
                if (!moved.is_store) moved.byte = memory[moved.address];
                else if (!loses || random() % 8 != 0) memory[moved.address] = moved.byte;
            }
            if (!moved.is_done || random() % 2 == 0) {
                ++at;
                continue;
            }
            if (moved.is_store ? !history.store_response(at->first) : !history.load_response(at->first, &moved.byte, 1)) return number;
            at = waiting.erase(at);
        }
    }
    return most;
}

} // namespace

int main() {
    a_load_with_enables();
    a_load_beside_a_store();
    no_bytes();
    new_then_old();
    reasons();
    coverage();
    undecided();
    for (unsigned seed = 0; seed < 5; seed++) {
        for (kroft::Law law : {kroft::Law::Regular, kroft::Law::Atomic})
            check(copies_until_blame(2000, law, false, seed) == 2000, "copies that change at once are not blamed");
        check(copies_until_blame(2000, kroft::Law::Regular, true, seed) == 2000, "the regular law lets new then old pass");
        check(copies_until_blame(2000, kroft::Law::Atomic, true, seed) < 1000, "the atomic law blames it soon");
    }
    for (unsigned seed = 0; seed < 5; seed++) {
        check(accesses_until_blame(8000, false, seed) == 8000, "a right memory is not blamed");
        check(accesses_until_blame(8000, true, seed) < 2000, "a wrong memory is blamed soon");
    }
    std::printf("history: %d failed\n", failures);
    return failures != 0;
}
