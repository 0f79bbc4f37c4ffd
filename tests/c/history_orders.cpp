/* Random short histories, judged by libkroft and by brute force over all orders in this file's own words: each verdict, the
   place of each wrong byte, and each set of what a load may return.

   history_orders COUNT SEED [TURN]: with a TURN the brute force itself is made wrong (1: a load may see what was overwritten;
   2: enables aren't looked at; 3: an open store is never seen; 4: a load never sees a store that was requested after it;
   5 and 6, of the atomic law alone: each byte is a unit; a load gets the word at its request), and then some history has to
   differ: the test that the comparison can fail.

   The regular law: the bytes of an operation are looked at one by one. Each store and each load has a moment of its own
   between its request and its response; a store that isn't answered may have had its moment or not. A load's byte may be what
   the last store before the load's moment left. So try all orders of the stores to that byte and the one load in which
   nothing stands before what was answered before its request. The flat law: each moment is the request. The atomic law: of each
   unit all states are kept that it may be in, with the open stores that had their moment and what the open loads got at theirs;
   between any two events any open operation may have its moment. */
#include "kroft.h"
#include "words.h"

#include <algorithm>
#include <array>
#include <bitset>
#include <cstdio>
#include <cstdlib>
#include <cstring>
#include <map>
#include <random>
#include <set>
#include <tuple>
#include <vector>

namespace {

using Bytes = std::bitset<256>;
constexpr int never = 1 << 30;

int turned = 0;

/* An operation as it was seen: its request and its response are numbers of events. */
struct Operation {
    bool is_store;
    int number;
    int address, length;
    std::array<int, 3> bytes;
    int enables;
    int requested;
    int answered = never;
    std::vector<int> standing; /* what stood there at its request, in a flat memory; -1: unknown */
};

struct History {
    std::vector<uint8_t> image;
    bool is_unknown;
    std::vector<Operation> operations;
    std::vector<int> flat; /* what stands at each address, with each store at its request */
    int events = 0;

    /* What memory may have had at an address: -1 is any byte. */
    int initial(int address) const {
        if (address < static_cast<int>(image.size())) return image[address];
        return is_unknown ? -1 : 0;
    }
};

bool writes(const Operation &it, int address) {
    if (!it.is_store || address < it.address || address >= it.address + it.length) return false;
    return turned == 2 || (it.enables >> (address - it.address) & 1);
}

void see(int byte, Bytes &seen) {
    if (byte < 0) seen.set();
    else seen.set(byte);
}

/* All orders of these operations from here on: `left` are still to be placed, and the byte stands there now. */
void all_orders(const std::vector<const Operation *> &operations, unsigned left, int byte, int address, Bytes &seen) {
    for (size_t k = 0; k < operations.size(); k++) {
        if (!(left >> k & 1)) continue;
        const Operation &next = *operations[k];
        bool is_first = true; /* nothing that is left was answered before the request of this one */
        for (size_t j = 0; j < operations.size(); j++)
            if (left >> j & 1 && operations[j]->answered < next.requested) is_first = false;
        if (!is_first && !(turned == 1 && !next.is_store)) continue;
        if (!next.is_store) see(byte, seen);
        else all_orders(operations, left & ~(1u << k), next.bytes[address - next.address], address, seen);
    }
}

Bytes regular_set(const History &history, const Operation &load, int address) {
    std::vector<const Operation *> stores;
    for (const Operation &it : history.operations) {
        if (!writes(it, address)) continue;
        if (turned == 3 && it.answered == never) continue;
        if (turned == 4 && it.requested > load.requested) continue;
        stores.push_back(&it);
    }
    Bytes seen;
    for (unsigned chosen = 0; chosen < 1u << stores.size(); chosen++) {
        std::vector<const Operation *> operations{&load};
        bool is_whole = true; /* each answered store is in the order */
        for (size_t k = 0; k < stores.size(); k++) {
            if (chosen >> k & 1) operations.push_back(stores[k]);
            else if (stores[k]->answered != never) is_whole = false;
        }
        if (is_whole) all_orders(operations, (1u << operations.size()) - 1, history.initial(address), address, seen);
    }
    return seen;
}

Bytes flat_set(const Operation &load, int address) {
    Bytes seen;
    see(load.standing[address - load.address], seen);
    return seen;
}

/* What one unit may be: the word that stands there, the open stores that had their moment, and what the open loads got. */
struct State {
    std::array<int, 8> word{};
    std::set<int> done;
    std::map<int, std::array<int, 8>> got;
    bool operator<(const State &other) const { return std::tie(word, done, got) < std::tie(other.word, other.done, other.got); }
};

/* A unit under the atomic law, over the open operations that touch it. */
class Unit {
public:
    Unit(const History &history, int first, int size) : first(first), size(size) {
        State state;
        for (int k = 0; k < size; k++) state.word[k] = history.initial(first + k);
        states.insert(state);
    }

    bool touches(const Operation &it) const {
        for (int a = first; a < first + size; a++)
            if (it.is_store ? writes(it, a) : a >= it.address && a < it.address + it.length) return true;
        return false;
    }

    void request(const Operation &it) {
        if (!touches(it)) return;
        open.push_back(it);
        if (turned != 6 || it.is_store) return;
        std::set<State> bound;
        for (State state : all_moments()) {
            state.got[it.number] = state.word;
            bound.insert(state);
        }
        states = bound;
    }

    /* The states in which the operation may be answered, a load with these bytes. */
    std::set<State> answered(const Operation &it, const uint8_t *bytes) const {
        std::set<State> left;
        for (State state : all_moments()) {
            if (touches(it) && !(it.is_store ? state.done.erase(it.number) != 0 : has_got(state, it, bytes))) continue;
            if (!it.is_store) state.got.erase(it.number);
            left.insert(state);
        }
        return left;
    }

    void answer(const Operation &it, const uint8_t *bytes) {
        states = answered(it, bytes);
        for (size_t k = 0; k < open.size(); k++)
            if (open[k].is_store == it.is_store && open[k].number == it.number) open.erase(open.begin() + k--);
    }

    Bytes may_return(const Operation &load, int address) const {
        Bytes seen;
        for (const State &state : all_moments()) {
            auto found = state.got.find(load.number);
            if (found != state.got.end()) see(found->second[address - first], seen);
        }
        return seen;
    }

    const int first, size;

private:
    std::set<State> states;
    std::vector<Operation> open;

    bool has_got(const State &state, const Operation &load, const uint8_t *bytes) const {
        auto found = state.got.find(load.number);
        if (found == state.got.end()) return false;
        for (int a = std::max(first, load.address); a < std::min(first + size, load.address + load.length); a++)
            if (found->second[a - first] >= 0 && found->second[a - first] != bytes[a - load.address]) return false;
        return true;
    }

    /* Those that are reached if open operations have their moments, in any order. */
    std::set<State> all_moments() const {
        std::set<State> reached = states;
        std::vector<State> left(states.begin(), states.end());
        while (!left.empty()) {
            State state = left.back();
            left.pop_back();
            for (const Operation &it : open) {
                State next = state;
                if (it.is_store ? state.done.count(it.number) != 0 : state.got.count(it.number) != 0) continue;
                if (it.is_store) {
                    next.done.insert(it.number);
                    for (int a = first; a < first + size; a++)
                        if (writes(it, a)) next.word[a - first] = it.bytes[a - it.address];
                } else {
                    next.got[it.number] = state.word;
                }
                if (reached.insert(next).second) left.push_back(next);
            }
        }
        return reached;
    }
};

Bytes set_of(uint32_t law, const History &history, const std::vector<Unit> &units, const Operation &load, int address) {
    if (law == KROFT_FLAT_LAW) return flat_set(load, address);
    if (law == KROFT_REGULAR_LAW) return regular_set(history, load, address);
    Bytes none;
    for (const Unit &unit : units)
        if (address >= unit.first && address < unit.first + unit.size) return unit.may_return(load, address);
    return none;
}

void fail(const History &history, uint32_t law, const char *what) {
    std::printf("law %u: %s, after\n", law, what);
    for (const Operation &it : history.operations)
        std::printf("  %s %d of %d bytes at %d (%d %d %d, enables %d): requested %d, answered %d\n", it.is_store ? "store" : "load",
                    it.number, it.length, it.address, it.bytes[0], it.bytes[1], it.bytes[2], it.enables, it.requested,
                    it.answered == never ? -1 : it.answered);
}

/* One random history by one law; whether all was as the brute force says. */
class Run {
public:
    Run(uint32_t law, std::mt19937_64 &random) : law(law), random(random) {
        history.is_unknown = below(3) == 0;
        for (int k = below(4); k > 0; k--) history.image.push_back(static_cast<uint8_t>(below(values)));
        for (int a = 0; a < unit_at + 3; a++) history.flat.push_back(history.initial(a));
        length = 1 + below(3);
        uint32_t size = law == KROFT_ATOMIC_LAW ? 1u << below(4) : 1;
        int own = turned == 5 ? 1 : static_cast<int>(size);
        for (int first = 0; law == KROFT_ATOMIC_LAW && first < unit_at + 3; first += own) units.emplace_back(history, first, own);
        if (kroft_history_open(&handle, law, size, history.is_unknown ? KROFT_UNKNOWN : KROFT_ZEROS, history.image.data(),
                               history.image.size()) != KROFT_OK)
            std::abort();
    }
    ~Run() { kroft_history_close(&handle); }
    Run(const Run &) = delete;
    Run &operator=(const Run &) = delete;

    bool goes_well() {
        int most = 1 + below(8);
        while (is_well) {
            std::vector<size_t> open;
            for (size_t k = 0; k < history.operations.size(); k++)
                if (history.operations[k].answered == never) open.push_back(k);
            bool may_request = static_cast<int>(history.operations.size()) < most;
            if (!may_request && (open.empty() || below(6) == 0)) break;
            if (may_request && (open.empty() || below(2) == 0)) request();
            else answer(open[below(static_cast<int>(open.size()))]);
            if (is_well) compare_sets();
        }
        return is_well;
    }

    static long answers, refusals;

private:
    static constexpr int values = 3, unit_at = 2;
    uint32_t law;
    std::mt19937_64 &random;
    History history;
    std::vector<Unit> units; /* of the atomic law */
    int length;
    bool is_well = true;
    kroft_history handle = KROFT_NO_HISTORY;

    int below(int n) { return static_cast<int>(random() % n); }

    void expect(uint32_t said, uint32_t wanted, const char *what) {
        if (said == wanted) return;
        is_well = false;
        if (turned == 0) fail(history, law, what);
    }

    /* A request of one to all bytes of the unit. */
    void request() {
        Operation it{};
        it.is_store = below(2) == 0;
        it.number = static_cast<int>(history.operations.size());
        it.length = 1 + below(length);
        it.address = unit_at + below(length - it.length + 1);
        it.requested = history.events;
        uint8_t bytes[3];
        for (int k = 0; k < 3; k++) bytes[k] = static_cast<uint8_t>(it.bytes[k] = below(values));
        if (it.is_store) {
            it.enables = 1 + below((1 << it.length) - 1);
            for (int k = 0; k < it.length; k++)
                if (writes(it, it.address + k)) history.flat[it.address + k] = it.bytes[k];
            expect(kroft_history_store_request(&handle, it.number, it.address, bytes, it.length, it.enables), KROFT_OK, "a store's request");
        } else {
            it.standing.assign(history.flat.begin() + it.address, history.flat.begin() + it.address + it.length);
            expect(kroft_history_load_request(&handle, it.number, it.address, it.length, UINT64_MAX), KROFT_OK, "a load's request");
        }
        history.operations.push_back(it);
        history.events++;
        for (Unit &unit : units) unit.request(it);
    }

    /* The place of the first byte of an answer in the lowest unit that it can't come from; none: -1. */
    int atomic_wrong(const Operation &load, const uint8_t *bytes) const {
        for (const Unit &unit : units)
            if (unit.answered(load, bytes).empty()) return std::max(0, unit.first - load.address);
        return -1;
    }

    /* A response, right or wrong. */
    void answer(size_t which) {
        Operation &it = history.operations[which];
        uint32_t wanted = KROFT_OK, said;
        uint8_t bytes[3] = {0, 0, 0};
        if (it.is_store) {
            said = kroft_history_store_response(&handle, it.number);
        } else {
            uint64_t wrong = 0, place = 9; /* the first that it may not return */
            for (int k = 0; k < it.length; k++) {
                Bytes may = set_of(law, history, units, it, it.address + k);
                int byte = below(values);
                if (below(4) != 0) /* mostly one that it may return */
                    while (!may[byte]) byte = (byte + 1) % 256;
                bytes[k] = static_cast<uint8_t>(byte);
                if (!may[byte] && wanted == KROFT_OK) {
                    wanted = KROFT_FAIL_WRONG_BYTE;
                    wrong = k;
                }
            }
            if (law == KROFT_ATOMIC_LAW) {
                int place_of = atomic_wrong(it, bytes);
                wanted = place_of < 0 ? KROFT_OK : KROFT_FAIL_WRONG_BYTE;
                wrong = place_of < 0 ? 0 : place_of;
            }
            expect(wrong_place(&handle, it.number, bytes, it.length, &place), wanted, "a response that isn't taken");
            expect(static_cast<uint32_t>(place), static_cast<uint32_t>(wanted == KROFT_OK ? 9 : wrong), "the place of a wrong byte");
            said = kroft_history_load_response(&handle, it.number, bytes, it.length);
            (wanted == KROFT_OK ? answers : refusals)++;
        }
        expect(said, wanted, "a response");
        if (said != KROFT_OK) return;
        for (Unit &unit : units) unit.answer(it, bytes);
        it.answered = history.events;
        history.events++;
    }

    void compare_sets() {
        for (const Operation &it : history.operations) {
            if (it.is_store || it.answered != never) continue;
            for (int address = it.address; address < it.address + it.length && is_well; address++) {
                uint8_t row[KROFT_SET_BYTES];
                expect(kroft_history_may_return(&handle, it.number, address, row), KROFT_OK, "a set is asked");
                Bytes may = set_of(law, history, units, it, address);
                for (int byte = 0; byte < 256 && is_well; byte++)
                    expect(row[byte / 8] >> byte % 8 & 1, may[byte], "a set");
            }
        }
    }
};

long Run::answers, Run::refusals;

} // namespace

int main(int argc, char **argv) {
    if (argc < 3) return 2;
    long count = std::atol(argv[1]), differ = 0;
    std::mt19937_64 random(std::strtoull(argv[2], nullptr, 10));
    turned = argc > 3 ? std::atoi(argv[3]) : 0;
    for (long k = 0; k < count; k++)
        for (uint32_t law : {KROFT_REGULAR_LAW, KROFT_FLAT_LAW, KROFT_ATOMIC_LAW})
            if (law != KROFT_ATOMIC_LAW || k % 10 == 0) differ += !Run(law, random).goes_well(); /* its brute force is slow */
    std::printf("%ld histories by each law (a tenth of them by the atomic one), %ld answers and %ld wrong ones: %ld differ\n", count, Run::answers, Run::refusals, differ);
    if (differ != 0) return 1;
    return Run::answers < count || Run::refusals < count / 10 ? 3 : 0;
}
