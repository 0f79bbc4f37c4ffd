// Random loads and stores at both ports of memory.v, with each request and each response told to a history in its cycle, by
// the regular law or, in units of a word, the atomic law. The first that isn't lawful ends the run, and so does a request
// without an answer at its end: status 1. Once all tags of a port wait for answers, nothing more is requested.
//
//     bench [CYCLES [BUG [regular|atomic [SEED]]]]
#include "Vmemory.h"
#include "kroft.hpp"

#include <array>
#include <cstdio>
#include <cstdlib>
#include <cstring>
#include <random>

namespace {

constexpr unsigned ports = 2, tags = 256, words = 16;

// A request of a port: what is told of it, if it isn't lawful.
struct Request {
    bool is_open = false;
    bool is_store = false;
    unsigned word = 0;
    uint64_t cycle = 0;
};

class Bench {
public:
    Bench(uint64_t cycles, unsigned bug, kroft::Law law, uint64_t seed)
        : cycles(cycles), random(seed), history(law, {}, kroft::Beyond::Zeros, law == kroft::Law::Atomic ? 4 : 1) {
        memory.bug = static_cast<uint8_t>(bug);
    }

    bool goes_well() {
        reset();
        while (is_well && cycle < cycles + 1000) {
            if (cycle < cycles && !has_tags()) cycles = cycle;
            bool asks = cycle < cycles; // behind the last request all are answered
            unsigned accepted = request(asks);
            memory.eval();
            accepted &= memory.request_ready;
            for (unsigned p = 0; p < ports; p++) {
                if (memory.answer_valid >> p & 1) answer(p);
            }
            for (unsigned p = 0; p < ports; p++) {
                if (accepted >> p & 1) ask(p);
            }
            edge();
            cycle++;
        }
        if (is_well) look_for_lost();
        std::printf("%llu cycles, %llu requests, %llu loads answered: %s\n", static_cast<unsigned long long>(cycle),
                    static_cast<unsigned long long>(requests), static_cast<unsigned long long>(loads), is_well ? "lawful" : "not lawful");
        return is_well && loads > cycles / 50;
    }

private:
    uint64_t cycles, cycle = 0, requests = 0, loads = 0;
    std::mt19937_64 random;
    Vmemory memory;
    kroft::History history;
    std::array<std::array<Request, tags>, ports> table{};
    std::array<unsigned, ports> next_tag{};
    bool is_well = true;

    static uint64_t number(unsigned port, unsigned tag) { return port * tags + tag; }

    void edge() {
        memory.chance = static_cast<uint32_t>(random());
        memory.clk = 1;
        memory.eval();
        memory.clk = 0;
        memory.eval();
    }

    void reset() {
        memory.reset = 1;
        memory.request_valid = 0;
        edge();
        memory.reset = 0;
    }

    // Finds the next free tag of each port. A port without one has lost answers: the memory holds no more than four requests.
    bool has_tags() {
        for (unsigned p = 0; p < ports; p++) {
            for (unsigned k = 0; k < tags && table[p][next_tag[p]].is_open; k++) next_tag[p] = (next_tag[p] + 1) % tags;
            if (table[p][next_tag[p]].is_open) return false;
        }
        return true;
    }

    // What the ports ask for in this cycle: which of them do.
    unsigned request(bool asks) {
        memory.request_valid = asks ? random() % 4 : 0;
        memory.request_write = random() % 4;
        memory.request_tag = static_cast<uint16_t>(next_tag[0] | next_tag[1] << 8);
        memory.request_at = static_cast<uint8_t>(random() % 4 | (random() % 4) << 4); // few words, that they meet often
        memory.request_data = random();
        memory.request_lanes = static_cast<uint8_t>(1 + random() % 15 + ((1 + random() % 15) << 4));
        return memory.request_valid;
    }

    void ask(unsigned p) {
        unsigned tag = next_tag[p], word = memory.request_at >> 4 * p & 15;
        Request &it = table[p][tag];
        it = {true, (memory.request_write >> p & 1) != 0, word, cycle};
        requests++;
        if (!it.is_store) {
            judge(p, tag, history.load_request(number(p, tag), 4 * word, 4));
            return;
        }
        uint8_t bytes[4];
        for (int k = 0; k < 4; k++) bytes[k] = static_cast<uint8_t>(memory.request_data >> (32 * p + 8 * k));
        judge(p, tag, history.store_request(number(p, tag), 4 * word, bytes, 4, memory.request_lanes >> 4 * p & 15));
    }

    void answer(unsigned p) {
        unsigned tag = memory.answer_tag >> 8 * p & 255;
        if (memory.answer_write >> p & 1) {
            judge(p, tag, history.store_response(number(p, tag)));
        } else {
            uint8_t bytes[4];
            for (int k = 0; k < 4; k++) bytes[k] = static_cast<uint8_t>(memory.answer_data >> (32 * p + 8 * k));
            kroft::HistoryVerdict said = history.load_response(number(p, tag), bytes, 4);
            judge(p, tag, said);
            if (said.fault() == KROFT_FAIL_WRONG_BYTE) tell_wrong_byte(p, tag, bytes);
            loads++;
        }
        table[p][tag].is_open = false;
    }

    void judge(unsigned p, unsigned tag, const kroft::HistoryVerdict &said) {
        if (said) return;
        const Request &it = table[p][tag];
        std::printf("cycle %llu: port %u, %s %u of word %u, requested in cycle %llu: %s\n", static_cast<unsigned long long>(cycle), p,
                    it.is_store ? "store" : "load", tag, it.word, static_cast<unsigned long long>(it.cycle), said.text());
        is_well = false;
    }

    void tell_wrong_byte(unsigned p, unsigned tag, const uint8_t *bytes) {
        for (unsigned k = 0; k < 4; k++) {
            auto may = history.may_return(number(p, tag), 4 * table[p][tag].word + k);
            if (!may || may->test(bytes[k])) continue;
            std::printf("  byte %u is %02x, and may be", k, bytes[k]);
            for (unsigned byte = 0; byte < 256; byte++) {
                if (may->test(byte)) std::printf(" %02x", byte);
            }
            std::printf("\n");
        }
    }

    void look_for_lost() {
        auto open = history.open_loads();
        auto stores = history.open_stores();
        open.insert(open.end(), stores.begin(), stores.end());
        for (const kroft_history_operation &lost : open) {
            unsigned p = static_cast<unsigned>(lost.number / tags), tag = static_cast<unsigned>(lost.number % tags);
            const Request &it = table[p][tag];
            std::printf("cycle %llu: port %u, %s %u of word %u was requested and never answered\n", static_cast<unsigned long long>(it.cycle), p,
                        it.is_store ? "store" : "load", tag, it.word);
            is_well = false;
        }
    }
};

} // namespace

int main(int argc, char **argv) {
    uint64_t cycles = argc > 1 ? std::strtoull(argv[1], nullptr, 10) : 100000;
    unsigned bug = argc > 2 ? static_cast<unsigned>(std::strtoul(argv[2], nullptr, 10)) : 0;
    kroft::Law law = argc > 3 && std::strcmp(argv[3], "atomic") == 0 ? kroft::Law::Atomic : kroft::Law::Regular;
    uint64_t seed = argc > 4 ? std::strtoull(argv[4], nullptr, 10) : 1;
    return Bench(cycles, bug, law, seed).goes_well() ? 0 : 1;
}
