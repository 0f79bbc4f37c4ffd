// Random requests to the cache, each answer judged in its cycle: `bench [CYCLES [BUG [RECORD]]]`.
//
// What passes the cache's ports is given to the judge of libkroft step by step: a request with whether it
// was accepted, and a response as a take of a value. With a third word the run is also recorded in the
// file of this name, a step a line, as `kroft check` reads it. With NO_JUDGE defined nothing is judged, to
// measure what the judge costs. Behind the last request the cache has time for its answers. The status is 1 if an
// answer is none of flat memory, or one never came.
#include "Vcache.h"
#include "kroft.h"
#include "verilated.h"

#include <cinttypes>
#include <cstdio>
#include <cstdlib>
#include <cstring>
#include <vector>

namespace {

constexpr uint32_t WORDS = 64;
constexpr uint64_t LAST_CYCLES = 1000; // for what is under way behind the last request

kroft_word word_of(uint32_t data) { // byte 0 is the lowest
    return {{uint8_t(data), uint8_t(data >> 8), uint8_t(data >> 16), uint8_t(data >> 24)}};
}

// What flat memory makes of the run so far.
class Judge {
public:
    Judge(const char *record) : words(WORDS), due(KROFT_TAGS), address(KROFT_TAGS) {
        if (record && !(out = fopen(record, "w"))) {
            perror(record);
            exit(2);
        }
    }
    ~Judge() {
        if (out) fclose(out);
    }

    void load(uint64_t cycle, uint16_t tag, uint32_t at, bool accepted) {
        kroft_event event{};
        event.kind = KROFT_LOAD;
        event.tag = tag;
        event.at = at;
        if (accepted) address[tag] = at;
        if (out) fprintf(out, "load %u %u -> %s\n", tag, at, accepted ? "accepted" : "refused 7");
        if (!is_flat(event, request_answer(accepted))) fail_request(cycle, "load", at);
    }

    void store(uint64_t cycle, uint32_t at, uint8_t lanes, uint32_t data, bool accepted) {
        kroft_event event{};
        event.kind = KROFT_STORE;
        event.at = at;
        event.lanes = lanes;
        event.word = word_of(data);
        if (out) {
            const uint8_t *b = event.word.b;
            fprintf(out, "store %u %u%u%u%u %02x%02x%02x%02x -> %s\n", at, lanes & 1, lanes >> 1 & 1, lanes >> 2 & 1,
                    lanes >> 3 & 1, b[0], b[1], b[2], b[3], accepted ? "accepted" : "refused 7");
        }
        if (!is_flat(event, request_answer(accepted))) fail_request(cycle, "store", at);
    }

    void value(uint64_t cycle, uint16_t tag, uint32_t data) {
        kroft_event event{};
        event.kind = KROFT_TAKE;
        kroft_answer answer{};
        answer.kind = KROFT_VALUE;
        answer.tag = tag;
        answer.word = word_of(data);
        const uint8_t *got = answer.word.b;
        if (out) fprintf(out, "take 0 -> value %u %02x%02x%02x%02x\n", tag, got[0], got[1], got[2], got[3]);
        if (is_flat(event, answer)) return;
        const kroft_word owed = due[tag].word;
        if (due[tag].owed)
            printf("cycle %" PRIu64 ", step %" PRIu64 ": tag %u, word %u: owed %02x%02x%02x%02x, got %02x%02x%02x%02x\n", cycle, steps,
                   tag, address[tag], owed.b[0], owed.b[1], owed.b[2], owed.b[3], got[0], got[1], got[2], got[3]);
        else
            printf("cycle %" PRIu64 ", step %" PRIu64 ": tag %u is owed nothing, got %02x%02x%02x%02x\n", cycle, steps, tag, got[0],
                   got[1], got[2], got[3]);
        found = true;
    }

    // How many accepted loads have no answer yet; `tag` is the first one's.
    uint32_t unanswered(uint16_t &tag) const { return kroft_flat_unanswered(due.data(), 0, &tag); }

    // Names a load that was never answered, if there is one.
    void end() {
        uint16_t tag = 0;
        uint32_t lost = unanswered(tag);
        if (lost == 0) return;
        printf("%u loads have no answer, the first with tag %u, of word %u\n", lost, tag, address[tag]);
        found = true;
    }

    bool found = false;
    uint64_t steps = 0;

private:
    std::vector<kroft_word> words;
    std::vector<kroft_due> due;
    std::vector<uint32_t> address; // the word that each tag loads
    FILE *out = nullptr;

    // A request that isn't accepted finds no free register: the cache has one.
    static kroft_answer request_answer(bool accepted) {
        kroft_answer answer{};
        answer.kind = accepted ? KROFT_ACCEPTED : KROFT_REFUSED;
        answer.cause = accepted ? 0 : KROFT_NO_REGISTER;
        return answer;
    }

    bool is_flat(const kroft_event &event, const kroft_answer &answer) {
        steps++;
#ifdef NO_JUDGE
        (void)event, (void)answer;
        return true;
#else
        kroft_word right;
        return kroft_flat_judge(words.data(), words.size(), due.data(), &event, &answer, &right) == KROFT_OK;
#endif
    }

    void fail_request(uint64_t cycle, const char *what, uint32_t at) {
        printf("cycle %" PRIu64 ", step %" PRIu64 ": flat memory never answers so to a %s of word %u\n", cycle, steps, what, at);
        found = true;
    }
};

uint32_t seed = 1;

uint32_t random_bits() {
    seed ^= seed << 13;
    seed ^= seed >> 17;
    seed ^= seed << 5;
    return seed;
}

} // namespace

int main(int argc, char **argv) {
    uint64_t cycles = argc > 1 ? strtoull(argv[1], nullptr, 10) : 10000;
    Judge judge(argc > 3 ? argv[3] : nullptr);
    Vcache cache;
    cache.bug = static_cast<uint8_t>(argc > 2 ? strtoul(argv[2], nullptr, 10) : 0);
    auto tick = [&] {
        cache.clk = 1;
        cache.eval();
        cache.clk = 0;
        cache.eval();
    };
    cache.rst = 1;
    tick();
    cache.rst = 0;

    uint64_t loads = 0, stores = 0, values = 0, refused = 0, cycle = 0;
    for (; cycle < cycles + LAST_CYCLES && !judge.found; cycle++) {
        if (!cache.req_valid && cycle < cycles && random_bits() % 4) {
            cache.req_valid = 1;
            cache.req_we = random_bits() % 2;
            cache.req_addr = random_bits() % WORDS;
            cache.req_mask = 1 + random_bits() % 15;
            cache.req_data = random_bits();
            cache.req_tag = uint8_t(loads);
        }
        cache.eval();
        bool accepted = cache.req_valid && cache.req_ready;
        if (cache.req_valid) {
            if (cache.req_we) judge.store(cycle, cache.req_addr, cache.req_mask, cache.req_data, accepted);
            else judge.load(cycle, cache.req_tag, cache.req_addr, accepted);
            refused += !accepted;
        }
        tick();
        if (accepted) {
            (cache.req_we ? stores : loads)++;
            cache.req_valid = 0;
        }
        if (cache.resp_valid && !judge.found) {
            values++;
            judge.value(cycle, cache.resp_tag, cache.resp_data);
        }
    }
    if (!judge.found) judge.end();
    printf("%" PRIu64 " cycles, %" PRIu64 " steps: %" PRIu64 " loads, %" PRIu64 " stores, %" PRIu64 " values, %" PRIu64 " refused\n", cycle,
           judge.steps, loads, stores, values, refused);
    return judge.found ? 1 : 0;
}
