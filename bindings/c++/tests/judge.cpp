// The judge of kroft.hpp: its verdicts one by one, and over a cache that is right or has a bug.
//
// The status is 0 only if all is as it should be. ACCESSES may be defined: how many each seed gives the right cache.
#include "../kroft.hpp"
#include "traffic.hpp"

#include <cstdio>
#include <ctime>
#include <stdexcept>
#include <sys/resource.h>

#ifndef ACCESSES
#define ACCESSES 500000
#endif

namespace {

using kroft::Reason;

int failures = 0;

void expect(bool holds, const char *what, int line) {
    if (holds) return;
    failures++;
    printf("line %d: %s\n", line, what);
}
#define EXPECT(condition) expect(condition, #condition, __LINE__)

void one_word() {
    kroft::FlatJudge judge;
    const uint8_t stored[4] = {1, 2, 3, 4}, zeros[4] = {}, second[4] = {0, 2, 0, 0};
    EXPECT(bool(judge.load(7, 0x1000, 4)));
    EXPECT(bool(judge.store(7, 0x1000, 4, stored, 0b0010)));
    EXPECT(bool(judge.load(8, 0x1000, 4)));
    EXPECT(judge.unanswered_count() == 3 && judge.unanswered()[1].kind == kroft::Kind::Store);
    EXPECT(bool(judge.value(8, second)));
    kroft::Verdict wrong = judge.value(7, second);
    EXPECT(wrong.reason == Reason::WrongData);
    EXPECT(wrong.text() == "load 7 of 4 bytes at 0x1000: wrong data: owed 00000000, got 00020000");
    EXPECT(wrong.access.call == 1 && wrong.call == 5);
    EXPECT(judge.value(7, zeros).reason == Reason::NothingOwed);
    EXPECT(bool(judge.stored(7)));
    EXPECT(judge.stored(7).reason == Reason::NothingOwed);
    EXPECT(judge.unanswered().empty() && judge.byte_at(0x1001) == 2);
}

void refusals() {
    kroft::FlatJudge judge({0x100, 0x1ff});
    const uint8_t bytes[64] = {};
    EXPECT(judge.load(1, 0x100, 0).reason == Reason::BadSize);
    EXPECT(judge.load(1, 0x100, 65).reason == Reason::BadSize);
    EXPECT(judge.load(1, 0xff, 1).reason == Reason::OutOfRange);
    EXPECT(judge.load(1, 0x1ff, 2).reason == Reason::OutOfRange);
    EXPECT(judge.post(1, 0x200, 1, bytes).reason == Reason::OutOfRange);
    EXPECT(judge.store(1, 0x100, 4, bytes, 0xf0).reason == Reason::NoBytes);
    EXPECT(bool(judge.load(1, 0x1ff, 1)));
    EXPECT(judge.load(1, 0x100, 1).reason == Reason::IdInUse);
    EXPECT(bool(judge.store(1, 0x1c0, 64, bytes)));
    EXPECT(judge.store(1, 0x100, 1, bytes).reason == Reason::IdInUse);
    EXPECT(judge.failed_store(1).reason == Reason::Failed);
    EXPECT(judge.unknown_value(1).reason == Reason::UnknownData);
    EXPECT(judge.failed_load(1).reason == Reason::NothingOwed);
    EXPECT(bool(judge.load(1, 0x100, 1)) && bool(judge.failed_load(1)));
    EXPECT(judge.unanswered_count() == 0);
}

// The last bytes of 64-bit addresses, and what an image puts there.
template <class Failure, class Call> bool throws(Call call) {
    try {
        call();
    } catch (const Failure &) {
        return true;
    }
    return false;
}

// An image that throws: the page is there when it is asked again, and neither a load nor a store was told by halves.
void image_that_throws() {
    bool is_there = false;
    kroft::FlatJudge judge({}, [&](uint64_t address, uint8_t *bytes) {
        if (address != 0 && !is_there) throw std::runtime_error("not there yet");
        std::fill_n(bytes, kroft::PAGE_BYTES, uint8_t(0xab));
    });
    const uint8_t before[4] = {0xab, 0xab, 0xab, 0xab}, after[4] = {1, 2, 3, 4};
    for (int n = 0; n < 3; n++) {
        EXPECT(throws<std::runtime_error>([&] { (void)judge.load(1, kroft::PAGE_BYTES - 2, 4); }));
        EXPECT(throws<std::runtime_error>([&] { (void)judge.store(1, kroft::PAGE_BYTES - 2, 4, after); }));
        EXPECT(throws<std::runtime_error>([&] { (void)judge.post(1, kroft::PAGE_BYTES - 2, 4, after); }));
    }
    EXPECT(judge.unanswered_count() == 0 && judge.steps() == 0 && judge.byte_at(kroft::PAGE_BYTES - 2) == 0xab);
    is_there = true;
    EXPECT(judge.byte_at(kroft::PAGE_BYTES) == 0xab);
    EXPECT(bool(judge.load(1, kroft::PAGE_BYTES - 2, 4)) && bool(judge.store(1, kroft::PAGE_BYTES - 2, 4, after)));
    EXPECT(bool(judge.value(1, before)) && bool(judge.stored(1)));
    EXPECT(judge.byte_at(kroft::PAGE_BYTES) == 3);
}

// One that was moved from says so, also once the other is gone; what it had is the other's.
void moves() {
    const uint8_t stored[4] = {1, 2, 3, 4};
    kroft::FlatJudge judge;
    EXPECT(bool(judge.store(1, 0x1000, 4, stored)) && bool(judge.load(2, 0x1000, 4)));
    {
        kroft::FlatJudge moved = std::move(judge);
        EXPECT(moved.unanswered_count() == 2 && bool(moved.value(2, stored)));
        kroft::FlatJudge assigned;
        EXPECT(bool(assigned.load(3, 0x1000, 4)));
        assigned = std::move(moved);
        EXPECT(assigned.unanswered_count() == 1 && assigned.byte_at(0x1001) == 2 && bool(assigned.stored(1)));
        EXPECT(throws<std::logic_error>([&] { (void)moved.stored(1); }));
    }
    EXPECT(throws<std::logic_error>([&] { (void)judge.byte_at(0x1000); }));
    EXPECT(throws<std::logic_error>([&] { (void)judge.load(2, 0x1000, 4); }));
    EXPECT(throws<std::logic_error>([&] { (void)judge.store(2, 0x1000, 4, stored); }));
    EXPECT(throws<std::logic_error>([&] { (void)judge.value(2, stored); }));
    EXPECT(throws<std::logic_error>([&] { (void)judge.unanswered(); }));
    judge = kroft::FlatJudge();
    EXPECT(judge.byte_at(0x1000) == 0);
}

void ends_of_addresses() {
    kroft::FlatJudge judge({}, [](uint64_t address, uint8_t *bytes) {
        for (size_t i = 0; i < kroft::PAGE_BYTES; i++) bytes[i] = uint8_t((address >> 12) + i);
    });
    uint8_t bytes[64];
    for (unsigned i = 0; i < 64; i++) bytes[i] = uint8_t(0xff + 0xfc0 + i);
    EXPECT(bool(judge.load(1, ~uint64_t{0} - 63, 64)) && bool(judge.value(1, bytes)));
    EXPECT(judge.load(2, ~uint64_t{0} - 62, 64).reason == Reason::OutOfRange);
    for (unsigned i = 0; i < 64; i++) bytes[i] = uint8_t(i < 32 ? 5 + 0xfe0 + i : 6 + i - 32);
    EXPECT(bool(judge.load(3, 0x5fe0, 64)) && bool(judge.value(3, bytes)));
    EXPECT(judge.byte_at(0) == 0 && judge.byte_at(0x7001) == 8 && judge.byte_at(1) == 1 && judge.byte_at(0x7000) == 7);
}

// Each size, at each place in a word, with each of a few enables: the bytes that are stored are loaded again,
// and no other; and each single wrong byte is seen if it is enabled, and only then.
void sizes_and_places() {
    std::mt19937_64 random(1);
    for (unsigned size = 1; size <= 64; size++)
        for (unsigned place = 0; place < 5; place++) {
            kroft::FlatJudge judge;
            uint64_t enables = random() | 1, address = 0x2000 - 32 + place;
            uint8_t data[64], wanted[64];
            for (unsigned i = 0; i < 64; i++) {
                data[i] = uint8_t(1 + random() % 255);
                wanted[i] = enables >> i & 1 ? data[i] : 0;
            }
            EXPECT(bool(judge.store(1, address, size, data, enables)));
            EXPECT(bool(judge.load(1, address, size)) && bool(judge.value(1, wanted)));
            EXPECT(judge.byte_at(address - 1) == 0 && judge.byte_at(address + size) == 0);
            for (unsigned i = 0; i < size; i++) {
                EXPECT(bool(judge.load(2, address, size, enables)));
                wanted[i] ^= 0x10;
                bool seen = judge.value(2, wanted).reason == Reason::WrongData;
                wanted[i] ^= 0x10;
                EXPECT(seen == bool(enables >> i & 1));
            }
        }
}

// More words owed at once than one table of the library has tags.
void many_owed() {
    kroft::FlatJudge judge;
    uint8_t zeros[64] = {};
    const unsigned loads = 9000; // of 16 words: 144,000
    for (unsigned i = 0; i < loads; i++) {
        uint8_t stored[2] = {uint8_t(i), uint8_t(i >> 8)};
        EXPECT(bool(judge.post(i, 0x40, 2, stored)));
        EXPECT(bool(judge.load(i, 0x40, 64)));
    }
    EXPECT(judge.unanswered_count() == loads);
    for (unsigned i = loads; i-- > 0;) {
        zeros[0] = uint8_t(i);
        zeros[1] = uint8_t(i >> 8);
        EXPECT(bool(judge.value(i, zeros)));
    }
}

// A judge that is asked for long takes no more memory: 2,400,000 words, of which each would leave 8 bytes.
void memory_stays() {
    kroft::FlatJudge judge;
    const uint8_t zeros[64] = {};
    rusage before{}, after{};
    getrusage(RUSAGE_SELF, &before);
    for (unsigned i = 0; i < 150000; i++) EXPECT(bool(judge.load(i, 0x40, 64)) && bool(judge.value(i, zeros)));
    getrusage(RUSAGE_SELF, &after);
    EXPECT(after.ru_maxrss - before.ru_maxrss < 10000); // KiB
}

struct Run {
    uint64_t wrong = 0, lost = 0, accesses = 0;
    bool is_of_value = false; // whether it is the value that is wrong
    std::string first;
};

// So many accesses through a cache, or up to the first that is wrong.
Run run(replay::Cache &cache, uint64_t accesses, replay::Traffic traffic) {
    kroft::FlatJudge judge;
    Run run;
    auto told = [&](const kroft::Verdict &verdict) {
        if (verdict || run.wrong++ > 0) return;
        run.first = verdict.text();
        run.is_of_value = verdict.reason == Reason::WrongData;
    };
    replay::Request request = traffic.next();
    for (unsigned idle = 0; idle < 100 && run.wrong == 0; idle++) {
        if (run.accesses < accesses && cache.accept(request)) {
            const replay::Request &r = request;
            told(r.is_store ? judge.store(r.id, r.address, r.size, r.data.data(), r.enables)
                            : judge.load(r.id, r.address, r.size, r.enables));
            run.accesses++;
            request = traffic.next();
            idle = 0;
        }
        if (auto answer = cache.tick()) {
            told(answer->is_store ? judge.stored(answer->id) : judge.value(answer->id, answer->data.data()));
            idle = 0;
        }
    }
    if (run.wrong == 0) run.lost = judge.unanswered_count();
    return run;
}

void right_cache() {
    clock_t begun = clock();
    for (uint64_t seed : {1, 2, 3}) {
        replay::Cache cache;
        Run right = run(cache, ACCESSES, replay::Traffic(seed));
        EXPECT(right.accesses == ACCESSES && right.wrong == 0 && right.lost == 0);
        EXPECT(cache.hits_under_miss > ACCESSES / 100 && cache.secondary_misses > ACCESSES / 100);
        EXPECT(cache.refilled_from_write_backs > ACCESSES / 500 && cache.split > ACCESSES / 100);
        if (right.wrong) printf("blamed: %s\n", right.first.c_str());
    }
    double seconds = double(clock() - begun) / CLOCKS_PER_SEC;
    printf("%d accesses of a right cache in %.1f s of processor time\n", 3 * ACCESSES, seconds);
    EXPECT(seconds < 3.0 * ACCESSES * 60 / 1000000); // a million a minute
}

void found(const char *name, replay::Bug bug, const char *reason) {
    for (uint64_t seed : {1, 2, 3}) {
        replay::Cache cache(bug);
        Run bad = run(cache, 100000, replay::Traffic(seed));
        EXPECT(bad.wrong + bad.lost > 0 && bad.first.find(reason) != std::string::npos);
        const char *what = bad.wrong ? bad.first.c_str() : "lost answers";
        if (seed == 1) printf("%s: after %llu accesses: %s\n", name, (unsigned long long)bad.accesses, what);
    }
}

// The plan that docs/C.md names: one word of three blocks a set. It finds each of the fourteen bugs, two of them not by a value.
// Of one block a set, which stays in its frame, five are never found.
void few_words() {
    const kroft_traffic_plan few = {replay::Traffic::BASE, 24, 64, 16, 8, 128, 2, 4, 0, 128, 96, 1, 3};
    kroft_traffic_plan no_evictions = few;
    no_evictions.blocks = 8;
    no_evictions.blocks_of_set = 1;
    unsigned by_value = 0, without_evictions = 0;
    for (unsigned bug = 0; bug <= unsigned(replay::Bug::NoForwarding); bug++) {
        unsigned found = 0, of_values = 0, found_without = 0;
        for (uint64_t seed : {1, 2, 3}) {
            replay::Cache cache{replay::Bug(bug)}, same{replay::Bug(bug)};
            Run bad = run(cache, 20000, replay::Traffic(seed, few)), less = run(same, 20000, replay::Traffic(seed, no_evictions));
            found += bad.wrong + bad.lost > 0;
            of_values += bad.is_of_value;
            found_without += less.wrong + less.lost > 0;
        }
        EXPECT(found == (bug == unsigned(replay::Bug::None) ? 0 : 3));
        by_value += of_values > 0;
        without_evictions += found_without > 0;
    }
    EXPECT(by_value == 12 && without_evictions == 9);
}

} // namespace

int main() {
    one_word();
    refusals();
    image_that_throws();
    moves();
    ends_of_addresses();
    sizes_and_places();
    memory_stays();
    many_owed();
    right_cache();
    found("stores first", replay::Bug::StoresFirst, "wrong data");
    found("whole words", replay::Bug::WholeWords, "wrong data");
    found("stale refill", replay::Bug::StaleRefill, "wrong data");
    found("twice answered", replay::Bug::TwiceAnswered, "nobody waits for");
    found("lost answer", replay::Bug::LostAnswer, "");
    few_words();
    printf(failures ? "%d wrong\n" : "all right\n", failures);
    return failures != 0;
}
