// Random requests from a seed, of the kind that finds bugs in caches: most go to a few lines that share sets,
// in bursts, so that bytes of one word are loaded and stored by turns. Half of them are the library's traffic, and
// the others may begin at any byte, and run over the end of a line. Of a plan that is given, all are the library's.
#pragma once

#include "../kroft.hpp"
#include "replay_cache.hpp"

#include <random>

namespace replay {

class Traffic {
public:
    static constexpr uint64_t BASE = 0xffff'8000'0000'1000;

    explicit Traffic(uint64_t seed) : random(seed), planned(PLAN, seed) {}
    Traffic(uint64_t seed, const kroft_traffic_plan &plan) : random(seed), planned(plan, seed), is_mixed(false) {}

    Request next() { return ++count / 16 % 2 || !is_mixed ? by_plan() : anywhere(); }

private:
    // (three lines for each of eight sets)
    static constexpr kroft_traffic_plan PLAN = {BASE, 24, 64, 64, 8, 64, 4, 4, 0, 128, 96, 0, 0};
    std::mt19937_64 random;
    kroft::Traffic planned;
    bool is_mixed = true;
    uint64_t near = BASE, count = 0;

    uint64_t id() const { return (uint64_t{0xfeed} << 48) + count; }

    Request by_plan() {
        kroft::TrafficAccess access = planned(count);
        Request request;
        request.is_store = access.kind == kroft::Kind::Store;
        request.id = id();
        request.size = access.size;
        request.address = access.address;
        request.enables = request.is_store ? access.enables : kroft::ALL_BYTES;
        request.data = access.data;
        return request;
    }

    Request anywhere() {
        if (random() % 8 == 0) near = BASE + random() % 24 * 64; // three lines for each set
        Request request;
        request.is_store = random() % 2 == 0;
        request.id = id();
        request.size = random() % 4 ? 1u << random() % 4 : 1 + unsigned(random() % 64);
        request.address = near + random() % 64;
        request.enables = random() % 3 ? ~uint64_t{0} : random();
        if (request.is_store) {
            request.enables |= uint64_t{1} << random() % request.size;
            for (unsigned i = 0; i < request.size; i++) request.data[i] = uint8_t(random());
        }
        return request;
    }
};

} // namespace replay
