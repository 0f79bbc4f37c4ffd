/* kroft_traffic_draw and kroft_version. What is expected follows from the first words that the author of PCG publishes for the
   generator of state 42 and stream 54: a15c02b7 7b47f409 ba1d3330 83d2f293 bfa4784b cbed606e. SEED and 54 are mixed to 42. */
#include "check.h"
#include "kroft.h"

#include <stddef.h>
#include <string.h>

#define SEED UINT64_C(0xb59508c0a78fcbc2)

static const kroft_traffic_access none = {7, 7, 7, 7, 7};

/* The word of SplitMix64 at a state, as its author publishes it. */
static uint64_t mix(uint64_t state) {
    state += UINT64_C(0x9e3779b97f4a7c15);
    state = (state ^ state >> 30) * UINT64_C(0xbf58476d1ce4e5b9);
    state = (state ^ state >> 27) * UINT64_C(0x94d049bb133111eb);
    return state ^ state >> 31;
}

/* The block of burst 54 is a15c02b7 modulo the blocks, or those that are used of set 0; 09, the low byte of the next word,
   is its chance. */
static void blocks(void) {
    kroft_traffic_plan plan = {0, 0x100000, 64, 1, 16, 9, 3, 1, 0, 0, 0, 0, 0};
    kroft_traffic_access access;
    uint8_t bytes[64];
    CHECK(mix(0) == UINT64_C(0xe220a8397b1dcdaf) && mix(mix(SEED) ^ 54) == 42);
    CHECK(kroft_traffic_draw(&plan, SEED, 162, &access, bytes, sizeof bytes) == KROFT_OK);
    CHECK(access.address / 64 == 0xc02b7 && access.length == 1 && access.enables == 0 && access.turn == 162);
    CHECK(kroft_traffic_draw(&plan, SEED, 164, &access, bytes, sizeof bytes) == KROFT_OK && access.address / 64 == 0xc02b7);
    plan.blocks_of_set = 10;
    CHECK(kroft_traffic_draw(&plan, SEED, 163, &access, bytes, sizeof bytes) == KROFT_OK && access.address / 64 == 0xc02b7);
    plan.conflicts = 10;
    CHECK(kroft_traffic_draw(&plan, SEED, 163, &access, bytes, sizeof bytes) == KROFT_OK && access.address / 64 == 3 * 16);
    plan.blocks_of_set = 0;
    CHECK(kroft_traffic_draw(&plan, SEED, 163, &access, bytes, sizeof bytes) == KROFT_OK && access.address / 64 == 0x02b7 * 16);
    plan.blocks_of_set = 0x10000;
    CHECK(kroft_traffic_draw(&plan, SEED, 163, &access, bytes, sizeof bytes) == KROFT_OK && access.address / 64 == 0x02b7 * 16);
    plan.blocks_of_set = 0x10001;
    CHECK(kroft_traffic_draw(&plan, SEED, 163, &access, bytes, sizeof bytes) == KROFT_FAIL_NO_PLAN);
}

/* Access 54 under the seed whose bits are those of SEED turned: its place by a15c02b7, its width and its kind by 7b47f409,
   the bytes that it may leave out by 83d2f293ba1d3330, and its bytes are those of the words behind these. */
static void accesses(void) {
    const uint64_t seed = ~SEED;
    const uint8_t written[8] = {0x4b, 0x78, 0xa4, 0xbf, 0x6e, 0x60, 0xed, 0xcb};
    kroft_traffic_plan plan = {0x1000, 1, 64, 16, 1, 0, 1, 10, 0, 3, 253, 4, 1};
    kroft_traffic_access access;
    uint8_t bytes[64], as_was[64];
    memset(bytes, 0xee, sizeof bytes);
    memset(as_was, 0xee, sizeof as_was);
    CHECK(kroft_traffic_draw(&plan, seed, 54, &access, bytes, 16) == KROFT_OK);
    CHECK(access.length == 8 && access.address == 0x1000 + 56 && access.requester == 4 && access.turn == 5);
    CHECK(access.enables == 0xff && memcmp(bytes, written, 8) == 0 && memcmp(bytes + 8, as_was, 56) == 0);
    /* (three words of 16 bytes have six places, and one has two) */
    plan.words = 3;
    CHECK(kroft_traffic_draw(&plan, seed, 54, &access, bytes, 16) == KROFT_OK && access.address == 0x1000 + 24);
    plan.words = 1;
    CHECK(kroft_traffic_draw(&plan, seed, 54, &access, bytes, 16) == KROFT_OK && access.address == 0x1000 + 8);
    plan.words = 5;
    CHECK(kroft_traffic_draw(&plan, seed, 54, &access, bytes, 16) == KROFT_FAIL_NO_PLAN);
    plan.words = 0;
    plan.partial = 254;
    CHECK(kroft_traffic_draw(&plan, seed, 54, &access, bytes, 16) == KROFT_OK && access.enables == 0x30);
    plan.stores = 2;
    memset(bytes, 0xee, sizeof bytes);
    CHECK(kroft_traffic_draw(&plan, seed, 54, &access, bytes, 16) == KROFT_OK && access.enables == 0);
    CHECK(memcmp(bytes, as_was, sizeof bytes) == 0);
    /* (of four bytes all would be left out, so that it is a load) */
    plan.stores = 256;
    plan.widest = 8;
    CHECK(kroft_traffic_draw(&plan, seed, 54, &access, bytes, 16) == KROFT_OK);
    CHECK(access.length == 4 && access.address == 0x1000 + 28 && access.enables == 0 && memcmp(bytes, as_was, 64) == 0);
    plan.requesters = 7;
    CHECK(kroft_traffic_draw(&plan, seed, 54, &access, bytes, 16) == KROFT_OK && access.requester == 5 && access.turn == 7);
    plan.requesters = 10;
    plan.apart = 1;
    CHECK(kroft_traffic_draw(&plan, seed, 54, &access, bytes, 16) == KROFT_OK);
    /* (a15c02b7 modulo the six bytes that each has is 3) */
    CHECK(access.length == 1 && access.address == 0x1000 + 3 * 10 + 4);
    /* (in two words of eight bytes each has one) */
    plan.words = 2;
    CHECK(kroft_traffic_draw(&plan, seed, 54, &access, bytes, 16) == KROFT_OK && access.address == 0x1000 + 4);
    plan.requesters = 17;
    CHECK(kroft_traffic_draw(&plan, seed, 54, &access, bytes, 16) == KROFT_FAIL_NO_PLAN);
}

/* How often two rows of 64 numbers are alike, one of them so many places later. */
static unsigned alike(const uint64_t *one, const uint64_t *other, unsigned later) {
    unsigned n, found = 0;
    for (n = 0; n + later < 64; n++) found += one[n] == other[n + later];
    return found;
}

/* A hundred seeds have a hundred sequences: of 65,536 blocks, and of stores of 8 bytes or more, no two seeds have three in 64
   alike, in place or up to four places later. */
static void seeds(void) {
    static uint64_t blocks_of[100][64], stored[100][64];
    kroft_traffic_plan plan = {0, 0x10000, 64, 64, 1, 0, 1, 1, 0, 256, 0, 0, 0};
    kroft_traffic_access access;
    uint8_t bytes[64];
    unsigned seed, other, n, most = 0;
    for (seed = 0; seed < 100; seed++)
        for (n = 0; n < 64; n++) {
            CHECK(kroft_traffic_draw(&plan, seed, n, &access, bytes, sizeof bytes) == KROFT_OK);
            blocks_of[seed][n] = access.address / 64;
            memcpy(&stored[seed][n], bytes, 8);
        }
    for (seed = 0; seed < 100; seed++)
        for (other = 0; other < 100; other++)
            for (n = 0; n < 5 && seed != other; n++) {
                unsigned found = alike(blocks_of[seed], blocks_of[other], n) + alike(stored[seed], stored[other], n);
                most = found > most ? found : most;
            }
    CHECK(most < 3);
}

/* A plan that says nothing comes before a row that is too short; after both all is as it was. */
static void refusals(void) {
    const kroft_traffic_plan good = {0x40, 4, 64, 8, 2, 0, 1, 2, 0, 256, 0, 8, 2};
    kroft_traffic_plan bad[10];
    kroft_traffic_access access = none;
    uint8_t bytes[8], as_was[8];
    unsigned n;
    memset(bytes, 0xee, sizeof bytes);
    memset(as_was, 0xee, sizeof as_was);
    for (n = 0; n < 10; n++) bad[n] = good;
    bad[0].blocks = 0;
    bad[1].block_bytes = 60;
    bad[2].widest = 5;
    bad[3].sets = 0;
    bad[4].burst = 0;
    bad[5].requesters = 0;
    bad[6].base = 0x41;
    bad[7].base = 0xffffffffffffff40;
    bad[8].words = 9;
    bad[9].blocks_of_set = 3;
    for (n = 0; n < 10; n++) CHECK(kroft_traffic_draw(&bad[n], 1, n, &access, bytes, 7) == KROFT_FAIL_NO_PLAN);
    CHECK(kroft_traffic_draw(&good, 1, 1, &access, bytes, 7) == KROFT_FAIL_NO_ROOM);
    CHECK(memcmp(&access, &none, sizeof none) == 0 && memcmp(bytes, as_was, sizeof bytes) == 0);
    CHECK(kroft_traffic_draw(&good, 1, 1, &access, bytes, 8) == KROFT_OK && access.requester == 1);
    bad[7].base = 0xffffffffffffff00;
    CHECK(kroft_traffic_draw(&bad[7], 1, 1, &access, bytes, 8) == KROFT_OK && access.address >= 0xffffffffffffff00);
    CHECK(sizeof(kroft_traffic_plan) == 56 && offsetof(kroft_traffic_plan, blocks_of_set) == 52 && sizeof(kroft_traffic_access) == 32);
}

static void version(void) {
    char text[KROFT_VERSION_TEXT] = "as it was";
    CHECK(kroft_version(text, 5) == strlen(KROFT_VERSION) && strcmp(text, "as it was") == 0);
    CHECK(kroft_version(text, 6) == strlen(KROFT_VERSION) && strcmp(text, KROFT_VERSION) == 0);
    CHECK(sizeof KROFT_VERSION <= KROFT_VERSION_TEXT);
}

int main(void) {
    blocks();
    accesses();
    seeds();
    refusals();
    version();
    return checks_end("traffic");
}
