/* The histories of kroft_dpi.h: what the laws say of small ones, with reasons and moments, and random calls of which some
   are wrong. The status is 0 only if each is judged as it has to be. */
#include "kroft.h"
#include "kroft_dpi.h"
#include "random_bits.h"

#include <stdio.h>
#include <string.h>

#define FAR 0xffffffffffffff00ULL /* addresses and ids that need 64 bits */

static int wrong;
static void *history;

static void expect(int line, int holds) {
    if (holds) return;
    if (wrong++ < 10) printf("line %d isn't so: %s\n", line, history ? kroft_sv_text(history) : "");
}
#define EXPECT(holds) expect(__LINE__, holds)

static void begin(unsigned law, unsigned unit) {
    kroft_sv_history_close(history);
    history = kroft_sv_history_open(law, unit, KROFT_ZEROS);
}

/* The data whose bytes are these, the first of the lowest address. */
static const kroft_four_states *data_of(const uint8_t *bytes, int size) {
    static kroft_four_states data[16];
    int i;
    memset(data, 0, sizeof data);
    for (i = 0; i < size; i++) data[i / 4].bits |= (uint32_t)bytes[i] << i % 4 * 8;
    return data;
}

static int store(uint64_t id, uint64_t address, uint8_t byte, uint64_t now) {
    return kroft_sv_store_request(history, id, address, 1, data_of(&byte, 1), 1, now);
}

static int stored(uint64_t id) { return kroft_sv_store_response(history, id); }

static int load(uint64_t id, uint64_t address, uint64_t now) { return kroft_sv_load_request(history, id, address, 1, ~0ULL, now); }

static int value(uint64_t id, uint8_t byte) { return kroft_sv_load_response(history, id, data_of(&byte, 1)); }

static int says(const char *text) { return !strcmp(kroft_sv_text(history), text); }

static int has_bits(const uint32_t *set, const uint8_t *bytes, int count) {
    int i, members = 0, all = 1;
    for (i = 0; i < 256; i++) members += set[i / 32] >> i % 32 & 1;
    for (i = 0; i < count; i++) all = all && (set[bytes[i] / 32] >> bytes[i] % 32 & 1);
    return all && members == count;
}

/* Two stores at once, and a third behind both: a load that is requested before that is answered may see each of the
   three, and one that is requested after it sees it alone. */
static void windows(void) {
    const uint8_t three[3] = {0x11, 0x22, 0x33};
    uint32_t set[8];
    begin(KROFT_REGULAR_LAW, 0);
    EXPECT(store(FAR + 1, FAR, 0x11, 1) == KROFT_SV_RIGHT && store(FAR + 2, FAR, 0x22, 2) == KROFT_SV_RIGHT);
    EXPECT(stored(FAR + 1) == KROFT_SV_RIGHT && stored(FAR + 2) == KROFT_SV_RIGHT);
    EXPECT(load(1, FAR, 3) == KROFT_SV_RIGHT && store(FAR + 3, FAR, 0x33, 4) == KROFT_SV_RIGHT);
    EXPECT(kroft_sv_may_return(history, 1, FAR, set) == 1 && has_bits(set, three, 3));
    EXPECT(kroft_sv_may_return(history, 1, FAR + 1, set) == 0 && has_bits(set, NULL, 0));
    EXPECT(kroft_sv_may_return(history, 2, FAR, set) == 0);
    EXPECT(stored(FAR + 3) == KROFT_SV_RIGHT && load(2, FAR, 5) == KROFT_SV_RIGHT);
    EXPECT(kroft_sv_may_return(history, 2, FAR, set) == 1 && has_bits(set, three + 2, 1));
    EXPECT(value(1, 0x11) == KROFT_SV_RIGHT && value(2, 0x33) == KROFT_SV_RIGHT && value(2, 0x33) == KROFT_SV_NOTHING_OWED);
    EXPECT(says("load 2: an answer that nobody waits for"));
}

static void expect_why(int line, int reason, int place, uint64_t stored_id, uint64_t stored_at, uint64_t by, uint64_t at) {
    int found_place;
    unsigned long long a, b, c, d;
    int found = kroft_sv_why(history, &found_place, &a, &b, &c, &d);
    expect(line, found == reason && found_place == place && a == stored_id && b == stored_at && c == by && d == at);
}

/* A wrong byte is told with its stores, and its load has its answer then. */
static void reasons(void) {
    uint8_t two[2] = {0, 0x5a};
    begin(KROFT_REGULAR_LAW, 0);
    expect_why(__LINE__, KROFT_REASON_NONE, -1, 0, 0, 0, 0);
    EXPECT(store(21, 0x101, 0x5a, 10) == KROFT_SV_RIGHT && stored(21) == KROFT_SV_RIGHT);
    EXPECT(store(22, 0x101, 0x11, 12) == KROFT_SV_RIGHT && stored(22) == KROFT_SV_RIGHT);
    EXPECT(kroft_sv_load_request(history, 7, 0x100, 2, ~0ULL, 15) == KROFT_SV_RIGHT);
    EXPECT(kroft_sv_load_response(history, 7, data_of(two, 2)) == KROFT_SV_WRONG_DATA);
    EXPECT(says("load 7 of 2 bytes at 0x100, requested at 15: wrong data: got 005a: byte 1 is 5a, and may be 11; store 21 (of 10) put it "
                "there, and store 22 (of 12) overwrote it"));
    expect_why(__LINE__, KROFT_REASON_STORE_OVERWRITTEN, 1, 21, 10, 22, 12);
    EXPECT(kroft_sv_open_count(history) == 0 && load(7, 0x101, 0) == KROFT_SV_RIGHT && value(7, 0) == KROFT_SV_WRONG_DATA);
    EXPECT(says("load 7 of 1 bytes at 0x101: wrong data: got 00: byte 0 is 00, and may be 11; memory had it first, and store 22 (of 12) "
                "overwrote it"));
    expect_why(__LINE__, KROFT_REASON_FIRST_OVERWRITTEN, 0, 0, 0, 22, 12);
    EXPECT(load(7, 0x101, 0) == KROFT_SV_RIGHT && value(7, 0x77) == KROFT_SV_WRONG_DATA);
    EXPECT(says("load 7 of 1 bytes at 0x101: wrong data: got 77: byte 0 is 77, and may be 11; no store put it there"));
    expect_why(__LINE__, KROFT_REASON_NEVER_THERE, 0, 0, 0, 0, 0);
    EXPECT(load(7, 0x101, 0) == KROFT_SV_RIGHT && value(7, 0x11) == KROFT_SV_RIGHT);
    expect_why(__LINE__, KROFT_REASON_NEVER_THERE, 0, 0, 0, 0, 0); /* of the last that was wrong */
}

/* What a load is answered of a byte that it doesn't enable isn't judged, and may have X or Z. */
static void enables(void) {
    uint8_t two[2] = {0x99, 0x22};
    kroft_four_states data[16];
    uint32_t law;
    for (law = KROFT_REGULAR_LAW; law <= KROFT_ATOMIC_LAW; law++) {
        begin(law, 0);
        EXPECT(store(1, 0x101, 0x22, 0) == KROFT_SV_RIGHT && stored(1) == KROFT_SV_RIGHT);
        EXPECT(kroft_sv_load_request(history, 5, 0x100, 2, 4, 0) == KROFT_SV_NO_BYTES);
        EXPECT(kroft_sv_load_request(history, 5, 0x100, 2, 2, 0) == KROFT_SV_RIGHT);
        EXPECT(kroft_sv_load_request(history, 5, 0x100, 2, 0, 0) == KROFT_SV_NO_BYTES);
        memcpy(data, data_of(two, 2), sizeof data);
        data[0].unknown |= 0xff;
        EXPECT(kroft_sv_load_response(history, 5, data) == KROFT_SV_RIGHT);
        EXPECT(kroft_sv_load_request(history, 6, 0x100, 2, 2, 0) == KROFT_SV_RIGHT);
        data[0].unknown = 0xff00;
        EXPECT(kroft_sv_load_response(history, 6, data) == KROFT_SV_UNKNOWN_DATA);
    }
}

static void refusals(void) {
    const kroft_four_states *none = data_of(NULL, 0);
    begin(KROFT_REGULAR_LAW, 0);
    EXPECT(kroft_sv_load_request(history, 1, 0, 0, ~0ULL, 0) == KROFT_SV_BAD_SIZE && kroft_sv_load_request(history, 1, 0, 65, ~0ULL, 0) == KROFT_SV_BAD_SIZE);
    EXPECT(kroft_sv_load_request(history, 1, ~0ULL, 2, ~0ULL, 0) == KROFT_SV_OUTSIDE && load(1, ~0ULL, 0) == KROFT_SV_RIGHT);
    EXPECT(load(1, 0, 0) == KROFT_SV_ID_IN_USE && store(1, 0, 1, 0) == KROFT_SV_RIGHT && store(1, 0, 1, 0) == KROFT_SV_ID_IN_USE);
    EXPECT(kroft_sv_store_request(history, 2, 0, 4, none, 0xf0, 0) == KROFT_SV_NO_BYTES);
    EXPECT(stored(2) == KROFT_SV_NOTHING_OWED && value(2, 0) == KROFT_SV_NOTHING_OWED && kroft_sv_load_error(history, 2) == KROFT_SV_NOTHING_OWED);
    EXPECT(kroft_sv_forget(history, 0) == 0 && kroft_sv_open_count(history) == 2);
    EXPECT(!kroft_sv_history_open(3, 0, 0) && !kroft_sv_history_open(KROFT_ATOMIC_LAW, 3, 0) && !kroft_sv_history_open(KROFT_FLAT_LAW, 8, 0));
    EXPECT(!kroft_sv_history_open(KROFT_REGULAR_LAW, 1, 2));
}

/* X and Z, and operations that are answered with an error: each has its answer then, and the next is judged. */
static void unknown_and_failed(void) {
    const unsigned laws[3] = {KROFT_REGULAR_LAW, KROFT_FLAT_LAW, KROFT_ATOMIC_LAW};
    const uint8_t bytes[2] = {0x5a, 0x5b};
    kroft_four_states data[16];
    int i;
    for (i = 0; i < 3; i++) {
        begin(laws[i], 0);
        memcpy(data, data_of(bytes, 2), sizeof data);
        data[0].unknown = 0x0100; /* of byte 1 */
        EXPECT(kroft_sv_store_request(history, 1, 0x20, 2, data, 1, 0) == KROFT_SV_RIGHT && stored(1) == KROFT_SV_RIGHT);
        EXPECT(kroft_sv_store_request(history, 1, 0x30, 2, data, 3, 0) == KROFT_SV_UNKNOWN_DATA && stored(1) == KROFT_SV_RIGHT);
        EXPECT(load(1, 0x20, 0) == KROFT_SV_RIGHT && kroft_sv_load_response(history, 1, data) == KROFT_SV_RIGHT);
        EXPECT(kroft_sv_load_request(history, 1, 0x20, 2, ~0ULL, 4) == KROFT_SV_RIGHT);
        EXPECT(kroft_sv_load_response(history, 1, data) == KROFT_SV_UNKNOWN_DATA);
        EXPECT(says("load 1 of 2 bytes at 0x20, requested at 4: X or Z in the data") && kroft_sv_open_count(history) == 0);
        EXPECT(load(1, 0x20, 0) == KROFT_SV_RIGHT && kroft_sv_load_error(history, 1) == KROFT_SV_RIGHT);
        EXPECT(store(1, 0x20, 0x77, 0) == KROFT_SV_RIGHT && kroft_sv_store_error(history, 1) == KROFT_SV_FAILED);
        EXPECT(kroft_sv_open_count(history) == 0 && load(1, 0x20, 0) == KROFT_SV_RIGHT && value(1, 0x5a) == KROFT_SV_WRONG_DATA);
        EXPECT(load(1, 0x20, 0) == KROFT_SV_RIGHT && value(1, 0x77) == KROFT_SV_RIGHT);
    }
}

static void images(void) {
    const uint8_t first[3] = {1, 2, 3}, most[64] = {4}, zero[1] = {0};
    kroft_four_states unknown[16];
    uint32_t set[8];
    int i;
    begin(KROFT_REGULAR_LAW, 0);
    EXPECT(kroft_sv_forget(history, 0) == 0); /* it has no units, and is as it was */
    memcpy(unknown, data_of(most, 64), sizeof unknown);
    unknown[0].unknown = 0x020000; /* of byte 2 */
    EXPECT(kroft_sv_image(history, unknown, 3) == 0 && kroft_sv_image(history, unknown, 64) == 0 && kroft_sv_image(history, unknown, -1) == 0);
    EXPECT(kroft_sv_image(history, unknown, 0) == 1);
    EXPECT(kroft_sv_image(history, data_of(first, 3), 3) == 1 && kroft_sv_image(history, data_of(most, 64), 64) == 1);
    EXPECT(kroft_sv_image(history, data_of(most, 64), 65) == 0 && kroft_sv_load_request(history, 1, 0, 64, ~0ULL, 0) == KROFT_SV_RIGHT);
    EXPECT(kroft_sv_image(history, data_of(first, 3), 3) == 0);
    for (i = 0; i < 4; i++) {
        const uint8_t byte = (uint8_t)(i + 1);
        EXPECT(kroft_sv_may_return(history, 1, (uint64_t)i, set) == 1 && has_bits(set, &byte, 1));
    }
    EXPECT(load(2, 67, 0) == KROFT_SV_RIGHT && kroft_sv_may_return(history, 2, 67, set) == 1 && has_bits(set, zero, 1));
    kroft_sv_history_close(history);
    history = kroft_sv_history_open(KROFT_REGULAR_LAW, 0, KROFT_UNKNOWN);
    EXPECT(kroft_sv_image(history, data_of(first, 3), 3) == 1 && load(1, 2, 0) == KROFT_SV_RIGHT && load(2, 3, 0) == KROFT_SV_RIGHT);
    EXPECT(value(1, 4) == KROFT_SV_WRONG_DATA && kroft_sv_may_return(history, 2, 3, set) == 1);
    for (i = 0; i < 8; i++) EXPECT(set[i] == 0xffffffff);
    EXPECT(value(2, 0x99) == KROFT_SV_RIGHT);
}

/* New then old passes by the regular law alone; a torn unit by no unit of two bytes or more. By the flat law a load is
   owed what stood at its request. */
static void laws(void) {
    const uint8_t ones[2] = {0x11, 0x11}, twos[2] = {0x22, 0x22}, torn[2] = {0x11, 0x22};
    unsigned unit, law;
    for (law = KROFT_REGULAR_LAW; law <= KROFT_ATOMIC_LAW; law++) {
        begin(law, 0);
        EXPECT(store(1, 0x13, 0x5a, 0) == KROFT_SV_RIGHT && load(1, 0x13, 0) == KROFT_SV_RIGHT && value(1, 0x5a) == KROFT_SV_RIGHT);
        EXPECT(load(2, 0x13, 8) == KROFT_SV_RIGHT && value(2, 0) == (law == KROFT_REGULAR_LAW ? KROFT_SV_RIGHT : KROFT_SV_WRONG_DATA));
        if (law == KROFT_ATOMIC_LAW)
            EXPECT(says("load 2 of 1 bytes at 0x13, requested at 8: wrong data: got 00, which stood at no moment in the unit with 0x13: byte 0 is 00"));
        EXPECT(load(2, 0x13, 0) == KROFT_SV_RIGHT && value(2, 0x5a) == KROFT_SV_RIGHT);
    }
    for (unit = 1; unit <= 8; unit *= 2) {
        begin(KROFT_ATOMIC_LAW, unit);
        EXPECT(kroft_sv_store_request(history, 1, 0x20, 2, data_of(ones, 2), 3, 0) == KROFT_SV_RIGHT);
        EXPECT(kroft_sv_store_request(history, 2, 0x20, 2, data_of(twos, 2), 3, 0) == KROFT_SV_RIGHT);
        EXPECT(stored(1) == KROFT_SV_RIGHT && stored(2) == KROFT_SV_RIGHT && kroft_sv_load_request(history, 1, 0x20, 2, ~0ULL, 0) == KROFT_SV_RIGHT);
        EXPECT(kroft_sv_load_response(history, 1, data_of(torn, 2)) == (unit == 1 ? KROFT_SV_RIGHT : KROFT_SV_WRONG_DATA));
    }
}

/* A unit without a verdict: the answer is told again once it is forgotten. */
static void undecided(void) {
    unsigned long long address;
    int k;
    begin(KROFT_ATOMIC_LAW, 0);
    EXPECT(load(7, 0x43, 0) == KROFT_SV_RIGHT);
    for (k = 1; k <= 13; k++) EXPECT(store((uint64_t)k, 0x43, (uint8_t)k, 0) == KROFT_SV_RIGHT);
    EXPECT(kroft_sv_undecided(history, &address) == 0 && address == 0);
    EXPECT(stored(13) == KROFT_SV_UNDECIDED && says("store 13 of 1 bytes at 0x43: undecided: too many ways in one unit, at 0x40"));
    EXPECT(kroft_sv_open_count(history) == 14 && kroft_sv_undecided(history, &address) == 1 && address == 0x40);
    EXPECT(kroft_sv_forget(history, address) == 1 && stored(13) == KROFT_SV_RIGHT && kroft_sv_undecided(history, &address) == 0);
    EXPECT(value(7, 0x99) == KROFT_SV_RIGHT && load(1, 0x48, 0) == KROFT_SV_RIGHT && value(1, 1) == KROFT_SV_WRONG_DATA);
}

/* By the atomic law a load that failed stays open in the library: its unit has no verdict in the end, and others have one;
   once it is forgotten that is over. */
static void a_load_that_failed(void) {
    uint64_t n = 0;
    int reason = KROFT_SV_RIGHT;
    begin(KROFT_ATOMIC_LAW, 0);
    EXPECT(kroft_sv_load_request(history, 1, 0x1000, 8, ~0ULL, 0) == KROFT_SV_RIGHT && kroft_sv_load_error(history, 1) == KROFT_SV_RIGHT);
    for (; n < 70000 && reason == KROFT_SV_RIGHT; n++) {
        const uint8_t bytes[4] = {(uint8_t)n, (uint8_t)(n >> 8), (uint8_t)(n >> 16), 1};
        EXPECT(kroft_sv_store_request(history, n, 0x1000, 4, data_of(bytes, 4), 15, 0) == KROFT_SV_RIGHT);
        reason = stored(n);
    }
    EXPECT(reason == KROFT_SV_UNDECIDED && n > 65000 && kroft_sv_open_count(history) == 1);
    EXPECT(store(1, 0x1008, 1, 0) == KROFT_SV_RIGHT && stored(1) == KROFT_SV_RIGHT && load(1, 0x1008, 0) == KROFT_SV_RIGHT && value(1, 2) == KROFT_SV_WRONG_DATA);
    EXPECT(kroft_sv_forget(history, 0x1000) == 1 && stored(n - 1) == KROFT_SV_RIGHT);
    for (n = 0; n < 70000; n++) EXPECT(store(n, 0x1000, (uint8_t)n, 0) == KROFT_SV_RIGHT && stored(n) == KROFT_SV_RIGHT);
}

/* What is open, in the order of the requests, and how often operations met. */
static void open_operations(void) {
    const uint8_t zeros[4] = {0};
    unsigned long long id, address, now;
    int is_store, size;
    begin(KROFT_REGULAR_LAW, 0);
    EXPECT(kroft_sv_load_request(history, FAR, FAR, 4, ~0ULL, 3) == KROFT_SV_RIGHT);
    EXPECT(kroft_sv_store_request(history, FAR, FAR + 2, 4, data_of(zeros, 4), 0xd, 4) == KROFT_SV_RIGHT); /* its byte 0 is the load's 2 */
    EXPECT(kroft_sv_store_request(history, 1, FAR + 3, 1, data_of(zeros, 1), 1, 5) == KROFT_SV_RIGHT);     /* what the first leaves out */
    EXPECT(kroft_sv_store_request(history, 2, FAR + 5, 1, data_of(zeros, 1), 1, 6) == KROFT_SV_RIGHT);     /* its byte 3 */
    EXPECT(kroft_sv_seen(history, KROFT_SV_LOAD_BESIDE_STORE) == 0 && kroft_sv_seen(history, KROFT_SV_STORES_AT_ONCE) == 1);
    EXPECT(kroft_sv_seen(history, KROFT_SV_PARTIAL_UNDER_LOAD) == 1 && kroft_sv_seen(history, KROFT_SV_OVERTAKEN) == 0);
    EXPECT(stored(1) == KROFT_SV_RIGHT && kroft_sv_seen(history, KROFT_SV_OVERTAKEN) == 1);
    EXPECT(kroft_sv_load_response(history, FAR, data_of(zeros, 4)) == KROFT_SV_RIGHT && kroft_sv_seen(history, KROFT_SV_OVERTAKEN) == 1);
    EXPECT(kroft_sv_seen(history, KROFT_SV_LOAD_BESIDE_STORE) == 1 && kroft_sv_seen(history, KROFT_SV_LOAD_WITH_CHOICE) == 0); /* zeros alone */
    EXPECT(load(9, FAR, 6) == KROFT_SV_RIGHT && store(9, FAR, 1, 6) == KROFT_SV_RIGHT && value(9, 1) == KROFT_SV_RIGHT && stored(9) == KROFT_SV_RIGHT);
    EXPECT(kroft_sv_seen(history, KROFT_SV_LOAD_BESIDE_STORE) == 2 && kroft_sv_seen(history, KROFT_SV_LOAD_WITH_CHOICE) == 1);
    EXPECT(kroft_sv_seen(history, -1) == 0 && kroft_sv_seen(history, KROFT_SV_POINTS) == 0 && kroft_sv_open_count(history) == 2);
    EXPECT(kroft_sv_open_operation(history, 0, &is_store, &id, &address, &size, &now) == 1);
    EXPECT(is_store == 1 && id == FAR && address == FAR + 2 && size == 4 && now == 4);
    EXPECT(kroft_sv_open_operation(history, 1, &is_store, &id, &address, &size, &now) == 1 && id == 2 && now == 6);
    EXPECT(kroft_sv_open_operation(history, 2, &is_store, &id, &address, &size, &now) == 0 && id == 0);
    EXPECT(kroft_sv_open_operation(history, -1, &is_store, &id, &address, &size, &now) == 0);
}

/* An answer of what the load may return, or of something else in one place. */
static void random_answer(uint64_t id, uint64_t address, int size) {
    uint8_t bytes[64];
    uint32_t set[8];
    int i, is_bad = 0, bad = random_bits() % 4 ? -1 : (int)(random_bits() % (uint64_t)size);
    for (i = 0; i < size; i++) {
        uint8_t byte = (uint8_t)random_bits();
        EXPECT(kroft_sv_may_return(history, id, address + (uint64_t)i, set) == 1);
        while ((set[byte / 32] >> byte % 32 & 1) == (i == bad)) byte++;
        bytes[i] = byte;
        is_bad = is_bad || i == bad;
    }
    EXPECT(kroft_sv_load_response(history, id, data_of(bytes, size)) == (is_bad ? KROFT_SV_WRONG_DATA : KROFT_SV_RIGHT));
}

static void random_calls(unsigned law) {
    struct {
        int is_open, size;
        uint64_t address;
    } loads[8] = {{0, 0, 0}};
    int is_open[8] = {0}, n;
    begin(law, 0);
    for (n = 0; n < 8000; n++) {
        unsigned id = (unsigned)(random_bits() % 8);
        int size = 1 + (int)(random_bits() % 64);
        uint64_t address = FAR + random_bits() % 100, bytes[8], enables = random_bits() | 1;
        int i;
        for (i = 0; i < 8; i++) bytes[i] = random_bits() & 0x0303030303030303ULL;
        if (random_bits() % 2) {
            EXPECT(kroft_sv_store_response(history, FAR + id) == (is_open[id] ? KROFT_SV_RIGHT : KROFT_SV_NOTHING_OWED));
            is_open[id] = 0;
            EXPECT(kroft_sv_store_request(history, FAR + id, address, size, data_of((const uint8_t *)bytes, 64), enables, 0) == KROFT_SV_RIGHT);
            is_open[id] = 1;
        } else if (loads[id].is_open) {
            random_answer(FAR + id, loads[id].address, loads[id].size);
            loads[id].is_open = 0;
        } else {
            EXPECT(kroft_sv_load_request(history, FAR + id, address, size, ~0ULL, 0) == KROFT_SV_RIGHT);
            loads[id].is_open = 1;
            loads[id].address = address;
            loads[id].size = size;
        }
    }
}

int main(void) {
    windows();
    reasons();
    enables();
    refusals();
    unknown_and_failed();
    images();
    laws();
    undecided();
    a_load_that_failed();
    open_operations();
    random_calls(KROFT_REGULAR_LAW);
    random_calls(KROFT_FLAT_LAW);
    kroft_sv_history_close(history);
    printf(wrong ? "%d wrong\n" : "all right\n", wrong);
    return wrong != 0;
}
