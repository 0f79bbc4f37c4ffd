/* Histories by the atomic law of libkroft from C99 and from C++17: what it refuses and the regular law lets pass, the
   sizes of its units, what a load may return, where an answer is wrong, and units without a verdict, which are forgotten. */
#include "check.h"
#include "kroft.h"
#include "words.h"

#include <string.h>

static const uint8_t nothing[1] = {0};

static kroft_history opened(uint32_t law, uint32_t unit, uint32_t rest) {
    kroft_history h = KROFT_NO_HISTORY;
    CHECK(kroft_history_open(&h, law, unit, rest, nothing, 0) == KROFT_OK);
    return h;
}

/* While a store is open one load sees it, and a later load sees what was there before. */
static void new_then_old(uint32_t law, uint32_t unit, uint32_t says) {
    static const uint8_t old[1] = {0}, new_[1] = {0x5a};
    kroft_history h = opened(law, unit, KROFT_ZEROS);
    uint64_t place = 77;
    CHECK(kroft_history_store_request(&h, 1, 3, new_, 1, 1) == KROFT_OK);
    CHECK(kroft_history_load_request(&h, 1, 3, 1, UINT64_MAX) == KROFT_OK && kroft_history_load_response(&h, 1, new_, 1) == KROFT_OK);
    CHECK(kroft_history_load_request(&h, 2, 3, 1, UINT64_MAX) == KROFT_OK);
    CHECK(wrong_place(&h, 2, old, 1, &place) == says && place == (says == KROFT_OK ? 77 : 0));
    CHECK(kroft_history_load_response(&h, 2, old, 1) == says);
    if (says != KROFT_OK) CHECK(kroft_history_load_response(&h, 2, new_, 1) == KROFT_OK);
    CHECK(kroft_history_store_response(&h, 1) == KROFT_OK && kroft_history_close(&h) == KROFT_OK);
}

/* Two stores at once to two bytes, and two loads behind both: one is torn, one saw the first store last. */
static void two_stores(uint32_t law, uint32_t unit, uint32_t other_order, uint32_t torn) {
    static const uint8_t ones[2] = {0x11, 0x11}, twos[2] = {0x22, 0x22}, both[2] = {0x11, 0x22};
    kroft_history h = opened(law, unit, KROFT_ZEROS);
    uint64_t place = 77;
    CHECK(kroft_history_store_request(&h, 1, 4096, ones, 2, 3) == KROFT_OK);
    CHECK(kroft_history_store_request(&h, 2, 4096, twos, 2, 3) == KROFT_OK);
    CHECK(kroft_history_store_response(&h, 1) == KROFT_OK && kroft_history_store_response(&h, 2) == KROFT_OK);
    CHECK(kroft_history_load_request(&h, 7, 4096, 2, UINT64_MAX) == KROFT_OK && kroft_history_load_request(&h, 8, 4096, 2, UINT64_MAX) == KROFT_OK);
    CHECK(wrong_place(&h, 7, both, 2, &place) == torn && place == (torn == KROFT_OK ? 77 : 0));
    CHECK(kroft_history_load_response(&h, 7, both, 2) == torn);
    CHECK(kroft_history_load_response(&h, 8, ones, 2) == other_order);
    CHECK(kroft_history_close(&h) == KROFT_OK);
}

/* A store that was answered before the load's request can't be lost, and each fault of form is found. */
static void faults(uint32_t unit) {
    static const uint8_t bytes[2] = {0x5a, 0};
    kroft_history h = opened(KROFT_ATOMIC_LAW, unit, KROFT_ZEROS);
    CHECK(kroft_history_store_request(&h, 1, 4096, bytes, 1, 1) == KROFT_OK && kroft_history_store_response(&h, 1) == KROFT_OK);
    CHECK(kroft_history_load_request(&h, 1, 4096, 1, UINT64_MAX) == KROFT_OK);
    CHECK(kroft_history_load_response(&h, 1, bytes + 1, 1) == KROFT_FAIL_WRONG_BYTE);
    CHECK(kroft_history_load_request(&h, 1, 0, 1, UINT64_MAX) == KROFT_FAIL_NUMBER_IN_USE && kroft_history_load_request(&h, 2, 0, 0, UINT64_MAX) == KROFT_FAIL_BAD_RANGE);
    CHECK(kroft_history_load_request(&h, 2, 0, 65, UINT64_MAX) == KROFT_FAIL_BAD_RANGE && kroft_history_load_request(&h, 2, UINT64_MAX, 2, UINT64_MAX) == KROFT_FAIL_BAD_RANGE);
    CHECK(kroft_history_store_request(&h, 1, 0, bytes, 1, 2) == KROFT_FAIL_NO_BYTE_ENABLED && kroft_history_store_response(&h, 1) == KROFT_FAIL_NOT_OPEN);
    CHECK(kroft_history_load_response(&h, 2, bytes, 1) == KROFT_FAIL_NOT_OPEN && kroft_history_load_response(&h, 1, bytes, 2) == KROFT_FAIL_WRONG_LENGTH);
    CHECK(kroft_history_load_response(&h, 1, bytes, 1) == KROFT_OK && kroft_history_close(&h) == KROFT_OK);
}

/* A load over three units of eight bytes: the place is the first of its bytes in the lowest unit that is wrong. */
static void places(void) {
    static const uint8_t stored[8] = {1, 2, 3, 4, 5, 6, 7, 8};
    static const uint8_t image[5] = {0, 0, 0, 0, 9};
    uint8_t got[16] = {9};
    kroft_history h = KROFT_NO_HISTORY;
    uint64_t place = 77;
    CHECK(kroft_history_open(&h, KROFT_ATOMIC_LAW, 8, KROFT_ZEROS, image, 5) == KROFT_OK);
    CHECK(kroft_history_store_request(&h, 1, 8, stored, 8, 0xff) == KROFT_OK && kroft_history_store_response(&h, 1) == KROFT_OK);
    CHECK(kroft_history_load_request(&h, 1, 4, 16, UINT64_MAX) == KROFT_OK);
    memcpy(got + 4, stored, 8);
    CHECK(wrong_place(&h, 1, got, 16, &place) == KROFT_OK && place == 77);
    got[15] = 1;
    CHECK(wrong_place(&h, 1, got, 16, &place) == KROFT_FAIL_WRONG_BYTE && place == 12);
    got[11] = 9;
    CHECK(wrong_place(&h, 1, got, 16, &place) == KROFT_FAIL_WRONG_BYTE && place == 4);
    got[0] = 8;
    CHECK(wrong_place(&h, 1, got, 16, &place) == KROFT_FAIL_WRONG_BYTE && place == 0);
    CHECK(wrong_place(&h, 1, got, 15, &place) == KROFT_FAIL_WRONG_LENGTH && place == 0);
    CHECK(kroft_history_load_response(&h, 1, got, 16) == KROFT_FAIL_WRONG_BYTE && kroft_history_close(&h) == KROFT_OK);
}

static int is_set(const uint8_t *row, const uint8_t *bytes, size_t n) {
    uint8_t wanted[KROFT_SET_BYTES] = {0};
    size_t k;
    for (k = 0; k < n; k++) wanted[bytes[k] / 8] |= (uint8_t)(1u << bytes[k] % 8);
    return memcmp(row, wanted, sizeof wanted) == 0;
}

/* A load may return what was there or what an open store writes; once another load has got the new byte, that alone. */
static void sets(void) {
    static const uint8_t bytes[2] = {0, 0x5a};
    uint8_t row[KROFT_SET_BYTES];
    kroft_history h = opened(KROFT_ATOMIC_LAW, 4, KROFT_ZEROS);
    CHECK(kroft_history_store_request(&h, 1, 6, bytes + 1, 1, 1) == KROFT_OK);
    CHECK(kroft_history_load_request(&h, 1, 6, 1, UINT64_MAX) == KROFT_OK && kroft_history_load_request(&h, 2, 6, 1, UINT64_MAX) == KROFT_OK);
    CHECK(kroft_history_may_return(&h, 2, 6, row) == KROFT_OK && is_set(row, bytes, 2));
    CHECK(kroft_history_may_return(&h, 2, 7, row) == KROFT_ABSENT && kroft_history_may_return(&h, 3, 6, row) == KROFT_ABSENT);
    CHECK(kroft_history_load_response(&h, 1, bytes + 1, 1) == KROFT_OK);
    CHECK(kroft_history_may_return(&h, 2, 6, row) == KROFT_OK && is_set(row, bytes, 2)); /* it was open before */
    CHECK(kroft_history_load_request(&h, 3, 6, 1, UINT64_MAX) == KROFT_OK);
    CHECK(kroft_history_may_return(&h, 3, 6, row) == KROFT_OK && is_set(row, bytes + 1, 1));
    CHECK(kroft_history_close(&h) == KROFT_OK);
}

enum { STORES = 13, UNIT = 64 };

/* A load of two bytes that stays open, and thirteen stores to its second byte that are open at once: of each of those that have
   taken effect any may have been the last, which makes 5,544 pairs of six of twelve and one that was the last. */
static void crowd(kroft_history *h) {
    uint8_t byte;
    CHECK(kroft_history_load_request(h, 1, UNIT, 2, UINT64_MAX) == KROFT_OK);
    for (byte = 1; byte <= STORES; byte++) CHECK(kroft_history_store_request(h, byte, UNIT + 1, &byte, 1, 1) == KROFT_OK);
}

/* The answer of a store needs too many pairs. Nothing is told as a fault, the unit is forgotten, and the rest is judged on. */
static void undecided_store(void) {
    static const uint8_t zero[1] = {0}, other[1] = {99};
    uint8_t row[KROFT_SET_BYTES], all[KROFT_SET_BYTES];
    kroft_history h = opened(KROFT_ATOMIC_LAW, 8, KROFT_ZEROS);
    uint64_t address = 77, place = 78, loads, stores;
    memset(all, 0xff, sizeof all);
    CHECK(kroft_history_undecided(&h, &address) == KROFT_ABSENT && address == 77);
    crowd(&h);
    CHECK(kroft_history_load_request(&h, 2, 0, 1, UINT64_MAX) == KROFT_OK && kroft_history_undecided(&h, &address) == KROFT_ABSENT && address == 77);
    CHECK(kroft_history_store_response(&h, STORES) == KROFT_FAIL_UNDECIDED);
    CHECK(kroft_history_undecided(&h, &address) == KROFT_OK && address == UNIT);
    CHECK(count_open(&h, &loads, &stores) == KROFT_OK && loads == 2 && stores == STORES);
    memset(row, 0x33, sizeof row);
    CHECK(kroft_history_may_return(&h, 1, UNIT + 1, row) == KROFT_FAIL_UNDECIDED && row[0] == 0x33 && row[31] == 0x33);
    /* of a load that isn't open, or doesn't ask for the byte, that is told whatever stands at the unit */
    CHECK(kroft_history_may_return(&h, 3, UNIT + 1, row) == KROFT_ABSENT && row[0] == 0x33 && row[31] == 0x33);
    CHECK(kroft_history_may_return(&h, 1, UNIT + 2, row) == KROFT_ABSENT && row[0] == 0x33 && row[31] == 0x33);
    CHECK(kroft_history_may_return(&h, 2, 0, row) == KROFT_OK && is_set(row, zero, 1));
    CHECK(kroft_history_store_response(&h, 99) == KROFT_FAIL_NOT_OPEN);
    CHECK(kroft_history_undecided(&h, &address) == KROFT_OK && address == UNIT);
    CHECK(wrong_place(&h, 2, other, 1, &place) == KROFT_FAIL_WRONG_BYTE && place == 0);
    CHECK(kroft_history_forget(&h, UNIT + 7) == KROFT_OK);
    address = 77;
    CHECK(kroft_history_undecided(&h, &address) == KROFT_ABSENT && address == 77);
    CHECK(kroft_history_store_response(&h, STORES) == KROFT_OK);
    CHECK(kroft_history_may_return(&h, 1, UNIT + 1, row) == KROFT_OK && memcmp(row, all, sizeof row) == 0);
    CHECK(kroft_history_load_response(&h, 2, other, 1) == KROFT_FAIL_WRONG_BYTE && kroft_history_load_response(&h, 2, zero, 1) == KROFT_OK);
    CHECK(kroft_history_close(&h) == KROFT_OK);
}

/* So does the answer of a load with the byte of a store that is open, if all orders are looked at; asked first, and then told.
   An event that is taken ends the note of the unit. */
static void undecided_load(void) {
    static const uint8_t bytes[2] = {0, STORES};
    kroft_history h = opened(KROFT_ATOMIC_LAW, 2, KROFT_ZEROS);
    uint64_t address = 77, place = 78;
    crowd(&h);
    CHECK(wrong_place(&h, 1, bytes, 2, &place) == KROFT_FAIL_UNDECIDED && place == 78);
    CHECK(kroft_history_undecided(&h, &address) == KROFT_ABSENT && address == 77);
    CHECK(kroft_history_load_response(&h, 1, bytes, 2) == KROFT_FAIL_UNDECIDED);
    CHECK(kroft_history_undecided(&h, &address) == KROFT_OK && address == UNIT);
    CHECK(kroft_history_load_request(&h, 2, 0, 1, UINT64_MAX) == KROFT_OK);
    CHECK(kroft_history_undecided(&h, &address) == KROFT_ABSENT && address == UNIT);
    CHECK(kroft_history_close(&h) == KROFT_OK);
}

/* Beyond the image nothing is known, of a byte that no store has covered. */
static void unknown(void) {
    static const uint8_t some[2] = {7, 8}, other[2] = {7, 9};
    kroft_history h = opened(KROFT_ATOMIC_LAW, 2, KROFT_UNKNOWN);
    CHECK(kroft_history_store_request(&h, 1, 0, some, 2, 2) == KROFT_OK && kroft_history_store_response(&h, 1) == KROFT_OK);
    CHECK(kroft_history_load_request(&h, 1, 0, 2, UINT64_MAX) == KROFT_OK && kroft_history_load_response(&h, 1, other, 2) == KROFT_FAIL_WRONG_BYTE);
    CHECK(kroft_history_load_response(&h, 1, some, 2) == KROFT_OK && kroft_history_close(&h) == KROFT_OK);
}

/* Which units there are, and which laws forget one. */
static void handles(void) {
    kroft_history h = KROFT_NO_HISTORY;
    uint64_t address = 77;
    uint32_t unit;
    CHECK(kroft_history_forget(&h, 0) == KROFT_FAIL_CLOSED && kroft_history_undecided(&h, &address) == KROFT_FAIL_CLOSED && address == 77);
    for (unit = 0; unit <= 17; unit++) {
        int is_unit = unit == 1 || unit == 2 || unit == 4 || unit == 8;
        uint32_t said = kroft_history_open(&h, KROFT_ATOMIC_LAW, unit, KROFT_ZEROS, nothing, 0);
        if (is_unit) CHECK(said == KROFT_OK && kroft_history_close(&h) == KROFT_OK);
        if (!is_unit) CHECK(said == KROFT_FAIL_NO_LAW && kroft_history_close(&h) == KROFT_FAIL_CLOSED);
    }
    CHECK(kroft_history_open(&h, KROFT_ATOMIC_LAW, 8, 2, nothing, 0) == KROFT_FAIL_NO_LAW && h.open == 0);
    h = opened(KROFT_REGULAR_LAW, 1, KROFT_ZEROS);
    CHECK(kroft_history_forget(&h, 0) == KROFT_FAIL_NO_UNITS && kroft_history_undecided(&h, &address) == KROFT_ABSENT && kroft_history_close(&h) == KROFT_OK);
    h = opened(KROFT_FLAT_LAW, 1, KROFT_ZEROS);
    CHECK(kroft_history_forget(&h, 0) == KROFT_FAIL_NO_UNITS && kroft_history_undecided(&h, &address) == KROFT_ABSENT && kroft_history_close(&h) == KROFT_OK);
    CHECK(address == 77);
}

int main(void) {
    uint32_t unit;
    new_then_old(KROFT_REGULAR_LAW, 1, KROFT_OK);
    new_then_old(KROFT_FLAT_LAW, 1, KROFT_FAIL_WRONG_BYTE);
    two_stores(KROFT_REGULAR_LAW, 1, KROFT_OK, KROFT_OK);
    two_stores(KROFT_FLAT_LAW, 1, KROFT_FAIL_WRONG_BYTE, KROFT_FAIL_WRONG_BYTE);
    two_stores(KROFT_ATOMIC_LAW, 1, KROFT_FAIL_WRONG_BYTE, KROFT_OK); /* the second bytes were loaded in one order */
    for (unit = 1; unit <= 8; unit *= 2) {
        new_then_old(KROFT_ATOMIC_LAW, unit, KROFT_FAIL_WRONG_BYTE);
        if (unit > 1) two_stores(KROFT_ATOMIC_LAW, unit, KROFT_OK, KROFT_FAIL_WRONG_BYTE);
        faults(unit);
    }
    places();
    sets();
    undecided_store();
    undecided_load();
    unknown();
    handles();
    return checks_end("atomic");
}
