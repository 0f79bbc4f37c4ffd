/* Why a load may not return a byte, from C99 and from C++17: each reason with its stores, by each law, where none is told, and
   each other end. */
#include "check.h"
#include "kroft.h"

#include <string.h>

static const uint8_t image[1] = {0x80};

static kroft_history opened(uint32_t law, uint32_t unit) {
    kroft_history h = KROFT_NO_HISTORY;
    CHECK(kroft_history_open(&h, law, unit, KROFT_ZEROS, image, 1) == KROFT_OK);
    return h;
}

static void store(kroft_history *h, uint64_t number, uint64_t address, uint8_t byte) {
    CHECK(kroft_history_store_request(h, number, address, &byte, 1, 1) == KROFT_OK && kroft_history_store_response(h, number) == KROFT_OK);
}

static int is_reason(const kroft_history_reason *it, uint64_t place, uint64_t stored, uint64_t stored_at, uint64_t by, uint64_t at, uint32_t reason) {
    return it->place == place && it->stored == stored && it->stored_at == stored_at && it->overwritten_by == by &&
           it->overwritten_at == at && it->reason == reason;
}

static kroft_history_reason nothing_yet(void) {
    kroft_history_reason why = {0, 1, 2, 3, 4, 5, 6};
    return why;
}

/* Two stores, one behind the other, and a load of two bytes behind both: what each wrong byte is told for. In a unit of two
   bytes or more the first byte, which is right, is none to be told. */
static void reasons(uint32_t law, uint32_t unit) {
    uint8_t bytes[2] = {0, 0};
    kroft_history h = opened(law, unit);
    kroft_history_reason why = nothing_yet();
    CHECK(kroft_history_load_request(&h, 9, 64, 1, UINT64_MAX) == KROFT_OK); /* event 0 */
    store(&h, 21, 1, 0x5a);                                  /* events 1 and 2 */
    store(&h, 22, 1, 0x11);                                  /* events 3 and 4 */
    CHECK(kroft_history_load_request(&h, 7, 0, 2, UINT64_MAX) == KROFT_OK);
    bytes[0] = 0x80;
    bytes[1] = 0x5a;
    CHECK(kroft_history_why(&h, 7, bytes, 2, &why) == KROFT_FAIL_WRONG_BYTE && is_reason(&why, 1, 21, 1, 22, 3, KROFT_REASON_STORE_OVERWRITTEN));
    bytes[1] = 0;
    CHECK(kroft_history_why(&h, 7, bytes, 2, &why) == KROFT_FAIL_WRONG_BYTE && is_reason(&why, 1, 0, 0, 22, 3, KROFT_REASON_FIRST_OVERWRITTEN));
    bytes[1] = 0x33;
    CHECK(kroft_history_why(&h, 7, bytes, 2, &why) == KROFT_FAIL_WRONG_BYTE && is_reason(&why, 1, 0, 0, 0, 0, KROFT_REASON_NEVER_THERE));
    bytes[0] = 0;
    CHECK(kroft_history_why(&h, 7, bytes, 2, &why) == KROFT_FAIL_WRONG_BYTE && is_reason(&why, 0, 0, 0, 0, 0, KROFT_REASON_NEVER_THERE));
    why = nothing_yet();
    CHECK(kroft_history_why(&h, 7, bytes, 1, &why) == KROFT_FAIL_WRONG_LENGTH && kroft_history_why(&h, 8, bytes, 2, &why) == KROFT_FAIL_NOT_OPEN);
    bytes[0] = 0x80;
    bytes[1] = 0x11;
    CHECK(kroft_history_why(&h, 7, bytes, 2, &why) == KROFT_OK && is_reason(&why, 1, 2, 3, 4, 5, 6));
    CHECK(kroft_history_load_response(&h, 7, bytes, 2) == KROFT_OK && kroft_history_close(&h) == KROFT_OK);
    CHECK(kroft_history_why(&h, 7, bytes, 2, &why) == KROFT_FAIL_CLOSED && is_reason(&why, 1, 2, 3, 4, 5, 6));
}

/* New then old: the regular law allows the byte, so that no store is to blame for it alone. By the atomic law it stood there at
   no moment, and by the flat law nothing is told. */
static void new_then_old(uint32_t law, uint32_t unit, uint32_t reason) {
    static const uint8_t old[1] = {0}, later[1] = {0x5a};
    kroft_history h = opened(law, unit);
    kroft_history_reason why = nothing_yet();
    CHECK(kroft_history_store_request(&h, 1, 3, later, 1, 1) == KROFT_OK);
    CHECK(kroft_history_load_request(&h, 1, 3, 1, UINT64_MAX) == KROFT_OK && kroft_history_load_response(&h, 1, later, 1) == KROFT_OK);
    CHECK(kroft_history_load_request(&h, 2, 3, 1, UINT64_MAX) == KROFT_OK);
    CHECK(kroft_history_why(&h, 2, old, 1, &why) == KROFT_FAIL_WRONG_BYTE && is_reason(&why, 0, 0, 0, 0, 0, reason));
    CHECK(kroft_history_close(&h) == KROFT_OK);
}

/* A word that is torn between two stores, in the second of two units: each byte for itself may be returned. With a byte that was
   overwritten beside them, that byte is told, though it stands behind. */
static void torn_word(uint32_t unit) {
    uint8_t bytes[16], word[8];
    kroft_history h = opened(KROFT_ATOMIC_LAW, unit);
    kroft_history_reason why = nothing_yet();
    memset(word, 0x11, sizeof word);
    CHECK(kroft_history_store_request(&h, 1, unit, word, unit, 255) == KROFT_OK);
    memset(word, 0x22, sizeof word);
    CHECK(kroft_history_store_request(&h, 2, unit, word, unit, 255) == KROFT_OK);
    CHECK(kroft_history_store_response(&h, 1) == KROFT_OK && kroft_history_store_response(&h, 2) == KROFT_OK);
    CHECK(kroft_history_load_request(&h, 1, 0, 2 * unit, UINT64_MAX) == KROFT_OK);
    memset(bytes, 0, sizeof bytes);
    bytes[0] = image[0];
    memset(bytes + unit, 0x11, unit);
    CHECK(kroft_history_why(&h, 1, bytes, 2 * unit, &why) == KROFT_OK);
    bytes[2 * unit - 1] = 0x22;
    CHECK(kroft_history_why(&h, 1, bytes, 2 * unit, &why) == KROFT_FAIL_WRONG_BYTE && is_reason(&why, unit, 0, 0, 0, 0, KROFT_REASON_NOT_TOGETHER) && why.wrong_place == unit);
    bytes[2 * unit - 1] = 0;
    CHECK(kroft_history_why(&h, 1, bytes, 2 * unit, &why) == KROFT_FAIL_WRONG_BYTE);
    CHECK(is_reason(&why, 2 * unit - 1, 0, 0, 2, 1, KROFT_REASON_FIRST_OVERWRITTEN) && why.wrong_place == unit);
    bytes[2 * unit - 1] = 0x11;
    bytes[0] = 0x5a;
    CHECK(kroft_history_why(&h, 1, bytes, 2 * unit, &why) == KROFT_FAIL_WRONG_BYTE && is_reason(&why, 0, 0, 0, 0, 0, KROFT_REASON_NEVER_THERE));
    CHECK(kroft_history_close(&h) == KROFT_OK);
}

/* What is remembered: a store that was overwritten, until 8,192 bytes were stored. */
static void remembered(void) {
    static const uint8_t first[1] = {0x5a};
    kroft_history h = opened(KROFT_REGULAR_LAW, 1);
    kroft_history_reason why = nothing_yet();
    unsigned k;
    store(&h, 1, 0, first[0]);
    store(&h, 2, 0, 0x11);
    CHECK(kroft_history_load_request(&h, 1, 0, 1, UINT64_MAX) == KROFT_OK);
    for (k = 0; k < 8189; k++) store(&h, 3, 8, (uint8_t)k);
    CHECK(kroft_history_why(&h, 1, first, 1, &why) == KROFT_FAIL_WRONG_BYTE && is_reason(&why, 0, 1, 0, 2, 2, KROFT_REASON_STORE_OVERWRITTEN));
    store(&h, 3, 8, 0);
    CHECK(kroft_history_why(&h, 1, first, 1, &why) == KROFT_FAIL_WRONG_BYTE && is_reason(&why, 0, 0, 0, 0, 0, KROFT_REASON_NONE));
    store(&h, 4, 1, 7);
    store(&h, 5, 1, 8);
    CHECK(kroft_history_load_request(&h, 2, 1, 1, UINT64_MAX) == KROFT_OK);
    {
        static const uint8_t seven[1] = {7};
        CHECK(kroft_history_why(&h, 2, seven, 1, &why) == KROFT_FAIL_WRONG_BYTE);
        CHECK(is_reason(&why, 0, 4, 16385, 5, 16387, KROFT_REASON_STORE_OVERWRITTEN));
    }
    CHECK(kroft_history_close(&h) == KROFT_OK);
}

int main(void) {
    reasons(KROFT_REGULAR_LAW, 1);
    reasons(KROFT_FLAT_LAW, 1);
    reasons(KROFT_ATOMIC_LAW, 1);
    reasons(KROFT_ATOMIC_LAW, 2);
    reasons(KROFT_ATOMIC_LAW, 4);
    reasons(KROFT_ATOMIC_LAW, 8);
    new_then_old(KROFT_FLAT_LAW, 1, KROFT_REASON_NONE);
    new_then_old(KROFT_ATOMIC_LAW, 1, KROFT_REASON_NOT_TOGETHER);
    new_then_old(KROFT_ATOMIC_LAW, 8, KROFT_REASON_NOT_TOGETHER);
    torn_word(2);
    torn_word(4);
    torn_word(8);
    remembered();
    return checks_end("reasons");
}
