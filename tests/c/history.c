/* Histories of libkroft from C99 and from C++17: a table of histories with what each law says of them, what a load may
   return, which operations are open, and every fault. */
#include "check.h"
#include "kroft.h"
#include "words.h"

#include <string.h>

enum { LAWS = 2, STEPS = 16 };

#define LAST 0xffffffffffffffffu

/* An event, and what the regular and the flat law say of it. */
typedef struct {
    char kind; /* L and l: a load is requested, and answered; S and s: a store is; 0: the history is over */
    uint64_t number;
    uint64_t address;
    size_t length;
    uint8_t bytes[4];
    uint64_t enables;
    uint32_t says[LAWS];
} step;

typedef struct {
    const char *name;
    uint32_t rest;
    uint8_t image[2];
    uint32_t loads, stores; /* how many of each are open at the end, under the regular law */
    step steps[STEPS];
} story;

#define LOAD(number, address, length, regular, flat) \
    { 'L', number, address, length, {0}, 0, {regular, flat} }
#define LOADED(number, length, b0, b1, regular, flat) \
    { 'l', number, 0, length, {b0, b1}, 0, {regular, flat} }
#define STORE(number, address, length, b0, b1, enables, regular, flat) \
    { 'S', number, address, length, {b0, b1}, enables, {regular, flat} }
#define STORED(number, regular, flat) \
    { 's', number, 0, 0, {0}, 0, {regular, flat} }
#define OVER \
    { 0, 0, 0, 0, {0}, 0, {0, 0} }

static const story stories[] = {
    {"while a store is open a load may see it, and a later one may not", KROFT_ZEROS, {0, 0}, 0, 1,
     {STORE(1, 4096, 1, 0x5a, 0, 1, 0, 0), LOAD(1, 4096, 1, 0, 0), LOADED(1, 1, 0x5a, 0, 0, 0), LOAD(2, 4096, 1, 0, 0),
      LOADED(2, 1, 0, 0, 0, KROFT_FAIL_WRONG_BYTE), OVER}},
    {"once a store is answered no load sees what was there before", KROFT_ZEROS, {0, 0}, 0, 0,
     {STORE(1, 4096, 1, 0x5a, 0, 1, 0, 0), STORED(1, 0, 0), LOAD(1, 4096, 1, 0, 0),
      LOADED(1, 1, 0, 0, KROFT_FAIL_WRONG_BYTE, KROFT_FAIL_WRONG_BYTE), LOADED(1, 1, 0x5a, 0, 0, 0), OVER}},
    {"two stores at once, in either order, each byte for itself", KROFT_ZEROS, {0, 0}, 0, 0,
     {STORE(1, 4096, 2, 0x11, 0x11, 3, 0, 0), STORE(2, 4096, 2, 0x22, 0x22, 3, 0, 0), STORED(1, 0, 0), STORED(2, 0, 0),
      LOAD(7, 4096, 2, 0, 0), LOADED(7, 2, 0x22, 0, KROFT_FAIL_WRONG_BYTE, KROFT_FAIL_WRONG_BYTE),
      LOADED(7, 2, 0x11, 0x22, 0, KROFT_FAIL_WRONG_BYTE), LOADED(7, 2, 0x22, 0x22, KROFT_FAIL_NOT_OPEN, 0), OVER}},
    {"a store that comes while a load is open", KROFT_ZEROS, {0, 0}, 0, 1,
     {LOAD(1, 4096, 1, 0, 0), STORE(1, 4096, 1, 9, 0, 1, 0, 0), LOADED(1, 1, 9, 0, 0, KROFT_FAIL_WRONG_BYTE),
      LOADED(1, 1, 0, 0, KROFT_FAIL_NOT_OPEN, 0), OVER}},
    {"a store that is answered before another one begins is overwritten", KROFT_ZEROS, {0, 0}, 0, 0,
     {STORE(1, 8, 1, 1, 0, 1, 0, 0), STORED(1, 0, 0), STORE(1, 8, 1, 2, 0, 1, 0, 0), LOAD(5, 8, 1, 0, 0),
      STORED(1, 0, 0), LOADED(5, 1, 3, 0, KROFT_FAIL_WRONG_BYTE, KROFT_FAIL_WRONG_BYTE), LOADED(5, 1, 1, 0, 0, KROFT_FAIL_WRONG_BYTE),
      LOAD(6, 8, 1, 0, 0), LOADED(6, 1, 1, 0, KROFT_FAIL_WRONG_BYTE, KROFT_FAIL_WRONG_BYTE), LOADED(6, 1, 2, 0, 0, 0), OVER}},
    {"bytes that are not enabled stay", KROFT_ZEROS, {7, 8}, 0, 0,
     {STORE(1, 0, 2, 1, 2, 0xfffe, 0, 0), STORED(1, 0, 0), LOAD(1, 0, 2, 0, 0),
      LOADED(1, 2, 1, 2, KROFT_FAIL_WRONG_BYTE, KROFT_FAIL_WRONG_BYTE), LOADED(1, 2, 7, 8, KROFT_FAIL_WRONG_BYTE, KROFT_FAIL_WRONG_BYTE),
      LOADED(1, 2, 7, 2, 0, 0), OVER}},
    {"beyond the image there are zeros", KROFT_ZEROS, {7, 8}, 0, 0,
     {LOAD(1, 1, 2, 0, 0), LOADED(1, 2, 8, 1, KROFT_FAIL_WRONG_BYTE, KROFT_FAIL_WRONG_BYTE), LOADED(1, 2, 8, 0, 0, 0), OVER}},
    {"beyond the image nothing is known", KROFT_UNKNOWN, {7, 8}, 0, 0,
     {LOAD(1, 1, 2, 0, 0), LOADED(1, 2, 9, 1, KROFT_FAIL_WRONG_BYTE, KROFT_FAIL_WRONG_BYTE), LOADED(1, 2, 8, 1, 0, 0),
      LOAD(1, 1, 2, 0, 0), LOADED(1, 2, 8, 2, 0, 0), OVER}},
    {"the ends of memory", KROFT_ZEROS, {0, 0}, 1, 1,
     {LOAD(1, 0, 0, KROFT_FAIL_BAD_RANGE, KROFT_FAIL_BAD_RANGE), LOAD(1, 0, 65, KROFT_FAIL_BAD_RANGE, KROFT_FAIL_BAD_RANGE),
      LOAD(1, LAST, 2, KROFT_FAIL_BAD_RANGE, KROFT_FAIL_BAD_RANGE), LOAD(1, LAST - 63, 64, 0, 0),
      STORE(1, LAST, 0, 0, 0, 1, KROFT_FAIL_BAD_RANGE, KROFT_FAIL_BAD_RANGE),
      STORE(1, LAST, 2, 1, 1, 3, KROFT_FAIL_BAD_RANGE, KROFT_FAIL_BAD_RANGE), STORE(1, LAST, 1, 1, 1, 3, 0, 0), OVER}},
    {"numbers, of loads and of stores", KROFT_ZEROS, {0, 0}, 0, 0,
     {LOADED(1, 1, 0, 0, KROFT_FAIL_NOT_OPEN, KROFT_FAIL_NOT_OPEN), STORED(1, KROFT_FAIL_NOT_OPEN, KROFT_FAIL_NOT_OPEN),
      STORE(1, 0, 1, 5, 0, 2, KROFT_FAIL_NO_BYTE_ENABLED, KROFT_FAIL_NO_BYTE_ENABLED), STORE(1, 0, 1, 5, 0, 1, 0, 0),
      STORE(1, 0, 1, 5, 0, 1, KROFT_FAIL_NUMBER_IN_USE, KROFT_FAIL_NUMBER_IN_USE), LOAD(1, 0, 1, 0, 0),
      LOAD(1, 9, 1, KROFT_FAIL_NUMBER_IN_USE, KROFT_FAIL_NUMBER_IN_USE), STORED(1, 0, 0), STORED(1, KROFT_FAIL_NOT_OPEN, KROFT_FAIL_NOT_OPEN),
      LOADED(1, 2, 5, 0, KROFT_FAIL_WRONG_LENGTH, KROFT_FAIL_WRONG_LENGTH), LOADED(1, 1, 5, 0, 0, 0),
      LOADED(1, 1, 5, 0, KROFT_FAIL_NOT_OPEN, KROFT_FAIL_NOT_OPEN), OVER}},
};

enum { STORIES = sizeof stories / sizeof *stories };

static uint32_t tell(kroft_history *h, const step *it) {
    switch (it->kind) {
        case 'L': return kroft_history_load_request(h, it->number, it->address, it->length, UINT64_MAX);
        case 'l': return kroft_history_load_response(h, it->number, it->bytes, it->length);
        case 'S': return kroft_history_store_request(h, it->number, it->address, it->bytes, it->length, it->enables);
        default: return kroft_history_store_response(h, it->number);
    }
}

static void tell_story(const story *it, uint32_t law) {
    kroft_history h = KROFT_NO_HISTORY;
    uint64_t loads, stores;
    int k;
    CHECK(kroft_history_open(&h, law, 1, it->rest, it->image, 2) == KROFT_OK);
    for (k = 0; it->steps[k].kind; k++) {
        uint32_t said = tell(&h, &it->steps[k]);
        CHECK(said == it->steps[k].says[law]);
        if (said != it->steps[k].says[law]) fprintf(stderr, "  %s: event %d, law %u: %u\n", it->name, k, law, said);
    }
    CHECK(count_open(&h, &loads, &stores) == KROFT_OK);
    if (law == KROFT_REGULAR_LAW) CHECK(loads == it->loads && stores == it->stores);
    CHECK(kroft_history_close(&h) == KROFT_OK && h.open == 0);
}

/* The row of a set has these bytes, and no others. */
static int is_set(const uint8_t *row, const uint8_t *bytes, size_t n) {
    uint8_t wanted[KROFT_SET_BYTES] = {0};
    size_t k;
    for (k = 0; k < n; k++) wanted[bytes[k] / 8] |= (uint8_t)(1u << bytes[k] % 8);
    return memcmp(row, wanted, sizeof wanted) == 0;
}

/* Three stores at once to a byte of an image: what a load that is open may return grows with each. */
static void sets(void) {
    static const uint8_t image[2] = {0x80, 0xff};
    static const uint8_t bytes[4] = {0x80, 0x00, 0xff, 0x07};
    uint8_t row[KROFT_SET_BYTES], before[KROFT_SET_BYTES];
    kroft_history h = KROFT_NO_HISTORY;
    size_t k;
    memset(row, 0x33, sizeof row);
    memcpy(before, row, sizeof row);
    CHECK(kroft_history_may_return(&h, 1, 0, row) == KROFT_FAIL_CLOSED);
    CHECK(kroft_history_open(&h, KROFT_REGULAR_LAW, 1, KROFT_UNKNOWN, image, 2) == KROFT_OK);
    CHECK(kroft_history_may_return(&h, 1, 0, row) == KROFT_ABSENT);
    CHECK(kroft_history_load_request(&h, 1, 0, 3, UINT64_MAX) == KROFT_OK);
    CHECK(kroft_history_may_return(&h, 1, 3, row) == KROFT_ABSENT);
    CHECK(kroft_history_may_return(&h, 2, 0, row) == KROFT_ABSENT);
    CHECK(memcmp(row, before, sizeof row) == 0);
    for (k = 0; k < 4; k++) {
        CHECK(kroft_history_may_return(&h, 1, 0, row) == KROFT_OK && is_set(row, bytes, k + 1));
        if (k < 3) CHECK(kroft_history_store_request(&h, k, 0, bytes + k + 1, 1, 1) == KROFT_OK);
    }
    CHECK(kroft_history_may_return(&h, 1, 1, row) == KROFT_OK && is_set(row, image + 1, 1));
    CHECK(kroft_history_may_return(&h, 1, 2, row) == KROFT_OK);
    memset(before, 0xff, KROFT_SET_BYTES);
    CHECK(memcmp(row, before, KROFT_SET_BYTES) == 0);
    CHECK(kroft_history_close(&h) == KROFT_OK);
}

/* Which byte of an answer is wrong; nothing is told. */
static void places(void) {
    static const uint8_t bytes[4] = {1, 2, 3, 4};
    kroft_history h = KROFT_NO_HISTORY;
    uint64_t place = 77;
    CHECK(wrong_place(&h, 1, bytes, 4, &place) == KROFT_FAIL_CLOSED && place == 77);
    CHECK(kroft_history_open(&h, KROFT_FLAT_LAW, 1, KROFT_ZEROS, bytes, 2) == KROFT_OK);
    CHECK(wrong_place(&h, 1, bytes, 4, &place) == KROFT_FAIL_NOT_OPEN && place == 77);
    CHECK(kroft_history_load_request(&h, 1, 0, 4, UINT64_MAX) == KROFT_OK);
    CHECK(wrong_place(&h, 1, bytes, 3, &place) == KROFT_FAIL_WRONG_LENGTH && place == 77);
    CHECK(wrong_place(&h, 1, bytes, 4, &place) == KROFT_FAIL_WRONG_BYTE && place == 2);
    CHECK(kroft_history_load_request(&h, 2, 0, 2, UINT64_MAX) == KROFT_OK);
    CHECK(wrong_place(&h, 2, bytes, 2, &place) == KROFT_OK && place == 2);
    CHECK(wrong_place(&h, 2, bytes + 1, 2, &place) == KROFT_FAIL_WRONG_BYTE && place == 0);
    CHECK(kroft_history_load_response(&h, 2, bytes, 2) == KROFT_OK && kroft_history_close(&h) == KROFT_OK);
}

/* What a load is answered of a byte that it doesn't enable isn't judged, by any law. */
static void loads_with_enables(void) {
    static const uint8_t stored[2] = {17, 17}, later[2] = {34, 34}, beside[2] = {99, 34}, wrong[2] = {99, 0};
    uint8_t set[KROFT_SET_BYTES], all[KROFT_SET_BYTES];
    uint32_t law;
    memset(all, 0xff, sizeof all);
    for (law = KROFT_REGULAR_LAW; law <= KROFT_ATOMIC_LAW; law++) {
        kroft_history h = KROFT_NO_HISTORY;
        uint64_t place = 77;
        CHECK(kroft_history_open(&h, law, law == KROFT_ATOMIC_LAW ? 8 : 1, KROFT_ZEROS, NULL, 0) == KROFT_OK);
        CHECK(kroft_history_store_request(&h, 1, 64, stored, 2, 3) == KROFT_OK && kroft_history_store_response(&h, 1) == KROFT_OK);
        CHECK(kroft_history_store_request(&h, 1, 64, later, 2, 3) == KROFT_OK && kroft_history_store_response(&h, 1) == KROFT_OK);
        CHECK(kroft_history_load_request(&h, 1, 64, 0, 0) == KROFT_FAIL_BAD_RANGE);
        CHECK(kroft_history_load_request(&h, 1, 64, 2, 4) == KROFT_FAIL_NO_BYTE_ENABLED);
        CHECK(kroft_history_load_request(&h, 1, 64, 2, 2) == KROFT_OK);
        CHECK(kroft_history_load_request(&h, 1, 64, 2, 0) == KROFT_FAIL_NO_BYTE_ENABLED);
        CHECK(kroft_history_load_request(&h, 1, 64, 2, 1) == KROFT_FAIL_NUMBER_IN_USE);
        CHECK(kroft_history_may_return(&h, 1, 64, set) == KROFT_OK && memcmp(set, all, sizeof set) == 0);
        CHECK(kroft_history_may_return(&h, 1, 65, set) == KROFT_OK && is_set(set, later, 1));
        CHECK(wrong_place(&h, 1, wrong, 2, &place) == KROFT_FAIL_WRONG_BYTE && (law == KROFT_ATOMIC_LAW || place == 1));
        CHECK(kroft_history_load_response(&h, 1, wrong, 2) == KROFT_FAIL_WRONG_BYTE);
        CHECK(kroft_history_load_response(&h, 1, beside, 2) == KROFT_OK && kroft_history_close(&h) == KROFT_OK);
    }
}

static int is_operation(const kroft_history_operation *it, uint64_t number, uint64_t address, uint64_t length) {
    return it->number == number && it->address == address && it->length == length;
}

/* Open operations stand in the order of their requests, and leave it when they are answered. */
static void operations(void) {
    static const uint8_t bytes[4] = {0, 0, 0, 0};
    kroft_history h = KROFT_NO_HISTORY;
    kroft_history_operation it = {5, 6, 7};
    uint64_t loads = 8, stores = 9, count = 10;
    CHECK(count_open(&h, &loads, &stores) == KROFT_FAIL_CLOSED && loads == 8 && stores == 9);
    CHECK(kroft_history_unanswered(&h, KROFT_LOAD, 0, &it, &count) == KROFT_FAIL_CLOSED && is_operation(&it, 5, 6, 7));
    CHECK(kroft_history_unanswered(&h, KROFT_STORE, 0, &it, &count) == KROFT_FAIL_CLOSED && is_operation(&it, 5, 6, 7));
    CHECK(count == 10);
    CHECK(kroft_history_open(&h, KROFT_FLAT_LAW, 1, KROFT_ZEROS, NULL, 0) == KROFT_OK);
    CHECK(kroft_history_load_request(&h, LAST, 16, 4, UINT64_MAX) == KROFT_OK);
    CHECK(kroft_history_load_request(&h, 3, 32, 1, UINT64_MAX) == KROFT_OK);
    CHECK(kroft_history_load_request(&h, 4, 48, 2, UINT64_MAX) == KROFT_OK);
    CHECK(kroft_history_store_request(&h, 3, 64, bytes, 4, 1) == KROFT_OK);
    CHECK(count_open(&h, &loads, &stores) == KROFT_OK && loads == 3 && stores == 1);
    CHECK(kroft_history_unanswered(&h, KROFT_LOAD, 0, &it, &count) == KROFT_OK && is_operation(&it, LAST, 16, 4));
    CHECK(kroft_history_unanswered(&h, KROFT_LOAD, 2, &it, &count) == KROFT_OK && is_operation(&it, 4, 48, 2));
    CHECK(kroft_history_unanswered(&h, KROFT_STORE, 0, &it, &count) == KROFT_OK && is_operation(&it, 3, 64, 4));
    CHECK(kroft_history_unanswered(&h, KROFT_STORE, 1, &it, &count) == KROFT_ABSENT && is_operation(&it, 3, 64, 4));
    CHECK(kroft_history_load_response(&h, 3, bytes, 1) == KROFT_OK);
    CHECK(kroft_history_unanswered(&h, KROFT_LOAD, 1, &it, &count) == KROFT_OK && is_operation(&it, 4, 48, 2));
    CHECK(kroft_history_unanswered(&h, KROFT_LOAD, 2, &it, &count) == KROFT_ABSENT && count == 2);
    CHECK(kroft_history_unanswered(&h, KROFT_PREFETCH, 0, &it, &count) == KROFT_ABSENT && count == 0 && is_operation(&it, 4, 48, 2));
    CHECK(kroft_history_store_response(&h, 3) == KROFT_OK);
    CHECK(count_open(&h, &loads, &stores) == KROFT_OK && loads == 2 && stores == 0);
    CHECK(kroft_history_close(&h) == KROFT_OK);
}

static int has_counted(const kroft_history *h, uint64_t loads, uint64_t choices, uint64_t beside_store, uint64_t overtaking) {
    kroft_history_counts n = {9, 9, 9, 9};
    return kroft_history_coverage(h, &n) == KROFT_OK && n.loads == loads && n.choices == choices && n.beside_store == beside_store &&
           n.overtaking == overtaking;
}

/* What is counted: of what is requested once it is asked for, each answer. A load that is open at once with a store to its byte has a
   choice by the regular and the atomic law, and none by the flat one. */
static void coverage(uint32_t law, uint32_t unit, uint64_t choices) {
    static const uint8_t zeros[4] = {0, 0, 0, 0}, stored[2] = {7, 8}, after[4] = {0, 0, 0, 8};
    kroft_history h = KROFT_NO_HISTORY;
    kroft_history_counts n = {5, 6, 7, 8};
    CHECK(kroft_history_cover(&h) == KROFT_FAIL_CLOSED && kroft_history_coverage(&h, &n) == KROFT_FAIL_CLOSED && n.loads == 5);
    CHECK(kroft_history_open(&h, law, unit, KROFT_ZEROS, NULL, 0) == KROFT_OK);
    CHECK(kroft_history_coverage(&h, &n) == KROFT_ABSENT && n.overtaking == 8);
    CHECK(kroft_history_load_request(&h, 1, 16, 4, UINT64_MAX) == KROFT_OK && kroft_history_cover(&h) == KROFT_OK && has_counted(&h, 0, 0, 0, 0));
    CHECK(kroft_history_load_response(&h, 1, zeros, 4) == KROFT_OK && has_counted(&h, 0, 0, 0, 0));
    CHECK(kroft_history_load_request(&h, 1, 16, 4, UINT64_MAX) == KROFT_OK && kroft_history_store_request(&h, 1, 18, stored, 2, 2) == KROFT_OK);
    CHECK(kroft_history_load_request(&h, 2, 17, 2, UINT64_MAX) == KROFT_OK && has_counted(&h, 0, 0, 0, 0));
    CHECK(kroft_history_load_response(&h, 2, zeros, 2) == KROFT_OK && has_counted(&h, 1, 0, 0, 1)); /* it overtakes load 1 */
    CHECK(kroft_history_load_response(&h, 1, stored, 2) == KROFT_FAIL_WRONG_LENGTH && has_counted(&h, 1, 0, 0, 1));
    CHECK(kroft_history_load_response(&h, 1, zeros, 4) == KROFT_OK && has_counted(&h, 2, choices, 1, 1));
    CHECK(kroft_history_load_request(&h, 1, 16, 4, UINT64_MAX) == KROFT_OK && kroft_history_store_response(&h, 1) == KROFT_OK);
    CHECK(kroft_history_load_response(&h, 1, after, 4) == KROFT_OK && has_counted(&h, 3, 2 * choices, 2, 1));
    CHECK(kroft_history_load_request(&h, 1, 16, 4, UINT64_MAX) == KROFT_OK && kroft_history_load_response(&h, 1, zeros, 4) == KROFT_FAIL_WRONG_BYTE);
    CHECK(has_counted(&h, 3, 2 * choices, 2, 1) && kroft_history_load_response(&h, 1, after, 4) == KROFT_OK && has_counted(&h, 4, 2 * choices, 2, 1));
    CHECK(kroft_history_store_request(&h, 1, 16, zeros, 1, 1) == KROFT_OK && kroft_history_store_request(&h, 2, 17, zeros, 1, 1) == KROFT_OK);
    CHECK(kroft_history_store_response(&h, 2) == KROFT_OK && has_counted(&h, 4, 2 * choices, 2, 1)); /* no byte in common */
    CHECK(kroft_history_store_request(&h, 2, 0, stored, 2, 3) == KROFT_OK && kroft_history_store_request(&h, 3, 1, stored, 1, 1) == KROFT_OK);
    CHECK(kroft_history_store_response(&h, 3) == KROFT_OK && has_counted(&h, 4, 2 * choices, 2, 2));
    CHECK(kroft_history_cover(&h) == KROFT_OK && has_counted(&h, 0, 0, 0, 0));
    CHECK(kroft_history_load_request(&h, 5, 40, 2, 1) == KROFT_OK && kroft_history_store_request(&h, 5, 41, stored, 1, 1) == KROFT_OK);
    CHECK(kroft_history_load_response(&h, 5, stored, 2) == KROFT_FAIL_WRONG_BYTE); /* byte 40 is 00 */
    CHECK(kroft_history_load_response(&h, 5, zeros, 2) == KROFT_OK && has_counted(&h, 1, 0, 0, 0)); /* it doesn't enable the store's byte */
    CHECK(kroft_history_close(&h) == KROFT_OK);
}

/* What is opened, in the order in which faults are looked for; and a closed handle. */
static void handles(void) {
    static const uint8_t bytes[1] = {1};
    kroft_history h = KROFT_NO_HISTORY;
    CHECK(kroft_history_close(&h) == KROFT_FAIL_CLOSED);
    CHECK(kroft_history_load_request(&h, 1, 0, 1, UINT64_MAX) == KROFT_FAIL_CLOSED && kroft_history_load_response(&h, 1, bytes, 1) == KROFT_FAIL_CLOSED);
    CHECK(kroft_history_store_request(&h, 1, 0, bytes, 1, 1) == KROFT_FAIL_CLOSED && kroft_history_store_response(&h, 1) == KROFT_FAIL_CLOSED);
    CHECK(kroft_history_open(&h, 3, 1, KROFT_ZEROS, bytes, 1) == KROFT_FAIL_NO_LAW);
    CHECK(kroft_history_open(&h, KROFT_FLAT_LAW, 1, 2, bytes, 1) == KROFT_FAIL_NO_LAW);
    CHECK(kroft_history_open(&h, KROFT_FLAT_LAW, 0, KROFT_ZEROS, bytes, 1) == KROFT_FAIL_NO_LAW);
    CHECK(kroft_history_open(&h, KROFT_REGULAR_LAW, 2, KROFT_ZEROS, bytes, 1) == KROFT_FAIL_NO_LAW && h.open == 0);
    CHECK(kroft_history_open(&h, KROFT_REGULAR_LAW, 1, KROFT_ZEROS, bytes, 1) == KROFT_OK && h.open != 0);
    CHECK(kroft_history_load_request(&h, 1, 0, 1, UINT64_MAX) == KROFT_OK);
    CHECK(kroft_history_open(&h, 9, 1, KROFT_ZEROS, bytes, 0) == KROFT_FAIL_OPEN_ALREADY);
    CHECK(kroft_history_load_response(&h, 1, bytes, 1) == KROFT_OK);
    CHECK(kroft_history_close(&h) == KROFT_OK && kroft_history_close(&h) == KROFT_FAIL_CLOSED);
}

int main(void) {
    uint32_t law;
    int k;
    for (law = 0; law < LAWS; law++)
        for (k = 0; k < STORIES; k++) tell_story(&stories[k], law);
    sets();
    places();
    loads_with_enables();
    operations();
    coverage(KROFT_REGULAR_LAW, 1, 1);
    coverage(KROFT_FLAT_LAW, 1, 0);
    coverage(KROFT_ATOMIC_LAW, 8, 1);
    handles();
    return checks_end("history");
}
