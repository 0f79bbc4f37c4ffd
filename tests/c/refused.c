/* Each allocation of kroft_machine_open, kroft_machine_drive, kroft_machine_begin_rounds and of a history by each law, refused in turn: it says so, keeps no memory, and what
   is behind the handle is as it was. Linked with the C library's calls wrapped (-Wl,--wrap=malloc and so on). */
#include "check.h"
#include "kroft.h"
#include "words.h"

#include <stdlib.h>

void *__real_malloc(size_t size);
void *__real_realloc(void *at, size_t size);
void __real_free(void *at);
void *__wrap_malloc(size_t size);
void *__wrap_realloc(void *at, size_t size);
void __wrap_free(void *at);

/* How many allocations are still granted, and how many blocks are held. */
static long granted, held;
/* The most bytes that a block was asked to have. */
static size_t largest;

void *__wrap_malloc(size_t size) {
    if (size > largest) largest = size;
    void *at = granted-- > 0 ? __real_malloc(size) : NULL;
    held += at != NULL;
    return at;
}

void *__wrap_realloc(void *at, size_t size) {
    if (size > largest) largest = size;
    return granted-- > 0 ? __real_realloc(at, size) : NULL;
}

void __wrap_free(void *at) {
    held -= at != NULL;
    __real_free(at);
}

/* A call of a history of 40 loads and stores that are open at once, and what it says. */
static uint32_t call(kroft_history *h, uint32_t law, unsigned k) {
    static const uint8_t bytes[4] = {1, 2, 3, 4};
    if (k == 0) return kroft_history_open(h, law, law == KROFT_ATOMIC_LAW ? 8 : 1, KROFT_ZEROS, bytes, 4);
    if (k <= 40) return kroft_history_store_request(h, k, 8 * k, bytes, 4, 15);
    if (k <= 80) return kroft_history_load_request(h, k, 8 * (k - 40), 4, UINT64_MAX);
    if (k <= 120) return kroft_history_load_response(h, k - 40, bytes, 4);
    return kroft_history_store_response(h, k - 120);
}

enum { CALLS = 161 };

/* A history in which the allocation at this place is refused, and its call made again: whether one was. */
static int is_refused(uint32_t law, long place) {
    kroft_history h = KROFT_NO_HISTORY;
    uint64_t loads, stores;
    unsigned k;
    int found = 0;
    granted = place;
    for (k = 0; k < CALLS; k++) {
        uint32_t status = call(&h, law, k);
        if (status == KROFT_FAIL_OUT_OF_MEMORY) {
            found++;
            if (k == 0) CHECK(held == 0 && h.open == 0);
            granted = 1000000;
            status = call(&h, law, k);
        }
        CHECK(status == KROFT_OK);
        CHECK(count_open(&h, &loads, &stores) == KROFT_OK);
        CHECK(stores == (k <= 40 ? k : k <= 120 ? 40 : 160 - k) && loads == (k <= 40 ? 0 : k <= 80 ? k - 40 : k <= 120 ? 120 - k : 0));
    }
    CHECK(kroft_history_close(&h) == KROFT_OK && held == 0 && found <= 1);
    return found;
}

static void histories(void) {
    uint32_t law;
    long place;
    for (law = KROFT_REGULAR_LAW; law <= KROFT_ATOMIC_LAW; law++) {
        for (place = 0; is_refused(law, place); place++) {}
        CHECK(place > 8);
    }
}

/* A question to a history by the atomic law, or a unit of it that is forgotten, and what it says. */
static uint32_t ask(kroft_history *h, int which, uint8_t *row, uint64_t *place, kroft_history_reason *why) {
    static const uint8_t bytes[2] = {1, 3};
    if (which == 0) return kroft_history_may_return(h, 1, 8, row);
    if (which == 1) return wrong_place(h, 1, bytes, 2, place);
    if (which == 2) return kroft_history_why(h, 1, bytes, 2, why);
    return kroft_history_forget(h, 64);
}

/* What the judge of the atomic law allocates to answer, refused in turn: it says so, and the history is as it was. */
static void questions(void) {
    static const uint32_t says[4] = {KROFT_OK, KROFT_FAIL_WRONG_BYTE, KROFT_FAIL_WRONG_BYTE, KROFT_OK};
    static const uint8_t bytes[2] = {1, 2};
    kroft_history h = KROFT_NO_HISTORY;
    int which;
    granted = 1000000;
    CHECK(kroft_history_open(&h, KROFT_ATOMIC_LAW, 8, KROFT_ZEROS, bytes, 0) == KROFT_OK);
    CHECK(kroft_history_store_request(&h, 1, 8, bytes, 2, 3) == KROFT_OK && kroft_history_load_request(&h, 1, 8, 2, UINT64_MAX) == KROFT_OK);
    for (which = 0; which < 4; which++) {
        long refused, before = held;
        uint32_t status = KROFT_FAIL_OUT_OF_MEMORY;
        for (refused = 0; refused < 1000 && status == KROFT_FAIL_OUT_OF_MEMORY; refused++) {
            uint8_t row[KROFT_SET_BYTES] = {0x33};
            uint64_t place = 77;
            kroft_history_reason why = {77, 77, 0, 0, 0, 0, 77};
            granted = refused;
            status = ask(&h, which, row, &place, &why);
            if (status == KROFT_FAIL_OUT_OF_MEMORY)
                CHECK(row[0] == 0x33 && place == 77 && why.place == 77 && why.reason == 77 && held == before);
            else if (which == 2) CHECK(why.place == 1 && why.reason == KROFT_REASON_NEVER_THERE); /* the open store may give the unit's first byte */
        }
        CHECK(status == says[which]);
        if (which < 3) CHECK(refused > 1 && held == before);
    }
    granted = 1000000;
    CHECK(kroft_history_load_response(&h, 1, bytes, 2) == KROFT_OK && kroft_history_close(&h) == KROFT_OK && held == 0);
}

/* The request or the response of a store of 64 bytes, with each allocation refused in turn: how many were. */
static unsigned refusals(kroft_history *h, unsigned k, int is_response) {
    static const uint8_t bytes[64] = {0};
    uint32_t status = KROFT_FAIL_OUT_OF_MEMORY;
    unsigned place;
    for (place = 0; place < 1000 && status == KROFT_FAIL_OUT_OF_MEMORY; place++) {
        granted = place;
        status = is_response ? kroft_history_store_response(h, k) : kroft_history_store_request(h, k, 0, bytes, 64, UINT64_MAX);
    }
    CHECK(status == KROFT_OK);
    return place - 1;
}

/* A history of so many stores that the first ones are forgotten, at each 64th from the 128th on: what is held grows no more. */
static void many_stores(void) {
    kroft_history h = KROFT_NO_HISTORY;
    long before = 0;
    unsigned k, refused = 0;
    granted = 1000000;
    CHECK(kroft_history_open(&h, KROFT_REGULAR_LAW, 1, KROFT_ZEROS, NULL, 0) == KROFT_OK);
    for (k = 0; k < 300; k++) {
        unsigned now = refusals(&h, k, 0) + refusals(&h, k, 1);
        if (k == 128) before = held;
        if (k >= 128) refused += now;
    }
    CHECK(refused >= 2 && held == before);
    CHECK(kroft_history_close(&h) == KROFT_OK && held == 0);
}

/* A history of 20,000 stores to one place by a law, at no moment of which less than one load is open: behind the first 2,000 no block is
   larger than those before, and there are no more of them. */
static void stays_small(uint32_t law) {
    kroft_history h = KROFT_NO_HISTORY;
    size_t most = 0;
    long before = 0, blocks = 0;
    unsigned k;
    granted = 10000000;
    largest = 0;
    CHECK(kroft_history_open(&h, law, law == KROFT_ATOMIC_LAW ? 8 : 1, KROFT_ZEROS, NULL, 0) == KROFT_OK);
    CHECK(kroft_history_load_request(&h, 0, 8, 4, UINT64_MAX) == KROFT_OK);
    for (k = 0; k < 20000; k++) {
        const uint8_t bytes[4] = {(uint8_t)k, (uint8_t)(k >> 8), 1, 2};
        CHECK(kroft_history_load_request(&h, k + 1, 8, 4, UINT64_MAX) == KROFT_OK && kroft_history_store_request(&h, k, 8, bytes, 4, 15) == KROFT_OK);
        CHECK(kroft_history_store_response(&h, k) == KROFT_OK && kroft_history_load_response(&h, k, bytes, 4) == KROFT_OK);
        if (k < 2000) {
            most = largest;
            if (held > before) before = held;
        } else if (held > blocks) blocks = held;
    }
    CHECK(largest == most && blocks <= before);
    CHECK(kroft_history_close(&h) == KROFT_OK && held == 0);
}

/* Rounds that are begun in a machine with rounds, each allocation refused in turn: those that were begun before go on. No round
   allocates, and what ends gives its memory back. */
static void rounds(kroft_machine *handle) {
    kroft_event e = {KROFT_LOAD, 1, 0, 5, 0, {{0, 0, 0, 0}}};
    kroft_round_row row;
    kroft_counts c;
    uint32_t status = KROFT_FAIL_OUT_OF_MEMORY;
    long refused, before = held, begun;
    granted = 1000000;
    CHECK(kroft_machine_begin_rounds(handle, 3, 3) == KROFT_OK && held > before);
    begun = held;
    CHECK(kroft_machine_round(handle, &e, 1, &row) == KROFT_OK && row.round == 1);
    for (refused = 0; refused < 1000 && status == KROFT_FAIL_OUT_OF_MEMORY; refused++) {
        granted = refused;
        status = kroft_machine_begin_rounds(handle, 0, 0);
        if (status == KROFT_FAIL_OUT_OF_MEMORY) CHECK(kroft_machine_round(handle, &e, 0, &row) == KROFT_OK && row.round == 2 + (uint64_t)refused);
        CHECK(held == begun);
    }
    CHECK(status == KROFT_OK && refused > 1);
    granted = 0;
    CHECK(kroft_machine_round(handle, &e, 1, &row) == KROFT_OK && row.round == 1);
    CHECK(kroft_machine_round_counts(handle, &c) == KROFT_OK && c.rounds == 1);
    CHECK(kroft_machine_end_rounds(handle) == KROFT_OK && held == before);
    granted = 1000000;
    CHECK(kroft_machine_begin_rounds(handle, 3, 3) == KROFT_OK); /* (given back by kroft_machine_close) */
}

int main(void) {
    static const kroft_shape shape = {2, 4, 8, 4, 64, 4, 4, 8, 8, 8};
    static kroft_word image[64];
    kroft_machine handle = KROFT_NO_MACHINE;
    kroft_event e = {KROFT_LOAD, 1, 0, 5, 0, {{0, 0, 0, 0}}};
    kroft_answer a;
    uint64_t weight = 0;
    uint32_t status = KROFT_FAIL_OUT_OF_MEMORY, settled = 0;
    long refused;
    for (refused = 0; refused < 1000 && status == KROFT_FAIL_OUT_OF_MEMORY; refused++) {
        granted = refused;
        status = kroft_machine_open(&handle, &shape, image, 64);
        if (status == KROFT_FAIL_OUT_OF_MEMORY) CHECK(held == 0 && handle.open == 0 && kroft_machine_close(&handle) == KROFT_FAIL_CLOSED);
    }
    CHECK(status == KROFT_OK && refused > 2 && held > 0);
    status = KROFT_FAIL_OUT_OF_MEMORY;
    for (refused = 0; refused < 1000 && status == KROFT_FAIL_OUT_OF_MEMORY; refused++) {
        kroft_counts c;
        long before = held;
        c.rounds = 77;
        granted = refused;
        status = kroft_machine_drive(&handle, 1, 1, &e, 1, &c);
        if (status == KROFT_FAIL_OUT_OF_MEMORY) CHECK(c.rounds == 77 && kroft_machine_weight(&handle, &weight, &settled) == KROFT_OK && weight == 0);
        CHECK(held == before);
    }
    CHECK(status == KROFT_OK && refused > 2);
    e.at = 17;
    granted = 0; /* no other call allocates */
    CHECK(kroft_machine_apply(&handle, &e, &a) == KROFT_OK && a.kind == KROFT_ACCEPTED);
    while (kroft_machine_pump(&handle, &e, &a) == KROFT_OK) {}
    CHECK(kroft_machine_weight(&handle, &weight, &settled) == KROFT_OK && settled == 1);
    rounds(&handle);
    CHECK(kroft_machine_close(&handle) == KROFT_OK && held == 0);
    histories();
    questions();
    many_stores();
    stays_small(KROFT_REGULAR_LAW);
    stays_small(KROFT_ATOMIC_LAW);
    return checks_end("refused");
}
