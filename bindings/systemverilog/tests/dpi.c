/* The functions of kroft_dpi.h against a model of bytes, which is this file's: random requests and answers, of which
   some are wrong. The status is 0 only if each is judged as the model says. */
#include "kroft.h"
#include "kroft_dpi.h"
#include "random_bits.h"

#include <stdio.h>
#include <stdlib.h>
#include <string.h>
#include <sys/resource.h>

enum { BYTES = 10000, IDS = 3000 };
#define FIRST 0xfffffffffffff001ULL /* the memory is not aligned, and ends before the last address */
#define LAST (FIRST + 4000)

static uint8_t memory[BYTES];

typedef struct {
    int is_load, is_store, size;
    uint64_t address, enables;
    uint8_t bytes[64]; /* what a load is owed */
} waiting;

static waiting open_ones[IDS]; /* by id */
static int wrong;

static void expect(int line, void *judge, int found, int wanted) {
    if (found == wanted) return;
    if (wrong++ < 10) printf("line %d: %d is not %d: %s\n", line, found, wanted, kroft_sv_text(judge));
}

static void spread(kroft_four_states *data, const uint8_t *bytes) {
    int i;
    memset(data, 0, 16 * sizeof *data);
    for (i = 0; i < 64; i++) data[i / 4].bits |= (uint32_t)bytes[i] << i % 4 * 8;
}

static int is_enabled(const waiting *w, int i) { return i < w->size && (w->enables >> i & 1); }

static int expected_request(int is_store, int in_use, const waiting *w) {
    int i, any = 0;
    if (w->size < 1 || w->size > 64) return KROFT_SV_BAD_SIZE;
    if (w->address < FIRST || w->address > LAST || w->address + (uint64_t)(w->size - 1) > LAST) return KROFT_SV_OUTSIDE;
    if (w->address + (uint64_t)(w->size - 1) < w->address) return KROFT_SV_OUTSIDE;
    for (i = 0; i < w->size; i++) any |= is_enabled(w, i);
    if (is_store && !any) return KROFT_SV_NO_BYTES;
    return in_use ? KROFT_SV_ID_IN_USE : KROFT_SV_RIGHT;
}

static void request(void *judge) {
    int is_store = (int)(random_bits() & 1), number = (int)(random_bits() % IDS), wanted, found, i;
    int posted = is_store && random_bits() % 4 == 0;
    waiting *w = &open_ones[number], asked;
    kroft_four_states data[16];
    uint64_t id = (uint64_t)number * 0x100000001ULL;
    asked.size = (int)(random_bits() % 70) - 2;
    asked.address = FIRST - 20 + random_bits() % 4060;
    asked.enables = random_bits() % 2 ? random_bits() : ~0ULL;
    for (i = 0; i < 64; i++) asked.bytes[i] = (uint8_t)random_bits();
    spread(data, asked.bytes);
    wanted = expected_request(is_store, is_store ? !posted && w->is_store : w->is_load, &asked);
    if (!is_store) found = kroft_sv_load(judge, id, asked.address, asked.size, asked.enables);
    else if (posted) found = kroft_sv_post(judge, id, asked.address, asked.size, data, asked.enables);
    else found = kroft_sv_store(judge, id, asked.address, asked.size, data, asked.enables);
    expect(__LINE__, judge, found, wanted);
    if (wanted != KROFT_SV_RIGHT) return;
    if (!is_store) {
        w->size = asked.size;
        w->enables = asked.enables;
        for (i = 0; i < asked.size; i++) w->bytes[i] = memory[asked.address + (uint64_t)i - FIRST];
    }
    for (i = 0; is_store && i < asked.size; i++)
        if (is_enabled(&asked, i)) memory[asked.address + (uint64_t)i - FIRST] = asked.bytes[i];
    if (!is_store) w->is_load = 1;
    else if (!posted) w->is_store = 1;
}

static void value(void *judge, waiting *w, uint64_t id) {
    kroft_four_states data[16];
    int wanted = w->is_load ? KROFT_SV_RIGHT : KROFT_SV_NOTHING_OWED, i = (int)(random_bits() % 64);
    spread(data, w->bytes);
    if (random_bits() % 2 == 0) {
        data[i / 4].bits ^= 1u << i % 4 * 8;
        if (w->is_load && is_enabled(w, i)) wanted = KROFT_SV_WRONG_DATA;
    } else if (random_bits() % 2 == 0) {
        data[i / 4].unknown |= 0x80u << i % 4 * 8;
        if (w->is_load && is_enabled(w, i)) wanted = KROFT_SV_UNKNOWN_DATA;
    }
    expect(__LINE__, judge, kroft_sv_value(judge, id, data), wanted);
    w->is_load = 0;
}

static void answer(void *judge) {
    int number = (int)(random_bits() % IDS);
    uint64_t id = (uint64_t)number * 0x100000001ULL;
    waiting *w = &open_ones[number];
    switch (random_bits() % 8) {
    case 0:
        expect(__LINE__, judge, kroft_sv_failed_load(judge, id), w->is_load ? KROFT_SV_RIGHT : KROFT_SV_NOTHING_OWED);
        w->is_load = 0;
        break;
    case 1:
        expect(__LINE__, judge, kroft_sv_failed_store(judge, id), w->is_store ? KROFT_SV_FAILED : KROFT_SV_NOTHING_OWED);
        w->is_store = 0;
        break;
    case 2:
    case 3:
        expect(__LINE__, judge, kroft_sv_stored(judge, id), w->is_store ? KROFT_SV_RIGHT : KROFT_SV_NOTHING_OWED);
        w->is_store = 0;
        break;
    default: value(judge, w, id);
    }
}

static int count_open(void) {
    int i, count = 0;
    for (i = 0; i < IDS; i++) count += open_ones[i].is_load + open_ones[i].is_store;
    return count;
}

/* Those that wait are told in the order of their requests, and behind the last one nothing is. */
static void in_order(void) {
    const unsigned long long ids[4] = {9, 2, 9, 5}; /* a load, a store, a store and a load */
    const int is_store[4] = {0, 1, 1, 0};
    void *judge = kroft_sv_open(0, ~0ULL);
    kroft_four_states data[16];
    unsigned long long id, address;
    int i, kind, size, ended;
    memset(data, 0, sizeof data);
    for (i = 0; i < 4; i++) {
        if (is_store[i]) expect(__LINE__, judge, kroft_sv_store(judge, ids[i], 64 + (unsigned)i, i + 1, data, ~0ULL), KROFT_SV_RIGHT);
        else expect(__LINE__, judge, kroft_sv_load(judge, ids[i], 64 + (unsigned)i, i + 1, ~0ULL), KROFT_SV_RIGHT);
    }
    for (ended = 0; ended <= 4; ended++) {
        const int order[4] = {1, 3, 0, 2}; /* from the midst, from the end, from the beginning, and the last one */
        int left[4] = {1, 1, 1, 1}, place = 0;
        for (i = 0; i < ended; i++) left[order[i]] = 0;
        for (i = 0; i < 4; i++) {
            if (!left[i]) continue;
            expect(__LINE__, judge, kroft_sv_unanswered_access(judge, place++, &kind, &id, &address, &size), 1);
            expect(__LINE__, judge, kind == is_store[i] && id == ids[i] && address == 64 + (unsigned)i && size == i + 1, 1);
        }
        expect(__LINE__, judge, kroft_sv_unanswered_access(judge, place, &kind, &id, &address, &size), 0);
        expect(__LINE__, judge, kind == 0 && id == 0 && address == 0 && size == 0 && kroft_sv_unanswered(judge) == place, 1);
        expect(__LINE__, judge, kroft_sv_unanswered_access(judge, -1, &kind, &id, &address, &size), 0);
        if (ended == 4) break;
        i = order[ended];
        expect(__LINE__, judge, is_store[i] ? kroft_sv_stored(judge, ids[i]) : kroft_sv_value(judge, ids[i], data), KROFT_SV_RIGHT);
    }
    kroft_sv_close(judge);
}

/* More words are owed at once than one table of the library has tags. */
static void many_owed(void) {
    void *judge = kroft_sv_open(0, ~0ULL);
    kroft_four_states data[16];
    int i, loads = 9000;
    memset(data, 0, sizeof data);
    for (i = 0; i < loads; i++) {
        data[0].bits = (uint32_t)i;
        expect(__LINE__, judge, kroft_sv_post(judge, 0, 64, 4, data, 15), KROFT_SV_RIGHT);
        expect(__LINE__, judge, kroft_sv_load(judge, (unsigned long long)i, 64, 64, ~0ULL), KROFT_SV_RIGHT);
    }
    while (i-- > 0) {
        data[0].bits = (uint32_t)i;
        expect(__LINE__, judge, kroft_sv_value(judge, (unsigned long long)i, data), KROFT_SV_RIGHT);
    }
    kroft_sv_close(judge);
}

/* A judge that is asked for long takes no more memory: 2,400,000 words, of which each would leave 8 bytes. */
static void memory_stays(void) {
    void *judge = kroft_sv_open(0, ~0ULL);
    kroft_four_states data[16];
    struct rusage before, after;
    int i;
    memset(data, 0, sizeof data);
    getrusage(RUSAGE_SELF, &before);
    for (i = 0; i < 150000; i++) {
        expect(__LINE__, judge, kroft_sv_load(judge, 1, 64, 64, ~0ULL), KROFT_SV_RIGHT);
        expect(__LINE__, judge, kroft_sv_value(judge, 1, data), KROFT_SV_RIGHT);
    }
    getrusage(RUSAGE_SELF, &after);
    expect(__LINE__, judge, after.ru_maxrss - before.ru_maxrss < 10000, 1); /* KiB */
    kroft_sv_close(judge);
}

/* The access is that of the library, with its bytes from the lowest bits on; no plan leaves zeros. */
static void traffic(void) {
    kroft_traffic_plan plan = {0x1000, 8, 64, 16, 2, 32, 3, 5, 0, 200, 64, 3, 2};
    kroft_traffic_access access;
    unsigned long long number, turn, address, enables;
    unsigned requester, size, block_bytes;
    for (number = 0; number < 2000; number++)
        for (block_bytes = 64; block_bytes >= 63; block_bytes--) {
            uint8_t bytes[64] = {0};
            uint32_t data[16];
            int i, is_plan = block_bytes == 64, same;
            memset(&access, 0, sizeof access);
            plan.block_bytes = block_bytes;
            kroft_traffic_draw(&plan, 9, number, &access, bytes, sizeof bytes);
            same = kroft_sv_traffic(0x1000, 8, block_bytes, 16, 2, 32, 3, 5, 0, 200, 64, 3, 2, 9, number, &requester, &size, &turn,
                                    &address, &enables, data) == is_plan;
            same = same && requester == access.requester && size == access.length && turn == access.turn &&
                   address == access.address && enables == access.enables && is_plan == (size != 0);
            for (i = 0; i < 64; i++) same = same && (data[i / 4] >> 8 * (i % 4) & 255) == bytes[i];
            if (!same && wrong++ < 10) printf("access %llu of traffic is another one\n", number);
        }
}

int main(void) {
    void *judge = kroft_sv_open(FIRST, LAST);
    long n;
    memory_stays();
    traffic();
    for (n = 0; n < 300000; n++) {
        if (random_bits() & 1) request(judge);
        else answer(judge);
        if (n % 1000 == 0) expect(__LINE__, judge, kroft_sv_unanswered(judge), count_open());
    }
    kroft_sv_close(judge);
    many_owed();
    in_order();
    printf(wrong ? "%d wrong\n" : "all right\n", wrong);
    return wrong != 0;
}
