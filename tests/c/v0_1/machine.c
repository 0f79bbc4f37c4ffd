/* The machine of libkroft from C99 and from C++17: every call, every answer, every fault. */
#include "../check.h"
#include "kroft_0_1.h"
#include "../words.h"

#include <stdlib.h>
#include <string.h>

/* More words than 20 bits count. */
enum { WORDS = 32, MANY_WORDS = 2097160 };

/* 32 words, of which word `a` is the byte `a` and three zero bytes; 2 sets and 2 banks. */
static const kroft_shape small = {1, 4, 4, 4, WORDS, 2, 2, 4, 4, 4};
static kroft_word image[WORDS];
static kroft_word large_image[MANY_WORDS];
static const kroft_handle no_machine = KROFT_NO_MACHINE;

/* The judge beside the machine. */
static kroft_word words[WORDS];
static kroft_due due[KROFT_TAGS];

static kroft_event event(uint32_t kind, uint32_t at, uint32_t place) {
    kroft_event e;
    memset(&e, 0, sizeof e);
    e.kind = kind;
    e.at = at;
    e.place = place;
    return e;
}

static kroft_event load(uint16_t tag, uint32_t at) {
    kroft_event e = event(KROFT_LOAD, at, 0);
    e.tag = tag;
    return e;
}

static kroft_event store(uint32_t at, uint8_t lanes, kroft_word w) {
    kroft_event e = event(KROFT_STORE, at, 0);
    e.lanes = lanes;
    e.word = w;
    return e;
}

static kroft_handle opened(void) {
    kroft_handle handle = KROFT_NO_MACHINE;
    CHECK(kroft_open(&handle, &small, image, WORDS) == KROFT_DONE);
    memcpy(words, image, sizeof words);
    memset(due, 0, sizeof due);
    return handle;
}

static void freed(kroft_handle *handle) {
    CHECK(kroft_free(handle) == KROFT_DONE);
    CHECK(kroft_free(handle) == KROFT_CLOSED);
}

/* Makes an event, and has the judge look at its answer. */
static kroft_answer apply(kroft_handle *handle, kroft_event e) {
    kroft_answer a;
    memset(&a, 0xff, sizeof a);
    CHECK(kroft_apply(handle, &e, &a) == KROFT_DONE);
    CHECK(kroft_flat_step(words, WORDS, due, KROFT_TAGS, &e, &a) == KROFT_FLAT);
    return a;
}

static int is_accepted(kroft_handle *handle, kroft_event e) {
    return apply(handle, e).kind == KROFT_ACCEPTED;
}

static int is_moved(kroft_handle *handle, kroft_event e) {
    return apply(handle, e).kind == KROFT_MOVED;
}

static int is_refused(kroft_handle *handle, kroft_event e, uint32_t cause) {
    kroft_answer a = apply(handle, e);
    return a.kind == KROFT_REFUSED && a.cause == cause;
}

static int is_value(kroft_answer a, uint16_t tag, unsigned b0, unsigned b1, unsigned b2, unsigned b3) {
    return a.kind == KROFT_VALUE && a.cause == 0 && a.tag == tag && is_word(a.word, b0, b1, b2, b3);
}

/* A load gets the word as it stood when it was accepted; the next one gets what was stored. */
static void store_behind_a_waiting_load(void) {
    kroft_handle handle = opened();
    CHECK(is_accepted(&handle, load(1, 5)));
    CHECK(is_accepted(&handle, store(5, 1, word(0xff, 1, 2, 3))));
    CHECK(is_moved(&handle, event(KROFT_SERVE, 1, 0)));
    CHECK(apply(&handle, event(KROFT_TAKE, 0, 0)).kind == KROFT_NOTHING);
    CHECK(is_moved(&handle, event(KROFT_ARRIVE, 1, 0)));
    CHECK(is_moved(&handle, event(KROFT_PROCESS, 0, 0)));
    CHECK(is_value(apply(&handle, event(KROFT_TAKE, 0, 0)), 1, 5, 0, 0, 0));
    CHECK(is_accepted(&handle, load(2, 5)));
    CHECK(is_value(apply(&handle, event(KROFT_TAKE, 0, 0)), 2, 0xff, 0, 0, 0));
    freed(&handle);
}

/* Each kind of event, and refusals, which change nothing. */
static void events_and_refusals(void) {
    kroft_handle handle = opened();
    kroft_event none = event(9, 0, 0);
    kroft_answer a;
    CHECK(is_refused(&handle, load(1, WORDS), KROFT_OUT_OF_RANGE));
    CHECK(is_refused(&handle, store(0, 0xf0, word(1, 1, 1, 1)), KROFT_NO_LANES));
    CHECK(is_refused(&handle, event(KROFT_EVICT, 0, 0), KROFT_NOT_PRESENT));
    CHECK(is_accepted(&handle, event(KROFT_PREFETCH, 0, 0)));
    CHECK(is_accepted(&handle, load(2, 4)));
    CHECK(is_refused(&handle, load(2, 5), KROFT_TAG_IN_USE));
    CHECK(is_refused(&handle, load(3, 8), KROFT_SET_PENDING));
    CHECK(is_accepted(&handle, store(1, 15, word(9, 8, 7, 6))));
    CHECK(is_accepted(&handle, event(KROFT_EVICT, 0, 0)));
    CHECK(is_refused(&handle, event(KROFT_DRAIN, 0, 0), KROFT_BANK_FULL));
    CHECK(is_moved(&handle, event(KROFT_SERVE, 1, 0)));
    CHECK(is_moved(&handle, event(KROFT_DRAIN, 0, 0)));
    CHECK(apply(&handle, event(KROFT_DRAIN, 0, 0)).kind == KROFT_NOTHING);
    memset(&a, 0xab, sizeof a);
    CHECK(kroft_apply(&handle, &none, &a) == KROFT_NO_EVENT);
    none.kind = UINT32_MAX;
    CHECK(kroft_apply(&handle, &none, &a) == KROFT_NO_EVENT && a.kind == 0xababababu);
    freed(&handle);
}

/* One load by the driver: each word of its block is served, arrives and is processed. */
static void a_load_by_pumps(void) {
    static const uint32_t kinds[13] = {KROFT_SERVE,   KROFT_ARRIVE,  KROFT_PROCESS, KROFT_SERVE,  KROFT_ARRIVE,
                                       KROFT_PROCESS, KROFT_SERVE,   KROFT_ARRIVE,  KROFT_PROCESS, KROFT_TAKE,
                                       KROFT_SERVE,   KROFT_ARRIVE,  KROFT_PROCESS};
    kroft_handle handle = opened();
    kroft_event e;
    kroft_answer a;
    uint64_t before = 99, weight = 99;
    unsigned pumps;
    CHECK(kroft_weight(&handle, &weight) == KROFT_DONE && weight == 0);
    CHECK(kroft_settled(&handle) == KROFT_FOUND);
    memset(&e, 0xab, sizeof e);
    memset(&a, 0xab, sizeof a);
    CHECK(kroft_pump(&handle, &e, &a) == KROFT_NONE && e.kind == 0xababababu && a.kind == 0xababababu);
    CHECK(is_accepted(&handle, load(1, 5)));
    CHECK(kroft_settled(&handle) == KROFT_NONE);
    CHECK(kroft_weight(&handle, &before) == KROFT_DONE && before >= 13);
    for (pumps = 0; pumps < 13; pumps++) {
        CHECK(kroft_pump(&handle, &e, &a) == KROFT_FOUND);
        CHECK(e.kind == kinds[pumps] && e.place == 0 && e.tag == 0 && e.lanes == 0);
        CHECK(kroft_flat_step(words, WORDS, due, KROFT_TAGS, &e, &a) == KROFT_FLAT);
        if (e.kind == KROFT_SERVE || e.kind == KROFT_ARRIVE) CHECK(e.at == (pumps < 6 ? 0u : 1u));
        if (e.kind == KROFT_TAKE) CHECK(is_value(a, 1, 5, 0, 0, 0));
        else CHECK(a.kind == KROFT_MOVED);
        CHECK(kroft_weight(&handle, &weight) == KROFT_DONE && weight < before);
        before = weight;
    }
    CHECK(weight == 0 && kroft_pump(&handle, &e, &a) == KROFT_NONE);
    CHECK(kroft_settled(&handle) == KROFT_FOUND);
    freed(&handle);
}

/* A dirty word reaches its bank when its block was evicted and drained. */
static void a_word_reaches_its_bank(void) {
    kroft_handle handle = opened();
    kroft_event e;
    kroft_answer a;
    kroft_word w = word(1, 2, 3, 4);
    CHECK(kroft_bank_word(&handle, WORDS, &w) == KROFT_NONE && is_word(w, 1, 2, 3, 4));
    CHECK(kroft_bank_word(&handle, UINT32_MAX, &w) == KROFT_NONE && is_word(w, 1, 2, 3, 4));
    CHECK(is_accepted(&handle, store(6, 6, word(0xaa, 0xbb, 0xcc, 0xdd))));
    CHECK(kroft_bank_word(&handle, 6, &w) == KROFT_FOUND && is_word(w, 6, 0, 0, 0));
    while (kroft_pump(&handle, &e, &a) == KROFT_FOUND) {}
    CHECK(kroft_settled(&handle) == KROFT_NONE);
    CHECK(is_accepted(&handle, event(KROFT_EVICT, 1, 0)));
    while (kroft_pump(&handle, &e, &a) == KROFT_FOUND) {}
    CHECK(kroft_settled(&handle) == KROFT_FOUND);
    CHECK(kroft_bank_word(&handle, 6, &w) == KROFT_FOUND && is_word(w, 6, 0xbb, 0xcc, 0));
    freed(&handle);
}

/* A register, its words and its waiting loads; a free register shows zeros. */
static void views(void) {
    kroft_handle handle = opened();
    kroft_register_view r;
    kroft_field_view f;
    kroft_target_view t;
    CHECK(is_accepted(&handle, load(1, 5)));
    CHECK(is_accepted(&handle, store(5, 1, word(0xff, 0, 0, 0))));
    CHECK(is_accepted(&handle, load(2, 5)));
    CHECK(is_moved(&handle, event(KROFT_SERVE, 0, 0)));
    CHECK(is_moved(&handle, event(KROFT_ARRIVE, 0, 0)));
    CHECK(is_moved(&handle, event(KROFT_PROCESS, 0, 0)));
    CHECK(is_moved(&handle, event(KROFT_SERVE, 0, 0)));
    CHECK(is_moved(&handle, event(KROFT_ARRIVE, 0, 0)));
    CHECK(kroft_register(&handle, 0, &r) == KROFT_FOUND);
    CHECK(r.valid == 1 && r.obsolete == 0 && r.block == 1 && r.frame == 1 && r.processed == 1);
    CHECK(kroft_field(&handle, 0, 0, &f) == KROFT_FOUND);
    CHECK(f.send == 0 && f.in_stack == 0 && f.processed == 1 && f.targets == 0 && f.code == 0);
    CHECK(kroft_field(&handle, 0, 1, &f) == KROFT_FOUND);
    CHECK(f.send == 1 && f.in_stack == 0 && f.processed == 0 && f.targets == 2 && f.tag == 1 && f.code == 1);
    CHECK(f.held_lanes == 0);
    CHECK(kroft_field(&handle, 0, 2, &f) == KROFT_FOUND && f.in_stack == 1 && f.targets == 0);
    CHECK(kroft_target(&handle, 0, 1, 0, &t) == KROFT_FOUND && t.tag == 1 && t.lanes == 0);
    CHECK(kroft_target(&handle, 0, 1, 1, &t) == KROFT_FOUND && t.tag == 2 && t.lanes == 1 && t.held.b[0] == 0xff);
    CHECK(kroft_target(&handle, 0, 1, 2, &t) == KROFT_NONE && t.tag == 2 && t.lanes == 1);
    CHECK(is_accepted(&handle, event(KROFT_EVICT, 1, 0)));
    CHECK(kroft_register(&handle, 0, &r) == KROFT_FOUND && r.valid == 1 && r.obsolete == 1 && r.frame == 0);
    CHECK(kroft_register(&handle, 3, &r) == KROFT_FOUND && r.valid == 0 && r.obsolete == 0 && r.block == 0);
    r.block = 77;
    CHECK(kroft_register(&handle, 4, &r) == KROFT_NONE && r.block == 77);
    f.targets = 77;
    CHECK(kroft_field(&handle, 4, 0, &f) == KROFT_NONE && kroft_field(&handle, 0, 4, &f) == KROFT_NONE);
    CHECK(f.targets == 77);
    freed(&handle);
}

/* A closed handle answers so to every call, and nothing is written. */
static void a_closed_handle(void) {
    kroft_handle handle = no_machine;
    kroft_event e = load(1, 5);
    kroft_answer a;
    kroft_register_view r;
    kroft_field_view f;
    kroft_target_view t;
    kroft_word w = word(1, 2, 3, 4);
    uint64_t weight = 77;
    memset(&a, 0xab, sizeof a);
    r.block = 77;
    f.targets = 77;
    t.tag = 77;
    CHECK(kroft_apply(&handle, &e, &a) == KROFT_CLOSED && kroft_pump(&handle, &e, &a) == KROFT_CLOSED);
    CHECK(a.kind == 0xababababu && e.kind == KROFT_LOAD && e.at == 5);
    CHECK(kroft_weight(&handle, &weight) == KROFT_CLOSED && weight == 77);
    CHECK(kroft_settled(&handle) == KROFT_CLOSED);
    CHECK(kroft_bank_word(&handle, 5, &w) == KROFT_CLOSED && is_word(w, 1, 2, 3, 4));
    CHECK(kroft_register(&handle, 0, &r) == KROFT_CLOSED && r.block == 77);
    CHECK(kroft_field(&handle, 0, 0, &f) == KROFT_CLOSED && f.targets == 77);
    CHECK(kroft_target(&handle, 0, 0, 0, &t) == KROFT_CLOSED && t.tag == 77);
    CHECK(kroft_free(&handle) == KROFT_CLOSED);
}

/* A shape that opens no machine: the handle stays closed. */
static void is_no_machine(kroft_shape shape, size_t nimage, uint32_t status) {
    kroft_handle handle = no_machine;
    CHECK(kroft_open(&handle, &shape, large_image, nimage) == status);
    CHECK(handle.open == 0 && handle.at == no_machine.at && kroft_free(&handle) == KROFT_CLOSED);
}

static void is_a_machine(kroft_shape shape) {
    kroft_handle handle = no_machine;
    CHECK(kroft_open(&handle, &shape, large_image, shape.words) == KROFT_DONE);
    freed(&handle);
}

/* Each number of a shape, at and beyond the ends of its range, and the order in which they are looked at. */
static void ranges(void) {
    kroft_shape s = small;
    s.words = 0, is_no_machine(s, 0, KROFT_BAD_WORDS);
    s.words = 30, is_no_machine(s, 30, KROFT_BAD_WORDS);
    s.words = MANY_WORDS + 2, is_no_machine(s, MANY_WORDS, KROFT_BAD_WORDS);
    s.words = 4294967292u, is_no_machine(s, MANY_WORDS, KROFT_BAD_IMAGE);
    s.words = 4294967295u, is_no_machine(s, MANY_WORDS, KROFT_BAD_WORDS);
    s.words = MANY_WORDS, is_a_machine(s);
    s.words = 4, is_a_machine(s);
    is_no_machine(s, 3, KROFT_BAD_IMAGE);
    is_no_machine(s, 5, KROFT_BAD_IMAGE);
    s.sets = 0, is_no_machine(s, 3, KROFT_BAD_SETS);
    s.sets = 1025, is_no_machine(s, 4, KROFT_BAD_SETS);
    s.sets = 1024, is_a_machine(s);
    s.banks = 0, is_no_machine(s, 3, KROFT_BAD_BANKS);
    s.banks = 17, is_no_machine(s, 4, KROFT_BAD_BANKS);
    s.banks = 16, is_a_machine(s);
    s.banks = 3, s.bank_queue = 1, is_no_machine(s, 3, KROFT_BAD_BANK_QUEUE);
    s.bank_queue = 65, is_no_machine(s, 4, KROFT_BAD_BANK_QUEUE);
    s.bank_queue = 2, is_a_machine(s);
    s.write_queue = 3, is_no_machine(s, 3, KROFT_BAD_WRITE_QUEUE);
    s.write_queue = 257, is_no_machine(s, 4, KROFT_BAD_WRITE_QUEUE);
    s.write_queue = 256, is_a_machine(s);
    s.replies = 0, is_no_machine(s, 3, KROFT_BAD_REPLIES);
    s.replies = 65, is_no_machine(s, 4, KROFT_BAD_REPLIES);
    s.replies = 64, is_a_machine(s);
    s.write_queue = 0, is_no_machine(s, 4, KROFT_BAD_WRITE_QUEUE);
    s.bank_queue = 0, is_no_machine(s, 4, KROFT_BAD_BANK_QUEUE);
    s.banks = 0, is_no_machine(s, 4, KROFT_BAD_BANKS);
    s.sets = 0, is_no_machine(s, 4, KROFT_BAD_SETS);
    s.words = 0, is_no_machine(s, 4, KROFT_BAD_WORDS);
    s.ways = 17, is_no_machine(s, 4, KROFT_NOT_LISTED);
}

/* Makes an event that the judge isn't told of, since it has fewer words. */
static uint32_t kind_of(kroft_handle *handle, kroft_event e) {
    kroft_answer a;
    CHECK(kroft_apply(handle, &e, &a) == KROFT_DONE);
    return a.kind;
}

static void pumped_dry(kroft_handle *handle) {
    kroft_event e;
    kroft_answer a;
    while (kroft_pump(handle, &e, &a) == KROFT_FOUND) {}
}

/* The last word of a large memory: it is stored, given up, and written to its bank. */
static void a_large_memory(void) {
    kroft_handle handle = no_machine;
    kroft_shape s = small;
    kroft_word w;
    s.words = MANY_WORDS;
    CHECK(kroft_open(&handle, &s, large_image, MANY_WORDS) == KROFT_DONE);
    CHECK(kind_of(&handle, store(MANY_WORDS - 1, 15, word(1, 2, 3, 4))) == KROFT_ACCEPTED);
    CHECK(kind_of(&handle, load(1, MANY_WORDS)) == KROFT_REFUSED);
    pumped_dry(&handle);
    CHECK(kroft_bank_word(&handle, MANY_WORDS - 1, &w) == KROFT_FOUND && is_word(w, 0, 0, 0, 0));
    CHECK(kind_of(&handle, event(KROFT_EVICT, MANY_WORDS / 4 - 1, 0)) == KROFT_ACCEPTED);
    pumped_dry(&handle);
    CHECK(kroft_bank_word(&handle, MANY_WORDS - 1, &w) == KROFT_FOUND && is_word(w, 1, 2, 3, 4));
    CHECK(kroft_bank_word(&handle, MANY_WORDS, &w) == KROFT_NONE);
    freed(&handle);
}

/* A machine behind a handle stays there when another one is asked for. */
static void open_already(void) {
    kroft_handle handle = opened();
    kroft_shape unlisted = small;
    unlisted.ways = 17;
    CHECK(is_accepted(&handle, store(5, 15, word(1, 2, 3, 4))));
    CHECK(kroft_open(&handle, &small, image, WORDS) == KROFT_OPEN_ALREADY);
    CHECK(kroft_open(&handle, &unlisted, image, 0) == KROFT_OPEN_ALREADY);
    CHECK(is_accepted(&handle, load(1, 5)));
    CHECK(is_value(apply(&handle, event(KROFT_TAKE, 0, 0)), 1, 1, 2, 3, 4));
    freed(&handle);
    CHECK(kroft_open(&handle, &small, image, WORDS) == KROFT_DONE);
    freed(&handle);
}

/* A machine has as many registers, words of a block, ways and places as its row says. */
static void is_as_asked(const uint32_t *row) {
    kroft_handle handle = no_machine;
    kroft_shape s = small;
    kroft_register_view r;
    kroft_field_view f;
    uint32_t way, i;
    kroft_answer a;
    kroft_event e;
    s.ways = row[0], s.block_words = row[1], s.regs = row[2], s.depth = row[3];
    s.words = 64 * row[1], s.sets = 1, s.banks = 1, s.bank_queue = 64, s.write_queue = 64, s.replies = 64;
    CHECK(kroft_open(&handle, &s, large_image, s.words) == KROFT_DONE);
    CHECK(kroft_register(&handle, row[2] - 1, &r) == KROFT_FOUND && kroft_register(&handle, row[2], &r) == KROFT_NONE);
    CHECK(kroft_field(&handle, 0, row[1] - 1, &f) == KROFT_FOUND && kroft_field(&handle, 0, row[1], &f) == KROFT_NONE);
    for (way = 0; way <= row[0]; way++) { /* as many blocks of the one set stay as there are ways */
        e = event(KROFT_PREFETCH, way * row[1], 0);
        CHECK(kroft_apply(&handle, &e, &a) == KROFT_DONE && a.kind == KROFT_ACCEPTED);
        while (kroft_pump(&handle, &e, &a) == KROFT_FOUND) {}
    }
    for (way = 0; way <= row[0]; way++) {
        e = event(KROFT_EVICT, way, 0);
        CHECK(kroft_apply(&handle, &e, &a) == KROFT_DONE && a.kind == (way == 0 ? 4u : 0u));
    }
    e = event(KROFT_PREFETCH, 0, 0);
    CHECK(kroft_apply(&handle, &e, &a) == KROFT_DONE && a.kind == KROFT_ACCEPTED);
    for (i = 0; i < row[1]; i++) { /* words arrive until the stack is full */
        e = event(KROFT_SERVE, 0, 0);
        CHECK(kroft_apply(&handle, &e, &a) == KROFT_DONE && a.kind == KROFT_MOVED);
        e = event(KROFT_ARRIVE, 0, 0);
        CHECK(kroft_apply(&handle, &e, &a) == KROFT_DONE && a.kind == (i < row[3] ? 1u : 4u));
    }
    freed(&handle);
}

/* Any numbers within their ranges make a machine, and none beyond them does. */
static void first_four(void) {
    static const uint32_t some[20][4] = {{1, 4, 1, 1},    {1, 4, 4, 4},    {1, 8, 8, 8},   {2, 4, 4, 4},
                                         {2, 4, 8, 4},    {2, 8, 8, 8},    {2, 16, 16, 16}, {4, 4, 8, 8},
                                         {4, 8, 8, 8},    {4, 16, 16, 16}, {8, 8, 16, 16}, {8, 16, 16, 16},
                                         {8, 16, 10, 16}, {3, 5, 7, 2},    {1, 1, 1, 1},   {7, 3, 15, 1},
                                         {16, 16, 64, 64}, {9, 16, 17, 17}, {16, 1, 1, 64}, {1, 4, 64, 3}};
    static const uint32_t none[8][4] = {{0, 4, 4, 4},  {1, 0, 4, 4},  {1, 4, 0, 4},  {1, 4, 4, 0},
                                        {17, 4, 4, 4}, {1, 17, 4, 4}, {1, 4, 65, 4}, {1, 4, 4, 65}};
    unsigned i;
    for (i = 0; i < 20; i++)
        is_as_asked(some[i]);
    for (i = 0; i < 8; i++) {
        kroft_shape s = small;
        s.ways = none[i][0], s.block_words = none[i][1], s.regs = none[i][2], s.depth = none[i][3];
        is_no_machine(s, WORDS, KROFT_NOT_LISTED);
    }
}

/* Each of the most registers has a block of its own, and the stack takes as many words as it has places. */
static void the_most(void) {
    kroft_handle handle = no_machine;
    kroft_shape s = {16, 16, 64, 64, 16 * 65, 16, 16, 64, 256, 64};
    kroft_event late = event(KROFT_PREFETCH, 16 * 64, 0), behind = event(KROFT_ARRIVE, 1, 0);
    kroft_answer a;
    uint32_t i;
    CHECK(kroft_open(&handle, &s, large_image, s.words) == KROFT_DONE);
    for (i = 0; i < 64; i++)
        CHECK(kind_of(&handle, event(KROFT_PREFETCH, 16 * i, 0)) == KROFT_ACCEPTED);
    CHECK(kroft_apply(&handle, &late, &a) == KROFT_DONE && a.kind == KROFT_REFUSED && a.cause == 7);
    for (i = 0; i < 64; i++) { /* bank 0 has the first word of each block */
        CHECK(kind_of(&handle, event(KROFT_SERVE, 0, 0)) == KROFT_MOVED);
        CHECK(kind_of(&handle, event(KROFT_ARRIVE, 0, 0)) == KROFT_MOVED);
    }
    CHECK(kind_of(&handle, event(KROFT_SERVE, 1, 0)) == KROFT_MOVED);
    CHECK(kroft_apply(&handle, &behind, &a) == KROFT_DONE && a.kind == KROFT_REFUSED && a.cause == 12);
    pumped_dry(&handle);
    CHECK(kind_of(&handle, late) == KROFT_ACCEPTED);
    freed(&handle);
}

int main(void) {
    unsigned at;
    for (at = 0; at < WORDS; at++)
        image[at] = word(at, 0, 0, 0);
    store_behind_a_waiting_load();
    events_and_refusals();
    a_load_by_pumps();
    a_word_reaches_its_bank();
    views();
    a_closed_handle();
    ranges();
    a_large_memory();
    open_already();
    first_four();
    the_most();
    return checks_end("machine");
}
