/* The machine in rounds, from C99 and from C++17, a list of requests and one round at a time. What is counted of a list is what
   `./kroft drive --summary` writes of the same requests (tests/runs/drive.runs, examples/README.md). */
#include "check.h"
#include "kroft.h"
#include "words.h"

#include <stdlib.h>
#include <string.h>

enum { WORDS = 64, MOST_REQUESTS = 16777216 };

static kroft_word image[WORDS];

/* The program's own machine. */
static const kroft_shape usual = {2, 4, 4, 4, WORDS, 4, 4, 8, 8, 8};

/* It, with so many banks. */
static kroft_machine opened(uint32_t banks) {
    kroft_machine handle = KROFT_NO_MACHINE;
    kroft_shape shape = usual;
    shape.banks = banks;
    CHECK(kroft_machine_open(&handle, &shape, image, WORDS) == KROFT_OK);
    return handle;
}

static kroft_event request(uint32_t kind, uint16_t tag, uint32_t at) {
    kroft_event e;
    memset(&e, 0, sizeof e);
    e.kind = kind;
    e.tag = tag;
    e.at = at;
    e.lanes = 15;
    return e;
}

/* One load, which misses: how long its run and its wait are. */
static void one_load(uint32_t banks, uint32_t latency, uint32_t busy, uint64_t rounds, uint64_t waited) {
    kroft_machine handle = opened(banks);
    kroft_event load = request(KROFT_LOAD, 1, 0);
    kroft_counts c, expected;
    uint64_t weight = 77;
    uint32_t settled;
    memset(&c, 0x77, sizeof c);
    memset(&expected, 0, sizeof expected);
    expected.rounds = rounds;
    expected.accepted = expected.misses = expected.values = expected.registers = 1;
    expected.waited = expected.longest = waited;
    CHECK(kroft_machine_drive(&handle, latency, busy, &load, 1, &c) == KROFT_OK);
    CHECK(memcmp(&c, &expected, offsetof(kroft_counts, registers)) == 0 && c.registers == 1);
    CHECK(kroft_machine_weight(&handle, &weight, &settled) == KROFT_OK && weight == 0);
    /* again: a hit, which is ready at once and taken in the next round; and nothing more */
    CHECK(kroft_machine_drive(&handle, latency, busy, &load, 1, &c) == KROFT_OK);
    CHECK(c.rounds == 3 && c.accepted == 1 && c.hits == 1 && c.misses == 0 && c.values == 1 && c.waited == 1 && c.registers == 0);
    CHECK(kroft_machine_drive(&handle, latency, busy, &load, 0, &c) == KROFT_OK && c.rounds == 1 && c.accepted == 0);
    CHECK(kroft_machine_close(&handle) == KROFT_OK);
}

/* Three loads of three blocks, each of which takes a register of its own. */
static void three_loads(void) {
    kroft_machine handle = opened(4);
    kroft_event loads[3];
    kroft_counts c;
    unsigned n;
    for (n = 0; n < 3; n++) loads[n] = request(KROFT_LOAD, (uint16_t)(n + 1), 4 * n);
    CHECK(kroft_machine_drive(&handle, 10, 10, loads, 3, &c) == KROFT_OK);
    CHECK(c.rounds == 38 && c.accepted == 3 && c.misses == 3 && c.stalled == 0 && c.values == 3);
    CHECK(c.waited == 63 && c.longest == 31 && c.registers == 3 && c.written == 0);
    CHECK(kroft_machine_close(&handle) == KROFT_OK);
}

/* The counts of these requests, of a machine of this shape in which nothing has happened. */
static kroft_counts counted(const kroft_shape *shape, uint32_t latency, const kroft_event *requests, size_t n) {
    kroft_machine handle = KROFT_NO_MACHINE;
    kroft_counts c;
    memset(&c, 0x77, sizeof c);
    CHECK(kroft_machine_open(&handle, shape, image, WORDS) == KROFT_OK);
    CHECK(kroft_machine_drive(&handle, latency, latency, requests, n, &c) == KROFT_OK);
    CHECK(kroft_machine_close(&handle) == KROFT_OK);
    return c;
}

/* What becomes of requests: three that are denied, and three stores, whose block is given up and written back. */
static void ends(void) {
    kroft_event e[7];
    kroft_counts c;
    uint32_t at;
    e[0] = request(KROFT_LOAD, 1, WORDS);
    e[1] = request(KROFT_EVICT, 0, 3);
    e[2] = request(KROFT_STORE, 0, 0);
    e[2].lanes = 0xf0;
    for (at = 0; at < 3; at++) e[3 + at] = request(KROFT_STORE, 0, at);
    e[6] = request(KROFT_EVICT, 0, 0);
    c = counted(&usual, 0, e, 7);
    CHECK(c.denied == 3 && c.accepted == 4 && c.misses == 1 && c.joins == 2 && c.hits == 0 && c.stalled == 0);
    CHECK(c.values == 0 && c.waited == 0 && c.longest == 0 && c.written == 3 && c.registers == 1);
}

/* The rounds that requests lost, all to one cause. */
static uint64_t lost_to(uint32_t cause, kroft_counts c) {
    uint64_t lost[KROFT_BANK_FULL + 1] = {0}, others = 0;
    unsigned n;
    lost[KROFT_TAG_IN_USE] = c.lost_tag_in_use;
    lost[KROFT_REPLIES_FULL] = c.lost_replies_full;
    lost[KROFT_TARGETS_FULL] = c.lost_targets_full;
    lost[KROFT_NO_REGISTER] = c.lost_no_register;
    lost[KROFT_SET_PENDING] = c.lost_set_pending;
    lost[KROFT_QUEUE_FULL] = c.lost_queue_full;
    lost[KROFT_BANK_FULL] = c.lost_bank_full;
    for (n = 0; n <= KROFT_BANK_FULL; n++) others += n == cause ? 0 : lost[n];
    CHECK(others == 0);
    return lost[cause];
}

static void lost_rounds(void) {
    kroft_shape shape;
    kroft_event e[10];
    kroft_counts c;
    unsigned n;
    /* one tag twice: the second load waits for the first one's value, which comes 11 rounds behind its acceptance */
    e[0] = e[1] = request(KROFT_LOAD, 9, 16);
    c = counted(&usual, 10, e, 2);
    CHECK(lost_to(KROFT_TAG_IN_USE, c) == 10 && c.stalled == 1 && c.misses == 1 && c.hits == 1 && c.joins == 0 && c.values == 2);
    CHECK(c.waited == 12 && c.longest == 11);
    /* room for one load: the same under two tags */
    shape = usual;
    shape.replies = 1;
    e[1].tag = 10;
    CHECK(lost_to(KROFT_REPLIES_FULL, counted(&shape, 10, e, 2)) == 10);
    /* five loads of one word, for which four may wait: the fifth is refused until the word was processed, in round 12 */
    for (n = 0; n < 5; n++) e[n] = request(KROFT_LOAD, (uint16_t)n, 32);
    c = counted(&usual, 10, e, 5);
    CHECK(lost_to(KROFT_TARGETS_FULL, c) == 7 && c.stalled == 1 && c.joins == 3 && c.misses == 1 && c.hits == 1);
    /* five blocks of four sets, of which four have registers */
    for (n = 0; n < 5; n++) e[n] = request(KROFT_PREFETCH, 0, 4 * n);
    CHECK(lost_to(KROFT_NO_REGISTER, counted(&usual, 10, e, 5)) > 0);
    /* three blocks of one set, which has two ways */
    for (n = 0; n < 3; n++) e[n] = request(KROFT_PREFETCH, 0, 16 * n);
    CHECK(lost_to(KROFT_SET_PENDING, counted(&usual, 10, e, 3)) > 0);
    /* two blocks whose four words are all to be written back: the queue has room for four, and one leaves it in a round */
    for (n = 0; n < 8; n++) e[n] = request(KROFT_STORE, 0, n);
    e[8] = request(KROFT_EVICT, 0, 0);
    e[9] = request(KROFT_EVICT, 0, 1);
    shape = usual;
    shape.write_queue = 4;
    c = counted(&shape, 0, e, 10);
    CHECK(lost_to(KROFT_QUEUE_FULL, c) == 3 && c.written == 8);
    /* two blocks, of which each has a word in each bank, and banks with room for one command */
    for (n = 0; n < 2; n++) e[n] = request(KROFT_PREFETCH, 0, 4 * n);
    shape = usual;
    shape.bank_queue = 1;
    CHECK(lost_to(KROFT_BANK_FULL, counted(&shape, 10, e, 2)) > 0);
}

/* What a round tells that offers this request, or none. */
static kroft_round_row a_round(kroft_machine *handle, const kroft_event *offered) {
    kroft_event none = request(KROFT_TAKE, 0, 0);
    kroft_round_row row;
    memset(&row, 0x77, sizeof row);
    CHECK(kroft_machine_round(handle, offered ? offered : &none, offered != NULL, &row) == KROFT_OK);
    return row;
}

static void tells(kroft_round_row row, uint64_t round, uint32_t outcome, uint32_t cause, uint32_t found) {
    CHECK(row.round == round && row.outcome == outcome && row.cause == cause && row.found == found);
}

/* The load that was answered, or none where the tag is 0. */
static void answers(kroft_round_row row, uint16_t tag, uint8_t first) {
    CHECK(row.answered == (tag ? 1u : 0u) && row.tag == tag && is_word(row.word, first, 0, 0, 0));
}

/* A scene by hand, with banks that serve two rounds after they began. The load of round 1 misses, and its four words' commands
   come to the four banks, which begin them in round 2 and serve them in round 4. In round 4 word 0 arrives too, is processed
   for both loads that wait, and the first of them is answered; in round 5 the second one. The block's other words are
   processed in rounds 5, 6 and 7, one in each. */
static void a_scene(void) {
    kroft_word words[WORDS];
    kroft_machine handle = KROFT_NO_MACHINE;
    kroft_event first = request(KROFT_LOAD, 1, 0), second = request(KROFT_LOAD, 2, 0), outside = request(KROFT_LOAD, 3, WORDS);
    kroft_event absent = request(KROFT_EVICT, 0, 3), no_lane = request(KROFT_STORE, 0, 0), last = request(KROFT_LOAD, 5, 3);
    kroft_counts c, expected;
    kroft_round_row row;
    uint64_t weight = 77;
    uint32_t settled;
    memset(words, 0, sizeof words);
    words[0] = word(10, 0, 0, 0);
    words[3] = word(13, 0, 0, 0);
    no_lane.lanes = 0xf0;
    CHECK(kroft_machine_open(&handle, &usual, words, WORDS) == KROFT_OK);
    CHECK(kroft_machine_begin_rounds(&handle, 2, 2) == KROFT_OK);
    row = a_round(&handle, &first);
    tells(row, 1, KROFT_ROUND_ACCEPTED, 0, KROFT_MISS);
    answers(row, 0, 0);
    row = a_round(&handle, &first);
    tells(row, 2, KROFT_ROUND_LOST, KROFT_TAG_IN_USE, KROFT_JOIN);
    answers(row, 0, 0);
    row = a_round(&handle, &second);
    tells(row, 3, KROFT_ROUND_ACCEPTED, 0, KROFT_JOIN);
    answers(row, 0, 0);
    row = a_round(&handle, &outside);
    tells(row, 4, KROFT_ROUND_DENIED, KROFT_OUT_OF_RANGE, KROFT_NO_LOOKUP);
    answers(row, 1, 10);
    row = a_round(&handle, &absent);
    tells(row, 5, KROFT_ROUND_DENIED, KROFT_NOT_PRESENT, KROFT_NO_LOOKUP);
    answers(row, 2, 10);
    row = a_round(&handle, &no_lane);
    tells(row, 6, KROFT_ROUND_DENIED, KROFT_NO_LANES, KROFT_HIT);
    answers(row, 0, 0);
    CHECK(kroft_machine_weight(&handle, &weight, &settled) == KROFT_OK && weight > 0);
    row = a_round(&handle, NULL);
    tells(row, 7, KROFT_ROUND_IDLE, 0, KROFT_NO_LOOKUP);
    answers(row, 0, 0);
    CHECK(kroft_machine_weight(&handle, &weight, &settled) == KROFT_OK && weight == 0);
    memset(&expected, 0, sizeof expected);
    expected.rounds = 7;
    expected.accepted = 2;
    expected.denied = 3;
    expected.joins = expected.misses = expected.stalled = expected.lost_tag_in_use = expected.registers = 1;
    expected.values = 2;
    expected.waited = 3 + 2;
    expected.longest = 3;
    memset(&c, 0x77, sizeof c);
    CHECK(kroft_machine_round_counts(&handle, &c) == KROFT_OK);
    CHECK(memcmp(&c, &expected, offsetof(kroft_counts, registers)) == 0 && c.registers == 1);
    /* a hit is ready at once, and taken in the next round */
    row = a_round(&handle, &last);
    tells(row, 8, KROFT_ROUND_ACCEPTED, 0, KROFT_HIT);
    answers(row, 0, 0);
    answers(a_round(&handle, NULL), 5, 13);
    CHECK(kroft_machine_close(&handle) == KROFT_OK);
}

/* Of a store's lanes bits 4 to 7 are dropped in rounds too, made from a list or one at a time: no view shows them. */
static void four_lanes(void) {
    unsigned lanes;
    for (lanes = 0; lanes < 512; lanes++) {
        const uint8_t four = (uint8_t)(lanes & 15);
        kroft_machine handle = opened(4);
        kroft_event store = request(KROFT_STORE, 0, 5), evict = request(KROFT_EVICT, 0, 1);
        kroft_register_view r;
        kroft_field_view f;
        kroft_frame_view frame;
        kroft_frame_word_view w;
        kroft_queued_view queued;
        kroft_answer a;
        kroft_counts c;
        store.lanes = (uint8_t)(lanes & 255);
        store.word = word(1, 2, 3, 4);
        if (lanes < 256) {
            CHECK(kroft_machine_drive(&handle, 1, 1, &store, 1, &c) == KROFT_OK && c.accepted == (four ? 1u : 0u));
        } else {
            CHECK(kroft_machine_begin_rounds(&handle, 1, 1) == KROFT_OK);
            tells(a_round(&handle, &store), 1, four ? KROFT_ROUND_ACCEPTED : KROFT_ROUND_DENIED, four ? 0 : KROFT_NO_LANES, KROFT_MISS);
            CHECK(kroft_machine_register(&handle, 0, &r) == KROFT_OK && r.valid == (four ? 1u : 0u));
            CHECK(kroft_machine_field(&handle, 0, 1, &f) == KROFT_OK && f.code == four);
            CHECK(kroft_machine_end_rounds(&handle) == KROFT_OK);
        }
        if (four) { /* block 1 lies in set 1, whose first frame is frame 2 */
            CHECK(kroft_machine_frame(&handle, 2, &frame) == KROFT_OK && frame.valid == 1 && frame.block == 1);
            CHECK(kroft_machine_frame_word(&handle, 2, 1, &w) == KROFT_OK && w.dirty == four);
            CHECK(kroft_machine_apply(&handle, &evict, &a) == KROFT_OK && a.kind == KROFT_ACCEPTED);
            CHECK(kroft_machine_queue_entry(&handle, 0, &queued) == KROFT_OK && queued.at == 5 && queued.lanes == four);
        }
        CHECK(kroft_machine_close(&handle) == KROFT_OK);
    }
}

/* The loop that kroft.h and docs/C.md print (scripts/check_library compares the line): it gets by a request that is denied. */
static void the_loop(void) {
    kroft_machine handle = opened(4);
    kroft_event requests[4];
    size_t next = 0;
    uint32_t has_request = 0, answered = 0, rounds = 0;
    requests[0] = request(KROFT_LOAD, 1, 0);
    requests[1] = request(KROFT_LOAD, 1, 0); /* lost until the first one is answered */
    requests[2] = request(KROFT_LOAD, 2, WORDS);
    requests[3] = request(KROFT_LOAD, 3, 0);
    CHECK(kroft_machine_begin_rounds(&handle, 10, 2) == KROFT_OK);
    while (answered < 3 && rounds++ < 100) {
        kroft_event request;
        kroft_round_row told;
        if (!has_request && next < 4) next++, has_request = 1;
        request = requests[next - 1];
        CHECK(kroft_machine_round(&handle, &request, has_request, &told) == KROFT_OK);
        if (told.outcome != KROFT_ROUND_LOST) has_request = 0;
        if (told.answered) answered++;
    }
    CHECK(answered == 3 && next == 4 && kroft_machine_close(&handle) == KROFT_OK);
}

/* One bank, which begins a command each round (or each second one) and serves it five rounds later: the words of the block come
   in rounds 7, 8, 9 and 10 (or 7, 9, 11 and 13), and a load of the last one is answered then. */
static void pipelines(void) {
    unsigned busy, at, round;
    for (busy = 1; busy <= 2; busy++) {
        for (at = 0; at < 4; at++) {
            kroft_machine handle = opened(1);
            kroft_event load = request(KROFT_LOAD, 9, at);
            kroft_round_row row;
            CHECK(kroft_machine_begin_rounds(&handle, 5, busy) == KROFT_OK);
            row = a_round(&handle, &load);
            tells(row, 1, KROFT_ROUND_ACCEPTED, 0, KROFT_MISS);
            for (round = 2; round < 20; round++) answers(a_round(&handle, NULL), round == 7 + busy * at ? 9 : 0, 0);
            CHECK(kroft_machine_close(&handle) == KROFT_OK);
        }
    }
}

/* Whether two machines show the same blocks, words and dirty lanes, and the same words of memory. */
static int are_alike(kroft_machine *one, kroft_machine *other, const kroft_shape *shape) {
    uint32_t frame, i, at;
    int alike = 1;
    for (frame = 0; frame < shape->sets * shape->ways; frame++) {
        kroft_frame_view a = {7, 7}, b = {7, 7};
        alike &= kroft_machine_frame(one, frame, &a) == KROFT_OK && kroft_machine_frame(other, frame, &b) == KROFT_OK;
        alike &= a.valid == b.valid && a.block == b.block;
        for (i = 0; i < shape->block_words; i++) {
            kroft_frame_word_view v, w;
            memset(&v, 0, sizeof v);
            memset(&w, 0, sizeof w);
            alike &= kroft_machine_frame_word(one, frame, i, &v) == kroft_machine_frame_word(other, frame, i, &w);
            alike &= memcmp(&v.word, &w.word, sizeof v.word) == 0 && v.dirty == w.dirty;
        }
    }
    for (at = 0; at < shape->words; at++) {
        kroft_word v, w;
        alike &= kroft_machine_bank_word(one, at, &v) == KROFT_OK && kroft_machine_bank_word(other, at, &w) == KROFT_OK;
        alike &= memcmp(&v, &w, sizeof v) == 0;
    }
    return alike;
}

/* Offers these requests, each until it ends, until nothing is on its way. Each load gets the word that an array has for it. */
static void offer_all(kroft_machine *handle, const kroft_event *requests, size_t n) {
    uint32_t settled;
    kroft_word memory[WORDS], owed[256];
    uint64_t weight = 1, round = 0, lost = 0;
    size_t done = 0;
    memcpy(memory, image, sizeof memory);
    for (; done < n || weight > 0; round++) {
        kroft_round_row row;
        CHECK(kroft_machine_round(handle, requests + done, n - done, &row) == KROFT_OK && row.round == round + 1);
        CHECK(row.outcome == KROFT_ROUND_IDLE ? done == n : done < n);
        if (row.answered) CHECK(memcmp(&row.word, &owed[row.tag], sizeof row.word) == 0);
        if (row.outcome == KROFT_ROUND_ACCEPTED) {
            const kroft_event *e = requests + done;
            unsigned lane;
            if (e->kind == KROFT_LOAD) owed[e->tag] = memory[e->at];
            for (lane = 0; lane < 4; lane++)
                if (e->kind == KROFT_STORE && e->lanes >> lane & 1) memory[e->at].b[lane] = e->word.b[lane];
        }
        if (row.outcome == KROFT_ROUND_ACCEPTED || row.outcome == KROFT_ROUND_DENIED) done++;
        lost += row.outcome == KROFT_ROUND_LOST;
        CHECK(kroft_machine_weight(handle, &weight, &settled) == KROFT_OK);
        if (round > 100000) return;
    }
}

/* A list of random requests, driven and one round at a time: the same machine and the same counts, once the round in which
   nothing moves is made too. */
static void same_run(const kroft_shape *shape, uint32_t latency, uint32_t busy, uint32_t seed) {
    enum { REQUESTS = 300 };
    static kroft_event e[REQUESTS];
    kroft_machine driven = KROFT_NO_MACHINE, stepped = KROFT_NO_MACHINE;
    kroft_counts c, d;
    kroft_round_row row;
    uint64_t weight = 77;
    uint32_t settled;
    unsigned n;
    for (n = 0; n < REQUESTS; n++) {
        seed = seed * 1664525 + 1013904223;
        e[n] = request(seed >> 30, (uint16_t)(seed >> 20 & 15), seed >> 10 & 63);
        if (n % 8 == 0) e[n].at += WORDS;
        if (e[n].kind == KROFT_EVICT) e[n].at %= WORDS / shape->block_words;
        e[n].lanes = (uint8_t)(seed >> 4 & 15);
        e[n].word = word(n, seed & 255, seed >> 8 & 255, 7);
    }
    CHECK(kroft_machine_open(&driven, shape, image, WORDS) == KROFT_OK && kroft_machine_open(&stepped, shape, image, WORDS) == KROFT_OK);
    CHECK(kroft_machine_drive(&driven, latency, busy, e, REQUESTS, &c) == KROFT_OK);
    CHECK(c.accepted + c.denied == REQUESTS && c.values > 0 && c.denied > 0 && c.misses > 0);
    CHECK(c.stalled > 0 || latency < 3);
    CHECK(kroft_machine_begin_rounds(&stepped, latency, busy) == KROFT_OK);
    offer_all(&stepped, e, REQUESTS);
    CHECK(kroft_machine_round_counts(&stepped, &d) == KROFT_OK && d.rounds + 1 == c.rounds);
    row = a_round(&stepped, NULL);
    CHECK(row.round == c.rounds && row.answered == 0);
    CHECK(kroft_machine_round_counts(&stepped, &d) == KROFT_OK);
    CHECK(memcmp(&c, &d, offsetof(kroft_counts, registers)) == 0 && c.registers == d.registers);
    CHECK(are_alike(&driven, &stepped, shape) && kroft_machine_weight(&stepped, &weight, &settled) == KROFT_OK && weight == 0);
    CHECK(kroft_machine_close(&driven) == KROFT_OK && kroft_machine_close(&stepped) == KROFT_OK);
}

static void same_runs(void) {
    static const uint32_t timings[][2] = {{0, 0}, {1, 1}, {3, 0}, {3, 1}, {7, 2}, {10, 10}, {10, UINT32_MAX}, {100, 7}};
    static const kroft_shape small = {1, 4, 1, 1, WORDS, 2, 3, 2, 4, 1}, large = {4, 8, 8, 8, WORDS, 2, 8, 16, 16, 8};
    const kroft_shape *shapes[3];
    unsigned n, k;
    shapes[0] = &usual;
    shapes[1] = &small;
    shapes[2] = &large;
    for (n = 0; n < sizeof timings / sizeof timings[0]; n++)
        for (k = 0; k < 3; k++) same_run(shapes[k], timings[n][0], timings[n][1], 3 * n + k);
}

/* Rounds have the machine to themselves, may be begun anew, and end. */
static void beginnings(void) {
    kroft_machine handle = KROFT_NO_MACHINE;
    kroft_event load = request(KROFT_LOAD, 1, 0), e = request(KROFT_SERVE, 0, 0);
    kroft_event kinds = load;
    kroft_answer a;
    kroft_counts c;
    kroft_round_row row;
    uint32_t lookup = 77;
    memset(&a, 0x77, sizeof a);
    memset(&c, 0x77, sizeof c);
    memset(&row, 0x77, sizeof row);
    kinds.kind = KROFT_DRAIN;
    /* no machine, and then no rounds */
    CHECK(kroft_machine_begin_rounds(&handle, 1001, 0) == KROFT_FAIL_CLOSED && kroft_machine_end_rounds(&handle) == KROFT_FAIL_CLOSED);
    CHECK(kroft_machine_round(&handle, &kinds, 1, &row) == KROFT_FAIL_CLOSED && kroft_machine_round_counts(&handle, &c) == KROFT_FAIL_CLOSED);
    handle = opened(4);
    CHECK(kroft_machine_begin_rounds(&handle, 1001, 0) == KROFT_FAIL_BAD_LATENCY && kroft_machine_begin_rounds(&handle, UINT32_MAX, 0) == KROFT_FAIL_BAD_LATENCY);
    CHECK(kroft_machine_round(&handle, &kinds, 1, &row) == KROFT_FAIL_NO_ROUNDS && kroft_machine_round(&handle, &load, 1, &row) == KROFT_FAIL_NO_ROUNDS);
    CHECK(kroft_machine_round_counts(&handle, &c) == KROFT_FAIL_NO_ROUNDS && kroft_machine_end_rounds(&handle) == KROFT_FAIL_NO_ROUNDS);
    CHECK(row.round == 0x7777777777777777 && c.rounds == 0x7777777777777777);
    /* rounds: only requests are offered, and only the first is looked at */
    CHECK(kroft_machine_begin_rounds(&handle, 1000, UINT32_MAX) == KROFT_OK);
    for (kinds.kind = KROFT_DRAIN; kinds.kind < 12; kinds.kind++) CHECK(kroft_machine_round(&handle, &kinds, 1, &row) == KROFT_FAIL_NO_EVENT);
    CHECK(row.round == 0x7777777777777777);
    CHECK(kroft_machine_round_counts(&handle, &c) == KROFT_OK && c.rounds == 0 && c.accepted == 0);
    CHECK(kroft_machine_round(&handle, &kinds, 0, &row) == KROFT_OK && row.round == 1 && row.outcome == KROFT_ROUND_IDLE);
    {
        kroft_event two[2];
        two[0] = load;
        two[1] = kinds;
        CHECK(kroft_machine_round(&handle, two, 2, &row) == KROFT_OK && row.round == 2 && row.outcome == KROFT_ROUND_ACCEPTED);
    }
    /* nobody else makes events, or drives, and everybody may look */
    c.rounds = 77;
    CHECK(kroft_machine_apply(&handle, &e, &a) == KROFT_FAIL_IN_ROUNDS && kroft_machine_pump(&handle, &e, &a) == KROFT_FAIL_IN_ROUNDS);
    CHECK(kroft_machine_apply(&handle, &kinds, &a) == KROFT_FAIL_IN_ROUNDS && a.kind == 0x77777777 && e.kind == KROFT_SERVE);
    CHECK(kroft_machine_drive(&handle, 1001, 1, &load, 1, &c) == KROFT_FAIL_IN_ROUNDS && c.rounds == 77);
    CHECK(kroft_machine_find(&handle, 0, &lookup) == KROFT_OK && lookup == KROFT_JOIN);
    /* (latency 1001 leaves the rounds that were begun before) */
    CHECK(kroft_machine_begin_rounds(&handle, 1001, 0) == KROFT_FAIL_BAD_LATENCY && kroft_machine_round_counts(&handle, &c) == KROFT_OK && c.rounds == 2);
    /* begun anew, with banks that serve at once: the load that is on its way is answered in the first round */
    CHECK(kroft_machine_begin_rounds(&handle, 0, 0) == KROFT_OK && kroft_machine_round_counts(&handle, &c) == KROFT_OK);
    CHECK(c.rounds == 0 && c.accepted == 0 && c.misses == 0);
    row = a_round(&handle, NULL);
    tells(row, 1, KROFT_ROUND_IDLE, 0, KROFT_NO_LOOKUP);
    answers(row, 1, 0);
    CHECK(kroft_machine_round_counts(&handle, &c) == KROFT_OK && c.rounds == 1 && c.values == 1 && c.waited == 1 && c.accepted == 0);
    /* ended: the caller makes the events again */
    CHECK(kroft_machine_end_rounds(&handle) == KROFT_OK && kroft_machine_end_rounds(&handle) == KROFT_FAIL_NO_ROUNDS);
    CHECK(kroft_machine_round(&handle, &load, 1, &row) == KROFT_FAIL_NO_ROUNDS && row.round == 1);
    CHECK(kroft_machine_apply(&handle, &load, &a) == KROFT_OK && a.kind == KROFT_ACCEPTED && kroft_machine_pump(&handle, &e, &a) == KROFT_OK);
    CHECK(a.kind == KROFT_VALUE && a.tag == 1);
    CHECK(kroft_machine_drive(&handle, 1, 1, &load, 1, &c) == KROFT_OK && c.hits == 1);
    CHECK(kroft_machine_begin_rounds(&handle, 1, 1) == KROFT_OK && kroft_machine_close(&handle) == KROFT_OK);
}

static void is_refused(kroft_machine *handle, uint32_t latency, const kroft_event *requests, size_t n, uint32_t status) {
    kroft_counts c;
    uint32_t lookup = 77;
    c.rounds = 77;
    CHECK(kroft_machine_drive(handle, latency, 1, requests, n, &c) == status && c.rounds == 77);
    if (status != KROFT_FAIL_CLOSED) CHECK(kroft_machine_find(handle, 0, &lookup) == KROFT_OK && lookup == KROFT_MISS);
}

/* What isn't driven leaves everything as it was, and is looked for in its order. */
static void refusals(void) {
    kroft_machine handle = KROFT_NO_MACHINE;
    size_t most = (size_t)MOST_REQUESTS + 1;
    kroft_event *many = (kroft_event *)calloc(most, sizeof *many);
    kroft_event wrong[2];
    uint32_t kind;
    wrong[0] = request(KROFT_LOAD, 1, 0);
    is_refused(&handle, 1001, wrong, 1, KROFT_FAIL_CLOSED);
    handle = opened(4);
    for (kind = KROFT_DRAIN; kind < 12; kind++) {
        wrong[1] = request(kind, 0, 0);
        is_refused(&handle, 1000, wrong, 2, KROFT_FAIL_NO_EVENT);
        is_refused(&handle, 1001, wrong, 2, KROFT_FAIL_BAD_LATENCY);
    }
    is_refused(&handle, UINT32_MAX, wrong, 1, KROFT_FAIL_BAD_LATENCY);
    CHECK(many != NULL);
    if (many != NULL) {
        many[0].kind = 9;
        is_refused(&handle, 0, many, most, KROFT_FAIL_TOO_MANY);
        is_refused(&handle, 1001, many, most, KROFT_FAIL_BAD_LATENCY);
        is_refused(&handle, 0, many, most - 1, KROFT_FAIL_NO_EVENT);
    }
    free(many);
    CHECK(kroft_machine_close(&handle) == KROFT_OK);
}

int main(void) {
    one_load(4, 10, 10, 16, 11);
    one_load(4, 0, 0, 6, 1);
    one_load(1, 5, 1, 11, 6);
    one_load(1, 5, 0, 11, 6);
    one_load(1, 5, 2, 14, 6);
    one_load(1, 5, 5, 26, 6);
    one_load(1, 5, UINT32_MAX, 26, 6);
    one_load(1, 9, 2, 18, 10);
    three_loads();
    ends();
    lost_rounds();
    refusals();
    a_scene();
    four_lanes();
    the_loop();
    pipelines();
    same_runs();
    beginnings();
    return checks_end("rounds");
}
