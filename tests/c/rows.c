/* Each member of each row is what it is called: every row is written, and read back through the library, with values that
   all differ, so that two members that changed places would be seen. */
#include "check.h"
#include "kroft.h"
#include "words.h"

#include <string.h>

enum { WORDS = 48 };

/* 4 sets, and 5 banks; all numbers behind the first four differ. */
static const kroft_shape shape = {2, 4, 8, 4, WORDS, 4, 5, 7, 9, 11};
static kroft_word image[WORDS];

/* An event in whose row the members that its kind doesn't read hold something, too. */
static kroft_event event(uint32_t kind, uint16_t tag, uint8_t lanes, uint32_t at, uint32_t place, kroft_word w) {
    kroft_event e;
    e.kind = kind;
    e.tag = tag;
    e.lanes = lanes;
    e.at = at;
    e.place = place;
    e.word = w;
    return e;
}

static kroft_event load(uint16_t tag, uint32_t at) { return event(KROFT_LOAD, tag, 6, at, 77, word(91, 92, 93, 94)); }
static kroft_event store(uint32_t at, uint8_t lanes, kroft_word w) { return event(KROFT_STORE, 501, lanes, at, 78, w); }
static kroft_event move(uint32_t kind, uint32_t at, uint32_t place) {
    return event(kind, 502, 9, at, place, word(95, 96, 97, 98));
}

static uint32_t kind_of(kroft_machine *handle, kroft_event e) {
    kroft_answer a;
    CHECK(kroft_machine_apply(handle, &e, &a) == KROFT_OK);
    return a.kind;
}

static kroft_answer answer_to(kroft_machine *handle, kroft_event e) {
    kroft_answer a;
    memset(&a, 0xff, sizeof a);
    CHECK(kroft_machine_apply(handle, &e, &a) == KROFT_OK);
    return a;
}

static kroft_machine opened(void) {
    kroft_machine handle = KROFT_NO_MACHINE;
    unsigned n;
    for (n = 0; n < WORDS; n++) image[n] = word(n, n + 50, n + 100, n + 150);
    CHECK(kroft_machine_open(&handle, &shape, image, WORDS) == KROFT_OK);
    return handle;
}

/* A machine of 3 ways, 6 words a block, 5 registers and 2 places of the stack, which all differ. */
static void first_four(void) {
    kroft_machine handle = KROFT_NO_MACHINE;
    kroft_shape s = shape;
    kroft_register_view r;
    kroft_field_view f;
    kroft_frame_view frame;
    uint32_t bank;
    s.ways = 3;
    s.block_words = 6;
    s.regs = 5;
    s.depth = 2;
    CHECK(kroft_machine_open(&handle, &s, image, WORDS) == KROFT_OK);
    CHECK(kroft_machine_register(&handle, 4, &r) == KROFT_OK && kroft_machine_register(&handle, 5, &r) == KROFT_ABSENT);
    CHECK(kroft_machine_field(&handle, 0, 5, &f) == KROFT_OK && kroft_machine_field(&handle, 0, 6, &f) == KROFT_ABSENT);
    CHECK(kroft_machine_frame(&handle, 11, &frame) == KROFT_OK && kroft_machine_frame(&handle, 12, &frame) == KROFT_ABSENT);
    CHECK(kind_of(&handle, move(KROFT_PREFETCH, 0, 0)) == KROFT_ACCEPTED);
    for (bank = 0; bank < 3; bank++) { /* the third word finds the stack full */
        CHECK(kind_of(&handle, move(KROFT_SERVE, bank, 0)) == KROFT_MOVED);
        CHECK(kind_of(&handle, move(KROFT_ARRIVE, bank, 0)) == (bank < 2 ? KROFT_MOVED : KROFT_REFUSED));
    }
    CHECK(kroft_machine_close(&handle) == KROFT_OK);
}

/* Each of the other numbers has a fault of its own. */
static void shapes(void) {
    kroft_machine handle = KROFT_NO_MACHINE;
    kroft_word w;
    unsigned n;
    for (n = 0; n < 6; n++) {
        kroft_shape s = shape;
        if (n == 0) s.words = 0;
        if (n == 1) s.sets = 0;
        if (n == 2) s.banks = 0;
        if (n == 3) s.bank_queue = 0;
        if (n == 4) s.write_queue = 0;
        if (n == 5) s.replies = 0;
        CHECK(kroft_machine_open(&handle, &s, image, WORDS) == KROFT_FAIL_BAD_WORDS + n);
    }
    handle = opened();
    CHECK(kroft_machine_bank_word(&handle, WORDS - 1, &w) == KROFT_OK && is_word(w, 47, 97, 147, 197));
    CHECK(kroft_machine_bank_word(&handle, WORDS, &w) == KROFT_ABSENT);
    CHECK(kroft_machine_close(&handle) == KROFT_OK);
}

/* A block on its way: block 7, which lies in set 3 and begins with word 28, in bank 3. */
static void views(void) {
    kroft_machine handle = opened();
    kroft_register_view r;
    kroft_field_view f;
    kroft_target_view t;
    CHECK(kind_of(&handle, store(29, 5, word(61, 62, 63, 64))) == KROFT_ACCEPTED);
    CHECK(kind_of(&handle, load(258, 29)) == KROFT_ACCEPTED);
    CHECK(kind_of(&handle, store(29, 2, word(71, 72, 73, 74))) == KROFT_ACCEPTED);
    CHECK(kind_of(&handle, load(259, 29)) == KROFT_ACCEPTED);
    CHECK(kind_of(&handle, load(260, 29)) == KROFT_ACCEPTED);
    /* word 28 is processed, word 30 stands in the stack, 29 and 31 are on their way */
    CHECK(kind_of(&handle, move(KROFT_SERVE, 3, 0)) == KROFT_MOVED);
    CHECK(kind_of(&handle, move(KROFT_ARRIVE, 3, 0)) == KROFT_MOVED);
    CHECK(kind_of(&handle, move(KROFT_PROCESS, 1, 0)) == KROFT_MOVED);
    CHECK(kind_of(&handle, move(KROFT_SERVE, 0, 3)) == KROFT_MOVED);
    CHECK(kind_of(&handle, move(KROFT_ARRIVE, 0, 0)) == KROFT_MOVED);
    CHECK(kroft_machine_register(&handle, 0, &r) == KROFT_OK);
    CHECK(r.valid == 1 && r.obsolete == 0 && r.block == 7 && r.frame == 6 && r.processed == 1);
    CHECK(kroft_machine_field(&handle, 0, 0, &f) == KROFT_OK);
    CHECK(f.send == 0 && f.in_stack == 0 && f.processed == 1 && f.targets == 0 && f.code == 0);
    CHECK(kroft_machine_field(&handle, 0, 2, &f) == KROFT_OK);
    CHECK(f.send == 0 && f.in_stack == 1 && f.processed == 0 && f.targets == 0 && f.code == 0);
    CHECK(kroft_machine_field(&handle, 0, 1, &f) == KROFT_OK);
    CHECK(f.send == 1 && f.in_stack == 0 && f.processed == 0);
    CHECK(f.targets == 3 && f.tag == 258 && f.code == 7 && f.held_lanes == 5 && f.held.b[0] == 61 && f.held.b[2] == 63);
    CHECK(kroft_machine_target(&handle, 0, 1, 2, &t) == KROFT_OK);
    CHECK(t.tag == 260 && t.lanes == 7 && t.held.b[0] == 61 && t.held.b[1] == 72 && t.held.b[2] == 63);
    CHECK(kroft_machine_target(&handle, 0, 2, 1, &t) == KROFT_ABSENT && kroft_machine_field(&handle, 1, 8, &f) == KROFT_ABSENT);
    /* given up: the register stays, without a frame */
    CHECK(kind_of(&handle, move(KROFT_EVICT, 7, 1)) == KROFT_ACCEPTED);
    CHECK(kroft_machine_register(&handle, 0, &r) == KROFT_OK);
    CHECK(r.valid == 1 && r.obsolete == 1 && r.block == 7 && r.frame == 0 && r.processed == 1);
    CHECK(kroft_machine_close(&handle) == KROFT_OK);
}

/* Two blocks on their way: block 7 as above, under register 0, and block 4, which lies in set 0 and begins with word 16, in
   bank 1, under register 1. Word `at` lies at place at / 5 of its bank. */
static void parts(void) {
    kroft_machine handle = opened();
    kroft_frame_view frame;
    kroft_frame_word_view w;
    kroft_arrival_view arrival;
    kroft_command_view command;
    kroft_queued_view queued;
    kroft_answer a;
    uint32_t lookup = 77;
    CHECK(kind_of(&handle, load(258, 29)) == KROFT_ACCEPTED);
    CHECK(kind_of(&handle, load(259, 18)) == KROFT_ACCEPTED);
    CHECK(kind_of(&handle, store(29, 5, word(61, 62, 63, 64))) == KROFT_ACCEPTED);
    CHECK(kroft_machine_frame(&handle, 6, &frame) == KROFT_OK && frame.valid == 1 && frame.block == 7);
    CHECK(kroft_machine_frame(&handle, 0, &frame) == KROFT_OK && frame.valid == 1 && frame.block == 4);
    CHECK(kroft_machine_frame_word(&handle, 6, 1, &w) == KROFT_OK && w.dirty == 5 && w.word.b[0] == 61 && w.word.b[2] == 63);
    CHECK(kroft_machine_frame_word(&handle, 6, 0, &w) == KROFT_OK && w.dirty == 0);
    CHECK(kroft_machine_find(&handle, 18, &lookup) == KROFT_OK && lookup == KROFT_JOIN);
    CHECK(kroft_machine_find(&handle, 40, &lookup) == KROFT_OK && lookup == KROFT_MISS);
    /* words 28 and 18 lie in bank 3, words 29 and 19 in bank 4 */
    CHECK(kroft_machine_bank_command(&handle, 3, 1, &command) == KROFT_OK);
    CHECK(command.kind == KROFT_READ && command.slot == 1 && command.i == 2 && command.place == 3);
    CHECK(command.lanes == 0 && is_word(command.word, 0, 0, 0, 0));
    CHECK(kind_of(&handle, move(KROFT_SERVE, 3, 0)) == KROFT_MOVED && kind_of(&handle, move(KROFT_SERVE, 3, 0)) == KROFT_MOVED);
    CHECK(kroft_machine_bank_answer(&handle, 3, 1, &arrival) == KROFT_OK);
    CHECK(arrival.slot == 1 && arrival.i == 2 && is_word(arrival.word, 18, 68, 118, 168));
    CHECK(kind_of(&handle, move(KROFT_ARRIVE, 3, 1)) == KROFT_MOVED && kind_of(&handle, move(KROFT_ARRIVE, 3, 0)) == KROFT_MOVED);
    CHECK(kroft_machine_stack_entry(&handle, 0, &arrival) == KROFT_OK);
    CHECK(arrival.slot == 1 && arrival.i == 2 && is_word(arrival.word, 18, 68, 118, 168));
    CHECK(kroft_machine_stack_entry(&handle, 1, &arrival) == KROFT_OK);
    CHECK(arrival.slot == 0 && arrival.i == 0 && is_word(arrival.word, 28, 78, 128, 178));
    CHECK(kroft_machine_find(&handle, 18, &lookup) == KROFT_OK && lookup == KROFT_HIT); /* also from the stack */
    CHECK(kind_of(&handle, move(KROFT_PROCESS, 1, 0)) == KROFT_MOVED);
    CHECK(kroft_machine_reply(&handle, 0, &a) == KROFT_OK);
    CHECK(a.kind == KROFT_VALUE && a.cause == 0 && a.tag == 259 && is_word(a.word, 18, 68, 118, 168));
    /* given up: the dirty bytes go to the write queue, and from there behind the two reads of bank 4 */
    CHECK(kind_of(&handle, move(KROFT_EVICT, 7, 1)) == KROFT_ACCEPTED);
    CHECK(kroft_machine_queue_entry(&handle, 0, &queued) == KROFT_OK && queued.block == 7 && queued.at == 29 && queued.lanes == 5);
    CHECK(queued.word.b[0] == 61 && queued.word.b[2] == 63);
    CHECK(kind_of(&handle, move(KROFT_DRAIN, 1, 2)) == KROFT_MOVED);
    CHECK(kroft_machine_bank_command(&handle, 4, 2, &command) == KROFT_OK);
    CHECK(command.kind == KROFT_WRITE && command.slot == 0 && command.i == 0 && command.place == 5);
    CHECK(command.lanes == 5 && command.word.b[0] == 61 && command.word.b[2] == 63);
    CHECK(kroft_machine_close(&handle) == KROFT_OK);
}

/* A value has its tag and its word, a refusal its cause; what an answer of its kind doesn't name is 0. */
static void answers(void) {
    kroft_machine handle = opened();
    kroft_answer a;
    CHECK(kind_of(&handle, load(258, 29)) == KROFT_ACCEPTED);
    a = answer_to(&handle, load(258, 30));
    CHECK(a.kind == KROFT_REFUSED && a.cause == KROFT_TAG_IN_USE && a.tag == 0 && is_word(a.word, 0, 0, 0, 0));
    /* word 29 lies in bank 4, whose answer comes to the first place of the stack */
    CHECK(kind_of(&handle, move(KROFT_SERVE, 4, 1)) == KROFT_MOVED);
    CHECK(kind_of(&handle, move(KROFT_ARRIVE, 0, 4)) == KROFT_NOTHING);
    CHECK(kind_of(&handle, move(KROFT_ARRIVE, 4, 0)) == KROFT_MOVED);
    CHECK(kind_of(&handle, move(KROFT_PROCESS, 0, 1)) == KROFT_NOTHING);
    CHECK(kind_of(&handle, move(KROFT_PROCESS, 1, 0)) == KROFT_MOVED);
    CHECK(kind_of(&handle, move(KROFT_TAKE, 0, 1)) == KROFT_NOTHING);
    a = answer_to(&handle, move(KROFT_TAKE, 1, 0));
    CHECK(a.kind == KROFT_VALUE && a.cause == 0 && a.tag == 258 && is_word(a.word, 29, 79, 129, 179));
    CHECK(kroft_machine_close(&handle) == KROFT_OK);
}

/* The driver's events have the bank in `at` and the place in `place`. */
static void pumped(void) {
    kroft_machine handle = opened();
    kroft_event e;
    kroft_answer a;
    CHECK(kind_of(&handle, load(258, 18)) == KROFT_ACCEPTED);
    CHECK(kroft_machine_pump(&handle, &e, &a) == KROFT_OK && a.kind == KROFT_MOVED);
    /* block 4 begins with word 16, in bank 1; the lowest bank with a command is bank 1 */
    CHECK(e.kind == KROFT_SERVE && e.at == 1 && e.place == 0 && e.tag == 0 && e.lanes == 0 && is_word(e.word, 0, 0, 0, 0));
    CHECK(kroft_machine_close(&handle) == KROFT_OK);
}

/* The judge reads the tag, the word and the lanes of its rows, and an entry of the table says what is owed. */
static void judged(void) {
    static kroft_due due[KROFT_TAGS];
    kroft_word words[3] = {{{1, 2, 3, 4}}, {{5, 6, 7, 8}}, {{9, 10, 11, 12}}}, owed = {{0, 0, 0, 0}};
    kroft_event e = load(258, 2);
    kroft_answer a = {KROFT_ACCEPTED, 11, 503, {{41, 42, 43, 44}}};
    uint16_t tag = 0;
    CHECK(kroft_flat_judge(words, 3, due, &e, &a, &owed) == KROFT_OK);
    CHECK(due[258].owed == 1 && is_word(due[258].word, 9, 10, 11, 12));
    CHECK(kroft_flat_unanswered(due, 0, &tag) == 1 && tag == 258);
    e = store(2, 6, word(31, 32, 33, 34));
    CHECK(kroft_flat_judge(words, 3, due, &e, &a, &owed) == KROFT_OK && is_word(words[2], 9, 32, 33, 12));
    e = move(KROFT_TAKE, 5, 6);
    a.kind = KROFT_VALUE;
    a.tag = 258;
    CHECK(kroft_flat_judge(words, 3, due, &e, &a, &owed) == KROFT_FAIL_WRONG_WORD && is_word(owed, 9, 10, 11, 12));
    a.word = owed;
    CHECK(kroft_flat_judge(words, 3, due, &e, &a, &owed) == KROFT_OK && due[258].owed == 0);
}

static void operations(void) {
    kroft_history history = KROFT_NO_HISTORY;
    kroft_history_operation it;
    uint64_t count;
    const uint8_t bytes[3] = {81, 82, 83};
    CHECK(kroft_history_open(&history, KROFT_REGULAR_LAW, 1, KROFT_ZEROS, bytes, 3) == KROFT_OK);
    CHECK(kroft_history_load_request(&history, 601, 702, 8, UINT64_MAX) == KROFT_OK);
    CHECK(kroft_history_store_request(&history, 603, 704, bytes, 3, 7) == KROFT_OK);
    CHECK(kroft_history_unanswered(&history, KROFT_LOAD, 0, &it, &count) == KROFT_OK && it.number == 601 && it.address == 702 && it.length == 8);
    CHECK(kroft_history_unanswered(&history, KROFT_STORE, 0, &it, &count) == KROFT_OK && it.number == 603 && it.address == 704 && it.length == 3);
    CHECK(kroft_history_close(&history) == KROFT_OK);
}

/* Three loads: one that may be answered in two ways, one beside a store of the byte that is there, and one that overtakes another. */
static void counted(void) {
    kroft_history history = KROFT_NO_HISTORY;
    kroft_history_counts counts;
    const uint8_t old[1] = {0}, later[1] = {84};
    CHECK(kroft_history_open(&history, KROFT_REGULAR_LAW, 1, KROFT_ZEROS, old, 1) == KROFT_OK && kroft_history_cover(&history) == KROFT_OK);
    CHECK(kroft_history_load_request(&history, 1, 16, 1, UINT64_MAX) == KROFT_OK && kroft_history_store_request(&history, 1, 16, later, 1, 1) == KROFT_OK);
    CHECK(kroft_history_load_request(&history, 2, 32, 1, UINT64_MAX) == KROFT_OK && kroft_history_store_request(&history, 2, 32, old, 1, 1) == KROFT_OK);
    CHECK(kroft_history_load_request(&history, 3, 48, 1, UINT64_MAX) == KROFT_OK && kroft_history_load_request(&history, 4, 48, 1, UINT64_MAX) == KROFT_OK);
    CHECK(kroft_history_load_response(&history, 1, old, 1) == KROFT_OK && kroft_history_load_response(&history, 2, old, 1) == KROFT_OK);
    CHECK(kroft_history_load_response(&history, 4, old, 1) == KROFT_OK && kroft_history_coverage(&history, &counts) == KROFT_OK);
    CHECK(counts.loads == 3 && counts.choices == 1 && counts.beside_store == 2 && counts.overtaking == 1);
    CHECK(kroft_history_close(&history) == KROFT_OK);
}

int main(void) {
    first_four();
    shapes();
    views();
    parts();
    answers();
    pumped();
    judged();
    operations();
    counted();
    return checks_end("rows");
}
