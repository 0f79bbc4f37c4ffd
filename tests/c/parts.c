/* What the parts of the machine show, and what a request would find, from C99 and from C++17. */
#include "check.h"
#include "kroft.h"
#include "words.h"

#include <string.h>

enum { WORDS = 64, SETS = 4, WAYS = 2, BLOCK_WORDS = 4, REGS = 8, DEPTH = 4, BANKS = 4, REPLIES = 8, RUN = 20000 };

static const kroft_shape shape = {WAYS, BLOCK_WORDS, REGS, DEPTH, WORDS, SETS, BANKS, 8, 8, REPLIES};
static kroft_word image[WORDS];

static kroft_machine opened(void) {
    kroft_machine handle = KROFT_NO_MACHINE;
    unsigned at;
    for (at = 0; at < WORDS; at++) image[at] = word(at, 0, 0, 0);
    CHECK(kroft_machine_open(&handle, &shape, image, WORDS) == KROFT_OK);
    return handle;
}

static kroft_event event(uint32_t kind, uint32_t at, uint32_t place) {
    kroft_event e;
    memset(&e, 0, sizeof e);
    e.kind = kind;
    e.at = at;
    e.place = place;
    return e;
}

/* The kind of the answer to an event. */
static uint32_t told(kroft_machine *handle, kroft_event e) {
    kroft_answer a;
    CHECK(kroft_machine_apply(handle, &e, &a) == KROFT_OK);
    return a.kind;
}

static uint32_t load(kroft_machine *handle, uint16_t tag, uint32_t at) {
    kroft_event e = event(KROFT_LOAD, at, 0);
    e.tag = tag;
    return told(handle, e);
}

static uint32_t store(kroft_machine *handle, uint32_t at, uint8_t lanes, kroft_word w) {
    kroft_event e = event(KROFT_STORE, at, 0);
    e.lanes = lanes;
    e.word = w;
    return told(handle, e);
}

/* In a machine in which nothing has happened every frame is free and nothing waits. */
static void nothing_yet(void) {
    kroft_machine handle = opened();
    kroft_frame_view frame;
    kroft_frame_word_view w;
    kroft_arrival_view arrival;
    kroft_queued_view queued;
    kroft_command_view command;
    kroft_answer a;
    uint32_t n, lookup;
    memset(&w, 0x77, sizeof w);
    memset(&arrival, 0x77, sizeof arrival);
    memset(&queued, 0x77, sizeof queued);
    memset(&command, 0x77, sizeof command);
    memset(&a, 0x77, sizeof a);
    for (n = 0; n < SETS * WAYS; n++) {
        memset(&frame, 0x77, sizeof frame);
        CHECK(kroft_machine_frame(&handle, n, &frame) == KROFT_OK && frame.valid == 0 && frame.block == 0);
        CHECK(kroft_machine_frame_word(&handle, n, 0, &w) == KROFT_ABSENT && w.dirty == 0x77 && w.word.b[0] == 0x77);
    }
    frame.valid = 77;
    CHECK(kroft_machine_frame(&handle, SETS * WAYS, &frame) == KROFT_ABSENT && kroft_machine_frame(&handle, UINT32_MAX, &frame) == KROFT_ABSENT);
    CHECK(frame.valid == 77 && kroft_machine_frame_word(&handle, UINT32_MAX, 0, &w) == KROFT_ABSENT && w.dirty == 0x77);
    CHECK(kroft_machine_stack_entry(&handle, 0, &arrival) == KROFT_ABSENT && kroft_machine_bank_answer(&handle, 0, 0, &arrival) == KROFT_ABSENT);
    CHECK(kroft_machine_bank_answer(&handle, BANKS, 0, &arrival) == KROFT_ABSENT && arrival.slot == 0x77777777u);
    CHECK(kroft_machine_queue_entry(&handle, 0, &queued) == KROFT_ABSENT && queued.at == 0x77777777u);
    CHECK(kroft_machine_bank_command(&handle, 0, 0, &command) == KROFT_ABSENT && kroft_machine_bank_command(&handle, BANKS, 0, &command) == KROFT_ABSENT);
    CHECK(command.place == 0x77777777u && kroft_machine_reply(&handle, 0, &a) == KROFT_ABSENT && a.kind == 0x77777777u);
    for (n = 0; n < WORDS; n++) CHECK(kroft_machine_find(&handle, n, &lookup) == KROFT_OK && lookup == KROFT_MISS);
    lookup = 77;
    CHECK(kroft_machine_find(&handle, WORDS, &lookup) == KROFT_ABSENT && kroft_machine_find(&handle, UINT32_MAX, &lookup) == KROFT_ABSENT && lookup == 77);
    CHECK(kroft_machine_close(&handle) == KROFT_OK);
}

/* Words stand in the stack and in the queue in the order in which they came. */
static void in_their_order(void) {
    kroft_machine handle = opened();
    kroft_arrival_view arrival;
    kroft_queued_view queued;
    kroft_event e;
    kroft_answer a;
    uint32_t n;
    CHECK(load(&handle, 1, 5) == KROFT_ACCEPTED); /* block 1, whose words 4 to 7 lie in banks 0 to 3 */
    for (n = 4; n-- > 0;) {
        CHECK(told(&handle, event(KROFT_SERVE, n, 0)) == KROFT_MOVED && told(&handle, event(KROFT_ARRIVE, n, 0)) == KROFT_MOVED);
    }
    for (n = 0; n < 4; n++) {
        CHECK(kroft_machine_stack_entry(&handle, n, &arrival) == KROFT_OK && arrival.i == 3 - n && is_word(arrival.word, 7 - n, 0, 0, 0));
    }
    CHECK(kroft_machine_stack_entry(&handle, 4, &arrival) == KROFT_ABSENT);
    while (kroft_machine_pump(&handle, &e, &a) == KROFT_OK) {}
    CHECK(store(&handle, 6, 1, word(1, 2, 3, 4)) == KROFT_ACCEPTED && store(&handle, 4, 8, word(5, 6, 7, 8)) == KROFT_ACCEPTED);
    CHECK(told(&handle, event(KROFT_EVICT, 1, 0)) == KROFT_ACCEPTED);
    CHECK(kroft_machine_queue_entry(&handle, 0, &queued) == KROFT_OK && queued.block == 1 && queued.at == 4 && queued.lanes == 8);
    CHECK(queued.word.b[3] == 8);
    CHECK(kroft_machine_queue_entry(&handle, 1, &queued) == KROFT_OK && queued.block == 1 && queued.at == 6 && queued.lanes == 1);
    CHECK(queued.word.b[0] == 1 && kroft_machine_queue_entry(&handle, 2, &queued) == KROFT_ABSENT);
    CHECK(kroft_machine_close(&handle) == KROFT_OK);
}

/* Of a store's lanes bits 4 to 7 are dropped: no view shows them, whatever the byte. Word 5 is the second word of block 1, and
   lies in bank 1, behind the read of its block there. */
static void four_lanes(void) {
    unsigned lanes;
    for (lanes = 0; lanes < 256; lanes++) {
        const uint8_t four = (uint8_t)(lanes & 15);
        const uint32_t waits = four != 15;
        kroft_machine handle = opened();
        kroft_register_view r;
        kroft_field_view f;
        kroft_target_view t;
        kroft_frame_word_view w;
        kroft_queued_view queued;
        kroft_command_view command;
        CHECK(store(&handle, 5, (uint8_t)lanes, word(1, 2, 3, 4)) == (four ? KROFT_ACCEPTED : KROFT_REFUSED));
        if (four) {
            CHECK(load(&handle, 7, 5) == KROFT_ACCEPTED);
            CHECK(kroft_machine_register(&handle, 0, &r) == KROFT_OK && r.valid == 1 && r.block == 1);
            CHECK(kroft_machine_frame_word(&handle, r.frame, 1, &w) == KROFT_OK && w.dirty == four);
            CHECK(kroft_machine_field(&handle, 0, 1, &f) == KROFT_OK && f.code == four && f.targets == waits);
            CHECK(!waits || f.held_lanes == four);
            CHECK(kroft_machine_target(&handle, 0, 1, 0, &t) == (waits ? KROFT_OK : KROFT_ABSENT) && (!waits || t.lanes == four));
            CHECK(told(&handle, event(KROFT_EVICT, 1, 0)) == KROFT_ACCEPTED);
            CHECK(kroft_machine_queue_entry(&handle, 0, &queued) == KROFT_OK && queued.at == 5 && queued.lanes == four);
            CHECK(told(&handle, event(KROFT_DRAIN, 0, 0)) == KROFT_MOVED);
            CHECK(kroft_machine_bank_command(&handle, 1, 1, &command) == KROFT_OK);
            CHECK(command.kind == KROFT_WRITE && command.lanes == four);
        }
        CHECK(kroft_machine_close(&handle) == KROFT_OK);
    }
}

static uint32_t used_registers(kroft_machine *handle) {
    kroft_register_view r;
    uint32_t slot, used = 0;
    for (slot = 0; kroft_machine_register(handle, slot, &r) == KROFT_OK; slot++) used += r.valid;
    return used;
}

static uint32_t ready_replies(kroft_machine *handle) {
    kroft_answer a;
    uint32_t place = 0;
    while (kroft_machine_reply(handle, place, &a) == KROFT_OK) place++;
    return place;
}

static uint32_t next_random(uint64_t *state) {
    *state = *state * 6364136223846793005u + 1442695040888963407u;
    return (uint32_t)(*state >> 33);
}

/* What a load finds is what becomes of it, if it is accepted: a hit is ready at once, and a miss alone takes a register. */
static void found_before_asked(void) {
    kroft_machine handle = opened();
    uint64_t state = 1;
    uint32_t counts[3] = {0, 0, 0};
    unsigned n;
    for (n = 0; n < RUN; n++) {
        uint32_t at = next_random(&state) % WORDS, pumps = next_random(&state) % 6, lookup = 77;
        uint32_t used = used_registers(&handle), ready = ready_replies(&handle);
        kroft_event e;
        kroft_answer a;
        CHECK(kroft_machine_find(&handle, at, &lookup) == KROFT_OK && lookup <= KROFT_MISS);
        if (load(&handle, (uint16_t)n, at) == KROFT_ACCEPTED) {
            CHECK(used_registers(&handle) == used + (lookup == KROFT_MISS));
            CHECK(ready_replies(&handle) == ready + (lookup == KROFT_HIT));
            counts[lookup]++;
        }
        while (pumps-- > 0 && kroft_machine_reply(&handle, 0, &a) == KROFT_OK) {
            kroft_answer got;
            CHECK(kroft_machine_pump(&handle, &e, &got) == KROFT_OK && e.kind == KROFT_TAKE && e.place == 0);
            CHECK(got.kind == KROFT_VALUE && got.tag == a.tag && memcmp(&got.word, &a.word, sizeof a.word) == 0);
        }
        for (pumps = next_random(&state) % 12; pumps > 0; pumps--) kroft_machine_pump(&handle, &e, &a);
    }
    CHECK(counts[KROFT_HIT] > 500 && counts[KROFT_JOIN] > 500 && counts[KROFT_MISS] > 500);
    CHECK(kroft_machine_close(&handle) == KROFT_OK);
}

/* A closed handle answers so to every call, and nothing is written. */
static void a_closed_handle(void) {
    kroft_machine handle = KROFT_NO_MACHINE;
    kroft_frame_view frame;
    kroft_frame_word_view w;
    kroft_arrival_view arrival;
    kroft_queued_view queued;
    kroft_command_view command;
    kroft_answer a;
    uint32_t lookup = 77;
    frame.block = queued.at = arrival.slot = command.slot = a.kind = 77;
    w.dirty = 77;
    CHECK(kroft_machine_frame(&handle, 0, &frame) == KROFT_FAIL_CLOSED && frame.block == 77);
    CHECK(kroft_machine_frame_word(&handle, 0, 0, &w) == KROFT_FAIL_CLOSED && w.dirty == 77);
    CHECK(kroft_machine_stack_entry(&handle, 0, &arrival) == KROFT_FAIL_CLOSED && kroft_machine_bank_answer(&handle, 0, 0, &arrival) == KROFT_FAIL_CLOSED);
    CHECK(arrival.slot == 77 && kroft_machine_queue_entry(&handle, 0, &queued) == KROFT_FAIL_CLOSED && queued.at == 77);
    CHECK(kroft_machine_bank_command(&handle, 0, 0, &command) == KROFT_FAIL_CLOSED && command.slot == 77);
    CHECK(kroft_machine_reply(&handle, 0, &a) == KROFT_FAIL_CLOSED && a.kind == 77);
    CHECK(kroft_machine_find(&handle, 0, &lookup) == KROFT_FAIL_CLOSED && lookup == 77);
}

int main(void) {
    nothing_yet();
    in_their_order();
    four_lanes();
    found_before_asked();
    a_closed_handle();
    return checks_end("parts");
}
