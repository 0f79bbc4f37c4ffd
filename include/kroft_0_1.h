/*
 * The names of version 0.1 over this library, for a client that was written against its kroft.h: include this in place
 * of that. Each name is as it was in 0.1, and stands for what its definition says.
 */
#ifndef KROFT_0_1_H
#define KROFT_0_1_H

#include "kroft.h"

#include <string.h>

/* ---- constants --------------------------------------------------------------------------------- */

enum { KROFT_FLAT = 0, KROFT_NOT_FLAT = 1, KROFT_NO_STEP = 2 };
enum {
    KROFT_WHY_FLAT = 0,
    KROFT_WHY_OUT_OF_RANGE = 1,
    KROFT_WHY_NO_LANES = 2,
    KROFT_WHY_TAG_IN_USE = 3,
    KROFT_WHY_NOTHING_OWED = 4,
    KROFT_WHY_WRONG_WORD = 5,
    KROFT_WHY_OTHER_ANSWER = 6,
    KROFT_WHY_NO_EVENT = 7,
    KROFT_WHY_NO_ANSWER = 8,
    KROFT_WHY_NO_TABLE = 9
};
#define KROFT_WHY_TEXT 64

enum { KROFT_DONE = 0, KROFT_NONE = 0, KROFT_FOUND = 1, KROFT_NO_EVENT = 2, KROFT_CLOSED = 3 };
enum {
    KROFT_BAD_WORDS = 5,
    KROFT_BAD_SETS = 6,
    KROFT_BAD_BANKS = 7,
    KROFT_BAD_BANK_QUEUE = 8,
    KROFT_BAD_WRITE_QUEUE = 9,
    KROFT_BAD_REPLIES = 10,
    KROFT_BAD_IMAGE = 13,
    KROFT_NOT_LISTED = 100,
    KROFT_OUT_OF_MEMORY = 101,
    KROFT_OPEN_ALREADY = 102
};
enum { KROFT_TOO_MANY = 104, KROFT_BAD_LATENCY = 105, KROFT_NO_ROUNDS = 106, KROFT_IN_ROUNDS = 107 };
enum {
    KROFT_LAWFUL = 0,
    KROFT_NO_ROOM = 2,
    KROFT_BAD_RANGE = 11,
    KROFT_NO_BYTE_ENABLED = 12,
    KROFT_NUMBER_IN_USE = 13,
    KROFT_NOT_OPEN = 14,
    KROFT_WRONG_LENGTH = 15,
    KROFT_WRONG_BYTE = 16,
    KROFT_NO_LAW = 103,
    KROFT_TOO_LONG = 104,
    KROFT_UNDECIDED = 105
};
enum {
    KROFT_NO_REASON = 0,
    KROFT_NEVER_THERE = 1,
    KROFT_FIRST_OVERWRITTEN = 2,
    KROFT_STORE_OVERWRITTEN = 3,
    KROFT_NOT_TOGETHER = 4
};
enum { KROFT_DRAWN = 0, KROFT_NO_PLAN = 1, KROFT_NARROW = 2 };

/* The old number of a result, by a call that found nothing in 0.1, and by one that did. */
static inline uint32_t kroft_0_1_done(uint32_t result) {
    switch (result) {
    case KROFT_FAIL_CLOSED: return KROFT_CLOSED;
    case KROFT_FAIL_NO_UNITS: return KROFT_NO_LAW;
    case KROFT_FAIL_BAD_BLOCK_WORDS:
    case KROFT_FAIL_BAD_WAYS:
    case KROFT_FAIL_BAD_REGS:
    case KROFT_FAIL_BAD_DEPTH: return KROFT_NOT_LISTED;
    case KROFT_FAIL_BAD_IMAGE: return KROFT_BAD_IMAGE;
    case KROFT_FAIL_BAD_LATENCY: return KROFT_BAD_LATENCY;
    case KROFT_FAIL_TOO_MANY: return KROFT_TOO_MANY;
    case KROFT_FAIL_NO_EVENT: return KROFT_NO_EVENT;
    default: break;
    }
    if (result >= KROFT_FAIL_BAD_WORDS && result <= KROFT_FAIL_BAD_REPLIES)
        return result - KROFT_FAIL_BAD_WORDS + KROFT_BAD_WORDS;
    if (result >= KROFT_FAIL_BAD_RANGE && result <= KROFT_FAIL_WRONG_BYTE)
        return result - KROFT_FAIL_BAD_RANGE + KROFT_BAD_RANGE;
    return result;
}

static inline uint32_t kroft_0_1_found(uint32_t result) {
    if (result == KROFT_OK) return KROFT_FOUND;
    return result == KROFT_ABSENT ? (uint32_t)KROFT_NONE : kroft_0_1_done(result);
}

/* ---- flat memory ------------------------------------------------------------------------------- */

static inline uint32_t kroft_flat_step(kroft_word *words, size_t nwords, kroft_due *due, size_t ndue,
                                       const kroft_event *event, const kroft_answer *answer) {
    kroft_word right;
    uint32_t result = KROFT_FAIL_NO_EVENT;
    if (ndue == KROFT_TAGS) result = kroft_flat_judge(words, nwords, due, event, answer, &right);
    if (result == KROFT_OK) return KROFT_FLAT;
    return result == KROFT_FAIL_NO_EVENT || result == KROFT_FAIL_NO_ANSWER ? KROFT_NO_STEP : KROFT_NOT_FLAT;
}

/* A step is judged over a copy of its word. If it is accepted, the entry of its tag is put back, so `due` may not be
   where nothing can be written. */
static inline uint32_t kroft_flat_why(const kroft_word *words, size_t nwords, const kroft_due *due, size_t ndue,
                                      const kroft_event *event, const kroft_answer *answer, kroft_word *owed) {
    kroft_due *table = (kroft_due *)(uintptr_t)due;
    kroft_event there = *event;
    kroft_word word = {{0, 0, 0, 0}};
    uint16_t tag = event->kind == KROFT_LOAD ? event->tag : answer->tag;
    kroft_due entry;
    uint32_t result;
    if (event->kind > KROFT_TAKE) return KROFT_WHY_NO_EVENT;
    if (answer->kind > KROFT_REFUSED || (answer->kind == KROFT_REFUSED && (answer->cause < 1 || answer->cause > 13)))
        return KROFT_WHY_NO_ANSWER;
    if (ndue != KROFT_TAGS) return KROFT_WHY_NO_TABLE;
    entry = due[tag];
    if (event->kind <= KROFT_PREFETCH && event->at < nwords) {
        word = words[event->at];
        there.at = 0;
    } else if (event->kind <= KROFT_PREFETCH) {
        there.at = 1;
    }
    result = kroft_flat_judge(&word, 1, table, &there, answer, owed);
    if (result != KROFT_OK) return result - KROFT_FAIL_OUT_OF_RANGE + KROFT_WHY_OUT_OF_RANGE;
    if ((event->kind == KROFT_LOAD && answer->kind == KROFT_ACCEPTED) || answer->kind == KROFT_VALUE) table[tag] = entry;
    return KROFT_WHY_FLAT;
}

static inline uint32_t kroft_why_text(uint32_t why, char *text, size_t room) {
    static const char *const texts[] = {
        "flat: flat memory gives this answer",     "out of range: memory has no such word",
        "no lane: a store that writes no byte",    "tag in use: the tag is owed a word already",
        "nothing owed: the tag is owed no word",   "wrong word: the tag is owed another",
        "wrong answer: this event never gets it",  "no event: its row says nothing",
        "no answer: its row says nothing",         "no table: it hasn't an entry for each tag",
        "no reason has this number"};
    const char *told = texts[why <= KROFT_WHY_NO_TABLE ? why : KROFT_WHY_NO_TABLE + 1];
    uint32_t length = 0, n;
    while (told[length]) length++;
    for (n = 0; length < room && n <= length; n++) text[n] = told[n];
    return length;
}

static inline uint32_t kroft_flat_owed(const kroft_due *due, size_t ndue, uint16_t tag, kroft_word *word) {
    if (tag >= ndue || !due[tag].owed) return 0;
    *word = due[tag].word;
    return 1;
}

static inline uint32_t kroft_flat_open(const kroft_due *due, size_t ndue, uint32_t n, uint16_t *tag) {
    uint32_t open = 0, at;
    for (at = 0; at < KROFT_TAGS && at < ndue; at++)
        if (due[at].owed && open++ == n) *tag = (uint16_t)at;
    return open;
}

/* ---- the machine ------------------------------------------------------------------------------- */

typedef kroft_machine kroft_handle;

static inline uint32_t kroft_open(kroft_handle *handle, const kroft_shape *shape, const kroft_word *image,
                                  size_t nimage) {
    return kroft_0_1_done(kroft_machine_open(handle, shape, image, nimage));
}
static inline uint32_t kroft_free(kroft_handle *handle) { return kroft_0_1_done(kroft_machine_close(handle)); }
static inline uint32_t kroft_apply(kroft_handle *handle, const kroft_event *event, kroft_answer *answer) {
    return kroft_0_1_done(kroft_machine_apply(handle, event, answer));
}
static inline uint32_t kroft_pump(kroft_handle *handle, kroft_event *event, kroft_answer *answer) {
    return kroft_0_1_found(kroft_machine_pump(handle, event, answer));
}
static inline uint32_t kroft_weight(kroft_handle *handle, uint64_t *weight) {
    uint32_t settled;
    return kroft_0_1_done(kroft_machine_weight(handle, weight, &settled));
}
static inline uint32_t kroft_settled(kroft_handle *handle) {
    uint64_t weight;
    uint32_t settled, result = kroft_machine_weight(handle, &weight, &settled);
    return result == KROFT_OK ? settled : kroft_0_1_done(result);
}
static inline uint32_t kroft_bank_word(kroft_handle *handle, uint32_t at, kroft_word *word) {
    return kroft_0_1_found(kroft_machine_bank_word(handle, at, word));
}
static inline uint32_t kroft_register(kroft_handle *handle, uint32_t slot, kroft_register_view *view) {
    return kroft_0_1_found(kroft_machine_register(handle, slot, view));
}
static inline uint32_t kroft_field(kroft_handle *handle, uint32_t slot, uint32_t i, kroft_field_view *view) {
    return kroft_0_1_found(kroft_machine_field(handle, slot, i, view));
}
static inline uint32_t kroft_target(kroft_handle *handle, uint32_t slot, uint32_t i, uint32_t place,
                                    kroft_target_view *view) {
    return kroft_0_1_found(kroft_machine_target(handle, slot, i, place, view));
}
static inline uint32_t kroft_frame(kroft_handle *handle, uint32_t frame, kroft_frame_view *view) {
    return kroft_0_1_found(kroft_machine_frame(handle, frame, view));
}
static inline uint32_t kroft_frame_word(kroft_handle *handle, uint32_t frame, uint32_t i, kroft_frame_word_view *view) {
    return kroft_0_1_found(kroft_machine_frame_word(handle, frame, i, view));
}
static inline uint32_t kroft_stack_entry(kroft_handle *handle, uint32_t place, kroft_arrival_view *view) {
    return kroft_0_1_found(kroft_machine_stack_entry(handle, place, view));
}
static inline uint32_t kroft_queue_entry(kroft_handle *handle, uint32_t place, kroft_queued_view *view) {
    return kroft_0_1_found(kroft_machine_queue_entry(handle, place, view));
}
static inline uint32_t kroft_bank_command(kroft_handle *handle, uint32_t bank, uint32_t place,
                                          kroft_command_view *view) {
    return kroft_0_1_found(kroft_machine_bank_command(handle, bank, place, view));
}
static inline uint32_t kroft_bank_answer(kroft_handle *handle, uint32_t bank, uint32_t place,
                                         kroft_arrival_view *view) {
    return kroft_0_1_found(kroft_machine_bank_answer(handle, bank, place, view));
}
static inline uint32_t kroft_reply(kroft_handle *handle, uint32_t place, kroft_answer *answer) {
    return kroft_0_1_found(kroft_machine_reply(handle, place, answer));
}
static inline uint32_t kroft_find(kroft_handle *handle, uint32_t at, uint32_t *lookup) {
    return kroft_0_1_found(kroft_machine_find(handle, at, lookup));
}
static inline uint32_t kroft_drive(kroft_handle *handle, uint32_t latency, uint32_t busy,
                                   const kroft_event *requests, size_t nrequests, kroft_counts *counts) {
    return kroft_0_1_done(kroft_machine_drive(handle, latency, busy, requests, nrequests, counts));
}
static inline uint32_t kroft_rounds_begin(kroft_handle *handle, uint32_t latency, uint32_t busy) {
    return kroft_0_1_done(kroft_machine_begin_rounds(handle, latency, busy));
}
static inline uint32_t kroft_round(kroft_handle *handle, const kroft_event *requests, size_t nrequests,
                                   kroft_round_row *row) {
    return kroft_0_1_done(kroft_machine_round(handle, requests, nrequests, row));
}
static inline uint32_t kroft_round_counts(kroft_handle *handle, kroft_counts *counts) {
    return kroft_0_1_done(kroft_machine_round_counts(handle, counts));
}
static inline uint32_t kroft_rounds_end(kroft_handle *handle) {
    return kroft_0_1_done(kroft_machine_end_rounds(handle));
}

/* ---- histories --------------------------------------------------------------------------------- */

/* (kroft_history_open is as it was.) */

typedef struct {
    uint64_t place;
    uint64_t stored;
    uint64_t stored_at;
    uint64_t overwritten_by;
    uint64_t overwritten_at;
    uint32_t reason;
} kroft_reason;

typedef struct {
    uint64_t number;
    uint64_t address;
    uint64_t length;
} kroft_operation;

static inline uint32_t kroft_history_free(kroft_history *handle) { return kroft_0_1_done(kroft_history_close(handle)); }
static inline uint32_t kroft_load_request(kroft_history *handle, uint64_t number, uint64_t address, size_t length) {
    return kroft_0_1_done(kroft_history_load_request(handle, number, address, length, ~(uint64_t)0));
}
static inline uint32_t kroft_load_response(kroft_history *handle, uint64_t number, const uint8_t *bytes,
                                           size_t nbytes) {
    return kroft_0_1_done(kroft_history_load_response(handle, number, bytes, nbytes));
}
static inline uint32_t kroft_store_request(kroft_history *handle, uint64_t number, uint64_t address,
                                           const uint8_t *bytes, size_t nbytes, uint64_t enables) {
    return kroft_0_1_done(kroft_history_store_request(handle, number, address, bytes, nbytes, enables));
}
static inline uint32_t kroft_store_response(kroft_history *handle, uint64_t number) {
    return kroft_0_1_done(kroft_history_store_response(handle, number));
}
static inline uint32_t kroft_forget(kroft_history *handle, uint64_t address) {
    return kroft_0_1_done(kroft_history_forget(handle, address));
}
static inline uint32_t kroft_undecided(kroft_history *handle, uint64_t *address) {
    return kroft_0_1_found(kroft_history_undecided(handle, address));
}

static inline uint32_t kroft_may_return(kroft_history *handle, uint64_t number, uint64_t address, uint8_t *set,
                                        size_t nset) {
    if (nset == KROFT_SET_BYTES) return kroft_0_1_found(kroft_history_may_return(handle, number, address, set));
    return handle->open ? (uint32_t)KROFT_NO_ROOM : (uint32_t)KROFT_CLOSED;
}

static inline uint32_t kroft_why(kroft_history *handle, uint64_t number, const uint8_t *bytes, size_t nbytes,
                                 kroft_reason *why) {
    kroft_history_reason row;
    uint32_t result = kroft_0_1_done(kroft_history_why(handle, number, bytes, nbytes, &row));
    if (result != KROFT_WRONG_BYTE) return result;
    why->place = row.place;
    why->stored = row.stored;
    why->stored_at = row.stored_at;
    why->overwritten_by = row.overwritten_by;
    why->overwritten_at = row.overwritten_at;
    why->reason = row.reason - KROFT_REASON_NONE;
    return result;
}

static inline uint32_t kroft_wrong_place(kroft_history *handle, uint64_t number, const uint8_t *bytes, size_t nbytes,
                                         uint64_t *place) {
    kroft_history_reason row;
    uint32_t result = kroft_0_1_done(kroft_history_why(handle, number, bytes, nbytes, &row));
    if (result == KROFT_WRONG_BYTE) *place = row.wrong_place;
    return result;
}

static inline uint32_t kroft_unanswered(kroft_history *handle, uint64_t *loads, uint64_t *stores) {
    kroft_history_operation first;
    if (kroft_history_unanswered(handle, KROFT_LOAD, 0, &first, loads) == KROFT_FAIL_CLOSED) return KROFT_CLOSED;
    kroft_history_unanswered(handle, KROFT_STORE, 0, &first, stores);
    return KROFT_DONE;
}

static inline uint32_t kroft_0_1_unanswered(kroft_history *handle, uint32_t kind, uint64_t n, kroft_operation *operation) {
    kroft_history_operation row;
    uint64_t count;
    uint32_t result = kroft_0_1_found(kroft_history_unanswered(handle, kind, n, &row, &count));
    if (result != KROFT_FOUND) return result;
    operation->number = row.number;
    operation->address = row.address;
    operation->length = row.length;
    return result;
}

static inline uint32_t kroft_unanswered_load(kroft_history *handle, uint64_t n, kroft_operation *operation) {
    return kroft_0_1_unanswered(handle, KROFT_LOAD, n, operation);
}

static inline uint32_t kroft_unanswered_store(kroft_history *handle, uint64_t n, kroft_operation *operation) {
    return kroft_0_1_unanswered(handle, KROFT_STORE, n, operation);
}

/* ---- traffic ----------------------------------------------------------------------------------- */

/* (A seed draws what it does in this version.) */

typedef struct {
    uint64_t base;
    uint32_t blocks;
    uint32_t block_bytes;
    uint32_t widest;
    uint32_t sets;
    uint32_t conflicts;
    uint32_t burst;
    uint32_t requesters;
    uint32_t apart;
    uint32_t stores;
    uint32_t partial;
} kroft_plan;

typedef kroft_traffic_access kroft_access;

/* The accesses are others than those of 0.1, where seeds s and s + 2 drew the same blocks. */
static inline uint32_t kroft_traffic(const kroft_plan *plan, uint64_t seed, uint64_t number, kroft_access *access,
                                     uint8_t *bytes, size_t nbytes) {
    kroft_traffic_plan row;
    uint32_t result;
    memset(&row, 0, sizeof row);
    row.base = plan->base;
    row.blocks = plan->blocks;
    row.block_bytes = plan->block_bytes;
    row.widest = plan->widest;
    row.sets = plan->sets;
    row.conflicts = plan->conflicts;
    row.burst = plan->burst;
    row.requesters = plan->requesters;
    row.apart = plan->apart;
    row.stores = plan->stores;
    row.partial = plan->partial;
    result = kroft_traffic_draw(&row, seed, number, access, bytes, nbytes);
    if (result == KROFT_FAIL_NO_PLAN) return KROFT_NO_PLAN;
    return result == KROFT_FAIL_NO_ROOM ? (uint32_t)KROFT_NARROW : (uint32_t)KROFT_DRAWN;
}

#endif
