/* Words by their four bytes, and what several tests ask of histories. */
#ifndef WORDS_H
#define WORDS_H

#include "kroft.h"

static inline kroft_word word(unsigned b0, unsigned b1, unsigned b2, unsigned b3) {
    kroft_word w;
    w.b[0] = (uint8_t)b0;
    w.b[1] = (uint8_t)b1;
    w.b[2] = (uint8_t)b2;
    w.b[3] = (uint8_t)b3;
    return w;
}

static inline int is_word(kroft_word w, unsigned b0, unsigned b1, unsigned b2, unsigned b3) {
    return w.b[0] == b0 && w.b[1] == b1 && w.b[2] == b2 && w.b[3] == b3;
}

/* Where an answer is wrong first, and how many operations are open. */
static inline uint32_t wrong_place(const kroft_history *history, uint64_t number, const uint8_t *bytes, size_t nbytes,
                                   uint64_t *place) {
    kroft_history_reason why;
    uint32_t result = kroft_history_why(history, number, bytes, nbytes, &why);
    if (result == KROFT_FAIL_WRONG_BYTE) *place = why.wrong_place;
    return result;
}

static inline uint32_t count_open(const kroft_history *history, uint64_t *loads, uint64_t *stores) {
    kroft_history_operation first;
    uint32_t result = kroft_history_unanswered(history, KROFT_LOAD, 0, &first, loads);
    if (result == KROFT_OK || result == KROFT_ABSENT) result = kroft_history_unanswered(history, KROFT_STORE, 0, &first, stores);
    return result == KROFT_ABSENT ? (uint32_t)KROFT_OK : result;
}

#endif
