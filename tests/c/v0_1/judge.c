/* The judge of libkroft from C99 and from C++17: layout, every answer, every fault. */
#include "../check.h"
#include "kroft_0_1.h"
#include "../words.h"

#include <string.h>

enum { WORDS = 8 };

/* One memory and its table, and what they were before a call that must change nothing. */
static kroft_word words[WORDS], words_before[WORDS];
static kroft_due due[KROFT_TAGS], due_before[KROFT_TAGS];

static kroft_event event(uint32_t kind) {
    kroft_event e;
    memset(&e, 0, sizeof e);
    e.kind = kind;
    return e;
}

static kroft_event load(uint16_t tag, uint32_t at) {
    kroft_event e = event(KROFT_LOAD);
    e.tag = tag;
    e.at = at;
    return e;
}

static kroft_event store(uint32_t at, uint8_t lanes, kroft_word w) {
    kroft_event e = event(KROFT_STORE);
    e.at = at;
    e.lanes = lanes;
    e.word = w;
    return e;
}

static kroft_answer answer(uint32_t kind) {
    kroft_answer a;
    memset(&a, 0, sizeof a);
    a.kind = kind;
    return a;
}

static kroft_answer value(uint16_t tag, kroft_word w) {
    kroft_answer a = answer(KROFT_VALUE);
    a.tag = tag;
    a.word = w;
    return a;
}

static kroft_answer refused(uint32_t cause) {
    kroft_answer a = answer(KROFT_REFUSED);
    a.cause = cause;
    return a;
}

static uint32_t step(kroft_event e, kroft_answer a) {
    return kroft_flat_step(words, WORDS, due, KROFT_TAGS, &e, &a);
}

/* What a step would get, without a word that was owed. */
static uint32_t why(kroft_event e, kroft_answer a) {
    kroft_word unused;
    return kroft_flat_why(words, WORDS, due, KROFT_TAGS, &e, &a, &unused);
}

/* The status that a reason tells. */
static uint32_t status_of(uint32_t reason) {
    if (reason == KROFT_WHY_FLAT) return KROFT_FLAT;
    return reason <= KROFT_WHY_OTHER_ANSWER ? KROFT_NOT_FLAT : KROFT_NO_STEP;
}

/* A step that must be answered so, and must leave everything as it was. */
static void stays(uint32_t status, kroft_event e, kroft_answer a) {
    memcpy(words_before, words, sizeof words);
    memcpy(due_before, due, sizeof due);
    CHECK(status_of(why(e, a)) == status);
    CHECK(step(e, a) == status);
    CHECK(memcmp(words_before, words, sizeof words) == 0);
    CHECK(memcmp(due_before, due, sizeof due) == 0);
}

static int is_word_at(uint32_t at, kroft_word w) {
    return memcmp(&words[at], &w, sizeof w) == 0;
}

static uint32_t owed(uint16_t tag, kroft_word *w) {
    return kroft_flat_owed(due, KROFT_TAGS, tag, w);
}

/* The status of a step that flat memory has exactly if this holds. */
static uint32_t flat_if(int holds) {
    if (holds) return KROFT_FLAT;
    return KROFT_NOT_FLAT;
}

/* A load is owed the word as it stood when it was accepted, and is paid once. */
static void a_store_after_a_load(void) {
    kroft_word w = word(9, 9, 9, 9);
    CHECK(owed(1, &w) == 0 && w.b[0] == 9 && w.b[3] == 9);
    CHECK(step(load(1, 5), answer(KROFT_ACCEPTED)) == KROFT_FLAT);
    CHECK(step(store(5, 5, word(0xff, 0xee, 0xdd, 0xcc)), answer(KROFT_ACCEPTED)) == KROFT_FLAT);
    CHECK(is_word_at(5, word(0xff, 0x22, 0xdd, 0x44)));
    CHECK(owed(1, &w) == 1 && w.b[0] == 0x11 && w.b[1] == 0x22 && w.b[2] == 0x33 && w.b[3] == 0x44);
    stays(KROFT_NOT_FLAT, event(KROFT_TAKE), value(1, word(0xff, 0x22, 0xdd, 0x44)));
    stays(KROFT_NOT_FLAT, event(KROFT_TAKE), value(2, word(0x11, 0x22, 0x33, 0x44)));
    CHECK(step(event(KROFT_TAKE), value(1, word(0x11, 0x22, 0x33, 0x44))) == KROFT_FLAT);
    CHECK(owed(1, &w) == 0);
    stays(KROFT_NOT_FLAT, event(KROFT_TAKE), value(1, word(0x11, 0x22, 0x33, 0x44)));
}

/* Tags from the first to the last are kept apart. */
static void many_tags(void) {
    kroft_word w = word(0, 0, 0, 0);
    CHECK(step(load(0, 5), answer(KROFT_ACCEPTED)) == KROFT_FLAT);
    CHECK(step(load(65535, 0), answer(KROFT_ACCEPTED)) == KROFT_FLAT);
    CHECK(owed(0, &w) == 1 && w.b[0] == 0xff);
    CHECK(owed(65535, &w) == 1 && w.b[0] == 0);
    CHECK(kroft_flat_owed(due, 65535, 65535, &w) == 0);
    CHECK(kroft_flat_owed(due, 65535, 0, &w) == 1);
    stays(KROFT_NOT_FLAT, load(0, 1), answer(KROFT_ACCEPTED));
    CHECK(step(event(KROFT_TAKE), value(0, words[5])) == KROFT_FLAT);
    CHECK(step(event(KROFT_TAKE), value(65535, words[0])) == KROFT_FLAT);
}

/* A request is refused for a cause that can hold, and never for another. */
static void refusals_of_requests(void) {
    uint32_t cause;
    for (cause = 1; cause <= 13; cause++) {
        int of_a_miss = cause >= 6 && cause <= 10;
        stays(flat_if(cause == 4 || cause == 5 || of_a_miss), load(3, 0), refused(cause));
        stays(flat_if(cause == 1), load(3, WORDS), refused(cause));
        stays(flat_if(of_a_miss), store(0, 1, word(1, 1, 1, 1)), refused(cause));
        stays(flat_if(cause == 2), store(0, 0, word(1, 1, 1, 1)), refused(cause));
        stays(flat_if(cause == 1), store(WORDS, 0, word(1, 1, 1, 1)), refused(cause));
        stays(flat_if(of_a_miss), event(KROFT_PREFETCH), refused(cause));
    }
    CHECK(step(load(3, 0), answer(KROFT_ACCEPTED)) == KROFT_FLAT);
    for (cause = 1; cause <= 13; cause++)
        stays(flat_if(cause == 3), load(3, 0), refused(cause));
    CHECK(step(event(KROFT_TAKE), value(3, words[0])) == KROFT_FLAT);
}

/* Requests that can't be accepted; bits that name no lane are passed over. */
static void wrong_acceptances(void) {
    kroft_event prefetch = event(KROFT_PREFETCH);
    kroft_word before = words[1];
    stays(KROFT_NOT_FLAT, load(3, WORDS), answer(KROFT_ACCEPTED));
    stays(KROFT_NOT_FLAT, store(WORDS, 15, word(1, 1, 1, 1)), answer(KROFT_ACCEPTED));
    stays(KROFT_NOT_FLAT, store(1, 0xf0, word(1, 1, 1, 1)), answer(KROFT_ACCEPTED));
    CHECK(step(store(1, 0xf8, word(7, 7, 7, 7)), answer(KROFT_ACCEPTED)) == KROFT_FLAT);
    CHECK(is_word_at(1, word(before.b[0], before.b[1], before.b[2], 7)));
    prefetch.at = WORDS - 1;
    stays(KROFT_FLAT, prefetch, answer(KROFT_ACCEPTED));
    prefetch.at = WORDS;
    stays(KROFT_NOT_FLAT, prefetch, answer(KROFT_ACCEPTED));
    stays(KROFT_NOT_FLAT, load(3, 0), answer(KROFT_MOVED));
}

/* Events that move words leave flat memory as it is. */
static void moves(void) {
    uint32_t kind;
    for (kind = KROFT_DRAIN; kind <= KROFT_PROCESS; kind++) {
        stays(KROFT_FLAT, event(kind), answer(KROFT_MOVED));
        stays(KROFT_FLAT, event(kind), answer(KROFT_NOTHING));
        stays(KROFT_NOT_FLAT, event(kind), answer(KROFT_ACCEPTED));
        stays(KROFT_NOT_FLAT, event(kind), value(0, words[0]));
        stays(flat_if(kind == KROFT_DRAIN), event(kind), refused(10));
        stays(flat_if(kind == KROFT_ARRIVE), event(kind), refused(12));
        stays(KROFT_NOT_FLAT, event(kind), refused(13));
    }
    stays(KROFT_FLAT, event(KROFT_TAKE), answer(KROFT_NOTHING));
    stays(KROFT_NOT_FLAT, event(KROFT_TAKE), answer(KROFT_MOVED));
    stays(KROFT_FLAT, event(KROFT_EVICT), answer(KROFT_ACCEPTED));
    stays(KROFT_FLAT, event(KROFT_EVICT), refused(1));
    stays(KROFT_FLAT, event(KROFT_EVICT), refused(9));
    stays(KROFT_FLAT, event(KROFT_EVICT), refused(11));
    stays(KROFT_NOT_FLAT, event(KROFT_EVICT), refused(10));
    stays(KROFT_NOT_FLAT, event(KROFT_EVICT), answer(KROFT_MOVED));
}

/* Rows that say nothing, and a table of another length. */
static void no_steps(void) {
    kroft_event e = load(3, 0);
    kroft_answer a = answer(KROFT_ACCEPTED);
    stays(KROFT_NO_STEP, event(9), answer(KROFT_ACCEPTED));
    stays(KROFT_NO_STEP, event(UINT32_MAX), answer(KROFT_ACCEPTED));
    stays(KROFT_NO_STEP, e, answer(5));
    stays(KROFT_NO_STEP, e, answer(UINT32_MAX));
    stays(KROFT_NO_STEP, e, refused(0));
    stays(KROFT_NO_STEP, e, refused(14));
    CHECK(kroft_flat_step(words, WORDS, due, KROFT_TAGS - 1, &e, &a) == KROFT_NO_STEP);
    CHECK(kroft_flat_step(words, WORDS, due, 0, &e, &a) == KROFT_NO_STEP);
    CHECK(kroft_flat_step(words, 0, due, KROFT_TAGS, &e, &a) == KROFT_NOT_FLAT);
    CHECK(memcmp(due_before, due, sizeof due) == 0);
}

/* A step that must get this reason, and the word that was owed only if it is KROFT_WHY_WRONG_WORD. */
static void has_reason(uint32_t reason, kroft_event e, kroft_answer a) {
    kroft_word none = word(0xde, 0xad, 0xbe, 0xef), w = none;
    memcpy(words_before, words, sizeof words);
    memcpy(due_before, due, sizeof due);
    CHECK(kroft_flat_why(words, WORDS, due, KROFT_TAGS, &e, &a, &w) == reason);
    CHECK(reason == KROFT_WHY_WRONG_WORD || memcmp(&w, &none, sizeof w) == 0);
    CHECK(memcmp(words_before, words, sizeof words) == 0);
    CHECK(memcmp(due_before, due, sizeof due) == 0);
}

/* Why a request isn't accepted, and what may be answered in its place. */
static void reasons_of_requests(void) {
    kroft_event prefetch = event(KROFT_PREFETCH);
    has_reason(KROFT_WHY_FLAT, load(3, 0), answer(KROFT_ACCEPTED));
    has_reason(KROFT_WHY_OTHER_ANSWER, load(3, 0), answer(KROFT_MOVED));
    has_reason(KROFT_WHY_OTHER_ANSWER, load(3, 0), refused(KROFT_OUT_OF_RANGE));
    has_reason(KROFT_WHY_OUT_OF_RANGE, load(3, WORDS), answer(KROFT_ACCEPTED));
    has_reason(KROFT_WHY_OUT_OF_RANGE, load(3, UINT32_MAX), refused(KROFT_QUEUE_FULL));
    has_reason(KROFT_WHY_FLAT, load(3, WORDS), refused(KROFT_OUT_OF_RANGE));
    has_reason(KROFT_WHY_OUT_OF_RANGE, store(WORDS, 0, words[0]), answer(KROFT_ACCEPTED));
    has_reason(KROFT_WHY_NO_LANES, store(0, 0xf0, words[0]), answer(KROFT_ACCEPTED));
    has_reason(KROFT_WHY_FLAT, store(0, 0xf0, words[0]), refused(KROFT_NO_LANES));
    has_reason(KROFT_WHY_OTHER_ANSWER, store(0, 1, words[0]), refused(KROFT_TAG_IN_USE));
    has_reason(KROFT_WHY_OTHER_ANSWER, prefetch, answer(KROFT_NOTHING));
    prefetch.at = WORDS;
    has_reason(KROFT_WHY_OUT_OF_RANGE, prefetch, answer(KROFT_ACCEPTED));
    CHECK(step(load(3, 0), answer(KROFT_ACCEPTED)) == KROFT_FLAT);
    has_reason(KROFT_WHY_TAG_IN_USE, load(3, 1), answer(KROFT_ACCEPTED));
    has_reason(KROFT_WHY_OUT_OF_RANGE, load(3, WORDS), answer(KROFT_ACCEPTED));
    has_reason(KROFT_WHY_FLAT, load(3, 1), refused(KROFT_TAG_IN_USE));
    CHECK(step(event(KROFT_TAKE), value(3, words[0])) == KROFT_FLAT);
}

/* Why a value isn't accepted, and the word that was owed. */
static void reasons_of_values(void) {
    kroft_event take = event(KROFT_TAKE);
    kroft_answer wrong = value(4, word(1, 2, 3, 5));
    kroft_word w = word(9, 9, 9, 9);
    has_reason(KROFT_WHY_NOTHING_OWED, take, value(4, word(1, 2, 3, 4)));
    has_reason(KROFT_WHY_OTHER_ANSWER, take, answer(KROFT_ACCEPTED));
    has_reason(KROFT_WHY_FLAT, take, answer(KROFT_NOTHING));
    has_reason(KROFT_WHY_OTHER_ANSWER, event(KROFT_DRAIN), value(4, word(1, 2, 3, 4)));
    CHECK(step(store(6, 15, word(1, 2, 3, 4)), answer(KROFT_ACCEPTED)) == KROFT_FLAT);
    CHECK(step(load(4, 6), answer(KROFT_ACCEPTED)) == KROFT_FLAT);
    CHECK(step(store(6, 15, word(1, 2, 3, 5)), answer(KROFT_ACCEPTED)) == KROFT_FLAT);
    has_reason(KROFT_WHY_WRONG_WORD, take, wrong);
    CHECK(kroft_flat_why(words, WORDS, due, KROFT_TAGS, &take, &wrong, &w) == KROFT_WHY_WRONG_WORD);
    CHECK(w.b[0] == 1 && w.b[1] == 2 && w.b[2] == 3 && w.b[3] == 4);
    has_reason(KROFT_WHY_NOTHING_OWED, take, value(5, word(1, 2, 3, 4)));
    has_reason(KROFT_WHY_FLAT, take, value(4, word(1, 2, 3, 4)));
    CHECK(step(take, value(4, word(1, 2, 3, 4))) == KROFT_FLAT);
}

/* A misuse has a reason of its own: the event's row first, then the answer's, then the table. */
static void reasons_of_misuse(void) {
    kroft_event e = load(3, WORDS), bad = event(9);
    kroft_answer a = answer(KROFT_ACCEPTED), none = answer(5);
    kroft_word w = word(0, 0, 0, 0);
    has_reason(KROFT_WHY_NO_EVENT, bad, none);
    has_reason(KROFT_WHY_NO_ANSWER, e, none);
    has_reason(KROFT_WHY_NO_ANSWER, e, refused(0));
    has_reason(KROFT_WHY_NO_ANSWER, e, refused(14));
    CHECK(kroft_flat_why(words, WORDS, due, 0, &bad, &a, &w) == KROFT_WHY_NO_EVENT);
    CHECK(kroft_flat_why(words, WORDS, due, 0, &e, &none, &w) == KROFT_WHY_NO_ANSWER);
    CHECK(kroft_flat_why(words, WORDS, due, KROFT_TAGS - 1, &e, &a, &w) == KROFT_WHY_NO_TABLE);
    CHECK(kroft_flat_why(words, 0, due, KROFT_TAGS, &e, &a, &w) == KROFT_WHY_OUT_OF_RANGE);
}

/* Each reason has a text of its own, which fits KROFT_WHY_TEXT and ends with a 0. */
static void texts(void) {
    char known[KROFT_WHY_NO_TABLE + 2][KROFT_WHY_TEXT], text[KROFT_WHY_TEXT];
    uint32_t i, j, length;
    for (i = 0; i <= KROFT_WHY_NO_TABLE + 1; i++) {
        memset(known[i], '#', KROFT_WHY_TEXT);
        length = kroft_why_text(i, known[i], KROFT_WHY_TEXT);
        CHECK(length > 0 && length < KROFT_WHY_TEXT && strlen(known[i]) == length);
        for (j = 0; j < i; j++) CHECK(strcmp(known[i], known[j]) != 0);
    }
    CHECK(strncmp(known[KROFT_WHY_FLAT], "flat", 4) == 0);
    CHECK(strncmp(known[KROFT_WHY_WRONG_WORD], "wrong word", 10) == 0);
    CHECK(kroft_why_text(UINT32_MAX, text, KROFT_WHY_TEXT) == strlen(known[KROFT_WHY_NO_TABLE + 1]));
    CHECK(strcmp(text, known[KROFT_WHY_NO_TABLE + 1]) == 0);
    memset(text, '#', sizeof text);
    length = kroft_why_text(KROFT_WHY_FLAT, text, 0);
    CHECK(length == strlen(known[KROFT_WHY_FLAT]) && text[0] == '#');
    CHECK(kroft_why_text(KROFT_WHY_FLAT, text, length) == length && text[0] == '#' && text[length] == '#');
    CHECK(kroft_why_text(KROFT_WHY_FLAT, text, length + 1) == length && strlen(text) == length && text[length + 1] == '#');
}

/* How many tags are owed, and which. */
static void open_tags(void) {
    uint16_t tag = 77;
    CHECK(kroft_flat_open(due, KROFT_TAGS, 0, &tag) == 0 && tag == 77);
    CHECK(step(load(65535, 2), answer(KROFT_ACCEPTED)) == KROFT_FLAT);
    CHECK(step(load(300, 1), answer(KROFT_ACCEPTED)) == KROFT_FLAT);
    CHECK(step(load(0, 1), answer(KROFT_ACCEPTED)) == KROFT_FLAT);
    CHECK(kroft_flat_open(due, KROFT_TAGS, 0, &tag) == 3 && tag == 0);
    CHECK(kroft_flat_open(due, KROFT_TAGS, 1, &tag) == 3 && tag == 300);
    CHECK(kroft_flat_open(due, KROFT_TAGS, 2, &tag) == 3 && tag == 65535);
    tag = 77;
    CHECK(kroft_flat_open(due, KROFT_TAGS, 3, &tag) == 3 && tag == 77);
    CHECK(kroft_flat_open(due, KROFT_TAGS, UINT32_MAX, &tag) == 3 && tag == 77);
    CHECK(kroft_flat_open(due, KROFT_TAGS - 1, 2, &tag) == 2 && tag == 77);
    CHECK(kroft_flat_open(due, 0, 0, &tag) == 0 && tag == 77);
    CHECK(step(event(KROFT_TAKE), value(300, words[1])) == KROFT_FLAT);
    CHECK(kroft_flat_open(due, KROFT_TAGS, 1, &tag) == 2 && tag == 65535);
    CHECK(step(event(KROFT_TAKE), value(0, words[1])) == KROFT_FLAT);
    CHECK(step(event(KROFT_TAKE), value(65535, words[2])) == KROFT_FLAT);
    CHECK(kroft_flat_open(due, KROFT_TAGS, 0, &tag) == 0);
}

int main(void) {
    words[5] = word(0x11, 0x22, 0x33, 0x44); /* the image is what the caller puts there */
    a_store_after_a_load();
    many_tags();
    refusals_of_requests();
    wrong_acceptances();
    moves();
    no_steps();
    reasons_of_requests();
    reasons_of_values();
    reasons_of_misuse();
    texts();
    open_tags();
    return checks_end("judge");
}
