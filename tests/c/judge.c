/* The judge of libkroft from C99 and from C++17: layout, every answer, every fault. */
#include "check.h"
#include "kroft.h"
#include "words.h"

#include <string.h>

enum { WORDS = 8 };

/* One memory and its table, and what they were before a call that must change nothing. */
static kroft_word words[WORDS], words_before[WORDS];
static kroft_due due[KROFT_TAGS], due_before[KROFT_TAGS];

static kroft_event event(uint32_t kind) {
    kroft_event e;
    memset(&e, 0, sizeof e);
    e.kind = kind;
    return e;
}

static kroft_event load(uint16_t tag, uint32_t at) {
    kroft_event e = event(KROFT_LOAD);
    e.tag = tag;
    e.at = at;
    return e;
}

static kroft_event store(uint32_t at, uint8_t lanes, kroft_word w) {
    kroft_event e = event(KROFT_STORE);
    e.at = at;
    e.lanes = lanes;
    e.word = w;
    return e;
}

static kroft_answer answer(uint32_t kind) {
    kroft_answer a;
    memset(&a, 0, sizeof a);
    a.kind = kind;
    return a;
}

static kroft_answer value(uint16_t tag, kroft_word w) {
    kroft_answer a = answer(KROFT_VALUE);
    a.tag = tag;
    a.word = w;
    return a;
}

static kroft_answer refused(uint32_t cause) {
    kroft_answer a = answer(KROFT_REFUSED);
    a.cause = cause;
    return a;
}

static uint32_t step(kroft_event e, kroft_answer a) {
    kroft_word unused;
    return kroft_flat_judge(words, WORDS, due, &e, &a, &unused);
}

/* What a step may be: one of flat memory's, one of another memory, or none. */
enum { FLAT, NOT_FLAT, NO_STEP };

static int kind_of(uint32_t result) {
    if (result == KROFT_OK) return FLAT;
    return result <= KROFT_FAIL_OTHER_ANSWER ? NOT_FLAT : NO_STEP;
}

/* A step that must be of this kind, and must leave everything as it was. */
static void stays(int kind, kroft_event e, kroft_answer a) {
    memcpy(words_before, words, sizeof words);
    memcpy(due_before, due, sizeof due);
    CHECK(kind_of(step(e, a)) == kind);
    CHECK(memcmp(words_before, words, sizeof words) == 0);
    CHECK(memcmp(due_before, due, sizeof due) == 0);
}

static int is_word_at(uint32_t at, kroft_word w) {
    return memcmp(&words[at], &w, sizeof w) == 0;
}

/* What the entry of a tag says: it is written alone. */
static uint32_t owed(uint16_t tag, kroft_word *w) {
    if (!due[tag].owed) return 0;
    *w = due[tag].word;
    return 1;
}

/* The kind of a step that flat memory has exactly if this holds. */
static int flat_if(int holds) { return holds ? FLAT : NOT_FLAT; }

/* A load is owed the word as it stood when it was accepted, and is paid once. */
static void a_store_after_a_load(void) {
    kroft_word w = word(9, 9, 9, 9);
    CHECK(owed(1, &w) == 0 && w.b[0] == 9 && w.b[3] == 9);
    CHECK(step(load(1, 5), answer(KROFT_ACCEPTED)) == KROFT_OK);
    CHECK(step(store(5, 5, word(0xff, 0xee, 0xdd, 0xcc)), answer(KROFT_ACCEPTED)) == KROFT_OK);
    CHECK(is_word_at(5, word(0xff, 0x22, 0xdd, 0x44)));
    CHECK(owed(1, &w) == 1 && w.b[0] == 0x11 && w.b[1] == 0x22 && w.b[2] == 0x33 && w.b[3] == 0x44);
    stays(NOT_FLAT, event(KROFT_TAKE), value(1, word(0xff, 0x22, 0xdd, 0x44)));
    stays(NOT_FLAT, event(KROFT_TAKE), value(2, word(0x11, 0x22, 0x33, 0x44)));
    CHECK(step(event(KROFT_TAKE), value(1, word(0x11, 0x22, 0x33, 0x44))) == KROFT_OK);
    CHECK(owed(1, &w) == 0);
    stays(NOT_FLAT, event(KROFT_TAKE), value(1, word(0x11, 0x22, 0x33, 0x44)));
}

/* Tags from the first to the last are kept apart. */
static void many_tags(void) {
    kroft_word w = word(0, 0, 0, 0);
    CHECK(step(load(0, 5), answer(KROFT_ACCEPTED)) == KROFT_OK);
    CHECK(step(load(65535, 0), answer(KROFT_ACCEPTED)) == KROFT_OK);
    CHECK(owed(0, &w) == 1 && w.b[0] == 0xff);
    CHECK(owed(65535, &w) == 1 && w.b[0] == 0);
    stays(NOT_FLAT, load(0, 1), answer(KROFT_ACCEPTED));
    CHECK(step(event(KROFT_TAKE), value(0, words[5])) == KROFT_OK);
    CHECK(step(event(KROFT_TAKE), value(65535, words[0])) == KROFT_OK);
}

/* A request is refused for a cause that can hold, and never for another. */
static void refusals_of_requests(void) {
    uint32_t cause;
    for (cause = 1; cause <= 13; cause++) {
        int of_a_miss = cause >= 6 && cause <= 10;
        stays(flat_if(cause == 4 || cause == 5 || of_a_miss), load(3, 0), refused(cause));
        stays(flat_if(cause == 1), load(3, WORDS), refused(cause));
        stays(flat_if(of_a_miss), store(0, 1, word(1, 1, 1, 1)), refused(cause));
        stays(flat_if(cause == 2), store(0, 0, word(1, 1, 1, 1)), refused(cause));
        stays(flat_if(cause == 1), store(WORDS, 0, word(1, 1, 1, 1)), refused(cause));
        stays(flat_if(of_a_miss), event(KROFT_PREFETCH), refused(cause));
    }
    CHECK(step(load(3, 0), answer(KROFT_ACCEPTED)) == KROFT_OK);
    for (cause = 1; cause <= 13; cause++)
        stays(flat_if(cause == 3), load(3, 0), refused(cause));
    CHECK(step(event(KROFT_TAKE), value(3, words[0])) == KROFT_OK);
}

/* Requests that can't be accepted; bits that name no lane are passed over. */
static void wrong_acceptances(void) {
    kroft_event prefetch = event(KROFT_PREFETCH);
    kroft_word before = words[1];
    stays(NOT_FLAT, load(3, WORDS), answer(KROFT_ACCEPTED));
    stays(NOT_FLAT, store(WORDS, 15, word(1, 1, 1, 1)), answer(KROFT_ACCEPTED));
    stays(NOT_FLAT, store(1, 0xf0, word(1, 1, 1, 1)), answer(KROFT_ACCEPTED));
    CHECK(step(store(1, 0xf8, word(7, 7, 7, 7)), answer(KROFT_ACCEPTED)) == KROFT_OK);
    CHECK(is_word_at(1, word(before.b[0], before.b[1], before.b[2], 7)));
    prefetch.at = WORDS - 1;
    stays(FLAT, prefetch, answer(KROFT_ACCEPTED));
    prefetch.at = WORDS;
    stays(NOT_FLAT, prefetch, answer(KROFT_ACCEPTED));
    stays(NOT_FLAT, load(3, 0), answer(KROFT_MOVED));
}

/* Events that move words leave flat memory as it is. */
static void moves(void) {
    uint32_t kind;
    for (kind = KROFT_DRAIN; kind <= KROFT_PROCESS; kind++) {
        stays(FLAT, event(kind), answer(KROFT_MOVED));
        stays(FLAT, event(kind), answer(KROFT_NOTHING));
        stays(NOT_FLAT, event(kind), answer(KROFT_ACCEPTED));
        stays(NOT_FLAT, event(kind), value(0, words[0]));
        stays(flat_if(kind == KROFT_DRAIN), event(kind), refused(10));
        stays(flat_if(kind == KROFT_ARRIVE), event(kind), refused(12));
        stays(NOT_FLAT, event(kind), refused(13));
    }
    stays(FLAT, event(KROFT_TAKE), answer(KROFT_NOTHING));
    stays(NOT_FLAT, event(KROFT_TAKE), answer(KROFT_MOVED));
    stays(FLAT, event(KROFT_EVICT), answer(KROFT_ACCEPTED));
    stays(FLAT, event(KROFT_EVICT), refused(1));
    stays(FLAT, event(KROFT_EVICT), refused(9));
    stays(FLAT, event(KROFT_EVICT), refused(11));
    stays(NOT_FLAT, event(KROFT_EVICT), refused(10));
    stays(NOT_FLAT, event(KROFT_EVICT), answer(KROFT_MOVED));
}

/* Rows that say nothing, and no memory. */
static void no_steps(void) {
    kroft_word unused;
    kroft_event e = load(3, 0);
    kroft_answer a = answer(KROFT_ACCEPTED);
    stays(NO_STEP, event(9), answer(KROFT_ACCEPTED));
    stays(NO_STEP, event(UINT32_MAX), answer(KROFT_ACCEPTED));
    stays(NO_STEP, e, answer(5));
    stays(NO_STEP, e, answer(UINT32_MAX));
    stays(NO_STEP, e, refused(0));
    stays(NO_STEP, e, refused(14));
    CHECK(kroft_flat_judge(words, 0, due, &e, &a, &unused) == KROFT_FAIL_OUT_OF_RANGE);
    CHECK(kroft_flat_judge(NULL, 0, due, &e, &a, &unused) == KROFT_FAIL_OUT_OF_RANGE);
    CHECK(memcmp(due_before, due, sizeof due) == 0);
}

/* A step that must get this result, and the right word only if it is KROFT_FAIL_WRONG_WORD. One that is made is taken
   back. */
static void has_reason(uint32_t reason, kroft_event e, kroft_answer a) {
    kroft_word none = word(0xde, 0xad, 0xbe, 0xef), w = none;
    memcpy(words_before, words, sizeof words);
    memcpy(due_before, due, sizeof due);
    CHECK(kroft_flat_judge(words, WORDS, due, &e, &a, &w) == reason);
    CHECK(reason == KROFT_FAIL_WRONG_WORD || memcmp(&w, &none, sizeof w) == 0);
    if (reason == KROFT_OK) {
        memcpy(words, words_before, sizeof words);
        memcpy(due, due_before, sizeof due);
    }
    CHECK(memcmp(words_before, words, sizeof words) == 0);
    CHECK(memcmp(due_before, due, sizeof due) == 0);
}

/* Why a request isn't accepted, and what may be answered in its place. */
static void reasons_of_requests(void) {
    kroft_event prefetch = event(KROFT_PREFETCH);
    has_reason(KROFT_OK, load(3, 0), answer(KROFT_ACCEPTED));
    has_reason(KROFT_FAIL_OTHER_ANSWER, load(3, 0), answer(KROFT_MOVED));
    has_reason(KROFT_FAIL_OTHER_ANSWER, load(3, 0), refused(KROFT_OUT_OF_RANGE));
    has_reason(KROFT_FAIL_OUT_OF_RANGE, load(3, WORDS), answer(KROFT_ACCEPTED));
    has_reason(KROFT_FAIL_OUT_OF_RANGE, load(3, UINT32_MAX), refused(KROFT_QUEUE_FULL));
    has_reason(KROFT_OK, load(3, WORDS), refused(KROFT_OUT_OF_RANGE));
    has_reason(KROFT_FAIL_OUT_OF_RANGE, store(WORDS, 0, words[0]), answer(KROFT_ACCEPTED));
    has_reason(KROFT_FAIL_NO_LANES, store(0, 0xf0, words[0]), answer(KROFT_ACCEPTED));
    has_reason(KROFT_OK, store(0, 0xf0, words[0]), refused(KROFT_NO_LANES));
    has_reason(KROFT_FAIL_OTHER_ANSWER, store(0, 1, words[0]), refused(KROFT_TAG_IN_USE));
    has_reason(KROFT_FAIL_OTHER_ANSWER, prefetch, answer(KROFT_NOTHING));
    prefetch.at = WORDS;
    has_reason(KROFT_FAIL_OUT_OF_RANGE, prefetch, answer(KROFT_ACCEPTED));
    CHECK(step(load(3, 0), answer(KROFT_ACCEPTED)) == KROFT_OK);
    has_reason(KROFT_FAIL_TAG_IN_USE, load(3, 1), answer(KROFT_ACCEPTED));
    has_reason(KROFT_FAIL_OUT_OF_RANGE, load(3, WORDS), answer(KROFT_ACCEPTED));
    has_reason(KROFT_OK, load(3, 1), refused(KROFT_TAG_IN_USE));
    CHECK(step(event(KROFT_TAKE), value(3, words[0])) == KROFT_OK);
}

/* Why a value isn't accepted, and the word that was owed. */
static void reasons_of_values(void) {
    kroft_event take = event(KROFT_TAKE);
    kroft_answer wrong = value(4, word(1, 2, 3, 5));
    kroft_word w = word(9, 9, 9, 9);
    has_reason(KROFT_FAIL_NOTHING_OWED, take, value(4, word(1, 2, 3, 4)));
    has_reason(KROFT_FAIL_OTHER_ANSWER, take, answer(KROFT_ACCEPTED));
    has_reason(KROFT_OK, take, answer(KROFT_NOTHING));
    has_reason(KROFT_FAIL_OTHER_ANSWER, event(KROFT_DRAIN), value(4, word(1, 2, 3, 4)));
    CHECK(step(store(6, 15, word(1, 2, 3, 4)), answer(KROFT_ACCEPTED)) == KROFT_OK);
    CHECK(step(load(4, 6), answer(KROFT_ACCEPTED)) == KROFT_OK);
    CHECK(step(store(6, 15, word(1, 2, 3, 5)), answer(KROFT_ACCEPTED)) == KROFT_OK);
    has_reason(KROFT_FAIL_WRONG_WORD, take, wrong);
    CHECK(kroft_flat_judge(words, WORDS, due, &take, &wrong, &w) == KROFT_FAIL_WRONG_WORD);
    CHECK(w.b[0] == 1 && w.b[1] == 2 && w.b[2] == 3 && w.b[3] == 4);
    has_reason(KROFT_FAIL_NOTHING_OWED, take, value(5, word(1, 2, 3, 4)));
    has_reason(KROFT_OK, take, value(4, word(1, 2, 3, 4)));
    CHECK(step(take, value(4, word(1, 2, 3, 4))) == KROFT_OK);
}

/* Of a misuse it is the event's row first, and then the answer's. */
static void reasons_of_misuse(void) {
    kroft_event e = load(3, WORDS), bad = event(9);
    kroft_answer none = answer(5);
    has_reason(KROFT_FAIL_NO_EVENT, bad, none);
    has_reason(KROFT_FAIL_NO_ANSWER, e, none);
    has_reason(KROFT_FAIL_NO_ANSWER, e, refused(0));
    has_reason(KROFT_FAIL_NO_ANSWER, e, refused(14));
}

/* Each result has a name, a number and a text, which the library tells too; no other number has a text. */
static void texts(void) {
#define COUNTED(name, number, text) +1
#define KNOWN(name, number, text) known += i == (number) && strcmp(kroft_text(i), text) == 0;
    const char *none = kroft_text(UINT32_MAX);
    char text[KROFT_RESULT_TEXT_SIZE];
    uint32_t i, j, length, known = 0, alike = 0, told = 0;
    for (i = 0; i < 1000; i++) {
        KROFT_EACH_RESULT(KNOWN)
        length = kroft_result_text(i, text, sizeof text);
        CHECK(length == strlen(text) && strcmp(kroft_text(i), text) == 0);
        if (strcmp(text, none) == 0) continue;
        told++;
        for (j = 0; j < i; j++) alike += strcmp(kroft_text(i), kroft_text(j)) == 0;
    }
    CHECK(known == KROFT_EACH_RESULT(COUNTED) && told == known && alike == 0);
    CHECK(KROFT_OK == 0 && KROFT_ABSENT == 1 && KROFT_FAIL_CLOSED == 100);
    CHECK(strncmp(kroft_text(KROFT_FAIL_WRONG_WORD), "wrong word", 10) == 0);
    CHECK(strncmp(kroft_text(KROFT_REASON_NOT_TOGETHER), "not together", 12) == 0);
    CHECK(kroft_result_text(UINT32_MAX, text, sizeof text) == strlen(none) && strcmp(text, none) == 0);
    length = (uint32_t)strlen(kroft_text(KROFT_OK));
    memset(text, '#', sizeof text);
    CHECK(kroft_result_text(KROFT_OK, text, 0) == length && text[0] == '#' && kroft_result_text(KROFT_OK, NULL, 0) == length);
    CHECK(kroft_result_text(KROFT_OK, text, length) == length && text[0] == '#' && text[length] == '#');
    CHECK(kroft_result_text(KROFT_OK, text, length + 1) == length && strlen(text) == length && text[length + 1] == '#');
}

/* How many loads have no answer, and under which tags. */
static void open_tags(void) {
    uint16_t tag = 77;
    CHECK(kroft_flat_unanswered(due, 0, &tag) == 0 && tag == 77);
    CHECK(step(load(65535, 2), answer(KROFT_ACCEPTED)) == KROFT_OK);
    CHECK(step(load(300, 1), answer(KROFT_ACCEPTED)) == KROFT_OK);
    CHECK(step(load(0, 1), answer(KROFT_ACCEPTED)) == KROFT_OK);
    CHECK(kroft_flat_unanswered(due, 0, &tag) == 3 && tag == 0);
    CHECK(kroft_flat_unanswered(due, 1, &tag) == 3 && tag == 300);
    CHECK(kroft_flat_unanswered(due, 2, &tag) == 3 && tag == 65535);
    tag = 77;
    CHECK(kroft_flat_unanswered(due, 3, &tag) == 3 && tag == 77);
    CHECK(kroft_flat_unanswered(due, UINT32_MAX, &tag) == 3 && tag == 77);
    CHECK(step(event(KROFT_TAKE), value(300, words[1])) == KROFT_OK);
    CHECK(kroft_flat_unanswered(due, 1, &tag) == 2 && tag == 65535);
    CHECK(step(event(KROFT_TAKE), value(0, words[1])) == KROFT_OK);
    CHECK(step(event(KROFT_TAKE), value(65535, words[2])) == KROFT_OK);
    CHECK(kroft_flat_unanswered(due, 0, &tag) == 0);
}

int main(void) {
    words[5] = word(0x11, 0x22, 0x33, 0x44); /* the image is what the caller puts there */
    a_store_after_a_load();
    many_tags();
    refusals_of_requests();
    wrong_acceptances();
    moves();
    no_steps();
    reasons_of_requests();
    reasons_of_values();
    reasons_of_misuse();
    texts();
    open_tags();
    return checks_end("judge");
}
