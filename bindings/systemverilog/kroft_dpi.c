/*
 * The judge of kroft.h behind a chandle: accesses of 1 to 64 bytes under 64-bit addresses and ids.
 *
 * Memory is made of pages that are taken when one of their bytes is touched for the first time. A load that waits
 * for its value holds a tag of the library's judge for each of its words. Compile it with the simulation, and link
 * with libkroft. C99, and C++ for simulators that compile it so.
 */
#include "kroft_parts.h"

enum {
    PAGE_BYTES = 4096,
    PAGE_WORDS = PAGE_BYTES / WORD
};

/* ---- the judge ----------------------------------------------------------------------------------- */

typedef struct {
    kroft_word words[PAGE_WORDS];
} page;

/* The part of an access in one word. */
typedef struct {
    page *in;
    uint32_t at;   /* the word in the page */
    uint8_t lanes; /* the bytes of the word that are enabled */
    int begin;     /* the access's byte in lane 0: below 0 if the access begins in a later lane */
} part;

/* An access that waits for its answer. */
typedef struct held {
    access asked;
    struct held *older, *newer; /* in the order of the requests */
} held;

typedef struct {
    char text[TEXT_BYTES]; /* as a history's, it stands first */
    uint64_t first, last;
    map pages, loads, stores;
    held *oldest, *newest;
    kroft_due **tables; /* what the tags are owed: the low 16 bits of a tag are the library's, the others the table */
    uint32_t table_count, new_tag;
    uint32_t *free_tags;
    size_t free_count, free_places;
} judge_state;

static kroft_due *table_of(const judge_state *j, uint32_t tag) { return j->tables[tag / KROFT_TAGS]; }

static void add_table(judge_state *j) {
    j->tables = (kroft_due **)must(realloc(j->tables, (j->table_count + 1) * sizeof *j->tables));
    j->tables[j->table_count++] = (kroft_due *)must(calloc(KROFT_TAGS, sizeof(kroft_due)));
}

/* A tag that is owed nothing. */
static uint32_t take_tag(judge_state *j) {
    if (j->free_count) return j->free_tags[--j->free_count];
    if (j->new_tag / KROFT_TAGS == j->table_count) add_table(j);
    return j->new_tag++;
}

static void give_tag(judge_state *j, uint32_t tag) {
    if (j->free_count == j->free_places) {
        j->free_places = j->free_places ? 2 * j->free_places : 64;
        j->free_tags = (uint32_t *)must(realloc(j->free_tags, j->free_places * sizeof *j->free_tags));
    }
    j->free_tags[j->free_count++] = tag;
}

static page *page_of(judge_state *j, uint64_t address) {
    page *found = (page *)map_get(&j->pages, address / PAGE_BYTES);
    if (!found) {
        found = (page *)must(calloc(1, sizeof *found));
        map_put(&j->pages, address / PAGE_BYTES, found);
    }
    return found;
}

/* A step of the library. A page is memory enough for a step of one of its words. */
static int step(judge_state *j, page *in, uint32_t tag, const kroft_event *event, const kroft_answer *answer) {
    kroft_word right;
    return kroft_flat_judge(in->words, PAGE_WORDS, table_of(j, tag), event, answer, &right) == KROFT_OK;
}

/* The words of an access that have an enabled byte, the lowest first. How many there are. */
static int parts_of(judge_state *j, const access *a, part *parts) {
    int skew = (int)(a->address % WORD), count = 0, begin;
    for (begin = -skew; begin < a->size; begin += WORD) {
        part p;
        uint64_t address = a->address + (uint64_t)(int64_t)begin;
        p.lanes = (uint8_t)((begin < 0 ? a->enables << -begin : a->enables >> begin) & 15);
        if (!p.lanes) continue;
        p.in = page_of(j, address);
        p.at = (uint32_t)(address % PAGE_BYTES / WORD);
        p.begin = begin;
        parts[count++] = p;
    }
    return count;
}

/* ---- requests ------------------------------------------------------------------------------------ */

static void wait_for_answer(judge_state *j, map *waiting, const access *a) {
    held *kept = (held *)must(malloc(sizeof *kept));
    kept->asked = *a;
    kept->older = j->newest;
    kept->newer = NULL;
    if (j->newest) j->newest->newer = kept;
    else j->oldest = kept;
    j->newest = kept;
    map_put(waiting, a->id, kept);
}

/* Takes the access that waits under an id out of those that do; 0 if there is none. */
static int take_access(judge_state *j, map *waiting, uint64_t id, access *a) {
    held *taken = (held *)map_take(waiting, id);
    if (!taken) return 0;
    if (taken->older) taken->older->newer = taken->newer;
    else j->oldest = taken->newer;
    if (taken->newer) taken->newer->older = taken->older;
    else j->newest = taken->older;
    *a = taken->asked;
    free(taken);
    return 1;
}

int kroft_sv_load(void *judge, unsigned long long id, unsigned long long address, int size, unsigned long long enables) {
    judge_state *j = (judge_state *)judge;
    access a = request(0, id, address, size, enables);
    part parts[MAX_WORDS];
    int reason = fault_of(&a, j->first, j->last, &j->loads), count, i;
    if (reason != KROFT_SV_RIGHT) return say(j->text, &a, reason);
    count = parts_of(j, &a, parts);
    for (i = 0; i < count; i++) {
        kroft_event event;
        kroft_answer answer;
        memset(&event, 0, sizeof event);
        memset(&answer, 0, sizeof answer);
        a.tags[i] = take_tag(j);
        event.kind = KROFT_LOAD;
        event.tag = (uint16_t)a.tags[i];
        event.at = parts[i].at;
        answer.kind = KROFT_ACCEPTED;
        if (!step(j, parts[i].in, a.tags[i], &event, &answer)) reason = KROFT_SV_BROKEN_LIBRARY;
    }
    wait_for_answer(j, &j->loads, &a);
    return say(j->text, &a, reason);
}

/* Writes the enabled bytes. An X is written as 1 and a Z as 0, once the caller said so. */
static int write_bytes(judge_state *j, const access *a, const kroft_four_states *data) {
    part parts[MAX_WORDS];
    int count = parts_of(j, a, parts), i, reason = KROFT_SV_RIGHT;
    for (i = 0; i < count; i++) {
        kroft_event event;
        kroft_answer answer;
        int lane;
        memset(&event, 0, sizeof event);
        memset(&answer, 0, sizeof answer);
        event.kind = KROFT_STORE;
        event.at = parts[i].at;
        event.lanes = parts[i].lanes;
        for (lane = 0; lane < WORD; lane++)
            if (parts[i].lanes >> lane & 1) event.word.b[lane] = byte_of(data, parts[i].begin + lane);
        answer.kind = KROFT_ACCEPTED;
        if (!step(j, parts[i].in, 0, &event, &answer)) reason = KROFT_SV_BROKEN_LIBRARY;
    }
    return reason;
}

static int store(judge_state *j, const access *a, const kroft_four_states *data, map *waiting) {
    int reason = fault_of(a, j->first, j->last, waiting);
    if (reason != KROFT_SV_RIGHT) return say(j->text, a, reason);
    reason = write_bytes(j, a, data);
    if (waiting) wait_for_answer(j, waiting, a);
    if (reason == KROFT_SV_RIGHT && has_unknown(data, a)) reason = KROFT_SV_UNKNOWN_DATA;
    return say(j->text, a, reason);
}

int kroft_sv_store(void *judge, unsigned long long id, unsigned long long address, int size, const kroft_four_states *data,
                   unsigned long long enables) {
    judge_state *j = (judge_state *)judge;
    access a = request(1, id, address, size, enables);
    return store(j, &a, data, &j->stores);
}

int kroft_sv_post(void *judge, unsigned long long id, unsigned long long address, int size, const kroft_four_states *data,
                  unsigned long long enables) {
    access a = request(1, id, address, size, enables);
    return store((judge_state *)judge, &a, data, NULL);
}

/* ---- answers ------------------------------------------------------------------------------------- */

/* Takes the value of one word of a load, and pays what is owed, whatever came, so that the tag is free. Without data
   what is owed came. `owed` and `got` are of the whole access. */
static int take_word(judge_state *j, uint32_t tag, const part *p, const kroft_four_states *data, uint8_t *owed, uint8_t *got) {
    kroft_event event;
    kroft_answer answer;
    kroft_due due = table_of(j, tag)[tag % KROFT_TAGS];
    kroft_word right = due.word;
    int lane;
    if (!due.owed) return KROFT_SV_BROKEN_LIBRARY;
    memset(&event, 0, sizeof event);
    memset(&answer, 0, sizeof answer);
    event.kind = KROFT_TAKE;
    answer.kind = KROFT_VALUE;
    answer.tag = (uint16_t)tag;
    answer.word = right;
    for (lane = 0; lane < WORD; lane++) {
        int byte = p->begin + lane;
        if (!(p->lanes >> lane & 1)) continue;
        if (data) answer.word.b[lane] = byte_of(data, byte);
        owed[byte] = right.b[lane];
        got[byte] = answer.word.b[lane];
    }
    give_tag(j, tag);
    if (step(j, p->in, tag, &event, &answer)) return KROFT_SV_RIGHT;
    answer.word = right;
    return step(j, p->in, tag, &event, &answer) ? KROFT_SV_WRONG_DATA : KROFT_SV_BROKEN_LIBRARY;
}

/* Ends a load, with data or without. */
static int end_load(judge_state *j, uint64_t id, const kroft_four_states *data) {
    access a;
    part parts[MAX_WORDS];
    uint8_t owed[MAX_SIZE], got[MAX_SIZE];
    int reason = KROFT_SV_RIGHT, count, i, unknown;
    if (!take_access(j, &j->loads, id, &a)) return say_stray(j->text, 0, id);
    count = parts_of(j, &a, parts);
    unknown = data && has_unknown(data, &a);
    for (i = 0; i < count; i++) {
        int now = take_word(j, a.tags[i], &parts[i], unknown ? NULL : data, owed, got);
        if (now > reason) reason = now;
    }
    if (unknown && reason == KROFT_SV_RIGHT) reason = KROFT_SV_UNKNOWN_DATA;
    say(j->text, &a, reason);
    if (reason == KROFT_SV_WRONG_DATA) {
        say_bytes(j->text, &a, ": owed ", owed);
        say_bytes(j->text, &a, ", got ", got);
    }
    return reason;
}

static int end_store(judge_state *j, uint64_t id, int reason) {
    access a;
    if (!take_access(j, &j->stores, id, &a)) return say_stray(j->text, 1, id);
    return say(j->text, &a, reason);
}

int kroft_sv_value(void *judge, unsigned long long id, const kroft_four_states *data) {
    return end_load((judge_state *)judge, id, data);
}

int kroft_sv_failed_load(void *judge, unsigned long long id) { return end_load((judge_state *)judge, id, NULL); }

int kroft_sv_stored(void *judge, unsigned long long id) { return end_store((judge_state *)judge, id, KROFT_SV_RIGHT); }

int kroft_sv_failed_store(void *judge, unsigned long long id) {
    return end_store((judge_state *)judge, id, KROFT_SV_FAILED);
}

/* ---- the handle ---------------------------------------------------------------------------------- */

void *kroft_sv_open(unsigned long long first, unsigned long long last) {
    judge_state *j = (judge_state *)must(calloc(1, sizeof *j));
    j->first = first;
    j->last = last;
    add_table(j);
    return j;
}

void kroft_sv_close(void *judge) {
    judge_state *j = (judge_state *)judge;
    uint32_t table;
    if (!j) return;
    map_free(&j->pages);
    map_free(&j->loads);
    map_free(&j->stores);
    for (table = 0; table < j->table_count; table++) free(j->tables[table]);
    free(j->tables);
    free(j->free_tags);
    free(j);
}

int kroft_sv_unanswered(void *judge) {
    const judge_state *j = (const judge_state *)judge;
    return (int)(j->loads.count + j->stores.count);
}

int kroft_sv_unanswered_access(void *judge, int n, int *is_store, unsigned long long *id, unsigned long long *address, int *size) {
    const held *at = n < 0 ? NULL : ((const judge_state *)judge)->oldest;
    for (; at && n > 0; n--) at = at->newer;
    *is_store = at ? at->asked.is_store : 0;
    *id = at ? at->asked.id : 0;
    *address = at ? at->asked.address : 0;
    *size = at ? at->asked.size : 0;
    return at != NULL;
}

const char *kroft_sv_text(void *judge) { return (const char *)judge; }

/* ---- traffic --------------------------------------------------------------------------------------- */

int kroft_sv_traffic(unsigned long long base, unsigned blocks, unsigned block_bytes, unsigned widest, unsigned sets,
                     unsigned conflicts, unsigned burst, unsigned requesters, unsigned apart, unsigned stores, unsigned partial,
                     unsigned words, unsigned blocks_of_set, unsigned long long seed, unsigned long long number,
                     unsigned *requester, unsigned *size, unsigned long long *turn, unsigned long long *address,
                     unsigned long long *enables, uint32_t *data) {
    kroft_traffic_plan plan = {base,       blocks, block_bytes, widest,  sets,  conflicts,    burst,
                       requesters, apart,  stores,      partial, words, blocks_of_set};
    kroft_traffic_access drawn = {0, 0, 0, 0, 0};
    uint8_t bytes[64] = {0};
    int is_drawn = kroft_traffic_draw(&plan, seed, number, &drawn, bytes, sizeof bytes) == KROFT_OK;
    int i;
    *requester = drawn.requester;
    *size = drawn.length;
    *turn = drawn.turn;
    *address = drawn.address;
    *enables = drawn.enables;
    for (i = 0; i < 16; i++)
        data[i] = bytes[4 * i] | (uint32_t)bytes[4 * i + 1] << 8 | (uint32_t)bytes[4 * i + 2] << 16 | (uint32_t)bytes[4 * i + 3] << 24;
    return is_drawn;
}
