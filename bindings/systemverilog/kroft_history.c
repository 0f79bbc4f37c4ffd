/*
 * The histories of kroft.h behind a chandle: only the requests and the responses of a memory are seen. Compile it with
 * the simulation, and link with libkroft. C99, and C++ for simulators that compile it so.
 */
#include "kroft_parts.h"

enum { KEPT_STORES = 8192 /* the library remembers fewer bytes of stores */ };

/* An operation that is open. */
typedef struct operation {
    access asked;
    uint64_t number;                 /* the library's: of a store its id, and of a load one that isn't used again */
    uint64_t now;                    /* the moment of its request */
    struct operation *older, *newer; /* in the order of the requests */
} operation;

typedef struct {
    char text[TEXT_BYTES]; /* as a judge's, it stands first */
    kroft_history history; /* opened for the first event, once the image is whole */
    uint32_t law, unit, rest;
    uint8_t *image;
    size_t image_bytes, image_places;
    map loads, stores;
    operation *oldest, *newest;
    uint64_t new_load, events;
    struct {
        uint64_t event, now;
    } told[KEPT_STORES]; /* the requests of the last stores */
    uint64_t told_count;
    int is_wrong; /* an answer was wrong data, and `why` says more of the last such */
    kroft_history_reason why;
    uint64_t stores_at_once, partial_under_load; /* the library counts the other points */
} history_state;

static void open_history(history_state *h) {
    static const uint8_t none = 0;
    if (h->history.open) return;
    if (kroft_history_open(&h->history, h->law, h->unit, h->rest, h->image ? h->image : &none, h->image_bytes) != KROFT_OK) must(NULL);
    kroft_history_cover(&h->history);
    free(h->image);
    h->image = NULL;
}

void *kroft_sv_history_open(unsigned law, unsigned unit, unsigned rest) {
    history_state *h = (history_state *)must(calloc(1, sizeof *h));
    kroft_history tried = KROFT_NO_HISTORY;
    const uint8_t none = 0;
    uint32_t status;
    h->law = law;
    h->unit = unit ? unit : law == KROFT_ATOMIC_LAW ? 8 : 1;
    h->rest = rest;
    status = kroft_history_open(&tried, h->law, h->unit, rest, &none, 0);
    if (status == KROFT_FAIL_OUT_OF_MEMORY) must(NULL);
    if (status == KROFT_OK) {
        kroft_history_close(&tried);
        return h;
    }
    free(h);
    return NULL;
}

void kroft_sv_history_close(void *history) {
    history_state *h = (history_state *)history;
    if (!h) return;
    kroft_history_close(&h->history);
    map_free(&h->loads);
    map_free(&h->stores);
    free(h->image);
    free(h);
}

static void spread_out(const kroft_four_states *data, int size, uint8_t *bytes) {
    int i;
    for (i = 0; i < size; i++) bytes[i] = byte_of(data, i);
}

int kroft_sv_image(void *history, const kroft_four_states *data, int size) {
    history_state *h = (history_state *)history;
    access all = request(1, 0, 0, size, ~UINT64_C(0));
    if (h->history.open || size < 0 || size > MAX_SIZE || has_unknown(data, &all)) return 0;
    if (h->image_bytes + MAX_SIZE > h->image_places) {
        h->image_places = 2 * h->image_places + MAX_SIZE;
        h->image = (uint8_t *)must(realloc(h->image, h->image_places));
    }
    spread_out(data, size, h->image + h->image_bytes);
    h->image_bytes += (size_t)size;
    return 1;
}

/* What the library says of an event that has no fault of its own. */
static int told(history_state *h, uint32_t status) {
    switch (status) {
    case KROFT_OK: h->events++; return KROFT_SV_RIGHT;
    case KROFT_FAIL_WRONG_BYTE: return KROFT_SV_WRONG_DATA;
    case KROFT_FAIL_UNDECIDED: return KROFT_SV_UNDECIDED;
    case KROFT_FAIL_OUT_OF_MEMORY: must(NULL); break;
    default: break;
    }
    return KROFT_SV_BROKEN_LIBRARY;
}

/* Whether two operations touch a byte that both have. */
static int is_beside(const access *a, const access *b) {
    uint64_t up = b->address - a->address, down = a->address - b->address;
    if (up < MAX_SIZE) return (a->enables >> up & b->enables) != 0;
    return down < MAX_SIZE && (b->enables >> down & a->enables) != 0;
}

static int is_partial(const access *a) {
    return a->is_store && a->enables != (a->size < MAX_SIZE ? (UINT64_C(1) << a->size) - 1 : ~UINT64_C(0));
}

/* Counts a request under each point that it makes with those that are open. */
static void count_request(history_state *h, const access *a) {
    int at_once = 0, under_load = 0;
    const operation *o;
    for (o = h->oldest; a->is_store && o; o = o->newer) {
        if (!is_beside(&o->asked, a)) continue;
        if (o->asked.is_store) at_once = 1;
        else if (is_partial(a)) under_load = 1;
    }
    h->stores_at_once += (uint64_t)at_once;
    h->partial_under_load += (uint64_t)under_load;
}

static void keep(history_state *h, map *waiting, const access *a, uint64_t number, uint64_t now) {
    operation *o = (operation *)must(calloc(1, sizeof *o));
    o->asked = *a;
    o->number = number;
    o->now = now;
    o->older = h->newest;
    if (h->newest) h->newest->newer = o;
    else h->oldest = o;
    h->newest = o;
    map_put(waiting, a->id, o);
}

static void end_operation(history_state *h, operation *o) {
    map_take(o->asked.is_store ? &h->stores : &h->loads, o->asked.id);
    if (o->older) o->older->newer = o->newer;
    else h->oldest = o->newer;
    if (o->newer) o->newer->older = o->older;
    else h->newest = o->older;
    free(o);
}

int kroft_sv_load_request(void *history, unsigned long long id, unsigned long long address, int size,
                          unsigned long long enables, unsigned long long now) {
    history_state *h = (history_state *)history;
    access a = request(0, id, address, size, enables);
    int reason = fault_of(&a, 0, ~UINT64_C(0), NULL);
    if (reason == KROFT_SV_RIGHT) reason = a.enables ? fault_of(&a, 0, ~UINT64_C(0), &h->loads) : KROFT_SV_NO_BYTES;
    if (reason != KROFT_SV_RIGHT) return say(h->text, &a, reason);
    open_history(h);
    reason = told(h, kroft_history_load_request(&h->history, h->new_load, address, (size_t)size, a.enables));
    if (reason != KROFT_SV_RIGHT) return say(h->text, &a, reason);
    count_request(h, &a);
    keep(h, &h->loads, &a, h->new_load++, now);
    return say(h->text, &a, reason);
}

int kroft_sv_store_request(void *history, unsigned long long id, unsigned long long address, int size, const kroft_four_states *data,
                           unsigned long long enables, unsigned long long now) {
    history_state *h = (history_state *)history;
    access a = request(1, id, address, size, enables);
    uint8_t bytes[MAX_SIZE];
    int reason = fault_of(&a, 0, ~UINT64_C(0), &h->stores);
    if (reason != KROFT_SV_RIGHT) return say(h->text, &a, reason);
    open_history(h);
    spread_out(data, size, bytes);
    h->told[h->told_count % KEPT_STORES].event = h->events;
    h->told[h->told_count % KEPT_STORES].now = now;
    reason = told(h, kroft_history_store_request(&h->history, id, address, bytes, (size_t)size, a.enables));
    if (reason != KROFT_SV_RIGHT) return say(h->text, &a, reason);
    h->told_count++;
    count_request(h, &a);
    keep(h, &h->stores, &a, id, now);
    return say(h->text, &a, has_unknown(data, &a) ? KROFT_SV_UNKNOWN_DATA : KROFT_SV_RIGHT);
}

/* Ends a load whose bytes count for nothing. By the atomic law it stays open in the library, since each word that it might
   have got would say something of the stores; by the others it is answered with bytes that it may return. */
static void leave(history_state *h, operation *o) {
    uint8_t bytes[MAX_SIZE], set[KROFT_SET_BYTES];
    int i, byte;
    for (i = 0; i < o->asked.size && h->law != KROFT_ATOMIC_LAW; i++) {
        memset(set, 0, sizeof set);
        kroft_history_may_return(&h->history, o->number, o->asked.address + (uint64_t)i, set);
        for (byte = 0; byte < 255 && !(set[byte / 8] >> byte % 8 & 1); byte++) {}
        bytes[i] = (uint8_t)byte;
    }
    if (h->law != KROFT_ATOMIC_LAW) told(h, kroft_history_load_response(&h->history, o->number, bytes, (size_t)o->asked.size));
    end_operation(h, o);
}

/* The moment of a store's request, by its event. */
static uint64_t moment_of(const history_state *h, uint64_t event) {
    uint64_t i;
    for (i = 0; i < KEPT_STORES && i < h->told_count; i++)
        if (h->told[i].event == event) return h->told[i].now;
    return 0;
}

static void add_moment(char *text, const char *before, uint64_t now, const char *behind) {
    if (now) add(text, "%s%llu%s", before, (unsigned long long)now, behind);
}

static void say_store(history_state *h, const char *before, uint64_t id, uint64_t event, const char *did) {
    add(h->text, "%sstore %llu", before, (unsigned long long)id);
    add_moment(h->text, " (of ", moment_of(h, event), ")");
    add(h->text, " %s", did);
}

/* The wrong byte, and by the laws of bytes what the load may return in its place: at most four of it are named. */
static void say_set(history_state *h, const operation *o, const uint8_t *bytes) {
    uint8_t set[KROFT_SET_BYTES] = {0};
    int byte, count = 0;
    uint64_t address = o->asked.address + h->why.place;
    if (h->law == KROFT_ATOMIC_LAW) add(h->text, ", which stood at no moment in the unit with 0x%llx", (unsigned long long)address);
    add(h->text, ": byte %d is %02x", (int)h->why.place, bytes[h->why.place]);
    if (h->law == KROFT_ATOMIC_LAW) return;
    kroft_history_may_return(&h->history, o->number, address, set);
    add(h->text, ", and may be");
    for (byte = 0; byte < 256; byte++)
        if (set[byte / 8] >> byte % 8 & 1 && count++ < 4) add(h->text, "%s %02x", count > 1 ? " or" : "", byte);
    if (count > 4) add(h->text, " or others");
}

static void say_why(history_state *h, const operation *o, const uint8_t *bytes) {
    uint32_t status = kroft_history_why(&h->history, o->number, bytes, (size_t)o->asked.size, &h->why);
    if (status == KROFT_FAIL_OUT_OF_MEMORY) must(NULL);
    if (status != KROFT_FAIL_WRONG_BYTE) return;
    h->is_wrong = 1;
    say_set(h, o, bytes);
    if (h->why.reason == KROFT_REASON_NEVER_THERE) add(h->text, "; no store put it there");
    if (h->why.reason == KROFT_REASON_FIRST_OVERWRITTEN) add(h->text, "; memory had it first");
    if (h->why.reason == KROFT_REASON_STORE_OVERWRITTEN) say_store(h, "; ", h->why.stored, h->why.stored_at, "put it there");
    if (h->why.reason == KROFT_REASON_FIRST_OVERWRITTEN || h->why.reason == KROFT_REASON_STORE_OVERWRITTEN) say_store(h, ", and ", h->why.overwritten_by, h->why.overwritten_at, "overwrote it");
}

/* Says what an answer is. */
static int say_answer(history_state *h, const operation *o, int reason) {
    uint64_t address;
    if (reason == KROFT_SV_RIGHT) return reason;
    name(h->text, &o->asked, reason);
    add_moment(h->text, ", requested at ", o->now, "");
    add(h->text, ": %s", REASONS[reason]);
    if (reason == KROFT_SV_UNDECIDED && kroft_history_undecided(&h->history, &address) == KROFT_OK)
        add(h->text, ", at 0x%llx", (unsigned long long)address);
    return reason;
}

int kroft_sv_load_response(void *history, unsigned long long id, const kroft_four_states *data) {
    history_state *h = (history_state *)history;
    operation *o = (operation *)map_get(&h->loads, id);
    uint8_t bytes[MAX_SIZE];
    int reason;
    if (!o) return say_stray(h->text, 0, id);
    spread_out(data, o->asked.size, bytes);
    reason = has_unknown(data, &o->asked) ? KROFT_SV_UNKNOWN_DATA
                                          : told(h, kroft_history_load_response(&h->history, o->number, bytes, (size_t)o->asked.size));
    say_answer(h, o, reason);
    if (reason == KROFT_SV_UNDECIDED) return reason;
    if (reason == KROFT_SV_WRONG_DATA) {
        say_bytes(h->text, &o->asked, ": got ", bytes);
        say_why(h, o, bytes);
    }
    if (reason == KROFT_SV_RIGHT) end_operation(h, o);
    else leave(h, o);
    return reason;
}

/* A store is answered, rightly or with an error, which is told once it is taken. */
static int end_store_of(history_state *h, uint64_t id, int failed) {
    operation *o = (operation *)map_get(&h->stores, id);
    int reason;
    if (!o) return say_stray(h->text, 1, id);
    reason = told(h, kroft_history_store_response(&h->history, o->number));
    if (reason == KROFT_SV_RIGHT) reason = failed;
    say_answer(h, o, reason);
    if (reason == KROFT_SV_UNDECIDED) return reason;
    end_operation(h, o);
    return reason;
}

int kroft_sv_store_response(void *history, unsigned long long id) { return end_store_of((history_state *)history, id, KROFT_SV_RIGHT); }

int kroft_sv_store_error(void *history, unsigned long long id) { return end_store_of((history_state *)history, id, KROFT_SV_FAILED); }

int kroft_sv_load_error(void *history, unsigned long long id) {
    history_state *h = (history_state *)history;
    operation *o = (operation *)map_get(&h->loads, id);
    if (!o) return say_stray(h->text, 0, id);
    say_answer(h, o, KROFT_SV_RIGHT);
    leave(h, o);
    return KROFT_SV_RIGHT;
}

int kroft_sv_may_return(void *history, unsigned long long id, unsigned long long address, uint32_t *set) {
    history_state *h = (history_state *)history;
    const operation *o = (const operation *)map_get(&h->loads, id);
    uint8_t row[KROFT_SET_BYTES] = {0};
    uint32_t status = o ? kroft_history_may_return(&h->history, o->number, address, row) : (uint32_t)KROFT_ABSENT;
    int i;
    if (status == KROFT_FAIL_OUT_OF_MEMORY) must(NULL);
    for (i = 0; i < KROFT_SET_BYTES / 4; i++)
        set[i] = row[4 * i] | (uint32_t)row[4 * i + 1] << 8 | (uint32_t)row[4 * i + 2] << 16 | (uint32_t)row[4 * i + 3] << 24;
    return status == KROFT_OK;
}

int kroft_sv_why(void *history, int *place, unsigned long long *stored, unsigned long long *stored_at, unsigned long long *overwritten_by,
                 unsigned long long *overwritten_at) {
    history_state *h = (history_state *)history;
    int has_stored = h->is_wrong && h->why.reason == KROFT_REASON_STORE_OVERWRITTEN;
    int has_overwritten = has_stored || (h->is_wrong && h->why.reason == KROFT_REASON_FIRST_OVERWRITTEN);
    *place = h->is_wrong ? (int)h->why.place : -1;
    *stored = has_stored ? h->why.stored : 0;
    *stored_at = has_stored ? moment_of(h, h->why.stored_at) : 0;
    *overwritten_by = has_overwritten ? h->why.overwritten_by : 0;
    *overwritten_at = has_overwritten ? moment_of(h, h->why.overwritten_at) : 0;
    return h->is_wrong ? (int)h->why.reason : KROFT_REASON_NONE;
}

int kroft_sv_undecided(void *history, unsigned long long *address) {
    uint64_t begin = 0;
    int is_found = kroft_history_undecided(&((history_state *)history)->history, &begin) == KROFT_OK;
    *address = begin;
    return is_found;
}

int kroft_sv_forget(void *history, unsigned long long address) {
    history_state *h = (history_state *)history;
    uint32_t status;
    if (h->law != KROFT_ATOMIC_LAW) return 0;
    open_history(h);
    status = kroft_history_forget(&h->history, address);
    if (status == KROFT_FAIL_OUT_OF_MEMORY) must(NULL);
    return status == KROFT_OK;
}

int kroft_sv_open_count(void *history) {
    const history_state *h = (const history_state *)history;
    return (int)(h->loads.count + h->stores.count);
}

int kroft_sv_open_operation(void *history, int n, int *is_store, unsigned long long *id, unsigned long long *address, int *size,
                            unsigned long long *now) {
    const operation *o = n < 0 ? NULL : ((const history_state *)history)->oldest;
    for (; o && n > 0; n--) o = o->newer;
    *is_store = o ? o->asked.is_store : 0;
    *id = o ? o->asked.id : 0;
    *address = o ? o->asked.address : 0;
    *size = o ? o->asked.size : 0;
    *now = o ? o->now : 0;
    return o != NULL;
}

unsigned long long kroft_sv_seen(void *history, int point) {
    const history_state *h = (const history_state *)history;
    kroft_history_counts counts = {0, 0, 0, 0}; /* before the first event nothing is written */
    kroft_history_coverage(&h->history, &counts);
    switch (point) {
    case KROFT_SV_LOAD_BESIDE_STORE: return counts.beside_store;
    case KROFT_SV_STORES_AT_ONCE: return h->stores_at_once;
    case KROFT_SV_PARTIAL_UNDER_LOAD: return h->partial_under_load;
    case KROFT_SV_OVERTAKEN: return counts.overtaking;
    case KROFT_SV_LOAD_WITH_CHOICE: return counts.choices;
    default: return 0;
    }
}
