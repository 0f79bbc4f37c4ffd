/*
 * What kroft_dpi.c and kroft_history.c share: memory that there has to be, a map, an access, and what is said of it.
 */
#ifndef KROFT_PARTS_H
#define KROFT_PARTS_H

#include "kroft_dpi.h"

#include "kroft.h"

#include <stdarg.h>
#include <stdio.h>
#include <stdlib.h>
#include <string.h>

enum {
    MAX_SIZE = 64,
    WORD = 4,
    MAX_WORDS = MAX_SIZE / WORD + 1, /* not aligned, 64 bytes lie in 17 words */
    TEXT_BYTES = 768
};

static inline void *must(void *memory) {
    if (!memory) {
        fputs("kroft: there is no more memory\n", stderr);
        exit(2);
    }
    return memory;
}

/* ---- a map from 64-bit keys to pointers ---------------------------------------------------------- */

typedef struct {
    uint64_t key;
    void *value; /* NULL: the place is free */
} entry;

/* A table whose places are a power of two, at most half of them taken. An entry stands at the place of its key or,
   if that is taken, at one of those behind it, with none free between. */
typedef struct {
    entry *entries;
    size_t places;
    size_t count;
} map;

static inline size_t home_of(const map *m, uint64_t key) {
    key *= UINT64_C(0x9e3779b97f4a7c15);
    return (size_t)(key >> 32) & (m->places - 1);
}

/* The entry of a key, or the free place at which it would stand. */
static inline entry *place_of(const map *m, uint64_t key) {
    size_t at = home_of(m, key);
    while (m->entries[at].value && m->entries[at].key != key) at = (at + 1) & (m->places - 1);
    return &m->entries[at];
}

static inline void *map_get(const map *m, uint64_t key) { return m->places ? place_of(m, key)->value : NULL; }

static inline void map_grow(map *m) {
    map larger;
    size_t at;
    larger.places = m->places ? 2 * m->places : 64;
    larger.count = m->count;
    larger.entries = (entry *)must(calloc(larger.places, sizeof(entry)));
    for (at = 0; at < m->places; at++)
        if (m->entries[at].value) *place_of(&larger, m->entries[at].key) = m->entries[at];
    free(m->entries);
    *m = larger;
}

/* Puts in a key that isn't there. */
static inline void map_put(map *m, uint64_t key, void *value) {
    entry *place;
    if (2 * (m->count + 1) > m->places) map_grow(m);
    place = place_of(m, key);
    place->key = key;
    place->value = value;
    m->count++;
}

/* Takes out a key; NULL if it isn't there. Entries behind it move up, so that each stays within reach of its place. */
static inline void *map_take(map *m, uint64_t key) {
    entry *found = m->places ? place_of(m, key) : NULL;
    void *value = found ? found->value : NULL;
    size_t hole, at, mask = m->places - 1;
    if (!value) return NULL;
    hole = (size_t)(found - m->entries);
    for (at = (hole + 1) & mask; m->entries[at].value; at = (at + 1) & mask) {
        size_t home = home_of(m, m->entries[at].key);
        if (((at - home) & mask) < ((at - hole) & mask)) continue;
        m->entries[hole] = m->entries[at];
        hole = at;
    }
    m->entries[hole].value = NULL;
    m->count--;
    return value;
}

static inline void map_free(map *m) {
    size_t at;
    for (at = 0; at < m->places; at++) free(m->entries[at].value);
    free(m->entries);
}

/* ---- an access ----------------------------------------------------------------------------------- */

typedef struct {
    int is_store;
    uint64_t id, address, enables;
    int size;
    uint32_t tags[MAX_WORDS]; /* by flat memory, of a load: one for each word that has an enabled byte */
} access;

static inline access request(int is_store, uint64_t id, uint64_t address, int size, uint64_t enables) {
    access a;
    memset(&a, 0, sizeof a);
    a.is_store = is_store;
    a.id = id;
    a.address = address;
    a.size = size;
    a.enables = size >= 0 && size < MAX_SIZE ? enables & ((UINT64_C(1) << size) - 1) : enables;
    return a;
}

static inline int fault_of(const access *a, uint64_t first, uint64_t last, const map *waiting) {
    if (a->size < 1 || a->size > MAX_SIZE) return KROFT_SV_BAD_SIZE;
    if (a->address < first || a->address > last || (uint64_t)a->size - 1 > last - a->address) return KROFT_SV_OUTSIDE;
    if (a->is_store && !a->enables) return KROFT_SV_NO_BYTES;
    return waiting && map_get(waiting, a->id) ? KROFT_SV_ID_IN_USE : KROFT_SV_RIGHT;
}

static inline uint8_t byte_of(const kroft_four_states *data, int i) { return (uint8_t)(data[i / 4].bits >> i % 4 * 8); }

static inline int has_unknown(const kroft_four_states *data, const access *a) {
    int i;
    for (i = 0; i < a->size; i++)
        if (a->enables >> i & 1 && (data[i / 4].unknown >> i % 4 * 8 & 255)) return 1;
    return 0;
}

/* ---- what is said -------------------------------------------------------------------------------- */

static const char *const REASONS[] = {
    "right", "an access is of 1 to 64 bytes", "bytes outside of memory", "no byte is enabled",
    "the id still waits for its answer", "an answer that nobody waits for", "wrong data", "X or Z in the data",
    "a store inside of memory failed", "not the library of this header", "undecided: too many ways in one unit"};

/* Puts words behind a text. All that is ever said has room in TEXT_BYTES. */
static inline void add(char *text, const char *format, ...) {
    size_t length = strlen(text);
    va_list arguments;
    va_start(arguments, format);
    vsnprintf(text + length, TEXT_BYTES - length, format, arguments);
    va_end(arguments);
}

static inline void name(char *text, const access *a, int reason) {
    text[0] = 0;
    add(text, "%s %llu", a->is_store ? "store" : "load", (unsigned long long)a->id);
    if (reason != KROFT_SV_NOTHING_OWED) add(text, " of %d bytes at 0x%llx", a->size, (unsigned long long)a->address);
}

/* What is right is said by no text. */
static inline int say(char *text, const access *a, int reason) {
    if (reason == KROFT_SV_RIGHT) return reason;
    name(text, a, reason);
    add(text, ": %s", REASONS[reason]);
    return reason;
}

/* The enabled bytes after a name; `--` is a byte that isn't enabled. */
static inline void say_bytes(char *text, const access *a, const char *name, const uint8_t *bytes) {
    int i;
    add(text, "%s", name);
    for (i = 0; i < a->size; i++) {
        if (a->enables >> i & 1) add(text, "%02x", bytes[i]);
        else add(text, "--");
    }
}

static inline int say_stray(char *text, int is_store, uint64_t id) {
    access a;
    memset(&a, 0, sizeof a);
    a.is_store = is_store;
    a.id = id;
    return say(text, &a, KROFT_SV_NOTHING_OWED);
}

#endif
