/*
 * history_rates EVENTS OPEN UNITS [LAW]: tells how long a call of the C library's histories takes, by each law or by this
 * one, and how much memory the process has had by then. So many operations of eight bytes are open at all times, over so
 * many units of eight bytes: half of them stores, of which three in ten write some bytes of a unit alone. An operation
 * takes effect at its request, and by the regular and the atomic law one in two at its response, so that each history is
 * one of its law. Only the calls are timed, by the processor time of the process.
 */
#include <inttypes.h>
#include <stdio.h>
#include <stdlib.h>
#include <string.h>
#include <sys/resource.h>
#include <time.h>

#include "kroft.h"

enum { BYTES = 8, MOST_OPEN = 64, MOST_UNITS = 4096, BATCH = 4096 };

typedef struct {
    uint64_t number;
    uint64_t unit;
    uint64_t enables;
    uint8_t bytes[BYTES]; /* of a store, or what a load got */
    int is_store;
    int is_done; /* it has taken effect */
    int is_answer;
} event;

typedef struct {
    uint8_t memory[MOST_UNITS][BYTES];
    event open[MOST_OPEN];
    size_t count;
    uint64_t numbers;
    uint64_t seed;
} machine;

static uint64_t draw(machine *m) {
    m->seed ^= m->seed << 13;
    m->seed ^= m->seed >> 7;
    m->seed ^= m->seed << 17;
    return m->seed;
}

static void take_effect(machine *m, event *e) {
    uint8_t *there = m->memory[e->unit];
    if (!e->is_store) {
        memcpy(e->bytes, there, BYTES);
    }
    for (int k = 0; e->is_store && k < BYTES; k++) {
        if (e->enables >> k & 1) {
            there[k] = e->bytes[k];
        }
    }
    e->is_done = 1;
}

static event request(machine *m, size_t units, int only_early) {
    event e = {0};
    uint64_t word = draw(m);
    e.number = m->numbers++;
    e.unit = draw(m) % units;
    e.is_store = (int)(draw(m) % 2);
    e.enables = draw(m) % 10 < 3 ? 1 + draw(m) % 255 : 255;
    if (e.is_store) {
        memcpy(e.bytes, &word, BYTES);
    }
    if (only_early || draw(m) % 2) {
        take_effect(m, &e);
    }
    m->open[m->count++] = e;
    return e;
}

static event answer(machine *m) {
    size_t k = draw(m) % m->count;
    event e = m->open[k];
    if (!e.is_done) {
        take_effect(m, &e);
    }
    m->open[k] = m->open[--m->count];
    e.is_answer = 1;
    return e;
}

static uint32_t tell(kroft_history *history, const event *e) {
    if (e->is_store) {
        return e->is_answer ? kroft_history_store_response(history, e->number)
                            : kroft_history_store_request(history, e->number, e->unit * BYTES, e->bytes, BYTES, e->enables);
    }
    return e->is_answer ? kroft_history_load_response(history, e->number, e->bytes, BYTES)
                        : kroft_history_load_request(history, e->number, e->unit * BYTES, BYTES, UINT64_MAX);
}

static double now(void) {
    struct timespec t;
    clock_gettime(CLOCK_PROCESS_CPUTIME_ID, &t);
    return (double)t.tv_sec * 1e9 + (double)t.tv_nsec;
}

/* Returns the nanoseconds of all calls, or less than 0 if one didn't take its event. */
static double run(kroft_history *history, uint64_t events, size_t open, size_t units, int only_early) {
    static machine m;
    static event batch[BATCH];
    double time = 0;
    memset(&m, 0, sizeof m);
    m.seed = 88172645463325252u;
    for (uint64_t made = 0; made < events;) {
        size_t count = events - made < BATCH ? (size_t)(events - made) : BATCH;
        for (size_t k = 0; k < count; k++) {
            batch[k] = m.count < open ? request(&m, units, only_early) : answer(&m);
        }
        double began = now();
        for (size_t k = 0; k < count; k++) {
            uint32_t status = tell(history, &batch[k]);
            if (status != KROFT_OK) {
                fprintf(stderr, "history_rates: event %" PRIu64 " has status %" PRIu32 "\n", made + k, status);
                return -1;
            }
        }
        time += now() - began;
        made += count;
    }
    return time;
}

int main(int argc, char **argv) {
    static const struct {
        const char *name;
        uint32_t law, unit;
    } laws[] = {{"regular", KROFT_REGULAR_LAW, 1}, {"flat", KROFT_FLAT_LAW, 1}, {"atomic", KROFT_ATOMIC_LAW, BYTES}};
    uint64_t events = argc > 1 ? strtoull(argv[1], NULL, 10) : 0;
    size_t open = argc > 2 ? strtoul(argv[2], NULL, 10) : 0;
    size_t units = argc > 3 ? strtoul(argv[3], NULL, 10) : 0;
    int told = 0;
    if (argc < 4 || events == 0 || open == 0 || open > MOST_OPEN || units == 0 || units > MOST_UNITS) {
        fprintf(stderr, "usage: history_rates EVENTS OPEN UNITS [LAW], at most %d open and %d units\n", MOST_OPEN, MOST_UNITS);
        return 2;
    }
    for (size_t k = 0; k < sizeof laws / sizeof *laws; k++) {
        kroft_history history = KROFT_NO_HISTORY;
        struct rusage used;
        if (argc > 4 && strcmp(argv[4], laws[k].name) != 0) {
            continue;
        }
        if (kroft_history_open(&history, laws[k].law, laws[k].unit, KROFT_ZEROS, NULL, 0) != KROFT_OK) {
            fprintf(stderr, "history_rates: too little memory\n");
            return 1;
        }
        double time = run(&history, events, open, units, laws[k].law == KROFT_FLAT_LAW);
        kroft_history_close(&history);
        getrusage(RUSAGE_SELF, &used);
        if (time < 0) {
            return 1;
        }
        told = 1;
        printf("%s: %.1f ns a call, %ld KB\n", laws[k].name, time / (double)events, used.ru_maxrss);
    }
    if (!told) {
        fprintf(stderr, "history_rates: no law is called %s\n", argv[4]);
        return 2;
    }
    return 0;
}
