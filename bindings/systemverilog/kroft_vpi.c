/*
 * The functions of kroft_dpi.h as system functions, for Icarus Verilog, which has no DPI:
 *
 *     iverilog-vpi --name=kroft kroft_vpi.c kroft_dpi.c kroft_history.c -IDIR -LDIR -l:libkroft.a && vvp -M. -mkroft bench.vvp
 *
 * with the DIR of `./kroft-lib DIR`, in the folder of these files. (An archive that is named as a file is left out by
 * iverilog-vpi, and vvp then loads no such module.)
 *
 * A judge or a history is a number that isn't 0. kroft_pkg.sv gives the system functions the names of the imported ones;
 * those that have outputs ($kroft_traffic, $kroft_unanswered_access, $kroft_may_return, $kroft_why, $kroft_undecided and
 * $kroft_open_operation, and $kroft_seen for its 64 bits) are called as they are.
 */
#include "kroft_dpi.h"
#include "kroft.h"

#include <stdint.h>
#include <vpi_user.h>

enum { JUDGES = 256, WORDS = 16, SET_WORDS = 8 };

/* The open judges and histories: the number of one is its place. */
static struct {
    void *judge;
    int is_history;
} opened[JUDGES];

/* What a call of a system function has: the arguments that are still to be read. */
typedef struct {
    vpiHandle call;
    vpiHandle rest;
} arguments;

static arguments begin(void) {
    arguments a;
    a.call = vpi_handle(vpiSysTfCall, NULL);
    a.rest = vpi_iterate(vpiArgument, a.call);
    return a;
}

/* The next argument's first `words` times 32 bits, those that it hasn't as zeros. */
static void next_bits(arguments *a, kroft_four_states *bits, int words) {
    vpiHandle argument = a->rest ? vpi_scan(a->rest) : NULL;
    int has = argument ? (vpi_get(vpiSize, argument) + 31) / 32 : 0, i;
    s_vpi_value value;
    value.format = vpiVectorVal;
    if (argument) vpi_get_value(argument, &value);
    else a->rest = NULL;
    for (i = 0; i < words; i++) {
        bits[i].bits = i < has ? (uint32_t)value.value.vector[i].aval : 0;
        bits[i].unknown = i < has ? (uint32_t)value.value.vector[i].bval : 0;
    }
}

static unsigned long long next_number(arguments *a) {
    kroft_four_states bits[2];
    next_bits(a, bits, 2);
    return bits[0].bits | (unsigned long long)bits[1].bits << 32;
}

/* The judge, or the history, that the next argument names; the simulation ends if it names none. */
static void *next_opened(arguments *a, int is_history) {
    unsigned long long number = next_number(a) & 0xffffffff;
    if (number < JUDGES && opened[number].judge && opened[number].is_history == is_history) return opened[number].judge;
    vpi_printf("kroft: %llu is no open %s\n", number, is_history ? "history" : "judge");
    vpi_control(vpiFinish, 1);
    return NULL;
}

static void *next_judge(arguments *a) { return next_opened(a, 0); }
static void *next_history(arguments *a) { return next_opened(a, 1); }

/* Writes so many times 32 bits to the next argument, which is a variable. */
static void put_bits(arguments *a, const uint32_t *bits, int words) {
    vpiHandle argument = a->rest ? vpi_scan(a->rest) : NULL;
    s_vpi_vecval vector[WORDS];
    s_vpi_value value;
    int i;
    if (!argument) {
        a->rest = NULL;
        return;
    }
    for (i = 0; i < WORDS; i++) {
        vector[i].aval = i < words ? (PLI_INT32)bits[i] : 0;
        vector[i].bval = 0;
    }
    value.format = vpiVectorVal;
    value.value.vector = vector;
    vpi_put_value(argument, &value, NULL, vpiNoDelay);
}

static void put_number(arguments *a, unsigned long long number) {
    uint32_t bits[2];
    bits[0] = (uint32_t)number;
    bits[1] = (uint32_t)(number >> 32);
    put_bits(a, bits, 2);
}

/* Returns a number from the system function, once its arguments are read. */
static PLI_INT32 give(arguments *a, int number) {
    s_vpi_value value;
    if (a->rest) vpi_free_object(a->rest);
    value.format = vpiIntVal;
    value.value.integer = number;
    vpi_put_value(a->call, &value, NULL, vpiNoDelay);
    return 0;
}

/* The place for one more; the last has none in it, and there is no more then. */
static int free_place(void) {
    int number = 1;
    while (number < JUDGES && opened[number].judge) number++;
    if (number < JUDGES) return number;
    vpi_printf("kroft: %d judges are open\n", JUDGES - 1);
    return 0;
}

static PLI_INT32 open_judge(PLI_BYTE8 *unused) {
    arguments a = begin();
    unsigned long long first = next_number(&a), last = next_number(&a);
    int number = free_place();
    (void)unused;
    if (number) opened[number].judge = kroft_sv_open(first, last);
    opened[number].is_history = 0;
    return give(&a, number);
}

/* Number 0: there is no such law, unit or rest, or no place. */
static PLI_INT32 open_history(PLI_BYTE8 *unused) {
    arguments a = begin();
    unsigned law = (unsigned)next_number(&a), unit = (unsigned)next_number(&a), rest = (unsigned)next_number(&a);
    int number = free_place();
    (void)unused;
    if (number) opened[number].judge = kroft_sv_history_open(law, unit, rest);
    opened[number].is_history = 1;
    return give(&a, opened[number].judge ? number : 0);
}

static PLI_INT32 close_judge(PLI_BYTE8 *unused) {
    arguments a = begin();
    unsigned long long number = next_number(&a);
    (void)unused;
    if (number < JUDGES) {
        if (opened[number].is_history) kroft_sv_history_close(opened[number].judge);
        else kroft_sv_close(opened[number].judge);
        opened[number].judge = NULL;
    }
    if (a.rest) vpi_free_object(a.rest);
    return 0;
}

static PLI_INT32 load(PLI_BYTE8 *unused) {
    arguments a = begin();
    void *judge = next_judge(&a);
    unsigned long long id = next_number(&a), address = next_number(&a);
    int size = (int)next_number(&a);
    unsigned long long enables = next_number(&a);
    (void)unused;
    return give(&a, judge ? kroft_sv_load(judge, id, address, size, enables) : KROFT_SV_NOTHING_OWED);
}

static PLI_INT32 value(PLI_BYTE8 *unused) {
    arguments a = begin();
    void *judge = next_judge(&a);
    unsigned long long id = next_number(&a);
    kroft_four_states data[WORDS];
    (void)unused;
    next_bits(&a, data, WORDS);
    return give(&a, judge ? kroft_sv_value(judge, id, data) : KROFT_SV_NOTHING_OWED);
}

/* $kroft_store and $kroft_post: what it was registered with says which. */
static PLI_INT32 store(PLI_BYTE8 *posted) {
    arguments a = begin();
    void *judge = next_judge(&a);
    unsigned long long id = next_number(&a), address = next_number(&a), enables;
    int size = (int)next_number(&a);
    kroft_four_states data[WORDS];
    next_bits(&a, data, WORDS);
    enables = next_number(&a);
    if (!judge) return give(&a, KROFT_SV_NOTHING_OWED);
    return give(&a, posted ? kroft_sv_post(judge, id, address, size, data, enables)
                           : kroft_sv_store(judge, id, address, size, data, enables));
}

typedef int end_function(void *judge, unsigned long long id);

static PLI_INT32 end(end_function *function, int is_history) {
    arguments a = begin();
    void *judge = next_opened(&a, is_history);
    unsigned long long id = next_number(&a);
    return give(&a, judge ? function(judge, id) : KROFT_SV_NOTHING_OWED);
}

static PLI_INT32 stored(PLI_BYTE8 *unused) {
    (void)unused;
    return end(kroft_sv_stored, 0);
}

static PLI_INT32 failed_load(PLI_BYTE8 *unused) {
    (void)unused;
    return end(kroft_sv_failed_load, 0);
}

static PLI_INT32 failed_store(PLI_BYTE8 *unused) {
    (void)unused;
    return end(kroft_sv_failed_store, 0);
}

static PLI_INT32 unanswered(PLI_BYTE8 *unused) {
    arguments a = begin();
    void *judge = next_judge(&a);
    (void)unused;
    return give(&a, judge ? kroft_sv_unanswered(judge) : 0);
}

static PLI_INT32 unanswered_access(PLI_BYTE8 *unused) {
    arguments a = begin();
    void *judge = next_judge(&a);
    int n = (int)next_number(&a), is_store = 0, size = 0, is_found;
    unsigned long long id = 0, address = 0;
    (void)unused;
    is_found = judge ? kroft_sv_unanswered_access(judge, n, &is_store, &id, &address, &size) : 0;
    put_number(&a, (unsigned long long)is_store);
    put_number(&a, id);
    put_number(&a, address);
    put_number(&a, (unsigned long long)size);
    return give(&a, is_found);
}

static PLI_INT32 print(PLI_BYTE8 *unused) {
    arguments a = begin();
    unsigned long long number = next_number(&a);
    (void)unused;
    if (number < JUDGES && opened[number].judge) vpi_printf("%s\n", kroft_sv_text(opened[number].judge));
    if (a.rest) vpi_free_object(a.rest);
    return 0;
}

/* ---- histories ----------------------------------------------------------------------------------- */

static PLI_INT32 image(PLI_BYTE8 *unused) {
    arguments a = begin();
    void *history = next_history(&a);
    kroft_four_states data[WORDS];
    int size;
    (void)unused;
    next_bits(&a, data, WORDS);
    size = (int)next_number(&a);
    return give(&a, history ? kroft_sv_image(history, data, size) : 0);
}

static PLI_INT32 load_request(PLI_BYTE8 *unused) {
    arguments a = begin();
    void *history = next_history(&a);
    unsigned long long id = next_number(&a), address = next_number(&a), enables, now;
    int size = (int)next_number(&a);
    (void)unused;
    enables = next_number(&a);
    now = next_number(&a);
    return give(&a, history ? kroft_sv_load_request(history, id, address, size, enables, now) : KROFT_SV_NOTHING_OWED);
}

static PLI_INT32 load_response(PLI_BYTE8 *unused) {
    arguments a = begin();
    void *history = next_history(&a);
    unsigned long long id = next_number(&a);
    kroft_four_states data[WORDS];
    (void)unused;
    next_bits(&a, data, WORDS);
    return give(&a, history ? kroft_sv_load_response(history, id, data) : KROFT_SV_NOTHING_OWED);
}

static PLI_INT32 store_request(PLI_BYTE8 *unused) {
    arguments a = begin();
    void *history = next_history(&a);
    unsigned long long id = next_number(&a), address = next_number(&a), enables, now;
    int size = (int)next_number(&a);
    kroft_four_states data[WORDS];
    (void)unused;
    next_bits(&a, data, WORDS);
    enables = next_number(&a);
    now = next_number(&a);
    return give(&a, history ? kroft_sv_store_request(history, id, address, size, data, enables, now) : KROFT_SV_NOTHING_OWED);
}

static PLI_INT32 store_response(PLI_BYTE8 *unused) {
    (void)unused;
    return end(kroft_sv_store_response, 1);
}

static PLI_INT32 load_error(PLI_BYTE8 *unused) {
    (void)unused;
    return end(kroft_sv_load_error, 1);
}

static PLI_INT32 store_error(PLI_BYTE8 *unused) {
    (void)unused;
    return end(kroft_sv_store_error, 1);
}

static PLI_INT32 forget(PLI_BYTE8 *unused) {
    (void)unused;
    return end(kroft_sv_forget, 1);
}

static PLI_INT32 may_return(PLI_BYTE8 *unused) {
    arguments a = begin();
    void *history = next_history(&a);
    unsigned long long id = next_number(&a), address = next_number(&a);
    uint32_t set[SET_WORDS] = {0};
    int is_found = history ? kroft_sv_may_return(history, id, address, set) : 0;
    (void)unused;
    put_bits(&a, set, SET_WORDS);
    return give(&a, is_found);
}

static PLI_INT32 why(PLI_BYTE8 *unused) {
    arguments a = begin();
    void *history = next_history(&a);
    int place = -1, reason;
    unsigned long long stored = 0, stored_at = 0, overwritten_by = 0, overwritten_at = 0;
    (void)unused;
    reason = history ? kroft_sv_why(history, &place, &stored, &stored_at, &overwritten_by, &overwritten_at) : KROFT_REASON_NONE;
    put_number(&a, (unsigned long long)place);
    put_number(&a, stored);
    put_number(&a, stored_at);
    put_number(&a, overwritten_by);
    put_number(&a, overwritten_at);
    return give(&a, reason);
}

static PLI_INT32 undecided(PLI_BYTE8 *unused) {
    arguments a = begin();
    void *history = next_history(&a);
    unsigned long long address = 0;
    int is_found = history ? kroft_sv_undecided(history, &address) : 0;
    (void)unused;
    put_number(&a, address);
    return give(&a, is_found);
}

static PLI_INT32 open_count(PLI_BYTE8 *unused) {
    arguments a = begin();
    void *history = next_history(&a);
    (void)unused;
    return give(&a, history ? kroft_sv_open_count(history) : 0);
}

static PLI_INT32 open_operation(PLI_BYTE8 *unused) {
    arguments a = begin();
    void *history = next_history(&a);
    int n = (int)next_number(&a), is_store = 0, size = 0, is_found;
    unsigned long long id = 0, address = 0, now = 0;
    (void)unused;
    is_found = history ? kroft_sv_open_operation(history, n, &is_store, &id, &address, &size, &now) : 0;
    put_number(&a, (unsigned long long)is_store);
    put_number(&a, id);
    put_number(&a, address);
    put_number(&a, (unsigned long long)size);
    put_number(&a, now);
    return give(&a, is_found);
}

/* $kroft_seen(history, point, count) */
static PLI_INT32 seen(PLI_BYTE8 *unused) {
    arguments a = begin();
    void *history = next_history(&a);
    int point = (int)next_number(&a);
    unsigned long long count = history ? kroft_sv_seen(history, point) : 0;
    (void)unused;
    put_number(&a, count);
    return give(&a, count != 0);
}

/* ---- traffic ------------------------------------------------------------------------------------- */

static PLI_INT32 traffic(PLI_BYTE8 *unused) {
    arguments a = begin();
    unsigned long long base = next_number(&a), seed, number, turn, address, enables;
    unsigned plan[12], requester, size;
    uint32_t data[WORDS];
    int i, is_drawn;
    (void)unused;
    for (i = 0; i < 12; i++) plan[i] = (unsigned)next_number(&a);
    seed = next_number(&a);
    number = next_number(&a);
    is_drawn = kroft_sv_traffic(base, plan[0], plan[1], plan[2], plan[3], plan[4], plan[5], plan[6], plan[7], plan[8], plan[9], plan[10],
                                plan[11], seed, number, &requester, &size, &turn, &address, &enables, data);
    put_number(&a, requester);
    put_number(&a, size);
    put_number(&a, turn);
    put_number(&a, address);
    put_number(&a, enables);
    put_bits(&a, data, WORDS);
    return give(&a, is_drawn);
}

static void add(int type, const char *name, PLI_INT32 (*function)(PLI_BYTE8 *), const char *with) {
    s_vpi_systf_data data = {0};
    data.type = type;
    data.sysfunctype = vpiIntFunc;
    data.tfname = (PLI_BYTE8 *)name;
    data.calltf = function;
    data.user_data = (PLI_BYTE8 *)with;
    vpi_register_systf(&data);
}

static void add_all(void) {
    add(vpiSysFunc, "$kroft_open", open_judge, NULL);
    add(vpiSysTask, "$kroft_close", close_judge, NULL);
    add(vpiSysFunc, "$kroft_load", load, NULL);
    add(vpiSysFunc, "$kroft_value", value, NULL);
    add(vpiSysFunc, "$kroft_store", store, NULL);
    add(vpiSysFunc, "$kroft_post", store, "posted");
    add(vpiSysFunc, "$kroft_stored", stored, NULL);
    add(vpiSysFunc, "$kroft_failed_load", failed_load, NULL);
    add(vpiSysFunc, "$kroft_failed_store", failed_store, NULL);
    add(vpiSysFunc, "$kroft_unanswered", unanswered, NULL);
    add(vpiSysFunc, "$kroft_unanswered_access", unanswered_access, NULL);
    add(vpiSysTask, "$kroft_print", print, NULL);
    add(vpiSysFunc, "$kroft_history_open", open_history, NULL);
    add(vpiSysTask, "$kroft_history_close", close_judge, NULL);
    add(vpiSysFunc, "$kroft_image", image, NULL);
    add(vpiSysFunc, "$kroft_load_request", load_request, NULL);
    add(vpiSysFunc, "$kroft_load_response", load_response, NULL);
    add(vpiSysFunc, "$kroft_store_request", store_request, NULL);
    add(vpiSysFunc, "$kroft_store_response", store_response, NULL);
    add(vpiSysFunc, "$kroft_load_error", load_error, NULL);
    add(vpiSysFunc, "$kroft_store_error", store_error, NULL);
    add(vpiSysFunc, "$kroft_forget", forget, NULL);
    add(vpiSysFunc, "$kroft_may_return", may_return, NULL);
    add(vpiSysFunc, "$kroft_why", why, NULL);
    add(vpiSysFunc, "$kroft_undecided", undecided, NULL);
    add(vpiSysFunc, "$kroft_open_count", open_count, NULL);
    add(vpiSysFunc, "$kroft_open_operation", open_operation, NULL);
    add(vpiSysFunc, "$kroft_seen", seen, NULL);
    add(vpiSysFunc, "$kroft_traffic", traffic, NULL);
}

void (*vlog_startup_routines[])(void) = {add_all, 0};
