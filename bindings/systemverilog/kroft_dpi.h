/* The functions of kroft_dpi.c, as kroft_pkg.sv imports them and kroft_vpi.c calls them. */
#ifndef KROFT_DPI_H
#define KROFT_DPI_H

#include <stdint.h>

#ifdef __cplusplus
extern "C" {
#endif

/* 32 bits of a value with four states, as SystemVerilog hands them over: the type of svLogicVecVal and s_vpi_vecval.
   A bit of `unknown` is set for X and Z. */
typedef struct {
    uint32_t bits;
    uint32_t unknown;
} kroft_four_states;

/* What is wrong with a request or an answer. The numbers are those of kroft_reason in kroft_pkg.sv. */
enum {
    KROFT_SV_RIGHT = 0,
    KROFT_SV_BAD_SIZE = 1,      /* a request of no bytes, or of more than 64                            */
    KROFT_SV_OUTSIDE = 2,       /* a request with bytes outside of memory                               */
    KROFT_SV_NO_BYTES = 3,      /* a store, or a load of a history, that enables no byte                */
    KROFT_SV_ID_IN_USE = 4,     /* a request under an id that waits for its answer                      */
    KROFT_SV_NOTHING_OWED = 5,  /* an answer to an id that waits for none of its kind                   */
    KROFT_SV_WRONG_DATA = 6,    /* a value that isn't the one that is owed                              */
    KROFT_SV_UNKNOWN_DATA = 7,  /* X or Z in a byte that is enabled                                     */
    KROFT_SV_FAILED = 8,        /* a store inside of memory that was answered with an error             */
    KROFT_SV_BROKEN_LIBRARY = 9, /* the library says what its header doesn't: it isn't the one         */
    KROFT_SV_UNDECIDED = 10     /* no fault: by the atomic law there is no verdict                      */
};

/* A judge over the addresses `first` to `last`, both included, all bytes zero. It is given up by kroft_sv_close. A
   simulation that has no more memory ends. */
void *kroft_sv_open(unsigned long long first, unsigned long long last);
void kroft_sv_close(void *judge);

/* A load of `size` bytes was accepted; bit i of `enables` is byte i. */
int kroft_sv_load(void *judge, unsigned long long id, unsigned long long address, int size, unsigned long long enables);

/* A load's value came: 64 bytes, of which the load's size count, byte 0 in the lowest bits. */
int kroft_sv_value(void *judge, unsigned long long id, const kroft_four_states *data);

/* A store was accepted, with its data as above; its answer follows, or, posted, none does. */
int kroft_sv_store(void *judge, unsigned long long id, unsigned long long address, int size, const kroft_four_states *data,
                unsigned long long enables);
int kroft_sv_post(void *judge, unsigned long long id, unsigned long long address, int size, const kroft_four_states *data,
               unsigned long long enables);

/* A store's answer came; a load or a store was answered with an error. */
int kroft_sv_stored(void *judge, unsigned long long id);
int kroft_sv_failed_load(void *judge, unsigned long long id);
int kroft_sv_failed_store(void *judge, unsigned long long id);

/* How many accesses wait for their answers, and the one at a place in the order of their requests: 0 is the first. Returns 1; or
   0, and all are 0: there are no more. */
int kroft_sv_unanswered(void *judge);
int kroft_sv_unanswered_access(void *judge, int n, int *is_store, unsigned long long *id, unsigned long long *address, int *size);

/* What the last request or answer of a judge, or of a history, that wasn't right is said to be, as one line. It stands until
   the next such. */
const char *kroft_sv_text(void *judge);

/* A history by a law, with nothing but its requests and responses, as kroft.h describes it: KROFT_REGULAR_LAW,
   KROFT_FLAT_LAW or KROFT_ATOMIC_LAW, a unit of 1, 2, 4 or 8 bytes, or 0 for the largest that the law has, and
   KROFT_ZEROS or KROFT_UNKNOWN beyond the image. Returns NULL if there is no such law, unit or rest. */
void *kroft_sv_history_open(unsigned law, unsigned unit, unsigned rest);
void kroft_sv_history_close(void *history);

/* Puts at most 64 bytes behind the image that memory has from address 0 on. Returns 1; or 0, and nothing is put there:
   there are more, or X or Z in one of them, or a request was told, or by the atomic law a unit was forgotten. */
int kroft_sv_image(void *history, const kroft_four_states *data, int size);

/* A load, or a store, of the bytes that are enabled is requested. What is answered of a load's other bytes isn't judged, X
   and Z too. `now` is the moment, as the caller counts it: it is said of what is wrong later, unless it is 0. */
int kroft_sv_load_request(void *history, unsigned long long id, unsigned long long address, int size,
                          unsigned long long enables, unsigned long long now);
int kroft_sv_store_request(void *history, unsigned long long id, unsigned long long address, int size, const kroft_four_states *data,
                           unsigned long long enables, unsigned long long now);

/* It is answered, and its id is free again, whatever is said; but after KROFT_SV_UNDECIDED all is as it was before.

   By the atomic law a load that got wrong data, X or Z, or an error is answered as well, and not among those of
   kroft_sv_open_count any more, but to the library it stays open for ever: each word that it might have got would say
   something of the stores. So each unit that it touches keeps all that it may have been since the load's request. Answers
   there take longer with every store, and after some 65,536 stores, or far fewer if several are open at once, they are
   KROFT_SV_UNDECIDED. kroft_sv_forget ends that, at once or then, and the unit isn't judged any more; the others are as
   ever. */
int kroft_sv_load_response(void *history, unsigned long long id, const kroft_four_states *data);
int kroft_sv_store_response(void *history, unsigned long long id);

/* It is answered with an error: a load is owed nothing any more, and of a store that is KROFT_SV_FAILED. */
int kroft_sv_load_error(void *history, unsigned long long id);
int kroft_sv_store_error(void *history, unsigned long long id);

/* What the load that is open under an id may return for the byte at an address, if it is answered now: bit k of the 256
   says it of byte k. Returns 1; or 0, and no bit is set: no such load asks for that byte, or there is no verdict. */
int kroft_sv_may_return(void *history, unsigned long long id, unsigned long long address, uint32_t *set);

/* Of the last answer that was KROFT_SV_WRONG_DATA: the place of the first wrong byte, or -1 if none was, and why it is wrong.
   Returns one of the reasons of kroft.h: of KROFT_REASON_STORE_OVERWRITTEN both stores are told, of
   KROFT_REASON_FIRST_OVERWRITTEN the second, by their ids and the moments of their requests; else these are 0. */
int kroft_sv_why(void *history, int *place, unsigned long long *stored, unsigned long long *stored_at, unsigned long long *overwritten_by,
                 unsigned long long *overwritten_at);

/* Where the unit begins for whose sake an answer was KROFT_SV_UNDECIDED. Returns 1; or 0, and 0 is the address: no
   answer was, since an event was taken last or a unit forgotten. */
int kroft_sv_undecided(void *history, unsigned long long *address);

/* Forgets the unit with this address, from where on its bytes are unknown. Returns 1; or 0, and all is as it was: the law
   isn't the atomic one. */
int kroft_sv_forget(void *history, unsigned long long address);

/* How many operations are open, and the one at a place in the order of their requests: 0 is the first. Returns 1; or 0,
   and all are 0: there are no more. */
int kroft_sv_open_count(void *history);
int kroft_sv_open_operation(void *history, int n, int *is_store, unsigned long long *id, unsigned long long *address, int *size,
                            unsigned long long *now);

/* What makes a history tell something, and how often it was seen. The numbers are those of kroft_history_point. By the atomic
   law a load that failed stays open in the library, and so is overtaken for ever. */
enum {
    KROFT_SV_LOAD_BESIDE_STORE = 0,  /* a load, once it is answered, beside a store to one of its bytes       */
    KROFT_SV_STORES_AT_ONCE = 1,     /* two stores that are open at once, at one byte                         */
    KROFT_SV_PARTIAL_UNDER_LOAD = 2, /* a store that leaves out a byte of its own, to a byte of an open load  */
    KROFT_SV_OVERTAKEN = 3,          /* an answer before that of an older request, at one byte                */
    KROFT_SV_LOAD_WITH_CHOICE = 4,   /* a load, once it is answered, that might have got another byte         */
    KROFT_SV_POINTS = 5
};
unsigned long long kroft_sv_seen(void *history, int point);

/* The access of a number in the traffic of a plan and a seed, as kroft.h describes them: 64 bytes of data, byte 0 in the
   lowest bits. Returns 1; or 0, and all is 0, if one of the plan's numbers isn't as described. */
int kroft_sv_traffic(unsigned long long base, unsigned blocks, unsigned block_bytes, unsigned widest, unsigned sets,
                     unsigned conflicts, unsigned burst, unsigned requesters, unsigned apart, unsigned stores, unsigned partial,
                     unsigned words, unsigned blocks_of_set, unsigned long long seed, unsigned long long number,
                     unsigned *requester, unsigned *size, unsigned long long *turn, unsigned long long *address,
                     unsigned long long *enables, uint32_t *data);

#ifdef __cplusplus
}
#endif

#endif
