/*
 * Kroft for C and C++: the judge of one step of flat memory; the judge of a history, behind a handle; the
 * machine, behind another; and traffic for a bench.
 *
 * Link with -lkroft (`./kroft-lib DIR` leaves libkroft.a, libkroft.so and this file in DIR). C99 and
 * later, C++11 and later. A client of version 0.1 includes kroft_0_1.h instead.
 *
 * Every function has an answer to every number, row and length; none aborts. What nothing checks, and the
 * caller keeps: each pointer is valid, aligned for its type, and overlaps none of the call's others; each
 * length is true. A pointer beside a length of 0 may be null, and no other.
 */
#ifndef KROFT_H
#define KROFT_H

#include <stddef.h>
#include <stdint.h>

/* The version of this library, of the program, of the Python package and of pkg-config; and as a number, 1000000 * major +
   1000 * minor + patch. */
#define KROFT_VERSION "0.2.0"
#define KROFT_VERSION_NUMBER 2000

/* A buffer of so many bytes takes each version. */
#define KROFT_VERSION_TEXT 16

/* Where a handle points before it is opened. (C++ takes a plain 0 for no pointer, but its compilers can warn of that.) */
#ifdef __cplusplus
#define KROFT_NOWHERE nullptr
extern "C" {
#else
#define KROFT_NOWHERE 0
#endif

/* ---- results ------------------------------------------------------------------------------------ */

/*
 * What a call returns: KROFT_OK, and it did what it says; KROFT_ABSENT, there is no such thing, or nothing
 * to do; or a failure, 100 or more. After all but KROFT_OK each thing that the call may change is as it was,
 * unless it says otherwise. So a loop asks for KROFT_OK, and ends at a failure too:
 *
 *     while (kroft_machine_pump(&machine, &event, &answer) == KROFT_OK) ..
 *
 * Each name with its number and its text, in ASCII. If several failures hold, a call says which comes first.
 */
#define KROFT_EACH_RESULT(row) \
    /* what isn't a failure */                                                                      \
    row(OK, 0, "ok")                                                                                \
    row(ABSENT, 1, "absent: there is no such thing, or nothing to do")                              \
    /* handles, and calls of several kinds */                                                       \
    row(FAIL_CLOSED, 100, "closed: nothing is behind the handle")                                   \
    row(FAIL_OUT_OF_MEMORY, 101, "out of memory: an allocation was refused")                        \
    row(FAIL_OPEN_ALREADY, 102, "open already: something is behind the handle")                     \
    row(FAIL_NO_LAW, 103, "no law: there is no such law, unit or rest")                             \
    row(FAIL_TOO_LONG, 104, "too long: 2^64 - 1 events were taken")                                 \
    row(FAIL_UNDECIDED, 105, "undecided: too many orders to follow in a unit")                      \
    row(FAIL_NO_ROUNDS, 106, "no rounds: none were begun")                                          \
    row(FAIL_IN_ROUNDS, 107, "in rounds: they alone make the events")                               \
    row(FAIL_NO_UNITS, 108, "no units: the law has none to forget")                                 \
    row(FAIL_NO_ROOM, 109, "no room: the buffer is too short")                                      \
    /* kroft_machine_open: the first number of the shape that is out of its range, in this order */ \
    row(FAIL_BAD_BLOCK_WORDS, 111, "bad shape: block_words is out of its range")                    \
    row(FAIL_BAD_WAYS, 112, "bad shape: ways is out of its range")                                  \
    row(FAIL_BAD_REGS, 113, "bad shape: regs is out of its range")                                  \
    row(FAIL_BAD_DEPTH, 114, "bad shape: depth is out of its range")                                \
    row(FAIL_BAD_WORDS, 115, "bad shape: words is out of its range")                                \
    row(FAIL_BAD_SETS, 116, "bad shape: sets is out of its range")                                  \
    row(FAIL_BAD_BANKS, 117, "bad shape: banks is out of its range")                                \
    row(FAIL_BAD_BANK_QUEUE, 118, "bad shape: bank_queue is out of its range")                      \
    row(FAIL_BAD_WRITE_QUEUE, 119, "bad shape: write_queue is out of its range")                    \
    row(FAIL_BAD_REPLIES, 120, "bad shape: replies is out of its range")                            \
    row(FAIL_BAD_IMAGE, 121, "bad image: it hasn't as many words as memory")                        \
    /* rounds */                                                                                    \
    row(FAIL_BAD_LATENCY, 131, "bad latency: it is more than 1000")                                 \
    row(FAIL_TOO_MANY, 132, "too many: requests of a list, or rounds")                              \
    /* flat memory; the first three: the event may only be refused, with the cause of this name */  \
    row(FAIL_OUT_OF_RANGE, 141, "out of range: memory has no such word")                            \
    row(FAIL_NO_LANES, 142, "no lane: a store that writes no byte")                                 \
    row(FAIL_TAG_IN_USE, 143, "tag in use: its load has no answer yet")                             \
    row(FAIL_NOTHING_OWED, 144, "nothing owed: no load waits under the tag")                        \
    row(FAIL_WRONG_WORD, 145, "wrong word: the load gets another")                                  \
    row(FAIL_OTHER_ANSWER, 146, "wrong answer: this event never gets it")                           \
    row(FAIL_NO_EVENT, 147, "no event: its row is none that may be given here")                     \
    row(FAIL_NO_ANSWER, 148, "no answer: its row says nothing")                                     \
    /* events of a history */                                                                       \
    row(FAIL_BAD_RANGE, 151, "bad range: not 1 to 64 bytes, or not below 2^64")                     \
    row(FAIL_NO_BYTE_ENABLED, 152, "no byte enabled: a load or a store of no byte")                  \
    row(FAIL_NUMBER_IN_USE, 153, "number in use: an operation is open under it")                    \
    row(FAIL_NOT_OPEN, 154, "not open: no operation is open under the number")                      \
    row(FAIL_WRONG_LENGTH, 155, "wrong length: the load asks for another")                          \
    row(FAIL_WRONG_BYTE, 156, "wrong byte: the load may not return it")                             \
    /* why a byte is wrong: kroft_history_reason */                                                 \
    row(REASON_NONE, 160, "no reason: none is known")                                               \
    row(REASON_NEVER_THERE, 161, "never there: no store put the byte there")                        \
    row(REASON_FIRST_OVERWRITTEN, 162, "overwritten: memory's first byte, by a store")              \
    row(REASON_STORE_OVERWRITTEN, 163, "overwritten: a store's byte, by a later store")             \
    row(REASON_NOT_TOGETHER, 164, "not together: the bytes stood so at no moment")                  \
    /* traffic */                                                                                   \
    row(FAIL_NO_PLAN, 171, "no plan: one of its numbers is out of its range")

#define KROFT_RESULT_NUMBER(name, number, text) KROFT_##name = number,
enum { KROFT_EACH_RESULT(KROFT_RESULT_NUMBER) };
#undef KROFT_RESULT_NUMBER

/* The text of a result. */
static inline const char *kroft_text(uint32_t result) {
#define KROFT_RESULT_TEXT(name, number, text) case number: return text;
    switch (result) {
        KROFT_EACH_RESULT(KROFT_RESULT_TEXT)
    default: return "no result has this number";
    }
#undef KROFT_RESULT_TEXT
}

/* A buffer of so many bytes takes each text. */
#define KROFT_RESULT_TEXT_SIZE 64

/*
 * Writes the same text and a 0 behind it: for a client that reads no C. Returns the length of the text,
 * without the 0; if the two don't fit, the buffer is as it was.
 */
uint32_t kroft_result_text(uint32_t result, char *text, size_t ntext);

/* ---- events and answers ------------------------------------------------------------------------ */

/* A word of memory: four bytes, byte 0 first. */
typedef struct {
    uint8_t b[4];
} kroft_word;

/* What an event is, and the members of its row that are read. */
enum {
    KROFT_LOAD = 0,     /* tag, at: a load of the word at `at`, under a tag                          */
    KROFT_STORE = 1,    /* at, lanes, word: the bytes of `word` in these lanes are written           */
    KROFT_PREFETCH = 2, /* at: the block of the word at `at` is wanted in the cache                  */
    KROFT_EVICT = 3,    /* at: block number `at` leaves the cache                                    */
    KROFT_DRAIN = 4,    /* the front of the write queue goes to its bank                             */
    KROFT_SERVE = 5,    /* at: bank `at` serves its first command                                    */
    KROFT_ARRIVE = 6,   /* at, place: the answer at `place` of bank `at` comes to the input stack    */
    KROFT_PROCESS = 7,  /* place: the entry of the input stack at `place` is processed               */
    KROFT_TAKE = 8      /* place: the ready reply at `place` is taken                                */
};

/* An event. Members that its kind doesn't read may hold anything. */
typedef struct {
    uint32_t kind;
    uint16_t tag;
    uint8_t lanes; /* bit k is byte k; bits 4 to 7 are dropped */
    uint32_t at;
    uint32_t place;
    kroft_word word;
} kroft_event;

/* What an answer is, and the members of its row that are read or written. */
enum {
    KROFT_ACCEPTED = 0, /* a request or an eviction was accepted                       */
    KROFT_MOVED = 1,    /* something moved on                                          */
    KROFT_VALUE = 2,    /* tag, word: a reply was taken, the word that the load got    */
    KROFT_NOTHING = 3,  /* there was nothing to do                                     */
    KROFT_REFUSED = 4   /* cause: refused, with everything unchanged                   */
};

/* Why an event is refused. */
enum {
    KROFT_OUT_OF_RANGE = 1, /* the word or block isn't in memory                                     */
    KROFT_NO_LANES = 2,     /* a store without a lane                                                */
    KROFT_TAG_IN_USE = 3,   /* a load under the tag waits, or its value is ready                         */
    KROFT_REPLIES_FULL = 4, /* the limit of outstanding loads is reached                             */
    KROFT_TARGETS_FULL = 5, /* four loads wait for the word                                          */
    KROFT_BLOCK_QUEUED = 6, /* never answered by the machine of this library                         */
    KROFT_NO_REGISTER = 7,  /* no register is free                                                   */
    KROFT_SET_PENDING = 8,  /* every way of the set waits for words                                  */
    KROFT_QUEUE_FULL = 9,   /* the write queue has too few places for the victim's dirty words       */
    KROFT_BANK_FULL = 10,   /* a bank has too little room                                            */
    KROFT_NOT_PRESENT = 11, /* no frame holds the block                                              */
    KROFT_STACK_FULL = 12,  /* the input stack is full                                               */
    KROFT_STRAY_WORD = 13   /* no register waits for the word; never answered by a whole machine     */
};

/* An answer. Members that its kind doesn't name may hold anything; those that this library writes are 0. */
typedef struct {
    uint32_t kind;
    uint32_t cause;
    uint16_t tag;
    kroft_word word;
} kroft_answer;

/* ---- flat memory ------------------------------------------------------------------------------- */

/* The entries of a table of loads: one for each tag. */
#define KROFT_TAGS 65536

/* A tag's load that has no answer yet: it gets `word`, if `owed` isn't 0. Zeroed, there is none. */
typedef struct {
    uint32_t owed;
    kroft_word word;
} kroft_due;

/*
 * Judges one step of a run: may flat memory give this answer to this event? Returns KROFT_OK, and `words` and
 * `due` are as the step leaves them, which writes no entry of `due` but that of a tag that is loaded or whose
 * value is taken. Or the first that holds of KROFT_FAIL_NO_EVENT and KROFT_FAIL_NO_ANSWER (a row says nothing if
 * its kind is past the last, or if it is a refusal whose cause isn't 1 to 13), and of KROFT_FAIL_OUT_OF_RANGE
 * to KROFT_FAIL_OTHER_ANSWER: flat memory never answers so. After KROFT_FAIL_WRONG_WORD `right` is the word that
 * the load gets; else `right` is as it was.
 *
 *     uint32_t result = kroft_flat_judge(words, nwords, due, &event, &answer, &right);
 *     if (result != KROFT_OK) fail(kroft_text(result));
 *
 * Flat memory: an accepted store is seen at once, and an accepted load gets the word as it stood when it was
 * accepted. The rows need no more than loads, stores and takes; a client that has the machine's other events
 * gives them too.
 *
 * The caller keeps `words` (memory, which begins as the caller likes, of at most 2^32 words) and `due` (zeroed
 * at first), one pair for each memory. The call allocates nothing, and needs no function of any library.
 */
uint32_t kroft_flat_judge(kroft_word *words, size_t nwords, kroft_due due[KROFT_TAGS], const kroft_event *event,
                          const kroft_answer *answer, kroft_word *right);

/*
 * Returns how many accepted loads have no answer yet: a run is complete if this is 0 at its end. If there are
 * more than `n`, `tag` is that of the one at place `n`, in the order of the tags; otherwise `tag` is as it was.
 * Each call reads the whole table.
 */
uint32_t kroft_flat_unanswered(const kroft_due due[KROFT_TAGS], uint32_t n, uint16_t *tag);

/* ---- the machine ------------------------------------------------------------------------------- */

/*
 * A machine is a non-blocking, write-back cache over banks of memory, with no clock: the caller makes its
 * events, one at a time, in any order. Every load gets the word that flat memory held when the load was
 * accepted.
 *
 * The handle of a machine: open, or closed, as it is if zeroed. The library alone writes it then.
 *
 *     kroft_machine machine = KROFT_NO_MACHINE;
 *
 * A copy of a handle is a trap: it goes on to point to what a call with the other one has freed. So pass its
 * address, and give it away by kroft_machine_close and a zeroed handle, or in C++ by a move (kroft.hpp).
 *
 * A call that takes a const handle leaves the machine as it was. But no two calls have one handle at once, not even
 * two of these. Two handles are independent: they share nothing, and two threads may use one each at once.
 *
 * kroft_machine_open and kroft_machine_begin_rounds allocate what the machine keeps, and kroft_machine_drive what
 * it frees before it returns; no other call allocates.
 */
typedef struct {
    uint32_t open; /* 0: closed */
    void *at;      /* the library's own */
} kroft_machine;

#define KROFT_NO_MACHINE \
    { 0, KROFT_NOWHERE }

/* The numbers of a machine: any within their ranges. */
typedef struct {
    uint32_t ways;        /* ways of a set: 1 to 16                                                   */
    uint32_t block_words; /* words of a block: 1 to 16                                                */
    uint32_t regs;        /* miss registers (MSHRs): 1 to 64                                          */
    uint32_t depth;       /* places of the input stack: 1 to 64                                       */
    uint32_t words;       /* words of memory: 1 to 4294967295, and a multiple of block_words          */
    uint32_t sets;        /* sets of the cache: 1 to 1024                                             */
    uint32_t banks;       /* banks of memory: 1 to 16                                                 */
    uint32_t bank_queue;  /* commands that wait at a bank at most: block_words / banks, rounded up,
                             to 64                                                                    */
    uint32_t write_queue; /* words that wait in the write queue at most: block_words to 256           */
    uint32_t replies;     /* loads that are awaited and ready together at most: 1 to 64               */
} kroft_shape;

/*
 * Opens a machine over the words of an image, of which it keeps a copy. Returns KROFT_OK, and nothing has happened
 * in it; or the first that holds of KROFT_FAIL_OPEN_ALREADY, KROFT_FAIL_BAD_BLOCK_WORDS to KROFT_FAIL_BAD_IMAGE and
 * KROFT_FAIL_OUT_OF_MEMORY, and then no memory is kept.
 */
uint32_t kroft_machine_open(kroft_machine *handle, const kroft_shape *shape, const kroft_word *image, size_t nimage);

/*
 * Frees the machine with its rounds, and closes the handle. Returns KROFT_OK or KROFT_FAIL_CLOSED. An open handle
 * that is lost leaks its machine.
 */
uint32_t kroft_machine_close(kroft_machine *handle);

/*
 * Makes one event. Returns KROFT_OK, and `answer` is the machine's; or the first that holds of KROFT_FAIL_CLOSED,
 * KROFT_FAIL_IN_ROUNDS and KROFT_FAIL_NO_EVENT. A refusal is an answer, KROFT_REFUSED: it changes nothing in the
 * machine. KROFT_BLOCK_QUEUED and KROFT_STRAY_WORD never come.
 */
uint32_t kroft_machine_apply(kroft_machine *handle, const kroft_event *event, kroft_answer *answer);

/*
 * Makes the driver's event, the first of these that is possible: the first ready reply is taken; the first
 * word of the input stack is processed; the lowest bank with an answer has its first one arrive; the lowest
 * bank with a command serves it; the write queue's front is drained. Returns KROFT_OK: `event` says which event it
 * was, and `answer` is the machine's; the weight is lower than before. Or KROFT_ABSENT, nothing is on its way;
 * KROFT_FAIL_CLOSED or KROFT_FAIL_IN_ROUNDS.
 */
uint32_t kroft_machine_pump(kroft_machine *handle, kroft_event *event, kroft_answer *answer);

/*
 * What is on its way, weighed: after as many pumps, or fewer, the weight is 0, and then each load, each
 * prefetch and each store with a lane that points into memory is accepted. `settled` is 1 if memory has everything,
 * else 0: no register is valid, no word is dirty, and the write queue and the queues of the banks are empty. Returns
 * KROFT_OK or KROFT_FAIL_CLOSED.
 */
uint32_t kroft_machine_weight(const kroft_machine *handle, uint64_t *weight, uint32_t *settled);

/* ---- what is in a machine ------------------------------------------------------------------------ */

/* The calls below return KROFT_OK and write what they found; or KROFT_ABSENT or KROFT_FAIL_CLOSED. */

/* The word of memory at `at`, as it stands in its bank. KROFT_ABSENT: there is no such word. */
uint32_t kroft_machine_bank_word(const kroft_machine *handle, uint32_t at, kroft_word *word);

/* What a register shows of itself. What doesn't apply is 0. */
typedef struct {
    uint32_t valid;     /* 1: it stands for a block that is missing words */
    uint32_t obsolete;  /* 1: its block lost its frame                    */
    uint32_t block;     /* the missing block                              */
    uint32_t frame;     /* the frame of a live register                   */
    uint32_t processed; /* how many words of the block are processed      */
} kroft_register_view;

/* The register `slot`. KROFT_ABSENT: `slot` isn't below `regs`. */
uint32_t kroft_machine_register(const kroft_machine *handle, uint32_t slot, kroft_register_view *view);

/* What a register shows of one word of its block. What doesn't apply is 0. */
typedef struct {
    uint32_t send;      /* 1: a load waits for the word                                               */
    uint32_t in_stack;  /* 1: the word stands in the input stack                                      */
    uint32_t processed; /* 1: the word was processed                                                  */
    uint32_t targets;   /* how many loads wait: 0 to 4                                                */
    uint16_t tag;       /* the tag of the first load that waits                                       */
    uint8_t code;       /* the lanes of the buffer that the arriving word leaves as they are          */
    uint8_t held_lanes; /* the lanes whose bytes the first load has already                           */
    kroft_word held;    /* those bytes: only those in the held lanes count                            */
} kroft_field_view;

/* Word `i` of the block of the register `slot`. KROFT_ABSENT: there is no such register or word. */
uint32_t kroft_machine_field(const kroft_machine *handle, uint32_t slot, uint32_t i, kroft_field_view *view);

/* A load that waits for a word. */
typedef struct {
    uint16_t tag;
    uint8_t lanes;   /* the lanes whose bytes it has already                */
    kroft_word held; /* those bytes: only those in the lanes count          */
} kroft_target_view;

/* The load at `place` among those that wait for word `i` of the block of the register `slot`, in the order
   in which they were accepted. KROFT_ABSENT: there is none. */
uint32_t kroft_machine_target(const kroft_machine *handle, uint32_t slot, uint32_t i, uint32_t place,
                              kroft_target_view *view);

/* What a frame of the cache shows of itself. */
typedef struct {
    uint32_t valid; /* 1: it holds a block; 0: it is free */
    uint32_t block; /* the block; 0 if it is free         */
} kroft_frame_view;

/* The frame `frame`: set s has the frames s * ways to s * ways + ways - 1. KROFT_ABSENT: `frame` isn't below sets * ways. */
uint32_t kroft_machine_frame(const kroft_machine *handle, uint32_t frame, kroft_frame_view *view);

/* A word of the block that a frame holds. */
typedef struct {
    kroft_word word; /* the bytes in the buffer. Of a word that is still on its way, those in the lanes of its
                        register's `code` alone are there                                                      */
    uint8_t dirty;   /* the lanes that were stored since the frame took the block, and that memory hasn't yet  */
} kroft_frame_word_view;

/* Word `i` of the block that the frame `frame` holds. KROFT_ABSENT: there is no such frame or word, or the frame is free. */
uint32_t kroft_machine_frame_word(const kroft_machine *handle, uint32_t frame, uint32_t i, kroft_frame_word_view *view);

/* A word on its way from its bank to a register. */
typedef struct {
    uint32_t slot;   /* the register                                           */
    uint32_t i;      /* the number of the word in the register's block         */
    kroft_word word; /* the word, as its bank had it when it served the command */
} kroft_arrival_view;

/* The word at `place` of the input stack, which an event KROFT_PROCESS with this place processes: the one that came first
   at 0. KROFT_ABSENT: there is none. */
uint32_t kroft_machine_stack_entry(const kroft_machine *handle, uint32_t place, kroft_arrival_view *view);

/* A word that waits in the write queue. */
typedef struct {
    uint32_t block;  /* the block that left the cache                            */
    uint32_t at;     /* the word's address                                       */
    kroft_word word; /* the bytes to be written: only those in the lanes count   */
    uint8_t lanes;
} kroft_queued_view;

/* The word at `place` of the write queue: the one that an event KROFT_DRAIN takes next at 0. KROFT_ABSENT: there is none. */
uint32_t kroft_machine_queue_entry(const kroft_machine *handle, uint32_t place, kroft_queued_view *view);

/* What a command of a bank is. */
enum {
    KROFT_READ = 0, /* the word is read for a register */
    KROFT_WRITE = 1 /* bytes are written               */
};

/* A command that waits at a bank. What doesn't apply to its kind is 0. */
typedef struct {
    uint32_t kind;
    uint32_t slot;   /* read: the register that asks                                   */
    uint32_t i;      /* read: the number of the word in the register's block           */
    uint32_t place;  /* where the word lies in the bank: word `at` of memory lies in bank
                        at % banks, at place at / banks                                */
    kroft_word word; /* write: the bytes: only those in the lanes count                */
    uint8_t lanes;   /* write                                                          */
} kroft_command_view;

/* The command at `place` among those that wait at a bank: the one that an event KROFT_SERVE takes next at 0. KROFT_ABSENT:
   there is no such bank or command. */
uint32_t kroft_machine_bank_command(const kroft_machine *handle, uint32_t bank, uint32_t place, kroft_command_view *view);

/* The answer at `place` of a bank, which an event KROFT_ARRIVE with this place brings: the oldest one at 0. KROFT_ABSENT:
   there is no such bank or answer. */
uint32_t kroft_machine_bank_answer(const kroft_machine *handle, uint32_t bank, uint32_t place, kroft_arrival_view *view);

/* The answer that an event KROFT_TAKE with this place would get, a value. KROFT_ABSENT: no reply stands ready there. */
uint32_t kroft_machine_reply(const kroft_machine *handle, uint32_t place, kroft_answer *answer);

/* What a request for a word finds. */
enum {
    KROFT_HIT = 0,  /* the word is at hand, in the buffer or in the input stack: a load's reply stands ready at once  */
    KROFT_JOIN = 1, /* a register waits for the word: a load waits with it, and a store's bytes stay when it comes   */
    KROFT_MISS = 2  /* no frame holds the block: it would be asked for, under a new register                          */
};

/* What a request for the word at `at` would find now, whether or not it would be accepted. KROFT_ABSENT: memory has no such
   word. Nothing is asked. */
uint32_t kroft_machine_find(const kroft_machine *handle, uint32_t at, uint32_t *lookup);

/* ---- the machine in rounds ----------------------------------------------------------------------- */

/*
 * A machine has no clock, but its events can be made in rounds. A round makes, in this order: each bank, by number,
 * begins a command if one waits that it hasn't begun and it isn't busy, and serves its first one if it began that
 * `latency` rounds before; one answer arrives, from the next bank with one behind the bank that was last, if the input
 * stack has room; the stack's first word is processed, the first reply taken and the write queue's front drained, each
 * if possible; and the request at hand is asked once. If it was accepted, or refused with KROFT_OUT_OF_RANGE,
 * KROFT_NO_LANES or KROFT_NOT_PRESENT, the next one follows; otherwise it is asked again in the next round. The run ends
 * once the requests are used up and nothing is on its way. `./kroft drive` makes the same rounds, of each latency and busy
 * that it takes.
 *
 * Rounds are a schedule, and tell nothing of any hardware's time.
 */

/* What a run in rounds counted. */
typedef struct {
    uint64_t rounds;            /* rounds; of kroft_machine_drive also the last one, in which nothing moves        */
    uint64_t accepted;          /* requests that were accepted                                                      */
    uint64_t denied;            /* requests that were refused for what no move changes                              */
    uint64_t hits;              /* accepted loads, stores and prefetches, by what they found                        */
    uint64_t joins;
    uint64_t misses;
    uint64_t stalled;           /* requests that were refused with KROFT_TAG_IN_USE to KROFT_BANK_FULL at first     */
    uint64_t lost_tag_in_use;   /* rounds in which the request at hand was refused with KROFT_TAG_IN_USE            */
    uint64_t lost_replies_full; /* with KROFT_REPLIES_FULL, and so on                                               */
    uint64_t lost_targets_full;
    uint64_t lost_no_register;
    uint64_t lost_set_pending;
    uint64_t lost_queue_full;
    uint64_t lost_bank_full;
    uint64_t values;            /* loads that were answered                                                         */
    uint64_t waited;            /* rounds from each such load's acceptance to its answer, in all; 2^64 - 1 if more  */
    uint64_t longest;           /* the most of these for one load                                                   */
    uint64_t written;           /* words that were written back                                                     */
    uint32_t registers;         /* the most registers in use at once                                                */
} kroft_counts;

/*
 * Drives these requests, which are loads, stores, prefetches and evictions, through the machine in rounds. With `busy`
 * below `latency` a bank is a pipeline: it begins a command each `busy` rounds at most (0 is as 1), while others are on
 * their way through it; otherwise it has one command at a time.
 *
 * Returns KROFT_OK: the requests are used up, nothing is on its way, and `counts` is what was counted. Or the first that
 * holds of KROFT_FAIL_CLOSED; KROFT_FAIL_IN_ROUNDS; KROFT_FAIL_BAD_LATENCY; KROFT_FAIL_TOO_MANY, there are more than
 * 16777216 requests; KROFT_FAIL_NO_EVENT, a row is no such request; KROFT_FAIL_OUT_OF_MEMORY.
 */
uint32_t kroft_machine_drive(kroft_machine *handle, uint32_t latency, uint32_t busy, const kroft_event *requests,
                             size_t nrequests, kroft_counts *counts);

/*
 * Begins rounds in the machine: the next one is round 1, and nothing is counted. `latency` and `busy` are those of
 * kroft_machine_drive. Rounds that were begun before end. What is on its way in the machine stays on its way. For a
 * simulator, which doesn't know its requests before:
 *
 *     kroft_machine_begin_rounds(&machine, 10, 2);
 *     for (;;) {                                                      (once in each cycle, say)
 *         kroft_machine_round(&machine, &request, has_request, &told);
 *         if (told.outcome != KROFT_ROUND_LOST) has_request = 0;      (a lost request is offered again)
 *         if (told.answered) deliver(told.tag, told.word);
 *     }
 *
 * Requests that are offered in one round behind the other, each until it ends, and rounds without a request until nothing
 * is on its way, give the machine and the counts that kroft_machine_drive gives of the list, but for `rounds`: that counts
 * one round more, the one in which nothing moves.
 *
 * While rounds are under way they alone make the machine's events, since they know a bank's commands by their places:
 * kroft_machine_apply, _pump and _drive return KROFT_FAIL_IN_ROUNDS until kroft_machine_end_rounds. Calls with a const
 * handle are free.
 *
 * Returns KROFT_OK; or the first that holds of KROFT_FAIL_CLOSED; KROFT_FAIL_BAD_LATENCY; KROFT_FAIL_OUT_OF_MEMORY, and
 * then also the rounds that were begun before are as they were.
 */
uint32_t kroft_machine_begin_rounds(kroft_machine *handle, uint32_t latency, uint32_t busy);

/* What became of the request that was offered in a round. */
enum {
    KROFT_ROUND_IDLE = 0,     /* none was offered                                                              */
    KROFT_ROUND_ACCEPTED = 1, /* it was accepted                                                               */
    KROFT_ROUND_LOST = 2,     /* it was refused with KROFT_TAG_IN_USE to KROFT_BANK_FULL: offer it again       */
    KROFT_ROUND_DENIED = 3    /* it was refused for what no round changes: KROFT_OUT_OF_RANGE, KROFT_NO_LANES
                                 or KROFT_NOT_PRESENT                                                          */
};

/* What a request found that looked for no word, beside KROFT_HIT, KROFT_JOIN and KROFT_MISS. */
enum { KROFT_NO_LOOKUP = 3 };

/* A round. What doesn't apply is 0. */
typedef struct {
    uint64_t round;    /* its number, counted from 1                                                           */
    uint32_t outcome;  /* KROFT_ROUND_IDLE to KROFT_ROUND_DENIED                                               */
    uint32_t cause;    /* why the request was refused                                                          */
    uint32_t found;    /* what it found when it was asked, whether or not it was accepted: KROFT_HIT, KROFT_JOIN
                          or KROFT_MISS; KROFT_NO_LOOKUP if none was offered, it is an eviction, or memory has
                          no such word                                                                         */
    uint32_t answered; /* 1: a load was answered. A round answers one load at most                             */
    uint16_t tag;      /* the tag of that load                                                                 */
    kroft_word word;   /* the word that it got                                                                 */
} kroft_round_row;

/*
 * Makes one round, in which the first of these requests is offered, if `nrequests` isn't 0; the others aren't looked at,
 * so the call may be given what is left of a list. It is a round of kroft_machine_drive: what moves is moved, and then
 * the request is asked once. A request that is lost isn't remembered: the caller offers it again, or another one.
 *
 * Returns KROFT_OK, and `row` describes the round; or the first that holds of KROFT_FAIL_CLOSED; KROFT_FAIL_NO_ROUNDS;
 * KROFT_FAIL_NO_EVENT, the first row is no load, store, prefetch or eviction; KROFT_FAIL_TOO_MANY, 2^48 rounds were made.
 */
uint32_t kroft_machine_round(kroft_machine *handle, const kroft_event *requests, size_t nrequests, kroft_round_row *row);

/*
 * What was counted since the rounds were begun: `rounds` are those that were made. A load that was accepted before, and
 * is answered in a round, waited since then. A request that is given up while it is lost and the one behind it stall as
 * one. Returns KROFT_OK, KROFT_FAIL_CLOSED or KROFT_FAIL_NO_ROUNDS.
 */
uint32_t kroft_machine_round_counts(const kroft_machine *handle, kroft_counts *counts);

/*
 * Ends the rounds that were begun, and frees their memory; from then on kroft_machine_apply, _pump and _drive make the
 * events again. The machine stays as it is. Returns KROFT_OK, KROFT_FAIL_CLOSED or KROFT_FAIL_NO_ROUNDS.
 */
uint32_t kroft_machine_end_rounds(kroft_machine *handle);

/* ---- histories --------------------------------------------------------------------------------- */

/*
 * A history is what is seen of a memory from outside: each load and each store is requested, and is answered
 * later or never. It is judged as it goes, by one of three laws:
 *
 * - the regular law: an operation takes effect at some moment between its request and its response, each of its
 *   bytes for itself. Nobody has to know that moment.
 * - the flat law: an operation takes effect at its request. (A memory without caches and queues.)
 * - the atomic law: an operation takes effect at one moment between its request and its response, in each aligned
 *   unit of 1, 2, 4 or 8 bytes that it touches, and a load gets what stands there at its moment (linearizability).
 *   It refuses what the regular law lets pass: new then old, and a unit that is torn between two stores.
 *
 * Addresses and numbers have 64 bits. An operation has 1 to 64 bytes, in the order of memory, and none of them
 * lies at 2^64 or beyond. A number is free again once its operation is answered; loads and stores have separate
 * numbers. The order of the calls is the order of the events: in one cycle of a clock, give the responses before the
 * requests if the design answers before it takes new requests.
 *
 * The handle of a history, as that of a machine: zeroed, it is closed; a copy is a trap; two are independent.
 *
 *     kroft_history history = KROFT_NO_HISTORY;
 */
typedef struct {
    uint32_t open; /* 0: closed */
    void *at;      /* the library's own */
} kroft_history;

#define KROFT_NO_HISTORY \
    { 0, KROFT_NOWHERE }

/* The laws. */
enum {
    KROFT_REGULAR_LAW = 0,
    KROFT_FLAT_LAW = 1,
    KROFT_ATOMIC_LAW = 2
};

/* What stands beyond the image before the first store. */
enum {
    KROFT_ZEROS = 0,  /* zeros                                                                              */
    KROFT_UNKNOWN = 1 /* nothing is known: until a store covers it, a load may return anything for the byte */
};

/*
 * Opens a history without an event, to be judged by a law. `unit` is how many bytes are read and written as one: 1
 * for the regular and the flat law, and 1, 2, 4 or 8 for the atomic one. Memory begins with the bytes of the image, from
 * address 0 on, of which a copy is kept, and beyond them as `rest` says. Returns KROFT_OK; or the first that holds of
 * KROFT_FAIL_OPEN_ALREADY, KROFT_FAIL_NO_LAW and KROFT_FAIL_OUT_OF_MEMORY, and then no memory is kept.
 */
uint32_t kroft_history_open(kroft_history *handle, uint32_t law, uint32_t unit, uint32_t rest, const uint8_t *image,
                            size_t nimage);

/* Frees the history and closes the handle. Returns KROFT_OK or KROFT_FAIL_CLOSED. */
uint32_t kroft_history_close(kroft_history *handle);

/*
 * The four events below return KROFT_OK: the event was taken, and the history with it is one of the law. Else the history
 * is as it was, so the event may be given again with other bytes, or left out. Of KROFT_FAIL_BAD_RANGE to
 * KROFT_FAIL_WRONG_BYTE, which say what is wrong with the event, the first that holds is returned. Each may return
 * KROFT_FAIL_CLOSED; KROFT_FAIL_TOO_LONG, never by the atomic law; and KROFT_FAIL_OUT_OF_MEMORY.
 *
 * KROFT_FAIL_UNDECIDED blames nobody: by the atomic law alone, the judge can't tell of a response, since the operations
 * that are open may have taken effect in too many ways in one unit (more than 4,096 pairs of a word and the stores in
 * effect, or more than 65,536 words before now). kroft_history_undecided says in which, and once that unit is forgotten
 * (kroft_history_forget) the response may be given again.
 */

/* A load is requested: of `length` bytes from `address` on, those whose enable is set. Bit k of `enables` is the enable of
   byte k; bits beyond the last byte have no meaning. The answer has `length` bytes, and those that aren't enabled aren't
   judged. KROFT_FAIL_BAD_RANGE; KROFT_FAIL_NO_BYTE_ENABLED; KROFT_FAIL_NUMBER_IN_USE. */
uint32_t kroft_history_load_request(kroft_history *handle, uint64_t number, uint64_t address, size_t length, uint64_t enables);

/* The load that is open under the number is answered with these bytes. KROFT_FAIL_NOT_OPEN; KROFT_FAIL_WRONG_LENGTH;
   KROFT_FAIL_WRONG_BYTE; KROFT_FAIL_UNDECIDED. */
uint32_t kroft_history_load_response(kroft_history *handle, uint64_t number, const uint8_t *bytes, size_t nbytes);

/* A store is requested: of these bytes from `address` on, those whose enable is set, as a load's. KROFT_FAIL_BAD_RANGE;
   KROFT_FAIL_NO_BYTE_ENABLED; KROFT_FAIL_NUMBER_IN_USE. */
uint32_t kroft_history_store_request(kroft_history *handle, uint64_t number, uint64_t address, const uint8_t *bytes,
                                     size_t nbytes, uint64_t enables);

/* The store that is open under the number is answered. KROFT_FAIL_NOT_OPEN; KROFT_FAIL_UNDECIDED. */
uint32_t kroft_history_store_response(kroft_history *handle, uint64_t number);

/* The bytes of a set of bytes: bit k of the set's byte n says whether byte 8n + k is in it. */
#define KROFT_SET_BYTES 32

/*
 * What the load that is open under a number may return for the byte at an address, if it is answered now. Returns the
 * first of these that holds: KROFT_FAIL_CLOSED; KROFT_ABSENT: no such load asks for that byte; KROFT_OK, and `set` is it.
 * By the atomic law it is the set of this byte alone (two bytes may be allowed that aren't allowed together), and before
 * KROFT_OK these may come: KROFT_FAIL_UNDECIDED, and KROFT_FAIL_OUT_OF_MEMORY.
 */
uint32_t kroft_history_may_return(const kroft_history *handle, uint64_t number, uint64_t address,
                                  uint8_t set[KROFT_SET_BYTES]);

/*
 * Why a load may not return a byte, or the bytes of a unit together. Without such a store number and event are 0; an
 * event's number is how many events of the history were taken before it.
 */
typedef struct {
    uint64_t wrong_place;    /* of the first wrong byte in the answer, counted from 0; by the atomic law the first
                                that lies in the lowest unit whose bytes the load may not return       */
    uint64_t place;          /* of the byte that the reason is of                                      */
    uint64_t stored;         /* the number of the last store that put the byte there                   */
    uint64_t stored_at;      /* the event that requested it                                            */
    uint64_t overwritten_by; /* the number of the last store that overwrote it before the load's request */
    uint64_t overwritten_at; /* the event that requested that one                                      */
    uint32_t reason;         /* KROFT_REASON_NONE to KROFT_REASON_NOT_TOGETHER                         */
} kroft_history_reason;

/*
 * What kroft_history_load_response would return for these bytes if there is room for it, and why; the event isn't taken.
 * Returns KROFT_FAIL_WRONG_BYTE, and `why` says it. Or what kroft_history_load_response would return else, and then `why`
 * is as it was: KROFT_OK; KROFT_FAIL_NOT_OPEN; KROFT_FAIL_WRONG_LENGTH; KROFT_FAIL_CLOSED; by the atomic law also
 * KROFT_FAIL_UNDECIDED or KROFT_FAIL_OUT_OF_MEMORY.
 *
 * Which store is the last goes by the order of the requests. A store overwrote a byte before the load's request if it was
 * answered before that, and requested after the response to the store that `why` names (for
 * KROFT_REASON_FIRST_OVERWRITTEN whenever it was requested).
 *
 * `place` is the first byte for which there is a reason, of those from `wrong_place` on that lie in one unit: by the
 * regular and the flat law each byte is a unit, and by the atomic law those of kroft_history_open. The reason is the
 * regular law's, of that byte alone, and depends on the history alone. While fewer than 8,192 bytes were stored, there is
 * none exactly if the regular law allows each of those bytes for itself: then by the atomic law the reason is
 * KROFT_REASON_NOT_TOGETHER, as of a torn word, and of new then old; by the flat law there is none; `place` is
 * `wrong_place`. Then the first stores are forgotten, 4,096 bytes at a time, and the last 4,096 to 8,191 are left: a
 * byte's reason is KROFT_REASON_STORE_OVERWRITTEN if one of them had the byte and the load may see none of those that had
 * it, and otherwise there is none. The stores that `why` names are the last of the whole history even so.
 */
uint32_t kroft_history_why(const kroft_history *handle, uint64_t number, const uint8_t *bytes, size_t nbytes,
                           kroft_history_reason *why);

/*
 * Forgets the unit in which the byte at the address lies, of a history by the atomic law. From there on its bytes are
 * unknown: whatever a load returns there is allowed, what stores write there isn't followed, and no answer is
 * undecided for its sake. The other units are judged on. Returns KROFT_OK, KROFT_FAIL_NO_UNITS, KROFT_FAIL_OUT_OF_MEMORY
 * or KROFT_FAIL_CLOSED.
 */
uint32_t kroft_history_forget(kroft_history *handle, uint64_t address);

/*
 * Where the unit begins for whose sake an answer was KROFT_FAIL_UNDECIDED. Returns KROFT_OK, and it begins at `address`;
 * KROFT_ABSENT: no answer was undecided since an event was taken last, or a unit was forgotten; or KROFT_FAIL_CLOSED.
 */
uint32_t kroft_history_undecided(const kroft_history *handle, uint64_t *address);

/* An operation that is open. */
typedef struct {
    uint64_t number;
    uint64_t address;
    uint64_t length;
} kroft_history_operation;

/*
 * The load (`kind` is KROFT_LOAD) or the store (KROFT_STORE) at place `n` among those that are open, in the order of
 * their requests, and how many such there are. Returns KROFT_OK; KROFT_ABSENT, there is none at `n`, and `count` alone is
 * written; or KROFT_FAIL_CLOSED. Of another kind there is none.
 */
uint32_t kroft_history_unanswered(const kroft_history *handle, uint32_t kind, uint64_t n, kroft_history_operation *operation,
                                  uint64_t *count);

/* What was counted of a history. A count stays at 2^64 - 1. */
typedef struct {
    uint64_t loads;        /* loads that were answered                                                           */
    uint64_t choices;      /* of these, the ones of which some byte might have been another, by the law          */
    uint64_t beside_store; /* and the ones that were open at once with a store to one of their bytes             */
    uint64_t overtaking;   /* loads and stores that were answered before an older one with a byte in common      */
} kroft_history_counts;

/*
 * Counts from here on, anew if it did so before: of each operation that is requested from now on, its answer. A bench
 * whose loads never have a choice hardly tests the memory's order. From then on a load's answer takes longer: each of its
 * bytes is asked about as by kroft_history_may_return, which by the atomic law is a search. A load has no choice at a byte
 * of which that has no verdict. A store has the bytes that it enables. Returns KROFT_OK or KROFT_FAIL_CLOSED.
 */
uint32_t kroft_history_cover(kroft_history *handle);

/* What was counted. Returns KROFT_OK; KROFT_ABSENT: nothing is counted, and nothing written; or KROFT_FAIL_CLOSED. */
uint32_t kroft_history_coverage(const kroft_history *handle, kroft_history_counts *counts);

/* ---- traffic ----------------------------------------------------------------------------------- */

/*
 * Random loads and stores that caches find hard, from a seed: bursts to one block, blocks that conflict in a set,
 * stores that leave bytes out, and blocks that several requesters share. An access depends on the plan, the seed and
 * its number alone, so that a bench keeps nothing, and can come back to any access of any run. Seed and number are
 * mixed, so that near seeds have nothing in common.
 *
 *     kroft_traffic_plan plan = {0x1000, 24, 64, 16, 8, 128, 2, 4, 0, 128, 96, 1, 3};
 *     kroft_traffic_access access;
 *     uint8_t bytes[64];
 *     for (uint64_t n = 0; n < 1000000; n++) {
 *         kroft_traffic_draw(&plan, seed, n, &access, bytes, sizeof bytes);
 *         ..
 *     }
 */

/* What traffic is like. Shares are in 256ths: 0 is never, 256 and more always. */
typedef struct {
    uint64_t base;         /* the address of memory's first byte: a multiple of `block_bytes`                       */
    uint32_t blocks;       /* how many blocks memory has: 1 or more, and none lies past the last 64-bit address     */
    uint32_t block_bytes;  /* the bytes of a block: a multiple of `widest`, which is in it once or more             */
    uint32_t widest;       /* the bytes of the widest access: 1, 2, 4, .. 64. Others are an eighth of it at least   */
    uint32_t sets;         /* the sets of the cache: 1 or more. Blocks a multiple of it apart conflict              */
    uint32_t conflicts;    /* the share of bursts that go to a block of set 0, where they conflict                  */
    uint32_t burst;        /* how many accesses, one behind the other, go to one block: 1 or more                   */
    uint32_t requesters;   /* how many ask, in turn: 1 or more                                                      */
    uint32_t apart;        /* not 0: each requester has its bytes in each block, accesses of one byte,
                              so that blocks are shared and bytes aren't: no more requesters than used bytes        */
    uint32_t stores;       /* the share of stores among the accesses                                                */
    uint32_t partial;      /* the share of stores that may leave bytes out: one that leaves all out is a load       */
    uint32_t words;        /* how many of a block's words are used, from its first on. A word has `widest` bytes.
                              At most as many as a block has; 0: all                                                */
    uint32_t blocks_of_set; /* how many blocks of set 0 `conflicts` go to, from the first on. At most as many as
                              memory has of it; 0: all                                                              */
} kroft_traffic_plan;

/* An access: a load or a store of some bytes of one block. */
typedef struct {
    uint32_t requester; /* who asks: less than the plan's requesters                                                */
    uint32_t length;    /* how many bytes it has                                                                    */
    uint64_t turn;      /* how many accesses this requester had before: by it a bench sees who doesn't get on       */
    uint64_t address;   /* the address of its first byte: a multiple of its length, unless requesters are apart     */
    uint64_t enables;   /* the bytes that a store writes: bit k is its byte k. 0: a load                            */
} kroft_traffic_access;

/*
 * The access of a number, under a seed. Returns KROFT_OK: `access` is the access, and if it is a store, `bytes` begins
 * with its bytes. Or the first that holds of KROFT_FAIL_NO_PLAN, a number of the plan isn't as its description says, and
 * KROFT_FAIL_NO_ROOM: `bytes` has fewer bytes than the widest access. A store that would leave out all its bytes is a
 * load. It allocates nothing.
 */
uint32_t kroft_traffic_draw(const kroft_traffic_plan *plan, uint64_t seed, uint64_t number, kroft_traffic_access *access,
                            uint8_t *bytes, size_t nbytes);

/* ---- the library ------------------------------------------------------------------------------- */

/*
 * Writes the library's version and a 0 behind it. Returns the length of the text, without the 0; if the two don't
 * fit, the buffer is as it was. A client that finds the library at run time compares it with KROFT_VERSION.
 */
uint32_t kroft_version(char *text, size_t ntext);

/* ---- the layout that the library was built with ------------------------------------------------ */

#if defined(__cplusplus)
#define KROFT_ASSERT(name, holds) static_assert(holds, #name)
#elif defined(__STDC_VERSION__) && __STDC_VERSION__ >= 201112L
#define KROFT_ASSERT(name, holds) _Static_assert(holds, #name)
#else
#define KROFT_ASSERT(name, holds) typedef char kroft_assert_##name[(holds) ? 1 : -1]
#endif

KROFT_ASSERT(word_size, sizeof(kroft_word) == 4);
KROFT_ASSERT(event_size, sizeof(kroft_event) == 20);
KROFT_ASSERT(event_tag, offsetof(kroft_event, tag) == 4);
KROFT_ASSERT(event_lanes, offsetof(kroft_event, lanes) == 6);
KROFT_ASSERT(event_at, offsetof(kroft_event, at) == 8);
KROFT_ASSERT(event_place, offsetof(kroft_event, place) == 12);
KROFT_ASSERT(event_word, offsetof(kroft_event, word) == 16);
KROFT_ASSERT(answer_size, sizeof(kroft_answer) == 16);
KROFT_ASSERT(answer_cause, offsetof(kroft_answer, cause) == 4);
KROFT_ASSERT(answer_tag, offsetof(kroft_answer, tag) == 8);
KROFT_ASSERT(answer_word, offsetof(kroft_answer, word) == 10);
KROFT_ASSERT(due_size, sizeof(kroft_due) == 8);
KROFT_ASSERT(due_word, offsetof(kroft_due, word) == 4);
KROFT_ASSERT(machine_size, sizeof(kroft_machine) == 16);
KROFT_ASSERT(machine_at, offsetof(kroft_machine, at) == 8);
KROFT_ASSERT(history_size, sizeof(kroft_history) == 16);
KROFT_ASSERT(history_at, offsetof(kroft_history, at) == 8);
KROFT_ASSERT(reason_size, sizeof(kroft_history_reason) == 56);
KROFT_ASSERT(reason_reason, offsetof(kroft_history_reason, reason) == 48);
KROFT_ASSERT(history_counts_size, sizeof(kroft_history_counts) == 32);
KROFT_ASSERT(history_counts_overtaking, offsetof(kroft_history_counts, overtaking) == 24);
KROFT_ASSERT(operation_size, sizeof(kroft_history_operation) == 24);
KROFT_ASSERT(operation_address, offsetof(kroft_history_operation, address) == 8);
KROFT_ASSERT(operation_length, offsetof(kroft_history_operation, length) == 16);
KROFT_ASSERT(shape_size, sizeof(kroft_shape) == 40);
KROFT_ASSERT(shape_words, offsetof(kroft_shape, words) == 16);
KROFT_ASSERT(shape_replies, offsetof(kroft_shape, replies) == 36);
KROFT_ASSERT(register_size, sizeof(kroft_register_view) == 20);
KROFT_ASSERT(register_processed, offsetof(kroft_register_view, processed) == 16);
KROFT_ASSERT(field_size, sizeof(kroft_field_view) == 24);
KROFT_ASSERT(field_tag, offsetof(kroft_field_view, tag) == 16);
KROFT_ASSERT(field_code, offsetof(kroft_field_view, code) == 18);
KROFT_ASSERT(field_held_lanes, offsetof(kroft_field_view, held_lanes) == 19);
KROFT_ASSERT(field_held, offsetof(kroft_field_view, held) == 20);
KROFT_ASSERT(target_size, sizeof(kroft_target_view) == 8);
KROFT_ASSERT(target_lanes, offsetof(kroft_target_view, lanes) == 2);
KROFT_ASSERT(target_held, offsetof(kroft_target_view, held) == 3);
KROFT_ASSERT(frame_size, sizeof(kroft_frame_view) == 8);
KROFT_ASSERT(frame_word_size, sizeof(kroft_frame_word_view) == 5);
KROFT_ASSERT(frame_word_dirty, offsetof(kroft_frame_word_view, dirty) == 4);
KROFT_ASSERT(arrival_size, sizeof(kroft_arrival_view) == 12);
KROFT_ASSERT(arrival_word, offsetof(kroft_arrival_view, word) == 8);
KROFT_ASSERT(queued_size, sizeof(kroft_queued_view) == 16);
KROFT_ASSERT(queued_word, offsetof(kroft_queued_view, word) == 8);
KROFT_ASSERT(queued_lanes, offsetof(kroft_queued_view, lanes) == 12);
KROFT_ASSERT(command_size, sizeof(kroft_command_view) == 24);
KROFT_ASSERT(command_word, offsetof(kroft_command_view, word) == 16);
KROFT_ASSERT(command_lanes, offsetof(kroft_command_view, lanes) == 20);
KROFT_ASSERT(counts_size, sizeof(kroft_counts) == 152);
KROFT_ASSERT(counts_lost_tag_in_use, offsetof(kroft_counts, lost_tag_in_use) == 56);
KROFT_ASSERT(counts_values, offsetof(kroft_counts, values) == 112);
KROFT_ASSERT(counts_registers, offsetof(kroft_counts, registers) == 144);
KROFT_ASSERT(round_size, sizeof(kroft_round_row) == 32);
KROFT_ASSERT(round_outcome, offsetof(kroft_round_row, outcome) == 8);
KROFT_ASSERT(round_answered, offsetof(kroft_round_row, answered) == 20);
KROFT_ASSERT(round_tag, offsetof(kroft_round_row, tag) == 24);
KROFT_ASSERT(round_word, offsetof(kroft_round_row, word) == 26);
KROFT_ASSERT(plan_size, sizeof(kroft_traffic_plan) == 56);
KROFT_ASSERT(plan_blocks, offsetof(kroft_traffic_plan, blocks) == 8);
KROFT_ASSERT(plan_partial, offsetof(kroft_traffic_plan, partial) == 44);
KROFT_ASSERT(plan_blocks_of_set, offsetof(kroft_traffic_plan, blocks_of_set) == 52);
KROFT_ASSERT(access_size, sizeof(kroft_traffic_access) == 32);
KROFT_ASSERT(access_turn, offsetof(kroft_traffic_access, turn) == 8);
KROFT_ASSERT(access_enables, offsetof(kroft_traffic_access, enables) == 24);

#undef KROFT_ASSERT

#ifdef __cplusplus
}
#endif

#endif
