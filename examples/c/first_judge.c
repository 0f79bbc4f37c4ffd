/* Judges four answers of some cache, of which the third is wrong:
 * ./kroft-lib DIR && cc examples/c/first_judge.c -IDIR -LDIR -lkroft && LD_LIBRARY_PATH=DIR ./a.out */
#include "kroft.h"
#include <stdio.h>

static kroft_word memory[64];       /* begins as you like */
static kroft_due due[KROFT_TAGS];   /* the loads without an answer: zeros at first */

static void step(const char *said, kroft_event event, kroft_answer answer) {
    kroft_word right;
    uint32_t result = kroft_flat_judge(memory, 64, due, &event, &answer, &right);
    printf("%s: %s\n", said, kroft_text(result));
}

int main(void) {
    kroft_event load = {.kind = KROFT_LOAD, .tag = 7, .at = 5};
    kroft_event store = {.kind = KROFT_STORE, .at = 5, .lanes = 1, .word = {{0xaa}}};
    kroft_event take = {.kind = KROFT_TAKE};
    kroft_answer accepted = {.kind = KROFT_ACCEPTED};
    kroft_answer before = {.kind = KROFT_VALUE, .tag = 7};
    kroft_answer after = {.kind = KROFT_VALUE, .tag = 7, .word = {{0xaa}}};
    uint16_t tag;

    step("load 7 5 -> accepted", load, accepted);
    step("store 5 1000 aa000000 -> accepted", store, accepted);
    step("take 0 -> value 7 aa000000", take, after); /* the byte was stored after the load */
    step("take 0 -> value 7 00000000", take, before);
    printf("%u loads without an answer\n", (unsigned)kroft_flat_unanswered(due, 0, &tag));
    return 0;
}
