/* Checks that are counted and told of, and a last line. */
#ifndef CHECK_H
#define CHECK_H

#include <stdio.h>

static unsigned checks_made, checks_failed;

#define CHECK(holds)                                                                  \
    do {                                                                              \
        checks_made++;                                                                \
        if (!(holds)) {                                                               \
            checks_failed++;                                                          \
            fprintf(stderr, "%s:%d: not so: %s\n", __FILE__, __LINE__, #holds);       \
        }                                                                             \
    } while (0)

static int checks_end(const char *name) {
    printf("%s: %u checks, %u failed\n", name, checks_made, checks_failed);
    return checks_failed == 0 && checks_made > 0 ? 0 : 1;
}

#endif
