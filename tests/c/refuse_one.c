/* Preloaded into a program: its call number REFUSE_ONE of the C library's allocator, counted from 1, finds no memory.
   At the end the line "allocations N" goes to the file descriptor that REFUSE_TELLS names, if it names one. */
#define _GNU_SOURCE
#include <errno.h>
#include <stdatomic.h>
#include <stddef.h>
#include <stdio.h>
#include <stdlib.h>
#include <sys/syscall.h>
#include <unistd.h>

extern void *__libc_malloc(size_t size);
extern void *__libc_calloc(size_t count, size_t size);
extern void *__libc_realloc(void *old, size_t size);
extern void *__libc_memalign(size_t alignment, size_t size);

static atomic_long calls;
static long refused; /* 0: none is refused */
static int tells = -1;

__attribute__((constructor)) static void begin(void) {
    const char *number = getenv("REFUSE_ONE"), *to = getenv("REFUSE_TELLS");
    refused = number ? atol(number) : 0;
    tells = to ? atoi(to) : -1;
    atomic_store(&calls, 0);
}

static void tell(void) {
    if (tells >= 0) {
        dprintf(tells, "allocations %ld\n", atomic_load(&calls));
    }
}

/* A program of tests ends by returning. */
__attribute__((destructor)) static void end(void) { tell(); }

/* The program itself ends by this call, and runs no destructor. */
void _exit(int status) {
    tell();
    for (;;) {
        syscall(SYS_exit_group, status);
    }
}

static int is_refused(void) {
    if (atomic_fetch_add(&calls, 1) + 1 != refused) {
        return 0;
    }
    errno = ENOMEM;
    return 1;
}

void *malloc(size_t size) { return is_refused() ? NULL : __libc_malloc(size); }
void *calloc(size_t count, size_t size) { return is_refused() ? NULL : __libc_calloc(count, size); }
void *realloc(void *old, size_t size) { return is_refused() ? NULL : __libc_realloc(old, size); }
void *aligned_alloc(size_t alignment, size_t size) { return is_refused() ? NULL : __libc_memalign(alignment, size); }
void *memalign(size_t alignment, size_t size) { return is_refused() ? NULL : __libc_memalign(alignment, size); }

int posix_memalign(void **to, size_t alignment, size_t size) {
    void *got = is_refused() ? NULL : __libc_memalign(alignment, size);
    if (!got) {
        return ENOMEM;
    }
    *to = got;
    return 0;
}
