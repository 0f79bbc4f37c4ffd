/* Preloaded into a program: of the calls that read standard input (FAIL_CALL=read) or write standard output
   (FAIL_CALL=write), number FAIL_AT, counted from 1, fails once with the error number FAIL_ERROR; 0 means that it takes
   or gives no byte. All others do what they do. At the end the line "calls N" goes to the file descriptor that FAIL_TELLS
   names: how many such calls there were. */
#define _GNU_SOURCE
#include <errno.h>
#include <stdio.h>
#include <stdlib.h>
#include <string.h>
#include <sys/syscall.h>
#include <unistd.h>

static const char *failing = "";
static long fails_at, error, calls;
static int tells = -1;

static long number(const char *name, long otherwise) {
    const char *text = getenv(name);
    return text ? atol(text) : otherwise;
}

__attribute__((constructor)) static void begin(void) {
    failing = getenv("FAIL_CALL") ? getenv("FAIL_CALL") : "";
    fails_at = number("FAIL_AT", 0);
    error = number("FAIL_ERROR", EIO);
    tells = (int)number("FAIL_TELLS", -1);
}

/* The program ends by this call, and runs no destructor. */
void _exit(int status) {
    if (tells >= 0) {
        dprintf(tells, "calls %ld\n", calls);
    }
    for (;;) {
        syscall(SYS_exit_group, status);
    }
}

/* Whether this call fails, with errno set. */
static int fails(const char *call) {
    if (strcmp(call, failing) != 0 || ++calls != fails_at) {
        return 0;
    }
    errno = (int)error;
    return 1;
}

ssize_t read(int from, void *bytes, size_t room) {
    if (from == 0 && fails("read")) {
        return error ? -1 : 0;
    }
    return syscall(SYS_read, from, bytes, room);
}

ssize_t write(int to, const void *bytes, size_t length) {
    if (to == 1 && fails("write")) {
        return error ? -1 : 0;
    }
    return syscall(SYS_write, to, bytes, length);
}

ssize_t __write(int to, const void *bytes, size_t length) { return write(to, bytes, length); }
