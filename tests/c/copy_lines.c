/* Copies each line of standard input, of at most 1,000 bytes, and puts an answer behind it: the least that
   any program does which answers a trace. scripts/measure counts its instructions beside those of the jobs. */
#define _POSIX_C_SOURCE 200809L
#include <string.h>
#include <unistd.h>

static const char ANSWER[] = " -> moved\n";
static char input[4096], output[4096];
static size_t written;

/* Writes what is due. */
static void flush(void) {
    size_t done = 0;
    ssize_t n;

    while (done < written && (n = write(1, output + done, written - done)) > 0) done += (size_t)n;
    written = 0;
}

static void put(const char *text, size_t length) {
    if (written + length > sizeof output) flush();
    memcpy(output + written, text, length);
    written += length;
}

int main(void) {
    size_t filled = 0;
    ssize_t n;

    while ((n = read(0, input + filled, sizeof input - filled)) > 0) {
        const char *line = input, *end;
        filled += (size_t)n;
        while ((end = memchr(line, '\n', filled - (size_t)(line - input)))) {
            put(line, (size_t)(end - line));
            put(ANSWER, sizeof ANSWER - 1);
            line = end + 1;
        }
        filled -= (size_t)(line - input);
        memmove(input, line, filled);
    }
    flush();
    return 0;
}
