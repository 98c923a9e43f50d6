/* What the plain C programs share. They are written to be as fast as a good programmer makes them without a proof: the
   script is read whole into one buffer that is taken at once, each line is parsed where it lies and answered, and the
   answers go to one buffer that is written where 64 KB stand in it. No line takes memory, no word is a call, and where
   the next answer goes is kept in a local variable. Each program defines `run`. */
#include <stddef.h>
#include <stdint.h>
#include <stdio.h>
#include <stdlib.h>
#include <string.h>
#include <sys/mman.h>
#include <unistd.h>

/* Of a script MAX_SCRIPT bytes are answered, and one more is read. SLACK bytes after it can be read by any line. Between
   two looks whether FLUSH bytes stand there at most MOST_ANSWER more come: a write of 65,536 bytes in digits, and words. */
enum { MAX_SCRIPT = 16777216, MAX_LINE = 200000, SLACK = 64, FLUSH = 65536, MOST_ANSWER = 131200, LARGE_PAGE = 2097152 };

typedef unsigned char byte;

static byte out[FLUSH + MOST_ANSWER];

static void *must(void *p) {
    if (p == NULL) { fputs("p9sync: out of memory\n", stderr); exit(1); }
    return p;
}

static _Noreturn void device_fault(void) {
    fputs("p9sync: device fault\n", stderr);
    exit(1);
}

/* Writes what stands before `end`, and gives the place for the next answer. */
static byte *flush(const byte *end) {
    for (const byte *at = out; at < end;) {
        ssize_t n = write(1, at, end - at);
        if (n <= 0) device_fault();
        at += n;
    }
    return out;
}

static _Noreturn void fault(const byte *end, uint64_t line) {
    flush(end);
    fprintf(stderr, "p9sync: script fault at line %llu\n", (unsigned long long)line);
    exit(1);
}

#define BEGINS(at, word) (memcmp(at, word, sizeof word - 1) == 0)
#define SAY(o, text) (memcpy(o, text, sizeof text - 1), (o) + sizeof text - 1)

/* Reads a number in decimal, without a zero in front, and gives the place after it, or NULL. What follows is not looked
   at. A loop over the digits was faster than eight digits at once, since most numbers are short. */
static inline const byte *number(const byte *at, uint64_t *value) {
    unsigned digit = *at - '0';
    if (digit > 9) return NULL;
    uint64_t n = digit;
    const byte *first = at++;
    for (; (digit = *at - '0') <= 9; at++) {
        /* Nineteen digits fit, whichever they are. */
        if (at - first >= 19 && (at - first > 19 || n > (UINT64_MAX - digit) / 10)) return NULL;
        n = 10 * n + digit;
    }
    if (*first == '0' && at - first > 1) return NULL;
    *value = n;
    return at;
}

/* Answers the lines from `at` to `stop`, after which stands a zero, and faults at the first that is not in the grammar.
   The script ends in the middle of a line, or is too long, where `is_cut`. */
static void run(const byte *at, const byte *stop, int is_cut);

int main(void) {
    /* Large pages, where the system has them: the script takes nine of 2 MB in place of 4,097 of 4 KB. */
    byte *script = must(aligned_alloc(LARGE_PAGE, 9 * LARGE_PAGE));
    madvise(script, 9 * LARGE_PAGE, MADV_HUGEPAGE);
    size_t len = 0;
    while (len <= MAX_SCRIPT) {
        ssize_t n = read(0, script + len, MAX_SCRIPT + 1 - len);
        if (n < 0) device_fault();
        if (n == 0) break;
        len += n;
    }
    int is_cut = len == 0 || len > MAX_SCRIPT;
    if (len > MAX_SCRIPT) len = MAX_SCRIPT;
    memset(script + len, 0, SLACK);
    run(script, script + len, is_cut);
    return 0;
}
