/* A plain C program that does the work of `p9sync pipe`. Built with -O3. What it shares with others is in plain.h. */
#include "../plain.h"

enum { ATOMIC_SIZE = 65536, MAX_LIMIT = 1024, WRITERS = 64 };

/* The first write is read whole: the next one is the first, from its first byte on. */
#define PASS() \
    do { \
        uint32_t begin = queue[head].begin; \
        head = head + 1 == places ? 0 : head + 1; \
        count--; \
        offset = 0; \
        if (count > 0 && queue[head].begin < begin) wraps = 0; \
    } while (0)

/* These bytes of the first write are given. */
#define GIVE() \
    do { \
        _Pragma("GCC unroll 4") \
        for (uint32_t i = 0; i < len; i++) memcpy(o + 2 * i, digits[from[i]], 2); \
        o += 2 * len; \
        offset += len; \
    } while (0)

/* A write that waits: where its bytes begin in the ring, and how many they are. */
struct held { uint32_t begin, len; };

static struct held queue[MAX_LIMIT + 1];
static byte *ring;
static uint32_t ring_size = 1 << 18;

/* The value of a digit, and 16 times that. Of a byte that is no digit it is 256. */
static uint16_t low[256], high[256];
/* The two digits of a byte, in lower case. */
static byte digits[256][2];

static void fill_tables(void) {
    static const char lower[] = "0123456789abcdef", upper[] = "0123456789ABCDEF";
    for (int i = 0; i < 256; i++) {
        low[i] = high[i] = 256;
        digits[i][0] = lower[i >> 4];
        digits[i][1] = lower[i & 15];
    }
    for (int i = 0; i < 16; i++) {
        low[(byte)lower[i]] = low[(byte)upper[i]] = i;
        high[(byte)lower[i]] = high[(byte)upper[i]] = 16 * i;
    }
}

/* Writes the bytes of these digits. The answer is above 255 where one was no digit. */
static inline unsigned decode(byte *restrict to, const byte *restrict from, size_t len) {
    unsigned seen = 0;
#pragma GCC unroll 4
    for (size_t i = 0; i < len; i++) {
        unsigned value = high[from[2 * i]] | low[from[2 * i + 1]];
        seen |= value;
        to[i] = value;
    }
    return seen;
}

static unsigned check(const byte *from, size_t len) {
    unsigned seen = 0;
#pragma GCC unroll 4
    for (size_t i = 0; i < 2 * len; i++) seen |= low[from[i]];
    return seen;
}

/* Twice the ring, with the writes that wait at its beginning. Gives the place after them. */
static uint32_t grow(uint32_t head, uint32_t count, uint32_t places) {
    uint32_t end = 0;
    byte *more = must(malloc(2 * (size_t)ring_size));
    for (uint32_t i = 0, at = head; i < count; i++) {
        memcpy(more + end, ring + queue[at].begin, queue[at].len);
        queue[at].begin = end;
        end += queue[at].len;
        at = at + 1 == places ? 0 : at + 1;
    }
    free(ring);
    ring = more;
    ring_size *= 2;
    return end;
}

static void run(const byte *at, const byte *stop, int is_cut) {
    byte *o = out;
    uint64_t line = 1, value;
    fill_tables();
    ring = must(malloc(ring_size));

    const byte *end = BEGINS(at, "limit ") ? number(at + 6, &value) : NULL;
    int is_stream = end != NULL && BEGINS(end, " stream");
    if (is_stream) end += sizeof " stream" - 1;
    if (end == NULL || *end != '\n' || value < 1 || value > MAX_LIMIT) fault(o, line);
    at = end + 1;

    uint32_t limit = value, places = limit + 1;
    /* The writes that wait stand in the queue from `head`, and the first free place is `tail`. Of the first write `offset`
       bytes were read. The next write's bytes go to `next` in the ring; the writes that wait wrap around where `wraps`. */
    uint32_t head = 0, tail = 0, count = 0, offset = 0, next = 0;
    int wraps = 0, hung = 0;

    for (line = 2; at < stop; line++) {
        if (o >= out + FLUSH) o = flush(o);
        if (*at == 'w') {
            const byte *feed = memchr(at, '\n', stop - at);
            if (feed == NULL || feed - at > MAX_LINE || !BEGINS(at, "write ")) fault(o, line);
            at += 6;
            unsigned writer = *at++ - '0';
            if (writer > 9) fault(o, line);
            if (*at != ' ') {
                unsigned digit = *at++ - '0';
                if (digit > 9 || writer == 0 || (writer = 10 * writer + digit) >= WRITERS || *at != ' ') fault(o, line);
            }
            at++;
            /* The line can't end before its last space. */
            size_t len = feed - at;
            if (len == 1 && *at == '-') len = 0;
            else if (len == 0 || len % 2 != 0) fault(o, line);
            len /= 2;

            if (len > ATOMIC_SIZE || hung || count - (offset > 0) == limit) {
                if (check(at, len) > 255) fault(o, line);
                if (len > ATOMIC_SIZE) o = SAY(o, "too big\n");
                else if (hung) o = SAY(o, "hungup\n");
                else o = SAY(o, "full\n");
                at = feed + 1;
                continue;
            }
            if (count == 0) next = wraps = 0;
            uint32_t first = count == 0 ? 0 : queue[head].begin;
            if (!wraps && len > ring_size - next && len <= first) { next = 0; wraps = 1; }
            while (len > (wraps ? first : ring_size) - next) { next = grow(head, count, places); wraps = 0; }
            if (decode(ring + next, at, len) > 255) fault(o, line);
            queue[tail].begin = next;
            queue[tail].len = len;
            next += len;
            tail = tail + 1 == places ? 0 : tail + 1;
            count++;
            o = SAY(o, "taken\n");
            at = feed + 1;
        } else if (BEGINS(at, "read ")) {
            end = number(at + 5, &value);
            if (end == NULL || *end != '\n') fault(o, line);
            at = end + 1;
            if (value == 0) { o = SAY(o, "bad count\n"); continue; }
            /* A stream passes the empty writes before its first byte, and goes on from write to write. */
            while (is_stream && count > 0 && queue[head].len == 0) PASS();
            if (count == 0) { if (hung) o = SAY(o, "end\n"); else o = SAY(o, "empty\n"); continue; }
            uint32_t left = queue[head].len - offset, len = left < value ? left : value;
            const byte *from = ring + queue[head].begin + offset;
            o = SAY(o, "got ");
            if (len == 0) *o++ = '-';
            GIVE();
            if (len == left) PASS();
            if (is_stream) {
                value -= len;
                while (value > 0 && count > 0) {
                    if (o >= out + FLUSH) o = flush(o);
                    left = queue[head].len, len = left < value ? left : value;
                    from = ring + queue[head].begin;
                    GIVE();
                    value -= len;
                    if (len == left) PASS();
                }
            }
            *o++ = '\n';
        } else if (BEGINS(at, "hangup\n")) {
            hung = 1;
            o = SAY(o, "ok\n");
            at += 7;
        } else fault(o, line);
    }
    if (is_cut) fault(o, line);
    flush(o);
}
