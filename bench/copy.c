/*
 * Nanoseconds of a copy and of a piece that is fed or cut, with the copy as it is (`now`) and as it was
 * before runs of eight (`before`, linked twice: `again` shows what the place of the code in memory does to
 * a time). One line a row, for bench/copy:
 *
 *   copy LENGTH before again now runs before_least before_most now_least now_most
 *   feed SIZE before again now
 *   cut SIZE before again now
 *
 * A copy's times are means over the 64 alignments of source and target to 8 bytes, each the least of its
 * rounds, then the least and the most of the alignments. `runs` is a loop of runs of eight at every
 * length, the rest singly, in C. The columns take turns, and so does which of them begins a round; they
 * share their buffers, of which none is cleared.
 */
#include "culvertroost.h"

#include <stdio.h>
#include <stdlib.h>
#include <string.h>
#include <time.h>

/* A range that is lent; the module takes its address and its length. */
typedef struct slice {
    void *at;
    uint64_t length;
} slice;

typedef void (*put)(void *out, uint64_t room, uint64_t at, const void *t, uint64_t length);
typedef cvr_receive_answer (*receive)(uint8_t *, size_t, const uint8_t *, size_t, uint8_t *, size_t);
typedef cvr_cut_answer (*cut)(cvr_message_header, size_t, const uint8_t *, size_t, uint8_t *, size_t);

#define DECLARED(name)                                                                                   \
    void name##_put_bytes(void *, uint64_t, uint64_t, const void *, uint64_t);                           \
    cvr_receive_answer name##_cvr_receive(uint8_t *, size_t, const uint8_t *, size_t, uint8_t *, size_t); \
    cvr_cut_answer name##_cvr_message_cut(cvr_message_header, size_t, const uint8_t *, size_t, uint8_t *, \
                                          size_t);
DECLARED(before)
DECLARED(again)
DECLARED(now)

enum { COLUMNS = 4, ENDS = 3, ROUNDS = 8, AT = 64, ROOM = 4096 };

/*
 * Source and target lie APART bytes apart, and whole 4,096: where two places differ by a multiple of 4,096 the
 * processor may take a load for one from a store before it.
 */
static uint8_t buffer[6 * ROOM] __attribute__((aligned(ROOM)));
static uint8_t *const source = buffer, *const target = buffer + 2 * ROOM + APART;

static double clock_now(void)
{
    struct timespec t;
    clock_gettime(CLOCK_MONOTONIC, &t);
    return (double)t.tv_sec * 1e9 + (double)t.tv_nsec;
}

/* Where the compiler sees a store to any memory. */
static void kept(void)
{
    __asm__ volatile("" ::: "memory");
}

/* Runs of eight at every length, and the rest singly: what order 3 says, word for word. */
__attribute__((noinline)) static void runs_put_bytes(void *out, uint64_t room, uint64_t at, const void *t,
                                                     uint64_t length)
{
    uint8_t *to = (uint8_t *)out + at;
    const uint8_t *from = t;
    uint64_t i = 0;
    (void)room;
    for (; length - i >= 8; i += 8) {
        uint64_t run;
        memcpy(&run, from + i, 8);
        memcpy(to + i, &run, 8);
        kept();
    }
    for (; i < length; i++) {
        to[i] = from[i];
        kept();
    }
}

static const put puts_[COLUMNS] = {before_put_bytes, again_put_bytes, now_put_bytes, runs_put_bytes};
static const receive receives[ENDS] = {before_cvr_receive, again_cvr_receive, now_cvr_receive};
static const cut cuts[ENDS] = {before_cvr_message_cut, again_cvr_message_cut, now_cvr_message_cut};

/* 1,000 calls of a short copy and 300 of a long one, fewer where the compiler has made them slow. */
static int calls_for(slice out, slice t)
{
    double start = clock_now();
    before_put_bytes(out.at, out.length, 0, t.at, t.length);
    double once = clock_now() - start;
    return once > 1000 ? 1 + (int)(10000 / once) : t.length < 300 ? 1000 : 300;
}

/* Each column copies. */
static void check(slice out, slice t)
{
    for (int c = 0; c < COLUMNS; c++) {
        memset(out.at, 0xEE, t.length);
        puts_[c](out.at, out.length, 0, t.at, t.length);
        if (memcmp(out.at, t.at, t.length) != 0)
            abort();
    }
}

/* The least time of each column at one alignment. */
static void copy_once(size_t length, size_t from, size_t to, double least[COLUMNS])
{
    const slice out = {target + AT + to, ROOM}, t = {source + AT + from, length};
    check(out, t);
    const int calls = calls_for(out, t);
    for (int c = 0; c < COLUMNS; c++)
        least[c] = 1e9;
    for (int round = 0; round < ROUNDS; round++)
        for (int turn = 0; turn < COLUMNS; turn++) {
            int c = (round + turn) % COLUMNS;
            double start = clock_now();
            for (int i = 0; i < calls; i++) {
                puts_[c](out.at, out.length, 0, t.at, t.length);
                kept();
            }
            double each = (clock_now() - start) / calls;
            if (each < least[c])
                least[c] = each;
        }
}

static void copies(size_t length)
{
    double sum[COLUMNS] = {0}, low[COLUMNS], high[COLUMNS] = {0};
    for (int c = 0; c < COLUMNS; c++)
        low[c] = 1e9;
    for (size_t from = 0; from < 8; from++)
        for (size_t to = 0; to < 8; to++) {
            double least[COLUMNS];
            copy_once(length, from, to, least);
            for (int c = 0; c < COLUMNS; c++) {
                sum[c] += least[c] / 64;
                low[c] = least[c] < low[c] ? least[c] : low[c];
                high[c] = least[c] > high[c] ? least[c] : high[c];
            }
        }
    printf("copy %zu %.2f %.2f %.2f %.2f %.2f %.2f %.2f %.2f\n", length, sum[0], sum[1], sum[2], sum[3], low[0],
           high[0], low[2], high[2]);
}

/* Feeds all pieces of a stream; gives how many there are. */
static int fed(receive one, uint8_t *memory, const uint8_t *stream, size_t length)
{
    static uint8_t out[ROOM];
    int count = 0;
    for (const uint8_t *end = stream + length; stream < end; count++) {
        uint32_t n;
        memcpy(&n, stream + 4, 4);
        if (one(memory, CVR_ASSEMBLY_SIZE, stream, n, out, sizeof out).refusal.number != 0)
            abort();
        stream += n;
    }
    return count;
}

static void row(const char *name, size_t size, const double least[ENDS])
{
    printf("%s %zu %.2f %.2f %.2f\n", name, size, least[0], least[1], least[2]);
}

/* A COMMAND of 4,000 bytes, at 4,096 of the 4,048 that go into one fragment. */
static void pieces(size_t size)
{
    static uint8_t stream[4 * ROOM], memory[CVR_ASSEMBLY_SIZE];
    const cvr_message_header message = {.message_type = CVR_MESSAGE_COMMAND, .transaction = 7};
    const size_t n = size == 4096 ? 4048 : 4000;
    double feed[ENDS], made[ENDS];
    for (int e = 0; e < ENDS; e++)
        feed[e] = made[e] = 1e9;
    for (int round = 0; round < 9 * ROUNDS; round++)
        for (int turn = 0; turn < ENDS; turn++) {
            int e = (round + turn) % ENDS;
            cvr_cut_answer answer = {0};
            double start = clock_now();
            for (int i = 0; i < 100; i++)
                answer = cuts[e](message, size, source, n, stream, sizeof stream);
            double each = (clock_now() - start) / 100;
            made[e] = each < made[e] ? each : made[e];
            int count = 0;
            start = clock_now();
            for (int i = 0; i < 20; i++)
                count += fed(receives[e], memory, stream, answer.length);
            each = (clock_now() - start) / count;
            feed[e] = each < feed[e] ? each : feed[e];
        }
    row("feed", size, feed);
    row("cut", size, made);
}

int main(void)
{
    static const size_t lengths[] = {0,   1,   2,   3,   4,   5,   6,   7,   8,   9,    12,   15,   16,   17,  20,
                                     24,  28,  32,  36,  40,  44,  48,  52,  56,  60,   63,   64,   65,   72,  96,
                                     128, 160, 192, 224, 256, 257, 320, 384, 464, 492,  512,  768,  1000, 1024,
                                     1500, 2047, 2048, 3000, 4048, 4076, 4095, 4096};
    static const size_t sizes[] = {64, 512, 4096};
    for (size_t i = 0; i < 2 * ROOM; i++)
        source[i] = (uint8_t)(i * 7 + i / 256);
    for (size_t i = 0; i < sizeof lengths / sizeof *lengths; i++)
        copies(lengths[i]);
    for (size_t i = 0; i < sizeof sizes / sizeof *sizes; i++)
        pieces(sizes[i]);
    return 0;
}
