/*
 * What the two programs share: a byte stream, from which pieces come, and messages sent on it. The stream
 * is standard input and output as a rule, so what is said goes to standard error.
 *
 * A stream has no packet bounds. Where a length ends it, or a piece doesn't come to its end, the line is
 * out of step: all input is dropped until it has been silent for a moment.
 */
#ifndef LINE_H
#define LINE_H

#include "culvertroost.h"

#include <errno.h>
#include <inttypes.h>
#include <poll.h>
#include <stdio.h>
#include <stdlib.h>
#include <string.h>
#include <time.h>
#include <unistd.h>

#define LINE_SILENCE 20          /* milliseconds */
#define LINE_LONG 60000          /* the longest single wait */
#define LINE_FOREVER INT64_MAX

typedef struct line {
    const char *name; /* stands before what is said */
    int in, out;
    size_t size;      /* transfer size of what is sent */
    size_t drip;      /* bytes written at a time, 0 for all */
    size_t at, filled; /* bytes of the chunk that are taken, and that came */
    int out_of_step;
    uint8_t chunk[CVR_MOST_TRANSFER];
    uint8_t stream[CVR_STREAM_SIZE], assembly[CVR_ASSEMBLY_SIZE];
    uint8_t information[CVR_MOST_INFORMATION]; /* of the last complete message */
} line;

/* What came of waiting. */
enum line_event { LINE_ENDED = -1, LINE_NOTHING = 0, LINE_PIECE = 1 };

static inline void line_refused(const line *l, const char *what, cvr_refusal refusal)
{
    fprintf(stderr, "%s: %s: refused, %" PRIu32 " %s at %" PRIu64 "\n", l->name, what, refusal.number,
            cvr_refusal_name(refusal.number), refusal.place);
}

static inline int64_t line_now(void)
{
    struct timespec now;
    clock_gettime(CLOCK_MONOTONIC, &now);
    return (int64_t)now.tv_sec * 1000 + now.tv_nsec / 1000000;
}

/* ---- receiving */

static inline uint32_t line_number(const uint8_t *bytes)
{
    return bytes[0] | (uint32_t)bytes[1] << 8 | (uint32_t)bytes[2] << 16 | (uint32_t)bytes[3] << 24;
}

/* Bytes of a piece that is still short. */
static inline size_t line_held(const line *l)
{
    return line_number(l->stream + CVR_AT_STREAM_HELD);
}

static inline void line_drop(line *l, const char *why, size_t bytes)
{
    fprintf(stderr, "%s: out of step, %s: %zu bytes dropped\n", l->name, why, bytes);
    l->at = l->filled = 0;
    cvr_stream_reset(l->stream, sizeof l->stream, l->assembly, sizeof l->assembly);
}

/* Nothing came for a moment: what is held is no piece, and what comes next begins one. */
static inline void line_silent(line *l)
{
    if (line_held(l) > 0)
        line_drop(l, "a piece without its end", line_held(l));
    l->out_of_step = 0;
}

/* Reads once; gives 0 at the end of the input. */
static inline int line_read(line *l)
{
    ssize_t got = read(l->in, l->chunk, sizeof l->chunk);
    if (got < 0)
        return errno == EINTR || errno == EAGAIN;
    l->at = 0;
    l->filled = l->out_of_step ? 0 : (size_t)got;
    return got > 0;
}

/* Feeds what came, up to the first answer; gives 0 where there is none yet. */
static inline int line_feed(line *l, cvr_receive_answer *got)
{
    cvr_stream_answer fed = cvr_stream_feed(l->stream, sizeof l->stream, l->assembly, sizeof l->assembly,
                                            l->chunk + l->at, l->filled - l->at, l->information,
                                            sizeof l->information);
    l->at += fed.taken;
    *got = fed.piece;
    if (fed.ended) {
        line_drop(l, "no piece has such a length", l->filled - l->at);
        l->out_of_step = 1;
        return 0;
    }
    return got->received != 0 || got->refusal.number != CVR_NO_REFUSAL;
}

/* Waits until there is an answer, or until that time. */
static inline int line_wait(line *l, int64_t until, cvr_receive_answer *answer)
{
    for (;;) {
        struct pollfd ready = {l->in, POLLIN, 0};
        int between = line_held(l) > 0 || l->out_of_step;
        int64_t left = until - line_now(), most = between ? LINE_SILENCE : LINE_LONG;
        int got;
        if (left <= 0)
            return LINE_NOTHING;
        if (l->at < l->filled) {
            if (line_feed(l, answer))
                return LINE_PIECE;
            continue;
        }
        got = poll(&ready, 1, (int)(left < most ? left : most));
        if (got > 0 && !line_read(l))
            return LINE_ENDED;
        if (got == 0 && between && left >= most)
            line_silent(l);
    }
}

/* Waits for a piece; one that is refused is said. */
static inline int line_receive(line *l, int64_t until, cvr_receive_answer *got)
{
    int event = line_wait(l, until, got);
    if (event != LINE_PIECE)
        return event;
    if (got->refusal.number != CVR_NO_REFUSAL)
        line_refused(l, "a piece", got->refusal);
    else if (got->dropped)
        fprintf(stderr, "%s: an unfinished message was dropped\n", l->name);
    return LINE_PIECE;
}

/* ---- sending */

static inline void line_write(const line *l, const uint8_t *bytes, size_t length)
{
    size_t done = 0;
    while (done < length) {
        size_t some = l->drip > 0 && l->drip < length - done ? l->drip : length - done;
        ssize_t wrote = write(l->out, bytes + done, some);
        if (wrote < 0 && errno != EINTR) {
            fprintf(stderr, "%s: write: %s\n", l->name, strerror(errno));
            exit(1);
        }
        done += wrote > 0 ? (size_t)wrote : 0;
    }
}

static inline void line_send_whole(const line *l, uint32_t message_type, uint32_t transaction,
                                   uint32_t word)
{
    uint8_t bytes[CVR_MOST_WHOLE];
    cvr_written written = cvr_message_write(message_type, transaction, word, bytes, sizeof bytes);
    if (written.refusal.number != CVR_NO_REFUSAL)
        line_refused(l, "a message to send", written.refusal);
    line_write(l, bytes, written.length);
}

static inline void line_send(const line *l, cvr_message_header message, const uint8_t *information,
                             size_t length)
{
    uint8_t fragments[CVR_MOST_CUT];
    cvr_cut_answer cut = cvr_message_cut(message, l->size, information, length, fragments,
                                         sizeof fragments);
    if (cut.refusal.number != CVR_NO_REFUSAL)
        line_refused(l, "a message to send", cut.refusal);
    line_write(l, fragments, cut.length);
}

/* ---- versions */

/* "1.00" or "2.00"; 0 for anything else. */
static inline uint16_t line_version(const char *text)
{
    if (strcmp(text, "1.00") == 0)
        return CVR_VERSION_1_00;
    return strcmp(text, "2.00") == 0 ? CVR_VERSION_2_00 : 0;
}

static inline const char *line_version_text(uint16_t version)
{
    return version == CVR_VERSION_1_00 ? "1.00" : "2.00";
}

#endif
