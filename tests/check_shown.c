/*
 * Holds what a station showed against what the line passed on to it.
 *
 *   check_shown LINE_LOG STATION_LOG
 *
 * Each reply shown (a line 'bytes:' and the line after it) must have come: its fragments, one straight
 * after the other, with just these bytes, behind the reply shown before; and the text must be what these
 * bytes say. It doesn't use the library. It writes how many were shown, how many of those came damaged,
 * and how many were refused; its exit status is 1 where one is not as it came.
 */
#include <inttypes.h>
#include <stdint.h>
#include <stdio.h>
#include <stdlib.h>
#include <string.h>

#define MOST_LINE 20000

typedef struct shown {
    uint32_t type, transaction, cid, word;
    char version[8];
    uint8_t bytes[MOST_LINE / 2];
    size_t length;
} shown;

static uint8_t *stream, *damaged; /* what came, and whether the byte's piece was damaged */
static size_t came, room;

static uint32_t u32(const uint8_t *b)
{
    return b[0] | (uint32_t)b[1] << 8 | (uint32_t)b[2] << 16 | (uint32_t)b[3] << 24;
}

static uint64_t u64(const uint8_t *b)
{
    return u32(b) | (uint64_t)u32(b + 4) << 32;
}

static size_t unhex(const char *text, uint8_t *out)
{
    size_t n = 0;
    unsigned byte;
    while (sscanf(text + 2 * n, "%2x", &byte) == 1)
        out[n++] = (uint8_t)byte;
    return n;
}

/* ---- what came */

static void add(const char *how, const char *hex)
{
    size_t n;
    if (came + MOST_LINE > room) {
        room = 2 * room + 2 * MOST_LINE;
        stream = realloc(stream, room);
        damaged = realloc(damaged, room);
        if (stream == NULL || damaged == NULL)
            exit(2);
    }
    n = unhex(hex, stream + came);
    memset(damaged + came, strcmp(how, "flip") == 0 || strcmp(how, "cut") == 0, n);
    came += n;
}

static void read_line_log(FILE *log)
{
    static char text[MOST_LINE], how[16];
    int at;
    while (fgets(text, sizeof text, log) != NULL)
        if (sscanf(text, "H %15s %n", how, &at) == 1 && strcmp(how, "drop") != 0)
            add(how, text + at);
}

/* A fragment of the message at p: how many bytes it has, or 0. */
static size_t fragment(const shown *s, size_t p, uint32_t number, uint32_t *total)
{
    uint32_t length;
    if (came - p < 20 || u32(stream + p) != s->type || u32(stream + p + 8) != s->transaction)
        return 0;
    length = u32(stream + p + 4);
    if (number == 0)
        *total = u32(stream + p + 12);
    if (length < 20 || length > came - p || u32(stream + p + 12) != *total)
        return 0;
    return u32(stream + p + 16) == number ? length : 0;
}

/* The first fragment's own header: where its information begins, or 0. */
static size_t opening(const shown *s, size_t p, size_t length)
{
    static const uint8_t basic_connect[16] = {0xa2, 0x89, 0xcc, 0x33, 0xbc, 0xbb, 0x8b, 0x4f,
                                              0xb6, 0xb0, 0x13, 0x3e, 0xc2, 0xaa, 0xe6, 0xdf};
    size_t from = s->type == 0x80000007 ? 44 : 48;
    if (length < from || memcmp(stream + p + 20, basic_connect, 16) != 0)
        return 0;
    if (u32(stream + p + 36) != s->cid || u32(stream + p + from - 4) != s->length)
        return 0;
    return from == 44 || u32(stream + p + 40) == s->word ? from : 0;
}

/* The message, all of it, at p: where it ends, or 0. */
static size_t message(const shown *s, size_t p)
{
    size_t gathered = 0;
    uint32_t number, total = 1;
    for (number = 0; number < total; number++) {
        size_t length = fragment(s, p, number, &total);
        size_t from = number > 0 ? 20 : opening(s, p, length);
        if (length == 0 || from == 0 || length - from > s->length - gathered)
            return 0;
        if (memcmp(stream + p + from, s->bytes + gathered, length - from) != 0)
            return 0;
        gathered += length - from;
        p += length;
    }
    return gathered == s->length ? p : 0;
}

/* ---- what the bytes say */

static char *say_text(char *out, const char *label, const shown *s, size_t pair)
{
    uint32_t start = u32(s->bytes + pair), length = u32(s->bytes + pair + 4), i;
    out += sprintf(out, ", %s \"", label);
    for (i = 0; i < length; i += 2) {
        unsigned unit = s->bytes[start + i] | (unsigned)s->bytes[start + i + 1] << 8;
        out += unit >= 32 && unit < 127 ? sprintf(out, "%c", (int)unit) : sprintf(out, "\\u%04x", unit);
    }
    return out + sprintf(out, "\"");
}

static char *say_half(char *out, const char *label, uint32_t code, uint32_t unknown, int twice)
{
    if (code == unknown)
        return out + sprintf(out, " %s unknown", label);
    if (code == 0)
        return out + sprintf(out, " %s below %s", label, unknown == 127 ? "-156.0" : "-23.0");
    return out + sprintf(out, " %s %.1f", label, twice / 2.0);
}

static void say_signal(char *out, const shown *s)
{
    static const uint32_t steps[] = {2, 4, 7, 12, 17};
    uint32_t rssi = u32(s->bytes), bars = 0, i;
    const uint8_t *list = s->bytes;
    out += sprintf(out, "signal: RSSI %" PRIu32, rssi);
    while (bars < 5 && rssi >= steps[bars])
        bars++;
    if (rssi != 99)
        out += sprintf(out, ", bars %" PRIu32, bars);
    if (strcmp(s->version, "1.00") == 0 || u32(s->bytes + 24) == 0)
        return; /* no list, and its offset may be any number */
    list += u32(s->bytes + 20);
    for (i = 0; i < u32(list); i++) {
        const uint8_t *entry = list + 4 + 20 * i;
        out += sprintf(out, ", type %" PRIx32 "h", u32(entry + 16));
        out = say_half(out, "RSRP", u32(entry), 127, 2 * ((int)u32(entry) - 157));
        out = say_half(out, "SNR", u32(entry + 4), 128, (int)u32(entry + 4) - 47);
    }
}

static void say(char *out, const shown *s)
{
    const uint8_t *b = s->bytes;
    *out = 0;
    if (s->cid == 9) {
        out += sprintf(out, "registration: state %" PRIu32 ", mode %" PRIu32 ", classes %" PRIx32 "h",
                       u32(b + 4), u32(b + 8), u32(b + 12));
        say_text(say_text(out, "provider", s, 20), "name", s, 28);
    } else if (s->cid == 10) {
        sprintf(out, "packet service: state %" PRIu32 ", class %" PRIx32 "h, up %" PRIu64 ", down %" PRIu64,
                u32(b + 4), u32(b + 8), u64(b + 12), u64(b + 20));
    } else if (s->cid == 11) {
        say_signal(out, s);
    }
}

/* ---- one after the other */

static int is_refusal(const char *text)
{
    return strncmp(text, "station: a reply: refused", 25) == 0;
}

static int compare(const shown *s, const char *text)
{
    static char expected[4 * MOST_LINE];
    if (is_refusal(text))
        return 1;
    say(expected, s);
    strcat(expected, "\n");
    if (strcmp(expected, text) == 0)
        return 1;
    printf("check_shown: shown:    %scheck_shown: but came: %s", text, expected);
    return 0;
}

/* Where the reply ends that came behind `from`, or 0. */
static size_t find(const shown *s, size_t from, int *is_damaged)
{
    size_t p, end = 0;
    for (p = from; p < came && end == 0; p++)
        if ((end = message(s, p)) > 0)
            *is_damaged = memchr(damaged + p, 1, end - p) != NULL;
    return end;
}

int main(int argc, char **argv)
{
    static char text[MOST_LINE];
    static shown s;
    FILE *line_log = argc == 3 ? fopen(argv[1], "r") : NULL, *log = argc == 3 ? fopen(argv[2], "r") : NULL;
    size_t cursor = 0, all = 0, hurt = 0, refused = 0;
    int at, is_damaged = 0;
    if (line_log == NULL || log == NULL)
        return 2;
    read_line_log(line_log);
    while (fgets(text, sizeof text, log) != NULL) {
        if (sscanf(text, "bytes: %" SCNx32 " %" SCNu32 " %" SCNu32 " %" SCNu32 " %7s %n", &s.type,
                   &s.transaction, &s.cid, &s.word, s.version, &at) != 5)
            continue;
        s.length = unhex(text + at, s.bytes);
        cursor = find(&s, cursor, &is_damaged);
        if (cursor == 0) {
            printf("check_shown: shown, but it didn't come: %s", text);
            return 1;
        }
        if (fgets(text, sizeof text, log) == NULL || !compare(&s, text))
            return 1;
        refused += is_refusal(text);
        all += !is_refusal(text);
        hurt += is_damaged && !is_refusal(text);
    }
    printf("%zu %zu %zu\n", all, hurt, refused);
    return 0;
}
