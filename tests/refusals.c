/*
 * The calls in docs/refusals.md that are no payload's. Standard input has a call a line, its arguments
 * parted by tabs; the answer is written as the listing program writes a refused payload.
 *
 *   cvr_receive             a piece; the assembly is empty
 *   cvr_stream_feed         the room in bytes, what the stream's memory begins with (the others are 0), and
 *                           a chunk; the assembly is empty
 *   cvr_payload_kind        a service and a CID, of a reply with status 0
 *   cvr_version_info_write  the room in bytes
 *   cvr_message_cut         the transfer size
 *   cvr_host_receive        native and advertised version, and the list in a reply to a host just opened
 *   cvr_registration_read_with  the version, the choice and the payload
 *   cvr_pin_enter           the payload; the table has no PIN in it
 *
 * With the argument `names`, the numbers and their names.
 */
#include "culvertroost.h"

#include <inttypes.h>
#include <stdio.h>
#include <stdlib.h>
#include <string.h>

enum { MOST_BYTES = 8192, MOST_ARGUMENTS = 4 };

typedef struct bytes {
    uint8_t at[MOST_BYTES];
    size_t length;
} bytes;

static const cvr_service basic_connect = CVR_BASIC_CONNECT;

static int digit(char c)
{
    const char *digits = "0123456789abcdef";
    const char *found = c ? strchr(digits, c) : NULL;
    return found ? (int)(found - digits) : -1;
}

static void fail(const char *what)
{
    fprintf(stderr, "refusals: %s\n", what);
    exit(2);
}

static void from_hex(const char *text, bytes *out)
{
    for (out->length = 0; text[0] && out->length < MOST_BYTES; text += 2) {
        int high = digit(text[0]), low = digit(text[1]);
        if (high < 0 || low < 0)
            fail("no hexadecimal bytes");
        out->at[out->length++] = (uint8_t)(16 * high + low);
    }
}

static uint16_t version_of(const char *text)
{
    if (strcmp(text, "1.00") == 0)
        return CVR_VERSION_1_00;
    if (strcmp(text, "2.00") != 0)
        fail("no version");
    return CVR_VERSION_2_00;
}

static cvr_message_header reply(cvr_service service, uint32_t cid)
{
    cvr_message_header message = {CVR_MESSAGE_COMMAND_DONE, 1, {0, 0, 0, 0}, 0, 0};
    message.service = service;
    message.cid = cid;
    return message;
}

static cvr_refusal received(const char *piece)
{
    static uint8_t memory[CVR_ASSEMBLY_SIZE], out[CVR_MOST_INFORMATION];
    static bytes in;
    from_hex(piece, &in);
    cvr_assembly_empty(memory, sizeof memory);
    return cvr_receive(memory, sizeof memory, in.at, in.length, out, sizeof out).refusal;
}

static cvr_refusal fed(const char *room, const char *memory, const char *chunk)
{
    static uint8_t stream[CVR_STREAM_SIZE], assembly[CVR_ASSEMBLY_SIZE], out[CVR_MOST_INFORMATION];
    static bytes in;
    size_t n = strtoul(room, NULL, 10);
    from_hex(memory, &in);
    cvr_stream_reset(stream, sizeof stream, assembly, sizeof assembly);
    memcpy(stream, in.at, in.length < sizeof stream ? in.length : sizeof stream);
    from_hex(chunk, &in);
    return cvr_stream_feed(stream, sizeof stream, assembly, sizeof assembly, in.at, in.length, out,
                           n < sizeof out ? n : sizeof out).piece.refusal;
}

static cvr_refusal kind(const char *service, const char *cid)
{
    static bytes id;
    from_hex(service, &id);
    return cvr_payload_kind(reply(cvr_service_id(id.at, id.length), (uint32_t)strtoul(cid, NULL, 10))).refusal;
}

static cvr_refusal version_written(const char *room)
{
    uint8_t out[CVR_VERSION_INFO_LENGTH];
    cvr_version_info info = {CVR_MBIM_1_00, CVR_VERSION_2_00};
    size_t n = strtoul(room, NULL, 10);
    return cvr_version_info_write(info, out, n < sizeof out ? n : sizeof out).refusal;
}

static cvr_refusal cut(const char *size)
{
    static uint8_t out[CVR_MOST_CUT];
    cvr_message_header message = reply(basic_connect, CVR_CID_REGISTER_STATE);
    return cvr_message_cut(message, strtoul(size, NULL, 10), NULL, 0, out, sizeof out).refusal;
}

static cvr_refusal host(const char *native, const char *advertised, const char *list)
{
    static bytes in;
    uint8_t memory[CVR_HOST_SIZE];
    from_hex(list, &in);
    cvr_host_make(memory, sizeof memory, version_of(native));
    cvr_host_open(memory, sizeof memory, version_of(advertised));
    return cvr_host_receive(memory, sizeof memory, reply(basic_connect, CVR_CID_DEVICE_SERVICES), in.at, in.length).refusal;
}

static cvr_refusal registration(const char *version, const char *choice, const char *payload)
{
    static bytes in;
    from_hex(payload, &in);
    return cvr_registration_read_with(version_of(version), (uint32_t)strtoul(choice, NULL, 10), in.at, in.length).refusal;
}

static cvr_refusal entered(const char *payload)
{
    static const cvr_pins none;
    static bytes in;
    uint8_t memory[CVR_PINS_SIZE];
    from_hex(payload, &in);
    cvr_pin_make(memory, sizeof memory, none);
    return cvr_pin_enter(memory, sizeof memory, in.at, in.length).refusal;
}

static cvr_refusal answer(char *line)
{
    const char *word[1 + MOST_ARGUMENTS] = {"", "", "", "", ""};
    int n = 0;
    for (char *part = strtok(line, "\t\n"); part && n <= MOST_ARGUMENTS; part = strtok(NULL, "\t\n"))
        word[n++] = part;
    if (strcmp(word[0], "cvr_receive") == 0)
        return received(word[1]);
    if (strcmp(word[0], "cvr_stream_feed") == 0)
        return fed(word[1], word[2], word[3]);
    if (strcmp(word[0], "cvr_payload_kind") == 0)
        return kind(word[1], word[2]);
    if (strcmp(word[0], "cvr_version_info_write") == 0)
        return version_written(word[1]);
    if (strcmp(word[0], "cvr_message_cut") == 0)
        return cut(word[1]);
    if (strcmp(word[0], "cvr_host_receive") == 0)
        return host(word[1], word[2], word[3]);
    if (strcmp(word[0], "cvr_registration_read_with") == 0)
        return registration(word[1], word[2], word[3]);
    if (strcmp(word[0], "cvr_pin_enter") == 0)
        return entered(word[1]);
    fail("a call that is not known here");
    return received("");
}

static void names(void)
{
    for (uint32_t n = 1; cvr_refusal_name(n)[0] != '?'; n++)
        printf("%" PRIu32 " %s\n", n, cvr_refusal_name(n));
}

int main(int count, char **arguments)
{
    static char line[2 * MOST_BYTES + 256];
    if (count > 1 && strcmp(arguments[1], "names") == 0) {
        names();
        return 0;
    }
    while (fgets(line, sizeof line, stdin)) {
        cvr_refusal refusal = answer(line);
        printf("refused\t%" PRIu32 "\t%" PRIu64 "\n", refusal.number, refusal.place);
    }
    return 0;
}
