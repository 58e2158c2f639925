/*
 * What comes from a serial line, which has no packet bounds: reads standard input in chunks, feeds them to
 * a stream and shows each of its answers in a line, until the input ends.
 *
 *   serial_line SIZE      reads chunks of up to SIZE bytes, 1 to 8192; what is shown doesn't depend on it
 *   serial_line --record  writes serial_line.stream, what a modem might send, to standard output
 *
 * Exit status: 0 the input ended, 1 a length field ended the stream before, 2 wrong arguments, 3 the
 * library refused what it can't refuse here, or reading or writing failed.
 */
#define _POSIX_C_SOURCE 200809L

#include "culvertroost.h"

#include <ctype.h>
#include <errno.h>
#include <inttypes.h>
#include <stdio.h>
#include <stdlib.h>
#include <string.h>
#include <unistd.h>

#define MOST_CHUNK 8192

static const cvr_service basic_connect = CVR_BASIC_CONNECT;
static const cvr_service extensions = CVR_EXTENSIONS;

static void fail(const char *what, const char *why)
{
    fprintf(stderr, "serial_line: %s: %s\n", what, why);
    exit(3);
}

static void need(cvr_refusal refusal, const char *what)
{
    if (refusal.number != CVR_NO_REFUSAL)
        fail(what, cvr_refusal_name(refusal.number));
}

/* ---- what is shown */

static const char *type_name(uint32_t message_type)
{
    switch (message_type) {
    case CVR_MESSAGE_OPEN: return "OPEN";
    case CVR_MESSAGE_CLOSE: return "CLOSE";
    case CVR_MESSAGE_HOST_ERROR: return "HOST_ERROR";
    case CVR_MESSAGE_OPEN_DONE: return "OPEN_DONE";
    case CVR_MESSAGE_CLOSE_DONE: return "CLOSE_DONE";
    case CVR_MESSAGE_FUNCTION_ERROR: return "FUNCTION_ERROR";
    case CVR_MESSAGE_COMMAND: return "COMMAND";
    case CVR_MESSAGE_COMMAND_DONE: return "COMMAND_DONE";
    default: return "INDICATE_STATUS";
    }
}

static int is_same(cvr_service one, cvr_service other)
{
    return one.word0 == other.word0 && one.word1 == other.word1 && one.word2 == other.word2
           && one.word3 == other.word3;
}

static const char *service_name(cvr_service service)
{
    return is_same(service, basic_connect) ? "Basic Connect"
           : is_same(service, extensions) ? "extensions" : "another service";
}

static void show_refusal(const char *word, cvr_refusal refusal)
{
    printf("%s%" PRIu32 " %s at %" PRIu64, word, refusal.number, cvr_refusal_name(refusal.number),
           refusal.place);
}

static void show_complete(const cvr_receive_answer *piece)
{
    static const char *const names[] = {"no payload", "REGISTER_STATE", "PACKET_SERVICE", "SIGNAL_STATE",
                                        "DEVICE_SERVICES", "VERSION", "SET_PIN", "PIN_INFO"};
    cvr_kind_answer kind = cvr_payload_kind(piece->message);
    printf(", %s, CID %" PRIu32 ", word %" PRIu32 ", %" PRIu64 " bytes, ",
           service_name(piece->message.service), piece->message.cid, piece->message.word, piece->length);
    if (kind.refusal.number != CVR_NO_REFUSAL)
        show_refusal("", kind.refusal);
    else
        printf("%s", names[kind.kind]);
}

static void show_piece(const cvr_receive_answer *piece)
{
    static const char *const words[] = {"", "whole", "pending", "complete"};
    printf("%-10s%s, transaction %" PRIu32, words[piece->received], type_name(piece->message.message_type),
           piece->message.transaction);
    if (piece->received == CVR_RECEIVED_WHOLE)
        printf(", word %" PRIu32, piece->message.word);
    if (piece->received == CVR_RECEIVED_COMPLETE)
        show_complete(piece);
    if (piece->dropped)
        printf(", an unfinished message was dropped");
    printf("\n");
}

/* An answer; where no piece is whole yet there is nothing to show. */
static void show(const cvr_stream_answer *got)
{
    if (got->piece.refusal.number != CVR_NO_REFUSAL) {
        show_refusal(got->ended ? "ended     " : "refused   ", got->piece.refusal);
        printf("\n");
    } else if (got->piece.received != 0) {
        show_piece(&got->piece);
    }
}

/* ---- the line */

static uint8_t stream[CVR_STREAM_SIZE], assembly[CVR_ASSEMBLY_SIZE];
static uint8_t information[CVR_MOST_INFORMATION]; /* of the last complete message */
static int ended;
static uint64_t not_taken; /* bytes behind the stream's end */

/* Feeds a chunk, call after call. Once the stream has ended it is of no use to go on. */
static void take(const uint8_t *chunk, size_t length)
{
    size_t at = 0;
    while (at < length && !ended) {
        cvr_stream_answer got = cvr_stream_feed(stream, sizeof stream, assembly, sizeof assembly,
                                                chunk + at, length - at, information,
                                                sizeof information);
        if (got.taken == 0)
            fail("stream", cvr_refusal_name(got.piece.refusal.number));
        show(&got);
        ended = (int)got.ended;
        at += (size_t)got.taken;
    }
    not_taken += length - at;
}

/* Reads once; gives 0 at the end of the input. */
static size_t read_chunk(uint8_t *chunk, size_t size)
{
    ssize_t length;
    do
        length = read(STDIN_FILENO, chunk, size);
    while (length < 0 && errno == EINTR);
    if (length < 0)
        fail("read", strerror(errno));
    return (size_t)length;
}

static unsigned held(void)
{
    const uint8_t *at = stream + CVR_AT_STREAM_HELD;
    return at[0] | (unsigned)at[1] << 8; /* under 4,096 */
}

static int receive_all(size_t size)
{
    static uint8_t chunk[MOST_CHUNK];
    size_t length;
    need(cvr_stream_reset(stream, sizeof stream, assembly, sizeof assembly), "reset");
    while ((length = read_chunk(chunk, size)) > 0)
        take(chunk, length);
    if (ended)
        printf("not taken %" PRIu64 " bytes behind the end of the stream\n", not_taken);
    else
        printf("end of input, bytes held: %u\n", held());
    return ended;
}

/* ---- the record */

/* A message in its fragments, all of them of this size but the last. */
static uint8_t cut[CVR_MOST_CUT];
static size_t cut_size, cut_length;

static uint8_t payload[CVR_MOST_INFORMATION];
static size_t payload_length;

static void put(const uint8_t *bytes, size_t length)
{
    if (fwrite(bytes, 1, length, stdout) != length)
        fail("write", strerror(errno));
}

static void put_whole(uint32_t message_type, uint32_t transaction, uint32_t word)
{
    uint8_t bytes[CVR_MOST_WHOLE];
    cvr_written written = cvr_message_write(message_type, transaction, word, bytes, sizeof bytes);
    need(written.refusal, "whole message");
    put(bytes, (size_t)written.length);
}

/* The fragments from one on, numbered from 0, and before another. */
static void put_fragments(size_t from, size_t before)
{
    size_t at = from * cut_size, end = before * cut_size;
    put(cut + at, (end < cut_length ? end : cut_length) - at);
}

/* Cuts a message with the payload; gives how many fragments it has. */
static size_t make(uint32_t message_type, uint32_t transaction, uint32_t cid, uint32_t word, size_t size)
{
    cvr_message_header message = {0, 0, CVR_BASIC_CONNECT, 0, 0};
    cvr_cut_answer answer;
    message.message_type = message_type;
    message.transaction = transaction;
    message.cid = cid;
    message.word = word;
    if (cid == CVR_CID_VERSION)
        message.service = extensions;
    answer = cvr_message_cut(message, size, payload, payload_length, cut, sizeof cut);
    need(answer.refusal, "message");
    cut_size = size;
    cut_length = (size_t)answer.length;
    return answer.count;
}

static size_t make_reply(uint32_t transaction, uint32_t cid, uint32_t status)
{
    return make(CVR_MESSAGE_COMMAND_DONE, transaction, cid, status, CVR_LEAST_TRANSFER);
}

static void kept(cvr_written written)
{
    need(written.refusal, "payload");
    payload_length = (size_t)written.length;
}

/* So many services, Basic Connect and made-up ones, with the CIDs 4 to 11 each. */
static void write_services(uint32_t count)
{
    uint32_t fields[CVR_ELEMENT_WORDS * CVR_MOST_SERVICES], cids[8 * CVR_MOST_SERVICES], i;
    for (i = 0; i < count; i++) {
        cvr_device_service element = {CVR_BASIC_CONNECT, 0, 0, 8};
        element.device_service_id.word3 += i;
        memcpy(fields + CVR_ELEMENT_WORDS * i, &element, sizeof element);
    }
    for (i = 0; i < 8 * count; i++)
        cids[i] = CVR_CID_PIN + i % 8;
    kept(cvr_device_services_write_all(0, fields, CVR_ELEMENT_WORDS * count, cids, 8 * count, payload,
                                       sizeof payload));
}

static void write_version(void)
{
    cvr_version_info info = {CVR_MBIM_1_00, CVR_VERSION_1_00};
    kept(cvr_version_info_write(info, payload, sizeof payload));
}

static void write_registration(void)
{
    static const uint8_t name[] = {'H', 0, 'a', 0, 'r', 0, 'b', 0, 'o', 0, 'u', 0, 'r', 0};
    cvr_registration info = {CVR_VERSION_1_00, 0, CVR_REGISTER_STATE_HOME, CVR_REGISTER_MODE_AUTOMATIC,
                             CVR_DATA_CLASS_LTE, CVR_CELLULAR_CLASS_GSM, 0, 0};
    kept(cvr_registration_write(info, NULL, 0, name, sizeof name, NULL, 0, payload, sizeof payload));
}

static void write_packet_service(void)
{
    cvr_packet_service info = {CVR_VERSION_1_00, 0, CVR_PACKET_SERVICE_STATE_ATTACHED,
                               CVR_DATA_CLASS_LTE, 0, 0, 50000000, 150000000};
    kept(cvr_packet_service_write(info, payload, sizeof payload));
}

static void write_signal(void)
{
    static cvr_signal_state info;
    info.version = CVR_VERSION_1_00;
    info.rssi = 17;
    info.error_rate = CVR_ERROR_RATE_UNKNOWN;
    kept(cvr_signal_state_write(info, payload, sizeof payload));
}

/* Three replies, an error in the midst of the first, and an indication. */
static void record_good(void)
{
    size_t count;
    put_whole(CVR_MESSAGE_OPEN_DONE, 1, CVR_STATUS_SUCCESS);
    write_services(2);
    count = make_reply(2, CVR_CID_DEVICE_SERVICES, CVR_STATUS_SUCCESS);
    put_fragments(0, 2);
    put_whole(CVR_MESSAGE_FUNCTION_ERROR, 2, 3);
    put_fragments(2, count);
    write_version();
    put_fragments(0, make_reply(3, CVR_CID_VERSION, CVR_STATUS_SUCCESS));
    write_registration();
    put_fragments(0, make_reply(4, CVR_CID_REGISTER_STATE, CVR_STATUS_SUCCESS));
    write_signal();
    put_fragments(0, make(CVR_MESSAGE_INDICATE_STATUS, 0, CVR_CID_SIGNAL_STATE, 0, CVR_LEAST_TRANSFER));
}

/* A reply whose second fragment was lost, and the same asked for again; one without its end, then
 * another; a type that MBIM 1.0 hasn't. */
static void record_refused(void)
{
    static const uint8_t unknown[] = {5, 0, 0, 0, 20, 0, 0, 0, 9, 0, 0, 0, 1, 0, 0, 0, 0, 0, 0, 0};
    size_t count;
    write_registration();
    count = make_reply(5, CVR_CID_REGISTER_STATE, CVR_STATUS_SUCCESS);
    put_fragments(0, 1);
    put_fragments(2, count);
    put_fragments(0, make_reply(6, CVR_CID_REGISTER_STATE, CVR_STATUS_SUCCESS));
    make_reply(7, CVR_CID_REGISTER_STATE, CVR_STATUS_SUCCESS);
    put_fragments(0, 1);
    write_packet_service();
    put_fragments(0, make_reply(8, CVR_CID_PACKET_SERVICE, CVR_STATUS_SUCCESS));
    put(unknown, sizeof unknown);
    payload_length = 0;
    put_fragments(0, make_reply(9, CVR_CID_SIGNAL_STATE, CVR_STATUS_FAILURE));
    put_fragments(0, make_reply(10, 1, CVR_STATUS_SUCCESS)); /* DEVICE_CAPS, which is not known here */
    put_whole(CVR_MESSAGE_CLOSE_DONE, 11, CVR_STATUS_SUCCESS);
}

/* A session with long pieces; behind it a fragment whose length field was damaged. */
static void record_end(void)
{
    size_t count;
    uint32_t transaction;
    put_whole(CVR_MESSAGE_OPEN_DONE, 12, CVR_STATUS_SUCCESS);
    write_services(CVR_MOST_SERVICES);
    for (transaction = 13; transaction < 15; transaction++) {
        count = make(CVR_MESSAGE_COMMAND_DONE, transaction, CVR_CID_DEVICE_SERVICES, CVR_STATUS_SUCCESS,
                     CVR_MOST_TRANSFER);
        put_fragments(0, count);
    }
    put_whole(CVR_MESSAGE_CLOSE_DONE, 15, CVR_STATUS_SUCCESS);
    write_signal();
    count = make_reply(16, CVR_CID_SIGNAL_STATE, CVR_STATUS_SUCCESS);
    cut[CVR_AT_MESSAGE_LENGTH + 1] = 64; /* 16,448 now */
    put_fragments(0, count);
}

static int record(void)
{
    record_good();
    record_refused();
    record_end();
    if (fflush(stdout) != 0)
        fail("write", strerror(errno));
    return 0;
}

/* ---- the program */

/* The number that the text is, 0 where it is none from 1 to MOST_CHUNK. */
static size_t chunk_size(const char *text)
{
    char *end = NULL;
    unsigned long size = isdigit((unsigned char)text[0]) ? strtoul(text, &end, 10) : 0;
    return size <= MOST_CHUNK && size > 0 && *end == '\0' ? (size_t)size : 0;
}

int main(int argc, char **argv)
{
    size_t size = argc == 2 ? chunk_size(argv[1]) : 0;
    if (argc == 2 && strcmp(argv[1], "--record") == 0)
        return record();
    if (size == 0) {
        fprintf(stderr, "usage: serial_line SIZE | --record, where SIZE is a number from 1 to %d\n",
                MOST_CHUNK);
        return 2;
    }
    return receive_all(size);
}
