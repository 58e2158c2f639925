/*
 * A station's host: opens the modem, shakes hands, asks for registration, packet service and signal in
 * rounds, and closes.
 *
 *   station [-n NATIVE] [-a ADVERTISED] [-s SIZE] [-r ROUNDS] [-t TIMEOUT] [-i FD] [-o FD] [-v]
 *
 * -n: its native version, 1.00 or 2.00. -a: what the modem's USB descriptor says. -s: the transfer
 * size, 64 to 4096. -t: milliseconds to wait for a reply. -i, -o: where the line is, as a rule standard
 * input and output. What it shows goes to standard error; -v: each reply's bytes too.
 *
 * Exit status: 0 all rounds were gone through, 1 the modem didn't answer, 2 wrong arguments, 3 the host
 * refuses this modem.
 */
#define _POSIX_C_SOURCE 200809L

#include "line.h"

#define MOST_TRIES 20 /* sessions in a row that don't come to settle, before it gives up */
#define MOST_STEPS 5  /* of a handshake: two, and the services list may be asked for again */

enum result { ANSWERED, NO_ANSWER, REFUSED, ENDED };

static const cvr_service basic_connect = CVR_BASIC_CONNECT;
static const cvr_service extensions = CVR_EXTENSIONS;

static line modem = {.name = "station", .in = 0, .out = 1, .size = CVR_MOST_TRANSFER};
static uint16_t native = CVR_VERSION_2_00, advertised = CVR_VERSION_1_00;
static long timeout = 1000, rounds = 1;
static int verbose;
static uint8_t host[CVR_HOST_SIZE];
static uint16_t version; /* the settled one, 0 before */
static uint32_t transaction;
static int tries;

/* ---- what is shown */

static void show_text(const char *label, cvr_range text)
{
    uint32_t i;
    fprintf(stderr, ", %s \"", label);
    for (i = text.start; i < text.start + text.length; i += 2) {
        unsigned unit = modem.information[i] | (unsigned)modem.information[i + 1] << 8;
        fprintf(stderr, unit >= ' ' && unit <= '~' ? "%c" : "\\u%04x", unit);
    }
    fprintf(stderr, "\"");
}

static void show_reading(const char *label, cvr_reading_answer reading)
{
    if (reading.kind == CVR_READING_UNKNOWN)
        fprintf(stderr, " %s unknown", label);
    else
        fprintf(stderr, " %s %s%.1f", label, reading.kind == CVR_READING_BELOW_RANGE ? "below " : "",
                reading.value);
}

static cvr_refusal show_registration(size_t length)
{
    cvr_registration_answer read = cvr_registration_read(version, modem.information, length);
    if (read.refusal.number == CVR_NO_REFUSAL) {
        fprintf(stderr, "registration: state %" PRIu32 ", mode %" PRIu32 ", classes %" PRIx32 "h",
                read.info.register_state, read.info.register_mode, read.info.available_data_class);
        show_text("provider", read.texts.provider_id);
        show_text("name", read.texts.provider_name);
        fprintf(stderr, "\n");
    }
    return read.refusal;
}

static cvr_refusal show_packet_service(size_t length)
{
    cvr_packet_service_answer read = cvr_packet_service_read(version, modem.information, length);
    uint32_t class = version == CVR_VERSION_1_00 ? read.info.highest_available_data_class
                                                 : read.info.current_data_class;
    if (read.refusal.number == CVR_NO_REFUSAL)
        fprintf(stderr, "packet service: state %" PRIu32 ", class %" PRIx32 "h, up %" PRIu64
                ", down %" PRIu64 "\n", read.info.packet_service_state, class, read.info.uplink_speed,
                read.info.downlink_speed);
    return read.refusal;
}

static cvr_refusal show_signal(size_t length)
{
    cvr_signal_state_answer read = cvr_signal_state_read(version, modem.information, length);
    cvr_bars_answer bars;
    uint32_t i;
    if (read.refusal.number != CVR_NO_REFUSAL)
        return read.refusal;
    bars = cvr_bars(read.info.rssi);
    fprintf(stderr, "signal: RSSI %" PRIu32, read.info.rssi);
    if (bars.reading)
        fprintf(stderr, ", bars %" PRIu32, bars.bars);
    for (i = 0; i < read.info.count; i++) {
        fprintf(stderr, ", type %" PRIx32 "h", read.info.entries[i].system_type);
        show_reading("RSRP", cvr_rsrp(read.info.entries[i].rsrp));
        show_reading("SNR", cvr_snr(read.info.entries[i].snr));
    }
    fprintf(stderr, "\n");
    return read.refusal;
}

/* The message's bytes, so that what is shown can be held against them. */
static void show_bytes(cvr_message_header message, size_t length)
{
    size_t i;
    fprintf(stderr, "bytes: %" PRIx32 " %" PRIu32 " %" PRIu32 " %" PRIu32 " %s ",
            message.message_type, message.transaction, message.cid, message.word,
            line_version_text(version));
    for (i = 0; i < length; i++)
        fprintf(stderr, "%02x", modem.information[i]);
    fprintf(stderr, "\n");
}

/* Shows a state; gives 1 where there was one to show. */
static int show(cvr_message_header message, size_t length)
{
    cvr_kind_answer kind = cvr_payload_kind(message);
    cvr_refusal refusal = kind.refusal;
    if (kind.kind == CVR_KIND_NONE && refusal.number == CVR_NO_REFUSAL) {
        fprintf(stderr, "station: CID %" PRIu32 ": status %" PRIu32 "\n", message.cid, message.word);
        return 0;
    }
    if (verbose)
        show_bytes(message, length);
    if (kind.kind == CVR_KIND_REGISTER_STATE)
        refusal = show_registration(length);
    else if (kind.kind == CVR_KIND_PACKET_SERVICE)
        refusal = show_packet_service(length);
    else if (kind.kind == CVR_KIND_SIGNAL_STATE)
        refusal = show_signal(length);
    if (refusal.number != CVR_NO_REFUSAL)
        line_refused(&modem, "a reply", refusal);
    return refusal.number == CVR_NO_REFUSAL;
}

/* ---- a message and its reply */

/* Waits for a message of this type and transaction. A modem that says it isn't open ends the wait. */
static enum result await(uint32_t message_type, cvr_receive_answer *got)
{
    int64_t until = line_now() + timeout;
    for (;;) {
        int event = line_receive(&modem, until, got);
        if (event != LINE_PIECE)
            return event == LINE_ENDED ? ENDED : NO_ANSWER;
        if (got->refusal.number != CVR_NO_REFUSAL || got->received == CVR_RECEIVED_PENDING)
            continue;
        if (got->message.message_type == message_type && got->message.transaction == transaction)
            return ANSWERED;
        if (got->message.message_type == CVR_MESSAGE_FUNCTION_ERROR)
            return NO_ANSWER;
        if (got->message.message_type == CVR_MESSAGE_INDICATE_STATUS && version != 0)
            show(got->message, got->length);
    }
}

/* OPEN or CLOSE, and its reply with status 0. */
static enum result send_whole(uint32_t message_type, uint32_t done)
{
    cvr_receive_answer got;
    enum result result;
    transaction = cvr_transaction_next(transaction);
    line_send_whole(&modem, message_type, transaction, (uint32_t)modem.size);
    result = await(done, &got);
    return result == ANSWERED && got.message.word != CVR_STATUS_SUCCESS ? NO_ANSWER : result;
}

static int is_same(cvr_service one, cvr_service other)
{
    return one.word0 == other.word0 && one.word1 == other.word1 && one.word2 == other.word2
           && one.word3 == other.word3;
}

/* A query, and the reply to this very one. */
static enum result query(cvr_service service, uint32_t cid, const uint8_t *information, size_t length,
                         cvr_receive_answer *got)
{
    cvr_message_header command = {CVR_MESSAGE_COMMAND, 0, {0, 0, 0, 0}, cid, CVR_QUERY};
    enum result result;
    transaction = cvr_transaction_next(transaction);
    command.transaction = transaction;
    command.service = service;
    line_send(&modem, command, information, length);
    result = await(CVR_MESSAGE_COMMAND_DONE, got);
    if (result == ANSWERED && (got->message.cid != cid || !is_same(got->message.service, service)))
        result = NO_ANSWER;
    if (result == NO_ANSWER)
        fprintf(stderr, "station: CID %" PRIu32 ": no reply\n", cid);
    return result;
}

/* ---- a session */

/* The host's next command, and the reply to it. */
static enum result step(cvr_ask_answer ask, const uint8_t *payload)
{
    cvr_receive_answer got;
    cvr_host_answer answer;
    enum result result = ask.command == CVR_COMMAND_VERSION
                             ? query(extensions, CVR_CID_VERSION, payload, ask.length, &got)
                             : query(basic_connect, CVR_CID_DEVICE_SERVICES, payload, 0, &got);
    if (result != ANSWERED)
        return result;
    answer = cvr_host_receive(host, sizeof host, got.message, modem.information, got.length);
    if (answer.refusal.number == CVR_NO_REFUSAL)
        return ANSWERED;
    line_refused(&modem, "the handshake", answer.refusal);
    return answer.refusal.number == CVR_ABOVE_HOST || answer.refusal.number == CVR_VERSION_NOT_LISTED
               ? REFUSED : NO_ANSWER;
}

/* Until the host is settled. The list may be asked for again, VERSION may not: whatever else comes of
 * it ends the session. */
static enum result shake_hands(void)
{
    uint8_t payload[CVR_VERSION_INFO_LENGTH];
    int steps;
    for (steps = 0; steps < MOST_STEPS; steps++) {
        cvr_ask_answer ask = cvr_host_next_command(host, sizeof host, payload, sizeof payload);
        enum result result = step(ask, payload);
        cvr_ask_answer then = cvr_host_next_command(host, sizeof host, payload, sizeof payload);
        if (then.command == CVR_COMMAND_FREE) {
            version = then.version;
            tries = 0;
            fprintf(stderr, "station: settled at %s\n", line_version_text(version));
            return ANSWERED;
        }
        if (result == REFUSED || result == ENDED || ask.command == CVR_COMMAND_VERSION)
            return result == ANSWERED ? NO_ANSWER : result;
    }
    return NO_ANSWER;
}

/* The three states; no answer where none of them could be shown. */
static enum result go_round(void)
{
    static const uint32_t cids[] = {CVR_CID_REGISTER_STATE, CVR_CID_PACKET_SERVICE,
                                    CVR_CID_SIGNAL_STATE};
    cvr_receive_answer got;
    int i, shown = 0;
    for (i = 0; i < 3; i++) {
        enum result result = query(basic_connect, cids[i], NULL, 0, &got);
        if (result == ENDED)
            return ENDED;
        if (result == ANSWERED)
            shown += show(got.message, got.length);
    }
    return shown > 0 ? ANSWERED : NO_ANSWER;
}

/* From OPEN to CLOSE; what is left of the rounds is for the next one. */
static enum result session(void)
{
    enum result result;
    version = 0;
    cvr_assembly_empty(modem.assembly, sizeof modem.assembly);
    result = send_whole(CVR_MESSAGE_OPEN, CVR_MESSAGE_OPEN_DONE);
    if (result != ANSWERED)
        return result;
    cvr_host_open(host, sizeof host, advertised);
    result = shake_hands();
    for (; rounds > 0 && result == ANSWERED; rounds--)
        result = go_round();
    cvr_host_close(host, sizeof host);
    if (result != ENDED && send_whole(CVR_MESSAGE_CLOSE, CVR_MESSAGE_CLOSE_DONE) == NO_ANSWER)
        fprintf(stderr, "station: no answer to CLOSE\n");
    return result;
}

/* ---- the program */

static void usage(void)
{
    fprintf(stderr, "usage: station [-n NATIVE] [-a ADVERTISED] [-s SIZE] [-r ROUNDS] [-t TIMEOUT] "
                    "[-i FD] [-o FD] [-v]\n");
    exit(2);
}

static void number(int option, long value)
{
    if (option == 's')
        modem.size = (size_t)value;
    else if (option == 'r')
        rounds = value;
    else if (option == 't')
        timeout = value;
    else if (option == 'i')
        modem.in = (int)value;
    else if (option == 'o')
        modem.out = (int)value;
    else
        usage();
}

static void arguments(int argc, char **argv)
{
    int option;
    while ((option = getopt(argc, argv, "n:a:s:r:t:i:o:v")) != -1) {
        if (option == 'n')
            native = line_version(optarg);
        else if (option == 'a')
            advertised = line_version(optarg);
        else if (option == 'v')
            verbose = 1;
        else
            number(option, optarg ? strtol(optarg, NULL, 10) : 0);
    }
    if (optind < argc || modem.size < CVR_LEAST_TRANSFER || modem.size > CVR_MOST_TRANSFER
        || advertised == 0)
        usage();
}

int main(int argc, char **argv)
{
    enum result result = NO_ANSWER;
    arguments(argc, argv);
    if (cvr_host_make(host, sizeof host, native).number != CVR_NO_REFUSAL)
        usage();
    while (rounds > 0 && tries++ < MOST_TRIES && result != REFUSED && result != ENDED)
        result = session();
    if (result == REFUSED)
        return 3;
    return rounds > 0 ? 1 : 0;
}
