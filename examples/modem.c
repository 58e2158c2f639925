/*
 * An office model of a modem, on standard input and output.
 *
 *   modem [-n NATIVE] [-a ADVERTISED] [-x] [-p] [-s SIZE] [-d DRIP]
 *
 * -n, -a: versions, 1.00 or 2.00 (2.00 and 1.00 where not given). -x: VERSION is not listed. -p: PIN1
 * is enabled, else it is disabled and none is awaited. -s: the largest fragment it sends, 64 to 4096; a
 * smaller one in OPEN is kept to. -d: bytes written at a time. It serves registration, packet service
 * and signal, as far as the handshake allows, PIN or not, and drifts a little with each signal. It takes
 * PIN entries and tells which PIN it awaits. A bad piece is said on standard error and doesn't stop it;
 * the end of the input does.
 */
#define _POSIX_C_SOURCE 200809L

#include "line.h"

/* MBIM's ErrorStatusCode of a command before OPEN. */
#define NOT_OPENED 5

/* Of PIN1 and PUK1. */
#define PIN_SECRET "1234"
#define PIN_TRIES 3
#define PUK_SECRET "12345678"
#define PUK_TRIES 10

typedef struct payload {
    uint8_t bytes[CVR_MOST_INFORMATION];
    size_t length;
} payload;

static const cvr_service basic_connect = CVR_BASIC_CONNECT;
static const cvr_service extensions = CVR_EXTENSIONS;

static line host = {.name = "modem", .in = 0, .out = 1, .size = CVR_MOST_TRANSFER};
static uint16_t native = CVR_VERSION_2_00, advertised = CVR_VERSION_1_00;
static int lists_version = 1, pin_enabled = 0;
static size_t largest = CVR_MOST_TRANSFER; /* fragment */
static uint8_t modem[CVR_MODEM_SIZE], pins[CVR_PINS_SIZE];
static payload services;
static int is_open;           /* the library's end has no such stage */
static uint16_t said_version; /* the settled version that was said last */
static uint32_t drift;

/* What must hold, or the model can't be. */
static void need(cvr_refusal refusal, const char *what)
{
    if (refusal.number != CVR_NO_REFUSAL) {
        line_refused(&host, what, refusal);
        exit(1);
    }
}

static void keep(payload *out, cvr_written written)
{
    need(written.refusal, "a payload to write");
    out->length = written.length;
}

/* ---- the payloads that it serves */

static void add_service(cvr_service_list *list, cvr_service service, const uint32_t *cids,
                        uint32_t count)
{
    cvr_service_element *element = &list->elements[list->device_services_count++];
    element->fields.device_service_id = service;
    element->fields.cid_count = count;
    memcpy(element->cids, cids, count * sizeof cids[0]);
}

static void write_services(payload *out)
{
    static const uint32_t basic_cids[] = {CVR_CID_PIN, CVR_CID_REGISTER_STATE, CVR_CID_PACKET_SERVICE,
                                          CVR_CID_SIGNAL_STATE, CVR_CID_DEVICE_SERVICES};
    static const uint32_t extension_cids[] = {CVR_CID_VERSION};
    static cvr_service_list list;
    add_service(&list, basic_connect, basic_cids, 5);
    if (lists_version)
        add_service(&list, extensions, extension_cids, 1);
    keep(out, cvr_device_services_write(list, out->bytes, sizeof out->bytes));
}

/* ASCII as UTF-16LE; gives the number of bytes. */
static size_t widen(const char *text, uint8_t *out)
{
    size_t i, length = strlen(text);
    for (i = 0; i < length; i++) {
        out[2 * i] = (uint8_t)text[i];
        out[2 * i + 1] = 0;
    }
    return 2 * length;
}

static void write_registration(uint16_t version, payload *out)
{
    uint8_t id[CVR_MOST_PROVIDER_ID], name[CVR_MOST_PROVIDER_NAME];
    size_t id_length = widen("00101", id), name_length = widen("Harbour Mobile", name);
    cvr_registration info = {0};
    info.version = version;
    info.register_state = CVR_REGISTER_STATE_HOME;
    info.register_mode = CVR_REGISTER_MODE_AUTOMATIC;
    info.available_data_class = CVR_DATA_CLASS_LTE;
    if (version == CVR_VERSION_2_00)
        info.available_data_class |= CVR_DATA_CLASS_5G_NSA;
    info.cellular_class = CVR_CELLULAR_CLASS_GSM;
    info.preferred_data_class = CVR_DATA_CLASS_5G_NSA;
    keep(out, cvr_registration_write(info, id, id_length, name, name_length, NULL, 0, out->bytes,
                                     sizeof out->bytes));
}

static void write_packet_service(uint16_t version, payload *out)
{
    cvr_packet_service info = {0};
    info.version = version;
    info.packet_service_state = CVR_PACKET_SERVICE_STATE_ATTACHED;
    info.highest_available_data_class = CVR_DATA_CLASS_LTE;
    info.current_data_class = CVR_DATA_CLASS_5G_NSA;
    info.frequency_range = CVR_FREQUENCY_RANGE_1;
    info.uplink_speed = 50000000;
    info.downlink_speed = 150000000;
    keep(out, cvr_packet_service_write(info, out->bytes, sizeof out->bytes));
}

static void write_signal(uint16_t version, payload *out)
{
    cvr_signal_state info = {0};
    drift++;
    info.version = version;
    info.rssi = version == CVR_VERSION_1_00 ? drift % 32 : CVR_RSSI_UNKNOWN;
    info.error_rate = CVR_ERROR_RATE_UNKNOWN;
    info.signal_strength_interval = 30;
    info.count = 2;
    info.entries[0].rsrp = drift % CVR_RSRP_UNKNOWN;
    info.entries[0].snr = drift % CVR_SNR_UNKNOWN;
    info.entries[0].system_type = CVR_DATA_CLASS_LTE;
    info.entries[1].rsrp = 90;
    info.entries[1].snr = CVR_SNR_UNKNOWN;
    info.entries[1].system_type = CVR_DATA_CLASS_5G_NSA;
    keep(out, cvr_signal_state_write(info, out->bytes, sizeof out->bytes));
}

/* ---- PINs */

static void add_pin(cvr_pins *made, uint32_t pin_type, const char *secret, uint32_t tries)
{
    cvr_pin *row = &made->rows[pin_type - 1];
    row->present = 1;
    row->enabled = (uint32_t)pin_enabled;
    row->starting_tries = tries;
    row->secret_length = (uint32_t)widen(secret, row->secret);
}

static void make_pins(void)
{
    cvr_pins made;
    memset(&made, 0, sizeof made);
    add_pin(&made, CVR_PIN_TYPE_PIN1, PIN_SECRET, PIN_TRIES);
    add_pin(&made, CVR_PIN_TYPE_PUK1, PUK_SECRET, PUK_TRIES);
    need(cvr_pin_make(pins, sizeof pins, made), "the table of PINs");
}

/* Which PIN or PUK is awaited, and its tries: all 0 where none is, or none is of use. */
static void write_pin_info(payload *out)
{
    const uint8_t *pin = pins + CVR_AT_PINS_ROW(CVR_PIN_TYPE_PIN1);
    const uint8_t *puk = pins + CVR_AT_PINS_ROW(CVR_PIN_TYPE_PUK1);
    uint32_t tries = line_number(pin + CVR_AT_ROW_TRIES), puk_tries = line_number(puk + CVR_AT_ROW_TRIES);
    cvr_pin_info info = {CVR_PIN_TYPE_NONE, CVR_PIN_STATE_UNLOCKED, 0};
    if (pin[CVR_AT_ROW_ENABLED] && !pin[CVR_AT_ROW_ENTERED] && (tries > 0 || puk_tries > 0)) {
        info.pin_type = tries > 0 ? CVR_PIN_TYPE_PIN1 : CVR_PIN_TYPE_PUK1;
        info.pin_state = CVR_PIN_STATE_LOCKED;
        info.remaining_attempts = tries > 0 ? tries : puk_tries;
    }
    keep(out, cvr_pin_info_write(info, out->bytes, sizeof out->bytes));
}

/* ---- commands */

static void reply(cvr_message_header command, uint32_t status, const payload *information)
{
    command.message_type = CVR_MESSAGE_COMMAND_DONE;
    command.word = status;
    line_send(&host, command, information->bytes, information->length);
}

/* A set of anything but the services list is not what a model of states supports; PIN entries don't come
 * here. */
static uint32_t serve(cvr_message_header command, cvr_modem_answer answer, payload *out)
{
    if (answer.kind == CVR_KIND_DEVICE_SERVICES)
        *out = services;
    else if (command.word == CVR_SET)
        return CVR_STATUS_NO_DEVICE_SUPPORT;
    else if (answer.kind == CVR_KIND_REGISTER_STATE)
        write_registration(answer.version, out);
    else if (answer.kind == CVR_KIND_PACKET_SERVICE)
        write_packet_service(answer.version, out);
    else if (answer.kind == CVR_KIND_PIN_INFO)
        write_pin_info(out);
    else
        write_signal(answer.version, out);
    return CVR_STATUS_SUCCESS;
}

static void say_settled(uint16_t version)
{
    if (version != 0 && version != said_version)
        fprintf(stderr, "modem: settled at %s\n", line_version_text(version));
    said_version = version;
}

static void take_command(cvr_message_header command, size_t length)
{
    payload out;
    cvr_modem_answer answer = cvr_pin_receive(modem, sizeof modem, pins, sizeof pins, command,
                                              host.information, length, out.bytes, sizeof out.bytes);
    if (answer.refusal.number != CVR_NO_REFUSAL) {
        line_refused(&host, "a message", answer.refusal);
        return;
    }
    say_settled(answer.version);
    out.length = answer.length;
    if (answer.action == CVR_ACTION_SERVE)
        answer.status = serve(command, answer, &out);
    reply(command, answer.status, &out);
}

/* ---- whole messages */

static void take_open(cvr_message_header open)
{
    need(cvr_assembly_empty(host.assembly, sizeof host.assembly), "the assembly");
    need(cvr_modem_open(modem, sizeof modem), "the modem");
    say_settled(0);
    is_open = open.word >= CVR_LEAST_TRANSFER;
    host.size = open.word < largest ? open.word : largest;
    line_send_whole(&host, CVR_MESSAGE_OPEN_DONE, open.transaction,
                    is_open ? CVR_STATUS_SUCCESS : CVR_STATUS_FAILURE);
}

static void take_close(cvr_message_header close)
{
    need(cvr_modem_close(modem, sizeof modem), "the modem");
    say_settled(0);
    is_open = 0;
    line_send_whole(&host, CVR_MESSAGE_CLOSE_DONE, close.transaction, CVR_STATUS_SUCCESS);
}

static void take(cvr_receive_answer got)
{
    cvr_message_header message = got.message;
    if (got.refusal.number != CVR_NO_REFUSAL || got.received == CVR_RECEIVED_PENDING)
        return;
    if (message.message_type == CVR_MESSAGE_OPEN)
        take_open(message);
    else if (message.message_type == CVR_MESSAGE_CLOSE)
        take_close(message);
    else if (got.received == CVR_RECEIVED_WHOLE)
        fprintf(stderr, "modem: a message of type %08" PRIx32 "h\n", message.message_type);
    else if (is_open)
        take_command(message, got.length);
    else
        line_send_whole(&host, CVR_MESSAGE_FUNCTION_ERROR, message.transaction, NOT_OPENED);
}

/* ---- the program */

static void usage(void)
{
    fprintf(stderr, "usage: modem [-n NATIVE] [-a ADVERTISED] [-x] [-p] [-s SIZE] [-d DRIP]\n");
    exit(2);
}

static void arguments(int argc, char **argv)
{
    int option;
    while ((option = getopt(argc, argv, "n:a:xps:d:")) != -1) {
        if (option == 'n')
            native = line_version(optarg);
        else if (option == 'a')
            advertised = line_version(optarg);
        else if (option == 'x')
            lists_version = 0;
        else if (option == 'p')
            pin_enabled = 1;
        else if (option == 's')
            largest = strtoul(optarg, NULL, 10);
        else if (option == 'd')
            host.drip = strtoul(optarg, NULL, 10);
        else
            usage();
    }
    if (optind < argc || largest < CVR_LEAST_TRANSFER || largest > CVR_MOST_TRANSFER)
        usage();
}

int main(int argc, char **argv)
{
    cvr_receive_answer got;
    arguments(argc, argv);
    write_services(&services);
    need(cvr_modem_make(modem, sizeof modem, native, advertised, services.bytes, services.length),
         "the modem");
    make_pins();
    while (line_receive(&host, LINE_FOREVER, &got) == LINE_PIECE)
        take(got);
    return 0;
}
