/*
 * A host against a modem, both in memory: the version handshake, a registration query and a signal
 * indication. Every message is cut into fragments by one end and put together by the other.
 */
#include "culvertroost.h"

#include <inttypes.h>
#include <stdio.h>
#include <stdlib.h>
#include <string.h>

#define TRANSFER_SIZE 64

/* What an end keeps to receive messages. */
typedef struct receiver {
    const char *name;
    uint8_t assembly[CVR_ASSEMBLY_SIZE];
} receiver;

/* A message that came together. */
typedef struct message {
    cvr_message_header header;
    uint8_t bytes[CVR_MOST_INFORMATION];
    size_t length;
} message;

/* A payload to be sent. */
typedef struct payload {
    uint8_t bytes[CVR_MOST_INFORMATION];
    size_t length;
} payload;

static const cvr_service basic_connect = CVR_BASIC_CONNECT;
static const cvr_service extensions = CVR_EXTENSIONS;

static uint8_t host[CVR_HOST_SIZE];
static uint8_t modem[CVR_MODEM_SIZE];
static receiver host_side = {"host", {0}};
static receiver modem_side = {"modem", {0}};
static payload services;
static uint32_t transaction = 0;

/* ---- names */

static const char *kind_name(uint32_t kind)
{
    static const char *const names[] = {
        "no payload", "registration", "packet service", "signal state", "device services", "VERSION",
        "PIN entry", "PIN info",
    };
    return kind < sizeof names / sizeof names[0] ? names[kind] : "?";
}

static const char *type_name(uint32_t message_type)
{
    switch (message_type) {
    case CVR_MESSAGE_COMMAND:
        return "COMMAND";
    case CVR_MESSAGE_COMMAND_DONE:
        return "COMMAND_DONE";
    case CVR_MESSAGE_INDICATE_STATUS:
        return "INDICATE_STATUS";
    default:
        return "?";
    }
}

/* ---- what must hold for the play to go on */

static void need(cvr_refusal refusal, const char *what)
{
    if (refusal.number != CVR_NO_REFUSAL) {
        printf("%s: refused, %s at %" PRIu64 "\n", what, cvr_refusal_name(refusal.number),
               refusal.place);
        exit(1);
    }
}

static void need_equal(uint32_t value, uint32_t expected, const char *what)
{
    if (value != expected) {
        printf("%s: %u, not %u\n", what, (unsigned)value, (unsigned)expected);
        exit(1);
    }
}

static void print_version(const char *text, uint16_t version)
{
    printf("%s %x.%02x\n", text, (unsigned)version >> 8, (unsigned)version & 0xff);
}

/* ---- messages on their way */

static size_t fragment_length(const uint8_t *fragment)
{
    size_t low = fragment[4] | (size_t)fragment[5] << 8;
    return low | (size_t)fragment[6] << 16 | (size_t)fragment[7] << 24;
}

/* Takes fragments that lie one after another; the last one completes the message. */
static void receive(receiver *to, const uint8_t *fragments, size_t length, message *got)
{
    size_t at = 0;
    while (at < length) {
        size_t size = fragment_length(fragments + at);
        cvr_receive_answer taken = cvr_receive(to->assembly, sizeof to->assembly, fragments + at, size,
                                               got->bytes, sizeof got->bytes);
        need(taken.refusal, "receive");
        at += size;
        need_equal(taken.received, at < length ? CVR_RECEIVED_PENDING : CVR_RECEIVED_COMPLETE,
                   "received");
        got->header = taken.message;
        got->length = taken.length;
    }
}

/* Cuts a message at one end and puts it together at the other. */
static void carry(cvr_message_header header, const payload *sent, receiver *to, message *got)
{
    static uint8_t fragments[CVR_MOST_CUT];
    cvr_cut_answer cut = cvr_message_cut(header, TRANSFER_SIZE, sent->bytes, sent->length, fragments,
                                         sizeof fragments);
    need(cut.refusal, "cut");
    printf("line: %s, fragments: %u, bytes: %" PRIu64 "\n", type_name(header.message_type),
           (unsigned)cut.count, cut.length);
    receive(to, fragments, cut.length, got);
    printf("%s: got %s, transaction %u, CID %u, %zu bytes of information\n", to->name,
           type_name(got->header.message_type), (unsigned)got->header.transaction,
           (unsigned)got->header.cid, got->length);
}

/* What a message shows must be this. */
static void need_kind(const message *got, uint32_t kind)
{
    cvr_kind_answer shown = cvr_payload_kind(got->header);
    need(shown.refusal, "payload kind");
    need_equal(shown.kind, kind, "payload kind");
    printf("host: it shows %s\n", kind_name(shown.kind));
}

/* A query from the host. */
static void send_query(cvr_service service, uint32_t cid, const payload *sent, message *got)
{
    cvr_message_header header = {CVR_MESSAGE_COMMAND, 0, {0, 0, 0, 0}, cid, CVR_QUERY};
    transaction = cvr_transaction_next(transaction);
    header.transaction = transaction;
    header.service = service;
    carry(header, sent, &modem_side, got);
}

/* The modem takes a command that it got: this is what it is to do. */
static cvr_modem_answer take_command(const message *command, uint32_t action, payload *reply)
{
    cvr_modem_answer answer = cvr_modem_receive(modem, sizeof modem, command->header, command->bytes,
                                                command->length, reply->bytes, sizeof reply->bytes);
    need(answer.refusal, "modem receive");
    need_equal(answer.action, action, "modem action");
    if (action == CVR_ACTION_SERVE)
        printf("modem: serves %s\n", kind_name(answer.kind));
    reply->length = answer.length;
    return answer;
}

/* A reply from the modem to a command that it got; the host takes it. */
static cvr_host_answer send_reply(const message *command, const payload *sent, uint32_t kind,
                                  message *got)
{
    cvr_message_header header = command->header;
    cvr_host_answer answer;
    header.message_type = CVR_MESSAGE_COMMAND_DONE;
    header.word = CVR_STATUS_SUCCESS;
    carry(header, sent, &host_side, got);
    need_kind(got, kind);
    answer = cvr_host_receive(host, sizeof host, got->header, got->bytes, got->length);
    need(answer.refusal, "host receive");
    return answer;
}

/* The host's next command, which must be this one. */
static cvr_ask_answer next_command(uint32_t command, payload *query)
{
    cvr_ask_answer ask = cvr_host_next_command(host, sizeof host, query->bytes, sizeof query->bytes);
    need(ask.refusal, "next command");
    need_equal(ask.command, command, "next command");
    query->length = ask.length;
    return ask;
}

/* ---- the modem's list of services */

static void add_service(cvr_service_list *list, cvr_service service, const uint32_t *cids,
                        uint32_t count)
{
    cvr_service_element *element = &list->elements[list->device_services_count];
    element->fields.device_service_id = service;
    element->fields.cid_count = count;
    memcpy(element->cids, cids, count * sizeof cids[0]);
    list->device_services_count++;
}

static void write_services(payload *out)
{
    static const uint32_t basic_cids[] = {CVR_CID_PIN, CVR_CID_REGISTER_STATE, CVR_CID_PACKET_SERVICE,
                                          CVR_CID_SIGNAL_STATE, CVR_CID_DEVICE_SERVICES};
    static const uint32_t extension_cids[] = {CVR_CID_VERSION};
    static cvr_service_list list;
    cvr_written written;
    add_service(&list, basic_connect, basic_cids, 5);
    add_service(&list, extensions, extension_cids, 1);
    written = cvr_device_services_write(list, out->bytes, sizeof out->bytes);
    need(written.refusal, "services write");
    out->length = written.length;
}

/* ---- both ends are made and opened */

static void open_ends(void)
{
    cvr_host_answer opened;
    need(cvr_assembly_empty(host_side.assembly, sizeof host_side.assembly), "host assembly");
    need(cvr_assembly_empty(modem_side.assembly, sizeof modem_side.assembly), "modem assembly");
    write_services(&services);
    need(cvr_modem_make(modem, sizeof modem, CVR_VERSION_2_00, CVR_VERSION_1_00, services.bytes,
                        services.length), "modem make");
    need(cvr_modem_open(modem, sizeof modem), "modem open");
    printf("modem: native 2.00, advertises 1.00, lists VERSION\n");
    need(cvr_host_make(host, sizeof host, CVR_VERSION_2_00), "host make");
    opened = cvr_host_open(host, sizeof host, CVR_VERSION_1_00);
    need(opened.refusal, "host open");
    need_equal(opened.event, CVR_EVENT_OPENED, "host open");
    printf("host: native 2.00, opened\n");
}

/* ---- DEVICE_SERVICES */

static void print_services(const message *reply)
{
    uint32_t cids[CVR_MOST_CIDS];
    uint32_t i;
    cvr_device_services_answer list = cvr_device_services_read(reply->bytes, reply->length);
    cvr_element_answer found = cvr_device_services_cids(reply->bytes, reply->length, basic_connect,
                                                        cids, CVR_MOST_CIDS);
    cvr_position_answer version = cvr_device_services_ask(reply->bytes, reply->length, extensions,
                                                          CVR_CID_VERSION);
    need(list.refusal, "services read");
    need(found.refusal, "services CIDs");
    need(version.refusal, "services ask");
    need_equal(found.listed, 1, "Basic Connect listed");
    printf("host: %u services; CIDs of Basic Connect:", (unsigned)list.info.device_services_count);
    for (i = 0; i < found.element.cid_count; i++)
        printf(" %u", (unsigned)cids[i]);
    printf("; VERSION %s\n", version.listed ? "listed" : "not listed");
}

static void ask_services(void)
{
    static payload query, reply;
    static message command, done;
    cvr_host_answer event;
    next_command(CVR_COMMAND_DEVICE_SERVICES, &query);
    printf("host: asks for DEVICE_SERVICES\n");
    send_query(basic_connect, CVR_CID_DEVICE_SERVICES, &query, &command);
    take_command(&command, CVR_ACTION_SERVE, &reply);
    printf("modem: wrote a list of %u services, %zu bytes\n",
           (unsigned)services.bytes[CVR_AT_DEVICE_SERVICES_COUNT], services.length);
    event = send_reply(&command, &services, CVR_KIND_DEVICE_SERVICES, &done);
    print_services(&done);
    need_equal(event.event, CVR_EVENT_ASKS_VERSION, "services reply");
}

/* ---- VERSION */

static void ask_version(void)
{
    static payload query, reply;
    static message command, done;
    cvr_version_info_answer info;
    cvr_modem_answer answer;
    cvr_host_answer event;
    next_command(CVR_COMMAND_VERSION, &query);
    printf("host: asks for VERSION\n");
    send_query(extensions, CVR_CID_VERSION, &query, &command);
    info = cvr_version_info_read(command.bytes, command.length);
    need(info.refusal, "version read");
    print_version("modem: the host is at", info.info.bcd_mbim_extended_version);
    answer = take_command(&command, CVR_ACTION_VERSION, &reply);
    print_version("modem: answers and settles at", answer.version);
    event = send_reply(&command, &reply, CVR_KIND_VERSION, &done);
    need_equal(event.event, CVR_EVENT_SETTLED, "version reply");
    print_version("host: settles at", event.version);
}

/* ---- a registration query */

/* ASCII as UTF-16LE; gives the number of bytes. */
static size_t widen(const char *text, uint8_t *out)
{
    size_t i, length = strlen(text);
    for (i = 0; i < length; i++) {
        out[2 * i] = (uint8_t)text[i];
        out[2 * i + 1] = 0;
    }
    return 2 * length;
}

static void print_text(const char *label, const message *reply, cvr_range text)
{
    uint32_t i;
    printf("host: %s \"", label);
    for (i = 0; i < text.length; i += 2)
        putchar(reply->bytes[text.start + i]);
    printf("\"\n");
}

static void write_registration(payload *out)
{
    uint8_t id[CVR_MOST_PROVIDER_ID], name[CVR_MOST_PROVIDER_NAME];
    size_t id_length = widen("00101", id), name_length = widen("Harbour Mobile", name);
    cvr_registration info;
    cvr_written written;
    memset(&info, 0, sizeof info);
    info.version = CVR_VERSION_2_00;
    info.register_state = CVR_REGISTER_STATE_HOME;
    info.register_mode = CVR_REGISTER_MODE_AUTOMATIC;
    info.available_data_class = CVR_DATA_CLASS_LTE | CVR_DATA_CLASS_5G_NSA;
    info.cellular_class = CVR_CELLULAR_CLASS_GSM;
    info.preferred_data_class = CVR_DATA_CLASS_5G_NSA;
    written = cvr_registration_write(info, id, id_length, name, name_length, id, 0, out->bytes,
                                     sizeof out->bytes);
    need(written.refusal, "registration write");
    out->length = written.length;
    printf("modem: wrote a registration, %" PRIu64 " bytes\n", written.length);
}

static void ask_registration(void)
{
    static payload query, reply;
    static message command, done;
    cvr_registration_answer read;
    cvr_ask_answer ask = next_command(CVR_COMMAND_FREE, &query);
    print_version("host: asks for REGISTER_STATE at", ask.version);
    send_query(basic_connect, CVR_CID_REGISTER_STATE, &query, &command);
    take_command(&command, CVR_ACTION_SERVE, &reply);
    write_registration(&reply);
    send_reply(&command, &reply, CVR_KIND_REGISTER_STATE, &done);
    read = cvr_registration_read(ask.version, done.bytes, done.length);
    need(read.refusal, "registration read");
    printf("host: state %u, available classes %02xh, preferred %02xh\n",
           (unsigned)read.info.register_state, (unsigned)read.info.available_data_class,
           (unsigned)read.info.preferred_data_class);
    print_text("provider id", &done, read.texts.provider_id);
    print_text("provider name", &done, read.texts.provider_name);
    print_text("roaming text", &done, read.texts.roaming_text);
}

/* ---- a signal indication */

static void write_signal(payload *out)
{
    static const cvr_rsrp_snr lte = {60, 87, 0, 0, CVR_DATA_CLASS_LTE};
    static const cvr_rsrp_snr nr = {0, CVR_SNR_UNKNOWN, 0, 0, CVR_DATA_CLASS_5G_NSA};
    cvr_signal_state info;
    cvr_written written;
    memset(&info, 0, sizeof info);
    info.version = CVR_VERSION_2_00;
    info.rssi = CVR_RSSI_UNKNOWN;
    info.error_rate = CVR_ERROR_RATE_UNKNOWN;
    info.signal_strength_interval = 30;
    info.count = 2;
    info.entries[0] = lte;
    info.entries[1] = nr;
    written = cvr_signal_state_write(info, out->bytes, sizeof out->bytes);
    need(written.refusal, "signal write");
    out->length = written.length;
    printf("modem: wrote a signal state, %" PRIu64 " bytes\n", written.length);
}

static void print_reading(const char *label, cvr_reading_answer reading)
{
    need(reading.refusal, label);
    printf(", %s ", label);
    if (reading.kind == CVR_READING_UNKNOWN)
        printf("unknown");
    else if (reading.kind == CVR_READING_BELOW_RANGE)
        printf("below %.1f", reading.value);
    else
        printf("%.1f %s", reading.value, reading.kind == CVR_READING_DBM ? "dBm" : "dB");
}

static void print_bars(uint32_t rssi)
{
    cvr_bars_answer bars = cvr_bars(rssi);
    need(bars.refusal, "bars");
    if (bars.reading)
        printf("host: RSSI %u, %u bars\n", (unsigned)rssi, (unsigned)bars.bars);
    else
        printf("host: RSSI %u, no reading\n", (unsigned)rssi);
}

static void print_signal(const message *indication)
{
    uint32_t i;
    cvr_signal_state_answer read = cvr_signal_state_read(CVR_VERSION_2_00, indication->bytes,
                                                         indication->length);
    need(read.refusal, "signal read");
    for (i = 0; i < read.info.count; i++) {
        const cvr_rsrp_snr *entry = &read.info.entries[i];
        printf("host: system type %02xh", (unsigned)entry->system_type);
        print_reading("RSRP", cvr_rsrp(entry->rsrp));
        print_reading("SNR", cvr_snr(entry->snr));
        printf("\n");
    }
    print_bars(read.info.rssi);
    print_bars(18);
}

/* The first bytes of a good payload alone: refused by number and place. */
static void print_refusal(const message *indication)
{
    size_t length;
    for (length = 20; length <= 30; length += 10) {
        cvr_refusal refusal =
            cvr_signal_state_read(CVR_VERSION_2_00, indication->bytes, length).refusal;
        printf("host: its first %zu bytes: refused, %u %s at %" PRIu64 "\n", length,
               (unsigned)refusal.number, cvr_refusal_name(refusal.number), refusal.place);
    }
}

static void indicate_signal(void)
{
    static payload sent;
    static message got;
    cvr_message_header header = {CVR_MESSAGE_INDICATE_STATUS, 0, CVR_BASIC_CONNECT,
                                 CVR_CID_SIGNAL_STATE, 0};
    write_signal(&sent);
    carry(header, &sent, &host_side, &got);
    need_kind(&got, CVR_KIND_SIGNAL_STATE);
    print_signal(&got);
    print_refusal(&got);
}

int main(void)
{
    open_ends();
    ask_services();
    ask_version();
    ask_registration();
    indicate_signal();
    return 0;
}
