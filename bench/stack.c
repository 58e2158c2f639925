/* How much stack the library's functions need: each is run on a painted stack of its own, and the
 * deepest byte that changed tells. The frame of its caller here, with what passes by value, counts;
 * that of an idle function, shown first, does not. */
#include "culvertroost.h"

#include <stdio.h>
#include <string.h>
#include <ucontext.h>

enum { STACK = 262144, PAINT = 0xA5 };

static uint8_t stack[STACK];
static ucontext_t here, there;

static uint8_t payload[4096], out[8192], memory[CVR_ASSEMBLY_SIZE], stream[CVR_STREAM_SIZE];
static uint8_t host[CVR_HOST_SIZE], modem[CVR_MODEM_SIZE], pins[CVR_PINS_SIZE];
static uint32_t cids[CVR_MOST_CIDS];
static size_t length;
static cvr_service_list list;
static cvr_message_header message;
static cvr_signal_state signal_state;
static cvr_registration registration;
static cvr_packet_service packet_service;
static cvr_pins all_pins;
static volatile uint32_t seen;

static void idle(void) { seen = 0; }

static void packet_service_read(void) {
    seen = cvr_packet_service_read(CVR_VERSION_2_00, payload, length).refusal.number;
}

static void packet_service_write(void) {
    seen = cvr_packet_service_write(packet_service, out, sizeof out).refusal.number;
}

static void registration_read(void) {
    seen = cvr_registration_read(CVR_VERSION_2_00, payload, length).refusal.number;
}

static void registration_write(void) {
    seen = cvr_registration_write(registration, payload, 10, payload, 40, payload, 126, out, sizeof out).refusal.number;
}

static void signal_state_read(void) {
    seen = cvr_signal_state_read(CVR_VERSION_2_00, payload, length).refusal.number;
}

static void signal_state_write(void) {
    seen = cvr_signal_state_write(signal_state, out, sizeof out).refusal.number;
}

static void device_services_cids(void) {
    cvr_service service = CVR_EXTENSIONS;
    seen = cvr_device_services_cids(payload, length, service, cids, CVR_MOST_CIDS).refusal.number;
}

static void device_services_listed(void) {
    cvr_service service = CVR_EXTENSIONS;
    seen = cvr_device_services_listed(payload, length, service, 15).refusal.number;
}

static void device_services_ask(void) {
    cvr_service service = CVR_EXTENSIONS;
    seen = cvr_device_services_ask(payload, length, service, 15).refusal.number;
}

static void device_services_write(void) {
    seen = cvr_device_services_write(list, out, sizeof out).refusal.number;
}

static void device_services_write_all(void) {
    static const uint32_t fields[CVR_ELEMENT_WORDS] = {1, 2, 3, 4, 0, 0, 1};
    static const uint32_t cid = 15;
    seen = cvr_device_services_write_all(0, fields, CVR_ELEMENT_WORDS, &cid, 1, out, sizeof out).refusal.number;
}

static void message_cut(void) {
    seen = cvr_message_cut(message, 64, payload, 4000, out, sizeof out).refusal.number;
}

static void message_write(void) {
    seen = cvr_message_write(CVR_MESSAGE_OPEN, 1, 4096, out, sizeof out).refusal.number;
}

static void receive(void) {
    seen = cvr_receive(memory, sizeof memory, out, 64, payload, sizeof payload).refusal.number;
}

/* The first fragment in two chunks, so that it is held between them. */
static void stream_feed(void) {
    cvr_stream_feed(stream, sizeof stream, memory, sizeof memory, out, 63, payload, sizeof payload);
    seen = cvr_stream_feed(stream, sizeof stream, memory, sizeof memory, out + 63, 1, payload, sizeof payload)
               .piece.refusal.number;
}

static void stream_reset(void) {
    seen = cvr_stream_reset(stream, sizeof stream, memory, sizeof memory).number;
}

static void host_receive(void) {
    seen = cvr_host_receive(host, sizeof host, message, payload, length).refusal.number;
}

static void modem_make(void) {
    seen = cvr_modem_make(modem, sizeof modem, CVR_VERSION_2_00, CVR_VERSION_1_00, payload, length).number;
}

static void modem_receive(void) {
    seen = cvr_modem_receive(modem, sizeof modem, message, payload, 4, out, sizeof out).refusal.number;
}

static void set_pin_write(void) {
    cvr_set_pin entry = {CVR_PIN_TYPE_PIN1, CVR_PIN_OPERATION_ENTER};
    seen = cvr_set_pin_write(entry, all_pins.rows[0].secret, CVR_MOST_PIN, NULL, 0, out, sizeof out).refusal.number;
}

static void set_pin_read(void) {
    seen = cvr_set_pin_read(payload, length).refusal.number;
}

static void pin_make(void) {
    seen = cvr_pin_make(pins, sizeof pins, all_pins).number;
}

static void pin_enter(void) {
    seen = cvr_pin_enter(pins, sizeof pins, payload, length).refusal.number;
}

static void pin_receive(void) {
    seen = cvr_pin_receive(modem, sizeof modem, pins, sizeof pins, message, payload, length, out, sizeof out).refusal.number;
}

/* Bytes of stack under the function, or all of it where the paint is gone. */
static size_t depth(void (*function)(void)) {
    size_t untouched = 0;
    memset(stack, PAINT, sizeof stack);
    getcontext(&there);
    there.uc_stack.ss_sp = stack;
    there.uc_stack.ss_size = sizeof stack;
    there.uc_link = &here;
    makecontext(&there, function, 0);
    swapcontext(&here, &there);
    while (untouched < STACK && stack[untouched] == PAINT) {
        untouched++;
    }
    return STACK - untouched;
}

static size_t base, deepest;

static void row(const char *name, void (*function)(void)) {
    size_t bytes = depth(function) - base;
    if (deepest < bytes) {
        deepest = bytes;
    }
    printf("%-30s %5zu%s\n", name, bytes, seen == 0 ? "" : "  (refused)");
}

/* A list of one service with one CID, as payload and as record. */
static void make_list(void) {
    cvr_service service = CVR_EXTENSIONS;
    list.device_services_count = 1;
    list.elements[0].fields.device_service_id = service;
    list.elements[0].fields.cid_count = 1;
    list.elements[0].cids[0] = 15;
    length = cvr_device_services_write(list, payload, sizeof payload).length;
}

/* A query, cut; its first fragment is received, alone and from a stream. */
static void message_rows(void) {
    cvr_service service = CVR_BASIC_CONNECT;
    message.message_type = CVR_MESSAGE_COMMAND;
    message.transaction = 1;
    message.service = service;
    row("cvr_message_cut", message_cut);
    row("cvr_receive", receive);
    row("cvr_stream_feed", stream_feed);
    row("cvr_stream_reset", stream_reset);
    row("cvr_message_write", message_write);
}

/* VERSION as a query, with its payload. */
static void make_version(void) {
    cvr_service service = CVR_EXTENSIONS;
    cvr_version_info info = {CVR_MBIM_1_00, CVR_VERSION_2_00};
    message.service = service;
    message.cid = CVR_CID_VERSION;
    cvr_version_info_write(info, payload, sizeof payload);
}

/* A table whose types are all awaited, and an entry with the wrong text. */
static void pin_rows(void) {
    cvr_service service = CVR_BASIC_CONNECT;
    size_t i;
    for (i = 0; i < CVR_PIN_TYPES; i++) {
        all_pins.rows[i].present = all_pins.rows[i].enabled = 1;
        all_pins.rows[i].starting_tries = 3;
        all_pins.rows[i].secret_length = 8;
    }
    row("cvr_set_pin_write", set_pin_write);
    length = 24 + CVR_MOST_PIN;
    memcpy(payload, out, length);
    row("cvr_set_pin_read", set_pin_read);
    row("cvr_pin_make", pin_make);
    row("cvr_pin_enter", pin_enter);
    message.service = service;
    message.cid = CVR_CID_PIN;
    message.word = CVR_SET;
    row("cvr_pin_receive", pin_receive);
}

int main(void) {
    cvr_rsrp_snr entry = {60, 50, 0, 0, 0x20};
    size_t i;
    base = depth(idle);
    packet_service.version = registration.version = signal_state.version = CVR_VERSION_2_00;
    row("cvr_packet_service_write", packet_service_write);
    length = CVR_PACKET_SERVICE_LENGTH;
    memcpy(payload, out, length);
    row("cvr_packet_service_read", packet_service_read);
    row("cvr_registration_write", registration_write);
    length = CVR_REGISTRATION_LENGTH;
    memcpy(payload, out, length);
    row("cvr_registration_read", registration_read);
    signal_state.rssi = signal_state.error_rate = 99;
    signal_state.count = CVR_MOST_ENTRIES;
    for (i = 0; i < CVR_MOST_ENTRIES; i++) {
        signal_state.entries[i] = entry;
    }
    row("cvr_signal_state_write", signal_state_write);
    length = CVR_SIGNAL_STATE_LENGTH;
    memcpy(payload, out, length);
    row("cvr_signal_state_read", signal_state_read);
    message_rows();
    make_list();
    row("cvr_device_services_cids", device_services_cids);
    row("cvr_device_services_listed", device_services_listed);
    row("cvr_device_services_ask", device_services_ask);
    row("cvr_device_services_write", device_services_write);
    row("cvr_device_services_write_all", device_services_write_all);
    cvr_host_make(host, sizeof host, CVR_VERSION_2_00);
    cvr_host_open(host, sizeof host, CVR_VERSION_1_00);
    message.message_type = CVR_MESSAGE_COMMAND_DONE;
    message.cid = CVR_CID_DEVICE_SERVICES;
    row("cvr_host_receive", host_receive);
    row("cvr_modem_make", modem_make);
    message.message_type = CVR_MESSAGE_COMMAND;
    row("cvr_modem_receive, a list", modem_receive);
    make_version();
    row("cvr_modem_receive, VERSION", modem_receive);
    pin_rows();
    printf("deepest                      %6zu\n", deepest);
    return 0;
}
