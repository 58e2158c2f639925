/*
 * Null with length 0, tried for every pointer of every function: each answer is the one for no bytes.
 */
#include "culvertroost.h"

#include <inttypes.h>
#include <stdio.h>
#include <string.h>

static const cvr_service basic_connect = CVR_BASIC_CONNECT;
static int failed;

static void expect(const char *what, cvr_refusal got, uint32_t number, uint64_t place)
{
    if (got.number != number || got.place != place) {
        printf("null: %s: %" PRIu32 " at %" PRIu64 ", not %" PRIu32 " at %" PRIu64 "\n", what,
               got.number, got.place, number, place);
        failed = 1;
    }
}

static void expect_equal(const char *what, uint64_t got, uint64_t expected)
{
    if (got != expected) {
        printf("null: %s: %" PRIu64 ", not %" PRIu64 "\n", what, got, expected);
        failed = 1;
    }
}

static void payloads(void)
{
    cvr_version_info info = {CVR_MBIM_1_00, CVR_VERSION_2_00};
    cvr_packet_service packet = {0};
    cvr_registration registration = {0};
    cvr_signal_state signal = {0};
    uint8_t out[CVR_REGISTRATION_LENGTH];
    cvr_written written;
    packet.version = registration.version = signal.version = CVR_VERSION_2_00;
    expect("version read", cvr_version_info_read(NULL, 0).refusal, CVR_TOO_SHORT, 0);
    expect("version write", cvr_version_info_write(info, NULL, 0).refusal, CVR_OUTPUT_TOO_SMALL, 4);
    expect("packet read", cvr_packet_service_read(CVR_VERSION_2_00, NULL, 0).refusal, CVR_TOO_SHORT, 0);
    expect("packet write", cvr_packet_service_write(packet, NULL, 0).refusal, CVR_OUTPUT_TOO_SMALL, 32);
    expect("registration read", cvr_registration_read(CVR_VERSION_2_00, NULL, 0).refusal, CVR_TOO_SHORT,
           0);
    written = cvr_registration_write(registration, NULL, 0, NULL, 0, NULL, 0, out, sizeof out);
    expect("registration write", written.refusal, CVR_NO_REFUSAL, 0);
    expect_equal("registration write", written.length, 52);
    written = cvr_registration_write(registration, NULL, 0, NULL, 0, NULL, 0, NULL, 0);
    expect("registration write", written.refusal, CVR_OUTPUT_TOO_SMALL, 52);
    expect("signal read", cvr_signal_state_read(CVR_VERSION_2_00, NULL, 0).refusal, CVR_TOO_SHORT, 0);
    expect("signal write", cvr_signal_state_write(signal, NULL, 0).refusal, CVR_OUTPUT_TOO_SMALL, 28);
}

/* A list of one service without CIDs; gives its length. */
static size_t one_service(uint8_t *out, size_t room)
{
    static cvr_service_list list;
    cvr_written written;
    list.device_services_count = 1;
    list.elements[0].fields.device_service_id = basic_connect;
    expect("services write", cvr_device_services_write(list, NULL, 0).refusal, CVR_OUTPUT_TOO_SMALL, 44);
    written = cvr_device_services_write(list, out, room);
    expect("services write", written.refusal, CVR_NO_REFUSAL, 0);
    return written.length;
}

static void services(void)
{
    uint8_t list[64];
    size_t length = one_service(list, sizeof list);
    cvr_service id = cvr_service_id(NULL, 0);
    expect_equal("service id", id.word0 | id.word1 | id.word2 | id.word3, 0);
    expect("services read", cvr_device_services_read(NULL, 0).refusal, CVR_TOO_SHORT, 0);
    expect("services element", cvr_device_services_element(NULL, 0, 0, NULL, 0).refusal, CVR_TOO_SHORT,
           0);
    expect("services CIDs", cvr_device_services_cids(NULL, 0, basic_connect, NULL, 0).refusal,
           CVR_TOO_SHORT, 0);
    expect("services all", cvr_device_services_all(NULL, 0, NULL, 0, NULL, 0).refusal, CVR_TOO_SHORT, 0);
    expect("services write all", cvr_device_services_write_all(0, NULL, 0, NULL, 0, NULL, 0).refusal,
           CVR_OUTPUT_TOO_SMALL, 8);
    expect("services listed", cvr_device_services_listed(NULL, 0, basic_connect, 9).refusal,
           CVR_TOO_SHORT, 0);
    expect("services ask", cvr_device_services_ask(NULL, 0, basic_connect, 9).refusal, CVR_TOO_SHORT, 0);
    expect_equal("services element", cvr_device_services_element(list, length, 0, NULL, 0).listed, 1);
    expect_equal("services CIDs", cvr_device_services_cids(list, length, basic_connect, NULL, 0).listed,
                 1);
}

static void pin_payloads(void)
{
    cvr_set_pin entry = {CVR_PIN_TYPE_PIN1, CVR_PIN_OPERATION_ENTER};
    cvr_pin_info info = {CVR_PIN_TYPE_PIN1, CVR_PIN_STATE_LOCKED, 3};
    uint8_t out[CVR_SET_PIN_LENGTH];
    cvr_written written = cvr_set_pin_write(entry, NULL, 0, NULL, 0, out, sizeof out);
    expect("SET_PIN read", cvr_set_pin_read(NULL, 0).refusal, CVR_TOO_SHORT, 0);
    expect("SET_PIN write", written.refusal, CVR_NO_REFUSAL, 0);
    expect_equal("SET_PIN write", written.length, 24);
    written = cvr_set_pin_write(entry, NULL, 0, NULL, 0, NULL, 0);
    expect("SET_PIN write", written.refusal, CVR_OUTPUT_TOO_SMALL, 24);
    expect("PIN_INFO read", cvr_pin_info_read(NULL, 0).refusal, CVR_TOO_SHORT, 0);
    expect("PIN_INFO write", cvr_pin_info_write(info, NULL, 0).refusal, CVR_OUTPUT_TOO_SMALL, 12);
}

/* The readers by a choice. */
static void choices(uint32_t choice)
{
    uint8_t list[64];
    size_t length = one_service(list, sizeof list);
    expect("registration read", cvr_registration_read_with(CVR_VERSION_2_00, choice, NULL, 0).refusal,
           CVR_TOO_SHORT, 0);
    expect("signal read", cvr_signal_state_read_with(CVR_VERSION_2_00, choice, NULL, 0).refusal,
           CVR_TOO_SHORT, 0);
    expect("SET_PIN read", cvr_set_pin_read_with(choice, NULL, 0).refusal, CVR_TOO_SHORT, 0);
    expect("services read", cvr_device_services_read_with(choice, NULL, 0).refusal, CVR_TOO_SHORT, 0);
    expect("services element", cvr_device_services_element_with(choice, NULL, 0, 0, NULL, 0).refusal,
           CVR_TOO_SHORT, 0);
    expect("services CIDs", cvr_device_services_cids_with(choice, NULL, 0, basic_connect, NULL, 0).refusal,
           CVR_TOO_SHORT, 0);
    expect("services all", cvr_device_services_all_with(choice, NULL, 0, NULL, 0, NULL, 0).refusal,
           CVR_TOO_SHORT, 0);
    expect("services listed", cvr_device_services_listed_with(choice, NULL, 0, basic_connect, 9).refusal,
           CVR_TOO_SHORT, 0);
    expect("services ask", cvr_device_services_ask_with(choice, NULL, 0, basic_connect, 9).refusal,
           CVR_TOO_SHORT, 0);
    expect_equal("services element",
                 cvr_device_services_element_with(choice, list, length, 0, NULL, 0).listed, 1);
    expect_equal("services CIDs",
                 cvr_device_services_cids_with(choice, list, length, basic_connect, NULL, 0).listed, 1);
}

static void messages(cvr_message_header query)
{
    uint8_t memory[CVR_ASSEMBLY_SIZE] = {0}, out[CVR_LEAST_TRANSFER];
    cvr_cut_answer cut = cvr_message_cut(query, 64, NULL, 0, out, sizeof out);
    expect("judge", cvr_message_judge(NULL, 0).refusal, CVR_TOO_SHORT, 0);
    expect("message write", cvr_message_write(CVR_MESSAGE_OPEN, 1, 64, NULL, 0).refusal,
           CVR_OUTPUT_TOO_SMALL, 16);
    expect("cut", cvr_message_cut(query, 64, NULL, 0, NULL, 0).refusal, CVR_OUTPUT_TOO_SMALL, 48);
    expect("cut", cut.refusal, CVR_NO_REFUSAL, 0);
    expect_equal("cut", cut.length, 48);
    expect("empty", cvr_assembly_empty(NULL, 0), CVR_OUTPUT_TOO_SMALL, CVR_ASSEMBLY_SIZE);
    expect("receive", cvr_receive(NULL, 0, NULL, 0, NULL, 0).refusal, CVR_OUTPUT_TOO_SMALL,
           CVR_ASSEMBLY_SIZE);
    expect("receive", cvr_receive(memory, sizeof memory, NULL, 0, NULL, 0).refusal, CVR_TOO_SHORT, 0);
    expect_equal("receive", cvr_receive(memory, sizeof memory, out, 48, NULL, 0).received,
                 CVR_RECEIVED_COMPLETE);
}

static void streams(void)
{
    static uint8_t stream[CVR_STREAM_SIZE], memory[CVR_ASSEMBLY_SIZE], out[CVR_MOST_INFORMATION];
    cvr_stream_answer answer = cvr_stream_feed(NULL, 0, NULL, 0, NULL, 0, NULL, 0);
    expect("stream feed", answer.piece.refusal, CVR_OUTPUT_TOO_SMALL, CVR_MOST_INFORMATION);
    answer = cvr_stream_feed(NULL, 0, NULL, 0, NULL, 0, out, sizeof out);
    expect("stream feed", answer.piece.refusal, CVR_OUTPUT_TOO_SMALL, CVR_STREAM_SIZE);
    answer = cvr_stream_feed(stream, sizeof stream, NULL, 0, NULL, 0, out, sizeof out);
    expect("stream feed", answer.piece.refusal, CVR_OUTPUT_TOO_SMALL, CVR_ASSEMBLY_SIZE);
    answer = cvr_stream_feed(stream, sizeof stream, memory, sizeof memory, NULL, 0, out, sizeof out);
    expect("stream feed", answer.piece.refusal, CVR_NO_REFUSAL, 0);
    expect_equal("stream feed", answer.piece.received + answer.taken + answer.ended, 0);
    stream[CVR_AT_STREAM_ENDED] = 1;
    answer = cvr_stream_feed(stream, sizeof stream, memory, sizeof memory, NULL, 0, out, sizeof out);
    expect("stream feed", answer.piece.refusal, CVR_WRONG_LENGTH, CVR_AT_MESSAGE_LENGTH);
    expect_equal("stream feed", answer.ended, 1);
    expect("stream reset", cvr_stream_reset(NULL, 0, NULL, 0), CVR_OUTPUT_TOO_SMALL, CVR_STREAM_SIZE);
    expect("stream reset", cvr_stream_reset(stream, sizeof stream, NULL, 0), CVR_OUTPUT_TOO_SMALL,
           CVR_ASSEMBLY_SIZE);
    expect_equal("stream reset", stream[CVR_AT_STREAM_ENDED], 1);
}

static void host_end(cvr_message_header message)
{
    uint8_t host[CVR_HOST_SIZE];
    message.message_type = CVR_MESSAGE_COMMAND_DONE;
    expect("host make", cvr_host_make(NULL, 0, CVR_VERSION_2_00), CVR_OUTPUT_TOO_SMALL, 6);
    expect("host open", cvr_host_open(NULL, 0, CVR_VERSION_1_00).refusal, CVR_OUTPUT_TOO_SMALL, 6);
    expect("host close", cvr_host_close(NULL, 0).refusal, CVR_OUTPUT_TOO_SMALL, 6);
    expect("next", cvr_host_next_command(NULL, 0, NULL, 0).refusal, CVR_OUTPUT_TOO_SMALL, 6);
    expect("host receive", cvr_host_receive(NULL, 0, message, NULL, 0).refusal, CVR_OUTPUT_TOO_SMALL, 6);
    expect("host make", cvr_host_make(host, sizeof host, CVR_VERSION_2_00), CVR_NO_REFUSAL, 0);
    cvr_host_open(host, sizeof host, CVR_VERSION_1_00);
    expect_equal("next", cvr_host_next_command(host, sizeof host, NULL, 0).command,
                 CVR_COMMAND_DEVICE_SERVICES);
    expect("host receive", cvr_host_receive(host, sizeof host, message, NULL, 0).refusal, CVR_TOO_SHORT,
           0);
}

static void modem_end(cvr_message_header message)
{
    uint8_t modem[CVR_MODEM_SIZE], list[64];
    size_t length = one_service(list, sizeof list);
    uint16_t native = CVR_VERSION_2_00, advertised = CVR_VERSION_1_00;
    expect("modem make", cvr_modem_make(NULL, 0, native, advertised, list, length),
           CVR_OUTPUT_TOO_SMALL, 10);
    expect("modem make", cvr_modem_make(modem, sizeof modem, native, advertised, NULL, 0),
           CVR_TOO_SHORT, 0);
    expect("modem open", cvr_modem_open(NULL, 0), CVR_OUTPUT_TOO_SMALL, 10);
    expect("modem close", cvr_modem_close(NULL, 0), CVR_OUTPUT_TOO_SMALL, 10);
    expect("modem receive", cvr_modem_receive(NULL, 0, message, NULL, 0, NULL, 0).refusal,
           CVR_OUTPUT_TOO_SMALL, 10);
    expect("modem make", cvr_modem_make(modem, sizeof modem, native, advertised, list, length),
           CVR_NO_REFUSAL, 0);
    expect_equal("modem receive", cvr_modem_receive(modem, sizeof modem, message, NULL, 0, NULL, 0).action,
                 CVR_ACTION_SERVE);
}

/* A modem with a table, of which a command other than an entry has no need. */
static void pins_end(cvr_message_header message)
{
    static cvr_pins none;
    uint8_t modem[CVR_MODEM_SIZE], pins[CVR_PINS_SIZE], list[64];
    size_t length = one_service(list, sizeof list);
    cvr_modem_answer answer;
    expect("PIN make", cvr_pin_make(NULL, 0, none), CVR_OUTPUT_TOO_SMALL, CVR_PINS_SIZE);
    expect("PIN make", cvr_pin_make(pins, sizeof pins, none), CVR_NO_REFUSAL, 0);
    expect("PIN enter", cvr_pin_enter(NULL, 0, NULL, 0).refusal, CVR_OUTPUT_TOO_SMALL, CVR_PINS_SIZE);
    expect("PIN enter", cvr_pin_enter(pins, sizeof pins, NULL, 0).refusal, CVR_TOO_SHORT, 0);
    cvr_modem_make(modem, sizeof modem, CVR_VERSION_1_00, CVR_VERSION_1_00, list, length);
    answer = cvr_pin_receive(NULL, 0, NULL, 0, message, NULL, 0, NULL, 0);
    expect("PIN receive", answer.refusal, CVR_OUTPUT_TOO_SMALL, CVR_MODEM_SIZE);
    answer = cvr_pin_receive(modem, sizeof modem, NULL, 0, message, NULL, 0, NULL, 0);
    expect_equal("PIN receive", answer.action, CVR_ACTION_SERVE);
    message.cid = CVR_CID_PIN;
    message.word = CVR_SET;
    answer = cvr_pin_receive(modem, sizeof modem, NULL, 0, message, NULL, 0, NULL, 0);
    expect("PIN receive", answer.refusal, CVR_OUTPUT_TOO_SMALL, CVR_PINS_SIZE);
    answer = cvr_pin_receive(modem, sizeof modem, pins, sizeof pins, message, NULL, 0, NULL, 0);
    expect_equal("PIN receive", answer.action, CVR_ACTION_FAILED);
}

int main(void)
{
    cvr_message_header query = {CVR_MESSAGE_COMMAND, 1, CVR_BASIC_CONNECT, CVR_CID_DEVICE_SERVICES,
                                CVR_QUERY};
    payloads();
    pin_payloads();
    services();
    choices(CVR_ZERO_SIZE_ABSENT);
    choices(CVR_ZERO_SIZE_STRICT);
    messages(query);
    streams();
    host_end(query);
    modem_end(query);
    pins_end(query);
    return failed;
}
