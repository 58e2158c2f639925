/*
 * Asks the library every question of the stored samples on standard input and compares its answers with
 * theirs (docs/samples.md): the same as crates/payload_samples and crates/message_samples, in C, so that
 * it runs on every board. What it writes is the same too; the exit status is 1 where a line differs.
 *
 * Every range that is lent to a call ends at a page that faults. `samples past` shows that it does: it
 * reads one byte past a range.
 */
#define _DEFAULT_SOURCE

#include "culvertroost.h"
#include "fence.h"
#include "sample_line.h"

#define UNTOUCHED 0xAA
#define MOST_ROOM 16384
#define MOST_LIST 1024
#define QUESTIONS 55

static sample now; /* the sample whose question is asked; its input with the zeros at the end */
static const uint8_t *given = now.field[INPUT];
static size_t given_length;
static uint8_t answered[MOST_LINE], shown[MOST_LINE]; /* what its last two fields should be */
static size_t answered_length, shown_length;
static int bad;              /* the question can't be asked */
static size_t written, room; /* bytes written to the lent output, and its length */
static size_t listed, list_room;
static fence input, output, list, service_input, memory, pins_memory, stream_memory, texts[3];

/* What stands from line to line. */
static uint8_t assembly[CVR_ASSEMBLY_SIZE], host[CVR_HOST_SIZE], modem[CVR_MODEM_SIZE];
static uint8_t pins[CVR_PINS_SIZE], stream[CVR_STREAM_SIZE];

/* ---- what is asked */

static uint32_t word(size_t at)
{
    return number_at(now.field[ARGUMENTS], at);
}

static uint16_t half(size_t at)
{
    return (uint16_t)word(at);
}

static uint64_t speed(size_t at)
{
    return word(at) | (uint64_t)word(at + 1) << 32;
}

static size_t least(size_t a, size_t b)
{
    return a < b ? a : b;
}

/* A number that has a limit. */
static size_t limited(size_t at, size_t most)
{
    bad |= word(at) > most;
    return bad ? 0 : word(at);
}

/* ---- what is lent */

static const uint8_t *lend_input(void)
{
    return lend(input, given, given_length);
}

/* Lends the input behind the service at its front. */
static const uint8_t *lend_information(size_t *length)
{
    size_t from = least(16, given_length);
    *length = given_length - from;
    return lend(input, given + from, *length);
}

/* The service at a place of the input. */
static cvr_service service_at(size_t place)
{
    size_t from = least(place, given_length), length = least(16, given_length - from);
    return cvr_service_id(lend(service_input, given + from, length), length);
}

/* Lends so many texts of the input, one after another, whose lengths stand at a place. */
static void lend_texts(size_t count, size_t at, const uint8_t **text, size_t *length)
{
    size_t i, from = 0;
    for (i = 0; i < count; i++) {
        length[i] = least(word(at + i), given_length - from);
        text[i] = lend(texts[i], given + from, length[i]);
        from += length[i];
    }
}

static uint8_t *lend_output(void)
{
    room = limited(1, MOST_ROOM);
    return output.end - room;
}

static uint32_t *lend_list(void)
{
    list_room = limited(1, MOST_LIST);
    return (uint32_t *)(void *)list.end - list_room;
}

/* Takes back what a call made of the memory that was lent. */
static void keep(uint8_t *state, size_t size)
{
    memcpy(state, memory.end - size, size);
}

/* Fills the whole of it, so that a store before the range that is lent is seen too. */
static void fill(fence lent)
{
    memset(lent.end - lent.room, UNTOUCHED, lent.room);
}

/* Whether nothing has changed but some bytes at the front of the range that was lent. */
static int is_untouched(fence lent, size_t length, size_t changed)
{
    const uint8_t *at, *start = lent.end - length;
    for (at = lent.end - lent.room; at < lent.end; at++)
        if (*at != UNTOUCHED && (at < start || at >= start + changed))
            return 0;
    return 1;
}

/* ---- answers */

/* The largest number stands for all that have more than 4 bytes. */
static void put(uint64_t number)
{
    int i;
    number = number > UINT32_MAX ? UINT32_MAX : number;
    for (i = 0; i < 4 && answered_length < MOST_LINE; i++)
        answered[answered_length++] = (uint8_t)(number >> 8 * i);
}

static void show(const uint8_t *from, size_t length)
{
    length = least(length, MOST_LINE - shown_length);
    memcpy(shown + shown_length, from, length);
    shown_length += length;
}

static void put_service(cvr_service id)
{
    put(id.word0);
    put(id.word1);
    put(id.word2);
    put(id.word3);
}

/* Shows what was written to the lent output. */
static void show_output(uint64_t length)
{
    written = length <= room ? (size_t)length : room;
    show(output.end - room, written);
}

/* What comes behind a refusal is 0, but for a stream's last two numbers. */
static void put_refusal(cvr_refusal refusal)
{
    put(refusal.number);
    put(refusal.place);
}

static void put_written(cvr_written answer)
{
    put_refusal(answer.refusal);
    put(answer.length);
    show_output(answer.length);
}

static const cvr_refusal none;

/* ---- 1 to 8: payloads */

static void version_read(void)
{
    cvr_version_info_answer answer = cvr_version_info_read(lend_input(), given_length);
    put_refusal(answer.refusal);
    put(answer.info.bcd_mbim_version);
    put(answer.info.bcd_mbim_extended_version);
}

static void version_write(void)
{
    cvr_version_info info = {half(2), half(3)};
    uint8_t *out = lend_output();
    put_written(cvr_version_info_write(info, out, room));
}

static void put_speed(uint64_t bits)
{
    put(bits & UINT32_MAX);
    put(bits >> 32);
}

static void packet_read(void)
{
    cvr_packet_service_answer answer = cvr_packet_service_read(half(1), lend_input(), given_length);
    put_refusal(answer.refusal);
    put(answer.info.version);
    put(answer.info.nw_error);
    put(answer.info.packet_service_state);
    put(answer.info.highest_available_data_class);
    put(answer.info.current_data_class);
    put(answer.info.frequency_range);
    put_speed(answer.info.uplink_speed);
    put_speed(answer.info.downlink_speed);
}

static void packet_write(void)
{
    cvr_packet_service info;
    uint8_t *out = lend_output();
    info.version = half(2);
    info.nw_error = word(3);
    info.packet_service_state = word(4);
    info.highest_available_data_class = word(5);
    info.current_data_class = word(6);
    info.frequency_range = word(7);
    info.uplink_speed = speed(8);
    info.downlink_speed = speed(10);
    put_written(cvr_packet_service_write(info, out, room));
}

static void put_range(cvr_range range)
{
    put(range.start);
    put(range.length);
}

static void put_registration(cvr_registration_answer answer)
{
    put_refusal(answer.refusal);
    put(answer.info.version);
    put(answer.info.nw_error);
    put(answer.info.register_state);
    put(answer.info.register_mode);
    put(answer.info.available_data_class);
    put(answer.info.cellular_class);
    put(answer.info.registration_flag);
    put(answer.info.preferred_data_class);
    put_range(answer.texts.provider_id);
    put_range(answer.texts.provider_name);
    put_range(answer.texts.roaming_text);
}

static void registration_read(void)
{
    put_registration(cvr_registration_read(half(1), lend_input(), given_length));
}

static void registration_write(void)
{
    cvr_registration info = {half(2), word(3), word(4), word(5), word(6), word(7), word(8), word(9)};
    uint8_t *out = lend_output();
    const uint8_t *text[3];
    size_t length[3];
    lend_texts(3, 10, text, length);
    put_written(cvr_registration_write(info, text[0], length[0], text[1], length[1], text[2], length[2],
                                       out, room));
}

static void put_signal(cvr_signal_state_answer answer)
{
    size_t i;
    put_refusal(answer.refusal);
    put(answer.info.version);
    put(answer.info.rssi);
    put(answer.info.error_rate);
    put(answer.info.signal_strength_interval);
    put(answer.info.rssi_threshold);
    put(answer.info.error_rate_threshold);
    put(answer.info.count);
    for (i = 0; i < CVR_MOST_ENTRIES; i++) {
        put(answer.info.entries[i].rsrp);
        put(answer.info.entries[i].snr);
        put(answer.info.entries[i].rsrp_threshold);
        put(answer.info.entries[i].snr_threshold);
        put(answer.info.entries[i].system_type);
    }
}

static void signal_read(void)
{
    put_signal(cvr_signal_state_read(half(1), lend_input(), given_length));
}

static void signal_write(void)
{
    cvr_signal_state info;
    uint8_t *out = lend_output();
    size_t i;
    info.version = half(2);
    info.rssi = word(3);
    info.error_rate = word(4);
    info.signal_strength_interval = word(5);
    info.rssi_threshold = word(6);
    info.error_rate_threshold = word(7);
    info.count = word(8);
    for (i = 0; i < CVR_MOST_ENTRIES; i++) {
        size_t at = 9 + 5 * i;
        cvr_rsrp_snr entry = {word(at), word(at + 1), word(at + 2), word(at + 3), word(at + 4)};
        info.entries[i] = entry;
    }
    put_written(cvr_signal_state_write(info, out, room));
}

/* ---- 9 to 13: the list of services */

static void put_services(cvr_device_services_answer answer)
{
    put_refusal(answer.refusal);
    put(answer.info.device_services_count);
    put(answer.info.max_dss_sessions);
}

static void services_read(void)
{
    put_services(cvr_device_services_read(lend_input(), given_length));
}

static void put_element(cvr_element_answer answer)
{
    const uint32_t *cids = (const uint32_t *)(const void *)list.end - list_room;
    size_t i;
    put_refusal(answer.refusal);
    put(answer.listed);
    put_service(answer.element.device_service_id);
    put(answer.element.dss_payload);
    put(answer.element.max_dss_instances);
    put(answer.element.cid_count);
    listed = least(answer.element.cid_count, list_room);
    for (i = 0; i < listed; i++)
        put(cids[i]);
}

static void element(void)
{
    uint32_t *cids = lend_list();
    put_element(cvr_device_services_element(lend_input(), given_length, word(2), cids, list_room));
}

static void service_cids(void)
{
    uint32_t *cids = lend_list();
    size_t length;
    const uint8_t *payload = lend_information(&length);
    put_element(cvr_device_services_cids(payload, length, service_at(0), cids, list_room));
}

static void put_listed(cvr_listed_answer answer)
{
    put_refusal(answer.refusal);
    put(answer.listed);
}

static void is_listed(void)
{
    size_t length;
    const uint8_t *payload = lend_information(&length);
    put_listed(cvr_device_services_listed(payload, length, service_at(0), word(1)));
}

/* The element whose numbers stand at a place of the arguments; gives the place behind them. */
static size_t take_element(size_t at, size_t number, cvr_service_element *taken)
{
    size_t i, count = least(word(at + 2), CVR_MOST_CIDS);
    taken->fields.device_service_id = service_at(16 * number);
    taken->fields.dss_payload = word(at);
    taken->fields.max_dss_instances = word(at + 1);
    taken->fields.cid_count = word(at + 2);
    for (i = 0; i < count; i++)
        taken->cids[i] = word(at + 3 + i);
    return at + 3 + count;
}

static void services_write(void)
{
    static cvr_service_list written_list;
    uint8_t *out = lend_output();
    size_t at = 4, i;
    memset(&written_list, UNTOUCHED, sizeof written_list);
    written_list.device_services_count = word(2);
    written_list.max_dss_sessions = word(3);
    for (i = 0; i < CVR_MOST_SERVICES; i++)
        at = take_element(at, i, &written_list.elements[i]);
    put_written(cvr_device_services_write(written_list, out, room));
}

/* ---- 14 to 21: messages and the assembly */

/* The message of the input's service; its type, transaction, CID and word stand at a place. */
static cvr_message_header message_at(size_t at)
{
    cvr_message_header message = {word(at), word(at + 1), service_at(0), word(at + 2), word(at + 3)};
    return message;
}

static void whole(void)
{
    cvr_whole_answer answer = cvr_message_judge(lend_input(), given_length);
    put_refusal(answer.refusal);
    put(answer.message_type);
    put(answer.transaction);
    put(answer.word);
}

static void whole_write(void)
{
    uint8_t *out = lend_output();
    put_written(cvr_message_write(word(2), word(3), word(4), out, room));
}

static void put_received(cvr_receive_answer answer)
{
    put_refusal(answer.refusal);
    put(answer.received);
    put(answer.dropped);
    put(answer.message.message_type);
    put(answer.message.transaction);
    put_service(answer.message.service);
    put(answer.message.cid);
    put(answer.message.word);
    put(answer.length);
    show_output(answer.length);
}

static void receive(void)
{
    size_t size = limited(2, sizeof assembly);
    uint8_t *out = lend_output();
    uint8_t *lent = lend(memory, assembly, size);
    cvr_receive_answer answer = cvr_receive(lent, size, lend_input(), given_length, out, room);
    keep(assembly, size);
    put_received(answer);
}

static void empty(void)
{
    uint8_t *lent = lend(memory, assembly, sizeof assembly);
    put_refusal(cvr_assembly_empty(lent, sizeof assembly));
    keep(assembly, sizeof assembly);
}

static void show_assembly(void)
{
    put_refusal(none);
    show(assembly, sizeof assembly);
}

static void cut(void)
{
    uint8_t *out = lend_output();
    size_t length, size = word(2);
    const uint8_t *information = lend_information(&length);
    cvr_cut_answer answer = cvr_message_cut(message_at(3), size, information, length, out, room);
    put_refusal(answer.refusal);
    put(answer.count);
    put(answer.length);
    show_output(answer.length);
}

static void next_transaction(void)
{
    put_refusal(none);
    put(cvr_transaction_next(word(1)));
}

static void kind(void)
{
    cvr_message_header message = {word(1), 0, service_at(0), word(2), word(3)};
    cvr_kind_answer answer = cvr_payload_kind(message);
    put_refusal(answer.refusal);
    put(answer.kind);
}

/* ---- 22 to 26 and 31: the host's end */

static void put_event(cvr_host_answer answer)
{
    keep(host, sizeof host);
    put_refusal(answer.refusal);
    put(answer.event);
    put(answer.version);
}

static void host_make(void)
{
    put_refusal(cvr_host_make(lend(memory, host, sizeof host), sizeof host, half(1)));
    keep(host, sizeof host);
}

static void host_open(void)
{
    put_event(cvr_host_open(lend(memory, host, sizeof host), sizeof host, half(1)));
}

static void host_close(void)
{
    put_event(cvr_host_close(lend(memory, host, sizeof host), sizeof host));
}

static void next_command(void)
{
    uint8_t *out = lend_output();
    cvr_ask_answer answer = cvr_host_next_command(lend(memory, host, sizeof host), sizeof host, out, room);
    keep(host, sizeof host);
    put_refusal(answer.refusal);
    put(answer.command);
    put(answer.version);
    put(answer.length);
    show_output(answer.length);
}

static void host_receive(void)
{
    size_t length;
    const uint8_t *information = lend_information(&length);
    uint8_t *lent = lend(memory, host, sizeof host);
    put_event(cvr_host_receive(lent, sizeof host, message_at(1), information, length));
}

static void show_host(void)
{
    put_refusal(none);
    show(host, sizeof host);
}

/* ---- 27 to 30 and 32: the modem's end */

static void modem_make(void)
{
    size_t size = limited(3, sizeof modem);
    uint8_t *lent = lend(memory, modem, size);
    put_refusal(cvr_modem_make(lent, size, half(1), half(2), lend_input(), given_length));
    keep(modem, size);
}

static void modem_open(void)
{
    put_refusal(cvr_modem_open(lend(memory, modem, sizeof modem), sizeof modem));
    keep(modem, sizeof modem);
}

static void modem_close(void)
{
    put_refusal(cvr_modem_close(lend(memory, modem, sizeof modem), sizeof modem));
    keep(modem, sizeof modem);
}

static void put_modem(cvr_modem_answer answer)
{
    keep(modem, sizeof modem);
    put_refusal(answer.refusal);
    put(answer.action);
    put(answer.status);
    put(answer.kind);
    put(answer.version);
    put(answer.place);
    put(answer.length);
    show_output(answer.length);
}

static void modem_receive(void)
{
    uint8_t *out = lend_output(), *lent = lend(memory, modem, sizeof modem);
    size_t length;
    const uint8_t *information = lend_information(&length);
    put_modem(cvr_modem_receive(lent, sizeof modem, message_at(2), information, length, out, room));
}

static void show_modem(void)
{
    put_refusal(none);
    show(modem, sizeof modem);
}

/* ---- 33 to 35: decibels and bars */

/* Twice a value plus 1,000 is a whole number below 2,000; 2,000 stands for any other. */
static uint32_t doubled(float value)
{
    float sought = value * 2 + 1000;
    uint32_t number = sought >= 0 && sought < 2000 ? (uint32_t)sought : 2000;
    return (float)number == sought ? number : 2000;
}

static void put_reading(cvr_reading_answer answer)
{
    int has_value = answer.kind >= CVR_READING_DBM && answer.kind <= CVR_READING_BELOW_RANGE;
    put_refusal(answer.refusal);
    put(answer.kind);
    put(has_value ? doubled(answer.value) : answer.value == 0 ? 0 : 2000);
}

static void rsrp(void)
{
    put_reading(cvr_rsrp(word(1)));
}

static void snr(void)
{
    put_reading(cvr_snr(word(1)));
}

static void bars(void)
{
    cvr_bars_answer answer = cvr_bars(word(1));
    put_refusal(answer.refusal);
    put(answer.reading);
    put(answer.bars);
}

/* ---- 36 to 41: payloads by a choice */

static void registration_read_with(void)
{
    put_registration(cvr_registration_read_with(half(1), word(2), lend_input(), given_length));
}

static void signal_read_with(void)
{
    put_signal(cvr_signal_state_read_with(half(1), word(2), lend_input(), given_length));
}

static void services_read_with(void)
{
    put_services(cvr_device_services_read_with(word(1), lend_input(), given_length));
}

static void element_with(void)
{
    uint32_t *cids = lend_list();
    put_element(cvr_device_services_element_with(word(3), lend_input(), given_length, word(2), cids,
                                                 list_room));
}

static void service_cids_with(void)
{
    uint32_t *cids = lend_list();
    size_t length;
    const uint8_t *payload = lend_information(&length);
    put_element(cvr_device_services_cids_with(word(2), payload, length, service_at(0), cids, list_room));
}

static void is_listed_with(void)
{
    size_t length;
    const uint8_t *payload = lend_information(&length);
    put_listed(cvr_device_services_listed_with(word(2), payload, length, service_at(0), word(1)));
}

/* ---- 42 to 46: SET_PIN and PIN_INFO */

static void put_set_pin(cvr_set_pin_answer answer)
{
    put_refusal(answer.refusal);
    put(answer.info.pin_type);
    put(answer.info.pin_operation);
    put_range(answer.texts.pin);
    put_range(answer.texts.new_pin);
}

static void set_pin_read(void)
{
    put_set_pin(cvr_set_pin_read(lend_input(), given_length));
}

static void set_pin_read_with(void)
{
    put_set_pin(cvr_set_pin_read_with(word(1), lend_input(), given_length));
}

static void set_pin_write(void)
{
    cvr_set_pin info = {word(2), word(3)};
    uint8_t *out = lend_output();
    const uint8_t *text[2];
    size_t length[2];
    lend_texts(2, 4, text, length);
    put_written(cvr_set_pin_write(info, text[0], length[0], text[1], length[1], out, room));
}

static void put_pin_info(cvr_pin_info info)
{
    put(info.pin_type);
    put(info.pin_state);
    put(info.remaining_attempts);
}

static void pin_info_read(void)
{
    cvr_pin_info_answer answer = cvr_pin_info_read(lend_input(), given_length);
    put_refusal(answer.refusal);
    put_pin_info(answer.info);
}

static void pin_info_write(void)
{
    cvr_pin_info info = {word(2), word(3), word(4)};
    uint8_t *out = lend_output();
    put_written(cvr_pin_info_write(info, out, room));
}

/* ---- 47 to 50: the table of PINs, and the modem with it */

static void keep_pins(size_t size)
{
    memcpy(pins, pins_memory.end - size, size);
}

static void pin_make(void)
{
    size_t i, size = limited(1, sizeof pins);
    cvr_pins made;
    for (i = 0; i < CVR_PIN_TYPES; i++) {
        cvr_pin *row = &made.rows[i];
        row->present = word(2 + 4 * i);
        row->enabled = word(3 + 4 * i);
        row->starting_tries = word(4 + 4 * i);
        row->secret_length = word(5 + 4 * i);
        memcpy(row->secret, given + CVR_MOST_PIN * i, CVR_MOST_PIN);
    }
    put_refusal(cvr_pin_make(lend(pins_memory, pins, size), size, made));
    keep_pins(size);
}

static void pin_enter(void)
{
    uint8_t *lent = lend(pins_memory, pins, sizeof pins);
    cvr_pin_answer answer = cvr_pin_enter(lent, sizeof pins, lend_input(), given_length);
    keep_pins(sizeof pins);
    put_refusal(answer.refusal);
    put(answer.status);
    put(answer.shown);
    put_pin_info(answer.info);
}

static void pin_receive(void)
{
    uint8_t *out = lend_output(), *lent = lend(memory, modem, sizeof modem);
    uint8_t *lent_pins = lend(pins_memory, pins, sizeof pins);
    size_t length;
    const uint8_t *information = lend_information(&length);
    put_modem(cvr_pin_receive(lent, sizeof modem, lent_pins, sizeof pins, message_at(2), information,
                              length, out, room));
    keep_pins(sizeof pins);
}

static void show_pins(void)
{
    put_refusal(none);
    show(pins, sizeof pins);
}

/* ---- 51 and 52: where a CID stands */

static void put_position(cvr_position_answer answer)
{
    put_refusal(answer.refusal);
    put(answer.listed);
    put(answer.element_number);
    put(answer.cid_number);
}

static void ask_cid(void)
{
    size_t length;
    const uint8_t *payload = lend_information(&length);
    put_position(cvr_device_services_ask(payload, length, service_at(0), word(1)));
}

static void ask_cid_with(void)
{
    size_t length;
    const uint8_t *payload = lend_information(&length);
    put_position(cvr_device_services_ask_with(word(2), payload, length, service_at(0), word(1)));
}

/* ---- 53 to 55: the byte stream, whose assembly is the one above */

/* Takes back both memories. */
static void keep_stream(size_t size, size_t assembly_size)
{
    memcpy(stream, stream_memory.end - size, size);
    keep(assembly, assembly_size);
}

static void stream_feed(void)
{
    size_t size = limited(2, sizeof stream), assembly_size = limited(3, sizeof assembly);
    uint8_t *out = lend_output(), *lent = lend(stream_memory, stream, size);
    uint8_t *lent_assembly = lend(memory, assembly, assembly_size);
    cvr_stream_answer answer = cvr_stream_feed(lent, size, lent_assembly, assembly_size, lend_input(),
                                               given_length, out, room);
    keep_stream(size, assembly_size);
    put_received(answer.piece);
    put(answer.taken);
    put(answer.ended);
}

static void stream_reset(void)
{
    size_t size = limited(1, sizeof stream), assembly_size = limited(2, sizeof assembly);
    uint8_t *lent = lend(stream_memory, stream, size), *lent_assembly = lend(memory, assembly, assembly_size);
    put_refusal(cvr_stream_reset(lent, size, lent_assembly, assembly_size));
    keep_stream(size, assembly_size);
}

static void show_stream(void)
{
    put_refusal(none);
    show(stream, sizeof stream);
}

/* ---- all questions */

static void (*const questions[QUESTIONS + 1])(void) = {
    NULL, version_read, version_write, packet_read, packet_write, registration_read, registration_write,
    signal_read, signal_write, services_read, element, service_cids, is_listed, services_write, whole,
    whole_write, receive, empty, show_assembly, cut, next_transaction, kind, host_make, host_open, host_close,
    next_command, host_receive, modem_make, modem_open, modem_close, modem_receive, show_host, show_modem,
    rsrp, snr, bars, registration_read_with, signal_read_with, services_read_with, element_with,
    service_cids_with, is_listed_with, set_pin_read, set_pin_read_with, set_pin_write, pin_info_read,
    pin_info_write, pin_make, pin_enter, pin_receive, show_pins, ask_cid, ask_cid_with, stream_feed,
    stream_reset, show_stream
};

static void ask(void)
{
    memset(answered, 0, sizeof answered);
    memset(shown, 0, sizeof shown);
    answered_length = shown_length = 0;
    written = room = listed = list_room = 0;
    fill(output);
    fill(list);
    bad = 0;
    given_length = limited(0, MOST_LINE);
    bad |= now.length[INPUT] > given_length;
    questions[now.field[QUESTION][0]]();
}

static int is_same(void)
{
    return is_untouched(output, room, written) && is_untouched(list, 4 * list_room, 4 * listed)
           && memcmp(answered, now.field[ANSWER], MOST_LINE) == 0
           && memcmp(shown, now.field[OUTPUT], MOST_LINE) == 0;
}

/* Whether a line has the form, and the library answers as it says. */
static int is_right(const char *text, size_t length)
{
    if (!read_sample(text, length, &now) || now.field[QUESTION][0] < 1 || now.field[QUESTION][0] > QUESTIONS)
        return 0;
    ask();
    return !bad && is_same();
}

static void make_fences(void)
{
    size_t i;
    input = make_fence(MOST_LINE);
    output = make_fence(MOST_ROOM);
    list = make_fence(4 * MOST_LIST);
    service_input = make_fence(16);
    memory = make_fence(sizeof assembly);
    pins_memory = make_fence(sizeof pins);
    stream_memory = make_fence(sizeof stream);
    for (i = 0; i < 3; i++)
        texts[i] = make_fence(MOST_LINE);
}

int main(int argc, char **argv)
{
    char *line = NULL;
    size_t room_of_line = 0;
    ssize_t length;
    unsigned long lines = 0, differ = 0;
    make_fences();
    if (argc > 1 && strcmp(argv[1], "past") == 0)
        return *(volatile uint8_t *)(lend(input, given, 1) + 1);
    while ((length = getline(&line, &room_of_line, stdin)) > 0) {
        lines++;
        if (!is_right(line, (size_t)length)) {
            differ++;
            printf("%lu\tdiffers\n", lines);
        }
    }
    free(line);
    printf("samples %lu differ %lu\n", lines, differ);
    return differ > 0 || lines == 0;
}
