/*
 * PIN entries, both ends in memory: three wrong ones, the PUK, a new PIN. Each goes as a set COMMAND from
 * the host to the modem's end, which answers it from its table of PINs. A line an entry: what was
 * entered, the reply's status and what it shows. No secret is in a reply, and none is printed.
 */
#include "culvertroost.h"

#include <inttypes.h>
#include <stdio.h>
#include <stdlib.h>
#include <string.h>

/* A message that came together, or one to be sent. */
typedef struct message {
    cvr_message_header header;
    uint8_t bytes[CVR_MOST_INFORMATION];
    size_t length;
} message;

static uint8_t host[CVR_HOST_SIZE], modem[CVR_MODEM_SIZE], pins[CVR_PINS_SIZE];
static uint8_t host_assembly[CVR_ASSEMBLY_SIZE], modem_assembly[CVR_ASSEMBLY_SIZE];
static uint8_t services[64];
static size_t services_length;
static uint32_t transaction;

static void need(cvr_refusal refusal, const char *what)
{
    if (refusal.number != CVR_NO_REFUSAL) {
        printf("%s: refused, %s at %" PRIu64 "\n", what, cvr_refusal_name(refusal.number),
               refusal.place);
        exit(1);
    }
}

/* ASCII as UTF-16LE; gives the number of bytes. */
static size_t widen(const char *text, uint8_t *out)
{
    size_t i, length = strlen(text);
    for (i = 0; i < length; i++) {
        out[2 * i] = (uint8_t)text[i];
        out[2 * i + 1] = 0;
    }
    return 2 * length;
}

/* ---- the modem */

static void add_pin(cvr_pins *made, uint32_t pin_type, const char *secret, uint32_t tries)
{
    cvr_pin *row = &made->rows[pin_type - 1];
    row->present = row->enabled = 1;
    row->starting_tries = tries;
    row->secret_length = (uint32_t)widen(secret, row->secret);
}

static void make_modem(void)
{
    static const cvr_device_service element = {CVR_BASIC_CONNECT, 0, 0, 2};
    static const uint32_t cids[] = {CVR_CID_PIN, CVR_CID_DEVICE_SERVICES};
    uint32_t fields[CVR_ELEMENT_WORDS];
    cvr_written list;
    memcpy(fields, &element, sizeof fields);
    list = cvr_device_services_write_all(0, fields, CVR_ELEMENT_WORDS, cids, 2, services,
                                         sizeof services);
    need(list.refusal, "services");
    services_length = list.length;
    need(cvr_modem_make(modem, sizeof modem, CVR_VERSION_1_00, CVR_VERSION_1_00, services,
                        services_length), "modem");
}

static void make_pins(void)
{
    cvr_pins made;
    memset(&made, 0, sizeof made);
    add_pin(&made, CVR_PIN_TYPE_PIN1, "1234", 3);
    add_pin(&made, CVR_PIN_TYPE_PUK1, "12345678", 10);
    need(cvr_pin_make(pins, sizeof pins, made), "table of PINs");
    memset(&made, 0, sizeof made);
    printf("modem: PIN1 with 3 tries, PUK1 with 10\n");
}

/* Takes a command, and makes its reply of it. */
static void answer(message *m)
{
    uint8_t out[CVR_PIN_INFO_LENGTH];
    cvr_modem_answer taken = cvr_pin_receive(modem, sizeof modem, pins, sizeof pins, m->header,
                                             m->bytes, m->length, out, sizeof out);
    int lists = taken.action == CVR_ACTION_SERVE && taken.kind == CVR_KIND_DEVICE_SERVICES;
    need(taken.refusal, "command");
    m->header.message_type = CVR_MESSAGE_COMMAND_DONE;
    m->header.word = taken.status;
    m->length = lists ? services_length : taken.length;
    memcpy(m->bytes, lists ? services : out, m->length);
}

/* ---- the line */

/* Cuts a message at one end and puts it together at the other. */
static void carry(uint8_t *assembly, message *m)
{
    static uint8_t fragments[CVR_MOST_CUT];
    cvr_cut_answer cut = cvr_message_cut(m->header, CVR_LEAST_TRANSFER, m->bytes, m->length, fragments,
                                         sizeof fragments);
    size_t at, size;
    need(cut.refusal, "cut");
    for (at = 0; at < cut.length; at += size) {
        cvr_receive_answer got;
        size = fragments[at + CVR_AT_MESSAGE_LENGTH]; /* its low byte: CVR_LEAST_TRANSFER at most */
        got = cvr_receive(assembly, CVR_ASSEMBLY_SIZE, fragments + at, size, m->bytes, sizeof m->bytes);
        need(got.refusal, "receive");
        m->header = got.message;
        m->length = got.length;
    }
}

/* A command from the host; the reply comes in its place. */
static void command(uint32_t cid, uint32_t type, message *m)
{
    cvr_message_header header = {CVR_MESSAGE_COMMAND, 0, CVR_BASIC_CONNECT, 0, 0};
    header.transaction = transaction = cvr_transaction_next(transaction);
    header.cid = cid;
    header.word = type;
    m->header = header;
    carry(modem_assembly, m);
    answer(m);
    carry(host_assembly, m);
}

/* OPEN puts both ends to their start; at 1.00 the list of services is the whole handshake. */
static void open_ends(void)
{
    static message list;
    list.length = 0;
    need(cvr_modem_open(modem, sizeof modem), "modem");
    need(cvr_host_make(host, sizeof host, CVR_VERSION_1_00), "host");
    need(cvr_host_open(host, sizeof host, CVR_VERSION_1_00).refusal, "host");
    command(CVR_CID_DEVICE_SERVICES, CVR_QUERY, &list);
    need(cvr_host_receive(host, sizeof host, list.header, list.bytes, list.length).refusal, "list");
    printf("both ends: opened\n");
}

/* ---- entries */

static const char *type_name(uint32_t pin_type)
{
    return pin_type == CVR_PIN_TYPE_NONE ? "None" : pin_type == CVR_PIN_TYPE_PIN1 ? "PIN1"
           : pin_type == CVR_PIN_TYPE_PUK1 ? "PUK1" : "another";
}

static void show(const message *reply)
{
    cvr_kind_answer kind = cvr_payload_kind(reply->header);
    cvr_pin_info_answer read;
    need(kind.refusal, "reply");
    printf("status %" PRIu32, reply->header.word);
    if (kind.kind != CVR_KIND_PIN_INFO) {
        printf(", no payload\n");
        return;
    }
    read = cvr_pin_info_read(reply->bytes, reply->length);
    need(read.refusal, "PIN_INFO");
    printf(", type %s, %s, attempts %" PRIu32 "\n", type_name(read.info.pin_type),
           read.info.pin_state == CVR_PIN_STATE_LOCKED ? "locked" : "unlocked",
           read.info.remaining_attempts);
}

static void enter(const char *what, uint32_t pin_type, const char *pin, const char *new_pin)
{
    static message m;
    uint8_t text[CVR_MOST_PIN], new_text[CVR_MOST_PIN];
    size_t length = widen(pin, text), new_length = widen(new_pin, new_text);
    cvr_set_pin entry = {pin_type, CVR_PIN_OPERATION_ENTER};
    cvr_written written = cvr_set_pin_write(entry, text, length, new_text, new_length, m.bytes,
                                            sizeof m.bytes);
    need(written.refusal, "entry");
    m.length = written.length;
    command(CVR_CID_PIN, CVR_SET, &m);
    printf("%s: ", what);
    show(&m);
}

int main(void)
{
    make_modem();
    make_pins();
    open_ends();
    enter("PIN1, wrong", CVR_PIN_TYPE_PIN1, "0000", "");
    enter("PIN1, wrong again", CVR_PIN_TYPE_PIN1, "4321", "");
    enter("PIN1, wrong for the third time", CVR_PIN_TYPE_PIN1, "123", "");
    enter("PIN1, right, but blocked", CVR_PIN_TYPE_PIN1, "1234", "");
    enter("PUK1, wrong", CVR_PIN_TYPE_PUK1, "87654321", "5678");
    enter("PUK1, right, with a new PIN1", CVR_PIN_TYPE_PUK1, "12345678", "5678");
    enter("PUK1, right, but not awaited", CVR_PIN_TYPE_PUK1, "12345678", "9999");
    open_ends();
    enter("PIN1, the new one, not awaited", CVR_PIN_TYPE_PIN1, "5678", "");
    enter("PIN2, not in the table", CVR_PIN_TYPE_PIN2, "1234", "");
    memset(pins, 0, sizeof pins);
    return 0;
}
