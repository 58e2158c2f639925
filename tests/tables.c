/*
 * The tables of the header, row by row: which data classes and PIN numbers may stand where, which numbers
 * choose what a size of 0 is, which payload a message shows, how far a list is judged that is asked for
 * one CID, what each end answers at each stage, where lent memory is refused, and what comes of the front
 * of a stream. An 'any' of the header is tried at every stage. tests/pins.c has the tables of PINs.
 */
#include "culvertroost.h"

#include <inttypes.h>
#include <stdio.h>
#include <string.h>

#define V1 CVR_VERSION_1_00
#define V2 CVR_VERSION_2_00

#define OTHER_CID 14 /* of the extensions */

typedef struct payload {
    uint8_t bytes[160];
    size_t length;
} payload;

static const cvr_service basic_connect = CVR_BASIC_CONNECT, extensions = CVR_EXTENSIONS;
static payload listed, unlisted, twice, uncounted, version_1, version_2, broken;
static payload fault_before, fault_at, fault_behind; /* the element with VERSION, the first of two */
static int failed;

static void check(const char *table, int row, const char *what, uint64_t got, uint64_t expected)
{
    if (got != expected) {
        printf("tables: %s, row %d: %s is %" PRIu64 ", not %" PRIu64 "\n", table, row, what, got,
               expected);
        failed = 1;
    }
}

static void check_refusal(const char *table, int row, cvr_refusal got, uint32_t number, uint64_t place)
{
    check(table, row, "the refusal", got.number, number);
    check(table, row, "the place", got.place, number == CVR_NO_REFUSAL ? 0 : place);
}

/* ---- payloads */

/* The first so many of three elements; the second has VERSION, the third has it too, and another CID twice. */
static void write_list(payload *out, uint32_t services)
{
    static cvr_service_list list;
    memset(&list, 0, sizeof list);
    list.device_services_count = services;
    list.elements[0].fields.device_service_id = basic_connect;
    list.elements[1].fields.device_service_id = list.elements[2].fields.device_service_id = extensions;
    list.elements[1].fields.cid_count = 1;
    list.elements[2].fields.cid_count = 3;
    list.elements[1].cids[0] = list.elements[2].cids[0] = CVR_CID_VERSION;
    list.elements[2].cids[1] = list.elements[2].cids[2] = OTHER_CID;
    out->length = cvr_device_services_write(list, out->bytes, sizeof out->bytes).length;
}

/* All three, of which one has size 0. */
static void write_sizeless(payload *out, int number)
{
    write_list(out, 3);
    memset(out->bytes + CVR_AT_DEVICE_SERVICES_ELEMENT(number) + 4, 0, 4);
}

static void write_payloads(void)
{
    cvr_version_info info = {CVR_MBIM_1_00, V1};
    write_list(&listed, 2);
    write_list(&unlisted, 1);
    write_list(&twice, 3);
    write_sizeless(&fault_before, 0);
    write_sizeless(&fault_at, 1);
    write_sizeless(&fault_behind, 2);
    uncounted = twice;
    uncounted.bytes[CVR_AT_DEVICE_SERVICES_COUNT] = CVR_MOST_SERVICES + 1;
    version_1.length = cvr_version_info_write(info, version_1.bytes, 4).length;
    info.bcd_mbim_extended_version = V2;
    version_2.length = cvr_version_info_write(info, version_2.bytes, 4).length;
    broken.length = 1;
}

static cvr_message_header header(uint32_t type, const cvr_service *service, uint32_t cid, uint32_t word)
{
    cvr_message_header message = {0, 1, {0, 0, 0, 0}, 0, 0};
    message.message_type = type;
    message.service = *service;
    message.cid = cid;
    message.word = word;
    return message;
}

/* ---- the data classes: one bit and two, in each field that holds classes */

static cvr_refusal packet_class(uint16_t version, uint32_t class)
{
    cvr_packet_service info;
    cvr_packet_service_answer read;
    uint8_t out[32];
    cvr_written written;
    memset(&info, 0, sizeof info);
    info.version = version;
    info.packet_service_state = CVR_PACKET_SERVICE_STATE_ATTACHED;
    info.highest_available_data_class = info.current_data_class = class;
    written = cvr_packet_service_write(info, out, sizeof out);
    if (written.refusal.number)
        return written.refusal;
    read = cvr_packet_service_read(version, out, written.length);
    check("class", version, "what is read",
          read.info.highest_available_data_class + read.info.current_data_class, class);
    return read.refusal;
}

static cvr_refusal registration_classes(uint16_t version, uint32_t available, uint32_t preferred)
{
    cvr_registration info;
    uint8_t out[52];
    memset(&info, 0, sizeof info);
    info.version = version;
    info.register_state = CVR_REGISTER_STATE_HOME;
    info.available_data_class = available;
    info.preferred_data_class = preferred;
    return cvr_registration_write(info, NULL, 0, NULL, 0, NULL, 0, out, sizeof out).refusal;
}

static cvr_refusal system_type(uint32_t class)
{
    static cvr_signal_state info;
    uint8_t out[52];
    info.version = V2;
    info.rssi = 99;
    info.count = 1;
    info.entries[0].system_type = class;
    return cvr_signal_state_write(info, out, sizeof out).refusal;
}

static void number_row(int row, const char *what, cvr_refusal refusal, int taken, uint64_t place)
{
    check_refusal(what, row, refusal, taken ? CVR_NO_REFUSAL : CVR_OUTSIDE_TABLE, place);
}

static void class_table(void)
{
    int i, j;
    for (i = 0; i < 32; i++)
        for (j = i; j < 32; j++) {
            uint32_t class = UINT32_C(1) << i | UINT32_C(1) << j;
            int earlier = (class & CVR_DATA_CLASSES_1_00) == class;
            int later = (class & CVR_DATA_CLASSES_2_00) == class;
            int packet = i == j || class == CVR_DATA_CLASS_HSPA;
            number_row(i * 32 + j, "class at 1.00", packet_class(V1, class), packet && earlier, 8);
            number_row(i * 32 + j, "class at 2.00", packet_class(V2, class), packet && later, 8);
            number_row(i * 32 + j, "available at 1.00", registration_classes(V1, class, 0), earlier, 12);
            number_row(i * 32 + j, "available at 2.00", registration_classes(V2, class, 0), later, 12);
            number_row(i * 32 + j, "preferred", registration_classes(V2, 0, class), later, 48);
            number_row(i * 32 + j, "system type", system_type(class), i == j && later, 48);
        }
}

/* The numbers that are tried where a field or a choice takes few: 0 to 300, then these. */
enum { LARGE = 301, NUMBERS = LARGE + 8 };
static const uint32_t large[NUMBERS - LARGE] = {0x10000,    0x10001,    0x1000000,  0x1000001,
                                                0x80000000, 0x80000001, 0xFFFFFFFE, 0xFFFFFFFF};

static uint32_t number_tried(int i)
{
    return i < LARGE ? (uint32_t)i : large[i - LARGE];
}

/* ---- the numbers of SET_PIN and PIN_INFO */

/* Puts a number at a place of a payload that the reader takes. */
static const uint8_t *with_number(const uint8_t *good, size_t length, size_t place, uint32_t number)
{
    static uint8_t changed[CVR_SET_PIN_LENGTH];
    int i;
    memcpy(changed, good, length);
    for (i = 0; i < 4; i++)
        changed[place + (size_t)i] = (uint8_t)(number >> 8 * i);
    return changed;
}

static void set_pin_row(int i, uint32_t number)
{
    cvr_set_pin type = {0, CVR_PIN_OPERATION_CHANGE}, operation = {CVR_PIN_TYPE_CORPORATE_PUK, 0};
    uint8_t good[24], out[24];
    cvr_written written = cvr_set_pin_write(type, NULL, 0, NULL, 0, good, sizeof good);
    check("SET_PIN", i, "the length", written.length, sizeof good);
    type.pin_type = operation.pin_operation = number;
    number_row(i, "PinType written", cvr_set_pin_write(type, NULL, 0, NULL, 0, out, 24).refusal,
              number <= CVR_PIN_TYPE_CORPORATE_PUK, 0);
    number_row(i, "PinOperation written", cvr_set_pin_write(operation, NULL, 0, NULL, 0, out, 24).refusal,
              number <= CVR_PIN_OPERATION_CHANGE, 4);
    number_row(i, "PinType", cvr_set_pin_read(with_number(good, 24, 0, number), 24).refusal,
              number <= CVR_PIN_TYPE_CORPORATE_PUK, CVR_AT_SET_PIN_PIN_TYPE);
    number_row(i, "PinOperation", cvr_set_pin_read(with_number(good, 24, 4, number), 24).refusal,
              number <= CVR_PIN_OPERATION_CHANGE, CVR_AT_SET_PIN_PIN_OPERATION);
}

static void pin_info_row(int i, uint32_t number)
{
    static const uint8_t good[CVR_PIN_INFO_LENGTH] = {CVR_PIN_TYPE_PIN1, 0, 0, 0, CVR_PIN_STATE_LOCKED};
    cvr_pin_info type = {0, 0, 0}, state = {0, 0, 0}, attempts = {0, 0, 0};
    uint8_t out[CVR_PIN_INFO_LENGTH];
    type.pin_type = state.pin_state = attempts.remaining_attempts = number;
    number_row(i, "PinType written", cvr_pin_info_write(type, out, 12).refusal,
              number <= CVR_PIN_TYPE_CORPORATE_PUK, 0);
    number_row(i, "PinState written", cvr_pin_info_write(state, out, 12).refusal,
              number <= CVR_PIN_STATE_LOCKED, 4);
    number_row(i, "attempts written", cvr_pin_info_write(attempts, out, 12).refusal, 1, 0);
    check("attempts", i, "what is read", cvr_pin_info_read(out, 12).info.remaining_attempts, number);
    number_row(i, "PinType", cvr_pin_info_read(with_number(good, 12, 0, number), 12).refusal,
              number <= CVR_PIN_TYPE_CORPORATE_PUK, CVR_AT_PIN_INFO_PIN_TYPE);
    number_row(i, "PinState", cvr_pin_info_read(with_number(good, 12, 4, number), 12).refusal,
              number <= CVR_PIN_STATE_LOCKED, CVR_AT_PIN_INFO_PIN_STATE);
}

static void pin_number_table(void)
{
    int i;
    for (i = 0; i < NUMBERS; i++) {
        set_pin_row(i, number_tried(i));
        pin_info_row(i, number_tried(i));
    }
}

/* ---- which payload a message shows */

enum { WAYS = 8, SUCCEEDED = 3 };
static const struct way {
    uint32_t message_type, word;
} ways[WAYS] = {
    {CVR_MESSAGE_COMMAND, CVR_QUERY},    {CVR_MESSAGE_COMMAND, CVR_SET},
    {CVR_MESSAGE_COMMAND, 2},            {CVR_MESSAGE_COMMAND_DONE, CVR_STATUS_SUCCESS},
    {CVR_MESSAGE_COMMAND_DONE, 1},       {CVR_MESSAGE_COMMAND_DONE, CVR_STATUS_FAILURE},
    {CVR_MESSAGE_COMMAND_DONE, CVR_STATUS_NO_DEVICE_SUPPORT}, {CVR_MESSAGE_INDICATE_STATUS, 9},
};

/* A known CID, and the kind for each way. */
typedef struct kind_row {
    const cvr_service *service;
    uint32_t cid;
    uint32_t kinds[WAYS];
} kind_row;

static const kind_row kind_rows[] = {
    {&basic_connect, CVR_CID_PIN, {0, CVR_KIND_SET_PIN, 0, CVR_KIND_PIN_INFO, 0, CVR_KIND_PIN_INFO, 0,
                                   CVR_KIND_PIN_INFO}},
    {&basic_connect, CVR_CID_REGISTER_STATE, {0, 0, 0, CVR_KIND_REGISTER_STATE, 0, 0, 0,
                                              CVR_KIND_REGISTER_STATE}},
    {&basic_connect, CVR_CID_PACKET_SERVICE, {0, 0, 0, CVR_KIND_PACKET_SERVICE, 0, 0, 0,
                                              CVR_KIND_PACKET_SERVICE}},
    {&basic_connect, CVR_CID_SIGNAL_STATE, {0, 0, 0, CVR_KIND_SIGNAL_STATE, 0, 0, 0,
                                            CVR_KIND_SIGNAL_STATE}},
    {&basic_connect, CVR_CID_DEVICE_SERVICES, {0, 0, 0, CVR_KIND_DEVICE_SERVICES, 0, 0, 0,
                                               CVR_KIND_DEVICE_SERVICES}},
    {&extensions, CVR_CID_VERSION, {CVR_KIND_VERSION, CVR_KIND_VERSION, CVR_KIND_VERSION, CVR_KIND_VERSION,
                                    0, 0, 0, CVR_KIND_VERSION}},
};
enum { KINDS = sizeof kind_rows / sizeof kind_rows[0] };

/* The row of a service and CID, or none. */
static const kind_row *kind_of(const cvr_service *service, uint32_t cid)
{
    int i;
    for (i = 0; i < KINDS; i++)
        if (kind_rows[i].service == service && kind_rows[i].cid == cid)
            return &kind_rows[i];
    return NULL;
}

static void try_kind(const cvr_service *service, uint32_t cid, int way)
{
    const kind_row *row = kind_of(service, cid);
    int known = service == &basic_connect || service == &extensions;
    cvr_kind_answer answer = cvr_payload_kind(header(ways[way].message_type, service, cid, ways[way].word));
    check_refusal("kinds", (int)cid * WAYS + way, answer.refusal, row ? CVR_NO_REFUSAL : CVR_UNKNOWN,
                  known ? CVR_AT_FIRST_CID : CVR_AT_FIRST_SERVICE);
    check("kinds", (int)cid * WAYS + way, "the kind", answer.kind, row ? row->kinds[way] : CVR_KIND_NONE);
}

static void kind_table(void)
{
    static const cvr_service other = {1, 2, 3, 4};
    uint32_t cid;
    int way;
    for (cid = 0; cid < LARGE; cid++)
        for (way = 0; way < WAYS; way++) {
            try_kind(&basic_connect, cid, way);
            try_kind(&extensions, cid, way);
            try_kind(&other, cid, way);
        }
    check_refusal("kinds", 0, cvr_payload_kind(header(CVR_MESSAGE_OPEN, &basic_connect, 4, 1)).refusal,
                  CVR_UNKNOWN, 0);
}

/* ---- what a size of 0 is: each reader, by every number for the choice */

enum reader { REGISTRATION, SIGNAL, SET_PIN, HEAD, ELEMENT, CIDS, ALL, LISTED, ASK };

/* The refusals of a payload whose first pair has size 0 beside an offset, at the pair's place. */
typedef struct zero_row {
    const char *what;
    enum reader reader;
    uint16_t version;
    uint32_t absent, strict;
    uint64_t place;
} zero_row;

static const zero_row zero_rows[] = {
    {"registration at 1.00", REGISTRATION, V1, CVR_NO_REFUSAL, CVR_OFFSET_WITH_ZERO_SIZE, 20},
    {"registration at 2.00", REGISTRATION, V2, CVR_NO_REFUSAL, CVR_OFFSET_WITH_ZERO_SIZE, 20},
    {"signal at 1.00", SIGNAL, V1, CVR_NO_REFUSAL, CVR_NO_REFUSAL, 0}, /* it has no pair */
    {"signal at 2.00", SIGNAL, V2, CVR_NO_REFUSAL, CVR_OFFSET_WITH_ZERO_SIZE, 20},
    {"SET_PIN", SET_PIN, 0, CVR_NO_REFUSAL, CVR_OFFSET_WITH_ZERO_SIZE, 8},
    {"SET_PIN, the new text", SET_PIN, 0, CVR_NO_REFUSAL, CVR_OFFSET_WITH_ZERO_SIZE, 16},
    {"services read", HEAD, 0, CVR_WRONG_SIZE, CVR_OFFSET_WITH_ZERO_SIZE, 8},
    {"services element", ELEMENT, 0, CVR_WRONG_SIZE, CVR_OFFSET_WITH_ZERO_SIZE, 8},
    {"services CIDs", CIDS, 0, CVR_WRONG_SIZE, CVR_OFFSET_WITH_ZERO_SIZE, 8},
    {"services all", ALL, 0, CVR_WRONG_SIZE, CVR_OFFSET_WITH_ZERO_SIZE, 8},
    {"services listed", LISTED, 0, CVR_WRONG_SIZE, CVR_OFFSET_WITH_ZERO_SIZE, 8},
    {"services ask", ASK, 0, CVR_WRONG_SIZE, CVR_OFFSET_WITH_ZERO_SIZE, 8},
};

enum { FIELDS = CVR_ELEMENT_WORDS * CVR_MOST_SERVICES };
static uint32_t fields[FIELDS], cids[CVR_MOST_CIDS];

static cvr_refusal without_choice(enum reader reader, uint16_t version, const payload *in)
{
    const uint8_t *bytes = in->bytes;
    size_t length = in->length;
    switch (reader) {
    case REGISTRATION:
        return cvr_registration_read(version, bytes, length).refusal;
    case SIGNAL:
        return cvr_signal_state_read(version, bytes, length).refusal;
    case SET_PIN:
        return cvr_set_pin_read(bytes, length).refusal;
    case HEAD:
        return cvr_device_services_read(bytes, length).refusal;
    case ELEMENT:
        return cvr_device_services_element(bytes, length, 1, cids, CVR_MOST_CIDS).refusal;
    case CIDS:
        return cvr_device_services_cids(bytes, length, extensions, cids, CVR_MOST_CIDS).refusal;
    case ALL:
        return cvr_device_services_all(bytes, length, fields, FIELDS, cids, CVR_MOST_CIDS).refusal;
    case LISTED:
        return cvr_device_services_listed(bytes, length, extensions, CVR_CID_VERSION).refusal;
    default:
        return cvr_device_services_ask(bytes, length, extensions, CVR_CID_VERSION).refusal;
    }
}

static cvr_refusal by_choice(enum reader reader, uint16_t version, uint32_t choice, const payload *in)
{
    const uint8_t *bytes = in->bytes;
    size_t length = in->length;
    switch (reader) {
    case REGISTRATION:
        return cvr_registration_read_with(version, choice, bytes, length).refusal;
    case SIGNAL:
        return cvr_signal_state_read_with(version, choice, bytes, length).refusal;
    case SET_PIN:
        return cvr_set_pin_read_with(choice, bytes, length).refusal;
    case HEAD:
        return cvr_device_services_read_with(choice, bytes, length).refusal;
    case ELEMENT:
        return cvr_device_services_element_with(choice, bytes, length, 1, cids, CVR_MOST_CIDS).refusal;
    case CIDS:
        return cvr_device_services_cids_with(choice, bytes, length, extensions, cids, CVR_MOST_CIDS)
            .refusal;
    case ALL:
        return cvr_device_services_all_with(choice, bytes, length, fields, FIELDS, cids, CVR_MOST_CIDS)
            .refusal;
    case LISTED:
        return cvr_device_services_listed_with(choice, bytes, length, extensions, CVR_CID_VERSION).refusal;
    default:
        return cvr_device_services_ask_with(choice, bytes, length, extensions, CVR_CID_VERSION).refusal;
    }
}

/* The row's payload: no texts, no entries, or two elements; then its first pair. */
static void write_zero_size(const zero_row *row, payload *out)
{
    static const uint8_t pair[8] = {52};
    static const cvr_set_pin entry = {CVR_PIN_TYPE_PIN1, CVR_PIN_OPERATION_ENTER};
    static cvr_signal_state signal;
    cvr_registration registration;
    memset(&registration, 0, sizeof registration);
    memset(out, 0, sizeof *out);
    signal.version = registration.version = row->version;
    if (row->reader == REGISTRATION)
        out->length = cvr_registration_write(registration, NULL, 0, NULL, 0, NULL, 0, out->bytes,
                                             sizeof out->bytes).length;
    else if (row->reader == SIGNAL)
        out->length = cvr_signal_state_write(signal, out->bytes, sizeof out->bytes).length;
    else if (row->reader == SET_PIN)
        out->length = cvr_set_pin_write(entry, NULL, 0, NULL, 0, out->bytes, sizeof out->bytes).length;
    else
        write_list(out, 2);
    if (row->place)
        memcpy(out->bytes + row->place, pair, sizeof pair);
}

/* A number that is no choice is refused before the payload, a version before the choice. */
static void try_choice(const zero_row *row, const payload *in, int i)
{
    uint32_t choice = number_tried(i);
    int chosen = choice == CVR_ZERO_SIZE_ABSENT || choice == CVR_ZERO_SIZE_STRICT;
    uint32_t number = choice == CVR_ZERO_SIZE_ABSENT ? row->absent : row->strict;
    check_refusal(row->what, i, by_choice(row->reader, row->version, choice, in),
                  chosen ? number : CVR_OUTSIDE_TABLE, chosen ? row->place : 0);
    check_refusal(row->what, i, by_choice(row->reader, row->version, choice, &broken),
                  chosen ? CVR_TOO_SHORT : CVR_OUTSIDE_TABLE, chosen ? broken.length : 0);
    if (row->version)
        check_refusal(row->what, i, by_choice(row->reader, 0x0300, choice, in), CVR_WRONG_VERSION, 0);
}

static void zero_size_table(void)
{
    payload in;
    int i, j;
    for (i = 0; i < (int)(sizeof zero_rows / sizeof zero_rows[0]); i++) {
        const zero_row *row = &zero_rows[i];
        write_zero_size(row, &in);
        check_refusal("no choice", i, without_choice(row->reader, row->version, &in), row->absent,
                      row->place);
        if (row->reader == REGISTRATION)
            check("no choice", i, "the absent text's start",
                  cvr_registration_read(row->version, in.bytes, in.length).texts.provider_id.start, 0);
        for (j = 0; j < NUMBERS; j++)
            try_choice(row, &in, j);
    }
}

/* ---- the question for one CID beside the full one, by either choice */

/* Whether it is listed and where, and the refusal of the full question, which is both's where it isn't. */
typedef struct ask_row {
    const payload *list;
    const cvr_service *service;
    uint32_t cid;
    uint32_t listed, element, number;
    uint32_t absent, strict;
    uint64_t place;
} ask_row;

static const ask_row ask_rows[] = {
    {&listed, &extensions, CVR_CID_VERSION, 1, 1, 0, 0, 0, 0},
    {&listed, &extensions, OTHER_CID, 0, 0, 0, 0, 0, 0},
    {&listed, &basic_connect, CVR_CID_VERSION, 0, 0, 0, 0, 0, 0},
    {&unlisted, &extensions, CVR_CID_VERSION, 0, 0, 0, 0, 0, 0},
    {&twice, &extensions, CVR_CID_VERSION, 1, 1, 0, 0, 0, 0},
    {&twice, &extensions, OTHER_CID, 1, 2, 1, 0, 0, 0},
    {&fault_before, &extensions, CVR_CID_VERSION, 0, 0, 0, CVR_WRONG_SIZE, CVR_OFFSET_WITH_ZERO_SIZE, 8},
    {&fault_at, &extensions, CVR_CID_VERSION, 0, 0, 0, CVR_WRONG_SIZE, CVR_OFFSET_WITH_ZERO_SIZE, 16},
    {&fault_behind, &extensions, CVR_CID_VERSION, 1, 1, 0, CVR_WRONG_SIZE, CVR_OFFSET_WITH_ZERO_SIZE, 24},
    {&fault_behind, &extensions, OTHER_CID, 0, 0, 0, CVR_WRONG_SIZE, CVR_OFFSET_WITH_ZERO_SIZE, 24},
    {&uncounted, &extensions, CVR_CID_VERSION, 0, 0, 0, CVR_WRONG_COUNT, CVR_WRONG_COUNT, 0},
    {&broken, &extensions, CVR_CID_VERSION, 0, 0, 0, CVR_TOO_SHORT, CVR_TOO_SHORT, 1},
};

static void try_ask(int i, const ask_row *row, uint32_t number, cvr_listed_answer full,
                    cvr_position_answer answer)
{
    check_refusal("listed", i, full.refusal, number, row->place);
    check("listed", i, "what is listed", full.listed, number ? 0 : row->listed);
    check_refusal("ask", i, answer.refusal, row->listed ? CVR_NO_REFUSAL : number, row->place);
    check("ask", i, "what is listed", answer.listed, row->listed);
    check("ask", i, "the element", answer.element_number, row->element);
    check("ask", i, "the CID", answer.cid_number, row->number);
}

static void ask_table(void)
{
    int i;
    for (i = 0; i < (int)(sizeof ask_rows / sizeof ask_rows[0]); i++) {
        const ask_row *row = &ask_rows[i];
        const uint8_t *bytes = row->list->bytes;
        size_t length = row->list->length;
        uint32_t choice;
        try_ask(i, row, row->absent, cvr_device_services_listed(bytes, length, *row->service, row->cid),
                cvr_device_services_ask(bytes, length, *row->service, row->cid));
        for (choice = CVR_ZERO_SIZE_ABSENT; choice <= CVR_ZERO_SIZE_STRICT; choice++)
            try_ask(i, row, choice == CVR_ZERO_SIZE_STRICT ? row->strict : row->absent,
                    cvr_device_services_listed_with(choice, bytes, length, *row->service, row->cid),
                    cvr_device_services_ask_with(choice, bytes, length, *row->service, row->cid));
    }
}

/* ---- the host's table */

enum { ANY = 100, OTHER = 101, SAME = 102 }; /* of stages: any; any but AWAITS_VERSION; the same */

typedef struct host_row {
    int stage;
    uint16_t native, advertised;
    uint32_t cid, status;
    const payload *information;
    uint32_t refusal, event;
    uint16_t version;
    int next;
} host_row;

static const host_row host_rows[] = {
    {ANY, V2, V1, CVR_CID_REGISTER_STATE, 0, &broken, 0, CVR_EVENT_UNCHANGED, 0, SAME},
    {ANY, V2, V1, CVR_CID_DEVICE_SERVICES, 9, &listed, 0, CVR_EVENT_UNCHANGED, 0, SAME},
    {ANY, V2, V1, CVR_CID_DEVICE_SERVICES, 0, &broken, CVR_TOO_SHORT, 0, 0, SAME},
    {ANY, V2, V1, CVR_CID_DEVICE_SERVICES, 0, &fault_before, CVR_WRONG_SIZE, 0, 0, SAME},
    {ANY, V2, V1, CVR_CID_DEVICE_SERVICES, 0, &fault_at, CVR_WRONG_SIZE, 0, 0, SAME},
    {CVR_HOST_OPEN, V1, V2, CVR_CID_DEVICE_SERVICES, 0, &fault_at, CVR_WRONG_SIZE, 0, 0, SAME},
    {CVR_HOST_OPEN, V2, V2, CVR_CID_DEVICE_SERVICES, 0, &fault_at, CVR_WRONG_SIZE, 0, 0, SAME},
    {CVR_HOST_OPEN, V1, V2, CVR_CID_DEVICE_SERVICES, 0, &listed, CVR_ABOVE_HOST, 0, 0, SAME},
    {CVR_HOST_OPEN, V1, V2, CVR_CID_DEVICE_SERVICES, 0, &fault_behind, CVR_ABOVE_HOST, 0, 0, SAME},
    {CVR_HOST_OPEN, V1, V2, CVR_CID_DEVICE_SERVICES, 0, &unlisted, CVR_ABOVE_HOST, 0, 0, SAME},
    {CVR_HOST_OPEN, V2, V2, CVR_CID_DEVICE_SERVICES, 0, &unlisted, CVR_VERSION_NOT_LISTED, 0, 0, SAME},
    {CVR_HOST_OPEN, V2, V1, CVR_CID_DEVICE_SERVICES, 0, &listed, 0, CVR_EVENT_ASKS_VERSION, 0,
     CVR_HOST_AWAITS_VERSION},
    {CVR_HOST_OPEN, V2, V2, CVR_CID_DEVICE_SERVICES, 0, &listed, 0, CVR_EVENT_ASKS_VERSION, 0,
     CVR_HOST_AWAITS_VERSION},
    {CVR_HOST_OPEN, V2, V1, CVR_CID_DEVICE_SERVICES, 0, &fault_behind, 0, CVR_EVENT_ASKS_VERSION, 0,
     CVR_HOST_AWAITS_VERSION},
    {CVR_HOST_OPEN, V2, V2, CVR_CID_DEVICE_SERVICES, 0, &fault_behind, 0, CVR_EVENT_ASKS_VERSION, 0,
     CVR_HOST_AWAITS_VERSION},
    {CVR_HOST_OPEN, V1, V1, CVR_CID_DEVICE_SERVICES, 0, &listed, 0, CVR_EVENT_SETTLED, V1,
     CVR_HOST_SETTLED},
    {CVR_HOST_OPEN, V1, V1, CVR_CID_DEVICE_SERVICES, 0, &fault_behind, 0, CVR_EVENT_SETTLED, V1,
     CVR_HOST_SETTLED},
    {CVR_HOST_OPEN, V2, V1, CVR_CID_DEVICE_SERVICES, 0, &unlisted, 0, CVR_EVENT_SETTLED, V1,
     CVR_HOST_SETTLED},
    {CVR_HOST_CLOSED, V1, V2, CVR_CID_DEVICE_SERVICES, 0, &listed, 0, CVR_EVENT_UNCHANGED, 0, SAME},
    {CVR_HOST_CLOSED, V1, V2, CVR_CID_DEVICE_SERVICES, 0, &fault_behind, 0, CVR_EVENT_UNCHANGED, 0, SAME},
    {CVR_HOST_AWAITS_VERSION, V2, V2, CVR_CID_DEVICE_SERVICES, 0, &unlisted, 0, CVR_EVENT_UNCHANGED, 0,
     SAME},
    {CVR_HOST_AWAITS_VERSION, V2, V2, CVR_CID_DEVICE_SERVICES, 0, &fault_behind, 0, CVR_EVENT_UNCHANGED, 0,
     SAME},
    {CVR_HOST_SETTLED, V2, V2, CVR_CID_DEVICE_SERVICES, 0, &unlisted, 0, CVR_EVENT_UNCHANGED, 0, SAME},
    {CVR_HOST_SETTLED, V2, V2, CVR_CID_DEVICE_SERVICES, 0, &fault_behind, 0, CVR_EVENT_UNCHANGED, 0, SAME},
    {CVR_HOST_AWAITS_VERSION, V2, V1, CVR_CID_VERSION, 9, &broken, 0, CVR_EVENT_SETTLED, V1,
     CVR_HOST_SETTLED},
    {CVR_HOST_AWAITS_VERSION, V2, V2, CVR_CID_VERSION, 9, &broken, 0, CVR_EVENT_SETTLED, V2,
     CVR_HOST_SETTLED},
    {ANY, V2, V1, CVR_CID_VERSION, 0, &broken, CVR_TOO_SHORT, 0, 0, SAME},
    {CVR_HOST_AWAITS_VERSION, V2, V1, CVR_CID_VERSION, 0, &version_2, 0, CVR_EVENT_SETTLED, V2,
     CVR_HOST_SETTLED},
    {CVR_HOST_AWAITS_VERSION, V2, V2, CVR_CID_VERSION, 0, &version_1, 0, CVR_EVENT_SETTLED, V2,
     CVR_HOST_SETTLED},
    {CVR_HOST_AWAITS_VERSION, V2, V1, CVR_CID_VERSION, 0, &version_1, 0, CVR_EVENT_SETTLED, V1,
     CVR_HOST_SETTLED},
    {OTHER, V2, V1, CVR_CID_VERSION, 0, &version_2, 0, CVR_EVENT_UNCHANGED, 0, SAME},
    {OTHER, V2, V1, CVR_CID_VERSION, 9, &broken, 0, CVR_EVENT_UNCHANGED, 0, SAME},
};

static cvr_host_answer reply(uint8_t *host, uint32_t cid, uint32_t status, const payload *information)
{
    const cvr_service *service = cid == CVR_CID_VERSION ? &extensions : &basic_connect;
    return cvr_host_receive(host, CVR_HOST_SIZE, header(CVR_MESSAGE_COMMAND_DONE, service, cid, status),
                            information->bytes, information->length);
}

static void host_at(uint8_t *host, int stage, uint16_t native, uint16_t advertised)
{
    cvr_host_make(host, CVR_HOST_SIZE, native);
    if (stage >= CVR_HOST_OPEN)
        cvr_host_open(host, CVR_HOST_SIZE, advertised);
    if (stage >= CVR_HOST_AWAITS_VERSION)
        reply(host, CVR_CID_DEVICE_SERVICES, 0, &listed);
    if (stage == CVR_HOST_SETTLED)
        reply(host, CVR_CID_VERSION, 0, &version_2);
}

static void try_host(int i, const host_row *row, int stage)
{
    uint8_t host[CVR_HOST_SIZE];
    cvr_host_answer answer;
    host_at(host, stage, row->native, row->advertised);
    check("host", i, "the stage before", host[CVR_AT_HOST_STAGE], (uint64_t)stage);
    answer = reply(host, row->cid, row->status, row->information);
    check("host", i, "the refusal", answer.refusal.number, row->refusal);
    check("host", i, "the event", answer.event, row->event);
    check("host", i, "the version", answer.version, row->version);
    check("host", i, "the next stage", host[CVR_AT_HOST_STAGE],
          (uint64_t)(row->next == SAME ? stage : row->next));
}

static void host_table(void)
{
    int i, stage;
    for (i = 0; i < (int)(sizeof host_rows / sizeof host_rows[0]); i++)
        for (stage = CVR_HOST_CLOSED; stage <= CVR_HOST_SETTLED; stage++)
            if (host_rows[i].stage == stage || host_rows[i].stage == ANY
                || (host_rows[i].stage == OTHER && stage != CVR_HOST_AWAITS_VERSION))
                try_host(i, &host_rows[i], stage);
}

/* ---- the modem's table */

#define NOT_KNOWN 77 /* a CID */

typedef struct modem_row {
    int stage;
    uint16_t advertised;
    const payload *services;
    uint32_t cid, type;
    const payload *information;
    uint32_t action, status;
    int next;
    uint16_t version;
} modem_row;

static const modem_row modem_rows[] = {
    {0, V1, &listed, CVR_CID_DEVICE_SERVICES, CVR_QUERY, &broken, CVR_ACTION_SERVE, 0, 1, 0},
    {0, V1, &listed, CVR_CID_DEVICE_SERVICES, CVR_SET, &broken, CVR_ACTION_SERVE, 0, 1, 0},
    {0, V1, &listed, CVR_CID_VERSION, CVR_QUERY, &version_2, CVR_ACTION_FAILED, 9, 0, 0},
    {0, V1, &listed, CVR_CID_SIGNAL_STATE, CVR_QUERY, &broken, CVR_ACTION_FAILED, 9, 0, 0},
    {0, V1, &listed, NOT_KNOWN, CVR_QUERY, &broken, CVR_ACTION_FAILED, 9, 0, 0},
    {0, V1, &listed, CVR_CID_PIN, CVR_SET, &broken, CVR_ACTION_FAILED, 9, 0, 0},
    {1, V1, &listed, CVR_CID_DEVICE_SERVICES, CVR_SET, &broken, CVR_ACTION_SERVE, 0, 1, 0},
    {1, V1, &listed, CVR_CID_VERSION, CVR_QUERY, &version_2, CVR_ACTION_VERSION, 0, 2, V2},
    {1, V1, &listed, CVR_CID_VERSION, CVR_QUERY, &version_1, CVR_ACTION_VERSION, 0, 2, V1},
    {1, V2, &listed, CVR_CID_VERSION, CVR_QUERY, &version_1, CVR_ACTION_VERSION, 0, 2, V2},
    {1, V1, &unlisted, CVR_CID_VERSION, CVR_QUERY, &version_2, CVR_ACTION_FAILED, 9, 1, 0},
    {1, V1, &listed, CVR_CID_VERSION, CVR_SET, &version_2, CVR_ACTION_FAILED, 9, 1, 0},
    {1, V1, &listed, CVR_CID_VERSION, CVR_QUERY, &broken, CVR_ACTION_FAILED, 9, 1, 0},
    {1, V2, &listed, CVR_CID_SIGNAL_STATE, CVR_QUERY, &broken, CVR_ACTION_FAILED, 9, 1, 0},
    {1, V2, &listed, NOT_KNOWN, CVR_QUERY, &broken, CVR_ACTION_FAILED, 9, 1, 0},
    {1, V1, &listed, NOT_KNOWN, CVR_QUERY, &broken, CVR_ACTION_UNKNOWN, 9, 2, V1},
    {1, V1, &listed, CVR_CID_SIGNAL_STATE, CVR_SET, &broken, CVR_ACTION_SERVE, 0, 2, V1},
    {1, V1, &listed, CVR_CID_PIN, CVR_SET, &broken, CVR_ACTION_SERVE, 0, 2, V1},
    {1, V2, &listed, CVR_CID_PIN, CVR_SET, &broken, CVR_ACTION_FAILED, 9, 1, 0},
    {2, V1, &listed, CVR_CID_VERSION, CVR_QUERY, &version_2, CVR_ACTION_FAILED, 9, 2, V2},
    {2, V1, &listed, NOT_KNOWN, CVR_SET, &broken, CVR_ACTION_UNKNOWN, 9, 2, V2},
    {2, V1, &listed, CVR_CID_SIGNAL_STATE, CVR_SET, &broken, CVR_ACTION_SERVE, 0, 2, V2},
    {2, V1, &listed, CVR_CID_PIN, CVR_SET, &broken, CVR_ACTION_SERVE, 0, 2, V2},
    {2, V1, &listed, CVR_CID_PIN, CVR_QUERY, &broken, CVR_ACTION_SERVE, 0, 2, V2},
    {2, V1, &listed, CVR_CID_DEVICE_SERVICES, CVR_QUERY, &broken, CVR_ACTION_SERVE, 0, 2, V2},
};

static cvr_modem_answer command(uint8_t *modem, uint32_t cid, uint32_t type, const payload *information)
{
    const cvr_service *service = cid == CVR_CID_VERSION ? &extensions : &basic_connect;
    uint8_t out[CVR_VERSION_INFO_LENGTH];
    return cvr_modem_receive(modem, CVR_MODEM_SIZE, header(CVR_MESSAGE_COMMAND, service, cid, type),
                             information->bytes, information->length, out, sizeof out);
}

static void modem_at(uint8_t *modem, int stage, uint16_t advertised, const payload *services)
{
    cvr_modem_make(modem, CVR_MODEM_SIZE, V2, advertised, services->bytes, services->length);
    if (stage >= CVR_MODEM_LISTED)
        command(modem, CVR_CID_DEVICE_SERVICES, CVR_QUERY, &broken);
    if (stage == CVR_MODEM_SETTLED)
        command(modem, CVR_CID_VERSION, CVR_QUERY, &version_2);
}

/* The kind that a reply of status 0 would show. */
static uint32_t served_kind(const modem_row *row)
{
    const kind_row *known = kind_of(&basic_connect, row->cid);
    return row->action == CVR_ACTION_SERVE ? known->kinds[SUCCEEDED] : CVR_KIND_NONE;
}

/* A modem's own list is judged in full. */
static void make_modem_table(void)
{
    uint8_t modem[CVR_MODEM_SIZE];
    check_refusal("modem made", 0, cvr_modem_make(modem, sizeof modem, V2, V1, twice.bytes, twice.length),
                  CVR_NO_REFUSAL, 0);
    check_refusal("modem made", 1, cvr_modem_make(modem, sizeof modem, V2, V1, fault_behind.bytes,
                                                  fault_behind.length), CVR_WRONG_SIZE, 24);
}

static void modem_table(void)
{
    int i;
    for (i = 0; i < (int)(sizeof modem_rows / sizeof modem_rows[0]); i++) {
        const modem_row *row = &modem_rows[i];
        uint8_t modem[CVR_MODEM_SIZE];
        cvr_modem_answer answer;
        modem_at(modem, row->stage, row->advertised, row->services);
        check("modem", i, "the stage before", modem[CVR_AT_MODEM_STAGE], (uint64_t)row->stage);
        answer = command(modem, row->cid, row->type, row->information);
        check("modem", i, "the refusal", answer.refusal.number, CVR_NO_REFUSAL);
        check("modem", i, "the action", answer.action, row->action);
        check("modem", i, "the status", answer.status, row->status);
        check("modem", i, "the kind", answer.kind, served_kind(row));
        check("modem", i, "the version", answer.version, row->version);
        check("modem", i, "the place", answer.place, row->action == CVR_ACTION_UNKNOWN ? 36 : 0);
        check("modem", i, "the next stage", modem[CVR_AT_MODEM_STAGE], (uint64_t)row->next);
    }
}

/* ---- lent memory that no call can have left: a byte of it changed */

typedef struct fault {
    char memory; /* assembly, host or modem */
    int at;
    uint8_t byte;
    uint64_t place; /* of the refusal, CVR_CONTRADICTION */
} fault;

static const fault faults[] = {
    {'a', CVR_AT_ASSEMBLY_MESSAGE_TYPE, 1, 0},
    {'a', CVR_AT_ASSEMBLY_WORD, 7, 28},
    {'a', CVR_AT_ASSEMBLY_TOTAL, 129, 32},
    {'a', CVR_AT_ASSEMBLY_TOTAL, 0, 32},
    {'a', CVR_AT_ASSEMBLY_NEXT, 0, 36},
    {'a', CVR_AT_ASSEMBLY_NEXT, 2, 36},
    {'a', CVR_AT_ASSEMBLY_INFORMATION_LENGTH + 1, 17, 40},
    {'a', CVR_AT_ASSEMBLY_GATHERED, 51, 44},
    {'h', CVR_AT_HOST_NATIVE, 1, 0},
    {'h', CVR_AT_HOST_STAGE, 4, 2},
    {'h', CVR_AT_HOST_VERSION, 1, 4},
    {'h', CVR_AT_HOST_NATIVE + 1, 1, 4}, /* of 1.00, settled at 2.00 */
    {'m', CVR_AT_MODEM_NATIVE, 1, 0},
    {'m', CVR_AT_MODEM_ADVERTISED, 1, 2},
    {'m', CVR_AT_MODEM_LISTS_VERSION, 2, 4},
    {'m', CVR_AT_MODEM_STAGE, 3, 6},
    {'m', CVR_AT_MODEM_VERSION, 1, 8},
    {'m', CVR_AT_MODEM_NATIVE + 1, 1, 2}, /* advertised above native */
    {'m', CVR_AT_MODEM_LISTS_VERSION, 0, 8}, /* settled at 2.00, VERSION not listed */
    {'m', CVR_AT_MODEM_VERSION + 1, 1, 8}, /* settled below the advertised version */
};

/* An assembly with the first of two fragments, whose second is left in `piece`. */
static size_t pending(uint8_t *assembly, uint8_t *piece)
{
    static const uint8_t information[50] = {0};
    uint8_t cut[CVR_MOST_CUT];
    cvr_message_header message = header(CVR_MESSAGE_COMMAND, &basic_connect, CVR_CID_SIGNAL_STATE, 0);
    size_t length = cvr_message_cut(message, 64, information, 50, cut, sizeof cut).length;
    memset(assembly, 0, CVR_ASSEMBLY_SIZE);
    check("receive", 0, "the first", cvr_receive(assembly, CVR_ASSEMBLY_SIZE, cut, 64, NULL, 0).received,
          CVR_RECEIVED_PENDING);
    memcpy(piece, cut + 64, length - 64);
    return length - 64;
}

static void memory_table(void)
{
    uint8_t memory[CVR_ASSEMBLY_SIZE], before[CVR_ASSEMBLY_SIZE], piece[64];
    int i;
    for (i = 0; i < (int)(sizeof faults / sizeof faults[0]); i++) {
        const fault *f = &faults[i];
        size_t length = pending(memory, piece);
        cvr_refusal refusal;
        if (f->memory == 'h')
            host_at(memory, CVR_HOST_SETTLED, V2, V1);
        if (f->memory == 'm')
            modem_at(memory, CVR_MODEM_SETTLED, V2, &listed);
        memory[f->at] = f->byte;
        memcpy(before, memory, sizeof before);
        refusal = f->memory == 'a' ? cvr_receive(memory, sizeof memory, piece, length, NULL, 0).refusal
                  : f->memory == 'h' ? cvr_host_close(memory, CVR_HOST_SIZE).refusal
                                     : cvr_modem_close(memory, CVR_MODEM_SIZE);
        check("memory", i, "the refusal", refusal.number, CVR_CONTRADICTION);
        check("memory", i, "the place", refusal.place, f->place);
        if (f->memory == 'a')
            memset(before, 0, sizeof before);
        check("memory", i, "a byte that is not as it must be", memcmp(memory, before, sizeof memory) != 0,
              0);
    }
}

/* ---- what becomes of an assembly */

static void assembly_table(void)
{
    uint8_t memory[CVR_ASSEMBLY_SIZE], before[CVR_ASSEMBLY_SIZE], piece[64];
    uint8_t whole[CVR_MOST_WHOLE];
    size_t length = pending(memory, piece);
    memcpy(before, memory, sizeof before);
    cvr_message_write(CVR_MESSAGE_OPEN, 1, 4096, whole, sizeof whole);
    check("assembly", 0, "small memory", cvr_receive(memory, CVR_ASSEMBLY_SIZE - 1, piece, length, NULL,
                                                     0).refusal.place, CVR_ASSEMBLY_SIZE);
    check("assembly", 1, "a whole message", cvr_receive(memory, sizeof memory, whole, 16, NULL,
                                                        0).message.word, 4096);
    check("assembly", 2, "a short one", cvr_receive(memory, sizeof memory, whole, 4, NULL,
                                                    0).refusal.number, CVR_TOO_SHORT);
    check("assembly", 3, "as it was", memcmp(memory, before, sizeof memory) == 0, 1);
    check("assembly", 4, "no room", cvr_receive(memory, sizeof memory, piece, length, NULL,
                                                0).refusal.place, 50);
    memset(before, 0, sizeof before);
    check("assembly", 5, "emptied", memcmp(memory, before, sizeof memory) == 0, 1);
    pending(memory, piece);
    check("assembly", 6, "no type", cvr_receive(memory, sizeof memory, whole, 3, NULL,
                                                0).refusal.number, CVR_TOO_SHORT);
    check("assembly", 7, "emptied", memcmp(memory, before, sizeof memory) == 0, 1);
}

/* ---- what is at the front of a stream */

enum fate { KEPT, EMPTIED }; /* of the assembly, which has the first of two fragments */

/* So many bytes that begin with the second fragment, but of this type and length; what comes of them. */
typedef struct front_row {
    uint32_t type, length;
    size_t bytes;
    uint32_t number;
    uint64_t place;
    uint32_t received, ended;
    size_t taken;
    enum fate fate;
} front_row;

#define SECOND 54 /* bytes of the second fragment */
#define NO_TYPE 5

static const front_row front_rows[] = {
    /* under 8 bytes */
    {CVR_MESSAGE_COMMAND, SECOND, 0, 0, 0, 0, 0, 0, KEPT},
    {CVR_MESSAGE_COMMAND, SECOND, 7, 0, 0, 0, 0, 7, KEPT},
    {CVR_MESSAGE_OPEN, 0, 7, 0, 0, 0, 0, 7, KEPT},
    /* a whole type, and not the length of its type */
    {CVR_MESSAGE_CLOSE, 11, 8, CVR_WRONG_LENGTH, 4, 0, 1, 8, KEPT},
    {CVR_MESSAGE_CLOSE, 16, 16, CVR_WRONG_LENGTH, 4, 0, 1, 8, KEPT},
    {CVR_MESSAGE_OPEN, 12, 8, CVR_WRONG_LENGTH, 4, 0, 1, 8, KEPT},
    {CVR_MESSAGE_OPEN, 20, 8, CVR_WRONG_LENGTH, 4, 0, 1, 8, KEPT},
    {CVR_MESSAGE_HOST_ERROR, 15, 9, CVR_WRONG_LENGTH, 4, 0, 1, 8, KEPT},
    {CVR_MESSAGE_OPEN_DONE, 0, 8, CVR_WRONG_LENGTH, 4, 0, 1, 8, KEPT},
    {CVR_MESSAGE_CLOSE_DONE, 12, 30, CVR_WRONG_LENGTH, 4, 0, 1, 8, KEPT},
    {CVR_MESSAGE_FUNCTION_ERROR, 0x10010, 8, CVR_WRONG_LENGTH, 4, 0, 1, 8, KEPT},
    /* any other type, and under 20 or over 4,096 */
    {CVR_MESSAGE_COMMAND, 0, 8, CVR_WRONG_LENGTH, 4, 0, 1, 8, EMPTIED},
    {CVR_MESSAGE_COMMAND, 19, 30, CVR_WRONG_LENGTH, 4, 0, 1, 8, EMPTIED},
    {CVR_MESSAGE_COMMAND_DONE, 4097, 8, CVR_WRONG_LENGTH, 4, 0, 1, 8, EMPTIED},
    {CVR_MESSAGE_COMMAND_DONE, 0x10014, 64, CVR_WRONG_LENGTH, 4, 0, 1, 8, EMPTIED},
    {CVR_MESSAGE_INDICATE_STATUS, 0xFFFFFFFF, 8, CVR_WRONG_LENGTH, 4, 0, 1, 8, EMPTIED},
    {NO_TYPE, 16, 16, CVR_WRONG_LENGTH, 4, 0, 1, 8, EMPTIED},
    {0x80000008, 4097, 8, CVR_WRONG_LENGTH, 4, 0, 1, 8, EMPTIED},
    /* shorter than its length */
    {CVR_MESSAGE_CLOSE, 12, 11, 0, 0, 0, 0, 11, KEPT},
    {CVR_MESSAGE_OPEN, 16, 15, 0, 0, 0, 0, 15, KEPT},
    {CVR_MESSAGE_COMMAND, 20, 19, 0, 0, 0, 0, 19, KEPT},
    {CVR_MESSAGE_COMMAND, SECOND, 8, 0, 0, 0, 0, 8, KEPT},
    {CVR_MESSAGE_COMMAND, SECOND, SECOND - 1, 0, 0, 0, 0, SECOND - 1, KEPT},
    {NO_TYPE, 4096, 4095, 0, 0, 0, 0, 4095, KEPT},
    /* a piece, alone and with bytes behind it */
    {CVR_MESSAGE_CLOSE, 12, 12, 0, 0, CVR_RECEIVED_WHOLE, 0, 12, KEPT},
    {CVR_MESSAGE_OPEN, 16, 16, 0, 0, CVR_RECEIVED_WHOLE, 0, 16, KEPT},
    {CVR_MESSAGE_FUNCTION_ERROR, 16, 4200, 0, 0, CVR_RECEIVED_WHOLE, 0, 16, KEPT},
    {CVR_MESSAGE_COMMAND, SECOND, SECOND, 0, 0, CVR_RECEIVED_COMPLETE, 0, SECOND, EMPTIED},
    {CVR_MESSAGE_COMMAND, SECOND, SECOND + 40, 0, 0, CVR_RECEIVED_COMPLETE, 0, SECOND, EMPTIED},
    {CVR_MESSAGE_COMMAND, SECOND - 1, SECOND, CVR_WRONG_LENGTH, 4, 0, 0, SECOND - 1, EMPTIED},
    {CVR_MESSAGE_COMMAND_DONE, SECOND, SECOND, CVR_WRONG_FRAGMENT, 16, 0, 0, SECOND, EMPTIED},
    {NO_TYPE, 20, 30, CVR_UNKNOWN, 0, 0, 0, 20, EMPTIED},
    {NO_TYPE, 4096, 4200, CVR_UNKNOWN, 0, 0, 0, 4096, EMPTIED},
};

enum { STREAM = CVR_STREAM_SIZE, ASSEMBLY = CVR_ASSEMBLY_SIZE, ROOM = CVR_MOST_INFORMATION };

/* A stream with its assembly and its output, and what is expected of them. */
typedef struct line {
    uint8_t stream[STREAM], assembly[ASSEMBLY], out[ROOM];
} line;

static line now, before;
static uint8_t front[4200];

static void put_number(uint8_t *at, uint32_t number)
{
    int i;
    for (i = 0; i < 4; i++)
        at[i] = (uint8_t)(number >> 8 * i);
}

/* An empty stream whose assembly has the first of two fragments; the second is at `front`. */
static void begin_line(void)
{
    memset(&now, 0, sizeof now);
    memset(now.out, 0xA5, sizeof now.out);
    memset(front, 0xC3, sizeof front);
    check("stream", 0, "the second fragment", pending(now.assembly, front), SECOND);
    before = now;
}

static cvr_stream_answer feed(const uint8_t *chunk, size_t length)
{
    return cvr_stream_feed(now.stream, sizeof now.stream, now.assembly, sizeof now.assembly, chunk, length,
                           now.out, sizeof now.out);
}

/* All members but the message's. */
static void check_fed(const char *table, int row, cvr_stream_answer got, const front_row *expected)
{
    check_refusal(table, row, got.piece.refusal, expected->number, expected->place);
    check(table, row, "received", got.piece.received, expected->received);
    check(table, row, "dropped", got.piece.dropped, 0);
    check(table, row, "the type", got.piece.message.message_type, expected->received ? expected->type : 0);
    check(table, row, "the length", got.piece.length,
          expected->received == CVR_RECEIVED_COMPLETE ? SECOND - 20 + 16 : 0);
    check(table, row, "ended", got.ended, expected->ended);
    check(table, row, "taken", got.taken, expected->taken);
}

/* Both memories and the output; so many bytes of the front are held. */
static void check_line(const char *table, int row, size_t held, const front_row *expected)
{
    put_number(before.stream + CVR_AT_STREAM_HELD, (uint32_t)held);
    put_number(before.stream + CVR_AT_STREAM_ENDED, expected->ended);
    memcpy(before.stream + CVR_AT_STREAM_PIECE, front, held);
    if (expected->fate == EMPTIED)
        memset(before.assembly, 0, sizeof before.assembly);
    if (expected->received == CVR_RECEIVED_COMPLETE)
        memset(before.out, 0, SECOND - 20 + 16);
    check(table, row, "a wrong byte of the stream", memcmp(now.stream, before.stream, STREAM) != 0, 0);
    check(table, row, "a wrong byte of the assembly",
          memcmp(now.assembly, before.assembly, ASSEMBLY) != 0, 0);
    check(table, row, "a wrong byte of the output", memcmp(now.out, before.out, ROOM) != 0, 0);
}

/* So many bytes are fed before the others. */
static void try_front(int i, const front_row *row, size_t first)
{
    front_row some = {0, 0, 0, 0, 0, 0, 0, 0, KEPT}, others = *row;
    int is_short = row->number == 0 && row->received == 0;
    begin_line();
    put_number(front, row->type);
    put_number(front + 4, row->length);
    some.taken = first;
    check_fed("the front, begun", i, feed(front, first), &some);
    check_line("the front, begun", i, first, &some);
    others.taken -= first;
    before = now;
    memset(before.stream, 0, sizeof before.stream);
    check_fed("the front", i, feed(front + first, row->bytes - first), &others);
    check_line("the front", i, is_short ? row->bytes : 0, row);
}

/* Each row at many cuts, all of them where it is short. */
static void front_table(void)
{
    size_t first;
    int i;
    for (i = 0; i < (int)(sizeof front_rows / sizeof front_rows[0]); i++) {
        const front_row *row = &front_rows[i];
        size_t most = row->number == 0 && row->received == 0 ? row->bytes : row->taken - 1;
        for (first = 0; first <= most; first += first < 60 ? 1 : 269)
            try_front(i, row, first);
        try_front(i, row, most);
    }
}

/* ---- what a stream refuses before it looks at the chunk */

/* What is lent, and what the stream's memory begins with. */
typedef struct lent_row {
    size_t room, stream, assembly;
    uint32_t held, ended, type, length;
    uint32_t number;
    uint64_t place;
} lent_row;

static const lent_row lent_rows[] = {
    {ROOM - 1, STREAM - 1, ASSEMBLY - 1, 4096, 2, 0, 0, CVR_OUTPUT_TOO_SMALL, ROOM},
    {0, STREAM, ASSEMBLY, 0, 1, 0, 0, CVR_OUTPUT_TOO_SMALL, ROOM},
    {ROOM, STREAM - 1, ASSEMBLY - 1, 4096, 2, 0, 0, CVR_OUTPUT_TOO_SMALL, STREAM},
    {ROOM, STREAM, ASSEMBLY - 1, 4096, 2, 0, 0, CVR_OUTPUT_TOO_SMALL, ASSEMBLY},
    {ROOM, STREAM, 0, 0, 1, 0, 0, CVR_OUTPUT_TOO_SMALL, ASSEMBLY},
    {ROOM, STREAM, ASSEMBLY, 4096, 2, NO_TYPE, 19, CVR_CONTRADICTION, CVR_AT_STREAM_HELD},
    {ROOM, STREAM, ASSEMBLY, 0x10000, 0, 0, 0, CVR_CONTRADICTION, CVR_AT_STREAM_HELD},
    {ROOM, STREAM, ASSEMBLY, 0, 2, 0, 0, CVR_CONTRADICTION, CVR_AT_STREAM_ENDED},
    {ROOM, STREAM, ASSEMBLY, 0, 0x100, 0, 0, CVR_CONTRADICTION, CVR_AT_STREAM_ENDED},
    {ROOM, STREAM, ASSEMBLY, 1, 1, 0, 0, CVR_CONTRADICTION, CVR_AT_STREAM_ENDED},
    {ROOM, STREAM, ASSEMBLY, 4095, 1, NO_TYPE, 19, CVR_CONTRADICTION, CVR_AT_STREAM_ENDED},
    {ROOM, STREAM, ASSEMBLY, 8, 0, CVR_MESSAGE_CLOSE, 16, CVR_CONTRADICTION, 12},
    {ROOM, STREAM, ASSEMBLY, 8, 0, CVR_MESSAGE_OPEN, 20, CVR_CONTRADICTION, 12},
    {ROOM, STREAM, ASSEMBLY, 8, 0, NO_TYPE, 19, CVR_CONTRADICTION, 12},
    {ROOM, STREAM, ASSEMBLY, 8, 0, CVR_MESSAGE_COMMAND, 4097, CVR_CONTRADICTION, 12},
    {ROOM, STREAM, ASSEMBLY, 12, 0, CVR_MESSAGE_CLOSE, 12, CVR_CONTRADICTION, 12},
    {ROOM, STREAM, ASSEMBLY, 64, 0, CVR_MESSAGE_COMMAND, 64, CVR_CONTRADICTION, 12},
    {ROOM, STREAM, ASSEMBLY, 4095, 0, CVR_MESSAGE_COMMAND, 20, CVR_CONTRADICTION, 12},
    {ROOM, STREAM, ASSEMBLY, 0, 1, NO_TYPE, 19, CVR_WRONG_LENGTH, CVR_AT_MESSAGE_LENGTH},
};

/* Whatever is in the chunk, nothing is taken and nothing changes. */
static void lent_table(void)
{
    int i, length;
    for (i = 0; i < (int)(sizeof lent_rows / sizeof lent_rows[0]); i++)
        for (length = 0; length <= 64; length += 16) {
            const lent_row *row = &lent_rows[i];
            front_row expected = {0, 0, 0, row->number, row->place, 0, 0, 0, KEPT};
            cvr_stream_answer got;
            begin_line();
            put_number(now.stream + CVR_AT_STREAM_HELD, row->held);
            put_number(now.stream + CVR_AT_STREAM_ENDED, row->ended);
            put_number(now.stream + CVR_AT_STREAM_PIECE, row->type);
            put_number(now.stream + CVR_AT_STREAM_PIECE + 4, row->length);
            before = now;
            expected.ended = row->number == CVR_WRONG_LENGTH;
            got = cvr_stream_feed(now.stream, row->stream, now.assembly, row->assembly, front,
                                  (size_t)length, now.out, row->room);
            check_fed("lent", i, got, &expected);
            check("lent", i, "a changed byte", memcmp(&now, &before, sizeof now) != 0, 0);
        }
}

/* ---- what a stream's memory may hold all the same, and its assembly's faults */

static void held_table(void)
{
    static const front_row whole = {CVR_MESSAGE_CLOSE, 12, 12, 0, 0, CVR_RECEIVED_WHOLE, 0, 12, KEPT};
    static const front_row fault = {CVR_MESSAGE_COMMAND, SECOND, SECOND, CVR_CONTRADICTION,
                                    CVR_AT_ASSEMBLY_NEXT, 0, 0, SECOND, EMPTIED};
    static const front_row end = {NO_TYPE, 0, 8, CVR_WRONG_LENGTH, 4, 0, 1, 8, EMPTIED};
    uint8_t close[12] = {CVR_MESSAGE_CLOSE, 0, 0, 0, 12};
    begin_line();
    memset(now.stream + CVR_AT_STREAM_PIECE, 0xEE, 100); /* past the bytes held: not looked at */
    check_fed("held", 0, feed(close, sizeof close), &whole);
    begin_line();
    now.assembly[CVR_AT_ASSEMBLY_NEXT] = 0;
    before = now;
    check_fed("held", 1, feed(close, sizeof close), &whole);
    check_line("held", 1, 0, &whole);
    check_fed("held", 2, feed(front, SECOND), &fault);
    check_line("held", 2, 0, &fault);
    begin_line();
    now.assembly[CVR_AT_ASSEMBLY_NEXT] = 0; /* an end empties it unjudged */
    memset(front + CVR_AT_MESSAGE_LENGTH, 0, 4);
    check_fed("held", 3, feed(front, SECOND), &end);
    check_line("held", 3, 0, &end);
}

/* ---- resets */

static void reset_table(void)
{
    static uint8_t stream[STREAM + 1], assembly[ASSEMBLY + 1];
    const uint8_t none[ASSEMBLY] = {0};
    size_t i;
    for (i = 0; i < 4; i++) {
        size_t stream_size = STREAM + 1 - (i & 1) * 2, assembly_size = ASSEMBLY + 1 - (i >> 1) * 2;
        memset(stream, 0xFF, sizeof stream);
        memset(assembly, 0xFF, sizeof assembly);
        check_refusal("reset", (int)i, cvr_stream_reset(stream, stream_size, assembly, assembly_size),
                      i == 0 ? CVR_NO_REFUSAL : CVR_OUTPUT_TOO_SMALL, i & 1 ? STREAM : ASSEMBLY);
        check("reset", (int)i, "the stream is empty", memcmp(stream, none, STREAM) == 0, i == 0);
        check("reset", (int)i, "the assembly is empty", memcmp(assembly, none, ASSEMBLY) == 0, i == 0);
        check("reset", (int)i, "the first byte", stream[0] + assembly[0], i == 0 ? 0 : 0x1FE);
        check("reset", (int)i, "the byte behind", stream[STREAM] + assembly[ASSEMBLY], 0x1FE);
    }
}

int main(void)
{
    write_payloads();
    class_table();
    pin_number_table();
    kind_table();
    zero_size_table();
    ask_table();
    host_table();
    make_modem_table();
    modem_table();
    memory_table();
    assembly_table();
    front_table();
    lent_table();
    held_table();
    reset_table();
    return failed;
}
