/* The library beside libmbim (mbim-glib) for what both do: nanoseconds a call in one run, the rounds of
 * the two taking turns, each side's least. Both answer about the same bytes, and before anything is
 * measured they are held to the same answer.
 *
 * Reading. libmbim reads from a complete message, an MbimMessage made before; the library from the
 * payload inside, which is where a receiver's output has it. libmbim's parse function is called with a
 * place for every member, and what it allocates is freed, as its users must. It judges offsets and sizes
 * but no table; the library judges all of them. Texts: libmbim makes strings in UTF-8, the library says
 * where the UTF-16 lies; a second row leaves libmbim's texts out, which it then doesn't look at.
 *
 * Collecting, from fragments to information. The library takes each piece's bytes through its one door,
 * which judges them, and copies the information out. libmbim's collector takes fragments that are
 * MbimMessages: the row 'as they come' makes each from its bytes, validates it and frees it, as its
 * device code does; the row 'made before' has the collector alone. The collector is internal: the shared
 * library hides it, the static archive has it. */
#include "culvertroost.h"

#include <libmbim-glib.h>
#include <stdio.h>
#include <stdlib.h>
#include <string.h>
#include <time.h>

/* As libmbim's mbim-message-private.h has them; null where only the shared library is there. */
extern __attribute__((weak)) MbimMessage *_mbim_message_fragment_collector_init(const MbimMessage *, GError **);
extern __attribute__((weak)) gboolean _mbim_message_fragment_collector_add(MbimMessage *, const MbimMessage *,
                                                                          GError **);
extern __attribute__((weak)) gboolean _mbim_message_fragment_collector_complete(MbimMessage *);

enum { ROUNDS = 25, CALLS = 4000, ELEMENTS = 8, CIDS = 16, COLLECTED = 4008 };

static void must(int holds, const char *what) {
    if (!holds) {
        fprintf(stderr, "libmbim: not alike: %s\n", what);
        exit(1);
    }
}

/* An answer that the compiler has to make. */
static inline void keep(const void *answer) {
    __asm__ volatile("" : : "r"(answer) : "memory");
}

/* ---- inputs: a payload, and the message around it; a message in pieces --------------------------- */

static uint8_t payload[CVR_MOST_INFORMATION];
static size_t length;
static MbimMessage *message;

/* The reply that carries information, in fragments. */
static cvr_cut_answer reply(uint32_t cid, size_t size, const uint8_t *information, size_t bytes, uint8_t *out) {
    cvr_message_header header = {CVR_MESSAGE_COMMAND_DONE, 1, CVR_BASIC_CONNECT, cid, CVR_STATUS_SUCCESS};
    cvr_cut_answer cut = cvr_message_cut(header, size, information, bytes, out, CVR_MOST_CUT);
    must(cut.refusal.number == 0, "a reply");
    return cut;
}

/* The message around the payload, which was just written. */
static void wrap(cvr_written written, uint32_t cid) {
    static uint8_t bytes[CVR_MOST_CUT];
    must(written.refusal.number == 0, "a payload");
    length = written.length;
    if (message != NULL)
        mbim_message_unref(message);
    message = mbim_message_new(bytes, (guint32)reply(cid, CVR_MOST_TRANSFER, payload, length, bytes).length);
    must(mbim_message_validate(message, NULL), "a message");
}

/* ---- registration -------------------------------------------------------------------------------- */

static struct {
    MbimNwError nw_error;
    MbimRegisterState state;
    MbimRegisterMode mode;
    MbimDataClass available, preferred;
    MbimCellularClass cellular;
    MbimRegistrationFlag flag;
    gchar *id, *name, *roaming;
} their_registration;

static void registration_ours(void) {
    cvr_registration_answer answer = cvr_registration_read(CVR_VERSION_2_00, payload, length);
    keep(&answer);
}

static gboolean parse_registration(gchar **id, gchar **name, gchar **roaming) {
    return mbim_message_ms_basic_connect_v2_register_state_response_parse(
        message, &their_registration.nw_error, &their_registration.state, &their_registration.mode,
        &their_registration.available, &their_registration.cellular, id, name, roaming, &their_registration.flag,
        &their_registration.preferred, NULL);
}

static void registration_theirs(void) {
    parse_registration(&their_registration.id, &their_registration.name, &their_registration.roaming);
    g_free(their_registration.id);
    g_free(their_registration.name);
    g_free(their_registration.roaming);
}

static void registration_numbers_theirs(void) {
    parse_registration(NULL, NULL, NULL);
}

/* A text in UTF-16, of letters. */
static void fill_text(uint8_t *text, size_t bytes) {
    for (size_t i = 0; i < bytes; i += 2)
        text[i] = (uint8_t)('a' + i % 26);
}

/* The library's range is libmbim's string. */
static int same_text(cvr_range range, const char *text) {
    int same = strlen(text) == range.length / 2;
    for (size_t i = 0; same && i < range.length; i += 2)
        same = payload[range.start + i] == (uint8_t)text[i / 2];
    return same;
}

static void make_registration(void) {
    static uint8_t id[10], name[40], roaming[126];
    cvr_registration info = {CVR_VERSION_2_00, 0, CVR_REGISTER_STATE_HOME, CVR_REGISTER_MODE_AUTOMATIC,
                             CVR_DATA_CLASS_LTE, CVR_CELLULAR_CLASS_GSM, 0, CVR_DATA_CLASS_LTE};
    fill_text(id, sizeof id);
    fill_text(name, sizeof name);
    fill_text(roaming, sizeof roaming);
    wrap(cvr_registration_write(info, id, sizeof id, name, sizeof name, roaming, sizeof roaming, payload,
                                sizeof payload),
         CVR_CID_REGISTER_STATE);
    cvr_registration_answer ours = cvr_registration_read(CVR_VERSION_2_00, payload, length);
    must(parse_registration(&their_registration.id, &their_registration.name, &their_registration.roaming) &&
             ours.refusal.number == 0,
         "registration, read");
    must((uint32_t)their_registration.state == ours.info.register_state &&
             (uint32_t)their_registration.available == ours.info.available_data_class &&
             (uint32_t)their_registration.preferred == ours.info.preferred_data_class,
         "registration, numbers");
    must(same_text(ours.texts.provider_id, their_registration.id) &&
             same_text(ours.texts.provider_name, their_registration.name) &&
             same_text(ours.texts.roaming_text, their_registration.roaming),
         "registration, texts");
    g_free(their_registration.id);
    g_free(their_registration.name);
    g_free(their_registration.roaming);
}

/* ---- packet service ------------------------------------------------------------------------------ */

static struct {
    guint32 nw_error;
    MbimPacketServiceState state;
    MbimDataClass class;
    guint64 up, down;
    MbimFrequencyRange range;
} their_packet;

static void packet_ours(void) {
    cvr_packet_service_answer answer = cvr_packet_service_read(CVR_VERSION_2_00, payload, length);
    keep(&answer);
}

static gboolean parse_packet(void) {
    return mbim_message_ms_basic_connect_v2_packet_service_response_parse(
        message, &their_packet.nw_error, &their_packet.state, &their_packet.class, &their_packet.up,
        &their_packet.down, &their_packet.range, NULL);
}

static void packet_theirs(void) {
    parse_packet();
}

static void make_packet(void) {
    cvr_packet_service info = {CVR_VERSION_2_00, 0, CVR_PACKET_SERVICE_STATE_ATTACHED, 0,
                               CVR_DATA_CLASS_5G_NSA, CVR_FREQUENCY_RANGE_1, 50000000, 150000000};
    wrap(cvr_packet_service_write(info, payload, sizeof payload), CVR_CID_PACKET_SERVICE);
    cvr_packet_service_answer ours = cvr_packet_service_read(CVR_VERSION_2_00, payload, length);
    must(parse_packet() && ours.refusal.number == 0, "packet service, read");
    must((uint32_t)their_packet.state == ours.info.packet_service_state &&
             (uint32_t)their_packet.class == ours.info.current_data_class &&
             their_packet.up == ours.info.uplink_speed && their_packet.down == ours.info.downlink_speed &&
             (uint32_t)their_packet.range == ours.info.frequency_range,
         "packet service, numbers");
}

/* ---- signal state -------------------------------------------------------------------------------- */

static struct {
    guint32 rssi, error_rate, interval, rssi_threshold, error_rate_threshold, count;
    MbimRsrpSnrInfoArray *entries;
} their_signal;

static void signal_ours(void) {
    cvr_signal_state_answer answer = cvr_signal_state_read(CVR_VERSION_2_00, payload, length);
    keep(&answer);
}

static gboolean parse_signal(void) {
    return mbim_message_ms_basic_connect_v2_signal_state_response_parse(
        message, &their_signal.rssi, &their_signal.error_rate, &their_signal.interval, &their_signal.rssi_threshold,
        &their_signal.error_rate_threshold, &their_signal.count, &their_signal.entries, NULL);
}

static void signal_theirs(void) {
    parse_signal();
    mbim_rsrp_snr_info_array_free(their_signal.entries);
}

static void make_signal(uint32_t count) {
    cvr_signal_state info = {.version = CVR_VERSION_2_00, .rssi = CVR_RSSI_UNKNOWN,
                             .error_rate = CVR_ERROR_RATE_UNKNOWN, .signal_strength_interval = 5, .count = count};
    for (uint32_t i = 0; i < count; i++) {
        cvr_rsrp_snr entry = {60 + i, 50, 0, 0, CVR_DATA_CLASS_LTE};
        info.entries[i] = entry;
    }
    wrap(cvr_signal_state_write(info, payload, sizeof payload), CVR_CID_SIGNAL_STATE);
    cvr_signal_state_answer ours = cvr_signal_state_read(CVR_VERSION_2_00, payload, length);
    must(parse_signal() && ours.refusal.number == 0, "signal, read");
    must(their_signal.count == ours.info.count && their_signal.interval == 5, "signal, numbers");
    for (uint32_t i = 0; i < count; i++)
        must(memcmp(their_signal.entries[i], &ours.info.entries[i], sizeof(cvr_rsrp_snr)) == 0,
             "signal, entries");
    mbim_rsrp_snr_info_array_free(their_signal.entries);
}

/* ---- device services ----------------------------------------------------------------------------- */

static cvr_device_service elements[ELEMENTS];
static uint32_t cids[ELEMENTS][CIDS];

static struct {
    guint32 count, sessions;
    MbimDeviceServiceElementArray *elements;
} their_services;

/* All elements with all CIDs, in one call. */
static void services_ours(void) {
    cvr_device_services_all(payload, length, (uint32_t *)elements, ELEMENTS * CVR_ELEMENT_WORDS, cids[0],
                            ELEMENTS * CIDS);
}

static gboolean parse_services(void) {
    return mbim_message_device_services_response_parse(message, &their_services.count, &their_services.sessions,
                                                       &their_services.elements, NULL);
}

static void services_theirs(void) {
    parse_services();
    mbim_device_service_element_array_free(their_services.elements);
}

static void make_services(void) {
    static cvr_service_list list;
    list.device_services_count = ELEMENTS;
    for (uint32_t i = 0; i < ELEMENTS; i++) {
        cvr_device_service fields = {{i, i, i, i}, 0, 0, CIDS};
        list.elements[i].fields = fields;
        for (uint32_t k = 0; k < CIDS; k++)
            list.elements[i].cids[k] = 100 * i + k;
    }
    wrap(cvr_device_services_write(list, payload, sizeof payload), CVR_CID_DEVICE_SERVICES);
    services_ours();
    must(parse_services() && their_services.count == ELEMENTS, "services, read");
    for (uint32_t i = 0; i < ELEMENTS; i++) {
        MbimDeviceServiceElement *element = their_services.elements[i];
        must(element->cids_count == elements[i].cid_count &&
                 memcmp(&element->device_service_id, &elements[i].device_service_id, 16) == 0 &&
                 memcmp(element->cids, cids[i], sizeof cids[i]) == 0,
             "services, elements");
    }
    mbim_device_service_element_array_free(their_services.elements);
}

/* ---- collecting ---------------------------------------------------------------------------------- */

static uint8_t stream[CVR_MOST_CUT], assembly[CVR_ASSEMBLY_SIZE], information[CVR_MOST_INFORMATION];
static size_t stream_length, transfer;
static uint32_t pieces;
static MbimMessage *made[CVR_MOST_FRAGMENTS];
static uint64_t last_length; /* of information, once a message is complete */
static const guint8 *their_information;
static guint32 their_length;

static size_t piece_length(uint32_t i) {
    return i + 1 < pieces ? transfer : stream_length - i * transfer;
}

static void collect_ours(void) {
    for (uint32_t i = 0; i < pieces; i++) {
        cvr_receive_answer answer = cvr_receive(assembly, sizeof assembly, stream + i * transfer, piece_length(i),
                                                information, sizeof information);
        keep(&answer);
        last_length = answer.length;
    }
}

/* One fragment to the collector, which the first one makes. */
static MbimMessage *collect(MbimMessage *collector, const MbimMessage *fragment) {
    if (collector == NULL)
        return _mbim_message_fragment_collector_init(fragment, NULL);
    _mbim_message_fragment_collector_add(collector, fragment, NULL);
    return collector;
}

/* Where the information of a complete message lies. */
static void show(MbimMessage *collector) {
    if (_mbim_message_fragment_collector_complete(collector))
        their_information = mbim_message_command_done_get_raw_information_buffer(collector, &their_length);
}

static MbimMessage *collected(void) {
    MbimMessage *collector = NULL;
    for (uint32_t i = 0; i < pieces; i++) {
        collector = collect(collector, made[i]);
        show(collector);
    }
    return collector;
}

static void collect_made_theirs(void) {
    mbim_message_unref(collected());
}

static void collect_theirs(void) {
    MbimMessage *collector = NULL;
    for (uint32_t i = 0; i < pieces; i++) {
        MbimMessage *fragment = mbim_message_new(stream + i * transfer, (guint32)piece_length(i));
        if (mbim_message_validate(fragment, NULL))
            collector = collect(collector, fragment);
        mbim_message_unref(fragment);
        show(collector);
    }
    mbim_message_unref(collector);
}

static void make_pieces(size_t size) {
    for (uint32_t i = 0; i < pieces; i++)
        mbim_message_unref(made[i]);
    for (size_t i = 0; i < COLLECTED; i++)
        payload[i] = (uint8_t)(i * 7);
    cvr_cut_answer cut = reply(CVR_CID_DEVICE_SERVICES, size, payload, COLLECTED, stream);
    transfer = size;
    stream_length = cut.length;
    pieces = cut.count;
    for (uint32_t i = 0; i < pieces; i++)
        made[i] = mbim_message_new(stream + i * transfer, (guint32)piece_length(i));
    collect_ours();
    must(last_length == COLLECTED && memcmp(information, payload, COLLECTED) == 0, "collecting, ours");
    MbimMessage *collector = collected();
    must(their_length == COLLECTED && memcmp(their_information, payload, COLLECTED) == 0, "collecting, theirs");
    mbim_message_unref(collector);
}

/* ---- measuring ----------------------------------------------------------------------------------- */

static double nanoseconds(void (*call)(void), int calls) {
    struct timespec start, end;
    clock_gettime(CLOCK_MONOTONIC, &start);
    for (int i = 0; i < calls; i++)
        call();
    clock_gettime(CLOCK_MONOTONIC, &end);
    return ((double)(end.tv_sec - start.tv_sec) * 1e9 + (double)(end.tv_nsec - start.tv_nsec)) / calls;
}

static void row(const char *name, size_t bytes, int calls, void (*ours)(void), void (*theirs)(void)) {
    double least = 1e18, their_least = 1e18;
    for (int round = 0; round < ROUNDS; round++) {
        double time = nanoseconds(ours, calls), their_time = nanoseconds(theirs, calls);
        least = time < least ? time : least;
        their_least = their_time < their_least ? their_time : their_least;
    }
    printf("%-38s %5zu %9.1f %9.1f %6.2f\n", name, bytes, least, their_least, their_least / least);
}

static void collecting(void) {
    static const size_t sizes[] = {64, 512, 4096};
    char name[64];
    for (size_t i = 0; i < sizeof sizes / sizeof sizes[0]; i++) {
        make_pieces(sizes[i]);
        int calls = CALLS / (int)pieces;
        snprintf(name, sizeof name, "collect at %zu, as they come, all %u", sizes[i], (unsigned)pieces);
        row(name, COLLECTED, calls, collect_ours, collect_theirs);
        snprintf(name, sizeof name, "collect at %zu, made before, all %u", sizes[i], (unsigned)pieces);
        row(name, COLLECTED, calls, collect_ours, collect_made_theirs);
    }
}

int main(void) {
    printf("%-38s %5s %9s %9s %6s\n", "call", "bytes", "library", "libmbim", "ratio");
    make_registration();
    row("registration read, 2.00", length, CALLS, registration_ours, registration_theirs);
    row("registration read, libmbim no texts", length, CALLS, registration_ours, registration_numbers_theirs);
    make_packet();
    row("packet service read, 2.00", length, CALLS, packet_ours, packet_theirs);
    make_signal(1);
    row("signal read, 2.00, 1 entry", length, CALLS, signal_ours, signal_theirs);
    make_signal(16);
    row("signal read, 2.00, 16 entries", length, CALLS, signal_ours, signal_theirs);
    make_services();
    row("services, 8 of 16 CIDs, all CIDs", length, CALLS, services_ours, services_theirs);
    if (_mbim_message_fragment_collector_init != NULL)
        collecting();
    else
        printf("collecting: not measured, libmbim's static archive is not installed\n");
    return 0;
}
