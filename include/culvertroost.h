/*
 * culvertroost: the control messages of MBIM with extensions 2.0, for hosts and for modems.
 *
 * Readers and writers of seven payloads and of whole messages, the cutter and the assembler of
 * fragments, messages from a byte stream, the version handshake of both ends, a modem's table of PINs,
 * decibels and bars. Every function is proved against its specification: on any bytes and any numbers it
 * ends, with the answer described here.
 *
 * A station's receive loop; one read of a cdc-wdm device is one piece:
 *
 *   void receive(int device, uint16_t advertised)
 *   {
 *       static uint8_t assembly[CVR_ASSEMBLY_SIZE], host[CVR_HOST_SIZE];
 *       static uint8_t piece[CVR_MOST_TRANSFER], information[CVR_MOST_INFORMATION];
 *       ssize_t length;
 *       cvr_host_make(host, sizeof host, CVR_VERSION_2_00);
 *       while ((length = read(device, piece, sizeof piece)) > 0) {
 *           cvr_receive_answer got = cvr_receive(assembly, sizeof assembly, piece, (size_t)length,
 *                                                information, sizeof information);
 *           cvr_refusal refusal = got.refusal;
 *           if (got.message.message_type == CVR_MESSAGE_OPEN_DONE && got.message.word == 0)
 *               refusal = cvr_host_open(host, sizeof host, advertised).refusal;
 *           if (got.received == CVR_RECEIVED_COMPLETE)
 *               refusal = cvr_host_receive(host, sizeof host, got.message, information,
 *                                          got.length).refusal;
 *           if (refusal.number != CVR_NO_REFUSAL)
 *               fprintf(stderr, "refused: %s at %u\n", cvr_refusal_name(refusal.number),
 *                       (unsigned)refusal.place);
 *       }
 *   }
 *
 * cvr_host_next_command says what to send, cvr_payload_kind what a complete message shows.
 * A line without packet bounds is read by cvr_stream_feed.
 * examples/station.c and examples/modem.c are whole programs, examples/pin.c is a run of PIN entries,
 * examples/serial_line.c shows what comes from a serial line.
 *
 * Memory. The library allocates nothing, keeps nothing between calls and never faults. What lasts
 * between calls lies in memory that you lend: bytes of any alignment, without pointers inside, that
 * may be copied. Several assemblies, streams, hosts, modems and tables of PINs don't disturb each other;
 * calls on different memory may run in parallel. Of other libraries it wants memcpy, memmove and memset.
 * A call takes less than 5 KB of stack, but a PIN entry (cvr_pin_enter, cvr_pin_receive) some 7 KB, and
 * cvr_device_services_write some 36 KB, half of it the list that is passed;
 * cvr_device_services_write_all writes the same from two lists.
 *
 * What a caller owes:
 *   - a pointer is valid for the length that comes after it (a number of bytes, or of uint32_t where
 *     the pointer is to them); with length 0 it is any pointer, null too;
 *   - a range that is written to overlaps no other range of the same call.
 * Nothing else is asked. Numbers need not be checked first, lengths need not be sensible.
 *
 * Answers. But for a service id and a transaction number, an answer is a refusal or begins with one: a
 * number and a place.
 *   - Number 0: there is no refusal, and the place is 0. Output past what was written stays as it was.
 *   - Any other number is one of enum cvr_refusal_number. Every other member of the answer is 0, no
 *     output is written, and the memory of a host, a modem or a table of PINs stays as it was. What
 *     becomes of an assembly is told at cvr_receive, what of a stream at cvr_stream_feed. `taken` and
 *     `ended` of a stream's answer are the exception: they count beside a refusal too.
 * Compare answers member by member: padding between members is unspecified, so memcmp won't do.
 *
 * 'Refuses' below lists a function's refusals in the order in which they are judged, without CVR_;
 * the first that holds is the answer. The place is the byte offset of the wrong field, in the payload,
 * message or lent memory, as the CVR_AT_ names have it, unless another is named.
 *
 * MBIM has no checksum: a damaged byte that breaks no rule is shown as it came.
 *
 * Versions are BCD numbers: CVR_VERSION_1_00 or CVR_VERSION_2_00. A record's member that only the
 * other version has is 0 in an answer, and a writer doesn't look at it.
 */
#ifndef CULVERTROOST_H
#define CULVERTROOST_H

#include <stddef.h>
#include <stdint.h>

/* There are archives for x86-64, AArch64, ARMv7 and RISC-V with 64 bits: docs/boards.md. */
#if defined(__BYTE_ORDER__) && __BYTE_ORDER__ != __ORDER_LITTLE_ENDIAN__
#error "culvertroost is for little-endian machines"
#endif
#if UINTPTR_MAX != UINT32_MAX && UINTPTR_MAX != UINT64_MAX
#error "culvertroost is for pointers of 32 or 64 bits"
#endif

#ifdef __cplusplus
extern "C" {
#endif

/* This library's own version. A call, a struct or a number that changes raises the first two. */
#define CVR_LIBRARY_VERSION "0.9.0"
#define CVR_LIBRARY_VERSION_MAJOR 0
#define CVR_LIBRARY_VERSION_MINOR 9
#define CVR_LIBRARY_VERSION_PATCH 0

/* ---- refusals ---------------------------------------------------------------------------------- */

/* The number of a refusal. Its place is the field that is wrong, where no other is named.
 * docs/refusals.md has an example of each, and what usually causes it. */
enum cvr_refusal_number {
    CVR_NO_REFUSAL = 0,
    /* Fewer bytes than the header or the fixed part. Place: the length given. */
    CVR_TOO_SHORT = 1,
    /* A length disagrees. Place: of a payload, the length given; of a message its length field, 4, or
     * the information length field, 44, in an indication 40. */
    CVR_WRONG_LENGTH = 2,
    /* A message type, service or CID that is not known. Place: 0, 20 or 36. */
    CVR_UNKNOWN = 3,
    /* The total or the number of a fragment is wrong. Place: 12 or 16. */
    CVR_WRONG_FRAGMENT = 4,
    /* Over CVR_MOST_INFORMATION bytes. Place: a message's information length field; else 0. */
    CVR_TOO_LONG = 5,
    /* An offset inside the fixed part. Place: the offset field. */
    CVR_OFFSET_IN_FIXED_PART = 6,
    /* Offset and size reach beyond the payload. Place: the offset field. */
    CVR_PAST_END = 7,
    /* A size over its limit, odd for a text, or unfit for its list. Place: the offset field; of a PIN
     * that is made, its secret_length. */
    CVR_WRONG_SIZE = 8,
    /* A number or a bit outside its table. */
    CVR_OUTSIDE_TABLE = 9,
    /* Fields contradict each other, or lent memory holds numbers that no calls can have left. */
    CVR_CONTRADICTION = 10,
    /* Lent output or memory is too small. Place: the bytes needed. */
    CVR_OUTPUT_TOO_SMALL = 11,
    /* Not a known version, or advertised above native. Place: 0. */
    CVR_WRONG_VERSION = 12,
    /* The modem's advertised version is above the host's. Place: 0. */
    CVR_ABOVE_HOST = 13,
    /* 2.00 is advertised, but VERSION is not listed. Place: 0. */
    CVR_VERSION_NOT_LISTED = 14,
    /* The count of a list is outside its limits. */
    CVR_WRONG_COUNT = 15,
    /* A transfer size outside its limits. Place: 4 for a fragment, else 0. */
    CVR_WRONG_TRANSFER_SIZE = 16,
    /* An offset that is not a multiple of 4. Place: the offset field. */
    CVR_MISALIGNED_OFFSET = 17,
    /* An offset other than 0 beside size 0; given only where CVR_ZERO_SIZE_STRICT is chosen, and by
     * cvr_pin_enter, which is strict. Place: the offset field. */
    CVR_OFFSET_WITH_ZERO_SIZE = 18,
    /* A line of a station's trace without the form of one; the replay program gives it, no function
     * here. Place: the first column, from 0, where no good line can go on or end. */
    CVR_BAD_LINE = 19
};

/* The faults of an offset/size pair are judged at its offset field, in this order: WRONG_SIZE (over its
 * limit, odd for a text), OFFSET_WITH_ZERO_SIZE (where it is given), OFFSET_IN_FIXED_PART,
 * MISALIGNED_OFFSET, PAST_END. With size 0 there are none of the last three. */

/* The name of a refusal's number, for a log. */
static inline const char *cvr_refusal_name(uint32_t number)
{
    static const char *const names[] = {
        "NO_REFUSAL", "TOO_SHORT", "WRONG_LENGTH", "UNKNOWN", "WRONG_FRAGMENT", "TOO_LONG",
        "OFFSET_IN_FIXED_PART", "PAST_END", "WRONG_SIZE", "OUTSIDE_TABLE", "CONTRADICTION",
        "OUTPUT_TOO_SMALL", "WRONG_VERSION", "ABOVE_HOST", "VERSION_NOT_LISTED", "WRONG_COUNT",
        "WRONG_TRANSFER_SIZE", "MISALIGNED_OFFSET", "OFFSET_WITH_ZERO_SIZE", "BAD_LINE"
    };
    return number < sizeof names / sizeof names[0] ? names[number] : "?";
}

typedef struct cvr_refusal {
    uint32_t number; /* enum cvr_refusal_number */
    uint64_t place;
} cvr_refusal;

/* What a writer answers. */
typedef struct cvr_written {
    cvr_refusal refusal;
    uint64_t length; /* bytes written at the front of the output */
} cvr_written;

/* ---- numbers ----------------------------------------------------------------------------------- */

/* Versions of the extensions, and the one MBIM version beside them. */
#define CVR_VERSION_1_00 UINT16_C(0x0100)
#define CVR_VERSION_2_00 UINT16_C(0x0200)
#define CVR_MBIM_1_00 UINT16_C(0x0100)

/* How many bytes of memory to lend. */
#define CVR_ASSEMBLY_SIZE 4144
#define CVR_STREAM_SIZE 4104 /* its assembly's is beside it */
#define CVR_HOST_SIZE 6
#define CVR_MODEM_SIZE 10
#define CVR_PINS_SIZE 748 /* a table of PINs */

/* Limits. */
#define CVR_MOST_INFORMATION 4096 /* bytes of information in a message, and of a payload */
#define CVR_MOST_CUT 6004         /* bytes of all fragments of a message, at any transfer size */
#define CVR_MOST_WHOLE 16         /* bytes of a whole message */
#define CVR_MOST_FRAGMENTS 128    /* fragments of a message */
#define CVR_LEAST_TRANSFER 64     /* transfer size: bytes of one fragment */
#define CVR_MOST_TRANSFER 4096
#define CVR_MOST_ENTRIES 16       /* entries of a signal state */
#define CVR_MOST_SERVICES 32      /* elements of a device services list */
#define CVR_MOST_CIDS 128         /* CIDs of one element */
#define CVR_MOST_PROVIDER_ID 12   /* bytes of a registration's texts, UTF-16LE */
#define CVR_MOST_PROVIDER_NAME 40
#define CVR_MOST_ROAMING_TEXT 126
#define CVR_MOST_PIN 32           /* bytes of a PIN's text, UTF-16LE */
#define CVR_PIN_TYPES 17          /* rows of a table of PINs: the types 1 to 17 */

/* How many bytes a payload takes, at most where it has texts or lists. */
#define CVR_VERSION_INFO_LENGTH 4
#define CVR_PACKET_SERVICE_LENGTH 32
#define CVR_REGISTRATION_LENGTH 232
#define CVR_SIGNAL_STATE_LENGTH 352
#define CVR_SET_PIN_LENGTH 88
#define CVR_PIN_INFO_LENGTH 12

/* Message types. The first six are whole messages, the last three come in fragments. */
#define CVR_MESSAGE_OPEN UINT32_C(1)
#define CVR_MESSAGE_CLOSE UINT32_C(2)
#define CVR_MESSAGE_HOST_ERROR UINT32_C(4)
#define CVR_MESSAGE_OPEN_DONE UINT32_C(0x80000001)
#define CVR_MESSAGE_CLOSE_DONE UINT32_C(0x80000002)
#define CVR_MESSAGE_FUNCTION_ERROR UINT32_C(0x80000004)
#define CVR_MESSAGE_COMMAND UINT32_C(3)
#define CVR_MESSAGE_COMMAND_DONE UINT32_C(0x80000003)
#define CVR_MESSAGE_INDICATE_STATUS UINT32_C(0x80000007)

/* CIDs: the first five of Basic Connect, VERSION of the extensions. */
enum cvr_cid {
    CVR_CID_PIN = 4,
    CVR_CID_REGISTER_STATE = 9,
    CVR_CID_PACKET_SERVICE = 10,
    CVR_CID_SIGNAL_STATE = 11,
    CVR_CID_DEVICE_SERVICES = 16,
    CVR_CID_VERSION = 15
};

/* What a pair of size 0 is: the choice that a reader .._with takes. The readers without it, and both ends
 * of the handshake, read by the first, a PIN entry is read by the second. */
enum cvr_zero_size {
    /* Absent, whatever its offset. For modems in the field, of which some write an offset beside it. */
    CVR_ZERO_SIZE_ABSENT = 0,
    /* Absent with offset 0; with any other, refused by CVR_OFFSET_WITH_ZERO_SIZE. For judging a payload
     * by the standard's letter, as the listing program does. */
    CVR_ZERO_SIZE_STRICT = 1
};

/* The type of a command. */
enum cvr_command_type { CVR_QUERY = 0, CVR_SET = 1 };

/* The status of a reply. MBIM has more; the handshake gives the first and the last, a table of PINs all
 * three. */
enum cvr_status { CVR_STATUS_SUCCESS = 0, CVR_STATUS_FAILURE = 2, CVR_STATUS_NO_DEVICE_SUPPORT = 9 };

/* Which payload a message shows, or a command asks for. */
enum cvr_kind {
    CVR_KIND_NONE = 0,
    CVR_KIND_REGISTER_STATE = 1,
    CVR_KIND_PACKET_SERVICE = 2,
    CVR_KIND_SIGNAL_STATE = 3,
    CVR_KIND_DEVICE_SERVICES = 4,
    CVR_KIND_VERSION = 5,
    CVR_KIND_SET_PIN = 6,
    CVR_KIND_PIN_INFO = 7
};

/* Data classes: bits of a mask. */
#define CVR_DATA_CLASS_GPRS UINT32_C(0x1)
#define CVR_DATA_CLASS_EDGE UINT32_C(0x2)
#define CVR_DATA_CLASS_UMTS UINT32_C(0x4)
#define CVR_DATA_CLASS_HSDPA UINT32_C(0x8)
#define CVR_DATA_CLASS_HSUPA UINT32_C(0x10)
#define CVR_DATA_CLASS_LTE UINT32_C(0x20)
#define CVR_DATA_CLASS_5G_NSA UINT32_C(0x40) /* 2.00 only, as the next */
#define CVR_DATA_CLASS_5G_SA UINT32_C(0x80)
#define CVR_DATA_CLASS_1XRTT UINT32_C(0x10000)
#define CVR_DATA_CLASS_1XEVDO UINT32_C(0x20000)
#define CVR_DATA_CLASS_1XEVDO_REV_A UINT32_C(0x40000)
#define CVR_DATA_CLASS_1XEVDV UINT32_C(0x80000)
#define CVR_DATA_CLASS_3XRTT UINT32_C(0x100000)
#define CVR_DATA_CLASS_1XEVDO_REV_B UINT32_C(0x200000)
#define CVR_DATA_CLASS_UMB UINT32_C(0x400000)
#define CVR_DATA_CLASS_CUSTOM UINT32_C(0x80000000)
#define CVR_DATA_CLASSES_1_00 UINT32_C(0x807F003F) /* all of a version */
#define CVR_DATA_CLASSES_2_00 UINT32_C(0x807F00FF)
/* HSPA, as a packet service tells it: the one pair of bits that its class may have, at both versions. */
#define CVR_DATA_CLASS_HSPA (CVR_DATA_CLASS_HSDPA | CVR_DATA_CLASS_HSUPA)

/* A service id: its 16 bytes in printed order, as four little-endian words. */
typedef struct cvr_service {
    uint32_t word0, word1, word2, word3;
} cvr_service;

/* Initialisers: a289cc33-bcbb-8b4f-b6b0-133ec2aae6df and 3d01dcc5-fef5-4d05-0d3a-bef7058e9aaf. */
#define CVR_BASIC_CONNECT \
    { UINT32_C(0x33CC89A2), UINT32_C(0x4F8BBBBC), UINT32_C(0x3E13B0B6), UINT32_C(0xDFE6AAC2) }
#define CVR_EXTENSIONS \
    { UINT32_C(0xC5DC013D), UINT32_C(0x054DF5FE), UINT32_C(0xF7BE3A0D), UINT32_C(0xAF9A8E05) }

/* The id of the first 16 bytes, in printed order; bytes that are not there count as 0. */
cvr_service cvr_service_id(const uint8_t *bytes, size_t length);

/* ---- VERSION ----------------------------------------------------------------------------------- */

#define CVR_AT_VERSION_INFO_BCD_MBIM_VERSION 0
#define CVR_AT_VERSION_INFO_BCD_MBIM_EXTENDED_VERSION 2

typedef struct cvr_version_info {
    uint16_t bcd_mbim_version;          /* CVR_MBIM_1_00 */
    uint16_t bcd_mbim_extended_version; /* CVR_VERSION_1_00 or CVR_VERSION_2_00 */
} cvr_version_info;

typedef struct cvr_version_info_answer {
    cvr_refusal refusal;
    cvr_version_info info;
} cvr_version_info_answer;

/* Reads a payload of exactly 4 bytes.
 * Refuses: TOO_SHORT; WRONG_LENGTH; WRONG_VERSION at 0 for either number. */
cvr_version_info_answer cvr_version_info_read(const uint8_t *payload, size_t length);

/* Writes CVR_VERSION_INFO_LENGTH bytes.
 * Refuses: WRONG_VERSION at 0 for either number; OUTPUT_TOO_SMALL. */
cvr_written cvr_version_info_write(cvr_version_info info, uint8_t *out, size_t room);

/* ---- PACKET_SERVICE ---------------------------------------------------------------------------- */

#define CVR_AT_PACKET_SERVICE_NW_ERROR 0
#define CVR_AT_PACKET_SERVICE_PACKET_SERVICE_STATE 4
#define CVR_AT_PACKET_SERVICE_HIGHEST_AVAILABLE_DATA_CLASS 8 /* 1.00 */
#define CVR_AT_PACKET_SERVICE_CURRENT_DATA_CLASS 8           /* 2.00 */
#define CVR_AT_PACKET_SERVICE_UPLINK_SPEED 12
#define CVR_AT_PACKET_SERVICE_DOWNLINK_SPEED 20
#define CVR_AT_PACKET_SERVICE_FREQUENCY_RANGE 28             /* 2.00 */

enum cvr_packet_service_state {
    CVR_PACKET_SERVICE_STATE_UNKNOWN = 0,
    CVR_PACKET_SERVICE_STATE_ATTACHING = 1,
    CVR_PACKET_SERVICE_STATE_ATTACHED = 2,
    CVR_PACKET_SERVICE_STATE_DETACHING = 3,
    CVR_PACKET_SERVICE_STATE_DETACHED = 4
};

enum cvr_frequency_range {
    CVR_FREQUENCY_RANGE_UNKNOWN = 0,
    CVR_FREQUENCY_RANGE_1 = 1, /* below 6 GHz */
    CVR_FREQUENCY_RANGE_2 = 2, /* millimetre waves */
    CVR_FREQUENCY_RANGE_1_AND_2 = 3
};

typedef struct cvr_packet_service {
    uint16_t version;
    uint32_t nw_error;                     /* any number */
    uint32_t packet_service_state;         /* enum cvr_packet_service_state */
    uint32_t highest_available_data_class; /* 1.00 only: 0, one class bit, or CVR_DATA_CLASS_HSPA */
    uint32_t current_data_class;           /* 2.00 only: the same, and 0 unless attached */
    uint32_t frequency_range;              /* 2.00 only: enum cvr_frequency_range, 0 unless the class is
                                              CVR_DATA_CLASS_5G_NSA or _5G_SA */
    uint64_t uplink_speed;                 /* bits per second */
    uint64_t downlink_speed;
} cvr_packet_service;

typedef struct cvr_packet_service_answer {
    cvr_refusal refusal;
    cvr_packet_service info;
} cvr_packet_service_answer;

/* Reads a payload of exactly 28 bytes at 1.00, 32 at 2.00.
 * Refuses: WRONG_VERSION; TOO_SHORT; WRONG_LENGTH; OUTSIDE_TABLE at 4, 8, 28; CONTRADICTION at 8 (a
 * class, though not attached), 28 (a range beside another class). */
cvr_packet_service_answer cvr_packet_service_read(uint16_t version, const uint8_t *payload,
                                                  size_t length);

/* Writes 28 or 32 bytes: CVR_PACKET_SERVICE_LENGTH is room enough.
 * Refuses: as the reader, but for lengths; then OUTPUT_TOO_SMALL. */
cvr_written cvr_packet_service_write(cvr_packet_service info, uint8_t *out, size_t room);

/* ---- REGISTER_STATE ---------------------------------------------------------------------------- */

#define CVR_AT_REGISTRATION_NW_ERROR 0
#define CVR_AT_REGISTRATION_REGISTER_STATE 4
#define CVR_AT_REGISTRATION_REGISTER_MODE 8
#define CVR_AT_REGISTRATION_AVAILABLE_DATA_CLASS 12
#define CVR_AT_REGISTRATION_CELLULAR_CLASS 16
#define CVR_AT_REGISTRATION_PROVIDER_ID 20 /* each an offset, with the size 4 bytes on */
#define CVR_AT_REGISTRATION_PROVIDER_NAME 28
#define CVR_AT_REGISTRATION_ROAMING_TEXT 36
#define CVR_AT_REGISTRATION_REGISTRATION_FLAG 44
#define CVR_AT_REGISTRATION_PREFERRED_DATA_CLASS 48 /* 2.00 */

enum cvr_register_state {
    CVR_REGISTER_STATE_UNKNOWN = 0,
    CVR_REGISTER_STATE_DEREGISTERED = 1,
    CVR_REGISTER_STATE_SEARCHING = 2,
    CVR_REGISTER_STATE_HOME = 3,
    CVR_REGISTER_STATE_ROAMING = 4,
    CVR_REGISTER_STATE_PARTNER = 5,
    CVR_REGISTER_STATE_DENIED = 6
};

enum cvr_register_mode {
    CVR_REGISTER_MODE_UNKNOWN = 0,
    CVR_REGISTER_MODE_AUTOMATIC = 1,
    CVR_REGISTER_MODE_MANUAL = 2
};

/* Bits of a mask. */
enum cvr_cellular_class { CVR_CELLULAR_CLASS_GSM = 1, CVR_CELLULAR_CLASS_CDMA = 2 };
enum cvr_registration_flag {
    CVR_REGISTRATION_MANUAL_SELECTION_NOT_AVAILABLE = 1,
    CVR_REGISTRATION_PACKET_SERVICE_AUTOMATIC_ATTACH = 2
};

typedef struct cvr_registration {
    uint16_t version;
    uint32_t nw_error;             /* any number */
    uint32_t register_state;       /* enum cvr_register_state */
    uint32_t register_mode;        /* enum cvr_register_mode */
    uint32_t available_data_class; /* class bits, 0 unless home, roaming or partner */
    uint32_t cellular_class;       /* enum cvr_cellular_class, any bits of it */
    uint32_t registration_flag;    /* enum cvr_registration_flag, any bits of it */
    uint32_t preferred_data_class; /* 2.00 only: class bits */
} cvr_registration;

/* Where a text lies in the payload; an absent one has start and length 0, whatever its offset. */
typedef struct cvr_range {
    uint32_t start;
    uint32_t length; /* in bytes, an even number */
} cvr_range;

/* UTF-16LE, not judged beyond its size. */
typedef struct cvr_registration_texts {
    cvr_range provider_id;   /* at most CVR_MOST_PROVIDER_ID bytes */
    cvr_range provider_name; /* at most CVR_MOST_PROVIDER_NAME */
    cvr_range roaming_text;  /* at most CVR_MOST_ROAMING_TEXT */
} cvr_registration_texts;

typedef struct cvr_registration_answer {
    cvr_refusal refusal;
    cvr_registration info;
    cvr_registration_texts texts;
} cvr_registration_answer;

/* Reads a payload with 48 fixed bytes at 1.00, 52 at 2.00. The ranges of the texts lie inside it.
 * Refuses: WRONG_VERSION; TOO_SHORT; TOO_LONG at 0; OUTSIDE_TABLE at 4, 8, 12, 16; for each text the
 * faults of a pair, at 20, 28, 36; OUTSIDE_TABLE at 44, 48; CONTRADICTION at 12 (a class, though not
 * registered). */
cvr_registration_answer cvr_registration_read(uint16_t version, const uint8_t *payload, size_t length);

/* The same by a choice, enum cvr_zero_size.
 * Refuses: after WRONG_VERSION, OUTSIDE_TABLE at 0 (the choice). */
cvr_registration_answer cvr_registration_read_with(uint16_t version, uint32_t zero_size,
                                                   const uint8_t *payload, size_t length);

/* Writes the record and the three texts, each a pointer and its length in bytes:
 * CVR_REGISTRATION_LENGTH is room enough.
 * Refuses: as the reader, but of lengths and texts WRONG_SIZE only; then OUTPUT_TOO_SMALL. */
cvr_written cvr_registration_write(cvr_registration info,
                                   const uint8_t *provider_id, size_t provider_id_length,
                                   const uint8_t *provider_name, size_t provider_name_length,
                                   const uint8_t *roaming_text, size_t roaming_text_length,
                                   uint8_t *out, size_t room);

/* ---- SIGNAL_STATE ------------------------------------------------------------------------------ */

#define CVR_AT_SIGNAL_STATE_RSSI 0
#define CVR_AT_SIGNAL_STATE_ERROR_RATE 4
#define CVR_AT_SIGNAL_STATE_SIGNAL_STRENGTH_INTERVAL 8
#define CVR_AT_SIGNAL_STATE_RSSI_THRESHOLD 12
#define CVR_AT_SIGNAL_STATE_ERROR_RATE_THRESHOLD 16
#define CVR_AT_SIGNAL_STATE_RSRP_SNR 20 /* 2.00: the list's offset, with its size 4 bytes on */

/* In the list: the count, entry i, and from the entry's start its fields. */
#define CVR_AT_RSRP_SNR_COUNT(list) (list)
#define CVR_AT_RSRP_SNR_ENTRY(list, i) ((list) + 4 + 20 * (i))
#define CVR_AT_ENTRY_RSRP 0
#define CVR_AT_ENTRY_SNR 4
#define CVR_AT_ENTRY_RSRP_THRESHOLD 8
#define CVR_AT_ENTRY_SNR_THRESHOLD 12
#define CVR_AT_ENTRY_SYSTEM_TYPE 16

/* Codes of 'unknown or not detectable'. */
#define CVR_RSSI_UNKNOWN 99
#define CVR_ERROR_RATE_UNKNOWN 99
#define CVR_RSRP_UNKNOWN 127
#define CVR_SNR_UNKNOWN 128

typedef struct cvr_rsrp_snr {
    uint32_t rsrp;           /* code 0 to 126 or unknown: see cvr_rsrp */
    uint32_t snr;            /* code 0 to 127 or unknown: see cvr_snr */
    uint32_t rsrp_threshold; /* any number, as the next */
    uint32_t snr_threshold;
    uint32_t system_type;    /* exactly one class bit of 2.00, so never CVR_DATA_CLASS_HSPA */
} cvr_rsrp_snr;

typedef struct cvr_signal_state {
    uint16_t version;
    uint32_t rssi;                     /* code 0 to 31 or unknown: see cvr_bars. Unknown if any entry
                                          has an RSRP or SNR that is not */
    uint32_t error_rate;               /* 0 to 7 or unknown */
    uint32_t signal_strength_interval; /* any number, as the next two */
    uint32_t rssi_threshold;
    uint32_t error_rate_threshold;
    uint32_t count;                    /* 2.00 only: entries, at most CVR_MOST_ENTRIES */
    cvr_rsrp_snr entries[CVR_MOST_ENTRIES]; /* 2.00 only; past the count 0 in an answer, and not
                                               looked at by the writer */
} cvr_signal_state;

typedef struct cvr_signal_state_answer {
    cvr_refusal refusal;
    cvr_signal_state info;
} cvr_signal_state_answer;

/* Reads a payload of exactly 20 bytes at 1.00, or with 28 fixed bytes at 2.00. A list of size 0 is
 * absent: no entries.
 * Refuses: WRONG_VERSION; TOO_SHORT; at 1.00 WRONG_LENGTH, at 2.00 TOO_LONG at 0; OUTSIDE_TABLE at 0,
 * 4; of the list, at 20: the faults of a pair (the limit is 324), WRONG_SIZE (1 to 3);
 * WRONG_COUNT at the count; WRONG_SIZE at 20 (not the count's); OUTSIDE_TABLE at the first wrong field
 * of an entry; CONTRADICTION at 0 (an RSSI beside known entries). */
cvr_signal_state_answer cvr_signal_state_read(uint16_t version, const uint8_t *payload, size_t length);

/* The same by a choice, enum cvr_zero_size; at 1.00 there is no pair, so both answer alike.
 * Refuses: after WRONG_VERSION, OUTSIDE_TABLE at 0 (the choice). */
cvr_signal_state_answer cvr_signal_state_read_with(uint16_t version, uint32_t zero_size,
                                                   const uint8_t *payload, size_t length);

/* Writes the record: CVR_SIGNAL_STATE_LENGTH is room enough.
 * Refuses: WRONG_VERSION; OUTSIDE_TABLE at 0, 4; WRONG_SIZE at 20 (too many entries); OUTSIDE_TABLE in
 * an entry, the list being at 28; CONTRADICTION at 0; OUTPUT_TOO_SMALL. */
cvr_written cvr_signal_state_write(cvr_signal_state info, uint8_t *out, size_t room);

/* ---- decibels and bars ------------------------------------------------------------------------- */

/* What a reading is. */
enum cvr_reading_kind {
    CVR_READING_DBM = 1,
    CVR_READING_DB = 2,
    CVR_READING_BELOW_RANGE = 3, /* the value is the range's lower edge */
    CVR_READING_UNKNOWN = 4      /* the value is 0 */
};

typedef struct cvr_reading_answer {
    cvr_refusal refusal;
    uint32_t kind; /* enum cvr_reading_kind */
    float value;   /* exact */
} cvr_reading_answer;

typedef struct cvr_bars_answer {
    cvr_refusal refusal;
    uint32_t reading; /* 1 bars; 0 no reading: the RSSI is unknown */
    uint32_t bars;    /* 0 to 5 */
} cvr_bars_answer;

/* The lower edge of the code's step. Refuses: OUTSIDE_TABLE at 0. */
cvr_reading_answer cvr_rsrp(uint32_t code); /* in dBm: code - 157 */
cvr_reading_answer cvr_snr(uint32_t code);  /* in dB: (code - 47) / 2 */

/* Bars from the code of an RSSI. Refuses: OUTSIDE_TABLE at 0. */
cvr_bars_answer cvr_bars(uint32_t rssi);

/* ---- DEVICE_SERVICES --------------------------------------------------------------------------- */

#define CVR_AT_DEVICE_SERVICES_COUNT 0
#define CVR_AT_DEVICE_SERVICES_MAX_DSS_SESSIONS 4
#define CVR_AT_DEVICE_SERVICES_ELEMENT(i) (8 + 8 * (i)) /* its offset, with its size 4 bytes on */

/* From an element's start. */
#define CVR_AT_ELEMENT_DEVICE_SERVICE_ID 0
#define CVR_AT_ELEMENT_DSS_PAYLOAD 16
#define CVR_AT_ELEMENT_MAX_DSS_INSTANCES 20
#define CVR_AT_ELEMENT_CID_COUNT 24
#define CVR_AT_ELEMENT_CID(k) (28 + 4 * (k))

/* The numbers of a cvr_device_service. */
#define CVR_ELEMENT_WORDS 7

typedef struct cvr_device_services {
    uint32_t device_services_count; /* elements, at most CVR_MOST_SERVICES */
    uint32_t max_dss_sessions;      /* any number */
} cvr_device_services;

typedef struct cvr_device_services_answer {
    cvr_refusal refusal;
    cvr_device_services info;
} cvr_device_services_answer;

/* An element without its CIDs. */
typedef struct cvr_device_service {
    cvr_service device_service_id;
    uint32_t dss_payload;       /* any number, as the next */
    uint32_t max_dss_instances;
    uint32_t cid_count;         /* at most CVR_MOST_CIDS */
} cvr_device_service;

typedef struct cvr_element_answer {
    cvr_refusal refusal;
    uint32_t listed;            /* 1 and the element; or 0, then the element is all 0 */
    cvr_device_service element;
} cvr_element_answer;

/* How many elements and CIDs stand at the fronts of the caller's lists. */
typedef struct cvr_all_answer {
    cvr_refusal refusal;
    uint32_t elements;
    uint64_t cids;
} cvr_all_answer;

typedef struct cvr_listed_answer {
    cvr_refusal refusal;
    uint32_t listed; /* 0 or 1 */
} cvr_listed_answer;

typedef struct cvr_position_answer {
    cvr_refusal refusal;
    uint32_t listed;         /* 0 or 1 */
    uint32_t element_number; /* from 0; 0 where it isn't listed, as the next */
    uint32_t cid_number;     /* of the CID in its element, from 0 */
} cvr_position_answer;

/* An element with its CIDs, of which the first fields.cid_count count. */
typedef struct cvr_service_element {
    cvr_device_service fields;
    uint32_t cids[CVR_MOST_CIDS];
} cvr_service_element;

/* A list to be written, of whose elements the first device_services_count count. It is large and
 * passed by value. */
typedef struct cvr_service_list {
    uint32_t device_services_count;
    uint32_t max_dss_sessions;
    cvr_service_element elements[CVR_MOST_SERVICES];
} cvr_service_list;

/* Each of these, up to .._listed_with, judges the whole payload first. The second of two, .._with, is the
 * same by a choice, enum cvr_zero_size. No element may be absent, so size 0 is refused under either.
 * Refuses: .._with, OUTSIDE_TABLE at 0 (the choice); TOO_SHORT (under 8); WRONG_COUNT at 0;
 * TOO_SHORT (pairs missing); TOO_LONG at 0; for each element, at its offset field: the faults of a pair
 * (the limit is 540), WRONG_SIZE (under 28); WRONG_COUNT at its CID count; WRONG_SIZE at its offset
 * field (not the count's). */

/* Shows the list's head. */
cvr_device_services_answer cvr_device_services_read(const uint8_t *payload, size_t length);
cvr_device_services_answer cvr_device_services_read_with(uint32_t zero_size, const uint8_t *payload,
                                                         size_t length);

/* Shows the element with this number, from 0; its CIDs go to the front of the list of `room` numbers
 * (CVR_MOST_CIDS is enough).
 * Refuses: last, OUTPUT_TOO_SMALL at 4 bytes for each CID. */
cvr_element_answer cvr_device_services_element(const uint8_t *payload, size_t length, uint32_t number,
                                               uint32_t *cids, size_t room);
cvr_element_answer cvr_device_services_element_with(uint32_t zero_size, const uint8_t *payload,
                                                    size_t length, uint32_t number, uint32_t *cids,
                                                    size_t room);

/* The same for the first element of the service. */
cvr_element_answer cvr_device_services_cids(const uint8_t *payload, size_t length, cvr_service service,
                                            uint32_t *cids, size_t room);
cvr_element_answer cvr_device_services_cids_with(uint32_t zero_size, const uint8_t *payload,
                                                 size_t length, cvr_service service, uint32_t *cids,
                                                 size_t room);

/* Shows all elements with one judgement: each as the CVR_ELEMENT_WORDS numbers of a cvr_device_service
 * at the front of `fields` (CVR_ELEMENT_WORDS * CVR_MOST_SERVICES is enough), and all CIDs, element by element, at
 * the front of `cids` (CVR_MOST_CIDS * CVR_MOST_SERVICES is enough).
 * Refuses: last, OUTPUT_TOO_SMALL at 28 bytes for each element, then at 4 bytes for each CID. */
cvr_all_answer cvr_device_services_all(const uint8_t *payload, size_t length, uint32_t *fields,
                                       size_t fields_room, uint32_t *cids, size_t cids_room);
cvr_all_answer cvr_device_services_all_with(uint32_t zero_size, const uint8_t *payload, size_t length,
                                            uint32_t *fields, size_t fields_room, uint32_t *cids,
                                            size_t cids_room);

/* Whether any element of the service holds the CID. The one to call where the whole list must be good: one
 * that you serve or keep. */
cvr_listed_answer cvr_device_services_listed(const uint8_t *payload, size_t length, cvr_service service,
                                             uint32_t cid);
cvr_listed_answer cvr_device_services_listed_with(uint32_t zero_size, const uint8_t *payload,
                                                  size_t length, cvr_service service, uint32_t cid);

/* The same question, judged no further than the answer needs, and where the first match in listed order
 * stands. The one to call at start-up, and wherever one fact is wanted of a list that was received.
 * Elements are judged one at a time, each in full before its CIDs count; those behind the match are not
 * looked at.
 *
 *   the whole list   the first match          answer
 *   accepted         anywhere or nowhere      as cvr_device_services_listed
 *   refused          before the first fault   listed
 *   refused          not before it            the whole list's refusal
 *
 * Choice, length and count are judged before every element. */
cvr_position_answer cvr_device_services_ask(const uint8_t *payload, size_t length, cvr_service service,
                                            uint32_t cid);
cvr_position_answer cvr_device_services_ask_with(uint32_t zero_size, const uint8_t *payload,
                                                 size_t length, cvr_service service, uint32_t cid);

/* Writes the list: CVR_MOST_INFORMATION is room enough.
 * Refuses: WRONG_COUNT at 0; WRONG_SIZE at the offset field of an element with too many CIDs; TOO_LONG
 * at 0; OUTPUT_TOO_SMALL. */
cvr_written cvr_device_services_write(cvr_service_list list, uint8_t *out, size_t room);

/* Writes the same from two lists, as cvr_device_services_all gives them: CVR_ELEMENT_WORDS numbers for
 * each element, those of a cvr_device_service, and all CIDs, element by element. It copies nothing and
 * takes little stack: the one to call where time or stack matters.
 * Refuses: WRONG_COUNT at 0 (too many elements, or a part of one); WRONG_SIZE at the offset field of an
 * element with too many CIDs; TOO_LONG at 0; CONTRADICTION at 0 (not as many CIDs as the elements
 * count); OUTPUT_TOO_SMALL. */
cvr_written cvr_device_services_write_all(uint32_t max_dss_sessions, const uint32_t *fields,
                                          size_t fields_count, const uint32_t *cids, size_t cids_count,
                                          uint8_t *out, size_t room);

/* ---- PIN ----------------------------------------------------------------------------------------
 * A host enters PINs with SET_PIN in a set of CVR_CID_PIN; the reply, of status 0 or 2, carries PIN_INFO.
 * Both have one form, at either version. */

#define CVR_AT_SET_PIN_PIN_TYPE 0
#define CVR_AT_SET_PIN_PIN_OPERATION 4
#define CVR_AT_SET_PIN_PIN 8 /* each an offset, with the size 4 bytes on */
#define CVR_AT_SET_PIN_NEW_PIN 16

#define CVR_AT_PIN_INFO_PIN_TYPE 0
#define CVR_AT_PIN_INFO_PIN_STATE 4
#define CVR_AT_PIN_INFO_REMAINING_ATTEMPTS 8

/* From PUK1 on they are PUKs, each of the PIN named alike: CUSTOM, DEVICE_SIM_PIN and SUBSIDY_LOCK have
 * none. */
enum cvr_pin_type {
    CVR_PIN_TYPE_NONE = 0,
    CVR_PIN_TYPE_CUSTOM = 1,
    CVR_PIN_TYPE_PIN1 = 2,
    CVR_PIN_TYPE_PIN2 = 3,
    CVR_PIN_TYPE_DEVICE_SIM_PIN = 4,
    CVR_PIN_TYPE_DEVICE_FIRST_SIM_PIN = 5,
    CVR_PIN_TYPE_NETWORK_PIN = 6,
    CVR_PIN_TYPE_NETWORK_SUBSET_PIN = 7,
    CVR_PIN_TYPE_SERVICE_PROVIDER_PIN = 8,
    CVR_PIN_TYPE_CORPORATE_PIN = 9,
    CVR_PIN_TYPE_SUBSIDY_LOCK = 10,
    CVR_PIN_TYPE_PUK1 = 11,
    CVR_PIN_TYPE_PUK2 = 12,
    CVR_PIN_TYPE_DEVICE_FIRST_SIM_PUK = 13,
    CVR_PIN_TYPE_NETWORK_PUK = 14,
    CVR_PIN_TYPE_NETWORK_SUBSET_PUK = 15,
    CVR_PIN_TYPE_SERVICE_PROVIDER_PUK = 16,
    CVR_PIN_TYPE_CORPORATE_PUK = 17
};

enum cvr_pin_operation {
    CVR_PIN_OPERATION_ENTER = 0,
    CVR_PIN_OPERATION_ENABLE = 1,
    CVR_PIN_OPERATION_DISABLE = 2,
    CVR_PIN_OPERATION_CHANGE = 3
};

enum cvr_pin_state { CVR_PIN_STATE_UNLOCKED = 0, CVR_PIN_STATE_LOCKED = 1 };

typedef struct cvr_set_pin {
    uint32_t pin_type;      /* enum cvr_pin_type */
    uint32_t pin_operation; /* enum cvr_pin_operation */
} cvr_set_pin;

/* UTF-16LE, not judged beyond its size: each at most CVR_MOST_PIN bytes. */
typedef struct cvr_set_pin_texts {
    cvr_range pin;
    cvr_range new_pin; /* beside a PUK, the PIN's new text */
} cvr_set_pin_texts;

typedef struct cvr_set_pin_answer {
    cvr_refusal refusal;
    cvr_set_pin info;
    cvr_set_pin_texts texts;
} cvr_set_pin_answer;

typedef struct cvr_pin_info {
    uint32_t pin_type;           /* enum cvr_pin_type */
    uint32_t pin_state;          /* enum cvr_pin_state */
    uint32_t remaining_attempts; /* any number */
} cvr_pin_info;

typedef struct cvr_pin_info_answer {
    cvr_refusal refusal;
    cvr_pin_info info;
} cvr_pin_info_answer;

/* Reads a payload with 24 fixed bytes. The ranges of the texts lie inside it.
 * Refuses: TOO_SHORT; TOO_LONG at 0; OUTSIDE_TABLE at 0, 4; for each text the faults of a pair, at 8,
 * 16. */
cvr_set_pin_answer cvr_set_pin_read(const uint8_t *payload, size_t length);

/* The same by a choice, enum cvr_zero_size.
 * Refuses: first, OUTSIDE_TABLE at 0 (the choice). */
cvr_set_pin_answer cvr_set_pin_read_with(uint32_t zero_size, const uint8_t *payload, size_t length);

/* Writes the record and the two texts, each a pointer and its length in bytes: CVR_SET_PIN_LENGTH is
 * room enough.
 * Refuses: OUTSIDE_TABLE at 0, 4; WRONG_SIZE at 8, 16; OUTPUT_TOO_SMALL. */
cvr_written cvr_set_pin_write(cvr_set_pin info, const uint8_t *pin, size_t pin_length,
                              const uint8_t *new_pin, size_t new_pin_length, uint8_t *out, size_t room);

/* Reads a payload of exactly 12 bytes.
 * Refuses: TOO_SHORT; WRONG_LENGTH; OUTSIDE_TABLE at 0, 4. */
cvr_pin_info_answer cvr_pin_info_read(const uint8_t *payload, size_t length);

/* Writes CVR_PIN_INFO_LENGTH bytes.
 * Refuses: OUTSIDE_TABLE at 0, 4; OUTPUT_TOO_SMALL. */
cvr_written cvr_pin_info_write(cvr_pin_info info, uint8_t *out, size_t room);

/* A table of PINs is the modem's: a row for each type, PUKs too, with the secret and the tries left. Its
 * memory is CVR_PINS_SIZE bytes, CVR_PIN_ROW_SIZE a row; OPEN and CLOSE are nothing to it, and an entry
 * writes to it only where PIN_INFO is shown. Secrets are in no answer and no output. An entry's text is
 * compared in full, without an early exit that depends on how many bytes agree. The memory itself holds
 * the secrets, as do the cvr_pins that it was made of and the payloads that came: overwrite them when you
 * are done.
 *
 * Where an entry is taken, the memory is judged first.
 * Refuses: OUTPUT_TOO_SMALL; row by row, CONTRADICTION at PRESENT, ENABLED, ENTERED (over 1),
 * SECRET_LENGTH (over CVR_MOST_PIN, or odd), TRIES (above STARTING_TRIES). */

#define CVR_PIN_ROW_SIZE 44
#define CVR_AT_PINS_ROW(pin_type) (CVR_PIN_ROW_SIZE * ((pin_type) - 1)) /* of types 1 to 17 */

/* From a row's start. The first four are a byte each, tries are 32 bits. */
#define CVR_AT_ROW_PRESENT 0
#define CVR_AT_ROW_ENABLED 1
#define CVR_AT_ROW_ENTERED 2 /* 1: a PIN that is no longer awaited */
#define CVR_AT_ROW_SECRET_LENGTH 3
#define CVR_AT_ROW_TRIES 4 /* those left */
#define CVR_AT_ROW_STARTING_TRIES 8
#define CVR_AT_ROW_SECRET 12 /* 0 past its length */

/* What a row is made of. */
typedef struct cvr_pin {
    uint32_t present;        /* 0 or 1; of a row that is not present the others are judged, not kept */
    uint32_t enabled;        /* 0 or 1; of a PUK it is not looked at */
    uint32_t starting_tries; /* any number */
    uint32_t secret_length;  /* in bytes, an even number */
    uint8_t secret[CVR_MOST_PIN];
} cvr_pin;

/* What a table is made of. */
typedef struct cvr_pins {
    cvr_pin rows[CVR_PIN_TYPES]; /* that of a type is rows[pin_type - 1] */
} cvr_pins;

typedef struct cvr_pin_answer {
    cvr_refusal refusal;
    uint32_t status;   /* enum cvr_status */
    uint32_t shown;    /* 1 and the reply's PIN_INFO; or 0, then it is all 0 and the reply has none */
    cvr_pin_info info;
} cvr_pin_answer;

/* Makes a table: no PIN is entered, all tries are at their starting numbers.
 * Refuses: row by row, at the member's place in cvr_pins, OUTSIDE_TABLE (present, enabled), WRONG_SIZE
 * (secret_length); OUTPUT_TOO_SMALL. */
cvr_refusal cvr_pin_make(uint8_t *memory, size_t size, cvr_pins pins);

/* Takes an entry: a SET_PIN payload.
 * Refuses: after the memory, as cvr_set_pin_read_with by CVR_ZERO_SIZE_STRICT. The first row that fits
 * holds; all 0 is NONE, UNLOCKED, no attempts:
 *
 *   what is entered                             status  PIN_INFO                    what changes
 *   an operation other than ENTER               9       not shown                   nothing
 *   a type that is not present, or NONE         9       not shown                   nothing
 *   a PIN that is disabled or entered           2       all 0                       nothing
 *   a PUK whose PIN has tries, or is not there  2       all 0                       nothing
 *   a PIN without tries, its PUK has some       2       its PUK, LOCKED, those      nothing
 *   a PIN without tries, any other              2       all 0                       nothing
 *   a PUK without tries                         2       all 0                       nothing
 *   the right text                              0       all 0                       see below
 *   a wrong text, and tries are left            2       the type, LOCKED, those     one try less
 *   a wrong text, the last try                  2       as without tries            one try less
 *
 * A text is right if it equals the secret in length and bytes; an absent one is empty. A PIN's right text
 * makes it entered and puts its tries back to their starting number. A PUK's right text does this to its
 * PIN, whose secret new_pin becomes, and puts the PUK's own tries back. Beside a PIN new_pin is judged and
 * not used. */
cvr_pin_answer cvr_pin_enter(uint8_t *memory, size_t size, const uint8_t *payload, size_t length);

/* ---- messages ---------------------------------------------------------------------------------- */

#define CVR_AT_MESSAGE_TYPE 0
#define CVR_AT_MESSAGE_LENGTH 4 /* of the whole message, or of this fragment */
#define CVR_AT_MESSAGE_TRANSACTION 8
#define CVR_AT_WHOLE_WORD 12    /* but for CLOSE */
#define CVR_AT_FRAGMENT_TOTAL 12
#define CVR_AT_FRAGMENT_NUMBER 16
#define CVR_AT_FRAGMENT_INFORMATION 20 /* but in the first fragment, which has here */
#define CVR_AT_FIRST_SERVICE 20
#define CVR_AT_FIRST_CID 36
#define CVR_AT_FIRST_WORD 40                /* a command's type or a reply's status */
#define CVR_AT_FIRST_INFORMATION_LENGTH 44
#define CVR_AT_FIRST_INFORMATION 48
#define CVR_AT_INDICATION_INFORMATION_LENGTH 40 /* an indication has no word */
#define CVR_AT_INDICATION_INFORMATION 44

/* A message without its information. */
typedef struct cvr_message_header {
    uint32_t message_type;
    uint32_t transaction;  /* 0 for indications, another number for commands and replies */
    cvr_service service;
    uint32_t cid;
    uint32_t word;         /* COMMAND: enum cvr_command_type; COMMAND_DONE: the status; INDICATE_STATUS:
                              0 in an answer, ignored by the cutter; a whole message: see below */
} cvr_message_header;

typedef struct cvr_whole_answer {
    cvr_refusal refusal;
    uint32_t message_type;
    uint32_t transaction;
    uint32_t word; /* OPEN: MaxControlTransfer; OPEN_DONE and CLOSE_DONE: the status; the errors:
                      ErrorStatusCode; CLOSE: 0 */
} cvr_whole_answer;

typedef struct cvr_cut_answer {
    cvr_refusal refusal;
    uint32_t count;  /* fragments */
    uint64_t length; /* their bytes together */
} cvr_cut_answer;

typedef struct cvr_kind_answer {
    cvr_refusal refusal;
    uint32_t kind; /* enum cvr_kind */
} cvr_kind_answer;

/* Reads a whole message: CLOSE has 12 bytes, the others 16. Transaction and word may be any numbers.
 * Refuses: TOO_SHORT (under 12); WRONG_LENGTH at 4 (not the bytes given); UNKNOWN at 0; WRONG_LENGTH at
 * 4 (not its type's). */
cvr_whole_answer cvr_message_judge(const uint8_t *message, size_t length);

/* Writes a whole message: CVR_MOST_WHOLE is room enough. CLOSE's word is ignored.
 * Refuses: UNKNOWN at 0; OUTPUT_TOO_SMALL. */
cvr_written cvr_message_write(uint32_t message_type, uint32_t transaction, uint32_t word, uint8_t *out,
                              size_t room);

/* Cuts a message into fragments of `size` bytes, the last one as short as it comes, and writes them one
 * after another; the number at byte 4 of each is its length. Service, CID and status are taken as they
 * are. CVR_MOST_CUT is room enough.
 * Refuses: WRONG_TRANSFER_SIZE at 0; UNKNOWN at 0 (not a type that comes in fragments); OUTSIDE_TABLE
 * at 8 (the transaction), 40 (a command's type); TOO_LONG at 0; OUTPUT_TOO_SMALL. */
cvr_cut_answer cvr_message_cut(cvr_message_header message, size_t size,
                               const uint8_t *information, size_t length, uint8_t *out, size_t room);

/* Which payload the message's information is. An indication and a reply of status 0 show that of their
 * CID, a reply of status 2 does so for CVR_CID_PIN (PIN_INFO). A command shows VERSION, or SET_PIN where
 * it is a set of CVR_CID_PIN. Any other message shows none.
 * Refuses: UNKNOWN at 0 (not a type that comes in fragments), 20, 36. */
cvr_kind_answer cvr_payload_kind(cvr_message_header message);

/* The transaction number after this one: 0 is left out. */
uint32_t cvr_transaction_next(uint32_t transaction);

/* ---- receiving ---------------------------------------------------------------------------------
 * An assembly holds one unfinished message. All 0 is an empty one. A program empties it when it sends
 * or gets OPEN: the ends of the handshake don't touch it. Its memory is CVR_ASSEMBLY_SIZE bytes; these
 * of its 32-bit numbers are judged: */

#define CVR_AT_ASSEMBLY_MESSAGE_TYPE 0
#define CVR_AT_ASSEMBLY_WORD 28
#define CVR_AT_ASSEMBLY_TOTAL 32
#define CVR_AT_ASSEMBLY_NEXT 36               /* the fragment expected */
#define CVR_AT_ASSEMBLY_INFORMATION_LENGTH 40 /* as the first fragment declared it */
#define CVR_AT_ASSEMBLY_GATHERED 44           /* bytes of it that came */

/* What a piece was. */
enum cvr_received {
    CVR_RECEIVED_WHOLE = 1,   /* a whole message */
    CVR_RECEIVED_PENDING = 2, /* a fragment, and more are to come */
    CVR_RECEIVED_COMPLETE = 3 /* the last fragment of a message */
};

typedef struct cvr_receive_answer {
    cvr_refusal refusal;
    uint32_t received;          /* enum cvr_received */
    uint32_t dropped;           /* 1: an unfinished message was dropped for this one */
    cvr_message_header message; /* type and transaction always; word where whole or complete; service
                                   and CID where complete; the others 0 */
    uint64_t length;            /* where complete: bytes of information in the output */
} cvr_receive_answer;

/* Empties it. Refuses: OUTPUT_TOO_SMALL. */
cvr_refusal cvr_assembly_empty(uint8_t *memory, size_t size);

/* Takes any piece that came. The output is written where a message is complete, and not before:
 * CVR_MOST_INFORMATION is room enough. The transaction of a first fragment is not judged. In this order:
 *
 *   memory too small    OUTPUT_TOO_SMALL; the memory stays as it was.
 *   a whole type at 0   Judged as by cvr_message_judge; the memory stays as it was, refused or not.
 *   anything else       A fragment; refused, it leaves an empty assembly, and so does a complete message.
 *     Refuses: for the memory, where no calls can have left its numbers, CONTRADICTION, which no piece
 *     meets: at 32 (no total, but other numbers), 0, 28, 32, 36, 40, 44. The bytes that came are not
 *     looked at. For the piece: TOO_SHORT (under 20); WRONG_LENGTH at 4; WRONG_TRANSFER_SIZE at 4;
 *     UNKNOWN at 0; WRONG_FRAGMENT at 12, 16. A first fragment: TOO_SHORT; OUTSIDE_TABLE at 40 (a
 *     command's type); TOO_LONG, then WRONG_LENGTH, at 44, in an indication at 40. A later one:
 *     WRONG_FRAGMENT at 16 (not the one expected); WRONG_LENGTH at 4 (more or fewer bytes than
 *     declared). The last: OUTPUT_TOO_SMALL.
 *
 * Damage stays local. Whatever was received since the memory was emptied, the fragments of a message,
 * received in order from its first, give what they would give right after; only `dropped` may differ. And
 * no message is complete unless its fragments were received one after the other, with nothing between
 * them but whole messages. */
cvr_receive_answer cvr_receive(uint8_t *memory, size_t size, const uint8_t *piece, size_t length,
                               uint8_t *out, size_t room);

/* ---- a byte stream -----------------------------------------------------------------------------
 * For a line without packet bounds, as a serial one. A stream is fed chunks of any length, down to none,
 * takes each piece by its length field and receives it as cvr_receive does. However the bytes are cut, the
 * answers are those of the pieces one by one, and what is kept at the end is the same.
 *
 *   void receive_bytes(int line)
 *   {
 *       static uint8_t stream[CVR_STREAM_SIZE], assembly[CVR_ASSEMBLY_SIZE];
 *       static uint8_t chunk[256], information[CVR_MOST_INFORMATION];
 *       ssize_t length;
 *       while ((length = read(line, chunk, sizeof chunk)) > 0)
 *           for (size_t at = 0; at < (size_t)length;) {
 *               cvr_stream_answer got = cvr_stream_feed(stream, sizeof stream, assembly, sizeof assembly,
 *                                                       chunk + at, (size_t)length - at, information,
 *                                                       sizeof information);
 *               if (got.ended || got.taken == 0)
 *                   return;
 *               if (got.piece.received == CVR_RECEIVED_COMPLETE)
 *                   printf("CID %u\n", (unsigned)got.piece.message.cid);
 *               at += got.taken;
 *           }
 *   }
 *
 * A stream keeps the bytes of a piece that is still short in CVR_STREAM_SIZE bytes of memory; beside it
 * lies its assembly's, as cvr_receive has it. All 0 is an empty stream with an empty assembly.
 *
 * Damage to a piece stays local, as at cvr_receive. But a damaged length field moves the bounds of what
 * follows or ends the stream, and MBIM has nothing to find the next message by: reset, and go on once the
 * line is known to be at a message's start, for instance after a silence. Reset also where bytes stay held
 * and nothing more comes. When you send OPEN, empty the assembly alone: a piece may be on its way. */

#define CVR_AT_STREAM_HELD 0  /* bytes held of an unfinished piece, 32 bits */
#define CVR_AT_STREAM_ENDED 4 /* 1: a length field ended the stream, else 0; 32 bits */
#define CVR_AT_STREAM_PIECE 8 /* the bytes held, then zeros: 4,096 bytes */

typedef struct cvr_stream_answer {
    cvr_receive_answer piece; /* of the piece that was taken, as cvr_receive answers it; all 0 while none
                                 is whole; or the stream's own refusal */
    uint64_t taken;           /* bytes of the chunk that are taken, refused or not */
    uint32_t ended;           /* 1: the stream has ended, and the refusal is WRONG_LENGTH at 4; else 0 */
} cvr_stream_answer;

/* Empties a stream and its assembly; one that ended begins anew.
 * Refuses: OUTPUT_TOO_SMALL for the stream, the assembly; both stay as they were. */
cvr_refusal cvr_stream_reset(uint8_t *stream, size_t stream_size, uint8_t *assembly,
                             size_t assembly_size);

/* Takes bytes up to its first answer; call it again with the others. The output is written where a message
 * is complete, and not before.
 * Refuses, with nothing taken and both memories as they were: OUTPUT_TOO_SMALL for the output (under
 * CVR_MOST_INFORMATION), the stream, the assembly; for the stream, where no calls can have left its
 * numbers, CONTRADICTION at 0 (over 4,095 bytes held), 4 (over 1, or 1 beside bytes held), 12 (8 bytes or
 * more are held, and their length field ends a stream or is not above the bytes held); WRONG_LENGTH at 4,
 * with `ended` 1, where the stream has ended, until it is reset. Bytes past those held are not looked at.
 *
 * Then the front decides: the bytes held, and behind them the chunk. The first row that fits holds:
 *
 *   the front                          answer              taken up to        held   assembly
 *   under 8 bytes                      none yet            the chunk's end    all    as it was
 *   a whole type, and not the length   WRONG_LENGTH at 4,  the front's 8th    none   as it was
 *     of its type                      `ended` 1
 *   any other type, known or not, and  WRONG_LENGTH at 4,  the front's 8th    none   emptied
 *     under 20 or over 4,096           `ended` 1
 *   shorter than its length            none yet            the chunk's end    all    as it was
 *   any other, by its first piece      as cvr_receive      the piece's end    none   as by cvr_receive
 *
 * So a piece of unknown type is refused, and the stream goes on. WRONG_LENGTH at 4 with `ended` 0 is a
 * fragment's own. CONTRADICTION with nothing taken is of the stream's memory, else of the assembly's. A
 * call that is given a byte or more takes one at least, or refuses: a loop that is left where nothing is
 * taken can't spin. A piece that lies whole in the chunk is not copied to the stream's memory. */
cvr_stream_answer cvr_stream_feed(uint8_t *stream, size_t stream_size, uint8_t *assembly,
                                  size_t assembly_size, const uint8_t *chunk, size_t length,
                                  uint8_t *out, size_t room);

/* ---- the host's end of the handshake -----------------------------------------------------------
 * Its memory is CVR_HOST_SIZE bytes, three 16-bit numbers. Every function but make judges it first.
 * Refuses: OUTPUT_TOO_SMALL; CONTRADICTION at 0, 2, 4, where no calls can have left its numbers. */

#define CVR_AT_HOST_NATIVE 0
#define CVR_AT_HOST_STAGE 2   /* enum cvr_host_stage */
#define CVR_AT_HOST_VERSION 4 /* advertised; once settled, the settled one; 0 when closed */

enum cvr_host_stage {
    CVR_HOST_CLOSED = 0,
    CVR_HOST_OPEN = 1,
    CVR_HOST_AWAITS_VERSION = 2,
    CVR_HOST_SETTLED = 3
};

/* What a call did to the host's end. */
enum cvr_event {
    CVR_EVENT_UNCHANGED = 0,
    CVR_EVENT_OPENED = 1,
    CVR_EVENT_ASKS_VERSION = 2, /* the next command is VERSION */
    CVR_EVENT_SETTLED = 3       /* the handshake is over */
};

/* The host's next command. */
enum cvr_command {
    CVR_COMMAND_NOTHING = 0,         /* closed */
    CVR_COMMAND_DEVICE_SERVICES = 1, /* open: a query of CVR_CID_DEVICE_SERVICES, no information */
    CVR_COMMAND_VERSION = 2,         /* awaits VERSION: a query of CVR_CID_VERSION, the payload written */
    CVR_COMMAND_FREE = 3             /* settled: any command */
};

typedef struct cvr_host_answer {
    cvr_refusal refusal;
    uint32_t event;   /* enum cvr_event */
    uint16_t version; /* of all payloads from now on, where this very call settled; else 0 */
} cvr_host_answer;

typedef struct cvr_ask_answer {
    cvr_refusal refusal;
    uint32_t command; /* enum cvr_command */
    uint16_t version; /* free: the settled version; else 0 */
    uint64_t length;  /* VERSION: bytes of its payload in the output; else 0 */
} cvr_ask_answer;

/* Makes a closed host with its native version. Refuses: WRONG_VERSION; OUTPUT_TOO_SMALL. */
cvr_refusal cvr_host_make(uint8_t *memory, size_t size, uint16_t native);

/* Starts the handshake: call it when OPEN_DONE with status 0 came. `advertised` is the modem's version
 * from its USB descriptor. Refuses: last, WRONG_VERSION. */
cvr_host_answer cvr_host_open(uint8_t *memory, size_t size, uint16_t advertised);

/* Closes the host: call it when you send CLOSE. The event is UNCHANGED though it closes. */
cvr_host_answer cvr_host_close(uint8_t *memory, size_t size);

/* What to send next. Asking changes nothing. CVR_VERSION_INFO_LENGTH is room enough.
 * Refuses: last, for VERSION's payload, OUTPUT_TOO_SMALL. */
cvr_ask_answer cvr_host_next_command(const uint8_t *memory, size_t size, uint8_t *out, size_t room);

/* Takes any message that came; the transaction is not looked at, so compare it with your command's. The
 * first row that fits holds:
 *
 *   stage            what comes                           status  answer                    next stage
 *   any              no reply, or one of another CID      any     UNCHANGED                 the same
 *   any              DEVICE_SERVICES                      not 0   UNCHANGED                 the same
 *   any              DEVICE_SERVICES, the list refused    0       the list's refusal        the same
 *   OPEN             .. advertised above native           0       ABOVE_HOST at 0           OPEN
 *   OPEN             .. advertised 2.00, VERSION not in   0       VERSION_NOT_LISTED at 0   OPEN
 *   OPEN             .. native 2.00, VERSION in it        0       ASKS_VERSION              AWAITS_VERSION
 *   OPEN             .. any other list                    0       SETTLED at 1.00           SETTLED
 *   any other        .. any list                          0       UNCHANGED                 the same
 *   AWAITS_VERSION   VERSION                              not 0   SETTLED at advertised     SETTLED
 *   any              VERSION, the payload refused         0       the payload's refusal     the same
 *   AWAITS_VERSION   VERSION                              0       SETTLED, at the larger of SETTLED
 *                                                                 advertised and answered
 *   any other        VERSION                              any     UNCHANGED                 the same
 *
 * A list is asked for VERSION as by cvr_device_services_ask, and not judged in full: it is refused where
 * that refuses, and a fault in an element behind VERSION's is not seen.
 *
 * After ABOVE_HOST and VERSION_NOT_LISTED the next command is DEVICE_SERVICES again, and the answer
 * will be the same: close. A modem answers one VERSION in a session, and a second one with status 9,
 * which would settle the host at another version than the modem's: if the reply to VERSION is lost,
 * close and open instead of sending it again. */
cvr_host_answer cvr_host_receive(uint8_t *memory, size_t size, cvr_message_header message,
                                 const uint8_t *information, size_t length);

/* ---- the modem's end of the handshake ----------------------------------------------------------
 * Its memory is CVR_MODEM_SIZE bytes, five 16-bit numbers. Every function but make judges it first.
 * Refuses: OUTPUT_TOO_SMALL; CONTRADICTION at 0, 2, 4, 6, 8, where no calls can have left its numbers. */

#define CVR_AT_MODEM_NATIVE 0
#define CVR_AT_MODEM_ADVERTISED 2
#define CVR_AT_MODEM_LISTS_VERSION 4 /* 0 or 1 */
#define CVR_AT_MODEM_STAGE 6         /* enum cvr_modem_stage */
#define CVR_AT_MODEM_VERSION 8       /* the settled one, else 0 */

/* There is no closed stage: that no command is served before OPEN or after CLOSE is the program's. */
enum cvr_modem_stage {
    CVR_MODEM_START = 0,
    CVR_MODEM_LISTED = 1, /* the services list was asked for */
    CVR_MODEM_SETTLED = 2
};

/* What the modem is to do with a command. */
enum cvr_action {
    CVR_ACTION_SERVE = 1,   /* answer it: the payload of the kind, with status 0, or a status of yours */
    CVR_ACTION_VERSION = 2, /* send the VERSION payload written, with status 0 */
    CVR_ACTION_FAILED = 3,  /* handshake or PINs don't allow it: send the status, without information */
    CVR_ACTION_UNKNOWN = 4, /* service or CID is not known: the same, unless you serve it yourself */
    CVR_ACTION_PIN = 5      /* a PIN entry is answered: send the status and the PIN_INFO payload written */
};

typedef struct cvr_modem_answer {
    cvr_refusal refusal;
    uint32_t action;  /* enum cvr_action */
    uint32_t status;  /* failed, unknown, PIN: the status to send */
    uint32_t kind;    /* serve: enum cvr_kind, never none; PIN_INFO for CVR_CID_PIN */
    uint16_t version; /* the version that the modem is settled at after this call, 0 while it isn't */
    uint64_t place;   /* unknown: 20 or 36, where the service or the CID stands */
    uint64_t length;  /* VERSION, PIN: bytes of the payload in the output */
} cvr_modem_answer;

/* Makes a modem at its start. `services` is the DEVICE_SERVICES payload that it will serve.
 * Refuses: WRONG_VERSION for native, advertised, and advertised above native; the list, as
 * cvr_device_services_listed does; OUTPUT_TOO_SMALL. */
cvr_refusal cvr_modem_make(uint8_t *memory, size_t size, uint16_t native, uint16_t advertised,
                           const uint8_t *services, size_t length);

/* Both put the handshake back to its start: call them when OPEN or CLOSE came. */
cvr_refusal cvr_modem_open(uint8_t *memory, size_t size);
cvr_refusal cvr_modem_close(uint8_t *memory, size_t size);

/* Takes a command that came. CVR_VERSION_INFO_LENGTH is room enough.
 * Refuses: after the memory, UNKNOWN at 0 (not a COMMAND); OUTSIDE_TABLE at 8 (transaction 0); last,
 * for VERSION's payload, OUTPUT_TOO_SMALL. The first row that fits holds:
 *
 *   stage      what comes                                answer    status  next stage
 *   START      DEVICE_SERVICES, query or set             SERVE     0       LISTED
 *   START      any other                                 FAILED    9       START
 *   LISTED     DEVICE_SERVICES, query or set             SERVE     0       LISTED
 *   LISTED     VERSION, listed, a query, payload good    VERSION   0       SETTLED, at the larger of
 *                                                                          advertised and the lower native
 *   LISTED     any other VERSION                         FAILED    9       LISTED
 *   LISTED     any other, advertised 2.00                FAILED    9       LISTED
 *   LISTED     a CID not known, advertised 1.00          UNKNOWN   9       SETTLED at 1.00
 *   LISTED     any other, advertised 1.00                SERVE     0       SETTLED at 1.00
 *   SETTLED    VERSION                                   FAILED    9       SETTLED
 *   SETTLED    a CID not known                           UNKNOWN   9       SETTLED
 *   SETTLED    any other, query or set                   SERVE     0       SETTLED
 */
cvr_modem_answer cvr_modem_receive(uint8_t *memory, size_t size, cvr_message_header message,
                                   const uint8_t *information, size_t length, uint8_t *out, size_t room);

/* The same for a modem with a table of PINs: a set of CVR_CID_PIN that cvr_modem_receive would have you
 * serve is taken as an entry. Any other command, a query of CVR_CID_PIN too, is answered as there, and
 * the table's memory is not looked at. CVR_PIN_INFO_LENGTH is room enough.
 * Refuses: as cvr_modem_receive; for an entry, the table's memory, as cvr_pin_enter; last, for PIN_INFO's
 * payload, OUTPUT_TOO_SMALL. CONTRADICTION may be of either memory: cvr_pin_enter without a payload gives
 * it where it is the table's, and else TOO_SHORT. An entry, with the next stage that SERVE would have:
 *
 *   what cvr_pin_enter answers                answer    status  PIN_INFO    table
 *   its payload refused                       FAILED    9       none        as it was
 *   status 9                                  FAILED    9       none        as it was
 *   status 0 or 2                             PIN       that    written     as there
 */
cvr_modem_answer cvr_pin_receive(uint8_t *modem, size_t modem_size, uint8_t *pins, size_t pins_size,
                                 cvr_message_header message, const uint8_t *information, size_t length,
                                 uint8_t *out, size_t room);

/* ---- the layout that the library was built for: size, and the last member's offset and end --------
 * Lengths and places in structs are uint64_t, so that it is the same with pointers of 32 bits. */

#define CVR_LAYOUT(type, size, last, offset, end)                                             \
    typedef char type##_has_the_library_s_layout                                              \
        [sizeof(type) == (size) && offsetof(type, last) == (offset)                           \
         && (offset) + sizeof(((type *)0)->last) == (end) ? 1 : -1]

CVR_LAYOUT(cvr_refusal, 16, place, 8, 16);
CVR_LAYOUT(cvr_written, 24, length, 16, 24);
CVR_LAYOUT(cvr_service, 16, word3, 12, 16);
CVR_LAYOUT(cvr_version_info, 4, bcd_mbim_extended_version, 2, 4);
CVR_LAYOUT(cvr_version_info_answer, 24, info, 16, 20);
CVR_LAYOUT(cvr_packet_service, 40, downlink_speed, 32, 40);
CVR_LAYOUT(cvr_packet_service_answer, 56, info, 16, 56);
CVR_LAYOUT(cvr_registration, 32, preferred_data_class, 28, 32);
CVR_LAYOUT(cvr_range, 8, length, 4, 8);
CVR_LAYOUT(cvr_registration_texts, 24, roaming_text, 16, 24);
CVR_LAYOUT(cvr_registration_answer, 72, texts, 48, 72);
CVR_LAYOUT(cvr_rsrp_snr, 20, system_type, 16, 20);
CVR_LAYOUT(cvr_signal_state, 348, entries, 28, 348);
CVR_LAYOUT(cvr_signal_state_answer, 368, info, 16, 364);
CVR_LAYOUT(cvr_reading_answer, 24, value, 20, 24);
CVR_LAYOUT(cvr_bars_answer, 24, bars, 20, 24);
CVR_LAYOUT(cvr_device_services, 8, max_dss_sessions, 4, 8);
CVR_LAYOUT(cvr_device_services_answer, 24, info, 16, 24);
CVR_LAYOUT(cvr_device_service, 28, cid_count, 24, 28);
CVR_LAYOUT(cvr_element_answer, 48, element, 20, 48);
CVR_LAYOUT(cvr_all_answer, 32, cids, 24, 32);
CVR_LAYOUT(cvr_listed_answer, 24, listed, 16, 20);
CVR_LAYOUT(cvr_position_answer, 32, cid_number, 24, 28);
CVR_LAYOUT(cvr_service_element, 540, cids, 28, 540);
CVR_LAYOUT(cvr_service_list, 17288, elements, 8, 17288);
CVR_LAYOUT(cvr_set_pin, 8, pin_operation, 4, 8);
CVR_LAYOUT(cvr_set_pin_texts, 16, new_pin, 8, 16);
CVR_LAYOUT(cvr_set_pin_answer, 40, texts, 24, 40);
CVR_LAYOUT(cvr_pin_info, 12, remaining_attempts, 8, 12);
CVR_LAYOUT(cvr_pin_info_answer, 32, info, 16, 28);
CVR_LAYOUT(cvr_pin, 48, secret, 16, 48);
CVR_LAYOUT(cvr_pins, 816, rows, 0, 816);
CVR_LAYOUT(cvr_pin_answer, 40, info, 24, 36);
CVR_LAYOUT(cvr_message_header, 32, word, 28, 32);
CVR_LAYOUT(cvr_whole_answer, 32, word, 24, 28);
CVR_LAYOUT(cvr_cut_answer, 32, length, 24, 32);
CVR_LAYOUT(cvr_kind_answer, 24, kind, 16, 20);
CVR_LAYOUT(cvr_receive_answer, 64, length, 56, 64);
CVR_LAYOUT(cvr_stream_answer, 80, ended, 72, 76);
CVR_LAYOUT(cvr_host_answer, 24, version, 20, 22);
CVR_LAYOUT(cvr_ask_answer, 32, length, 24, 32);
CVR_LAYOUT(cvr_modem_answer, 48, length, 40, 48);

#undef CVR_LAYOUT

#ifdef __cplusplus
}
#endif

#endif
