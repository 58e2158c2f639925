/*
 * The header's tables of PINs, row by row: what a table is made of, what an entry is answered and what it
 * changes, what a modem with a table does, and where lent memory is refused.
 */
#include "culvertroost.h"

#include <inttypes.h>
#include <stdio.h>
#include <string.h>

#define V1 CVR_VERSION_1_00
#define V2 CVR_VERSION_2_00

typedef struct payload {
    uint8_t bytes[CVR_SET_PIN_LENGTH];
    size_t length;
} payload;

static const cvr_service basic_connect = CVR_BASIC_CONNECT, extensions = CVR_EXTENSIONS;
static int failed;

static void check(const char *table, int row, const char *what, uint64_t got, uint64_t expected)
{
    if (got != expected) {
        printf("pins: %s, row %d: %s is %" PRIu64 ", not %" PRIu64 "\n", table, row, what, got, expected);
        failed = 1;
    }
}

static void check_refusal(const char *table, int row, cvr_refusal got, uint32_t number, uint64_t place)
{
    check(table, row, "the refusal", got.number, number);
    check(table, row, "the place", got.place, place);
}

static size_t widen(const char *text, uint8_t *out)
{
    size_t i, length = strlen(text);
    for (i = 0; i < length; i++) {
        out[2 * i] = (uint8_t)text[i];
        out[2 * i + 1] = 0;
    }
    return 2 * length;
}

static void write_entry(payload *out, uint32_t pin_type, uint32_t operation, const char *pin,
                        const char *new_pin)
{
    cvr_set_pin info = {0, 0};
    uint8_t text[CVR_MOST_PIN], new_text[CVR_MOST_PIN];
    size_t length = widen(pin, text), new_length = widen(new_pin, new_text);
    info.pin_type = pin_type;
    info.pin_operation = operation;
    out->length = cvr_set_pin_write(info, text, length, new_text, new_length, out->bytes,
                                    sizeof out->bytes).length;
}

/* ---- the table that entries begin with */

/* What is in it: the type, whether it is enabled, its tries and its secret. */
static const struct row {
    uint32_t pin_type, enabled, tries;
    const char *secret;
} rows[] = {
    {CVR_PIN_TYPE_CUSTOM, 1, 1, "custom"},              /* it has no PUK */
    {CVR_PIN_TYPE_PIN1, 1, 3, "1234"},
    {CVR_PIN_TYPE_PIN2, 0, 3, "2222"},
    {CVR_PIN_TYPE_NETWORK_PIN, 1, 1, "net"},            /* its PUK is not in the table */
    {CVR_PIN_TYPE_SERVICE_PROVIDER_PIN, 1, 0, ""},
    {CVR_PIN_TYPE_CORPORATE_PIN, 1, 2, "sixteen letters!"},
    {CVR_PIN_TYPE_PUK1, 0, 2, "12345678"},
    {CVR_PIN_TYPE_NETWORK_SUBSET_PUK, 1, 10, "subset"}, /* its PIN is not in the table */
    {CVR_PIN_TYPE_SERVICE_PROVIDER_PUK, 0, 5, "provider"},
};

static cvr_pins all_pins(void)
{
    cvr_pins pins;
    size_t i;
    memset(&pins, 0, sizeof pins);
    for (i = 0; i < sizeof rows / sizeof rows[0]; i++) {
        cvr_pin *pin = &pins.rows[rows[i].pin_type - 1];
        pin->present = 1;
        pin->enabled = rows[i].enabled;
        pin->starting_tries = rows[i].tries;
        pin->secret_length = (uint32_t)widen(rows[i].secret, pin->secret);
    }
    return pins;
}

static uint32_t number_at(const uint8_t *memory, size_t place)
{
    const uint8_t *at = memory + place;
    return at[0] | (uint32_t)at[1] << 8 | (uint32_t)at[2] << 16 | (uint32_t)at[3] << 24;
}

static void put_number(uint8_t *memory, size_t place, uint32_t number)
{
    int i;
    for (i = 0; i < 4; i++)
        memory[place + (size_t)i] = (uint8_t)(number >> 8 * i);
}

/* ---- what a table is made of */

/* The memory of a table just made. */
static void made_memory(const cvr_pins *pins, uint8_t *memory)
{
    int i;
    memset(memory, 0, CVR_PINS_SIZE);
    for (i = 0; i < CVR_PIN_TYPES; i++) {
        const cvr_pin *pin = &pins->rows[i];
        uint8_t *row = memory + CVR_AT_PINS_ROW(i + 1);
        if (!pin->present)
            continue;
        row[CVR_AT_ROW_PRESENT] = 1;
        row[CVR_AT_ROW_ENABLED] = (uint8_t)pin->enabled;
        row[CVR_AT_ROW_SECRET_LENGTH] = (uint8_t)pin->secret_length;
        put_number(row, CVR_AT_ROW_TRIES, pin->starting_tries);
        put_number(row, CVR_AT_ROW_STARTING_TRIES, pin->starting_tries);
        memcpy(row + CVR_AT_ROW_SECRET, pin->secret, pin->secret_length);
    }
}

/* What stands past a secret's length, and in a row that is not present, is not kept. */
static void made_table(void)
{
    cvr_pins pins = all_pins();
    uint8_t memory[CVR_PINS_SIZE + 1], expected[CVR_PINS_SIZE];
    made_memory(&pins, expected);
    memset(memory, 0xAA, sizeof memory);
    memset(pins.rows[CVR_PIN_TYPE_PIN1 - 1].secret + 8, 0xAA, CVR_MOST_PIN - 8);
    pins.rows[CVR_PIN_TYPE_SUBSIDY_LOCK - 1].enabled = 1;
    pins.rows[CVR_PIN_TYPE_SUBSIDY_LOCK - 1].starting_tries = 7;
    pins.rows[CVR_PIN_TYPE_SUBSIDY_LOCK - 1].secret_length = CVR_MOST_PIN;
    check_refusal("made", 0, cvr_pin_make(memory, CVR_PINS_SIZE - 1, pins), CVR_OUTPUT_TOO_SMALL,
                  CVR_PINS_SIZE);
    check("made", 0, "the memory's first byte", memory[0], 0xAA);
    check_refusal("made", 1, cvr_pin_make(memory, sizeof memory, pins), CVR_NO_REFUSAL, 0);
    check("made", 1, "another memory", memcmp(memory, expected, sizeof expected) != 0, 0);
    check("made", 1, "the byte past it", memory[CVR_PINS_SIZE], 0xAA);
}

/* A member with a number, in every row: it is refused before a fault of a later row and small memory. */
static void try_member(int row, size_t member, uint32_t number, uint32_t refusal)
{
    cvr_pins pins = all_pins();
    uint8_t memory[1] = {0xAA};
    size_t place = sizeof(cvr_pin) * (size_t)row + member;
    memcpy((uint8_t *)&pins + place, &number, sizeof number);
    if (row + 1 < CVR_PIN_TYPES)
        pins.rows[row + 1].present = 2;
    if (refusal == CVR_NO_REFUSAL && row + 1 < CVR_PIN_TYPES) {
        refusal = CVR_OUTSIDE_TABLE;
        place = sizeof(cvr_pin) * (size_t)(row + 1);
    } else if (refusal == CVR_NO_REFUSAL) {
        refusal = CVR_OUTPUT_TOO_SMALL;
        place = CVR_PINS_SIZE;
    }
    check_refusal("members", row, cvr_pin_make(memory, sizeof memory, pins), refusal, place);
    check("members", row, "the memory", memory[0], 0xAA);
}

static void member_table(void)
{
    static const uint32_t large[] = {33, 34, 256, 257, 0x10000, 0x80000000, 0xFFFFFFFE, 0xFFFFFFFF};
    uint32_t number;
    int row, i;
    for (row = 0; row < CVR_PIN_TYPES; row++)
        for (i = 0; i <= 32 + (int)(sizeof large / sizeof large[0]); i++) {
            number = i <= 32 ? (uint32_t)i : large[i - 33];
            try_member(row, offsetof(cvr_pin, present), number,
                       number > 1 ? CVR_OUTSIDE_TABLE : CVR_NO_REFUSAL);
            try_member(row, offsetof(cvr_pin, enabled), number,
                       number > 1 ? CVR_OUTSIDE_TABLE : CVR_NO_REFUSAL);
            try_member(row, offsetof(cvr_pin, starting_tries), number, CVR_NO_REFUSAL);
            try_member(row, offsetof(cvr_pin, secret_length), number,
                       number > CVR_MOST_PIN || number % 2 ? CVR_WRONG_SIZE : CVR_NO_REFUSAL);
        }
}

/* ---- entries */

#define ENTER CVR_PIN_OPERATION_ENTER
#define LOCKED CVR_PIN_STATE_LOCKED
#define PIN1 CVR_PIN_TYPE_PIN1
#define PUK1 CVR_PIN_TYPE_PUK1
#define CORPORATE CVR_PIN_TYPE_CORPORATE_PIN
#define PROVIDER CVR_PIN_TYPE_SERVICE_PROVIDER_PIN
#define PROVIDER_PUK CVR_PIN_TYPE_SERVICE_PROVIDER_PUK

/* An entry and its answer; the tries of PIN1 and PUK1 after it, and whether PIN1 is entered. */
typedef struct entry {
    int anew; /* 1: with a table just made */
    uint32_t pin_type, operation;
    const char *pin, *new_pin;
    uint32_t status;
    cvr_pin_info info;
    uint32_t pin_tries, puk_tries, entered;
} entry;

static const entry entries[] = {
    {1, PIN1, CVR_PIN_OPERATION_ENABLE, "1234", "", 9, {0, 0, 0}, 3, 2, 0},
    {0, PIN1, CVR_PIN_OPERATION_DISABLE, "1234", "", 9, {0, 0, 0}, 3, 2, 0},
    {0, PIN1, CVR_PIN_OPERATION_CHANGE, "1234", "5678", 9, {0, 0, 0}, 3, 2, 0},
    {0, CVR_PIN_TYPE_NONE, ENTER, "1234", "", 9, {0, 0, 0}, 3, 2, 0},
    {0, CVR_PIN_TYPE_DEVICE_SIM_PIN, ENTER, "1234", "", 9, {0, 0, 0}, 3, 2, 0},
    {0, CVR_PIN_TYPE_PUK2, ENTER, "", "", 9, {0, 0, 0}, 3, 2, 0},
    {0, CVR_PIN_TYPE_PIN2, ENTER, "2222", "", 2, {0, 0, 0}, 3, 2, 0}, /* disabled */
    {0, CVR_PIN_TYPE_PIN2, ENTER, "0000", "", 2, {0, 0, 0}, 3, 2, 0},
    {0, PUK1, ENTER, "12345678", "5678", 2, {0, 0, 0}, 3, 2, 0}, /* its PIN has tries */
    {0, PUK1, ENTER, "0000", "", 2, {0, 0, 0}, 3, 2, 0},
    {0, CVR_PIN_TYPE_NETWORK_SUBSET_PUK, ENTER, "subset", "", 2, {0, 0, 0}, 3, 2, 0},
    /* wrong texts: the first part, one more, another end, none; right; entered */
    {0, PIN1, ENTER, "123", "", 2, {PIN1, LOCKED, 2}, 2, 2, 0},
    {0, PIN1, ENTER, "12345", "1234", 2, {PIN1, LOCKED, 1}, 1, 2, 0},
    {0, PIN1, ENTER, "1234", "5678", 0, {0, 0, 0}, 3, 2, 1},
    {0, PIN1, ENTER, "1234", "", 2, {0, 0, 0}, 3, 2, 1},
    {0, PIN1, ENTER, "0000", "", 2, {0, 0, 0}, 3, 2, 1},
    {0, PUK1, ENTER, "12345678", "", 2, {0, 0, 0}, 3, 2, 1},
    /* three wrong ones, the right one too late, the PUK wrong and right */
    {1, PIN1, ENTER, "1235", "", 2, {PIN1, LOCKED, 2}, 2, 2, 0},
    {0, PIN1, ENTER, "", "", 2, {PIN1, LOCKED, 1}, 1, 2, 0},
    {0, PIN1, ENTER, "0234", "", 2, {PUK1, LOCKED, 2}, 0, 2, 0},
    {0, PIN1, ENTER, "1234", "", 2, {PUK1, LOCKED, 2}, 0, 2, 0},
    {0, PUK1, ENTER, "12345679", "5678", 2, {PUK1, LOCKED, 1}, 0, 1, 0},
    {0, PIN1, ENTER, "1234", "", 2, {PUK1, LOCKED, 1}, 0, 1, 0},
    {0, PUK1, ENTER, "12345678", "5678", 0, {0, 0, 0}, 3, 2, 1},
    {0, PIN1, ENTER, "5678", "", 2, {0, 0, 0}, 3, 2, 1},
    {0, PUK1, ENTER, "12345678", "", 2, {0, 0, 0}, 3, 2, 1},
    /* the PUK used up */
    {1, PIN1, ENTER, "0", "", 2, {PIN1, LOCKED, 2}, 2, 2, 0},
    {0, PIN1, ENTER, "0", "", 2, {PIN1, LOCKED, 1}, 1, 2, 0},
    {0, PIN1, ENTER, "0", "", 2, {PUK1, LOCKED, 2}, 0, 2, 0},
    {0, PUK1, ENTER, "0", "", 2, {PUK1, LOCKED, 1}, 0, 1, 0},
    {0, PUK1, ENTER, "0", "", 2, {0, 0, 0}, 0, 0, 0},
    {0, PUK1, ENTER, "12345678", "5678", 2, {0, 0, 0}, 0, 0, 0},
    {0, PIN1, ENTER, "1234", "", 2, {0, 0, 0}, 0, 0, 0},
    /* no PUK, or none in the table */
    {0, CVR_PIN_TYPE_CUSTOM, ENTER, "0", "", 2, {0, 0, 0}, 0, 0, 0},
    {0, CVR_PIN_TYPE_CUSTOM, ENTER, "custom", "", 2, {0, 0, 0}, 0, 0, 0},
    {0, CVR_PIN_TYPE_NETWORK_PIN, ENTER, "0", "", 2, {0, 0, 0}, 0, 0, 0},
    {0, CVR_PIN_TYPE_NETWORK_PIN, ENTER, "net", "", 2, {0, 0, 0}, 0, 0, 0},
    /* without tries from the start; the longest text; the empty one */
    {0, PROVIDER, ENTER, "", "", 2, {PROVIDER_PUK, LOCKED, 5}, 0, 0, 0},
    {0, PROVIDER_PUK, ENTER, "provider", "", 0, {0, 0, 0}, 0, 0, 0},
    {0, PROVIDER, ENTER, "", "", 2, {0, 0, 0}, 0, 0, 0},
    {0, CORPORATE, ENTER, "sixteen letters.", "", 2, {CORPORATE, LOCKED, 1}, 0, 0, 0},
    {0, CORPORATE, ENTER, "sixteen letters!", "", 0, {0, 0, 0}, 0, 0, 0},
};

/* The PUK of each type below PUK1, or 0. */
static const uint32_t puk_of[PUK1] = {0, 0, 11, 12, 0, 13, 14, 15, 16, 17, 0};

/* Whether the rows are as they were, but for the entry's own and the PIN's that its PUK unblocks. */
static int others_stay(uint32_t pin_type, const uint8_t *before, const uint8_t *after)
{
    uint32_t type;
    for (type = 1; type <= CVR_PIN_TYPES; type++)
        if (type != pin_type && (type >= PUK1 || puk_of[type] == 0 || puk_of[type] != pin_type)
            && memcmp(before + CVR_AT_PINS_ROW(type), after + CVR_AT_PINS_ROW(type), CVR_PIN_ROW_SIZE))
            return 0;
    return 1;
}

static void check_info(const char *table, int i, cvr_pin_info got, cvr_pin_info expected)
{
    check(table, i, "the type", got.pin_type, expected.pin_type);
    check(table, i, "the state", got.pin_state, expected.pin_state);
    check(table, i, "the attempts", got.remaining_attempts, expected.remaining_attempts);
}

static void try_entry(int i, const entry *e, uint8_t *memory)
{
    const uint8_t *pin = memory + CVR_AT_PINS_ROW(PIN1), *puk = memory + CVR_AT_PINS_ROW(PUK1);
    uint8_t before[CVR_PINS_SIZE];
    cvr_pin_answer answer;
    payload in;
    write_entry(&in, e->pin_type, e->operation, e->pin, e->new_pin);
    memcpy(before, memory, sizeof before);
    answer = cvr_pin_enter(memory, CVR_PINS_SIZE, in.bytes, in.length);
    check_refusal("entries", i, answer.refusal, CVR_NO_REFUSAL, 0);
    check("entries", i, "the status", answer.status, e->status);
    check("entries", i, "whether PIN_INFO is shown", answer.shown, e->status != 9);
    check_info("entries", i, answer.info, e->info);
    check("entries", i, "PIN1's tries", number_at(pin, CVR_AT_ROW_TRIES), e->pin_tries);
    check("entries", i, "PUK1's tries", number_at(puk, CVR_AT_ROW_TRIES), e->puk_tries);
    check("entries", i, "PIN1's entry", pin[CVR_AT_ROW_ENTERED], e->entered);
    check("entries", i, "another row that changed", !others_stay(e->pin_type, before, memory), 0);
}

static void entry_table(void)
{
    uint8_t memory[CVR_PINS_SIZE];
    int i;
    for (i = 0; i < (int)(sizeof entries / sizeof entries[0]); i++) {
        if (entries[i].anew)
            cvr_pin_make(memory, sizeof memory, all_pins());
        try_entry(i, &entries[i], memory);
    }
}

/* Every type with one try and the empty secret: a wrong text for each PIN, then its PUK with a new one. */
static void puk_table(void)
{
    cvr_pins pins;
    uint8_t memory[CVR_PINS_SIZE], before[CVR_PINS_SIZE];
    cvr_pin_info info = {0, 0, 0};
    payload in;
    uint32_t type;
    memset(&pins, 0, sizeof pins);
    for (type = 0; type < CVR_PIN_TYPES; type++)
        pins.rows[type].present = pins.rows[type].enabled = pins.rows[type].starting_tries = 1;
    for (type = 1; type < PUK1; type++) {
        cvr_pin_make(memory, sizeof memory, pins);
        info.pin_type = puk_of[type];
        info.pin_state = info.remaining_attempts = puk_of[type] != 0;
        write_entry(&in, type, ENTER, "wrong", "");
        check_info("PUKs", (int)type, cvr_pin_enter(memory, sizeof memory, in.bytes, in.length).info, info);
        memcpy(before, memory, sizeof before);
        write_entry(&in, puk_of[type], ENTER, "", "n");
        check("PUKs", (int)type, "the status",
              cvr_pin_enter(memory, sizeof memory, in.bytes, in.length).status, puk_of[type] ? 0 : 9);
        check("PUKs", (int)type, "the new text", memory[CVR_AT_PINS_ROW(type) + CVR_AT_ROW_SECRET],
              puk_of[type] ? 'n' : 0);
        check("PUKs", (int)type, "another row that changed", !others_stay(puk_of[type], before, memory), 0);
    }
}

/* The PIN's row after its right PUK: the new text, and 0 past it. */
static void new_text(const char *new_pin)
{
    cvr_pins pins = all_pins();
    uint8_t memory[CVR_PINS_SIZE], expected[CVR_PINS_SIZE];
    cvr_pin *pin = &pins.rows[PIN1 - 1];
    payload in;
    cvr_pin_make(memory, sizeof memory, pins);
    put_number(memory + CVR_AT_PINS_ROW(PIN1), CVR_AT_ROW_TRIES, 0);
    put_number(memory + CVR_AT_PINS_ROW(PUK1), CVR_AT_ROW_TRIES, 1);
    pin->secret_length = (uint32_t)widen(new_pin, pin->secret);
    made_memory(&pins, expected);
    expected[CVR_AT_PINS_ROW(PIN1) + CVR_AT_ROW_ENTERED] = 1;
    write_entry(&in, PUK1, ENTER, "12345678", new_pin);
    check("new text", 0, "the status", cvr_pin_enter(memory, sizeof memory, in.bytes, in.length).status, 0);
    check("new text", 0, "another memory", memcmp(memory, expected, sizeof memory) != 0, 0);
}

/* ---- memory that is refused, and a payload */

/* A byte of a row, and the refusal's place in it; a row that is not present is judged as well. */
static const struct fault {
    size_t at;
    uint8_t byte;
    size_t place;
} faults[] = {
    {CVR_AT_ROW_PRESENT, 2, 0},        {CVR_AT_ROW_PRESENT, 255, 0},
    {CVR_AT_ROW_ENABLED, 2, 1},        {CVR_AT_ROW_ENTERED, 2, 2},
    {CVR_AT_ROW_SECRET_LENGTH, 1, 3},  {CVR_AT_ROW_SECRET_LENGTH, 33, 3},
    {CVR_AT_ROW_SECRET_LENGTH, 34, 3}, {CVR_AT_ROW_TRIES, 11, 4},
    {CVR_AT_ROW_TRIES + 3, 1, 4},
};

static void try_memory(int i, uint8_t *memory, size_t size, uint32_t number, uint64_t place)
{
    static const payload broken = {{0}, 1};
    uint8_t before[CVR_PINS_SIZE];
    memcpy(before, memory, sizeof before);
    check_refusal("memory", i, cvr_pin_enter(memory, size, broken.bytes, broken.length).refusal, number,
                  place);
    check("memory", i, "a byte that changed", memcmp(memory, before, sizeof before) != 0, 0);
}

/* Every row with each fault; another fault in the last row is a later one. */
static void memory_table(void)
{
    cvr_pins pins = all_pins();
    uint8_t memory[CVR_PINS_SIZE];
    uint32_t type;
    size_t i;
    for (type = 1; type <= CVR_PIN_TYPES; type++)
        for (i = 0; i < sizeof faults / sizeof faults[0]; i++) {
            cvr_pin_make(memory, sizeof memory, pins);
            memory[CVR_AT_PINS_ROW(CVR_PIN_TYPES) + CVR_AT_ROW_TRIES] = 11;
            memory[CVR_AT_PINS_ROW(type) + faults[i].at] = faults[i].byte;
            try_memory((int)type, memory, sizeof memory, CVR_CONTRADICTION,
                       CVR_AT_PINS_ROW(type) + faults[i].place);
            try_memory((int)type, memory, sizeof memory - 1, CVR_OUTPUT_TOO_SMALL, CVR_PINS_SIZE);
        }
    cvr_pin_make(memory, sizeof memory, pins);
    try_memory(0, memory, sizeof memory, CVR_TOO_SHORT, 1);
}

/* An entry is strict; what is past a secret's length becomes 0 with the next one. */
static void strict_entry(void)
{
    uint8_t memory[CVR_PINS_SIZE], expected[CVR_PINS_SIZE];
    uint8_t *past = memory + CVR_AT_PINS_ROW(PIN1) + CVR_AT_ROW_SECRET + 8;
    payload in;
    cvr_pin_make(memory, sizeof memory, all_pins());
    memcpy(expected, memory, sizeof expected);
    *past = 1;
    write_entry(&in, CVR_PIN_TYPE_PIN2, ENTER, "1234", "");
    put_number(in.bytes, CVR_AT_SET_PIN_NEW_PIN, 24);
    check_refusal("strict", 0, cvr_pin_enter(memory, sizeof memory, in.bytes, in.length).refusal,
                  CVR_OFFSET_WITH_ZERO_SIZE, CVR_AT_SET_PIN_NEW_PIN);
    check("strict", 0, "the byte past the secret", *past, 1);
    put_number(in.bytes, CVR_AT_SET_PIN_NEW_PIN, 0);
    check("strict", 1, "the status", cvr_pin_enter(memory, sizeof memory, in.bytes, in.length).status, 2);
    check("strict", 1, "another memory", memcmp(memory, expected, sizeof memory) != 0, 0);
}

/* ---- a modem with a table */

enum { RIGHT, WRONG, OPERATION, ABSENT, REFUSED };

/* A command to a modem at a stage, with a table of so many bytes and room for the output. */
typedef struct receive_row {
    int stage;
    uint16_t advertised;
    uint32_t type; /* of the command */
    int entry;
    size_t size, room;
    uint32_t refusal, place, action, status;
    int next;
    uint16_t version;
} receive_row;

#define ALL CVR_PINS_SIZE
#define LEAST CVR_PIN_INFO_LENGTH

static const receive_row receive_rows[] = {
    /* the handshake doesn't let it through; a query is served by the program: no table is looked at */
    {0, V1, CVR_SET, RIGHT, 0, 0, 0, 0, CVR_ACTION_FAILED, 9, 0, 0},
    {1, V2, CVR_SET, RIGHT, 0, 0, 0, 0, CVR_ACTION_FAILED, 9, 1, 0},
    {1, V1, CVR_QUERY, RIGHT, 0, 0, 0, 0, CVR_ACTION_SERVE, 0, 2, V1},
    {2, V1, CVR_QUERY, RIGHT, 0, 0, 0, 0, CVR_ACTION_SERVE, 0, 2, V2},
    /* an entry settles the modem that advertised 1.00 */
    {1, V1, CVR_SET, RIGHT, ALL, LEAST, 0, 0, CVR_ACTION_PIN, 0, 2, V1},
    {1, V1, CVR_SET, WRONG, ALL, LEAST, 0, 0, CVR_ACTION_PIN, 2, 2, V1},
    {1, V1, CVR_SET, OPERATION, ALL, 0, 0, 0, CVR_ACTION_FAILED, 9, 2, V1},
    {1, V1, CVR_SET, ABSENT, ALL, 0, 0, 0, CVR_ACTION_FAILED, 9, 2, V1},
    {1, V1, CVR_SET, REFUSED, ALL, 0, 0, 0, CVR_ACTION_FAILED, 9, 2, V1},
    {2, V2, CVR_SET, RIGHT, ALL, LEAST + 9, 0, 0, CVR_ACTION_PIN, 0, 2, V2},
    {2, V2, CVR_SET, WRONG, ALL, LEAST, 0, 0, CVR_ACTION_PIN, 2, 2, V2},
    {2, V2, CVR_SET, OPERATION, ALL, LEAST, 0, 0, CVR_ACTION_FAILED, 9, 2, V2},
    {2, V2, CVR_SET, ABSENT, ALL, LEAST, 0, 0, CVR_ACTION_FAILED, 9, 2, V2},
    {2, V2, CVR_SET, REFUSED, ALL, LEAST, 0, 0, CVR_ACTION_FAILED, 9, 2, V2},
    /* refused: the end stays at its stage too */
    {1, V1, CVR_SET, RIGHT, ALL, LEAST - 1, CVR_OUTPUT_TOO_SMALL, LEAST, 0, 0, 1, 0},
    {1, V1, CVR_SET, WRONG, ALL, 0, CVR_OUTPUT_TOO_SMALL, LEAST, 0, 0, 1, 0},
    {2, V1, CVR_SET, RIGHT, ALL - 1, 0, CVR_OUTPUT_TOO_SMALL, ALL, 0, 0, 2, 0},
    {1, V1, CVR_SET, REFUSED, ALL - 1, 0, CVR_OUTPUT_TOO_SMALL, ALL, 0, 0, 1, 0},
};

static cvr_message_header header(const cvr_service *service, uint32_t cid, uint32_t type)
{
    cvr_message_header message = {CVR_MESSAGE_COMMAND, 1, {0, 0, 0, 0}, 0, 0};
    message.service = *service;
    message.cid = cid;
    message.word = type;
    return message;
}

/* A modem of 2.00; its handshake goes through the same call, and no table is needed for it. */
static void modem_at(uint8_t *modem, int stage, uint16_t advertised)
{
    static const uint8_t version[CVR_VERSION_INFO_LENGTH] = {0, 1, 0, 2};
    static const cvr_device_service element = {CVR_EXTENSIONS, 0, 0, 1};
    static const uint32_t cid = CVR_CID_VERSION;
    uint8_t list[64], out[CVR_VERSION_INFO_LENGTH];
    uint32_t fields[CVR_ELEMENT_WORDS];
    size_t length;
    memcpy(fields, &element, sizeof fields);
    length = cvr_device_services_write_all(0, fields, CVR_ELEMENT_WORDS, &cid, 1, list, sizeof list).length;
    cvr_modem_make(modem, CVR_MODEM_SIZE, V2, advertised, list, length);
    if (stage >= CVR_MODEM_LISTED)
        cvr_pin_receive(modem, CVR_MODEM_SIZE, NULL, 0,
                        header(&basic_connect, CVR_CID_DEVICE_SERVICES, CVR_QUERY), NULL, 0, NULL, 0);
    if (stage == CVR_MODEM_SETTLED)
        cvr_pin_receive(modem, CVR_MODEM_SIZE, NULL, 0, header(&extensions, CVR_CID_VERSION, CVR_QUERY),
                        version, sizeof version, out, sizeof out);
}

static void write_chosen(payload *out, int chosen)
{
    write_entry(out, chosen == ABSENT ? CVR_PIN_TYPE_SUBSIDY_LOCK : PIN1,
                chosen == OPERATION ? CVR_PIN_OPERATION_CHANGE : ENTER,
                chosen == WRONG ? "4321" : "1234", "");
    if (chosen == REFUSED)
        put_number(out->bytes, CVR_AT_SET_PIN_NEW_PIN, 24);
}

/* The table and the output are what an entry without a modem makes of them. */
static void check_entered(int i, const receive_row *row, const payload *in, const uint8_t *pins,
                          const uint8_t *out, uint64_t length)
{
    uint8_t expected[CVR_PINS_SIZE];
    cvr_pin_answer answer;
    cvr_pin_make(expected, sizeof expected, all_pins());
    check("receive", i, "the length", length, row->action == CVR_ACTION_PIN ? LEAST : 0);
    if (row->action == CVR_ACTION_PIN) {
        answer = cvr_pin_enter(expected, sizeof expected, in->bytes, in->length);
        check_info("receive", i, cvr_pin_info_read(out, LEAST).info, answer.info);
    }
    check("receive", i, "another table", memcmp(pins, expected, sizeof expected) != 0, 0);
    check("receive", i, "the output past it", out[row->action == CVR_ACTION_PIN ? LEAST : 0], 0xAA);
}

static void try_receive(int i, const receive_row *row)
{
    uint8_t modem[CVR_MODEM_SIZE], pins[CVR_PINS_SIZE], out[2 * LEAST];
    cvr_modem_answer answer;
    payload in;
    memset(out, 0xAA, sizeof out);
    cvr_pin_make(pins, sizeof pins, all_pins());
    modem_at(modem, row->stage, row->advertised);
    check("receive", i, "the stage before", modem[CVR_AT_MODEM_STAGE], (uint64_t)row->stage);
    write_chosen(&in, row->entry);
    answer = cvr_pin_receive(modem, sizeof modem, pins, row->size,
                             header(&basic_connect, CVR_CID_PIN, row->type), in.bytes, in.length, out,
                             row->room);
    check_refusal("receive", i, answer.refusal, row->refusal, row->place);
    check("receive", i, "the action", answer.action, row->action);
    check("receive", i, "the status", answer.status, row->status);
    check("receive", i, "the kind", answer.kind,
          row->action == CVR_ACTION_SERVE ? CVR_KIND_PIN_INFO : CVR_KIND_NONE);
    check("receive", i, "the version", answer.version, row->version);
    check("receive", i, "the unknown's place", answer.place, 0);
    check("receive", i, "the next stage", modem[CVR_AT_MODEM_STAGE], (uint64_t)row->next);
    check_entered(i, row, &in, pins, out, answer.length);
}

/* A fault of the table comes before the payload's; the modem's memory and the message come before it. */
static void receive_order(void)
{
    uint8_t modem[CVR_MODEM_SIZE], pins[CVR_PINS_SIZE];
    cvr_message_header message = header(&basic_connect, CVR_CID_PIN, CVR_SET);
    cvr_refusal refusal;
    cvr_pin_make(pins, sizeof pins, all_pins());
    pins[CVR_AT_PINS_ROW(PUK1) + CVR_AT_ROW_ENTERED] = 2;
    modem_at(modem, CVR_MODEM_LISTED, V1);
    refusal = cvr_pin_receive(modem, sizeof modem, pins, sizeof pins, message, NULL, 0, NULL, 0).refusal;
    check_refusal("order", 0, refusal, CVR_CONTRADICTION, CVR_AT_PINS_ROW(PUK1) + CVR_AT_ROW_ENTERED);
    check("order", 0, "the stage", modem[CVR_AT_MODEM_STAGE], CVR_MODEM_LISTED);
    message.transaction = 0;
    refusal = cvr_pin_receive(modem, sizeof modem, pins, sizeof pins, message, NULL, 0, NULL, 0).refusal;
    check_refusal("order", 1, refusal, CVR_OUTSIDE_TABLE, CVR_AT_MESSAGE_TRANSACTION);
    message.message_type = CVR_MESSAGE_COMMAND_DONE;
    refusal = cvr_pin_receive(modem, sizeof modem, pins, sizeof pins, message, NULL, 0, NULL, 0).refusal;
    check_refusal("order", 2, refusal, CVR_UNKNOWN, 0);
    modem[CVR_AT_MODEM_STAGE] = 3;
    refusal = cvr_pin_receive(modem, sizeof modem, pins, sizeof pins, message, NULL, 0, NULL, 0).refusal;
    check_refusal("order", 3, refusal, CVR_CONTRADICTION, CVR_AT_MODEM_STAGE);
}

int main(void)
{
    int i;
    made_table();
    member_table();
    entry_table();
    puk_table();
    new_text("5678");
    new_text("");
    new_text("sixteen letters!");
    memory_table();
    strict_entry();
    for (i = 0; i < (int)(sizeof receive_rows / sizeof receive_rows[0]); i++)
        try_receive(i, &receive_rows[i]);
    receive_order();
    return failed;
}
