/*
 * PIN entries with wrong texts of the secret's length: 32 that agree with it in so many bytes from the front
 * and in no other, and 32 that differ from it in one byte alone. Run under valgrind, which counts what each
 * call takes (tests/instructions.sh); one more payload, without a text, is written and not entered.
 */
#include "culvertroost.h"

#include <stdio.h>
#include <string.h>

static uint8_t pins[CVR_PINS_SIZE];
static uint8_t payload[CVR_SET_PIN_LENGTH];

static cvr_written write_payload(const uint8_t *text, size_t length)
{
    cvr_set_pin entry = {CVR_PIN_TYPE_PIN1, CVR_PIN_OPERATION_ENTER};
    return cvr_set_pin_write(entry, text, length, NULL, 0, payload, sizeof payload);
}

static int enter(const uint8_t *text)
{
    cvr_written written = write_payload(text, CVR_MOST_PIN);
    cvr_pin_answer answer = cvr_pin_enter(pins, sizeof pins, payload, written.length);
    return written.refusal.number == 0 && answer.refusal.number == 0 && answer.shown == 1
           && answer.info.pin_type == CVR_PIN_TYPE_PIN1 && answer.info.pin_state == CVR_PIN_STATE_LOCKED;
}

int main(void)
{
    static cvr_pins made;
    cvr_pin *row = &made.rows[CVR_PIN_TYPE_PIN1 - 1];
    uint8_t text[CVR_MOST_PIN];
    size_t i, k, wrong = 0;
    row->present = row->enabled = 1;
    row->starting_tries = 1000;
    row->secret_length = CVR_MOST_PIN;
    for (i = 0; i < CVR_MOST_PIN; i++)
        row->secret[i] = (uint8_t)(i + 1);
    if (cvr_pin_make(pins, sizeof pins, made).number != 0)
        return 1;
    for (k = 0; k < CVR_MOST_PIN; k++) {
        for (i = 0; i < CVR_MOST_PIN; i++)
            text[i] = (uint8_t)(i < k ? i + 1 : 0xee);
        wrong += (size_t)enter(text);
        memcpy(text, row->secret, sizeof text);
        text[k] ^= 1;
        wrong += (size_t)enter(text);
    }
    write_payload(NULL, 0);
    printf("%u wrong texts\n", (unsigned)wrong);
    return wrong != 2 * CVR_MOST_PIN;
}
