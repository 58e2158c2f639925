/* A line of the stored samples (docs/samples.md): five fields of bytes. */
#ifndef SAMPLE_LINE_H
#define SAMPLE_LINE_H

#include <stddef.h>
#include <stdint.h>
#include <string.h>

#define MOST_LINE 16640

enum { QUESTION, ARGUMENTS, INPUT, ANSWER, OUTPUT, FIELDS };

/* What a field doesn't have is 0. */
typedef struct sample {
    uint8_t field[FIELDS][MOST_LINE];
    size_t length[FIELDS];
} sample;

/* The value of a hexadecimal digit; 16 for any other sign. */
static unsigned digit(char sign)
{
    static const char digits[] = "0123456789abcdefABCDEF";
    const char *found = sign ? strchr(digits, sign) : NULL;
    size_t value = found ? (size_t)(found - digits) : 22;
    return (unsigned)(value < 16 ? value : value - 6);
}

/* Reads the bytes at the front of a text that a line feed ends; gives the sign behind them. */
static const char *read_field(const char *text, uint8_t *field, size_t *length)
{
    for (*length = 0; digit(text[0]) < 16 && digit(text[1]) < 16; text += 2)
        field[(*length)++] = (uint8_t)(digit(text[0]) << 4 | digit(text[1]));
    return text;
}

/* Reads a line of so many bytes; gives 0 if it has not the form. */
static int read_sample(const char *text, size_t length, sample *read)
{
    const char *at = text;
    int i;
    memset(read, 0, sizeof *read);
    if (length > MOST_LINE || text[length - 1] != '\n')
        return 0;
    for (i = 0; i < FIELDS; i++) {
        at = read_field(at, read->field[i], &read->length[i]);
        if (*at++ != (i == OUTPUT ? '\n' : '\t'))
            return 0;
    }
    return at == text + length && read->length[QUESTION] <= 1;
}

/* The number at a place of a field. */
static uint32_t number_at(const uint8_t *field, size_t place)
{
    const uint8_t *at = field + 4 * place;
    if (place >= MOST_LINE / 4)
        return 0;
    return (uint32_t)at[0] | (uint32_t)at[1] << 8 | (uint32_t)at[2] << 16 | (uint32_t)at[3] << 24;
}

#endif
