/* Reads type 3 payloads of digits and of CAS, by a table. Written from docs/type3.md and docs/c.md, and over nothing of the library. */
#include "reader.h"

#include <stdbool.h>

enum { SIZE = 23, CHECK = 24, TYPE = 25, KIND_LENGTH = 26, BODY = 27 };

enum { DIGITS = 2, CAS = 3 };

enum { TONE_OFF = 31 };

/* Entry i is the remainder of i times x^10. */
static uint16_t table[256];

void reader_start(void)
{
    for (unsigned i = 0; i < 256; i++) {
        unsigned rest = i << 2;
        for (int bit = 0; bit < 8; bit++)
            rest = rest & 0x200 ? rest << 1 ^ 0x633 : rest << 1;
        table[i] = (uint16_t)rest;
    }
}

/* A payload with its check field leaves nothing. */
static bool leaves_nothing(const uint8_t *payload, size_t length)
{
    unsigned rest = 0;

    for (size_t i = 0; i < length; i++)
        rest = (rest & 3) << 8 ^ table[rest >> 2 ^ payload[i]];
    return rest == 0;
}

static bool has_code(unsigned system, unsigned code)
{
    static const struct { uint8_t first, last; } codes[4] = {{0, 15}, {0, 14}, {1, 15}, {1, 15}};

    return code == TONE_OFF || (codes[system].first <= code && code <= codes[system].last);
}

static uint32_t refused_body(unsigned cause)
{
    return BODY + 256 * cause;
}

static uint32_t read(unsigned type, const uint8_t *payload)
{
    return (uint32_t)type << 16 | (uint32_t)payload[0] << 8 | payload[1];
}

/* Of the body's first octet nothing is asked: the upper three bits are reserved, and the others are any level. */
static uint32_t read_digit(const uint8_t *payload, size_t length)
{
    if (length != 6)
        return KIND_LENGTH;
    if (payload[3] >> 5 > 3)
        return refused_body(2);
    if (!has_code(payload[3] >> 5, payload[3] & 31))
        return refused_body(3);
    return read(DIGITS, payload);
}

/* Any body is read: its upper four bits are reserved. */
static uint32_t read_cas(const uint8_t *payload, size_t length)
{
    if (length != 5)
        return KIND_LENGTH;
    return read(CAS, payload);
}

uint32_t reader_read_type3(const uint8_t *payload, size_t length)
{
    if (length < 5 || length > 12)
        return SIZE;
    if (!leaves_nothing(payload, length))
        return CHECK;
    switch (payload[length - 2] >> 2) {
    case DIGITS:
        return read_digit(payload, length);
    case CAS:
        return read_cas(payload, length);
    default:
        return TYPE;
    }
}
