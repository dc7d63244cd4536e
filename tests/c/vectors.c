/* Checks the function that C programs call on payloads made by hand, one for each answer that it has. */
#include <stdio.h>

#include "gublaisma.h"

struct vector {
    uint8_t octets[16];
    size_t length;
    uint32_t answer;
};

static const struct vector vectors[] = {
    {{0x00, 0x00, 0x00, 0x0c, 0x66}, 5, 3u * 65536},
    {{0x00, 0x00, 0x00, 0x00, 0x0a, 0x55}, 6, 2u * 65536},
    {{0x00, 0x00, 0x0a, 0x05, 0x0a, 0xeb}, 6, 2u * 65536},
    {{0xff, 0xff, 0x0f, 0x0c, 0x05}, 5, 3u * 65536 + 0xffff},
    {{0}, 0, 23},
    {{0x00, 0x00, 0x0a, 0x05}, 4, 23},
    {{0}, 13, 23},
    {{0x00, 0x00, 0x0a, 0x05, 0x0a, 0xea}, 6, 24},
    {{0}, 5, 25},
    {{0x00, 0x00, 0x00, 0x00, 0x0c, 0x66}, 6, 26},
    {{0x00, 0x00, 0x00, 0x80, 0x0b, 0x65}, 6, 27 + 256 * 2},
    {{0x00, 0x00, 0x00, 0x10, 0x0a, 0x73}, 6, 27 + 256 * 3},
    /* reserved bits are set */
    {{0x00, 0x00, 0xf0, 0x0d, 0xa4}, 5, 3u * 65536},
    {{0x43, 0xe8, 0x1f, 0x0e, 0xcd}, 5, 3u * 65536 + 0x43e8},
    {{0x00, 0x00, 0xe0, 0x00, 0x0b, 0xf0}, 6, 2u * 65536},
    {{0x00, 0x00, 0xea, 0x05, 0x0b, 0x4e}, 6, 2u * 65536},
    {{0xc5, 0xe6, 0xea, 0x05, 0x0a, 0xe8}, 6, 2u * 65536 + 0xc5e6},
    {{0x00, 0x00, 0x20, 0x90, 0x0b, 0x14}, 6, 27 + 256 * 2},
    {{0x00, 0x00, 0x20, 0x10, 0x0a, 0x24}, 6, 27 + 256 * 3},
    {{0x00, 0x00, 0xea, 0x05, 0x0a, 0xeb}, 6, 24},
    {{0x00, 0x00, 0x80, 0x0c, 0x66}, 5, 24},
};

/* Of all bodies of a kind: how many are read, and refused for cause 2 and for cause 3. */
struct counts {
    unsigned read, system, code;
};

/* The check, bit by bit: the last ten bits are set so that the whole leaves nothing. */
static void set_check(uint8_t *octets, size_t length)
{
    unsigned rest = 0;

    for (size_t bit = 0; bit < 8 * length; bit++) {
        rest = rest << 1 | (octets[bit / 8] >> (7 - bit % 8) & 1);
        if (rest & 0x400)
            rest ^= 0x633;
    }
    octets[length - 2] |= (uint8_t)(rest >> 8);
    octets[length - 1] |= (uint8_t)rest;
}

static void count(struct counts *counts, uint8_t *octets, size_t length, unsigned type)
{
    set_check(octets, length);
    uint32_t answer = gublaisma_read_type3(octets, length);
    /* redundancy and stamp are 0 */
    counts->read += answer == type * 65536;
    counts->system += answer == 27 + 256 * 2;
    counts->code += answer == 27 + 256 * 3;
}

static unsigned differ(const char *kind, struct counts are, struct counts wanted)
{
    printf("of all bodies of %s %u are read, %u refused for cause 2, and %u for cause 3\n", kind, are.read, are.system, are.code);
    return are.read != wanted.read || are.system != wanted.system || are.code != wanted.code;
}

/* Every body of digits, and every one of CAS. The numbers wanted are those of docs/type3.md. */
static unsigned count_bodies(void)
{
    struct counts digits = {0}, cas = {0};

    for (unsigned body = 0; body < 65536; body++) {
        uint8_t octets[6] = {0, 0, (uint8_t)(body >> 8), (uint8_t)body, 2 << 2};
        count(&digits, octets, sizeof octets, 2);
    }
    for (unsigned body = 0; body < 256; body++) {
        uint8_t octets[5] = {0, 0, (uint8_t)body, 3 << 2};
        count(&cas, octets, sizeof octets, 3);
    }
    return differ("digits", digits, (struct counts){16640, 32768, 16128}) + differ("CAS", cas, (struct counts){256, 0, 0});
}

int main(void)
{
    unsigned bad = count_bodies();
    size_t count = sizeof vectors / sizeof vectors[0];

    for (size_t i = 0; i < count; i++) {
        uint32_t answer = gublaisma_read_type3(vectors[i].octets, vectors[i].length);
        if (answer != vectors[i].answer) {
            printf("vector %zu: wanted %u, got %u\n", i, (unsigned)vectors[i].answer, (unsigned)answer);
            bad++;
        }
    }
    printf("%zu vectors and the bodies of two kinds, %u wrong\n", count, bad);
    return bad != 0;
}
