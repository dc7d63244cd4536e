/*
 * Measures the library's reading of type 3 payloads beside the reader in C, in one process and in turns.
 * First both read every payload here, and the program fails where an answer differs.
 * It prints a row for each sort of payload: nanoseconds a payload of the library and of the reader, and their ratio.
 */
#define _POSIX_C_SOURCE 200809L

#include <stdio.h>
#include <stdlib.h>
#include <string.h>
#include <time.h>

#include "gublaisma.h"
#include "reader.h"

enum { ROUNDS = 401, WARM_UP = 50, PAYLOADS = 1024, LONGEST = 16, STRAY = 2000000 };

typedef uint32_t reading(const uint8_t *payload, size_t length);

struct payload {
    uint8_t octets[LONGEST];
};

static uint64_t seed = 9;

static unsigned below(unsigned bound)
{
    seed = seed * 6364136223846793005u + 1442695040888963407u;
    return (unsigned)((seed >> 33) % bound);
}

/* The check, bit by bit: the last ten bits are set so that the whole leaves nothing. */
static void set_check(uint8_t *octets, size_t length)
{
    unsigned rest = 0;

    octets[length - 2] &= 0xfc;
    octets[length - 1] = 0;
    for (size_t bit = 0; bit < 8 * length; bit++) {
        rest = rest << 1 | (octets[bit / 8] >> (7 - bit % 8) & 1);
        if (rest & 0x400)
            rest ^= 0x633;
    }
    octets[length - 2] |= rest >> 8;
    octets[length - 1] = rest & 0xff;
}

static void make_digit(uint8_t *octets)
{
    unsigned system = below(4);
    unsigned code = below(8) == 0 ? 31 : 1 + below(14);

    octets[2] = (uint8_t)below(32);
    octets[3] = (uint8_t)(system << 5 | code);
    octets[4] = 2 << 2;
}

/* A payload of this length with a right check: CAS of 5 octets, a digit of 6, and else a type that is read with a length that is not. */
static void make_good(uint8_t *octets, size_t length)
{
    for (size_t i = 0; i < length; i++)
        octets[i] = (uint8_t)below(256);
    if (length == 5) {
        octets[2] = (uint8_t)below(16);
        octets[3] = 3 << 2;
    } else if (length == 6) {
        make_digit(octets);
    } else {
        octets[length - 2] = (uint8_t)((2 + below(2)) << 2);
    }
    set_check(octets, length);
}

static void change_a_bit(uint8_t *octets, size_t length)
{
    unsigned bit = below((unsigned)(8 * length));

    octets[bit / 8] ^= (uint8_t)(1u << bit % 8);
}

static unsigned differences;

static void compare(const uint8_t *octets, size_t length)
{
    uint32_t ours = gublaisma_read_type3(octets, length);
    uint32_t theirs = reader_read_type3(octets, length);

    if (ours != theirs && differences++ < 10)
        fprintf(stderr, "an answer differs, of %zu octets: the library %u, the reader %u\n", length, (unsigned)ours, (unsigned)theirs);
}

/* Octets of every length, with a right check and without, and with each octet that is asked about at every value. */
static void compare_stray(void)
{
    for (unsigned i = 0; i < STRAY; i++) {
        uint8_t octets[LONGEST];
        size_t length = below(LONGEST + 1);
        for (size_t k = 0; k < length; k++)
            octets[k] = (uint8_t)below(below(2) ? 256 : 32);
        if (length >= 2 && below(8)) {
            if (below(4))
                octets[length - 2] = (uint8_t)((2 + below(2)) << 2);
            set_check(octets, length);
        }
        compare(octets, length);
    }
}

/* A call through a pointer, so that both are called alike. The answers are added up, so that none is left out. */
static __attribute__((noinline)) uint32_t read_all(reading *read, const struct payload *payloads, size_t length)
{
    uint32_t sum = 0;

    for (unsigned i = 0; i < PAYLOADS; i++)
        sum += read(payloads[i].octets, length);
    return sum;
}

static double now(void)
{
    struct timespec time;

    clock_gettime(CLOCK_THREAD_CPUTIME_ID, &time);
    return (double)time.tv_sec * 1e9 + (double)time.tv_nsec;
}

static uint32_t sums[2];

/* Nanoseconds a payload. */
static double measure(unsigned which, reading *read, const struct payload *payloads, size_t length)
{
    double start = now();

    sums[which] += read_all(read, payloads, length);
    return (now() - start) / PAYLOADS;
}

static int ascending(const void *one, const void *other)
{
    double a = *(const double *)one, b = *(const double *)other;

    return (a > b) - (a < b);
}

static double median(double *numbers)
{
    qsort(numbers, ROUNDS, sizeof numbers[0], ascending);
    return numbers[ROUNDS / 2];
}

static void row(const char *sort, const struct payload *payloads, size_t length)
{
    static double ours[ROUNDS], theirs[ROUNDS], ratios[ROUNDS];

    for (unsigned round = 0; round < ROUNDS + WARM_UP; round++) {
        double one = measure(0, gublaisma_read_type3, payloads, length);
        double other = measure(1, reader_read_type3, payloads, length);
        if (round < WARM_UP)
            continue;
        ours[round - WARM_UP] = one;
        theirs[round - WARM_UP] = other;
        ratios[round - WARM_UP] = one / other;
    }
    printf("| %zu octets, %s | %.1f | %.1f | %.2f |\n", length, sort, median(ours), median(theirs), median(ratios));
}

static void measure_length(size_t length)
{
    static struct payload good[PAYLOADS], damaged[PAYLOADS];

    for (unsigned i = 0; i < PAYLOADS; i++) {
        make_good(good[i].octets, length);
        damaged[i] = good[i];
        change_a_bit(damaged[i].octets, length);
        compare(good[i].octets, length);
        compare(damaged[i].octets, length);
    }
    row("good", good, length);
    row("damaged", damaged, length);
}

int main(void)
{
    reader_start();
    compare_stray();
    measure_length(5);
    measure_length(6);
    measure_length(12);
    if (differences || sums[0] != sums[1]) {
        fprintf(stderr, "%u answers differ\n", differences);
        return 1;
    }
    return 0;
}
