/* Answers payloads: each is an octet with its length, and its octets; each answer is a line with the number. */
#include <inttypes.h>
#include <stdio.h>

#include "gublaisma.h"

int main(void) {
    uint8_t octets[255];
    int length;
    while ((length = getchar()) != EOF) {
        if (fread(octets, 1, (size_t)length, stdin) != (size_t)length) {
            fputs("a payload is cut short\n", stderr);
            return 1;
        }
        printf("%" PRIu32 "\n", gublaisma_read_type3(octets, (size_t)length));
    }
    return 0;
}
