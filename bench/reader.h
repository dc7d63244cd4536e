/* The reader in C beside which the library's reading is measured. */
#ifndef READER_H
#define READER_H

#include <stddef.h>
#include <stdint.h>

/* Makes the table. It is called once, before any payload is read. */
void reader_start(void);

/* The number that `gublaisma_read_type3` gives of these octets. */
uint32_t reader_read_type3(const uint8_t *payload, size_t length);

#endif
