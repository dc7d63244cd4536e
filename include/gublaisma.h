/* Reading type 3 payloads of an I.366.2 voice trunk: dialled digits and channel-associated signalling. */
#ifndef GUBLAISMA_H
#define GUBLAISMA_H

#include <stddef.h>
#include <stdint.h>

#ifdef __cplusplus
extern "C" {
#endif

/*
 * Reads a payload. `payload` points to `length` octets that can be read, and is never NULL, not even where `length` is 0.
 * Nothing is kept or allocated.
 *
 * A payload that is read gives
 *     message type * 65536 + octet 1 * 256 + octet 2
 * where the message type is 2 for digits and 3 for CAS, octet 1 is redundancy * 64 + stamp / 256, and octet 2 is stamp % 256.
 * This lies from 131072 to 262143.
 *
 * A payload that is refused gives the number of the first question answered no:
 *     23   it has not 5 to 12 octets
 *     24   its CRC is wrong
 *     25   its message type is neither digits nor CAS
 *     26   its length is not that of its kind: 6 octets for digits, 5 for CAS
 *     27 + 256 * cause   its body is no message of its kind
 * The causes of digits: 2 the digit type is above 3 (539), 3 the code is not of its digit type (795). CAS has no cause.
 * Reserved bits, which are the upper three of a digit's first octet and the upper four of CAS, are ignored; the CRC covers them.
 */
uint32_t gublaisma_read_type3(const uint8_t *payload, size_t length);

#ifdef __cplusplus
}
#endif

#endif
