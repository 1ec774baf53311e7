/*
 * fizrahum.h: Fizrahum for C programs, the messages of the Surface Serial Hub
 * protocol, and the audit of a row of request IDs.
 *
 * Link with libc_api.a (x86-64 Linux):
 *
 *     cc -Iinclude program.c crates/c_api/out/libc_api.a
 *
 * Every function here is compiled from code that was proved to meet its
 * contract, for every input that the rules below allow:
 *
 *   - A buffer is a pointer and the number of bytes behind it, for a row the
 *     number of IDs, which the caller must own for the length of the call.
 *     Where that number is 0 the pointer is not followed, and may be NULL.
 *   - A buffer that is written to overlaps nothing else that the same call is
 *     handed.
 *   - No function keeps a pointer, allocates memory or has state of its own, so
 *     any number of threads may call at the same time.
 *   - A buffer that is passed as const is only read.
 *
 * examples/frame_and_read.c shows the writer and the reader at work.
 *
 * SPDX-License-Identifier: MIT
 */
#ifndef FIZRAHUM_H
#define FIZRAHUM_H

#include <stddef.h>
#include <stdint.h>

#ifdef __cplusplus
extern "C" {
#endif

/*
 * The checksum that guards a message's header and its payload: 16 bits,
 * polynomial 0x1021, start 0xFFFF, highest bit first, no reflection, no final
 * change (CRC-16/CCITT-FALSE).
 *
 * Answers the checksum of the bytes, of any number; of none it is 0xFFFF. It
 * refuses nothing. On the line the checksum stands with its low byte first.
 */
uint16_t fizrahum_checksum(const uint8_t *bytes, size_t length);

/*
 * A message on the line, 10 + LEN bytes, numbers with their low byte first:
 *
 *     AA 55      SYN
 *     TYPE (1)   LEN (2)   SEQ (1)
 *     checksum of TYPE, LEN and SEQ (2)
 *     payload (LEN)
 *     checksum of the payload (2), there also where LEN is 0
 *
 * These values of TYPE are allowed, each with the LEN beside it. Every other
 * header is forbidden.
 */
#define FIZRAHUM_NAK      0x04 /* LEN 0; written with SEQ 0, read with any */
#define FIZRAHUM_ACK      0x40 /* LEN 0 */
#define FIZRAHUM_DATA_SEQ 0x80 /* LEN 1 to FIZRAHUM_MAX_LEN */
#define FIZRAHUM_DATA_NSQ 0x00 /* LEN 1 to FIZRAHUM_MAX_LEN */

#define FIZRAHUM_MAX_LEN  256 /* bytes of the longest payload */
#define FIZRAHUM_OVERHEAD 10  /* bytes of a message beside its payload */

/* The refusals of fizrahum_write. */
#define FIZRAHUM_NO_ROOM          6
#define FIZRAHUM_FORBIDDEN_HEADER 7

/*
 * Writes a message into the buffer, its first byte at `place`. The payload is
 * the `length` bytes at `payload`, and LEN is that length.
 *
 * Answers the length of the message, 10 + length, or a refusal. One number can
 * carry both: a message has at least 10 bytes, so an answer below
 * FIZRAHUM_OVERHEAD is a refusal. There are two, tested in this order:
 *
 *   7, FIZRAHUM_FORBIDDEN_HEADER: type and length make a forbidden header, or
 *      type is FIZRAHUM_NAK and seq is not 0.
 *   6, FIZRAHUM_NO_ROOM: place + 10 + length is past the buffer's end. The sum
 *      is one of whole numbers and never wraps: every place may be asked for,
 *      up to SIZE_MAX.
 *
 * A refusal leaves the whole buffer as it was. Otherwise the bytes before and
 * after the message stay as they were.
 */
size_t fizrahum_write(uint8_t *buffer, size_t size, size_t place, uint8_t type,
                      uint8_t seq, const uint8_t *payload, size_t length);

/* The answers of fizrahum_read. */
#define FIZRAHUM_UNDECIDED       0
#define FIZRAHUM_DAMAGED_HEADER  2
#define FIZRAHUM_FORBIDDEN       3
#define FIZRAHUM_DAMAGED_PAYLOAD 5
#define FIZRAHUM_MESSAGE         6

/*
 * Finds the first item in the bytes. It refuses nothing.
 *
 * Bytes are dropped until AA 55 stands in front; a lone AA at the end is kept,
 * as 55 may follow it. Then the first of these rules that applies decides, and
 * the answer is its number, or 0 for either of the undecided ones:
 *
 *   1  fewer than 8 bytes are left         FIZRAHUM_UNDECIDED (0)
 *   2  the header's checksum is wrong      FIZRAHUM_DAMAGED_HEADER
 *   3  the header is forbidden             FIZRAHUM_FORBIDDEN
 *   4  fewer than 10 + LEN bytes are left  FIZRAHUM_UNDECIDED (0)
 *   5  the payload's checksum is wrong     FIZRAHUM_DAMAGED_PAYLOAD
 *   6  none of these                       FIZRAHUM_MESSAGE
 *
 * Whatever the answer, all six numbers are set:
 *
 *   *type, *seq, *len  the header's, for a message; otherwise 0.
 *   *payload  the place in `bytes` of the payload's first byte, for a message;
 *             otherwise 0. The payload is the *len bytes from bytes + *payload
 *             on: a part of what was handed in, not a copy.
 *   *dropped  the bytes dropped before the item or, undecided, so far.
 *   *removed  the bytes removed with the item: 10 + LEN for a message; 2, the
 *             AA 55, for one that is damaged or forbidden; 0 for undecided.
 *
 * Read on from bytes + *dropped + *removed. Once it is undecided, keep what is
 * left from there on, and read it again with more bytes behind it.
 *
 * The six pointers must not be NULL. They point to six distinct numbers, none
 * of them within the bytes.
 */
uint8_t fizrahum_read(const uint8_t *bytes, size_t length, uint8_t *type,
                      uint8_t *seq, size_t *payload, size_t *len,
                      size_t *dropped, size_t *removed);

/*
 * Audits a row of request IDs, for an insurer's tool that asks whether they are
 * sound. `reserved` is the number R: IDs 1 to R are those of events, and no
 * request has one of these, or 0.
 *
 * Answers the first position, counted from 0, whose ID is 0, at most R, or
 * equal to an earlier one; of two equal IDs that is the later one's. Where
 * there is none, the answer is `count`. One number can carry both: a position
 * is below `count`.
 *
 * It refuses nothing. Any R may be asked for, up to UINT64_MAX: with 65535 or
 * more no ID is sound. A row of no IDs has none: the answer is 0, its `count`.
 *
 * The row is `count` numbers at `ids`, which must be aligned for uint16_t, as
 * an array of them is. It is only read. A call needs some 8 KB of stack, for a
 * table of the IDs that it has passed.
 */
size_t fizrahum_audit(const uint16_t *ids, size_t count, uint64_t reserved);

#ifdef __cplusplus
}
#endif

#endif /* FIZRAHUM_H */
