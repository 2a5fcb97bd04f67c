/* The lane run-time for hosts written in C: the block check and the bench.
 *
 * Both functions are proved to meet the contracts below for every slice, of any length and any bytes. They keep no state, allocate nothing
 * and call memcpy and memset alone of the C library; so several threads may call them at once, each with a `listing` of its own, while nobody
 * writes the slices that they are lent (no proof speaks of threads). A slice is a pointer and a length; the
 * pointer is not null, also where the length is 0, and the bytes of `listing` overlap no other slice.
 *
 * Platform: the archive is for x86-64 Linux, as C's own calling convention there has it. Nothing checks these declarations against the proved
 * source but the host in examples/, which the gate builds and runs.
 *
 * Stack: no proof speaks of it. Of an earlier build 54,712 bytes were seen at the most in `lane_bench`, over the examples and the lanes of docs/growth; of
 * earlier ones some 158,000. It hangs on how the compiler lays functions into one another, so give a thread that calls it 256 KB.
 * `lane_block_check` takes next to none.
 */
#ifndef LANE_H
#define LANE_H

#include <stddef.h>
#include <stdint.h>

#ifdef __cplusplus
extern "C" {
#endif

/* The check that bytes 510 and 511 of a lane file's block hold over the bytes before them, of any slice: CRC-16, polynomial 1021 hex, start
 * FFFF hex, no reflection, no final exclusive-or. The nine digits "123456789" give 29B1 hex. */
uint16_t lane_block_check(const uint8_t *bytes, size_t bytes_length);

/* A listing buffer has at least so many bytes. */
#define LANE_LISTING_SIZE 65536

/* Plays the pick bytes on the lane of a lane file with its input, and writes the listing from the start of `listing` on; bytes past it stay.
 *
 *   file     a lane file
 *   input    records of five bytes: a channel from outside, and a value of four bytes, highest first
 *   picks    at most 3,000 bytes, each a process to pick, or 255, a relief
 *   listing  at least LANE_LISTING_SIZE bytes, which any listing fits
 *
 * Answers the listing's length, or the negative number of a refusal, and then `listing` is as it was:
 *   -15      listing is shorter than LANE_LISTING_SIZE
 *   -1 .. -7 the lane file is refused
 *   -17      the input is not such records, above 20,480 bytes, or for a channel not fed from outside; more than 3,000 pick bytes
 *   -8       a pick byte names no process
 */
int32_t lane_bench(const uint8_t *file, size_t file_length, const uint8_t *input, size_t input_length, const uint8_t *picks,
                   size_t picks_length, uint8_t *listing, size_t listing_length);

#ifdef __cplusplus
}
#endif

#endif
