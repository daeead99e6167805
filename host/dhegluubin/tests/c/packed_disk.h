/* Where the bytes of a packed disk stand. */

#ifndef PACKED_DISK_H
#define PACKED_DISK_H

#include <stddef.h>
#include <stdint.h>

/* Bytes of a side. */
#define SIDE_LEN 12500

/* A byte of a side: its 256 bytes of one unit after the other. */
static inline uint8_t *side_byte(uint8_t *hfe, size_t track, size_t side, size_t byte)
{
    return hfe + 512 * (2 + 49 * track) + 512 * (byte / 256) + 256 * side + byte % 256;
}

/* Where byte `index` of a sector begins in its side, counted from the 00 before its header. */
static inline size_t in_sector(size_t r, size_t index)
{
    return 2 * (146 + 658 * (r - 1) + index);
}

#endif
