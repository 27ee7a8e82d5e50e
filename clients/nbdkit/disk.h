/* disk.h: a disk in a pool. Its blocks have 4,096 bytes, and each is written whole or not at all.
 *
 * Object 0 has the disk's header: `topzdisk`, then the size of the disk, DISK_PART and 4,032, 8 bytes each,
 * little-endian. Object 1 + k has part k: the bytes of the disk from k * DISK_PART on, at most DISK_PART of them. The
 * front of a block, its first 4,032 bytes, is a data block of the pool. The tails, the last 64 bytes of each block,
 * stand before the fronts, in two data blocks. So a write of a block replaces the data block of its front without a
 * read, and 64 bytes of one with tails. Of block b, with i = b mod 82, object 1 + b div 82 has the tail at 64 * i, and
 * the front at 8,064 + 4,032 * i. Bytes past the length of the object are zeros.
 *
 * A header of an older disk has no 4,032. Its block b is whole at 4,096 * i.
 *
 * Each call returns 0 or a refusal of topzerad.h. Once the disk is open and has its size, any thread may make any call.
 */
#ifndef TOPZERAD_DISK_H
#define TOPZERAD_DISK_H

#include "topzerad.h"

#define DISK_BLOCK 4096u
#define DISK_PART 335872u /* 82 blocks, at most TOPZERAD_MAX_LENGTH */
#define DISK_MAX_PARTS (TOPZERAD_OBJECTS - 1)
#define DISK_MAX_SIZE ((uint64_t)DISK_MAX_PARTS * DISK_PART)

typedef struct {
    topzerad *pool;
    uint64_t size;
    uint32_t front; /* the bytes of a block that are its front */
} disk;

/* What a pool has. */
typedef enum {
    DISK_THERE,  /* a disk */
    DISK_NONE,   /* no object */
    DISK_FOREIGN /* other objects, or a header that is none */
} disk_found;

/* Looks for the disk of a pool. */
int disk_open(disk *d, topzerad *pool, disk_found *found);
/* Makes a disk of no bytes in a pool without objects. */
int disk_make(disk *d);
/* Lets the disk grow to a size: blocks, and at most DISK_MAX_SIZE. A crash leaves the size before or this one. */
int disk_grow(disk *d, uint64_t size);

/* The range of each of these calls ends at the disk's size or below it. */
int disk_read(disk *d, uint8_t *into, uint64_t offset, uint64_t count);
/* Writes bytes in transactions that end at ends of blocks, or at the end of the bytes. If `durable`, it returns once no
 * power failure loses them. TOPZERAD_NO_MEMORY also if the process of the caller has none. */
int disk_write(disk *d, const uint8_t *bytes, uint64_t offset, uint64_t count, int durable);
/* Makes the bytes of a range zeros. It gives back their space where the range has a part to its end, and writes zeros
 * elsewhere. Call disk_flush to make that durable. */
int disk_zero(disk *d, uint64_t offset, uint64_t count);
/* Does the same where it gives back space, and nothing elsewhere, or if the pool has no space for the tails of a part
 * that is cut inside. */
int disk_trim(disk *d, uint64_t offset, uint64_t count);
/* Makes durable what was changed by calls that have returned. */
int disk_flush(disk *d);

/* Takes a piece of a range that has bytes, or that is known to be zeros. Returns 0, or anything else to get no more. */
typedef int disk_taker(void *context, uint64_t offset, uint64_t count, int is_zeros);
/* Hands the pieces of a range to `take`, rising, until it returns anything but 0; `taken` is what it returned last. */
int disk_pieces(disk *d, uint64_t offset, uint64_t count, disk_taker *take, void *context, int *taken);

#endif
