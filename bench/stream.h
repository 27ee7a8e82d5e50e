/*
 * The writes of a run, which every contestant makes.
 *
 * There are 16 streams. Stream j draws its words from PCG32 (XSH-RR 64/32) with the seed as state and j as stream, as
 * `Lcg64Xsh32::new(seed, j)` of Rust's `rand_pcg` does. Each word w is one write.
 *
 * Small writes are those of `ztxg load`:
 *
 * - One has 1 + (w div 1,024) mod 64 bytes, each equal to (w div 65,536) mod 256.
 * - If w is at least 2^31, it goes to object 16 at 1,024j + w mod 960; else to object j at w mod 8,192.
 *
 * Large writes have B bytes each, and are those of `durable_load` with that number:
 *
 * - One goes to object j at B(w mod P). P is how often B bytes fit into an object: 338,688 div B.
 * - Its bytes are those of a fixed text, from (w div 65,536) mod 256 on. The text has the words of PCG32 with 0 as
 *   state and stream, each mod 256. So the bytes of a write can't be compressed.
 */
#ifndef BENCH_STREAM_H
#define BENCH_STREAM_H

#include <stdbool.h>
#include <stdint.h>

enum {
    STREAMS = 16,
    OBJECTS = 17,          /* of small writes; large ones go to the first 16 */
    OBJECT_BYTES = 338688, /* each write to an object ends within them */
    SMALL = 0,             /* stands for the length of small writes */
    LONGEST_SMALL = 64,
    LONGEST = 65497 /* bytes of the longest write that a transaction of a pool can have */
};

/* Which writes a run makes: of this length, or `SMALL`; so many of each stream; drawn from this seed. */
struct load {
    uint32_t length;
    uint32_t ops;
    uint64_t seed;
};

/* A write of `length` bytes. */
struct word {
    uint32_t object;
    uint32_t offset;
    uint32_t length;
    const uint8_t *bytes;
};

struct stream {
    uint64_t state;
    uint64_t increment;
    uint32_t number;
    uint32_t length;
};

/* Makes the bytes of a load's writes. It is called before a word is drawn. */
void streams_begin(const struct load *load);

struct stream stream_new(const struct load *load, uint32_t number);

/* The next write. */
struct word stream_word(struct stream *stream);

/* Whether `ztxg load` makes the commit of word `i` of a stream durable. */
bool is_eighth(uint32_t i);

/* The objects that a load makes. */
uint32_t object_count(const struct load *load);

/* The writes of all streams. */
uint64_t write_count(const struct load *load);

/* The most bytes of a write. */
uint32_t longest_of(const struct load *load);

/* Ends the program if it draws other numbers than the PCG library, or makes other writes of them. */
void streams_test(void);

#endif
