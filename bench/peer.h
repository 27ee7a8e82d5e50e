/*
 * What a peer of the benchmark provides: a store in which each write is a transaction of its own. One program is
 * linked from peer.c, stream.c and one file that defines these.
 */
#ifndef BENCH_PEER_H
#define BENCH_PEER_H

#include "stream.h"

#include <stdbool.h>
#include <stddef.h>
#include <stdint.h>

struct store;   /* shared by all threads */
struct session; /* of one thread */

/* The names of the peer's variants, ended by NULL. The functions below take the place in this list. */
extern const char *const variants[];

/* The highest number of threads that a run may have. */
extern const uint32_t most_workers;

/*
 * Whether the store keeps the bytes of each object, so that a write replaces parts of earlier ones. Else it keeps rows:
 * for each object and offset the last write.
 */
extern const bool keeps_bytes;

/* Makes an empty store for the writes of a load, at a path where there is nothing. */
void store_prepare(unsigned variant, const char *path, const struct load *load);

struct store *store_open(unsigned variant, const char *path);

/* Makes all writes durable. */
void store_close(struct store *store);

struct session *session_open(struct store *store);

/*
 * Commits one write. If `is_durable`, it returns only after this commit and all earlier ones of this session survive
 * a power failure.
 */
void session_put(struct session *session, uint32_t object, uint64_t offset, const uint8_t *bytes, uint32_t length,
                 bool is_durable);

void session_close(struct session *session);

/* Hands out what a closed store holds: each row, or the bytes of each object, whose offset is 0. */
typedef void (*write_reader)(void *context, uint32_t object, uint64_t offset, const uint8_t *bytes, size_t length);
void store_read(unsigned variant, const char *path, write_reader reader, void *context);

/* Prints a line on standard error and ends the program with status 1. */
_Noreturn void die(const char *format, ...) __attribute__((format(printf, 1, 2)));

/* Memory, or the end of the program. */
void *need(size_t bytes);

#endif
