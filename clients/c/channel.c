/* The socket to the process. Without a deadline each call blocks until the socket has or takes bytes. With one it waits
 * by poll, and then asks the socket for what it can do at once. */
#define _POSIX_C_SOURCE 200809L
#include "internal.h"

#include <errno.h>
#include <limits.h>
#include <poll.h>
#include <string.h>
#include <sys/socket.h>
#include <time.h>

enum { NANOSECONDS = 1000000000, NANOSECONDS_OF_A_MILLISECOND = 1000000 };

uint64_t topzerad_now(void) {
    struct timespec now;
    clock_gettime(CLOCK_MONOTONIC, &now);
    return (uint64_t)now.tv_sec * NANOSECONDS + (uint64_t)now.tv_nsec;
}

uint64_t topzerad_deadline(uint64_t from_now) { return from_now ? topzerad_now() + from_now : NO_DEADLINE; }

/* How long poll may wait: not less than until the deadline. */
static int milliseconds_until(uint64_t deadline) {
    if (deadline == NO_DEADLINE) return -1;
    uint64_t now = topzerad_now();
    if (now >= deadline) return 0;
    uint64_t milliseconds = (deadline - now - 1) / NANOSECONDS_OF_A_MILLISECOND + 1;
    return milliseconds < INT_MAX ? (int)milliseconds : INT_MAX;
}

int topzerad_wait_ready(int file, short events, uint64_t deadline) {
    struct pollfd polled = {file, events, 0};
    while (poll(&polled, 1, milliseconds_until(deadline)) <= 0)
        if (topzerad_now() >= deadline) return -1;
    return 0;
}

/* Waits for the socket if there is a deadline. */
static int wait_ready(topzerad *pool, short events) {
    if (pool->deadline == NO_DEADLINE || !topzerad_wait_ready(pool->socket, events, pool->deadline)) return 0;
    pool->is_late = 1;
    return -1;
}

int topzerad_is_connected(const topzerad *pool) {
    struct pollfd polled = {pool->socket, 0, 0};
    return !poll(&polled, 1, 0);
}

static int flags_of(const topzerad *pool) {
    return pool->deadline == NO_DEADLINE ? MSG_NOSIGNAL : MSG_NOSIGNAL | MSG_DONTWAIT;
}

static int is_to_repeat(ssize_t done) {
    return done < 0 && (errno == EINTR || errno == EAGAIN || errno == EWOULDBLOCK);
}

static int send_all(topzerad *pool, const uint8_t *from, size_t count) {
    while (count) {
        if (wait_ready(pool, POLLOUT)) return -1;
        ssize_t sent = send(pool->socket, from, count, flags_of(pool));
        if (is_to_repeat(sent)) continue;
        if (sent <= 0) return -1;
        from += sent;
        count -= (size_t)sent;
    }
    return 0;
}

int topzerad_empty_out(topzerad *pool) {
    size_t used = pool->used;
    pool->used = 0;
    return send_all(pool, pool->bytes, used);
}

int topzerad_put_out(topzerad *pool, const uint8_t *from, size_t count) {
    if (count > sizeof pool->bytes - pool->used && topzerad_empty_out(pool)) return -1;
    if (count > sizeof pool->bytes) return send_all(pool, from, count);
    if (count) memcpy(pool->bytes + pool->used, from, count);
    pool->used += count;
    return 0;
}

/* Receives at least one byte. Returns how many, or 0. */
static size_t receive(topzerad *pool, void *into, size_t count) {
    ssize_t got;
    do {
        if (wait_ready(pool, POLLIN)) return 0;
        got = recv(pool->socket, into, count, flags_of(pool));
    } while (is_to_repeat(got));
    return got < 0 ? 0 : (size_t)got;
}

int topzerad_take_in(topzerad *pool, void *to, size_t count, size_t *left) {
    uint8_t *into = to;
    if (count > *left) return -1;
    *left -= count;
    while (count) {
        size_t there = pool->used - pool->taken;
        if (!there && count >= sizeof pool->bytes) {
            size_t got = receive(pool, into, count);
            if (!got) return -1;
            into += got;
            count -= got;
            continue;
        }
        if (!there) {
            pool->taken = 0;
            pool->used = there = receive(pool, pool->bytes, sizeof pool->bytes);
            if (!there) return -1;
        }
        if (there > count) there = count;
        memcpy(into, pool->bytes + pool->taken, there);
        pool->taken += there;
        into += there;
        count -= there;
    }
    return 0;
}
