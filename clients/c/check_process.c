/* Makes pools, opens them and ends their processes, with the program and with shells that say what it never would.
 * Frames are those of docs/FRAMES.md, in hexadecimal. */
#define _GNU_SOURCE
#include "check.h"
#include "topzerad.h"

#include <errno.h>
#include <pthread.h>
#include <signal.h>
#include <string.h>
#include <sys/socket.h>
#include <sys/stat.h>
#include <sys/time.h>
#include <sys/un.h>
#include <time.h>
#include <unistd.h>

enum { SIZE = 8388608, BIG = 60000, MANY = 64 };

#define OPENED "24000000 0100 0400 00000000 4d00000000000000 0800000000000000 0000000000000000"
#define MISSING "4a000000 0100 0500 00000000 0000000000000000 0000000000000000 02000000 26000000"
#define NO_FILE "No such file or directory (os error 2)"

static topzerad pool;
static const char *program;
static char made[4096], other[4096], said[4096], answered[4096];

/* Puts bytes and a text in a file. */
static void put_file(const char *path, const char *hex, const char *text) {
    FILE *file = fopen(path, "wb");
    unsigned byte;
    int count;
    WANT(file != NULL);
    for (; sscanf(hex, " %2x%n", &byte, &count) == 1; hex += count) fputc((int)byte, file);
    fputs(text, file);
    WANT(fclose(file) == 0);
}

/* Opens a pool by a shell that says this frame, and then runs commands. */
static int open_by(const char *hex, const char *text, const char *then) {
    char script[256];
    snprintf(script, sizeof script, "cat \"$0\"; %s", then);
    const char *const words[] = {"sh", "-c", script, said, answered, NULL};
    put_file(said, hex, text);
    return topzerad_open_with(&pool, words);
}

static int has(const char *text, const char *part) { return strstr(text, part) != NULL; }

/* A program that runs this command, whatever its words are. */
static void put_program(const char *command) {
    char text[64];
    snprintf(text, sizeof text, "#!/bin/sh\n%s\n", command);
    put_file(other, "", text);
    WANT(chmod(other, 0700) == 0);
}

static double seconds_since(const struct timespec *begin) {
    struct timespec now;
    clock_gettime(CLOCK_MONOTONIC, &now);
    return (double)(now.tv_sec - begin->tv_sec) + (double)(now.tv_nsec - begin->tv_nsec) / 1e9;
}

static void make_pools(void) {
    const topzerad_options replace = {.replace = 1, .moment = 5}, none = {.timeout = -1}, little = {.timeout = 0.2};
    WANT(topzerad_create(program, made, "tank", 77, SIZE, NULL) == 0);
    WANT(topzerad_create(program, made, "pond", 78, SIZE, NULL) == TOPZERAD_SYSTEM && errno == EEXIST);
    WANT(!strcmp(topzerad_create_cause(), "File exists (os error 17)"));
    WANT(topzerad_create(program, made, "tank", UINT64_MAX, SIZE, &replace) == 0);
    WANT(topzerad_open(&pool, program, made) == 0 && topzerad_opened(&pool).guid == UINT64_MAX);
    WANT(topzerad_create(program, made, "tank", 77, SIZE, &replace) == TOPZERAD_SYSTEM && errno == EAGAIN);
    WANT(topzerad_close(&pool) == 0);
    WANT(topzerad_create(program, made, "tank", 77, SIZE, &replace) == 0);
    WANT(topzerad_create(program, other, "-x", 77, SIZE, NULL) == TOPZERAD_BAD_RANGE && topzerad_create_cause()[0]);
    WANT(topzerad_create(program, other, "tank", 77, SIZE - 512, NULL) == TOPZERAD_BAD_GEOMETRY);
    WANT(topzerad_create(program, "/no folder/pool", "tank", 77, SIZE, NULL) == TOPZERAD_SYSTEM && errno == ENOENT);
    WANT(!strcmp(topzerad_create_cause(), NO_FILE));
    WANT(topzerad_create(program, "/dev/null", "tank", 77, SIZE, &replace) == TOPZERAD_UNUSABLE);
    WANT(!strcmp(topzerad_create_cause(), "not a regular file"));
    WANT(topzerad_create("/", other, "tank", 77, SIZE, NULL) == TOPZERAD_SYSTEM && errno == EACCES);
    WANT(has(topzerad_create_cause(), "/ can't be started: Permission denied"));
    WANT(topzerad_create("false", other, "tank", 77, SIZE, NULL) == TOPZERAD_ENDED);
    WANT(!strcmp(topzerad_create_cause(), "the program ended with status 1"));
    put_program("kill -9 $$");
    WANT(topzerad_create(other, other, "tank", 77, SIZE, NULL) == TOPZERAD_ENDED);
    WANT(topzerad_create(program, other, "tank", 77, SIZE, &none) == TOPZERAD_BAD_RANGE);
    WANT(!strcmp(topzerad_create_cause(), "timeout -1: 0 to 86400 seconds"));
    put_program("exec sleep 100");
    WANT(topzerad_create(other, other, "tank", 77, SIZE, &little) == TOPZERAD_TIMED_OUT);
    unlink(other);
}

/* What openings say, byte by byte. */
static void read_openings(void) {
    const char *const none[] = {
        "", "24000000 0100 0400 00000000 4d00", "0c000000 0100 0200 00000000",
        "24000000 0200 0400 00000000 4d00000000000000 0800000000000000 0000000000000000",
        "24000000 0100 0400 01000000 4d00000000000000 0800000000000000 0000000000000000",
        "25000000 0100 0400 00000000 4d00000000000000 0800000000000000 0000000000000000 00",
        "24000000 0100 0400 00000000 4d00000000000000 0800000000000000 0000000000000000 00",
        "24000000 0100 0500 18000000 0000000000000000 0000000000000000 00000000 00000000",
        "25000000 0100 0500 00000000 0000000000000000 0000000000000000 00000000 02000000 6161",
    };
    uint64_t kind, address;
    WANT(open_by(OPENED, "", "cat > /dev/null") == 0 && !topzerad_cause(&pool)[0]);
    topzerad_opening opened = topzerad_opened(&pool);
    WANT(opened.guid == 77 && opened.group == 8 && opened.records == 0);
    WANT(topzerad_close(&pool) == 0);

    errno = 0;
    WANT(open_by(MISSING, NO_FILE, "exit 3") == TOPZERAD_SYSTEM && errno == ENOENT);
    WANT(!strcmp(topzerad_cause(&pool), NO_FILE));
    WANT(topzerad_opened(&pool).guid == 0 && topzerad_flush(&pool) == TOPZERAD_ENDED);
    WANT(topzerad_close(&pool) == TOPZERAD_ENDED);

    WANT(open_by("52000000 0100 0500 07000000 0500000000000000 0010400000000000 00000000 2e000000",
                 "the block of kind 5 at byte 4198400 is damaged", "exit 1") == TOPZERAD_DAMAGED);
    topzerad_damage(&kind, &address);
    WANT(kind == 5 && address == 4198400);
    WANT(!strcmp(topzerad_cause(&pool), "the block of kind 5 at byte 4198400 is damaged"));
    WANT(!strcmp(topzerad_text(TOPZERAD_DAMAGED), "the block of kind 5 at byte 4198400 is damaged"));

    WANT(open_by("36000000 0100 0500 00000000 0000000000000000 0000000000000000 00000000 12000000",
                 "not a regular file", "exit 3") == TOPZERAD_UNUSABLE);
    WANT(!strcmp(topzerad_cause(&pool), "not a regular file"));

    /* a cause of 560 bytes, whose 511th begins a letter of two */
    char cause[561] = "";
    for (size_t i = 0; i < 560; i++) cause[i] = i < 510 ? 'a' : i % 2 ? '\244' : '\303';
    WANT(open_by("54020000 0100 0500 06000000 0000000000000000 0000000000000000 00000000 30020000", cause, "exit 1")
         == TOPZERAD_NO_POOL);
    WANT(strlen(topzerad_cause(&pool)) == 510);

    for (size_t i = 0; i < sizeof none / sizeof *none; i++)
        WANT(open_by(none[i], "", "exit 5") == TOPZERAD_NO_OPENING);
    WANT(!strcmp(topzerad_cause(&pool), "the program ended with status 5 before it said whether the pool is open"));
    WANT(open_by("", "", "kill -9 $$") == TOPZERAD_NO_OPENING);
    WANT(!strcmp(topzerad_cause(&pool), "the program was ended by signal 9 before it said whether the pool is open"));
    WANT(open_by(none[2], "", "exec sleep 100") == TOPZERAD_NO_OPENING);
    WANT(!strcmp(topzerad_cause(&pool), "the program said something else before it said whether the pool is open"));
    WANT(topzerad_open(&pool, "/", "/") == TOPZERAD_SYSTEM && errno == EACCES);
    WANT(!strcmp(topzerad_cause(&pool), "/ can't be started: Permission denied (os error 13)"));
}

/* Answers that say what is damaged, and one with the number of an earlier request. */
static void read_answers(void) {
    const char *const damaged = "26000000 0100 0200 01000000 0000000000000000 00 07 0500000000000000 0010400000000000";
    const char *const many = "3f000000 0100 0200 02000000 0000000000000000 01 0000000000000000 0800000000000000"
                             " 0100000000000000 00 07 0400000000000000 0020400000000000";
    uint8_t memory[2][64], byte;
    uint64_t kind, address, length;
    topzerad_tx txs[2];
    topzerad_outcome outcomes[2];
    topzerad_range range = {.object = 1, .low = 0, .high = 1, .into = &byte};

    put_file(answered, damaged, "");
    WANT(open_by(OPENED, "", "head -c 41 > /dev/null; cat \"$1\"; cat > /dev/null") == 0);
    WANT(topzerad_read_many(&pool, &range, 1) == TOPZERAD_DAMAGED);
    WANT(range.refusal == TOPZERAD_DAMAGED && range.kind == 5 && range.address == 4198400 && range.count == 0);
    WANT(topzerad_close(&pool) == 0);

    const char *const twice = "for i in 1 2; do head -c 25 > /dev/null; cat \"$1\"; done; cat > /dev/null";
    WANT(open_by(OPENED, "", twice) == 0);
    topzerad_damage(&kind, &address);
    WANT(kind == 5 && topzerad_length(&pool, 1, &length) == TOPZERAD_DAMAGED);
    WANT(topzerad_length(&pool, 1, &length) == TOPZERAD_ENDED && topzerad_length(&pool, 1, &length) == TOPZERAD_ENDED);
    WANT(topzerad_close(&pool) == 0);

    put_file(answered, many, "");
    for (size_t i = 0; i < 2; i++) {
        topzerad_tx_start(&txs[i], memory[i], sizeof memory[i]);
        WANT(topzerad_tx_create(&txs[i], 1) == 0);
    }
    WANT(open_by(OPENED, "", "head -c 84 > /dev/null; cat \"$1\"; cat > /dev/null") == 0);
    WANT(topzerad_transact_many(&pool, txs, 2, outcomes) == TOPZERAD_DAMAGED);
    WANT(outcomes[0].refusal == 0 && outcomes[0].committed && outcomes[0].receipt.group == 8 && outcomes[0].kind == 0);
    WANT(outcomes[1].refusal == TOPZERAD_DAMAGED && outcomes[1].kind == 4 && outcomes[1].address == 4202496);
    topzerad_damage(&kind, &address);
    WANT(kind == 4 && address == 4202496);
    WANT(topzerad_close(&pool) == 0);
}

static void open_pools(void) {
    static topzerad second;
    const topzerad_options all = {.dirty = 1 << 20, .cache = 1, .moment = 5, .wait = 1, .timeout = 60};
    const topzerad_options bad[] = {{.dirty = 4095}, {.dirty = (UINT64_C(1) << 40) + 1}, {.cache = 262145},
                                    {.wait = 86401}, {.timeout = 86401}, {.timeout = -0.5}};
    uint8_t memory[64];
    topzerad_tx tx;
    WANT(topzerad_open(&pool, program, made) == 0);
    topzerad_opening opened = topzerad_opened(&pool);
    WANT(opened.guid == 77 && opened.group == 8 && opened.records == 0);
    WANT(topzerad_open(&second, program, made) == TOPZERAD_SYSTEM && errno == EAGAIN);
    WANT(!strcmp(topzerad_cause(&second), "in use by another process or device"));
    topzerad_tx_start(&tx, memory, sizeof memory);
    WANT(topzerad_tx_create(&tx, 1) == 0 && topzerad_transact_durably(&pool, &tx, NULL, NULL) == 0);
    WANT(kill(pool.process, SIGKILL) == 0);
    WANT(topzerad_flush(&pool) == TOPZERAD_ENDED && topzerad_close(&pool) == TOPZERAD_ENDED);
    WANT(topzerad_open_options(&pool, program, made, &all) == 0);
    WANT(topzerad_opened(&pool).records == 1 && topzerad_close(&pool) == 0);
    WANT(topzerad_open_options(&pool, program, made, NULL) == 0 && topzerad_opened(&pool).records == 0);
    WANT(topzerad_close(&pool) == 0);
    WANT(topzerad_open(&pool, program, "/no folder/pool") == TOPZERAD_SYSTEM && errno == ENOENT);
    WANT(!strcmp(topzerad_cause(&pool), NO_FILE));
    put_file(other, "", "");
    WANT(truncate(other, SIZE) == 0 && topzerad_open(&pool, program, other) == TOPZERAD_NO_POOL);
    WANT(!strcmp(topzerad_cause(&pool), topzerad_text(TOPZERAD_NO_POOL)));
    for (size_t i = 0; i < sizeof bad / sizeof *bad; i++)
        WANT(topzerad_open_options(&pool, program, made, &bad[i]) == TOPZERAD_BAD_RANGE);
    WANT(!strcmp(topzerad_cause(&pool), "timeout -0.5: 0 to 86400 seconds"));
}

/* Connects to a socket that no one accepts clients of, by this timeout. */
static int open_silent(const char *path, double timeout) {
    const topzerad_options options = {.timeout = timeout};
    return topzerad_open_socket(&pool, path, &options);
}

static void *answer_one(void *listener) {
    static const uint8_t none[12] = {12, 0, 0, 0, 1, 0, 2};
    for (size_t count = 0; count <= sizeof none; count += sizeof none) {
        int client = accept(*(int *)listener, NULL, NULL);
        WANT(client >= 0 && send(client, none, count, 0) == (ssize_t)count && close(client) == 0);
    }
    return NULL;
}

/* Sockets without a hub, and one that has something else. */
static void open_sockets(void) {
    struct sockaddr_un address = {.sun_family = AF_UNIX};
    char too_long[sizeof address.sun_path + 1] = "";
    const topzerad_options dirty = {.dirty = 4096};
    int listener = socket(AF_UNIX, SOCK_STREAM, 0);
    pthread_t thread;
    WANT(strlen(other) < sizeof address.sun_path);
    memcpy(address.sun_path, other, strlen(other));
    WANT(topzerad_open_socket(&pool, other, NULL) == TOPZERAD_SYSTEM && errno == ENOENT);
    WANT(!strcmp(topzerad_cause(&pool), NO_FILE) && topzerad_flush(&pool) == TOPZERAD_ENDED);
    WANT(topzerad_open_socket(&pool, made, NULL) == TOPZERAD_SYSTEM && errno == ECONNREFUSED);
    memset(too_long, 'x', sizeof too_long - 1);
    WANT(topzerad_open_socket(&pool, too_long, NULL) == TOPZERAD_SYSTEM && errno == ENAMETOOLONG);
    WANT(topzerad_open_socket(&pool, other, &dirty) == TOPZERAD_BAD_RANGE && topzerad_cause(&pool)[0]);
    WANT(bind(listener, (struct sockaddr *)&address, sizeof address) == 0 && listen(listener, 0) == 0);
    WANT(open_silent(other, 0.2) == TOPZERAD_TIMED_OUT); /* it waits to be accepted, and the next one isn't let wait */
    WANT(open_silent(other, 0.2) == TOPZERAD_TIMED_OUT && open_silent(other, 0.2) == TOPZERAD_TIMED_OUT);
    WANT(!strcmp(topzerad_cause(&pool), topzerad_text(TOPZERAD_TIMED_OUT)));
    close(listener);
    listener = socket(AF_UNIX, SOCK_STREAM, 0);
    WANT(unlink(other) == 0 && bind(listener, (struct sockaddr *)&address, sizeof address) == 0);
    WANT(listen(listener, 1) == 0 && pthread_create(&thread, NULL, answer_one, &listener) == 0);
    for (int i = 0; i < 2; i++) WANT(topzerad_open_socket(&pool, other, NULL) == TOPZERAD_NO_OPENING);
    WANT(!strcmp(topzerad_cause(&pool), "the connection was ended before it said whether the pool is open"));
    WANT(pthread_join(thread, NULL) == 0 && close(listener) == 0 && unlink(other) == 0);
}

static void ignore(int signal_number) { (void)signal_number; }

static void *ask_length(void *unused) {
    uint64_t length;
    (void)unused;
    WANT(topzerad_length(&pool, 1, &length) == TOPZERAD_TIMED_OUT);
    return NULL;
}

/* A process that doesn't answer: all that wait are told in time, though a signal comes again and again. The process is
 * killed at the close. */
static void time_out(void) {
    static uint8_t memory[MANY][TOPZERAD_MAX_RECORD], bytes[BIG];
    const topzerad_options options = {.timeout = 0.3, .wait = 60}, impatient = {.timeout = 0.3};
    const struct itimerval often = {{0, 50000}, {0, 50000}}, never = {{0, 0}, {0, 0}};
    pthread_t threads[3];
    struct timespec begin;
    topzerad_tx txs[MANY];
    topzerad_outcome outcomes[MANY];
    uint64_t length;

    WANT(topzerad_open_options(&pool, program, made, &options) == 0);
    WANT(topzerad_length(&pool, 1, &length) == 0 && kill(pool.process, SIGSTOP) == 0);
    WANT(signal(SIGALRM, ignore) != SIG_ERR && setitimer(ITIMER_REAL, &often, NULL) == 0);
    clock_gettime(CLOCK_MONOTONIC, &begin);
    for (size_t i = 0; i < 3; i++) WANT(pthread_create(&threads[i], NULL, ask_length, NULL) == 0);
    for (size_t i = 0; i < 3; i++) WANT(pthread_join(threads[i], NULL) == 0);
    WANT(seconds_since(&begin) >= 0.3 && topzerad_length(&pool, 1, &length) == TOPZERAD_ENDED);
    WANT(topzerad_close(&pool) == TOPZERAD_TIMED_OUT && kill(pool.process, 0) < 0);
    WANT(setitimer(ITIMER_REAL, &never, NULL) == 0);

    /* more than the socket has room for */
    for (size_t i = 0; i < MANY; i++) {
        topzerad_tx_start(&txs[i], memory[i], sizeof memory[i]);
        WANT(topzerad_tx_write(&txs[i], 1, 0, bytes, BIG) == 0);
    }
    WANT(topzerad_open_options(&pool, program, made, &options) == 0 && kill(pool.process, SIGSTOP) == 0);
    WANT(topzerad_transact_many(&pool, txs, MANY, outcomes) == TOPZERAD_TIMED_OUT);
    WANT(outcomes[MANY - 1].refusal == TOPZERAD_TIMED_OUT && topzerad_close(&pool) == TOPZERAD_TIMED_OUT);

    put_program("exec sleep 100");
    WANT(topzerad_open_options(&pool, other, made, &impatient) == TOPZERAD_TIMED_OUT);
    WANT(!strcmp(topzerad_cause(&pool), topzerad_text(TOPZERAD_TIMED_OUT)));
    WANT(topzerad_open(&pool, program, made) == 0 && topzerad_close(&pool) == 0);
}

/* A caller that waits for no child. */
static void ignore_ends(void) {
    WANT(signal(SIGCHLD, SIG_IGN) != SIG_ERR);
    WANT(topzerad_open(&pool, program, made) == 0 && topzerad_close(&pool) == 0);
    WANT(topzerad_open(&pool, program, made) == 0 && kill(pool.process, SIGKILL) == 0);
    WANT(topzerad_flush(&pool) == TOPZERAD_ENDED && topzerad_close(&pool) == TOPZERAD_ENDED);
    WANT(topzerad_open(&pool, program, "/no folder/pool") == TOPZERAD_SYSTEM && errno == ENOENT);
    WANT(unlink(made) == 0 && topzerad_create(program, made, "tank", 77, SIZE, NULL) == 0);
    WANT(topzerad_create(program, made, "tank", 77, SIZE, NULL) == TOPZERAD_SYSTEM && errno == EEXIST);
    WANT(signal(SIGCHLD, SIG_DFL) != SIG_ERR);
}

int main(int count, char **words) {
    if (count != 3) return 2;
    program = words[1];
    snprintf(made, sizeof made, "%s.made", words[2]);
    snprintf(other, sizeof other, "%s.other", words[2]);
    snprintf(said, sizeof said, "%s.said", words[2]);
    snprintf(answered, sizeof answered, "%s.answered", words[2]);
    unlink(made);
    unlink(other);
    make_pools();
    read_openings();
    read_answers();
    open_pools();
    unlink(other);
    open_sockets();
    time_out();
    ignore_ends();
    WANT(unlink(made) == 0 && unlink(other) == 0 && unlink(said) == 0 && unlink(answered) == 0);
    puts("check_process: all processes are started and ended well");
    return 0;
}
