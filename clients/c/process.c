/* The process that has a pool: it is started, says whether the pool is open, and is ended. A hub that has one is
 * connected to instead. A process that makes a pool says what came of it by its lines. */
#undef _GNU_SOURCE /* strerror_r is that of POSIX */
#define _POSIX_C_SOURCE 200809L
#include "internal.h"

#include <errno.h>
#include <fcntl.h>
#include <inttypes.h>
#include <poll.h>
#include <signal.h>
#include <spawn.h>
#include <stdio.h>
#include <stdlib.h>
#include <string.h>
#include <sys/socket.h>
#include <sys/un.h>
#include <sys/wait.h>
#include <time.h>
#include <unistd.h>

extern char **environ;

#define SECOND UINT64_C(1000000000)
#define GRACE SECOND /* how long a process may take to end once its pool failed to open */

enum { MOST_SECONDS = 86400, LEAST_DIRTY = 4096, MOST_CACHE = 262144, LEAST_READS = 65536, MOST_READS = 1 << 30 };
#define MOST_DIRTY (UINT64_C(1) << 40)

enum { OPENING = 24 };      /* the bytes after the head of an opening, besides the cause */
enum { UNKNOWN_END = -1 };  /* in place of a status of waitpid */
enum { SAID = 2048 };       /* the bytes of what a create says that are looked at */

/* The cause of this thread's last create. */
static _Thread_local char create_cause[TOPZERAD_MAX_CAUSE + 1];

/* Command lines. */

enum { MOST_WORDS = 16, MOST_NUMBERS = 5, NUMBER = 21 };

typedef struct {
    const char *words[MOST_WORDS];
    char numbers[MOST_NUMBERS][NUMBER];
    size_t count, numbers_count;
} line;

static void add_word(line *l, const char *word) { l->words[l->count++] = word; }

static void add_number(line *l, uint64_t value) {
    char *number = l->numbers[l->numbers_count++];
    snprintf(number, NUMBER, "%" PRIu64, value);
    add_word(l, number);
}

/* Adds an option, unless its value is 0. */
static void add_option(line *l, const char *option, uint64_t value) {
    if (!value) return;
    add_word(l, option);
    add_number(l, value);
}

/* Begins a command with the options of all. */
static void begin_line(line *l, const char *program, const char *command, const topzerad_options *options) {
    l->count = l->numbers_count = 0;
    add_word(l, program);
    add_word(l, command);
    add_option(l, "--moment", options->moment);
    add_option(l, "--wait", options->wait);
}

/* Adds the file, whose name may be like that of an option. */
static void add_file(line *l, const char *path) {
    add_word(l, "--");
    add_word(l, path);
}

/* Options. */

/* Tests the options of an open, or of a create, which takes neither a dirty limit nor caches. Returns 0, or a refusal
 * with its cause. */
static int test_options(const topzerad_options *o, int is_open, char cause[TOPZERAD_MAX_CAUSE + 1]) {
    size_t size = TOPZERAD_MAX_CAUSE + 1;
    if (is_open && o->dirty && (o->dirty < LEAST_DIRTY || o->dirty > MOST_DIRTY))
        snprintf(cause, size, "dirty limit %" PRIu64 ": %d to %" PRIu64 " bytes", o->dirty, LEAST_DIRTY, MOST_DIRTY);
    else if (is_open && o->cache > MOST_CACHE)
        snprintf(cause, size, "cache %" PRIu32 ": 1 to %d blocks", o->cache, MOST_CACHE);
    else if (is_open && o->read_cache && (o->read_cache < LEAST_READS || o->read_cache > MOST_READS))
        snprintf(cause, size, "read cache %" PRIu64 ": %d to %d bytes", o->read_cache, LEAST_READS, MOST_READS);
    else if (o->wait > MOST_SECONDS)
        snprintf(cause, size, "wait %" PRIu32 ": 0 to %d seconds", o->wait, MOST_SECONDS);
    else if (!(o->timeout >= 0 && o->timeout <= MOST_SECONDS))
        snprintf(cause, size, "timeout %g: 0 to %d seconds", o->timeout, MOST_SECONDS);
    else
        return 0;
    return TOPZERAD_BAD_RANGE;
}

/* A timeout in nanoseconds: 0 if there is none, and else 1 at least. */
static uint64_t timeout_of(const topzerad_options *options) {
    if (options->timeout <= 0) return 0;
    uint64_t nanoseconds = (uint64_t)(options->timeout * (double)SECOND);
    return nanoseconds ? nanoseconds : 1;
}

/* The deadline of a process that may wait for the file. */
static uint64_t deadline_of(const topzerad_options *options) {
    uint64_t timeout = timeout_of(options);
    return topzerad_deadline(timeout ? timeout + options->wait * SECOND : 0);
}

/* Processes. */

/* Starts a process with `end` as its input and its output, and as its standard error if `with_errors`. It has a process
 * group of its own, and blocks no signal. Returns 0 or an error number. */
static int start_process(pid_t *process, const char *const words[], int end, int with_errors) {
    posix_spawn_file_actions_t actions;
    posix_spawnattr_t attributes;
    sigset_t none;
    sigemptyset(&none);
    int failed = posix_spawn_file_actions_init(&actions);
    if (failed) return failed;
    failed = posix_spawnattr_init(&attributes);
    if (!failed) {
        for (int file = 0; file <= (with_errors ? 2 : 1) && !failed; file++)
            failed = posix_spawn_file_actions_adddup2(&actions, end, file);
        if (!failed) failed = posix_spawnattr_setflags(&attributes, POSIX_SPAWN_SETPGROUP | POSIX_SPAWN_SETSIGMASK);
        if (!failed) failed = posix_spawnattr_setpgroup(&attributes, 0);
        if (!failed) failed = posix_spawnattr_setsigmask(&attributes, &none);
        if (!failed) failed = posix_spawnp(process, words[0], &actions, &attributes, (char **)words, environ);
        posix_spawnattr_destroy(&attributes);
    }
    posix_spawn_file_actions_destroy(&actions);
    return failed;
}

/* Puts an error of the system in words, after those for what it was met at. */
static void set_system_cause(char *cause, const char *what, int error) {
    char text[128] = "";
    if (strerror_r(error, text, sizeof text)) text[0] = 0;
    snprintf(cause, TOPZERAD_MAX_CAUSE + 1, "%s%s (os error %d)", what, text, error);
}

/* Starts a process with one end of a socket, and sets the other one. Returns 0, or an error number with its cause. */
static int start(pid_t *process, int *end, const char *const words[], int with_errors, char *cause) {
    int ends[2];
    int failed = socketpair(AF_UNIX, SOCK_STREAM | SOCK_CLOEXEC, 0, ends) ? errno : 0;
    if (!failed) {
        failed = start_process(process, words, ends[1], with_errors);
        close(ends[1]);
        if (failed) close(ends[0]);
        *end = ends[0];
    }
    if (failed) {
        char what[TOPZERAD_MAX_CAUSE - 160];
        snprintf(what, sizeof what, "%s can't be started: ", words[0]);
        set_system_cause(cause, what, failed);
    }
    return failed;
}

/* Waits for the end of a process. Returns whether it came before the deadline. The status is UNKNOWN_END if another one
 * has taken it: the system does if SIGCHLD is ignored. */
static int has_ended(pid_t process, uint64_t deadline, int *status) {
    struct timespec pause = {0, 1000000};
    for (;;) {
        pid_t waited = waitpid(process, status, deadline == NO_DEADLINE ? 0 : WNOHANG);
        if (waited == process) return 1;
        if (waited < 0 && errno == EINTR) continue;
        if (waited < 0) {
            *status = UNKNOWN_END;
            return 1;
        }
        if (topzerad_now() >= deadline) return 0;
        nanosleep(&pause, NULL);
        if (pause.tv_nsec < 32000000) pause.tv_nsec *= 2;
    }
}

/* Waits for the end of a process, and kills it with its group at the deadline. Returns whether it ended by itself. */
static int end_process(pid_t process, uint64_t deadline, int *status) {
    if (has_ended(process, deadline, status)) return 1;
    if (kill(-process, SIGKILL)) kill(process, SIGKILL);
    has_ended(process, NO_DEADLINE, status);
    return 0;
}

static int is_good_end(int status) { return status != UNKNOWN_END && WIFEXITED(status) && WEXITSTATUS(status) == 0; }

/* Puts how a process ended in words. */
static void tell_end(int status, char *text, size_t size) {
    if (status == UNKNOWN_END)
        snprintf(text, size, "the program ended");
    else if (WIFSIGNALED(status))
        snprintf(text, size, "the program was ended by signal %d", WTERMSIG(status));
    else
        snprintf(text, size, "the program ended with status %d", WEXITSTATUS(status));
}

/* Takes the last character of a text of UTF-8 away if it has been cut off. */
static void trim(char *text) {
    size_t count = strlen(text), start = count;
    while (start && ((unsigned char)text[start - 1] & 0xc0) == 0x80) start--;
    if (!start) return;
    unsigned char lead = (unsigned char)text[--start];
    size_t needs = lead < 0x80 ? 1 : lead < 0xe0 ? 2 : lead < 0xf0 ? 3 : 4;
    if (count - start < needs) text[start] = 0;
}

/* Open and close. */

/* Reads a cause of so many bytes. */
static int read_cause(topzerad *pool, size_t count) {
    size_t fits = count < TOPZERAD_MAX_CAUSE ? count : TOPZERAD_MAX_CAUSE;
    if (topzerad_take_in(pool, pool->cause, fits, &count)) return -1;
    pool->cause[fits] = 0;
    trim(pool->cause);
    return 0;
}

/* Takes why the pool isn't open. Returns a refusal. */
static int refusal_of(uint64_t number, const uint8_t *fields) {
    int error = (int)get(fields + 16, 4);
    if (number == TOPZERAD_DAMAGED) topzerad_set_damage(get(fields, 8), get(fields + 8, 8));
    if (error) errno = error;
    return number ? (int)number : error ? TOPZERAD_SYSTEM : TOPZERAD_UNUSABLE;
}

/* Reads the first frame. Returns 0 if the pool is open, or a refusal. */
static int read_opening(topzerad *pool) {
    uint8_t head[HEAD], fields[OPENING];
    size_t left = HEAD + OPENING;
    int none = TOPZERAD_NO_OPENING;
    if (topzerad_take_in(pool, head, HEAD, &left)) return none;
    uint64_t size = get(head, 4), kind = get(head + 6, 2), number = get(head + 8, 4);
    if (get(head + 4, 2) != VERSION || size < HEAD + OPENING || size > MAX_FRAME) return none;
    if (kind != OPENED && kind != UNOPENED) return none;
    if (topzerad_take_in(pool, fields, OPENING, &left)) return none;
    if (kind == OPENED) {
        pool->opening = (topzerad_opening){get(fields, 8), get(fields + 8, 8), get(fields + 16, 8)};
        return size == HEAD + OPENING && !number && pool->taken == pool->used ? 0 : none;
    }
    uint64_t count = get(fields + 20, 4);
    if (size != HEAD + OPENING + count || number > LAST_REFUSAL || read_cause(pool, count)) return none;
    return refusal_of(number, fields);
}

static void end_cache(topzerad *pool) {
    topzerad_cache_end(pool->cache);
    pool->cache = NULL;
}

/* Ends the process of a pool that failed to open, or the connection to a hub, and says why it did. */
static void give_up(topzerad *pool, int refusal) {
    int status = UNKNOWN_END, error = errno;
    end_cache(pool);
    close(pool->socket);
    pool->socket = -1;
    int ended = pool->process && end_process(pool->process, pool->is_late ? 0 : topzerad_now() + GRACE, &status);
    if (refusal == TOPZERAD_NO_OPENING) {
        char end[64] = "the program said something else";
        if (!pool->process) snprintf(end, sizeof end, "the connection was ended");
        if (ended) tell_end(status, end, sizeof end);
        snprintf(pool->cause, sizeof pool->cause, "%s before it said whether the pool is open", end);
    } else if (!pool->cause[0]) {
        snprintf(pool->cause, sizeof pool->cause, "%s", topzerad_text(refusal));
    }
    errno = error;
}

/* Begins a pool that isn't open yet. */
static void begin(topzerad *pool) {
    pool->socket = -1;
    pool->process = 0;
    pool->opener = getpid();
    pool->led = pool->ended = pool->is_late = pool->holds = 0;
    pool->first = NULL;
    pool->last = &pool->first;
    pool->used = pool->taken = 0;
    pool->asked = pool->timeout = 0;
    pool->cache = NULL;
    pool->deadline = NO_DEADLINE;
    pool->opening = (topzerad_opening){0, 0, 0};
    pool->cause[0] = 0;
}

/* Reads the opening of a pool whose process was started, or whose hub was connected to, unless that failed. */
static int take_opening(topzerad *pool, int failed) {
    if (failed) {
        end_cache(pool);
        pool->socket = -1;
        errno = failed;
        return pool->is_late ? TOPZERAD_TIMED_OUT : TOPZERAD_SYSTEM;
    }
    int refusal = read_opening(pool);
    if (pool->is_late) refusal = TOPZERAD_TIMED_OUT;
    if (refusal) {
        give_up(pool, refusal);
        return refusal;
    }
    pthread_mutex_init(&pool->lock, NULL);
    pthread_mutex_init(&pool->naming, NULL);
    pthread_cond_init(&pool->turn, NULL);
    return 0;
}

/* A thread isn't cancelled while it has a process that no one else knows. */
static int open_uncancelled(topzerad *pool, const char *const words[]) {
    int state;
    pthread_setcancelstate(PTHREAD_CANCEL_DISABLE, &state);
    int refusal = take_opening(pool, start(&pool->process, &pool->socket, words, 0, pool->cause));
    pthread_setcancelstate(state, NULL);
    return refusal;
}

int topzerad_open_with(topzerad *pool, const char *const words[]) {
    begin(pool);
    return open_uncancelled(pool, words);
}

/* Makes a cache of reads, if one is asked for. */
static int begin_cache(topzerad *pool, uint64_t size) {
    char what[64];
    if (!size) return 0;
    pool->cache = topzerad_cache_new(size);
    if (pool->cache) return 0;
    snprintf(what, sizeof what, "read cache of %" PRIu64 " bytes: ", size);
    set_system_cause(pool->cause, what, errno);
    return TOPZERAD_NO_MEMORY;
}

int topzerad_open_options(topzerad *pool, const char *program, const char *path, const topzerad_options *options) {
    static const topzerad_options defaults;
    if (!options) options = &defaults;
    begin(pool);
    int refusal = test_options(options, 1, pool->cause);
    if (refusal) return refusal;
    pool->timeout = timeout_of(options);
    pool->deadline = deadline_of(options);
    refusal = begin_cache(pool, options->read_cache);
    if (refusal) return refusal;
    line l;
    begin_line(&l, program, "serve", options);
    add_option(&l, "--dirty", options->dirty);
    add_option(&l, "--cache", options->cache);
    add_file(&l, path);
    add_word(&l, NULL);
    return open_uncancelled(pool, l.words);
}

int topzerad_open(topzerad *pool, const char *program, const char *path) {
    return topzerad_open_options(pool, program, path, NULL);
}

/* Connects a socket that doesn't block. While the hub has too many that wait for it, it is tried again. Returns 0 or an
 * error number. */
static int connect_until(topzerad *pool, const struct sockaddr_un *address) {
    struct timespec pause = {0, 1000000};
    while (connect(pool->socket, (const struct sockaddr *)address, sizeof *address)) {
        if (errno != EAGAIN && errno != EINTR) return errno;
        if (topzerad_now() >= pool->deadline) {
            pool->is_late = 1;
            return ETIMEDOUT;
        }
        nanosleep(&pause, NULL);
        if (pause.tv_nsec < 32000000) pause.tv_nsec *= 2;
    }
    return 0;
}

/* Makes a socket and connects it. Returns 0 or an error number. */
static int connect_to(topzerad *pool, const char *path) {
    struct sockaddr_un address = {.sun_family = AF_UNIX};
    size_t count = strlen(path);
    if (count >= sizeof address.sun_path) return ENAMETOOLONG;
    memcpy(address.sun_path, path, count);
    pool->socket = socket(AF_UNIX, SOCK_STREAM | SOCK_CLOEXEC | SOCK_NONBLOCK, 0);
    if (pool->socket < 0) return errno;
    int failed = connect_until(pool, &address);
    if (!failed && fcntl(pool->socket, F_SETFL, 0) < 0) failed = errno;
    if (failed) close(pool->socket);
    return failed;
}

int topzerad_open_socket(topzerad *pool, const char *path, const topzerad_options *options) {
    static const topzerad_options defaults;
    int state;
    if (!options) options = &defaults;
    begin(pool);
    int refusal = test_options(options, 1, pool->cause);
    int has_others = options->dirty || options->cache || options->moment || options->wait || options->read_cache;
    if (!refusal && has_others) {
        snprintf(pool->cause, sizeof pool->cause, "of a pool that a hub has the timeout alone can be set");
        refusal = TOPZERAD_BAD_RANGE;
    }
    if (refusal) return refusal;
    pool->timeout = timeout_of(options);
    pool->deadline = deadline_of(options);
    pthread_setcancelstate(PTHREAD_CANCEL_DISABLE, &state);
    int failed = connect_to(pool, path);
    if (pool->is_late)
        snprintf(pool->cause, sizeof pool->cause, "%s", topzerad_text(TOPZERAD_TIMED_OUT));
    else if (failed)
        set_system_cause(pool->cause, "", failed);
    refusal = take_opening(pool, failed);
    pthread_setcancelstate(state, NULL);
    return refusal;
}

topzerad_opening topzerad_opened(const topzerad *pool) { return pool->opening; }

const char *topzerad_cause(const topzerad *pool) { return pool->cause; }

/* Gives up what a pool has besides its process. */
static void end_pool(topzerad *pool) {
    end_cache(pool);
    close(pool->socket);
    pool->socket = -1;
    pthread_mutex_destroy(&pool->lock);
    pthread_mutex_destroy(&pool->naming);
    pthread_cond_destroy(&pool->turn);
}

/* After an exchange that was cut off the process may be sending what no one will read: it is told that, too. */
static int close_process(topzerad *pool) {
    int status;
    shutdown(pool->socket, pool->ended ? SHUT_RDWR : SHUT_WR); /* it fails if the process is gone, as waitpid says */
    int ended = end_process(pool->process, topzerad_deadline(pool->timeout), &status);
    end_pool(pool);
    if (!ended) return TOPZERAD_TIMED_OUT;
    return is_good_end(status) || (status == UNKNOWN_END && !pool->ended) ? 0 : TOPZERAD_ENDED;
}

/* A hub goes on, and syncs nothing at the end of a connection. So what was committed is made durable here. A child of a
 * fork may have the socket, too, so the hub is told of the end. */
static int close_connection(topzerad *pool) {
    int refusal = topzerad_flush(pool);
    shutdown(pool->socket, SHUT_RDWR);
    end_pool(pool);
    return refusal;
}

int topzerad_close(topzerad *pool) {
    int state;
    if (pool->socket < 0) return TOPZERAD_ENDED;
    if (topzerad_is_forked(pool)) {
        end_cache(pool);
        close(pool->socket);
        pool->socket = -1;
        return TOPZERAD_FORKED;
    }
    pthread_setcancelstate(PTHREAD_CANCEL_DISABLE, &state);
    int refusal = pool->process ? close_process(pool) : close_connection(pool);
    pthread_setcancelstate(state, NULL);
    return refusal;
}

/* Create. */

/* Reads what a process prints until it ends, as far as there is room. Returns 0, or -1 once the deadline has passed. */
static int read_said(int from, uint64_t deadline, char said[SAID + 1]) {
    char surplus[512];
    size_t count = 0;
    for (;;) {
        if (topzerad_wait_ready(from, POLLIN, deadline)) return -1;
        int fits = count < SAID;
        ssize_t got = fits ? read(from, said + count, SAID - count) : read(from, surplus, sizeof surplus);
        if (got < 0 && (errno == EINTR || errno == EAGAIN)) continue;
        if (got <= 0) break;
        if (fits) count += (size_t)got;
    }
    said[count] = 0;
    return 0;
}

/* What follows the first line that begins so, or NULL. */
static const char *after(const char *said, const char *start) {
    size_t count = strlen(start);
    while (said && *said) {
        if (!strncmp(said, start, count)) return said + count;
        said = strchr(said, '\n');
        if (said) said++;
    }
    return NULL;
}

/* Makes the cause of two texts, the second to the end of its line. */
static void set_create_cause(const char *first, const char *second) {
    snprintf(create_cause, sizeof create_cause, "%s%.*s", first, (int)strcspn(second, "\n"), second);
    trim(create_cause);
}

/* The error number that a cause has in the program's words, or 0. */
static int error_of(const char *cause) {
    const char *number = strstr(cause, "(os error ");
    if (number) return atoi(number + strlen("(os error "));
    return strcmp(cause, "in use by another process or device") ? 0 : EAGAIN;
}

/* What came of a create that failed, by what it said. Its cause has been set, if there is one. */
static int failure_of(const char *said) {
    const char *refused = after(said, "ztxg: refused ");
    unsigned long number = refused ? strtoul(refused, NULL, 10) : 0;
    if (number >= 1 && number <= LAST_REFUSAL) return (int)number;
    if (!after(said, "ztxg: cannot use ")) return TOPZERAD_ENDED;
    int error = error_of(create_cause);
    if (error) errno = error;
    return error ? TOPZERAD_SYSTEM : TOPZERAD_UNUSABLE;
}

/* What came of a create, by what it said and how it ended. */
static int outcome_of(const char *said, int status) {
    const char *cause = after(said, "ztxg: cause: ");
    char end[64];
    if (is_good_end(status) || (status == UNKNOWN_END && after(said, "created "))) return 0;
    if (cause) set_create_cause("", cause);
    int failure = failure_of(said);
    if (failure == TOPZERAD_ENDED) {
        tell_end(status, end, sizeof end - 2);
        set_create_cause(said[0] ? strcat(end, ": ") : end, said);
    } else if (!cause) {
        set_create_cause("", said);
    }
    return failure;
}

static int create_by(const char *const words[], uint64_t deadline) {
    char said[SAID + 1];
    pid_t process;
    int end, status;
    int failed = start(&process, &end, words, 1, create_cause);
    if (failed) {
        errno = failed;
        return TOPZERAD_SYSTEM;
    }
    int is_late = read_said(end, deadline, said);
    close(end);
    if (!end_process(process, is_late ? 0 : deadline, &status)) is_late = 1;
    if (!is_late) return outcome_of(said, status);
    snprintf(create_cause, sizeof create_cause, "%s", topzerad_text(TOPZERAD_TIMED_OUT));
    return TOPZERAD_TIMED_OUT;
}

int topzerad_create(const char *program, const char *path, const char *name, uint64_t guid, uint64_t size,
                    const topzerad_options *options) {
    static const topzerad_options defaults;
    int state;
    if (!options) options = &defaults;
    create_cause[0] = 0;
    int refusal = test_options(options, 0, create_cause);
    if (refusal) return refusal;
    line l;
    begin_line(&l, program, "create", options);
    if (!options->replace) add_word(&l, "--new");
    add_file(&l, path);
    add_word(&l, name);
    add_number(&l, guid);
    add_number(&l, size);
    add_word(&l, NULL);
    pthread_setcancelstate(PTHREAD_CANCEL_DISABLE, &state);
    refusal = create_by(l.words, deadline_of(options));
    pthread_setcancelstate(state, NULL);
    return refusal;
}

const char *topzerad_create_cause(void) { return create_cause; }
