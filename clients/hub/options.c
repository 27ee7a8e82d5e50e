/* The command line. */
#define _GNU_SOURCE
#include "hub.h"

#include <errno.h>
#include <getopt.h>
#include <pwd.h>
#include <stdarg.h>
#include <stdio.h>
#include <stdlib.h>
#include <string.h>
#include <unistd.h>

static const char usage[] =
    "Usage: ztxg-hub FILE --socket PATH [OPTION ..]\n"
    "\n"
    "Lets several processes use the pool in FILE, which `ztxg serve FILE` has.\n"
    "\n"
    "  --socket PATH      the Unix socket that clients come to, unless the hub's parent gives one\n"
    "  --metrics PATH     a Unix socket whose connections get a page of metrics, as Prometheus reads it, by HTTP\n"
    "  --mode M           the mode of both, 600 if not given\n"
    "  --user NAME        lets this user in besides the hub's own and root; may be given 16 times\n"
    "  --max-clients N    the most clients at once, 1 to 256, 32 if not given\n"
    "  --timeout S        the seconds that a client may take to send a frame or to read an answer, 30 if not given\n"
    "  --program P        the program that serves the pool, ztxg if not given\n"
    "  --dirty D, --cache C, --moment M, --wait S\n"
    "                     options of `ztxg serve`\n"
    "  -h, --help; -V, --version\n";

enum { SOCKET = 256, MODE, USER, MAX_CLIENTS, TIMEOUT, PROGRAM, DIRTY, CACHE, MOMENT, WAIT,
       METRICS };

static const struct option known[] = {
    {"socket", required_argument, NULL, SOCKET},
    {"metrics", required_argument, NULL, METRICS},
    {"mode", required_argument, NULL, MODE},
    {"user", required_argument, NULL, USER},
    {"max-clients", required_argument, NULL, MAX_CLIENTS},
    {"timeout", required_argument, NULL, TIMEOUT},
    {"program", required_argument, NULL, PROGRAM},
    {"dirty", required_argument, NULL, DIRTY},
    {"cache", required_argument, NULL, CACHE},
    {"moment", required_argument, NULL, MOMENT},
    {"wait", required_argument, NULL, WAIT},
    {"help", no_argument, NULL, 'h'},
    {"version", no_argument, NULL, 'V'},
    {NULL, 0, NULL, 0},
};

/* There is no one to tell if standard error can't be written. */
void hub_tell(const char *format, ...) {
    va_list arguments;
    va_start(arguments, format);
    (void)fputs("ztxg-hub: ", stderr);
    (void)vfprintf(stderr, format, arguments);
    (void)fputc('\n', stderr);
    va_end(arguments);
}

int hub_cannot_use(const char *path, const char *cause, int error) {
    hub_tell("cannot use %s", path);
    if (cause)
        hub_tell("cause: %s", cause);
    else
        hub_tell("cause: %s (os error %d)", strerror(error), error);
    return UNUSABLE;
}

/* Tells what is wrong with a word. */
static int wrong(const char *option, const char *word, const char *wanted) {
    hub_tell("%s %s: %s", option, word, wanted);
    return BAD_LINE;
}

/* Reads a number of digits to a base. Returns 0, or -1 if it is none, or outside its limits. */
static int read_number(const char *word, int base, unsigned long low, unsigned long high, unsigned long *number) {
    char *end;
    if (*word < '0' || *word > '9') return -1;
    errno = 0;
    *number = strtoul(word, &end, base);
    return errno || *end || *number < low || *number > high ? -1 : 0;
}

/* Adds a user, by its name or its number. */
static int add_user(options *o, const char *name) {
    const struct passwd *found = getpwnam(name);
    unsigned long number;
    if (o->user_count == MOST_USERS) return wrong("--user", name, "16 users at most");
    if (found)
        number = found->pw_uid;
    else if (read_number(name, 10, 0, (uid_t)-2, &number))
        return wrong("--user", name, "there is no such user");
    o->users[o->user_count++] = (uid_t)number;
    return -1;
}

/* Reads an option that has a number. */
static int read_limit(options *o, int option, const char *word) {
    unsigned long number;
    if (option == MODE) {
        if (read_number(word, 8, 0, 0777, &number)) return wrong("--mode", word, "0 to 777");
        o->mode = (unsigned)number;
    } else if (option == MAX_CLIENTS) {
        if (read_number(word, 10, LEAST_CLIENTS, MOST_CLIENTS, &number))
            return wrong("--max-clients", word, "1 to 256");
        o->most = number;
    } else {
        if (read_number(word, 10, 1, MOST_TIMEOUT, &number)) return wrong("--timeout", word, "1 to 86400 seconds");
        o->timeout = number * SECOND;
    }
    return -1;
}

/* Where an option of text is kept, or NULL. */
static const char **place_of(options *o, int option) {
    switch (option) {
    case SOCKET: return &o->path;
    case METRICS: return &o->metrics;
    case PROGRAM: return &o->program;
    case DIRTY: return &o->dirty;
    case CACHE: return &o->cache;
    case MOMENT: return &o->moment;
    case WAIT: return &o->wait;
    default: return NULL;
    }
}

static int read_option(options *o, int option, const char *word) {
    const char **place = place_of(o, option);
    if (place) {
        *place = word;
        return -1;
    }
    switch (option) {
    case USER: return add_user(o, word);
    case MODE:
    case MAX_CLIENTS:
    case TIMEOUT: return read_limit(o, option, word);
    case 'h': return fputs(usage, stdout) < 0 ? UNUSABLE : DONE;
    case 'V': return puts("ztxg-hub " TOPZERAD_VERSION) < 0 ? UNUSABLE : DONE;
    default: return BAD_LINE;
    }
}

int hub_read_options(options *o, int count, char **words) {
    int option;
    *o = (options){.program = "ztxg", .most = DEFAULT_CLIENTS, .timeout = DEFAULT_TIMEOUT * SECOND, .mode = 0600};
    while ((option = getopt_long(count, words, "hV", known, NULL)) != -1) {
        int status = read_option(o, option, optarg);
        if (status >= 0) return status;
    }
    if (optind != count - 1) {
        hub_tell("one FILE is wanted; --help says more");
        return BAD_LINE;
    }
    o->file = words[optind];
    return -1;
}
