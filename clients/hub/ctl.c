/* ztxg-ctl: looks at a pool that a hub has, and changes it. Texts and statuses are those of `ztxg`
 * (docs/COMMANDS.md). */
#define _GNU_SOURCE
#include "ctl.h"

#include <errno.h>
#include <getopt.h>
#include <inttypes.h>
#include <stdarg.h>
#include <stdio.h>
#include <stdlib.h>
#include <string.h>

enum { POINTED = 338688, TRIES = 8, QUOTED = 1200 };
enum { LENGTH = 256, OFFSET, JSON, TIMEOUT, WATCH };

static const char usage[] =
    "Usage: ztxg-ctl SOCKET COMMAND\n"
    "\n"
    "Looks at the pool of the hub that listens on SOCKET, and changes it.\n"
    "\n"
    "  ls [-l | --long] [--json]                  prints the objects, their lengths and names\n"
    "  get OBJECT [--offset O] [--length L]       writes an object's bytes\n"
    "  put OBJECT [--offset O]                    reads an object's bytes\n"
    "  rm OBJECT                                  removes an object\n"
    "  status                                     prints what pool it is\n"
    "  stat [--json] [--watch SECONDS]            prints the numbers of the pool and of the hub\n"
    "\n"
    "OBJECT is a number, or @ and a name. Each command takes\n"
    "  --timeout S        the seconds that the hub may take for an answer, any time if not given\n"
    "  -q, --quiet        prints no cause of a refusal\n"
    "  -h, --help; -V, --version\n";

static const struct option known[] = {
    {"length", required_argument, NULL, LENGTH},   {"offset", required_argument, NULL, OFFSET},
    {"json", no_argument, NULL, JSON},             {"long", no_argument, NULL, 'l'},
    {"timeout", required_argument, NULL, TIMEOUT}, {"quiet", no_argument, NULL, 'q'},
    {"watch", required_argument, NULL, WATCH},     {"help", no_argument, NULL, 'h'},
    {"version", no_argument, NULL, 'V'},           {NULL, 0, NULL, 0},
};

static run the_run;

/* Refusals. */

/* There is no one to tell if that can't be written. */
void ctl_tell(const char *format, ...) {
    va_list arguments;
    va_start(arguments, format);
    (void)fputs("ztxg-ctl: ", stderr);
    (void)vfprintf(stderr, format, arguments);
    (void)fputc('\n', stderr);
    va_end(arguments);
}

int ctl_refused(const run *r, int refusal, const char *cause) {
    uint64_t kind, address;
    if (refusal < 1 || refusal > LAST_REFUSAL) {
        ctl_tell("%s", topzerad_text(refusal));
        return UNUSABLE;
    }
    topzerad_damage(&kind, &address);
    if (refusal == TOPZERAD_DAMAGED)
        ctl_tell("refused %d %s %" PRIu64 " %" PRIu64, refusal, hub_refusal_names[refusal], kind, address);
    else
        ctl_tell("refused %d %s", refusal, hub_refusal_names[refusal]);
    if (!r->is_quiet) ctl_tell("cause: %s", cause ? cause : topzerad_text(refusal));
    return REFUSED;
}

/* The refusal of a number that is above its limit. */
static int above(const run *r, const char *what, uint64_t number, const char *limit) {
    char cause[128];
    (void)snprintf(cause, sizeof cause, "%s %" PRIu64 ": %s", what, number, limit);
    return ctl_refused(r, TOPZERAD_BAD_RANGE, cause);
}

/* Puts a name in quotes, as far as there is room. A `"`, a `\\` and a control character can be told from others. */
static void quote(char quoted[QUOTED], const char *name) {
    size_t at = 0;
    quoted[at++] = '"';
    for (; *name && at < QUOTED - 6; name++) {
        unsigned char byte = (unsigned char)*name;
        if (byte < 0x20 || byte == 0x7f) {
            at += (size_t)snprintf(quoted + at, QUOTED - at, "\\x%02x", byte);
            continue;
        }
        if (byte == '"' || byte == '\\') quoted[at++] = '\\';
        quoted[at++] = *name;
    }
    quoted[at++] = '"';
    quoted[at] = 0;
}

/* The refusal of a call by name. */
static int refused_by_name(run *r, int refusal) {
    char quoted[QUOTED], cause[QUOTED + 96];
    quote(quoted, r->name);
    if (refusal == TOPZERAD_NO_OBJECT) {
        (void)snprintf(cause, sizeof cause, "no object has the name %s", quoted);
        return ctl_refused(r, refusal, cause);
    }
    if (refusal == TOPZERAD_TOO_MANY) return ctl_refused(r, refusal, "no number is left for an object");
    if (refusal != TOPZERAD_BAD_RANGE) return ctl_refused(r, refusal, NULL);
    /* Another name is refused so, too, if that is for object 0. */
    if (topzerad_find_named(&r->pool, "-", &r->number) == TOPZERAD_BAD_RANGE)
        return ctl_refused(r, refusal, "object 0 is no table of names");
    (void)snprintf(cause, sizeof cause, "object name %s: 1 to 254 bytes of UTF-8, no control characters, no /", quoted);
    return ctl_refused(r, refusal, cause);
}

int ctl_output_failed(void) { return fflush(stdout) || ferror(stdout) ? UNUSABLE : DONE; }

/* Objects. */

/* The most blocks that an object of this length has. */
static uint64_t blocks_of(uint64_t length) {
    uint64_t data = (length + RECORD - 1) / RECORD, pointers = (length + POINTED - 1) / POINTED;
    return data + pointers + (length > POINTED);
}

static void print_json(const run *r, size_t count) {
    printf("{\"objects\":[");
    for (size_t i = 0; i < count; i++)
        printf("%s{\"object\":%" PRIu32 ",\"length\":%" PRIu64 ",\"blocks\":%" PRIu64 "}", i ? "," : "",
               r->listed[i].object, r->listed[i].length, blocks_of(r->listed[i].length));
    puts("]}");
}

static void print_lines(const run *r, size_t count, size_t named_count) {
    size_t at = 0;
    for (size_t i = 0; i < count; i++) {
        topzerad_listed one = r->listed[i];
        while (at < named_count && r->named[at].object < one.object) at++;
        printf("%" PRIu32 " %" PRIu64, one.object, one.length);
        if (r->is_long)
            printf(" %" PRIu64, blocks_of(one.length));
        else if (at < named_count && r->named[at].object == one.object)
            printf(" %s", r->named[at].name);
        putchar('\n');
    }
}

static int list(run *r) {
    size_t count = 0, named_count = 0;
    int refusal = topzerad_objects(&r->pool, 0, TOPZERAD_OBJECTS, r->listed, &count);
    if (!refusal && !r->is_json && !r->is_long) {
        refusal = topzerad_names(&r->pool, 0, r->named, TOPZERAD_OBJECTS, &named_count);
        if (refusal == TOPZERAD_BAD_RANGE) refusal = 0; /* object 0 has no names */
    }
    if (refusal) return ctl_refused(r, refusal, NULL);
    if (r->is_json)
        print_json(r, count);
    else
        print_lines(r, count, named_count);
    return ctl_output_failed();
}

/* Looks a name up. Returns 0 or a status. */
static int find(run *r) {
    int refusal = r->name ? topzerad_find_named(&r->pool, r->name, &r->number) : 0;
    return refusal ? refused_by_name(r, refusal) : 0;
}

static int get_object(run *r) {
    size_t count;
    if (r->offset >= TOPZERAD_MAX_LENGTH) return above(r, "offset", r->offset, "offsets go to 28449791");
    if (r->has_length && !r->length) return above(r, "length", 0, "1 byte at least");
    int status = find(r);
    if (status) return status;
    uint64_t room = TOPZERAD_MAX_LENGTH - r->offset;
    uint64_t high = r->offset + (r->has_length && r->length < room ? r->length : room);
    int refusal = topzerad_read(&r->pool, r->number, r->offset, high, r->content, &count);
    if (refusal) return ctl_refused(r, refusal, NULL);
    if (fwrite(r->content, 1, count, stdout) != count) return UNUSABLE;
    return ctl_output_failed();
}

static int remove_object(run *r) {
    int refusal, status = find(r);
    if (status) return status;
    if (r->name) {
        refusal = topzerad_remove_named(&r->pool, r->name);
        if (refusal) return refused_by_name(r, refusal);
    } else {
        topzerad_tx tx;
        topzerad_tx_start(&tx, r->first, sizeof r->first);
        refusal = topzerad_tx_remove(&tx, r->number);
        if (!refusal) refusal = topzerad_transact_durably(&r->pool, &tx, NULL, NULL);
        if (refusal) return ctl_refused(r, refusal, NULL);
    }
    printf("removed %" PRIu32 "\n", r->number);
    return ctl_output_failed();
}

/* Put. */

/* How many bytes the next transaction writes. It ends where a record of the object does. */
static size_t piece_of(const run *r, size_t count) {
    size_t left = count - r->committed, piece = PIECE - (r->offset + r->committed) % RECORD;
    return left < piece ? left : piece;
}

/* Commits a transaction that writes the next piece. */
static int commit_piece(run *r, topzerad_tx *tx, size_t piece) {
    int refusal = 0;
    if (piece) refusal = topzerad_tx_write(tx, r->number, r->offset + r->committed, r->content + r->committed, piece);
    if (!refusal && !tx->count) return 0;
    if (!refusal) refusal = topzerad_transact(&r->pool, tx, NULL);
    if (refusal) return refusal;
    r->committed += piece;
    r->transactions++;
    return 0;
}

/* Commits the first piece. The object is made if it isn't there, and cut if the input replaces all of it. */
static int commit_first(run *r, size_t piece) {
    topzerad_tx tx;
    uint64_t length;
    int refusal = topzerad_length(&r->pool, r->number, &length), is_new = refusal == TOPZERAD_NO_OBJECT;
    if (refusal && !is_new) return refusal;
    topzerad_tx_start(&tx, r->first, sizeof r->first);
    refusal = is_new ? topzerad_tx_create(&tx, r->number)
                     : r->has_offset ? 0 : topzerad_tx_set_length(&tx, r->number, 0);
    return refusal ? refusal : commit_piece(r, &tx, piece);
}

static int put_pieces(run *r, size_t count) {
    int refusal = commit_first(r, piece_of(r, count));
    /* Another program may have made or removed the object meanwhile. */
    for (int i = 0; i < TRIES && (refusal == TOPZERAD_EXISTS || refusal == TOPZERAD_NO_OBJECT); i++)
        refusal = commit_first(r, piece_of(r, count));
    while (!refusal && r->committed < count) {
        topzerad_tx tx;
        topzerad_tx_start(&tx, r->first, sizeof r->first);
        refusal = commit_piece(r, &tx, piece_of(r, count));
    }
    return refusal ? refusal : topzerad_flush(&r->pool);
}

/* Puts what replaces all of an object with a name. */
static int put_named(run *r, size_t count) {
    int refusal = topzerad_put_named(&r->pool, r->name, r->content, count, &r->number);
    if (refusal) return refused_by_name(r, refusal);
    r->committed = count;
    r->transactions = count > PIECE ? (unsigned)((count + PIECE - 1) / PIECE) : 1;
    return DONE;
}

/* Finds the number of a name for a put at an offset. An object is made for a new one. */
static int find_or_make(run *r) {
    int refusal = topzerad_find_named(&r->pool, r->name, &r->number);
    if (refusal == TOPZERAD_NO_OBJECT) refusal = topzerad_put_named(&r->pool, r->name, "", 0, &r->number);
    return refusal ? refused_by_name(r, refusal) : DONE;
}

static int put_numbered(run *r, size_t count) {
    int refusal = put_pieces(r, count);
    if (!refusal) return DONE;
    int status = ctl_refused(r, refusal, NULL);
    if (r->transactions)
        ctl_tell("committed %" PRIu64 " bytes in %u transactions", r->committed, r->transactions);
    return status;
}

static int put_object(run *r) {
    size_t count = fread(r->content, 1, sizeof r->content, stdin);
    if (ferror(stdin)) {
        int failed = errno;
        ctl_tell("cannot use -");
        ctl_tell("cause: %s (os error %d)", strerror(failed), failed);
        return UNUSABLE;
    }
    if (count > TOPZERAD_MAX_LENGTH)
        return ctl_refused(r, TOPZERAD_BAD_RANGE, "the input has more bytes than an object may have: 28449792");
    if (r->offset >= TOPZERAD_MAX_LENGTH) return above(r, "offset", r->offset, "offsets go to 28449791");
    if (r->offset + count > TOPZERAD_MAX_LENGTH)
        return above(r, "the bytes end at", r->offset + count, "an object has at most 28449792");
    int status = DONE;
    if (r->name && !r->has_offset)
        status = put_named(r, count);
    else if (r->name)
        status = find_or_make(r);
    if (!status && (!r->name || r->has_offset)) status = put_numbered(r, count);
    if (status) return status;
    printf("put %zu bytes in %u transactions\n", count, r->transactions);
    return ctl_output_failed();
}

/* The pool. */

static int print_status(run *r) {
    char name[TOPZERAD_MAX_NAME + 1];
    topzerad_status s;
    size_t count = 0;
    int refusal = topzerad_name(&r->pool, name);
    if (!refusal) refusal = topzerad_state(&r->pool, &s);
    if (!refusal) refusal = topzerad_objects(&r->pool, 0, TOPZERAD_OBJECTS, r->listed, &count);
    if (refusal) return ctl_refused(r, refusal, NULL);
    uint64_t guid = topzerad_opened(&r->pool).guid;
    printf("name %s\nguid %" PRIu64 "\ngroup %" PRIu64 "\nobjects %zu\n", name, guid, s.synced, count);
    return ctl_output_failed();
}

/* The command line. */

static int wrong(const char *word, const char *wanted) {
    ctl_tell("%s: %s", word, wanted);
    return BAD_LINE;
}

static int read_object(run *r) {
    char *end;
    if (*r->object == '@') {
        r->name = r->object + 1;
        return -1;
    }
    errno = 0;
    unsigned long number = strtoul(r->object, &end, 10);
    if (*r->object < '0' || *r->object > '9' || errno || *end || number > UINT32_MAX)
        return wrong(r->object, "a number below 2^32, or a name after an @");
    r->number = (uint32_t)number;
    return -1;
}

/* Reads seconds. Returns -1, or the status to end with. */
static int read_seconds(const char *word, double *seconds) {
    char *end;
    *seconds = strtod(word, &end);
    return *end || !*word || !(*seconds > 0 && *seconds <= 86400) ? wrong(word, "above 0, up to 86400") : -1;
}

static int read_option(run *r, int option, const char *word) {
    static const char bytes[] = "bytes below 2^64 in digits, with K, M, G or T after them for powers of 1024";
    switch (option) {
    case OFFSET:
        r->has_offset = 1;
        return hub_read_bytes(word, &r->offset) ? wrong(word, bytes) : -1;
    case LENGTH:
        r->has_length = 1;
        return hub_read_bytes(word, &r->length) ? wrong(word, bytes) : -1;
    case TIMEOUT: return read_seconds(word, &r->timeout);
    case WATCH: return read_seconds(word, &r->watch);
    case JSON: r->is_json = 1; return -1;
    case 'l': r->is_long = 1; return -1;
    case 'q': r->is_quiet = 1; return -1;
    case 'h': return fputs(usage, stdout) < 0 ? UNUSABLE : ctl_output_failed();
    case 'V': return puts("ztxg-ctl " TOPZERAD_VERSION) < 0 ? UNUSABLE : ctl_output_failed();
    default: return BAD_LINE;
    }
}

/* A command, what it takes, and whether it has an object. */
typedef struct {
    const char *name;
    int (*make)(run *r);
    int has_object, takes_offset, takes_length, takes_json, takes_long, takes_watch;
} command;

static const command commands[] = {
    {.name = "ls", .make = list, .takes_json = 1, .takes_long = 1},
    {.name = "get", .make = get_object, .has_object = 1, .takes_offset = 1, .takes_length = 1},
    {.name = "put", .make = put_object, .has_object = 1, .takes_offset = 1},
    {.name = "rm", .make = remove_object, .has_object = 1},
    {.name = "status", .make = print_status},
    {.name = "stat", .make = ctl_print_stat, .takes_json = 1, .takes_watch = 1},
};

static const command *find_command(const char *name) {
    for (size_t i = 0; i < sizeof commands / sizeof *commands; i++)
        if (!strcmp(commands[i].name, name)) return &commands[i];
    return NULL;
}

/* Whether the command takes all options that were given. */
static int takes_options(const run *r, const command *c) {
    return (c->takes_offset || !r->has_offset) && (c->takes_length || !r->has_length)
           && (c->takes_json || !r->is_json) && (c->takes_long || !r->is_long) && (c->takes_watch || !(r->watch > 0));
}

/* Reads the command line, and sets the command. Returns -1, or the status to end with. */
static int read_line(run *r, int count, char **words, const command **c) {
    int option;
    while ((option = getopt_long(count, words, "lqhV", known, NULL)) != -1) {
        int status = read_option(r, option, optarg);
        if (status >= 0) return status;
    }
    if (count - optind < 2) return wrong("SOCKET COMMAND", "both are wanted; --help says more");
    r->socket = words[optind];
    r->command = words[optind + 1];
    *c = find_command(r->command);
    if (!strcmp(r->command, "check")) return wrong("check", "no frame asks for it: end the hub, and run ztxg check");
    if (!*c) return wrong(r->command, "no such command; --help says more");
    if (count - optind != 2 + (*c)->has_object || !takes_options(r, *c))
        return wrong(r->command, "it takes other words; --help says more");
    if (!(*c)->has_object) return -1;
    r->object = words[optind + 2];
    return read_object(r);
}

/* Opens the pool. Returns 0 or a status. */
static int open_pool(run *r) {
    const topzerad_options options = {.timeout = r->timeout};
    int refusal = topzerad_open_socket(&r->pool, r->socket, &options);
    if (!refusal) return 0;
    ctl_tell("cannot use %s", r->socket);
    if (!r->is_quiet) ctl_tell("cause: %s", topzerad_cause(&r->pool));
    return UNUSABLE;
}

int main(int count, char **words) {
    run *r = &the_run;
    const command *c = NULL;
    int status = read_line(r, count, words, &c);
    if (status >= 0) return status;
    if (c->has_object && !r->name && r->number >= TOPZERAD_OBJECTS)
        return above(r, "object", r->number, "numbers go to 5291");
    status = open_pool(r);
    if (status) return status;
    status = c->make(r);
    int refusal = topzerad_close(&r->pool);
    return status || !refusal ? status : ctl_refused(r, refusal, NULL);
}
