/* The options in the URI of a database, as `dirty=16M`. SQLite itself has one by the name `cache`. */
#include "vfs.h"

#include <stdlib.h>
#include <string.h>
SQLITE_EXTENSION_INIT3

enum { BLOCK = 4096, MOST_CACHE = 1 << 30, DEFAULT_CACHE = 16 << 20, LEAST_DIRTY = 1 << 20, MOST_SECONDS = 86400, DEFAULT_WAIT = 5 };
enum { LEAST_READS = 64 << 10, MOST_READS = 1 << 30, DEFAULT_READS = 64 << 20 };
#define MOST_DIRTY (UINT64_C(1) << 40)
#define NO_NUMBER UINT64_MAX

/* A number of bytes, as 16777216, 16384K or 16M; NO_NUMBER if it is none. */
static uint64_t bytes_of(const char *word) {
    static const char suffixes[] = "KMGT";
    uint64_t value = 0;
    const char *at = word;
    for (; *at >= '0' && *at <= '9'; at++) {
        if (value > MOST_DIRTY) return NO_NUMBER;
        value = 10 * value + (uint64_t)(*at - '0');
    }
    const char *suffix = *at ? strchr(suffixes, *at) : NULL;
    if (at == word || (*at && (!suffix || at[1]))) return NO_NUMBER;
    int shift = suffix ? 10 * (int)(suffix - suffixes + 1) : 0;
    return value > MOST_DIRTY >> shift ? NO_NUMBER : value << shift;
}

/* Reads an option of bytes, if it is there. */
static int read_bytes(const char *uri, const char *option, uint64_t low, uint64_t high, uint64_t *value) {
    const char *word = sqlite3_uri_parameter(uri, option);
    if (!word) return SQLITE_OK;
    *value = bytes_of(word);
    if (*value >= low && *value <= high && *value % BLOCK == 0) return SQLITE_OK;
    return tell(SQLITE_CANTOPEN, "%s=%s: %lld to %lld bytes, a multiple of %d", option, word, (sqlite3_int64)low,
                (sqlite3_int64)high, BLOCK);
}

/* Reads the option of a cache of reads, if it is there: a number of bytes, or 0 for none. */
static int read_reads(const char *uri, uint64_t *value) {
    const char *word = sqlite3_uri_parameter(uri, "read_cache");
    if (word && !bytes_of(word)) *value = 0;
    return *value ? read_bytes(uri, "read_cache", LEAST_READS, MOST_READS, value) : SQLITE_OK;
}

/* Reads an option of seconds, if it is there. */
static int read_seconds(const char *uri, const char *option, double *value) {
    const char *word = sqlite3_uri_parameter(uri, option);
    char *end;
    if (!word) return SQLITE_OK;
    *value = strtod(word, &end);
    if (end != word && !*end && *value >= 0 && *value <= MOST_SECONDS) return SQLITE_OK;
    return tell(SQLITE_CANTOPEN, "%s=%s: 0 to %d seconds", option, word, MOST_SECONDS);
}

int read_options(const char *uri, const char **program, topzerad_options *options) {
    uint64_t cache = DEFAULT_CACHE;
    double wait = DEFAULT_WAIT;
    const char *word = uri ? sqlite3_uri_parameter(uri, "program") : NULL;
    *program = word ? word : "ztxg";
    *options = (topzerad_options){.read_cache = DEFAULT_READS};
    int code = uri ? read_bytes(uri, "pool_cache", BLOCK, MOST_CACHE, &cache) : SQLITE_OK;
    if (!code && uri) code = read_bytes(uri, "dirty", LEAST_DIRTY, MOST_DIRTY, &options->dirty);
    if (!code && uri) code = read_reads(uri, &options->read_cache);
    if (!code && uri) code = read_seconds(uri, "wait", &wait);
    if (!code && uri) code = read_seconds(uri, "timeout", &options->timeout);
    options->cache = (uint32_t)(cache / BLOCK);
    options->wait = (uint32_t)wait;
    return code;
}
