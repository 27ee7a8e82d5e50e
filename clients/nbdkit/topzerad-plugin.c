/* topzerad-plugin.c: an nbdkit plugin that serves the disk in a pool (disk.h). README.md has its use. */
#define NBDKIT_API_VERSION 2
#include <nbdkit-plugin.h>

#include "disk.h"

#include <errno.h>
#include <inttypes.h>
#include <stdlib.h>
#include <string.h>

#define THREAD_MODEL NBDKIT_THREAD_MODEL_PARALLEL

/* The seconds that the program waits for a file that the process of a killed nbdkit still has. */
#define WAIT_SECONDS 30

/* The least dirty limit, which has room for the longest write of the disk, and the most that the program takes. */
#define LEAST_DIRTY (INT64_C(1) << 20)
#define MOST_DIRTY (INT64_C(1) << 40)

/* The greatest cache that the program takes. */
#define MOST_CACHE (INT64_C(1) << 30)
#define DEFAULT_CACHE (INT64_C(16) << 20)

static char *file, *program;
static int64_t dirty_limit = 4 << 20; /* the most bytes that unsynced transactions may be charged */
static int64_t cache_size = DEFAULT_CACHE; /* the most bytes of tree blocks that stay in memory once read */
static int64_t wanted_size; /* 0 if it is not given */
static int is_read_only;

static topzerad pool;
static int is_open;
static disk the_disk;

/* Options. */

/* The absolute path of a program, since nbdkit leaves its folder; a name alone is looked for in PATH. */
static char *program_path(const char *value) {
    if (strchr(value, '/')) return nbdkit_realpath(value);
    char *name = strdup(value);
    if (!name) nbdkit_error("there is no memory");
    return name;
}

static int set_path(char **option, char *path) {
    free(*option);
    *option = path;
    return path ? 0 : -1;
}

static int set_size(const char *value) {
    wanted_size = nbdkit_parse_size(value);
    if (wanted_size < 0) return -1;
    if ((uint64_t)wanted_size > DISK_MAX_SIZE) {
        nbdkit_error("size=%s is too large: a disk has at most %" PRIu64 " bytes", value, DISK_MAX_SIZE);
        return -1;
    }
    if (wanted_size == 0 || wanted_size % DISK_BLOCK) {
        nbdkit_error("size=%s is no size of a disk: give a multiple of %u bytes", value, DISK_BLOCK);
        return -1;
    }
    return 0;
}

static int set_dirty_limit(const char *value) {
    dirty_limit = nbdkit_parse_size(value);
    if (dirty_limit < 0) return -1;
    if (dirty_limit < LEAST_DIRTY || dirty_limit > MOST_DIRTY) {
        nbdkit_error("dirty=%s is no dirty limit: give %" PRId64 " to %" PRId64 " bytes", value, LEAST_DIRTY,
                     MOST_DIRTY);
        return -1;
    }
    return 0;
}

static int set_cache_size(const char *value) {
    cache_size = nbdkit_parse_size(value);
    if (cache_size < 0) return -1;
    if (cache_size == 0 || cache_size > MOST_CACHE || cache_size % DISK_BLOCK) {
        nbdkit_error("cache=%s is no size of a cache: give a multiple of %u bytes, at most %" PRId64, value, DISK_BLOCK,
                     MOST_CACHE);
        return -1;
    }
    return 0;
}

static int topzerad_config(const char *key, const char *value) {
    if (!strcmp(key, "file")) return set_path(&file, nbdkit_realpath(value));
    if (!strcmp(key, "program")) return set_path(&program, program_path(value));
    if (!strcmp(key, "size")) return set_size(value);
    if (!strcmp(key, "dirty")) return set_dirty_limit(value);
    if (!strcmp(key, "cache")) return set_cache_size(value);
    if (!strcmp(key, "ro")) {
        is_read_only = nbdkit_parse_bool(value);
        return is_read_only < 0 ? -1 : 0;
    }
    nbdkit_error("there is no option %s: the options are file, size, program, dirty, cache and ro", key);
    return -1;
}

static int topzerad_config_complete(void) {
    if (!file) {
        nbdkit_error("give file=POOL, a file that `ztxg create` made");
        return -1;
    }
    return program ? 0 : set_path(&program, program_path("ztxg"));
}

static void topzerad_unload(void) {
    free(file);
    free(program);
}

/* Refusals. */

static int error_number_of(int refusal) {
    switch (refusal) {
    case TOPZERAD_NO_MEMORY:
        return ENOMEM;
    case TOPZERAD_NO_SPACE:
    case TOPZERAD_NO_LOG_SPACE:
        return ENOSPC;
    default:
        return EIO;
    }
}

/* Reports a refusal, if it is one. Returns what a call of nbdkit returns. */
static int answer(int refusal, const char *what) {
    if (!refusal) return 0;
    nbdkit_error("%s: %s (refusal %d)", what, topzerad_text(refusal), refusal);
    nbdkit_set_error(error_number_of(refusal));
    return -1;
}

/* Begin and end. */

/* Makes the disk in a pool without objects. */
static int make_disk(void) {
    if (is_read_only || !wanted_size) {
        nbdkit_error("%s has no disk yet: give its size, and not ro=true", file);
        return -1;
    }
    return answer(disk_make(&the_disk), "a disk can't be made");
}

/* Lets the disk have the size that was asked for. */
static int fit_size(void) {
    uint64_t wanted = wanted_size ? (uint64_t)wanted_size : the_disk.size;
    if (wanted == the_disk.size) return 0;
    if (wanted < the_disk.size || is_read_only) {
        nbdkit_error("the disk in %s has %" PRIu64 " bytes: it can %s", file, the_disk.size,
                     is_read_only ? "only be read" : "grow, but not shrink");
        return -1;
    }
    return answer(disk_grow(&the_disk, wanted), "the disk can't grow");
}

static int open_disk(void) {
    disk_found found;
    if (answer(disk_open(&the_disk, &pool, &found), "the pool can't be opened")) return -1;
    if (found == DISK_FOREIGN) {
        nbdkit_error("%s has objects that are no disk", file);
        return -1;
    }
    if (found == DISK_NONE && make_disk()) return -1;
    return fit_size();
}

static void close_pool(void) {
    if (is_open && topzerad_close(&pool)) nbdkit_error("%s was not closed well", file);
    is_open = 0;
}

/* Starts the process once nbdkit has forked: it has to be a child of the process that waits for its end. */
static int topzerad_after_fork(void) {
    const topzerad_options options = {
        .dirty = (uint64_t)dirty_limit,
        .cache = (uint32_t)(cache_size / DISK_BLOCK),
        .wait = WAIT_SECONDS,
    };
    if (topzerad_open_options(&pool, program, file, &options)) {
        nbdkit_error("%s can't be opened: %s", file, topzerad_cause(&pool));
        return -1;
    }
    is_open = 1;
    if (open_disk()) {
        close_pool();
        return -1;
    }
    return 0;
}

/* Connections: they share the pool, so a flush of one makes durable what was written by all. */

static void *topzerad_connect(int readonly) {
    (void)readonly; /* nbdkit refuses writes then */
    return NBDKIT_HANDLE_NOT_NEEDED;
}

static int64_t topzerad_get_size(void *handle) {
    (void)handle;
    return (int64_t)the_disk.size;
}

static int topzerad_can_write(void *handle) {
    (void)handle;
    return !is_read_only;
}

static int topzerad_can(void *handle) {
    (void)handle;
    return 1;
}

static int topzerad_can_fua(void *handle) {
    (void)handle;
    return NBDKIT_FUA_NATIVE;
}

static int topzerad_block_size(void *handle, uint32_t *minimum, uint32_t *preferred, uint32_t *maximum) {
    (void)handle;
    *minimum = 1;
    *preferred = DISK_BLOCK;
    *maximum = 32u << 20;
    return 0;
}

/* Requests. */

static int topzerad_pread(void *handle, void *into, uint32_t count, uint64_t offset, uint32_t flags) {
    (void)handle, (void)flags;
    return answer(disk_read(&the_disk, into, offset, count), "read");
}

static int topzerad_pwrite(void *handle, const void *bytes, uint32_t count, uint64_t offset, uint32_t flags) {
    (void)handle;
    return answer(disk_write(&the_disk, bytes, offset, count, flags & NBDKIT_FLAG_FUA), "write");
}

static int topzerad_flush_disk(void *handle, uint32_t flags) {
    (void)handle, (void)flags;
    return answer(disk_flush(&the_disk), "flush");
}

static int topzerad_trim(void *handle, uint32_t count, uint64_t offset, uint32_t flags) {
    if (answer(disk_trim(&the_disk, offset, count), "trim")) return -1;
    return flags & NBDKIT_FLAG_FUA ? topzerad_flush_disk(handle, 0) : 0;
}

static int topzerad_zero(void *handle, uint32_t count, uint64_t offset, uint32_t flags) {
    if (answer(disk_zero(&the_disk, offset, count), "write of zeros")) return -1;
    return flags & NBDKIT_FLAG_FUA ? topzerad_flush_disk(handle, 0) : 0;
}

static int add_extent(void *extents, uint64_t offset, uint64_t count, int is_zeros) {
    return nbdkit_add_extent(extents, offset, count, is_zeros ? NBDKIT_EXTENT_HOLE | NBDKIT_EXTENT_ZERO : 0);
}

static int topzerad_extents(void *handle, uint32_t count, uint64_t offset, uint32_t flags,
                            struct nbdkit_extents *extents) {
    int taken;
    (void)handle, (void)flags;
    if (answer(disk_pieces(&the_disk, offset, count, add_extent, extents, &taken), "extents")) return -1;
    return taken;
}

static struct nbdkit_plugin plugin = {
    .name = "topzerad",
    .longname = "Topzerad",
    .description = "the disk in a Topzerad pool",
    .version = TOPZERAD_VERSION,
    .magic_config_key = "file",
    .config = topzerad_config,
    .config_complete = topzerad_config_complete,
    .config_help = "file=POOL     (required) a file that `ztxg create` made\n"
                   "size=BYTES    the size of the disk: it is made or grows to it\n"
                   "program=PATH  the program, if not given ztxg\n"
                   "dirty=BYTES   what may wait for a sync, if not given 4M\n"
                   "cache=BYTES   what stays of blocks that were read, if not given 16M\n"
                   "ro=true       the disk can only be read\n",
    .unload = topzerad_unload,
    .after_fork = topzerad_after_fork,
    .cleanup = close_pool,
    .open = topzerad_connect,
    .get_size = topzerad_get_size,
    .can_write = topzerad_can_write,
    .can_flush = topzerad_can,
    .can_trim = topzerad_can,
    .can_zero = topzerad_can,
    .can_extents = topzerad_can,
    .can_multi_conn = topzerad_can,
    .can_fua = topzerad_can_fua,
    .block_size = topzerad_block_size,
    .pread = topzerad_pread,
    .pwrite = topzerad_pwrite,
    .flush = topzerad_flush_disk,
    .trim = topzerad_trim,
    .zero = topzerad_zero,
    .extents = topzerad_extents,
};

NBDKIT_REGISTER_PLUGIN(plugin)
