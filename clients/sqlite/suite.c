/* For SQLite's own tests, which know files by plain names and look at them: a default VFS by the name `suite`, whose
 * names are those in the pool TOPZERAD_SUITE_POOL, and functions of SQL on these files. The extension topzerad has to
 * be loaded before. */
#include <sqlite3ext.h>
#include <stdlib.h>
#include <string.h>
SQLITE_EXTENSION_INIT1

enum { MOST_PATH = 8192 };

static sqlite3_vfs *vfs, suite;

/* The name of a file in the pool, whatever its folder is. */
static int full_name(sqlite3_vfs *of, const char *name, int room, char *into) {
    const char *slash = strrchr(name, '/'), *pool = getenv("TOPZERAD_SUITE_POOL");
    (void)of;
    if (strlen(name) + strlen(pool) + 2 > (size_t)room) return SQLITE_CANTOPEN;
    sqlite3_snprintf(room, into, "%s/%s", pool, slash ? slash + 1 : name);
    return SQLITE_OK;
}

/* A file, opened as SQLite does. To be closed by close_file. */
static sqlite3_file *open_file(const char *name, int flags) {
    char path[MOST_PATH];
    if (full_name(NULL, name, sizeof path, path)) return NULL;
    const char *full = sqlite3_create_filename(path, "", "", 0, NULL);
    sqlite3_file *file = sqlite3_malloc(vfs->szOsFile);
    int code = SQLITE_NOMEM, got;
    if (file && full) code = vfs->xOpen(vfs, full, file, flags | SQLITE_OPEN_MAIN_DB, &got);
    sqlite3_free_filename((char *)full);
    if (code == SQLITE_OK) return file;
    sqlite3_free(file);
    return NULL;
}

static void close_file(sqlite3_file *file) {
    file->pMethods->xClose(file);
    sqlite3_free(file);
}

static const char *name_of(sqlite3_value *value) {
    const char *name = (const char *)sqlite3_value_text(value);
    return name ? name : "";
}

/* file_size(NAME): -1 if there is no such file. */
static void file_size(sqlite3_context *context, int count, sqlite3_value **values) {
    sqlite3_file *file = open_file(name_of(values[0]), SQLITE_OPEN_READWRITE);
    sqlite3_int64 size = -1;
    (void)count;
    if (file) file->pMethods->xFileSize(file, &size);
    if (file) close_file(file);
    sqlite3_result_int64(context, size);
}

/* file_remove(NAME) */
static void file_remove(sqlite3_context *context, int count, sqlite3_value **values) {
    char path[MOST_PATH];
    (void)count;
    if (full_name(NULL, name_of(values[0]), sizeof path, path)) return;
    sqlite3_result_int(context, vfs->xDelete(vfs, path, 0));
}

/* file_read(NAME, AT, COUNT): a blob. */
static void file_read(sqlite3_context *context, int count, sqlite3_value **values) {
    sqlite3_file *file = open_file(name_of(values[0]), SQLITE_OPEN_READWRITE);
    int wanted = sqlite3_value_int(values[2]);
    void *bytes = sqlite3_malloc(wanted + 1);
    (void)count;
    if (file && bytes) file->pMethods->xRead(file, bytes, wanted, sqlite3_value_int64(values[1]));
    if (file) close_file(file);
    if (bytes) sqlite3_result_blob(context, bytes, file ? wanted : 0, sqlite3_free);
}

/* file_write(NAME, AT, BLOB): a file that isn't there is made. */
static void file_write(sqlite3_context *context, int count, sqlite3_value **values) {
    sqlite3_file *file = open_file(name_of(values[0]), SQLITE_OPEN_READWRITE | SQLITE_OPEN_CREATE);
    const void *bytes = sqlite3_value_blob(values[2]);
    int size = sqlite3_value_bytes(values[2]), code = SQLITE_CANTOPEN;
    (void)count;
    if (file) code = size ? file->pMethods->xWrite(file, bytes, size, sqlite3_value_int64(values[1])) : SQLITE_OK;
    if (file) close_file(file);
    sqlite3_result_int(context, code);
}

/* file_truncate(NAME, SIZE) */
static void file_truncate(sqlite3_context *context, int count, sqlite3_value **values) {
    sqlite3_file *file = open_file(name_of(values[0]), SQLITE_OPEN_READWRITE);
    (void)count;
    if (file) sqlite3_result_int(context, file->pMethods->xTruncate(file, sqlite3_value_int64(values[1])));
    if (file) close_file(file);
}

int sqlite3_suite_init(sqlite3 *db, char **message, const sqlite3_api_routines *api);

int sqlite3_suite_init(sqlite3 *db, char **message, const sqlite3_api_routines *api) {
    SQLITE_EXTENSION_INIT2(api)
    vfs = sqlite3_vfs_find("topzerad");
    if (!vfs || !getenv("TOPZERAD_SUITE_POOL")) {
        *message = sqlite3_mprintf("load topzerad before, and set TOPZERAD_SUITE_POOL");
        return SQLITE_ERROR;
    }
    suite = *vfs;
    suite.zName = "suite";
    suite.xFullPathname = full_name;
    sqlite3_create_function(db, "file_size", 1, SQLITE_UTF8, NULL, file_size, NULL, NULL);
    sqlite3_create_function(db, "file_remove", 1, SQLITE_UTF8, NULL, file_remove, NULL, NULL);
    sqlite3_create_function(db, "file_read", 3, SQLITE_UTF8, NULL, file_read, NULL, NULL);
    sqlite3_create_function(db, "file_write", 3, SQLITE_UTF8, NULL, file_write, NULL, NULL);
    sqlite3_create_function(db, "file_truncate", 2, SQLITE_UTF8, NULL, file_truncate, NULL, NULL);
    int code = sqlite3_vfs_register(&suite, 1);
    return code ? code : SQLITE_OK_LOAD_PERMANENTLY;
}
