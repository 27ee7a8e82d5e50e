/* What is told of a refusal: SQLite's code by its cause, and a text. */
#include "vfs.h"

#include <errno.h>
#include <stdarg.h>
#include <string.h>
SQLITE_EXTENSION_INIT3

enum { TEXT = 1024 };

/* The last of this thread. */
static _Thread_local struct {
    int number;
    char text[TEXT];
} last;

int tell(int code, const char *format, ...) {
    va_list words;
    va_start(words, format);
    sqlite3_vsnprintf(TEXT, last.text, format, words);
    va_end(words);
    last.number = 0;
    sqlite3_log(code, "%s: %s", VFS_NAME, last.text);
    return code;
}

static int cause_of(int refusal, int otherwise) {
    switch (refusal) {
    case TOPZERAD_NO_MEMORY:
        return SQLITE_IOERR_NOMEM;
    case TOPZERAD_NO_SPACE:
    case TOPZERAD_NO_LOG_SPACE:
    case TOPZERAD_TOO_MANY:
        return SQLITE_FULL;
    case TOPZERAD_DAMAGED:
        return SQLITE_IOERR_CORRUPTFS;
    default:
        return otherwise;
    }
}

int code_of(int refusal, int otherwise, const char *what, const char *path) {
    int number = refusal == TOPZERAD_SYSTEM ? errno : 0;
    if (!refusal) return SQLITE_OK;
    int code = tell(cause_of(refusal, otherwise), "%s %s: %s", what, path, topzerad_text(refusal));
    last.number = number;
    return code;
}

int last_error(int room, char *into) {
    if (room > 0 && into) sqlite3_snprintf(room, into, "%s", last.text);
    return last.number;
}
