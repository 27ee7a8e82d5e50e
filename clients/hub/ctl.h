/* ctl.h: what the files of ztxg-ctl share. */
#ifndef CTL_H
#define CTL_H

#include "numbers.h"

enum { DONE = 0, REFUSED = 1, BAD_LINE = 2, UNUSABLE = 3 };
enum { RECORD = 4032, PIECE = 16 * RECORD, FIRST_ROOM = PIECE + 128 };

/* A run, and what its command line says. */
typedef struct {
    topzerad pool;
    const char *socket, *command, *object, *name;
    uint32_t number;
    uint64_t offset, length;
    int has_offset, has_length, is_long, is_json, is_quiet;
    double timeout, watch; /* seconds, or 0 if not given */
    topzerad_listed listed[TOPZERAD_OBJECTS];
    topzerad_named named[TOPZERAD_OBJECTS];
    uint8_t content[TOPZERAD_MAX_LENGTH + 1], first[FIRST_ROOM];
    uint64_t committed;
    unsigned transactions;
} run;

/* ctl.c */

/* Prints a line on standard error. */
void ctl_tell(const char *format, ...) __attribute__((format(printf, 1, 2)));
/* Tells a refusal, and its cause, or its text if that is NULL. Returns the status for it. */
int ctl_refused(const run *r, int refusal, const char *cause);
/* The status of a command that has printed all. */
int ctl_output_failed(void);

/* stat.c */

/* Prints the numbers of the pool and the hub, once or again and again. */
int ctl_print_stat(run *r);

#endif
