/* The listening sockets, and who may come in. */
#define _GNU_SOURCE
#include "hub.h"

#include <errno.h>
#include <fcntl.h>
#include <libgen.h>
#include <stdio.h>
#include <stdlib.h>
#include <string.h>
#include <sys/file.h>
#include <sys/socket.h>
#include <sys/stat.h>
#include <sys/un.h>
#include <time.h>
#include <unistd.h>

enum { GIVEN = 3, MOST_GIVEN = 2, BACKLOG = 64, AT_ONCE = 16, CAUSE = 96 };

static const char given[] = "the given socket", for_viewers[] = "metrics";

#define LOCK_TIME (5 * SECOND) /* how long another hub may take to replace the socket */
#define PAUSE (SECOND / 10)    /* until others are let in, after the system had no room, or viewers came */

/* A path. */

/* Puts a path in an address. Returns 0, or an error number. */
static int set_address(struct sockaddr_un *address, const char *path) {
    size_t count = strlen(path);
    memset(address, 0, sizeof *address);
    address->sun_family = AF_UNIX;
    if (count >= sizeof address->sun_path) return ENAMETOOLONG;
    memcpy(address->sun_path, path, count);
    return 0;
}

/* Whether a process listens on a socket. Returns an error number: 0 if one does, ECONNREFUSED if none does. */
static int try_connection(const struct sockaddr_un *address) {
    int probe = socket(AF_UNIX, SOCK_STREAM | SOCK_CLOEXEC | SOCK_NONBLOCK, 0);
    if (probe < 0) return errno;
    int failed = connect(probe, (const struct sockaddr *)address, sizeof *address) ? errno : 0;
    close(probe);
    return failed == EAGAIN ? 0 : failed;
}

/* Looks what is at the path. Sets whether a socket is there that no process listens on. Returns 0, or a status. */
static int test_path(const char *path, const struct sockaddr_un *address, int *is_dead) {
    struct stat found;
    *is_dead = 0;
    if (lstat(path, &found)) return errno == ENOENT ? 0 : hub_cannot_use(path, NULL, errno);
    if (!S_ISSOCK(found.st_mode)) return hub_cannot_use(path, "it exists, and is no socket", 0);
    int failed = try_connection(address);
    if (!failed) return hub_cannot_use(path, "a process listens on it", 0);
    if (failed != ECONNREFUSED) return hub_cannot_use(path, NULL, failed);
    *is_dead = 1;
    return 0;
}

/* Takes the lock of a socket's folder, so that two hubs don't replace one socket at once. -1 with errno. */
static int lock_folder(struct sockaddr_un address) {
    const struct timespec pause = {0, 10000000};
    uint64_t deadline = topzerad_now() + LOCK_TIME;
    int folder = open(dirname(address.sun_path), O_RDONLY | O_DIRECTORY | O_CLOEXEC);
    if (folder < 0) return -1;
    while (flock(folder, LOCK_EX | LOCK_NB)) {
        int failed = errno;
        if (failed == EINTR || (failed == EWOULDBLOCK && topzerad_now() < deadline)) {
            nanosleep(&pause, NULL);
            continue;
        }
        close(folder);
        errno = failed;
        return -1;
    }
    return folder;
}

/* Makes a socket at the path. Returns 0 or an error number. */
static int make_socket(listener *l, unsigned mode, const struct sockaddr_un *address) {
    struct stat made;
    l->file = socket(AF_UNIX, SOCK_STREAM | SOCK_CLOEXEC | SOCK_NONBLOCK, 0);
    if (l->file < 0) return errno;
    mode_t before = umask(0777 & ~mode);
    int failed = bind(l->file, (const struct sockaddr *)address, sizeof *address) ? errno : 0;
    umask(before);
    if (failed) return failed;
    if (lstat(l->path, &made)) return errno;
    l->device = made.st_dev;
    l->node = made.st_ino;
    return listen(l->file, BACKLOG) ? errno : 0;
}

/* Makes the socket in the place of a dead one. The folder is locked. */
static int replace_socket(listener *l, unsigned mode, const struct sockaddr_un *address) {
    int is_dead;
    int status = test_path(l->path, address, &is_dead);
    if (status) return status;
    if (is_dead && unlink(l->path)) return hub_cannot_use(l->path, NULL, errno);
    int failed = make_socket(l, mode, address);
    return failed ? hub_cannot_use(l->path, NULL, failed) : 0;
}

/* Listens at a path, if there is one and its socket isn't given. */
static int listen_at(listener *l, unsigned mode) {
    struct sockaddr_un address;
    if (l->is_given || !l->path) return 0;
    int failed = set_address(&address, l->path);
    if (failed) return hub_cannot_use(l->path, NULL, failed);
    int folder = lock_folder(address);
    if (folder < 0) return hub_cannot_use(l->path, NULL, errno);
    int status = replace_socket(l, mode, &address);
    close(folder);
    return status;
}

int hub_listen(hub *h) {
    int status = listen_at(&h->listener, h->options.mode);
    return status ? status : listen_at(&h->metrics, h->options.mode);
}

/* Removes the path that the hub made, unless another file is there by now. */
static void remove_path(const listener *l) {
    struct stat found;
    if (lstat(l->path, &found) || found.st_dev != l->device || found.st_ino != l->node) return;
    if (unlink(l->path)) hub_tell("%s can't be removed", l->path);
}

/* The path goes first: while the hub listens no other one takes its place. */
static void end_listener(listener *l) {
    if (l->file < 0) return;
    if (!l->is_given && l->node) remove_path(l);
    close(l->file);
    l->file = -1;
}

void hub_end_listening(hub *h) {
    end_listener(&h->listener);
    end_listener(&h->metrics);
}

/* Given sockets (sd_listen_fds(3)). */

/* The number that a variable of the environment has, or -1. */
static long number_of(const char *variable) {
    const char *text = getenv(variable);
    char *end;
    if (!text || !*text) return -1;
    long number = strtol(text, &end, 10);
    return *end ? -1 : number;
}

static int is_listening(int file) {
    struct sockaddr_un address = {0};
    socklen_t size = sizeof address, one = sizeof(int);
    int is = 0;
    if (getsockname(file, (struct sockaddr *)&address, &size) || address.sun_family != AF_UNIX) return 0;
    return !getsockopt(file, SOL_SOCKET, SO_ACCEPTCONN, &is, &one) && is;
}

/* Takes a socket that is given. */
static int take_socket(listener *l, int file) {
    if (l->is_given) return hub_cannot_use(given, "two sockets are given for one purpose", 0);
    if (!is_listening(file)) return hub_cannot_use(given, "it is no Unix socket that listens", 0);
    if (fcntl(file, F_SETFD, FD_CLOEXEC) || fcntl(file, F_SETFL, O_NONBLOCK)) return hub_cannot_use(given, NULL, errno);
    l->file = file;
    l->is_given = 1;
    return 0;
}

/* Takes what is given: the socket with the name `metrics` is for viewers, and another one for clients. Names are set
 * apart by colons. */
static int take_given(hub *h) {
    const char *names = getenv("LISTEN_FDNAMES"), *name = names ? names : "";
    long count = number_of("LISTEN_FDS");
    if (count < 1 || count > MOST_GIVEN) return hub_cannot_use(given, "one or two have to be given", 0);
    for (int i = 0; i < count; i++) {
        size_t length = strcspn(name, ":");
        int is_metrics = length == strlen(for_viewers) && !strncmp(name, for_viewers, length);
        int status = take_socket(is_metrics ? &h->metrics : &h->listener, GIVEN + i);
        if (status) return status;
        name += length + (name[length] == ':');
    }
    if (unsetenv("LISTEN_FDS") || unsetenv("LISTEN_PID") || unsetenv("LISTEN_FDNAMES"))
        return hub_cannot_use(given, NULL, errno);
    return 0;
}

/* Looks whether a path is free, if there is one and its socket isn't given. */
static int prepare_path(const listener *l) {
    struct sockaddr_un address;
    int is_dead;
    if (l->is_given || !l->path) return 0;
    int failed = set_address(&address, l->path);
    return failed ? hub_cannot_use(l->path, NULL, failed) : test_path(l->path, &address, &is_dead);
}

int hub_prepare(hub *h) {
    h->listener.path = h->options.path;
    h->metrics.path = h->options.metrics;
    int status = number_of("LISTEN_PID") == (long)getpid() ? take_given(h) : 0;
    if (status) return status;
    if (!h->listener.path && !h->listener.is_given) {
        hub_tell("--socket PATH is wanted");
        return BAD_LINE;
    }
    status = prepare_path(&h->listener);
    return status ? status : prepare_path(&h->metrics);
}

/* Clients and viewers. */

static int may_come_in(const options *o, uid_t user) {
    if (user == 0 || user == geteuid()) return 1;
    for (size_t i = 0; i < o->user_count; i++)
        if (o->users[i] == user) return 1;
    return 0;
}

/* Tells a client why it isn't let in: as a pool that isn't open, with an error number. If there is no room for that in
 * the socket, the client learns nothing. */
static void turn_away(hub *h, int socket, int error, const char *cause) {
    uint8_t frame[OPENING_SIZE + CAUSE] = {0};
    size_t count = strlen(cause);
    h->numbers.turned_away++;
    if (count > CAUSE) count = CAUSE;
    hub_put_head(frame, OPENING_SIZE + count, UNOPENED, 0);
    put(frame + HEAD + 16, (uint64_t)error, 4);
    put(frame + HEAD + 20, count, 4);
    memcpy(frame + OPENING_SIZE, cause, count);
    if (send(socket, frame, OPENING_SIZE + count, MSG_NOSIGNAL | MSG_DONTWAIT) < 0)
        hub_tell("a client wasn't told: %s", cause);
    close(socket);
}

/* Lets a client in if it may come and there is room. */
static void let_client_in(hub *h, int socket, const struct ucred *peer) {
    char cause[CAUSE];
    client *c = hub_free_slot(h);
    if (!may_come_in(&h->options, peer->uid)) {
        (void)snprintf(cause, sizeof cause, "the hub lets no user %lu in", (unsigned long)peer->uid);
        turn_away(h, socket, EACCES, cause);
    } else if (!c) {
        (void)snprintf(cause, sizeof cause, "the hub has %zu clients, as many as it may have", h->options.most);
        turn_away(h, socket, EAGAIN, cause);
    } else {
        hub_add_client(h, c, socket, peer->uid, peer->pid);
    }
}

static void let_in(hub *h, const listener *l, int socket) {
    struct ucred peer;
    socklen_t size = sizeof peer;
    if (getsockopt(socket, SOL_SOCKET, SO_PEERCRED, &peer, &size))
        close(socket);
    else if (l == &h->listener)
        let_client_in(h, socket, &peer);
    else if (may_come_in(&h->options, peer.uid))
        hub_add_viewer(hub_free_viewer(h), socket);
    else
        hub_forbid_viewer(socket);
}

/* Lets those in that there is room for. */
static void let_some_in(hub *h, listener *l) {
    for (int i = 0; i < AT_ONCE; i++) {
        if (l == &h->metrics && !hub_free_viewer(h)) return;
        int socket = accept4(l->file, NULL, NULL, SOCK_CLOEXEC | SOCK_NONBLOCK);
        if (socket >= 0) {
            let_in(h, l, socket);
            continue;
        }
        if (errno == EINTR || errno == ECONNABORTED) continue;
        /* For want of memory or numbers of files it is tried again a little later. */
        if (errno != EAGAIN && errno != EWOULDBLOCK) l->pause = topzerad_now() + PAUSE;
        return;
    }
}

/* Viewers that come without end leave time for clients. */
void hub_let_in(hub *h, listener *l) {
    let_some_in(h, l);
    if (l == &h->metrics) l->pause = topzerad_now() + PAUSE;
}
