/* Viewers: connections to the socket of metrics. Each asks once by HTTP, gets the page, and is closed. It has a second
 * for its request and some more to read the page. So many are let in at once, and so often, that clients don't notice
 * them. */
#define _GNU_SOURCE
#include "hub.h"

#include <errno.h>
#include <stdio.h>
#include <stdlib.h>
#include <string.h>
#include <sys/socket.h>
#include <unistd.h>

enum { HEADER = 256 }; /* the most bytes of an answer before the page */

#define REQUEST_TIME SECOND
#define POOL_TIME SECOND /* how long the pool may take to tell its numbers */
#define PAGE_TIME (5 * SECOND)

int hub_prepare_viewers(hub *h) {
    enum { EACH = MOST_REQUEST + HEADER + MOST_PAGE };
    h->viewers = calloc(VIEWERS, sizeof *h->viewers);
    h->pages = calloc(VIEWERS, EACH);
    if (!h->viewers || !h->pages) return -1;
    for (size_t i = 0; i < VIEWERS; i++) {
        h->viewers[i].socket = -1;
        h->viewers[i].request = h->pages + i * EACH;
        h->viewers[i].page = h->viewers[i].request + MOST_REQUEST;
    }
    return 0;
}

/* Where the viewers end. Without a socket for them there are none. */
static viewer *past_viewers(const hub *h) { return h->viewers ? h->viewers + VIEWERS : NULL; }

viewer *hub_free_viewer(hub *h) {
    for (viewer *v = h->viewers; v != past_viewers(h); v++)
        if (v->stage == NO_VIEWER) return v;
    return NULL;
}

void hub_add_viewer(viewer *v, int socket) {
    v->socket = socket;
    v->stage = VIEWER_READING;
    v->deadline = topzerad_now() + REQUEST_TIME;
    v->size = v->done = v->line = v->polled = 0;
}

static void close_viewer(viewer *v) {
    close(v->socket);
    v->socket = -1;
    v->stage = NO_VIEWER;
}

void hub_close_viewers(hub *h) {
    for (viewer *v = h->viewers; v != past_viewers(h); v++)
        if (v->stage != NO_VIEWER) close_viewer(v);
}

static int is_later(ssize_t done) { return done < 0 && (errno == EAGAIN || errno == EWOULDBLOCK || errno == EINTR); }

/* Answers. */

static void write_viewer(viewer *v) {
    while (v->done < v->size) {
        ssize_t sent = send(v->socket, v->page + v->done, v->size - v->done, MSG_NOSIGNAL | MSG_DONTWAIT);
        if (is_later(sent)) return;
        if (sent <= 0) break;
        v->done += (size_t)sent;
    }
    close_viewer(v);
}

/* Begins to write the answer that is in the page's place. */
static void answer(viewer *v, size_t size) {
    v->stage = VIEWER_WRITING;
    v->size = size;
    v->done = 0;
    v->deadline = topzerad_now() + PAGE_TIME;
    write_viewer(v);
}

/* Puts the lines before a page of so many bytes. Returns their bytes. */
static size_t put_header(char *to, const char *status, size_t size) {
    return (size_t)snprintf(to, HEADER,
                            "HTTP/1.1 %s\r\nContent-Type: text/plain; version=0.0.4; charset=utf-8\r\n"
                            "Content-Length: %zu\r\nConnection: close\r\n\r\n",
                            status, size);
}

static void answer_fault(viewer *v, const char *status) { answer(v, put_header(v->page, status, 0)); }

void hub_forbid_viewer(int socket) {
    char header[HEADER];
    size_t size = put_header(header, "403 Forbidden", 0);
    if (send(socket, header, size, MSG_NOSIGNAL | MSG_DONTWAIT) < 0) hub_tell("a viewer wasn't told: 403 Forbidden");
    close(socket);
}

/* Writes the page after its header, whose length depends on it. */
static void answer_page(hub *h, viewer *v, int is_answered) {
    char header[HEADER];
    size_t size = hub_write_page(v->page + HEADER, hub_tell_numbers(h), is_answered ? &h->pool : NULL);
    size_t before = put_header(header, "200 OK", size);
    memcpy(v->page, header, before);
    memmove(v->page + before, v->page + HEADER, size);
    answer(v, before + size);
}

void hub_end_look(hub *h, int is_answered) {
    h->look = NO_LOOK;
    for (viewer *v = h->viewers; v != past_viewers(h); v++)
        if (v->stage == VIEWER_WAITING) answer_page(h, v, is_answered);
}

/* Requests. */

static int begins(const char *line, size_t count, const char *with) {
    size_t length = strlen(with);
    return count >= length && !memcmp(line, with, length);
}

/* What is wrong with the first line of a request, as the status of its answer, or NULL. */
static const char *fault_of(const char *line, size_t count) {
    static const char version[] = " HTTP/1.", path[] = "/metrics";
    const char *space = memchr(line, ' ', count);
    size_t tail = strlen(version) + 1;
    int is_request = space && space > line && count > tail && begins(line + count - tail, tail, version)
                     && (line[count - 1] == '0' || line[count - 1] == '1') && space < line + count - tail;
    if (!is_request) return "400 Bad Request";
    if (!begins(line, count, "GET ")) return "405 Method Not Allowed\r\nAllow: GET";
    const char *target = space + 1;
    size_t length = (size_t)(line + count - tail - target);
    int is_page = begins(target, length, path) && (length == strlen(path) || target[strlen(path)] == '?');
    return is_page ? NULL : "404 Not Found";
}

/* The bytes of a line without those that end it. */
static size_t trimmed(const char *line, size_t count) { return count && line[count - 1] == '\r' ? count - 1 : count; }

/* The request is there. */
static void take_request(hub *h, viewer *v) {
    const char *end = memchr(v->request, '\n', v->size);
    const char *fault = fault_of(v->request, trimmed(v->request, (size_t)(end - v->request)));
    if (fault) {
        answer_fault(v, fault);
        return;
    }
    v->stage = VIEWER_WAITING;
    v->deadline = topzerad_now() + POOL_TIME;
    if (h->look == NO_LOOK) h->look = LOOK_WANTED;
}

/* Looks at what was read from a place on. Returns 1 if the request ends there, and -1 if a line is too long. */
static int look_for_end(viewer *v, size_t at) {
    for (; at < v->size; at++) {
        if (at - v->line >= MOST_LINE) return -1;
        if (v->request[at] != '\n') continue;
        size_t count = trimmed(v->request + v->line, at - v->line);
        v->line = at + 1;
        if (!count) return 1;
    }
    return 0;
}

static void read_viewer(hub *h, viewer *v) {
    while (v->stage == VIEWER_READING) {
        size_t before = v->size;
        ssize_t got = recv(v->socket, v->request + before, MOST_REQUEST - before, MSG_DONTWAIT);
        if (is_later(got)) return;
        if (got > 0) v->size += (size_t)got;
        int is_whole = got > 0 ? look_for_end(v, before) : -1;
        if (is_whole < 0 || (!is_whole && v->size == MOST_REQUEST))
            close_viewer(v);
        else if (is_whole)
            take_request(h, v);
    }
}

/* Waiting. */

size_t hub_poll_viewers(hub *h, size_t at) {
    for (viewer *v = h->viewers; v != past_viewers(h); v++) {
        short events = v->stage == VIEWER_READING ? POLLIN : v->stage == VIEWER_WRITING ? POLLOUT : 0;
        v->polled = at;
        if (v->stage != NO_VIEWER) h->polled[at++] = (struct pollfd){v->socket, events, 0};
    }
    return at;
}

/* A slot has the viewer that was polled, or none: viewers come in last. */
void hub_serve_viewers(hub *h) {
    for (viewer *v = h->viewers; v != past_viewers(h); v++) {
        if (v->stage == NO_VIEWER || h->polled[v->polled].fd != v->socket || !h->polled[v->polled].revents) continue;
        if (v->stage == VIEWER_READING)
            read_viewer(h, v);
        else if (v->stage == VIEWER_WRITING)
            write_viewer(v);
        else
            close_viewer(v);
    }
}

void hub_tend_viewers(hub *h, uint64_t now) {
    for (viewer *v = h->viewers; v != past_viewers(h); v++) {
        if (v->stage == NO_VIEWER || now < v->deadline) continue;
        if (v->stage == VIEWER_WAITING)
            answer_page(h, v, 0);
        else
            close_viewer(v);
    }
}

uint64_t hub_viewer_deadline(const hub *h) {
    uint64_t next = NO_DEADLINE;
    for (const viewer *v = h->viewers; v != past_viewers(h); v++)
        if (v->stage != NO_VIEWER && v->deadline < next) next = v->deadline;
    return next;
}
