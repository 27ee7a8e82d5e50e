/* hub.h: what the files of ztxg-hub share.
 *
 * One thread waits by poll for the listening sockets, the server, the clients and the viewers of metrics. A client has
 * one frame at a time: it is read whole, waits, is asked, and its answer is written whole before the next one is read.
 * So each client has one buffer, and all memory is taken at the start.
 *
 * 1. Frames that wait go to the server in the order in which they became whole, as many as fit one frame of its own.
 *    What gathers while the server works goes in the next one, so all share a flush.
 * 2. The requests of a client's frame stay together and in order. So what one frame reads is of one moment.
 * 3. A frame that holds the turn is the last of its batch, and no other client's frame goes before that client's next
 *    one, for HOLD at most. One that reads on holds it if its last read gets all bytes that it asks for.
 * 4. A frame that the server would refuse never goes to it beside others: each is checked here. If one is refused
 *    nevertheless, each client's frame is asked again by itself. Nothing of a refused frame was made.
 * 5. What was asked is made and answered, also when its client is gone.
 * 6. A viewer waits for no client, and none for it. The hub's own request for the pool's numbers goes with a batch,
 *    also while a client holds the turn: it changes nothing. */
#ifndef HUB_H
#define HUB_H

#include "numbers.h"

#include <poll.h>
#include <signal.h>
#include <sys/types.h>

enum { LEAST_CLIENTS = 1, MOST_CLIENTS = 256, DEFAULT_CLIENTS = 32 };
enum { DEFAULT_TIMEOUT = 30, MOST_TIMEOUT = 86400, MOST_USERS = 16 };
enum { OPENING_SIZE = 36 };
/* Of the socket of metrics: its viewers at once, and the bytes of a request, of a line of it, and of a page. */
enum { VIEWERS = 16, MOST_REQUEST = 8192, MOST_LINE = 2048, MOST_PAGE = 32768 };

/* The refusals of a frame (docs/FRAMES.md). */
enum { CUT_OFF = 2, BAD_LENGTH, BAD_VERSION, BAD_KIND, BAD_CALL, BAD_RECORD, SURPLUS, ANSWERS_TOO_LONG };

/* The statuses of `ztxg`. */
enum { DONE = 0, REFUSED = 1, BAD_LINE = 2, UNUSABLE = 3, BY_SIGNAL = 128 };

#define SECOND UINT64_C(1000000000)
#define HOLD (10 * SECOND) /* the longest that a client may hold the turn */

/* What a client's frame is about: it is read, waits, is asked, or its answer is written. */
typedef enum { FREE, READING, WAITING, ASKED, ANSWERING } stage;

typedef struct client {
    int socket;
    stage stage;
    int is_gone;          /* it ended while its frame was asked */
    int is_last;          /* it is closed once this answer is written */
    int holds;            /* its frame's kind if it holds the turn or reads on, or 0 */
    int is_alone;         /* its frame is asked by itself */
    uid_t user;
    pid_t process;
    uint64_t deadline;    /* of the frame or the answer that is under way */
    uint64_t begun;       /* when its frame was whole */
    uint32_t count;       /* the requests of its frame, and the room for their answers */
    size_t room;
    size_t size, done;    /* the bytes of the frame or the answer, and how many of them were read or written */
    uint8_t *bytes;       /* MAX_FRAME */
    struct client *next;  /* in the list of those that wait, or of those that are asked */
} client;

/* Clients in order. */
typedef struct {
    client *first, **last;
} line;

typedef struct {
    topzerad pool;        /* as which it was opened */
    int socket;
    int is_gone;          /* it ended its output, or answered what is no answer */
    int is_closing;       /* its input was ended */
    uint8_t opening[OPENING_SIZE];
    uint8_t *out, *in;    /* MAX_FRAME each */
    size_t out_size, out_done, in_done;
    uint64_t asked;       /* the number of its next request */
} server;

typedef struct {
    const char *file, *path, *program, *metrics;
    const char *dirty, *cache, *wait, *moment;
    uid_t users[MOST_USERS];
    size_t user_count, most;
    uint64_t timeout;
    unsigned mode;
} options;

/* A listening socket. */
typedef struct {
    const char *path;
    int file, is_given;   /* its file or -1, and whether the hub's parent gave it */
    dev_t device;         /* of the path that the hub made */
    ino_t node;
    uint64_t pause;       /* until when no one is let in */
} listener;

/* What a viewer is about: a connection to the socket of metrics. Its request is read, it waits for the pool's numbers,
 * or its answer is written. */
typedef enum { NO_VIEWER, VIEWER_READING, VIEWER_WAITING, VIEWER_WRITING } viewing;

typedef struct {
    int socket;
    viewing stage;
    uint64_t deadline;
    size_t polled;        /* its place in `polled` */
    size_t size, done;    /* the bytes that were read; those of the answer, and how many of them were written */
    size_t line;          /* where the last line of the request begins */
    char *request;        /* MOST_REQUEST */
    char *page;           /* MOST_PAGE */
} viewer;

/* A request of the hub's own for the pool's numbers: there is none, it goes with the next batch, or it is asked. */
typedef enum { NO_LOOK, LOOK_WANTED, LOOK_ASKED } look;

typedef struct {
    options options;
    listener listener, metrics; /* the sockets of clients and of viewers */
    server server;
    client *clients;
    uint8_t *memory;
    struct pollfd *polled;  /* the listening sockets, the server, the clients of `shown` in order, and the viewers */
    size_t *shown;
    size_t shown_count;
    size_t count;           /* clients that are there */
    viewer *viewers;        /* VIEWERS, or NULL without a socket for them */
    char *pages;            /* their memory */
    look look;
    topzerad_status pool;   /* what the last look found */
    numbers numbers;        /* `age` is set when they are told */
    uint64_t began;         /* when the hub began */
    uint64_t first_synced;  /* the group that was synced then */
    line waiting, asked;
    client *holder;         /* whose next frame goes first, and until when */
    uint64_t hold_end;
    int is_stopping;
    volatile sig_atomic_t stops;
} hub;

/* options.c */

/* Prints a line on standard error. */
void hub_tell(const char *format, ...) __attribute__((format(printf, 1, 2)));
/* Tells that a file or a socket can't be used, with the system's error number or 0. Returns the status for it. */
int hub_cannot_use(const char *path, const char *cause, int error);
/* Reads the command line. Returns -1, or the status to end with. */
int hub_read_options(options *o, int count, char **words);

/* socket.c */

/* Takes the listening sockets that the hub's parent gave it, and looks whether the paths of others are free. Returns 0,
 * or the status to end with. */
int hub_prepare(hub *h);
/* Listens. Returns 0, or the status to end with. */
int hub_listen(hub *h);
/* Closes what listens. A socket that was made here leaves no path. */
void hub_end_listening(hub *h);
/* Lets those in that wait at a socket: clients or viewers. */
void hub_let_in(hub *h, listener *l);

/* server.c */

/* Starts the server, and reads its opening. Returns 0, or the status to end with. */
int hub_start_server(hub *h);
/* Writes what is left of a batch. -1 if the server can't be used any more. */
int hub_write_server(hub *h);
/* Reads what there is of its answer, and hands a whole one out. -1 as above. */
int hub_read_server(hub *h);
/* Tells it that nothing follows. */
void hub_close_server(hub *h);
/* Waits for its end. Returns the hub's status. */
int hub_end_server(hub *h);

/* batch.c */

/* Makes a batch of frames that wait, if none is under way. */
void hub_make_batch(hub *h);
/* Hands the answer to the batch out. -1 if it is none. */
int hub_take_answer(hub *h);

/* frames.c */

/* Reads the requests of a whole frame: their count, the room for their answers, and whether it holds the turn. Returns
 * the refusal of the frame, or 0. */
uint32_t hub_check_frame(client *c);
/* The size of a request that was checked. */
size_t hub_request_size(const uint8_t *request);
/* The size of an answer, of at most so many bytes, or 0 if there is none. */
size_t hub_answer_size(const uint8_t *answer, size_t most);
/* Whether a request is a read, and its answer has all bytes that it asks for. */
int hub_is_full_read(const uint8_t *request, const uint8_t *answer);
/* Whether a good frame asks for the hub's numbers. */
int hub_asks_for_numbers(const client *c);
/* Counts a request that was answered so many nanoseconds after its frame was whole. */
void hub_count_answer(hub *h, const uint8_t *request, const uint8_t *answer, uint64_t took);
/* Puts a request for the pool's numbers. Returns its bytes. */
size_t hub_put_look(uint8_t *to, uint64_t number);
/* Takes the answer to it. -1 if the pool refused it. */
int hub_take_look(hub *h, const uint8_t *answer);

/* counts.c */

/* Begins to count. The server has been started. */
void hub_begin_counting(hub *h);
/* An answer says that this group is synced. */
void hub_notice_synced(hub *h, uint64_t group);
/* The numbers at this moment. */
const numbers *hub_tell_numbers(hub *h);

/* page.c */

/* Writes the page of metrics. It has the pool's numbers if the pool told them. Returns its bytes. */
size_t hub_write_page(char page[MOST_PAGE], const numbers *n, const topzerad_status *pool);

/* viewers.c */

/* Takes memory for viewers. -1 with errno. */
int hub_prepare_viewers(hub *h);
/* A slot for a viewer, or NULL. */
viewer *hub_free_viewer(hub *h);
void hub_add_viewer(viewer *v, int socket);
/* Tells one that it may not come in, and closes it. */
void hub_forbid_viewer(int socket);
/* The look is over. With an answer the viewers that wait are told of the pool. */
void hub_end_look(hub *h, int is_answered);
/* Puts what is waited for of each viewer, from that place in `polled` on. Returns the place after them. */
size_t hub_poll_viewers(hub *h, size_t at);
/* Does what can be done at once. */
void hub_serve_viewers(hub *h);
/* Ends those whose deadline has passed. */
void hub_tend_viewers(hub *h, uint64_t now);
/* The deadline of a viewer that is there, or NO_DEADLINE. */
uint64_t hub_viewer_deadline(const hub *h);
void hub_close_viewers(hub *h);

/* clients.c */

/* A slot for a client, or NULL. */
client *hub_free_slot(hub *h);
/* Takes a client in, and tells it that the pool is open. */
void hub_add_client(hub *h, client *c, int socket, uid_t user, pid_t process);
/* Begins to write the answer of that size in its buffer. */
void hub_answer(hub *h, client *c, size_t size);
/* Answers with the refusal of a frame. */
void hub_refuse_frame(hub *h, client *c, uint32_t number);
void hub_read_client(hub *h, client *c);
void hub_write_client(hub *h, client *c);
/* The client has ended its connection. */
void hub_lose_client(hub *h, client *c);
/* Closes a client. With a cause it is told on standard error. */
void hub_close_client(hub *h, client *c, const char *cause);
/* Whether something is awaited of a client: the rest of a frame, or that it reads its answer. */
int hub_is_awaited(const client *c);
/* Closes those whose deadline has passed, and those that nothing is under way for once the hub stops. */
void hub_tend_clients(hub *h, uint64_t now);
void hub_add_to_line(line *l, client *c);

#endif
