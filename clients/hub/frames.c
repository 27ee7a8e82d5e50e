/* The frames of clients (docs/FRAMES.md), checked as the server does, the sizes of answers, and what is counted of
 * both. */
#include "hub.h"

#include <string.h>

enum { START = 9 }; /* the bytes of a request or an answer before what it needs or has */
enum { TRANSACT = 1, TRANSACT_DURABLY, READ, LENGTH, OBJECTS, STATUS, DURABLE, FLUSH, SYNC, NAME, NOT_DURABLE };
enum { CREATE = 1, REMOVE, WRITE, SET_LENGTH, SET_NAME };
enum { RECORD_HEAD = 22, REFUSAL_SIZE = 17, LEAST_ROOM = 80, LISTED = 12 };

#define LAST_GROUP (UINT64_C(1) << 60)

/* Bytes that are read from the front. */
typedef struct {
    const uint8_t *bytes;
    size_t left;
} cursor;

static int take(cursor *from, size_t count) {
    if (from->left < count) return -1;
    from->bytes += count;
    from->left -= count;
    return 0;
}

static uint64_t least(uint64_t one, uint64_t other) { return one < other ? one : other; }

/* Records. */

static int is_letter(uint8_t byte) { return (byte >= 'A' && byte <= 'Z') || (byte >= 'a' && byte <= 'z'); }

static int is_name(const uint8_t *name, size_t count) {
    if (!count || count > TOPZERAD_MAX_NAME || !is_letter(name[0])) return 0;
    for (size_t i = 1; i < count; i++) {
        int is_digit = name[i] >= '0' && name[i] <= '9', is_sign = name[i] && strchr("-_.", name[i]);
        if (!is_letter(name[i]) && !is_digit && !is_sign) return 0;
    }
    return 1;
}

/* Takes the name of a pool. */
static int take_name(cursor *from) {
    const uint8_t *start = from->bytes;
    if (take(from, 4)) return -1;
    size_t count = get(start, 4);
    return take(from, count) || !is_name(start + 4, count) ? -1 : 0;
}

/* The bytes of operations before those that they write, or those of a name. */
static const size_t operation_sizes[] = {[CREATE] = 5, [REMOVE] = 5, [WRITE] = 17, [SET_LENGTH] = 13, [SET_NAME] = 5};

/* Takes an operation that is within its limits. */
static int take_operation(cursor *from) {
    const uint8_t *op = from->bytes;
    if (!from->left || op[0] < CREATE || op[0] > SET_NAME) return -1;
    if (op[0] == SET_NAME) return take(from, 1) || take_name(from) ? -1 : 0;
    if (take(from, operation_sizes[op[0]]) || get(op + 1, 4) >= TOPZERAD_OBJECTS) return -1;
    if (op[0] == SET_LENGTH) return get(op + 5, 8) > TOPZERAD_MAX_LENGTH ? -1 : 0;
    if (op[0] != WRITE) return 0;
    uint64_t offset = get(op + 5, 8), count = get(op + 13, 4);
    if (!count || count > TOPZERAD_MAX_LENGTH || offset > TOPZERAD_MAX_LENGTH - count) return -1;
    return take(from, count);
}

/* Takes a log record. */
static int take_record(cursor *from) {
    cursor record = *from;
    if (from->left < 4) return -1;
    record.left = get(from->bytes, 4);
    if (record.left > TOPZERAD_MAX_RECORD || take(from, record.left) || take(&record, RECORD_HEAD)) return -1;
    const uint8_t *head = record.bytes - RECORD_HEAD;
    if (get(head + 4, 8) > LAST_GROUP || get(head + 12, 8) > LAST_GROUP || !get(head + 20, 2)) return -1;
    for (uint64_t left = get(head + 20, 2); left; left--)
        if (take_operation(&record)) return -1;
    return record.left ? -1 : 0;
}

/* Requests. */

/* The bytes that a call needs besides a record. */
static size_t fields_of(uint8_t call) {
    static const size_t sizes[] = {[READ] = 20, [LENGTH] = 4, [OBJECTS] = 8, [DURABLE] = 16, [NAME] = 0};
    return sizes[call];
}

static int is_transaction(uint8_t call) { return call == TRANSACT || call == TRANSACT_DURABLY; }

size_t hub_request_size(const uint8_t *request) {
    return START + (is_transaction(request[8]) ? get(request + START, 4) : fields_of(request[8]));
}

/* The bytes that are kept for the answer to a request. */
static size_t room_of(const uint8_t *request) {
    const uint8_t *fields = request + START;
    uint64_t low, high;
    if (request[8] == READ) {
        low = get(fields + 4, 8);
        high = get(fields + 12, 8);
        return LEAST_ROOM + (high > low ? least(high - low, TOPZERAD_MAX_LENGTH) : 0);
    }
    if (request[8] == OBJECTS) {
        low = get(fields, 4);
        high = get(fields + 4, 4);
        return LEAST_ROOM + (high > low ? LISTED * least(high - low, TOPZERAD_OBJECTS) : 0);
    }
    return LEAST_ROOM;
}

/* Takes a request. Returns the refusal of its frame, or 0. */
static uint32_t take_request(cursor *from) {
    const uint8_t *request = from->bytes;
    if (take(from, START)) return CUT_OFF;
    uint8_t call = request[8];
    if (call < TRANSACT || call > NAME) return BAD_CALL;
    if (is_transaction(call)) return take_record(from) ? BAD_RECORD : 0;
    return take(from, fields_of(call)) ? CUT_OFF : 0;
}

int hub_asks_for_numbers(const client *c) { return get(c->bytes + 6, 2) == ASK_NUMBERS; }

uint32_t hub_check_frame(client *c) {
    cursor from = {c->bytes + HEAD, c->size - HEAD};
    uint64_t kind = get(c->bytes + 6, 2), count = get(c->bytes + 8, 4), room = HEAD;
    if (get(c->bytes + 4, 2) != VERSION) return BAD_VERSION;
    if (kind == ASK_NUMBERS) return count ? CUT_OFF : from.left ? SURPLUS : 0;
    if (kind != REQUESTS && kind != HOLDING && kind != READING_ON) return BAD_KIND;
    for (uint64_t left = count; left; left--) {
        const uint8_t *request = from.bytes;
        uint32_t refusal = take_request(&from);
        if (refusal) return refusal;
        room += room_of(request);
    }
    if (from.left) return SURPLUS;
    if (room > MAX_FRAME) return ANSWERS_TOO_LONG;
    c->count = (uint32_t)count;
    c->room = room - HEAD;
    c->holds = kind == REQUESTS ? 0 : (int)kind;
    return 0;
}

/* Answers. */

size_t hub_answer_size(const uint8_t *answer, size_t most) {
    static const size_t sizes[] = {[0] = REFUSAL_SIZE, [TRANSACT] = 16,   [TRANSACT_DURABLY] = 16,
                                   [READ] = 4,         [LENGTH] = 8,      [OBJECTS] = 4,
                                   [STATUS] = 56,      [DURABLE] = 1,     [FLUSH] = 0,
                                   [SYNC] = 8,         [NAME] = 4,        [NOT_DURABLE] = 16 + REFUSAL_SIZE};
    if (most < START || answer[8] > NOT_DURABLE) return 0;
    size_t size = START + sizes[answer[8]];
    if (size > most) return 0;
    size_t each = answer[8] == OBJECTS ? LISTED : answer[8] == READ || answer[8] == NAME ? 1 : 0;
    size += each ? each * get(answer + START, 4) : 0;
    return size > most ? 0 : size;
}

int hub_is_full_read(const uint8_t *request, const uint8_t *answer) {
    const uint8_t *range = request + START + 4;
    return request[8] == READ && answer[8] == READ && get(answer + START, 4) == get(range + 8, 8) - get(range, 8);
}

/* Counting. */

/* The bytes that the writes of a log record have. */
static uint64_t written_bytes(const uint8_t *record) {
    const uint8_t *op = record + RECORD_HEAD;
    uint64_t written = 0;
    for (uint64_t left = get(record + 20, 2); left; left--) {
        uint64_t count = op[0] == WRITE ? get(op + 13, 4) : op[0] == SET_NAME ? get(op + 1, 4) : 0;
        if (op[0] == WRITE) written += count;
        op += operation_sizes[op[0]] + count;
    }
    return written;
}

/* Counts a transaction that took place. */
static void count_commit(numbers *n, const uint8_t *request, uint8_t came) {
    if (came == TRANSACT) n->commits++;
    if (came == TRANSACT_DURABLY) n->durable_commits++;
    if (came == NOT_DURABLE) n->undurable_commits++;
    n->written_bytes += written_bytes(request + START);
}

void hub_count_answer(hub *h, const uint8_t *request, const uint8_t *answer, uint64_t took) {
    numbers *n = &h->numbers;
    uint8_t call = request[8], came = answer[8];
    const uint8_t *fields = answer + START;
    n->requests[call - 1]++;
    if (call == READ || is_transaction(call))
        hub_count_time(&n->times[call == READ ? TIMED_READ : call == TRANSACT ? TIMED_COMMIT : TIMED_DURABLE], took);
    if (!came && fields[0] >= 1 && fields[0] <= LAST_REFUSAL)
        n->refused_requests[fields[0] - 1]++;
    else if (is_transaction(call) && (is_transaction(came) || came == NOT_DURABLE))
        count_commit(n, request, came);
    else if (call == READ && came == READ)
        n->read_bytes += get(fields, 4);
    else if (call == came && (call == STATUS || call == SYNC))
        hub_notice_synced(h, get(fields, 8));
}

/* Looks at the pool. */

size_t hub_put_look(uint8_t *to, uint64_t number) {
    put(to, number, 8);
    to[8] = STATUS;
    return START;
}

int hub_take_look(hub *h, const uint8_t *answer) {
    const uint8_t *fields = answer + START;
    if (answer[8] != STATUS) return -1;
    h->pool = (topzerad_status){get(fields, 8),      get(fields + 8, 8),  get(fields + 16, 8), get(fields + 24, 8),
                                get(fields + 32, 8), get(fields + 40, 8), get(fields + 48, 8)};
    hub_notice_synced(h, h->pool.synced);
    return 0;
}
