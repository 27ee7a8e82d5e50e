/* Counting: the hub's numbers. */
#include "hub.h"

void hub_begin_counting(hub *h) {
    static const uint64_t default_limit = 4194304; /* of `ztxg serve` */
    h->began = topzerad_now();
    h->first_synced = topzerad_opened(&h->server.pool).group;
    h->numbers.dirty_limit = default_limit;
    /* The server has the option, so it is a number. */
    if (h->options.dirty && hub_read_bytes(h->options.dirty, &h->numbers.dirty_limit)) h->numbers.dirty_limit = 0;
}

void hub_notice_synced(hub *h, uint64_t group) {
    uint64_t count = group > h->first_synced ? group - h->first_synced : 0;
    if (count > h->numbers.syncs) h->numbers.syncs = count;
}

const numbers *hub_tell_numbers(hub *h) {
    h->numbers.age = topzerad_now() - h->began;
    h->numbers.clients = h->count;
    h->numbers.waiting_frames = 0;
    for (size_t i = 0; i < h->options.most; i++) {
        stage stage = h->clients[i].stage;
        h->numbers.waiting_frames += stage == WAITING || stage == ASKED;
    }
    return &h->numbers;
}
