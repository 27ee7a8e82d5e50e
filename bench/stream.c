#include "stream.h"
#include "peer.h"

#include <inttypes.h>
#include <stddef.h>
#include <string.h>

enum {
    SHARED_OBJECT = 16, /* all streams write to it, each to a part of its own */
    PART = 1024,        /* bytes of such a part */
    STARTS = 256,       /* places of the text at which a large write may begin */
    FLUSH_EVERY = 8     /* `ztxg load` makes every eighth commit of a stream durable, and waits for it */
};

static uint8_t same[256][LONGEST_SMALL];
static uint8_t text[STARTS - 1 + LONGEST];

static void pcg_step(struct stream *stream) {
    stream->state = stream->state * UINT64_C(6364136223846793005) + stream->increment;
}

static uint32_t pcg_next(struct stream *stream) {
    uint64_t state = stream->state;
    uint32_t shifted = (uint32_t)(((state >> 18) ^ state) >> 27);
    uint32_t turn = (uint32_t)(state >> 59);
    pcg_step(stream);
    return (shifted >> turn) | (shifted << (-turn & 31));
}

struct stream stream_new(const struct load *load, uint32_t number) {
    struct stream stream = {0, ((uint64_t)number << 1) | 1, number, load->length};
    stream.state = load->seed + stream.increment;
    pcg_step(&stream);
    return stream;
}

void streams_begin(const struct load *load) {
    struct stream stream = stream_new(&(struct load){.seed = 0}, 0);
    if (load->length == SMALL)
        for (size_t byte = 0; byte < 256; byte++)
            memset(same[byte], (int)byte, sizeof same[byte]);
    else
        for (size_t i = 0; i < sizeof text; i++)
            text[i] = (uint8_t)pcg_next(&stream);
}

static struct word small_word(uint32_t number, uint32_t drawn) {
    bool is_shared = drawn >= UINT32_C(1) << 31;
    return (struct word){
        .object = is_shared ? SHARED_OBJECT : number,
        .offset = is_shared ? PART * number + drawn % 960 : drawn % 8192,
        .length = 1 + (drawn / 1024) % LONGEST_SMALL,
        .bytes = same[drawn / 65536 % 256],
    };
}

static struct word large_word(uint32_t number, uint32_t length, uint32_t drawn) {
    return (struct word){
        .object = number,
        .offset = drawn % (OBJECT_BYTES / length) * length,
        .length = length,
        .bytes = text + drawn / 65536 % STARTS,
    };
}

struct word stream_word(struct stream *stream) {
    uint32_t drawn = pcg_next(stream);
    return stream->length == SMALL ? small_word(stream->number, drawn)
                                   : large_word(stream->number, stream->length, drawn);
}

bool is_eighth(uint32_t i) { return i % FLUSH_EVERY == FLUSH_EVERY - 1; }

uint32_t object_count(const struct load *load) { return load->length == SMALL ? OBJECTS : STREAMS; }

uint64_t write_count(const struct load *load) { return (uint64_t)STREAMS * load->ops; }

uint32_t longest_of(const struct load *load) { return load->length == SMALL ? LONGEST_SMALL : load->length; }

/* --- Self-test --- */

static void expect_word(struct word word, struct word right) {
    if (word.object != right.object || word.offset != right.offset || word.length != right.length ||
        word.bytes != right.bytes)
        die("self-test: another write of %" PRIu32 " bytes at %" PRIu32, word.length, word.offset);
}

/* The numbers are those that the demo program of the PCG library prints for its state 42 and stream 54. */
void streams_test(void) {
    static const uint32_t right[] = {0xa15c02b7, 0x7b47f409, 0xba1d3330, 0x83d2f293, 0xbfa4784b, 0xcbed606e};
    struct stream stream = stream_new(&(struct load){.seed = 42}, 54);
    for (size_t i = 0; i < sizeof right / sizeof *right; i++) {
        uint32_t drawn = pcg_next(&stream);
        if (drawn != right[i])
            die("self-test: number %zu is %08" PRIx32 ", not %08" PRIx32, i, drawn, right[i]);
    }
    expect_word(small_word(3, 0xa15c02b7), (struct word){SHARED_OBJECT, 3 * PART + 183, 1, same[0x5c]});
    expect_word(small_word(3, 0x7b47f409), (struct word){3, 5129, 62, same[0x47]});
    expect_word(large_word(3, 4096, 0xa15c02b7), (struct word){3, 7 * 4096, 4096, text + 0x5c});
    expect_word(large_word(3, 65000, 0x7b47f409), (struct word){3, 2 * 65000, 65000, text + 0x47});
    if (is_eighth(0) || !is_eighth(7) || is_eighth(8) || !is_eighth(15))
        die("self-test: another word is the eighth");
}
