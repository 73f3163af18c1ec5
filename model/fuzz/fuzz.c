/* A libFuzzer target over the library's entries, with the model beside them: number and every lent byte must agree.
 *
 * Each slice that the library gets lies against a page that may not be touched, behind it or, by a bit of the input, before it;
 * what the model leaves lies on the heap. The model is compiled with the fuzzer's counters, so that inputs that take it
 * somewhere new are kept.
 *
 * Input: byte 0 the entry (modulo 4: engine, walk, clock, replies), byte 1 bits (1: leave the check words as they are; 2: pages
 * before). Then
 *   engine: destination, receiving interface, TTL, time (4 each), lengths of output, record, message and recent list (2
 *           each), message, recent list, and the sheet in all that is left;
 *   walk:   start router, receiving interface, destination, TTL (4 each), lengths of output, answer, message and times (2
 *           each), message, times, and the yard in all that is left;
 *   clock:  the length lent (1), r, y and reading (8 each);
 *   replies: two arrival times and a place (4 each), lengths of block, links and first Reply (2 each), that Reply, and the second
 *           in all that is left. */
#define _GNU_SOURCE
#include <servicebough.h>
#include <stdbool.h>
#include <stdio.h>
#include <stdlib.h>
#include <string.h>
#include <sys/mman.h>

uint32_t model_clock_start(uint64_t, uint8_t *, size_t);
uint32_t model_clock_advance(uint64_t, uint64_t, uint64_t, uint8_t *, size_t);
uint64_t model_clock_unix(uint64_t, uint64_t);
uint32_t model_clock_arrival(uint64_t);
uint32_t model_engine_step(const uint8_t *, size_t, uint32_t, uint32_t, uint32_t, uint32_t, const uint8_t *, size_t, uint8_t *,
                           size_t, uint8_t *, size_t, uint8_t *, size_t);
uint32_t model_walk(const uint8_t *, size_t, const uint32_t *, size_t, const uint8_t *, size_t, uint32_t, uint32_t, uint32_t,
                    uint32_t, uint8_t *, size_t, uint8_t *, size_t);
uint32_t model_reply_check(const uint8_t *, size_t);
uint32_t model_reply_next(const uint8_t *, size_t, uint32_t, uint8_t *, size_t);
uint32_t model_reply_loss(const uint8_t *, size_t, const uint8_t *, size_t, uint8_t *, size_t);
int32_t model_arrival_difference(uint32_t, uint32_t);
int LLVMFuzzerTestOneInput(const uint8_t *data, size_t size);

enum { MESSAGE, SHEET, RECENT, OUTPUT, RECORD, AREAS };
#define PAGE 4096
#define AREA (32 * PAGE)

/* ---- the input ---------------------------------------------------------------------------------- */

struct input {
    const uint8_t *at;
    size_t left;
};

static uint64_t number(struct input *in, int bytes)
{
    uint64_t n = 0;
    for (; bytes > 0; bytes--) {
        n = n << 8 | (in->left > 0 ? *in->at : 0);
        if (in->left > 0) {
            in->at++;
            in->left--;
        }
    }
    return n;
}

/* ---- bytes to lend ------------------------------------------------------------------------------- */

/* A slice of `length` bytes that ends, or begins, where a page begins that may not be touched. */
static uint8_t *against_a_page(int area, size_t length, bool before)
{
    static uint8_t *pages[AREAS];
    if (pages[area] == NULL) {
        uint8_t *all = mmap(NULL, AREA + 2 * PAGE, PROT_NONE, MAP_PRIVATE | MAP_ANONYMOUS, -1, 0);
        if (all == MAP_FAILED || mprotect(all + PAGE, AREA, PROT_READ | PROT_WRITE) != 0)
            abort();
        pages[area] = all + PAGE;
    }
    return before ? pages[area] : pages[area] + AREA - length;
}

/* Two alike: one for the library, one for the model. */
struct pair {
    uint8_t *ours, *theirs;
    size_t length;
};

static struct pair lend(int area, struct input *in, size_t length, bool before)
{
    struct pair p = {.ours = against_a_page(area, length, before), .theirs = malloc(length + 1), .length = length};
    size_t there = in == NULL ? 0 : length < in->left ? length : in->left;
    for (size_t i = 0; i < length; i++)
        p.theirs[i] = (uint8_t)(i * 37 + (size_t)area);
    if (there > 0) {
        memcpy(p.theirs, in->at, there);
        in->at += there;
        in->left -= there;
    }
    memcpy(p.ours, p.theirs, length);
    return p;
}

static void alike(const struct pair *p, const char *what)
{
    if (memcmp(p->ours, p->theirs, p->length) != 0) {
        fprintf(stderr, "fuzz: %s differs\n", what);
        abort();
    }
}

/* At the end of a call, when what was lent is needed no longer. */
static void same(struct pair *p, const char *what)
{
    alike(p, what);
    free(p->theirs);
}

static void equal(uint64_t ours, uint64_t theirs, const char *what)
{
    if (ours != theirs) {
        fprintf(stderr, "fuzz: %s: %llu, model %llu\n", what, (unsigned long long)ours, (unsigned long long)theirs);
        abort();
    }
}

/* Right check words for whole blocks. */
static void mend(uint8_t *sheet, size_t length)
{
    for (size_t b = 0; b + BOUGH_SHEET_BLOCK <= length; b += BOUGH_SHEET_BLOCK) {
        uint32_t sum = 0;
        for (size_t at = 0; at < BOUGH_SHEET_CHECK; at += 2)
            sum += (uint32_t)(sheet[b + at] << 8 | sheet[b + at + 1]);
        while (sum > 0xFFFF)
            sum = (sum & 0xFFFF) + (sum >> 16);
        sheet[b + BOUGH_SHEET_CHECK] = (uint8_t)((0xFFFF - sum) >> 8);
        sheet[b + BOUGH_SHEET_CHECK + 1] = (uint8_t)(0xFFFF - sum);
    }
}

/* ---- the entries --------------------------------------------------------------------------------- */

static void engine(struct input *in, bool mended, bool before)
{
    uint32_t destination = (uint32_t)number(in, 4), receiving = (uint32_t)number(in, 4), ttl = (uint32_t)number(in, 4),
             time = (uint32_t)number(in, 4);
    size_t output_len = number(in, 2), record_len = number(in, 2), message_len = number(in, 2), recent_len = number(in, 2);
    struct pair output = lend(OUTPUT, NULL, output_len, before), record = lend(RECORD, NULL, record_len, before);
    struct pair message = lend(MESSAGE, in, message_len, before), recent = lend(RECENT, in, recent_len, before);
    struct pair sheet = lend(SHEET, in, in->left < AREA ? in->left : AREA, before);
    if (mended) {
        mend(sheet.ours, sheet.length);
        mend(sheet.theirs, sheet.length);
    }
    uint32_t ours = bough_engine_step(message.ours, message_len, destination, receiving, ttl, time, sheet.ours, sheet.length,
                                      recent.ours, recent_len, output.ours, output_len, record.ours, record_len);
    uint32_t theirs = model_engine_step(message.theirs, message_len, destination, receiving, ttl, time, sheet.theirs,
                                        sheet.length, recent.theirs, recent_len, output.theirs, output_len, record.theirs,
                                        record_len);
    equal(ours, theirs, "the step's number");
    same(&message, "the message");
    same(&sheet, "the sheet");
    same(&recent, "the recent list");
    same(&output, "the output");
    same(&record, "the record");
}

static void walk(struct input *in, bool mended, bool before)
{
    uint32_t router = (uint32_t)number(in, 4), receiving = (uint32_t)number(in, 4), destination = (uint32_t)number(in, 4),
             ttl = (uint32_t)number(in, 4);
    size_t output_len = number(in, 2), answer_len = number(in, 2), message_len = number(in, 2), times_len = number(in, 2) % 256;
    struct pair output = lend(OUTPUT, NULL, output_len, before), answer = lend(RECORD, NULL, answer_len, before);
    struct pair message = lend(MESSAGE, in, message_len, before), times = lend(RECENT, in, 4 * times_len, before);
    struct pair yard = lend(SHEET, in, in->left < AREA ? in->left : AREA, before);
    if (mended) {
        mend(yard.ours, yard.length);
        mend(yard.theirs, yard.length);
    }
    uint32_t ours = bough_walk(yard.ours, yard.length, (const uint32_t *)(void *)times.ours, times_len, message.ours, message_len,
                               router, receiving, destination, ttl, output.ours, output_len, answer.ours, answer_len);
    uint32_t theirs = model_walk(yard.theirs, yard.length, (const uint32_t *)(void *)times.theirs, times_len, message.theirs,
                                 message_len, router, receiving, destination, ttl, output.theirs, output_len, answer.theirs,
                                 answer_len);
    equal(ours, theirs, "the walk's end");
    same(&message, "the message");
    same(&times, "the times");
    same(&yard, "the yard");
    same(&output, "the output");
    same(&answer, "the answer");
}

static void clock_entries(struct input *in, bool before)
{
    size_t length = number(in, 1);
    uint64_t r = number(in, 8), y = number(in, 8), reading = number(in, 8);
    struct pair out = lend(OUTPUT, NULL, length, before), out2 = lend(RECORD, NULL, length, before);
    equal(bough_clock_start(reading, out.ours, length), model_clock_start(reading, out.theirs, length), "start");
    equal(bough_clock_advance(r, y, reading, out2.ours, length), model_clock_advance(r, y, reading, out2.theirs, length), "advance");
    equal(bough_clock_unix(r, y), model_clock_unix(r, y), "unix");
    equal(bough_clock_arrival(y), model_clock_arrival(y), "arrival");
    same(&out, "what a start handed over");
    same(&out2, "what an advance handed over");
}

static uint32_t checked(const struct pair *reply)
{
    uint32_t refusal = bough_reply_check(reply->ours, reply->length);
    equal(refusal, model_reply_check(reply->theirs, reply->length), "a Reply's check");
    return refusal;
}

static void next_block(const struct pair *reply, uint32_t place, const struct pair *block)
{
    equal(bough_reply_next(reply->ours, reply->length, place, block->ours, block->length),
          model_reply_next(reply->theirs, reply->length, place, block->theirs, block->length), "the place behind a block");
    alike(block, "the block");
}

/* A block is asked for at every place of a Reply that can be read, and a little past its end. */
static void replies(struct input *in, bool before)
{
    uint32_t later = (uint32_t)number(in, 4), earlier = (uint32_t)number(in, 4), place = (uint32_t)number(in, 4);
    size_t block_len = number(in, 2), links_len = number(in, 2), first_len = number(in, 2);
    struct pair block = lend(RECORD, NULL, block_len, before), links = lend(OUTPUT, NULL, links_len, before);
    struct pair first = lend(MESSAGE, in, first_len, before);
    struct pair second = lend(SHEET, in, in->left < AREA ? in->left : AREA, before);
    bool read = checked(&first) == 0;
    checked(&second);
    next_block(&first, place, &block);
    for (uint32_t at = 0; read && at < first_len + 4; at++)
        next_block(&first, at, &block);
    equal(bough_reply_loss(first.ours, first_len, second.ours, second.length, links.ours, links_len),
          model_reply_loss(first.theirs, first_len, second.theirs, second.length, links.theirs, links_len), "the loss's number");
    equal((uint32_t)bough_arrival_difference(later, earlier), (uint32_t)model_arrival_difference(later, earlier), "the difference");
    same(&first, "the first Reply");
    same(&second, "the second Reply");
    same(&block, "the block");
    same(&links, "the links");
}

int LLVMFuzzerTestOneInput(const uint8_t *data, size_t size)
{
    struct input in = {.at = data, .left = size};
    uint64_t entry = number(&in, 1), bits = number(&in, 1);
    if (entry % 4 == 0)
        engine(&in, (bits & 1) == 0, (bits & 2) != 0);
    else if (entry % 4 == 1)
        walk(&in, (bits & 1) == 0, (bits & 2) != 0);
    else if (entry % 4 == 2)
        clock_entries(&in, (bits & 2) != 0);
    else
        replies(&in, (bits & 2) != 0);
    return 0;
}
