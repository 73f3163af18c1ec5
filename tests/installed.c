/* Calls each entry of the installed library with another value in every place, and compares all that it leaves byte for byte: if two
 * arguments of one type changed places, in the header or in the library, another answer would come out. */
#include <servicebough.h>
#include <stdio.h>
#include <string.h>

static int failed;

static void expect(int ok, const char *what)
{
    if (!ok) {
        printf("installed: %s\n", what);
        failed = 1;
    }
}

/* Writes a number big-endian, and gives the place behind it. */
static uint8_t *put(uint8_t *at, uint64_t number, int bytes)
{
    for (int i = bytes; i > 0; i--, number >>= 8)
        at[i - 1] = (uint8_t)number;
    return at + bytes;
}

/* ---- clock ---------------------------------------------------------------------------------------- */

static int holds(const uint8_t *out, uint64_t r, uint64_t y)
{
    uint8_t due[BOUGH_CLOCK_SIZE];
    put(put(put(due, r, 8), y, 8), y, 8);
    return memcmp(out, due, sizeof due) == 0;
}

static void clock_entries(void)
{
    static const uint64_t readings[] = {1010, 1000, 1004, 1016, 1024}, issued[] = {1010, 1011, 1013, 1019, 1024};
    uint8_t out[BOUGH_CLOCK_SIZE] = {0};
    uint64_t r = 1000, y = 1000;
    expect(bough_clock_start(r, out, sizeof out - 1) == BOUGH_CLOCK_ROOM, "23 bytes are too few");
    expect(bough_clock_start(BOUGH_CLOCK_LAST + 1, out, sizeof out) == BOUGH_CLOCK_READING, "2^48 is refused");
    expect(holds(out, 0, 0), "a refusal writes nothing");
    expect(bough_clock_start(r, out, sizeof out) == BOUGH_CLOCK_OK && holds(out, r, y), "a start issues its reading");
    for (int i = 0; i < 5; i++) { /* at the third, r, y and reading are three numbers */
        expect(bough_clock_advance(r, y, readings[i], out, sizeof out) == BOUGH_CLOCK_OK && holds(out, readings[i], issued[i]),
               "an advance");
        r = readings[i];
        y = issued[i];
    }
    expect(bough_clock_advance(2, 1, 3, out, sizeof out) == BOUGH_CLOCK_STATE && holds(out, r, y), "y below r is refused");
    expect(bough_clock_advance(2, BOUGH_CLOCK_LAST, 3, out, sizeof out) == BOUGH_CLOCK_READING && holds(out, r, y),
           "a clock that has issued the last time is refused");
    expect(bough_clock_advance(2, BOUGH_CLOCK_LAST - 1, 1, out, sizeof out) == BOUGH_CLOCK_OK && holds(out, 1, BOUGH_CLOCK_LAST),
           "the last time is issued");
    expect(bough_clock_unix(1, 500000000) == (UINT64_C(2208988801) << 16 | 0x8000), "a second and a half of UNIX time");
    expect(bough_clock_unix(0, 1000000000) == 0, "a whole second of nanoseconds is refused");
    expect(bough_clock_arrival(UINT64_C(2208988800) << 16) == 2122317824, "the arrival time of UNIX 0");
}

/* ---- what is lent to a step or a walk ------------------------------------------------------------- */

/* Each part has the most room that any needs, so that one lent for another is written within it, and seen. */
struct lent {
    uint8_t message[BOUGH_ROOM], tables[3 * BOUGH_YARD_SHEET], recent[BOUGH_ROOM], output[BOUGH_ROOM], record[BOUGH_ROOM];
};

/* A router with two interfaces: 0, towards the source, 10.0.FAR.1, with this MTU; 1, towards the receiver, 10.0.NEAR.2, with the
 * least there is, so that room taken from the wrong interface is seen. */
struct router {
    uint8_t near, far;
    uint16_t mtu;
    uint32_t upstream;
};
#define TOWARDS_SOURCE(far) (0x0A000001u | (uint32_t)(far) << 8)
#define TOWARDS_RECEIVER(near) (0x0A000002u | (uint32_t)(near) << 8)
#define GROUP 0xE8010101u /* 232.1.1.1 */
#define CLIENT 0x0A000932u /* 10.0.9.50 */
#define CLIENT_PORT 40000
#define ID 7

static void check(uint8_t *block)
{
    uint32_t sum = 0;
    for (int at = 0; at < BOUGH_SHEET_CHECK; at += 2)
        sum += (uint32_t)(block[at] << 8 | block[at + 1]);
    sum = (sum & 0xFFFF) + (sum >> 16);
    put(block + BOUGH_SHEET_CHECK, 0xFFFF - (sum & 0xFFFF) - (sum >> 16), 2);
}

/* An interface: its TTL threshold is `own`, its counts the next two numbers. */
static void interface(uint8_t *at, uint32_t address, uint8_t own, uint16_t mtu)
{
    put(at + BOUGH_INTERFACE_AT_ADDRESS, address, 4);
    at[BOUGH_INTERFACE_AT_LENGTH] = 24;
    at[BOUGH_INTERFACE_AT_FLAGS] = BOUGH_INTERFACE_MULTICAST;
    at[BOUGH_INTERFACE_AT_TTL] = own;
    put(at + BOUGH_INTERFACE_AT_INPUT_COUNT, own + 1u, 8);
    put(at + BOUGH_INTERFACE_AT_OUTPUT_COUNT, own + 2u, 8);
    put(at + BOUGH_INTERFACE_AT_MTU, mtu, 2);
}

static void sheet(uint8_t *at, struct router router)
{
    uint8_t *routes = at + BOUGH_SHEET_BLOCK, *route = routes + BOUGH_SHEET_ENTRIES;
    memset(at, 0, BOUGH_YARD_SHEET);
    at[BOUGH_SHEET_KIND] = BOUGH_SHEET_INTERFACES;
    at[BOUGH_SHEET_USED] = 2;
    interface(at + BOUGH_SHEET_ENTRIES, TOWARDS_SOURCE(router.far), 11, router.mtu);
    interface(at + BOUGH_SHEET_ENTRIES + BOUGH_INTERFACE_SIZE, TOWARDS_RECEIVER(router.near), 21, BOUGH_MTU_LEAST);
    routes[BOUGH_SHEET_KIND] = BOUGH_SHEET_ROUTES;
    routes[BOUGH_SHEET_USED] = 1;
    put(routes + BOUGH_SHEET_NUMBER, 1, 2);
    route[BOUGH_ROUTE_AT_KIND] = BOUGH_ROUTE_GROUP;
    put(route + BOUGH_ROUTE_AT_GROUP, GROUP, 4);
    put(route + BOUGH_ROUTE_AT_UPSTREAM, router.upstream, 4);
    put(route + BOUGH_ROUTE_AT_INCOMING, 0, 2);
    put(route + BOUGH_ROUTE_AT_PROTOCOL, 31, 2);
    put(route + BOUGH_ROUTE_AT_MULTICAST, 32, 2);
    put(route + BOUGH_ROUTE_AT_PACKETS, 33, 8);
    put(route + BOUGH_ROUTE_AT_FORWARD, 1 << 1, 8); /* to interface 1 */
    check(at);
    check(routes);
}

static uint8_t *header(uint8_t *at, uint8_t type, uint8_t hops)
{
    at = put(put(put(at, type, 1), BOUGH_HEADER_SIZE, 2), hops, 1);
    return put(put(put(put(put(at, GROUP, 4), 0xCB007109, 4), CLIENT, 4), ID, 2), CLIENT_PORT, 2);
}

/* The block due from such a router, of a message that came in on interface 1. */
static uint8_t *block(uint8_t *at, struct router router, uint32_t time)
{
    at = put(put(put(at, BOUGH_TYPE_STANDARD, 1), BOUGH_STANDARD_SIZE, 2), 0, 1);
    at = put(put(put(at, time, 4), TOWARDS_SOURCE(router.far), 4), TOWARDS_RECEIVER(router.near), 4);
    at = put(put(put(put(at, router.upstream, 4), 12, 8), 23, 8), 33, 8);
    return put(put(put(put(at, 31, 2), 32, 2), 21 << 8, 2), 0xFF00 | BOUGH_CODE_NO_ERROR, 2);
}

static const struct router first = {.near = 9, .far = 8, .mtu = 1500, .upstream = TOWARDS_RECEIVER(8)},
                           second = {.near = 8, .far = 7, .mtu = 1500, .upstream = TOWARDS_RECEIVER(7)},
                           last = {.near = 7, .far = 6, .mtu = 1500, .upstream = 0};

/* ---- engine --------------------------------------------------------------------------------------- */

static uint32_t step(struct lent *l, size_t length, uint32_t destination, uint32_t ttl, uint32_t time)
{
    return bough_engine_step(l->message, length, destination, 1, ttl, time, l->tables, BOUGH_YARD_SHEET, l->recent,
                             BOUGH_RECENT_SIZE, l->output, BOUGH_ROOM, l->record, BOUGH_RECORD_SIZE);
}

static void record(uint8_t *at, uint16_t length, uint32_t destination, uint16_t port, uint16_t number, uint32_t source)
{
    put(put(put(put(put(put(at, length, 2), destination, 4), port, 2), number, 2), source, 4), 0, 2);
}

static void engine_entry(void)
{
    static struct lent ours, due;
    memset(&ours, 0xEE, sizeof ours);
    memset(ours.recent, 0, BOUGH_RECENT_SIZE);
    header(ours.message, BOUGH_TYPE_QUERY, 10);
    sheet(ours.tables, first);
    due = ours;
    put(put(put(due.recent, 0x01010000, 4), CLIENT, 4), ID, 2);
    block(header(due.output, BOUGH_TYPE_REQUEST, 10), first, 5);
    record(due.record, 72, first.upstream, BOUGH_PORT, 0, TOWARDS_SOURCE(8));
    expect(step(&ours, BOUGH_HEADER_SIZE, TOWARDS_RECEIVER(9), 64, 5) == BOUGH_SENT_ON, "a Query is sent on");
    expect(memcmp(&ours, &due, sizeof due) == 0, "the Request, its record and the recent list");
    expect(step(&ours, BOUGH_HEADER_SIZE, TOWARDS_RECEIVER(9), 64, 5) == BOUGH_DROP_SEEN, "a Query is answered once");

    /* a TTL tells only of a Request: the one above, at the last router */
    memcpy(ours.message, due.output, 72);
    sheet(ours.tables, last);
    due = ours;
    expect(step(&ours, 72, TOWARDS_RECEIVER(7), 254, 6) == BOUGH_DROP_NEAR, "a Request from afar");
    ours.tables[100]++;
    expect(step(&ours, 72, TOWARDS_RECEIVER(7), 255, 6) == BOUGH_DROP_SHEET, "a damaged sheet");
    ours.tables[100]--;
    expect(memcmp(&ours, &due, sizeof due) == 0, "a drop writes nothing");
    block(block(header(due.output, BOUGH_TYPE_REPLY, 10), first, 5), last, 6);
    record(due.record, 124, CLIENT, CLIENT_PORT, BOUGH_ANY_INTERFACE, TOWARDS_RECEIVER(7));
    expect(step(&ours, 72, TOWARDS_RECEIVER(7), 255, 6) == BOUGH_REPLY, "a Request is replied to");
    expect(memcmp(&ours, &due, sizeof due) == 0, "the Reply and its record");
}

/* A Request that fits the link towards the source with this router's block exactly, then passes it by a byte. */
static void room_of_a_link(void)
{
    static struct lent ours, due;
    struct router small = first;
    memset(&ours, 0xEE, sizeof ours);
    memset(ours.recent, 0, BOUGH_RECENT_SIZE);
    uint8_t *last_block = header(ours.message, BOUGH_TYPE_REQUEST, 255);
    for (uint32_t time = 1; time < 17; time++)
        last_block = block(last_block, second, time);
    size_t length = (size_t)(block(last_block, last, 17) - ours.message), longer = length + BOUGH_STANDARD_SIZE;

    small.mtu = (uint16_t)(longer + BOUGH_IP_UDP_SIZE);
    sheet(ours.tables, small);
    due = ours;
    memcpy(due.output, ours.message, length);
    block(due.output + length, small, 5);
    record(due.record, (uint16_t)longer, small.upstream, BOUGH_PORT, 0, TOWARDS_SOURCE(small.far));
    expect(step(&ours, length, TOWARDS_RECEIVER(small.near), 255, 5) == BOUGH_SENT_ON, "a Request of 956 bytes by an MTU of 984");
    expect(memcmp(&ours, &due, sizeof due) == 0, "the Request that just fits, and its record");

    small.mtu--;
    sheet(ours.tables, small);
    due = ours;
    memcpy(due.output, ours.message, length);
    due.output[0] = BOUGH_TYPE_REPLY;
    due.output[last_block - ours.message + BOUGH_BLOCK_CODE] = BOUGH_CODE_NO_SPACE;
    record(due.record, (uint16_t)length, CLIENT, CLIENT_PORT, BOUGH_ANY_INTERFACE, TOWARDS_RECEIVER(small.near));
    expect(step(&ours, length, TOWARDS_RECEIVER(small.near), 255, 5) == BOUGH_REPLY, "a Request of 904 bytes by an MTU of 983");
    expect(memcmp(&ours, &due, sizeof due) == 0, "the Reply that is full, and its record");
}

/* The last 4 bytes of an interface entry: the least MTU and one less, and the zeros behind it. */
static void mtu_of_a_sheet(void)
{
    static struct lent ours;
    struct router least = first;
    uint8_t *zeros = ours.tables + BOUGH_SHEET_ENTRIES + BOUGH_INTERFACE_AT_ZEROS;
    memset(ours.recent, 0, BOUGH_RECENT_SIZE);
    least.mtu = BOUGH_MTU_LEAST;
    sheet(ours.tables, least);
    expect(step(&ours, 0, 0, 0, 0) == BOUGH_DROP_SIZE, "a sheet with the least MTU");
    put(zeros, 1, 2);
    check(ours.tables);
    expect(step(&ours, 0, 0, 0, 0) == BOUGH_DROP_SHEET, "a sheet with more than zeros behind an MTU");
    least.mtu--;
    sheet(ours.tables, least);
    expect(step(&ours, 0, 0, 0, 0) == BOUGH_DROP_SHEET, "a sheet with an MTU of 575");
}

/* ---- walk ----------------------------------------------------------------------------------------- */

static uint32_t walk(struct lent *l, size_t count)
{
    static const uint32_t times[] = {17, 18, 19};
    return bough_walk(l->tables, sizeof l->tables, times, count, l->message, BOUGH_HEADER_SIZE, 2, 1, TOWARDS_RECEIVER(9), 5,
                      l->output, BOUGH_ROOM, l->record, BOUGH_RECORD_SIZE);
}

/* From router 2 to router 0 and on to router 1, where the walk ends; then that one sends back to the first. */
static void walk_entry(void)
{
    static struct lent ours, due;
    struct router back = last;
    memset(&ours, 0xEE, sizeof ours);
    header(ours.message, BOUGH_TYPE_QUERY, 255);
    sheet(ours.tables, second);
    sheet(ours.tables + BOUGH_YARD_SHEET, last);
    sheet(ours.tables + 2 * BOUGH_YARD_SHEET, first);
    due = ours;
    expect(walk(&ours, 2) == BOUGH_WALK_TIMES && memcmp(&ours, &due, sizeof due) == 0, "two times for three routers");
    block(block(block(header(due.output, BOUGH_TYPE_REPLY, 255), first, 19), second, 17), last, 18);
    put(put(put(put(due.record, BOUGH_REPLY, 4), 3, 4), 3, 4), 176, 4);
    expect(walk(&ours, 3) == BOUGH_REPLY, "a walk to its end");
    expect(memcmp(&ours, &due, sizeof due) == 0, "the Reply of three blocks and the answer");

    back.upstream = TOWARDS_RECEIVER(9);
    sheet(ours.tables + BOUGH_YARD_SHEET, back);
    put(put(put(put(due.record, BOUGH_REPLY, 4), 28, 4), 27, 4), 1424, 4);
    expect(walk(&ours, 3) == BOUGH_REPLY && memcmp(ours.record, due.record, sizeof due.record) == 0, "28 steps in a loop");
    expect(ours.output[BOUGH_HEADER_SIZE + 26 * BOUGH_STANDARD_SIZE + BOUGH_BLOCK_CODE] == BOUGH_CODE_NO_SPACE, "no space");

    back.mtu = BOUGH_MTU_LEAST; /* its router is the third, and every third from there on: it is full at the twelfth */
    sheet(ours.tables + BOUGH_YARD_SHEET, back);
    put(put(put(put(due.record, BOUGH_REPLY, 4), 12, 4), 11, 4), 592, 4);
    expect(walk(&ours, 3) == BOUGH_REPLY && memcmp(ours.record, due.record, sizeof due.record) == 0, "one small link in a loop");
}

/* ---- Replies -------------------------------------------------------------------------------------- */

/* A Reply of 132 bytes: two blocks, the second with these counts, and an Augmented block between them. */
static void reply(uint8_t *at, uint64_t received, uint64_t sent)
{
    uint8_t *one = header(at, BOUGH_TYPE_REPLY, 10), *between = block(one, first, 5), *other = put(between, 0x0500080000020000, 8);
    block(other, last, 6);
    put(one + BOUGH_BLOCK_INPUT_COUNT, received, 8);
    put(other + BOUGH_BLOCK_OUTPUT_COUNT, sent, 8);
}

static void check_entry(void)
{
    uint8_t ours[132];
    reply(ours, 1, 2);
    expect(bough_reply_check(ours, sizeof ours) == BOUGH_READ_OK, "a Reply that can be read");
    expect(bough_reply_check(ours, BOUGH_HEADER_SIZE - 1) == BOUGH_READ_SIZE, "19 bytes");
    expect(bough_reply_check(ours, sizeof ours - 1) == BOUGH_READ_BLOCKS, "a block cut short");
    ours[2]++;
    expect(bough_reply_check(ours, sizeof ours) == BOUGH_READ_HEADER, "a header of 21 bytes");
    ours[0] = BOUGH_TYPE_REQUEST;
    expect(bough_reply_check(ours, sizeof ours) == BOUGH_READ_TYPE, "a Request is not read");
}

static uint32_t next(struct lent *l, uint32_t place, size_t room)
{
    return bough_reply_next(l->message, 132, place, l->record, room);
}

static void next_entry(void)
{
    static struct lent ours, due;
    memset(&ours, 0xEE, sizeof ours);
    reply(ours.message, 1, 2);
    due = ours;
    expect(next(&ours, 21, 60) == 0 && next(&ours, 20, 51) == 0 && next(&ours, 132, 60) == 0, "no block is handed out");
    expect(memcmp(&ours, &due, sizeof due) == 0, "without a block nothing is written");
    memcpy(due.record, due.message + BOUGH_HEADER_SIZE, BOUGH_STANDARD_SIZE);
    expect(next(&ours, BOUGH_HEADER_SIZE, 60) == 72 && memcmp(&ours, &due, sizeof due) == 0, "the first block");
    memcpy(due.record, due.message + 80, BOUGH_STANDARD_SIZE);
    expect(next(&ours, 72, 52) == 132 && memcmp(&ours, &due, sizeof due) == 0, "the second, behind an Augmented one");
}

static uint32_t loss(struct lent *l, size_t first_len, size_t second_len, size_t room)
{
    return bough_reply_loss(l->message, first_len, l->tables, second_len, l->output, room);
}

/* The second Reply has an Augmented block more, so that the two have not one length. */
static void loss_entry(void)
{
    static struct lent ours, due;
    memset(&ours, 0xEE, sizeof ours);
    reply(ours.message, 100, 1000);
    reply(ours.tables, 107, 1010);
    put(ours.tables + 132, 0x0500080000020000, 8);
    due = ours;
    expect(loss(&ours, 132, 140, BOUGH_LINKS_SIZE - 1) == BOUGH_READ_ROOM, "831 bytes are too few");
    expect(loss(&ours, 19, 20, BOUGH_LINKS_SIZE) == BOUGH_READ_SIZE, "the first Reply is tried first");
    expect(loss(&ours, 132, 20, BOUGH_LINKS_SIZE) == BOUGH_READ_BLOCKS, "the second Reply is tried too");
    expect(loss(&ours, 72, 140, BOUGH_LINKS_SIZE) == BOUGH_READ_PATH, "one block and two");
    expect(memcmp(&ours, &due, sizeof due) == 0, "a refusal writes nothing");
    put(put(put(put(due.output, 0, 8), 10, 8), 7, 8), 3, 8);
    expect(loss(&ours, 132, 140, BOUGH_LINKS_SIZE) == BOUGH_READ_OK && memcmp(&ours, &due, sizeof due) == 0, "7 of 10 arrive");

    /* fewer in the second, then more received than sent, then an input count of all ones */
    static const uint64_t counts[][2] = {{107, 999}, {111, 1010}, {BOUGH_NOT_COUNTED, 1010}};
    static const uint8_t verdicts[] = {BOUGH_LINK_FALLEN, BOUGH_LINK_SURPLUS, BOUGH_LINK_NOT_COUNTED};
    for (int i = 0; i < 3; i++) {
        reply(ours.tables, counts[i][0], counts[i][1]);
        memset(due.output, 0, BOUGH_LINK_SIZE);
        due.output[BOUGH_LINK_VERDICT] = verdicts[i];
        expect(loss(&ours, 132, 140, BOUGH_LINKS_SIZE) == BOUGH_READ_OK, "a verdict's number");
        expect(memcmp(ours.output, due.output, sizeof due.output) == 0, "a verdict in place of numbers");
    }
}

static void difference_entry(void)
{
    expect(bough_arrival_difference(7, 5) == 2 && bough_arrival_difference(5, 7) == -2, "later and earlier");
    expect(bough_arrival_difference(1, UINT32_MAX) == 2 && bough_arrival_difference(UINT32_MAX, 1) == -2, "across the wrap");
    expect(bough_arrival_difference(0x80000000, 0) == INT32_MIN && bough_arrival_difference(0x7FFFFFFF, 0) == INT32_MAX,
           "both ends");
}

int main(void)
{
    clock_entries();
    engine_entry();
    room_of_a_link();
    mtu_of_a_sheet();
    walk_entry();
    check_entry();
    next_entry();
    loss_entry();
    difference_entry();
    printf("installed: %s\n", failed ? "failed" : "ok");
    return failed;
}
