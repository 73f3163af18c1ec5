/* An Mtrace2 client: sends Queries, prints all that each Reply carries, and what was lost between one Reply and the next.
 *
 *     trace [-p PORT] [-h HOPS] [-t SECONDS] [-n COUNT] [-w SECONDS] [-g GROUP] [-s SOURCE] [-c CLIENT] [-i ID] ROUTER
 *
 * ROUTER is the last-hop router's address, or 224.0.0.2 (then CLIENT says by which interface). GROUP or SOURCE left out
 * means none. CLIENT is this machine's address that the Reply goes to; the one that leads to ROUTER if it is left out.
 * -n asks for COUNT traces (1), with a pause of -w seconds (10) between them. Each has a query id of its own, the first ID,
 * and waits up to -t seconds (10) for its Reply.
 *
 * Of each block: addresses and code; arrival time in seconds (they wrap at 65536), and how much later that is than the block
 * before; counts; protocols by number and name (IANAipRouteProtocol, IANAipMRouteProtocol); TTL, S and mask. From the second
 * Reply on: for each link, from the router nearer to the source, lost/sent since the Reply before, or why it is not known.
 *
 * Exit status, the first that applies of: 2 bad arguments, or something could not be done: a sentence says what; 1 a trace had no
 * Reply in time; 3 a trace ended before its end (the source's first router, or the RP); 4 two Replies were not over one path, so
 * that no loss is known between them; 0 all traces came to their end. */
#define _GNU_SOURCE
#include <arpa/inet.h>
#include <errno.h>
#include <inttypes.h>
#include <netinet/in.h>
#include <poll.h>
#include <stdbool.h>
#include <stdio.h>
#include <stdlib.h>
#include <string.h>
#include <sys/socket.h>
#include <time.h>
#include <unistd.h>

#include "bytes.h"
#include <servicebough.h>

enum { ENDED = 0, NO_REPLY = 1, FAILED = 2, SHORT = 3, OTHER_PATH = 4 };

#define UNITS 65536.0 /* of an arrival time in a second */
#define COUNT_TEXT 21 /* room for a count in words or digits */

/* What is asked for. */
struct query {
    uint32_t router, group, source, client;
    uint16_t port, id;
    uint8_t hops;
    unsigned seconds, count, pause;
};

/* A Standard Response Block, its zero fields left out. */
struct block {
    uint32_t arrival, incoming, outgoing, upstream;
    uint64_t input, output, total;
    uint16_t protocol, multicast;
    uint8_t ttl, mask, code;
    bool s;
};

/* A Reply as it came, with its blocks. It has room for one byte more than a Reply may have, so that a longer one is refused. */
struct reply {
    uint8_t bytes[BOUGH_ROOM + 1];
    size_t length;
    struct block blocks[BOUGH_BLOCKS_MOST];
    size_t count;
    unsigned trace;
    double asked, took; /* seconds: when the Query was sent, and the time since then */
};

/* ---- words -------------------------------------------------------------------------------------- */

static const char *dotted(uint32_t address, char text[INET_ADDRSTRLEN])
{
    struct in_addr in = {.s_addr = htonl(address)};
    inet_ntop(AF_INET, &in, text, INET_ADDRSTRLEN);
    return text;
}

static const char *dotted_or_none(uint32_t address, char text[INET_ADDRSTRLEN])
{
    return address == BOUGH_ALL_ONES ? "none" : dotted(address, text);
}

static const char *counted(uint64_t count, char text[COUNT_TEXT])
{
    snprintf(text, COUNT_TEXT, "%" PRIu64, count);
    return count == BOUGH_NOT_COUNTED ? "not counted" : text;
}

static const char *name_in(const char *const names[], size_t count, size_t number)
{
    return number < count ? names[number] : "unknown";
}

static const char *protocol_name(uint16_t number)
{
    static const char *const names[] = {
        "not known", "other", "local",     "netmgmt",   "icmp", "egp", "ggp",  "hello",      "rip",
        "isIs",      "esIs",  "ciscoIgrp", "bbnSpfIgp", "ospf", "bgp", "idpr", "ciscoEigrp", "dvmrp",
    };
    return name_in(names, sizeof names / sizeof *names, number);
}

static const char *multicast_name(uint16_t number)
{
    static const char *const names[] = {
        "not known", "other",         "local",        "netmgmt",  "dvmrp", "mospf", "pimSparseDense",
        "cbt",       "pimSparseMode", "pimDenseMode", "igmpOnly", "bgmp",  "msdp",
    };
    return name_in(names, sizeof names / sizeof *names, number);
}

static const char *verdict_name(uint8_t number)
{
    static const char *const names[] = {"counted", "not counted", "fallen", "surplus"};
    return name_in(names, sizeof names / sizeof *names, number);
}

static const char *code_name(uint8_t code)
{
    switch (code) {
    case BOUGH_CODE_NO_ERROR: return "NO_ERROR";
    case BOUGH_CODE_WRONG_IF: return "WRONG_IF";
    case BOUGH_CODE_PRUNE_SENT: return "PRUNE_SENT";
    case BOUGH_CODE_PRUNE_RCVD: return "PRUNE_RCVD";
    case BOUGH_CODE_SCOPED: return "SCOPED";
    case BOUGH_CODE_NO_ROUTE: return "NO_ROUTE";
    case BOUGH_CODE_WRONG_LAST_HOP: return "WRONG_LAST_HOP";
    case BOUGH_CODE_NOT_FORWARDING: return "NOT_FORWARDING";
    case BOUGH_CODE_REACHED_RP: return "REACHED_RP";
    case BOUGH_CODE_RPF_IF: return "RPF_IF";
    case BOUGH_CODE_NO_MULTICAST: return "NO_MULTICAST";
    case BOUGH_CODE_INFO_HIDDEN: return "INFO_HIDDEN";
    case BOUGH_CODE_REACHED_GW: return "REACHED_GW";
    case BOUGH_CODE_UNKNOWN_QUERY: return "UNKNOWN_QUERY";
    case BOUGH_CODE_FATAL_ERROR: return "FATAL_ERROR";
    case BOUGH_CODE_NO_SPACE: return "NO_SPACE";
    case BOUGH_CODE_ADMIN_PROHIB: return "ADMIN_PROHIB";
    default: return "unknown";
    }
}

static const char *refusal(uint32_t number)
{
    switch (number) {
    case BOUGH_READ_SIZE: return "its length is not 20 to 1472 bytes";
    case BOUGH_READ_TYPE: return "it is not a Reply";
    case BOUGH_READ_HEADER: return "its header's length is not 20";
    case BOUGH_READ_BLOCKS: return "its blocks are malformed";
    case BOUGH_READ_PATH: return "the two Replies are not over one path";
    default: return "for a reason that is not known here";
    }
}

/* ---- a Reply ------------------------------------------------------------------------------------ */

static struct block block_of(const uint8_t bytes[BOUGH_STANDARD_SIZE])
{
    return (struct block){
        .arrival = get32(bytes + BOUGH_BLOCK_ARRIVAL),
        .incoming = get32(bytes + BOUGH_BLOCK_INCOMING),
        .outgoing = get32(bytes + BOUGH_BLOCK_OUTGOING),
        .upstream = get32(bytes + BOUGH_BLOCK_UPSTREAM),
        .input = get64(bytes + BOUGH_BLOCK_INPUT_COUNT),
        .output = get64(bytes + BOUGH_BLOCK_OUTPUT_COUNT),
        .total = get64(bytes + BOUGH_BLOCK_TOTAL_COUNT),
        .protocol = get16(bytes + BOUGH_BLOCK_PROTOCOL),
        .multicast = get16(bytes + BOUGH_BLOCK_MULTICAST),
        .ttl = bytes[BOUGH_BLOCK_TTL],
        .s = (bytes[BOUGH_BLOCK_MASK] & BOUGH_S_BIT) != 0,
        .mask = bytes[BOUGH_BLOCK_MASK] % BOUGH_S_BIT,
        .code = bytes[BOUGH_BLOCK_CODE],
    };
}

static void read_blocks(struct reply *reply)
{
    uint8_t bytes[BOUGH_STANDARD_SIZE];
    uint32_t place = BOUGH_HEADER_SIZE;
    for (reply->count = 0; reply->count < BOUGH_BLOCKS_MOST; reply->count++) {
        place = bough_reply_next(reply->bytes, reply->length, place, bytes, sizeof bytes);
        if (place == 0)
            break;
        reply->blocks[reply->count] = block_of(bytes);
    }
}

static void print_header(const struct reply *reply)
{
    const uint8_t *header = reply->bytes;
    char group[INET_ADDRSTRLEN], source[INET_ADDRSTRLEN], client[INET_ADDRSTRLEN];
    size_t augmented = reply->length - BOUGH_HEADER_SIZE - reply->count * BOUGH_STANDARD_SIZE;
    printf("trace %u: Reply after %.3f ms: %zu bytes, blocks %zu", reply->trace, reply->took * 1000, reply->length,
           reply->count);
    if (augmented != 0)
        printf(", and %zu bytes of Augmented blocks", augmented);
    printf("\n  type %u, hops %u, group %s, source %s, client %s, id %u, port %u\n", header[0], header[BOUGH_HEADER_HOPS],
           dotted_or_none(get32(header + BOUGH_HEADER_GROUP), group), dotted_or_none(get32(header + BOUGH_HEADER_SOURCE), source),
           dotted(get32(header + BOUGH_HEADER_CLIENT), client), get16(header + BOUGH_HEADER_ID), get16(header + BOUGH_HEADER_PORT));
}

/* Prints a block; `before` is the one before it, or NULL for the first. */
static void print_block(size_t number, const struct block *block, const struct block *before)
{
    char out[INET_ADDRSTRLEN], in[INET_ADDRSTRLEN], up[INET_ADDRSTRLEN];
    char input[COUNT_TEXT], output[COUNT_TEXT], total[COUNT_TEXT];
    printf("%zu out %s in %s up %s code %u %s\n", number, dotted(block->outgoing, out), dotted(block->incoming, in),
           dotted(block->upstream, up), block->code, code_name(block->code));
    printf("  arrival %.6f s", block->arrival / UNITS);
    if (before != NULL)
        printf(", %+.3f ms from %zu", bough_arrival_difference(block->arrival, before->arrival) / UNITS * 1000, number - 1);
    printf("\n  packets: input %s, output %s, total %s\n", counted(block->input, input), counted(block->output, output),
           counted(block->total, total));
    printf("  protocol %u %s, multicast %u %s, TTL %u, S %d, mask %u%s\n", block->protocol, protocol_name(block->protocol),
           block->multicast, multicast_name(block->multicast), block->ttl, block->s, block->mask,
           block->mask == BOUGH_MASK_GROUP ? " group state" : "");
}

/* Whether a path ends with a block: the source's first router (an incoming interface, and nobody upstream) without an error, or
 * the RP. */
static bool is_end(const struct block *block)
{
    bool source = block->incoming != 0 && block->upstream == 0 && block->code < BOUGH_CODE_FATAL_ERROR;
    return source || block->code == BOUGH_CODE_REACHED_RP;
}

/* Prints a Reply. ENDED if its last block is its path's end. */
static int print_reply(const struct reply *reply)
{
    const struct block *before = NULL;
    print_header(reply);
    for (size_t k = 0; k < reply->count; k++) {
        print_block(k + 1, reply->blocks + k, before);
        before = reply->blocks + k;
    }
    return before != NULL && is_end(before) ? ENDED : SHORT;
}

/* Prints the loss of each link between two Replies, each with the addresses at its ends. Both were checked, so that another path
 * is all that they can be refused for. */
static int print_loss(const struct reply *first, const struct reply *second)
{
    uint8_t links[BOUGH_LINKS_SIZE];
    uint32_t number = bough_reply_loss(first->bytes, first->length, second->bytes, second->length, links, sizeof links);
    printf("loss from trace %u to trace %u:", first->trace, second->trace);
    if (number != BOUGH_READ_OK) {
        printf(" not known: %s\n", refusal(number));
        return OTHER_PATH;
    }
    puts(second->count == 1 ? " there is no link" : "");
    for (size_t k = 0; k + 1 < second->count; k++) {
        const uint8_t *link = links + k * BOUGH_LINK_SIZE;
        const struct block *near = second->blocks + k, *far = near + 1;
        char from[INET_ADDRSTRLEN], to[INET_ADDRSTRLEN];
        printf("  %zu to %zu, %s to %s: ", k + 2, k + 1, dotted(far->outgoing, from), dotted(near->incoming, to));
        if (link[BOUGH_LINK_VERDICT] == BOUGH_LINK_COUNTED)
            printf("%" PRIu64 "/%" PRIu64 "\n", get64(link + BOUGH_LINK_LOST), get64(link + BOUGH_LINK_SENT));
        else
            puts(verdict_name(link[BOUGH_LINK_VERDICT]));
    }
    return ENDED;
}

/* ---- a trace ------------------------------------------------------------------------------------ */

/* Says what could not be done, and why. */
static int failed(const char *what)
{
    fprintf(stderr, "trace: %s: %s\n", what, strerror(errno));
    return FAILED;
}

/* This machine's address on the way to the router. */
static bool own_address(struct query *query)
{
    struct sockaddr_in to = {.sin_family = AF_INET, .sin_port = htons(query->port)}, own = {0};
    socklen_t length = sizeof own;
    int s = socket(AF_INET, SOCK_DGRAM | SOCK_CLOEXEC, 0);
    to.sin_addr.s_addr = htonl(query->router);
    bool ok = s >= 0 && connect(s, (struct sockaddr *)&to, sizeof to) == 0
              && getsockname(s, (struct sockaddr *)&own, &length) == 0;
    int why = errno;
    if (s >= 0)
        close(s);
    errno = why;
    query->client = ntohl(own.sin_addr.s_addr);
    return ok;
}

/* Opens the client's socket; `port` is the one that Replies come to. To 224.0.0.2 Linux sends by the interface whose address the
 * socket is bound to. */
static int open_socket(uint32_t client, uint16_t *port)
{
    struct sockaddr_in own = {.sin_family = AF_INET};
    socklen_t length = sizeof own;
    int s = socket(AF_INET, SOCK_DGRAM | SOCK_CLOEXEC, 0);
    own.sin_addr.s_addr = htonl(client);
    if (s < 0 || bind(s, (struct sockaddr *)&own, sizeof own) != 0 || getsockname(s, (struct sockaddr *)&own, &length) != 0)
        return -1;
    *port = ntohs(own.sin_port);
    return s;
}

/* The Query of a trace, numbered from 1. */
static void make_query(const struct query *query, unsigned trace, uint16_t port, uint8_t made[BOUGH_HEADER_SIZE])
{
    memset(made, 0, BOUGH_HEADER_SIZE);
    made[0] = BOUGH_TYPE_QUERY;
    put16(made + 1, BOUGH_HEADER_SIZE);
    made[BOUGH_HEADER_HOPS] = query->hops;
    put32(made + BOUGH_HEADER_GROUP, query->group);
    put32(made + BOUGH_HEADER_SOURCE, query->source);
    put32(made + BOUGH_HEADER_CLIENT, query->client);
    put16(made + BOUGH_HEADER_ID, (uint16_t)(query->id + trace - 1));
    put16(made + BOUGH_HEADER_PORT, port);
}

static bool send_query(int s, const struct query *query, const uint8_t made[BOUGH_HEADER_SIZE])
{
    struct sockaddr_in to = {.sin_family = AF_INET, .sin_port = htons(query->port)};
    to.sin_addr.s_addr = htonl(query->router);
    return sendto(s, made, BOUGH_HEADER_SIZE, 0, (struct sockaddr *)&to, sizeof to) == BOUGH_HEADER_SIZE;
}

static double seconds_now(void)
{
    struct timespec now;
    clock_gettime(CLOCK_MONOTONIC, &now);
    return (double)now.tv_sec + (double)now.tv_nsec / 1e9;
}

/* Whether a datagram answers a Query: the same header but for its type and length. */
static bool answers(const struct reply *reply, const uint8_t made[BOUGH_HEADER_SIZE])
{
    return reply->length >= BOUGH_HEADER_SIZE
           && memcmp(reply->bytes + BOUGH_HEADER_HOPS, made + BOUGH_HEADER_HOPS, BOUGH_HEADER_SIZE - BOUGH_HEADER_HOPS) == 0;
}

/* Receives a datagram within some seconds: 1 if one came, 0 if none did, -1 if none can. */
static int receive(int s, double seconds, struct reply *reply)
{
    struct pollfd ready = {.fd = s, .events = POLLIN};
    int polled = poll(&ready, 1, (int)(seconds * 1000) + 1);
    if (polled == 0)
        return 0;
    ssize_t length = polled < 0 ? -1 : recv(s, reply->bytes, sizeof reply->bytes, MSG_DONTWAIT);
    if (length < 0)
        return errno == EINTR || errno == EAGAIN ? 0 : -1;
    reply->length = (size_t)length;
    return 1;
}

/* Waits for the Reply to the Query `made`; what is not it is passed over, and told of if it looks like it. */
static int wait_for_reply(int s, unsigned seconds, const uint8_t made[BOUGH_HEADER_SIZE], struct reply *reply)
{
    uint32_t refused = BOUGH_READ_OK;
    unsigned passed = 0;
    bool found = false;
    for (double left = seconds; !found && left > 0; left = reply->asked + seconds - seconds_now()) {
        int received = receive(s, left, reply);
        if (received < 0)
            return failed("nothing can be received");
        if (received == 0 || !answers(reply, made))
            continue;
        reply->took = seconds_now() - reply->asked;
        uint32_t number = bough_reply_check(reply->bytes, reply->length);
        found = number == BOUGH_READ_OK;
        if (!found) {
            refused = number;
            passed++;
        }
    }
    if (passed != 0)
        fprintf(stderr, "trace: what looked like the Reply was passed over, %u times; the last was refused by %" PRIu32 ": %s\n",
                passed, refused, refusal(refused));
    return found ? ENDED : NO_REPLY;
}

/* Sends the Query of a trace, and prints the Reply. */
static int trace_once(int s, const struct query *query, uint16_t port, struct reply *reply)
{
    uint8_t made[BOUGH_HEADER_SIZE];
    make_query(query, reply->trace, port, made);
    reply->asked = seconds_now();
    if (!send_query(s, query, made))
        return failed("the Query is not sent");
    int end = wait_for_reply(s, query->seconds, made, reply);
    if (end == NO_REPLY)
        printf("trace %u: no reply in %u s\n", reply->trace, query->seconds);
    if (end != ENDED)
        return end;
    read_blocks(reply);
    return print_reply(reply);
}

/* Of two statuses the one that comes first in the list at the head of this file. */
static int worse(int one, int other)
{
    static const int order[] = {[ENDED] = 0, [OTHER_PATH] = 1, [SHORT] = 2, [NO_REPLY] = 3, [FAILED] = 4};
    return order[one] > order[other] ? one : other;
}

/* Makes the traces one after the other, and compares each Reply with the one before it. */
static int trace_all(int s, const struct query *query, uint16_t port)
{
    static struct reply replies[2];
    struct reply *now = replies, *before = replies + 1;
    int status = ENDED;
    for (unsigned trace = 1; trace <= query->count && status != FAILED; trace++) {
        if (trace > 1)
            for (unsigned left = query->pause; left > 0;)
                left = sleep(left);
        now->trace = trace;
        int end = trace_once(s, query, port, now);
        status = worse(status, end);
        if (end == ENDED || end == SHORT) {
            if (before->length != 0)
                status = worse(status, print_loss(before, now));
            struct reply *old = before;
            before = now;
            now = old;
        }
        if (fflush(stdout) != 0 || ferror(stdout))
            return failed("nothing can be printed");
    }
    return status;
}

/* ---- arguments ---------------------------------------------------------------------------------- */

static bool address_from(const char *text, uint32_t *address)
{
    struct in_addr in;
    if (inet_pton(AF_INET, text, &in) != 1)
        return false;
    *address = ntohl(in.s_addr);
    return true;
}

static bool number_from(const char *text, unsigned least, unsigned most, unsigned *n)
{
    char *end;
    errno = 0;
    unsigned long value = strtoul(text, &end, 10);
    *n = (unsigned)value;
    return errno == 0 && *end == '\0' && text[0] >= '0' && text[0] <= '9' && value >= least && value <= most;
}

static bool is_multicast(uint32_t address)
{
    return address >> 28 == 14;
}

static bool is_unicast(uint32_t address)
{
    uint32_t first = address >> 24;
    return first >= 1 && first <= 223 && first != 127;
}

static bool option_taken(int option, struct query *query)
{
    unsigned n = 0;
    bool ok = false;
    switch (option) {
    case 'p': ok = number_from(optarg, 1, 65535, &n), query->port = (uint16_t)n; break;
    case 'h': ok = number_from(optarg, 1, 255, &n), query->hops = (uint8_t)n; break;
    case 't': ok = number_from(optarg, 1, 3600, &n), query->seconds = n; break;
    case 'n': ok = number_from(optarg, 1, 65535, &n), query->count = n; break;
    case 'w': ok = number_from(optarg, 0, 86400, &n), query->pause = n; break;
    case 'i': ok = number_from(optarg, 0, 65535, &n), query->id = (uint16_t)n; break;
    case 'g': ok = address_from(optarg, &query->group) && is_multicast(query->group); break;
    case 's': ok = address_from(optarg, &query->source) && is_unicast(query->source); break;
    case 'c': ok = address_from(optarg, &query->client) && is_unicast(query->client); break;
    default: return false; /* getopt has said why */
    }
    if (!ok)
        fprintf(stderr, "trace: -%c cannot be '%s'\n", option, optarg);
    return ok;
}

static bool arguments_taken(int argc, char **argv, struct query *query)
{
    int option;
    while ((option = getopt(argc, argv, "p:h:t:n:w:g:s:c:i:")) != -1)
        if (!option_taken(option, query))
            return false;
    if (optind + 1 != argc || !address_from(argv[optind], &query->router)) {
        fprintf(stderr, "trace: one ROUTER is needed, as an address\n");
        return false;
    }
    if (query->group == BOUGH_ALL_ONES && query->source == BOUGH_ALL_ONES) {
        fprintf(stderr, "trace: a GROUP, a SOURCE or both are needed\n");
        return false;
    }
    return true;
}

int main(int argc, char **argv)
{
    struct query query = {.group = BOUGH_ALL_ONES, .source = BOUGH_ALL_ONES, .port = BOUGH_PORT, .hops = 32, .seconds = 10,
                          .count = 1, .pause = 10};
    struct timespec now;
    uint16_t port = 0;
    clock_gettime(CLOCK_REALTIME, &now);
    query.id = (uint16_t)(now.tv_nsec / 1000 ^ getpid());
    if (!arguments_taken(argc, argv, &query)) {
        fprintf(stderr, "usage: trace [-p PORT] [-h HOPS] [-t SECONDS] [-n COUNT] [-w SECONDS] [-g GROUP] [-s SOURCE] "
                        "[-c CLIENT] [-i ID] ROUTER\n");
        return FAILED;
    }
    if (query.client == 0 && !own_address(&query))
        return failed("there is no way to the router");
    if (!is_unicast(query.client)) {
        fprintf(stderr, "trace: no Reply could come to this machine's address on the way to the router: -c names another\n");
        return FAILED;
    }
    int s = open_socket(query.client, &port);
    return s < 0 ? failed("there is no socket for the Reply") : trace_all(s, &query, port);
}
