/* A router's Mtrace2 host over libservicebough, on real UDP sockets (Linux, IPv4).
 *
 *     host [-p PORT] [-n PACKETS] SHEET
 *
 * Reads the router's tables from the file SHEET, matches their interfaces to the kernel's by address, warns
 * where an MTU of the sheet is larger than the kernel's, and answers what comes in on PORT (33435). Counts each
 * drop number, and prints the counts on SIGINT or SIGTERM, or after PACKETS datagrams. SIGHUP reads SHEET anew.
 * While the machine's time is out of range it answers nothing, and it ends when its clock has issued the last
 * time there is.
 * Exit status: 0 ended as asked, 1 anything that it could not do, 2 bad arguments. */
#define _GNU_SOURCE
#include <arpa/inet.h>
#include <errno.h>
#include <ifaddrs.h>
#include <net/if.h>
#include <netinet/in.h>
#include <poll.h>
#include <signal.h>
#include <stdbool.h>
#include <stdio.h>
#include <stdlib.h>
#include <string.h>
#include <sys/ioctl.h>
#include <sys/socket.h>
#include <time.h>
#include <unistd.h>

#include "bytes.h"
#include <servicebough.h>

#define SHEET_MOST (BOUGH_SHEET_BLOCK * BOUGH_SHEET_BLOCKS_MOST)

/* An interface of the sheet, and the kernel's index for it. */
struct interface {
    uint32_t address;
    uint16_t mtu;
    uint8_t prefix;
    bool multicast;
    unsigned index;
};

/* The router's tables, and what of them the host itself looks at. */
struct router {
    uint8_t sheet[SHEET_MOST];
    size_t sheet_len;
    struct interface interfaces[BOUGH_INTERFACES_MOST];
    size_t count;
};

/* The last reading of the machine's time, and the last time issued. */
struct clock {
    uint64_t r, y;
};

/* What the host keeps from one datagram to the next. */
struct host {
    struct router router;
    uint8_t recent[BOUGH_RECENT_SIZE];
    struct clock clock;
    bool timeless; /* the last reading was refused */
    int socket;
    uint64_t received, sent_on, replies, unsent, untimed;
    uint64_t dropped[BOUGH_DROP_LAST + 1];
};

/* A datagram as it came in. */
struct arrival {
    size_t length;
    uint32_t destination, sender, interface, ttl, time;
};

static const char *const drop_names[BOUGH_DROP_LAST + 1] = {
    "",      "ROOM",   "STATE", "SHEET",  "IFACE",  "SIZE", "TYPE", "HEADER", "HOPS",    "GROUP",
    "SOURCE", "PAIR",  "CLIENT", "BLOCKS", "DEST",  "NEAR", "COUNT", "SEEN",   "LASTHOP",
};

static volatile sig_atomic_t stop, reload;

static void on_signal(int number)
{
    if (number == SIGHUP)
        reload = 1;
    else
        stop = 1;
}

static const char *dotted(uint32_t address, char text[INET_ADDRSTRLEN])
{
    struct in_addr in = {.s_addr = htonl(address)};
    inet_ntop(AF_INET, &in, text, INET_ADDRSTRLEN);
    return text;
}

/* ---- the sheet ---------------------------------------------------------------------------------- */

/* Whether the engine takes a sheet: an empty message is dropped as such only where the sheet is valid. */
static bool sheet_is_valid(const uint8_t *sheet, size_t length)
{
    uint8_t recent[BOUGH_RECENT_SIZE] = {0}, output[BOUGH_ROOM], record[BOUGH_RECORD_SIZE];
    return bough_engine_step(NULL, 0, 0, 0, 0, 0, sheet, length, recent, sizeof recent, output, sizeof output,
                             record, sizeof record) != BOUGH_DROP_SHEET;
}

/* Takes the interfaces out of a valid sheet. */
static void read_interfaces(struct router *router)
{
    router->count = 0;
    for (size_t b = 0; b < router->sheet_len / BOUGH_SHEET_BLOCK; b++) {
        const uint8_t *block = router->sheet + b * BOUGH_SHEET_BLOCK;
        if (block[BOUGH_SHEET_KIND] != BOUGH_SHEET_INTERFACES)
            break;
        for (size_t j = 0; j < block[BOUGH_SHEET_USED]; j++) {
            const uint8_t *entry = block + BOUGH_SHEET_ENTRIES + j * BOUGH_INTERFACE_SIZE;
            router->interfaces[router->count++] = (struct interface){
                .address = get32(entry + BOUGH_INTERFACE_AT_ADDRESS),
                .mtu = get16(entry + BOUGH_INTERFACE_AT_MTU),
                .prefix = entry[BOUGH_INTERFACE_AT_LENGTH],
                .multicast = entry[BOUGH_INTERFACE_AT_FLAGS] & BOUGH_INTERFACE_MULTICAST,
            };
        }
    }
}

/* Finds the kernel's index of each interface by its address. */
static bool match_interfaces(struct router *router)
{
    struct ifaddrs *all;
    if (getifaddrs(&all) != 0) {
        perror("host: the machine's interfaces");
        return false;
    }
    for (struct ifaddrs *here = all; here != NULL; here = here->ifa_next) {
        if (here->ifa_addr == NULL || here->ifa_addr->sa_family != AF_INET)
            continue;
        struct sockaddr_in in;
        memcpy(&in, here->ifa_addr, sizeof in);
        for (size_t i = 0; i < router->count; i++)
            if (router->interfaces[i].address == ntohl(in.sin_addr.s_addr))
                router->interfaces[i].index = if_nametoindex(here->ifa_name);
    }
    freeifaddrs(all);
    for (size_t i = 0; i < router->count; i++) {
        if (router->interfaces[i].index == 0) {
            char text[INET_ADDRSTRLEN];
            fprintf(stderr, "host: no interface of this machine has the address %s (interface %zu of the sheet)\n",
                    dotted(router->interfaces[i].address, text), i);
            return false;
        }
    }
    return true;
}

/* Warns where the sheet tells of more room than the kernel has on an interface. `s`: any socket. */
static bool compare_mtu(int s, size_t number, const struct interface *here)
{
    struct ifreq kernel = {0};
    if (if_indextoname(here->index, kernel.ifr_name) == NULL || ioctl(s, SIOCGIFMTU, &kernel) != 0)
        return false;
    if (here->mtu > kernel.ifr_mtu) {
        char text[INET_ADDRSTRLEN];
        fprintf(stderr,
                "host: the MTU of %s (interface %zu of the sheet) is %u in the sheet and %d in the kernel: "
                "what is longer is not sent on\n",
                dotted(here->address, text), number, here->mtu, kernel.ifr_mtu);
    }
    return true;
}

static bool compare_mtus(const struct router *router)
{
    int s = socket(AF_INET, SOCK_DGRAM | SOCK_CLOEXEC, 0);
    bool compared = s >= 0;
    for (size_t i = 0; compared && i < router->count; i++)
        compared = compare_mtu(s, i, &router->interfaces[i]);
    if (!compared)
        perror("host: the MTUs of the machine's interfaces");
    if (s >= 0)
        close(s);
    return compared;
}

static bool read_sheet(const char *name, struct router *router)
{
    FILE *file = fopen(name, "rb");
    if (file == NULL) {
        fprintf(stderr, "host: %s: %s\n", name, strerror(errno));
        return false;
    }
    router->sheet_len = fread(router->sheet, 1, sizeof router->sheet, file);
    bool whole = ferror(file) == 0 && fgetc(file) == EOF;
    fclose(file);
    if (!whole || !sheet_is_valid(router->sheet, router->sheet_len)) {
        fprintf(stderr, "host: %s: the sheet is refused: its %zu bytes%s break a rule of a sheet (drop number %d)\n", name,
                router->sheet_len, whole ? "" : " and more", BOUGH_DROP_SHEET);
        return false;
    }
    read_interfaces(router);
    return match_interfaces(router) && compare_mtus(router);
}

/* The number in the sheet of the interface that a datagram came in on: with several addresses on it, the one
 * whose subnet the sender is in. */
static uint32_t interface_number(const struct router *router, unsigned index, uint32_t sender)
{
    uint32_t found = UINT32_MAX;
    for (size_t i = 0; i < router->count; i++) {
        const struct interface *here = &router->interfaces[i];
        if (here->index != index)
            continue;
        if (((here->address ^ sender) >> (32 - here->prefix)) == 0)
            return (uint32_t)i;
        if (found == UINT32_MAX)
            found = (uint32_t)i;
    }
    return found;
}

/* ---- the socket --------------------------------------------------------------------------------- */

/* Hears 224.0.0.2 on each interface with multicast. */
static void join_all_routers(int s, const struct router *router)
{
    for (size_t i = 0; i < router->count; i++) {
        struct ip_mreq request = {.imr_multiaddr.s_addr = htonl(BOUGH_ALL_ROUTERS),
                                  .imr_interface.s_addr = htonl(router->interfaces[i].address)};
        if (router->interfaces[i].multicast && setsockopt(s, IPPROTO_IP, IP_ADD_MEMBERSHIP, &request, sizeof request) != 0
            && errno != EADDRINUSE) {
            char text[INET_ADDRSTRLEN];
            fprintf(stderr, "host: 224.0.0.2 is not heard on %s: %s\n", dotted(router->interfaces[i].address, text),
                    strerror(errno));
        }
    }
}

static int open_socket(uint16_t port)
{
    int on = 1, off = 0;
    struct sockaddr_in any = {.sin_family = AF_INET, .sin_port = htons(port)};
    any.sin_addr.s_addr = htonl(INADDR_ANY);
    int s = socket(AF_INET, SOCK_DGRAM | SOCK_CLOEXEC, 0);
    if (s < 0 || setsockopt(s, IPPROTO_IP, IP_PKTINFO, &on, sizeof on) != 0
        || setsockopt(s, IPPROTO_IP, IP_RECVTTL, &on, sizeof on) != 0
        || setsockopt(s, IPPROTO_IP, IP_MULTICAST_LOOP, &off, sizeof off) != 0) {
        perror("host: socket");
        return -1;
    }
    if (bind(s, (struct sockaddr *)&any, sizeof any) != 0) {
        fprintf(stderr, "host: port %u: %s\n", (unsigned)port,
                errno == EADDRINUSE ? "another program has this port" : strerror(errno));
        return -1;
    }
    return s;
}

/* Receives a datagram, with its destination, interface and TTL. */
static bool receive(const struct host *host, uint8_t *payload, size_t room, struct arrival *in)
{
    union {
        struct cmsghdr align;
        char bytes[CMSG_SPACE(sizeof(struct in_pktinfo)) + CMSG_SPACE(sizeof(int))];
    } control;
    struct sockaddr_in from = {0};
    struct iovec part = {.iov_base = payload, .iov_len = room};
    struct msghdr message = {.msg_name = &from, .msg_namelen = sizeof from, .msg_iov = &part, .msg_iovlen = 1,
                             .msg_control = control.bytes, .msg_controllen = sizeof control.bytes};
    ssize_t length = recvmsg(host->socket, &message, MSG_DONTWAIT);
    if (length < 0)
        return false;
    *in = (struct arrival){.length = (size_t)length, .sender = ntohl(from.sin_addr.s_addr), .interface = UINT32_MAX};
    for (struct cmsghdr *c = CMSG_FIRSTHDR(&message); c != NULL; c = CMSG_NXTHDR(&message, c)) {
        if (c->cmsg_level != IPPROTO_IP)
            continue;
        if (c->cmsg_type == IP_PKTINFO) {
            struct in_pktinfo info;
            memcpy(&info, CMSG_DATA(c), sizeof info);
            in->destination = ntohl(info.ipi_addr.s_addr);
            in->interface = interface_number(&host->router, (unsigned)info.ipi_ifindex, in->sender);
        } else if (c->cmsg_type == IP_TTL) {
            int ttl;
            memcpy(&ttl, CMSG_DATA(c), sizeof ttl);
            in->ttl = (uint32_t)ttl;
        }
    }
    return true;
}

/* Says of the next datagram whether it may be sent in fragments. A Request may not (RFC 8487, 3): one that is too long is
 * refused here, EMSGSIZE, and does not get lost on the way. A Reply may, here and on the way: it has to come home by whatever
 * links there are. Linux has no control message for it. */
static bool allow_fragments(int s, bool allowed)
{
    int how = allowed ? IP_PMTUDISC_DONT : IP_PMTUDISC_DO;
    return setsockopt(s, IPPROTO_IP, IP_MTU_DISCOVER, &how, sizeof how) == 0;
}

/* Sends what a record says: a Request whole and with TTL 255 by its interface, a Reply by whichever leads to the client. */
static bool send_out(const struct host *host, bool request, uint8_t *output, const uint8_t *record)
{
    union {
        struct cmsghdr align;
        char bytes[CMSG_SPACE(sizeof(struct in_pktinfo)) + CMSG_SPACE(sizeof(int))];
    } control = {.bytes = {0}};
    uint16_t interface = get16(record + BOUGH_RECORD_INTERFACE);
    struct in_pktinfo info = {0};
    struct sockaddr_in to = {.sin_family = AF_INET, .sin_port = htons(get16(record + BOUGH_RECORD_PORT))};
    struct iovec part = {.iov_base = output, .iov_len = get16(record + BOUGH_RECORD_LENGTH)};
    struct msghdr message = {.msg_name = &to, .msg_namelen = sizeof to, .msg_iov = &part, .msg_iovlen = 1,
                             .msg_control = control.bytes, .msg_controllen = CMSG_SPACE(sizeof info)};
    to.sin_addr.s_addr = htonl(get32(record + BOUGH_RECORD_DESTINATION));
    info.ipi_spec_dst.s_addr = htonl(get32(record + BOUGH_RECORD_SOURCE));
    if (interface != BOUGH_ANY_INTERFACE)
        info.ipi_ifindex = (int)host->router.interfaces[interface].index;
    if (request)
        message.msg_controllen = sizeof control.bytes;
    struct cmsghdr *c = CMSG_FIRSTHDR(&message);
    c->cmsg_level = IPPROTO_IP;
    c->cmsg_type = IP_PKTINFO;
    c->cmsg_len = CMSG_LEN(sizeof info);
    memcpy(CMSG_DATA(c), &info, sizeof info);
    if (request) {
        int ttl = BOUGH_REQUEST_TTL; /* Linux takes the TTL of one datagram so, also to a group */
        c = CMSG_NXTHDR(&message, c);
        c->cmsg_level = IPPROTO_IP;
        c->cmsg_type = IP_TTL;
        c->cmsg_len = CMSG_LEN(sizeof ttl);
        memcpy(CMSG_DATA(c), &ttl, sizeof ttl);
    }
    return allow_fragments(host->socket, !request) && sendmsg(host->socket, &message, 0) >= 0;
}

/* ---- the clock ---------------------------------------------------------------------------------- */

/* The machine's time in units; 0 if the library refuses it. */
static uint64_t reading(void)
{
    struct timespec now;
    if (clock_gettime(CLOCK_REALTIME, &now) != 0)
        return 0;
    return bough_clock_unix((uint64_t)now.tv_sec, (uint64_t)now.tv_nsec);
}

static struct clock handed_over(const uint8_t out[BOUGH_CLOCK_SIZE])
{
    return (struct clock){.r = get64(out), .y = get64(out + 8)};
}

static bool start_clock(struct clock *clock)
{
    uint8_t out[BOUGH_CLOCK_SIZE];
    uint64_t now = reading();
    if (now == 0 || bough_clock_start(now, out, sizeof out) != BOUGH_CLOCK_OK) {
        fprintf(stderr, "host: the machine's time is out of range\n");
        return false;
    }
    *clock = handed_over(out);
    return true;
}

/* The clock for a datagram that came just now. false: there is no time for it, and the one before must not serve twice. */
static bool next_clock(struct host *host, struct clock *next)
{
    uint8_t out[BOUGH_CLOCK_SIZE];
    uint64_t now = reading();
    if (now == 0 || bough_clock_advance(host->clock.r, host->clock.y, now, out, sizeof out) != BOUGH_CLOCK_OK) {
        if (!host->timeless)
            fprintf(stderr, "host: the machine's time is out of range: nothing is answered until it is set right\n");
        host->timeless = true;
        host->untimed++;
        return false;
    }
    host->timeless = false;
    *next = handed_over(out);
    return true;
}

/* ---- the loop ----------------------------------------------------------------------------------- */

/* Says why a datagram was not sent: errno, and for a Request that is too long what helps. */
static void tell_unsent(bool request, const uint8_t *record)
{
    int why = errno;
    char text[INET_ADDRSTRLEN];
    fprintf(stderr, "host: not sent to %s: ", dotted(get32(record + BOUGH_RECORD_DESTINATION), text));
    if (request && why == EMSGSIZE)
        fprintf(stderr, "a Request of %u bytes is longer than the link takes: lower the MTU of interface %u in the sheet\n",
                get16(record + BOUGH_RECORD_LENGTH), get16(record + BOUGH_RECORD_INTERFACE));
    else
        fprintf(stderr, "%s\n", strerror(why));
}

/* Whether anything was to be sent. */
static bool answer(struct host *host, const uint8_t *payload, const struct arrival *in)
{
    uint8_t output[BOUGH_ROOM], record[BOUGH_RECORD_SIZE];
    uint32_t number = bough_engine_step(payload, in->length, in->destination, in->interface, in->ttl, in->time,
                                        host->router.sheet, host->router.sheet_len, host->recent, sizeof host->recent,
                                        output, sizeof output, record, sizeof record);
    if (number != BOUGH_SENT_ON && number != BOUGH_REPLY) {
        host->dropped[number]++;
        return false;
    }
    bool request = number == BOUGH_SENT_ON;
    if (!send_out(host, request, output, record)) {
        tell_unsent(request, record);
        host->unsent++;
    } else if (request) {
        host->sent_on++;
    } else {
        host->replies++;
    }
    return true;
}

/* A datagram that is dropped uses no time: the clock stays as it was, so that noise does not move it on. */
static void take(struct host *host, const uint8_t *payload, struct arrival *in)
{
    struct clock next;
    host->received++;
    if (!next_clock(host, &next))
        return;
    in->time = bough_clock_arrival(next.y);
    if (answer(host, payload, in))
        host->clock = next;
}

static void print_counts(const struct host *host)
{
    printf("received %llu sent on %llu replies %llu not sent %llu\n", (unsigned long long)host->received,
           (unsigned long long)host->sent_on, (unsigned long long)host->replies, (unsigned long long)host->unsent);
    for (int number = 1; number <= BOUGH_DROP_LAST; number++)
        if (host->dropped[number] != 0)
            printf("dropped %d %s %llu\n", number, drop_names[number], (unsigned long long)host->dropped[number]);
    if (host->untimed != 0)
        printf("without a time %llu\n", (unsigned long long)host->untimed);
    fflush(stdout);
}

/* Reads the sheet anew; a sheet that is refused leaves the old one in use. */
static void read_anew(struct host *host, const char *name)
{
    static struct router next;
    memset(&next, 0, sizeof next);
    if (read_sheet(name, &next)) {
        host->router = next;
        join_all_routers(host->socket, &host->router);
    }
}

static int run(struct host *host, const char *name, uint64_t packets)
{
    static uint8_t payload[65536];
    sigset_t held, free_set;
    struct sigaction action = {.sa_handler = on_signal};
    struct pollfd ready = {.fd = host->socket, .events = POLLIN};
    sigemptyset(&held);
    sigaddset(&held, SIGINT);
    sigaddset(&held, SIGTERM);
    sigaddset(&held, SIGHUP);
    sigprocmask(SIG_BLOCK, &held, &free_set);
    sigdelset(&free_set, SIGINT);
    sigdelset(&free_set, SIGTERM);
    sigdelset(&free_set, SIGHUP);
    sigaction(SIGINT, &action, NULL);
    sigaction(SIGTERM, &action, NULL);
    sigaction(SIGHUP, &action, NULL);
    while (!stop && (packets == 0 || host->received < packets)) {
        struct arrival in;
        if (host->clock.y == BOUGH_CLOCK_LAST) {
            fprintf(stderr, "host: the clock has issued the last time there is: set the machine's time right, and start the host again\n");
            print_counts(host);
            return 1;
        }
        if (ppoll(&ready, 1, NULL, &free_set) < 0 && errno != EINTR) {
            perror("host: poll");
            return 1;
        }
        if (reload) {
            reload = 0;
            read_anew(host, name);
        }
        if (receive(host, payload, sizeof payload, &in))
            take(host, payload, &in);
    }
    print_counts(host);
    return 0;
}

/* A decimal number from 1 to `most`, or 0. */
static unsigned long long number_from(const char *text, unsigned long long most)
{
    char *end;
    errno = 0;
    unsigned long long n = strtoull(text, &end, 10);
    return errno == 0 && *end == '\0' && text[0] >= '0' && text[0] <= '9' && n <= most ? n : 0;
}

static int usage(void)
{
    fprintf(stderr, "usage: host [-p PORT] [-n PACKETS] SHEET\n");
    return 2;
}

int main(int argc, char **argv)
{
    static struct host host;
    unsigned long long port = BOUGH_PORT, packets = 0;
    int option;
    while ((option = getopt(argc, argv, "p:n:")) != -1) {
        if (option == 'p' && (port = number_from(optarg, 65535)) != 0)
            continue;
        if (option == 'n' && (packets = number_from(optarg, UINT64_MAX)) != 0)
            continue;
        return usage();
    }
    if (optind + 1 != argc)
        return usage();
    if (!read_sheet(argv[optind], &host.router) || !start_clock(&host.clock) || (host.socket = open_socket((uint16_t)port)) < 0)
        return 1;
    join_all_routers(host.socket, &host.router);
    for (size_t i = 0; i < host.router.count; i++) {
        char text[INET_ADDRSTRLEN], name[IF_NAMESIZE] = "?";
        if_indextoname(host.router.interfaces[i].index, name);
        printf("interface %zu %s %s\n", i, dotted(host.router.interfaces[i].address, text), name);
    }
    printf("listening on port %llu\n", port);
    fflush(stdout);
    return run(&host, argv[optind], packets);
}
