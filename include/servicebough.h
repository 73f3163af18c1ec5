/* Servicebough: an Mtrace2 (RFC 8487, IPv4) engine for a router, and a reader of Replies for a client. What a host or a
 * client written in C calls.
 *
 * The library does no input and no output, keeps no state, takes no memory but stack, and calls nothing
 * but C's memset and memcpy: the host receives and sends UDP datagrams, and lends the library its bytes for the length
 * of one call. The archive is x86-64.
 * Every entry may be called from several threads at once, on different bytes.
 *
 * Slices. A slice is a pointer and then its length in bytes (in elements for `times`). The caller owns
 * the bytes before, during and after the call; the library keeps no pointer. A length of 0 allows any
 * pointer, NULL too. A slice that is written (not const here) must not overlap any other slice of the
 * same call; those only read may overlap one another. No alignment is asked for, but that of uint32_t
 * for `times`.
 *
 * Input. No entry has a precondition on what the bytes hold or how many there are: each checks all that it
 * is handed, and answers with a number. A refused call, and a dropped message, changes no byte lent.
 *
 * Numbers in bytes are big-endian (network order). Numbers that are passed or returned as such, addresses
 * among them, are in the machine's order: use ntohl() on a struct in_addr's s_addr before it goes in.
 *
 * A step, in short (examples/host.c is a whole host):
 *
 *     uint8_t recent[BOUGH_RECENT_SIZE] = {0};             // kept from one message to the next
 *     uint8_t output[BOUGH_ROOM], record[BOUGH_RECORD_SIZE];
 *     uint32_t n = bough_engine_step(payload, payload_len, destination, interface, ttl, arrival_time,
 *                                    sheet, sheet_len, recent, sizeof recent,
 *                                    output, sizeof output, record, sizeof record);
 *     if (n == BOUGH_SENT_ON) ..send output[0 .. length) to the next router, with TTL 255..
 *     else if (n == BOUGH_REPLY) ..send output[0 .. length) to the client..
 *     else ..dropped: count it under n, send nothing..
 *
 * A Reply read, in short (examples/trace.c is a whole client):
 *
 *     uint8_t block[BOUGH_STANDARD_SIZE];
 *     uint32_t n = bough_reply_check(payload, payload_len);
 *     if (n != BOUGH_READ_OK) ..refused by n..
 *     for (uint32_t place = BOUGH_HEADER_SIZE;
 *          (place = bough_reply_next(payload, payload_len, place, block, sizeof block)) != 0;)
 *         ..block is the next router's..
 */
#ifndef SERVICEBOUGH_H
#define SERVICEBOUGH_H
#include <stddef.h>
#include <stdint.h>
#ifdef __cplusplus
extern "C" {
#endif

/* ---- sizes, in bytes --------------------------------------------------------------------------- */

#define BOUGH_ROOM 1472               /* no message passes this, whatever the MTUs are; every `output` has at least as much */
#define BOUGH_RECORD_SIZE 16          /* an answer record, and what a walk answers */
#define BOUGH_RECENT_SIZE 196         /* the recent list, exactly */
#define BOUGH_CLOCK_SIZE 24           /* what the clock hands over: r, y and the time issued */
#define BOUGH_HEADER_SIZE 20          /* a message's header; a Query is this alone */
#define BOUGH_STANDARD_SIZE 52        /* a Standard Response Block */
#define BOUGH_AUGMENTED_LEAST 8       /* the shortest Augmented Response Block; its length is a multiple of 4 */
#define BOUGH_BLOCKS_MOST 27          /* no message has room for more Standard Response Blocks; a number, not bytes */
#define BOUGH_LINK_SIZE 32            /* what two Replies tell of one link */
#define BOUGH_LINKS_SIZE 832          /* room for 26 links: one fewer than blocks */

#define BOUGH_SHEET_BLOCK 512         /* a sheet is 1 to 16 blocks of this */
#define BOUGH_SHEET_BLOCKS_MOST 16
#define BOUGH_INTERFACE_SIZE 28       /* an interface entry; 18 in a block, 64 in a sheet */
#define BOUGH_INTERFACES_A_BLOCK 18
#define BOUGH_INTERFACES_MOST 64
#define BOUGH_ROUTE_SIZE 56           /* a route entry; 9 in a block */
#define BOUGH_ROUTES_A_BLOCK 9

#define BOUGH_MTU_LEAST 576           /* the MTU of an interface entry is this or more .. */
#define BOUGH_MTU_MOST 65535          /* .. and, having two bytes, at most this */
#define BOUGH_IP_UDP_SIZE 28          /* the IP and UDP headers of a datagram, which an MTU counts and a payload does not */

#define BOUGH_YARD_SHEET 1024         /* each sheet of a yard: two blocks */
#define BOUGH_YARD_ROUTERS_MOST 32

/* ---- numbers of the protocol ------------------------------------------------------------------- */

#define BOUGH_PORT 33435              /* the UDP port that routers listen on */
#define BOUGH_ALL_ROUTERS 0xE0000002u /* 224.0.0.2: to whom a Request goes where the upstream is not known */
#define BOUGH_ALL_ONES 0xFFFFFFFFu    /* no group, no source; in a sheet: upstream not known */
#define BOUGH_REQUEST_TTL 255         /* a Request is sent with it, and taken only with it */

#define BOUGH_TYPE_QUERY 1
#define BOUGH_TYPE_REQUEST 2
#define BOUGH_TYPE_REPLY 3
#define BOUGH_TYPE_STANDARD 4         /* a Standard Response Block */
#define BOUGH_TYPE_AUGMENTED 5        /* an Augmented Response Block: carried, not counted */

/* Byte offsets in a message's header, and from the start of a Standard Response Block. */
#define BOUGH_HEADER_HOPS 3
#define BOUGH_HEADER_GROUP 4
#define BOUGH_HEADER_SOURCE 8
#define BOUGH_HEADER_CLIENT 12
#define BOUGH_HEADER_ID 16
#define BOUGH_HEADER_PORT 18

#define BOUGH_BLOCK_ARRIVAL 4         /* Query Arrival Time, units of 1/65536 s */
#define BOUGH_BLOCK_INCOMING 8        /* address of the interface towards the source, or 0 */
#define BOUGH_BLOCK_OUTGOING 12       /* address of the interface that the message came in on */
#define BOUGH_BLOCK_UPSTREAM 16       /* address of the next router, 0 at the end, or 224.0.0.2 */
#define BOUGH_BLOCK_INPUT_COUNT 20    /* 8 bytes each; BOUGH_NOT_COUNTED where it is not known */
#define BOUGH_BLOCK_OUTPUT_COUNT 28
#define BOUGH_BLOCK_TOTAL_COUNT 36
#define BOUGH_BLOCK_PROTOCOL 44
#define BOUGH_BLOCK_MULTICAST 46      /* multicast routing protocol */
#define BOUGH_BLOCK_TTL 48            /* forwarding TTL */
#define BOUGH_BLOCK_MASK 50           /* S in the highest bit, then 7 bits of source mask (127: group state) */
#define BOUGH_BLOCK_CODE 51           /* forwarding code, below */

#define BOUGH_NOT_COUNTED 0xFFFFFFFFFFFFFFFFu /* a count of all ones */
#define BOUGH_S_BIT 0x80              /* in the byte at BOUGH_BLOCK_MASK: the total count is the source network's */
#define BOUGH_MASK_GROUP 127          /* the other 7 bits of it: group state, no source mask */

/* Forwarding codes of RFC 8487 in the blocks of a Reply. INFO_HIDDEN, REACHED_GW, UNKNOWN_QUERY and FATAL_ERROR
 * are written by other routers only. A set 0x80 bit marks an error. */
#define BOUGH_CODE_NO_ERROR 0x00
#define BOUGH_CODE_WRONG_IF 0x01       /* came in where this router would not forward the group */
#define BOUGH_CODE_PRUNE_SENT 0x02     /* this router has pruned upstream */
#define BOUGH_CODE_PRUNE_RCVD 0x03     /* the downstream router has pruned */
#define BOUGH_CODE_SCOPED 0x04         /* an administrative boundary for a group in 239.0.0.0/8 */
#define BOUGH_CODE_NO_ROUTE 0x05       /* no route for source or group; the trace ends */
#define BOUGH_CODE_WRONG_LAST_HOP 0x06 /* asked by a client that this router is not the last hop for */
#define BOUGH_CODE_NOT_FORWARDING 0x07 /* not forwarding there, for another reason */
#define BOUGH_CODE_REACHED_RP 0x08     /* this router is the group's RP; the trace ends */
#define BOUGH_CODE_RPF_IF 0x09         /* came in on the interface towards the source */
#define BOUGH_CODE_NO_MULTICAST 0x0A   /* came in on an interface without multicast */
#define BOUGH_CODE_INFO_HIDDEN 0x0B
#define BOUGH_CODE_NO_SPACE 0x81       /* no room for the next router's block on its link to the source; the trace ends */
#define BOUGH_CODE_ADMIN_PROHIB 0x83   /* tracing is prohibited here; the trace ends */
#define BOUGH_CODE_REACHED_GW 0x0C
#define BOUGH_CODE_UNKNOWN_QUERY 0x0D
#define BOUGH_CODE_FATAL_ERROR 0x80

/* ---- a sheet: one router's tables, made by the host --------------------------------------------- */

/* 1 to 16 blocks: interface blocks (at least one), then route blocks (none or more). In a block: byte 0 its
 * kind, byte 1 its entries in use (at least 1), bytes 2-3 its number in the sheet from 0, entries from
 * byte 4 on with zeros behind them, bytes 508-509 switches, bytes 510-511 a check word that brings the sum
 * of the block's 256 16-bit words, with end-around carry (RFC 1071), to 0xFFFF. Only the last block of a kind may have fewer
 * entries than it holds. Entry j of interface block b is interface 18 b + j. A sheet of a yard, which has two blocks, so has
 * 1 to 18 interfaces and 1 to 9 routes, or 19 to 36 interfaces and no route.
 * docs/HOST.md says how the fields of the entries are filled from a router's tables. */
#define BOUGH_SHEET_INTERFACES 1      /* kinds of blocks */
#define BOUGH_SHEET_ROUTES 2
#define BOUGH_SHEET_KIND 0            /* byte offsets in a block */
#define BOUGH_SHEET_USED 1
#define BOUGH_SHEET_NUMBER 2
#define BOUGH_SHEET_ENTRIES 4
#define BOUGH_SHEET_SWITCHES 508
#define BOUGH_SHEET_CHECK 510
#define BOUGH_SWITCH_PROHIBITED 1     /* in block 0: tracing is prohibited */

/* Byte offsets in an interface entry, 28 bytes. */
#define BOUGH_INTERFACE_AT_ADDRESS 0  /* 4 bytes, unicast */
#define BOUGH_INTERFACE_AT_LENGTH 4   /* 1: prefix length, 1 to 32 */
#define BOUGH_INTERFACE_AT_FLAGS 5    /* 1 */
#define BOUGH_INTERFACE_AT_TTL 6      /* 1: TTL threshold */
#define BOUGH_INTERFACE_AT_ZERO 7     /* 1: zero */
#define BOUGH_INTERFACE_AT_INPUT_COUNT 8 /* 8 each */
#define BOUGH_INTERFACE_AT_OUTPUT_COUNT 16
#define BOUGH_INTERFACE_AT_MTU 24     /* 2: the longest datagram that the link takes whole, IP header and all; 576 to 65535 */
#define BOUGH_INTERFACE_AT_ZEROS 26   /* 2: zero */
#define BOUGH_INTERFACE_MULTICAST 1   /* flags of an interface */
#define BOUGH_INTERFACE_BOUNDARY 2

/* Byte offsets in a route entry, 56 bytes. Bit i of a map, from the lowest, is interface i. */
#define BOUGH_ROUTE_AT_KIND 0         /* 1 byte */
#define BOUGH_ROUTE_AT_LENGTH 1       /* 1: source length; 1 to 32 for kind 1, 0 for kind 2, 0 to 32 for kind 3 */
#define BOUGH_ROUTE_AT_FLAGS 2        /* 1 */
#define BOUGH_ROUTE_AT_ZERO 3         /* 1: zero */
#define BOUGH_ROUTE_AT_SOURCE 4       /* 4; zero past the source length */
#define BOUGH_ROUTE_AT_GROUP 8        /* 4: multicast; 0 for kind 3 */
#define BOUGH_ROUTE_AT_UPSTREAM 12    /* 4: unicast, 0 for none, BOUGH_ALL_ONES for one that is not known */
#define BOUGH_ROUTE_AT_INCOMING 16    /* 2: number of the incoming interface, or BOUGH_INCOMING_UNKNOWN */
#define BOUGH_ROUTE_AT_PROTOCOL 18    /* 2: routing protocol */
#define BOUGH_ROUTE_AT_MULTICAST 20   /* 2: multicast routing protocol */
#define BOUGH_ROUTE_AT_ZEROS 22       /* 2: zero */
#define BOUGH_ROUTE_AT_PACKETS 24     /* 8: packet count */
#define BOUGH_ROUTE_AT_FORWARD 32     /* 8 each: the maps would forward, pruned and stopped */
#define BOUGH_ROUTE_AT_PRUNED 40
#define BOUGH_ROUTE_AT_STOPPED 48
#define BOUGH_ROUTE_SOURCE_GROUP 1    /* kinds of routes */
#define BOUGH_ROUTE_GROUP 2
#define BOUGH_ROUTE_SOURCE 3
#define BOUGH_ROUTE_RP 1              /* flags of a route; RP for kind 2 only */
#define BOUGH_ROUTE_PRUNE_SENT 2
#define BOUGH_INCOMING_UNKNOWN 65535  /* a route's incoming interface; upstream is then 0 */

/* ---- answers ------------------------------------------------------------------------------------ */

/* Drop numbers of bough_engine_step, in the order tried: the first that applies is the answer. */
#define BOUGH_DROP_ROOM 1             /* output under 1472 bytes, or record under 16 */
#define BOUGH_DROP_STATE 2            /* recent list malformed */
#define BOUGH_DROP_SHEET 3            /* sheet breaks a rule; an MTU under 576 too */
#define BOUGH_DROP_IFACE 4            /* receiving interface not in the sheet */
#define BOUGH_DROP_SIZE 5             /* message under 20 or over 1472 bytes */
#define BOUGH_DROP_TYPE 6             /* neither a Query nor a Request */
#define BOUGH_DROP_HEADER 7           /* header length not 20 */
#define BOUGH_DROP_HOPS 8             /* hops 0 */
#define BOUGH_DROP_GROUP 9            /* group neither multicast nor all ones */
#define BOUGH_DROP_SOURCE 10          /* source neither unicast nor all ones */
#define BOUGH_DROP_PAIR 11            /* neither a group nor a source */
#define BOUGH_DROP_CLIENT 12          /* client not unicast, or its port 0 */
#define BOUGH_DROP_BLOCKS 13          /* malformed blocks, or bytes behind a Query's header */
#define BOUGH_DROP_DEST 14            /* sent neither to this router nor to 224.0.0.0/24 */
#define BOUGH_DROP_NEAR 15            /* Request whose TTL is not 255: not from a neighbour */
#define BOUGH_DROP_COUNT 16           /* Request with as many blocks as hops, or more */
#define BOUGH_DROP_SEEN 17            /* Query whose client and id are in the recent list */
#define BOUGH_DROP_LASTHOP 18         /* Query to a group, and this is not the client's last hop */
#define BOUGH_DROP_LAST 18

#define BOUGH_SENT_ON 100             /* a Request to be sent on */
#define BOUGH_REPLY 101               /* a Reply to be sent to the client; also a walk's end */
#define BOUGH_END_GROUP 102           /* a walk's end: sent to a group */
#define BOUGH_END_NOBODY 103          /* a walk's end: no router of the yard holds the address */

/* Answers of the clock. */
#define BOUGH_CLOCK_OK 0
#define BOUGH_CLOCK_ROOM 1            /* out under 24 bytes */
#define BOUGH_CLOCK_READING 31        /* reading over 2^48 - 1; of an advance also: y is 2^48 - 1, and no time is left */
#define BOUGH_CLOCK_STATE 33          /* y below r, or y over 2^48 - 1 */
#define BOUGH_CLOCK_LAST 281474976710655u /* 2^48 - 1 */

/* Refusals of a walk; it has made no step. */
#define BOUGH_WALK_ROOM 1             /* output under 1472 bytes, or answer under 16 */
#define BOUGH_WALK_YARD 21            /* yard not 1 to 32 sheets of 1024 bytes, or one of them invalid */
#define BOUGH_WALK_TIMES 22           /* fewer times than routers */
#define BOUGH_WALK_START 23           /* no such start router */
#define BOUGH_WALK_REQUEST 24         /* the message is a Request */

/* Refusals of Replies, in the order tried. Of two Replies the first one's come before the second's. */
#define BOUGH_READ_OK 0
#define BOUGH_READ_ROOM 1             /* links under 832 bytes */
#define BOUGH_READ_SIZE 5             /* under 20 or over 1472 bytes */
#define BOUGH_READ_TYPE 41            /* not a Reply */
#define BOUGH_READ_HEADER 7           /* header length not 20 */
#define BOUGH_READ_BLOCKS 13          /* no block, the first not a Standard Response Block, or malformed ones */
#define BOUGH_READ_PATH 42            /* two Replies that are not over one path */

/* ---- the answer record -------------------------------------------------------------------------- */

/* Byte offsets in the record that a step writes with 100 and 101. */
#define BOUGH_RECORD_LENGTH 0         /* 2 bytes: output[0 .. length) is the datagram's payload */
#define BOUGH_RECORD_DESTINATION 2    /* 4: the IP destination */
#define BOUGH_RECORD_PORT 6           /* 2: the UDP destination port */
#define BOUGH_RECORD_INTERFACE 8      /* 2: number of the interface to send on, or 65535 */
#define BOUGH_RECORD_SOURCE 10        /* 4: the IP source: an address of this router */
#define BOUGH_RECORD_ZERO 14          /* 2: zero */
#define BOUGH_ANY_INTERFACE 65535     /* a Reply goes out by whichever interface leads to the client */

/* ---- clock: units of 1/65536 s since 1900 (NTP era 0) ------------------------------------------ */

/* A clock is two numbers that the host keeps: r, the last reading, and y, the last time issued. Where each call
 * is given the r and y of the call before, each time issued is above the last, and none is issued twice,
 * whatever the readings do: while they stand still or fall the clock goes on by one unit a call, and then works
 * its lead off at half rate. Reading: bough_clock_unix of CLOCK_REALTIME. Time of arrival for a step:
 * bough_clock_arrival of the y handed over. */

/* Starts a clock at `reading`. 0: out[0..8) is r, out[8..16) y and out[16..24) the time issued, which
 * equals y. 1 and 31: refused, tried in that order. A clock that starts at 2^48 - 1 issues it, and no other time. */
uint32_t bough_clock_start(uint64_t reading, uint8_t *out, size_t out_len);

/* Advances the clock (r, y) to `reading`. 0: `out` as above, r and y being those to keep once the time is used.
 * 1, 33 and 31: refused, tried in that order; keep the old r and y. Where y is 2^48 - 1 every reading is 31. */
uint32_t bough_clock_advance(uint64_t r, uint64_t y, uint64_t reading, uint8_t *out, size_t out_len);

/* UNIX time to units. 0 means refused: seconds over 2085978495 (in 2036), or nanoseconds over 999999999.
 * Negative seconds, cast to uint64_t, are refused too. No time that is accepted gives 0. Do not hand the 0 on:
 * as a reading it is a valid one. */
uint64_t bough_clock_unix(uint64_t seconds, uint64_t nanoseconds);

/* The Query Arrival Time of a time issued: y modulo 2^32. */
uint32_t bough_clock_arrival(uint64_t y);

/* ---- engine: one router's step ------------------------------------------------------------------ */

/* Answers one message.
 *
 * message: the UDP payload as received. destination: the datagram's IP destination (IP_PKTINFO).
 * receiving_interface: the number in the sheet of the interface that it came in on. ttl: the datagram's IP
 * TTL (IP_RECVTTL). arrival_time: from bough_clock_arrival. sheet: this router's tables, read only.
 * recent: BOUGH_RECENT_SIZE bytes that the host zeroes once and lends at every step of this router; an
 * accepted Query is entered in it. output, record: lent for the answer; bytes past it stay as they are.
 *
 * Room: with this router's block a message may have as many bytes as the smaller of BOUGH_ROOM and MTU - BOUGH_IP_UDP_SIZE,
 * by the MTU of the chosen route's incoming interface, or of the receiving interface where there is no route or its incoming
 * interface is unknown. A Request that would pass that, even if its trace were to end here, goes home as it came, of
 * whatever length, with BOUGH_CODE_NO_SPACE in its last Standard Response Block. A Query always has room.
 *
 * 1 to 18: dropped; nothing is written; send nothing, to nobody.
 *
 * 100, BOUGH_SENT_ON: a Request for the next router. Send output[0 .. length) to `destination` and `port`
 * of the record by the interface numbered `interface`, from the address `source`, with TTL 255:
 *     setsockopt(.., IPPROTO_IP, IP_TTL, 255) and, since the destination may be the group 224.0.0.2,
 *     IP_MULTICAST_TTL 255 (in Linux an IP_TTL control message does both for one datagram); an IP_PKTINFO control message with
 *     ipi_ifindex the kernel's index of the interface and ipi_spec_dst the source. The next router drops a
 *     Request that comes with another TTL. No fragments: IP_MTU_DISCOVER with IP_PMTUDISC_DO. One that the kernel then
 *     refuses (EMSGSIZE) is longer than the link takes: the sheet's MTU of that interface is too large.
 *
 * 101, BOUGH_REPLY: a Reply for the client. Send output[0 .. length) to `destination` and `port`; the interface
 * is 65535: bind the socket to none, set no ipi_ifindex and leave the way to the kernel's routes; ipi_spec_dst
 * is the source. The TTL is the kernel's own. It may be longer than a link on its way home takes, so let it be fragmented:
 * IP_MTU_DISCOVER with IP_PMTUDISC_DONT. */
uint32_t bough_engine_step(
    const uint8_t *message, size_t message_len,
    uint32_t destination, uint32_t receiving_interface, uint32_t ttl, uint32_t arrival_time,
    const uint8_t *sheet, size_t sheet_len,
    uint8_t *recent, size_t recent_len,
    uint8_t *output, size_t output_len,
    uint8_t *record, size_t record_len);

/* ---- walk: a Query through a yard ---------------------------------------------------------------- */

/* Walks a Query from router to router as the network would carry it, without a network: for a check of
 * tables before they are put to use.
 *
 * yard: 1 to 32 sheets of exactly 1024 bytes (two blocks), one for each router. times: the arrival time at each
 * router, at least as many as routers, in the machine's byte order. message: the Query. It goes to interface
 * `receiving_interface` of router `start_router`, sent to `destination` with `ttl`. Each router starts with an empty recent
 * list; a Request sent on goes, with TTL 255, to the lowest router and interface that holds its destination.
 *
 * 101, 102, 103: the walk's end. output[0 .. length) is the last message sent, and answer[0 .. 16) is end, steps
 * (calls of the engine), blocks (type 4 blocks of that message) and length, 4 bytes each, big-endian.
 * Any other number is a refusal (1, 21 to 24, tried in that order; no step was made) or the drop number by which the
 * first router dropped the message (one step); nothing is written.
 *
 * A walk makes at most as many steps as the Query has hops, and at most 28, whatever the MTUs are. It takes up to 64 kilobytes
 * of stack; the other entries take less than 2. */
#define BOUGH_ANSWER_END 0            /* byte offsets in the answer */
#define BOUGH_ANSWER_STEPS 4
#define BOUGH_ANSWER_BLOCKS 8
#define BOUGH_ANSWER_LENGTH 12
uint32_t bough_walk(
    const uint8_t *yard, size_t yard_len,
    const uint32_t *times, size_t times_len,
    const uint8_t *message, size_t message_len,
    uint32_t start_router, uint32_t receiving_interface, uint32_t destination, uint32_t ttl,
    uint8_t *output, size_t output_len,
    uint8_t *answer, size_t answer_len);

/* ---- Replies: their blocks, and the loss between two ---------------------------------------------- */

/* Whether `reply`, a UDP payload as received, is a Reply that can be read. 0: it is. 5, 41, 7 and 13: refused, tried in that
 * order. Of the header only type and length are looked at: whether it is the Reply to a certain Query, by the rest of the
 * header, is for the caller to compare. */
uint32_t bough_reply_check(const uint8_t *reply, size_t reply_len);

/* Hands out the Standard Response Blocks of a Reply, one a call, the client's router first; Augmented ones are passed over.
 * place: BOUGH_HEADER_SIZE at the first call, then what the call before answered. block: lent for the 52 bytes of the block, as
 * they came; bytes past them stay as they are. The answer is the place behind the block, which is never 0.
 *
 * 0: there is no further block, and nothing is written. The same answer comes for a Reply that bough_reply_check refuses, for
 * a block of under 52 bytes, and for a place at which no block of the Reply begins. */
uint32_t bough_reply_next(const uint8_t *reply, size_t reply_len, uint32_t place, uint8_t *block, size_t block_len);

/* What was lost on each link of a path from one Reply to another. Link k, from 0, is between blocks k and k + 1 of a Reply, as
 * bough_reply_next hands them out; packets go into it at block k + 1, which is nearer to the source, and come out at block k.
 *
 * links: at least BOUGH_LINKS_SIZE bytes, lent for BOUGH_LINK_SIZE bytes a link.
 *
 * 0: links[0 .. 32 * (blocks - 1)) is written, and bytes past it stay as they are; with one block there is no link. Of a link
 * that is counted, `sent` is by how much block k + 1's output count rose from the first Reply to the second, `received` by how
 * much block k's input count did, and `lost` is sent - received. Otherwise its verdict is the first that applies of the others
 * below, and the three numbers are 0.
 *
 * 1, then 5, 41, 7 and 13 of the first Reply, then of the second, then 42: refused, tried in that order; nothing is written.
 * 42: they have not as many Standard Response Blocks, or two blocks at the same place differ in outgoing or upstream address.
 * Which Reply is the first is the caller's to say: arrival times are not looked at. */
#define BOUGH_LINK_VERDICT 0          /* byte offsets in a link: 1 byte, then 7 zeros */
#define BOUGH_LINK_SENT 8             /* 8 bytes each */
#define BOUGH_LINK_RECEIVED 16
#define BOUGH_LINK_LOST 24
#define BOUGH_LINK_COUNTED 0          /* verdicts */
#define BOUGH_LINK_NOT_COUNTED 1      /* one of the four counts is all ones */
#define BOUGH_LINK_FALLEN 2           /* a count is lower in the second Reply: set back, or wrapped */
#define BOUGH_LINK_SURPLUS 3          /* more received than sent: someone else sends into the link */
uint32_t bough_reply_loss(
    const uint8_t *first, size_t first_len,
    const uint8_t *second, size_t second_len,
    uint8_t *links, size_t links_len);

/* The time from one Query Arrival Time to another, in units of 1/65536 s: of the differences by which two times that wrap at
 * 2^32 may lie apart, the shortest, negative where `later` is the earlier one; -2^31 where they are 2^31 apart. It tells the
 * time that went by if that was under 9 hours, as far as the two routers' clocks agree. */
int32_t bough_arrival_difference(uint32_t later, uint32_t earlier);

#ifdef __cplusplus
}
#endif
#endif
