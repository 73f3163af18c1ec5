/* Makes a sheet from words: reads lines from standard input, writes the sheet to standard output.
 *
 *     prohibited
 *     interface ADDRESS/LENGTH [multicast] [boundary] [ttl N] [in N] [out N] [mtu N]
 *     route SOURCE/LENGTH GROUP WORDS     source and group
 *     route * GROUP WORDS                 group
 *     route SOURCE/LENGTH * WORDS         source only
 *
 * WORDS: [incoming I] [upstream ADDRESS or unknown] [forward I,I..] [pruned I,I..] [stopped I,I..] [rp] [prune-sent]
 * [protocol N] [multicast N] [packets N]. Interfaces are numbered from 0 in the order of their lines. What is not
 * named is 0, but incoming, which is then unknown, and the MTU, which is then 1500. '#' begins a comment. The sheet is tried
 * on the engine before it is written.
 * Exit status: 0 written, 1 a line or the sheet is refused, or something could not be done. */
#define _POSIX_C_SOURCE 200809L
#include <arpa/inet.h>
#include <errno.h>
#include <stdbool.h>
#include <stdio.h>
#include <stdlib.h>
#include <string.h>

#include "bytes.h"
#include <servicebough.h>

#define ROUTES_MOST (BOUGH_ROUTES_A_BLOCK * (BOUGH_SHEET_BLOCKS_MOST - 1))
#define MTU_NOT_NAMED 1500 /* Ethernet's */
#define LINE_ROOM 1024

static uint8_t interfaces[BOUGH_INTERFACES_MOST][BOUGH_INTERFACE_SIZE];
static uint8_t routes[ROUTES_MOST][BOUGH_ROUTE_SIZE];
static size_t interface_count, route_count;
static bool prohibited;
static const char *refusal = "is not understood"; /* what is said of a line that is refused */

static bool number_of(const char *text, uint64_t most, uint64_t *n)
{
    char *end;
    if (text == NULL || text[0] < '0' || text[0] > '9')
        return false;
    errno = 0;
    *n = strtoull(text, &end, 10);
    return errno == 0 && *end == '\0' && *n <= most;
}

static bool address_of(const char *text, uint8_t *at)
{
    return text != NULL && inet_pton(AF_INET, text, at) == 1;
}

/* ADDRESS/LENGTH */
static bool prefix_of(char *text, uint8_t *address, uint8_t *length)
{
    uint64_t n;
    char *slash = text == NULL ? NULL : strchr(text, '/');
    if (slash == NULL || !number_of(slash + 1, 32, &n))
        return false;
    *slash = '\0';
    *length = (uint8_t)n;
    return address_of(text, address);
}

/* A larger or smaller MTU would be another number in two bytes, or a sheet that the engine refuses without naming the line. */
static bool mtu_of(const char *text, uint8_t *at)
{
    uint64_t n;
    if (!number_of(text, BOUGH_MTU_MOST, &n) || n < BOUGH_MTU_LEAST) {
        refusal = "has an MTU that is not a number from 576 to 65535";
        return false;
    }
    put16(at, (uint16_t)n);
    return true;
}

/* I,I..: a map with these bits */
static bool map_of(char *text, uint8_t *at)
{
    char *rest;
    uint64_t map = 0, bit;
    for (char *word = text == NULL ? NULL : strtok_r(text, ",", &rest); word != NULL; word = strtok_r(NULL, ",", &rest)) {
        if (!number_of(word, BOUGH_INTERFACES_MOST - 1, &bit))
            return false;
        map |= (uint64_t)1 << bit;
    }
    put64(at, map);
    return text != NULL;
}

/* One word of an interface, and what follows it. */
static bool interface_word(uint8_t *entry, const char *word, char **rest)
{
    uint64_t n = 0;
    if (strcmp(word, "multicast") == 0)
        entry[BOUGH_INTERFACE_AT_FLAGS] |= BOUGH_INTERFACE_MULTICAST;
    else if (strcmp(word, "boundary") == 0)
        entry[BOUGH_INTERFACE_AT_FLAGS] |= BOUGH_INTERFACE_BOUNDARY;
    else if (strcmp(word, "mtu") == 0)
        return mtu_of(strtok_r(NULL, " \t\n", rest), entry + BOUGH_INTERFACE_AT_MTU);
    else if (strcmp(word, "ttl") == 0 && number_of(strtok_r(NULL, " \t\n", rest), 255, &n))
        entry[BOUGH_INTERFACE_AT_TTL] = (uint8_t)n;
    else if (strcmp(word, "in") == 0 && number_of(strtok_r(NULL, " \t\n", rest), UINT64_MAX, &n))
        put64(entry + BOUGH_INTERFACE_AT_INPUT_COUNT, n);
    else if (strcmp(word, "out") == 0 && number_of(strtok_r(NULL, " \t\n", rest), UINT64_MAX, &n))
        put64(entry + BOUGH_INTERFACE_AT_OUTPUT_COUNT, n);
    else
        return false;
    return true;
}

static bool interface_line(char **rest)
{
    if (interface_count == BOUGH_INTERFACES_MOST)
        return false;
    uint8_t *entry = interfaces[interface_count];
    if (!prefix_of(strtok_r(NULL, " \t\n", rest), entry + BOUGH_INTERFACE_AT_ADDRESS, entry + BOUGH_INTERFACE_AT_LENGTH))
        return false;
    put16(entry + BOUGH_INTERFACE_AT_MTU, MTU_NOT_NAMED);
    for (char *word = strtok_r(NULL, " \t\n", rest); word != NULL; word = strtok_r(NULL, " \t\n", rest))
        if (!interface_word(entry, word, rest))
            return false;
    interface_count++;
    return true;
}

/* One word of a route, and what follows it. */
static bool route_word(uint8_t *entry, const char *word, char **rest)
{
    uint64_t n = 0;
    if (strcmp(word, "rp") == 0) {
        entry[BOUGH_ROUTE_AT_FLAGS] |= BOUGH_ROUTE_RP;
        return true;
    }
    if (strcmp(word, "prune-sent") == 0) {
        entry[BOUGH_ROUTE_AT_FLAGS] |= BOUGH_ROUTE_PRUNE_SENT;
        return true;
    }
    char *value = strtok_r(NULL, " \t\n", rest);
    if (strcmp(word, "upstream") == 0) {
        if (value != NULL && strcmp(value, "unknown") == 0)
            put32(entry + BOUGH_ROUTE_AT_UPSTREAM, BOUGH_ALL_ONES);
        else
            return address_of(value, entry + BOUGH_ROUTE_AT_UPSTREAM);
        return true;
    }
    if (strcmp(word, "forward") == 0)
        return map_of(value, entry + BOUGH_ROUTE_AT_FORWARD);
    if (strcmp(word, "pruned") == 0)
        return map_of(value, entry + BOUGH_ROUTE_AT_PRUNED);
    if (strcmp(word, "stopped") == 0)
        return map_of(value, entry + BOUGH_ROUTE_AT_STOPPED);
    if (strcmp(word, "packets") == 0 && number_of(value, UINT64_MAX, &n)) {
        put64(entry + BOUGH_ROUTE_AT_PACKETS, n);
        return true;
    }
    if (!number_of(value, 65535, &n))
        return false;
    if (strcmp(word, "incoming") == 0)
        put16(entry + BOUGH_ROUTE_AT_INCOMING, (uint16_t)n);
    else if (strcmp(word, "protocol") == 0)
        put16(entry + BOUGH_ROUTE_AT_PROTOCOL, (uint16_t)n);
    else if (strcmp(word, "multicast") == 0)
        put16(entry + BOUGH_ROUTE_AT_MULTICAST, (uint16_t)n);
    else
        return false;
    return true;
}

static bool route_line(char **rest)
{
    char *source = strtok_r(NULL, " \t\n", rest), *group = strtok_r(NULL, " \t\n", rest);
    if (route_count == ROUTES_MOST || source == NULL || group == NULL)
        return false;
    uint8_t *entry = routes[route_count];
    bool any_source = strcmp(source, "*") == 0, any_group = strcmp(group, "*") == 0;
    if ((any_source && any_group)
        || (!any_source && !prefix_of(source, entry + BOUGH_ROUTE_AT_SOURCE, entry + BOUGH_ROUTE_AT_LENGTH))
        || (!any_group && !address_of(group, entry + BOUGH_ROUTE_AT_GROUP)))
        return false;
    entry[BOUGH_ROUTE_AT_KIND] = any_source ? BOUGH_ROUTE_GROUP : any_group ? BOUGH_ROUTE_SOURCE : BOUGH_ROUTE_SOURCE_GROUP;
    put16(entry + BOUGH_ROUTE_AT_INCOMING, BOUGH_INCOMING_UNKNOWN);
    for (char *word = strtok_r(NULL, " \t\n", rest); word != NULL; word = strtok_r(NULL, " \t\n", rest))
        if (!route_word(entry, word, rest))
            return false;
    route_count++;
    return true;
}

static bool line_of(char line[LINE_ROOM])
{
    char *rest;
    if (strlen(line) == LINE_ROOM - 1 && line[LINE_ROOM - 2] != '\n') { /* what is behind would be taken for a line */
        refusal = "is too long";
        return false;
    }
    line[strcspn(line, "#")] = '\0';
    const char *word = strtok_r(line, " \t\n", &rest);
    if (word == NULL)
        return true;
    if (strcmp(word, "prohibited") == 0)
        return prohibited = true;
    if (strcmp(word, "interface") == 0)
        return interface_line(&rest);
    return strcmp(word, "route") == 0 && route_line(&rest);
}

/* ---- the sheet's bytes -------------------------------------------------------------------------- */

/* The word that brings the sum of a block's words to 0xFFFF (RFC 1071). */
static uint16_t check_word(const uint8_t *block)
{
    uint32_t sum = 0;
    for (size_t at = 0; at < BOUGH_SHEET_CHECK; at += 2)
        sum += get16(block + at);
    while (sum > 0xFFFF)
        sum = (sum & 0xFFFF) + (sum >> 16);
    return (uint16_t)(0xFFFF - sum);
}

/* Lays the entries of one kind out from block `first` on; the number of the block behind them. */
static size_t lay_out(uint8_t *sheet, size_t first, uint8_t kind, const uint8_t *entries, size_t count, size_t size, size_t a_block)
{
    for (size_t done = 0; done < count; first++) {
        uint8_t *block = sheet + first * BOUGH_SHEET_BLOCK;
        size_t here = count - done < a_block ? count - done : a_block;
        block[BOUGH_SHEET_KIND] = kind;
        block[BOUGH_SHEET_USED] = (uint8_t)here;
        put16(block + BOUGH_SHEET_NUMBER, (uint16_t)first);
        memcpy(block + BOUGH_SHEET_ENTRIES, entries + done * size, here * size);
        if (first == 0)
            put16(block + BOUGH_SHEET_SWITCHES, prohibited ? BOUGH_SWITCH_PROHIBITED : 0);
        put16(block + BOUGH_SHEET_CHECK, check_word(block));
        done += here;
    }
    return first;
}

static bool is_valid(const uint8_t *sheet, size_t length)
{
    uint8_t recent[BOUGH_RECENT_SIZE] = {0}, output[BOUGH_ROOM], record[BOUGH_RECORD_SIZE];
    return bough_engine_step(NULL, 0, 0, 0, 0, 0, sheet, length, recent, sizeof recent, output, sizeof output, record,
                             sizeof record) != BOUGH_DROP_SHEET;
}

int main(void)
{
    /* room for more blocks than a sheet may have, so that the engine is what refuses them */
    static uint8_t sheet[(BOUGH_SHEET_BLOCKS_MOST + 4) * BOUGH_SHEET_BLOCK];
    char line[LINE_ROOM];
    for (unsigned number = 1; fgets(line, sizeof line, stdin) != NULL; number++)
        if (!line_of(line)) {
            fprintf(stderr, "sheet: line %u %s\n", number, refusal);
            return 1;
        }
    if (ferror(stdin)) {
        perror("sheet: standard input");
        return 1;
    }
    size_t blocks = lay_out(sheet, 0, BOUGH_SHEET_INTERFACES, interfaces[0], interface_count, BOUGH_INTERFACE_SIZE,
                            BOUGH_INTERFACES_A_BLOCK);
    blocks = lay_out(sheet, blocks, BOUGH_SHEET_ROUTES, routes[0], route_count, BOUGH_ROUTE_SIZE, BOUGH_ROUTES_A_BLOCK);
    if (!is_valid(sheet, blocks * BOUGH_SHEET_BLOCK)) {
        fprintf(stderr, "sheet: the engine refuses it: see \"a sheet\" in servicebough.h\n");
        return 1;
    }
    if (fwrite(sheet, BOUGH_SHEET_BLOCK, blocks, stdout) != blocks || fflush(stdout) != 0) {
        perror("sheet");
        return 1;
    }
    return 0;
}
