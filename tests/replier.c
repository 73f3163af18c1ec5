/* A router with answers made beforehand: sends each Query on UDP port 33435 back as a Reply, with the bytes of a file behind its header.
 *
 *     replier [FILE..] [, [FILE..]]..
 *
 * The first Query gets one Reply for each file before the first comma, the second Query those up to the next comma, and so on; after
 * the last it ends, and after a minute in any case. Exit status: 0 all were sent, 1 something could not be done. */
#define _POSIX_C_SOURCE 200809L
#include <arpa/inet.h>
#include <netinet/in.h>
#include <servicebough.h>
#include <stdbool.h>
#include <stdio.h>
#include <string.h>
#include <sys/socket.h>
#include <unistd.h>

static bool read_behind(const char *name, uint8_t *bytes, size_t room, size_t *length)
{
    FILE *file = fopen(name, "rb");
    if (file == NULL)
        return false;
    *length = fread(bytes, 1, room, file);
    bool whole = ferror(file) == 0 && fgetc(file) == EOF;
    fclose(file);
    return whole;
}

/* Answers one Query with the files named, up to a comma or the end; the place behind them. */
static char **answer(int s, char **names)
{
    static uint8_t reply[2 * BOUGH_ROOM];
    struct sockaddr_in client = {0};
    socklen_t client_length = sizeof client;
    size_t length;
    if (recvfrom(s, reply, BOUGH_HEADER_SIZE, 0, (struct sockaddr *)&client, &client_length) != BOUGH_HEADER_SIZE)
        return NULL;
    reply[0] = BOUGH_TYPE_REPLY;
    for (; *names != NULL && strcmp(*names, ",") != 0; names++) {
        if (!read_behind(*names, reply + BOUGH_HEADER_SIZE, sizeof reply - BOUGH_HEADER_SIZE, &length))
            return NULL;
        length += BOUGH_HEADER_SIZE;
        if (sendto(s, reply, length, 0, (struct sockaddr *)&client, sizeof client) != (ssize_t)length)
            return NULL;
    }
    return *names == NULL ? names : names + 1;
}

int main(int argc, char **argv)
{
    struct sockaddr_in any = {.sin_family = AF_INET, .sin_port = htons(BOUGH_PORT)};
    int s = socket(AF_INET, SOCK_DGRAM, 0);
    if (argc < 2 || s < 0 || bind(s, (struct sockaddr *)&any, sizeof any) != 0) {
        perror("replier: usage: replier [FILE..] [, [FILE..]]..");
        return 1;
    }
    alarm(60);
    printf("listening\n");
    fflush(stdout);
    for (char **names = argv + 1; *names != NULL;)
        if ((names = answer(s, names)) == NULL) {
            perror("replier");
            return 1;
        }
    return 0;
}
