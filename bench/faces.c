/* faces COUNT: writes, reads and receives COUNT times through the library for C, and prints the seconds of each, for bench/faces.py. */
#define _POSIX_C_SOURCE 200809L

#include "jdoc.h"

#include <stdio.h>
#include <stdlib.h>
#include <string.h>
#include <time.h>

#define KEYS 100
/* A reply in this program: a bundle is the longest, of 4194304 bytes, in which each quote is escaped. */
#define ROOM 9000000

static char reply[ROOM];

static double now(void)
{
    struct timespec at;
    clock_gettime(CLOCK_MONOTONIC, &at);
    return (double)at.tv_sec + (double)at.tv_nsec / 1e9;
}

/* Puts the reply to a request into `reply`; it must begin with this. */
static void call(jdoc_handle *document, const char *request, const char *begin)
{
    size_t length = 0;
    uint32_t status = jdoc_call(document, request, strlen(request));
    if (status == JDOC_DONE)
        status = jdoc_reply(document, reply, ROOM - 1, &length);
    reply[length] = '\0';
    if (status != JDOC_DONE || strncmp(reply, begin, strlen(begin)) != 0) {
        fprintf(stderr, "faces: %.80s: status %u, %.80s\n", request, (unsigned)status, reply);
        exit(1);
    }
}

static void write_all(jdoc_handle *document, int count)
{
    char request[64];
    for (int index = 0; index < count; index++) {
        snprintf(request, sizeof request, "[\"assign\",[\"k%d\"],%d]", index % KEYS, index);
        call(document, request, "[\"made\",");
    }
}

static void read_all(jdoc_handle *document, int count)
{
    char request[64];
    for (int index = 0; index < count; index++) {
        snprintf(request, sizeof request, "[\"values\",[\"k%d\"]]", index % KEYS);
        call(document, request, "[\"reading\",");
    }
}

/* Receives everything that the source has, which may take several bundles, and returns the seconds of the receipts. */
static double receive_all(jdoc_handle *document, jdoc_handle *source)
{
    char *request = malloc(ROOM + 16);
    double seconds = 0;
    int has_more = 1;
    while (has_more) {
        call(document, "[\"hello\"]", "[\"hello\",");
        char *at = request + sprintf(request, "[\"answer\",\"");
        for (const char *from = reply; *from != '\n'; from++) {
            if (*from == '"')
                *at++ = '\\';
            *at++ = *from;
        }
        strcpy(at, "\"]");
        call(source, request, "[\"bundle\",");
        /* The text within `["bundle",TEXT,MORE,BEYOND]` is already quoted. */
        char *end = strrchr(reply, '"');
        has_more = strncmp(end + 1, ",true", 5) == 0;
        sprintf(request, "[\"receive\",%.*s]", (int)(end + 1 - (reply + 10)), reply + 10);
        double began = now();
        call(document, request, "[\"received\",");
        seconds += now() - began;
    }
    free(request);
    return seconds;
}

int main(int argc, char **argv)
{
    int count = argc == 2 ? atoi(argv[1]) : 0;
    jdoc_handle document = JDOC_CLOSED_HANDLE, peer = JDOC_CLOSED_HANDLE;
    size_t taken;
    if (count < 1 || jdoc_open(&document, 1, "", 0, &taken) != JDOC_DONE || jdoc_open(&peer, 2, "", 0, &taken) != JDOC_DONE)
        return 1;

    double began = now();
    write_all(&document, count);
    double wrote = now();
    read_all(&document, count);
    double read = now();
    double received = receive_all(&peer, &document);
    call(&peer, "[\"status\"]", "[\"status\",2,");
    if (atoi(reply + 12) != count)
        return 1;
    printf("%.6f %.6f %.6f\n", wrote - began, read - wrote, received);
    jdoc_close(&peer);
    jdoc_close(&document);
    return 0;
}
