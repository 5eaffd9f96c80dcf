/* What the tests of documents in files share. */
#ifndef KEPT_H
#define KEPT_H

#include "jdoc_file.h"

#include <stdio.h>
#include <stdlib.h>
#include <string.h>
#include <unistd.h>

/* The file that a test is about. */
static char path[4096];
/* The last reply, and what a failure was about. */
static char reply[4096];
static const char *about = "";

static void expect(int is_so, const char *what)
{
    if (!is_so) {
        fprintf(stderr, "kept: %s: not so: %s; the last reply was %s\n", about, what, reply);
        exit(1);
    }
}

static void expect_status(uint32_t status, uint32_t wanted, const char *what)
{
    if (status != wanted) {
        fprintf(stderr, "kept: %s: %s: %s, where '%s' was due; the last reply was %s\n", about, what, jdoc_file_text(status),
            jdoc_file_text(wanted), reply);
        exit(1);
    }
}

static uint32_t ask(jdoc_file *file, const char *request)
{
    const char *said;
    size_t length;
    uint32_t status = jdoc_file_call(file, request, strlen(request), &said, &length);
    expect(strlen(said) == length && length < sizeof reply, "a reply is ended by a 0");
    strcpy(reply, said);
    if (status == JDOC_DONE) {
        char copy[sizeof reply];
        size_t again;
        expect(jdoc_file_reply(file, copy, length - 1, &again) == JDOC_TOO_SHORT && again == length, "a reply is too long");
        expect(jdoc_file_reply(file, copy, length, &again) == JDOC_DONE && memcmp(copy, reply, length) == 0, "a reply is copied");
    }
    return status;
}

/* Writes a number at `n`. */
static uint32_t put(jdoc_file *file, int value)
{
    char request[64];
    snprintf(request, sizeof request, "[\"assign\",[\"n\"],%d]", value);
    return ask(file, request);
}

/* What is at `n`, or 0. */
static int get(jdoc_file *file)
{
    int length, value = 0;
    expect_status(ask(file, "[\"glance\",[\"n\"],1,9]"), JDOC_DONE, "a glance");
    if (sscanf(reply, "[\"glance\",%d,%d]", &length, &value) != 2)
        value = 0;
    return value;
}

/* How many operations there are, and how many of them are saved. */
static int length_of(jdoc_file *file, int *saved)
{
    unsigned number;
    int length;
    expect_status(ask(file, "[\"status\"]"), JDOC_DONE, "the status");
    expect(sscanf(reply, "[\"status\",%u,%d,%d]", &number, &length, saved) == 3, "the status has three numbers");
    return length;
}

static jdoc_file *opened(const char *name, uint32_t number)
{
    jdoc_file *file = NULL;
    expect_status(jdoc_file_open(&file, name, number), JDOC_DONE, "opening");
    return file;
}

static void closed(jdoc_file *file)
{
    expect_status(jdoc_file_close(&file), JDOC_DONE, "closing");
    expect(file == NULL, "a closed file is NULL");
}

/* What a document in a file has at `n`, and closes it. */
static int value_in(const char *name)
{
    jdoc_file *file = opened(name, 0);
    int value = get(file);
    closed(file);
    return value;
}

/* The bytes of a file, of which there are fewer than `room`. */
static size_t bytes_of(const char *name, char *bytes, size_t room)
{
    FILE *file = fopen(name, "rb");
    expect(file != NULL, name);
    size_t length = fread(bytes, 1, room - 1, file);
    bytes[length] = '\0';
    fclose(file);
    return length;
}

#endif
