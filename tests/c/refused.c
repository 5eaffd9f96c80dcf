/* A document, its reader and a peer, and a document in the file that its word names, run with each allocation refused in turn (tests/c.sh):
 * a refused call is made again, and at the end everything is as usual. It allocates nothing itself, and prints only what went wrong.
 */
#include "jdoc_file.h"

#include <stdio.h>
#include <stdlib.h>
#include <string.h>

#define ROOM 4096

static char reply[ROOM], lines[ROOM];

static void expect(int is_so, const char *what)
{
    if (!is_so) {
        fprintf(stderr, "refused: %s, and the last reply was %s\n", what, reply);
        exit(1);
    }
}

/* Makes a call again if its allocation failed: one allocation of a run is refused. */
#define AGAIN(call) \
    do { \
        uint32_t status = (call); \
        if (status == JDOC_NO_MEMORY) \
            status = (call); \
        expect(status == JDOC_DONE, #call); \
    } while (0)

static void take_reply(jdoc_handle *handle)
{
    size_t length;
    expect(jdoc_reply(handle, reply, ROOM - 1, &length) == JDOC_DONE, "jdoc_reply");
    reply[length] = '\0';
}

/* Gets the reply to a question, from a document or from a reader. */
static void ask(jdoc_handle *handle, uint32_t (*call)(jdoc_handle *, const char *, size_t), const char *question)
{
    AGAIN(call(handle, question, strlen(question)));
    take_reply(handle);
    if (strstr(reply, "\"E1\"") != NULL) {
        AGAIN(call(handle, question, strlen(question)));
        take_reply(handle);
    }
}

/* Asks for a change until the document has this many operations, and for a save until all count as saved. */
static void change(jdoc_handle *document, const char *request, int wanted)
{
    int number, length = -1, saved = -1;
    for (int turn = 0; turn < 4 && saved < wanted; turn++) {
        ask(document, jdoc_call, "[\"status\"]");
        expect(sscanf(reply, "[\"status\",%d,%d,%d]", &number, &length, &saved) == 3, "status");
        const char *next = length < wanted ? request : "[\"save\"]";
        if (saved < wanted)
            jdoc_call(document, next, strlen(next));
    }
    expect(length == wanted && saved == wanted, request);
}

/* The request `["receive",TEXT]`, with what the document has for a peer that knows nothing. */
static void bundle(jdoc_handle *document, char *request)
{
    ask(document, jdoc_call, "[\"answer\",\"[\\\"hello\\\",[]]\"]");
    char *end = strrchr(reply, '"');
    expect(strncmp(reply, "[\"bundle\",", 10) == 0 && strcmp(end, "\",false,false]\n") == 0, "answer");
    snprintf(request, ROOM, "[\"receive\",%.*s]", (int)(end + 1 - (reply + 10)), reply + 10);
}

/* Opens a file again if an allocation failed. */
static jdoc_file *opened(const char *path)
{
    jdoc_file *file = NULL;
    uint32_t status = jdoc_file_open(&file, path, 1);
    if (status == JDOC_NO_MEMORY) {
        expect(jdoc_file_close(&file) == JDOC_DONE, "closing what wasn't opened");
        status = jdoc_file_open(&file, path, 1);
    }
    expect(status == JDOC_DONE, "jdoc_file_open");
    return file;
}

/* Makes a request of a file, again if an allocation failed, and takes its reply. */
static void ask_file(jdoc_file *file, const char *request)
{
    const char *said;
    size_t length;
    uint32_t status = jdoc_file_call(file, request, strlen(request), &said, &length);
    if (status == JDOC_FILE_UNSAVED)
        status = jdoc_file_call(file, "[\"save\"]", 8, &said, &length);
    if (status == JDOC_NO_MEMORY || strstr(said, "\"E1\"") != NULL)
        status = jdoc_file_call(file, request, strlen(request), &said, &length);
    expect(status == JDOC_DONE && length < ROOM, request);
    strcpy(reply, said);
}

/* A document in a file, with one more write if one was made again that was made. */
static void keep(const char *path)
{
    int number, length, saved;
    remove(path);
    jdoc_file *file = opened(path);
    ask_file(file, "[\"assign\",[\"n\"],1]");
    ask_file(file, "[\"assign\",[\"n\"],2]");
    expect(jdoc_file_close(&file) == JDOC_DONE, "jdoc_file_close");
    file = opened(path);
    ask_file(file, "[\"status\"]");
    expect(sscanf(reply, "[\"status\",%d,%d,%d]", &number, &length, &saved) == 3, "status");
    expect((length == 2 || length == 3) && saved == length, "two writes are in the file");
    ask_file(file, "[\"glance\",[],9,99]");
    expect(strstr(reply, ",{\"n\":2}]") != NULL, "the last one is shown");
    expect(jdoc_file_close(&file) == JDOC_DONE, "jdoc_file_close");
}

int main(int argc, char **argv)
{
    static const char glance[] = "[\"glance\",[],9,99]";
    static const char shown[] = "[\"glance\",3,{\"list\":[\"milk\"],\"title\":\"Shopping\"}]\n";
    static char received[ROOM];
    jdoc_handle document = JDOC_CLOSED_HANDLE, peer = JDOC_CLOSED_HANDLE, reader = JDOC_CLOSED_HANDLE;
    size_t taken, count = 0, length;

    AGAIN(jdoc_open(&document, 1, "", 0, &taken));
    AGAIN(jdoc_open(&peer, 2, "", 0, &taken));
    AGAIN(jdoc_reader(&document, &reader, 2));
    change(&document, "[\"assign\",[\"list\"],[]]", 1);
    change(&document, "[\"insert\",[\"list\",0],\"milk\"]", 2);
    change(&peer, "[\"assign\",[\"title\"],\"Shopping\"]", 1);
    bundle(&peer, received);
    change(&document, received, 3);

    for (int turn = 0; turn < 2; turn++) {
        AGAIN(jdoc_feed(&document));
        AGAIN(jdoc_follow(&reader, &count));
    }
    expect(count == 3, "the reader has followed");
    ask(&reader, jdoc_ask, glance);
    expect(strcmp(reply, shown) == 0, shown);
    jdoc_close(&reader);

    AGAIN(jdoc_lines(&document, lines, ROOM, &length));
    expect(jdoc_lines_stored(&document) == JDOC_DONE, "jdoc_lines_stored");
    jdoc_close(&document);
    AGAIN(jdoc_open(&document, 0, lines, length, &taken));
    expect(taken == length, "all lines are taken");
    ask(&document, jdoc_call, glance);
    expect(strcmp(reply, shown) == 0, shown);
    jdoc_close(&document);
    jdoc_close(&peer);
    expect(argc == 2, "the file is missing");
    keep(argv[1]);
    return 0;
}
