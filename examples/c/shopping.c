/* A shopping list on two devices, with two readers.
 *
 *     shopping FOLDER
 *
 * The phone's document is written by this thread, and two other threads follow it and show it, without locks. The laptop's document is
 * written concurrently, and each gets what it lacks from the other, as they would over a network. Each keeps its document in a file of the
 * folder, which must exist and be empty. At the end the phone's document is opened again from its file.
 */
#define _POSIX_C_SOURCE 200809L

#include "jdoc_file.h"

#include <pthread.h>
#include <sched.h>
#include <stdatomic.h>
#include <stdio.h>
#include <stdlib.h>
#include <string.h>

#define COUNTS 200

/* Ends the program: an example can do nothing else about it. */
static void fail(const char *what, uint32_t status)
{
    fprintf(stderr, "shopping: %s: %s\n", what, jdoc_file_text(status));
    exit(1);
}

/* Allocated bytes, with a 0 after them. */
struct text {
    char *bytes;
    size_t length;
};

static struct text text_of_length(size_t length)
{
    struct text text = {malloc(length + 1), length};
    if (text.bytes == NULL)
        fail("malloc", JDOC_NO_MEMORY);
    text.bytes[length] = '\0';
    return text;
}

static struct text copy_of(const char *bytes, size_t length)
{
    struct text text = text_of_length(length);
    memcpy(text.bytes, bytes, length);
    return text;
}

/* A document that is kept in a file. */
struct device {
    const char *name;
    jdoc_file *file;
};

/* Opens the document in its file, which is created if it doesn't exist. */
static void open_device(struct device *device, const char *folder, const char *name, uint32_t number)
{
    char path[4096];
    snprintf(path, sizeof path, "%s/%s.jdoc", folder, name);
    device->name = name;
    device->file = NULL;
    uint32_t status = jdoc_file_open(&device->file, path, number);
    if (status != JDOC_DONE)
        fail(path, status);
}

static void close_device(struct device *device)
{
    uint32_t status = jdoc_file_close(&device->file);
    if (status != JDOC_DONE)
        fail(device->name, status);
}

/* The reply to a request: what it calls done is saved. */
static struct text call(struct device *device, const char *request)
{
    const char *reply;
    size_t length;
    uint32_t status = jdoc_file_call(device->file, request, strlen(request), &reply, &length);
    if (status != JDOC_DONE)
        fail(request, status);
    return copy_of(reply, length);
}

/* Shows a request and its reply. */
static void show(struct device *device, const char *request)
{
    struct text reply = call(device, request);
    printf("%s: %s -> %s", device->name, request, reply.bytes);
    free(reply.bytes);
}

/* The request `[WORD,TEXT]`, whose text is a line that has to be quoted. */
static struct text request_of_line(const char *word, const char *line)
{
    struct text request = text_of_length(strlen(word) + 2 * strlen(line) + 7);
    char *at = request.bytes + sprintf(request.bytes, "[\"%s\",\"", word);
    for (; *line != '\0' && *line != '\n'; line++) {
        if (*line == '"' || *line == '\\')
            *at++ = '\\';
        *at++ = *line;
    }
    strcpy(at, "\"]");
    return request;
}

/* The request `["receive",TEXT]`, from a reply `["bundle",TEXT,MORE,BEYOND]`, whose text is already quoted. */
static struct text request_of_bundle(const char *reply)
{
    static const char begin[] = "[\"bundle\",";
    if (strncmp(reply, begin, sizeof begin - 1) != 0)
        fail(reply, 0);
    const char *quoted = reply + sizeof begin - 1;
    const char *end = quoted + 1;
    while (*end != '"')
        end += *end == '\\' ? 2 : 1;
    int length = (int)(end + 1 - quoted);
    struct text request = text_of_length((size_t)length + 12);
    sprintf(request.bytes, "[\"receive\",%.*s]", length, quoted);
    return request;
}

/* Gives one device what it lacks from the other one. It all fits into one bundle here; else MORE would be true, and it would say hello
 * again. */
static void bring_up_to_date(struct device *device, struct device *peer)
{
    struct text hello = call(device, "[\"hello\"]");
    struct text question = request_of_line("answer", hello.bytes);
    struct text bundle = call(peer, question.bytes);
    struct text receipt = request_of_bundle(bundle.bytes);
    struct text received = call(device, receipt.bytes);
    printf("%s received from %s: %s", device->name, peer->name, received.bytes);
    free(hello.bytes);
    free(question.bytes);
    free(bundle.bytes);
    free(receipt.bytes);
    free(received.bytes);
}

/* How long the phone's history is at the end; 0 until that is known. */
static atomic_size_t end_length;

/* How many readers have reached the end. */
static atomic_int arrived;

/* A reader that follows the document to the end, and the last glance at it. */
struct reader {
    jdoc_handle handle;
    struct text shown;
};

/* The reply to a reader's last question. */
static struct text reply_of(jdoc_handle *reader)
{
    struct text text = text_of_length(255);
    uint32_t status = jdoc_reply(reader, text.bytes, text.length, &text.length);
    if (status == JDOC_TOO_SHORT) {
        size_t length = text.length;
        free(text.bytes);
        text = text_of_length(length);
        status = jdoc_reply(reader, text.bytes, text.length, &text.length);
    }
    if (status != JDOC_DONE)
        fail("jdoc_reply", status);
    text.bytes[text.length] = '\0';
    return text;
}

static void *follow(void *argument)
{
    static const char glance[] = "[\"glance\",[],9,99]";
    struct reader *reader = argument;
    size_t length = 0;
    size_t end;
    do {
        size_t before = length;
        uint32_t status = jdoc_follow(&reader->handle, &length);
        if (status != JDOC_DONE)
            fail("jdoc_follow", status);
        if (length < before)
            fail("a reader went back", 0);
        status = jdoc_ask(&reader->handle, glance, sizeof glance - 1);
        if (status != JDOC_DONE)
            fail("jdoc_ask", status);
        free(reader->shown.bytes);
        reader->shown = reply_of(&reader->handle);
        sched_yield();
        end = atomic_load(&end_length);
    } while (end == 0 || length < end);
    atomic_fetch_add(&arrived, 1);
    return NULL;
}

/* Writes the list and counts up, and exchanges what was written. */
static void write_list(struct device *phone, struct device *laptop)
{
    show(phone, "[\"assign\",[\"list\"],[]]");
    show(phone, "[\"insert\",[\"list\",0],\"milk\"]");
    show(laptop, "[\"assign\",[\"title\"],\"Shopping\"]");
    bring_up_to_date(laptop, phone);
    bring_up_to_date(phone, laptop);
    show(laptop, "[\"insert\",[\"list\",1],\"eggs\"]");
    show(phone, "[\"insert\",[\"list\",1],\"bread\"]");
    for (int count = 1; count <= COUNTS; count++) {
        char request[64];
        snprintf(request, sizeof request, "[\"assign\",[\"count\"],%d]", count);
        struct text reply = call(phone, request);
        free(reply.bytes);
    }
    bring_up_to_date(laptop, phone);
    bring_up_to_date(phone, laptop);
}

int main(int argc, char **argv)
{
    if (argc != 2)
        fail("the folder is missing", 0);
    struct device phone, laptop;
    open_device(&phone, argv[1], "phone", 1);
    open_device(&laptop, argv[1], "laptop", 2);

    struct reader readers[2];
    pthread_t threads[2];
    for (int index = 0; index < 2; index++) {
        readers[index] = (struct reader){JDOC_CLOSED_HANDLE, {NULL, 0}};
        uint32_t status = jdoc_file_reader(phone.file, &readers[index].handle, 16);
        if (status != JDOC_DONE)
            fail("jdoc_file_reader", status);
        if (pthread_create(&threads[index], NULL, follow, &readers[index]) != 0)
            fail("pthread_create", 0);
    }

    write_list(&phone, &laptop);
    atomic_store(&end_length, (size_t)(COUNTS + 5));
    while (atomic_load(&arrived) < 2) {
        uint32_t status = jdoc_file_feed(phone.file);
        if (status != JDOC_DONE)
            fail("jdoc_file_feed", status);
        sched_yield();
    }
    for (int index = 0; index < 2; index++) {
        pthread_join(threads[index], NULL);
        printf("reader %d: %s", index + 1, readers[index].shown.bytes);
        free(readers[index].shown.bytes);
        jdoc_close(&readers[index].handle);
    }
    show(&laptop, "[\"glance\",[],9,99]");
    close_device(&laptop);
    close_device(&phone);

    open_device(&phone, argv[1], "phone", 0);
    show(&phone, "[\"status\"]");
    show(&phone, "[\"glance\",[],9,99]");
    close_device(&phone);
    return 0;
}
