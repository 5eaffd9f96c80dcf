/* jdoc: an embedded, local-first JSON document engine.
 *
 * A handle holds one document that is written, or a reader of one. Requests and replies are JSON in UTF-8, one line each: those of
 * `jdoc serve`, which are in docs/FORMATS.md. The library opens no files or sockets, starts no threads, prints nothing, and never ends the
 * process. It allocates with malloc and realloc, and frees with free.
 *
 * The journal is the caller's. On POSIX systems `jdoc_file.h` beside this header keeps it in a file, with all that this takes: use that,
 * unless you have a store of your own. What a call made, received or saved is in the lines that `jdoc_lines` gives, and nowhere else:
 * store them before you act on the reply, show it or send it to a peer, and then call `jdoc_lines_stored`. So where a reply says "made",
 * "received" or "saved", it says that the lines are there for you to store. A document that is never stored is lost with its handle; its
 * number must not be used again then.
 *
 * What the caller must ensure, since nothing checks it:
 * - All bytes of a handle are 0 before it is first used (JDOC_CLOSED_HANDLE). After that, only these functions write to it. It isn't copied
 *   or moved while it is open, and `jdoc_close` is called before its memory is freed or reused.
 * - A handle is used by one call at a time. Any thread may make the call, if it is ordered after the last one: by a lock, or by starting
 *   or joining a thread. Two handles may be used by two calls at once, even a document and its readers: none of them waits for another.
 * - No pointer is NULL, even if the length that goes with it is 0. A pointer and its length are those of one array, which nobody changes
 *   during the call. The handle, what is read and what is written don't overlap.
 * - No two handles or programs use the same number in one document at once, or the same journal.
 * - malloc, realloc and free belong together, and align to 16 bytes. No call is made in a signal handler, or in a forked child of a process
 *   with threads.
 */
#ifndef JDOC_H
#define JDOC_H

#include <stdbool.h>
#include <stddef.h>
#include <stdint.h>

#ifdef __cplusplus
extern "C" {
#endif

/* A document, or a reader of one. Its fields are the library's. */
typedef struct jdoc_handle {
    void *held;
    bool is_open;
} jdoc_handle;

/* A handle that is closed: jdoc_handle document = JDOC_CLOSED_HANDLE; */
#define JDOC_CLOSED_HANDLE {NULL, false}

/* How a call ended. A call that didn't end with JDOC_DONE has done nothing, unless it says otherwise. */
enum jdoc_status {
    /* It did its job. */
    JDOC_DONE = 0,
    /* An allocation failed. */
    JDOC_NO_MEMORY = 1,
    /* The reply or the lines don't fit into `out`; nothing was written to it, and `*length` is how long they are. */
    JDOC_TOO_SHORT = 2,
    /* The handle is closed. */
    JDOC_CLOSED = 3,
    /* The handle to be opened is already open. */
    JDOC_WAS_OPEN = 4,
    /* The number is 0 and the journal has no entry of its own, or the number differs from the journal's. */
    JDOC_BAD_NUMBER = 5,
    /* A line of the journal doesn't fit: it was changed, or isn't a journal's. From `jdoc_follow`: an operation doesn't fit, which is a
     * fault of this library. */
    JDOC_UNFIT = 6,
    /* The call is for a document and this is a reader, or the other way round. */
    JDOC_WRONG_KIND = 7
};

/* Opens a document in a closed handle. It resumes from the lines of its journal: those that `jdoc_lines` gave before, one after the
 * other, or none for a new document. The bytes aren't needed after the call.
 *
 * `number` is this device's, 1 to 4294967295, which no other device of the document has. It may be 0 if the journal has an entry that was
 * made here: the document then has the number of that entry.
 *
 * If the bytes end without a line feed, the last line was being written when the power went, and is skipped. `*taken` is how many bytes
 * were taken: truncate the file to this length before you append to it.
 *
 * Returns JDOC_DONE, JDOC_WAS_OPEN, JDOC_BAD_NUMBER, JDOC_UNFIT or JDOC_NO_MEMORY. Only JDOC_DONE opens the handle and sets `*taken`. It
 * costs what receiving as many operations costs. */
uint32_t jdoc_open(jdoc_handle *document, uint32_t number, const char *journal, size_t journal_len, size_t *taken);

/* Closes a handle, and frees all that it holds. A closed one may be closed again. A document and its readers may be closed in any order:
 * once its document is closed, a reader goes on showing what it has taken in. */
void jdoc_close(jdoc_handle *handle);

/* Answers a request to a document: one line, without its line feed, of at most 33554432 bytes. `jdoc_reply` gives the reply. A line that
 * isn't a request is answered too, with `["refused","E22"]`. Then it does what `jdoc_feed` does, as far as there is memory.
 *
 * Returns JDOC_DONE, JDOC_CLOSED, JDOC_WRONG_KIND or JDOC_NO_MEMORY. With the last two the handle has no reply, not even its last one. With
 * JDOC_NO_MEMORY what the request writes or receives may be in the document all the same: ask `["status"]`; the lines of what is in the
 * document are in `jdoc_lines`. */
uint32_t jdoc_call(jdoc_handle *document, const char *line, size_t line_len);

/* Copies the reply to the last request of this handle, with its line feed and without a terminating 0, to `out`, which has room for `room`
 * bytes. `*length` is how long it is, even if it doesn't fit; 0 before the first request, and after one that had no reply. The copy is the
 * caller's, and the reply can be copied again until the next request.
 *
 * Returns JDOC_DONE, JDOC_TOO_SHORT or JDOC_CLOSED. */
uint32_t jdoc_reply(jdoc_handle *handle, char *out, size_t room, size_t *length);

/* Copies the journal lines of everything that came since the last lines that were called stored, to `out`, which has room for `room`
 * bytes. `*length` is how long they are, even if they don't fit; 0 if nothing has come. The copy is the caller's: append it to the
 * journal, sync that, and call `jdoc_lines_stored`. Lines that aren't called stored are given again.
 *
 * Returns JDOC_DONE, JDOC_TOO_SHORT, JDOC_CLOSED, JDOC_WRONG_KIND or JDOC_NO_MEMORY. */
uint32_t jdoc_lines(jdoc_handle *document, char *out, size_t room, size_t *length);

/* Calls the lines that the last `jdoc_lines` gave stored: the next `jdoc_lines` goes on after them. What came between these two calls
 * isn't among them.
 *
 * Returns JDOC_DONE, JDOC_CLOSED or JDOC_WRONG_KIND. */
uint32_t jdoc_lines_stored(jdoc_handle *document);

/* Opens a reader of a document in a closed handle. It is for another thread, where it follows the document and answers questions while the
 * document is written, without locks and without waiting. It has its own memory for the content, and shares the operations.
 *
 * Up to `room` operations, at least one, may be on their way to it; those that don't fit wait at the document until `jdoc_feed`. The reader
 * begins with nothing, and takes in the whole history, the oldest operation first. At each moment it shows the beginning of the document's
 * history that it has taken in.
 *
 * Returns JDOC_DONE, JDOC_WAS_OPEN, JDOC_CLOSED, JDOC_WRONG_KIND or JDOC_NO_MEMORY. Only JDOC_DONE opens `reader`. */
uint32_t jdoc_reader(jdoc_handle *document, jdoc_handle *reader, size_t room);

/* Sends each reader of a document what it has room for, and forgets those that were closed. `jdoc_call` does this too: call `jdoc_feed` if
 * a reader may be behind while the document gets no requests.
 *
 * Returns JDOC_DONE, JDOC_CLOSED, JDOC_WRONG_KIND, or JDOC_NO_MEMORY: some readers were then sent less, and the next call goes on. */
uint32_t jdoc_feed(jdoc_handle *document);

/* Takes in what has come to a reader, at most as many operations as it has room for. `*length` is how many it has taken in since it was
 * opened: the length of the history that it shows. Once that is the LENGTH of a reply of the document, the reader shows what that reply
 * spoke of.
 *
 * Returns JDOC_DONE, JDOC_CLOSED, JDOC_WRONG_KIND, JDOC_UNFIT, or JDOC_NO_MEMORY: the operations before the failing one were then taken in,
 * and the next call goes on. Only JDOC_DONE sets `*length`. */
uint32_t jdoc_follow(jdoc_handle *reader, size_t *length);

/* Answers a question or a glance from what a reader has taken in, as `jdoc_call` does for a document; any other request is answered with
 * `["refused","E22"]`. `jdoc_reply` gives the reply.
 *
 * Returns JDOC_DONE, JDOC_CLOSED, JDOC_WRONG_KIND or JDOC_NO_MEMORY. With the last two the handle has no reply, not even its last one. */
uint32_t jdoc_ask(jdoc_handle *reader, const char *line, size_t line_len);

#ifdef __cplusplus
}
#endif

#endif
