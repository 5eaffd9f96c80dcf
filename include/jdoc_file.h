/* jdoc_file: a document that is kept in a file, over the calls of jdoc.h, for hosts on POSIX systems.
 *
 * `jdoc_file_call` answers a request as `jdoc serve FILE` does: what a reply calls made, received or saved was appended to the file and
 * synced before the reply, and only what is saved is sent to a peer. The file is locked (flock) while it is open, against `jdoc serve`
 * too, and its folder is synced when it is opened, so that a new file survives a loss of power.
 *
 * Compile jdoc_file.c with your program (C11, with -pthread), beside the library.
 *
 * - A file is used by one call at a time, as a handle is. A second call is refused with JDOC_FILE_BUSY.
 * - During a call the calling thread's signals wait, other than those of a fault such as SIGSEGV. So a handler may leave by longjmp, or
 *   raise an exception of its language: no call is left half done.
 * - Its descriptor is never 0, 1 or 2, and is closed by exec. A forked child has neither descriptor nor lock; each call there is refused
 *   with JDOC_FILE_OTHER_PROCESS.
 * - A limit for the size of files (RLIMIT_FSIZE) is an error like a full disk: its signal, SIGXFSZ, doesn't come.
 */
#ifndef JDOC_FILE_H
#define JDOC_FILE_H

#include "jdoc.h"

#ifdef __cplusplus
extern "C" {
#endif

/* A document in a file. */
typedef struct jdoc_file jdoc_file;

/* How a call ended, besides the statuses of jdoc.h. After JDOC_FILE_LOST and JDOC_FILE_GONE each call but `jdoc_file_close` is refused
 * with the same status. */
enum jdoc_file_status {
    /* What was asked for is in the document but couldn't be saved; the file has what it had. Don't ask again: the request `["save"]`, the
     * next write and the closing save it too. */
    JDOC_FILE_UNSAVED = 16,
    /* A sync or a cut failed, so it isn't known what the file has. What the request made may be lost. Open the file again: all that was
     * called saved is there. */
    JDOC_FILE_LOST = 17,
    /* The file was moved, deleted, replaced or changed by others: what its name leads to isn't what was opened and written. What the
     * request made isn't in the file of that name. */
    JDOC_FILE_GONE = 18,
    /* The file was opened in another process. */
    JDOC_FILE_OTHER_PROCESS = 19,
    /* Another call of this file hasn't ended. */
    JDOC_FILE_BUSY = 20,
    /* The file is open elsewhere, in this program or in another one. */
    JDOC_FILE_LOCKED = 21,
    /* There is no such folder. */
    JDOC_FILE_NOT_FOUND = 22,
    /* The file, or its folder, may not be read or written. */
    JDOC_FILE_NO_ACCESS = 23,
    /* It is a folder, a pipe or a device. */
    JDOC_FILE_NOT_REGULAR = 24,
    /* It is larger than any document's. */
    JDOC_FILE_TOO_LARGE = 25,
    /* A line doesn't fit: the file was changed, or isn't a document's. `jdoc_file_line` says which. */
    JDOC_FILE_DAMAGED = 26,
    /* The file's own entries are of another number, which `jdoc_file_number` says. */
    JDOC_FILE_WRONG_NUMBER = 27,
    /* Another call of the system failed, as `jdoc_file_error` says. */
    JDOC_FILE_FAILED = 28
};

/* Opens the document in the file of this path, which is created if it doesn't exist; or one in memory if the path is NULL, which saves
 * nothing and calls everything saved. `*file` is NULL before.
 *
 * `number` is this device's, as for `jdoc_open`. If it is 0, it is that of the file's own entries, or a random one if there are none.
 *
 * What comes after the last line feed was being written when the power went, and is cut off; so are zero bytes there. Any other file that
 * isn't a document's is left as it is.
 *
 * Returns JDOC_DONE; else why it isn't open: JDOC_WAS_OPEN, JDOC_NO_MEMORY, JDOC_FILE_GONE, or one of the statuses from JDOC_FILE_LOCKED
 * to JDOC_FILE_FAILED. `*file` says more about it then, refuses each call with it, and is to be closed, unless it is NULL. It costs what
 * receiving as many operations costs, and with JDOC_FILE_DAMAGED up to some twenty times as much. */
uint32_t jdoc_file_open(jdoc_file **file, const char *path, uint32_t number);

/* Saves what isn't saved, closes the file, frees what it holds, and sets `*file` to NULL. NULL may be closed again. In another process
 * than opened it, it gives up what it has of the file there, and nothing changes for the one that opened it. Readers may stay open.
 *
 * Returns JDOC_DONE; JDOC_FILE_UNSAVED, JDOC_FILE_LOST or JDOC_FILE_GONE if what wasn't saved is lost now; or JDOC_FILE_BUSY, which
 * closes nothing. */
uint32_t jdoc_file_close(jdoc_file **file);

/* Answers a request as `jdoc_call` does, and saves what came of it. `*reply` is the reply with its line feed and a 0 after it, which are
 * not the caller's, and are there until the next call; `*reply_len` is its length without the 0.
 *
 * Returns JDOC_DONE; JDOC_FILE_UNSAVED, with the reply `["unsaved",LENGTH,SAVED]` if there is memory for it; or, with no reply,
 * JDOC_NO_MEMORY (what the request writes or receives may be in the document, and even in the file), JDOC_CLOSED for a NULL file,
 * JDOC_FILE_LOST, JDOC_FILE_GONE, JDOC_FILE_OTHER_PROCESS, JDOC_FILE_BUSY, or what the opening returned. */
uint32_t jdoc_file_call(jdoc_file *file, const char *line, size_t line_len, const char **reply, size_t *reply_len);

/* Copies the reply to the last request, as `jdoc_reply`: for a host whose other code may call between a request and the use of its reply.
 *
 * Returns JDOC_DONE, JDOC_TOO_SHORT, JDOC_CLOSED, JDOC_FILE_OTHER_PROCESS or JDOC_FILE_BUSY. */
uint32_t jdoc_file_reply(jdoc_file *file, char *out, size_t room, size_t *length);

/* Opens a reader of the document, as `jdoc_reader`. It may show operations that aren't saved yet.
 *
 * Returns what `jdoc_reader` does, or what refuses `jdoc_file_call`. */
uint32_t jdoc_file_reader(jdoc_file *file, jdoc_handle *reader, size_t room);

/* Sends each reader what it has room for, as `jdoc_feed`.
 *
 * Returns what `jdoc_feed` does, or what refuses `jdoc_file_call`. */
uint32_t jdoc_file_feed(jdoc_file *file);

/* The document's number; after JDOC_FILE_WRONG_NUMBER, that of the file. 0 if it isn't known. */
uint32_t jdoc_file_number(const jdoc_file *file);

/* After JDOC_FILE_DAMAGED: the line that doesn't fit, counted from 1. 0 if memory was too short to find it. */
uint64_t jdoc_file_line(const jdoc_file *file);

/* The errno of the last call of the system that failed, 0 if there is none. */
int jdoc_file_error(const jdoc_file *file);

/* What a status means, in a few words: one of this header or of jdoc.h. The text is nobody's to free. */
const char *jdoc_file_text(uint32_t status);

#ifdef __cplusplus
}
#endif

#endif
