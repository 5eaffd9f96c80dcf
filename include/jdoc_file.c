/* A document that is kept in a file. See jdoc_file.h. */
#define _XOPEN_SOURCE 700
#define _DARWIN_C_SOURCE
#define _FILE_OFFSET_BITS 64

#include "jdoc_file.h"

#include <errno.h>
#include <fcntl.h>
#include <inttypes.h>
#include <pthread.h>
#include <signal.h>
#include <stdatomic.h>
#include <stdio.h>
#include <stdlib.h>
#include <string.h>
#include <sys/file.h>
#include <sys/stat.h>
#include <unistd.h>

/* The most bytes of a journal: a history has at most this many operations, and a line at most so many bytes. */
#define MOST_BYTES (UINT64_C(1048576) * 90000)
/* How many bytes a buffer has at first, and from how many on it is given back after a call. */
#define LEAST_ROOM 512
#define MUCH_ROOM 1048576

/* Bytes with a 0 after them, and the room that there is for both. */
struct buffer {
    char *bytes;
    size_t room;
    size_t length;
};

struct jdoc_file {
    jdoc_handle document;
    /* The path from the root; NULL in memory. */
    char *name;
    /* -1 if it isn't open. */
    int descriptor;
    /* What is open, and the process that opened it. */
    dev_t device;
    ino_t inode;
    pid_t process;
    bool is_inherited;
    /* Set during a call. */
    atomic_flag is_busy;
    /* With what each call is refused, or JDOC_DONE. */
    uint32_t end;
    /* How many bytes of the file are stored, and how many operations these are. */
    off_t length;
    uint64_t saved;
    uint32_t number;
    uint64_t line;
    int error;
    struct buffer lines;
    struct buffer reply;
    /* The next one of all open files. */
    jdoc_file *next;
};

/* -- Signals and forks -- */

/* Makes this thread's signals wait, except those that a fault of this thread raises, or that say so. */
static void hold_signals(sigset_t *before)
{
    static const int faults[] = {SIGABRT, SIGBUS, SIGFPE, SIGILL, SIGSEGV, SIGSYS, SIGTRAP};
    sigset_t held;
    sigfillset(&held);
    for (size_t index = 0; index < sizeof faults / sizeof faults[0]; index++)
        sigdelset(&held, faults[index]);
    pthread_sigmask(SIG_BLOCK, &held, before);
}

static void release_signals(const sigset_t *before)
{
    pthread_sigmask(SIG_SETMASK, before, NULL);
}

/* A write at the limit for file sizes has sent this thread a SIGXFSZ, which waits, and would end the program. */
static void forget_limit(void)
{
    sigset_t waiting, limit;
    int taken;
    sigpending(&waiting);
    if (sigismember(&waiting, SIGXFSZ)) {
        sigemptyset(&limit);
        sigaddset(&limit, SIGXFSZ);
        sigwait(&limit, &taken);
    }
}

/* All open files of this process. A lock (flock) lives as long as any copy of its descriptor, so a forked child closes its copies: else the
 * file would stay locked as long as the child lives. */
static pthread_mutex_t files_lock = PTHREAD_MUTEX_INITIALIZER;
static jdoc_file *files;
static pthread_once_t at_fork = PTHREAD_ONCE_INIT;
static int at_fork_failed;

static void lock_files(void)
{
    pthread_mutex_lock(&files_lock);
}

static void unlock_files(void)
{
    pthread_mutex_unlock(&files_lock);
}

static void give_up_files(void)
{
    for (; files != NULL; files = files->next) {
        close(files->descriptor);
        files->descriptor = -1;
        files->is_inherited = true;
    }
    unlock_files();
}

static void watch_forks(void)
{
    at_fork_failed = pthread_atfork(lock_files, unlock_files, give_up_files);
}

static bool is_elsewhere(const jdoc_file *file)
{
    return file->is_inherited || file->process != getpid();
}

/* -- Calls of the system -- */

/* Opens a file with a descriptor above 2, where nobody takes it for standard input, output or error, and that exec closes. */
static int open_above(const char *name, int flags)
{
    int low, high;
    do
        low = open(name, flags | O_CLOEXEC | O_NOCTTY | O_NONBLOCK, 0666);
    while (low < 0 && errno == EINTR);
    if (low < 0 || low > STDERR_FILENO)
        return low;
    high = fcntl(low, F_DUPFD_CLOEXEC, STDERR_FILENO + 1);
    int error = errno;
    close(low);
    errno = error;
    return high;
}

static int sync_all(int descriptor)
{
    int failed;
#ifdef F_FULLFSYNC
    /* A plain sync leaves the bytes in the cache of the drive there. */
    if (fcntl(descriptor, F_FULLFSYNC) == 0)
        return 0;
#endif
    do
        failed = fsync(descriptor);
    while (failed != 0 && errno == EINTR);
    return failed;
}

static int cut(int descriptor, off_t length)
{
    int failed;
    do
        failed = ftruncate(descriptor, length);
    while (failed != 0 && errno == EINTR);
    return failed;
}

static int try_lock(int descriptor)
{
    int failed;
    do
        failed = flock(descriptor, LOCK_EX | LOCK_NB);
    while (failed != 0 && errno == EINTR);
    return failed;
}

/* Syncs the folder in which the file is, wherever links lead to it. */
static int sync_folder(const char *name)
{
    char *path = realpath(name, NULL);
    if (path == NULL)
        return -1;
    char *last = strrchr(path, '/');
    last[last == path] = '\0';
    int folder = open_above(path, O_RDONLY);
    int failed = folder < 0 ? -1 : sync_all(folder);
    int error = errno;
    if (folder >= 0)
        close(folder);
    free(path);
    errno = error;
    return failed;
}

/* Reads up to `count` bytes from a place on. Returns how many there were, or -1. */
static ssize_t read_from(int descriptor, char *bytes, size_t count, off_t from)
{
    size_t had = 0;
    while (had < count) {
        ssize_t some = pread(descriptor, bytes + had, count - had, from + (off_t)had);
        if (some < 0 && errno != EINTR)
            return -1;
        if (some == 0)
            break;
        if (some > 0)
            had += (size_t)some;
    }
    return (ssize_t)had;
}

/* Writes all bytes from a place on. */
static int write_from(int descriptor, const char *bytes, size_t count, off_t from)
{
    size_t had = 0;
    while (had < count) {
        ssize_t some = pwrite(descriptor, bytes + had, count - had, from + (off_t)had);
        if (some == 0)
            errno = ENOSPC;
        if (some < 0 && errno == EFBIG)
            forget_limit();
        if (some == 0 || (some < 0 && errno != EINTR))
            return -1;
        if (some > 0)
            had += (size_t)some;
    }
    return 0;
}

/* A random number of a device, or 0 if there is none. */
static uint32_t draw_number(void)
{
    uint32_t number = 0;
    int descriptor = open_above("/dev/urandom", O_RDONLY);
    if (descriptor < 0)
        return 0;
    if (read_from(descriptor, (char *)&number, sizeof number, 0) != (ssize_t)sizeof number)
        number = 0;
    else if (number == 0)
        number = 1;
    close(descriptor);
    return number;
}

/* -- Buffers -- */

static bool make_room(struct buffer *buffer, size_t length)
{
    if (length < buffer->room)
        return true;
    size_t room = length < LEAST_ROOM ? LEAST_ROOM : length + 1;
    char *bytes = realloc(buffer->bytes, room);
    if (bytes == NULL)
        return false;
    buffer->bytes = bytes;
    buffer->room = room;
    return true;
}

/* Empties a buffer, and gives back what is large. */
static void empty(struct buffer *buffer)
{
    buffer->length = 0;
    buffer->bytes[0] = '\0';
    if (buffer->room >= MUCH_ROOM) {
        char *bytes = realloc(buffer->bytes, LEAST_ROOM);
        if (bytes != NULL) {
            buffer->bytes = bytes;
            buffer->room = LEAST_ROOM;
        }
    }
}

/* A function that copies bytes of a handle. */
typedef uint32_t copies(jdoc_handle *handle, char *out, size_t room, size_t *length);

/* Copies everything that it has. The buffer is empty if it fails. */
static uint32_t take(jdoc_file *file, struct buffer *buffer, copies *copy)
{
    size_t length = 0;
    uint32_t status;
    while ((status = copy(&file->document, buffer->bytes, buffer->room - 1, &length)) == JDOC_TOO_SHORT) {
        if (!make_room(buffer, length))
            return JDOC_NO_MEMORY;
    }
    buffer->length = status == JDOC_DONE ? length : 0;
    buffer->bytes[buffer->length] = '\0';
    return status;
}

/* -- Saving -- */

/* Ends a file for good. */
static uint32_t end(jdoc_file *file, uint32_t status)
{
    file->error = errno;
    file->end = status;
    return status;
}

/* Whether the name still leads to what is open, and this has as many bytes as it was given. */
static uint32_t check_name(jdoc_file *file, off_t length)
{
    struct stat found;
    errno = 0;
    if (stat(file->name, &found) == 0 && found.st_dev == file->device && found.st_ino == file->inode && found.st_size == length)
        return JDOC_DONE;
    return end(file, JDOC_FILE_GONE);
}

/* Appends the lines to the file and syncs it. */
static uint32_t append(jdoc_file *file, const struct buffer *lines)
{
    if (write_from(file->descriptor, lines->bytes, lines->length, file->length) != 0) {
        file->error = errno;
        return cut(file->descriptor, file->length) == 0 ? JDOC_FILE_UNSAVED : end(file, JDOC_FILE_LOST);
    }
    /* A later sync may succeed without having written anything, so there is no other try. */
    return sync_all(file->descriptor) == 0 ? JDOC_DONE : end(file, JDOC_FILE_LOST);
}

/* Saves what isn't saved, and then makes sure that the file is where it was. */
static uint32_t save(jdoc_file *file)
{
    struct buffer *lines = &file->lines;
    if (take(file, lines, jdoc_lines) != JDOC_DONE)
        return JDOC_FILE_UNSAVED;
    uint32_t status = check_name(file, file->length);
    if (status == JDOC_DONE && lines->length > 0) {
        status = append(file, lines);
        if (status == JDOC_DONE)
            status = check_name(file, file->length + (off_t)lines->length);
        if (status == JDOC_DONE) {
            jdoc_lines_stored(&file->document);
            file->length += (off_t)lines->length;
            for (const char *at = lines->bytes; (at = strchr(at, '\n')) != NULL; at++)
                file->saved++;
        }
    }
    empty(lines);
    return status;
}

/* -- Requests -- */

/* Whether the reply begins with one of these words. */
static bool begins(const struct buffer *reply, const char *const *words)
{
    for (; *words != NULL; words++) {
        size_t length = strlen(*words);
        if (reply->length > length + 2 && memcmp(reply->bytes + 2, *words, length) == 0 && reply->bytes[2 + length] == '"')
            return true;
    }
    return false;
}

/* Asks the document for its status: its number, and how many operations it has, which it counts as saved. */
static uint32_t ask_status(jdoc_file *file, uint32_t *number, uint64_t *length)
{
    static const char request[] = "[\"status\"]";
    uint32_t status = jdoc_call(&file->document, request, sizeof request - 1);
    if (status == JDOC_DONE)
        status = take(file, &file->reply, jdoc_reply);
    if (status == JDOC_DONE && sscanf(file->reply.bytes, "[\"status\",%" SCNu32 ",%" SCNu64, number, length) != 2)
        status = JDOC_UNFIT;
    return status;
}

/* Puts into the reply how many operations there are and how many of them the file has, after the beginning of a line. */
static void tell_saved(jdoc_file *file, const char *begin, uint64_t length)
{
    file->reply.length = (size_t)snprintf(file->reply.bytes, file->reply.room, "%s%" PRIu64 ",%" PRIu64 "]\n", begin, length, file->saved);
}

/* The reply to the status, with what the file has. */
static uint32_t answer_status(jdoc_file *file)
{
    uint32_t number;
    uint64_t length;
    char begin[32];
    uint32_t status = check_name(file, file->length);
    if (status == JDOC_DONE)
        status = ask_status(file, &number, &length);
    if (status == JDOC_DONE) {
        snprintf(begin, sizeof begin, "[\"status\",%" PRIu32 ",", number);
        tell_saved(file, begin, length);
    }
    return status;
}

static uint32_t answer(jdoc_file *file, const char *line, size_t line_len)
{
    static const char *const saves[] = {"made", "received", "saved", "bundle", NULL};
    static const char *const says[] = {"status", NULL};
    uint32_t number;
    uint64_t length;
    uint32_t status = jdoc_call(&file->document, line, line_len);
    if (status == JDOC_DONE)
        status = take(file, &file->reply, jdoc_reply);
    if (status != JDOC_DONE || file->name == NULL)
        return status;
    if (begins(&file->reply, says))
        return answer_status(file);
    if (begins(&file->reply, saves)) {
        status = save(file);
        if (status == JDOC_FILE_UNSAVED) {
            if (ask_status(file, &number, &length) == JDOC_DONE)
                tell_saved(file, "[\"unsaved\",", length);
            else
                empty(&file->reply);
        }
    }
    return status;
}

/* -- Opening -- */

/* Takes the path from the root, since the working folder may change. */
static uint32_t keep_name(jdoc_file *file, const char *path)
{
    char *folder = NULL;
    for (size_t room = 256; path[0] != '/' && folder == NULL; room *= 2) {
        folder = malloc(room);
        if (folder != NULL && getcwd(folder, room) == NULL) {
            free(folder);
            folder = NULL;
            if (errno != ERANGE) {
                file->error = errno;
                return JDOC_FILE_FAILED;
            }
        } else if (folder == NULL) {
            return JDOC_NO_MEMORY;
        }
    }
    size_t room = (folder == NULL ? 0 : strlen(folder)) + strlen(path) + 2;
    file->name = malloc(room);
    if (file->name != NULL)
        snprintf(file->name, room, "%s%s%s", folder == NULL ? "" : folder, folder == NULL ? "" : "/", path);
    free(folder);
    return file->name == NULL ? JDOC_NO_MEMORY : JDOC_DONE;
}

/* Why the system couldn't do what opening takes. */
static uint32_t why(jdoc_file *file)
{
    file->error = errno;
    switch (errno) {
    case ENOENT:
    case ENOTDIR:
        return JDOC_FILE_NOT_FOUND;
    case EACCES:
    case EPERM:
    case EROFS:
        return JDOC_FILE_NO_ACCESS;
    case EISDIR:
    case ENXIO:
    case ENODEV:
        return JDOC_FILE_NOT_REGULAR;
    case ENOMEM:
        return JDOC_NO_MEMORY;
    default:
        return JDOC_FILE_FAILED;
    }
}

/* Opens and locks the file, and sees what it is. */
static uint32_t attach(jdoc_file *file, size_t *size)
{
    struct stat found;
    pthread_once(&at_fork, watch_forks);
    if (at_fork_failed)
        return JDOC_NO_MEMORY;
    lock_files();
    file->descriptor = open_above(file->name, O_RDWR | O_CREAT);
    if (file->descriptor >= 0) {
        file->next = files;
        files = file;
    }
    unlock_files();
    if (file->descriptor < 0 || fstat(file->descriptor, &found) != 0)
        return why(file);
    if (!S_ISREG(found.st_mode))
        return JDOC_FILE_NOT_REGULAR;
    if (try_lock(file->descriptor) != 0) {
        file->error = errno;
        return errno == EWOULDBLOCK ? JDOC_FILE_LOCKED : JDOC_FILE_FAILED;
    }
    /* Another program may have written until now. */
    if (fstat(file->descriptor, &found) != 0)
        return why(file);
    if (found.st_size < 0 || (uintmax_t)found.st_size > MOST_BYTES || (uintmax_t)found.st_size >= SIZE_MAX)
        return JDOC_FILE_TOO_LARGE;
    file->device = found.st_dev;
    file->inode = found.st_ino;
    *size = (size_t)found.st_size;
    return check_name(file, found.st_size);
}

static void detach(jdoc_file *file)
{
    if (file->descriptor < 0)
        return;
    lock_files();
    for (jdoc_file **at = &files; *at != NULL; at = &(*at)->next) {
        if (*at == file) {
            *at = file->next;
            break;
        }
    }
    close(file->descriptor);
    file->descriptor = -1;
    unlock_files();
}

/* How many bytes the first lines have, or all bytes if there are fewer lines. */
static size_t length_of(const char *bytes, size_t length, uint64_t lines)
{
    const char *at = bytes;
    for (; lines > 0; lines--) {
        const char *end_of_line = memchr(at, '\n', length - (size_t)(at - bytes));
        if (end_of_line == NULL)
            return length;
        at = end_of_line + 1;
    }
    return (size_t)(at - bytes);
}

/* The number of the first own entry, 0 if there is none. The bytes end with a 0. */
static uint32_t own_number(const char *bytes)
{
    static const char begin[] = "[\"own\",[";
    for (const char *at = bytes; at != NULL; at = strchr(at, '\n')) {
        at += *at == '\n';
        if (strncmp(at, begin, sizeof begin - 1) == 0) {
            const char *comma = strchr(at + sizeof begin - 1, ',');
            return comma == NULL ? 0 : (uint32_t)strtoul(comma + 1, NULL, 10);
        }
    }
    return 0;
}

/* The first line that doesn't fit, where not all of them do: found by opening fewer and more of them. 0 if memory is too short for that. */
static uint64_t first_unfit(uint32_t number, const char *bytes, size_t length)
{
    uint64_t fit = 0, unfit = 1;
    for (size_t at = 0; at < length; at++)
        unfit += bytes[at] == '\n';
    while (unfit - fit > 1) {
        uint64_t tried = fit + (unfit - fit) / 2;
        jdoc_handle document = JDOC_CLOSED_HANDLE;
        size_t taken;
        uint32_t status = jdoc_open(&document, number, bytes, length_of(bytes, length, tried), &taken);
        jdoc_close(&document);
        if (status == JDOC_NO_MEMORY)
            return 0;
        *(status == JDOC_DONE ? &fit : &unfit) = tried;
    }
    return unfit;
}

/* Opens the document of these bytes, which end with a 0. */
static uint32_t open_lines(jdoc_file *file, uint32_t number, const char *bytes, size_t length, size_t *taken)
{
    uint32_t status = jdoc_open(&file->document, number, bytes, length, taken);
    if (status == JDOC_BAD_NUMBER && number == 0) {
        /* There is no own entry, so no number was used. */
        number = draw_number();
        if (number == 0)
            return why(file);
        status = jdoc_open(&file->document, number, bytes, length, taken);
    }
    if (status == JDOC_BAD_NUMBER) {
        file->number = own_number(bytes);
        return JDOC_FILE_WRONG_NUMBER;
    }
    if (status == JDOC_UNFIT) {
        if (number == 0)
            number = own_number(bytes);
        /* If a line before the first own one doesn't fit, any number that no line has will do. */
        file->line = first_unfit(number == 0 ? UINT32_MAX : number, bytes, length);
        return JDOC_FILE_DAMAGED;
    }
    return status;
}

/* Reads all that the file has, with a 0 after it. */
static uint32_t read_all(jdoc_file *file, size_t size, char **bytes)
{
    char first = '[';
    if (size > 0 && read_from(file->descriptor, &first, 1, 0) < 0)
        return why(file);
    /* Another program's file needn't be read. */
    if (first != '[' && first != '\0') {
        file->line = 1;
        return JDOC_FILE_DAMAGED;
    }
    *bytes = malloc(size + 1);
    if (*bytes == NULL)
        return JDOC_NO_MEMORY;
    ssize_t had = read_from(file->descriptor, *bytes, size, 0);
    if (had < 0)
        return why(file);
    if ((size_t)had < size)
        return JDOC_FILE_GONE;
    (*bytes)[size] = '\0';
    return JDOC_DONE;
}

/* Resumes from the file, which is locked and has this many bytes, and makes sure that what it has survives. */
static uint32_t resume(jdoc_file *file, uint32_t number, size_t size)
{
    char *bytes = NULL;
    size_t length = size, taken = 0;
    uint32_t status = read_all(file, size, &bytes);
    if (status == JDOC_DONE) {
        /* File systems leave zeros where a line was being written when the power went. */
        while (length > 0 && bytes[length - 1] == '\0')
            length--;
        status = open_lines(file, number, bytes, length, &taken);
    }
    free(bytes);
    if (status == JDOC_DONE) {
        if ((taken < size && cut(file->descriptor, (off_t)taken) != 0) || sync_all(file->descriptor) != 0
            || sync_folder(file->name) != 0)
            status = why(file);
    }
    file->length = (off_t)taken;
    return status;
}

static void free_parts(jdoc_file *file)
{
    detach(file);
    jdoc_close(&file->document);
    free(file->name);
    file->name = NULL;
}

static uint32_t open_document(jdoc_file *file, const char *path, uint32_t number)
{
    size_t size = 0, taken;
    uint32_t status = JDOC_DONE;
    if (path == NULL) {
        status = open_lines(file, number, "", 0, &taken);
    } else {
        status = keep_name(file, path);
        if (status == JDOC_DONE)
            status = attach(file, &size);
        if (status == JDOC_DONE)
            status = resume(file, number, size);
    }
    if (status == JDOC_DONE)
        status = ask_status(file, &file->number, &file->saved);
    return status;
}

static void free_file(jdoc_file *file)
{
    free(file->lines.bytes);
    free(file->reply.bytes);
    free(file);
}

/* -- The calls -- */

/* Begins a call: JDOC_DONE, or why it is refused. */
static uint32_t enter(jdoc_file *file, sigset_t *signals)
{
    if (file == NULL)
        return JDOC_CLOSED;
    if (is_elsewhere(file))
        return JDOC_FILE_OTHER_PROCESS;
    hold_signals(signals);
    if (atomic_flag_test_and_set(&file->is_busy)) {
        release_signals(signals);
        return JDOC_FILE_BUSY;
    }
    return JDOC_DONE;
}

/* Ends a call that has begun, with this status. */
static uint32_t leave(jdoc_file *file, const sigset_t *signals, uint32_t status)
{
    atomic_flag_clear(&file->is_busy);
    release_signals(signals);
    return status;
}

uint32_t jdoc_file_open(jdoc_file **at, const char *path, uint32_t number)
{
    sigset_t signals;
    if (*at != NULL)
        return JDOC_WAS_OPEN;
    hold_signals(&signals);
    jdoc_file *file = calloc(1, sizeof *file);
    uint32_t status = JDOC_NO_MEMORY;
    if (file != NULL) {
        file->descriptor = -1;
        file->process = getpid();
        atomic_flag_clear(&file->is_busy);
        if (make_room(&file->lines, 0) && make_room(&file->reply, 0)) {
            status = open_document(file, path, number);
            empty(&file->reply);
            file->end = status;
            if (status != JDOC_DONE)
                free_parts(file);
            *at = file;
        } else {
            free_file(file);
        }
    }
    release_signals(&signals);
    return status;
}

uint32_t jdoc_file_close(jdoc_file **at)
{
    sigset_t signals;
    jdoc_file *file = *at;
    uint32_t status = enter(file, &signals);
    if (status == JDOC_FILE_OTHER_PROCESS) {
        /* Its memory is that of the other process, whose threads may have been at it when it was copied: it is left alone. */
        if (file->descriptor >= 0)
            close(file->descriptor);
        *at = NULL;
        return JDOC_DONE;
    }
    if (status != JDOC_DONE)
        return status == JDOC_CLOSED ? JDOC_DONE : status;
    if (file->end == JDOC_DONE && file->name != NULL)
        status = save(file);
    free_parts(file);
    free_file(file);
    *at = NULL;
    release_signals(&signals);
    return status;
}

uint32_t jdoc_file_call(jdoc_file *file, const char *line, size_t line_len, const char **reply, size_t *reply_len)
{
    sigset_t signals;
    *reply = "";
    *reply_len = 0;
    uint32_t status = enter(file, &signals);
    if (status != JDOC_DONE)
        return status;
    empty(&file->reply);
    status = file->end != JDOC_DONE ? file->end : answer(file, line, line_len);
    if (status != JDOC_DONE && status != JDOC_FILE_UNSAVED)
        empty(&file->reply);
    *reply = file->reply.bytes;
    *reply_len = file->reply.length;
    return leave(file, &signals, status);
}

uint32_t jdoc_file_reply(jdoc_file *file, char *out, size_t room, size_t *length)
{
    sigset_t signals;
    uint32_t status = enter(file, &signals);
    if (status != JDOC_DONE)
        return status;
    *length = file->reply.length;
    if (file->reply.length > room)
        return leave(file, &signals, JDOC_TOO_SHORT);
    memcpy(out, file->reply.bytes, file->reply.length);
    return leave(file, &signals, JDOC_DONE);
}

uint32_t jdoc_file_reader(jdoc_file *file, jdoc_handle *reader, size_t room)
{
    sigset_t signals;
    uint32_t status = enter(file, &signals);
    if (status != JDOC_DONE)
        return status;
    status = file->end != JDOC_DONE ? file->end : jdoc_reader(&file->document, reader, room);
    return leave(file, &signals, status);
}

uint32_t jdoc_file_feed(jdoc_file *file)
{
    sigset_t signals;
    uint32_t status = enter(file, &signals);
    if (status != JDOC_DONE)
        return status;
    status = file->end != JDOC_DONE ? file->end : jdoc_feed(&file->document);
    return leave(file, &signals, status);
}

uint32_t jdoc_file_number(const jdoc_file *file)
{
    return file == NULL ? 0 : file->number;
}

uint64_t jdoc_file_line(const jdoc_file *file)
{
    return file == NULL ? 0 : file->line;
}

int jdoc_file_error(const jdoc_file *file)
{
    return file == NULL ? 0 : file->error;
}

const char *jdoc_file_text(uint32_t status)
{
    static const char *const texts[] = {
        [JDOC_DONE] = "done",
        [JDOC_NO_MEMORY] = "memory was short",
        [JDOC_TOO_SHORT] = "the buffer is too short",
        [JDOC_CLOSED] = "it is closed",
        [JDOC_WAS_OPEN] = "it was open",
        [JDOC_BAD_NUMBER] = "the number is another than the journal's, or is 0",
        [JDOC_UNFIT] = "a line doesn't fit",
        [JDOC_WRONG_KIND] = "the call is for a document and this is a reader, or the other way round",
        [JDOC_FILE_UNSAVED] = "it is in the document, but couldn't be saved",
        [JDOC_FILE_LOST] = "a sync or a cut failed, so nobody knows what the file has: open it again",
        [JDOC_FILE_GONE] = "the file was moved, deleted, replaced or changed by others",
        [JDOC_FILE_OTHER_PROCESS] = "it was opened in another process",
        [JDOC_FILE_BUSY] = "another call of it hasn't ended",
        [JDOC_FILE_LOCKED] = "the file is open elsewhere",
        [JDOC_FILE_NOT_FOUND] = "there is no such folder",
        [JDOC_FILE_NO_ACCESS] = "the file or its folder may not be read or written",
        [JDOC_FILE_NOT_REGULAR] = "it is no regular file",
        [JDOC_FILE_TOO_LARGE] = "the file is larger than any document's",
        [JDOC_FILE_DAMAGED] = "a line of the file doesn't fit",
        [JDOC_FILE_WRONG_NUMBER] = "the number is another than the file's",
        [JDOC_FILE_FAILED] = "a call of the system failed",
    };
    if (status >= sizeof texts / sizeof texts[0] || texts[status] == NULL)
        return "no status";
    return texts[status];
}
