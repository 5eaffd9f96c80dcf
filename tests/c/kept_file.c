/* A document in a file: files that aren't opened, names that change, forks, threads, descriptors and limits.
 *
 *     kept_file FOLDER           all of that
 *     kept_file FOLDER full      a folder on a disk with less than a megabyte
 */
#define _DEFAULT_SOURCE

#include "kept.h"

#include <fcntl.h>
#include <pthread.h>
#include <sched.h>
#include <signal.h>
#include <sys/resource.h>
#include <sys/stat.h>
#include <sys/wait.h>

/* Another name in the folder. */
static char other_path[4096];

static void write_bytes(const char *name, const char *bytes, size_t length)
{
    FILE *file = fopen(name, "wb");
    expect(file != NULL && fwrite(bytes, 1, length, file) == length && fclose(file) == 0, name);
}

/* Runs a function in a process of its own, which must end well. */
static void apart(void (*function)(void))
{
    int status;
    pid_t process = fork();
    expect(process >= 0, "a fork");
    if (process == 0) {
        function();
        _exit(0);
    }
    expect(waitpid(process, &status, 0) == process && status == 0, "the other process ends well");
}

/* -- What isn't opened -- */

#define ONE "[\"own\",[1,7],[\"assign\",[\"n\"],1]]\n"
#define TWO "[\"own\",[2,7],[\"assign\",[\"n\"],2]]\n"
#define OTHERS "[\"own\",[2,8],[\"assign\",[\"n\"],2]]\n"
#define AGAIN ONE
#define BYTES(text) text, sizeof(text) - 1

/* A file, with which status it is opened under which number, the line that doesn't fit or the number that it has, and how many bytes are
 * left of it. */
static const struct bad {
    const char *name;
    const char *bytes;
    size_t length;
    uint32_t number, status;
    unsigned line;
    size_t left;
} bads[] = {
    {"a letter", BYTES("Dear Sir,\n"), 1, JDOC_FILE_DAMAGED, 1, 10},
    {"a JSON file", BYTES("[1,2]\n"), 1, JDOC_FILE_DAMAGED, 1, 6},
    {"JSON that isn't ended", BYTES("[1,2]"), 1, JDOC_FILE_DAMAGED, 1, 5},
    {"a line that isn't ended and isn't ours", BYTES(ONE "Dear"), 7, JDOC_FILE_DAMAGED, 2, sizeof ONE + 3},
    {"a line that comes twice", BYTES(ONE TWO AGAIN), 7, JDOC_FILE_DAMAGED, 3, sizeof ONE + sizeof TWO + sizeof AGAIN - 3},
    {"the same without a number", BYTES(ONE TWO AGAIN), 0, JDOC_FILE_DAMAGED, 3, sizeof ONE + sizeof TWO + sizeof AGAIN - 3},
    {"a first line that is missing", BYTES(TWO), 0, JDOC_FILE_DAMAGED, 1, sizeof TWO - 1},
    {"two numbers", BYTES(ONE OTHERS TWO), 7, JDOC_FILE_DAMAGED, 2, sizeof ONE + sizeof TWO + sizeof OTHERS - 3},
    {"a letter within", BYTES(ONE "Dear Sir,\n" TWO), 0, JDOC_FILE_DAMAGED, 2, sizeof ONE + sizeof TWO + 8},
    {"a letter before", BYTES("[Dear Sir,\n" ONE), 0, JDOC_FILE_DAMAGED, 1, sizeof ONE + 10},
    {"zeros within", BYTES(ONE "\0\0\n" TWO), 7, JDOC_FILE_DAMAGED, 2, sizeof ONE + sizeof TWO + 1},
    {"another number", BYTES(ONE), 8, JDOC_FILE_WRONG_NUMBER, 7, sizeof ONE - 1},
    {"its number", BYTES(ONE), 7, JDOC_DONE, 0, sizeof ONE - 1},
    {"the number that it has", BYTES(ONE), 0, JDOC_DONE, 0, sizeof ONE - 1},
    {"nothing", BYTES(""), 0, JDOC_DONE, 0, 0},
    {"a line that isn't ended", BYTES(ONE "[\"own\",[2,7],[\"ass"), 0, JDOC_DONE, 0, sizeof ONE - 1},
    {"zeros at the end", BYTES(ONE "\0\0\0\0\0\0\0"), 0, JDOC_DONE, 0, sizeof ONE - 1},
    {"zeros at the end of a line", BYTES(ONE "[\"\0\0\0\0"), 0, JDOC_DONE, 0, sizeof ONE - 1},
    {"zeros alone", BYTES("\0\0\0"), 7, JDOC_DONE, 0, 0},
};

static void what_is_damaged_says_where(void)
{
    for (size_t index = 0; index < sizeof bads / sizeof bads[0]; index++) {
        const struct bad *bad = &bads[index];
        static char bytes[4096];
        about = bad->name;
        write_bytes(path, bad->bytes, bad->length);
        jdoc_file *file = NULL;
        expect_status(jdoc_file_open(&file, path, bad->number), bad->status, "opening");
        expect(bad->status != JDOC_FILE_DAMAGED || jdoc_file_line(file) == bad->line, "the line that doesn't fit");
        expect(bad->status != JDOC_FILE_WRONG_NUMBER || jdoc_file_number(file) == bad->line, "the number that it has");
        expect(bad->status != JDOC_DONE || jdoc_file_number(file) != 0, "it has a number");
        expect_status(put(file, 2), bad->status, "a write");
        closed(file);
        size_t length = bytes_of(path, bytes, sizeof bytes);
        expect(length >= bad->left && memcmp(bytes, bad->bytes, bad->left) == 0, "what was there is there");
        expect(bad->status != JDOC_DONE ? length == bad->left : length > bad->left, "and more only after a write");
        unlink(path);
    }
}

/* A damaged line is found among many. */
static void a_line_is_found(void)
{
    about = "many lines";
    static char bytes[65536];
    size_t length = 0;
    for (int line = 1; line <= 1000; line++)
        length += (size_t)sprintf(bytes + length, "[\"own\",[%d,7],[\"delete\",[\"n\"]]]\n", line == 678 ? 679 : line);
    write_bytes(path, bytes, length);
    jdoc_file *file = NULL;
    expect_status(jdoc_file_open(&file, path, 0), JDOC_FILE_DAMAGED, "opening");
    expect(jdoc_file_line(file) == 678, "the line");
    closed(file);
    unlink(path);
}

static void refuses(const char *name, uint32_t status)
{
    jdoc_file *file = NULL;
    about = name;
    expect_status(jdoc_file_open(&file, name, 7), status, "opening");
    expect_status(ask(file, "[\"status\"]"), status, "each call is refused with it");
    closed(file);
}

static void may_not_write(void)
{
    if (geteuid() == 0)
        expect(seteuid(65534) == 0, "another user");
    refuses(path, JDOC_FILE_NO_ACCESS);
}

static void what_is_no_file_is_left_alone(const char *folder)
{
    char name[8192];
    refuses(folder, JDOC_FILE_NOT_REGULAR);
    refuses("/dev/null", JDOC_FILE_NOT_REGULAR);
    expect(mkfifo(path, 0600) == 0, "a pipe");
    refuses(path, JDOC_FILE_NOT_REGULAR);
    unlink(path);
    snprintf(name, sizeof name, "%s/nowhere/file", folder);
    refuses(name, JDOC_FILE_NOT_FOUND);
    refuses("", JDOC_FILE_NOT_REGULAR);
    write_bytes(path, BYTES(ONE));
    expect(chmod(path, 0444) == 0, "a file to read only");
    apart(may_not_write);
    expect(truncate(path, (off_t)1048576 * 90000 + 1) == 0, "a large file");
    refuses(path, JDOC_FILE_TOO_LARGE);
    unlink(path);
    jdoc_file *file = opened(path, 7);
    refuses(path, JDOC_FILE_LOCKED);
    expect_status(jdoc_file_open(&file, path, 7), JDOC_WAS_OPEN, "opening twice");
    expect_status(put(file, 1), JDOC_DONE, "a write");
    closed(file);
    expect(value_in(path) == 1, "it is there");
    unlink(path);
}

/* -- Names that change -- */

static void move(void)
{
    expect(rename(path, other_path) == 0, "it is moved");
}

static void delete(void)
{
    expect(unlink(path) == 0, "it is deleted");
}

static void replace(void)
{
    write_bytes(other_path, BYTES("[\"own\",[1,7],[\"assign\",[\"n\"],5]]\n"));
    expect(rename(other_path, path) == 0, "it is replaced");
}

static void empty(void)
{
    write_bytes(path, "", 0);
}

static void append(void)
{
    FILE *file = fopen(path, "a");
    expect(file != NULL && fputs(TWO, file) >= 0 && fclose(file) == 0, "another writes");
}

/* What is done to the open file, and what is at `n` afterwards in the file of its name, and of the other name. */
static const struct change {
    const char *name;
    void (*change)(void);
    int value, other_value;
} changes[] = {
    {"a file that is moved", move, 0, 1},
    {"a file that is deleted", delete, 0, 0},
    {"a file that is replaced", replace, 5, 0},
    {"a file that is emptied", empty, 0, 0},
    {"a file that others write to", append, 2, 0},
};

static void what_is_gone_says_so(void)
{
    static const char *const claims[] = {"[\"assign\",[\"n\"],2]", "[\"save\"]", "[\"status\"]", "[\"answer\",\"[\\\"hello\\\",[]]\"]",
        "[\"receive\",\"\"]"};
    for (size_t index = 0; index < sizeof changes / sizeof changes[0]; index++) {
        for (size_t claim = 0; claim < sizeof claims / sizeof claims[0]; claim++) {
            about = changes[index].name;
            unlink(path);
            unlink(other_path);
            jdoc_file *file = opened(path, 7);
            expect_status(put(file, 1), JDOC_DONE, "a write");
            changes[index].change();
            expect(get(file) == 1, "nothing is called saved by a question");
            expect_status(ask(file, claims[claim]), JDOC_FILE_GONE, claims[claim]);
            expect(*reply == '\0', "there is no reply");
            expect_status(ask(file, "[\"hello\"]"), JDOC_FILE_GONE, "and from then on");
            closed(file);
            expect(value_in(path) == changes[index].value && value_in(other_path) == changes[index].other_value, "others' files");
        }
    }
    unlink(path);
    unlink(other_path);
}

/* A path is that of the working folder in which it was opened. */
static void a_folder_may_be_left(const char *folder)
{
    about = "another working folder";
    char before[4096];
    expect(getcwd(before, sizeof before) != NULL && chdir(folder) == 0, "a folder");
    jdoc_file *file = opened("kept.jdoc", 7);
    expect(chdir("/") == 0, "another one");
    expect_status(put(file, 3), JDOC_DONE, "a write");
    closed(file);
    expect(value_in(path) == 3 && chdir(before) == 0, "it is where it was opened");
    unlink(path);
}

/* -- Forks and threads -- */

static jdoc_file *shared;

static void use_in_child(void)
{
    struct stat file, found;
    expect(stat(path, &file) == 0, "the file");
    for (int descriptor = 0; descriptor < 256; descriptor++)
        expect(fstat(descriptor, &found) != 0 || found.st_ino != file.st_ino, "a child has no descriptor of the file");
    expect_status(put(shared, 8), JDOC_FILE_OTHER_PROCESS, "a write in a child");
    expect_status(ask(shared, "[\"hello\"]"), JDOC_FILE_OTHER_PROCESS, "a question in a child");
    refuses(path, JDOC_FILE_LOCKED);
    closed(shared);
    refuses(path, JDOC_FILE_LOCKED);
}

/* Each side of a fork goes on with what is its own, and a child that lives on doesn't keep the file. */
static void a_child_has_no_file(void)
{
    int gate[2], ready[2];
    char byte;
    about = "a fork";
    shared = opened(path, 7);
    jdoc_file *in_memory = opened(NULL, 7);
    expect_status(put(shared, 1), JDOC_DONE, "a write");
    apart(use_in_child);
    expect(pipe(gate) == 0 && pipe(ready) == 0, "two pipes");
    pid_t process = fork();
    if (process == 0) {
        close(gate[1]);
        expect(write(ready[1], "", 1) == 1, "the child runs");
        expect_status(put(in_memory, 1), JDOC_FILE_OTHER_PROCESS, "a document in memory");
        expect(read(gate[0], &byte, 1) == 0, "the parent has ended the pipe");
        _exit(0);
    }
    about = "a fork, in the parent";
    expect(read(ready[0], &byte, 1) == 1, "the child runs");
    expect_status(put(shared, 2), JDOC_DONE, "a write after a fork");
    expect_status(put(in_memory, 2), JDOC_DONE, "a write in memory");
    closed(in_memory);
    closed(shared);
    expect(value_in(path) == 2, "it is there, though a child is alive");
    for (int end = 0; end < 2; end++) {
        close(gate[end]);
        close(ready[end]);
    }
    int status;
    expect(waitpid(process, &status, 0) == process && status == 0, "the child");
    unlink(path);
}

enum { THREADS = 4, EACH = 500 };

static void *write_some(void *count)
{
    for (int made = 0; made < EACH; made++) {
        const char *said;
        size_t length;
        const char request[] = "[\"delete\",[\"n\"]]";
        uint32_t status;
        while ((status = jdoc_file_call(shared, request, sizeof request - 1, &said, &length)) == JDOC_FILE_BUSY)
            sched_yield();
        *(int *)count += status == JDOC_DONE;
    }
    return NULL;
}

/* Calls of several threads without a lock are made or refused. */
static void one_call_at_a_time(void)
{
    pthread_t threads[THREADS];
    int counts[THREADS] = {0}, saved;
    about = "threads";
    shared = opened(path, 7);
    for (int index = 0; index < THREADS; index++)
        expect(pthread_create(&threads[index], NULL, write_some, &counts[index]) == 0, "a thread");
    for (int index = 0; index < THREADS; index++) {
        pthread_join(threads[index], NULL);
        expect(counts[index] == EACH, "each call is made in the end");
    }
    expect(length_of(shared, &saved) == THREADS * EACH && saved == THREADS * EACH, "and saved");
    closed(shared);
    unlink(path);
}

/* -- Descriptors and limits -- */

/* Ends the process well if the file is open once, with a descriptor above 2 that exec closes. */
static void has_a_descriptor_of_its_own(void)
{
    struct stat file, found;
    int had = 0;
    shared = opened(path, 7);
    if (put(shared, 1) != JDOC_DONE || stat(path, &file) != 0)
        _exit(2);
    for (int descriptor = 0; descriptor < 256; descriptor++) {
        if (fstat(descriptor, &found) == 0 && found.st_ino == file.st_ino) {
            had++;
            if (descriptor < 3 || (fcntl(descriptor, F_GETFD) & FD_CLOEXEC) == 0)
                _exit(3);
        }
    }
    _exit(had == 1 ? 0 : 4);
}

static void closes_standard_ones(void)
{
    for (int descriptor = 0; descriptor < 3; descriptor++)
        close(descriptor);
    has_a_descriptor_of_its_own();
}

/* A file that may not grow is as a full disk, and no signal ends the program. */
static void has_a_limit(void)
{
    int saved, length, value = 0;
    uint32_t status;
    shared = opened(path, 7);
    struct rlimit limit = {1000, RLIM_INFINITY};
    expect(setrlimit(RLIMIT_FSIZE, &limit) == 0, "a limit");
    do
        status = put(shared, ++value);
    while (status == JDOC_DONE && value < 100);
    expect_status(status, JDOC_FILE_UNSAVED, "a write at the limit");
    length = length_of(shared, &saved);
    expect(length == value && saved == value - 1, "one isn't saved");
    limit.rlim_cur = RLIM_INFINITY;
    expect(setrlimit(RLIMIT_FSIZE, &limit) == 0, "no limit");
    closed(shared);
    expect(value_in(path) == value, "closing has saved it");
}

/* A full disk. */
static void is_full(const char *folder)
{
    static char bytes[65536];
    int saved, value = 0;
    uint32_t status;
    about = "a full disk";
    snprintf(other_path, sizeof other_path, "%s/filler", folder);
    write_bytes(other_path, bytes, sizeof bytes);
    jdoc_file *file = opened(path, 7);
    jdoc_file *peer = opened(NULL, 8);
    do
        status = put(file, ++value);
    while (status == JDOC_DONE && value < 100000);
    expect_status(status, JDOC_FILE_UNSAVED, "a write to a full disk");
    expect_status(ask(file, "[\"save\"]"), JDOC_FILE_UNSAVED, "a save");
    expect_status(ask(file, "[\"answer\",\"[\\\"hello\\\",[]]\"]"), JDOC_FILE_UNSAVED, "what isn't saved isn't sent");
    expect(length_of(file, &saved) == value && saved == value - 1 && get(file) == value, "one isn't saved");
    unlink(other_path);
    expect_status(ask(file, "[\"save\"]"), JDOC_DONE, "a save once there is room");
    expect(length_of(file, &saved) == value && saved == value, "all is saved");
    closed(file);
    closed(peer);
    expect(value_in(path) == value, "it is there");
}

/* -- */

static void every_status_has_a_text(void)
{
    about = "the texts";
    for (uint32_t status = 0; status < 40; status++) {
        int is_one = status <= JDOC_WRONG_KIND || (status >= JDOC_FILE_UNSAVED && status <= JDOC_FILE_FAILED);
        expect((strcmp(jdoc_file_text(status), "no status") != 0) == is_one, "a status has a text");
    }
    expect_status(put(NULL, 1), JDOC_CLOSED, "a file that was never opened");
    closed(NULL);
}

int main(int argc, char **argv)
{
    expect(argc >= 2, "the folder is missing");
    snprintf(path, sizeof path, "%s/kept.jdoc", argv[1]);
    snprintf(other_path, sizeof other_path, "%s/other.jdoc", argv[1]);
    if (argc > 2) {
        is_full(argv[1]);
        return 0;
    }
    every_status_has_a_text();
    what_is_damaged_says_where();
    a_line_is_found();
    what_is_no_file_is_left_alone(argv[1]);
    what_is_gone_says_so();
    a_folder_may_be_left(argv[1]);
    a_child_has_no_file();
    one_call_at_a_time();
    about = "descriptors";
    apart(has_a_descriptor_of_its_own);
    about = "closed standard descriptors";
    apart(closes_standard_ones);
    unlink(path);
    about = "a limit for files";
    apart(has_a_limit);
    return 0;
}
