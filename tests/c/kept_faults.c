/* A document in a file whose calls of the system fail (tests/fail.c), whose program is killed, and which signals interrupt.
 *
 *     kept_faults FOLDER
 */
#define _DEFAULT_SOURCE

#include "kept.h"

#include <setjmp.h>
#include <signal.h>
#include <sys/mman.h>
#include <sys/time.h>
#include <sys/wait.h>
#include <time.h>

/* Those of tests/fail.c, if it is loaded. */
__attribute__((weak)) void fail_calls(int nth, int count, int how);
__attribute__((weak)) int failed_calls(void);
__attribute__((weak)) int synced(int are_folders);
__attribute__((weak)) extern void (*before_sync)(void);

enum { ALWAYS = 1000000, WRITES = 4, KILLS = 150, STORM = 3000 };
enum { WITH_ERROR, INTERRUPTED, TORN };
static const char *const hows[] = {"with an error", "interrupted", "torn"};

/* Whether a call has failed since it was said which ones do. */
static int had_failed;

static void stop_failing(void)
{
    had_failed |= failed_calls() > 0;
    fail_calls(0, 0, 0);
}

/* Each line of the file is whole, and there are as many as operations. */
static void expect_whole(void)
{
    static char bytes[65536];
    int saved, lines = 0;
    size_t length = bytes_of(path, bytes, sizeof bytes);
    expect(length == 0 || bytes[length - 1] == '\n', "the last line is whole");
    for (char *at = bytes; *at != '\0'; at = strchr(at, '\n') + 1, lines++)
        expect(strncmp(at, "[\"own\",[", 8) == 0, "each line is one of the document's");
    jdoc_file *file = opened(path, 0);
    expect(length_of(file, &saved) == lines && saved == lines, "each line is an operation");
    closed(file);
}

/* Opens the file although a call fails. */
static jdoc_file *opened_at_last(void)
{
    jdoc_file *file = NULL;
    uint32_t status = jdoc_file_open(&file, path, 1);
    if (status == JDOC_DONE)
        return file;
    expect(status >= JDOC_FILE_GONE && status <= JDOC_FILE_FAILED && jdoc_file_error(file) != 0, "an opening that fails says why");
    expect_status(put(file, 1), status, "a file that isn't open");
    expect_status(jdoc_file_close(&file), JDOC_DONE, "closing what wasn't opened");
    stop_failing();
    return opened(path, 1);
}

/* Looks at a document whose last write wasn't saved. Returns whether it is saved now. */
static int saved_at_last(jdoc_file *file, int acknowledged)
{
    int saved, length;
    expect(strncmp(reply, "[\"unsaved\",", 11) == 0, "a reply says so");
    length = length_of(file, &saved);
    expect(length > saved && (acknowledged == 0 || saved >= 1), "it is in the document");
    uint32_t status = ask(file, "[\"answer\",\"[\\\"hello\\\",[]]\"]");
    expect(status == JDOC_DONE || status == JDOC_FILE_UNSAVED || status == JDOC_FILE_LOST, "a peer gets what is saved");
    if (status != JDOC_DONE)
        return 0;
    expect(length_of(file, &saved) == saved, "what goes to a peer is saved");
    return 1;
}

/* Writes, with failures. Returns the last value that was called saved, and sets `may_be` to the last one that was written. */
static int play(int how, int *may_be)
{
    jdoc_file *file = how == INTERRUPTED ? opened(path, 1) : opened_at_last();
    int acknowledged = 0;
    for (int value = 1; value <= WRITES; value++) {
        uint32_t status = put(file, value);
        *may_be = value;
        expect(how != INTERRUPTED || status == JDOC_DONE, "an interrupted call is made again");
        if (status == JDOC_DONE) {
            acknowledged = value;
        } else if (status == JDOC_FILE_UNSAVED) {
            if (saved_at_last(file, acknowledged))
                acknowledged = value;
        } else {
            expect(status == JDOC_FILE_LOST, "a write is saved, unsaved or lost");
        }
        if (ask(file, "[\"hello\"]") == JDOC_FILE_LOST) {
            expect_status(ask(file, "[\"save\"]"), JDOC_FILE_LOST, "a file that is lost");
            expect_status(jdoc_file_close(&file), JDOC_DONE, "closing what is lost");
            stop_failing();
            file = opened(path, 1);
            expect(get(file) >= acknowledged && get(file) <= value, "what was called saved is there again");
            acknowledged = *may_be = get(file);
        }
    }
    uint32_t status = jdoc_file_close(&file);
    expect(status == JDOC_DONE || status == JDOC_FILE_UNSAVED || status == JDOC_FILE_LOST, "closing");
    if (status == JDOC_DONE && acknowledged < *may_be)
        acknowledged = *may_be;
    return acknowledged;
}

/* Each call in turn fails, alone and with all after it. */
static int faults(void)
{
    int runs = 0;
    for (int how = WITH_ERROR; how <= TORN; how++) {
        for (int count = 1; count <= (how == INTERRUPTED ? 1 : ALWAYS); count *= ALWAYS) {
            had_failed = 1;
            for (int nth = 1; had_failed; nth++, runs++) {
                char what[64];
                snprintf(what, sizeof what, "call %d%s, %s", nth, count > 1 ? " and all after it" : "", hows[how]);
                about = what;
                unlink(path);
                fail_calls(nth, count, how);
                had_failed = 0;
                int may_be = 0;
                int acknowledged = play(how, &may_be);
                stop_failing();
                int value = value_in(path);
                expect(value >= acknowledged && value <= may_be, "what was called saved is there");
                expect_whole();
            }
        }
    }
    return runs;
}

/* A folder is synced at each opening, and the file at each write, and no other time. */
static void syncs(void)
{
    about = "syncs";
    unlink(path);
    for (int life = 0; life < 2; life++) {
        int folders = synced(1), files = synced(0);
        jdoc_file *file = opened(path, 1);
        expect(synced(1) == folders + 1 && synced(0) == files + 1, "an opening syncs the folder and the file");
        expect_status(put(file, 1), JDOC_DONE, "a write");
        expect(synced(0) == files + 2, "a write is synced");
        expect(get(file) == 1 && synced(0) == files + 2, "a question isn't");
        closed(file);
    }
}

static void delete(void)
{
    unlink(path);
}

/* A file that is deleted while it is written. */
static void goes_meanwhile(void)
{
    about = "a file that is deleted during a write";
    jdoc_file *file = opened(path, 1);
    before_sync = delete;
    expect_status(put(file, 2), JDOC_FILE_GONE, "a write");
    before_sync = NULL;
    expect_status(put(file, 3), JDOC_FILE_GONE, "another one");
    closed(file);
}

/* Waits until the number has grown. */
static void wait_beyond(volatile const int *number, int least)
{
    struct timespec moment = {0, 100000};
    while (*number <= least)
        nanosleep(&moment, NULL);
}

/* A process that writes is killed at any moment: in every second round it has made a write by then, in the others maybe not even that. */
static int kills(void)
{
    volatile int *acknowledged = mmap(NULL, sizeof *acknowledged, PROT_READ | PROT_WRITE, MAP_SHARED | MAP_ANONYMOUS, -1, 0);
    expect(acknowledged != MAP_FAILED, "mmap");
    about = "a killed process";
    unlink(path);
    for (int round = 0; round < KILLS; round++) {
        pid_t process = fork();
        expect(process >= 0, "a fork");
        if (process == 0) {
            jdoc_file *file = opened(path, 1);
            for (int value = *acknowledged + 1;; value++) {
                if (put(file, value) != JDOC_DONE)
                    _exit(1);
                *acknowledged = value;
            }
        }
        if (round % 2 == 1)
            wait_beyond(acknowledged, *acknowledged);
        struct timespec pause = {0, rand() % 3000000};
        nanosleep(&pause, NULL);
        kill(process, SIGKILL);
        int status;
        expect(waitpid(process, &status, 0) == process && WIFSIGNALED(status), "it was killed");
        jdoc_file *file = opened(path, 1);
        int value = get(file);
        expect(value == *acknowledged || value == *acknowledged + 1, "what was called saved is there");
        *acknowledged = value;
        closed(file);
    }
    expect(*acknowledged >= KILLS / 2, "some writes were made");
    return *acknowledged;
}

static sigjmp_buf left;
static volatile sig_atomic_t may_leave, leaves, signals;

static void on_signal(int number)
{
    (void)number;
    signals++;
    if (leaves && may_leave)
        siglongjmp(left, 1);
}

/* Starts or ends a storm of signals. */
static void storm(int is_on)
{
    struct itimerval pause = {{0, is_on ? 61 : 0}, {0, is_on ? 61 : 0}};
    expect(setitimer(ITIMER_REAL, &pause, NULL) == 0, "a timer");
}

/* Signals come all the time, and their handler returns, or leaves by siglongjmp. */
static int interrupts(int by_jump)
{
    struct sigaction action;
    memset(&action, 0, sizeof action);
    action.sa_handler = on_signal;
    sigaction(SIGALRM, &action, NULL);
    about = by_jump ? "a handler that leaves" : "a handler that returns";
    leaves = by_jump;
    signals = 0;
    unlink(path);
    jdoc_file *file = opened(path, 1);
    storm(1);
    volatile int acknowledged = 0;
    for (volatile int value = 1; value <= STORM; value++) {
        if (sigsetjmp(left, 1) == 0) {
            may_leave = 1;
            uint32_t status = put(file, value);
            may_leave = 0;
            expect_status(status, JDOC_DONE, "a write");
            acknowledged = value;
        }
        may_leave = 0;
    }
    storm(0);
    int value = get(file), saved;
    expect(value >= acknowledged && value <= STORM && signals > 10, "what was called saved is there");
    expect(length_of(file, &saved) == saved && saved <= STORM, "all of it is saved");
    expect_status(put(file, STORM + 1), JDOC_DONE, "it goes on");
    closed(file);
    expect(value_in(path) == STORM + 1, "and is in the file");
    return signals;
}

int main(int argc, char **argv)
{
    expect(argc == 2, "the folder is missing");
    snprintf(path, sizeof path, "%s/faults.jdoc", argv[1]);
    if (fail_calls != NULL) {
        syncs();
        goes_meanwhile();
        printf("%d runs with a call that fails\n", faults());
        return 0;
    }
    kills();
    interrupts(0);
    interrupts(1);
    printf("%d kills and two storms of signals\n", KILLS);
    return 0;
}
