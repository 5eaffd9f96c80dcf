/* Refuses one allocation of a program that is loaded with it (LD_PRELOAD): the nth, if REFUSE is n. When it does, it creates the file
   that REFUSED names. */
typedef unsigned long size_t;

extern void *__libc_malloc(size_t);
extern void *__libc_calloc(size_t, size_t);
extern void *__libc_realloc(void *, size_t);
extern void *__libc_memalign(size_t, size_t);
extern char *getenv(const char *);
extern int atoi(const char *);
extern int creat(const char *, unsigned);
extern int close(int);
extern int *__errno_location(void);

static int wanted, made;
static const char *refused;

__attribute__((constructor)) static void start(void) {
    const char *number = getenv("REFUSE");
    wanted = number ? atoi(number) : 0;
    refused = getenv("REFUSED");
    made = 0;
}

static int is_refused(void) {
    if (__atomic_add_fetch(&made, 1, __ATOMIC_SEQ_CST) != wanted) {
        return 0;
    }
    if (refused) {
        close(creat(refused, 0600));
    }
    /* ENOMEM, as malloc says it. */
    *__errno_location() = 12;
    return 1;
}

void *malloc(size_t size) {
    return is_refused() ? 0 : __libc_malloc(size);
}

void *calloc(size_t count, size_t size) {
    return is_refused() ? 0 : __libc_calloc(count, size);
}

void *realloc(void *old, size_t size) {
    return is_refused() ? 0 : __libc_realloc(old, size);
}

void *aligned_alloc(size_t align, size_t size) {
    return is_refused() ? 0 : __libc_memalign(align, size);
}
