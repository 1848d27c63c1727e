// Counts a program's requests to the C library for memory and for threads, and refuses those that
// the environment names. At the end of the program it waits for threads that are ending. It is
// loaded before the C library (LD_PRELOAD), with these variables in the environment:
//   REFUSING_FIRST, REFUSING_LAST   the first and the last refused request, counted from 1; none is
//                                   refused if the first is 0
//   REFUSING_MARKS                  if it is set, requests are counted only from a write of a lone
//                                   `[` to the standard error until one of `]`; neither is written
//   REFUSING_REPORT                 a file of 24 bytes, which holds the current `struct report`;
//                                   without it nothing is counted
// The requests of the C library itself for a new thread are not counted: its start is one request.
#define _GNU_SOURCE
#include <dlfcn.h>
#include <errno.h>
#include <fcntl.h>
#include <pthread.h>
#include <stddef.h>
#include <stdint.h>
#include <stdlib.h>
#include <sys/mman.h>
#include <sys/stat.h>
#include <sys/syscall.h>
#include <sys/types.h>
#include <time.h>
#include <unistd.h>

struct report {
    uint64_t made;    // requests so far
    uint64_t refused; // refused requests
    int64_t held;     // blocks of memory that are allocated and not freed
};

typedef int start_thread(pthread_t *, const pthread_attr_t *, void *(*)(void *), void *);

static void *(*next_malloc)(size_t);
static void *(*next_calloc)(size_t, size_t);
static void *(*next_realloc)(void *, size_t);
static void *(*next_memalign)(size_t, size_t);
static void (*next_free)(void *);
static start_thread *next_pthread_create;
static ssize_t (*next_write)(int, const void *, size_t);

static struct report *report; // null: nothing is counted
static uint64_t first, last;
static int marks, tried; // whether marks are used, and whether the last mark was `[`
static __thread int starting; // the thread is inside pthread_create

static uint64_t number(const char *name) {
    const char *text = getenv(name);
    return text ? strtoull(text, NULL, 10) : 0;
}

static struct report *opened(const char *path) {
    int file = path ? open(path, O_RDWR | O_CLOEXEC) : -1;
    if (file < 0) return NULL;
    void *place = mmap(NULL, sizeof(struct report), PROT_READ | PROT_WRITE, MAP_SHARED, file, 0);
    close(file);
    return place == MAP_FAILED ? NULL : place;
}

static void find_next(void) {
    next_write = dlsym(RTLD_NEXT, "write");
    next_malloc = dlsym(RTLD_NEXT, "malloc");
    next_calloc = dlsym(RTLD_NEXT, "calloc");
    next_realloc = dlsym(RTLD_NEXT, "realloc");
    next_memalign = dlsym(RTLD_NEXT, "memalign");
    next_free = dlsym(RTLD_NEXT, "free");
    next_pthread_create = dlsym(RTLD_NEXT, "pthread_create");
}

__attribute__((constructor)) static void begin(void) {
    find_next();
    first = number("REFUSING_FIRST");
    last = number("REFUSING_LAST");
    marks = getenv("REFUSING_MARKS") != NULL;
    report = opened(getenv("REFUSING_REPORT"));
}

// Waits until the program has one thread, at most a second: a thread that has done its work may not
// yet have freed its own memory. The folder has a link for each thread, and two more.
static void wait_for_threads(void) {
    struct timespec pause = {0, 1000000};
    struct stat threads;
    for (int waits = 0; waits < 1000; waits++) {
        if (stat("/proc/self/task", &threads) != 0 || threads.st_nlink <= 3) break;
        nanosleep(&pause, NULL);
    }
}

// Called whenever the program ends, also when its main returns.
void _exit(int status) {
    wait_for_threads();
    for (;;) syscall(SYS_exit_group, status);
}

// Counts one request, and returns whether it is refused.
static int is_refused(void) {
    if (!report || starting || (marks && !tried)) return 0;
    uint64_t at = __atomic_add_fetch(&report->made, 1, __ATOMIC_SEQ_CST);
    if (first == 0 || at < first || last < at) return 0;
    __atomic_add_fetch(&report->refused, 1, __ATOMIC_SEQ_CST);
    return 1;
}

static void *counted(void *block) {
    if (block && report && !starting) __atomic_add_fetch(&report->held, 1, __ATOMIC_SEQ_CST);
    return block;
}

static void *no_memory(void) {
    errno = ENOMEM;
    return NULL;
}

void *malloc(size_t size) {
    if (!next_malloc) find_next();
    return is_refused() ? no_memory() : counted(next_malloc(size));
}

void *calloc(size_t count, size_t size) {
    if (!next_calloc) find_next();
    return is_refused() ? no_memory() : counted(next_calloc(count, size));
}

void *realloc(void *block, size_t size) {
    if (!next_realloc) find_next();
    if (is_refused()) return no_memory();
    void *moved = next_realloc(block, size);
    return block ? moved : counted(moved);
}

void *memalign(size_t align, size_t size) {
    if (!next_memalign) find_next();
    return is_refused() ? no_memory() : counted(next_memalign(align, size));
}

void *aligned_alloc(size_t align, size_t size) { return memalign(align, size); }

int posix_memalign(void **place, size_t align, size_t size) {
    void *block = memalign(align, size);
    if (!block) return ENOMEM;
    *place = block;
    return 0;
}

void free(void *block) {
    if (!next_free) find_next();
    if (block && report && !starting) __atomic_sub_fetch(&report->held, 1, __ATOMIC_SEQ_CST);
    next_free(block);
}

ssize_t write(int file, const void *bytes, size_t size) {
    if (!next_write) find_next();
    char mark = size == 1 ? *(const char *)bytes : 0;
    if (!marks || file != 2 || (mark != '[' && mark != ']')) return next_write(file, bytes, size);
    tried = mark == '[';
    return 1;
}

int pthread_create(pthread_t *thread, const pthread_attr_t *how, void *(*body)(void *), void *of) {
    if (is_refused()) return EAGAIN;
    starting = 1;
    int answer = next_pthread_create(thread, how, body, of);
    starting = 0;
    return answer;
}
