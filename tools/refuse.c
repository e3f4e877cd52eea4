/* Loaded before the C library, this makes one call of a program fail, for ../refuse.

   OCTO_REFUSE is SORT:N[+]: the Nth call of that sort from the start of main on is refused, and with +
   each later one too. The sorts are

     alloc        malloc, calloc, realloc, aligned_alloc and posix_memalign answer null
     read, write  answer EIO
     short-read, short-write   move one byte
     thread       pthread_create answers EAGAIN

   Where file 9 is open, each refused call writes one byte to it. */

#define _GNU_SOURCE
#include <dlfcn.h>
#include <errno.h>
#include <pthread.h>
#include <stdatomic.h>
#include <stddef.h>
#include <stdlib.h>
#include <string.h>
#include <sys/syscall.h>
#include <unistd.h>

enum sort { NONE, ALLOC, READ, WRITE, SHORT_READ, SHORT_WRITE, THREAD };

static const char *const names[] = {"", "alloc", "read", "write", "short-read", "short-write", "thread"};

static enum sort refused;
static long number;
static int and_later;
static atomic_int begun;
static atomic_long calls;

static void *(*real_malloc)(size_t);
static void *(*real_calloc)(size_t, size_t);
static void *(*real_realloc)(void *, size_t);
static void *(*real_aligned_alloc)(size_t, size_t);
static int (*real_posix_memalign)(void **, size_t, size_t);
static ssize_t (*real_read)(int, void *, size_t);
static ssize_t (*real_write)(int, const void *, size_t);
static int (*real_pthread_create)(pthread_t *, const pthread_attr_t *, void *(*)(void *), void *);

/* dlsym may ask for memory before the real functions are known. */
static char early[65536];
static atomic_size_t early_used;

static void *early_memory(size_t size) {
    size_t at = atomic_fetch_add(&early_used, (size + 15) & ~(size_t)15);
    return at + size <= sizeof early ? early + at : NULL;
}

static int is_early(const void *place) {
    return (const char *)place >= early && (const char *)place < early + sizeof early;
}

static int is_refused(enum sort sort) {
    if (sort != refused || !atomic_load(&begun)) return 0;
    long call = atomic_fetch_add(&calls, 1) + 1;
    if (call != number && !(and_later && call > number)) return 0;
    syscall(SYS_write, 9, "!", 1);
    return 1;
}

static int no_memory(void) {
    if (!is_refused(ALLOC)) return 0;
    errno = ENOMEM;
    return 1;
}

__attribute__((constructor)) static void begin(void) {
    real_calloc = dlsym(RTLD_NEXT, "calloc");
    real_realloc = dlsym(RTLD_NEXT, "realloc");
    real_aligned_alloc = dlsym(RTLD_NEXT, "aligned_alloc");
    real_posix_memalign = dlsym(RTLD_NEXT, "posix_memalign");
    real_read = dlsym(RTLD_NEXT, "read");
    real_write = dlsym(RTLD_NEXT, "write");
    real_pthread_create = dlsym(RTLD_NEXT, "pthread_create");
    real_malloc = dlsym(RTLD_NEXT, "malloc");
    const char *how = getenv("OCTO_REFUSE");
    const char *colon = how ? strchr(how, ':') : NULL;
    if (!colon) return;
    for (int sort = ALLOC; sort <= THREAD; sort++) {
        if (strlen(names[sort]) == (size_t)(colon - how) && !strncmp(how, names[sort], colon - how))
            refused = sort;
    }
    char *end;
    number = strtol(colon + 1, &end, 10);
    and_later = *end == '+';
    atomic_store(&begun, 1);
}

void *malloc(size_t size) {
    if (no_memory()) return NULL;
    return real_malloc ? real_malloc(size) : early_memory(size);
}

void *calloc(size_t count, size_t size) {
    if (no_memory()) return NULL;
    return real_calloc ? real_calloc(count, size) : early_memory(count * size);
}

void *realloc(void *place, size_t size) {
    if (no_memory()) return NULL;
    if (!is_early(place) && real_realloc) return real_realloc(place, size);
    void *moved = malloc(size);
    if (moved && place) memcpy(moved, place, size);
    return moved;
}

void free(void *place) {
    static void (*real_free)(void *);
    if (!place || is_early(place)) return;
    if (!real_free) real_free = dlsym(RTLD_NEXT, "free");
    real_free(place);
}

void *aligned_alloc(size_t alignment, size_t size) {
    return no_memory() ? NULL : real_aligned_alloc(alignment, size);
}

int posix_memalign(void **place, size_t alignment, size_t size) {
    return no_memory() ? ENOMEM : real_posix_memalign(place, alignment, size);
}

ssize_t read(int file, void *buf, size_t size) {
    if (is_refused(READ)) {
        errno = EIO;
        return -1;
    }
    if (size > 1 && is_refused(SHORT_READ)) size = 1;
    return real_read ? real_read(file, buf, size) : syscall(SYS_read, file, buf, size);
}

static ssize_t write_or_refuse(int file, const void *buf, size_t size) {
    if (is_refused(WRITE)) {
        errno = EIO;
        return -1;
    }
    if (size > 1 && is_refused(SHORT_WRITE)) size = 1;
    return real_write ? real_write(file, buf, size) : syscall(SYS_write, file, buf, size);
}

ssize_t write(int file, const void *buf, size_t size) {
    return write_or_refuse(file, buf, size);
}

ssize_t __write(int file, const void *buf, size_t size) {
    return write_or_refuse(file, buf, size);
}

int pthread_create(pthread_t *thread, const pthread_attr_t *how, void *(*start)(void *), void *given) {
    if (is_refused(THREAD)) return EAGAIN;
    return real_pthread_create(thread, how, start, given);
}
