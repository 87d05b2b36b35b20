// Preloaded by fail_calls.py: makes the FAIL_AT-th call of a kind (FAIL_KIND: alloc, read, write, thread) fail, and with FAIL_ON=1 each one behind it.
// Their number is kept in the file FAIL_COUNT, eight bytes that are zeros at first.
#define _GNU_SOURCE
#include <dlfcn.h>
#include <errno.h>
#include <stdatomic.h>
#include <fcntl.h>
#include <pthread.h>
#include <stdlib.h>
#include <sys/mman.h>
#include <unistd.h>

static atomic_long none, *calls = &none;
static long at;
static int on, kind;

__attribute__((constructor)) static void begin(void) {
    const char *name = getenv("FAIL_KIND"), *number = getenv("FAIL_AT"), *more = getenv("FAIL_ON"), *file = getenv("FAIL_COUNT");
    int count = file ? open(file, O_RDWR) : -1;
    void *room = count < 0 ? MAP_FAILED : mmap(NULL, sizeof *calls, PROT_READ | PROT_WRITE, MAP_SHARED, count, 0);
    if (room != MAP_FAILED) calls = room;
    at = number ? atol(number) : 0;
    on = more && *more == '1';
    kind = name ? *name : 0;
}

static int fails(int of) {
    if (kind != of) return 0;
    long call = atomic_fetch_add(calls, 1) + 1;
    return at && (call == at || (on && call > at));
}

extern void *__libc_malloc(size_t);
extern void *__libc_calloc(size_t, size_t);
extern void *__libc_realloc(void *, size_t);
extern void *__libc_memalign(size_t, size_t);

static void *no_memory(void) {
    errno = ENOMEM;
    return NULL;
}

void *malloc(size_t size) { return fails('a') ? no_memory() : __libc_malloc(size); }
void *calloc(size_t count, size_t size) { return fails('a') ? no_memory() : __libc_calloc(count, size); }
void *realloc(void *old, size_t size) { return fails('a') ? no_memory() : __libc_realloc(old, size); }
int posix_memalign(void **to, size_t align, size_t size) {
    if (fails('a')) return ENOMEM;
    *to = __libc_memalign(align, size);
    return *to ? 0 : ENOMEM;
}
void *aligned_alloc(size_t align, size_t size) { return fails('a') ? no_memory() : __libc_memalign(align, size); }

ssize_t read(int file, void *to, size_t count) {
    static ssize_t (*real)(int, void *, size_t);
    if (!real) real = dlsym(RTLD_NEXT, "read");
    if (file == 0 && fails('r')) {
        errno = EIO;
        return -1;
    }
    return real(file, to, count);
}

ssize_t write(int file, const void *from, size_t count) {
    static ssize_t (*real)(int, const void *, size_t);
    if (!real) real = dlsym(RTLD_NEXT, "write");
    if (file == 1 && fails('w')) {
        errno = EIO;
        return -1;
    }
    return real(file, from, count);
}

int pthread_create(pthread_t *to, const pthread_attr_t *attributes, void *(*work)(void *), void *given) {
    static int (*real)(pthread_t *, const pthread_attr_t *, void *(*)(void *), void *);
    if (!real) real = dlsym(RTLD_NEXT, "pthread_create");
    return fails('t') ? EAGAIN : real(to, attributes, work, given);
}
