// A library to be loaded before a program (LD_PRELOAD), that refuses it memory, or threads, and counts what it asks for.
//
// The environment says what: REFUSE is `memory` or `threads`, REFUSE_FIRST the number of the first call that is refused,
// counted from 1, and REFUSE_ALL is set where all later ones are refused too. Where REFUSE_LEAST is set, allocations of fewer
// bytes are neither counted for that nor refused. REFUSE_TOLD is the number of an open file, to
// which one byte is written when a call is refused for the first time.
//
// INTERRUPTED is how often each read and each write fails first, as one does that a signal interrupts.
//
// COUNTED is the number of an open file of 40 bytes or more, in which five numbers of 8 bytes count all along: allocations,
// starts of threads, the bytes that were asked for, those that are held, and the most that were. COUNTED_CALLS is that of an open file to which a line is written for each file that is opened, and for
// each read and each write, as `open 3 PATH`, `read 3 ASKED GOT` and `write 1 ASKED TAKEN`; -1 says that it failed.
//
// It stands before the allocations that go to the GNU C library, the program's and the library's own, and before the
// program's own anonymous mappings and starts of threads. The stacks of threads, which the C library maps by itself, are
// refused with the start of their thread.
#define _GNU_SOURCE
#include <dlfcn.h>
#include <errno.h>
#include <fcntl.h>
#include <malloc.h>
#include <pthread.h>
#include <stdarg.h>
#include <stdatomic.h>
#include <stdio.h>
#include <stdlib.h>
#include <string.h>
#include <sys/mman.h>
#include <sys/syscall.h>
#include <sys/uio.h>
#include <unistd.h>

void *__libc_malloc(size_t);
void *__libc_calloc(size_t, size_t);
void *__libc_realloc(void *, size_t);
void *__libc_memalign(size_t, size_t);
void __libc_free(void *);

static int of_threads;
static long first, least, told = -1, listed = -1;
static int all;
static atomic_long calls;
static long interrupted;
static atomic_long left;
// The program ends without the C library's last steps, so the counts stand in a file that another process reads.
enum { ALLOCATIONS, THREADS, BYTES, HELD, MOST_HELD, COUNTS };
static atomic_long unseen[COUNTS], *counts = unseen;

__attribute__((constructor)) static void begin(void) {
    const char *what = getenv("REFUSE"), *number = getenv("REFUSE_FIRST"), *file = getenv("REFUSE_TOLD");
    of_threads = what && strcmp(what, "threads") == 0;
    told = file ? atol(file) : -1;
    all = getenv("REFUSE_ALL") != NULL;
    const char *large = getenv("REFUSE_LEAST");
    least = large ? atol(large) : 0;
    atomic_store(&calls, 0);
    const char *counted = getenv("COUNTED"), *calls_to = getenv("COUNTED_CALLS");
    listed = calls_to ? atol(calls_to) : -1;
    const char *often = getenv("INTERRUPTED");
    interrupted = often ? atol(often) : 0;
    atomic_store(&left, interrupted);
    if (counted) {
        void *at = (void *)syscall(SYS_mmap, 0, sizeof unseen, PROT_READ | PROT_WRITE, MAP_SHARED, atoi(counted), 0);
        if (at != MAP_FAILED)
            counts = at;
    }
    first = what && number ? atol(number) : 0;
}

// Whether this call, for so many bytes, is refused.
static int is_refused(int is_thread, size_t size) {
    atomic_fetch_add(&counts[is_thread ? THREADS : ALLOCATIONS], 1);
    atomic_fetch_add(&counts[BYTES], (long)size);
    if (first == 0 || is_thread != of_threads || (long)size < least)
        return 0;
    long number = atomic_fetch_add(&calls, 1) + 1;
    if (number == first && told >= 0)
        syscall(SYS_write, told, "r", 1);
    return number == first || (all && number > first);
}

static void *refused(void) {
    errno = ENOMEM;
    return NULL;
}

// Counts what is held from now on.
static void *held(void *place) {
    if (!place)
        return NULL;
    long size = (long)malloc_usable_size(place), now = atomic_fetch_add(&counts[HELD], size) + size;
    long most = atomic_load(&counts[MOST_HELD]);
    while (now > most && !atomic_compare_exchange_weak(&counts[MOST_HELD], &most, now)) {
    }
    return place;
}

static void let_go(void *place) {
    if (place)
        atomic_fetch_sub(&counts[HELD], (long)malloc_usable_size(place));
}

void free(void *place) {
    let_go(place);
    __libc_free(place);
}

void *malloc(size_t size) {
    return is_refused(0, size) ? refused() : held(__libc_malloc(size));
}

void *calloc(size_t count, size_t size) {
    return is_refused(0, count * size) ? refused() : held(__libc_calloc(count, size));
}

void *realloc(void *old, size_t size) {
    if (is_refused(0, size))
        return refused();
    long before = old ? (long)malloc_usable_size(old) : 0;
    void *place = __libc_realloc(old, size);
    if (place || size == 0)
        atomic_fetch_sub(&counts[HELD], before);
    return held(place);
}

void *memalign(size_t align, size_t size) {
    return is_refused(0, size) ? refused() : held(__libc_memalign(align, size));
}

void *aligned_alloc(size_t align, size_t size) {
    return is_refused(0, size) ? refused() : held(__libc_memalign(align, size));
}

int posix_memalign(void **out, size_t align, size_t size) {
    if (is_refused(0, size))
        return ENOMEM;
    void *place = __libc_memalign(align, size);
    if (!place)
        return ENOMEM;
    *out = held(place);
    return 0;
}

void *mmap(void *at, size_t size, int rights, int flags, int file, off_t from) {
    if ((flags & MAP_ANONYMOUS) && is_refused(0, size)) {
        errno = ENOMEM;
        return MAP_FAILED;
    }
    return (void *)syscall(SYS_mmap, at, size, rights, flags, file, from);
}

int pthread_create(pthread_t *thread, const pthread_attr_t *how, void *(*work)(void *), void *with) {
    if (is_refused(1, 0))
        return EAGAIN;
    int (*create)(pthread_t *, const pthread_attr_t *, void *(*)(void *), void *) = dlsym(RTLD_NEXT, "pthread_create");
    return create(thread, how, work, with);
}

// Writes a line on a call, past the functions below.
static void list(const char *form, ...) {
    if (listed < 0)
        return;
    int error = errno;
    char line[5000];
    va_list rest;
    va_start(rest, form);
    int size = vsnprintf(line, sizeof line, form, rest);
    va_end(rest);
    if (size > (int)sizeof line - 1)
        size = sizeof line - 1;
    syscall(SYS_write, (int)listed, line, (size_t)size);
    errno = error;
}

// Whether this read or write fails, and is to be made again.
static int is_interrupted(void) {
    if (interrupted == 0)
        return 0;
    if (atomic_fetch_sub(&left, 1) > 0) {
        errno = EINTR;
        return 1;
    }
    atomic_store(&left, interrupted);
    return 0;
}

static int opened(int place, const char *path, int flags, mode_t mode) {
    int file = (int)syscall(SYS_openat, place, path, flags, mode);
    list("open %d %s\n", file, path);
    return file;
}

#define MODE(mode, flags)                                                                                                      \
    mode_t mode = 0;                                                                                                           \
    if ((flags) & (O_CREAT | O_TMPFILE)) {                                                                                     \
        va_list rest;                                                                                                          \
        va_start(rest, flags);                                                                                                 \
        mode = va_arg(rest, mode_t);                                                                                           \
        va_end(rest);                                                                                                          \
    }

int open(const char *path, int flags, ...) {
    MODE(mode, flags)
    return opened(AT_FDCWD, path, flags, mode);
}

int open64(const char *path, int flags, ...) {
    MODE(mode, flags)
    return opened(AT_FDCWD, path, flags, mode);
}

int openat(int place, const char *path, int flags, ...) {
    MODE(mode, flags)
    return opened(place, path, flags, mode);
}

int openat64(int place, const char *path, int flags, ...) {
    MODE(mode, flags)
    return opened(place, path, flags, mode);
}

ssize_t read(int file, void *to, size_t size) {
    if (is_interrupted())
        return -1;
    ssize_t got = syscall(SYS_read, file, to, size);
    list("read %d %zu %zd\n", file, size, got);
    return got;
}

ssize_t pread(int file, void *to, size_t size, off_t from) {
    if (is_interrupted())
        return -1;
    ssize_t got = syscall(SYS_pread64, file, to, size, from);
    list("read %d %zu %zd\n", file, size, got);
    return got;
}

ssize_t write(int file, const void *from, size_t size) {
    if (is_interrupted())
        return -1;
    ssize_t taken = syscall(SYS_write, file, from, size);
    list("write %d %zu %zd\n", file, size, taken);
    return taken;
}

ssize_t writev(int file, const struct iovec *parts, int count) {
    if (is_interrupted())
        return -1;
    size_t size = 0;
    for (int i = 0; i < count; i++)
        size += parts[i].iov_len;
    ssize_t taken = syscall(SYS_writev, file, parts, count);
    list("write %d %zu %zd\n", file, size, taken);
    return taken;
}
