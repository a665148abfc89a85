/* A library to be preloaded: fails calls of one kind, as a system does that has no memory, no room on a disk or a broken stream.
 *
 *     REFUSE_KIND    memory, start, read, out or notes: requests of memory, starts of threads, reads of standard input, writes to
 *                    standard output, writes to standard error; or none of them
 *     REFUSE_FROM    the first call that fails, counted from 1
 *     REFUSE_COUNT   how many fail from there on
 *     REFUSE_SHORT   1: reads and writes that don't fail take one byte at most
 *     REFUSE_TELL    a file descriptor to which the number of calls of the kind is written at the end, in decimal
 *
 * Calls of several threads are counted as they come. */
#define _GNU_SOURCE
#include <dlfcn.h>
#include <errno.h>
#include <pthread.h>
#include <stdatomic.h>
#include <stdio.h>
#include <stdlib.h>
#include <string.h>
#include <sys/syscall.h>
#include <unistd.h>

static const char *kind = "";
static unsigned long first = 0, count = 0;
static int is_short = 0, tell = -1;
static atomic_ulong calls;

static unsigned long number_of(const char *name, unsigned long otherwise) {
    const char *value = getenv(name);
    return value ? strtoul(value, NULL, 10) : otherwise;
}

__attribute__((constructor)) static void begin(void) {
    first = number_of("REFUSE_FROM", 0);
    count = number_of("REFUSE_COUNT", 0);
    is_short = (int)number_of("REFUSE_SHORT", 0);
    tell = (int)number_of("REFUSE_TELL", (unsigned long)-1);
    if (getenv("REFUSE_KIND")) kind = getenv("REFUSE_KIND");
}

/* Whether this call, which is of the kind asked for, is refused. */
static int is_refused(const char *asked) {
    if (strcmp(kind, asked) != 0) return 0;
    unsigned long number = atomic_fetch_add(&calls, 1) + 1;
    return first != 0 && number >= first && number - first < count;
}

extern void *__libc_malloc(size_t);
extern void *__libc_calloc(size_t, size_t);
extern void *__libc_realloc(void *, size_t);

static void *no_memory(void) {
    errno = ENOMEM;
    return NULL;
}

void *malloc(size_t size) {
    return is_refused("memory") ? no_memory() : __libc_malloc(size);
}

void *calloc(size_t number, size_t size) {
    return is_refused("memory") ? no_memory() : __libc_calloc(number, size);
}

void *realloc(void *block, size_t size) {
    return is_refused("memory") ? no_memory() : __libc_realloc(block, size);
}

int pthread_create(pthread_t *thread, const pthread_attr_t *attributes, void *(*run)(void *), void *argument) {
    static int (*create)(pthread_t *, const pthread_attr_t *, void *(*)(void *), void *);
    if (is_refused("start")) return EAGAIN;
    if (create == NULL) *(void **)&create = dlsym(RTLD_NEXT, "pthread_create");
    return create(thread, attributes, run, argument);
}

ssize_t read(int stream, void *bytes, size_t size) {
    static ssize_t (*next)(int, void *, size_t);
    if (stream == STDIN_FILENO && is_refused("read")) {
        errno = EIO;
        return -1;
    }
    if (next == NULL) *(void **)&next = dlsym(RTLD_NEXT, "read");
    return next(stream, bytes, is_short && size > 1 ? 1 : size);
}

static ssize_t written(int stream, const void *bytes, size_t size) {
    static ssize_t (*next)(int, const void *, size_t);
    if ((stream == STDOUT_FILENO && is_refused("out")) || (stream == STDERR_FILENO && is_refused("notes"))) {
        errno = ENOSPC;
        return -1;
    }
    if (next == NULL) *(void **)&next = dlsym(RTLD_NEXT, "write");
    return next(stream, bytes, is_short && size > 1 ? 1 : size);
}

ssize_t write(int stream, const void *bytes, size_t size) {
    return written(stream, bytes, size);
}

/* The runtime calls it by this name too. */
ssize_t __write(int stream, const void *bytes, size_t size) {
    return written(stream, bytes, size);
}

/* The runtime ends the process by this call. */
void _exit(int status) {
    char told[32];
    if (tell >= 0) {
        int length = snprintf(told, sizeof told, "%lu", atomic_load(&calls));
        is_short = 0;
        if (written(tell, told, (size_t)length) != length) status = 70;
    }
    syscall(SYS_exit_group, status);
    __builtin_unreachable();
}
