/* Stands between a program and the C library, and refuses one call of a kind, or this one and all behind it.

   REFUSE_KIND is memory, open, read, write, thread, or short, which lets a read or a write move one byte.
   REFUSE_AT is the number of the first call that is refused, from 1; 0 refuses none.
   REFUSE_ALL is 1 where all calls behind it are refused too.
   REFUSE_COUNT names a file that is given the number of the calls of the kind when the program ends. */
#define _GNU_SOURCE
#include <dlfcn.h>
#include <errno.h>
#include <fcntl.h>
#include <pthread.h>
#include <stdarg.h>
#include <stdatomic.h>
#include <stdio.h>
#include <stdlib.h>
#include <string.h>
#include <unistd.h>

static atomic_long calls;
static const char *kind = "";
static long refused_at;
static int refuses_all;
static void *(*real_malloc)(size_t);
static void *(*real_realloc)(void *, size_t);
static int (*real_open)(const char *, int, ...);
static ssize_t (*real_read)(int, void *, size_t);
static ssize_t (*real_write)(int, const void *, size_t);
static int (*real_create)(pthread_t *, const pthread_attr_t *, void *(*)(void *), void *);

__attribute__((constructor)) static void begin(void)
{
    real_malloc = dlsym(RTLD_NEXT, "malloc");
    real_realloc = dlsym(RTLD_NEXT, "realloc");
    real_open = dlsym(RTLD_NEXT, "open");
    real_read = dlsym(RTLD_NEXT, "read");
    real_write = dlsym(RTLD_NEXT, "write");
    real_create = dlsym(RTLD_NEXT, "pthread_create");
    refused_at = getenv("REFUSE_AT") ? atol(getenv("REFUSE_AT")) : 0;
    refuses_all = getenv("REFUSE_ALL") && *getenv("REFUSE_ALL") == '1';
    if (getenv("REFUSE_KIND")) kind = getenv("REFUSE_KIND");
}

/* Whether this call is refused. Calls before the constructor count for nothing. */
static int refuses(const char *now)
{
    if (strcmp(kind, now)) return 0;
    long call = ++calls;
    return refused_at && (call == refused_at || (refuses_all && call > refused_at));
}

void *malloc(size_t size)
{
    if (!real_malloc) real_malloc = dlsym(RTLD_NEXT, "malloc");
    if (!refuses("memory")) return real_malloc(size);
    errno = ENOMEM;
    return NULL;
}

void *realloc(void *old, size_t size)
{
    if (!real_realloc) real_realloc = dlsym(RTLD_NEXT, "realloc");
    if (!refuses("memory")) return real_realloc(old, size);
    errno = ENOMEM;
    return NULL;
}

int open(const char *name, int flags, ...)
{
    va_list more;
    va_start(more, flags);
    int mode = flags & O_CREAT ? va_arg(more, int) : 0;
    va_end(more);
    if (!refuses("open")) return real_open(name, flags, mode);
    errno = EACCES;
    return -1;
}

ssize_t read(int file, void *bytes, size_t size)
{
    if (refuses("short") && size > 1) size = 1;
    if (!refuses("read")) return real_read(file, bytes, size);
    errno = EIO;
    return -1;
}

ssize_t write(int file, const void *bytes, size_t size)
{
    if (refuses("short") && size > 1) size = 1;
    if (!refuses("write")) return real_write(file, bytes, size);
    errno = ENOSPC;
    return -1;
}

int pthread_create(pthread_t *thread, const pthread_attr_t *wanted, void *(*body)(void *), void *argument)
{
    return refuses("thread") ? EAGAIN : real_create(thread, wanted, body, argument);
}

/* Tells the number of the calls. */
static void tell(void)
{
    char line[32];
    const char *name = getenv("REFUSE_COUNT");
    int file = name && real_open ? real_open(name, O_WRONLY | O_CREAT | O_TRUNC, 0600) : -1;
    if (file < 0) return;
    int size = snprintf(line, sizeof line, "%ld\n", atomic_load(&calls));
    if (real_write(file, line, size) != size) abort();
    close(file);
}

__attribute__((destructor)) static void end(void) { tell(); }

void _exit(int status)
{
    tell();
    void (*real_exit)(int) = dlsym(RTLD_NEXT, "_exit");
    real_exit(status);
    abort();
}
