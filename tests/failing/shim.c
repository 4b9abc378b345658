/* Makes one call of the system fail, to see what a program answers then. Built and loaded by `run`.
   SHIM_CALL names the call, SHIM_AT its number from 1 on, SHIM_ERRNO the error; SHIM_FROM, where it
   is set, the only descriptor whose calls are counted. How many there were is written to SHIM_COUNT
   at the end. SHIM_LOSE=1 cuts the file that is closed to nothing, as a server does that lost
   it. */
#define _GNU_SOURCE
#include <dlfcn.h>
#include <errno.h>
#include <fcntl.h>
#include <pthread.h>
#include <stdarg.h>
#include <stdio.h>
#include <stdlib.h>
#include <string.h>
#include <sys/syscall.h>
#include <sys/types.h>
#include <unistd.h>

static const char *name;
static long at, count, only = -1;
static int error, lose, ready;

__attribute__((constructor)) static void begin(void) {
    name = getenv("SHIM_CALL");
    const char *text = getenv("SHIM_AT");
    at = text ? atol(text) : 0;
    text = getenv("SHIM_ERRNO");
    error = text ? atoi(text) : EIO;
    text = getenv("SHIM_FROM");
    only = text ? atol(text) : -1;
    lose = getenv("SHIM_LOSE") != NULL;
    ready = name != NULL;
}


__attribute__((destructor)) static void end(void) {
    const char *path = getenv("SHIM_COUNT");
    ready = 0;
    if (path == NULL) return;
    int fd = (int)syscall(257 /* openat */, AT_FDCWD, path, O_WRONLY | O_CREAT | O_TRUNC, 0644);
    char line[32];
    int length = snprintf(line, sizeof line, "%ld\n", count);
    if (fd >= 0) (void)!write(fd, line, (size_t)length);
}

/* A program with threads ends by this, behind which no destructor runs. */
void _exit(int status) {
    end();
    for (;;) syscall(SYS_exit_group, status);
}

static int fails(const char *call, int fd) {
    if (!ready || strcmp(call, name) != 0 || (only >= 0 && fd != only)) return 0;
    if (__atomic_add_fetch(&count, 1, __ATOMIC_SEQ_CST) != at) return 0;
    errno = error;
    return 1;
}

#define REAL(type, call, ...) \
    static type (*real)(__VA_ARGS__); \
    if (!real) real = (type (*)(__VA_ARGS__))dlsym(RTLD_NEXT, #call)

ssize_t read(int fd, void *to, size_t most) {
    REAL(ssize_t, read, int, void *, size_t);
    return fails("read", fd) ? -1 : real(fd, to, most);
}
ssize_t write(int fd, const void *from, size_t most) {
    REAL(ssize_t, write, int, const void *, size_t);
    return fails("write", fd) ? -1 : real(fd, from, most);
}
int fsync(int fd) {
    REAL(int, fsync, int);
    return fails("fsync", fd) ? -1 : real(fd);
}
int close(int fd) {
    REAL(int, close, int);
    if (fails("close", fd)) {
        if (lose && ftruncate(fd, 0) != 0) errno = error;
        real(fd);
        errno = error;
        return -1;
    }
    return real(fd);
}
int openat(int dir, const char *path, int flags, ...) {
    REAL(int, openat, int, const char *, int, ...);
    va_list rest;
    va_start(rest, flags);
    mode_t mode = flags & O_CREAT ? va_arg(rest, mode_t) : 0;
    va_end(rest);
    return fails("open", -1) ? -1 : real(dir, path, flags, mode);
}
int open(const char *path, int flags, ...) {
    REAL(int, open, const char *, int, ...);
    va_list rest;
    va_start(rest, flags);
    mode_t mode = flags & O_CREAT ? va_arg(rest, mode_t) : 0;
    va_end(rest);
    return fails("open", -1) ? -1 : real(path, flags, mode);
}
int open64(const char *path, int flags, ...) __attribute__((alias("open")));
int openat64(int dir, const char *path, int flags, ...) __attribute__((alias("openat")));

extern void *__libc_malloc(size_t);
extern void *__libc_realloc(void *, size_t);
void *malloc(size_t size) { return fails("malloc", -1) ? NULL : __libc_malloc(size); }
void *realloc(void *old, size_t size) {
    return fails("malloc", -1) ? NULL : __libc_realloc(old, size);
}

/* A thread that isn't started is told by the answer, not by errno. */
int pthread_create(pthread_t *thread, const pthread_attr_t *how, void *(*run)(void *), void *with) {
    REAL(int, pthread_create, pthread_t *, const pthread_attr_t *, void *(*)(void *), void *);
    return fails("thread", -1) ? error : real(thread, how, run, with);
}
