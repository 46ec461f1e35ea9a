/* Preloaded into a program (LD_PRELOAD), lets calls of the C library fail that the variable REFUSE names:
 *   memory N     the N-th call of malloc or realloc gives nothing; memory N- the N-th and all behind it
 *   CALL N E     the N-th call of open, read or write fails with the error number E
 *   CALL short   each call of read or write moves one byte at most
 * Without such a call nothing changes. A call that was let fail leaves the file `refused` in the folder. */
#define _GNU_SOURCE
#include <dlfcn.h>
#include <errno.h>
#include <fcntl.h>
#include <stdarg.h>
#include <stdio.h>
#include <stdlib.h>
#include <string.h>
#include <sys/syscall.h>
#include <unistd.h>

static char call[16], how[16];
static int error, calls;

__attribute__((constructor)) static void read_words(void) {
    const char *words = getenv("REFUSE");
    if (words)
        sscanf(words, "%15s %15s %d", call, how, &error);
}

/* Whether this call of the kind is to fail. */
static int fails(const char *kind) {
    if (strcmp(call, kind) || !strcmp(how, "short"))
        return 0;
    int n = atoi(how);
    calls++;
    if (calls < n || (calls > n && !strchr(how, '-')))
        return 0;
    if (calls == n)
        close((int)syscall(SYS_open, "refused", O_WRONLY | O_CREAT, 0600));
    return 1;
}

static size_t moved(const char *kind, size_t size) {
    return !strcmp(call, kind) && !strcmp(how, "short") && size ? 1 : size;
}

void *malloc(size_t size) {
    static void *(*real)(size_t);
    if (!real)
        real = (void *(*)(size_t))dlsym(RTLD_NEXT, "malloc");
    return fails("memory") ? NULL : real(size);
}

void *realloc(void *old, size_t size) {
    static void *(*real)(void *, size_t);
    if (!real)
        real = (void *(*)(void *, size_t))dlsym(RTLD_NEXT, "realloc");
    return fails("memory") ? NULL : real(old, size);
}

int open(const char *name, int flags, ...) {
    static int (*real)(const char *, int, ...);
    va_list rest;
    va_start(rest, flags);
    int mode = flags & O_CREAT ? va_arg(rest, int) : 0;
    va_end(rest);
    if (!real)
        real = (int (*)(const char *, int, ...))dlsym(RTLD_NEXT, "open");
    if (fails("open")) {
        errno = error;
        return -1;
    }
    return real(name, flags, mode);
}

ssize_t read(int fd, void *bytes, size_t size) {
    static ssize_t (*real)(int, void *, size_t);
    if (!real)
        real = (ssize_t (*)(int, void *, size_t))dlsym(RTLD_NEXT, "read");
    if (fails("read")) {
        errno = error;
        return -1;
    }
    return real(fd, bytes, moved("read", size));
}

ssize_t write(int fd, const void *bytes, size_t size) {
    static ssize_t (*real)(int, const void *, size_t);
    if (!real)
        real = (ssize_t (*)(int, const void *, size_t))dlsym(RTLD_NEXT, "write");
    if (fails("write")) {
        errno = error;
        return -1;
    }
    return real(fd, bytes, moved("write", size));
}
