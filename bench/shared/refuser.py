"""A library that refuses one call of the program.

For bench/trials/failing and bench/checks/refused.

Needs: Python 3.8 or later. To build the library it needs gcc or clang as `cc`, and the C library of GNU.

Prints: nothing.
"""
import os

from visits import build_library

# Stands before the calls of the C library that the program makes. It refuses the one of this kind and number, counted
# from 1 behind the start of the program, and then writes the file REFUSED.
REFUSER = r"""
#define _GNU_SOURCE
#include <dlfcn.h>
#include <errno.h>
#include <fcntl.h>
#include <pthread.h>
#include <stdarg.h>
#include <stdio.h>
#include <stdlib.h>
#include <sys/socket.h>
#include <sys/stat.h>
#include <unistd.h>

enum { GROWTH, READ, WRITE, ACCEPT, THREAD, SYNC, CUT, NAME, OPEN };
static int kind;
static long left;

static int is_due(int of, int error) {
    if (of != kind || left <= 0 || __atomic_fetch_sub(&left, 1, __ATOMIC_SEQ_CST) != 1) return 0;
    close(open(getenv("REFUSED"), O_CREAT | O_WRONLY, 0600));
    errno = error;
    return 1;
}

extern void *__libc_malloc(size_t);
extern void *__libc_realloc(void *, size_t);
void *malloc(size_t size) { return is_due(GROWTH, ENOMEM) ? NULL : __libc_malloc(size); }
void *realloc(void *block, size_t size) { return is_due(GROWTH, ENOMEM) ? NULL : __libc_realloc(block, size); }

#define BEFORE(TYPE, NAME, TAKES, GIVES, OF, ERROR, ANSWER) \
    TYPE NAME TAKES { \
        static TYPE(*behind) TAKES; \
        if (!behind) *(void **)&behind = dlsym(RTLD_NEXT, #NAME); \
        return is_due(OF, ERROR) ? ANSWER : behind GIVES; \
    }
BEFORE(ssize_t, read, (int fd, void *to, size_t size), (fd, to, size), READ, EIO, -1)
BEFORE(ssize_t, recv, (int fd, void *to, size_t size, int how), (fd, to, size, how), READ, ECONNRESET, -1)

/* a wake of a thread, a write to an eventfd, is none that Linux refuses */
static int is_wake(int fd) {
    struct stat found;
    return fd > 2 && !fstat(fd, &found) && !(found.st_mode & S_IFMT);
}

ssize_t write(int fd, const void *from, size_t size) {
    static ssize_t (*behind)(int, const void *, size_t);
    if (!behind) *(void **)&behind = dlsym(RTLD_NEXT, "write");
    return !is_wake(fd) && is_due(WRITE, EIO) ? -1 : behind(fd, from, size);
}

BEFORE(ssize_t, send, (int fd, const void *from, size_t size, int how), (fd, from, size, how), WRITE, ECONNRESET, -1)
BEFORE(int, accept4, (int fd, struct sockaddr *by, socklen_t *size, int how), (fd, by, size, how), ACCEPT, EMFILE, -1)
BEFORE(int, fsync, (int fd), (fd), SYNC, EIO, -1)
BEFORE(int, fdatasync, (int fd), (fd), SYNC, EIO, -1)
BEFORE(int, ftruncate, (int fd, off_t size), (fd, size), CUT, EIO, -1)
BEFORE(int, link, (const char *from, const char *to), (from, to), NAME, EIO, -1)
BEFORE(int, rename, (const char *from, const char *to), (from, to), NAME, EIO, -1)
BEFORE(int, unlink, (const char *name), (name), NAME, EIO, -1)
BEFORE(int, pthread_create, (pthread_t *to, const pthread_attr_t *how, void *(*run)(void *), void *with),
       (to, how, run, with), THREAD, EAGAIN, EAGAIN)

int open(const char *name, int how, ...) {
    static int (*behind)(const char *, int, ...);
    if (!behind) *(void **)&behind = dlsym(RTLD_NEXT, "open");
    va_list more;
    va_start(more, how);
    mode_t mode = how & O_CREAT ? va_arg(more, mode_t) : 0;
    va_end(more);
    return is_due(OPEN, EMFILE) ? -1 : behind(name, how, mode);
}

__attribute__((constructor)) static void begin(void) {
    kind = atoi(getenv("KIND"));
    left = atol(getenv("NUMBER"));
}
"""


def build_refuser(folder):
    """Builds what refuses the calls, as refuser.so in this folder."""
    build_library(REFUSER, os.path.join(folder, "refuser.so"))
