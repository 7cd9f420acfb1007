#define _GNU_SOURCE
#include <dlfcn.h>
#include <errno.h>
#include <fcntl.h>
#include <pthread.h>
#include <stdarg.h>
#include <stdio.h>
#include <stdlib.h>
#include <string.h>
#include <sys/file.h>
#include <sys/socket.h>
#include <sys/syscall.h>
#include <unistd.h>

/* For the modules beside this file: a process that is told so by its environment has calls of the system that fail, that do less than
   they were asked for, or that are interrupted; and what it does is noted.

   CALLS_FAIL=NAME FIRST LAST CAUSE   of the calls of this name, counted from 1, those from FIRST to LAST fail with the error CAUSE
   CALLS_PART=NAME BYTES              each call of this name takes so many bytes at most
   CALLS_STOPPED=NAME                 each call of this name is interrupted, and does what it should when it is made again
   CALLS_LOST=OFFICE                  what this office sends is lost; it stands with the ninth byte of its frames
   CALLS_NOTED=FILE                   of each call a line: its name, descriptor and answer, and its bytes or its path in digits

   The name `datagram` is of the calls that take and send one. */
static char failing[32], parted[32], stopped[32];
static long first, last, cause, bytes, count, calls;
static int lost = -1, notes = -1;
static pthread_mutex_t turn = PTHREAD_MUTEX_INITIALIZER;

__attribute__((constructor)) static void begin(void) {
    const char *it;
    if ((it = getenv("CALLS_FAIL")) && sscanf(it, "%31s %ld %ld %ld", failing, &first, &last, &cause) != 4) abort();
    if ((it = getenv("CALLS_PART")) && sscanf(it, "%31s %ld", parted, &bytes) != 2) abort();
    if ((it = getenv("CALLS_STOPPED")) && sscanf(it, "%31s", stopped) != 1) abort();
    if ((it = getenv("CALLS_LOST"))) lost = atoi(it);
    if ((it = getenv("CALLS_NOTED"))) notes = syscall(SYS_openat, AT_FDCWD, it, O_WRONLY | O_CREAT | O_APPEND | O_CLOEXEC, 0600);
}

static int is_one(const char *asked, const char *name) {
    return !strcmp(asked, name) || (!strcmp(asked, "datagram") && (!strcmp(name, "recvfrom") || !strcmp(name, "sendto")));
}
static int fails(const char *name) {
    if (is_one(stopped, name) && __atomic_fetch_add(&calls, 1, __ATOMIC_SEQ_CST) % 2 == 0) return errno = EINTR;
    if (!is_one(failing, name)) return 0;
    long call = __atomic_add_fetch(&count, 1, __ATOMIC_SEQ_CST);
    return first <= call && call <= last ? (errno = cause) : 0;
}
static size_t part(const char *name, size_t size) { return is_one(parted, name) && size > (size_t)bytes ? (size_t)bytes : size; }
static long noted(const char *name, int file, long answer, const void *from, size_t size) {
    static char line[1 << 20];
    int why = errno;
    if (notes < 0) return answer;
    pthread_mutex_lock(&turn);
    int at = sprintf(line, "%s %d %ld ", name, file, answer);
    for (size_t i = 0; i < size && at < (int)sizeof line - 3; i++) at += sprintf(line + at, "%02x", ((const unsigned char *)from)[i]);
    line[at++] = '\n';
    if (syscall(SYS_write, notes, line, at) != at) abort();
    pthread_mutex_unlock(&turn);
    errno = why;
    return answer;
}
#define NEXT(answer, name, words) static answer (*next) words; if (!next) next = (answer (*) words)dlsym(RTLD_NEXT, name)

ssize_t read(int file, void *to, size_t size) {
    NEXT(ssize_t, "read", (int, void *, size_t));
    /* One of no bytes asks whether there is such a descriptor. */
    if (!size) return next(file, to, size);
    return noted("read", file, fails("read") ? -1 : next(file, to, part("read", size)), NULL, 0);
}
ssize_t write(int file, const void *from, size_t size) {
    NEXT(ssize_t, "write", (int, const void *, size_t));
    ssize_t answer = fails("write") ? -1 : next(file, from, part("write", size));
    return noted("write", file, answer, from, answer > 0 ? (size_t)answer : 0);
}
ssize_t recvfrom(int file, void *to, size_t size, int flags, struct sockaddr *at, socklen_t *length) {
    NEXT(ssize_t, "recvfrom", (int, void *, size_t, int, struct sockaddr *, socklen_t *));
    return noted("recvfrom", file, fails("recvfrom") ? -1 : next(file, to, size, flags, at, length), NULL, 0);
}
ssize_t sendto(int file, const void *from, size_t size, int flags, const struct sockaddr *at, socklen_t length) {
    NEXT(ssize_t, "sendto", (int, const void *, size_t, int, const struct sockaddr *, socklen_t));
    int is_lost = size > 8 && ((const unsigned char *)from)[8] == lost;
    ssize_t answer = fails("sendto") ? -1 : is_lost ? (ssize_t)size : next(file, from, size, flags, at, length);
    return noted("sendto", file, answer, from, size);
}
int bind(int file, const struct sockaddr *at, socklen_t length) {
    NEXT(int, "bind", (int, const struct sockaddr *, socklen_t));
    return noted("bind", file, fails("bind") ? -1 : next(file, at, length), NULL, 0);
}
int open(const char *path, int flags, ...) {
    NEXT(int, "open", (const char *, int, ...));
    va_list rest;
    va_start(rest, flags);
    int mode = va_arg(rest, int);
    va_end(rest);
    return noted("open", -1, fails("open") ? -1 : next(path, flags, mode), path, strlen(path));
}
int flock(int file, int how) {
    NEXT(int, "flock", (int, int));
    return noted("flock", file, fails("flock") ? -1 : next(file, how), NULL, 0);
}
int fsync(int file) {
    NEXT(int, "fsync", (int));
    return noted("fsync", file, fails("fsync") ? -1 : next(file), NULL, 0);
}
int fdatasync(int file) {
    NEXT(int, "fdatasync", (int));
    return noted("fdatasync", file, fails("fdatasync") ? -1 : next(file), NULL, 0);
}
int ftruncate(int file, off_t size) {
    NEXT(int, "ftruncate", (int, off_t));
    return noted("ftruncate", file, fails("ftruncate") ? -1 : next(file, size), NULL, 0);
}
int ftruncate64(int file, off_t size) { return ftruncate(file, size); }
int pthread_create(pthread_t *made, const pthread_attr_t *how, void *(*does)(void *), void *with) {
    NEXT(int, "pthread_create", (pthread_t *, const pthread_attr_t *, void *(*)(void *), void *));
    int why = fails("pthread_create");
    return (int)noted("pthread_create", -1, why ? why : next(made, how, does, with), NULL, 0);
}
