/* Counts calls of a program that is started with this before its C library, into the file that COUNTS names: other processes can
 * read them while it runs. Where START names a file, the first wait is held up until as many programs as OFFICES says have come to
 * theirs, which they count in that file. */
#define _GNU_SOURCE
#include <dlfcn.h>
#include <fcntl.h>
#include <poll.h>
#include <stdint.h>
#include <stdlib.h>
#include <sys/epoll.h>
#include <sys/mman.h>
#include <sys/socket.h>
#include <sys/stat.h>
#include <time.h>
#include <unistd.h>

/* In this order store_ring.py reads them. Times are nanoseconds of a clock that all processes share: when the first wait began, when the
 * last one that may take no time at all did, which an office asks for where it has more to do, and when the last message was sent.
 * The last three are how long the calls between those two took: of sendto, of write, and of waits. */
struct counts {
    uint64_t begun, worked_last, data_sent_last, datagrams_sent, datagrams_come, appends, appended_bytes, syncs, waits, allocations;
    uint64_t sending, writing, waiting;
};

static struct counts none, *counts = &none;
static struct took { uint64_t sending, writing, waiting; } took;

static uint64_t now(void) {
    struct timespec at;
    clock_gettime(CLOCK_MONOTONIC, &at);
    return at.tv_sec * 1000000000ull + at.tv_nsec;
}

static void *shared(const char *name, size_t size) {
    int file = name ? open(name, O_RDWR | O_CREAT, 0600) : -1;
    if (file < 0 || ftruncate(file, size)) return NULL;
    void *at = mmap(NULL, size, PROT_READ | PROT_WRITE, MAP_SHARED, file, 0);
    close(file);
    return at == MAP_FAILED ? NULL : at;
}

__attribute__((constructor)) static void begin(void) {
    void *at = shared(getenv("COUNTS"), sizeof *counts);
    if (at) counts = at;
}

static void wait_begins(int most) {
    if (!counts->waits++) {
        _Atomic uint64_t *there = shared(getenv("START"), sizeof *there);
        if (there) {
            uint64_t all = strtoull(getenv("OFFICES"), NULL, 10);
            ++*there;
            while (*there < all) usleep(100);
        }
        took = (struct took){0};
        counts->begun = now();
    }
    if (!most) {
        counts->worked_last = now();
        counts->sending = took.sending;
        counts->writing = took.writing;
        counts->waiting = took.waiting;
    }
}

#define NEXT(call) \
    static __typeof__(&call) next; \
    if (!next) next = (__typeof__(&call))dlsym(RTLD_NEXT, #call)

ssize_t sendto(int s, const void *from, size_t size, int flags, const struct sockaddr *at, socklen_t length) {
    NEXT(sendto);
    counts->datagrams_sent++;
    uint64_t from_then = now();
    if (size > 26) counts->data_sent_last = from_then;
    ssize_t sent = next(s, from, size, flags, at, length);
    took.sending += now() - from_then;
    return sent;
}
ssize_t recvfrom(int s, void *to, size_t size, int flags, struct sockaddr *at, socklen_t *length) {
    NEXT(recvfrom);
    ssize_t got = next(s, to, size, flags, at, length);
    counts->datagrams_come += got >= 0;
    return got;
}
/* An append is a write to a file on a disk. */
ssize_t write(int file, const void *from, size_t size) {
    NEXT(write);
    static signed char kinds[256];
    if (file >= 3 && file < 256) {
        struct stat is;
        if (!kinds[file]) kinds[file] = !fstat(file, &is) && S_ISREG(is.st_mode) ? 1 : -1;
        if (kinds[file] == 1) {
            counts->appends++;
            counts->appended_bytes += size;
        }
    }
    uint64_t from_then = now();
    ssize_t written = next(file, from, size);
    took.writing += now() - from_then;
    return written;
}
int fdatasync(int file) {
    NEXT(fdatasync);
    counts->syncs++;
    return next(file);
}
int epoll_wait(int at, struct epoll_event *events, int most, int wait) {
    NEXT(epoll_wait);
    wait_begins(wait);
    uint64_t from_then = now();
    int got = next(at, events, most, wait);
    took.waiting += now() - from_then;
    return got;
}
int poll(struct pollfd *files, nfds_t count, int wait) {
    NEXT(poll);
    wait_begins(wait);
    uint64_t from_then = now();
    int got = next(files, count, wait);
    took.waiting += now() - from_then;
    return got;
}
void *malloc(size_t size) {
    NEXT(malloc);
    counts->allocations++;
    return next(size);
}
void *realloc(void *old, size_t size) {
    NEXT(realloc);
    counts->allocations++;
    return next(old, size);
}
void *aligned_alloc(size_t align, size_t size) {
    NEXT(aligned_alloc);
    counts->allocations++;
    return next(align, size);
}
int posix_memalign(void **to, size_t align, size_t size) {
    NEXT(posix_memalign);
    counts->allocations++;
    return next(to, align, size);
}
