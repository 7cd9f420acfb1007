/* Makes a sync of a program that is started with this before its C library take as many microseconds as SYNC_TAKES names, where it
   names any, and then asks no disk; and counts the syncs in the first 8 bytes of the file that SYNC_COUNTS names. */
#define _GNU_SOURCE
#include <dlfcn.h>
#include <fcntl.h>
#include <stdlib.h>
#include <sys/mman.h>
#include <unistd.h>

static void count(void) {
    static long *counted;
    if (!counted)
        counted = mmap(0, sizeof *counted, PROT_READ | PROT_WRITE, MAP_SHARED, open(getenv("SYNC_COUNTS"), O_RDWR), 0);
    __atomic_add_fetch(counted, 1, __ATOMIC_SEQ_CST);
}

static int syncs(int file, const char *name) {
    const char *takes = getenv("SYNC_TAKES");
    count();
    if (!takes)
        return ((int (*)(int))dlsym(RTLD_NEXT, name))(file);
    usleep(atoi(takes));
    return 0;
}
int fsync(int file) { return syncs(file, "fsync"); }
int fdatasync(int file) { return syncs(file, "fdatasync"); }
