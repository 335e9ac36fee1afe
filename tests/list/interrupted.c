/* A read for LD_PRELOAD that moves at most 7 bytes, after as many interruptions as the environment's INTERRUPTS says. */
#define _GNU_SOURCE
#include <errno.h>
#include <stdlib.h>
#include <sys/syscall.h>
#include <unistd.h>

ssize_t read(int from, void *to, size_t most) {
    static long interrupted;
    const char *wanted = getenv("INTERRUPTS");
    if (wanted != NULL && interrupted < atol(wanted)) {
        interrupted++;
        errno = EINTR;
        return -1;
    }
    interrupted = 0;
    return syscall(SYS_read, from, to, most < 7 ? most : 7);
}
