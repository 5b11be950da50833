/* Loaded beside a program: a write to standard output takes nothing, and no call has failed; an error of some earlier call is left. */
#define _GNU_SOURCE
#include <errno.h>
#include <sys/syscall.h>
#include <unistd.h>

ssize_t write(int fd, const void *from, size_t size) {
    if (fd == STDOUT_FILENO) {
        errno = ENOSPC;
        return 0;
    }
    return syscall(SYS_write, fd, from, size);
}
