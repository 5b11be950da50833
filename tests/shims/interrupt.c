/* Loaded beside a program: each read and each write is interrupted once, as by a signal, before it is carried out. */
#define _GNU_SOURCE
#include <errno.h>
#include <stdbool.h>
#include <sys/syscall.h>
#include <unistd.h>

/* Whether it is this call's turn to be interrupted. */
static bool interrupted(bool *before) {
    *before = !*before;
    if (*before) {
        errno = EINTR;
    }
    return *before;
}

ssize_t read(int fd, void *to, size_t size) {
    static bool before;
    return interrupted(&before) ? -1 : syscall(SYS_read, fd, to, size);
}

ssize_t write(int fd, const void *from, size_t size) {
    static bool before;
    return interrupted(&before) ? -1 : syscall(SYS_write, fd, from, size);
}
