/* Loaded beside a program: a read gives seven bytes at most, and a write takes three. */
#define _GNU_SOURCE
#include <sys/syscall.h>
#include <unistd.h>

ssize_t read(int fd, void *to, size_t size) {
    return syscall(SYS_read, fd, to, size < 7 ? size : 7);
}

ssize_t write(int fd, const void *from, size_t size) {
    return syscall(SYS_write, fd, from, size < 3 ? size : 3);
}
