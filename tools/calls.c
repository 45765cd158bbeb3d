/* Stands before the C library's read and write, so that tools/program can choose what a program meets: the environment's READ and WRITE are the
   most bytes that a call moves, FAIL and FULL are the numbers of the read and of the write, from 1, that fail. Of writes only those to standard
   output are meant. */
#define _GNU_SOURCE
#include <errno.h>
#include <stdlib.h>
#include <sys/syscall.h>
#include <unistd.h>

static size_t number(const char *name, size_t otherwise) {
    const char *text = getenv(name);
    return text ? strtoul(text, NULL, 10) : otherwise;
}

static size_t least(size_t a, size_t b) {
    return a < b ? a : b;
}

ssize_t read(int fd, void *buffer, size_t size) {
    static size_t calls;
    if (++calls == number("FAIL", 0)) {
        errno = EIO;
        return -1;
    }
    return syscall(SYS_read, fd, buffer, least(size, number("READ", size)));
}

ssize_t write(int fd, const void *buffer, size_t size) {
    static size_t calls;
    if (fd != STDOUT_FILENO) return syscall(SYS_write, fd, buffer, size);
    if (++calls == number("FULL", 0)) {
        errno = ENOSPC;
        return -1;
    }
    return syscall(SYS_write, fd, buffer, least(size, number("WRITE", size)));
}
