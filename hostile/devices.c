/*
 * Makes the standard streams of a program slow or failing. Preloaded to it (LD_PRELOAD), it gives no read of standard input, and
 * takes of no write to standard output, more bytes than the variable DEVICE_SIZE says, and fails one of them, whose number the
 * variable DEVICE_READ or DEVICE_WRITE has, counted from 1, with the error number that DEVICE_ERROR has. The reads and writes
 * behind it go on. It rests on a C library whose `read` and `write` can be taken over.
 */
#define _GNU_SOURCE
#include <errno.h>
#include <stdlib.h>
#include <sys/syscall.h>
#include <unistd.h>

static long reads, writes;

/* The number that a variable has, or else another. */
static long number_of(const char *variable, long other) {
    const char *text = getenv(variable);
    return text == NULL ? other : atol(text);
}

/* How many of these bytes go through at once. */
static size_t at_once(size_t count) {
    size_t most = (size_t)number_of("DEVICE_SIZE", (long)(count < 1 << 30 ? count : 1 << 30));
    return count < most ? count : most;
}

static ssize_t failed(void) {
    errno = (int)number_of("DEVICE_ERROR", EIO);
    return -1;
}

ssize_t read(int file, void *bytes, size_t count) {
    if (file != 0) {
        return syscall(SYS_read, file, bytes, count);
    }
    reads += 1;
    return reads == number_of("DEVICE_READ", 0) ? failed() : syscall(SYS_read, file, bytes, at_once(count));
}

ssize_t write(int file, const void *bytes, size_t count) {
    if (file != 1) {
        return syscall(SYS_write, file, bytes, count);
    }
    writes += 1;
    return writes == number_of("DEVICE_WRITE", 0) ? failed() : syscall(SYS_write, file, bytes, at_once(count));
}
