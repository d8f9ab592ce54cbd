/* Devices of the tests, preloaded: of the reads of a document, the writes to standard output or those to standard error, the one numbered
   FAIL_READ, FAIL_WRITE or FAIL_TELL (from 1) fails, once. With SHORT set each read gives one octet and each write takes one. Where
   FAIL_FILE names a file, it holds `f` at the end if a call failed so, else `n`. */
#define _GNU_SOURCE
#include <errno.h>
#include <fcntl.h>
#include <stdlib.h>
#include <sys/syscall.h>
#include <unistd.h>

static long counts[3];
static char failed = 'n';

static long number(const char *name) {
    const char *text = getenv(name);
    return text ? strtol(text, NULL, 10) : 0;
}

static int fails(int kind, const char *name) {
    counts[kind] += 1;
    if (counts[kind] != number(name)) {
        return 0;
    }
    failed = 'f';
    errno = EIO;
    return 1;
}

static size_t some(size_t count) {
    return count > 1 && getenv("SHORT") ? 1 : count;
}

ssize_t read(int file, void *octets, size_t count) {
    return fails(0, "FAIL_READ") ? -1 : syscall(SYS_read, file, octets, some(count));
}

ssize_t write(int file, const void *octets, size_t count) {
    if (file == 1 && fails(1, "FAIL_WRITE")) {
        return -1;
    }
    if (file == 2 && fails(2, "FAIL_TELL")) {
        return -1;
    }
    return syscall(SYS_write, file, octets, some(count));
}

ssize_t __write(int file, const void *octets, size_t count) {
    return write(file, octets, count);
}

__attribute__((destructor)) static void end(void) {
    const char *name = getenv("FAIL_FILE");
    int file = name ? open(name, O_WRONLY | O_CREAT | O_TRUNC, 0600) : -1;
    if (file >= 0) {
        syscall(SYS_write, file, &failed, 1);
        close(file);
    }
}
