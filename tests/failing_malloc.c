/* An allocator of the tests, preloaded: the call numbered FAIL_AT (from 1) to malloc, calloc or realloc gives no memory, all others are
   the C library's. Each call is counted; where FAIL_FILE names a file, what it holds at the end tells how many there were and whether
   one was refused. Written with as little as a program may have: no output but that file, no memory of its own. */
#define _GNU_SOURCE
#include <errno.h>
#include <fcntl.h>
#include <stddef.h>
#include <stdlib.h>
#include <unistd.h>

extern void *__libc_malloc(size_t size);
extern void *__libc_calloc(size_t count, size_t size);
extern void *__libc_realloc(void *block, size_t size);

static unsigned long fail_at;
static unsigned long calls;
static int begun;

__attribute__((constructor)) static void begin(void) {
    const char *number = getenv("FAIL_AT");
    fail_at = number ? strtoul(number, NULL, 10) : 0;
    begun = 1;
}

static int is_refused(void) {
    if (!begun) {
        return 0;
    }
    calls += 1;
    if (calls != fail_at) {
        return 0;
    }
    errno = ENOMEM;
    return 1;
}

void *malloc(size_t size) {
    return is_refused() ? NULL : __libc_malloc(size);
}

void *calloc(size_t count, size_t size) {
    return is_refused() ? NULL : __libc_calloc(count, size);
}

void *realloc(void *block, size_t size) {
    return is_refused() ? NULL : __libc_realloc(block, size);
}

__attribute__((destructor)) static void end(void) {
    const char *name = getenv("FAIL_FILE");
    int file = name ? open(name, O_WRONLY | O_CREAT | O_TRUNC, 0600) : -1;
    if (file >= 0) {
        char told = fail_at != 0 && calls >= fail_at ? 'r' : 'n';
        if (write(file, &told, 1) != 1) {
            _exit(70);
        }
        close(file);
    }
}
