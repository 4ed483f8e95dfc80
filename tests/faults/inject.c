/* Preloaded into a program, makes one of its calls fail or fall short.
 *
 * INJECT names the calls: alloc, read, write, read-short, write-short, read-interrupted, write-interrupted or
 * read-interrupted-on, write-interrupted-on (that call and all after it). INJECT_AT is the number of the call, from 1.
 * Where the call came, the file INJECT_MARK is made. Reads count on descriptor 0 and writes on descriptor 1 alone.
 * later-alloc and later-alloc-on count the requests for memory that come after the first write on descriptor 1.
 */
#define _GNU_SOURCE
#include <errno.h>
#include <fcntl.h>
#include <stdlib.h>
#include <string.h>
#include <sys/syscall.h>
#include <unistd.h>

extern void *__libc_malloc(size_t);
extern void *__libc_realloc(void *, size_t);

static long calls;

/* Whether something was written on descriptor 1. */
static int has_written;

static const char *kind(void) {
    const char *name = getenv("INJECT");
    return name ? name : "";
}

static long at(void) {
    const char *number = getenv("INJECT_AT");
    return number ? atol(number) : 0;
}

static void mark(void) {
    const char *file = getenv("INJECT_MARK");
    if (file)
        syscall(SYS_close, syscall(SYS_open, file, O_CREAT | O_WRONLY, 0600));
}

/* Whether this call of these is the one. */
static int hit(const char *these, int and_later) {
    if (strcmp(kind(), these) != 0)
        return 0;
    calls++;
    if (calls != at() && !(and_later && calls > at()))
        return 0;
    mark();
    return 1;
}

/* Whether a request for memory is refused. */
static int no_memory(void) {
    return hit("alloc", 0) || (has_written && (hit("later-alloc", 0) || hit("later-alloc-on", 1)));
}

void *malloc(size_t size) {
    return no_memory() ? NULL : __libc_malloc(size);
}

void *realloc(void *old, size_t size) {
    return no_memory() ? NULL : __libc_realloc(old, size);
}

static int refused(const char *fault, const char *interrupted, const char *interrupted_on) {
    if (hit(fault, 0)) {
        errno = EIO;
        return 1;
    }
    if (hit(interrupted, 0) || hit(interrupted_on, 1)) {
        errno = EINTR;
        return 1;
    }
    return 0;
}

ssize_t read(int descriptor, void *room, size_t size) {
    if (descriptor == 0) {
        if (refused("read", "read-interrupted", "read-interrupted-on"))
            return -1;
        if (size > 1 && hit("read-short", 0))
            size = 1;
    }
    return syscall(SYS_read, descriptor, room, size);
}

static ssize_t write_some(int descriptor, const void *bytes, size_t size) {
    if (descriptor == 1) {
        has_written = 1;
        if (refused("write", "write-interrupted", "write-interrupted-on"))
            return -1;
        if (size > 1 && hit("write-short", 0))
            size = 1;
    }
    return syscall(SYS_write, descriptor, bytes, size);
}

ssize_t write(int descriptor, const void *bytes, size_t size) {
    return write_some(descriptor, bytes, size);
}

ssize_t __write(int descriptor, const void *bytes, size_t size) {
    return write_some(descriptor, bytes, size);
}
