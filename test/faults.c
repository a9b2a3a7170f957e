/* Stands in front of the C library's calls, and lets one of them, or each, go wrong as the environment says:
       REFUSE=N            the Nth allocation is refused, counted from 1
       FAIL_READ=N         the Nth read fails with EIO; FAIL_WRITE=N the Nth write, to a standard stream or a file
       FAIL_PREAD=N        the Nth read of a temporary file fails with EIO; FAIL_PWRITE=N the Nth write, with ENOSPC
       SHORT_READ=1        each read gives one byte; SHORT_WRITE=1 each write takes one
       INTERRUPT_READ=1    each read is interrupted (EINTR) before it is done; INTERRUPT_WRITE=1 each write
       SHRINK_FILE=NAME    the file is cut to SHRINK_TO bytes before the read of number SHRINK_AT
       ZEROS=N             N zero bytes follow the end of a file that is read
       FIRED=NAME          this file is made when one of the calls above has gone wrong by its number
       WRITES=NAME         a line with the last byte of each write to standard output is added to this file */
#define _GNU_SOURCE
#include <dlfcn.h>
#include <errno.h>
#include <fcntl.h>
#include <stddef.h>
#include <stdio.h>
#include <stdlib.h>
#include <string.h>
#include <sys/uio.h>
#include <unistd.h>

enum { LONGEST_NOTE = 16 };

/* The number that a variable gives, or 0. */
static long given(const char *name) {
    const char *text = getenv(name);
    return text ? atol(text) : 0;
}

/* Whether this call is the one of the number that a variable gives, which is then noted. */
static int is_due(const char *name, long *calls) {
    long wanted = given(name);
    if (wanted == 0 || ++*calls != wanted) return 0;
    if (getenv("FIRED")) close(open(getenv("FIRED"), O_CREAT | O_WRONLY, 0600));
    return 1;
}

static int refused(void) {
    static long calls;
    return is_due("REFUSE", &calls);
}

void *malloc(size_t size) {
    static void *(*real)(size_t);
    if (!real) real = dlsym(RTLD_NEXT, "malloc");
    if (refused()) { errno = ENOMEM; return NULL; }
    return real(size);
}

void *calloc(size_t count, size_t size) {
    static void *(*real)(size_t, size_t);
    if (!real) real = dlsym(RTLD_NEXT, "calloc");
    if (refused()) { errno = ENOMEM; return NULL; }
    return real(count, size);
}

void *realloc(void *old, size_t size) {
    static void *(*real)(void *, size_t);
    if (!real) real = dlsym(RTLD_NEXT, "realloc");
    if (refused()) { errno = ENOMEM; return NULL; }
    return real(old, size);
}

void *aligned_alloc(size_t alignment, size_t size) {
    static void *(*real)(size_t, size_t);
    if (!real) real = dlsym(RTLD_NEXT, "aligned_alloc");
    if (refused()) { errno = ENOMEM; return NULL; }
    return real(alignment, size);
}

int posix_memalign(void **out, size_t alignment, size_t size) {
    static int (*real)(void **, size_t, size_t);
    if (!real) real = dlsym(RTLD_NEXT, "posix_memalign");
    if (refused()) return ENOMEM;
    return real(out, alignment, size);
}

/* Whether a call is to end at once, with errno set: it fails, or it is interrupted, every other time. */
static int ends(const char *fails, const char *interrupts, long *calls, int *interrupted) {
    if (is_due(fails, calls)) { errno = EIO; return 1; }
    if (given(interrupts) && (*interrupted = !*interrupted)) { errno = EINTR; return 1; }
    return 0;
}

/* The zero bytes that are read after the end of a file. */
static ssize_t zeros(void *to, size_t size) {
    static long given_so_far;
    static void *filled;
    long left = given("ZEROS") - given_so_far;
    if (left <= 0) return 0;
    if ((long)size > left) size = (size_t)left;
    given_so_far += size;
    if (filled != to) memset(to, 0, size); /* a piece that was filled before still is */
    filled = to;
    return (ssize_t)size;
}

ssize_t read(int from, void *to, size_t size) {
    static ssize_t (*real)(int, void *, size_t);
    static long calls, reads;
    static int interrupted;
    if (!real) real = dlsym(RTLD_NEXT, "read");
    if (is_due("SHRINK_AT", &reads) && truncate(getenv("SHRINK_FILE"), given("SHRINK_TO"))) abort();
    if (ends("FAIL_READ", "INTERRUPT_READ", &calls, &interrupted)) return -1;
    ssize_t count = real(from, to, size && given("SHORT_READ") ? 1 : size);
    return count == 0 && size ? zeros(to, size) : count;
}

/* Notes the last byte of a write to standard output. */
static void note(int to, const char *bytes, size_t size) {
    const char *name = getenv("WRITES");
    char line[LONGEST_NOTE];
    FILE *file;
    if (!name || to != STDOUT_FILENO || !size || !(file = fopen(name, "a"))) return;
    snprintf(line, sizeof line, "%d\n", bytes[size - 1]);
    fputs(line, file);
    fclose(file);
}

ssize_t write(int to, const void *bytes, size_t size) {
    static ssize_t (*real)(int, const void *, size_t);
    static long calls;
    static int interrupted;
    if (!real) real = dlsym(RTLD_NEXT, "write");
    if (ends("FAIL_WRITE", "INTERRUPT_WRITE", &calls, &interrupted)) return -1;
    size = size && given("SHORT_WRITE") ? 1 : size;
    note(to, bytes, size);
    return real(to, bytes, size);
}

ssize_t writev(int to, const struct iovec *parts, int count) {
    for (int i = 0; i < count; i++)
        if (parts[i].iov_len) return write(to, parts[i].iov_base, parts[i].iov_len);
    return 0;
}

ssize_t __write(int to, const void *bytes, size_t size) {
    return write(to, bytes, size);
}

/* Reads and writes at a place, as those of a temporary file are. */
ssize_t pread64(int from, void *to, size_t size, off64_t place) {
    static ssize_t (*real)(int, void *, size_t, off64_t);
    static long calls;
    if (!real) real = dlsym(RTLD_NEXT, "pread64");
    if (is_due("FAIL_PREAD", &calls)) { errno = EIO; return -1; }
    return real(from, to, size && given("SHORT_READ") ? 1 : size, place);
}

ssize_t pwrite64(int to, const void *bytes, size_t size, off64_t place) {
    static ssize_t (*real)(int, const void *, size_t, off64_t);
    static long calls;
    if (!real) real = dlsym(RTLD_NEXT, "pwrite64");
    if (is_due("FAIL_PWRITE", &calls)) { errno = ENOSPC; return -1; }
    return real(to, bytes, size && given("SHORT_WRITE") ? 1 : size, place);
}

ssize_t pread(int from, void *to, size_t size, off_t place) {
    return pread64(from, to, size, place);
}

ssize_t pwrite(int to, const void *bytes, size_t size, off_t place) {
    return pwrite64(to, bytes, size, place);
}
