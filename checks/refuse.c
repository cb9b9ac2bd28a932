/* Loaded by LD_PRELOAD, this refuses the program memory, stops its disk or gives it files in parts, as the environment says:

     REFUSE_MEMORY=N            refuses the N-th request for memory, counted from 1
     STOP_FILE=PATH STOP_AT=K   refuses the K-th change of that file, counted from 0, and every later one. The first write that
                                is refused leaves its first half. Earlier writes stay, and reads succeed.
     PARTS=N                    reads and writes at most N bytes of a file at once, and interrupts each third of these calls
     REFUSED=PATH               creates this file when something was refused or cut

   cc -O1 -shared -fPIC -o refuse.so refuse.c */
#define _GNU_SOURCE
#include <errno.h>
#include <fcntl.h>
#include <stddef.h>
#include <stdio.h>
#include <stdlib.h>
#include <string.h>
#include <sys/stat.h>
#include <sys/syscall.h>
#include <unistd.h>

extern void *__libc_malloc(size_t);
extern void *__libc_calloc(size_t, size_t);
extern void *__libc_realloc(void *, size_t);
extern void *__libc_memalign(size_t, size_t);

static long refused_request = 0;
static long requests = 0;
static long stopped_change = -1;
static long changes = 0;
static long part = 0;
static long parts = 0;

__attribute__((constructor)) static void read_environment(void) {
    const char *request = getenv("REFUSE_MEMORY");
    const char *change = getenv("STOP_AT");
    const char *most = getenv("PARTS");
    if (request) refused_request = atol(request);
    if (change) stopped_change = atol(change);
    if (most) part = atol(most);
    requests = 0;
}

/* Creates the file REFUSED. */
static void tell_refused(void) {
    const char *path = getenv("REFUSED");
    if (path) {
        long file = syscall(SYS_openat, AT_FDCWD, path, O_WRONLY | O_CREAT, 0600);
        if (file >= 0) syscall(SYS_close, file);
    }
}

/* Counts a request for memory. Whether it is the one to be refused. */
static int is_refused(void) {
    if (!refused_request || ++requests != refused_request) return 0;
    tell_refused();
    errno = ENOMEM;
    return 1;
}

void *malloc(size_t size) { return is_refused() ? NULL : __libc_malloc(size); }

void *calloc(size_t count, size_t size) { return is_refused() ? NULL : __libc_calloc(count, size); }

void *realloc(void *old, size_t size) { return is_refused() ? NULL : __libc_realloc(old, size); }

void *memalign(size_t align, size_t size) { return is_refused() ? NULL : __libc_memalign(align, size); }

void *aligned_alloc(size_t align, size_t size) { return memalign(align, size); }

int posix_memalign(void **made, size_t align, size_t size) {
    void *memory = memalign(align, size);
    if (!memory) return ENOMEM;
    *made = memory;
    return 0;
}

/* Whether a change of the file of a descriptor is refused. Sets *first if it is the first that is refused. */
static int is_stopped(int file, int *first) {
    const char *wanted = getenv("STOP_FILE");
    char link[64], path[4096];
    long length;
    if (stopped_change < 0 || !wanted) return 0;
    snprintf(link, sizeof link, "/proc/self/fd/%d", file);
    length = syscall(SYS_readlinkat, AT_FDCWD, link, path, sizeof path - 1);
    if (length < 0) return 0;
    path[length] = 0;
    if (strcmp(path, wanted)) return 0;
    if (changes++ < stopped_change) return 0;
    *first = changes == stopped_change + 1;
    tell_refused();
    return 1;
}

/* The result of a call on a disk that stopped. */
static long stop(void) {
    errno = EIO;
    return -1;
}

/* Shortens a call to a part, if it is one of a file. Whether it is interrupted. */
static int is_cut(int file, size_t *length) {
    struct stat found;
    if (part <= 0 || fstat(file, &found) || !S_ISREG(found.st_mode)) return 0;
    if (++parts % 3 == 0) {
        errno = EINTR;
        return 1;
    }
    if (*length > (size_t)part) {
        *length = (size_t)part;
        tell_refused();
    }
    return 0;
}

ssize_t read(int file, void *bytes, size_t length) {
    return is_cut(file, &length) ? -1 : syscall(SYS_read, file, bytes, length);
}

ssize_t write(int file, const void *bytes, size_t length) {
    int first = 0;
    if (is_cut(file, &length)) return -1;
    if (!is_stopped(file, &first)) return syscall(SYS_write, file, bytes, length);
    if (first) syscall(SYS_write, file, bytes, length / 2);
    return stop();
}

ssize_t __write(int file, const void *bytes, size_t length) { return write(file, bytes, length); }

ssize_t pwrite(int file, const void *bytes, size_t length, off_t offset) {
    int first = 0;
    if (!is_stopped(file, &first)) return syscall(SYS_pwrite64, file, bytes, length, offset);
    if (first) syscall(SYS_pwrite64, file, bytes, length / 2, offset);
    return stop();
}

ssize_t pwrite64(int file, const void *bytes, size_t length, off_t offset) { return pwrite(file, bytes, length, offset); }

int fsync(int file) {
    int first = 0;
    return is_stopped(file, &first) ? (int)stop() : (int)syscall(SYS_fsync, file);
}

int fdatasync(int file) {
    int first = 0;
    return is_stopped(file, &first) ? (int)stop() : (int)syscall(SYS_fdatasync, file);
}

int ftruncate(int file, off_t length) {
    int first = 0;
    return is_stopped(file, &first) ? (int)stop() : (int)syscall(SYS_ftruncate, file, length);
}

int ftruncate64(int file, off_t length) { return ftruncate(file, length); }
