/* Loaded by LD_PRELOAD, this kills the program at a call that changes the names of files or what is on the disk, as the environment
   says:

     KILL_AT=N     kills it before the N-th such call, counted from 1
     CALLS=PATH    appends a line to this file for each call that syncs or links: its name, and the paths

   cc -O1 -shared -fPIC -o kill_at.so kill_at.c */
#define _GNU_SOURCE
#include <fcntl.h>
#include <signal.h>
#include <stdarg.h>
#include <stdio.h>
#include <stdlib.h>
#include <string.h>
#include <sys/stat.h>
#include <sys/syscall.h>
#include <unistd.h>

static long kill_at = 0;
static long calls = 0;

__attribute__((constructor)) static void read_environment(void) {
    const char *at = getenv("KILL_AT");
    if (at) kill_at = atol(at);
}

/* Counts a call, and kills the program if it is the one. */
static void count(void) {
    if (kill_at && ++calls == kill_at) {
        kill(getpid(), SIGKILL);
        for (;;) pause();
    }
}

static void note(const char *line) {
    const char *path = getenv("CALLS");
    long file = path ? syscall(SYS_openat, AT_FDCWD, path, O_WRONLY | O_CREAT | O_APPEND, 0600) : -1;
    if (file < 0) return;
    syscall(SYS_write, file, line, strlen(line));
    syscall(SYS_close, file);
}

static void note_sync(int file) {
    char link[64], path[4096], line[4200];
    long length;
    snprintf(link, sizeof link, "/proc/self/fd/%d", file);
    length = syscall(SYS_readlinkat, AT_FDCWD, link, path, sizeof path - 1);
    if (length < 0) return;
    path[length] = 0;
    snprintf(line, sizeof line, "sync %s\n", path);
    note(line);
}

static void note_link(const char *from, const char *to) {
    char line[8400];
    snprintf(line, sizeof line, "link %s %s\n", from, to);
    note(line);
}

static int opened(int folder, const char *path, int flags, va_list more) {
    mode_t mode = 0;
    if (flags & O_CREAT) {
        mode = va_arg(more, mode_t);
        count();
    }
    return (int)syscall(SYS_openat, folder, path, flags, mode);
}

int openat(int folder, const char *path, int flags, ...) {
    va_list more;
    va_start(more, flags);
    int file = opened(folder, path, flags, more);
    va_end(more);
    return file;
}

int open(const char *path, int flags, ...) {
    va_list more;
    va_start(more, flags);
    int file = opened(AT_FDCWD, path, flags, more);
    va_end(more);
    return file;
}

int open64(const char *path, int flags, ...) __attribute__((alias("open")));

int openat64(int folder, const char *path, int flags, ...) __attribute__((alias("openat")));

ssize_t write(int file, const void *bytes, size_t length) {
    count();
    return syscall(SYS_write, file, bytes, length);
}

ssize_t __write(int file, const void *bytes, size_t length) { return write(file, bytes, length); }

int fsync(int file) {
    count();
    note_sync(file);
    return (int)syscall(SYS_fsync, file);
}

int fdatasync(int file) {
    count();
    note_sync(file);
    return (int)syscall(SYS_fdatasync, file);
}

int link(const char *from, const char *to) {
    count();
    note_link(from, to);
    return (int)syscall(SYS_linkat, AT_FDCWD, from, AT_FDCWD, to, 0);
}

int linkat(int folder, const char *from, int other, const char *to, int flags) {
    count();
    note_link(from, to);
    return (int)syscall(SYS_linkat, folder, from, other, to, flags);
}

int rename(const char *from, const char *to) {
    count();
    note_link(from, to);
    return (int)syscall(SYS_renameat2, AT_FDCWD, from, AT_FDCWD, to, 0);
}

int unlink(const char *path) {
    count();
    return (int)syscall(SYS_unlinkat, AT_FDCWD, path, 0);
}

int fchmod(int file, mode_t mode) {
    count();
    return (int)syscall(SYS_fchmod, file, mode);
}

int fchown(int file, uid_t owner, gid_t group) {
    count();
    return (int)syscall(SYS_fchown, file, owner, group);
}
