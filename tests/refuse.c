// Loaded before the program, refuses its allocation of the number REFUSE, or the call of the number STOP with which it writes a
// file, or the call of the number FAIL with which it opens, writes, syncs, renames or removes one, and then makes the file REFUSED.
// With SHORT, a call writes at most so many bytes. With FULL, the disk is full from the write of that number on. With UNSYNCED, the
// call of that number fails which has a file's bytes on the disk (fdatasync). With CUT, the call of that number fails with which a
// socket sends.
#define _GNU_SOURCE
#include <errno.h>
#include <fcntl.h>
#include <stdarg.h>
#include <stdlib.h>
#include <sys/socket.h>
#include <sys/stat.h>
#include <sys/syscall.h>
#include <unistd.h>

extern void *__libc_malloc(size_t size);
extern void *__libc_realloc(void *block, size_t size);

// The number that a variable holds, or 0.
static long number_in(const char *name) {
    const char *number = getenv(name);
    return number ? atol(number) : 0;
}

// Whether this is the call to refuse, of which so many are left; 0 when it was refused.
static int is_last(long *left, int error) {
    if (*left == 0 || --*left > 0) return 0;
    close(syscall(SYS_creat, getenv("REFUSED"), 0600));
    errno = error;
    return 1;
}

static int is_refused(void) {
    static long left = -1;
    if (left < 0) left = number_in("REFUSE");
    return is_last(&left, ENOMEM);
}

static int is_stopped(void) {
    static long left = -1;
    if (left < 0) left = number_in("STOP");
    return is_last(&left, ENOSPC);
}

void *malloc(size_t size) {
    return is_refused() ? NULL : __libc_malloc(size);
}

void *realloc(void *block, size_t size) {
    return is_refused() ? NULL : __libc_realloc(block, size);
}

static int is_failed(void) {
    static long left = -1;
    if (left < 0) left = number_in("FAIL");
    return is_last(&left, EIO);
}

// Whether this is a file, and not a socket, a pipe or a terminal.
static int is_file(int file) {
    struct stat found;
    return fstat(file, &found) == 0 && S_ISREG(found.st_mode);
}

// Whether the disk is full by now: each write of a file counts.
static int is_full(int file) {
    static long left = -1;
    if (left < 0) left = number_in("FULL");
    if (left == 0 || !is_file(file)) return 0;
    if (left > 1) {
        left--;
        return 0;
    }
    errno = ENOSPC;
    return 1;
}

ssize_t write(int file, const void *bytes, size_t size) {
    long most = number_in("SHORT");
    if (is_stopped() || is_full(file) || (is_file(file) && is_failed())) return -1;
    return syscall(SYS_write, file, bytes, most && size > (size_t)most ? (size_t)most : size);
}

int open(const char *path, int flags, ...) {
    va_list rest;
    va_start(rest, flags);
    mode_t mode = flags & O_CREAT ? va_arg(rest, mode_t) : 0;
    va_end(rest);
    return is_failed() ? -1 : syscall(SYS_openat, AT_FDCWD, path, flags, mode);
}

int openat(int folder, const char *path, int flags, ...) {
    va_list rest;
    va_start(rest, flags);
    mode_t mode = flags & O_CREAT ? va_arg(rest, mode_t) : 0;
    va_end(rest);
    return is_failed() ? -1 : syscall(SYS_openat, folder, path, flags, mode);
}

int fsync(int file) {
    return is_stopped() || is_failed() ? -1 : syscall(SYS_fsync, file);
}

static int is_unsynced(void) {
    static long left = -1;
    if (left < 0) left = number_in("UNSYNCED");
    return is_last(&left, EIO);
}

int fdatasync(int file) {
    return is_stopped() || is_failed() || is_unsynced() ? -1 : syscall(SYS_fdatasync, file);
}

static int is_cut(void) {
    static long left = -1;
    if (left < 0) left = number_in("CUT");
    return is_last(&left, EPIPE);
}

ssize_t send(int file, const void *bytes, size_t size, int flags) {
    return is_cut() ? -1 : syscall(SYS_sendto, file, bytes, size, flags, NULL, 0);
}

int rename(const char *from, const char *to) {
    return is_stopped() || is_failed() ? -1 : syscall(SYS_rename, from, to);
}

int unlink(const char *path) {
    return is_failed() ? -1 : syscall(SYS_unlink, path);
}
