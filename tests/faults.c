/* Loaded before a program, this makes calls of pread, pwrite and fdatasync on one file fail with EIO, by variables of
   the environment:
   FAULT_FILE   the last part of the file's name
   FAULT_CALL   which of its calls fails, from 1; a write of no byte isn't counted
   FAULT_READ   the number of a sector of which each read fails
   FAULT_WRITE  the number of a sector of which each write fails
   FAULT_WHILE  the name of a file while which is there each call fails
   tests/mirror and tests/wire compile it: cc -shared -fPIC -O1 -o faults.so faults.c */
#define _GNU_SOURCE
#include <errno.h>
#include <stdio.h>
#include <stdlib.h>
#include <string.h>
#include <sys/syscall.h>
#include <unistd.h>

static long calls;

static long number(const char *name) {
    const char *value = getenv(name);
    return value ? atol(value) : -1;
}

static int is_file(int descriptor) {
    const char *wanted = getenv("FAULT_FILE");
    char link[64], path[4096];
    snprintf(link, sizeof link, "/proc/self/fd/%d", descriptor);
    ssize_t length = readlink(link, path, sizeof path - 1);
    if (!wanted || length < 0)
        return 0;
    path[length] = 0;
    const char *last = strrchr(path, '/');
    return last && strcmp(last + 1, wanted) == 0;
}

/* Whether a call of these bytes fails: none of a sync. */
static int fails(int descriptor, const char *range, size_t length, off_t at) {
    if (!is_file(descriptor))
        return 0;
    long sector = range ? number(range) : -1;
    const char *trigger = getenv("FAULT_WHILE");
    int is_hit = ++calls == number("FAULT_CALL") || (trigger && access(trigger, F_OK) == 0) ||
                 (sector >= 0 && at < 512 * (sector + 1) && at + (off_t)length > 512 * sector);
    if (is_hit)
        errno = EIO;
    return is_hit;
}

ssize_t pread(int descriptor, void *bytes, size_t length, off_t at) {
    return fails(descriptor, "FAULT_READ", length, at) ? -1 : syscall(SYS_pread64, descriptor, bytes, length, at);
}

ssize_t pread64(int descriptor, void *bytes, size_t length, off_t at) { return pread(descriptor, bytes, length, at); }

ssize_t pwrite(int descriptor, const void *bytes, size_t length, off_t at) {
    if (length > 0 && fails(descriptor, "FAULT_WRITE", length, at))
        return -1;
    return syscall(SYS_pwrite64, descriptor, bytes, length, at);
}

ssize_t pwrite64(int descriptor, const void *bytes, size_t length, off_t at) { return pwrite(descriptor, bytes, length, at); }

int fdatasync(int descriptor) { return fails(descriptor, NULL, 0, 0) ? -1 : (int)syscall(SYS_fdatasync, descriptor); }
