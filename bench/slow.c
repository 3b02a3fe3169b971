/* Loaded before a program, this makes each of its reads of a file by pread take DELAY microseconds longer, as on a
   slow disk. bench/shelves compiles it: cc -shared -fPIC -O1 -o slow.so slow.c */
#define _GNU_SOURCE
#include <dlfcn.h>
#include <stdlib.h>
#include <sys/types.h>
#include <unistd.h>

ssize_t pread64(int file, void *buffer, size_t count, off64_t offset)
{
    static ssize_t (*next)(int, void *, size_t, off64_t);

    if (!next)
        next = dlsym(RTLD_NEXT, "pread64");
    usleep(atoi(getenv("DELAY")));
    return next(file, buffer, count, offset);
}

ssize_t pread(int file, void *buffer, size_t count, off_t offset)
{
    return pread64(file, buffer, count, offset);
}
