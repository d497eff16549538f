/* Stops a program at one of its calls that write a file or have it synchronised: the Nth, N being
   STOP in its environment; 0 stops none. HOW says what is left of it: "before" it nothing of the
   call, "within" it the first half of what a write would write, and "lost" nothing of the call nor
   of any write to a file since that file was last synchronised. It is loaded before the C library
   (LD_PRELOAD). */
#define _GNU_SOURCE
#include <dlfcn.h>
#include <fcntl.h>
#include <stdio.h>
#include <stdlib.h>
#include <string.h>
#include <sys/stat.h>
#include <unistd.h>

enum { FILES = 8, STOPPED = 86 };

static long left;
static char how = 'b';
static char paths[FILES][4096];
static int count;

__attribute__((constructor)) static void begin(void)
{
    const char *number = getenv("STOP"), *word = getenv("HOW");
    left = number ? atol(number) : 0;
    how = word ? word[0] : 'b';
    unsetenv("LD_PRELOAD");
}

static ssize_t real_write(int fd, const void *bytes, size_t len, off_t at)
{
    static ssize_t (*next)(int, const void *, size_t, off_t);
    if (!next)
        next = dlsym(RTLD_NEXT, "pwrite64");
    return next(fd, bytes, len, at);
}

static int real_sync(const char *name, int fd)
{
    int (*next)(int) = dlsym(RTLD_NEXT, name);
    return next(fd);
}

static void synced_path(char *to, const char *path)
{
    snprintf(to, 4096 + 8, "%s.synced", path);
}

/* Makes one file hold what another does. */
static void copy(const char *from, const char *to)
{
    static char bytes[1 << 16];
    int in = open(from, O_RDONLY), out = open(to, O_WRONLY | O_CREAT | O_TRUNC, 0600);
    off_t at = 0;
    ssize_t len;
    while ((len = pread(in, bytes, sizeof bytes, at)) > 0) {
        if (real_write(out, bytes, len, at) != len)
            _exit(1);
        at += len;
    }
    close(in);
    close(out);
}

/* The path of a regular file; one that is met for the first time is taken as synchronised. */
static const char *path_of(int fd)
{
    static char path[4096];
    char link[64], kept[4096 + 8];
    struct stat stat;
    if (fstat(fd, &stat) || !S_ISREG(stat.st_mode))
        return NULL;
    snprintf(link, sizeof link, "/proc/self/fd/%d", fd);
    ssize_t len = readlink(link, path, sizeof path - 1);
    if (len < 0)
        return NULL;
    path[len] = 0;
    for (int i = 0; i < count; i++)
        if (!strcmp(paths[i], path))
            return paths[i];
    if (count == FILES)
        _exit(1);
    strcpy(paths[count], path);
    synced_path(kept, path);
    copy(path, kept);
    return paths[count++];
}

static int is_stopped(int fd)
{
    return left && path_of(fd) && --left == 0;
}

static void stop(void)
{
    char kept[4096 + 8];
    for (int i = 0; how == 'l' && i < count; i++) {
        synced_path(kept, paths[i]);
        copy(kept, paths[i]);
    }
    _exit(STOPPED);
}

ssize_t pwrite64(int fd, const void *bytes, size_t len, off64_t at)
{
    if (is_stopped(fd)) {
        if (how == 'w' && len > 1)
            real_write(fd, bytes, len / 2, at);
        stop();
    }
    return real_write(fd, bytes, len, at);
}

ssize_t pwrite(int fd, const void *bytes, size_t len, off_t at)
{
    return pwrite64(fd, bytes, len, at);
}

static int synchronise(const char *name, int fd)
{
    if (is_stopped(fd))
        stop();
    int told = real_sync(name, fd);
    const char *path = left ? path_of(fd) : NULL;
    if (path && !told) {
        char kept[4096 + 8];
        synced_path(kept, path);
        copy(path, kept);
    }
    return told;
}

int fdatasync(int fd) { return synchronise("fdatasync", fd); }

int fsync(int fd) { return synchronise("fsync", fd); }

int ftruncate64(int fd, off64_t len)
{
    static int (*next)(int, off64_t);
    if (!next)
        next = dlsym(RTLD_NEXT, "ftruncate64");
    if (is_stopped(fd))
        stop();
    return next(fd, len);
}

int ftruncate(int fd, off_t len) { return ftruncate64(fd, len); }
