/* Has the reads of standard input fail once READS bytes were read, or the writes of standard output
   once WRITES bytes were written. A number that is not given lets all pass.

   Of the file whose path is FILE, if one is given, the writes fail once FILE_BYTES bytes were
   written, FILE_FAILS times, and then pass again. For each of its writes that passes a byte "w" is
   appended to the file CALLS, and for each time that it is synchronised an "s". */
#define _GNU_SOURCE
#include <dlfcn.h>
#include <errno.h>
#include <fcntl.h>
#include <stdio.h>
#include <stdlib.h>
#include <string.h>
#include <unistd.h>

enum { UNREAD = -2, ALL = -1 };

typedef ssize_t Call(int, void *, size_t);

/* The call, of as many bytes as may still pass by the number of that name; if none may, it
   fails. */
static ssize_t limited(Call *real, const char *name, long *room, int fd, void *bytes,
                       size_t count) {
    if (*room == UNREAD) {
        const char *value = getenv(name);
        *room = value ? atol(value) : ALL;
    }
    if (*room == ALL || !count) return real(fd, bytes, count);
    if (*room == 0) { errno = EIO; return -1; }
    ssize_t done = real(fd, bytes, (size_t)*room < count ? (size_t)*room : count);
    if (done > 0) *room -= done;
    return done;
}

static int is_file(int fd) {
    static char path[4096];
    char link[64];
    const char *name = getenv("FILE");
    if (!name) return 0;
    snprintf(link, sizeof link, "/proc/self/fd/%d", fd);
    ssize_t len = readlink(link, path, sizeof path - 1);
    if (len < 0) return 0;
    path[len] = 0;
    return !strcmp(path, name);
}

static void note(const char *call) {
    Call *real = (Call *)dlsym(RTLD_NEXT, "write");
    const char *name = getenv("CALLS");
    if (!name) return;
    int calls = open(name, O_WRONLY | O_APPEND | O_CREAT, 0600);
    real(calls, (void *)call, 1);
    close(calls);
}

/* A write to FILE. */
static ssize_t write_file(Call *real, int fd, void *bytes, size_t count) {
    static long room = UNREAD, fails = UNREAD;
    if (fails == UNREAD) {
        const char *value = getenv("FILE_FAILS");
        fails = value ? atol(value) : 0;
    }
    ssize_t done = fails ? limited(real, "FILE_BYTES", &room, fd, bytes, count)
                         : real(fd, bytes, count);
    if (done < 0 && fails) fails--;
    if (done > 0) note("w");
    return done;
}

static int synchronise(const char *name, int fd) {
    int (*real)(int) = (int (*)(int))dlsym(RTLD_NEXT, name);
    if (is_file(fd)) note("s");
    return real(fd);
}

int fdatasync(int fd) { return synchronise("fdatasync", fd); }

int fsync(int fd) { return synchronise("fsync", fd); }

ssize_t read(int fd, void *bytes, size_t count) {
    static long room = UNREAD;
    Call *real = (Call *)dlsym(RTLD_NEXT, "read");
    if (fd != STDIN_FILENO) return real(fd, bytes, count);
    return limited(real, "READS", &room, fd, bytes, count);
}

ssize_t write(int fd, const void *bytes, size_t count) {
    static long room = UNREAD;
    Call *real = (Call *)dlsym(RTLD_NEXT, "write");
    if (is_file(fd)) return write_file(real, fd, (void *)bytes, count);
    if (fd != STDOUT_FILENO) return real(fd, (void *)bytes, count);
    return limited(real, "WRITES", &room, fd, (void *)bytes, count);
}
