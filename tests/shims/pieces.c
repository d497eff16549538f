/* Has standard input, standard output and sockets give and take at most PIECE bytes a call, and
   each such call be interrupted once before (tests/groups/pieces.py). Once TAKES bytes were written
   to standard output, it takes no byte more, and does not fail. A number that is not given changes
   nothing. */
#define _GNU_SOURCE
#include <dlfcn.h>
#include <errno.h>
#include <stdlib.h>
#include <sys/socket.h>
#include <sys/stat.h>
#include <unistd.h>

typedef ssize_t Call(int, void *, size_t);
typedef ssize_t SocketCall(int, void *, size_t, int);

static long number(const char *name) {
    const char *value = getenv(name);
    return value ? atol(value) : -1;
}

static int is_stream(int fd) {
    struct stat found;
    if (fd == STDIN_FILENO || fd == STDOUT_FILENO) return 1;
    return fstat(fd, &found) == 0 && S_ISSOCK(found.st_mode);
}

/* How many of these bytes the call may pass; -1 if it is interrupted. */
static ssize_t piece(int fd, size_t count) {
    static int turn;
    long most = number("PIECE");
    if (most < 0 || !count || !is_stream(fd)) return (ssize_t)count;
    turn = !turn;
    if (turn) { errno = EINTR; return -1; }
    return (size_t)most < count ? most : (ssize_t)count;
}

static ssize_t passed(const char *name, int fd, void *bytes, size_t count) {
    ssize_t part = piece(fd, count);
    return part < 0 ? part : ((Call *)dlsym(RTLD_NEXT, name))(fd, bytes, (size_t)part);
}

ssize_t read(int fd, void *bytes, size_t count) { return passed("read", fd, bytes, count); }

ssize_t write(int fd, const void *bytes, size_t count) {
    static long taken;
    long most = number("TAKES");
    if (fd == STDOUT_FILENO && most >= 0) {
        long room = most - taken;
        if (count > (size_t)room) count = (size_t)room;
        if (!count) return 0;
    }
    ssize_t done = passed("write", fd, (void *)bytes, count);
    if (fd == STDOUT_FILENO && done > 0) taken += done;
    return done;
}

static ssize_t passed_on(const char *name, int fd, void *bytes, size_t count, int flags) {
    ssize_t part = piece(fd, count);
    return part < 0 ? part : ((SocketCall *)dlsym(RTLD_NEXT, name))(fd, bytes, (size_t)part, flags);
}

ssize_t recv(int fd, void *bytes, size_t count, int flags) {
    return passed_on("recv", fd, bytes, count, flags);
}

ssize_t send(int fd, const void *bytes, size_t count, int flags) {
    return passed_on("send", fd, (void *)bytes, count, flags);
}
