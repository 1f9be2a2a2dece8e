/* Records, in their order, the calls by which a program changes files and talks to sockets, to the file that RECORD_TO names: what it opened,
   wrote, cut, synced, renamed and removed, and what came and went over sockets. A record is a head of 40 bytes, a path and the bytes. */
#define _GNU_SOURCE
#include <dlfcn.h>
#include <errno.h>
#include <fcntl.h>
#include <stdarg.h>
#include <stdint.h>
#include <stdlib.h>
#include <string.h>
#include <sys/socket.h>
#include <sys/syscall.h>
#include <sys/uio.h>
#include <unistd.h>

enum kind { START, OPEN, CLOSE, WRITE_AT, WRITE, CUT, FSYNC, FDATASYNC, RENAME, REMOVE, SEND, RECEIVE, ACCEPT };

struct head {
    uint32_t kind, path_length, length, unused;
    int64_t file, offset, result;
};

#define MOST 65536
static int record = -1;
/* Which descriptors are those of files. */
static unsigned char is_file[MOST];

#define NEXT(name) \
    static __typeof__(&name) next; \
    if (!next) \
        next = (__typeof__(&name))dlsym(RTLD_NEXT, #name)

static void note(enum kind kind, int64_t file, int64_t offset, int64_t result, const void *bytes, size_t length, const char *path)
{
    int error = errno;
    struct head head = {kind, path ? strlen(path) : 0, length, 0, file, offset, result};
    struct iovec parts[3] = {{&head, sizeof head}, {(void *)(path ? path : ""), head.path_length}, {(void *)bytes, length}};
    if (record >= 0)
        syscall(SYS_writev, record, parts, 3);
    errno = error;
}

__attribute__((constructor)) static void begin(void)
{
    const char *path = getenv("RECORD_TO");
    int file = path ? syscall(SYS_openat, AT_FDCWD, path, O_WRONLY | O_CREAT | O_APPEND, 0600) : -1;
    /* A number that the program's own descriptors do not come to. */
    record = file < 0 ? -1 : fcntl(file, F_DUPFD_CLOEXEC, 900);
    if (file >= 0)
        syscall(SYS_close, file);
    note(START, 0, 0, 0, NULL, 0, NULL);
}

static void mark(int file, int is_one)
{
    if (file >= 0 && file < MOST)
        is_file[file] = is_one;
}

static int is_marked(int file)
{
    return file >= 0 && file < MOST && is_file[file];
}

int open(const char *path, int flags, ...)
{
    NEXT(open);
    va_list rest;
    va_start(rest, flags);
    int file = next(path, flags, va_arg(rest, int));
    va_end(rest);
    mark(file, 1);
    if (file >= 0)
        note(OPEN, file, flags, file, NULL, 0, path);
    return file;
}

int close(int file)
{
    NEXT(close);
    if (file == record)
        return 0;
    int result = next(file);
    mark(file, 0);
    note(CLOSE, file, 0, result, NULL, 0, NULL);
    return result;
}

ssize_t pwrite(int file, const void *bytes, size_t length, off_t offset)
{
    NEXT(pwrite);
    ssize_t result = next(file, bytes, length, offset);
    note(WRITE_AT, file, offset, result, bytes, result > 0 ? result : 0, NULL);
    return result;
}

ssize_t write(int file, const void *bytes, size_t length)
{
    NEXT(write);
    ssize_t result = next(file, bytes, length);
    if (file > 2)
        note(is_marked(file) ? WRITE : SEND, file, 0, result, bytes, result > 0 ? result : 0, NULL);
    return result;
}

int ftruncate(int file, off_t length)
{
    NEXT(ftruncate);
    int result = next(file, length);
    note(CUT, file, length, result, NULL, 0, NULL);
    return result;
}

int fsync(int file)
{
    NEXT(fsync);
    int result = next(file);
    note(FSYNC, file, 0, result, NULL, 0, NULL);
    return result;
}

int fdatasync(int file)
{
    NEXT(fdatasync);
    int result = next(file);
    note(FDATASYNC, file, 0, result, NULL, 0, NULL);
    return result;
}

int rename(const char *from, const char *to)
{
    NEXT(rename);
    int result = next(from, to);
    note(RENAME, 0, 0, result, to, strlen(to), from);
    return result;
}

int unlink(const char *path)
{
    NEXT(unlink);
    int result = next(path);
    note(REMOVE, 0, 0, result, NULL, 0, path);
    return result;
}

ssize_t send(int file, const void *bytes, size_t length, int flags)
{
    NEXT(send);
    ssize_t result = next(file, bytes, length, flags);
    if (result >= 0)
        note(SEND, file, 0, result, bytes, result, NULL);
    return result;
}

ssize_t recv(int file, void *bytes, size_t length, int flags)
{
    NEXT(recv);
    ssize_t result = next(file, bytes, length, flags);
    if (result >= 0)
        note(RECEIVE, file, 0, result, bytes, result, NULL);
    return result;
}

ssize_t read(int file, void *bytes, size_t length)
{
    NEXT(read);
    ssize_t result = next(file, bytes, length);
    if (file > 2 && !is_marked(file) && result >= 0)
        note(RECEIVE, file, 0, result, bytes, result, NULL);
    return result;
}

int accept4(int file, struct sockaddr *address, socklen_t *length, int flags)
{
    NEXT(accept4);
    int result = next(file, address, length, flags);
    mark(result, 0);
    if (result >= 0)
        note(ACCEPT, result, 0, result, NULL, 0, NULL);
    return result;
}
