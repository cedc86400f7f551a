/* Loaded before the C library, it counts the calls on the files of a database, on its folder and on the standard
 * streams, writes them down, and lets one of them fail.
 *
 * RECORD_TO names the file that the calls are appended to, each as a `struct call` and then the octets that were
 * written. RECORD_FAULT is NUMBER:FAULT, the number of a call from 1 on and what befalls it: EIO, ENOSPC, EINTR or
 * EPERM, with nothing done; SHORT, where half of the octets are taken or given; TORN, where half of the octets are written and the
 * answer is EIO; KILL, before anything is done; HALF, a kill when half of the octets are written. */
#define _GNU_SOURCE
#include <dlfcn.h>
#include <errno.h>
#include <fcntl.h>
#include <signal.h>
#include <stdarg.h>
#include <stdint.h>
#include <stdlib.h>
#include <string.h>
#include <sys/stat.h>
#include <unistd.h>

enum kind { OPEN = 1, READ, WRITE, PREAD, PWRITE, FDATASYNC, FSYNC, RENAME, LINK, UNLINK, FLOCK, STATX };

/* An open that may create has the offset 1. A rename and a link have the new name's file in their offset. */
struct call {
    uint32_t kind, file;
    int64_t offset, asked, result;
    uint64_t octets;
};

static const char *const names[] = {"face.log",       "face.flash",    "face.disk", "face.log.new",
                                    "face.flash.new", "face.disk.new", "."};
enum { NAMES = sizeof names / sizeof names[0], INPUT = NAMES, OUTPUT, NONE, DESCRIPTORS = 256 };

static int file_of[DESCRIPTORS];
static off_t position_of[DESCRIPTORS];
static int record = -1;
static long count, fault_at;
static const char *fault = "";

#define REAL(name) ((__typeof__(&name))dlsym(RTLD_NEXT, #name))

__attribute__((constructor)) static void begin(void)
{
    for (int fd = 0; fd < DESCRIPTORS; fd++) file_of[fd] = NONE;
    file_of[0] = INPUT;
    file_of[1] = OUTPUT;
    const char *to = getenv("RECORD_TO"), *what = getenv("RECORD_FAULT");
    if (to) {
        int fd = REAL(open)(to, O_WRONLY | O_CREAT | O_APPEND | O_CLOEXEC, 0600);
        record = fcntl(fd, F_DUPFD_CLOEXEC, DESCRIPTORS);
        REAL(close)(fd);
    }
    if (what) {
        fault_at = atol(what);
        fault = strchr(what, ':') + 1;
    }
}

static int file_at(const char *path)
{
    for (int i = 0; i < NAMES; i++)
        if (strcmp(path, names[i]) == 0) return i;
    return NONE;
}

static int file_by(int fd)
{
    return fd >= 0 && fd < DESCRIPTORS ? file_of[fd] : NONE;
}

/* Counts a call, and answers what befalls it: nothing, a word, or the end of the program. */
static const char *befalls(int file)
{
    if (file == NONE || ++count != fault_at) return "";
    if (strcmp(fault, "KILL") == 0) raise(SIGKILL);
    return fault;
}

static int error_of(const char *what)
{
    if (strcmp(what, "EIO") == 0) return EIO;
    if (strcmp(what, "ENOSPC") == 0) return ENOSPC;
    if (strcmp(what, "EINTR") == 0) return EINTR;
    if (strcmp(what, "EPERM") == 0) return EPERM;
    return 0;
}

static void note(enum kind kind, int file, off_t offset, size_t asked, long result, const void *octets)
{
    if (record < 0 || file == NONE) return;
    int saved = errno;
    struct call call = {kind, file, offset, asked, result, octets && result > 0 ? result : 0};
    ssize_t (*put)(int, const void *, size_t) = REAL(write);
    if (put(record, &call, sizeof call) != sizeof call) abort();
    if (call.octets && put(record, octets, call.octets) != (ssize_t)call.octets) abort();
    errno = saved;
}

/* A call without octets: DO gives its result where no fault befalls it. */
#define PLAIN(kind, file, offset, DO)                                                                                  \
    const char *what = befalls(file);                                                                                  \
    int error = error_of(what);                                                                                        \
    int result = error ? (errno = error, -1) : (DO);                                                                   \
    note(kind, file, offset, 0, result, NULL);                                                                         \
    return result;

/* How many octets of a call are moved under this fault. */
static size_t part(const char *what, size_t octets)
{
    int halves = strcmp(what, "SHORT") == 0 || strcmp(what, "TORN") == 0 || strcmp(what, "HALF") == 0;
    return halves && octets > 1 ? octets / 2 : octets;
}

/* What is answered of a write that has taken so many octets. A write that tears leaves a record of what it took. */
static ssize_t end_write(enum kind kind, int file, off_t offset, size_t asked, ssize_t taken, const char *what,
                         const void *octets)
{
    note(kind, file, offset, asked, taken, octets);
    if (strcmp(what, "HALF") == 0) raise(SIGKILL);
    if (strcmp(what, "TORN") == 0) return errno = EIO, -1;
    return taken;
}

ssize_t pwrite(int fd, const void *octets, size_t asked, off_t offset)
{
    int file = file_by(fd);
    const char *what = befalls(file);
    int error = error_of(what);
    ssize_t taken = error ? -1 : REAL(pwrite)(fd, octets, part(what, asked), offset);
    if (error) errno = error;
    return end_write(PWRITE, file, offset, asked, taken, what, octets);
}

ssize_t write(int fd, const void *octets, size_t asked)
{
    int file = file_by(fd);
    const char *what = befalls(file);
    int error = error_of(what);
    ssize_t taken = error ? -1 : REAL(write)(fd, octets, part(what, asked));
    if (error) errno = error;
    off_t offset = file < NAMES ? position_of[fd] : 0;
    if (file < NAMES && taken > 0) position_of[fd] += taken;
    return end_write(WRITE, file, offset, asked, taken, what, octets);
}

static ssize_t end_read(enum kind kind, int file, off_t offset, size_t asked, ssize_t given)
{
    note(kind, file, offset, asked, given, NULL);
    return given;
}

ssize_t pread(int fd, void *octets, size_t asked, off_t offset)
{
    int file = file_by(fd);
    const char *what = befalls(file);
    int error = error_of(what);
    ssize_t given = error ? (errno = error, -1) : REAL(pread)(fd, octets, part(what, asked), offset);
    return end_read(PREAD, file, offset, asked, given);
}

ssize_t read(int fd, void *octets, size_t asked)
{
    int file = file_by(fd);
    const char *what = befalls(file);
    int error = error_of(what);
    ssize_t given = error ? (errno = error, -1) : REAL(read)(fd, octets, part(what, asked));
    return end_read(READ, file, 0, asked, given);
}

int open(const char *path, int flags, ...)
{
    va_list rest;
    va_start(rest, flags);
    mode_t mode = flags & O_CREAT ? va_arg(rest, mode_t) : 0;
    va_end(rest);
    int file = file_at(path);
    const char *what = befalls(file);
    int error = error_of(what);
    int fd = error ? (errno = error, -1) : REAL(open)(path, flags, mode);
    if (fd >= 0 && fd < DESCRIPTORS) {
        file_of[fd] = file;
        position_of[fd] = 0;
    }
    note(OPEN, file, flags & O_CREAT ? 1 : 0, 0, fd, NULL);
    return fd;
}

int close(int fd)
{
    if (fd >= 0 && fd < DESCRIPTORS) file_of[fd] = NONE;
    return REAL(close)(fd);
}

int fdatasync(int fd)
{
    int file = file_by(fd);
    PLAIN(FDATASYNC, file, 0, REAL(fdatasync)(fd))
}

int fsync(int fd)
{
    int file = file_by(fd);
    PLAIN(FSYNC, file, 0, REAL(fsync)(fd))
}

int rename(const char *from, const char *to)
{
    int file = file_at(from);
    PLAIN(RENAME, file, file_at(to), REAL(rename)(from, to))
}

int link(const char *from, const char *to)
{
    int file = file_at(from);
    PLAIN(LINK, file, file_at(to), REAL(link)(from, to))
}

int unlink(const char *path)
{
    int file = file_at(path);
    PLAIN(UNLINK, file, 0, REAL(unlink)(path))
}

int flock(int fd, int operation)
{
    int (*real)(int, int) = (int (*)(int, int))dlsym(RTLD_NEXT, "flock");
    int file = file_by(fd);
    PLAIN(FLOCK, file, 0, real(fd, operation))
}

int statx(int folder, const char *path, int flags, unsigned mask, struct statx *found)
{
    int file = *path ? file_at(path) : file_by(folder);
    PLAIN(STATX, file, 0, REAL(statx)(folder, path, flags, mask, found))
}
