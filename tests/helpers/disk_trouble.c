/* Meets the calls by which a program changes the files of a database with trouble: the one whose number, from 1, stands
   in TROUBLE_AT, and each after it where TROUBLE_ON is set. Where TROUBLE_ERROR has a number the call fails with this
   error, else the program is stopped there (SIGKILL). Where TROUBLE_HALF is set a write has put half of its bytes by
   then. A file counts where its path has TROUBLE_PATH in it. Where there was trouble the file that TROUBLE_MARK names is
   made. Where TROUBLE_LOCKS has a number no file can be locked, and this is the error; where TROUBLE_DESCRIPTORS has one
   the program may have so many descriptors, which the loader that starts it is not held to. LD_PRELOAD puts it before the
   C library. */
#define _GNU_SOURCE
#include <dlfcn.h>
#include <errno.h>
#include <fcntl.h>
#include <signal.h>
#include <stdarg.h>
#include <stdio.h>
#include <stdlib.h>
#include <string.h>
#include <sys/resource.h>
#include <sys/types.h>
#include <unistd.h>

static unsigned long made, trouble_at;
static int error, goes_on, halves, locks_error;
static const char *path, *mark;

static int number_in(const char *name) {
    const char *text = getenv(name);
    return text ? atoi(text) : 0;
}

__attribute__((constructor)) static void begin(void) {
    trouble_at = (unsigned long)number_in("TROUBLE_AT");
    error = number_in("TROUBLE_ERROR");
    goes_on = getenv("TROUBLE_ON") != NULL;
    halves = getenv("TROUBLE_HALF") != NULL;
    locks_error = number_in("TROUBLE_LOCKS");
    path = getenv("TROUBLE_PATH");
    mark = getenv("TROUBLE_MARK");
    struct rlimit descriptors = {(rlim_t)number_in("TROUBLE_DESCRIPTORS"), (rlim_t)number_in("TROUBLE_DESCRIPTORS")};
    if (descriptors.rlim_cur)
        setrlimit(RLIMIT_NOFILE, &descriptors);
}

static void *real(const char *name) { return dlsym(RTLD_NEXT, name); }

static int counts(int file) {
    char link[64], found[4096];
    if (!path)
        return 0;
    snprintf(link, sizeof link, "/proc/self/fd/%d", file);
    ssize_t length = readlink(link, found, sizeof found - 1);
    if (length < 0)
        return 0;
    found[length] = 0;
    return strstr(found, path) != NULL;
}

/* Whether this call of a file meets trouble. */
static int meets(int file) {
    if (trouble_at == 0 || !counts(file))
        return 0;
    made += 1;
    return made == trouble_at || (made > trouble_at && goes_on);
}

/* Answers the error of a call, or stops the program. */
static int trouble(void) {
    int file = mark ? open(mark, O_WRONLY | O_CREAT, 0600) : -1;
    if (file >= 0)
        close(file);
    if (error == 0)
        raise(SIGKILL);
    errno = error;
    return -1;
}

ssize_t pwrite(int file, const void *bytes, size_t count, off_t at) {
    ssize_t (*put)(int, const void *, size_t, off_t) = real("pwrite");
    if (!meets(file))
        return put(file, bytes, count, at);
    if (halves)
        put(file, bytes, count / 2, at);
    return trouble();
}

ssize_t pwrite64(int file, const void *bytes, size_t count, off_t at) { return pwrite(file, bytes, count, at); }

ssize_t write(int file, const void *bytes, size_t count) {
    ssize_t (*put)(int, const void *, size_t) = real("write");
    return meets(file) ? trouble() : put(file, bytes, count);
}

int ftruncate(int file, off_t length) {
    int (*cut)(int, off_t) = real("ftruncate");
    return meets(file) ? trouble() : cut(file, length);
}

int ftruncate64(int file, off_t length) { return ftruncate(file, length); }

int fsync(int file) {
    int (*sync_all)(int) = real("fsync");
    return meets(file) ? trouble() : sync_all(file);
}

int fdatasync(int file) {
    int (*sync_data)(int) = real("fdatasync");
    return meets(file) ? trouble() : sync_data(file);
}

int fcntl(int file, int command, ...) {
    int (*control)(int, int, ...) = real("fcntl");
    va_list rest;
    va_start(rest, command);
    void *given = va_arg(rest, void *);
    va_end(rest);
    int locks = command == F_SETLK || command == F_SETLKW || command == F_OFD_SETLK || command == F_OFD_SETLKW;
    if (locks && locks_error) {
        errno = locks_error;
        return -1;
    }
    return control(file, command, given);
}

int fcntl64(int file, int command, ...) {
    va_list rest;
    va_start(rest, command);
    void *given = va_arg(rest, void *);
    va_end(rest);
    return fcntl(file, command, given);
}
