/* Refuses a program's requests for memory: the one whose number, from 1, stands in REFUSE_AT, and each after it where
   REFUSE_ON is set. Where it has refused one it makes the file that REFUSE_MARK names. In the file that REFUSE_LOG names
   it puts a line for each request: its size, and the place in the program that it came from. LD_PRELOAD puts it before
   the C library. */
#define _GNU_SOURCE
#include <dlfcn.h>
#include <errno.h>
#include <fcntl.h>
#include <stdio.h>
#include <stdlib.h>
#include <string.h>
#include <unistd.h>

static unsigned long asked, refused_at;
static int goes_on, listed = -1;

__attribute__((constructor)) static void begin(void) {
    const char *at = getenv("REFUSE_AT");
    refused_at = at ? strtoul(at, NULL, 10) : 0;
    goes_on = getenv("REFUSE_ON") != NULL;
    const char *list = getenv("REFUSE_LOG");
    listed = list ? open(list, O_WRONLY | O_CREAT | O_APPEND, 0600) : -1;
    asked = 0;
}

static void list_request(size_t size, const void *from) {
    char line[64];
    snprintf(line, sizeof line, "%zu %p\n", size, from);
    if (write(listed, line, strlen(line)) < 0)
        abort();
}

static int is_refused(size_t size, const void *from) {
    asked += 1;
    if (listed >= 0)
        list_request(size, from);
    if (refused_at == 0 || asked < refused_at || (asked > refused_at && !goes_on))
        return 0;
    const char *mark = getenv("REFUSE_MARK");
    int file = mark ? open(mark, O_WRONLY | O_CREAT, 0600) : -1;
    if (file >= 0)
        close(file);
    errno = ENOMEM;
    return 1;
}

extern void *__libc_malloc(size_t);
extern void *__libc_realloc(void *, size_t);
extern void *__libc_calloc(size_t, size_t);
extern void *__libc_memalign(size_t, size_t);

#define REFUSES(size) is_refused(size, __builtin_return_address(0))

void *malloc(size_t size) { return REFUSES(size) ? NULL : __libc_malloc(size); }

void *realloc(void *held, size_t size) { return REFUSES(size) ? NULL : __libc_realloc(held, size); }

void *calloc(size_t count, size_t size) { return REFUSES(count * size) ? NULL : __libc_calloc(count, size); }

void *aligned_alloc(size_t edge, size_t size) { return REFUSES(size) ? NULL : __libc_memalign(edge, size); }
