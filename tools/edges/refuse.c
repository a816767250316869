/* Loaded in front of the C library by fail.py: refuses the memory that the ALLOCth call asks for, fails the IOth read or write, and lets the SHORTth move one byte. */
#define _GNU_SOURCE
#include <dlfcn.h>
#include <errno.h>
#include <stdlib.h>
#include <string.h>
#include <unistd.h>

static enum { NEW, STARTING, READY } state;
static long allocations, calls, refused, failing, shortened;
static char room[65536];
static size_t used;
static void *(*real_malloc)(size_t), *(*real_calloc)(size_t, size_t), *(*real_realloc)(void *, size_t), *(*real_aligned)(size_t, size_t);
static int (*real_memalign)(void **, size_t, size_t);
static ssize_t (*real_read)(int, void *, size_t), (*real_write)(int, const void *, size_t);

static long number(const char *name) {
    const char *text = getenv(name);
    return text ? atol(text) : 0;
}

static void start(void) {
    if (state != NEW) return;
    state = STARTING;
    real_malloc = dlsym(RTLD_NEXT, "malloc");
    real_calloc = dlsym(RTLD_NEXT, "calloc");
    real_realloc = dlsym(RTLD_NEXT, "realloc");
    real_aligned = dlsym(RTLD_NEXT, "aligned_alloc");
    real_memalign = dlsym(RTLD_NEXT, "posix_memalign");
    real_read = dlsym(RTLD_NEXT, "read");
    real_write = dlsym(RTLD_NEXT, "write");
    refused = number("ALLOC");
    failing = number("IO");
    shortened = number("SHORT");
    state = READY;
}

/* what dlsym itself asks for while we start */
static void *early(size_t size) {
    void *at = room + used;
    used += (size + 15) & ~(size_t)15;
    return at;
}

static int refuses(void) {
    start();
    return state == READY && ++allocations == refused;
}

void *malloc(size_t size) {
    if (state == STARTING) return early(size);
    return refuses() ? NULL : real_malloc(size);
}

void *calloc(size_t count, size_t size) {
    if (state == STARTING) return memset(early(count * size), 0, count * size);
    return refuses() ? NULL : real_calloc(count, size);
}

void *realloc(void *old, size_t size) { return refuses() ? NULL : real_realloc(old, size); }

void *aligned_alloc(size_t align, size_t size) { return refuses() ? NULL : real_aligned(align, size); }

int posix_memalign(void **to, size_t align, size_t size) { return refuses() ? ENOMEM : real_memalign(to, align, size); }

/* how many bytes a call may move, or -1 where it fails */
static ssize_t allowed(size_t size) {
    start();
    if (++calls == failing) {
        errno = EIO;
        return -1;
    }
    return calls == shortened && size > 1 ? 1 : (ssize_t)size;
}

ssize_t read(int file, void *to, size_t size) {
    ssize_t most = allowed(size);
    return most < 0 ? most : real_read(file, to, most);
}

ssize_t write(int file, const void *from, size_t size) {
    ssize_t most = allowed(size);
    return most < 0 ? most : real_write(file, from, most);
}
