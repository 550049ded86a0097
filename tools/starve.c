// A preloaded allocator that refuses: each call of malloc, calloc, realloc, aligned_alloc and posix_memalign that asks for memory is
// counted from 1 on, and the call STARVE_AT and, with STARVE_ALL, each later one answers that there is none. The number of calls is
// written to the file STARVE_COUNT at the end, where that is set.
//
// cc -O2 -shared -fPIC -o starve.so starve.c -ldl; LD_PRELOAD=./starve.so STARVE_AT=3 panc ..
#define _GNU_SOURCE
#include <dlfcn.h>
#include <errno.h>
#include <fcntl.h>
#include <stdio.h>
#include <stdlib.h>
#include <unistd.h>

extern void *__libc_malloc(size_t size);
extern void *__libc_calloc(size_t count, size_t size);
extern void *__libc_realloc(void *old, size_t size);
extern void *__libc_memalign(size_t alignment, size_t size);

static unsigned long calls, refused_at;
static int refuses_all, is_ready;

// The calls before main, as those of the loader and of the C library, are neither counted nor refused.
__attribute__((constructor)) static void begin(void) {
    const char *at = getenv("STARVE_AT");
    refused_at = at ? strtoul(at, NULL, 10) : 0;
    refuses_all = getenv("STARVE_ALL") != NULL;
    is_ready = 1;
}

static int is_refused(void) {
    if (!is_ready) return 0;
    calls += 1;
    return refused_at != 0 && (calls == refused_at || (refuses_all && calls > refused_at));
}

static void *none(void) {
    errno = ENOMEM;
    return NULL;
}

void *malloc(size_t size) { return is_refused() ? none() : __libc_malloc(size); }
void *calloc(size_t count, size_t size) { return is_refused() ? none() : __libc_calloc(count, size); }
void *realloc(void *old, size_t size) { return is_refused() ? none() : __libc_realloc(old, size); }
void *memalign(size_t alignment, size_t size) { return is_refused() ? none() : __libc_memalign(alignment, size); }
void *aligned_alloc(size_t alignment, size_t size) { return memalign(alignment, size); }

int posix_memalign(void **to, size_t alignment, size_t size) {
    void *made = memalign(alignment, size);
    if (made == NULL) return ENOMEM;
    *to = made;
    return 0;
}

__attribute__((destructor)) static void end(void) {
    const char *name = getenv("STARVE_COUNT");
    is_ready = 0;
    if (name == NULL) return;
    char line[32];
    int length = snprintf(line, sizeof line, "%lu\n", calls);
    int file = open(name, O_WRONLY | O_CREAT | O_TRUNC, 0644);
    if (file < 0) return;
    if (write(file, line, (size_t)length) != length) _exit(127);
    close(file);
}
