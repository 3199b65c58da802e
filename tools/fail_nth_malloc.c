/* For LD_PRELOAD: refuses the Nth request for memory of a program, N being FAIL_NTH_MALLOC, and no other. At exit it tells on
 * the file that FAIL_NTH_MALLOC_REPORT names how many requests there were. Freeing asks for nothing. */
#define _GNU_SOURCE
#include <dlfcn.h>
#include <errno.h>
#include <stdatomic.h>
#include <stdio.h>
#include <stdlib.h>

static atomic_ulong requests;
static unsigned long refused_at;
static void *(*next_malloc)(size_t);
static void *(*next_realloc)(void *, size_t);

__attribute__((constructor)) static void begin(void) {
    const char *text = getenv("FAIL_NTH_MALLOC");
    next_malloc = (void *(*)(size_t))dlsym(RTLD_NEXT, "malloc");
    next_realloc = (void *(*)(void *, size_t))dlsym(RTLD_NEXT, "realloc");
    refused_at = text ? strtoul(text, NULL, 10) : 0;
    atomic_store(&requests, 0);
}

__attribute__((destructor)) static void end(void) {
    const char *name = getenv("FAIL_NTH_MALLOC_REPORT");
    unsigned long count = atomic_load(&requests);
    refused_at = 0;
    FILE *file = name ? fopen(name, "w") : NULL;
    if (file) {
        fprintf(file, "%lu\n", count);
        fclose(file);
    }
}

static int is_refused(void) {
    return atomic_fetch_add(&requests, 1) + 1 == refused_at;
}

void *malloc(size_t size) {
    if (!next_malloc)
        next_malloc = (void *(*)(size_t))dlsym(RTLD_NEXT, "malloc");
    if (is_refused()) {
        errno = ENOMEM;
        return NULL;
    }
    return next_malloc(size);
}

void *realloc(void *old, size_t size) {
    if (!next_realloc)
        next_realloc = (void *(*)(void *, size_t))dlsym(RTLD_NEXT, "realloc");
    if (is_refused()) {
        errno = ENOMEM;
        return NULL;
    }
    return next_realloc(old, size);
}
