/* A library to preload: it refuses allocations of the program. REFUSE_FROM and REFUSE_TO are the numbers of the first and the last that are refused, from 1 on;
   nothing is refused where they aren't given. Where REFUSE_COUNT names a file, the number of allocations is written to it at the end. */
#define _GNU_SOURCE
#include <dlfcn.h>
#include <errno.h>
#include <stdio.h>
#include <stdlib.h>
#include <sys/syscall.h>
#include <unistd.h>

static unsigned long asked, first, last;
static void *(*real_malloc)(size_t), *(*real_realloc)(void *, size_t), *(*real_calloc)(size_t, size_t);
static int (*real_posix_memalign)(void **, size_t, size_t);

__attribute__((constructor)) static void begin(void) {
    real_malloc = dlsym(RTLD_NEXT, "malloc");
    real_realloc = dlsym(RTLD_NEXT, "realloc");
    real_calloc = dlsym(RTLD_NEXT, "calloc");
    real_posix_memalign = dlsym(RTLD_NEXT, "posix_memalign");
    const char *from = getenv("REFUSE_FROM"), *to = getenv("REFUSE_TO");
    first = from ? strtoul(from, NULL, 10) : 0;
    last = to ? strtoul(to, NULL, 10) : 0;
    asked = 0;
}

static void tell_count(void) {
    const char *name = getenv("REFUSE_COUNT");
    unsigned long count = asked;
    FILE *file = name ? fopen(name, "w") : NULL;
    if (file) {
        fprintf(file, "%lu\n", count);
        fclose(file);
    }
}

__attribute__((destructor)) static void end(void) {
    tell_count();
}

/* (A program with threads ends by this call, without destructors.) */
void _exit(int status) {
    tell_count();
    syscall(SYS_exit_group, status);
    __builtin_unreachable();
}

static int is_refused(void) {
    /* (Several threads may ask.) */
    unsigned long number = __atomic_add_fetch(&asked, 1, __ATOMIC_SEQ_CST);
    return first <= number && number <= last;
}

void *malloc(size_t size) {
    if (!real_malloc) real_malloc = dlsym(RTLD_NEXT, "malloc");
    return is_refused() ? (errno = ENOMEM, NULL) : real_malloc(size);
}

void *realloc(void *old, size_t size) {
    if (!real_realloc) real_realloc = dlsym(RTLD_NEXT, "realloc");
    return is_refused() ? (errno = ENOMEM, NULL) : real_realloc(old, size);
}

/* (dlsym may ask for zeroed memory before its own answer is there.) */
void *calloc(size_t count, size_t size) {
    static char early[4096];
    static size_t used;
    if (!real_calloc) {
        size_t wanted = (count * size + 15) & ~(size_t)15;
        if (wanted > sizeof early - used) return NULL;
        used += wanted;
        return early + used - wanted;
    }
    return is_refused() ? (errno = ENOMEM, NULL) : real_calloc(count, size);
}

int posix_memalign(void **to, size_t alignment, size_t size) {
    if (!real_posix_memalign) real_posix_memalign = dlsym(RTLD_NEXT, "posix_memalign");
    return is_refused() ? ENOMEM : real_posix_memalign(to, alignment, size);
}
