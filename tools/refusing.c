/* Stands before the C library's allocator and refuses one call: the one whose number, counted from 1, is in REFUSED.
   When the program has ended, the file `made` in its folder says how many calls there were. For tools/refuse-memory. */
#define _GNU_SOURCE
#include <dlfcn.h>
#include <stdio.h>
#include <stdlib.h>
#include <sys/syscall.h>
#include <unistd.h>

static _Atomic unsigned long made;
static int has_ended;

static int is_refused(void) {
    const char *refused = getenv("REFUSED");
    unsigned long call = ++made;
    return !has_ended && refused && call == strtoul(refused, NULL, 10);
}

void *malloc(size_t size) {
    static void *(*next)(size_t);
    if (!next)
        next = (void *(*)(size_t))dlsym(RTLD_NEXT, "malloc");
    return is_refused() ? NULL : next(size);
}

void *realloc(void *old, size_t size) {
    static void *(*next)(void *, size_t);
    if (!next)
        next = (void *(*)(void *, size_t))dlsym(RTLD_NEXT, "realloc");
    return is_refused() ? NULL : next(old, size);
}

__attribute__((destructor)) static void tell(void) {
    unsigned long calls = made;
    has_ended = 1;
    FILE *file = fopen("made", "w");
    if (file) {
        fprintf(file, "%lu\n", calls);
        fclose(file);
    }
}

/* The program ends by `_exit`, which runs no destructor. */
void _exit(int status) {
    tell();
    for (;;)
        syscall(SYS_exit_group, status);
}
