/* Counts the large allocations of the program that it is loaded into, by their sizes: how many there were of each, and how many at most at one
   time. They are written into the file that ALLOCATIONS_FILE names, a line for each size. */
#define _GNU_SOURCE
#include <dlfcn.h>
#include <malloc.h>
#include <stdio.h>
#include <stdlib.h>

enum { LEAST = 512, SIZES = 4096 };

static struct {
    size_t size;
    long made, now, most;
} sizes[SIZES];

/* Notes that there is one more of an allocation's size, or one less. */
static void note(void *made, long more) {
    size_t size = made ? malloc_usable_size(made) : 0;
    if (size < LEAST) return;
    for (int at = 0; at < SIZES; at++) {
        if (sizes[at].size != 0 && sizes[at].size != size) continue;
        sizes[at].size = size;
        sizes[at].made += more > 0;
        sizes[at].now += more;
        if (sizes[at].now > sizes[at].most) sizes[at].most = sizes[at].now;
        return;
    }
}

void *malloc(size_t size) {
    static void *(*real)(size_t);
    if (!real) real = (void *(*)(size_t))dlsym(RTLD_NEXT, "malloc");
    void *made = real(size);
    note(made, 1);
    return made;
}

void *realloc(void *old, size_t size) {
    static void *(*real)(void *, size_t);
    if (!real) real = (void *(*)(void *, size_t))dlsym(RTLD_NEXT, "realloc");
    note(old, -1);
    void *made = real(old, size);
    note(made ? made : old, 1);
    return made;
}

void free(void *old) {
    static void (*real)(void *);
    if (!real) real = (void (*)(void *))dlsym(RTLD_NEXT, "free");
    note(old, -1);
    real(old);
}

__attribute__((destructor)) static void tell(void) {
    const char *name = getenv("ALLOCATIONS_FILE");
    FILE *file = name ? fopen(name, "w") : NULL;
    if (!file) return;
    for (int at = 0; at < SIZES && sizes[at].size != 0; at++) fprintf(file, "%zu %ld %ld\n", sizes[at].size, sizes[at].made, sizes[at].most);
    fclose(file);
}
