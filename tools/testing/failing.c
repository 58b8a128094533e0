/* Makes the program that it is loaded into meet what can fail. By these variables of the environment:
   REFUSED_ALLOCATION=N  the allocation of this number, from 1 on, is refused;
   ALLOCATIONS_FILE=NAME how many allocations were made is written there at the end;
   WRITTEN_BYTES=N       standard output takes so many bytes, and fails then;
   READ_BYTES=N          standard input gives so many bytes, and fails then;
   ENDLESS_BYTE=N        standard input gives this byte for ever;
   SINGLE_BYTES=1        a read or write of these two moves one byte;
   STACK_BYTES=N         so much of the stack is taken before the program begins;
   ADDRESS_BYTES=N       the system gives the program no more addresses than it has then, and so many bytes. */
#define _GNU_SOURCE
#include <dlfcn.h>
#include <errno.h>
#include <fcntl.h>
#include <stdio.h>
#include <stdlib.h>
#include <string.h>
#include <sys/resource.h>
#include <unistd.h>

static long allocations, moved[2];

static long number(const char *name, long otherwise) {
    const char *said = getenv(name);
    return said ? atol(said) : otherwise;
}

static int is_refused(void) {
    allocations += 1;
    return allocations == number("REFUSED_ALLOCATION", 0);
}

void *malloc(size_t size) {
    static void *(*real)(size_t);
    if (!real) real = (void *(*)(size_t))dlsym(RTLD_NEXT, "malloc");
    if (is_refused()) {
        errno = ENOMEM;
        return NULL;
    }
    return real(size);
}

void *realloc(void *old, size_t size) {
    static void *(*real)(void *, size_t);
    if (!real) real = (void *(*)(void *, size_t))dlsym(RTLD_NEXT, "realloc");
    if (is_refused()) {
        errno = ENOMEM;
        return NULL;
    }
    return real(old, size);
}

/* How many bytes a stream moves of those asked for, or -1 where it fails now. */
static long left(int stream, const char *name, size_t size) {
    long most = number(name, -1), few = number("SINGLE_BYTES", 0) && size > 1 ? 1 : (long)size;
    if (most < 0 || size == 0) return few;
    if (moved[stream] >= most) return -1;
    return few < most - moved[stream] ? few : most - moved[stream];
}

static long counted(int stream, long done) {
    moved[stream] += done > 0 ? done : 0;
    return done;
}

ssize_t write(int file, const void *bytes, size_t size) {
    static ssize_t (*real)(int, const void *, size_t);
    if (!real) real = (ssize_t (*)(int, const void *, size_t))dlsym(RTLD_NEXT, "write");
    if (file != 1) return real(file, bytes, size);
    long most = left(1, "WRITTEN_BYTES", size);
    if (most < 0) {
        errno = EIO;
        return -1;
    }
    return counted(1, real(file, bytes, most));
}

ssize_t read(int file, void *bytes, size_t size) {
    static ssize_t (*real)(int, void *, size_t);
    if (!real) real = (ssize_t (*)(int, void *, size_t))dlsym(RTLD_NEXT, "read");
    if (file != 0) return real(file, bytes, size);
    long most = left(0, "READ_BYTES", size), endless = number("ENDLESS_BYTE", -1);
    if (most < 0) {
        errno = EIO;
        return -1;
    }
    if (endless >= 0) {
        memset(bytes, (int)endless, most);
        return most;
    }
    return counted(0, real(file, bytes, most));
}

/* The first number of this file is how many pages of addresses are taken. */
static void limit_addresses(long more) {
    char pages[64] = "";
    int file = open("/proc/self/statm", O_RDONLY);
    if (file < 0 || read(file, pages, sizeof pages - 1) <= 0) abort();
    close(file);
    rlim_t most = atol(pages) * sysconf(_SC_PAGESIZE) + more;
    struct rlimit limit = {most, most};
    if (setrlimit(RLIMIT_AS, &limit)) abort();
}

__attribute__((constructor)) static void begin(void) {
    long size = number("STACK_BYTES", 0);
    volatile char *stack = __builtin_alloca(size + 1);
    for (long at = size; at >= 0; at -= 4096) stack[at] = 0;
    long most = number("ADDRESS_BYTES", -1);
    if (most >= 0) limit_addresses(most);
}

__attribute__((destructor)) static void tell(void) {
    const char *name = getenv("ALLOCATIONS_FILE");
    long all = allocations;
    FILE *file = name ? fopen(name, "w") : NULL;
    if (file) {
        fprintf(file, "%ld\n", all);
        fclose(file);
    }
}
