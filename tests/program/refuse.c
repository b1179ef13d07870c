/* A library that `failures memory` loads before a program. It refuses one allocation of the program: the one of the
   number in REFUSED, from 1, or none at 0. At the end of the program it writes into the file named by ALLOCATIONS how
   many allocations there were. It counts allocations of the program's own code, not of the C library. */
#define _GNU_SOURCE
#include <dlfcn.h>
#include <fcntl.h>
#include <stdio.h>
#include <stdlib.h>
#include <sys/auxv.h>
#include <unistd.h>

void *__libc_malloc(size_t size);
void *__libc_realloc(void *old, size_t size);

static unsigned long counted, refused;
static void *program;

static void *base_of(void *address) {
    Dl_info found;
    return dladdr(address, &found) ? found.dli_fbase : NULL;
}

__attribute__((constructor)) static void begin(void) {
    const char *number = getenv("REFUSED");

    program = base_of((void *)getauxval(AT_ENTRY));
    refused = number ? strtoul(number, NULL, 10) : 0;
}

__attribute__((destructor)) static void end(void) {
    const char *name = getenv("ALLOCATIONS");
    int file = name ? open(name, O_WRONLY | O_CREAT | O_TRUNC, 0600) : -1;

    if (file >= 0) {
        dprintf(file, "%lu\n", counted);
        close(file);
    }
}

/* Is this allocation, for which the code at `caller` asks, the one that is refused? */
static int is_refused(void *caller) {
    return program && base_of(caller) == program && ++counted == refused;
}

void *malloc(size_t size) {
    return is_refused(__builtin_return_address(0)) ? NULL : __libc_malloc(size);
}

void *realloc(void *old, size_t size) {
    return is_refused(__builtin_return_address(0)) ? NULL : __libc_realloc(old, size);
}
