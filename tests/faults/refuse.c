/* Refuses one request of memory of a program: the one of the number REFUSE, counted from 1. It is loaded with LD_PRELOAD. With
   REFUSE_COUNT a file of that name gets the number of all requests, when the program ends. Needs glibc. */
#include <errno.h>
#include <stddef.h>
#include <stdio.h>
#include <stdlib.h>

extern void *__libc_malloc(size_t size);
extern void *__libc_calloc(size_t count, size_t size);
extern void *__libc_realloc(void *old, size_t size);

static long requests, refused = -1;

static int is_refused(void) {
    if (refused < 0) {
        return 0; /* the loader's own, before the program has begun */
    }
    if (++requests != refused) {
        return 0;
    }
    errno = ENOMEM;
    return 1;
}

void *malloc(size_t size) { return is_refused() ? NULL : __libc_malloc(size); }
void *calloc(size_t count, size_t size) { return is_refused() ? NULL : __libc_calloc(count, size); }
void *realloc(void *old, size_t size) { return is_refused() ? NULL : __libc_realloc(old, size); }

__attribute__((constructor)) static void begin(void) {
    const char *number = getenv("REFUSE");
    refused = number ? atol(number) : 0;
}

__attribute__((destructor)) static void end(void) {
    const char *name = getenv("REFUSE_COUNT");
    long all = requests;
    refused = -1;
    FILE *out = name ? fopen(name, "w") : NULL;
    if (out) {
        fprintf(out, "%ld\n", all);
        fclose(out);
    }
}
