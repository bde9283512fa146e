/* Refuses one allocation of a program, the one of the number REFUSE, and tells so by a byte on descriptor 9.
   cc -O2 -shared -fPIC -o refuse.so refuse.c; REFUSE=N LD_PRELOAD=./refuse.so PROGRAM [WORD..] 9> FILE */
#include <errno.h>
#include <stdlib.h>
#include <unistd.h>

extern void *__libc_malloc(size_t);
extern void *__libc_realloc(void *, size_t);

static long refused = -1, number;

static int is_refused(void) {
    if (refused < 0) {
        const char *text = getenv("REFUSE");
        refused = text ? atol(text) : 0;
    }
    if (++number != refused) return 0;
    if (write(9, "r", 1) != 1) abort();
    errno = ENOMEM;
    return 1;
}

void *malloc(size_t size) { return is_refused() ? NULL : __libc_malloc(size); }

void *realloc(void *old, size_t size) { return is_refused() ? NULL : __libc_realloc(old, size); }
