/* Refuses one request for memory of the program that it is preloaded into: the one whose number is in REFUSE, from 1 on.
   It writes a byte to descriptor 9 when it does, so that a run that met no refusal can be told. */
#define _GNU_SOURCE
#include <dlfcn.h>
#include <errno.h>
#include <stdlib.h>
#include <unistd.h>

static void *(*next_malloc)(size_t);
static void *(*next_realloc)(void *, size_t);
static long refused, requests;

static int is_refused(void)
{
    if (!next_malloc) {
        const char *number = getenv("REFUSE");
        next_malloc = dlsym(RTLD_NEXT, "malloc");
        next_realloc = dlsym(RTLD_NEXT, "realloc");
        refused = number ? atol(number) : 0;
    }
    if (++requests != refused)
        return 0;
    errno = ENOMEM;
    return write(9, "!", 1) == 1;
}

void *malloc(size_t size)
{
    return is_refused() ? NULL : next_malloc(size);
}

void *realloc(void *block, size_t size)
{
    return is_refused() ? NULL : next_realloc(block, size);
}
