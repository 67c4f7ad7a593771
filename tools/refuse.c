/* malloc and realloc that refuse the one call whose number REFUSED names, and count their calls in the first eight bytes
   of the file that CALLS names, however the program ends. For LD_PRELOAD. */
#define _GNU_SOURCE
#include <dlfcn.h>
#include <fcntl.h>
#include <stdlib.h>
#include <sys/mman.h>
#include <unistd.h>

static long refused, own;
static long *calls = &own;

__attribute__((constructor)) static void start(void) {
    const char *number = getenv("REFUSED");
    const char *path = getenv("CALLS");
    int file = path ? open(path, O_RDWR | O_CREAT | O_TRUNC, 0600) : -1;
    if (file >= 0 && ftruncate(file, sizeof *calls) == 0) {
        void *shared = mmap(NULL, sizeof *calls, PROT_READ | PROT_WRITE, MAP_SHARED, file, 0);
        if (shared != MAP_FAILED) {
            calls = shared;
        }
    }
    refused = number ? atol(number) : 0;
    __atomic_store_n(calls, 0, __ATOMIC_SEQ_CST);
}

static int refuses(void) {
    return __atomic_add_fetch(calls, 1, __ATOMIC_SEQ_CST) == refused;
}

void *malloc(size_t size) {
    void *(*next)(size_t) = dlsym(RTLD_NEXT, "malloc");
    return refuses() ? NULL : next(size);
}

void *realloc(void *block, size_t size) {
    void *(*next)(void *, size_t) = dlsym(RTLD_NEXT, "realloc");
    return refuses() ? NULL : next(block, size);
}
