/*
 * Refuses growths of memory. Preloaded to a program (LD_PRELOAD), it stands before the C library's functions that give memory,
 * counts their calls, and refuses those whose numbers its runner names (control.h). Without a runner it refuses none.
 * It rests on glibc, whose own functions can be called by other names.
 */
#include "control.h"

#include <errno.h>
#include <stddef.h>
#include <stdlib.h>
#include <sys/mman.h>

extern void *__libc_malloc(size_t size);
extern void *__libc_calloc(size_t count, size_t size);
extern void *__libc_realloc(void *block, size_t size);
extern void *__libc_memalign(size_t alignment, size_t size);

static struct control *control;

/* Calls before this one, of the loader and the C library, aren't the program's, and aren't counted. */
__attribute__((constructor)) static void find_control(void) {
    const char *number = getenv(CONTROL_VARIABLE);
    if (number == NULL) {
        return;
    }
    void *found = mmap(NULL, sizeof(struct control), PROT_READ | PROT_WRITE, MAP_SHARED, atoi(number), 0);
    if (found != MAP_FAILED) {
        control = found;
    }
}

/* Counts a growth; whether it is to be refused. */
static int is_refused(void) {
    if (control == NULL) {
        return 0;
    }
    control->growths += 1;
    if (control->growths < control->first || control->growths > control->last) {
        return 0;
    }
    control->refused += 1;
    errno = ENOMEM;
    return 1;
}

void *malloc(size_t size) {
    return is_refused() ? NULL : __libc_malloc(size);
}

void *calloc(size_t count, size_t size) {
    return is_refused() ? NULL : __libc_calloc(count, size);
}

void *realloc(void *block, size_t size) {
    return is_refused() ? NULL : __libc_realloc(block, size);
}

void *aligned_alloc(size_t alignment, size_t size) {
    return is_refused() ? NULL : __libc_memalign(alignment, size);
}

int posix_memalign(void **block, size_t alignment, size_t size) {
    if (is_refused()) {
        return ENOMEM;
    }
    void *found = __libc_memalign(alignment, size);
    if (found == NULL) {
        return ENOMEM;
    }
    *block = found;
    return 0;
}
