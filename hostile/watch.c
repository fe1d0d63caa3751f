/*
 * Watches the memory and the time of a long script (bench/long_script), part by part. Preloaded to a program (LD_PRELOAD), it
 * counts the bytes of the blocks that the program holds, and at its end writes a line for each part to the file that the variable
 * WATCH_REPORT names: the bytes that were held when the part began, the most that were held in it, and the nanoseconds of
 * processor time when it began.
 *
 * A part begins where a block of 161 bytes is asked for, or of two more for each part before it: so long is the text of the row that
 * is made there. No other text of the script is, and blocks of other kinds have no odd sizes. The same blocks were asked for when the
 * script was read; so what counts of a part is when it was last begun. Not counted is the block that holds the lines, which grows with
 * the script: the first that has more than LINES bytes once the first part has begun. Were another one the first, the lines would be
 * counted, and seen to grow. It rests on glibc, as refuse.c does.
 */
#define _GNU_SOURCE
#include <errno.h>
#include <fcntl.h>
#include <malloc.h>
#include <stdint.h>
#include <stdio.h>
#include <stdlib.h>
#include <time.h>
#include <unistd.h>

enum { PARTS = 11, FIRST = 161, LINES = 4096 };

extern void *__libc_malloc(size_t size);
extern void *__libc_calloc(size_t count, size_t size);
extern void *__libc_realloc(void *block, size_t size);
extern void *__libc_memalign(size_t alignment, size_t size);
extern void __libc_free(void *block);

struct part {
    int64_t start, peak;
    long long time;
};

static struct part parts[PARTS];
static int64_t held;
static int current = -1;
static void *lines;

static long long processor_time(void) {
    struct timespec now;
    clock_gettime(CLOCK_PROCESS_CPUTIME_ID, &now);
    return now.tv_sec * 1000000000LL + now.tv_nsec;
}

static int64_t size_of(void *block) {
    return block == NULL ? 0 : (int64_t)malloc_usable_size(block);
}

static void begin_part(size_t size) {
    if (size < FIRST || size >= FIRST + 2 * PARTS || size % 2 == 0 || current == (int)(size - FIRST) / 2) {
        return;
    }
    current = (int)(size - FIRST) / 2;
    if (current == 0) {
        held += size_of(lines);
        lines = NULL;
    }
    parts[current] = (struct part){held, held, processor_time()};
}

/* Counts a block that was made; whether it has the lines is known when it is large. */
static void *with_block(void *block) {
    if (current >= 0 && lines == NULL && size_of(block) > LINES) {
        lines = block;
    }
    held += block == lines ? 0 : size_of(block);
    if (current >= 0 && held > parts[current].peak) {
        parts[current].peak = held;
    }
    return block;
}

static void without_block(void *block, int64_t size) {
    if (block != NULL && block == lines) {
        lines = NULL;
    } else {
        held -= size;
    }
}

void *malloc(size_t size) {
    begin_part(size);
    return with_block(__libc_malloc(size));
}

void *calloc(size_t count, size_t size) {
    return with_block(__libc_calloc(count, size));
}

void *realloc(void *block, size_t size) {
    int64_t before = size_of(block);
    void *found = __libc_realloc(block, size);
    if (found == NULL && size > 0) {
        return NULL;
    }
    without_block(block, before);
    return with_block(found);
}

void *aligned_alloc(size_t alignment, size_t size) {
    begin_part(size);
    return with_block(__libc_memalign(alignment, size));
}

int posix_memalign(void **block, size_t alignment, size_t size) {
    void *found = aligned_alloc(alignment, size);
    if (found == NULL) {
        return ENOMEM;
    }
    *block = found;
    return 0;
}

void free(void *block) {
    without_block(block, size_of(block));
    __libc_free(block);
}

__attribute__((destructor)) static void report(void) {
    const char *name = getenv("WATCH_REPORT");
    int file = name == NULL ? -1 : open(name, O_WRONLY | O_CREAT | O_TRUNC, 0600);
    for (int part = 0; file >= 0 && part < PARTS; part++) {
        dprintf(file, "%lld %lld %lld\n", (long long)parts[part].start, (long long)parts[part].peak, parts[part].time);
    }
}
