/* What a runner and the preloaded refuse.c tell each other, in memory that they share. */
#ifndef CONTROL_H
#define CONTROL_H

#include <stdint.h>

/* The variable of the environment that has the number of the shared memory's file. */
#define CONTROL_VARIABLE "REFUSE_CONTROL"

/* Growths are the calls of malloc, calloc, realloc, posix_memalign and aligned_alloc, counted from 1. */
struct control {
    uint64_t growths;  /* how many were asked for */
    uint64_t first;    /* the first that is refused */
    uint64_t last;     /* the last that is refused */
    uint64_t refused;  /* how many were refused */
};

#endif
