/* Counts that must not be 0. */
#ifndef TRIED_H
#define TRIED_H
#include <stdint.h>
#include <stdio.h>

/* Prints a count, and answers whether it is above 0. */
static inline int tried(const char *what, uint32_t times)
{
    printf("%s %u%s\n", what, (unsigned)times, times ? "" : " FAILED: never tried");
    return times > 0;
}
#endif
