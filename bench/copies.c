/*
 * Preloaded into a program, counts its calls of memcpy and memmove by which a whole set is copied, and prints the number when
 * the program ends. A set has a good thousand bytes, and nothing else of that size is copied in a step; the bytes of an entry
 * or a text are moved in larger or smaller pieces.
 */
#include <stddef.h>
#include <stdio.h>

enum { SMALLEST = 1000, LARGEST = 1400 };

static unsigned long copies;

void *memmove(void *to, const void *from, size_t count)
{
    unsigned char *target = to;
    const unsigned char *source = from;
    copies += count >= SMALLEST && count <= LARGEST;
    if (target < source) {
        for (size_t i = 0; i < count; i++)
            target[i] = source[i];
    } else {
        for (size_t i = count; i > 0; i--)
            target[i - 1] = source[i - 1];
    }
    return to;
}

void *memcpy(void *to, const void *from, size_t count)
{
    return memmove(to, from, count);
}

__attribute__((destructor)) static void report(void)
{
    fprintf(stderr, "%lu\n", copies);
}
