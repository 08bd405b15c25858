/* The long copies and fills of the archive for firmware: the compiler writes them as calls of these two. Plain C, which no proof covers.
 * tools/archive compiles it without turning the loops into calls of the functions themselves, and keeps both names inside the archive. */
#include <stddef.h>

void *memcpy(void *restrict to, const void *restrict from, size_t bytes) {
    unsigned char *t = to;
    const unsigned char *f = from;
    for (size_t i = 0; i < bytes; i++) t[i] = f[i];
    return to;
}

void *memset(void *to, int byte, size_t bytes) {
    unsigned char *t = to;
    for (size_t i = 0; i < bytes; i++) t[i] = (unsigned char)byte;
    return to;
}
