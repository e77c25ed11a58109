/* The three that the compiler calls by itself, for what is linked without a C library. They are not counted. */
#include <stddef.h>

void *memcpy(void *to, const void *from, size_t n) {
    for (size_t i = 0; i < n; i++) ((volatile char *)to)[i] = ((const char *)from)[i];
    return to;
}

void *memmove(void *to, const void *from, size_t n) { return memcpy(to, from, n); }

void *memset(void *to, int c, size_t n) {
    for (size_t i = 0; i < n; i++) ((volatile char *)to)[i] = c;
    return to;
}
