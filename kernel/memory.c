/* What gcc and the library's first archive call by name. The kernel has no heap: objects lie in the blocks of objects.c and frames.c. */
#include "machine.h"

void *memcpy(void *to, const void *from, size_t size) {
    void *start = to;
    __asm__ volatile("rep movsb" : "+D"(to), "+S"(from), "+c"(size)::"memory");
    return start;
}

/* If the parts overlap, it copies from the end, a byte at a time, in a form that no compiler turns into a call of memmove. */
void *memmove(void *to, const void *from, size_t size) {
    if ((size_t)to - (size_t)from >= size)
        return memcpy(to, from, size);
    while (size-- > 0) {
        ((unsigned char *)to)[size] = ((const unsigned char *)from)[size];
        __asm__ volatile("" ::: "memory");
    }
    return to;
}

void *memset(void *to, int byte, size_t size) {
    void *start = to;
    __asm__ volatile("rep stosb" : "+D"(to), "+c"(size) : "a"(byte) : "memory");
    return start;
}
