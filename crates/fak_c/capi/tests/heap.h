/* The heap that the library for C asks for. Tests call it, or bring one of their own. */
#ifndef FAK_C_HEAP_H
#define FAK_C_HEAP_H

#include <stdbool.h>
#include <stddef.h>

#ifdef __cplusplus
extern "C" {
#endif

/* Whether there was memory, and where. The pointer of a refusal is not null. */
struct allocation {
    bool found;
    void *at;
};

struct allocation rattle_alloc(size_t size, size_t align);
struct allocation rattle_realloc(void *part, size_t kept, size_t size, size_t align);
void rattle_dealloc(void *part);

#ifdef __cplusplus
}
#endif

#endif
