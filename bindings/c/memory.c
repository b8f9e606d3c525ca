/* The kit's calls of malloc, realloc and free, which install.sh leads here: memory of the allocator
 * that clock2q_use_memory names, else of malloc. Before each block is where it goes back to. */
#include "clock2q.h"

#include <stdlib.h>
#include <string.h>

enum { ALIGNMENT = 16 };

struct origin {
    void (*give_back)(void *block);
    void *block; /* as it was taken */
    size_t size;
    size_t unused; /* keeps the size a multiple of ALIGNMENT */
};

static _Thread_local clock2q_memory memory = {malloc, free};

/* Names that install.sh makes local. */
void *memory_taken(size_t size);
void *memory_resized(void *start, size_t size);
void memory_given_back(void *start);

clock2q_memory clock2q_use_memory(const clock2q_memory *other) {
    clock2q_memory before = memory;
    memory = other != NULL ? *other : (clock2q_memory){malloc, free};
    return before;
}

static struct origin *origin_of(void *start) {
    return (struct origin *)start - 1;
}

void *memory_taken(size_t size) {
    if (size > SIZE_MAX - sizeof(struct origin) - ALIGNMENT) return NULL;
    char *block = memory.take(size + sizeof(struct origin) + ALIGNMENT - 1);
    if (block == NULL) return NULL;
    char *first = block + sizeof(struct origin) + ALIGNMENT - 1;
    char *start = first - (uintptr_t)first % ALIGNMENT;
    *origin_of(start) = (struct origin){.give_back = memory.give_back, .block = block, .size = size};
    return start;
}

void memory_given_back(void *start) {
    if (start != NULL) origin_of(start)->give_back(origin_of(start)->block);
}

void *memory_resized(void *start, size_t size) {
    void *other = memory_taken(size);
    if (other == NULL || start == NULL) return other;
    size_t old_size = origin_of(start)->size;
    memcpy(other, start, old_size < size ? old_size : size);
    memory_given_back(start);
    return other;
}
