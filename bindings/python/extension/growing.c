/* More slots for a cache than it was made with. */
#include "pairs.h"

/* Makes an array by slot larger, of which the elements that are new are 0, and returns it. Returns NULL with an exception,
 * and the array as it was, if there is no memory. */
static void *enlarged(void *array, size_t before, size_t count, size_t size) {
    char *larger = PyMem_Realloc(array, count * size);
    if (larger == NULL) return PyErr_NoMemory();
    memset(larger + before * size, 0, (count - before) * size);
    return larger;
}

/* Makes room for more pairs, if the cache has any. Returns -1 with an exception if there is no memory. */
static int enlarge_pairs(Cache *cache, size_t capacity) {
    size_t before = cache->capacity;
    if (cache->pairs == NULL) return 0;
    pair *pairs = enlarged(cache->pairs, before, capacity, sizeof *pairs);
    if (pairs == NULL) return -1;
    cache->pairs = pairs;
    if (cache->weights != NULL) {
        uint64_t *weights = enlarged(cache->weights, before, capacity, sizeof *weights);
        if (weights == NULL) return -1;
        cache->weights = weights;
    }
    if (cache->deadlines != NULL) {
        double *deadlines = enlarged(cache->deadlines, before, capacity, sizeof *deadlines);
        if (deadlines == NULL) return -1;
        cache->deadlines = deadlines;
    }
    return 0;
}

int grow_pairs(Cache *cache, size_t maxsize) {
    if (enlarge_pairs(cache, maxsize) < 0 || grow_slots(cache, maxsize) < 0) return -1;
    cache->capacity = cache->maxsize = maxsize;
    cache->version++; /* so a look-up that is under way begins again: those of its hash have another order now */
    set_plainness(cache);
    return 0;
}
