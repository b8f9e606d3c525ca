/* Capacities and shares that can't be had, and each request for memory refused in turn. This file
 * has a malloc of its own, so nothing else of the program asks for memory. */
#include "clock2q.h"

#include <stdio.h>
#include <stdlib.h>

void *__real_malloc(size_t size);
void *__wrap_malloc(size_t size);
void __real_free(void *block);
void __wrap_free(void *block);

static long left;     /* requests until one is refused; none is, below 0 */
static long blocks;   /* that are taken */
static long requests; /* that were made */

void *__wrap_malloc(size_t size) {
    requests++;
    if (left == 0) return NULL;
    if (left > 0) left--;
    blocks++;
    return __real_malloc(size);
}

void __wrap_free(void *block) {
    if (block != NULL) blocks--;
    __real_free(block);
}

static int failed;

static void must(bool holds, const char *what) {
    if (holds) return;
    printf("refused: %s\n", what);
    failed = 1;
}

static void bad_numbers(void) {
    clock2q_cache cache = CLOCK2Q_NONE;
    left = -1;
    requests = 0;
    must(clock2q_new(&cache, 0) == CLOCK2Q_BAD_CAPACITY, "capacity 0");
    must(clock2q_new(&cache, CLOCK2Q_MAX_CAPACITY + 1) == CLOCK2Q_BAD_CAPACITY, "capacity too large");
    must(clock2q_with_policy(&cache, 0, 0, 0) == CLOCK2Q_BAD_CAPACITY, "capacity 0 with shares");
    must(clock2q_with_policy(&cache, 10, 10, 1) == CLOCK2Q_BAD_POLICY, "no slot for Main");
    must(clock2q_with_policy(&cache, 10, 2, 3) == CLOCK2Q_BAD_POLICY, "a window longer than Small");
    must(clock2q_with_policy(&cache, 10, 2, 0) == CLOCK2Q_BAD_POLICY, "a share without a window");
    must(clock2q_with_history(&cache, 10, 2, 1, 11) == CLOCK2Q_BAD_POLICY, "a history longer than the cache");
    must(cache.at == NULL, "no cache");
    must(requests == 0, "no memory is asked for");
    must(clock2q_with_history(&cache, 10, 3, 2, 6) == CLOCK2Q_DONE, "a cache");
    requests = 0;
    must(clock2q_grow(&cache, 0) == CLOCK2Q_BAD_CAPACITY, "growth to no capacity");
    must(clock2q_grow(&cache, CLOCK2Q_MAX_CAPACITY + 1) == CLOCK2Q_BAD_CAPACITY, "growth to one too large");
    must(clock2q_grow_with_history(&cache, SIZE_MAX, 3, 2, 6) == CLOCK2Q_BAD_CAPACITY, "with shares");
    must(clock2q_grow(&cache, 10) == CLOCK2Q_BAD_POLICY, "fewer slots for new keys");
    must(clock2q_grow_with_history(&cache, 9, 3, 2, 6) == CLOCK2Q_BAD_POLICY, "fewer for others");
    must(clock2q_grow_with_history(&cache, 12, 3, 1, 6) == CLOCK2Q_BAD_POLICY, "a shorter window");
    must(clock2q_grow_with_history(&cache, 12, 3, 2, 5) == CLOCK2Q_BAD_POLICY, "a shorter history");
    must(clock2q_grow_with_history(&cache, 12, 3, 2, 13) == CLOCK2Q_BAD_POLICY, "one longer than the cache");
    must(clock2q_capacity(&cache) == 10 && requests == 0, "nothing has changed, and no memory is asked for");
    clock2q_free(&cache);
}

static void no_memory(void) {
    clock2q_cache cache = CLOCK2Q_NONE;
    long granted = 0;
    for (;; granted++) {
        left = granted;
        blocks = 0;
        if (clock2q_new(&cache, 100) == CLOCK2Q_DONE) break;
        must(cache.at == NULL && blocks == 0, "memory is kept after a refusal");
        left = granted;
        must(clock2q_with_policy(&cache, 100, 10, 5) == CLOCK2Q_NO_MEMORY, "shares without memory");
        must(cache.at == NULL && blocks == 0, "memory is kept after a refusal with shares");
    }
    must(granted >= 1 && granted <= 12, "at most twelve requests");
    left = 0;
    clock2q_place place;
    for (uint64_t key = 0; key < 1000; key++) clock2q_enter(&cache, key, &place);
    must(clock2q_len(&cache) == 100, "no call takes memory");
    clock2q_free(&cache);
    must(blocks == 0, "all memory is given back");
    left = -1;
    must(clock2q_with_policy(&cache, 100, 10, 5) == CLOCK2Q_DONE, "a cache with shares");
    clock2q_free(&cache);
    must(blocks == 0, "all memory of a cache with shares is given back");
}

/* Whether the keys from 50 to 99, of the slots from 50 on, are there, and no other has a slot. */
static bool has_all(clock2q_cache *cache) {
    for (uint64_t key = 0; key < 100; key++) {
        if (clock2q_holds(cache, (size_t)key, key) != (key >= 50)) return false;
    }
    return clock2q_len(cache) == 50;
}

static void no_memory_to_grow(void) {
    clock2q_cache cache = CLOCK2Q_NONE;
    left = -1;
    blocks = 0;
    must(clock2q_new(&cache, 100) == CLOCK2Q_DONE, "a cache");
    for (uint64_t key = 0; key < 100; key++) clock2q_enter_key(&cache, key);
    for (uint64_t key = 0; key < 50; key++) clock2q_remove(&cache, key);
    long granted = 0;
    for (left = 0; clock2q_grow(&cache, 200) != CLOCK2Q_DONE; left = ++granted) {
        must(clock2q_capacity(&cache) == 100 && has_all(&cache), "a refusal changes nothing");
    }
    must(granted >= 1 && granted <= 12, "at most twelve requests to grow");
    must(clock2q_capacity(&cache) == 200 && has_all(&cache), "the keys stay at their slots");
    left = 0;
    for (uint64_t key = 100; key < 1000; key++) clock2q_enter_key(&cache, key);
    must(clock2q_len(&cache) == 200, "no call takes memory after that");
    clock2q_free(&cache);
    must(blocks == 0, "all memory is given back");
}

static long own_taken, own_given_back;
static size_t own_bytes;

static void *own_take(size_t size) {
    own_taken++;
    own_bytes += size;
    return __real_malloc(size);
}

static void own_give_back(void *block) {
    own_given_back++;
    __real_free(block);
}

static void own_memory(void) {
    const clock2q_memory memory = {own_take, own_give_back};
    clock2q_cache cache = CLOCK2Q_NONE;
    left = 0;
    clock2q_use_memory(&memory);
    must(clock2q_new(&cache, 100) == CLOCK2Q_DONE, "no memory of malloc is asked for");
    must(clock2q_use_memory(NULL).take == own_take, "where memory came from before");
    must(own_taken > 0 && own_given_back == 0, "a cache in the program's memory");
    must(own_bytes <= 170 * 100, "at most 170 bytes a key, as the header says");
    clock2q_free(&cache);
    must(own_given_back == own_taken, "memory goes back where it came from");
    must(clock2q_new(&cache, 100) == CLOCK2Q_NO_MEMORY, "malloc's memory again");
}

int main(void) {
    bad_numbers();
    no_memory();
    no_memory_to_grow();
    own_memory();
    left = -1;
    return failed;
}
