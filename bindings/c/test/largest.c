/* The largest capacity: a cache of it works, or is refused since there is no memory, as on 32 bits; one key more is
 * refused before any is asked for. With an argument, which takes some 15 seconds, the cache works through more keys than
 * one table of the index has room for. */
#include "clock2q.h"

#include <stdio.h>

/* A key whose hash has bits in each half. */
static uint64_t key_of(uint64_t number) {
    return number << 40 | number;
}

/* Whether each of these keys, none of which is resident, takes the slot that it should: from `first` on, one after the
 * other, beginning again after `slots` of them. */
static bool take_slots(clock2q_cache *cache, uint64_t from, uint64_t to, size_t first, size_t slots) {
    for (uint64_t number = from; number < to; number++) {
        clock2q_place place;
        clock2q_enter(cache, key_of(number), &place);
        if (place.slot != first + (number - from) % slots) return false;
    }
    return true;
}

/* Keys that are new fill the cache, then take the slots of Small's keys in turn until the history is full. The oldest
 * key there is then forgotten, and the others come back one by one, each in place of Main's oldest key. */
static bool churns(clock2q_cache *cache, size_t capacity) {
    size_t small = capacity / 10, history = capacity / 2;
    uint64_t end = capacity + history + 1;
    return take_slots(cache, 0, capacity, 0, capacity) && take_slots(cache, capacity, end, 0, small) &&
           clock2q_len(cache) == capacity && take_slots(cache, 1, small, small, capacity - small) &&
           clock2q_contains(cache, key_of(1)) && !clock2q_contains(cache, key_of(0)) &&
           take_slots(cache, 0, 1, (history + 1) % small, small);
}

static bool works(size_t capacity, bool is_full) {
    clock2q_cache cache = CLOCK2Q_NONE;
    uint32_t status = clock2q_new(&cache, capacity);
    if (status == CLOCK2Q_NO_MEMORY) return puts("no memory"), cache.at == NULL;
    bool agrees = status == CLOCK2Q_DONE && clock2q_capacity(&cache) == capacity &&
                  (is_full ? churns(&cache, capacity) : take_slots(&cache, 0, 100000, 0, capacity));
    clock2q_free(&cache);
    return agrees;
}

int main(int count, char **arguments) {
    (void)arguments;
    clock2q_cache cache = CLOCK2Q_NONE;
    bool is_refused = clock2q_new(&cache, CLOCK2Q_MAX_CAPACITY + 1) == CLOCK2Q_BAD_CAPACITY && cache.at == NULL;
    return is_refused && works(1000, true) && works(CLOCK2Q_MAX_CAPACITY, count > 1) ? 0 : 1;
}
