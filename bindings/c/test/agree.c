/* agree [CALLS]: random calls of the library and of a plain model, at capacities 1, 2, 3, 10, 100 and
 * 1000. Ends with status 1 at the first answer that differs, or if the library has another version
 * than the header. */
#include "clock2q.h"
#include "model.h"

#include <stdio.h>

struct run {
    clock2q_cache cache;
    struct model model;
    size_t most; /* it doesn't grow from this capacity on */
    uint64_t *last; /* the key that entered each slot last */
    bool *has_last;
};

static uint64_t drawn = 88172645463325252u;

static uint64_t draw(void) {
    drawn ^= drawn << 13;
    drawn ^= drawn >> 7;
    drawn ^= drawn << 17;
    return drawn >> 8;
}

static bool enter(clock2q_cache *cache, uint64_t key, clock2q_place *place) {
    clock2q_enter(cache, key, place);
    return true;
}

/* Enters a key by clock2q_enter or clock2q_add. */
static bool enters_by(struct run *run, uint64_t key, bool (*call)(clock2q_cache *, uint64_t, clock2q_place *)) {
    clock2q_place place;
    memset(&place, 0xa5, sizeof place); /* no place, as memory that was never written may be none */
    bool is_new = model_slot(&run->model, key) == NOWHERE;
    size_t count = run->model.small.count + run->model.main.count;
    bool enters = call(&run->cache, key, &place);
    long slot = model_enter(&run->model, key);
    bool evicted = is_new && run->model.small.count + run->model.main.count == count;
    uint64_t last = evicted ? run->last[slot] : is_new ? 0 : key;
    bool agrees = enters && (long)place.slot == slot && place.has_last == (evicted || !is_new) && place.last == last
        && place.evicted == evicted;
    run->has_last[slot] = true;
    run->last[slot] = key;
    return agrees;
}

static bool adds(struct run *run, uint64_t key) {
    clock2q_place place = {77, 77, false, false};
    if (model_slot(&run->model, key) == NOWHERE) return enters_by(run, key, clock2q_add);
    return !clock2q_add(&run->cache, key, &place) && place.slot == 77 && place.last == 77;
}

static bool finds(struct run *run, uint64_t key) {
    size_t slot = 77;
    bool found = clock2q_find(&run->cache, key, &slot);
    long expected = model_slot(&run->model, key);
    model_hit(&run->model, key);
    return found == (expected != NOWHERE) && slot == (found ? (size_t)expected : 77);
}

static bool peeks(struct run *run, uint64_t key) {
    size_t slot = 77;
    bool found = clock2q_peek(&run->cache, key, &slot);
    long expected = model_slot(&run->model, key);
    return found == (expected != NOWHERE) && slot == (found ? (size_t)expected : 77);
}

static bool is_at(struct run *run, uint64_t key) {
    size_t slot = (size_t)(draw() % (run->model.capacity + 1));
    bool expected = model_slot(&run->model, key) == (long)slot;
    if (expected) model_hit(&run->model, key);
    return clock2q_at(&run->cache, slot, key) == expected;
}

/* The keys that have slots are found by those that entered the slots last. */
static bool goes_through(struct run *run) {
    size_t count = 0;
    for (size_t slot = 0; slot < run->model.capacity; slot++) {
        bool holds = run->has_last[slot] && clock2q_holds(&run->cache, slot, run->last[slot]);
        if (holds != (run->has_last[slot] && model_slot(&run->model, run->last[slot]) == (long)slot)) return false;
        count += holds;
    }
    return count == run->model.small.count + run->model.main.count;
}

static bool evicts(struct run *run) {
    clock2q_place place = {77, 77, false, false};
    uint64_t key = 77;
    long slot = 77;
    clock2q_place next = clock2q_next_victim(&run->cache);
    bool expected = model_evict(&run->model, &key, &slot);
    if (next.has_last != expected || next.evicted) return false;
    if (next.last != (expected ? key : 0) || (long)next.slot != (expected ? slot : 0)) return false;
    return clock2q_evict(&run->cache, &place) == expected && (long)place.slot == slot && place.last == key
        && place.has_last == expected && place.evicted == expected;
}

/* Has the cache grow by some slots, with the usual shares or with others. */
static bool grows(struct run *run) {
    struct shares to = usual_shares(run->model.capacity + (size_t)(draw() % 4));
    bool is_usual = draw() % 2 == 0;
    if (!is_usual) {
        to.small = run->model.small_share + (size_t)(draw() % 2);
        to.window = draw() % 2 == 0 ? run->model.window : to.small;
        to.history = to.capacity - (size_t)(draw() % 2);
    }
    bool fits = is_usual || (to.small < to.capacity && (to.small == 0) == (to.window == 0));
    bool expected = fits && model_may_grow(&run->model, to);
    uint32_t answer = is_usual ? clock2q_grow(&run->cache, to.capacity)
                               : clock2q_grow_with_history(&run->cache, to.capacity, to.small, to.window, to.history);
    if (answer != (expected ? CLOCK2Q_DONE : CLOCK2Q_BAD_POLICY)) return false;
    if (!expected) return true;
    run->last = enlarged(run->last, run->model.capacity, to.capacity, sizeof *run->last);
    run->has_last = enlarged(run->has_last, run->model.capacity, to.capacity, sizeof *run->has_last);
    model_grow(&run->model, to);
    return goes_through(run);
}

static bool counts(struct run *run) {
    size_t count = run->model.small.count + run->model.main.count;
    bool agrees = clock2q_len(&run->cache) == count && clock2q_capacity(&run->cache) == run->model.capacity;
    if (draw() % 256 == 0) {
        agrees = goes_through(run) && agrees;
        clock2q_clear(&run->cache);
        model_clear(&run->model);
        memset(run->has_last, 0, run->model.capacity);
        memset(run->last, 0, run->model.capacity * sizeof *run->last);
    }
    return agrees;
}

static bool call_agrees(struct run *run) {
    uint64_t key = draw() % (3 * run->model.capacity);
    unsigned kind = (unsigned)(draw() % 32);
    if (kind < 14) return enters_by(run, key, enter);
    if (kind < 16) return adds(run, key);
    if (kind < 24) return finds(run, key);
    if (kind < 27) return is_at(run, key);
    if (kind < 28) return peeks(run, key);
    if (kind < 29) return clock2q_contains(&run->cache, key) == (model_slot(&run->model, key) != NOWHERE);
    if (kind < 30) return evicts(run);
    if (kind < 31) return clock2q_remove(&run->cache, key) == model_remove(&run->model, key);
    if (run->model.capacity < run->most && draw() % 64 == 0) return grows(run);
    return counts(run);
}

static bool run_agrees(size_t capacity, size_t calls) {
    struct run run = {.cache = CLOCK2Q_NONE, .model = model_of(capacity), .most = capacity + capacity / 4 + 8};
    run.last = calloc(capacity, sizeof *run.last);
    run.has_last = calloc(capacity, sizeof *run.has_last);
    if (run.last == NULL || run.has_last == NULL || clock2q_new(&run.cache, capacity) != CLOCK2Q_DONE) return false;
    bool agrees = true;
    for (size_t i = 0; i < calls && agrees; i++) {
        agrees = call_agrees(&run);
        if (!agrees) printf("capacity %zu: call %zu differs\n", capacity, i);
    }
    clock2q_free(&run.cache);
    clock2q_free(&run.cache);
    model_free(&run.model);
    free(run.last);
    free(run.has_last);
    return agrees;
}

int main(int count, char **words) {
    static const size_t capacities[] = {1, 2, 3, 10, 100, 1000};
    size_t calls = count > 1 ? strtoull(words[1], NULL, 10) : 1000000;
    bool agrees = clock2q_version() == CLOCK2Q_VERSION;
    for (size_t i = 0; i < sizeof capacities / sizeof *capacities; i++) agrees = run_agrees(capacities[i], calls) && agrees;
    return agrees ? 0 : 1;
}
