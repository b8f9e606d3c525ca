/* tokens [CALLS]: keys of this test's own in a cache of tokens, compared with a plain model of the
 * tokens, under one hash for all keys, four hashes, and one for each. Ends with status 1 at the first
 * answer that differs. */
#include "clock2q.h"
#include "model.h"

#include <stdio.h>

enum { MOST_ALIKE = 16, HASHES = 3 };

struct run {
    clock2q_tokens cache;
    struct model model; /* its keys are tokens, as `code_of` numbers them */
    uint64_t *keys;     /* by slot */
    uint64_t *codes;    /* by slot */
    bool *is_used;      /* by slot */
    uint64_t number;
    unsigned kind; /* of the hash */
    size_t most;   /* it doesn't grow from this capacity on */
};

static uint64_t drawn = 88172645463325252u;

static uint64_t draw(void) {
    drawn ^= drawn << 13;
    drawn ^= drawn >> 7;
    drawn ^= drawn << 17;
    return drawn >> 8;
}

static uint64_t hash_of(const struct run *run, uint64_t key) {
    return run->kind == 0 ? 5 : run->kind == 1 ? key % 4 : key;
}

static uint64_t code_of(uint64_t hash, uint64_t number) {
    return hash << 32 | number;
}

/* Finds the slot of a key, and how many keys of its hash were looked at. */
static clock2q_found look(struct run *run, uint64_t key, size_t *nth) {
    uint64_t hash = clock2q_spread(hash_of(run, key));
    clock2q_found found = {0, false};
    for (*nth = 0; (found = clock2q_tokens_seek(&run->cache, hash, *nth)).is_found; ++*nth) {
        if (run->keys[found.slot] == key) break;
    }
    return found;
}

/* Whether the slots that are listed for a hash are those of the model's tokens of this hash, each once. */
static bool lists_are_right(struct run *run, uint64_t key) {
    uint64_t hash = hash_of(run, key);
    size_t listed = 0, residents = 0;
    uint64_t sum = 0, expected = 0;
    for (clock2q_found found; (found = clock2q_tokens_seek(&run->cache, clock2q_spread(hash), listed)).is_found; listed++) {
        if (found.slot >= run->model.capacity || !run->is_used[found.slot]) return false;
        sum += (found.slot + 1) * (found.slot + 7);
    }
    for (size_t slot = 0; slot < run->model.capacity; slot++) {
        if (!run->is_used[slot] || run->codes[slot] >> 32 != hash) continue;
        residents++;
        expected += (slot + 1) * (slot + 7);
    }
    return listed == residents && sum == expected && !clock2q_tokens_seek(&run->cache, clock2q_spread(hash), listed + 9).is_found;
}

static bool removes(struct run *run, size_t slot) {
    bool expected = run->is_used[slot];
    if (expected) model_remove(&run->model, run->codes[slot]);
    run->is_used[slot] = false;
    return clock2q_tokens_remove(&run->cache, slot) == expected;
}

static bool evicts(struct run *run) {
    uint64_t code = 0;
    long slot = 0;
    bool expected = model_evict(&run->model, &code, &slot);
    clock2q_found next = clock2q_tokens_next_victim(&run->cache);
    if (next.is_found != expected || (long)next.slot != slot) return false;
    clock2q_found found = clock2q_tokens_evict(&run->cache);
    if (found.is_found != expected || (long)found.slot != slot) return false;
    if (!expected) return true;
    bool is_its = run->is_used[slot] && run->codes[slot] == code;
    run->is_used[slot] = false;
    return is_its;
}

static bool enters(struct run *run, uint64_t key) {
    uint64_t hash = hash_of(run, key);
    size_t nth;
    clock2q_found found = look(run, key, &nth);
    if (found.is_found) {
        model_hit(&run->model, run->codes[found.slot]);
        return clock2q_tokens_hit(&run->cache, found.slot);
    }
    if (nth >= MOST_ALIKE && !removes(run, clock2q_tokens_seek(&run->cache, clock2q_spread(hash), nth - 1).slot)) return false;
    uint64_t number = 0;
    clock2q_admitted admitted = clock2q_tokens_admit(&run->cache, clock2q_spread(hash));
    if (admitted.has_entered != (nth == 0)) return false;
    if (!admitted.has_entered) {
        number = ++run->number;
        admitted.slot = clock2q_tokens_enter(&run->cache, clock2q_spread(hash), number);
    }
    uint64_t code = code_of(hash, number);
    if ((long)admitted.slot != model_enter(&run->model, code)) return false;
    run->keys[admitted.slot] = key;
    run->codes[admitted.slot] = code;
    run->is_used[admitted.slot] = true;
    return true;
}

static bool clears(struct run *run) {
    clock2q_tokens_clear(&run->cache);
    model_clear(&run->model);
    memset(run->is_used, 0, run->model.capacity);
    return clock2q_tokens_len(&run->cache) == 0;
}

/* Has the cache grow, with shares that a larger one may have later. */
static bool grows(struct run *run) {
    size_t before = run->model.capacity;
    struct shares to = usual_shares(before + (size_t)(draw() % 4));
    to.history = to.history > run->model.history_share ? to.history : run->model.history_share;
    bool is_usual = to.history == to.capacity / 2, expected = model_may_grow(&run->model, to);
    uint32_t answer = is_usual && draw() % 2 == 0
        ? clock2q_tokens_grow(&run->cache, to.capacity)
        : clock2q_tokens_grow_with_history(&run->cache, to.capacity, to.small, to.window, to.history);
    if (!expected || answer != CLOCK2Q_DONE || clock2q_tokens_capacity(&run->cache) != to.capacity) return false;
    run->keys = enlarged(run->keys, before, to.capacity, sizeof *run->keys);
    run->codes = enlarged(run->codes, before, to.capacity, sizeof *run->codes);
    run->is_used = enlarged(run->is_used, before, to.capacity, sizeof *run->is_used);
    model_grow(&run->model, to);
    return clock2q_tokens_grow(&run->cache, to.capacity - 1) != CLOCK2Q_DONE;
}

static bool call_agrees(struct run *run) {
    uint64_t key = draw() % (3 * run->model.capacity);
    unsigned kind = (unsigned)(draw() % 64);
    size_t count = run->model.small.count + run->model.main.count;
    if (clock2q_tokens_len(&run->cache) != count || count > run->model.capacity) return false;
    if (kind < 40) return enters(run, key);
    if (kind < 50) {
        size_t slot = (size_t)(draw() % run->model.capacity);
        if (run->is_used[slot]) model_hit(&run->model, run->codes[slot]);
        return clock2q_tokens_hit(&run->cache, slot) == run->is_used[slot];
    }
    if (kind < 53) return evicts(run);
    if (kind < 56) return removes(run, (size_t)(draw() % run->model.capacity));
    if (kind < 63) return lists_are_right(run, key);
    if (run->model.capacity < run->most && draw() % 8 == 0) return grows(run);
    return draw() % 64 != 0 || clears(run);
}

static bool run_agrees(size_t capacity, unsigned kind, size_t calls) {
    struct run run = {.cache = CLOCK2Q_TOKENS_NONE, .model = model_of(capacity), .kind = kind};
    run.most = capacity + capacity / 4 + 8;
    run.keys = calloc(capacity, sizeof *run.keys);
    run.codes = calloc(capacity, sizeof *run.codes);
    run.is_used = calloc(capacity, sizeof *run.is_used);
    if (run.keys == NULL || run.codes == NULL || run.is_used == NULL) return false;
    if (clock2q_tokens_new(&run.cache, capacity) != CLOCK2Q_DONE) return false;
    bool agrees = clock2q_tokens_capacity(&run.cache) == capacity && !clock2q_tokens_hit(&run.cache, capacity);
    for (size_t i = 0; i < calls && agrees; i++) {
        agrees = call_agrees(&run);
        if (!agrees) printf("capacity %zu, hash %u: call %zu differs\n", capacity, kind, i);
    }
    clock2q_tokens_free(&run.cache);
    model_free(&run.model);
    free(run.keys);
    free(run.codes);
    free(run.is_used);
    return agrees;
}

static bool refuses(void) {
    clock2q_tokens cache = CLOCK2Q_TOKENS_NONE;
    return clock2q_tokens_new(&cache, 0) == CLOCK2Q_BAD_CAPACITY &&
           clock2q_tokens_with_policy(&cache, 10, 10, 1) == CLOCK2Q_BAD_POLICY && cache.at == NULL;
}

int main(int count, char **arguments) {
    size_t calls = count > 1 ? strtoul(arguments[1], NULL, 10) : 100000;
    const size_t capacities[] = {1, 2, 3, 10, 100, 1000};
    bool agrees = refuses();
    for (size_t i = 0; i < sizeof capacities / sizeof *capacities; i++) {
        for (unsigned kind = 0; kind < HASHES; kind++) {
            agrees = run_agrees(capacities[i], kind, capacities[i] == 1000 ? calls / 10 : calls) && agrees;
        }
    }
    return agrees ? 0 : 1;
}
