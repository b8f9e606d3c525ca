/* bytes [CALLS]: random calls of a cache of byte strings and of a plain model of it, under one hash for all
 * keys, four hashes, and the cache's own; then keys of one hash by the thousand, each request for memory
 * refused, and known hashes. Ends with status 1 at the first answer that differs. */
#include "clock2q_bytes.h"
#include "model.h"

#include <stdio.h>
#include <time.h>

enum { MOST_ALIKE = 16, HASHES = 3, LONGEST = 32 };

struct run {
    clock2q_bytes cache;
    struct model model; /* its keys are tokens, as `code_of` numbers them */
    long *keys;         /* the number of the key at each slot, or NOWHERE */
    uint64_t *codes;    /* by slot */
    uint64_t number;
    unsigned kind; /* of the hash */
    size_t most;   /* it doesn't grow from this capacity on */
};

static uint64_t drawn = 88172645463325252u;

static uint64_t draw(void) {
    drawn ^= drawn << 13;
    drawn ^= drawn >> 7;
    drawn ^= drawn << 17;
    return drawn >> 8;
}

/* Returns a block that has a key and no byte more: none for 0, else up to LONGEST equal bytes. So many keys
 * are the beginning of others, or have zeros. The caller frees it. */
static unsigned char *key_of(long number, size_t *length) {
    *length = number == 0 ? 0 : 1 + (size_t)number % LONGEST;
    unsigned char *key = malloc(*length == 0 ? 1 : *length);
    if (key == NULL) abort();
    memset(key, (int)(number / LONGEST), *length);
    return key;
}

static void forget_key(unsigned char *key, size_t length) {
    memset(key, 0xa5, length);
    free(key);
}

static long number_of(const void *start, size_t length) {
    const unsigned char *bytes = start;
    return length == 0 ? 0 : (long)bytes[0] * LONGEST + (long)(length - 1);
}

static uint64_t hash_of(unsigned kind, long number) {
    return kind == 0 ? 5 : kind == 1 ? (uint64_t)number % 4 : (uint64_t)number;
}

static uint64_t hash_of_key(const void *kind, const void *key, size_t length) {
    return hash_of(*(const unsigned *)kind, number_of(key, length));
}

static uint64_t code_of(uint64_t hash, uint64_t number) {
    return hash << 32 | number;
}

/* Finds a key among those that the slots have, and how many have its hash. */
static long slot_of(const struct run *run, long number, size_t *alike) {
    long slot = NOWHERE;
    *alike = 0;
    for (size_t i = 0; i < run->model.capacity; i++) {
        if (run->keys[i] == number) slot = (long)i;
        if (run->keys[i] != NOWHERE && hash_of(run->kind, run->keys[i]) == hash_of(run->kind, number)) ++*alike;
    }
    return slot;
}

/* Whether a key that was written is that of the number, or none for NOWHERE. */
static bool is_shown(clock2q_bytes_key shown, long number) {
    if (number == NOWHERE) return shown.start == NULL && shown.length == 0;
    size_t length;
    unsigned char *key = key_of(number, &length);
    bool is_same = shown.start != NULL && shown.length == length && memcmp(shown.start, key, length) == 0;
    forget_key(key, length);
    return is_same;
}

/* Whether the model gives a new key this slot, and the key that left had it. */
static bool has_entered(struct run *run, long number, size_t alike, const clock2q_bytes_place *place) {
    uint64_t hash = hash_of(run->kind, number);
    if (place->slot >= run->model.capacity || !is_shown(place->left, run->keys[place->slot])) return false;
    if (alike > MOST_ALIKE) return false;
    if (alike == MOST_ALIKE) {
        if (run->keys[place->slot] == NOWHERE || hash_of(run->kind, run->keys[place->slot]) != hash) return false;
        model_remove(&run->model, run->codes[place->slot]);
    }
    uint64_t code = code_of(hash, alike == 0 ? 0 : ++run->number);
    run->keys[place->slot] = number;
    run->codes[place->slot] = code;
    return model_enter(&run->model, code) == (long)place->slot;
}

static bool enters(struct run *run, long number) {
    clock2q_bytes_place place;
    size_t alike, length;
    long slot = slot_of(run, number, &alike);
    memset(&place, 0xa5, sizeof place); /* no place, as memory that was never written may be none */
    unsigned char *key = key_of(number, &length);
    bool is_done = clock2q_bytes_enter(&run->cache, key, length, &place) == CLOCK2Q_DONE;
    forget_key(key, length);
    if (!is_done || place.has_entered != (slot == NOWHERE)) return false;
    if (slot == NOWHERE) return has_entered(run, number, alike, &place);
    model_hit(&run->model, run->codes[slot]);
    return (long)place.slot == slot && is_shown(place.left, NOWHERE);
}

static bool is_found(clock2q_found found, long slot) {
    return found.is_found == (slot != NOWHERE) && found.slot == (slot == NOWHERE ? 0 : (size_t)slot);
}

static bool finds(struct run *run, long number) {
    size_t alike, length;
    long slot = slot_of(run, number, &alike);
    unsigned char *key = key_of(number, &length);
    bool agrees = is_found(clock2q_bytes_peek(&run->cache, key, length), slot);
    if (draw() % 2 == 0) {
        if (slot != NOWHERE) model_hit(&run->model, run->codes[slot]);
        agrees = is_found(clock2q_bytes_find(&run->cache, key, length), slot) && agrees;
    }
    forget_key(key, length);
    return agrees;
}

/* Removes a key by its own copy, if it is there and the draw has it so. */
static bool removes(struct run *run, long number) {
    size_t alike, length;
    long slot = slot_of(run, number, &alike);
    unsigned char *key = key_of(number, &length);
    const void *start = slot != NOWHERE && draw() % 2 == 0 ? clock2q_bytes_key_at(&run->cache, (size_t)slot).start : key;
    bool agrees = is_found(clock2q_bytes_remove(&run->cache, start, length), slot);
    forget_key(key, length);
    if (slot != NOWHERE) {
        model_remove(&run->model, run->codes[slot]);
        run->keys[slot] = NOWHERE;
    } else if (alike == 0) {
        model_remove(&run->model, code_of(hash_of(run->kind, number), 0));
    }
    return agrees;
}

static bool evicts(struct run *run) {
    clock2q_bytes_place place = {.slot = 77};
    uint64_t code = 0;
    long slot = 77;
    bool expected = model_evict(&run->model, &code, &slot);
    if (clock2q_bytes_evict(&run->cache, &place) != expected || (long)place.slot != slot) return false;
    if (!expected) return true;
    long number = run->keys[slot];
    run->keys[slot] = NOWHERE;
    return !place.has_entered && number != NOWHERE && run->codes[slot] == code && is_shown(place.left, number);
}

static bool lists_keys(struct run *run) {
    for (size_t slot = 0; slot < run->model.capacity; slot++) {
        if (!is_shown(clock2q_bytes_key_at(&run->cache, slot), run->keys[slot])) return false;
    }
    return is_shown(clock2q_bytes_key_at(&run->cache, run->model.capacity + (size_t)draw()), NOWHERE);
}

static void forget_all(struct run *run) {
    for (size_t slot = 0; slot < run->model.capacity; slot++) run->keys[slot] = NOWHERE;
}

static bool clears(struct run *run) {
    clock2q_bytes_clear(&run->cache);
    model_clear(&run->model);
    forget_all(run);
    return clock2q_bytes_len(&run->cache) == 0;
}

/* Has the cache grow, after which each key is shown at its slot. */
static bool grows(struct run *run) {
    size_t before = run->model.capacity;
    struct shares to = usual_shares(before + (size_t)(draw() % 4));
    to.history = to.history > run->model.history_share ? to.history : run->model.history_share;
    bool is_usual = to.history == to.capacity / 2 && draw() % 2 == 0;
    if (!is_usual) to.history += to.history < to.capacity;
    uint32_t answer = is_usual ? clock2q_bytes_grow(&run->cache, to.capacity)
                               : clock2q_bytes_grow_with_history(&run->cache, to.capacity, to.small, to.window, to.history);
    if (answer != CLOCK2Q_DONE || !model_may_grow(&run->model, to)) return false;
    run->keys = enlarged(run->keys, before, to.capacity, sizeof *run->keys);
    run->codes = enlarged(run->codes, before, to.capacity, sizeof *run->codes);
    for (size_t slot = before; slot < to.capacity; slot++) run->keys[slot] = NOWHERE;
    model_grow(&run->model, to);
    return clock2q_bytes_capacity(&run->cache) == to.capacity && lists_keys(run);
}

static bool call_agrees(struct run *run) {
    long number = (long)(draw() % (3 * run->model.capacity));
    unsigned kind = (unsigned)(draw() % 64);
    size_t count = run->model.small.count + run->model.main.count;
    if (clock2q_bytes_len(&run->cache) != count || count > run->model.capacity) return false;
    if (kind < 40) return enters(run, number);
    if (kind < 56) return finds(run, number);
    if (kind < 60) return removes(run, number);
    if (kind < 62) return draw() % 16 != 0 || lists_keys(run);
    if (kind < 63) return evicts(run);
    if (run->model.capacity < run->most && draw() % 8 == 0) return grows(run);
    return draw() % 64 != 0 || clears(run);
}

/* Whether a hash is refused while there is a key, and taken again after it. */
static bool changes_hash(struct run *run) {
    clock2q_bytes_place place;
    bool has_entered = clock2q_bytes_enter(&run->cache, NULL, 0, &place) == CLOCK2Q_DONE;
    bool is_refused = !clock2q_bytes_use_hash(&run->cache, hash_of_key, &run->kind);
    bool was_there = clock2q_bytes_remove(&run->cache, NULL, 0).is_found;
    bool is_taken = run->kind == 2 || clock2q_bytes_use_hash(&run->cache, hash_of_key, &run->kind);
    clock2q_bytes_clear(&run->cache);
    return has_entered && is_refused && was_there && is_taken;
}

static bool run_agrees(size_t capacity, unsigned kind, size_t calls) {
    struct run run = {.cache = CLOCK2Q_BYTES_NONE, .model = model_of(capacity), .kind = kind};
    run.most = capacity + capacity / 4 + 8;
    run.keys = calloc(capacity, sizeof *run.keys);
    run.codes = calloc(capacity, sizeof *run.codes);
    if (run.keys == NULL || run.codes == NULL) return false;
    forget_all(&run);
    if (clock2q_bytes_new(&run.cache, capacity) != CLOCK2Q_DONE) return false;
    bool agrees = clock2q_bytes_capacity(&run.cache) == capacity && changes_hash(&run);
    for (size_t i = 0; i < calls && agrees; i++) {
        agrees = call_agrees(&run);
        if (!agrees) printf("capacity %zu, hash %u: call %zu differs\n", capacity, kind, i);
    }
    clock2q_bytes_free(&run.cache);
    clock2q_bytes_free(&run.cache);
    model_free(&run.model);
    free(run.keys);
    free(run.codes);
    return agrees;
}

/* Keys of one hash: an entry looks at sixteen at most, so that they take well under a second. */
static bool is_fast_if_crowded(void) {
    const unsigned kind = 0;
    clock2q_bytes cache = CLOCK2Q_BYTES_NONE;
    clock2q_bytes_place place = {.slot = 0};
    clock_t begun = clock();
    if (clock2q_bytes_new(&cache, 10000) != CLOCK2Q_DONE || !clock2q_bytes_use_hash(&cache, hash_of_key, &kind)) return false;
    for (uint32_t key = 0; key < 100000; key++) {
        if (clock2q_bytes_enter(&cache, &key, sizeof key, &place) != CLOCK2Q_DONE || !place.has_entered) return false;
    }
    bool is_fast = clock2q_bytes_len(&cache) == MOST_ALIKE && (clock() - begun) / CLOCKS_PER_SEC < 10;
    if (!is_fast) printf("keys of one hash are %zu, or take long\n", clock2q_bytes_len(&cache));
    clock2q_bytes_free(&cache);
    return is_fast;
}

/* Whether a key that left is there until the next one enters, also if all are removed. */
static bool keeps_what_left(void) {
    clock2q_bytes cache = CLOCK2Q_BYTES_NONE;
    clock2q_bytes_place place = {.slot = 0}, next = {.slot = 0};
    if (clock2q_bytes_new(&cache, 1) != CLOCK2Q_DONE) return false;
    bool agrees = clock2q_bytes_enter(&cache, "one", 3, &next) == CLOCK2Q_DONE;
    agrees = agrees && clock2q_bytes_enter(&cache, "two", 3, &place) == CLOCK2Q_DONE;
    clock2q_bytes_clear(&cache);
    agrees = agrees && place.left.length == 3 && memcmp(place.left.start, "one", 3) == 0;
    agrees = agrees && clock2q_bytes_enter(&cache, place.left.start, 3, &next) == CLOCK2Q_DONE && next.left.start == NULL;
    agrees = agrees && clock2q_bytes_len(&cache) == 1 && clock2q_bytes_find(&cache, "one", 3).is_found;
    clock2q_bytes_free(&cache);
    if (!agrees) printf("a key that left isn't there after clock2q_bytes_clear\n");
    return agrees;
}

static long left;   /* requests until one is refused; none is, below 0 */
static long blocks; /* that are taken */

static void *take(size_t size) {
    if (left == 0) return NULL;
    if (left > 0) left--;
    blocks++;
    return malloc(size);
}

static void give_back(void *block) {
    if (block != NULL) blocks--;
    free(block);
}

/* A key that left enters again, by the copy that the cache still has, after the first try has no memory. */
static bool enters_again(clock2q_bytes *cache) {
    clock2q_bytes_place place, again;
    const char *keys = "abcdefgh";
    for (size_t i = 0; i < 8; i++) {
        if (clock2q_bytes_enter(cache, keys + i, 1, &place) != CLOCK2Q_DONE) return false;
    }
    char key = place.left.start == NULL ? 0 : *(const char *)place.left.start;
    again = place;
    left = 0;
    if (clock2q_bytes_enter(cache, place.left.start, 1, &again) != CLOCK2Q_NO_MEMORY || again.slot != place.slot) return false;
    if (clock2q_bytes_len(cache) != 4 || clock2q_bytes_peek(cache, &key, 1).is_found || again.left.start != place.left.start) return false;
    left = 1;
    if (clock2q_bytes_enter(cache, place.left.start, 1, &again) != CLOCK2Q_DONE || !again.has_entered) return false;
    return *(const char *)clock2q_bytes_key_at(cache, again.slot).start == key;
}

/* A cache of four keys grows where it took its memory, and is as it was after each refusal. */
static bool grows_in_its_memory(clock2q_bytes *cache) {
    clock2q_bytes_key shown[4];
    for (size_t slot = 0; slot < 4; slot++) shown[slot] = clock2q_bytes_key_at(cache, slot);
    long granted = 0, before = blocks;
    left = -1;
    if (clock2q_bytes_grow(cache, 0) != CLOCK2Q_BAD_CAPACITY || clock2q_bytes_grow(cache, SIZE_MAX) != CLOCK2Q_BAD_CAPACITY) return false;
    if (clock2q_bytes_grow(cache, 3) != CLOCK2Q_BAD_POLICY || clock2q_bytes_grow(cache, 5) != CLOCK2Q_BAD_POLICY) return false;
    for (left = 0; clock2q_bytes_grow_with_history(cache, 40, 2, 1, 20) != CLOCK2Q_DONE; left = ++granted) {
        if (clock2q_bytes_capacity(cache) != 4 || clock2q_bytes_len(cache) != 4 || blocks != before) return false;
    }
    left = -1;
    bool agrees = granted > 1 && clock2q_bytes_capacity(cache) == 40 && blocks == before;
    for (size_t slot = 0; slot < 4; slot++) {
        clock2q_found found = clock2q_bytes_peek(cache, shown[slot].start, shown[slot].length);
        agrees = agrees && found.is_found && found.slot == slot && clock2q_bytes_key_at(cache, slot).start == shown[slot].start;
    }
    return agrees;
}

static bool refuses(void) {
    const clock2q_memory memory = {take, give_back};
    clock2q_bytes cache = CLOCK2Q_BYTES_NONE;
    long granted = 0;
    clock2q_use_memory(&memory);
    bool agrees = clock2q_bytes_new(&cache, 0) == CLOCK2Q_BAD_CAPACITY && clock2q_bytes_with_policy(&cache, 10, 10, 1) == CLOCK2Q_BAD_POLICY;
    for (left = 0; agrees && clock2q_bytes_with_policy(&cache, 4, 2, 1) != CLOCK2Q_DONE; left = ++granted) {
        agrees = clock2q_bytes_new(&cache, 4) == CLOCK2Q_NO_MEMORY && cache.at == NULL && blocks == 0 && granted < 13;
    }
    left = -1;
    agrees = agrees && clock2q_use_memory(NULL).take == take && enters_again(&cache) && grows_in_its_memory(&cache);
    clock2q_bytes_free(&cache);
    if (!agrees || blocks != 0) printf("refusals differ, or %ld blocks are left\n", blocks);
    return agrees && blocks == 0;
}

/* Hashes of the bytes 1, 4, 7 and so on: Rust's DefaultHasher has the secret 0, and Python's hash() has the
 * other one if PYTHONHASHSEED is 1. */
static bool hashes_are_known(void) {
    static const uint64_t none[2] = {0, 0}, python[2] = {UINT64_C(0xAED66CE184BE2329), UINT64_C(0xEBE9BBF1F1499052)};
    static const struct {
        const uint64_t *secret;
        size_t length;
        uint64_t hash;
    } known[] = {
        {none, 0, UINT64_C(0xD1FBA762150C532C)},      {none, 1, UINT64_C(0x44BC103B1F8540ED)},
        {none, 7, UINT64_C(0x1F5A245B08918F0B)},      {none, 8, UINT64_C(0x9723C294A9707628)},
        {none, 15, UINT64_C(0x401D9E07D0ADBD7A)},     {none, 64, UINT64_C(0xDF17711D756A61CA)},
        {python, 8, UINT64_C(3671093907177661954)},   {python, 15, UINT64_C(2970086578293993897)},
        {python, 16, UINT64_C(13049614560525302565)}, {python, 63, UINT64_C(3702564769292803335)},
    };
    unsigned char bytes[64];
    for (size_t i = 0; i < sizeof bytes; i++) bytes[i] = (unsigned char)(3 * i + 1);
    for (size_t i = 0; i < sizeof known / sizeof *known; i++) {
        if (clock2q_bytes_siphash(known[i].secret, bytes, known[i].length) == known[i].hash) continue;
        printf("the hash of %zu bytes differs\n", known[i].length);
        return false;
    }
    return true;
}

int main(int count, char **arguments) {
    size_t calls = count > 1 ? strtoul(arguments[1], NULL, 10) : 100000;
    const size_t capacities[] = {1, 2, 3, 10, 100, 1000};
    bool agrees = refuses() && keeps_what_left() && hashes_are_known() && is_fast_if_crowded();
    for (size_t i = 0; i < sizeof capacities / sizeof *capacities; i++) {
        for (unsigned kind = 0; kind < HASHES; kind++) {
            agrees = run_agrees(capacities[i], kind, capacities[i] == 1000 ? calls / 10 : calls) && agrees;
        }
    }
    return agrees ? 0 : 1;
}
