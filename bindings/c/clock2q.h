/* clock2q: a proved cache of fixed capacity with Clock2Q+ replacement, for C and C++.
 *
 * A cache gives each key of 64 bits a slot, a number below its capacity, and chooses which key has
 * to leave when a new one comes. What a key means is yours: keep it in arrays of `capacity`
 * elements, at the key's slot.
 *
 *     clock2q_cache cache = CLOCK2Q_NONE;
 *     if (clock2q_new(&cache, 1000) != CLOCK2Q_DONE) return 1;
 *     clock2q_place place;
 *     clock2q_enter(&cache, page, &place);
 *     if (!clock2q_has(&place, page)) read_page(page, frames[place.slot]);
 *     use(frames[place.slot]);
 *     clock2q_free(&cache);
 *
 * All memory is taken when a cache is made or grows: no other call takes any, and none fails.
 *
 * Keys are hashed with a fixed seed, so whoever chooses them can choose ones that collide, which
 * makes calls slow. If strangers do, scramble the keys with a secret.
 *
 * What you owe, since no proof reaches across this border:
 * - A `clock2q_cache` begins as CLOCK2Q_NONE. While there is a cache in it, it isn't copied, read or
 *   written, but by the calls below; it may be moved, if CLOCK2Q_NONE is left in its place.
 * - A call that says "needs a cache" is made only if there is one. Without NDEBUG that is asserted
 *   here.
 * - No pointer that is passed is null. What is written through one may have held anything before.
 * - One thread at a time uses a cache: no two calls on it overlap, not even two that only read. It
 *   may go to another thread by a lock, a start or a join: nothing in a cache is bound to the thread
 *   that made it. Under -fsanitize=thread calls that may overlap are reported.
 * - No call is made from a signal handler, or in a child of fork() whose parent had other threads. */
#ifndef CLOCK2Q_H
#define CLOCK2Q_H

#include <assert.h>
#include <stdbool.h>
#include <stddef.h>
#include <stdint.h>

#ifdef __cplusplus
extern "C" {
#endif

/* The version of this header: 10,000 times the major number, 100 times the minor one and the patch. */
#define CLOCK2Q_VERSION 300

/* The largest capacity. */
#define CLOCK2Q_MAX_CAPACITY 16777215

/* A cache, or none. */
typedef struct {
    void *at;
} clock2q_cache;

#define CLOCK2Q_NONE {0}

/* What clock2q_new, clock2q_with_policy and clock2q_with_history answer, and the calls by which a cache grows. Only
 * after CLOCK2Q_DONE there is a cache, or it has grown. */
enum {
    CLOCK2Q_DONE = 0,
    CLOCK2Q_NO_MEMORY = 1,    /* a request was refused; of a cache that isn't made nothing is kept */
    CLOCK2Q_BAD_CAPACITY = 2, /* 0, or above CLOCK2Q_MAX_CAPACITY; no memory was asked for */
    CLOCK2Q_BAD_POLICY = 3    /* the shares don't fit together, or to those before; no memory was asked for */
};

/* Where a key is, and which key had that slot until this call: the same one after a hit. */
typedef struct {
    size_t slot;   /* below the capacity */
    uint64_t last; /* 0 if no key had the slot */
    bool has_last;
    bool evicted; /* whether `last` is another key, which lost the slot */
} clock2q_place;

/* The slot of a key, if it has one. */
typedef struct {
    size_t slot; /* 0 if it has none */
    bool is_found;
} clock2q_found;

/* Where memory comes from. `take` returns null, or a block of `size` bytes that is aligned as a
 * pointer is, and `give_back` gets what `take` returned. Neither of them calls this library. */
typedef struct {
    void *(*take)(size_t size);
    void (*give_back)(void *block);
} clock2q_memory;

/* Has the caches that this thread makes or grows from now on take their memory there, or from malloc again if
 * `memory` is null. Returns where they took it before. What a cache took goes back where it came
 * from, whoever frees it. */
clock2q_memory clock2q_use_memory(const clock2q_memory *memory);

/* Returns the version of the library, as CLOCK2Q_VERSION is that of the header. */
uint32_t clock2q_version(void);

/* Makes a cache for `capacity` keys. Needs none there. Takes time and memory in proportion to the
 * capacity, 65 to 148 bytes a key from 100 keys on, in at most twelve requests. */
uint32_t clock2q_new(clock2q_cache *cache, size_t capacity);

/* Makes a cache of which `small` slots are for new keys, each young until `window` more were
 * admitted. Needs none there. CLOCK2Q_BAD_POLICY unless small < capacity, window <= small, and both
 * or neither of them are 0. Costs what clock2q_new does. */
uint32_t clock2q_with_policy(clock2q_cache *cache, size_t capacity, size_t small, size_t window);

/* Makes a cache as clock2q_with_policy does, which remembers up to `history` evicted keys in place of
 * half the capacity: with capacity - small of them a full cache admits every loop of new keys that fits
 * beside the keys that were hit. CLOCK2Q_BAD_POLICY also if history > capacity. */
uint32_t clock2q_with_history(clock2q_cache *cache, size_t capacity, size_t small, size_t window,
                              size_t history);

/* Raises the capacity of a cache to `capacity` keys, with the shares of clock2q_new. No key leaves: each keeps
 * its slot, its hits and its turn to leave, and keys that left stay remembered. CLOCK2Q_BAD_POLICY if the
 * slots for new keys, those for others, the window or the history would be fewer than they are, as in
 * a smaller cache. Unless CLOCK2Q_DONE is answered the cache is as it was. Needs a cache. Takes time in
 * proportion to the capacity, and meanwhile memory for both of them; hashes no key. */
uint32_t clock2q_grow(clock2q_cache *cache, size_t capacity);

/* Does so with the shares of clock2q_with_history, which have to fit together as there. */
uint32_t clock2q_grow_with_history(clock2q_cache *cache, size_t capacity, size_t small, size_t window,
                                   size_t history);

/* Finds the slot of a key and records a hit, or gives the key a slot, which another key may lose.
 * Returns where it is; clock2q_enter below writes that instead. Needs a cache. Costs one hash;
 * without a hit at most 29 accesses to the queues, and one for each key that the hand passes over. */
clock2q_place clock2q_enter_key(clock2q_cache *cache, uint64_t key);

/* Finds the slot of a key and records a hit, if the key has one; clock2q_find below writes the slot
 * instead. Needs a cache. Costs one hash. */
clock2q_found clock2q_find_key(clock2q_cache *cache, uint64_t key);

/* Returns true, after a hit, if the key is at this slot; any number will do. Needs a cache. Costs
 * no hash. */
bool clock2q_at(clock2q_cache *cache, size_t slot, uint64_t key);

/* Returns true if the key has a slot, and records nothing. Needs a cache. Costs one hash. */
bool clock2q_contains(clock2q_cache *cache, uint64_t key);

/* Finds the slot of a key, if it has one, and records nothing; clock2q_peek below writes the slot instead.
 * clock2q_holds below goes through all of them. Needs a cache. Costs one hash. */
clock2q_found clock2q_peek_key(clock2q_cache *cache, uint64_t key);

/* Takes the slot of a key away and returns true. A key that has none is forgotten, if it was
 * remembered. Needs a cache. Costs one hash and at most 8 accesses to the queues. */
bool clock2q_remove(clock2q_cache *cache, uint64_t key);

/* Takes the slot away from the key that leaves next, and returns its place: `slot` was its slot, `last`
 * is the key, `has_last` and `evicted` are true. If no key has a slot, all of them are 0 or false.
 * clock2q_evict below writes that instead. In a full cache it is the key that a new one would make leave;
 * the next key that takes a free slot takes this one. Needs a cache. Costs no hash, at most 19 accesses to the
 * queues, and one for each key that the hand passes over. */
clock2q_place clock2q_evict_key(clock2q_cache *cache);

/* Returns the place that clock2q_evict_key would return, but for `evicted`, which is false, and changes
 * nothing. If no key has a slot, all of it is 0 or false. Needs a cache. Costs no hash, and a step for each
 * key that the hand would pass over, at each call. */
clock2q_place clock2q_next_victim(clock2q_cache *cache);

/* Takes all slots away, and forgets all keys. Needs a cache. Takes time in proportion to the
 * capacity. */
void clock2q_clear(clock2q_cache *cache);

/* Returns how many keys have a slot. Needs a cache. */
size_t clock2q_len(clock2q_cache *cache);

/* Returns how many keys can have a slot. Needs a cache. */
size_t clock2q_capacity(clock2q_cache *cache);

/* Frees a cache that nobody uses from then on. Needs a cache. clock2q_free is easier to call. */
void clock2q_release(clock2q_cache cache);

/* Tokens: a cache of keys of your own type. It is given a key's hash in place of the key, and you
 * compare your keys, at the slots of that hash:
 *
 *     clock2q_found found;
 *     for (size_t nth = 0; (found = clock2q_tokens_seek(&cache, hash, nth)).is_found; nth++) {
 *         if (same_key(keys[found.slot], key)) break;
 *     }
 *     if (found.is_found) clock2q_tokens_hit(&cache, found.slot);
 *     else found.slot = clock2q_tokens_enter(&cache, hash, nth == 0 ? 0 : ++number);
 *     keys[found.slot] = key;
 *
 * A token is a hash and a number. Each token has a slot of its own, so keys of one hash do too. What
 * you owe besides the above:
 * - The number is 0 if no token with this hash has a slot, and one that was never used before if one
 *   has. So a key that comes back is known by its hash, and keys of one hash don't share a slot.
 * - A key that enters takes the place of the key that you kept at its slot, if there is one: it has
 *   left the cache.
 * - Hashes are well spread, in their low bits and in the highest eight: clock2q_spread makes them so.
 *   They choose where a key is looked for, never what is found. If strangers choose keys, hash them
 *   with a secret, or spread their hashes with clock2q_spread_by.
 * - Few keys of one hash: a walk over them takes time in proportion to the square of their number.
 *   From sixteen on remove one before the next enters.
 * - Between a walk and the call that it leads to, no other call is made on the cache. If a comparison
 *   may make one, begin the walk again. */
typedef struct {
    void *at;
} clock2q_tokens;

#define CLOCK2Q_TOKENS_NONE {0}

/* A slot, and whether a token has just entered it. */
typedef struct {
    size_t slot; /* below the capacity */
    bool has_entered;
} clock2q_admitted;

/* Makes a cache for `capacity` tokens, as clock2q_new, clock2q_with_policy and clock2q_with_history do. */
uint32_t clock2q_tokens_new(clock2q_tokens *cache, size_t capacity);
uint32_t clock2q_tokens_with_policy(clock2q_tokens *cache, size_t capacity, size_t small, size_t window);
uint32_t clock2q_tokens_with_history(clock2q_tokens *cache, size_t capacity, size_t small, size_t window,
                                     size_t history);

/* Raise the capacity to `capacity` tokens, as clock2q_grow and clock2q_grow_with_history do. They need a cache. */
uint32_t clock2q_tokens_grow(clock2q_tokens *cache, size_t capacity);
uint32_t clock2q_tokens_grow_with_history(clock2q_tokens *cache, size_t capacity, size_t small, size_t window,
                                          size_t history);

/* Finds the slot that comes after `nth` others among those of the tokens with this hash. Each of them
 * is found for one `nth`, and nothing else; their order is the same until a token enters or leaves, or
 * the cache grows. Records nothing. Needs a cache. */
clock2q_found clock2q_tokens_seek(clock2q_tokens *cache, uint64_t hash, size_t nth);

/* Records a hit on the token at this slot and returns true, if there is one; any number will do.
 * Needs a cache. */
bool clock2q_tokens_hit(clock2q_tokens *cache, size_t slot);

/* Gives the token of this hash and the number 0 a slot, which another token may lose, if no token with
 * this hash has one. Otherwise returns the slot that clock2q_tokens_seek finds first, and records
 * nothing. Needs a cache. Costs what clock2q_enter_key does. */
clock2q_admitted clock2q_tokens_admit(clock2q_tokens *cache, uint64_t hash);

/* Gives the token of this hash and this number a slot, which another token may lose, and returns it.
 * Needs a cache. Costs what clock2q_enter_key does. */
size_t clock2q_tokens_enter(clock2q_tokens *cache, uint64_t hash, uint64_t number);

/* Takes the slot away from its token and returns true, if it has one; any number will do. Needs a
 * cache. Costs at most 8 accesses to the queues. */
bool clock2q_tokens_remove(clock2q_tokens *cache, size_t slot);

/* Forgets the token of this hash and this number, if it was remembered. If it has a slot, takes the slot
 * away and returns true. Needs a cache. Costs at most 8 accesses to the queues. */
bool clock2q_tokens_forget(clock2q_tokens *cache, uint64_t hash, uint64_t number);

/* Takes the slot away from the token that leaves next, and finds the slot, as clock2q_evict_key does.
 * Finds none if no token has a slot. Needs a cache. */
clock2q_found clock2q_tokens_evict(clock2q_tokens *cache);

/* Finds the slot that clock2q_tokens_evict would find, and changes nothing, as clock2q_next_victim does.
 * Needs a cache. */
clock2q_found clock2q_tokens_next_victim(clock2q_tokens *cache);

/* The same as clock2q_clear, clock2q_len, clock2q_capacity and clock2q_release. They need a cache. */
void clock2q_tokens_clear(clock2q_tokens *cache);
size_t clock2q_tokens_len(clock2q_tokens *cache);
size_t clock2q_tokens_capacity(clock2q_tokens *cache);
void clock2q_tokens_release(clock2q_tokens cache);

/* With assertions each call asserts what it needs. A thread sanitizer sees no more of the library than
 * the writes here, which leave the handle as it is. */
#if defined __SANITIZE_THREAD__
#define CLOCK2Q_THREADS_ARE_SEEN
#elif defined __has_feature
#if __has_feature(thread_sanitizer)
#define CLOCK2Q_THREADS_ARE_SEEN
#endif
#endif

#if !defined NDEBUG || defined CLOCK2Q_THREADS_ARE_SEEN
static inline clock2q_cache *clock2q_checked(clock2q_cache *cache, bool needs_one) {
    assert(cache != NULL && (cache->at != NULL) == needs_one);
    (void)needs_one;
#ifdef CLOCK2Q_THREADS_ARE_SEEN
    *(void *volatile *)&cache->at = cache->at;
#endif
    return cache;
}

static inline clock2q_cache clock2q_checked_value(clock2q_cache cache) {
    assert(cache.at != NULL);
    return cache;
}

static inline clock2q_tokens *clock2q_tokens_checked(clock2q_tokens *cache, bool needs_one) {
    assert(cache != NULL && (cache->at != NULL) == needs_one);
    (void)needs_one;
#ifdef CLOCK2Q_THREADS_ARE_SEEN
    *(void *volatile *)&cache->at = cache->at;
#endif
    return cache;
}

static inline clock2q_tokens clock2q_tokens_checked_value(clock2q_tokens cache) {
    assert(cache.at != NULL);
    return cache;
}

#define clock2q_new(cache, capacity) clock2q_new(clock2q_checked(cache, false), capacity)
#define clock2q_with_policy(cache, capacity, small, window) \
    clock2q_with_policy(clock2q_checked(cache, false), capacity, small, window)
#define clock2q_with_history(cache, capacity, small, window, history) \
    clock2q_with_history(clock2q_checked(cache, false), capacity, small, window, history)
#define clock2q_grow(cache, capacity) clock2q_grow(clock2q_checked(cache, true), capacity)
#define clock2q_grow_with_history(cache, capacity, small, window, history) \
    clock2q_grow_with_history(clock2q_checked(cache, true), capacity, small, window, history)
#define clock2q_enter_key(cache, key) clock2q_enter_key(clock2q_checked(cache, true), key)
#define clock2q_find_key(cache, key) clock2q_find_key(clock2q_checked(cache, true), key)
#define clock2q_at(cache, slot, key) clock2q_at(clock2q_checked(cache, true), slot, key)
#define clock2q_contains(cache, key) clock2q_contains(clock2q_checked(cache, true), key)
#define clock2q_peek_key(cache, key) clock2q_peek_key(clock2q_checked(cache, true), key)
#define clock2q_remove(cache, key) clock2q_remove(clock2q_checked(cache, true), key)
#define clock2q_evict_key(cache) clock2q_evict_key(clock2q_checked(cache, true))
#define clock2q_next_victim(cache) clock2q_next_victim(clock2q_checked(cache, true))
#define clock2q_clear(cache) clock2q_clear(clock2q_checked(cache, true))
#define clock2q_len(cache) clock2q_len(clock2q_checked(cache, true))
#define clock2q_capacity(cache) clock2q_capacity(clock2q_checked(cache, true))
#define clock2q_release(cache) clock2q_release(clock2q_checked_value(cache))
#define clock2q_tokens_new(cache, capacity) clock2q_tokens_new(clock2q_tokens_checked(cache, false), capacity)
#define clock2q_tokens_with_policy(cache, capacity, small, window) \
    clock2q_tokens_with_policy(clock2q_tokens_checked(cache, false), capacity, small, window)
#define clock2q_tokens_with_history(cache, capacity, small, window, history) \
    clock2q_tokens_with_history(clock2q_tokens_checked(cache, false), capacity, small, window, history)
#define clock2q_tokens_grow(cache, capacity) clock2q_tokens_grow(clock2q_tokens_checked(cache, true), capacity)
#define clock2q_tokens_grow_with_history(cache, capacity, small, window, history) \
    clock2q_tokens_grow_with_history(clock2q_tokens_checked(cache, true), capacity, small, window, history)
#define clock2q_tokens_seek(cache, hash, nth) clock2q_tokens_seek(clock2q_tokens_checked(cache, true), hash, nth)
#define clock2q_tokens_hit(cache, slot) clock2q_tokens_hit(clock2q_tokens_checked(cache, true), slot)
#define clock2q_tokens_admit(cache, hash) clock2q_tokens_admit(clock2q_tokens_checked(cache, true), hash)
#define clock2q_tokens_enter(cache, hash, number) \
    clock2q_tokens_enter(clock2q_tokens_checked(cache, true), hash, number)
#define clock2q_tokens_remove(cache, slot) clock2q_tokens_remove(clock2q_tokens_checked(cache, true), slot)
#define clock2q_tokens_forget(cache, hash, number) \
    clock2q_tokens_forget(clock2q_tokens_checked(cache, true), hash, number)
#define clock2q_tokens_evict(cache) clock2q_tokens_evict(clock2q_tokens_checked(cache, true))
#define clock2q_tokens_next_victim(cache) clock2q_tokens_next_victim(clock2q_tokens_checked(cache, true))
#define clock2q_tokens_clear(cache) clock2q_tokens_clear(clock2q_tokens_checked(cache, true))
#define clock2q_tokens_len(cache) clock2q_tokens_len(clock2q_tokens_checked(cache, true))
#define clock2q_tokens_capacity(cache) clock2q_tokens_capacity(clock2q_tokens_checked(cache, true))
#define clock2q_tokens_release(cache) clock2q_tokens_release(clock2q_tokens_checked_value(cache))
#endif

/* clock2q_enter_key, which writes to `place`. */
static inline void clock2q_enter(clock2q_cache *cache, uint64_t key, clock2q_place *place) {
    assert(place != NULL);
    *place = clock2q_enter_key(cache, key);
}

/* clock2q_find_key, which writes to `slot` and returns true. Returns false, with `slot` as it was, if
 * the key has no slot. */
static inline bool clock2q_find(clock2q_cache *cache, uint64_t key, size_t *slot) {
    assert(slot != NULL);
    clock2q_found found = clock2q_find_key(cache, key);
    if (found.is_found) *slot = found.slot;
    return found.is_found;
}

/* clock2q_enter for a key that has no slot. Returns false, with `place` as it was, and changes nothing if the
 * key has one: no call gives a key two slots, whatever its caller believes. Needs a cache. Costs two hashes. */
static inline bool clock2q_add(clock2q_cache *cache, uint64_t key, clock2q_place *place) {
    assert(place != NULL);
    if (clock2q_contains(cache, key)) return false;
    *place = clock2q_enter_key(cache, key);
    return true;
}

/* clock2q_evict_key, which writes to `place` and returns true. Returns false, with `place` as it was, if
 * no key has a slot. */
static inline bool clock2q_evict(clock2q_cache *cache, clock2q_place *place) {
    assert(place != NULL);
    clock2q_place left = clock2q_evict_key(cache);
    if (left.evicted) *place = left;
    return left.evicted;
}

/* clock2q_peek_key, as clock2q_find is clock2q_find_key. */
static inline bool clock2q_peek(clock2q_cache *cache, uint64_t key, size_t *slot) {
    assert(slot != NULL);
    clock2q_found found = clock2q_peek_key(cache, key);
    if (found.is_found) *slot = found.slot;
    return found.is_found;
}

/* Returns true if the key has this slot, and records nothing; any number will do for the slot. So this goes through
 * the keys of a cache, of which you keep the last that entered each slot:
 *
 *     for (size_t slot = 0; slot < clock2q_capacity(&cache); slot++)
 *         if (is_kept[slot] && clock2q_holds(&cache, slot, keys[slot])) use(keys[slot], frames[slot]);
 *
 * Needs a cache. Costs one hash. */
static inline bool clock2q_holds(clock2q_cache *cache, size_t slot, uint64_t key) {
    clock2q_found found = clock2q_peek_key(cache, key);
    return found.is_found && found.slot == slot;
}

/* Frees the cache, if there is one, and leaves none. */
static inline void clock2q_free(clock2q_cache *cache) {
    if (cache->at != NULL) {
        clock2q_release(*cache);
        cache->at = NULL;
    }
}

/* The same for a cache of tokens. */
static inline void clock2q_tokens_free(clock2q_tokens *cache) {
    if (cache->at != NULL) {
        clock2q_tokens_release(*cache);
        cache->at = NULL;
    }
}

/* Spreads the bits of a hash. Different hashes stay different. */
static inline uint64_t clock2q_spread(uint64_t hash) {
    uint64_t product = hash * UINT64_C(0x9E3779B97F4A7C15);
    return product ^ product >> 32;
}

/* Spreads them by a secret, two odd numbers: who chooses hashes without knowing it finds no more of them that are
 * looked for at one place than chance does. Different hashes stay different. */
static inline uint64_t clock2q_spread_by(const uint64_t secret[2], uint64_t hash) {
    uint64_t product = hash * secret[0];
    product = (product ^ product >> 32) * secret[1];
    return product ^ product >> 32;
}

/* Returns true if the key had the slot before, so that what you keep for the slot is this key's. */
static inline bool clock2q_has(const clock2q_place *place, uint64_t key) {
    return place->has_last && place->last == key;
}

#ifdef __cplusplus
}
#endif

#endif
