/* clock2q_bytes: a cache of byte strings, for C and C++. It gives keys slots as clock2q.h does:
 *
 *     clock2q_bytes files = CLOCK2Q_BYTES_NONE;
 *     if (clock2q_bytes_new(&files, 1000) != CLOCK2Q_DONE) return 1;
 *     clock2q_bytes_place place;
 *     if (clock2q_bytes_enter(&files, path, strlen(path), &place) != CLOCK2Q_DONE) return 1;
 *     if (place.has_entered) {
 *         if (place.left.start != NULL) free(contents[place.slot]);
 *         contents[place.slot] = read_file(path);
 *     }
 *     use(contents[place.slot]);
 *     clock2q_bytes_free(&files);
 *
 * A key is any bytes, also none; its length counts, and a zero among them doesn't end it. A key is copied
 * once, when it enters, and the copy is freed when the key is removed, or at the next entry or eviction after
 * it left.
 *
 * Keys are hashed with SipHash-1-3 and a random secret of each cache, so strangers may choose them. There
 * are at most sixteen keys of one hash of 64 bits: the next takes the slot of one of them.
 *
 * You owe what clock2q.h says of a `clock2q_cache` and its calls. A key of length 0 may be null, and a key may
 * be one that the cache returned. */
#ifndef CLOCK2Q_BYTES_H
#define CLOCK2Q_BYTES_H

#include "clock2q.h"

#ifdef __cplusplus
extern "C" {
#endif

/* A cache of byte strings, or none. */
typedef struct {
    void *at;
} clock2q_bytes;

#define CLOCK2Q_BYTES_NONE {0}

/* A key as the cache holds it, or none. */
typedef struct {
    const void *start; /* null if there is none */
    size_t length;
} clock2q_bytes_key;

/* Where a key is, and which key it took the slot from. */
typedef struct {
    size_t slot;            /* below the capacity */
    bool has_entered;       /* whether the key had no slot before */
    clock2q_bytes_key left; /* the key that lost the slot, until the next one enters or is evicted; or none */
} clock2q_bytes_place;

/* Returns a hash of a key, which is the same for equal keys. It doesn't call the cache. */
typedef uint64_t clock2q_bytes_hash(const void *context, const void *key, size_t length);

/* Makes a cache for `capacity` keys, as clock2q_new, clock2q_with_policy and clock2q_with_history do.
 * Takes one request and 8 bytes a key more than they, from the same place. */
uint32_t clock2q_bytes_new(clock2q_bytes *cache, size_t capacity);
uint32_t clock2q_bytes_with_policy(clock2q_bytes *cache, size_t capacity, size_t small, size_t window);
uint32_t clock2q_bytes_with_history(clock2q_bytes *cache, size_t capacity, size_t small, size_t window,
                                    size_t history);

/* Raise the capacity to `capacity` keys, as clock2q_grow and clock2q_grow_with_history do, in memory from where the
 * cache's was taken, some of which may be asked for before a policy is refused. They need a cache. */
uint32_t clock2q_bytes_grow(clock2q_bytes *cache, size_t capacity);
uint32_t clock2q_bytes_grow_with_history(clock2q_bytes *cache, size_t capacity, size_t small, size_t window,
                                         size_t history);

/* Has a cache hash its keys with a function of yours, which gets `context` each time, and returns true.
 * Returns false, and changes nothing, if there is a key. Needs a cache. */
bool clock2q_bytes_use_hash(clock2q_bytes *cache, clock2q_bytes_hash *hash, const void *context);

/* SipHash-1-3 of a key. `secret` is two numbers of 64 bits. */
uint64_t clock2q_bytes_siphash(const void *secret, const void *key, size_t length);

/* Finds the slot of a key and records a hit, or copies the key and gives it a slot, which another key may
 * lose. Writes where it is and returns CLOCK2Q_DONE. Returns CLOCK2Q_NO_MEMORY, with the cache and `place`
 * as they were, if there is no memory for the copy: a block of 8 bytes and the key's. It is taken where
 * the cache's memory was. Needs a cache. Costs what clock2q_enter_key does, besides hash and copy. */
uint32_t clock2q_bytes_enter(clock2q_bytes *cache, const void *key, size_t length, clock2q_bytes_place *place);

/* Finds the slot of a key and records a hit, if the key has one. Needs a cache. */
clock2q_found clock2q_bytes_find(clock2q_bytes *cache, const void *key, size_t length);

/* Finds the slot of a key, if it has one, and records nothing. Needs a cache. */
clock2q_found clock2q_bytes_peek(clock2q_bytes *cache, const void *key, size_t length);

/* Takes the slot of a key away, and returns which it was. A key that has none is forgotten, if it was
 * remembered and no other key of its hash has one. Needs a cache. */
clock2q_found clock2q_bytes_remove(clock2q_bytes *cache, const void *key, size_t length);

/* Takes the slot away from the key that is to leave next, writes the slot and the key as clock2q_bytes_enter
 * writes those of a key that left, and returns true. Returns false, with `place` as it was, if there is no
 * key. Needs a cache. */
bool clock2q_bytes_evict(clock2q_bytes *cache, clock2q_bytes_place *place);

/* Returns the key that has a slot, until a call takes the slot away from it, or none; any number will do.
 * Needs a cache. */
clock2q_bytes_key clock2q_bytes_key_at(clock2q_bytes *cache, size_t slot);

/* The same as clock2q_clear, clock2q_len, clock2q_capacity and clock2q_release. They need a cache. */
void clock2q_bytes_clear(clock2q_bytes *cache);
size_t clock2q_bytes_len(clock2q_bytes *cache);
size_t clock2q_bytes_capacity(clock2q_bytes *cache);
void clock2q_bytes_release(clock2q_bytes cache);

/* Calls are checked as those of clock2q.h. */
#if !defined NDEBUG || defined CLOCK2Q_THREADS_ARE_SEEN
static inline clock2q_bytes *clock2q_bytes_checked(clock2q_bytes *cache, bool needs_one) {
    assert(cache != NULL && (cache->at != NULL) == needs_one);
    (void)needs_one;
#ifdef CLOCK2Q_THREADS_ARE_SEEN
    *(void *volatile *)&cache->at = cache->at;
#endif
    return cache;
}

static inline clock2q_bytes clock2q_bytes_checked_value(clock2q_bytes cache) {
    assert(cache.at != NULL);
    return cache;
}

#define clock2q_bytes_new(cache, capacity) clock2q_bytes_new(clock2q_bytes_checked(cache, false), capacity)
#define clock2q_bytes_with_policy(cache, capacity, small, window) \
    clock2q_bytes_with_policy(clock2q_bytes_checked(cache, false), capacity, small, window)
#define clock2q_bytes_with_history(cache, capacity, small, window, history) \
    clock2q_bytes_with_history(clock2q_bytes_checked(cache, false), capacity, small, window, history)
#define clock2q_bytes_grow(cache, capacity) clock2q_bytes_grow(clock2q_bytes_checked(cache, true), capacity)
#define clock2q_bytes_grow_with_history(cache, capacity, small, window, history) \
    clock2q_bytes_grow_with_history(clock2q_bytes_checked(cache, true), capacity, small, window, history)
#define clock2q_bytes_use_hash(cache, hash, context) \
    clock2q_bytes_use_hash(clock2q_bytes_checked(cache, true), hash, context)
#define clock2q_bytes_enter(cache, key, length, place) \
    clock2q_bytes_enter(clock2q_bytes_checked(cache, true), key, length, place)
#define clock2q_bytes_find(cache, key, length) clock2q_bytes_find(clock2q_bytes_checked(cache, true), key, length)
#define clock2q_bytes_peek(cache, key, length) clock2q_bytes_peek(clock2q_bytes_checked(cache, true), key, length)
#define clock2q_bytes_remove(cache, key, length) \
    clock2q_bytes_remove(clock2q_bytes_checked(cache, true), key, length)
#define clock2q_bytes_evict(cache, place) clock2q_bytes_evict(clock2q_bytes_checked(cache, true), place)
#define clock2q_bytes_key_at(cache, slot) clock2q_bytes_key_at(clock2q_bytes_checked(cache, true), slot)
#define clock2q_bytes_clear(cache) clock2q_bytes_clear(clock2q_bytes_checked(cache, true))
#define clock2q_bytes_len(cache) clock2q_bytes_len(clock2q_bytes_checked(cache, true))
#define clock2q_bytes_capacity(cache) clock2q_bytes_capacity(clock2q_bytes_checked(cache, true))
#define clock2q_bytes_release(cache) clock2q_bytes_release(clock2q_bytes_checked_value(cache))
#endif

/* Frees the cache, if there is one, and leaves none. */
static inline void clock2q_bytes_free(clock2q_bytes *cache) {
    if (cache->at != NULL) {
        clock2q_bytes_release(*cache);
        cache->at = NULL;
    }
}

#ifdef __cplusplus
}
#endif

#endif
