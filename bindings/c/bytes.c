/* The calls of clock2q_bytes.h over a cache of tokens: each key is a block of memory, kept by its slot.
 * The names of calls are in parentheses, since headers have macros of these names. */
#define _DEFAULT_SOURCE /* getentropy */
#include "clock2q_bytes.h"

#include <string.h>
#include <time.h>
#include <unistd.h>

/* The most keys of one hash. */
enum { MOST_ALIKE = 16 };

struct held {
    size_t length;
    unsigned char bytes[];
};

struct cache {
    clock2q_tokens slots;
    clock2q_memory memory; /* where this block and the keys come from */
    clock2q_bytes_hash *hash;
    const void *context;
    uint64_t secret[2];
    uint64_t number;     /* the last of a token, of those that aren't 0 */
    struct held *left;   /* the last key that lost its slot to another, or null */
    struct held *keys[]; /* by slot; null if no key has it */
};

/* What a look-up finds, and how many other keys of the hash it was compared with. */
struct look {
    uint64_t hash;
    size_t others;
    clock2q_found found;
};

static inline uint64_t rotated(uint64_t number, int bits) {
    return number << bits | number >> (64 - bits);
}

static inline void sip_round(uint64_t v[4]) {
    v[0] += v[1];
    v[2] += v[3];
    v[1] = rotated(v[1], 13) ^ v[0];
    v[3] = rotated(v[3], 16) ^ v[2];
    v[0] = rotated(v[0], 32) + v[3];
    v[2] += v[1];
    v[3] = rotated(v[3], 21) ^ v[0];
    v[1] = rotated(v[1], 17) ^ v[2];
    v[2] = rotated(v[2], 32);
}

static inline void sip_word(uint64_t v[4], uint64_t word) {
    v[3] ^= word;
    sip_round(v);
    v[0] ^= word;
}

/* Reads at most eight bytes as a number, the lowest first. */
static inline uint64_t word_of(const unsigned char *bytes, size_t length) {
    uint64_t word = 0;
    if (length != 0) memcpy(&word, bytes, length);
#if defined __BYTE_ORDER__ && __BYTE_ORDER__ == __ORDER_BIG_ENDIAN__
    word = __builtin_bswap64(word);
#endif
    return word;
}

uint64_t (clock2q_bytes_siphash)(const void *secret, const void *key, size_t length) {
    uint64_t k[2];
    memcpy(k, secret, sizeof k);
    uint64_t v[4] = {k[0] ^ UINT64_C(0x736F6D6570736575), k[1] ^ UINT64_C(0x646F72616E646F6D),
                     k[0] ^ UINT64_C(0x6C7967656E657261), k[1] ^ UINT64_C(0x7465646279746573)};
    const unsigned char *bytes = key;
    size_t left = length;
    for (; left >= sizeof *v; left -= sizeof *v, bytes += sizeof *v) sip_word(v, word_of(bytes, sizeof *v));
    sip_word(v, word_of(bytes, left) | (uint64_t)length << 56);
    v[2] ^= 0xFF;
    sip_round(v);
    sip_round(v);
    sip_round(v);
    return v[0] ^ v[1] ^ v[2] ^ v[3];
}

static clock2q_memory memory_in_use(void) {
    clock2q_memory memory = clock2q_use_memory(NULL);
    clock2q_use_memory(&memory);
    return memory;
}

/* Draws a secret, which is guessed more easily if the system has no random numbers. */
static void draw_secret(struct cache *cache) {
    if (getentropy(cache->secret, sizeof cache->secret) == 0) return;
    cache->secret[0] = (uintptr_t)cache;
    cache->secret[1] = (uint64_t)time(NULL) ^ (uint64_t)clock() << 32;
}

/* Makes a cache over one of tokens, which is freed if that fails. */
static uint32_t make_over(clock2q_tokens slots, clock2q_bytes *handle) {
    size_t capacity = clock2q_tokens_capacity(&slots), size = sizeof(struct cache) + capacity * sizeof(struct held *);
    clock2q_memory memory = memory_in_use();
    struct cache *cache = memory.take(size);
    if (cache == NULL) {
        clock2q_tokens_release(slots);
        return CLOCK2Q_NO_MEMORY;
    }
    memset(cache, 0, size);
    cache->slots = slots;
    cache->memory = memory;
    cache->hash = clock2q_bytes_siphash;
    cache->context = cache->secret;
    draw_secret(cache);
    handle->at = cache;
    return CLOCK2Q_DONE;
}

uint32_t (clock2q_bytes_new)(clock2q_bytes *handle, size_t capacity) {
    clock2q_tokens slots = CLOCK2Q_TOKENS_NONE;
    uint32_t answer = clock2q_tokens_new(&slots, capacity);
    return answer == CLOCK2Q_DONE ? make_over(slots, handle) : answer;
}

uint32_t (clock2q_bytes_with_policy)(clock2q_bytes *handle, size_t capacity, size_t small, size_t window) {
    clock2q_tokens slots = CLOCK2Q_TOKENS_NONE;
    uint32_t answer = clock2q_tokens_with_policy(&slots, capacity, small, window);
    return answer == CLOCK2Q_DONE ? make_over(slots, handle) : answer;
}

uint32_t (clock2q_bytes_with_history)(clock2q_bytes *handle, size_t capacity, size_t small, size_t window,
                                      size_t history) {
    clock2q_tokens slots = CLOCK2Q_TOKENS_NONE;
    uint32_t answer = clock2q_tokens_with_history(&slots, capacity, small, window, history);
    return answer == CLOCK2Q_DONE ? make_over(slots, handle) : answer;
}

/* Has a cache grow, with three shares or the usual ones for null, to a larger block. */
static uint32_t grow_to(clock2q_bytes *handle, size_t capacity, const size_t *shares) {
    struct cache *cache = handle->at;
    size_t made = clock2q_tokens_capacity(&cache->slots);
    size_t before = sizeof *cache + made * sizeof(struct held *), size = sizeof *cache + capacity * sizeof(struct held *);
    if (capacity == 0 || capacity > CLOCK2Q_MAX_CAPACITY) return CLOCK2Q_BAD_CAPACITY;
    if (capacity < made) return CLOCK2Q_BAD_POLICY;
    struct cache *larger = cache->memory.take(size);
    if (larger == NULL) return CLOCK2Q_NO_MEMORY;
    clock2q_memory others = clock2q_use_memory(&cache->memory);
    uint32_t answer = shares == NULL ? clock2q_tokens_grow(&cache->slots, capacity)
                                     : clock2q_tokens_grow_with_history(&cache->slots, capacity, shares[0], shares[1], shares[2]);
    clock2q_use_memory(&others);
    if (answer != CLOCK2Q_DONE) {
        cache->memory.give_back(larger);
        return answer;
    }
    memcpy(larger, cache, before);
    memset((char *)larger + before, 0, size - before);
    if (cache->context == cache->secret) larger->context = larger->secret;
    cache->memory.give_back(cache);
    handle->at = larger;
    return CLOCK2Q_DONE;
}

uint32_t (clock2q_bytes_grow)(clock2q_bytes *handle, size_t capacity) {
    return grow_to(handle, capacity, NULL);
}

uint32_t (clock2q_bytes_grow_with_history)(clock2q_bytes *handle, size_t capacity, size_t small, size_t window,
                                           size_t history) {
    return grow_to(handle, capacity, (const size_t[]){small, window, history});
}

bool (clock2q_bytes_use_hash)(clock2q_bytes *handle, clock2q_bytes_hash *hash, const void *context) {
    struct cache *cache = handle->at;
    if (clock2q_tokens_len(&cache->slots) != 0) return false;
    cache->hash = hash;
    cache->context = context;
    return true;
}

static void give_back(struct cache *cache, struct held *held) {
    if (held != NULL) cache->memory.give_back(held);
}

/* Returns a copy of a key, or null. */
static struct held *copy_of(struct cache *cache, const void *key, size_t length) {
    if (length > SIZE_MAX - sizeof(struct held)) return NULL;
    struct held *held = cache->memory.take(sizeof(struct held) + length);
    if (held == NULL) return NULL;
    held->length = length;
    if (length != 0) memcpy(held->bytes, key, length);
    return held;
}

static clock2q_bytes_key shown(const struct held *held) {
    return held == NULL ? (clock2q_bytes_key){NULL, 0} : (clock2q_bytes_key){held->bytes, held->length};
}

static bool is_key(const struct held *held, const void *key, size_t length) {
    return held->length == length && (length == 0 || memcmp(held->bytes, key, length) == 0);
}

static struct look look_up(struct cache *cache, const void *key, size_t length) {
    struct look look = {.hash = clock2q_spread(cache->hash(cache->context, key, length))};
    for (;; look.others++) {
        look.found = clock2q_tokens_seek(&cache->slots, look.hash, look.others);
        if (!look.found.is_found || is_key(cache->keys[look.found.slot], key, length)) return look;
    }
}

/* Gives a key that isn't there a slot. Of too many keys of its hash the last one loses its own, which is then
 * the slot that became free last, so that the new key takes it. */
static size_t slot_beside(struct cache *cache, const struct look *look) {
    if (look->others == MOST_ALIKE) {
        clock2q_tokens_remove(&cache->slots, clock2q_tokens_seek(&cache->slots, look->hash, MOST_ALIKE - 1).slot);
    }
    return clock2q_tokens_enter(&cache->slots, look->hash, look->others == 0 ? 0 : ++cache->number);
}

uint32_t (clock2q_bytes_enter)(clock2q_bytes *handle, const void *key, size_t length, clock2q_bytes_place *place) {
    struct cache *cache = handle->at;
    struct look look = look_up(cache, key, length);
    if (look.found.is_found) {
        clock2q_tokens_hit(&cache->slots, look.found.slot);
        *place = (clock2q_bytes_place){.slot = look.found.slot};
        return CLOCK2Q_DONE;
    }
    struct held *fresh = copy_of(cache, key, length);
    if (fresh == NULL) return CLOCK2Q_NO_MEMORY;
    size_t slot = slot_beside(cache, &look);
    give_back(cache, cache->left); /* which may be the key */
    cache->left = cache->keys[slot];
    cache->keys[slot] = fresh;
    *place = (clock2q_bytes_place){.slot = slot, .has_entered = true, .left = shown(cache->left)};
    return CLOCK2Q_DONE;
}

clock2q_found (clock2q_bytes_find)(clock2q_bytes *handle, const void *key, size_t length) {
    struct cache *cache = handle->at;
    clock2q_found found = look_up(cache, key, length).found;
    if (found.is_found) clock2q_tokens_hit(&cache->slots, found.slot);
    return found;
}

clock2q_found (clock2q_bytes_peek)(clock2q_bytes *handle, const void *key, size_t length) {
    return look_up(handle->at, key, length).found;
}

clock2q_found (clock2q_bytes_remove)(clock2q_bytes *handle, const void *key, size_t length) {
    struct cache *cache = handle->at;
    struct look look = look_up(cache, key, length);
    if (look.found.is_found) {
        clock2q_tokens_remove(&cache->slots, look.found.slot);
        give_back(cache, cache->keys[look.found.slot]);
        cache->keys[look.found.slot] = NULL;
    } else if (look.others == 0) {
        clock2q_tokens_forget(&cache->slots, look.hash, 0);
    }
    return look.found;
}

bool (clock2q_bytes_evict)(clock2q_bytes *handle, clock2q_bytes_place *place) {
    struct cache *cache = handle->at;
    clock2q_found evicted = clock2q_tokens_evict(&cache->slots);
    if (!evicted.is_found) return false;
    give_back(cache, cache->left);
    cache->left = cache->keys[evicted.slot];
    cache->keys[evicted.slot] = NULL;
    *place = (clock2q_bytes_place){.slot = evicted.slot, .left = shown(cache->left)};
    return true;
}

clock2q_bytes_key (clock2q_bytes_key_at)(clock2q_bytes *handle, size_t slot) {
    struct cache *cache = handle->at;
    return shown(slot < clock2q_tokens_capacity(&cache->slots) ? cache->keys[slot] : NULL);
}

/* Frees the keys that have slots. */
static void drop_keys(struct cache *cache) {
    size_t capacity = clock2q_tokens_capacity(&cache->slots);
    for (size_t slot = 0; slot < capacity; slot++) {
        give_back(cache, cache->keys[slot]);
        cache->keys[slot] = NULL;
    }
}

void (clock2q_bytes_clear)(clock2q_bytes *handle) {
    struct cache *cache = handle->at;
    clock2q_tokens_clear(&cache->slots);
    drop_keys(cache);
}

size_t (clock2q_bytes_len)(clock2q_bytes *handle) {
    return clock2q_tokens_len(&((struct cache *)handle->at)->slots);
}

size_t (clock2q_bytes_capacity)(clock2q_bytes *handle) {
    return clock2q_tokens_capacity(&((struct cache *)handle->at)->slots);
}

void (clock2q_bytes_release)(clock2q_bytes handle) {
    struct cache *cache = handle.at;
    drop_keys(cache);
    give_back(cache, cache->left);
    clock2q_tokens_free(&cache->slots);
    cache->memory.give_back(cache);
}
