/* The pairs of a cache, by slot.
 *
 * The library sees a token for each key, of its 64-bit hash() and a number, and gives it a slot; the key
 * and its value are kept here. Keys are compared between two calls of the library, while slots and pairs
 * agree. So an __eq__ that raises or uses the cache finds a whole one; `version` shows what it changed,
 * and the look-up is repeated. A pair that leaves is dropped after everything else, since that may run
 * a __del__. */
#ifndef CLOCK2Q_PAIRS_H
#define CLOCK2Q_PAIRS_H

#define PY_SSIZE_T_CLEAN
#include <Python.h>
#include <clock2q.h>
#include <structmember.h>

#include "limited.h"

#ifndef Py_NO_INLINE /* before Python 3.11 */
#define Py_NO_INLINE __attribute__((noinline))
#endif

/* A key and its value, or neither. */
typedef struct {
    PyObject *key, *value;
} pair;

/* The weight of a pair, if pairs have weights, and when it expires, if they do. */
typedef struct {
    uint64_t weight;
    double deadline;
} pair_terms;

/* Why a pair leaves a cache. */
typedef enum { EVICTED, REPLACED, REMOVED, EXPIRED, CLEARED } reason;

typedef struct {
    PyObject_HEAD
    clock2q_tokens slots; /* none before __init__, or if there is room for no pair */
    uint64_t number;  /* the last of a token, of those that aren't 0 */
    pair *pairs;      /* `capacity` of them, each at the slot of its key; NULL until one is stored */
    size_t capacity;  /* how many slots there are; 0 if there are none */
    size_t maxsize;   /* how many pairs there are at most */
    size_t slots_size; /* how many bytes the library took */
    size_t reached;   /* above the highest slot that has had a pair */
    uint64_t version; /* how often a pair was stored, replaced or removed, or maxsize set */
    uint64_t hits, misses;
    PyObject *weigher;   /* or NULL; then there are no weights */
    uint64_t *weights;   /* by slot, 0 if there is no pair */
    uint64_t weight;     /* their sum */
    uint64_t max_weight; /* the most that it may be */
    PyObject *timer;     /* or NULL; then no pair expires */
    double ttl;          /* how long after it was stored */
    double *deadlines;   /* by slot, what the timer is below until then */
    PyObject *listener;  /* or NULL */
    PyObject *postponed; /* pairs of which it hears once nobody postpones that, or NULL */
    size_t postponing;   /* how many calls postpone what it hears */
    Py_ssize_t history;  /* how many keys that were evicted are remembered, or -1 if that wasn't said */
    PyObject *weak_references;
    char is_made;         /* whether __init__ was called */
    char has_missing;     /* whether the type had __missing__ when the cache was made */
    char finds_plainly;   /* whether there are `pairs`, and none expires */
    char stores_plainly;  /* whether one pair at most leaves for a new one, and none has a weight or expires */
} Cache;

/* What a look-up or a comparison finds. FAILED comes with an exception, CHANGED if the cache's pairs did. */
typedef enum { FAILED = -1, ABSENT = 0, PRESENT = 1, CHANGED = 2 } outcome;

/* What a look-up finds, and the slot if that is PRESENT. Two registers return it. */
typedef struct {
    outcome is;
    size_t slot;
} found_pair;

/* How often a look-up is repeated before it fails, and the most keys of one hash. */
enum { MOST_TRIES = 8, MOST_ALIKE = 16 };

/* Sets the exception after so many tries, and returns FAILED. */
outcome too_many_tries(int tries);

/* Two odd numbers, drawn with the secret of str's hashes as the process starts: PYTHONHASHSEED sets both. */
extern uint64_t hash_secret[2];

/* Spreads the bits of a hash by the secret. Those of ints and of others whose hash Python doesn't keep secret are so
 * looked for where no stranger knows. */
static inline uint64_t spread(uint64_t hash) {
    return clock2q_spread_by(hash_secret, hash);
}

/* Writes a key's hash. Returns -1 with an exception if it has none. */
static inline int hash_of(PyObject *key, uint64_t *hash) {
    Py_hash_t value = kept_hash(key);
    if (value == -1) value = PyObject_Hash(key);
    *hash = (uint64_t)value;
    return value == -1 ? -1 : 0;
}

/* Returns how many pairs there are. */
static inline Py_ssize_t length_of(Cache *cache) {
    return cache->pairs == NULL ? 0 : (Py_ssize_t)clock2q_tokens_len(&cache->slots);
}

/* Compares a key with those of its hash in turn, of which the first is at `slot`. */
found_pair compare_alike(Cache *cache, PyObject *key, uint64_t hash, size_t slot);

/* Finds the slot of a key in a cache that may have no pairs, or whose pairs expire. One that has expired is ABSENT; if it
 * `leaves`, it is taken out and dropped, and then this is CHANGED. */
found_pair look_at_timed_pairs(Cache *cache, PyObject *key, uint64_t hash, int leaves);

/* Finds the slot of a key, if no comparison changes the cache. */
static inline found_pair look_at_pairs(Cache *cache, PyObject *key, uint64_t hash) {
    if (!cache->finds_plainly) return look_at_timed_pairs(cache, key, hash, 1);
    clock2q_found alike = clock2q_tokens_seek(&cache->slots, spread(hash), 0);
    if (!alike.is_found) return (found_pair){ABSENT, 0};
    if (cache->pairs[alike.slot].key == key) return (found_pair){PRESENT, alike.slot};
    return compare_alike(cache, key, hash, alike.slot);
}

/* Does so after a comparison has changed the cache, until none does. */
found_pair look_again(Cache *cache, PyObject *key, uint64_t hash);

/* Finds the slot of a key, and records no hit. If PRESENT, the slot's pair stays until other code runs. */
static inline found_pair peek_pair(Cache *cache, PyObject *key, uint64_t hash) {
    found_pair found = look_at_pairs(cache, key, hash);
    return found.is == CHANGED ? look_again(cache, key, hash) : found;
}

/* Ends a look-up that found this: looks again if the cache has changed, and records a hit in the library if the key has
 * a slot. If PRESENT, the slot's pair stays until other code runs. */
static inline found_pair hit_if_present(Cache *cache, PyObject *key, uint64_t hash, found_pair found) {
    if (found.is == CHANGED) found = look_again(cache, key, hash);
    if (found.is == PRESENT) clock2q_tokens_hit(&cache->slots, found.slot);
    return found;
}

/* Finds the slot of a key, and records a hit. */
static inline found_pair find_pair(Cache *cache, PyObject *key, uint64_t hash) {
    return hit_if_present(cache, key, hash, look_at_pairs(cache, key, hash));
}

/* Stores a value for a key. Returns -1 with an exception, and the cache as it was, if that fails; only if there
 * is no memory, some pairs may have left. */
int store_pair(Cache *cache, PyObject *key, uint64_t hash, PyObject *value);

/* The same for a cache whose pairs have weights, or are to be fewer than its slots: more than one may leave for this
 * one, all at once. They are dropped last. */
int store_within(Cache *cache, PyObject *key, uint64_t hash, PyObject *value);

/* Makes room for pairs. Returns -1 with an exception if that fails, or if there may be none. */
int make_pairs(Cache *cache);

/* Replaces the value at the slot of a key. The terms are NULL if pairs have none. */
void replace_value(Cache *cache, size_t slot, PyObject *value, const pair_terms *terms);

/* Stores a pair whose key has no slot. A pair that loses its slot is replaced before other code runs. */
void add_pair(Cache *cache, PyObject *key, uint64_t hash, PyObject *value, const pair_terms *terms);

/* Sets the weight of the pair at a slot, if pairs have weights. */
void set_weight(Cache *cache, size_t slot, uint64_t weight);

/* Has `finds_plainly` and `stores_plainly` say what is so, after pairs, maxsize, the weigher or the timer were set. */
void set_plainness(Cache *cache);

/* Calls the listener with a pair that has left, or postpones that. What it raises goes to sys.unraisablehook. */
void call_listener(Cache *cache, pair left, reason why);

/* Drops a pair that was taken out, last of all that a call does: the listener hears of it first, if there is one. */
static inline void drop_pair(Cache *cache, pair left, reason why) {
    if (cache->listener != NULL) call_listener(cache, left, why);
    Py_DECREF(left.key);
    Py_DECREF(left.value);
}

/* Adds a pair that was taken out to a list, which runs no other code and takes the references: its key, its value and
 * the reason. Returns -1 with an exception if there is no memory. */
int add_left(PyObject *list, pair left, reason why);

/* Drops the pairs of such a list, and the list. */
void drop_pairs(Cache *cache, PyObject *list);

/* Has the listener, if there is one, hear of no pair until the second is called as often, which has it hear of all. */
void postpone_listener(Cache *cache);
void end_postponing(Cache *cache);

/* Asks the timer. Returns -1 with an exception if it gives no number. */
int read_timer(Cache *cache, double *now);

/* Takes the weight off a slot whose pair has left, and the deadline. */
static inline void set_free(Cache *cache, size_t slot) {
    cache->pairs[slot] = (pair){NULL, NULL};
    set_weight(cache, slot, 0);
    cache->version++;
}

/* Whether the pair at a slot has expired at this time. A time that is no number is after all. */
static inline int has_expired(Cache *cache, size_t slot, double now) {
    return cache->deadlines != NULL && !(now < cache->deadlines[slot]);
}

/* Takes out the pairs that have expired and would leave next, until the next hasn't. Returns -1 with an exception if
 * the timer gives no number. */
int drop_expired_victims(Cache *cache);

/* The method that takes out what has expired. */
PyObject *cache_expire(Cache *self, PyObject *const *args, Py_ssize_t count, PyObject *names);

/* Takes out the pair that is to leave next, and returns the slot that it had, if there is one. The caller drops it. */
clock2q_found evict_pair(Cache *cache, pair *left);

/* The methods that remove and return this pair, or raise KeyError, and that return it or None. */
PyObject *cache_popitem(Cache *self, PyObject *unused);
PyObject *cache_next_victim(Cache *self, PyObject *unused);

/* Has at most `maxsize` pairs be there, for which there are slots. Returns -1 with an exception if there is no
 * memory. */
int resize_pairs(Cache *cache, size_t maxsize);

/* Has at most `maxsize` pairs be there, for which there aren't slots yet. Each stays at its slot, and what left is
 * remembered. It runs no other code. Returns -1 with an exception, and the cache as it was, if there is no memory. */
int grow_pairs(Cache *cache, size_t maxsize);

/* Takes out the pair at a slot. The caller drops it. */
pair take_pair(Cache *cache, size_t slot);

/* Removes all pairs, and has the library forget their hashes. The listener hears of them if there is one. */
void clear_pairs(Cache *cache);

/* __init__, and the properties that show what it was given. */
int cache_init(Cache *self, PyObject *args, PyObject *keywords);
extern PyGetSetDef cache_properties[];

/* Returns what a type has as __missing__, or NULL with an exception. */
PyObject *missing_of_type(Cache *self);

/* Returns 0 if a cache can be made: it isn't made yet, and the capacity isn't refused. Returns -1 with an
 * exception otherwise. */
int may_make_slots(int is_made, Py_ssize_t capacity, Py_ssize_t least, const char *name);

/* Returns 0 if the library made a cache, or -1 with an exception. */
int made_slots(uint32_t status);

/* The shares of a capacity that the library takes if it isn't given any: how many slots are for new keys, and for how
 * many admissions each is young. */
static inline size_t usual_small(size_t capacity) {
    return capacity < 10 ? capacity > 1 : capacity / 10;
}

static inline size_t usual_window(size_t capacity) {
    return (usual_small(capacity) + 1) / 2;
}

/* Reads how many keys that were evicted are remembered, of `most`: -1 for None. Returns -1 with an exception if it can't be
 * so many. */
int read_history(PyObject *history, Py_ssize_t most, const char *name, Py_ssize_t *number);

/* Takes the memory for the cache's slots with its history, or for more of them, and counts it. Returns -1 with an exception
 * if there is none. */
int make_slots(Cache *cache, size_t capacity);
int grow_slots(Cache *cache, size_t capacity);

/* Has the library take its memory where tracemalloc sees it, and counts that. The second adds how much more it has than
 * before, and is given what the first returned. No other code runs between them. */
clock2q_memory begin_count(void);
void end_count(clock2q_memory before, size_t *size);

/* Raises a KeyError. */
void set_key_error(PyObject *key);

/* Raises a TypeError: caches are neither pickled nor copied. */
PyObject *refuse_copy(PyObject *self, PyObject *unused);

/* What belongs to the module. */
typedef struct {
    PyTypeObject *cache_type, *place_type;
    PyObject *method_type;
    PyObject *keyword_mark; /* comes before the keyword arguments in a key of `cached` */
} module_state;

extern PyType_Spec cache_spec, cached_spec, pages_spec;
extern PyStructSequence_Desc place_description;

#endif
