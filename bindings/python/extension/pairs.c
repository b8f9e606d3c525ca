#include "pairs.h"

outcome too_many_tries(int tries) {
    PyErr_Format(PyExc_RuntimeError, "each of %d comparisons of keys changed the cache", tries);
    return FAILED;
}

/* Compares a key with one that a pair holds. */
static outcome compare(Cache *cache, PyObject *held, PyObject *key) {
    if (held == key) return PRESENT;
    if (PyUnicode_CheckExact(held) && PyUnicode_CheckExact(key)) return PyUnicode_Compare(held, key) == 0;
    uint64_t version = cache->version;
    Py_INCREF(held);
    int equal = PyObject_RichCompareBool(held, key, Py_EQ);
    Py_DECREF(held);
    if (equal < 0) return FAILED;
    return version == cache->version ? (outcome)equal : CHANGED;
}

found_pair compare_alike(Cache *cache, PyObject *key, uint64_t hash, size_t slot) {
    clock2q_found alike = {slot, true};
    for (size_t nth = 1; alike.is_found; nth++) {
        outcome found = compare(cache, cache->pairs[alike.slot].key, key);
        if (found != ABSENT) return (found_pair){found, alike.slot};
        alike = clock2q_tokens_seek(&cache->slots, spread(hash), nth);
    }
    return (found_pair){ABSENT, 0};
}

found_pair look_again(Cache *cache, PyObject *key, uint64_t hash) {
    for (int tries = 1; tries < MOST_TRIES; tries++) {
        found_pair found = look_at_pairs(cache, key, hash);
        if (found.is != CHANGED) return found;
    }
    return (found_pair){too_many_tries(MOST_TRIES), 0};
}

int may_make_slots(int is_made, Py_ssize_t capacity, Py_ssize_t least, const char *name) {
    if (is_made) {
        PyErr_SetString(PyExc_RuntimeError, "__init__ is called once");
        return -1;
    }
    if (capacity >= least && capacity <= CLOCK2Q_MAX_CAPACITY) return 0;
    PyErr_Format(PyExc_ValueError, "%s is from %zd to %d", name, least, CLOCK2Q_MAX_CAPACITY);
    return -1;
}

/* How much the library has more than as a count began. Before each block is its size. */
static size_t counted;

typedef union {
    size_t size;
    char aligned[16];
} counted_block;

static void *count_and_take(size_t size) {
    counted_block *block = size > SIZE_MAX - sizeof *block ? NULL : PyMem_Malloc(sizeof *block + size);
    if (block == NULL) return NULL;
    block->size = size;
    counted += size;
    return block + 1;
}

static void count_and_give_back(void *start) {
    counted_block *block = (counted_block *)start - 1;
    counted -= block->size;
    PyMem_Free(block);
}

clock2q_memory begin_count(void) {
    counted = 0;
    return clock2q_use_memory(&(clock2q_memory){count_and_take, count_and_give_back});
}

void end_count(clock2q_memory before, size_t *size) {
    clock2q_use_memory(&before);
    *size += counted;
}

int made_slots(uint32_t status) {
    if (status == CLOCK2Q_DONE) return 0;
    PyErr_NoMemory();
    return -1;
}

int make_pairs(Cache *cache) {
    if (!cache->is_made) {
        PyErr_SetString(PyExc_RuntimeError, "Cache.__init__ wasn't called");
        return -1;
    }
    if (cache->capacity == 0) {
        PyErr_SetString(PyExc_ValueError, "value too large: maxsize is 0");
        return -1;
    }
    pair *pairs = PyMem_Calloc(cache->capacity, sizeof *pairs);
    uint64_t *weights = cache->weigher == NULL ? NULL : PyMem_Calloc(cache->capacity, sizeof *weights);
    double *deadlines = cache->timer == NULL ? NULL : PyMem_Calloc(cache->capacity, sizeof *deadlines);
    if (pairs == NULL || (weights == NULL && cache->weigher != NULL) || (deadlines == NULL && cache->timer != NULL)) {
        PyMem_Free(pairs);
        PyMem_Free(weights);
        PyMem_Free(deadlines);
        PyErr_NoMemory();
        return -1;
    }
    cache->pairs = pairs;
    cache->weights = weights;
    cache->deadlines = deadlines;
    set_plainness(cache);
    return 0;
}

void set_plainness(Cache *cache) {
    cache->finds_plainly = cache->pairs != NULL && cache->timer == NULL;
    cache->stores_plainly = cache->weigher == NULL && cache->timer == NULL && cache->maxsize == cache->capacity;
}

void set_weight(Cache *cache, size_t slot, uint64_t weight) {
    if (cache->weights == NULL) return;
    cache->weight = cache->weight - cache->weights[slot] + weight;
    cache->weights[slot] = weight;
}

/* Sets the weight of the pair at a slot and when it expires, if pairs have either. */
static inline void set_terms(Cache *cache, size_t slot, const pair_terms *terms) {
    if (terms == NULL) return;
    set_weight(cache, slot, terms->weight);
    if (cache->deadlines != NULL) cache->deadlines[slot] = terms->deadline;
}

void replace_value(Cache *cache, size_t slot, PyObject *value, const pair_terms *terms) {
    pair *at = &cache->pairs[slot];
    PyObject *left = at->value;
    clock2q_tokens_hit(&cache->slots, slot);
    at->value = Py_NewRef(value);
    set_terms(cache, slot, terms);
    cache->version++;
    if (cache->listener != NULL) call_listener(cache, (pair){at->key, left}, REPLACED);
    Py_DECREF(left);
}

/* Gives a key a slot beside those of its hash, and returns it. Writes the pair that gave way, or none. */
static size_t enter_beside(Cache *cache, uint64_t hash, pair *gave_way) {
    size_t count = 0, last = 0;
    for (clock2q_found alike; (alike = clock2q_tokens_seek(&cache->slots, spread(hash), count)).is_found; count++) {
        last = alike.slot;
    }
    if (count >= MOST_ALIKE) *gave_way = take_pair(cache, last);
    return clock2q_tokens_enter(&cache->slots, spread(hash), ++cache->number);
}

void add_pair(Cache *cache, PyObject *key, uint64_t hash, PyObject *value, const pair_terms *terms) {
    pair gave_way = {NULL, NULL};
    clock2q_admitted place = clock2q_tokens_admit(&cache->slots, spread(hash));
    if (!place.has_entered) place.slot = enter_beside(cache, hash, &gave_way);
    pair left = cache->pairs[place.slot];
    cache->pairs[place.slot] = (pair){Py_NewRef(key), Py_NewRef(value)};
    set_terms(cache, place.slot, terms);
    if (place.slot >= cache->reached) cache->reached = place.slot + 1;
    cache->version++;
    if (left.key != NULL) drop_pair(cache, left, EVICTED);
    if (gave_way.key != NULL) drop_pair(cache, gave_way, EVICTED);
}

int store_pair(Cache *cache, PyObject *key, uint64_t hash, PyObject *value) {
    for (int tries = 0; tries < MOST_TRIES; tries++) {
        if (!cache->stores_plainly) return store_within(cache, key, hash, value);
        if (cache->pairs == NULL && make_pairs(cache) < 0) return -1;
        found_pair found = look_at_pairs(cache, key, hash);
        if (found.is == FAILED) return -1;
        if (found.is == CHANGED) continue;
        if (found.is == PRESENT) replace_value(cache, found.slot, value, NULL);
        else add_pair(cache, key, hash, value, NULL);
        return 0;
    }
    return too_many_tries(MOST_TRIES);
}

pair take_pair(Cache *cache, size_t slot) {
    pair left = cache->pairs[slot];
    clock2q_tokens_remove(&cache->slots, slot);
    set_free(cache, slot);
    return left;
}

void clear_pairs(Cache *cache) {
    pair *pairs = cache->pairs;
    size_t reached = cache->reached;
    if (cache->slots.at != NULL) clock2q_tokens_clear(&cache->slots);
    PyMem_Free(cache->weights);
    PyMem_Free(cache->deadlines);
    cache->pairs = NULL;
    cache->weights = NULL;
    cache->deadlines = NULL;
    cache->reached = 0;
    cache->weight = 0;
    cache->version++;
    set_plainness(cache);
    for (size_t slot = 0; slot < reached; slot++)
        if (pairs[slot].key != NULL) drop_pair(cache, pairs[slot], CLEARED);
    PyMem_Free(pairs);
}

void set_key_error(PyObject *key) {
    PyObject *args = PyTuple_Pack(1, key); /* a tuple alone would be taken for the arguments */
    if (args == NULL) return;
    PyErr_SetObject(PyExc_KeyError, args);
    Py_DECREF(args);
}

PyObject *refuse_copy(PyObject *self, PyObject *unused) {
    (void)unused;
    PyObject *name = PyObject_GetAttrString((PyObject *)Py_TYPE(self), "__name__");
    if (name != NULL) PyErr_Format(PyExc_TypeError, "a %U can't be pickled or copied", name);
    Py_XDECREF(name);
    return NULL;
}
