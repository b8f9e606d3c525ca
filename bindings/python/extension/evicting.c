/* Pairs that leave without a new key in their slots: the next of all, those above a smaller size, and those that make
 * room for a heavy one. */
#include "pairs.h"

clock2q_found evict_pair(Cache *cache, pair *left) {
    clock2q_found evicted = {0, false};
    if (cache->pairs != NULL) evicted = clock2q_tokens_evict(&cache->slots);
    if (!evicted.is_found) return evicted;
    *left = cache->pairs[evicted.slot];
    set_free(cache, evicted.slot);
    return evicted;
}

/* Raises a KeyError, whose traceback doesn't show the exception that is being handled, as MutableMapping's. */
static PyObject *nothing_to_pop(void) {
    PyObject *error = PyObject_CallFunction(PyExc_KeyError, "s", "popitem(): the cache is empty");
    if (error == NULL) return NULL;
    PyException_SetCause(error, NULL);
    PyErr_SetObject(PyExc_KeyError, error);
    Py_DECREF(error);
    return NULL;
}

PyObject *cache_popitem(Cache *self, PyObject *unused) {
    (void)unused;
    PyObject *item = PyTuple_New(2); /* first, since the collector may run other code here */
    pair left;
    if (item == NULL || drop_expired_victims(self) < 0) {
        Py_XDECREF(item);
        return NULL;
    }
    if (!evict_pair(self, &left).is_found) {
        Py_DECREF(item);
        return nothing_to_pop();
    }
    set_tuple_item(item, 0, left.key);
    set_tuple_item(item, 1, left.value);
    if (self->listener != NULL) call_listener(self, left, EVICTED);
    return item;
}

PyObject *cache_next_victim(Cache *self, PyObject *unused) {
    (void)unused;
    PyObject *item = PyTuple_New(2); /* first, since the collector may run other code here */
    clock2q_found next = {0, false};
    if (item == NULL || drop_expired_victims(self) < 0) {
        Py_XDECREF(item);
        return NULL;
    }
    if (self->pairs != NULL) next = clock2q_tokens_next_victim(&self->slots);
    if (!next.is_found) {
        Py_DECREF(item);
        Py_RETURN_NONE;
    }
    set_tuple_item(item, 0, Py_NewRef(self->pairs[next.slot].key));
    set_tuple_item(item, 1, Py_NewRef(self->pairs[next.slot].value));
    return item;
}

int resize_pairs(Cache *cache, size_t maxsize) {
    int failed = 0;
    pair left = {NULL, NULL};
    PyObject *list = PyList_New(0);
    if (list == NULL) return -1;
    cache->maxsize = maxsize;
    cache->version++; /* so a look-up that is under way, and whoever stores after it, sees how many there may be */
    set_plainness(cache);
    while (!failed && clock2q_tokens_len(&cache->slots) > maxsize) {
        evict_pair(cache, &left);
        failed = add_left(list, left, EVICTED) < 0;
    }
    drop_pairs(cache, list);
    return failed ? -1 : 0;
}

/* Whether others have to leave before a pair is stored: one of a key that has a slot, or of a new one. */
static int is_too_much(Cache *cache, found_pair place, uint64_t weight) {
    if (cache->weights != NULL) {
        uint64_t own = place.is == PRESENT ? cache->weights[place.slot] : 0;
        if (cache->weight - own > cache->max_weight - weight) return 1;
    }
    return place.is == ABSENT && cache->maxsize < cache->capacity && clock2q_tokens_len(&cache->slots) >= cache->maxsize;
}

/* Stores a pair after a look-up has found its key or not. Those that have to leave first go to a list. */
static int store_after(Cache *cache, PyObject *key, uint64_t hash, PyObject *value, const pair_terms *terms, found_pair place,
                       PyObject *list) {
    if (place.is == PRESENT) clock2q_tokens_hit(&cache->slots, place.slot);
    while (is_too_much(cache, place, terms->weight)) {
        pair left = {NULL, NULL};
        int is_own = evict_pair(cache, &left).slot == place.slot && place.is == PRESENT; /* for its own new value */
        if (is_own) place.is = ABSENT;
        if (add_left(list, left, is_own ? REPLACED : EVICTED) < 0) return -1;
    }
    if (place.is == PRESENT) replace_value(cache, place.slot, value, terms);
    else add_pair(cache, key, hash, value, terms);
    return 0;
}

/* Asks for the weight of a pair, and writes it. Returns -1 with an exception if there is none, or it is too heavy. */
static int weigh(Cache *cache, PyObject *key, PyObject *value, uint64_t *weight) {
    PyObject *said = PyObject_CallFunctionObjArgs(cache->weigher, key, value, NULL);
    Py_ssize_t number = said == NULL ? -1 : PyNumber_AsSsize_t(said, NULL); /* a number beyond is clipped, and too large */
    Py_XDECREF(said);
    if (number == -1 && PyErr_Occurred()) return -1;
    if (number < 0 || (uint64_t)number > cache->max_weight) {
        PyErr_SetString(PyExc_ValueError, number < 0 ? "a weight is below 0" : "value too large");
        return -1;
    }
    *weight = (uint64_t)number;
    return 0;
}

/* The list is made before the look-up, since the collector may run other code then. */
int store_within(Cache *cache, PyObject *key, uint64_t hash, PyObject *value) {
    pair_terms terms = {0, 0};
    if (cache->weigher != NULL && weigh(cache, key, value, &terms.weight) < 0) return -1;
    if (cache->timer != NULL && read_timer(cache, &terms.deadline) < 0) return -1;
    terms.deadline += cache->ttl;
    PyObject *list = PyList_New(0);
    if (list == NULL) return -1;
    found_pair found = {CHANGED, 0};
    for (int tries = 0; tries < MOST_TRIES && found.is == CHANGED; tries++) {
        if (cache->pairs == NULL && make_pairs(cache) < 0) found.is = FAILED;
        else found = look_at_pairs(cache, key, hash);
    }
    if (found.is == CHANGED) found.is = too_many_tries(MOST_TRIES);
    int failed = found.is == FAILED || store_after(cache, key, hash, value, &terms, found, list) < 0;
    drop_pairs(cache, list);
    return failed ? -1 : 0;
}
