/* The decorator: a function whose results are kept, called as functools.lru_cache's. */
#include "cached.h"

/* Whether the key of a call without names is its one argument itself, as in functools. */
static inline int is_own_key(PyObject *const *args, Py_ssize_t count) {
    return count == 1 && (PyUnicode_CheckExact(args[0]) || PyLong_CheckExact(args[0]));
}

/* Makes the key of a call as functools does: that argument, or else a tuple of the arguments, the mark, the names and
 * values of the keyword arguments, and, if typed, all their types. */
static inline PyObject *key_of(Cached *self, PyObject *const *args, Py_ssize_t count, PyObject *names) {
    Py_ssize_t named = names == NULL ? 0 : tuple_size(names), at = 0;
    if (!self->is_typed && named == 0 && is_own_key(args, count)) return Py_NewRef(args[0]);
    PyObject *key = PyTuple_New(count + (named ? 1 + 2 * named : 0) + (self->is_typed ? count + named : 0));
    if (key == NULL) return NULL;
    for (Py_ssize_t i = 0; i < count; i++) set_tuple_item(key, at++, Py_NewRef(args[i]));
    if (named) set_tuple_item(key, at++, Py_NewRef(self->keyword_mark));
    for (Py_ssize_t i = 0; i < named; i++) {
        set_tuple_item(key, at++, Py_NewRef(tuple_item(names, i)));
        set_tuple_item(key, at++, Py_NewRef(args[count + i]));
    }
    for (Py_ssize_t i = 0; self->is_typed && i < count + named; i++)
        set_tuple_item(key, at++, Py_NewRef((PyObject *)Py_TYPE(args[i])));
    return key;
}

PyObject *kept_result(Cached *self, PyObject *key, uint64_t hash) {
    PyObject *value = NULL;
    if (self->results != NULL) {
        value = Py_XNewRef(PyDict_GetItemWithError(self->results, key));
    } else if (self->cache != NULL) {
        found_pair found = find_pair(self->cache, key, hash);
        if (found.is == PRESENT) value = Py_NewRef(self->cache->pairs[found.slot].value);
    }
    if (value != NULL) self->hits++;
    return value;
}

int keep_result(Cached *self, PyObject *key, uint64_t hash, PyObject *value) {
    if (self->results != NULL) return PyDict_SetItem(self->results, key, value);
    return self->cache == NULL ? 0 : store_pair(self->cache, key, hash, value);
}

/* Returns what the function returns for a key whose result isn't kept, after keeping that. */
Py_NO_INLINE static PyObject *new_result(Cached *self, const made_call *call) {
    if (self->is_locked) return result_of_flight(self, call);
    self->misses++;
    PyObject *value = PyObject_Vectorcall(self->function, call->args, (size_t)call->count, call->names);
    if (value != NULL && keep_result(self, call->key, call->hash, value) < 0) Py_CLEAR(value);
    return value;
}

/* Returns the value of a key that was found or not: a new reference to what is kept, or what the function returns. */
static inline PyObject *value_of_call(Cached *self, PyObject *key, uint64_t hash, found_pair found, PyObject *const *args,
                                      Py_ssize_t count, PyObject *names) {
    if (found.is == FAILED) return NULL;
    if (found.is == PRESENT) {
        self->hits++;
        return Py_NewRef(self->cache->pairs[found.slot].value);
    }
    return new_result(self, &(made_call){key, hash, args, count, names});
}

/* Writes a hash of the arguments, made of theirs as that of a tuple is. Returns -1 with an exception if one has none. */
static inline int hash_of_all(PyObject *const *args, Py_ssize_t count, uint64_t *hash) {
    uint64_t all = UINT64_C(2870177450012600261), one;
    for (Py_ssize_t i = 0; i < count; i++) {
        if (hash_of(args[i], &one) < 0) return -1;
        all += one * UINT64_C(14029467366897019727);
        all = (all << 31 | all >> 33) * UINT64_C(11400714785074694791);
    }
    *hash = all;
    return 0;
}

/* Whether a key is a tuple of these arguments and no others, each the same object. */
static inline int is_same(PyObject *key, PyObject *const *args, Py_ssize_t count) {
    if (!PyTuple_CheckExact(key) || tuple_size(key) != count) return 0;
    for (Py_ssize_t i = 0; i < count; i++)
        if (tuple_item(key, i) != args[i]) return 0;
    return 1;
}

/* Answers a call whose arguments have this hash, and aren't the same objects as those in the first key of the hash, at
 * `slot`, if there is one. To make the tuple may run other code, which the version shows. */
Py_NO_INLINE static PyObject *call_with_tuple(Cached *self, uint64_t hash, clock2q_found alike, PyObject *const *args,
                                              Py_ssize_t count) {
    uint64_t version = self->cache->version;
    PyObject *key = key_of(self, args, count, NULL);
    if (key == NULL) return NULL;
    found_pair found = {ABSENT, 0};
    if (version != self->cache->version || self->cache->timer != NULL) found.is = CHANGED;
    else if (alike.is_found) found = compare_alike(self->cache, key, hash, alike.slot);
    PyObject *value = value_of_call(self, key, hash, hit_if_present(self->cache, key, hash, found), args, count, NULL);
    Py_DECREF(key);
    return value;
}

/* Answers a call whose key is a tuple of its arguments, which is made only if they aren't those that are held. */
static inline PyObject *call_by_arguments(Cached *self, PyObject *const *args, Py_ssize_t count) {
    Cache *cache = self->cache;
    clock2q_found alike = {0, false};
    uint64_t hash;
    if (hash_of_all(args, count, &hash) < 0) return NULL;
    if (!cache->finds_plainly) return call_with_tuple(self, hash, alike, args, count);
    alike = clock2q_tokens_seek(&cache->slots, spread(hash), 0);
    if (!alike.is_found || !is_same(cache->pairs[alike.slot].key, args, count))
        return call_with_tuple(self, hash, alike, args, count);
    clock2q_tokens_hit(&cache->slots, alike.slot);
    self->hits++;
    return Py_NewRef(cache->pairs[alike.slot].value);
}

static PyObject *call_kept(PyObject *object, PyObject *const *args, size_t flags, PyObject *names) {
    Cached *self = (Cached *)object;
    Py_ssize_t count = PyVectorcall_NARGS(flags);
    int is_plain = !self->is_typed && (names == NULL || tuple_size(names) == 0);
    if (is_plain && !is_own_key(args, count)) return call_by_arguments(self, args, count);
    PyObject *key = key_of(self, args, count, names), *value = NULL;
    uint64_t hash;
    if (key == NULL) return NULL;
    if (hash_of(key, &hash) == 0) {
        found_pair found = find_pair(self->cache, key, hash);
        value = value_of_call(self, key, hash, found, args, count, names);
    }
    Py_DECREF(key);
    return value;
}

/* The same without a limit. */
static PyObject *call_all_kept(PyObject *object, PyObject *const *args, size_t flags, PyObject *names) {
    Cached *self = (Cached *)object;
    Py_ssize_t count = PyVectorcall_NARGS(flags);
    PyObject *key = key_of(self, args, count, names);
    if (key == NULL) return NULL;
    PyObject *value = Py_XNewRef(PyDict_GetItemWithError(self->results, key));
    uint64_t hash = 0;
    if (value != NULL) self->hits++;
    else if (!PyErr_Occurred() && (!self->is_locked || hash_of(key, &hash) == 0))
        value = new_result(self, &(made_call){key, hash, args, count, names});
    Py_DECREF(key);
    return value;
}

PyObject *key_of_call(Cached *self, PyObject *const *args, Py_ssize_t count, PyObject *names) {
    if (self->key_function == NULL) return key_of(self, args, count, names);
    return PyObject_Vectorcall(self->key_function, args, (size_t)count, names);
}

/* The same as those two, with a function for the key. */
static PyObject *call_by_key(PyObject *object, PyObject *const *args, size_t flags, PyObject *names) {
    Cached *self = (Cached *)object;
    Py_ssize_t count = PyVectorcall_NARGS(flags);
    PyObject *key = key_of_call(self, args, count, names), *value = NULL;
    uint64_t hash;
    if (key == NULL) return NULL;
    if (hash_of(key, &hash) == 0) {
        value = kept_result(self, key, hash);
        if (value == NULL && !PyErr_Occurred()) value = new_result(self, &(made_call){key, hash, args, count, names});
    }
    Py_DECREF(key);
    return value;
}

/* The same, with nothing kept: arguments need no hash. */
static PyObject *call_none_kept(PyObject *object, PyObject *const *args, size_t flags, PyObject *names) {
    Cached *self = (Cached *)object;
    self->misses++;
    return PyObject_Vectorcall(self->function, args, (size_t)PyVectorcall_NARGS(flags), names);
}

vectorcallfunc call_for(const Cached *self) {
    if (self->results == NULL && self->cache == NULL) return call_none_kept;
    if (self->key_function != NULL) return call_by_key;
    return self->results != NULL ? call_all_kept : call_kept;
}
