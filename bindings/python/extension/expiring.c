/* Pairs that expire: each look-up that finds one asks the timer, and takes it out if its time is over. */
#include "pairs.h"

int read_timer(Cache *cache, double *now) {
    PyObject *timer = Py_NewRef(cache->timer); /* it may be the last reference but the cache's, which other code may drop */
    PyObject *said = PyObject_CallNoArgs(timer);
    Py_DECREF(timer);
    if (said == NULL) return -1;
    *now = PyFloat_AsDouble(said);
    Py_DECREF(said);
    return *now == -1.0 && PyErr_Occurred() ? -1 : 0;
}

found_pair look_at_timed_pairs(Cache *cache, PyObject *key, uint64_t hash, int leaves) {
    if (cache->pairs == NULL) return (found_pair){ABSENT, 0};
    clock2q_found alike = clock2q_tokens_seek(&cache->slots, spread(hash), 0);
    if (!alike.is_found) return (found_pair){ABSENT, 0};
    found_pair found = {PRESENT, alike.slot};
    if (cache->pairs[alike.slot].key != key) found = compare_alike(cache, key, hash, alike.slot);
    uint64_t version = cache->version;
    double now;
    if (found.is != PRESENT) return found;
    if (read_timer(cache, &now) < 0) return (found_pair){FAILED, 0};
    if (version != cache->version) return (found_pair){CHANGED, 0};
    if (!has_expired(cache, found.slot, now)) return found;
    if (!leaves) return (found_pair){ABSENT, 0};
    drop_pair(cache, take_pair(cache, found.slot), EXPIRED);
    return (found_pair){CHANGED, 0};
}

int drop_expired_victims(Cache *cache) {
    clock2q_found next;
    double now;
    if (cache->timer == NULL) return 0;
    if (read_timer(cache, &now) < 0) return -1;
    while (cache->pairs != NULL && (next = clock2q_tokens_next_victim(&cache->slots)).is_found) {
        if (!has_expired(cache, next.slot, now)) break;
        drop_pair(cache, take_pair(cache, next.slot), EXPIRED);
    }
    return 0;
}

/* Takes out all pairs that have expired at this time, to a list. Returns -1 with an exception if there is no memory. */
static int take_expired(Cache *cache, double now, PyObject *list) {
    for (size_t slot = 0; slot < cache->reached; slot++) {
        if (cache->pairs[slot].key == NULL || !has_expired(cache, slot, now)) continue;
        if (add_left(list, take_pair(cache, slot), EXPIRED) < 0) return -1;
    }
    return 0;
}

/* Returns a list of the pairs in a list of what left, as tuples. */
static PyObject *as_tuples(PyObject *left) {
    Py_ssize_t count = PyList_Size(left) / 3;
    PyObject *list = PyList_New(count);
    for (Py_ssize_t i = 0; list != NULL && i < count; i++) {
        PyObject *item = PyTuple_Pack(2, PyList_GetItem(left, 3 * i), PyList_GetItem(left, 3 * i + 1));
        if (item == NULL) Py_CLEAR(list);
        else PyList_SetItem(list, i, item);
    }
    return list;
}

PyObject *cache_expire(Cache *self, PyObject *const *args, Py_ssize_t count, PyObject *names) {
    int is_named = names != NULL && tuple_size(names) == 1 && count == 0 &&
                   PyUnicode_CompareWithASCIIString(tuple_item(names, 0), "time") == 0;
    if (count + (names == NULL ? 0 : tuple_size(names)) > 1 || (names != NULL && tuple_size(names) > 0 && !is_named))
        return PyErr_Format(PyExc_TypeError, "expire() takes at most a time");
    int is_given = (count == 1 || is_named) && args[0] != Py_None;
    double now = is_given ? PyFloat_AsDouble(args[0]) : 0;
    if (is_given && now == -1.0 && PyErr_Occurred()) return NULL;
    PyObject *left = PyList_New(0);
    if (left == NULL) return NULL;
    int failed = !is_given && self->timer != NULL && read_timer(self, &now) < 0;
    failed = failed || (self->timer != NULL && take_expired(self, now, left) < 0);
    PyObject *list = failed ? NULL : as_tuples(left);
    drop_pairs(self, left);
    return list;
}
