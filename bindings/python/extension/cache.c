/* The mapping: what collections.abc.MutableMapping doesn't add in clock2q/__init__.py. */
#include "pairs.h"

static int cache_traverse(Cache *self, visitproc visit, void *arg) {
    Py_VISIT(Py_TYPE((PyObject *)self));
    Py_VISIT(self->weigher);
    Py_VISIT(self->timer);
    Py_VISIT(self->listener);
    Py_VISIT(self->postponed);
    for (size_t slot = 0; slot < self->reached; slot++) {
        Py_VISIT(self->pairs[slot].key);
        Py_VISIT(self->pairs[slot].value);
    }
    return 0;
}

/* Drops what it holds. The listener doesn't hear of the pairs of a cache that is gone. */
static int cache_tp_clear(Cache *self) {
    Py_CLEAR(self->listener);
    Py_CLEAR(self->postponed);
    clear_pairs(self);
    Py_CLEAR(self->weigher);
    Py_CLEAR(self->timer);
    set_plainness(self);
    return 0;
}

static void cache_dealloc(Cache *self) {
    PyObject_GC_UnTrack(self);
    BEGIN_NESTED(self, cache_dealloc)
    if (self->weak_references != NULL) PyObject_ClearWeakRefs((PyObject *)self);
    clock2q_tokens_free(&self->slots);
    cache_tp_clear(self);
    free_object((PyObject *)self);
    END_NESTED
}

static Py_ssize_t cache_length(Cache *self) {
    return length_of(self);
}

/* Finds a key, and changes nothing. */
static found_pair peek_key(Cache *self, PyObject *key) {
    uint64_t hash;
    if (hash_of(key, &hash) < 0) return (found_pair){FAILED, 0};
    found_pair found = {CHANGED, 0};
    for (int tries = 0; self->timer != NULL && found.is == CHANGED && tries < MOST_TRIES; tries++)
        found = look_at_timed_pairs(self, key, hash, 0);
    if (self->timer != NULL) return found.is == CHANGED ? (found_pair){too_many_tries(MOST_TRIES), 0} : found;
    return peek_pair(self, key, hash);
}

/* Finds a key that is to be taken out, and records no hit. */
static found_pair find_to_take(Cache *self, PyObject *key) {
    uint64_t hash;
    return hash_of(key, &hash) < 0 ? (found_pair){FAILED, 0} : peek_pair(self, key, hash);
}

/* Finds a key, writes its hash, records a hit and counts that. */
static inline found_pair count_key(Cache *self, PyObject *key, uint64_t *hash) {
    found_pair found = hash_of(key, hash) < 0 ? (found_pair){FAILED, 0} : find_pair(self, key, *hash);
    if (found.is == PRESENT) self->hits++;
    if (found.is == ABSENT) self->misses++;
    return found;
}

/* What `cache[key]` is if the key isn't there: what a subclass's __missing__ returns, or a KeyError. */
static PyObject *missing(Cache *self, PyObject *key) {
    if (!self->has_missing) {
        set_key_error(key);
        return NULL;
    }
    PyObject *method = missing_of_type(self);
    if (method == NULL) return NULL;
    PyObject *value = PyObject_CallFunctionObjArgs(method, self, key, NULL);
    Py_DECREF(method);
    return value;
}

static PyObject *cache_subscript(Cache *self, PyObject *key) {
    uint64_t hash;
    found_pair found = count_key(self, key, &hash);
    if (found.is == PRESENT) return Py_NewRef(self->pairs[found.slot].value);
    return found.is == ABSENT ? missing(self, key) : NULL;
}

static int cache_ass_subscript(Cache *self, PyObject *key, PyObject *value) {
    uint64_t hash;
    if (value != NULL) return hash_of(key, &hash) < 0 ? -1 : store_pair(self, key, hash, value);
    found_pair found = find_to_take(self, key);
    if (found.is == ABSENT) set_key_error(key);
    if (found.is != PRESENT) return -1;
    drop_pair(self, take_pair(self, found.slot), REMOVED);
    return 0;
}

static int cache_contains(Cache *self, PyObject *key) {
    return (int)peek_key(self, key).is;
}

/* Reads the arguments `key` and `default` of a method, of which some are named or too many or too few. */
Py_NO_INLINE static PyObject *named_key_and_default(const char *name, PyObject *const *args, Py_ssize_t count,
                                                    PyObject *names, PyObject **otherwise) {
    Py_ssize_t named = names == NULL ? 0 : tuple_size(names);
    PyObject *given[2] = {count > 0 ? args[0] : NULL, count > 1 ? args[1] : NULL};
    int is_wrong = count + named > 2;
    for (Py_ssize_t i = 0; i < named && !is_wrong; i++) {
        PyObject *word = tuple_item(names, i);
        int at = PyUnicode_CompareWithASCIIString(word, "key") == 0 ? 0 : 1;
        is_wrong = given[at] != NULL || (at == 1 && PyUnicode_CompareWithASCIIString(word, "default") != 0);
        given[at] = args[count + i];
    }
    if (is_wrong || given[0] == NULL) {
        PyErr_Format(PyExc_TypeError, "%s() takes a key and at most a default", name);
        return NULL;
    }
    if (given[1] != NULL) *otherwise = given[1];
    return given[0];
}

/* Reads the arguments `key` and `default` of a method, which may be named. Leaves the default as it was
 * if it isn't there. Returns the key, or NULL with an exception. */
static inline PyObject *key_and_default(const char *name, PyObject *const *args, Py_ssize_t count, PyObject *names,
                                        PyObject **otherwise) {
    if (names != NULL || count < 1 || count > 2) return named_key_and_default(name, args, count, names, otherwise);
    if (count == 2) *otherwise = args[1];
    return args[0];
}

/* Returns the value of a key, or the default, and counts that. */
static inline PyObject *get_or(Cache *self, PyObject *key, PyObject *otherwise) {
    uint64_t hash;
    found_pair found = count_key(self, key, &hash);
    if (found.is == PRESENT) return Py_NewRef(self->pairs[found.slot].value);
    return found.is == ABSENT ? Py_NewRef(otherwise) : NULL;
}

Py_NO_INLINE static PyObject *get_named(Cache *self, PyObject *const *args, Py_ssize_t count, PyObject *names) {
    PyObject *otherwise = Py_None, *key = named_key_and_default("get", args, count, names, &otherwise);
    return key == NULL ? NULL : get_or(self, key, otherwise);
}

static PyObject *cache_get(Cache *self, PyObject *const *args, Py_ssize_t count, PyObject *names) {
    if (names != NULL || count < 1 || count > 2) return get_named(self, args, count, names);
    return get_or(self, args[0], count == 2 ? args[1] : Py_None);
}

static PyObject *cache_peek(Cache *self, PyObject *const *args, Py_ssize_t count, PyObject *names) {
    PyObject *otherwise = Py_None, *key = key_and_default("peek", args, count, names, &otherwise);
    if (key == NULL) return NULL;
    found_pair found = peek_key(self, key);
    if (found.is == PRESENT) return Py_NewRef(self->pairs[found.slot].value);
    return found.is == ABSENT ? Py_NewRef(otherwise) : NULL;
}

static PyObject *cache_setdefault(Cache *self, PyObject *const *args, Py_ssize_t count, PyObject *names) {
    PyObject *otherwise = Py_None, *key = key_and_default("setdefault", args, count, names, &otherwise);
    uint64_t hash;
    if (key == NULL) return NULL;
    found_pair found = count_key(self, key, &hash);
    if (found.is == PRESENT) return Py_NewRef(self->pairs[found.slot].value);
    return found.is == ABSENT && store_pair(self, key, hash, otherwise) == 0 ? Py_NewRef(otherwise) : NULL;
}

static PyObject *cache_pop(Cache *self, PyObject *const *args, Py_ssize_t count, PyObject *names) {
    PyObject *otherwise = NULL, *key = key_and_default("pop", args, count, names, &otherwise);
    if (key == NULL) return NULL;
    found_pair found = find_to_take(self, key);
    if (found.is == PRESENT) {
        pair left = take_pair(self, found.slot);
        Py_INCREF(left.value);
        drop_pair(self, left, REMOVED);
        return left.value;
    }
    if (found.is == ABSENT && otherwise == NULL) set_key_error(key);
    return found.is == ABSENT ? Py_XNewRef(otherwise) : NULL;
}

static PyObject *cache_resize(Cache *self, PyObject *number) {
    Py_ssize_t maxsize = PyNumber_AsSsize_t(number, PyExc_ValueError);
    if (maxsize == -1 && PyErr_Occurred()) return NULL;
    if (!self->is_made) return PyErr_Format(PyExc_RuntimeError, "Cache.__init__ wasn't called");
    if (maxsize < 1 || maxsize > CLOCK2Q_MAX_CAPACITY)
        return PyErr_Format(PyExc_ValueError, "maxsize is from 1 to %d", CLOCK2Q_MAX_CAPACITY);
    int is_more = (size_t)maxsize > self->capacity;
    if ((is_more ? grow_pairs : resize_pairs)(self, (size_t)maxsize) < 0) return NULL;
    Py_RETURN_NONE;
}

/* As of a dict: without the keys and values. */
static PyObject *cache_sizeof(Cache *self, PyObject *unused) {
    (void)unused;
    Py_ssize_t own = basic_size((PyObject *)self);
    if (own < 0) return NULL;
    size_t size = (size_t)own + self->slots_size;
    if (self->pairs != NULL) size += self->capacity * sizeof *self->pairs;
    if (self->weights != NULL) size += self->capacity * sizeof *self->weights;
    if (self->deadlines != NULL) size += self->capacity * sizeof *self->deadlines;
    return PyLong_FromSize_t(size);
}

static PyObject *cache_clear(Cache *self, PyObject *unused) {
    (void)unused;
    clear_pairs(self);
    Py_RETURN_NONE;
}

/* Lists all keys, or all keys and values in turn, but those that have expired. The list and the time are there before
 * the pairs are read, since other code may run until then. */
static PyObject *list_pairs(Cache *self, int has_values) {
    double now = 0;
    PyObject *list = PyList_New(0);
    if (list == NULL || (self->timer != NULL && read_timer(self, &now) < 0)) {
        Py_XDECREF(list);
        return NULL;
    }
    for (size_t slot = 0; slot < self->reached; slot++) {
        pair at = self->pairs[slot];
        if (at.key == NULL || has_expired(self, slot, now)) continue;
        if (PyList_Append(list, at.key) == 0 && (!has_values || PyList_Append(list, at.value) == 0)) continue;
        Py_DECREF(list);
        return NULL;
    }
    return list;
}

static PyObject *cache_iter(Cache *self) {
    PyObject *list = list_pairs(self, 0);
    PyObject *iterator = list == NULL ? NULL : PyObject_GetIter(list);
    Py_XDECREF(list);
    return iterator;
}

static PyObject *cache_pairs(Cache *self, PyObject *unused) {
    (void)unused;
    PyObject *flat = list_pairs(self, 1);
    if (flat == NULL) return NULL;
    Py_ssize_t length = PyList_Size(flat) / 2;
    PyObject *list = PyList_New(length);
    for (Py_ssize_t i = 0; list != NULL && i < length; i++) {
        PyObject *item = PyTuple_Pack(2, PyList_GetItem(flat, 2 * i), PyList_GetItem(flat, 2 * i + 1));
        if (item == NULL) Py_CLEAR(list);
        else PyList_SetItem(list, i, item);
    }
    Py_DECREF(flat);
    return list;
}

#define WITH_DEFAULT(function) (PyCFunction)(void (*)(void))function, METH_FASTCALL | METH_KEYWORDS

static PyMethodDef cache_methods[] = {
    {"get", WITH_DEFAULT(cache_get),
     "get($self, /, key, default=None)\n--\n\nReturn the value of a key, or the default if the key isn't there."},
    {"peek", WITH_DEFAULT(cache_peek),
     "peek($self, /, key, default=None)\n--\n\nReturn what get returns, and change nothing."},
    {"setdefault", WITH_DEFAULT(cache_setdefault),
     "setdefault($self, /, key, default=None)\n--\n\nReturn the value of a key, which is stored if the key isn't there."},
    {"pop", WITH_DEFAULT(cache_pop),
     "pop($self, /, key, default=<raise KeyError>)\n--\n\nRemove a key and return its value, or the default if there is no key."},
    {"popitem", (PyCFunction)cache_popitem, METH_NOARGS,
     "popitem($self, /)\n--\n\nRemove and return the (key, value) pair that would leave next; raise KeyError if there is none."},
    {"next_victim", (PyCFunction)cache_next_victim, METH_NOARGS,
     "next_victim($self, /)\n--\n\nReturn the (key, value) pair that popitem would remove, or None."},
    {"resize", (PyCFunction)cache_resize, METH_O,
     "resize($self, maxsize, /)\n--\n\nHold at most maxsize keys from now on.\n\n"
     "The pairs that are too many leave, in the order of popitem. If maxsize is more than there was ever room for,\n"
     "memory is taken for it. No pair leaves then, each keeps its turn, and keys that left stay remembered."},
    {"expire", WITH_DEFAULT(cache_expire),
     "expire($self, /, time=None)\n--\n\nRemove what has expired, now or at another time, and return a list of those (key, value) pairs."},
    {"clear", (PyCFunction)cache_clear, METH_NOARGS,
     "clear($self, /)\n--\n\nRemove all pairs and forget their keys; hits and misses stay."},
    {"_pairs", (PyCFunction)cache_pairs, METH_NOARGS, "_pairs($self, /)\n--\n\nReturn a list of all (key, value) pairs."},
    {"__sizeof__", (PyCFunction)cache_sizeof, METH_NOARGS,
     "__sizeof__($self, /)\n--\n\nReturn how many bytes the cache takes, without its keys and values."},
    {NULL, NULL, 0, NULL}};

static PyMemberDef cache_members[] = {
    {"maxsize", T_PYSSIZET, offsetof(Cache, maxsize), READONLY, "How many keys it holds at most."},
    {"hits", T_ULONGLONG, offsetof(Cache, hits), READONLY, "How often [], get or setdefault found a key."},
    {"misses", T_ULONGLONG, offsetof(Cache, misses), READONLY, "How often [], get or setdefault found none."},
    {"__weaklistoffset__", T_PYSSIZET, offsetof(Cache, weak_references), READONLY, NULL},
    {NULL, 0, 0, 0, NULL}};

static PyType_Slot cache_type_slots[] = {{Py_tp_init, cache_init},
                                         {Py_tp_doc, "Cache(maxsize, weigher=None, max_weight=None, *, ttl=None, timer=None, listener=None, history=None)\n--\n\n"
                                                     "What clock2q.Cache adds to."},
                                         {Py_tp_dealloc, cache_dealloc},
                                         {Py_tp_traverse, cache_traverse},
                                         {Py_tp_clear, cache_tp_clear},
                                         {Py_tp_methods, cache_methods},
                                         {Py_tp_members, cache_members},
                                         {Py_tp_getset, cache_properties},
                                         {Py_tp_iter, cache_iter},
                                         {Py_mp_subscript, cache_subscript},
                                         {Py_mp_ass_subscript, cache_ass_subscript},
                                         {Py_mp_length, cache_length},
                                         {Py_sq_contains, cache_contains},
                                         {0, NULL}};

PyType_Spec cache_spec = {"clock2q._extension.Cache", sizeof(Cache), 0,
                          Py_TPFLAGS_DEFAULT | Py_TPFLAGS_HAVE_GC | Py_TPFLAGS_BASETYPE | Py_TPFLAGS_IMMUTABLETYPE,
                          cache_type_slots};
