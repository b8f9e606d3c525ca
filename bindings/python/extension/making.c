/* How a cache is made, and what it says of that. */
#include "pairs.h"

/* The name is interned, or else the interpreter's cache of attributes would keep a name for each cache. */
PyObject *missing_of_type(Cache *self) {
    PyObject *name = PyUnicode_InternFromString("__missing__");
    PyObject *method = name == NULL ? NULL : PyObject_GetAttr((PyObject *)Py_TYPE((PyObject *)self), name);
    Py_XDECREF(name);
    return method;
}

/* Reads the weigher and the most that weights may be together: both, or neither. Returns -1 with an exception if
 * they can't be had. */
static int read_weights(PyObject *weigher, PyObject *max_weight, Py_ssize_t *number) {
    if ((weigher == Py_None) != (max_weight == Py_None) || (weigher != Py_None && !PyCallable_Check(weigher))) {
        PyErr_SetString(PyExc_TypeError, "weigher is a function, and comes with max_weight");
        return -1;
    }
    if (weigher == Py_None) return 0;
    *number = PyNumber_AsSsize_t(max_weight, PyExc_OverflowError);
    if (*number == -1 && PyErr_Occurred()) return -1;
    if (*number >= 0) return 0;
    PyErr_SetString(PyExc_ValueError, "max_weight is 0 or more");
    return -1;
}

/* Returns a new reference to the timer that pairs expire by, with their time, or to None if they don't expire. Returns NULL
 * with an exception if a time is no number above 0, or the timer is none. */
static PyObject *read_timing(PyObject *ttl, PyObject *timer, double *time) {
    if (ttl == Py_None && timer == Py_None) return Py_NewRef(Py_None);
    if (ttl == Py_None || (timer != Py_None && !PyCallable_Check(timer)))
        return PyErr_Format(PyExc_TypeError, "timer is a function, and comes with ttl");
    *time = PyFloat_AsDouble(ttl);
    if (*time == -1.0 && PyErr_Occurred()) return NULL;
    if (!(*time > 0)) return PyErr_Format(PyExc_ValueError, "ttl is above 0");
    if (timer != Py_None) return Py_NewRef(timer);
    PyObject *module = PyImport_ImportModule("time");
    PyObject *monotonic = module == NULL ? NULL : PyObject_GetAttrString(module, "monotonic");
    Py_XDECREF(module);
    return monotonic;
}

int read_history(PyObject *history, Py_ssize_t most, const char *name, Py_ssize_t *number) {
    *number = -1;
    if (history == Py_None) return 0;
    Py_ssize_t asked = PyNumber_AsSsize_t(history, NULL); /* a number beyond is clipped, and refused */
    if (asked == -1 && PyErr_Occurred()) return -1;
    *number = asked;
    if (asked >= 0 && asked <= most) return 0;
    PyErr_Format(PyExc_ValueError, "history is from 0 to %s", name);
    return -1;
}

int make_slots(Cache *cache, size_t capacity) {
    clock2q_memory before = begin_count();
    uint32_t status = cache->history < 0
                          ? clock2q_tokens_new(&cache->slots, capacity)
                          : clock2q_tokens_with_history(&cache->slots, capacity, usual_small(capacity), usual_window(capacity),
                                                        (size_t)cache->history);
    end_count(before, &cache->slots_size);
    return made_slots(status);
}

int grow_slots(Cache *cache, size_t capacity) {
    if (cache->capacity == 0) return make_slots(cache, capacity);
    clock2q_memory before = begin_count();
    uint32_t status = cache->history < 0
                          ? clock2q_tokens_grow(&cache->slots, capacity)
                          : clock2q_tokens_grow_with_history(&cache->slots, capacity, usual_small(capacity),
                                                             usual_window(capacity), (size_t)cache->history);
    end_count(before, &cache->slots_size);
    return made_slots(status);
}

/* Makes the slots for so many pairs, if there may be any. Returns -1 with an exception if that fails. */
static int make_first_slots(Cache *self, Py_ssize_t maxsize, PyObject *history) {
    if (may_make_slots(self->is_made, maxsize, 0, "maxsize") < 0) return -1;
    if (read_history(history, maxsize, "maxsize", &self->history) < 0) return -1;
    self->capacity = self->maxsize = (size_t)maxsize;
    return maxsize == 0 ? 0 : make_slots(self, self->capacity);
}

/* Keeps an object if it isn't None. */
static PyObject *kept_unless_none(PyObject *object) {
    return object == Py_None ? NULL : Py_NewRef(object);
}

/* Notes whether the type has __missing__. Returns -1 with an exception if that can't be asked. */
static int note_missing(Cache *self) {
    PyObject *method = missing_of_type(self);
    if (method == NULL && !PyErr_ExceptionMatches(PyExc_AttributeError)) return -1;
    PyErr_Clear();
    self->has_missing = method != NULL;
    Py_XDECREF(method);
    return 0;
}

int cache_init(Cache *self, PyObject *args, PyObject *keywords) {
    static char *names[] = {"maxsize", "weigher", "max_weight", "ttl", "timer", "listener", "history", NULL};
    Py_ssize_t maxsize, most = 0;
    PyObject *weigher = Py_None, *max_weight = Py_None, *ttl = Py_None, *timer = Py_None, *listener = Py_None;
    PyObject *history = Py_None;
    if (!PyArg_ParseTupleAndKeywords(args, keywords, "n|OO$OOOO:Cache", names, &maxsize, &weigher, &max_weight, &ttl, &timer,
                                     &listener, &history))
        return -1;
    if (read_weights(weigher, max_weight, &most) < 0) return -1;
    if (listener != Py_None && !PyCallable_Check(listener)) {
        PyErr_SetString(PyExc_TypeError, "listener is a function");
        return -1;
    }
    double time = 0;
    timer = read_timing(ttl, timer, &time);
    if (timer == NULL) return -1;
    if (make_first_slots(self, maxsize, history) < 0) {
        Py_DECREF(timer);
        return -1;
    }
    self->is_made = 1;
    self->weigher = kept_unless_none(weigher);
    self->max_weight = (uint64_t)most;
    self->ttl = time;
    self->timer = kept_unless_none(timer);
    self->listener = kept_unless_none(listener);
    set_plainness(self);
    Py_DECREF(timer);
    return note_missing(self);
}

static PyObject *cache_currsize(Cache *self, void *unused) {
    (void)unused;
    return PyLong_FromSsize_t(length_of(self));
}

static PyObject *cache_weight(Cache *self, void *unused) {
    (void)unused;
    return self->weigher == NULL ? Py_NewRef(Py_None) : PyLong_FromUnsignedLongLong(self->weight);
}

static PyObject *cache_max_weight(Cache *self, void *unused) {
    (void)unused;
    return self->weigher == NULL ? Py_NewRef(Py_None) : PyLong_FromUnsignedLongLong(self->max_weight);
}

static PyObject *cache_ttl(Cache *self, void *unused) {
    (void)unused;
    return self->timer == NULL ? Py_NewRef(Py_None) : PyFloat_FromDouble(self->ttl);
}

static PyObject *or_none(PyObject *object) {
    return Py_NewRef(object == NULL ? Py_None : object);
}

static PyObject *cache_weigher(Cache *self, void *unused) {
    (void)unused;
    return or_none(self->weigher);
}

static PyObject *cache_timer(Cache *self, void *unused) {
    (void)unused;
    return or_none(self->timer);
}

static PyObject *cache_listener(Cache *self, void *unused) {
    (void)unused;
    return or_none(self->listener);
}

static PyObject *cache_history(Cache *self, void *unused) {
    (void)unused;
    return !self->is_made || self->history < 0 ? Py_NewRef(Py_None) : PyLong_FromSsize_t(self->history);
}

PyGetSetDef cache_properties[] = {
    {"currsize", (getter)cache_currsize, NULL, "How many keys it holds.", NULL},
    {"weight", (getter)cache_weight, NULL, "What its pairs weigh together, or None without a weigher.", NULL},
    {"max_weight", (getter)cache_max_weight, NULL, "The most that they may weigh together, or None.", NULL},
    {"weigher", (getter)cache_weigher, NULL, "What says the weight of a pair, or None.", NULL},
    {"ttl", (getter)cache_ttl, NULL, "How long a pair is there after it was stored, or None.", NULL},
    {"timer", (getter)cache_timer, NULL, "What says the time, or None without a ttl.", NULL},
    {"listener", (getter)cache_listener, NULL, "What hears of the pairs that leave, or None.", NULL},
    {"history", (getter)cache_history, NULL, "How many keys that left it remembers, or None for half as many as slots.", NULL},
    {NULL, NULL, NULL, NULL, NULL}};
