/* The library's calls as they are: keys of 64 bits, and slots for arrays of the caller's. */
#include "pairs.h"

typedef struct {
    PyObject_HEAD
    clock2q_cache slots;
    Py_ssize_t history; /* how many keys that lost their slots are remembered, or -1 if that wasn't said */
    PyObject *weak_references;
} Pages;

static PyStructSequence_Field place_fields[] = {
    {"slot", "the key's slot, below the capacity"},
    {"last", "the key that had the slot until now, or None"},
    {NULL, NULL}};

PyStructSequence_Desc place_description = {
    "clock2q.Place", "The slot of a key, and the key that had it until now, if one had.", place_fields, 2};

static int pages_init(Pages *self, PyObject *args, PyObject *keywords) {
    static char *names[] = {"capacity", "history", NULL};
    Py_ssize_t capacity;
    PyObject *history = Py_None;
    if (!PyArg_ParseTupleAndKeywords(args, keywords, "n|$O:PageCache", names, &capacity, &history)) return -1;
    if (may_make_slots(self->slots.at != NULL, capacity, 1, "capacity") < 0) return -1;
    if (read_history(history, capacity, "capacity", &self->history) < 0) return -1;
    size_t slots = (size_t)capacity;
    if (self->history < 0) return made_slots(clock2q_new(&self->slots, slots));
    return made_slots(clock2q_with_history(&self->slots, slots, usual_small(slots), usual_window(slots), (size_t)self->history));
}

static void pages_dealloc(Pages *self) {
    if (self->weak_references != NULL) PyObject_ClearWeakRefs((PyObject *)self);
    clock2q_free(&self->slots);
    free_object((PyObject *)self);
}

/* Returns true if there is a cache, and false with an exception if not. */
static int has_slots(Pages *self) {
    if (self->slots.at == NULL) PyErr_SetString(PyExc_RuntimeError, "PageCache.__init__ wasn't called");
    return self->slots.at != NULL;
}

/* Writes the number that a key is, and returns true; false with an exception if it is none, or there is no cache. */
static int read_key(Pages *self, PyObject *key, uint64_t *number) {
    if (!has_slots(self)) return 0;
    if (!PyLong_Check(key)) {
        PyErr_SetString(PyExc_TypeError, "a key is an int");
        return 0;
    }
    *number = PyLong_AsUnsignedLongLong(key);
    if (*number != UINT64_MAX || !PyErr_Occurred()) return 1;
    PyErr_SetString(PyExc_ValueError, "a key is from 0 to 2**64 - 1");
    return 0;
}

static PyObject *pages_enter(Pages *self, PyTypeObject *owner, PyObject *const *args, Py_ssize_t count, PyObject *names) {
    uint64_t key;
    if (count != 1 || names != NULL) return PyErr_Format(PyExc_TypeError, "enter() takes a key");
    module_state *state = PyType_GetModuleState(owner);
    PyObject *result = state == NULL ? NULL : PyStructSequence_New(state->place_type);
    if (result == NULL || !read_key(self, args[0], &key)) {
        Py_XDECREF(result);
        return NULL;
    }
    clock2q_place place;
    clock2q_enter(&self->slots, key, &place);
    PyObject *slot = PyLong_FromSize_t(place.slot);
    PyObject *last = place.has_last ? PyLong_FromUnsignedLongLong(place.last) : Py_NewRef(Py_None);
    PyStructSequence_SetItem(result, 0, slot);
    PyStructSequence_SetItem(result, 1, last);
    if (slot == NULL || last == NULL) Py_CLEAR(result);
    return result;
}

static PyObject *pages_find(Pages *self, PyObject *key) {
    uint64_t number;
    size_t slot;
    if (!read_key(self, key, &number)) return NULL;
    if (clock2q_find(&self->slots, number, &slot)) return PyLong_FromSize_t(slot);
    Py_RETURN_NONE;
}

static PyObject *pages_peek(Pages *self, PyObject *key) {
    uint64_t number;
    size_t slot;
    if (!read_key(self, key, &number)) return NULL;
    if (clock2q_peek(&self->slots, number, &slot)) return PyLong_FromSize_t(slot);
    Py_RETURN_NONE;
}

static PyObject *pages_is_at(Pages *self, PyObject *const *args, Py_ssize_t count) {
    uint64_t key;
    if (count != 2) return PyErr_Format(PyExc_TypeError, "is_at() takes a slot and a key");
    Py_ssize_t slot = PyNumber_AsSsize_t(args[0], NULL); /* a number beyond is clipped, and no slot either */
    if ((slot == -1 && PyErr_Occurred()) || !read_key(self, args[1], &key)) return NULL;
    return PyBool_FromLong(slot >= 0 && clock2q_at(&self->slots, (size_t)slot, key));
}

static PyObject *pages_remove(Pages *self, PyObject *key) {
    uint64_t number;
    return read_key(self, key, &number) ? PyBool_FromLong(clock2q_remove(&self->slots, number)) : NULL;
}

static PyObject *pages_clear(Pages *self, PyObject *unused) {
    (void)unused;
    if (!has_slots(self)) return NULL;
    clock2q_clear(&self->slots);
    Py_RETURN_NONE;
}

static int pages_contains(Pages *self, PyObject *key) {
    uint64_t number;
    if (!has_slots(self)) return -1;
    if (read_key(self, key, &number)) return clock2q_contains(&self->slots, number);
    PyErr_Clear();
    return 0;
}

static Py_ssize_t pages_length(Pages *self) {
    return has_slots(self) ? (Py_ssize_t)clock2q_len(&self->slots) : -1;
}

static PyObject *pages_capacity(Pages *self, void *unused) {
    (void)unused;
    return has_slots(self) ? PyLong_FromSize_t(clock2q_capacity(&self->slots)) : NULL;
}

static PyObject *pages_grow(Pages *self, PyObject *number) {
    if (!has_slots(self)) return NULL;
    Py_ssize_t capacity = PyNumber_AsSsize_t(number, PyExc_ValueError), least = (Py_ssize_t)clock2q_capacity(&self->slots);
    if (capacity == -1 && PyErr_Occurred()) return NULL;
    if (capacity < least || capacity > CLOCK2Q_MAX_CAPACITY)
        return PyErr_Format(PyExc_ValueError, "capacity is from %zd to %d", least, CLOCK2Q_MAX_CAPACITY);
    size_t slots = (size_t)capacity, history = (size_t)self->history;
    uint32_t status = self->history < 0 ? clock2q_grow(&self->slots, slots)
                                        : clock2q_grow_with_history(&self->slots, slots, usual_small(slots),
                                                                    usual_window(slots), history);
    if (made_slots(status) < 0) return NULL;
    Py_RETURN_NONE;
}

static PyMethodDef pages_methods[] = {
    {"enter", (PyCFunction)(void (*)(void))pages_enter, METH_METHOD | METH_FASTCALL | METH_KEYWORDS,
     "enter($self, key, /)\n--\n\nReturn the Place of a key, after a hit or after giving it a slot."},
    {"find", (PyCFunction)pages_find, METH_O,
     "find($self, key, /)\n--\n\nReturn the slot of a key, after a hit, or None."},
    {"peek", (PyCFunction)pages_peek, METH_O,
     "peek($self, key, /)\n--\n\nReturn what find returns, without a hit."},
    {"is_at", (PyCFunction)(void (*)(void))pages_is_at, METH_FASTCALL,
     "is_at($self, slot, key, /)\n--\n\nReturn True, after a hit, if the key is at this slot."},
    {"remove", (PyCFunction)pages_remove, METH_O,
     "remove($self, key, /)\n--\n\nTake the slot of a key away. Return False if it has none."},
    {"clear", (PyCFunction)pages_clear, METH_NOARGS,
     "clear($self, /)\n--\n\nTake all slots away, and forget all keys."},
    {"grow", (PyCFunction)pages_grow, METH_O,
     "grow($self, capacity, /)\n--\n\nRaise the capacity. Each key keeps its slot, and keys that left stay remembered."},
    {"__reduce__", refuse_copy, METH_NOARGS, NULL},
    {NULL, NULL, 0, NULL}};

static PyMemberDef pages_members[] = {
    {"__weaklistoffset__", T_PYSSIZET, offsetof(Pages, weak_references), READONLY, NULL}, {NULL, 0, 0, 0, NULL}};

static PyGetSetDef pages_properties[] = {
    {"capacity", (getter)pages_capacity, NULL, "How many keys can have a slot.", NULL}, {NULL, NULL, NULL, NULL, NULL}};

static PyType_Slot pages_type_slots[] = {
    {Py_tp_doc, "PageCache(capacity, *, history=None)\n--\n\nGives keys, ints from 0 to 2**64 - 1, slots for arrays of the caller's.\n\n"
                "It remembers up to history keys that lost their slots, half as many as there are slots unless it is given.\n\n"
                "An exception may come between a key's entry and what the caller then keeps at its slot, as\n"
                "that of Ctrl-C: keep the key there too, and compare, as Cache does."},
    {Py_tp_init, pages_init},
    {Py_tp_dealloc, pages_dealloc},
    {Py_tp_methods, pages_methods},
    {Py_tp_members, pages_members},
    {Py_tp_getset, pages_properties},
    {Py_sq_contains, pages_contains},
    {Py_sq_length, pages_length},
    {0, NULL}};

PyType_Spec pages_spec = {"clock2q.PageCache", sizeof(Pages), 0,
                          Py_TPFLAGS_DEFAULT | Py_TPFLAGS_BASETYPE | Py_TPFLAGS_IMMUTABLETYPE, pages_type_slots};
