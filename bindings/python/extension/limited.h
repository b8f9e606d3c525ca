/* What the limited API has as calls alone. An extension that is built by it runs on Python 3.12 and all later ones, and a
 * call takes up to 4 % more instructions. */
#ifndef CLOCK2Q_LIMITED_H
#define CLOCK2Q_LIMITED_H

#ifdef Py_LIMITED_API
#define tuple_size PyTuple_Size
#define tuple_item PyTuple_GetItem
#define set_tuple_item (void)PyTuple_SetItem
#define BEGIN_NESTED(self, dealloc)
#define END_NESTED
#else
#define tuple_size PyTuple_GET_SIZE
#define tuple_item PyTuple_GET_ITEM
#define set_tuple_item PyTuple_SET_ITEM
/* Bounds how deep the ends of caches in caches nest. Python bounds those of its own classes itself, as of clock2q.Cache. */
#define BEGIN_NESTED Py_TRASHCAN_BEGIN
#define END_NESTED Py_TRASHCAN_END
#endif

/* Returns the hash that a str keeps, or -1 if there is none yet, or none can be read. */
static inline Py_hash_t kept_hash(PyObject *key) {
#ifdef Py_LIMITED_API
    (void)key;
    return -1;
#else
    return PyUnicode_CheckExact(key) ? ((PyASCIIObject *)key)->hash : -1;
#endif
}

/* Frees an object whose type has its own count. The type is a heap type. */
static inline void free_object(PyObject *self) {
    PyTypeObject *type = Py_TYPE(self);
    ((freefunc)PyType_GetSlot(type, Py_tp_free))(self);
    Py_DECREF((PyObject *)type);
}

/* Returns how many bytes an object of this one's type takes, or -1 with an exception. */
static inline Py_ssize_t basic_size(PyObject *self) {
    PyObject *size = PyObject_GetAttrString((PyObject *)Py_TYPE(self), "__basicsize__");
    Py_ssize_t number = size == NULL ? -1 : PyLong_AsSsize_t(size);
    Py_XDECREF(size);
    return number;
}

#endif
