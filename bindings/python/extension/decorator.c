/* The type of a function whose results are kept: all but its call. */
#include "cached.h"

/* Makes what keeps the results, with these keyword arguments of a cache. Returns -1 with an exception if that fails. */
static int make_results(Cached *self, module_state *state, PyObject *keywords) {
    if (self->maxsize == Py_None) {
        self->results = PyDict_New();
        return self->results == NULL ? -1 : 0;
    }
    int is_zero = PyObject_Not(self->maxsize);
    if (is_zero != 0) return is_zero < 0 ? -1 : 0;
    PyObject *args = PyTuple_Pack(1, self->maxsize);
    if (args == NULL) return -1;
    self->cache = (Cache *)PyObject_Call((PyObject *)state->cache_type, args, keywords);
    Py_DECREF(args);
    return self->cache == NULL ? -1 : 0;
}

static PyObject *cached_new(PyTypeObject *type, PyObject *args, PyObject *keywords) {
    PyObject *function, *maxsize, *info_type, *key_function;
    int is_typed, is_locked;
    if (!PyArg_ParseTuple(args, "OOpOOp:Cached", &function, &maxsize, &is_typed, &info_type, &key_function, &is_locked))
        return NULL;
    module_state *state = PyType_GetModuleState(type);
    Cached *self = state == NULL ? NULL : (Cached *)PyType_GenericAlloc(type, 0);
    if (self == NULL) return NULL;
    self->maxsize = Py_NewRef(maxsize);
    self->function = Py_NewRef(function);
    self->info_type = Py_NewRef(info_type);
    self->keyword_mark = Py_NewRef(state->keyword_mark);
    self->is_typed = (char)is_typed;
    self->is_locked = (char)is_locked;
    self->key_function = key_function == Py_None ? NULL : Py_NewRef(key_function);
    if (make_results(self, state, keywords) < 0) Py_CLEAR(self);
    else self->call = call_for(self);
    return (PyObject *)self;
}

static int cached_traverse(Cached *self, visitproc visit, void *arg) {
    Py_VISIT(Py_TYPE((PyObject *)self));
    Py_VISIT(self->cache);
    Py_VISIT(self->results);
    Py_VISIT(self->maxsize);
    Py_VISIT(self->function);
    Py_VISIT(self->key_function);
    Py_VISIT(self->info_type);
    Py_VISIT(self->keyword_mark);
    Py_VISIT(self->attributes);
    return 0;
}

/* Breaks the cycles through the function and the dict; those through the cache are broken there. */
static int cached_tp_clear(Cached *self) {
    PyObject *function = self->function;
    self->function = Py_NewRef(Py_None);
    Py_CLEAR(self->key_function);
    if (self->results != NULL) PyDict_Clear(self->results);
    Py_CLEAR(self->attributes);
    Py_XDECREF(function);
    return 0;
}

static void cached_dealloc(Cached *self) {
    PyObject_GC_UnTrack(self);
    if (self->weak_references != NULL) PyObject_ClearWeakRefs((PyObject *)self);
    Py_XDECREF((PyObject *)self->cache);
    Py_XDECREF(self->results);
    Py_XDECREF(self->maxsize);
    Py_XDECREF(self->function);
    Py_XDECREF(self->key_function);
    Py_XDECREF(self->info_type);
    Py_XDECREF(self->keyword_mark);
    Py_XDECREF(self->attributes);
    free_object((PyObject *)self);
}

static PyObject *cached_get(PyObject *self, PyObject *object, PyObject *type) {
    (void)type;
    if (object == NULL || object == Py_None) return Py_NewRef(self);
    module_state *state = PyType_GetModuleState(Py_TYPE(self));
    return state == NULL ? NULL : PyObject_CallFunctionObjArgs(state->method_type, self, object, NULL);
}

static Py_ssize_t cached_length(Cached *self) {
    if (self->results != NULL) return PyDict_Size(self->results);
    return self->cache == NULL ? 0 : length_of(self->cache);
}

static PyObject *cached_info(Cached *self, PyObject *unused) {
    (void)unused;
    return PyObject_CallFunction(self->info_type, "KKOn", (unsigned long long)self->hits,
                                 (unsigned long long)self->misses, self->maxsize, cached_length(self));
}

static PyObject *cached_clear(Cached *self, PyObject *unused) {
    (void)unused;
    self->hits = self->misses = 0;
    outdate_flights(self);
    if (self->cache != NULL) clear_pairs(self->cache);
    if (self->results != NULL) PyDict_Clear(self->results);
    Py_RETURN_NONE;
}

static PyObject *cached_parameters(Cached *self, PyObject *unused) {
    (void)unused;
    return Py_BuildValue("{s:O,s:O}", "maxsize", self->maxsize, "typed", self->is_typed ? Py_True : Py_False);
}

/* A function is pickled by its name, and is its own copy. */
static PyObject *cached_reduce(PyObject *self, PyObject *unused) {
    (void)unused;
    return PyObject_GetAttrString(self, "__qualname__");
}

static PyObject *cached_copy(PyObject *self, PyObject *unused) {
    (void)unused;
    return Py_NewRef(self);
}

/* What a decorator in Python needs to have the function called in its own way: the key of a call; the result of a key,
 * or a default; and to keep a result. */
static PyObject *cached_key(PyObject *self, PyObject *const *args, Py_ssize_t count, PyObject *names) {
    return key_of_call((Cached *)self, args, count, names);
}

static PyObject *cached_kept(Cached *self, PyObject *const *args, Py_ssize_t count) {
    uint64_t hash;
    if (count != 2) return PyErr_Format(PyExc_TypeError, "_kept() takes a key and a default");
    if (hash_of(args[0], &hash) < 0) return NULL;
    PyObject *value = kept_result(self, args[0], hash);
    return value != NULL || PyErr_Occurred() ? value : Py_NewRef(args[1]);
}

static PyObject *cached_keep(Cached *self, PyObject *const *args, Py_ssize_t count) {
    uint64_t hash;
    if (count != 2) return PyErr_Format(PyExc_TypeError, "_keep() takes a key and a result");
    if (hash_of(args[0], &hash) < 0 || keep_result(self, args[0], hash, args[1]) < 0) return NULL;
    Py_RETURN_NONE;
}

static PyObject *cached_sizeof(Cached *self, PyObject *unused) {
    (void)unused;
    PyObject *own = PyLong_FromSsize_t((Py_ssize_t)sizeof(Cached));
    PyObject *held = self->results != NULL ? self->results : (PyObject *)self->cache;
    if (own == NULL || held == NULL) return own;
    PyObject *size = PyObject_CallMethod(held, "__sizeof__", NULL);
    PyObject *sum = size == NULL ? NULL : PyNumber_Add(own, size);
    Py_XDECREF(size);
    Py_DECREF(own);
    return sum;
}

static PyMethodDef cached_methods[] = {
    {"cache_info", (PyCFunction)cached_info, METH_NOARGS,
     "cache_info($self, /)\n--\n\nReturn hits, misses, maxsize and currsize as a named tuple."},
    {"cache_clear", (PyCFunction)cached_clear, METH_NOARGS,
     "cache_clear($self, /)\n--\n\nRemove all results, and set hits and misses to 0."},
    {"cache_parameters", (PyCFunction)cached_parameters, METH_NOARGS,
     "cache_parameters($self, /)\n--\n\nReturn a dict of maxsize and typed."},
    {"_key", (PyCFunction)(void (*)(void))cached_key, METH_FASTCALL | METH_KEYWORDS, NULL},
    {"_kept", (PyCFunction)(void (*)(void))cached_kept, METH_FASTCALL, NULL},
    {"_keep", (PyCFunction)(void (*)(void))cached_keep, METH_FASTCALL, NULL},
    {"__sizeof__", (PyCFunction)cached_sizeof, METH_NOARGS,
     "__sizeof__($self, /)\n--\n\nReturn how many bytes the results take, without themselves and their keys."},
    {"__reduce__", cached_reduce, METH_NOARGS, NULL},
    {"__copy__", cached_copy, METH_NOARGS, NULL},
    {"__deepcopy__", cached_copy, METH_O, NULL},
    {NULL, NULL, 0, NULL}};

static PyMemberDef cached_members[] = {
    {"_hits", T_ULONGLONG, offsetof(Cached, hits), 0, NULL},
    {"_misses", T_ULONGLONG, offsetof(Cached, misses), 0, NULL},
    {"__vectorcalloffset__", T_PYSSIZET, offsetof(Cached, call), READONLY, NULL},
    {"__dictoffset__", T_PYSSIZET, offsetof(Cached, attributes), READONLY, NULL},
    {"__weaklistoffset__", T_PYSSIZET, offsetof(Cached, weak_references), READONLY, NULL},
    {NULL, 0, 0, 0, NULL}};

static PyGetSetDef cached_properties[] = {
    {"__dict__", PyObject_GenericGetDict, PyObject_GenericSetDict, NULL, NULL}, {NULL, NULL, NULL, NULL, NULL}};

static PyType_Slot cached_type_slots[] = {{Py_tp_new, cached_new},
                                          {Py_tp_dealloc, cached_dealloc},
                                          {Py_tp_traverse, cached_traverse},
                                          {Py_tp_clear, cached_tp_clear},
                                          {Py_tp_call, PyVectorcall_Call},
                                          {Py_tp_descr_get, cached_get},
                                          {Py_tp_methods, cached_methods},
                                          {Py_tp_members, cached_members},
                                          {Py_tp_getset, cached_properties},
                                          {0, NULL}};

PyType_Spec cached_spec = {"clock2q._extension.Cached", sizeof(Cached), 0,
                           Py_TPFLAGS_DEFAULT | Py_TPFLAGS_HAVE_GC | Py_TPFLAGS_HAVE_VECTORCALL |
                               Py_TPFLAGS_METHOD_DESCRIPTOR | Py_TPFLAGS_IMMUTABLETYPE,
                           cached_type_slots};
