/* The module clock2q._extension. */
#include "pairs.h"

uint64_t hash_secret[2];

/* Draws the secret, which is the same in each interpreter of the process. Returns -1 with an exception if that fails. */
static int draw_secret(void) {
    for (int i = 0; i < 2; i++) {
        PyObject *text = PyUnicode_FromFormat("clock2q's secret %d", i);
        Py_hash_t hash = text == NULL ? -1 : PyObject_Hash(text);
        Py_XDECREF(text);
        if (hash == -1) return -1;
        hash_secret[i] = (uint64_t)hash | 1;
    }
    return 0;
}

/* Adds a type to the module, and returns a new reference to it. */
static PyTypeObject *add_type(PyObject *module, PyType_Spec *spec) {
    PyTypeObject *type = (PyTypeObject *)PyType_FromModuleAndSpec(module, spec, NULL);
    if (type != NULL && PyModule_AddType(module, type) < 0) Py_CLEAR(type);
    return type;
}

static int module_exec(PyObject *module) {
    module_state *state = PyModule_GetState(module);
    if (draw_secret() < 0) return -1;
    state->keyword_mark = PyObject_CallNoArgs((PyObject *)&PyBaseObject_Type);
    PyObject *types = PyImport_ImportModule("types");
    state->method_type = types == NULL ? NULL : PyObject_GetAttrString(types, "MethodType");
    Py_XDECREF(types);
    state->cache_type = add_type(module, &cache_spec);
    state->place_type = PyStructSequence_NewType(&place_description);
    if (state->method_type == NULL || state->keyword_mark == NULL || state->cache_type == NULL || state->place_type == NULL) return -1;
    if (PyModule_AddType(module, state->place_type) < 0) return -1;
    PyTypeObject *cached = add_type(module, &cached_spec), *pages = add_type(module, &pages_spec);
    int failed = cached == NULL || pages == NULL;
    Py_XDECREF((PyObject *)cached);
    Py_XDECREF((PyObject *)pages);
    if (failed || PyModule_AddIntConstant(module, "MAX_CAPACITY", CLOCK2Q_MAX_CAPACITY) < 0) return -1;
    uint32_t version = clock2q_version();
    PyObject *text = PyUnicode_FromFormat("%u.%u.%u", version / 10000, version / 100 % 100, version % 100);
    failed = text == NULL || PyModule_AddObjectRef(module, "__version__", text) < 0;
    Py_XDECREF(text);
    return failed ? -1 : 0;
}

static int module_traverse(PyObject *module, visitproc visit, void *arg) {
    module_state *state = PyModule_GetState(module);
    Py_VISIT(state->cache_type);
    Py_VISIT(state->place_type);
    Py_VISIT(state->keyword_mark);
    Py_VISIT(state->method_type);
    return 0;
}

static int module_clear(PyObject *module) {
    module_state *state = PyModule_GetState(module);
    Py_CLEAR(state->cache_type);
    Py_CLEAR(state->place_type);
    Py_CLEAR(state->keyword_mark);
    Py_CLEAR(state->method_type);
    return 0;
}

static void module_free(void *module) {
    module_clear(module);
}

static PyModuleDef_Slot module_slots[] = {{Py_mod_exec, module_exec}, {0, NULL}};

static PyModuleDef definition = {.m_base = PyModuleDef_HEAD_INIT,
                                 .m_name = "clock2q._extension",
                                 .m_size = sizeof(module_state),
                                 .m_slots = module_slots,
                                 .m_traverse = module_traverse,
                                 .m_clear = module_clear,
                                 .m_free = module_free};

PyMODINIT_FUNC PyInit__extension(void) {
    return PyModuleDef_Init(&definition);
}
