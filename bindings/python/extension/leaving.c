/* What a listener hears of the pairs that leave. */
#include "pairs.h"

/* Returns the word of a reason, or NULL with an exception. */
static PyObject *word_of(reason why) {
    static const char *const words[] = {"evicted", "replaced", "removed", "expired", "cleared"};
    return PyUnicode_InternFromString(words[why]);
}

/* Calls the listener with what has left and the word. */
static void call_with_word(Cache *cache, PyObject *key, PyObject *value, PyObject *word) {
    PyObject *listener = Py_NewRef(cache->listener);
    PyObject *returned = PyObject_CallFunctionObjArgs(listener, key, value, word, NULL);
    if (returned == NULL) PyErr_WriteUnraisable(listener);
    Py_XDECREF(returned);
    Py_DECREF(listener);
}

/* Whether there is a list of what the listener hears later; if not, there is no memory for one, and an exception. */
static int can_postpone(Cache *cache) {
    if (cache->postponed == NULL) cache->postponed = PyList_New(0);
    return cache->postponed != NULL;
}

/* Adds a pair that has left to those of which the listener hears later. */
static void postpone(Cache *cache, pair left, reason why) {
    int failed = !can_postpone(cache) || add_left(cache->postponed, (pair){Py_NewRef(left.key), Py_NewRef(left.value)}, why) < 0;
    if (failed) PyErr_WriteUnraisable(cache->listener);
}

void call_listener(Cache *cache, pair left, reason why) {
    PyObject *type, *error, *traceback;
    PyErr_Fetch(&type, &error, &traceback);
    Py_INCREF(left.key); /* a pair whose value was replaced is still in the cache, which the listener may clear */
    PyObject *word = cache->postponing > 0 ? NULL : word_of(why);
    if (cache->postponing > 0) postpone(cache, left, why);
    else if (word == NULL) PyErr_WriteUnraisable(cache->listener);
    else call_with_word(cache, left.key, left.value, word);
    Py_XDECREF(word);
    Py_DECREF(left.key);
    PyErr_Restore(type, error, traceback);
}

int add_left(PyObject *list, pair left, reason why) {
    PyObject *word = word_of(why);
    int failed = word == NULL || PyList_Append(list, left.key) < 0 || PyList_Append(list, left.value) < 0 ||
                 PyList_Append(list, word) < 0;
    Py_DECREF(left.key);
    Py_DECREF(left.value);
    Py_XDECREF(word);
    return failed ? -1 : 0;
}

/* Adds the pairs of a list to those of which the listener hears later, and returns true, if that is postponed. */
static int are_postponed(Cache *cache, PyObject *list) {
    if (cache->listener == NULL || cache->postponing == 0 || PyList_Size(list) == 0) return 0;
    int failed = !can_postpone(cache);
    Py_ssize_t end = failed ? 0 : PyList_Size(cache->postponed);
    if (failed || PyList_SetSlice(cache->postponed, end, end, list) < 0) PyErr_WriteUnraisable(cache->listener);
    return 1;
}

void drop_pairs(Cache *cache, PyObject *list) {
    PyObject *type, *error, *traceback;
    PyErr_Fetch(&type, &error, &traceback);
    if (!are_postponed(cache, list)) {
        for (Py_ssize_t at = 0; cache->listener != NULL && at + 2 < PyList_Size(list); at += 3)
            call_with_word(cache, PyList_GetItem(list, at), PyList_GetItem(list, at + 1), PyList_GetItem(list, at + 2));
    }
    Py_DECREF(list);
    PyErr_Restore(type, error, traceback);
}

void postpone_listener(Cache *cache) {
    if (cache != NULL) cache->postponing++;
}

/* The last of those that postpone it has it hear of all, whoever they left for. */
void end_postponing(Cache *cache) {
    if (cache == NULL || --cache->postponing > 0 || cache->postponed == NULL) return;
    PyObject *list = cache->postponed;
    cache->postponed = NULL;
    drop_pairs(cache, list);
}
