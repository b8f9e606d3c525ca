/* A function whose results are kept, and the calls of it that are under way. */
#ifndef CLOCK2Q_CACHED_H
#define CLOCK2Q_CACHED_H

#include "pairs.h"

/* A call that is under way on a thread while others wait for it. */
typedef struct flight flight;

/* The results are in `cache`, or in `results` if maxsize is None, or nowhere if it is 0. */
typedef struct {
    PyObject_HEAD
    Cache *cache;
    PyObject *results, *maxsize;
    uint64_t hits, misses;
    PyObject *function, *info_type, *keyword_mark, *attributes, *weak_references;
    vectorcallfunc call;
    char is_typed;
    char is_locked;         /* whether calls for one key wait for one another */
    PyObject *key_function; /* makes the key of a call, or NULL */
    flight *flights;        /* the calls under way, if they wait */
    uint64_t version;       /* how often a call has begun or ended, or results were cleared */
} Cached;

/* A call: its key, the hash of that, and what it was called with. */
typedef struct {
    PyObject *key;
    uint64_t hash;
    PyObject *const *args;
    Py_ssize_t count;
    PyObject *names;
} made_call;

/* Returns how a function with such results is called. */
vectorcallfunc call_for(const Cached *self);

/* Returns the key of a call, by the function for that or as functools makes it, or NULL with an exception. */
PyObject *key_of_call(Cached *self, PyObject *const *args, Py_ssize_t count, PyObject *names);

/* Returns a new reference to the result that is kept for a key, after a hit; or NULL, with an exception if it failed. */
PyObject *kept_result(Cached *self, PyObject *key, uint64_t hash);

/* Keeps a result. Returns -1 with an exception if that fails. */
int keep_result(Cached *self, PyObject *key, uint64_t hash, PyObject *value);

/* Returns what the function returns for a call whose result isn't kept, after keeping that; or what another thread that
 * is calling it for the same key gets. */
PyObject *result_of_flight(Cached *self, const made_call *call);

/* Has those that ask from now on wait for none of the calls that are under way, whose results won't be kept. */
void outdate_flights(Cached *self);

#endif
