/* One call for all threads that ask for a result that isn't there. The interpreter's lock is held but while one waits, so
 * that no step here is interrupted, and none is left half done by an exception. */
#include "cached.h"

#include <unistd.h>

struct flight {
    flight *next;
    PyObject *key, *value; /* no value while it is under way, or if it failed */
    uint64_t hash;
    unsigned long owner;     /* the thread that calls */
    pid_t process;           /* and its process: a child has none of its parent's other threads */
    PyThread_type_lock done; /* held until it has ended */
    size_t holders;          /* how many threads call or wait */
};

/* A thread that waits for a call. */
typedef struct waiting {
    struct waiting *next;
    unsigned long thread;
    flight *for_call;
} waiting;

static waiting *all_waiting;

/* Lets go of a call, which is freed after the last. */
static void release_flight(flight *call) {
    if (--call->holders > 0) return;
    PyThread_free_lock(call->done);
    Py_DECREF(call->key);
    Py_XDECREF(call->value);
    PyMem_Free(call);
}

/* Begins a call, which is then under way. Returns NULL with an exception if there is no memory. */
static flight *begin_flight(Cached *self, const made_call *made) {
    flight *call = PyMem_Malloc(sizeof *call);
    PyThread_type_lock done = call == NULL ? NULL : PyThread_allocate_lock();
    if (done == NULL) {
        PyMem_Free(call);
        PyErr_NoMemory();
        return NULL;
    }
    PyThread_acquire_lock(done, WAIT_LOCK);
    *call = (flight){self->flights, Py_NewRef(made->key), NULL, made->hash, PyThread_get_thread_ident(), getpid(), done, 1};
    self->flights = call;
    self->version++;
    return call;
}

/* Whether a call is still one that others wait for, and is to be kept. */
static int is_under_way(Cached *self, const flight *call) {
    const flight *at = self->flights;
    while (at != NULL && at != call) at = at->next;
    return at != NULL;
}

/* Takes a call out of those that are under way. */
static void end_flight(Cached *self, flight *call) {
    flight **link = &self->flights;
    while (*link != NULL && *link != call) link = &(*link)->next;
    if (*link != NULL) *link = call->next;
    self->version++;
}

void outdate_flights(Cached *self) {
    self->flights = NULL;
    self->version++;
}

/* Writes the call under way for a key, if there is one and no comparison changes which those are. */
static outcome find_flight(Cached *self, const made_call *made, flight **found) {
    uint64_t version = self->version;
    for (flight *at = self->flights; at != NULL; at = at->next) {
        if (at->hash != made->hash || at->process != getpid()) continue;
        PyObject *held = Py_NewRef(at->key);
        int is_equal = PyObject_RichCompareBool(held, made->key, Py_EQ);
        Py_DECREF(held);
        if (is_equal < 0) return FAILED;
        if (version != self->version) return CHANGED;
        *found = at;
        if (is_equal) return PRESENT;
    }
    return ABSENT;
}

/* Whether a call waits, through the threads that make calls and wait for others, for this thread. */
static int waits_for_me(const flight *call) {
    unsigned long me = PyThread_get_thread_ident();
    while (call->owner != me) {
        waiting *at = all_waiting;
        while (at != NULL && at->thread != call->owner) at = at->next;
        if (at == NULL) return 0;
        call = at->for_call;
    }
    return 1;
}

/* Waits until a call has ended. Returns -1 with an exception if a signal's handler raises one. */
static int wait_until_done(flight *call) {
    waiting now = {all_waiting, PyThread_get_thread_ident(), call};
    int failed = 0;
    PyLockStatus status = PY_LOCK_INTR;
    all_waiting = &now;
    while (status == PY_LOCK_INTR && !failed) {
        Py_BEGIN_ALLOW_THREADS
        status = PyThread_acquire_lock_timed(call->done, -1, 1);
        Py_END_ALLOW_THREADS
        if (status == PY_LOCK_INTR) failed = Py_MakePendingCalls() < 0;
    }
    if (status == PY_LOCK_ACQUIRED) PyThread_release_lock(call->done);
    waiting **link = &all_waiting;
    while (*link != &now) link = &(*link)->next;
    *link = now.next;
    return failed ? -1 : 0;
}

/* Calls the function, and keeps its result unless results were cleared since. The listener hears which others left once
 * nobody waits for the call any more. */
static PyObject *fly(Cached *self, const made_call *made) {
    flight *call = begin_flight(self, made);
    if (call == NULL) return NULL;
    self->misses++;
    PyObject *value = PyObject_Vectorcall(self->function, made->args, (size_t)made->count, made->names);
    postpone_listener(self->cache);
    if (value != NULL && is_under_way(self, call) && keep_result(self, made->key, made->hash, value) < 0) Py_CLEAR(value);
    call->value = Py_XNewRef(value);
    end_flight(self, call);
    PyThread_release_lock(call->done);
    release_flight(call);
    end_postponing(self->cache);
    return value;
}

/* Waits for a call, and returns its result. Returns NULL if it failed, with an exception if waiting did. */
static PyObject *result_of(Cached *self, flight *call) {
    call->holders++;
    int failed = wait_until_done(call) < 0;
    PyObject *value = failed ? NULL : Py_XNewRef(call->value);
    release_flight(call);
    if (value != NULL) self->hits++;
    return value;
}

/* How often other threads' calls may begin or end while a key is compared. */
enum { MOST_FLIGHTS_MEANWHILE = 1000 };

PyObject *result_of_flight(Cached *self, const made_call *made) {
    for (int tries = 0; tries < MOST_FLIGHTS_MEANWHILE;) {
        uint64_t version = self->version;
        flight *call;
        outcome found = find_flight(self, made, &call);
        if (found == FAILED) return NULL;
        int is_mine = found == ABSENT || (found == PRESENT && waits_for_me(call));
        PyObject *value = NULL;
        if (is_mine) value = kept_result(self, made->key, made->hash);
        else if (found == PRESENT) value = result_of(self, call);
        if (value != NULL || PyErr_Occurred()) return value;
        if (is_mine && version == self->version) return fly(self, made);
        tries += is_mine || found == CHANGED;
    }
    too_many_tries(MOST_FLIGHTS_MEANWHILE);
    return NULL;
}
