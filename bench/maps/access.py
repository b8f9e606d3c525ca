"""Runs the trace of the bench through a mapping of fixed size, or calls a function whose results are kept.
Prints the nanoseconds of processor time an access, the same of a get of what is there, and the hit ratio.

usage: access.py FORM int|str|tuple CAPACITY"""

import collections
import functools
import gc
import sys
import time

ACCESSES = 300_000
MASK = 2**64 - 1


def mix(number):
    number = ((number ^ (number >> 30)) * 0xBF58476D1CE4E5B9) & MASK
    number = ((number ^ (number >> 27)) * 0x94D049BB133111EB) & MASK
    return number ^ (number >> 31)


def trace(capacity):
    levels = 13 if capacity <= 1000 else 17 if capacity <= 10_000 else 20
    state = 1
    for _ in range(ACCESSES):
        state = (state + 0x9E3779B97F4A7C15) & MASK
        drawn = mix(state)
        span = 1 << (drawn % levels)
        yield mix((span + ((drawn >> 32) & (span - 1))) & MASK)


class ByHand(collections.OrderedDict):
    """What people write by hand."""

    def __init__(self, maxsize):
        super().__init__()
        self.maxsize = maxsize

    def get(self, key, default=None):
        try:
            value = self[key]
        except KeyError:
            return default
        self.move_to_end(key)
        return value

    def __setitem__(self, key, value):
        super().__setitem__(key, value)
        if len(self) > self.maxsize:
            self.popitem(last=False)


def made(form, capacity):
    if form == "clock2q":
        import clock2q

        return clock2q.Cache(capacity)
    if form == "cachetools":
        import cachetools

        return cachetools.LRUCache(capacity)
    if form == "lru-dict":
        import lru

        return lru.LRU(capacity)
    return {"by-hand": ByHand, "dict": lambda _: {}}[form](capacity)


def decorator(form, capacity):
    if form == "@clock2q.cached":
        import clock2q

        return clock2q.cached(capacity)
    if form == "@cachetools.cached":
        import cachetools

        return cachetools.cached(cachetools.LRUCache(capacity))
    return functools.lru_cache(capacity)


def timed(run):
    gc.collect()
    begun = time.process_time_ns()
    result = run()
    return time.process_time_ns() - begun, result


def measure_mapping(form, capacity, keys):
    cache = made(form, capacity)

    def accesses():
        hits, get = 0, cache.get
        for key in keys:
            if get(key) is None:
                cache[key] = key
            else:
                hits += 1
        return hits

    took, hits = timed(accesses)
    if form == "dict":  # as many keys as the others have, and not in the order of the accesses
        cache = {key: key for key in sorted(list(dict.fromkeys(reversed(keys)))[:capacity])}
    there = [key for key in dict.fromkeys(keys[-3000:]) if cache.get(key) is not None][:500]
    there *= 200_000 // len(there)

    def gets():
        get = cache.get
        for key in there:
            get(key)

    return took, min(timed(gets)[0] for _ in range(3)) / len(there), hits


def measure_function(form, capacity, keys):
    calls = 0

    @decorator(form, capacity)
    def function(key):
        nonlocal calls
        calls += 1
        return key

    def call_all(keys):
        for key in keys:
            function(key)

    took, _ = timed(lambda: call_all(keys))
    misses = calls
    there = keys[-200:] * 1000
    call_all(there[:200])
    return took, min(timed(lambda: call_all(there))[0] for _ in range(3)) / len(there), len(keys) - misses


def main():
    form, kind, capacity = sys.argv[1], sys.argv[2], int(sys.argv[3])
    keys = list(trace(capacity))
    if kind == "str":
        keys = [f"/articles/{key:016x}/index.html" for key in keys]
    if kind == "tuple":
        keys = [(key, "en") for key in keys]
    objects = {}  # one for equal keys, so that no form compares more than another
    keys = [objects.setdefault(key, key) for key in keys]
    measure = measure_function if form.startswith("@") else measure_mapping
    took, get, hits = measure(form, capacity, keys)
    print(f"{took / len(keys):.1f} {hits / len(keys):.4f} {get:.1f}")


main()
