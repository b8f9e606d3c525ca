"""A cache of fixed size for any hashable keys, with Clock2Q+ replacement.

    cache = Cache(1000)
    cache["seven"] = 7
    cache.get("seven")

    @cached(1000)
    def square(number):
        return number * number

The library that chooses which key leaves is proved; this module is plain code over it. Each key has a
slot of its own; at most sixteen keys of one hash() are here at a time, and then one leaves for the next.
"""

from collections import abc
from copyreg import __newobj__
from functools import partial, update_wrapper
from operator import index
from reprlib import recursive_repr
from typing import Literal, NamedTuple

from . import _extension
from ._extension import MAX_CAPACITY, PageCache, Place, __version__

__all__ = ["MAX_CAPACITY", "Cache", "CacheInfo", "PageCache", "Place", "Reason", "cached"]

# Why a pair left a cache, as its listener hears.
Reason = Literal["evicted", "replaced", "removed", "expired", "cleared"]

_ABSENT = object()
_COROUTINE, _ASYNC_GENERATOR = 0x80, 0x200  # those of inspect, without the milliseconds that it takes


class CacheInfo(NamedTuple):
    """What cache_info returns of a function that is cached."""

    hits: int
    misses: int
    maxsize: "int | None"
    currsize: int


class ItemsView(abc.ItemsView):
    __slots__ = ()

    def __contains__(self, item):
        key, value = item
        found = self._mapping.peek(key, _ABSENT)
        return found is value or (found is not _ABSENT and found == value)

    def __iter__(self):
        return iter(self._mapping._pairs())


class ValuesView(abc.ValuesView):
    __slots__ = ()

    def __contains__(self, value):
        return any(it is value or it == value for it in self)

    def __iter__(self):
        return iter([value for _, value in self._mapping._pairs()])


class Cache(_extension.Cache, abc.MutableMapping):
    """A mapping of at most maxsize keys, from 0 to MAX_CAPACITY.

    Cache(maxsize, weigher=None, max_weight=None, *, ttl=None, timer=None, listener=None, history=None)

    When a new key comes to a full cache, the replacement chooses one that leaves. All memory but that of
    keys and values is taken when the cache is made or grows and when the first pair is stored. If maxsize is 0, to
    store a pair raises ValueError.

    weigher(key, value) returns what a pair weighs, an int from 0, and is called once before it is stored. Pairs
    leave until all weigh at most max_weight together. ValueError is raised for a pair that alone is heavier,
    and the cache is as it was.

    With a ttl, a number above 0, no value is returned once timer() is ttl or more above what it was when the pair
    was stored. The timer is time.monotonic unless another is given; what it returns is a number, taken as a float,
    and doesn't get less. What has expired leaves when a call other than `in` and peek meets it, or by expire(), and
    until then counts in len().

    listener(key, value, reason) is called after each pair that leaves, at the end of the call during which it left,
    and may use the cache. The reason is "evicted" for another pair or by popitem or resize; "replaced" by another
    value of its key; "removed" by del or pop; "expired"; or "cleared". What the listener raises goes to
    sys.unraisablehook. It isn't called when the cache itself is dropped.

    history is how many keys that left for others are remembered, from 0 to maxsize: half of maxsize unless it is given.
    From maxsize - maxsize // 10 on, a full cache admits every loop of new keys that fits beside the keys that were hit.
    It stays when the cache is resized.

    A copy, or what a pickle is loaded to, has the same pairs, weigher, listener and history, and begins anew with their use:
    each key is new there. A cache with a ttl has no copy.

    [], get and setdefault count hits and misses. `in` and peek change nothing. Iteration is over what was
    there when it began, and uses no key. `cache[key]` of a key that isn't there returns what __missing__ does,
    if a subclass has it.
    """

    __slots__ = ()

    def items(self):
        return ItemsView(self)

    def values(self):
        return ValuesView(self)

    @recursive_repr()
    def __repr__(self):
        pairs = ", ".join(f"{key!r}: {value!r}" for key, value in self._pairs())
        return f"{type(self).__name__}({{{pairs}}}, maxsize={self.maxsize}, currsize={self.currsize})"

    def __reduce__(self):
        if self.ttl is not None:
            raise TypeError("a Cache with a ttl can't be pickled or copied: a timer's times mean nothing elsewhere")
        history = None if self.history is None else min(self.history, self.maxsize)
        made_with = self.maxsize, self.weigher, self.max_weight, self.listener, history
        return __newobj__, (type(self),), (made_with, self._pairs(), getattr(self, "__dict__", None))

    def __setstate__(self, state):
        (maxsize, weigher, max_weight, listener, history), pairs, attributes = state
        Cache.__init__(self, maxsize, weigher, max_weight, listener=listener, history=history)
        if attributes:
            self.__dict__.update(attributes)
        for key, value in pairs:
            Cache.__setitem__(self, key, value)


def _async_kind(function):
    """Which flags of an async def a function has, that may be called as a functools.partial or as a method does."""
    while isinstance(function, partial):
        function = function.func
    return getattr(getattr(function, "__code__", None), "co_flags", 0) & (_COROUTINE | _ASYNC_GENERATOR)


def cached(maxsize=128, typed=False, *, key=None, lock=False, ttl=None, timer=None, listener=None, history=None):
    """Keeps a function's last results, at most maxsize of them: @cached or @cached(1000).

    If maxsize is None, all results are kept; if it is 0 or less, none is. Arguments are hashable. If typed, 3 and 3.0
    are different. The function gets cache_info(), cache_clear(), cache_parameters() and __wrapped__, as
    functools.lru_cache has them. All memory but that of arguments and results is taken when the function is
    decorated and with its first result: 1 GB for ten millions, of which Linux has 270 MB used at once and the rest
    as results come.

    key(*args, **kwargs) returns what stands for the arguments, which then need no hash.

    With lock=True, threads that ask for the same missing result wait for one call. If that raises, the exception is
    its caller's, and one of those that wait calls in its turn. A thread whose own call is waited for doesn't wait.
    After cache_clear() nobody waits for a call that began before, and its result isn't kept.

    For an async def, those that await the same missing result on one asyncio loop wait for one call, which runs in a
    task of its own; what it raises goes to all of them, and isn't kept. If all are cancelled, so is the task.

    With a ttl, a number above 0, a result is kept so long by the timer, time.monotonic unless another is given.

    listener(key, result, reason) is called after each result that leaves, as a Cache's is, once nobody waits for a call
    for which it left. The key is what key returned, or as functools makes it: a str or int that is the only argument, or
    else a tuple of the arguments. history is how many keys whose results left are remembered, as by a Cache.
    """
    of_cache = {"ttl": ttl, "timer": timer, "listener": listener, "history": history}
    if callable(maxsize):
        return cached(128, typed, key=key, lock=lock, **of_cache)(maxsize)
    if maxsize is not None:
        maxsize = max(index(maxsize), 0)
        if maxsize > MAX_CAPACITY:
            raise ValueError(f"maxsize is at most {MAX_CAPACITY}, or None")
    elif given := next((name for name in ("ttl", "listener", "history") if of_cache[name] is not None), None):
        raise TypeError(f"{given} comes with a maxsize")
    if key is not None and (typed or not callable(key)):
        raise TypeError("key is a function, and says what typed would")

    def decorate(function):
        kind = _async_kind(function)
        if not callable(function):
            raise TypeError("cached decorates a function")
        if kind & _ASYNC_GENERATOR:
            raise TypeError("cached decorates no async generator: what that returns can be iterated over only once")
        kept = _extension.Cached(function, maxsize, typed, CacheInfo, key, lock, **of_cache)
        if kind:
            from ._async import shared

            return shared(kept, function, keeps=maxsize != 0)
        return update_wrapper(kept, function)

    return decorate
