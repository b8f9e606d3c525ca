"""What `cached` makes of an async def: one call for those that wait for the same result."""

from asyncio import get_running_loop, shield
from contextvars import ContextVar
from functools import update_wrapper

_ABSENT = object()

# The calls that the running code is part of, the innermost last.
_within = ContextVar("clock2q._within", default=())


class _Flight:
    """A call under way in a task of its own: how many wait for it, and which others its code waits for."""

    __slots__ = ("task", "waiting", "waits_for")

    def __init__(self):
        self.task = None
        self.waiting = 0
        self.waits_for = []

    def needs(self, calls):
        """Whether it is one of these calls, or waits for one."""
        return self in calls or any(it.needs(calls) for it in self.waits_for)


class _Flights:
    """The calls of a function that are under way, by their key and loop, and where results are kept."""

    def __init__(self, kept, function):
        self.kept = kept
        self.function = function
        self.under_way = {}

    async def result(self, key, args, named):
        """Waits for the call for this key, or begins one. Code that the call waits for makes its own."""
        place = key, get_running_loop()
        flight = self.under_way.get(place)
        if flight is None:
            self.kept._misses += 1
            flight = self.begin(place, args, named)
        elif flight.needs(_within.get()):
            self.kept._misses += 1
            return await self.function(*args, **named)
        else:
            self.kept._hits += 1
        return await self.wait(place, flight)

    def begin(self, place, args, named):
        """Begins a call, which others then wait for."""
        flight = self.under_way[place] = _Flight()
        flight.task = place[1].create_task(self.call(place, flight, args, named))
        return flight

    async def call(self, place, flight, args, named):
        """Calls the function, and keeps what it returns unless results were cleared since."""
        try:
            _within.set((*_within.get(), flight))
            result = await self.function(*args, **named)
            if self.under_way.get(place) is flight:
                self.kept._keep(place[0], result)
            return result
        finally:
            self.end(place, flight)

    def end(self, place, flight):
        """Has nobody wait for a call from now on."""
        if self.under_way.get(place) is flight:
            del self.under_way[place]

    async def wait(self, place, flight):
        """Waits for a call, and cancels it if it is still under way and nobody else waits."""
        within = _within.get()
        flight.waiting += 1
        if within:
            within[-1].waits_for.append(flight)
        try:
            return await shield(flight.task)
        finally:
            flight.waiting -= 1
            if within:
                within[-1].waits_for.remove(flight)
            if not flight.waiting:
                self.end(place, flight)
                flight.task.cancel()  # which does nothing if it has ended


def shared(kept, function, keeps):
    """Returns an async def that keeps the results of another in `kept`, or none."""
    flights = _Flights(kept, function)

    async def wrapper(*args, **named):
        if not keeps:
            return await kept(*args, **named)
        key = kept._key(*args, **named)
        result = kept._kept(key, _ABSENT)
        return await flights.result(key, args, named) if result is _ABSENT else result

    def cache_clear():
        flights.under_way.clear()
        kept.cache_clear()

    cache_clear.__doc__ = kept.cache_clear.__doc__
    update_wrapper(wrapper, function)
    wrapper.cache_info, wrapper.cache_clear, wrapper.cache_parameters = kept.cache_info, cache_clear, kept.cache_parameters
    return wrapper
