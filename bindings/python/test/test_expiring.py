"""Tests of pairs that expire, by a clock that they turn."""

import copy
import gc
import random
import sys
import time
import unittest

from clock2q import Cache, cached
from keys import Acting, Key, SameHash


class Clock:
    """A timer that a test turns. `act` is called when it is asked, and may do anything."""

    def __init__(self):
        self.now = 0.0
        self.act = lambda: None

    def __call__(self):
        self.act()
        return self.now


class ExpiringTest(unittest.TestCase):
    def setUp(self):
        self.addCleanup(setattr, Acting, "act", None)
        self.clock, self.left = Clock(), []
        self.cache = self.made(10)

    def made(self, maxsize, *arguments):
        return Cache(maxsize, *arguments, ttl=5, timer=self.clock, listener=lambda *pair: self.left.append(pair))

    def expired_key(self, key="a", value=1):
        self.cache[key] = value
        self.clock.now += 5
        return key

    def test_no_value_is_returned_past_its_time(self):
        cache = self.cache
        cache["a"] = 1
        self.clock.now = 4.999
        self.assertEqual((cache["a"], cache.get("a"), cache.peek("a"), "a" in cache, list(cache.items())), (1, 1, 1, True, [("a", 1)]))
        self.clock.now = 5
        self.assertEqual((cache.peek("a"), "a" in cache, list(cache), list(cache.items()), list(cache.values())), (None, False, [], [], []))
        self.assertEqual((cache == {}, ("a", 1) in cache.items(), repr(cache)), (True, False, "Cache({}, maxsize=10, currsize=1)"))

    def test_each_call_that_meets_it_takes_it_out(self):
        cache = self.cache
        calls = [
            (lambda: cache.get("a"), None), (lambda: cache.pop("a", 7), 7), (lambda: cache.setdefault("a", 8), 8), (cache.next_victim, None),
            (cache.expire, [("a", 1)]), (lambda: cache.expire(time=self.clock.now), [("a", 1)]), (lambda: cache.expire(None), [("a", 1)]),
        ]  # fmt: skip
        calls += [(call, KeyError) for call in (lambda: cache["a"], lambda: cache.pop("a"), lambda: cache.__delitem__("a"), cache.popitem)]
        for call, expected in calls:
            cache.clear()
            self.left.clear()
            self.expired_key()
            if expected is KeyError:
                self.assertRaises(KeyError, call)
            else:
                self.assertEqual(call(), expected)
            self.assertEqual((self.left, "a" in cache), ([("a", 1, "expired")], expected == 8))

    def test_peek_and_in_change_nothing(self):
        self.expired_key()
        self.assertEqual((self.cache.peek("a", 3), "a" in self.cache, len(self.cache), self.left), (3, False, 1, []))

    def test_what_is_stored_again_has_its_own_time(self):
        self.cache["a"] = 1
        self.clock.now = 3
        self.cache["a"] = 2
        self.clock.now = 7
        self.assertEqual((self.cache["a"], self.left), (2, [("a", 1, "replaced")]))
        self.clock.now = 8
        self.cache["a"] = 3
        self.assertEqual((self.cache["a"], self.left[1:]), (3, [("a", 2, "expired")]))

    def test_the_rest_stays(self):
        cache = self.cache
        cache.update({"a": 1, "b": 2})
        self.clock.now = 3
        cache.update({"c": 3, "d": 4})
        self.clock.now = 5
        self.assertEqual((sorted(cache.expire()), sorted(cache.items()), len(cache)), ([("a", 1), ("b", 2)], [("c", 3), ("d", 4)], 2))
        self.assertEqual((cache.expire(), len(cache.expire(8)), Cache(3).expire()), ([], 2, []))

    def test_popitem_and_next_victim_pass_over_it(self):
        for number in range(10):
            self.cache[number] = number
            self.clock.now += 0.25 if number < 8 else 4
        live = dict(self.cache.items())
        self.assertEqual(live, {9: 9})
        self.assertEqual(self.cache.next_victim(), (9, 9))
        self.assertEqual(self.cache.popitem(), (9, 9))
        self.assertEqual(self.left[-1], (9, 9, "evicted"))
        self.assertEqual({reason for _, _, reason in self.left[:-1]}, {"expired"})

    def test_random_calls_beside_a_dict_of_times(self):
        """Where nothing is evicted, the same keys are there as in a dict with the time of each."""
        for make in (lambda number: number, str, SameHash):
            cache, times, draws = self.made(8 if make is SameHash else 100), {}, random.Random(1)
            for _ in range(4_000):
                self.clock.now += draws.choice((0, 0.25, 1))
                times = {key: held for key, held in times.items() if self.clock.now < held[0]}
                key, call = draws.randrange(8), draws.randrange(6)
                value = times.get(key, (0, None))[1]
                if call < 2:
                    cache[make(key)] = number = draws.random()
                    times[key] = self.clock.now + 5, number
                elif call == 2:
                    self.assertEqual(cache.get(make(key)), value)
                elif call == 3:
                    self.assertEqual(cache.pop(make(key), None), value)
                    times.pop(key, None)
                elif call == 4:
                    self.assertEqual((cache.peek(make(key)), make(key) in cache), (value, value is not None))
                else:
                    cache.expire()
                    self.assertEqual(len(cache), len(times))
                self.assertEqual(dict(cache.items()), {make(key): value for key, (_, value) in times.items()})

    def test_weights(self):
        cache = self.made(10, lambda key, value: value, 10)
        cache.update({"a": 4, "b": 5})
        self.clock.now = 5
        cache["c"] = 9
        self.assertEqual((cache.weight, sorted(self.left)), (9, [("a", 4, "evicted"), ("b", 5, "evicted")]))
        self.clock.now = 10
        self.assertEqual((cache.get("c"), cache.weight, cache.currsize), (None, 0, 0))

    def test_a_resized_cache(self):
        cache = self.made(10)
        cache.resize(2)
        cache.update({"a": 1, "b": 2, "c": 3})
        self.clock.now = 5
        self.assertEqual((len(cache.expire()), len(cache)), (2, 0))

    def test_the_usual_timer(self):
        cache = Cache(10, ttl=0.05)
        cache["a"] = 1
        self.assertEqual((cache.get("a"), cache.ttl, cache.timer), (1, 0.05, time.monotonic))
        time.sleep(0.06)
        self.assertIsNone(cache.get("a"))
        self.assertEqual((Cache(3).ttl, Cache(3).timer), (None, None))

    def test_times_that_are_no_numbers(self):
        """A time that is no number is after all times, and a timer that raises leaves the cache whole."""
        self.cache["a"] = 1
        self.clock.now = float("nan")
        self.assertIsNone(self.cache.get("a"))
        self.clock.now = "noon"
        for call in (lambda: self.cache.__setitem__("b", 2), self.cache.expire, self.cache.popitem, lambda: list(self.cache)):
            self.assertRaises(TypeError, call)
        self.clock.now = 0.0
        self.cache["a"] = 1
        self.clock.act = lambda: 1 // 0
        for call in (lambda: self.cache["a"], lambda: self.cache.peek("a"), lambda: self.cache.pop("a"), self.cache.next_victim):
            self.assertRaises(ZeroDivisionError, call)
        self.clock.act = lambda: None
        self.assertEqual(self.cache["a"], 1)

    def test_refusals(self):
        for ttl in (0, -1, float("nan")):
            self.assertRaises(ValueError, Cache, 10, ttl=ttl)
            self.assertRaises(ValueError, cached(10, ttl=ttl), len)
        for arguments in ({"ttl": "5"}, {"timer": time.monotonic}, {"ttl": 5, "timer": 5}, {"listener": 5}):
            self.assertRaises(TypeError, Cache, 10, **arguments)
        self.assertRaises(TypeError, cached, None, ttl=5)
        for call in (lambda: self.cache.expire(1, 2), lambda: self.cache.expire(now=1), lambda: self.cache.expire("noon"), lambda: copy.copy(self.cache)):
            self.assertRaises(TypeError, call)

    def test_a_timer_that_uses_the_cache(self):
        cache, clock = self.cache, self.clock

        def once(change):
            def act():
                clock.act = lambda: None
                change()

            return act

        changes = (cache.clear, lambda: cache.pop("a", None), lambda: cache.__setitem__("a", 2), lambda: cache.update(enumerate(range(30))))
        for change in changes:
            for call in (lambda: cache.get("a"), lambda: cache.setdefault("a", 3), lambda: cache.pop("a", None), lambda: cache.__setitem__("a", 3), cache.expire):
                for passed in (0, 5):
                    cache.clear()
                    cache["a"] = 1
                    clock.now += passed
                    clock.act = once(change)
                    self.assertIn(call(), (None, 1, 2, 3, [], [("a", 1)]))
                    pairs = dict(cache.items())
                    self.assertEqual({key: cache.peek(key) for key in pairs}, pairs)

    def test_comparisons_of_what_has_expired(self):
        self.cache[Acting(1)] = 1
        self.clock.now = 5
        Acting.act = self.cache.clear
        self.assertIsNone(self.cache.get(Acting(1)))

    def test_references_are_given_back(self):
        key, value = Key(10**9), object()
        before = [sys.getrefcount(it) for it in (key, value)]
        for _ in range(100):
            for call in (lambda: self.cache.get(key), self.cache.expire, lambda: self.cache.pop(key, None), self.cache.next_victim, lambda: list(self.cache.items())):
                self.cache[key] = value
                self.clock.now += 5
                call()
        self.cache.clear()
        self.left.clear()
        self.assertEqual([sys.getrefcount(it) for it in (key, value)], before)

    def test_cycles_are_collected(self):
        class Timer(Clock):
            alive = 0

            def __init__(self):
                super().__init__()
                Timer.alive += 1

            def __del__(self):
                Timer.alive -= 1

        timer = Timer()
        timer.cache = Cache(3, ttl=1, timer=timer, listener=lambda *pair: timer)
        timer.cache["a"] = timer
        del timer
        gc.collect()
        self.assertEqual(Timer.alive, 0)


class CachedTest(unittest.TestCase):
    def test_results_expire(self):
        for arguments in (("a",), (1,), ((1, 2), 3), (1, 2)):
            clock, made = Clock(), []

            @cached(10, ttl=5, timer=clock)
            def function(*args):
                made.append(args)
                return len(made)

            self.assertEqual([function(*arguments) for _ in range(3)], [1, 1, 1])
            clock.now = 4.999
            self.assertEqual(function(*arguments), 1)
            clock.now = 5
            self.assertEqual([function(*arguments) for _ in range(3)], [2, 2, 2])
            self.assertEqual(function.cache_info(), (5, 2, 10, 1))

    def test_nothing_is_kept_of_none(self):
        length = cached(0, ttl=5)(len)
        self.assertEqual((length("ab"), length("ab"), length.cache_info()), (2, 2, (0, 2, 0, 0)))


if __name__ == "__main__":
    unittest.main()
