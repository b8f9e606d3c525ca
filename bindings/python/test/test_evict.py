"""Tests of pairs that leave without a new key: popitem, resize, and weights."""

import gc
import random
import sys
import unittest
import weakref

from clock2q import MAX_CAPACITY, Cache
from keys import Acting, Key, SameHash, TwoBits


class PopitemTest(unittest.TestCase):
    def test_what_would_leave_next(self):
        """From a full cache that of which a new key would take the place."""
        for maxsize in (1, 2, 3, 10, 100):
            draws = random.Random(maxsize)
            popping, storing = Cache(maxsize), Cache(maxsize)
            for number in range(2_000):
                key = draws.randrange(3 * maxsize)
                for cache in (popping, storing):
                    if cache.get(key) is None:
                        cache[key] = key
                if len(popping) == maxsize and draws.random() < 0.1:
                    fresh = 3 * maxsize + number
                    pairs = dict(storing.items())
                    self.assertEqual(storing.next_victim(), popping.next_victim())
                    following = popping.next_victim()
                    popped = popping.popitem()
                    self.assertEqual(following, popped)
                    popping[fresh] = storing[fresh] = fresh
                    left = pairs.items() - dict(storing.items()).items()
                    self.assertEqual({popped}, left)
                self.assertEqual(list(popping), list(storing))

    def test_a_cache_empties(self):
        cache = Cache(100)
        cache.update((number, str(number)) for number in range(300))
        pairs = dict(cache.items())
        self.assertEqual(dict(cache.popitem() for _ in range(100)), pairs)
        self.assertIsNone(cache.next_victim())
        with self.assertRaises(KeyError):
            cache.popitem()


class ResizeTest(unittest.TestCase):
    def test_sizes(self):
        cache = Cache(100)
        for refused in (0, -1, MAX_CAPACITY + 1, 2**62, 2**70):
            with self.assertRaisesRegex(ValueError, "from 1 to 16777215|cannot fit"):
                cache.resize(refused)
        for refused in ("1", 1.5, None):
            with self.assertRaises(TypeError):
                cache.resize(refused)
        cache.update((number, number) for number in range(200))
        for maxsize in (100, 50, 3, 1):
            cache.resize(maxsize)
            self.assertEqual((len(cache), cache.maxsize), (maxsize, maxsize))
            cache.update((number, number) for number in range(1000))
            self.assertEqual((len(cache), cache.peek(999)), (maxsize, 999))
        cache.resize(100)
        cache.update((number, number) for number in range(1000, 1100))
        self.assertEqual((len(cache), cache.maxsize), (100, 100))

    def test_random_calls(self):
        for kind in (int, Key, SameHash, TwoBits):
            for capacity in (1, 2, 10, 100):
                draws = random.Random(capacity)
                cache, stored = Cache(capacity), {}
                for number in range(3_000):
                    key = kind(draws.randrange(3 * capacity))
                    if draws.random() < 0.02:
                        before, maxsize = dict(cache.items()), draws.randint(1, 2 * capacity)
                        cache.resize(maxsize)
                        self.assertEqual((cache.maxsize, len(cache)), (maxsize, min(len(before), maxsize)))
                        self.assertLessEqual(dict(cache.items()).items(), before.items())
                    elif draws.random() < 0.1:
                        cache.pop(key, None)
                    else:
                        cache[key] = stored[key] = number
                        self.assertEqual(cache[key], number)
                    self.assertLessEqual(len(cache), cache.maxsize)
                self.assertLessEqual(dict(cache.items()).items(), stored.items())

    def test_hits(self):
        """It hits as often as a cache that was made as small, by nine tenths."""
        draws = random.Random(1)
        cache, small = Cache(1000), Cache(100)
        cache.update((number, number) for number in range(1000))
        cache.resize(100)
        for _ in range(50_000):
            key = draws.randrange(1024) & draws.randrange(1024)
            for it in (cache, small):
                if it.get(key) is None:
                    it[key] = key
        self.assertGreater(cache.hits, 0.9 * small.hits)

    def test_without_init(self):
        class Empty(Cache):
            def __init__(self):
                pass

        with self.assertRaises(RuntimeError):
            Empty().resize(1)


def itself(key, value):
    return value


class WeightTest(unittest.TestCase):
    def setUp(self):
        self.addCleanup(setattr, Acting, "act", None)

    def test_without_a_weigher(self):
        cache = Cache(10)
        self.assertEqual((cache.weight, cache.max_weight), (None, None))

    def test_arguments(self):
        for arguments in ((10, itself), (10, None, 5), (10, 7, 5), (10, itself, "5"), (10, itself, None), (10, itself, 5, 6)):
            with self.assertRaises(TypeError):
                Cache(*arguments)
        with self.assertRaises(ValueError):
            Cache(10, itself, -1)
        with self.assertRaises(OverflowError):
            Cache(10, itself, 2**63)
        cache = Cache(maxsize=10, max_weight=5, weigher=itself)
        self.assertEqual((cache.weight, cache.max_weight, cache.maxsize), (0, 5, 10))
        with self.assertRaises(AttributeError):
            cache.max_weight = 6

    def test_no_more_leave_than_need_to(self):
        cache = Cache(1000, itself, 100)
        cache.update((key, 10) for key in range(10))
        cache["heavy"] = 35
        self.assertEqual((len(cache), cache.weight), (7, 95))
        cache["light"] = 0
        cache["small"] = 5
        self.assertEqual((len(cache), cache.weight), (9, 100))
        cache["heavy"] = 30
        self.assertEqual((len(cache), cache.weight), (9, 95))
        self.assertEqual(cache.setdefault("heavy", 1), 30)

    def test_too_heavy(self):
        cache = Cache(10, itself, 5)
        cache["a"], cache["b"] = 2, 3
        for key in ("a", "c"):
            for weight in (6, 2**70):
                for store in (cache.__setitem__, cache.setdefault):
                    if store == cache.setdefault and key == "a":
                        continue
                    with self.assertRaisesRegex(ValueError, "value too large"):
                        store(key, weight)
        for wrong, error in ((-1, ValueError), (-(2**70), ValueError), (1.5, TypeError), (None, TypeError)):
            with self.assertRaises(error):
                cache["a"] = wrong
        self.assertEqual((dict(cache.items()), cache.weight), ({"a": 2, "b": 3}, 5))

    def test_a_pair_that_grows(self):
        for first in (1, 2, 3):
            cache = Cache(10, itself, 6)
            cache.update({1: 1, 2: 2, 3: 3})
            cache[first] = 6
            self.assertEqual((dict(cache.items()), cache.weight), ({first: 6}, 6))

    def test_random_calls(self):
        for kind in (int, Key, SameHash, TwoBits):
            for capacity, max_weight in ((1, 5), (2, 0), (10, 7), (10, 1000), (100, 250), (100, 2**63 - 1)):
                self.check(kind, capacity, max_weight, random.Random(capacity))

    def check(self, kind, capacity, max_weight, draws):
        cache, stored = Cache(capacity, lambda key, value: value % 8, max_weight), {}
        for number in range(2_000):
            key, draw, value = kind(draws.randrange(3 * capacity)), draws.random(), 8 * number + draws.randrange(8)
            if draw < 0.6 and value % 8 <= max_weight:
                cache[key] = stored[key] = value
                self.assertEqual(cache.peek(key), value)
            elif draw < 0.8:
                self.assertIn(cache.get(key), (None, stored.get(key)))
            elif draw < 0.9:
                cache.pop(key, None)
            elif draw < 0.92 and len(cache) > 0:
                following = cache.next_victim()
                key, value = cache.popitem()
                self.assertEqual((following, stored[key]), ((key, value), value))
            elif draw < 0.93:
                cache.resize(draws.randint(1, capacity))
            elif draw < 0.932:
                cache.clear()
            pairs = dict(cache.items())
            self.assertLessEqual(pairs.items(), stored.items())
            self.assertEqual(cache.weight, sum(value % 8 for value in pairs.values()))
            self.assertTrue(cache.weight <= max_weight and len(cache) <= cache.maxsize)

    def test_a_weigher_that_raises_or_uses_the_cache(self):
        def weigher(key, value):
            return act(key, value)

        cache = Cache(10, weigher, 100)
        act = itself
        cache["a"] = 60

        def act(key, value):
            raise ZeroDivisionError

        for key in ("a", "b"):
            with self.assertRaises(ZeroDivisionError):
                cache[key] = 1
        self.assertEqual((dict(cache.items()), cache.weight), ({"a": 60}, 60))

        def act(key, value):
            if key == "b":
                cache.clear()
                cache.update((number, 5) for number in range(10))
            return value

        cache["b"] = 90
        self.assertEqual((cache["b"], cache.weight, len(cache)), (90, 100, 3))

    def test_comparisons_that_use_the_cache(self):
        cache = Cache(10, itself, 20)

        def act():
            held, Acting.act = Acting.act, None
            cache.popitem()
            cache.update((number, 3) for number in range(draws.randrange(7)))
            Acting.act = held if draws.random() < 0.7 else None

        draws = random.Random(1)
        for number in range(2_000):
            Acting.act = None
            cache[Acting(number % 3)] = number % 19
            Acting.act = act
            try:
                cache[Acting(number % 4)] = number % 17
            except RuntimeError:
                pass
            Acting.act = None
            self.assertEqual(cache.weight, sum(cache.values()))
            self.assertLessEqual(cache.weight, 20)

    def test_finalizers_that_use_the_cache(self):
        cache, draws = Cache(20, lambda key, value: value.weight, 50), random.Random(1)

        class Final:
            def __init__(self, weight):
                self.weight = weight

            def __del__(self):
                seen.append(cache.weight - sum(it.weight for it in cache.values()))
                if draws.random() < 0.3:
                    cache[draws.randrange(30)] = Final(0)
                elif draws.random() < 0.1:
                    cache.clear()

        seen = []
        for number in range(5_000):
            cache[draws.randrange(30)] = Final(draws.randrange(50))
            self.assertLessEqual(cache.weight, 50)
            if number % 50 == 0:
                cache.resize(draws.randint(1, 20))
        cache.clear()
        self.assertEqual((set(seen), len(seen) > 2_000), ({0}, True))

    def test_references_and_cycles(self):
        key, value = Key(10**9), 10**9
        before = sys.getrefcount(key), sys.getrefcount(value)
        cache = Cache(10, lambda key, value: value, 2 * 10**9)
        for number in range(100):
            cache[key] = value
            cache[number] = value
            cache[Key(number)] = 10**9 + number
            cache[key] = value
            cache.resize(1 + number % 10)
        cache.popitem()
        with self.assertRaises(ValueError):
            cache[key] = 3 * 10**9
        del cache
        self.assertEqual((sys.getrefcount(key), sys.getrefcount(value)), before)

        class Weigher:
            def __call__(self, key, value):
                return 1

        weigher = Weigher()
        weigher.cache = Cache(3, weigher, 3)
        weigher.cache[1] = weigher
        alive = weakref.ref(weigher)
        del weigher
        gc.collect()
        self.assertIsNone(alive())


if __name__ == "__main__":
    unittest.main()
