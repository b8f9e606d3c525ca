"""Tests of caches that are resized to more than they were made for."""

import random
import sys
import unittest

from clock2q import Cache
from keys import Acting, Key, SameHash, UnhashableNow


class GrowingTest(unittest.TestCase):
    def test_all_pairs_stay(self):
        for kind in (int, str, Key, SameHash):
            for capacity in (1, 2, 10, 1000):
                cache = Cache(capacity)
                cache.update((kind(number), number) for number in range(3 * capacity))
                before, size = dict(cache.items()), sys.getsizeof(cache)
                cache.resize(3 * capacity)
                self.assertEqual((dict(cache.items()), cache.maxsize, {key: cache[key] for key in before}), (before, 3 * capacity, before))
                self.assertGreater(sys.getsizeof(cache), size)
                if kind is not SameHash:
                    cache.update((kind(number), number) for number in range(3 * capacity))
                    self.assertEqual(len(cache), 3 * capacity)

    def test_it_hits_as_one_that_was_made_larger(self):
        draws = random.Random(1)
        grown, large = Cache(50), Cache(500)
        for number in range(60_000):
            if number == 1_000:
                grown.resize(500)
            key = draws.randrange(1024) & draws.randrange(1024)
            for it in (grown, large):
                if it.get(key) is None:
                    it[key] = key
        self.assertGreater(grown.hits, 0.95 * large.hits)

    def test_weights_times_and_the_listener(self):
        now, left = 0, []
        cache = Cache(3, lambda key, value: value, 10, ttl=5, timer=lambda: now, listener=lambda *pair: left.append(pair))
        cache.update({"a": 2, "b": 3})
        now = 3
        cache["c"] = 4
        cache.resize(20)
        self.assertEqual((left, cache.weight, dict(cache.items())), ([], 9, {"a": 2, "b": 3, "c": 4}))
        now = 5
        self.assertEqual((sorted(cache.expire()), cache.weight, dict(cache.items())), ([("a", 2), ("b", 3)], 4, {"c": 4}))
        cache["d"] = 9
        self.assertEqual((left[2:], cache.weight), ([("c", 4, "evicted")], 9))

    def test_the_order_stays(self):
        """Pairs leave a larger cache as they would have left before."""
        draws = random.Random(2)
        for kind in (int, Key, SameHash):
            for capacity in (1, 2, 3, 10, 100):
                grown, plain = Cache(capacity), Cache(capacity)
                for number in range(20 * capacity):
                    key = kind(draws.randrange(2 * capacity))
                    for it in (grown, plain):
                        if number % 7 == 0:
                            it.pop(key, None)
                        elif it.get(key) is None:
                            it[key] = number
                grown.resize(2 * capacity + 1)
                self.assertEqual([grown.popitem() for _ in range(len(grown))], [plain.popitem() for _ in range(len(plain))])

    def test_what_left_is_remembered(self):
        """A key that comes back to the larger cache is known, and leaves after all that are there."""
        cache = Cache(10)
        cache.update((number, number) for number in range(10))
        left = cache.next_victim()[0]
        cache[10] = 10
        self.assertNotIn(left, cache)
        cache.resize(20)
        cache[left] = left
        self.assertEqual([cache.popitem()[0] for _ in range(11)][-1], left)

    def test_no_key_is_hashed_or_compared(self):
        self.addCleanup(setattr, UnhashableNow, "is_broken", False)
        cache = Cache(2)
        cache[UnhashableNow(1)] = 1
        UnhashableNow.is_broken = True
        cache.resize(5)
        UnhashableNow.is_broken = False
        self.assertEqual((dict(cache.items()), cache.maxsize), ({UnhashableNow(1): 1}, 5))

    def test_comparisons_that_have_it_grow(self):
        self.addCleanup(setattr, Acting, "act", None)
        cache = Cache(5)
        cache.update((Acting(number), number) for number in range(5))
        sizes = iter((10, 300, 50_000))
        Acting.act = lambda: [cache.resize(size) for size in (next(sizes, None),) if size]
        self.assertEqual([cache.get(Acting(number)) for number in range(5)], list(range(5)))
        self.assertEqual((len(cache), cache.maxsize), (5, 50_000))

    def test_from_no_room(self):
        cache = Cache(0)
        self.assertRaises(ValueError, cache.__setitem__, 1, 1)
        cache.resize(2)
        cache.update({1: 1, 2: 2})
        cache.resize(4)
        self.assertEqual((dict(cache.items()), cache.maxsize), ({1: 1, 2: 2}, 4))

    def test_references_are_given_back(self):
        key, value = Key(10**9), object()
        before = [sys.getrefcount(it) for it in (key, value)]
        cache = Cache(1)
        cache[key] = value
        for maxsize in (2, 10, 5, 100, 1, 1000):
            cache.resize(maxsize)
        self.assertIs(cache[key], value)
        del cache
        self.assertEqual([sys.getrefcount(it) for it in (key, value)], before)


if __name__ == "__main__":
    unittest.main()
