"""Tests of the history that the caller sizes."""

import copy
import pickle
import random
import unittest

from clock2q import Cache, PageCache, cached


def hits_of_loops(enters):
    """How many of twenty new keys hit in the fourth round of a loop over them, in a full cache for twenty."""
    for key in range(20):
        enters(key)
    return [sum(enters(key) for key in range(20, 40)) for _ in range(4)][3]


def hits_of_cache(cache):
    def enters(key):
        was_here = key in cache
        cache[key] = key
        return was_here

    return hits_of_loops(enters)


def hits_of_function(**arguments):
    def enters(key):
        before = function.cache_info().hits
        function(key)
        return function.cache_info().hits > before

    function = cached(20, **arguments)(lambda key: key)
    return hits_of_loops(enters)


class HistoryTest(unittest.TestCase):
    def test_a_longer_one_admits_a_longer_loop(self):
        """Small and the usual history have room for 12 of the 20 keys, and so none hits; with a history of 18 all do."""
        for history, hits in ((None, 0), (10, 0), (17, 0), (18, 20), (20, 20)):
            self.assertEqual(hits_of_cache(Cache(20, history=history)), hits)
            self.assertEqual(hits_of_cache(Cache(20, lambda key, value: 1, 100, history=history)), hits)
            self.assertEqual(hits_of_cache(Cache(20, ttl=10, timer=lambda: 0, history=history)), hits)
            self.assertEqual(hits_of_function(history=history), hits)
            self.assertEqual(hits_of_function(history=history, lock=True), hits)
            pages = PageCache(20, history=history)
            self.assertEqual(hits_of_loops(lambda key: pages.enter(key).last == key), hits)

    def test_half_of_maxsize_is_usual(self):
        """The same keys leave as if it were said, at any size: so the other shares are the library's own."""
        for maxsize in (1, 2, 3, 9, 10, 11, 19, 20, 25, 100, 1000):
            draws = random.Random(maxsize)
            one, other = Cache(maxsize), Cache(maxsize, history=maxsize // 2)
            pages, others = PageCache(maxsize), PageCache(maxsize, history=maxsize // 2)
            for _ in range(20_000):
                key = draws.randrange(3 * maxsize) & draws.randrange(1024)
                one[key] = other[key] = key
                self.assertEqual(pages.enter(key), others.enter(key))
            self.assertEqual(list(one), list(other))

    def test_what_is_said(self):
        self.assertEqual([Cache(10, history=history).history for history in (None, 0, 10)], [None, 0, 10])
        self.assertIsNone(Cache.__new__(Cache).history)

    def test_refusals(self):
        for make in (Cache, PageCache, lambda maxsize, history: cached(maxsize, history=history)(len)):
            for maxsize, history in ((10, 11), (10, -1), (1, 2), (10, 2**70), (10, -(2**70))):
                with self.assertRaisesRegex(ValueError, "history is from 0 to (maxsize|capacity)"):
                    make(maxsize, history=history)
            self.assertRaises(TypeError, make, 10, history="5")
        with self.assertRaisesRegex(ValueError, "history"):
            Cache(0, history=1)
        with self.assertRaisesRegex(TypeError, "history comes with a maxsize"):
            cached(None, history=5)
        self.assertRaises(TypeError, Cache, 10, None, None, 5)

    def test_copies_keep_it(self):
        for copied in (copy.copy, copy.deepcopy, lambda it: pickle.loads(pickle.dumps(it))):
            other = copied(Cache(20, history=18))
            self.assertEqual((other.history, hits_of_cache(other)), (18, 20))
            cache = Cache(20, history=18)
            cache.resize(7)
            self.assertEqual((copied(cache).maxsize, copied(cache).history), (7, 7))

    def test_resizing_keeps_it(self):
        cache = Cache(5, history=5)
        cache.resize(20)
        self.assertEqual((cache.history, hits_of_cache(cache)), (5, 0))
        cache = Cache(18, history=18)
        cache.update((key, key) for key in range(100))
        cache.resize(20)
        self.assertEqual((cache.history, hits_of_cache(cache)), (18, 20))


if __name__ == "__main__":
    unittest.main()
