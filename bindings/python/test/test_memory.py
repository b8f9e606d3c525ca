"""Tests that clock2q.Cache gives back what it takes."""

import gc
import resource
import sys
import tracemalloc
import unittest
import weakref

from clock2q import Cache, cached
from keys import Key, SameHash


class MemoryTest(unittest.TestCase):
    def test_cycles_are_collected(self):
        for hold in (lambda node, cache: cache.__setitem__("n", node), lambda node, cache: cache.__setitem__(node, "n")):
            node, cache = type("Node", (), {})(), Cache(3)
            node.cache = cache
            hold(node, cache)
            alive = weakref.ref(node), weakref.ref(cache)
            del node, cache
            gc.collect()
            self.assertEqual([it() for it in alive], [None, None])

    def test_weak_references(self):
        cache, called = Cache(3), []
        reference = weakref.ref(cache, called.append)
        self.assertIs(reference(), cache)
        del cache
        self.assertEqual((reference(), called), (None, [reference]))

    def test_caches_of_caches(self):
        cache = Cache(1)
        for _ in range(100_000):
            outer = Cache(1)
            outer[1] = cache
            cache = outer
        del cache, outer

    def test_sizes(self):
        """A cache says how much memory it takes, which tracemalloc sees."""
        for maxsize, arguments in ((1, ()), (1000, ()), (100_000, (lambda key, value: 1, 100_000))):
            tracemalloc.start()
            self.addCleanup(tracemalloc.stop)
            before = tracemalloc.get_traced_memory()[0]
            cache = Cache(maxsize, *arguments)
            cache["a"] = None
            for larger in (maxsize, 2 * maxsize + 1, 5 * maxsize):
                cache.resize(larger)
                taken = tracemalloc.get_traced_memory()[0] - before
                size = sys.getsizeof(cache)
                self.assertLess(abs(taken - size), 2_000)
                self.assertGreater(size, 60 * larger)
            tracemalloc.stop()
            cache.clear()
            self.assertLess(sys.getsizeof(cache), size)

    def test_references_are_given_back(self):
        """What each call does with a key and a value of its own leaves their counts as they were."""
        key, other, value = Key(10**9), Key(10**9), object()
        objects = key, other, value
        before = [sys.getrefcount(it) for it in objects]
        cache = Cache(2)
        for _ in range(100):
            cache[key] = value
            cache[other] = value
            calls = (cache.get(other), cache[key], cache.peek(other), cache.setdefault(other, value), cache.pop(other), cache.pop(other, value))
            self.assertEqual(set(map(id, calls)), {id(value)})
            cache.setdefault(key, value)
            list(cache), list(cache.items()), list(cache.values()), repr(cache), cache == {other: value}, other in cache
            cache.popitem()
            for call in (lambda: cache[key], lambda: cache.pop(key), lambda: cache.__delitem__(key)):
                self.assertRaises(KeyError, call)
            cache[key] = value
            del cache[other]
            cache[key] = value
            cache.clear()
            cache[SameHash(1)] = value
            cache[SameHash(2)] = value
            cache.update({1: value, 2: value, 3: value, key: value})
        del cache, calls, call, _
        self.assertEqual([sys.getrefcount(it) for it in objects], before)

    @unittest.skipUnless(hasattr(sys, "gettotalrefcount"), "this interpreter doesn't count references")
    def test_no_reference_is_lost(self):
        def use():
            for function in (len, cached(2)(len), cached(2, True)(len), cached(None)(len), cached(0)(len)):
                for word in ("a", "b", "a", "c"):
                    function(word)
            cache = Cache(2)
            cache.update((SameHash(number % 3), str(number)) for number in range(9))
            cache.update((number, str(number)) for number in range(9))
            cache.pop(8), cache.popitem(), cache.get(1), list(cache.items()), repr(cache), cache.setdefault(7, []), cache == {}
            self.assertRaises(KeyError, lambda: cache["none"])
            self.assertRaises(TypeError, lambda: cache[[]])

        def count(rounds):
            for _ in range(rounds):
                use()
            gc.collect()
            return sys.gettotalrefcount()

        count(20)
        before = count(20)
        self.assertLess(count(200) - before, 100)

    def test_no_memory_is_lost(self):
        def use():
            for number in range(20):
                cache = Cache(100)
                cache.update((str(it), [it]) for it in range(300))
                cache.pop("299"), cache.popitem(), cache.get("298"), list(cache.items())
                if number % 2:
                    cache.clear()

        def rounds(number):
            for _ in range(number):
                use()
            gc.collect()

        rounds(20)
        tracemalloc.start()
        self.addCleanup(tracemalloc.stop)
        rounds(20)
        before, objects = tracemalloc.get_traced_memory()[0], len(gc.get_objects())
        rounds(40)
        self.assertLess(tracemalloc.get_traced_memory()[0] - before, 20_000, "of 800 caches")
        self.assertLess(len(gc.get_objects()) - objects, 50)
        tracemalloc.stop()
        largest = resource.getrusage(resource.RUSAGE_SELF).ru_maxrss
        for _ in range(5_000):
            Cache(100)
        self.assertLess(resource.getrusage(resource.RUSAGE_SELF).ru_maxrss - largest, 20_000, "KiB, of the library")


if __name__ == "__main__":
    unittest.main()
