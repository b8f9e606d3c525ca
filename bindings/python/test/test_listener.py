"""Tests of what a listener hears."""

import asyncio
import gc
import random
import sys
import threading
import time
import unittest

from clock2q import Cache, cached
from keys import Key, SameHash


class ListenerTest(unittest.TestCase):
    def setUp(self):
        self.left = []

    def heard(self, maxsize, *arguments):
        return Cache(maxsize, *arguments, listener=lambda *pair: self.left.append(pair))

    def test_reasons(self):
        cache = self.heard(2)
        cache["a"] = 1
        cache["a"] = 2
        self.assertEqual(self.left, [("a", 1, "replaced")])
        del cache["a"]
        cache["b"] = 3
        self.assertEqual((cache.pop("b"), self.left[1:]), (3, [("a", 2, "removed"), ("b", 3, "removed")]))
        cache["c"] = 4
        self.assertEqual((cache.popitem(), self.left[3:]), (("c", 4), [("c", 4, "evicted")]))
        cache.update({"d": 5, "e": 6})
        cache.resize(1)
        self.assertEqual((self.left[4][2], len(self.left)), ("evicted", 5))
        cache.clear()
        self.assertEqual((self.left[5][2], len(self.left)), ("cleared", 6))

    def test_each_pair_is_heard_once(self):
        """What was stored is there, or was heard, once."""
        for make in (lambda number: number, SameHash):
            for arguments in ((10,), (10, lambda key, value: value % 5, 12)):
                self.left.clear()
                cache, stored, draws = self.heard(*arguments), [], random.Random(1)
                for value in range(3_000):
                    call, key = draws.randrange(20), make(draws.randrange(30))
                    if call == 0:
                        cache.pop(key, None)
                    elif call == 1:
                        cache.popitem() if cache else None
                    elif call == 2:
                        cache.resize(draws.randrange(5, 11))
                    elif call == 3 and value % 10 == 0:
                        cache.clear()
                    else:
                        cache[key] = value
                        stored.append(value)
                    self.assertEqual(len(stored), len(self.left) + len(cache))
                self.assertEqual(sorted(stored), sorted([value for _, value, _ in self.left] + list(cache.values())))

    def test_seventeen_of_one_hash(self):
        cache = self.heard(40)
        for number in range(17):
            cache[SameHash(number)] = number
        self.assertEqual([reason for _, _, reason in self.left], ["evicted"])

    def test_a_key_that_leaves_for_its_own_value(self):
        cache = self.heard(5, lambda key, value: value, 10)
        cache["a"] = 3
        cache["a"] = 9
        self.assertEqual((self.left, dict(cache.items())), ([("a", 3, "replaced")], {"a": 9}))

    def test_it_may_use_the_cache(self):
        """It is called once the cache is whole, and may store, remove and clear."""

        def use(key, value, reason):
            self.left.append((key, value, reason))
            self.assertEqual((len(cache), {key: cache.peek(key) for key in cache}), (cache.currsize, dict(cache.items())))
            if value > 0:
                cache[key] = value - 1
            if value == 3:
                cache.clear()

        cache = Cache(5, listener=use)
        for number in range(200):
            cache[number] = 1 + number % 4
            self.assertLessEqual(len(cache), 5)
        cache.clear()
        cache.pop(next(iter(cache)), None)
        self.assertGreater(len(self.left), 500)

    def test_what_it_raises(self):
        """It goes to the hook, and the call does what it does."""

        def fail(key, value, reason):
            raise ZeroDivisionError(reason)

        raised = []
        self.addCleanup(setattr, sys, "unraisablehook", sys.unraisablehook)
        sys.unraisablehook = lambda it: raised.append((it.exc_type, str(it.exc_value)))
        cache = Cache(2, listener=fail)
        cache.update({"a": 1, "b": 2, "c": 3})
        self.assertEqual((cache["c"], cache.pop("c")), (3, 3))
        cache.clear()
        self.assertEqual(raised, [(ZeroDivisionError, reason) for reason in ("evicted", "removed", "cleared")])

    def test_a_cache_that_is_dropped_says_nothing(self):
        cache = self.heard(2)
        cache["a"] = cache
        del cache
        gc.collect()
        cache = self.heard(2)
        cache["a"] = 1
        del cache
        self.assertEqual(self.left, [])

    def test_references_are_given_back(self):
        key, value, word = Key(10**9), object(), sys.intern("replaced")
        before = [sys.getrefcount(it) for it in (key, value)]
        cache, words = self.heard(1), sys.getrefcount(word)
        for number in range(100):
            cache[key] = value
            cache[key] = value
            cache[number] = value
            cache[key] = value
            cache.pop(key)
            cache[key] = value
            cache.popitem()
            cache[key] = value
            cache.clear()
        # From Python 3.12 on such a word may be immortal, and isn't counted.
        self.assertIn(sys.getrefcount(word) - words, (0, sum(reason == "replaced" for _, _, reason in self.left)))
        self.left.clear()
        self.assertEqual([sys.getrefcount(it) for it in (key, value)], before)

    def test_threads(self):
        """Threads that share a cache, and a listener with a lock of its own: no call is made while one is held here."""
        self.addCleanup(sys.setswitchinterval, sys.getswitchinterval())
        sys.setswitchinterval(1e-6)
        lock, heard = threading.Lock(), []

        def listen(key, value, reason):
            with lock:
                heard.append(value)
                cache.peek(key)

        def work(seed):
            for number in random.Random(seed).choices(range(60), k=2_000):
                with lock:
                    pass
                cache[number] = seed, number

        cache = Cache(20, listener=listen)
        threads = [threading.Thread(target=work, args=(seed,)) for seed in range(4)]
        for thread in threads:
            thread.start()
        for thread in threads:
            thread.join()
        self.assertEqual(len(heard) + len(cache), 8_000)


class CachedListenerTest(unittest.TestCase):
    def setUp(self):
        self.left, self.now = [], 0

    def heard(self, function, maxsize=2, **arguments):
        return cached(maxsize, listener=lambda *result: self.left.append(result), **arguments)(function)

    def test_reasons(self):
        for lock in (False, True):
            self.left.clear()
            square = self.heard(lambda number: number**2, ttl=5, timer=lambda: self.now, lock=lock)
            square(1), square(2), square(3)
            self.assertEqual((len(self.left), self.left[0][2]), (1, "evicted"))
            self.now += 5
            square(3)
            self.assertEqual(self.left[1:], [(3, 9, "expired")])
            square.cache_clear()
            self.assertEqual(sorted(self.left[2:]), [(2, 4, "cleared"), (3, 9, "cleared")])

    def test_a_result_that_is_kept_twice(self):
        """A function that asks for its own result has kept another meanwhile."""

        def deep(number):
            if depth:
                depth.pop()
                result(number)
            return number

        for lock in (False, True):
            self.left.clear()
            depth, result = [1], self.heard(deep, lock=lock)
            result(7)
            self.assertEqual(self.left, [(7, 7, "replaced")])

    def test_keys(self):
        for lock in (False, True):
            self.left.clear()
            first = self.heard(lambda *args: args[0], maxsize=1, lock=lock)
            first("a"), first(5), first(1.5), first("a", 2), first("a")
            self.assertEqual([key for key, _, _ in self.left], ["a", 5, (1.5,), ("a", 2)])
            self.left.clear()
            total = self.heard(sum, maxsize=1, lock=lock, key=len)
            total([1, 2]), total([3, 4]), total([5])
            self.assertEqual(self.left, [(2, 3, "evicted")])

    def test_nobody_waits_while_it_is_called(self):
        """It may wait for another thread that waits for the call for whose result something left."""
        found, waiting = [], []

        def wait_for_others(key, result, reason):
            for thread in waiting:
                thread.join(10)
            found.append([thread.is_alive() for thread in waiting])

        @cached(1, lock=True, listener=wait_for_others)
        def square(number):
            waiting[:] = [threading.Thread(target=square, args=(number,), daemon=True)]
            waiting[0].start()
            time.sleep(0.05)
            return number**2

        self.assertEqual([square(number) for number in range(4)], [0, 1, 4, 9])
        self.assertEqual((found, square.cache_info().misses), ([[False]] * 3, 4))

    def test_it_may_call_the_function(self):
        for lock in (False, True):
            square = cached(2, lock=lock, listener=lambda key, result, reason: key and square(key - 1))(lambda number: number**2)
            self.assertEqual([square(number) for number in range(50)], [number**2 for number in range(50)])

    def test_async(self):
        async def square(number):
            return number**2

        async def run():
            return [await wrapped(number) for number in (1, 2, 3)]

        wrapped = self.heard(square)
        self.assertEqual((asyncio.run(run()), len(self.left)), ([1, 4, 9], 1))
        wrapped.cache_clear()
        self.assertEqual(len(self.left), 3)

    def test_threads(self):
        """Each result that was made is kept, or was heard of once, whoever asked."""
        self.addCleanup(sys.setswitchinterval, sys.getswitchinterval())
        sys.setswitchinterval(1e-6)
        made, heard = [], []

        class Slow(Key):
            def __eq__(self, other):
                return all([True] * 10) and super().__eq__(other)

            __hash__ = Key.__hash__

        @cached(20, lock=True, listener=lambda key, result, reason: heard.append(result))
        def make(key):
            result = object()
            made.append(result)
            return result

        def work(seed):
            for number in random.Random(seed).choices(range(60), k=2_000):
                make(Slow(number))

        threads = [threading.Thread(target=work, args=(seed,)) for seed in range(4)]
        for thread in threads:
            thread.start()
        for thread in threads:
            thread.join()
        make.cache_clear()
        self.assertEqual((len(heard), set(heard)), (len(made), set(made)))

    def test_what_it_raises(self):
        raised = []
        self.addCleanup(setattr, sys, "unraisablehook", sys.unraisablehook)
        sys.unraisablehook = lambda it: raised.append(it.exc_type)
        for lock in (False, True):
            square = cached(1, lock=lock, listener=lambda key, result, reason: 1 / 0)(lambda number: number**2)
            self.assertEqual([square(1), square(2)], [1, 4])
        self.assertEqual(raised, [ZeroDivisionError] * 2)

    def test_a_function_that_is_dropped_says_nothing(self):
        for lock in (False, True):
            square = self.heard(lambda number: square, lock=lock)
            square(1)
            del square
            gc.collect()
        self.assertEqual(self.left, [])

    def test_references_are_given_back(self):
        for lock in (False, True):
            key, result = Key(10**9), object()
            before = [sys.getrefcount(it) for it in (key, result)]
            kept = self.heard(lambda it: result, maxsize=1, lock=lock)
            for number in range(100):
                kept(key)
                kept(number)
                kept.cache_clear()
            self.left.clear()
            self.assertEqual([sys.getrefcount(it) for it in (key, result)], before)

    def test_refusals(self):
        with self.assertRaisesRegex(TypeError, "listener comes with a maxsize"):
            cached(None, listener=print)
        with self.assertRaisesRegex(TypeError, "listener is a function"):
            cached(5, listener=5)(len)


if __name__ == "__main__":
    unittest.main()
