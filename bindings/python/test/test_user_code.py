"""Tests of clock2q.Cache with comparisons, hashes, finalizers, signal handlers and threads that do anything."""

import gc
import random
import signal
import sys
import threading
import unittest

from clock2q import Cache
from keys import Acting, Key, TwoBits, UnhashableNow


class UserCodeTest(unittest.TestCase):
    """Comparisons, hashes and finalizers that raise or use the cache."""

    def setUp(self):
        self.addCleanup(setattr, Acting, "act", None)
        self.addCleanup(setattr, UnhashableNow, "is_broken", False)
        self.cache = Cache(10)

    def calls(self, key):
        """All calls that compare keys."""
        cache = self.cache
        return [
            lambda: cache[key], lambda: cache.get(key), lambda: cache.peek(key), lambda: key in cache, lambda: cache.pop(key, None),
            lambda: cache.setdefault(key, 2), lambda: cache.__setitem__(key, 2), lambda: cache.__delitem__(key),
        ]  # fmt: skip

    def check_whole(self):
        """What is there is found, and what is stored then is there."""
        Acting.act = None
        pairs = dict(self.cache.items())
        self.assertEqual((len(pairs), {key: self.cache.peek(key) for key in pairs}), (len(self.cache), pairs))
        self.cache.update((number, number) for number in range(100, 120))
        self.assertEqual((self.cache[119], len(self.cache)), (119, 10))

    def test_comparisons_that_raise(self):
        def fail():
            raise ZeroDivisionError

        for at in range(len(self.calls(None))):
            self.cache.clear()
            self.cache[Acting(1)] = 1
            Acting.act = fail
            with self.assertRaises(ZeroDivisionError):
                self.calls(Acting(1))[at]()
            Acting.act = None
            self.assertEqual(dict(self.cache.items()), {Acting(1): 1})
            self.check_whole()

    def test_hashes_that_raise(self):
        key = UnhashableNow(1)
        self.cache[key] = 1
        for call in self.calls(key):
            UnhashableNow.is_broken = True
            with self.assertRaises(ZeroDivisionError):
                call()
            UnhashableNow.is_broken = False
            self.assertEqual(dict(self.cache.items()), {key: 1})

    def test_popitem_needs_no_hash(self):
        key = UnhashableNow(1)
        self.cache[key] = 1
        UnhashableNow.is_broken = True
        self.assertEqual((self.cache.popitem(), len(self.cache)), ((key, 1), 0))

    def test_a_hash_that_changes(self):
        key = Key(1)
        self.cache[key] = 1
        key.number = 2
        self.assertEqual((self.cache.popitem(), len(self.cache)), ((key, 1), 0))

    def test_comparisons_that_change_the_cache_once(self):
        cache = self.cache

        def once(change):
            def act():
                Acting.act = None
                change()

            return act

        def fill():
            for number in range(200, 300):
                cache[number] = number

        changes = [cache.clear, fill, cache.popitem, lambda: cache.pop(Acting(1))]
        changes += [lambda: cache.__setitem__(Acting(1), 5), lambda: cache.__setitem__(Acting(2), 6)]
        for change in changes:
            for at in range(len(self.calls(None))):
                cache.clear()
                cache[Acting(1)] = 1
                Acting.act = once(change)
                try:
                    self.assertIn(self.calls(Acting(1))[at](), (None, 1, 2, 5, True, False))
                except KeyError:
                    pass
                self.assertIsNone(Acting.act)
                self.check_whole()

    def test_comparisons_that_resize(self):
        """Whoever resizes the cache during a call, it has at most as many keys after the call."""

        def in_a_thread():
            thread = threading.Thread(target=self.cache.resize, args=(5,))
            thread.start()
            thread.join()

        for resize in (lambda: self.cache.resize(5), in_a_thread):
            for at in range(len(self.calls(None))):
                for key in (Acting(1), Acting(2)):
                    self.cache.resize(10)
                    self.cache.clear()
                    self.cache[Acting(1)] = 1
                    self.cache.update((number, number) for number in range(9))

                    def act():
                        Acting.act = None
                        resize()

                    Acting.act = act
                    try:
                        self.calls(key)[at]()
                    except KeyError:
                        pass
                    self.assertIsNone(Acting.act)
                    self.assertEqual((len(self.cache) <= 5, self.cache.maxsize), (True, 5))

    def test_a_comparison_after_which_the_key_is_gone(self):
        self.cache[Acting(1)] = 1
        Acting.act = self.cache.clear
        self.assertIsNone(self.cache.get(Acting(1)))

    def test_comparisons_that_always_change_the_cache(self):
        cache = self.cache

        def act():
            act.calls += 1
            held, Acting.act = Acting.act, None
            cache[Acting(1)] = act.calls
            Acting.act = held

        for at in range(len(self.calls(None))):
            cache.clear()
            cache[Acting(1)] = 1
            act.calls, Acting.act = 0, act
            with self.assertRaisesRegex(RuntimeError, "each of 8 comparisons"):
                self.calls(Acting(1))[at]()
            self.assertEqual(act.calls, 8)
            self.check_whole()

    def test_comparisons_that_compare_again(self):
        depths = []

        def act():
            depths.append(1)
            if len(depths) < 20:
                self.cache.get(Acting(1))

        self.cache[Acting(1)] = 1
        Acting.act = act
        self.assertEqual((self.cache.get(Acting(1)), len(depths)), (1, 20))

    def test_finalizers_that_use_the_cache(self):
        cache = self.cache
        draws = random.Random(1)
        seen = []

        class Final:
            def __del__(self):
                pairs = list(cache.items())
                seen.append(len(pairs))
                if len(pairs) != len(cache):
                    seen.append("wrong")
                if draws.random() < 0.1:
                    cache.clear()
                else:
                    cache[draws.randrange(30)] = 1

        for number in range(5_000):
            cache[draws.randrange(30)] = Final()
            if number % 10 == 0:
                cache.pop(draws.randrange(30), None)
                cache.setdefault(draws.randrange(30), Final())
        cache.clear()
        self.assertGreater(len(seen), 1000)
        self.assertNotIn("wrong", seen)
        self.check_whole()

    def test_the_collector_during_a_call(self):
        """It runs finalizers that change the cache wherever a call makes an object."""
        cache = self.cache

        class Cycle:
            def __init__(self):
                self.self = self

            def __del__(self):
                cache.clear()
                cache[1] = 1

        self.addCleanup(gc.set_threshold, *gc.get_threshold())
        gc.set_threshold(1)
        for number in range(300):
            cache[number] = number
            Cycle()
            for found in (list(cache), list(cache.items()), list(cache.values()), cache.popitem()):
                self.assertTrue(found)
            cache[number] = number
        gc.set_threshold(700)
        self.check_whole()


class Interrupt(Exception):
    """What the signal handler of these tests raises."""


class InterruptTest(unittest.TestCase):
    """A signal handler may run between any two byte codes, and its exception end a call, as Ctrl-C's does."""

    def setUp(self):
        def interrupt(*_):
            raise Interrupt

        self.addCleanup(signal.signal, signal.SIGALRM, signal.signal(signal.SIGALRM, interrupt))
        self.draws = random.Random(1)

    def interrupted(self, times, change):
        for _ in range(times):
            try:
                signal.setitimer(signal.ITIMER_REAL, self.draws.uniform(1e-5, 2e-4))
                while True:
                    change()
            except Interrupt:
                pass
            yield

    def check(self, make_key):
        cache, stored, trying = Cache(50), {}, [None, None]

        def change():
            key = make_key(self.draws.randrange(200))
            trying[:] = key, object()
            if self.draws.randrange(10) == 0:
                cache.pop(key, None)
            else:
                cache[key] = trying[1]
                stored[key] = trying[1]

        for _ in self.interrupted(500, change):
            pairs = dict(cache.items())
            self.assertEqual((len(pairs), len(cache) <= 50), (len(cache), True))
            for key, value in pairs.items():
                self.assertIs(cache.get(key), value)
                if value is not stored.get(key):
                    self.assertEqual((key, value), tuple(trying))
                    stored[key] = value

    def test_whole_numbers(self):
        self.check(lambda number: number)

    def test_keys_with_methods(self):
        self.check(Key)
        self.check(TwoBits)

    def test_clear_leaves_all_or_nothing(self):
        cache = Cache(50)

        def change():
            cache.clear()
            cache.update((number, number) for number in range(50))
            cache.clear()

        for _ in self.interrupted(300, change):
            self.assertEqual({key: cache.get(key) for key in cache}, {number: number for number in range(len(cache))})


class EachByteCodeTest(unittest.TestCase):
    """An exception at the first byte code of a call, at the second, and so on to its end."""

    def is_interrupted(self, at, call):
        seen = 0

        def trace(frame, event, _):
            nonlocal seen
            frame.f_trace_opcodes = True
            seen += event == "opcode"
            if event == "opcode" and seen == at:
                raise Interrupt
            return trace

        self.addCleanup(sys.settrace, sys.gettrace())
        sys._getframe().f_trace_opcodes = True  # Python 3.12 asks for this before it traces
        sys.settrace(trace)
        try:
            call()
        except Interrupt:
            return True
        finally:
            sys.settrace(None)
        return False

    def test_calls(self):
        for kind in (int, Key, TwoBits):
            at = 1
            while True:
                cache = Cache(3)
                cache.update((kind(number), number) for number in (1, 2, 5))

                def calls():
                    cache[kind(2)] = 2
                    cache.update((kind(number), number) for number in range(6))
                    cache.setdefault(kind(1), 1), cache.get(kind(5)), kind(4) in cache, cache.pop(kind(2), None)
                    cache.popitem()

                is_interrupted = self.is_interrupted(at, calls)
                pairs = cache.items()
                self.assertEqual((len(list(pairs)), len(cache) <= 3), (len(cache), True))
                for key, value in pairs:
                    self.assertEqual((key, cache.peek(key)), (kind(value), value))
                if not is_interrupted:
                    break
                at += 1
            self.assertGreater(at, 100)


class ThreadTest(unittest.TestCase):
    """The interpreter's lock is handed over within comparisons, as often as can be."""

    def setUp(self):
        self.addCleanup(sys.setswitchinterval, sys.getswitchinterval())
        sys.setswitchinterval(1e-6)

    def check(self, make_key):
        cache, wrong = Cache(100), []

        def work(seed):
            draws = random.Random(seed)
            try:
                for _ in range(5_000):
                    number, draw = draws.randrange(300), draws.random()
                    key = make_key(number)
                    value = cache.get(key)
                    if value not in (None, number):
                        wrong.append((number, value))
                    if draw < 0.8:
                        cache[key] = number
                    elif draw < 0.9:
                        cache.pop(key, None)
                    elif draw < 0.92:
                        wrong.extend(pair for pair in cache.items() if pair[0] != make_key(pair[1]))
                    elif draw < 0.921:
                        cache.clear()
            except BaseException as error:
                wrong.append(error)

        threads = [threading.Thread(target=work, args=(seed,)) for seed in range(4)]
        for thread in threads:
            thread.start()
        for thread in threads:
            thread.join()
        # With this much in between a look-up may well be out of tries.
        self.assertEqual([it for it in wrong if not isinstance(it, RuntimeError)], [])
        self.assertEqual(len(dict(cache.items())), len(cache))

    def test_whole_numbers(self):
        self.check(lambda number: number)

    def test_keys_with_methods(self):
        self.check(Key)
        self.check(TwoBits)


if __name__ == "__main__":
    unittest.main()
