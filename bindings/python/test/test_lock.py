"""Tests of `cached` for threads that wait for one another's calls, and with a key of one's own."""

import gc
import os
import random
import signal
import sys
import threading
import time
import unittest
import weakref

from clock2q import cached
from keys import Acting, Key, SameHash
from threads import in_threads


class LockTest(unittest.TestCase):
    def setUp(self):
        self.addCleanup(setattr, Acting, "act", None)
        self.made = []

    def slowly(self, *arguments):
        self.made.append(arguments)
        time.sleep(0.05)
        return len(self.made)

    def test_one_call_for_threads_that_ask_alike(self):
        for maxsize in (10, None):
            for parameters in ({}, {"typed": True}, {"key": lambda *args: args}):
                for arguments in (("a",), (1, (2, 3)), (SameHash(1),)):
                    self.made.clear()
                    function = cached(maxsize, lock=True, **parameters)(self.slowly)
                    self.assertEqual(in_threads(lambda at: function(*arguments)), [1] * 8)
                    self.assertEqual((len(self.made), function.cache_info()), (1, (7, 1, maxsize, 1)))

    def test_calls_of_other_keys_dont_wait(self):
        first = threading.Event()

        @cached(10, lock=True)
        def function(number):
            if number == 0:
                return first.wait(20)
            first.set()
            return number

        self.assertEqual(in_threads(function, 2), [True, 1])

    def test_a_call_that_fails(self):
        """Its exception is its caller's, and one of those that wait calls in its turn."""

        @cached(10, lock=True)
        def function(number):
            self.made.append(number)
            time.sleep(0.05)
            if len(self.made) < 3:
                raise ZeroDivisionError
            return 7

        results = in_threads(lambda at: function(1))
        self.assertEqual(sorted(map(str, results)), ["", ""] + ["7"] * 6)
        self.assertEqual((len(self.made), function.cache_info()), (3, (5, 3, 10, 1)))

    def test_more_keys_than_results(self):
        """Those that wait get the result though it has left by then."""
        function = cached(1, lock=True)(lambda number: (time.sleep(0.01), number)[1])
        for _ in range(10):
            self.assertEqual(in_threads(lambda at: function(at % 3), 9), [0, 1, 2] * 3)

    def test_nothing_kept_is_nothing_shared(self):
        function = cached(0, lock=True)(self.slowly)
        in_threads(lambda at: function(1), 3)
        self.assertEqual(len(self.made), 3)

    def test_a_call_of_itself(self):
        @cached(50, lock=True)
        def fibonacci(number):
            return number if number < 2 else fibonacci(number - 1) + fibonacci(number - 2)

        self.assertEqual((fibonacci(40), fibonacci.cache_info()), (102334155, (38, 41, 50, 41)))

        @cached(50, lock=True)
        def function(number):
            self.made.append(number)
            return 0 if len(self.made) == 3 else function(number) + 1

        self.assertEqual((function(1), function(1)), (2, 2))

    def test_a_ring_of_threads(self):
        """Threads whose calls need one another's results: one of them makes another's call itself."""
        ready = threading.Barrier(3)
        entered = set()

        @cached(10, lock=True)
        def function(number):
            if number in entered:
                return -1
            entered.add(number)
            ready.wait(20)
            return function((number + 1) % 3)

        self.assertEqual(in_threads(function, 3), [-1] * 3)

    def test_results_that_are_cleared_meanwhile(self):
        began, cleared = threading.Event(), threading.Event()

        @cached(10, lock=True)
        def function(number):
            self.made.append(number)
            if len(self.made) == 1:
                began.set()
                cleared.wait(20)
                return "old"
            return "new"

        def work(at):
            if at == 0:
                return function(1)
            began.wait(20)
            function.cache_clear()
            result = function(1)
            cleared.set()
            return result

        self.assertEqual((in_threads(work, 2), function(1), len(self.made)), (["old", "new"], "new", 2))

    def test_a_child_of_a_process_that_calls(self):
        """It has no thread that will end the call, and makes its own."""
        release = threading.Event()
        function = cached(10, lock=True)(lambda process: os.getpid() != process or release.wait(20))
        caller = threading.Thread(target=function, args=(os.getpid(),))
        caller.start()
        while function.cache_info().misses == 0:
            time.sleep(0.001)
        child = os.fork()
        if child == 0:
            signal.alarm(20)
            os._exit(0 if function(os.getppid()) is True and function.cache_info()[:2] == (0, 2) else 1)
        self.assertEqual(os.waitpid(child, 0)[1], 0)
        release.set()
        caller.join()
        self.assertEqual(function.cache_info()[:2], (0, 1))

    def test_comparisons_that_do_anything(self):
        def act():
            Acting.act = None
            change()

        for change in (lambda: function.cache_clear(), lambda: function(Acting(5)), lambda: function(Acting(1))):
            function = cached(10, lock=True)(lambda key: (time.sleep(0.001), key.number)[1])
            for _ in range(5):
                function(Acting(0))
                Acting.act = act
                self.assertEqual(function(Acting(1)), 1)
        Acting.act = lambda: 1 // 0
        self.assertRaises(ZeroDivisionError, function, Acting(2))
        Acting.act = None
        self.assertEqual(function(Acting(2)), 2)

    def test_a_signal_while_it_waits(self):
        class Interrupt(Exception):
            pass

        def interrupt(*_):
            raise Interrupt

        release = threading.Event()
        function = cached(10, lock=True)(lambda number: release.wait(20))
        caller = threading.Thread(target=function, args=(1,))
        caller.start()
        while function.cache_info().misses == 0:
            time.sleep(0.001)
        self.addCleanup(signal.signal, signal.SIGALRM, signal.signal(signal.SIGALRM, interrupt))
        signal.setitimer(signal.ITIMER_REAL, 0.05)
        self.assertRaises(Interrupt, function, 1)
        release.set()
        caller.join()
        self.assertEqual((function(1), function.cache_info()), (True, (1, 1, 10, 1)))

    def test_interrupts(self):
        class Interrupt(Exception):
            pass

        def interrupt(*_):
            raise Interrupt

        self.addCleanup(signal.signal, signal.SIGALRM, signal.signal(signal.SIGALRM, interrupt))
        draws = random.Random(1)
        square = cached(50, lock=True)(lambda key: key.number * key.number)
        for _ in range(200):
            try:
                signal.setitimer(signal.ITIMER_REAL, draws.uniform(1e-5, 2e-4))
                while True:
                    square(Key(draws.randrange(200)))
            except Interrupt:
                pass
            self.assertEqual([square(Key(number)) for number in range(200)], [number * number for number in range(200)])

    def test_many_threads(self):
        self.addCleanup(sys.setswitchinterval, sys.getswitchinterval())
        sys.setswitchinterval(1e-6)
        for make in (lambda number: number, Key, SameHash):
            square = cached(20, lock=True)(lambda key: getattr(key, "number", key) ** 2)

            def work(seed):
                return [number for number in random.Random(seed).choices(range(60), k=1_000) if square(make(number)) != number**2]

            self.assertEqual((in_threads(work, 4), sum(square.cache_info()[:2])), ([[]] * 4, 4_000))

    def test_references_are_given_back(self):
        key, value = Key(10**9), object()
        before = [sys.getrefcount(it) for it in (key, value)]
        for maxsize in (2, None):
            function = cached(maxsize, lock=True, key=lambda *args: args)(lambda *args: value)
            for number in range(100):
                function(key), function(key, number)
            failing = cached(maxsize, lock=True)(lambda key: 1 // 0)
            for number in range(100):
                self.assertRaises(ZeroDivisionError, failing, key)
        del function, failing
        gc.collect()
        self.assertEqual([sys.getrefcount(it) for it in (key, value)], before)


class KeyTest(unittest.TestCase):
    def test_what_stands_for_the_arguments(self):
        for maxsize in (10, None):
            made = []

            @cached(maxsize, key=lambda rows, unit="m": (len(rows), unit))
            def total(rows, unit="m"):
                made.append(rows)
                return sum(rows)

            self.assertEqual([total([1, 2]), total([3, 4]), total([3, 4], unit="km"), total([1], "m")], [3, 3, 7, 1])
            self.assertEqual((len(made), total.cache_info()[:2], total.cache_parameters()), (3, (1, 3), {"maxsize": maxsize, "typed": False}))

    def test_refusals(self):
        for parameters in ({"key": 7}, {"key": len, "typed": True}):
            self.assertRaises(TypeError, cached, 10, **parameters)
        self.assertRaises(TypeError, cached(10, key=list)(len), "ab")
        self.assertRaises(ZeroDivisionError, cached(10, key=lambda word: 1 // 0)(len), "ab")

    def test_cycles_are_collected(self):
        def key(number):
            return function

        function = cached(10, key=key)(lambda number: number)
        function(1)
        alive = weakref.ref(function)
        del function, key
        gc.collect()
        self.assertIsNone(alive())


if __name__ == "__main__":
    unittest.main()
