"""Tests of clock2q.cached, beside functools.lru_cache where that has the same."""

import copy
import functools
import gc
import pickle
import random
import signal
import sys
import threading
import unittest
import weakref

from clock2q import MAX_CAPACITY, CacheInfo, cached
from keys import Acting, Key, SameHash


@cached(10)
def some_function(number):
    """What it says."""
    return number + 1


class Some:
    @cached(10)
    def method(self, number):
        return id(self), number

    @staticmethod
    @cached(10)
    def static(number):
        return number

    @classmethod
    @cached(10)
    def of_class(cls, number):
        return cls, number


def calls_made(decorate, calls):
    """What a decorated function returns for the calls, which of them it made, and what it counted."""
    made = []

    def function(*args, **named):
        made.append((args, named))
        return args, sorted(named.items())

    decorated = decorate(function)
    returned = [decorated(*args, **named) for args, named in calls]
    return returned, made, tuple(decorated.cache_info())


class BesideFunctoolsTest(unittest.TestCase):
    """A cache that is never full does what functools' does."""

    calls = [
        ((), {}), ((1,), {}), ((1.0,), {}), ((True,), {}), (("1",), {}), (((1,),), {}), ((1, 1), {}), (((1, 1),), {}),
        ((1,), {"b": 2}), ((), {"a": 1, "b": 2}), ((), {"b": 2, "a": 1}), (("b", 2), {}), ((1, "b", 2), {}), ((None,), {}), ((b"1",), {}),
        ((1,), {"b": 2.0}), ((-1,), {}), ((10**30,), {}), ((frozenset([1]),), {}), ((1, 2.0), {}), ((1.0, 2), {}),
    ]  # fmt: skip

    def check(self, **parameters):
        draws = random.Random(1)
        calls = [draws.choice(self.calls) for _ in range(1000)]
        self.assertEqual(calls_made(cached(**parameters), calls), calls_made(functools.lru_cache(**parameters), calls))

    def test_calls(self):
        self.check(maxsize=1000)
        self.check()

    def test_typed_calls(self):
        self.check(maxsize=1000, typed=True)

    def test_calls_without_limit_or_results(self):
        for maxsize in (None, 0, -7):
            for typed in (False, True):
                self.check(maxsize=maxsize, typed=typed)
                ours, theirs = (it(maxsize, typed)(len) for it in (cached, functools.lru_cache))
                self.assertEqual((ours("ab"), ours("ab"), ours.cache_parameters()), (theirs("ab"), theirs("ab"), theirs.cache_parameters()))
                ours.cache_clear()
                self.assertEqual(ours.cache_info(), (0, 0, theirs.cache_info().maxsize, 0))

    def test_what_it_takes_from_the_function(self):
        def function(number):
            """It has a text."""

        function.mark = "mark"
        ours, theirs = cached(function), functools.lru_cache(function)
        for name in (*functools.WRAPPER_ASSIGNMENTS, "__wrapped__", "mark"):
            self.assertEqual(getattr(ours, name), getattr(theirs, name))
        self.assertEqual((ours.cache_parameters(), ours.cache_info()), (theirs.cache_parameters(), theirs.cache_info()))
        for maxsize, typed in ((7, True), (8, False)):
            self.assertEqual(cached(maxsize, typed)(function).cache_parameters(), functools.lru_cache(maxsize, typed)(function).cache_parameters())
        ours.mark = "another"
        self.assertEqual((ours.mark, vars(ours)["mark"], function.mark), ("another", "another", "mark"))

    def test_without_parentheses(self):
        self.assertEqual(cached(len).cache_parameters(), {"maxsize": 128, "typed": False})
        self.assertEqual(cached(len)("abc"), 3)


class CachedTest(unittest.TestCase):
    def test_arguments_that_are_held_or_equal(self):
        """A call finds its result by the same objects and by equal ones, also among those of one hash."""
        function = cached(100)(lambda *args: object())
        nan, pair = float("nan"), (1, 2)
        self.assertIs(function(nan), function(nan))
        self.assertIs(function(pair, nan), function(pair, nan))
        self.assertIs(function(pair, 10**20), function((1, 2), 10**10 * 10**10))
        self.assertIs(function(), function())
        results = {function(*args) for args in ((pair,), pair, (pair, pair), (pair, 1), (1, pair), ((pair,),), (1.5,), (None,))}
        self.assertEqual(len(results), 8)
        alike = [function(SameHash(number), pair) for number in range(10)]
        self.assertEqual(len(set(alike)), 10)
        self.assertEqual([function(SameHash(number), pair) for number in range(10)], alike)

    def test_a_hash_that_clears(self):
        class Clearing(Key):
            def __hash__(self):
                function.cache_clear()
                return super().__hash__()

            __eq__ = Key.__eq__

        function = cached(100)(lambda *args: object())
        key = Clearing(1)
        self.assertIsNot(function(key, 1), function(key, 1))
        self.assertEqual(function.cache_info(), (0, 1, 100, 1))

    def test_recursion(self):
        @cached(maxsize=50)
        def fibonacci(number):
            return number if number < 2 else fibonacci(number - 1) + fibonacci(number - 2)

        self.assertEqual(fibonacci(40), 102334155)
        self.assertEqual(fibonacci.cache_info(), CacheInfo(hits=38, misses=41, maxsize=50, currsize=41))
        fibonacci.cache_clear()
        self.assertEqual(fibonacci.cache_info(), (0, 0, 50, 0))

    def test_it_never_holds_more(self):
        square = cached(10)(lambda number: number * number)
        draws = random.Random(1)
        for _ in range(10_000):
            number = draws.randrange(30)
            self.assertEqual(square(number), number * number)
            self.assertLessEqual(square.cache_info().currsize, 10)
        self.assertEqual(sum(square.cache_info()[:2]), 10_000)

    def test_arguments_of_one_hash(self):
        number_of = cached(10)(lambda key: key.number)
        for number in random.Random(1).choices(range(20), k=1000):
            self.assertEqual(number_of(SameHash(number)), number)
        self.assertEqual(number_of.cache_info().currsize, 10)

    def test_exceptions_are_not_kept(self):
        @cached(10)
        def fail(number):
            raise ZeroDivisionError(number)

        for calls in (1, 2):
            with self.assertRaises(ZeroDivisionError):
                fail(1)
            self.assertEqual(fail.cache_info(), (0, calls, 10, 0))
        for arguments in (([],), (1, {})):
            with self.assertRaises(TypeError):
                some_function(*arguments)

    def test_an_argument_is_hashed_once_a_call(self):
        hashed = []

        class Counted(Key):
            def __hash__(self):
                hashed.append(self)
                return 1

        identity = cached(10)(lambda key: key)
        key = Counted(1)
        identity(key)
        identity(key)
        self.assertEqual(len(hashed), 2)

    def test_methods(self):
        for method in (Some.method, Some.static, Some.of_class):
            getattr(method, "__func__", method).cache_clear()
        some, other = Some(), Some()
        for _ in range(3):
            self.assertEqual((some.method(1), other.method(1)), ((id(some), 1), (id(other), 1)))
            self.assertEqual((some.static(1), Some.static(1), some.of_class(1), Some.of_class(1)), (1, 1, (Some, 1), (Some, 1)))
        self.assertEqual(some.method.cache_info(), (4, 2, 10, 2))
        self.assertEqual(Some.static.cache_info(), (5, 1, 10, 1))
        self.assertIs(Some.method, Some.__dict__["method"])

    def test_pickled_by_name_and_its_own_copy(self):
        for function in (some_function, Some.method, Some.static):
            self.assertIs(copy.copy(function), function)
            self.assertIs(copy.deepcopy(function), function)
            for protocol in range(pickle.HIGHEST_PROTOCOL + 1):
                self.assertIs(pickle.loads(pickle.dumps(function, protocol)), function)

    def test_refusals(self):
        with self.assertRaises(ValueError):
            cached(MAX_CAPACITY + 1)
        for maxsize in ("10", 1.5, []):
            with self.assertRaises(TypeError):
                cached(maxsize)
        with self.assertRaises(TypeError):
            cached(10)(7)
        with self.assertRaises(TypeError):
            type(some_function)()

    def test_sizes(self):
        for maxsize, least in ((1000, 16_000), (None, 64), (0, 0)):
            length = cached(maxsize)(len)
            empty = sys.getsizeof(length)
            length("a")
            self.assertGreaterEqual(sys.getsizeof(length), empty + least)

    def test_a_function_that_clears_or_calls_again(self):
        @cached(3)
        def function(number):
            function.cache_clear()
            return number if number == 0 else function(number - 1) + 1

        for number in range(50):
            self.assertEqual(function(number), number)
            self.assertLessEqual(function.cache_info().currsize, 3)

    def test_comparisons_that_clear(self):
        self.addCleanup(setattr, Acting, "act", None)
        number_of = cached(10)(lambda key: key.number)
        self.assertEqual(number_of(Acting(1)), 1)
        Acting.act = number_of.cache_clear
        self.assertEqual((number_of(Acting(1)), number_of(Acting(2))), (1, 2))

    def test_interrupts(self):
        class Interrupt(Exception):
            pass

        def interrupt(*_):
            raise Interrupt

        self.addCleanup(signal.signal, signal.SIGALRM, signal.signal(signal.SIGALRM, interrupt))
        draws = random.Random(1)
        square = cached(50)(lambda key: key.number * key.number)
        for _ in range(300):
            try:
                signal.setitimer(signal.ITIMER_REAL, draws.uniform(1e-5, 2e-4))
                while True:
                    square(Key(draws.randrange(200)))
            except Interrupt:
                pass
            self.assertEqual([square(Key(number)) for number in range(200)], [number * number for number in range(200)])

    def test_threads(self):
        self.addCleanup(sys.setswitchinterval, sys.getswitchinterval())
        sys.setswitchinterval(1e-6)
        square, wrong = cached(100)(lambda number: number * number), []

        def work(seed):
            for number in random.Random(seed).choices(range(300), k=5_000):
                if square(number) != number * number:
                    wrong.append(number)

        threads = [threading.Thread(target=work, args=(seed,)) for seed in range(4)]
        for thread in threads:
            thread.start()
        for thread in threads:
            thread.join()
        self.assertEqual((wrong, sum(square.cache_info()[:2])), ([], 20_000))

    def test_weak_references_and_cycles(self):
        for maxsize in (10, None, 0):

            def function(number):
                return decorated

            decorated = cached(maxsize)(function)
            decorated(1)
            decorated.itself = decorated
            alive = weakref.ref(decorated)
            del decorated, function
            gc.collect()
            self.assertIsNone(alive())

    def test_all_results(self):
        """Without a limit, each result is kept, also if a comparison or the function itself clears them."""
        self.addCleanup(setattr, Acting, "act", None)
        number_of = cached(None)(lambda key: key.number)
        numbers = random.Random(1).choices(range(200), k=10_000)
        self.assertEqual([number_of(SameHash(number % 50)) for number in numbers], [number % 50 for number in numbers])
        self.assertEqual(number_of.cache_info(), (9_950, 50, None, 50))
        self.assertEqual(number_of(Acting(1)), 1)
        Acting.act = number_of.cache_clear
        self.assertEqual((number_of(Acting(1)), number_of(Acting(2))), (1, 2))
        recursive = cached(None)(lambda number: (recursive.cache_clear(), number)[1])
        self.assertEqual([recursive(number % 3) for number in range(9)], [number % 3 for number in range(9)])

        def fail():
            raise ZeroDivisionError

        Acting.act = fail
        with self.assertRaises(ZeroDivisionError):
            number_of(Acting(2))

    def test_no_results(self):
        """Nothing is kept of what needs no hash."""
        length = cached(0)(len)
        self.assertEqual([length([1]), length([]), length([1])], [1, 0, 1])
        self.assertEqual(length.cache_info(), (0, 3, 0, 0))

    def test_references_are_given_back(self):
        key, value, name = Key(10**9), object(), "x" * 100
        before = [sys.getrefcount(it) for it in (key, value, name)]
        for maxsize, typed in ((2, False), (2, True), (None, False), (None, True), (0, False)):
            function = cached(maxsize, typed)(lambda *args, **named: value)
            for number in range(100):
                for call in (lambda: function(key), lambda: function(key, name, some=key), lambda: function(name), lambda: function(number)):
                    self.assertIs(call(), value)
        del function, call
        gc.collect()
        self.assertEqual([sys.getrefcount(it) for it in (key, value, name)], before)


if __name__ == "__main__":
    unittest.main()
