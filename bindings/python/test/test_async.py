"""Tests of `cached` for an async def."""

import asyncio
import copy
import functools
import gc
import inspect
import pickle
import types
import unittest
import weakref

from clock2q import cached
from keys import Key
from threads import in_threads


@cached(10)
async def some_coroutine_function(number):
    return number + 1


class AsyncTest(unittest.IsolatedAsyncioTestCase):
    def setUp(self):
        self.made = []

    async def slowly(self, *arguments):
        self.made.append(arguments)
        await asyncio.sleep(0.01)
        return len(self.made)

    async def test_one_call_for_those_that_wait(self):
        for parameters in ({}, {"maxsize": None}, {"typed": True}, {"key": lambda *args: args}, {"lock": True}, {"ttl": 60}):
            self.made.clear()
            function = cached(**{"maxsize": 10, **parameters})(self.slowly)
            self.assertEqual(await asyncio.gather(*(function("a") for _ in range(8))), [1] * 8)
            self.assertEqual((await function("a"), await function("b")), (1, 2))
            self.assertEqual(function.cache_info()[:2], (8, 2))
            function.cache_clear()
            self.assertEqual((await function("a"), function.cache_info()[:2]), (3, (0, 1)))

    async def test_exceptions_go_to_all_that_wait_and_are_not_kept(self):
        @cached(10)
        async def function(number):
            self.made.append(number)
            await asyncio.sleep(0.01)
            if len(self.made) == 1:
                raise ZeroDivisionError
            return 7

        results = await asyncio.gather(*(function(1) for _ in range(3)), return_exceptions=True)
        self.assertEqual([type(it) for it in results], [ZeroDivisionError] * 3)
        self.assertEqual((await function(1), function.cache_info()), (7, (2, 2, 10, 1)))

    async def test_one_that_is_cancelled(self):
        """The others still get the result. If all are cancelled, the call is."""
        ended, release = [], asyncio.Event()

        @cached(10)
        async def function(number):
            self.made.append(number)
            try:
                await release.wait()
            finally:
                ended.append(number)
            return number

        waiting = [asyncio.ensure_future(function(1)) for _ in range(3)]
        while not self.made:
            await asyncio.sleep(0)
        waiting[0].cancel()
        await asyncio.sleep(0)
        release.set()
        results = await asyncio.gather(*waiting, return_exceptions=True)
        self.assertEqual((type(results[0]), results[1:], self.made), (asyncio.CancelledError, [1, 1], [1]))
        release.clear()
        with self.assertRaises(asyncio.TimeoutError):
            await asyncio.wait_for(function(2), 0.01)
        release.set()
        self.assertEqual(await function(2), 2)
        self.assertEqual((self.made, ended), ([1, 2, 2], [1, 2, 2]))

    async def test_results_that_are_cleared_meanwhile(self):
        release = asyncio.Event()

        @cached(10)
        async def function(number):
            self.made.append(number)
            made = len(self.made)
            if made == 1:
                await release.wait()
            return made

        old = asyncio.ensure_future(function(1))
        while not self.made:
            await asyncio.sleep(0)
        function.cache_clear()
        self.assertEqual(await function(1), 2)
        release.set()
        self.assertEqual((await old, await function(1), len(self.made)), (1, 2, 2))

    async def test_a_call_of_itself(self):
        @cached(50)
        async def fibonacci(number):
            return number if number < 2 else sum(await asyncio.gather(fibonacci(number - 1), fibonacci(number - 2)))

        self.assertEqual((await fibonacci(30), fibonacci.cache_info().misses), (832040, 31))

        @cached(10)
        async def ring(number):
            self.made.append(number)
            await asyncio.sleep(0)
            return number if len(self.made) > 3 else await ring((number + 1) % 3)

        self.assertEqual(len(await asyncio.wait_for(asyncio.gather(*map(ring, range(3))), 10)), 3)

    async def test_methods_and_what_it_takes_from_the_function(self):
        class Some:
            @cached(10)
            async def method(self, number):
                """It has a text."""
                return id(self), number

        some = Some()
        self.assertEqual((await some.method(1), await some.method(1)), ((id(some), 1),) * 2)
        self.assertEqual((some.method.cache_info(), some.method.__doc__), ((1, 1, 10, 1), "It has a text."))
        self.assertEqual((some.method.cache_parameters(), inspect.iscoroutinefunction(some.method)), ({"maxsize": 10, "typed": False}, True))
        for decorated in (cached(functools.partial(self.slowly, 1)), cached(10)(types.MethodType(self.slowly.__func__, self))):
            self.assertEqual(await decorated(2), await decorated(2))
        self.assertIs(copy.copy(some_coroutine_function), some_coroutine_function)
        self.assertIs(pickle.loads(pickle.dumps(some_coroutine_function)), some_coroutine_function)
        self.assertTrue(inspect.iscoroutinefunction(some_coroutine_function.__wrapped__))

    async def test_nothing_kept_is_nothing_shared(self):
        function = cached(0)(self.slowly)
        await asyncio.gather(function([1]), function([1]))
        self.assertEqual((len(self.made), function.cache_info()), (2, (0, 2, 0, 0)))

    async def test_arguments_that_have_no_hash(self):
        with self.assertRaises(TypeError):
            await some_coroutine_function([])

    async def test_times(self):
        now = 0.0
        function = cached(10, ttl=5, timer=lambda: now)(self.slowly)
        self.assertEqual((await function(1), await function(1)), (1, 1))
        now = 5.0
        self.assertEqual(await function(1), 2)

    def test_loops_of_their_own(self):
        """Results are shared by loops, calls under way aren't."""
        function = cached(10)(self.slowly)
        self.assertLessEqual(set(in_threads(lambda at: asyncio.run(function(1)), 3)), {1, 2, 3})
        made = len(self.made)
        self.assertIn(asyncio.run(function(1)), range(1, 4))
        self.assertEqual(len(self.made), made)

    def test_no_call_stays_under_way(self):
        value = Key(1)

        @cached(2)
        async def function(number):
            await asyncio.sleep(0.001)
            return value if number else 1 // 0

        async def use():
            await asyncio.gather(*(function(number % 5) for number in range(50)), return_exceptions=True)

        asyncio.run(use())
        function.cache_clear()
        alive = weakref.ref(value)
        del value, function
        gc.collect()
        self.assertIsNone(alive())

    def test_generators_are_refused(self):
        async def generator(number):
            yield number

        for refused in (generator, functools.partial(generator, 1), types.MethodType(generator, 1)):
            for decorate in (cached, cached(10), cached(None)):
                with self.assertRaisesRegex(TypeError, "no async generator"):
                    decorate(refused)


if __name__ == "__main__":
    unittest.main()
