"""Tests of clock2q.Cache: python3 -m unittest in this folder, with the built package on PYTHONPATH."""

import inspect
import random
import time
import unittest
from collections import abc

import clock2q
from clock2q import MAX_CAPACITY, Cache
from keys import Key, SameHash, TwoBits


class MappingTest(unittest.TestCase):
    """What dict and cachetools.Cache have."""

    def test_as_a_dict(self):
        cache = Cache(maxsize=10)
        cache["seven"] = 7
        cache[(7, "s")] = None
        self.assertEqual((cache["seven"], cache.get("seven"), cache.get(8), cache.get(8, default="none")), (7, 7, None, "none"))
        self.assertIn((7, "s"), cache)
        self.assertNotIn(8, cache)
        self.assertEqual((len(cache), cache.currsize, cache.maxsize), (2, 2, 10))
        self.assertEqual((cache.hits, cache.misses), (2, 2))
        del cache["seven"]
        for call in (lambda: cache["seven"], lambda: cache.__delitem__("seven"), lambda: cache.pop("seven")):
            with self.assertRaises(KeyError):
                call()
        cache.clear()
        self.assertEqual((len(cache), list(cache), bool(cache)), (0, [], False))

    def test_key_errors_name_the_key(self):
        cache = Cache(3)
        for call in (cache.__getitem__, cache.__delitem__, cache.pop):
            for key in ("a", (1, 2), ()):
                with self.assertRaises(KeyError) as raised:
                    call(key)
                self.assertEqual(raised.exception.args, (key,))

    def test_equal_keys_of_several_types(self):
        cache = Cache(10)
        cache[1] = "one"
        self.assertEqual((cache[True], cache[1.0], 1.0 in cache), ("one", "one", True))
        cache[1.0] = "one again"
        self.assertEqual([(type(key), value) for key, value in cache.items()], [(int, "one again")])
        cache[2**61] = "large"
        self.assertEqual(cache[2.0**61], "large")

    def test_pop_and_setdefault(self):
        cache = Cache(10)
        self.assertEqual((cache.setdefault("a", 1), cache.setdefault("a", 2), cache.setdefault("b")), (1, 1, None))
        self.assertEqual((cache.pop("a"), cache.pop("a", 3), cache.pop("a", default=4)), (1, 3, 4))
        self.assertEqual(list(cache.items()), [("b", None)])

    def test_popitem(self):
        cache = Cache(100)
        cache.update((number, str(number)) for number in range(100))
        del cache[50]
        popped = [cache.popitem() for _ in range(99)]
        self.assertEqual(sorted(popped), [(number, str(number)) for number in range(100) if number != 50])
        with self.assertRaises(KeyError) as raised:
            cache.popitem()
        self.assertEqual((raised.exception.args, raised.exception.__suppress_context__), (("popitem(): the cache is empty",), True))
        cache["a"] = 1
        self.assertEqual((cache.popitem(), len(cache)), (("a", 1), 0))

    def test_update_and_equality(self):
        cache = Cache(10)
        cache.update({"a": 1}, b=2)
        cache.update([("c", 3)])
        self.assertEqual(cache, {"a": 1, "b": 2, "c": 3})
        self.assertEqual({"a": 1, "b": 2, "c": 3}, cache)
        other = Cache(3)
        other.update(cache)
        self.assertEqual(cache, other)
        self.assertNotEqual(cache, {"a": 1})
        self.assertNotEqual(cache, 7)
        with self.assertRaises(TypeError):
            hash(cache)

    def test_views(self):
        cache = Cache(10)
        cache.update(a=1, b=2)
        before = cache.hits, cache.misses
        self.assertEqual(cache.keys() & {"a", "z"}, {"a"})
        self.assertEqual(cache.items() | {("z", 0)}, {("a", 1), ("b", 2), ("z", 0)})
        self.assertEqual((sorted(cache.values()), len(cache.items())), ([1, 2], 2))
        self.assertEqual((("a", 1) in cache.items(), ("a", 2) in cache.items(), ("c", 1) in cache.items()), (True, False, False))
        self.assertEqual((1 in cache.values(), 3 in cache.values()), (True, False))
        self.assertEqual((cache.hits, cache.misses), before)
        for key in cache:
            del cache[key]
        self.assertEqual(len(cache), 0)

    def test_peek_and_in_count_nothing(self):
        cache = Cache(10)
        cache["a"] = 1
        self.assertEqual((cache.peek("a"), cache.peek("b"), cache.peek("b", 2), "a" in cache), (1, None, 2, True))
        self.assertEqual((cache.hits, cache.misses), (0, 0))

    def test_peek_and_in_do_not_change_who_leaves(self):
        draws = random.Random(1)
        plain, peeked = Cache(20), Cache(20)
        for number in range(5_000):
            key = draws.randrange(60) & draws.randrange(60)
            for cache in (plain, peeked):
                if cache.get(key) is None:
                    cache[key] = number
            other = draws.randrange(60)
            self.assertEqual(peeked.peek(other) is not None, other in peeked)
            self.assertNotIn((other, None), peeked.items())
            self.assertEqual(list(plain.items()), list(peeked.items()))
            self.assertEqual(plain.next_victim(), peeked.next_victim())

    def test_repr(self):
        cache = Cache(3)
        cache["a"] = 1
        self.assertEqual(repr(cache), "Cache({'a': 1}, maxsize=3, currsize=1)")
        cache["a"] = cache
        self.assertEqual(repr(cache), "Cache({'a': ...}, maxsize=3, currsize=1)")

    def test_version(self):
        self.assertRegex(clock2q.__version__, r"^\d+\.\d+\.\d+$")

    def test_signature(self):
        self.assertEqual(str(inspect.signature(Cache)), "(maxsize, weigher=None, max_weight=None, *, ttl=None, timer=None, listener=None, history=None)")

    def test_abstract_types(self):
        cache = Cache(3)
        self.assertIsInstance(cache, abc.MutableMapping)
        self.assertEqual(str(Cache[str, int]), "clock2q.Cache[str, int]")
        with self.assertRaises(TypeError):
            reversed(cache)

    def test_it_is_hit_while_it_is_used(self):
        """One use of all keys in turn, of which a hundred are used all the time."""
        cache = Cache(200)
        for number in range(20_000):
            for key in (number % 100, 1000 + number):
                if cache.get(key) is None:
                    cache[key] = number
        self.assertGreater(cache.hits, 19_000)

    def test_refusals(self):
        for maxsize in (-1, MAX_CAPACITY + 1, 2**62):
            with self.assertRaises(ValueError):
                Cache(maxsize)
        for arguments in ((), ("10",), (1.5,), (None,), (1, 2)):
            with self.assertRaises(TypeError):
                Cache(*arguments)
        cache = Cache(1)
        calls = [cache.get, cache.peek, cache.pop, cache.setdefault, cache.__getitem__, cache.__contains__, cache.__delitem__]
        for call in calls:
            with self.assertRaises(TypeError):
                call([])
        with self.assertRaises(TypeError):
            cache[[]] = 1
        for call in calls[:4]:
            for arguments, named in (((), {}), ((1, 2, 3), {}), ((1,), {"key": 1}), ((1,), {"other": 1}), ((1, 2), {"default": 1})):
                with self.assertRaises(TypeError):
                    call(*arguments, **named)
        with self.assertRaises(AttributeError):
            cache.maxsize = 2
        with self.assertRaises(RuntimeError):
            cache.__init__(2)
        self.assertEqual((len(cache), cache.maxsize), (0, 1))

    def test_without_room(self):
        for cache in (Cache(0), Cache(0, lambda key, value: 0, 5)):
            for store in (cache.__setitem__, cache.setdefault):
                with self.assertRaisesRegex(ValueError, "value too large: maxsize is 0"):
                    store("a", 1)
            self.assertEqual((len(cache), list(cache), cache.maxsize, cache.get("a"), cache.pop("a", 1)), (0, [], 0, None, 1))
            self.assertEqual((cache.misses, cache.next_victim(), repr(cache)), (2, None, "Cache({}, maxsize=0, currsize=0)"))
            cache.clear()
            for call in (cache.popitem, lambda: cache["a"]):
                with self.assertRaises(KeyError):
                    call()
            with self.assertRaises(RuntimeError):
                cache.__init__(1)
            cache.resize(1)
            cache["a"] = 1
            self.assertEqual((list(cache.items()), cache.maxsize), ([("a", 1)], 1))



class SubclassTest(unittest.TestCase):
    def test_missing(self):
        class Squares(Cache):
            def __missing__(self, key):
                self[key] = key * key
                return self[key]

        squares = Squares(10)
        self.assertEqual((squares[3], squares.get(3), squares.get(4), squares.pop(4, 5)), (9, 9, None, 5))

    def test_arguments_and_attributes(self):
        class Named(Cache):
            def __init__(self, maxsize, name):
                super().__init__(maxsize)
                self.name = name

        named = Named(2, name="some")
        named["a"] = 1
        self.assertEqual((named.name, repr(named)), ("some", "Named({'a': 1}, maxsize=2, currsize=1)"))

    def test_without_init(self):
        class Empty(Cache):
            def __init__(self):
                pass

        empty = Empty()
        self.assertEqual((len(empty), list(empty), empty.get(1), 1 in empty, empty.maxsize), (0, [], None, False, 0))
        empty.clear()
        with self.assertRaises(RuntimeError):
            empty[1] = 1
        with self.assertRaises(KeyError):
            empty.popitem()


class ModelTest(unittest.TestCase):
    """Random calls beside a dict of what was stored last."""

    def check(self, maxsize, keys, calls, draws):
        cache, stored = Cache(maxsize), {}
        for number in range(calls):
            key, draw = draws.choice(keys), draws.random()
            if draw < 0.4:
                value = cache.get(key)
                self.assertTrue(value is None or value == stored[key])
            elif draw < 0.8:
                cache[key] = stored[key] = number
                self.assertEqual(cache.peek(key), number)
            elif draw < 0.9:
                self.assertIn(cache.pop(key, None), (None, stored.get(key)))
                self.assertNotIn(key, cache)
            elif draw < 0.91:
                pairs = dict(cache.items())
                self.assertEqual((len(pairs), list(pairs)), (len(cache), list(cache)))
                self.assertLessEqual(pairs.items(), stored.items())
            elif draw < 0.92 and len(cache) > 0:
                key, value = cache.popitem()
                self.assertEqual(value, stored[key])
            self.assertLessEqual(len(cache), maxsize)

    def test_keys_of_all_kinds(self):
        keys = [*range(-5, 30), *map(str, range(30)), *((number, "t") for number in range(30)), *map(SameHash, range(20))]
        keys += [1.5, None, True, frozenset([1]), b"bytes", 2**61 - 1, 2**70, (-1,), (-2,), Key, len]
        for maxsize in (1, 2, 3, 10, 100):
            self.check(maxsize, keys, 20_000, random.Random(maxsize))

    def test_hashes_that_collide(self):
        for kind in (Key, SameHash, TwoBits):
            for maxsize in (1, 2, 10):
                self.check(maxsize, [kind(number) for number in range(30)], 10_000, random.Random(maxsize))

    def test_a_million_calls(self):
        for kind, count, calls in ((int, 300, 600_000), (Key, 300, 200_000), (TwoBits, 30, 100_000), (SameHash, 30, 100_000)):
            self.check(count // 3, [kind(number) for number in range(count)], calls, random.Random(3))

    def test_keys_of_one_hash_have_slots_of_their_own(self):
        cache = Cache(10)
        for number in range(10):
            cache[SameHash(number)] = number
            self.assertEqual(dict(cache.items()), {SameHash(it): it for it in range(number + 1)})
        del cache[SameHash(9)]
        with self.assertRaises(KeyError):
            del cache[SameHash(9)]
        self.assertEqual(len(cache), 9)

    def test_minus_one_and_minus_two(self):
        cache = Cache(10)
        cache[-1], cache[-2] = "one", "two"
        self.assertEqual((cache.get(-1), cache.get(-2)), ("one", "two"))
        self.assertEqual(cache.pop(-1), "one")
        self.assertEqual(cache.get(-2), "two")

    def test_ints_that_a_stranger_picks(self):
        """Ints whose hashes, were they spread without a secret, would be looked for at one place take no longer than others."""
        count, inverse = 20_000, pow(0x9E3779B97F4A7C15, -1, 2**64)
        spread = ((number << 24) | 0x5A5A5A for number in range(1, 20 * count))
        picked = ((it ^ it >> 32) * inverse % 2**64 for it in spread)
        picked = [it for it in picked if it < 2**61 - 1][:count]

        def seconds(keys):
            cache, begun = Cache(count), time.process_time()
            for key in keys:
                cache[key] = key
            self.assertEqual(sum(map(cache.__contains__, keys)), count)
            return time.process_time() - begun

        usual, of_picked = (min(seconds(keys) for _ in range(3)) for keys in (range(count), picked))
        self.assertEqual(len(picked), count)
        self.assertLess(of_picked, 5 * usual)

    def test_thousands_of_one_hash(self):
        cache = Cache(1000)
        for number in range(20_000):
            cache[SameHash(number)] = number
            self.assertEqual(cache.peek(SameHash(number)), number)
        self.assertEqual(len(cache), 16)


if __name__ == "__main__":
    unittest.main()
