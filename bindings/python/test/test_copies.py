"""Tests of copies of clock2q.Cache, and of pickles."""

import copy
import pickle
import unittest

from clock2q import Cache, PageCache
from keys import SameHash


def one(key, value):
    """A weigher that pickle finds by its name."""
    return 1


def ignore(key, value, reason):
    """A listener."""


class Named(Cache):
    """A subclass with arguments and an attribute of its own."""

    def __init__(self, name):
        super().__init__(7)
        self.name = name


class CopyTest(unittest.TestCase):
    copies = [copy.copy, copy.deepcopy]
    copies += [lambda it, protocol=protocol: pickle.loads(pickle.dumps(it, protocol)) for protocol in range(2, pickle.HIGHEST_PROTOCOL + 1)]

    def test_the_same_pairs_and_limits(self):
        for copied in self.copies:
            for maxsize in (0, 1, 10, 5_000):
                for filled in (0, maxsize // 2, 2 * maxsize):
                    cache = Cache(maxsize)
                    cache.update((str(number), number) for number in range(filled))
                    other = copied(cache)
                    self.assertEqual((other, other.maxsize, other.hits, list(other)), (cache, maxsize, 0, list(cache)))

    def test_what_it_was_made_with(self):
        for copied in self.copies:
            other = copied(Cache(10, one, 5, listener=ignore))
            self.assertEqual((other.weigher, other.max_weight, other.listener, other.ttl), (one, 5, ignore, None))
            other.update(dict.fromkeys("abcdefgh"))
            self.assertEqual((len(other), other.weight), (5, 5))

    def test_it_is_another(self):
        cache = Cache(3)
        cache.update({"a": [1], "b": [2]})
        shallow, deep = copy.copy(cache), copy.deepcopy(cache)
        cache.pop("b")
        self.assertEqual((list(shallow), list(deep), shallow["a"] is cache["a"], deep["a"] is cache["a"]), (["a", "b"], ["a", "b"], True, False))

    def test_subclasses_and_cycles(self):
        cache = Named("its name")
        cache["itself"] = cache
        for copied in self.copies[1:]:
            other = copied(cache)
            self.assertEqual((type(other), other.name, other.maxsize, other["itself"] is other), (Named, "its name", 7, True))

    def test_seventeen_of_one_hash(self):
        cache = Cache(20)
        cache.update((SameHash(number), number) for number in range(17))
        self.assertEqual(dict(copy.copy(cache).items()), dict(cache.items()))

    def test_refusals(self):
        for refused in (Cache(1, ttl=5), PageCache(1)):
            for copied in (copy.copy, copy.deepcopy, pickle.dumps):
                with self.assertRaisesRegex(TypeError, "can't be pickled or copied"):
                    copied(refused)


if __name__ == "__main__":
    unittest.main()
