"""Runs over clock2q what others test of theirs, but for the tests that are named below with the reason.

usage: others.py functools    CPython's tests of lru_cache and cache (Debian: libpython3.11-testsuite)
       others.py cachetools FOLDER    cachetools' of its Cache and decorators (apt-get source python-cachetools)

Status 0: all that are run pass. 1: not, or one that is left out passes. 2: the tests aren't there."""

import functools
import sys
import types
import unittest

import clock2q

ORDER = "it counts the misses of LRU"
PICKLED = "the class that it pickles is local to this program"
OWN = "cachetools asks its own caches alone for their maxsize"
TYPES = "1 and 1.0 alone are two keys, as functools has it"

LEFT_OUT = {
    "Functools.test_lru_method": f"{ORDER}, at maxsize 2",
    "CachetoolsCache.test_pickle": PICKLED,
    "CachetoolsCache.test_pickle_maxsize": PICKLED,
    "CachetoolsFunctions.test_decorator": TYPES,
    "CachetoolsFunctions.test_decorator_unbound": TYPES,
    "CachetoolsFunctions.test_decorator_user_function": TYPES,
    "CachetoolsWrapper.test_zero_size_cache_decorator_info": OWN,
}


@clock2q.cached
def cached_function(x, y):
    return 3 * x + y


class Methods:
    """What CPython's tests pickle and copy."""

    @clock2q.cached()
    def cached_meth(self, x, y):
        return 3 * x + y

    @staticmethod
    @clock2q.cached()
    def cached_staticmeth(x, y):
        return 3 * x + y


def functools_tests():
    from test import test_functools

    ours = types.SimpleNamespace(**vars(functools))
    ours.lru_cache, ours.cache, ours._CacheInfo = clock2q.cached, clock2q.cached(None), clock2q.CacheInfo

    class Functools(Methods, test_functools.TestLRU, test_functools.TestCache, unittest.TestCase):
        module = ours
        cached_func = (cached_function,)

    return [Functools]


def cachetools_tests(folder):
    sys.path[:0] = [folder, f"{folder}/src"]
    import tests
    from tests import test_cached, test_cachedmethod, test_func

    class Sized(clock2q.Cache):
        """Its maxsize is both the most keys and the most that they weigh."""

        getsizeof = staticmethod(lambda value: 1)

        def __init__(self, maxsize, getsizeof=None):
            weigh = getsizeof or self.getsizeof
            super().__init__(maxsize, lambda key, value: weigh(value), maxsize)
            self.getsizeof = weigh

        currsize = clock2q.Cache.weight

    # The class begins its own repr.
    Sized.__name__ = "Cache"

    class CachetoolsCache(tests.CacheTestMixin, unittest.TestCase):
        Cache = Sized

    class CachetoolsFunctions(test_func.DecoratorTestMixin, unittest.TestCase):
        DECORATOR = staticmethod(clock2q.cached)

    # Those over a mapping that isn't of cachetools' classes, and those of a cache without room.
    class CachetoolsWrapper(test_cached.DictWrapperTest, test_cached.CacheWrapperTest):
        def cache(self, minsize):
            return clock2q.Cache(minsize)

    class CachetoolsMethods(test_cachedmethod.CachedMethodTest):
        pass

    test_cachedmethod.LRUCache = clock2q.Cache
    return [CachetoolsCache, CachetoolsFunctions, CachetoolsWrapper, CachetoolsMethods]


def main():
    try:
        kinds = functools_tests() if sys.argv[1:] == ["functools"] else cachetools_tests(sys.argv[2])
    except ImportError as error:
        print(error)
        return 2
    loaded = [case for kind in kinds for case in unittest.defaultTestLoader.loadTestsFromTestCase(kind)]
    name = {id(case): f"{type(case).__name__}.{case._testMethodName}" for case in loaded}
    run = unittest.TestSuite(case for case in loaded if name[id(case)] not in LEFT_OUT)
    result = unittest.TextTestRunner(verbosity=1).run(run)
    passing = 0
    for case in loaded:
        if name[id(case)] in LEFT_OUT:
            passes = case.run().wasSuccessful()
            passing += passes
            print(f"left out: {name[id(case)]}: {'it passes' if passes else LEFT_OUT[name[id(case)]]}")
    print(f"{result.testsRun} of {len(loaded)} run")
    return 0 if result.wasSuccessful() and passing == 0 else 1


if __name__ == "__main__":
    sys.exit(main())
