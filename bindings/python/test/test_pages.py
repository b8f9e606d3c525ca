"""Tests of clock2q.PageCache."""

import copy
import pickle
import random
import sys
import unittest
import weakref

from clock2q import MAX_CAPACITY, PageCache, Place


class PageCacheTest(unittest.TestCase):
    def test_slots(self):
        pages = PageCache(2)
        self.assertEqual((pages.enter(70), pages.enter(80), pages.enter(90)), ((0, None), (1, None), (0, 70)))
        place = pages.enter(90)
        self.assertEqual((type(place), place.slot, place.last), (Place, 0, 90))
        self.assertEqual((pages.find(90), pages.find(70)), (0, None))
        self.assertEqual((pages.peek(90), pages.peek(70), 90 in pages, 70 in pages), (0, None, True, False))
        self.assertEqual([pages.is_at(slot, 80) for slot in (1, 0, -1, 2**70)], [True, False, False, False])
        self.assertEqual((pages.remove(80), pages.remove(80)), (True, False))
        self.assertEqual((len(pages), pages.capacity), (1, 2))
        pages.clear()
        self.assertEqual((len(pages), pages.find(90)), (0, None))

    def test_frames(self):
        """Each frame has the page of the key whose slot it is, if a changed key is loaded again."""
        draws = random.Random(1)
        for capacity in (1, 2, 3, 10, 100):
            pages, frames = PageCache(capacity), [None] * capacity
            for _ in range(10_000):
                key = draws.randrange(3 * capacity) * 2**40
                slot, last = pages.enter(key)
                if last != key:
                    frames[slot] = str(key)
                self.assertEqual(frames[slot], str(key))
                self.assertEqual(pages.find(key), slot)
                self.assertLessEqual(len(pages), capacity)
                if draws.random() < 0.1:
                    self.assertTrue(pages.remove(key))
                    self.assertNotIn(key, pages)

    def test_it_grows(self):
        for history in (None, 0, 3):
            pages = PageCache(5, history=history)
            slots = {key: pages.enter(key).slot for key in range(5)}
            pages.grow(5)
            pages.grow(100)
            self.assertEqual(({key: pages.peek(key) for key in slots}, pages.capacity), (slots, 100))
            self.assertEqual(sorted(pages.enter(key).slot for key in range(5, 100)), list(range(5, 100)))
            for capacity in (99, 0, -1, MAX_CAPACITY + 1, 2**70):
                self.assertRaises(ValueError, pages.grow, capacity)
            self.assertRaises(TypeError, pages.grow, "100")
            self.assertEqual((len(pages), pages.capacity), (100, 100))

    def test_refusals(self):
        for capacity in (0, -1, MAX_CAPACITY + 1):
            with self.assertRaises(ValueError):
                PageCache(capacity)
        pages = PageCache(capacity=1)
        for call in (pages.enter, pages.find, pages.peek, pages.remove, lambda key: pages.is_at(0, key)):
            for key in (-1, 2**64):
                with self.assertRaises(ValueError):
                    call(key)
            for key in ("7", 7.0, None):
                with self.assertRaises(TypeError):
                    call(key)
        for stranger in ("7", -1, 2**64, []):
            self.assertNotIn(stranger, pages)
        self.assertEqual(pages.enter(2**64 - 1), (0, None))
        with self.assertRaises(RuntimeError):
            pages.__init__(2)

    def test_without_init(self):
        pages = PageCache.__new__(PageCache)
        calls = [pages.clear, lambda: pages.enter(1), lambda: pages.find(1), lambda: pages.is_at(0, 1), lambda: pages.remove(1), lambda: pages.grow(1)]
        for call in [*calls, lambda: 1 in pages, lambda: len(pages), lambda: pages.capacity]:
            with self.assertRaises(RuntimeError):
                call()

    def test_no_handle_is_copied(self):
        for copied in (copy.copy, copy.deepcopy, pickle.dumps):
            with self.assertRaises(TypeError):
                copied(PageCache(1))

    def test_subclasses_and_weak_references(self):
        class Named(PageCache):
            name = "some"

        pages = Named(2)
        self.assertEqual((pages.enter(7).slot, pages.name), (0, "some"))
        reference = weakref.ref(pages)
        del pages
        self.assertIsNone(reference())

    def test_references_are_given_back(self):
        pages, key = PageCache(2), 10**18
        before = sys.getrefcount(key)
        for _ in range(100):
            pages.enter(key), pages.find(key), pages.is_at(0, key), key in pages, pages.remove(key), pages.enter(key).last
        self.assertEqual(sys.getrefcount(key), before)


if __name__ == "__main__":
    unittest.main()
