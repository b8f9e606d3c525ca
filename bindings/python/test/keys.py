"""Keys for the tests, whose hashes and comparisons are chosen."""


class Key:
    """A key that equals those of its number, and has the hash that `hashed` makes of it."""

    hashed = staticmethod(hash)

    def __init__(self, number):
        self.number = number

    def __hash__(self):
        return type(self).hashed(self.number)

    def __eq__(self, other):
        return isinstance(other, Key) and self.number == other.number

    def __repr__(self):
        return f"{type(self).__name__}({self.number})"


class SameHash(Key):
    hashed = staticmethod(lambda number: 99)


class TwoBits(Key):
    hashed = staticmethod(lambda number: number % 4)


class Acting(Key):
    """A key whose comparison first calls `act`, which may do anything."""

    hashed = staticmethod(lambda number: 7)
    act = None

    def __eq__(self, other):
        if Acting.act is not None:
            Acting.act()
        return super().__eq__(other)

    __hash__ = Key.__hash__


class UnhashableNow(Key):
    """A key whose hash raises while `is_broken`."""

    is_broken = False

    def __hash__(self):
        if UnhashableNow.is_broken:
            raise ZeroDivisionError
        return super().__hash__()

    __eq__ = Key.__eq__
