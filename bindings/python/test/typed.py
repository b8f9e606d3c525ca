"""What mypy --strict has to find of clock2q's types; bindings/test asks it. Nothing here is run."""

import copy
import time
from collections.abc import Callable, Coroutine
from typing import Any, Self, TypeVar, assert_type

from clock2q import Cache, CacheInfo, PageCache, Place, Reason, cached

T = TypeVar("T")


def listen(key: str, value: int, reason: Reason) -> None:
    if reason == "evicted":
        print(key, value)


def caches() -> None:
    cache: Cache[str, int] = Cache(10, ttl=5, timer=time.monotonic, listener=listen)
    assert_type(cache.get("a"), int | None)
    assert_type(cache.peek("a", "none"), int | str)
    assert_type(cache.expire(), list[tuple[str, int]])
    assert_type(cache.next_victim(), tuple[str, int] | None)
    assert_type(cache.ttl, float | None)
    assert_type(copy.copy(cache), Cache[str, int])
    weighted = Cache[str, bytes](10, lambda key, value: len(value), 10**6, history=9)
    assert_type(weighted["a"], bytes)
    Cache[str, int](10, ttl="5")  # type: ignore[call-overload]
    Cache[str, int](10, weigher=lambda key, value: 1)  # type: ignore[call-overload]
    Cache[int, int](10, listener=listen)  # type: ignore[arg-type]
    Cache[int, int](10, history="5")  # type: ignore[call-overload]
    assert_type(weighted.history, int | None)
    cache[1] = 1  # type: ignore[index]


class Shape:
    @cached(100, lock=True)
    def area(self, unit: str = "m") -> float:
        return 1.0

    @staticmethod
    @cached(100, ttl=60)
    def known(name: str) -> bool:
        return True

    @staticmethod
    @cached
    def same(other: object) -> bool:
        return False

    @staticmethod
    @cached
    def none() -> bool:
        return False

    @classmethod
    @cached
    def made(cls, name: str) -> bool:
        return True

    @cached
    async def name(self, number: int) -> str:
        return ""

    @cached
    def settled(self, number: int, how: dict[str, Any]) -> list[Any]:
        return []

    @cached(100)
    def first(self, rows: list[T]) -> T:
        return rows[0]

    @cached
    def scaled(self, by: int = 1, /, *more: int, unit: str, **others: bytes) -> Self:
        return self


class Square(Shape):
    def double(self) -> float:
        return 2 * super().area("m")


@cached(1000, key=lambda rows: len(rows), listener=lambda size, total, reason: print(size, total, reason), history=900)
def total(rows: list[int]) -> int:
    return sum(rows)


@cached(maxsize=None)
async def fetch(address: str) -> bytes:
    return b""


async def functions(shape: Shape) -> None:
    assert_type(total([1]), int)
    assert_type(total.cache_info(), CacheInfo)
    waiting: Coroutine[Any, Any, bytes] = fetch(address="")
    assert_type(await waiting, bytes)
    assert_type(shape.area("km"), float)
    assert_type(shape.area.cache_info(), CacheInfo)
    assert_type(Shape.area(shape), float)
    assert_type(Shape.known("square"), bool)
    assert_type(shape.known("square"), bool)
    assert_type(await shape.name(1), str)
    shape.name.cache_clear()
    total("ab")  # type: ignore[arg-type]
    Shape.area(shape, 1)  # type: ignore[arg-type]
    Shape.area()  # type: ignore[call-arg]
    cached(10, lock=True, ttl="5")  # type: ignore[call-overload]
    cached(10, history="5")  # type: ignore[call-overload]


def methods(shape: Shape, square: Square, either: Shape | Square) -> None:
    assert_type(shape.area(), float)
    assert_type(square.area(unit="km"), float)
    assert_type(either.area("km"), float)
    shape.area(1)  # type: ignore[call-overload]
    square.area(unit=1)  # type: ignore[call-overload]
    either.area(1)  # type: ignore[call-overload]
    shape.area("km", "m")  # type: ignore[call-overload]
    shape.area(name="km")  # type: ignore[call-overload]
    shape.name("1")  # type: ignore[call-overload]
    assert_type(shape.first([1]), int)
    assert_type(square.scaled(1, 2, unit="m", other=b""), Square)
    shape.scaled(1)  # type: ignore[call-overload]
    shape.scaled("1", unit="m")  # type: ignore[call-overload]
    shape.scaled(1, unit="m", other=1)  # type: ignore[call-overload]
    assert_type(shape.settled(1, {}), list[Any])
    shape.settled("1", {})  # type: ignore[call-overload]
    assert_type(shape.made("square"), bool)
    shape.known(1)  # type: ignore[call-overload]
    assert_type(shape.same(1), bool)
    assert_type(shape.none(), bool)
    area = shape.area
    area(1)  # type: ignore[call-overload]
    assert_type(area.__self__, Shape)
    assert_type(area.__func__(square, "km"), float)
    assert_type(area.__wrapped__(square, "km"), float)
    called: Callable[[str], float] = area
    assert_type(list(map(area, ["km"])), list[float])
    named: Callable[[str], str] = area  # type: ignore[assignment]
    print(called, named)


def pages() -> None:
    place = PageCache(10, history=9).enter(7)
    assert_type(place, Place)
    assert_type((place.slot, place.last), tuple[int, int | None])
