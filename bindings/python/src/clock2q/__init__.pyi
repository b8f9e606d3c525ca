from collections.abc import Callable, Iterator, MutableMapping
from typing import (
    Any,
    Concatenate,
    Final,
    Generic,
    Literal,
    NamedTuple,
    NoReturn,
    ParamSpec,
    SupportsFloat,
    SupportsIndex,
    TypedDict,
    TypeVar,
    final,
    overload,
)

_K = TypeVar("_K")
_V = TypeVar("_V")
_T = TypeVar("_T")
_S = TypeVar("_S")
_P = ParamSpec("_P")
_Q = ParamSpec("_Q")
_R = TypeVar("_R")
_Own = TypeVar("_Own") # of `self`, since mypy 1.0 takes the first variable of __get__ for that of a generic function
_S_co = TypeVar("_S_co", covariant=True)
_F_co = TypeVar("_F_co", covariant=True)

__all__ = ["MAX_CAPACITY", "Cache", "CacheInfo", "PageCache", "Place", "Reason", "cached"]

Reason = Literal["evicted", "replaced", "removed", "expired", "cleared"]

MAX_CAPACITY: int
__version__: str

class CacheInfo(NamedTuple):
    hits: int
    misses: int
    maxsize: int | None
    currsize: int

class _Parameters(TypedDict):
    maxsize: int | None
    typed: bool

class Cache(MutableMapping[_K, _V]):
    @overload
    def __init__(
        self,
        maxsize: int,
        weigher: None = None,
        max_weight: None = None,
        *,
        ttl: SupportsFloat | None = None,
        timer: Callable[[], SupportsFloat] | None = None,
        listener: Callable[[_K, _V, Reason], object] | None = None,
        history: SupportsIndex | None = None,
    ) -> None: ...
    @overload
    def __init__(
        self,
        maxsize: int,
        weigher: Callable[[_K, _V], SupportsIndex],
        max_weight: int,
        *,
        ttl: SupportsFloat | None = None,
        timer: Callable[[], SupportsFloat] | None = None,
        listener: Callable[[_K, _V, Reason], object] | None = None,
        history: SupportsIndex | None = None,
    ) -> None: ...
    @property
    def maxsize(self) -> int: ...
    @property
    def currsize(self) -> int: ...
    @property
    def weight(self) -> int | None: ...
    @property
    def max_weight(self) -> int | None: ...
    @property
    def hits(self) -> int: ...
    @property
    def misses(self) -> int: ...
    @property
    def weigher(self) -> Callable[[_K, _V], SupportsIndex] | None: ...
    @property
    def ttl(self) -> float | None: ...
    @property
    def timer(self) -> Callable[[], SupportsFloat] | None: ...
    @property
    def history(self) -> int | None: ...
    @property
    def listener(self) -> Callable[[_K, _V, Reason], object] | None: ...
    def __getitem__(self, key: _K, /) -> _V: ...
    def __setitem__(self, key: _K, value: _V, /) -> None: ...
    def __delitem__(self, key: _K, /) -> None: ...
    def __iter__(self) -> Iterator[_K]: ...
    def __len__(self) -> int: ...
    def __sizeof__(self) -> int: ...
    @overload
    def peek(self, key: _K, default: None = None) -> _V | None: ...
    @overload
    def peek(self, key: _K, default: _V | _T) -> _V | _T: ...
    def next_victim(self) -> tuple[_K, _V] | None: ...
    def resize(self, maxsize: int, /) -> None: ...
    def expire(self, time: SupportsFloat | None = None) -> list[tuple[_K, _V]]: ...
    def __reduce__(self) -> tuple[Any, ...]: ...
    def __setstate__(self, state: Any) -> None: ...

@final
class _Cached(Generic[_P, _R]):
    __name__: str
    __qualname__: str
    @property
    def __wrapped__(self) -> Callable[_P, _R]: ...
    def __call__(self, *args: _P.args, **kwargs: _P.kwargs) -> _R: ...
    @overload
    def __get__(self, instance: None, owner: type, /) -> _Cached[_P, _R]: ...
    @overload
    def __get__(self: _Own, instance: _S, owner: type | None = None, /) -> _Bound[_S, _P, _R, Callable[_P, _R]]: ...
    def cache_info(self) -> CacheInfo: ...
    def cache_clear(self) -> None: ...
    def cache_parameters(self) -> _Parameters: ...

@final
class _Bound(Generic[_S_co, _P, _R, _F_co]):
    __name__: str
    __qualname__: str
    __call__: _Call[_P, _R]
    @property
    def __self__(self) -> _S_co: ...
    @property
    def __func__(self) -> _Cached[_P, _R]: ...
    @property
    def __wrapped__(self) -> _F_co: ...
    def cache_info(self) -> CacheInfo: ...
    def cache_clear(self) -> None: ...
    def cache_parameters(self) -> _Parameters: ...

# What a _Bound is called by. As a descriptor it has the _Bound as an argument: mypy infers the parameters after the first
# one from arguments, but not from the type of `self`. Where a _Bound is taken for a Callable, any arguments will do.
@final
class _Call(Generic[_P, _R]):
    @overload
    def __get__(
        self: _Own, instance: _Bound[_S, ..., Any, Callable[Concatenate[_S, _Q], _T]], owner: type | None = None, /
    ) -> _Either[_Q, _P, _T]: ...
    @overload
    def __get__(
        self: _Own, instance: _Bound[Any, ..., Any, Callable[Concatenate[Any, _Q], _T]], owner: type | None = None, /
    ) -> _Either[_Q, _P, _T]: ...
    @overload
    def __get__(self, instance: _Bound[Any, ..., Any, Callable[[], Any]], owner: type | None = None, /) -> Callable[_P, _R]: ...
    def __call__(self, *args: Any, **kwargs: Any) -> _R: ...

# The call of a method, or of a static method, for which mypy asks __get__ too: so it isn't refused if the instance comes first.
@final
class _Either(Generic[_Q, _P, _R]):
    @overload
    def __call__(self, *args: _Q.args, **kwargs: _Q.kwargs) -> _R: ...
    @overload
    def __call__(self, *args: _P.args, **kwargs: _P.kwargs) -> _R: ...

@overload
def cached(
    maxsize: Callable[_P, _R],
    typed: bool = False,
    *,
    key: Callable[..., object] | None = None,
    lock: bool = False,
    ttl: SupportsFloat | None = None,
    timer: Callable[[], SupportsFloat] | None = None,
    listener: Callable[[Any, _R, Reason], object] | None = None,
    history: SupportsIndex | None = None,
) -> _Cached[_P, _R]: ...
@overload
def cached(
    maxsize: SupportsIndex | None = 128,
    typed: bool = False,
    *,
    key: Callable[..., object] | None = None,
    lock: bool = False,
    ttl: SupportsFloat | None = None,
    timer: Callable[[], SupportsFloat] | None = None,
    listener: Callable[[Any, Any, Reason], object] | None = None,
    history: SupportsIndex | None = None,
) -> Callable[[Callable[_P, _R]], _Cached[_P, _R]]: ...

@final
class Place(tuple[int, int | None]):
    __match_args__: Final = ("slot", "last")
    n_fields: Final = 2
    n_sequence_fields: Final = 2
    n_unnamed_fields: Final = 0
    @property
    def slot(self) -> int: ...
    @property
    def last(self) -> int | None: ...

class PageCache:
    def __init__(self, capacity: int, *, history: SupportsIndex | None = None) -> None: ...
    @property
    def capacity(self) -> int: ...
    def enter(self, key: int, /) -> Place: ...
    def find(self, key: int, /) -> int | None: ...
    def peek(self, key: int, /) -> int | None: ...
    def is_at(self, slot: int, key: int, /) -> bool: ...
    def remove(self, key: int, /) -> bool: ...
    def clear(self) -> None: ...
    def grow(self, capacity: int, /) -> None: ...
    def __contains__(self, key: object, /) -> bool: ...
    def __len__(self) -> int: ...
    def __reduce__(self) -> NoReturn: ...
