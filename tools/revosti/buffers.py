"""Python's numbers as buffers that C takes. A number or an object that does not fit is told with the name of its
argument."""

import ctypes
from array import array
from collections.abc import Callable, Iterable, Iterator
from itertools import chain
from operator import index
from typing import Any, TypeAlias

Buffer: TypeAlias = "bytes | bytearray | memoryview"

WORD, HALF, LONG = "I", "H", "Q"  # 32, 16 and 64 bits without sign, little-endian on x86-64
POINT, RECORD = 2, 8  # numbers


def named(name: str, make: Callable[..., Any], *arguments: Any) -> Any:
    """What `make` gives, with the name in front of its complaint."""
    try:
        return make(*arguments)
    except (TypeError, OverflowError) as error:
        raise type(error)(f"{name}: {error}") from None


def whole(name: str, number: int) -> int:
    """The number, whatever its size."""
    return named(name, index, number)


def fit(name: str, form: str, number: int) -> int:
    """The number, where it fits its format. ctypes would cut it."""
    return named(name, array, form, [number])[0]


def each(items: Iterable[Any]) -> Iterator[Any]:
    """The items, one after the other. Texts and bytes are not taken for numbers, though they can be gone over."""
    if isinstance(items, (str, bytes, bytearray)):
        raise TypeError(f"numbers are wanted, not {type(items).__name__}")
    return iter(items)


def numbers(name: str, form: str, items: "array[int] | Iterable[int]") -> "array[int]":
    """An array of numbers: the one that is handed in, where it is one of this format."""
    if isinstance(items, array) and items.typecode == form:
        return items
    return named(name, lambda: array(form, each(items)))


def coordinate_words(coordinates: Iterable[Any]) -> "array[int]":
    """The numbers of coordinates, alone or all of them in pairs, one after the other."""
    source = named("coordinates", each, coordinates)
    for first in source:
        items = chain([first], source)
        return numbers("coordinates", WORD, joined("coordinates", "point", POINT, items) if isinstance(first, Iterable) else items)
    return array(WORD)


def records(sheet: Iterable[Iterable[int]]) -> "array[int]":
    """The numbers of a sheet, one after the other."""
    return numbers("sheet", HALF, joined("sheet", "record", RECORD, named("sheet", each, sheet)))


def joined(name: str, what: str, size: int, items: Iterable[Iterable[int]]) -> Iterator[int]:
    """The numbers of points or records, each of which has so many."""
    for place, item in enumerate(items, 1):
        found = tuple(named(f"{what} {place}", iter, item))
        if len(found) != size:
            raise ValueError(f"{name}: {what} {place} has {len(found)} numbers, not {size}")
        yield from found


def view(name: str, data: Buffer) -> memoryview:
    """The bytes of a buffer."""
    return named(name, memoryview, data)


def copy(data: Buffer, name: str = "buffer") -> bytearray:
    """Marks and texts that are only read may be any bytes."""
    return bytearray(view(name, data))


def lend(buffer: "bytearray | array[int]", name: str = "buffer") -> tuple[Any, int]:
    """A buffer as C takes it, a pointer and a length in bytes. What the call writes is written there."""
    size = view(name, buffer).nbytes
    return named(name, (ctypes.c_uint8 * size).from_buffer, buffer), size
