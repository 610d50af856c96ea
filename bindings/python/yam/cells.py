"""The memories of a machine as sequences."""

from __future__ import annotations

import ctypes
from typing import Iterable, List, Sequence, Union, overload

from . import raw


class Cells(Sequence[int]):
    """The cells of a register memory or a data memory: those of the machine, not a copy.

    A cell is read and set by its place; a slice reads as a list, and is set by as many values. A
    value that does not fit the word width is a ValueError, one that is no whole number a TypeError.
    """

    def __init__(self, made: "ctypes.Array[ctypes.c_uint32]", width: int) -> None:
        self._made = made
        self._width = width

    def __len__(self) -> int:
        return len(self._made)

    @overload
    def __getitem__(self, place: int) -> int: ...

    @overload
    def __getitem__(self, place: slice) -> List[int]: ...

    def __getitem__(self, place: Union[int, slice]) -> Union[int, List[int]]:
        return self._made[place]

    @overload
    def __setitem__(self, place: int, value: int) -> None: ...

    @overload
    def __setitem__(self, place: slice, value: Iterable[int]) -> None: ...

    def __setitem__(self, place: Union[int, slice], value: Union[int, Iterable[int]]) -> None:
        if isinstance(place, slice):
            if isinstance(value, int):
                raise TypeError("a slice is set by a list of values")
            self._made[place] = [raw.fitting(cell, self._width) for cell in value]
        else:
            self._made[place] = raw.fitting(value, self._width)  # type: ignore[arg-type]

    def __eq__(self, other: object) -> bool:
        if isinstance(other, (Cells, list, tuple)):
            return list(self) == list(other)
        return NotImplemented

    __hash__ = None  # type: ignore[assignment]

    def __repr__(self) -> str:
        return f"Cells({list(self)})"
