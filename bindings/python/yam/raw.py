"""The calls of include/yam.h as they are, over lists of words and bytes.

Every function answers the call's number (0 for a pass, docs/refusals.md) and what the call answers
beside it. A list that a call may write is made by `words`, `octets` or `machine` and written in
place; one that it only reads may also be any sequence of numbers, which is copied. None is an empty
list, handed over as a null pointer. A list that a call may write and that is, or shares memory
with, another list of the call is a ValueError, for the header forbids it; so is a number that does
not fit. A list of another kind is a TypeError.
"""

from __future__ import annotations

import ctypes
import operator
from typing import Any, Iterable, List, Optional, Sequence, Tuple, Union

from ._library import LIBRARY

CONFIG_WORDS, MACHINE_WORDS, INSTRUCTION_WORDS = 19, 100, 6

# The words of a machine record. Counts of 64 bits have a low word and then a high one.
PC, WP, RX, RY, N, Z, SPR7, DEPTH, IMASK, SAVED, MODE, POSTED, PORT, TAKEN = range(14)
LOGGED = TAKEN + 2
STACK = LOGGED + 2  # the oldest address; zeros above the newest
LOADED = 80  # 1 once an LDYX has run since reset; until then RX and RY are 0
STACK_PLACES = LOADED - STACK

WORD_BITS, COUNT_BITS = 32, 64
MOST_ELEMENTS = 1 << 26  # of a list of zeros: a larger one is a mistake, and could take all memory

_Word, _Octet, _Count, _Size = ctypes.c_uint32, ctypes.c_uint8, ctypes.c_uint64, ctypes.c_size_t
_Array, _addressof, _sizeof = ctypes.Array, ctypes.addressof, ctypes.sizeof
_NULL, _NONE = ctypes.c_void_p(None), _Size(0)

Words = Optional[Union["ctypes.Array[ctypes.c_uint32]", Iterable[int]]]
Octets = Optional[Union["ctypes.Array[ctypes.c_uint8]", Iterable[int]]]
LentWords = Optional["ctypes.Array[ctypes.c_uint32]"]
LentOctets = Optional["ctypes.Array[ctypes.c_uint8]"]


def words(values: Union[int, Iterable[int]]) -> "ctypes.Array[ctypes.c_uint32]":
    """A list of 32-bit words, from values or of so many zeros."""
    return _zeros(_Word, values) if isinstance(values, int) else _filled(_Word, values)


def octets(values: Union[int, Iterable[int]]) -> "ctypes.Array[ctypes.c_uint8]":
    """A list of bytes, from values or of so many zeros."""
    return _zeros(_Octet, values) if isinstance(values, int) else _filled(_Octet, values)


def fitting(value: int, bits: int) -> int:
    """A whole number, which is a ValueError where it does not fit so many bits without a sign."""
    whole = operator.index(value)
    if whole < 0 or whole >> bits:
        raise ValueError(f"{whole} does not fit {bits} bits")
    return whole


def _zeros(kind: Any, length: int) -> Any:
    if not 0 <= length <= MOST_ELEMENTS:
        raise ValueError(f"a list has 0 to {MOST_ELEMENTS} elements, not {length}")
    return (kind * length)()


def _filled(kind: Any, values: Iterable[int]) -> Any:
    if isinstance(values, (bytes, bytearray)) and kind is _Octet:
        return (kind * len(values)).from_buffer_copy(values)
    try:
        whole = list(map(operator.index, values))
    except NotImplementedError as error:  # a memoryview of more than one row, or of no numbers
        raise TypeError(str(error)) from None
    bits = 8 * _sizeof(kind)
    if whole:
        fitting(min(whole), bits)
        fitting(max(whole), bits)
    return (kind * len(whole))(*whole)


def _read(kind: Any, values: Any) -> Any:
    """A list that the call only reads: one that is made already, as it is, else a copy."""
    if values is None:
        return None
    if not isinstance(values, _Array):
        return _filled(kind, values)
    if values._type_ is not kind:
        raise TypeError("a list of the wrong width")
    return values


def _lent(kind: Any, values: Any) -> Any:
    """A list that the call may write must be one that is made already: a copy would be lost."""
    if values is not None and not isinstance(values, _Array):
        raise TypeError("a list that the call may write: make it by words, octets or machine")
    return _read(kind, values)


def _apart(lent: Sequence[Any], read: Sequence[Any]) -> None:
    """Refuses a list that the call may write and that another list of the call overlaps with."""
    spans = []
    empty = []
    for values in lent:
        if values:
            start = _addressof(values)
            spans.append((start, start + _sizeof(values), True))
        elif values is not None:
            empty.append(values)
    for values in read:
        if values:
            start = _addressof(values)
            spans.append((start, start + _sizeof(values), False))
    spans.sort()
    end = end_lent = 0  # of the lists that start no later
    for start, stop, is_lent in spans:
        if start < (end if is_lent else end_lent):
            raise ValueError("a list that the call may write overlaps with another one")
        if stop > end:
            end = stop
        if is_lent and stop > end_lent:
            end_lent = stop
    for at, values in enumerate(empty):
        if any(values is other for other in (*empty[:at], *read)):
            raise ValueError("a list that the call may write is given twice")


def _call(name: str, *arguments: Any) -> int:
    """Calls with each list as its pointer and length."""
    flat: List[Any] = []
    for a in arguments:
        if a is None:
            flat += (_NULL, _NONE)
        elif isinstance(a, _Array):
            flat += (a, _Size(len(a)))
        else:
            flat.append(a)
    return int(getattr(LIBRARY, name)(*flat))


def _word(value: int) -> ctypes.c_uint32:
    return _Word(fitting(value, WORD_BITS))


def _count(value: int) -> ctypes.c_uint64:
    return _Count(fitting(value, COUNT_BITS))


def read(config: Words, word: int) -> Tuple[int, List[int]]:
    """number, instruction (six words, zeros on a refusal)"""
    instruction = words(INSTRUCTION_WORDS)
    number = _call("yam_read", _read(_Word, config), _word(word), instruction)
    return number, list(instruction)


def write(config: Words, instruction: Words) -> Tuple[int, int]:
    """number, word"""
    answers = (_Count * 1)()
    number = _call("yam_write", _read(_Word, config), _read(_Word, instruction), answers)
    return number, answers[0]


def machine() -> "ctypes.Array[ctypes.c_uint32]":
    """The words of a machine at reset. LOADED is 0, so that MOVX is 27 until an LDYX has run."""
    made = words(MACHINE_WORDS)
    _call("yam_reset", made)
    return made


def reset(machine: LentWords) -> int:
    """number; the machine is written, but for one of another length, which is 3"""
    return _call("yam_reset", _lent(_Word, machine))


def step(
    config: Words,
    image: Words,
    inputs: Words,
    machine: LentWords,
    registers: LentWords,
    memory: LentWords,
    log_addresses: LentWords,
    log_values: LentWords,
) -> Tuple[int, int]:
    """number, cycles; machine, memories and log are written"""
    given = (config, image, inputs)
    lists = _state(given, (machine, registers, memory, log_addresses, log_values))
    answers = (_Count * 1)()
    return _call("yam_step", *lists, answers), answers[0]


def run(
    config: Words,
    image: Words,
    inputs: Words,
    machine: LentWords,
    registers: LentWords,
    memory: LentWords,
    log_addresses: LentWords,
    log_values: LentWords,
    budget: int,
) -> Tuple[int, int, int]:
    """number, steps, cycles; machine, memories and log are written"""
    given = (config, image, inputs)
    lists = _state(given, (machine, registers, memory, log_addresses, log_values))
    answers = (_Count * 2)()
    return _call("yam_run", *lists, _count(budget), answers), answers[0], answers[1]


def _state(given: Sequence[Any], state: Sequence[Any]) -> List[Any]:
    """The lists of a step or a run, tried."""
    read = [_read(_Word, values) for values in given]
    lent = [_lent(_Word, values) for values in state]
    _apart(lent, read)
    return read + lent


def check(config: Words, image: Words, certificate: Octets) -> Tuple[int, int, int]:
    """number, level, 0 on a pass; 17, address, rule; else number, 0, 0"""
    lists = _read(_Word, config), _read(_Word, image), _read(_Octet, certificate)
    answers = (_Count * 2)()
    return _call("yam_check", *lists, answers), answers[0], answers[1]


def text(config: Words, word: int, page: LentOctets, place: int) -> Tuple[int, int]:
    """number, place; the page is written"""
    generics, lent = _read(_Word, config), _lent(_Octet, page)
    _apart([lent], [generics])
    answers = (_Count * 1)()
    number = _call("yam_text", generics, _word(word), lent, _count(place), answers)
    return number, answers[0]


def listing(
    config: Words, image: Words, first: int, page: LentOctets, place: int
) -> Tuple[int, int, int]:
    """number, place, next address; the page is written"""
    read, lent = [_read(_Word, config), _read(_Word, image)], _lent(_Octet, page)
    _apart([lent], read)
    answers = (_Count * 2)()
    number = _call("yam_list", *read, _count(first), lent, _count(place), answers)
    return number, answers[0], answers[1]


def assemble(
    config: Words, text: Union[str, Octets], words: LentWords
) -> Tuple[int, int, int]:
    """number, how many words were written, line (0 but beside 24, 25, 26, 6 and 7)

    The words are written on a pass. A text is bytes, or a string in latin-1.
    """
    source = text.encode("latin-1") if isinstance(text, str) else text
    read, lent = [_read(_Word, config), _read(_Octet, source)], _lent(_Word, words)
    _apart([lent], read)
    answers = (_Count * 2)()
    return _call("yam_assemble", *read, lent, answers), answers[0], answers[1]


def load(file: Octets, image: LentWords) -> Tuple[int, List[int]]:
    """number, configuration (zeros on a refusal); on a pass IM_SIZE words of image are written"""
    read, lent = _read(_Octet, file), _lent(_Word, image)
    _apart([lent], [read])
    config = words(CONFIG_WORDS)
    number = _call("yam_load", read, config, lent)
    return number, list(config)


def store(config: Words, image: Words, file: LentOctets) -> int:
    """number; the file is written on a pass"""
    read, lent = [_read(_Word, config), _read(_Word, image)], _lent(_Octet, file)
    _apart([lent], read)
    return _call("yam_store", *read, lent)
