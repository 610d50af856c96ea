"""A step of a trace, and what it changed by name and value."""

from __future__ import annotations

from dataclasses import dataclass
from typing import TYPE_CHECKING, Dict, Iterator, List, Mapping, Tuple, Union

from . import raw
from .instruction import text
from .refused import Refused

if TYPE_CHECKING:
    from .machine import Machine

Value = Union[int, Tuple[int, int]]

WORD_BYTES = raw.WORD_BITS // 8
DIGIT_BITS = 4
# The fields of the record that a trace names, in its order, and how many hex digits each is shown
# by: None for a decimal, WIDE for as many as a word has.
WIDE = 0
FIELDS = {
    "WP": 3,
    "RX": 2,
    "RY": 2,
    "N": 1,
    "Z": 1,
    "SPR7": WIDE,
    "IMask": 1,
    "saved": 1,
    "mode": 1,
    "posted": 1,
    "port": WIDE,
    "loaded": 1,
    "taken": None,
    "logged": None,
    "depth": None,
}
STACK, LOG = "stack", "log"
SHOWN = {**FIELDS, STACK: 6}
SMALL_REGISTER, BANK_REGISTER, DATA_ADDRESS = 2, 3, 4  # hex digits of their places


@dataclass(frozen=True)
class Step:
    """A step that was carried out.

    step      its number, from 1 on
    cycles    the cycles so far, its own with them
    address   where its word stands
    word      the word
    text      the word's text, as a listing has it
    changes   what holds another value than before, in the order of docs/commands.md: WP to depth
              by their names there, "stack" an address that was pushed, "%06" a register, "&0010" a
              data cell, "log" the pair of address and value of a port write. PC is left out.
    width     REG_WIDTH, by which str() shows values

    str() is the step's line of `yam trace`, without its newline.
    """

    step: int
    cycles: int
    address: int
    word: int
    text: str
    changes: Mapping[str, Value]
    width: int

    def __str__(self) -> str:
        line = f"{self.step} {self.cycles} {self.address:06x} {self.word:08x} {self.text} ;"
        return line + "".join(f" {name}={self.shown(name)}" for name in self.changes)

    def shown(self, name: str) -> str:
        """The new value of what has this name in changes, as a trace prints it."""
        value, digits = self.changes[name], self.width // DIGIT_BITS
        if isinstance(value, tuple):
            return ":".join(f"{word:0{digits}x}" for word in value)
        count = SHOWN.get(name, WIDE)
        return f"{value}" if count is None else f"{value:0{count or digits}x}"


def steps_of(machine: Machine, budget: int) -> Iterator[Step]:
    """The steps of a trace, each carried out when it is asked for."""
    config, words = machine.config, machine.image.words
    texts: Dict[int, str] = {}
    cycles = 0
    for step in range(1, budget + 1):
        before = _Before(machine)
        address = machine.pc
        try:
            cycles += machine.step()
        except Refused as stop:
            raise Refused(stop.number, steps=step - 1, cycles=cycles) from None
        word = words[address]
        if word not in texts:
            texts[word] = text(config, word)
        changes = before.changes(machine)
        yield Step(step, cycles, address, word, texts[word], changes, config.reg_width)


class _Before:
    """What a machine held before a step."""

    def __init__(self, machine: Machine) -> None:
        self._fields = _fields(machine)
        self._registers = bytes(machine._registers)
        self._memory = bytes(machine._memory)

    def changes(self, machine: Machine) -> Dict[str, Value]:
        """What the machine holds otherwise after one step, by name."""
        found: Dict[str, Value] = {}
        for name, old, new in zip(FIELDS, self._fields, _fields(machine)):
            if new != old:
                found[name] = new
        *_, logged, depth = self._fields
        if machine.depth > depth:
            found[STACK] = machine.stack[-1]
        banks = machine.config.rm_size != machine.config.reg_size
        digits = BANK_REGISTER if banks else SMALL_REGISTER
        for place in _differing(self._registers, bytes(machine._registers)):
            found[f"%{place:0{digits}x}"] = machine._registers[place]
        for place in _differing(self._memory, bytes(machine._memory)):
            found[f"&{place:0{DATA_ADDRESS}x}"] = machine._memory[place]
        if machine.logged > logged:
            found[LOG] = machine.log[-1]
        return found


def _fields(machine: Machine) -> List[int]:
    """The record's values in the order of FIELDS."""
    return [
        machine.wp,
        machine.rx,
        machine.ry,
        machine.n,
        machine.z,
        machine.spr7,
        machine.imask,
        machine.saved,
        machine.mode,
        machine.posted,
        machine.port,
        machine.loaded,
        machine.taken,
        machine.logged,
        machine.depth,
    ]


def _differing(before: bytes, now: bytes) -> List[int]:
    """The places of the words in which two lists differ, rising: both are halved until they are."""
    found: List[int] = []
    spans = [(0, len(now))]
    while spans:
        start, end = spans.pop()
        if before[start:end] == now[start:end]:
            continue
        if end - start == WORD_BYTES:
            found.append(start // WORD_BYTES)
            continue
        middle = start + (end - start) // (2 * WORD_BYTES) * WORD_BYTES
        spans += [(middle, end), (start, middle)]
    return found
