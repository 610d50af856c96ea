"""A machine: an image with inputs, registers, data memory and log, stepped by the library."""

from __future__ import annotations

import ctypes
import operator
from dataclasses import fields
from typing import Any, Iterable, Iterator, List, NamedTuple, Optional, Tuple, Union, overload

from . import raw
from .cells import Cells
from .config import Config, config_list, must_be_lawful
from .image import Image, image_list, listed
from .record import Record
from .refused import Refused
from .steps import Step, steps_of
from ._library import LIBRARY

STEPS = 1000  # of a run or a trace for which none are given
LOG_PLACES = 256  # of a machine for which none are given
MOST_STEPS = 1_000_000  # above this a run is refused by 16
_MOST_COUNT = (1 << raw.COUNT_BITS) - 1
_WORD_MASK = (1 << raw.WORD_BITS) - 1


class Ran(NamedTuple):
    """What a run that was not stopped answers."""

    steps: int
    cycles: int


class _Field:
    """A field of the machine record: a word, or a count in two words, the low one first."""

    def __init__(self, place: int, meaning: str, bits: int = raw.WORD_BITS) -> None:
        self.__doc__ = meaning
        self._place = place
        self._bits = bits

    @overload
    def __get__(self, machine: None, owner: Any) -> _Field: ...

    @overload
    def __get__(self, machine: Machine, owner: Any) -> int: ...

    def __get__(self, machine: Optional[Machine], owner: Any) -> Union[_Field, int]:
        if machine is None:
            return self
        record = machine._record
        high = record[self._place + 1] if self._bits > raw.WORD_BITS else 0
        return record[self._place] | high << raw.WORD_BITS

    def __set__(self, machine: Machine, value: int) -> None:
        whole = raw.fitting(value, self._bits)
        machine._record[self._place] = whole & _WORD_MASK
        if self._bits > raw.WORD_BITS:
            machine._record[self._place + 1] = whole >> raw.WORD_BITS


class Machine:
    """A machine at reset, with what it works on.

    image       the configuration and the words
    inputs      what the ports give, one word for each port read
    registers   RM_SIZE words, zeros where they are not given
    memory      DM_SIZE words, zeros where they are not given
    log_places  how many port writes the log has room for

    All values are tried here, once: one that is no whole number is a TypeError, one that does not
    fit 32 bits a ValueError. Refused by 1 (UNLAWFUL_CONFIG), 2 (WRONG_LENGTH), and 3 (OUT_OF_RANGE)
    for a cell that does not fit the word width. From then on the library works on the machine's own
    lists, and nothing is copied.

    The fields of the record may be set; what is then outside its ranges, the next step refuses by
    3. A machine is for one thread at a time.
    """

    pc = _Field(raw.PC, "PC, the address of the next word")
    wp = _Field(raw.WP, "WP, the place of the active bank's first register")
    rx = _Field(raw.RX, "RX, the index pointer of MOVX")
    ry = _Field(raw.RY, "RY, the index at which MOVX sets Z")
    n = _Field(raw.N, "the flag N")
    z = _Field(raw.Z, "the flag Z")
    spr7 = _Field(raw.SPR7, "SPR7, the upper part of a product")
    depth = _Field(raw.DEPTH, "how many addresses the return stack holds")
    imask = _Field(raw.IMASK, "IMask, the interrupt mask")
    saved = _Field(raw.SAVED, "the mask that SPR_ON saved")
    mode = _Field(raw.MODE, "1 in special-register mode")
    posted = _Field(raw.POSTED, "1 straight after a port write")
    port = _Field(raw.PORT, "the address of that port write")
    taken = _Field(raw.TAKEN, "how many inputs were taken", raw.COUNT_BITS)
    logged = _Field(raw.LOGGED, "how many places of the log are filled", raw.COUNT_BITS)
    loaded = _Field(raw.LOADED, "1 once an LDYX has run since reset")

    def __init__(
        self,
        image: Image,
        inputs: Iterable[int] = (),
        registers: Optional[Iterable[int]] = None,
        memory: Optional[Iterable[int]] = None,
        log_places: int = LOG_PLACES,
    ) -> None:
        words = image_list(image)
        config = image.config
        must_be_lawful(config)
        self._image = image
        self._inputs = raw.words(listed(inputs))
        self._record = raw.machine()
        self._registers = raw.words(config.rm_size if registers is None else listed(registers))
        self._memory = raw.words(config.dm_size if memory is None else listed(memory))
        self._log_addresses = raw.words(_count(log_places))
        self._log_values = raw.words(_count(log_places))
        lists: List[Any] = []
        for made in (
            config_list(config),
            words,
            self._inputs,
            self._record,
            self._registers,
            self._memory,
            self._log_addresses,
            self._log_values,
        ):
            lists += (made, ctypes.c_size_t(len(made)))
        self._lists = tuple(lists)
        self._cycles = (ctypes.c_uint64 * 1)()
        self._step_lists = (*lists, self._cycles, ctypes.c_size_t(1))
        number, _, _ = self._ran(0)
        if number:
            raise Refused(number)

    @property
    def config(self) -> Config:
        """The configuration, that of the image."""
        return self._image.config

    @property
    def image(self) -> Image:
        """The image."""
        return self._image

    @property
    def inputs(self) -> Tuple[int, ...]:
        """What the ports give, taken or not."""
        return tuple(self._inputs)

    @property
    def registers(self) -> Cells:
        """The register memory, RM_SIZE cells; register 0 of the active bank is at WP."""
        return Cells(self._registers, self.config.reg_width)

    @property
    def memory(self) -> Cells:
        """The data memory, DM_SIZE cells."""
        return Cells(self._memory, self.config.reg_width)

    @property
    def log(self) -> List[Tuple[int, int]]:
        """Address and value of each port write, the oldest first."""
        filled = min(self.logged, len(self._log_values))
        return list(zip(self._log_addresses[:filled], self._log_values[:filled]))

    @property
    def stack(self) -> Tuple[int, ...]:
        """The addresses that the return stack holds, the oldest first. Setting it sets depth."""
        held = min(self.depth, raw.STACK_PLACES)
        return tuple(self._record[raw.STACK : raw.STACK + held])

    @stack.setter
    def stack(self, addresses: Iterable[int]) -> None:
        given = [raw.fitting(address, raw.WORD_BITS) for address in addresses]
        if len(given) > raw.STACK_PLACES:
            raise ValueError(f"a return stack holds at most {raw.STACK_PLACES} addresses")
        zeros = [0] * (raw.STACK_PLACES - len(given))
        self._record[raw.STACK : raw.STACK + raw.STACK_PLACES] = given + zeros
        self._record[raw.DEPTH] = len(given)

    @property
    def record(self) -> Record:
        """The record as a value, which the next step does not change."""
        return Record(**{field.name: getattr(self, field.name) for field in fields(Record)})

    def reset(self) -> None:
        """Puts the record back to reset; the memories stay, the log and the inputs start again."""
        raw.reset(self._record)

    def step(self) -> int:
        """Carries out one step and returns its cycles.

        Refused by 3 (OUT_OF_RANGE), 4 (PC_OUTSIDE), 5 (NO_ROW), 6 (OPTION_OFF), 7 (BEYOND_LIMIT),
        8 (SPECIAL_MODE), 9 (PORT_TURNAROUND), 27 (INDEX_NOT_LOADED), 10 (STACK_FULL),
        11 (STACK_EMPTY), 12 (BANK_OUTSIDE), 13 (DATA_ADDRESS), 14 (NO_INPUT) and 15 (LOG_FULL);
        then nothing is changed.
        """
        number = LIBRARY.yam_step(*self._step_lists)
        if number:
            raise Refused(number)
        return self._cycles[0]

    def run(self, steps: int = STEPS) -> Ran:
        """Carries out so many steps.

        Refused by 16 (BUDGET) for more than 1,000,000, and as `step` is; the exception has the
        steps and cycles that were done, which are kept.
        """
        number, done, cycles = self._ran(_budget(steps))
        if number:
            raise Refused(number, steps=done, cycles=cycles)
        return Ran(done, cycles)

    def trace(self, steps: int = STEPS) -> Iterator[Step]:
        """Carries out so many steps one by one, each when the iterator is asked for it.

        str() of a step is its line of `yam trace`. Refused as `run` is: by 3 (OUT_OF_RANGE) and
        16 (BUDGET) at once, by the number of a step after the steps that were done.
        """
        budget = _budget(steps)
        self.run(budget if budget > MOST_STEPS else 0)
        return steps_of(self, budget)

    def copy(self) -> Machine:
        """A machine in the same state, with lists of its own."""
        places = len(self._log_values)
        made = Machine(self._image, self._inputs, self._registers, self._memory, places)
        made._record[:] = self._record[:]
        made._log_addresses[:] = self._log_addresses[:]
        made._log_values[:] = self._log_values[:]
        return made

    __copy__ = copy

    def __deepcopy__(self, _: Any) -> Machine:
        return self.copy()

    def __repr__(self) -> str:
        return f"Machine(pc={self.pc:#x}, depth={self.depth}, taken={self.taken})"

    def _ran(self, budget: int) -> Tuple[int, int, int]:
        """number, steps, cycles of a run; a budget of 0 only tries the lists"""
        answers = (ctypes.c_uint64 * 2)()
        number = LIBRARY.yam_run(
            *self._lists, ctypes.c_uint64(budget), answers, ctypes.c_size_t(len(answers))
        )
        return number, answers[0], answers[1]


def _budget(steps: int) -> int:
    """A count of steps; one that does not fit 64 bits is above every bound as well."""
    return min(_count(steps), _MOST_COUNT)


def _count(given: int) -> int:
    whole = operator.index(given)
    if whole < 0:
        raise ValueError(f"{whole} is below 0")
    return whole
