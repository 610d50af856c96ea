"""Instructions: words read, written and printed."""

from __future__ import annotations

from dataclasses import dataclass, fields

from . import raw
from .config import Config, config_list
from .refused import Refused
from .rows import Row

TEXT_BYTES = 20  # document 01: no text of an instruction is longer


@dataclass(frozen=True)
class Instruction:
    """An instruction by its parts, which are named by their place in the word.

    row          what it is: a Row
    flag         bit 26 of an ALU word as it stands: 0 updates the flags
    destination  what stands in bits 22-16
    source       what stands in bits 6-0
    number       the byte number of BST, BLD and BLDS
    value        what stands in bits 15-0 (immediate, count, address) or 22-0 (target)

    A part that the row does not use is 0. A part that is no whole number is a TypeError, one that
    does not fit 32 bits a ValueError; what the row does not allow is refused by `write`.
    """

    row: int
    flag: int = 0
    destination: int = 0
    source: int = 0
    number: int = 0
    value: int = 0

    def __post_init__(self) -> None:
        for field in fields(self):
            given = getattr(self, field.name)
            try:
                whole = raw.fitting(given, raw.WORD_BITS)
            except (TypeError, ValueError) as error:
                raise type(error)(f"{field.name}: {error}") from None
            if not isinstance(given, int):  # a Row stays one
                object.__setattr__(self, field.name, whole)

    @classmethod
    def read(cls, config: Config, word: int) -> Instruction:
        """The instruction of a word.

        Refused by 1 (UNLAWFUL_CONFIG), 5 (NO_ROW), 6 (OPTION_OFF) and 7 (BEYOND_LIMIT).
        """
        number, parts = raw.read(config_list(config), word)
        if number:
            raise Refused(number)
        return cls(Row(parts[0]), *parts[1:])

    def write(self, config: Config) -> int:
        """The word of the instruction.

        Refused by 1 (UNLAWFUL_CONFIG), 5 (NO_ROW), 6 (OPTION_OFF) and 7 (BEYOND_LIMIT).
        """
        parts = [getattr(self, field.name) for field in fields(self)]
        number, word = raw.write(config_list(config), parts)
        if number:
            raise Refused(number)
        return word

    def text(self, config: Config) -> str:
        """The text of the instruction, as a listing has it. Refused as `write` is."""
        return text(config, self.write(config))


def text(config: Config, word: int) -> str:
    """The text of a word, as a listing has it.

    Refused by 1 (UNLAWFUL_CONFIG), 5 (NO_ROW), 6 (OPTION_OFF) and 7 (BEYOND_LIMIT).
    """
    page = raw.octets(TEXT_BYTES)
    number, place = raw.text(config_list(config), word, page, 0)
    if number:
        raise Refused(number)
    return bytes(page[:place]).decode("ascii")
