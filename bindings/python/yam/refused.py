"""The exception of the package."""

from __future__ import annotations

from typing import Optional

from .refusals import Refusal, meaning


class Refused(Exception):
    """A call was refused, or a step or a run was stopped.

    number     the documents' number (docs/refusals.md)
    refusal    the same by its name; None for a number that this version does not know
    meaning    what it means, in words
    address    beside 17: the first address that breaks a rule of the certificate, else None
    rule       beside 17: the lowest rule that it breaks, else None
    line       the line of a source that 24, 25, 26, 6 or 7 is about, counted from 1, else None
    steps      of a run or a trace: the steps that were done before, else None
    cycles     of a run or a trace: their cycles, else None
    """

    def __init__(
        self,
        number: int,
        *,
        address: Optional[int] = None,
        rule: Optional[int] = None,
        line: Optional[int] = None,
        steps: Optional[int] = None,
        cycles: Optional[int] = None,
    ) -> None:
        super().__init__(int(number))
        self.number = int(number)
        self.refusal: Optional[Refusal] = _named(number)
        self.meaning: str = meaning(number)
        self.address = address
        self.rule = rule
        self.line = line
        self.steps = steps
        self.cycles = cycles

    @property
    def place(self) -> str:
        """Where, in words; empty for a refusal without a place."""
        if self.address is not None:
            return f"address {self.address:06x} rule {self.rule}"
        if self.line is not None:
            return f"line {self.line}"
        if self.steps is not None:
            return f"after {self.steps} steps, {self.cycles} cycles"
        return ""

    def __str__(self) -> str:
        place = self.place
        return f"refused {self.number}{' ' if place else ''}{place}: {self.meaning}"


def _named(number: int) -> Optional[Refusal]:
    try:
        return Refusal(number)
    except ValueError:
        return None
