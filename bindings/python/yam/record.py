"""The machine record as a value."""

from __future__ import annotations

from dataclasses import dataclass
from typing import Tuple


@dataclass(frozen=True)
class Record:
    """The machine record by the manual's names, as it stood when a machine was asked for it.

    saved   the mask that SPR_ON saved        mode    1 in special-register mode
    posted  1 straight after a port write     port    the address of that port write
    loaded  1 once an LDYX has run            taken   how many inputs were taken
    logged  how many places of the log are filled
    stack   the addresses of the return stack, the oldest first
    """

    pc: int
    wp: int
    rx: int
    ry: int
    n: int
    z: int
    spr7: int
    imask: int
    saved: int
    mode: int
    posted: int
    port: int
    loaded: int
    taken: int
    logged: int
    stack: Tuple[int, ...]
