"""The configuration of a core."""

from __future__ import annotations

import ctypes
from dataclasses import dataclass, fields
from typing import Iterable, Tuple

from . import raw
from .refusals import Refusal
from .refused import Refused

_MADE = "_made"  # the attribute that holds the library's list of a configuration


@dataclass(frozen=True)
class Config:
    """The manual's generics, by their names in small letters; the defaults are its own (2.2).

    Any 32-bit numbers are taken: a configuration that breaks document 01's rules is refused by 1
    (UNLAWFUL_CONFIG) where it is used. A value that is no whole number is a TypeError, one that
    does not fit 32 bits a ValueError.
    """

    im_size: int = 2048
    reg_width: int = 32
    reg_size: int = 32
    rm_size: int = 32
    pc_stack: int = 16
    dm_size: int = 32
    dm_pipe: int = 0
    alu_level: int = 0
    alu_mult: int = 0
    alu_spr: int = 0
    iop_if: int = 0
    iop_rmw: int = 0
    yam_clk: int = 0
    yam_sreg3: int = 0
    alu_3op: int = 0
    irq_if: int = 0
    copm_size: int = 0
    im_width: int = 32
    yam_dbg: int = 0

    def __post_init__(self) -> None:
        for field in fields(self):
            try:
                whole = raw.fitting(getattr(self, field.name), raw.WORD_BITS)
            except (TypeError, ValueError) as error:
                raise type(error)(f"{field.name}: {error}") from None
            object.__setattr__(self, field.name, whole)
        object.__setattr__(self, _MADE, raw.words(self.words))

    @classmethod
    def of(cls, words: Iterable[int]) -> Config:
        """The configuration of the header's 19 words, in their order.

        Refused by 1 for another count of words.
        """
        given = tuple(words)
        if len(given) != raw.CONFIG_WORDS:
            raise Refused(Refusal.UNLAWFUL_CONFIG)
        return cls(*given)

    @property
    def words(self) -> Tuple[int, ...]:
        """The header's 19 words: the fields in their order."""
        return tuple(getattr(self, field.name) for field in fields(self))

    @property
    def lawful(self) -> bool:
        """Whether document 01's rules for configurations hold."""
        return raw.read(config_list(self), 0)[0] != Refusal.UNLAWFUL_CONFIG


def config_list(config: Config) -> "ctypes.Array[ctypes.c_uint32]":
    """The library's list of a configuration, which calls only read; a TypeError for no Config."""
    if not isinstance(config, Config):
        raise TypeError(f"a Config is wanted, not {type(config).__name__}")
    made: "ctypes.Array[ctypes.c_uint32]" = config.__dict__[_MADE]
    return made


def must_be_lawful(config: Config) -> None:
    """Refuses an unlawful configuration by 1, before lists are made by its sizes."""
    config_list(config)
    if not config.lawful:
        raise Refused(Refusal.UNLAWFUL_CONFIG)
