"""Images: the words of a program with their configuration, their file, listing and check."""

from __future__ import annotations

import ctypes
from dataclasses import dataclass
from typing import Iterable, List, Tuple, Union

from . import raw
from .config import Config, config_list, must_be_lawful
from .instruction import TEXT_BYTES
from .refusals import Refusal
from .refused import Refused

BLOCK_BYTES, BLOCK_WORDS = 512, 126
MOST_WORDS = 32768  # IM_SIZE is no larger
LINE_BYTES = len("000000 00000000 \n") + TEXT_BYTES
_MADE = "_made"  # the attribute that holds the library's list of an image

Text = Union[str, bytes, bytearray, memoryview]
Bytes = Union[bytes, bytearray, memoryview]


@dataclass(frozen=True)
class Image:
    """A configuration and the words of the instruction memory, IM_SIZE of them.

    A word that is no whole number is a TypeError, one that does not fit 32 bits a ValueError.
    Another count of words is refused by 2 (WRONG_LENGTH) where the image is used.
    """

    config: Config
    words: Tuple[int, ...]

    def __post_init__(self) -> None:
        config_list(self.config)
        made = raw.words(listed(self.words))
        object.__setattr__(self, "words", tuple(made))
        object.__setattr__(self, _MADE, made)

    @classmethod
    def load(cls, file: Bytes) -> Image:
        """The image of an image file's bytes.

        Refused by 19 (FILE_LENGTH), 20 (BLOCK_NUMBER), 21 (BLOCK_CHECK), 22 (FILLING) and
        1 (UNLAWFUL_CONFIG).
        """
        octets = _bytes(file)
        words = raw.words(min(len(octets) // BLOCK_BYTES * BLOCK_WORDS, MOST_WORDS))
        number, generics = raw.load(octets, words)
        if number:
            raise Refused(number)
        config = Config.of(generics)
        return cls(config, tuple(words[: config.im_size]))

    def store(self) -> bytes:
        """The bytes of its image file.

        Refused by 1 (UNLAWFUL_CONFIG) and 2 (WRONG_LENGTH).
        """
        words = min(len(self.words), MOST_WORDS)  # of more, the length is refused
        blocks = 1 + (words + BLOCK_WORDS - 1) // BLOCK_WORDS
        file = raw.octets(BLOCK_BYTES * blocks)
        number = raw.store(config_list(self.config), image_list(self), file)
        if number:
            raise Refused(number)
        return bytes(file)

    @classmethod
    def assemble(cls, config: Config, text: Text) -> Image:
        """The image of a source text, zeros behind its words. Refused as `assemble` is."""
        words = assemble(config, text)
        return cls(config, tuple(words + [0] * (config.im_size - len(words))))


def image_list(image: Image) -> "ctypes.Array[ctypes.c_uint32]":
    """The library's list of an image's words, which calls only read; a TypeError for no Image."""
    if not isinstance(image, Image):
        raise TypeError(f"an Image is wanted, not {type(image).__name__}")
    made: "ctypes.Array[ctypes.c_uint32]" = image.__dict__[_MADE]
    return made


def listing(image: Image) -> str:
    """The listing of an image, as document 01 has it, a line for each word.

    Refused by 1 (UNLAWFUL_CONFIG) and 2 (WRONG_LENGTH).
    """
    words = image_list(image)
    page = raw.octets(min(len(words), MOST_WORDS) * LINE_BYTES)
    number, place, _ = raw.listing(config_list(image.config), words, 0, page, 0)
    if number:
        raise Refused(number)
    return bytes(page[:place]).decode("ascii")


def check(image: Image, certificate: Union[Bytes, Iterable[int]]) -> int:
    """Checks an image against its certificate (document 01's sheet), a byte for each address.

    Returns the level at address 0. Refused by 1 (UNLAWFUL_CONFIG), 2 (WRONG_LENGTH) and
    17 (RULE_BROKEN), which has its address and rule.
    """
    words = image_list(image)
    plain = bytes(certificate) if isinstance(certificate, memoryview) else certificate
    octets = raw.octets(listed(plain))
    number, first, rule = raw.check(config_list(image.config), words, octets)
    if number == Refusal.RULE_BROKEN:
        raise Refused(number, address=first, rule=rule)
    if number:
        raise Refused(number)
    return first


def assemble(config: Union[Config, Image], text: Text) -> List[int]:
    """The words of a source text (document 02, K1), at most IM_SIZE of them.

    The configuration may also be that of an image. Refused by 1 (UNLAWFUL_CONFIG) and
    36 (SOURCE_TOO_LONG); and, with their line, by 24 (LABEL_REPEATED), 26 (LINE_FORM),
    25 (LABEL_UNKNOWN), 6 (OPTION_OFF) and 7 (BEYOND_LIMIT).
    """
    generics = config.config if isinstance(config, Image) else config
    must_be_lawful(generics)
    # A character beyond ASCII is in no line's form, however it is encoded.
    source = text.encode("utf-8", "surrogatepass") if isinstance(text, str) else _bytes(text)
    words = raw.words(generics.im_size)
    number, count, line = raw.assemble(config_list(generics), source, words)
    if number:
        raise Refused(number, line=line or None)
    return words[:count]


def _bytes(given: Bytes) -> bytes:
    if not isinstance(given, (bytes, bytearray, memoryview)):
        raise TypeError(f"bytes are wanted, not {type(given).__name__}")
    return bytes(given)


def listed(given: Iterable[int]) -> Iterable[int]:
    """The numbers of a list, a TypeError for a single number, which `raw` takes as a length."""
    if isinstance(given, int):
        raise TypeError("a list of numbers is wanted, not a number")
    return given
