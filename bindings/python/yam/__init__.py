"""The YAM core model in Python, over the proved library (include/yam.h).

    bindings/python/build           # makes target/python/libyam.so, which the package loads

    image = yam.Image.load(open("examples/six_words.img", "rb").read())
    print(yam.listing(image), end="")
    machine = yam.Machine(image)
    for step in machine.trace(11):
        print(step)
    print(machine.pc, machine.rx, machine.registers[6], machine.memory[16:19])

What the documents refuse is the exception Refused, with its number, meaning and place
(docs/refusals.md); what is no number, or does not fit, is a TypeError or a ValueError. A place
outside a memory is an IndexError, as of a list. `yam.raw` has the library's calls as they are.
"""

from . import raw
from .cells import Cells
from .config import Config
from .image import Image, assemble, check, listing
from .instruction import Instruction, text
from .machine import Machine, Ran
from .record import Record
from .refusals import Refusal
from .refused import Refused
from .rows import Row
from .steps import Step

__version__ = "1.0.0"
__all__ = [
    "Cells",
    "Config",
    "Image",
    "Instruction",
    "Machine",
    "Ran",
    "Record",
    "Refusal",
    "Refused",
    "Row",
    "Step",
    "assemble",
    "check",
    "listing",
    "raw",
    "text",
]
