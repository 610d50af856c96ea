"""What several tests work on: document 01's six words, and a configuration with every option."""

import dataclasses
import pathlib

import yam

ROOT = pathlib.Path(__file__).resolve().parents[3]
SIX_FILE = (ROOT / "examples" / "six_words.img").read_bytes()
SIX_WORDS = [0xA2860010, 0x9C041402, 0x98061800, 0x46860001, 0xC1000002, 0xC0000005]
SIX_CONFIG = yam.Config(im_size=6, reg_size=16, rm_size=16, alu_level=2)
SIX = yam.Image(SIX_CONFIG, SIX_WORDS)
SIX_LISTED = """000000 a2860010 MOV %06,#0010
000001 9c041402 LDYX %04,%02
000002 98061800 MOVX @%06,@%X+,S
000003 46860001 ADD %06,#0001
000004 c1000002 JMP 000002,NZ
000005 c0000005 JMP 000005
"""
SIX_SOURCE = """MOV %06,#0010
LDYX %04,%02
loop:
MOVX @%06,@%X+,S
ADD %06,#0001
JMP loop,NZ

halt: JMP halt
"""
SIX_REGISTERS = [0, 0, 7, 8, 9] + [0] * 11

# docs/refusals.md's configuration: banks and every option, a return stack of one address.
FULL = yam.Config(
    im_size=1,
    reg_size=16,
    rm_size=64,
    pc_stack=1,
    alu_level=2,
    alu_mult=1,
    alu_spr=1,
    iop_if=1,
    iop_rmw=1,
)


def image_of(config, *words):
    """An image of these words; IM_SIZE is their count."""
    return yam.Image(dataclasses.replace(config, im_size=len(words)), words)


def state_of(machine):
    """All that a machine holds."""
    names = "pc wp rx ry n z spr7 depth imask saved mode posted port taken logged loaded stack"
    record = {name: getattr(machine, name) for name in names.split()}
    return record, list(machine.registers), list(machine.memory), machine.log


def number_of(call, *arguments, **named):
    """The number that a call is refused by, 0 where it passes."""
    try:
        call(*arguments, **named)
    except yam.Refused as refused:
        return refused.number
    return 0
