"""Traces, against lines that were written by hand from docs/commands.md and document 01."""

import unittest

import yam

from .cases import FULL, SIX, SIX_REGISTERS, image_of

SIX_LINES = """1 2 000000 a2860010 MOV %06,#0010 ; %06=00000010
2 4 000001 9c041402 LDYX %04,%02 ; RX=02 RY=04 loaded=1
3 6 000002 98061800 MOVX @%06,@%X+,S ; RX=03 &0010=00000007
4 8 000003 46860001 ADD %06,#0001 ; %06=00000011
5 10 000004 c1000002 JMP 000002,NZ ;
6 12 000002 98061800 MOVX @%06,@%X+,S ; RX=04 &0011=00000008
7 14 000003 46860001 ADD %06,#0001 ; %06=00000012
8 16 000004 c1000002 JMP 000002,NZ ;
9 18 000002 98061800 MOVX @%06,@%X+,S ; RX=05 Z=1 &0012=00000009
10 20 000003 46860001 ADD %06,#0001 ; %06=00000013
11 22 000004 c1000002 JMP 000002,NZ ;
12 24 000005 c0000005 JMP 000005 ;
"""

# W = 16: ports, a posted write, the log, and data memory that takes a third cycle.
PORTS = yam.Config(reg_width=16, reg_size=8, rm_size=8, dm_pipe=1, iop_if=1, iop_rmw=1)
PORT_WORDS = [
    0xA2810004,
    0xB1020001,
    0xB8010002,
    0xB1038001,
    0xA8010003,
    0xA1040001,
    0xA1040001,
    0xB1050001,
]
PORT_INPUTS = [0x12345, 0x0021]
PORT_LINES = """1 2 000000 a2810004 MOV %01,#0004 ; %01=0004
2 5 000001 b1020001 MOVIO %02,@%01 ; taken=1 %02=2345
3 7 000002 b8010002 MOVIO @%01,%02 ; posted=1 port=0004 logged=1 log=0004:2345
4 10 000003 b1038001 IORMW %03,@%01 ; taken=2 logged=2 %03=0021 log=0004:8021
5 12 000004 a8010003 MOV @%01,%03 ; posted=0 port=0000 &0004=0021
6 15 000005 a1040001 MOV %04,@%01 ; %04=0021
7 18 000006 a1040001 MOV %04,@%01 ;
"""

# W = 8: a call, a product, special-register mode and the masks.
MODES = yam.Config(reg_width=8, reg_size=8, rm_size=8, dm_size=0, alu_mult=1, alu_spr=1)
MODE_WORDS = [
    0xF0800003,
    0xF0000000,
    0,
    0xA28100C8,
    0x70010001,
    0xF0050000,
    0xA0020007,
    0xF0040000,
    0xF0000000,
]
MODE_LINES = """1 2 000000 f0800003 JSR 000003 ; depth=1 stack=000001
2 4 000003 a28100c8 MOV %01,#00c8 ; %01=c8
3 6 000004 70010001 MUL %01,%01,S ; SPR7=9c %01=40
4 8 000005 f0050000 SPR_ON ; IMask=f saved=5 mode=1
5 10 000006 a0020007 MOV %02,%07 ; %02=9c
6 12 000007 f0040000 SPR_OFF ; IMask=5 mode=0
7 14 000008 f0000000 RET ; depth=0
"""

# Banks, from address 11 hex on: document 01's JSRWP case behind a SUB that borrows.
BANK_WORDS = {0x11: 0x32810001, 0x12: 0xF1020040, 0x40: 0xF0010000}
BANK_LINES = """1 2 000011 32810001 SUB %01,#0001,S ; N=1 %001=ffffffff
2 4 000012 f1020040 JSRWP 0040,020 ; WP=020 %020=002f0013
3 6 000040 f0010000 RETWP ; WP=000
4 8 000013 00000000 TST %00,%00,S ; Z=1
"""


class Traces(unittest.TestCase):
    maxDiff = None

    def lines(self, machine, steps=yam.machine.STEPS):
        """The lines of a trace, and the refusal that ended it."""
        text = ""
        try:
            for step in machine.trace(steps):
                text += f"{step}\n"
        except yam.Refused as refused:
            return text, (refused.number, refused.steps, refused.cycles)
        return text, None

    def test_six_words(self):
        machine = yam.Machine(SIX, registers=SIX_REGISTERS)
        self.assertEqual(self.lines(machine, 12), (SIX_LINES, None))

    def test_ports(self):
        machine = yam.Machine(image_of(PORTS, *PORT_WORDS), inputs=PORT_INPUTS)
        self.assertEqual(self.lines(machine), (PORT_LINES, (14, 7, 18)))
        self.assertEqual(machine.log, [(4, 0x2345), (4, 0x8021)])

    def test_modes(self):
        machine = yam.Machine(image_of(MODES, *MODE_WORDS))
        machine.imask = 5
        self.assertEqual(self.lines(machine), (MODE_LINES, (11, 7, 14)))

    def test_banks(self):
        machine = yam.Machine(image_of(FULL, *(BANK_WORDS.get(at, 0) for at in range(0x41))))
        machine.pc = 0x11
        self.assertEqual(self.lines(machine, 4), (BANK_LINES, None))

    def test_fields(self):
        _, second, third = yam.Machine(SIX, registers=SIX_REGISTERS).trace(3)
        self.assertEqual((second.step, second.cycles, second.address), (2, 4, 1))
        self.assertEqual((second.word, second.text), (0x9C041402, "LDYX %04,%02"))
        self.assertEqual(second.changes, {"RX": 2, "RY": 4, "loaded": 1})
        self.assertEqual(third.changes, {"RX": 3, "&0010": 7})
        machine = yam.Machine(image_of(PORTS, *PORT_WORDS), inputs=PORT_INPUTS)
        written = list(machine.trace(3))[2]
        self.assertEqual(written.changes["log"], (4, 0x2345))

    def test_one_step_at_a_time(self):
        machine = yam.Machine(SIX)
        trace = machine.trace(3)
        self.assertEqual(machine.pc, 0)
        next(trace)
        self.assertEqual((machine.pc, machine.registers[6]), (1, 16))
        # What is set between two steps is no change of the next one.
        machine.registers[9] = 5
        self.assertEqual(next(trace).changes, {"RX": 2, "RY": 4, "loaded": 1})
        next(trace)
        self.assertIsNone(next(trace, None))

    def test_every_data_cell(self):
        config = yam.Config(im_size=1, alu_level=2, dm_size=32768)
        machine = yam.Machine(yam.Image(config, [0xA8000001]), registers=[0, 7] + [0] * 30)
        for place in (0, 1, 2, 16383, 16384, 32766, 32767):
            machine.pc = 0
            machine.registers[0] = place
            (step,) = machine.trace(1)
            self.assertEqual(step.changes, {f"&{place:04x}": 7})

    def test_cells_rise(self):
        before = yam.raw.words(37)
        now = yam.raw.words([at in (0, 5, 17, 18, 36) for at in range(37)])
        found = yam.steps._differing(bytes(before), bytes(now))
        self.assertEqual(found, [0, 5, 17, 18, 36])

    def test_budget(self):
        machine = yam.Machine(SIX)
        self.assertEqual(list(machine.trace(0)), [])
        for steps in (1_000_001, 1 << 64, 10**40):
            with self.assertRaises(yam.Refused) as caught:
                machine.trace(steps)
            self.assertEqual(caught.exception.number, 16)
        self.assertEqual(machine.pc, 0)
        machine.rx = 1
        for steps in (0, 1, 1_000_001):
            with self.assertRaises(yam.Refused) as caught:
                machine.trace(steps)
            self.assertEqual(caught.exception.number, 3)
