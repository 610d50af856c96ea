"""Machines: document 01's cases, runs and their steps, what may be set, and misuse."""

import copy
import unittest

import yam

from .cases import FULL, ROOT, SIX, SIX_CONFIG, SIX_REGISTERS, SIX_WORDS
from .cases import image_of, number_of, state_of

TOTAL = yam.Image.assemble(
    yam.Image.load((ROOT / "examples" / "blank.img").read_bytes()).config,
    (ROOT / "examples" / "total.s").read_bytes(),
)
# A port read of three cycles, a port write of two, again and again.
PORTS = image_of(FULL, 0xB1010000, 0xB8000001, 0xC0000000)


class Cases(unittest.TestCase):
    """Document 01's cases, each as one step on registers 0 and 1."""

    def stepped(self, word, first, second=0, **generics):
        config = yam.Config(**{"im_size": 1, "alu_level": 2, "alu_mult": 1, **generics})
        machine = yam.Machine(yam.Image(config, [word]), registers=[first, second] + [0] * 30)
        machine.step()
        return machine

    def test_arithmetic(self):
        for name, word, first, second, result, z, n in (
            ("ADD", 0x40000001, 0xFFFFFFFF, 1, 0, 1, 1),
            ("SUB", 0x30000001, 0, 1, 0xFFFFFFFF, 0, 1),
            ("SUBS", 0x38000001, 0x80000000, 1, 0x7FFFFFFF, 0, 1),
            ("SUB, the same", 0x30000001, 0x80000000, 1, 0x7FFFFFFF, 0, 0),
            ("SHR #1", 0x81000001, 1, 0, 0, 0, 0),
            ("SHL #1", 0x83000001, 1, 0, 2, 1, 0),
            ("CLZ", 0x91800001, 0, 0x0000FFFF, 16, 1, 0),
            ("CLZ, 15", 0x91800001, 0, 0x00010000, 15, 0, 0),
            ("ABS", 0x90800001, 0, 0x80000000, 0x80000000, 0, 1),
        ):
            machine = self.stepped(word, first, second)
            found = machine.registers[0], machine.z, machine.n
            self.assertEqual(found, (result, z, n), name)

    def test_multiply(self):
        machine = self.stepped(0x70000001, 0xC8, 0xC8, reg_width=8, alu_level=0)
        self.assertEqual((machine.registers[0], machine.spr7), (0x40, 0x9C))

    def test_movx_at_the_last_address(self):
        for address, number in ((0x20, 13), (0x1F, 0)):
            machine = yam.Machine(image_of(FULL, 0x98001800))
            machine.loaded = 1
            machine.registers[0] = address
            self.assertEqual(number_of(machine.step), number)


class Runs(unittest.TestCase):
    def test_six_words(self):
        machine = yam.Machine(SIX, registers=SIX_REGISTERS)
        self.assertEqual(machine.run(11), (11, 22))
        self.assertEqual(machine.memory[16:19], [7, 8, 9])
        self.assertEqual((machine.pc, machine.rx, machine.registers[6]), (5, 5, 19))
        self.assertEqual(machine.run(), yam.Ran(steps=1000, cycles=2000))

    def test_a_run_is_its_steps(self):
        def made(image):
            return yam.Machine(image, inputs=range(50), log_places=50)

        for image in (PORTS, SIX, TOTAL):
            for steps in range(50):
                ran, stepped, traced = made(image), made(image), made(image)
                answer = ran.run(steps)
                cycles = sum(stepped.step() for _ in range(steps))
                last = [(step.step, step.cycles) for step in traced.trace(steps)][-1:]
                self.assertEqual(answer, (steps, cycles))
                self.assertEqual(last, [(steps, cycles)] if steps else [])
                self.assertEqual(state_of(ran), state_of(stepped))
                self.assertEqual(state_of(ran), state_of(traced))
        self.assertEqual((ran.pc, ran.registers[6]), (6, 6))
        self.assertEqual(ran.memory[16:19], [3, 2, 1])

    def test_a_stopped_run_keeps_its_steps(self):
        machine = yam.Machine(image_of(SIX_CONFIG, SIX_WORDS[0], 0, 0xF0000000))
        with self.assertRaises(yam.Refused) as caught:
            machine.run(9)
        refused = caught.exception
        self.assertEqual((refused.number, refused.steps, refused.cycles), (11, 2, 4))
        self.assertEqual((machine.pc, machine.registers[6]), (2, 16))
        with self.assertRaises(yam.Refused) as caught:
            machine.step()
        refused = caught.exception
        self.assertEqual((refused.number, refused.steps, refused.cycles), (11, None, None))

    def test_copies_and_reset(self):
        machine = yam.Machine(SIX, registers=SIX_REGISTERS)
        machine.run(5)
        for twin in (machine.copy(), copy.copy(machine), copy.deepcopy(machine)):
            self.assertEqual(state_of(twin), state_of(machine))
            twin.run(6)
            self.assertEqual((twin.pc, machine.pc, machine.memory[17]), (5, 2, 0))
        cells = list(machine.registers)
        machine.reset()
        record, registers, memory, _ = state_of(machine)
        self.assertEqual(record, state_of(yam.Machine(SIX))[0])
        self.assertEqual((registers, memory[16]), (cells, 7))


class Records(unittest.TestCase):
    def test_reset(self):
        record, registers, memory, log = state_of(yam.Machine(SIX))
        self.assertEqual((record.pop("imask"), record.pop("saved")), (15, 15))
        self.assertEqual(record.pop("stack"), ())
        self.assertEqual(set(record.values()), {0})
        self.assertEqual((registers, memory, log), ([0] * 16, [0] * 32, []))

    def test_each_field_is_its_own_word(self):
        machine = yam.Machine(SIX)
        names = "pc wp rx ry n z spr7 depth imask saved mode posted port taken logged".split()
        for value, name in enumerate(names, 20):
            setattr(machine, name, value)
        machine.loaded = 1
        places = [0, 1, 2, 3, 4, 5, 6, 7, 8, 9, 10, 11, 12, 13, 15]
        self.assertEqual([machine._record[at] for at in places], list(range(20, 35)))
        self.assertEqual((machine._record[80], machine._record[14], machine._record[16]), (1, 0, 0))
        for value, name in enumerate(names, 20):
            self.assertEqual(getattr(machine, name), value)
        machine.taken, machine.logged = (1 << 40) + 5, (1 << 64) - 1
        self.assertEqual((machine.taken, machine._record[14]), ((1 << 40) + 5, 1 << 8))
        self.assertEqual((machine.logged, len(machine.log)), ((1 << 64) - 1, 256))
        self.assertEqual(number_of(machine.step), 3)

    def test_stack(self):
        machine = yam.Machine(image_of(SIX_CONFIG, 0xF0000000, 0xF0000000, 0))
        machine.stack = [2, 1]
        self.assertEqual((machine.stack, machine.depth), ((2, 1), 2))
        machine.run(2)
        self.assertEqual((machine.stack, machine.depth, machine.pc), ((), 0, 2))
        machine.stack = range(63)
        self.assertEqual((machine.depth, machine.loaded), (63, 0))
        machine.depth = 1 << 31
        self.assertEqual(len(machine.stack), 63)
        with self.assertRaises(ValueError):
            machine.stack = range(64)
        with self.assertRaises(TypeError):
            machine.stack = None

    def test_cells(self):
        machine = yam.Machine(SIX)
        machine.registers[2:5] = [7, 8, 9]
        machine.memory[-1] = 0xFFFFFFFF
        self.assertEqual(machine.registers[:6], [0, 0, 7, 8, 9, 0])
        self.assertEqual((machine.memory[31], len(machine.memory)), (0xFFFFFFFF, 32))
        self.assertEqual(machine.registers, SIX_REGISTERS)
        self.assertIn(9, machine.registers)
        narrow = yam.Machine(yam.Image(yam.Config(im_size=1, reg_width=8), [0]))
        for cells, most in ((narrow.registers, 255), (machine.memory, 0xFFFFFFFF)):
            cells[0] = most
            for wrong, error in ((most + 1, ValueError), (-1, ValueError), ("1", TypeError)):
                with self.assertRaises(error):
                    cells[0] = wrong
                with self.assertRaises(error):
                    cells[0:2] = [0, wrong]
            self.assertEqual(cells[:2], [most, 0])
            for wrong in ([1], [1, 2, 3], []):
                with self.assertRaises(ValueError):
                    cells[0:2] = wrong
            with self.assertRaises(TypeError):
                cells[0:2] = 1
            with self.assertRaises(TypeError):
                cells["0"] = 1
            with self.assertRaises(IndexError):
                cells[1 << 40] = 1


class Misuse(unittest.TestCase):
    def test_lists(self):
        for name in ("inputs", "registers", "memory"):
            for wrong, error in (
                ([1 << 32] * 16, ValueError),
                ([-1] * 16, ValueError),
                (["0"] * 16, TypeError),
                ([0.5] * 16, TypeError),
                (16, TypeError),
                (object(), TypeError),
            ):
                with self.assertRaises(error):
                    yam.Machine(SIX, **{name: wrong})
        for wrong, error in ((-1, ValueError), (1 << 32, ValueError), ("2", TypeError)):
            with self.assertRaises(error):
                yam.Machine(SIX, log_places=wrong)

    def test_lists_are_the_machine_s_own(self):
        registers = list(SIX_REGISTERS)
        machine = yam.Machine(SIX, registers=registers, memory=range(32))
        registers[2] = 99
        self.assertEqual((machine.registers[2], machine.memory[5]), (7, 5))
        self.assertEqual(machine.inputs, ())
        self.assertEqual((machine.image, machine.config), (SIX, SIX_CONFIG))

    def test_steps(self):
        machine = yam.Machine(SIX)
        for wrong, error in ((-1, ValueError), (1.0, TypeError), ("1", TypeError)):
            for call in (machine.run, machine.trace):
                with self.assertRaises(error):
                    call(wrong)
        for name in ("pc", "taken", "loaded"):
            for wrong, error in ((-1, ValueError), (1 << 64, ValueError), ("1", TypeError)):
                with self.assertRaises(error):
                    setattr(machine, name, wrong)
        with self.assertRaises(AttributeError):
            machine.log = []
        self.assertEqual(state_of(machine), state_of(yam.Machine(SIX)))


class RecordValues(unittest.TestCase):
    """The record as a value."""

    def test_record(self):
        machine = yam.Machine(SIX)
        reset = machine.record
        machine.run(11)
        ran = yam.Record(5, 0, 5, 4, 0, 1, 0, 15, 15, 0, 0, 0, 1, 0, 0, ())
        self.assertEqual((reset.pc, reset.imask, reset.loaded), (0, 15, 0))
        self.assertEqual(machine.record, ran)
        with self.assertRaises(AttributeError):
            ran.pc = 0

    def test_stack(self):
        machine = yam.Machine(image_of(FULL, 0xF0800001, 0xC0000001))
        machine.step()
        self.assertEqual((machine.record.pc, machine.record.stack), (1, (1,)))
