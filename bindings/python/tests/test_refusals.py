"""Every number of refusal that the package can meet, and the exception that carries it."""

import dataclasses
import random
import unittest

import yam
from yam.refusals import MEANINGS, Refusal

from .cases import FULL, SIX, SIX_CONFIG, SIX_FILE, image_of, number_of

PORT_READ, PORT_WRITE, CALL, RETURN, BANK_CALL = (
    0xB1000000,
    0xB8000000,
    0xF0800000,
    0xF0000000,
    0xF1040000,
)
TO_DATA, MOVX = 0xA8000000, 0x98001800
ROUNDS = 400


def machine_of(*words, log_places=0, **record):
    """A machine of docs/refusals.md's configuration with fields of its record set."""
    machine = yam.Machine(image_of(FULL, *words), log_places=log_places)
    for name, value in record.items():
        setattr(machine, name, value)
    return machine


def stopped():
    """A machine for each number that a step can be stopped by."""
    beyond = machine_of(TO_DATA)
    beyond.registers[0] = 32
    no_option = yam.Machine(image_of(dataclasses.replace(FULL, alu_mult=0), 0x70000000))
    return {
        3: machine_of(0, pc=1 << 23),
        4: machine_of(0, pc=1),
        5: machine_of(0x58000000),
        6: no_option,
        7: machine_of(0x00000080),
        8: machine_of(0, mode=1),
        9: machine_of(PORT_READ, posted=1, port=1),
        10: machine_of(CALL, stack=[0]),
        11: machine_of(RETURN),
        12: machine_of(BANK_CALL),
        13: beyond,
        14: machine_of(PORT_READ),
        15: machine_of(PORT_WRITE),
        27: machine_of(MOVX),
    }


class Numbers(unittest.TestCase):
    def test_steps(self):
        for number, machine in stopped().items():
            self.assertEqual(number_of(machine.step), number)
            self.assertEqual(number_of(machine.run, 1), number)
            self.assertEqual(number_of(lambda: list(machine.trace(1))), number)

    def test_a_stop_changes_nothing(self):
        for machine in stopped().values():
            lists = machine._record, machine._registers, machine._memory
            before = [list(values) for values in lists]
            number_of(machine.step)
            number_of(machine.run, 1)
            self.assertEqual([list(values) for values in lists], before)

    def test_machines(self):
        for number, named in (
            (2, {"registers": [0] * 15}),
            (2, {"registers": [0] * 17}),
            (2, {"memory": []}),
            (2, {"memory": [0] * 33}),
        ):
            self.assertEqual(number_of(yam.Machine, SIX, **named), number)
        narrow = yam.Image(yam.Config(im_size=1, reg_width=16), [0])
        self.assertEqual(number_of(yam.Machine, narrow, registers=[1 << 16] + [0] * 31), 3)
        self.assertEqual(number_of(yam.Machine, narrow, memory=[1 << 16] + [0] * 31), 3)
        self.assertEqual(number_of(yam.Machine, narrow, memory=[0xFFFF] * 32), 0)
        self.assertEqual(number_of(yam.Machine(SIX).run, 1_000_001), 16)
        self.assertEqual(number_of(yam.Machine(SIX).run, 1 << 64), 16)
        self.assertEqual(number_of(yam.Machine(SIX).run, 1_000_000), 0)

    def test_room(self):
        self.assertEqual(number_of(machine_of(PORT_WRITE, log_places=1).run, 1), 0)
        machine = yam.Machine(image_of(FULL, PORT_READ), inputs=[5])
        self.assertEqual((machine.step(), machine.registers[0]), (3, 5))


class Exceptions(unittest.TestCase):
    def test_words(self):
        for call, said in (
            (
                lambda: yam.Image.load(b""),
                "refused 19: " + MEANINGS[19],
            ),
            (
                lambda: yam.check(SIX, b"\0\0\0\0\xff\0"),
                "refused 17 address 000003 rule 4: " + MEANINGS[17],
            ),
            (
                lambda: yam.assemble(SIX_CONFIG, "RET\nFOO"),
                "refused 26 line 2: " + MEANINGS[26],
            ),
            (
                lambda: yam.Machine(image_of(FULL, 0, RETURN)).run(9),
                "refused 11 after 1 steps, 2 cycles: " + MEANINGS[11],
            ),
        ):
            with self.assertRaises(yam.Refused) as caught:
                call()
            self.assertEqual(str(caught.exception), said)

    def test_names(self):
        with self.assertRaises(yam.Refused) as caught:
            yam.Image.load(b"")
        refused = caught.exception
        self.assertIs(refused.refusal, Refusal.FILE_LENGTH)
        self.assertEqual((refused.number, refused.place), (19, ""))
        places = refused.address, refused.rule, refused.line, refused.steps, refused.cycles
        self.assertEqual(places, (None,) * 5)
        self.assertIsNone(yam.Refused(99).refusal)

    def test_every_number_has_a_meaning(self):
        self.assertEqual(sorted(MEANINGS), [*range(28), 36])
        self.assertEqual(sorted(Refusal), sorted(MEANINGS))
        self.assertTrue(all(MEANINGS.values()))


class Anything(unittest.TestCase):
    """Whatever is given, nothing but Refused comes of values that fit."""

    def setUp(self):
        self.random = random.Random(18)
        self.met = set()

    def tried(self, call, *arguments, **named):
        try:
            answer = call(*arguments, **named)
        except yam.Refused as refused:
            self.met.add(refused.number)
            return None
        self.met.add(0)
        return answer

    def test_files(self):
        for _ in range(ROUNDS):
            file = bytearray(SIX_FILE)
            for _ in range(self.random.randrange(3)):
                file[self.random.randrange(len(file))] = self.random.randrange(256)
            self.tried(yam.Image.load, file[: self.random.choice([512, 1000, 1024])])
        self.assertLessEqual({0, 19, 21}, self.met)

    def test_sources(self):
        letters = "RETJMPloopx:% ,#@&0123\n\n"
        for _ in range(ROUNDS):
            text = "".join(self.random.choices(letters, k=self.random.randrange(12)))
            self.tried(yam.assemble, SIX_CONFIG, text)
        self.assertLessEqual({0, 26}, self.met)

    def test_machines(self):
        values = [0, 1, 2, 8, 16, 32, 64, 1 << 31, (1 << 32) - 1]
        names = [field.name for field in dataclasses.fields(yam.Config)]
        for _ in range(ROUNDS):
            chosen = self.random.sample(names, self.random.randrange(3))
            config = dataclasses.replace(FULL, **{n: self.random.choice(values) for n in chosen})
            words = [self.random.getrandbits(32) & 0xFF870F0F for _ in range(8)]
            image = yam.Image(dataclasses.replace(config, im_size=len(words)), words)
            machine = self.tried(yam.Machine, image, inputs=[1, 2])
            self.tried(yam.listing, image)
            self.tried(yam.check, image, self.random.choices([0, 1, 64, 255], k=8))
            if machine is not None:
                machine.pc = self.random.randrange(9)
                machine.rx = self.random.choice([0, 0, 0, 1])
                self.tried(machine.run, 20)
                self.tried(lambda: [str(step) for step in machine.trace(20)])
        self.assertLessEqual({0, 1, 3, 4, 5, 6, 7, 17}, self.met)
