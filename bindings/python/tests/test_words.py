"""Configurations, instructions, images, listings, certificates and sources."""

import copy
import dataclasses
import re
import unittest

import yam

from .cases import FULL, ROOT, SIX, SIX_CONFIG, SIX_FILE, SIX_LISTED, SIX_SOURCE, SIX_WORDS
from .cases import image_of, number_of


class Configs(unittest.TestCase):
    def test_defaults(self):
        words = (2048, 32, 32, 32, 16, 32) + (0,) * 11 + (32, 0)
        self.assertEqual(yam.Config().words, words)
        self.assertEqual(yam.Config.of(words), yam.Config())
        self.assertTrue(yam.Config().lawful)

    def test_names(self):
        names = [field.name.upper() for field in dataclasses.fields(yam.Config)]
        page = (ROOT / "docs" / "commands.md").read_text(encoding="utf-8")
        listed = re.search(r"in this order: (IM_SIZE.*YAM_DBG)\.", page, re.DOTALL)
        self.assertEqual(names, re.split(r",\s+", listed.group(1)))

    def test_unlawful(self):
        for wrong in (
            {"im_size": 0},
            {"im_size": 32769},
            {"reg_width": 24},
            {"rm_size": 64, "reg_width": 16},
            {"alu_level": 1, "reg_width": 8},
            {"iop_rmw": 1},
            {"alu_3op": 1},
            {"im_width": 31},
            {"dm_size": (1 << 32) - 1},
        ):
            config = yam.Config(**wrong)
            self.assertFalse(config.lawful)
            image = yam.Image(config, [])
            for call, *arguments in (
                (yam.Instruction.read, config, 0),
                (yam.Instruction(0).write, config),
                (yam.Instruction(0).text, config),
                (yam.text, config, 0),
                (image.store,),
                (yam.listing, image),
                (yam.check, image, b""),
                (yam.assemble, config, ""),
                (yam.Image.assemble, config, ""),
                (yam.Machine, image),
            ):
                self.assertEqual(number_of(call, *arguments), 1, (call, wrong))
        self.assertEqual(number_of(yam.Config.of, [0] * 18), 1)

    def test_misuse(self):
        for wrong, error in ((1 << 32, ValueError), (-1, ValueError), ("6", TypeError)):
            with self.assertRaisesRegex(error, "^pc_stack: "):
                yam.Config(pc_stack=wrong)
        with self.assertRaises(dataclasses.FrozenInstanceError):
            SIX_CONFIG.im_size = 7

    def test_copies(self):
        for made in (copy.copy(SIX), copy.deepcopy(SIX), dataclasses.replace(SIX)):
            self.assertEqual((made, yam.listing(made)), (SIX, SIX_LISTED))
        again = yam.Config(**dataclasses.asdict(SIX_CONFIG))
        self.assertEqual((again, hash(again)), (SIX_CONFIG, hash(SIX_CONFIG)))


class Instructions(unittest.TestCase):
    def test_parts(self):
        read = yam.Instruction.read(SIX_CONFIG, 0x46860001)
        add = yam.Instruction(yam.Row.ADD_SIGNED, flag=1, destination=6, value=1)
        self.assertEqual((read, read.row.name), (add, "ADD_SIGNED"))
        self.assertEqual(add.write(SIX_CONFIG), 0x46860001)
        self.assertEqual(add.text(SIX_CONFIG), "ADD %06,#0001")
        load = yam.Instruction(yam.Row.BLDS, destination=1, source=2, number=3)
        self.assertEqual(load.text(SIX_CONFIG), "BLDS3 %01,%02,S")

    def test_read_then_write(self):
        for word, line in zip(SIX_WORDS, SIX_LISTED.splitlines()):
            read = yam.Instruction.read(SIX_CONFIG, word)
            self.assertEqual(read.write(SIX_CONFIG), word)
            self.assertEqual((read.text(SIX_CONFIG), yam.text(SIX_CONFIG, word)), (line[16:],) * 2)

    def test_refusals(self):
        for number, word in ((5, 0x58000000), (6, 0x70000000), (7, 0x00000080), (7, 0xC0000006)):
            self.assertEqual(number_of(yam.Instruction.read, SIX_CONFIG, word), number)
            self.assertEqual(number_of(yam.text, SIX_CONFIG, word), number)
        for number, parts in ((5, (131,)), (6, (yam.Row.MUL_REGISTER,)), (7, (0, 0, 16))):
            self.assertEqual(number_of(yam.Instruction(*parts).write, SIX_CONFIG), number)
            self.assertEqual(number_of(yam.Instruction(*parts).text, SIX_CONFIG), number)

    def test_misuse(self):
        for wrong, error in ((1 << 32, ValueError), (-1, ValueError), (None, TypeError)):
            with self.assertRaisesRegex(error, "^value: "):
                yam.Instruction(0, value=wrong)
            with self.assertRaises(error):
                yam.Instruction.read(SIX_CONFIG, wrong)
        for wrong in (None, SIX_CONFIG.words, SIX):
            with self.assertRaises(TypeError):
                yam.Instruction.read(wrong, 0)

    def test_rows_are_the_header_s(self):
        header = (ROOT / "include" / "yam_rows.h").read_text(encoding="utf-8")
        listed = re.findall(r"#define YAM_ROW_(\w+) (\d+)", header)
        rows = [(row.name, str(row.value)) for row in yam.Row]
        self.assertEqual(rows + [("COUNT", str(len(rows)))], listed)


class Images(unittest.TestCase):
    def test_load_then_store(self):
        for file in (SIX_FILE, bytearray(SIX_FILE), memoryview(SIX_FILE)):
            image = yam.Image.load(file)
            self.assertEqual((image, image.store()), (SIX, SIX_FILE))

    def test_sizes(self):
        for size in (1, 126, 127, 8192, 8193, 32768):
            image = yam.Image(yam.Config(im_size=size), range(size))
            file = image.store()
            self.assertEqual(len(file), 512 * (1 + (size + 125) // 126))
            self.assertEqual(yam.Image.load(file), image)

    def test_refused_files(self):
        damaged = {
            19: b"",
            20: b"\1" + SIX_FILE[1:],
            21: SIX_FILE[:4] + b"\7" + SIX_FILE[5:],
            22: repaired(15, 1),
            1: repaired(2, 24),
        }
        for number, file in damaged.items():
            self.assertEqual(number_of(yam.Image.load, file), number)
        self.assertEqual(number_of(yam.Image.load, SIX_FILE + bytes(512)), 19)

    def test_lengths(self):
        for words in (SIX_WORDS[:5], SIX_WORDS + [0], [], [0] * 32769):
            image = yam.Image(SIX_CONFIG, words)
            for call, *arguments in (
                (image.store,),
                (yam.listing, image),
                (yam.check, image, bytes(6)),
                (yam.Machine, image),
            ):
                self.assertEqual(number_of(call, *arguments), 2, call)

    def test_misuse(self):
        for wrong, error in (
            ([1 << 32], ValueError),
            ([-1], ValueError),
            (["0"], TypeError),
            (6, TypeError),
            (None, TypeError),
        ):
            with self.assertRaises(error):
                yam.Image(SIX_CONFIG, wrong)
        with self.assertRaises(TypeError):
            yam.Image(SIX_CONFIG.words, SIX_WORDS)
        for wrong in (None, "text", 512, [0] * 512):
            with self.assertRaises(TypeError):
                yam.Image.load(wrong)
        for call in (yam.listing, yam.Machine):
            with self.assertRaises(TypeError):
                call(SIX_WORDS)


def repaired(place, value):
    """The six words' file with a word of block 0 changed and its checksum made right."""
    block = [int.from_bytes(SIX_FILE[at : at + 4], "little") for at in range(0, 508, 4)]
    block[place] = value
    block.append((sum(block) + 512) % (1 << 32))
    return b"".join(word.to_bytes(4, "little") for word in block) + SIX_FILE[512:]


class Texts(unittest.TestCase):
    def test_listing(self):
        self.assertEqual(yam.listing(SIX), SIX_LISTED)
        longest = image_of(FULL, *[0x98061800] * 3)
        lines = [f"00000{at} 98061800 MOVX @%06,@%X+,S\n" for at in range(3)]
        self.assertEqual(yam.listing(longest), "".join(lines))
        unread = image_of(FULL, 0x58000000, 0xC0000006)
        self.assertEqual(yam.listing(unread), "000000 58000000 ?5\n000001 c0000006 ?7\n")

    def test_assemble(self):
        for source in (SIX_SOURCE, SIX_SOURCE.encode(), bytearray(SIX_SOURCE.encode())):
            for config in (SIX_CONFIG, SIX):
                self.assertEqual(yam.assemble(config, source), SIX_WORDS)
        self.assertEqual(yam.assemble(SIX_CONFIG, "\n\nRET\n"), [0xF0000000])
        self.assertEqual(yam.assemble(SIX_CONFIG, ""), [])
        self.assertEqual(yam.Image.assemble(SIX_CONFIG, SIX_SOURCE), SIX)
        one = yam.Image.assemble(SIX_CONFIG, "RET")
        self.assertEqual(one.words, (0xF0000000, 0, 0, 0, 0, 0))

    def test_refused_sources(self):
        for number, line, source in (
            (36, None, "RET\n" * 7),
            (36, None, "a:\n" * 1025),
            (24, 4, "RET\nloop:\nFOO\nloop: RET"),
            (26, 3, "RET\n\nRET "),
            (26, 2, "RET\n\u20ac"),
            (26, 1, "\ud800"),
            (25, 2, "RET\nloop: JMP lop"),
            (6, 2, "RET\nMUL %00,%01"),
            (7, 2, "RET\nJMP 000006"),
        ):
            with self.assertRaises(yam.Refused) as caught:
                yam.assemble(SIX_CONFIG, source)
            self.assertEqual((caught.exception.number, caught.exception.line), (number, line))

    def test_check(self):
        for certificate in (bytes(6), bytearray(6), memoryview(bytes(6)), [0] * 6):
            self.assertEqual(yam.check(SIX, certificate), 0)
        self.assertEqual(yam.check(SIX, [3] * 6), 3)
        # Rule 1: address 0 is unused. Rule 4: the successor of address 3 is.
        for certificate, address, rule in ((b"\xff" * 6, 0, 1), (b"\0\0\0\0\xff\0", 3, 4)):
            with self.assertRaises(yam.Refused) as caught:
                yam.check(SIX, certificate)
            refused = caught.exception
            found = refused.number, refused.address, refused.rule
            self.assertEqual(found, (17, address, rule))
        for certificate in (bytes(5), bytes(7), b""):
            self.assertEqual(number_of(yam.check, SIX, certificate), 2)

    def test_misuse(self):
        for wrong, error in (
            ([256] * 6, ValueError),
            ([-1] * 6, ValueError),
            ("000000", TypeError),
            (6, TypeError),
            (None, TypeError),
        ):
            with self.assertRaises(error):
                yam.check(SIX, wrong)
        for wrong in (None, 1, ["RET"]):
            with self.assertRaises(TypeError):
                yam.assemble(SIX_CONFIG, wrong)
        for wrong in (None, SIX_CONFIG.words):
            with self.assertRaises(TypeError):
                yam.assemble(wrong, "RET")
