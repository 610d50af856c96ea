"""The raw calls: on the six words, their refusals, lists that overlap, null and empty lists."""

import ctypes
import unittest

from yam import raw

from .cases import SIX_CONFIG, SIX_FILE, SIX_LISTED, SIX_SOURCE, SIX_WORDS

CONFIG = list(SIX_CONFIG.words)
LISTED = SIX_LISTED.encode()


def fresh():
    """Machine, registers, memory and a log without room."""
    return raw.machine(), raw.words(16), raw.words(32), raw.words(0), raw.words(0)


class Calls(unittest.TestCase):
    def test_load_and_store(self):
        image, file = raw.words(6), raw.octets(1024)
        self.assertEqual(raw.load(SIX_FILE, image), (0, CONFIG))
        self.assertEqual(list(image), SIX_WORDS)
        self.assertEqual(raw.store(CONFIG, image, file), 0)
        self.assertEqual(bytes(file), SIX_FILE)

    def test_listing_and_text(self):
        page = raw.octets(512)
        self.assertEqual(raw.listing(CONFIG, SIX_WORDS, 0, page, 0), (0, len(LISTED), 6))
        self.assertEqual(bytes(page[: len(LISTED)]), LISTED)
        self.assertEqual(raw.text(CONFIG, SIX_WORDS[2], page, 0), (0, 16))
        self.assertEqual(bytes(page[:16]), b"MOVX @%06,@%X+,S")

    def test_page_too_small(self):
        page = raw.octets(40)
        self.assertEqual(raw.listing(CONFIG, SIX_WORDS, 0, page, 0), (18, 30, 1))
        self.assertEqual(bytes(page[:30]), LISTED[:30])
        self.assertEqual(raw.text(CONFIG, SIX_WORDS[2], raw.octets(15), 0), (18, 0))
        self.assertEqual(raw.text(CONFIG, SIX_WORDS[2], page, 41), (18, 41))

    def test_read_then_write(self):
        for word in SIX_WORDS:
            number, instruction = raw.read(CONFIG, word)
            self.assertEqual((number, raw.write(CONFIG, instruction)), (0, (0, word)))
        self.assertEqual(raw.read(CONFIG, 0x58000000), (5, [0] * 6))
        self.assertEqual(raw.read(CONFIG, 0x00000080)[0], 7)
        self.assertEqual(raw.write(CONFIG, [0] * 5), (7, 0))

    def test_check(self):
        self.assertEqual(raw.check(CONFIG, SIX_WORDS, [0] * 6), (0, 0, 0))
        self.assertEqual(raw.check(CONFIG, SIX_WORDS, [255] * 6), (17, 0, 1))

    def test_step_and_run(self):
        registers = raw.words([0, 0, 7, 8, 9] + [0] * 11)
        state = raw.machine(), registers, raw.words(32), raw.words(0), raw.words(0)
        self.assertEqual(raw.step(CONFIG, SIX_WORDS, [], *state), (0, 2))
        self.assertEqual(raw.run(CONFIG, SIX_WORDS, [], *state, 10), (0, 10, 20))
        self.assertEqual((state[2][16:19], registers[6]), ([7, 8, 9], 19))
        self.assertEqual(raw.run(CONFIG, SIX_WORDS, [], *state, 1000001), (16, 0, 0))
        self.assertEqual((state[0][raw.LOADED], state[0][raw.RX]), (1, 5))

    def test_reset(self):
        at_reset = [(at, word) for at, word in enumerate(raw.machine()) if word]
        self.assertEqual(at_reset, [(raw.IMASK, 15), (raw.SAVED, 15)])
        used = raw.words([1] * raw.MACHINE_WORDS)
        self.assertEqual((raw.reset(used), list(used)), (0, list(raw.machine())))
        self.assertEqual(raw.reset(raw.words(99)), 3)

    def test_movx_before_ldyx(self):
        state = fresh()
        image = SIX_WORDS[:1] + [0] + SIX_WORDS[2:]
        self.assertEqual(raw.run(CONFIG, image, [], *state, 11), (27, 2, 4))
        self.assertEqual((state[0][raw.PC], state[1][6], state[0][raw.LOADED]), (2, 16, 0))
        self.assertEqual(raw.step(CONFIG, SIX_WORDS, [], *state), (27, 0))
        self.assertEqual(state[0][raw.PC], 2)
        state[0][raw.RX] = 1
        self.assertEqual(raw.step(CONFIG, SIX_WORDS, [], *state), (3, 0))
        state[0][raw.LOADED] = 1
        self.assertEqual(raw.step(CONFIG, SIX_WORDS, [], *state), (0, 2))
        self.assertEqual(state[0][raw.RX], 2)
        state[0][raw.LOADED + 1] = 1
        self.assertEqual(raw.step(CONFIG, SIX_WORDS, [], *state), (3, 0))

    def test_assemble(self):
        for source in (SIX_SOURCE, SIX_SOURCE.encode(), list(SIX_SOURCE.encode())):
            lent = raw.words([7] * 8)
            self.assertEqual(raw.assemble(CONFIG, source, lent), (0, 6, 0))
            self.assertEqual(list(lent), SIX_WORDS + [7, 7])
        for number, source, line in [
            (36, "RET\n" * 7, 0),
            (24, "RET\nloop:\nFOO\nloop: RET", 4),
            (26, "RET\n\nRET ", 3),
            (26, "RET\n\xe9", 2),
            (25, "RET\nloop: JMP lop", 2),
            (6, "RET\nMUL %00,%01", 2),
            (7, "RET\nJMP 000006", 2),
        ]:
            lent = raw.words([7] * 6)
            self.assertEqual(raw.assemble(CONFIG, source, lent), (number, 0, line), source)
            self.assertEqual(list(lent), [7] * 6)
        self.assertEqual(raw.assemble([0] * 19, SIX_SOURCE, raw.words(6)), (1, 0, 0))


class Overlaps(unittest.TestCase):
    """A list that a call may write is neither another list of the call nor shares its memory."""

    def refused(self, call, *arguments):
        with self.assertRaises(ValueError):
            call(*arguments)

    def test_the_same_list(self):
        config, image, inputs = raw.words(CONFIG), raw.words(SIX_WORDS), raw.words(0)
        lists = [config, image, inputs, *fresh()]
        self.assertEqual(raw.step(*lists), (0, 2))
        for written in range(3, 8):
            for other in range(8):
                if other != written:
                    twice = list(lists)
                    twice[written] = twice[other]
                    self.refused(raw.step, *twice)
                    self.refused(raw.run, *twice, 1)

    def test_shared_memory(self):
        store = raw.words(200)
        machine = (ctypes.c_uint32 * 100).from_buffer(store)
        ctypes.memmove(machine, raw.machine(), ctypes.sizeof(machine))
        word = ctypes.sizeof(ctypes.c_uint32)
        near = (ctypes.c_uint32 * 16).from_buffer(store, 99 * word)
        clear = (ctypes.c_uint32 * 16).from_buffer(store, 100 * word)
        rest = raw.words(32), raw.words(0), raw.words(0)
        self.refused(raw.step, CONFIG, SIX_WORDS, [], machine, near, *rest)
        self.assertEqual(raw.step(CONFIG, SIX_WORDS, [], machine, clear, *rest), (0, 2))
        inside = (ctypes.c_uint32 * 6).from_buffer(store, 110 * word)
        self.refused(raw.step, CONFIG, inside, [], machine, clear, *rest)
        empty = (ctypes.c_uint32 * 0).from_buffer(store, 50 * word)
        lists = machine, clear, rest[0], empty, rest[2]
        self.assertEqual(raw.step(CONFIG, SIX_WORDS, [], *lists), (0, 2))

    def test_other_calls(self):
        store = raw.octets(4096)
        words = (ctypes.c_uint32 * 19).from_buffer(store)
        ctypes.memmove(words, raw.words(CONFIG), ctypes.sizeof(words))
        image = (ctypes.c_uint32 * 6).from_buffer(store, 1024)
        ctypes.memmove(image, raw.words(SIX_WORDS), ctypes.sizeof(image))
        on_config = (ctypes.c_uint8 * 1024).from_buffer(store, 64)
        on_image = (ctypes.c_uint8 * 1024).from_buffer(store, 1024 + 23)
        for page in (on_config, on_image):
            self.refused(raw.listing, words, image, 0, page, 0)
            self.refused(raw.store, words, image, page)
        self.refused(raw.text, words, 0, on_config, 0)
        self.refused(raw.assemble, words, b"RET", words)
        self.refused(raw.assemble, CONFIG, on_image, image)
        self.refused(raw.load, on_image, image)

    def test_lists_that_are_only_read_may_overlap(self):
        both = raw.words(SIX_WORDS)
        self.assertEqual(raw.step(CONFIG, both, both, *fresh()), (0, 2))


class EmptyLists(unittest.TestCase):
    """None is a null pointer with length 0, and answers as an empty list does."""

    def test_null_as_empty(self):
        six = raw.words(SIX_WORDS)
        for nothing in (None, ()):
            lent = (lambda: None) if nothing is None else (lambda: raw.words(0))
            page = None if nothing is None else raw.octets(0)
            state = raw.machine(), raw.words(16), raw.words(32)
            self.assertEqual(raw.step(CONFIG, six, nothing, *state, lent(), lent()), (0, 2))
            self.assertEqual(raw.run(CONFIG, six, nothing, *state, lent(), lent(), 9), (0, 9, 18))
            none = [lent() for _ in range(5)]
            self.assertEqual(raw.step(CONFIG, six, nothing, *none), (2, 0))
            self.assertEqual(raw.run(nothing, nothing, nothing, *none, 1), (1, 0, 0))
            none = lent(), *state[1:], lent(), lent()
            self.assertEqual(raw.step(CONFIG, six, nothing, *none), (3, 0))
            self.assertEqual(raw.reset(lent()), 3)
            self.assertEqual(raw.read(nothing, 0)[0], 1)
            self.assertEqual(raw.write(CONFIG, nothing), (7, 0))
            self.assertEqual(raw.check(CONFIG, six, nothing), (2, 0, 0))
            self.assertEqual(raw.text(CONFIG, 0, page, 0), (18, 0))
            self.assertEqual(raw.listing(CONFIG, six, 6, page, 0), (0, 0, 6))
            self.assertEqual(raw.listing(CONFIG, six, 0, page, 0), (18, 0, 0))
            self.assertEqual(raw.assemble(CONFIG, nothing, lent()), (0, 0, 0))
            self.assertEqual(raw.assemble(CONFIG, b"RET", lent()), (36, 0, 0))
            self.assertEqual(raw.load(nothing, lent()), (19, [0] * 19))
            self.assertEqual(raw.load(SIX_FILE, lent()), (2, [0] * 19))
            self.assertEqual(raw.store(CONFIG, six, page), 19)
        self.assertEqual(list(six), SIX_WORDS)


class Misuse(unittest.TestCase):
    def test_values(self):
        for wrong in ([1 << 32], [-1], [5, -1], [0, 1 << 70]):
            with self.assertRaises(ValueError):
                raw.words(wrong)
        for wrong in ([256, 0], [-1, 0]):
            with self.assertRaises(ValueError):
                raw.octets(wrong)
        for length in (-1, (1 << 26) + 1, 1 << 62, 1 << 100):
            with self.assertRaises(ValueError):
                raw.words(length)
        for wrong in (["1"], [1.0], [None], "12", 1.5, memoryview(raw.words(2))):
            with self.assertRaises(TypeError):
                raw.words(wrong)

    def test_numbers(self):
        for wrong, error in ((1 << 32, ValueError), (-1, ValueError), ("0", TypeError)):
            with self.assertRaises(error):
                raw.read(CONFIG, wrong)
        for wrong, error in ((1 << 64, ValueError), (-1, ValueError), (1.0, TypeError)):
            with self.assertRaises(error):
                raw.run(CONFIG, SIX_WORDS, [], *fresh(), wrong)
            with self.assertRaises(error):
                raw.text(CONFIG, 0, raw.octets(40), wrong)

    def test_kinds(self):
        state = fresh()
        with self.assertRaises(TypeError):
            raw.step(CONFIG, SIX_WORDS, [], list(state[0]), *state[1:])
        with self.assertRaises(TypeError):
            raw.step(CONFIG, SIX_WORDS, [], raw.octets(400), *state[1:])
        with self.assertRaises(TypeError):
            raw.check(CONFIG, SIX_WORDS, raw.words(6))
        with self.assertRaises(TypeError):
            raw.assemble(CONFIG, "RET", [0])
        with self.assertRaises(ValueError):
            raw.assemble(CONFIG, "\u20ac", raw.words(6))
