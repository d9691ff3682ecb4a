"""Texts of instructions, both ways."""
import unittest
from random import Random

from model.texts import FORMS, text_of, word_of

ROWS = {
    0x04100513: "addi x10, x0, 65", 0x40B50533: "sub x10, x10, x11", 0x00A12223: "sw x10, 4(x2)", 0xFFDFF06F: "jal x0, -4",
    0x00008067: "jalr x0, 0(x1)", 0x000012B7: "lui x5, 1", 0x0FF0000F: "fence x0, x0, 255", 0x00001363: "bne x0, x0, 6",
    0xFFF03513: "sltiu x10, x0, -1", 0x00000073: "ecall", 0x00100073: "ebreak", 0xFFFFFF97: "auipc x31, 1048575",
    0x41F0D093: "srai x1, x1, 31", 0x80000A63: "beq x0, x0, -4076", 0xFFF0000F: "fence x0, x0, 4095",
    0x80000003: "lb x0, -2048(x0)",
}
NONE = [0x00200073, 0x0000100F, 0x02000033, 0x40001033, 0x40001013, 0x00003003, 0x00003023, 0x00002063, 0x00001067, 0, 0xFFFFFFFF]
MALFORMED = [
    "", "addi", "addi ", "addi x10,x0,65", "addi x10, x0, 065", "addi x10, x0, +65", "addi x10, x0, -0", "addi x10, x0, 2048",
    "addi x10, x0, -2049", "addi x32, x0, 0", "addi x010, x0, 0", "ADDI x10, x0, 65", " addi x10, x0, 65", "addi x10, x0, 65 ",
    "addi  x10, x0, 65", "lui x5, 1048576", "lui x5, -1", "jal x0, 3", "jal x0, 1048576", "beq x0, x0, 4096", "slli x1, x1, 32",
    "slli x1, x1, -1", "fence x0, x0, 4096", "fence x0, x0, -1", "lw x1, 0 (x2)", "lw x1, (x2)", "lw x1, 0(x2", "sw x1, 0x4(x2)",
    "mul x1, x2, x3", "ecall ", "nop", "add x1, x2, 3", "addi x1, x2, x3", "addi x10, x0, \u0666", "jalr x0, x1, 0", "fence",
]


class Texts(unittest.TestCase):
    def test_rows(self):
        for word, text in ROWS.items():
            self.assertEqual((text_of(word), word_of(text)), (text, word))

    def test_no_instruction(self):
        for word in NONE:
            self.assertIsNone(text_of(word))

    def test_malformed(self):
        for text in MALFORMED:
            self.assertIsNone(word_of(text), text)

    def test_random_words(self):
        chance, names = Random(7), set()
        opcodes = [0x37, 0x17, 0x6F, 0x67, 0x63, 0x03, 0x23, 0x13, 0x33, 0x0F]
        for _ in range(60000):
            word = chance.getrandbits(32) & ~0x7F | chance.choice(opcodes)
            if chance.random() < 0.5:
                word &= 0x41FFFFFF
            text = text_of(word)
            if text is not None:
                names.add(text.split()[0])
                self.assertEqual(word_of(text), word)
                self.assertLessEqual(len(text), 24)
        self.assertEqual(names, set(FORMS))
        self.assertEqual(len(names), 38)
