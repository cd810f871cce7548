"""Tests of the test's own reader, on texts made by hand.

    python3 -B tests/texts/test_form.py
"""

import unittest

from form import Layout, NotInForm, Operand, read_text, write_text

WORKED = b"L,P,2,2,-\nE,2,3\nO,8,1,2\nO,8,3,1\n"


class InForm(unittest.TestCase):
    def test_the_worked_example(self):
        self.assertEqual(read_text(WORKED), Layout("P", None, (2, 3), (Operand(8, (1, 2)), Operand(8, (3, 1)))))

    def test_rank_0(self):
        self.assertEqual(read_text(b"L,F,0,1,0\nE\nO,8\n"), Layout("F", 0, (), (Operand(8, ()),)))

    def test_no_operand(self):
        self.assertEqual(read_text(b"L,P,1,0,-\nE,7\n"), Layout("P", None, (7,), ()))
        self.assertEqual(read_text(b"L,P,0,0,3\nE\n"), Layout("P", 3, (), ()))

    def test_a_chosen_operand(self):
        for purpose in "PF":
            for chosen in (0, 1, 9, 2**64 - 1):
                self.assertEqual(read_text(f"L,{purpose},0,1,{chosen}\nE\nO,0\n".encode()), Layout(purpose, chosen, (), (Operand(0, ()),)))

    def test_numbers_at_their_limits(self):
        widest = f"L,P,2,1,-\nE,0,{2**64 - 1}\nO,{2**64 - 1},{-(2**63)},{2**63 - 1}\n".encode()
        self.assertEqual(read_text(widest), Layout("P", None, (0, 2**64 - 1), (Operand(2**64 - 1, (-(2**63), 2**63 - 1)),)))

    def test_counts_above_the_limits_are_in_the_form(self):
        many = b"L,P,65,9,-\nE" + b",1" * 65 + b"\n" + (b"O,8" + b",1" * 65 + b"\n") * 9
        self.assertEqual((len(read_text(many).extents), len(read_text(many).operands)), (65, 9))

    def test_16384_bytes(self):
        longest = b"L,P,8183,0,-\nE" + b",1" * 8182 + b",1111\n"
        self.assertEqual(len(longest), 16_384)
        self.assertEqual(len(read_text(longest).extents), 8183)
        with self.assertRaises(NotInForm):
            read_text(longest.replace(b",1111\n", b",11111\n"))

    def test_writing_is_the_reverse(self):
        for text in (WORKED, b"L,F,0,1,0\nE\nO,8\n", b"L,P,1,0,-\nE,7\n", b"L,P,1,1,5\nE,7\nO,0,-3\n"):
            self.assertEqual(write_text(read_text(text)), text)


class OutOfForm(unittest.TestCase):
    def turned_down(self, texts):
        for text in texts:
            with self.subTest(text=text[:60]), self.assertRaises(NotInForm):
                read_text(text)

    def replaced(self, *pairs):
        for old, new in pairs:
            self.assertEqual(WORKED.count(old), 1, old)
            self.turned_down([WORKED.replace(old, new)])

    def test_line_ends(self):
        self.turned_down([b"", b"\n", WORKED[:-1], WORKED + b"\n", b"\n" + WORKED, WORKED + b"\x00", WORKED.replace(b"\n", b"\r\n"),
                          WORKED.replace(b"\n", b"\r"), WORKED.replace(b"\nE", b"\n\nE"), WORKED[:-1] + b"\r\n", WORKED + WORKED])

    def test_letters(self):
        self.replaced((b"L", b"l"), (b"L", b""), (b"L", b" L"), (b"E", b"e"), (b"E", b"O"), (b"O,8,1", b"o,8,1"), (b"O,8,1", b"E,8,1"), (b"P", b"Q"),
                      (b"P", b"p"), (b"P", b""), (b"P", b"PF"), (b"P", b"0"))
        self.turned_down([WORKED.replace(b"E,2,3\nO,8,1,2\n", b"O,8,1,2\nE,2,3\n"), b"L\n", b"L,\n", b"L,P\nE\n"])

    def test_a_fold_has_a_number(self):
        self.replaced((b"P", b"F"))

    def test_counts(self):
        self.replaced(*((b"E,2,3", line) for line in (b"E,2", b"E,2,3,1", b"E", b"E,", b"E,2,3,", b"E,,2,3", b"E,2,3\nE,2,3")))
        self.replaced(*((b"O,8,3,1", line) for line in (b"O,8,3", b"O,8,3,1,1", b"O", b"", b"O,8,3,1\nO,8,3,1")))
        self.replaced(*((b"L,P,2,2", line) for line in (b"L,P,1,2", b"L,P,3,2", b"L,P,2,1", b"L,P,2,3", b"L,P,2,0", b"L,P,2", b"L,,P,2,2")))
        self.replaced(*((b"2,-", line) for line in (b"2", b"2,-,", b"2,-,-", b"2,", b"2,0,0", b"2,-0", b"2,--")))
        self.turned_down([WORKED.replace(b"O,8,3,1\n", b"")])
        self.turned_down([b"L,P,0,1,-\nE,\nO,8\n", b"L,P,0,1,-\nE\nO,8,\n", b"L,P,0,1,-\nE\nO\n", b"L,P,0,1,-\nE\nO,\n", b"L,P,0,0,-\n"])
        self.turned_down([f"L,P,{count},1,-\nE,2\nO,8,1\n".encode() for count in (0, 2, 2**64 - 1, 2**64 + 1)])
        self.turned_down([f"L,P,1,{count},-\nE,2\nO,8,1\n".encode() for count in (0, 2, 2**64 - 1, 2**64 + 1)])

    def test_numbers(self):
        for bad in (b"", b" 2", b"2 ", b"02", b"00", b"+2", b"-0", b"-", b"--2", b"2-", b"2.0", b"2e1", b"0x2", b"1_0", b"a", b"\xff", b"\x00", b"\t2",
                    "\u0662".encode(), b"2\r"):
            for good in (b"L,P,2,1,-\nE,2,@\nO,8,1,2\n", b"L,P,2,1,-\nE,2,3\nO,8,1,@\n", b"L,P,2,1,-\nE,2,3\nO,@,1,2\n", b"L,P,@,1,-\nE,2,3\nO,8,1,2\n",
                         b"L,P,2,@,-\nE,2,3\nO,8,1,2\n", b"L,F,2,1,@\nE,2,3\nO,8,1,2\n"):
                self.turned_down([good.replace(b"@", bad)])
        self.turned_down([b"L,P,1,1,-\nE,-1\nO,8,1\n", b"L,P,1,1,-\nE,1\nO,-8,1\n", b"L,P,1,1,-1\nE,1\nO,8,1\n", b"L,P,-1,1,-\nE,1\nO,8,1\n"])

    def test_numbers_outside_64_bits(self):
        for number in (2**64, 2**64 + 1, 10**20, 10**30):
            for good in ("L,P,1,1,-\nE,@\nO,8,1\n", "L,P,1,1,-\nE,1\nO,@,1\n", "L,P,1,1,@\nE,1\nO,8,1\n"):
                self.turned_down([good.replace("@", str(number)).encode()])
        for number in (2**63, 2**64, -(2**63) - 1, 10**20, -(10**20)):
            self.turned_down([f"L,P,1,1,-\nE,1\nO,8,{number}\n".encode()])
        for digits in (b"1" * 10_000, b"9" * 21, b"-" + b"1" * 10_000):
            self.turned_down([b"L,P,1,1,-\nE,1\nO,8," + digits + b"\n"])


if __name__ == "__main__":
    unittest.main()
