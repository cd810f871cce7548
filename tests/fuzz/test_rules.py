"""The rules that stand in this folder alone, on small cases; and that a wrong answer is told."""

import random
import sys
import unittest

sys.dont_write_bytecode = True

import corpus  # noqa: E402
import rules  # noqa: E402


class Following(unittest.TestCase):
    def test_every_block_is_followed_by_the_next_of_the_list(self):
        rng = random.Random(1)
        for rank in (0, 1, 2, 3, 4, 9, 10):
            for _ in range(20):
                extents = [rng.randint(1, 6 if rank < 9 else 2) for _ in range(rank)]
                blocks = [rng.choice((0, 1, 2, 3, 100)) for _ in range(rank)]
                listed = [list(counters) for counters, _ in rules.viewing.blocks(extents, blocks)]
                for here, after in zip(listed, [*listed[1:], None]):
                    self.assertEqual(rules.following(extents, blocks, here), after)


class Reached(unittest.TestCase):
    def test_the_states_are_those_of_the_list(self):
        rng = random.Random(2)
        for _ in range(300):
            rank = rng.randint(0, 3)
            extents, blocks = [rng.randint(0, 4) for _ in range(rank)], [rng.randint(0, 5) for _ in range(rank)]
            strides = [[rng.choice((0, 1, -3, 2**61)) for _ in range(rank)]]
            counters = rules.filled([rng.randint(0, 4) for _ in range(rank)], 64)
            offsets = rules.filled([rng.choice((0, 5, 2**63 - 1, -(2**63)))], 8)
            for ended in (0, 1):
                told = {"counters": counters, "offsets": offsets, "ended": ended}
                due = rules.viewing.reached(extents, blocks, strides, ended, counters, offsets)
                self.assertEqual(rules.reached((extents, blocks, strides), told), due)


class Difference(unittest.TestCase):
    MARKED = {"call": "mark", "answer": 1, "extents": [2, 2], "strides": [1, 1]}
    JUDGED = {"call": "judge", "answer": 1, "extents": [2], "text": b"V,0,1,1\n".hex(), "marks": "0001"}

    def test_a_right_answer(self):
        self.assertIsNone(rules.difference(self.MARKED))
        self.assertIsNone(rules.difference(self.JUDGED))

    def test_a_wrong_answer(self):
        self.assertIn("due is 1", rules.difference({**self.MARKED, "answer": 0}))
        self.assertIn("due is -3", rules.difference({**self.MARKED, "strides": [1]}))

    def test_wrong_memory(self):
        self.assertIn("marks", rules.difference({**self.JUDGED, "marks": "0101"}))


class Corpus(unittest.TestCase):
    def test_any_bytes_stand_on_a_line(self):
        for data in (b"", b"\\x41", b"a\\b\n\x00\xff", bytes(range(256))):
            line = corpus.line(data)
            self.assertNotIn("\n", line)
            self.assertEqual(corpus.data(line), data)

    def test_no_input_is_long(self):
        for subject in corpus.SUBJECTS:
            self.assertTrue(corpus.read(subject))
            self.assertLessEqual(max(map(len, corpus.read(subject))), corpus.MOST_BYTES)


if __name__ == "__main__":
    unittest.main()
