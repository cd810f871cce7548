"""One table of refusals: that of include/gougelily.h. The Python module, the man page, docs/SPECIFICATION.md and tools/draw have the same rows. So it
is with the version, and with the names of the functions.

    python3 -B tests/python/test_words.py
"""

import re
import unittest

from seeded import ROOT

import gougelily as g
from gougelily.library import FUNCTIONS

HEADER = (ROOT / "include" / "gougelily.h").read_text()
MANUAL = (ROOT / "docs" / "man" / "gougelily.3").read_text().replace("\\-", "-")
PAGE = (ROOT / "docs" / "SPECIFICATION.md").read_text()
TABLE = {int(number): sentence for number, sentence in re.findall(r'^    ROW\(\w+, ([0-9]+), "(.*)"\)', HEADER, re.M)}


def rows(text, heading, form):
    """The rows of a table below a heading."""
    return re.findall(form, text.split(heading, 1)[1].split("\n## ", 1)[0].split("\n.SH ", 1)[0], re.M)


class Refusals(unittest.TestCase):
    def test_the_module(self):
        self.assertGreater(len(TABLE), 10)
        self.assertEqual({number: row.sentence for number, row in g.REFUSALS.items()}, TABLE)

    def test_the_man_page(self):
        self.assertEqual({int(number): sentence for number, sentence in rows(MANUAL, "\n.SH REFUSALS\n", r"^ +([0-9]+)  (.*)$")}, TABLE)

    def test_the_specification(self):
        self.assertEqual([int(number) for number in rows(PAGE, "\n## Refusals\n", r"^\| ([0-9]+) \|")], list(TABLE))

    def test_the_drawing_tool(self):
        told = (ROOT / "tools" / "draw" / "reading.py").read_text().split("REFUSALS = {", 1)[1].split("}", 1)[0]
        self.assertLessEqual({int(number) for number in re.findall(r"^    ([0-9]+):", told, re.M)}, set(TABLE))

    def test_what_each_function_refuses(self):
        """The numbers behind 'Refuses' are rows."""
        told = re.findall(r"^ \* Refuses ([0-9, ]+)", HEADER, re.M)
        self.assertGreater(len(told), 8)
        for line in told:
            self.assertLessEqual({int(number) for number in re.findall(r"[0-9]+", line)}, set(TABLE), line)


class Versions(unittest.TestCase):
    def test_the_version(self):
        due = ".".join(re.search(rf"^#define GOUGELILY_VERSION_{part} ([0-9]+)$", HEADER, re.M)[1] for part in ("MAJOR", "MINOR", "PATCH"))
        self.assertEqual((g.__version__, g.version()), (due, due))
        for page in (ROOT / "docs" / "man").iterdir():
            self.assertIn(f'"gougelily {due}"', page.read_text().splitlines()[0])


class Names(unittest.TestCase):
    raw = set(re.findall(r"^int64_t (gougelily_\w+)\(", HEADER, re.M))
    inline = set(re.findall(r"^static inline (?:\w+ \**|const char \*)(gougelily_\w+)\(", HEADER, re.M))

    def test_the_module_calls_every_raw_function(self):
        self.assertEqual(set(FUNCTIONS), self.raw)

    def test_the_man_page_has_every_function(self):
        self.assertGreater(len(self.inline), 8)
        self.assertLessEqual(self.raw | self.inline, set(re.findall(r"gougelily_\w+", MANUAL)))

    def test_older_names_are_aliases(self):
        for older, name in re.findall(r"^#define (gougelily_\w+) (\w+)$", HEADER, re.M):
            self.assertIn(name, self.inline)
            self.assertNotIn(older, self.inline)


if __name__ == "__main__":
    unittest.main()
