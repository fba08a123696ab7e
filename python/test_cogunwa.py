"""Tests of the module over the shared library, from the repository: python3 python/test_cogunwa.py"""

import os
import re
import threading
import unittest

import cogunwa
from cogunwa import Refusal, RefusalKind

ROOT = os.path.join(os.path.dirname(os.path.abspath(__file__)), os.pardir)
SMALLEST = [0x01000006, 0x02000001, 0x03000000, 0x05000000, 0x16000000, 0x1C000000]


def text_of(*path):
    with open(os.path.join(ROOT, *path), encoding="utf-8") as file:
        return file.read()


class Operations(unittest.TestCase):
    def setUp(self):
        self.sample = cogunwa.words_of_hex(text_of("examples", "household.hex"))

    def test_resolve(self):
        listing = text_of("examples", "household.resolved.txt")
        expected = [int(word, 16) for word in re.findall(r"^ *\d+  ([0-9A-F]{8}) ", listing, re.M)]
        self.assertEqual(cogunwa.resolve(self.sample), (expected, 2))
        self.assertEqual(cogunwa.resolve(expected).words, expected)

    def test_packs_as_lists_and_as_bytes(self):
        data = b"".join(word.to_bytes(4, "little") for word in self.sample)
        for pack in [self.sample, tuple(self.sample), data, bytearray(data), memoryview(data)]:
            self.assertIsNone(cogunwa.check(pack))
            self.assertEqual(cogunwa.rewrite(pack), self.sample)
            self.assertEqual(cogunwa.relations(pack), [9, 7])
            self.assertEqual(cogunwa.kinds_at(pack, 8), [2, 1])

    def test_kinds(self):
        kinds = cogunwa.all_kinds(self.sample)
        self.assertEqual(kinds, ([8, 8], 2))
        self.assertEqual(cogunwa.relations(self.sample), [9, 7])
        self.assertEqual([cogunwa.kinds_at(self.sample, place) for place in kinds.places], [[2, 1], [2, 1]])
        self.assertEqual([cogunwa.kinds_of(self.sample, name) for name in (7, 3)], [8, None])
        self.assertEqual(cogunwa.kinds_at(self.sample, None), [])
        for place in [0, -1, 60]:
            self.assertRaises(ValueError, cogunwa.kinds_at, self.sample, place)

    def test_lean(self):
        self.assertIs(cogunwa.lean(self.sample, 7, 9), True)
        self.assertIs(cogunwa.lean(self.sample, 9, 7), False)
        # No source and a path: a step over 9, and one over 3, which no relation has.
        steps = [cogunwa.word(kind, value) for name in (9, 3) for kind, value in ((14, name), (15, 0), (16, 1))]
        path = self.sample[:17] + [cogunwa.word(12, cogunwa.NONE), cogunwa.word(13, 2)] + steps + self.sample[19:]
        path[0] = cogunwa.word(1, len(path))
        self.assertEqual([cogunwa.lean(path, 7, name) for name in (9, 3, 2, 7)], [True, True, False, False])
        self.assertIs(cogunwa.lean(path, 3, 9), False)
        self.assertIsNone(cogunwa.kinds_of(path, 7))

    def test_tables(self):
        self.assertEqual(cogunwa.direct(self.sample), [None] * 10)
        self.sample[21] = cogunwa.word(19, 3)
        only_three = [name == 3 for name in range(10)]
        self.assertEqual(cogunwa.direct(self.sample), [1 if three else None for three in only_three])
        self.assertEqual(cogunwa.innermost(self.sample), [1 if three else None for three in only_three])
        self.assertEqual(cogunwa.alias(self.sample), only_three)
        self.assertEqual(cogunwa.unresolved(self.sample), [False] * 10)
        self.sample[19] = cogunwa.word(17, 5)
        self.assertEqual(cogunwa.unresolved(self.sample), only_three)

    def test_from_several_threads(self):
        wrong = []

        def run():
            if any(len(cogunwa.resolve(self.sample).words) != 64 for _ in range(200)):
                wrong.append(1)

        threads = [threading.Thread(target=run) for _ in range(4)]
        for thread in threads:
            thread.start()
        for thread in threads:
            thread.join()
        self.assertEqual(wrong, [])


class Refusals(unittest.TestCase):
    def refused(self, operation, *arguments):
        with self.assertRaises(Refusal) as caught:
            operation(*arguments)
        refusal = caught.exception
        return refusal.number, refusal.place, refusal.name, refusal.other

    def test_fields(self):
        sample = cogunwa.words_of_hex(text_of("examples", "open.hex"))
        self.assertEqual(self.refused(cogunwa.resolve, sample), (10, 32, 8, 1))
        self.assertEqual(self.refused(cogunwa.check, []), (1, 0, 0, 0))
        self.assertEqual(self.refused(cogunwa.check, b"abc"), (1, 0, 0, 0))
        self.assertEqual(self.refused(cogunwa.check, [0] * 8193), (1, 0, 0, 0))
        self.assertEqual(self.refused(cogunwa.alias, SMALLEST[:-1] + [0]), (2, 5, 0, 0))
        self.assertEqual(self.refused(cogunwa.kinds_of, SMALLEST, 2**32 - 1), (17, 0, 2**32 - 1, 0))
        self.assertEqual(self.refused(cogunwa.lean, SMALLEST, 0, 1), (17, 0, 1, 0))

    def test_words(self):
        refusal = Refusal(2, 5)
        self.assertIs(refusal.kind, RefusalKind.WRONG_KIND)
        self.assertEqual(str(refusal), "refused 2 5 0 0: a word is of the wrong kind")
        self.assertIsNone(Refusal(63).kind)
        self.assertEqual(str(Refusal(63)), "refused 63 0 0 0: a refusal that this version does not know")

    def test_what_is_no_word_or_name(self):
        for words in [[-1], [2**32], [1.5], ["1"]]:
            self.assertRaises(ValueError, cogunwa.check, words)
        for name in [-1, 2**32, 1.5, "1", None]:
            self.assertRaises(ValueError, cogunwa.kinds_of, SMALLEST, name)
        self.assertRaises(ValueError, cogunwa.word, 256, 0)


class Texts(unittest.TestCase):
    def test_hexadecimal(self):
        for text in ["\ufeff01000006\r\n# two\r\n1cffffff\r\n", "01000006\r1CFFFFFF#", "01000006 \t 1CFFFFFF"]:
            self.assertEqual(cogunwa.words_of_hex(text), [0x01000006, 0x1CFFFFFF])
        self.assertEqual(cogunwa.words_of_hex(cogunwa.hex_of_words(SMALLEST)), SMALLEST)

    def test_positions(self):
        texts = [("1000006", 1, 1), ("01000006\r\n\r\n 02000001 2000001", 3, 11), ("\ufeff 0x000001", 1, 2)]
        for text, line, column in texts:
            with self.assertRaises(cogunwa.HexError) as caught:
                cogunwa.words_of_hex(text)
            self.assertEqual((caught.exception.line, caught.exception.column), (line, column))


class Header(unittest.TestCase):
    """What the module says again is what the header says."""

    header = text_of("include", "cogunwa.h")

    def test_constants(self):
        names = [name for name in dir(cogunwa) if re.match(r"M[A-Z]+_|STACK_BYTES|NONE", name)]
        self.assertEqual(len(names), 10)
        for name in names:
            defined = re.search(rf"^#define COGUNWA_{name} (\d+)u", self.header, re.M)
            self.assertEqual(int(defined.group(1)), getattr(cogunwa, name), name)

    def test_version(self):
        parts = re.findall(r"^#define COGUNWA_VERSION_(?:MAJOR|MINOR|PATCH) (\d+)$", self.header, re.M)
        self.assertEqual(".".join(parts), cogunwa.__version__)

    def test_refusals(self):
        numbers = re.findall(r"^    COGUNWA_(\w+) = (\d+)", self.header, re.M)
        texts = dict(re.findall(r'case COGUNWA_(\w+): return "(.*)";', self.header))
        expected = [(name, int(number), texts[name]) for name, number in numbers if number != "0"]
        self.assertEqual([(kind.name, kind.value, kind.text) for kind in RefusalKind], expected)


if __name__ == "__main__":
    unittest.main()
