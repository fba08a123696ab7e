"""Cogunwa's operations on rule packs, over the shared library.

A pack is a list of words, numbers of 32 bits: a word's kind is its high byte, its value the other three. A "place" is a
word's index in the pack, from 0. An operation that refuses raises Refusal.

    >>> import cogunwa
    >>> pack = cogunwa.words_of_hex(open("examples/household.hex").read())
    >>> result = cogunwa.resolve(pack)
    >>> len(result.words), result.steps
    (64, 2)

The shared library is the one that the variable COGUNWA_LIBRARY names, or libcogunwa.so in the folder above this file's, as
`tools/install` installs both, or the one that the system finds. A call takes up to STACK_BYTES of its thread's stack, much
less than a thread of Python has unless it was given less (threading.stack_size).
"""

import ctypes
import ctypes.util
import enum
import operator
import os
import struct
from typing import Iterable, List, NamedTuple, Optional, Sequence, Union

__version__ = "0.2.0"

MIN_WORDS = 6
MAX_WORDS = 8192
MAX_BYTES = 32768
MAX_NAMES = 4096
MAX_RELATIONS = 512
MAX_RULES = 1024
MAX_BLOCKS = 64
MAX_DEPTH = 32
STACK_BYTES = 196608
NONE = 16777215  # "none" in a word's value

Pack = Union[Sequence[int], bytes, bytearray, memoryview]


class RefusalKind(enum.IntEnum):
    """The numbers of refusals; `text` says what each means."""

    def __new__(cls, number, text):
        kind = int.__new__(cls, number)
        kind._value_ = number
        kind.text = text
        return kind

    WRONG_LENGTH = 1, "the bytes are not whole words, or not 6 to 8,192 of them"
    WRONG_KIND = 2, "a word is of the wrong kind"
    ENDED = 3, "the pack has ended where one more word is due"
    WRONG_VALUE = 4, "a word has a value that is not allowed"
    TOO_DEEP = 5, "a tree node is at depth 33"
    NOT_RISING = 6, "a defaulted name is not above the one before"
    NAME_USED = 7, "a relation has a name that was used before"
    LEFT_OVER = 8, "words are left over after the last block"
    EQUAL_KINDS = 9, "a defaulted relation has equal kinds at its current and related slot"
    DIRECTION_OPEN = 10, "the direction is open: both slots fit"
    DERIVED_INPUT = 11, "OnlyRelated asks for a derived name"
    NO_SEQUENCE = 12, "OnlyRelated asks for an input, but a block of the citing origin is no sequence"
    NOT_DECLARED_ONCE = (
        13,
        "OnlyRelated asks for an input that is not declared exactly once in the blocks of the citing origin",
    )
    NOT_BOOLEAN = 14, "OnlyRelated asks for an input that is not Boolean"
    WRONG_OWNER = 15, "OnlyRelated asks for an input of another entity than the related kind, or there is no such kind"
    NO_ROOM = 16, "the output has too few words, or the result would have over 8,192"
    NOT_A_NAME = 17, "a name handed over is not one of the pack's"


class Refusal(Exception):
    """Why an operation refused: number, place, name and other. Fields that the number does not fill are 0."""

    def __init__(self, number: int, place: int = 0, name: int = 0, other: int = 0):
        super().__init__(number, place, name, other)
        self.number, self.place, self.name, self.other = number, place, name, other

    @property
    def kind(self) -> Optional[RefusalKind]:
        """What the number means; None for a number that this version does not know."""
        try:
            return RefusalKind(self.number)
        except ValueError:
            return None

    def __str__(self) -> str:
        text = self.kind.text if self.kind else "a refusal that this version does not know"
        return f"refused {self.number} {self.place} {self.name} {self.other}: {text}"


class HexError(ValueError):
    """Where a text stops being words of eight hexadecimal digits. Lines and columns count from 1."""

    def __init__(self, line: int, column: int, found: str):
        super().__init__(line, column, found)
        self.line, self.column, self.found = line, column, found

    def __str__(self) -> str:
        where = f"line {self.line}, column {self.column}"
        return f"{where}: expected a word of eight hexadecimal digits, found {self.found!r}"


class Resolved(NamedTuple):
    """What resolve gives: the words of the resolved pack, and how many names were read on the way."""

    words: List[int]
    steps: int


class AllKinds(NamedTuple):
    """What all_kinds gives: for each relation in record order the place of its kinds or None, and the steps."""

    places: List[Optional[int]]
    steps: int


def _load() -> ctypes.CDLL:
    beside = os.path.join(os.path.dirname(os.path.abspath(__file__)), os.pardir, "libcogunwa.so")
    path = os.environ.get("COGUNWA_LIBRARY")
    if path is None:
        path = beside if os.path.exists(beside) else ctypes.util.find_library("cogunwa")
    if path is None:
        raise ImportError("There is no libcogunwa.so: `tools/install PREFIX` installs it, and COGUNWA_LIBRARY names it.")
    library = ctypes.CDLL(path)
    pack = [ctypes.c_char_p, ctypes.c_size_t]
    out = [ctypes.c_char_p, ctypes.c_size_t]
    name = ctypes.c_uint32
    for operation, more in [
        ("check", []),
        ("rewrite", out),
        ("resolve", out),
        ("all_kinds", out),
        ("kinds_of", [name]),
        ("lean", [name, name]),
        ("direct", out),
        ("innermost", out),
        ("alias", out),
        ("unresolved", out),
    ]:
        function = getattr(library, "cogunwa_" + operation)
        function.argtypes = pack + more
        function.restype = ctypes.c_uint64
    return library


_library = _load()


def _bytes(pack: Pack) -> bytes:
    if isinstance(pack, (bytes, bytearray, memoryview)):
        return bytes(pack)
    try:
        return struct.pack(f"<{len(pack)}I", *pack)
    except struct.error as error:
        raise ValueError("a word is a whole number from 0 to 4294967295") from error


def _words(pack: Pack) -> Sequence[int]:
    if not isinstance(pack, (bytes, bytearray, memoryview)):
        return pack
    data = bytes(pack)
    return struct.unpack_from(f"<{len(data) // 4}I", data)


def _name(name: int) -> int:
    if not hasattr(name, "__index__") or not 0 <= name < 1 << 32:
        raise ValueError("a name is a whole number from 0 to 4294967295")
    return operator.index(name)


def _given(answer: int):
    """The value and the steps of an answer; a refusal is raised."""
    number, place = answer & 0x3F, answer >> 6 & 0x3FFF
    value, steps = answer >> 20 & 0xFFFFFFFF, answer >> 52
    if number:
        raise Refusal(number, place, value, steps)
    return value, steps


def _written(operation: str, pack: Pack, most: int):
    """The words that an operation writes, of which there are at most so many, and its steps."""
    data, out = _bytes(pack), ctypes.create_string_buffer(4 * most)
    value, steps = _given(getattr(_library, "cogunwa_" + operation)(data, len(data), out, len(out)))
    return list(struct.unpack_from(f"<{value}I", out)), steps


def check(pack: Pack) -> None:
    """Raises the first refusal, of 1 to 8, if the words are no pack."""
    data = _bytes(pack)
    _given(_library.cogunwa_check(data, len(data)))


def rewrite(pack: Pack) -> List[int]:
    """Reads the pack's records and writes them again: the same words."""
    return _written("rewrite", pack, MAX_WORDS)[0]


def resolve(pack: Pack) -> Resolved:
    """Settles the directions of a pack."""
    return Resolved(*_written("resolve", pack, MAX_WORDS))


def all_kinds(pack: Pack) -> AllKinds:
    """Settles the kinds of every relation; `relations` has the names in the same order, `kinds_at` reads a place."""
    places, steps = _written("all_kinds", pack, MAX_RELATIONS)
    return AllKinds([place or None for place in places], steps)


def kinds_of(pack: Pack, name: int) -> Optional[int]:
    """The place of a name's kinds; None where it has none."""
    data = _bytes(pack)
    return _given(_library.cogunwa_kinds_of(data, len(data), _name(name)))[0] or None


def lean(pack: Pack, a: int, b: int) -> bool:
    """Whether one or more sources and steps of paths lead from the name a to the name b."""
    data = _bytes(pack)
    return _given(_library.cogunwa_lean(data, len(data), _name(a), _name(b)))[0] == 1


def _names(operation: str, pack: Pack) -> List[Optional[int]]:
    return [None if name == NONE else name for name in _written(operation, pack, MAX_NAMES)[0]]


def direct(pack: Pack) -> List[Optional[int]]:
    """For each name, as an entity, the one kind that it takes; None where it takes none, or several."""
    return _names("direct", pack)


def innermost(pack: Pack) -> List[Optional[int]]:
    """For each name where its direct kind leads in the end; None where it has none or goes round."""
    return _names("innermost", pack)


def alias(pack: Pack) -> List[bool]:
    """For each name whether it takes a kind other than itself."""
    return [flag == 1 for flag in _written("alias", pack, MAX_NAMES)[0]]


def unresolved(pack: Pack) -> List[bool]:
    """For each name whether a derivation has it as entity and it takes no kind."""
    return [flag == 1 for flag in _written("unresolved", pack, MAX_NAMES)[0]]


def word(kind: int, value: int) -> int:
    """A word of this kind and value."""
    if not (0 <= kind < 1 << 8 and 0 <= value < 1 << 24):
        raise ValueError("a word's kind has 8 bits, its value 24")
    return kind << 24 | value


def word_kind(word: int) -> int:
    """A word's kind, its high byte."""
    return word >> 24


def word_value(word: int) -> int:
    """A word's value, its lower 24 bits."""
    return word & 0xFFFFFF


def relations(pack: Pack) -> List[int]:
    """The names of a pack's relations in record order."""
    return [word_value(word) for word in _words(pack) if word_kind(word) == 6]


def kinds_at(pack: Pack, place: Optional[int]) -> List[int]:
    """The names in the list whose count word is at this place; none for None."""
    if place is None:
        return []
    words = _words(pack)
    if not 0 <= place < len(words) or word_kind(words[place]) not in (9, 21):
        raise ValueError(f"word {place} is no count of kinds")
    return [word_value(word) for word in words[place + 1 : place + 1 + word_value(words[place])]]


def words_of_hex(text: str) -> List[int]:
    """The words of a text that writes each with eight hexadecimal digits, with blanks or line ends between.

    `#` starts a comment, to the end of its line; a byte order mark at the start is passed over.
    """
    words = []
    lines = text[text.startswith("\ufeff") :].replace("\r\n", "\n").replace("\r", "\n").split("\n")
    for number, line in enumerate(lines, 1):
        column = 0
        line = line.split("#", 1)[0]
        for found in line.split():
            column = line.index(found, column)
            if len(found) != 8 or not set(found) <= set("0123456789abcdefABCDEF"):
                raise HexError(number, column + 1, found)
            words.append(int(found, 16))
            column += len(found)
    return words


def hex_of_words(words: Iterable[int]) -> str:
    """The words as text, eight hexadecimal digits each, a word a line."""
    return "".join(f"{word:08X}\n" for word in words)
