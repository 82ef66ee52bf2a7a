"""The proved decider monastr inside Python, by ctypes over its C library (docs/EMBEDDING.md, include/monastr.h).

    >>> import monastr
    >>> found = monastr.decide("ws1s; var2 P, Q; P sub Q;")
    >>> found.verdict, found.counterexample
    ('contingent', Assignment(length=1, values={'P': frozenset({0}), 'Q': frozenset()}))

Files are given and come back in memory; nothing of the disk is read or changed. What is refused is a `Refused`. Any thread may call,
and several at once: the library shares nothing, and Python lets other threads run during a call.

The library is the file that MONASTR_LIBRARY names, or build/libmonastr.so in ../c, or what the system finds as monastr.
"""
from __future__ import annotations

import ctypes
import ctypes.util
import os
import pathlib
import re
from dataclasses import dataclass, field
from typing import Mapping, Optional, Sequence, Union

Content = Union[str, bytes]
Value = Union[bool, int, frozenset]

__all__ = ["Answer", "Assignment", "Checked", "Decision", "Place", "Refused", "Ran", "certify", "check", "decide", "generate", "ltl",
           "presburger", "run", "same"]

DONE, USAGE, REFUSED, LIMIT, NO_MEMORY, LENGTHS, NOT_TEXT, TOO_LONG = 0, 1, 2, 3, 6, 8, 9, 10

# The words behind the number of a refusal, and whether a detail can follow (docs/FORMATS.md, "Refusals").
_WORDS = {10: "unexpected byte", 11: "number too large", 12: "grammar", 13: "unclosed", 20: "unknown name", 21: "named twice", 22: "wrong order",
          23: "wrong number of arguments", 24: "out of range", 25: "not allowed here", 26: "left out", 28: "variables differ", 30: "no such file",
          31: "include cycle", 40: "no such import", 41: "not an automaton file", 42: "import of another mode", 43: "import variables differ",
          44: "import does not settle", 45: "not an automaton file", 46: "not a certificate", 50: "file too long", 51: "too many includes",
          52: "too deep", 53: "source too large", 54: "node limit", 60: "read fault", 61: "write fault", 70: "out of memory"}


@dataclass(frozen=True)
class Place:
    """Where a refusal stands: a byte of a file, the first being 0."""
    file: str
    byte: int


class Refused(Exception):
    """A request that comes to nothing.

    number: of the refusal (docs/FORMATS.md), or None where the words are no command.
    place: of the refusal, or None where it has none.
    detail: what follows the place, as a name; or None.
    line: what the program prints.
    status: of the library (include/monastr.h).
    """

    def __init__(self, line: str, status: int) -> None:
        super().__init__(line)
        self.line, self.status = line, status
        self.number: Optional[int] = None
        self.place: Optional[Place] = None
        self.detail: Optional[str] = None
        number, _, rest = line.partition(" ")
        if number.isdigit() and rest.startswith(_WORDS.get(int(number), "\n")):
            self.number = int(number)
            self._read(rest[len(_WORDS[self.number]):])

    def _read(self, rest: str) -> None:
        """Reads the place and the detail behind the words."""
        place = re.match(r" at (.*?):([0-9]+)(?=: |$)", rest, re.DOTALL)
        if place:
            self.place = Place(place[1], int(place[2]))
            rest = rest[place.end():]
        if rest.startswith(": "):
            self.detail = rest[2:]


@dataclass(frozen=True)
class Assignment:
    """The values of variables: sets of numbers, numbers, or truth values; and the length that the report tells (of the shortest
    word, of a trace, or the binary digits of the largest number)."""
    length: int
    values: dict[str, Value]

    def __getitem__(self, name: str) -> Value:
        return self.values[name]


@dataclass(frozen=True)
class Answer:
    """The verdict on one question (valid, unsatisfiable, contingent or vacuous), and the first assignments with the values Yes and No,
    where there are some. The title is that of a goal, or None."""
    verdict: str
    example: Optional[Assignment]
    counterexample: Optional[Assignment]
    title: Optional[str] = None


@dataclass(frozen=True)
class Ran:
    """What a run came to: the status (0 to 3), the text, and the files that were written."""
    status: int
    text: str
    files: dict[str, bytes]


@dataclass(frozen=True)
class Decision:
    """What a decision came to: the answer on the main value, or None where only goals are asked; those on the goals; the counts, where
    they were asked for; the files that were written; the text of the report."""
    main: Optional[Answer]
    goals: list[Answer]
    counts: dict[str, int]
    files: dict[str, bytes]
    text: str
    status: int = DONE

    @property
    def first(self) -> Answer:
        """The answer on the main value, or on the first goal."""
        return self.main or self.goals[0]

    @property
    def verdict(self) -> str:
        return self.first.verdict

    @property
    def example(self) -> Optional[Assignment]:
        return self.first.example

    @property
    def counterexample(self) -> Optional[Assignment]:
        return self.first.counterexample


@dataclass(frozen=True)
class Checked:
    """What a certificate shows of an automaton file: its states, which are the fewest, and the lengths of shortest words with the signs
    + and -, where there are some."""
    states: int
    example: Optional[int]
    counterexample: Optional[int]


class _File(ctypes.Structure):
    _fields_ = [("name", ctypes.c_uint64), ("content", ctypes.c_uint64)]


class _Request(ctypes.Structure):
    _fields_ = [("words", ctypes.c_char_p), ("words_size", ctypes.c_size_t),
                ("word_lengths", ctypes.POINTER(ctypes.c_uint64)), ("word_count", ctypes.c_size_t),
                ("files", ctypes.c_char_p), ("files_size", ctypes.c_size_t),
                ("file_lengths", ctypes.POINTER(_File)), ("file_count", ctypes.c_size_t)]


class _Answer(ctypes.Structure):
    _fields_ = [("text", ctypes.c_uint64), ("bytes", ctypes.c_uint64), ("files", ctypes.c_uint64)]


def _find() -> str:
    """The file of the library."""
    named = os.environ.get("MONASTR_LIBRARY")
    built = pathlib.Path(__file__).resolve().parent.parent / "c" / "build" / "libmonastr.so"
    return named or (str(built) if built.exists() else ctypes.util.find_library("monastr") or str(built))


def _load() -> ctypes._CFuncPtr:
    call = ctypes.CDLL(_find()).monastr_run
    call.restype = ctypes.c_uint32
    call.argtypes = [ctypes.POINTER(_Request), ctypes.c_void_p, ctypes.c_size_t, ctypes.POINTER(_File), ctypes.c_size_t, ctypes.POINTER(_Answer)]
    return call


_monastr_run = _load()


def _bytes(content: Content) -> bytes:
    return content.encode() if isinstance(content, str) else bytes(content)


def _name(name: str) -> bytes:
    try:
        return name.encode()
    except UnicodeEncodeError:
        raise Refused(f"{name!a} is no text", NOT_TEXT) from None


def run(words: Sequence[str], files: Mapping[str, Content] = {}) -> Ran:
    """Does what the words ask, over the files, as the program does.

    A refusal, or words that are no command, are a `Refused`. So is want of memory, with the number 70.
    """
    named = [_name(word) for word in words]
    held = [(_name(name), _bytes(content)) for name, content in files.items()]
    word_bytes = b"".join(named)
    file_bytes = b"".join(name + content for name, content in held)
    word_lengths = (ctypes.c_uint64 * max(len(named), 1))(*map(len, named))
    file_lengths = (_File * max(len(held), 1))(*((len(name), len(content)) for name, content in held))
    request = _Request(word_bytes, len(word_bytes), word_lengths, len(named), file_bytes, len(file_bytes), file_lengths, len(held))
    answer, status = _Answer(1, 1 << 14, 8), TOO_LONG
    while status == TOO_LONG:
        room, written = ctypes.create_string_buffer(answer.bytes + 1), (_File * (answer.files + 1))()
        status = _monastr_run(request, room, len(room), written, len(written), answer)
    if status == NO_MEMORY:
        raise Refused("70 out of memory", status)
    if status > LIMIT:
        raise Refused(f"no request (status {status})", status)
    given = memoryview(room)[:answer.bytes]
    text = bytes(given[:answer.text]).decode(errors="replace")
    if status != DONE:
        raise Refused(text.rstrip("\n"), status)
    return Ran(status, text, _written(given[answer.text:], written[:answer.files]))


def _written(given: memoryview, lengths: Sequence[_File]) -> dict[str, bytes]:
    """The written files by their names."""
    files, at = {}, 0
    for file in lengths:
        name, behind = bytes(given[at:at + file.name]).decode(), at + file.name
        at = behind + file.content
        files[name] = bytes(given[behind:at])
    return files


def _options(max_nodes: Optional[int], **more: object) -> list[str]:
    """The words of the options that were given."""
    words = [] if max_nodes is None else ["--max-nodes", str(max_nodes)]
    for name, value in more.items():
        if value is True: words.append(f"--{name}")
        elif value not in (None, False): words += [f"--{name}", str(value)]
    return words


def _value(text: str) -> Value:
    """The value that a report spells."""
    if text in ("true", "false"): return text == "true"
    if text.startswith("{"): return frozenset(int(member) for member in text[1:-1].split(",") if member.strip())
    return int(text.split(" = ")[0], 0) if text.startswith("0b") else int(text)


class _Report:
    """The lines of a report, read one after the other."""

    def __init__(self, text: str) -> None:
        self.lines, self.at = text.split("\n")[:-1], 0

    def next(self, *heads: str) -> Optional[str]:
        """What stands behind one of these heads in the next line, where it begins so; the line is then read."""
        for head in heads:
            if self.at < len(self.lines) and self.lines[self.at].startswith(head):
                self.at += 1
                return self.lines[self.at - 1][len(head):]
        return None

    def line(self) -> str:
        self.at += 1
        return self.lines[self.at - 1]

    def assignment(self, word: str) -> Optional[Assignment]:
        if self.next("no " + word) is not None: return None
        length, values = int(self.next(f"{word} length ", f"{word} digits ") or 0), {}
        while self.at < len(self.lines) and re.match(r"[A-Za-z_][A-Za-z0-9_']* = ", self.lines[self.at]):
            name, _, value = self.line().partition(" = ")
            values[name] = _value(value)
        return Assignment(length, values)

    def answer(self, words: tuple[str, str], title: Optional[str] = None) -> Answer:
        return Answer(self.line(), self.assignment(words[0]), self.assignment(words[1]), title)

    def goals(self) -> list[Answer]:
        goals = []
        while (title := self.next("goal ")) is not None: goals.append(self.answer(("example", "counterexample"), title))
        return goals

    def counts(self) -> dict[str, int]:
        pairs = (line.split(" ") for line in self.lines[self.at:])
        return {name: int(count) for name, count in pairs}


def _decision(ran: Ran) -> Decision:
    report = _Report(ran.text)
    main = None if report.lines[0].startswith("goal ") else report.answer(("example", "counterexample"))
    goals = report.goals()
    return Decision(main, goals, report.counts(), ran.files, ran.text, ran.status)


def decide(source: Content, files: Mapping[str, Content] = {}, *, max_nodes: Optional[int] = None, out: Optional[str] = None,
           stats: bool = False, format: Optional[int] = None, name: str = "source.mona") -> Decision:
    """Decides a source of WS1S or M2L-Str. The files are those that it includes or imports; `name` is its own name, in refusals."""
    words = ["decide", name, *_options(max_nodes, out=out, stats=stats, format=format)]
    return _decision(run(words, {**files, name: source}))


def same(left: Content, right: Content, files: Mapping[str, Content] = {}, *, max_nodes: Optional[int] = None) -> bool:
    """Whether two sources agree at each assignment."""
    ran = run(["same", "left.mona", "right.mona", *_options(max_nodes)], {**files, "left.mona": left, "right.mona": right})
    return ran.text == "agree\n"


def ltl(formula: Content, *, max_nodes: Optional[int] = None, name: str = "formula.ltl") -> Answer:
    """Decides a formula of linear temporal logic over all finite traces; example and counterexample are traces."""
    return _Report(run(["ltl", name, *_options(max_nodes)], {name: formula}).text).answer(("trace", "countertrace"))


def presburger(formula: Content, *, max_nodes: Optional[int] = None, name: str = "formula.presburger") -> Answer:
    """Decides a formula of linear arithmetic over all natural numbers."""
    ran = run(["presburger", name, *_options(max_nodes)], {name: formula})
    return _Report(ran.text).answer(("example", "counterexample"))


def generate(number: int) -> str:
    """The generated source with this number, from 1 to 2,000."""
    return run(["gen", str(number)]).text


def certify(source: Content, automaton: str = "main.dfa", files: Mapping[str, Content] = {}, *, max_nodes: Optional[int] = None,
            name: str = "source.mona") -> Decision:
    """Decides a source, and writes its automaton under the name `automaton` and a certificate of it under that name with .cert."""
    return _decision(run(["certify", name, automaton, *_options(max_nodes)], {**files, name: source}))


def check(automaton: Content, certificate: Content) -> Optional[Checked]:
    """What the certificate shows of the automaton file, or None where it does not certify it."""
    ran = run(["check", "main.dfa"], {"main.dfa": automaton, "main.dfa.cert": certificate})
    report = _Report(ran.text)
    if report.line() == "no": return None
    states = int(report.next("states ") or 0)
    lengths = []
    for word in "example", "counterexample":
        absent = report.next("no " + word)
        lengths.append(int(report.next(f"{word} length ") or 0) if absent is None else None)
    return Checked(states, *lengths)
