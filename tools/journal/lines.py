"""The lines of a journal, read exactly as docs/journal.md has them.

Tasks, ports, waits and branches are numbers; a value is its printed text; a `print` has the text that was printed, read out
of its quotes.
"""

import re
from dataclasses import dataclass
from typing import NamedTuple


class NotAJournal(Exception):
    """The text isn't a journal; the message says which line is the first that isn't one."""


class Branch(NamedTuple):
    """A take from a port, or a put of a value into it; a take has no value."""

    side: str
    port: int
    value: str | None


@dataclass(frozen=True, slots=True)
class Make:
    task: int
    port: int
    what: str


@dataclass(frozen=True, slots=True)
class Spawn:
    task: int
    spawned: int
    kind: str
    result: int | None


@dataclass(frozen=True, slots=True)
class Done:
    """`value` is what was taken, or what was put; a put that was refused is not `accepted`."""

    task: int
    branch: int
    side: str
    port: int
    value: str
    accepted: bool


@dataclass(frozen=True, slots=True)
class Meet:
    task: int
    branch: int
    side: str
    port: int
    value: str
    wait: int
    other: int


@dataclass(frozen=True, slots=True)
class Park:
    task: int
    wait: int
    branches: tuple[Branch, ...]


@dataclass(frozen=True, slots=True)
class Post:
    task: int
    wait: int
    port: int
    value: str


@dataclass(frozen=True, slots=True)
class Settle:
    wait: int
    branch: int
    side: str
    port: int
    value: str


@dataclass(frozen=True, slots=True)
class Default:
    task: int
    value: str


@dataclass(frozen=True, slots=True)
class Close:
    task: int
    port: int


@dataclass(frozen=True, slots=True)
class Register:
    task: int
    name: str
    arguments: tuple[str, ...]
    answer: str


@dataclass(frozen=True, slots=True)
class Print:
    task: int
    text: str


@dataclass(frozen=True, slots=True)
class Tick:
    moment: int
    ports: tuple[int, ...]


@dataclass(frozen=True, slots=True)
class End:
    task: int


@dataclass(frozen=True, slots=True)
class Fault:
    task: int
    fault: str
    line: int
    column: int
    result: int | None


Event = Make | Spawn | Done | Meet | Park | Post | Settle | Default | Close | Register | Print | Tick | End | Fault

TEXT = r'"(?:[^"\\]|\\["\\ntr])*"'
ATOM = re.compile(rf'{TEXT}|#port \d+|[^][{{}}", ]+')
PIECE = re.compile(rf'{TEXT}|#port \d+|[^][{{}}", ]+|,? |[][{{}}]')
WHAT = re.compile(r"chan (?:none|promise|(?:fixed|dropping|sliding) \d+)|timeout \d+ at (?:\d+|-)|(?:mult|pub) p\d+|mix p\d+ p\d+")
ESCAPED = re.compile(r"\\(.)")
ESCAPES = {"n": "\n", "t": "\t", "r": "\r"}


class Cursor:
    """A place in a line. Each call reads what stands there and goes behind it, or raises ValueError."""

    def __init__(self, text: str) -> None:
        self.text = text
        self.at = 0

    def read(self, pattern: re.Pattern) -> str:
        found = pattern.match(self.text, self.at)
        if not found:
            raise ValueError
        self.at = found.end()
        return found[0]

    def skip(self, literal: str) -> None:
        if not self.text.startswith(literal, self.at):
            raise ValueError
        self.at += len(literal)

    def follows(self, literal: str) -> bool:
        """Reads the literal if it stands here."""
        there = self.text.startswith(literal, self.at)
        self.at += len(literal) * there
        return there

    def is_over(self) -> bool:
        return self.at == len(self.text)

    def word(self, pattern: re.Pattern = re.compile(r"[^ ]+")) -> str:
        """A word, behind a space."""
        self.skip(" ")
        return self.read(pattern)

    def number(self, letter: str = "") -> int:
        """A number behind its letter and a space, as in ` t3`."""
        self.skip(" " + letter)
        return int(self.read(re.compile(r"\d+")))

    def port_or_none(self) -> int | None:
        return None if self.follows(" -") else self.number("p")

    def side(self) -> str:
        return self.word(re.compile("take|put"))

    def value(self) -> str:
        """A printed value, behind a space."""
        self.skip(" ")
        start, depth = self.at, 0
        if self.text[start : start + 1] not in ("[", "{"):
            return self.read(ATOM)
        while True:
            piece = self.read(PIECE)
            depth += (piece in ("[", "{")) - (piece in ("]", "}"))
            if depth == 0:
                return self.text[start : self.at]


def quoted(text: str) -> str:
    """What a text in quotes says."""
    return ESCAPED.sub(lambda found: ESCAPES.get(found[1], found[1]), text[1:-1])


def done(line: Cursor) -> Done:
    task, branch, side, port, value = line.number("t"), line.number(), line.side(), line.number("p"), line.value()
    accepted = side == "take" or line.word(re.compile("true|false")) == "true"
    return Done(task, branch, side, port, value, accepted)


def meet(line: Cursor) -> Meet:
    return Meet(line.number("t"), line.number(), line.side(), line.number("p"), line.value(), line.number("w"), line.number())


def park(line: Cursor) -> Park:
    task, wait, branches = line.number("t"), line.number("w"), []
    while True:
        side, port = line.side(), line.number("p")
        branches.append(Branch(side, port, line.value() if side == "put" else None))
        if not line.follows(","):
            return Park(task, wait, tuple(branches))


def register(line: Cursor) -> Register:
    task, name, values = line.number("t"), line.word(), []
    while not line.is_over():
        values.append(line.value())
    return Register(task, name, tuple(values[:-1]), values[-1])


def tick(line: Cursor) -> Tick:
    moment, ports = line.number(), []
    while not line.is_over():
        ports.append(line.number("p"))
    return Tick(moment, tuple(ports))


def fault(line: Cursor) -> Fault:
    task, name, row = line.number("t"), line.word(), line.number()
    line.skip(":")
    return Fault(task, name, row, int(line.read(re.compile(r"\d+"))), line.port_or_none())


KINDS = {
    "make": lambda line: Make(line.number("t"), line.number("p"), line.word(WHAT)),
    "spawn": lambda line: Spawn(line.number("t"), line.number("t"), line.word(), line.port_or_none()),
    "done": done,
    "meet": meet,
    "park": park,
    "post": lambda line: Post(line.number("t"), line.number("w"), line.number("p"), line.value()),
    "settle": lambda line: Settle(line.number("w"), line.number(), line.side(), line.number("p"), line.value()),
    "default": lambda line: Default(line.number("t"), line.value()),
    "close": lambda line: Close(line.number("t"), line.number("p")),
    "register": register,
    "print": lambda line: Print(line.number("t"), quoted(line.word(re.compile(TEXT)))),
    "tick": tick,
    "end": lambda line: End(line.number("t")),
    "fault": fault,
}


def event(line: str, number: int) -> Event:
    """The event of a line, which must have this number."""
    cursor = Cursor(line)
    try:
        cursor.skip(str(number))
        read = KINDS[cursor.word()](cursor)
        if not cursor.is_over():
            raise ValueError
    except (ValueError, KeyError, IndexError):
        raise NotAJournal(f"this is no line for event {number}: {line}") from None
    return read


class Journal(NamedTuple):
    """What `run --journal` wrote: the output, the events in order, and the line of the end, if there is one."""

    output: str
    events: list[Event]
    end: str


END_LINE = re.compile(r"stuck|budget|fault [A-Za-z]+ at \d+:\d+")


def read(text: str) -> Journal:
    """Reads what `run --journal` wrote, or a journal alone.

    The output may hold any lines, also such as look like a journal's. So the journal is found from its end: the number of
    its last line tells how many there are.
    """
    lines = text.split("\n")
    if lines[-1] == "":
        lines.pop()
    end = lines.pop() if lines and END_LINE.fullmatch(lines[-1]) else ""
    last = re.match(r"(\d+) ", lines[-1]) if lines else None
    start = len(lines) - 1 - int(last[1]) if last else -1
    if start < 0:
        raise NotAJournal("there is no journal in it; it is what run --journal writes")
    events = [event(line, number) for number, line in enumerate(lines[start:])]
    return Journal("".join(line + "\n" for line in lines[:start]), events, end)
