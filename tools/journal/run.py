"""Follows the events of a journal: which tasks run or wait, and what each channel holds.

What a channel holds is read off the journal by the rules of docs/channels.md: a buffer gives its oldest value first, a full
dropping buffer drops the new value and a full sliding one its oldest, and a promise keeps its first value for good.
"""

from collections import deque
from collections.abc import Iterable, Iterator
from dataclasses import dataclass, field
from typing import NamedTuple

from .lines import Branch, Close, Done, End, Event, Fault, Make, Meet, NotAJournal, Park, Post, Settle, Spawn, Tick

OTHER_SIDE = {"take": "put", "put": "take"}


@dataclass(eq=False)
class Task:
    """A task runs, waits by the wait `wait`, or is over; `last` is the number of its last event."""

    number: int
    kind: str
    result: int | None = None
    born: int = 0
    last: int | None = None
    wait: int | None = None
    is_over: bool = False
    fault: str | None = None

    @property
    def is_running(self) -> bool:
        return not self.is_over and self.wait is None


@dataclass(eq=False)
class Port:
    """A channel, or a mult, a mix or a publication, which holds nothing.

    `ends` is the moment at which a timeout closes. `users` has, for each side, the number of the last event by which each
    task came to it there.
    """

    number: int
    what: str
    born: int
    policy: str
    capacity: int = 0
    ends: int | None = None
    held: deque[str] = field(default_factory=deque)
    is_closed: bool = False
    users: dict[str, dict[int, int]] = field(default_factory=lambda: {"take": {}, "put": {}})

    @property
    def is_channel(self) -> bool:
        return self.what.startswith(("chan", "timeout"))

    def keep(self, value: str) -> None:
        """A value is accepted."""
        if self.policy == "promise" and self.held:
            return
        if len(self.held) >= self.capacity > 0:
            if self.policy == "dropping":
                return
            if self.policy == "sliding":
                self.held.popleft()
        self.held.append(value)

    def give(self) -> None:
        """The first value is given to a take."""
        if self.policy != "promise":
            self.held.popleft()


@dataclass
class Wait:
    """A wait of a task, or, where it is posted, of a `put!` whose task has gone on."""

    number: int
    task: int
    branches: tuple[Branch, ...]
    is_posted: bool
    since: int


class Passage(NamedTuple):
    """A value that an event brings from one place to another; a place is a task, or a channel as `Port`."""

    source: Task | Port
    target: Task | Port
    value: str
    port: Port


def port_made(number: int, what: str, born: int) -> Port:
    words = what.split()
    if words[0] == "timeout":
        ends = None if words[3] == "-" else int(words[1]) + int(words[3])
        return Port(number, what, born, "none", ends=ends)
    if words[0] != "chan":
        return Port(number, what, born, "registry")
    capacity = 1 if words[1] == "promise" else int(words[2]) if len(words) > 2 else 0
    return Port(number, what, born, words[1], capacity)


class Run:
    """What stands after the events that were followed so far."""

    def __init__(self) -> None:
        self.number = -1
        self.moment = 0
        self.tasks: dict[int, Task] = {0: Task(0, "main", born=-1)}
        self.ports: dict[int, Port] = {}
        self.waits: dict[int, Wait] = {}

    def follow(self, event: Event) -> Passage | None:
        """Goes on by an event, and answers which value it brings from where to where."""
        self.number += 1
        if not isinstance(event, (Settle, Tick)):
            self.tasks[event.task].last = self.number
        match event:
            case Make(_, port, what):
                self.ports[port] = port_made(port, what, self.number)
            case Spawn(_, spawned, kind, result):
                self.tasks[spawned] = Task(spawned, kind, result, self.number)
            case Done(task, _, side, port, value, accepted):
                return self.done(self.tasks[task], self.came(task, side, port), side, value, accepted)
            case Meet(task, _, side, port, value, wait, _):
                self.came(task, side, port)
                other = self.complete(wait, OTHER_SIDE[side], port)
                ends = (self.tasks[task], other) if side == "put" else (other, self.tasks[task])
                return Passage(*ends, value, self.ports[port])
            case Park(task, wait, branches):
                self.waits[wait] = Wait(wait, task, branches, False, self.number)
                self.tasks[task].wait = wait
            case Post(task, wait, port, value):
                self.waits[wait] = Wait(wait, task, (Branch("put", port, value),), True, self.number)
            case Settle(wait, _, side, port, value):
                return self.settled(self.ports[port], self.complete(wait, side, port), side, value)
            case Close(_, port):
                self.ports[port].is_closed = True
            case Tick(moment, ports):
                self.moment = moment
                for port in ports:
                    self.ports[port].is_closed = True
            case End(task):
                self.tasks[task].is_over = True
            case Fault(task, fault, line, column, result):
                self.tasks[task].is_over = True
                self.tasks[task].fault = f"{fault} at {line}:{column}"
                if result is not None:
                    self.ports[result].is_closed = True
        return None

    def came(self, task: int, side: str, port: int) -> Port:
        """The task used this side of the port."""
        self.ports[port].users[side][task] = self.number
        return self.ports[port]

    def complete(self, number: int, side: str, port: int) -> Task | Port:
        """The wait is over: its task goes on. For one that was posted the channel stands, where its value waited."""
        wait = self.waits.pop(number)
        self.came(wait.task, side, port)
        if wait.is_posted:
            return self.ports[port]
        self.tasks[wait.task].wait = None
        return self.tasks[wait.task]

    def done(self, task: Task, port: Port, side: str, value: str, accepted: bool) -> Passage | None:
        if side == "put" and not accepted:
            return None
        return self.settled(port, task, side, value)

    def settled(self, port: Port, other: Task | Port, side: str, value: str) -> Passage:
        """The channel accepts a value from a task or a post, or gives one; nil is given only where it is closed and empty."""
        if side == "put":
            port.keep(value)
            return Passage(other, port, value, port)
        if value != "nil":
            port.give()
        return Passage(port, other, value, port)


def follow(events: Iterable[Event]) -> Iterator[tuple[Run, Event, Passage | None]]:
    """Each event with what stands after it and the value that it brings."""
    run = Run()
    for event in events:
        try:
            passage = run.follow(event)
        except (KeyError, IndexError):
            raise NotAJournal(f"event {run.number} speaks of what isn't there: {event}") from None
        yield run, event, passage
