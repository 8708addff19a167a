"""Draws a journal as a sequence diagram: time goes down, an event a row, a column for each task and channel.

A task's grey bar says that it waits, a channel's yellow one that it holds values. The result channel of a task isn't drawn
where nobody takes from it.
"""

from collections.abc import Iterable
from dataclasses import dataclass, field

from . import picture
from .lines import Close, Default, Done, End, Event, Fault, Make, Meet, Park, Post, Print, Register, Settle, Spawn, Tick
from .run import Passage, Port, Run, Task, follow

LEFT, COLUMN, ROW, BIRTH, TOP = 110, 124, 24, 44, 26
"""The first column's place, and how far the columns, rows, rows in which a column begins, and the first row lie apart."""


@dataclass
class Column:
    """A task's or a channel's: the row in which it begins, or -1; whether it is drawn and where; the row in which it ends;
    and its bars as (first row, row behind the last, kind, how much).
    """

    thing: Task | Port
    born: int
    is_used: bool = False
    x: float = 0
    ended: int | None = None
    bars: list[tuple[int, int, str, int]] = field(default_factory=list)
    open_bar: tuple[int, str, int] | None = None

    def mark(self, row: int, kind: str, amount: int) -> None:
        """From this row on there is so much of the kind; of 0 no bar is drawn."""
        if self.open_bar and self.open_bar[1:] != (kind, amount):
            start, old, much = self.open_bar
            self.bars.append((start, row, old, much))
            self.open_bar = None
        if amount and not self.open_bar:
            self.open_bar = (row, kind, amount)


@dataclass
class Row:
    """An event as an arrow between two columns, or as a mark at one or more with a label beside."""

    number: int
    kind: str
    label: str
    columns: tuple[Task | Port, ...]
    is_arrow: bool = False
    is_birth: bool = False


def used_results(events: Iterable[Event]) -> set[int]:
    """The channels from which somebody takes, or tries to."""
    taken = set()
    for event in events:
        match event:
            case Done(_, _, "take", port) | Settle(_, _, "take", port) | Meet(port=port):
                taken.add(port)
            case Park(_, _, branches):
                taken.update(branch.port for branch in branches if branch.side == "take")
    return taken


class Diagram:
    """The rows of the events `first` to `last`, and the columns that they use."""

    def __init__(self, events: list[Event], first: int, last: int) -> None:
        taken = used_results(events)
        results = {event.result for event in events if isinstance(event, Spawn)}
        self.hidden = {port for port in results if port not in taken}
        self.rows: list[Row] = []
        self.columns: dict[int, Column] = {}
        for run, event, passage in follow(events):
            if run.number > last:
                break
            if run.number >= first:
                self.rows.append(self.row(run, event, passage))
                self.follow_columns(run, self.rows[-1])

    def is_drawn(self, thing: Task | Port) -> bool:
        return isinstance(thing, Task) or (thing.is_channel and thing.number not in self.hidden)

    def between(self, run: Run, kind: str, label: str, ends: tuple[Task | Port, Task | Port], alone: str) -> Row:
        """An arrow with this label between two that have columns, or else a mark at the one that has, with the other."""
        drawn = tuple(thing for thing in ends if self.is_drawn(thing))
        if len(drawn) == 2 and drawn[0] is not drawn[1]:
            return Row(run.number, kind, label, drawn, is_arrow=True, is_birth=kind in ("make", "spawn"))
        return Row(run.number, kind, alone, drawn[:1])

    def row(self, run: Run, event: Event, passage: Passage | None) -> Row:
        """How an event is drawn."""
        at = run.number
        match event:
            case Done() | Meet() | Settle() if passage:
                return self.passing(run, event, passage)
            case Done(task, _, _, port, value):
                ends = (run.tasks[task], run.ports[port])
                return self.between(run, "refused", f"{value} refused", ends, f"p{port} refuses {value}")
            case Make(task, port, what):
                return self.between(run, "make", "make", (run.tasks[task], run.ports[port]), f"make p{port} {what}")
            case Spawn(task, spawned):
                return self.between(run, "spawn", "spawn", (run.tasks[task], run.tasks[spawned]), "")
            case Park(task, _, branches):
                wants = ", ".join(f"{branch.side} p{branch.port}" for branch in branches)
                return Row(at, "park", f"waits: {wants}", (run.tasks[task],))
            case Post(task, _, port, value):
                return self.between(run, "post", f"{value} waits", (run.tasks[task], run.ports[port]), f"p{port}: {value} waits")
            case Close(task, port):
                return self.between(run, "close", "close", (run.tasks[task], run.ports[port]), f"close p{port}")
            case Tick(moment, ports):
                return Row(at, "tick", f"{moment} ms", tuple(run.ports[port] for port in ports))
            case Default(task, value):
                return Row(at, "default", f"default {value}", (run.tasks[task],))
            case Register(task, name, arguments, answer):
                return Row(at, "register", f"{name} {' '.join(arguments)} = {answer}", (run.tasks[task],))
            case Print(task, text):
                return Row(at, "print", "prints " + text.rstrip("\n"), (run.tasks[task],))
            case End(task):
                return Row(at, "over", "", (run.tasks[task],))
            case Fault(task, fault, line, column):
                return Row(at, "fault", f"{fault} at {line}:{column}", (run.tasks[task],))
        raise AssertionError(event)

    def passing(self, run: Run, event: Event, passage: Passage) -> Row:
        """A value that passes; a nil that is taken is none."""
        value, port = passage.value, passage.port.number
        label = f"{value} by p{port}" if isinstance(event, Meet) else value
        alone = f"takes in {value}" if passage.source is passage.target else f"result {value}"
        return self.between(run, "none" if value == "nil" else "value", label, (passage.source, passage.target), alone)

    def follow_columns(self, run: Run, row: Row) -> None:
        """The bars of all columns from this row on, and which of them the row uses."""
        at = len(self.rows) - 1
        for thing in [*run.tasks.values(), *run.ports.values()]:
            is_new = row.is_birth and thing is row.columns[-1]
            column = self.columns.setdefault(id(thing), Column(thing, at if is_new else -1))
            column.is_used = column.is_used or thing in row.columns
            if isinstance(thing, Port):
                column.mark(at, "holds", len(thing.held))
            else:
                column.mark(at, "waits", thing.wait is not None)
            if column.ended is None and (thing.is_closed if isinstance(thing, Port) else thing.is_over):
                column.ended = at

    def draw(self) -> str:
        """The picture, as an SVG document."""
        columns = sorted((column for column in self.columns.values() if column.is_used), key=lambda column: column.thing.born)
        for place, column in enumerate(columns):
            column.x = LEFT + place * COLUMN
        ys, y = [], TOP + BIRTH / 2
        for row in self.rows:
            height = BIRTH if row.is_birth else ROW
            ys.append(y + height / 2)
            y += height
        ys.append(y)
        shapes = [shape for column in columns for shape in self.lifeline(column, ys)]
        width = LEFT + len(columns) * COLUMN - 40
        for row, y in zip(self.rows, ys):
            shapes.append(picture.text(40, y + 4, str(row.number), "number", "end"))
            drawn, right = self.draw_row(row, y, width)
            shapes += drawn
            width = max(width, right)
        for column in columns:
            shapes += self.head(column, ys)
        return picture.document(width, ys[-1] + 16, shapes)

    def head(self, column: Column, ys: list[float]) -> list[str]:
        thing, y = column.thing, TOP if column.born < 0 else ys[column.born]
        if isinstance(thing, Task):
            return picture.box(column.x, y, f"t{thing.number}", thing.kind, "task")
        return picture.box(column.x, y, f"p{thing.number}", thing.what, "port")

    def lifeline(self, column: Column, ys: list[float]) -> list[str]:
        """A task's line ends with it; a channel's goes on behind its close, lighter."""
        top, bottom = TOP if column.born < 0 else ys[column.born], ys[-1]
        end = bottom if column.ended is None else ys[column.ended]
        if isinstance(column.thing, Task):
            shapes = [picture.line(column.x, top, column.x, end, "life")]
        else:
            shapes = [picture.line(column.x, top, column.x, end, "channel"), picture.line(column.x, end, column.x, bottom, "closed")]
        column.mark(len(ys) - 1, "", 0)
        for start, stop, kind, amount in column.bars:
            shapes.append(picture.bar(column.x, ys[start], ys[stop], 8 if kind == "waits" else min(3 + 3 * amount, 24), kind))
        return shapes

    def draw_row(self, row: Row, y: float, width: float) -> tuple[list[str], float]:
        """The row's shapes, and how far to the right they go."""
        xs = [self.columns[id(thing)].x for thing in row.columns]
        if row.is_arrow:
            return picture.arrow(*xs, y, row.label, row.kind, gap=52 if row.is_birth else 6), 0
        if row.kind == "tick":
            shapes = [picture.line(50, y, width - 10, y, "tick"), *(picture.cross(x, y, "fault") for x in xs)]
            return [*shapes, picture.text(52, y - 4, row.label, "kind")], 0
        mark = picture.cross(xs[0], y, row.kind) if row.kind in ("over", "fault") else picture.dot(xs[0], y)
        label = picture.shown(row.label, 44)
        return [mark, picture.text(xs[0] + 10, y + 4, label, row.kind)], xs[0] + 24 + len(label) * picture.CHARACTER


def svg(events: list[Event], first: int, last: int) -> str:
    """The diagram of the events `first` to `last`."""
    return Diagram(events, first, last).draw()
