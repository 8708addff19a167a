"""Writes a journal as Chrome trace events, which ui.perfetto.dev opens: any size, an event a millisecond.

Each task is a track of slices, one for each of its events, and one for each time that it waits. A meeting is an arrow from
the putter's slice to the taker's. Each channel that ever holds a value is a counter.
"""

import json
from collections.abc import Iterable, Iterator

from .lines import Branch, Close, Default, Done, End, Event, Fault, Make, Meet, Park, Post, Print, Register, Settle, Spawn, Tick
from .run import Passage, Port, Run, Task, follow

TASKS, CHANNELS = 1, 2
"""The two processes of the trace."""

EVENT = 1000
"""How long an event is, in microseconds; event k begins at k of these."""


def branches_text(branches: Iterable[Branch]) -> str:
    return ", ".join(f"{side} p{port}" + (f" {value}" if value is not None else "") for side, port, value in branches)


def name(event: Event) -> str:
    """What a slice is called."""
    match event:
        case Make(_, port, what):
            return f"make p{port} {what}"
        case Spawn(_, spawned, kind):
            return f"spawn t{spawned} {kind}"
        case Done(_, _, side, port, value, accepted):
            return f"{side} p{port} {value}" + ("" if accepted else " refused")
        case Meet(_, _, side, port, value):
            return f"{side} p{port} {value}"
        case Park(_, _, branches):
            return "waits: " + branches_text(branches)
        case Post(_, _, port, value):
            return f"put! p{port} {value}"
        case Default(_, value):
            return f"default {value}"
        case Close(_, port):
            return f"close p{port}"
        case Register(_, operation, arguments, _):
            return f"{operation} {' '.join(arguments)}"
        case Print(_, text):
            return "print " + text.rstrip("\n")
        case End():
            return "end"
        case Fault(_, fault, line, column):
            return f"fault {fault} at {line}:{column}"
    raise AssertionError(event)


def track(task: Task) -> dict:
    return {"pid": TASKS, "tid": task.number}


def slice_of(task: Task, title: str, kind: str, start: int, end: int) -> dict:
    """A slice of the task's track, from the beginning of one event to that of another."""
    return {"ph": "X", **track(task), "name": title, "cat": kind, "ts": start * EVENT, "dur": (end - start) * EVENT}


def arrow(number: int, at: int, passage: Passage) -> list[dict]:
    """From the putter's slice at this event to the taker's. One of the two makes the event, the other waited until then."""
    same = {"id": number, "name": f"p{passage.port.number} {passage.value}", "cat": "meet"}
    start = {"ph": "s", **track(passage.source), **same, "ts": at * EVENT + EVENT // 4}
    return [start, {"ph": "f", "bp": "e", **track(passage.target), **same, "ts": at * EVENT + 3 * EVENT // 4}]


def count(port: Port, at: int) -> dict:
    return {"ph": "C", "pid": CHANNELS, "name": f"p{port.number} {port.what}", "ts": at * EVENT, "args": {"holds": len(port.held)}}


def label(what: str, title: str, place: dict) -> dict:
    return {"ph": "M", **place, "name": what, "args": {"name": title}}


class Tracer:
    """Makes the trace events one event of the journal after another."""

    def __init__(self) -> None:
        self.waiting: dict[int, tuple[Task, int, str]] = {}
        self.counted: set[int] = set()
        self.meetings = 0

    def wait_over(self, run: Run, wait: int) -> Iterator[dict]:
        """The slice of a wait that the last event completed; none of one that was posted."""
        if wait in self.waiting:
            task, since, title = self.waiting.pop(wait)
            yield slice_of(task, title, "wait", since, run.number + 1)

    def holds(self, run: Run, port: Port) -> Iterator[dict]:
        """What a channel holds after a value came or went; it is a counter from its first value on."""
        if port.held and port.number not in self.counted:
            self.counted.add(port.number)
            yield {**count(port, port.born), "args": {"holds": 0}}
        if port.number in self.counted:
            yield count(port, run.number)

    def after(self, run: Run, event: Event, passage: Passage | None) -> Iterator[dict]:
        """The trace events of one event of the journal."""
        match event:
            case Park(task, wait):
                self.waiting[wait] = (run.tasks[task], run.number, name(event))
            case Tick(moment, ports):
                title = f"{moment} ms: closes " + " ".join(f"p{port}" for port in ports)
                yield {"ph": "i", "s": "g", "pid": TASKS, "tid": 0, "name": title, "ts": run.number * EVENT}
            case Meet(wait=wait) | Settle(wait):
                yield from self.wait_over(run, wait)
        if not isinstance(event, (Park, Settle, Tick)):
            task = run.tasks[event.task]
            yield slice_of(task, name(event), type(event).__name__.lower(), run.number, run.number + 1)
        if isinstance(event, Spawn):
            spawned = run.tasks[event.spawned]
            yield label("thread_name", f"t{spawned.number} {spawned.kind}", track(spawned))
        if isinstance(event, Meet) and isinstance(passage.source, Task) and isinstance(passage.target, Task):
            self.meetings += 1
            yield from arrow(self.meetings, run.number, passage)
        if isinstance(event, (Done, Settle)) and passage:
            yield from self.holds(run, passage.port)

    def never_over(self, last: int) -> Iterator[dict]:
        """The waits that no event completed."""
        for task, since, title in self.waiting.values():
            yield slice_of(task, title + " (for good)", "wait", since, last + 1)


def trace_events(events: Iterable[Event]) -> Iterator[dict]:
    tracer, run = Tracer(), Run()
    yield label("process_name", "tasks", {"pid": TASKS})
    yield label("process_name", "what channels hold", {"pid": CHANNELS})
    yield label("thread_name", "t0 main", {"pid": TASKS, "tid": 0})
    for run, event, passage in follow(events):
        yield from tracer.after(run, event, passage)
    yield from tracer.never_over(run.number)


def chunks(events: Iterable[Event]) -> Iterator[str]:
    """The JSON document, a trace event a line."""
    yield '{"displayTimeUnit": "ms", "traceEvents": [\n'
    comma = ""
    for made in trace_events(events):
        yield comma + json.dumps(made, separators=(",", ":"))
        comma = ",\n"
    yield "\n]}\n"
