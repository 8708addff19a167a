"""Tells who waits at the end of a journal, for what, and whether anybody can come.

A journal doesn't tell which channels a task knows, but it tells who came to the other side of a channel before, and what
became of them. A task that waits comes nowhere before it is woken; so where no task could go on and no timeout is open,
nobody can come.
"""

from collections.abc import Iterable, Iterator
from graphlib import CycleError, TopologicalSorter

from .lines import Journal
from .run import OTHER_SIDE, Port, Run, Task, Wait, follow

DID = {"take": "took from", "put": "put into"}
WANTS = {"take": "take from", "put": "put into"}
SHOWN = 8
"""How many tasks are named at most where there are many."""


def listed(names: Iterable[str]) -> str:
    names = list(names)
    more = [f"{len(names) - SHOWN} more"] if len(names) > SHOWN else []
    return ", ".join(names[:SHOWN] + more)


def counted(number: int, what: str) -> str:
    return f"{number} {what}" + ("" if number == 1 else "s")


def became(task: Task) -> str:
    """What has become of a task."""
    if task.fault:
        return f"t{task.number} (faulted at event {task.last}: {task.fault})"
    if task.is_over:
        return f"t{task.number} (over at event {task.last})"
    return f"t{task.number} ({'could go on' if task.is_running else 'waits'})"


def state(port: Port) -> str:
    holds = f", holds {len(port.held)}" if port.capacity else ""
    return f"p{port.number} [{port.what}{holds}{', closed' if port.is_closed else ''}]"


class Groups:
    """The waits at the end of a run; waits of tasks of one kind for the same branches are told together."""

    def __init__(self, run: Run) -> None:
        self.run = run
        self.groups: dict[tuple, list[Wait]] = {}
        for wait in run.waits.values():
            branches = tuple((branch.side, branch.port) for branch in wait.branches)
            key = (run.tasks[wait.task].kind, wait.is_posted, branches)
            self.groups.setdefault(key, []).append(wait)

    def lines(self) -> Iterator[str]:
        for (kind, is_posted, branches), waits in self.groups.items():
            tasks = listed(f"t{wait.task}" for wait in waits)
            who = f"{counted(len(waits), 'put!')} of {tasks}" if is_posted else f"{tasks} {kind}"
            events = listed(str(wait.since) for wait in waits)
            yield f"{who} {'waits' if len(waits) == 1 else 'wait'} since event {events}:"
            for side, port in branches:
                yield f"    to {WANTS[side]} {state(self.run.ports[port])}: {self.prospects(side, self.run.ports[port], branches)}"

    def prospects(self, side: str, port: Port, branches: tuple) -> str:
        """Who came to the other side of the port, and whether somebody can."""
        other = OTHER_SIDE[side]
        users = [self.run.tasks[task] for task in port.users[other]]
        came = f"{listed(map(became, users))} {DID[other]} it" if users else f"nobody ever {DID[other]} it"
        return f"{came}; {self.verdict(other, port, users, branches)}"

    def verdict(self, other: str, port: Port, users: list[Task], branches: tuple) -> str:
        running = [task for task in self.run.tasks.values() if task.is_running]
        if port.ends is not None and not port.is_closed:
            return f"it closes at {port.ends} ms"
        if any(task.is_running for task in users):
            return "somebody of these can come"
        if running:
            return f"{listed(f't{task.number}' for task in running)} could go on, and may come"
        if self.open_timeouts():
            return "nobody can come before a timeout closes"
        if (other, port.number) in branches:
            return "nobody can come, as a choice doesn't meet itself"
        return "nobody can come"

    def open_timeouts(self) -> list[Port]:
        """Those that somebody waits for."""
        ports = (self.run.ports[port] for _, _, branches in self.groups for _, port in branches)
        return [port for port in ports if port.ends is not None and not port.is_closed]

    def circle(self) -> list[int]:
        """Tasks of which each waits for the next, which came to the other side before, and the last for the first."""
        waits_for = {wait.task: self.awaited(wait) for wait in self.run.waits.values() if not wait.is_posted}
        try:
            TopologicalSorter(waits_for).prepare()
        except CycleError as found:
            return found.args[1][::-1]
        return []

    def awaited(self, wait: Wait) -> list[int]:
        """The other tasks that wait and came to the other side of what it waits for."""
        users = (task for branch in wait.branches for task in self.run.ports[branch.port].users[OTHER_SIDE[branch.side]])
        return [task for task in users if task != wait.task and self.run.tasks[task].wait is not None]


def report(journal: Journal) -> str:
    run = Run()
    for run, _, _ in follow(journal.events):
        pass
    tasks = run.tasks.values()
    over, running = sum(task.is_over for task in tasks), sum(task.is_running for task in tasks)
    head = f"after {counted(run.number + 1, 'event')}{f' ({journal.end})' if journal.end else ''}: "
    groups = Groups(run)
    lines = [head + f"{counted(over, 'task')} over, {running} could go on, {len(tasks) - over - running} waiting"]
    lines += groups.lines()
    if circle := groups.circle():
        lines.append("in a circle: " + " waits for ".join(f"t{task}" for task in circle))
    return "".join(line + "\n" for line in lines)
