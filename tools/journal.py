#!/usr/bin/env python3
"""Draws or explains the journal of a run, which `runzolev run --journal` writes (docs/journal.md).

  journal.py svg [FILE]     a sequence diagram: a column for each task and channel, an event a row
  journal.py trace [FILE]   Chrome trace events, for ui.perfetto.dev: a track for each task, an event a millisecond
  journal.py stuck [FILE]   who waits for what, and whether anybody can come

The journal is read from FILE, else from standard input; the output that stands before it does no harm.
"""

import argparse
import signal
import sys

from journal import diagram, lines, stuck, trace

EVENTS = 300
"""How many events a diagram has at most, unless it is told which."""


def words() -> argparse.Namespace:
    summary, _, details = __doc__.partition("\n\n")
    reader = argparse.ArgumentParser(
        prog="journal.py", description=summary, epilog=details, formatter_class=argparse.RawDescriptionHelpFormatter
    )
    reader.add_argument("command", choices=("svg", "trace", "stuck"))
    reader.add_argument("file", nargs="?", metavar="FILE")
    reader.add_argument("--from", dest="first", type=int, default=0, metavar="N", help="svg: the first event that is drawn")
    reader.add_argument("--to", dest="last", type=int, metavar="N", help=f"svg: the last one (else {EVENTS} are drawn)")
    return reader.parse_intermixed_args()


def read(file: str | None) -> lines.Journal:
    with open(file, "rb") if file else sys.stdin.buffer as source:
        return lines.read(source.read().decode(errors="replace"))


def main() -> int:
    given = words()
    try:
        journal = read(given.file)
        match given.command:
            case "svg":
                last = given.first + EVENTS - 1 if given.last is None else given.last
                sys.stdout.write(diagram.svg(journal.events, given.first, last))
                if given.last is None and last + 1 < len(journal.events):
                    print(f"journal.py: of {len(journal.events)} events {given.first} to {last} are drawn; see --to", file=sys.stderr)
            case "trace":
                sys.stdout.writelines(trace.chunks(journal.events))
            case "stuck":
                sys.stdout.write(stuck.report(journal))
    except (lines.NotAJournal, OSError) as problem:
        print(f"journal.py: {problem}", file=sys.stderr)
        return 1
    return 0


if __name__ == "__main__":
    signal.signal(signal.SIGPIPE, signal.SIG_DFL)
    sys.exit(main())
