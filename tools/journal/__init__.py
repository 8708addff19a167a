"""Reads the journal of a run (docs/journal.md) and draws or explains it.

`lines` reads each line to an event, `run` follows the events and knows what stands after each, and `diagram`, `trace` and
`stuck` are what the commands of `tools/journal.py` write.
"""
