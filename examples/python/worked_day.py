#!/usr/bin/env python3
"""The grounds for a place in the results, from Python: reads a folder's day.rec (the record) and ask.pat (from and to, two bytes each,
then the pattern), finds the first shortest chain and prints it, and then each of its lines. A missing file counts as empty.

    PYTHONPATH=python python3 examples/python/worked_day.py examples/day
"""
import os
import sys
from pathlib import Path

import chains

# Exit statuses, as those of the program chains.
CALLED_WRONGLY, UNREADABLE, UNWRITTEN = 2, 4, 5


def fail(status, why):
    sys.stderr.write(f"worked_day.py: {why}\n")
    os._exit(status)  # nothing more is written


def read_file(folder, name):
    try:
        return Path(folder, name).read_bytes()
    except FileNotFoundError:
        return b""
    except OSError as error:
        fail(UNREADABLE, f"{name} cannot be read: {error.strerror}")


def in_words(line):
    """A line's fields, and its time where it has one."""
    said = f"from {line.from_}, kind {line.kind}, class {line.class_}, sail number {line.sail}, to {line.to}"
    return said if line.time is None else f"{said}, time {line.time}"


def answer(day, ask):
    """The lines to print."""
    if len(ask) < 4:
        return ["no question"]
    from_, to, pattern = int.from_bytes(ask[:2], "big"), int.from_bytes(ask[2:4], "big"), ask[4:]
    try:
        chain = chains.find(day, pattern, from_, to)
    except chains.Refused as refused:
        sys.stderr.write(f"worked_day.py: {refused}\n")
        return [f"refused {refused.number}"]
    if chain is None:
        return ["none"]
    lines = chains.lines(day)
    return [" ".join([f"found {len(chain)}:", *map(str, chain)])] + [f"line {number}: {in_words(lines[number])}" for number in chain]


def main():
    if len(sys.argv) != 2:
        fail(CALLED_WRONGLY, "one argument, a folder with day.rec and ask.pat")
    lines = answer(read_file(sys.argv[1], "day.rec"), read_file(sys.argv[1], "ask.pat"))
    try:
        print(*lines, sep="\n", flush=True)
    except OSError:
        fail(UNWRITTEN, "standard output cannot be written to")


main()
