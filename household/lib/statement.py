"""The command `household/statement`."""
import argparse
import os
import sys
from pathlib import Path

from lib.amounts import plain
from lib.faults import Fault
from lib.lines import csv_text, import_lines
from lib.options import add_options, statement_of
from lib.records import Statement

DESCRIPTION = """Makes of a bank's export the line `import` of a device (or several lines, where one would be too long), on standard output.
What it has read it tells on standard error. What can't be read is told with its line and column; then nothing is written, and the status is 1."""


def _parser() -> argparse.ArgumentParser:
    parser = argparse.ArgumentParser(prog="statement", description=DESCRIPTION, allow_abbrev=False)
    parser.add_argument("account", metavar="ACCOUNT", help="the id of the account in the books")
    parser.add_argument("file", metavar="FILE", nargs="?", default="-", help="the export; without it, or with -, standard input")
    parser.add_argument("--csv", action="store_true", help="writes the statement as a CSV file in place of the lines, to be looked at")
    parser.add_argument("--quiet", action="store_true", help="doesn't tell what it has read")
    add_options(parser)
    return parser


def summary(statement: Statement) -> list[str]:
    """What was read, as sentences for a person."""
    records = statement.records
    told = []
    if records:
        days = sorted(record.day for record in records)
        total = plain(sum(record.amount for record in records))
        told.append(f"{len(records)} records from {days[0]} to {days[-1]}, {total} in all; {statement.ids_made} without an id of the bank")
    else:
        told.append("no records")
    for why, lines in statement.left_out.items():
        shown = ", ".join(map(str, sorted(lines)[:10])) + (", .." if len(lines) > 10 else "")
        told.append(f"{len(lines)} left out ({why}): line {shown}")
    return told


def _read(path: str) -> bytes:
    return sys.stdin.buffer.read() if path == "-" else Path(path).read_bytes()


def _write(output: bytes) -> int:
    """Writes to standard output, and gives the status of the command."""
    try:
        sys.stdout.buffer.write(output)
        sys.stdout.buffer.flush()
    except OSError as fault:
        # nothing more is written when the interpreter ends
        os.dup2(os.open(os.devnull, os.O_WRONLY), sys.stdout.fileno())
        print(f"standard output: {fault.strerror}", file=sys.stderr)
        return 1
    return 0


def main(words: list[str] | None = None) -> int:
    """Runs the command, and gives its status."""
    options = _parser().parse_args(words)
    name = "standard input" if options.file == "-" else options.file
    try:
        statement = statement_of(_read(options.file), options)
        if options.csv:
            output = csv_text(statement.records).encode()
        else:
            output = b"".join(line.text + b"\n" for line in import_lines(options.account, statement.records))
    except Fault as fault:
        print(f"{name}: {fault}", file=sys.stderr)
        return 1
    except OSError as fault:
        print(f"{name}: {fault.strerror}", file=sys.stderr)
        return 1
    if not options.quiet:
        for sentence in summary(statement):
            print(f"{name}: {sentence}", file=sys.stderr)
    return _write(output)
