"""The lines `import` of a statement, as the core takes them."""
import csv
import io
from dataclasses import dataclass

from lib.amounts import plain
from lib.faults import Fault
from lib.records import Record

# the core passes over a longer line
LINE_LIMIT = 1_048_576

# the core refuses a line that makes more than 65,536 writes; a record makes eleven at most: a row of ten fields, and the name of a payee
RECORDS_LIMIT = 5_000

HEADER = ("date", "amount", "payee", "notes", "id")


@dataclass(frozen=True)
class ImportLine:
    """A line without its LF, and how many records it has."""

    text: bytes
    records: int


def word(text: str) -> bytes:
    """A text as a word of a line of the core."""
    for letter, escape in (("\\", "\\\\"), ("\0", "\\0"), ("\t", "\\t"), ("\n", "\\n")):
        text = text.replace(letter, escape)
    try:
        return text.encode()
    except UnicodeEncodeError:
        raise Fault(f"{text!r} is no text of UTF-8") from None


def _csv_line(fields: tuple[str, ...]) -> str:
    text = io.StringIO()
    csv.writer(text, lineterminator="\n").writerow(fields)
    return text.getvalue()


def csv_line(record: Record) -> str:
    """A record as the core's statements have it, with LF."""
    return _csv_line((record.day.isoformat(), plain(record.amount), record.payee, record.notes, record.id))


def csv_text(records: list[Record]) -> str:
    """The statement as a CSV file that the core reads."""
    return _csv_line(HEADER) + "".join(csv_line(record) for record in records)


def import_lines(account: str, records: list[Record]) -> list[ImportLine]:
    """The lines that import the records: one, or as many as the core's limits ask for, and none where there is no record.

    Each record has an id, so what an earlier line made is never taken for a record of a later one.
    """
    start = b"import\t" + word(account) + b"\t" + word(_csv_line(HEADER))
    lines: list[ImportLine] = []
    pieces: list[bytes] = []
    size = len(start)
    for record in records:
        piece = word(csv_line(record))
        if len(start) + len(piece) > LINE_LIMIT:
            raise Fault(f"the record has more than the {LINE_LIMIT} bytes of a line", record.line)
        if size + len(piece) > LINE_LIMIT or len(pieces) == RECORDS_LIMIT:
            lines.append(ImportLine(start + b"".join(pieces), len(pieces)))
            pieces, size = [], len(start)
        pieces.append(piece)
        size += len(piece)
    if pieces:
        lines.append(ImportLine(start + b"".join(pieces), len(pieces)))
    return lines
