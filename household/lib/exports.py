"""The text of an export: its encoding, the line of its header, its delimiter, and its records with the lines where they begin."""
import csv
import io
import itertools
import unicodedata
from collections.abc import Callable, Iterator
from dataclasses import dataclass, field

from lib.faults import Fault

DELIMITERS = {"comma": ",", "semicolon": ";", "tab": "\t", "bar": "|"}

# a field longer than this is a quote that was never closed
FIELD_LIMIT = 65_536
csv.field_size_limit(FIELD_LIMIT)

# a header stands within the first lines
HEADER_WITHIN = 100

MARKS = ((b"\xef\xbb\xbf", "utf-8-sig"), (b"\xff\xfe", "utf-16"), (b"\xfe\xff", "utf-16"))


@dataclass(frozen=True)
class Row:
    """The fields of a record, and the line of the file where it begins, from 1."""

    line: int
    fields: list[str]

    def is_empty(self) -> bool:
        """Whether no field has more than blanks."""
        return not any(text.strip() for text in self.fields)


@dataclass
class Table:
    """A header, as the file has it, the places of its columns by their names, and the records behind it."""

    header: list[str]
    rows: list[Row]
    line: int
    places: dict[str, int] = field(init=False)

    def __post_init__(self) -> None:
        self.places = {}
        for place, name in enumerate(self.header):
            # of several columns of one name the first counts
            self.places.setdefault(plain_name(name), place)

    def has(self, name: str) -> bool:
        """Whether there is a column of this name."""
        return plain_name(name) in self.places

    def place(self, name: str) -> int:
        """The place of a column that is there, from 0."""
        return self.places[plain_name(name)]

    def text(self, row: Row, name: str) -> str:
        """What a record has in a column that is there, without blanks at its ends."""
        return row.fields[self.place(name)].strip()

    def fault(self, message: str, row: Row, name: str) -> Fault:
        """A fault in a field of a record."""
        return Fault(message, row.line, self.place(name) + 1, self.header[self.place(name)].strip())


def plain_name(name: str) -> str:
    """The name of a column as it is compared: whatever its capitals, its blanks and its way to write an umlaut."""
    return " ".join(unicodedata.normalize("NFKC", name).casefold().split())


def encoding_of(data: bytes) -> str:
    """The encoding of an export: by its mark, by its zero bytes, UTF-8 where it is that, and else the one of Western Europe."""
    for mark, name in MARKS:
        if data.startswith(mark):
            return name
    even, odd = data[0:4096:2].count(0), data[1:4096:2].count(0)
    if max(even, odd) * 4 > len(data[:4096]):
        return "utf-16-be" if even > odd else "utf-16-le"
    for name in ("utf-8", "cp1252"):
        try:
            data.decode(name)
        except UnicodeDecodeError:
            continue
        return name
    return "latin-1"


def decode(data: bytes, encoding: str | None = None) -> str:
    """The text of an export, in the encoding that is named or found. A mark in front of it is left out."""
    name = encoding or encoding_of(data)
    try:
        text = data.decode(name)
    except UnicodeDecodeError as fault:
        line = data[: fault.start].count(b"\n") + 1
        raise Fault(f"the bytes are no {name} ({fault.reason})", line) from None
    except UnicodeError as fault:
        raise Fault(f"the bytes are no {name} ({fault})") from None
    except LookupError:
        raise Fault(f'there is no encoding "{name}"') from None
    return text.removeprefix("\ufeff")


def _lines(text: str) -> Iterator[tuple[int, str]]:
    """Each line with its number from 1 and with its end, which is CR, LF or both."""
    return enumerate(io.StringIO(text, newline=""), 1)


def _first_lines(text: str) -> Iterator[tuple[int, str]]:
    """The lines among which a header is looked for."""
    return itertools.islice(_lines(text), HEADER_WITHIN)


def _fields(line: str, delimiter: str) -> list[str]:
    """The fields of one line by itself; none where it can't be read."""
    try:
        return next(csv.reader([line], delimiter=delimiter, skipinitialspace=True), [])
    except csv.Error:
        return []


def _rows(text: str, delimiter: str, first: int) -> Iterator[Row]:
    """The records from the line `first` on, which may have line ends inside quotes."""
    lines = (line for number, line in _lines(text) if number >= first)
    reader = csv.reader(lines, delimiter=delimiter, skipinitialspace=True, strict=True)
    while True:
        line = first + reader.line_num
        try:
            fields = next(reader)
        except StopIteration:
            return
        except csv.Error as fault:
            raise Fault(f"the quotes of this record can't be read ({fault})", line) from None
        yield Row(line, fields)


def _trimmed(fields: list[str]) -> list[str]:
    """The fields without empty ones at the end."""
    end = len(fields)
    while end and not fields[end - 1].strip():
        end -= 1
    return fields[:end]


def find_table(text: str, delimiters: str, is_header: Callable[[list[str]], bool]) -> Table | None:
    """The table behind the first line that is a header, by whichever of the delimiters; none where no line is."""
    for number, line in _first_lines(text):
        for delimiter in delimiters:
            names = _trimmed(_fields(line, delimiter))
            if is_header([plain_name(name) for name in names]):
                return Table(names, list(_rows(text, delimiter, number))[1:], number)
    return None


def table_without_header(text: str, delimiters: str, columns: int) -> Table | None:
    """The table of an export whose first line is a record of at least so many columns already; they are named by their numbers from 1."""
    for number, line in _first_lines(text):
        for delimiter in delimiters:
            if len(_fields(line, delimiter)) >= columns:
                rows = list(_rows(text, delimiter, number))
                return Table([str(place) for place in range(1, len(rows[0].fields) + 1)], rows, number)
    return None


def widest_line(text: str) -> tuple[int, list[str]]:
    """The line with the most fields, and these: where no header was found, most likely it."""
    best: tuple[int, list[str]] = (1, [])
    for number, line in _first_lines(text):
        for delimiter in DELIMITERS.values():
            fields = _trimmed(_fields(line, delimiter))
            if len(fields) > len(best[1]):
                best = (number, fields)
    return best
