"""What the commands of this device did, so that another run can take it back.

The journal stands beside the settings: a line of JSON for each command that changed the books, the latest last. An entry is begun before the
first line of its command is told, and completed behind the last. Of a row that the command made, and that can be deleted, it has the name alone,
and of any other row the value that each field had.
"""
import dataclasses
import json
from typing import Dict, Iterable, List, Optional, Tuple

from .book import COLUMNS, Book, Message
from .errors import Refusal
from .settings import write_whole

KEPT = 200
LONGEST = 400


@dataclasses.dataclass
class Replaced:
    """A field that was written, and the text of the value that it had, if any."""
    dataset: str
    row: str
    column: str
    value: Optional[str]


@dataclasses.dataclass
class Entry:
    """What one command did: between two timestamps, by which lines, which rows it made and what it replaced elsewhere.

    Where commands behind it were undone, what they and their undoing wrote lies between the pairs of timestamps of `settled`: it left all as
    this command had left it.
    """
    command: List[str]
    since: str
    until: str = ""
    lines: List[str] = dataclasses.field(default_factory=list)
    made: List[Tuple[str, str]] = dataclasses.field(default_factory=list)
    replaced: List[Replaced] = dataclasses.field(default_factory=list)
    settled: List[Tuple[str, str]] = dataclasses.field(default_factory=list)

    @property
    def is_whole(self) -> bool:
        """Whether its command came to its end."""
        return bool(self.until)

    def spans(self) -> List[Tuple[str, str]]:
        """The pairs of timestamps between which this device wrote for this command, or for commands behind it that were undone."""
        return [(self.since, self.until)] + self.settled

    def tell(self, line: str) -> None:
        """Notes a line, a long one by its beginning."""
        self.lines.append(line if len(line) <= LONGEST else f"{line[:LONGEST]} .. ({len(line)} characters)")

    def complete(self, writes: List[Message], rows: Dict[Tuple[str, str], bool], values: Dict[Tuple[str, str, str], str]) -> None:
        """Notes what these messages wrote over: which rows were there, and the values of their fields."""
        fields = dict.fromkeys(message[1:4] for message in writes)
        self.until = max([self.until] + [message.stamp for message in writes])
        known = {(replaced.dataset, replaced.row, replaced.column) for replaced in self.replaced}
        made = dict.fromkeys(self.made)
        for dataset, row, column in fields:
            if (dataset, row) in made or (dataset, row, column) in known:
                continue
            if rows.get((dataset, row)) or "tombstone" not in COLUMNS.get(dataset, {}):
                self.replaced.append(Replaced(dataset, row, column, values.get((dataset, row, column))))
            else:
                made[dataset, row] = None
        self.made = list(made)


def what_stood(book: Book, writes: Iterable[Message]) -> Tuple[Dict[Tuple[str, str], bool], Dict[Tuple[str, str, str], str]]:
    """Which of the rows of these messages a book had, and the values of their fields there."""
    rows, values = {}, {}
    for message in writes:
        rows[message.dataset, message.row] = book.has_row(message.dataset, message.row)
        found = book.row(message.dataset, message.row).get(message.column)
        if found:
            values[message[1:4]] = found.value
    return rows, values


class Journal:
    """The entries, in a file."""

    def __init__(self, path: str):
        self.path = path
        self.entries: List[Entry] = []
        try:
            with open(path, encoding="utf-8") as file:
                self.entries = [entry_of(line) for line in file.read().splitlines()]
        except FileNotFoundError:
            pass
        except (OSError, ValueError, TypeError, KeyError) as fault:
            raise Refusal(f"The journal {path} can't be read: {fault}. Put it away by `mv {path} {path}.old`; what it has can't be undone then.") from fault

    def save(self) -> None:
        """Writes the file; of many entries the latest stay."""
        self.entries = self.entries[-KEPT:]
        write_whole(self.path, "".join(json.dumps(dataclasses.asdict(entry), ensure_ascii=False) + "\n" for entry in self.entries))

    def begin(self, command: List[str], since: str) -> Entry:
        """Begins the entry of a command."""
        entry = Entry(command, since)
        self.entries.append(entry)
        return entry

    def settle(self, entry: Entry, since: str, until: str) -> None:
        """Takes away the last entry, whose command was undone between two timestamps."""
        self.entries = [other for other in self.entries if other is not entry]
        if self.entries:
            self.entries[-1].settled += [*entry.settled, (entry.since, max(entry.until, entry.since)), (since, until)]
        self.save()

    def drop(self, entry: Entry) -> None:
        """Takes an entry away, whose command stays or never came."""
        self.entries = [other for other in self.entries if other is not entry]
        self.save()


def entry_of(line: str) -> Entry:
    """The entry of a line of the file."""
    told = json.loads(line)
    told["made"] = [(dataset, row) for dataset, row in told["made"]]
    told["settled"] = [(since, until) for since, until in told["settled"]]
    told["replaced"] = [Replaced(**replaced) for replaced in told["replaced"]]
    return Entry(**told)
