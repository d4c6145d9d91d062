"""Takes back what the last command did, by lines of the program, also in another run of it.

What somebody else has changed since stays, and so does what others rest on. A command is taken back as a whole or not at all; but an import,
and a run of rules, row by row.
"""
from typing import Dict, List, Tuple

from .book import COLUMNS, FLAG, INT, Book, Message
from .errors import Refusal
from .journal import Entry, Replaced
from .names import account_name, category_name, handles, payee_name
from .session import Session
from .words import counted, line_of, listed

Row = Tuple[str, str]
KINDS = {"accounts": "account", "category_groups": "group", "categories": "category", "payees": "payee", "transactions": "transaction",
         "zero_budgets": "budget", "zero_budget_months": "month", "notes": "note", "rules": "rule", "schedules": "schedule",
         "category_mapping": "category", "payee_mapping": "payee"}
# which columns name rows of a dataset
NAMED_BY: Dict[str, List[Tuple[str, str]]] = {
    "accounts": [("transactions", "acct")],
    "category_groups": [("categories", "cat_group")],
    "categories": [("transactions", "category"), ("category_mapping", "transferId")],
    "payees": [("transactions", "description"), ("payee_mapping", "targetId")],
    "schedules": [("transactions", "schedule")],
}
# what the row of a budget says of itself stays as it is
OWN_NAMES = {("zero_budgets", "month"), ("zero_budgets", "category")}


class TakingBack:
    """How an entry is taken back in the book as it is now."""

    def __init__(self, entry: Entry, book: Book, node: str):
        self.entry = entry
        self.book = book
        self.end = "-" + node.rjust(16, "0")
        self.by_row = entry.command[0] == "import" or entry.command[:2] == ["rules", "run"]
        self.stays: Dict[Row, str] = {}
        self.made = set(entry.made)
        self.written = {(each.dataset, each.row, each.column) for each in entry.replaced}
        self.users = self._users()
        for replaced in entry.replaced:
            self._look_at(replaced)
        for dataset, row in entry.made:
            self._look_at_made(dataset, row)
        self._keep_what_is_named()

    def _look_at(self, replaced: Replaced) -> None:
        message = self.book.row(replaced.dataset, replaced.row).get(replaced.column)
        if message and message.value != value_before(replaced) and not self._is_ours(message):
            self.stays.setdefault((replaced.dataset, replaced.row), f"`{replaced.column}` was changed later by {node_of(message)}")

    def _look_at_made(self, dataset: str, row: str) -> None:
        values = self.book.row(dataset, row)
        others = [] if values.flag("tombstone") else [message for message in values.values() if not self._is_ours(message)]
        if others:
            self.stays.setdefault((dataset, row), f"it was changed later by {node_of(others[0])}")
        users = self.users.get((dataset, row), {})
        if users:
            self.stays.setdefault((dataset, row), f"{listed([kinds_of(number, other) for other, number in users.items()])} of later name it")

    def _users(self) -> Dict[Row, Dict[str, int]]:
        """How many live rows of each dataset name each row of the command, beside those that the command made or let name it."""
        users: Dict[Row, Dict[str, int]] = {}
        for dataset, columns in NAMED_BY.items():
            for other, column in columns:
                for name, values in self.book.rows[other].items():
                    named = (dataset, values.text(column) or "")
                    if named in self.made and (other, name) not in self.made and (other, name, column) not in self.written and not values.flag("tombstone"):
                        of_row = users.setdefault(named, {})
                        of_row[other] = of_row.get(other, 0) + 1
        return users

    def _keep_what_is_named(self) -> None:
        """What a row names that was made with it and stays, stays as well."""
        for dataset, row in list(self.stays):
            for other, named in self.entry.made:
                columns = [column for by, column in NAMED_BY.get(other, []) if by == dataset]
                if any(self.book.row(dataset, row).text(column) == named for column in columns):
                    self.stays.setdefault((other, named), "what stays names it")

    def _is_ours(self, message: Message) -> bool:
        return message.stamp.endswith(self.end) and any(since < message.stamp <= until for since, until in self.entry.spans())

    def lines(self) -> List[str]:
        """The lines that take back what doesn't stay, the latest first."""
        lines = []
        for dataset, row in reversed(self.entry.made):
            if (dataset, row) not in self.stays and not self.book.row(dataset, row).flag("tombstone"):
                lines.append(line_of(["set", dataset, row, "tombstone", "N:1"]))
        for replaced in reversed(self.entry.replaced):
            message = self.book.row(replaced.dataset, replaced.row).get(replaced.column)
            is_back = message is not None and message.value == value_before(replaced)
            is_own_name = replaced.value is None and (replaced.dataset, replaced.column) in OWN_NAMES
            if (replaced.dataset, replaced.row) not in self.stays and not is_back and not is_own_name:
                lines.append(line_of(["set", replaced.dataset, replaced.row, replaced.column, value_before(replaced)]))
        return lines

    def reasons(self) -> List[str]:
        """A sentence for each row that stays."""
        return [f"The {said(self.book, dataset, row)} stays, since {reason}." for (dataset, row), reason in self.stays.items()]


def kinds_of(number: int, dataset: str) -> str:
    """So many rows of a dataset, in words."""
    return counted(number, KINDS[dataset], "categories" if KINDS[dataset] == "category" else "")


def value_before(replaced: Replaced) -> str:
    """The text of the value that a field had, or of the one that stands for none."""
    if replaced.value is not None:
        return replaced.value
    return "N:0" if COLUMNS.get(replaced.dataset, {}).get(replaced.column) in (FLAG, INT) else "0:"


def node_of(message: Message) -> str:
    """The node that wrote a message."""
    return message.stamp[-16:].lstrip("0")


def said(book: Book, dataset: str, row: str) -> str:
    """What a row is called in a sentence."""
    names = {"accounts": account_name, "categories": category_name, "payees": payee_name, "category_mapping": category_name, "payee_mapping": payee_name}
    if dataset == "transactions":
        return f"transaction {handles(book).get(row, row)}"
    if dataset in names:
        return f"{KINDS[dataset]} {names[dataset](book, row)!r}"
    if dataset == "zero_budgets":
        return f"budget of {category_name(book, row[7:])!r} in {row[:4]}-{row[4:6]}"
    text = book.row(dataset, row).text("name") or row
    return f"{KINDS.get(dataset, dataset)} {text!r}"


def undo(session: Session) -> List[str]:
    """Takes the last command back; gives what is told of it."""
    entry = last_of(session)
    taking = TakingBack(entry, session.book, session.settings.node)
    if taking.stays and not taking.by_row:
        raise Refusal(f"{quoted(entry)} can't be taken back. {' '.join(taking.reasons())} Nothing has changed. Mend it by hand where you want to; "
                      "`budget undo --skip` passes over it, so that the command before it comes next.")
    lines = taking.lines()
    session.take_back(entry, lines)
    return [f"Taken back: {quoted(entry)}, by {counted(len(lines), 'line')}."] + taking.reasons()


def skip(session: Session) -> List[str]:
    """Passes over the last command, which then stays."""
    entry = last_of(session)
    session.journal.drop(entry)
    return [f"Passed over: {quoted(entry)}. It stays; the next `budget undo` takes back the command before it."]


def last_of(session: Session) -> Entry:
    """The entry of the last command that changed the books."""
    entry = session.last_entry()
    if entry is None:
        raise Refusal("There is nothing to undo: the journal beside the settings has no command that changed the books. What a sync brought, and "
                      "what another device did, can be undone at the device that did it.")
    return entry


def quoted(entry: Entry) -> str:
    """A command as it was typed."""
    return f"`budget {' '.join(word if word and ' ' not in word else repr(word) for word in entry.command)}`"
