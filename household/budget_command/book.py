"""The rows of the household's books, as the line `fields` tells them.

docs/FORMATS.md ("Tables") has the datasets, their columns and how each is read: a flag is the number 1, a number is 0 where there is none,
and a text or a day may be absent.
"""
import dataclasses
import functools
import re
from typing import Dict, Iterable, List, NamedTuple, Optional

from .words import GREATEST, day_text, is_day_text, unescape

FLAG, INT, TEXT, DAY = "flag", "int", "text", "day"
# the texts of numbers; any other text is no number
NUMBER = re.compile(r"N:(0|-?[1-9][0-9]{0,15})")
COLUMNS: Dict[str, Dict[str, str]] = {
    "accounts": {"name": TEXT, "offbudget": FLAG, "closed": FLAG, "sort_order": INT, "tombstone": FLAG},
    "category_groups": {"name": TEXT, "is_income": FLAG, "sort_order": INT, "hidden": FLAG, "tombstone": FLAG},
    "categories": {"name": TEXT, "cat_group": TEXT, "is_income": FLAG, "sort_order": INT, "hidden": FLAG, "tombstone": FLAG},
    "payees": {"name": TEXT, "transfer_acct": TEXT, "tombstone": FLAG},
    "transactions": {
        "acct": TEXT, "date": DAY, "amount": INT, "description": TEXT, "category": TEXT, "notes": TEXT, "imported_description": TEXT,
        "financial_id": TEXT, "transferred_id": TEXT, "schedule": TEXT, "isParent": FLAG, "isChild": FLAG, "parent_id": TEXT,
        "cleared": FLAG, "reconciled": FLAG, "sort_order": INT, "tombstone": FLAG},
    "zero_budgets": {"month": INT, "category": TEXT, "amount": INT, "carryover": FLAG},
    "zero_budget_months": {"buffered": INT},
    "notes": {"note": TEXT},
    "rules": {"stage": TEXT, "conditions_op": TEXT, "conditions": TEXT, "actions": TEXT, "tombstone": FLAG},
    "schedules": {"rule": TEXT, "name": TEXT, "next_date": DAY, "completed": FLAG, "posts_transaction": FLAG, "tombstone": FLAG},
    "category_mapping": {"transferId": TEXT},
    "payee_mapping": {"targetId": TEXT},
}


class Message(NamedTuple):
    """The latest message of a field."""
    stamp: str
    dataset: str
    row: str
    column: str
    value: str


def message_of(line: str) -> Message:
    """The message of a line."""
    return Message(*(unescape(part) for part in line.split("\t")))


class Values(Dict[str, Message]):
    """The latest messages of a row, by column."""

    def text(self, column: str) -> Optional[str]:
        """The text, if it is there."""
        value = self[column].value if column in self else ""
        return value[2:] if value.startswith("S:") else None

    def number(self, column: str) -> int:
        """The number, or 0."""
        found = NUMBER.fullmatch(self[column].value) if column in self else None
        number = int(found.group(1)) if found else 0
        return number if abs(number) <= GREATEST else 0

    def flag(self, column: str) -> bool:
        """Whether the flag is set."""
        return column in self and self[column].value == "N:1"

    def day(self, column: str) -> str:
        """The day `2024-02-03`, or the empty text."""
        text = day_text(str(self.number(column)))
        return text if is_day_text(text) else ""


@dataclasses.dataclass(frozen=True)
class Account:
    """An account."""
    id: str
    name: str
    off_budget: bool
    closed: bool
    live: bool


@dataclasses.dataclass(frozen=True)
class Group:
    """A group of categories."""
    id: str
    name: str
    income: bool
    live: bool
    order: int


@dataclasses.dataclass(frozen=True)
class Category:
    """A category; it is live where it was not deleted and its group is live."""
    id: str
    name: str
    group: Optional[Group]
    live: bool
    order: int

    @property
    def label(self) -> str:
        """The name behind that of the group."""
        return f"{self.group.name}/{self.name}" if self.group else self.name


@dataclasses.dataclass(frozen=True)
class Payee:
    """A payee; where it has an account it stands for that account in transfers."""
    id: str
    name: str
    account: Optional[str]
    live: bool


@dataclasses.dataclass(frozen=True)
class Transaction:
    """A transaction, with the payee and the category that their ids stand for."""
    id: str
    account: Optional[str]
    day: str
    amount: int
    payee: Optional[str]
    category: Optional[str]
    notes: str
    imported: str
    partner: Optional[str]
    schedule: Optional[str]
    parent: Optional[str]
    is_split: bool
    is_part: bool
    cleared: bool
    reconciled: bool
    live: bool


@dataclasses.dataclass(frozen=True)
class Rule:
    """A rule, with its JSON texts."""
    id: str
    stage: Optional[str]
    join: str
    conditions: str
    actions: str
    live: bool


@dataclasses.dataclass(frozen=True)
class Schedule:
    """A schedule."""
    id: str
    name: str
    rule: Optional[str]
    next_day: str
    completed: bool
    live: bool


class Book:
    """The rows of all datasets."""

    def __init__(self, lines: Iterable[str]):
        self.rows: Dict[str, Dict[str, Values]] = {dataset: {} for dataset in COLUMNS}
        self.latest = ""
        for line in lines:
            message = message_of(line)
            self.latest = max(self.latest, message.stamp)
            self.rows.setdefault(message.dataset, {}).setdefault(message.row, Values())[message.column] = message

    def row(self, dataset: str, row: str) -> Values:
        """The values of a row, none where it isn't there."""
        return self.rows.get(dataset, {}).get(row, Values())

    def has_row(self, dataset: str, row: str) -> bool:
        """Whether a row is there: one of its dataset's columns has a message."""
        return any(column in COLUMNS.get(dataset, {}) for column in self.row(dataset, row))

    def _there(self, dataset: str) -> Dict[str, Values]:
        known = COLUMNS[dataset].keys()
        return {row: values for row, values in self.rows[dataset].items() if known & values.keys()}

    @functools.cached_property
    def accounts(self) -> Dict[str, Account]:
        """All accounts."""
        return {row: Account(row, values.text("name") or "", values.flag("offbudget"), values.flag("closed"), not values.flag("tombstone"))
                for row, values in self._there("accounts").items()}

    @functools.cached_property
    def groups(self) -> Dict[str, Group]:
        """All groups of categories."""
        return {row: Group(row, values.text("name") or "", values.flag("is_income"), not values.flag("tombstone"), values.number("sort_order"))
                for row, values in self._there("category_groups").items()}

    @functools.cached_property
    def categories(self) -> Dict[str, Category]:
        """All categories."""
        found = {}
        for row, values in self._there("categories").items():
            group = self.groups.get(values.text("cat_group") or "")
            live = not values.flag("tombstone") and group is not None and group.live
            found[row] = Category(row, values.text("name") or "", group, live, values.number("sort_order"))
        return found

    @functools.cached_property
    def payees(self) -> Dict[str, Payee]:
        """All payees."""
        return {row: Payee(row, values.text("name") or "", values.text("transfer_acct"), not values.flag("tombstone"))
                for row, values in self._there("payees").items()}

    @functools.cached_property
    def transactions(self) -> Dict[str, Transaction]:
        """All transactions."""
        rows = self._there("transactions")
        return {row: self._transaction(row, values, rows) for row, values in rows.items()}

    def _stands_for(self, dataset: str, column: str, row: Optional[str]) -> Optional[str]:
        target = self.row(dataset, row or "").text(column)
        return row if target is None else target

    def category_of(self, row: Optional[str]) -> Optional[str]:
        """The category that an id stands for: the one that it was handed on to, if any. It is one step, never two."""
        return self._stands_for("category_mapping", "transferId", row)

    def payee_of(self, row: Optional[str]) -> Optional[str]:
        """The payee that an id stands for: the one that it was merged into, if any. It is one step, never two."""
        return self._stands_for("payee_mapping", "targetId", row)

    def _transaction(self, row: str, values: Values, rows: Dict[str, Values]) -> Transaction:
        is_part, parent = values.flag("isChild"), values.text("parent_id")
        has_parent = parent in rows and not rows[parent].flag("tombstone")
        live = not values.flag("tombstone") and (has_parent or not is_part)
        return Transaction(
            id=row, account=values.text("acct"), day=values.day("date"), amount=values.number("amount"),
            payee=self.payee_of(values.text("description")), category=self.category_of(values.text("category")),
            notes=values.text("notes") or "", imported=values.text("imported_description") or "",
            partner=values.text("transferred_id"), schedule=values.text("schedule"), parent=parent, is_split=values.flag("isParent"),
            is_part=is_part, cleared=values.flag("cleared"), reconciled=values.flag("reconciled"), live=live)

    @functools.cached_property
    def rules(self) -> List[Rule]:
        """The live rules, by id."""
        rules = [Rule(row, values.text("stage"), values.text("conditions_op") or "and", values.text("conditions") or "[]",
                      values.text("actions") or "[]", not values.flag("tombstone")) for row, values in self._there("rules").items()]
        return sorted((rule for rule in rules if rule.live), key=lambda rule: rule.id)

    @functools.cached_property
    def schedules(self) -> Dict[str, Schedule]:
        """All schedules."""
        return {row: Schedule(row, values.text("name") or "", values.text("rule"), values.day("next_date"), values.flag("completed"),
                              not values.flag("tombstone")) for row, values in self._there("schedules").items()}

    def note(self, row: str) -> str:
        """What is noted under an id."""
        return self.row("notes", row).text("note") or ""

    def live_transactions(self) -> List[Transaction]:
        """The live transactions, by day and then by id."""
        return sorted((each for each in self.transactions.values() if each.live), key=lambda each: (each.day, each.id.encode()))

    def is_off_budget(self, account: Optional[str]) -> bool:
        """Whether an account is off budget; one that isn't there is none."""
        found = self.accounts.get(account or "")
        return found is None or found.off_budget

    def partner_of(self, transaction: Transaction) -> Optional[Transaction]:
        """The other half of a transfer, where the two name each other."""
        partner = self.transactions.get(transaction.partner or "")
        is_pair = partner is not None and partner.live and partner.partner == transaction.id and partner.id != transaction.id
        return partner if is_pair else None
