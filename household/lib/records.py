"""The records of an export: its rows as a layout says they are to be read, and an id for each record that has none."""
import datetime
import unicodedata
from collections import Counter
from collections.abc import Iterable
from dataclasses import dataclass, field, replace

from lib.amounts import NoAmount, cents, decimals_of, plain
from lib.banks import BANKS, Layout
from lib.days import COMMON_FORMS, NoDay, day, forms_of
from lib.exports import Row, Table, decode, find_table, plain_name, table_without_header, widest_line
from lib.faults import Fault

# how a line begins that tells a total or a balance behind the last record
TOTALS = (
    "total", "sum", "summe", "saldo", "gesamt", "balance", "opening balance", "closing balance", "beginning balance", "ending balance",
    "alter kontostand", "neuer kontostand", "kontostand", "anfangssaldo", "endsaldo",
)


@dataclass(frozen=True)
class Record:
    """One payment: its day, its amount in cents, and texts, each empty where there is none."""

    line: int
    day: datetime.date
    amount: int
    payee: str
    notes: str
    id: str


@dataclass(frozen=True)
class Choices:
    """What is asked beside the layout: which rows are taken, by pairs of a column and a value, and how the bytes are read."""

    only: tuple[tuple[str, str], ...] = ()
    skip: tuple[tuple[str, str], ...] = ()
    encoding: str | None = None


@dataclass
class Statement:
    """The records of an export in its own order, and the lines that are left out, by the reason."""

    records: list[Record] = field(default_factory=list)
    left_out: dict[str, list[int]] = field(default_factory=dict)
    ids_made: int = 0

    def leave_out(self, why: str, line: int) -> None:
        """Notes that a line is no record, and why."""
        self.left_out.setdefault(why, []).append(line)


def clean(text: str) -> str:
    """A text without control characters, and with one blank for each run of white space: line ends stand inside quotes in some exports."""
    shown = "".join(" " if unicodedata.category(letter) == "Cc" else letter for letter in unicodedata.normalize("NFC", text))
    return " ".join(shown.split())


# ---- which table it is

def _fitting_banks(text: str) -> list[str]:
    """The banks one of whose headers the export has."""
    return [name for name, layouts in BANKS.items()
            if any(layout.has_header and find_table(text, layout.delimiters, layout.is_header) for layout in layouts)]


def _no_table(text: str, layouts: tuple[Layout, ...]) -> Fault:
    """The fault of an export in which no header was found."""
    line, fields = widest_line(text)
    wanted = " or ".join(", ".join(layout.columns()) for layout in layouts)
    message = f"no line is a header with the columns {wanted}"
    if fields:
        message += f"; the line with the most fields is {line}: {', '.join(clean(name) for name in fields)}"
    banks = _fitting_banks(text)
    if banks:
        message += f"; it looks like an export for --bank {' or --bank '.join(banks)}"
    return Fault(message)


def table_of(text: str, layouts: tuple[Layout, ...], columns: Iterable[str] = ()) -> tuple[Layout, Table]:
    """The first of the layouts that the export has, and its table; `columns` have to be there too. Without a header all of them are numbers."""
    more = {plain_name(name) for name in columns}
    for layout in layouts:
        if layout.has_header:
            table = find_table(text, layout.delimiters, lambda names: more <= set(names) and layout.is_header(names))
        else:
            table = table_without_header(text, layout.delimiters, max(int(name) for name in (*layout.columns(), *columns)))
        if table:
            return layout, table
    raise _no_table(text, layouts)


# ---- which rows are records

def _is_total(row: Row, table: Table, layout: Layout) -> bool:
    """Whether a row behind the last record tells a total or a balance: its first text begins so, and where the day would be there is this text or none."""
    texts = [plain_name(text) for text in row.fields]
    first = next(text for text in texts if text)
    in_place_of_day = texts[table.place(layout.date) :][:1]
    return in_place_of_day in ([], [""], [first]) and any(first == word or first.startswith((word + " ", word + ":")) for word in TOTALS)


def _without_totals(table: Table, layout: Layout, statement: Statement) -> list[Row]:
    """The rows that aren't empty, without totals behind the last record."""
    rows = [row for row in table.rows if not row.is_empty()]
    while rows and _is_total(rows[-1], table, layout):
        statement.leave_out("a total or a balance", rows.pop().line)
    return rows


def _whole(row: Row, table: Table) -> Row:
    """The row with as many fields as the header, where those that are too many are empty, as behind a comma at the end of the line."""
    count = len(table.header)
    if len(row.fields) < count or any(text.strip() for text in row.fields[count:]):
        raise Fault(f"the record has {len(row.fields)} fields, and the header has {count}", row.line, min(len(row.fields), count) + 1)
    return Row(row.line, row.fields[:count])


def _has(table: Table, row: Row, pair: tuple[str, str]) -> bool:
    """Whether a row has this value in this column, whatever the capitals."""
    return plain_name(table.text(row, pair[0])) == plain_name(pair[1])


def _why_not(table: Table, row: Row, layout: Layout, choices: Choices) -> str | None:
    """Why a row is left out; none where it is a record."""
    if not all(_has(table, row, pair) for pair in choices.only) or any(_has(table, row, pair) for pair in choices.skip):
        return "not asked for"
    if layout.status:
        if any(_has(table, row, (layout.status, value)) for value in layout.waiting):
            return f"{table.text(row, layout.status)}, so not booked"
        if layout.booked and not any(_has(table, row, (layout.status, value)) for value in layout.booked):
            known = ", ".join((*layout.booked, *layout.waiting))
            raise table.fault(f'"{table.text(row, layout.status)}" is none of {known}', row, layout.status)
    if layout.balance_line and layout.amount and not table.text(row, layout.amount):
        column, beginning = layout.balance_line
        if plain_name(table.text(row, column)).startswith(plain_name(beginning)):
            return "a total or a balance"
    return None


def _record_rows(table: Table, layout: Layout, choices: Choices, statement: Statement) -> list[Row]:
    """The rows that are records, each as long as the header."""
    rows = []
    for row in _without_totals(table, layout, statement):
        row = _whole(row, table)
        why = _why_not(table, row, layout, choices)
        if why:
            statement.leave_out(why, row.line)
        else:
            rows.append(row)
    return rows


def _one_account(table: Table, rows: list[Row], layout: Layout) -> None:
    """Refuses rows of two accounts, or of two currencies, as far as the layout has a column for them."""
    for name in layout.same:
        for row in rows:
            first, text = table.text(rows[0], name), table.text(row, name)
            if plain_name(text) != plain_name(first):
                raise table.fault(f'"{text}" is another one than "{first}" on line {rows[0].line}; take one with --only "{name}={first}"', row, name)


# ---- what is to be found

def _amount_columns(layout: Layout) -> list[str]:
    return [name for name in (layout.amount, layout.debit, layout.credit, layout.fee) if name]


def _found_decimal(table: Table, rows: list[Row], layout: Layout) -> str:
    """The decimal sign with which all amounts can be read."""
    left = ".,"
    for row in rows:
        for name in _amount_columns(layout):
            text = table.text(row, name)
            if not text:
                continue
            signs = decimals_of(text)
            if not signs:
                raise table.fault(f'"{text}" is no amount', row, name)
            if not set(signs) & set(left):
                raise table.fault(f'"{text}" has another decimal sign than the amounts above it', row, name)
            left = "".join(sign for sign in left if sign in signs)
    return left[0]


def _found_forms(table: Table, rows: list[Row], layout: Layout) -> tuple[str, ...]:
    """The form in which all days can be read. Two forms that give other days are told, since nothing says which is meant."""
    left = COMMON_FORMS
    for row in rows:
        text = table.text(row, layout.date)
        forms = forms_of(text, left)
        if not forms:
            other = "no day of a common form" if not forms_of(text) else "of another form than the days above it"
            raise table.fault(f'"{text}" is {other}', row, layout.date)
        left = forms
    for row in rows:
        text = table.text(row, layout.date)
        if len({day(text, (form,)) for form in left}) > 1:
            forms = " or ".join(f'--date "{layout.date}={form}"' for form in left)
            raise table.fault(f'"{text}" may be two days; say which by {forms}', row, layout.date)
    return left


# ---- one record

def _cents(table: Table, row: Row, name: str, decimal: str) -> int:
    """The amount in a column, which has to have one."""
    text = table.text(row, name)
    if not text:
        raise table.fault("there is no amount", row, name)
    try:
        return cents(text, decimal)
    except NoAmount as fault:
        raise table.fault(str(fault), row, name) from None


def _optional(table: Table, row: Row, name: str, decimal: str) -> int:
    """The amount in a column; 0 where the field is empty or there is no such column."""
    return _cents(table, row, name, decimal) if name and table.text(row, name) else 0


def _amount(table: Table, row: Row, layout: Layout) -> int:
    """What the payment changes in the account."""
    if layout.amount:
        amount = _cents(table, row, layout.amount, layout.decimal)
    else:
        out, came = (_optional(table, row, name, layout.decimal) for name in (layout.debit, layout.credit))
        if out and came:
            raise table.fault(f'both "{layout.debit}" and "{layout.credit}" have an amount', row, layout.debit)
        if not any(table.text(row, name) for name in (layout.debit, layout.credit) if name):
            raise table.fault("there is no amount", row, layout.debit or layout.credit)
        # banks write what went out with a minus or without one
        amount = came - abs(out)
    if layout.negated or (layout.minus_where and _has(table, row, layout.minus_where)):
        amount = -amount
    return amount - _optional(table, row, layout.fee, layout.decimal)


def _day(table: Table, row: Row, layout: Layout) -> datetime.date:
    try:
        return day(table.text(row, layout.date), layout.forms)
    except NoDay as fault:
        raise table.fault(str(fault), row, layout.date) from None


def _texts(table: Table, row: Row, layout: Layout, amount: int) -> tuple[str, str]:
    """The payee and the notes."""
    if layout.pattern:
        whole = clean(table.text(row, layout.detail))
        found = layout.pattern.fullmatch(whole)
        payee, notes = (clean(found[name] or "") if found else "" for name in ("payee", "notes"))
        return (payee or notes or whole), notes if payee else ""
    columns = layout.payer if amount > 0 and layout.payer else layout.payee
    payee = next((text for text in (clean(table.text(row, name)) for name in columns) if text), "")
    notes = [text for text in (clean(table.text(row, name)) for name in layout.notes) if text not in ("", "-")]
    return payee, "; ".join(dict.fromkeys(notes))


def _record(table: Table, row: Row, layout: Layout) -> Record:
    amount = _amount(table, row, layout)
    payee, notes = _texts(table, row, layout, amount)
    return Record(row.line, _day(table, row, layout), amount, payee, notes, clean(table.text(row, layout.id)) if layout.id else "")


# ---- ids

def _unrepeated(records: list[Record], table: Table, layout: Layout) -> None:
    """Refuses an id that two records have: an import takes records of one id for one payment, whatever else they say."""
    lines: dict[str, int] = {}
    for record in records:
        if record.id and record.id in lines:
            message = f'the id "{record.id}" stands on line {lines[record.id]} too, and an import goes by ids alone; leave this column out with --no-id'
            raise Fault(message, record.line, table.place(layout.id) + 1, layout.id)
        lines[record.id] = record.line


def with_ids(records: list[Record]) -> list[Record]:
    """The records, where those without an id get one: the day, the amount, the payee, and the how-manieth such record of the day it is.

    So the same statement twice gives the same ids, two statements whose days overlap give the same ids to what both have, and two equal
    payments of one day have two ids. The payee is taken whatever its capitals and blanks.
    """
    count: Counter[str] = Counter()
    made = []
    for record in records:
        if not record.id:
            same = f"{record.day}/{plain(record.amount)}/{plain_name(record.payee)}"
            count[same] += 1
            record = replace(record, id=f"{same}/{count[same]}")
        made.append(record)
    return made


def read_export(data: bytes, layouts: tuple[Layout, ...], choices: Choices = Choices()) -> Statement:
    """The statement that the bytes of an export are, in the first of these layouts whose header it has. Raises `Fault` at the first thing that can't be read."""
    text = decode(data, choices.encoding)
    layout, table = table_of(text, layouts, [name for name, _ in (*choices.only, *choices.skip)])
    statement = Statement()
    rows = _record_rows(table, layout, choices, statement)
    _one_account(table, rows, layout)
    layout = replace(layout, decimal=layout.decimal or _found_decimal(table, rows, layout), forms=layout.forms or _found_forms(table, rows, layout))
    records = [_record(table, row, layout) for row in rows]
    _unrepeated(records, table, layout)
    statement.ids_made = sum(not record.id for record in records)
    statement.records = with_ids(records)
    return statement
