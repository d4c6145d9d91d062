"""The register of an account: its transactions with names, and a running sum that ends at the balance."""
import dataclasses
from typing import Dict, List, Optional

from .book import Book, Transaction
from .errors import ProgramFault
from .names import NONE, account_name, category_name, handles, payee_name
from .session import Session
from .tables import Column, Output, fitted
from .words import amount_text, unescape

WIDE = 76
SPLIT, PART = "(split)", "  "


@dataclasses.dataclass
class Line:
    """A transaction of the register, with the running sum behind it; one that is split has none, since its parts are there."""
    transaction: Transaction
    handle: str
    sum: str
    payee: str
    category: str
    notes: str
    state: str


def show(session: Session, account: str, month: str, output: Output) -> None:
    """Writes the register of an account, all of it or that of a month."""
    book = session.book
    listed = [told(book, line) for line in session.ask("register", account)]
    balance = int(session.ask("balance", account)[0])
    lines, sums = lines_of(book, in_order(listed)), {}
    running = 0
    for line in lines:
        running += 0 if line.transaction.is_split else line.transaction.amount
        line.sum = "" if line.transaction.is_split else amount_text(running)
        sums[line.transaction.day[:7]] = running
    if running != balance:
        raise ProgramFault(f"The register adds up to {amount_text(running)}, and the balance is {amount_text(balance)}. Tell those who made the program.")
    shown = [line for line in lines if line.transaction.day.startswith(month)]
    if output.tsv:
        show_values(shown, output)
        return
    before = max((each for each in sums if each < month), default="") if month else ""
    start = sums.get(before, 0) if month else 0
    end = running if not month else sums.get(month, start)
    say_head(book, account, month, start, output)
    if shown and output.width >= WIDE:
        show_wide(shown, output)
    else:
        show_narrow(shown, output)
    is_last = not month or end == running and all(each <= month for each in sums)
    output.line(f"{amount_text(end)} {'is the balance' if is_last else 'at the end of ' + month + '; the balance is ' + amount_text(running)}")


def say_head(book: Book, account: str, month: str, start: int, output: Output) -> None:
    """Writes whose register it is."""
    output.say(f"{account_name(book, account)}{', ' + month if month else ''}")
    if month:
        output.line(f"{amount_text(start)} before")


def told(book: Book, line: str) -> Transaction:
    """The transaction of a line of the program, with the category and the payee that stand there."""
    row, _, _, category, payee = line.split("\t")
    return dataclasses.replace(book.transactions[row], category=given(category), payee=given(payee))


def given(word: str) -> Optional[str]:
    """The id that a word of a register says, or none."""
    return None if word == NONE else unescape(word)


def in_order(listed: List[Transaction]) -> List[Transaction]:
    """The transactions in the order of the program, but parts behind the one of their day that they are parts of."""
    days = {row.id: row.day for row in listed}
    parts: Dict[str, List[Transaction]] = {}
    others = []
    for row in listed:
        if row.is_part and days.get(row.parent or "") == row.day:
            parts.setdefault(row.parent or "", []).append(row)
        else:
            others.append(row)
    return [each for row in others for each in [row, *parts.get(row.id, [])]]


def lines_of(book: Book, transactions: List[Transaction]) -> List[Line]:
    """What is shown of each transaction."""
    all_handles = handles(book)
    return [Line(row, all_handles.get(row.id, row.id), "", who(book, row), what_for(book, row), row.notes, state_of(row)) for row in transactions]


def who(book: Book, row: Transaction) -> str:
    """The payee, or the other account of a transfer."""
    partner = book.partner_of(row)
    if partner:
        return f"{'to' if row.amount < 0 else 'from'} {account_name(book, partner.account)}"
    if row.partner:
        return "broken transfer"
    return payee_name(book, row.payee) or row.imported


def what_for(book: Book, row: Transaction) -> str:
    """The category, or that it is split."""
    return SPLIT if row.is_split else (PART if row.is_part else "") + category_name(book, row.category)


def state_of(row: Transaction) -> str:
    """`c` for one that the bank has cleared, `r` for one that was reconciled."""
    return "r" if row.reconciled else "c" if row.cleared else ""


def show_wide(lines: List[Line], output: Output) -> None:
    """Writes a table."""
    columns = [Column("id"), Column("day"), Column("amount", right=True), Column("sum", right=True), Column(""), Column("payee", least=8),
               Column("category", least=8), Column("notes", least=5)]
    output.table(columns, [[line.handle, line.transaction.day, amount_text(line.transaction.amount), line.sum, line.state, line.payee, line.category,
                            line.notes] for line in lines])


def show_narrow(lines: List[Line], output: Output) -> None:
    """Writes two lines for each transaction."""
    for line in lines:
        amount = amount_text(line.transaction.amount)
        left = f"{line.handle} {line.transaction.day or 'no day'} {line.state}"
        output.line(fitted(left, output.width - len(amount) - 1) + " " + amount)
        words = " / ".join(word for word in (line.payee, line.category.strip(), line.notes) if word)
        output.line(("  " + fitted(output.clean(words), output.width - len(line.sum) - 3) + " " + line.sum).rstrip())


def show_values(lines: List[Line], output: Output) -> None:
    """Writes the register for scripts."""
    titles = ["id", "handle", "day", "amount", "sum", "state", "payee", "category", "notes", "kind"]
    rows = []
    for line in lines:
        row = line.transaction
        kind = "split" if row.is_split else "part" if row.is_part else "transfer" if row.partner else ""
        rows.append([row.id, line.handle, row.day, amount_text(row.amount), line.sum, line.state, line.payee, line.category.strip(), line.notes, kind])
    output.values([Column(title) for title in titles], rows)
