"""What the books have: accounts, categories, payees, transactions without a category, and what is broken."""
from typing import Dict, List, Tuple

from .book import Book, Transaction
from .names import account_name, handles, shown
from .register import who
from .session import Session
from .tables import Column, Output
from .words import amount_text, counted

FIX_HALF = "budget delete {handle}, or budget unlink {handle} where it is to stay as a payment of its own"
FIX_PAIR = "budget change {handle} --amount {amount} --day {day}, which also writes the other half; or budget delete {handle}"
FIX_SPLIT = "budget split {handle} AMOUNT CATEGORY .. with parts that add up to {amount}"


def accounts(session: Session, output: Output) -> None:
    """Writes the accounts with their balances."""
    rows, sums = [], {False: 0, True: 0}
    for account in sorted((each for each in session.book.accounts.values() if each.live), key=lambda each: (each.off_budget, each.closed, each.name)):
        balance = int(session.ask("balance", account.id)[0])
        sums[account.off_budget] += balance
        words = [word for word, holds in (("off budget", account.off_budget), ("closed", account.closed)) if holds]
        rows.append([shown(account.name, account.id, True), amount_text(balance), ", ".join(words), session.book.note(account.id), account.id])
    columns = [Column("account", least=10), Column("balance", right=True), Column("", least=5), Column("note", least=5), Column("id", scripts_only=True)]
    if output.tsv:
        output.values([columns[0], columns[1], Column("state"), *columns[3:]], rows)
        return
    output.table(without_empty(columns, rows), without_empty_cells(rows))
    output.say(f"{amount_text(sums[False])} on budget, {amount_text(sums[True])} off budget")


def without_empty_cells(rows: List[List[str]]) -> List[List[str]]:
    """The rows without columns that are empty in all of them."""
    return [[cell for place, cell in enumerate(row) if any(other[place] for other in rows)] for row in rows]


def without_empty(columns: List[Column], rows: List[List[str]]) -> List[Column]:
    """The columns that are not empty in all rows."""
    return [column for place, column in enumerate(columns) if not rows or any(row[place] for row in rows)]


def categories(session: Session, output: Output) -> None:
    """Writes the groups and their categories."""
    book = session.book
    rows = []
    for group in sorted((each for each in book.groups.values() if each.live), key=lambda each: (each.order, each.id.encode())):
        inside = sorted((each for each in book.categories.values() if each.live and each.group == group), key=lambda each: (each.order, each.id.encode()))
        kind = "income" if group.income else "expenses"
        rows.append([shown(group.name, group.id, True), "", kind, book.note(group.id), group.id])
        rows += [[group.name if output.tsv else "", category.name or category.id, "" if not output.tsv else kind, book.note(category.id), category.id]
                 for category in inside]
    columns = [Column("group", least=8), Column("category", least=8), Column("kind"), Column("note", least=5), Column("id", scripts_only=True)]
    output.table(columns if output.tsv else without_empty(columns, rows), rows if output.tsv else without_empty_cells(rows))


def payees(session: Session, output: Output) -> None:
    """Writes the payees, with how many transactions each has, and what they come to."""
    sums: Dict[str, Tuple[int, int]] = {}
    for row in session.book.live_transactions():
        if row.payee and not row.is_split:
            number, amount = sums.get(row.payee, (0, 0))
            sums[row.payee] = (number + 1, amount + row.amount)
    rows = []
    for payee in sorted((each for each in session.book.payees.values() if each.live and not each.account), key=lambda each: (each.name.casefold(), each.id)):
        number, amount = sums.get(payee.id, (0, 0))
        rows.append([payee.name or payee.id, str(number), amount_text(amount), payee.id])
    output.table([Column("payee", least=10), Column("times", right=True), Column("sum", right=True), Column("id", scripts_only=True)], rows)


def why_open(book: Book, row: Transaction) -> str:
    """Why a transaction counts on no sheet although it should, or the empty text."""
    if row.is_split or book.is_off_budget(row.account):
        return ""
    partner = book.partner_of(row)
    if partner and not book.is_off_budget(partner.account):
        return ""
    category = book.categories.get(row.category or "")
    if row.category and not (category and category.live):
        return "category deleted"
    if not row.category:
        return "no category"
    return "" if row.day else "no day"


def open_ones(session: Session, output: Output) -> None:
    """Writes the transactions that count on no sheet."""
    book = session.book
    all_handles = handles(book)
    found = [(row, why_open(book, row)) for row in book.live_transactions()]
    found = [(row, why) for row, why in found if why]
    columns = [Column("id"), Column("day"), Column("amount", right=True), Column("account", least=6), Column("payee", least=6), Column("notes", least=5)]
    columns += [Column("why", least=3)]
    rows = [[all_handles[row.id], row.day, amount_text(row.amount), account_name(book, row.account), who(book, row), row.notes, why] for row, why in found]
    if output.tsv:
        output.values([Column("id"), Column("handle"), *columns[1:]], [[row.id, *cells] for cells, (row, _) in zip(rows, found)])
    elif not found:
        output.say("All transactions have a category.")
    else:
        narrow = output.width < 60
        kept = [0, 1, 2, 4] if narrow else range(len(columns))
        output.table([columns[place] for place in kept], [[cells[place] for place in kept] for cells in rows])
        output.say(f"{counted(len(found), 'transaction')}, {amount_text(sum(row.amount for row, _ in found))} together, by which accounts and months differ. "
                   "`budget change ID --category NAME` gives one a category.")


def check(session: Session, output: Output) -> None:
    """Writes transfers and splits that are wrong, and how to mend them."""
    book = session.book
    all_handles = handles(book)
    rows = []
    for line in session.ask("broken"):
        kind, _, rest = line.partition(" ")
        name = rest if kind == "transfer" else rest.rpartition(" ")[0]
        row = book.transactions[name]
        if kind == "split":
            wrong, fix = f"its parts leave {amount_text(int(rest.rpartition(' ')[2]))}", FIX_SPLIT
        elif book.partner_of(row):
            wrong, fix = "its other half has another day or amount", FIX_PAIR
        else:
            wrong, fix = "its other half is gone", FIX_HALF
        fix = fix.format(handle=all_handles[name], amount=amount_text(row.amount), day=row.day or "DAY")
        rows.append([name, all_handles[name], kind, row.day, amount_text(row.amount), account_name(book, row.account), wrong, fix])
    if output.tsv:
        output.values([Column(title) for title in ("id", "handle", "kind", "day", "amount", "account", "wrong", "mend")], rows)
        return
    for _, handle, kind, day, amount, account, wrong, fix in rows:
        output.say(f"{handle} {kind} of {amount}, {day or 'no day'}, {account}: {wrong}. To mend it: {fix}.", "  ")
    output.say(f"{counted(len(rows), 'transfer or split', 'transfers or splits')} to mend." if rows else "All transfers and splits are right.")
