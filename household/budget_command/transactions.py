"""Commands that edit transactions, read statements, and hand edits over."""
import argparse
import sys
from typing import List, Optional

from lib.faults import Fault
from lib.lines import import_lines
from lib.options import statement_of
from lib.statement import summary

from . import names
from .book import Book, Transaction
from .errors import Refusal
from .register import who
from .session import Session
from .tables import Output
from .words import amount_text, cents_of, counted, day_of, digits_of, flag_of

Options = argparse.Namespace
NEW = "-"


def add(session: Session, options: Options, output: Output) -> None:
    """Adds a transaction."""
    book = session.book
    day, amount = day_of(options.day), cents_of(options.amount)
    account = names.account_id(book, options.account)
    category = optional(options.category, names.category_id, book)
    payee = payee_for(session, options.payee, options.new_payee)
    made = session.tell("tx-add", NEW, account, digits_of(day), str(amount), payee, category, options.note)
    session.renew()
    tell_one(session, made[0], "Added", output)


def payee_for(session: Session, word: str, is_new: bool) -> str:
    """The id of a payee, which is made where it is new and may be."""
    known = {names.folded(payee.name) for payee in session.book.payees.values() if payee.live and not payee.account}
    if is_new and word != names.NONE and names.folded(word) not in known:
        return session.tell("payee-add", NEW, word)[0]
    return optional(word, names.payee_id, session.book)


def optional(word: str, choose, book: Book) -> str:
    """The id that a word stands for, or none."""
    return names.NONE if word == names.NONE else choose(book, word)


def tell_one(session: Session, row: str, done: str, output: Output) -> None:
    """Says what a transaction is now, and what its account has."""
    book = session.book
    found = book.transactions[row]
    output.say(f"{done} {described(book, found)}. {names.account_name(book, found.account)} has {balance(session, found.account)} now.")


def described(book: Book, row: Transaction) -> str:
    """A transaction in a sentence."""
    words = [names.handles(book).get(row.id, row.id) + ":", row.day or "no day", amount_text(row.amount), names.account_name(book, row.account)]
    words += [word for word in (who(book, row), names.category_name(book, row.category), row.notes) if word]
    return words[0] + " " + ", ".join(words[1:])


def balance(session: Session, account: Optional[str]) -> str:
    """The balance of an account."""
    return amount_text(int(session.ask("balance", account or "")[0]))


def change(session: Session, options: Options, output: Output) -> None:
    """Changes what a transaction has."""
    book = session.book
    row = names.transaction_of(book, options.transaction)
    wanted: List[List[str]] = []
    if options.day is not None:
        wanted.append(["date", digits_of(day_of(options.day))])
    if options.amount is not None:
        wanted.append(["amount", str(cents_of(options.amount))])
    if options.account is not None:
        wanted.append(["account", names.account_id(book, options.account)])
    if options.category is not None:
        wanted.append(["category", optional(options.category, names.category_id, book)])
    if options.note is not None:
        wanted.append(["notes", options.note])
    if options.cleared is not None:
        wanted.append(["cleared", str(int(flag_of(options.cleared)))])
    if options.payee is not None:
        wanted.append(["payee", payee_for(session, options.payee, options.new_payee)])
    if not wanted:
        raise Refusal("Say what is to be changed, as --category Food or --amount -12.50; `budget change --help` has all of it.")
    for column, value in wanted:
        session.tell("tx-set", row.id, column, value)
    session.renew()
    tell_one(session, row.id, "Changed", output)


def delete(session: Session, options: Options, output: Output) -> None:
    """Deletes transactions; of a transfer both halves go, and of a split all parts."""
    book = session.book
    rows = [names.transaction_of(book, word) for word in options.transactions]
    texts = [described(book, row) for row in rows]
    gone = set()
    for row in rows:
        if row.id not in gone:
            session.tell("tx-delete", row.id)
        gone |= {row.id, row.partner}
    for text in texts:
        output.say(f"Deleted {text}.")


def transfer(session: Session, options: Options, output: Output) -> None:
    """Moves money from one account to another."""
    book = session.book
    start, end = names.account_id(book, options.start), names.account_id(book, options.end)
    day, amount = day_of(options.day), cents_of(options.amount)
    session.tell("transfer", start, end, digits_of(day), str(amount), options.note)
    output.say(f"Transferred {amount_text(amount)} on {day}. {options.start} has {balance(session, start)} now, and {options.end} {balance(session, end)}.")


def split(session: Session, options: Options, output: Output) -> None:
    """Splits a transaction into parts."""
    book = session.book
    row = names.transaction_of(book, options.transaction)
    if len(options.parts) % 2:
        raise Refusal("Each part is an AMOUNT and a CATEGORY, as `budget split @12345 -6.00 Food -4.00 Fun`; `-` stands for no category.")
    words: List[str] = []
    for amount, category in zip(options.parts[::2], options.parts[1::2]):
        words += [str(cents_of(amount)), optional(category, names.category_id, book)]
    session.tell("split", row.id, *words)
    session.renew()
    output.say(f"Split {described(session.book, session.book.transactions[row.id])} into {counted(len(words) // 2, 'part')}.")


def unlink(session: Session, options: Options, output: Output) -> None:
    """Makes a half of a broken transfer a payment of its own."""
    row = names.transaction_of(session.book, options.transaction)
    if not row.partner:
        raise Refusal(f"{options.transaction} is no half of a transfer. `budget check` tells which transfers are broken.")
    if session.book.partner_of(row):
        raise Refusal(f"{options.transaction} is a half of a transfer whose other half is there. `budget delete` takes both away.")
    session.tell("set", "transactions", row.id, "transferred_id", "0:")
    session.renew()
    tell_one(session, row.id, "Unlinked", output)


def read_statement(session: Session, options: Options, output: Output) -> None:
    """Imports a bank's export."""
    account = names.account_id(session.book, options.name)
    try:
        with open(options.export, "rb") as file:
            statement = statement_of(file.read(), options)
        lines = list(import_lines(account, statement.records))
    except Fault as fault:
        raise Refusal(f"{options.export}: {fault}. Nothing has changed.") from fault
    except OSError as fault:
        raise Refusal(f"{options.export} can't be read: {fault.strerror}. Name the file that the bank gave.") from fault
    for sentence in summary(statement):
        output.say(f"{options.export}: {sentence}.")
    made: List[str] = []
    done = 0
    for line in lines:
        made += session.tell_line(line.text.decode())
        done += line.records
        if len(lines) > 1:
            print(f"{done} of {len(statement.records)} records are in", file=sys.stderr, flush=True)
    session.renew()
    new = [row for row in made if row in session.book.transactions]
    filed = sum(bool(session.book.transactions[row].category) for row in new)
    output.say(f"{counted(len(new), 'new transaction')}, {filed} with a category by a rule; {counted(len(made) - len(new), 'new payee')}; the others "
               f"were there. {options.name} has {balance(session, account)} now.")
    if filed < len(new):
        output.say("`budget open` shows those without a category.")


def sync(session: Session, options: Options, output: Output) -> None:
    """Hands over what this device has, and takes what others have."""
    reply = session.ask("sync")
    received = int(reply[0].split(" ")[-1])
    output.say(f"{counted(received, 'change')} came, and what this device had is handed over.")
    session.forget()
    wrong = session.ask("broken")
    if wrong:
        output.say(f"! {counted(len(wrong), 'transfer or split is', 'transfers or splits are')} broken. `budget check` says how to mend that.")
