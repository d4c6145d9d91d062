"""Commands that edit accounts, categories, payees and months."""
import argparse

from . import names
from .errors import Refusal
from .rules import giving
from .session import Session
from .tables import Output
from .words import amount_text, cents_of, day_of, digits_of, flag_of, listed, month_of

Options = argparse.Namespace
NEW = "-"


def account_add(session: Session, options: Options, output: Output) -> None:
    """Adds an account, maybe with what it has."""
    refuse_taken(options.name, [account.name for account in session.book.accounts.values() if account.live], "an account", "budget accounts")
    balance = cents_of(options.balance or "0")
    day = digits_of(day_of(options.on))
    category = names.category_id(session.book, options.category) if options.category else names.NONE
    made = session.tell("account-add", NEW, options.name, "1" if options.off_budget else "0")
    if options.balance:
        session.tell("tx-add", NEW, made[0], day, str(balance), names.NONE, category, options.note)
    kind = "off budget" if options.off_budget else "on budget"
    output.say(f"Made the account {options.name!r}, {kind}, with {amount_text(balance)}.")
    if options.balance and not options.category and not options.off_budget:
        output.say("What it has counts on no month until it has a category of income: `budget open` shows it, and `budget change` gives it one.")


def account_rename(session: Session, options: Options, output: Output) -> None:
    """Renames an account."""
    session.tell("account-rename", names.account_id(session.book, options.name), options.new_name)
    output.say(f"The account {options.name!r} is called {options.new_name!r} now.")


def account_close(session: Session, options: Options, output: Output) -> None:
    """Closes an account whose balance is 0."""
    session.tell("account-close", names.account_id(session.book, options.name))
    output.say(f"The account {options.name!r} is closed. `budget account reopen` opens it again.")


def account_reopen(session: Session, options: Options, output: Output) -> None:
    """Opens an account again."""
    session.tell("account-reopen", names.account_id(session.book, options.name))
    output.say(f"The account {options.name!r} is open.")


def account_off_budget(session: Session, options: Options, output: Output) -> None:
    """Takes an account off budget, or on again."""
    off = flag_of(options.off)
    session.tell("account-offbudget", names.account_id(session.book, options.name), str(int(off)))
    output.say(f"The account {options.name!r} is {'off' if off else 'on'} budget now.")


def group_add(session: Session, options: Options, output: Output) -> None:
    """Adds a group of categories."""
    session.tell("group-add", NEW, options.name, "1" if options.income else "0")
    output.say(f"Made the group {options.name!r}, of {'income' if options.income else 'expenses'}.")


def group_rename(session: Session, options: Options, output: Output) -> None:
    """Renames a group."""
    session.tell("group-rename", names.group_id(session.book, options.name), options.new_name)
    output.say(f"The group {options.name!r} is called {options.new_name!r} now.")


def group_delete(session: Session, options: Options, output: Output) -> None:
    """Deletes a group with its categories."""
    session.tell("group-delete", names.group_id(session.book, options.name))
    output.say(f"The group {options.name!r} and its categories are deleted. `budget open` shows what was in them.")


def category_add(session: Session, options: Options, output: Output) -> None:
    """Adds a category to a group."""
    session.tell("category-add", NEW, names.group_id(session.book, options.group), options.name)
    output.say(f"Made the category {options.name!r} in {options.group!r}.")


def category_rename(session: Session, options: Options, output: Output) -> None:
    """Renames a category."""
    session.tell("category-rename", names.category_id(session.book, options.name), options.new_name)
    output.say(f"The category {options.name!r} is called {options.new_name!r} now.")


def category_move(session: Session, options: Options, output: Output) -> None:
    """Moves a category to another group."""
    session.tell("category-move", names.category_id(session.book, options.name), names.group_id(session.book, options.group))
    output.say(f"The category {options.name!r} is in {options.group!r} now.")


def category_delete(session: Session, options: Options, output: Output) -> None:
    """Deletes a category, or hands it on to another one."""
    category = names.category_id(session.book, options.name)
    if options.to is None:
        session.tell("category-delete", category)
        output.say(f"The category {options.name!r} is deleted. `budget open` shows what was in it.")
        return
    session.tell("category-delete", category, names.category_id(session.book, options.to))
    output.say(f"The category {options.name!r} is deleted, and {options.to!r} has what was in it and what it was given.")
    say_idle(session, category, output)


def say_idle(session: Session, row: str, output: Output) -> None:
    """Says which rules give what was handed on or merged: they give it no more."""
    rules = giving(session.book, row)
    if rules:
        numbers = listed([str(number) for number in rules])
        output.say(f"{f'Rule {numbers} sets' if len(rules) == 1 else f'Rules {numbers} set'} it, which does nothing from now on: make it anew.")


def payee_add(session: Session, options: Options, output: Output) -> None:
    """Adds a payee."""
    refuse_taken(options.name, [payee.name for payee in session.book.payees.values() if payee.live], "a payee", "budget payees")
    session.tell("payee-add", NEW, options.name)
    output.say(f"Made the payee {options.name!r}.")


def payee_rename(session: Session, options: Options, output: Output) -> None:
    """Renames a payee."""
    session.tell("payee-rename", names.payee_id(session.book, options.name), options.new_name)
    output.say(f"The payee {options.name!r} is called {options.new_name!r} now.")


def payee_delete(session: Session, options: Options, output: Output) -> None:
    """Deletes a payee."""
    session.tell("payee-delete", names.payee_id(session.book, options.name))
    output.say(f"The payee {options.name!r} is deleted. Transactions that have it keep it.")


def payee_merge(session: Session, options: Options, output: Output) -> None:
    """Makes one payee of several."""
    book = session.book
    payee, others = names.payee_id(book, options.name), [names.payee_id(book, other) for other in options.others]
    session.tell("payee-merge", payee, *others)
    output.say(f"{listed([repr(other) for other in options.others])} {'is' if len(set(others)) == 1 else 'are'} {options.name!r} now. A statement that "
               f"names a merged payee makes it anew, unless a rule sets the payee, as `budget rules add --when imported is {options.others[0]!r} --set "
               f"payee {options.name!r}`.")
    for other in dict.fromkeys(others):
        say_idle(session, other, output)


def refuse_taken(name: str, taken: list, kind: str, lists: str) -> None:
    """Refuses a name that would stand for two."""
    if name in taken:
        raise Refusal(f"There is {kind} {name!r} already. Take another name, so that each stands for one; `{lists}` tells all of them.")


def give(session: Session, options: Options, output: Output) -> None:
    """Gives a category an amount in a month, in place of what it had been given."""
    month, amount = month_of(options.month), cents_of(options.amount)
    session.tell("budget", month, names.category_id(session.book, options.category), str(amount))
    output.say(f"{options.category!r} is given {amount_text(amount)} in {month}. {still_to_give(session, month)}")


def move(session: Session, options: Options, output: Output) -> None:
    """Moves an amount from what one category is given to another."""
    month, amount = month_of(options.month), cents_of(options.amount)
    start, end = names.category_id(session.book, options.start), names.category_id(session.book, options.end)
    session.tell("move", month, start, end, str(amount))
    output.say(f"Moved {amount_text(amount)} from {options.start!r} to {options.end!r} in {month}: they have {left(session, month, start)} and "
               f"{left(session, month, end)} left.")


def hold(session: Session, options: Options, output: Output) -> None:
    """Holds an amount back for the month after."""
    month, amount = month_of(options.month), cents_of(options.amount)
    session.tell("hold", month, str(amount))
    output.say(f"{amount_text(amount)} is held back in {month}. {still_to_give(session, month)}")


def carry(session: Session, options: Options, output: Output) -> None:
    """Says whether what is overspent goes on in the category itself."""
    month, on = month_of(options.month), flag_of(options.on)
    session.tell("carryover", month, names.category_id(session.book, options.category), str(int(on)))
    output.say(f"What {options.category!r} overspends in {month} {'stays with it' if on else 'is taken from what the next month has to give'}.")


def note(session: Session, options: Options, output: Output) -> None:
    """Notes a text for an account or a category, in place of what was noted."""
    of_kind = {"account": names.account_id, "category": names.category_id}
    session.tell("note", of_kind[options.kind](session.book, options.name), options.text)
    output.say(f"Noted for {options.name!r}.")


def still_to_give(session: Session, month: str) -> str:
    """What a month still has to give, as a sentence."""
    free = int(session.ask("cell", month, "to-budget")[0])
    return f"{amount_text(free)} still to give." if free >= 0 else f"! {amount_text(-free)} more is given than there is."


def left(session: Session, month: str, category: str) -> str:
    """What a category has left."""
    return amount_text(int(session.ask("cell", month, "leftover-" + category)[0]))
