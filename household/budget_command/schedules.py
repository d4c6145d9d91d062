"""Commands about schedules, which know when something is due."""
import argparse
import json
from typing import Any, Dict, List, Tuple

from . import names
from .book import Book, Schedule
from .errors import Refusal
from .rules import compact
from .session import Session
from .tables import Column, Output
from .transactions import described, optional
from .words import amount_text, cents_of, day_of, digits_of

Options = argparse.Namespace
NEW = "-"
FREQUENCIES = {"day": "daily", "week": "weekly", "month": "monthly", "year": "yearly"}
DUE = ("missed", "due", "upcoming")
LAST_DAY = "last"
COLUMNS = [Column("next"), Column("status"), Column("amount", right=True), Column("schedule", least=6), Column("account", least=5),
           Column("payee", least=5), Column("id", scripts_only=True)]
WIDE, NARROW_COLUMNS = 60, 4


def recurrence_of(options: Options) -> str:
    """The JSON text of the days that a person asks for."""
    told: Dict[str, Any] = {"start": day_of(options.start), "frequency": FREQUENCIES[options.every]}
    if options.each is not None:
        told["interval"] = options.each
    if options.day:
        if options.every != "month":
            raise Refusal("--day names days of the month, so it goes with --every month alone.")
        told["patterns"] = [{"type": "day", "value": day_number(word)} for word in options.day]
    if options.weekend:
        told.update(skipWeekend=True, weekendSolveMode=options.weekend)
    if options.until:
        told.update(endMode="on_date", endDate=day_of(options.until))
    if options.times is not None:
        told.update(endMode="after_n_occurrences", endOccurrences=options.times)
    return compact(told)


def day_number(word: str) -> int:
    """The number of a day of the month, -1 for the last."""
    if word == LAST_DAY:
        return -1
    if not word.isdigit() or not 1 <= int(word) <= 31:
        raise Refusal(f"{word!r} is no day of a month. Write a number from 1 to 31, or {LAST_DAY}.")
    return int(word)


def add(session: Session, options: Options, output: Output) -> None:
    """Adds a schedule."""
    book = session.book
    if any(schedule.live and schedule.name == options.name for schedule in book.schedules.values()):
        raise Refusal(f"There is a schedule {options.name!r} already. Take another name, so that each stands for one.")
    account = names.account_id(book, options.account)
    payee = optional(options.payee, names.payee_id, book)
    made = session.tell("schedule-add", NEW, options.name, account, payee, str(cents_of(options.amount)), recurrence_of(options))
    session.renew()
    output.say(f"Made the schedule {options.name!r}; it is due on {session.book.schedules[made[-1]].next_day} first.")


def details_of(book: Book, schedule: Schedule) -> Tuple[str, str, str]:
    """The account, the amount and the payee of a schedule, as its rule says, each empty where it doesn't."""
    found = {rule.id: rule for rule in book.rules}.get(schedule.rule or "")
    account = amount = payee = ""
    try:
        for entry in json.loads(found.conditions) if found else []:
            field, value = entry["field"], entry["value"]
            if field in ("acct", "account") and not account:
                account = names.account_name(book, value)
            elif field in ("description", "payee") and not payee:
                payee = names.payee_name(book, value)
            elif field == "amount" and not amount:
                amount = amount_text(value) if isinstance(value, int) else amount_text((value["num1"] + value["num2"] + 1) // 2)
    except (ValueError, TypeError, KeyError, RecursionError):
        pass
    return account, amount, payee


def show(session: Session, options: Options, output: Output) -> None:
    """Writes the schedules as they stand on a day; those that are due alone, where that is asked for."""
    book, day = session.book, day_of(options.on)
    rows: List[List[str]] = []
    for schedule in sorted((each for each in book.schedules.values() if each.live), key=lambda each: (each.next_day or "9", each.name)):
        status = session.ask("schedule-status", schedule.id, digits_of(day))[0]
        if status in DUE or not options.due:
            account, amount, payee = details_of(book, schedule)
            rows.append([schedule.next_day, status, amount, schedule.name or schedule.id, account, payee, schedule.id])
    if output.tsv or rows:
        kept = len(COLUMNS) if output.width >= WIDE or output.tsv else NARROW_COLUMNS
        output.table(COLUMNS[:kept], [row[:kept] for row in rows], [row[1] == "missed" for row in rows])
    elif options.due:
        output.say(f"Nothing is due on {day} or in the week behind it.")
    else:
        output.say("There are no schedules. `budget schedules add --help` says how one is made.")


def post(session: Session, options: Options, output: Output) -> None:
    """Makes the transaction of a schedule, and sets the schedule to its next day."""
    book = session.book
    schedule = names.schedule_id(book, options.name)
    category = optional(options.category, names.category_id, book)
    made = session.tell("schedule-post", schedule)
    if category != names.NONE:
        session.tell("tx-set", made[0], "category", category)
    session.tell("schedule-skip", schedule)
    session.renew()
    output.say(f"Posted {described(session.book, session.book.transactions[made[0]])}. {next_of(session.book, schedule)}")
    if category == names.NONE:
        output.say("It has no category yet: `budget change ID --category NAME` gives it one.")


def skip(session: Session, options: Options, output: Output) -> None:
    """Sets a schedule to its next day."""
    schedule = names.schedule_id(session.book, options.name)
    session.tell("schedule-skip", schedule)
    session.renew()
    output.say(f"Skipped a day of {options.name!r}. {next_of(session.book, schedule)}")


def next_of(book: Book, schedule: str) -> str:
    """When a schedule is due next, as a sentence."""
    found = book.schedules[schedule]
    return f"{found.name!r} has ended." if found.completed else f"{found.name!r} is due on {found.next_day} next."


def delete(session: Session, options: Options, output: Output) -> None:
    """Deletes a schedule, and its rule with it."""
    book = session.book
    schedule = names.schedule_id(book, options.name)
    rule = book.schedules[schedule].rule
    session.tell("schedule-delete", schedule)
    if any(each.id == rule for each in book.rules):
        session.tell("rule-delete", rule or "")
    output.say(f"Deleted the schedule {options.name!r}.")
