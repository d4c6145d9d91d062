"""A sentence for each refusal of the program: what is wrong, and what to do (docs/FORMATS.md, "Replies")."""
import datetime
from typing import Callable, Dict, List

from .book import Book
from .errors import LineRefused
from .names import account_name, category_name, handles, payee_name
from .words import amount_text, day_text

Details = List[str]


def sentence(refused: LineRefused, book: Book) -> str:
    """What a refusal says, and its number in docs/FORMATS.md."""
    make = SENTENCES.get(refused.code)
    details = refused.details[1:] + [""] * 3
    text = make(details, book) if make else "The program refuses this: " + " ".join(refused.details) + "."
    return f"{text} ({refused.code}; nothing has changed)" if refused.code != "E29" else f"{text} ({refused.code}; nothing is lost)"


def handle(details: Details, book: Book) -> str:
    """What stands for a transaction."""
    return handles(book).get(details[0], details[0])


def taken_name(details: Details, book: Book) -> str:
    """What has a name already."""
    group = book.groups.get(details[0])
    return f"the group {group.name!r}" if group else f"the category {category_name(book, details[0])!r}"


def drift(details: Details, _: Book) -> str:
    """A clock that is ahead."""
    moment = datetime.datetime.fromtimestamp(int(details[0]) / 1000).isoformat(" ", "seconds")
    return (f"A change was made at {moment}, which is more than five minutes ahead of this machine's clock. Look at this machine's clock; where it "
            "is right, a device of the household had a clock that was ahead: wait until that moment, or see docs/HOUSEHOLD.md.")


def sync_failed(details: Details, _: Book) -> str:
    """A sync that came to no end."""
    part, value = details[0], details[1]
    if part == "status":
        return f"The server refuses the sync with status {value}. {STATUSES.get(value, 'Look what answers at the address.')}"
    return SYNCS.get(part, "The sync failed.")


def bad_rule(details: Details, _: Book) -> str:
    """A rule that isn't there, or that can't be read."""
    if details[0] == "id":
        return "There is no such rule. `budget rules` tells all of them."
    return f"Entry {details[1]} of the {details[0]} of the rule, counted from 0, can't be read. `budget rules add --help` says how they are written."


STATUSES = {
    "401": "Give this device the token of the server: `budget init --token`.",
    "400": "Give this device the file and the group of the server: `budget init --file`, `--group`.",
    "413": "There is too much for one request; hand it over by lines of the program (docs/HOUSEHOLD.md).",
    "500": "A record of the server's store is no message: look at its store.",
    "503": "The server's store failed: look at its disk.",
    "507": "The server's memory ran out.",
}
SYNCS = {
    "link": "There is no server at the address of the settings. Start it, or name its address by `budget init --server ADDRESS:PORT`; then sync again.",
    "reply": "What answers at the address of the settings is no server of the household. Name the address by `budget init --server ADDRESS:PORT`.",
    "out-of-sync": "The device and the server don't come to an end, so something else than a server of the household answers.",
}
RECURRENCE = {"object": "it is none", "endMode": "it has no day at all", "rule": "its rule was changed: delete the schedule, and add it anew"}
SENTENCES: Dict[str, Callable[[Details, Book], str]] = {
    "E1": lambda details, book: f"{details[0]!r} can't be an id, which has at most 64 bytes and no control characters. Leave the id to the program.",
    "E2": lambda details, book: f"The id {details[0]!r} is taken. Leave the id to the program.",
    "E3": lambda details, book: f"There is no account {account_name(book, details[0])!r}. `budget accounts` tells all of them.",
    "E4": lambda details, book: f"There is no group {details[0]!r}. `budget categories` tells all of them.",
    "E5": lambda details, book: f"There is no category {category_name(book, details[0])!r} here. `budget categories` tells all of them.",
    "E6": lambda details, book: f"There is no payee {details[0]!r}. `budget payees` tells all of them.",
    "E7": lambda details, book: f"There is no transaction {details[0]!r}. `budget register ACCOUNT` tells all of them.",
    "E8": lambda details, book: f"{day_text(details[0])} is no day from 1970 to 2199. Mend the day.",
    "E9": lambda details, book: f"The amount {amount_text(int(details[0]))} is too large, or negative where money is held back. Mend the amount.",
    "E10": lambda details, book: f"{details[0]} is no month from 1970 to 2199. Mend the month.",
    "E11": lambda details, book: f"The parts leave {amount_text(int(details[0]))} of the amount. Give parts that add up to it; to change the amount of one "
                                 "that is split, delete it and add it anew.",
    "E12": lambda details, book: f"{handle(details, book)} is split, or a part of a split. Change the whole one, or split it anew: its parts have the "
                                 "categories.",
    "E13": lambda details, book: f"{handle(details, book)} is a half of a transfer. Delete the transfer, and make it anew.",
    "E14": lambda details, book: "The two are the same. Name two that aren't.",
    "E15": lambda details, book: f"The account still has {amount_text(int(details[0]))}. Bring it to 0.00 first, as by `budget transfer`.",
    "E16": lambda details, book: f"{category_name(book, details[0])!r} takes income, so nothing is given to it. Name a category of expenses.",
    "E17": lambda details, book: f"This is the name of {taken_name(details, book)} already. Take another name, or rename that one.",
    "E18": lambda details, book: f"This makes {details[0]} changes at once, and 65536 are allowed. Ask for a part of it.",
    "E19": bad_rule,
    "E20": lambda details, book: f"There is no schedule {details[0]!r}. `budget schedules` tells all of them.",
    "E21": lambda details, book: f"The days of the schedule can't be read: {RECURRENCE.get(details[0], details[0] + ' is wrong')}.",
    "E22": lambda details, book: "The schedule has ended. Add a new one.",
    "E23": lambda details, book: f"The statement has a fault in row {details[0]}, column {details[1]}, both counted from 0. Mend it there.",
    "E26": drift,
    "E27": lambda details, book: "A device of the household had a clock that was ahead. Wait five minutes, and try again.",
    "E28": lambda details, book: "This machine's clock is past the year 2051. Set it.",
    "E29": sync_failed,
    "E30": lambda details, book: f"The program doesn't know such a line (word {details[0]}). See that program and command are of one version.",
    "E31": lambda details, book: f"One of the two takes income, and the other one doesn't, so {category_name(book, details[0])!r} can't get it. Name two of "
                                 "one kind.",
    "E32": lambda details, book: f"{payee_name(book, details[0])!r} stands for an account in transfers, so it can't be merged. Leave it out.",
}
