#!/usr/bin/env python3
"""What the lines of `world` are answered, by docs/FORMATS.md and by nothing of the program.

`World` answers one line after the other. Of the lines of a device it knows `set`, `undo` and `redo`, and of those that only read `fields`,
`messages`, `value`, `trie`, `balance`, `sheet` and `cell`; any other line that only reads is answered by None, which stands for a reply that
isn't told. Run as a program it answers the lines on standard input.
"""
import datetime
import re
import sys
from typing import Callable, Dict, List, NamedTuple, Optional, Set, Tuple

import peers

FLAGS = {"offbudget", "closed", "is_income", "hidden", "tombstone", "isParent", "isChild", "cleared", "reconciled", "carryover", "completed",
         "posts_transaction"}
INTS = {"sort_order", "amount", "month", "buffered"}
COLUMNS = {dataset: words.split() for dataset, words in {
    "accounts": "name offbudget closed sort_order tombstone",
    "category_groups": "name is_income sort_order hidden tombstone",
    "categories": "name cat_group is_income sort_order hidden tombstone",
    "payees": "name transfer_acct tombstone",
    "transactions": "acct date amount description category notes imported_description financial_id transferred_id schedule isParent isChild "
                    "parent_id cleared reconciled sort_order tombstone",
    "zero_budgets": "month category amount carryover",
    "zero_budget_months": "buffered",
    "notes": "note",
    "rules": "stage conditions_op conditions actions tombstone",
    "schedules": "rule name next_date completed posts_transaction tombstone",
    "category_mapping": "transferId",
    "payee_mapping": "targetId",
    "reflect_budgets": "month category amount carryover",
}.items()}
EDITS = {"set", "undo", "redo"}
# the forms of the words behind the names of the lines that are known here
FORMS = {"set": ["text"] * 4, "undo": [], "redo": [], "fields": [], "messages": ["text"], "value": ["text"] * 3, "trie": [], "balance": ["text"],
         "sheet": ["month"], "cell": ["month", "text"]}
UNTOLD = {"register", "broken", "goals", "track-cell", "track-sheet", "schedule-status"}
MONTH_CELLS = ["total-income", "from-last-month", "available-funds", "last-month-overspent", "total-budgeted", "buffered", "to-budget",
               "total-spent", "total-leftover"]
GREATEST = 9_007_199_254_740_991
WINDOW = 3 ** 16
AHEAD = 300_000

Field = Tuple[str, str, str]
Reply = Optional[List[str]]


class Refused(Exception):
    """A line is refused: with its number, its word, and its detail."""

    def __init__(self, number: int, code: str, detail: object = ""):
        super().__init__()
        self.text = "refused E%d %s" % (number, code) + (" %s" % detail if str(detail) else "")


def bad(part: int) -> Refused:
    return Refused(30, "bad-command", part)


# ---- texts

ESCAPES = str.maketrans({"\\": "\\\\", "\0": "\\0", "\t": "\\t", "\n": "\\n"})


def escaped(text: str) -> str:
    return text.translate(ESCAPES)


def unescaped(word: str) -> Optional[str]:
    """The text that a word is written for, or None where a backslash stands before anything else."""
    if re.search(r"\\(?![0tn\\])", re.sub(r"\\\\", "", word)):
        return None
    return re.sub(r"\\(.)", lambda match: {"0": "\0", "t": "\t", "n": "\n", "\\": "\\"}[match[1]], word)


def plain_number(word: str, bits: int) -> Optional[int]:
    """The number of so many bits whose plain digits these are."""
    return int(word) if re.fullmatch("0|[1-9][0-9]{0,19}", word) and int(word) < 1 << bits else None


def month_word(word: str) -> Optional[str]:
    return word if re.fullmatch("[0-9]{4}-[0-9]{2}", word) else None


def is_name(text: str) -> bool:
    return 1 <= len(text.encode()) <= 255 and all(ord(letter) >= 32 and ord(letter) != 127 for letter in text)


def stamp_text(millis: int, counter: int, node: str) -> str:
    moment = datetime.datetime(1970, 1, 1) + datetime.timedelta(milliseconds=millis)
    return "%s.%03dZ-%04X-%s" % (moment.strftime("%Y-%m-%dT%H:%M:%S"), millis % 1000, counter, node)


def time_of(stamp: str) -> Tuple[int, int]:
    """The milliseconds and the counter of a timestamp."""
    millis = peers.millis_of(stamp.encode())
    assert millis is not None
    return millis, int(stamp[25:29], 16)


# ---- clocks

class Clock:
    """Where a clock stands."""

    def __init__(self, time: int, counter: int):
        self.at = time, counter

    def drawn(self, reading: int) -> Tuple[int, int]:
        """Where one write brings it."""
        if reading // 60_000 >= WINDOW:
            raise Refused(28, "clock-beyond", reading)
        time = max(self.at[0], reading)
        return self.within(reading, time, self.at[1] + 1 if time == self.at[0] else 0)

    def received(self, reading: int, stamp: str) -> Tuple[int, int]:
        """Where a message brings it."""
        if reading // 60_000 >= WINDOW:
            raise Refused(28, "clock-beyond", reading)
        message = time_of(stamp)
        if message[0] - reading > AHEAD:
            raise Refused(26, "clock-drift", "%d %d" % (message[0], reading))
        time = max(self.at[0], reading, message[0])
        standing = [counter for moment, counter in (self.at, message) if moment == time]
        return self.within(reading, time, max(standing) + 1 if standing else 0)

    @staticmethod
    def within(reading: int, time: int, counter: int) -> Tuple[int, int]:
        if time - reading > AHEAD:
            raise Refused(26, "clock-drift", "%d %d" % (time, reading))
        if counter > 65_535:
            raise Refused(27, "clock-overflow", counter)
        return time, counter


# ---- books, as far as sheets read them

def number_in(value: str) -> int:
    match = re.fullmatch("N:(0|-?[1-9][0-9]{0,15})", value)
    return int(match[1]) if match and abs(int(match[1])) <= GREATEST else 0


def text_in(value: str) -> Optional[str]:
    return value[2:] if value.startswith("S:") else None


def day_in(value: str) -> Optional[int]:
    number = number_in(value)
    try:
        day = datetime.date(number // 10_000, number // 100 % 100, number % 100)
    except (ValueError, OverflowError):
        return None
    return number if 1970 <= day.year <= 2199 else None


class Row(Dict[str, str]):
    """The value texts of the columns of a row."""

    def is_set(self, column: str) -> bool:
        return self.get(column) == "N:1"

    def number(self, column: str) -> int:
        return number_in(self.get(column, ""))

    def text(self, column: str) -> Optional[str]:
        return text_in(self.get(column, ""))

    @property
    def is_there(self) -> bool:
        return bool(self) and not self.is_set("tombstone")


class Book:
    """The rows of the messages of a device."""

    def __init__(self, fields: Dict[Field, Tuple[str, str]]):
        self.rows: Dict[str, Dict[str, Row]] = {dataset: {} for dataset in COLUMNS}
        for (dataset, row, column), (_, value) in fields.items():
            if column in COLUMNS.get(dataset, []):
                self.rows[dataset].setdefault(row, Row())[column] = value

    def row(self, dataset: str, name: Optional[str]) -> Row:
        return self.rows[dataset].get(name, Row()) if name is not None else Row()

    def is_live(self, entry: Row) -> bool:
        """Whether a transaction is live."""
        return entry.is_there and (not entry.is_set("isChild") or self.row("transactions", entry.text("parent_id")).is_there)

    def ordered(self, dataset: str) -> List[str]:
        """The rows that aren't deleted, in the order of a sheet."""
        return sorted((name for name, row in self.rows[dataset].items() if row.is_there),
                      key=lambda name: (self.rows[dataset][name].number("sort_order"), name))

    def groups(self) -> Dict[str, List[str]]:
        """The live groups, each with its live categories."""
        found: Dict[str, List[str]] = {name: [] for name in self.ordered("category_groups")}
        for name in self.ordered("categories"):
            group = self.rows["categories"][name].text("cat_group")
            if group in found:
                found[group].append(name)
        return found

    def sums(self) -> Dict[Tuple[int, str], int]:
        """What the transactions that count add up to, by month and category."""
        found: Dict[Tuple[int, str], int] = {}
        for entry in self.rows["transactions"].values():
            day, account = day_in(entry.get("date", "")), self.row("accounts", entry.text("acct"))
            if not self.is_live(entry) or entry.is_set("isParent") or day is None or not account or account.is_set("offbudget"):
                continue
            category = entry.text("category")
            if category is not None:
                heir = self.row("category_mapping", category).text("transferId")
                category = category if heir is None else heir
                found[day // 100, category] = found.get((day // 100, category), 0) + entry.number("amount")
        return found

    def months(self, last: int) -> List[int]:
        """The months up to this one, from the first one on of which there is anything."""
        named = [name[:6] for name in self.rows["zero_budgets"]] + [name.replace("-", "") for name in self.rows["zero_budget_months"]]
        firsts = [month for month, _ in self.sums()] + [int(name) for name in named if re.fullmatch("[0-9]{4}(0[1-9]|1[0-2])", name)]
        month = max(197_001, min(firsts + [last]))
        found = []
        while month <= last:
            found.append(month)
            month += 1 if month % 100 < 12 else 89
        return found

    def sheet(self, last: int) -> Dict[str, int]:
        """The cells of a month by their names, in the order of the sheet."""
        groups, sums = self.groups(), self.sums()
        earning = {group for group in groups if self.rows["category_groups"][group].is_set("is_income")}
        income = [name for group in groups if group in earning for name in groups[group]]
        expenses = [name for group in groups if group not in earning for name in groups[group]]
        cells: Dict[str, int] = {}
        for month in self.months(last):
            before, cells = cells, {name: 0 for name in MONTH_CELLS}
            for name in expenses:
                given = self.row("zero_budgets", "%06d-%s" % (month, name))
                left = before.get("leftover-" + name, 0)
                goes_on = left if before.get("carryover-" + name) else max(0, left)
                cells["last-month-overspent"] += min(0, left) if not before.get("carryover-" + name) else 0
                cells["budget-" + name] = given.number("amount")
                cells["carryover-" + name] = int(given.is_set("carryover"))
                cells["sum-amount-" + name] = sums.get((month, name), 0)
                cells["leftover-" + name] = given.number("amount") + sums.get((month, name), 0) + goes_on
            for name in income:
                cells["sum-amount-" + name] = sums.get((month, name), 0)
            cells["total-income"] = sum(cells["sum-amount-" + name] for name in income)
            cells["from-last-month"] = before.get("to-budget", 0) + before.get("buffered", 0)
            cells["available-funds"] = cells["total-income"] + cells["from-last-month"]
            cells["total-budgeted"] = -sum(cells["budget-" + name] for name in expenses)
            cells["buffered"] = self.row("zero_budget_months", "%04d-%02d" % divmod(month, 100)).number("buffered")
            cells["to-budget"] = cells["available-funds"] + cells["last-month-overspent"] + cells["total-budgeted"] - cells["buffered"]
            cells["total-spent"] = sum(cells["sum-amount-" + name] for name in expenses)
            cells["total-leftover"] = sum(cells["leftover-" + name] for name in expenses)
        return self.in_order(groups, earning, cells)

    @staticmethod
    def in_order(groups: Dict[str, List[str]], earning: Set[str], cells: Dict[str, int]) -> Dict[str, int]:
        found = {name: cells[name] for name in MONTH_CELLS}
        for group, names in groups.items():
            for kind in ["sum-amount"] if group in earning else ["sum-amount", "budget", "leftover"]:
                found["group-%s-%s" % (kind, group)] = sum(cells["%s-%s" % (kind, name)] for name in names)
            for name in names:
                for kind in ["sum-amount"] if group in earning else ["sum-amount", "budget", "carryover", "leftover"]:
                    found["%s-%s" % (kind, name)] = cells["%s-%s" % (kind, name)]
        return found


# ---- devices

class Before(NamedTuple):
    """What a write went over: the field, its value, and whether its row was there."""
    field: Field
    value: Optional[str]
    was_there: bool


class Device:
    """A device: its node, its clock, its messages by timestamp, and what can be undone and redone."""

    def __init__(self, node: str):
        self.node = node
        self.messages: Dict[str, Tuple[Field, str]] = {}
        self.latest: Dict[Field, Tuple[str, str]] = {}
        self.begin()

    def begin(self) -> None:
        """Begins anew with the messages that are kept."""
        self.clock = Clock(*time_of(max(self.messages))) if self.messages else Clock(0, 0)
        self.entries: Dict[str, List[Before]] = {"undo": [], "redo": []}

    def join(self, stamp: str, field: Field, value: str) -> bool:
        """Takes a message in, and tells whether it is new."""
        if stamp in self.messages:
            return False
        self.messages[stamp] = field, value
        if field not in self.latest or self.latest[field][0] < stamp:
            self.latest[field] = stamp, value
        return True

    def before(self, field: Field) -> Before:
        dataset, row, _ = field
        there = any((dataset, row, column) in self.latest for column in COLUMNS.get(dataset, []))
        return Before(field, self.latest[field][1] if field in self.latest else None, there)

    def undoing(self, entry: Before) -> Tuple[Field, str]:
        """The write that undoes one."""
        dataset, row, column = entry.field
        if entry.value is not None:
            return entry.field, entry.value
        columns = COLUMNS.get(dataset, [])
        if not entry.was_there and "tombstone" in columns:
            return (dataset, row, "tombstone"), "N:1"
        return entry.field, "N:0" if column in columns and column in FLAGS | INTS else "0:"

    def edit(self, name: str, words: List[str], reading: int) -> Dict[str, Tuple[Field, str]]:
        """Makes an edit, and gives the messages that it makes; all edits here make one."""
        if name == "set":
            for word in words[:3]:
                if not is_name(word):
                    raise Refused(1, "bad-id", escaped(word))
            field, value = (words[0], words[1], words[2]), words[3]
        else:
            if not self.entries[name]:
                raise Refused(24 if name == "undo" else 25, "nothing-to-" + name)
            field, value = self.undoing(self.entries[name][-1])
        self.clock.at = self.clock.drawn(reading)
        entry = self.before(field)
        if name == "set":
            self.entries["redo"] = []
            self.entries["undo"].append(entry)
        else:
            self.entries[name].pop()
            self.entries["redo" if name == "undo" else "undo"].append(entry)
        stamp = stamp_text(*self.clock.at, self.node)
        self.join(stamp, field, value)
        return {stamp: (field, value)}

    def take(self, messages: Dict[str, Tuple[Field, str]], reading: int) -> int:
        """Takes messages in, and counts the new ones."""
        if messages:
            self.clock.at = self.clock.received(reading, max(messages))
        return sum(self.join(stamp, *message) for stamp, message in sorted(messages.items()))

    def later(self, since: str) -> Dict[str, Tuple[Field, str]]:
        return {stamp: self.messages[stamp] for stamp in sorted(self.messages) if stamp > since}

    def told(self, name: str, words: List[str]) -> Reply:
        """What a line that only reads is answered."""
        if name == "messages":
            return [line_of(stamp, *message) for stamp, message in self.later(words[0]).items()]
        if name == "fields":
            return [line_of(stamp, field, value) for field, (stamp, value) in sorted(self.latest.items())]
        if name == "value":
            found = self.latest.get((words[0], words[1], words[2]))
            return ["none" if found is None else escaped(found[1])]
        if name == "trie":
            return [peers.trie_text([stamp.encode() for stamp in self.messages]).decode()]
        book = Book(self.latest)
        if name == "balance":
            if not book.row("accounts", words[0]).is_there:
                raise Refused(3, "no-such-account", escaped(words[0]))
            return ["%d" % sum(entry.number("amount") for entry in book.rows["transactions"].values()
                               if book.is_live(entry) and not entry.is_set("isParent") and entry.text("acct") == words[0])]
        if name in ("sheet", "cell"):
            return self.cells(book, int(words[0].replace("-", "")), words[1:])
        return None

    @staticmethod
    def cells(book: Book, month: int, names: List[str]) -> Reply:
        if not (197_001 <= month <= 219_912 and 1 <= month % 100 <= 12):
            raise Refused(10, "bad-month", month)
        cells = book.sheet(month)
        if not names:
            return ["%s %d" % cell for cell in cells.items()]
        if names[0] in cells:
            return ["%d" % cells[names[0]]]
        match = re.match("(group-)?(?:sum-amount|budget|carryover|leftover)-", names[0])
        if not match or names[0].startswith("group-carryover-"):
            raise bad(4)
        name = escaped(names[0][match.end():])
        raise Refused(4, "no-such-group", name) if match[1] else Refused(5, "no-such-category", name)


def line_of(stamp: str, field: Field, value: str) -> str:
    return "\t".join([stamp, *(escaped(part) for part in field), escaped(value)])


# ---- worlds

class Words:
    """The words of a line, which are read from the left."""

    def __init__(self, words: List[str]):
        self.words = words
        self.at = 1

    def next(self, form: Callable[[str], object]):
        if self.at == len(self.words):
            raise bad(self.at)
        found = form(self.words[self.at])
        if found is None:
            raise bad(self.at)
        self.at += 1
        return found

    def number(self) -> int:
        return self.next(lambda word: plain_number(word, 32))

    def reading(self) -> int:
        return self.next(lambda word: plain_number(word, 64))

    def flag(self) -> str:
        return self.next(lambda word: word if word in ("0", "1") else None)

    def text(self) -> str:
        return self.next(unescaped)

    def end(self) -> None:
        if self.at < len(self.words):
            raise bad(self.at)

    def line(self, is_edit: bool) -> Tuple[str, List[str]]:
        """The line of a device that the other words are."""
        at = self.at
        name = self.next(str)
        if name in ("sync", "receive"):
            raise bad(0)
        if not is_edit and name in UNTOLD:
            return name, self.words[self.at:]
        if name not in FORMS or (name in EDITS) != is_edit:
            raise bad(at)
        found = [self.next(unescaped if form == "text" else month_word) for form in FORMS[name]]
        self.end()
        return name, found


class World:
    """Devices, a server, and what was sent."""

    def __init__(self) -> None:
        self.devices: List[Device] = []
        self.server = Device("server")
        self.requests: List[Tuple[str, Dict[str, Tuple[Field, str]]]] = []
        self.replies: List[Dict[str, Tuple[Field, str]]] = []

    def answer(self, line: bytes) -> Reply:
        """The lines of the reply to a line; one of them alone where it is refused."""
        try:
            if len(line) > 1_048_576:
                raise bad(0)
            try:
                words = Words(line.decode().split("\t"))
            except UnicodeDecodeError:
                raise bad(0) from None
            told = self.happened(words.words[0], words)
        except Refused as refused:
            return [refused.text]
        return None if told is None else ["ok %d" % len(told)] + told

    def device(self, number: int) -> Device:
        if not 1 <= number <= len(self.devices):
            raise Refused(33, "no-such-device", number)
        return self.devices[number - 1]

    def request(self, number: int) -> Tuple[str, Dict[str, Tuple[Field, str]]]:
        if number >= len(self.requests):
            raise Refused(34, "no-such-request", number)
        return self.requests[number]

    def happened(self, name: str, words: Words) -> Reply:
        if (name == "devices") == bool(self.devices):
            raise bad(0)
        if name not in ("devices", "edit", "ask", "serve", "take", "stop", "halt", "show", "equal"):
            raise bad(0)
        return getattr(self, "do_" + name)(words)

    def do_devices(self, words: Words) -> Reply:
        count = words.next(lambda word: plain_number(word, 32) if plain_number(word, 32) in range(1, 17) else None)
        words.end()
        self.devices = [Device(("%d" % number).rjust(16, "0")) for number in range(1, count + 1)]
        return []

    def do_edit(self, words: Words) -> Reply:
        number, reading, (name, others) = words.number(), words.reading(), words.line(True)
        return ["writes %d" % len(self.device(number).edit(name, others, reading))]

    def do_ask(self, words: Words) -> Reply:
        number, since = words.number(), words.text()
        words.end()
        self.requests.append((since, self.device(number).later(since)))
        return ["request %d" % (len(self.requests) - 1)]

    def do_serve(self, words: Words) -> Reply:
        number = words.number()
        words.end()
        since, messages = self.request(number)
        self.replies.append(self.server.later(since))
        for stamp, message in messages.items():
            self.server.join(stamp, *message)
        return ["reply %d %d" % (len(self.replies) - 1, len(self.replies[-1]))]

    def do_take(self, words: Words) -> Reply:
        number, reply, reading = words.number(), words.number(), words.reading()
        words.end()
        device = self.device(number)
        if reply >= len(self.replies):
            raise Refused(35, "no-such-reply", reply)
        return ["received %d" % device.take(self.replies[reply], reading)]

    def do_stop(self, words: Words) -> Reply:
        number, whole, reading, (name, others) = words.number(), words.flag(), words.reading(), words.line(True)
        device = self.device(number)
        made = device.edit(name, others, reading)
        if whole == "0":
            device.messages = {stamp: message for stamp, message in device.messages.items() if stamp not in made}
            kept, device.messages, device.latest = device.messages, {}, {}
            for stamp, message in kept.items():
                device.join(stamp, *message)
        device.begin()
        return ["stopped"]

    def do_halt(self, words: Words) -> Reply:
        number, whole = words.number(), words.flag()
        words.end()
        _, messages = self.request(number)
        for stamp, message in messages.items() if whole == "1" else ():
            self.server.join(stamp, *message)
        return ["halted"]

    def do_show(self, words: Words) -> Reply:
        number, (name, others) = words.number(), words.line(False)
        return self.device(number).told(name, others)

    def do_equal(self, words: Words) -> Reply:
        one, other = words.number(), words.number()
        words.end()
        return ["equal %d" % (self.device(one).messages == self.device(other).messages)]


# ---- a world of many devices and events

CROWD = 16
EVENTS = 5_000
MORNING = 1_704_448_800_000


def draw(number: int) -> int:
    """The number that is drawn for the event with a number."""
    return peers.murmur(b"%d" % number) & peers.MASK


def set_line(drawn: int) -> str:
    """What is set, by the same number."""
    row, amount = drawn // 4 % 8, drawn // 32 % 1_000
    return "set\t" + "\t".join([
        ("transactions", "t%d" % row, "amount", "N:%d" % amount),
        ("transactions", "t%d" % row, "category", "S:c%d" % (amount % 4)),
        ("zero_budgets", "202401-c%d" % (row % 4), "amount", "N:%d" % amount),
        ("notes", "n%d" % row, "note", "S:note %d" % amount),
    ][drawn % 4])


def crowd_line(number: int, sent: int) -> str:
    """The line of an event, where so many replies were sent: in turn two edits, some of them by a device that stops, a request, an answer or a stop of
    the server, and a reply that comes to a device. It is one of the last requests or replies, so some are lost, and some come more often than once."""
    drawn, reading = draw(number), MORNING + number * 1_000
    device, kind, back = 1 + drawn % CROWD, drawn // 16 % 16, drawn // 256 % 8
    if number % 5 < 2:
        edit = {0: "undo", 1: "redo"}.get(kind, set_line(drawn // 4_096))
        return "edit\t%d\t%d\t%s" % (device, reading, edit) if kind < 14 else "stop\t%d\t%d\t%d\t%s" % (device, kind - 14, reading, edit)
    if number % 5 == 2:
        return "ask\t%d\t2024-01-05T1%d:%d" % (device, number // 3_600, number // 600 % 6)
    if number % 5 == 3:
        request = max(0, number // 5 - back)
        return "serve\t%d" % request if kind < 14 else "halt\t%d\t%d" % (request, kind - 14)
    return "take\t%d\t%d\t%d" % (device, max(0, sent - back), reading)


BOOKS = ["accounts\tbank\tname\tS:Bank", "category_groups\tg\tname\tS:Usual", "category_groups\tgi\tis_income\tN:1",
         *("categories\tc%d\tcat_group\tS:%s" % (number, "g" if number else "gi") for number in range(4)),
         *("transactions\tt%d\t%s" % (number, column) for number in range(8) for column in ("acct\tS:bank", "date\tN:202401%02d" % (number + 1)))]
READ = ["fields", "messages\t", "trie", "balance\tbank", "sheet\t2024-01"]


def last_line(number: int, world: World) -> str:
    """The line of an event of the end: each device asks, is served and takes, twice."""
    device = 1 + number // 3 % CROWD
    return ["ask\t%d\t0" % device, "serve\t%d" % (len(world.requests) - 1),
            "take\t%d\t%d\t%d" % (device, len(world.replies) - 1, MORNING + EVENTS * 1_000)][number % 3]


def crowd() -> tuple[list[bytes], list[str]]:
    """The lines of a world of many devices and events, at whose end each device has everything, and the replies to them. The last lines ask all
    devices the same, and compare each with the first."""
    world, lines, replies = World(), [], []

    def happen(line: str) -> list[str]:
        reply = world.answer(line.encode())
        assert reply is not None
        lines.append(line.encode())
        replies.append("\n".join(reply))
        return reply

    happen("devices\t%d" % CROWD)
    for line in BOOKS:
        happen("edit\t1\t%d\tset\t%s" % (MORNING, line))
    for number in range(EVENTS):
        happen(crowd_line(number, len(world.replies)))
    for number in range(6 * CROWD):
        happen(last_line(number, world))
    for line in READ:
        assert len({tuple(happen("show\t%d\t%s" % (device, line))) for device in range(1, CROWD + 1)}) == 1
    for device in range(1, CROWD + 1):
        assert happen("equal\t1\t%d" % device)[-1] == "equal 1"
    return lines, replies


def main() -> int:
    world = World()
    for line in sys.stdin.buffer.read().split(b"\n")[:-1]:
        reply = world.answer(line)
        print("\n".join(["not told"] if reply is None else reply))
    return 0


if __name__ == "__main__":
    sys.exit(main())
