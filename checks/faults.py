#!/usr/bin/env python3
"""Writes the tables of crates/fault_examples and crates/stop_examples, by docs/FORMATS.md and by nothing of the program.

Each table plays one run again and again, and each time another call of one object fails, the first, the second, and so on. Its last row has
the call behind the last one, which isn't made. What docs/FORMATS.md doesn't say is how many calls a run makes, which is this:

- a source gives all in one call, and tells in another one that there is no more;
- a reply of a device goes to the sink by a write and a flush, and so does the line of a connection;
- a keeper is asked once for what is kept, before the first line; each edit is one append. A sync asks for the text of the last sync, makes an
  append for each turn that brings messages, and puts the text. A server puts the group of its file, and then asks at each request for the text
  of the file, for the records of the group if it doesn't know them yet, or lost them, and makes one append, if there are new messages;
- a link is handed a request by one call, and gives the reply by another one;
- a connection is let in by one call of the door, read by one for each piece of 200 bytes, written by one, and closed by one.

Without words it prints the tables. With --check it compares them with those that stand in the crates, and names the files that have others.
"""
import copy
import os
import sys

import peers

READING = 1_704_448_800_000
NODE = "00000000000000aa"
NONE = "-"


def stamp_text(millis, counter, node=NODE):
    """The text of a timestamp on the day of the reading."""
    day = millis - (READING - 10 * 3_600_000)
    return "2024-01-05T%02d:%02d:%02d.%03dZ-%04X-%s" % (day // 3_600_000, day // 60_000 % 60, day // 1000 % 60, day % 1000, counter, node)


# ---- a device's lines

class Device:
    """A device: its clock, its messages by timestamp, and the rows of its books as far as the lines of the household ask for them."""

    def __init__(self):
        self.clock = (0, 0)
        self.messages = {}
        self.income = {}
        self.spent = {}
        self.given = {}

    def draw(self):
        """The next timestamp of an edit."""
        time, counter = self.clock
        self.clock = (time, counter + 1) if time >= READING else (READING, 0)
        return stamp_text(*self.clock)

    def received(self, stamp, parts):
        """Takes a message of a turn in, and tells whether it is new."""
        fresh = stamp not in self.messages
        self.messages.setdefault(stamp, parts)
        return fresh

    def follow(self, stamp):
        """The clock, behind the latest message of a turn."""
        at, counter = peers.millis_of(stamp.encode()), int(stamp[25:29], 16)
        time = max(self.clock[0], READING, at)
        standing = [number for moment, number in (self.clock, (at, counter)) if moment == time]
        self.clock = time, max(standing) + 1 if standing else 0

    def edit(self, writes, made):
        """Makes the writes, where the row NONE is a new one, and gives the reply."""
        new = {}
        for dataset, row, column, value in writes:
            stamp = self.draw()
            if row == NONE:
                row = new.setdefault(dataset, stamp)
            self.messages[stamp] = dataset, row, column, value
        return ["writes %d" % len(writes)] + ["made " + new[dataset] for dataset in made]

    def cell(self, month):
        """What is to budget in a month."""
        if month < "2024-01":
            return 0
        before = "%d-%02d" % (int(month[:4]), int(month[5:]) - 1)
        overspent = sum(min(0, self.leftover(before, category)) for category in self.given_in(before))
        income = sum(amount for (when, _), amount in self.income.items() if when == month)
        return self.cell(before) + income + overspent - sum(self.given_in(month).values())

    def given_in(self, month):
        return {category: amount for (when, category), amount in self.given.items() if when == month}

    def leftover(self, month, category):
        if month < "2024-01":
            return 0
        before = "%d-%02d" % (int(month[:4]), int(month[5:]) - 1)
        return max(0, self.leftover(before, category)) + self.given.get((month, category), 0) + self.spent.get((month, category), 0)

    def answer(self, line):
        """The lines of the reply to a line."""
        name, *words = line.split("\t")
        if name == "account-add":
            row, text, off = words
            return self.edit([("accounts", row, "name", "S:" + text), ("accounts", row, "offbudget", "N:" + off),
                              ("payees", NONE, "name", "S:"), ("payees", NONE, "transfer_acct", "S:" + row)], ["payees"])
        if name == "group-add":
            row, text, income = words
            self.income_groups = getattr(self, "income_groups", {}) | {row: income}
            return self.edit([("category_groups", row, "name", "S:" + text), ("category_groups", row, "is_income", "N:" + income)], [])
        if name == "category-add":
            row, group, text = words
            income = self.income_groups[group]
            self.groups = getattr(self, "groups", {}) | {row: group}
            return self.edit([("categories", row, "name", "S:" + text), ("categories", row, "cat_group", "S:" + group),
                              ("categories", row, "is_income", "N:" + income)], [])
        if name == "tx-add":
            row, account, day, amount, payee, category, notes = words
            assert (row, payee, notes) == (NONE, NONE, "")
            month = "%s-%s" % (day[:4], day[4:6])
            sums = self.income if self.income_groups[self.groups[category]] == "1" else self.spent
            sums[month, category] = sums.get((month, category), 0) + int(amount)
            return self.edit([("transactions", NONE, "acct", "S:" + account), ("transactions", NONE, "date", "N:" + day),
                              ("transactions", NONE, "amount", "N:" + amount), ("transactions", NONE, "description", "0:"),
                              ("transactions", NONE, "category", "S:" + category), ("transactions", NONE, "notes", "0:")], ["transactions"])
        if name == "budget":
            month, category, amount = words
            row = month.replace("-", "") + "-" + category
            self.given[month, category] = int(amount)
            return self.edit([("zero_budgets", row, "month", "N:" + month.replace("-", "")), ("zero_budgets", row, "category", "S:" + category),
                              ("zero_budgets", row, "amount", "N:" + amount)], [])
        if name == "set":
            dataset, row, column, value = words
            return self.edit([(dataset, row, column, value)], [])
        if name == "messages":
            assert words == [""]
            return [line for line in self.kept().split("\n") if line]
        assert name == "cell" and words[1] == "to-budget"
        return ["%d" % self.cell(words[0])]

    def kept(self):
        """The lines of all messages, by timestamp."""
        return "".join("%s\t%s\n" % (stamp, "\t".join(self.messages[stamp])) for stamp in sorted(self.messages))


def reply_text(lines):
    return "".join(line + "\n" for line in ["ok %d" % len(lines)] + lines)


# ---- the household: an income, one expense, and what is given in two months

HOUSEHOLD = """account-add>bank>Bank>0
group-add>gi>Income>1
category-add>pay>gi>Salary
group-add>g>Usual>0
category-add>food>g>Food
tx-add>->bank>20240102>100000>->pay>
tx-add>->bank>20240110>-35000>->food>
budget>2024-01>food>30000
budget>2024-02>food>20000
cell>2024-01>to-budget
cell>2024-02>to-budget
"""


def household():
    """The replies, all messages, and the bytes and records that are there behind each number of lines."""
    device, replies, marks, edits = Device(), "", [(0, 0, 0)], []
    for line in HOUSEHOLD.split("\n")[:-1]:
        before = len(device.messages)
        replies += reply_text(device.answer(line.replace(">", "\t")))
        edits.append(len(device.messages) > before)
        marks.append((len(replies), len(device.messages), len(device.kept())))
    return replies, device.kept(), marks, edits


def household_rows(marks, edits):
    """Of source, sink, keeper and want of memory: the call that fails, the status, the bytes that are written, the records that are kept."""
    count = len(edits)
    nothing, everything = (0, 0), marks[count][:2]
    source = [(0, 4, *nothing), (1, 4, *everything), (2, 0, *everything)]
    sink = [(2 * at + flush, 5, marks[at + flush][0], marks[at + 1][1]) for at in range(count) for flush in (0, 1)]
    keeper = [(0, 6, *nothing)]
    keeper += [(call, 6, *marks[at][:2]) for call, at in enumerate((at for at in range(count) if edits[at]), 1)]
    wants = [(call, 7, *left) for call, _, *left in keeper]
    return source, *(rows + [(len(rows), 0, *everything)] for rows in (sink, keeper, wants))


# ---- three requests to a server

MESSAGES = (
    ("2024-01-05T10:00:00.000Z-0000-00000000000000aa", ("categories", "food", "name", "S:Food")),
    ("2024-01-05T10:00:01.000Z-0000-00000000000000bb", ("categories", "food", "name", "S:Meals")),
    ("2024-01-05T09:00:00.000Z-0000-00000000000000bb", ("categories", "rent", "name", "S:Rent")),
)
FOOD, MEALS, RENT = MESSAGES
PIECE = 200


def body_of(messages, since):
    envelopes = b"".join(peers.written(stamp.encode(), tuple(part.encode() for part in parts)) for stamp, parts in messages)
    return envelopes + peers.spelled(2, b"home") + peers.spelled(3, b"home") + peers.spelled(6, since.encode())


def request_of(messages, since):
    """A request as a device sends it."""
    body = body_of(messages, since)
    return (b"POST /sync/sync HTTP/1.1\r\nHost: localhost\r\nContent-Type: application/actual-sync\r\nX-ACTUAL-TOKEN: local\r\n"
            b"Content-Length: %d\r\nConnection: close\r\n\r\n%s" % (len(body), body))


def zero_stamp(millis):
    return stamp_text(millis, 0, "0" * 16)


# a device hands a message in; another one does so, and gets the first one's; a third one gets both
REQUESTS = (
    request_of([FOOD], zero_stamp(READING - 300_000)),
    request_of([MEALS], zero_stamp(READING - 299_000)),
    request_of([], "0"),
)
FAULTS = {503: (b"Service Unavailable", b"keeper-fault"), 507: (b"Insufficient Storage", b"no-memory")}


def contents_of(server):
    """The lines of a server's messages, and the group of its file."""
    known = dict(MESSAGES)
    return "".join("%s\t%s\n" % (stamp, "\t".join(known[stamp])) for stamp in (key.decode() for key in server.stamps)) + "home\n"


class Broken(Exception):
    """The call that fails."""


class Calls:
    """The calls of an object, of which one fails."""

    def __init__(self, fails):
        self.fails, self.made = fails, 0

    def call(self):
        self.made += 1
        if self.made - 1 == self.fails:
            raise Broken


def served(door_fails=None, keeper_fails=None, fault=503):
    """The status, what is told of the connections, the replies that were written, what is kept, and the calls of both."""
    door, keeper = Calls(door_fails), Calls(keeper_fails)
    server, known, lines, replies = peers.Server(), False, "", []
    try:
        keeper.call()
    except Broken:
        return (6 if fault == 503 else 7), "", [b""] * 3, "", door, keeper
    for number, data in enumerate(REQUESTS, 1):
        try:
            door.call()
        except Broken:
            return 8, lines, replies + [b""] * (4 - number), contents_of(server), door, keeper
        told, reply = "cut", b""
        try:
            for _ in range(0, len(data), PIECE):
                door.call()
            before = copy.deepcopy(server)
            try:
                keeper.call()
                if not known:
                    keeper.call()
                    known = True
                answer = server.answer(data)
                if server.stamps != before.stamps:
                    known = False
                    keeper.call()
                    known = True
                status = 200
            except Broken:
                server, status = before, fault
                answer = peers.reply_of(fault, FAULTS[fault][0], b"text/plain", FAULTS[fault][1])
            door.call()
            told, reply = "%d" % status, answer
        except Broken:
            pass
        try:
            door.call()
        except Broken:
            pass
        lines += "%d %s\n" % (number, told)
        replies.append(reply)
    return 0, lines, replies, contents_of(server), door, keeper


def served_rows():
    """The replies and the contents that there are, and the rows of door, keeper and want of memory: the call, the status, the lines, the
    replies and the contents by number."""
    texts, contents = [b""], [""]

    def row(call, told):
        for reply in told[2]:
            if reply not in texts:
                texts.append(reply)
        if told[3] not in contents:
            contents.append(told[3])
        return call, told[0], told[1], [texts.index(reply) for reply in told[2]], contents.index(told[3])

    *_, door, keeper = served()
    doors = [row(call, served(door_fails=call)) for call in range(door.made + 1)]
    keepers = [row(call, served(keeper_fails=call)) for call in range(keeper.made + 1)]
    wants = [row(call, served(keeper_fails=call, fault=507)) for call in range(keeper.made + 1)]
    return texts, contents, doors, keepers, wants


# ---- a sync of two turns, and the lines before and behind it

SYNC = """set>categories>food>name>S:Food
sync
messages>
"""


def replies_to_sync():
    """What a server answers that has two messages, of which the first request asks for one: it is from before that."""
    server = peers.Server()
    server.request(body_of([MEALS, RENT], "0"))
    first = server.request(body_of([FOOD], zero_stamp(READING - 300_000)))
    second = server.request(body_of([FOOD, MEALS], zero_stamp(READING - 3_600_000)))
    return [peers.reply_of(200, b"OK", b"application/actual-sync", body) for body in (first, second)]


def synced(link_fails=None, keeper_fails=None, want=False):
    """The status, the output, what is kept, and the calls of both."""
    link, keeper = Calls(link_fails), Calls(keeper_fails)
    device, output, kept, status = Device(), "", "", 0
    set_line, sync_line, messages_line = (line.replace(">", "\t") for line in SYNC.split("\n")[:-1])
    assert sync_line == "sync"
    try:
        keeper.call()
        reply = reply_text(device.answer(set_line))
        keeper.call()
        kept = device.kept()
        output += reply
        try:
            keeper.call()
            count = 0
            for data in replies_to_sync():
                try:
                    link.call()
                    link.call()
                except Broken:
                    raise Broken("link") from None
                _, messages, _ = peers.judged(data)
                told = [(stamp.decode(), tuple(part.decode() for part in parts)) for stamp, parts in messages]
                new = [stamp for stamp, parts in told if device.received(stamp, parts)]
                device.follow(max(stamp for stamp, _ in told))
                keeper.call()
                kept = device.kept()
                count += len(new)
            keeper.call()
            kept += stamp_text(*device.clock) + "\n"
            output += reply_text(["requests 2 received %d" % count])
        except Broken as broken:
            if broken.args != ("link",) or want:
                raise
            output += "refused E29 sync-failed link\n"
            status = 1
        output += reply_text(device.answer(messages_line))
    except Broken:
        status = 7 if want else 6
    return status, output, kept, link, keeper


def synced_rows():
    """The outputs and the contents that there are, and the rows of link and keeper, and of want of memory at both: the call, the status, the
    output by number, how many bytes of it are written, the contents by number."""
    whole = synced()
    outputs, contents = [whole[1]], [""]

    def row(call, told):
        status, output, kept = told[:3]
        if not whole[1].startswith(output) and output not in outputs:
            outputs.append(output)
        if kept not in contents:
            contents.append(kept)
        at = 0 if whole[1].startswith(output) else outputs.index(output)
        return call, status, at, len(output), contents.index(kept)

    links, keepers = (range(calls.made + 1) for calls in whole[3:])
    return (outputs, contents, [row(call, synced(link_fails=call)) for call in links], [row(call, synced(keeper_fails=call)) for call in keepers],
            [row(call, synced(link_fails=call, want=True)) for call in links],
            [row(call, synced(keeper_fails=call, want=True)) for call in keepers])


# ---- as they are written

def value(part):
    if isinstance(part, list):
        return "[%s]" % ", ".join(value(entry) for entry in part)
    if isinstance(part, str):
        return '"%s"' % part.replace("\n", "\\n")
    return "%d" % part


def table(name, kind, rows):
    return "const %s: [%s; %d] = [\n%s];" % (name, kind, len(rows), "".join("    (%s),\n" % ", ".join(value(part) for part in row) for row in rows))


def text(name, lines):
    return 'const %s: &str =\n    r"%s";' % (name, lines.replace("\t", ">"))


def literal(entry):
    return peers.literal(entry).replace("\\x0d", "\\r").replace("\\x0a", "\\n")


def texts_table(name, entries):
    entries = [entry if isinstance(entry, str) else entry.decode("latin-1") for entry in entries]
    return "const %s: [&str; %d] = [\n%s];" % (name, len(entries), "".join("    %s,\n" % literal(entry) for entry in entries))


def tables():
    """The items of each file."""
    replies, kept, marks, edits = household()
    source, sink, keeper, keeper_wants = household_rows(marks, edits)
    texts, server_contents, doors, keepers, wants = served_rows()
    outputs, contents, links, syncs, link_wants, sync_wants = synced_rows()
    row = "(u64, u8, usize, usize)"
    served_row = "(u64, u8, &str, [usize; 3], usize)"
    synced_row = "(u64, u8, usize, usize, usize)"
    household_texts = [text("LINES", HOUSEHOLD), text("REPLIES", replies), text("KEPT", kept)]
    return {
        "fault_examples/src/household.rt": household_texts + [table("SOURCE", row, source), table("SINK", row, sink), table("KEEPER", row, keeper),
                                                                 table("WANTS", row, keeper_wants)],
        "fault_examples/src/requests.rt": [texts_table("REQUESTS", REQUESTS), texts_table("REPLIES", texts), texts_table("CONTENTS", server_contents),
                                           table("DOOR", served_row, doors), table("KEEPER", served_row, keepers),
                                           table("WANTS", served_row, wants)],
        "fault_examples/src/syncs.rt": [text("LINES", SYNC), texts_table("REPLIES", replies_to_sync()), texts_table("OUTPUTS", outputs),
                                        texts_table("CONTENTS", contents), table("LINK", synced_row, links), table("KEEPER", synced_row, syncs),
                                        table("LINK_WANTS", synced_row, link_wants), table("KEEPER_WANTS", synced_row, sync_wants)],
        "stop_examples/src/household.rt": household_texts + [table("ANSWERED", "(usize, usize)", [(mark[0], mark[2]) for mark in marks])],
    }


def squeezed(source):
    """A source without what a layout of it may change."""
    return "".join(source.split()).replace(",)", ")").replace(",]", "]")


def main():
    if sys.argv[1:] != ["--check"]:
        for path, items in tables().items():
            print("// crates/%s\n" % path + "\n\n".join(items) + "\n")
        return 0
    crates = os.path.join(os.path.dirname(os.path.abspath(__file__)), "..", "crates")
    wrong = []
    for path, items in tables().items():
        with open(os.path.join(crates, path), encoding="utf-8") as file:
            found = squeezed(file.read())
        wrong += [path for item in items if squeezed(item) not in found]
    for path in wrong:
        print("another table stands in crates/" + path)
    return 1 if wrong else 0


if __name__ == "__main__":
    sys.exit(main())
