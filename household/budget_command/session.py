"""One run of the command over the store: its lines, its book, and its entry in the journal."""
import fcntl
import os
import sys
import time
from typing import List, NoReturn, Optional

from . import refusals
from .book import Book, message_of
from .device import Device
from .errors import LineRefused, Refusal
from .journal import Entry, Journal, what_stood
from .settings import Settings, taken_paths
from .words import line_of

# for so many seconds a command waits for another one
WAIT = 20.0
# so many lines are told before it is said how far an undo is
STEP = 500


class Session:
    """A run of the program, and what is known of its books."""

    def __init__(self, settings: Settings, path: str, command: List[str]):
        journal_path, lock_path = taken_paths(path)
        self.settings = settings
        self.command = command
        self.lock = waited_for(lock_path)
        self.journal = Journal(journal_path)
        self.device = Device(settings, [self.lock])
        self.entry: Optional[Entry] = None
        self.undoable = 0
        self._book: Optional[Book] = None

    @property
    def book(self) -> Book:
        """The rows as they are now."""
        if self._book is None:
            self._book = Book(self.device.ask("fields"))
        return self._book

    def ask(self, *words: str) -> List[str]:
        """The reply to a line that only reads."""
        try:
            return self.device.ask(*words)
        except LineRefused as refused:
            raise Refusal(refusals.sentence(refused, self.book)) from refused

    def tell(self, *words: str) -> List[str]:
        """Tells a line that edits the books; gives the ids of the rows that it made."""
        return self.tell_line(line_of(words))

    def tell_line(self, line: str) -> List[str]:
        """The same, of a line as it stands; gives all lines of the reply but the first."""
        before = self.book
        if self.entry is None:
            self._complete_last()
            self.entry = self.journal.begin(self.command, before.latest)
        self.entry.tell(line)
        self.journal.save()
        try:
            reply = self.device.ask_line(line)
        except LineRefused as refused:
            self._refuse(refused, before)
        if reply[0] != "writes 0":
            self.undoable += 1
        return [made[len("made "):] for made in reply[1:]]

    def renew(self) -> None:
        """Reads the book anew where it is asked for next, behind lines that edit it."""
        self._complete()
        self._book = None

    def forget(self) -> None:
        """Reads the book anew where it is asked for next, behind a sync."""
        self._book = None

    def _refuse(self, refused: LineRefused, before: Book) -> NoReturn:
        """Takes back the lines of the command that were done, since the command is refused as a whole."""
        self._take_back_lines()
        self._settle()
        raise Refusal(refusals.sentence(refused, before)) from refused

    def _settle(self) -> None:
        """Takes the entry of this run away, whose lines are undone."""
        if self.entry is not None:
            self.journal.settle(self.entry, self.entry.since, self._latest(self.entry.since))
            self.entry = None

    def _take_back_lines(self) -> None:
        """Undoes the lines of this run."""
        for _ in range(self.undoable):
            self.device.ask("undo")
        self.undoable = 0

    def _latest(self, since: str) -> str:
        """The latest timestamp, which is that one or a later one."""
        written = self.device.ask("messages", since)
        return message_of(written[-1]).stamp if written else since

    def _complete(self) -> None:
        """Notes in the journal what the lines since the last time wrote over."""
        if self.entry is None or self._book is None:
            return
        since = self.entry.until or self.entry.since
        writes = [message_of(line) for line in self.device.ask("messages", since)]
        self.entry.complete(writes, *what_stood(self._book, writes))
        if self.entry.is_whole:
            self.journal.save()
        else:
            self.journal.drop(self.entry)
            self.entry = None

    def _complete_last(self) -> None:
        """Completes the entry of a command that was cut off, from the messages that it left."""
        if not self.journal.entries or self.journal.entries[-1].is_whole:
            return
        entry = self.journal.entries[-1]
        writes = [each for each in map(message_of, self.device.ask("messages", entry.since)) if self.is_own(each.stamp)]
        lines = (line for line in self.device.ask("messages", "") if line.partition("\t")[0] <= entry.since)
        entry.complete(writes, *what_stood(Book(lines), writes))
        if not entry.is_whole:
            self.journal.entries.pop()
        self.journal.save()

    def last_entry(self) -> Optional[Entry]:
        """The entry of the last command that changed the books, also where it was cut off."""
        self._complete_last()
        return self.journal.entries[-1] if self.journal.entries else None

    def take_back(self, entry: Entry, lines: List[str]) -> None:
        """Tells the lines that take back the last entry, all of them or none."""
        before = self.book
        try:
            for line in lines:
                self.device.ask_line(line)
                self.undoable += 1
                if self.undoable % STEP == 0:
                    print(f"{self.undoable} of {len(lines)} lines are told", file=sys.stderr, flush=True)
        except LineRefused as refused:
            self._take_back_lines()
            entry.settled.append((before.latest, self._latest(before.latest)))
            self.journal.save()
            raise Refusal(refusals.sentence(refused, before)) from refused
        self.journal.settle(entry, before.latest, self._latest(before.latest))
        self._book = None

    def is_own(self, stamp: str) -> bool:
        """Whether this device made a timestamp."""
        return stamp.endswith("-" + self.settings.node.rjust(16, "0"))

    def end(self) -> None:
        """Ends the run, and completes its entry."""
        self._complete()
        self.device.end()

    def give_up(self) -> None:
        """Ends the run where a command is refused: the lines that it told before are taken back."""
        if self.undoable:
            self._take_back_lines()
        self._settle()
        self.device.end()


def waited_for(path: str) -> int:
    """Takes the file by which two runs of one device wait for each other; it is free again where this run and its program have ended."""
    try:
        os.makedirs(os.path.dirname(path), exist_ok=True)
        place = os.open(path, os.O_RDWR | os.O_CREAT | os.O_CLOEXEC, 0o600)
    except OSError as fault:
        raise Refusal(f"{path} can't be made: {fault.strerror}. The folder of the settings has to be one that you may write in.") from fault
    until = time.monotonic() + WAIT
    while True:
        try:
            fcntl.flock(place, fcntl.LOCK_EX | fcntl.LOCK_NB)
            return place
        except OSError as fault:
            if time.monotonic() > until:
                raise Refusal("Another command goes on over this store. Wait until it has ended, and try again.") from fault
            time.sleep(0.05)
