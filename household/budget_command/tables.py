"""Tables of texts that are aligned, and fit the terminal's width; and the same for scripts, with a TAB between the values."""
import dataclasses
import os
import shutil
import sys
import textwrap
import unicodedata
from typing import List, Sequence

from .words import escape

GAP = "  "
CUT = "~"
LEAST_WIDTH = 20
# signs that turn the direction of writing, or that no terminal shows
HIDDEN = {"Cc", "Cf", "Cs", "Co", "Cn", "Zl", "Zp"}
SHOWN_HIDDEN = {"\n": "\\n", "\t": "\\t", "\r": "\\r"}


@dataclasses.dataclass(frozen=True)
class Column:
    """A column: numbers stand at the right; one with a least width may be cut to it; one for scripts alone is not shown in tables."""
    title: str
    right: bool = False
    least: int = 0
    scripts_only: bool = False


@dataclasses.dataclass
class Output:
    """Where a command writes, how wide it is there, and whether scripts read it."""
    width: int
    tsv: bool
    colour: bool

    def table(self, columns: Sequence[Column], rows: Sequence[Sequence[str]], marked: Sequence[bool] = ()) -> None:
        """Writes a table; of the rows that are marked the text is red where there is colour."""
        if self.tsv:
            self.values(columns, rows)
            return
        shown = [place for place, column in enumerate(columns) if not column.scripts_only]
        columns = [columns[place] for place in shown]
        cells = [[printable(row[place]) for place in shown] for row in rows]
        widths = widths_of(columns, cells, self.width)
        self.line(row_text([column.title for column in columns], columns, widths))
        for place, row in enumerate(cells):
            self.line(row_text(row, columns, widths), place < len(marked) and marked[place])

    def values(self, columns: Sequence[Column], rows: Sequence[Sequence[str]]) -> None:
        """Writes values as they are, a row each."""
        for row in [[column.title for column in columns], *rows]:
            print("\t".join(escape(value).replace("\r", "\\r") for value in row))

    def line(self, text: str, marked: bool = False) -> None:
        """Writes a line of a table."""
        print(f"\x1b[31m{text}\x1b[0m" if marked and self.colour else text)

    @staticmethod
    def clean(text: str) -> str:
        """A text without signs that a terminal would obey."""
        return printable(text)

    def wrapped(self, text: str, indent: str = "") -> str:
        """Sentences in lines of the width."""
        return textwrap.fill(printable(text), self.width, subsequent_indent=indent, break_on_hyphens=False, break_long_words=False)

    def say(self, text: str, indent: str = "") -> None:
        """Writes sentences, wrapped at the width."""
        print(self.wrapped(text, indent))


def output_for(tsv: bool) -> Output:
    """Where commands write: the terminal, or what stands in its place."""
    width = shutil.get_terminal_size((80, 24)).columns
    colour = sys.stdout.isatty() and not os.environ.get("NO_COLOR")
    return Output(max(width, LEAST_WIDTH), tsv, colour)


def printable(text: str) -> str:
    """A text without signs that a terminal would obey."""
    if text.isascii() and text.isprintable():
        return text
    return "".join(sign if unicodedata.category(sign) not in HIDDEN else SHOWN_HIDDEN.get(sign, "?") for sign in text)


def sign_width(sign: str) -> int:
    """How many columns of a terminal a sign takes."""
    if unicodedata.combining(sign) or unicodedata.category(sign) in ("Mn", "Me"):
        return 0
    return 2 if unicodedata.east_asian_width(sign) in "WF" else 1


def width_of(text: str) -> int:
    """How many columns a text takes."""
    return len(text) if text.isascii() else sum(map(sign_width, text))


def fitted(text: str, width: int, right: bool = False) -> str:
    """A text in just so many columns: filled up, or cut."""
    if width_of(text) > width:
        kept, taken = [], 0
        for sign in text:
            taken += sign_width(sign)
            if taken > width - 1:
                break
            kept.append(sign)
        text = "".join(kept) + CUT
    filling = " " * (width - width_of(text))
    return filling + text if right else text + filling


def widths_of(columns: Sequence[Column], rows: Sequence[Sequence[str]], width: int) -> List[int]:
    """How wide each column is: as its texts are, but that those which may be cut give way from the widest on."""
    widths = [max([width_of(column.title)] + [width_of(row[place]) for row in rows]) for place, column in enumerate(columns)]
    excess = sum(widths) + len(GAP) * (len(columns) - 1) - width
    while excess > 0:
        wide = [place for place, column in enumerate(columns) if column.least and widths[place] > column.least]
        if not wide:
            break
        widths[max(wide, key=lambda place: widths[place])] -= 1
        excess -= 1
    return widths


def row_text(row: Sequence[str], columns: Sequence[Column], widths: Sequence[int]) -> str:
    """A row as a line."""
    return GAP.join(fitted(text, width, column.right) for text, column, width in zip(row, columns, widths)).rstrip()


def bar(part: int, whole: int, width: int) -> str:
    """A bar of what is spent of what there is; what is beyond it ends with a `!`."""
    if part > whole:
        return "#" * (width - 1) + "!"
    filled = 0 if part <= 0 else max(1, min(width, part * width // whole)) if whole > 0 else 0
    return "#" * filled + "." * (width - filled)
