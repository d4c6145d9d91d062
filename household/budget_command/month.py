"""The month as a table: what each category was given, has spent and has left."""
import dataclasses
from typing import Dict, List

from .names import shown
from .session import Session
from .tables import Column, Output, bar
from .words import amount_text

WHOLE_MONTH = {"total-income", "from-last-month", "available-funds", "last-month-overspent", "total-budgeted", "buffered", "to-budget",
               "total-spent", "total-leftover"}
# the cells of a category or a group, of which the first is always there
KINDS = ("sum-amount", "budget", "carryover", "leftover")
GROUP_START = "group-"
OVER = "!"
WIDE = 72
SHORT_BAR, LONG_BAR = 8, 10


@dataclasses.dataclass
class Line:
    """What the sheet tells of a category or a group."""
    name: str
    is_group: bool
    cells: Dict[str, int]

    @property
    def spent(self) -> int:
        """What was spent, which is above 0 where money went out."""
        return -self.cells["sum-amount"]

    @property
    def given(self) -> int:
        """What was given in this month."""
        return self.cells.get("budget", 0)

    @property
    def left(self) -> int:
        """What is left."""
        return self.cells.get("leftover", 0)

    @property
    def has(self) -> int:
        """What it had to spend: given, and left from the month before."""
        return self.left + self.spent

    @property
    def is_income(self) -> bool:
        """Whether it takes income, so that nothing is given to it."""
        return "leftover" not in self.cells

    @property
    def is_over(self) -> bool:
        """Whether it is overspent."""
        return self.left < 0


def lines_of(session: Session, told: List[str]) -> List[Line]:
    """The groups and categories of a sheet, in its order."""
    lines: List[Line] = []
    book = session.book
    for text in told:
        name, value = text.rsplit(" ", 1)
        if name in WHOLE_MONTH:
            continue
        is_group = name.startswith(GROUP_START)
        name = name[len(GROUP_START):] if is_group else name
        kind = next(kind for kind in KINDS if name.startswith(kind + "-"))
        row = name[len(kind) + 1:]
        if kind == KINDS[0]:
            found = book.groups.get(row) if is_group else book.categories.get(row)
            lines.append(Line(shown(found.name, row, True) if found else row, is_group, {}))
        lines[-1].cells[kind] = int(value)
    return lines


def whole_of(told: List[str]) -> Dict[str, int]:
    """The cells of the whole month."""
    return {name: int(value) for name, value in (text.rsplit(" ", 1) for text in told) if name in WHOLE_MONTH}


def show(session: Session, month: str, output: Output) -> None:
    """Writes the month."""
    told = session.ask("sheet", month)
    lines, whole = lines_of(session, told), whole_of(told)
    expenses = [line for line in lines if not line.is_income]
    income = [line for line in lines if line.is_income]
    if output.tsv:
        show_values(lines, output)
        return
    say_head(month, whole, output)
    if expenses:
        print()
        show_expenses(expenses, output)
    if income:
        print()
        output.table([Column("income", least=10), Column("received", right=True)],
                     [[indented(line), amount_text(-line.spent)] for line in income])
    over = [f"{line.name} by {amount_text(-line.left)}" for line in expenses if line.is_over and not line.is_group]
    if over:
        print()
        output.say(f"{OVER} overspent: {', '.join(over)}", "  ")


def say_head(month: str, whole: Dict[str, int], output: Output) -> None:
    """Writes what the month has to give."""
    free = whole["to-budget"]
    if free < 0:
        output.line(f"{month}  {OVER} {amount_text(-free)} more is given than there is", True)
    else:
        output.line(f"{month}  {amount_text(free)} still to give")
    parts = [f"{amount_text(whole['from-last-month'])} from last month", f"{amount_text(whole['total-income'])} came in",
             f"{amount_text(-whole['last-month-overspent'])} overspent last month", f"{amount_text(-whole['total-budgeted'])} given",
             f"{amount_text(whole['buffered'])} held back"]
    output.say("  " + ", ".join(parts), "  ")


def indented(line: Line) -> str:
    """The name, below that of its group."""
    return line.name if line.is_group else "  " + line.name


def show_expenses(lines: List[Line], output: Output) -> None:
    """Writes the categories of expenses, with as many columns as there is room for."""
    is_wide = output.width >= WIDE
    size = LONG_BAR if is_wide else SHORT_BAR
    columns = [Column("category", least=10)]
    if is_wide:
        columns += [Column("given", right=True), Column("before", right=True), Column("spent", right=True)]
    columns += [Column("left", right=True), Column("spent of it" if is_wide else "spent")]
    rows = []
    for line in lines:
        row = [indented(line)]
        if is_wide:
            row += [amount_text(line.given), amount_text(line.has - line.given), amount_text(line.spent)]
        row += [amount_text(line.left), "" if line.is_group else bar(line.spent, line.has, size) + share(line, is_wide)]
        rows.append(row)
    output.table(columns, rows, [line.is_over and not line.is_group for line in lines])


def share(line: Line, is_wide: bool) -> str:
    """What is spent in hundredths of what there is, behind the bar, where there is room."""
    if not is_wide:
        return ""
    if line.is_over:
        return " over"
    return f" {max(0, line.spent) * 100 // line.has}%" if line.has > 0 else " -"


def show_values(lines: List[Line], output: Output) -> None:
    """Writes the month for scripts."""
    titles = ["group", "category", "kind", "given", "before", "spent", "left", "carried", "overspent"]
    rows, group = [], ""
    for line in lines:
        if line.is_group:
            group = line.name
            continue
        kind = "income" if line.is_income else "expenses"
        amounts = [0, 0, line.spent, 0] if line.is_income else [line.given, line.has - line.given, line.spent, line.left]
        rows.append([group, line.name, kind, *map(amount_text, amounts), str(line.cells.get("carryover", 0)), str(int(line.is_over))])
    output.values([Column(title) for title in titles], rows)
