"""The options that say how an export is read, for each command that takes one."""
import argparse
from dataclasses import replace

from lib.banks import BANKS, Layout
from lib.exports import DELIMITERS
from lib.faults import Fault
from lib.records import Choices, Statement, read_export

DECIMALS = {"point": ".", "comma": ",", ".": ".", ",": ","}

# what an option of the same name says in a layout
COLUMN_OPTIONS = ("amount", "debit", "credit", "fee", "id")
COLUMNS_OPTIONS = ("payee", "payer", "notes")


def _pair(text: str) -> tuple[str, str]:
    """A column and a value of it."""
    column, sign, value = text.partition("=")
    if not (column and sign):
        raise argparse.ArgumentTypeError(f'"{text}" is not COLUMN=VALUE')
    return column, value


def _date(text: str) -> tuple[str, tuple[str, ...]]:
    """A column, and the form of its days where one is named."""
    column, sign, form = text.rpartition("=")
    if sign and "%" in form:
        return column, (form,)
    return text, ()


def _delimiter(text: str) -> str:
    """A delimiter by its name or as it is."""
    found = DELIMITERS.get(text.lower(), text)
    if len(found) != 1 or found in '"\r\n':
        raise argparse.ArgumentTypeError(f'"{text}" is no delimiter: name {", ".join(DELIMITERS)}, or give one character')
    return found


def add_options(parser: argparse.ArgumentParser) -> None:
    """Adds the options to a parser, in a group of their own."""
    group = parser.add_argument_group("how the export is read", "A bank by its name, or the columns by their names; what is said beside a bank counts in place of its own.")
    group.add_argument("--bank", choices=sorted(BANKS), metavar="NAME", help="one of " + ", ".join(sorted(BANKS)))
    group.add_argument("--date", type=_date, metavar="COLUMN[=FORM]", help='the day, as "Buchungstag=%%d.%%m.%%Y" (%%Y also means a year of two digits); without FORM it is found')
    group.add_argument("--amount", metavar="COLUMN", help="the amount, with a minus where money goes out")
    group.add_argument("--debit", metavar="COLUMN", help="what went out, in a column of its own")
    group.add_argument("--credit", metavar="COLUMN", help="what came in, in a column of its own")
    group.add_argument("--fee", metavar="COLUMN", help="a fee that goes off the amount")
    group.add_argument("--negate", action="store_true", help="what was spent stands without a minus")
    group.add_argument("--minus-where", type=_pair, metavar="COLUMN=VALUE", help='the amounts stand without a minus, and go out where a column says so, as "Debit/credit=Debit"')
    group.add_argument("--decimal", choices=sorted(DECIMALS), metavar="SIGN", help="point or comma; without it, it is found")
    group.add_argument("--payee", action="append", metavar="COLUMN", help="whom it went to; of several the first that isn't empty")
    group.add_argument("--payer", action="append", metavar="COLUMN", help="the same where money came in, if that is another column")
    group.add_argument("--notes", action="append", metavar="COLUMN", help="notes; several are put together")
    ids = group.add_mutually_exclusive_group()
    ids.add_argument("--id", metavar="COLUMN", help="an id that no other record has; records without one get one made")
    ids.add_argument("--no-id", action="store_true", help="makes all ids of day, amount and payee")
    group.add_argument("--only", type=_pair, action="append", default=[], metavar="COLUMN=VALUE", help="takes these records alone")
    group.add_argument("--skip", type=_pair, action="append", default=[], metavar="COLUMN=VALUE", help="leaves these records out")
    group.add_argument("--delimiter", type=_delimiter, metavar="NAME", help=", ".join(DELIMITERS) + ", or a character; without it, it is found")
    group.add_argument("--encoding", metavar="NAME", help="as utf-8, utf-16, cp1252, latin-1; without it, it is found")
    group.add_argument("--no-header", action="store_true", help="the first line is a record, and columns are named by their numbers, from 1")


def _said(options: argparse.Namespace) -> dict[str, object]:
    """What the options say of a layout, by the names of its parts."""
    said: dict[str, object] = {name: getattr(options, name) for name in COLUMN_OPTIONS if getattr(options, name)}
    said.update({name: tuple(getattr(options, name)) for name in COLUMNS_OPTIONS if getattr(options, name)})
    if options.date:
        said["date"], said["forms"] = options.date
    if options.amount:
        said.update(debit="", credit="")
    if options.debit or options.credit:
        said.setdefault("amount", "")
    if options.payee or options.notes:
        said.update(detail="", pattern=None)
    if options.decimal:
        said["decimal"] = DECIMALS[options.decimal]
    if options.negate:
        said["negated"] = True
    if options.minus_where:
        said["minus_where"] = options.minus_where
    if options.no_id:
        said["id"] = ""
    if options.delimiter:
        said["delimiters"] = options.delimiter
    if options.no_header:
        said["has_header"] = False
    return said


def layouts_of(options: argparse.Namespace) -> tuple[Layout, ...]:
    """The layouts that the options ask for. Raises `Fault` where they leave out what has to be said."""
    said = _said(options)
    if options.amount and (options.debit or options.credit):
        raise Fault("--amount stands for one column; --debit and --credit stand for two in its place")
    if options.bank:
        layouts = tuple(replace(layout, **said) for layout in BANKS[options.bank])
    elif not options.date:
        raise Fault("say how the export is read: --bank NAME, or --date COLUMN and --amount COLUMN (or --debit and --credit)")
    else:
        layouts = (Layout(**said),)
    for layout in layouts:
        if not (layout.amount or layout.debit or layout.credit):
            raise Fault("say which column has the amount: --amount COLUMN, or --debit COLUMN and --credit COLUMN")
        if not layout.has_header:
            _numbered([*layout.columns(), *(name for name, _ in (*options.only, *options.skip))])
    return layouts


def _numbered(names: list[str]) -> None:
    """Refuses names of columns that are no numbers, where there is no header."""
    for name in names:
        if not (name.isascii() and name.isdigit() and 0 < int(name) < 1000):
            raise Fault(f'"{name}" is no number of a column, and there is no header that could have it as a name')


def statement_of(data: bytes, options: argparse.Namespace) -> Statement:
    """The statement that the bytes of an export are, by these options. Raises `Fault` at the first thing that can't be read."""
    choices = Choices(tuple(options.only), tuple(options.skip), options.encoding)
    return read_export(data, layouts_of(options), choices)
