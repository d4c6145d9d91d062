"""The command line of `budget`: its words, and which function does what they say."""
import argparse
import os
import sys
from typing import Callable, List, NoReturn, Sequence

from lib.options import add_options

from . import edits, lists, month, names, register, rules, schedules, setup, transactions, undo
from .errors import LineRefused, ProgramFault, Refusal
from .session import Session
from .settings import load, settings_path
from .tables import Output, output_for
from .words import month_of

DONE, REFUSED, MISUSED, FAILED = 0, 1, 2, 3
# stands before a word that begins with a minus and a digit, so that it is no option; no word of a command line has this sign
MARK = "\0"
HELP = """Days are written 2024-02-03 (or today, yesterday), months 2024-02, amounts -12.50. Names stand for accounts, categories and payees, as they are
written or in other letters; GROUP/NAME tells two categories apart, `id:` and an id any two, and `-` stands for none. A transaction is `@` and the letters
that `budget register` shows. `budget COMMAND --help` has the words of a command."""


class Parser(argparse.ArgumentParser):
    """A parser that ends with a sentence."""

    def error(self, message: str) -> NoReturn:
        """Says what is wrong, and where the words are told."""
        message = message.replace(MARK, "")
        sys.stderr.write(f"{self.prog}: {message}. `{self.prog} --help` tells the words of this command.\n")
        sys.exit(MISUSED)


def parser_of_all() -> Parser:
    """The parser of the whole command line."""
    parser = Parser(prog="budget", description="Keeps a household's budget: tells the program what a person types.", epilog=HELP, allow_abbrev=False)
    parser.add_argument("--settings", metavar="FILE", help="the settings, in place of those that BUDGET_SETTINGS names, or of the usual ones")
    parser.add_argument("--tsv", action="store_true", help="tables with a TAB between the values, for scripts")
    commands = parser.add_subparsers(dest="command", metavar="COMMAND", required=True)
    for add in (add_setup, add_readings, add_transactions, add_months, add_accounts, add_categories, add_payees, add_rules, add_schedules):
        add(commands)
    return parser


def command(commands, name: str, does: Callable, text: str, *words: str, **more) -> Parser:
    """A command with the words that it needs; a word in square brackets may be left out, and is then empty."""
    parser = commands.add_parser(name, help=text, description=text[:1].upper() + text[1:] + ".", allow_abbrev=False, **more)
    parser.set_defaults(does=does)
    parser.add_argument("--tsv", action="store_true", default=argparse.SUPPRESS, help="a TAB between the values, for scripts")
    for word in words:
        if word.startswith("["):
            parser.add_argument(word.strip("[]").lower(), metavar=word.strip("[]"), nargs="?", default="")
        else:
            parser.add_argument(word.lower().replace("-", "_"), metavar=word)
    return parser


def parts(commands, name: str, text: str):
    """A command that has commands of its own."""
    return commands.add_parser(name, help=text, allow_abbrev=False).add_subparsers(metavar="WHAT", required=True)


def add_setup(commands) -> None:
    """The commands about settings and the last command."""
    init = commands.add_parser("init", help="says which program, node, store and server this device has", allow_abbrev=False)
    init.set_defaults(prepares=setup.init)
    init.add_argument("--program", metavar="PATH", help="the program; without it, the one on the path, or that of the repository")
    init.add_argument("--node", metavar="NAME", help="the name of this device, 1 to 16 letters and digits, which no other device of the household has")
    init.add_argument("--store", metavar="FILE", help="where this device keeps the books")
    init.add_argument("--server", metavar="ADDRESS:PORT", help="where the server of the household is; without it, 127.0.0.1:5006")
    for name in ("token", "file", "group"):
        init.add_argument("--" + name, metavar="NAME", help=f"the {name} of the server, where it has another than the usual one")
    init.add_argument("--moved", action="store_true", help="the store of this node has been moved here, and nothing of it goes on elsewhere")
    commands.add_parser("settings", help="shows the settings", allow_abbrev=False).set_defaults(prepares=setup.show)
    command(commands, "sync", transactions.sync, "hands the server what this device has, and takes what others have")
    back = command(commands, "undo", run_undo, "takes back the last command that changed the books, also one of another day")
    back.add_argument("--skip", action="store_true", help="passes over it, so that the next undo takes back the command before it")


def run_undo(session: Session, options: argparse.Namespace, output: Output) -> None:
    """Takes the last command back, or passes over it."""
    for sentence in undo.skip(session) if options.skip else undo.undo(session):
        output.say(sentence)


def add_readings(commands) -> None:
    """The commands that only read."""
    command(commands, "month", lambda session, options, output: month.show(session, month_of(options.month), output),
            "shows a month: what each category was given, has spent and has left", "[MONTH]")
    command(commands, "register", show_register, "shows the transactions of an account, of a month or all", "ACCOUNT", "[MONTH]")
    for name, does, text in (("accounts", lists.accounts, "shows the accounts with their balances"), ("categories", lists.categories, "shows the categories"),
                             ("payees", lists.payees, "shows the payees, and what they come to"),
                             ("open", lists.open_ones, "shows the transactions that count on no sheet, since they have no category"),
                             ("check", lists.check, "shows transfers and splits that are wrong, and how to mend them")):
        command(commands, name, reading(does), text)


def reading(does: Callable) -> Callable:
    """A command that has no words of its own."""
    return lambda session, options, output: does(session, output)


def show_register(session: Session, options: argparse.Namespace, output: Output) -> None:
    """Shows the register of an account."""
    account = names.account_id(session.book, options.account)
    register.show(session, account, month_of(options.month) if options.month else "", output)


def add_transactions(commands) -> None:
    """The commands about transactions."""
    add = command(commands, "add", transactions.add, "adds a transaction; money that goes out has a minus", "DAY", "AMOUNT", "ACCOUNT")
    for name in ("PAYEE", "CATEGORY"):
        add.add_argument(name.lower(), metavar=name, nargs="?", default=names.NONE)
    add.add_argument("note", metavar="NOTE", nargs="?", default="")
    change = command(commands, "change", transactions.change, "changes what a transaction has", "TRANSACTION")
    for name, text in (("day", "its day"), ("amount", "its amount"), ("account", "its account"), ("payee", "its payee"), ("category", "its category"),
                       ("note", "its note"), ("cleared", "whether the bank has it, yes or no")):
        change.add_argument("--" + name, help=text)
    for parser in (add, change):
        parser.add_argument("--new-payee", action="store_true", help="makes the payee where there is none of this name")
    delete = command(commands, "delete", transactions.delete, "deletes transactions; of a transfer both halves, of a split all parts")
    delete.add_argument("transactions", metavar="TRANSACTION", nargs="+")
    transfer = command(commands, "transfer", transactions.transfer, "moves money from one account to another", "DAY", "AMOUNT")
    transfer.add_argument("start", metavar="FROM")
    transfer.add_argument("end", metavar="TO")
    transfer.add_argument("note", metavar="NOTE", nargs="?", default="")
    split = command(commands, "split", transactions.split, "splits a transaction into parts, which add up to its amount", "TRANSACTION")
    split.add_argument("parts", metavar="AMOUNT CATEGORY", nargs="+")
    command(commands, "unlink", transactions.unlink, "makes a half of a broken transfer a payment of its own", "TRANSACTION")
    statement = command(commands, "import", transactions.read_statement, "imports the export of a bank")
    statement.add_argument("name", metavar="ACCOUNT")
    statement.add_argument("export", metavar="FILE")
    add_options(statement)


def add_months(commands) -> None:
    """The commands about what a month gives."""
    command(commands, "give", edits.give, "gives a category an amount in a month, in place of what it was given", "MONTH", "CATEGORY", "AMOUNT")
    move = command(commands, "move", edits.move, "moves an amount from what one category has to another", "MONTH")
    move.add_argument("start", metavar="FROM")
    move.add_argument("end", metavar="TO")
    move.add_argument("amount", metavar="AMOUNT")
    command(commands, "hold", edits.hold, "holds an amount back for the month after", "MONTH", "AMOUNT")
    carry = command(commands, "carry", edits.carry, "says whether what a category overspends stays with it in the month after", "MONTH", "CATEGORY")
    carry.add_argument("on", metavar="yes|no")
    note = command(commands, "note", edits.note, "notes a text for an account or a category")
    note.add_argument("kind", choices=("account", "category"))
    note.add_argument("name", metavar="NAME")
    note.add_argument("text", metavar="TEXT")


def add_accounts(commands) -> None:
    """The commands about accounts."""
    inner = parts(commands, "account", "adds, renames, closes and reopens accounts")
    add = command(inner, "add", edits.account_add, "adds an account", "NAME")
    add.add_argument("--off-budget", action="store_true", help="its transactions count on no month")
    add.add_argument("--balance", metavar="AMOUNT", help="what it has when the books begin")
    add.add_argument("--on", metavar="DAY", default="today", help="the day of that balance; without it, today")
    add.add_argument("--category", metavar="NAME", help="the category of income that the balance counts in")
    add.add_argument("--note", default="opening balance", help="the note of that balance")
    command(inner, "rename", edits.account_rename, "renames an account", "NAME", "NEW-NAME")
    command(inner, "close", edits.account_close, "closes an account whose balance is 0", "NAME")
    command(inner, "reopen", edits.account_reopen, "opens an account again", "NAME")
    off = command(inner, "off-budget", edits.account_off_budget, "takes an account off budget, or on again", "NAME")
    off.add_argument("off", metavar="yes|no")


def add_categories(commands) -> None:
    """The commands about groups and categories."""
    inner = parts(commands, "group", "adds, renames and deletes groups of categories")
    command(inner, "add", edits.group_add, "adds a group", "NAME").add_argument("--income", action="store_true", help="its categories take what comes in")
    command(inner, "rename", edits.group_rename, "renames a group", "NAME", "NEW-NAME")
    command(inner, "delete", edits.group_delete, "deletes a group and its categories", "NAME")
    inner = parts(commands, "category", "adds, renames, moves and deletes categories")
    for name, does, text in (("add", edits.category_add, "adds a category"), ("move", edits.category_move, "moves a category to another group")):
        command(inner, name, does, text, "NAME").add_argument("--group", metavar="GROUP", required=True, help="the group that it is to be in")
    command(inner, "rename", edits.category_rename, "renames a category", "NAME", "NEW-NAME")
    delete = command(inner, "delete", edits.category_delete, "deletes a category, and hands it on to another one where that is named", "NAME")
    delete.add_argument("--to", metavar="CATEGORY", help="the category that gets what was in it and what it was given")


def add_payees(commands) -> None:
    """The commands about payees."""
    inner = parts(commands, "payee", "adds, renames, deletes and merges payees")
    command(inner, "add", edits.payee_add, "adds a payee", "NAME")
    command(inner, "rename", edits.payee_rename, "renames a payee", "NAME", "NEW-NAME")
    command(inner, "delete", edits.payee_delete, "deletes a payee", "NAME")
    merge = command(inner, "merge", edits.payee_merge, "makes one payee of several: the first stays, and the others become it", "NAME")
    merge.add_argument("others", metavar="OTHER", nargs="+")


def add_rules(commands) -> None:
    """The commands about rules."""
    inner = shown_or(commands, "rules", rules.show, "shows the rules, or adds, deletes and runs them")
    add = command(inner, "add", rules.add, "adds a rule", epilog=rules.HOW)
    add.add_argument("--when", nargs=3, action="append", required=True, metavar=("FIELD", "OP", "VALUE"),
                     help="a condition, as --when imported contains market")
    add.add_argument("--any", action="store_true", help="one of the conditions is enough")
    add.add_argument("--set", nargs=2, action="append", metavar=("FIELD", "VALUE"), help="what it sets, as --set category Food")
    add.add_argument("--before-notes", metavar="TEXT", help="what it puts before the notes")
    add.add_argument("--after-notes", metavar="TEXT", help="what it puts behind the notes")
    add.add_argument("--schedule", metavar="NAME", help="the schedule that the transaction belongs to")
    add.add_argument("--stage", choices=("pre", "none", "post"), default="none", help="pre runs before all others, post behind them")
    command(inner, "delete", rules.delete, "deletes a rule, by its number or its id", "RULE")
    run = command(inner, "run", rules.run, "runs all rules on transactions")
    run.add_argument("transactions", metavar="TRANSACTION", nargs="*")
    run.add_argument("--open", action="store_true", help="on all that have no category")
    run.add_argument("--account", metavar="NAME", help="on all of an account")
    run.add_argument("--month", metavar="MONTH", default="", help="of a month alone")


def add_schedules(commands) -> None:
    """The commands about schedules."""
    inner = shown_or(commands, "schedules", schedules.show, "shows the schedules, or adds, posts, skips and deletes them")
    due = command(inner, "due", schedules.show, "shows what is due, was missed, or comes in a week")
    due.add_argument("on", metavar="DAY", nargs="?", default="today")
    due.set_defaults(due=True)
    add = command(inner, "add", schedules.add, "adds a schedule", "NAME", "ACCOUNT", "AMOUNT")
    add.add_argument("--start", metavar="DAY", required=True, help="the first day")
    add.add_argument("--every", choices=tuple(schedules.FREQUENCIES), default="month", help="how often; without it, each month")
    add.add_argument("--each", type=int, metavar="N", help="every so many days, weeks, months or years")
    add.add_argument("--day", action="append", metavar="DAY", help="the day of the month, a number or last; may stand several times")
    add.add_argument("--weekend", choices=("before", "after"), help="where a day on a weekend goes to")
    ends = add.add_mutually_exclusive_group()
    ends.add_argument("--until", metavar="DAY", help="the last day")
    ends.add_argument("--times", type=int, metavar="N", help="how many times in all")
    add.add_argument("--payee", metavar="NAME", default=names.NONE)
    post = command(inner, "post", schedules.post, "makes the transaction of a schedule, and sets it to its next day", "NAME")
    post.add_argument("--category", metavar="NAME", default=names.NONE)
    command(inner, "skip", schedules.skip, "sets a schedule to its next day", "NAME")
    command(inner, "delete", schedules.delete, "deletes a schedule", "NAME")


def shown_or(commands, name: str, does: Callable, text: str):
    """A command that shows its things where nothing more is said, and has commands of its own."""
    parser = command(commands, name, does, text)
    if name == "schedules":
        parser.add_argument("--on", metavar="DAY", default="today", help="the day on which they stand so; without it, today")
        parser.set_defaults(due=False)
    return parser.add_subparsers(metavar="WHAT")


def marked(words: Sequence[str]) -> List[str]:
    """The words, with a sign before each amount with a minus, which would be taken for an option."""
    return [MARK + word if len(word) > 1 and word[0] == "-" and word[1].isdigit() else word for word in words]


def unmark(value):
    """A value without the sign."""
    if isinstance(value, str):
        return value.lstrip(MARK)
    return [unmark(each) for each in value] if isinstance(value, list) else value


def main() -> int:
    """Does what the words of the command line say; gives the exit status."""
    words = sys.argv[1:]
    options = argparse.Namespace(**{name: unmark(value) for name, value in vars(parser_of_all().parse_args(marked(words))).items()})
    output = output_for(options.tsv)
    for stream in (sys.stdout, sys.stderr):
        stream.reconfigure(errors="replace")
    try:
        run(options, words, output)
        sys.stdout.flush()
    except (Refusal, ProgramFault) as fault:
        sys.stdout.flush()
        print(output.wrapped(str(fault)), file=sys.stderr)
        return REFUSED if isinstance(fault, Refusal) else FAILED
    except LineRefused as refused:
        words = " ".join([refused.code, *refused.details])
        print(f"The program refused what was to be taken back: {words}. `budget undo` tries it again.", file=sys.stderr)
        return FAILED
    except KeyboardInterrupt:
        print("Cut off. What was done is in the journal; `budget undo` takes it back.", file=sys.stderr)
        return FAILED
    except BrokenPipeError:
        os.dup2(os.open(os.devnull, os.O_WRONLY), sys.stdout.fileno())
        return REFUSED
    return DONE


def run(options: argparse.Namespace, words: List[str], output: Output) -> None:
    """Does one command."""
    path = settings_path(options.settings)
    if "prepares" in options:
        options.prepares(path, options, output)
        return
    session = Session(load(path), path, without_settings(words))
    try:
        options.does(session, options, output)
        session.end()
    except Refusal:
        session.give_up()
        raise
    except BaseException:
        session.device.kill()
        raise


def without_settings(words: List[str]) -> List[str]:
    """The words of a command, as the journal has them."""
    kept, skips = [], 0
    for word in words:
        if skips or word.startswith("--settings=") or word == "--tsv":
            skips = 0
        elif word == "--settings" and not kept:
            skips = 1
        else:
            kept.append(word)
    return kept
