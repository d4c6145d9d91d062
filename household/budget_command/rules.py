"""Commands about rules, which fill in what a statement leaves out: in a person's words, and as the JSON texts of the program."""
import argparse
import json
from typing import Any, Dict, List, Tuple

from . import names
from .book import Book, Rule
from .errors import Refusal
from .session import Session
from .tables import Column, Output
from .words import amount_text, cents_of, counted, day_of, flag_of, listed, month_of

Options = argparse.Namespace
NEW = "-"
ACCOUNT, PAYEE, CATEGORY, TEXT, AMOUNT, DAY, FLAG, SCHEDULE = "account", "payee", "category", "text", "amount", "day", "flag", "schedule"

# what a person types for a field, the program's word for it, and what its values are
FIELDS: Dict[str, Tuple[str, str]] = {
    "account": ("acct", ACCOUNT), "payee": ("description", PAYEE), "category": ("category", CATEGORY), "imported": ("imported_description", TEXT),
    "notes": ("notes", TEXT), "amount": ("amount", AMOUNT), "date": ("date", DAY), "cleared": ("cleared", FLAG),
}
ALIASES = {"account": "acct", "payee": "description", "imported_payee": "imported_description"}
OPERATIONS: Dict[str, str] = {
    "is": "is", "is-not": "isNot", "one-of": "oneOf", "none-of": "notOneOf", "contains": "contains", "lacks": "doesNotContain", "about": "isapprox",
    "between": "isbetween", "above": "gt", "from": "gte", "below": "lt", "up-to": "lte",
}
SETTABLE = ("category", "payee", "notes", "cleared")
CHOOSE = {ACCOUNT: names.account_id, PAYEE: names.payee_id, CATEGORY: names.category_id, SCHEDULE: names.schedule_id}
STANDS_FOR = {PAYEE: Book.payee_of, CATEGORY: Book.category_of}
SHOW = {ACCOUNT: names.account_name, PAYEE: names.payee_name, CATEGORY: names.category_name}
HOW = (f"FIELD is one of {listed(list(FIELDS), 'or')}; OP is one of {listed(list(OPERATIONS), 'or')}. `imported` is the payee as the bank writes "
       "it. Several values of one-of and none-of stand apart by commas; the two of between by two points, as -50.00..0.00; `-` stands for none.")


def rules_of(book: Book) -> List[Rule]:
    """The rules of the book, but for those by which schedules go."""
    owned = {schedule.rule for schedule in book.schedules.values() if schedule.live}
    return [rule for rule in book.rules if rule.id not in owned]


def giving(book: Book, row: str) -> List[int]:
    """The numbers of the rules that set this category or payee."""
    return [number for number, rule in enumerate(rules_of(book), 1) if row in set_by(rule)]


def set_by(rule: Rule) -> List[Any]:
    """The categories and payees that a rule sets."""
    try:
        return [entry["value"] for entry in json.loads(rule.actions) if entry.get("op", "set") == "set" and entry["field"] in ("category", "description")]
    except (ValueError, TypeError, KeyError, AttributeError, RecursionError):
        return []


def value_of(book: Book, kind: str, word: str) -> Any:
    """The JSON value of what a person types for a field of a kind."""
    if kind in CHOOSE:
        return None if word == names.NONE else CHOOSE[kind](book, word)
    if kind == AMOUNT:
        return cents_of(word)
    if kind == DAY:
        return day_of(word)
    if kind == FLAG:
        return flag_of(word)
    return word


def condition_of(book: Book, words: List[str]) -> Dict[str, Any]:
    """The JSON object of `FIELD OP VALUE`."""
    field, operation, word = words
    if field not in FIELDS or operation not in OPERATIONS:
        raise Refusal(f"{field!r} {operation!r} is no beginning of a condition. {HOW}")
    column, kind = FIELDS[field]
    if operation in ("one-of", "none-of"):
        value: Any = [value_of(book, kind, part.strip()) for part in word.split(",")]
    elif operation == "between":
        first, dots, last = word.partition("..")
        if not dots:
            raise Refusal(f"{word!r} are no two amounts. Write them with two points between, as -50.00..0.00.")
        value = {"num1": cents_of(first), "num2": cents_of(last)}
    else:
        value = value_of(book, kind, word)
    return {"field": column, "op": OPERATIONS[operation], "value": value}


def actions_of(book: Book, options: Options) -> List[Dict[str, Any]]:
    """The JSON objects of what a rule does."""
    actions: List[Dict[str, Any]] = []
    for field, word in options.set or []:
        if field not in SETTABLE:
            raise Refusal(f"A rule can't set {field!r}. It can set {listed(SETTABLE, 'or')}.")
        column, kind = FIELDS[field]
        actions.append({"op": "set", "field": column, "value": value_of(book, kind, word)})
    if options.before_notes is not None:
        actions.append({"op": "prepend-notes", "value": options.before_notes})
    if options.after_notes is not None:
        actions.append({"op": "append-notes", "value": options.after_notes})
    if options.schedule is not None:
        actions.append({"op": "link-schedule", "value": names.schedule_id(book, options.schedule)})
    if not actions:
        raise Refusal("Say what the rule does, as --set category Food; `budget rules add --help` has all of it.")
    return actions


def compact(value: Any) -> str:
    """A JSON text without blanks between its parts."""
    return json.dumps(value, ensure_ascii=False, separators=(",", ":"))


def add(session: Session, options: Options, output: Output) -> None:
    """Adds a rule."""
    book = session.book
    conditions = [condition_of(book, words) for words in options.when]
    made = session.tell("rule-add", NEW, options.stage, "or" if options.any else "and", compact(conditions), compact(actions_of(book, options)))
    session.renew()
    number = [rule.id for rule in rules_of(session.book)].index(made[0]) + 1
    output.say(f"Made rule {number}: {in_words(session.book, rules_of(session.book)[number - 1])}.")
    output.say("It runs on each import from now on; `budget rules run --open` runs all rules on what has no category yet.")


def show(session: Session, options: Options, output: Output) -> None:
    """Writes the rules, each with a number."""
    rules = rules_of(session.book)
    if output.tsv:
        output.values([Column(title) for title in ("number", "rule", "id", "conditions", "actions")],
                      [[str(number), in_words(session.book, rule), rule.id, rule.conditions, rule.actions] for number, rule in enumerate(rules, 1)])
        return
    for number, rule in enumerate(rules, 1):
        output.say(f"{number}  {in_words(session.book, rule)}", "   ")
    if not rules:
        output.say("There are no rules. `budget rules add --help` says how one is made.")


def delete(session: Session, options: Options, output: Output) -> None:
    """Deletes a rule."""
    rule = rule_of(session.book, options.rule)
    session.tell("rule-delete", rule.id)
    output.say(f"Deleted the rule: {in_words(session.book, rule)}. The numbers of others may have changed.")


def rule_of(book: Book, word: str) -> Rule:
    """The rule of a number or an id."""
    rules = rules_of(book)
    if word.isdigit() and 1 <= int(word) <= len(rules):
        return rules[int(word) - 1]
    for rule in rules:
        if word in (rule.id, names.ID_MARK + rule.id):
            return rule
    raise Refusal(f"There is no rule {word!r}. `budget rules` tells all of them with their numbers.")


def run(session: Session, options: Options, output: Output) -> None:
    """Runs all rules on transactions: those that are named, those without a category, or those of an account."""
    book = session.book
    rows = [names.transaction_of(book, word).id for word in options.transactions]
    if options.open:
        rows += [row.id for row in book.live_transactions() if not row.category and not row.is_split and not book.is_off_budget(row.account)]
    if options.account:
        account, month = names.account_id(book, options.account), month_of(options.month) if options.month else ""
        rows += [row.id for row in book.live_transactions() if row.account == account and row.day.startswith(month)]
    if not rows:
        raise Refusal("There is nothing to run the rules on. Name transactions, or --open for those without a category, or --account NAME.")
    before = session.book
    session.tell("rules-run", *rows)
    session.renew()
    changed = sum(before.transactions[row] != session.book.transactions[row] for row in set(rows))
    output.say(f"The rules ran on {counted(len(set(rows)), 'transaction')}, and changed {changed} of them.")


def in_words(book: Book, rule: Rule) -> str:
    """A rule as a sentence; one that can't be read says so."""
    try:
        conditions = [condition_words(book, entry) for entry in json.loads(rule.conditions)]
        actions = [action_words(book, entry) for entry in json.loads(rule.actions)]
    except (ValueError, TypeError, KeyError, AttributeError, RecursionError):
        return f"(not read) {rule.conditions} {rule.actions}"
    stage = {"pre": "first ", "post": "last "}.get(rule.stage or "", "")
    return f"{stage}if {f' {rule.join} '.join(conditions) or 'never'}: {'; '.join(actions) or 'nothing'}"


def condition_words(book: Book, entry: Dict[str, Any]) -> str:
    """A condition in words."""
    column = ALIASES.get(entry["field"], entry["field"])
    field, kind = next(((word, kind) for word, (its, kind) in FIELDS.items() if its == column), (column, TEXT))
    operation = next((word for word, its in OPERATIONS.items() if its == entry["op"]), entry["op"])
    return f"{field} {operation} {value_words(book, kind, asked_for(book, kind, entry['value']))}"


def asked_for(book: Book, kind: str, value: Any) -> Any:
    """What the ids of a condition stand for."""
    if isinstance(value, list):
        return [asked_for(book, kind, each) for each in value]
    return STANDS_FOR[kind](book, value) if kind in STANDS_FOR else value


def value_words(book: Book, kind: str, value: Any) -> str:
    """A value in words."""
    if isinstance(value, list):
        return ", ".join(value_words(book, kind, each) for each in value)
    if value is None:
        return "none"
    if isinstance(value, dict):
        return f"{amount_text(value['num1'])}..{amount_text(value['num2'])}" if "num1" in value else "the days of a schedule"
    if kind == FLAG:
        return "yes" if value else "no"
    if kind == AMOUNT:
        return amount_text(value)
    return repr(SHOW[kind](book, value)) if kind in SHOW else repr(value)


def action_words(book: Book, entry: Dict[str, Any]) -> str:
    """An action in words."""
    operation = entry.get("op", "set")
    if operation != "set":
        what = {"prepend-notes": "put before the notes", "append-notes": "put behind the notes", "link-schedule": "belongs to the schedule"}
        value = entry["value"]
        return f"{what.get(operation, operation)} {book.schedules[value].name if value in book.schedules else value!r}"
    column = ALIASES.get(entry["field"], entry["field"])
    field, kind = next(((word, kind) for word, (its, kind) in FIELDS.items() if its == column), (column, TEXT))
    return f"set {field} {value_words(book, kind, entry['value'])}"
