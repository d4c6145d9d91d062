"""Names that stand for ids, and short names of transactions."""
import difflib
import functools
import hashlib
import unicodedata
from typing import Dict, Iterable, List, NamedTuple, Optional

from .book import Book, Transaction
from .errors import Refusal
from .words import listed

ID_MARK = "id:"
HANDLE_MARK = "@"
NONE = "-"
HANDLE_LENGTH = 5
# digits and letters of which no two look alike
LETTERS = "0123456789abcdefghjkmnpqrstvwxyz"


class Named(NamedTuple):
    """What a name may stand for: its id, its name, and the longer name that tells it from others."""
    id: str
    name: str
    label: str


class Kind(NamedTuple):
    """A kind of what has a name, for sentences."""
    one: str
    many: str
    lists: str
    makes: str


ACCOUNT = Kind("account", "accounts", "budget accounts", "budget account add NAME")
GROUP = Kind("group", "groups", "budget categories", "budget group add NAME")
CATEGORY = Kind("category", "categories", "budget categories", "budget category add NAME --group GROUP")
PAYEE = Kind("payee", "payees", "budget payees", "budget payee add NAME")
SCHEDULE = Kind("schedule", "schedules", "budget schedules", "budget schedules add")


def folded(text: str) -> str:
    """A name without regard to the case of letters, or to how accents are written."""
    return unicodedata.normalize("NFC", unicodedata.normalize("NFC", text).casefold())


def choose(kind: Kind, word: str, rows: Iterable[Named]) -> str:
    """The id that a word stands for: `id:` and an id, or a name, or a longer name, or an id, or a name in other letters."""
    all_rows = list(rows)
    if word.startswith(ID_MARK):
        found = [row for row in all_rows if row.id == word[len(ID_MARK):]]
    else:
        found = [row for row in all_rows if word in (row.id, row.name, row.label)]
        found = found or [row for row in all_rows if folded(word) in (folded(row.name), folded(row.label))]
    if len(found) == 1:
        return found[0].id
    if found:
        raise Refusal(f"{word!r} stands for {len(found)} {kind.many}: {listed(precise(found))}. Say which one.")
    raise Refusal(f"There is no {kind.one} {word!r}.{maybe(word, all_rows)} `{kind.lists}` tells all of them, and `{kind.makes}` makes a new one.")


def precise(rows: List[Named]) -> List[str]:
    """For each row what stands for it alone."""
    labels = [row.label for row in rows]
    return [repr(row.label) if labels.count(row.label) == 1 and row.label != row.name else repr(ID_MARK + row.id) + f" ({row.label})" for row in rows]


def maybe(word: str, rows: List[Named]) -> str:
    """What a word that stands for nothing could be, as a sentence."""
    names = {folded(row.name): row.name for row in rows if row.name}
    near = [names[name] for name in names if folded(word) and folded(word) in name]
    near += [names[name] for name in difflib.get_close_matches(folded(word), names, n=4, cutoff=0.6)]
    near = list(dict.fromkeys(near))[:5]
    return f" It could be {listed([repr(name) for name in near], 'or')}." if near else ""


def account_id(book: Book, word: str) -> str:
    """The account of a name."""
    return choose(ACCOUNT, word, (Named(row.id, row.name, row.name) for row in book.accounts.values() if row.live))


def group_id(book: Book, word: str) -> str:
    """The group of a name."""
    return choose(GROUP, word, (Named(row.id, row.name, row.name) for row in book.groups.values() if row.live))


def category_id(book: Book, word: str) -> str:
    """The category of a name, or of `GROUP/NAME`."""
    return choose(CATEGORY, word, (Named(row.id, row.name, row.label) for row in book.categories.values() if row.live))


def payee_id(book: Book, word: str) -> str:
    """The payee of a name; those that stand for accounts have none."""
    return choose(PAYEE, word, (Named(row.id, row.name, row.name) for row in book.payees.values() if row.live and not row.account))


def schedule_id(book: Book, word: str) -> str:
    """The schedule of a name."""
    return choose(SCHEDULE, word, (Named(row.id, row.name, row.name) for row in book.schedules.values() if row.live))


def account_name(book: Book, row: Optional[str]) -> str:
    """What an account is shown as."""
    account = book.accounts.get(row or "")
    return shown(account.name, account.id, account.live) if account else row or ""


def category_name(book: Book, row: Optional[str]) -> str:
    """What a category is shown as."""
    category = book.categories.get(row or "")
    return shown(category.name, category.id, category.live) if category else row or ""


def payee_name(book: Book, row: Optional[str]) -> str:
    """What a payee is shown as."""
    payee = book.payees.get(row or "")
    if payee and payee.account:
        return account_name(book, payee.account)
    return shown(payee.name, payee.id, payee.live) if payee else row or ""


def shown(name: str, row: str, live: bool) -> str:
    """A name, or an id where there is none; what was deleted says so."""
    text = name or row
    return text if live else f"{text} (deleted)"


def code_of(row: str) -> str:
    """Letters that stand for the id of a transaction, the same on each device."""
    number = int.from_bytes(hashlib.sha256(row.encode("utf-8", "surrogateescape")).digest()[:10], "big")
    return "".join(LETTERS[number >> shift & 31] for shift in range(75, -5, -5))


@functools.lru_cache(maxsize=2)
def handles(book: Book) -> Dict[str, str]:
    """For each live transaction the shortest `@` and letters that stand for it alone, with five letters at least."""
    codes = sorted((code_of(row.id), row.id) for row in book.transactions.values() if row.live)
    found = {}
    for place, (code, row) in enumerate(codes):
        beside = [codes[other][0] for other in (place - 1, place + 1) if 0 <= other < len(codes)]
        length = max([HANDLE_LENGTH] + [common(code, other) + 1 for other in beside])
        found[row] = HANDLE_MARK + code[:length]
    return found


def common(left: str, right: str) -> int:
    """How many letters two texts begin with in common."""
    length = 0
    while length < min(len(left), len(right)) and left[length] == right[length]:
        length += 1
    return length


def transaction_of(book: Book, word: str) -> Transaction:
    """The live transaction of `@` and letters, or of an id."""
    whole = word[len(ID_MARK):] if word.startswith(ID_MARK) else word
    exact = book.transactions.get(whole)
    if exact and exact.live:
        return exact
    letters = word.lower().lstrip(HANDLE_MARK)
    found = [row for row in book.transactions.values() if row.live and letters and code_of(row.id).startswith(letters)]
    if len(found) == 1:
        return found[0]
    if found:
        all_handles = handles(book)
        raise Refusal(f"{word!r} stands for {len(found)} transactions: {listed([all_handles[row.id] for row in found[:5]])}. Write more letters of one.")
    raise Refusal(f"There is no transaction {word!r}. `budget register ACCOUNT` tells them, each with `@` and letters that stand for it.")
