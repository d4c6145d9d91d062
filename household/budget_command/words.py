"""Words of the program's lines, and what a person types for amounts, days and months.

A line is words with a TAB between them, in which four characters are written as two (docs/FORMATS.md, "Message line").
"""
import datetime
import re
from typing import Sequence

from .errors import Refusal

ESCAPES = (("\\", "\\\\"), ("\0", "\\0"), ("\t", "\\t"), ("\n", "\\n"))
ESCAPED = {"\\": "\\", "0": "\0", "t": "\t", "n": "\n"}
AMOUNT = re.compile(r"([-+\u2212]?)([0-9]+)(?:[.,]([0-9]{1,2}))?")
MONTH = re.compile(r"[0-9]{4}-[0-9]{2}")
DAY = re.compile(r"[0-9]{4}-[0-9]{2}-[0-9]{2}")
GREATEST = 9_007_199_254_740_991
FIRST_YEAR, LAST_YEAR = 1970, 2199
YES_AND_NO = {"yes": True, "no": False}


def escape(word: str) -> str:
    """A word as it stands in a line."""
    for character, written in ESCAPES:
        word = word.replace(character, written)
    return word


def unescape(word: str) -> str:
    """What a word of a line says."""
    if "\\" not in word:
        return word
    return re.sub(r"\\([\\0tn])", lambda found: ESCAPED[found.group(1)], word)


def line_of(words: Sequence[str]) -> str:
    """The line of these words, without its line feed."""
    return "\t".join(escape(word) for word in words)


def cents_of(text: str) -> int:
    """The cents of an amount as a person types it: `-12.50`, `12,50`, `300`."""
    found = AMOUNT.fullmatch(text)
    if not found:
        raise Refusal(f"{text!r} is no amount. Write it with a point and two decimals and without any other sign, as -12.50 or 1300.00.")
    sign, whole, decimals = found.groups()
    cents = int(whole) * 100 + int((decimals or "").ljust(2, "0")) if len(whole) < 20 else GREATEST + 1
    if cents > GREATEST:
        raise Refusal(f"{text} is more than the books can hold, which is {amount_text(GREATEST)}. Mend the amount.")
    return cents if sign in ("", "+") else -cents


def amount_text(cents: int) -> str:
    """An amount of cents with two decimals."""
    sign = "-" if cents < 0 else ""
    return f"{sign}{abs(cents) // 100}.{abs(cents) % 100:02d}"


def is_day_text(text: str) -> bool:
    """Whether a text is a day of the calendar that the books know."""
    if not DAY.fullmatch(text):
        return False
    try:
        return FIRST_YEAR <= datetime.date.fromisoformat(text).year <= LAST_YEAR
    except ValueError:
        return False


def day_of(text: str) -> str:
    """The day `2024-02-03` of what a person types, which may also be `today` or `yesterday`."""
    if text in ("today", "yesterday"):
        day = datetime.date.today() - datetime.timedelta(days=text == "yesterday")
        return day.isoformat()
    if not is_day_text(text):
        raise Refusal(f"{text!r} is no day from {FIRST_YEAR} to {LAST_YEAR}. Write it as 2024-02-03, or as today or yesterday.")
    return text


def digits_of(day: str) -> str:
    """A day as the lines of the program have it: `20240203`."""
    return day.replace("-", "")


def day_text(number: str) -> str:
    """The day `2024-02-03` of eight digits."""
    return f"{number[:4]}-{number[4:6]}-{number[6:]}"


def month_of(text: str) -> str:
    """The month `2024-02` that a person types, or this month where it is empty."""
    if not text:
        return datetime.date.today().isoformat()[:7]
    if not MONTH.fullmatch(text) or not is_day_text(text + "-01"):
        raise Refusal(f"{text!r} is no month from {FIRST_YEAR} to {LAST_YEAR}. Write it as 2024-02.")
    return text


def flag_of(text: str) -> bool:
    """What `yes` or `no` says."""
    if text not in YES_AND_NO:
        raise Refusal(f"{text!r} is neither yes nor no. Write one of the two.")
    return YES_AND_NO[text]


def listed(texts: Sequence[str], last: str = "and") -> str:
    """A list in a sentence: `a, b and c`."""
    if len(texts) < 2:
        return "".join(texts)
    return f"{', '.join(texts[:-1])} {last} {texts[-1]}"


def counted(number: int, one: str, many: str = "") -> str:
    """A number with its noun: `1 row`, `2 rows`."""
    return f"{number} {one if number == 1 else many or one + 's'}"
