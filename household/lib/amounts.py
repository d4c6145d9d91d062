"""Amounts as banks and people write them, read as whole cents. No float is used anywhere."""
import re
import unicodedata

# what banks put for a minus and what they put between groups of three digits
MINUSES = "-\u2212\u2010\u2011\u2012\u2013\ufe63\uff0d"
SPACES = " \u00a0\u2009\u202f"
APOSTROPHES = "'\u2019"

# as many digits before the decimal sign as the core takes
DIGITS_LIMIT = 13

CODE = re.compile(r"[A-Z]{3}")


class NoAmount(ValueError):
    """The text is no amount, and why."""


def _is_currency(text: str) -> bool:
    """Whether the text is a currency's sign or its code of three capitals."""
    return bool(CODE.fullmatch(text)) or (len(text) == 1 and unicodedata.category(text) == "Sc")


def _without_currency(text: str) -> str:
    """The text without a currency in front of it or behind it."""
    for length in (1, 3):
        if _is_currency(text[:length]):
            return text[length:].strip()
        if _is_currency(text[-length:]):
            return text[:-length].strip()
    return text


def _sign(text: str) -> tuple[int, str]:
    """The sign of an amount, and what stands beside it. The sign stands in front, behind, or as parentheses around; and stands once."""
    if text.startswith("(") and text.endswith(")"):
        return -1, text[1:-1].strip()
    if text and text[0] in MINUSES:
        return -1, text[1:].strip()
    if text and text[-1] in MINUSES:
        return -1, text[:-1].strip()
    if text.startswith("+"):
        return 1, text[1:].strip()
    if text.endswith("+"):
        return 1, text[:-1].strip()
    return 1, text


def _bare(text: str) -> tuple[int, str]:
    """The sign, and the digits with what stands between them: a currency may stand inside the sign and outside of it, but once."""
    whole = text.strip()
    inner = _without_currency(whole)
    sign, number = _sign(inner)
    return sign, _without_currency(number) if inner == whole else number


def _whole(text: str, separators: str) -> str | None:
    """The digits of a whole number, maybe in groups of three with one and the same separator; none where it isn't that."""
    if re.fullmatch(r"[0-9]+", text):
        return text
    for separator in separators:
        if re.fullmatch(rf"[0-9]{{1,3}}(?:{re.escape(separator)}[0-9]{{3}})+", text):
            return text.replace(separator, "")
    return None


def cents(text: str, decimal: str) -> int:
    """The amount in cents, whose decimal sign is a point or a comma.

    Behind the decimal sign stand one or two digits. Groups of three digits may stand apart by the other one of point and comma, a blank or
    an apostrophe. Raises `NoAmount` where the text is none: `12.50` is no amount with a decimal comma, and never 1250.
    """
    sign, number = _bare(text)
    before, _, after = number.partition(decimal)
    whole = _whole(before, ("," if decimal == "." else ".") + SPACES + APOSTROPHES)
    if before == "" and after:
        whole = "0"
    right = re.fullmatch(r"[0-9]{1,2}", after) if decimal in number else after == ""
    if whole is None or not right:
        raise NoAmount(f'"{text}" is no amount with the decimal sign "{decimal}"')
    if len(whole.lstrip("0")) > DIGITS_LIMIT:
        raise NoAmount(f'"{text}" has more than {DIGITS_LIMIT} digits before the decimal sign')
    return sign * (int(whole) * 100 + int(after.ljust(2, "0")))


def decimals_of(text: str) -> str:
    """The decimal signs, out of point and comma, with which the text is an amount: at most both, and then it means one amount with both."""
    signs = ""
    for decimal in ".,":
        try:
            cents(text, decimal)
        except NoAmount:
            continue
        signs += decimal
    return signs


def plain(amount: int) -> str:
    """The amount as the core's statements have it: `-12.50`."""
    return f"{'-' if amount < 0 else ''}{abs(amount) // 100}.{abs(amount) % 100:02}"
