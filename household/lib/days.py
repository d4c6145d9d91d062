"""Days as banks write them."""
import datetime
import re

# the forms that are tried where none is named; a year may have two digits in each
COMMON_FORMS = ("%Y-%m-%d", "%d.%m.%Y", "%d/%m/%Y", "%m/%d/%Y")

FIRST = datetime.date(1970, 1, 1)
LAST = datetime.date(2199, 12, 31)

# a time behind the day, maybe with parts of a second, with half of the day, and with a zone; none of it changes the day
TIME = re.compile(r"(?:T|,?[ \u00a0]+)\d{1,2}:\d{2}(?::\d{2}(?:[.,]\d+)?)?(?:[ \u00a0]?[AaPp]\.?[Mm]\.?)?(?: ?(?:Z|UTC|GMT|[+-]\d{2}:?\d{2}))?$", re.ASCII)


class NoDay(ValueError):
    """The text is no day, and why."""


def _read(text: str, form: str) -> datetime.date | None:
    """The day that the text is in this form, also where its year has two digits; two digits from 69 on mean the last century."""
    for spelled in dict.fromkeys((form, form.replace("%Y", "%y"))):
        try:
            return datetime.datetime.strptime(text, spelled).date()
        except ValueError:
            continue
    return None


def day(text: str, forms: tuple[str, ...]) -> datetime.date:
    """The day of a text in the first of these forms (of `strptime`) that it has; a time behind it is left out. Raises `NoDay` where it has none."""
    bare = TIME.sub("", text.strip())
    for form in forms:
        found = _read(bare, form) or _read(text.strip(), form)
        if found is None:
            continue
        if not FIRST <= found <= LAST:
            raise NoDay(f'"{text}" is not within {FIRST} and {LAST}')
        return found
    raise NoDay(f'"{text}" is no day of the form {" or ".join(forms)}')


def forms_of(text: str, forms: tuple[str, ...] = COMMON_FORMS) -> tuple[str, ...]:
    """Those of the forms in which the text is a day."""
    good = []
    for form in forms:
        try:
            day(text, (form,))
        except NoDay:
            continue
        good.append(form)
    return tuple(good)
