"""How the exports of banks look: which column is what, and how days and amounts are written there.

The forms are those that are publicly known of 2023 and 2024. A bank that has several has a layout for each; the header of an export tells
which of them it is. Where a bank has changed its form since, the words of `household/statement` describe the new one.
"""
import re
from dataclasses import dataclass

from lib.exports import DELIMITERS, plain_name

ISO = ("%Y-%m-%d",)
GERMAN = ("%d.%m.%Y",)
BRITISH = ("%d/%m/%Y",)
AMERICAN = ("%m/%d/%Y",)


@dataclass(frozen=True)
class Layout:
    """One form of an export. Columns are named as the bank names them, or by their numbers from 1 where there is no header."""

    # the day; its forms (of `strptime`, where a year may have two digits), none where they are to be found
    date: str
    forms: tuple[str, ...] = ()
    # the amount in one column, or what went out and what came in in two; a fee goes off it
    amount: str = ""
    debit: str = ""
    credit: str = ""
    fee: str = ""
    # the decimal sign, point or comma; empty where it is to be found
    decimal: str = ""
    # amounts of what was spent stand without a minus, in all records or where a column has a value
    negated: bool = False
    minus_where: tuple[str, str] | None = None
    # whom the money goes to, and, where these are others, from whom it comes: the first column that isn't empty
    payee: tuple[str, ...] = ()
    payer: tuple[str, ...] = ()
    # all that isn't empty
    notes: tuple[str, ...] = ()
    id: str = ""
    # a text that has the payee and the notes inside, and the pattern with groups `payee` and `notes`
    detail: str = ""
    pattern: re.Pattern[str] | None = None
    # a column that says whether a record is booked; each other value than these is told
    status: str = ""
    booked: tuple[str, ...] = ()
    waiting: tuple[str, ...] = ()
    # a record without an amount, whose text in this column begins so, tells a balance
    balance_line: tuple[str, str] | None = None
    # columns that say which account it is, and which currency: they have one value in all records
    same: tuple[str, ...] = ()
    delimiters: str = "".join(DELIMITERS.values())
    has_header: bool = True

    def columns(self) -> tuple[str, ...]:
        """Each column that has to be there."""
        names = [self.date, self.amount, self.debit, self.credit, self.fee, *self.payee, *self.payer, *self.notes, self.id, self.detail, self.status]
        names += [self.minus_where[0] if self.minus_where else "", self.balance_line[0] if self.balance_line else "", *self.same]
        return tuple(dict.fromkeys(name for name in names if name))

    def is_header(self, names: list[str]) -> bool:
        """Whether these names of columns, as they are compared, are a header of this form."""
        return {plain_name(name) for name in self.columns()} <= set(names)


COMDIRECT_TEXT = re.compile(
    r"(?:(?:Auftraggeber|Empfänger|Zahlungspflichtiger): *(?P<payee>.*?))?\s*(?:Kto/IBAN: .*?)?(?:BLZ/BIC: .*?)?(?:Buchungstext: *(?P<notes>.*?))?(?:\s*Ref\. \S+)?\s*"
)

SPARKASSE = Layout(
    date="Buchungstag", forms=GERMAN, amount="Betrag", decimal=",", payee=("Beguenstigter/Zahlungspflichtiger", "Buchungstext"),
    notes=("Verwendungszweck",), status="Info", booked=("Umsatz gebucht",), waiting=("Umsatz vorgemerkt",), same=("Auftragskonto", "Waehrung"),
)
DKB = Layout(
    date="Buchungsdatum", forms=GERMAN, amount="Betrag (€)", decimal=",", payee=("Zahlungsempfänger*in",), payer=("Zahlungspflichtige*r",),
    notes=("Verwendungszweck",), status="Status", booked=("Gebucht",), waiting=("Vorgemerkt",),
)
DKB_FIRST = Layout(
    date="Buchungsdatum", forms=GERMAN, amount="Betrag", decimal=",", payee=("Zahlungsempfänger*in",), payer=("Zahlungspflichtige*r",),
    notes=("Verwendungszweck",), status="Status", booked=("Gebucht",), waiting=("Vorgemerkt",),
)
DKB_CARD = Layout(
    date="Belegdatum", forms=GERMAN, amount="Betrag (€)", decimal=",", payee=("Beschreibung",),
    status="Status", booked=("Gebucht",), waiting=("Vorgemerkt",),
)
DKB_OLD = Layout(
    date="Buchungstag", forms=GERMAN, amount="Betrag (EUR)", decimal=",", payee=("Auftraggeber / Begünstigter", "Buchungstext"),
    notes=("Verwendungszweck",),
)
CHASE = Layout(date="Posting Date", forms=AMERICAN, amount="Amount", decimal=".", payee=("Description",), notes=("Check or Slip #",))
CHASE_CARD = Layout(date="Post Date", forms=AMERICAN, amount="Amount", decimal=".", payee=("Description",), notes=("Memo",))
BANK_OF_AMERICA = Layout(
    date="Date", forms=AMERICAN, amount="Amount", decimal=".", payee=("Description",), balance_line=("Description", "Beginning balance as of"),
    same=(), delimiters=",\t",
)
BANK_OF_AMERICA_CARD = Layout(date="Posted Date", forms=AMERICAN, amount="Amount", decimal=".", payee=("Payee",))
LLOYDS = Layout(
    date="Transaction Date", forms=BRITISH, debit="Debit Amount", credit="Credit Amount", decimal=".", payee=("Transaction Description",),
    same=("Sort Code", "Account Number"),
)
N26 = Layout(
    date="Booking Date", forms=ISO, amount="Amount (EUR)", decimal=".", payee=("Partner Name",), notes=("Payment Reference",), same=("Account Name",),
)
N26_OLD = Layout(date="Date", forms=ISO, amount="Amount (EUR)", decimal=".", payee=("Payee",), notes=("Payment reference",))
REVOLUT = Layout(
    date="Completed Date", forms=ISO, amount="Amount", fee="Fee", decimal=".", payee=("Description",), status="State",
    booked=("COMPLETED",), waiting=("PENDING", "REVERTED", "DECLINED", "FAILED"), same=("Product", "Currency"),
)
ING = Layout(
    date="Buchung", forms=GERMAN, amount="Betrag", decimal=",", payee=("Auftraggeber/Empfänger", "Buchungstext"), notes=("Verwendungszweck",),
    same=("Währung",),
)
COMDIRECT = Layout(
    date="Buchungstag", forms=GERMAN, amount="Umsatz in EUR", decimal=",", detail="Buchungstext", pattern=COMDIRECT_TEXT,
    status="Buchungstag", waiting=("offen",),
)
HSBC = Layout(date="1", forms=BRITISH, amount="3", decimal=".", payee=("2",), has_header=False, delimiters=",")
WISE = Layout(
    date="Date", forms=("%d-%m-%Y",), amount="Amount", decimal=".", payee=("Merchant", "Payee Name", "Description"),
    payer=("Payer Name", "Merchant", "Description"), notes=("Payment Reference",), id="TransferWise ID", same=("Currency",),
)
MONZO = Layout(
    date="Date", forms=BRITISH, amount="Amount", decimal=".", payee=("Name", "Description"), notes=("Notes and #tags",), id="Transaction ID",
    same=("Currency",),
)
VOLKSBANK = Layout(
    date="Buchungstag", forms=GERMAN, amount="Betrag", decimal=",", payee=("Name Zahlungsbeteiligter", "Buchungstext"), notes=("Verwendungszweck",),
    same=("IBAN Auftragskonto", "Waehrung"),
)
STARLING = Layout(date="Date", forms=BRITISH, amount="Amount (GBP)", decimal=".", payee=("Counter Party",), notes=("Reference", "Notes"))
BARCLAYS = Layout(date="Date", forms=BRITISH, amount="Amount", decimal=".", payee=("Memo",), same=("Account",))
AMEX = Layout(date="Date", forms=AMERICAN, amount="Amount", negated=True, decimal=".", payee=("Description",))

BANKS: dict[str, tuple[Layout, ...]] = {
    "amex": (AMEX,),
    "bank-of-america": (BANK_OF_AMERICA, BANK_OF_AMERICA_CARD),
    "barclays": (BARCLAYS,),
    "chase": (CHASE, CHASE_CARD),
    "comdirect": (COMDIRECT,),
    "dkb": (DKB, DKB_FIRST, DKB_CARD, DKB_OLD),
    "hsbc": (HSBC,),
    "ing": (ING,),
    "lloyds": (LLOYDS,),
    "monzo": (MONZO,),
    "n26": (N26, N26_OLD),
    "revolut": (REVOLUT,),
    "sparkasse": (SPARKASSE,),
    "starling": (STARLING,),
    "volksbank": (VOLKSBANK,),
    "wise": (WISE,),
}
