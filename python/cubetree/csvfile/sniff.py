"""What the columns of a file are, by their titles and cells: the kind of each, and its role.

A column is a measure, whose numbers are summed; an attribute, to group by; a date; an identifier,
of which nearly every row has its own; or empty. That is a guess, and `why` says what it rests on.
Columns are seen piece by piece, and at most MOST_VALUES different values of each are kept.
"""
from __future__ import annotations

import calendar
import re
import shlex
import unicodedata
from collections import Counter
from dataclasses import dataclass
from decimal import Decimal
from typing import AbstractSet, Collection, NamedTuple, Optional, Sequence

from ..errors import Fault
from ..ui import counted
from ..values import MOST_PLACES, ORDERS, TEXT, WHOLE_NUMBER, Kind, month_of, parts_of_day

MOST_VALUES, GREATEST_VALUE, LONGEST_TEXT = 1_000_000, (1 << 63) - 1, 255
MOST_ODD = 3  # values of another form by which a column is still nearly of one form
MOST_SEEN_PLACES, MOST_DIGITS, MOST_WHOLE_DIGITS = 12, 28, 38
MANY_ROWS = 100  # from here on, texts that are nearly all different are identifiers
SOME_ROWS = 20  # from here on, the order of numbers says something
NOTHING = frozenset(
    ["", "NA", "N/A", "n/a", "#N/A", "NULL", "null", "NaN", "nan", "None", "-", ".", "?"]
)
PLAIN = re.compile(r"-?(?:0|[1-9][0-9]{0,37})", re.ASCII)
POINTED = re.compile(r"-?[0-9]+\.[0-9]+", re.ASCII)
NUMERAL = re.compile(r"[+-]?([0-9]*)(?:([.,])([0-9]*))?([eE][+-]?[0-9]{1,3})?", re.ASCII)
GROUPED = re.compile(
    r"[+-]?[1-9][0-9]{0,2}(?:(?:,[0-9]{3})+(?:\.[0-9]*)?|(?:\.[0-9]{3})+(?:,[0-9]*)?)", re.ASCII
)
ROW_NUMBERS = "row numbers"

# ---- titles

WORD = re.compile(r"[A-Z]+(?![a-z])|[A-Z]?[a-z]+")
KEYS = frozenset(
    "id ids key code zip zipcode postcode barcode plz phone tel fax isbn ean sku uuid guid fips"
    " version lat latitude lon lng longitude age year yr jahr".split()
)
ENTITIES = frozenset(
    "account address block branch city client country county customer cust department dept device"
    " district employee emp event group household individual invoice item location object order"
    " participant patient person product record region respondent room row sample sensor session"
    " shop site state station store subject supplier trip user vendor zone".split()
)
WHOLE_KEYS = (
    KEYS
    | ENTITIES
    | frozenset(
        "no nr num number nummer rank ranking grade class type category cat cluster status flag idx"
        " seq line gender sex race cohort month monat quarter quartal week woche weekday day tag"
        " hour minute date timestamp ts epoch port ip serial".split()
    )
)
AMOUNTS = frozenset(
    "amount amt price cost costs fee fees charge total subtotal sum qty quantity count counts units"
    " pieces items sales revenue turnover profit tax balance salary wage wages hours minutes"
    " seconds days deaths births cases visits views clicks votes points goals population betrag"
    " preis menge anzahl summe umsatz kosten".split()
)
JOINED_KEY = re.compile(rf"(?:{'|'.join(sorted(ENTITIES))})(?:id|no|nr|key|code)")


def meaning(title: str, is_whole: bool) -> str:
    """What a title says of numbers: `key`, `amount`, or nothing. In English the last word counts
    most, but for `price per day` and `number of days`."""
    plain = unicodedata.normalize("NFKD", title).encode("ascii", "ignore").decode()
    words = [word.lower() for word in WORD.findall(plain)]
    if "per" in words[1:]:
        words = words[: words.index("per")]
    if not words:
        return ""
    if "of" in words[1:]:
        words = words[: words.index("of")]
        if words[-1] in ("number", "no", "num"):
            return "amount"
    keys = WHOLE_KEYS if is_whole else KEYS
    if words[-1] in keys or JOINED_KEY.fullmatch(words[-1]) or is_whole and words == ["index"]:
        return "key"
    if AMOUNTS.intersection(words) or words[0] == "num":
        return "amount"
    return "key" if {"id", "year", "zip", "code"}.intersection(words) else ""


# ---- forms of cells


class Place(NamedTuple):
    """A row, and the line in which it ends."""

    row: int
    line: int

    def __str__(self) -> str:
        return f"row {self.row} (line {self.line})"


@dataclass
class Cells:
    """Some cells of a column, one after the other: the row of the first, and the line of each."""

    texts: Sequence[str]
    row: int
    lines: Sequence[int]

    def place(self, text: str) -> Place:
        """Where a cell with this text stands first."""
        index = self.texts.index(text)
        return Place(self.row + index, self.lines[index])


class Form:
    """A form that all cells of a column may have, but for a few odd ones, whose places are kept."""

    def __init__(self) -> None:
        self.odd: dict[str, Place] = {}

    def is_possible(self) -> bool:
        """Whether not too many cells are odd."""
        return len(self.odd) <= MOST_ODD

    def see(self, fresh: Sequence[str], cells: Cells) -> None:
        """Sees texts of some cells that were not seen before, in their order."""
        for text in fresh:
            if not self.fits(text):
                self.odd.setdefault(text, cells.place(text))
                if len(self.odd) > MOST_ODD:
                    return

    def fits(self, text: str) -> bool:
        """Whether a text has this form."""
        raise NotImplementedError


class Numbers(Form):
    """Numbers: how many places they have as they stand, how many they need, and their marks."""

    def __init__(self, delimiter: str) -> None:
        super().__init__()
        self.delimiter = delimiter
        self.is_whole, self.has_exponent, self.has_zeros = True, False, False
        self.places = self.needed = self.digits = self.different = 0
        self.fewest_digits = MOST_WHOLE_DIGITS
        self.marks: set[str] = set()
        self.is_grouped = False  # some numbers have thousands separators
        self.is_perhaps_grouped = True  # all marks may be thousands separators
        self.least = self.greatest = Decimal(0)

    def see(self, fresh: Sequence[str], cells: Cells) -> None:
        """Sees texts of some cells that were not seen before; those of the two most frequent forms
        all at once."""
        whole = set(filter(PLAIN.fullmatch, fresh))
        points = set(filter(POINTED.fullmatch, fresh)) if len(whole) < len(fresh) else set()
        if whole:
            self.note_units(list(map(len, whole)))
            numbers = list(map(int, whole))
            self.note_sizes([Decimal(min(numbers)), Decimal(max(numbers))], len(whole))
        if points:
            self.note_decimals({"."}, [text.partition(".")[2] for text in points])
            self.note_units([text.index(".") for text in points])
            self.note_groups(points)
            ends = [Decimal(end(points, key=float)) for end in (min, max)]
            self.note_sizes(ends, len(points))
        super().see([text for text in fresh if text not in whole and text not in points], cells)

    def fits(self, text: str) -> bool:
        """Whether it is a number; if so, notes what it is like."""
        found = NUMERAL.fullmatch(text)
        if not found or not (found[1] or found[3]) or found[4] and found[2] == ",":
            is_grouped = bool(GROUPED.fullmatch(text))
            self.is_grouped = self.is_grouped or is_grouped
            return is_grouped
        units, mark, rest, exponent = found.groups()
        shift = int(exponent[1:]) if exponent else 0
        if mark or exponent:
            self.note_decimals({mark} - {None}, [rest or ""], shift)
            self.note_groups({text})
            self.has_exponent = self.has_exponent or bool(exponent)
        elif len(units) > 1 and units[0] == "0":
            self.has_zeros = True
        self.note_units([max(len(units) + shift, 0)])
        self.note_sizes([Decimal(text if mark != "," else text.replace(",", "."))], 1)
        return True

    def note_units(self, digits: list[int]) -> None:
        """Notes how many digits numbers have before the mark; a sign counts as one."""
        self.digits = max(self.digits, *digits)
        self.fewest_digits = min(self.fewest_digits, *digits)

    def note_decimals(self, marks: set[str], rests: list[str], shift: int = 0) -> None:
        """Notes the marks of decimals, and the digits after them."""
        self.is_whole = False
        self.marks |= marks
        self.places = max(self.places, *map(len, rests))
        self.needed = max(self.needed, *(len(rest.rstrip("0")) - shift for rest in rests))

    def note_groups(self, texts: AbstractSet[str]) -> None:
        """Notes whether the marks of decimals may be thousands separators."""
        if self.is_perhaps_grouped:
            self.is_perhaps_grouped = all(map(GROUPED.fullmatch, texts))

    def note_sizes(self, numbers: list[Decimal], different: int) -> None:
        """Notes the least and the greatest of some numbers."""
        known = [self.least, self.greatest] if self.different else []
        self.least, self.greatest = min(known + numbers), max(known + numbers)
        self.different += different

    def has_whole_values(self) -> bool:
        """Whether all are whole, even if written as 12.0."""
        return self.needed == 0 and not self.has_exponent

    def has_odd_places(self) -> bool:
        """Whether the places as they stand say nothing, as those of floating point numbers."""
        return self.has_exponent or self.places > MOST_PLACES

    def kind(self) -> Optional[Kind]:
        """The kind of these numbers as a measure; None if it is not clear."""
        if not self.different or self.odd or self.fault(""):
            return None
        return WHOLE_NUMBER if self.is_whole else Kind("decimal", max(self.wanted_places(), 1))

    def wanted_places(self) -> int:
        """The places of a measure."""
        return self.needed if self.has_odd_places() else self.places

    def fault(self, name: str) -> str:
        """Why the numbers of a column of this name can't be a measure; empty if they can."""
        if self.is_grouped:
            return "numbers with thousands separators: without them it would be a measure"
        if len(self.marks) > 1:
            return "numbers with decimal points and with decimal commas"
        is_risky = self.marks == {","} or self.delimiter == ";"
        if self.marks and self.is_perhaps_grouped and is_risky:
            return f"thousands separators or decimals: --decimals {name}=3 if decimals"
        if self.has_odd_places() and self.needed > MOST_SEEN_PLACES:
            way = f"--decimals {name}={self.needed} if all are needed"
            if self.needed > MOST_PLACES:
                way = f"a measure has at most {MOST_PLACES}, so round them before"
            return f"numbers of {self.needed} decimals: {way}"
        most = MOST_WHOLE_DIGITS if self.is_whole else MOST_DIGITS - self.wanted_places()
        return "numbers of too many digits" if self.digits > most else ""


class Dates(Form):
    """Dates of a kind: the first and the last, as numbers, and whether there are times of day."""

    def __init__(self, kind: Kind) -> None:
        super().__init__()
        self.kind, self.has_time, self.first, self.last = kind, False, GREATEST_VALUE, 0
        self.impossible = self.first_impossible = ""  # a day that does not exist, and its place

    def see(self, fresh: Sequence[str], cells: Cells) -> None:
        """Sees texts of some cells, and where a day stands first that does not exist."""
        super().see(fresh, cells)
        if self.impossible and not self.first_impossible:
            self.first_impossible = f"{self.impossible} in {cells.place(self.impossible)}"

    def note(self, number: int) -> None:
        """Notes whether a date is the first or the last."""
        self.first, self.last = min(self.first, number), max(self.last, number)


class Days(Dates):
    """Days whose parts stand in an order, and which perhaps do not exist."""

    def fits(self, text: str) -> bool:
        """Whether it is a day."""
        try:
            year, month, day = parts_of_day(text, self.kind.order)
        except ValueError:
            return False
        if not (1 <= month <= 12 and 1 <= day <= 31):
            return False
        if year == 0 or text.isdigit() and not 1800 <= year < 2200:
            return False
        if day > 28 and day > calendar.monthrange(year, month)[1]:
            self.impossible = self.impossible or text
        self.has_time = self.has_time or ":" in text
        self.note(10_000 * year + 100 * month + day)
        return True


class Months(Dates):
    """Months, as 2025-03."""

    def fits(self, text: str) -> bool:
        """Whether it is a month."""
        try:
            number = int(month_of(text))
        except ValueError:
            return False
        self.note(number)
        return not text.isdigit() or 190_000 < number < 220_000


class Steps:
    """Whether numbers are as those of a counter: each is the one before it, the next one, or the
    first one again; and whether they are as those of rows, each the next one."""

    def __init__(self) -> None:
        self.is_counter = self.has_rows = True
        self.first = self.last = -1

    def see(self, texts: Sequence[str]) -> None:
        """Sees all cells, one after the other."""
        for text in texts:
            number = int(text) if text.isdecimal() and len(text) < 19 else -1
            if number < 0:
                self.is_counter = False
            elif self.last < 0:
                self.first = number
                self.has_rows = number <= 1
            elif number != self.last + 1:
                self.has_rows = False
                self.is_counter = number in (self.last, self.first)
            if not self.is_counter:
                return
            self.last = number


# ---- columns


class Column:
    """What was seen of a column, and what its user has said of it: a kind, or that it is summed."""

    def __init__(
        self,
        name: str,
        title: str,
        delimiter: str = ",",
        kind: Optional[Kind] = None,
        is_summed: bool = False,
        na: Collection[str] = (),
    ) -> None:
        self.name, self.title, self.told, self.is_summed = name, title, kind, is_summed
        self.missing = NOTHING.union(na)
        self.values: set[str] = set()
        self.absent: Counter[str] = Counter()  # missing values, by their texts
        self.first_absent: dict[str, Place] = {}
        self.rows = self.longest = 0  # the bytes of the longest text, if it may be too long
        self.numbers, self.steps = Numbers(delimiter), Steps()
        days = [Days(Kind("day", order=order)) for order in ORDERS]
        self.dates: list[Dates] = [*days, Months(Kind("month"))]
        self.role = self.why = ""

    def see(self, cells: Cells) -> None:
        """Sees some of its cells; a Fault if one is not of the kind that it is said to have."""
        there = dict.fromkeys(cells.texts)
        for text in filter(there.__contains__, self.missing):
            self.absent[text] += cells.texts.count(text)
            self.first_absent.setdefault(text, cells.place(text))
        fresh = [text for text in there if text not in self.values and text not in self.missing]
        if self.told and (self.told.places or self.told.order or self.told.name == "month"):
            self.expect_kind(fresh, cells, self.told)
        for form in (self.numbers, *self.dates):
            if form.is_possible():
                form.see(fresh, cells)
        if self.steps.is_counter:
            self.steps.see(cells.texts)
        self.rows += len(cells.texts)
        if 4 * max(map(len, fresh), default=0) > LONGEST_TEXT:
            sizes = (len(text.encode("utf-8", "surrogateescape")) for text in fresh)
            self.longest = max(self.longest, *sizes)
        if len(self.values) <= MOST_VALUES:
            self.values.update(fresh)

    def expect_kind(self, fresh: Sequence[str], cells: Cells, kind: Kind) -> None:
        """A fault if one of these texts is not of a kind."""
        for text in fresh:
            try:
                kind.kept(text)
            except ValueError as error:
                why = f"{self.name} is {error}: {text[:60]!r}"
                raise Fault(f"{cells.place(text)}: {why}") from error

    # ---- its kinds

    def number_kind(self) -> Optional[Kind]:
        """The kind that it has as a measure; None if it has none."""
        if self.told and self.told.places:
            return self.told
        return self.numbers.kind()

    def orders(self) -> list[Dates]:
        """The forms of dates that all cells have."""
        return [form for form in self.dates if self.values and not form.odd]

    def date_kind(self) -> Optional[Kind]:
        """The kind of its dates; None if they are no dates, or not clear ones."""
        if self.told and (self.told.order or self.told.name == "month"):
            return self.told
        orders = self.orders()
        return orders[0].kind if len(orders) == 1 and not orders[0].first_impossible else None

    def attribute_kind(self) -> Kind:
        """The kind that it has as an attribute."""
        if self.told == TEXT:
            return TEXT
        if self.is_date():
            return self.date_kind() or TEXT
        numbers = self.numbers
        is_plain = self.number_kind() == WHOLE_NUMBER and not numbers.has_zeros
        fits = 0 <= numbers.least and numbers.greatest <= GREATEST_VALUE
        return WHOLE_NUMBER if is_plain and fits else TEXT

    def is_date(self) -> bool:
        """Whether it has dates; whole numbers as 20250314 need more than a few values for that."""
        if self.told == TEXT or not self.date_kind():
            return False
        is_digits = self.number_kind() == WHOLE_NUMBER and not self.told
        return not is_digits or len(self.values) > 2 or meaning(self.title, True) == "key"

    def expect_told(self) -> None:
        """A fault if it can't have the kind that it is said to have, or can't be summed."""
        name, is_open = self.name, self.told == Kind("decimal")
        if self.told == Kind("day") and not self.date_kind():
            doubt = ": ".join(filter(None, self.date_doubt()))
            raise Fault(doubt or f"{name} has no dates{odd_of(self.dates)}")
        if (is_open or self.is_summed) and not self.values:
            raise Fault(f"{name} cannot be summed: it has no values")
        if (is_open or self.is_summed) and not self.number_kind():
            fault = self.numbers.fault(name) if not self.numbers.odd else ""
            why = f": {fault}" if fault else odd_of([self.numbers])
            raise Fault(f"{name} cannot be summed: not all of its values are numbers{why}")
        if is_open and self.number_kind() == WHOLE_NUMBER:
            raise Fault(f"{name} has whole numbers only: --decimals {name}=2 if it has 2 decimals")

    # ---- its role

    def judge(self) -> None:
        """Settles its role, and why it has this one."""
        self.expect_told()
        self.role, self.why = self.judged()

    def judged(self) -> tuple[str, str]:
        """The role of the column, and why."""
        if self.told == TEXT:
            return "attribute", ""
        if self.is_summed or self.told and self.told.name == "decimal":
            return "measure", ""
        if not self.values:
            return "empty", "all cells are empty"
        if self.is_date():
            return "date", ""
        if self.number_kind():
            return self.judged_numbers()
        return self.key("nearly every row has its own text", "")

    def filled(self) -> int:
        """How many cells are not missing values."""
        return self.rows - sum(self.absent.values())

    def key(self, own: str, why: str) -> tuple[str, str]:
        """The role of a column to group by: an identifier if nearly every row has its own value."""
        filled = self.filled()
        is_own = filled > MANY_ROWS and len(self.values) > 0.9 * filled
        return ("identifier", own) if is_own else ("attribute", why)

    def judged_numbers(self) -> tuple[str, str]:
        """The role of a column of numbers, and why."""
        numbers, count = self.numbers, len(self.values)
        is_whole = numbers.has_whole_values()
        if numbers.has_zeros:
            return self.key("codes", "codes with leading zeros")
        if self.steps.is_counter and self.steps.has_rows and self.rows > SOME_ROWS:
            return "identifier", ROW_NUMBERS
        says = meaning(self.title, is_whole)
        if says == "key":
            return self.key("a key by its title", "a key by its title")
        if says == "amount":
            return "measure", "an amount by its title"
        if count <= (12 if is_whole else 8) and self.filled() >= (4 if is_whole else 12) * count:
            return "attribute", "few different values"
        return self.judged_whole(count) if is_whole else ("measure", "")

    def judged_whole(self, count: int) -> tuple[str, str]:
        """The role of a column of whole numbers of which the title says nothing, and why."""
        numbers = self.numbers
        if 1700 <= numbers.least and numbers.greatest <= 2100:
            return "attribute", "years"
        if self.steps.is_counter and self.rows > SOME_ROWS:
            return "attribute", "numbers that count up"
        if numbers.least == 1 and numbers.greatest == count <= 31 and self.filled() >= 10 * count:
            return "attribute", f"codes from 1 to {count}"
        if numbers.fewest_digits == numbers.digits >= 10:
            role, why = self.key("keys of one length", "")
            if role == "identifier":
                return role, why
        return "measure", ""

    # ---- what is said of it

    def kept(self, text: str, kind: Kind) -> str:
        """What the program keeps of one of its cells, if it is loaded with a kind."""
        if kind.is_number() and text in self.missing:
            return "0"
        return kind.kept(text)

    def different(self, kind: Kind) -> int:
        """How many different values it has of a kind. Times of day make no difference, and missing
        values are values of texts."""
        if kind.name in ("day", "month") and len(self.values) <= MOST_VALUES:
            return len(set(map(kind.kept, self.values)))
        return len(self.values) + (0 if kind.is_number() else len(self.absent))

    def seen(self, kind: Kind) -> str:
        """How many different values it has of a kind, and the least and the greatest."""
        count = self.different(kind)
        said = counted(count, "different value")
        if count > MOST_VALUES:
            said = f"more than {MOST_VALUES:,} different values"
        if not kind.is_number() or not self.values:
            return said
        if kind.name in ("day", "month"):
            dates = next(form for form in self.dates if form.kind == kind)
            return f"{said}, {kind.shown(dates.first)} to {kind.shown(dates.last)}"
        return f"{said}, {self.numbers.least:f} to {self.numbers.greatest:f}"

    def comment(self, kind: Kind, is_guess: bool) -> str:
        """What is said of it in a schema that has it with a kind."""
        said = [self.seen(kind)]
        if kind.name == "decimal":
            said.append(counted(kind.places, "decimal"))
        if kind.name in ("day", "month"):
            order = f" in the order {kind.order}" if kind.order in ("DMY", "MDY") else ""
            said.append(f"{kind.name}s{order}")
        if kind.name == "day" and any(form.has_time for form in self.orders()):
            said.append("times of day are dropped")
        if kind.is_number() and self.absent:
            said.append(f"{self.said_missing()} counted as 0")
        if not kind.is_number() and self.told != TEXT:
            said.append(self.unclear())
        guess = self.guess() if is_guess and not self.told and not self.is_summed else ""
        return f"# {self.name}: {'; '.join(filter(None, said))}{guess}"

    def guess(self) -> str:
        """What is guessed of it, and the word that says otherwise."""
        why = f", {self.why}" if self.why else ""
        text = f" (a guess: --text {self.name} keeps it as text)"
        if self.role == "measure":
            return f"; summed{why}{text}"
        if self.role == "date":
            return text
        if self.role == "identifier":
            return f"; without a view of its own{why}"
        if self.number_kind():
            return f"; not summed{why} (a guess: --sum {self.name} sums it)"
        return ""

    def said_missing(self) -> str:
        """The missing values in words."""
        shown = {text: repr(text) if text else "empty" for text in self.absent}
        return " and ".join(f"{self.absent[text]:,} {shown[text]}" for text in sorted(shown))

    def unclear(self) -> str:
        """Why its cells stay texts though they look like something else, and the word for it."""
        if self.values and not self.numbers.odd:
            return self.numbers.fault(self.name)
        if any(self.date_doubt()):
            return ": ".join(self.date_doubt())
        for form in (self.numbers, *self.dates):
            if form.odd and form.is_possible() and len(self.values) >= 20 * len(form.odd):
                what = "numbers" if form is self.numbers else "dates"
                text, place = next(iter(form.odd.items()))
                way = f"--na {shlex.quote(text)} takes it for 0"
                return f"{what} but for {text!r} in {place}: {way}"
        return ""

    def date_doubt(self) -> tuple[str, str]:
        """What is not clear about its dates, and the words that make it clear."""
        orders, name = self.orders(), self.name
        if self.told == TEXT or not orders or self.date_kind():
            return "", ""
        if orders[0].first_impossible:
            text = f"{name} has dates, and {orders[0].first_impossible} does not exist"
            return text, f"--text {name} keeps them as texts"
        text = f"{name} has dates, and {min(self.values)} may have the day or the month first"
        return text, f"--dates {name}=DMY or --dates {name}=MDY"


def odd_of(forms: Sequence[Form]) -> str:
    """A cell that has none of these forms, for a fault."""
    first = forms[0].odd
    odd = next((text for text in first if all(text in form.odd for form in forms)), None)
    return f", as {odd[:60]!r} in {first[odd]}" if odd is not None else ""
