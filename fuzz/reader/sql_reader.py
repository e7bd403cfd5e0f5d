"""Reads a query of the command `sql`, and says what it asks, or by which rule and at which byte it
is refused.

It is written from the grammar in docs/SCRIPT.md alone, for fuzz/sql-texts. It is independent of
python/cubetree on purpose, its format/ included, and shares no code with it.
"""
import collections
import re

# A schema: for each attribute whether its values are texts, and the measures.
Schema = collections.namedtuple("Schema", "attributes measures")
# A query. An item is a name, or a pair of a function and a measure (None for `count`). A test is a
# name, an operator and its literals.
Query = collections.namedtuple("Query", "items group tests")
# A token, with the byte where it begins. The value of a text has no quotes around it, and those in
# it are not doubled.
Token = collections.namedtuple("Token", "kind value byte")

KEYWORDS = {*b"SELECT COUNT SUM MIN MAX FROM WHERE AND BETWEEN IN GROUP BY".split()}
TOKENS = re.compile(
    rb"(?P<word>[A-Za-z][A-Za-z0-9_]*)|(?P<number>[+-]?[0-9]+)|(?P<text>'(?:[^']|'')*'(?!'))"
    rb"|(?P<sign><=|>=|[=<>,()*])|(?P<stray>.)",
    re.DOTALL,
)
LONGEST_TEXT = 255
LIMIT = 2**127


class Refused(Exception):
    """The first broken rule, and the byte where it is broken."""

    def __init__(self, rule, byte):
        super().__init__(rule, byte)
        self.rule, self.byte = rule, byte


def tokens_of(text):
    tokens, at = [], 0
    while at < len(text):
        if text[at : at + 1] == b" ":
            at += 1
            continue
        found = TOKENS.match(text, at)
        kind, value = found.lastgroup, found[0]
        if kind == "text":
            value = value[1:-1].replace(b"''", b"'")
        if kind == "word" and value.upper() in KEYWORDS:
            kind, value = "keyword", value.upper()
        tokens.append(Token(kind, value, at + 1))
        at = found.end()
    return tokens + [Token("end", b"", len(text) + 1)]


class Reader:
    """Reads the tokens from left to right. Each rule of the grammar is a method."""

    def __init__(self, schema, text):
        self.schema, self.tokens = schema, collections.deque(tokens_of(text))

    def is_next(self, *values):
        return self.tokens[0].kind in ("keyword", "sign") and self.tokens[0].value in values

    def take(self):
        return self.tokens.popleft()

    def skip(self, value):
        """Takes this keyword or sign, which has to come next."""
        if not self.is_next(value):
            raise Refused("syntax", self.tokens[0].byte)
        self.take()

    def skips(self, value):
        """Takes this keyword or sign if it comes next."""
        is_next = self.is_next(value)
        if is_next:
            self.take()
        return is_next

    def listed(self, rule):
        """One or more, with commas between."""
        found = [rule()]
        while self.skips(b","):
            found.append(rule())
        return found

    def name(self, rule, names):
        """A name, which has to be one of these."""
        token = self.take()
        if token.kind != "word":
            raise Refused("syntax", token.byte)
        if token.value not in names:
            raise Refused(rule, token.byte)
        return token

    def query(self):
        self.skip(b"SELECT")
        items = self.listed(self.item)
        self.skip(b"FROM")
        self.name("table", [b"facts"])
        tests = []
        if self.skips(b"WHERE"):
            tests.append(self.test())
            while self.skips(b"AND"):
                tests.append(self.test())
        self.group = []
        if self.skips(b"GROUP"):
            self.skip(b"BY")
            self.listed(self.grouped)
        last = self.take()
        if last.kind != "end":
            raise Refused("syntax", last.byte)
        for item in items:
            if isinstance(item, Token) and item.value not in self.group:
                raise Refused("group", item.byte)
        names = [item.value if isinstance(item, Token) else item for item in items]
        return Query(names, self.group, tests)

    def item(self):
        for fold in (b"SUM", b"MIN", b"MAX"):
            if self.skips(fold):
                self.skip(b"(")
                measure = self.name("name", self.schema.measures)
                self.skip(b")")
                return fold, measure.value
        if self.skips(b"COUNT"):
            for sign in (b"(", b"*", b")"):
                self.skip(sign)
            return b"COUNT", None
        return self.name("name", self.schema.attributes)

    def grouped(self):
        token = self.name("name", self.schema.attributes)
        if token.value in self.group:
            raise Refused("group", token.byte)
        self.group.append(token.value)

    def test(self):
        name = self.name("name", self.schema.attributes).value
        if self.skips(b"BETWEEN"):
            low = self.literal(name, exact=False)
            self.skip(b"AND")
            return name, b"BETWEEN", [low, self.literal(name, exact=False)]
        if self.skips(b"IN"):
            self.skip(b"(")
            values = self.listed(lambda: self.literal(name, exact=True))
            self.skip(b")")
            return name, b"IN", values
        if not self.is_next(b"=", b"<", b"<=", b">", b">="):
            raise Refused("syntax", self.tokens[0].byte)
        sign = self.take().value
        return name, sign, [self.literal(name, exact=sign == b"=")]

    def literal(self, name, exact):
        """A literal of the attribute's kind. A text is compared by `=` or IN alone."""
        token, is_text = self.take(), self.schema.attributes[name]
        if token.kind not in ("text", "number"):
            raise Refused("syntax", token.byte)
        if (token.kind == "text") != is_text or (is_text and not exact):
            raise Refused("value", token.byte)
        if is_text and len(token.value) > LONGEST_TEXT or not is_text and not is_small(token.value):
            raise Refused("value", token.byte)
        return token.value if is_text else whole(token.value)


def whole(number):
    """The number of a sign and digits."""
    digits = number.lstrip(b"+-").lstrip(b"0") or b"0"
    return -int(digits) if number.startswith(b"-") else int(digits)


def is_small(number):
    """Whether the magnitude is below 2^127. Python refuses to read very long numbers."""
    digits = number.lstrip(b"+-").lstrip(b"0")
    return len(digits) <= 39 and int(digits or b"0") < LIMIT


def read(schema, text):
    """The query of a text. `Refused` is raised if it is none."""
    return Reader(schema, text).query()
