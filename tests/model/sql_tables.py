"""What `import sqlite` and `import postgres` print, as a second reading of the definition.

It shares nothing with the program: lexemes are taken by regular expressions, brackets by their partners, and the first
refusal is the least of all that stand.
"""
import re

BLANK = re.compile(rb"[ \t\r\n\f]+|--[^\n]*", re.DOTALL)
COMMENT = re.compile(rb"/\*.*?\*/", re.DOTALL)
COMMENT_MARK = re.compile(rb"/\*|\*/")
WORD = re.compile(rb"[A-Za-z_\x80-\xff][A-Za-z0-9_$\x80-\xff]*")
NUMBER = re.compile(rb"[0-9][A-Za-z0-9_.]*")
TAG = re.compile(rb"\$(?:[A-Za-z_\x80-\xff][A-Za-z0-9_\x80-\xff]*)?\$")
PLAIN = re.compile(rb"'(?:[^']|'')*+'", re.DOTALL)
ESCAPED = re.compile(rb"'(?:[^'\\]|''|\\.)*+'", re.DOTALL)
QUOTES = {b'"': re.compile(rb'"(?:[^"]|"")*+"', re.DOTALL), b"`": re.compile(rb"`(?:[^`]|``)*+`", re.DOTALL),
          b"[": re.compile(rb"\[[^\]]*\]", re.DOTALL)}
TYPE = re.compile(rb"[A-Za-z0-9_ (),.\[\]]{1,63}")

NO_COLUMN = {b"primary", b"unique", b"foreign", b"check"}
NO_CLASS = {b"collate", b"asc", b"desc", b"nulls"}
AFTER_TYPE = {b"constraint", b"not", b"null", b"primary", b"unique", b"default", b"check", b"collate", b"references",
              b"generated", b"as"}
INTEGERS = {b"int", b"integer", b"smallint", b"bigint", b"int2", b"int4", b"int8", b"tinyint", b"mediumint"}
SERIALS = {b"serial", b"bigserial", b"smallserial", b"serial2", b"serial4", b"serial8"}
NUMBERS = {"strange byte": 1, "open quote": 1, "open comment": 1, "table defined twice": 3, "bad name": 4,
           "name declared twice": 5, "expected a name": 6, "expected (": 6, "expected , or )": 6, "expected KEY": 6,
           "too many attributes": 7, "too many dependencies": 8, "unknown name": 9, "the table is altered": 10}


class Stop(Exception):
    """A refusal at a place."""

    def __init__(self, text, place):
        self.text, self.place = text, place


class Lexeme:
    """A lexeme: `word`, `quoted`, `string`, `number` or `mark`, its bytes, where it begins and ends."""

    def __init__(self, kind, text, place):
        self.kind, self.text, self.place, self.end = kind, text, place, place + len(text)

    def is_word(self, *words):
        return self.kind == "word" and self.text.lower() in words

    def is_mark(self, mark):
        return self.kind == "mark" and self.text == mark

    def is_name(self):
        return self.kind in ("word", "quoted")

    def name(self, postgres):
        if self.kind == "word":
            return self.text.lower() if postgres else self.text
        first, inner = self.text[:1], self.text[1:-1]
        return inner if first == b"[" else inner.replace(first * 2, first)


class Lexer:
    def __init__(self, data, postgres):
        self.data, self.postgres = data, postgres
        self.at = 3 if data.startswith(b"\xef\xbb\xbf") else 0
        self.line_start = True
        self.before = None

    def skip(self):
        data = self.data
        while self.at < len(data):
            if self.postgres and data[self.at:self.at + 1] == b"\\" and (self.line_start or data[self.at - 1:self.at] == b"\n"):
                end = data.find(b"\n", self.at)
                self.at = len(data) if end < 0 else end
            elif found := BLANK.match(data, self.at):
                self.at = found.end()
            elif data.startswith(b"/*", self.at):
                self.at = self.comment_end()
            else:
                return
            self.line_start = False

    def comment_end(self):
        """Where the comment ends that begins here; those of PostgreSQL nest."""
        if not self.postgres:
            found = COMMENT.match(self.data, self.at)
            if found:
                return found.end()
            raise Stop("open comment", self.at)
        depth, at = 0, self.at
        while found := COMMENT_MARK.search(self.data, at):
            depth += 1 if found.group() == b"/*" else -1
            at = found.end()
            if not depth:
                return at
        raise Stop("open comment", self.at)

    def next(self):
        """The next lexeme, or None at the end."""
        self.skip()
        data, at = self.data, self.at
        if at == len(data):
            return None
        self.line_start = False
        kind, end = "mark", at + 1
        first = data[at:at + 1]
        if first == b"'":
            touching = self.before and self.before.kind == "word" and self.before.end == at and self.before.text in (b"e", b"E")
            found = (ESCAPED if self.postgres and touching else PLAIN).match(data, at)
            if not found:
                raise Stop("open quote", at)
            kind, end = "string" if self.postgres else "quoted", found.end()
        elif self.postgres and (tag := TAG.match(data, at)):
            end = data.find(tag.group(), tag.end())
            if end < 0:
                raise Stop("open quote", at)
            kind, end = "string", end + len(tag.group())
        elif first == b'"' or not self.postgres and first in QUOTES:
            found = QUOTES[first].match(data, at)
            if not found:
                raise Stop("open quote", at)
            kind, end = "quoted", found.end()
        elif found := WORD.match(data, at):
            kind, end = "word", found.end()
        elif found := NUMBER.match(data, at):
            kind, end = "number", found.end()
        elif not 33 <= data[at] <= 126:
            raise Stop("strange byte", at)
        self.at = end
        self.before = Lexeme(kind, data[at:end], at)
        return self.before

    def pass_data(self):
        """The rest of the line, and the lines up to and with the one that ends the data."""
        lines = re.compile(rb"[^\n]*(?:\n|\Z)")
        self.at = lines.match(self.data, self.at).end()
        while self.at < len(self.data):
            found = lines.match(self.data, self.at)
            self.at = found.end()
            if found.group().rstrip(b"\n").rstrip(b"\r") == b"\\.":
                break
        self.line_start = True
        self.before = None


def statements(data, postgres):
    """The statements: lexemes, the place of the end, and the flaw that ends the text there, if one does."""
    lexer = Lexer(data, postgres)
    while True:
        out, depth, flaw = [], 0, None
        try:
            while (lexeme := lexer.next()) and not (depth == 0 and lexeme.is_mark(b";")):
                depth += lexeme.is_mark(b"(")
                depth -= lexeme.is_mark(b")") and depth > 0
                out.append(lexeme)
        except Stop as stop:
            flaw, lexeme = stop, None
        yield out, flaw.place if flaw else out[-1].end if out else 0, flaw
        if lexeme is None:
            return
        if postgres and len(out) >= 3 and out[0].is_word(b"copy") and out[-2].is_word(b"from") and out[-1].is_word(b"stdin"):
            lexer.pass_data()


def partner(lexemes, at):
    """Where the bracket at a place is closed, or None."""
    depth = 0
    for k in range(at, len(lexemes)):
        depth += lexemes[k].is_mark(b"(")
        if lexemes[k].is_mark(b")"):
            depth -= 1
            if depth == 0:
                return k
    return None


def outside(lexemes):
    """Those that stand in no bracket of their own, with their places."""
    depth = 0
    for k, lexeme in enumerate(lexemes):
        depth -= lexeme.is_mark(b")") and depth > 0
        if depth == 0 and not lexeme.is_mark(b"(") and not lexeme.is_mark(b")"):
            yield k, lexeme
        depth += lexeme.is_mark(b"(")


def parted(lexemes):
    """The parts between commas outside brackets: from where to where."""
    cuts = [k for k, lexeme in outside(lexemes) if lexeme.is_mark(b",")]
    return list(zip([0] + [k + 1 for k in cuts], cuts + [len(lexemes)]))


def elements(lexemes):
    """The elements after the bracket of a table, each as from where to where, and where the bracket is that closes the table,
    or None. A comma or that bracket stands in no other one, round or square."""
    out, start, depth = [], 0, 0
    for k, lexeme in enumerate(lexemes):
        if depth == 0 and (lexeme.is_mark(b",") or lexeme.is_mark(b")")):
            out.append((start, k))
            start = k + 1
            if lexeme.is_mark(b")"):
                return out, k
        elif lexeme.is_mark(b"(") or lexeme.is_mark(b"["):
            depth += 1
        elif depth and (lexeme.is_mark(b")") or lexeme.is_mark(b"]")):
            depth -= 1
    return [*out, (start, len(lexemes))], None


def begins_constraint(lexeme, after):
    """A constraint begins with a lexeme; another one, if any, follows."""
    return lexeme.is_word(*NO_COLUMN) or lexeme.is_word(b"exclude") and after is not None and (after.is_word(b"using") or after.is_mark(b"("))


def not_distinct(lexemes, at):
    """NULLS NOT DISTINCT stands at a place."""
    return [y.kind == "word" and y.text.lower() for y in lexemes[at:at + 3]] == [b"nulls", b"not", b"distinct"]


class Table:
    def __init__(self, postgres, wanted):
        self.postgres, self.wanted = postgres, wanted
        self.columns, self.keys = [], []
        self.found = False

    # ---- names
    def parts(self, lexemes):
        """How many lexemes the name at the front has."""
        n = 1
        while n < 5 and len(lexemes) > n + 1 and lexemes[n].is_mark(b".") and lexemes[n + 1].is_name():
            n += 2
        return n

    def is_meant(self, lexemes):
        names = [x.name(self.postgres).lower() if x.is_name() else None for x in lexemes[:self.parts(lexemes):2]]
        return len(names) >= len(self.wanted) and names[-len(self.wanted):] == [w.lower() for w in self.wanted]

    # ---- statements
    def read(self, x, end):
        k = 0

        def word(*words):
            nonlocal k
            if k < len(x) and x[k].is_word(*words):
                k += 1
                return True
            return False

        if word(b"create"):
            if word(b"unique"):
                if word(b"index"):
                    self.read_index(x[k:], end, x[1].place)
                return
            word(b"temp", b"temporary", b"unlogged")
            if word(b"table"):
                if [y.kind == "word" and y.text.lower() for y in x[k:k + 3]] == [b"if", b"not", b"exists"]:
                    k += 3
                if self.is_meant(x[k:]):
                    self.read_table(x[k:], end)
        elif word(b"alter") and word(b"table"):
            if [y.kind == "word" and y.text.lower() for y in x[k:k + 2]] == [b"if", b"exists"]:
                k += 2
            word(b"only")
            if self.is_meant(x[k:]):
                k += self.parts(x[k:])
                if word(b"drop", b"rename"):
                    raise Stop("the table is altered", x[k - 1].place)
                if word(b"add") and k < len(x):
                    if not x[k].is_word(b"constraint") and not begins_constraint(x[k], x[k + 1] if k + 1 < len(x) else None):
                        raise Stop("the table is altered", x[k - 1].place)
                    if any(y.is_word(b"using") for y in x[k:]):
                        return
                    if word(b"constraint"):
                        self.expect_name(x[k:], end)
                        k += 1
                    self.read_key(x[k:], end)

    def read_table(self, x, end):
        if self.found:
            raise Stop("table defined twice", x[0].place)
        self.found = True
        x = x[self.parts(x):]
        if not x or not x[0].is_mark(b"("):
            raise Stop("expected (", x[0].place if x else end)
        inner = x[1:]
        found, close = elements(inner)
        for start, stop in found:
            self.read_element(inner[start:stop], inner[stop].place if stop < len(inner) else end)
        if close is None:
            raise Stop("expected , or )", end)
        if not self.columns:
            raise Stop("expected a name", inner[close].place)

    def read_index(self, x, end, place):
        plain = list(outside(x))
        on = [k for k, y in plain if y.is_word(b"on")]
        if not on or any(y.is_word(b"where") for k, y in plain):
            return
        x = x[on[0] + 1:]
        if x and x[0].is_word(b"only"):
            x = x[1:]
        if not self.is_meant(x):
            return
        x = x[self.parts(x):]
        if len(x) > 1 and x[0].is_word(b"using") and x[1].kind == "word":
            x = x[2:]
        if not x or not x[0].is_mark(b"("):
            return
        close = partner(x, 0)
        if not self.are_columns(x):
            return
        parts = self.read_list(x, end)
        after = x[close + 1:]
        kind = "nulls" if any(not_distinct(after, k) for k, y in outside(after)) else "unique"
        self.state(kind, place, parts)

    # ---- elements
    def expect_name(self, x, end):
        if not x or not x[0].is_name():
            raise Stop("expected a name", x[0].place if x else end)

    def read_element(self, x, end):
        if not x:
            raise Stop("expected a name", end)
        if x[0].is_word(b"constraint"):
            self.expect_name(x[1:], end)
            x = x[2:]
        elif not begins_constraint(x[0], x[1] if len(x) > 1 else None) and not (self.postgres and x[0].is_word(b"like")):
            return self.read_column(x)
        if x and self.postgres and x[0].is_word(b"like"):
            raise Stop("expected a name", x[0].place)
        self.read_key(x, end)

    def read_key(self, x, end):
        if not x or not x[0].is_word(b"primary", b"unique"):
            return
        rest = x[1:]
        kind = "primary" if x[0].is_word(b"primary") else "nulls" if not_distinct(x, 1) else "unique"
        if kind == "primary":
            if not rest or not rest[0].is_word(b"key"):
                raise Stop("expected KEY", rest[0].place if rest else end)
            rest = rest[1:]
        elif rest and rest[0].is_word(b"nulls"):
            if len(rest) > 1 and rest[1].is_word(b"distinct"):
                rest = rest[2:]
            elif len(rest) > 2 and rest[1].is_word(b"not") and rest[2].is_word(b"distinct"):
                rest = rest[3:]
        parts = self.read_list(rest, end)
        if self.are_columns(rest):
            self.state(kind, x[0].place, parts)

    def are_columns(self, x):
        """Each part of a list is a name, with nothing else after it than what orders it."""
        inner = x[1:partner(x, 0)]
        return all(self.is_column(inner[start:stop]) for start, stop in parted(inner))

    def is_column(self, x):
        if not x or not x[0].is_name():
            return False
        k = 1
        if len(x) > k + 1 and x[k].is_word(b"collate") and x[k + 1].is_name():
            k += 1 + self.parts(x[k + 1:])
        if len(x) > k and x[k].is_name() and not x[k].is_word(*NO_CLASS):
            k += 1
        if len(x) > k and x[k].is_word(b"asc", b"desc"):
            k += 1
        if len(x) > k + 1 and x[k].is_word(b"nulls") and x[k + 1].is_word(b"first", b"last"):
            k += 2
        return k == len(x)

    def read_list(self, x, end):
        """Names of the parts, with their places."""
        if not x or not x[0].is_mark(b"("):
            raise Stop("expected (", x[0].place if x else end)
        close = partner(x, 0)
        inner = x[1:close]
        out = []
        for start, stop in parted(inner):
            if start == stop or not inner[start].is_name():
                after = inner[start] if start < len(inner) else x[close] if close is not None else None
                raise Stop("expected a name", after.place if after else end)
            out.append((inner[start].name(self.postgres), inner[start].place))
        if close is None:
            raise Stop("expected , or )", end)
        return out

    def state(self, kind, place, parts):
        if len(self.keys) == 4096:
            raise Stop("too many dependencies", place)
        self.keys.append((kind, parts))

    def read_column(self, x):
        self.expect_name(x, None)
        name, place = x[0].name(self.postgres), x[0].place
        if not is_name(name):
            raise Stop("bad name", place)
        if any(name.lower() == other["name"].lower() for other in self.columns):
            raise Stop("name declared twice", place)
        if len(self.columns) == 128:
            raise Stop("too many attributes", place)
        plain = [k for k, y in outside(x) if k]
        cut = next((k for k in plain if x[k].is_word(*AFTER_TYPE)), len(x))
        type_, rest = x[1:cut], x[cut:]
        text = b" ".join(y.text.lower() for k, y in outside(type_) if y.kind == "word")
        after = [k for k, y in outside(rest)]
        never_by_words = any(rest[k].is_word(b"not") and k + 1 < len(rest) and rest[k + 1].is_word(b"null") for k in after)
        never = self.postgres and text in SERIALS or never_by_words
        self.columns.append({"name": name, "type": self.type_of(type_, text), "never": never})
        for k in after:
            if rest[k].is_word(b"unique"):
                self.state("nulls" if not_distinct(rest, k + 1) else "unique", rest[k].place, [(name, place)])
            elif rest[k].is_word(b"primary") and k + 1 < len(rest) and rest[k + 1].is_word(b"key"):
                self.state("primary", rest[k].place, [(name, place)])

    def type_of(self, x, text):
        if not x:
            return "text" if self.postgres else 'other "blob"'
        if all(y.kind == "word" for k, y in outside(x)):
            if text in (b"", b"text"):
                return "text"
            if text in INTEGERS or self.postgres and text in SERIALS:
                return "integer"
            if self.postgres:
                if text in (b"date", b"uuid", b"timestamp"):
                    return text.decode()
                if text == b"timestamp without time zone":
                    return "timestamp"
                if text in (b"numeric", b"decimal"):
                    digits = [y.text for y in x[2:-1:2]]
                    shape = [y.text for y in x[1::2]] in ([b"(", b")"], [b"(", b",", b")"])
                    if shape and all(y.kind == "number" and re.fullmatch(rb"[0-9]{1,2}", y.text) for y in x[2:-1:2]):
                        precision, scale = int(digits[0]), int(digits[1]) if len(digits) == 2 else 0
                        if precision <= 15 and scale <= 9:
                            return f"decimal {scale}"
        if any(y.kind in ("string", "quoted") for y in x):
            return "text"
        out = b""
        for k, y in enumerate(x):
            if y.kind in ("word", "number") and k and x[k - 1].text not in (b"(", b"[", b"."):
                out += b" "
            out += y.text.lower() if y.kind == "word" else y.text
        return f'other "{out.decode()}"' if TYPE.fullmatch(out) else "text"


def is_name(name):
    try:
        name.decode()
    except UnicodeDecodeError:
        return False
    return 1 <= len(name) <= 63 and all(b >= 32 and b != 127 for b in name) and not name.startswith(b"\xef\xbb\xbf")


# A part of a table's name and what follows it: a dot and the next part, or the end.
PART = re.compile(rb'(?:"((?:[^"]|"")*)"|([^".][^.]*))(\.|\Z)', re.DOTALL)


def table_parts(word, is_name):
    """The parts of a word that names a table, each with whether it is quoted, or None."""
    parts, place, more = [], 0, True
    while more:
        found = PART.match(word, place)
        if found is None or len(parts) == 3:
            return None
        quoted = found[1] is not None
        name = found[1].replace(b'""', b'"') if quoted else found[2]
        if quoted and not is_name(name):
            return None
        parts.append((name, quoted))
        place, more = found.end(), found[3] == b"."
    return parts


def wanted_parts(word, is_name):
    """The names of the parts of a word that names a table, or None."""
    parts = table_parts(word, is_name)
    return parts and [name for name, _ in parts]


def read(data, dialect, wanted):
    """The table that is wanted, or a stop; None where there is none."""
    table = Table(dialect == "postgres", wanted)
    for lexemes, end, flaw in statements(data, table.postgres):
        try:
            table.read(lexemes, end)
        except Stop as stop:
            if flaw and stop.place >= flaw.place:
                raise flaw
            raise
        if flaw:
            raise flaw
    return table if table.found else None


def imported(data, dialect, wanted, new_schema):
    """The lines after the columns, and the schema of these: `new_schema` makes one of names, types and nullable ones.

    None where there is no such table."""
    table = read(data, dialect, wanted)
    if table is None:
        return None
    place = {column["name"].lower(): k for k, column in enumerate(table.columns)}
    keys = []
    for kind, parts in table.keys:
        for name, at in parts:
            if name.lower() not in place or not is_name(name):
                raise Stop("unknown name", at)
        keys.append((kind, [place[name.lower()] for name, at in parts]))
    whole = (1 << len(table.columns)) - 1
    never = sum(1 << k for k, column in enumerate(table.columns) if column["never"])
    for kind, key in keys:
        if kind == "primary":
            never |= sum(1 << k for k in set(key))
    schema = new_schema([c["name"] for c in table.columns], [c["type"] for c in table.columns], whole & ~never)
    lines, determines = [], {}
    for kind, key in keys:
        x = sum(1 << k for k in set(key))
        determined = not x & ~never or kind == "nulls"
        if x == whole or determines.get(x, False) or x in determines and not determined:
            continue
        determines[x] = determined
        if determined:
            lines.append(schema.set(x) + b" -> " + schema.set(whole & ~x))
        else:
            lines.append(b"# %s %s: missing values are not compared" % (b"PRIMARY KEY" if kind == "primary" else b"UNIQUE", schema.set(x)))
    return schema, lines


def place_text(data, place):
    front = data[:place].removeprefix(b"\xef\xbb\xbf")
    return b"%d:%d" % (front.count(b"\n") + 1, len(front) - (front.rfind(b"\n") + 1) + 1)
