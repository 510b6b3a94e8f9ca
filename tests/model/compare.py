#!/usr/bin/env python3
"""Compares a built program with the model on random inputs.

    compare.py PROGRAM FAMILY COUNT [SEED]

FAMILY is a name of FAMILIES below, or `all`. COUNT random cases are made; the first three differences are printed, and
their files kept in a folder of their own. A case with a word that is not UTF-8 is left out: the program refuses such
words, and the model reads them. The last line is `N same, N differ, N left out`, and how often each status came.
DESK_KEEP=DIR keeps the files elsewhere. Runs one program at a time.
"""
import collections
import functools
import os
import pathlib
import random
import shutil
import subprocess
import sys
import tempfile

import model

from model import FD, MVD, members

NAMES = ["A", "B", "C", "D", "E", "F", "G", "H", "I", "J", "K", "L", "M", "N", "O", "P"]
STRANGE = ["Unit price", "n\u00e9e", 'say "hi"', "text", "date", "Nullable", "a:b", "#1", "x,y", "1st", "stra\u00dfe", "A", "B", "c",
           "D & <E>", "back\\slash", "O'Hara", "  ", "scheme", "with", "x" * 63, "integer"]
TYPES = ["text", "integer", "date", "timestamp", "uuid", "decimal 0", "decimal 2", "decimal 9", 'other "real"',
         'other "varchar(80)"']
LONG = ["City", "street_1", "ZIP", "Room", "x9", "Teacher", "HOUR", "grade", "given", "with", "yes", "Integers",
        "a_name_of_thirty_one_bytes_long", "Tn", "Id", "q"]


# ---------------------------------------------------------------- makers

class Maker:
    def __init__(self, rng):
        self.r = rng
        self.any_names = False
        self.nullable = None

    def some(self, n, most=3, least=0):
        """A small set of places."""
        k = self.r.randint(least, min(most, n))
        return sum(1 << i for i in self.r.sample(range(n), k))

    def schema(self, low=1, high=6, deps=None, mvd=None, typed=None, empty=0.08):
        """names, columns, deps."""
        r = self.r
        n = r.randint(low, high)
        names = r.sample(r.choice((NAMES, NAMES, LONG)), n) if r.random() < .3 else NAMES[:n]
        self.any_names = typed is None and r.random() < .25
        typed = r.random() < .15 if typed is None else typed
        columns = [r.choice(("text", "integer")) if typed else "text" for _ in range(n)]
        if self.any_names:
            names = r.sample(STRANGE, n) if r.random() < .6 else names
            columns = [r.choice(TYPES) if r.random() < .5 else "text" for _ in range(n)]
        mvd = r.choice((0, 0, .3, .5, 1)) if mvd is None else mvd
        out = []
        for _ in range(r.randint(0, n + 2) if deps is None else deps):
            x = self.some(n, r.choice((1, 2, 3)), 0 if r.random() < empty else 1)
            y = self.some(n, r.choice((1, 1, 2, 3)), 0 if r.random() < .05 else 1)
            out.append((MVD if r.random() < mvd else FD, x, y))
        if r.random() < .1 and out:
            out.append(r.choice(out))
        return names, columns, out

    def wide_schema(self, mvd):
        """Many attributes, few of which stand in left sides."""
        r = self.r
        n = r.randint(17, 40)
        used = sum(1 << a for a in r.sample(range(n), r.randint(1, 6)))
        out = []
        for _ in range(r.randint(1, 8)):
            x = self.some(n, 6, 0) & used
            out.append((MVD if r.random() < mvd else FD, x, self.some(n, r.choice((1, 2, 9)), 1)))
        return [f"a{i + 1}" for i in range(n)], ["text"] * n, out

    def cased(self, name):
        r = self.r.random()
        if r < .7 or not name.isascii():
            return name
        return name.lower() if r < .85 else name.upper()

    def spelled(self, name):
        """A name in a schema, a goal or a plan."""
        name = self.cased(name)
        bare = model.is_name(name.encode()) and name.lower().encode() not in model.RESERVED_3
        if bare and not (self.any_names and self.r.random() < .15):
            return name
        return '"' + name.replace('"', '""') + '"'

    def typed_lines(self, names, columns):
        """The declaring lines of a schema that takes any names."""
        r = self.r
        lines = [r.choice(("version 3", "version 03", "version\t3 # three"))]
        for name, column in zip(names, columns):
            word = "attributes" if column == "text" and r.random() < .5 else column
            if lines[1:] and lines[-1].startswith(word + " ") and r.random() < .6:
                lines[-1] += " " + self.spelled(name)
            else:
                lines.append(f"{word} {self.spelled(name)}")
        if self.nullable is not None:
            lines += ["nullable " + self.side(names, self.nullable)] * (self.nullable != 0)
        elif r.random() < .6:
            some = self.some(len(names), 3, 1)
            lines.append("nullable " + self.side(names, some))
        return lines

    def side(self, names, x):
        if not x:
            return "()"
        places = members(x)
        if self.r.random() < .1:
            places = places + [self.r.choice(places)]
            self.r.shuffle(places)
        return self.r.choice((" ", " ", " ", ", ", "\t")).join(self.spelled(names[i]) for i in places)

    def dep(self, names, d):
        gap = self.r.choice((" ", " ", ""))
        return self.side(names, d[1]) + gap + d[0] + gap + self.side(names, d[2])

    def schema_text(self, schema):
        r = self.r
        names, columns, deps = schema
        typed = "integer" in columns
        lines = []
        if self.any_names:
            lines += self.typed_lines(names, columns)
        elif typed or r.random() < .08:
            lines.append(r.choice(("version 2", "version 02", "version\t2 # two")))
            for name, column in zip(names, columns):
                lines.append(f"{column if column == 'integer' or r.random() < .5 else 'attributes'} {name}")
        elif r.random() < .2 and len(names) > 1:
            k = r.randrange(1, len(names))
            lines += ["attributes " + " ".join(names[:k]), "attributes " + ",".join(names[k:])]
        else:
            lines.append("attributes " + " ".join(names))
        lines += [self.dep(names, d) for d in deps]
        out = []
        for line in lines:
            if r.random() < .06:
                out.append(r.choice(("", "# a comment", "  \t", " # \x01")))
            out.append(line + (" # why" if r.random() < .05 else ""))
        end = r.choice(("\n", "\n", "\n", "\r\n"))
        text = end.join(out) + ("" if r.random() < .1 else end)
        return ("\ufeff" if r.random() < .05 else "").encode() + text.encode()

    def goal(self, names, mvd=.4, n=None):
        n = len(names)
        d = (MVD if self.r.random() < mvd else FD, self.some(n, 3, 0 if self.r.random() < .1 else 1), self.some(n, 3, 0 if self.r.random() < .1 else 1))
        return d, self.dep(names, d)

    def plan(self, n, covers=.95, most=5):
        r = self.r
        out = [self.some(n, r.choice((2, 3, n)), 1) for _ in range(r.randint(1, most))]
        missing = ((1 << n) - 1) & ~sum_or(out)
        if missing and r.random() < covers:
            if r.random() < .5:
                out.append(missing)
            else:
                for a in members(missing):
                    i = r.randrange(len(out))
                    out[i] |= 1 << a
        r.shuffle(out)
        return out

    def plan_text(self, names, plan):
        """A plan, in which some tables have names."""
        r = self.r
        named = r.random() < .25
        lines = []
        for k, x in enumerate(plan):
            own = r.choice((f"part{k}", f"Part_{k}", f"orders{k}", "orders", "t9", "joined", "version", "tx"))
            head = f"table {own}{r.choice((':', ' : ', ':'))}" if named and r.random() < .5 else "scheme"
            lines.append(f"{head} {self.side(names, x)}\n")
        return "".join(lines).encode()

    def typed_value(self, column):
        """A value of a type that only some schemas have, or a text that is nearly one."""
        r = self.r
        if column.startswith("decimal "):
            scale = int(column[8:])
            good = [whole + ("." + part * scale if scale else "") for whole in ("0", "1", "-1", "12") for part in ("0", "5")]
            return r.choice(good + ["-0" + "." * bool(scale) + "0" * scale, "1", "01.00", "1.", "999999999999999", "1234567890123456", ""]).encode()
        if column == "uuid":
            return r.choice(("00000000-0000-0000-0000-00000000000%d" % r.randint(0, 2), "123e4567-e89b-12d3-a456-426614174000",
                             "123E4567-e89b-12d3-a456-426614174000", "123e4567e89b12d3a456426614174000", "")).encode()
        day = r.choice(("2024-02-29", "2023-02-29", "1900-02-29", "2000-02-29", "2024-02-30", "2024-04-31", "0001-01-01", "0000-01-01",
                        "2024-12-31", "2024-13-01", "2024-1-01", "1999-12-31", "1999-12-31", "2024-02-29", ""))
        if column == "date" or not day:
            return day.encode()
        return (day + r.choice((" 00:00:00", " 23:59:59", " 23:59:60", " 24:00:00", " 12:30:00.5", " 12:30:00.50", " 12:30:00.123456",
                                " 12:30:00.1234567", "T12:30:00", " 12:30:00.", ""))).encode()

    def value(self, column="text"):
        r = self.r
        if column not in ("text", "integer") and not column.startswith("other "):
            return self.typed_value(column)
        if column == "integer":
            return b"%d" % r.choice((0, 1, 2, -1, 7, 9223372036854775807, -9223372036854775808)) if r.random() < .98 else r.choice((b"07", b"-0", b"", b"+1", b"9223372036854775808", b"x"))
        if r.random() < .85:
            return r.choice((b"x", b"y", b"z", b"1", b"2"))
        return r.choice((b"", b"a,b", b'q"q', b"l\nf", b"c\rr", b"O'Hara", b"\xff\x00", b"\xc3\xa9", b"'", b'""', b" x ", b"nul\0"))

    def rows(self, schema, most=8, repair=None):
        r = self.r
        names, columns, deps = schema
        n = len(names)
        rows = [tuple(self.value(c) for c in columns) for _ in range(r.randint(0, most))]
        if r.random() < (.7 if repair is None else repair):
            for _ in range(6):
                for kind, x, y in deps:
                    seen, new = {}, []
                    for row in rows:
                        key = tuple(row[a] for a in members(x))
                        if kind == FD:
                            one = seen.setdefault(key, row)
                            row = tuple(one[a] if y >> a & 1 else row[a] for a in range(n))
                        else:
                            for other in seen.setdefault(key, []):
                                for t, u in ((row, other), (other, row)):
                                    new.append(tuple(t[a] if (x | y) >> a & 1 else u[a] for a in range(n)))
                            seen[key].append(row)
                        new.append(row)
                    rows = list(dict.fromkeys(new))[:40] if kind == MVD else new
        if rows and r.random() < .3:
            rows.append(r.choice(rows))
        if r.random() < .5:
            r.shuffle(rows)
        return rows

    def csv(self, names, rows, scheme=None, noise=.1):
        """A CSV text: columns shuffled, spelled in another case, quotes where not needed, other line ends."""
        r = self.r
        places = members(scheme) if scheme is not None else list(range(len(names)))
        order = list(range(len(places)))
        if r.random() < .5:
            r.shuffle(order)
        end = r.choice((b"\n", b"\n", b"\r\n", b"\r"))

        def field(v):
            if any(c in v for c in b',"\r\n') or r.random() < .05:
                return b'"' + v.replace(b'"', b'""') + b'"'
            return v

        def line(values):
            text = b",".join(field(v) for v in values)
            return (text or b'""') + end
        text = line([self.cased(names[places[i]]).encode() for i in order])
        for row in rows:
            if r.random() < .03:
                text += end
            text += line([row[i] for i in order])
        if r.random() < .2:
            text = text[:-len(end)]
        if r.random() < .05:
            text = model.BOM + text
        if r.random() < noise:
            text = self.mutated(text, [b",", b'"', b"\n", b"\r", b"x", b",,", b"A", b"\n\n", b"\xef\xbb\xbf", b"0"])
        return text

    def mutated(self, text, pieces, most=3):
        r = self.r
        for _ in range(r.randint(1, most)):
            i = r.randint(0, len(text))
            what = r.random()
            if what < .5:
                text = text[:i] + r.choice(pieces) + text[i:]
            elif what < .8:
                text = text[:i] + text[i + r.randint(1, 3):]
            else:
                text = text[:i] + r.choice(pieces) + text[i + 1:]
        return text


def sum_or(sets):
    x = 0
    for s in sets:
        x |= s
    return x


PIECES = [b"attributes ", b"scheme ", b"version ", b"integer ", b"text ", b"Scheme", b" -> ", b" ->> ", b"->", b"-", b">",
          b"()", b"(", b" ( ) ", b":", b"A", b" B ", b"Z9", b"_x", b"1a", b"12", b"\n", b"\r", b"\r\n", b"#", b",", b"\t",
          b'"', b'""', b'"A"', b' "b" ', b"version 3\n", b"decimal 2 ", b"decimal ", b'other "x" ', b"nullable ", b"date ", b"uuid ", b"table x: ",
          b"\xef\xbb\xbf", b"\0", b"\xff", b"version 2\n", b"2", b"x" * 32, b" yes\n", b" given 1", b" with ", b" : "]


# ---------------------------------------------------------------- families: each gives words, files

def f_implies(m):
    s = m.schema(1, 7)
    return ["implies", "s", m.goal(s[0])[1]], {"s": m.schema_text(s)}


def f_goal(m):
    s = m.schema(1, 4)
    goal = m.mutated(m.goal(s[0])[1].encode(), [p for p in PIECES if b"\0" not in p and b"\xff" not in p])
    return ["implies", "s", os.fsdecode(goal)], {"s": m.schema_text(s)}


def f_schema(m):
    s = m.schema(1, 5)
    return ["cover", "s"] if m.r.random() < .5 else ["implies", "s", m.goal(s[0])[1]], {"s": m.mutated(m.schema_text(s), PIECES)}


def planted(m, schema, nodes):
    """One fault in the lines of a derivation; sometimes it is none."""
    r = m.r
    names, _, deps = schema
    k = r.randrange(len(nodes))
    (kind, x, y), rule, premises, args = nodes[k]
    what = r.random()
    if what < .1:
        kind = MVD if kind == FD else FD
    elif what < .25:
        y ^= m.some(len(names), 2, 1)
    elif what < .35:
        x ^= m.some(len(names), 2, 1)
    elif what < .55:
        shape = model.FURTHER_RULES[rule]
        rule = r.choice([other for other in model.FURTHER_RULES if model.FURTHER_RULES[other] == shape])
    elif what < .75 and premises and k:
        premises = [r.randrange(k) if r.random() < .6 else p for p in premises]
    elif what < .8:
        premises = premises[::-1]
    elif what < .9 and rule == b"given":
        args = [r.choice((0, len(deps), len(deps) + 1, 999999999, r.randint(1, len(deps) + 1)))]
    elif what < .9 and args:
        args = [side ^ m.some(len(names), 2, 0) for side in args]
    elif what < .92 and premises:
        premises = [r.choice((-1, k, k + 1, *premises)) for _ in premises]
    nodes[k] = ((kind, x, y), rule, premises, args)


def certificate(m, schema, rules=model.RULES, often=False, faults=0):
    """A random certificate, or where a line may be used often a derivation: many valid steps, some broken ones, and so many
    faults that are planted afterwards."""
    r = m.r
    names, columns, deps = schema
    s = model.Schema([n.encode() for n in names], columns, deps, list(range(len(deps))))
    nodes, free = [], []
    for _ in range(r.randint(1, 12)):
        rule = r.choice(list(rules))
        shape = rules[rule]
        want = sum(c in "pq" for c in shape)
        if len(free) < want:
            rule, shape, want = r.choice(((b"given", "k", 0), (b"reflexivity", "", 0), (b"mreflexivity", "", 0)))
        premises = r.choices(free, k=want) if often else r.sample(free, want)
        x = m.some(len(names))
        y = x & r.randrange(1 << len(names)) if r.random() < .9 else m.some(len(names))
        if rule == b"decomposition" and r.random() < .9:
            kind, x, whole = nodes[premises[0]][0]
            y = whole & r.randrange(1 << len(names))
        args = [r.randint(1, max(1, len(deps)))] if shape == "k" else [x] if shape == "ps" else [x, y] if shape == "pss" else []
        stated = (FD, x, y)
        try:
            stated = model.rule_conclusion(s, rule, stated, args, [nodes[p][0] for p in premises])
        except model.Fault:
            if r.random() < .8:
                continue
        if r.random() < .02:
            stated = (r.choice((FD, MVD)), stated[1], m.some(len(names)))
        for p in premises:
            if not often:
                free.remove(p)
        nodes.append((stated, rule, premises, args))
        free.append(len(nodes) - 1)
    if not nodes:
        nodes.append(((FD, 0, 0), b"reflexivity", [], []))
    if r.random() < .7 and not often:
        while len(free) > 1 and nodes:           # keep only the tree of the last line
            keep, stack = set(), [len(nodes) - 1]
            while stack:
                k = stack.pop()
                keep.add(k)
                stack += nodes[k][2]
            order = sorted(keep)
            number = {k: i for i, k in enumerate(order)}
            nodes = [(nodes[k][0], nodes[k][1], [number[p] for p in nodes[k][2]], nodes[k][3]) for k in order]
            break
    for _ in range(faults):
        planted(m, schema, nodes)
    number = lambda k: ("0" if often and r.random() < .03 else "") + str(k)
    out = "yes\n" if r.random() < .3 else ""
    for i, (stated, rule, premises, args) in enumerate(nodes, 1):
        text = [rule.decode()] + [number(p + 1) for p in premises]
        if rule == b"given":
            text.append(number(args[0]))
        elif rule == b"augmentation":
            text += ["with", m.side(names, args[0])]
        elif rule == b"maugmentation":
            text += ["with", m.side(names, args[0]), ":", m.side(names, args[1])]
        out += f"{i}: {m.dep(names, stated)} : {' '.join(text)}\n"
    return nodes[-1][0], out.encode()


def implied_goal(m, schema):
    """A goal that is mostly implied: one that is given, a part of one, or what a set determines or multidetermines."""
    r = m.r
    names, columns, deps = schema
    n = len(names)
    s = model.Schema([name.encode() for name in names], columns, deps, list(range(len(deps))))
    what = r.random()
    if deps and what < .15:
        return r.choice(deps)
    if deps and what < .3:
        kind, x, y = r.choice(deps)
        return FD, x, y & r.randrange(1 << n)
    x = m.some(n, 3, 0 if r.random() < .1 else 1)
    if deps and r.random() < .6:
        x = r.choice(deps)[1] | m.some(n, 2)
    closed, blocks = model.basis(s, x)
    if r.random() < .3:
        some = sum_or(block for block in blocks if r.random() < .5)
        return MVD, x, some | (closed & r.randrange(1 << n))
    return FD, x, closed if r.random() < .3 else closed & r.randrange(1 << n)


def f_explain_implies(m):
    r = m.r
    low, high, count = r.choice(((1, 5, None), (2, 7, None), (3, 6, r.randint(2, 6)), (6, 9, r.randint(6, 12))))
    s = m.schema(low, high, count, mvd=r.choice((0, 0, 0, .2, .5, 1)))
    goal = m.dep(s[0], implied_goal(m, s)) if r.random() < .85 else m.goal(s[0])[1]
    if r.random() < .03:
        goal = os.fsdecode(m.mutated(goal.encode(), [p for p in PIECES if b"\0" not in p and b"\xff" not in p]))
    return ["explain", "implies", "s", goal], {"s": m.schema_text(s)}


def f_proof(m):
    s = m.schema(1, 5)
    d, text = certificate(m, s)
    if m.r.random() < .3:
        text = m.mutated(text, PIECES)
    goal = m.dep(s[0], d) if m.r.random() < .7 else m.goal(s[0])[1]
    return ["check", "proof", "s", "p", goal], {"s": m.schema_text(s), "p": text}


def f_derivation(m):
    s = m.schema(1, 5)
    faults = m.r.choice((0, 1, 1, 2, 4))
    d, text = certificate(m, s, model.FURTHER_RULES, True, faults) if m.r.random() < .9 else certificate(m, s)
    if m.r.random() < .15:
        text = m.mutated(text, PIECES + [b" union 1 2", b" difference 1 2", b" decomposition 1", b" pseudotransitivity "])
    goal = m.dep(s[0], d) if m.r.random() < .7 else m.goal(s[0])[1]
    return ["check", "derivation", "s", "d", goal], {"s": m.schema_text(s), "d": text}


def of_a_schema(m, command):
    return [command, "s"], {"s": m.schema_text(m.schema(1, 8))}


def f_cover(m):
    s = m.schema(1, 7, deps=m.r.randint(0, 12))
    return ["cover", "s"], {"s": m.schema_text(s)}


def f_cover_canonical(m):
    words, files = f_cover(m)
    return ["cover", "canonical", *words[1:]], files


def f_explain_cover(m):
    words, files = f_cover(m)
    return ["explain", *words], files


def f_explain_keys(m):
    words, files = f_wide_keys(m) if m.r.random() < .2 else of_a_schema(m, "keys")
    return ["explain", *words], files


def f_explain_synthesize(m):
    s = m.schema(1, 8, deps=m.r.randint(0, 12))
    return ["explain", "synthesize", "s"], {"s": m.schema_text(s)}


def alike(m):
    """A schema in which some left sides determine each other, one time in eight by way of many others."""
    r = m.r
    if r.random() < .125:
        # the scheme of the first left side holds those of the next ones, until it is merged with that of the last but one
        k = r.randint(1, 3)
        names = NAMES[:2 * k + 3] + (["X"] if r.random() < .3 else [])
        n = len(names)
        at = [1 << a for a in r.sample(range(n), n)]
        own, others, (via, far, last) = at[:k], at[k:2 * k], at[2 * k:2 * k + 3]
        deps = [(sum(own + others), via), (via, far), (sum(own) | far, last), (last, via)]
        deps += [(via | x, y) for x, y in zip(own, others)]
        r.shuffle(deps)
        return names, ["text"] * n, [(FD, x, y) for x, y in deps]
    names, columns, deps = m.schema(2, 8, deps=r.randint(0, 6), mvd=r.choice((0, 0, 0, .3)))
    for _ in range(r.choice((1, 1, 2))):
        sides = [m.some(len(names), r.choice((1, 2, 3)), 1) for _ in range(r.choice((2, 2, 3)))]
        for x, y in zip(sides, sides[1:] + sides[:1]):
            deps += [(FD, x, y)] if r.random() < .8 else [(FD, x, 1 << a) for a in members(y)]
    r.shuffle(deps)
    return names, columns, deps


def f_synthesize_fewest(m):
    s = alike(m) if m.r.random() < .8 else m.schema(1, 8, deps=m.r.randint(0, 12))
    return ["synthesize", "fewest", "s"], {"s": m.schema_text(s)}


def f_explain_fewest(m):
    words, files = f_synthesize_fewest(m)
    return ["explain", *words], files


def f_split(m):
    s = m.schema(1, 8)
    return ["split", m.r.choice(("bcnf", "4nf")), "s"], {"s": m.schema_text(s)}


def f_explain_split(m):
    words, files = (f_wide_split if m.r.random() < .2 else f_split)(m)
    return ["explain", *words], files


def wide(m, deps):
    """A schema of up to 40 attributes with few of them in left sides, or, one time in eight, with more than are tried."""
    r = m.r
    n = r.randint(19, 40)
    names = [f"a{i}" for i in range(1, n + 1)]
    core = r.sample(range(n), r.randint(2, 7))
    out = []
    for _ in range(deps):
        x = sum(1 << i for i in r.sample(core, r.randint(1, 2)))
        y = sum(1 << i for i in r.sample(range(n), r.randint(1, 9)))
        out.append((MVD if r.random() < .3 else FD, x, y))
    if n > 20 and r.random() < .125:
        x = sum(1 << i for i in r.sample(range(n), r.randint(18, n)))
        out.append((MVD if r.random() < .3 else FD, x, 1 << r.randrange(n)))
    return names, ["text"] * n, out


def f_wide_split(m):
    s = wide(m, m.r.randint(0, 5))
    return ["split", m.r.choice(("bcnf", "4nf", "wide-bcnf")), "s"], {"s": m.schema_text(s)}


def f_wide_form(m):
    s = wide(m, m.r.randint(0, 5))
    # (of 18 to 20 attributes in left sides the model tries all sets, for `form` of each form)
    is_slow = any(17 < bin(x).count("1") < 21 for _, x, _ in s[2])
    words = ["form"] if m.r.random() < .3 and not is_slow else ["check", "form", m.r.choice(model.TESTED_FORMS)]
    return [*words, "s", "p"], {"s": m.schema_text(s), "p": m.plan_text(s[0], m.plan(len(s[0]), 1, 3))}


def f_wide_keys(m):
    s = wide(m, m.r.randint(0, 5))
    return ["keys", "s"], {"s": m.schema_text(s)}


def f_wide_keys_plan(m):
    s = wide(m, m.r.randint(0, 5))
    return ["keys", "s", "p"], {"s": m.schema_text(s), "p": m.plan_text(s[0], m.plan(len(s[0]), 1, 3))}


def f_split_wide(m):
    s = m.schema(1, 9)
    return ["split", "wide-bcnf", "s"], {"s": m.schema_text(s)}


def f_ddl(m):
    s = m.schema(1, 7)
    return ["ddl", m.r.choice(model.FORMS), "s"], {"s": m.schema_text(s)}


def with_plan(m, words, low=1, high=6, mutate=.05):
    s = m.schema(low, high)
    plan = m.plan_text(s[0], m.plan(len(s[0])))
    if m.r.random() < mutate:
        plan = m.mutated(plan, PIECES)
    return words, {"s": m.schema_text(s), "p": plan}


def f_plan(m):
    return with_plan(m, ["check", "join", "s", "p"], mutate=1)


def f_join(m):
    return with_plan(m, ["check", "join", "s", "p"], 1, 6)


def f_form(m):
    return with_plan(m, ["check", "form", m.r.choice(model.TESTED_FORMS), "s", "p"], 1, 7)


def f_second_form(m):
    """A schema whose left sides are mostly parts of keys of several attributes, and a plan of one scheme or more."""
    r = m.r
    s = alike(m) if r.random() < .2 else m.schema(2, 7, deps=r.randint(1, 6), mvd=r.choice((0, 0, 0, .3)))
    plan = [(1 << len(s[0])) - 1] if r.random() < .5 else m.plan(len(s[0]))
    return ["check", "form", "2nf", "s", "p"], {"s": m.schema_text(s), "p": m.plan_text(s[0], plan)}


def f_which_form(m):
    if m.r.random() < .5:
        return with_plan(m, ["form", "s", "p"], 1, 7)
    words, files = f_second_form(m)
    return ["form", "s"] if m.r.random() < .7 else ["form", *words[3:]], files


def f_keys_plan(m):
    return with_plan(m, ["keys", "s", "p"], 1, 7)


def f_keeps(m):
    return with_plan(m, ["check", "keeps", "s", "p"], 1, 7)


def f_ddl_plan(m):
    return with_plan(m, ["ddl", "plan", "s", "p"])


def f_draw(m):
    if m.r.random() < .5:
        return with_plan(m, ["draw", "plan", "s", "p"])
    return ["draw", m.r.choice(model.FORMS), "s"], {"s": m.schema_text(m.schema(1, 6))}


def f_report(m):
    if m.r.random() < .4:
        return with_plan(m, ["report", "s", "p"])
    schema = m.schema_text(m.schema(1, 6))
    name = m.r.choice(("s", "s", 'a "<b>&amp;\'.schema', "s -> t"))
    if m.r.random() < .05:
        schema = m.mutated(schema, PIECES)
    return ["report", name], {name: schema}


def f_report_wide(m):
    names, columns, deps = wide(m, m.r.randint(0, 2))
    if deps and bin(deps[-1][1]).count("1") > 12:
        # the model would try all sets of so many, unless there are too many
        deps = deps[-1:] if bin(deps[-1][1]).count("1") > 20 else deps[:-1]
    return ["report", "s"], {"s": m.schema_text((names, columns, deps))}


def f_rows(m):
    s = m.schema(1, 5)
    return ["check", "rows", "s", "r"], {"s": m.schema_text(s), "r": m.csv(s[0], m.rows(s, m.r.choice((4, 8, 16))))}


def dirty(m, words, mvd=None):
    """Rows that break some rules, in values of few columns, with repeated rows and values of another type."""
    s = m.schema(1, 5, mvd=mvd)
    rows = m.rows(s, m.r.choice((3, 8, 16, 40)), m.r.choice((0, 0, .5)))
    rows += [m.r.choice(rows) for _ in range(m.r.choice((0, 0, 3)) if rows else 0)]
    return [*words, "s", "r"], {"s": m.schema_text(s), "r": m.csv(s[0], rows, noise=.03)}


def f_measure(m):
    return dirty(m, ["measure"])


def f_offences(m):
    return dirty(m, ["offences"])


def f_offences_rows(m):
    return dirty(m, ["offences", "rows"])


def f_kept(m):
    return dirty(m, ["kept"], 0 if m.r.random() < .9 else None)


def f_csv(m):
    s = m.schema(1, 3, deps=0)
    return ["migrate", "3nf", "s", "r"], {"s": m.schema_text(s), "r": m.csv(s[0], m.rows(s, 4), noise=1)}


def f_migrate(m):
    s = m.schema(1, 5)
    files = {"s": m.schema_text(s), "r": m.csv(s[0], m.rows(s), noise=.02)}
    into = ["into", m.r.choice(("out", "out", "out", "s"))] if m.r.random() < .2 else []
    if m.r.random() < .4:
        files["p"] = m.plan_text(s[0], m.plan(len(s[0])))
        return ["migrate", "plan", "s", "p", "r", *into], files
    return ["migrate", m.r.choice(model.FORMS), "s", "r", *into], files


def f_sample(m):
    return ["sample", m.r.choice(("1", "2", "3", "10", "0003", "00001", "000001", "0", "25001", "99", "x", "-1", "+2", "", "1 "))], {}


def f_exhibit(m):
    s = m.schema(1, 7, mvd=0 if m.r.random() < .9 else .2) if m.r.random() < .7 else m.wide_schema(.05)
    return ["exhibit", "s"], {"s": m.schema_text(s)}


def f_discover(m):
    n = m.r.randint(1, 6) if m.r.random() < .8 else m.r.randint(12, 16)
    s = (NAMES[:n], ["text"] * n, [])
    names = list(s[0])
    if m.r.random() < .1:
        names[m.r.randrange(n)] = m.r.choice(("scheme", "a", "1x", "", "Version", "x" * 32, "b_", "integer", "x" * 64, "Unit price", 'a"b', "\x7f", "\ufeffa", "a\ufeff"))
    rows = m.rows(s, m.r.choice((2, 4, 8, 12)), 0)
    words = m.r.choice((["discover"], ["discover"], ["discover", "keys"], ["discover", str(m.r.randint(0, 5))], ["discover", m.r.choice(("02", "00", "16", "64", "65", "007"))]))
    if n <= 6 and m.r.random() < .3:
        words = ["discover", "near", str(m.r.choice((0, 1, 1, 2, 3, "01", 12345678))), str(m.r.choice((1, 2, 3, 6, 0)))]
    return words + ["r"], {"r": m.csv(names, rows, noise=.1)}


def f_discover_all(m):
    r = m.r
    n = r.randint(1, 5) if r.random() < .97 else r.randint(10, 11)
    names = list(NAMES[:n])
    if r.random() < .05:
        names[r.randrange(n)] = r.choice(("scheme", "Unit price", "1x"))
    values = [b"0", b"1"] if r.random() < .7 else [b"0", b"1", b"2"]
    rows = [[r.choice(values) for _ in names] for _ in range(r.randint(0, 8))] if n <= 5 else []
    for _ in range(r.choice((0, 1, 1, 2))):
        # rows that mix two others that agree on a set, so that multivalued dependencies are obeyed
        left, right = r.randrange(1 << n), r.randrange(1 << n)
        rows += [[t[a] if (left | right) >> a & 1 else u[a] for a in range(n)] for t in rows for u in rows
                 if all(t[a] == u[a] for a in range(n) if left >> a & 1)]
        rows = [list(t) for t in dict.fromkeys(map(tuple, rows))][:40]
    r.shuffle(rows)
    return ["discover", "all", "r"], {"r": m.csv(names, rows, noise=.05)}


# for each type values on both sides of its edge
EDGES = [b"0", b"-0", b"7", b"-7", b"07", b"9223372036854775807", b"9223372036854775808", b"-9223372036854775808", b"-9223372036854775809",
         b"+1", b"1.5", b"-1.5", b"1.50", b"0.00", b"-0.00", b"-0.01", b"00.10", b".50", b"1.", b"999999999999999", b"1234567890123.45",
         b"12345678901234.56", b"999999.123456789", b"9999999.123456789", b"1.1234567890", b"2024-02-29", b"2023-02-29", b"2024-02-30",
         b"1900-02-29", b"2000-02-29", b"0000-01-01", b"0001-01-01", b"9999-12-31", b"2024-13-01", b"2024-04-31", b"2024-1-1",
         b"2024-02-29 23:59:59", b"2024-02-29 24:00:00", b"2024-02-29 23:59:60", b"2024-02-29 00:00:00.5", b"2024-02-29 00:00:00.50",
         b"2024-02-29 00:00:00.123456", b"2024-02-29 00:00:00.1234567", b"2024-02-29 00:00:00.", b"2024-02-29T00:00:00",
         b"00000000-0000-0000-0000-00000000000a", b"00000000-0000-0000-0000-00000000000A", b"0000000-00000-0000-0000-00000000000a",
         b"a", b" 1", b"1 ", b"\xff"]
LIKE = [[b"0", b"7", b"-7", b"12"], [b"1.50", b"-0.01", b"0.00"], [b"1.5", b"-2.0"], [b"2024-02-29", b"0001-01-01"],
        [b"2024-02-29 00:00:00", b"2024-02-29 00:00:00.5"], [b"00000000-0000-0000-0000-00000000000a"], [b"a", b"b c"]]


def f_import_csv(m):
    r = m.r
    n = r.randint(1, 6) if r.random() < .95 else r.randint(126, 130)
    names = r.sample(r.choice((NAMES, STRANGE)), n) if n <= 6 else [f"a{i}" for i in range(n)]
    if r.random() < .1:
        names[r.randrange(n)] = r.choice(("scheme", "a", "1x", "", "Version", "x" * 64, "Unit price", "\x7f", "\ufeffa", names[0]))
    columns = [r.choice(LIKE) for _ in names]
    odd = r.choice((0, 0, .05, .3))
    rows = [[b"" if r.random() < .08 else r.choice(EDGES) if r.random() < odd else r.choice(c) for c in columns] for _ in range(r.randint(0, 6))]
    return ["import", "csv", "r"], {"r": m.csv(names, rows, noise=.15)}


# ---- SQL that defines tables

SQL_NAMES = ["a", "b", "c", "d", "e", "Id", "city", "Select", "key", "primary", "Unit price", 'say "hi"', "n\u00e9e", "like", "exclude", "it's", "text", "x" * 63, "a\ufeff"]
SQL_TYPES = ["INTEGER", "int", "bigint", "Int8", "smallint", "TEXT", "text", "", "date", "uuid", "timestamp", "timestamp without time zone",
             "timestamp with time zone", "timestamp(3)", "numeric", "numeric(10,2)", "decimal(15)", "DECIMAL (15, 9)", "numeric(16,2)", "numeric(5,10)",
             "numeric(010,2)", "numeric(-1)", "serial", "BIGSERIAL", "varchar(80)", "character varying(20)", "double precision", "s.mood", "int[]",
             "int[][3]", "int[3]", "int(11)", "integer(4)", "\"Mood\"", "enum('a','b')", "INT UNSIGNED", "real", "x" * 64, "text[]", "json", "a$b", "tinyint"]
SQL_AFTER = ["NOT NULL", "not null", "NULL", "PRIMARY KEY", "primary key AUTOINCREMENT", "UNIQUE", "DEFAULT 1", "DEFAULT 'it''s; a'", "default (now())",
             "CHECK (a IS NOT NULL)", "COLLATE NOCASE", "collate \"C\"", "REFERENCES t2 (a)", "CONSTRAINT n1 NOT NULL", "CONSTRAINT \"u x\" UNIQUE",
             "GENERATED ALWAYS AS (1 + (2))", "NOT /* c */ NULL", "DEFAULT ARRAY[1, 2]", "DEFAULT (ARRAY['a', b[1]])[1]", "unique nulls not distinct", "UNIQUE NULLS DISTINCT",
             "NOT /* a /* b */ c */ NULL", "DEFAULT 1]", "UNIQUE ON CONFLICT IGNORE", "NOT DEFERRABLE NULL", "AS (a)", "DEFAULT NULL"]
SQL_CONSTRAINTS = ["PRIMARY KEY ({0})", "UNIQUE ({0})", "CONSTRAINT k1 UNIQUE ({0})", "CONSTRAINT \"k 2\" PRIMARY KEY ({0})", "unique nulls not distinct ({0})",
                   "UNIQUE NULLS DISTINCT ({0})", "FOREIGN KEY ({0}) REFERENCES t2 ({0})", "CHECK (({1} > 0) AND ({1} IS NOT NULL))", "EXCLUDE USING gist ({1} WITH &&)",
                   "CONSTRAINT c3 CHECK ({1} <> 'UNIQUE (x)')", "UNIQUE ({0}) ON CONFLICT REPLACE", "PRIMARY KEY ({0} DESC)", "UNIQUE ({0} COLLATE NOCASE ASC)", "EXCLUDE ({1} WITH =)",
                   "UNIQUE ({0} COLLATE pg_catalog.\"C\" text_ops DESC NULLS LAST)", "UNIQUE ({0} + 1)", "PRIMARY KEY ({0} AUTOINCREMENT)", "UNIQUE ({1} COLLATE, {0})",
                   "UNIQUE NULLS ({0})", "UNIQUE NULLS NOT ({0})"]
SQL_LATER = ["ALTER TABLE {t} ADD CONSTRAINT x1 PRIMARY KEY ({0});", "alter table only {t} add unique ({0});", "ALTER TABLE IF EXISTS {t} ADD UNIQUE ({0}) DEFERRABLE;",
             "ALTER TABLE {t} ADD CONSTRAINT x2 UNIQUE USING INDEX i2;", "ALTER TABLE {t} OWNER TO postgres;",
             "CREATE UNIQUE INDEX i1 ON {t} ({0});", "CREATE UNIQUE INDEX i2 ON ONLY {t} USING btree ({0});", "create unique index if not exists i3 on {t} ({0} DESC);",
             "CREATE UNIQUE INDEX i4 ON {t} ({0}) WHERE {1} IS NOT NULL;", "CREATE UNIQUE INDEX i5 ON {t} (lower({1}));", "CREATE UNIQUE INDEX i6 ON {t} ({1}, (1));",
             "CREATE INDEX i7 ON {t} ({0});", "CREATE UNIQUE INDEX i8 ON t2 ({0});", "ALTER TABLE t2 ADD UNIQUE ({0});", "CREATE UNIQUE INDEX i9 ON {t} ({0}) INCLUDE ({1});",
             "COMMENT ON TABLE {t} IS 'CREATE TABLE t (x);';", "INSERT INTO {t} VALUES(1,'PRIMARY KEY (a));');", "SELECT pg_catalog.set_config('search_path', '', false);",
             "ALTER TABLE ONLY {t} ALTER COLUMN {1} SET DEFAULT nextval('s'::regclass);", "CREATE UNIQUE INDEX i10 ON {t} ({0}) NULLS NOT DISTINCT;",
             "CREATE UNIQUE INDEX i11 ON {t} USING btree ({0}) INCLUDE ({1}) NULLS NOT DISTINCT WITH (fillfactor=70);", "CREATE UNIQUE INDEX i12 ON {t} ({1} || 'x');",
             "CREATE UNIQUE INDEX i13 ON {t} ({1} text_ops, {0} ASC NULLS FIRST);", "ALTER TABLE t2 DROP COLUMN {1};", "ALTER TABLE t2 ADD z int;",
             "ALTER TABLE {t} ADD EXCLUDE USING gist ({1} WITH =);", "ALTER TABLE {t} ADD CHECK ({1} > 0);", "ALTER TABLE ONLY {t} ADD UNIQUE NULLS NOT DISTINCT ({0});"]
SQL_ALTERED = ["ALTER TABLE {t} ADD COLUMN z int UNIQUE;", "ALTER TABLE {t} ADD exclude boolean;", "ALTER TABLE ONLY {t} DROP COLUMN {1};", "alter table {t} rename {1} to zz;"]
SQL_NOISE = ["CREATE TABLE t2 (a int PRIMARY KEY, b text UNIQUE);", "-- CREATE TABLE t (a);\n", "/* ; ' */", "BEGIN TRANSACTION;", "PRAGMA foreign_keys=OFF;", ";",
             "SET client_encoding = 'UTF8';", "CREATE VIEW v AS SELECT 1;", "CREATE TRIGGER r AFTER INSERT ON t BEGIN SELECT ')'; END;", ") ; (a;b)", "CREATE TYPE mood AS ENUM ('a');",
             "COPY public.t2 (a, b) FROM stdin;\n1\tCREATE TABLE t (x int);\n'\t(\n\\.\n", "\\restrict x'\n", "SELECT $$ ' ; $$;", "SELECT $a$ $$ ; $a$, E'\\';';", "SELECT E'it''s';",
             "CREATE TABLE other.u (LIKE t2);", "COPY t2 FROM 'f';", "CREATE FUNCTION f() RETURNS int AS $_$ BEGIN; CREATE TABLE t (q); END $_$ LANGUAGE sql;", "DELETE FROM sqlite_sequence;"]


class SqlMaker:
    def __init__(self, m):
        self.r = m.r

    def name(self, name, quoted=None):
        """A name as it may be written."""
        r = self.r
        word = name.isidentifier() and name.isascii()
        if word and not quoted and r.random() < .7:
            return name if r.random() < .8 else name.swapcase()
        if self.sqlite and "]" not in name and r.random() < .2:
            return f"[{name}]"
        if self.sqlite and r.random() < .15:
            return "'" + name.replace("'", "''") + "'"
        quote = "`" if self.sqlite and r.random() < .2 else '"'
        return quote + name.replace(quote, quote * 2) + quote

    def names(self, names):
        """A list of some of the names, now and then with one that is none of them."""
        r = self.r
        some = r.sample(names, r.randint(1, min(3, len(names))))
        if r.random() < .04:
            some.append(r.choice(("zz", "", some[0])))
        return r.choice((", ", ",", " , ")).join(map(self.name, some))

    def table(self, table):
        r = self.r
        names = r.sample(SQL_NAMES, r.randint(1, 5))
        if r.random() < .03:
            names.append(r.choice((names[0].upper(), "", "x" * 64)))
        elements = [" ".join([self.name(n, n.lower() in ("primary", "key") or n == "like" and not self.sqlite), r.choice(SQL_TYPES),
                              *r.choices(SQL_AFTER, k=r.choice((0, 0, 1, 1, 2, 3)))]) for n in names]
        for _ in range(r.choice((0, 0, 1, 1, 2))):
            elements.append(r.choice(SQL_CONSTRAINTS).format(self.names(names), self.name(names[0])))
        if r.random() < .02:
            elements.append(r.choice(("LIKE t2", "", "UNIQUE", "PRIMARY (a)", "UNIQUE (", "CONSTRAINT", "UNIQUE a")))
        tail = r.choice(("", "", "", " WITHOUT ROWID", " STRICT", " strict, without rowid", " WITH (fillfactor=70)", " INHERITS (p)"))
        head = r.choice(("CREATE TABLE ", "CREATE TABLE ", "create table if not exists ", "CREATE TEMP TABLE ", "CREATE UNLOGGED TABLE "))
        return names, head + table + r.choice((" (", "(\n    ")) + r.choice((", ", ",\n    ", ",")).join(elements) + ")" + tail + ";"

    def text(self, table):
        r = self.r
        names, created = self.table(table)
        later = [r.choice(SQL_LATER).format(self.names(names), self.name(names[0]), t=table) for _ in range(r.choice((0, 1, 1, 2, 4)))]
        if r.random() < .03:
            later.append(r.choice(SQL_ALTERED).format(self.names(names), self.name(names[0]), t=table))
        statements = [created, *later] + r.choices(SQL_NOISE, k=r.choice((0, 1, 2, 4)))
        if r.random() < .02:
            statements.append(created)
        if r.random() < .3:
            r.shuffle(statements)
        text = r.choice((" ", "\n", "\r\n", "\n\n")).join(statements)
        if not self.sqlite:
            text = "\n".join(text.split("\n"))
        data = text.encode()
        if r.random() < .12:
            k = r.randrange(len(data) + 1)
            data = data[:k] + r.choice((b"", b"'", b'"', b"(", b")", b",", b"\x01", b"/*", b"--", b"$", b"\\", b"[", b"\xff", b";")) + data[k + r.choice((0, 1)):]
        return (b"\xef\xbb\xbf" if r.random() < .05 else b"") + data


def f_import_sql(m):
    r = m.r
    sql = SqlMaker(m)
    sql.sqlite = r.random() < .5
    table = r.choice(("t", "t", "public.t", "Main.T", '"t"', "a.b.t", '"Order Lines"'))
    plain = table.replace('"', "")
    quoted = ".".join('"' + part + '"' for part in plain.split("."))
    word = (r.choice((plain, plain, plain.upper(), plain.split(".")[-1], plain.split(".")[-1], quoted, table)) if r.random() < .95
            else r.choice(("u", "", ".t", "a..t", "t.", "a.b.c.t", "t2", "b.t", '"a.b".t', '"t', '""', '"t"x', '"T".')))
    return ["import", "sqlite" if sql.sqlite else "postgres", "f", word], {"f": sql.text(table)}


def f_import_ddl(m):
    """What `ddl` prints of a schema, read again."""
    s = m.schema(1, 6, mvd=0)
    files = {"s": m.schema_text(s)}
    printed = model.run(["ddl", m.r.choice(("3nf", "bcnf", "4nf")), "s"], files)
    return ["import", m.r.choice(("sqlite", "postgres", "postgres")), "f", m.r.choice(("t1", "t1", "t2", "T3"))], {"f": printed.text}


def f_rejoin(m):
    r = m.r
    s = m.schema(1, 5)
    n = len(s[0])
    rows = m.rows(s)
    files, words = {"s": m.schema_text(s)}, ["rejoin", "s"]
    for k, x in enumerate(m.plan(n, .9, 3), 1):
        part = [tuple(row[a] for a in members(x)) for row in rows if r.random() < .95]
        files[f"f{k}"] = m.csv(s[0], part, x, .05)
        words.append(f"f{k}")
    return words, files


def f_rejoin_many(m):
    """In one of five, files of which two share no column and have too many rows together, so that the order changes."""
    r = m.r
    if r.random() < .8:
        return f_rejoin(m)
    names = ["A", "B", "C", "D"][:r.choice((2, 3, 3, 4))]
    cut = r.randint(1, len(names) - 1)
    counts = r.choice(((3163, 3163), (3163, 3163), (3170, 3200), (2, 3163), (3163, 1)))
    sides, parts = (names[:cut], names[cut:]), []
    for side, count in zip(sides, counts):
        parts.append((side, [[str(i * 7 % count + k) for k in range(len(side))] for i in range(count)]))
    for _ in range(r.choice((0, 1, 1, 2))):
        some = [name for name in names if r.random() < .6] or names[:1]
        parts.append((some, [[str(r.randint(0, 4)) for _ in some] for _ in range(r.choice((0, 1, 3, 3163)))]))
    r.shuffle(parts)
    files, words = {"s": f"attributes {' '.join(names)}\n".encode()}, ["rejoin", "s"]
    for k, (side, rows) in enumerate(parts, 1):
        files[f"f{k}"] = "".join(",".join(row) + "\n" for row in [side, *rows]).encode()
        words.append(f"f{k}")
    return words, files


# ---- references that may be missing

GOOD_VALUES = {"integer": [b"0", b"1", b"7"], "date": [b"2024-02-29", b"1999-12-31", b"0001-01-01"],
               "timestamp": [b"2024-02-29 00:00:00", b"2024-02-29 12:30:00.5", b"1999-12-31 23:59:59"],
               "uuid": [b"00000000-0000-0000-0000-000000000001", b"00000000-0000-0000-0000-000000000002"],
               "decimal 0": [b"0", b"1", b"-1"], "decimal 2": [b"0.00", b"1.50", b"-12.25"]}


class LookedUp:
    """A schema with tables that are looked up, most of them by what may be missing: `tables` has the key of each and what
    it has beside that; `cells` rows over all attributes, in which None is missing. Mostly the design of the tables is readable,
    the rows are legal, and nothing stands beside a missing key."""

    def __init__(self, m, strange=.08, tidy=.8):
        self.m, r = m, m.r
        self.strange, self.tidy = strange, r.random() < tidy
        counter, nullable = [0], set()

        def new(count):
            counter[0] += count
            return list(range(counter[0] - count, counter[0]))

        self.tables = [(new(r.choice((1, 1, 2))), new(r.randint(1, 3)))]
        for _ in range(r.choice((1, 1, 2, 3))):
            home_key, outside = r.choice(self.tables)
            if not outside:
                continue
            own = r.sample(outside, min(len(outside), r.choice((1, 1, 2))))
            key = own + (r.sample(home_key, 1) if r.random() < .15 else [])
            beside = new(r.choice((0, 1, 1, 2)))
            if r.random() < .85:
                nullable |= {*r.sample(own, r.randint(1, len(own))), *beside}
            self.tables.append((key, beside))
        n = counter[0]
        if r.random() < strange:
            nullable ^= {r.randrange(n)}
        place = r.sample(range(n), n)
        self.tables = [([place[a] for a in key], [place[a] for a in beside]) for key, beside in self.tables]
        m.nullable, m.any_names = sum(1 << place[a] for a in nullable), True
        self.columns = [r.choice(list(GOOD_VALUES)) if r.random() < .3 else "text" for _ in range(n)]
        self.names = r.sample(STRANGE, n) if r.random() < .3 else r.sample(NAMES, n)
        deps = [(FD, of(key), of(beside)) for key, beside in self.tables if beside]
        r.shuffle(deps)
        if r.random() < strange:
            deps.append((r.choice((FD, MVD)), m.some(n, 2, 1), m.some(n, 2, 1)))
        self.schema = self.names, self.columns, deps
        self.text = m.schema_text(self.schema)
        self.schemes = [of(key) | of(beside) for key, beside in self.tables]
        if r.random() < strange:
            self.schemes[r.randrange(len(self.schemes))] |= 1 << r.randrange(n)
        r.shuffle(self.schemes)
        self.cells = self.rows()

    def value(self, a):
        """A value of an attribute, or None where it may be missing."""
        r = self.m.r
        if self.m.nullable >> a & 1 and r.random() < .35:
            return None
        if self.columns[a] == "text":
            return r.choice((b"x", b"y", b"z", b"O'Hara", b"" if not self.m.nullable >> a & 1 and r.random() < .3 else b"x"))
        return r.choice(GOOD_VALUES[self.columns[a]])

    def rows(self):
        """Rows that obey each table's key, unless one value is changed."""
        r, n = self.m.r, len(self.names)
        known, made = [{} for _ in self.tables], []
        for _ in range(r.choice((0, 1, 3, 6, 6, 12))):
            row = [None] * n
            for (key, beside), found, is_main in zip(self.tables, known, [True] + [False] * n):
                if is_main:
                    for a in key:
                        row[a] = self.value(a)
                of_key = tuple(row[a] for a in key)
                if of_key not in found:
                    is_told = None in of_key and self.tidy and r.random() < .97
                    found[of_key] = [None if is_told and self.m.nullable >> a & 1 else self.value(a) for a in beside]
                for a, value in zip(beside, found[of_key]):
                    row[a] = value
            made.append(row)
        if made and r.random() < self.strange:
            a = r.randrange(n)
            r.choice(made)[a] = self.value(a)
        return [tuple(row) for row in made]

    def plan(self):
        return self.m.plan_text(self.names, self.schemes)

    def plan_of_schemes(self):
        """The plan without names of tables."""
        return "".join(f"scheme {self.m.side(self.names, x)}\n" for x in self.schemes).encode()

    def csv(self, rows=None, scheme=None):
        """The rows, or those of a table, as a CSV file."""
        body = [tuple(b"" if value is None else value for value in row) for row in (self.cells if rows is None else rows)]
        return self.m.csv(self.names, body, scheme, self.strange / 4)


def of(places):
    return sum_or(1 << a for a in places)


def by_form_or_plan(m, command, made, *rest):
    """The words of a command over the tables of a form, or over those of a plan, and its files."""
    if m.r.random() < .5:
        return [*command, "plan", "s", "p", *rest], {"s": made.text, "p": made.plan()}
    return [*command, m.r.choice(model.FORMS), "s", *rest], {"s": made.text}


def f_optional_tables(m):
    made, what = LookedUp(m), m.r.random()
    if what < .1:
        return ["report", "s"], {"s": made.text}
    command = ["ddl"] if what < .5 else ["draw"] if what < .6 else ["sql", "migrate"]
    return by_form_or_plan(m, command, made, *["main.orders"] * (len(command) - 1))


def f_optional(m):
    made = LookedUp(m)
    into = ["into", "out"] if m.r.random() < .25 else []
    words, files = by_form_or_plan(m, ["migrate"], made, "r", *into)
    return words, {**files, "r": made.csv()}


def f_optional_rejoin(m):
    """The files of a design, mostly without the rows that miss a value of the key; some rows are left out or changed."""
    r = m.r
    made = LookedUp(m)
    schema = model.read_schema(made.text, b"s")
    files, words = {"s": made.text}, ["rejoin", "s"]
    for k, x in enumerate(made.schemes, 1):
        key = model.one_key(schema, x) if r.random() < .8 else 0
        rows = [row for row in made.cells if r.random() < .9 and None not in [row[a] for a in members(key)]]
        part = [[row[a] for a in members(x)] for row in rows]
        if part and r.random() < .3:
            row, a = list(r.choice(part)), r.randrange(len(members(x)))
            row[a] = made.value(members(x)[a])
            part.append(row)
        files[f"f{k}"] = made.csv(part, x)
        words.append(f"f{k}")
    return words, files


def f_basis(m):
    s = m.schema(1, 7)
    side = m.side(s[0], m.some(len(s[0]), 3, 0))
    if m.r.random() < .2:
        side = os.fsdecode(m.mutated(side.encode(), [p for p in PIECES if b"\0" not in p and b"\xff" not in p]))
    return ["basis", "s", side], {"s": m.schema_text(s)}


def f_closure(m):
    words, files = f_basis(m)
    return ["closure", *words[1:]], files


def f_project(m):
    s = m.schema(1, 8, deps=m.r.randint(0, 10)) if m.r.random() < .8 else m.wide_schema(.3)
    side = m.side(s[0], m.some(len(s[0]), m.r.choice((3, 6, 30)), 0))
    if m.r.random() < .1:
        side = os.fsdecode(m.mutated(side.encode(), [p for p in PIECES if b"\0" not in p and b"\xff" not in p]))
    return ["project", "s", side], {"s": m.schema_text(s)}


def f_key(m):
    words, files = f_basis(m)
    return ["check", "key", *words[1:]], files


def f_same(m):
    r = m.r
    names, columns, deps = m.schema(1, 5)
    order = list(range(len(names)))
    r.shuffle(order)
    carry = lambda x: sum(1 << order.index(a) for a in members(x))
    others = [(k, carry(x), carry(y)) for k, x, y in deps]
    r.shuffle(others)
    if others and r.random() < .4:
        others.pop()
    if others and r.random() < .4:
        k, x, y = others[0]
        others[0] = (k, x, y & ~x or y)
        for a in members(y)[1:]:
            others.append((k, x, 1 << a))
    cased = [m.cased(names[a]) for a in order]
    if r.random() < .08:
        cased[0] = "OTHER"
    if r.random() < .08:
        cased.append("MORE")
        columns = columns + ["text"]
    return ["check", "same", "s", "o"], {"s": m.schema_text((names, columns[:len(names)], deps)),
                                         "o": m.schema_text((cased, ["text"] * len(cased), others))}


def f_check_cover(m):
    """A schema beside what is said of it by a cover, which may be spoilt."""
    r = m.r
    s = m.schema(1, 5)
    text = m.schema_text(s)
    words, files = f_same(m)
    if r.random() < .5:
        cover = model.run(["cover", "s"], {"s": text}).text
        lines = cover.split(b"\n")
        if r.random() < .5 and len(lines) > 3:
            lines.insert(r.randrange(2, len(lines)), lines[r.randrange(1, len(lines) - 1)])
        files = {"s": text, "o": b"\n".join(lines)}
    return ["check", "cover", "s", "o"], files


def f_check_cover_canonical(m):
    """A schema beside a canonical cover of it, in which lines may be parted, put together, widened or doubled."""
    r = m.r
    words, files = f_check_cover(m)
    if r.random() < .8:
        s = m.schema(1, 5, deps=m.r.randint(0, 8), mvd=r.choice((0, 0, .3)))
        text = m.schema_text(s)
        read = model.read_schema(text, b"s")
        deps = model.canonical_cover(read)
        for _ in range(r.choice((0, 0, 1, 1, 2)) if deps else 0):
            k = r.randrange(len(deps))
            kind, x, y = deps[k]
            what = r.random()
            if what < .3 and y & (y - 1):
                # (its right side in two lines, of which they may have a part in common)
                part = y & r.randrange(1 << read.n)
                deps[k:k + 1] = [(kind, x, part), (kind, x, y & ~part | y & r.randrange(1 << read.n))]
            elif what < .5 and kind == FD:
                deps[k] = (FD, x, model.closed(read, x) & (y | r.randrange(1 << read.n)))
            elif what < .7 and kind == FD:
                deps[k] = (FD, x | m.some(read.n, 1, 1), y)
            elif what < .8:
                deps.insert(r.randint(0, len(deps)), (kind, x, 0))
            else:
                deps.insert(r.randint(0, len(deps)), deps[k])
        files = {"s": text, "o": read.head() + b"".join(read.dep(d) + b"\n" for d in deps)}
    return ["check", "cover", "canonical", "s", "o"], files


TABLES = ["t", "orders", "public.addresses", "a.b.c", "a.b.c.d", "joined", "main.Joined", "x.T12", "t1x", "joined.t", "_x", "1x", "a..b",
          "", ".", "a b", 'a"b', "a;b", "t_1", "T", "x" * 63, "x" * 64, "é", "t0", "a.t", "select",
          '"a b"', 'main."two words"', '"a.b".c', '"a""b"', '"t0"', 'x."Joined"', '"joined".t', '"a"b', '"a', '""', '"é"."1".x', '"a"."b"."c"."d"',
          '"' + "x" * 63 + '"', '"' + "x" * 64 + '"', '"a"."', '"a".', 'a."b"', '"\x01"', '"\ufeffa"', '"a\ufeff"', '"""', '""""', '"a".."b"']


def f_sql(m):
    r = m.r
    table = r.choice(TABLES) if r.random() < .5 else "main.orders"
    what = r.random()
    if what < .5:
        return ["sql", "check", "s", table], {"s": m.schema_text(m.schema(1, 5))}
    if what < .75:
        return ["sql", "migrate", r.choice(model.FORMS), "s", table], {"s": m.schema_text(m.schema(1, 6))}
    words, files = with_plan(m, ["sql", "migrate", "plan", "s", "p", table])
    return words, files


def f_sql_measure(m):
    r = m.r
    table = r.choice(TABLES) if r.random() < .3 else "main.orders"
    return ["sql", "measure", "s", table], {"s": m.schema_text(m.schema(1, 5))}


# ---- folders of files, between which there may be references

SHARED = ["ID", "No", "Name", "Customer", "Order", "Line", "Unit price", "n\u00e9e", 'say "hi"', "scheme", "text", "a,b", "x" * 31, "x" * 32, "1st"]
FILES = ["a.csv", "b.csv", "c.csv", "orders of may.csv", "keys", "near", "\u00e9", "references"]


def column_like(r, rows, c, count):
    """So many values of a column, some of them missing or others."""
    strange = r.choice((0, 0, 0, .1))
    return [r.choice((b"", b"9", b"z")) if r.random() < strange else r.choice(rows)[c] for _ in range(count)]


def folder(m):
    """Files of small tables by their names, with columns whose values, or some together, are those of another."""
    r = m.r
    made, files = [], {}
    for name in r.sample(FILES, r.choice((1, 2, 2, 2, 3, 3, 4))):
        names = r.sample(SHARED[:r.choice((5, 7, 15))], r.randint(1, 5))
        values = [b"%d" % k for k in range(r.choice((2, 2, 3, 9)))]
        missing = r.choice((0, 0, 0, .05, .3))
        count = r.choice((0, 1, 2, 3, 4, 6, 9))
        columns = [[b"" if r.random() < missing else r.choice(values) for _ in range(count)] for _ in names]
        if r.random() < .4:
            columns[0] = [b"%d" % k for k in range(count)]
        if made and r.random() < .8:
            other_names, other_rows = r.choice(made)
            drawn = [r.choice(other_rows) for _ in range(count)] if other_rows else []
            for c, own in enumerate(names):
                if other_rows and own in other_names and r.random() < .9:
                    # the values that stand together there, so that several columns may reference several
                    columns[c] = [row[other_names.index(own)] for row in drawn]
                elif other_rows and r.random() < .4:
                    columns[c] = column_like(r, other_rows, r.randrange(len(other_names)), count)
        rows = list(zip(*columns))
        rows += [r.choice(rows) for _ in range(r.choice((0, 0, 2)) if rows else 0)]
        if r.random() < .05:
            rows = [tuple(m.value() if r.random() < .3 else v for v in row) for row in rows]
        made.append((names, rows))
        files[name] = m.csv(names, rows, noise=.03)
    return made, files


def f_references(m):
    r = m.r
    made, files = folder(m)
    words = list(files)
    if r.random() < .1:
        words.append(r.choice(words + ["missing"]))
    r.shuffle(words)
    return ["discover", "references", *words], files


def names_of_columns(m, names, count):
    """A word that names so many columns, or is spoilt."""
    r = m.r
    maker = Maker(r)
    maker.any_names = True
    some = r.sample(names, min(count, len(names)))
    if r.random() < .1:
        some.insert(r.randint(0, len(some)), r.choice((*names, "Q", "other")))
    word = r.choice((" ", " ", ", ", "\t")).join(map(maker.spelled, some))
    if r.random() < .12:
        word = os.fsdecode(m.mutated(word.encode(), [p for p in PIECES if b"\0" not in p and b"\xff" not in p]))
    return word


def f_check_references(m):
    r = m.r
    made, files = folder(m)
    words = list(files)
    i, j = r.randrange(len(words)), r.randrange(len(words))
    (names, _), (other_names, _) = made[i], made[j]
    shared = [name for name in names if name in other_names]
    if shared and r.random() < .5:
        some = r.sample(shared, r.randint(1, min(3, len(shared))))
        first = second = " ".join(m.spelled(name) if model.is_name(name.encode()) and name != "scheme" else '"' + name.replace('"', '""') + '"' for name in some)
    elif r.random() < .03:
        many = " ".join('"' + name.replace('"', '""') + '"' for name in names)
        first, second = f"{many} {many} {many}", names_of_columns(m, other_names, 2)
    else:
        count = r.choice((1, 1, 1, 2, 2, 3))
        first = names_of_columns(m, names, count)
        second = names_of_columns(m, other_names, count if r.random() < .9 else r.randint(1, 3))
    file = words[i] if r.random() < .97 else "missing"
    return ["check", "references", file, first, words[j], second], files


def f_check_many_columns(m):
    """References of up to ten columns, of which eight are taken."""
    r = m.r
    n = r.randint(6, 11)
    names = [f"C{k}" for k in range(n)]
    rows = [tuple(r.choice((b"1", b"2", b"2", b"2")) for _ in names) for _ in range(r.randint(0, 6))]
    count = r.choice((6, 7, 8, 8, 8, 9, 9))
    first, second = (" ".join(r.sample(names, min(count, n)) + r.choice(([], [], ["Q"]))) for _ in range(2))
    if r.random() < .6:
        second = first
    others = [r.choice(rows) for _ in range(3)] if rows else []
    return ["check", "references", "a", first, "b", second], {"a": m.csv(names, rows, noise=0), "b": m.csv(names, others + rows[1:], noise=0)}


ALL_WORDS = ["implies", "keys", "cover", "synthesize", "fewest", "split", "bcnf", "4nf", "3nf", "2nf", "wide-bcnf", "ddl", "plan", "check", "proof", "join", "form",
             "report", "rows", "same", "keeps", "migrate", "sample", "exhibit", "discover", "import", "csv", "sqlite", "postgres", "rejoin", "basis", "closure", "project", "key", "explain", "sql", "draw", "measure", "offences", "kept", "into", "help", "--help", "-h", "--version", "canonical", "derivation",
             "s", "p", "r", "A -> B", "1", "missing", "", "Keys", "table", "references", "A"]
ALL_WORDS += [command for command in model.OF_A_SCHEMA if command not in ALL_WORDS]


def f_words(m):
    words = [m.r.choice(ALL_WORDS) for _ in range(m.r.randint(0, 5))]
    files = {"s": b"attributes A B\nA -> B\n", "p": b"scheme A B\n", "r": b"A,B\n1,2\n"}
    if m.r.random() < .2:
        # a schema that is named like a word of a form
        files[m.r.choice(("canonical", "fewest", "implies", "plan"))] = files["s"]
    return words, files


# A command of a schema has the family of all of them, unless it has one of its own.
FAMILIES = {command: functools.partial(of_a_schema, command=command) for command in model.OF_A_SCHEMA}
FAMILIES.update({name[2:]: f for name, f in list(globals().items()) if name.startswith("f_")})


# ---------------------------------------------------------------- comparing

def check_certificate(words, files, text):
    """What is wrong with a free certificate, or None."""
    if not text.startswith(b"yes\n"):
        return "does not begin with yes"
    s = model.read_schema(files[words[1]], b"s")
    goal = model.read_goal(s, os.fsencode(words[2]))
    try:
        nodes = model.read_proof(s, text[4:], b"p")
    except model.Refused as r:
        return f"certificate refused: {r.text!r}"
    if nodes[-1][0] != goal:
        return f"certificate concludes {s.dep(nodes[-1][0])!r}"
    if model.print_nodes(s, nodes) != text[4:]:
        return "certificate is not canonical"
    return None


def check_explanation(program, words, files, folder, text):
    """What is wrong with the derivation that explains why a goal is implied, or None."""
    if not text.startswith(b"yes\n"):
        return "does not begin with yes"
    s = model.read_schema(files[words[2]], b"s")
    goal = model.read_goal(s, os.fsencode(words[3]))
    certificate = subprocess.run([program, *words[1:]], cwd=folder, stdin=subprocess.DEVNULL, capture_output=True, timeout=120)
    most = certificate.stdout.count(b"\n") - 1
    try:
        wrong = [f"the derivation {it}" for it in model.explanation_faults(s, goal, text[4:], most)]
    except model.Refused as r:
        wrong = [f"derivation refused: {r.text!r}"]
    return f"{'; '.join(wrong)}: {text[:600]!r}" if wrong else None


def difference_of_page(program, words, files, folder, text, want):
    """What is wrong with a page, or None: its style is free, and each derivation of a goal is what `implies` prints."""
    before, _, rest = text.partition(b"<style>")
    style, _, _ = rest.partition(b"<")
    pieces = want.replace(model.STYLE, style).split(b"\0")
    for k in range(1, len(pieces), 2):
        goal = ["implies", words[1], os.fsdecode(pieces[k])]
        done = subprocess.run([program, *goal], cwd=folder, stdin=subprocess.DEVNULL, capture_output=True, timeout=120)
        wrong = check_certificate(goal, files, done.stdout)
        if wrong:
            return f"{goal}: {wrong}"
        pieces[k] = model.html(done.stdout)
    want = b"".join(pieces)
    if text == want:
        return None
    at = next((i for i, (one, other) in enumerate(zip(text, want)) if one != other), min(len(text), len(want)))
    return f"at byte {at}: {text[max(at - 200, 0):at + 200]!r}\n   the model {want[max(at - 200, 0):at + 200]!r}"


@functools.cache
def help_lines(program):
    """The lines of `help`, of which the model knows only how near they are."""
    return subprocess.run([program, "help"], capture_output=True, text=True, timeout=120).stdout.splitlines()


def difference(program, words, files):
    with tempfile.TemporaryDirectory() as folder:
        for name, data in files.items():
            with open(os.path.join(folder, name), "wb") as f:
                f.write(data)
        done = subprocess.run([program, *words], cwd=folder, stdin=subprocess.DEVNULL, capture_output=True, timeout=120)
        wrote = {os.path.relpath(path, folder): path.read_bytes() for path in pathlib.Path(folder).rglob("*") if path.is_file()}
        want = model.run(words, files)
        page = difference_of_page(program, words, files, folder, done.stdout, want.text) if want.free == "page" else None
        is_explained = want.free == "explanation" and done.returncode == 0
        explanation = check_explanation(program, words, files, folder, done.stdout) if is_explained else None
    wrong = [it for it in (page, explanation) if it]
    if done.returncode != want.status:
        wrong.append(f"status {done.returncode}, the model has {want.status}")
    if want.free == "certificate":
        bad = check_certificate(words, files, done.stdout) if done.returncode == 0 else None
        if bad:
            wrong.append(bad)
    elif want.free is None and done.stdout != want.text:
        wrong.append(f"printed {done.stdout[:600]!r}\n   the model {want.text[:600]!r}")
    noticed = model.notice(want, words, help_lines(program))
    if done.stderr != noticed:
        wrong.append(f"standard error {done.stderr[:200]!r}, the model {noticed[:200]!r}")
    expected = {**files, **want.wrote}
    if wrote != expected:
        names = sorted(n for n in set(wrote) | set(expected) if wrote.get(n) != expected.get(n))
        wrong.append("files differ: " + "; ".join(f"{n}: {wrote.get(n, b'(none)')[:300]!r}, the model {expected.get(n, b'(none)')[:300]!r}" for n in names[:2]))
    return wrong, want.status, done


def is_text(word):
    """Whether a word of the command line is UTF-8."""
    try:
        os.fsencode(word).decode()
    except UnicodeDecodeError:
        return False
    return True


def main():
    program, family, count = os.path.abspath(sys.argv[1]), sys.argv[2], int(sys.argv[3])
    seed = int(sys.argv[4]) if sys.argv[4:] else 1
    same = differ = left_out = 0
    kept = os.environ.get("DESK_KEEP")
    statuses = collections.Counter()
    for name in FAMILIES if family == "all" else [family]:
        for k in range(count):
            maker = Maker(random.Random(f"{name} {seed} {k}"))
            words, files = FAMILIES[name](maker)
            if not all(map(is_text, words)):
                left_out += 1
                continue
            wrong, status, done = difference(program, words, files)
            statuses[status] += 1
            if not wrong:
                same += 1
                continue
            differ += 1
            if differ <= 3:
                kept = kept or tempfile.mkdtemp()
                keep = pathlib.Path(kept) / f"{name}_{seed}_{k}"
                shutil.rmtree(keep, ignore_errors=True)
                keep.mkdir(parents=True)
                for n, data in files.items():
                    (keep / n).write_bytes(data)
                print(f"== {name} {seed} case {k}: {words!r}, files in {keep}")
                for n, data in files.items():
                    print(f"   {n}: {data[:500]!r}")
                for w in wrong:
                    print("   " + w)
    print(f"{same} same, {differ} differ, {left_out} left out; statuses {dict(sorted(statuses.items()))}")
    return 1 if differ else 0


if __name__ == "__main__":
    sys.exit(main())
