#!/usr/bin/env python3
"""Compares how many lines `explain implies` prints with the shortest derivation, on random goals of at most 5 attributes.

    shortest.py PROGRAM COUNT [SEED]

The shortest derivation is looked for among trees, by all sixteen rules: the least number of lines of each dependency is
found from the fewest on (Knuth 1977), and a line that a tree uses twice counts twice. So a derivation can have fewer lines
than any tree. The last line is the average of the quotients, and how often the program has as few lines, or fewer.
"""
import heapq
import os
import pathlib
import random
import subprocess
import sys
import tempfile

import compare
import model
from model import FD, MVD


class Trees:
    """The least lines of a tree for each dependency that is implied, found from the fewest on."""

    def __init__(self, n, deps):
        self.full, self.best, self.heap, self.done = (1 << n) - 1, {}, [], {}
        # what was found, by kind, left side and right side
        self.of_left, self.of_right = {}, {}
        self.all = {FD: [], MVD: []}
        for d in deps:
            self.offer(1, d)
        for x in range(self.full + 1):
            for y in model.subsets(x):
                self.offer(1, (FD, x, y))
                self.offer(1, (MVD, x, y))

    def offer(self, lines, d):
        if d not in self.done and lines < self.best.get(d, 1 << 30):
            self.best[d] = lines
            heapq.heappush(self.heap, (lines, d))

    def lines_of(self, goal):
        """The least lines of a tree for a goal that is implied."""
        while goal not in self.done:
            lines, d = heapq.heappop(self.heap)
            if d not in self.done:
                self.done[d] = lines
                self.of_left.setdefault(d[:2], []).append(d)
                self.of_right.setdefault((d[0], d[2]), []).append(d)
                self.all[d[0]].append(d)
                self.go_on(lines, d)
        return self.done[goal]

    def go_on(self, lines, d):
        """What rules give of a dependency, alone and beside each that was found."""
        kind, x, y = d
        sets = range(self.full + 1)
        if kind == FD:
            self.offer(lines + 1, (MVD, x, y))
            for z in sets:
                self.offer(lines + 1, (FD, x | z, y | z))
            for z in model.subsets(y):
                self.offer(lines + 1, (FD, x, z))
        else:
            self.offer(lines + 1, (MVD, x, self.full & ~(x | y)))
            for w in sets:
                for z in model.subsets(w):
                    self.offer(lines + 1, (MVD, x | w, y | z))
        for other in self.of_left[kind, x]:
            both = lines + self.done[other] + 1
            self.offer(both, (kind, x, y | other[2]))
            if kind == MVD:
                self.offer(both, (kind, x, y & other[2]))
                self.offer(both, (kind, x, y & ~other[2]))
                self.offer(both, (kind, x, other[2] & ~y))
        for first, second in [(d, e) for e in self.all[kind]] + [(e, d) for e in self.all[kind]]:
            (_, a, b), (_, v, c) = first, second
            if not b & ~v:
                # (where the middle is exact this is transitivity)
                self.offer(self.done[first] + self.done[second] + 1, (kind, a | v & ~b, c if kind == FD else c & ~v))
            if kind == MVD and b == v:
                self.offer(self.done[first] + self.done[second] + 1, (kind, a, c & ~b))
        for e in self.all[MVD if kind == FD else FD]:
            (_, a, b), (_, v, c) = (e, d) if kind == FD else (d, e)
            if not c & ~b and not v & b:
                self.offer(lines + self.done[e] + 1, (FD, a, c))


def goals(rng, count):
    """So many schemas of at most 5 attributes, each with an implied goal that is neither given nor trivial."""
    while count:
        maker = compare.Maker(rng)
        schema = maker.schema(3, 5, deps=rng.randint(2, 5), mvd=rng.choice((0, 0, .3, .6)), typed=False)
        kind, x, y = goal = compare.implied_goal(maker, schema)
        if y & ~x and goal not in schema[2] and model.implied(schema[2], (1 << len(schema[0])) - 1, goal):
            count -= 1
            yield maker, schema, goal


def main():
    program, count = os.path.abspath(sys.argv[1]), int(sys.argv[2])
    rng = random.Random(f"shortest {sys.argv[3] if sys.argv[3:] else 1}")
    quotients, worst = [], (0, None)
    with tempfile.TemporaryDirectory() as folder:
        for maker, schema, goal in goals(rng, count):
            names, _, deps = schema
            least = Trees(len(names), deps).lines_of(goal)
            pathlib.Path(folder, "s").write_bytes(maker.schema_text(schema))
            done = subprocess.run([program, "explain", "implies", "s", maker.dep(names, goal)], cwd=folder, capture_output=True)
            lines = done.stdout.count(b"\n") - 1
            quotients.append(lines / least)
            worst = max(worst, (lines / least, (schema, goal, least, done.stdout.decode())), key=lambda it: it[0])
    print(f"the worst has {worst[0]:.2f} times as many lines: {worst[1]}")
    few = sum(it <= 1 for it in quotients)
    print(f"{sum(quotients) / len(quotients):.3f} times as many lines on average; {few} of {len(quotients)} have no more")


if __name__ == "__main__":
    main()
