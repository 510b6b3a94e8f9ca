"""Large inputs of the black-box cases, each from few numbers, and what pages have around their pieces."""
import itertools
import pathlib
import re

ROOT = pathlib.Path(__file__).resolve().parent.parent


def attributes(count, first="a"):
    """The declaring line of so many attributes, a1, a2 and so on."""
    return "attributes " + names(count, first) + "\n"


def names(count, first="a", begin=1, between=" "):
    """Their names from a number on."""
    return between.join(f"{first}{i}" for i in range(begin, count + 1))


def narrow_pairs(count):
    """A schema of attributes A1 B1 A2 B2 and so on, each pair equivalent, so that it has 2 to the power count keys."""
    pairs = " ".join(f"A{i} B{i}" for i in range(1, count + 1))
    return f"attributes {pairs}\n" + lines(f"A{i} -> B{i}\nB{i} -> A{i}" for i in range(1, count + 1))


def keys_of_pairs(count):
    """Its keys, ascending."""
    return lines(
        " ".join(f"{'AB'[k >> i & 1]}{i + 1}" for i in range(count)) for k in range(1 << count))


def rows_of_pairs(count, first, last):
    """Rows in which just the sets of one column of each pair a1 a2, a3 a4 and so on determine the first column, and
    nothing determines any of these: of two rows that differ on the first, a pair differs; and each column of the pairs
    differs in two rows that are else equal. A column `last` is constant."""
    width = 2 * count
    base = [0] * (width + 1)
    end = ",x" if last else ""
    alone = [base[:i] + [2] + base[i + 1:] for i in range(1, width + 1)]
    pairs = [[1] + [int(j // 2 == i) for j in range(width)] for i in range(count)]
    return f"{first},{names(width, between=',')}{last}\n" + lines(",".join(map(str, r)) + end for r in [base] + alone + pairs)


def sides_of_pairs(count):
    """What they obey."""
    return lines(
        " ".join(f"a{2 * i + 1 + (k >> i & 1)}" for i in range(count)) + " -> R" for k in range(1 << count))


def doubling(count):
    """A schema of pairs a1 b1, a2 b2 and so on, whose splits double the list of schemes at each step."""
    pairs = [f"a{i} b{i}" for i in range(1, count + 1)]
    text = "attributes " + " ".join(pairs) + "\n"
    return text + lines(f"{' '.join(pairs[i:]) or '()'} -> a{i}" for i in range(1, count + 1))


def any_five():
    """A schema of 128 attributes: each five of the first 15 determine the next, and that one all others."""
    fives = itertools.combinations(range(1, 16), 5)
    return attributes(128) + lines(" ".join(f"a{i}" for i in five) + " -> a16" for five in fives) \
        + f"a16 -> {names(128, begin=17)}\n"


def ring(count):
    """A schema in which each two neighbours determine the next attribute, around a ring."""
    at = [f"a{i}" for i in range(1, count + 1)] * 2
    return attributes(count) + lines(f"{at[i]} {at[i + 1]} -> {at[i + 2]}" for i in range(count))


def one_choice(count):
    """A schema whose plan of single attributes has a second tableau of count times count rows."""
    return attributes(count) + f"() ->> a1\na1 -> {names(count, begin=2)}\n"


def singles(count):
    """The plan of schemes of one attribute each."""
    return lines(f"scheme a{i}" for i in range(1, count + 1))


def row(values):
    """A row of a CSV file whose values need no quotes."""
    return ",".join(map(str, values)) + "\n"


def lines(texts):
    """Each with a line feed."""
    return "".join(text + "\n" for text in texts)


def rows_of_many_values(count, last):
    """So many rows of a number, one of 40,000 values, one of three, and what those two give; of the last row another."""
    of_pair = [f"{i},{i % 40000},{i // 40000 % 3},{i % 40000}-{i // 40000 % 3}" for i in range(count)]
    of_pair[-1] = of_pair[-1].rsplit(",", 1)[0] + "," + last
    return "A,B,C,D\n" + lines(of_pair)


def filled(front, size):
    """A text of this size that begins so; where that ends with `#`, the rest is a comment."""
    return front + "x" * (size - len(front))


def write_with_zero_bytes(name, front, size):
    """A file of this size that begins so and goes on with zero bytes, which take no room on the disk."""
    with open(name, "wb") as file:
        file.write(front.encode())
        file.truncate(size)


def chain_certificate(order):
    """What `implies` prints for a1 -> an, where dependency order[i - 1] of the schema is ai -> a(i+1)."""
    side, text = "a1", ["yes", "1: a1 -> a1 : reflexivity"]
    for i, given in enumerate(order, 1):
        n, wider = len(text), f"{side} a{i + 1}"
        text.append(f"{n}: a{i} -> a{i + 1} : given {given}")
        text.append(f"{n + 1}: {side} -> {wider} : augmentation {n} with {side}")
        text.append(f"{n + 2}: a1 -> {wider} : transitivity {n - 1} {n + 1}")
        side = wider
    n, last = len(text), f"a{len(order) + 1}"
    text += [f"{n}: {side} -> {last} : reflexivity", f"{n + 1}: a1 -> {last} : transitivity {n - 1} {n}"]
    return lines(text)


def unused_lines(count):
    """Certificate lines that stand on no other."""
    return lines(f"{n}: A -> A : given 1" for n in range(1, count + 1))


def deep_lines(count):
    """Certificate lines of which each stands on the one before."""
    return "1: A -> A : given 1\n" + lines(f"{n}: A -> A : augmentation {n - 1} with A" for n in range(2, count + 1))


def joined_lines(leaves):
    """Certificate lines joined two by two, and one line more; leaves is a power of 2."""
    text = unused_lines(leaves)
    text += lines(f"{leaves + i}: A -> A : transitivity {2 * i - 1} {2 * i}" for i in range(1, leaves))
    return text + f"{2 * leaves}: A -> A : augmentation {2 * leaves - 1} with A\n"


def style():
    """The style of pages, one fixed text that is free, as the code has it."""
    text = (ROOT / "crates/html_pages/src/style.rt").read_text()
    return re.search(r'b"(:root.*?)\n";', text, re.DOTALL)[1].replace('\\"', '"') + "\n"


def page_front(name):
    """A page of a name up to its sections; the name is HTML."""
    return ('<!DOCTYPE html>\n<html lang="en"><head><meta charset="utf-8">'
            '<meta name="viewport" content="width=device-width, initial-scale=1">'
            f"<title>{name}</title><style>{style()}</style></head><body>\n<h1>{name}</h1>\n")


def page(name, sections):
    """A page with these sections."""
    return page_front(name) + sections.lstrip("\n") + "</body></html>\n"


def file_of(path):
    """The text of a file of the repository."""
    return (ROOT / path).read_text()
