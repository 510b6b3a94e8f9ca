"""What the documents name between backquotes, and whether it stands there: for tests/documents, which says the rules."""
import functools
import pathlib
import re
import sys

sys.dont_write_bytecode = True
sys.path.insert(0, __file__.rpartition("/")[0] + "/../.ci")
from crates import ROOT, libraries_of_crates, root_file  # noqa: E402

LIBRARIES = libraries_of_crates()
FOLDERS = r"(crates|docs|tests|examples|release|\.ci|bench|completions|proofs|src|specs)/"
# Where the names of the tools stand.
TOOLS = ["tests/*", "tests/model/*", ".ci/*", "bench/*", "release/*", "completions/*"]
# The document that says what changed, so it names what is gone, and the one that has a row for each theorem.
OF_THE_PAST = "CHANGES.md"
OF_THEOREMS = "PROOFS.md"
# A path of items, and names of several words.
PATH = r"\w+(?:::\w+)+"
CAMEL = r"[A-Z][a-z]+\w*[A-Z]\w*"
SNAKE = r"[a-z]+(?:_[a-z0-9]+)+"
FUNCTION = r"(?:pub(?:\([^)]*\))? )?(?:const )?(?:final )?fn (\w+)"


# What stands in the sources

@functools.cache
def texts_of(crate, part, ending):
    """The texts of the files of a part of a crate, by their paths."""
    folder = ROOT / "crates" / crate / part
    return {it.relative_to(folder): it.read_text() for it in sorted(folder.rglob(f"*.{ending}"))}


def without_words(text):
    """Code without its comments and its texts between quotes."""
    return re.sub(r'"(?:[^"\\]|\\.)*"', '""', re.sub(r"//[^\n]*", "", text))


@functools.cache
def items_of_files(crate):
    """What each file of code of a crate declares: items, fields and variants, by the file."""
    found = {}
    for file, text in texts_of(crate, "src", "rt").items():
        code = without_words(text)
        found[file] = {*re.findall(r"\b(?:fn|struct|enum|trait|const|type|mod) (\w+)", code),
                       *re.findall(r"^ +(?:pub )?(?:ghost )?(\w+):", code, re.M), *re.findall(r"^ +([A-Z]\w*)\b", code, re.M)}
    return found


@functools.cache
def items_of(crate):
    """What the code of a crate declares, and its modules."""
    files = items_of_files(crate)
    return {it for names in files.values() for it in names} | {part for file in files for part in file.with_suffix("").parts}


@functools.cache
def definitions_of(crate, part="specs"):
    """What the definitions of a crate, or its proofs, declare: with the fields of records and the names of files."""
    found = set()
    for file, text in texts_of(crate, part, "antt").items():
        found |= {file.stem, *re.findall(r"\bpub (?:record |data |mod )?([\w-]+)", text)}
        found |= {*re.findall(r"^ *(?:data |record )?([\w-]+)(?: :| \{)", text, re.M)}
    return found


@functools.cache
def clauses_of(crate):
    """The names of clauses, by the function, type or trait in whose text they stand."""
    found = {}
    for text in texts_of(crate, "src", "rt").values():
        item = ""
        for line in text.splitlines():
            begun = re.match(rf" *(?:{FUNCTION}|(?:pub )?(?:struct|enum|trait|impl(?:<[^>]*>)?) (\w+))", line)
            item = begun[1] or begun[2] if begun else item
            clause = re.match(r" +(?:pub )?(?:ensures|requires|ghost) (\w+)", line)
            if clause:
                found.setdefault(item, set()).add(clause[1])
    return found


@functools.cache
def laws_of(crate):
    """The laws of a crate, its public functions that do nothing, each with whether it is exported."""
    head = (ROOT / "crates" / crate / root_file(crate)).read_text()
    exported = " ".join(re.findall(r"^pub (?:use|mod) [^;]*;", head, re.M))
    found = {}
    for file, text in texts_of(crate, "src", "rt").items():
        for name in re.findall(r"^pub (?:final )?fn (\w+)\(.*\n(?:[ )].*\n)*\{\}$", text, re.M):
            found[name] = file.stem == "lib" or re.search(rf"\b(?:{name}|mod {file.stem})\b", exported) is not None
    return found


@functools.cache
def files_here():
    """The names of all files but those that are made."""
    folders = ["*", "docs/*", "tests/*", "tests/*/*", "crates/*/src/**/*", "crates/*/specs/*", "crates/*/proofs/**/*"]
    return {it.name for folder in folders for it in ROOT.glob(folder)}


@functools.cache
def names_here():
    """All names of crates, files, items, definitions and clauses, those of the tools, and what code takes from others or prints."""
    found = {*LIBRARIES, *(it for names in LIBRARIES.values() for it in names)}
    for crate in LIBRARIES:
        found |= items_of(crate) | definitions_of(crate) | definitions_of(crate, "proofs")
        found |= {it for names in clauses_of(crate).values() for it in names}
        for text in texts_of(crate, "src", "rt").values():
            found |= {*re.findall(r"\w+", re.sub(r"//[^\n]*", "", text))}
        for text in texts_of(crate, "specs", "antt").values():
            found |= {word for quoted in re.findall(r'codes "([^"]*)"', text) for word in re.findall(r"\w+", quoted)}
    for file in (it for pattern in TOOLS for it in ROOT.glob(pattern) if it.is_file()):
        text = file.read_bytes().decode(errors="replace")
        found |= {file.stem, *re.findall(r"\b(?:def|class) (\w+)", text), *re.findall(r"^(\w+)(?: =|\(\))", text, re.M)}
    return found


# What any document names

def is_item(path, crates):
    """Whether one of these crates has an item by this path: its last name stands in a file that the other names lead to."""
    *before, last = path.split("::")
    modules = {it for it in before if it[0].islower()}
    types = {it for it in before if it[0].isupper()}
    for crate in (it for it in crates if it in LIBRARIES and types <= items_of(it)):
        for file, names in items_of_files(crate).items():
            if last in names and modules <= {*file.with_suffix("").parts} or last == file.stem and not types:
                return True
    return False


def is_path_here(path):
    """Whether a file or a folder is here, by its path below this folder, below a crate's, or from a crate's name on."""
    places = [path, f"crates/{path}", f"crates/*/{path}", f"crates/*/{path}.antt", f"crates/{path}.antt"]
    return any(any(ROOT.glob(it)) for it in places)


def is_named_here(token):
    """Whether what a document names is here; what is no name of a file, an item or a definition may be anything."""
    path = token.split(" ")[0].rstrip("/")
    if re.fullmatch(r"[a-z_0-9]+/[A-Z]\w*", token) and not re.match(FOLDERS, token):
        crate, name = token.split("/")
        return (ROOT / "crates" / crate / "specs" / f"{name}.antt").is_file()
    if re.fullmatch(r"\w+\.(?:md|toml|antt|py|rt)", token):
        return token in files_here()
    if re.match(FOLDERS, path) or path.partition("/")[0] in LIBRARIES and "/" in path:
        # (a word in capitals stands for any name, and what is made need not be there)
        return re.search(r"\b[A-Z]+\b(?!\.md)|/out/|[^\w./-]", path) is not None or is_path_here(path)
    if re.fullmatch(PATH, token):
        crate, _, path = token.partition("::")
        return is_item(path, [crate]) if crate in LIBRARIES else is_item(token, LIBRARIES)
    if re.fullmatch(SNAKE, token):
        return token in names_here()
    return names_here().issuperset(re.findall(rf"\b{CAMEL}\b", token))


def prose_of(text):
    """A document without its blocks of code, line for line."""
    for shown in (r"^(```+|~~~+).*?^\1", r"^    .*$"):
        text = re.sub(shown, lambda it: "\n" * it[0].count("\n"), text, flags=re.M | re.S if "~" in shown else re.M)
    return text


# The rows of theorems

def rows_of(text):
    """The rows of tables: for each its line's number, its cells, those of the table's head, and the crates it is of."""
    head, crates, above = [], [], []
    for number, line in enumerate(text.splitlines(), 1):
        if not line.startswith("|"):
            above = [] if line.startswith("#") or head else above
            above += [it for it in re.findall(r"`(\w+)`", line) if it in LIBRARIES]
            head = []
            continue
        cells = [it.strip() for it in re.split(r"(?<!\\)\|", line)[1:-1]]
        if not head:
            head, crates = cells, above
        elif not re.fullmatch(r"\|[-|]*", line):
            crates = re.findall(r"`(\w+)`", cells[0]) or crates if head[0] == "crate" else crates
            yield number, cells, head, crates


def wrong_in_row(cells, crates):
    """What is wrong with a row of theorems: a cell of functions, and one of what they promise."""
    named = re.findall(r"`([\w:]+)`", re.sub(r"\(`[^)]*\)", "", cells[0]))
    yield from (f"{it} is no function of {', '.join(crates)}" for it in named if not is_item(it, crates))
    functions = {it.split("::")[-1] for it in named}
    is_of_all = not named or any(it[0].isupper() for it in functions)
    own = [names for it in crates if it in LIBRARIES for item, names in clauses_of(it).items() if is_of_all or item in functions]
    known = {it for names in own for it in names}
    # (beside clauses, definitions of the crate and laws of any may be cited so)
    cited = {it for crate in LIBRARIES for it in laws_of(crate)}
    cited |= {it for crate in crates for it in definitions_of(crate) if "_" in it}
    for group in re.findall(r"\(((?:`[\w:]+`(?:, |: )?)+)\)", " ".join(cells)):
        for it in re.findall(r"`([a-z]\w*)`", group):
            if it not in known | cited and not is_item(it, crates):
                yield f"{it} is no clause of {', '.join(named)}"


def wrong_in_rows(text):
    """What is wrong with the rows of theorems, and which laws have none."""
    with_rows = set()
    for number, cells, head, crates in rows_of(text):
        if head[0] == "command":
            named = re.findall(r"`(\w+)`", cells[2])
            lost = [it for it in named if not any(it in definitions_of(crate) for crate in LIBRARIES)]
            yield from ((number, f"{it} is no definition") for it in lost)
        elif head[0] in ("crate", "law"):
            cells = cells[1:] if head[0] == "crate" else cells
            yield from ((number, it) for it in wrong_in_row(cells, crates))
            named = {it.split("::")[-1] for it in re.findall(r"`([\w:]+)`", cells[0])}
            with_rows |= {(crate, it) for crate in crates for it in named}
    for crate, law in ((crate, it) for crate in LIBRARIES for it in laws_of(crate)):
        if (crate, law) not in with_rows:
            yield 1, f"{crate}::{law}, a law, has no row"
        if not laws_of(crate)[law]:
            yield 1, f"{crate}::{law}, a law, is not exported"


def wrong_in_call(text):
    """Whether the part on the call has an item for each clause of the record `Desk`, and no other."""
    record = texts_of("desk_cli", "specs", "antt")[pathlib.Path("Desk.antt")].partition("\npub record Desk ")[2]
    clauses = {*re.findall(r"^  pub (\w+) :", re.split(r"\n(?=\S)", record)[0], re.M)}
    part = text.partition("\n## The call\n")[2].partition("\n## ")[0]
    named = {it for line in re.findall(r"^- ((?:`\w+`(?:,\s)?)+):", part, re.M) for it in re.findall(r"\w+", line)}
    yield from ((1, f"{it} is no clause of `Desk`") for it in sorted(named - clauses))
    yield from ((1, f"the clause {it} of `Desk` is not named") for it in sorted(clauses - named))


def names_looked_at(document):
    """What a document names: the line's number, and what is wrong with it, or None."""
    if document.name == OF_THE_PAST or document.suffix != ".md":
        return
    text = prose_of(document.read_text())
    for found in re.finditer(r"`([^`\n]+)`", text):
        yield text[:found.start()].count("\n") + 1, None if is_named_here(found[1]) else f"{found[1]} is not here"
    for found in re.finditer(r"`(\w+)[^`]*`\s\(`(\w+)/specs`", text):
        if found[1] not in definitions_of(found[2]):
            yield text[:found.start()].count("\n") + 1, f"{found[1]} is no definition of {found[2]}"
    if document.name == OF_THEOREMS:
        yield from wrong_in_rows(text)
        yield from wrong_in_call(text)
