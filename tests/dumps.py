"""Databases that are dumped and imported, for tests/databases: what `import` prints against the engines' own catalogues.

Each engine makes a database by SQL with every clause that the grammar knows, and more. It is dumped as a user dumps it
(`.schema` and `.dump` of the shell; `pg_dump` with and without rows), and each table is imported from the dump. Then
names, types, missing values and keys of the printed schema are compared with the catalogue: `table_xinfo`, `index_list`
and `index_info` of SQLite, `pg_attribute` and `pg_index` of PostgreSQL. Dumps have no comments of their own and no table
that is altered later: so the SQL that made the database is imported as well, as the engine itself read it.
"""
import contextlib
import json
import pathlib
import re
import sqlite3
import subprocess
import tempfile

MADE = pathlib.Path(__file__).resolve().parent / "dumped"
AS_WRITTEN = {"sqlite": ["words", "counted", "it's quoted", "commented"],
              "postgres": ["public.words", "public.arrays", "public.nulls", "public.commented"]}
ALTERED = {"sqlite": "altered", "postgres": "public.altered"}
INTEGERS = {"int", "integer", "smallint", "bigint", "int2", "int4", "int8", "tinyint", "mediumint"}


class Wrong(Exception):
    """What is wrong with an import."""


# ---- what the catalogues say: columns as (name, type, may be missing), and the sets of columns of keys

def sqlite_type(text):
    words = re.sub(r"\(.*?\)", "", text).lower().split()
    plain = " ".join(words)
    if plain == "text" or plain in INTEGERS:
        return "text" if plain == "text" else "integer"
    return "other blob" if plain in ("", "blob") else "other"


def of_sqlite(path):
    """For each table its columns and keys, as SQLite has them, and those keys for which missing values are compared.

    SQLite lets the columns of a primary key be missing unless one stands for the number of the row; nobody means it."""
    out = {}
    with contextlib.closing(sqlite3.connect(path)) as base:
        for table, in base.execute("SELECT name FROM sqlite_master WHERE type = 'table' AND name NOT LIKE 'sqlite_%'").fetchall():
            quoted = '"' + table.replace('"', '""') + '"'
            found = base.execute(f"PRAGMA table_xinfo({quoted})").fetchall()
            primary = [row[1] for row in sorted(found, key=lambda row: row[5]) if row[5]]
            columns = [(row[1], sqlite_type(row[2]), not row[3] and row[1] not in primary) for row in found]
            keys = {frozenset(primary)} if primary else set()
            for _, index, unique, _, partial in base.execute(f"PRAGMA index_list({quoted})").fetchall():
                if unique and not partial:
                    names = [row[2] for row in base.execute('PRAGMA index_info("' + index.replace('"', '""') + '")')]
                    if None not in names:
                        keys.add(frozenset(names))
            out[table] = columns, keys, set()
    return out


POSTGRES_CATALOGUE = """
SELECT json_agg(json_build_object(
  'table', n.nspname || '.' || c.relname,
  'columns', (SELECT json_agg(json_build_array(a.attname, format_type(a.atttypid, a.atttypmod), NOT a.attnotnull) ORDER BY a.attnum)
    FROM pg_attribute AS a WHERE a.attrelid = c.oid AND a.attnum > 0 AND NOT a.attisdropped),
  'keys', (SELECT json_agg(json_build_array(i.indnullsnotdistinct, (SELECT json_agg(a.attname) FROM unnest(i.indkey[0:i.indnkeyatts - 1]) AS k (n) JOIN pg_attribute AS a ON a.attrelid = c.oid AND a.attnum = k.n)))
    FROM pg_index AS i WHERE i.indrelid = c.oid AND i.indisunique AND i.indpred IS NULL AND i.indexprs IS NULL)))
FROM pg_class AS c JOIN pg_namespace AS n ON n.oid = c.relnamespace
WHERE c.relkind IN ('r', 'p') AND n.nspname NOT LIKE 'pg_%' AND n.nspname <> 'information_schema';
"""


def postgres_type(text):
    if text in ("integer", "bigint", "smallint"):
        return "integer"
    if text in ("text", "date", "uuid"):
        return text
    if re.fullmatch(r"timestamp(\(\d\))? without time zone", text):
        return "timestamp"
    found = re.fullmatch(r"numeric\((\d+),(\d+)\)", text)
    if found and int(found[1]) <= 15 and int(found[2]) <= 9:
        return f"decimal {int(found[2])}"
    return "other"


def of_postgres(base):
    """For each table its columns and keys, as PostgreSQL has them, and those keys for which missing values are compared."""
    found = json.loads(base.answer("\\t on\n\\a\n" + POSTGRES_CATALOGUE))
    return {table["table"]: ([(name, postgres_type(text), missing) for name, text, missing in table["columns"]],
                             {frozenset(key) for _, key in table["keys"] or []},
                             {frozenset(key) for compared, key in table["keys"] or [] if compared}) for table in found}


# ---- what is printed

TOKEN = re.compile(r'"((?:[^"]|"")*)"|(\S+)')


def words_of(line):
    return [(quoted.replace('""', '"') or word, not word) for quoted, word in TOKEN.findall(line)]


def of_text(text):
    """Columns and keys of a printed schema; and which of the keys are dependencies."""
    columns, missing, keys, whole = [], set(), set(), set()
    for line in text.splitlines():
        words = [word for word, _ in words_of(line)]
        if line.startswith("# "):
            names = [word for word, _ in words_of(re.match(r"# (?:PRIMARY KEY|UNIQUE) (.*): missing values are not compared", line)[1])]
            keys.add(frozenset(names))
        elif "->" in [word for word, quoted in words_of(line) if not quoted]:
            keys.add(frozenset(words[:words.index("->")]))
            whole.add(frozenset(words[:words.index("->")]))
        elif words[0] == "nullable":
            missing = set(words[1:])
        elif words[0] == "decimal":
            columns += [(name, f"decimal {words[1]}") for name in words[2:]]
        elif words[0] == "other":
            columns += [(name, "other blob" if words[1] == "blob" else "other") for name in words[2:]]
        elif words[0] != "version":
            columns += [(name, words[0]) for name in words[1:]]
    return [(name, type_, name in missing) for name, type_ in columns], keys, whole


def compare(printed, columns, keys, compared):
    own, own_keys, whole = of_text(printed)
    missing = {name for name, _, may_be in columns if may_be}
    everything = frozenset(name for name, _, _ in columns)
    wanted = {key for key in keys if key != everything}
    if own != columns:
        raise Wrong(f"columns {own}, the catalogue {columns}")
    if own_keys != wanted:
        raise Wrong(f"keys {own_keys}, the catalogue {wanted}")
    if whole != {key for key in wanted if not key & missing or key in compared}:
        raise Wrong(f"dependencies of {whole}, and missing may be {missing}, compared for {compared}")


# ---- the dumps

def dumps_of(base, folder):
    """The name of the engine, its dumps with what made it at the end, and what its catalogue says."""
    if base.name == "sqlite":
        path = f"{folder}/made.db"
        with contextlib.closing(sqlite3.connect(path)) as made:
            made.executescript((MADE / "sqlite.sql").read_text())
        dumps = [subprocess.run(["sqlite3", path, command], capture_output=True, check=True).stdout for command in (".schema", ".dump")]
        return "sqlite", [*dumps, (MADE / "sqlite.sql").read_bytes()], of_sqlite(path)
    base.load((MADE / "postgres.sql").read_text())
    dumps = [base.server.command("pg_dump", "-h", base.server.folder, *words, base.base).stdout for words in ([], ["-s"], ["--inserts"], ["--column-inserts", "-O", "-x"])]
    return "postgres", [*dumps, (MADE / "postgres.sql").read_bytes()], of_postgres(base)


def imported(new_base, desk):
    """What is wrong with the imports of the engine's dumps, as texts; and how many were tried."""
    wrong, tried = [], 0
    with contextlib.closing(new_base()) as base, tempfile.TemporaryDirectory() as folder:
        engine, dumps, catalogue = dumps_of(base, folder)
        for number, dump in enumerate(dumps):
            (pathlib.Path(folder) / "f").write_bytes(dump)
            last = number + 1 == len(dumps)
            for table in [*AS_WRITTEN[engine], ALTERED[engine]] if last else catalogue:
                tried += 1
                try:
                    status, printed = desk(folder, ["import", engine, "f", table])
                    if last and table == ALTERED[engine]:
                        if status != 2 or "the table is altered" not in printed:
                            raise Wrong(f"it is not refused: status {status}: {printed}")
                    elif status:
                        raise Wrong(f"status {status}: {printed}")
                    else:
                        compare(printed, *catalogue[table])
                except Wrong as reason:
                    wrong.append(f"import {engine} {table} of dump {number}: {reason}")
    return wrong, tried
