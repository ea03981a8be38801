"""nonces.py: the nonces that a node's folder keeps, in files or in a database, as others read them (running.py, databases.py)."""
import contextlib
import re
import shutil
import sqlite3
import tempfile
from pathlib import Path

from nodes import FILES, SITE, XTR, check, nonce_text

DATABASE_FILE, LOG_FILE = "nonces.db", "nonces.db-wal"
# What a database begins with.
FORMAT = b"SQLite format 3\0"
# What marks the file of a pair, and what it is named once a database has its nonce.
END, TAKEN = ".nonce", ".nonce.taken"
KINDS = {"s": "sent", "r": "received", "n": "notice"}
COLUMNS = [("kind", "TEXT"), ("site_id", "TEXT"), ("xtr_id", "TEXT"), ("key_id", "INTEGER"), ("nonce", "TEXT")]
FORMS = ["sent|received|notice", "[0-9a-f]{16}", "[0-9a-f]{32}", "[0-9]{1,3}", "[0-9]{20}"]
MOST = 2**64 - 1


def pair(kind="received", site=SITE, xtr=XTR, key=1):
    """A pair, as the database spells it."""
    return kind, f"{site:016x}", f"{xtr:032x}", key


def copied(folder, to):
    """The database of a node's folder, copied to another folder: who reads a database writes to it. None where there is none."""
    for name in (DATABASE_FILE, LOG_FILE):
        if (Path(folder) / name).exists():
            shutil.copy(Path(folder) / name, to)
    return Path(to) / DATABASE_FILE if (Path(to) / DATABASE_FILE).exists() else None


def check_table(database):
    """Checks that the database is whole, and that its table has the columns that are told of."""
    check("integrity", database.execute("PRAGMA integrity_check").fetchall(), [("ok",)])
    columns = database.execute("SELECT name, type, \"notnull\", pk > 0 FROM pragma_table_info('nonces')").fetchall()
    check("its columns", columns, [(*column, 1, int(column[0] != "nonce")) for column in COLUMNS])
    check("it is STRICT", database.execute("SELECT strict FROM pragma_table_list('nonces')").fetchall(), [(1,)])


def check_row(row):
    check(f"the form of row {row}", [bool(re.fullmatch(form, str(value))) for form, value in zip(FORMS, row)], [True] * len(FORMS))
    check(f"the nonce of row {row}", int(row[-1]) <= MOST, True)


def in_database(folder):
    """The nonces that the database of a node's folder keeps, by their pairs; checks that it is whole. The node must not run."""
    with tempfile.TemporaryDirectory() as room:
        file = copied(folder, room)
        # (a crash while it was made leaves a file that is no database yet, which the next open makes)
        if not file or not file.read_bytes().startswith(FORMAT):
            return {}
        with contextlib.closing(sqlite3.connect(file)) as database:
            # (or a database with nothing in it)
            if not database.execute("SELECT 1 FROM sqlite_schema").fetchall():
                return {}
            check_table(database)
            rows = database.execute("SELECT * FROM nonces").fetchall()
    for row in rows:
        check_row(row)
    return {tuple(row[:-1]): int(row[-1]) for row in rows}


def in_files(folder, end=END):
    """The nonces that the files of a node's folder keep, by their pairs; or those of files that end otherwise."""
    found = {}
    for file in Path(folder).glob(f"?-*{end}"):
        kind, site, xtr, key = file.name.removesuffix(end).split("-")
        found[KINDS[kind], site, xtr, int(key, 16)] = int(file.read_bytes().split()[1])
    return found


def kept(here, name):
    """The nonces that a node keeps, by their pairs, in the store of a test."""
    folder = f"{here.folder}/{name}"
    return in_files(folder) if here.store == FILES else in_database(folder)


def put_file(folder, of, nonce, end=END):
    """Writes the file of a pair."""
    kind, site, xtr, key = of
    letter = next(letter for letter, word in KINDS.items() if word == kind)
    (Path(folder) / f"{letter}-{site}-{xtr}-{key:02x}{end}").write_bytes(nonce_text(nonce))


def changed(folder, statement, values=()):
    """Runs a statement of SQL on the database of a node's folder; the log is empty then."""
    with contextlib.closing(sqlite3.connect(Path(folder) / DATABASE_FILE)) as database, database:
        rows = database.execute(statement, values).fetchall()
    empty_log(folder)
    return rows


def empty_log(folder):
    """Makes the log of a node's database where it isn't there: SQLite removed it once its content was in the database."""
    (Path(folder) / LOG_FILE).touch()
