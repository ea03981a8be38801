#!/usr/bin/env -S python3 -B
"""databases.py PROGRAM [TEST ..]
What `lispd server`, `router` and `loop` make of `--database`: what the database of a node's nonces has, how files are taken over, also
where the node is killed at each call of the system, databases that were put back or are none, and calls that fail. Prints each check
that fails, and ends with 1 where one does."""
import contextlib
import errno
import os
import random
import re
import shutil
import signal
import sqlite3
import tempfile
import time
from pathlib import Path
from subprocess import DEVNULL, PIPE

from nodes import (DATABASE, FILES, GROUPS, LIMIT, PORT, SITE, XTR, check, failing, in_words, is_bound, is_up, killed, map_register,
                   next_line, nonce_in, over, peer, ran, received, run_tests, until)
from nonces import DATABASE_FILE, END, LOG_FILE, MOST, TAKEN, changed, empty_log, in_database, in_files, kept, pair, put_file

# What isn't copied with a folder: the socket of a node.
UNCOPIED = shutil.ignore_patterns("control")
# How a node ends that can't use its database; and how it ends without a turn.
UNUSABLE, UNMOVED = (1, "", "lispd: fault 93\n"), (0, "", "")
# What is wrong with a database whose log is gone.
LOG_GONE = "its log (-wal) is gone; sqlite3 without -readonly removes it"
# How many routers register with a Map-Server whose log is damaged then, and the bytes of a frame of a log.
REGISTERED, FRAME = 20, 24 + 4096
# What a node ends with for want of memory.
NO_MEMORY = re.compile(r"!?lispd: fault (?:24|75|76|86 line \d+|93|97)\n")


# What a database has.


def a_database_tells_of_itself(here):
    """One table of texts as the configuration spells them, and nonces above 2^63 among them."""
    here.store = DATABASE
    process = here.start(*here.words("server", "s1"))
    is_up(here.s1)
    with peer(here.r1) as it:
        for nonce, xtr in ((1, XTR), (2**63, XTR + 1), (MOST - 1, XTR + 2), (2**63 - 1, 2**127 | XTR), (10**19, 2**64)):
            check(f"nonce {nonce}", nonce_in(here.answer(it, map_register(nonce, xtr=xtr))), nonce)
    killed(process)
    wanted = {pair(xtr=XTR): 1, pair(xtr=XTR + 1): 2**63, pair(xtr=XTR + 2): MOST - 1, pair(xtr=2**127 | XTR): 2**63 - 1,
              pair(xtr=2**64): 10**19}
    check("its nonces", kept(here, "s1"), wanted)
    check("its files", {"control", "lock", DATABASE_FILE, LOG_FILE} >= set(os.listdir(f"{here.folder}/s1")), True)
    process = here.start(*here.words("server", "s1"))
    check("its first line", process.stdout.readline(), "started s1 nonces 5\n")
    # (each from an address of its own: refusals of one number and one source are summed)
    for number, ((_, _, xtr, _), nonce) in enumerate(wanted.items(), 100):
        with peer(f"{here.front}{number}") as it:
            it.sendto(map_register(nonce, xtr=int(xtr, 16)), (here.s1, PORT))
            check("a replay", next_line(process), f"refused s1 57 saved {nonce} from {here.front}{number}")
    with peer(here.r1) as it:
        for (_, _, xtr, _), nonce in wanted.items():
            it.sendto(map_register(nonce - 1, xtr=int(xtr, 16)), (here.s1, PORT))
        check("lower ones", received(it, 0.2), [])


def a_router_s_database(here):
    here.store = DATABASE
    words = here.words("router", "r1", "--turns", "1")
    check("a first run", ran(*words), (0, "sent r1 s1 key 1 nonce 1\nsent r1 s2 key 1 nonce 2\n", ""))
    check("its nonces", kept(here, "r1"), {pair("sent"): 2})
    for nonce in (10**9, 2**62, 2**63 - 4):
        changed(f"{here.folder}/r1", "UPDATE nonces SET nonce = ?", (f"{nonce:020}",))
        check(f"above {nonce}", ran(*words), (0, f"sent r1 s1 key 1 nonce {nonce + 1}\nsent r1 s2 key 1 nonce {nonce + 2}\n", ""))
    for nonce in ("7", "-0000000000000000007", "9" * 20, "0" * 19 + "x", "", f"{7:021}", " " * 19 + "7", f"{7:020}\0"):
        changed(f"{here.folder}/r1", "UPDATE nonces SET nonce = ?", (nonce,))
        check(f"a nonce that is {nonce!r}", ran(*words), (1, "", "lispd: fault 35\n"))


def kinds_are_kept_apart(here):
    """A loop in which a Map-Server accepts, sends a notice, and a router sends: the rows of three kinds."""
    Path(f"{here.folder}/script").write_text("send r1 s1\ndeliver 0\ndeliver 1\nnotice s1 r1\ndeliver 2\ndeliver 3\n")
    words = ("loop", here.config, f"{here.folder}/script", "--store", here.folder)
    output = ran(*words, *DATABASE)
    check("over files", ran(*words[:-1], f"{here.folder}/files"), output)
    for name in ("r1", "r2", "s1", "s2"):
        check(f"the nonces of {name}", in_database(f"{here.folder}/{name}"), in_files(f"{here.folder}/files/{name}"))
    check("the kinds", sorted({kind for name in ("r1", "s1") for kind, *_ in in_database(f"{here.folder}/{name}")}),
          ["notice", "received", "sent"])


def the_words(here):
    node = (here.config, "s1", "--store", here.folder)
    for words in (("--group", "1"), ("--group", "64"), ("--database", "--group", "0"), ("--database", "--group", "65"),
                  ("--database", "--group", "x"), ("--database", "--group", "")):
        check(" ".join(words), ran("server", *node, "--turns", "0", *words), (2, "", "lispd: fault 98\n"))
    check("nothing is made", os.path.exists(f"{here.folder}/s1"), False)
    for words in (("--database",), ("--database", "--group", "1"), ("--database", "--group", "64")):
        check(" ".join(words), ran("server", *node, "--turns", "0", *words), UNMOVED)
    check("a router in groups", ran("router", here.config, "r1", "--store", here.folder, "--turns", "0", *GROUPS)[0], 2)
    check("known nonces, and none", ran("server", *node, "--database", "--known"), UNUSABLE)
    changed(f"{here.folder}/s1", "INSERT INTO nonces VALUES ('received', ?, ?, 1, ?)", (f"{SITE:016x}", f"{XTR:032x}", f"{7:020}"))
    check("its first line", here.start("server", *node, "--database", "--known").stdout.readline(), "started s1 nonces 1\n")


# Never two truths.

# The nonces of a folder of files: those that a Map-Server receives, and that of its notices.
OLD = {pair(xtr=XTR + number): 10 ** number + number for number in range(4)} | {pair(key=17): MOST, pair("notice", 0, 0, 0): 2**63 + 5}


def fill(folder, nonces):
    """Makes a node's folder, with files of these nonces."""
    os.makedirs(folder)
    for of, nonce in nonces.items():
        put_file(folder, of, nonce)


def at_least(nonces, wanted):
    """Whether a store has each of these pairs, and no lower nonce."""
    return all(nonces.get(of, -1) >= nonce for of, nonce in wanted.items())


def check_taken(name, folder, wanted):
    """Checks that a database has just these nonces, and that no file of a pair is left beside it."""
    check(f"{name}: the database", in_database(folder), wanted)
    check(f"{name}: files", in_files(folder), {})


def files_are_taken_over(here):
    here.store, folder = DATABASE, Path(f"{here.folder}/s1")
    fill(folder, OLD)
    (folder / "notes.nonce").write_text("no pair's")
    put_file(folder, pair(xtr=XTR + 9), 9, f"{END}.new")
    check("the first start", ran(*here.words("server", "s1", "--turns", "0")), UNMOVED)
    check_taken("the first start", folder, OLD)
    check("what is taken", in_files(folder, TAKEN), OLD)
    check("what isn't a pair's", (folder / "notes.nonce").read_text(), "no pair's")
    names = sorted(os.listdir(folder))
    check("the next start", ran(*here.words("server", "s1", "--turns", "0")), UNMOVED)
    check_taken("the next start", folder, OLD)
    check("its files", sorted(os.listdir(folder)), names)
    process = here.start(*here.words("server", "s1"))
    check("its first line", process.stdout.readline(), f"started s1 nonces {len(OLD)}\n")
    with peer(here.r1) as it:
        it.sendto(map_register(OLD[pair()]), (here.s1, PORT))
        check("a replay", next_line(process), f"refused s1 57 saved {OLD[pair()]} from {here.r1}")


def a_router_s_files_are_taken_over(here):
    ran(*here.words("router", "r1", "--turns", "1"))
    here.store = DATABASE
    check("in a database", ran(*here.words("router", "r1", "--turns", "1")),
          (0, "sent r1 s1 key 1 nonce 3\nsent r1 s2 key 1 nonce 4\n", ""))
    check_taken("it goes on", f"{here.folder}/r1", {pair("sent"): 4})


def the_greatest_nonce_counts(here):
    """Of a file beside a database: an older one lowers nothing, a newer one counts."""
    here.store, folder = DATABASE, f"{here.folder}/s1"
    words = here.words("server", "s1", "--turns", "0")
    fill(folder, {pair(): 7})
    check("the first", ran(*words), UNMOVED)
    for nonce, greatest in ((3, 7), (7, 7), (2**63 + 1, 2**63 + 1), (2**63 - 1, 2**63 + 1), (9, 2**63 + 1), (10**19, 10**19)):
        put_file(folder, pair(), nonce)
        put_file(folder, pair(xtr=XTR + nonce), nonce)
        check(f"a file of {nonce}", ran(*words), UNMOVED)
        found = in_database(folder)
        check(f"with a file of {nonce}", (found.get(pair()), found.get(pair(xtr=XTR + nonce))), (greatest, nonce))
        check("no file is left", in_files(folder), {})


def files_over_a_database(here):
    """Without --database no node starts over a folder that has one, whatever that is."""
    folder = Path(f"{here.folder}/s1")
    here.store = DATABASE
    check("with a database", ran(*here.words("server", "s1", "--turns", "0")), UNMOVED)
    here.store = FILES
    words = here.words("server", "s1", "--turns", "0")
    check("over files", ran(*words), UNUSABLE)
    names = sorted(os.listdir(folder))
    put_file(folder, pair(), 7)
    check("over files that are there", ran(*words), UNUSABLE)
    check("nothing is made", sorted(os.listdir(folder)), sorted([*names, *(it.name for it in folder.glob("*.nonce"))]))
    for make in (lambda it: it.touch(), lambda it: it.mkdir(), lambda it: it.symlink_to("nowhere"), os.mkfifo):
        shutil.rmtree(folder)
        folder.mkdir()
        make(folder / DATABASE_FILE)
        check("over what has its name", ran(*words), UNUSABLE)
    for kind, name in (("router", "r1"), ("server", "s2")):
        Path(f"{here.folder}/{name}").mkdir()
        Path(f"{here.folder}/{name}/{DATABASE_FILE}").touch()
        check(f"{kind} {name}", ran(kind, here.config, name, "--store", here.folder, "--turns", "0"), UNUSABLE)
    Path(f"{here.folder}/script").write_text("send r1 s1\n")
    check("a loop", ran("loop", here.config, f"{here.folder}/script", "--store", here.folder), UNUSABLE)
    (folder / DATABASE_FILE).unlink()
    check("with it gone", ran(*words), UNMOVED)


def a_damaged_file_isn_t_taken_over(here):
    """One file that is no nonce keeps all from being taken."""
    here.store, folder = DATABASE, Path(f"{here.folder}/s1")
    fill(folder, OLD)
    damaged = sorted(folder.glob("*.nonce"))[2]
    for text in (b"", b"nonce 1\n", b"nonce 18446744073709551616\n", damaged.read_bytes() + b"\n"):
        damaged.write_bytes(text)
        status, output, error = ran(*here.words("server", "s1", "--turns", "0"))
        check(f"a file that is {text!r}", (status, output, bool(re.fullmatch(r"lispd: fault \d+\n", error))), (1, "", True))
        check("nothing is taken", (in_database(folder), len(list(folder.glob("*.nonce"))), in_files(folder, TAKEN)), ({}, len(OLD), {}))


def killed_runs(here, words, call, folder, make):
    """Runs the program again and again over a folder that was made anew, and kills it at the first call, the second and so on, until
    a run ends by itself: the numbers of those that were killed."""
    for at in range(1, 10_000):
        shutil.rmtree(folder, ignore_errors=True)
        make(folder)
        done = ran(*words, env=failing(call, at, "", errno.EIO, f"{folder}"))
        if done[0] != -signal.SIGKILL:
            check(f"{call}: a run of {at - 1} calls", done, UNMOVED)
            check(f"{call}: there are calls", at > 10 if call == "kill" else at > 2, True)
            return
        yield at


def killed_while_files_are_taken(call):
    """Kills a Map-Server while it takes files over, before each call that opens or changes a file, or in the middle of each write."""
    def test(here):
        folder = Path(f"{here.folder}/s1")
        words = (*here.words("server", "s1"), *DATABASE, "--turns", "0")
        for at in killed_runs(here, words, call, folder, lambda it: fill(it, OLD)):
            files, database = in_files(folder), in_database(folder)
            check(f"{call} {at}: one of both is whole", files == OLD or at_least(database, OLD), True)
            check(f"{call} {at}: no file is lost", {**in_files(folder, TAKEN), **files}, OLD)
            check(f"{call} {at}: the database is whole or has nothing", database in ({}, OLD), True)
            there = (folder / DATABASE_FILE).exists()
            check(f"{call} {at}: over files", ran(*here.words("server", "s1", "--turns", "0")), UNUSABLE if there else UNMOVED)
            check(f"{call} {at}: the next start", ran(*words), UNMOVED)
            check_taken(f"{call} {at}: the next start", folder, OLD)
            check(f"{call} {at}: what is taken", in_files(folder, TAKEN), OLD)
    test.__name__ = f"{call}_while_files_are_taken"
    return test


def killed_while_older_files_are_taken(here):
    """The same over a database that has greater nonces of some pairs, and lower ones of others."""
    folder, source = Path(f"{here.folder}/s1"), Path(f"{here.folder}/source")
    words = (*here.words("server", "s1"), *DATABASE, "--turns", "0")
    older = {of: nonce // 2 if place % 2 else min(nonce + 1, MOST) for place, (of, nonce) in enumerate(OLD.items())}
    greatest = {of: max(nonce, older[of]) for of, nonce in OLD.items()}
    fill(folder, OLD)
    ran(*words)
    shutil.move(folder, source)
    for of, nonce in older.items():
        put_file(source, of, nonce)
    for at in killed_runs(here, words, "kill", folder, lambda it: shutil.copytree(source, it, ignore=UNCOPIED)):
        check(f"kill {at}: none is lowered", at_least(in_database(folder), OLD), True)
        check(f"kill {at}: one of both has each", at_least(in_database(folder), greatest) or in_files(folder) == older, True)
        check(f"kill {at}: the next start", ran(*words), UNMOVED)
        check_taken(f"kill {at}: the next start", folder, greatest)


# Old copies, and what is no database.


def a_database_that_was_put_back(here):
    """A node warns, once, of a database whose last writer was on another machine, or before this machine was started again."""
    here.store, folder = DATABASE, f"{here.folder}/s1"
    words = here.words("server", "s1", "--turns", "0")
    path = f"{here.folder}/s1/{DATABASE_FILE}"
    machine = f"warning: {path} was last written on another machine\n"
    boot = f"warning: {path} was last written before this machine was started again\n"
    check("the first start", ran(*words), UNMOVED)
    check("the next start", ran(*words), UNMOVED)
    (row,) = changed(folder, "SELECT machine_id, boot_id FROM writer")
    check("its boot", row[1], Path("/proc/sys/kernel/random/boot_id").read_text().strip())
    for name, statement, warning in (
            ("another machine", "UPDATE writer SET machine_id = '0123456789abcdef0123456789abcdef'", machine),
            ("another boot", "UPDATE writer SET boot_id = '00000000-0000-4000-8000-000000000000'", boot)):
        changed(folder, statement)
        status, output, error = ran(*words)
        # (a machine without an id tells of none)
        if row[0] or "machine" not in name:
            check(name, (status, output, error), (0, "", warning))
            check(f"{name}: the next start", ran(*words), UNMOVED)
            check(f"{name}: who wrote", changed(folder, "SELECT machine_id, boot_id FROM writer"), [row])


def a_start_that_knows_no_machine(here):
    """What the last start knew of its machine stays: a copy that another machine wrote is told of at the next start that knows its own."""
    here.store, folder = DATABASE, f"{here.folder}/s1"
    words = here.words("server", "s1", "--turns", "0")
    check("the first start", ran(*words), UNMOVED)
    (row,) = changed(folder, "SELECT machine_id, boot_id FROM writer")
    changed(folder, "UPDATE writer SET machine_id = '0123456789abcdef0123456789abcdef', boot_id = ''")
    check("without an id", ran(*words, env=failing("open", 1, "/machine-id"))[:2], (0, ""))
    check("who wrote", changed(folder, "SELECT machine_id, boot_id FROM writer"), [("0123456789abcdef0123456789abcdef", row[1])])


def a_log_without_its_database(here):
    """Its nonces would be lost: the node doesn't start over it, and leaves it as it is."""
    here.store, folder = DATABASE, Path(f"{here.folder}/s1")
    process = here.start(*here.words("server", "s1"))
    is_up(here.s1)
    with peer(here.r1) as it:
        check("its answer", nonce_in(here.answer(it, map_register(7))), 7)
    killed(process)
    database, aside, log = folder / DATABASE_FILE, Path(f"{here.folder}/aside"), folder / LOG_FILE
    shutil.move(database, aside)
    before = log.read_bytes()
    check("without it", ran(*here.words("server", "s1", "--turns", "0")), UNUSABLE)
    check("the log", (log.read_bytes() == before, database.exists()), (True, False))
    shutil.move(aside, database)
    check("with it", ran(*here.words("server", "s1", "--turns", "0")), UNMOVED)
    check("what is kept", kept(here, "s1"), {pair(): 7})


def has_no_table(database):
    """Whether the file of a database by itself, without its log, has nothing in it."""
    with tempfile.TemporaryDirectory() as room:
        copy = shutil.copy(database, room)
        with contextlib.closing(sqlite3.connect(copy)) as it:
            return it.execute("SELECT count(*) FROM sqlite_schema").fetchone() == (0,)


def a_database_without_its_log(here):
    """Its last nonces would be lost: the node doesn't start over it, and leaves it as it is. It starts with an empty log."""
    here.store, folder = DATABASE, Path(f"{here.folder}/s1")
    words, database, log = here.words("server", "s1", "--turns", "0"), folder / DATABASE_FILE, folder / LOG_FILE
    for count in (0, 1, 5, 1500):
        process = here.start(*here.words("server", "s1"), stdout=DEVNULL)
        is_up(here.s1)
        with peer(here.r1) as it:
            for nonce in range(1, count + 1):
                here.answer(it, map_register(nonce))
        killed(process)
        check(f"{count} nonces: what is kept", kept(here, "s1"), {pair(): count} if count else {})
        log.unlink()
        before, names = database.read_bytes(), sorted(os.listdir(folder))
        for _ in range(2):
            check(f"{count} nonces: without it", in_words(*words), (1, 93, f"{database}: {LOG_GONE}"))
        check(f"{count} nonces: what is there", (database.read_bytes() == before, sorted(os.listdir(folder))), (True, names))
        empty_log(folder)
        check(f"{count} nonces: with an empty one", ran(*words), UNMOVED)
        shutil.rmtree(folder)


def a_database_that_is_read(here):
    """SQLite's read-only mode leaves the log of a stopped node. Without it SQLite moves the log into the database, and removes it."""
    here.store, folder, wanted = DATABASE, Path(f"{here.folder}/s1"), {}
    words, database, log = here.words("server", "s1", "--turns", "0"), folder / DATABASE_FILE, folder / LOG_FILE
    for first in (1, 4, 7):
        process = here.start(*here.words("server", "s1"), stdout=DEVNULL)
        is_up(here.s1)
        with peer(here.r1) as it:
            for nonce in range(first, first + 3):
                here.answer(it, map_register(nonce, xtr=XTR + nonce))
                wanted[pair(xtr=XTR + nonce)] = nonce
        killed(process)
        before = database.read_bytes(), log.read_bytes()
        check(f"{first}: what is read", count_rows(f"file:{database}?mode=ro"), len(wanted))
        check(f"{first}: both files", (database.read_bytes(), log.read_bytes()) == before, True)
        check(f"{first}: the next start", ran(*words), UNMOVED)
        check(f"{first}: what is kept", kept(here, "s1"), wanted)
        check(f"{first}: what is read and moved", count_rows(f"file:{database}"), len(wanted))
        check(f"{first}: its log is removed", log.exists(), False)
        check(f"{first}: without it", ran(*words), UNUSABLE)
        empty_log(folder)
        check(f"{first}: with an empty log", ran(*words), UNMOVED)
        check(f"{first}: what is kept with it", kept(here, "s1"), wanted)


def count_rows(database):
    """For how many pairs a database keeps nonces, which is opened by a URI."""
    with contextlib.closing(sqlite3.connect(database, uri=True)) as it:
        return it.execute("SELECT count(*) FROM nonces").fetchone()[0]


def killed_over_no_folder(call):
    """Kills a Map-Server while it makes its database, before each call that opens or changes a file, or in the middle of each write: the
    next start takes what is there, also where the log was lost, as long as the database is as it was placed. From then on the log is
    missed."""
    def test(here):
        folder, aside = Path(f"{here.folder}/s1"), Path(f"{here.folder}/aside")
        words = (*here.words("server", "s1"), *DATABASE, "--turns", "0")
        database, log = folder / DATABASE_FILE, folder / LOG_FILE
        placed, empty = None, 0
        for at in killed_runs(here, words, call, folder, lambda it: None):
            if database.exists() and placed is None:
                placed = database.read_bytes()
                # (the first write that is torn after it was placed is one to its log)
                check(f"{call} {at}: it has no table, and a log", (has_no_table(database), log.exists()), (True, call == "tear"))
            if database.exists() and database.read_bytes() == placed:
                shutil.rmtree(aside, ignore_errors=True)
                shutil.copytree(folder, aside, ignore=UNCOPIED)
                log.unlink(missing_ok=True)
                check(f"{call} {at}: the next start without the log", ran(*words), UNMOVED)
                shutil.rmtree(folder)
                shutil.copytree(aside, folder)
                empty += 1
            elif database.exists():
                check(f"{call} {at}: there is a log", log.exists(), True)
            check(f"{call} {at}: the next start", ran(*words), UNMOVED)
            check(f"{call} {at}: what is kept", in_database(folder), {})
            log.unlink()
            check(f"{call} {at}: a start without the log", ran(*words), UNUSABLE)
        check(f"{call}: it is seen as it was placed", empty > 2, True)
    test.__name__ = f"{call}_over_no_folder"
    return test


def a_text(path):
    path.write_text("These are no nonces, but as long as you like.\n" * 1000)


def what_is_told_of_a_database(here):
    """In words: its path, what was tried, and the system's error or what is there."""
    here.store, folder = DATABASE, Path(f"{here.folder}/s1")
    words, path = here.words("server", "s1", "--turns", "0"), f"{folder}/{DATABASE_FILE}"
    full = failing("write", 1, f"{DATABASE_FILE}.new", errno.ENOSPC)
    check("a full disk", in_words(*words, env=full), (1, 93, f"{path}: can't be opened: no storage space"))
    for make, wrong in ((a_text, "isn't a database of nonces, or is damaged"), (another_table, "isn't a database of nonces, or is damaged"),
                        (a_folder, "isn't a file"), (a_pipe, "isn't a file")):
        shutil.rmtree(folder)
        folder.mkdir()
        make(Path(path))
        check(make.__name__, in_words(*words), (1, 93, f"{path}: {wrong}"))
    shutil.rmtree(folder)
    folder.mkdir()
    (folder / LOG_FILE).touch()
    check("a log alone", in_words(*words), (1, 93, f"{path}: isn't there, and its log (-wal) is"))
    (folder / LOG_FILE).unlink()
    put_file(folder, pair(), 7)
    for file in folder.glob("*.nonce"):
        file.write_text("nonce 7")
    check("a damaged file", in_words(*words), (1, 93, f"{folder}: a file of nonces in it is damaged"))


def another_table(path):
    with contextlib.closing(sqlite3.connect(path)) as database, database:
        database.execute("CREATE TABLE recipes (name TEXT PRIMARY KEY, minutes INTEGER) STRICT")
        database.execute("INSERT INTO recipes VALUES ('bread', 180)")


def another_nonces(path):
    """A table of that name, and without STRICT."""
    with contextlib.closing(sqlite3.connect(path)) as database, database:
        database.execute("CREATE TABLE nonces (kind TEXT, site_id TEXT, xtr_id TEXT, key_id INTEGER, nonce TEXT)")


def a_table_too_many(path):
    with contextlib.closing(sqlite3.connect(path)) as database, database:
        database.execute("CREATE TABLE recipes (name TEXT PRIMARY KEY, minutes INTEGER) STRICT")


def a_pipe(path):
    path.unlink(missing_ok=True)
    os.mkfifo(path)


def a_folder(path):
    path.unlink(missing_ok=True)
    path.mkdir()


def a_link_to_a_device(path):
    path.unlink(missing_ok=True)
    path.symlink_to("/dev/zero")


NO_DATABASES = [a_text, another_table, another_nonces, a_pipe, a_folder, a_link_to_a_device]


def what_is_no_database(here):
    """No node starts over it, and it is left as it was."""
    here.store, folder = DATABASE, Path(f"{here.folder}/r1")
    for make in NO_DATABASES:
        shutil.rmtree(folder, ignore_errors=True)
        folder.mkdir()
        make(folder / DATABASE_FILE)
        before = (folder / DATABASE_FILE).read_bytes() if (folder / DATABASE_FILE).is_file() else None
        check(make.__name__, ran(*here.words("router", "r1", "--turns", "1")), UNUSABLE)
        after = (folder / DATABASE_FILE).read_bytes() if (folder / DATABASE_FILE).is_file() else None
        check(f"{make.__name__} is left", after == before, True)
    shutil.rmtree(folder)
    ran(*here.words("router", "r1", "--turns", "1"))
    a_table_too_many(folder / DATABASE_FILE)
    empty_log(folder)
    check("a table too many", ran(*here.words("router", "r1", "--turns", "1")), UNUSABLE)


def a_damaged_page(here):
    """No node starts over a database of which a page is overwritten, or the end is cut off."""
    here.store, folder = DATABASE, Path(f"{here.folder}/r1")
    words, path = here.words("router", "r1", "--turns", "1"), folder / DATABASE_FILE
    ran(*words)
    for number in range(200):
        changed(folder, "INSERT INTO nonces VALUES ('received', ?, ?, 1, ?)", (f"{number:016x}", f"{XTR:032x}", f"{7:020}"))
    check("a database of many pages", ran(*words)[0], 0)
    # (sqlite3 writes the log back)
    changed(folder, "UPDATE nonces SET nonce = nonce")
    whole, size = path.read_bytes(), 4096
    check("its pages", len(whole) // size > 8, True)
    for page in range(len(whole) // size):
        for text in (bytes(size), b"\xff" * size):
            path.write_bytes(whole[:page * size] + text + whole[(page + 1) * size:])
            (folder / LOG_FILE).write_bytes(b"")
            check(f"page {page + 1} is {text[:1]!r} ..", ran(*words), UNUSABLE)
    for length in (100, size, len(whole) - size, len(whole) - 1):
        path.write_bytes(whole[:length])
        (folder / LOG_FILE).write_bytes(b"")
        check(f"{length} bytes of it", ran(*words), UNUSABLE)
    path.write_bytes(whole)
    (folder / LOG_FILE).write_bytes(b"")
    check("the whole", ran(*words), (0, "sent r1 s1 key 1 nonce 5\nsent r1 s2 key 1 nonce 6\n", ""))


def a_damaged_log(here):
    """A log in which one bit was changed: the nonces are all there, but for those of its last two transactions, or the node says no."""
    here.store, folder = DATABASE, Path(f"{here.folder}/s1")
    process, wanted = here.start(*here.words("server", "s1")), {}
    is_up(here.s1)
    with peer(here.r1) as it:
        for nonce in range(1, REGISTERED + 1):
            check("its answer", nonce_in(here.answer(it, map_register(nonce, xtr=XTR + nonce))), nonce)
            wanted[pair(xtr=XTR + nonce)] = nonce
    killed(process)
    whole, fewest = (folder / LOG_FILE).read_bytes(), dict(list(wanted.items())[:-2])
    aside = shutil.copytree(folder, f"{here.folder}/aside", ignore=UNCOPIED)
    # (Behind its frames stand zeros, for those to come.)
    frames = [at for at in range(32, len(whole), FRAME) if whole[at + 8:at + 16] == whole[16:24]]
    drawn, refused = random.Random(31), 0
    # A bit of each byte of its header and of some frames' headers, and some of all.
    headers = [at + byte for at in frames[::12] for byte in range(24)]
    places = [*range(32), *headers, *(drawn.randrange(frames[-1] + FRAME) for _ in range(60))]
    for place in places:
        shutil.rmtree(folder)
        shutil.copytree(aside, folder)
        (folder / LOG_FILE).write_bytes(whole[:place] + bytes([whole[place] ^ 1 << drawn.randrange(8)]) + whole[place + 1:])
        ended = ran(*here.words("server", "s1", "--turns", "0"))
        refused += ended == UNUSABLE
        check(f"byte {place}", ended in (UNUSABLE, UNMOVED), True)
        if ended == UNMOVED:
            check(f"byte {place}: what is kept", at_least(kept(here, "s1"), fewest), True)
    check("most are refused", refused > len(places) // 2, True)


# Calls that fail.

# What each try adds to the nonces of those who register; below it is their xTR-ID.
TRY = 10**6
# In how many runs a call fails at most.
MOST_CALLS = 500


def registered(here, it, xtrs, attempt):
    """Registers so many xTR-IDs at once, each with a nonce of its own; the nonces that are answered."""
    for xtr in xtrs:
        it.sendto(map_register(attempt * TRY + xtr, xtr=xtr), (here.s1, PORT))
    return {nonce_in(message) for message in received(it, 0.05)}


def register_all(here, it, batches):
    """Registers batch by batch, and the last one until all of it was answered: the nonces that are, and what is left of it."""
    answered = set()
    for batch in batches:
        answered |= registered(here, it, batch, 1)
    left, attempt, end = set(batches[-1]), 1, time.monotonic() + LIMIT
    while time.monotonic() < end:
        left -= {nonce % TRY for nonce in answered}
        if not left:
            break
        attempt += 1
        answered |= registered(here, it, left, attempt)
    return answered, left


def check_kept(name, here, told):
    """Checks that the database has each nonce that was answered or told of, or a later one of its pair."""
    there = kept(here, "s1")
    check(f"{name}: told, and not kept", [nonce for nonce in sorted(told) if there.get(pair(xtr=nonce % TRY), -1) < nonce], [])


def run_failing(here, it, call, at, error):
    """A Map-Server of which one call fails tells nothing that isn't kept, and goes on. Whether a call failed."""
    folder, name = f"{here.folder}/s1", f"{call} {at}"
    shutil.rmtree(folder, ignore_errors=True)
    process = here.start(*here.words("server", "s1"), env=failing(call, at, "", error, f"{folder}/"), stderr=PIPE)
    until(lambda: process.poll() is not None or is_bound(here.s1))
    has_started = process.poll() is None
    size = 20 if here.store == GROUPS else 2
    batches = [range(first, first + size) for first in range(1000, 4000, 1000)]
    answered, left = register_all(here, it, batches) if has_started else (set(), set())
    lines, told = killed(process), process.stderr.read()
    accepted = {int(line.split()[6]) for line in lines if line.startswith("accepted ")}
    check(f"{name}: not answered at last", left, set())
    check_kept(name, here, answered | accepted)
    if not has_started:
        check(f"{name}: how it ends", (process.returncode, told.lstrip("!")), (1, UNUSABLE[2]))
    elif not {TRY + xtr for batch in batches for xtr in batch} <= accepted:
        wanted = "restarted s1" if here.store == GROUPS else "refused s1 5"
        check(f"{name}: it is told", any(line.startswith(wanted) for line in lines), True)
    check_again(name, here, it, answered)
    return "!" in told


def check_again(name, here, it, answered):
    """Checks that after a crash nothing is answered that was answered before, and that all is well."""
    process = here.start(*here.words("server", "s1"), stderr=DEVNULL)
    check(f"{name}: it starts again", until(lambda: process.poll() is not None or is_bound(here.s1)) and process.poll() is None, True)
    for nonce in answered:
        it.sendto(map_register(nonce, xtr=nonce % TRY), (here.s1, PORT))
    again = {nonce_in(message) for message in received(it, 0.05)}
    check(f"{name}: answered again", again & answered, set())
    check(f"{name}: a fresh one", here.answer(it, map_register(99 * TRY, xtr=99)) is not None, True)
    killed(process)


def a_call_that_fails(call, error):
    """The first call of this kind fails, in the next run the second, and so on."""
    def test(here):
        with peer(here.r1) as it:
            at = next((at for at in range(1, MOST_CALLS) if not run_failing(here, it, call, at, error)), None)
        check(f"{call}: there are calls, and an end of them", at is not None and (at > 5 or call == "cut"), True)
    test.__name__ = f"a_{call}_that_fails"
    return test


def a_router_whose_call_fails(call, error):
    """What it sends is kept, and the next run is above it."""
    def test(here):
        words, folder, source = here.words("router", "r1", "--turns", "1"), f"{here.folder}/r1", f"{here.folder}/source"
        with peer(here.s1) as first, peer(here.s2) as second:
            check("a first run", ran(*words)[0], 0)
            heard(first, second)
            shutil.move(folder, source)
            for at in range(1, MOST_CALLS):
                shutil.rmtree(folder, ignore_errors=True)
                shutil.copytree(source, folder, ignore=UNCOPIED)
                status, output, told = ran(*words, env=failing(call, at, "", error, f"{folder}/"))
                sent = [int(line.split()[-1]) for line in output.splitlines() if line.startswith("sent ")]
                there = kept(here, "r1").get(pair("sent"), 0)
                check(f"{call} {at}: sent, and not kept", max([2, *sent, *heard(first, second)]) <= there, True)
                if status:
                    check(f"{call} {at}: how it ends", (status, output, told), (1, "", f"!{UNUSABLE[2]}"))
                check(f"{call} {at}: the next run", ran(*words)[1].split("\n")[0], f"sent r1 s1 key 1 nonce {there + 1}")
                heard(first, second)
                if not told:
                    break
            check(f"{call}: an end of the calls", told, "")
    test.__name__ = f"a_router_whose_{call}_fails"
    return test


def heard(*peers):
    """The nonces of what has come at our sockets."""
    return [nonce_in(message) for it in peers for message in received(it, 0.001)]


def commits_in(log):
    """How many transactions of a log aren't moved into the database yet (the SQLite file format, section 4.1)."""
    head, frames = log[:32], [log[at:at + 24] for at in range(32, len(log), FRAME)]
    return sum(frame[4:8] != bytes(4) for frame in frames if frame[8:16] == head[16:24])


def a_log_that_is_moved(here):
    """It never has more than some hundred nonces that the database lacks."""
    here.store, most = DATABASE, 0
    process = here.start(*here.words("server", "s1"), stdout=DEVNULL)
    is_up(here.s1)
    with peer(here.r1) as it:
        for nonce in range(1, 1501):
            here.answer(it, map_register(nonce))
            most = max(most, commits_in(Path(f"{here.folder}/s1/{LOG_FILE}").read_bytes()) if nonce % 50 == 0 else 0)
    killed(process)
    check("nonces in the log", 100 < most < 600, True)


def an_empty_database_beside_its_log(here):
    """No crash leaves one: the node says no, where SQLite would begin an empty database and drop the log."""
    here.store = DATABASE
    for count in (5, 1500):
        process = here.start(*here.words("server", "s1"), stdout=DEVNULL)
        is_up(here.s1)
        with peer(here.r1) as it:
            for nonce in range(1, count + 1):
                here.answer(it, map_register(nonce))
        killed(process)
        os.truncate(f"{here.folder}/s1/{DATABASE_FILE}", 0)
        check(f"after {count} nonces", ran(*here.words("server", "s1", "--turns", "0")), UNUSABLE)
        shutil.rmtree(f"{here.folder}/s1")


# Files that somebody takes away.


def copied(database, log):
    shutil.copy(database, f"{database}.copy")
    os.replace(f"{database}.copy", database)


TAKEN_AWAY = {
    "removed": lambda database, log: os.unlink(database),
    "renamed": lambda database, log: os.rename(database, f"{database}.old"),
    "a copy in its place": copied,
    "cut": lambda database, log: os.truncate(database, 0),
    "its log removed": lambda database, log: os.unlink(log),
    "its log cut": lambda database, log: os.truncate(log, os.path.getsize(log) - 100),
}


def a_database_that_is_taken_away(here):
    """While a Map-Server runs its database is removed, renamed, replaced or cut: nothing is answered from then on, and no other one is made."""
    database, log = f"{here.folder}/s1/{DATABASE_FILE}", f"{here.folder}/s1/{LOG_FILE}"
    for name, take_away in TAKEN_AWAY.items():
        process = here.start(*here.words("server", "s1"))
        is_up(here.s1)
        with peer(here.r1) as it:
            check(f"{name}: before", nonce_in(here.answer(it, map_register(1))), 1)
            take_away(database, log)
            there = os.path.exists(database), os.path.exists(log)
            check(f"{name}: it printed", next_line(process), f"accepted s1 r1 key 1 nonce 1 from {here.r1}")
            it.sendto(map_register(2, xtr=2), (here.s1, PORT))
            check(f"{name}: it is said", next_line(process), f"refused s1 59 store 30 NotFound from {here.r1}")
            for nonce in (2, 3):
                it.sendto(map_register(nonce, xtr=nonce), (here.s1, PORT))
            check(f"{name}: answers", received(it, 0.3), [])
        killed(process)
        check(f"{name}: what is there", (os.path.exists(database), os.path.exists(log)), there)
        shutil.rmtree(f"{here.folder}/s1")


# Memory that is refused.


def some_requests():
    """Numbers of requests for memory: each of the first ten, then at random fewer and fewer."""
    at = 1
    while True:
        yield at
        at += random.randint(1, 1 + at // 10)


def memory_is_refused(here):
    """A loop to which a request for memory is refused: what it sends and accepts is kept."""
    script = Path(f"{here.folder}/script")
    script.write_text("send r1 s1\ndeliver 0\n")
    store = Path(f"{here.folder}/loop")
    words = ("loop", here.config, str(script), "--store", str(store), *DATABASE)
    for at in some_requests():
        shutil.rmtree(store, ignore_errors=True)
        status, output, told = ran(*words, env=failing("growth", at))
        if not told:
            check("there are requests", at > 100, True)
            return
        check(f"request {at}: how it ends", status == 0 and told == "!" or (status == 1 and bool(NO_MEMORY.fullmatch(told))), True)
        sent = max([0, *(int(line.split()[6]) for line in output.splitlines() if line.startswith("sent "))])
        taken = max([0, *(int(line.split()[6]) for line in output.splitlines() if line.startswith("accepted "))])
        there = [in_database(store / name).get(of, 0) for name, of in (("r1", pair("sent")), ("s1", pair()))]
        check(f"request {at}: told, and not kept", (sent <= there[0], taken <= there[1]), (True, True))


def memory_is_refused_to_a_group(here):
    """A Map-Server to which a request for memory is refused while a group waits: what it answers and tells is kept."""
    here.store, folder = GROUPS, f"{here.folder}/s1"
    with peer(here.r1) as it:
        for at in some_requests():
            shutil.rmtree(folder, ignore_errors=True)
            process = here.start(*here.words("server", "s1"), env=failing("growth", at), stderr=PIPE)
            until(lambda: process.poll() is not None or is_bound(here.s1))
            answered = set().union(*(registered(here, it, range(first, first + 20), 1) for first in (1000, 2000, 3000)))
            lines, told = killed(process), process.stderr.read()
            accepted = {int(line.split()[6]) for line in lines if line.startswith("accepted ")}
            check_kept(f"request {at}", here, answered | accepted)
            if "!" not in told:
                check("there are requests", (at > 100, len(answered)), (True, 60))
                return


def memory_is_refused_while_files_are_taken(here):
    folder = Path(f"{here.folder}/s1")
    words = (*here.words("server", "s1"), *DATABASE, "--turns", "0")
    for at in some_requests():
        shutil.rmtree(folder, ignore_errors=True)
        fill(folder, OLD)
        status, output, told = ran(*words, env=failing("growth", at))
        if not told:
            check("there are requests", at > 100, True)
            return
        check(f"request {at}: how it ends", (status, told) == (0, "!") or (status == 1 and bool(NO_MEMORY.fullmatch(told))), True)
        check(f"request {at}: one of both is whole", in_files(folder) == OLD or in_database(folder) == OLD, True)
        check(f"request {at}: the next start", ran(*words), UNMOVED)
        check_taken(f"request {at}: the next start", folder, OLD)


run_tests([a_database_tells_of_itself, a_router_s_database, kinds_are_kept_apart, the_words, files_are_taken_over,
           a_router_s_files_are_taken_over, the_greatest_nonce_counts, files_over_a_database, a_damaged_file_isn_t_taken_over,
           killed_while_files_are_taken("kill"), killed_while_files_are_taken("tear"), killed_while_older_files_are_taken,
           a_database_that_was_put_back, a_start_that_knows_no_machine, a_log_without_its_database, what_is_no_database,
           a_database_without_its_log, a_database_that_is_read, killed_over_no_folder("kill"), killed_over_no_folder("tear"),
           what_is_told_of_a_database, a_damaged_page, a_damaged_log,
           a_log_that_is_moved, an_empty_database_beside_its_log, *(over(store, a_database_that_is_taken_away) for store in (DATABASE, GROUPS)),
           *(over(store, a_call_that_fails(call, error)) for store in (DATABASE, GROUPS)
             for call, error in (("sync", errno.EIO), ("write", errno.ENOSPC), ("cut", errno.EIO))),
           *(over(DATABASE, a_router_whose_call_fails(call, error))
             for call, error in (("sync", errno.EIO), ("write", errno.ENOSPC), ("cut", errno.EIO), ("open", errno.EIO), ("read", errno.EIO))),
           memory_is_refused, memory_is_refused_to_a_group, memory_is_refused_while_files_are_taken])
