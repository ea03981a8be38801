#!/usr/bin/env -S python3 -B
"""backups.py PROGRAM [TEST ..]
`lispd tell FOLDER backup FILE`, over databases, of each save by itself and of groups: copies beside registrations have what was accepted
before, and nothing that wasn't by then; one that is put back and raised refuses what was accepted since. Names that it doesn't take, files that
are there, a node over files, a router, a disk that fails.
Prints each check that fails, and ends with 1 where one does."""
import contextlib
import errno
import os
import shutil
import sqlite3
import tempfile
import threading
from pathlib import Path

from nodes import (DATABASE, FILES, GROUPS, PORT, XTR, check, failing, is_up, killed, map_register, next_line, nonce_in, over, peer, ran,
                   run_tests, until)
from nonces import DATABASE_FILE, END, LOG_FILE, check_row, check_table, kept, pair

REFUSED = (3, "fault 145\n", "lispd: fault 145\n")
# How many copies are made beside registrations, and how many routers register there.
COPIES, ROUTERS = 20, 5


def backup(here, file, name="s1"):
    return ran("tell", f"{here.folder}/{name}", "backup", file)


def in_copy(folder, file):
    """The nonces of a copy, by their pairs, as sqlite3 reads it in another folder; checks that it is whole."""
    with tempfile.TemporaryDirectory() as other:
        for end in ("", "-wal"):
            shutil.copy(f"{folder}/{file}{end}", other)
        with contextlib.closing(sqlite3.connect(f"{other}/{file}")) as database:
            check_table(database)
            rows = database.execute("SELECT * FROM nonces").fetchall()
    for row in rows:
        check_row(row)
    return {tuple(row[:-1]): int(row[-1]) for row in rows}


def size(folder, file):
    return sum(os.path.getsize(f"{folder}/{file}{end}") for end in ("", "-wal"))


def made(here, file, name="s1"):
    """Makes a copy, and checks what is said of it; what it has."""
    folder = f"{here.folder}/{name}"
    before = sorted(os.listdir(folder))
    ended = backup(here, file, name)
    check(f"{file} is made", ended, (0, f"backup {name} {file} bytes {size(folder, file)}\n", ""))
    check(f"what is there beside {file}", sorted(os.listdir(folder)), sorted([*before, file, f"{file}-wal"]))
    return in_copy(folder, file)


def register(here, it, nonces):
    for xtr, nonce in nonces.items():
        check(f"xTR-ID {xtr}: nonce {nonce}", nonce_in(here.answer(it, map_register(nonce, xtr=xtr))), nonce)


def of_pairs(nonces):
    return {pair(xtr=xtr): nonce for xtr, nonce in nonces.items()}


# What a copy has.


def of_one_moment(here):
    """What was accepted before; nothing else. The node goes on, and its own database has what it would have."""
    here.start(*here.words("server", "s1"))
    is_up(here.s1)
    check("nothing yet", made(here, "empty.db"), {})
    with peer(here.r1) as it:
        register(here, it, {XTR: 5, XTR + 1: 2**63})
        first = made(here, "first")
        check("the first", first, of_pairs({XTR: 5, XTR + 1: 2**63}))
        register(here, it, {XTR: 6, XTR + 2: 1})
        check("the second", made(here, "A-z_0.9"), of_pairs({XTR: 6, XTR + 1: 2**63, XTR + 2: 1}))
        check("the first once more", in_copy(f"{here.folder}/s1", "first"), first)
    killed(here.processes[-1])
    check("what is kept", kept(here, "s1"), of_pairs({XTR: 6, XTR + 1: 2**63, XTR + 2: 1}))
    check("what is checked", ran("check-store", "s1", "--store", here.folder, "--database")[0], 0)


def beside_registrations(here):
    """Each copy has at least what was answered before it was asked for, and at most what was sent before it was there."""
    here.start(*here.words("server", "s1"))
    is_up(here.s1)
    sent, answered, ends = dict.fromkeys(range(ROUTERS), 0), dict.fromkeys(range(ROUTERS), 0), threading.Event()

    def send():
        # (An answer doesn't say whose it is: the nonce of router N has the remainder N.)
        with peer(here.r1) as it:
            it.settimeout(2)
            while not ends.is_set():
                for xtr in range(ROUTERS):
                    sent[xtr] = (sent[xtr] // ROUTERS + 1) * ROUTERS + xtr
                    it.sendto(map_register(sent[xtr], xtr=xtr), (here.s1, PORT))
                for _ in range(ROUTERS):
                    with contextlib.suppress(TimeoutError):
                        nonce = nonce_in(it.recv(65535))
                        answered[nonce % ROUTERS] = max(answered[nonce % ROUTERS], nonce)

    side = threading.Thread(target=send)
    side.start()
    check("they are accepted", until(lambda: min(answered.values()) > 2 * ROUTERS), True)
    for number in range(COPIES):
        before = dict(answered)
        found = made(here, f"copy{number}.db")
        after = dict(sent)
        for xtr in range(ROUTERS):
            check(f"copy {number}: of router {xtr}", before[xtr] <= found.get(pair(xtr=xtr), 0) <= after[xtr], True)
    ends.set()
    side.join()
    killed(here.processes[-1])


def of_much(here):
    """A log that goes over into the database, more than once."""
    here.start(*here.words("server", "s1"))
    is_up(here.s1)
    wanted = {}
    with peer(here.r1) as it:
        for number in range(2_400):
            xtr, nonce = number % 300, number + 1
            it.sendto(map_register(nonce, xtr=xtr), (here.s1, PORT))
            check(f"nonce {nonce}", nonce_in(it.recv(65535)), nonce)
            wanted[pair(xtr=xtr)] = nonce
            if number % 400 == 399:
                check(f"after {nonce}", made(here, f"after{nonce}"), wanted)


def put_back(here):
    """A copy in the place of a lost database, raised, refuses what was accepted since, and a router above that is accepted."""
    process = here.start(*here.words("server", "s1"))
    folder = f"{here.folder}/s1"
    is_up(here.s1)
    with peer(here.r1) as it:
        register(here, it, {XTR: 5})
        made(here, "monday.db")
        register(here, it, {XTR: 8})
    killed(process)
    shutil.copy(f"{folder}/monday.db", f"{folder}/{DATABASE_FILE}")
    shutil.copy(f"{folder}/monday.db-wal", f"{folder}/{LOG_FILE}")
    check("what it has", ran("check-store", "s1", "--store", here.folder, "--database")[:2],
          (0, f"found received {pair()[1]} {pair()[2]} key 1 nonce 5\nstore s1 nonces 1 damaged 0\n"))
    check("it is raised", ran("raise", "s1", "10", "--store", here.folder, "--database"),
          (0, f"raised received {pair()[1]} {pair()[2]} key 1 nonce 15\n", ""))
    check("what is kept", kept(here, "s1"), of_pairs({XTR: 15}))
    here.start(*here.words("server", "s1"))
    is_up(here.s1)
    with peer(here.r1) as it:
        check("an old one is refused", here.answer(it, map_register(8), patience=0.3), None)
        register(here, it, {XTR: 16})


def of_a_router(here):
    process = here.start(*here.words("router", "r1"))
    check("it sends", next_line(process).split()[0], "sent")
    check("its pair", [of[0] for of in made(here, "r1.db", "r1")], ["sent"])


# What isn't copied.


def names_that_aren_t_plain(here):
    """A name can't lead elsewhere, and is none of a file that the node reads or makes itself."""
    here.start(*here.words("server", "s1"))
    is_up(here.s1)
    before = sorted(os.listdir(f"{here.folder}/s1"))
    for name in ("../x", "a/b", "/tmp/x", ".", "..", ".x", "x y", "x\u00e9", "x*", "x\\", "x:y", "", "x" * 101, "nonces.db", "nonces.db-wal",
                 "nonces.db-journal", "nonces.db.new", "nonces.dbx", "control", "lock", f"s-{'0' * 16}-{'0' * 32}-01{END}", END):
        ended = backup(here, name)
        check(f"name {name!r}", ended, REFUSED)
    check("what is there", sorted(os.listdir(f"{here.folder}/s1")), before)
    check("no name", ran("tell", f"{here.folder}/s1", "backup")[0], 2)
    made(here, "x" * 100)


def files_that_are_there(here):
    """What stands at a name stays as it is, whatever it is."""
    here.start(*here.words("server", "s1"))
    folder = Path(f"{here.folder}/s1")
    is_up(here.s1)
    (folder / "file").write_text("mine")
    (folder / "folder").mkdir()
    (folder / "link").symlink_to("/etc/hostname")
    (folder / "nowhere").symlink_to("lost")
    (folder / "log-wal").write_text("mine")
    (folder / "half.new").write_text("mine")
    (folder / "halflog-wal.new").write_text("mine")
    before = sorted(os.listdir(folder))
    for name in ("file", "folder", "link", "nowhere", "log", "half", "halflog"):
        check(name, backup(here, name), REFUSED)
    check("what is there", sorted(os.listdir(folder)), before)
    check("what it is", [(folder / name).read_text() for name in ("file", "log-wal", "half.new", "halflog-wal.new")], ["mine"] * 4)
    made(here, "other")
    check("once more", backup(here, "other"), REFUSED)


def a_node_over_files(here):
    here.store = FILES
    here.start(*here.words("server", "s1"))
    is_up(here.s1)
    before = sorted(os.listdir(f"{here.folder}/s1"))
    check("over files", backup(here, "x"), REFUSED)
    check("what is there", sorted(os.listdir(f"{here.folder}/s1")), before)


def a_disk_that_fails(here):
    """A copy that can't be made leaves no file of its name; the node goes on, and the next one is made."""
    for number, (call, path) in enumerate([("write", "x.new"), ("sync", "x.new"), ("open", "x.new"), ("rename", "x"), ("renamed", "x"),
                                           ("write", "x-wal.new"), ("sync", "x-wal.new"), ("rename", "x-wal"), ("renamed", "x-wal")]):
        process = here.start(*here.words("server", "s1"), env=failing(call, path=f"/{path}", error=errno.EIO), stderr=-3)
        is_up(here.s1)
        folder = f"{here.folder}/s1"
        before = sorted(os.listdir(folder))
        check(f"{call} of {path}", backup(here, "x"), REFUSED)
        check(f"{call} of {path}: what is there", sorted(os.listdir(folder)), before)
        made(here, f"other{number}")
        killed(process)


run_tests([*(over(store, test) for store in (DATABASE, GROUPS) for test in (of_one_moment, beside_registrations, of_much, put_back)),
           *(over(DATABASE, test) for test in (of_a_router, names_that_aren_t_plain, files_that_are_there, a_node_over_files, a_disk_that_fails))])
