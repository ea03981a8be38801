#!/usr/bin/env -S python3 -B
"""checking_store.py PROGRAM [TEST ..]
`lispd check-store`, over files and over databases: each nonce that a node keeps is printed, of each kind and up to the greatest, and each file
that is damaged, with the others; a database that is cut or overwritten is found; files of others, half written ones and those that were taken
over are left out. Nothing in the folder is changed. Folders that it can't use, a node that runs, an output that is full.
Prints each check that fails, and ends with 1 where one does."""
import contextlib
import errno
import os
import socket
import sqlite3
from pathlib import Path

from nodes import (DATABASE, FILES, PORT, SITE, XTR, check, failing, in_words, is_up, killed, map_register, nonce_in, nonce_text, over, peer,
                   ran, run_tests, system)
from nonces import DATABASE_FILE, LOG_FILE, MOST, kept, pair, put_file

# How long a run may take over much, in seconds.
SLOW = 120
# The bytes of a page of a database.
PAGE = 4096
# The greatest nonce of a router.
LAST = 2**63 - 1
# In the order in which they are printed.
NONCES = {pair("sent"): 3, pair("sent", xtr=77): LAST, pair("sent", site=3): 2**63, pair(site=0, key=0): 0, pair(xtr=0): 10**19, pair(): 1,
          pair(key=255): MOST, pair(xtr=2**127): LAST, pair(site=2**64 - 1, xtr=0): MOST - 9, pair("notice", 0, 0, 0): 2**63,
          pair("notice", site=5): MOST - 1}
MANY = {pair(xtr=number): number for number in range(300)}
# What is wrong with a database, and with a file.
NO_DATABASE, DAMAGED_FILE = "isn't a database of nonces, or is damaged", "a file of nonces in it is damaged"
# Contents that are no text of a nonce.
CONTENTS = {"emptied": b"", "truncated": b"nonce 0000000000000001", "without its line feed": nonce_text(1)[:-1], "over-long": nonce_text(1) + b"\n",
            "much longer": b"nonce " + b"1" * 9_000_000, "not decimal": b"nonce 0000000000000000000x\n", "zeros": bytes(27),
            "another word": b"Nonce 00000000000000000001\n", "too great": b"nonce %d\n" % 2**64, "signed": b"nonce +0000000000000000001\n"}


def lines(nonces, damaged=(), name="s1"):
    """The lines of a store with these nonces, in their order, and damaged files with why."""
    found = "".join(f"found {kind} {site} {xtr} key {key} nonce {nonce}\n" for (kind, site, xtr, key), nonce in nonces.items())
    return found + "".join(f"damaged {file} {why}\n" for file, why in damaged) + f"store {name} nonces {len(nonces)} damaged {len(damaged)}\n"


def words(here, name="s1", store=None):
    return ("check-store", name, "--store", here.folder, *(here.store if store is None else store))


def fill(here, nonces, name="s1"):
    """Makes the folder of a node, which keeps these nonces."""
    folder = f"{here.folder}/{name}"
    os.makedirs(folder)
    for of, nonce in nonces.items():
        put_file(folder, of, nonce)
    if here.store == DATABASE:
        check("they are taken over", ran(*here.words("server", name, "--turns", "0"), patience=SLOW), (0, "", ""))
    Path(f"{folder}/lock").touch()
    return folder


def content(folder):
    """All that a folder has but for its lock, which is opened anew: each name with its kind, its bytes and when they were changed."""
    return {it.name: (it.lstat().st_mode, it.lstat().st_mtime_ns, it.read_bytes() if it.is_file() else b"")
            for it in Path(folder).iterdir() if it.name != "lock"}


def changed_in(folder, before):
    """The names of a folder whose content isn't as it was."""
    now = content(folder)
    return sorted(it for it in {*now, *before} if before.get(it) != now.get(it))


def looked(here, wanted):
    """Checks what is printed of the folder of s1, by its status, its lines and its words, and that nothing is changed there."""
    folder = f"{here.folder}/s1"
    before = content(folder)
    status, printed, error = ran(*words(here), "--words", patience=SLOW)
    fault, _, told = error.partition("\n")
    check("what it prints", (status, printed, fault, told.rstrip("\n").rpartition(" --words: ")[2]), wanted)
    check("what is changed", changed_in(folder, before), [])


def whole(nonces):
    return 0, lines(nonces), "", ""


def damaged(here, nonces, files):
    return 1, lines(nonces, files), "lispd: fault 93", f"{here.folder}/s1: {DAMAGED_FILE}"


# What is kept.


def every_kind(here):
    """All that can be kept, in order."""
    fill(here, NONCES)
    check("what is kept", kept(here, "s1"), NONCES)
    looked(here, whole(NONCES))


def nothing_kept(here):
    fill(here, {})
    looked(here, whole({}))


def after_registrations(here):
    """What a Map-Server accepted and noticed, and what its router sent; the log of a database has it all, or a part."""
    process = here.start(*here.words("server", "s1"))
    is_up(here.s1)
    check("the router runs", ran(*here.words("router", "r1", "--turns", "3"))[0], 0)
    with peer(here.r1) as it:
        for nonce in range(2**62, 2**62 + 40):
            check(f"nonce {nonce} is accepted", nonce_in(here.answer(it, map_register(nonce, xtr=nonce % 3))), nonce)
    killed(process)
    looked(here, whole(dict(sorted(kept(here, "s1").items(), key=order))))
    ((of, nonce),) = kept(here, "r1").items()
    check("the router's", ran(*words(here, "r1")), (0, lines({of: nonce}, name="r1"), ""))


def order(item):
    (kind, *others), _ = item
    return ("sent", "received", "notice").index(kind), *others


def other_files(here):
    """Files that are no part of a store: those of others, of a crash, of a take-over, a socket, folders; names that are nearly a pair's."""
    folder = fill(here, NONCES)
    name = here.file("s1", "r").name
    for other in (f"{name}.new", f"{name}.taken", f"{name}~", f".{name}", name.upper(), f"x{name[1:]}", name[1:], name.replace("-", "_"),
                  "notes.txt", "nonces.db.new", "control.old", "\u00e9" * 60, f"{'0' * 54}.nonce"):
        Path(f"{folder}/{other}").write_bytes(b"?")
    with open(os.fsencode(folder) + b"/\xff" + b"a" * 53 + b".nonce", "wb"):
        pass
    os.makedirs(f"{folder}/sub/{name}")
    with socket.socket(socket.AF_UNIX) as it, contextlib.suppress(OSError):
        it.bind(f"{folder}/control")
    looked(here, whole(NONCES))


# What is damaged.


def damaged_contents(here):
    """Each content that is no text of a nonce is found, and the others are printed."""
    folder = fill(here, NONCES)
    files = []
    for number, bytes_ in enumerate(CONTENTS.values()):
        file = here.file("s1", "r", site=9, xtr=number)
        file.write_bytes(bytes_)
        files.append((file.name, "content"))
        looked(here, damaged(here, NONCES, files))
    others = Path(folder).glob("*.nonce")
    check("how many there are", len(list(others)), len(NONCES) + len(CONTENTS) if here.store == FILES else len(CONTENTS))


def in_order(here):
    """Damaged files are printed in the order of their pairs."""
    fill(here, {})
    files = [here.file("s1", kind, site=site).name for kind in "srn" for site in (1, 2, 2**63)]
    for file in reversed(files):
        Path(f"{here.folder}/s1/{file}").touch()
    looked(here, damaged(here, {}, [(file, "content") for file in files]))


def no_files(here):
    """What has the name of a pair's file and is none; a link to a file of a nonce too."""
    folder = fill(here, NONCES)
    paths = [here.file("s1", "n", site=9, xtr=number) for number in range(5)]
    paths[0].mkdir()
    os.mkfifo(paths[1])
    paths[2].symlink_to("/dev/zero")
    paths[3].symlink_to("nowhere")
    Path(f"{folder}/other").write_bytes(nonce_text(1))
    paths[4].symlink_to("other")
    looked(here, damaged(here, NONCES, [(it.name, "no-file") for it in paths]))


def reads_that_fail(here):
    """A file that the disk doesn't give, or that may not be read; the others are read."""
    fill(here, NONCES)
    of = here.file("s1", "r")
    others = {it: nonce for it, nonce in NONCES.items() if it != pair()}
    for call, error, why in (("read", errno.EIO, "unread"), ("open", errno.EACCES, "denied"), ("open", errno.EIO, "unread")):
        status, printed, told = ran(*words(here), env=failing(call, path=of.name, error=error))
        check(f"{call} fails with {errno.errorcode[error]}", (status, printed, told), (1, lines(others, [(of.name, why)]), "!lispd: fault 93\n"))


def in_databases_and_files(here):
    """Beside a database files are read too, which the node takes over at its start; nothing is taken over here."""
    folder = fill(here, NONCES)
    more = {pair("sent", site=7): 7, pair("notice", site=2**63): 9}
    for of, nonce in more.items():
        put_file(folder, of, nonce)
    looked(here, whole(dict(sorted({**NONCES, **more}.items(), key=order))))
    file = here.file("s1", "s", site=8)
    file.touch()
    looked(here, damaged(here, dict(sorted({**NONCES, **more}.items(), key=order)), [(file.name, "content")]))


def refused(here, problem, file=DATABASE_FILE):
    return 1, "", "lispd: fault 93", f"{here.folder}/s1/{file}: {problem}"


def cut_databases(here):
    """A database that is cut anywhere, before its log is brought into it and after that: all nonces are found, or fault 93 is."""
    folder, nonces = fill(here, MANY), MANY
    database, log = Path(f"{folder}/{DATABASE_FILE}"), Path(f"{folder}/{LOG_FILE}")
    for is_settled in (False, True):
        if is_settled:
            settle(folder)
        looked(here, whole(nonces))
        bytes_ = database.read_bytes()
        for at in (0, 1, 16, 100, PAGE - 1, PAGE, PAGE + 1, 2 * PAGE, len(bytes_) // 2, len(bytes_) - PAGE, len(bytes_) - 1):
            database.write_bytes(bytes_[:at])
            if is_settled:
                check(f"cut at {at}", seen(here)[:2], (1, ""))
            else:
                check(f"cut at {at} beside its log", seen(here)[:2] in (whole(nonces)[:2], (1, "")), True)
        database.write_bytes(bytes_)
    check("it is whole again", seen(here), (*whole(nonces)[:2], ""))
    check("its log", log.read_bytes(), b"")


def cut_logs(here):
    """A log that is cut looks as a crash leaves it: its one transaction is there, or isn't."""
    folder = fill(here, MANY)
    log = Path(f"{folder}/{LOG_FILE}")
    bytes_ = log.read_bytes()
    for at in (0, 1, 31, 32, 100, PAGE, len(bytes_) // 3, len(bytes_) // 2, len(bytes_) - 1):
        log.write_bytes(bytes_[:at])
        check(f"cut at {at}", seen(here)[:2] in (whole(MANY)[:2], whole({})[:2]), True)
    log.write_bytes(bytes_)
    looked(here, whole(MANY))


def overwritten_databases(here):
    """A page is overwritten with zeros, of a database of which all is in its file."""
    folder = fill(here, MANY)
    settle(folder)
    looked(here, whole(MANY))
    database = Path(f"{folder}/{DATABASE_FILE}")
    bytes_ = database.read_bytes()
    check("its pages", len(bytes_) // PAGE > 8, True)
    for at in range(0, len(bytes_), PAGE):
        database.write_bytes(bytes_[:at] + bytes(PAGE) + bytes_[at + PAGE:])
        status, printed, told = seen(here)
        check(f"page {at // PAGE + 1}", (status, printed, told.startswith("lispd: fault 93\n")), (1, "", True))
    database.write_bytes(bytes_)
    looked(here, whole(MANY))


def settle(folder):
    """Brings the log of a database into its file, and empties it."""
    with contextlib.closing(sqlite3.connect(f"{folder}/{DATABASE_FILE}")) as database:
        database.execute("PRAGMA wal_checkpoint(TRUNCATE)").fetchall()
    Path(f"{folder}/{LOG_FILE}").write_bytes(b"")


def seen(here):
    """The status, the lines and standard error; checks that nothing in the folder of s1 is changed."""
    folder = f"{here.folder}/s1"
    before = content(folder)
    ended = ran(*words(here), patience=SLOW)
    check("what is changed", changed_in(folder, before), [])
    return ended


def other_databases(here):
    """A log that is gone, another file in the place of a database, a folder, a link."""
    folder = fill(here, NONCES)
    database, log = Path(f"{folder}/{DATABASE_FILE}"), Path(f"{folder}/{LOG_FILE}")
    bytes_, logged = database.read_bytes(), log.read_bytes()
    log.unlink()
    looked(here, refused(here, "its log (-wal) is gone; sqlite3 without -readonly removes it"))
    log.write_bytes(logged)
    database.write_bytes(b"nonces\n" * 1000)
    looked(here, refused(here, NO_DATABASE))
    database.unlink()
    looked(here, refused(here, "isn't there"))
    database.mkdir()
    looked(here, refused(here, "isn't a file"))
    database.rmdir()
    database.symlink_to("elsewhere")
    looked(here, refused(here, "isn't a file"))
    database.unlink()
    database.write_bytes(bytes_)
    looked(here, whole(NONCES))


# Folders that can't be used, and ends before the end.


def folders_that_can_t_be_used(here):
    folder = f"{here.folder}/s1"
    for store in (FILES, DATABASE):
        check(f"none {store}", in_words(*words(here, store=store)), (1, 93, f"{folder}: can't be looked at: {system(errno.ENOENT)}"))
    check("none is made", os.path.exists(folder), False)
    Path(folder).write_text("")
    check("a file", in_words(*words(here)), (1, 93, f"{folder}: isn't a folder"))
    os.remove(folder)
    fill(here, NONCES)
    check("no database", in_words(*words(here, store=DATABASE)), (1, 93, f"{folder}/{DATABASE_FILE}: isn't there"))
    here.store = DATABASE
    check("it is made", ran(*here.words("server", "s1", "--turns", "0")), (0, "", ""))
    check("a database", in_words(*words(here, store=FILES)), (1, 93, f"{folder}/{DATABASE_FILE}: a database has the nonces: give --database"))


def a_node_that_runs(here):
    process = here.start(*here.words("server", "s1"))
    is_up(here.s1)
    with peer(here.r1) as it:
        check("it accepts", nonce_in(here.answer(it, map_register(5))), 5)
    check("while it runs", in_words(*words(here)), (1, 93, f"{here.folder}/s1: another process has it"))
    killed(process)
    looked(here, whole({pair(site=SITE, xtr=XTR): 5}))


def an_output_that_is_full(here):
    fill(here, NONCES)
    with open("/dev/full", "w") as full:
        check("it", ran(*words(here), stdout=full), (1, None, "lispd: fault 88\n"))
    check("what is kept", kept(here, "s1"), NONCES)


run_tests([*(over(store, test) for store in (FILES, DATABASE)
             for test in (every_kind, nothing_kept, after_registrations, other_files, damaged_contents, in_order, no_files, a_node_that_runs,
                          an_output_that_is_full)),
           reads_that_fail, folders_that_can_t_be_used,
           *(over(DATABASE, test) for test in (in_databases_and_files, cut_databases, cut_logs, overwritten_databases, other_databases))])
