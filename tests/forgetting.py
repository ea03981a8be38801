#!/usr/bin/env -S python3 -B
"""forgetting.py PROGRAM [TEST ..]
What `lispd forget` lists of the nonces that a Map-Server keeps of routers, in files and in a database, which of a list it names as unheard,
and which it removes; what a Map-Server accepts then; lists with faults, folders that it can't use, kills and outputs that are full.
Prints each check that fails, and ends with 1 where one does."""
import errno
import os
import signal
import time
from pathlib import Path

from nodes import (DATABASE, FILES, PORT, SITE, XTR, check, failing, in_words, is_up, killed, map_register, next_line, nonce_in,
                   over, peer, ran, run_tests, system, with_slow_syncs)
from nonces import DATABASE_FILE, MOST, in_files, kept, pair, put_file

# The most bytes of a list.
LONGEST = 16_777_216
# How long a run may take over much, in seconds.
SLOW = 120
# Nonces of a Map-Server: two sites, three xTR-IDs, two keys, the least and the greatest nonce.
NONCES = {pair(): 1, pair(key=255): MOST, pair(xtr=2**127): 2**63, pair(xtr=0): 10**19, pair(site=2**64 - 1, xtr=0): 7, pair(site=0, key=0): 0}
# Those that it never lists.
OTHERS = {pair("sent"): 3, pair("notice"): 2**63 + 5, pair("sent", xtr=77): 4, pair("notice", 0, 0, 0): 2**63}


def lines(nonces, word="kept"):
    """The lines of nonces that were received, in the order Site-ID, xTR-ID, key."""
    return "".join(f"{word} {site} {xtr} key {key} nonce {nonce}\n" for (kind, site, xtr, key), nonce in sorted(nonces.items())
                   if kind == "received")


def words(here, *more):
    return ("forget", "s1", "--store", here.folder, *here.store, *more)


def listed(here, name, text):
    """The path of a list with a text."""
    path = f"{here.folder}/{name}"
    Path(path).write_text(text)
    return path


def registered(here, nonces):
    """Map-Server s1 runs, takes a Map-Register of routers by their xTR-IDs with a nonce each, in this order, and is stopped."""
    process = here.start(*here.words("server", "s1"))
    is_up(here.s1)
    with peer(here.r1) as it:
        for xtr, nonce in nonces.items():
            check(f"xTR-ID {xtr}: nonce {nonce} is accepted", nonce_in(here.answer(it, map_register(nonce, xtr=xtr))), nonce)
    killed(process)


def fill(here, nonces):
    """Makes the folder of s1, which keeps these nonces."""
    folder = f"{here.folder}/s1"
    os.makedirs(folder)
    for of, nonce in nonces.items():
        put_file(folder, of, nonce)
    if here.store == DATABASE:
        check("they are taken over", ran(*here.words("server", "s1", "--turns", "0"), patience=SLOW), (0, "", ""))
    check("what is kept", kept(here, "s1"), nonces)


# What is listed, and what is removed.


def a_router_that_is_gone(here):
    """A list, a list of those that weren't heard since, and their removal; what a Map-Server takes then."""
    registered(here, {XTR: 5, XTR + 1: 2**63, XTR + 2: 7, XTR + 3: 9})
    kept_in_june = {pair(xtr=XTR): 5, pair(xtr=XTR + 1): 2**63, pair(xtr=XTR + 2): 7, pair(xtr=XTR + 3): 9}
    check("a list", ran(*words(here)), (0, lines(kept_in_june), ""))
    june = listed(here, "june", lines(kept_in_june))
    check("nobody was heard since", ran(*words(here, june)), (0, lines(kept_in_june), ""))
    registered(here, {XTR + 1: 2**63 + 1, XTR + 9: 1})
    left = {pair(xtr=XTR): 5, pair(xtr=XTR + 2): 7, pair(xtr=XTR + 3): 9}
    check("those that weren't heard", ran(*words(here, june)), (0, lines(left), ""))
    # One is crossed out, and one is heard before the removal.
    first, second, third = lines(left).splitlines(keepends=True)
    unheard = listed(here, "unheard", f"# of June\n\n{first}#{second}{third}")
    registered(here, {XTR + 3: 10})
    check("the removal", ran(*words(here, "--remove", unheard)), (0, lines({pair(xtr=XTR): 5}, "forgotten"), ""))
    now = {pair(xtr=XTR + 1): 2**63 + 1, pair(xtr=XTR + 2): 7, pair(xtr=XTR + 3): 10, pair(xtr=XTR + 9): 1}
    check("what is kept then", kept(here, "s1"), now)
    check("a list then", ran(*words(here)), (0, lines(now), ""))
    check("once more", ran(*words(here, "--remove", unheard)), (0, "", ""))
    check("and what is kept", kept(here, "s1"), now)
    # What is risked: an old Map-Register of the router that was forgotten is accepted again, once; of others none is.
    process = here.start(*here.words("server", "s1"))
    is_up(here.s1)
    next_line_of(process, "started")
    with peer(here.r1) as it:
        check("the old message of the router that is gone", nonce_in(here.answer(it, map_register(5, xtr=XTR))), 5)
        next_line_of(process, "accepted")
        for number, (xtr, nonce, saved) in enumerate(((XTR, 5, 5), (XTR + 2, 7, 7), (XTR + 3, 9, 10), (XTR + 1, 2**63, 2**63 + 1)), 100):
            with peer(f"{here.front}{number}") as other:
                other.sendto(map_register(nonce, xtr=xtr), (here.s1, PORT))
                check(f"xTR-ID {xtr}: an old message", next_line(process), f"refused s1 57 saved {saved} from {here.front}{number}")


def next_line_of(process, word):
    """The next line, which begins with a word."""
    line = process.stdout.readline()
    check(f"a line {word}", line.split()[0], word)


def only_what_was_received(here):
    """All that can be kept; what routers sent, and the nonces of notices, are neither listed nor removed."""
    fill(here, NONCES | OTHERS)
    check("a list", ran(*words(here)), (0, lines(NONCES), ""))
    # The lines that those of other kinds would have.
    others = "".join(f"kept {site} {xtr} key {key} nonce {nonce}\n" for (_, site, xtr, key), nonce in OTHERS.items())
    check("lines of other kinds", ran(*words(here, "--remove", listed(here, "others", others))), (0, "", ""))
    check("nothing is removed", kept(here, "s1"), NONCES | OTHERS)
    every = listed(here, "every", lines(NONCES) + others)
    check("all", ran(*words(here, "--remove", every)), (0, lines(NONCES, "forgotten"), ""))
    check("what is left", kept(here, "s1"), OTHERS)
    check("an empty list", ran(*words(here)), (0, "", ""))


def another_nonce_another_key(here):
    """What differs in one number from what is kept isn't."""
    fill(here, NONCES)
    beside = [*(lines({of: nonce ^ 1}) for of, nonce in NONCES.items()),
              *(lines({(kind, site, xtr, key ^ 2): nonce}) for (kind, site, xtr, key), nonce in NONCES.items()),
              *(lines({(kind, f"{int(site, 16) ^ 4:016x}", xtr, key): nonce}) for (kind, site, xtr, key), nonce in NONCES.items()),
              *(lines({(kind, site, f"{int(xtr, 16) ^ 8:032x}", key): nonce}) for (kind, site, xtr, key), nonce in NONCES.items())]
    check("what is beside them", ran(*words(here, listed(here, "beside", "".join(beside)))), (0, "", ""))
    check("its removal", ran(*words(here, "--remove", listed(here, "beside", "".join(beside)))), (0, "", ""))
    check("what is kept", kept(here, "s1"), NONCES)
    # Lists that were put together, in any order, with lines that are twice in them.
    joined = listed(here, "joined", "".join(reversed(beside)) + "".join(reversed(lines(NONCES).splitlines(keepends=True))) + lines(NONCES))
    check("lists put together", ran(*words(here, joined)), (0, lines(NONCES), ""))
    check("their removal", ran(*words(here, "--remove", joined)), (0, lines(NONCES, "forgotten"), ""))
    check("what is left", kept(here, "s1"), {})


# Lists.


def lists_with_faults(here):
    fill(here, {pair(): 8})
    line = lines({pair(): 8})
    site, xtr = f"{SITE:016x}", f"{XTR:032x}"
    wrong = [f"kept {site} {xtr} key 1 nonce 08", f"kept {site} {xtr} key 01 nonce 8", f"kept {site} {xtr} key 256 nonce 8",
             f"kept {site} {xtr} key 1 nonce {2**64}", f"kept {site} {xtr} key 1 nonce -8", f"kept {site} {xtr} key 1 nonce",
             f"kept {site} {xtr} key 1 nonce 8 ", f" kept {site} {xtr} key 1 nonce 8", f"kept  {site} {xtr} key 1 nonce 8",
             f"kept {site}\t{xtr} key 1 nonce 8", f"kept {site[1:]} {xtr} key 1 nonce 8", f"kept {site} {xtr}0 key 1 nonce 8",
             f"kept {site} {xtr[:-1]}A key 1 nonce 8", f"kept {site} {xtr} Key 1 nonce 8", f"kept {site} {xtr} key 1 nonce 8 #",
             f"forgotten {site} {xtr} key 1 nonce 8", f"KEPT {site} {xtr} key 1 nonce 8", "kept", " #", "\t", "\x0b", "\u00a0", "\ufeff", "x"]
    for text in wrong:
        for before, after in (("", ""), ("\n#\n", f"{line}y\n"), (line, line)):
            faulty = listed(here, "faulty", f"{before}{text}\n{after}")
            told = (2, "", f"lispd: fault 141 line {before.count(chr(10)) + 1}\n")
            check(f"{text!r} after {before!r}", ran(*words(here, faulty)), told)
            check(f"{text!r} after {before!r}, to remove", ran(*words(here, "--remove", faulty)), told)
    check("nothing is removed", kept(here, "s1"), {pair(): 8})
    faulty = words(here, listed(here, "faulty", "\nx"), "--words")
    check("in words", ran(*faulty), (2, "", f"lispd: fault 141 line 2\nlispd {' '.join(faulty)}: correct the line, or put `#` before it\n"))
    for text in ("", "\n", "   \n", "#", "#x\n#\ufeff\n", "\r\n#\r\n"):
        check(f"a list that says nothing: {text!r}", ran(*words(here, listed(here, "silent", text))), (0, "", ""))
    for text in (line, line.rstrip(), line.replace("\n", "\r\n"), f"\n  \n{line}#"):
        check(f"a list {text!r}", ran(*words(here, listed(here, "right", text))), (0, line, ""))


def lists_that_can_t_be_read(here):
    fill(here, {pair(): 8})
    path = f"{here.folder}/list"
    check("none", in_words(*words(here, path)), (1, 93, f"{path}: can't be opened: {system(errno.ENOENT)}"))
    os.mkdir(path)
    check("a folder", in_words(*words(here, path)), (1, 87, f"{path}: can't be read: {system(errno.EISDIR)}"))
    os.rmdir(path)
    Path(path).write_bytes(b"\xff\n")
    check("no UTF-8", ran(*words(here, path)), (2, "", "lispd: fault 95\n"))
    Path(path).write_text(" " * LONGEST)
    check("the longest", ran(*words(here, path), patience=SLOW), (0, "", ""))
    Path(path).write_text(" " * (LONGEST + 1))
    check("one that is too long", ran(*words(here, path), patience=SLOW), (1, "", "lispd: fault 89\n"))
    check("an endless one", ran(*words(here, "/dev/zero"), patience=SLOW), (1, "", "lispd: fault 89\n"))
    check("nothing to remove", ran(*words(here, "--remove")), (2, "", "lispd: fault 98\n"))
    check("nothing to remove, in words", in_words(*words(here, "--remove")), (2, 98, "lispd: --remove is taken only with LIST"))
    check("what is kept", kept(here, "s1"), {pair(): 8})


def many_lines(here):
    """More lines than a configuration may have bytes, in another order than they are kept in."""
    fill(here, {pair(xtr=number * 2**100, key=number % 256): number for number in range(300)})
    others = [lines({pair(site=2, xtr=number): number}) for number in range(15_000)]
    every = {pair(xtr=number * 2**100, key=number % 256): number for number in range(300)}
    path = listed(here, "many", "".join(others[:9_000]) + lines(every) + "".join(others[9_000:]))
    check("many", ran(*words(here, path), patience=SLOW), (0, lines(every), ""))


# Folders.


def folders_that_can_t_be_used(here):
    folder = f"{here.folder}/s1"
    told = (1, 93, f"{folder}: can't be looked at: {system(errno.ENOENT)}")
    for store in (FILES, DATABASE):
        here.store = store
        check(f"none {store}", in_words(*words(here)), told)
    check("none is made", os.path.exists(folder), False)
    Path(folder).write_text("")
    check("a file", in_words(*words(here)), (1, 93, f"{folder}: isn't a folder"))
    os.remove(folder)
    here.store = FILES
    fill(here, NONCES)
    here.store = DATABASE
    check("no database", in_words(*words(here)), (1, 93, f"{folder}/{DATABASE_FILE}: isn't there"))
    check("none is made", sorted(name for name in os.listdir(folder) if name.startswith(DATABASE_FILE)), [])
    check("the files", in_files(folder), NONCES)
    check("it is made", ran(*here.words("server", "s1", "--turns", "0")), (0, "", ""))
    here.store = FILES
    check("a database", in_words(*words(here)), (1, 93, f"{folder}/{DATABASE_FILE}: a database has the nonces: give --database"))
    here.store = DATABASE
    check("it has them", ran(*words(here)), (0, lines(NONCES), ""))


def a_node_that_runs(here):
    registered(here, {XTR: 5})
    every = listed(here, "every", lines({pair(): 5}))
    process = here.start(*here.words("server", "s1"))
    is_up(here.s1)
    told = (1, 93, f"{here.folder}/s1: another process has it")
    for more in ((), (every,), ("--remove", every)):
        check(f"while it runs {more}", in_words(*words(here, *more)), told)
    killed(process)
    check("what is kept", kept(here, "s1"), {pair(): 5})
    check("once it is stopped", ran(*words(here, "--remove", every)), (0, lines({pair(): 5}, "forgotten"), ""))


def a_damaged_nonce(here):
    fill(here, NONCES)
    here.file("s1", "r", key=1).write_text("nonce 1\n")
    told = (1, 93, f"{here.folder}/s1: a file of nonces in it is damaged")
    check("a list", in_words(*words(here)), told)
    check("a removal", in_words(*words(here, "--remove", listed(here, "every", lines(NONCES)))), told)
    check("the files", len(list(Path(f"{here.folder}/s1").glob("r-*.nonce"))), len(NONCES))


# Ends before the end.


def killed_in_between(here):
    """What was printed is gone, and all else is kept, but perhaps for one whose line was on its way."""
    every = {pair(xtr=number): number + 1 for number in range(40)}
    fill(here, every)
    process = here.start(*words(here, "--remove", listed(here, "every", lines(every))), env=with_slow_syncs(20_000))
    gone = [process.stdout.readline()]
    time.sleep(0.1)
    process.send_signal(signal.SIGKILL)
    gone += process.stdout.readlines()
    process.wait()
    left = kept(here, "s1")
    check("some are left", 0 < len(left) < len(every), True)
    check("the order", gone, lines(every, "forgotten").splitlines(keepends=True)[:len(gone)])
    check("what is left", lines(left) in (lines(dict(sorted(every.items())[at:])) for at in (len(gone), len(gone) + 1)), True)
    check("the others", ran(*words(here, "--remove", f"{here.folder}/every")), (0, lines(left, "forgotten"), ""))
    check("none", kept(here, "s1"), {})


def an_output_that_is_full(here):
    fill(here, NONCES)
    every = listed(here, "every", lines(NONCES))
    told = (1, None, "lispd: fault 88\n")
    for more in ((), (every,)):
        with open("/dev/full", "w") as full:
            check(f"a list {more}", ran(*words(here, *more), stdout=full), told)
    check("what is kept", kept(here, "s1"), NONCES)
    with open("/dev/full", "w") as full:
        check("a removal", ran(*words(here, "--remove", every), stdout=full), told)
    first, *left = sorted(NONCES)
    check(f"one is removed, {first}", kept(here, "s1"), {of: NONCES[of] for of in left})


def a_removal_that_fails(here):
    fill(here, NONCES)
    every = listed(here, "every", lines(NONCES))
    status, number, told = in_words(*words(here, "--remove", every), env=failing("sync", 2, folder=f"{here.folder}/s1"))
    check("a sync that fails", (status, number), (1, 93))
    check("its words", "a nonce in it can't be removed: " in told, True)
    left = kept(here, "s1")
    check("the first two at most are gone", sorted(NONCES)[2:] == [of for of in sorted(left) if of in sorted(NONCES)[2:]], True)
    check("the others", ran(*words(here, "--remove", every)), (0, lines(left, "forgotten"), ""))


run_tests([*(over(store, test) for store in (FILES, DATABASE)
             for test in (a_router_that_is_gone, only_what_was_received, another_nonce_another_key, a_node_that_runs, killed_in_between,
                          an_output_that_is_full, many_lines)),
           lists_with_faults, lists_that_can_t_be_read, folders_that_can_t_be_used, a_damaged_nonce, over(FILES, a_removal_that_fails)])
