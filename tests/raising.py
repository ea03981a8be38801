#!/usr/bin/env -S python3 -B
"""raising.py PROGRAM [TEST ..]
`lispd raise`, over files and over databases: an old copy of a Map-Server's store is put back and raised, and refuses each Map-Register that was
accepted since the copy; its router is raised by as much, and registers again. What is printed and kept of each kind of nonce, at the greatest
ones too; numbers and folders that it can't use; kills, outputs that are full, saves that fail: then the copy is put back once more.
Prints each check that fails, and ends with 1 where one does."""
import errno
import os
import shutil
import signal
import time
from pathlib import Path

from nodes import (DATABASE, FILES, PORT, XTR, check, failing, in_words, is_up, killed, map_register, next_line, nonce_in, over, peer, ran,
                   run_tests, system, with_slow_syncs)
from nonces import DATABASE_FILE, MOST, in_files, kept, pair, put_file

# How long a run may take over much, in seconds.
SLOW = 120
# The greatest nonce of a router.
LAST = 2**63 - 1
# By how much nonces are raised here, and the most that they can be.
BY, MOST_BY = 10, 2**32 - 1
# In the order in which they are printed: what is kept, and what it is raised to.
NONCES = [(pair("sent"), 3, 13), (pair("sent", xtr=77), LAST - 4, LAST), (pair("sent", site=2, key=9), LAST, LAST),
          (pair("sent", site=3), 2**63, 2**63), (pair(site=0, key=0), 0, 10), (pair(xtr=0), 10**19, 10**19 + 10), (pair(), 1, 11),
          (pair(key=255), MOST, MOST), (pair(xtr=2**127), LAST, LAST + 10), (pair(site=2**64 - 1, xtr=0), MOST - 9, MOST),
          (pair("notice", 0, 0, 0), 2**63, 2**63 + 10), (pair("notice", site=5), MOST - 1, MOST)]
BEFORE, AFTER = ({of: both[at] for of, *both in NONCES} for at in (0, 1))


def lines(nonces):
    """The lines of nonces that were raised, in their order."""
    return "".join(f"raised {kind} {site} {xtr} key {key} nonce {nonce}\n" for (kind, site, xtr, key), nonce in nonces.items())


def words(here, name="s1", by=BY, store=None):
    return ("raise", name, str(by), "--store", here.folder, *(here.store if store is None else store))


def fill(here, nonces, name="s1"):
    """Makes the folder of a node, which keeps these nonces."""
    folder = f"{here.folder}/{name}"
    os.makedirs(folder)
    for of, nonce in nonces.items():
        put_file(folder, of, nonce)
    if here.store == DATABASE:
        check("they are taken over", ran(*here.words("server", name, "--turns", "0"), patience=SLOW), (0, "", ""))
    check("what is kept", kept(here, name), nonces)


def copy_of(here, name="s1"):
    """A copy of a node's folder, as a backup has it."""
    shutil.copytree(f"{here.folder}/{name}", f"{here.folder}/{name}.copy", ignore=shutil.ignore_patterns("control"))


def put_back(here, name="s1"):
    """The copy in the place of the node's folder."""
    shutil.rmtree(f"{here.folder}/{name}")
    shutil.copytree(f"{here.folder}/{name}.copy", f"{here.folder}/{name}")


def registered(here, nonces):
    """Map-Server s1 runs, takes Map-Registers of routers by their xTR-IDs with a nonce each, in this order, and is stopped."""
    process = here.start(*here.words("server", "s1"))
    is_up(here.s1)
    with peer(here.r1) as it:
        for xtr, nonce in nonces:
            check(f"xTR-ID {xtr}: nonce {nonce} is accepted", nonce_in(here.answer(it, map_register(nonce, xtr=xtr))), nonce)
    killed(process)


# An old copy.


def a_lost_disk(here):
    """Each Map-Register that was accepted before is refused, up to what the copy was raised to."""
    registered(here, [(XTR, 5), (XTR + 1, 2**63)])
    copy_of(here)
    since = [(XTR, 6), (XTR, 9), (XTR, 15), (XTR + 1, 2**63 + 1), (XTR + 1, 2**63 + 10)]
    registered(here, since)
    put_back(here)
    raised = {pair(): 15, pair(xtr=XTR + 1): 2**63 + 10}
    check("the copy is raised", ran(*words(here)), (0, lines(raised), ""))
    check("what is kept", kept(here, "s1"), raised)
    process = here.start(*here.words("server", "s1"))
    is_up(here.s1)
    check("its first line", process.stdout.readline().split()[0], "started")
    for number, (xtr, nonce) in enumerate([(XTR, 5), (XTR + 1, 2**63), *since], 100):
        with peer(f"{here.front}{number}") as it:
            it.sendto(map_register(nonce, xtr=xtr), (here.s1, PORT))
            check(f"xTR-ID {xtr}: old nonce {nonce}", next_line(process), f"refused s1 57 saved {raised[pair(xtr=xtr)]} from {here.front}{number}")
    with peer(here.r1) as it:
        for xtr, nonce in ((XTR, 16), (XTR + 1, 2**63 + 11)):
            check(f"xTR-ID {xtr}: the next nonce", nonce_in(here.answer(it, map_register(nonce, xtr=xtr))), nonce)


def without_raising(here):
    """What it is for: a copy that isn't raised accepts an old Map-Register once more."""
    registered(here, [(XTR, 5)])
    copy_of(here)
    registered(here, [(XTR, 6)])
    put_back(here)
    registered(here, [(XTR, 6)])


def its_router(here):
    """The router that sent fewer is refused; raised by as much, it is accepted at once."""
    for turns in ("3", "4"):
        server = here.start(*here.words("server", "s1"))
        is_up(here.s1)
        check("the router runs", ran(*here.words("router", "r1", "--turns", turns))[0], 0)
        killed(server)
        if turns == "3":
            copy_of(here)
    put_back(here)
    (copied,) = kept(here, "s1").values()
    (last,) = kept(here, "r1").values()
    check("what the router sent since", copied < last, True)
    check("the Map-Server", ran(*words(here, by=1_000)), (0, lines({pair(): copied + 1_000}), ""))
    server = here.start(*here.words("server", "s1"))
    is_up(here.s1)
    check("it starts", server.stdout.readline().split()[0], "started")
    check("the router runs", ran(*here.words("router", "r1", "--turns", "2"))[0], 0)
    check("and is refused", next_line(server), f"refused s1 57 saved {copied + 1_000} from {here.r1}")
    (last,) = kept(here, "r1").values()
    check("the router", ran(*words(here, "r1", 1_000)), (0, lines({pair("sent"): last + 1_000}), ""))
    status, sent, _ = ran(*here.words("router", "r1", "--turns", "2"))
    check("what it sends", (status, sent.splitlines()[:1]), (0, [f"sent r1 s1 key 1 nonce {last + 1_001}"]))
    check("is accepted", next_line(server), f"accepted s1 r1 key 1 nonce {last + 1_001} from {here.r1}")


# What is raised.


def every_kind(here):
    """All that can be kept, up to the greatest nonces, in order; and once more."""
    fill(here, BEFORE)
    check("it is raised", ran(*words(here)), (0, lines(AFTER), ""))
    check("what is kept", kept(here, "s1"), AFTER)
    check("by the most", ran(*words(here, by=MOST_BY))[0], 0)
    most = {of: max(nonce, min(nonce + MOST_BY, LAST if of[0] == "sent" else MOST)) for of, nonce in AFTER.items()}
    check("what is kept then", kept(here, "s1"), most)


def nothing_kept(here):
    os.makedirs(f"{here.folder}/s1")
    if here.store == DATABASE:
        check("it is made", ran(*here.words("server", "s1", "--turns", "0")), (0, "", ""))
    check("nothing", ran(*words(here)), (0, "", ""))


# Numbers and folders.


def numbers(here):
    fill(here, BEFORE)
    for text in ("0", "-1", "+1", "1x", "", " 1", "1.5", str(MOST_BY + 1), str(2**64), str(2**64 + 1)):
        check(f"by {text!r}", ran(*words(here, by=text))[:2], (2, ""))
    check("in words", in_words(*words(here, by=0)), (2, 98, "lispd: N takes a whole number from 1 to 4294967295"))
    check("what is kept", kept(here, "s1"), BEFORE)


def folders_that_can_t_be_used(here):
    folder = f"{here.folder}/s1"
    for store in (FILES, DATABASE):
        check(f"none {store}", in_words(*words(here, store=store)), (1, 93, f"{folder}: can't be looked at: {system(errno.ENOENT)}"))
    check("none is made", os.path.exists(folder), False)
    Path(folder).write_text("")
    check("a file", in_words(*words(here)), (1, 93, f"{folder}: isn't a folder"))
    os.remove(folder)
    fill(here, BEFORE)
    check("no database", in_words(*words(here, store=DATABASE)), (1, 93, f"{folder}/{DATABASE_FILE}: isn't there"))
    check("the files", in_files(folder), BEFORE)
    here.store = DATABASE
    check("it is made", ran(*here.words("server", "s1", "--turns", "0")), (0, "", ""))
    check("a database", in_words(*words(here, store=FILES)), (1, 93, f"{folder}/{DATABASE_FILE}: a database has the nonces: give --database"))
    check("it has them", kept(here, "s1"), BEFORE)


def a_node_that_runs(here):
    registered(here, [(XTR, 5)])
    process = here.start(*here.words("server", "s1"))
    is_up(here.s1)
    check("while it runs", in_words(*words(here)), (1, 93, f"{here.folder}/s1: another process has it"))
    killed(process)
    check("what is kept", kept(here, "s1"), {pair(): 5})
    check("once it is stopped", ran(*words(here)), (0, lines({pair(): 15}), ""))


def a_damaged_nonce(here):
    fill(here, BEFORE)
    here.file("s1", "r", key=1).write_text("nonce 1\n")
    check("it", in_words(*words(here)), (1, 93, f"{here.folder}/s1: a file of nonces in it is damaged"))
    here.file("s1", "r", key=1).unlink()
    check("the others", kept(here, "s1"), {of: nonce for of, nonce in BEFORE.items() if of != pair()})


# Ends before the end.


def check_each(here, before, after):
    """Each nonce is as it was, or raised."""
    now = kept(here, "s1")
    check("which are kept", sorted(now), sorted(before))
    check("what is kept", [of for of, nonce in now.items() if nonce not in (before[of], after[of])], [])
    return [of for of in now if now[of] == after[of]]


def killed_in_between(here):
    """Each nonce is as it was or raised; the copy is put back and raised once more, exactly."""
    before, after = ({pair(xtr=number): number + more for number in range(40)} for more in (1, 1 + BY))
    fill(here, before)
    copy_of(here)
    process = here.start(*words(here), env=with_slow_syncs(20_000))
    time.sleep(0.4)
    process.send_signal(signal.SIGKILL)
    check("what it printed", process.stdout.read(), "")
    process.wait()
    check("not all are raised", len(check_each(here, before, after)) < len(before), True)
    put_back(here)
    check("once more", ran(*words(here)), (0, lines(after), ""))
    check("what is kept then", kept(here, "s1"), after)


def an_output_that_is_full(here):
    fill(here, BEFORE)
    with open("/dev/full", "w") as full:
        check("it", ran(*words(here), stdout=full), (1, None, "lispd: fault 88\n"))
    check("all are raised", kept(here, "s1"), AFTER)


def a_save_that_fails(here):
    fill(here, BEFORE)
    copy_of(here)
    status, number, told = in_words(*words(here), env=failing("sync", 5, folder=f"{here.folder}/s1"))
    check("a sync that fails", (status, number), (1, 93))
    check("its words", f"{here.folder}/s1: can't be written: " in told, True)
    check("not all are raised", len(check_each(here, BEFORE, AFTER)) < len(BEFORE), True)
    put_back(here)
    check("once more", ran(*words(here)), (0, lines(AFTER), ""))
    check("what is kept then", kept(here, "s1"), AFTER)


run_tests([*(over(store, test) for store in (FILES, DATABASE)
             for test in (a_lost_disk, without_raising, its_router, every_kind, nothing_kept, a_node_that_runs, killed_in_between,
                          an_output_that_is_full)),
           numbers, folders_that_can_t_be_used, a_damaged_nonce, over(FILES, a_save_that_fails)])
