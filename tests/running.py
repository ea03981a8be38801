#!/usr/bin/env -S python3 -B
"""running.py PROGRAM [TEST ..]
Runs `lispd server`, `router` and `loop` over real sockets (UDP port 4342 of addresses 127.x.x.x) and nonces in a temporary folder, in
files and in databases: what they print, what they keep, the faults that end them, and what is left when they are killed at random.
Prints each check that fails, and ends with 1 where one does. `running.py PROGRAM kills 500` kills each kind of node so often, over each
store."""
import contextlib
import errno
import os
import random
import sqlite3
import subprocess
import sys
import time
from pathlib import Path

from nodes import (DATABASE, EXAMPLES, FILES, GROUPS, LIMIT, MAP_NOTIFY, PORT, check, failing, is_bound, is_up, killed, map_register, next_line,
                   nonce_in, nonce_text, over, peer, ran, received, run_tests, until)
from nonces import DATABASE_FILE, empty_log, kept, pair

# How often a Map-Server and a router are killed.
KILLS = 50
# How many bytes a small disk has: room for a database and its log. In how many saves a full one runs out of the room that the log has.
SMALL_DISK, MOST_SAVES = 2 * 1024 * 1024, 1000


def a_router_goes_on_above_its_nonces(here):
    words = here.words("router", "r1", "--turns", "1")
    check("a router's first turn", ran(*words), (0, "sent r1 s1 key 1 nonce 1\nsent r1 s2 key 1 nonce 2\n", ""))
    path = here.file("r1", "s")
    check("its file", path.read_bytes(), nonce_text(2))
    check("its folder", sorted(os.listdir(path.parent)), ["control", "lock", path.name])
    check("the next run", ran(*words), (0, "sent r1 s1 key 1 nonce 3\nsent r1 s2 key 1 nonce 4\n", ""))
    check("no turn", ran(*words[:-1], "0"), (0, "", ""))


def a_router_reads_its_own_file_alone(here):
    words = here.words("router", "r1", "--turns", "1")
    path = here.file("r1", "s")
    path.parent.mkdir()
    for other in (here.file("r1", "r"), here.file("r1", "n"), here.file("r1", "s", site=2), here.file("r1", "s", xtr=11),
                  here.file("r1", "s", key=2)):
        other.write_bytes(nonce_text(7))
    check("the files of other pairs", ran(*words)[1].split("\n")[0], "sent r1 s1 key 1 nonce 1")
    path.write_bytes(nonce_text(3))
    check("a nonce that was kept", ran(*words)[1].split("\n")[0], "sent r1 s1 key 1 nonce 4")
    whole = nonce_text(7)
    for damaged in [*(whole[:length] for length in range(27)), b"nonce 18446744073709551616\n", whole + b"\n"]:
        path.write_bytes(damaged)
        check(f"a file that is {damaged!r}", ran(*words), (1, "", "lispd: fault 35\n"))
        check("which is left", path.read_bytes(), damaged)
    os.truncate(path, 1 << 30)
    check("a file of a gibibyte", ran(*words), (1, "", "lispd: fault 35\n"))


def each_fault_has_its_number(here):
    node, folder = ("--store", here.folder, "--turns", "1"), here.folder
    cases = [
        (("router", here.config, "r9", *node), 2, "70"), (("server", here.config, "s9", *node), 2, "70"),
        (("router", here.config, "s1", *node), 2, "71"), (("server", here.config, "r1", *node), 2, "71"),
        (("router", here.config, "r1", *node[:-1], "x"), 2, "98"),
        (("server", here.config, "s1", *node[:-1], "4294967296"), 2, "98"),
        (("router", f"{folder}/none", "r1", *node), 1, "93"), (("loop", here.config, f"{folder}/none", *node[:2]), 1, "93"),
        (("router", here.config, "r1", "--store", f"{folder}/none/none", "--turns", "1"), 1, "93"),
        (("router", folder, "r1", *node), 1, "87"), (("server", f"{EXAMPLES}/map-register.hex", "s1", *node), 2, "20"),
    ]
    for words, status, number in cases:
        check(" ".join(words), ran(*words), (status, "", f"lispd: fault {number}\n"))
    file = f"{folder}/file"
    for text, status, number in ((b"\xff", 2, "95"), (b"send s1 r1\n", 2, "82 line 1"), (b"#" * 1048577, 1, "89")):
        Path(file).write_bytes(text)
        done = ran("loop", here.config, file, *node[:2], patience=5 * LIMIT)
        check(f"loop, script {text[:12]!r}", done, (status, "", f"lispd: fault {number}\n"))
    check("a file as the folder", ran("router", here.config, "r1", "--store", file, "--turns", "1"), (1, "", "lispd: fault 93\n"))
    with peer(here.r1):
        check("a socket that is taken", ran("router", here.config, "r1", *node), (1, "", "lispd: fault 92\n"))


def a_folder_is_one_process_s(here):
    words = here.words("server", "s1")
    first = here.start(*words)
    check("a Map-Server is up", is_up(here.s1), True)
    check("its folder", ran(*words, "--turns", "1"), (1, "", "lispd: fault 93\n"))
    killed(first)
    check("and after it was killed", ran(*words, "--turns", "1"), (0, "", ""))


def a_database_is_one_process_s(here):
    """While a node runs, sqlite3 doesn't get the database; and a node doesn't start while sqlite3 has it."""
    here.store = DATABASE
    words, folder = here.words("router", "r1"), Path(here.folder) / "r1"
    first = here.start(*words)
    check("a router is up", is_up(here.r1), True)
    with contextlib.closing(sqlite3.connect(folder / DATABASE_FILE, timeout=0)) as database:
        try:
            database.execute("SELECT * FROM nonces")
            check("sqlite3 while it runs", "rows", "locked")
        except sqlite3.OperationalError as error:
            check("sqlite3 while it runs", str(error), "database is locked")
    killed(first)
    with contextlib.closing(sqlite3.connect(folder / DATABASE_FILE)) as database:
        database.execute("BEGIN EXCLUSIVE")
        check("a router while sqlite3 has it", ran(*words, "--turns", "1"), (1, "", "lispd: fault 93\n"))
    empty_log(folder)
    check("and when it is free", ran(*words, "--turns", "1")[0], 0)


def a_map_server_answers_once(here):
    process = here.start(*here.words("server", "s1"))
    is_up(here.s1)
    with peer(here.r1) as it:
        check("the Map-Notify", here.answer(it, map_register(1)), MAP_NOTIFY)
        for message in (map_register(1), map_register(2, b"other"), b"junk", b""):
            it.sendto(message, (here.s1, PORT))
        check("the next", nonce_in(here.answer(it, map_register(2))), 2)
        check("no other answer", received(it, 0.3), [])
    lines = ["accepted s1 r1 key 1 nonce 1", "refused s1 57 saved 1", "refused s1 53", "refused s1 50 read 1", "accepted s1 r1 key 1 nonce 2"]
    check("its lines", [next_line(process) for _ in range(6)],
          [f"{line} from {here.r1}" for line in lines] + [f"refused s1 50 from {here.r1} times 1"])


def a_loop_prints_what_a_play_prints(here):
    file, config = f"{here.folder}/script", f"{here.folder}/schedule.toml"
    for name in ("01-exchange", "07-lookups", "08-life-of-a-record"):
        configuration, script = Path(f"{EXAMPLES}/schedules/{name}.schedule").read_text().split("---\n", 1)
        Path(config).write_text(here.moved(configuration))
        Path(file).write_text(script)
        wanted = here.moved(Path(f"{EXAMPLES}/schedules/{name}.out").read_text())
        check(f"loop {name}", ran("loop", config, file, "--store", f"{here.folder}/{name}", *here.store), (0, wanted, ""))
    Path(file).write_text("send r1 s1\nsend r1 s1\ndeliver 1\ndeliver 1\n")
    check("a datagram that is lost", ran("loop", here.config, file, "--store", f"{here.folder}/lost", *here.store),
          (0, "sent r1 s1 key 1 nonce 1 datagram 0\nsent r1 s1 key 1 nonce 2 datagram 1\nlost 1\n"
              "accepted s1 r1 key 1 nonce 2 datagram 2\n", ""))


def nothing_is_accepted_again(here):
    """Kills a Map-Server at a random moment under load; what it accepted before is kept, and never accepted again."""
    nonce, last, words = 0, 0, here.words("server", "s1")
    with peer(here.r1) as it:
        for _ in range(KILLS):
            process = here.start(*words)
            end = time.monotonic() + random.uniform(0.02, 0.15)
            while time.monotonic() < end:
                nonce += 1
                if here.answer(it, map_register(nonce), 0.05):
                    last = nonce
            lines = killed(process)
            received(it, 0.01)
            accepted = [int(line.split()[6]) for line in lines if line.startswith("accepted ")]
            check("accepted nonces rise", accepted, sorted(set(accepted)))
            last = max([last, *accepted])
            check(f"nonce {last} is kept", last <= kept(here, "s1").get(pair(), 0) <= nonce, True)
            nonce += 1
            after = here.start(*words)
            is_up(here.s1)
            if last:
                check(f"nonce {last} accepted again after a kill", here.answer(it, map_register(last), 0.02), None)
            check("a fresh nonce is answered", here.answer(it, map_register(nonce)) is not None, True)
            check(f"nonce {nonce} accepted again", here.answer(it, map_register(nonce), 0.02), None)
            last = nonce
            killed(after)
            received(it, 0.01)


def nothing_is_sent_again(here):
    """Kills a router at a random moment; each nonce that it sends is kept, and above all those before."""
    last = 0
    with peer(here.s1) as it:
        for _ in range(KILLS):
            process = here.start(*here.words("router", "r1"))
            it.settimeout(LIMIT)
            first = nonce_in(it.recv(65535))
            time.sleep(random.uniform(0, 0.02))
            lines = killed(process)
            sent = [first, *(int(line.split()[-1]) for line in lines if line.startswith("sent "))]
            sent += [nonce_in(message) for message in received(it, 0.01)]
            check(f"nonces above {last}", min(sent) > last, True)
            last = max(last, *sent)
            check(f"nonce {last} is kept", kept(here, "r1").get(pair("sent"), 0) >= last, True)


@contextlib.contextmanager
def small_disk(here):
    """A small disk of its own, where the test keeps its nonces; None on a machine that doesn't let us make one."""
    here.folder += "/disk"
    os.mkdir(here.folder)
    made = subprocess.run(["mount", "-t", "tmpfs", "-o", f"size={SMALL_DISK}", "tmpfs", here.folder], capture_output=True, check=False)
    if made.returncode != 0:
        print("running.py: no small disk can be made: full disks and those that can't be written were not tried")
        yield None
        return
    try:
        yield here.folder
    finally:
        subprocess.run(["umount", "-l", here.folder], capture_output=True, check=False)


def fill(disk):
    with open(f"{disk}/ballast", "wb", buffering=0) as file, contextlib.suppress(OSError):
        while file.write(bytes(4096)):
            pass


def a_full_disk(here):
    """A Map-Server whose disk is full refuses, or begins anew where it takes groups, loses nothing, and goes on once there is room."""
    told = "restarted s1" if here.store == GROUPS else f"refused s1 59 store 30 StorageFull from {here.r1}"
    with small_disk(here) as disk:
        if not disk:
            return
        process = here.start(*here.words("server", "s1"))
        is_up(here.s1)
        with peer(here.r1) as it:
            check("before the disk is full", here.answer(it, map_register(1)) is not None, True)
            check("its line", next_line(process), f"accepted s1 r1 key 1 nonce 1 from {here.r1}")
            fill(disk)
            # (the log of a database may have room for some more)
            for nonce in range(2, MOST_SAVES):
                it.sendto(map_register(nonce), (here.s1, PORT))
                line = next_line(process)
                if line != f"accepted s1 r1 key 1 nonce {nonce} from {here.r1}":
                    break
            check("on a full disk", line[:len(told)], told)
            check("the answers", [nonce_in(message) for message in received(it, 0.1)], list(range(2, nonce)))
            os.remove(f"{disk}/ballast")
            check("with room again", here.answer(it, map_register(nonce + 1)) is not None, True)
            check("its line", next_line(process), f"accepted s1 r1 key 1 nonce {nonce + 1} from {here.r1}")
        killed(process)
        check("what is kept", kept(here, "s1"), {pair(): nonce + 1})


def a_disk_that_can_t_be_written(here):
    """No node starts over it; and one under which it comes to be so answers and sends nothing that it can't save."""
    with small_disk(here) as disk:
        words = here.words("router", "r1", "--turns", "1")
        if not disk:
            return
        check("it can be written", ran(*words)[0], 0)
        subprocess.run(["mount", "-o", "remount,ro", disk], check=True)
        check("it can't be written", ran(*words), (1, "", "lispd: fault 93\n"))
        subprocess.run(["mount", "-o", "remount,rw", disk], check=True)
        check("it can be written again", ran(*words)[1], "sent r1 s1 key 1 nonce 3\nsent r1 s2 key 1 nonce 4\n")


def a_disk_that_comes_to_be_read_only(here):
    """From some call on, none that changes a file is done: what a Map-Server answers or tells of is kept nevertheless."""
    nonce = 0
    with peer(here.r1) as it:
        for at in range(1, 60, 4):
            process = here.start(*here.words("server", "s1"), env=failing("change", at, "", errno.EROFS, f"{here.folder}/s1/"),
                                 stderr=subprocess.DEVNULL)
            until(lambda: process.poll() is not None or is_bound(here.s1))
            told = []
            for nonce in range(nonce + 1, nonce + 9):
                told += [nonce] if here.answer(it, map_register(nonce), 0.03) else []
            told += [int(line.split()[6]) for line in killed(process) if line.startswith("accepted ")]
            last = max(told, default=0)
            check(f"call {at}: nonce {last} is kept", kept(here, "s1").get(pair(), 0) >= last, True)
        here.start(*here.words("server", "s1"))
        is_up(here.s1)
        check("with the disk again", here.answer(it, map_register(nonce + 1)) is not None, True)


# The tests of what each store keeps.
SERVERS = [over(store, test) for store in (FILES, DATABASE, GROUPS)
           for test in (a_folder_is_one_process_s, a_map_server_answers_once, nothing_is_accepted_again, a_full_disk,
                        a_disk_that_comes_to_be_read_only)]
ROUTERS = [over(store, test) for store in (FILES, DATABASE)
           for test in (a_loop_prints_what_a_play_prints, nothing_is_sent_again, a_disk_that_can_t_be_written)]

if sys.argv[2:3] == ["kills"]:
    KILLS = int(sys.argv[3])
    run_tests([test for test in (*SERVERS, *ROUTERS) if "again_over" in test.__name__], names=[])
run_tests([a_router_goes_on_above_its_nonces, a_router_reads_its_own_file_alone, each_fault_has_its_number, a_database_is_one_process_s,
           *SERVERS, *ROUTERS])
