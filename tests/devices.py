#!/usr/bin/env -S python3 -B
"""devices.py PROGRAM [TEST ..]
What `lispd server`, `router` and `loop` make of the system's calls: their order, and that of lines and datagrams among them; calls
of files, folders and sockets that fail (failing.c). Prints each check that fails, and ends with 1 where one does."""
import itertools
import os
import re
import shutil
import signal
import time
from pathlib import Path
from subprocess import DEVNULL, STDOUT, run

from nodes import (DATABASE, GROUPS, LIMIT, PORT, XTR, answers, check, failing, heard, is_up, killed, map_register, next_line, nonce_in,
                   nonce_text, nonces_in, peer, ran, run_tests)
from nonces import LOG_FILE

# What a save is made of, beside its name the call that fails (failing.c) and the end of the path that it is of; NAME is the node's.
NEW, FILE, FOLDER = ".nonce.new", ".nonce", "/NAME"
UNDONE = [("look", NEW), ("open", NEW), ("write", NEW), ("sync", NEW), ("rename", FILE)]
IN_DOUBT = [("renamed", FILE), ("open", FOLDER), ("sync", FOLDER)]
# The word for the error with which they fail.
EIO = "Uncategorized"


# The order of system calls: where the nonces are in files, and where they are in a database, of whose log it tells.

ORDER = ["write new", "sync new", "rename new file", "sync folder", "line", "send"]
COMMIT = ["write file", "sync file", "line", "send"]


def named(path, file):
    """What a path, or an open file as strace shows it, is to a save of this file."""
    names = {str(file): "file", f"{file}.new": "new", str(file.parent): "folder"}
    return "line" if path.startswith("pipe:") else names.get(path, path)


def call(name, rest, file):
    """A system call in a word or three."""
    if name.startswith("rename"):
        old, new = re.findall(r'"([^"]*)"', rest)
        return f"rename {named(old, file)} {named(new, file)}"
    if name.startswith("send"):
        return "send"
    kind = "write" if "write" in name else "sync" if "sync" in name else "remove"
    what = named((re.match(r"\d+<([^>]*)>", rest) or re.search(r'"([^"]*)"', rest))[1], file)
    return what if what == "line" else f"{kind} {what}"


def calls(trace, *files):
    """The calls that strace wrote down, as they are to these files, but for those of other files and of the node's control socket."""
    found = []
    for line in Path(trace).read_text().splitlines():
        match = re.match(r"(?:\d+ +)?(\w+)\((.*)", line)
        if match and '/control"' not in line and (words := [call(*match.groups(), file) for file in files]):
            found.append(min(words, key=len))
    return found


def under_strace(trace):
    return ["strace", "-f", "-y", "-o", trace, "-e",
            "trace=write,writev,pwrite64,fsync,fdatasync,sync_file_range,rename,renameat,renameat2,unlink,unlinkat,sendto,sendmsg"]


def commits(found):
    """Calls from the two before the first line on; those that come one behind another and are alike are one."""
    found = [it for it, _ in itertools.groupby(found)]
    return found[found.index("line") - 2:]


def log_of(here):
    return Path(f"{here.folder}/s1/{LOG_FILE}")


def has_strace():
    if shutil.which("strace") and run(["strace", "-o", "/dev/null", "true"], capture_output=True, check=False).returncode == 0:
        return True
    print("devices.py: no strace: the order of system calls was not tried")
    return False


def a_map_server_saves_prints_and_answers(here):
    if not has_strace():
        return
    trace, file = f"{here.folder}/trace", here.file("s1", "r")
    process = here.start(*here.words("server", "s1", "--turns", "20"), under=under_strace(trace))
    is_up(here.s1)
    with peer(here.r1) as it:
        for nonce in (1, 2):
            check(f"nonce {nonce} is answered", nonce_in(here.answer(it, map_register(nonce))), nonce)
    process.wait(LIMIT)
    check("a Map-Server's calls", calls(trace, file), ORDER * 2)


def a_router_saves_prints_and_sends(here):
    if not has_strace():
        return
    trace, file = f"{here.folder}/trace", here.file("r1", "s")
    here.start(*here.words("router", "r1", "--turns", "1"), under=under_strace(trace)).wait(LIMIT)
    check("a router's calls", calls(trace, file), ORDER * 2)


def a_map_server_commits_prints_and_answers(here):
    """Over a database: what is written to its log is synced once, then come the line and the answer."""
    if not has_strace():
        return
    here.store, trace = DATABASE, f"{here.folder}/trace"
    process = here.start(*here.words("server", "s1", "--turns", "20"), under=under_strace(trace))
    is_up(here.s1)
    with peer(here.r1) as it:
        for nonce in (1, 2):
            check(f"nonce {nonce} is answered", nonce_in(here.answer(it, map_register(nonce))), nonce)
    process.wait(LIMIT)
    check("a Map-Server's calls", commits(calls(trace, log_of(here))), COMMIT * 2)


def a_map_server_commits_groups(here):
    """What waits is of one group: one sync, then all lines and answers."""
    if not has_strace():
        return
    here.store, trace = GROUPS, f"{here.folder}/trace"
    process = here.start(*here.words("server", "s1", "--turns", "20"), under=under_strace(trace))
    is_up(here.s1)
    program = int(Path(f"/proc/{process.pid}/task/{process.pid}/children").read_text().split()[0])
    with peer(here.r1) as it:
        os.kill(program, signal.SIGSTOP)
        time.sleep(0.2)
        for xtr in range(100, 120):
            it.sendto(map_register(7, xtr=xtr), (here.s1, PORT))
        os.kill(program, signal.SIGCONT)
        check("its answers", answers(it, 20), [7] * 20)
    process.wait(LIMIT)
    check("a Map-Server's calls", commits(calls(trace, log_of(here))), ["write file", "sync file", *["line", "send"] * 20])


def a_loop_saves_prints_and_sends(here):
    """A Map-Register, its Map-Notify, and a notice: each is saved, printed and sent. What answers a notice isn't saved."""
    if not has_strace():
        return
    trace, script = f"{here.folder}/trace", Path(f"{here.folder}/script")
    script.write_text("send r1 s1\ndeliver 0\ndeliver 1\nnotice s1 r1\ndeliver 2\ndeliver 3\n")
    process = here.start("loop", here.config, str(script), "--store", here.folder, under=under_strace(trace))
    process.wait(LIMIT)
    files = here.file("r1", "s"), here.file("s1", "r"), here.file("s1", "n", site=0, xtr=0, key=0)
    check("a loop's calls", calls(trace, *files), [*ORDER * 2, "line", *ORDER, "line", "send", "line"])


# Calls that fail once.


def a_router_whose_save_fails(call, path, is_kept):
    """A save that fails at a router: nothing is sent, and the next try is above all that was sent."""
    def test(here):
        words, path_there, refused = here.words("router", "r1", "--turns"), path.replace("NAME", "r1"), "refused r1 42 store 30"
        ran(*words, "1")
        with peer(here.s1) as first, peer(here.s2) as second:
            check("it is told", ran(*words, "1", env=failing(call, 1, path_there)), (0, f"{refused}\n", "!"))
            check("nothing is sent", heard(first, second), [])
            check("what is kept", here.file("r1", "s").read_bytes(), nonce_text(3 if is_kept else 2))
            nonce = 4 if is_kept else 3
            lines = ran(*words, "15", env=failing(call, 1, path_there))[1].splitlines()
            check("it goes on", lines[:3], [refused, f"sent r1 s1 key 1 nonce {nonce}", f"sent r1 s2 key 1 nonce {nonce + 1}"])
            check("what it sends", heard(first, second), nonces_in(lines))
            nonce = nonces_in(lines)[-1] + 1
            check("the second fails", ran(*words, "1", env=failing(call, 2, path_there)),
                  (0, f"sent r1 s1 key 1 nonce {nonce}\n{refused}\n", "!"))
            check("the first is sent alone", heard(first, second), [nonce])
            nonce += 2 if is_kept else 1
            check("the next run", ran(*words, "1"), (0, f"sent r1 s1 key 1 nonce {nonce}\nsent r1 s2 key 1 nonce {nonce + 1}\n", ""))
    return as_test(test, f"a_router_whose_{call}_of_{path.strip('./').replace('.', '_')}_fails")


def a_map_server_whose_save_fails(call, path, is_kept):
    """A save that fails at a Map-Server: no answer, and the nonce counts as it was kept or not."""
    def test(here):
        process = here.start(*here.words("server", "s1"), env=failing(call, 1, path.replace("NAME", "s1")), stderr=STDOUT)
        is_up(here.s1)
        with peer(here.r1) as it:
            check("no answer", here.answer(it, map_register(7), 0.2), None)
            check("it is told", next_line(process), f"!refused s1 59 store 30 {EIO} from {here.r1}")
            check("what is kept", here.file("s1", "r").exists(), is_kept)
            check("the same again", here.answer(it, map_register(7), 0.2 if is_kept else LIMIT) is None, is_kept)
            line = "refused s1 57 saved 7" if is_kept else "accepted s1 r1 key 1 nonce 7"
            check("its line", next_line(process), f"{line} from {here.r1}")
            check("it goes on", nonce_in(here.answer(it, map_register(8))), 8)
        killed(process)
        after = here.start(*here.words("server", "s1"))
        is_up(here.s1)
        with peer(here.r1) as it:
            it.sendto(map_register(8), (here.s1, PORT))
            check("a replay after a crash", next_line(after), f"refused s1 57 saved 8 from {here.r1}")
    return as_test(test, f"a_map_server_whose_{call}_of_{path.strip('./').replace('.', '_')}_fails")


def as_test(test, name):
    test.__name__ = name
    return test


def a_start_whose_call_fails(here):
    """The router has one Map-Server, and so saves once in a run."""
    words, file = here.words("router", "r2", "--turns", "1"), here.file("r2", "s", xtr=XTR + 1)
    ran(*words)
    for call, path, number in (("open", "configuration.toml", "93"), ("read", "configuration.toml", "87"), ("open", "/lock", "93"),
                               ("look", FILE, "35"), ("open", FILE, "35"), ("read", FILE, "35")):
        check(f"{call} of {path} fails", ran(*words, env=failing(call, 1, path)), (1, "", f"!lispd: fault {number}\n"))
        check("its nonces are left", file.read_bytes(), nonce_text(1))
    for nonce, (call, path) in enumerate((("interrupt", "configuration.toml"), ("interrupt", FILE), ("scant", FILE), ("short", NEW)), 2):
        check(f"{call} of {path}", ran(*words, env=failing(call, 1, path)), (0, f"sent r2 s1 key 1 nonce {nonce}\n", "!"))
        check("its nonces are kept", file.read_bytes(), nonce_text(nonce))


def a_load_that_fails(here):
    """A Map-Server that can't read its nonces takes nothing, and replays neither when it can again."""
    file = here.file("s1", "r")
    file.parent.mkdir()
    file.write_bytes(nonce_text(7))
    for call in ("look", "open", "read"):
        process = here.start(*here.words("server", "s1"), env=failing(call, 1, FILE), stderr=STDOUT)
        is_up(here.s1)
        with peer(here.r1) as it:
            check("no answer", here.answer(it, map_register(9), 0.2), None)
            check(f"{call} fails", next_line(process), f"!refused s1 56 store 30 {EIO} from {here.r1}")
            it.sendto(map_register(7), (here.s1, PORT))
            check("a replay", next_line(process), f"refused s1 57 saved 7 from {here.r1}")
        killed(process)
    check("its file", file.read_bytes(), nonce_text(7))


def a_socket_whose_call_fails(here):
    words = here.words("router", "r1", "--turns", "1")
    with peer(here.s1) as first, peer(here.s2) as second:
        check("a send fails", ran(*words, env=failing("send")),
              (0, "sent r1 s1 key 1 nonce 1\nrefused r1 91\nsent r1 s2 key 1 nonce 2\n", "!"))
        check("the other is sent", (heard(first), heard(second)), ([], [2]))
        check("a receive fails", ran(*words, env=failing("receive")),
              (0, "refused r1 90\nsent r1 s1 key 1 nonce 3\nsent r1 s2 key 1 nonce 4\n", "!"))
        check("both are sent", heard(first, second), [3, 4])
        check("a receive is interrupted", ran(*words, env=failing("disturb")),
              (0, "sent r1 s1 key 1 nonce 5\nsent r1 s2 key 1 nonce 6\n", "!"))


def a_map_server_s_socket_whose_call_fails(here):
    process = here.start(*here.words("server", "s1"), env=failing("send"), stderr=STDOUT)
    is_up(here.s1)
    with peer(here.r1) as it:
        check("no answer", here.answer(it, map_register(1), 0.2), None)
        check("it is accepted", next_line(process), f"accepted s1 r1 key 1 nonce 1 from {here.r1}")
        check("it is told", next_line(process), f"!refused s1 91 {EIO}")
        check("it goes on", nonce_in(here.answer(it, map_register(2))), 2)
        killed(process)
        process = here.start(*here.words("server", "s1"), env=failing("receive"), stderr=DEVNULL)
        check("a receive fails", next_line(process), f"refused s1 90 {EIO}")
        check("and the next doesn't", nonce_in(here.answer(it, map_register(3))), 3)


def a_loop_whose_call_fails(here):
    script = Path(f"{here.folder}/script")
    script.write_text("send r1 s1\nsend r1 s1\ndeliver 0\ndeliver 0\n")
    sent = "sent r1 s1 key 1 nonce {} datagram {}\n".format
    taken = "accepted s1 r1 key 1 nonce {0} datagram {1}\n".format
    cases = {
        ("sync", NEW): "refused r1 42 store 30\n" + sent(1, 0) + taken(1, 1) + "lost 0\n",
        ("send", ""): sent(1, 0) + "refused r1 91\n" + sent(2, 1) + "lost 0\n" * 2,
        ("receive", ""): sent(1, 0) + sent(2, 1) + "refused s1 90\n" + taken(1, 2),
        ("disturb", ""): sent(1, 0) + sent(2, 1) + "lost 0\n" + taken(1, 2),
    }
    for number, ((call, path), wanted) in enumerate(cases.items()):
        words = ("loop", here.config, str(script), "--store", f"{here.folder}/{number}")
        check(f"{call} fails", ran(*words, env=failing(call, 1, path)), (0, wanted, "!"))


SAVES = [test(call, path, saves is IN_DOUBT) for test in (a_router_whose_save_fails, a_map_server_whose_save_fails)
         for saves in (UNDONE, IN_DOUBT) for call, path in saves]

run_tests([a_map_server_saves_prints_and_answers, a_map_server_commits_prints_and_answers, a_map_server_commits_groups,
           a_router_saves_prints_and_sends, a_loop_saves_prints_and_sends, *SAVES,
           a_start_whose_call_fails, a_load_that_fails, a_socket_whose_call_fails, a_map_server_s_socket_whose_call_fails,
           a_loop_whose_call_fails])
