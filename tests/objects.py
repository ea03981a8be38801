#!/usr/bin/env -S python3 -B
"""objects.py PROGRAM [SEED]
`lispd ask --json`: a socket of ours answers each line of the stored runs, each line that OPERATING shows, and drawn ones, and Python's reader
of JSON reads what comes, beside what the rules make of the line. `lispd server --json` and `lispd router --json`: what nodes that run without
an end print, to a pipe that is read late, a file and a socket. Prints each line that differs, and ends with 1 where one does."""
import contextlib
import datetime
import errno
import json
import os
import random
import re
import select
import socket
import subprocess
import sys
import tempfile
import threading
import time
from pathlib import Path

from nodes import LIMIT, PORT, check, failing, identity, is_up, killed, map_register, nonce_in, peer, ran, run_tests, until

HERE = Path(__file__).resolve().parent
TOP = HERE.parent
# The kinds of lines behind which no name stands, or those of two nodes; behind all others that of one does.
NAMELESS = set("comes dropped fault goes lost nowhere record tick".split())
PAIRED = set("accepted acks counted done due expired moved notice noticed resent sent silent".split())
# The words with a value behind them, where it is a number or a text.
NUMBERS = set("age datagram fault key longest_save_ms nonces now part read record records replays requests rows sites slowest_reply_us "
              "standing_notices store times".split())
TEXTS = set("from latest nonce prefix resolve saved site to xtr".split())
# What a node prints is an error where the node itself fails, a warning where an operator should know of it, and else told (RFC 5424).
ERRORS, WARNINGS = {9, 35, 36, 38, 41, 42, 48, 56, 58, 59, 64, 65, 66, 68, 90, 91}, set("dropped expired moved refused replays silent".split())
TIME = re.compile(r"\d{4}-\d\d-\d\dT\d\d:\d\d:\d\d\.\d{3}Z")
# So many Map-Registers make more lines than a pipe and what waits in a node have room for; and so many are sent at once.
MANY, AT_ONCE = 3000, 50
DECIMAL = re.compile("0|[1-9][0-9]{0,14}")
EXPLAINED = re.compile(r"\d+(?: [^,(\n]*[^ ,(\n])?(?:, (\w+))? \([^\n]*\)\n  meaning: ([^\n]*)\n")
# What drawn lines have beside those words: what JSON escapes, bytes beyond ASCII, numbers of any length and form.
ODD = ['"', "\\", "/", "\t", "\b", "\f", "\r", "\0", "\x1f", "\x7f", "é", "\u2028", "😀", "", "0", "00", "007", "9" * 15, "9" * 16,
       "18446744073709551615", "57", "140", "65536", "1", "-1", "1e3", "none", "others", "10.1.0.0/16", "s1", "line", "node", "words", "name"]


def explained():
    """The name and the meaning of a number, by `lispd explain`, of the first section that has it."""
    known = {}

    def of(number):
        if number not in known:
            done = subprocess.run([program, "explain", number], capture_output=True, text=True, check=False)
            it = EXPLAINED.match(done.stdout) if done.returncode == 0 else None
            known[number] = it and (it[1] or "", it[2])
        return known[number]

    return of


def wanted(line, explain):
    """The members of a line, in their order."""
    kind, *words = line.split(" ")
    members, others = [("line", kind)], []
    for label in ("node", "peer")[:0 if kind in NAMELESS else 2 if kind in PAIRED else 1]:
        if words:
            members.append((label, words.pop(0)))
    if kind in ("fault", "refused") and words and DECIMAL.fullmatch(words[0]) and (told := explain(words[0])):
        members += [("number", int(words.pop(0))), ("name", told[0]), ("meaning", told[1])]
    while words:
        word = words.pop(0)
        if word in NUMBERS | TEXTS and words and word not in [name for name, _ in members]:
            value = words.pop(0)
            members.append((word, int(value) if word in NUMBERS and DECIMAL.fullmatch(value) else value))
        else:
            others.append(word)
    return members + ([("words", others)] if others else [])


def stored():
    """Each line of the stored runs, and each that stands by itself in OPERATING's tables."""
    files = [*TOP.glob("examples/*/*.out"), *TOP.glob("tests/schedules/*/*.out")]
    lines = [line for file in sorted(files) for line in file.read_text().splitlines()]
    shown = re.findall(r"`((?:[a-z]+) [a-z]+\d?(?: [^`]*)?|(?:dropped|fault|nowhere|lost) \d+)`", (TOP / "docs/OPERATING.md").read_text())
    return lines + [line.replace("\n", " ") for line in shown if ".." not in line]


def drawn(seed):
    """Lines of any words."""
    draw = random.Random(seed)
    words = sorted(NAMELESS | PAIRED | NUMBERS | TEXTS) + ["refused", "fault", "counts", "hold"] * 8 + ODD
    return [" ".join(draw.choice(words) for _ in range(draw.randint(1, 12))) for _ in range(5_000)]


def asked(folder, answer, *words):
    """What `lispd ask` makes of an answer."""
    path = f"{folder}/control"
    with socket.socket(socket.AF_UNIX) as listening:
        listening.bind(path)
        listening.listen()

        def serve():
            with listening.accept()[0] as client:
                while not client.recv(4096).endswith(b"\n"):
                    pass
                client.sendall(answer.encode())

        thread = threading.Thread(target=serve, daemon=True)
        thread.start()
        done = subprocess.run([program, "ask", folder, *words, "--json"], capture_output=True, check=False)
        os.unlink(path)
    return done.returncode, done.stdout.decode(), done.stderr.decode()


def differs(name, got, right):
    """Reports what isn't as it should be."""
    if got != right:
        print(f"{name}: {got!r}, wanted {right!r}", flush=True)
    return got != right


def compared(folder, name, lines, explain):
    """How many of these lines have another object than the rules make."""
    status, text, wrongs = asked(folder, "\n".join(lines) + "\nend\n", "hold")
    objects = text.split("\n")
    failed = differs(f"the answer of {name}", (status, wrongs, len(objects), objects[-1]), (0, "", len(lines) + 1, ""))
    return failed + sum(differs(line, json.loads(it, object_pairs_hook=list), wanted(line, explain)) for line, it in zip(lines, objects))


def main():
    """Each check; the status."""
    explain, seed = explained(), int(sys.argv[2]) if sys.argv[2:] else 1
    with tempfile.TemporaryDirectory() as folder:
        failed = compared(folder, "stored lines", stored(), explain)
        failed += compared(folder, "drawn lines", drawn(seed), explain)
        failed += differs("an answer that is cut off", asked(folder, "hold s1 0\n", "hold"), (1, "", "lispd: fault 99\n"))
        failed += differs("a question that is none", asked(folder, "fault 80\nend\n", "hold"), (2, "", "lispd: fault 80\n"))
        failed += differs("with --prometheus", asked(folder, "", "counts", "--prometheus"), (2, "", "lispd: fault 98\n"))
        failed += differs("a sample", asked(folder, "accepted s1 r1 key 1 nonce 7 from 192.0.2.11\nend\n", "hold")[1],
                          '{"line":"accepted","node":"s1","peer":"r1","key":1,"nonce":"7","from":"192.0.2.11"}\n')
    return int(failed > 0)


# Nodes that run without an end.


def severity(line):
    """That of a line, by its kind and its number."""
    kind, *words = line.split(" ")
    failed = kind == "restarted" or kind == "refused" and int(words[1]) in ERRORS
    return "error" if failed else "warning" if kind in WARNINGS else "info"


def check_object(text, line, since):
    """An object is that of a line, with a time from a moment on until now, in seconds since 1970."""
    (first, written), second, *others = json.loads(text, object_pairs_hook=list)
    check(f"the object of {line}", [first, second, *others], ["time", ("severity", severity(line)), *wanted(line, explained_once)])
    check(f"the form of the time of {line}", TIME.fullmatch(written) is not None, True)
    moment = datetime.datetime.fromisoformat(written.removesuffix("Z") + "+00:00").timestamp()
    check(f"the time of {line}", since - 1 <= moment <= time.time() + 1, True)


class Lines:
    """Our end of what a node prints: its lines, as they are asked for."""

    def __init__(self, descriptor):
        self.descriptor, self.text = descriptor, b""

    def __next__(self):
        while b"\n" not in self.text:
            ready = select.select([self.descriptor], [], [], LIMIT)[0]
            got = os.read(self.descriptor, 65536) if ready else b""
            if not got:
                raise ValueError(f"no line comes behind {self.text!r}")
            self.text += got
        line, self.text = self.text.split(b"\n", 1)
        return line.decode()


def a_server(here, **how):
    """The first Map-Server, which is up, and its lines where they come by a pipe."""
    process = here.start(*here.words("server", "s1", "--json"), **how)
    is_up(here.s1)
    return process, Lines(process.stdout.fileno()) if process.stdout else None


def accepted(here, nonce):
    return f"accepted s1 r1 key 1 nonce {nonce} from {here.r1}"


def answered(here, it, nonces):
    """How many Map-Registers with these nonces the Map-Server answers; some are sent at once."""
    missing, nonces = set(nonces), list(nonces)
    it.settimeout(LIMIT)
    for place in range(0, len(nonces), AT_ONCE):
        some = nonces[place:place + AT_ONCE]
        for nonce in some:
            it.sendto(map_register(nonce), (here.s1, PORT))
        with contextlib.suppress(TimeoutError):
            while missing & set(some):
                missing.discard(nonce_in(it.recv(65535)))
    return len(nonces) - len(missing)


def lines_of_a_server(here):
    since = time.time()
    _, lines = a_server(here)
    check_object(next(lines), "started s1 nonces none", since)
    with peer(here.r1) as it:
        for message, line in ((map_register(1), accepted(here, 1)), (b"junk", f"refused s1 50 read 1 from {here.r1}"),
                              (map_register(2, b"other"), f"refused s1 53 from {here.r1}"),
                              (map_register(1), f"refused s1 57 saved 1 from {here.r1}"),
                              (map_register(2, xtr=99), f"accepted s1 {identity(99)} key 1 nonce 2 from {here.r1}")):
            since = time.time()
            it.sendto(message, (here.s1, PORT))
            check_object(next(lines), line, since)


def lines_of_a_router(here):
    since = time.time()
    lines = Lines(here.start(*here.words("router", "r1", "--json")).stdout.fileno())
    for line in ("started r1 nonces none", "sent r1 s1 key 1 nonce 1", "sent r1 s2 key 1 nonce 2"):
        check_object(next(lines), line, since)


def errors(here):
    """Of the store, and of the socket."""
    for call, path, error, line in (("write", ".nonce.new", errno.ENOSPC, f"refused s1 59 store 30 StorageFull from {here.r1}"),
                                    ("send", "", errno.ENETUNREACH, "refused s1 91 NetworkUnreachable")):
        since, nonce = time.time(), time.monotonic_ns()
        process, lines = a_server(here, env=failing(call, 1, path, error), stderr=subprocess.DEVNULL)
        with peer(here.r1) as it:
            it.sendto(map_register(nonce), (here.s1, PORT))
            while json.loads(told := next(lines))["line"] != "refused":
                pass
            check_object(told, line, since)
        killed(process)


def a_reader_that_is_late(output):
    """Objects wait while nobody reads them, and each comes whole; those that find no room are counted."""
    def test(here):
        ours, its = output()
        since = time.time()
        process, _ = a_server(here, stdout=its)
        os.close(its)
        lines = Lines(ours)
        with peer(here.r1) as it:
            check("answers while nobody reads", answered(here, it, range(1, MANY + 1)), MANY)
            check_object(next(lines), "started s1 nonces none", since)
            nonce = 1
            while json.loads(told := next(lines))["line"] == "accepted":
                check_object(told, accepted(here, nonce), since)
                nonce += 1
            check_object(told, f"dropped {MANY + 1 - nonce}", since)
            since = time.time()
            check("an answer", answered(here, it, [MANY + 1]), 1)
            check_object(next(lines), accepted(here, MANY + 1), since)
        os.close(ours)
        check("it runs", process.poll(), None)
    test.__name__ = f"a_reader_of_{output.__name__}_that_is_late"
    return test


def a_pipe():
    return os.pipe()


def a_socket():
    return [it.detach() for it in socket.socketpair()]


def a_file_that_others_write(here):
    path, since = Path(f"{here.folder}/lines"), time.time()
    with open(path, "wb", buffering=0) as file, peer(here.r1) as it:
        file.write(b"before\n")
        process, _ = a_server(here, stdout=file)
        check("an answer", answered(here, it, [1]), 1)
        check("its lines are there", until(lambda: path.read_text().count("\n") == 3), True)
        file.write(b"between\n")
        check("another", answered(here, it, [2]), 1)
        check("its line is there", until(lambda: path.read_text().count("\n") == 5), True)
        killed(process)
    before, first, second, between, third = path.read_text().splitlines()
    check("what others wrote", (before, between), ("before", "between"))
    for told, line in ((first, "started s1 nonces none"), (second, accepted(here, 1)), (third, accepted(here, 2))):
        check_object(told, line, since)


def what_does_not_go_with_turns(here):
    for kind, name in (("server", "s1"), ("router", "r1")):
        check(kind, ran(*here.words(kind, name, "--json", "--turns", "1")), (2, "", "lispd: fault 98\n"))


program = os.path.abspath(sys.argv[1])
explained_once = explained()
if main():
    sys.exit(1)
run_tests([a_reader_that_is_late(a_pipe), a_reader_that_is_late(a_socket), lines_of_a_server, lines_of_a_router, errors,
           a_file_that_others_write, what_does_not_go_with_turns], names=[])
