#!/usr/bin/env -S python3 -B
"""output.py PROGRAM [TEST ..]
What `lispd server` and `lispd router` print while they run without an end (no `--turns`): each line, the repeats that are summed,
and that no reader, full disk or stranger holds a node back. Prints each check that fails, and ends with 1 where one does.
`output.py PROGRAM flood COUNT` floods a Map-Server with so many datagrams, and prints what came of it."""
import collections
import contextlib
import errno
import fcntl
import itertools
import os
import pty
import re
import select
import shutil
import socket
import subprocess
import sys
import tempfile
import time
from pathlib import Path

from nodes import LIMIT, PORT, SITE, XTR, check, failing, identity, is_up, killed, map_register, nonce_in, nonce_text, peer, ran, run_tests, until
from sockets import arrivals, check_below, faster, late, map_notify, signed, slower

# How many bytes wait in a node until its output takes them; and how many a write to a pipe has at most.
ROOM, PIPE_BUF = 65536, 4096
# How many addresses of refused datagrams are told apart in a second; and the most bytes of a line here.
ADDRESSES, LONGEST = 64, 150
# In how many seconds a Map-Register is answered at the latest; and how many are sent at once.
USUAL, AT_ONCE = 2, 50
# A nonce and names that make long lines; so many of them are far more than a pipe and what waits in a node have room for.
FIRST, SERVER, ROUTER, MANY = 10**18, "s" * 32, "r" * 32, 2000
# Where there is a disk in memory the folders are there.
if os.path.isdir("/dev/shm"):
    tempfile.tempdir = "/dev/shm"

NOTICE = 2**63
JUNK, FORGED, REPLAYED = b"junk", map_register(2, b"other"), map_register(1)
TOLD, SUM = re.compile(r"refused s1 (\d+).* from \S+"), re.compile(r"refused s1 (\d+) from \S+ times (\d+)")


class Output:
    """Our end of what a node prints: its lines, as they are asked for."""

    def __init__(self, descriptor):
        self.descriptor, self.text = descriptor, b""

    def line(self, patience=LIMIT):
        """The next line; None where none comes within so many seconds."""
        end = time.monotonic() + patience
        while b"\n" not in self.text:
            if not select.select([self.descriptor], [], [], max(0, end - time.monotonic()))[0]:
                return None
            self.text += (got := os.read(self.descriptor, ROOM))
            if not got:
                return None
        line, self.text = self.text.split(b"\n", 1)
        return line.rstrip(b"\r").decode()

    def lines(self, count):
        return [self.line() for _ in range(count)]

    def lines_to(self, front):
        """The next lines, up to the first one that begins so."""
        found = []
        while (line := self.line()) is not None:
            found.append(line)
            if line.startswith(front):
                break
        return found

    def rest(self, patience):
        """The lines that come until none does for so many seconds."""
        return list(iter(lambda: self.line(patience), None))


def a_server(here, name="s1", **how):
    """The first Map-Server, which is up, and its lines where they come by a pipe."""
    process = here.start(*here.words("server", name), **how)
    is_up(here.s1)
    return process, Output(process.stdout.fileno()) if process.stdout else None


def a_server_of_long_lines(here, **how):
    """The first Map-Server, and the first router, under long names."""
    config = Path(here.config)
    config.write_text(config.read_text().replace('"s1"', f'"{SERVER}"').replace('"r1"', f'"{ROUTER}"'))
    return a_server(here, SERVER, **how)[0]


def moved(router, before, now):
    return f"moved s1 {router} from {before} to {now}"


def accepted(here, nonce, server="s1", router="r1"):
    return f"accepted {server} {router} key 1 nonce {nonce} from {here.r1}"


def long_lines(here, first, count):
    return [accepted(here, nonce, SERVER, ROUTER) for nonce in range(first, first + count)]


def answers(here, it, first, count):
    """How many of so many Map-Registers, with nonces from the first one on, Map-Server s1 answers in time; some are sent at once."""
    missing = set()
    it.settimeout(USUAL)
    for start in range(first, first + count, AT_ONCE):
        nonces = range(start, min(start + AT_ONCE, first + count))
        for nonce in nonces:
            it.sendto(map_register(nonce), (here.s1, PORT))
        missing |= set(nonces)
        with contextlib.suppress(TimeoutError):
            while missing & set(nonces):
                missing.discard(nonce_in(it.recv(65535)))
    return count - len(missing)


def resident_kib(process):
    """How much memory a process has, in KiB."""
    lines = Path(f"/proc/{process.pid}/status").read_text().splitlines()
    return next(int(line.split()[1]) for line in lines if line.startswith("VmRSS"))


def check_within(name, got, least, most):
    check(name, got if not least <= got <= most else (least, most), (least, most))


# What a node begins with, and what its lines say.


def what_a_folder_keeps_is_told_first(here):
    for pairs, message in (("none", map_register(1)), (1, map_register(2)), (1, map_register(1, xtr=XTR + 1)), (2, None)):
        process, output = a_server(here)
        check("a Map-Server's first line", output.line(), f"started s1 nonces {pairs}")
        if message:
            with peer(here.r1) as it:
                check("an answer", here.answer(it, message) is not None, True)
        killed(process)
        for end in (".new", ".other"):
            Path(f"{here.file('s1', 'r')}{end}").write_text("no pair")
    for pairs in ("none", 1):
        process = here.start(*here.words("router", "r1"))
        check("a router's first lines", Output(process.stdout.fileno()).lines(2)[0], f"started r1 nonces {pairs}")
        killed(process)


def a_node_that_must_know_nonces(here):
    """With --known a node whose folder keeps no nonces doesn't start, as behind a disk that isn't mounted."""
    for kind, name, address in (("server", "s1", here.s1), ("router", "r1", here.r1)):
        words = here.words(kind, name, "--known")
        check(f"{kind}, no nonces", ran(*words), (1, "", "lispd: fault 93\n"))
        file = here.file(name, "r" if kind == "server" else "s")
        Path(f"{file}.new").write_bytes(nonce_text(7))
        check(f"{kind}, a new file alone", ran(*words), (1, "", "lispd: fault 93\n"))
        file.write_bytes(nonce_text(7))
        process = here.start(*words)
        check(f"{kind}, its first line", Output(process.stdout.fileno()).line(), f"started {name} nonces 1")
        check(f"{kind} is up", is_up(address), True)
        killed(process)
        check(f"{kind}, --turns", ran(*words, "--turns", "1")[:2], (2, ""))


def where_datagrams_came_from(here):
    """A Map-Server says it of each datagram, whoever's address it is."""
    _, output = a_server(here)
    check("its first line", output.line(), "started s1 nonces none")
    with peer(here.r1) as r1, peer(here.s2) as other:
        for it, address, message, line in ((r1, here.r1, map_register(1), "accepted s1 r1 key 1 nonce 1"),
                                           (other, here.s2, map_register(2), "accepted s1 r1 key 1 nonce 2"),
                                           (r1, here.r1, map_register(3, xtr=99), f"accepted s1 {identity(99)} key 1 nonce 3"),
                                           (r1, here.r1, JUNK, "refused s1 50 read 1"), (r1, here.r1, FORGED, "refused s1 53"),
                                           (r1, here.r1, REPLAYED, "refused s1 57 saved 2"),
                                           (other, here.s2, b"", "refused s1 50 read 1")):
            it.sendto(message, (here.s1, PORT))
            check("a line", output.line(), f"{line} from {address}")
            if "nonce 2" in line:
                check("it moved", output.line(), moved("r1", here.r1, here.s2))


def routers_that_move(here):
    """A router that registers from another address than before, as two machines with one identity do: it is said of each router, once a minute,
    which is three seconds here."""
    _, output = a_server(here, env=faster(speed=20))
    check("its first line", output.line(), "started s1 nonces none")
    with peer(here.r1) as one, peer(here.r2) as two:
        addresses = {one: here.r1, two: here.r2}

        def lines(it, nonce, xtr=XTR, before=None):
            name, address = "r1" if xtr == XTR else identity(xtr), addresses[it]
            it.sendto(map_register(nonce, xtr=xtr), (here.s1, PORT))
            more = [moved(name, addresses[before], address)] if before else []
            check(f"nonce {nonce} of {name}", [output.line(), *(output.line() for _ in more)],
                  [f"accepted s1 {name} key 1 nonce {nonce} from {address}", *more])

        lines(one, 1)
        lines(one, 2)
        lines(two, 3, before=one)
        lines(two, 1, xtr=99)
        lines(one, 2, xtr=99, before=two)
        for nonce in (4, 5, 6):
            lines(one if nonce % 2 == 0 else two, nonce)
        time.sleep(3.2)
        lines(one, 7)
        lines(one, 8)
        lines(two, 9, before=one)
        check("nothing else", output.rest(0.5), [])


def where_a_router_s_datagrams_came_from(here):
    """A router says it of what it took or refused, and not of what it sent."""
    with peer(here.s1) as s1, peer(here.s2) as s2, peer(here.r2) as other:
        process = here.start(*here.words("router", "r1"), env=slower())
        output = Output(process.stdout.fileno())
        check("its first lines", output.lines(3), ["started r1 nonces none", "sent r1 s1 key 1 nonce 1", "sent r1 s2 key 1 nonce 2"])
        for it, address, message, line in ((s1, here.s1, map_notify(1), "counted r1 s1 key 1 nonce 1"),
                                           (s2, here.s2, map_notify(NOTICE), f"noticed r1 s2 nonce {NOTICE}"),
                                           (other, here.r2, map_notify(2), "refused r1 44"),
                                           (other, here.r2, JUNK, "refused r1 43 read 1"),
                                           (s2, here.s2, map_notify(1), "refused r1 47 latest 2")):
            it.sendto(message, (here.r1, PORT))
            check("a line", output.line(), f"{line} from {address}")


def kinds_of_errors(here):
    """A store that fails says why, behind its number, and before the source address where a datagram was to be taken."""
    cases = [("write", ".nonce.new", errno.ENOSPC, "59 store 30 StorageFull"),
             ("open", ".nonce.new", errno.EDQUOT, "59 store 30 QuotaExceeded"),
             ("sync", ".nonce.new", errno.EROFS, "59 store 30 ReadOnlyFilesystem"),
             ("rename", ".nonce", errno.EACCES, "59 store 30 PermissionDenied"),
             ("look", ".nonce", errno.ENOTDIR, "56 store 30 NotADirectory"), ("sync", "/s1", errno.EIO, "59 store 30 Uncategorized")]
    for number, (call, path, error, line) in enumerate(cases):
        folder = f"{here.folder}/{number}"
        os.mkdir(folder)
        words, env = ("server", here.config, "s1", "--store", folder), failing(call, 1, path, error)
        process = here.start(*words, env=env, stderr=subprocess.DEVNULL)
        output = Output(process.stdout.fileno())
        is_up(here.s1)
        with peer(here.r1) as it:
            it.sendto(map_register(7), (here.s1, PORT))
            check(f"{call} of {path} fails", output.lines(2)[1], f"refused s1 {line} from {here.r1}")
            it.sendto(FORGED, (here.s1, PORT))
            check("another refusal", output.line(), f"refused s1 53 from {here.r1}")
            check("it goes on", (answers(here, it, 8, 1), output.line()), (1, accepted(here, 8)))
        killed(process)
    env = failing("write", 1, ".nonce.new", errno.ENOSPC)
    process = here.start(*here.words("router", "r2"), env=env, stderr=subprocess.DEVNULL)
    check("a router's store", Output(process.stdout.fileno()).lines(3),
          ["started r2 nonces none", "refused r2 42 store 30 StorageFull", "sent r2 s1 key 1 nonce 1"])


def kinds_of_errors_of_a_socket(here):
    for call, error, line in (("send", errno.ENETUNREACH, "91 NetworkUnreachable"), ("send", errno.EPERM, "91 PermissionDenied"),
                              ("receive", errno.ENETDOWN, "90 NetworkDown"), ("receive", errno.ENOMEM, "90 OutOfMemory")):
        process, output = a_server(here, env=failing(call, 1, "", error), stderr=subprocess.DEVNULL)
        check("its first line", output.line().split()[:2], ["started", "s1"])
        with peer(here.r1) as it:
            nonce = time.monotonic_ns()
            it.sendto(map_register(nonce), (here.s1, PORT))
            check(f"a {call} that fails", set(output.lines(2)), {accepted(here, nonce), f"refused s1 {line}"})
        killed(process)


# Whoever reads.


def an_output_that_is_full(here):
    """A Map-Server whose lines can't be printed answers all the same, and a stranger's junk changes nothing."""
    with open("/dev/full", "wb") as full, peer(here.r1) as it, peer(f"{here.front}99") as stranger:
        process, _ = a_server(here, stdout=full)
        for first in range(1, 5001, 500):
            for _ in range(50):
                stranger.sendto(JUNK, (here.s1, PORT))
            check("answers", answers(here, it, first, 500), 500)
        check("it runs", process.poll(), None)


# Outputs: our end, that of a node, and how many bytes it holds at least and at most.


def a_pipe():
    ours, its = os.pipe()
    holds = fcntl.fcntl(its, fcntl.F_GETPIPE_SZ)
    return ours, its, holds - 2 * PIPE_BUF, holds


def a_socket():
    """As a service of journald has it."""
    return *(it.detach() for it in socket.socketpair()), 0, 2 * ROOM


def a_terminal():
    return *pty.openpty(), 0, 2 * ROOM


def a_reader_that_stops(output):
    """Lines wait while nobody reads them; those that find no room are counted, and the node answers as ever. What comes when the
    reader goes on is whole, in order, and without a gap but for those that it says were dropped. A reader that leaves is no more."""
    def test(here):
        ours, its, least, most = output()
        # (it leads a session, and so a terminal might become its own, the end of which would end it)
        process = a_server_of_long_lines(here, stdout=its, start_new_session=True)
        os.close(its)
        lines = Output(ours)
        with peer(here.r1) as it:
            check("the first line", lines.line(), f"started {SERVER} nonces none")
            check("answers while nobody reads", answers(here, it, FIRST, MANY), MANY)
            *found, dropped = lines.lines_to("dropped ")
            check("what comes", found, long_lines(here, FIRST, len(found)))
            check("what was dropped", dropped, f"dropped {MANY - len(found)}")
            check_within("bytes that waited", sum(len(line) + 1 for line in found), ROOM - LONGEST + least, ROOM + most)
            check("the next line", (answers(here, it, FIRST + MANY, 1), [lines.line()]), (1, long_lines(here, FIRST + MANY, 1)))
            os.close(ours)
            check("answers when nobody can read", answers(here, it, FIRST + MANY + 1, MANY // 2), MANY // 2)
        check("it runs", process.poll(), None)
    test.__name__ = f"a_reader_of_{output.__name__}_that_stops"
    return test


def a_reader_that_left(here):
    """Nobody can read what a node prints, from its start on: it answers all the same."""
    for first, output in enumerate((a_pipe, a_socket, a_terminal)):
        ours, its, *_ = output()
        os.close(ours)
        process, _ = a_server(here, stdout=its)
        os.close(its)
        with peer(here.r1) as it:
            check(output.__name__, answers(here, it, 10 * first + 1, 10), 10)
        check("it runs", process.poll(), None)
        killed(process)


def a_pipe_that_can_not_be_opened_anew(here):
    """As one of another user; a superuser gives up the right to open it."""
    if os.geteuid() or not shutil.which("setpriv"):
        print("output.py: no superuser: another user's pipe was not tried")
        return
    ours, its = os.pipe()
    os.fchown(its, 65534, 65534)
    process = a_server_of_long_lines(here, stdout=its, under=["setpriv", "--bounding-set", "-dac_override,-dac_read_search"])
    os.close(its)
    lines = Output(ours)
    with peer(here.r1) as it:
        check("answers", answers(here, it, FIRST, MANY), MANY)
        first, *found, dropped = lines.lines_to("dropped ")
        check("what comes", [first, *found], [f"started {SERVER} nonces none", *long_lines(here, FIRST, len(found))])
        check("what was dropped", dropped, f"dropped {MANY - len(found)}")
    check("it runs", process.poll(), None)


def a_write_that_fails_once(here):
    """No line is lost or cut by a write that fails, or that takes one byte of it."""
    for call, at in itertools.product(("write", "short"), (1, 2, 3)):
        process, output = a_server(here, env=failing(call, at, "]"), stderr=subprocess.PIPE)
        first = output.line()
        check("its first line", first and first.split()[:3], ["started", "s1", "nonces"])
        nonce = time.monotonic_ns()
        with peer(here.r1) as it:
            check("answers", answers(here, it, nonce, 5), 5)
        check(f"{call} {at}", output.lines(5), [accepted(here, nonce + place) for place in range(5)])
        check("it runs", process.poll(), None)
        killed(process)
        check(f"{call} {at} was tried", process.stderr.read(), "!")


def what_shares_its_output_still_waits(here):
    """A descriptor that a node has from its parent isn't set to O_NONBLOCK: whoever shares it writes as before."""
    for nonce, output in enumerate((a_pipe, a_terminal), 1):
        ours, its, *_ = output()
        process, _ = a_server(here, stdout=its)
        with peer(here.r1) as it:
            check("an answer", answers(here, it, nonce, 1), 1)
        check("its lines", Output(ours).lines(2)[1], accepted(here, nonce))
        check(f"{output.__name__}: O_NONBLOCK", fcntl.fcntl(its, fcntl.F_GETFL) & os.O_NONBLOCK, 0)
        killed(process)
        os.close(ours)
        os.close(its)


def a_file_that_others_write(here):
    """What a node prints to a file stands behind what was there, and before what comes later."""
    path = Path(f"{here.folder}/lines")
    with open(path, "wb", buffering=0) as file, peer(here.r1) as it:
        file.write(b"before\n")
        process, _ = a_server(here, stdout=file)
        check("an answer", answers(here, it, 1, 1), 1)
        file.write(b"between\n")
        check("another", answers(here, it, 2, 1), 1)
        killed(process)
        file.write(b"behind\n")
    check("the file", path.read_text().splitlines(),
          ["before", "started s1 nonces none", accepted(here, 1), "between", accepted(here, 2), "behind"])


def closed_descriptors(here):
    """A node that was started without a standard input, output or error: none of its files comes in their place."""
    for nonce, (closed, redirections) in enumerate((((0, 1, 2), "<&- >&- 2>&-"), ((1,), ">&-"), ((2,), "2>&-"), ((0, 1), "<&- >&-")), 1):
        process, _ = a_server(here, under=("sh", "-c", f'exec "$0" "$@" {redirections}'))
        with peer(here.r1) as it:
            check("an answer", answers(here, it, nonce, 1), 1)
            it.sendto(JUNK, (here.s1, PORT))
        check(redirections, [os.readlink(f"/proc/{process.pid}/fd/{it}") for it in closed], ["/dev/null"] * len(closed))
        killed(process)
        file = here.file("s1", "r")
        check("its nonces", file.read_bytes(), nonce_text(nonce))
        check("its files", {it.name: it.stat().st_size for it in file.parent.iterdir()}, {"control": 0, "lock": 0, file.name: 27})


# Refusals that repeat.


def socket_at(address):
    """A socket of ours at an address, at any port."""
    it = socket.socket(socket.AF_INET, socket.SOCK_DGRAM)
    it.bind((address, 0))
    return it


def queue(address):
    """How many bytes wait at the socket at an address, UDP port 4342; and how many datagrams the system dropped there."""
    name = f" {socket.inet_aton(address)[::-1].hex().upper()}:{PORT:04X} "
    # (the system's list may miss a socket while another one is closed)
    for _ in range(100):
        for line in Path("/proc/net/udp").read_text().splitlines():
            if name in line:
                return int(line.split()[4].split(":")[1], 16), int(line.split()[-1])
    raise LookupError(f"no socket at {address}")


def of_one_second(here):
    """A Map-Server, and its lines behind the first one: its second is ten of ours, so that what is sent at once is of one."""
    _, output = a_server(here, env=slower())
    check("its first line", output.line(), "started s1 nonces none")
    return output


def check_second(name, output, wanted):
    """Checks all lines of a second."""
    check(name, output.lines(len(wanted)), wanted)
    check(f"{name}: other lines", output.rest(0.5), [])


def send_each(here, sockets, messages):
    """Sends from each of these sockets a message, fifty of them at once."""
    for number, (it, message) in enumerate(zip(sockets, messages)):
        it.sendto(message, (here.s1, PORT))
        if number % 50 == 49:
            until(lambda: queue(here.s1)[0] == 0)


def repeats_are_summed(here):
    """A thousand datagrams alike are two lines."""
    output, address = of_one_second(here), f"{here.front}99"
    with socket_at(address) as it:
        send_each(here, [it] * 1000, [JUNK] * 1000)
    check_second("junk", output, [f"refused s1 50 read 1 from {address}", f"refused s1 50 from {address} times 999"])


def numbers_and_addresses_are_told_apart(here):
    output, one, other = of_one_second(here), f"{here.front}98", f"{here.front}99"
    with peer(here.r1) as it:
        check("an answer", (answers(here, it, 1, 1), output.line()), (1, accepted(here, 1)))
    with socket_at(one) as it, socket_at(other) as another:
        send_each(here, [it] * 5, [JUNK, JUNK, FORGED, JUNK, FORGED])
        send_each(here, [another] * 3, [JUNK, REPLAYED, JUNK])
        send_each(here, [it] * 2, [FORGED, b""])
    check_second("three numbers, two addresses", output,
                 [f"refused s1 50 read 1 from {one}", f"refused s1 53 from {one}", f"refused s1 50 read 1 from {other}",
                  f"refused s1 57 saved 1 from {other}", f"refused s1 50 from {one} times 3", f"refused s1 53 from {one} times 2",
                  f"refused s1 50 from {other} times 1"])


def a_hundred_addresses(here):
    """At most 64 are told apart in a second; the others make one sum, of each number."""
    output, addresses, times = of_one_second(here), [f"{here.front}{last}" for last in range(101, 201)], 3
    sockets = [socket_at(address) for address in addresses]
    send_each(here, sockets * times, [JUNK] * times * len(sockets))
    check_second("a hundred", output, [*(f"refused s1 50 read 1 from {address}" for address in addresses[:ADDRESSES + 1]),
                                       *(f"refused s1 50 from {address} times {times - 1}" for address in addresses[:ADDRESSES]),
                                       f"refused s1 50 from others times {times * (len(sockets) - ADDRESSES) - 1}"])
    for it in sockets:
        it.close()


def tally(lines):
    """How many refusals of each number the lines tell, themselves and in sums."""
    counts = collections.Counter()
    for line in lines:
        if match := SUM.fullmatch(line):
            counts[int(match[1])] += int(match[2])
        elif match := TOLD.fullmatch(line):
            counts[int(match[1])] += 1
    return counts


def sums_tell_all(here):
    """Over some seconds, of a hundred addresses and three numbers: each refusal is in a line or in a sum."""
    process, output = a_server(here)
    with peer(here.r1) as it:
        check("an answer", answers(here, it, 1, 1), 1)
    sockets, sent, begun = [socket_at(f"{here.front}{last}") for last in range(101, 201)], 0, time.monotonic()
    while time.monotonic() < begun + 2.5:
        for message in (JUNK, FORGED, REPLAYED):
            send_each(here, some := sockets[sent % 7::7], [message] * len(some))
        sent += len(some)
        until(lambda: queue(here.s1)[0] == 0)
    lines, seconds = output.rest(1.5), int(time.monotonic() - begun) + 1
    check("datagrams that the system dropped", queue(here.s1)[1], 0)
    check("refusals", tally(lines), {50: sent, 53: sent, 57: sent})
    check_below("lines", len(lines), seconds * 2 * (ADDRESSES + 3) + 2)
    check("it runs", process.poll(), None)
    for it in sockets:
        it.close()


def a_full_disk_under_the_lines_and_the_store(here):
    """Lines wait for room, and none is lost or cut; what couldn't be saved was refused. A machine that doesn't let us make a small
    disk doesn't run it."""
    disk = f"{here.folder}/disk"
    os.mkdir(disk)
    if subprocess.run(["mount", "-t", "tmpfs", "-o", "size=32k", "tmpfs", disk], capture_output=True, check=False).returncode != 0:
        print("output.py: no small disk can be made: a full disk was not tried")
        return
    path, sockets = Path(f"{disk}/lines"), [socket_at(f"{here.front}{last}") for last in range(101, 201)]
    try:
        with open(path, "wb") as file, peer(here.r1) as it:
            process = here.start("server", here.config, "s1", "--store", disk, stdout=file)
            is_up(here.s1)
            check("before the disk is full", answers(here, it, 1, 1), 1)
            with open(f"{disk}/ballast", "wb", buffering=0) as ballast, contextlib.suppress(OSError):
                while ballast.write(bytes(4096)):
                    pass
            send_each(here, sockets * 3, [JUNK] * 300)
            check("on a full disk", answers(here, it, 2, 1), 0)
            check("the file", path.stat().st_size, 4096)
            os.remove(f"{disk}/ballast")
            check("with room again", answers(here, it, 2, 1), 1)
            check("all lines", until(lambda: tally(path.read_text().splitlines()) == {50: 300, 59: 1}), True)
            killed(process)
            others = [line for line in path.read_text().splitlines() if not line.startswith("refused s1 50 ")]
            check("other lines", others, ["started s1 nonces none", accepted(here, 1), f"refused s1 59 store 30 StorageFull from {here.r1}",
                                          accepted(here, 2)])
    finally:
        subprocess.run(["umount", "-l", disk], capture_output=True, check=False)
        for it in sockets:
            it.close()


# A flood.

FLOOD, COUNTED = 100_000, sys.argv[3:4]
# How many bytes of datagrams may wait at the Map-Server's socket: half of what the system lets wait.
HALF = int(Path("/proc/sys/net/core/rmem_default").read_text()) // 2


def with_four_routers(here):
    """The configuration with four routers of the site, each of which registers with the first Map-Server."""
    config = Path(here.config)
    more = [f'[[router]]\nname = "r{number}"\naddress = "{here.front}{20 + number}"\nsite = "{SITE:016x}"\n'
            f'xtr = "{XTR + number - 1:032x}"\nkey = 1\nservers = ["s1"]\nrecords = ["10.1.{number}.0/24=1440+192.0.2.{number}"]\n'
            for number in (3, 4)]
    config.write_text(config.read_text().replace('["s1", "s2"]', '["s1"]') + "".join(more))


def send_flood(here, sockets, count):
    """Sends so many datagrams that are refused, from all addresses, as fast as the Map-Server takes them: mostly junk."""
    for first in range(0, count, 50):
        for number in range(first, min(first + 50, count)):
            message = {0: FORGED, 1: REPLAYED}.get(number % 97, JUNK)
            sockets[number % len(sockets)].sendto(message, (here.s1, PORT))
        until(lambda: queue(here.s1)[0] < HALF)


def flood(here):
    """Datagrams that are refused, from a hundred addresses, as fast as they are taken: four routers stay registered, and what is
    printed in a second has a bound, whatever comes. An entry of a second makes a line and a sum at most, and there are entries of
    64 addresses at most, and one of the others for each number."""
    count, path = int(COUNTED[0]) if COUNTED else FLOOD, Path(f"{here.folder}/lines")
    with_four_routers(here)
    with open(path, "wb") as file:
        process, _ = a_server(here, stdout=file)
    sockets = [socket_at(f"{here.front}{last}") for last in range(101, 201)]
    routers = [here.start(*here.words("router", f"r{number}"), env=faster()) for number in range(1, 5)]
    for router in routers:
        check("a router registers", Output(router.stdout.fileno()).lines_to("counted ")[-1:] != [], True)
    begun = time.monotonic()
    send_flood(here, sockets, count // 20)
    memory = resident_kib(process)
    send_flood(here, sockets, count - count // 20)
    check("the flood is taken", until(lambda: queue(here.s1)[0] == 0), True)
    took = time.monotonic() - begun
    time.sleep(1.5)
    more, dropped, seconds = resident_kib(process) - memory, queue(here.s1)[1], int(time.monotonic() - begun) + 2
    check_below("further memory in KiB", more, 4096)
    check("it runs", process.poll(), None)
    counted = [sum(line.startswith("counted ") for line in killed(router)) for router in routers]
    check("routers that stay registered", [times >= took // 12 for times in counted], [True] * 4)
    killed(process)
    lines = path.read_text().splitlines()
    refusals, accepts = ([line for line in lines if line.startswith(front)] for front in ("refused ", "accepted "))
    check("who registers", {line.split()[2] for line in accepts}, {"r1", "r2", "r3", "r4"})
    check("the first line", lines[0], "started s1 nonces none")
    check("others", {line.split()[0] for line in lines[1:]}, {"accepted", "refused"})
    check_within("refusals that are told", sum(tally(refusals).values()), count - dropped, count)
    most = seconds * 2 * (ADDRESSES + 3)
    check_below("lines of refusals", len(refusals), most)
    check_below("bytes of lines", path.stat().st_size, LONGEST * (most + len(accepts) + 1))
    if COUNTED:
        print(f"{count} datagrams in {took:.1f} s, {count / took:.0f} in a second, {dropped} dropped by the system; "
              f"{path.stat().st_size} bytes in {len(lines)} lines, of which {len(refusals)} are of refusals and {most} may be; "
              f"{more} KiB more memory; counted {counted}")
    for it in sockets:
        it.close()


# What dies, and who is silent.


def registration(nonce, ttl, xtr=XTR):
    """The worked Map-Register with bit T set and a record of so many minutes."""
    behind = ttl.to_bytes(4, "big") + bytes.fromhex("01101000000000010a0100000164ff0000050001c0000201") + xtr.to_bytes(16, "big")
    return signed("3a0009", 1, nonce, behind + SITE.to_bytes(8, "big"))


def what_expires_is_told(here):
    """A row that wasn't registered again dies, once: a minute is three seconds here. One that was withdrawn doesn't die."""
    _, output = a_server(here, env=faster(speed=20))
    check("its first line", output.line(), "started s1 nonces none")
    with peer(here.r1) as it:
        def register(nonce, ttl, xtr=XTR, name="r1"):
            begun = time.monotonic()
            it.sendto(registration(nonce, ttl, xtr), (here.s1, PORT))
            check("it is accepted", output.line(), f"accepted s1 {name} key 1 nonce {nonce} from {here.r1}")
            return begun

        begun = register(1, 1)
        register(1, 1, 99, identity(99))
        check("they expire", output.lines(2), ["expired s1 r1 10.1.0.0/16", f"expired s1 {identity(99)} 10.1.0.0/16"])
        check_within("seconds until then", time.monotonic() - begun, 3, 8)
        check("once", output.rest(0.5), [])
        register(2, 1)
        time.sleep(1.5)
        begun = register(3, 1)
        check("it expires later", output.line(), "expired s1 r1 10.1.0.0/16")
        check_within("seconds until then", time.monotonic() - begun, 3, 8)
        register(4, 1)
        register(5, 0)
        check("withdrawn", output.rest(4), [])


def a_silent_map_server_is_told(here):
    """Three minutes without an acknowledgement are told, and again ten minutes later; a minute is 0.6 s here. One that answers isn't. (Where
    we take 10 ms to answer, the router has sent again, and refuses the older acknowledgement: 47.)"""
    with peer(here.s1), peer(here.s2) as s2:
        process = here.start(*here.words("router", "r1"), env=faster(speed=100))
        output, end, silent = Output(process.stdout.fileno()), time.monotonic() + 9, []
        while time.monotonic() < end:
            for _, message in arrivals([s2], 0.02)[0]:
                s2.sendto(map_notify(nonce_in(message)), (here.r1, PORT))
            silent += [line.rsplit(" ", 1) for line in output.rest(0.01) if not line.startswith(("sent ", "counted ", "started ", "refused r1 47 "))]
        check("who is silent", [front for front, _ in silent], ["silent r1 s1"] * 2)
        first, second = (int(ms) for _, ms in silent)
        slack = 100 * (500 + int(2000 * late()))
        check_within("ms of silence", first, 180_000, 180_000 + slack)
        check_within("ms until it is told again", second - first, 600_000, 600_000 + slack)


def a_router_that_lost_its_nonces_is_told(here):
    """It starts over an empty store: its Map-Registers are refused as replays. Three minutes of that are told, and again ten minutes later; a
    minute is 0.6 s here."""
    _, output = a_server(here, env=faster(speed=100))
    check("its first line", output.line(), "started s1 nonces none")
    with peer(here.r1) as it:
        it.sendto(registration(1000, 1440), (here.s1, PORT))
        check("it is accepted", output.line(), f"accepted s1 r1 key 1 nonce 1000 from {here.r1}")
    here.start(*here.words("router", "r1"), env=faster(speed=100))
    end, refused, told = time.monotonic() + LIMIT, 0, []
    while len(told) < 2 and time.monotonic() < end:
        for line in output.rest(0.1):
            if line == f"refused s1 57 saved 1000 from {here.r1}":
                refused += 1
            elif " times " in line and line.startswith("refused s1 57 "):
                refused += int(line.rpartition(" ")[2])
            else:
                told.append((line.rpartition(" ")[0], refused, int(line.rpartition(" ")[2])))
    check("how it is told", [front for front, _, _ in told],
          [f"replays s1 from {here.r1} times {times} saved 1000 age" for _, times, _ in told])
    check("how often", len(told), 2)
    first, second = (age for _, _, age in told)
    slack = 100 * (500 + int(2000 * late()))
    check_within("ms until it is told", first, 180_000, 180_000 + 60_000 + slack)
    check_within("ms until it is told again", second - first, 600_000, 600_000 + slack)


# Nodes that end.


def lines_of_turns(here):
    """With --turns each event is a line, and nothing else is printed."""
    process = here.start(*here.words("server", "s1", "--turns", "20"))
    is_up(here.s1)
    with peer(here.r1) as it:
        for message in (map_register(1), *[JUNK] * 3, FORGED, REPLAYED):
            it.sendto(message, (here.s1, PORT))
        check("a Map-Server", process.stdout.read(), "accepted s1 r1 key 1 nonce 1\n" + "refused s1 50 read 1\n" * 3
              + "refused s1 53\nrefused s1 57 saved 1\n")
    check("it ends", process.wait(LIMIT), 0)
    check("a router", ran(*here.words("router", "r1", "--turns", "1")), (0, "sent r1 s1 key 1 nonce 1\nsent r1 s2 key 1 nonce 2\n", ""))
    process = here.start(*here.words("server", "s1", "--turns", "30"), env=faster(speed=60))
    is_up(here.s1)
    with peer(here.r1) as it:
        it.sendto(registration(2, 1), (here.s1, PORT))
        check("a row that dies", process.stdout.read(), "accepted s1 r1 key 1 nonce 2\n")


def a_fault_in_words(here):
    words = here.words("server", "s9")
    check("a fault", ran(*words), (2, "", "lispd: fault 70\n"))
    status, output, error = ran(*words, "--words")
    first, *others = error.splitlines()
    check("a fault in words", (status, output, first, len(others)), (2, "", "lispd: fault 70", 1))
    check("its words", others[0].endswith(": name a node of the configuration"), True)


READERS = [a_reader_that_stops(output) for output in (a_pipe, a_socket, a_terminal)]

# Those that wait longest come first.
run_tests([a_silent_map_server_is_told, a_router_that_lost_its_nonces_is_told, *READERS, a_reader_that_left,
           a_pipe_that_can_not_be_opened_anew, an_output_that_is_full, what_expires_is_told, routers_that_move, repeats_are_summed,
           numbers_and_addresses_are_told_apart, a_hundred_addresses, sums_tell_all, a_full_disk_under_the_lines_and_the_store,
           lines_of_turns, what_a_folder_keeps_is_told_first, a_node_that_must_know_nonces, where_datagrams_came_from,
           where_a_router_s_datagrams_came_from, kinds_of_errors, kinds_of_errors_of_a_socket, a_write_that_fails_once,
           what_shares_its_output_still_waits, a_file_that_others_write, closed_descriptors, a_fault_in_words],
          [flood])
