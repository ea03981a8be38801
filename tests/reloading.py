#!/usr/bin/env -S python3 -B
"""reloading.py PROGRAM [TEST ..]
A Map-Server that runs is told that its configuration changed (`lispd tell FOLDER reload CONFIG`), or asked what that would do
(`lispd check CONFIG --against FOLDER`): sites that come, keys and prefixes that go, files with faults, long files, and what is said at
the socket itself. Then reloads beside 1,000 Map-Registers a second of several routers, some of them replays, with kills at random moments, over
files and over a database with groups: no row is lost where sites were only added, and no nonce is accepted twice.
Prints each check that fails, and ends with 1 where one does. `reloading.py PROGRAM times 200 7` does that so often, drawn from the seed 7, and
prints what came of it."""
import collections
import contextlib
import itertools
import os
import random
import re
import select
import signal
import socket
import subprocess
import sys
import tempfile
import threading
import time
from pathlib import Path

from asking import packed
from nodes import (FILES, LIMIT, PORT, STARTED, check, failing, identity, is_up, killed, map_register, next_line, nonce_in, over, peer, ran, received,
                   run_tests, until)
from nonces import LOG_FILE
from sockets import signed

# A store whose saves go in groups; how often a Map-Server is told in the gate, and from which seed that is drawn.
GROUP_OF_32 = ("--database", "--group", "32")
RELOADS, SEED = 20, 8
# In how many runs a sync fails at most.
MOST_SYNCS = 60
# How many bytes may follow `sites`.
MOST_BYTES = 4_194_304
# From how many bytes on a part of a long file ends before the next site.
ENOUGH = 49_152
CLOSING = "end\n"
UNANSWERED = (1, "", "lispd: fault 99")
# A site as it stands in a configuration: its number, its secrets by their Key IDs, its prefixes, and lines with its limits.
Site = collections.namedtuple("Site", "number keys prefixes limits", defaults=("most_rows = 4000\n",))
if os.path.isdir("/dev/shm"):
    tempfile.tempdir = "/dev/shm"


def secret(site, key=1):
    """The secret of a key of a site, long enough that nothing warns of it."""
    return f"the secret of key {key} of site {site}".encode()


def a_site(number, *prefixes, keys=(1,), **how):
    return Site(number, {key: secret(number, key) for key in keys}, prefixes or (f"10.{number}.0.0/16",), **how)


def tables(sites):
    """Sites as tables of a configuration."""
    def one(site):
        keys = "".join(f'[[site.key]]\nid = {key}\nsecret = "{value.hex()}"\n' for key, value in site.keys.items())
        prefixes = "".join(f'[[site.prefix]]\neid = "{eid}"\nmore_specifics = true\n' for eid in site.prefixes)
        return f'[[site]]\nid = "{site.number:016x}"\n{site.limits}{keys}{prefixes}\n'
    return "".join(map(one, sites))


def inline(sites):
    """The same as one array."""
    def one(site):
        keys = ", ".join(f'{{ id = {key}, secret = "{value.hex()}" }}' for key, value in site.keys.items())
        prefixes = ", ".join(f'{{ eid = "{eid}", more_specifics = true }}' for eid in site.prefixes)
        limits = "".join(f"{line}, " for line in site.limits.splitlines())
        return f'  {{ id = "{site.number:016x}", {limits}key = [{keys}], prefix = [{prefixes}] }},\n'
    return f"site = [\n{''.join(map(one, sites))}]\n"


def nodes_of(here, key=1, s1=None, xtr=10, more=""):
    """The nodes of each configuration: Map-Server s1, and router r1 of site 1."""
    return (f'[[server]]\nname = "s1"\naddress = "{s1 or here.s1}"\n'
            f'[[router]]\nname = "r1"\naddress = "{here.r1}"\nsite = "{1:016x}"\nxtr = "{xtr:032x}"\nkey = {key}\nservers = ["s1"]\n{more}')


def write(here, sites, nodes=None, form=tables):
    """Writes the configuration, which only we can read."""
    put(here, form(sites) + (nodes or nodes_of(here)))


def put(here, text):
    Path(here.config).write_text(text)
    os.chmod(here.config, 0o600)


def up(here, **how):
    """Map-Server s1, once it listens at both sockets."""
    process = here.start(*here.words("server", "s1"), **how)
    is_up(here.s1)
    check("the socket of s1", until(lambda: ran("ask", f"{here.folder}/s1", "due")[0] == 0), True)
    return process


def tell(here, *more, folder="s1", **how):
    return ran("tell", f"{here.folder}/{folder}", "reload", here.config, *more, **how)


def against(here, *more, folder="s1"):
    """What a check against the node prints behind what a check prints; all of it where that isn't at its front."""
    plain, (status, text, wrongs) = ran("check", here.config), ran("check", here.config, "--against", f"{here.folder}/{folder}", *more)
    check("what is understood comes first", text.startswith(plain[1]), True)
    return status, text.removeprefix(plain[1]), wrongs


def fault_of(ran_so):
    """How a program ended, what it printed, and the first line on standard error: behind it come words."""
    status, text, wrongs = ran_so
    return status, text, wrongs.partition("\n")[0]


def rows(here):
    """The rows of s1, as their lines without their first word and without their ages."""
    status, text, wrongs = ran("ask", f"{here.folder}/s1", "hold")
    check("its rows", (status, wrongs), (0, ""))
    return [re.sub(r" age \d+$", "", line.removeprefix("row ")) for line in text.splitlines() if line.startswith("row ")]


def record(eid, ttl=1440):
    """A record of an IPv4 prefix, without locators."""
    address, _, length = eid.partition("/")
    return ttl.to_bytes(4, "big") + bytes([0, int(length), 0x10, 0, 0, 0, 0, 1]) + packed(address)


def register(site, nonce, eid, xtr=10, key=1):
    return map_register(nonce, secret=secret(site, key), site=site, xtr=xtr, key=key, records=(record(eid),))


def accepted(here, it, *words, **how):
    message = register(*words, **how)
    check(f"{words} is accepted", nonce_in(here.answer(it, message)), nonce_in(message))
    return message


def refused(here, it, process, message, number):
    """It is told of as refused with this number, and not answered."""
    it.sendto(message, (here.s1, PORT))
    check(f"nonce {nonce_in(message)} is refused", next_line(process).split(" from ")[0].split(" saved ")[0], f"refused s1 {number}")
    check("it isn't answered", received(it, 0.05), [])


def line_of(process, front):
    """The next line, which begins so."""
    line = next_line(process) or ""
    check(f"a line {front}", line[:len(front)], front)
    return line


# ---- the conversation


@contextlib.contextmanager
def talking(here, name="s1"):
    """A connection to a node, and the lines that come from it."""
    with socket.socket(socket.AF_UNIX) as it:
        it.settimeout(LIMIT)
        it.connect(f"{here.folder}/{name}/control")
        with it.makefile("rb") as lines:
            yield it, lines


def part(text):
    data = text if isinstance(text, bytes) else text.encode()
    return b"sites %d\n%b" % (len(data), data)


def said(it, lines, data):
    """Sends this, and takes the next line."""
    with contextlib.suppress(BrokenPipeError):
        it.sendall(data if isinstance(data, bytes) else data.encode())
    return lines.readline().decode()


def rest(lines):
    """What comes up to the end of a connection."""
    found = []
    with contextlib.suppress(ConnectionError):
        while data := lines.read1():
            found.append(data)
    return b"".join(found).decode()


def conversation(here, *parts, last, name="s1"):
    """Has these parts gathered, and then says a last line: what is answered to each, and then all up to the end."""
    with talking(here, name) as (it, lines):
        answers = [said(it, lines, part(text)) for text in parts]
        it.sendall(f"{last}\n".encode())
        return answers, rest(lines)


def untouched(here, name, sites, held=None):
    """The node's sites are these still, and so are its rows."""
    answers, text = conversation(here, tables(sites), last="compare")
    check(f"{name}: its sites", (answers, text), ([f"gathered s1 {len(sites)}\n"], f"compared s1 sites {len(sites)} kept\n{CLOSING}"))
    if held is not None:
        check(f"{name}: its rows", rows(here), held)


class Relay:
    """A folder with a socket that passes on what is said to a node, and keeps it: what each connection said."""

    def __init__(self, here, name="s1"):
        self.node, self.heard = f"{here.folder}/{name}/control", []
        os.mkdir(f"{here.folder}/relay")
        self.socket = socket.socket(socket.AF_UNIX)
        self.socket.bind(f"{here.folder}/relay/control")
        self.socket.listen()
        self.thread = threading.Thread(target=self.serve, daemon=True)

    def __enter__(self):
        self.thread.start()
        return self

    def __exit__(self, *_):
        self.socket.shutdown(socket.SHUT_RDWR)
        self.thread.join()
        self.socket.close()

    def serve(self):
        while True:
            try:
                user, _ = self.socket.accept()
            except OSError:
                return
            with user, socket.socket(socket.AF_UNIX) as node, contextlib.suppress(OSError):
                node.connect(self.node)
                self.heard.append(bytearray())
                self.pass_on(user, node)

    def pass_on(self, user, node):
        while True:
            for it in select.select([user, node], [], [], LIMIT)[0]:
                data = it.recv(1 << 16)
                if not data:
                    return
                if it is user:
                    self.heard[-1] += data
                (node if it is user else user).sendall(data)

    def taken(self):
        """What was said since the last call: of each connection its lines, and the parts that follow them."""
        found, self.heard = [lines_and_parts(bytes(it)) for it in self.heard], []
        return found


def lines_and_parts(data):
    lines, parts = [], []
    while data:
        line, _, data = data.partition(b"\n")
        lines.append(line.decode().split()[0])
        if lines[-1] == "sites":
            size = int(line.split()[1])
            parts.append(data[:size].decode())
            data = data[size:]
    return lines, parts


# ---- what may change


def a_site_is_added(here):
    """Rows stay, and so do nonces; routers of the new site are accepted from then on."""
    write(here, [a_site(1)])
    check("nothing to warn of", "warning" in ran("check", here.config)[1], False)
    process = up(here)
    with peer(here.r1) as it, peer(here.r2) as other:
        old = accepted(here, it, 1, 7, "10.1.0.0/16")
        line_of(process, "accepted s1 r1 key 1 nonce 7 ")
        refused(here, other, process, register(2, 1, "10.2.0.0/16", xtr=20), 51)
        held = rows(here)
        write(here, [a_site(1), a_site(2)])
        found = f"compared s1 sites 2 kept\ncomes {2:016x}\n"
        check("what it would do", against(here), (0, found, ""))
        untouched(here, "a check", [a_site(1)], held)
        check("it is told", tell(here), (0, f"{found}reloaded s1 sites 2 kept\n", ""))
        line_of(process, "reloaded s1 sites 2 kept")
        untouched(here, "then", [a_site(1), a_site(2)], held)
        check("nothing is left to do", against(here), (0, "compared s1 sites 2 kept\n", ""))
        check("it is told again", tell(here, "--strict"), (0, "compared s1 sites 2 kept\nreloaded s1 sites 2 kept\n", ""))
        line_of(process, "reloaded s1 sites 2 kept")
        refused(here, it, process, old, 57)
        accepted(here, other, 2, 2, "10.2.0.0/16", xtr=20)
        accepted(here, it, 1, 8, "10.1.0.0/16")
        check("rows of both", len(rows(here)), 2)
    killed(process)


def what_is_wider(here):
    """Keys, prefixes and wider limits that come, in any order of the sites, keep the rows."""
    first = [a_site(1, "10.1.0.0/16", keys=(1,), limits="most_rows = 5\nfrom = [\"127.0.0.0/8\"]\n"), a_site(2)]
    write(here, first)
    process = up(here)
    with peer(here.r1) as it:
        accepted(here, it, 1, 7, "10.1.0.0/16")
        held = rows(here)
        wider = [a_site(2, "10.22.0.0/16", "10.2.0.0/16"), a_site(1, "10.1.0.0/16", keys=(5, 1), limits="most_rows = 6\n"), a_site(0)]
        write(here, wider)
        check("it is told", tell(here), (0, f"compared s1 sites 3 kept\ncomes {0:016x}\nreloaded s1 sites 3 kept\n", ""))
        untouched(here, "then", wider, held)
        accepted(here, it, 1, 1, "10.1.7.0/24", key=5)
    killed(process)


def what_is_narrower(here):
    """Each thing that goes, or a limit that comes, begins the Map-Server anew: which rows leave is printed, whatever site they are of."""
    first = [a_site(1, "10.1.0.0/16", "10.9.0.0/16", keys=(1, 2)), a_site(2)]
    one, two = first
    cases = {"a site": ([one], [f"goes {2:016x}"]), "a key": ([one._replace(keys={1: secret(1)}), two], []),
             "a secret": ([one._replace(keys={1: secret(1), 2: secret(1, 3)}), two], []),
             "a prefix": ([one._replace(prefixes=("10.1.0.0/16",)), two], []), "fewer rows": ([one._replace(limits="most_rows = 9\n"), two], []),
             "a limit": ([one, two._replace(limits=f"{two.limits}most_jump = 100\n")], []),
             "another site": ([one, a_site(3)], [f"comes {3:016x}", f"goes {2:016x}"])}
    write(here, first)
    process = up(here)
    with peer(here.r1) as it:
        for nonce, (name, (sites, lines)) in enumerate(cases.items(), 1):
            accepted(here, it, 1, nonce, "10.1.0.0/16")
            line_of(process, "accepted ")
            held = rows(here)
            check(f"{name}: a row", len(held), 1)
            write(here, sites)
            found = [f"compared s1 sites {len(sites)} restarted", *lines, f"leaves {held[0]}"]
            for asks, wanted in ((against, found), (tell, [*found, f"reloaded s1 sites {len(sites)} restarted"])):
                status, text, wrongs = asks(here)
                check(f"{name}: {asks.__name__}", (status, [re.sub(r" age \d+$", "", line) for line in text.splitlines()], wrongs), (0, wanted, ""))
                check(f"{name}: rows behind it", rows(here), held if asks is against else [])
            line_of(process, f"reloaded s1 sites {len(sites)} restarted")
            write(here, first)
            check(f"{name}: it comes back", tell(here)[0], 0)
            line_of(process, "reloaded s1 sites 2 ")
    killed(process)


def a_key_is_taken_away(here):
    """What was sent under it is refused from then on, old and new, also behind a restart of the process; the other key serves."""
    key, nodes = a_site(1, keys=(1, 2)), nodes_of(here, key=2)
    write(here, [key], nodes)
    process = up(here)
    with peer(here.r1) as it:
        old = [accepted(here, it, 1, nonce, "10.1.0.0/16") for nonce in (7, 8)]
        for _ in old:
            line_of(process, "accepted ")
        write(here, [a_site(1, keys=(2,))], nodes)
        status, text, wrongs = tell(here)
        check("it is told", (status, re.sub(r"leaves r1 10\.1\.0\.0/16=.*", "leaves", text), wrongs),
              (0, "compared s1 sites 1 restarted\nleaves\nreloaded s1 sites 1 restarted\n", ""))
        line_of(process, "reloaded s1 sites 1 restarted")
        for _ in range(2):
            check("no rows", rows(here), [])
            for number, message in enumerate([*old, register(1, 9, "10.1.0.0/16")], 100):
                with peer(f"{here.front}{number}") as other:
                    refused(here, other, process, message, 52)
            check("no rows still", rows(here), [])
            killed(process)
            process = up(here)
        accepted(here, it, 1, 1, "10.1.0.0/16", key=2)
        # It comes back: what was accepted under it isn't accepted again.
        write(here, [key], nodes)
        line_of(process, "accepted ")
        check("it comes back", tell(here)[1], "compared s1 sites 1 kept\nreloaded s1 sites 1 kept\n")
        line_of(process, "reloaded s1 sites 1 kept")
        for number, message in enumerate(old, 110):
            with peer(f"{here.front}{number}") as other:
                refused(here, other, process, message, 57)
        accepted(here, it, 1, 9, "10.1.0.0/16")
    killed(process)


def a_prefix_is_moved(here):
    """From one site to another: the routers of that one alone may register it then."""
    write(here, [a_site(1, "10.1.0.0/16", "10.3.0.0/16"), a_site(2)])
    process = up(here)
    with peer(here.r1) as it, peer(here.r2) as other:
        accepted(here, it, 1, 1, "10.3.0.0/16")
        line_of(process, "accepted ")
        refused(here, other, process, register(2, 1, "10.3.0.0/16", xtr=20), "55 record 0")
        write(here, [a_site(1, "10.1.0.0/16"), a_site(2, "10.2.0.0/16", "10.3.0.0/16")])
        check("it is told", tell(here)[1].splitlines()[-1], "reloaded s1 sites 2 restarted")
        line_of(process, "reloaded s1 sites 2 restarted")
        refused(here, it, process, register(1, 2, "10.3.0.0/16"), "55 record 0")
        accepted(here, other, 2, 2, "10.3.0.0/16", xtr=20)
        check("its row", [row.split()[1].split("=")[0] for row in rows(here)], ["10.3.0.0/16"])
    killed(process)


# ---- what isn't taken


def files_with_faults(here):
    """They are told of as `check` does, and the node goes on as it was."""
    sites = [a_site(1)]
    write(here, sites)
    process = up(here)
    with peer(here.r1) as it:
        accepted(here, it, 1, 7, "10.1.0.0/16")
    held, good = rows(here), Path(here.config).read_text()
    twice = tables([a_site(2), a_site(2)])
    for name, text in (("no TOML", f"{good}[[site"), ("a site twice", twice + good), ("a bad value", good.replace("eid = \"10", "eid = \"1O")),
                       ("an unknown table", f"{good}[[sites]]\n"), ("no sites", good[good.index("[[server]]"):]), ("no UTF-8", None)):
        put(here, text or good)
        if text is None:
            Path(here.config).write_bytes(b"# \xff\n" + good.encode())
        for more in ((), ("--words",)):
            status, _, wrongs = ran("check", here.config, *more)
            check(f"{name} is a fault", status != 0, True)
            own, _, told = tell(here, *more)
            check(f"{name}, as check tells it {more}", (own, told.splitlines()[0]), (status, wrongs.splitlines()[0]))
            check(f"{name}, against {more}", ran("check", here.config, "--against", f"{here.folder}/s1", *more)[0], status)
        untouched(here, name, sites, held)
    os.remove(here.config)
    check("no file", fault_of(tell(here)), (1, "", "lispd: fault 93"))
    untouched(here, "no file", sites, held)
    killed(process)


def a_file_with_warnings(here):
    """It is taken, and its warnings are on standard error; with --strict it isn't taken."""
    sites = [a_site(1)]
    write(here, sites)
    process = up(here)
    short = a_site(2)._replace(keys={1: b"short"})
    write(here, [*sites, short])
    _, text, _ = ran("check", here.config)
    warnings = [line for line in text.splitlines() if line.startswith("warning: ")]
    check("there are some", len(warnings), 1)
    for asks in (tell, lambda *words: ran("check", here.config, "--against", f"{here.folder}/s1", "--strict")):
        status, _, wrongs = asks(here, "--strict")
        check("with --strict", (status, "lispd: fault 25" in wrongs.splitlines()), (2, True))
        untouched(here, "with --strict", sites)
    check("it is told", tell(here), (0, f"compared s1 sites 2 kept\ncomes {2:016x}\nreloaded s1 sites 2 kept\n", warnings[0] + "\n"))
    untouched(here, "then", [*sites, short])
    killed(process)


def nodes_that_changed(here):
    """Where a node came, went, or has another address or identity, nothing is taken."""
    sites = [a_site(1)]
    write(here, sites)
    process = up(here)
    other = f'[[router]]\nname = "r2"\naddress = "{here.r2}"\nsite = "{1:016x}"\nxtr = "{20:032x}"\nkey = 1\nservers = ["s1"]\n'
    more = [*sites, a_site(2)]
    for name, nodes, shown in (("an address", nodes_of(here, s1=here.s2), here.s2), ("a router more", nodes_of(here, more=other), here.r2),
                               ("another xTR-ID", nodes_of(here, xtr=11), here.r1),
                               ("a router less", nodes_of(here).partition("[[router]]")[0], here.r1),
                               ("a name", nodes_of(here).replace('"r1"', '"r9"'), "r9")):
        write(here, more, nodes)
        for asks in (tell, lambda _: ran("check", here.config, "--against", f"{here.folder}/s1")):
            status, _, wrongs = asks(here)
            check(f"{name}: its number", (status != 0, re.findall(r"^lispd: fault (\d+)$", wrongs, re.M)), (True, ["142"]))
            check(f"{name}: the line that differs", shown in wrongs, True)
        untouched(here, name, sites)
    # What isn't said of nodes may change: records, keys that routers use, and the lists of Map-Servers.
    write(here, more, nodes_of(here).replace("key = 1\n", "key = 1\nproxy = true\nrecords = [\"10.1.0.0/16=1440+192.0.2.1\"]\n"))
    check("another database", tell(here)[:2], (0, f"compared s1 sites 2 kept\ncomes {2:016x}\nreloaded s1 sites 2 kept\n"))
    killed(process)


def a_router_is_told(here):
    """It doesn't do it, and goes on."""
    nodes = nodes_of(here, more='records = ["10.1.0.0/16=1440+192.0.2.1"]\n')
    write(here, [a_site(1)], nodes)
    server, router = up(here), here.start(*here.words("router", "r1"))
    check("it registers", until(lambda: ran("ask", f"{here.folder}/r1", "acks")[1].startswith("acks r1 s1 key 1 ")), True)
    before = ran("ask", f"{here.folder}/r1", "records")
    write(here, [a_site(1), a_site(2)], nodes)
    for asks in (tell, against):
        check(f"{asks.__name__}", fault_of(asks(here, folder="r1")), (2, "", "lispd: fault 80"))
    check("in words", "a Map-Server alone is told reload CONFIG" in tell(here, folder="r1")[2], True)
    check("at its socket", conversation(here, tables([a_site(1)]), last="reload", name="r1")[1], f"fault 71\n{CLOSING}")
    check("its records", ran("ask", f"{here.folder}/r1", "records"), before)
    check("it runs", router.poll(), None)
    killed(router)
    killed(server)


def what_the_unit_does(here):
    """`systemctl reload` of the unit that is installed: its words are taken."""
    unit = (Path(__file__).parent.parent / "packaging/lispd@.service.in").read_text()
    (line,) = re.findall(r"^ExecReload=\+@BINDIR@/lispd (.*)$", unit, re.M)
    words = line.replace("${CONTROL}", f"{here.folder}/s1").replace("/etc/lispd/lispd.toml", here.config).split()
    write(here, [a_site(1)])
    process = up(here)
    write(here, [a_site(1), a_site(2)])
    check("a reload", ran(*words), (0, f"compared s1 sites 2 kept\ncomes {2:016x}\nreloaded s1 sites 2 kept\n", ""))
    write(here, [a_site(1), a_site(2), a_site(2)])
    check("a fault", ran(*words)[0], 2)
    untouched(here, "then", [a_site(1), a_site(2)])
    killed(process)


def nobody_is_there(here):
    """Where no node answers, or it goes while it is told, that is a fault."""
    write(here, [a_site(1)])
    check("none", fault_of(tell(here)), UNANSWERED)
    check("none, against", fault_of(against(here)), UNANSWERED)
    os.mkdir(f"{here.folder}/s1")
    with socket.socket(socket.AF_UNIX) as node:
        node.bind(f"{here.folder}/s1/control")
        node.listen()
        for answer in (b"", b"server s1", CLOSING.encode()):
            def answers(answer=answer):
                user, _ = node.accept()
                with user:
                    user.recv(100)
                    user.sendall(answer)

            side = threading.Thread(target=answers)
            side.start()
            status, text, _ = tell(here)
            check(f"answered {answer}", (status != 0, text), (True, ""))
            side.join()


def a_turn_that_is_lost(here):
    """Where a group can't be saved, the Map-Server begins anew under the sites that it was told last."""
    here.store, nonces, lost = GROUP_OF_32, itertools.count(1), 0
    write(here, [a_site(1)])
    here.start(*here.words("server", "s1", "--turns", "0")).wait(LIMIT)
    for at in range(1, MOST_SYNCS):
        write(here, [a_site(1)])
        process = here.start(*here.words("server", "s1"), env=failing("sync", at, LOG_FILE), stderr=subprocess.STDOUT)
        if not any(line.lstrip("!").startswith(STARTED) for line in iter(process.stdout.readline, "")):
            continue
        write(here, [a_site(1), a_site(2)])
        check("it is told", tell(here)[1].splitlines()[-1:], ["reloaded s1 sites 2 kept"])
        with peer(here.r1) as it:
            for _ in range(4):
                here.answer(it, register(1, next(nonces), "10.1.0.0/16"), 0.3)
            is_taken = until(lambda: here.answer(it, register(2, next(nonces), "10.2.0.0/16", xtr=20), 0.3))
            check(f"sync {at}: a router of the new site", bool(is_taken), True)
        lines = killed(process)
        if not any(line.startswith("!restarted s1 ") for line in lines):
            break
        lost += 1
    check("turns that were lost", lost > 0, True)


# ---- files of many sites


def many(count):
    """As many sites, each of which has a prefix of its own."""
    return [a_site(1), *(a_site(number, f"10.{100 + number // 256}.{number % 256}.0/24") for number in range(1000, 1000 + count))]


def forms(sites, nodes):
    """Long configurations that say the same."""
    half, plainly = len(sites) // 2, tables(sites) + nodes
    return {"tables": plainly, "nodes in between": tables(sites[:half]) + nodes + tables(sites[half:]),
            "line ends of Windows": plainly.replace("\n", "\r\n"), "an array": inline(sites) + nodes}


def in_parts(text, parts):
    """These are the lines of a text's sites, in parts of whole sites, none of which is long; or the text itself, where its sites are one array."""
    if text.startswith("site = ["):
        return parts == [text]
    of_sites = re.sub(r"(?ms)^\[\[(?:server|router)\]\].*?(?=^\[\[site\]\]|\Z)", "", text)
    longest = max(map(len, re.split(r"(?m)^(?=\[\[site\]\])", of_sites)))
    return ("".join(parts) == of_sites and all(part.startswith("[[site]]") for part in parts)
            and all(ENOUGH <= len(part) < ENOUGH + longest for part in parts[:-1]) and len(parts) > 5)


def long_files(here):
    """A long file is told in parts, twice: to be compared, and to be taken."""
    write(here, [a_site(1)])
    process = up(here)
    sites = many(2500)
    comes = "".join(f"comes {site.number:016x}\n" for site in sites[1:])
    found, texts = f"compared s1 sites {len(sites)} kept\n{comes}", forms(sites, nodes_of(here))
    with Relay(here) as relay:
        for name, text in texts.items():
            put(here, text)
            check(f"{name}: what it would do", ran("check", here.config, "--against", f"{here.folder}/relay")[1].endswith(found), True)
            nodes, (lines, parts) = relay.taken()
            check(f"{name}: what is said", (nodes, lines), ((["nodes"], []), ["sites"] * len(parts) + ["compare"]))
            check(f"{name}: what is told", in_parts(text, parts), True)
        put(here, texts["tables"])
        status, text, wrongs = tell(here, folder="relay")
        check("it is told", (status, text == f"{found}reloaded s1 sites {len(sites)} kept\n", wrongs), (0, True, ""))
        told = [parts for lines, parts in relay.taken() if set(lines) & {"compare", "reload"}]
        check("the same parts twice", (len(told), in_parts(texts["tables"], told[0]), told[0] == told[-1]), (2, True, True))
    line_of(process, f"reloaded s1 sites {len(sites)} kept")
    taken_apart(here, sites)
    killed(process)


def taken_apart(here, sites):
    """All of these are the node's, each with its router; and what would be without the last one, by either form of a file."""
    answers, text = conversation(here, tables(sites), last="compare")
    check("all are there", (answers, text), ([f"gathered s1 {len(sites)}\n"], f"compared s1 sites {len(sites)} kept\n{CLOSING}"))
    with peer(here.r1) as it:
        for place in (1, len(sites) // 3, len(sites) - 1):
            accepted(here, it, sites[place].number, 1, sites[place].prefixes[0], xtr=500 + place)
    for form in (tables, inline):
        write(here, sites[:-1], form=form)
        status, text, _ = against(here)
        check(f"without the last one, {form.__name__}", (status, text.splitlines()[:2]),
              (0, [f"compared s1 sites {len(sites) - 1} restarted", f"goes {sites[-1].number:016x}"]))
        check(f"{form.__name__}: its row leaves", f"\nleaves {identity(499 + len(sites), sites[-1].number)} {sites[-1].prefixes[0]}=" in text, True)


# ---- the socket itself


def what_is_said_at_the_socket(here):
    """The lines, in their order, and what ends a connection. Nothing but `reload` changes the node."""
    sites, more = [a_site(1)], [a_site(2), a_site(3)]
    write(here, sites)
    process = up(here)
    with peer(here.r1) as it:
        accepted(here, it, 1, 7, "10.1.0.0/16")
    held = rows(here)
    text = conversation(here, last="nodes")[1]
    check("its nodes", [[it in line for it in named] for line, named in zip(text.splitlines(), (("s1", here.s1), ("r1", here.r1)))],
          [[True] * 2] * 2)
    check("how that ends", (len(text.splitlines()), text.endswith(f"\n{CLOSING}")), (3, True))
    for all_sites in ([*sites, *more], [*more, *sites]):
        check("compared", conversation(here, tables(all_sites), last="compare"),
              (["gathered s1 3\n"], f"compared s1 sites 3 kept\ncomes {2:016x}\ncomes {3:016x}\n{CLOSING}"))
    check("in parts", conversation(here, tables(more), nodes_of(here), tables(sites), last="compare"),
          (["gathered s1 2\n", "gathered s1 2\n", "gathered s1 3\n"], f"compared s1 sites 3 kept\ncomes {2:016x}\ncomes {3:016x}\n{CLOSING}"))
    check("others alone", conversation(here, tables(more), last="compare")[1],
          f"compared s1 sites 2 restarted\ncomes {2:016x}\ncomes {3:016x}\ngoes {1:016x}\n{CLOSING}")
    check("no sites", conversation(here, nodes_of(here), last="compare"),
          (["gathered s1 0\n"], f"compared s1 sites 0 restarted\ngoes {1:016x}\n{CLOSING}"))
    check("a question behind sites", conversation(here, tables(more), last="due"), (["gathered s1 2\n"], f"due s1 none\n{CLOSING}"))
    # What was gathered is that connection's.
    for last in ("reload", "compare"):
        check(f"{last} of nothing", conversation(here, last=last)[1], f"fault 80\n{CLOSING}")
    untouched(here, "so far", sites, held)
    text = tables([*sites, *more]).encode()
    with talking(here) as (it, lines):
        it.sendall(b"sites %d\n" % len(text))
        for byte in text[:50]:
            it.sendall(bytes([byte]))
        check("byte by byte", said(it, lines, text[50:]), "gathered s1 3\n")
        check("reload", said(it, lines, "reload\n"), "reloaded s1 sites 3 kept\n")
        check("its end", rest(lines), CLOSING)
    untouched(here, "reloaded", [*sites, *more], held)
    killed(process)


def what_is_wrong_at_the_socket(here):
    """A fault ends the connection, and what it gathered is gone; so does an end half way."""
    sites, more = [a_site(1)], [a_site(2)]
    write(here, sites)
    process = up(here)
    with peer(here.r1) as it:
        accepted(here, it, 1, 7, "10.1.0.0/16")
    held = rows(here)
    good, other = tables(sites), tables(more)
    for name, text in (("no TOML", "[[site"), ("no UTF-8", b"# \xff\n"), ("no identity", "[[site]]\n"), ("a site twice", good + good),
                       ("a bad secret", other.replace('secret = "', 'secret = "x')), ("half of a site", f"{other}[[site]]\n")):
        with talking(here) as (it, lines):
            check(f"{name}: a fault", (said(it, lines, part(text)), rest(lines)), ("fault 84\n", CLOSING))
        untouched(here, name, sites, held)
    for name, text in (("a site of another part", good), ("a bad part behind another", other.replace('secret = "', 'secret = "x'))):
        with talking(here) as (it, lines):
            check(f"{name}: before", said(it, lines, part(good)), "gathered s1 1\n")
            check(name, (said(it, lines, part(text)), rest(lines)), ("fault 84\n", CLOSING))
        untouched(here, name, sites, held)
    for line in ("sites", "sites 0", f"sites {MOST_BYTES + 1}", "sites -1", "sites x", "sites 5 5", "sites 99999999999999999999", "sites 007 x",
                 "gathered", "compare now", "reload now", "reload --- site = []", "nodes s1"):
        text = conversation(here, last=line)[1]
        check(f"{line!r}", re.fullmatch(rf"fault 8[0-5]\n{CLOSING}", text) is not None, True)
        answers, text = conversation(here, other, last=line)
        check(f"{line!r} behind sites", (answers, re.fullmatch(rf"fault 8[0-5]\n{CLOSING}", text) is not None), (["gathered s1 1\n"], True))
    untouched(here, "lines that are none", sites, held)
    half = part(other)[:-10]
    for name, data in (("half a part", half), ("a part, and nothing more", part(other)), ("a part and half a line", part(other) + b"reloa"),
                       ("a length alone", b"sites 100\n"), ("half a length", b"sites 1")):
        with talking(here) as (it, lines):
            it.sendall(data)
            if data.startswith(part(other)):
                check(f"{name}: it is gathered", lines.readline(), b"gathered s1 1\n")
        untouched(here, f"{name}, and an end", sites, held)
        with talking(here) as (it, lines):
            it.sendall(data)
            begun = time.monotonic()
            left = rest(lines)
            check(f"{name}, and silence: it is dropped", (left in ("", "gathered s1 1\n"), time.monotonic() - begun < LIMIT / 4), (True, True))
        untouched(here, f"{name}, and silence", sites, held)
    with peer(here.r1) as it:
        accepted(here, it, 1, 8, "10.1.0.0/16")
    killed(process)


# ---- many reloads beside registrations and kills

# How many routers register, in which sites, and how many prefixes each has that it registers again and again, and how many others, every how many
# Map-Registers; how many of these come a second, every how manieth of them is one that was sent before; every how manieth reload takes something
# away; and how often the Map-Server is killed.
ROUTERS, PREFIXES, OTHERS, SELDOM, RATE, REPLAYED, TAKEN, KILLED = 6, 40, 200, 20, 1_000, 10, 10, 0.2
FIRST_XTR, FIRST_ADDRESS = 100, 100
SITES = (1, 2, 3)
ACCEPTED = re.compile(r"accepted s1 \S+ key 1 nonce (\d+) from \S+\.(\d+)")


def site_of(router):
    return SITES[router % len(SITES)]


def prefix_of(router, nonce):
    """Each router registers its own prefixes, one after the other, and some of them seldom."""
    host = nonce % PREFIXES if nonce % SELDOM else PREFIXES + nonce // SELDOM % OTHERS
    return f"10.{site_of(router)}.{router}.{host}/32"


def lasting(router, nonce):
    """The Map-Register of a row that lives for a day (bit T)."""
    site = site_of(router)
    behind = record(prefix_of(router, nonce)) + (FIRST_XTR + router).to_bytes(16, "big") + site.to_bytes(8, "big")
    return signed("3a0009", 1, nonce, behind, secret(site))


def sites_after(number):
    """The sites of the file that is told as this one, and those of them whose routers are accepted. Each adds one; some take something away
    beside, which comes back with the next."""
    base = [a_site(1, "10.1.0.0/16", "10.91.0.0/16"), a_site(2, keys=(1, 2)), a_site(3)]
    added = [a_site(1000 + it, f"10.{150 + it // 256}.{it % 256}.0/24") for it in range(number)]
    if number == 0 or number % TAKEN:
        return base + added, set(SITES)
    at = number // TAKEN % len(SITES)
    taken = [base[0]._replace(prefixes=("10.91.0.0/16",)), base[1]._replace(keys={2: secret(2, 2)}), None][at]
    return [taken if place == at else it for place, it in enumerate(base) if place != at or taken] + added, set(SITES) - {SITES[at]}


class Load(threading.Thread):
    """Routers that register all the time, each from its address: what is answered, by routers and nonces."""

    def __init__(self, here, drawn):
        super().__init__(daemon=True)
        self.server, self.random, self.over = (here.s1, PORT), drawn, threading.Event()
        self.sockets = [peer(f"{here.front}{FIRST_ADDRESS + router}") for router in range(ROUTERS)]
        self.sent, self.count, self.answers = [], 0, collections.Counter()

    def run(self):
        begun = time.monotonic()
        while not self.over.is_set():
            for _ in range(min(50, int((time.monotonic() - begun) * RATE) - self.count)):
                self.send()
            self.take()
            time.sleep(0.0005)
        time.sleep(0.1)
        self.take()

    def send(self):
        self.count += 1
        if self.sent and self.count % REPLAYED == 0:
            router, message = self.random.choice(self.sent)
        else:
            router, nonce = len(self.sent) % ROUTERS, len(self.sent) // ROUTERS + 1
            message = lasting(router, nonce)
            self.sent.append((router, message))
        self.sockets[router].sendto(message, self.server)

    def take(self):
        for it in select.select(self.sockets, [], [], 0)[0]:
            with contextlib.suppress(BlockingIOError):
                while True:
                    self.answers[self.sockets.index(it), nonce_in(it.recv(65535, socket.MSG_DONTWAIT))] += 1

    def ended(self):
        self.over.set()
        self.join()
        for it in self.sockets:
            it.close()


class Lives:
    """Lives of Map-Server s1, one after the other, and what its lines say: the rows that it has to have since it last began anew; its routers'
    last nonces over all lives; and what is wrong."""

    def __init__(self, here):
        self.here, self.lock, self.wrong = here, threading.Lock(), []
        self.last, self.accepted, self.lives, self.renewed = [0] * ROUTERS, 0, 0, 0
        self.rows, self.told, self.may = set(), collections.deque(), set()

    def begin(self, may):
        """A life, under sites whose routers these are."""
        self.rows, self.may, self.lives = set(), may, self.lives + 1
        self.told.clear()
        self.process = self.here.start(*self.here.words("server", "s1"))
        self.reader = threading.Thread(target=self.read, args=(self.process.stdout,), daemon=True)
        self.reader.start()
        check("s1 is asked", until(lambda: ran("ask", f"{self.here.folder}/s1", "due")[0] == 0), True)

    def end(self):
        """Kills it; all that it printed is read."""
        self.process.send_signal(signal.SIGKILL)
        self.process.wait()
        self.reader.join()

    def read(self, output):
        for line in output:
            with self.lock:
                self.line(line.rstrip("\n"))

    def line(self, line):
        if found := ACCEPTED.fullmatch(line):
            nonce, router = int(found[1]), int(found[2]) - FIRST_ADDRESS
            self.accepted += 1
            if nonce <= self.last[router]:
                self.wrong.append(f"{line}, behind {self.last[router]}")
            if site_of(router) not in self.may:
                self.wrong.append(f"{line}, whose site, key or prefix was taken away")
            self.last[router] = max(nonce, self.last[router])
            self.rows.add(prefix_of(router, nonce))
        elif line.startswith("reloaded s1 "):
            self.may = self.told.popleft()
            if line.endswith(" restarted"):
                self.rows, self.renewed = set(), self.renewed + 1
        elif not line.startswith(("refused s1 ", "started s1 ", "replays s1 ")):
            self.wrong.append(line)

    def tells(self, may):
        """Is about to be told sites whose routers these are."""
        with self.lock:
            self.told.append(may)

    def check_rows(self, name):
        """Each row that was accepted since it last began anew is held, and no other."""
        with self.lock:
            wanted = set(self.rows)
        found = {row.split()[1].split("=")[0] for row in rows(self.here)}
        check(f"{name}: rows that are lost", sorted(wanted - found)[:5], [])

        def others():
            with self.lock:
                return sorted(found - self.rows)[:5]
        until(lambda: not others())
        check(f"{name}: rows that nobody registered", others(), [])


def a_reload(lives, number, may, drawn):
    """Tells a file; or kills the Map-Server meanwhile, and starts it with the file."""
    lives.tells(may)
    name = f"reload {number}"
    if drawn.random() >= KILLED:
        status, text, wrongs = tell(lives.here)
        how = "restarted" if number % TAKEN == 0 else "kept"
        wanted = f"reloaded s1 sites {len(sites_after(number)[0])} {how}"
        check(name, (status, text.splitlines()[-1:], wrongs), (0, [wanted], ""))
        check(f"{name}: its line", until(lambda: not lives.told), True)
        return
    side = subprocess.Popen([sys.argv[1], "tell", f"{lives.here.folder}/s1", "reload", lives.here.config], stdin=subprocess.DEVNULL,
                            stdout=subprocess.DEVNULL, stderr=subprocess.DEVNULL)
    time.sleep(drawn.uniform(0, 0.1))
    lives.end()
    check(f"{name}, beside a kill", side.wait(LIMIT) in (0, 1), True)
    lives.begin(may)


def many_reloads(here):
    """Sites come and go beside registrations, replays and kills."""
    drawn = random.Random(f"{SEED} {here.store}")
    lives, load = Lives(here), Load(here, random.Random(drawn.random()))
    sites, may = sites_after(0)
    write(here, sites)
    lives.begin(may)
    load.start()
    try:
        for number in range(1, RELOADS + 1):
            time.sleep(drawn.uniform(0, 0.2))
            if drawn.random() < KILLED / 4:
                lives.end()
                lives.begin(may)
            lives.check_rows(f"before reload {number}")
            sites, may = sites_after(number)
            write(here, sites)
            a_reload(lives, number, may, drawn)
            lives.check_rows(f"behind reload {number}")
        check("it takes what comes", until(lambda: lives.rows >= {prefix_of(router, nonce) for nonce in range(PREFIXES) if nonce % SELDOM
                                                                  for router in range(ROUTERS) if site_of(router) in may}), True)
        lives.check_rows("at last")
    finally:
        load.ended()
        lives.end()
    check("lines that aren't right", lives.wrong[:5], [])
    check("answered twice", [of for of, count in load.answers.items() if count > 1][:5], [])
    check("some are accepted, and some reloads begin anew", (lives.accepted > RELOADS, lives.renewed > 0), (True, True))
    note(f"{number} reloads, {lives.renewed} of which began anew, {lives.lives} lives: {lives.accepted} accepted of {load.count} sent, "
         f"{sum(load.answers.values())} answered")


def note(text):
    if sys.argv[2:3] == ["times"]:
        print(f"reloading.py: seed {SEED}: {text}", flush=True)


BESIDE_KILLS = [over(store, many_reloads) for store in (FILES, GROUP_OF_32)]

if sys.argv[2:3] == ["times"]:
    RELOADS, SEED = int(sys.argv[3]), int((sys.argv[4:] or [SEED])[0])
    run_tests([], alone=BESIDE_KILLS, names=[])
run_tests([a_site_is_added, what_is_wider, what_is_narrower, a_key_is_taken_away, a_prefix_is_moved, files_with_faults, a_file_with_warnings,
           nodes_that_changed, a_router_is_told, what_the_unit_does, nobody_is_there, a_turn_that_is_lost],
          alone=[long_files, what_is_said_at_the_socket, what_is_wrong_at_the_socket, *BESIDE_KILLS])
