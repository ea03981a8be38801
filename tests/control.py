#!/usr/bin/env -S python3 -B
"""control.py PROGRAM [TEST ..]
What `lispd ask` and `lispd tell` make of nodes that run, and what clients that misbehave make of them. Prints each check that fails, and
ends with 1 where one does."""
import contextlib
import ctypes
import errno
import os
import platform
import re
import shlex
import shutil
import socket
import struct
import subprocess
import time
from concurrent.futures import ThreadPoolExecutor
from pathlib import Path

from nodes import (FILES, GROUPS, LIMIT, PORT, check, identity, is_up, killed, map_register, nonce_in, over, peer, program, ran, run_tests, system,
                   until, with_slow_syncs)
from sockets import faster

# How long a client may say or take nothing, and how long a node may take for a question beside one that misbehaves, in seconds.
MOST, PROMPT = 0.1, 0.3
# How long a sync takes where a test makes it slow, in ms.
SLOW_MS = 20
# How many Map-Registers of 255 records make many rows.
MANY = 157
# The record of router r1 in the configuration, and another one.
RECORD, OTHER = "10.1.0.0/16=1440+192.0.2.1", "10.1.0.0/16=5+192.0.2.9"
UNANSWERED = (1, "", "lispd: fault 99\n")
# The unit that is installed, and the numbers of the system's calls that make a socket, by the machine.
UNIT = Path(__file__).parent.parent / "packaging/lispd@.service.in"
SOCKET_CALLS = {"x86_64": (41, 53), "aarch64": (198, 199)}
NOTHING_HELD = (0, "hold s1 0\n", "")
# The line that closes each answer of a node; nobody sees it printed.
CLOSING = "end\n"
# The drop-in that lets a group ask a node; the node's user, that group, and a user in it and one who isn't.
DROP_IN = Path(__file__).parent.parent / "packaging/ask-group.conf"
NODE, ASKERS, MEMBER, STRANGER = 64001, 64002, 64003, 64004
# Sites as they follow site 1, which has no limits, in a configuration: their Site-IDs, and their limits.
LIMITED = (("00000000000000ff", "most_rows = 9"), ("00000000000000fe", "most_ttl = 1440\nmost_jump = 9"), ("0000000000000002", "most_routers = 1"),
           ("0000000000000100", "most_routers = 9\nmost_rows = 9"), ("ffffffffffffffff", "most_rows = 4294967295"))
# The metrics in their order: the nodes that have one, its name, its type, and what helps to read it.
METRICS = [line.split("|") for line in (Path(__file__).parent / "metrics.txt").read_text().splitlines() if line[0] != "#"]
# The metrics of sites, and of r1, where the counts of `what_is_held_of_sites` end.
HELD = """\
# HELP lisp_site_rows Live rows of each site.
# TYPE lisp_site_rows gauge
lisp_site_rows{node="s1",site="0000000000000001"} 5
lisp_site_rows{node="s1",site="00000000000000ff"} 5
lisp_site_rows{node="s1",site="00000000000000fe"} 4
lisp_site_rows{node="s1",site="0000000000000002"} 0
lisp_site_rows{node="s1",site="0000000000000100"} 1
lisp_site_rows{node="s1",site="ffffffffffffffff"} 2
# HELP lisp_site_routers Routers with live rows of each site that has a limit on its rows or routers.
# TYPE lisp_site_routers gauge
lisp_site_routers{node="s1",site="00000000000000ff"} 3
lisp_site_routers{node="s1",site="0000000000000002"} 0
lisp_site_routers{node="s1",site="0000000000000100"} 1
lisp_site_routers{node="s1",site="ffffffffffffffff"} 1
# HELP lisp_site_refusals_total Map-Registers that a limit of a site refused since the start of the node, by their number.
# TYPE lisp_site_refusals_total counter
# HELP lisp_router_age_seconds How long ago the last accepted Map-Register of the router came.
# TYPE lisp_router_age_seconds gauge
lisp_router_age_seconds{node="s1",router="r1"} AGE
# HELP lisp_router_last_nonce The nonce of the last accepted Map-Register of the router; above 2^53 Prometheus rounds it.
# TYPE lisp_router_last_nonce gauge
lisp_router_last_nonce{node="s1",router="r1"} 1
# HELP lisp_router_last_refusal The number of the last refusal of a datagram from the address of the router since the start, whoever sent it.
# TYPE lisp_router_last_refusal gauge
"""


def ask(here, name, *words):
    return ran("ask", f"{here.folder}/{name}", *words)


def tell(here, name, *words):
    return ran("tell", f"{here.folder}/{name}", *words)


def up(here, kind, name, address, **how):
    """A node that runs, once it listens."""
    process = here.start(*here.words(kind, name), **how)
    is_up(address)
    check(f"the socket of {name}", until(lambda: ask(here, name, "due")[0] == 0), True)
    return process


def wrong(number):
    return (2, "", f"lispd: fault {number}\n")


def refused(number, line):
    return (3, f"{line}\n", f"lispd: fault {number}\n")


def a_map_server_is_asked(here):
    """It holds what was registered, and answers as a schedule does."""
    process = up(here, "server", "s1", here.s1)
    check("no row", ask(here, "s1", "hold"), NOTHING_HELD)
    with peer(here.r1) as it:
        check("its answer", nonce_in(here.answer(it, map_register(7))), 7)
    status, rows, wrongs = ask(here, "s1", "hold")
    check("a row", (status, wrongs, rows.startswith("hold s1 1\nrow r1 10.1.0.0/16=")), (0, "", True))
    status, answer, wrongs = ask(here, "s1", "ask", "10.1.2.3")
    check("who answers", (status, wrongs, "192.0.2.1" in answer), (0, "", True))
    check("nobody answers", ask(here, "s1", "ask", "192.0.2.77")[0], 0)
    check("no notice is due", ask(here, "s1", "due"), (0, "due s1 none\n", ""))
    killed(process)
    check("it doesn't run", ask(here, "s1", "hold"), UNANSWERED)


def check_heads(kind, text):
    """Whether metrics of a node of this kind have the heads that `metrics.txt` lists, and no other ones; their samples follow each."""
    wanted = [f"# HELP {name} {words}\n# TYPE {name} {form}\n" for nodes, name, form, words in METRICS if kind in nodes.split()]
    check(f"heads of the metrics of a {kind}", re.findall("^# HELP .*\n# TYPE .*\n", text, re.M), wanted)
    names = [re.search("TYPE ([a-z_]+) ", block)[1] for block in text.split("# HELP ")[1:] for line in block.splitlines()[2:]]
    check(f"samples behind the heads of a {kind}", re.findall("^([a-z_]+)\\{", text, re.M), names)


def counts(here, name):
    """What is counted of a node: of each word the number, and of refusals that of each number."""
    status, text, wrongs = ask(here, name, "counts")
    check(f"counts of {name}", (status, wrongs, [line for line in text.splitlines() if not line.startswith(f"counts {name} ")]), (0, "", []))
    return dict(line.removeprefix(f"counts {name} ").rsplit(" ", 1) for line in text.splitlines())


def what_is_counted(here):
    """Which routers it heard, how many lines of each kind it printed, and what it has, in lines and for Prometheus."""
    begun = time.time_ns()
    process = up(here, "server", "s1", here.s1, env=with_slow_syncs(SLOW_MS * 1000))
    check("nobody was heard", ask(here, "s1", "routers"), (0, "routers s1 2\nrouter r1 never\nrouter r2 never\n", ""))
    check("nobody has metrics", re.findall("^lisp_router_", ask(here, "s1", "counts", "--prometheus")[1], re.M), [])
    check("nothing is counted", counts(here, "s1"), {"rows": "0", "sites": "0", "standing_notices": "0", "replays": "0", "longest_save_ms": "0",
                                                              "requests": "0", "slowest_reply_us": "0"})
    with peer(here.r1) as it:
        for nonce in (7, 8):
            check("its answer", nonce_in(here.answer(it, map_register(nonce))), nonce)
        it.sendto(b"junk", (here.s1, PORT))
        it.sendto(map_register(8), (here.s1, PORT))
        check("both are refused", until(lambda: "counts s1 refused 57 1\n" in ask(here, "s1", "counts")[1]), True)
        check("a notice", tell(here, "s1", "notice", "r1")[0], 0)
    found = counts(here, "s1")
    found.pop("resent", None)
    check("in the order of their words, refusals by their numbers behind them", list(found),
          ["accepted", "notice", "refused 50", "refused 57", "rows", "sites", "standing_notices", "replays", "longest_save_ms",
           "requests", "slowest_reply_us"])
    check("how long a save takes", SLOW_MS <= int(found.pop("longest_save_ms")) < LIMIT * 1000, True)
    check("what is counted", found, {"accepted": "2", "notice": "1", "refused 50": "1", "refused 57": "1",
                                     "rows": "1", "sites": "1", "standing_notices": "1", "replays": "0", "requests": "0", "slowest_reply_us": "0"})
    status, text, wrongs = ask(here, "s1", "routers")
    ages = re.findall(r" age (\d+)", text)
    check("its router, and its replay", (status, re.sub(r" age \d+", " age", text), wrongs),
          (0, f"routers s1 3\nrouter r1 from {here.r1} key 1 nonce 8 age rows 1\nrouter r2 never\n"
              f"replays s1 from {here.r1} times 1 saved 8 age\n", ""))
    check("their ages", all(0 <= int(age) < LIMIT * 1000 for age in ages), True)
    status, text, wrongs = ask(here, "s1", "counts", "--prometheus")
    check_heads("server", text)
    lines = [line for line in text.splitlines() if line[0] != "#" and "resent" not in line]
    save, start, age = lines.pop(8), lines.pop(10), lines.pop(-3)
    check("metrics", (status, wrongs, lines), (0, "", [
        'lisp_lines_total{node="s1",line="accepted"} 2', 'lisp_lines_total{node="s1",line="notice"} 1',
        'lisp_refusals_total{node="s1",number="50"} 1', 'lisp_refusals_total{node="s1",number="57"} 1',
        'lisp_rows{node="s1"} 1', 'lisp_sites{node="s1"} 1', 'lisp_standing_notices{node="s1"} 1',
        'lisp_replayed_sources{node="s1"} 0', 'lisp_map_requests_total{node="s1"} 0',
        'lisp_slowest_reply_seconds{node="s1"} 0e-6', 'lisp_site_rows{node="s1",site="0000000000000001"} 1',
        'lisp_router_last_nonce{node="s1",router="r1"} 8', 'lisp_router_last_refusal{node="s1",router="r1"} 57']))
    found = re.fullmatch(r'lisp_start_time_seconds\{node="s1"\} (\d+)e-3', start)
    check("when it started", found is not None and begun // 10**6 <= int(found[1]) <= time.time_ns() // 10**6, True)
    found = re.fullmatch(r'lisp_router_age_seconds\{node="s1",router="r1"\} (\d+)e-3', age)
    check("the age of a router", found is not None and int(found[1]) < LIMIT * 1000, True)
    if shutil.which("promtool"):
        check("promtool takes them", subprocess.run(["promtool", "check", "metrics"], input=text, capture_output=True, text=True).returncode, 0)
    check("the longest save", re.fullmatch(r'lisp_longest_save_seconds\{node="s1"\} \d+e-3', save) is not None, True)
    killed(process)


def held_of_sites(here):
    """What the counts of s1 say of sites: their last lines."""
    status, text, wrongs = ask(here, "s1", "counts")
    check("counts", (status, wrongs), (0, ""))
    return re.findall("^counts s1 site (.*)\n", text[text.index("counts s1 slowest_reply_us "):], re.M)


def what_is_held_of_sites(here):
    """How many rows each site has that has a limit on its routers or rows, and how many routers have them, in the order of the configuration;
    and how many Map-Registers each limit of a site refused, by Site-IDs and numbers."""
    with open(here.config, "a") as file:
        for site, limits in LIMITED:
            file.write(f'[[site]]\nid = "{site}"\n{limits}\n[[site.key]]\nid = 1\nsecret = "736563726574"\n'
                       '[[site.prefix]]\neid = "10.1.0.0/16"\nmore_specifics = true\n')
    process = up(here, "server", "s1", here.s1)
    with peer(here.r1) as it:
        def send(nonce, site, xtr, place, count, **how):
            check("its answer", nonce_in(here.answer(it, map_register(nonce, site=site, xtr=xtr, records=host_records(place, count, **how)))), nonce)

        check("nothing is held", held_of_sites(here),
              ["00000000000000ff rows 0", "00000000000000ff routers 0", "0000000000000002 rows 0", "0000000000000002 routers 0",
               "0000000000000100 rows 0", "0000000000000100 routers 0", "ffffffffffffffff rows 0", "ffffffffffffffff routers 0"])
        # Of the site 255 the first router that there may be, one between, and the last.
        for place, (site, xtr, count) in enumerate(((0xFF, 0, 1), (0xFF, 10, 2), (0xFF, 2**128 - 1, 3), (0xFE, 2**128 - 1, 4), (0x100, 0, 1),
                                                    (1, 10, 5), (2**64 - 1, 2**128 - 1, 2))):
            send(1, site, xtr, place, count)
        check("what is held", held_of_sites(here),
              ["00000000000000ff rows 6", "00000000000000ff routers 3", "0000000000000002 rows 0", "0000000000000002 routers 0",
               "0000000000000100 rows 1", "0000000000000100 routers 1", "ffffffffffffffff rows 2", "ffffffffffffffff routers 1"])
        send(2, 0xFF, 10, 1, 1, ttl=0)
        status, text, wrongs = ask(here, "s1", "counts", "--prometheus")
        held = re.sub(r"(?<=\} )\d+e-3$", "AGE", text[text.index("# HELP lisp_site_rows "):], flags=re.M)
        check("as metrics", (status, wrongs, held), (0, "", HELD))
        check("before them", re.search(r'\nlisp_start_time_seconds\{node="s1"\} \d+e-3\n# HELP lisp_site_rows ', text) is not None, True)
        send(3, 0xFF, 10, 1, 2, ttl=0)
        check("a router without rows", held_of_sites(here)[:2], ["00000000000000ff rows 4", "00000000000000ff routers 2"])
        send(1, 2, 1, 7, 1)
        # Twice beyond most_rows of site 255, beyond most_jump of site 254 and most_routers of site 2; and one more with a wrong tag.
        rows = map_register(4, site=0xFF, xtr=10, records=host_records(1, 6))
        jump = map_register(11, site=0xFE, xtr=2**128 - 1, records=host_records(3, 1))
        second = map_register(1, site=2, xtr=2, records=host_records(7, 1))
        for message in (rows, jump, second, rows, map_register(4, secret=b"no secret", site=0xFF, xtr=10, records=host_records(1, 6))):
            it.sendto(message, (here.s1, PORT))
        check("all are refused", until(lambda: "counts s1 refused 53 1\n" in ask(here, "s1", "counts")[1]), True)
        check("by limits of sites", [line for line in held_of_sites(here) if "refused" in line],
              ["0000000000000002 refused 139 1", "00000000000000fe refused 138 1", "00000000000000ff refused 140 2"])
        check("as metrics", re.findall("^lisp_site_refusals_total(.*)\n", ask(here, "s1", "counts", "--prometheus")[1], re.M),
              ['{node="s1",site="0000000000000002",number="139"} 1', '{node="s1",site="00000000000000fe",number="138"} 1',
               '{node="s1",site="00000000000000ff",number="140"} 2'])
    killed(process)


def replays(here):
    """What a Map-Server tells of Map-Registers that it refuses as replays: the gauge, and the front of each line up to the age."""
    gauge = re.search(r"^counts s1 replays (\d+)$", ask(here, "s1", "counts")[1], re.M)
    return gauge and int(gauge[1]), re.findall(r"^replays .*(?= age \d+$)", ask(here, "s1", "routers")[1], re.M)


def who_is_refused_as_replaying(here):
    """Each address that is, and of how many that is so for three minutes, which are six seconds here. One that is accepted ends it, and so do
    three minutes without any."""
    process = up(here, "server", "s1", here.s1, env=faster(speed=30))
    with peer(here.r1) as it, peer(here.r2) as other:
        def check_replays(name, *wanted):
            check(name, until(lambda: replays(here) == wanted), True)

        check("its answer", nonce_in(here.answer(it, map_register(7))), 7)
        check_replays("nobody is", 0, [])
        other.sendto(map_register(6), (here.s1, PORT))
        check_replays("one is", 0, [f"replays s1 from {here.r2} times 1 saved 7"])
        check("from the address of another router", re.findall("^lisp_router_last_refusal(.*)\n", ask(here, "s1", "counts", "--prometheus")[1], re.M),
              ['{node="s1",router="r2"} 57'])
        begun, times = time.monotonic(), 0
        while replays(here)[0] != 1 and time.monotonic() < begun + LIMIT:
            it.sendto(map_register(7 - times % 7), (here.s1, PORT))
            times += 1
            time.sleep(0.3)
        check("three minutes of it", 6 <= time.monotonic() - begun < LIMIT, True)
        check_replays("one is for three minutes", 1, [f"replays s1 from {here.r1} times {times} saved 7"])
        check("its metric", until(lambda: '\nlisp_replayed_sources{node="s1"} 1\n' in ask(here, "s1", "counts", "--prometheus")[1]), True)
        check("how many lines follow", until(lambda: ask(here, "s1", "routers")[1].startswith("routers s1 3\nrouter r1 from ")), True)
        check("its answer", nonce_in(here.answer(it, map_register(8))), 8)
        check_replays("it is over", 0, [])
        begun = time.monotonic()
        it.sendto(map_register(8), (here.s1, PORT))
        check_replays("it begins anew", 0, [f"replays s1 from {here.r1} times 1 saved 8"])
        check_replays("it ends by itself", 0, [])
        check("in three minutes", time.monotonic() - begun >= 6, True)
    killed(process)


def a_map_server_is_told(here):
    """A notice that it is told to send is that of a schedule: line, message, acknowledgement."""
    process = up(here, "server", "s1", here.s1)
    check("nobody was heard", tell(here, "s1", "notice", "r1"), refused(62, "refused s1 62"))
    with peer(here.r1) as it:
        check("its answer", nonce_in(here.answer(it, map_register(7))), 7)
        status, line, wrongs = tell(here, "s1", "notice", "r1")
        check("a notice", (status, wrongs, line.startswith("notice s1 r1 key 1 nonce ")), (0, "", True))
        it.settimeout(LIMIT)
        check("its nonce", nonce_in(it.recv(65535)), int(line.split()[-1]))
    lines = killed(process)
    check("its lines", [one.split(" from ")[0] for one in lines if one.startswith(("accepted ", "notice "))],
          ["accepted s1 r1 key 1 nonce 7", line.rstrip("\n")])


def a_router_is_told(here):
    """Another database and another key are registered from then on; the configuration stays as it is."""
    before = Path(here.config).read_text()
    server = up(here, "server", "s1", here.s1)
    router = up(here, "router", "r1", here.r1)
    check("it registers", until(lambda: ask(here, "s1", "hold")[1].startswith("hold s1 1\n")), True)
    check("it is acknowledged", until(lambda: ask(here, "r1", "acks")[1].startswith("acks r1 s1 key 1 nonce ")), True)
    check("its records", ask(here, "r1", "records"), (0, f"records r1 1\nrecord {RECORD}/1/100/255/0\n", ""))
    check("another database", tell(here, "r1", "change", OTHER), (0, "change r1 records 1\n", ""))
    check("its records then", ask(here, "r1", "records"), (0, f"records r1 1\nrecord {OTHER}/1/100/255/0\n", ""))
    check("it is registered", until(lambda: "192.0.2.9" in ask(here, "s1", "hold")[1]), True)
    found = counts(here, "r1")
    check("what it counts", (found["change"], found["records"], int(found["sent"]) >= int(found["counted"]) >= 1, "rows" in found),
          ("1", "1", True, False))
    check_heads("router", ask(here, "r1", "counts", "--prometheus")[1])
    check("its own key", tell(here, "r1", "rotate", "1"), refused(37, "refused r1 37"))
    check("no key of its site", tell(here, "r1", "rotate", "200"), refused(78, "fault 78"))
    status, line, wrongs = tell(here, "r1", "rotate", "200", "--words")
    check("it is told in words", (status, line, wrongs.startswith("lispd: fault 78\nlispd: the node doesn't do it: the router's site has no such key: ")),
          (3, "fault 78\n", True))
    check("the configuration", Path(here.config).read_text(), before)
    killed(router)
    killed(server)


def records_that_are_not_allowed(here):
    """A router is told to register what its site doesn't allow by force alone; else its records are those before."""
    router = up(here, "router", "r1", here.r1)
    strange = "10.9.0.0/16=1440+192.0.2.1"
    check("which they are", ask(here, "r1", "disallowed", RECORD, strange), (0, "disallowed r1 1\nrecord 10.9.0.0/16\n", ""))
    check("none", ask(here, "r1", "disallowed", RECORD), (0, "disallowed r1 0\n", ""))
    check("no records", ask(here, "r1", "disallowed", "empty"), (0, "disallowed r1 0\n", ""))
    check("no record", ask(here, "r1", "disallowed", "10.9"), wrong(84))
    warning = ("warning: a Map-Server refuses 10.9.0.0/16 (55), and with it the whole Map-Register; --force sends it all the same\n"
               "lispd: fault 55\n")
    check("a warning", tell(here, "r1", "change", RECORD, strange), (3, "", warning))
    check("its records", ask(here, "r1", "records"), (0, f"records r1 1\nrecord {RECORD}/1/100/255/0\n", ""))
    check("by force", tell(here, "r1", "change", RECORD, strange, "--force"), (0, "change r1 records 2\n", ""))
    killed(router)


@contextlib.contextmanager
def made_up(here, name):
    """A socket where a node's is, to be answered at by `answered`."""
    os.mkdir(f"{here.folder}/{name}")
    with socket.socket(socket.AF_UNIX) as node:
        node.settimeout(LIMIT)
        node.bind(f"{here.folder}/{name}/control")
        node.listen()
        yield node


def answered(node, asks, *turns):
    """What a call of `ask` or `tell` makes of an answer of that socket to each line that it sends."""
    with ThreadPoolExecutor() as pool:
        asked = pool.submit(*asks)
        for wanted, answer in turns:
            user, _ = node.accept()
            with user, user.makefile("rw") as line:
                check("what is asked or told", line.readline(), f"{wanted}\n")
                line.write(answer)
        return asked.result()


def records_that_nobody_looks_at(here):
    """Where a router doesn't answer which records aren't allowed, it isn't told; one that answers with a fault is."""
    order, answer = f"change {RECORD}", "change r1 records 1\n"
    asks, question = (tell, here, "r1", *order.split()), f"disallowed {RECORD}"
    with made_up(here, "r1") as node:
        check("an answer that is cut", answered(node, asks, (question, "disallowed r1 0\n")), UNANSWERED)
        check("no question for it", answered(node, asks, (question, f"fault 80\n{CLOSING}"), (order, answer + CLOSING)), (0, answer, ""))


def a_router_that_is_down(here):
    """An order to it ends with the number of a router that doesn't start."""
    with made_up(here, "r1") as node:
        check("its answer", answered(node, (tell, here, "r1", "rotate", "2"), ("rotate 2", f"down r1\n{CLOSING}")), refused(76, "down r1"))


# What is advised where a line is no question, no order, or has an address or records that can't be read.
QUESTIONS = ("a Map-Server is asked hold, ask ADDRESS, routers, due or counts, and a router records, acks, due, counts or disallowed RECORD ..; "
             "an order is for `lispd tell`")
ORDERS = ("a Map-Server is told notice ROUTER, a router of its configuration, or reload CONFIG, and a router change RECORD .. or rotate KEY; "
          "each with --database backup FILE; a question is for `lispd ask`")
ADDRESS = ("an address is four numbers with dots, as 10.1.2.3, or all eight groups with colons, as 2001:db8:1:0:0:0:0:5; "
           "`::` isn't read here")
RECORDS = ("write records as 10.1.0.0/16=1440+192.0.2.1 or 2001:db8:1:0:0:0:0:0/48=1440+192.0.2.1, of different prefixes, or empty; "
           "all eight groups are written, since `::` isn't read here")


def advice(here):
    """What is wrong with a question or an order is said in words."""
    process = up(here, "server", "s1", here.s1)
    router = up(here, "router", "r1", here.r1)
    for call, name, words, number, said in ((ask, "s1", ["ask", "2001:db8:1::5"], 84, ADDRESS), (ask, "r1", ["hold"], 82, QUESTIONS),
                                            (ask, "s1", ["nonsense"], 80, QUESTIONS), (tell, "s1", ["nonsense"], 80, ORDERS),
                                            (tell, "r1", ["change", "2001:db8:1::/48=5"], 84, RECORDS)):
        status, line, wrongs = call(here, name, *words, "--words")
        check(f"{words}", (status, line, wrongs.splitlines()[0], wrongs.endswith(f" --words: {said}\n")), (2, "", f"lispd: fault {number}", True))
    killed(router)
    killed(process)


def wrong_words(here):
    """What is no question, and no order, for a node is a fault of the words, and changes nothing."""
    process = up(here, "server", "s1", here.s1)
    for words, number in ((["disallowed", RECORD], 82), (["hold", "s1"], 81), (["acks"], 82), (["ask", "10.1"], 84), (["tick", "5"], 81), (["resend", "r1"], 80),
                          ([], 80), (["notice", "r1"], 80), (["records"], 80), (["counts", "s1"], 80), (["hold", "--prometheus"], 81), (["reload", here.config], 80), (["compare"], 80)):
        check(f"ask {words}", ask(here, "s1", *words), wrong(number))
    for words, number in ((["hold"], 80), (["notice", "r9"], 82), (["notice", "r1", "doubt"], 80), (["change", RECORD], 82), ([], 80)):
        check(f"tell {words}", tell(here, "s1", *words), wrong(number))
    for words in (["reload"], ["reload", here.config, "s1"]):
        # (words come behind the fault, as those of `check` do)
        status, text, wrongs = tell(here, "s1", *words)
        check(f"tell {words}", (status, text, wrongs.partition("\n")[0]), (2, "", "lispd: fault 81"))
    check("no folder", ran("ask", f"{here.folder}/none", "hold"), UNANSWERED)
    check("it goes on", ask(here, "s1", "hold"), NOTHING_HELD)
    killed(process)


def connected(here, name="s1"):
    it = socket.socket(socket.AF_UNIX)
    it.settimeout(LIMIT)
    it.connect(f"{here.folder}/{name}/control")
    return it


def prompt(here, name, patience=PROMPT + MOST):
    """A question beside or behind a client that misbehaves is answered soon."""
    begun = time.monotonic()
    with connected(here) as it:
        it.sendall(b"due\n")
        got = it.recv(100)
    check(f"{name}: a question", (got, time.monotonic() - begun < patience), (f"due s1 none\n{CLOSING}".encode(), True))


def all_of(here, name, question):
    """All that a node sends for a question."""
    with connected(here, name) as it:
        it.sendall(f"{question}\n".encode())
        return b"".join(iter(lambda: it.recv(65536), b"")).decode()


def answers_on_the_socket(here):
    """Each ends with the line that closes it, and has it once: in one part or several, to a question, an order, or what is neither."""
    server = up(here, "server", "s1", here.s1)
    with peer(here.r2) as it:
        for nonce in (1001, 1002):
            check("its answer", nonce_in(here.answer(it, map_register(nonce, records=host_records(nonce % 2, 255)))), nonce)
    router = up(here, "router", "r1", here.r1)
    for name, said, front in (
            ("s1", "hold", "hold s1 by parts\nrow "), ("s1", "due", "due s1 none\n"), ("s1", "ask 10.1.0.1", "ask s1 10.1.0.1 "), ("s1", "routers", "routers s1 "),
            ("s1", "counts", "counts s1 "), ("s1", "counts --prometheus", "# HELP "), ("s1", "nonsense", "fault 80\n"),
            ("s1", "nodes", "server s1 "), ("r1", "nodes", "server s1 "), ("s1", "compare", "fault 80\n"), ("s1", "reload", "fault 80\n"),
            ("s1", "notice r2", "refused s1 62\n"), ("r1", "records", "records r1 1\n"), ("r1", "acks", "acks r1 "), ("r1", "due", "due r1 "),
            ("r1", "disallowed 10.9.0.0/16=5", "disallowed r1 1\n"), ("r1", "counts", "counts r1 "), ("r1", f"change {OTHER}", "change r1 records 1\n"),
            ("r1", "rotate 200", "fault 78\n")):
        text = all_of(here, name, said)
        check(f"{said}: its front", text[:len(front)], front)
        check(f"{said}: its end", (text.endswith(f"\n{CLOSING}"), text.count(f"\n{CLOSING}")), (True, 1))
    check("what is printed", f"{ask(here, 'r1', 'records')[1]}{CLOSING}", all_of(here, "r1", "records"))
    killed(router)
    killed(server)


def clients_that_misbehave(here):
    """One that says nothing, half a line, too much, or closes early, is dropped in 100 ms, and the node goes on."""
    process = up(here, "server", "s1", here.s1)
    for name, said in (("nothing", b""), ("half a line", b"hol"), ("no text", b"\xff\n"), ("a megabyte", bytes(1 << 20))):
        begun = time.monotonic()
        with connected(here) as it, contextlib.suppress(OSError):
            it.sendall(said)
            while it.recv(65536):
                pass
        check(f"{name}: it is dropped", time.monotonic() - begun < PROMPT + MOST, True)
        prompt(here, name)
    for _ in range(3):
        connected(here).close()
    prompt(here, "closed early")
    held = [connected(here) for _ in range(5)]
    with peer(here.r1) as it:
        check("a datagram", nonce_in(here.answer(it, map_register(7))), 7)
    check("they are dropped in turn", until(lambda: ask(here, "s1", "due")[0] == 0), True)
    for it in held:
        it.close()
    killed(process)


def host_records(place, count, ttl=1440):
    """Records of so many hosts of 10.1.PLACE.0/24, the first ones."""
    return [struct.pack("!I", ttl) + bytes.fromhex("00201000000000010a01") + bytes([place, host]) for host in range(count)]


def check_list(here, name, rows):
    """The rows come by parts, and as many as there are; what they are."""
    status, text, wrongs = ask(here, "s1", "hold")
    first, *lines, last = text.splitlines()
    check(name, (status, first, len(lines), last, wrongs), (0, "hold s1 by parts", rows, f"held s1 {rows}", ""))
    found = [line.split()[2].split("=")[0] for line in lines]
    check(f"{name}, each once", len(set(found)), rows)
    return set(found)


def a_list_by_parts(here):
    """As many rows as a part has come at once, in their order; more come by parts, and `routers` and `counts` count them all."""
    process = up(here, "server", "s1", here.s1)
    with peer(here.r1) as it:
        check("its answer", nonce_in(here.answer(it, map_register(1, records=host_records(0, 255)))), 1)
        check("another answer", nonce_in(here.answer(it, map_register(2, records=host_records(1, 1)))), 2)
        status, text, wrongs = ask(here, "s1", "hold")
        lines = text.splitlines()
        check("256 rows", (status, lines[0], len(lines), wrongs), (0, "hold s1 256", 257, ""))
        wanted = [f"10.1.0.{host}/32" for host in range(255)] + ["10.1.1.0/32"]
        check("their order", [line.split()[2].split("=")[0] for line in lines[1:]], wanted)
        for nonce, rows in ((3, 2), (4, 45)):
            check("its answer", nonce_in(here.answer(it, map_register(nonce, records=host_records(1, rows)))), nonce)
            found = check_list(here, f"{255 + rows} rows", 255 + rows)
            check("which they are", found, {f"10.1.0.{host}/32" for host in range(255)} | {f"10.1.1.{host}/32" for host in range(rows)})
        check("its row's line", "row r1 10.1.1.44/32=1440" in ask(here, "s1", "hold")[1], True)
        check("its router", re.sub(r" age \d+", "", ask(here, "s1", "routers")[1]), f"routers s1 2\nrouter r1 from {here.r1} key 1 nonce 4 rows 300\nrouter r2 never\n")
        found = counts(here, "s1")
        check("what is counted", (found["rows"], found["sites"]), ("300", "1"))
        check("withdrawn", nonce_in(here.answer(it, map_register(5, records=host_records(0, 255, ttl=0)))), 5)
        check("the rows that are left", ask(here, "s1", "hold")[1].startswith("hold s1 45\n"), True)
        check("their number", (counts(here, "s1")["rows"], " rows 45\n" in ask(here, "s1", "routers")[1]), ("45", True))
    killed(process)


def routers_by_parts(here):
    """As many routers as a part has come at once, by xTR-ID; more come by parts, each once, and then those that were never heard, and the runs of
    replays."""
    process = up(here, "server", "s1", here.s1)
    with peer(here.r1) as it:
        def send(router):
            check("its answer", nonce_in(here.answer(it, map_register(router, xtr=1000 + router))), router)

        def check_routers(name, first, routers, *last):
            status, text, wrongs = ask(here, "s1", "routers")
            lines = re.sub(r" age \d+", "", text).splitlines()
            check(name, (status, lines[0], wrongs), (0, first, ""))
            wanted = [f"router {identity(1000 + router)} from {here.r1} key 1 nonce {router} rows 1" for router in routers]
            check(f"{name}, each once", lines[1:], [*wanted, "router r1 never", "router r2 never", *last])

        for router in range(2, 514, 2):
            send(router)
        check_routers("256 routers", "routers s1 258", range(2, 514, 2))
        for router in (514, 1, 513):
            send(router)
        routers = [1, *range(2, 514, 2), 513, 514]
        check_routers("three more", "routers s1 by parts", routers, "listed s1 261")
        for router in range(3, 511, 2):
            send(router)
        check_routers("513 routers", "routers s1 by parts", [*range(1, 511), 512, 513, 514], "listed s1 515")
        it.sendto(map_register(2, xtr=1002), (here.s1, PORT))
        check("a replay", until(lambda: "replays " in ask(here, "s1", "routers")[1]), True)
        check_routers("513 routers and a run", "routers s1 by parts", [*range(1, 511), 512, 513, 514],
                      f"replays s1 from {here.r1} times 1 saved 2", "listed s1 516")
    killed(process)


def rows_that_come_meanwhile(here):
    """A list by parts that is asked for while rows come and are registered again has each row that stays, once."""
    process = up(here, "server", "s1", here.s1)
    places, more = 20, 20
    with peer(here.r1) as it, ThreadPoolExecutor() as pool:
        for place in range(places):
            check("its answer", nonce_in(here.answer(it, map_register(place + 1, records=host_records(place, 255)))), place + 1)
        staying = {f"10.1.{place}.{host}/32" for place in range(places) for host in range(255)}
        nonce = places
        while more:
            asked = pool.submit(ask, here, "s1", "hold")
            while not asked.done() and more:
                nonce, more = nonce + 1, more - 1
                place = places + more if more % 2 else more
                check("its answer", nonce_in(here.answer(it, map_register(nonce, records=host_records(place, 255)))), nonce)
            status, text, wrongs = asked.result()
            first, *lines, last = text.splitlines()
            found = [line.split()[2].split("=")[0] for line in lines]
            check("a list", (status, first, last, wrongs), (0, "hold s1 by parts", f"held s1 {len(lines)}", ""))
            check("each row that stays, once", (staying <= set(found), len(set(found))), (True, len(found)))
    killed(process)


def an_answer_that_is_cut(here):
    """An answer without the line that closes it is none, whatever it says; that line isn't printed."""
    row = "row r1 10.1.0.0/16=1440+192.0.2.1 key 1 nonce 7 age 5\n"
    asks = (ask, here, "s1", "hold")
    with made_up(here, "s1") as node:
        for text in (f"hold s1 1\n{row}", f"hold s1 by parts\n{row}held s1 1\n", "hold s1 by parts\nheld s1 0\n", "due s1 none\n", "ends s1\n", "\n"):
            check(f"{text!r}", answered(node, asks, ("hold", text + CLOSING)), (0, text, ""))
            for length in range(len(text + CLOSING)):
                check(f"{text!r}, {length} bytes of it", answered(node, asks, ("hold", (text + CLOSING)[:length])), UNANSWERED)
        for text in ("", CLOSING, "hold s1 0 end\n", f"hold s1 0\n {CLOSING}", f"hold s1 0\n{CLOSING}\n", "hold s1 0\nend", "hold s1 0\nend s1\n",
                     "hold s1 0\nEND\n"):
            check(f"{text!r}", answered(node, asks, ("hold", text)), UNANSWERED)


def a_client_that_takes_nothing_of_many_rows(here):
    """It is dropped, and the node goes on beside it; one that takes them gets them all."""
    process = up(here, "server", "s1", here.s1)
    with peer(here.r1) as it:
        for place in range(MANY):
            check("its answer", nonce_in(here.answer(it, map_register(place + 1, records=host_records(place, 255)))), place + 1)
        for nonce in range(MANY + 1, MANY + 4):
            with connected(here) as deaf:
                deaf.sendall(b"hold\n")
                check("it begins", deaf.recv(5), b"hold ")
                begun = time.monotonic()
                check("a datagram", nonce_in(here.answer(it, map_register(nonce))), nonce)
                check("it is answered soon", time.monotonic() - begun < PROMPT, True)
                prompt(here, "takes nothing", PROMPT + 2 * MOST)
    rows = MANY * 255 + 1
    check_list(here, "all rows", rows)
    check("its router", f" rows {rows}\n" in ask(here, "s1", "routers")[1], True)
    killed(process)


def an_answer_that_is_a_fault(here):
    """What a node answers where it can't read the line for want of memory is the fault of `ask`, too."""
    with made_up(here, "s1") as node:
        for number, status in ((80, 2), (86, 1)):
            check(f"fault {number}", answered(node, (ask, here, "s1", "hold"), ("hold", f"fault {number}\n{CLOSING}")),
                  (status, "", f"lispd: fault {number}\n"))


def with_families(names):
    """What lets a process make sockets of these families alone, as systemd's RestrictAddressFamilies does: to be given as `preexec_fn`."""
    calls = SOCKET_CALLS[platform.machine()]
    load, equal, answer = 0x20, 0x15, 0x06
    # The call's number; where it makes a socket its family, in the first argument (behind 16 bytes).
    steps = [(load, 0, 0, 0), (equal, 1, 0, calls[0]), (equal, 0, len(names) + 2, calls[1]), (load, 0, 0, 16)]
    steps += [(equal, len(names) - at, 0, getattr(socket, name)) for at, name in enumerate(names)]
    steps += [(answer, 0, 0, 0x50000 | errno.EAFNOSUPPORT), (answer, 0, 0, 0x7FFF0000)]
    prctl = ctypes.CDLL(None, use_errno=True).prctl
    prctl.argtypes = (ctypes.c_int, *[ctypes.c_ulong] * 4)
    no_new_privileges, set_filter, by_rules = 38, 22, 2

    def restrict():
        rules = ctypes.create_string_buffer(b"".join(struct.pack("=HBBI", *step) for step in steps))
        table = ctypes.create_string_buffer(struct.pack("@HP", len(steps), ctypes.addressof(rules)))
        if prctl(no_new_privileges, 1, 0, 0, 0) or prctl(set_filter, by_rules, ctypes.addressof(table), 0, 0):
            raise OSError(ctypes.get_errno(), "prctl")
    return restrict


def a_node_under_its_unit(here):
    """It is asked, and told, where sockets are of the families alone that the unit lets it have."""
    (families,) = re.findall(r"^RestrictAddressFamilies=(.*)$", UNIT.read_text(), re.M)
    if platform.machine() not in SOCKET_CALLS:
        return
    under = {"preexec_fn": with_families(families.split())}
    try:
        subprocess.run(["true"], check=True, **under)
    except subprocess.SubprocessError:
        print("control.py: no filter of calls can be had here: a node under its unit was not tried")
        return
    process = here.start(*here.words("server", "s1"), **under)
    is_up(here.s1)
    with peer(here.r1) as it:
        check("its answer", nonce_in(here.answer(it, map_register(7))), 7)
    check("it is asked", ran("ask", f"{here.folder}/s1", "counts", **under)[1].startswith("counts s1 accepted 1\n"), True)
    check("it is told", ran("tell", f"{here.folder}/s1", "notice", "r1", **under)[0], 0)
    killed(process)


def another_user_is_refused(here):
    """Who may not write the folder may not connect."""
    process = up(here, "server", "s1", here.s1)
    path = f"{here.folder}/s1/control"
    check("its mode", f"{os.stat(path).st_mode & 0o777:o}", "200")
    if os.geteuid() == 0:
        for folder in (here.folder, os.path.dirname(here.folder)):
            os.chmod(folder, 0o755)
        done = subprocess.run([program, "ask", f"{here.folder}/s1", "hold"], capture_output=True, text=True, user=65534, group=65534,
                              extra_groups=[], check=False)
        check("another user", (done.returncode, done.stdout, done.stderr), UNANSWERED)
    killed(process)


def settings(*files):
    """The settings of a unit and of its drop-ins; the last of each name."""
    lines = (line for file in files for line in file.read_text().splitlines())
    return dict(line.split("=", 1) for line in lines if re.match(r"[A-Z]\w+=", line))


def a_group_asks_under_the_drop_in(here):
    """Whoever is in the group asks the node and tells it; somebody else doesn't, and neither sees its nonces."""
    if os.geteuid():
        print("control.py: not the superuser here: a node that a group asks was not tried")
        return
    # What systemd makes: the two folders, and a process of the node's user and of the group.
    found = settings(UNIT, DROP_IN)
    store, asked = f"{here.folder}/s1", f"{here.folder}/asked"
    for path, mode in ((store, found["StateDirectoryMode"]), (asked, found["RuntimeDirectoryMode"])):
        os.mkdir(path)
        os.chown(path, NODE, ASKERS)
        os.chmod(path, int(mode, 8))
    for folder in (here.folder, os.path.dirname(here.folder)):
        os.chmod(folder, 0o755)
    os.chmod(here.config, 0o644)
    options, told = (it.replace("%t/" + found["RuntimeDirectory"], asked) for it in shlex.split(found["Environment"]))
    check("where it is told", told, f"CONTROL={asked}")
    words = options.removeprefix("OPTIONS=").split()
    process = here.start(*here.words("server", "s1"), *words, user=NODE, group=ASKERS, extra_groups=[], umask=int(found["UMask"], 8))
    is_up(here.s1)
    with peer(here.r1) as it:
        check("its answer", nonce_in(here.answer(it, map_register(7))), 7)

    def asks(user, groups, *words):
        done = subprocess.run([program, *words], capture_output=True, text=True, user=user, group=user, extra_groups=groups, check=False)
        return done.returncode, done.stdout, done.stderr

    check("a member asks", asks(MEMBER, [ASKERS], "ask", asked, "counts")[1].startswith("counts s1 accepted 1\n"), True)
    check("a member tells", asks(MEMBER, [ASKERS], "tell", asked, "notice", "r1")[0], 0)
    check("a stranger doesn't", asks(STRANGER, [], "ask", asked, "counts"), UNANSWERED)
    check("the store's folder", asks(MEMBER, [ASKERS], "ask", store, "counts"), UNANSWERED)
    check("the mode of the nonces", {f"{os.stat(it).st_mode & 0o77:o}" for it in (store, *Path(store).glob("*.nonce"))}, {"0"})
    killed(process)


def asked_by(folder, group):
    """What a user of this group alone is answered to a question, at a socket of that folder."""
    done = subprocess.run([program, "ask", folder, "hold"], capture_output=True, text=True, user=65534, group=group, extra_groups=[],
                          check=False)
    return done.returncode, done.stdout, done.stderr


def a_socket_in_another_folder(here):
    """With --control it is there: who may write that folder may connect, its group too, whoever may enter the node's own."""
    folder, group = Path(f"{here.folder}/asked"), 4343
    folder.mkdir()
    for path in (here.folder, os.path.dirname(here.folder)):
        os.chmod(path, 0o755)
    os.chmod(folder, 0o770)
    if os.geteuid() == 0:
        os.chown(folder, -1, group)
    for more in ((), ("--turns", "200")):
        process = here.start(*here.words("server", "s1", "--control", str(folder), *more))
        is_up(here.s1)
        check("it is asked", until(lambda: ran("ask", str(folder), "hold") == NOTHING_HELD), True)
        check("it is told", ran("tell", str(folder), "notice", "r1") == UNANSWERED, False)
        check("not in its own folder", os.path.exists(f"{here.folder}/s1/control"), False)
        check("its mode", f"{os.stat(folder / 'control').st_mode & 0o777:o}", "220")
        if os.geteuid() == 0:
            check("a member of the group", asked_by(str(folder), group), NOTHING_HELD)
            check("another user", asked_by(str(folder), 65534), UNANSWERED)
        killed(process)
    os.chmod(folder, 0o750)
    process = here.start(*here.words("router", "r1", "--control", str(folder)))
    check("a router", until(lambda: ran("ask", str(folder), "due")[0] == 0), True)
    if os.geteuid() == 0:
        check("a group that may only look", asked_by(str(folder), group), UNANSWERED)
    killed(process)


def a_socket_that_can_not_be_made(here):
    """A warning names its folder and why, and the node runs on. What is no socket isn't removed."""
    gone, folder = f"{here.folder}/gone", Path(f"{here.folder}/asked")
    folder.mkdir()
    (folder / "control").write_text("a letter")
    for path, error in ((gone, errno.ENOENT), (folder, errno.EADDRINUSE)):
        status, _, told = ran(*here.words("server", "s1", "--control", str(path), "--turns", "0"))
        check(f"at {path}", (status, told), (0, f"warning: {path}: nobody can ask the node: {system(error)}\n"))
    check("the file", (folder / "control").read_text(), "a letter")


def a_socket_that_was_removed(here):
    """It is there again within ten seconds. What else lies in its place stays, and that is said once."""
    path = Path(f"{here.folder}/s1/control")
    with open(f"{here.folder}/error", "w+", encoding="utf-8") as error:
        process = up(here, "server", "s1", here.s1, stderr=error)
        path.unlink()
        check("it is there again", until(lambda: ask(here, "s1", "due")[0] == 0, 10), True)
        check("its mode", f"{os.stat(path).st_mode & 0o777:o}", "200")
        path.unlink()
        path.write_text("a letter")
        time.sleep(11)
        check("the file", path.read_text(), "a letter")
        path.unlink()
        check("it is there once more", until(lambda: ask(here, "s1", "due")[0] == 0, 10), True)
        killed(process)
        error.seek(0)
        said = error.read().splitlines()
    check("what is said", (len(said), said[0].startswith(f"warning: {here.folder}/s1: nobody can ask the node: ")), (1, True))


def a_killed_process_leaves_its_socket(here):
    """The next one listens in its place."""
    killed(up(here, "server", "s1", here.s1))
    check("it is left", os.path.exists(f"{here.folder}/s1/control"), True)
    killed(up(here, "server", "s1", here.s1))


run_tests([
    *(over(store, test) for store in (FILES, GROUPS) for test in (a_map_server_is_asked, a_map_server_is_told, what_is_counted)),
    what_is_held_of_sites, who_is_refused_as_replaying, a_router_is_told, records_that_are_not_allowed, records_that_nobody_looks_at,
    a_router_that_is_down, advice, wrong_words, an_answer_that_is_a_fault, a_list_by_parts, routers_by_parts, an_answer_that_is_cut,
    answers_on_the_socket, a_node_under_its_unit, another_user_is_refused,
    a_group_asks_under_the_drop_in, a_socket_in_another_folder, a_socket_that_can_not_be_made, a_socket_that_was_removed,
    a_killed_process_leaves_its_socket,
], alone=[clients_that_misbehave, rows_that_come_meanwhile, a_client_that_takes_nothing_of_many_rows])
