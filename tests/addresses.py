#!/usr/bin/env -S python3 -B
"""addresses.py PROGRAM [TEST ..]
Runs `lispd server`, `router` and `loop` at addresses of both families, in a network of its own (`unshare --net`) in which it may
have any: where an answer goes, and where nothing does. Prints each check that fails, and ends with 1 where one does. A machine
that gives no such network runs nothing, and it says so."""
import contextlib
import os
import socket
import subprocess
import sys
import time
from pathlib import Path

INSIDE = "LISPD_OWN_NETWORK"
# IPv6 addresses by the last byte of those of the examples.
FRONT = "fd4c:0:0:0:0:0:0:"
ADDRESSES = " && ".join(["ip link set lo up", *(f"ip -6 addr add {FRONT}{last}/128 dev lo nodad" for last in (11, 12, 21, 22, 99))])


def enter():
    """Runs this file again in a network of its own, where the machine gives one."""
    for words in (["unshare", "--net"], ["unshare", "--map-root-user", "--net"]):
        try:
            done = subprocess.run([*words, "sh", "-c", ADDRESSES], capture_output=True, check=False)
        except OSError:
            break
        if done.returncode == 0:
            script = [sys.executable, "-B", os.path.abspath(__file__), os.path.abspath(sys.argv[1]), *sys.argv[2:]]
            os.execvpe(words[0], [*words, "sh", "-c", ADDRESSES + ' && exec "$0" "$@"', *script], {**os.environ, INSIDE: "1"})
    print("addresses.py: no network of its own with IPv6 is to be had: nothing was run")
    sys.exit(0)


if INSIDE not in os.environ:
    enter()

from asking import Itr, record, reply_of, resolves
from nodes import (EXAMPLES, LIMIT, MAP_NOTIFY, PORT, SITE, XTR, check, is_up, killed, map_register, next_line, nonce_in, peer, ran,
                   received, run_tests, until)
from sockets import heard, slower

LOOPBACK = "0:0:0:0:0:0:0:1"


def of_ipv6(here):
    """The network of this test at IPv6 addresses."""
    config = Path(here.config)
    text = config.read_text().replace(here.front, FRONT)
    here.s1, here.s2, here.r1, here.r2 = (FRONT + last for last in ("11", "12", "21", "22"))
    config.write_text(text)


def renamed(here, *names):
    """The configuration with names, addresses and others in the place of what it has."""
    config = Path(here.config)
    text = config.read_text()
    for old, new in names:
        text = text.replace(f'"{old}"', f'"{new}"')
    config.write_text(text)


def answers_go_to_their_source(here, stranger):
    """Each Map-Register, also one that a router's address isn't the source of, is answered to where it came from, and nowhere else;
    to UDP port 4342, whatever port it came from."""
    process = here.start(*here.words("server", "s1"))
    is_up(here.s1)
    with peer(here.r1) as r1, peer(here.r2) as r2, peer(stranger) as other, peer(here.s2) as s2:
        check("the Map-Notify", here.answer(r1, map_register(1)), MAP_NOTIFY)
        for name, it, nonce in (("another router", r2, 2), ("a stranger", other, 3), ("a Map-Server", s2, 4)):
            check(f"{name} is answered", nonce_in(here.answer(it, map_register(nonce)) or bytes(12)), nonce)
        with socket.socket(r1.family, socket.SOCK_DGRAM) as another:
            another.bind((stranger, 0))
            another.sendto(map_register(5), (here.s1, PORT))
            other.settimeout(LIMIT)
            answer, source = other.recvfrom(65535)
            check("from another port", (nonce_in(answer), source[1]), (5, PORT))
            check("its sender's address", ip(source[0]), ip(here.s1))
            check("no other answer", [heard(it, 0.05) for it in (r1, r2, other, s2, another)], [[]] * 5)
    lines = [f"accepted s1 r1 key 1 nonce {nonce} from {told(address)}" for nonce, address
             in enumerate((here.r1, here.r2, stranger, here.s2, stranger), 1)]
    # (that it moved is said once a minute)
    check("its lines", killed(process), [*lines[:2], f"moved s1 r1 from {told(here.r1)} to {told(here.r2)}", *lines[2:]])


def ip(address):
    """An address as bytes, of either family."""
    return socket.inet_pton(socket.AF_INET6 if ":" in address else socket.AF_INET, address)


def told(address):
    """An address as lines have it: each group of an IPv6 address with four digits."""
    return ":".join(group.zfill(4) for group in address.split(":")) if ":" in address else address


def an_answer_goes_to_its_source(here):
    answers_go_to_their_source(here, f"{here.front}99")


def an_answer_over_ipv6_goes_to_its_source(here):
    of_ipv6(here)
    answers_go_to_their_source(here, FRONT + "99")


def a_map_server_at_the_loopback_address(here):
    of_ipv6(here)
    renamed(here, (here.s1, LOOPBACK))
    here.s1 = LOOPBACK
    answers_go_to_their_source(here, FRONT + "99")


def nodes_register(here):
    """A router registers with a Map-Server, and with one of ours, which sees the worked message and its source."""
    server = here.start(*here.words("server", "s1"))
    is_up(here.s1)
    with peer(here.s2) as s2, peer(here.r2) as r2:
        router = here.start(*here.words("router", "r1"), env=slower())
        s2.settimeout(LIMIT)
        message, source = s2.recvfrom(65535)
        check("the Map-Register", (message, ip(source[0]), source[1]), (map_register(2), ip(here.r1), PORT))
        check("the router", [next_line(router) for _ in range(3)],
              ["sent r1 s1 key 1 nonce 1", "sent r1 s2 key 1 nonce 2", f"counted r1 s1 key 1 nonce 1 from {told(here.s1)}"])
        check("to no other", heard(r2, 0.05), [])
    check("the Map-Server", killed(server), [f"accepted s1 r1 key 1 nonce 1 from {told(here.r1)}"])


def a_router_registers(here):
    nodes_register(here)


def a_router_registers_over_ipv6(here):
    of_ipv6(here)
    nodes_register(here)


def a_map_server_of_the_other_family(here):
    """A router at an IPv6 address can't send to an IPv4 address: it tells that, and goes on."""
    front = here.front
    of_ipv6(here)
    renamed(here, (here.s1, f"{front}11"))
    with peer(here.s2) as s2:
        process = here.start(*here.words("router", "r1"))
        s2.settimeout(LIMIT)
        check("to the next", [nonce_in(s2.recv(65535)), nonce_in(s2.recv(65535))], [2, 4])
        check("its lines", [next_line(process) for _ in range(6)],
              ["sent r1 s1 key 1 nonce 1", "refused r1 91 NetworkUnreachable", "sent r1 s2 key 1 nonce 2",
               "sent r1 s1 key 1 nonce 3", "refused r1 91 NetworkUnreachable", "sent r1 s2 key 1 nonce 4"])


def each_node_is_itself(here):
    """The second Map-Server and the second router, whose names begin with those of the first."""
    renamed(here, ("s2", "s11"), ("r2", "r11"))
    config = Path(here.config)
    config.write_text(config.read_text().replace('servers = ["s1"]', 'servers = ["s11", "s1"]'))
    with peer(here.s1) as s1:
        server = here.start(*here.words("server", "s11"))
        is_up(here.s2)
        router = here.start(*here.words("router", "r11"), env=slower())
        s1.settimeout(LIMIT)
        message, source = s1.recvfrom(65535)
        check("who sent it", (source, message[-24:]), ((here.r2, PORT), (XTR + 1).to_bytes(16, "big") + SITE.to_bytes(8, "big")))
        check("the router", [next_line(router) for _ in range(3)],
              ["sent r11 s11 key 1 nonce 1", "sent r11 s1 key 1 nonce 2", f"counted r11 s11 key 1 nonce 1 from {here.s2}"])
        check("the Map-Server", next_line(server), f"accepted s11 r11 key 1 nonce 1 from {here.r2}")
    check("their folders", sorted(os.listdir(here.folder)), ["configuration.toml", "r11", "s11"])


@contextlib.contextmanager
def wire(found):
    """Adds what goes over the loopback interface meanwhile, by UDP over IPv4: source, destination and message."""
    family = 0x0800
    with socket.socket(socket.AF_PACKET, socket.SOCK_DGRAM, socket.htons(family)) as it:
        it.bind(("lo", family))
        yield
        it.settimeout(0.1)
        with contextlib.suppress(TimeoutError):
            while len(found) < 100:
                packet = it.recv(65535)
                if packet[9] == socket.IPPROTO_UDP:
                    source, destination = (socket.inet_ntoa(packet[at:at + 4]) for at in (12, 16))
                    ports = {int.from_bytes(packet[at:at + 2], "big") for at in (20, 22)}
                    found.append((source, destination, packet[28:] if ports == {PORT} else ports))


def what_goes_over_the_wire(here):
    """Each node sends from its own address, what it should, and nothing else: in `loop`, and each in its process."""
    exchange = [(here.r1, here.s1, map_register(1)), (here.s1, here.r1, MAP_NOTIFY)]
    script, found = Path(f"{here.folder}/script"), []
    script.write_text(f"send r1 s1\ndeliver 0\ndeliver 1\njunk s1 {here.front}99 {map_register(2).hex()}\ndeliver 2\n")
    with wire(found):
        check("loop", ran("loop", here.config, script, "--store", f"{here.folder}/loop")[0], 0)
    check("what a loop sends", found, exchange)
    found.clear()
    with wire(found):
        server = here.start(*here.words("server", "s1"))
        is_up(here.s1)
        router = here.start(*here.words("router", "r1"), env=slower())
        check("it is counted", [next_line(router) for _ in range(3)][2], f"counted r1 s1 key 1 nonce 1 from {here.s1}")
        killed(router)
        check("it is accepted", killed(server), [f"accepted s1 r1 key 1 nonce 1 from {here.r1}"])
    to_s2 = (here.r1, here.s2, map_register(2))
    check("to both Map-Servers", to_s2 in found, True)
    check("what they send", [it for it in found if it != to_s2], exchange)


def a_loop_over_ipv6(here):
    configuration, script = Path(f"{EXAMPLES}/schedules/01-exchange.schedule").read_text().split("---\n", 1)
    wanted = Path(f"{EXAMPLES}/schedules/01-exchange.out").read_text()
    file = Path(f"{here.folder}/script")
    Path(here.config).write_text(configuration.replace("127.0.0.", FRONT))
    file.write_text(script.replace("127.0.0.", FRONT))
    check("its lines", ran("loop", here.config, file, "--store", here.folder)[:2], (0, wanted.replace("127.0.0.", FRONT)))


def map_requests_over_ipv6(here):
    """A Map-Server sends one on to a router, which replies to the ITR; and the ITRs of a /64 have one budget."""
    of_ipv6(here)
    resolves(here, "s1", "r2", prefixes=[f"{FRONT}0/64"])
    server = here.start(*here.words("server", "s1", "--quiet", "0"))
    is_up(here.s1)
    router = here.start(*here.words("router", "r2"), env=slower())
    check("it is accepted", next_line(server), f"accepted s1 r2 key 1 nonce 1 from {told(here.r2)}")
    with Itr(ip_text(FRONT + "99")) as one, Itr(ip_text(FRONT + "12")) as other:
        own = record("10.1.2.0/24", own=True, flags=5, locators=["192.0.2.2"])
        check("the router replies", one.asked(here.s1, "10.1.2.1"), (reply_of(own), ip_text(here.r2)))
        check("the Map-Server", next_line(server), f"forwarded s1 10.1.2.1/32 to {told(here.r2)}")
        check("the router", [next_line(router) for _ in range(3)][2], f"replied r2 10.1.2.1/32 to {told(FRONT + '99')} records 1")
        begun = time.monotonic()
        for _ in range(100):
            for itr in (one, other):
                itr.asks(here.s1, "11.0.0.1")
            time.sleep(0.001)
        asked = until(lambda: "counts s1 requests 201\n" in ran("ask", f"{here.folder}/s1", "counts")[1])
        took, got = time.monotonic() - begun, [len(received(itr.socket, 0.1)) for itr in (one, other)]
        check("all are taken", asked, True)
        # (A Map-Reply has 28 bytes, and what went on to the router, which is in the same /64, has 72. Within a second there is one budget.)
        if took < 1:
            check("what goes to their /64", (4096 - 72 <= sum(got) * 28 + 27 <= 4096 + 27, min(got) > 0), (True, True))


def ip_text(address):
    """An IPv6 address as Python spells it."""
    return socket.inet_ntop(socket.AF_INET6, ip(address))


run_tests([], [an_answer_goes_to_its_source, an_answer_over_ipv6_goes_to_its_source, a_map_server_at_the_loopback_address,
               a_router_registers, a_router_registers_over_ipv6, a_map_server_of_the_other_family, each_node_is_itself,
               what_goes_over_the_wire, a_loop_over_ipv6, map_requests_over_ipv6])
