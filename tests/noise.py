#!/usr/bin/env -S python3 -B
"""noise.py PROGRAM SEED COUNT
Sends COUNT datagrams, which are drawn from SEED, to a Map-Server and to a router that answer Map-Requests: good Map-Requests, plain and
encapsulated, such that were changed or cut, and random bytes that begin as they do. Both nodes live, and answer a good one after it; what
goes out goes to ITR-RLOCs that the configuration lists or, from the Map-Server, to its routers, and is a Map-Reply or what came. Prints each
check that fails, and ends with 1 where one does."""
import multiprocessing
import random
import socket
import subprocess
import sys
import time
from pathlib import Path

from asking import (Everywhere, Itr, Sent, a_server, ask_again, check_budget, counts_of, encapsulated, map_request, record, register, registered,
                    reply_of, resolves)
from messages import Fault, changed, draw_message, read_reply
from nodes import LIMIT, PORT, check, is_up, peer, ran, received, run_tests, until
from sockets import check_below

SEED, COUNT = (int(word) for word in sys.argv[2:4])
# How many datagrams are sent at once, before a node has taken those before them; and of how many messages others are made.
AT_ONCE, MESSAGES = 100, 2_000
EIDS = ["10.1.2.1", "10.1.3.4", "10.1.2.0/24", "10.1.0.0/16", "11.0.0.1", "0.0.0.0/0", "2001:db8::1"]
FORKED = multiprocessing.get_context("fork")


def dropped(address):
    """How many datagrams the socket of a node dropped."""
    name = f"{int.from_bytes(bytes(map(int, address.split('.'))), sys.byteorder):08X}:{PORT:04X}"
    return sum(int(line.split()[-1]) for line in Path("/proc/net/udp").read_text().splitlines() if line.split()[1] == name)


def taken(folder):
    """How many Map-Requests a node has taken; 0 where it doesn't say so, as one that is asked beside much else may not."""
    try:
        with socket.socket(socket.AF_UNIX) as it:
            it.settimeout(LIMIT)
            it.connect(f"{folder}/control")
            it.sendall(b"counts\n")
            return counts_of(b"".join(iter(lambda: it.recv(1 << 16), b"")).decode()).get("requests", 0)
    except OSError:
        return 0


def drawn(draw, itr, port):
    """A Map-Request, and the kind that it is of: mostly one that a node takes, else any message of those kinds."""
    if draw.random() < 0.3:
        kind, data = draw_message(draw)
        return kind if data[0] >> 4 in (1, 8) else "", data
    eids = draw.choices(EIDS, k=draw.choice([1, 1, 1, 2, 5]))
    rlocs = [draw.choice([itr, itr, itr, "192.0.2.9", "2001:db8::9", "127.0.0.1"]) for _ in range(draw.choice([1, 1, 2]))]
    message = map_request(draw.getrandbits(64), *eids, rlocs=rlocs, letters=draw.choice(["", "", "", "P", "D", "S", "A", "p", "s"]))
    return ("request", message) if draw.random() < 0.3 else ("encapsulated", encapsulated(message, itr, eids[0], port))


def noise(draw, messages):
    """The next datagram."""
    chance = draw.random()
    if chance < 0.2:
        return bytes([draw.choice([0x10, 0x80]) | draw.getrandbits(4)]) + draw.randbytes(draw.choice([0, 3, 11, 27, 59, draw.randint(0, 300)]))
    kind, data = draw.choice(messages)
    return data if chance < 0.3 else changed(draw, kind, data)


class Heard:
    """How many datagrams of its kinds a node was sent, and how many it hasn't taken."""

    def __init__(self, folder):
        self.folder, self.sent, self.lost = folder, 0, 0

    def catch_up(self, most):
        """Waits until all but so many are taken; those that aren't within a second are lost."""
        end = time.monotonic() + 1
        while (left := self.sent - self.lost - taken(self.folder)) > most:
            if time.monotonic() > end:
                self.lost += left
            time.sleep(0.0005)


def make_noise(its, seed, address, folder, itr, count, port):
    """Sends so many datagrams to a node, as many at once as may wait there, and reports how many are of its kinds, how many of those are lost,
    and how many its socket drops."""
    draw, heard = random.Random(seed), Heard(folder)
    messages = [it for it in (drawn(draw, itr, port) for _ in range(MESSAGES)) if it[0]]
    front = bytes(map(int, itr.split(".")))[:2]
    with Everywhere() as everywhere:
        for number in range(count):
            data = noise(draw, messages)
            heard.sent += data[:1] != b"" and data[0] >> 4 in (1, 8)
            everywhere.send(front + bytes([100 + number % 100, 9]), data, address)
            if number % AT_ONCE == 0:
                heard.catch_up(AT_ONCE)
        heard.catch_up(0)
    its.send((heard.sent, heard.lost, dropped(address)))


def is_right(data, to, here):
    """Whether a datagram may go out: between a router and its Map-Server a Map-Register, a Map-Notify or an Encapsulated Map-Request; else
    a Map-Reply to an address that is listed."""
    if to in ((here.s1, PORT), (here.r1, PORT), (here.r2, PORT)) and data[0] >> 4 in (3, 4, 8):
        return True
    try:
        read_reply(data)
    except Fault:
        return False
    return to[0].startswith(here.front)


class Outgoing:
    """What goes out of a node: what may not, and how much it is."""

    def __init__(self, here, address):
        self.here, self.sent, self.wrong, self.counted = here, Sent(address), [], []

    def look(self):
        for moment, address, port, data in self.sent.datagrams():
            if not is_right(data, (address, port), self.here):
                self.wrong.append((address, port, data.hex()))
            if data[0] >> 4 in (2, 8):
                self.counted.append((moment, address, data))

    def check(self, name):
        self.look()
        check(f"what {name} sends wrongly", self.wrong[:5], [])
        check_budget(f"what {name} sends", self.counted)
        if self.sent.is_shown:
            check(f"{name} sends many a datagram", len(self.counted) > 100, True)


def two_nodes(here):
    """A Map-Server and a router."""
    resolves(here, "s1", "r2")
    server = a_server(here, stdout=subprocess.DEVNULL)
    with peer(here.r1) as r1:
        register(here, r1, 1, registered("10.1.0.0/16"))
    router = here.start(*here.words("router", "r2"), stdout=subprocess.DEVNULL)
    check("r2 is up", is_up(here.r2), True)
    check("it is registered", until(lambda: counted(here, "s1").get("accepted") == 2), True)
    return server, router


def counted(here, name):
    return counts_of(ran("ask", f"{here.folder}/{name}", "counts")[1])


def nodes_that_hear_noise(here):
    server, router = two_nodes(here)
    outgoing, itr = {name: Outgoing(here, address) for name, address in (("s1", here.s1), ("r2", here.r2))}, f"{here.front}9"
    if not outgoing["s1"].sent.is_shown:
        print("noise.py: what goes out is shown to root alone: it wasn't looked at")
    with Itr(itr) as asker:
        noises = {}
        for seed, name, address in ((2 * SEED, "s1", here.s1), (2 * SEED + 1, "r2", here.r2)):
            ours, its = FORKED.Pipe()
            noises[name] = ours, FORKED.Process(target=make_noise, args=(its, seed, address, f"{here.folder}/{name}", itr, COUNT // 2, asker.port))
            noises[name][1].start()
        while any(it.is_alive() for _, it in noises.values()):
            time.sleep(0.1)
            for it in outgoing.values():
                it.look()
        for (name, (ours, it)), process in zip(noises.items(), (server, router)):
            it.join()
            asked, lost, gone = ours.recv()
            check(f"{name} lives", process.poll(), None)
            check_below(f"datagrams that the socket of {name} dropped", gone, COUNT // 20)
            check_below(f"those of {asked} that {name} doesn't take", lost, asked // 20)
        # (What is left of the budget after two seconds is all of it.)
        time.sleep(2.1)
        received(asker.socket, 0.01)
        wide = record("10.1.0.0/16"), ask_again("10.1.2.0/24")
        check("s1 answers", asker.asked(here.s1, "10.1.3.4"), (reply_of(*wide), here.s1))
        own = record("10.1.2.0/24", own=True, flags=5, locators=["192.0.2.2"])
        check("r2 answers", asker.asked(here.s1, "10.1.2.1"), (reply_of(own), here.r2))
    for name, it in outgoing.items():
        it.check(name)


run_tests([], [nodes_that_hear_noise], names=[])
