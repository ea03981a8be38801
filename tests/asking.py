"""asking.py: what the tests of nodes that answer Map-Requests share (resolving.py, floods.py, noise.py): networks whose nodes answer them,
ITRs of ours, sockets at all addresses, and what a node sends."""
import bisect
import collections
import contextlib
import ctypes
import ipaddress
import itertools
import re
import socket
import struct
from pathlib import Path

from messages import Encapsulated, Locator, Record, Request, none, write_encapsulated, write_record, write_request
from nodes import LIMIT, PORT, SITE, XTR, check, is_up, next_line
from sockets import signed

# How many bytes a second go to a destination, and to all, at most; and in which part of a second they are looked for: a node reads its clock
# at the begin of a turn, and sends at its end.
TO_EACH, TO_ALL, WINDOW = 4_096, 262_144, 0.9
# Of the system's sockets (ip(7), socket(7), packet(7)).
IP_PKTINFO, SO_TIMESTAMPNS, SO_ATTACH_FILTER, SO_RCVBUFFORCE, ETH_P_ALL, OUTGOING = 8, 35, 26, 33, 3, 4
PKTINFO, TIMESPEC = struct.Struct("=I4s4s"), struct.Struct("@ll")
# The bits of a Map-Request by their letters, in the order of `Request.flags`.
LETTERS = "APSpsLD"


def resolves(here, *names, prefixes=None):
    """Lets nodes answer Map-Requests whose ITR-RLOCs are in these prefixes: where none are given, those of this network."""
    config, listed = Path(here.config), str(prefixes or [f"{here.front}0/24"]).replace("'", '"')
    text = config.read_text()
    for name in names:
        text = text.replace(f'name = "{name}"\n', f'name = "{name}"\nresolve = {listed}\n')
    config.write_text(text)


def a_server(here, *more, name="s1", quiet=0, **how):
    """A Map-Server that runs, and is starting for so many seconds."""
    process = here.start(*here.words("server", name, "--quiet", str(quiet), *more), **how)
    check(f"{name} is up", is_up(here.s1 if name == "s1" else here.s2), True)
    return process


def packed(address):
    return ipaddress.ip_address(address).packed


def eid_of(text):
    """An EID-Prefix, or an address as one of full length."""
    it = ipaddress.ip_network(text, strict=False)
    return it.network_address.packed, it.prefixlen


def record(eid, *, ttl=1440, act=0, own=False, flags=1, locators=("192.0.2.1",)):
    """A record as bytes, of a router itself (A) or not; the flags of each locator are L, p and R from 4 on."""
    bits = [flags >> place & 1 for place in (2, 1, 0)]
    return write_record(Record(ttl, act, int(own), 0, eid_of(eid), [Locator([1, 100, 255, 0], bits, packed(it)) for it in locators]), none)


def registered(eid, **how):
    """A record as routers register it."""
    return record(eid, own=True, flags=5, **how)


def registration(nonce, *records, proxy=True, notify=True, xtr=XTR):
    """A Map-Register, which asks for proxy Map-Replies and for a Map-Notify, or doesn't."""
    behind = b"".join(records) + xtr.to_bytes(16, "big") + SITE.to_bytes(8, "big")
    return signed(f"3{'a' if proxy else '2'}000{int(notify)}", len(records), nonce, behind)


def register(here, it, nonce, *records, **how):
    check(f"registration {nonce}", here.answer(it, registration(nonce, *records, **how)) is not None, True)


def map_request(nonce, *eids, rlocs, letters=""):
    """A Map-Request for these EIDs, with ITR-RLOCs and the bits of these letters."""
    flags = [int(letter in letters) for letter in LETTERS]
    return write_request(Request(flags, nonce, b"", [packed(it) for it in rlocs], [eid_of(it) for it in eids]))


def encapsulated(message, source, eid, port):
    """A message in an Encapsulated Control Message, from an ITR's address, where it is of the EID's family, and UDP port to an EID."""
    to, _ = eid_of(eid)
    return write_encapsulated(Encapsulated(packed(source) if len(packed(source)) == len(to) else bytes(len(to)), to, port, message))


def asking(nonce, eid, itr, port):
    """An Encapsulated Map-Request of an ITR for an EID."""
    return encapsulated(map_request(nonce, eid, rlocs=[itr]), itr, eid, port)


class Itr:
    """An ITR of ours: a socket at its ITR-RLOC. Each Map-Request has the next nonce."""

    def __init__(self, address, nonce=0x1122334455667700):
        self.address, self.nonce = address, nonce
        self.socket = socket.socket(socket.AF_INET6 if ":" in address else socket.AF_INET, socket.SOCK_DGRAM)
        self.socket.bind((address, 0))
        self.port = self.socket.getsockname()[1]

    def __enter__(self):
        return self

    def __exit__(self, *_):
        self.socket.close()

    def message(self, *eids, rlocs=None, letters=""):
        self.nonce += 1
        return map_request(self.nonce, *eids, rlocs=rlocs or [self.address], letters=letters)

    def asks(self, node, *eids, **how):
        """Asks a node by an Encapsulated Map-Request, whose bytes these are."""
        datagram = encapsulated(self.message(*eids, **how), self.address, eids[0], self.port)
        self.socket.sendto(datagram, (node, PORT))
        return datagram

    def asks_plainly(self, node, *eids, **how):
        """Asks a node by a Map-Request."""
        self.socket.sendto(self.message(*eids, **how), (node, PORT))

    def reply(self, patience=LIMIT):
        """The next Map-Reply without its nonce, in digits, and the node that it comes from; its nonce has to be that of the last question.
        None where none comes within so many seconds."""
        self.socket.settimeout(patience)
        try:
            message, source = self.socket.recvfrom(65535)
        except TimeoutError:
            return None
        check("the nonce, and the port that it comes from", (int.from_bytes(message[4:12], "big"), source[1]), (self.nonce, PORT))
        return (message[:4] + message[12:]).hex(), source[0]

    def asked(self, node, *eids, **how):
        """What comes back."""
        self.asks(node, *eids, **how)
        return self.reply()


def itrs_of(here):
    """ITRs of ours, one after the other: a node sums what it says of one address in a second, so that each asks once where lines count."""
    return (Itr(f"{here.front}{last}") for last in range(30, 100))


def reply_of(*records, probe=False):
    """A Map-Reply as `Itr.reply` gives it."""
    return (bytes([0x28 if probe else 0x20, 0, 0, len(records)]) + b"".join(records)).hex()


def hole(eid, minutes, own=False):
    """The record of a negative Map-Reply."""
    return record(eid, ttl=minutes, act=1, own=own, locators=())


def ask_again(eid, ttl=1440):
    """A record by which an ITR asks again."""
    return record(eid, ttl=ttl, act=2, locators=())


def lines(process, count):
    return [next_line(process) for _ in range(count)]


def counts_of(text):
    """What `counts` tells of a node."""
    return {words: int(number) for words, number in re.findall(r"^counts \S+ (.*) (\d+)$", text, re.M)}


def stamped(it):
    """A socket whose datagrams come with the moment of their arrival, and with the address to which they came."""
    it.setsockopt(socket.SOL_SOCKET, SO_TIMESTAMPNS, 1)
    it.setsockopt(socket.IPPROTO_IP, IP_PKTINFO, 1)
    it.setsockopt(socket.SOL_SOCKET, socket.SO_RCVBUF, 1 << 22)
    return it


def arrivals(it, seconds=0.0):
    """What has come to such a socket, and what comes until nothing does for so many seconds: moments, addresses, and datagrams."""
    found = []
    it.settimeout(seconds)
    with contextlib.suppress(TimeoutError, BlockingIOError):
        while True:
            data, beside, _, _ = it.recvmsg(65535, 256)
            told = {(level, kind): value for level, kind, value in beside}
            at, nanoseconds = TIMESPEC.unpack(told[socket.SOL_SOCKET, SO_TIMESTAMPNS])
            found.append((at + nanoseconds / 1e9, socket.inet_ntoa(PKTINFO.unpack(told[socket.IPPROTO_IP, IP_PKTINFO])[2]), data))
    return found


class Everywhere:
    """A socket at all IPv4 addresses of this machine, with a UDP port: it sends from any of them, and what comes says where it came."""

    def __init__(self, port=0):
        self.socket = stamped(socket.socket(socket.AF_INET, socket.SOCK_DGRAM))
        self.socket.bind(("", port))
        self.port = self.socket.getsockname()[1]

    def __enter__(self):
        return self

    def __exit__(self, *_):
        self.socket.close()

    def send(self, source, data, to):
        """Sends from one of its addresses, given as bytes."""
        self.socket.sendmsg([data], [(socket.IPPROTO_IP, IP_PKTINFO, PKTINFO.pack(0, source, bytes(4)))], 0, (to, PORT))

    def arrivals(self, seconds=0.0):
        return arrivals(self.socket, seconds)


class Sent:
    """What goes out over UDP from an IPv4 address, through any interface, as the system shows it to root (packet(7)). To others it shows
    nothing, and `is_shown` says so."""

    def __init__(self, address):
        try:
            self.socket = socket.socket(socket.AF_PACKET, socket.SOCK_DGRAM, socket.htons(ETH_P_ALL))
        except PermissionError:
            self.socket = None
            return
        self.socket.setsockopt(socket.SOL_SOCKET, SO_RCVBUFFORCE, 1 << 26)
        self.socket.setsockopt(socket.SOL_SOCKET, SO_TIMESTAMPNS, 1)
        # IPv4, UDP, and the address, in the words of the system's filter (BPF).
        self.address = packed(address)
        steps = [(0x30, 0, 0, 0), (0x54, 0, 0, 0xF0), (0x15, 0, 5, 0x40), (0x30, 0, 0, 9), (0x15, 0, 3, 17), (0x20, 0, 0, 12),
                 (0x15, 0, 1, int.from_bytes(self.address, "big")), (0x06, 0, 0, 0x40000), (0x06, 0, 0, 0)]
        code = ctypes.create_string_buffer(b"".join(struct.pack("=HBBI", *step) for step in steps))
        self.socket.setsockopt(socket.SOL_SOCKET, SO_ATTACH_FILTER, struct.pack("@HP", len(steps), ctypes.addressof(code)))
        self.datagrams()

    @property
    def is_shown(self):
        return self.socket is not None

    def __enter__(self):
        return self

    def __exit__(self, *_):
        if self.socket:
            self.socket.close()

    def datagrams(self):
        """What has gone out since the last call: moments, addresses and UDP ports, and the bytes."""
        found = []
        with contextlib.suppress(BlockingIOError):
            while self.socket:
                data, beside, _, (_, _, kind, *_) = self.socket.recvmsg(65575, 128, socket.MSG_DONTWAIT)
                # (What goes out through the loopback interface is shown as it comes in, too.)
                if kind == OUTGOING and data[12:16] == self.address:
                    at, nanoseconds = TIMESPEC.unpack(beside[0][2])
                    found.append((at + nanoseconds / 1e9, socket.inet_ntoa(data[16:20]), int.from_bytes(data[22:24], "big"), data[28:]))
        return found


def most_in_a_window(sends):
    """The most bytes that go out in a window of time, of moments and numbers of bytes."""
    sends = sorted(sends)
    moments, sums = [moment for moment, _ in sends], [0, *itertools.accumulate(count for _, count in sends)]
    return max((sums[bisect.bisect_left(moments, moment + WINDOW)] - sums[place] for place, moment in enumerate(moments)), default=0)


def check_budget(name, sends):
    """Checks that what goes out, given as moments, addresses and bytes, stays within the budget. The most to one of them, and to all."""
    to_each = collections.defaultdict(list)
    for moment, address, data in sends:
        to_each[address].append((moment, len(data)))
    most, to_all = max(map(most_in_a_window, to_each.values()), default=0), most_in_a_window((at, len(data)) for at, _, data in sends)
    check(f"{name}: bytes to one destination in a second", most if most > TO_EACH else TO_EACH, TO_EACH)
    check(f"{name}: bytes to all", to_all if to_all > TO_ALL else TO_ALL, TO_ALL)
    return most, to_all
