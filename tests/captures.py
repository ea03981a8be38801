#!/usr/bin/env -S python3 -B
"""captures.py PROGRAM [TEST ..]
What `lispd read` prints of captures (RFC 9301 section 5): files of both formats, byte orders and each link type that are written here, with
messages of which each word is known, faulty ones and other packets; files that are cut at each byte, are none or can't be read; a schedule
that `lispd play` runs. Where `tcpdump` is there and may capture, what it captures of nodes on loopback; where `tshark` is there, its fields
beside the words. Prints each check that fails, and ends with 1 where one does."""
import errno
import hashlib
import hmac
import ipaddress
import os
import shutil
import signal
import struct
import subprocess
from concurrent.futures import ThreadPoolExecutor
from dataclasses import dataclass
from pathlib import Path

import nodes
from nodes import EXAMPLES, LIMIT, PORT, check, failing, in_words, is_up, map_register, next_line, peer, ran, run_tests, system, until

MICRO, NANO = 0xA1B2C3D4, 0xA1B23C4D
ETHERNET, RAW, COOKED, COOKED_2, ONLY_IPV4, ONLY_IPV6 = 1, 101, 113, 276, 228, 229
# The most bytes of a capture, and the memory that has to be free where one of more is tried.
LONGEST, FREE = 1_073_741_824, 6 * 2**30
# How long a run may take over much, in seconds, and how many runs there are at a time.
SLOW, AT_A_TIME = 10, 8
SECRET, OTHER_SECRET = b"secret", b"another"
SITE, XTR = 1, 10
ROUTER, SERVER, STRANGER = "127.0.0.21", "127.0.0.11", "192.0.2.9"
ROUTER_6, SERVER_6 = "2001:db8::21", "2001:db8::11"
# Two sites: the first is that of the examples; the second one has another secret under the same Key ID, and the first one's under key 3.
CONFIGURATION = (Path(f"{EXAMPLES}/worked.toml").read_text().partition("[[server]]")[0] + f"""
[[site]]
id = "00000000000000ff"
[[site.key]]
id = 1
secret = "{OTHER_SECRET.hex()}"
[[site.key]]
id = 3
secret = "{SECRET.hex()}"
[[site.prefix]]
eid = "10.2.0.0/16"

[[server]]""" + Path(f"{EXAMPLES}/worked.toml").read_text().partition("[[server]]")[2])
SECRETS = {(SITE, 1): SECRET, (255, 1): OTHER_SECRET, (255, 3): SECRET}
TITLE = "# What a capture brought to the nodes of this configuration, by lispd read. Packets have their numbers there.\n"

# ---- messages, with their words


@dataclass(frozen=True)
class Record:
    """A mapping record: its prefix, its TTL in minutes, and the addresses of its locators, each with its four numbers."""
    prefix: str
    ttl: int
    locators: tuple

    def bytes(self):
        address, _, length = self.prefix.partition("/")
        out = struct.pack("!I4BH", self.ttl, len(self.locators), int(length), 0x10, 0, 0) + named(address)
        return out + b"".join(struct.pack("!4BH", *numbers, 1) + named(at) for at, numbers in self.locators)

    def words(self):
        address, _, length = self.prefix.partition("/")
        locators = "".join(f"+{spelled(at)}/{'/'.join(map(str, numbers))}" for at, numbers in self.locators)
        return f" {spelled(address)}/{length}={self.ttl}{locators}"


def named(address):
    """An address behind its family (RFC 9301 section 5.1)."""
    packed = ipaddress.ip_address(address).packed
    return struct.pack("!H", 1 if len(packed) == 4 else 2) + packed


def spelled(address):
    """An address as it is printed: of IPv6 with all its digits."""
    return ipaddress.ip_address(address).exploded


RECORD = Record("10.1.0.0/16", 1440, (("192.0.2.1", (1, 100, 255, 0)),))
RECORDS = (RECORD, Record("10.1.2.0/24", 2**32 - 1, ()),
           Record("2001:db8:1::/48", 0, (("2001:db8::1", (0, 1, 2, 3)), ("192.0.2.7", (255, 255, 255, 255)))))


@dataclass(frozen=True)
class Message:
    """A message: its bytes, and its words."""
    data: bytes
    words: str


def sealed(front, behind, secret):
    """A message with its tag (RFC 9301 sections 5.6 and 12.5, RFC 4868 section 2.3)."""
    return front + hmac.new(secret, front + bytes(16) + behind, hashlib.sha256).digest()[:16] + behind


def checked(tag):
    return f" tag {tag}" if tag else ""


def register(nonce, secret=SECRET, records=(RECORD,), site=SITE, xtr=XTR, key=1, proxy=True, use_ttl=False, want=True, tag=""):
    """A Map-Register (section 5.6), of which this is told of its tag."""
    front = struct.pack("!4BQ2BH", 0x32 | proxy * 8, 0, use_ttl * 8 | want, len(records), nonce, key, 2, 16)
    behind = b"".join(it.bytes() for it in records) + struct.pack("!2QQ", xtr >> 64, xtr & 2**64 - 1, site)
    if not tag:
        known = SECRETS.get((site, key))
        tag = "unknown" if known is None else "checks" if known == secret else "fails"
    bits = " proxy" * proxy + " use-ttl" * use_ttl + " want-notify" * want
    words = f"map-register site {site:016x} xtr {xtr:032x} key {key} nonce {nonce}{bits} tag {tag} records {len(records)}"
    return Message(sealed(front, behind, secret), words + "".join(it.words() for it in records))


def notify(nonce, ack=False, secret=SECRET, records=(RECORD,), key=1, behind=b"", tag=""):
    """A Map-Notify or a Map-Notify-Ack (sections 5.6 and 5.7)."""
    front = struct.pack("!4BQ2BH", 0x50 if ack else 0x40, 0, 0, len(records), nonce, key, 2, 16)
    if not tag:
        site = next((site for (site, of), known in SECRETS.items() if of == key and known == secret), None)
        tag = "fails" if site is None else f"checks site {site:016x}"
    words = f"map-notify{'-ack' * ack} key {key} nonce {nonce} tag {tag} records {len(records)}"
    return Message(sealed(front, b"".join(it.bytes() for it in records) + behind, secret), words + "".join(it.words() for it in records))


def untagged(it):
    """The message as it is told without a configuration."""
    front, _, behind = it.words.partition(" tag ")
    return Message(it.data, f"{front} tag unknown records{behind.partition(' records')[2]}" if behind else front)


GOOD = [
    register(5), register(2**64 - 1, records=RECORDS, proxy=False, use_ttl=True), register(0, want=False, records=()),
    register(7, OTHER_SECRET), register(7, site=2), register(7, key=2), register(7, OTHER_SECRET, site=255), register(7, site=255, key=3),
    register(7, xtr=2**128 - 1, site=2**64 - 1, use_ttl=True), notify(5), notify(6, secret=OTHER_SECRET), notify(6, secret=b"neither"),
    notify(8, key=3), notify(8, key=9), notify(9, records=RECORDS, behind=bytes(24)), notify(2**63, ack=True), notify(3, ack=True, secret=b"x"),
    Message(bytes.fromhex("10000001") + bytes(8), "map-request"), Message(bytes.fromhex("20000001"), "map-reply"),
    Message(b"\x80\0\0\0\x45", "encapsulated"), Message(b"\x1f", "map-request"),
]


def with_byte(data, at, value):
    return data[:at] + bytes([value]) + data[at + 1:]


def unread(data, number, at, record=""):
    return Message(data, f"can't be read: read {number}{record} at byte {at}")


REGISTER, NOTIFY = register(5).data, notify(5).data
BAD = [
    unread(b"", 1, 0), unread(b"\x30", 1, 1), unread(REGISTER[:15], 1, 15), unread(REGISTER[:31], 1, 31), unread(with_byte(REGISTER, 0, 0x6A), 10, 0),
    unread(with_byte(REGISTER, 0, 0), 10, 0), unread(with_byte(REGISTER, 13, 1), 11, 13), unread(with_byte(REGISTER, 15, 20), 12, 14),
    unread(with_byte(REGISTER, 0, 0x38), 13, 0), unread(REGISTER + b"\0", 14, 32 + 28 + 24), unread(NOTIFY + b"\0", 14, 32 + 28),
    unread(with_byte(REGISTER, 3, 9)[:32 + 28], 15, 32 + 28, " record 1 fault 1"), unread(REGISTER[:32 + 27], 15, 32, " record 0 fault 1"),
    unread(with_byte(REGISTER, 32 + 11, 9), 15, 32, " record 0 fault 2"), unread(with_byte(REGISTER, 32 + 5, 33), 15, 32, " record 0 fault 3"),
    unread(REGISTER[:-1], 1, len(REGISTER) - 1),
]

# ---- captures


def udp(payload, source=PORT, destination=PORT):
    return struct.pack("!4H", source, destination, 8 + len(payload), 0) + payload


def ip(source, destination, data, protocol=17, flags=0):
    """A packet of IP (RFC 791, RFC 8200)."""
    source, destination = (ipaddress.ip_address(it).packed for it in (source, destination))
    if len(source) == 4:
        return struct.pack("!2B3H2BH", 0x45, 0, 20 + len(data), 1, flags, 64, protocol, 0) + source + destination + data
    return struct.pack("!IHBB", 6 << 28, len(data), protocol, 64) + source + destination + data


def framed(link, packet):
    """A packet as it is captured on a link."""
    kind = struct.pack("!H", 0x0800 if packet[0] >> 4 == 4 else 0x86DD)
    return {ETHERNET: bytes(12) + kind, COOKED: bytes(14) + kind, COOKED_2: kind + bytes(18)}.get(link, b"") + packet


def pcap(link, packets, order="<", magic=MICRO):
    """A file of pcap, version 2.4, with packets, each after its time in microseconds; one of less than was sent says how much that was."""
    out = struct.pack(order + "I2HiIII", magic, 2, 4, 0, 0, 262_144, link)
    for time, packet, *sent in packets:
        part = time % 10**6 * (1000 if magic == NANO else 1)
        out += struct.pack(order + "4I", time // 10**6, part, len(packet), *(sent or [len(packet)])) + packet
    return out


def block(order, kind, body):
    body += bytes(-len(body) % 4)
    return struct.pack(order + "2I", kind, 12 + len(body)) + body + struct.pack(order + "I", 12 + len(body))


def pcapng(link, packets, order="<"):
    """A section of pcapng with packets; one without a time is a Simple Packet Block."""
    out = block(order, 0x0A0D0D0A, struct.pack(order + "I2Hq", 0x1A2B3C4D, 1, 0, -1)) + block(order, 1, struct.pack(order + "HHI", link, 0, 0))
    for time, packet in packets:
        if time is None:
            out += block(order, 3, struct.pack(order + "I", len(packet)) + packet)
        else:
            head = struct.pack(order + "5I", 0, time >> 32, time & 2**32 - 1, len(packet), len(packet))
            out += block(order, 6, head + packet + bytes(-len(packet) % 4))
    return out


def line(number, time, source, destination, words):
    """The line of a message, captured so many microseconds after the first packet."""
    return f"{number} {'-' if time is None else f'{time // 10**6}.{time % 10**6:06}'} {spelled(source)} > {spelled(destination)} {words}\n"


class Files:
    """The files of a test: a configuration of these nodes, and captures."""

    def __init__(self, here):
        self.folder = here.folder
        self.config = self.put("lispd.toml", CONFIGURATION.encode())

    def put(self, name, data):
        path = f"{self.folder}/{name}"
        Path(path).write_bytes(data)
        return path


def from_router(messages):
    """What a router sends a Map-Server, a millisecond apart, and the lines of it."""
    return ([(10**15 + 1000 * at, ip(ROUTER, SERVER, udp(it.data))) for at, it in enumerate(messages)],
            "".join(line(at + 1, 1000 * at, ROUTER, SERVER, it.words) for at, it in enumerate(messages)))


# ---- tests: lines


def each_message(here):
    """Each word, with the configuration and without; by a file and by standard input."""
    files = Files(here)
    for name, messages in (("good", GOOD), ("bad", BAD)):
        packets, lines = from_router(messages)
        capture = files.put(name, pcap(RAW, packets))
        check(f"{name} messages", ran("read", capture, files.config), (0, lines, ""))
        check(f"{name} messages without secrets", ran("read", capture), (0, from_router(list(map(untagged, messages)))[1], ""))
        with open(capture, "rb") as data:
            check(f"{name} messages by standard input", ran("read", "-", files.config, stdin=data), (0, lines, ""))
        with open(files.config, "rb") as data:
            check(f"{name} messages, a configuration by standard input", ran("read", capture, "-", stdin=data), (0, lines, ""))


def each_form(here):
    """The same messages in each format, byte order and link type, over both families."""
    files = Files(here)
    for source, destination in ((ROUTER, SERVER), (ROUTER_6, SERVER_6)):
        only = ONLY_IPV4 if ":" not in source else ONLY_IPV6
        for link in (ETHERNET, RAW, 12, COOKED, COOKED_2, only):
            packets = [(at, framed(link, ip(source, destination, udp(it.data)))) for at, it in ((7_000_250, GOOD[0]), (7_999_999, GOOD[9]))]
            lines = line(1, 0, source, destination, GOOD[0].words) + line(2, 999_749, source, destination, GOOD[9].words)
            for order in "<>":
                for name, data in (("pcap", pcap(link, packets, order)), ("nanoseconds", pcap(link, packets, order, NANO)),
                                   ("pcapng", pcapng(link, packets, order))):
                    capture = files.put("capture", data)
                    check(f"{name} {order} {link} {source}", ran("read", capture, files.config), (0, lines, ""))


def other_packets(here):
    """Other packets are counted and not told, and such as may be messages are told though they can't be read."""
    files = Files(here)
    whole, fragment = ip(ROUTER, SERVER, udp(REGISTER)), ip(ROUTER, SERVER, udp(REGISTER), flags=0x2000)
    packets = [
        (2 * 10**6, ip(ROUTER, SERVER, udp(REGISTER, 4341, 4341))), (3 * 10**6, ip(ROUTER, SERVER, bytes(20), protocol=6)),
        (4 * 10**6, ip(ROUTER, SERVER, udp(REGISTER, 40000, PORT))), (5 * 10**6, ip(SERVER, ROUTER, udp(NOTIFY, PORT, 40000))), (1, whole),
        (6 * 10**6, fragment), (7 * 10**6, whole[:50], len(whole)), (8 * 10**6, with_byte(whole, 25, 1)),
    ]
    lines = (line(3, 2 * 10**6, ROUTER, SERVER, GOOD[0].words) + line(4, 3 * 10**6, SERVER, ROUTER, GOOD[9].words)
             + line(5, 0, ROUTER, SERVER, GOOD[0].words) + "6 4.000000 can't be read: an IP fragment\n"
             "7 5.000000 can't be read: less was captured than was sent\n8 6.000000 can't be read: a header says what can't be\n")
    check("other packets", ran("read", files.put("pcap", pcap(RAW, packets)), files.config), (0, lines, ""))
    check("no packets", ran("read", files.put("none", pcap(RAW, [])), files.config), (0, "", ""))
    # Two sections: a packet without a time, and the times of the second one go on from the first one's.
    sections = pcapng(RAW, [(None, whole), (10**6, whole)]) + pcapng(ETHERNET, [(10**6 + 1, framed(ETHERNET, whole))], ">")
    lines = "".join(line(number, time, ROUTER, SERVER, GOOD[0].words) for number, time in ((1, None), (2, 0), (3, 1)))
    check("two sections", ran("read", files.put("pcapng", sections), files.config), (0, lines, ""))
    lost = pcapng(RAW, [(1, whole)]) + bytes(12)
    told = line(1, 0, ROUTER, SERVER, GOOD[0].words) + "2 - can't be read: it can't be found, nor what follows\n"
    check("what can't be found", ran("read", files.put("lost", lost), files.config), (0, told, ""))


def cut_anywhere(here):
    """A file that is cut at each byte: its number where nothing can be told; else the packets before the cut, and that one is missing."""
    files = Files(here)
    messages = (notify(3, records=()), Message(bytes.fromhex("10000001"), "map-request"))
    packets, _ = from_router(messages)
    lines = [line(at + 1, 1000 * at, ROUTER, SERVER, it.words) for at, it in enumerate(messages)]
    for name, data in (("pcap", pcap(RAW, packets)), ("pcapng", pcapng(RAW, packets))):
        cuts = [files.put(f"{name}-{size}", data[:size]) for size in range(len(data) + 1)]
        with ThreadPoolExecutor(AT_A_TIME) as side:
            runs = list(side.map(lambda path: ran("read", path, files.config), cuts))
        for size, run in enumerate(runs):
            if size < 4:
                wanted = [(2, "", "lispd: fault 143\n")]
            elif name == "pcap" and size < 24:
                wanted = [(2, "", "lispd: fault 144\n")]
            else:
                wanted = [(0, "".join(lines[:count]) + end, "") for count, end in ends(name, data, size)]
            if run not in wanted:
                check(f"{name} of {size} bytes", run, wanted)
        check(f"{name} as a whole", runs[-1], (0, "".join(lines), ""))


def ends(name, data, size):
    """How many packets of two are whole in the first bytes of such a capture, and what is told behind them."""
    order = "<"
    at, whole, count = (24, 24, 0) if name == "pcap" else (0, 0, 0)
    while at < len(data):
        if name == "pcap":
            step, is_packet = 16 + struct.unpack(order + "I", data[at + 8:at + 12])[0], True
        else:
            kind, step = struct.unpack(order + "2I", data[at:at + 8])
            is_packet = kind == 6
        at += step
        if at <= size:
            whole, count = at, count + is_packet
    if whole == size:
        return [(count, "")]
    return [(count, f"{count + 1} - can't be read: the capture ends in it\n")]


# ---- tests: faults


def faults(here):
    """What is wrong, by its number, its status and its words."""
    files = Files(here)
    capture = files.put("capture", pcap(RAW, from_router(GOOD)[0]))
    none, wrong = files.put("none", b"\x1f\x8b\x08\0" + bytes(99)), files.put("wrong.toml", CONFIGURATION.replace('id = 1', 'id = 256').encode())
    folder, missing = here.folder, f"{here.folder}/missing"
    unknown = "this is no capture: neither pcap nor pcapng"
    cases = [
        (("read", capture, "--schedule"), (2, 98, "--schedule is taken only with CONFIG")),
        (("read", "-", "-"), (2, 98, "`-` is taken as FILE or as CONFIG, not as both")),
        (("read", missing), (1, 93, f"{missing}: can't be opened: {system(errno.ENOENT)}")),
        (("read", capture, missing), (1, 93, f"{missing}: can't be opened: {system(errno.ENOENT)}")),
        (("read", folder), (1, 87, f"{folder}: can't be read: {system(errno.EISDIR)}")),
        (("read", capture, folder), (1, 87, f"{folder}: can't be read: {system(errno.EISDIR)}")),
        (("read", none), (2, 143, unknown)), (("read", none, files.config), (2, 143, unknown)), (("read", "/dev/null"), (2, 143, unknown)),
        (("read", none, files.config, "--schedule"), (2, 143, unknown)),
        (("read", files.put("short", pcap(RAW, [])[:23])), (2, 144, "the capture ends in its header")),
        (("read", capture, files.put("latin.toml", b"\xff")), (2, 95, "the input is not UTF-8")),
    ]
    for words, wanted in cases:
        check(f"{words[1:]} in words", in_words(*words), wanted)
        check(f"{words[1:]}", ran(*words), (wanted[0], "", f"lispd: fault {wanted[1]}\n"))
    check("a faulty configuration", ran("read", capture, wrong)[0::2], ran("check", wrong)[0:1] + ("lispd: fault 22\n",))
    with open("/dev/full", "w", encoding="ascii") as full:
        for more in ((), (files.config,), (files.config, "--schedule")):
            got = ran("read", capture, *more, stdout=full)
            check(f"a full output {more}", got, (1, None, "lispd: fault 88\n"))
    got = ran("read", capture, env=failing("read", path="/capture"))
    check("a read that fails", (got[0], got[2].removeprefix("!")), (1, "lispd: fault 87\n"))
    got = ran("read", capture, files.config, env=failing("scant", path="/capture"))
    check("a read of one byte", (got[0], got[1]), (0, from_router(GOOD)[1]))


def too_long(here):
    """A capture of more bytes than are read; one of so many is (both have nothing on the disk)."""
    free = int(next(it for it in Path("/proc/meminfo").read_text().splitlines() if it.startswith("MemAvailable")).split()[1]) * 1024
    if free < FREE:
        print("captures.py: little memory is free here: captures of 1 GiB weren't tried")
        return
    path = f"{here.folder}/long"
    for size, wanted in ((LONGEST + 1, (1, "", "lispd: fault 89\n")), (LONGEST, (2, "", "lispd: fault 143\n"))):
        with open(path, "wb") as file:
            file.truncate(size)
        if (got := ran("read", path, patience=SLOW)) == "hangs":
            print(f"captures.py: the program is slow here: a capture of {size} bytes wasn't read in {SLOW} s")
            return
        check(f"{size} bytes", got, wanted)


# ---- tests: schedules


def scheduled(entries):
    return CONFIGURATION + "\n---\n" + TITLE + entries


def a_schedule(here):
    """The schedule of a capture, and what `lispd play` makes of it."""
    files = Files(here)
    first, second = register(5), register(9, secret=OTHER_SECRET, tag="fails")
    packets = [
        (10**9, ip(ROUTER, SERVER, udp(first.data))), (10**9 + 400, ip(SERVER, ROUTER, udp(NOTIFY))),
        (10**9 + 1_500_900, ip(ROUTER, SERVER, udp(first.data))), (10**9 + 1_501_000, ip(ROUTER, STRANGER, udp(first.data))),
        (10**9 + 2_000_999, ip(ROUTER, SERVER, udp(second.data))), (10**9 + 2_000_999, ip(ROUTER, SERVER, b"", flags=0x2000)),
        (10**9 + 2_000_999, ip(ROUTER, SERVER, udp(b"", 1, 2))), (10**9 + 1_000, ip(ROUTER, SERVER, udp(b"", 1))),
    ]
    entries = (f"# packet 1\njunk s1 {ROUTER} {first.data.hex()}\n# packet 2\njunk r1 {SERVER} {NOTIFY.hex()}\n"
               f"# packet 3\ntick 1500\njunk s1 {ROUTER} {first.data.hex()}\n"
               f"tick 1\n# packet 4 left out: no node of the configuration has the address {STRANGER}\n"
               f"# packet 5\ntick 499\njunk s1 {ROUTER} {second.data.hex()}\n# packet 6 left out: an IP fragment\n"
               f"# packet 8\njunk s1 {ROUTER} -\n")
    capture = files.put("capture", pcap(RAW, packets))
    check("a schedule", ran("read", capture, files.config, "--schedule"), (0, scheduled(entries), ""))
    played = ["accepted s1 r1 key 1 nonce 5 datagram 0", "refused r1 47 latest 0", "tick 1500 now 1500", "refused s1 57 saved 5", "tick 1 now 1501",
              "tick 499 now 2000", "refused s1 53", "refused s1 50 read 1"]
    check("what it comes to", piped(capture, files.config), (0, "".join(f"{it}\n" for it in played), ""))
    with open(capture, "rb") as data:
        check("by standard input", ran("read", "-", files.config, "--schedule", stdin=data), (0, scheduled(entries), ""))
    check("no packets", ran("read", files.put("none", pcap(RAW, [])), files.config, "--schedule"), (0, scheduled(""), ""))
    check("no packets are played", piped(f"{here.folder}/none", files.config), (0, "", ""))
    # A configuration whose last line has no end.
    unended = files.put("unended.toml", CONFIGURATION.rstrip("\n").encode())
    check("a line without its end", piped(capture, unended), (0, "".join(f"{it}\n" for it in played), ""))


def piped(capture, config):
    """What `lispd play` prints of the schedule that `lispd read` prints."""
    line = '"$0" read "$1" "$2" --schedule | "$0" play -'
    done = subprocess.run(["sh", "-c", line, nodes.program, capture, config], stdin=subprocess.DEVNULL, capture_output=True, text=True,
                          timeout=LIMIT, check=False)
    return done.returncode, done.stdout, done.stderr


# ---- tests: tcpdump and tshark


def tcpdump(here, name, *words):
    """tcpdump of this network's port, once it captures; None where it may not."""
    process = subprocess.Popen(["tcpdump", *words, "-U", "-n", "-w", f"{here.folder}/{name}", f"udp port {PORT} and net {here.front}0/24"],
                               stdin=subprocess.DEVNULL, stdout=subprocess.DEVNULL, stderr=subprocess.PIPE, text=True)
    here.processes.append(process)
    for it in process.stderr:
        if "listening on" in it:
            return process
    return None


def of_nodes(here):
    """What nodes on loopback send, as Ethernet and as Linux cooked, and a replay of ours."""
    if not shutil.which("tcpdump"):
        print("captures.py: no tcpdump here: nothing was captured")
        return
    kinds = {"lo": ("-i", "lo"), "any": ("-i", "any"), "sll": ("-i", "any", "-y", "LINUX_SLL")}
    captures = {name: tcpdump(here, name, *words) for name, words in kinds.items()}
    if not all(captures.values()):
        print("captures.py: tcpdump may not capture here: nothing was captured")
        return
    here.start(*here.words("server", "s1"))
    is_up(here.s1)
    router = here.start(*here.words("router", "r1"))
    while (told := next_line(router)) and not told.startswith("counted r1 s1"):
        pass
    with peer(f"{here.front}99") as it:
        it.sendto(map_register(1), (here.s1, PORT))
    until(lambda: all(Path(f"{here.folder}/{name}").read_bytes().count(map_register(1)[32:]) >= 1 for name in kinds))
    until(lambda: all(here.front + "99 >" in ran("read", f"{here.folder}/{name}", here.config)[1] for name in kinds), 5)
    for process in captures.values():
        process.send_signal(signal.SIGINT)
        process.wait(LIMIT)
    record = "10.1.0.0/16=1440+192.0.2.1/1/100/255/0"
    who = f"map-register site {SITE:016x} xtr {XTR:032x} key 1 nonce 1"
    wanted = [f"{here.r1} > {here.s1} {who} proxy want-notify tag checks records 1 {record}",
              f"{here.s1} > {here.r1} map-notify key 1 nonce 1 tag checks site {SITE:016x} records 1 {record}",
              f"{here.front}99 > {here.s1} {who} proxy want-notify tag checks records 1 {record}"]
    for name in kinds:
        status, lines, error = ran("read", f"{here.folder}/{name}", here.config)
        check(f"the capture {name}", (status, error), (0, ""))
        told = [it.split(" ", 2)[2] for it in lines.splitlines()]
        check(f"what {name} has of s1", [it for it in told if here.s1 in it.split(" map-")[0]], wanted)
        status, played, error = piped(f"{here.folder}/{name}", here.config)
        check(f"what {name} comes to", (status, error, [it for it in played.splitlines() if " s1 " in it]),
              (0, "", ["accepted s1 r1 key 1 nonce 1 datagram 0", "refused s1 57 saved 1"]))
        beside_tshark(f"{here.folder}/{name}", lines)


FIELDS = ("frame.number", "ip.src", "ipv6.src", "ip.dst", "ipv6.dst", "lisp.type", "lisp.nonce", "lisp.keyid", "lisp.records", "lisp.auth",
          "udp.payload")
KINDS = {"3": "map-register", "4": "map-notify", "5": "map-notify-ack"}


def beside_tshark(path, lines):
    """What tshark reads of a capture's messages, beside the words; the tags, reckoned over what it has of the bytes."""
    if not shutil.which("tshark"):
        print("captures.py: no tshark here: nothing was compared with it")
        return
    names = [word for field in FIELDS for word in ("-e", field)]
    done = subprocess.run(["tshark", "-n", "-r", path, "-Y", "lisp", "-T", "fields", "-E", "occurrence=f", *names], capture_output=True, text=True,
                          timeout=LIMIT, check=False)
    got = [told_by_tshark(it.split("\t")) for it in done.stdout.splitlines()]
    check(f"how many messages tshark has of {path}", (done.returncode, len(got)), (0, len(lines.splitlines())))
    check(f"tshark over {path}", got, [told_here(*it) for it in zip(lines.splitlines(), got)])


def told_by_tshark(fields):
    """What tshark tells of a message; of a Map-Notify-Ack the kind alone. To its version 4.0 the Key ID stands before the Algorithm ID."""
    number, ipv4, ipv6, to_ipv4, to_ipv6, kind, nonce, key, records, tag, payload = fields
    front = (int(number), spelled(ipv4 or ipv6), spelled(to_ipv4 or to_ipv6), KINDS[kind])
    if not nonce:
        return front
    payload, tag = bytes.fromhex(payload.replace(":", "")), bytes.fromhex(tag.replace(":", ""))
    is_ours = hmac.new(SECRET, payload[:16] + bytes(16) + payload[32:], hashlib.sha256).digest()[:16] == tag
    return (*front, int(nonce, 0), int(key[:4], 0), int(records), is_ours)


def told_here(text, of_tshark):
    """The same of a line, as far as tshark tells it."""
    number, _, source, _, destination, kind, *rest = text.split()
    behind = {word: rest[at + 1] for at, word in enumerate(rest[:-1])}
    told = (int(number), source, destination, kind, int(behind["nonce"]), int(behind["key"]), int(behind["records"]), behind["tag"] == "checks")
    return told[:len(of_tshark)]


def beside_another_reader(here):
    """Our messages of the site's first key, as tshark reads them in both formats."""
    files = Files(here)
    messages = [it for it in GOOD if " key 1 " in it.words and f" site {255:016x}" not in it.words and " tag unknown" not in it.words]
    packets = [(at, framed(ETHERNET, ip(source, destination, udp(it.data)))) for at, it in enumerate(messages)
               for source, destination in ((ROUTER, SERVER), (ROUTER_6, SERVER_6))]
    for name, data in (("pcap", pcap(ETHERNET, packets)), ("pcapng", pcapng(ETHERNET, packets, ">"))):
        capture = files.put(name, data)
        status, lines, error = ran("read", capture, files.config)
        check(f"{name}", (status, len(lines.splitlines()), error), (0, len(packets), ""))
        beside_tshark(capture, lines)


if __name__ == "__main__":
    run_tests([each_message, each_form, other_packets, cut_anywhere, faults, too_long, a_schedule, of_nodes, beside_another_reader])
