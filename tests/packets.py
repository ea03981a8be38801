#!/usr/bin/env -S python3 -B
"""packets.py PROGRAM SEED COUNT
Compares the packets that PROGRAM (crates/lisp_readings) reads of captures with those that a slow reader takes, which follows the two formats
(draft-ietf-opsawg-pcap, draft-ietf-opsawg-pcapng), RFC 791, RFC 768, RFC 8200 and IEEE 802.1Q field by field. The captures are samples of
each format, byte order, link type and header, each cut of some of them and each change of a byte; and COUNT that are drawn from SEED, each
as it is and with one change. Where `tshark` is installed, it reads some that are plain, and its fields are compared. Prints each capture
that differs, up to 20, and ends with 1 where one does."""
import ipaddress
import os
import random
import shutil
import struct
import subprocess
import sys
import tempfile
from collections import Counter
from dataclasses import dataclass

LIMIT, AT_ONCE = 20, 500
UNKNOWN, SHORT = "unknown", "short"
CUT, DAMAGED, FRAGMENT, OTHER, TRUNCATED, LOST = "cut", "damaged", "fragment", "other", "truncated", "lost"
SECTION, DESCRIPTION, SIMPLE, ENHANCED = 0x0A0D0D0A, 1, 3, 6
MAGIC, MICRO, NANO = 0x1A2B3C4D, 0xA1B2C3D4, 0xA1B23C4D
ETHERNET, RAWS, COOKED, COOKED_2, IPV4, IPV6 = 1, (101, 12, 14), 113, 276, 228, 229
TAGS = (0x8100, 0x88A8)

# ---- the slow reader


class Unread(Exception):
    """Why a packet has no datagram."""


class Ends(Exception):
    """Why nothing follows."""


def need(holds, why, kind=Unread):
    if not holds:
        raise kind(why)


def udp_of(source, destination, payload):
    """The datagram of RFC 768, as it is printed."""
    need(len(payload) >= 8, DAMAGED)
    source_port, destination_port, length, _ = struct.unpack("!4H", payload[:8])
    need(8 <= length <= len(payload), DAMAGED)
    return f"{source.hex()} {source_port} {destination.hex()} {destination_port} {payload[8:length].hex()}"


def ipv4_of(data):
    need(len(data) >= 20, CUT)
    total, flags = struct.unpack("!2xH2xH", data[:8])
    header = (data[0] & 15) * 4
    need(data[0] >> 4 == 4 and header >= 20, DAMAGED)
    need(data[9] == 17, OTHER)
    need(not flags & 0x3FFF, FRAGMENT)
    need(total >= header, DAMAGED)
    need(total <= len(data), CUT)
    return udp_of(data[12:16], data[16:20], data[header:total])


def ipv6_of(data):
    need(len(data) >= 40, CUT)
    need(data[0] >> 4 == 6, DAMAGED)
    length, following = struct.unpack("!HB", data[4:7])
    need(following in (0, 17, 43, 44, 60), OTHER)
    need(40 + length <= len(data), CUT)
    rest, passed = data[40:40 + length], 0
    while following in (0, 43, 60) and passed < 8:
        need(len(rest) >= 8, DAMAGED)
        size = 8 + 8 * rest[1]
        need(len(rest) >= size, DAMAGED)
        following, rest, passed = rest[0], rest[size:], passed + 1
    need(following != 44, FRAGMENT)
    need(following == 17, OTHER)
    return udp_of(data[8:24], data[24:40], rest)


def ip_of(data):
    need(data, CUT)
    version = data[0] >> 4
    need(version in (4, 6), OTHER)
    return ipv4_of(data) if version == 4 else ipv6_of(data)


def network_of(kind, data):
    for _ in range(2):
        if kind in TAGS:
            need(len(data) >= 4, CUT)
            kind, data = struct.unpack("!2xH", data[:4])[0], data[4:]
    need(kind in (0x0800, 0x86DD), OTHER)
    return ipv4_of(data) if kind == 0x0800 else ipv6_of(data)


def typed(data, size, at):
    need(len(data) >= size, CUT)
    return network_of(struct.unpack("!H", data[at:at + 2])[0], data[size:])


def frame_of(link, data, original):
    """What is printed for a frame, of which so many bytes were sent."""
    readers = {ETHERNET: lambda: typed(data, 14, 12), COOKED: lambda: typed(data, 16, 14), COOKED_2: lambda: typed(data, 20, 0),
               IPV4: lambda: ipv4_of(data), IPV6: lambda: ipv6_of(data), **{raw: lambda: ip_of(data) for raw in RAWS}}
    try:
        need(link in readers, OTHER)
        return readers[link]()
    except Unread as why:
        return DAMAGED if str(why) == CUT and len(data) >= original else str(why)


def micros(ticks, resolution):
    """Microseconds of so many ticks, where 64 bits hold them and the ticks of a second."""
    second = (2 if resolution & 0x80 else 10) ** (resolution & 0x7F)
    whole = ticks * 10**6 // second
    return whole if second < 2**64 and whole < 2**64 else "-"


def read_pcap(data, order, resolution):
    if len(data) < 24:
        return SHORT
    link, at, out = struct.unpack(order + "I", data[20:24])[0] & 0xFFFF, 24, []
    while at < len(data):
        number = len(out) + 1
        if len(data) - at < 16:
            out.append(f"{number} - {TRUNCATED}")
            break
        seconds, fraction, captured, original = struct.unpack(order + "4I", data[at:at + 16])
        if captured > len(data) - at - 16:
            out.append(f"{number} - {TRUNCATED}")
            break
        time = micros(seconds * 10**resolution + fraction, resolution)
        out.append(f"{number} {time} {frame_of(link, data[at + 16:at + 16 + captured], original)}")
        at += 16 + captured
    return "".join(it + ";" for it in out)


def resolution_of(options, order):
    while len(options) >= 4:
        code, length = struct.unpack(order + "2H", options[:4])
        size = 4 + length + -length % 4
        if size > len(options) or code == 0:
            break
        if code == 9 and length == 1:
            return options[4]
        options = options[size:]
    return 6


class Sections:
    """A reader of pcapng."""

    def __init__(self, data):
        self.data, self.out, self.order, self.interfaces = data, [], ">", []

    def read(self):
        while self.data:
            try:
                self.block()
            except Ends as why:
                self.put("-", str(why))
                break
        return "".join(it + ";" for it in self.out)

    def put(self, time, text):
        self.out.append(f"{len(self.out) + 1} {time} {text}")

    def block(self):
        data = self.data
        need(len(data) >= 12, TRUNCATED, Ends)
        order, begins = self.order, data[:4] == struct.pack(">I", SECTION)
        if begins:
            orders = [it for it in "><" if data[8:12] == struct.pack(it + "I", MAGIC)]
            need(orders, LOST, Ends)
            order = orders[0]
        kind, length = struct.unpack(order + "2I", data[:8])
        need(length >= 12, LOST, Ends)
        need(length <= len(data), TRUNCATED, Ends)
        need(data[length - 4:length] == data[4:8], LOST, Ends)
        body = data[8:length - 4]
        if begins:
            self.order, self.interfaces = order, []
        elif kind == DESCRIPTION:
            need(len(body) >= 8, LOST, Ends)
            link, snap = struct.unpack(order + "H2xI", body[:8])
            self.interfaces.append((link, snap, resolution_of(body[8:], order)))
        elif kind in (ENHANCED, SIMPLE):
            try:
                self.put(*(self.enhanced if kind == ENHANCED else self.simple)(body))
            except Unread as why:
                self.put("-", str(why))
        self.data = data[length:]

    def interface(self, number):
        need(number < len(self.interfaces), DAMAGED)
        return self.interfaces[number]

    def enhanced(self, body):
        need(len(body) >= 20, DAMAGED)
        number, high, low, captured, original = struct.unpack(self.order + "5I", body[:20])
        link, _, resolution = self.interface(number)
        need(captured <= len(body) - 20, DAMAGED)
        return micros(high << 32 | low, resolution), frame_of(link, body[20:20 + captured], original)

    def simple(self, body):
        need(len(body) >= 4, DAMAGED)
        (original,) = struct.unpack(self.order + "I", body[:4])
        link, snap, _ = self.interface(0)
        captured = min(original, snap or original)
        need(captured <= len(body) - 4, DAMAGED)
        return "-", frame_of(link, body[4:4 + captured], original)


def read(data):
    """What is to be printed for a capture."""
    if data[:4] == struct.pack(">I", SECTION):
        return Sections(data).read()
    for order in "><":
        for magic, resolution in ((MICRO, 6), (NANO, 9)):
            if data[:4] == struct.pack(order + "I", magic):
                return read_pcap(data, order, resolution)
    return UNKNOWN


# ---- packets that are written


@dataclass
class Packet:
    """A frame, and what is known of how it was captured."""
    link: int
    frame: bytes
    ticks: int
    captured: int


def udp(draw, payload):
    length = 8 + len(payload)
    ports = [draw.choice((4342, 4342, 4341, 53, 40000)) for _ in range(2)]
    return struct.pack("!4H", *ports, length if draw.random() < .9 else draw.randrange(65536), draw.randrange(65536)) + payload


def ipv4(draw, payload, protocol=17):
    options = draw.randbytes(4 * draw.choice((0, 0, 0, 1, 10)))
    flags = draw.choice((0, 0, 0x4000, 0x8000)) if draw.random() < .9 else draw.choice((0x2000, 1, 0x1FFF, 0x2001))
    total = 20 + len(options) + len(payload)
    total = total if draw.random() < .95 else draw.randrange(total + 4)
    return struct.pack("!2B3H2BH", 0x45 + len(options) // 4, 0, total, draw.randrange(65536), flags, 64, protocol,
                       draw.randrange(65536)) + draw.randbytes(8) + options + payload


def ipv6(draw, payload, protocol=17):
    kinds = [draw.choice((0, 43, 60)) for _ in range(draw.choice((0, 0, 0, 1, 2, 8, 9)))] + [protocol]
    parts = []
    for following in kinds[1:]:
        words = draw.choice((0, 0, 1, 3))
        parts.append(bytes([following, words]) + draw.randbytes(6 + 8 * words))
    payload = b"".join(parts) + payload
    length = len(payload) if draw.random() < .95 else draw.randrange(len(payload) + 4)
    return struct.pack("!IHBB", 6 << 28 | draw.randrange(1 << 28), length, kinds[0], 64) + draw.randbytes(32) + payload


def draw_ip(draw):
    """An IP datagram, and its EtherType."""
    payload = udp(draw, draw.randbytes(draw.choice((0, 1, 12, 40, 80))))
    protocol = 17 if draw.random() < .9 else draw.choice((6, 44, 50, 58))
    return (ipv4(draw, payload, protocol), 0x0800) if draw.random() < .5 else (ipv6(draw, payload, protocol), 0x86DD)


def draw_frame(draw, link):
    data, kind = draw_ip(draw)
    if link in (ETHERNET, COOKED, COOKED_2):
        if draw.random() < .05:
            kind = draw.choice((0x0806, 0x05DC, 0x9100))
        for _ in range(draw.choice((0, 0, 0, 1, 2, 3))):
            data, kind = struct.pack("!2H", draw.randrange(4096), kind) + data, draw.choice(TAGS)
        data += draw.randbytes(draw.choice((0, 0, 4, 18)))
    heads = {ETHERNET: lambda: draw.randbytes(12) + struct.pack("!H", kind), COOKED: lambda: draw.randbytes(14) + struct.pack("!H", kind),
             COOKED_2: lambda: struct.pack("!H", kind) + draw.randbytes(18)}
    return heads.get(link, lambda: b"")() + data


LINKS = (ETHERNET, ETHERNET, ETHERNET, COOKED, COOKED_2, *RAWS, IPV4, IPV6, 0, 105)


def draw_packet(draw, link):
    frame = draw_frame(draw, link)
    captured = len(frame) if draw.random() < .85 else draw.randrange(len(frame) + 1)
    ticks = draw.choice((0, 1, draw.randrange(2**32), draw.randrange(2**51), draw.randrange(2**64)))
    return Packet(link, frame, ticks, captured)


def draw_pcap(draw):
    order, magic, link = draw.choice("><"), draw.choice((MICRO, NANO)), draw.choice(LINKS)
    out = struct.pack(order + "I2HiIII", magic, 2, 4, 0, 0, 65535, link | draw.choice((0, 0, 0x14000000)))
    for _ in range(draw.choice((0, 1, 1, 2, 5))):
        it = draw_packet(draw, link)
        fraction = draw.randrange(10**6 if magic == MICRO else 10**9)
        out += struct.pack(order + "4I", draw.randrange(2**32), fraction, it.captured, len(it.frame)) + it.frame[:it.captured]
    return out


def block(order, kind, body):
    body += bytes(-len(body) % 4)
    return struct.pack(order + "2I", kind, 12 + len(body)) + body + struct.pack(order + "I", 12 + len(body))


def section(order):
    return block(order, SECTION, struct.pack(order + "I2Hq", MAGIC, 1, 0, -1))


def option(order, code, value):
    return struct.pack(order + "2H", code, len(value)) + value + bytes(-len(value) % 4)


def draw_options(draw, order):
    options = [option(order, draw.choice((1, 2, 3, 12)), draw.randbytes(draw.randrange(9))) for _ in range(draw.choice((0, 0, 1, 3)))]
    if draw.random() < .6:
        value = bytes([draw.choice((6, 9, 3, 0, 10, 19, 20, 127, 0x80, 0x8A, 0xA0, 0xBF, 0xC0, 0xFF))])
        options.insert(draw.randrange(len(options) + 1), option(order, 9, value if draw.random() < .95 else value * 2))
    if draw.random() < .5:
        options.append(option(order, 0, b""))
    return b"".join(options)


def draw_section(draw):
    order = draw.choice("><")
    out = section(order)
    interfaces = []
    for _ in range(draw.choice((1, 1, 2, 6))):
        if not interfaces or draw.random() < .3:
            link, snap = draw.choice(LINKS), draw.choice((0, 0, 65535, 262144, 60))
            interfaces.append((link, snap))
            out += block(order, DESCRIPTION, struct.pack(order + "HHI", link, 0, snap) + draw_options(draw, order))
        if draw.random() < .2:
            out += block(order, draw.choice((4, 5, 10, 0x80000001)), draw.randbytes(draw.randrange(30)))
        number = draw.randrange(len(interfaces)) if draw.random() < .97 else len(interfaces)
        if draw.random() < .8:
            it = draw_packet(draw, interfaces[number % len(interfaces)][0])
            head = struct.pack(order + "5I", number, it.ticks >> 32, it.ticks & 0xFFFFFFFF, it.captured, len(it.frame))
            packet = it.frame[:it.captured]
            tail = option(order, 2, bytes(4)) + option(order, 0, b"") if draw.random() < .3 else b""
            out += block(order, ENHANCED, head + packet + bytes(-len(packet) % 4) + tail)
        else:
            frame = draw_frame(draw, interfaces[0][0])
            out += block(order, SIMPLE, struct.pack(order + "I", len(frame)) + frame[:interfaces[0][1] or len(frame)])
    return out


def draw_capture(draw):
    if draw.random() < .5:
        return draw_pcap(draw)
    return b"".join(draw_section(draw) for _ in range(draw.choice((1, 1, 2))))


def changed(draw, data):
    """The capture with one change."""
    at = draw.randrange(len(data))
    kind = draw.randrange(4)
    if kind == 0:
        return data[:at]
    if kind == 1:
        return data[:at] + bytes([data[at] ^ 1 << draw.randrange(8)]) + data[at + 1:]
    if kind == 2:
        return data[:at] + draw.randbytes(draw.choice((1, 4))) + data[at:]
    at -= at % 4
    return data[:at] + draw.choice((b"\0\0\0\0", b"\xff\xff\xff\xff", b"\0\0\0\x0c", b"\x0c\0\0\0", b"\0\0\0\x04")) + data[at + 4:]


# ---- captures by hand, and what is to be printed for each

ROUTER, SERVER = bytes([10, 0, 0, 21]), bytes([10, 0, 0, 11])
PAYLOAD = bytes.fromhex("3100cafe")
UDP = struct.pack("!4H", 4342, 4342, 12, 0) + PAYLOAD
IN_IPV4 = struct.pack("!2B3H2BH", 0x45, 0, 32, 1, 0, 64, 17, 0) + ROUTER + SERVER + UDP
HOSTS = [bytes.fromhex("20010db8") + bytes(11) + bytes([it]) for it in (1, 2)]
IN_IPV6 = struct.pack("!IHBB", 6 << 28, 12, 17, 64) + HOSTS[0] + HOSTS[1] + UDP
EXTENDED = struct.pack("!IHBB", 6 << 28, 36, 0, 64) + HOSTS[0] + HOSTS[1] + bytes([60, 0]) + bytes(6) + bytes([17, 1]) + bytes(14) + UDP
FRAGMENTED = struct.pack("!IHBB", 6 << 28, 20, 44, 64) + HOSTS[0] + HOSTS[1] + bytes([17, 0, 0, 1]) + bytes(4) + UDP
MACS = bytes(12)
OVER_IPV4, OVER_IPV6 = "0a000015 4342 0a00000b 4342 3100cafe", f"{HOSTS[0].hex()} 4342 {HOSTS[1].hex()} 4342 3100cafe"


def pcap_of(link, frame, order="<", magic=MICRO, cut=0):
    head = struct.pack(order + "I2HiIII", magic, 2, 4, 0, 0, 65535, link)
    return head + struct.pack(order + "4I", 7, 250, len(frame) - cut, len(frame)) + frame[:len(frame) - cut]


def pcapng_of(link, frame, order="<", options=b""):
    return (section(order) + block(order, DESCRIPTION, struct.pack(order + "HHI", link, 0, 0) + options)
            + block(order, ENHANCED, struct.pack(order + "5I", 0, 1, 2, len(frame), len(frame)) + frame))


SAMPLES = [
    (pcap_of(ETHERNET, MACS + b"\x08\0" + IN_IPV4), f"1 7000250 {OVER_IPV4};"),
    (pcap_of(ETHERNET, MACS + b"\x08\0" + IN_IPV4, ">"), f"1 7000250 {OVER_IPV4};"),
    (pcap_of(ETHERNET, MACS + b"\x08\0" + IN_IPV4, "<", NANO), f"1 7000000 {OVER_IPV4};"),
    (pcap_of(ETHERNET, MACS + b"\x08\0" + IN_IPV4, ">", NANO), f"1 7000000 {OVER_IPV4};"),
    (pcap_of(ETHERNET, MACS + b"\x86\xdd" + IN_IPV6), f"1 7000250 {OVER_IPV6};"),
    (pcap_of(ETHERNET, MACS + b"\x81\0\0\x05\x08\0" + IN_IPV4), f"1 7000250 {OVER_IPV4};"),
    (pcap_of(ETHERNET, MACS + b"\x88\xa8\0\x05\x81\0\0\x06\x86\xdd" + IN_IPV6), f"1 7000250 {OVER_IPV6};"),
    (pcap_of(ETHERNET, MACS + b"\x81\0\0\x05\x81\0\0\x05\x81\0\0\x05\x08\0" + IN_IPV4), "1 7000250 other;"),
    (pcap_of(ETHERNET, MACS + b"\x08\x06" + bytes(28)), "1 7000250 other;"),
    (pcap_of(ETHERNET, MACS + b"\x08\0" + IN_IPV4 + bytes(4)), f"1 7000250 {OVER_IPV4};"),
    (pcap_of(ETHERNET, MACS + b"\x08\0" + IN_IPV4 + bytes(4), cut=4), f"1 7000250 {OVER_IPV4};"),
    (pcap_of(ETHERNET, MACS + b"\x08\0" + IN_IPV4, cut=1), "1 7000250 cut;"),
    (pcap_of(ETHERNET, MACS + b"\x08\0" + IN_IPV4[:-1]), "1 7000250 damaged;"),
    (pcap_of(101, IN_IPV4), f"1 7000250 {OVER_IPV4};"), (pcap_of(101, IN_IPV6), f"1 7000250 {OVER_IPV6};"),
    (pcap_of(12, IN_IPV4), f"1 7000250 {OVER_IPV4};"), (pcap_of(14, IN_IPV6), f"1 7000250 {OVER_IPV6};"),
    (pcap_of(IPV4, IN_IPV4), f"1 7000250 {OVER_IPV4};"), (pcap_of(IPV6, IN_IPV6), f"1 7000250 {OVER_IPV6};"),
    (pcap_of(IPV4, IN_IPV6), "1 7000250 damaged;"),
    (pcap_of(COOKED, bytes(14) + b"\x08\0" + IN_IPV4), f"1 7000250 {OVER_IPV4};"),
    (pcap_of(COOKED_2, b"\x86\xdd" + bytes(18) + IN_IPV6), f"1 7000250 {OVER_IPV6};"),
    (pcap_of(105, IN_IPV4), "1 7000250 other;"),
    (pcap_of(101, EXTENDED), f"1 7000250 {OVER_IPV6};"), (pcap_of(101, FRAGMENTED), "1 7000250 fragment;"),
    (pcap_of(101, IN_IPV4[:6] + b"\x20\0" + IN_IPV4[8:]), "1 7000250 fragment;"),
    (pcap_of(101, IN_IPV4[:6] + b"\x40\0" + IN_IPV4[8:]), f"1 7000250 {OVER_IPV4};"),
    (pcap_of(101, IN_IPV4[:6] + b"\0\x01" + IN_IPV4[8:]), "1 7000250 fragment;"),
    (pcap_of(101, IN_IPV4[:9] + b"\x06" + IN_IPV4[10:]), "1 7000250 other;"),
    (pcapng_of(ETHERNET, MACS + b"\x08\0" + IN_IPV4), f"1 4294967298 {OVER_IPV4};"),
    (pcapng_of(ETHERNET, MACS + b"\x08\0" + IN_IPV4, ">"), f"1 4294967298 {OVER_IPV4};"),
    (pcapng_of(101, IN_IPV6, "<", option("<", 9, b"\x09")), f"1 4294967 {OVER_IPV6};"),
    (pcapng_of(101, IN_IPV6, ">", option(">", 2, b"eth0\0") + option(">", 9, b"\x03") + option(">", 0, b"")), f"1 4294967298000 {OVER_IPV6};"),
    (pcapng_of(101, IN_IPV6, "<", option("<", 9, b"\xa0")), f"1 1000000 {OVER_IPV6};"),
    (pcapng_of(101, IN_IPV4) + pcapng_of(101, IN_IPV6, ">"), f"1 4294967298 {OVER_IPV4};2 4294967298 {OVER_IPV6};"),
    (pcapng_of(101, IN_IPV4) + block("<", 5, bytes(16)) + block("<", SIMPLE, struct.pack("<I", 32) + IN_IPV4),
     f"1 4294967298 {OVER_IPV4};2 - {OVER_IPV4};"),
    (b"", UNKNOWN), (b"\x1f\x8b\x08\0", UNKNOWN), (struct.pack("<I", MICRO) + bytes(19), SHORT), (struct.pack("<I", MICRO) + bytes(20), ""),
]

# ---- the program

differ = []


def printed(program, captures):
    text = "".join(f"capture {it.hex()}\n" for it in captures)
    done = subprocess.run([program], input=text, capture_output=True, text=True, timeout=600, check=False)
    if done.returncode or done.stderr:
        sys.exit(f"packets.py: {program} ended with {done.returncode}: {done.stderr[:400]}")
    return done.stdout.splitlines()


def compare(program, captures, wanted):
    for at in range(0, len(captures), AT_ONCE):
        these = captures[at:at + AT_ONCE]
        for data, got, want in zip(these, printed(program, these), wanted[at:at + AT_ONCE], strict=True):
            if got != want:
                differ.append(data)
                if len(differ) <= LIMIT:
                    print(f"packets.py: {data.hex()}: {got!r}, wanted {want!r}", flush=True)


def words_of(line):
    """What the packets of a line are."""
    return [it.split(" ")[2] if it.count(" ") == 2 else "datagram" for it in line.split(";")[:-1]]


# ---- tshark

FIELDS = ("frame.number", "frame.time_epoch", "ip.src", "ipv6.src", "udp.srcport", "ip.dst", "ipv6.dst", "udp.dstport", "udp.payload")


def tshark(data, folder):
    """The packets with UDP that tshark reads in a capture, in our words and without times: fragments and cut packets left out."""
    path = os.path.join(folder, "capture")
    with open(path, "wb") as file:
        file.write(data)
    names = [word for field in FIELDS for word in ("-e", field)]
    done = subprocess.run(["tshark", "-n", "-r", path, "-T", "fields", "-E", "occurrence=f", *names, "-Y", "udp", "-o", "ip.defragment:FALSE",
                           "--disable-protocol", "lisp"], capture_output=True, text=True, timeout=60, check=False)
    if done.returncode:
        sys.exit(f"packets.py: tshark ended with {done.returncode}: {done.stderr[:400]}")
    return done.stdout


def plain(draw):
    """A capture in which all is as it should be: datagrams alone, so that tshark reads each."""
    link, payloads = draw.choice((ETHERNET, COOKED, 101, IPV4, IPV6)), [draw.randbytes(draw.choice((1, 12, 40))) for _ in range(3)]
    frames = []
    for payload in payloads:
        version = {IPV4: 4, IPV6: 6}.get(link) or draw.choice((4, 6))
        inner = struct.pack("!4H", draw.choice((4342, 40000)), 4342, 8 + len(payload), 0) + payload
        if version == 4:
            data = struct.pack("!2B3H2BH", 0x45, 0, 20 + len(inner), 1, 0, 64, 17, 0) + bytes([10, 0, 0, draw.randrange(1, 255)]) + SERVER + inner
        else:
            data = struct.pack("!IHBB", 6 << 28, len(inner), 17, 64) + HOSTS[0] + HOSTS[1] + inner
        kind = struct.pack("!H", 0x0800 if version == 4 else 0x86DD)
        tag = struct.pack("!2H", 0x8100, 5) if link == ETHERNET and draw.random() < .4 else b""
        frames.append({ETHERNET: MACS + tag + kind + data, COOKED: bytes(14) + kind + data}.get(link, data))
    order = draw.choice("<>")
    if draw.random() < .5:
        magic = draw.choice((MICRO, NANO))
        return struct.pack(order + "I2HiIII", magic, 2, 4, 0, 0, 65535, link) + b"".join(
            struct.pack(order + "4I", draw.randrange(2**31), draw.randrange(10**6), len(it), len(it)) + it for it in frames)
    options = option(order, 9, bytes([draw.choice((3, 6, 9))])) + option(order, 0, b"") if draw.random() < .7 else b""
    out = section(order) + block(order, DESCRIPTION, struct.pack(order + "HHI", link, 0, 0) + options)
    for it in frames:
        ticks = draw.randrange(2**40)
        out += block(order, ENHANCED, struct.pack(order + "5I", 0, ticks >> 32, ticks & 0xFFFFFFFF, len(it), len(it)) + it)
    return out


def from_tshark(text):
    """What tshark printed, as it is printed here."""
    out = []
    for line in text.splitlines():
        number, time, *rest = line.split("\t")
        source4, source6, source_port, destination4, destination6, destination_port, payload = rest
        whole, _, fraction = time.partition(".")
        ends = [address(it) for it in (source4 or source6, destination4 or destination6)]
        out.append(f"{number} {int(whole) * 10**6 + int((fraction + '000000')[:6])} {ends[0]} {source_port} {ends[1]} {destination_port} "
                   f"{payload.replace(':', '')}")
    return "".join(it + ";" for it in out)


def address(text):
    return ipaddress.ip_address(text).packed.hex()


def beside_tshark(draw, count):
    if not shutil.which("tshark"):
        print("packets.py: no tshark here: nothing was compared with it")
        return
    with tempfile.TemporaryDirectory() as folder:
        for _ in range(count):
            data = plain(draw)
            got, want = from_tshark(tshark(data, folder)), read(data)
            if got != want:
                differ.append(data)
                print(f"packets.py: tshark: {data.hex()}: {got!r}, here {want!r}", flush=True)


def main():
    program, draw, count = os.path.abspath(sys.argv[1]), random.Random(int(sys.argv[2])), int(sys.argv[3])
    for data, want in SAMPLES:
        if read(data) != want:
            sys.exit(f"packets.py: the slow reader: {data.hex()}: {read(data)!r}, wanted {want!r}")
    compare(program, [data for data, _ in SAMPLES], [want for _, want in SAMPLES])
    near = [data[:at] for data, _ in SAMPLES for at in range(len(data))]
    near += [data[:at] + bytes([value]) + data[at + 1:] for data, _ in (SAMPLES[0], SAMPLES[30], SAMPLES[31], SAMPLES[36])
             for at in range(len(data)) for value in (0, 1, data[at] ^ 0x80, 255)]
    compare(program, near, [read(data) for data in near])
    drawn = [draw_capture(draw) for _ in range(count)]
    drawn += [changed(draw, data) for data in drawn]
    wanted = [read(data) for data in drawn]
    compare(program, drawn, wanted)
    seen = Counter(word for line in wanted for word in words_of(line))
    for word in ("datagram", CUT, DAMAGED, FRAGMENT, OTHER, TRUNCATED, LOST):
        if count >= 1000 and seen[word] < count // 100:
            sys.exit(f"packets.py: of the packets that are drawn only {seen[word]} are {word}")
    beside_tshark(draw, min(count, 40))


main()
sys.exit(1 if differ else 0)
