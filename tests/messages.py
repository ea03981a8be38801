"""messages.py: Map-Requests, Map-Replies and encapsulated messages, as requests.py and the tests of nodes that answer Map-Requests share
them: a slow reader, which takes a message bit by bit as RFC 9301 sections 5.2, 5.4, 5.5 and 5.8, RFC 791, RFC 768 and RFC 8200 lay it out; a
writer, which may set the free bits too; and messages that are drawn, and changed."""
import struct
from typing import NamedTuple

SHORT, KIND, SECURITY, IP_VERSION, IHL, IP_LENGTH, FRAGMENT, PROTOCOL = range(110, 118)
IP_SUM, PORT, UDP_LENGTH, UDP_SUM, NO_RECORD, AFI, MASK, TRAILING = range(118, 126)
CONTROL_PORT, UDP, WIDTHS = 4342, 17, {1: 4, 2: 16}
REQUEST = bytes.fromhex("10000001 1122334455667788 0000 0001 7f000009 0020 0001 0a010203")
SAMPLES = [
    ("request", REQUEST),
    ("encapsulated", bytes.fromhex("80000000 45000038 00000000 4011efa8 7f000009 0a010203 9c4010f6 00240000") + REQUEST),
    ("reply", bytes.fromhex("20000001 1122334455667788 0000000f 00 08 2000 0000 0001 0b000000")),
    ("reply", bytes.fromhex("20000001 1122334455667788 000005a0 01 10 0000 0000 0001 0a010000 01 64 ff 00 0001 0001 c0000201")),
]


class Request(NamedTuple):
    """A Map-Request: A, P, S, p, s, L, D; addresses as bytes, EID-Prefixes as an address and a length."""
    flags: list
    nonce: int
    source: bytes
    rlocs: list
    eids: list


class Locator(NamedTuple):
    """Priority, weight, those of multicast; L, p, R; and the address."""
    numbers: list
    flags: list
    address: bytes


class Record(NamedTuple):
    ttl: int
    act: int
    authoritative: int
    version: int
    eid: tuple
    locators: list


class Reply(NamedTuple):
    """A Map-Reply: P, E, S."""
    flags: list
    nonce: int
    records: list


class Encapsulated(NamedTuple):
    source: bytes
    destination: bytes
    port: int
    message: bytes


# Around a message that goes over a wire, or inside another one.
OUTER = Encapsulated(bytes([192, 0, 2, 1]), bytes([192, 0, 2, 2]), 40000, b"")


class Fault(Exception):
    """Why bytes are no message."""


def require(holds, number):
    if not holds:
        raise Fault(number)


class Bits:
    """Bytes that are taken from left to right, bit by bit."""

    def __init__(self, data):
        self.bits, self.at = "".join(f"{byte:08b}" for byte in data), 0

    def need(self, octets):
        require(self.at + 8 * octets <= len(self.bits), SHORT)

    def take(self, *widths):
        """Numbers of so many bits each; the one number where there is one."""
        found = []
        for width in widths:
            found.append(int(self.bits[self.at:self.at + width] or "0", 2))
            self.at += width
        return found if len(found) > 1 else found[0]

    def octets(self, count):
        self.need(count)
        return bytes(self.take(8) for _ in range(count))

    def left(self):
        return len(self.bits) - self.at


# ---- the reader


def read_address(it, family, length=0):
    require(family in WIDTHS, AFI)
    require(length <= 8 * WIDTHS[family], MASK)
    return it.octets(WIDTHS[family])


def masked(address, length):
    """The address without its bits past the mask."""
    past = 8 * len(address) - length
    return (int.from_bytes(address, "big") >> past << past).to_bytes(len(address), "big")


def read_named(it):
    it.need(2)
    return read_address(it, it.take(16))


def read_source(it):
    it.need(2)
    family = it.take(16)
    return b"" if family == 0 else read_address(it, family)


def read_eid(it):
    it.need(4)
    _, length, family = it.take(8, 8, 16)
    return masked(read_address(it, family, length), length), length


def read_request(data):
    """A Map-Request (section 5.2), and the bytes at which its ITR-RLOCs and records begin, and at which the last ends."""
    it = Bits(data)
    it.need(12)
    kind, a, _m, p, s = it.take(4, 1, 1, 1, 1)
    pitr, invoked, _r, _i, _ = it.take(1, 1, 1, 1, 4)
    _, local, no_reply, irc = it.take(1, 1, 1, 5)
    count, nonce = it.take(8, 64)
    require(kind == 1, KIND)
    require(count > 0, NO_RECORD)
    source, places, rlocs, eids = read_source(it), [], [], []
    for read, found, items in ((read_named, rlocs, irc + 1), (read_eid, eids, count)):
        for _ in range(items):
            places.append(it.at // 8)
            found.append(read(it))
    return Request([a, p, s, pitr, invoked, local, no_reply], nonce, source, rlocs, eids), places, it.at // 8


def read_locator(it):
    it.need(8)
    *numbers, _, local, probe, reachable, family = it.take(8, 8, 8, 8, 13, 1, 1, 1, 16)
    return Locator(numbers, [local, probe, reachable], read_address(it, family))


def read_record(it):
    it.need(12)
    ttl, count, length, act, authoritative, _, _, version, family = it.take(32, 8, 8, 3, 1, 12, 4, 12, 16)
    eid = masked(read_address(it, family, length), length), length
    return Record(ttl, act, authoritative, version, eid, [read_locator(it) for _ in range(count)])


def read_reply(data):
    """A Map-Reply (sections 5.4 and 5.5)."""
    it = Bits(data)
    it.need(12)
    kind, *flags, _, count, nonce = it.take(4, 1, 1, 1, 17, 8, 64)
    require(kind == 2, KIND)
    records = [read_record(it) for _ in range(count)]
    require(it.left() == 0, TRAILING)
    return Reply(flags, nonce, records)


def sum_of(data):
    """The one's complement sum of words of 16 bits (RFC 791, RFC 768)."""
    total = 0
    for word in struct.unpack(f"!{(len(data) + 1) // 2}H", data + bytes(len(data) % 2)):
        total += word
        total = total % 65536 + total // 65536
    return total


def pseudo_header(source, destination, length):
    end = struct.pack("!2BH", 0, UDP, length) if len(source) == 4 else struct.pack("!L4B", length, 0, 0, 0, UDP)
    return source + destination + end


def read_ipv4(data):
    """The addresses and the payload of an IPv4 datagram (RFC 791 section 3.1)."""
    it = Bits(data)
    it.need(20)
    _, ihl, _, total, _, _, _, more, offset, _, protocol, _ = it.take(4, 4, 8, 16, 16, 1, 1, 1, 13, 8, 8, 16)
    require(ihl >= 5, IHL)
    require(4 * ihl <= total <= len(data), IP_LENGTH)
    require((more, offset) == (0, 0), FRAGMENT)
    require(protocol == UDP, PROTOCOL)
    require(sum_of(data[:4 * ihl]) == 0xFFFF, IP_SUM)
    return it.octets(4), it.octets(4), data[4 * ihl:total]


def read_ipv6(data):
    """Those of an IPv6 datagram (RFC 8200 section 3)."""
    it = Bits(data)
    it.need(40)
    _, _, _, length, following, _ = it.take(4, 8, 20, 16, 8, 8)
    require(40 + length <= len(data), IP_LENGTH)
    require(following == UDP, PROTOCOL)
    return it.octets(16), it.octets(16), data[40:40 + length]


def read_encapsulated(data):
    """An encapsulated message (section 5.8) and its UDP header (RFC 768, RFC 8200 section 8.1)."""
    it = Bits(data)
    it.need(4)
    kind, security, _ = it.take(4, 1, 27)
    require(kind == 8, KIND)
    require(security == 0, SECURITY)
    it.need(1)
    version = it.take(4)
    require(version in (4, 6), IP_VERSION)
    source, destination, payload = (read_ipv4 if version == 4 else read_ipv6)(data[4:])
    it = Bits(payload)
    it.need(8)
    port, to, length, checksum = it.take(16, 16, 16, 16)
    require(to == CONTROL_PORT, PORT)
    require(8 <= length <= len(payload), UDP_LENGTH)
    none = version == 4 and checksum == 0
    right = checksum != 0 and sum_of(pseudo_header(source, destination, length) + payload[:length]) == 0xFFFF
    require(none or right, UDP_SUM)
    return Encapsulated(source, destination, port, payload[8:length])


# ---- the writer: free(N) is N free bits, 0 in what the program writes


def none(_):
    return 0


def family_of(address):
    return 1 if len(address) == 4 else 2


def unmasked(address, length, free):
    past = 8 * len(address) - length
    return (int.from_bytes(address, "big") | (free(past) if past else 0)).to_bytes(len(address), "big")


def named(address):
    return struct.pack("!H", family_of(address)) + address


def write_request(it, free=none):
    a, p, s, pitr, invoked, local, no_reply = it.flags
    head = [1 << 4 | a << 3 | free(1) << 2 | p << 1 | s, pitr << 7 | invoked << 6 | free(6),
            free(1) << 7 | local << 6 | no_reply << 5 | len(it.rlocs) - 1, len(it.eids)]
    eids = b"".join(struct.pack("!2B", free(8), length) + named(unmasked(address, length, free)) for address, length in it.eids)
    return bytes(head) + struct.pack("!Q", it.nonce) + (named(it.source) if it.source else bytes(2)) + b"".join(map(named, it.rlocs)) + eids


def write_locator(it, free):
    local, probe, reachable = it.flags
    return struct.pack("!4BH", *it.numbers, free(13) << 3 | local << 2 | probe << 1 | reachable) + named(it.address)


def write_record(it, free):
    address, length = it.eid
    head = struct.pack("!L2B2H", it.ttl, len(it.locators), length, it.act << 13 | it.authoritative << 12 | free(12), free(4) << 12 | it.version)
    return head + named(unmasked(address, length, free)) + b"".join(write_locator(locator, free) for locator in it.locators)


def write_reply(it, free=none):
    p, e, s = it.flags
    head = struct.pack("!BHBQ", 2 << 4 | p << 3 | e << 2 | s << 1 | free(1), free(16), len(it.records), it.nonce)
    return head + b"".join(write_record(record, free) for record in it.records)


def summed(data, at, front=b""):
    """The bytes with a checksum at a place, over these and what goes before them."""
    checksum = 0xFFFF - sum_of(front + data[:at] + bytes(2) + data[at + 2:])
    return data[:at] + struct.pack("!H", 0xFFFF if front and checksum == 0 else checksum) + data[at + 2:]


def without_checksum(data, at):
    """The bytes with a checksum of 0 in the UDP header at a place."""
    return data[:at + 6] + bytes(2) + data[at + 8:]


def write_ip(it, payload, free):
    if len(it.source) == 4:
        options = bytes(free(8) for _ in range(4 * (free(4) % 11)))
        lengths = 0x45 + len(options) // 4, free(8), 20 + len(options) + len(payload)
        head = struct.pack("!2B3H2BH", *lengths, free(16), free(2) << 14, free(8) or 64, UDP, 0)
        return summed(head + it.source + it.destination + options, 10) + payload
    return struct.pack("!LH2B", 6 << 28 | free(28), len(payload), UDP, free(8) or 64) + it.source + it.destination + payload


def write_encapsulated(it, free=none):
    """With free bits there may be no UDP checksum, which is a fault over IPv6, and bytes after the UDP datagram and after that of IP."""
    header = struct.pack("!4H", it.port, CONTROL_PORT, 8 + len(it.message), 0)
    udp = summed(header + it.message, 6, pseudo_header(it.source, it.destination, 8 + len(it.message)))
    if free(3) == 1:
        udp = without_checksum(udp, 0)
    more, after = (bytes(free(8) for _ in range(free(3) * free(1))) for _ in range(2))
    return struct.pack("!BHB", 8 << 4 | free(3), free(16), free(8)) + write_ip(it, udp + more, free) + after


def map_reply(nonce, *records, kind=0x20):
    """A Map-Reply of records that are there as bytes, as its nonce is; the kind is its first byte."""
    return bytes([kind, 0, 0, len(records)]) + nonce + b"".join(records)


# ---- what is drawn


def draw_address(draw, width=0):
    width = width or draw.choice([4, 16])
    return draw.choice([bytes(width), b"\xff" * width, draw.randbytes(width), draw.randbytes(width), draw.randbytes(width)])


def draw_eid(draw):
    address = draw_address(draw)
    length = draw.choice([0, 1, 8 * len(address), draw.randint(0, 8 * len(address)), draw.randint(0, 8 * len(address))])
    return masked(address, length), length


def draw_bits(draw, count):
    return [draw.getrandbits(1) for _ in range(count)]


def draw_count(draw, least, most):
    return draw.choice([least, 1, 1, 2, draw.randint(1, 9), draw.randint(1, 9), draw.randint(1, most), most])


def draw_request(draw):
    return Request(draw_bits(draw, 7), draw.getrandbits(64), draw.choice([b"", draw_address(draw)]),
                   [draw_address(draw) for _ in range(draw_count(draw, 1, 32))], [draw_eid(draw) for _ in range(draw_count(draw, 1, 255))])


def draw_locator(draw):
    return Locator(list(draw.randbytes(4)), draw_bits(draw, 3), draw_address(draw))


def draw_record(draw, locators):
    return Record(draw.choice([0, 1, 15, 1440, draw.getrandbits(32)]), draw.getrandbits(3), draw.getrandbits(1), draw.getrandbits(12), draw_eid(draw),
                  [draw_locator(draw) for _ in range(locators)])


def draw_reply(draw):
    """Many records, or one with many locators: at most some 25,000 bytes."""
    records = draw_count(draw, 0, 255)
    locators = 255 if records == 1 and draw.random() < 0.2 else 3
    return Reply(draw_bits(draw, 3), draw.getrandbits(64), [draw_record(draw, draw.randint(0, locators)) for _ in range(records)])


def draw_encapsulated(draw, free):
    width = draw.choice([4, 16])
    message = draw.choice([write_request(draw_request(draw), free), draw.randbytes(draw.randint(0, 99)), draw.randbytes(draw.choice([0, 1, 2, 3]))])
    return Encapsulated(draw_address(draw, width), draw_address(draw, width), draw.getrandbits(16), message)


def draw_message(draw):
    """The kind of a message, and its bytes; a Map-Request may have some after it."""
    free = draw.choice([none, draw.getrandbits])
    kind = draw.choice(["request", "reply", "encapsulated", "encapsulated"])
    if kind == "request":
        return kind, write_request(draw_request(draw), free) + draw.choice([b"", draw.randbytes(24), draw.randbytes(draw.randint(1, 40))])
    if kind == "reply":
        return kind, write_reply(draw_reply(draw), free)
    return kind, write_encapsulated(draw_encapsulated(draw, free), free)


def mended(data):
    """An encapsulated message with right checksums, as far as its lengths have a place for them."""
    at, width = (24, 4) if data[4] >> 4 == 4 else (44, 16)
    if width == 4:
        at = 4 + 4 * (data[4] & 15)
        if at < 24 or at > len(data):
            return data
        data = data[:4] + summed(data[4:at], 10) + data[at:]
    if len(data) < at + 8:
        return data
    length = int.from_bytes(data[at + 4:at + 6], "big")
    if length < 8 or at + length > len(data):
        return data
    front = data[16:24] if width == 4 else data[12:44]
    udp = summed(data[at:at + length], 6, pseudo_header(front[:width], front[width:], length))
    return data[:at] + udp + data[at + length:]


def changed(draw, kind, data):
    """The message with one change: a bit, a byte, bytes that are missing or too many; mostly near its head."""
    place = draw.randrange(len(data)) if draw.random() < 0.3 else draw.randrange(min(len(data), 64))
    value = data[place]
    other = draw.choice([value ^ 1 << draw.randrange(8), draw.getrandbits(8), (value + 1) % 256, (value - 1) % 256, 0, 255])
    some = draw.randint(1, 4)
    front, after = data[:place], data[place:]
    data = draw.choice([front + bytes([other]) + after[1:]] * 4
                       + [front, data[:-some], front + after[some:], front + draw.randbytes(some) + after, data + draw.randbytes(some)])
    return mended(data) if kind == "encapsulated" and len(data) > 4 and draw.random() < 0.5 else data


# ---- captures


def packet(it):
    """A packet of pcap: an encapsulated message as one that goes over a wire, in UDP, IP and Ethernet."""
    kind = 0x0800 if len(it.source) == 4 else 0x86DD
    framed = bytes(12) + struct.pack("!H", kind) + write_encapsulated(it)[4:]
    return struct.pack("<4I", 0, 0, len(framed), len(framed)) + framed


def capture_of(packets):
    """A file of pcap, version 2.4, of Ethernet."""
    return struct.pack("<IHHiIII", 0xA1B2C3D4, 2, 4, 0, 0, 262_144, 1) + b"".join(map(packet, packets))
