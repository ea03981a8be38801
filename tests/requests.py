#!/usr/bin/env -S python3 -B
"""requests.py PROGRAM SEED COUNT
Compares what PROGRAM (crates/lisp_readings) reads and writes of Map-Requests, Map-Replies and encapsulated messages with a slow reader, which
takes a message bit by bit as RFC 9301 sections 5.2, 5.4, 5.5 and 5.8, RFC 791, RFC 768 and RFC 8200 lay it out. The messages are samples,
each cut of them, each change of a bit, and others near them; and COUNT that are drawn from SEED, with free bits, options and bytes after
them, each as it is and with one change. Then each growth of memory is refused in turn. Where `tshark` is installed, it reads what is
written, and its fields are compared. Prints each message that differs, up to 20, and ends with 1 where one does."""
import ipaddress
import itertools
import os
import random
import shutil
import struct
import subprocess
import sys
import tempfile

from messages import (AFI, CONTROL_PORT, Encapsulated, Fault, KIND, MASK, NO_RECORD, OUTER, REQUEST, Reply, Request, SAMPLES, SHORT, TRAILING,
                      capture_of, changed, draw_address, draw_eid, draw_message, draw_record, draw_reply, draw_request, mended, pseudo_header,
                      read_encapsulated, read_reply, read_request, sum_of, without_checksum, write_encapsulated, write_reply, write_request)

LIMIT, AT_ONCE = 20, 200
# The faults that a message of each kind can have: each has to come.
FAULTS = {"request": {SHORT, KIND, NO_RECORD, AFI, MASK}, "reply": {SHORT, KIND, AFI, MASK, TRAILING},
          "encapsulated": set(range(SHORT, NO_RECORD))}
FAULTS["layout"] = FAULTS["request"]
# The bytes of the longest message in UDP over IPv4; a longer one that came over IPv6 isn't written.
MOST, UNWRITTEN = 65_507, "unwritten"
# What the program ends with where a line has no memory.
OUT_OF_MEMORY = "OutOfMemory"

# ---- what the program prints


def digits(flags):
    return "".join(map(str, flags))


def eid_text(eid):
    return f"{eid[0].hex()}/{eid[1]}"


def request_head(it):
    return f"{digits(it.flags)} nonce {it.nonce:016x} source {it.source.hex() or '-'}"


def request_line(data):
    it, _, _ = read_request(data)
    rlocs, eids = ("".join(f" rloc {rloc.hex()}" for rloc in it.rlocs), "".join(f" eid {eid_text(eid)}" for eid in it.eids))
    return f"{request_head(it)}{rlocs}{eids} written {write_request(it).hex()}"


def layout_line(data):
    it, places, end = read_request(data)
    texts = [f"rloc {{}} {rloc.hex()}" for rloc in it.rlocs] + [f"eid {{}} {eid_text(eid)}" for eid in it.eids]
    return f"{request_head(it)}{''.join(' ' + text.format(place) for text, place in zip(texts, places))} end {end}"


def record_text(it):
    locators = "".join(f" locator {' '.join(map(str, at.numbers))} {digits(at.flags)} {at.address.hex()}" for at in it.locators)
    return f" record {it.ttl} {it.act} {it.authoritative} {it.version} {eid_text(it.eid)}{locators}"


def reply_line(data):
    it = read_reply(data)
    return f"{digits(it.flags)} nonce {it.nonce:016x}{''.join(map(record_text, it.records))} written {write_reply(it).hex()}"


def encapsulated_line(data):
    it = read_encapsulated(data)
    if len(it.message) > MOST:
        return UNWRITTEN
    return (f"source {it.source.hex()} destination {it.destination.hex()} port {it.port} message {it.message.hex()}"
            f" written {write_encapsulated(it).hex()}")


LINES = {"request": request_line, "layout": layout_line, "reply": reply_line, "encapsulated": encapsulated_line}


def line_of(kind, data):
    try:
        return LINES[kind](data)
    except Fault as fault:
        return f"fault {fault.args[0]}"


def near(data):
    """The message, each cut of it, each change of a bit, bytes that are other numbers, and one more byte."""
    yield data
    for length in range(len(data)):
        yield data[:length]
    for place, value in enumerate(data):
        for other in {value ^ 1 << bit for bit in range(8)} | set(range(8)) | {127, 128, 254, 255}:
            yield data[:place] + bytes([other]) + data[place + 1:]
    yield data + b"\0"


def around_a_sum(it):
    """A message whose UDP datagram sums to all ones without a checksum, so that all ones are sent in place of 0; and with 0 after all."""
    at = 24 if len(it.source) == 4 else 44
    bare = without_checksum(write_encapsulated(it._replace(port=0)), at)[at:]
    summing = write_encapsulated(it._replace(port=0xFFFF - sum_of(pseudo_header(it.source, it.destination, len(bare)) + bare)))
    return summing, without_checksum(summing, at)


def lengths(data):
    """An encapsulated message over IPv4, of each total length and IHL, with right checksums."""
    for total in range(len(data)):
        for ihl in range(16):
            yield mended(data[:4] + bytes([0x40 + ihl, 0]) + struct.pack("!H", total) + data[8:])


def samples():
    """Each sample, over IPv6 too, and what is near it; sums, lengths; and the longest messages."""
    addresses = (bytes.fromhex("20010db8") + bytes(11) + bytes([last]) for last in (1, 2))
    over_ipv4, over_ipv6 = OUTER._replace(message=REQUEST), Encapsulated(*addresses, 40000, REQUEST)
    found = [("encapsulated", data) for it in (over_ipv4, over_ipv6) for data in around_a_sum(it)]
    found += [("encapsulated", data) for data in lengths(SAMPLES[1][1])]
    for kind, data in SAMPLES + [("encapsulated", write_encapsulated(over_ipv6))]:
        found += [(kind, it) for it in near(data)]
    found += [("encapsulated", write_encapsulated(over_ipv6._replace(message=bytes(length)))) for length in (MOST, MOST + 1, 65_527)]
    return found + [("encapsulated", write_encapsulated(over_ipv4._replace(message=bytes(MOST))))]


def drawn(seed, count):
    for number in range(seed, seed + count):
        draw = random.Random(number)
        kind, data = draw_message(draw)
        yield kind, data
        yield kind, changed(draw, kind, data)
        yield draw.choice(list(LINES)), data


# ---- the comparison


class Compared:
    """Messages that PROGRAM and the reader have both read."""

    def __init__(self, program):
        self.program, self.waiting, self.count, self.differing = os.path.abspath(program), [], 0, 0
        self.faults = {kind: set() for kind in LINES}

    def add(self, kind, data):
        self.waiting += [(it, data) for it in (("request", "layout") if kind == "request" else (kind,))]
        if len(self.waiting) >= AT_ONCE:
            self.compare()

    def compare(self):
        text = "".join(f"{kind} {data.hex()}\n" for kind, data in self.waiting)
        done = subprocess.run([self.program], input=text, capture_output=True, text=True, timeout=600, check=False)
        printed = done.stdout.splitlines()
        if (done.returncode, done.stderr, len(printed)) != (0, "", len(self.waiting)):
            self.differ(f"status {done.returncode}, {len(printed)} lines of {len(self.waiting)}, {done.stderr}")
        for (kind, data), line in zip(self.waiting, printed):
            wanted = line_of(kind, data)
            if line != wanted:
                self.differ(f"{kind} {data.hex()}\n  printed {line}\n  wanted  {wanted}")
            if wanted.startswith("fault"):
                self.faults[kind].add(int(wanted.split()[1]))
        self.count += len(self.waiting)
        self.waiting = []

    def differ(self, what):
        self.differing += 1
        if self.differing <= LIMIT:
            print(f"requests.py: {what}", flush=True)

    def end(self):
        self.compare()
        for kind, faults in self.faults.items():
            if faults != FAULTS[kind]:
                self.differ(f"the faults of a {kind} that came were {sorted(faults)}, wanted {sorted(FAULTS[kind])}")


# ---- memory that is refused

# What may be printed of a message for want of memory: the lists of a Map-Request and of a Map-Reply take it, and what is written does.
WANTS = {("request", "fault 9"), ("reply", "fault 9"), ("request", UNWRITTEN), ("reply", UNWRITTEN), ("encapsulated", UNWRITTEN)}


def lines_while(program, folder, at, text):
    """Runs the program while the growth of memory with this number is refused: whether it was, the status, the lines, standard error."""
    mark, report = os.pipe()
    env = {"LD_PRELOAD": f"{folder}/failing.so", "FAILING_CALL": "growth", "FAILING_AT": str(at), "FAILING_REPORT": str(report)}
    done = subprocess.run([program], input=text, capture_output=True, text=True, timeout=60, env=env, pass_fds=[report], check=False)
    os.close(report)
    with open(mark, "rb") as marks:
        return bool(marks.read()), done.returncode, done.stdout.splitlines(), done.stderr


def refuse_memory(program):
    """Each growth refused in turn, over long messages, each of which comes twice: one line says so at most, or the program ends. How many
    runs go otherwise."""
    draw = random.Random(1)
    request = write_request(Request([0] * 7, 1, b"", [draw_address(draw) for _ in range(32)], [draw_eid(draw) for _ in range(255)]))
    reply = write_reply(Reply([0] * 3, 1, [draw_record(draw, 3) for _ in range(20)]))
    asked = [it for it in zip(LINES, (request, request, reply, write_encapsulated(OUTER._replace(message=request)))) for _ in range(2)]
    text, wanted = "".join(f"{kind} {data.hex()}\n" for kind, data in asked), [line_of(kind, data) for kind, data in asked]
    differing, came = 0, set()
    with tempfile.TemporaryDirectory() as folder:
        failing = os.path.join(os.path.dirname(os.path.abspath(__file__)), "failing.c")
        subprocess.run(["cc", "-O1", "-Wall", "-shared", "-fPIC", "-o", f"{folder}/failing.so", failing], check=True)
        for at in itertools.count(1):
            has_failed, status, lines, error = lines_while(program, folder, at, text)
            if not has_failed:
                break
            others = {(kind, line) for (kind, _), line, whole in zip(asked, lines, wanted) if line != whole}
            is_whole = (status, len(lines), error) == (0, len(wanted), "") and len(others) <= 1 and others <= WANTS
            if not is_whole and not (status == 1 and not others and OUT_OF_MEMORY in error):
                differing += 1
                print(f"requests.py: growth {at} refused: status {status}, {sorted(others)}, {len(lines)} lines, {error}", flush=True)
            came |= others
    if came != WANTS:
        print(f"requests.py: growths refused came to {sorted(came)}, wanted {sorted(WANTS)}", flush=True)
    return differing + int(came != WANTS)


# ---- tshark

REQUEST_FIELDS = ["lisp.mreq.flags.auth", "lisp.mreq.flags.probe", "lisp.mreq.flags.smr", "lisp.mreq.flags.pitr", "lisp.mreq.flags.smri",
                  "lisp.mreq.res", "lisp.irc", "lisp.mreq.srceid.ipv4", "lisp.mreq.srceid_ipv6", "lisp.mreq.itr_rloc_ipv4", "lisp.mreq.itr_rloc_ipv6",
                  "lisp.mreq.record.prefix.length", "lisp.mreq.record.prefix.ipv4", "lisp.mreq.record.prefix.ipv6"]
REPLY_FIELDS = ["lisp.mrep.flags.probe", "lisp.mrep.flags.enlr", "lisp.mrep.flags.sec", "lisp.mapping.ttl", "lisp.mapping.act", "lisp.mapping.auth",
                "lisp.mapping.ver", "lisp.mapping.loccnt", "lisp.mapping.eid.masklen", "lisp.mapping.eid.ipv4", "lisp.mapping.eid.ipv6",
                "lisp.loc.priority", "lisp.loc.weight", "lisp.loc.multicast_priority", "lisp.loc.multicast_weight", "lisp.loc.flags.local",
                "lisp.loc.flags.probe", "lisp.loc.flags.reach", "lisp.loc.locator"]
AROUND_FIELDS = ["ip.src", "ip.dst", "ipv6.src", "ipv6.dst", "udp.srcport", "udp.dstport", "ip.checksum.status", "udp.checksum.status"]
FIELDS = ["lisp.type", "lisp.records", "lisp.nonce", *REQUEST_FIELDS, *REPLY_FIELDS, *AROUND_FIELDS]


def of_family(addresses, width):
    return [str(ipaddress.ip_address(address)) for address in addresses if len(address) == width]


def addresses_of(names, addresses):
    return {name: of_family(addresses, width) for name, width in zip(names, (4, 16))}


def request_fields(it):
    """What tshark shows of a Map-Request. To its version 4.0, L and D are the last two reserved bits."""
    *flags, local, no_reply = it.flags
    return (dict(zip(REQUEST_FIELDS, ([flag] for flag in flags)))
            | {"lisp.type": [1], "lisp.records": [len(it.eids)], "lisp.nonce": [it.nonce], "lisp.mreq.res": [local << 1 | no_reply],
               "lisp.irc": [len(it.rlocs) - 1], "lisp.mreq.record.prefix.length": [length for _, length in it.eids]}
            | addresses_of(("lisp.mreq.srceid.ipv4", "lisp.mreq.srceid_ipv6"), [it.source] if it.source else [])
            | addresses_of(("lisp.mreq.itr_rloc_ipv4", "lisp.mreq.itr_rloc_ipv6"), it.rlocs)
            | addresses_of(("lisp.mreq.record.prefix.ipv4", "lisp.mreq.record.prefix.ipv6"), [address for address, _ in it.eids]))


def reply_fields(it):
    """What it shows of a Map-Reply."""
    locators = [locator for record in it.records for locator in record.locators]
    rows = [[record.ttl, record.act, record.authoritative, record.version, len(record.locators), record.eid[1]] for record in it.records]
    ways = [[*locator.numbers, *locator.flags, str(ipaddress.ip_address(locator.address))] for locator in locators]
    columns = zip(REPLY_FIELDS[3:9], zip(*rows)), zip(REPLY_FIELDS[11:], zip(*ways))
    return (dict(zip(REPLY_FIELDS, ([flag] for flag in it.flags))) | {name: list(column) for part in columns for name, column in part}
            | {"lisp.type": [2], "lisp.records": [len(it.records)], "lisp.nonce": [it.nonce]}
            | addresses_of(REPLY_FIELDS[9:11], [record.eid[0] for record in it.records]))


def around_fields(parts):
    """What it shows of IP and UDP headers, the outer ones first; a status of 1 says that the checksum is right."""
    return (addresses_of(("ip.src", "ipv6.src"), [it.source for it in parts]) | addresses_of(("ip.dst", "ipv6.dst"), [it.destination for it in parts])
            | {"udp.srcport": [it.port for it in parts], "udp.dstport": [CONTROL_PORT] * len(parts), "udp.checksum.status": [1] * len(parts),
               "ip.checksum.status": [1 for it in parts if len(it.source) == 4]})


def draw_shown(draw):
    """A message for tshark, as it is written, and the fields that it has to show."""
    kind = draw.choice(["request", "reply", "encapsulated"])
    if kind == "reply":
        it = draw_reply(draw)
        return write_reply(it), reply_fields(it) | around_fields([OUTER])
    it = draw_request(draw)
    if kind == "request":
        return write_request(it), request_fields(it) | around_fields([OUTER])
    width = draw.choice([4, 16])
    inner = Encapsulated(draw.randbytes(width), draw.randbytes(width), OUTER.port, write_request(it))
    fields = request_fields(it) | around_fields([OUTER, inner])
    return write_encapsulated(inner), fields | {"lisp.type": [8, 1]}


def number_of(text):
    """A number as tshark shows it, in whatever base; an address stays as it is."""
    try:
        return int(text, 0)
    except ValueError:
        return text


def compare_with_tshark(tshark, seed, count):
    """How many of the messages tshark shows otherwise than they are."""
    shown, differing = [draw_shown(random.Random(number)) for number in range(seed, seed + count)], 0
    with tempfile.NamedTemporaryFile(suffix=".pcap") as file:
        file.write(capture_of(OUTER._replace(message=message) for message, _ in shown))
        file.flush()
        options = [word for name in FIELDS for word in ("-e", name)]
        done = subprocess.run([tshark, "-n", "-r", file.name, "-o", "ip.check_checksum:TRUE", "-o", "udp.check_checksum:TRUE", "-T", "fields",
                               "-E", "occurrence=a", "-E", "aggregator=,", *options], capture_output=True, text=True, timeout=300, check=False)
    lines = done.stdout.splitlines()
    if done.returncode or len(lines) != count:
        print(f"requests.py: tshark: status {done.returncode}, {len(lines)} lines of {count}, {done.stderr}", flush=True)
        return 1
    for (message, fields), line in zip(shown, lines):
        for name, text in zip(FIELDS, line.split("\t")):
            got, wanted = [number_of(it) for it in text.split(",") if it], fields.get(name, [])
            if got != wanted and (differing := differing + 1) <= LIMIT:
                print(f"requests.py: tshark, {message.hex()}\n  {name}: {got}, wanted {wanted}", flush=True)
    return differing


def main():
    program, seed, count = sys.argv[1], int(sys.argv[2]), int(sys.argv[3])
    if not os.access(program, os.X_OK):
        sys.exit(f"requests.py: no {program}: `rt run` in crates/lisp_readings proves and builds it")
    compared = Compared(program)
    for kind, data in itertools.chain(samples(), drawn(seed, count)):
        compared.add(kind, data)
    compared.end()
    compared.differing += refuse_memory(compared.program)
    if tshark := shutil.which("tshark"):
        compared.differing += compare_with_tshark(tshark, seed, min(count, AT_ONCE))
    else:
        print("requests.py: tshark is not installed: it read nothing")
    sys.exit(1 if compared.differing else 0)


main()
