#!/usr/bin/env -S python3 -B
"""look.py PROGRAM [TEST ..]
Runs `lispd look` beside a Map-Server in Python, which is sent Encapsulated Map-Requests and answers with Map-Replies that were made by hand
(RFC 9301 sections 5.2, 5.4 and 5.8): what is sent, what is taken, what is printed, and each status. Prints each check that fails, and ends
with 1 where one does."""
import re
import socket
import subprocess
import time

from messages import map_reply, sum_of
from nodes import LIMIT, check, in_words, peer, program, ran, received, run_tests

# An Encapsulated Map-Request for 10.1.2.3 from the ITR-RLOC 127.0.0.9; what is masked below is 0: the inner UDP source port and checksum,
# and the nonce.
REQUEST = bytes.fromhex("80000000" "45000038000000004011efa87f0000090a010203" "000010f600240000"
                        "10000001" "0000000000000000" "0000" "00017f000009" "002000010a010203")
# The same for 2001:db8:1::5 from ::1.
REQUEST_IPV6 = bytes.fromhex("80000000" "60000000003c1140" "00000000000000000000000000000001" "20010db8000100000000000000000005"
                             "000010f6003c0000" "10000001" "0000000000000000" "0000" "000200000000000000000000000000000001"
                             "0080000220010db8000100000000000000000005")
# Where the port, the checksum and the nonce stand behind an inner IP header of so many bytes.
MASKED = {20: ((24, 26), (30, 32), (36, 44)), 40: ((44, 46), (50, 52), (56, 64))}
# Records: 10.1.0.0/16 with one locator; 11.0.0.0/8, negative.
MAPPED = bytes.fromhex("000005a0" "0110" "0000" "0000" "0001" "0a010000" "0164ff00" "0001" "0001" "c0000201")
NEGATIVE = bytes.fromhex("0000000f" "0008" "2000" "0000" "0001" "0b000000")
MAPPED_LINE = "record 10.1.0.0/16=1440+192.0.2.1/1/100/255/0"
NEGATIVE_LINE = "negative 11.0.0.0/8=15 Natively-Forward: packets go on without LISP"
# What an ITR does where a record has no locators, by ACT (RFC 9301 section 5.4).
ACTS = ["No-Action: nothing is known of it", "Natively-Forward: packets go on without LISP", "Send-Map-Request: packets make an ITR ask again",
        "Drop/No-Reason: packets are dropped", "Drop/Policy-Denied: packets are dropped by policy",
        "Drop/Auth-Failure: packets are dropped, since an authentication failed", "an ACT that isn't assigned", "an ACT that isn't assigned"]
HEAD = re.compile(r"reply from (\S+) after (\d+) ms")


def header_len(datagram):
    """The bytes of the inner IP header."""
    return 20 if datagram[4] >> 4 == 4 else 40


def masked(datagram):
    """A datagram without what no test can know."""
    for begin, end in MASKED[header_len(datagram)]:
        datagram = datagram[:begin] + bytes(end - begin) + datagram[end:]
    return datagram


def nonce_of(datagram):
    begin, end = MASKED[header_len(datagram)][2]
    return datagram[begin:end]


def inner_port(datagram):
    begin, end = MASKED[header_len(datagram)][0]
    return int.from_bytes(datagram[begin:end], "big")


def is_summed(datagram):
    """Whether the inner UDP checksum is right, with the pseudo-header (RFC 768, RFC 8200 section 8.1); the inner datagrams have an even
    number of bytes."""
    begin = 4 + header_len(datagram)
    width = 4 if header_len(datagram) == 20 else 16
    udp = datagram[begin:]
    return sum_of(datagram[begin - 2 * width:begin] + bytes([0, 17]) + len(udp).to_bytes(2, "big") + udp) == 0xffff


def record(prefix, length, *, act=0, locators=1):
    """A record for 1440 minutes, of an IPv4 prefix."""
    head = (1440).to_bytes(4, "big") + bytes([locators, length, act << 5, 0, 0, 0, 0, 1]) + socket.inet_aton(prefix)
    return head + bytes.fromhex("0164ff0000010001c0000201") * locators


def starts(*words, under=(), stdout=subprocess.PIPE):
    """A look; it ends by itself."""
    return subprocess.Popen([*under, program, "look", *words], stdin=subprocess.DEVNULL, stdout=stdout, stderr=subprocess.PIPE, text=True)


def looks(here, *words, server=""):
    """A look at our Map-Server."""
    return starts(*words, "--server", server or here.s1)


def ended(process):
    """Its status, what it printed with the ms as N, and its fault."""
    out, error = process.communicate(timeout=LIMIT)
    return process.returncode, HEAD.sub(r"reply from \1 after N ms", out), error


def answered(here, s1, eid, *records):
    """What a look comes to where these records answer it."""
    s1.settimeout(LIMIT)
    process = looks(here, eid)
    request, itr = s1.recvfrom(65535)
    s1.sendto(map_reply(nonce_of(request), *records), itr)
    return ended(process)


def printed(by, *lines):
    return "".join(f"{line}\n" for line in [f"reply from {by} after N ms", *lines])


def its_map_request(here):
    """The bytes are those that were worked by hand, and go to UDP port 4342 from the port that they name."""
    with peer(here.s1) as s1:
        s1.settimeout(LIMIT)
        process = looks(here, "10.1.2.3", "--from", "127.0.0.9")
        request, itr = s1.recvfrom(65535)
        check("its bytes", masked(request).hex(), REQUEST.hex())
        check("its ports", (itr, inner_port(request)), (("127.0.0.9", itr[1]), itr[1]))
        check("its checksum", is_summed(request), True)
        s1.sendto(map_reply(nonce_of(request), MAPPED), itr)
        check("what it comes to", ended(process), (0, printed(here.s1, MAPPED_LINE), ""))


def its_nonces_differ(here):
    found = set()
    with peer(here.s1) as s1:
        s1.settimeout(LIMIT)
        for _ in range(4):
            process = looks(here, "10.1.2.3")
            request, itr = s1.recvfrom(65535)
            found.add(nonce_of(request))
            s1.sendto(map_reply(nonce_of(request), MAPPED), itr)
            ended(process)
    check("nonces", len(found), 4)


def a_negative_map_reply(here):
    with peer(here.s1) as s1:
        check("what it comes to", answered(here, s1, "11.1.2.3", NEGATIVE), (4, printed(here.s1, NEGATIVE_LINE), "lispd: fault 133\n"))
        check("without a record", answered(here, s1, "11.1.2.3"), (4, printed(here.s1), "lispd: fault 133\n"))
        for act, words in enumerate(ACTS):
            check(f"ACT {act}", answered(here, s1, "11.1.2.3", record("11.0.0.0", 8, act=act, locators=0)),
                  (4, printed(here.s1, f"negative 11.0.0.0/8=1440 {words}"), "lispd: fault 133\n"))


def the_longest_record_decides(here):
    wide, narrow = record("10.0.0.0", 8), record("10.1.0.0", 16)
    wide_hole, narrow_hole = record("10.0.0.0", 8, act=2, locators=0), record("10.1.0.0", 16, act=2, locators=0)
    beside = record("10.2.0.0", 16)
    with peer(here.s1) as s1:
        for name, records, status in (("narrow hole", (wide, narrow_hole), 4), ("the other way round", (narrow_hole, wide), 4),
                                      ("wide hole", (wide_hole, narrow), 0), ("that the other way round", (narrow, wide_hole), 0),
                                      ("beside it", (beside,), 4), ("and a hole over it", (wide_hole, beside), 4)):
            check(name, answered(here, s1, "10.1.2.3", *records)[0], status)


def an_eid_prefix(here):
    """It is asked for as it is, its address cleared; where a Map-Server answers for its first address alone, that decides."""
    with peer(here.s1) as s1:
        s1.settimeout(LIMIT)
        process = looks(here, "10.1.2.3/16")
        request, itr = s1.recvfrom(65535)
        check("its record", request[-8:].hex(), "001000010a010000")
        check("the inner destination", request[20:24].hex(), "0a010000")
        s1.sendto(map_reply(nonce_of(request), MAPPED), itr)
        check("what it comes to", ended(process), (0, printed(here.s1, MAPPED_LINE), ""))
        narrower, hole = record("10.0.0.0", 16), record("10.0.0.0", 8, locators=0)
        check("narrower", answered(here, s1, "10.0.0.0/8", narrower)[0], 0)
        check("narrower, and a hole over it", answered(here, s1, "10.0.0.0/8", narrower, hole)[0], 4)
        check("narrower elsewhere", answered(here, s1, "10.0.0.0/8", MAPPED)[0], 4)


def what_answers_nothing(here):
    """Another nonce, other messages and bytes that are none are passed over, and the Map-Reply after them is taken, from anybody."""
    with peer(here.s1) as s1, peer(here.r1) as r1, socket.socket(socket.AF_INET, socket.SOCK_DGRAM) as elsewhere:
        elsewhere.bind((here.r2, 0))
        for by, name in ((s1, here.s1), (r1, here.r1), (elsewhere, here.r2)):
            s1.settimeout(LIMIT)
            process = looks(here, "10.1.2.3")
            request, itr = s1.recvfrom(65535)
            nonce = nonce_of(request)
            other = bytes([nonce[0], *nonce[1:7], nonce[7] ^ 1])
            right = map_reply(nonce, MAPPED)
            for junk in (b"", b"\x20", bytes(60_000), request, map_reply(other, MAPPED), map_reply(other, NEGATIVE), right[:-1], right + b"\0",
                         map_reply(nonce, MAPPED, kind=0x30), right[:3] + b"\2" + right[4:]):
                by.sendto(junk, itr)
            by.sendto(right, itr)
            check(f"from {name}", ended(process), (0, printed(name, MAPPED_LINE), ""))


def nothing_comes(here):
    """The same bytes are sent three times, a second between them, or as often as is said."""
    with peer(here.s1) as s1:
        for words, count in (((), 3), (("--tries", "1"), 1), (("--tries", "2"), 2)):
            begun = time.monotonic()
            process = looks(here, "10.1.2.3", *words)
            check(f"what {count} come to", ended(process), (1, "", "lispd: fault 132\n"))
            check(f"seconds of {count}", count <= time.monotonic() - begun + 0.05 < count + 2, True)
            requests = received(s1, 0.1)
            check(f"how many, of {count}", (len(requests), len(set(requests))), (count, 1))


def a_late_map_reply(here):
    """One that comes after the second Map-Request was sent is taken too; its ms count from the first."""
    with peer(here.s1) as s1:
        s1.settimeout(LIMIT)
        process = looks(here, "10.1.2.3", "--tries", "2")
        request, itr = s1.recvfrom(65535)
        s1.recvfrom(65535)
        s1.sendto(map_reply(nonce_of(request), MAPPED), itr)
        out, _ = process.communicate(timeout=LIMIT)
        found = HEAD.match(out)
        check("status and ms", (process.returncode, found and 1000 <= int(found[2]) < 3000), (0, True))


def words_of_another_form(here):
    for name, words, told in (
            ("an EID", ("10.1.2", "--server", here.s1), "EID takes an address or an EID-Prefix"),
            ("a mask", ("10.1.2.3/33", "--server", here.s1), "EID takes an address or an EID-Prefix"),
            ("a Map-Server", ("10.1.2.3", "--server", "s1"), "--server takes an address"),
            ("a port", ("10.1.2.3", "--server", "127.0.0.1:4342"), "--server takes an address"),
            ("an ITR-RLOC", ("10.1.2.3", "--server", here.s1, "--from", "lo"), "--from takes an address"),
            ("its family", ("10.1.2.3", "--server", here.s1, "--from", "0:0:0:0:0:0:0:1"), "--from takes an address of the family"),
            ("no tries", ("10.1.2.3", "--server", here.s1, "--tries", "0"), "--tries takes a whole number from 1 to 100"),
            ("too many", ("10.1.2.3", "--server", here.s1, "--tries", "101"), "--tries takes a whole number from 1 to 100"),
            ("a sign", ("10.1.2.3", "--server", here.s1, "--tries", "+1"), "--tries takes a whole number from 1 to 100")):
        status, number, said = in_words("look", *words)
        check(name, (status, number, told in said), (2, 98, True))
    for name, words in (("no Map-Server", ("10.1.2.3",)), ("no EID", ("--server", here.s1)),
                        ("two EIDs", ("10.1.2.3", "10.1.2.4", "--server", here.s1))):
        status, out, error = ran("look", *words)
        check(name, (status, out, bool(error)), (2, "", True))


def what_the_system_refuses(here):
    check("an address of another machine", ran("look", "10.1.2.3", "--server", here.s1, "--from", "192.0.2.77"), (1, "", "lispd: fault 92\n"))
    with peer(here.s1) as s1, open("/dev/full", "wb") as full:
        s1.settimeout(LIMIT)
        process = starts("10.1.2.3", "--server", here.s1, stdout=full)
        request, itr = s1.recvfrom(65535)
        s1.sendto(map_reply(nonce_of(request), MAPPED), itr)
        _, error = process.communicate(timeout=LIMIT)
        check("an output that is full", (process.returncode, error), (1, "lispd: fault 88\n"))


def without_a_network(_):
    """In a network of its own, whose loopback is down."""
    under = ("unshare", "--user", "--map-root-user", "--net")
    if subprocess.run([*under, "true"], stderr=subprocess.DEVNULL, check=False).returncode:
        return
    for name, words, wanted in (("no route", ("--server", "192.0.2.1"), (2, "", "lispd: fault 131\n")),
                                ("a send that fails", ("--server", "127.0.0.1"), (1, "", "lispd: fault 91\n"))):
        check(name, ended(starts("10.1.2.3", *words, under=under)), wanted)


def an_eid_of_the_other_family(here):
    """The inner header is of the EID's family, its source unspecified; the ITR-RLOC stays in the Map-Request."""
    with peer(here.s1) as s1:
        s1.settimeout(LIMIT)
        process = looks(here, "2001:db8:1:0:0:0:0:5", "--tries", "1", "--from", "127.0.0.9")
        request = s1.recv(65535)
        message = REQUEST[32:52] + REQUEST_IPV6[-20:]
        head = bytearray(REQUEST_IPV6[:52])
        head[8:10] = head[48:50] = (8 + len(message)).to_bytes(2, "big")
        head[12:28] = bytes(16)
        check("its bytes", masked(request).hex(), (bytes(head) + message).hex())
        check("its checksum", is_summed(request), True)
        check("what it comes to", ended(process)[0], 1)


def over_ipv6(here):
    """A Map-Server at ::1, where the machine has IPv6."""
    try:
        s1 = peer("::1")
    except OSError:
        return
    with s1:
        s1.settimeout(LIMIT)
        process = looks(here, "2001:db8:1:0:0:0:0:5", server="0:0:0:0:0:0:0:1")
        request, itr = s1.recvfrom(65535)
        check("its bytes", masked(request).hex(), REQUEST_IPV6.hex())
        check("its ports", (itr[:2], inner_port(request)), (("::1", itr[1]), itr[1]))
        check("its checksum", is_summed(request), True)
        mapped = bytes.fromhex("0000000f" "0130" "0000" "0000" "0002" "20010db8000100000000000000000000" "0164ff00" "0001" "0001" "c0000201")
        s1.sendto(map_reply(nonce_of(request), mapped), itr)
        zeros = ":".join(["0000"] * 5)
        check("what it comes to", ended(process), (0, printed("0000:0000:0000:0000:0000:0000:0000:0001", (
            f"record 2001:0db8:0001:{zeros}/48=15+192.0.2.1/1/100/255/0")), ""))


run_tests([nothing_comes, a_late_map_reply, its_map_request, its_nonces_differ, a_negative_map_reply, the_longest_record_decides, an_eid_prefix,
           what_answers_nothing, words_of_another_form, what_the_system_refuses, without_a_network, an_eid_of_the_other_family],
          [over_ipv6])
