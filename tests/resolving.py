#!/usr/bin/env -S python3 -B
"""resolving.py PROGRAM [TEST ..]
Asks `lispd server` and `lispd router`, whose configuration lists who is answered (`resolve`), by Map-Requests over real sockets (RFC 9301
sections 5.2 to 5.5, 8.2 and 8.3), as bytes of our own and by `lispd look`: the bytes of each Map-Reply beside those that were made by hand,
what goes on to a router, what gets no answer, the lines, and what is counted. Prints each check that fails, and ends with 1 where one does."""
import contextlib
import ipaddress
import re
import shutil
import subprocess
import time
from pathlib import Path

from asking import (Everywhere, Itr, Sent, a_server, arrivals, check_budget, counts_of, encapsulated, hole, itrs_of, lines, map_request, packed,
                    record, register, registered, registration, reply_of, resolves, stamped)
from messages import Encapsulated, capture_of
from nodes import LIMIT, PORT, XTR, check, is_bound, is_up, killed, next_line, peer, ran, received, run_tests, until
from sockets import check_below, slower

# What is registered: by proxy 10.1.0.0/16 for a day and 10.1.4.0/24 for an hour, and 10.1.2.0/24 by a router that replies by itself.
WIDE, SHORT, OWN = registered("10.1.0.0/16"), registered("10.1.4.0/24", ttl=60), registered("10.1.2.0/24", locators=["192.0.2.2"])
# Map-Replies without their nonces, made by hand: of the short row, and of the wide one with those inside it.
SHORT_REPLY = "20000001" "0000003c01180000000000010a0104000164ff0000010001c0000201"
WIDE_REPLY = ("20000003" "0000003c01100000000000010a0100000164ff0000010001c0000201" "0000003c00184000000000010a010200"
              "0000003c01180000000000010a0104000164ff0000010001c0000201")
# A negative one, of 11.0.0.0/8 for 15 minutes.
OUTSIDE_REPLY = "20000001" "0000000f00082000000000010b000000"
AFTER = re.compile(r"after \d+ ms")
# For how many seconds a Map-Server is starting, where that is tried.
QUIET = 6


@contextlib.contextmanager
def a_network(here, quiet=0, **how):
    """Map-Server s1 with those three rows, ITRs of ours, and the socket of the router that replies by itself."""
    resolves(here, "s1", **how)
    process = a_server(here, quiet=quiet)
    with peer(here.r1) as r1, peer(here.r2) as r2:
        register(here, r1, 1, WIDE, SHORT)
        register(here, r2, 1, OWN, proxy=False, xtr=XTR + 1)
        check("they are accepted", lines(process, 2),
              [f"accepted s1 r1 key 1 nonce 1 from {here.r1}", f"accepted s1 r2 key 1 nonce 1 from {here.r2}"])
        # (The Map-Notify for the second one.)
        received(r2, 0.01)
        yield process, itrs_of(here), r2


def looked(eid, server, *more):
    """What `lispd look` comes to."""
    status, out, error = ran("look", eid, "--server", server, *more)
    return status, AFTER.sub("after N ms", out), error


def counted(here, name, *words):
    """How many it counts, of lines with these words or of other things; None of what isn't there."""
    found = counts_of(ran("ask", f"{here.folder}/{name}", "counts")[1])
    return [found.get(it) for it in words]


def by_proxy(here):
    """The row's record without A and L, and those of rows inside it: ACT 2 and no locators where the router replies by itself. All have one
    TTL."""
    with a_network(here) as (process, itrs, _):
        for eid, reply, count in (("10.1.4.1/32", SHORT_REPLY, 1), ("10.1.4.0/25", SHORT_REPLY, 1), ("10.1.3.4/32", WIDE_REPLY, 3),
                                  ("10.1.0.0/16", WIDE_REPLY, 3), ("10.1.4.0/23", WIDE_REPLY, 3)):
            itr = next(itrs)
            check(f"the Map-Reply for {eid}", itr.asked(here.s1, eid), (reply, here.s1))
            check("its line", next_line(process), f"replied s1 {eid} to {itr.address} records {count}")
        status, out, error = looked("10.1.3.4", here.s1, "--from", next(itrs).address)
        check("look", (status, out.splitlines(), error),
              (0, [f"reply from {here.s1} after N ms", "record 10.1.0.0/16=60+192.0.2.1/1/100/255/0",
                   "negative 10.1.2.0/24=60 Send-Map-Request: packets make an ITR ask again", "record 10.1.4.0/24=60+192.0.2.1/1/100/255/0"], ""))
        check("what is counted", counted(here, "s1", "requests", "replied", "negative"), [6, 6, None])
        check("the slowest", 0 < counted(here, "s1", "slowest_reply_us")[0] < LIMIT * 10**6, True)


def on_to_a_router(here):
    """The datagram as it came, once, and nothing to the ITR. A second one in the same second is only counted."""
    with a_network(here) as (process, itrs, r2):
        itr = next(itrs)
        sent = itr.asks(here.s1, "10.1.2.1/32")
        r2.settimeout(LIMIT)
        message, source = r2.recvfrom(65535)
        check("what the router gets", (message.hex(), source), (sent.hex(), (here.s1, PORT)))
        check("its line", next_line(process), f"forwarded s1 10.1.2.1/32 to {here.r2}")
        # Free bits, bytes after the Map-Request, and no checksum stay as they are.
        inner = bytearray(encapsulated(itr.message("10.1.2.0/24") + b"behind", itr.address, "10.1.2.0/24", itr.port))
        inner[1:4], inner[30:32] = b"\1\2\3", bytes(2)
        itr.socket.sendto(inner, (here.s1, PORT))
        check("with other bits", r2.recv(65535).hex(), inner.hex())
        check("no Map-Reply", (itr.reply(0.1), received(r2, 0.05)), (None, []))
        check("what is counted", counted(here, "s1", "requests", "forwarded", "replied"), [2, 2, None])


def several_records(here):
    """Each is answered by itself, in their order; the Map-Request goes on once."""
    with a_network(here) as (process, itrs, r2):
        itr = next(itrs)
        sent = itr.asks(here.s1, "10.1.4.1", "11.0.0.1", "10.1.2.1", "10.1.3.4", "10.1.2.9")
        check("the Map-Replies", [itr.reply() for _ in range(3)], [(it, here.s1) for it in (SHORT_REPLY, OUTSIDE_REPLY, WIDE_REPLY)])
        check("what goes on", [it.hex() for it in received(r2, 0.1)], [sent.hex()])
        check("its lines", lines(process, 5), [
            f"replied s1 10.1.4.1/32 to {itr.address} records 1", f"negative s1 11.0.0.1/32 to {itr.address} prefix 11.0.0.0/8",
            f"forwarded s1 10.1.2.1/32 to {here.r2}", f"replied s1 to {itr.address} times 1", f"forwarded s1 to {here.r2} times 1"])
        check("what is counted", counted(here, "s1", "requests", "replied", "negative", "forwarded"), [1, 2, 1, 2])


def negative_replies(here):
    """The least-specific prefix without a row and without a site, for 15 minutes; or within a site, for a minute."""
    resolves(here, "s1")
    process, itrs = a_server(here), itrs_of(here)
    outside = [("11.0.0.1", "11.0.0.0/8", 15), ("10.2.0.1", "10.2.0.0/15", 15), ("10.0.255.255", "10.0.0.0/16", 15),
               ("192.0.2.1", "128.0.0.0/1", 15), ("10.0.0.0/8", "10.0.0.0/16", 15), ("0.0.0.0/0", "0.0.0.0/5", 15)]
    empty = [("10.1.200.1", "10.1.0.0/16", 1)]
    mapped = [("10.1.200.1", "10.1.128.0/17", 1), ("10.1.3.1", "10.1.3.0/24", 1), ("10.1.0.0/16", "10.1.0.0/23", 1), ("10.1.5.1", "10.1.5.0/24", 1)]
    with peer(here.r1) as r1:
        for cases in (outside + empty, outside + mapped):
            for eid, prefix, minutes in cases:
                itr, asked = next(itrs), eid if "/" in eid else f"{eid}/32"
                check(f"no row has {eid}", itr.asked(here.s1, eid), (reply_of(hole(prefix, minutes)), here.s1))
                check("its line", next_line(process), f"negative s1 {asked} to {itr.address} prefix {prefix}")
            if cases[-1] in empty:
                register(here, r1, 1, SHORT, OWN)
                check("rows come", next_line(process), f"accepted s1 r1 key 1 nonce 1 from {here.r1}")
        check("the bytes", next(itrs).asked(here.s1, "11.0.0.1"), (OUTSIDE_REPLY, here.s1))
        check("look", looked("11.0.0.1", here.s1, "--from", next(itrs).address),
              (4, f"reply from {here.s1} after N ms\nnegative 11.0.0.0/8=15 Natively-Forward: packets go on without LISP\n", "lispd: fault 133\n"))


def the_first_minute(here):
    """A Map-Server that is starting says nothing that may be wrong, and forwards."""
    begun = time.monotonic()
    with a_network(here, quiet=QUIET) as (process, itrs, r2):
        for eid in ("11.0.0.1", "10.1.4.1"):
            itr = next(itrs)
            itr.asks(here.s1, eid)
            check("it is silent", next_line(process), f"unanswered s1 {eid}/32 to {itr.address}")
            check("nothing is sent", itr.reply(0.05), None)
        # A row of the whole prefix of a site stays what it is, whatever comes.
        itr = next(itrs)
        check("a site's prefix", itr.asked(here.s1, "10.1.3.4"), (WIDE_REPLY, here.s1))
        sent = itr.asks(here.s1, "10.1.2.1")
        check("what goes on", [it.hex() for it in received(r2, 0.2)], [sent.hex()])
        check("their lines", lines(process, 2), [f"replied s1 10.1.3.4/32 to {itr.address} records 3", f"forwarded s1 10.1.2.1/32 to {here.r2}"])
        check("what is counted", counted(here, "s1", "requests", "unanswered"), [4, 2])
        check_below("seconds until then", time.monotonic() - begun, QUIET)
        time.sleep(max(0, begun + QUIET + 1 - time.monotonic()))
        check("and then no site", next(itrs).asked(here.s1, "11.0.0.1"), (OUTSIDE_REPLY, here.s1))
        check("a longer row", next(itrs).asked(here.s1, "10.1.4.1"), (SHORT_REPLY, here.s1))


def over_budget(here):
    """Of what one ITR asks for within a second or two, 4,096 bytes go out; a line says that more is held back. Others are answered."""
    count, fits = 200, 4_096 // (len(SHORT_REPLY) // 2 + 8)
    with a_network(here) as (process, itrs, _):
        itr = next(itrs)
        stamped(itr.socket)
        for _ in range(count):
            itr.asks(here.s1, "10.1.4.1")
            time.sleep(0.003)
        check("another one is answered", next(itrs).asked(here.s1, "10.1.4.1"), (SHORT_REPLY, here.s1))
        got = arrivals(itr.socket, 0.3)
        check_budget("what goes out", got)
        check_below("how many don't go out", count - len(got), count - fits)
        check("what is counted", counted(here, "s1", "requests", "replied", "refused 135"), [count + 1, count + 1, count - len(got)])
        check("its first line", next_line(process), f"replied s1 10.1.4.1/32 to {itr.address} records 1")
        # (Sums of a second that was over meanwhile may come first.)
        check("a later one", f"refused s1 135 from {itr.address}" in (next_line(process) for _ in range(6)), True)
        time.sleep(2.1)
        check("and later again", itr.asked(here.s1, "10.1.4.1"), (SHORT_REPLY, here.s1))


def the_minute_is_60_seconds(here):
    """Where nothing else is said."""
    resolves(here, "s1")
    process = here.start(*here.words("server", "s1"))
    is_up(here.s1)
    itr = next(itrs_of(here))
    itr.asks(here.s1, "11.0.0.1")
    check("it is silent", next_line(process), f"unanswered s1 11.0.0.1/32 to {itr.address}")
    time.sleep(2)
    itr.asks(here.s1, "11.0.0.1")
    check("and after two seconds", next_line(process), f"unanswered s1 11.0.0.1/32 to {itr.address}")


def a_router_of_ours(here):
    """A router that registers with a Map-Server, and the lines of both; its record has its own address as a locator."""
    config = Path(here.config)
    config.write_text(config.read_text().replace("10.1.2.0/24=1440+192.0.2.2", f"10.1.2.0/24=1440+{here.r2}+192.0.2.2"))
    resolves(here, "s1", "r2")
    server = a_server(here)
    router = here.start(*here.words("router", "r2"), env=slower())
    check("it is accepted", next_line(server), f"accepted s1 r2 key 1 nonce 1 from {here.r2}")
    check("it is counted", lines(router, 2), ["sent r2 s1 key 1 nonce 1", f"counted r2 s1 key 1 nonce 1 from {here.s1}"])
    return server, router


def of_router(here, flags=5):
    """Its record in a Map-Reply (L and R are set in each locator): the bits of its own locator may differ."""
    first = record("10.1.2.0/24", own=True, flags=flags, locators=[here.r2])
    second = record("10.1.2.0/24", own=True, flags=5, locators=["192.0.2.2"])
    return first[:4] + b"\2" + first[5:] + second[16:]


def a_router_replies(here):
    """To what its Map-Server forwards, with A set and its locators as they are configured, straight to the ITR."""
    server, router = a_router_of_ours(here)
    itr, other, *_ = itrs_of(here)
    check("the Map-Reply", itr.asked(here.s1, "10.1.2.1"), (reply_of(of_router(here)), here.r2))
    check("the Map-Server", next_line(server), f"forwarded s1 10.1.2.1/32 to {here.r2}")
    check("the router", next_line(router), f"replied r2 10.1.2.1/32 to {itr.address} records 1")
    check("no other", itr.reply(0.1), None)
    status, out, error = looked("10.1.2.1", here.s1, "--from", other.address)
    check("look", (status, out, error),
          (0, f"reply from {here.r2} after N ms\nrecord 10.1.2.0/24=1440+{here.r2}/1/100/255/0+192.0.2.2/1/100/255/0\n", ""))
    check("what both count", counted(here, "s1", "requests", "forwarded") + counted(here, "r2", "requests", "replied"), [2] * 4)


def a_router_that_is_asked(here):
    """By Map-Requests that came alone, to the port that they came from; by probes; for what it hasn't."""
    _, router = a_router_of_ours(here)
    itrs = itrs_of(here)
    for name, letters, wanted in (("alone", "", reply_of(of_router(here))), ("a probe", "P", reply_of(of_router(here, flags=7), probe=True))):
        itr = next(itrs)
        itr.asks_plainly(here.r2, "10.1.2.1", letters=letters)
        check(f"{name}: the Map-Reply", itr.reply(), (wanted, here.r2))
        check(f"{name}: its line", next_line(router), f"replied r2 10.1.2.1/32 to {itr.address} records 1")
    itr = next(itrs)
    check("encapsulated", itr.asked(here.r2, "10.1.2.0/25"), (reply_of(of_router(here)), here.r2))
    check("its line", next_line(router), f"replied r2 10.1.2.0/25 to {itr.address} records 1")
    itr.asks_plainly(here.r2, "10.1.9.9")
    check("what it hasn't", itr.reply(), (reply_of(hole("10.1.8.0/21", 1, own=True)), here.r2))
    check("its line", next_line(router), f"negative r2 10.1.9.9/32 to {itr.address} prefix 10.1.8.0/21")
    for letters, rlocs, number in (("D", None, 128), ("S", None, 126), ("", ["192.0.2.9"], 130)):
        itr.asks_plainly(here.r2, "10.1.2.1", letters=letters, rlocs=rlocs)
        check(f"refused {number}", next_line(router), f"refused r2 {number} from {itr.address}")
    check("no other Map-Reply", itr.reply(0.1), None)


def a_large_reply(here):
    """One of more bytes than the budget is never sent; with a greater budget it is."""
    resolves(here, "s1")
    inside, itrs = [registered(f"10.1.{place}.0/24", ttl=60) for place in range(200)], itrs_of(here)
    for nonce, (words, size) in enumerate((((), 0), (("--budget", "16396"), 12 + 201 * 28)), 1):
        process, itr = a_server(here, *words), next(itrs)
        with peer(here.r1) as r1:
            register(here, r1, nonce, WIDE, *inside)
        itr.asks(here.s1, "10.1.200.1")
        told = [f"accepted s1 r1 key 1 nonce {nonce} from {here.r1}", f"replied s1 10.1.200.1/32 to {itr.address} records 201"]
        told += [] if size else [f"refused s1 135 from {itr.address}"]
        check("its lines", lines(process, len(told)), told)
        if size:
            itr.socket.settimeout(LIMIT)
            message = itr.socket.recv(65535)
            check("its size and its records", (len(message), message[3]), (size, 201))
        else:
            check("no Map-Reply", received(itr.socket, 0.1), [])
        killed(process)


def what_is_refused(here):
    """Nothing goes out, to whomever, and a line says why: forged ITR-RLOCs, bits that a Map-Server doesn't serve, bytes that are no
    Encapsulated Map-Request."""
    listed, stranger = f"{here.front}9", f"{here.front}200"
    with a_network(here, prefixes=[f"{here.front}0/25"]) as (process, itrs, r2), Everywhere() as everywhere, Sent(here.s1) as sent:
        def ask(number, eid, *, rlocs=(listed,), letters=""):
            ask_bytes(number, encapsulated(map_request(7, eid, rlocs=rlocs, letters=letters), listed, eid, everywhere.port))

        def ask_bytes(number, message):
            itr = next(itrs)
            itr.socket.sendto(message, (here.s1, PORT))
            check(f"refused {number}, {message.hex()}", next_line(process), f"refused s1 {number} from {itr.address}")

        for eid in ("10.1.4.1", "10.1.2.1", "11.0.0.1"):
            for number, rlocs in ((130, [stranger]), (130, [stranger, listed]), (130, ["2001:db8::1", stranger, listed]), (130, ["192.0.2.1"]),
                                  (129, ["2001:db8::1", "::1"])):
                ask(number, eid, rlocs=rlocs)
            for letters, number in (("D", 128), ("P", 127), ("S", 126), ("DPS", 126), ("DP", 127)):
                ask(number, eid, letters=letters)
        good = encapsulated(map_request(7, "10.1.4.1", rlocs=["2001:db8::1", listed, stranger]), listed, "10.1.4.1", everywhere.port)
        for number, message in ((111, map_request(7, "10.1.4.1", rlocs=[listed])), (112, bytes([good[0] | 8]) + good[1:]), (110, good[:3]),
                                (121, good[:-1] + bytes([good[-1] ^ 1])),
                                (122, encapsulated(map_request(7, rlocs=[listed]), listed, "10.1.4.1", everywhere.port))):
            ask_bytes(number, message)
        check("nothing came to any address", everywhere.arrivals(0.2), [])
        check("nothing went out", sent.datagrams(), [])
        check("nothing went on", received(r2, 0.05), [])
        next(itrs).socket.sendto(good, (here.s1, PORT))
        check("one that is taken", [(address, data[12:].hex()) for _, address, data in everywhere.arrivals(0.5)], [(listed, SHORT_REPLY[8:])])
        if sent.is_shown:
            check("is all that is sent", [it[1:3] for it in sent.datagrams()], [(listed, everywhere.port)])
        else:
            print("resolving.py: what goes out is shown to root alone: of what is refused only one UDP port was watched")


def without_resolve(here):
    """A Map-Request is refused as any other datagram."""
    server, router = here.start(*here.words("server", "s1")), here.start(*here.words("router", "r2"), env=slower())
    check("it is accepted", next_line(server), f"accepted s1 r2 key 1 nonce 1 from {here.r2}")
    check("the router", lines(router, 2), ["sent r2 s1 key 1 nonce 1", f"counted r2 s1 key 1 nonce 1 from {here.s1}"])
    itrs = itrs_of(here)
    for process, name, address, number in ((server, "s1", here.s1, 50), (router, "r2", here.r2, 43)):
        for ask in (Itr.asks, Itr.asks_plainly):
            itr = next(itrs)
            ask(itr, address, "10.1.2.1")
            check(f"{name} refuses", next_line(process), f"refused {name} {number} read 10 from {itr.address}")
            check("no Map-Reply", itr.reply(0.1), None)


def over_ipv6(here):
    """A Map-Server at ::1, which an ITR asks from there, where the machine has IPv6."""
    loopback, exploded = "::1", "0:0:0:0:0:0:0:1"
    config = Path(here.config)
    text = config.read_text().replace(f'"{here.s1}"', f'"{exploded}"')
    config.write_text(text.replace('eid = "10.1.0.0/16"', 'eid = "2001:db8:0:0:0:0:0:0/32"'))
    resolves(here, "s1", prefixes=["0:0:0:0:0:0:0:0/64"])
    try:
        itr = Itr(loopback)
    except OSError as error:
        print(f"resolving.py: no socket at {loopback} ({error.strerror}): nothing was asked over IPv6")
        return
    with itr:
        check("nobody else is at the port", until(lambda: not is_bound(loopback)), True)
        process = here.start(*here.words("server", "s1", "--quiet", "0"))
        check("it is up", is_up(loopback), True)
        itr.socket.sendto(registration(1, registered("2001:db8:1::/48", locators=["2001:db8::1"]), notify=False), (loopback, PORT))
        to = ipaddress.ip_address(loopback).exploded
        check("it is accepted", next_line(process), f"accepted s1 r1 key 1 nonce 1 from {to}")
        for eid, wanted, line in (
                ("2001:db8:1::5", record("2001:db8:1::/48", locators=["2001:db8::1"]), "replied s1 2001:db8:1::5/128 to ::1 records 1"),
                ("2001:db8:2::1", hole("2001:db8:2::/47", 1), "negative s1 2001:db8:2::1/128 to ::1 prefix 2001:db8:2::/47"),
                ("fd00::1", hole("8000::/1", 15), "negative s1 fd00::1/128 to ::1 prefix 8000::/1"),
                ("11.0.0.1", hole("0.0.0.0/0", 15), "negative s1 11.0.0.1/32 to ::1 prefix 0.0.0.0/0")):
            check(f"the Map-Reply for {eid}", itr.asked(loopback, eid), (reply_of(wanted), loopback))
            check("its line", next_line(process), " ".join(map(spelled, line.split())))
            # (What is said of one address in a second is summed.)
            time.sleep(1.1)
        itr.asks(loopback, "2001:db8:1::5", rlocs=["fd00::9"])
        check("an ITR-RLOC that isn't listed", next_line(process), f"refused s1 130 from {to}")
        check("no Map-Reply", itr.reply(0.1), None)
        status, out, error = looked("2001:db8:1:0:0:0:0:5", exploded)
        check("look", (status, out.splitlines(), error), (0, [
            f"reply from {to} after N ms", f"record {spelled('2001:db8:1::/48')}=1440+{spelled('2001:db8::1')}/1/100/255/0"], ""))


def spelled(word):
    """A word of a line, in which the groups of an IPv6 address have four digits each."""
    address, slash, length = word.partition("/")
    return f"{ipaddress.ip_address(address).exploded}{slash}{length}" if "::" in address else word


def as_tshark_reads_it(here):
    """Where it is installed: a Map-Request as it is sent, and its Map-Reply, which are read whole, without a word of complaint."""
    tshark = shutil.which("tshark")
    if not tshark:
        print("resolving.py: tshark is not installed: it read no look-up")
        return
    with a_network(here) as (_, itrs, r2):
        itr, packets = next(itrs), []
        for eid in ("10.1.3.4", "11.0.0.1"):
            itr.socket.settimeout(LIMIT)
            asked = itr.asks(here.s1, eid)
            message = itr.socket.recv(65535)
            packets += [Encapsulated(packed(itr.address), packed(here.s1), itr.port, asked),
                        Encapsulated(packed(here.s1), packed(itr.address), PORT, message)]
        itr.asks(here.s1, "10.1.2.1")
        r2.settimeout(LIMIT)
        packets.append(Encapsulated(packed(here.s1), packed(here.r2), PORT, r2.recv(65535)))
    file = Path(f"{here.folder}/look.pcap")
    file.write_bytes(capture_of(packets))
    fields = [word for name in ("lisp.type", "lisp.nonce", "_ws.malformed", "_ws.expert.message") for word in ("-e", name)]
    done = subprocess.run([tshark, "-n", "-r", str(file), "-o", "ip.check_checksum:TRUE", "-o", "udp.check_checksum:TRUE", "-T", "fields", *fields],
                          capture_output=True, text=True, timeout=300, check=False)
    found = [line.split("\t") for line in done.stdout.splitlines()]
    check("how each is read", [it[:1] + it[2:] for it in found], [["8,1", "", ""], ["2", "", ""]] * 2 + [["8,1", "", ""]])


run_tests([the_first_minute, over_budget, a_large_reply, by_proxy, on_to_a_router, several_records, negative_replies,
           the_minute_is_60_seconds, a_router_replies, a_router_that_is_asked, what_is_refused, without_resolve, as_tshark_reads_it], [over_ipv6])
