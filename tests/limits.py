#!/usr/bin/env -S python3 -B
"""limits.py PROGRAM
Plays Map-Registers at, below and above each limit of a site. A row of CASES has the site's limits as its configuration has them, and
Map-Registers in their order, each with what a Map-Server is to say of it by the checks of docs/PROTOCOL.md; time passes between some. After
each one the rows are those of what was accepted so far and is alive, and at the end of a row, before and after a restart, the last nonce of
each router and key is the last that was accepted. Further rows are drawn, of limits on what is held: what is to be said there is reckoned
from what is alive before and after. Many rows are one play, each at a Map-Server and over sites of its own. Prints each row that differs, and
ends with 1 where one does. (What a limit may not be in a configuration is in refused.txt.)"""
import collections
import hashlib
import hmac
import ipaddress
import random
import subprocess
import sys
from itertools import zip_longest

SECRETS = {1: b"secret", 2: b"another secret"}
GREATEST = 2**64 - 1
NO_TIME = 0xFFFFFFFF
MINUTE, LIFE = 60_000, 180_000
RESTART = "restart"
# The rows that are drawn: in how many plays, of how many such rows, of how many Map-Registers each.
SEED, PLAYS, ROWS, LENGTH = 1, 3, 20, 60
# Time that passes, in ms.
Tick = collections.namedtuple("Tick", "time")
# What is held of a record: when it was accepted, for how long it lives, and what `hold` prints of it.
Row = collections.namedtuple("Row", "accepted life minutes key nonce")


class Register:
    """A Map-Register (RFC 9301 section 5.6) that comes from an address. Its records are pairs of a prefix and a TTL, without RLOCs. Site 1
    is that of the row with the limits, site 2 one without, and site 3 isn't configured."""

    def __init__(self, *records, nonce=1, xtr=0xA, source="192.0.2.7", site=1, key=1, use_ttl=False, merge=False, secret=None):
        self.records = [(ipaddress.ip_interface(prefix), ttl) for prefix, ttl in records or [("10.1.0.0/16", 1440)]]
        self.nonce, self.xtr, self.source, self.site, self.key, self.use_ttl = nonce, xtr, source, site, key, use_ttl
        self.flags = 8 * use_ttl + 4 * merge
        self.secret = secret or SECRETS.get(key, b"secret")

    def rows(self, moment):
        """The row of each of its prefixes, by site, router and prefix: of several records for one the last."""
        def life(minutes):
            return 0 if minutes == 0 else minutes * MINUTE if self.use_ttl and minutes != NO_TIME else LIFE
        return {(self.site, self.xtr, eid.network): Row(moment, life(minutes), minutes, self.key, self.nonce) for eid, minutes in self.records}

    def command(self, row):
        def record(eid, ttl):
            family = 1 if eid.version == 4 else 2
            return ttl.to_bytes(4, "big") + bytes([0, eid.network.prefixlen, 0x10, 0, 0, 0, 0, family]) + eid.ip.packed
        head = bytes([0x32, 0, self.flags, len(self.records)]) + self.nonce.to_bytes(8, "big") + bytes([self.key, 2, 0, 16])
        rest = b"".join(record(*it) for it in self.records) + self.xtr.to_bytes(16, "big") + bytes.fromhex(site_id(row, self.site))
        tag = hmac.new(self.secret, head + bytes(16) + rest, hashlib.sha256).digest()[:16]
        return f"junk s{row} {self.source} {(head + tag + rest).hex()}"


def site_id(row, site):
    return f"{row:08x}{site:08x}"


def ttl(minutes, use_ttl=True, nonce=1):
    return Register(("10.1.0.0/16", minutes), use_ttl=use_ttl, nonce=nonce)


def nonce(number, **fields):
    return Register(nonce=number, **fields)


def router(xtr, **fields):
    return Register(xtr=xtr, **fields)


def source(address, **fields):
    return Register(source=address, **fields)


def listed(*xtrs):
    return "routers = [" + ", ".join(f'"{xtr:032x}"' for xtr in xtrs) + "]"


def sends(nonce, *records, **fields):
    """A Map-Register of these records: a number is the prefix of that number, which lives for three minutes, a negative one withdraws it."""
    return Register(*(it if isinstance(it, tuple) else (eid(abs(it)), 1440 * (it > 0)) for it in records), nonce=nonce, **fields)


def eid(number):
    return f"10.1.{number}.0/24"


def without_records(nonce, **fields):
    found = Register(nonce=nonce, **fields)
    found.records = []
    return found


IPV6 = "2001:0db8:0000:0000"
ACCEPTED = "accepted"
CASES = [
    ("no limits: any router, source, TTL and nonce", "",
     [(router(GREATEST, source="203.0.113.1"), ACCEPTED), (ttl(NO_TIME - 1), ACCEPTED), (nonce(GREATEST, use_ttl=True), ACCEPTED)]),

    # routers, in one of which each bit may differ alone.
    ("the router that is listed", listed(0xA), [(router(0xA), ACCEPTED)]),
    ("a router one below", listed(0xA), [(router(0x9), "69")]),
    ("a router one above", listed(0xA), [(router(0xB), "69")]),
    ("a router whose first bit differs", listed(0xA), [(router(2**127 + 0xA), "69")]),
    ("the last of three that are listed", listed(1, 2**128 - 1, 3),
     [(router(3), ACCEPTED), (router(2**128 - 1), ACCEPTED), (router(2), "69")]),
    ("the router of zeros", listed(0), [(router(0), ACCEPTED), (router(1), "69")]),
    ("digits in upper case", listed(0xABC).replace("abc", "ABC"), [(router(0xABC), ACCEPTED)]),
    ("a router under another key", listed(0xA), [(router(0xA, key=2), ACCEPTED), (router(0xB, key=2), "69")]),
    ("the greatest router", listed(2**128 - 1), [(router(2**128 - 1), ACCEPTED), (router(2**128 - 2), "69")]),
    ("the site that has no list", listed(0xA), [(router(0xB, site=2), ACCEPTED), (router(0xB), "69")]),

    # from
    ("one below the prefix", 'from = ["192.0.2.0/24"]', [(source("192.0.1.255"), "136")]),
    ("the first address of the prefix", 'from = ["192.0.2.0/24"]', [(source("192.0.2.0"), ACCEPTED)]),
    ("the last address of the prefix", 'from = ["192.0.2.0/24"]', [(source("192.0.2.255"), ACCEPTED)]),
    ("one above the prefix", 'from = ["192.0.2.0/24"]', [(source("192.0.3.0"), "136")]),
    ("bits past the mask", 'from = ["192.0.2.77/24"]', [(source("192.0.2.0"), ACCEPTED), (source("192.0.3.77", nonce=2), "136")]),
    ("one address", 'from = ["192.0.2.9/32"]',
     [(source("192.0.2.8"), "136"), (source("192.0.2.9"), ACCEPTED), (source("192.0.2.10", nonce=2), "136")]),
    ("two prefixes, and what is between them", 'from = ["192.0.2.16/28", "192.0.2.48/28"]',
     [(source("192.0.2.31"), ACCEPTED), (source("192.0.2.32", nonce=2), "136"), (source("192.0.2.47", nonce=2), "136"),
      (source("192.0.2.48", nonce=2), ACCEPTED)]),
    ("a prefix twice", 'from = ["192.0.2.9/32", "192.0.2.9/32"]', [(source("192.0.2.9"), ACCEPTED), (source("192.0.2.10", nonce=2), "136")]),
    ("one below the prefix of IPv6", f'from = ["{IPV6}:0001:0:0:0/80"]', [(source(f"{IPV6}:0000:ffff:ffff:ffff"), "136")]),
    ("the first address of the prefix of IPv6", f'from = ["{IPV6}:0001:0:0:0/80"]', [(source(f"{IPV6}:0001:0:0:0"), ACCEPTED)]),
    ("the last address of the prefix of IPv6", f'from = ["{IPV6}:0001:0:0:0/80"]', [(source(f"{IPV6}:0001:ffff:ffff:ffff"), ACCEPTED)]),
    ("one above the prefix of IPv6", f'from = ["{IPV6}:0001:0:0:0/80"]', [(source(f"{IPV6}:0002:0:0:0"), "136")]),
    ("each address of one family", 'from = ["0.0.0.0/0"]',
     [(source("0.0.0.0"), ACCEPTED), (source("255.255.255.255", nonce=2), ACCEPTED), (source("0:0:0:0:0:0:0:0", nonce=3), "136")]),
    ("each address of the other family", 'from = ["0:0:0:0:0:0:0:0/0"]',
     [(source("0:0:0:0:0:0:0:1"), ACCEPTED), (source("0.0.0.1", nonce=2), "136")]),
    ("an IPv4 address within IPv6", 'from = ["192.0.2.9/32"]', [(source("0:0:0:0:0:ffff:c000:0209"), "136")]),

    # least_ttl and most_ttl, where a record lives for its TTL.
    ("one below the least TTL", "least_ttl = 10", [(ttl(9), "137 record 0")]),
    ("the least TTL", "least_ttl = 10", [(ttl(10), ACCEPTED)]),
    ("one above the least TTL, and the greatest", "least_ttl = 10", [(ttl(11), ACCEPTED), (ttl(NO_TIME - 1, nonce=2), ACCEPTED)]),
    ("one below the most TTL, and the least", "most_ttl = 1440", [(ttl(1439), ACCEPTED), (ttl(1, nonce=2), ACCEPTED)]),
    ("the most TTL", "most_ttl = 1440", [(ttl(1440), ACCEPTED)]),
    ("one above the most TTL", "most_ttl = 1440", [(ttl(1441), "137 record 0")]),
    ("both bounds alike", "least_ttl = 60\nmost_ttl = 60", [(ttl(59), "137 record 0"), (ttl(60), ACCEPTED), (ttl(61, nonce=2), "137 record 0")]),
    ("the least TTL of one minute", "least_ttl = 1", [(ttl(1), ACCEPTED)]),
    ("the most TTL of one minute", "most_ttl = 1", [(ttl(1), ACCEPTED), (ttl(2, nonce=2), "137 record 0")]),
    ("the greatest bounds", "least_ttl = 4294967294\nmost_ttl = 4294967294", [(ttl(NO_TIME - 2), "137 record 0"), (ttl(NO_TIME - 1), ACCEPTED)]),
    ("one above a great bound", "most_ttl = 4294967293", [(ttl(NO_TIME - 2), ACCEPTED), (ttl(NO_TIME - 1, nonce=2), "137 record 0")]),
    ("TTLs that end in the bytes of the bounds", "least_ttl = 10\nmost_ttl = 300",
     [(ttl(256), ACCEPTED), (ttl(65546, nonce=2), "137 record 0"), (ttl(2**31, nonce=2), "137 record 0"), (ttl(9 + 256, nonce=2), ACCEPTED)]),
    ("a withdrawal", "least_ttl = 10\nmost_ttl = 1440", [(ttl(10), ACCEPTED), (ttl(0, nonce=2), ACCEPTED)]),
    ("the TTL that is no time", "least_ttl = 10\nmost_ttl = 1440", [(ttl(NO_TIME), ACCEPTED)]),
    ("without bit T", "least_ttl = 10\nmost_ttl = 1440",
     [(ttl(9, use_ttl=False), ACCEPTED), (ttl(1441, use_ttl=False, nonce=2), ACCEPTED), (ttl(0, use_ttl=False, nonce=3), ACCEPTED)]),
    ("the second of three records", "least_ttl = 10\nmost_ttl = 1440",
     [(Register(("10.1.0.0/16", 10), ("10.1.1.0/24", 9), ("10.1.2.0/24", 1441), use_ttl=True), "137 record 1")]),
    ("the last of three records", "least_ttl = 10\nmost_ttl = 1440",
     [(Register(("10.1.0.0/16", 10), ("10.1.1.0/24", 0), ("10.1.2.0/24", 1441), use_ttl=True), "137 record 2")]),
    ("three records within the bounds", "least_ttl = 10\nmost_ttl = 1440",
     [(Register(("10.1.0.0/16", 10), ("10.1.1.0/24", 0), ("10.1.2.0/24", 1440), use_ttl=True), ACCEPTED)]),

    # most_jump
    ("any first nonce", "most_jump = 10", [(nonce(GREATEST), ACCEPTED)]),
    ("one below the jump", "most_jump = 10", [(nonce(5), ACCEPTED), (nonce(14), ACCEPTED)]),
    ("the jump", "most_jump = 10", [(nonce(5), ACCEPTED), (nonce(15), ACCEPTED)]),
    ("one above the jump", "most_jump = 10", [(nonce(5), ACCEPTED), (nonce(16), "138 saved 5")]),
    ("the jump after one that was too far", "most_jump = 10",
     [(nonce(5), ACCEPTED), (nonce(GREATEST), "138 saved 5"), (nonce(15), ACCEPTED), (nonce(26), "138 saved 15"), (nonce(25), ACCEPTED)]),
    ("jumps over a restart", "most_jump = 10",
     [(nonce(5), ACCEPTED), (RESTART, None), (nonce(16), "138 saved 5"), (nonce(15), ACCEPTED), (RESTART, None), (RESTART, None),
      (nonce(26), "138 saved 15"), (nonce(25), ACCEPTED)]),
    ("the last nonce and one below it", "most_jump = 10", [(nonce(5), ACCEPTED), (nonce(5), "57 saved 5"), (nonce(4), "57 saved 5")]),
    ("the least jump", "most_jump = 1", [(nonce(0), ACCEPTED), (nonce(2), "138 saved 0"), (nonce(1), ACCEPTED)]),
    ("the greatest jump, from the least nonce", "most_jump = 9223372036854775807",
     [(nonce(0), ACCEPTED), (nonce(2**63), "138 saved 0"), (nonce(2**63 - 1), ACCEPTED)]),
    ("the greatest jump, to the greatest nonce", "most_jump = 9223372036854775807",
     [(nonce(2**63 - 1), ACCEPTED), (nonce(GREATEST), f"138 saved {2**63 - 1}"), (nonce(2**63), ACCEPTED), (nonce(GREATEST), ACCEPTED)]),
    ("a jump that reaches beyond the greatest nonce", "most_jump = 10", [(nonce(GREATEST - 3), ACCEPTED), (nonce(GREATEST), ACCEPTED)]),
    ("another router, another key, another site", "most_jump = 10",
     [(nonce(5), ACCEPTED), (nonce(1000, xtr=0xB), ACCEPTED), (nonce(2000, key=2), ACCEPTED), (nonce(3000, site=2), ACCEPTED),
      (nonce(4000, site=2), ACCEPTED), (nonce(1011, xtr=0xB), "138 saved 1000"), (nonce(2010, key=2), ACCEPTED), (nonce(16), "138 saved 5")]),

    # most_routers
    ("one router", "most_routers = 1",
     [(sends(1, 1), ACCEPTED), (sends(1, 2, xtr=0xB), "139"), (sends(2, 1), ACCEPTED), (sends(3, 2), ACCEPTED), (sends(1, 2, xtr=0xB), "139")]),
    ("one below the most routers, as many, and one more", "most_routers = 3",
     [(sends(1, 1), ACCEPTED), (sends(1, 2, xtr=0xB), ACCEPTED), (sends(1, 3, xtr=0xC), ACCEPTED), (sends(1, 4, xtr=0xD), "139"),
      (sends(2, 1), ACCEPTED), (sends(2, 2, xtr=0xB), ACCEPTED), (sends(2, 3, xtr=0xC), ACCEPTED), (sends(2, 4, xtr=0xD), "139")]),
    ("the greatest number of routers", "most_routers = 4294967295", [(sends(1, 1), ACCEPTED), (sends(1, 1, xtr=0xB), ACCEPTED)]),
    ("routers with one prefix", "most_routers = 2",
     [(sends(1, 1), ACCEPTED), (sends(1, 1, xtr=0xB), ACCEPTED), (sends(1, 1, xtr=0xC), "139")]),
    ("routers that differ in their first bit, and in their last", "most_routers = 2",
     [(sends(1, 1), ACCEPTED), (sends(1, 1, xtr=2**127 + 0xA), ACCEPTED), (sends(1, 1, xtr=0xB), "139"),
      (sends(2, 1, xtr=2**127 + 0xA), ACCEPTED)]),
    ("a router under two keys is one", "most_routers = 1",
     [(sends(1, 1), ACCEPTED), (sends(1, 2, key=2), ACCEPTED), (sends(1, 2, xtr=0xB, key=2), "139")]),
    ("routers of another site", "most_routers = 1",
     [(sends(1, 1, site=2), ACCEPTED), (sends(1, 1, xtr=0xB, site=2), ACCEPTED), (sends(1, 1), ACCEPTED),
      (sends(2, 2, xtr=0xB, site=2), ACCEPTED), (sends(1, 2, xtr=0xB), "139"), (sends(1, 2, xtr=0xC, site=2), ACCEPTED)]),
    ("a router without a row: withdrawals, and no record", "most_routers = 1",
     [(sends(1, 1), ACCEPTED), (sends(1, -1, -2, xtr=0xB), ACCEPTED), (without_records(1, xtr=0xC), ACCEPTED), (sends(2, 2, xtr=0xB), "139"),
      (sends(2, 2, xtr=0xC), "139"), (sends(2, -1, xtr=0xC), ACCEPTED)]),
    ("a router that withdraws makes room for another", "most_routers = 1",
     [(sends(1, 1, 2), ACCEPTED), (sends(2, -1), ACCEPTED), (sends(1, 3, xtr=0xB), "139"), (sends(3, -2), ACCEPTED),
      (sends(1, 3, xtr=0xB), ACCEPTED), (sends(4, 1), "139"), (sends(4, -1), ACCEPTED)]),
    ("a router withdraws its only row, and brings another", "most_routers = 1",
     [(sends(1, 1), ACCEPTED), (sends(2, -1, 2), ACCEPTED), (sends(1, 3, xtr=0xB), "139")]),
    ("the last record of a prefix says whether it is withdrawn", "most_routers = 1",
     [(sends(1, 1), ACCEPTED), (sends(1, -2, 2, xtr=0xB), "139"), (sends(1, 2, -2, xtr=0xB), ACCEPTED), (sends(2, 2, -2, 3, xtr=0xB), "139"),
      (sends(2, 3, 2, -3, -2, xtr=0xB), ACCEPTED)]),
    ("a router whose row dies makes room for another", "most_routers = 1",
     [(sends(1, 1), ACCEPTED), (Tick(LIFE - 1), None), (sends(1, 2, xtr=0xB), "139"), (Tick(1), None), (sends(1, 2, xtr=0xB), ACCEPTED),
      (sends(2, 1), "139")]),
    ("a router that renews in time", "most_routers = 1",
     [(sends(1, 1), ACCEPTED), (Tick(LIFE - 1), None), (sends(2, 1), ACCEPTED), (Tick(LIFE - 1), None), (sends(1, 2, xtr=0xB), "139"),
      (sends(3, 1), ACCEPTED)]),
    ("a router comes back before another one, and behind it", "most_routers = 1",
     [(sends(1, 1), ACCEPTED), (Tick(LIFE), None), (sends(2, 1), ACCEPTED), (Tick(LIFE), None), (sends(1, 1, xtr=0xB), ACCEPTED),
      (sends(3, 1), "139")]),
    ("a row that lives for its TTL", "most_routers = 1",
     [(sends(1, (eid(1), 1), use_ttl=True), ACCEPTED), (Tick(MINUTE - 1), None), (sends(1, 2, xtr=0xB), "139"), (Tick(1), None),
      (sends(1, 2, xtr=0xB), ACCEPTED)]),
    ("a row that lives for long", "most_routers = 1",
     [(sends(1, (eid(1), NO_TIME - 1), use_ttl=True), ACCEPTED), (Tick(1000 * LIFE), None), (sends(1, 2, xtr=0xB), "139"),
      (sends(2, -1), ACCEPTED), (sends(1, 2, xtr=0xB), ACCEPTED)]),
    ("the TTL that is no time, of a row", "most_routers = 1",
     [(sends(1, (eid(1), NO_TIME), use_ttl=True), ACCEPTED), (Tick(LIFE - 1), None), (sends(1, 2, xtr=0xB), "139"), (Tick(1), None),
      (sends(1, 2, xtr=0xB), ACCEPTED)]),
    ("routers over a restart", "most_routers = 1",
     [(sends(1, 1), ACCEPTED), (sends(1, 2, xtr=0xB), "139"), (RESTART, None), (sends(1, 2, xtr=0xB), ACCEPTED), (sends(2, 1), "139"),
      (RESTART, None), (sends(2, 1), ACCEPTED), (sends(2, 2, xtr=0xB), "139")]),
    ("as many routers as are listed", listed(0xA, 0xB) + "\nmost_routers = 2",
     [(sends(1, 1), ACCEPTED), (sends(1, 1, xtr=0xC), "69"), (sends(1, 1, xtr=0xB), ACCEPTED)]),

    # most_rows
    ("one row", "most_rows = 1",
     [(sends(1, 1), ACCEPTED), (sends(2, 2), "140"), (sends(2, 1), ACCEPTED), (sends(1, 1, xtr=0xB), "140"), (sends(3, 1), ACCEPTED)]),
    ("one below the most rows, as many, and one more", "most_rows = 3",
     [(sends(1, 1, 2), ACCEPTED), (sends(1, 1, xtr=0xB), ACCEPTED), (sends(2, 3), "140"), (sends(2, 1, 2), ACCEPTED),
      (sends(2, 1, xtr=0xB), ACCEPTED), (sends(3, 2, xtr=0xB), "140"), (sends(1, 1, xtr=0xC), "140")]),
    ("as many at once, and one more at once", "most_rows = 3",
     [(sends(1, 1, 2, 3, 4), "140"), (sends(1, 1, 2, 3), ACCEPTED), (sends(2, 4), "140")]),
    ("the greatest number of rows", "most_rows = 4294967295", [(sends(1, 1, 2, 3), ACCEPTED), (sends(1, 1, xtr=0xB), ACCEPTED)]),
    ("none of several new rows is set", "most_rows = 3",
     [(sends(1, 1, 2), ACCEPTED), (sends(2, 3, 4), "140"), (sends(2, 3), ACCEPTED), (sends(3, 4), "140")]),
    ("renewals beside a new row", "most_rows = 2",
     [(sends(1, 1, 2), ACCEPTED), (sends(2, 1, 2, 3), "140"), (sends(2, 3, 1, 2), "140"), (sends(2, 2, 1), ACCEPTED), (sends(3, 1), ACCEPTED)]),
    ("a withdrawal makes room in its message", "most_rows = 2",
     [(sends(1, 1, 2), ACCEPTED), (sends(2, -1, 3), ACCEPTED), (sends(3, 4, -2), ACCEPTED), (sends(4, 1, 2, -3), "140"),
      (sends(4, 1, -3, 2, -4), ACCEPTED)]),
    ("a withdrawal makes room afterwards", "most_rows = 2",
     [(sends(1, 1, 2), ACCEPTED), (sends(2, 3), "140"), (sends(2, -1), ACCEPTED), (sends(3, 3), ACCEPTED), (sends(4, 1), "140")]),
    ("withdrawals of what isn't there make no room", "most_rows = 1",
     [(sends(1, 1), ACCEPTED), (sends(2, -3, 2), "140"), (sends(2, -3, -4), ACCEPTED)]),
    ("a router's withdrawal of what another one holds makes no room", "most_rows = 1",
     [(sends(1, 1), ACCEPTED), (sends(1, -1, 2, xtr=0xB), "140"), (sends(1, -1, xtr=0xB), ACCEPTED), (sends(2, 1), ACCEPTED)]),
    ("a site's withdrawal of what another one holds makes no room", "most_rows = 1",
     [(sends(1, 1), ACCEPTED), (sends(1, -1, site=2), ACCEPTED), (sends(2, 2), "140")]),
    ("several records of one prefix are one row", "most_rows = 2",
     [(sends(1, 1, 1, 1), ACCEPTED), (sends(2, 2, -2, 2, 2), ACCEPTED), (sends(3, 3, 3), "140"), (sends(3, 3, -3), ACCEPTED),
      (sends(4, -3, 3), "140")]),
    ("a prefix is brought and withdrawn beside a new one", "most_rows = 1",
     [(sends(1, 1, -1, 2), ACCEPTED), (sends(2, -2, 2, 3), "140"), (sends(2, 2, -2, 3), ACCEPTED)]),
    ("bits past the mask are no other prefix", "most_rows = 1",
     [(sends(1, ("10.1.1.7/24", 1440)), ACCEPTED), (sends(2, ("10.1.1.255/24", 1440), ("10.1.1.0/24", 1440)), ACCEPTED),
      (sends(3, ("10.1.1.0/25", 1440)), "140")]),
    ("longer prefixes with the same address", "most_rows = 2",
     [(sends(1, ("10.1.0.0/16", 1440), ("10.1.0.0/17", 1440)), ACCEPTED), (sends(2, ("10.1.0.0/18", 1440)), "140"),
      (sends(2, ("10.1.0.0/16", 0), ("10.1.0.0/18", 1440)), ACCEPTED)]),
    ("rows of both families", "most_rows = 2",
     [(sends(1, 1, (f"{IPV6}::/64", 1440)), ACCEPTED), (sends(2, (f"{IPV6}::/65", 1440)), "140"),
      (sends(2, -1, (f"{IPV6}::/65", 1440)), ACCEPTED), (sends(3, 1), "140")]),
    ("rows of another site", "most_rows = 1",
     [(sends(1, 1, 2, 3, site=2), ACCEPTED), (sends(1, 1), ACCEPTED), (sends(2, 4, site=2), ACCEPTED), (sends(2, 2), "140")]),
    ("255 new rows at once", "most_rows = 255",
     [(sends(1, *range(1, 256)), ACCEPTED), (sends(2, (eid(0), 0)), ACCEPTED), (sends(3, (eid(0), 1440)), "140")]),
    ("255 new rows at once, one too many", "most_rows = 254", [(sends(1, *range(1, 256)), "140"), (sends(1, *range(1, 255)), ACCEPTED)]),
    ("255 records of one prefix", "most_rows = 1",
     [(sends(1, *[1] * 255), ACCEPTED), (sends(2, *[2] * 254, -2), ACCEPTED), (sends(3, *[-2] * 254, 2), "140")]),
    ("rows that die make room", "most_rows = 2",
     [(sends(1, 1), ACCEPTED), (Tick(LIFE // 2), None), (sends(2, 2), ACCEPTED), (Tick(LIFE // 2 - 1), None), (sends(3, 3), "140"),
      (Tick(1), None), (sends(3, 3, 4), "140"), (sends(3, 3), ACCEPTED), (sends(4, 1), "140"), (Tick(LIFE // 2), None),
      (sends(4, 1), ACCEPTED)]),
    ("a row that died is new again", "most_rows = 1",
     [(sends(1, 1), ACCEPTED), (Tick(LIFE), None), (sends(1, 1, xtr=0xB), ACCEPTED), (sends(2, 1), "140"), (sends(2, -1), ACCEPTED)]),
    ("a withdrawal of a row that died makes no room", "most_rows = 1",
     [(sends(1, 1), ACCEPTED), (Tick(LIFE), None), (sends(2, 2), ACCEPTED), (sends(3, -1, 3), "140")]),
    ("a row is renewed for a life that is shorter", "most_rows = 1",
     [(sends(1, (eid(1), 9), use_ttl=True), ACCEPTED), (sends(2, (eid(1), 1), use_ttl=True), ACCEPTED), (Tick(MINUTE), None),
      (sends(3, 2), ACCEPTED)]),
    ("rows over a restart", "most_rows = 2",
     [(sends(1, 1, 2), ACCEPTED), (sends(2, 3), "140"), (RESTART, None), (sends(2, 3, 4), ACCEPTED), (sends(3, 1), "140"), (RESTART, None),
      (sends(3, 1), ACCEPTED), (sends(1, 1, xtr=0xB), ACCEPTED), (sends(4, 2), "140")]),

    # Both, and the nonces of what was refused.
    ("the routers before the rows", "most_routers = 1\nmost_rows = 1",
     [(sends(1, 1, 2), "140"), (sends(1, 1), ACCEPTED), (sends(1, 1, xtr=0xB), "139"), (sends(1, 1, 2, xtr=0xB), "139"), (sends(2, 2), "140"),
      (sends(2, -1, 2), ACCEPTED)]),
    ("rows within, routers beyond", "most_routers = 1\nmost_rows = 9", [(sends(1, 1), ACCEPTED), (sends(1, 1, xtr=0xB), "139")]),
    ("routers within, rows beyond", "most_routers = 9\nmost_rows = 1", [(sends(1, 1), ACCEPTED), (sends(1, 1, xtr=0xB), "140")]),
    ("the nonce before the rows", "most_rows = 1",
     [(sends(5, 1), ACCEPTED), (sends(5, 2), "57 saved 5"), (sends(4, 2), "57 saved 5"), (sends(6, 2), "140"), (sends(6, 2), "140"),
      (sends(5, 2), "57 saved 5"), (sends(6, 1), ACCEPTED), (sends(6, 2), "57 saved 6")]),
    ("the nonce before the routers", "most_routers = 1",
     [(sends(5, 1, xtr=0xB), ACCEPTED), (sends(6, -1, xtr=0xB), ACCEPTED), (sends(1, 1), ACCEPTED), (sends(6, 1, xtr=0xB), "57 saved 6"),
      (sends(7, 1, xtr=0xB), "139"), (sends(7, 1, xtr=0xB), "139"), (sends(7, -1, xtr=0xB), ACCEPTED), (sends(7, 1, xtr=0xB), "57 saved 7")]),
    ("the jump before both", "most_jump = 10\nmost_routers = 1\nmost_rows = 1",
     [(sends(5, 1), ACCEPTED), (sends(16, 2), "138 saved 5"), (sends(15, 2), "140"), (sends(GREATEST, 2, xtr=0xB), "139"),
      (sends(16, 1), "138 saved 5"), (sends(15, 1), ACCEPTED), (sends(25, 1), ACCEPTED)]),
    ("no nonce is left of a router that was refused", "most_routers = 1",
     [(sends(1, 1), ACCEPTED), (sends(GREATEST, 1, xtr=0xB), "139"), (RESTART, None), (sends(1, 1, xtr=0xB), ACCEPTED)]),
    ("no nonce is left of rows that were refused", "most_rows = 1",
     [(sends(1, 1), ACCEPTED), (sends(GREATEST, 2), "140"), (sends(2, 1), ACCEPTED), (sends(GREATEST, 2), "140"), (RESTART, None),
      (sends(3, 2), ACCEPTED)]),
    ("what was refused is accepted as it was, once there is room", "most_rows = 1",
     [(sends(1, 1), ACCEPTED), (sends(7, 2), "140"), (sends(6, -1), ACCEPTED), (sends(7, 2), ACCEPTED), (sends(7, 2), "57 saved 7")]),
    ("a nonce that only a withdrawal left", "most_routers = 1",
     [(sends(1, 1), ACCEPTED), (sends(9, -1, xtr=0xB), ACCEPTED), (sends(9, -1, xtr=0xB), "57 saved 9")]),

    # The order of the checks, by Map-Registers that fail two.
    ("an unknown site before the router", listed(0xA), [(router(0xB, site=3), "51")]),
    ("an unknown key before the router", listed(0xA), [(router(0xB, key=3), "52")]),
    ("the tag before the router", listed(0xA), [(router(0xB, secret=b"guessed"), "53")]),
    ("the tag before the source", 'from = ["192.0.2.9/32"]', [(source("192.0.2.8", secret=b"guessed"), "53")]),
    ("the router before the source", listed(0xA) + '\nfrom = ["192.0.2.9/32"]',
     [(router(0xB, source="192.0.2.8"), "69"), (router(0xB, source="192.0.2.9"), "69"), (router(0xA, source="192.0.2.8"), "136")]),
    ("the source before bit a", 'from = ["192.0.2.9/32"]', [(source("192.0.2.8", merge=True), "136"), (source("192.0.2.9", merge=True), "54")]),
    ("bit a before the TTL", "least_ttl = 10", [(Register(("10.1.0.0/16", 9), use_ttl=True, merge=True), "54")]),
    ("a prefix before the TTL of an earlier record", "least_ttl = 10",
     [(Register(("10.1.0.0/16", 9), ("10.2.0.0/16", 10), use_ttl=True), "55 record 1")]),
    ("the TTL before the nonce", "least_ttl = 10\nmost_jump = 10",
     [(nonce(5), ACCEPTED), (ttl(9, nonce=5), "137 record 0"), (ttl(9, nonce=16), "137 record 0"), (ttl(10, nonce=16), "138 saved 5")]),
    ("the other checks before the routers and the rows", "least_ttl = 10\nmost_routers = 1\nmost_rows = 1",
     [(sends(1, 1), ACCEPTED), (sends(2, 2, xtr=0xB, secret=b"guessed"), "53"), (sends(2, 2, xtr=0xB, merge=True), "54"),
      (sends(2, ("10.2.0.0/16", 1440), 2), "55 record 0"),
      (sends(2, (eid(2), 9), use_ttl=True, xtr=0xB), "137 record 0"), (sends(2, (eid(2), 9), use_ttl=True), "137 record 0"),
      (sends(2, 2, xtr=0xB), "139")]),
    ("all limits at once",
     listed(0xA) + '\nfrom = ["192.0.2.7/32"]\nleast_ttl = 10\nmost_ttl = 1440\nmost_jump = 10\nmost_routers = 1\nmost_rows = 1',
     [(ttl(1440, nonce=5), ACCEPTED), (ttl(10, nonce=15), ACCEPTED), (ttl(10, nonce=26), "138 saved 15"), (sends(25, 1), "140")]),
]


def site(row, number, limits):
    keys = "".join(f'[[site.key]]\nid = {key}\nsecret = "{secret.hex()}"\n' for key, secret in SECRETS.items())
    prefixes = "".join(f'[[site.prefix]]\neid = "{it}"\nmore_specifics = true\n' for it in ("10.1.0.0/16", f"{IPV6}:0:0:0:0/32"))
    return f'[[site]]\nid = "{site_id(row, number)}"\n{limits}\n{keys}{prefixes}'


def server(row):
    return f'[[server]]\nname = "s{row}"\naddress = "127.0.{row >> 8}.{row & 255}"\n'


def alive(rows, moment):
    return {of: it for of, it in rows.items() if moment - it.accepted < it.life}


def held(row, rows, moment):
    """What `hold` prints of rows that none of the configured routers registered."""
    live = alive(rows, moment)
    lines = [f"row other {eid.exploded}={it.minutes} key {it.key} nonce {it.nonce} age {moment - it.accepted}"
             for (*_, eid), it in sorted(live.items(), key=lambda at: (*at[0][:2], at[0][2].version, at[0][2]))]
    return [f"hold s{row} {len(lines)}", *lines]


def script_of(row, steps, moment):
    """The commands of a row that begins at a moment, each with the lines that it is to print, and the moment at which it ends."""
    rows, last, script = {}, {}, [(f"hold s{row}", held(row, {}, moment))]
    restart = (f"restart s{row} 0", [f"restarted s{row}"])
    for step, wanted in steps:
        if step == RESTART:
            rows.clear()
            script.append(restart)
        elif isinstance(step, Tick):
            moment += step.time
            script.append((f"tick {step.time}", [f"tick {step.time} now {moment}"]))
        elif wanted == ACCEPTED:
            rows.update(step.rows(moment))
            last[step.site, step.xtr, step.key] = step
            script.append((step.command(row), [f"accepted s{row} other key {step.key} nonce {step.nonce}"]))
        else:
            script.append((step.command(row), [f"refused s{row} {wanted}"]))
        script.append((f"hold s{row}", held(row, rows, moment)))
    replays = [(it.command(row), [f"refused s{row} 57 saved {it.nonce}"]) for it in last.values()]
    return [*script, *replays, restart, *replays], moment


# ---- rows that are drawn


def full(limits, rows, register, moment):
    """Which limit on what is held refuses a Map-Register whose nonce is fresh, or None: one that brings the site a router, or a row, of which
    there are more then than may be."""
    before = {of for of in alive(rows, moment) if of[0] == 1}
    after = {of for of in alive({**rows, **register.rows(moment)}, moment) if of[0] == 1}
    routers_before, routers_after = {xtr for _, xtr, _ in before}, {xtr for _, xtr, _ in after}
    most_routers, most_rows = limits
    if routers_after - routers_before and len(routers_after) > most_routers:
        return "139"
    return "140" if after - before and len(after) > most_rows else None


def drawn_register(draw, nonces):
    xtr, number = draw.choice([0xA, 0xB, 0xC, 2**127]), draw.choice([1, 1, 1, 2])
    nonces[number, xtr] = nonces.get((number, xtr), 0) + 1
    prefixes = [eid(1), eid(2), eid(3), "10.1.1.0/25", f"{IPV6}::/64"]
    records = [(draw.choice(prefixes), draw.choice([0, 0, 1, 3, 1440, NO_TIME])) for _ in range(draw.choice([0, 1, 1, 1, 2, 3, 4, 6]))]
    found = sends(nonces[number, xtr], *records, xtr=xtr, site=number, use_ttl=draw.random() < 0.3)
    return found if records else without_records(found.nonce, xtr=xtr, site=number)


def drawn_case(draw):
    """A row of Map-Registers with fresh nonces, and time that passes, at limits on what is held."""
    limits = draw.choice([1, 2, 3, 99]), draw.choice([1, 2, 3, 5, 99])
    rows, nonces, moment, steps = {}, {}, 0, []
    for _ in range(LENGTH):
        kind = draw.random()
        if kind < 0.1:
            steps.append((Tick(draw.choice([1, MINUTE - 1, MINUTE, LIFE // 2, LIFE - 1, LIFE])), None))
            moment += steps[-1][0].time
        elif kind < 0.12:
            steps.append((RESTART, None))
            rows.clear()
        else:
            register = drawn_register(draw, nonces)
            refusal = None if register.site == 2 else full(limits, rows, register, moment)
            steps.append((register, refusal or ACCEPTED))
            rows.update({} if refusal else register.rows(moment))
    return f"drawn: {limits[0]} routers, {limits[1]} rows", f"most_routers = {limits[0]}\nmost_rows = {limits[1]}", steps


# ---- all rows


def play(configuration, script):
    """The status of a play, the lines that it prints, and what it reports."""
    text = configuration + "---\n" + "".join(f"{command}\n" for command in script)
    done = subprocess.run([sys.argv[1], "play", "-"], input=text, capture_output=True, text=True, timeout=120, check=False)
    return done.returncode, done.stdout.splitlines(), done.stderr


def wrong_cases(cases):
    """A line for each row that differs."""
    scripts, moment = [], 0
    for row, (_, _, steps) in enumerate(cases):
        script, moment = script_of(row, steps, moment)
        scripts.append(script)
    sites = "".join(site(row, 1, limits) + site(row, 2, "") for row, (_, limits, _) in enumerate(cases))
    servers = "".join(server(row) for row in range(len(cases)))
    status, printed, reported = play(sites + servers, [command for script in scripts for command, _ in script])
    if (status, reported) != (0, ""):
        yield f"status {status}, '{reported}'"
    said, row = [[] for _ in cases], 0
    for line in printed:
        row = row if line.startswith(("row ", "tick ")) else int(line.split()[1][1:])
        said[row].append(line)
    for (title, _, _), script, lines in zip(cases, scripts, said):
        wanted = [line for _, whole in script for line in whole]
        if lines != wanted:
            line, other = next(it for it in zip_longest(lines, wanted) if it[0] != it[1])
            yield f"{title}: '{line}', wanted '{other}'"


draws = random.Random(SEED)
wrongs = [wrong for cases in (CASES, *([drawn_case(draws) for _ in range(ROWS)] for _ in range(PLAYS))) for wrong in wrong_cases(cases)]
print("".join(f"limits.py: {it}\n" for it in wrongs), end="")
sys.exit(1 if wrongs else 0)
