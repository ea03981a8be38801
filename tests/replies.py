#!/usr/bin/env -S python3 -B
"""replies.py PROGRAM SEED COUNT
What a Map-Server sends for Map-Requests (RFC 9301 sections 5.5, 8.3 and 8.4). Plays COUNT schedules drawn from SEED, SEED + 1 and so on: one
Map-Server, and sites and routers whose prefixes overlap in a space of 256 addresses. Routers register, rows die, the Map-Server restarts; at
some moments it is asked by `hold` for its rows, by `request` for drawn prefixes, and by `ask` for each address of the space. Each reply is
that of a slow Map-Server over the rows. A slow ITR keeps it, and what that says of each address of its prefix is what `ask` says; a negative
one is the widest. One in eight has many prefixes, or records of many locators, which don't fit one message. Prints the seed of each schedule
in which something differs, which is left in out/replies-SEED.schedule, and ends with 1 where one does, or where a kind of reply never came."""
import collections
import concurrent.futures
import functools
import ipaddress
import os
import random
import re
import subprocess
import sys
from pathlib import Path
from typing import NamedTuple

HERE = Path(__file__).resolve().parent
LIMIT = 20
# How many schedules have each kind of reply.
MANY = 100
# The most records of a message, and the most bytes of them; how long a Map-Server is starting, in ms.
MOST_RECORDS, MOST_BYTES, STARTING = 255, 16_384, 60_000
BITS = {4: 32, 6: 128}
OCTETS = {4: 4, 6: 16}
SPACE_BITS = 8
REQUESTS = 8
STEPS = [0, 1, 1000, 30_000, 59_999, 60_000, 60_001, 120_000, 179_999, 180_000]
TTLS = [1, 2, 3, 5, 60, 1440, 1440, 2**31, 2**32 - 1]
ROW = re.compile(r"row (\S+) (\S+)=(\d+)(\S*) key 1 nonce \d+ age (\d+)")
RECORD = re.compile(r"(\S+)=(\d+)(\S*)")

program = os.path.abspath(sys.argv[1])


class Prefix(NamedTuple):
    """A prefix; prefixes are in the order of their addresses, and then of their lengths."""

    version: int
    value: int
    length: int

    def __str__(self):
        return f"{address_text(self.version, self.value)}/{self.length}"

    def covers(self, other):
        cut = BITS[self.version] - self.length
        return self.version == other.version and self.length <= other.length and self.value >> cut == other.value >> cut

    def around(self, length):
        """The prefix of this length around its address."""
        cut = BITS[self.version] - length
        return Prefix(self.version, self.value >> cut << cut, length)

    def alone(self):
        """Its address at full length."""
        return self.around(BITS[self.version])


@functools.cache
def address_text(version, value):
    return str(ipaddress.IPv4Address(value)) if version == 4 else ipaddress.IPv6Address(value).exploded


@functools.cache
def prefix_of(text):
    address, _, length = text.partition("/")
    it = ipaddress.ip_address(address)
    return Prefix(it.version, int(it), int(length))


class Record(NamedTuple):
    """A record; its locators as text, each behind a plus sign."""

    eid: Prefix
    ttl: int
    locators: str

    def __str__(self):
        return f"{self.eid}={self.ttl}{self.locators}"

    def size(self):
        """How many bytes it takes in a message."""
        return 12 + OCTETS[self.eid.version] + sum(8 + OCTETS[6 if ":" in it else 4] for it in self.locators.split("+")[1:])


def record_of(text):
    eid, ttl, locators = RECORD.fullmatch(text).groups()
    return Record(prefix_of(eid), int(ttl), locators)


def fits(records):
    return len(records) <= MOST_RECORDS and sum(it.size() for it in records) <= MOST_BYTES


class Router(NamedTuple):
    site: int
    xtr: int
    proxy: bool
    use_ttl: bool

    def address(self):
        return f"127.0.2.{self.xtr}"


class Network:
    """A configuration and a script that are drawn, and their text."""

    def __init__(self, draw):
        self.draw = draw
        self.space = prefix_of("10.0.0.0/24" if draw.random() < 0.8 else "2001:db8:0:0:0:0:0:0/120")
        kind = draw.random()
        self.is_full, self.is_wide = kind < 0.06, 0.06 <= kind < 0.12
        # (A record without locators looks as one that has the ITR ask again.)
        self.least = 0 if draw.random() < 0.1 else 1
        self.sites = [self.site() for _ in range(draw.randint(2, 4))]
        self.routers = {f"r{place}": Router(draw.randrange(len(self.sites)), place + 1, draw.random() < 0.6, draw.random() < 0.5)
                        for place in range(draw.randint(2, 5))}
        self.configured = sorted({eid for site in self.sites for eid in site})
        self.databases = {name: self.database(name) for name in self.routers}
        self.asked, self.script, self.datagrams = [], [], 0
        self.text = self.configuration()
        if draw.random() < 0.8:
            self.script.append("tick 60000")
        for _ in range(draw.randint(1, 2)):
            self.pass_time()
            self.ask()
        self.text += "---\n" + "".join(f"{it}\n" for it in self.script)

    def inside(self, outer, longest=SPACE_BITS):
        """A prefix in another one."""
        draw, room = self.draw, BITS[outer.version] - outer.length
        length = draw.choice([0, 1, 2, 3, 4, 5, 6, 7, 8, 8])
        return Prefix(outer.version, outer.value + draw.randrange(2**room), BITS[outer.version]).around(outer.length + min(length, room, longest))

    def site(self):
        """The prefixes of a site, and whether more-specifics of each may be registered."""
        draw = self.draw
        first = {self.space: True} if self.is_full or draw.random() < 0.3 else {}
        return first | {self.inside(self.space, draw.choice([2, 4, 8])): draw.random() < 0.7 for _ in range(draw.randint(1, 3))}

    def locators(self):
        draw = self.draw
        if self.is_wide and draw.random() < 0.9:
            return "+192.0.2.1/1/100/255/0" * draw.randint(100, 255)
        front = "192.0.2." if draw.random() < 0.8 else "2001:0db8:0000:0000:0000:0000:0000:00"
        return "".join(f"+{front}{draw.randint(10, 99)}/{draw.randint(0, 3)}/{draw.choice([0, 50, 100])}/255/0"
                       for _ in range(draw.randint(self.least, 2)))

    def database(self, name):
        """Records that the router's site may register, of different prefixes."""
        draw, site = self.draw, self.sites[self.routers[name].site]
        # (Large ones have a wide prefix too, mostly, whose records don't fit.)
        eids = [next(iter(site))] if (self.is_full or self.is_wide) and draw.random() < 0.8 else []
        if self.is_full and site.get(self.space) and draw.random() < 0.6:
            eids += draw.sample(addresses_of(self.space), draw.choice([draw.randint(120, 256), 253, 254, 255, 256]))
        for _ in range(draw.randint(0, 20 if self.is_wide else 8)):
            outer = draw.choice(list(site))
            eids.append(self.inside(outer) if site[outer] and draw.random() < 0.85 else outer)
        return [Record(eid, 0 if draw.random() < 0.03 else draw.choice(TTLS), self.locators()) for eid in dict.fromkeys(eids)]

    def configuration(self):
        text = ""
        for place, site in enumerate(self.sites):
            text += f'[[site]]\nid = "{place + 1:016x}"\n[[site.key]]\nid = 1\nsecret = "{place + 1:02x}"\n'
            text += "".join(f'[[site.prefix]]\neid = "{eid}"\nmore_specifics = {str(more).lower()}\n' for eid, more in site.items())
        text += '[[server]]\nname = "s1"\naddress = "127.0.1.1"\n'
        for name, it in self.routers.items():
            records = ", ".join(f'"{record}"' for record in self.databases[name])
            text += (f'[[router]]\nname = "{name}"\naddress = "{it.address()}"\nsite = "{it.site + 1:016x}"\nxtr = "{it.xtr:032x}"\nkey = 1\n'
                     f'servers = ["s1"]\nproxy = {str(it.proxy).lower()}\nuse_ttl = {str(it.use_ttl).lower()}\nrecords = [{records}]\n')
        return text

    def register(self, name):
        """The router registers all parts of its database."""
        for part in range(parts(self.databases[name])):
            self.script += [f"send {name} s1 part {part}", f"deliver {self.datagrams}"]
            self.datagrams += 2

    def pass_time(self):
        draw = self.draw
        for _ in range(draw.randint(3, 8)):
            name, kind = draw.choice(list(self.routers)), draw.random()
            if kind < 0.5:
                self.register(name)
            elif kind < 0.65:
                self.databases[name] = self.database(name)
                self.script.append(f"change {name} {' '.join(map(str, self.databases[name])) or 'empty'}")
                self.register(name)
            elif kind < 0.94:
                self.script.append(f"tick {draw.choice(STEPS)}")
            else:
                self.script.append("restart s1 0")

    def wanted(self):
        """A prefix to ask for: of one address mostly; of the space, of a site, or a wide one."""
        draw, kind = self.draw, self.draw.random()
        if kind < 0.55:
            return draw.choice(addresses_of(self.space))
        if kind < 0.8:
            return self.inside(self.space)
        if kind < 0.92:
            return draw.choice(self.configured + [record.eid for records in self.databases.values() for record in records])
        version, value, length = self.space
        outside = [self.space.around(draw.randint(0, length)), Prefix(version, value + 256 + draw.randrange(1024), BITS[version]),
                   Prefix(version, draw.randrange(2**BITS[version]), BITS[version]).around(draw.randint(0, BITS[version])),
                   prefix_of(draw.choice(["10.0.0.1/32", "2001:db8:0:0:0:0:0:1/128"]))]
        return draw.choice(outside)

    def ask(self):
        """Asks for what there is at a moment. The moment's requests are each a prefix and an ITR-RLOC, or ''."""
        draw, requests = self.draw, []
        for _ in range(REQUESTS):
            asked, rloc = self.wanted(), draw.choice(["", "192.0.2.9", "2001:0db8:0000:0000:0000:0000:0000:0009"])
            requests.append((asked, rloc))
            # (Bits past the mask are cleared.)
            cut = BITS[asked.version] - asked.length
            written = asked._replace(value=asked.value + draw.randrange(2**cut)) if draw.random() < 0.1 else asked
            self.script.append(f"request s1 {written}" + (f" from {rloc}" if rloc else ""))
        self.asked.append(requests)
        self.script[-REQUESTS:-REQUESTS] = ["hold s1"]
        self.script += [f"ask s1 {address_text(*it[:2])}" for it in addresses_of(self.space)]


def parts(records):
    """By how many Map-Registers a database is registered: a record begins the next one where it doesn't fit."""
    count, held, size = 1, 0, 0
    for record in records:
        held, size = held + 1, size + record.size()
        if held > MOST_RECORDS or size > MOST_BYTES:
            count, held, size = count + 1, 1, record.size()
    return count


def addresses_of(prefix):
    """The prefixes of each of its addresses."""
    bits = BITS[prefix.version]
    return [Prefix(prefix.version, prefix.value + it, bits) for it in range(2**(bits - prefix.length))]


class Row(NamedTuple):
    """A row that the Map-Server holds, and when it was accepted."""

    router: str
    record: Record
    accepted: int


class Moment:
    """What the Map-Server told at a moment: its rows, replies to requests, and answers for addresses."""

    def __init__(self, now, began):
        self.now, self.is_starting = now, now - began < STARTING
        self.rows, self.replies, self.answers = [], [], {}


def moments(output):
    now = began = 0
    found = []
    for line in output.splitlines():
        word, _, rest = line.partition(" ")
        if word == "tick":
            now = int(rest.split()[2])
        elif line == "restarted s1":
            began = now
        elif word == "hold":
            found.append(Moment(now, began))
        elif word == "row":
            router, eid, ttl, locators, age = ROW.fullmatch(line).groups()
            found[-1].rows.append(Row(router, Record(prefix_of(eid), int(ttl), locators), now - int(age)))
        elif word == "request":
            found[-1].replies.append([rest])
        elif word == "record":
            found[-1].replies[-1].append(rest)
        elif word == "ask":
            _, address, answer = rest.split(" ", 2)
            found[-1].answers[address] = answer
    return found


class SlowServer:
    """What a Map-Server sends, by the rules one by one over a list of its rows."""

    def __init__(self, network, moment):
        self.network, self.moment = network, moment

    def rank(self, row):
        """The longer prefix first, then one whose router asked for proxy replies, then the later one, then the greater router."""
        router = self.network.routers[row.router]
        return row.record.eid.length, router.proxy, row.accepted, router.site, router.xtr

    def best(self, asked):
        return max((row for row in self.moment.rows if row.record.eid.covers(asked)), key=self.rank, default=None)

    def records(self, eid, best):
        """For a prefix, with all longer ones inside; with no locators where the router answers for itself."""
        own = collections.defaultdict(list)
        for row in self.moment.rows:
            if eid.covers(row.record.eid) and row.record.eid != eid:
                own[row.record.eid].append(row)
        inside = sorted(own)
        rows = [best] + [max(own[it], key=self.rank) for it in inside]
        ttl = min(row.record.ttl for row in rows)
        return [Record(it, ttl, row.record.locators if self.network.routers[row.router].proxy else "") for it, row in zip([eid, *inside], rows)]

    def longest_configured(self, asked):
        return max((it for it in self.network.configured if it.covers(asked)), key=lambda it: it.length, default=None)

    def hole(self, address):
        """The least-specific prefix around an address that is wholly in the same case."""
        site = self.longest_configured(address)
        for length in range(site.length if site else 0, address.length + 1):
            eid = address.around(length)
            others = [row.record.eid for row in self.moment.rows] + ([] if site else self.network.configured)
            if not any(eid.covers(it) for it in others):
                return f"negative {eid} {1 if site else 15}"
        raise AssertionError("no prefix around the address is in one case")

    def reply(self, asked):
        """What it sends: the words of a line, and behind them those of each record."""
        for it in (asked, asked.alone()):
            best = self.best(it)
            if best and not self.network.routers[best.router].proxy:
                return [f"forwarded {self.network.routers[best.router].address()}"]
            if best and self.moment.is_starting and best.record.eid != self.longest_configured(it):
                return ["silent starting"]
            for length in range(best.record.eid.length, it.length + 1) if best else []:
                records = self.records(it.around(length), best)
                if fits(records):
                    return [f"reply {len(records)}", *map(str, records)]
        return ["silent starting" if self.moment.is_starting else self.hole(asked.alone())]


class SlowItr:
    """Keeps a reply, and compares what it says of each address with what the Map-Server says. Each check returns what is wrong, or None."""

    def __init__(self, network, moment):
        self.network, self.moment = network, moment

    def answers_in(self, eid):
        """The addresses of the space in a prefix, with their answers."""
        return [(it, self.moment.answers[address_text(*it[:2])]) for it in addresses_of(self.network.space) if eid.covers(it)]

    def wrong(self, asked, told):
        word, _, rest = told[0].partition(" ")
        at = self.moment.answers.get(address_text(*asked[:2])) if self.network.space.covers(asked) else "nosite 15"
        if word == "reply":
            return self.wrong_records(asked, int(rest), [record_of(it) for it in told[1:]])
        if word == "negative":
            eid, ttl = rest.split()
            return self.wrong_hole(asked, prefix_of(eid), ttl)
        if word == "forwarded":
            is_one = asked == asked.alone()
            routers = [it.address() for it in self.network.routers.values() if not it.proxy]
            return None if rest in routers and (not is_one or at == f"forward {rest}") else f"forwarded, and ask says '{at}'"
        return None if told[0] == "silent starting" and self.moment.is_starting else "silent later than in the first minute"

    def wrong_records(self, asked, count, records):
        eids = [it.eid for it in records]
        if not records or count != len(records) or not fits(records):
            return f"{len(records)} records, or too many bytes"
        if not eids[0].covers(asked.alone()) or eids != sorted(set(eids)) or not all(eids[0].covers(it) for it in eids):
            return "its prefixes"
        if len({it.ttl for it in records}) > 1:
            return "several TTLs"
        for address, answer in self.answers_in(eids[0]):
            kept = max((it for it in records if it.eid.covers(address)), key=lambda it: it.eid.length)
            if not self.says(kept, kept is records[0], answer):
                return f"'{kept}' is kept for {address}, and ask says '{answer}'"
        return None

    @staticmethod
    def says(kept, is_first, answer):
        """Whether a record that is kept for an address says what the Map-Server says of it. The first one may be for a narrower prefix."""
        word, _, rest = answer.partition(" ")
        if word != "reply":
            return word == "forward" and kept.locators == ""
        it = record_of(rest)
        return kept.locators == it.locators and kept.ttl <= it.ttl and (kept.eid == it.eid or is_first and it.eid.covers(kept.eid))

    def wrong_hole(self, asked, eid, ttl):
        if self.moment.is_starting:
            return "negative in the first minute"
        if not eid.covers(asked.alone()):
            return "it hasn't the address"
        answer = {"1": "unregistered 1", "15": "nosite 15"}.get(ttl)
        site = SlowServer(self.network, self.moment).longest_configured(asked.alone())
        if (answer == "unregistered 1") != (site is not None) or site and not site.covers(eid):
            return "it leaves the site, or is of the other case"
        for address, other in self.answers_in(eid):
            if other != answer:
                return f"ask says '{other}' of {address}"
        if eid.length == (site.length if site else 0):
            return None
        wider = eid.around(eid.length - 1)
        return None if any(other != answer for _, other in self.answers_in(wider)) else f"{wider} is wider"


def kinds_of(told, asked, moment):
    """What kinds of reply it is."""
    word, _, rest = told[0].partition(" ")
    yield f"{word} {rest.split()[1]}" if word == "negative" else word
    if word == "reply":
        first = record_of(told[1]).eid
        if first not in {row.record.eid for row in moment.rows}:
            yield "narrowed"
        if asked.length < first.length:
            yield "of the address alone"
        if any(record_of(it).locators == "" for it in told[1:]):
            yield "to be asked again"


KINDS = ["reply", "narrowed", "of the address alone", "to be asked again", "negative 1", "negative 15", "forwarded", "silent"]


def what_fails(network, kinds):
    """What differs in a schedule's run, or None."""
    done = subprocess.run([program, "play", "-"], input=network.text, capture_output=True, text=True, timeout=LIMIT, check=False)
    if (done.returncode, done.stderr) != (0, ""):
        return f"status {done.returncode}, '{done.stderr}'"
    found = moments(done.stdout)
    if [(len(it.replies), len(it.answers)) for it in found] != [(len(it), 2**SPACE_BITS) for it in network.asked]:
        return "not all is answered"
    for moment, requests in zip(found, network.asked):
        server, itr = SlowServer(network, moment), SlowItr(network, moment)
        for (asked, rloc), (head, *records) in zip(requests, moment.replies):
            front, to = f"s1 {asked} ", f" to {rloc}" if rloc and (" reply " in head or " negative " in head) else ""
            if not head.startswith(front) or not head.endswith(to) or not to and " to " in head:
                return f"at {moment.now}: 'request {head}', asked for {asked} from '{rloc}'"
            told = [head.removeprefix(front).removesuffix(to), *records]
            if told != (wanted := server.reply(asked)):
                return f"at {moment.now}, for {asked}: {told}, wanted {wanted}"
            if fault := itr.wrong(asked, told):
                return f"at {moment.now}, for {asked}: {told}: {fault}"
            kinds.update(kinds_of(told, asked, moment))
    return None


def tried(seed):
    """Whether a schedule fails, and how many replies of each kind it has."""
    network, kinds = Network(random.Random(seed)), collections.Counter()
    fault = what_fails(network, kinds)
    if fault:
        kept = HERE.parent / "out" / f"replies-{seed}.schedule"
        kept.parent.mkdir(exist_ok=True)
        kept.write_text(network.text)
        print(f"seed {seed}: {fault} (out/{kept.name})")
    return bool(fault), kinds


def main():
    first, count = int(sys.argv[2]), int(sys.argv[3])
    with concurrent.futures.ProcessPoolExecutor(os.cpu_count()) as side:
        results = list(side.map(tried, range(first, first + count), chunksize=4))
    failed, kinds = sum(fault for fault, _ in results), sum((it for _, it in results), collections.Counter())
    missing = [it for it in KINDS if not kinds[it]] if count >= MANY else []
    print(f"{count} schedules, {failed} failed; {', '.join(f'{it}: {kinds[it]}' for it in KINDS)}", file=sys.stderr)
    sys.exit(1 if failed or missing else 0)


if __name__ == "__main__":
    main()
