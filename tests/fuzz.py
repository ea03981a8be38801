#!/usr/bin/env -S python3 -B
"""fuzz.py PROGRAM SEED COUNT
Plays COUNT schedules drawn from SEED, SEED + 1 and so on: configurations, scripts and bytes in their grammar and near it.
One in ten has large databases, of up to 1,024 records in up to 16 parts. Each is played twice, and once more while a growth of memory
is refused. Checked is what can be told without knowing the answers: the same output twice and whole lines; a Map-Server accepts no
nonce twice and none after a higher one over its whole life, and a router sends none so under one key over all parts, though its store
was lost; what a router counts was accepted, and is of the part that it was sent of; what it lists as counted was counted of that part;
it sends and counts under its present key, and takes none that it may not; rows are listed in order; a text with a fault prints nothing
but the fault. Prints the seed of each schedule that fails, which is left in out/fuzz-SEED.schedule, and ends with 1 where one does."""
import collections
import concurrent.futures
import ipaddress
import os
import random
import re
import subprocess
import sys
import tempfile
from pathlib import Path

HERE = Path(__file__).resolve().parent
LIMIT = 20
GROWTHS = 600
FAULT = re.compile(r"lispd: fault (?:2[0-3]|74|96|8[0-5] line \d+)\n")
# A command that wasn't taken, by what keeps the network from it and its line.
UNTAKEN = re.compile(r"lispd: fault (7\d) line (\d+)\n")
REFUSED_MEMORY = re.compile(r"(?:lispd: fault 7\d line \d+\n)*lispd: fault (?:24|75|76|86 line \d+|97)\n")
SITED = re.compile(r'name = "(r\d+)"\naddress = .*\nsite = "(\w+)"')
PART = r"(?: part ([1-9]\d*))?"
SENT = re.compile(r"sent (\S+) (\S+) key (\d+) nonce (\d+) datagram \d+" + PART)
KEYED = re.compile(r"(rotated|emptied) (\S+) key (\d+)")
UNSTARTED = re.compile(r"refused (\S+) 3[56]\b")
ACCEPTED = re.compile(r"accepted (\S+) (\S+) key (\d+) nonce (\d+)")
COUNTED = re.compile(r"counted (\S+) (\S+) key (\d+) nonce (\d+)" + PART)
ACKS = re.compile(r"acks (\S+) (\S+)(?: none|" + PART + r" key (\d+) nonce (\d+))")
NUMBERS = [0, 1, 2, 7, 255, 256, 65535, 2**31, 2**32 - 1, 2**32, 2**62, 2**63 - 1, 2**63, 2**64 - 1, 2**64]
STEPS = [0, 1, 999, 1000, 20_000, 59_999, 60_000, 180_000, 2**62]
DIGITS = "0123456789abcdef"

program = os.path.abspath(sys.argv[1])


class Network:
    """A configuration that is drawn: its text, and who is in it."""

    def __init__(self, draw):
        self.draw = draw
        self.large = draw.random() < 0.1
        self.servers = [f"s{place}" for place in range(draw.randint(1, 3))]
        self.routers, self.keys = {}, {}
        sites = {f"{place + 1:016x}": draw.sample(range(256), draw.randint(1, 4)) for place in range(draw.randint(1, 2))}
        self.text = "".join(self.site(name, keys) for name, keys in sites.items())
        self.text += "".join(f'[[server]]\nname = "{name}"\naddress = "127.0.1.{place}"\n' for place, name in enumerate(self.servers))
        for place in range(draw.randint(1, 3)):
            site = draw.choice(list(sites))
            self.text += self.router(place, site, sites[site])

    def site(self, name, keys):
        draw = self.draw
        limits = "".join(f"{it} = {draw.choice([1, 2, 3, 2**32 - 1])}\n" for it in ("most_routers", "most_rows") if draw.random() < 0.3)
        return (f'[[site]]\nid = "{name}"\n{limits}'
                + "".join(f'[[site.key]]\nid = {key}\nsecret = "{self.hex(1, 80)}"\n' for key in keys)
                + '[[site.prefix]]\neid = "10.1.0.0/16"\nmore_specifics = true\n[[site.prefix]]\neid = "2001:db8:0:0:0:0:0:0/32"\n'
                + "more_specifics = true\n")

    def router(self, place, site, keys):
        draw, name = self.draw, f"r{place}"
        listed = draw.sample(self.servers, draw.randint(1, len(self.servers)))
        self.routers[name], self.keys[name] = listed, keys
        flags = "".join(f"{flag} = true\n" for flag in ("proxy", "use_ttl") if draw.random() < 0.5)
        block = f"nonce_block = {draw.choice([1, 2, 8, 1024])}\n" if draw.random() < 0.5 else ""
        records = ", ".join(f'"{it}"' for it in self.records())
        names = ", ".join(f'"{it}"' for it in listed)
        return (f'[[router]]\nname = "{name}"\naddress = "127.0.2.{place}"\nsite = "{site}"\nxtr = "{place + 1:032x}"\nkey = {draw.choice(keys)}\n'
                f"servers = [{names}]\n{flags}{block}records = [{records}]\n")

    def hex(self, least, most):
        return "".join(self.draw.choices(DIGITS, k=2 * self.draw.randint(least, most)))

    def prefix(self):
        draw = self.draw
        if draw.random() < 0.3:
            return f"2001:db8:{draw.randint(0, 3):x}:0:0:0:0:{draw.randint(0, 1)}/{draw.choice([32, 48, 64, 128])}"
        return f"10.{draw.choice([1, 1, 1, 2])}.{draw.randint(0, 3)}.0/{draw.choice([8, 16, 24, 32])}"

    def records(self):
        """Records of prefixes that differ, mostly."""
        draw = self.draw
        if self.large and draw.random() < 0.5:
            return self.many_records()
        prefixes = dict.fromkeys(self.prefix() for _ in range(draw.randint(0, 4)))
        return [f"{it}={draw.choice([0, 1, 2, 1440, 2**31, 2**32 - 1])}{''.join(f'+192.0.2.{at}' for at in range(draw.randint(0, 3)))}"
                for it in prefixes]

    def many_records(self):
        """Records of several parts: many of them, or some of so many locators that five are a part. Seldom they are too many."""
        draw = self.draw
        count, locators = draw.choice([(draw.randint(254, 257), 0), (draw.randint(256, 1024), 0), (draw.randint(256, 1024), 2), (1024, 0),
                                       (draw.randint(4, 20), 255)])
        if draw.random() < 0.02:
            count, locators = 1025, 0
        shown, ttl = "+192.0.2.1" * locators, draw.choice([0, 1, 1440])
        return [f"10.1.{it >> 8}.{it & 255}/32={ttl}{shown}" for it in draw.sample(range(2**16), count)]


def command(network, draw, sent):
    """A command, and how many datagrams there may be then."""
    server, router = draw.choice(network.servers), draw.choice(list(network.routers))
    fails = draw.choice(["", "", "", " doubt", " loadfails"])
    word = draw.choice(["send"] * 4 + ["deliver"] * 6 + ["tick"] * 2 + ["change", "junk", "restart", "restart", "rotate", "rotate", "lose", "notice",
                                                                        "resend", "hold", "acks", "ask", "request", "due"])
    number = draw.randint(0, sent) if draw.random() < 0.9 else draw.choice(NUMBERS)
    key = draw.choice(network.keys[router]) if draw.random() < 0.9 else draw.randint(0, 256)
    node = draw.choice([server, router])
    records = " ".join(network.records()) or "empty" if word in ("change", "restart", "lose") else ""
    part = f" part {draw.choice([0, 1, 1, 2, 3, 4, 5, 15, 16])}" if draw.random() < (0.6 if network.large else 0.1) else ""
    return {
        "send": f"send {router} {draw.choice(network.routers[router])}{part}{' doubt' if fails == ' doubt' else ''}",
        "deliver": f"deliver {number}{fails}",
        "tick": f"tick {draw.choice(STEPS)}",
        "change": f"change {router} {records}",
        "junk": f"junk {node} 127.0.{draw.randint(1, 2)}.{draw.randint(0, 3)} {network.hex(0, 90) or '-'}",
        "restart": f"restart {server} {draw.randint(0, 2)}" if draw.random() < 0.5 else
                   f"restart {router} {draw.randint(0, 2)} {records}",
        "rotate": f"rotate {router} {key}{' loadfails' if fails == ' loadfails' else ''}",
        "lose": f"lose {router} {key}" if draw.random() < 0.5 else f"lose {router} {key} {records}",
        "notice": f"notice {server} {router}{fails}",
        "resend": f"resend {server} {router}",
        "hold": f"hold {server}",
        "acks": f"acks {router}",
        "ask": f"ask {server} 10.1.{draw.randint(0, 3)}.1",
        "request": f"request {server} 10.1.{draw.randint(0, 3)}.{draw.choice([0, 1])}/{draw.choice([0, 8, 15, 16, 17, 24, 32])}"
                   + draw.choice(["", " from 127.0.0.9"]),
        "due": f"due {node}",
    }[word]


def near(text, draw):
    """The text with some of its bytes changed, taken away or doubled, or a line of it moved."""
    for _ in range(draw.randint(1, 3)):
        at = draw.randrange(len(text) + 1)
        kind = draw.randrange(4)
        if kind == 0:
            text = text[:at] + draw.choice("\0\"'[]=#\n 0f-:./x") + text[at + 1:]
        elif kind == 1:
            text = text[:at] + text[at + draw.randint(1, 40):]
        elif kind == 2:
            text = text[:at] + text[max(0, at - 60):]
        else:
            lines = text.split("\n")
            lines.insert(draw.randrange(len(lines)), draw.choice(lines))
            text = "\n".join(lines)
    return text


def schedule(seed):
    draw = random.Random(seed)
    network = Network(draw)
    script = [command(network, draw, at) for at in range(draw.randint(0, 60))]
    text = f"{network.text}---\n" + "".join(f"{it}\n" for it in script)
    return near(text, draw) if draw.random() < 0.3 else text


def row_order(line, sites):
    """The order of rows: by the router's site, by router, whose xTR-IDs here are in the order of the names, then by prefix."""
    _, router, record, *_ = line.split()
    prefix = ipaddress.ip_interface(record.split("=")[0])
    return sites.get(router, ""), router, prefix.version, prefix.network.network_address.packed, prefix.network.prefixlen


class Keys:
    """Which keys a router used, as far as its lines tell."""

    def __init__(self):
        self.present, self.used, self.lost, self.last = None, set(), set(), {}

    def takes(self, word, key):
        """Whether it may go over to the key, or start under it behind a lost store."""
        may = key not in (self.lost | {self.present} if word == "rotated" else self.used)
        self.lost = self.lost if word == "rotated" else set(self.used)
        self.present = key
        self.used.add(key)
        return may

    def has(self, key):
        """Whether the key is its present one."""
        may = key == self.present if self.present is not None else key not in self.lost
        self.present = key
        self.used.add(key)
        return may

    def sends(self, key, nonce):
        may = self.has(key) and nonce > self.last.get(key, 0)
        self.last[key] = nonce
        return may


def wrong_line(output, sites):
    """The first line that can't follow those before it, or None; the routers' sites are by their names."""
    last, accepted, parts, counted, rows, keys = {}, set(), {}, set(), [], collections.defaultdict(Keys)
    for line in output.splitlines():
        if it := ACCEPTED.match(line):
            server, router, key, nonce = it.groups()
            if int(nonce) <= last.get((server, router, key), -1):
                return line
            last[server, router, key] = int(nonce)
            accepted.add(it.groups())
        elif it := COUNTED.fullmatch(line):
            router, server, key, nonce, part = it.groups("0")
            if (server, router, key, nonce) not in accepted or parts.get((router, server, key, nonce)) != part or not keys[router].has(key):
                return line
            counted.add((router, server, part, key, nonce))
        elif it := SENT.fullmatch(line):
            router, server, key, nonce, part = it.groups("0")
            if not keys[router].sends(key, int(nonce)):
                return line
            parts[router, server, key, nonce] = part
        elif it := ACKS.fullmatch(line):
            if it[4] and it.groups("0") not in counted:
                return line
        elif line.startswith(("counted ", "sent ", "acks ")):
            return line
        elif it := KEYED.match(line):
            if not keys[it[2]].takes(it[1], it[3]):
                return line
        elif it := UNSTARTED.match(line):
            # (behind a lost store its key may be another now)
            keys[it[1]].present = None
        rows = [*rows, line] if line.startswith("row ") else []
        if len(rows) > 1 and row_order(rows[-2], sites) >= row_order(rows[-1], sites):
            return line
    return None


def played(text, room=None, growth=0):
    """Plays a text, with this growth refused where there is one."""
    env = {"LD_PRELOAD": f"{room}/failing.so", "FAILING_CALL": "growth", "FAILING_AT": str(growth), "FAILING_REPORT": "2"} if growth else None
    done = subprocess.run([program, "play", "-"], input=text.encode(), capture_output=True, timeout=LIMIT, env=env, check=False)
    return done.returncode, done.stdout.decode(), done.stderr.decode().replace("!", "", 1 if growth else 0)


def is_reported(text, output, error):
    """Whether standard error has each command that wasn't taken, in order: its number, and the line of a command."""
    found, script = UNTAKEN.findall(error), text.split("\n---\n", 1)[1].split("\n")
    places = [int(line) for _, line in found]
    return (UNTAKEN.sub("", error) == "" and [number for number, _ in found] == re.findall(r"^fault (\d+)$", output, re.M)
            and places == sorted(set(places)) and all(script[place - 1].strip(" ") and script[place - 1][0] != "#" for place in places))


def what_fails(text, room, growth):
    """What is wrong with a schedule's runs, or None."""
    status, output, error = played(text)
    again, squeezed = played(text), played(text, room, growth)
    if (status, output, error) != again:
        return "another output at the second run"
    if status == 2 and (output or not FAULT.fullmatch(error)) or status not in (0, 2) or status == 0 and not is_reported(text, output, error):
        return f"status {status}, '{error}'"
    if squeezed[0] == 1 and not REFUSED_MEMORY.fullmatch(squeezed[2]) or squeezed[0] not in (status, 1):
        return f"growth {growth} refused: status {squeezed[0]}, '{squeezed[2]}'"
    for lines in (output, squeezed[1]):
        if lines and not lines.endswith("\n"):
            return "half a line"
        if (line := wrong_line(lines, dict(SITED.findall(text)))) is not None:
            return f"the line '{line}'"
    return None


def fails(seed, room):
    text = schedule(seed)
    fault = what_fails(text, room, random.Random(seed).randint(1, GROWTHS))
    if fault:
        kept = HERE.parent / "out" / f"fuzz-{seed}.schedule"
        kept.parent.mkdir(exist_ok=True)
        kept.write_text(text)
        print(f"seed {seed}: {fault} (out/{kept.name})")
    return bool(fault)


first, count = int(sys.argv[2]), int(sys.argv[3])
with tempfile.TemporaryDirectory() as folder, concurrent.futures.ThreadPoolExecutor(os.cpu_count()) as side:
    subprocess.run(["cc", "-O1", "-Wall", "-shared", "-fPIC", "-o", f"{folder}/failing.so", HERE / "failing.c"], check=True)
    failed = sum(side.map(lambda seed: fails(seed, folder), range(first, first + count)))
print(f"{count} schedules, {failed} failed", file=sys.stderr)
sys.exit(1 if failed else 0)
