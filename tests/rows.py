#!/usr/bin/env -S python3 -B
"""rows.py PROGRAM
Drives a Map-Server and a plain list of rows with the same 10,000 calls, drawn from a seed: Map-Registers of some routers for
prefixes that lie in one another, time that passes, look-ups, and what is held. After each, the rows, their order and the answer
are those of the list (RFC 9301 sections 8.2 and 8.3). Prints each line that differs, and ends with 1 where one does."""
import ipaddress
import random
import subprocess
import sys

SEED = 1
ROUNDS = 2_000
LIFE = 180_000
MINUTE = 60_000
# Each router's bits: whether it asks for proxy replies, and whether its rows live by their TTL.
ROUTERS = {"r0": (True, False), "r1": (False, False), "r2": (True, True), "r3": (False, True)}
PREFIXES = ["10.0.0.0/8", "10.1.0.0/16", "10.1.0.0/17", "10.1.128.0/17", "10.1.2.0/24", "10.1.2.3/32", "10.1.2.4/32", "10.2.0.0/16",
            "10.2.2.0/23", "10.2.3.0/24", "2001:0db8:0000:0000:0000:0000:0000:0000/32", "2001:0db8:0000:0001:0000:0000:0000:0000/64",
            "2001:0db8:0000:0001:0000:0000:0000:0007/128"]
ADDRESSES = ["10.1.2.3", "10.1.2.4", "10.1.2.5", "10.1.130.1", "10.2.3.9", "10.9.9.9", "11.0.0.1",
             "2001:0db8:0000:0001:0000:0000:0000:0007", "2001:0db8:0000:0002:0000:0000:0000:0001",
             "2001:0db9:0000:0000:0000:0000:0000:0001"]
STEPS = [0, 1, 999, 20_000, 59_999, 60_000, 179_999]


def configuration():
    """One site that all routers are of, and one Map-Server."""
    text = '[[site]]\nid = "0000000000000001"\n[[site.key]]\nid = 1\nsecret = "736563726574"\n'
    text += "".join(f'[[site.prefix]]\neid = "{prefix}"\nmore_specifics = true\n' for prefix in (PREFIXES[0], PREFIXES[10]))
    text += '[[server]]\nname = "s1"\naddress = "127.0.0.1"\n'
    for place, (name, (proxy, use_ttl)) in enumerate(ROUTERS.items()):
        text += (f'[[router]]\nname = "{name}"\naddress = "{address_of(name)}"\nsite = "0000000000000001"\nxtr = "{place:032x}"\nkey = 1\n'
                 f'servers = ["s1"]\nproxy = {str(proxy).lower()}\nuse_ttl = {str(use_ttl).lower()}\n')
    return text


def address_of(router):
    return f"127.0.1.{router[1:]}"


def block(prefix):
    """The order of prefixes: IPv4 first, then by address, then by length."""
    network = ipaddress.ip_network(prefix)
    return network.version, network.network_address.packed, network.prefixlen


class Rows:
    """What the Map-Server holds: a plain list's worth of rows by router and prefix."""

    def __init__(self):
        self.rows, self.now = {}, 0

    def put(self, router, records, nonce):
        for prefix, ttl in records:
            life = ttl * MINUTE if ROUTERS[router][1] or ttl == 0 else LIFE
            self.rows[router, prefix] = (ttl, nonce, self.now, life)

    def live(self):
        return {held: row for held, row in self.rows.items() if self.now - row[2] < row[3]}

    def held(self):
        live = self.live()
        lines = [f"hold s1 {len(live)}"]
        for router, prefix in sorted(live, key=lambda held: (held[0], block(held[1]))):
            ttl, nonce, accepted, _ = live[router, prefix]
            lines.append(f"row {router} {prefix}={ttl} key 1 nonce {nonce} age {self.now - accepted}")
        return lines

    def answer(self, address):
        asked = ipaddress.ip_address(address)
        live = self.live()
        may = [held for held in live if asked in ipaddress.ip_network(held[1])]
        if may:
            router, prefix = max(may, key=lambda held: (block(held[1])[2], ROUTERS[held[0]][0], live[held][2], held[0]))
            proxy = ROUTERS[router][0]
            return f"ask s1 {address} " + (f"reply {prefix}={live[router, prefix][0]}" if proxy else f"forward {address_of(router)}")
        has_site = any(asked in ipaddress.ip_network(PREFIXES[place]) for place in (0, 10))
        return f"ask s1 {address} " + ("unregistered 1" if has_site else "nosite 15")


def drawn():
    """The commands, and the lines that they print."""
    draw, rows, nonces, sent = random.Random(SEED), Rows(), dict.fromkeys(ROUTERS, 0), 0
    script, lines = [], []
    for _ in range(ROUNDS):
        router = draw.choice(list(ROUTERS))
        records = [(prefix, draw.choice([0, 1, 2, 3, 1440])) for prefix in draw.sample(PREFIXES, draw.randint(1, 4))]
        nonces[router] += 1
        nonce = nonces[router]
        script += [f"change {router} {' '.join(f'{prefix}={ttl}' for prefix, ttl in records)}", f"send {router} s1", f"deliver {sent}"]
        lines += [f"change {router} records {len(records)}", f"sent {router} s1 key 1 nonce {nonce} datagram {sent}",
                  f"accepted s1 {router} key 1 nonce {nonce} datagram {sent + 1}"]
        sent += 2
        rows.put(router, records, nonce)
        step, address = draw.choice(STEPS), draw.choice(ADDRESSES)
        rows.now += step
        script += ["hold s1", f"tick {step}", f"ask s1 {address}", "hold s1"]
        rows.now -= step
        lines += rows.held()
        rows.now += step
        lines += [f"tick {step} now {rows.now}", rows.answer(address), *rows.held()]
    return script, lines


script, wanted = drawn()
text = configuration() + "---\n" + "".join(f"{command}\n" for command in script)
done = subprocess.run([sys.argv[1], "play", "-"], input=text, capture_output=True, text=True, timeout=120, check=False)
printed = done.stdout.splitlines()
differ = [(line, other) for line, other in zip(printed, wanted) if line != other]
for line, other in differ[:5]:
    print(f"rows.py: '{line}', wanted '{other}'")
if (done.returncode, done.stderr, len(printed)) != (0, "", len(wanted)):
    print(f"rows.py: status {done.returncode}, '{done.stderr}', {len(printed)} lines, wanted {len(wanted)}")
    sys.exit(1)
sys.exit(1 if differ else 0)
