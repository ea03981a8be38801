#!/usr/bin/env -S python3 -B
"""stolen_key.py PROGRAM [times] [SECONDS]
Whoever stole the key of a site does its worst at a running `lispd server` with its nonces in files, for a minute, or so many seconds:
Map-Registers of invented xTR-IDs, of hundreds of new prefixes, that live for as long as may be, with as many locators as a record has, under
the greatest nonce. The site has limits. Its rows, its routers that have some, their nonces on the disk, the node's memory and its log stay
within the figures of docs/OPERATING.md; routers of another site, and one of this site, go on meanwhile, and each is answered. Then: what leaves
a nonce beyond the limits, and that listed routers bound that. Prints each check that fails, and ends with 1 where one does; with `times` it
prints what is measured, too."""
import contextlib
import os
import re
import sys
import tempfile
import time
from pathlib import Path

from asking import Everywhere, counts_of, packed
from beside import (ASKER, BUSY, NAME, NODE, ROOM, SENDER, Beside, flood, in_ms, keep_apart, note, processor_seconds, tell_busy, told_slow,
                    waits)
from nodes import LIMIT, PORT, check, is_up, killed, nonce_in, now, peer, ran, received, run_tests, until
from sockets import check_below, signed

SECONDS = next((int(it) for it in sys.argv[2:] if it.isdigit()), 60)
# How many Map-Registers honest routers send in a second, how many the thief does, and for how many seconds at a time the first are counted.
RATE, FLOOD, WINDOW = 1_000, 500, 2
# From which part of a processor's time on that the node needs it isn't held against it that some got no answer; and how many windows have to be
# against it.
FULL, ENOUGH = 0.8, 3
# The limits of the site whose key is stolen, and the routers of the other site, with a row each.
ROUTERS, ROWS, JUMP, OTHERS = 8, 200, 1_000_000, 100
# What docs/OPERATING.md says that these take: a row of 255 locators, an xTR-ID that has a nonce and no row, what waits to be heard, all in bytes;
# and how many lines a second are told of refusals.
ROW_BYTES, NONCE_BYTES, WAITING_BYTES, LINES = 7_300, 400, 256 * 65_536, 288
# What a program takes beside that, in bytes. One that is compiled to be tried has so many addresses, takes more by far, and answers too slowly.
SPARE, TRIED = 4 << 20, 1 << 40
# How many seconds a slow program may need to hear some datagrams.
PATIENCE = 120
# How many xTR-IDs only withdraw.
WITHDRAWN = 1_000
GREATEST, LONGEST = 2**64 - 1, 4_294_967_294
SITE, OTHER_SITE, SECRETS = 1, 2, {1: b"secret", 2: b"of another site"}
R1, THIEF, FIRST_OTHER, INVENTED = 10, 0x7000, 0x2000, 2**127
LOCATORS = (bytes.fromhex("0164ff0000050002") + packed("2001:db8::66")) * 255
if os.path.isdir("/dev/shm"):
    tempfile.tempdir = "/dev/shm"


def configure(here, limits):
    """A site with limits, whose key is stolen, and one without."""
    def site(number, prefixes, limits):
        listed = "".join(f'[[site.prefix]]\neid = "{prefix}"\nmore_specifics = true\n' for prefix in prefixes)
        return f'[[site]]\nid = "{number:016x}"\n{limits}\n[[site.key]]\nid = 1\nsecret = "{SECRETS[number].hex()}"\n{listed}'
    server = f'[[server]]\nname = "s1"\naddress = "{here.s1}"\n'
    router = f'[[router]]\nname = "r1"\naddress = "{here.r1}"\nsite = "{SITE:016x}"\nxtr = "{R1:032x}"\nkey = 1\nservers = ["s1"]\n'
    sites = site(SITE, ["10.1.0.0/16", "2001:0db8:0:0:0:0:0:0/32"], limits) + site(OTHER_SITE, ["10.2.0.0/16"], "")
    Path(here.config).write_text(sites + server + router)


def record(eid, mask, ttl=1440, locators=b""):
    """A record as routers register it, of locators of IPv6."""
    return ttl.to_bytes(4, "big") + bytes([len(locators) // 24, mask, 0x10, 0, 0, 0, 0, 1 if len(eid) == 4 else 2]) + eid + locators


def registration(xtr, nonce, *records, site=SITE, use_ttl=True):
    """A Map-Register that wants a Map-Notify."""
    behind = b"".join(records) + xtr.to_bytes(16, "big") + site.to_bytes(8, "big")
    return signed("3a0009" if use_ttl else "3a0001", len(records), nonce, behind, SECRETS[site])


def narrow(number, ttl=LONGEST):
    """A record of a /24 of the site, without locators."""
    return record(bytes([10, 1, number % 256, 0]), 24, ttl)


def wide(number, locators=b""):
    """A record of a /64 of the site."""
    return record(packed("2001:db8::")[:4] + number.to_bytes(4, "big") + bytes(8), 64, LONGEST, locators)


def address(here, number):
    """One of some addresses of ours that nobody else has, as bytes."""
    return packed(f"{here.front}0")[:2] + bytes([100 + number // 250 % 100, 1 + number % 250])


# ---- a Map-Server, and what is seen of it


@contextlib.contextmanager
def a_server(here):
    """Map-Server s1, whose lines go to a file, and the sockets of the honest routers and of the thief."""
    with open(f"{here.folder}/lines", "w", encoding="utf-8") as lines:
        process = here.start(*here.words("server", "s1"), stdout=lines)
    check("s1 is up", is_up(here.s1), True)
    keep_apart(process.pid, NODE)
    with peer(here.r1) as honest, peer(here.r2) as thief:
        yield process, honest, thief
    check("it runs", process.poll(), None)
    killed(process)


def asked(here, question):
    """What s1 answers to a question, for which a slow one has no time at first."""
    found = []
    is_answered = until(lambda: found.append(ran("ask", f"{here.folder}/s1", *question.split())) or found[-1][0] == 0, PATIENCE)
    check(f"{question} is answered", is_answered, True)
    return found[-1][1]


def routers_with_rows(here):
    """How many routers of the site have rows. (None of the other site has a name.)"""
    return len(re.findall(rf"^router (?!{OTHER_SITE:016x}/).* rows [1-9]\d*$", asked(here, "routers"), re.M))


def rows_of_site(here):
    return counts_of(asked(here, "counts"))["rows"] - OTHERS


def refusals(here):
    """How many refusals of each number s1 has told of."""
    return {int(words.split()[1]): count for words, count in counts_of(asked(here, "counts")).items() if words.startswith("refused ")}


def heard(here):
    """How many Map-Registers s1 has accepted or refused."""
    return sum(count for words, count in counts_of(asked(here, "counts")).items() if words.startswith(("accepted", "refused ")))


def nonce_files(here, site=SITE):
    return len(list(Path(f"{here.folder}/s1").glob(f"r-{site:016x}-*.nonce")))


def memory(process, of):
    """Some of a process's memory, in bytes."""
    return int(re.search(rf"^{of}:\s*(\d+) kB$", Path(f"/proc/{process.pid}/status").read_text(), re.M)[1]) << 10


def is_tried(process):
    return memory(process, "VmSize") >= TRIED


def check_memory(process, before, most):
    """Checks how much more memory a process took at worst than before."""
    grown = memory(process, "VmHWM") - before
    note(f"memory grew by {grown / 1e6:.1f} of {most / 1e6:.1f} MB, from {before / 1e6:.1f}")
    if is_tried(process):
        print(f"{NAME}: {now.test}: this program was compiled to be tried, and so nothing is said of its memory", flush=True)
    else:
        check_below("by how many bytes its memory grew", grown, most)


def settled(process):
    """The processor's time that a process has needed, once it needs no more."""
    last = -1.0
    while (found := processor_seconds(process)) > last + 0.001:
        last = found
        time.sleep(0.1)
    return found


# ---- who sends


class Honest:
    """Routers of the other site, which register again and again, and among them r1 of the site whose key is stolen."""

    def __init__(self, here, it):
        self.here, self.it, self.nonce = here, it, 0

    def messages(self, count):
        def message(nonce):
            if nonce % 250 == 0:
                return registration(R1, nonce, record(bytes([10, 1, 0, 0]), 16), use_ttl=False)
            number = nonce % OTHERS
            return registration(FIRST_OTHER + number, nonce, record(bytes([10, 2, number, 0]), 24), site=OTHER_SITE, use_ttl=False)
        self.nonce += count
        return [message(nonce) for nonce in range(self.nonce - count, self.nonce)]

    def come(self):
        """Each is there."""
        for message in self.messages(OTHERS + 1):
            self.here.answer(self.it, message)

    def beside(self, count, others):
        """A process that sends so many messages evenly over WINDOW."""
        messages = self.messages(count)
        first = nonce_in(messages[0])
        return Beside(ASKER, waits, lambda number: self.it.sendto(messages[number], (self.here.s1, PORT)),
                      lambda: nonce_in(self.it.recv(65535)) - first, self.it, count, WINDOW, others)


def fill(here, thief):
    """Fills the site: invented routers with a row each, and one with all others, of as many locators as a record may have. That one's last
    nonce."""
    messages = [registration(INVENTED + number, GREATEST, narrow(number)) for number in range(ROUTERS - 2)]
    left, nonce = list(range(ROWS - 1 - len(messages))), 0
    while left:
        nonce, some, left = nonce + 1, left[:10], left[10:]
        messages.append(registration(THIEF, nonce, *(wide(number, LOCATORS) for number in some)))
    # (Nonces don't tell these apart: each is awaited by itself.)
    for message in messages:
        thief.sendto(message, (here.s1, PORT))
        thief.settimeout(LIMIT)
        check("its record is answered", nonce_in(thief.recv(65535)), nonce_in(message))
    return nonce


def worst(here, nonce):
    """The datagrams of a flood, each kind in its turn, with their sources: routers and rows beyond the limits, r1's xTR-ID under the greatest nonce,
    and what was accepted once."""
    kinds = {
        139: lambda number: registration(INVENTED + 1_000 + number, GREATEST, narrow(number)),
        140: lambda number: registration(THIEF, nonce + 1, *(wide(ROWS + number * 255 + it) for it in range(255))),
        "139 of 255 records": lambda number: registration(INVENTED + 9_000 + number, number, *(wide(number * 255 + it) for it in range(255))),
        138: lambda number: registration(R1, GREATEST, narrow(number)),
        57: lambda number: registration(INVENTED + number % (ROUTERS - 2), GREATEST, narrow(number)),
    }
    return {kind: [(address(here, number), make(number)) for number in range(200)] for kind, make in kinds.items()}


def times_as_slow(here, process, honest, kinds):
    """How many times as slowly all has to come, by the processor's time that some of each take."""
    messages, some = honest.messages(50), 3
    begun = processor_seconds(process)
    for message in messages:
        here.answer(honest.it, message)
    takes = {"honest": (processor_seconds(process) - begun) / len(messages)}
    with Everywhere() as it:
        for kind, datagrams in kinds.items():
            before, begun = heard(here), settled(process)
            for source, data in datagrams[:some]:
                it.send(source, data, here.s1)
            are_heard = until(lambda: settled(process) and heard(here) == before + some, PATIENCE)
            takes[kind] = (processor_seconds(process) - begun) / some
            check(f"all of {kind} are heard", are_heard, True)
    note(", ".join(f"{kind}: {seconds * 1e6:.0f} us of a processor" for kind, seconds in takes.items()))
    mean = sum(takes[kind] for kind in kinds) / len(kinds)
    return told_slow(max(1.0, (takes["honest"] * RATE + mean * FLOOD) / BUSY))


# ---- the tests


def check_limits(here, when):
    check_below(f"rows of the site, {when}", rows_of_site(here), ROWS)
    check_below(f"routers of the site with rows, {when}", routers_with_rows(here), ROUTERS)


def honest_beside(here, process, honest, sender, slow):
    """Honest routers beside a flood, window by window: how many there are, in how many of them some got no answer, and of these the ones that are
    against the node."""
    windows, missing, against = 0, 0, []
    while not sender.ours.poll():
        at_first, count = processor_seconds(process), max(4, int(RATE * WINDOW / slow))
        asker = honest.beside(count, [process.pid, sender.process.pid])
        while not asker.ours.poll(0.5):
            check_limits(here, "in the flood")
        found = asker.result()
        busy = (processor_seconds(process) - at_first) / WINDOW
        text = f"{len(found.missing)} of {count} without an answer, {in_ms(found)}, busy {busy:.0%}"
        note(text)
        windows, missing = windows + 1, missing + bool(found.missing)
        if found.missing and found.kept <= ROOM and busy <= FULL:
            against.append(text)
    return windows, missing, against


def at_its_worst(here):
    """The site is full, and the thief goes on: nothing grows, and who was there before goes on too."""
    configure(here, f"most_routers = {ROUTERS}\nmost_rows = {ROWS}\nmost_jump = {JUMP}")
    with a_server(here) as (process, it, thief):
        honest = Honest(here, it)
        honest.come()
        before, begun = memory(process, "VmRSS"), time.monotonic()
        kinds = worst(here, fill(here, thief))
        check("the site is full", (rows_of_site(here), routers_with_rows(here), nonce_files(here)), (ROWS, ROUTERS, ROUTERS))
        slow = times_as_slow(here, process, honest, kinds)
        size = int(FLOOD * SECONDS / slow)
        sender = Beside(SENDER, flood, here.s1, [them[number] for number in range(200) for them in kinds.values()], size, SECONDS)
        windows, missing, against = honest_beside(here, process, honest, sender, slow)
        check("it was flooded for some time", windows > 0, True)
        note(f"{sender.result()} of {size} sent; refused: {refusals(here)}")
        if len(against) >= ENOUGH:
            check("who got no answer", against, "none")
        elif missing:
            tell_busy("those without an answer")
        check("each limit was met", set(refusals(here)), {57, 138, 139, 140})
        check("the site is as full as it was", (rows_of_site(here), routers_with_rows(here), nonce_files(here)), (ROWS, ROUTERS, ROUTERS))
        check("nonces of the other site", nonce_files(here, OTHER_SITE), OTHERS)
        check_memory(process, before, ROWS * ROW_BYTES + WAITING_BYTES + SPARE)
        last = honest.nonce = (honest.nonce // 250 + 1) * 250
        check("r1 renews", nonce_in(here.answer(it, *honest.messages(1))), last)
        check("r1 is found", asked(here, "ask 10.1.255.1").startswith("ask s1 10.1.255.1 reply 10.1.0.0/16=1440"), True)
        if not is_tried(process):
            rows = [line.split() for line in asked(here, "hold").splitlines() if line.startswith("row ")]
            check("rows that are listed", (len(rows), sum(router == "r1" for _, router, *_ in rows)), (ROWS + OTHERS, 1))
        lines, seconds = Path(f"{here.folder}/lines").read_text().splitlines(), time.monotonic() - begun
        check_below("lines of refusals", sum(line.startswith("refused ") for line in lines), LINES * (seconds + 1))
        accepted = counts_of(asked(here, "counts"))["accepted"]
        check_below("lines of what is accepted", sum(line.startswith("accepted ") for line in lines), accepted)


def withdrawals(here, it):
    """Map-Registers of invented xTR-IDs that only withdraw, as many at a time as have room; how many are answered."""
    begun, answered = heard(here), 0
    for first in range(0, WITHDRAWN, 20):
        for number in range(first, first + 20):
            it.sendto(registration(INVENTED + number, GREATEST, narrow(number, 0)), (here.s1, PORT))
        check("all are heard", until(lambda: heard(here) == begun + first + 20, PATIENCE), True)
        answered += len(received(it, 0.001))
    return answered


def what_leaves_a_nonce(here):
    """An invented xTR-ID that only withdraws is accepted where the site is full, and leaves a nonce; not where routers are listed."""
    full = "most_routers = 1\nmost_rows = 1\n"
    for limits, answered in ((full, WITHDRAWN), (f'{full}routers = ["{R1:032x}"]', 0)):
        configure(here, limits)
        with a_server(here) as (process, it, thief):
            check("r1 is answered", nonce_in(here.answer(it, registration(R1, 1, narrow(0)))), 1)
            files, before = nonce_files(here), memory(process, "VmRSS")
            check("how many are answered", withdrawals(here, thief), answered)
            check("nonces that they leave", nonce_files(here) - files, answered)
            check("rows", counts_of(asked(here, "counts"))["rows"], 1)
            check_memory(process, before, answered * NONCE_BYTES + SPARE)
        for file in Path(f"{here.folder}/s1").glob("*.nonce"):
            file.unlink()


run_tests([], [what_leaves_a_nonce, at_its_worst], names=[])
