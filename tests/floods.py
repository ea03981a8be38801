#!/usr/bin/env -S python3 -B
"""floods.py PROGRAM [TEST ..]
Map-Requests by the thousand at `lispd server`, over real sockets: what goes out stays within the budget, to each destination and to all;
they don't keep Map-Registers waiting, nor these them; two Map-Servers whose rows name each other send a Map-Request round for a moment
alone. Prints each check that fails, and ends with 1 where one does. `floods.py PROGRAM times` prints what is measured, too."""
import collections
import contextlib
import itertools
import os
import subprocess
import tempfile
import time

from asking import (TO_EACH, Everywhere, Itr, Sent, a_server, arrivals, asking, check_budget, counts_of, itrs_of, lines, packed, register,
                    registered, registration, resolves, stamped)
from beside import (ASKER, BUSY, NODE, ROOM, SENDER, WATCHER, Beside, flood, in_ms, keep_apart, measured, note, processor_seconds, tell_busy,
                    told_slow, waits)
from nodes import (DATABASE, FILES, GROUPS, LIMIT, PORT, XTR, answers, check, killed, map_register, next_line, nonce_in, now, peer, ran, received,
                   run_tests, stopped, until)
from sockets import check_below

# How many Map-Registers a second, or Map-Requests, come beside a flood; how many datagrams a flood has, and for how many seconds it comes.
RATE, FLOOD, SECONDS = 1_000, 100_000, 4
# From which part of a processor's time on that a node needs all comes more slowly (beside.py): a flood of many addresses takes it longer than a
# few datagrams of them do.
FULL = 0.8
# For how many seconds at a time who sends, who asks and the node may wait for a processor where the waits are taken for the node's.
KEPT = 0.001
# How many tries there are, since the longest of some thousands of waits is one that the machine makes, too; and how many have to be against the node
# where none is for it. Where all comes more than so many times as slowly the waits are too few, and aren't compared.
TRIES, ENOUGH, SLOWEST = 10, 3, 4
# From how many addresses a flood comes, and how many ITR-RLOCs ask beside one.
SOURCES, ITRS = 20_000, 64
# Where there is a disk in memory the folders are there.
if os.path.isdir("/dev/shm"):
    tempfile.tempdir = "/dev/shm"


# ---- beside a flood


def watch(told, port):
    """What comes to a UDP port of all our addresses, until it is told to end: moments, addresses, and the bytes."""
    found = []
    with Everywhere(port) as it:
        while not told.poll():
            found += it.arrivals(0.05)
        return found + it.arrivals(0.2)


class Registrar:
    """A router that registers again and again."""

    def __init__(self, here, it):
        self.here, self.it, self.nonce = here, it, 1000

    def messages(self, count):
        self.nonce += count
        return [registration(nonce, registered("10.1.7.0/24")) for nonce in range(self.nonce - count, self.nonce)]

    def waits(self, messages, *others):
        first = nonce_in(messages[0])
        return Beside(ASKER, waits, lambda number: self.it.sendto(messages[number], (self.here.s1, PORT)),
                      lambda: nonce_in(self.it.recv(65535)) - first, self.it, len(messages), SECONDS, others).result()


def times_as_slow(here, process, registrar, datagrams):
    """How many times as slowly all has to come, by the processor's time that some Map-Registers and some datagrams of the flood take."""
    messages, bursts, burst = registrar.messages(50), 6, 50
    begun = processor_seconds(process)
    for message in messages:
        here.answer(registrar.it, message)
    between = processor_seconds(process)
    with Everywhere() as it:
        for number in range(bursts * burst):
            source, data = datagrams[number % len(datagrams)]
            it.send(source, data, here.s1)
            time.sleep(0.15 if number % burst == burst - 1 else 0)
    register_takes, request_takes = (between - begun) / len(messages), (processor_seconds(process) - between) / (bursts * burst)
    note(f"a Map-Register takes {register_takes * 1e6:.0f} us of a processor, a Map-Request {request_takes * 1e6:.0f} us")
    return not_compared(max(1.0, (register_takes * RATE + request_takes * FLOOD / SECONDS) / BUSY))


def not_compared(slow):
    """Says so where all comes more slowly, and where so slowly that the waits are too few."""
    return told_slow(slow, ", and how long it waits is not compared" if slow > SLOWEST else "")


def invented(here, count):
    """Addresses of ours that nobody else has, as bytes."""
    front = packed(f"{here.front}0")[:2]
    return [front + bytes([100 + number // 250, 1 + number % 250]) for number in range(count)]


def text_of(address):
    return ".".join(map(str, address))


def of_one(here, port):
    """A flood's datagrams: of one ITR."""
    source = f"{here.front}9"
    return [(packed(source), asking(number, eid, source, port)) for number in range(20) for eid in ("10.1.4.1", "10.1.2.1", "11.0.0.1")]


def of_many(here, port):
    """A flood's datagrams: of many addresses, each with an ITR-RLOC of its own."""
    eids = ("10.1.4.1", "10.1.2.1", "11.0.0.1")
    return [(source, asking(number, eids[number % 3], text_of(source), port)) for number, source in enumerate(invented(here, SOURCES))]


@contextlib.contextmanager
def a_network(here):
    """Map-Server s1 with a row by proxy and one of a router that replies by itself, and the sockets of both routers."""
    resolves(here, "s1", prefixes=[".".join(here.front.split(".")[:2]) + ".0.0/16"])
    process = a_server(here, stdout=subprocess.DEVNULL)
    keep_apart(process.pid, NODE)
    with peer(here.r1) as r1, stamped(peer(here.r2)) as r2:
        register(here, r1, 1, registered("10.1.4.0/24"))
        register(here, r2, 1, registered("10.1.2.0/24"), proxy=False, xtr=XTR + 1)
        received(r2, 0.01)
        yield process, r1, r2
        check("it runs", process.poll(), None)


def a_free_port():
    with Everywhere() as it:
        return it.port


def beside_a_flood(here, process, datagrams, size, port, r2, registrar, messages):
    """The waits of Map-Registers beside a flood of so many datagrams; how many of these were sent; and which part of a processor's time the node
    needed. What goes out meanwhile is within the budget."""
    watcher, sender = Beside(WATCHER, watch, port), Beside(SENDER, flood, here.s1, datagrams, size, SECONDS)
    at_first = processor_seconds(process)
    found = registrar.waits(messages, process.pid, sender.process.pid)
    busy = (processor_seconds(process) - at_first) / SECONDS
    sent, came = sender.result(), watcher.result()
    on = arrivals(r2)
    most, to_all = check_budget("what goes out", came + on)
    check("some goes out", (len(came) > 10, len(on) > 10), (True, True))
    note(f"{sent} sent, {len(came)} Map-Replies, {len(on)} went on; within a second {most} bytes to one, {to_all} to all; busy {busy:.0%}")
    return found, sent, busy


def registrations_beside(here, datagrams_of):
    """Each Map-Register is answered beside a flood of Map-Requests, and none waits longer than twice the longest that one waits without it. One of
    TRIES tries has to show that, and ENOUGH have to show the contrary where none does; else it is told that nothing was shown. Where somebody
    waited for a processor for longer than KEPT at a time all waits may be longer: a try doesn't show it then if that was without the flood, and
    doesn't show the contrary if it was beside it."""
    port, too_long = a_free_port(), []
    with a_network(here) as (process, r1, r2):
        registrar = Registrar(here, r1)
        datagrams = datagrams_of(here, port)
        slow = times_as_slow(here, process, registrar, datagrams)
        for _ in range(TRIES):
            count, size = int(RATE * SECONDS / slow), int(FLOOD / slow)
            alone = registrar.waits(registrar.messages(count), process.pid)
            beside, sent, busy = beside_a_flood(here, process, datagrams, size, port, r2, registrar, registrar.messages(count))
            missing = len(alone.missing + beside.missing)
            text = f"alone {in_ms(alone)}; beside {sent} of {size} {in_ms(beside)}; {missing} without an answer"
            note(text)
            is_met = not missing and sent >= 0.9 * size and (slow > SLOWEST or max(beside.seconds) <= 2 * max(alone.seconds))
            if is_met and (slow > SLOWEST or alone.kept <= KEPT):
                return
            if busy > FULL:
                slow = not_compared(slow * busy / BUSY)
            elif not is_met and beside.kept <= KEPT:
                too_long.append(text)
        if len(too_long) >= ENOUGH:
            check("waits", too_long, "none without an answer, and the longest at most twice that alone, in one try")
        else:
            tell_busy("how long they wait")


def registrations_beside_one_itr(here):
    registrations_beside(here, of_one)


def registrations_beside_many(here):
    here.store = GROUPS
    registrations_beside(here, of_many)


def requests_beside_a_flood(here):
    """Each of as many Map-Requests is answered beside a flood of Map-Registers: of good ones and then replays, and of forged ones."""
    here.store = GROUPS
    with a_network(here) as (process, r1, _), Everywhere() as itrs:
        slow, addresses = times_as_slow(here, process, Registrar(here, r1), of_many(here, itrs.port)), invented(here, ITRS)
        itrs.arrivals(0.05)
        count = int(RATE * SECONDS / slow)
        good = [(packed(here.r2), registration(nonce, registered("10.1.8.0/24"), notify=False, xtr=XTR + 1)) for nonce in range(10, 10_000)]
        forged = [(source, map_register(7, b"other")) for source in invented(here, SOURCES // 10)]
        asked = [asking(nonce, "10.1.4.1", text_of(addresses[nonce % ITRS]), itrs.port) for nonce in range(count)]
        for name, datagrams in (("nothing", []), ("good ones", good), ("forged ones", forged)):
            sender = Beside(SENDER, flood, here.s1, datagrams, int(FLOOD / slow) if datagrams else 0, SECONDS)
            asker = Beside(ASKER, waits, lambda number: itrs.send(addresses[number % ITRS], asked[number], here.s1),
                           lambda: nonce_in(itrs.socket.recv(65535)), itrs.socket, count, SECONDS, [process.pid])
            found, most = asker.result(), count // 100
            if len(found.missing) > most and found.kept > ROOM:
                tell_busy(f"those without an answer, beside {name}")
            else:
                check_below(f"those without an answer, beside {name}", len(found.missing), most)
            note(f"{len(found.seconds)} of {count} answered beside {sender.result()} {name}, {in_ms(found)}")


# ---- what waits


def both_kinds_in_turn(here):
    """A turn answers as many Map-Requests as it hears other datagrams, at most: so neither waits for all of the other kind."""
    resolves(here, "s1")
    for group, here.store in ((1, FILES), (4, (*DATABASE, "--group", "4"))):
        process, count = a_server(here), 12
        with peer(here.r1) as r1:
            register(here, r1, count * group, registered("10.1.4.0/24"))
            itrs = list(itertools.islice(itrs_of(here), count))
            check("its row", next_line(process), f"accepted s1 r1 key 1 nonce {count * group} from {here.r1}")
            with stopped(process):
                for number in range(count):
                    r1.sendto(registration(1 + count * group + number, registered("10.1.4.0/24")), (here.s1, PORT))
                for itr in itrs:
                    itr.asks(here.s1, "10.1.4.1")
            words = [line.split()[0] for line in lines(process, 2 * count)]
            check(f"in groups of {group}", words, (["accepted"] * group + ["replied"] * group) * (count // group))
        killed(process)


def how_many_wait(here):
    """128 Map-Requests of one address, and 256 in all; other datagrams have as many places of their own."""
    resolves(here, "s1")
    process = a_server(here, stdout=subprocess.DEVNULL)
    with peer(here.r1) as r1, Itr(f"{here.front}9") as one, Itr(f"{here.front}10") as other:
        with stopped(process):
            for itr, count in ((one, 150), (other, 20)):
                for _ in range(count):
                    itr.asks(here.s1, "11.0.0.1")
            for nonce in range(1, 41):
                r1.sendto(registration(nonce, registered("10.1.4.0/24")), (here.s1, PORT))
        check("the others", answers(r1, 40), list(range(1, 41)))
        check("Map-Requests", until(lambda: requests_of(here) >= 148) and requests_of(here), 148)
        check("each of the other one is answered", len(received(other.socket, 0.1)), 20)


def requests_of(here):
    return counts_of(ran("ask", f"{here.folder}/s1", "counts")[1])["requests"]


# ---- circles


def sent_on(here, name):
    """How many datagrams a node sent on by its own counts, and how many were held back."""
    found = counts_of(ran("ask", f"{here.folder}/{name}", "counts")[1])
    held = found.get("refused 135", 0)
    return found.get("forwarded", 0) - held, held


def seconds_until_still(here, names):
    """How many seconds pass until no node sends anything on for one."""
    begun = last = time.monotonic()
    found = None
    while (now := time.monotonic()) < min(last + 1, begun + LIMIT):
        if (at := [sent_on(here, name) for name in names]) != found:
            found, last = at, now
        time.sleep(0.05)
    return last - begun


def a_circle(here):
    """Two Map-Servers, each of which has the other one as the router of a row: a Map-Request goes round until one is over its budget."""
    names, row = ("s1", "s2"), registration(1, registered("10.1.2.0/24"), proxy=False, notify=False)
    resolves(here, *names)
    for name in names:
        a_server(here, name=name, stdout=subprocess.DEVNULL)
    with Everywhere() as everywhere, Itr(f"{here.front}9") as itr, Sent(here.s1) as by_s1, Sent(here.s2) as by_s2:
        everywhere.send(packed(here.s2), row, here.s1)
        everywhere.send(packed(here.s1), row, here.s2)
        rows = [f"{here.folder}/{name}" for name in names]
        check("both have the row", until(lambda: all("10.1.2.0/24" in ran("ask", it, "hold")[1] for it in rows)), True)
        begun, size = time.monotonic(), len(itr.asks(here.s1, "10.1.2.1"))
        check_below("seconds until it ends", seconds_until_still(here, names), 3)
        found = [sent_on(here, name) for name in names]
        check("it went round, and was held back", (min(sent for sent, _ in found) > 5, sum(held for _, held in found)), (True, 1))
        for _ in range(200):
            itr.asks(here.s1, "10.1.2.1")
            time.sleep(0.02)
        check_below("seconds until all have ended", seconds_until_still(here, names), 3)
        took = time.monotonic() - begun
        for sent, name in ((by_s1, "s1"), (by_s2, "s2")):
            count, held = sent_on(here, name)
            # (The Map-Register with its address is ours.)
            shown = [(moment, address, data) for moment, address, _, data in sent.datagrams() if data[0] >> 4 != 3]
            most, _ = check_budget(f"what {name} sends", shown)
            check_below(f"bytes that {name} sends in {took:.0f} s", count * size, (took + 2) * TO_EACH)
            note(f"{name} sent {count} on and held {held} back in {took:.1f} s; shown are {len(shown)}, within a second {most} bytes")
            check("what is shown", collections.Counter(data[0] >> 4 for *_, data in shown), {8: count} if sent.is_shown else {})
        check("no Map-Reply", itr.reply(0.1), None)


def a_slow_circle(here):
    """Where what is sent on comes back late, so that the budget holds nothing back, it goes round until somebody drops it."""
    resolves(here, "s1")
    a_server(here, stdout=subprocess.DEVNULL)
    with peer(here.s2) as s2, Itr(f"{here.front}9") as itr:
        register(here, s2, 1, registered("10.1.2.0/24"), proxy=False)
        sent, got = itr.asks(here.s1, "10.1.2.1"), []
        s2.settimeout(LIMIT)
        for _ in range(20):
            got.append(s2.recv(65535))
            time.sleep(0.1)
            s2.sendto(got[-1], (here.s1, PORT))
        check("the bytes stay what they are", set(got), {sent})
        check("once more, and no more", received(s2, 1), [sent])
        check("nothing is held back", sent_on(here, "s1"), (21, 0))


tests = [registrations_beside_one_itr, registrations_beside_many, requests_beside_a_flood]
if measured:
    run_tests([], [*tests, a_circle], names=[])
run_tests([a_circle, a_slow_circle, both_kinds_in_turn, how_many_wait], tests)
