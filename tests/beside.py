"""beside.py: what the tests of floods share (floods.py, stolen_key.py): processes beside each other, each with a processor of its own where there
are so many, how long messages wait for their answers meanwhile, and what is told where a machine is slow or has other work."""
import collections
import contextlib
import multiprocessing
import os
import select
import sys
import time
from pathlib import Path

from asking import Everywhere
from nodes import now

# Which part of a processor's time a node is to need for what comes: where it would need more, as a program that isn't optimised does, or on a
# slow machine, all comes more slowly.
BUSY = 0.6
# Each of these has a processor of its own, where there are so many: who watches for the answers to a flood, who sends it, who asks beside it, and
# the node.
PARTIES = WATCHER, SENDER, ASKER, NODE = range(4)
# What comes in how many seconds has room in the buffer of a socket.
ROOM = 0.01
FORKED = multiprocessing.get_context("fork")
NAME = os.path.basename(sys.argv[0])
measured = sys.argv[2:3] == ["times"]


def note(text):
    if measured:
        print(f"{now.test}: {text}", flush=True)


def keep_apart(process, party):
    """Gives a party its processor, where there is one for each, and the first turn there, where the system lets us (sched(7))."""
    processors = sorted(os.sched_getaffinity(0))
    if len(processors) >= len(PARTIES):
        os.sched_setaffinity(process, {processors[party]})
        with contextlib.suppress(PermissionError):
            os.sched_setscheduler(process, os.SCHED_FIFO, os.sched_param(1))


class Beside:
    """A function that runs in a process of its own, as a party, and what it returns."""

    def __init__(self, party, function, *arguments):
        self.ours, its = FORKED.Pipe()
        self.process = FORKED.Process(target=self.run, args=(its, party, function, arguments))
        self.process.start()
        its.close()
        self.ours.recv()

    def run(self, its, party, function, arguments):
        self.ours.close()
        keep_apart(os.getpid(), party)
        its.send("begun")
        its.send(function(its, *arguments))

    def result(self):
        """Tells it to end, and waits for what it returns."""
        with contextlib.suppress(BrokenPipeError):
            self.ours.send("end")
        found = self.ours.recv()
        self.process.join()
        return found


def flood(told, server, datagrams, count, seconds):
    """Sends so many datagrams, from their sources, in turn, evenly over so many seconds, until it is told to end. How many."""
    begun, sent = time.monotonic(), 0
    with Everywhere() as it:
        while sent < count and not told.poll():
            due = min(count, int((time.monotonic() - begun) * count / seconds) + 1)
            for number in range(sent, due):
                source, data = datagrams[number % len(datagrams)]
                it.send(source, data, server)
            sent = max(sent, due)
            time.sleep(0.0003)
    return sent


class Kept:
    """For how many seconds at a time some processes waited for a processor at most. The system has sums: what all waited between two looks is taken
    as one wait."""

    def __init__(self, processes):
        # (They are closed as this process ends. Who has ended waits for none.)
        files = [f"/proc/{process}/schedstat" for process in processes]
        self.files = [os.open(file, os.O_RDONLY) for file in files if os.path.exists(file)]
        self.sum, self.longest = self.waited(), 0.0

    def waited(self):
        return sum(int(os.pread(file, 100, 0).split()[1]) for file in self.files) / 1e9

    def look(self):
        last, self.sum = self.sum, self.waited()
        self.longest = max(self.longest, self.sum - last)


# How long messages waited for their answers, in seconds; which of them got none in two; and for how long at a time somebody waited for a processor.
Waits = collections.namedtuple("Waits", "seconds missing kept")


def waits(_told, send, receive, it, count, seconds, others):
    """The waits of so many messages, which are sent evenly over so many seconds; of this process and others it is seen how they wait for a
    processor."""
    begun, sent, found, number, kept = time.monotonic(), {}, [], 0, Kept([os.getpid(), *others])
    gap = seconds / count
    while number < count or sent and time.monotonic() < begun + seconds + 2:
        while number < count and number * gap <= time.monotonic() - begun:
            sent[number] = time.monotonic()
            send(number)
            number += 1
        left = 0.05 if number >= count else max(0.0, begun + number * gap - time.monotonic())
        if select.select([it], [], [], left)[0]:
            got = receive()
            if got in sent:
                found.append(time.monotonic() - sent.pop(got))
            kept.look()
    return Waits(found, sorted(sent), kept.longest)


def processor_seconds(process):
    return int(Path(f"/proc/{process.pid}/schedstat").read_text().split()[0]) / 1e9


def told_slow(slow, more=""):
    """Says so where all comes more slowly."""
    if slow > 1:
        print(f"{NAME}: {now.test}: this machine, or program, is slow: all comes {slow:.1f} times as slowly{more}", flush=True)
    return slow


def tell_busy(what):
    print(f"{NAME}: {now.test}: this machine has other work, and so nothing is said of {what}", flush=True)


def in_ms(found):
    """The median wait, what 99 in a hundred are below, the longest, and for how long a processor was waited for, in ms."""
    seconds = sorted(found.seconds) or [0]
    parts = (("median", seconds[len(seconds) // 2]), ("of 99 in a hundred", seconds[len(seconds) * 99 // 100]), ("longest", seconds[-1]),
             ("kept", found.kept))
    return ", ".join(f"{name} {it * 1000:.2f} ms" for name, it in parts)
