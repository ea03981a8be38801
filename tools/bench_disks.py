"""What tools/bench_saves, tools/bench_server, tools/bench_asked and tools/bench_resolve share: the disks that they measure on, a Map-Server that
runs and is asked, routers, and how pairs stand in a database. The first word of the command is the program, which is out/lispd where there is
none."""
import hmac
import os
import shutil
import socket
import subprocess
import sys
import time
from typing import NamedTuple

TOP = os.path.dirname(os.path.dirname(os.path.abspath(__file__)))
OUT, MEMORY = f"{TOP}/out", "/dev/shm"
MILLISECOND = 1_000
PROGRAM = sys.argv[1] if sys.argv[1:] else f"{TOP}/out/lispd"
SERVER, PORT = "127.0.0.11", 4342
# How long an answer may take, in seconds.
LIMIT = 30
# The line that closes each answer of a node that is asked.
CLOSING = b"end\n"
INSERT = "INSERT INTO nonces (kind, site_id, xtr_id, key_id, nonce) VALUES (?, ?, ?, ?, ?)"
CONFIG = """[[site]]
id = "0000000000000001"
[[site.key]]
id = 1
secret = "736563726574"
[[site.prefix]]
eid = "10.0.0.0/8"
more_specifics = true
[[server]]
name = "s1"
address = "ADDRESS"
"""


class Disk(NamedTuple):
    """Where files are made, and the environment in which programs run over them."""

    name: str
    folder: str
    environment: dict


def slow(microseconds):
    """A disk in memory each of whose syncs takes so long; None where there is no C compiler."""
    if shutil.which("cc") is None:
        return None
    os.makedirs(OUT, exist_ok=True)
    library = f"{OUT}/bench_slow.so"
    source = f"{TOP}/tools/bench_slow.c"
    subprocess.run(["cc", "-O1", "-Wall", "-shared", "-fPIC", "-o", library, source, "-ldl"], check=True)
    environment = {**os.environ, "LD_PRELOAD": library, "SLOW_MICROSECONDS": str(microseconds)}
    return Disk(f"memory whose syncs take {microseconds / MILLISECOND:g} ms", MEMORY, environment)


def disks():
    """The disk of this folder, memory, and memory as a disk whose syncs take a millisecond."""
    os.makedirs(OUT, exist_ok=True)
    found = [Disk("this folder's disk", OUT, dict(os.environ)), Disk("memory", MEMORY, dict(os.environ)), slow(MILLISECOND)]
    return [disk for disk in found if disk is not None]


def row(number, nonce=0):
    """The row of what is received from the router with a number as its xTR-ID, at site 1."""
    return "received", f"{1:016x}", f"{number:032x}", 1, f"{nonce:020}"


def sqlite():
    """Python's module of SQLite in C; None where it isn't installed."""
    try:
        import sqlite3
    except ImportError:
        return None
    return sqlite3


def fill(path, pairs):
    """Puts a row of each of so many pairs into a database that no program has open; whether SQLite in C is there to do it."""
    if sqlite() is None:
        return False
    connection = sqlite().connect(path, isolation_level=None)
    connection.execute("BEGIN")
    connection.execute("DELETE FROM nonces")
    connection.executemany(INSERT, (row(number) for number in range(pairs)))
    connection.execute("COMMIT")
    connection.execute("PRAGMA wal_checkpoint(TRUNCATE)")
    connection.close()
    # (SQLite removed the log, without which no node starts)
    open(f"{path}-wal", "ab").close()
    return True


def map_register(router, nonce, first, count, proxy):
    """A Map-Register of a router with records of so many host prefixes, from one of 10.0.0.0/8 on (RFC 9301 section 5.6)."""
    records = b"".join(bytes.fromhex("000005a000201000000000010a") + (first + place).to_bytes(3, "big") for place in range(count))
    front = bytes([0x3A if proxy else 0x32, 0, 1, count]) + nonce.to_bytes(8, "big") + bytes.fromhex("01020010")
    behind = records + router.to_bytes(16, "big") + (1).to_bytes(8, "big")
    tag = hmac.digest(b"secret", front + bytes(16) + behind, "sha256")[:16]
    return front + tag + behind


class Server:
    """A Map-Server at an address, with its nonces in a folder. Its lines are taken, or go to an output."""

    def __init__(self, disk, folder, words, address=SERVER, output=None, **how):
        config = f"{folder}/configuration.toml"
        with open(config, "w", encoding="utf-8") as file:
            file.write(CONFIG.replace("ADDRESS", address))
        start = time.monotonic()
        how = {"env": disk.environment, "stdout": output or subprocess.PIPE, **how}
        self.process = subprocess.Popen([PROGRAM, "server", config, "s1", "--store", folder, *words], **how)
        self.reader = None
        if output is not None:
            return
        started = self.process.stdout.readline()
        if not started.startswith(b"started "):
            raise SystemExit(f"the Map-Server didn't start: {started}")
        self.start_seconds = time.monotonic() - start
        # Takes what it prints.
        self.reader = subprocess.Popen(["cat"], stdin=self.process.stdout, stdout=subprocess.DEVNULL)

    def processor_seconds(self):
        with open(f"/proc/{self.process.pid}/schedstat", encoding="ascii") as file:
            return int(file.read().split()[0]) / 1e9

    def resident_kb(self):
        with open(f"/proc/{self.process.pid}/status", encoding="ascii") as file:
            return next(int(line.split()[1]) for line in file if line.startswith("VmRSS"))

    def __enter__(self):
        return self

    def __exit__(self, *_):
        self.process.kill()
        self.process.wait()
        if self.reader is not None:
            self.process.stdout.close()
            self.reader.wait()


class Router:
    """A socket at a router's address."""

    def __init__(self, number, server=SERVER):
        self.number, self.server = number, server
        self.nonce = time.time_ns()
        self.socket = socket.socket(socket.AF_INET, socket.SOCK_DGRAM)
        self.socket.bind((f"127.0.1.{number}", PORT))
        self.socket.settimeout(LIMIT)

    def send(self, xtr=None, first=None, count=1, proxy=True):
        """Sends a Map-Register of so many host prefixes; where nothing is said, of the one with the router's number, for proxy Map-Replies."""
        self.nonce += 1
        xtr, first = (self.number if it is None else it for it in (xtr, first))
        self.socket.sendto(map_register(xtr, self.nonce, first, count, proxy), (self.server, PORT))

    def answered(self):
        """Waits for a Map-Notify."""
        self.socket.recv(65535)


def asked(folder, question):
    """What the Map-Server answers, over a connection of its own, up to the line that closes it; nothing where it doesn't come whole."""
    with socket.socket(socket.AF_UNIX) as it:
        it.settimeout(LIMIT)
        it.connect(f"{folder}/s1/control")
        it.sendall(question + b"\n")
        parts = []
        while part := it.recv(1 << 20):
            parts.append(part)
    text = b"".join(parts)
    return text.removesuffix(CLOSING) if text.endswith(b"\n" + CLOSING) else b""


def registrations(number, rate, seconds):
    """How many Map-Registers a second are answered that are sent at a rate, or each when the one before it is answered, and how long the slowest
    waits, in ms. One that isn't answered ends the program."""
    router, waits, start = Router(number), [], time.monotonic()
    while (now := time.monotonic()) < start + seconds:
        if rate is None or len(waits) <= (now - start) * rate:
            router.send()
            begun = time.monotonic()
            router.answered()
            waits.append(time.monotonic() - begun)
        else:
            time.sleep(0.0001)
    return len(waits) / seconds, max(waits) * 1000
