"""nodes.py: what the tests of `lispd server`, `router` and `loop` share (running.py and others): a folder and a network of its
own for each test, processes and their lines, and the worked messages. A test is a function of a `Place`."""
import contextlib
import errno
import functools
import hashlib
import hmac
import os
import signal
import socket
import subprocess
import sys
import tempfile
import threading
import time
from concurrent.futures import ThreadPoolExecutor
from pathlib import Path

HERE = os.path.dirname(os.path.abspath(__file__))
EXAMPLES = os.path.dirname(HERE) + "/examples"
CONFIG = f"{EXAMPLES}/worked.toml"
MAP_NOTIFY = bytes.fromhex(Path(f"{EXAMPLES}/map-notify.hex").read_text())
PORT = 4342
# How long a test waits for what has to come, in seconds.
LIMIT = 20
# How many tests run at a time: most of what they do is waiting.
AT_A_TIME = 16
# What the first line of a node that runs without an end begins with.
STARTED = "started "
SITE, XTR = 1, 10
# The record of the worked Map-Register.
RECORD = bytes.fromhex("000005a001101000000000010a0100000164ff0000050001c0000201")
# How a node keeps its nonces, by the words that tell it so: in files, in a database, or there in groups (Map-Servers alone).
FILES, DATABASE, GROUPS = (), ("--database",), ("--database", "--group", "64")

program = os.path.abspath(sys.argv[1]) if sys.argv[1:] else ""
# The folder of this run, and the front of its addresses.
room = front = ""
checks, failed, lock, now = 0, [], threading.Lock(), threading.local()


def check(name, got, wanted):
    """Counts a check, and prints it where it fails."""
    global checks
    with lock:
        checks += 1
        if got != wanted:
            failed.append(name)
            print(f"{now.test}: {name}: {got!r}, wanted {wanted!r}", flush=True)


class Place:
    """A test's folder, and its network: the configuration of the examples at addresses of its own."""

    def __init__(self, folder, number):
        self.folder, self.config = folder, f"{folder}/configuration.toml"
        self.front = f"{front}.{number}."
        self.s1, self.s2, self.r1, self.r2 = (f"{self.front}{last}" for last in (11, 12, 21, 22))
        self.processes, self.store = [], FILES
        Path(self.config).write_text(self.moved(Path(CONFIG).read_text()))

    def moved(self, text):
        """A text with the addresses of this network in the place of those of the examples."""
        return text.replace("127.0.0.", self.front)

    def words(self, kind, name, *more):
        """The words that run a node in the folder."""
        return (kind, self.config, name, "--store", self.folder, *self.store, *more)

    def file(self, name, kind, site=SITE, xtr=XTR, key=1):
        """The path of a node's file of a pair: kind s (sent), r (received) or n (notice)."""
        return Path(f"{self.folder}/{name}/{kind}-{site:016x}-{xtr:032x}-{key:02x}.nonce")

    def start(self, *words, under=(), **how):
        """Starts the program, under another one where words of such are given; its lines come by a pipe. It is killed when the
        test ends."""
        how = {"stdin": subprocess.DEVNULL, "stdout": subprocess.PIPE, "text": True, **how}
        self.processes.append(subprocess.Popen([*under, program, *words], **how))
        return self.processes[-1]

    def answer(self, it, message, patience=LIMIT):
        """What Map-Server s1 answers within so many seconds to a Map-Register; None where nothing comes."""
        it.sendto(message, (self.s1, PORT))
        end = time.monotonic() + patience
        while (left := end - time.monotonic()) > 0:
            it.settimeout(left)
            try:
                got = it.recv(65535)
            except TimeoutError:
                return None
            if nonce_in(got) == nonce_in(message):
                return got
        return None


def ran(*words, patience=LIMIT, **how):
    """Runs the program to its end: its status, standard output and standard error. A word where it doesn't end in so many seconds."""
    how = {"stdin": subprocess.DEVNULL, "stdout": subprocess.PIPE, "stderr": subprocess.PIPE, "text": True, "check": False, **how}
    try:
        done = subprocess.run([program, *words], timeout=patience, **how)
    except subprocess.TimeoutExpired:
        return "hangs"
    return done.returncode, done.stdout, done.stderr


def in_words(*words, **how):
    """Runs the program to the fault that ends it: its status, the number, and what it tells in words (--words)."""
    status, _, error = ran(*words, "--words", **how)
    fault, _, told = error.partition("\n")
    return status, int(fault.removeprefix("!").removeprefix("lispd: fault ")), told.rstrip("\n").rpartition(" --words: ")[2]


def system(number):
    """What the program tells of an error of the system's."""
    return f"{os.strerror(number)} (os error {number})"


def unstarted(lines):
    """Lines without their line feeds, and without the first one of a node that runs without an end."""
    return (line.rstrip("\n") for line in lines if not line.startswith(STARTED))


def next_line(process):
    """The next line that it prints, but for the one that it starts with; None where it ends first, or is stopped at last."""
    watch = threading.Timer(LIMIT, process.kill)
    watch.start()
    found = next(unstarted(process.stdout), None)
    watch.cancel()
    return found


def killed(process):
    """Kills a process as a crash does; what it had printed and nobody has read, but for the line that it starts with."""
    process.send_signal(signal.SIGKILL)
    lines = list(unstarted(process.stdout)) if process.stdout else []
    process.wait()
    return lines


@contextlib.contextmanager
def stopped(process):
    """While a process is stopped, what is sent to it waits."""
    process.send_signal(signal.SIGSTOP)
    until(lambda: " T " in Path(f"/proc/{process.pid}/stat").read_text())
    yield
    process.send_signal(signal.SIGCONT)


def nonce_text(nonce):
    return b"nonce %020d\n" % nonce


def map_register(nonce, secret=b"secret", site=SITE, xtr=XTR, key=1, records=(RECORD,)):
    """The worked Map-Register of router r1 under another nonce, secret, identity or key, or with other records (RFC 9301 section 5.6)."""
    front = bytes.fromhex("3a0001") + bytes([len(records)]) + nonce.to_bytes(8, "big") + bytes([key]) + bytes.fromhex("020010")
    behind = b"".join(records) + xtr.to_bytes(16, "big") + site.to_bytes(8, "big")
    tag = hmac.new(secret, front + bytes(16) + behind, hashlib.sha256).digest()[:16]
    return front + tag + behind


def identity(xtr, site=SITE):
    """What a node calls a router that its configuration doesn't have."""
    return f"{site:016x}/{xtr:032x}"


def nonce_in(message):
    """The nonce of a message; 0 where there is no message."""
    return int.from_bytes((message or b"")[4:12], "big")


def nonces_in(lines):
    """The nonces of the lines that tell of a Map-Register that was sent."""
    return [int(line.split()[-1]) for line in lines if line.startswith("sent ")]


def peer(address):
    """A socket of ours at a node's address, UDP port 4342."""
    it = socket.socket(socket.AF_INET6 if ":" in address else socket.AF_INET, socket.SOCK_DGRAM)
    it.bind((address, PORT))
    return it


def received(it, patience):
    """The datagrams that have come, and those that come until none does for so long, in seconds."""
    found = []
    it.settimeout(patience)
    with contextlib.suppress(TimeoutError):
        while True:
            found.append(it.recv(65535))
    return found


def answers(it, count):
    """The nonces of so many datagrams that come to a socket of ours, and of those right behind them."""
    found = []
    it.settimeout(LIMIT)
    with contextlib.suppress(TimeoutError):
        while len(found) < count:
            found.append(it.recv(65535))
    return [nonce_in(message) for message in [*found, *received(it, 0.1)]]


def heard(*peers):
    """The nonces of what has come at our sockets, in rising order."""
    return sorted(nonce_in(message) for it in peers for message in received(it, 0.1))


def until(is_so, patience=LIMIT):
    """Whether a thing comes to be within so many seconds."""
    end = time.monotonic() + patience
    while time.monotonic() < end:
        if is_so():
            return True
        time.sleep(0.005)
    return is_so()


def is_bound(address):
    """Whether there is a socket at an address, UDP port 4342 (an IPv4 address; of an IPv6 address: whether there is one at all)."""
    if ":" in address:
        return f":{PORT:04X} " in Path("/proc/net/udp6").read_text()
    return f" {socket.inet_aton(address)[::-1].hex().upper()}:{PORT:04X} " in Path("/proc/net/udp").read_text()


def is_up(address):
    """Whether a node that was just started has come to have its socket."""
    return until(lambda: is_bound(address))


@functools.cache
def failing_library(room):
    library = f"{room}/failing.so"
    subprocess.run(["cc", "-O1", "-Wall", "-shared", "-fPIC", "-o", library, f"{HERE}/failing.c"], check=True)
    return library


def failing(call, at=1, path="", error=errno.EIO, folder=""):
    """The environment in which a call of a kind fails with an error, of a file whose path ends so or that is in this folder (see
    failing.c), and says `!` on standard error: to be given as `env`."""
    with lock:
        library = failing_library(room)
    return {**os.environ, "LD_PRELOAD": library, "FAILING_CALL": call, "FAILING_AT": str(at), "FAILING_PATH": path,
            "FAILING_FOLDER": folder, "FAILING_ERROR": str(error), "FAILING_REPORT": "2"}


def with_slow_syncs(microseconds):
    """The environment in which each sync takes so much longer: to be given as `env`."""
    with lock:
        library = failing_library(room)
    return {**os.environ, "LD_PRELOAD": library, "SYNC_TAKES": str(microseconds)}


def over(store, test):
    """A test over another store, under a name of its own."""
    def run(here):
        here.store = store
        test(here)
    run.__name__ = "_".join([test.__name__, "over", *(word.strip("-") for word in store or ["files"])])
    return run


def run_test(test, number):
    """Runs a test in a folder of its own."""
    folder, now.test = f"{room}/{test.__name__}", test.__name__
    os.makedirs(folder)
    place = Place(folder, number)
    try:
        test(place)
    except (OSError, ValueError, TypeError, LookupError, subprocess.SubprocessError) as error:
        check("its run", f"{error!r}, line {error.__traceback__.tb_next.tb_lineno}", "no error")
    finally:
        for process in place.processes:
            killed(process)


def free_front(name):
    """The front of addresses that no run beside this one has, and the socket that keeps the others from it."""
    for second in range(os.getpid(), os.getpid() + 200):
        found = f"127.{1 + second % 250}"
        try:
            return found, peer(f"{found}.0.1")
        except OSError as error:
            if error.errno != errno.EADDRINUSE:
                print(f"{name}: no socket at {found}.0.1, UDP port {PORT} ({error.strerror}): nothing was run on sockets")
                sys.exit(0)
    print(f"{name}: other runs have all addresses")
    sys.exit(1)


def run_tests(beside, alone=(), names=None):
    """Runs tests beside each other, then others one by one, or those that the words name; ends the process."""
    global room, front
    name, names = os.path.basename(sys.argv[0]), sys.argv[2:] if names is None else names
    front, keeper = free_front(name)
    named = [(number, test) for number, test in enumerate([*beside, *alone], 1) if not names or test.__name__ in names]
    with keeper, tempfile.TemporaryDirectory() as room:
        with ThreadPoolExecutor(AT_A_TIME) as side:
            for it in [side.submit(run_test, test, number) for number, test in named if test in beside]:
                it.result()
        for number, test in named:
            if test in alone:
                run_test(test, number)
    if failed:
        print(f"{name}: {checks} checks, {len(failed)} failed")
    sys.exit(1 if failed else 0)
