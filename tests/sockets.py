"""sockets.py: what the tests of sockets and moments share (timing.py, addresses.py, output.py): a program whose socket calls are
shown or held and whose clock goes at another speed (failing_sockets.c), and when what comes to our sockets."""
import functools
import hashlib
import hmac
import itertools
import os
import select
import socket
import subprocess
import threading
import time

import nodes
from nodes import HERE, LIMIT, MAP_NOTIFY, check, until

# How far from its time a message may come, in seconds: a turn waits 0.1 s, and the machine may be busy.
SLACK = 0.3
# How many times as fast the clock goes where a minute passes.
SPEED = 10
# How many datagrams are taken at most, where there should be a few.
MOST = 1000


@functools.cache
def sockets_library(room):
    library = f"{room}/failing_sockets.so"
    subprocess.run(["cc", "-O1", "-Wall", "-shared", "-fPIC", "-o", library, f"{HERE}/failing_sockets.c"], check=True)
    return library


def with_sockets(env=None, **settings):
    """The environment in which failing_sockets.c is loaded with these settings, before what `env` loads."""
    with nodes.lock:
        library = sockets_library(nodes.room)
    env = env or os.environ
    return {**env, "LD_PRELOAD": f"{library} {env.get('LD_PRELOAD', '')}", **{name: str(value) for name, value in settings.items()}}


def faster(env=None, speed=SPEED):
    return with_sockets(env, CLOCK_SPEED=speed)


def slower():
    """Ten seconds are one for the program: nothing is due again while it is tried."""
    return with_sockets(CLOCK_SPEED=1 / SPEED)


def watch():
    """Keeps how late this process was woken at worst, in seconds: the machine is as late with others."""
    global latest
    while True:
        begun = time.monotonic()
        time.sleep(0.05)
        latest = max(latest, time.monotonic() - begun - 0.05)


def late():
    """How late the machine was at worst so far, in seconds."""
    return latest


latest = 0
threading.Thread(target=watch, daemon=True).start()


def shown(here, words, held="", env=None, **how):
    """Starts the program; each call of its socket comes as a letter to a socket of ours, which lets the one go that is held."""
    ours, its = socket.socketpair()
    ours.settimeout(LIMIT)
    with its:
        env = with_sockets(env, SOCKET_CALLS=its.fileno(), SOCKET_HELD=held)
        return here.start(*words, env=env, pass_fds=[its.fileno()], **how), ours


def held(here, words, call):
    """Starts the program, up to its first call of this kind: the process, and the socket by which it goes on."""
    process, calls = shown(here, words, call)
    check(f"the first call {call}", until(lambda: calls.recv(1) in (call.encode(), b"")), True)
    return process, calls


def signed(kind, count, nonce, behind, secret=b"secret", key=1):
    """A message that begins with this kind and these bits, and has so many records; with the tag under a secret."""
    front = bytes.fromhex(kind) + bytes([count]) + nonce.to_bytes(8, "big") + bytes([key, 2, 0, 16])
    return front + hmac.new(secret, front + bytes(16) + behind, hashlib.sha256).digest()[:16] + behind


def map_notify(nonce, secret=b"secret", key=1, kind="400000"):
    """The Map-Notify for the worked Map-Register, under another nonce, secret or key."""
    return signed(kind, 1, nonce, MAP_NOTIFY[32:], secret, key)


def map_notify_ack(nonce):
    return map_notify(nonce, kind="500000")


def arrivals(sockets, seconds, enough=MOST):
    """What comes to these sockets within so many seconds, or until each has got enough: for each its moments and datagrams."""
    end, found = time.monotonic() + seconds, {it: [] for it in sockets}
    while (left := end - time.monotonic()) > 0 and min(map(len, found.values())) < enough and max(map(len, found.values())) < MOST:
        for it in select.select(sockets, [], [], left)[0]:
            found[it].append((time.monotonic(), it.recv(65535)))
    return list(found.values())


def heard(it, seconds):
    """The datagrams that come to a socket within so many seconds."""
    return [message for _, message in arrivals([it], seconds)[0]]


def few(lines):
    """The first lines, of which there may be too many to print."""
    return lines if len(lines) < 20 else [*lines[:20], "and more"]


def check_gaps(name, found, wanted, slack=SLACK):
    """Checks the times between datagrams, in seconds."""
    slack += 2 * late()
    moments = [moment for moment, _ in found]
    gaps = [later - earlier for earlier, later in zip(moments, moments[1:])]
    close = [gap if gap is not None and it is not None and abs(gap - it) <= slack else it
             for gap, it in itertools.zip_longest(gaps, wanted)]
    check(f"{name}: seconds between sends", [round(it, 2) for it in gaps], [round(it, 2) for it in close if it is not None])


def check_below(name, got, most):
    check(name, got if got > most else most, most)
