#!/usr/bin/env -S python3 -B
"""changed.py PROGRAM
Plays what nobody's router or Map-Server would send: each of the 672 changes of one bit of the worked Map-Register, the
Map-Notify cut to each length, and bytes behind it. All are refused, and the nodes are as before. Prints each line that is
another than it may be, and ends with 1 where one is."""
import re
import subprocess
import sys
from pathlib import Path

EXAMPLES = Path(__file__).resolve().parent.parent / "examples"
REGISTER = bytes.fromhex((EXAMPLES / "map-register.hex").read_text())
NOTIFY = bytes.fromhex((EXAMPLES / "map-notify.hex").read_text())
ROW = "row r1 10.1.0.0/16=1440+192.0.2.1/1/100/255/0 key 1 nonce {0} age 0"
HEADER = 32


def changed(message, bit):
    value = bytearray(message)
    value[bit // 8] ^= 0x80 >> bit % 8
    return bytes(value)


def registered(nonce, datagram):
    """A registration, and what it prints."""
    return [("send r1 s1", f"sent r1 s1 key 1 nonce {nonce} datagram {datagram}"),
            (f"deliver {datagram}", f"accepted s1 r1 key 1 nonce {nonce} datagram {datagram + 1}")]


def holds(nonce):
    return [("hold s1", "hold s1 1\n" + ROW.format(nonce))]


def cut(length):
    return "43 read 1" if length < HEADER else "43 read 15 record 0 fault 1"


# Commands and the lines they must print, as patterns where they begin with ^.
script = [
    *registered(1, 0), *holds(1),
    *((f"junk s1 127.0.0.21 {changed(REGISTER, bit).hex()}", "^refused s1 (50 .*|51|52|53)$") for bit in range(8 * len(REGISTER))),
    *holds(1), *registered(2, 2), *holds(2),
    # What the store kept is as before, too: nonce 2 is the last one.
    ("restart s1 0", "restarted s1"), ("deliver 2", "refused s1 57 saved 2"),
    ("acks r1", "acks r1 s1 none\nacks r1 s2 none"),
    *((f"junk r1 127.0.0.11 {NOTIFY[:length].hex() or '-'}", f"refused r1 {cut(length)}") for length in range(len(NOTIFY))),
    (f"junk r1 127.0.0.11 {NOTIFY.hex()}00", "refused r1 43 read 14"),
    (f"junk r1 127.0.0.11 {NOTIFY.hex()}{'00' * 24}", "refused r1 46"),
    ("acks r1", "acks r1 s1 none\nacks r1 s2 none"),
    ("deliver 3", "counted r1 s1 key 1 nonce 2"),
]

text = (EXAMPLES / "worked.toml").read_text() + "\n---\n" + "".join(f"{command}\n" for command, _ in script)
done = subprocess.run([sys.argv[1], "play", "-"], input=text, capture_output=True, text=True, timeout=60, check=False)
lines = iter(done.stdout.splitlines())
failed = (done.returncode, done.stderr) != (0, "")
for command, wanted in script:
    for pattern in wanted.split("\n"):
        line = next(lines, "")
        if not (re.match(pattern, line) if pattern.startswith("^") else line == pattern):
            failed = True
            print(f"'{command}' printed '{line}', wanted '{pattern}'")
sys.exit(1 if failed or next(lines, None) is not None else 0)
