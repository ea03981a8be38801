#!/usr/bin/env -S python3 -B
"""capture.py PROGRAM
The way from a capture to an answer that docs/OPERATING.md has ("A datagram from a capture"): its own lines, over examples/map-register.pcap,
where `tcpdump` is there. The capture has the sample Map-Register in one packet, whose bytes are these. Prints each check that fails, and
ends with 1 where one does."""
import os
import re
import shutil
import struct
import subprocess
import sys
import tempfile
from pathlib import Path

TOP = Path(__file__).resolve().parent.parent
program = os.path.abspath(sys.argv[1])
CAPTURE, GUIDE, SECTION = TOP / "examples/map-register.pcap", TOP / "docs/OPERATING.md", "## A datagram from a capture\n"
PAYLOAD = bytes.fromhex((TOP / "examples/map-register.hex").read_text())
ANSWER = (TOP / "examples/map-notify.hex").read_text()
# From router r1 of the sample configuration to Map-Server s1, both at port 4342.
ROUTER, SERVER, PORT = bytes([127, 0, 0, 21]), bytes([127, 0, 0, 11]), 4342

failed = False


def check(name, got, wanted):
    """Prints a check that fails."""
    global failed
    if got != wanted:
        failed = True
        print(f"capture.py: {name}: {got!r}, wanted {wanted!r}", flush=True)


def sum_of(data):
    """The checksum of the Internet (RFC 1071)."""
    total = sum(struct.unpack(f"!{len(data + bytes(len(data) % 2)) // 2}H", data + bytes(len(data) % 2)))
    while total >> 16:
        total = (total & 0xFFFF) + (total >> 16)
    return total ^ 0xFFFF


def packet():
    """The Map-Register in UDP (RFC 768), IPv4 (RFC 791) and Ethernet."""
    udp = struct.pack("!4H", PORT, PORT, 8 + len(PAYLOAD), 0)
    pseudo = ROUTER + SERVER + struct.pack("!2H", 17, 8 + len(PAYLOAD))
    udp = udp[:6] + struct.pack("!H", sum_of(pseudo + udp + PAYLOAD))
    front, back = struct.pack("!2B3H2B", 0x45, 0, 28 + len(PAYLOAD), 1, 0, 64, 17), ROUTER + SERVER
    ip = front + struct.pack("!H", sum_of(front + bytes(2) + back)) + back
    ethernet = bytes([2, 0, 0, 0, 0, 11]) + bytes([2, 0, 0, 0, 0, 21]) + struct.pack("!H", 0x0800)
    return ethernet + ip + udp + PAYLOAD


def capture():
    """A file of pcap, version 2.4, with that packet of Ethernet at second 1."""
    return struct.pack("<IHHiIII", 0xA1B2C3D4, 2, 4, 0, 0, 65535, 1) + struct.pack("<4I", 1, 0, len(packet()), len(packet())) + packet()


def lines_of_guide():
    """The commands of that section."""
    section = GUIDE.read_text().partition(SECTION)[2].partition("\n## ")[0]
    return re.findall(r"^    (.*)$", section, re.M)


def run(line, folder):
    """Runs a command of the guide over the capture, in a folder where the program is `lispd`."""
    env = {**os.environ, "PATH": f"{folder}/bin:{os.environ['PATH']}"}
    line = re.sub(r"\bFILE\b", "map-register.pcap", line)
    return subprocess.run(["sh", "-c", line], cwd=folder, env=env, stdin=subprocess.DEVNULL, capture_output=True, text=True, check=False)


def main(folder):
    (folder / "bin").mkdir()
    (folder / "bin/lispd").symlink_to(program)
    shutil.copy(CAPTURE, folder)
    check("the capture", CAPTURE.read_bytes(), capture())
    lines = lines_of_guide()
    (to_digits,) = [it for it in lines if it.startswith("tcpdump ") and it.endswith("> digits")]
    (answers,) = [it for it in lines if it.startswith("lispd answer ")]
    if not shutil.which("tcpdump"):
        print("capture.py: no tcpdump here: the way from a capture to an answer was not tried")
        return
    check("the digits", run(to_digits, folder).returncode, 0)
    check("they are the payload's", (folder / "digits").read_text().strip(), PAYLOAD.hex())
    done = run(answers, folder)
    check("the answer", (done.returncode, done.stdout, done.stderr), (0, ANSWER, ""))


with tempfile.TemporaryDirectory() as name:
    main(Path(name))
sys.exit(1 if failed else 0)
