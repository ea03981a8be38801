#!/usr/bin/env -S python3 -B
"""library.py LIBRARY
Tests the library for C programs (out/liblisp_registration.a): library.c under valgrind, and with the compiler's sanitizers; the programs
of examples/c, of which the server and the router run on loopback; the header alone, in C and C++; the C of docs; what the library defines
and needs; the header's numbers and those of docs/REFUSALS.md. Prints each check that fails, and what it left out where a tool is missing;
ends with 1 where a check fails."""
import hmac
import os
import re
import shutil
import socket
import subprocess
import sys
import tempfile
import threading
from pathlib import Path

HERE = Path(__file__).resolve().parent
TOP = HERE.parent
HEADER, REGISTER, NOTIFY = TOP / "include/lisp_registration.h", TOP / "examples/map-register.hex", TOP / "examples/map-notify.hex"
CLEAN = ["-std=c99", "-Wall", "-Wextra", "-pedantic", "-Werror", f"-I{TOP}/include"]
WRAP = [f"-Wl,--wrap={name}" for name in ("malloc", "realloc", "free")]
SANITIZERS = ["-fsanitize=address,undefined", "-fno-sanitize-recover=all"]
CONFIGURATION = TOP / "examples/worked.toml"
LIMIT = 60
# How long no answer is waited for, and how long one is, in seconds.
SILENCE, ANSWER = 0.15, 5
library = os.path.abspath(sys.argv[1])
failed = False

# A Map-Notify-Ack without records, and Map-Registers with a value of its own in each field and with as many records as there can be:
# their bytes but the Authentication Data.
ACK = ("50000000 ffffffffffffffff ff 02 0010", "")
ALL_FIELDS = ("3e001d03 0102030405060708 09 02 0010", """
    11223344 02 3d b000 0abc 0002 20010db8800000080000000000000000
        01020304 0005 0001 c0000221
        fe050607 0002 0002 20010db8000000000000000000010002
    00000000 01 20 0000 0fff 0001 c6336407
        ff00fe01 0000 0001 cb007109
    00000007 00 00 e000 0000 0001 00000000
    0102030405060708090a0b0c0d0e0f10 a1a2a3a4a5a6a7a8""")
# A notice of the worked Map-Register's record and its acknowledgement; that Map-Register under nonce 2, the same with the record
# 10.1.9.0/24, and the one of the second router of the configuration; and one whose record has 255 locators.
RECORD, LOCATOR, ROUTER = "000005a0 01 10 1000 0000 0001 0a010000", "0164ff00 0005 0001 c0000201", 30 * "0" + "0a 0000000000000001"
NOTICE, NOTICE_ACK = [(f"{kind}0000001 8000000000000000 01 02 0010", RECORD + LOCATOR) for kind in (4, 5)]
AGAIN = ("3a000101 0000000000000002 01 02 0010", RECORD + LOCATOR + ROUTER)
CHANGED = (AGAIN[0], "000005a0 01 18 1000 0000 0001 0a010900" + LOCATOR + ROUTER)
SECOND = ("32000101 0000000000000001 01 02 0010",
          "000005a0 01 18 1000 0000 0001 0a010200 0164ff00 0005 0001 c0000202" + 30 * "0" + "0b 0000000000000001")
MOST_LOCATORS = ("3a000101 0000000000000001 01 02 0010", "000005a0 ff 10 1000 0000 0001 0a010000" + 255 * LOCATOR + ROUTER)
MOST_RECORDS = ("320000ff 0000000000000000 00 02 0010", 255 * "000005a0 01 10 1000 0000 0001 0a010000 0164ff00 0005 0001 c0000201" + 48 * "0")


def check(name, got, wanted):
    """Prints a check that fails."""
    global failed
    if got != wanted:
        failed = True
        print(f"library.py: {name}: {got!r}, wanted {wanted!r}", flush=True)


def is_there(tool, what):
    """Whether a tool is there; else a line says what was left out."""
    if not shutil.which(tool):
        print(f"library.py: no {tool} here: {what} not tried")
    return shutil.which(tool) is not None


def ran(*words, given=None):
    """Runs a command with a file as standard input: its status, and what it printed."""
    with open(given or os.devnull, encoding="utf-8") as file:
        done = subprocess.run(words, stdin=file, stdout=subprocess.PIPE, stderr=subprocess.STDOUT, text=True, timeout=LIMIT, check=False)
    return done.returncode, done.stdout


def authentic(secret, head, rest):
    """A datagram with its tag under a secret, as the words of library.c have it."""
    head, rest = bytes.fromhex(head), bytes.fromhex(rest)
    tag = hmac.new(secret, head + bytes(16) + rest, "sha256").digest()[:16]
    return [secret.hex(), (head + tag + rest).hex()]


def test_library(room):
    words = [CONFIGURATION.read_text(), b"secret".hex(), REGISTER.read_text().strip(), b"secret".hex(), NOTIFY.read_text().strip(),
             *authentic(b"", *ACK), *authentic(131 * b"\xaa", *ALL_FIELDS)]
    for message in (MOST_RECORDS, NOTICE, NOTICE_ACK, AGAIN, CHANGED, SECOND, MOST_LOCATORS):
        words += authentic(b"secret", *message)
    sources = sorted(HERE.glob("library*.c"))
    build = ["cc", "-g", *CLEAN, *WRAP, *sources, library]
    check("cc library.c", ran(*build, "-o", f"{room}/library"), (0, ""))
    check("library.c", ran(f"{room}/library", *words), (0, ""))
    if is_there("valgrind", "library.c under it was"):
        check("valgrind", ran("valgrind", "-q", "--leak-check=full", "--error-exitcode=99", f"{room}/library", *words), (0, ""))
    (room / "empty.c").write_text("int main(void) { return 0; }\n")
    if ran("cc", *SANITIZERS, room / "empty.c", "-o", f"{room}/empty")[0] or ran(f"{room}/empty")[0]:
        print("library.py: no sanitizers here: library.c with them was not tried")
        return
    check("cc with sanitizers", ran(*build, *SANITIZERS, "-o", f"{room}/sanitized"), (0, ""))
    check("sanitizers", ran(f"{room}/sanitized", *words), (0, ""))


def is_shown(printed):
    """Whether the README of examples/c shows what a program printed."""
    return "".join(f"    {line}\n" for line in printed.splitlines()) in (TOP / "examples/c/README.md").read_text()


def test_examples(room, compiler):
    for name in ("check", "dump", "register"):
        check(f"{compiler} {name}.c", ran(compiler, *CLEAN, TOP / f"examples/c/{name}.c", library, "-o", room / name), (0, ""))
    status, printed = ran(room / "dump", given=REGISTER)
    check("dump.c", (status, is_shown(printed)), (0, True))
    check("dump.c, cut short", ran(room / "dump", given=TOP / "examples/cut-short.hex")[0], 2)
    status, printed = ran(room / "check", "secret", given=REGISTER)
    check("check.c", (status, is_shown(printed)), (0, True))
    check("check.c without arguments", ran(room / "check", given=REGISTER)[0], 2)
    check("check.c with a wrong tag", ran(room / "check", "secret", given=TOP / "examples/wrong-tag.hex")[0], 1)
    check("check.c, cut short", ran(room / "check", "secret", given=TOP / "examples/cut-short.hex")[0], 2)
    written = ran(room / "register", "secret")[1].splitlines(keepends=True)
    check("register.c", written[0], REGISTER.read_text())
    (room / "again.hex").write_text(written[1])
    check("register.c, again", ran(room / "check", "secret", given=room / "again.hex"), (0, printed.replace("nonce 1", "nonce 2")))


def free_port():
    with socket.socket(socket.AF_INET, socket.SOCK_DGRAM) as udp:
        udp.bind(("127.0.0.1", 0))
        return udp.getsockname()[1]


class Running:
    """A program that runs over sockets until the block ends, and then is killed."""

    def __init__(self, *words):
        self.program = subprocess.Popen(words, stdout=subprocess.PIPE, text=True)
        self.late = threading.Timer(LIMIT, self.program.kill)

    def __enter__(self):
        self.late.start()
        check("whether it is ready", self.line(), "ready\n")
        return self

    def __exit__(self, *_):
        self.late.cancel()
        self.program.kill()
        self.program.communicate()

    def line(self):
        return self.program.stdout.readline()

    def line_with(self, words):
        """The first line that begins with these words; an empty one where the program ends."""
        return next(line for line in iter(self.line, None) if line.startswith(words) or not line)


def told(program, folder, *steps):
    """Starts the server over a folder, takes the steps (a datagram's file to send, or something to call), and kills it: for each
    datagram the line that the server printed, and its answer in hexadecimal digits, or None."""
    port, answers = free_port(), []
    with socket.socket(socket.AF_INET, socket.SOCK_DGRAM) as udp, Running(program, CONFIGURATION, folder, "127.0.0.1", str(port)) as server:
        for step in steps:
            if callable(step):
                step()
                continue
            udp.sendto(bytes.fromhex(step.read_text()), ("127.0.0.1", port))
            line = server.line()
            udp.settimeout(ANSWER if line.startswith("accepted") else SILENCE)
            try:
                answers.append((line, udp.recv(65536).hex() + "\n"))
            except TimeoutError:
                answers.append((line, None))
    return answers


def test_server(room, compiler):
    program, folder = room / "server", room / f"nonces_{compiler}"
    kept, new = folder / f"{1:016x}-{10:032x}-01", folder / "new"
    build = [compiler, *CLEAN, "-D_POSIX_C_SOURCE=200809L", TOP / "examples/c/server.c", library, "-o", program]
    check(f"{compiler} server.c", ran(*build), (0, ""))
    check("server.c without arguments", ran(program)[0], 2)
    folder.mkdir()
    check("server.c without a configuration", ran(program, room / "none", folder, "127.0.0.1", "0")[0], 1)
    check("server.c, a bad configuration", ran(program, TOP / "README.md", folder, "127.0.0.1", "0"), (1, f"{TOP}/README.md: fault 20\n"))
    check("server.c without a folder", ran(program, CONFIGURATION, room / "none", "127.0.0.1", "0")[0], 1)
    accepted, replay = ("accepted nonce 1\n", NOTIFY.read_text()), ("refused 57\n", None)
    check("server.c", told(program, folder, REGISTER, REGISTER), [accepted, replay])
    check("what it saved", (kept.read_text(), os.listdir(folder)), ("1\n", [kept.name]))
    check("server.c, killed and started", told(program, folder, REGISTER), [replay])
    kept.write_text("1")
    check("server.c, a bad file", told(program, folder, REGISTER), [(f"not received: {kept.name} can't be loaded\n", None)])
    kept.unlink()
    new.mkdir()
    check("server.c, a save that fails", told(program, folder, REGISTER, new.rmdir, REGISTER),
          [(f"not answered: {kept.name} can't be saved\n", None), accepted])
    check("server.c, a wrong tag", told(program, folder, TOP / "examples/wrong-tag.hex"), [("refused 53\n", None)])


def test_router(room, compiler):
    """The router r1 registers with the Map-Server s1, and is killed and started again; nobody answers for s2."""
    server, router, port = room / "server", room / "router", str(free_port())
    sent, received = room / f"sent_{compiler}", room / f"received_{compiler}"
    kept = sent / f"{1:016x}-{10:032x}-01"
    build = [compiler, *CLEAN, "-D_POSIX_C_SOURCE=200809L", TOP / "examples/c/router.c", library, "-o", router]
    check(f"{compiler} router.c", ran(*build), (0, ""))
    sent.mkdir(), received.mkdir()
    check("router.c without arguments", ran(router)[0], 2)
    check("router.c without its name", ran(router, CONFIGURATION, "r3", sent, "127.0.0.21", port), (1, f"{CONFIGURATION}: fault 106\n"))
    words, last = [router, CONFIGURATION, "r1", sent, "127.0.0.21", port], 0
    with Running(server, CONFIGURATION, received, "127.0.0.11", port) as s1:
        for _ in range(2):
            with Running(*words) as r1:
                check("router.c", [r1.line(), r1.line()], ["sent to Map-Server 0\n", "sent to Map-Server 1\n"])
                line = r1.line_with("counted")
                accepted = line.replace("counted", "accepted")
                check("what is counted", s1.line_with(accepted), accepted)
                check("whether its nonce is new", int(line.split()[-1]) > last, True)
            check("what it saved", (os.listdir(sent), os.listdir(received)), ([kept.name], [kept.name]))
            last = int(kept.read_text())
    (sent / "new").mkdir()
    with Running(*words) as r1:
        check("router.c, a save that fails", r1.line(), f"not sent: {kept.name} can't be saved\n")
        (sent / "new").rmdir()
        check("router.c, saved again", r1.line_with("sent"), "sent to Map-Server 0\n")
    kept.write_text("1")
    check("router.c, a bad file", ran(*words)[0], 1)


def test_header(room):
    (room / "header.c").write_text("#include <lisp_registration.h>\n")
    for compiler in ("gcc", "clang"):
        if is_there(compiler, "the header and examples/c with it were"):
            test_examples(room, compiler)
            test_server(room, compiler)
            test_router(room, compiler)
    for compiler, flags in (("cc", CLEAN), ("c++", ["-std=c++11", *CLEAN[1:], "-x", "c++"])):
        if is_there(compiler, "the header alone was"):
            check(f"{compiler} lisp_registration.h", ran(compiler, *flags, "-Wconversion", "-fsyntax-only", room / "header.c"), (0, ""))


def test_documents(room):
    for page in sorted((TOP / "docs").glob("*.md")):
        if blocks := re.findall(r"^```c\n(.*?)^```", page.read_text(), re.M | re.S):
            (room / "page.c").write_text("\n".join(blocks))
            check(f"the C of {page.name}", ran("cc", *CLEAN, "-c", room / "page.c", "-o", room / "page.o"), (0, ""))


def test_symbols():
    """The library defines what the header declares, needs what docs/EMBEDDING.md says, and has no variable but one of a byte, which stands
    for memory of no bytes."""
    symbols = re.findall(r"^(?:[0-9a-f]{16}| {16}) (\w) (\w+)$", ran("nm", library)[1], re.M)
    declared = set(re.findall(r"lisp_registration_\w+(?=\()", HEADER.read_text()))
    defined = {name for kind, name in symbols if kind != "U"}
    needed = {name for kind, name in symbols if kind == "U"} - defined
    check("what it defines", {name for name in defined if name.startswith("lisp_")}, declared)
    check("what it needs", needed, {"malloc", "realloc", "free", "memcpy", "memmove", "memset"})
    check("its variables", [name for kind, name in symbols if kind in "BbCDd"], ["nothing"])


def test_numbers():
    """Each number of the header is a row of docs/REFUSALS.md."""
    rows = re.findall(r"^\| (\d+)[^|]* \| `(\w+)` \|", (TOP / "docs/REFUSALS.md").read_text(), re.M)
    answers = re.search(r"LISP_DONE = 0,(.*?)};", HEADER.read_text(), re.S)[1]
    # (ROUTER_ and REQUEST_ stand in front of names that numbers of a router, and of Map-Requests and Map-Replies, share with others)
    named = re.findall(r"LISP_(?:ROUTER_|REQUEST_)?(\w+) = (\d+)", answers)
    numbers = [(number, name.title().replace("_", "")) for name, number in named]
    check("whether the header has numbers", len(numbers) > 0, True)
    check("numbers that docs/REFUSALS.md hasn't", [it for it in numbers if it not in rows], [])


test_numbers()
if is_there("nm", "what is in the library was"):
    test_symbols()
if is_there("cc", "the library was"):
    with tempfile.TemporaryDirectory() as name:
        for test in (test_library, test_header, test_documents):
            test(Path(name))
sys.exit(1 if failed else 0)
