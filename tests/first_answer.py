#!/usr/bin/env -S python3 -B
"""first_answer.py PROGRAM
What `make run` does where nothing is built: it compiles the program of a first answer once, keeps it, and makes it again only where a source
is newer. The kit's `rt` is another one here, which notes its words and runs PROGRAM: compiling takes a minute, and the kit is no matter
of ours. Prints each check that fails, and ends with 1 where one does."""
import os
import shutil
import subprocess
import sys
import tempfile
import time
from pathlib import Path

TOP = Path(__file__).resolve().parent.parent
program = os.path.abspath(sys.argv[1])
SOURCES = ["Makefile", "crates.txt", "crates", "examples", "tools"]
KEPT, SOURCE, OTHER = "out/lispd-unproved", "crates/lisp_answer/src/line.rt", "crates/lisp_udp/src/lib.rt"
SPEC = "crates/lisp_answer/specs/Line.antt"
ANSWER = ("400000010000000000000001010200104f18aa8fdf8791b51cf1272640b55d8d"
          "000005a001101000000000010a0100000164ff0000050001c0000201\n")
LOADERS = ("/lib64/ld-linux-x86-64.so.2", "/lib/ld-linux-aarch64.so.1")
COMPILES = "Compiling `answer` and `play` alone, without proof"
# As the kit it has the program in a folder below TMPDIR, and runs it by a loader.
RT = """#!/bin/sh
echo "$@" >> "{calls}"
sleep 0.3
[ ! -e "{fails}" ] || {{ echo 'src/main.rt:1:1: error[unknown-name]'; exit 1; }}
shift 2
folder=$(mktemp -d) && install -m 700 "{program}" "$folder/program" && {loader} "$folder/program" "$@"
rm -r "$folder"
"""

failed = False


def check(name, got, wanted):
    """Prints a check that fails."""
    global failed
    if got != wanted:
        failed = True
        print(f"first_answer.py: {name}: {got!r}, wanted {wanted!r}", flush=True)


def touched(file, when):
    os.utime(file, (when, when))


class Place:
    """A checkout in which nothing is built, and a kit that notes what it is asked."""

    def __init__(self, room):
        self.top, self.calls, self.fails = room / "checkout", room / "calls", room / "fails"
        for it in SOURCES:
            how = shutil.copytree if (TOP / it).is_dir() else shutil.copy
            self.top.mkdir(exist_ok=True)
            how(TOP / it, self.top / it, **({"ignore": shutil.ignore_patterns("out")} if how is shutil.copytree else {}))
        kit = room / "kit"
        kit.mkdir()
        loader = next((it for it in LOADERS if os.path.exists(it)), "")
        (kit / "rt").write_text(RT.format(calls=self.calls, fails=self.fails, program=program, loader=loader))
        (kit / "rt").chmod(0o755)
        env = {name: value for name, value in os.environ.items() if not name.startswith("MAKE")}
        self.env = {**env, "PATH": f"{kit}:{os.environ['PATH']}"}

    def compiled(self):
        """How often the kit was asked to compile."""
        return len(self.calls.read_text().splitlines()) if self.calls.exists() else 0

    def run(self):
        """What `make run` ends with, and prints."""
        done = subprocess.run(["make", "-s", "run"], cwd=self.top, env=self.env, stdin=subprocess.DEVNULL, capture_output=True, text=True,
                              timeout=60, check=False)
        return done.returncode, done.stdout, done.stderr

    def answers(self, name, times):
        """It answers, after so many compilations in all, and says what it does. What it says."""
        before = self.compiled()
        status, printed, said = self.run()
        check(f"{name}: the answer", (status, printed), (0, ANSWER))
        check(f"{name}: how often it was compiled", self.compiled(), times)
        check(f"{name}: what it says", (COMPILES in said, KEPT in said), (times > before, True))
        return said


def main(here):
    here.answers("nothing is built", 1)
    check("what is asked of the kit", here.calls.read_text().split()[:4], ["try", "--", "play", here.calls.read_text().split()[3]])
    check("the program that is kept", (here.top / KEPT).read_bytes() == Path(program).read_bytes(), True)
    check("all may run it", (here.top / KEPT).stat().st_mode & 0o777, 0o755)
    check("the same again", subprocess.run([here.top / KEPT, "play", TOP / "examples/schedules/01-exchange.schedule"], capture_output=True,
                                           check=False).stdout, (TOP / "examples/schedules/01-exchange.out").read_bytes())
    here.answers("a second time", 1)
    later = time.time() + 5
    touched(here.top / OTHER, later)
    touched(here.top / SPEC, later)
    here.answers("a crate that it doesn't stand on, and definitions", 1)
    touched(here.top / SOURCE, later)
    here.answers("a source of it", 2)
    touched(here.top / KEPT, later + 5)
    here.answers("it is newer", 2)
    touched(here.top / "crates.txt", later + 10)
    here.answers("the list of crates", 3)
    here.fails.touch()
    touched(here.top / "crates.txt", time.time() + 100)
    status, printed, said = here.run()
    check("it can't be compiled", (status != 0, printed, "error[unknown-name]" in said), (True, "", True))
    check("what was kept stays", (here.top / KEPT).is_file(), True)
    shutil.copy(program, here.top / "out/lispd")
    check("a proved program is there", here.run(), (0, ANSWER, ""))


with tempfile.TemporaryDirectory() as name:
    main(Place(Path(name)))
sys.exit(1 if failed else 0)
