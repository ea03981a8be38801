"""Runs of the kit over the crates of crates.txt, side by side."""
import hashlib
import os
import shutil
import subprocess
import sys
import tempfile
import time
from concurrent.futures import FIRST_COMPLETED, ThreadPoolExecutor, wait
from contextlib import contextmanager
from functools import cache
from importlib.machinery import SourceFileLoader
from importlib.util import module_from_spec, spec_from_loader
from pathlib import Path

TOP = os.path.dirname(os.path.dirname(os.path.abspath(__file__)))
PROGRAM = "lispd_main"
LOG = "out/build.log"


def read_crates():
    """Each crate of crates.txt with its line there, and with those of its libraries that are the repository's. (Behind the name of a
    static library stands the word `staticlib`.)"""
    with open(f"{TOP}/crates.txt", encoding="utf-8") as file:
        lines = {it.split(":")[0].split()[0]: it for it in file if ":" in it and not it.startswith("#")}
    return lines, {crate: [it for it in line.split(":")[1].split() if it in lines] for crate, line in lines.items()}


LINES, BELOW = read_crates()


def with_libraries(crates):
    """These crates and all that they stand on, lowest first."""
    found = []
    for crate in crates:
        found += with_libraries(BELOW[crate]) + [crate]
    return list(dict.fromkeys(found))


def link(file, to):
    """Links the file there, or copies it where a link can't be."""
    try:
        os.link(file, to)
    except OSError:
        shutil.copy2(file, to)


@contextmanager
def room(crates, without=()):
    """A checkout of these crates and all that they stand on alone, since two runs of the kit in one checkout wait for each
    other. It has no wrong bodies, and nothing that the names in `without` name."""
    with tempfile.TemporaryDirectory(prefix=f"{crates[0]}-") as top:
        os.mkdir(f"{top}/.git")
        shutil.copy(f"{TOP}/HANDLES", top)
        found = with_libraries(crates)
        with open(f"{top}/crates.txt", "w", encoding="utf-8") as file:
            file.writelines(LINES[it] for it in found)
        for it in found:
            unneeded = ["must-fail", *without, *([] if it in crates else ["incremental"])]
            shutil.copytree(f"{TOP}/crates/{it}", f"{top}/crates/{it}", copy_function=link,
                            ignore=shutil.ignore_patterns(*unneeded))
        yield top


class Kit:
    """The kit's own functions: no command of it tries several wrong bodies in one check, or builds over what `rt ci` left."""

    def __init__(self):
        loader = SourceFileLoader("rt", os.path.realpath(shutil.which("rt")))
        self.rt = module_from_spec(spec_from_loader("rt", loader))
        loader.exec_module(self.rt)

    def __getattr__(self, name):
        return getattr(self.rt, name)

    def opened(self, top):
        """The crates of a checkout in which `rt ci` ran, by their names."""
        self.rt.rtlib.Crate = self.rt.Crate
        self.rt.Crate.cuts_libraries, self.rt.Crate.allowed = True, self.rt.handles_of(top)
        self.rt.rtlib.guarded()
        return {it.name: it for it in self.rt.rtlib.crates_below(top)}


@cache
def kit():
    return Kit()


def run_kit(words, folder):
    """Runs rt with these words; its status and what it printed."""
    ran = subprocess.run(["rt", *words], cwd=folder, stdin=subprocess.DEVNULL, stdout=subprocess.PIPE,
                         stderr=subprocess.STDOUT, text=True, check=False)
    return ran.returncode, ran.stdout


@cache
def sum_of(crate):
    """A sum of all that a crate is made from, and of the kit."""
    sums = [sum_of(it) for it in BELOW[crate]] or run_kit(["version"], TOP)
    made = hashlib.sha256(repr((LINES[crate], sums)).encode())
    for part in ("src", "specs", "proofs"):
        for file in sorted(it for it in Path(f"{TOP}/crates/{crate}/{part}").rglob("*") if it.is_file()):
            made.update(repr((str(file.relative_to(TOP)), file.read_bytes())).encode())
    return made.hexdigest()


def library_of(crate):
    return f"{TOP}/crates/{crate}/out/rlib/{crate}.rlib"


def note_of(crate):
    """Where the gate notes what the library that it left of a crate is made from. The kit removes the note with the library."""
    return Path(f"{os.path.dirname(library_of(crate))}/of-gate")


def note_gate():
    """Notes it of each library that `rt ci` left."""
    for crate in LINES:
        if os.path.isdir(library_of(crate)):
            note_of(crate).write_text(sum_of(crate), encoding="utf-8")


def is_over_gate(crate):
    """Whether the gate left all that the crate stands on, as it is now."""
    below = [it for it in with_libraries([crate]) if it != crate]
    return all(os.path.isdir(library_of(it)) and note_of(it).is_file() and note_of(it).read_text(encoding="utf-8") == sum_of(it) for it in below)


def build_over_gate(name, library):
    """Proves and builds a static library over what the gate left of the crates below it; whether that could be done. What the kit prints
    goes to the log."""
    if not is_over_gate(name):
        return False
    crate, rtlib = kit().opened(TOP)[name], kit().rtlib
    words = crate.words(["--jobs", str(os.cpu_count())], keeps=False)
    made = [rtlib.RATTLE, "build", *words, "--toolchain", f"{rtlib.KIT}/toolchain", "--backend", "llvm", "-o", library]
    os.makedirs(f"{TOP}/out", exist_ok=True)
    with open(f"{TOP}/{LOG}", "w", encoding="utf-8") as log:
        how = {"cwd": crate.folder, "stdin": subprocess.DEVNULL, "stdout": log, "stderr": subprocess.STDOUT, "check": False}
        return subprocess.run([*rtlib.guarded(), *made], **how).returncode == 0


def prove(crate):
    """Proves and builds the crate, over libraries that are built; whether it is proved, and what the kit printed."""
    with room([crate]) as top:
        folder, kept = f"{top}/crates/{crate}", f"{TOP}/crates/{crate}/out"
        status, printed = run_kit(["run" if crate == PROGRAM else "lib"], folder)
        if status == 0:
            shutil.rmtree(kept, ignore_errors=True)
            shutil.move(f"{folder}/out", kept)
    return status == 0, printed


def build(crates):
    """Proves and builds these crates, each once those below it are, and prints a line for each. What the kit prints goes
    to the log. Ends the program at the first that is not proved."""
    start, done, left, running = time.monotonic(), set(), list(crates), {}
    print(f"proving {len(crates)} crates; what the kit prints goes to {LOG}", flush=True)
    os.makedirs(f"{TOP}/out", exist_ok=True)
    with open(f"{TOP}/{LOG}", "w", encoding="utf-8") as log, ThreadPoolExecutor(os.cpu_count()) as pool:
        while left or running:
            for crate in [it for it in left if done.issuperset(BELOW[it])]:
                left.remove(crate)
                running[pool.submit(prove, crate)] = crate
            for ended in wait(running, return_when=FIRST_COMPLETED).done:
                crate, (is_proved, printed) = running.pop(ended), ended.result()
                log.write(f"== {crate}\n{printed}")
                log.flush()
                if not is_proved:
                    sys.exit(f"{crate} is not proved: see {LOG}")
                done.add(crate)
                print(f"{len(done)} of {len(crates)}: {crate}, {time.monotonic() - start:.0f} s", flush=True)
