#!/usr/bin/env -S python3 -B
"""library_rust.py FOLDER
Builds and tests the workspace of examples/rust over the liblisp_registration.a of a folder, in out/rust and without a network, and runs
the commands that its README shows. Prints each check that fails, and what it left out where a tool is missing; ends with 1 where a
check fails."""
import os
import re
import shutil
import subprocess
import sys
from pathlib import Path

TOP = Path(__file__).resolve().parent.parent
WORKSPACE = TOP / "examples/rust"
TARGET = TOP / "out/rust"
# What is in the workspace, also after it was built.
FILES = {"Cargo.lock", "Cargo.toml", "README.md", "rustfmt.toml", ".cargo", "lisp-registration", "lisp-registration-sys"}
# How many seconds a command may take.
PATIENCE = 120

failed = False


def check(name, got, wanted):
    """Prints a check that fails."""
    global failed
    if got != wanted:
        failed = True
        print(f"library_rust.py: {name}: {got!r}, wanted {wanted!r}", flush=True)


def ran(*words, folder):
    """Runs a command in the workspace over the archive of a folder: its status, and what it printed."""
    env = {**os.environ, "LISP_REGISTRATION_LIB_DIR": folder, "CARGO_TARGET_DIR": str(TARGET), "CARGO_TERM_COLOR": "never"}
    env.pop("RUST_BACKTRACE", None)
    done = subprocess.run(words, cwd=WORKSPACE, env=env, stdin=subprocess.DEVNULL, stdout=subprocess.PIPE, stderr=subprocess.STDOUT,
                          text=True, check=False, timeout=PATIENCE)
    return done.returncode, done.stdout


def is_clean(folder):
    """The workspace is formatted, and clippy finds nothing in it, where these tools are there."""
    for tool, words in (("fmt", ("--check",)), ("clippy", ("--offline", "--locked", "--quiet", "--all-targets", "--", "-D", "warnings"))):
        if ran("cargo", tool, "--version", folder=folder)[0] != 0:
            print(f"library_rust.py: no cargo {tool} here: what it says was not tried")
        else:
            check(f"cargo {tool}", ran("cargo", tool, *words, folder=folder), (0, ""))


def tests_pass(folder):
    status, printed = ran("cargo", "test", "--offline", "--locked", folder=folder)
    check("cargo test", (status, printed if status else ""), (0, ""))
    passed = [int(number) for number in re.findall(r"^test result: ok\. (\d+) passed; 0 failed; 0 ignored", printed, re.M)]
    check("tests were run", sum(passed) > 0, True)


def readme_is_right(folder):
    """Each command of the README behind a `$` prints the lines that stand below it."""
    lines = re.findall(r"^    (.*)$", (WORKSPACE / "README.md").read_text(), re.M)
    shown = "\n".join(lines).split("$ ")[1:]
    check("commands are shown", len(shown), 3)
    for part in shown:
        command, _, output = part.partition("\n")
        check(command, ran("sh", "-c", command, folder=folder)[1].rstrip("\n"), output.rstrip("\n"))


def folders_without_archive_are_told():
    status, printed = ran("cargo", "build", "--offline", "--locked", folder=str(WORKSPACE))
    check("a folder without the archive", (status, f"no liblisp_registration.a in {WORKSPACE}" in printed), (101, True))


def main(folder):
    if not shutil.which("cargo"):
        print("library_rust: no cargo, left out")
        return
    folders_without_archive_are_told()
    tests_pass(folder)
    readme_is_right(folder)
    is_clean(folder)
    check("the files of the workspace", set(os.listdir(WORKSPACE)), FILES)


main(os.path.abspath(sys.argv[1]))
sys.exit(1 if failed else 0)
