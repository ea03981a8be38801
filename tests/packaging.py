#!/usr/bin/env -S python3 -B
"""packaging.py PROGRAM LIBRARY
Installs a program and the library for C programs as `make install` and `make install-library` do, removes them, and packs them: which
files there are, what systemd says of the units and of the drop-in, what the shells complete, that the manual pages have the program's
options and the configuration's fields, that a C program finds the library by pkg-config, that two folders give the same package, and that
Debian's tools make, check, install and remove one of theirs. Prints each check that fails, and what it left out where a tool is missing;
ends with 1 where a check fails."""
import gzip
import hashlib
import os
import re
import shutil
import subprocess
import sys
import tarfile
import tempfile
from pathlib import Path

TOP = Path(__file__).resolve().parent.parent
program, library = map(os.path.abspath, sys.argv[1:])
BASH_COMPLETION, ZSH_COMPLETION = "share/bash-completion/completions/lispd", "share/zsh/site-functions/_lispd"
DROP_IN = "share/doc/lispd/examples/ask-group.conf"
ALERTS = "share/doc/lispd/examples/alerts.yml"
OF_PROGRAM = {"bin/lispd": 0o755, **dict.fromkeys((
    "lib/systemd/system/lispd-router@.service", "lib/systemd/system/lispd-server@.service", BASH_COMPLETION, ZSH_COMPLETION, DROP_IN, ALERTS,
    "share/doc/lispd/examples/configuration.toml", "share/man/man1/lispd.1", "share/man/man5/lispd.toml.5"), 0o644)}
OF_LIBRARY = dict.fromkeys(("include/lisp_registration.h", "lib/liblisp_registration.a", "lib/pkgconfig/lisp_registration.pc"), 0o644)
MODES = {**OF_PROGRAM, **OF_LIBRARY}
HEADER, LIBRARY, FOR_PKG_CONFIG = OF_LIBRARY
GATE, SUMS = "share/doc/lispd/GATE", "share/doc/lispd/SHA256SUMS"
UNITS, PAGES = [it for it in MODES if it.endswith(".service")], [it for it in MODES if "/man/" in it]
# What `make dist` reads of the repository.
SOURCES = ["Makefile", "crates/lispd_cli/src/command_line.rt", "docs", "examples", "include", "packaging", "tools"]
# The group that the drop-in names, and where it is put.
GROUP, DROP_IN_PLACE = "lispd-ask", "lispd-server@.service.d/ask-group.conf"
# What lintian says of a package without a licence.
SAID_BY_LINTIAN = {"W: lispd: copyright-without-copyright-notice"}
CLOSING_LINES = "rt: ok; handles allowed: Net\ntests: times passed, 44 s\n31 passed, 0 failed\n"

failed = False


def check(name, got, wanted):
    """Prints a check that fails."""
    global failed
    if got != wanted:
        failed = True
        print(f"packaging.py: {name}: {got!r}, wanted {wanted!r}", flush=True)


def is_there(tool, what):
    """Whether a tool is there; else a line says what was left out."""
    if not shutil.which(tool):
        print(f"packaging.py: no {tool} here: {what} not tried")
    return shutil.which(tool) is not None


def ran(*words, **how):
    """Runs a command: its status, and what it printed."""
    how = {"stdin": subprocess.DEVNULL, "stdout": subprocess.PIPE, "stderr": subprocess.STDOUT, "text": True, "check": False, **how}
    done = subprocess.run(words, **how)
    return done.returncode, done.stdout


def make(*words, top=TOP, time=None, more=(), **how):
    """Runs make, as if no other make had called it; SOURCE_DATE_EPOCH is the time. More variables of the environment may be given."""
    env = {name: value for name, value in os.environ.items() if not name.startswith("MAKE")}
    env |= {"SOURCE_DATE_EPOCH": time} if time else {}
    env |= dict(more)
    return ran("make", "-s", "-C", str(top), f"PROGRAM={program}", f"LIBRARY={library}", *words, env=env, **how)


def files_of(folder):
    return {str(it.relative_to(folder)): it.stat().st_mode & 0o777 for it in folder.rglob("*") if it.is_file()}


def helps():
    """What `--help` prints of the program, and of each subcommand by its name."""
    top = ran(program, "--help")[1]
    names = re.findall(r"^  ([\w-]+) ", top.partition("Commands:\n")[2].partition("\n\n")[0], re.M)
    return {"": top, **{name: ran(program, name, "--help")[1] for name in names if name != "help"}}


HELPS = helps()


def options_in(help_text):
    """The options of a help."""
    section = help_text.partition("\nOptions:\n")[2].partition("\n\n")[0]
    return {name for names in re.findall(r"^ +(?:(-\w), )?(--[\w-]+)", section, re.M) for name in names if name}


def words_in(help_text):
    """The words of what a node is asked or told, of the lines behind the options."""
    below = help_text.partition("\nOptions:\n")[2].partition("\nExample")[0]
    return list(dict.fromkeys(re.findall(r"^  ([a-z]+)\b", below, re.M)))


def installs(room):
    to = room / "installed"
    # The program needs no library: the one that is named isn't there.
    check("make install", make("install", f"DESTDIR={to}", f"LIBRARY={room}/none", umask=0o077), (0, ""))
    root = to / "usr/local"
    check("its files", files_of(to), {f"usr/local/{path}": mode for path, mode in OF_PROGRAM.items()})
    check("make install-library", make("install-library", f"DESTDIR={to}", f"PROGRAM={room}/none", umask=0o077), (0, ""))
    check("the files of both", files_of(to), {f"usr/local/{path}": mode for path, mode in MODES.items()})
    check("its folders that others can't enter", [str(it) for it in to.rglob("*") if it.is_dir() and it.stat().st_mode & 0o5 != 0o5], [])
    check("the program", (root / "bin/lispd").read_bytes() == Path(program).read_bytes(), True)
    check("the library", (root / LIBRARY).read_bytes() == Path(library).read_bytes(), True)
    check("the header", (root / HEADER).read_bytes() == (TOP / HEADER).read_bytes(), True)
    for path in (*UNITS, *PAGES, FOR_PKG_CONFIG):
        check(f"what isn't filled in of {path}", re.findall(r"@[A-Z]+@", (root / path).read_text().replace("@NAME@", "")), [])
    for path in UNITS:
        check(f"the program of {path}", "ExecStart=/usr/local/bin/lispd " in (root / path).read_text(), True)
    version = ran(program, "--version")[1].strip()
    check("the version of the library", f"\nVersion: {version.split()[-1]}\n" in (root / FOR_PKG_CONFIG).read_text(), True)
    check("the version", [page for page in PAGES if f'"{version}"' not in (root / page).read_text()], [])
    (root / "share/doc/other").mkdir()
    for _ in range(2):
        check("make uninstall", make("uninstall", f"DESTDIR={to}"), (0, ""))
        check("what it leaves", (files_of(to), sorted(os.listdir(root / "share/doc"))), ({}, ["other"]))


def units_are_well(root):
    if is_there("systemd-analyze", "what systemd says of the units was"):
        for path in UNITS:
            check(f"verify {path}", ran("systemd-analyze", "verify", "--man=no", f"{root}/{path}"), (0, ""))
            status, printed = ran("systemd-analyze", "security", "--offline=true", "--threshold=15", f"{root}/{path}")
            check(f"security {path}: {printed.splitlines()[-1:]}", status, 0)
        # The drop-in counts where it stands beside its unit; of a template systemd looks at an instance.
        drop_in = root / "lib/systemd/system" / DROP_IN_PLACE
        drop_in.parent.mkdir()
        shutil.copy(root / DROP_IN, drop_in)
        for name in ("lispd-server@s1.service", "lispd-server@.service"):
            check(f"verify {name} with its drop-in", ran("systemd-analyze", "verify", "--man=no", f"{root}/lib/systemd/system/{name}"), (0, ""))
        shutil.rmtree(drop_in.parent)


def settings(text):
    """The settings of a unit or a drop-in; the last of each name."""
    return dict(line.split("=", 1) for line in text.splitlines() if re.match(r"[A-Z]\w+=", line))


def the_drop_in_lets_a_group_ask(root):
    """The node has the group, and the folder that is the socket's is the group's alone."""
    found = settings((root / DROP_IN).read_text())
    check("its group", found.pop("Group"), GROUP)
    check("its folder", (found["RuntimeDirectory"], found.pop("RuntimeDirectoryMode")), ("lispd/%i", "0770"))
    asked = f"%t/{found.pop('RuntimeDirectory')}"
    check("its options, and where it is told", found.pop("Environment"), f'"OPTIONS=--control {asked}" CONTROL={asked}')
    check("nothing else", found, {})


def a_map_server_is_reloaded(root):
    """Its unit tells it the file that it was started with, at its socket; a router's has nothing to reload."""
    for path in UNITS:
        text = (root / path).read_text()
        check(f"what {path} reads", settings(text)["LoadCredential"], "lispd.toml:/etc/lispd/lispd.toml")
        wanted = f"+{root}/bin/lispd tell ${{CONTROL}} reload /etc/lispd/lispd.toml --words" if "server" in path else None
        check(f"what {path} reloads", settings(text).get("ExecReload"), wanted)
        check(f"where {path} is asked", "Environment=CONTROL=%S/lispd/%i" in text.splitlines(), wanted is not None)


def alerts_are_raised(root):
    """Prometheus takes the alerts, and raises each where it should (`alerts.yml` beside this file)."""
    if is_there("promtool", "the alerts were"):
        status, printed = ran("promtool", "check", "rules", f"{root}/{ALERTS}")
        check(f"the rules of {ALERTS}: {printed}", status, 0)
        status, printed = ran("promtool", "test", "rules", f"{TOP}/tests/alerts.yml")
        check(f"the alerts: {printed}", status, 0)


def completed(root, *words):
    """What bash completes behind these words, the last of which is begun."""
    script = 'source "$1"; shift; COMP_WORDS=("$@") COMP_CWORD=$(($# - 1)); _lispd "$1" "${@: -1}" "${@: -2:1}"; echo "${COMPREPLY[*]}"'
    return ran("bash", "-c", script, "bash", f"{root}/{BASH_COMPLETION}", program, *words)[1].split()


def bash_completes(root):
    if not is_there("bash", "what bash completes was"):
        return
    check("bash -n", ran("bash", "-n", f"{root}/{BASH_COMPLETION}"), (0, ""))
    subcommands = [*filter(None, HELPS), "help"]
    check("subcommands", set(completed(root, "")), {*subcommands, *options_in(HELPS[""])})
    check("a subcommand", completed(root, "ser"), ["server"])
    check("the subcommand of help", completed(root, "help", ""), subcommands)
    for name in filter(None, HELPS):
        check(f"the options of {name}", set(completed(root, name, "-")), options_in(HELPS[name]))
    config = str(TOP / "examples/configuration.toml")
    check("a Map-Server", completed(root, "server", config, ""), ["s1", "s2"])
    check("a router behind an option", completed(root, "router", "--store", "nonces", config, "r"), ["r1", "r2"])
    check("all words are there", set(completed(root, "router", config, "r1", "")), options_in(HELPS["router"]))
    check("a number", completed(root, "router", config, "r1", "--turns", ""), [])
    for name in ("ask", "tell"):
        check(f"the words of {name}", completed(root, name, "nonces/s1", ""), words_in(HELPS[name]))
        check(f"the words of {name}, behind an option", completed(root, name, "--words", "nonces/s1", ""), words_in(HELPS[name]))
        check(f"what stands behind a word of {name}", completed(root, name, "nonces/s1", words_in(HELPS[name])[0], "x"), [])
    check("a word", completed(root, "ask", "nonces/s1", "ho"), ["hold"])


def zsh_has_the_options(root):
    text = (root / ZSH_COMPLETION).read_text()
    if shutil.which("zsh"):
        check("zsh -n", ran("zsh", "-n", f"{root}/{ZSH_COMPLETION}"), (0, ""))
    cases = dict(re.findall(r"^ {16}([\w-]+)\)\n(.*?) ;;$", text, re.M | re.S))
    check("the subcommands of zsh", set(cases), {*filter(None, HELPS), "help"})
    for name in filter(None, HELPS):
        check(f"the options of {name} in zsh", set(re.findall(r"(?<=[{,'])--?[a-zA-Z-]+(?=[\[,}])", cases[name])), options_in(HELPS[name]))
    for name in ("ask", "tell"):
        check(f"the words of {name} in zsh", re.findall(r"'2:WORD:\((.*)\)'", cases[name]), [" ".join(words_in(HELPS[name]))])


def pages_are_well(root):
    if is_there("groff", "the layout of the manual pages was"):
        for path in PAGES:
            check(f"groff {path}", ran("groff", "-man", "-Tutf8", "-ww", "-z", f"{root}/{path}"), (0, ""))
    page, options = (root / PAGES[0]).read_text().replace("\\-", "-"), set().union(*map(options_in, HELPS.values()))
    check("the options of lispd.1", set(re.findall(r"(?<![\w-])--[a-z]+(?:-[a-z]+)*", page)), {it for it in options if it.startswith("--")})
    fields = set(re.findall(r"^\| `(?:site|server|router)\.(?:\w+\.)?(\w+)` \|", (TOP / "docs/CONFIGURATION.md").read_text(), re.M))
    check("the fields of lispd.toml.5", fields - set(re.findall(r"\w+", (root / PAGES[1]).read_text())), set())


def c_programs_find_the_library(room, root):
    if not is_there("pkg-config", "the library with it was") or not is_there("cc", "the library was"):
        return
    status, flags = ran("pkg-config", "--cflags", "--libs", "lisp_registration", env={**os.environ, "PKG_CONFIG_PATH": f"{root}/lib/pkgconfig"})
    check("pkg-config", (status, flags.split()), (0, [f"-I{root}/include", f"-L{root}/lib", "-llisp_registration"]))
    check("cc check.c", ran("cc", str(TOP / "examples/c/check.c"), *flags.split(), "-o", f"{room}/check"), (0, ""))
    with open(TOP / "examples/map-register.hex", encoding="utf-8") as datagram:
        check("check.c", ran(f"{room}/check", "secret", stdin=datagram)[0], 0)


def copied(to, umask):
    """What `make dist` reads, in a folder of its own."""
    for path in SOURCES:
        (to / path).parent.mkdir(parents=True, exist_ok=True)
        ran("cp", "-r", "--no-preserve=timestamps", str(TOP / path), str(to / path), umask=umask)
    return to


def two_folders_give_one_package(room, root):
    log, packages = room / "gate.log", []
    log.write_text(f"rt: ok; an older run\n1 passed, 0 failed\nproved\n{CLOSING_LINES}")
    for number, umask in enumerate((0o022, 0o077)):
        top = copied(room / f"folder-{number}" / ("deeper" * number), umask)
        check("make dist", make("dist", f"GATE={log}", top=top, time="1700000000", umask=umask), (0, ""))
        packages += (top / "out").glob("*.tar.gz")
    version = ran(program, "--version")[1].split()[-1]
    check("packages", [it.name for it in packages], [f"lispd-{version}.tar.gz"] * 2)
    if len(packages) < 2:
        return
    check("the packages are the same", packages[0].read_bytes() == packages[1].read_bytes(), True)
    with tarfile.open(packages[0]) as tar:
        held = {it.name: (it.mode, tar.extractfile(it).read()) for it in tar}
    front = f"lispd-{version}/"
    packed = {f"{path}.gz" if path in PAGES else path: mode for path, mode in MODES.items()}
    check("its files", {name: mode for name, (mode, _) in held.items()},
          {front + path: mode for path, mode in {**packed, GATE: 0o644, SUMS: 0o644}.items()})
    for path in PAGES:
        check(f"{path} is packed", gzip.decompress(held[f"{front}{path}.gz"][1]), (root / path).read_bytes())
    sums = dict(reversed(line.split("  ")) for line in held[front + SUMS][1].decode().splitlines())
    check("its sums", sums, {path: hashlib.sha256(held[front + path][1]).hexdigest() for path in [*packed, GATE]})
    check("the gate's closing lines", held[front + GATE][1].decode(), CLOSING_LINES)
    for text in ("", "31 passed, 1 failed\n", CLOSING_LINES.replace(" 0 failed", " 1 failed"), f"{CLOSING_LINES}answers.txt: a case\nmake: *** [Makefile:28: test] Error 1\n"):
        log.write_text(text)
        check(f"a log that ends in {text[-20:]!r}", make("dist", f"GATE={log}", top=top)[0], 2)


def files_in(package):
    """The files of a package of Debian's, by their paths: their modes and owners, as dpkg-deb lists them."""
    lines = [line.split() for line in ran("dpkg-deb", "--contents", str(package))[1].splitlines()]
    return {path.removeprefix("./"): (mode, owner) for mode, owner, *_, path in lines if mode[0] == "-"}


def in_debian(path):
    """Where Debian has a file that is installed: manual pages are packed, completions of zsh stand elsewhere."""
    path = path.replace("site-functions", "vendor-completions")
    return f"usr/{path}.gz" if path in PAGES else f"usr/{path}"


def debian_takes_a_package(room):
    if not is_there("dh", "a package of Debian's was") or not is_there("dpkg-buildpackage", "a package of Debian's was"):
        return
    top = copied(room / "debian", 0o022)
    maintainer = {"DEBFULLNAME": "A Maintainer", "DEBEMAIL": "maintainer@users.example"}
    status, printed = make("deb", top=top, time="1700000000", more=maintainer)
    check("make deb", (status, printed.startswith("out/lispd_")), (0, True))
    if status:
        return
    package = top / printed.strip()
    wanted = {in_debian(path): mode for path, mode in OF_PROGRAM.items()}
    wanted |= dict.fromkeys(("usr/share/doc/lispd/changelog.gz", "usr/share/doc/lispd/copyright"), 0o644)
    modes = {0o755: "-rwxr-xr-x", 0o644: "-rw-r--r--"}
    check("the files of Debian's package", files_in(package), {path: (modes[mode], "root/root") for path, mode in wanted.items()})
    if is_there("lintian", "what it says of the package was"):
        printed = ran("lintian", "--allow-root", "--no-cfg", str(package))[1]
        check("lintian", set(printed.splitlines()), SAID_BY_LINTIAN)
    if os.geteuid() == 0:
        installs_in_a_clean_root(room / "root", package, wanted)


def installs_in_a_clean_root(root, package, wanted):
    """dpkg unpacks it where nothing else is, the program runs, and nothing is left once it is removed."""
    for folder in ("var/lib/dpkg/info", "var/lib/dpkg/updates"):
        (root / folder).mkdir(parents=True)
    (root / "var/lib/dpkg/status").touch()
    dpkg = ("dpkg", f"--root={root}", "--force-depends", "--force-script-chrootless", "--log=/dev/null")
    status, printed = ran(*dpkg, "--install", str(package))
    check(f"dpkg --install: {printed}", status, 0)
    check("what it installs", {path for path in files_of(root) if path.startswith("usr/")}, set(wanted))
    check("the program of Debian's package", ran(f"{root}/usr/bin/lispd", "--version"), ran(program, "--version"))
    check("the unit's program", "ExecStart=/usr/bin/lispd " in (root / "usr" / UNITS[0]).read_text(), True)
    status, printed = ran(*dpkg, "--purge", "lispd")
    check(f"dpkg --purge: {printed}", status, 0)
    check("what is left", [path for path in files_of(root) if not path.startswith("var/lib/dpkg/")], [])


with tempfile.TemporaryDirectory() as name:
    room = Path(name)
    installs(room)
    # A folder of its own as PREFIX, so that the program is where the units say.
    root = room / "prefix"
    check("make install PREFIX", make("install", "install-library", f"PREFIX={root}"), (0, ""))
    units_are_well(root)
    the_drop_in_lets_a_group_ask(root)
    a_map_server_is_reloaded(root)
    alerts_are_raised(root)
    bash_completes(root)
    zsh_has_the_options(root)
    pages_are_well(root)
    c_programs_find_the_library(room, root)
    two_folders_give_one_package(room, root)
    debian_takes_a_package(room)
sys.exit(1 if failed else 0)
