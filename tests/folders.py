#!/usr/bin/env -S python3 -B
"""folders.py PROGRAM [TEST ..]
What `lispd server`, `router` and `loop` make of their folders and outputs: things that are no files in a file's place, folders that
are taken or would be made for nothing, pairs of nonces that are nearly alike, and outputs that are full or a terminal. Prints each
check that fails, and ends with 1 where one does."""
import errno
import os
import pty
import re
import select
import shutil
from pathlib import Path
from subprocess import STDOUT, run

from nodes import (DATABASE, LIMIT, MAP_NOTIFY, PORT, SITE, XTR, check, failing, heard, in_words, is_up, killed, map_register, next_line,
                   nonce_in, nonce_text, peer, ran, received, run_tests, system, until)

# How long a thing in a file's place may hold a node up, in seconds.
AT_ONCE = 15
# How the name of a pipe ends, where the system tells it (pipe:[1234]).
PIPE = "]"


# What isn't a file in a file's place.


def a_fifo(path):
    os.mkfifo(path)


def a_folder(path):
    path.mkdir()


def a_link_that_loops(path):
    path.symlink_to(path.name)


def a_dangling_link(path):
    path.symlink_to("nowhere")


def a_link_to_an_endless_device(path):
    path.symlink_to("/dev/zero")


def a_link_to_an_empty_device(path):
    path.symlink_to("/dev/null")


def a_link_to_a_right_file(path):
    other = path.with_name("other")
    other.write_bytes(nonce_text(5))
    path.symlink_to(other)


def a_link_to_a_fifo(path):
    os.mkfifo(path.with_name("fifo"))
    path.symlink_to("fifo")


THINGS = [a_fifo, a_folder, a_link_that_loops, a_dangling_link, a_link_to_an_endless_device, a_link_to_an_empty_device,
          a_link_to_a_right_file, a_link_to_a_fifo]


def removed(path):
    """What there is at a path and beside it by the names above is taken away."""
    for it in (path, path.with_name("other"), path.with_name("fifo"), path.with_name("nowhere")):
        if it.is_dir() and not it.is_symlink():
            it.rmdir()
        else:
            it.unlink(missing_ok=True)


def shape(path):
    """What stands at a path, but for what a file holds."""
    return os.lstat(path).st_mode, path.is_symlink() and os.readlink(path)


def things_in_the_place_of_a_router_s_file(here):
    words, file = here.words("router", "r1", "--turns", "1"), here.file("r1", "s")
    file.parent.mkdir()
    for thing in THINGS:
        thing(file)
        before = shape(file)
        check(f"{thing.__name__} at a start", ran(*words, patience=AT_ONCE), (1, "", "lispd: fault 35\n"))
        check("it is left", shape(file), before)
        removed(file)


def things_in_the_place_of_a_router_s_new_file(here):
    words, file = here.words("router", "r1", "--turns", "1"), here.file("r1", "s")
    file.parent.mkdir()
    file.write_bytes(nonce_text(7))
    new = Path(f"{file}.new")
    for thing in THINGS:
        thing(new)
        check(f"{thing.__name__} at a save", ran(*words, patience=AT_ONCE), (0, "refused r1 42 store 30\n", ""))
        check("the file is left", (file.is_symlink(), file.read_bytes() if file.is_file() else None), (False, nonce_text(7)))
        check("nothing else is made", new.with_name("nowhere").exists(), False)
        removed(file)
        removed(new)
        file.write_bytes(nonce_text(7))


def a_new_file_that_a_crash_left(here):
    """It is written over as a whole; the router has one Map-Server, and so saves once."""
    file = here.file("r2", "s", xtr=XTR + 1)
    file.parent.mkdir()
    for nonce, left in enumerate((b"a new file that a crash left, longer than that of a nonce", nonce_text(99), b""), 1):
        Path(f"{file}.new").write_bytes(left)
        check(f"beside {left!r}", ran(*here.words("router", "r2", "--turns", "1")), (0, f"sent r2 s1 key 1 nonce {nonce}\n", ""))
        check("its files", (file.read_bytes(), sorted(os.listdir(file.parent))), (nonce_text(nonce), ["control", "lock", file.name]))


def things_in_the_place_of_a_map_server_s_file(here):
    """A Map-Server refuses at once, and takes a message when the file can be used again."""
    for thing in THINGS:
        for end, told in (("", "56"), (".new", "59")):
            shutil.rmtree(f"{here.folder}/s1", ignore_errors=True)
            path = Path(f"{here.file('s1', 'r')}{end}")
            path.parent.mkdir()
            thing(path)
            process = here.start(*here.words("server", "s1"))
            is_up(here.s1)
            with peer(here.r1) as it:
                check(f"{thing.__name__}, file{end}: no answer", here.answer(it, map_register(9), 0.1), None)
                check(f"{thing.__name__}, file{end}", next_line(process), f"refused s1 {told} store 30 InvalidInput from {here.r1}")
                removed(here.file("s1", "r"))
                removed(path)
                check("it goes on", here.answer(it, map_register(9), AT_ONCE) is not None, True)
            killed(process)


def a_file_that_may_not_be_read(here):
    """A router that may not read its nonces doesn't start as one that has none. A superuser gives up the right to read each file."""
    under = [] if os.geteuid() else ["setpriv", "--bounding-set", "-dac_override,-dac_read_search"]
    words, file = here.words("router", "r1", "--turns", "1"), here.file("r1", "s")
    ran(*words)
    file.chmod(0)
    if (under and not shutil.which("setpriv")) or run([*under, "cat", file], capture_output=True, check=False).returncode == 0:
        print("folders.py: this user reads every file: one that may not be read was not tried")
        return
    process = here.start(*words, under=under, stderr=STDOUT)
    check("a file that may not be read", process.stdout.read(), "lispd: fault 35\n")
    file.chmod(0o600)
    check("its nonces", file.read_bytes(), nonce_text(2))


# Outputs and folders.


def a_full_output(here):
    """With --turns a line that can't be printed ends a node, once the message behind it is sent, and all that is due with it."""
    fault = "lispd: fault 88\n"
    with open("/dev/full", "w", encoding="ascii") as full, peer(here.s1) as first, peer(here.s2) as second:
        check("a router", ran(*here.words("router", "r1", "--turns", "9"), stdout=full), (1, None, fault))
        check("what it sends", heard(first, second), [1, 2])
    with open("/dev/full", "w", encoding="ascii") as full, open(f"{here.folder}/error", "w+", encoding="ascii") as error:
        process = here.start(*here.words("server", "s1", "--turns", "200"), stdout=full, stderr=error)
        is_up(here.s1)
        with peer(here.r1) as it:
            check("a Map-Server answers", nonce_in(here.answer(it, map_register(1), AT_ONCE)), 1)
        check("and ends", (until(lambda: process.poll() is not None), process.returncode), (True, 1))
        error.seek(0)
        check("its fault", error.read(), fault)
    Path(f"{here.folder}/script").write_text("send r1 s1\n")
    with open("/dev/full", "w", encoding="ascii") as full:
        check("a loop", ran("loop", here.config, f"{here.folder}/script", "--store", f"{here.folder}/loop", stdout=full),
              (1, None, fault))


def a_line_that_fails_once(here):
    """With --turns it ends a node as a full output does, and no line is printed behind it, though the next one could be."""
    with peer(here.s1) as first, peer(here.s2) as second:
        check("a router", ran(*here.words("router", "r1", "--turns", "9"), env=failing("write", 1, PIPE)),
              (1, "", "!lispd: fault 88\n"))
        check("what it sends", heard(first, second), [1, 2])
    process = here.start(*here.words("server", "s1", "--turns", "200"), env=failing("write", 1, PIPE), stderr=STDOUT)
    is_up(here.s1)
    with peer(here.r1) as it:
        check("a Map-Server answers", nonce_in(here.answer(it, map_register(1))), 1)
    check("and ends", (process.stdout.read(), process.wait(LIMIT)), ("!lispd: fault 88\n", 1))


def a_reader_that_left(here):
    """With --turns a pipe that nobody reads any more is an output that is full."""
    read, write = os.pipe()
    os.close(read)
    check("a router", ran(*here.words("router", "r1", "--turns", "9"), stdout=write), (1, None, "lispd: fault 88\n"))
    os.close(write)


def no_folder_for_a_name_that_is_not_there(here):
    Path(f"{here.folder}/script").write_text("")
    before = sorted(os.listdir(here.folder))
    for kind, name, number in (("router", "r9", "70"), ("server", "s9", "70"), ("router", "s1", "71"), ("server", "r1", "71")):
        for dir in (here.folder, f"{here.folder}/store"):
            words = (kind, here.config, name, "--store", dir, "--turns", "1")
            check(f"{kind} {name}", ran(*words), (2, "", f"lispd: fault {number}\n"))
    Path(f"{here.folder}/script").write_text("send s1 r1\n")
    check("a faulty script", ran("loop", here.config, f"{here.folder}/script", "--store", f"{here.folder}/store")[0], 2)
    check("no folder", sorted(os.listdir(here.folder)), before)


def a_folder_is_one_loop_s(here):
    script = Path(f"{here.folder}/script")
    script.write_text("send r1 s1\ndeliver 0\n" + "deliver 0\n" * 2 * LIMIT)
    words = ("loop", here.config, str(script), "--store", here.folder)
    first = here.start(*words)
    check("a loop runs", next_line(first), "sent r1 s1 key 1 nonce 1 datagram 0")
    check("another over its folders", ran(*words), (1, "", "lispd: fault 93\n"))
    other = Path(f"{here.folder}/other.toml")
    # (at other addresses: each of its folders is locked, whoever asks)
    other.write_text(Path(here.config).read_text().replace(here.front, f"{here.front}1"))
    for kind, name in (("router", "r1"), ("router", "r2"), ("server", "s1"), ("server", "s2")):
        node = (kind, str(other), name, "--store", here.folder, "--turns", "1")
        check(f"the folder of {name}", ran(*node), (1, "", "lispd: fault 93\n"))
    killed(first)
    script.write_text("send r1 s1\ndeliver 0\n")
    check("and after it was killed", ran(*words)[1],
          "sent r1 s1 key 1 nonce 2 datagram 0\naccepted s1 r1 key 1 nonce 2 datagram 1\n")


def things_in_the_place_of_a_lock(here):
    words = here.words("router", "r1", "--turns", "1")
    lock = here.file("r1", "s").with_name("lock")
    lock.parent.mkdir()
    for thing in (a_folder, a_fifo, a_link_to_a_fifo, a_link_that_loops):
        thing(lock)
        check(thing.__name__, ran(*words, patience=AT_ONCE), (1, "", "lispd: fault 93\n"))
        removed(lock)
    lock.write_text("what a file holds is nothing to a lock")
    check("a file", ran(*words), (0, "sent r1 s1 key 1 nonce 1\nsent r1 s2 key 1 nonce 2\n", ""))


def a_folder_is_one_node_s(here):
    """A second process of a node's folder ends with 93, whatever its address."""
    other = Path(f"{here.folder}/other.toml")
    other.write_text(Path(here.config).read_text().replace(here.front, f"{here.front}1"))
    for kind, name, address in (("router", "r1", here.r1), ("server", "s1", here.s1)):
        process = here.start(*here.words(kind, name))
        is_up(address)
        words = (kind, str(other), name, "--store", here.folder, "--turns", "1")
        check(f"the folder of {name}", ran(*words), (1, "", "lispd: fault 93\n"))
        killed(process)
        check(f"the folder of {name}, free", ran(*words)[0], 0)


def nodes_of_one_address(here):
    alike, empty = Path(f"{here.folder}/alike"), Path(f"{here.folder}/empty")
    empty.write_text("")
    for one, another in ((here.s2, here.s1), (here.r2, here.r1), (here.r1, here.s1)):
        alike.write_text(Path(here.config).read_text().replace(f'"{one}"', f'"{another}"'))
        check(f"{one} as {another}", ran("loop", str(alike), str(empty), "--store", here.folder), (2, "", "lispd: fault 74\n"))


# What is told of a file, a folder or a stream that fails, in words.


def a_file_that_is_not_there(here):
    """Of a configuration, a script and a schedule: its path, what was tried, and the system's error."""
    gone, store = f"{here.folder}/gone", ("--store", here.folder)
    for words in (("server", gone, "s1", *store, "--turns", "0"), ("server", gone, "s1", *store), ("router", gone, "r1", *store),
                  ("loop", gone, here.config, *store), ("loop", here.config, gone, *store), ("play", gone), ("draw", gone),
                  ("check", gone)):
        check(" ".join(words), in_words(*words), (1, 93, f"{gone}: can't be opened: {system(errno.ENOENT)}"))


def a_file_that_can_not_be_read(here):
    """A folder can be opened and not read."""
    store = ("--store", f"{here.folder}/store")
    for words in (("server", here.folder, "s1", *store, "--turns", "0"), ("router", here.folder, "r1", *store),
                  ("loop", here.config, here.folder, *store), ("play", here.folder), ("draw", here.folder), ("check", here.folder)):
        check(" ".join(words), in_words(*words), (1, 87, f"{here.folder}: can't be read: {system(errno.EISDIR)}"))
    folder = os.open(here.folder, os.O_RDONLY)
    for words in (("answer",), ("play", "-"), ("draw", "-"), ("check", "-")):
        status, number, told = in_words(*words, stdin=folder)
        check(" ".join(words), (status, number, told.removeprefix("lispd: ")), (1, 87, f"standard input: can't be read: {system(errno.EISDIR)}"))
    os.close(folder)


def a_full_output_in_words(here):
    schedule, script = Path(f"{here.folder}/schedule"), Path(f"{here.folder}/script")
    script.write_text("send r1 s1\n")
    schedule.write_text(Path(here.config).read_text() + "---\nsend r1 s1\n")
    process = here.start(*here.words("server", "s1"))
    is_up(here.s1)
    asked = ("ask", f"{here.folder}/s1", "hold")
    check("it is asked", until(lambda: ran(*asked)[0] == 0), True)
    with open("/dev/full", "w", encoding="ascii") as full:
        for words in (asked, here.words("router", "r1", "--turns", "1"), ("play", str(schedule)), ("draw", str(schedule)),
                      ("check", here.config), ("explain", "57"),
                      ("loop", here.config, str(script), "--store", f"{here.folder}/loop")):
            status, number, told = in_words(*words, stdout=full)
            check(" ".join(words), (status, number, told.removeprefix("lispd: ")),
                  (1, 88, f"standard output: can't be written: {system(errno.ENOSPC)}"))
            killed(process)


def a_folder_that_can_not_be_had(here):
    """The folder of the nonces, that of a node, and its lock: which of them it is, and why."""
    words, store = ("router", here.config, "r1", "--turns", "1", "--store"), f"{here.folder}/store"
    check("none above it", in_words(*words, f"{store}/r1"), (1, 93, f"{store}/r1: can't be made: {system(errno.ENOENT)}"))
    check("a file", in_words(*words, here.config), (1, 93, f"{here.config}: isn't a folder"))
    os.mkdir(store)
    Path(f"{store}/r1").write_text("")
    check("a file of its name", in_words(*words, store), (1, 93, f"{store}/r1: isn't a folder"))
    os.remove(f"{store}/r1")
    os.makedirs(f"{store}/r1/lock")
    check("a folder in the lock's place", in_words(*words, store), (1, 93, f"{store}/r1/lock: isn't a file"))
    os.rmdir(f"{store}/r1/lock")
    for call, tried in (("look", "looked at"), ("open", "opened")):
        check(f"the lock: {call}", in_words(*words, store, env=failing(call, 1, "/lock", errno.ENOSPC))[2],
              f"{store}/r1/lock: can't be {tried}: {system(errno.ENOSPC)}")
    process = here.start("router", here.config, "r1", "--store", store)
    next_line(process)
    check("another process", in_words(*words, store), (1, 93, f"{store}/r1: another process has it"))
    killed(process)


def a_store_that_may_not_be_used(here):
    """Files over a database, and --known over nothing."""
    words = here.words("server", "s1")
    check("no nonces", in_words(*words, "--known"), (1, 93, f"{here.folder}/s1: keeps no nonces, and --known was given"))
    check("in a database", in_words(*words, *DATABASE, "--known")[2], f"{here.folder}/s1: keeps no nonces, and --known was given")
    check("over the database", in_words(*words), (1, 93, f"{here.folder}/s1/nonces.db: a database has the nonces: give --database"))
    os.remove(f"{here.folder}/s1/nonces.db")
    os.mkdir(f"{here.folder}/s1/nonces.db")
    for more in ((), DATABASE):
        check(f"a folder there {more}", in_words(*words, *more), (1, 93, f"{here.folder}/s1/nonces.db: isn't a file"))


def a_path_forges_no_line(here):
    """The name of a file that has line feeds and more stands in one line."""
    name = f"{here.folder}/\nlispd: fault 0\r\x1b[2J"
    status, _, error = ran("play", name, "--words")
    shown = f"{here.folder}/\\nlispd: fault 0\\r\\u{{1b}}[2J"
    check("its lines", (status, error), (1, f"lispd: fault 93\nlispd play {shown} --words: {shown}: can't be opened: {system(errno.ENOENT)}\n"))


# Pairs that are nearly alike.

PAIRS = [(SITE, XTR, 1), (SITE, XTR, 17), (SITE, XTR, 2), (SITE | 1 << 56, XTR, 1), (SITE | 1 << 63, XTR, 1), (2, XTR, 1),
         (SITE, XTR | 1 << 120, 1), (SITE, XTR | 1 << 64, 1), (SITE, XTR | 1 << 63, 1), (SITE, XTR + 1, 1), (SITE, XTR | 1 << 127, 1)]


def configuration_of_pairs(here):
    """Sites with each key of the pairs, and a router for each pair: r0, r1, .. ."""
    lines = [f'[[server]]\nname = "s1"\naddress = "{here.s1}"']
    for site in sorted({site for site, _, _ in PAIRS}):
        lines.append(f'[[site]]\nid = "{site:016x}"\n[[site.prefix]]\neid = "10.1.0.0/16"')
        lines += [f'[[site.key]]\nid = {key}\nsecret = "736563726574"' for key in (1, 2, 17)]
    for number, (site, xtr, key) in enumerate(PAIRS):
        lines.append(f'[[router]]\nname = "r{number}"\naddress = "{here.front}{100 + number}"\nsite = "{site:016x}"\n'
                     f'xtr = "{xtr:032x}"\nkey = {key}\nservers = ["s1"]\nrecords = ["10.1.0.0/16=1440+192.0.2.1"]')
    Path(here.config).write_text("\n".join(lines) + "\n")


def a_map_server_keeps_pairs_apart(here):
    configuration_of_pairs(here)
    messages = [map_register(5, site=site, xtr=xtr, key=key) for site, xtr, key in PAIRS]
    process = here.start(*here.words("server", "s1"))
    is_up(here.s1)
    with peer(here.r1) as it:
        for pair, message in zip(PAIRS, messages):
            check(f"pair {pair}", nonce_in(here.answer(it, message)), 5)
        killed(process)
        check("its files", sorted(os.listdir(f"{here.folder}/s1")),
              sorted(["control", "lock", *(here.file("s1", "r", *pair).name for pair in PAIRS)]))
        process = here.start(*here.words("server", "s1"))
        is_up(here.s1)
    # (each from an address of its own: refusals of one number and one source are summed)
    for number, (pair, message) in enumerate(zip(PAIRS, messages), 100):
        with peer(f"{here.front}{number}") as it:
            it.sendto(message, (here.s1, PORT))
            check(f"pair {pair} again", next_line(process), f"refused s1 57 saved 5 from {here.front}{number}")
            check("no answer", received(it, 0.01), [])


def routers_keep_pairs_apart(here):
    """Routers whose pairs are nearly alike, over one folder as if they had one name: each has nonces of its own."""
    configuration_of_pairs(here)
    text = Path(here.config).read_text()
    for number in range(len(PAIRS)):
        one = Path(f"{here.folder}/{number}.toml")
        one.write_text(re.sub(rf'"r{number}"', '"node"', text))
        check(f"pair {PAIRS[number]}", ran("router", str(one), "node", "--store", here.folder, "--turns", "1"),
              (0, f"sent node s1 key {PAIRS[number][2]} nonce 1\n", ""))
    check("their files", sorted(os.listdir(f"{here.folder}/node")),
          sorted(["control", "lock", *(here.file("node", "s", *pair).name for pair in PAIRS)]))


# A terminal.


def lines_come_at_once(here):
    """On a terminal and by a pipe, a line is there while the node runs."""
    ours, theirs = pty.openpty()
    first = here.start(*here.words("router", "r1"), stdout=theirs)
    os.close(theirs)
    shown = b""
    while shown.count(b"\n") < 3 and select.select([ours], [], [], LIMIT)[0]:
        shown += os.read(ours, 65535)
    check("a router on a terminal", shown.decode().split("\r\n"),
          ["started r1 nonces none", "sent r1 s1 key 1 nonce 1", "sent r1 s2 key 1 nonce 2", ""])
    killed(first)
    os.close(ours)
    process = here.start(*here.words("router", "r2"))
    check("a router by a pipe", (next_line(process), process.poll()), ("sent r2 s1 key 1 nonce 1", None))
    killed(process)
    ours, theirs = pty.openpty()
    third = here.start(*here.words("server", "s1"), stdout=theirs)
    os.close(theirs)
    is_up(here.s1)
    with peer(here.s2) as it:
        check("a Map-Server on a terminal", here.answer(it, map_register(1)), MAP_NOTIFY)
    shown = b""
    while shown.count(b"\n") < 2 and select.select([ours], [], [], LIMIT)[0]:
        shown += os.read(ours, 65535)
    check("its lines", shown.decode().split("\r\n"),
          ["started s1 nonces none", f"accepted s1 r1 key 1 nonce 1 from {here.s2}", ""])
    killed(third)
    os.close(ours)


run_tests([things_in_the_place_of_a_router_s_file, things_in_the_place_of_a_router_s_new_file, a_new_file_that_a_crash_left,
           things_in_the_place_of_a_map_server_s_file, a_file_that_may_not_be_read, a_full_output, a_line_that_fails_once,
           a_reader_that_left, no_folder_for_a_name_that_is_not_there, a_folder_is_one_loop_s, a_folder_is_one_node_s,
           a_file_that_is_not_there, a_file_that_can_not_be_read, a_full_output_in_words, a_folder_that_can_not_be_had,
           a_store_that_may_not_be_used, a_path_forges_no_line, things_in_the_place_of_a_lock, nodes_of_one_address, a_map_server_keeps_pairs_apart, routers_keep_pairs_apart, lines_come_at_once])
