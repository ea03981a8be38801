#!/usr/bin/env -S python3 -B
"""failing.py PROGRAM
Runs `lispd answer` and `play` again and again while one call of the program fails, the first, the second and so on until a
run needs no such call: memory that is asked for is refused, a read fails, is interrupted or never ready, a write fails or takes one byte.
failing.c, loaded before the program's own libraries, lets the call fail. The schedules are those of at most 40 lines of script.
Prints each run that ends otherwise than it may, and ends with 1 where one does."""
import concurrent.futures
import itertools
import os
import re
import subprocess
import sys
import tempfile
from pathlib import Path

HERE = Path(__file__).resolve().parent
EXAMPLES = HERE.parent / "examples"
LONGEST = 40
LIMIT = 20
CAPTURE = ["read", str(EXAMPLES / "map-register.pcap"), str(EXAMPLES / "worked.toml")]
# What may be printed for want of memory: a refusal by a core, by its store, or the fault of an event.
TOLD = re.compile(r"refused \S+ (?:36|48|58|66|(?:35|38|42|56|59|65|68) store 32)|fault 75")
# A start that was refused.
UNSTARTED = re.compile(r"refused (\S+) (?:36|35 store 32)\n")
# How a play ends where memory is refused and no node is asked: the configuration, the network, a line of the script, the rest; after
# the commands that weren't taken.
ENDED = re.compile(r"(?:lispd: fault 7\d line \d+\n)*lispd: fault (?:24|75|76|86 line \d+|97)\n")
# What `lispd check` tells of it in words.
IN_WORDS = re.compile(r"lispd check \S+: (?:line \d+: )?(?:\S+ \S+(?:, \S+ \d+)?: )?out of memory.*\n")
# How many reads are never ready: each is tried two million times.
UNREADY = 3
# How often an input is read at most, a byte at a time, the reads that were interrupted among them.
MOST_READS = 2_097_152
# How many growths more, or fewer, a script with one line more may ask for before it is played, besides two for each word of the line.
MORE = 40

program = os.path.abspath(sys.argv[1])
runs, failed = 0, []


def failing(folder, kind, at, words, given):
    """Runs the program while this call fails: whether it did, the status, standard output and standard error."""
    global runs
    runs += 1
    mark, report = os.pipe()
    env = {"LD_PRELOAD": f"{folder}/failing.so", "FAILING_CALL": kind, "FAILING_AT": str(at), "FAILING_REPORT": str(report)}
    done = subprocess.run([program, *words], input=given, capture_output=True, timeout=LIMIT, env=env, pass_fds=[report],
                          check=False)
    os.close(report)
    with open(mark, "rb") as marks:
        has_failed = bool(marks.read())
    return has_failed, done.returncode, done.stdout.decode(), done.stderr.decode()


def each(folder, kind, words, given):
    """The runs in which the first, the second, .. call of this kind fails, and what they end with."""
    at = 1
    while True:
        has_failed, *ended = failing(folder, kind, at, words, given)
        if not has_failed:
            return
        yield at, ended
        at += 1


def wrong(name, kind, at, ended):
    failed.append(name)
    status, output, error = ended
    print(f"{name}, {kind} {at}: status {status}, '{output}', '{error}'")


def script_lines(text):
    """The configuration with its line ---, and the script's lines."""
    configuration, script = text.split("\n---\n", 1)
    return f"{configuration}\n---\n", script.splitlines(keepends=True)


def is_taken_again(folder, at, text, printed, place, refusal):
    """Whether a command that was refused memory is given again and then prints its line, and all that follows does. (A router whose
    start was refused behind a lost store has used the key of that start: it is restarted, and then stands as if it had started.)"""
    head, script = script_lines(text)
    commands = [number for number, line in enumerate(script) if line.strip() and not line.startswith("#")]
    lines = printed.splitlines(keepends=True)
    # (a command may print several lines: its place is found by what the commands before it print)
    for number in commands:
        repeated, line = script[number], lines[place]
        if repeated.startswith("lose ") and (unstarted := UNSTARTED.match(refusal)):
            _, router, _, *records = repeated.split()
            repeated, line = " ".join(["restart", router, "0", *records]) + "\n", f"restarted {unstarted[1]}\n"
        again = (head + "".join(script[:number + 1] + [repeated] + script[number + 1:])).encode()
        if not plays_front(head + "".join(script[:number]), lines[:place]):
            continue
        # (with one line more the script may also be kept in fewer growths: lists that double are then longer from the start)
        for later in [*range(at, at + MORE + 2 * len(repeated.split())), *range(max(1, at - MORE), at)]:
            _, status, output, _ = failing(folder, "growth", later, ["play", "-"], again)
            told = output.splitlines(keepends=True)
            if status == 0 and told[:place] + told[place + 1:] == [*lines[:place], line, *lines[place + 1:]] and TOLD.match(told[place]):
                return True
    return False


def plays_front(text, lines):
    done = subprocess.run([program, "play", "-"], input=text.encode(), capture_output=True, timeout=LIMIT, check=False)
    return done.stdout.decode() == "".join(lines)


def refuse_growth(folder, schedule):
    text, printed = schedule.read_text(), schedule.with_suffix(".out").read_text()
    lines = printed.splitlines(keepends=True)
    for at, ended in each(folder, "growth", ["play", "-"], text.encode()):
        status, output, error = ended
        told = output.splitlines(keepends=True)
        place = next((place for place, (line, wanted) in enumerate(zip(told, lines)) if line != wanted), None)
        if status == 1:
            is_right = ENDED.fullmatch(error) and place is None and (not told or told[-1].endswith("\n"))
        elif place is None:
            is_right = status == 0 and output == printed
        else:
            is_right = status == 0 and TOLD.match(told[place]) and is_taken_again(folder, at, text, printed, place, told[place])
        if not is_right:
            wrong(schedule.name, "growth", at, ended)


def refuse_answer(folder):
    """The worked Map-Register is answered, refused for want of memory, or not answered at all."""
    given = (EXAMPLES / "map-register.hex").read_bytes()
    allowed = [[0, (EXAMPLES / "map-notify.hex").read_text(), ""], [0, "refused 58\n", ""], [0, "refused 59 store 32\n", ""],
               [1, "", "lispd: fault 97\n"]]
    for words in ([], ["answer", "--secret", "736563726574"]):
        for at, ended in each(folder, "growth", words, given):
            if ended not in allowed:
                wrong(f"lispd {' '.join(words)}", "growth", at, ended)


def refuse_text(folder, words):
    """What the program prints of itself or of a file is the same, or whole lines of it and the fault."""
    printed = subprocess.run([program, *words], capture_output=True, text=True, timeout=LIMIT, check=False).stdout
    for at, (status, output, error) in each(folder, "growth", words, b""):
        is_front = printed.startswith(output) and (not output or output.endswith("\n"))
        is_ended = status == 1 and ENDED.fullmatch(IN_WORDS.sub("", error))
        if (status, output, error) != (0, printed, "") and not (is_ended and is_front):
            wrong(f"lispd {' '.join(words)}", "growth", at, (status, output, error))


def refuse_picture(folder, words):
    """A picture is whole, or there is none and a fault; or it shows that a node was refused memory."""
    printed = subprocess.run([program, *words], capture_output=True, text=True, timeout=LIMIT, check=False).stdout
    for at, (status, output, error) in each(folder, "growth", words, b""):
        is_whole = status == 0 and not error and (output == printed or TOLD.search(output))
        if not is_whole and not (status == 1 and not output and ENDED.fullmatch(error)):
            wrong(f"lispd {' '.join(words)}", "growth", at, (status, output, error))


def fail_streams(folder, words, given, printed):
    """Reads that fail are fault 87, unless they were interrupted, and not again and again; writes that fail are fault 88, and
    leave whole writes."""
    name = f"lispd {' '.join(words)}"
    unread, read = (1, "", "lispd: fault 87\n"), (0, printed, "")
    for kind, wanted, most in [("read", unread, None), ("unready", unread, UNREADY), ("interrupt", read, None), ("short", read, None)]:
        for at, ended in itertools.islice(each(folder, kind, words, given), most):
            if tuple(ended) != wanted:
                wrong(name, kind, at, ended)
    for at, (status, output, error) in each(folder, "write", words, given):
        if (status, error) != (1, "lispd: fault 88\n") or not printed.startswith(output) or output == printed:
            wrong(name, "write", at, (status, output, error))


def bound_reads(folder, words, given, printed, reads):
    """An input that takes so many reads is read if no more are interrupted than the bound leaves; one more is fault 87."""
    most = MOST_READS - reads
    for at, wanted in [(most, [0, printed, ""]), (most + 1, [1, "", "lispd: fault 87\n"])]:
        has_failed, *ended = failing(folder, "early", at, words, given)
        if not has_failed or ended != wanted:
            wrong(f"lispd {' '.join(words)}", "early", at, ended)


def short(schedule):
    return len(script_lines(schedule.read_text())[1]) <= LONGEST


with tempfile.TemporaryDirectory() as room, concurrent.futures.ThreadPoolExecutor(os.cpu_count()) as side:
    subprocess.run(["cc", "-O1", "-Wall", "-shared", "-fPIC", "-o", f"{room}/failing.so", HERE / "failing.c"], check=True)
    found = [*sorted((EXAMPLES / "schedules").glob("*.schedule")), *sorted((HERE / "schedules").glob("*/*.schedule"))]
    schedules = [it for it in found if short(it)]
    asked = [side.submit(refuse_growth, room, it) for it in schedules]
    asked += [side.submit(refuse_text, room, words)
              for words in (["check", str(EXAMPLES / "configuration.toml")], ["explain"], ["explain", "57"], ["--help"], CAPTURE,
                            [*CAPTURE, "--schedule"])]
    drawn = str(EXAMPLES / "schedules" / "05-server-save-kept.schedule")
    asked += [side.submit(refuse_picture, room, words) for words in (["draw", drawn], ["draw", "--text", drawn])]
    asked.append(side.submit(refuse_answer, room))
    line, answer = (EXAMPLES / "map-register.hex").read_bytes(), (EXAMPLES / "map-notify.hex").read_text()
    asked += [side.submit(fail_streams, room, [], line, answer), side.submit(bound_reads, room, [], line, answer, len(line))]
    for it in schedules[:3]:
        given, printed = it.read_bytes(), it.with_suffix(".out").read_text()
        # (its end takes a read, too)
        asked += [side.submit(fail_streams, room, ["play", "-"], given, printed),
                  side.submit(bound_reads, room, ["play", "-"], given, printed, len(given) + 1)]
    for it in asked:
        it.result()
print(f"{len(schedules)} schedules, {runs} runs with a call that fails, {len(failed)} wrong", file=sys.stderr)
sys.exit(1 if failed or not runs else 0)
