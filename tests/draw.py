#!/usr/bin/env -S python3 -B
"""draw.py PROGRAM

Draws schedules: those that have their picture in the folder `pictures` beside them, as each of examples/ does; and some that a picture has
to bear: 10,000 commands, comments with markup and control characters, more nodes than a text has room for. Looks at each picture as a
document of XML, and at each text for its width. Looks at the pixels of one that rsvg-convert renders, where it is installed. Prints what is
wrong, and ends with 1 where something is."""
import re
import shutil
import struct
import subprocess
import sys
import xml.etree.ElementTree as ElementTree
import zlib
from pathlib import Path

HERE = Path(__file__).resolve().parent
EXAMPLES = HERE.parent / "examples"
LIMIT = 60
SVG = "{http://www.w3.org/2000/svg}"
SHAPES = {SVG + tag for tag in ("svg", "title", "style", "defs", "marker", "path", "circle", "rect", "text", "line", "use", "g")}
DRAWN = {SVG + tag for tag in ("path", "circle", "rect", "text", "line")}
MOST_BYTES = 2_100_000
MOST_CHARACTERS = 100

program = sys.argv[1]
failed = []


def check(what, found, wanted):
    if found != wanted:
        failed.append(what)
        print(f"{what}: {found!r}, wanted {wanted!r}")


def run(*words, text):
    return subprocess.run([program, *words], input=text.encode(), capture_output=True, timeout=LIMIT, check=False)


def lines_of(text):
    """What is played of a schedule, the first line of each command: those of a `hold`, a `request` and `acks` behind theirs are left out."""
    script = text.split("\n---\n", 1)[1].splitlines()
    commands = [line.split() for line in script if line.strip() and not line.startswith("#")]
    played = run("play", "-", text=text).stdout.decode().splitlines()
    firsts, place = [], 0
    for command in commands:
        firsts.append(played[place])
        place += 1
        while place < len(played) and (played[place].startswith(("row ", "record ")) or command[0] == "acks" and played[place].startswith("acks ")):
            place += 1
    return firsts


def looks_at_image(name, text):
    """A document of shapes alone, with an element for each command, in order, which has the first of its lines."""
    done = run("draw", "-", text=text)
    check(f"{name}, status and standard error", (done.returncode, done.stderr), (0, b""))
    root = ElementTree.fromstring(done.stdout)
    check(f"{name}, tags", sorted({it.tag for it in root.iter()} - SHAPES), [])
    elements = root.findall(SVG + "g")
    check(f"{name}, numbers", [it.get("id") for it in elements], [f"e{number + 1}" for number in range(len(elements))])
    check(f"{name}, lines", [it.find(SVG + "title").text for it in elements], lines_of(text))
    looks_at_colours(name, done.stdout.decode(), root)
    check(f"{name}, references", b"http" in done.stdout.replace(b'xmlns="http://www.w3.org/2000/svg"', b""), False)
    return done.stdout, root


def looks_at_colours(name, drawn, root):
    """Each shape has its colour as an attribute, for viewers that know no style; and its class another on a dark screen, and in print."""
    check(f"{name}, variables", "var(" in drawn, False)
    shapes = [it for it in root.iter() if it.tag in DRAWN]
    check(f"{name}, shapes without a colour", [it.attrib for it in shapes if not {"fill", "stroke"} & set(it.attrib)], [])
    dark, print_ = root.find(SVG + "style").text.split("@media")[1:]
    for media in (dark, print_):
        known = set(re.findall(r"\.(\w+)(?=[,{])", media))
        check(f"{name}, classes that {media.split('{')[0]} doesn't know", {it.get("class") for it in shapes} - known, set())


def looks_at_text(name, text):
    """Lines of at most 100 printable characters of ASCII; those that begin with a number are those of the commands, in order, and end with
    the words that the first of its lines begins with."""
    done = run("draw", "--text", "-", text=text)
    check(f"{name} as text, status and standard error", (done.returncode, done.stderr), (0, b""))
    lines = done.stdout.decode("ascii").splitlines()
    check(f"{name} as text, lines", [line for line in lines if len(line) > MOST_CHARACTERS or not line.isprintable()], [])
    numbered, firsts = [line for line in lines if line[:1].isdigit()], lines_of(text)
    check(f"{name} as text, numbers", [int(line.split(" ", 1)[0]) for line in numbered], list(range(1, len(firsts) + 1)))
    check(f"{name} as text, words", [line for line, first in zip(numbered, firsts) if not ends_with_words(line, first)], [])
    return lines


def ends_with_words(line, first):
    word = first.split(" ", 1)[0]
    return f" {word}" in line and first.startswith(line[line.index(f" {word}") + 1:])


def picture_of(schedule):
    return schedule.parent / "pictures" / f"{schedule.stem}.svg"


def pictures_are_those_beside():
    examples = [*(EXAMPLES / "schedules").glob("*.schedule"), *(EXAMPLES / "attacks").glob("*.schedule")]
    found = sorted([*examples, *(it for it in (HERE / "schedules").glob("*/*.schedule") if picture_of(it).exists())])
    for schedule in found:
        drawn, _ = looks_at_image(schedule.name, schedule.read_text())
        looks_at_text(schedule.name, schedule.read_text())
        check(f"the picture of {schedule.name}", drawn == picture_of(schedule).read_bytes(), True)
    check("some pictures", len(found) > 20, True)


def what_a_viewer_shows():
    """The pixels of a picture: a white ground, blue arrows, and a red sign where one is refused, with its style and without."""
    if not shutil.which("rsvg-convert"):
        print("rsvg-convert isn't here: no picture was rendered")
        return
    image = picture_of(EXAMPLES / "schedules" / "02-replay.schedule").read_text()
    for name, shown in (("a picture", image), ("one without its style", re.sub(r"(?s)<style>.*</style>", "", image))):
        root = ElementTree.fromstring(shown)
        rendered = subprocess.run(["rsvg-convert"], input=shown.encode(), capture_output=True, timeout=LIMIT, check=True)
        rows = pixels(rendered.stdout)
        check(f"{name}, its size", (len(rows[0]), len(rows)), (int(root.get("width")), int(root.get("height"))))
        check(f"{name}, its ground", rows[3][3], (0xFF, 0xFF, 0xFF))
        for arrow in (it for it in root.iter(SVG + "line") if it.get("class") == "arrow"):
            x, y = ((int(arrow.get(f"{axis}1")) + int(arrow.get(f"{axis}2"))) // 2 for axis in "xy")
            check(f"{name}, an arrow", has_colour(rows, x, y, (0x09, 0x69, 0xDA)), True)
        refused = [it for it in root.iter(SVG + "use") if it.get("href") == "#refused"]
        check(f"{name}, a refusal", [has_colour(rows, int(it.get("x")), int(it.get("y")), (0xCF, 0x22, 0x2E)) for it in refused], [True])


def has_colour(rows, x, y, colour):
    """Whether a pixel there, or beside it, has nearly this colour."""
    near = [rows[y + down][x + right] for down in (-1, 0, 1) for right in (-1, 0, 1)]
    return any(all(abs(found - wanted) < 48 for found, wanted in zip(pixel, colour)) for pixel in near)


def pixels(png):
    """The rows of a PNG of 8 bits, with an alpha channel or without, each a list of red, green and blue."""
    place, data, width, height, size_of_pixel = 8, b"", 0, 0, 0
    while place < len(png):
        size, kind = struct.unpack(">I4s", png[place:place + 8])
        chunk = png[place + 8:place + 8 + size]
        if kind == b"IHDR":
            width, height, depth, colours = struct.unpack(">IIBB", chunk[:10])
            size_of_pixel = {(8, 2): 3, (8, 6): 4}[depth, colours]
        elif kind == b"IDAT":
            data += chunk
        place += size + 12
    length = size_of_pixel * width
    data, above, rows = zlib.decompress(data), bytearray(length), []
    for row in range(height):
        start = row * (length + 1)
        above = unfiltered(data[start], bytearray(data[start + 1:start + 1 + length]), above, size_of_pixel)
        rows.append([tuple(above[at:at + 3]) for at in range(0, length, size_of_pixel)])
    return rows


def unfiltered(kind, row, above, size_of_pixel):
    """A row of a PNG without its filter (PNG specification, section 9)."""
    for at, byte in enumerate(row):
        left, corner = (row[at - size_of_pixel], above[at - size_of_pixel]) if at >= size_of_pixel else (0, 0)
        up = above[at]
        guess = left + up - corner
        nearest = min((abs(guess - left), 0, left), (abs(guess - up), 1, up), (abs(guess - corner), 2, corner))[2]
        row[at] = (byte + (0, left, up, (left + up) // 2, nearest)[kind]) % 256
    return row


def ten_thousand_commands():
    sent = [f"send r1 s1\ndeliver {2 * place}\ndeliver {2 * place + 1}\ntick 1\n" for place in range(2500)]
    drawn, root = looks_at_image("10,000 commands", f"{configuration()}---\n{''.join(sent)}")
    check("the size of 10,000 commands", len(drawn) <= MOST_BYTES, True)
    check("what is left out", any("10000 commands" in (it.text or "") for it in root.iter(SVG + "text")), True)
    lost = "".join(f"send r1 s1{' doubt' * (place == 604)}\n" for place in range(605))
    _, root = looks_at_image("605 commands", f"{configuration()}---\n{lost}deliver 999\n")
    uses = [it.get("href") for it in root.iter(SVG + "use")]
    check("stubs above 600", len([it for it in root.iter(SVG + "line") if it.get("class") == "lost"]), 604)
    check("rings and bars above 600", (uses.count("#doubt"), uses.count("#untaken")), (1, 1))


def strange_comments():
    for comment in ("<script>alert(1)</script> & </title> \"'", "\x1b[31m\x07\x7f\x9b", "\ufffe\uffff\ufffd", "ü 統", "", "]]> <!-- -->"):
        text = f"{configuration()}---\n#{comment}\nsend r1 s1\ndeliver 0\n"
        _, root = looks_at_image(f"the comment {comment!r}", text)
        shown = "".join(it if it.isprintable() and it not in "\ufffe\uffff" else "?" for it in comment.strip(" "))
        check(f"the title of {comment!r}", root.find(SVG + "title").text or "", shown)
        looks_at_text(f"the comment {comment!r}", text)


def many_nodes():
    names = [f"r{place:031}" for place in range(12)]
    routers = [f"""[[router]]
name = "{name}"
address = "127.0.1.{place + 1}"
site = "0000000000000001"
xtr = "{place + 1:032x}"
key = 1
servers = ["s1"]
records = ["10.1.0.0/16=1440{'+192.0.2.1' * 40}"]
""" for place, name in enumerate(names)]
    script = "".join(f"send {name} s1\ndeliver {2 * place}\ndeliver {2 * place + 1}\n" for place, name in enumerate(names))
    text = f"{configuration().split('[[router]]')[0]}{''.join(routers)}---\n{script}hold s1\nrestart s1 0\n"
    looks_at_image("12 routers", text)
    lines = looks_at_text("12 routers", text)
    check("nodes that have no line", [line for line in lines if line.startswith("(")], ["(nodes without a line: 1 idle, 5 busy)"])


def what_is_told_of_stores():
    text = (HERE / "schedules" / "messages" / "notice-and-restart.schedule").read_text()
    for form in ([], ["--text"]):
        told = run("draw", *form, "-", text=text).stdout.decode()
        check(f"draw {form} of what is kept of notices", ("sent in notices: nonce" in told, "for other" in told), (True, False))


def titles():
    for title, shown in (("# 7 commands", "7 commands"), ("#no space", "no space"), ("#", "")):
        text = f"{title}\n{configuration()}---\nsend r1 s1\n"
        check(f"the title {title!r}", looks_at_image(title, text)[1].find(SVG + "title").text or "", shown)
        check(f"the title {title!r} as text", looks_at_text(title, text)[0], f"# {shown}".rstrip())


def where_a_map_notify_goes():
    """It is for the node that the Map-Register came from, and not for the router that this names: nothing happens to that one."""
    junk = (EXAMPLES / "map-register.hex").read_text().strip()
    lines = looks_at_text("from a stranger", f"{configuration()}---\njunk s1 192.0.2.77 {junk}\n")
    check("one line", len([line for line in lines if "(Map-Server" in line or "(router" in line]), 1)


def faults():
    check("no node", run("draw", "-", text="---\n").returncode, 0)
    broken = configuration().encode() + b"---\n# \xff\n"
    done = subprocess.run([program, "draw", "-"], input=broken, capture_output=True, timeout=LIMIT, check=False)
    check("a comment that isn't UTF-8", (done.returncode, done.stdout, done.stderr), (2, b"", b"lispd: fault 95\n"))
    for words, text, status, error in ((["no-such.schedule"], "", 1, b"lispd: fault 93\n"), (["-"], "a = 1\n", 2, b"lispd: fault 96\n"),
                                       (["-"], configuration() + "---\nsend r1\n", 2, b"lispd: fault 81 line 1\n")):
        for form in ([], ["--text"]):
            done = run("draw", *form, *words, text=text)
            check(f"draw {form} {words}", (done.returncode, done.stdout, done.stderr), (status, b"", error))


def configuration():
    lines = (EXAMPLES / "configuration.toml").read_text().splitlines(keepends=True)
    return "".join(line for line in lines if not line.startswith("#"))


for test in (pictures_are_those_beside, what_a_viewer_shows, ten_thousand_commands, strange_comments, many_nodes, what_is_told_of_stores, titles,
             where_a_map_notify_goes, faults):
    test()
if failed:
    print(f"{len(failed)} wrong pictures", file=sys.stderr)
sys.exit(1 if failed else 0)
