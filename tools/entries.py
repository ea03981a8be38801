"""The tables of wrong bodies (mutants/CRATE.toml) and of slips (slips/LIST.toml): their entries, where these stand in the sources, and what
was said last of each wrong body."""
import glob
import hashlib
import os
import re
import tomllib
from functools import cache

from crates import LINES, TOP

MOST = 600
# What was said of the wrong bodies when they were tried last: a line each, with a sum of the text that it is of.
LOG = f"{TOP}/mutants/MUTANTS.log"
REFUSED = "refused by "
FUNCTION = re.compile(r"( *)(?:pub(?:\(\w+\))? )?(?:const )?(?:unsafe )?(?:extern \"C\" )?fn (\w+)")
ENSURES = re.compile(r"^\s*ensures\b\s*(\w*)\s*\{", re.MULTILINE)


def read(file):
    with open(file, encoding="utf-8") as text:
        return text.read()


def tables(folder):
    """Each table of a folder, by its name."""
    return {os.path.basename(it)[:-5]: tomllib.loads(read(it)) for it in sorted(glob.glob(f"{TOP}/{folder}/*.toml"))}


def several(value):
    return [value] if isinstance(value, str) else value


def pairs(entry):
    """The file, the old and the new text of each change that an entry makes."""
    olds, files = several(entry["old"]), several(entry["file"])
    return list(zip(files if len(files) == len(olds) else files * len(olds), olds, several(entry["new"])))


def replaced(text, old, new):
    """The text with the change; nothing where the old text doesn't stand there once."""
    return text.replace(old, new) if text is not None and text.count(old) == 1 else None


# --- wrong bodies


@cache
def wrong_bodies():
    """The wrong bodies of each crate."""
    return {crate: table["wrong"] for crate, table in tables("mutants").items()}


@cache
def source(crate, path):
    file = f"{TOP}/crates/{crate}/{path}"
    return read(file) if os.path.isfile(file) else None


def edited(crate, entries):
    """The texts of the files that these wrong bodies change, by their paths in the crate; nothing where one doesn't fit."""
    texts = {}
    for file, old, new in (pair for entry in entries for pair in pairs(entry)):
        path = f"src/{file}.rt"
        texts[path] = replaced(texts.get(path, source(crate, path)), old, new)
        if texts[path] is None:
            return None
    return texts


def end_of(lines, at, indent):
    """The last line of a function that begins at a line: its closing brace, or the semicolon of one without a body."""
    begin = next(n for n in range(at, len(lines)) if lines[n].endswith((";", "{", "{}")) or n == at and lines[n].endswith("}"))
    if not lines[begin].endswith("{"):
        return begin
    return next((n for n in range(begin, len(lines)) if lines[n] == indent + "}"), begin)


@cache
def functions(text):
    """The functions of a file: their names, and their first and last lines with their attributes, from 1 on."""
    lines, found = text.split("\n"), []
    for at, line in enumerate(lines):
        if it := FUNCTION.match(line):
            first = next(n for n in range(at, -1, -1) if n == 0 or not lines[n - 1].lstrip().startswith("#["))
            found.append((it[2], first + 1, end_of(lines, at, it[1]) + 1))
    return found


def around(text, at):
    """The functions that stand around a line."""
    return [it for it in functions(text) if it[1] <= at <= it[2]]


def changed(crate, entry):
    """The functions that a wrong body changes, by path, name and lines; none where it changes something else too, as a constant."""
    found = []
    for file, old, _ in pairs(entry):
        text = source(crate, f"src/{file}.rt")
        inside = around(text, text.count("\n", 0, text.find(old)) + 1)
        if not inside:
            return []
        found += [(f"src/{file}.rt", *it) for it in inside]
    return list(dict.fromkeys(found))


def refusing(crate, entry):
    """The functions by whose clauses a wrong body has to be refused: those of their names that it changes, or that stand in its files, or in
    the crate."""
    names, own = {it.split(":")[0] for it in entry["refused_by"]}, changed(crate, entry)
    sources = [os.path.relpath(it, f"{TOP}/crates/{crate}") for it in sorted(glob.glob(f"{TOP}/crates/{crate}/src/**/*.rt", recursive=True))]
    in_files = [f"src/{file}.rt" for file, _, _ in pairs(entry)]
    for name in sorted(names):
        found = [it for it in own if it[1] == name]
        for paths in (in_files, sources):
            found = found or [(path, *it) for path in dict.fromkeys(paths) for it in functions(source(crate, path)) if it[0] == name]
        yield name, found


def text_of(crate, function):
    path, _, first, end = function
    return "\n".join(source(crate, path).split("\n")[first - 1:end])


def touched(crate, entry):
    """The functions that a wrong body changes, and those that have to refuse it."""
    return {*changed(crate, entry), *(it for _, found in refusing(crate, entry) for it in found)}


def sum_of(crate, entry):
    """A short sum of a wrong body, and of the present text of these functions."""
    texts = sorted(text_of(crate, it) for it in touched(crate, entry))
    return hashlib.sha256(repr((pairs(entry), texts)).encode()).hexdigest()[:10]


def misfit(crate, entry):
    """What of a wrong body doesn't fit the sources, or nothing."""
    if crate not in LINES or any(source(crate, f"src/{file}.rt") is None for file, _, _ in pairs(entry)):
        return "there is no such file"
    if edited(crate, [entry]) is None:
        return "its old text doesn't stand there once"
    for name, found in refusing(crate, entry):
        clauses = {clause for it in found for clause in ENSURES.findall(text_of(crate, it))}
        wanted = {it.partition(": ")[2] for it in entry["refused_by"] if it.split(":")[0] == name}
        # Those of a trait's function stand at the trait.
        if not found or clauses and wanted - clauses:
            return f"there is no {name} with such a clause"
    return None


def results():
    """What was said last of each wrong body, by crate and name, with the sum of what it is of."""
    lines = read(LOG).splitlines() if os.path.exists(LOG) else []
    matched = (re.match(r"(\w+/\w+) (\w+): (.*)", it) for it in lines)
    return {it[1]: (it[2], it[3]) for it in matched if it}


def is_refused(entry, said):
    """Whether what was said of a wrong body has the clauses that have to refuse it. A goal that has all clauses of a function isn't told apart."""
    clauses = said.removeprefix(REFUSED).split(", ") if said.startswith(REFUSED) else []
    return all(it in clauses or it.split(":")[0] in clauses for it in entry["refused_by"])


def lacking(crate):
    """The wrong bodies of a crate that weren't refused as they are now, as far as the log tells."""
    found = results()
    said = {it["name"]: found.get(f"{crate}/{it['name']}", ("", "")) for it in wrong_bodies()[crate]}
    return [it for it in wrong_bodies()[crate]
            if misfit(crate, it) or said[it["name"]][0] != sum_of(crate, it) or not is_refused(it, said[it["name"]][1])]


def misfits(crate):
    """A line for each wrong body of a crate that doesn't fit, or whose name another has."""
    names = [it["name"] for it in wrong_bodies()[crate]]
    for it in wrong_bodies()[crate]:
        if why := misfit(crate, it) or names.count(it["name"]) > 1 and "another has its name":
            yield f"mutants/{crate}.toml: {it['name']}: {why}"


def faults():
    """What is wrong with the tables of wrong bodies: a line each. Those that weren't refused yet as they are now are tried by `tools/mutants --lacking`."""
    if (count := sum(map(len, wrong_bodies().values()))) > MOST:
        yield f"mutants has {count} wrong bodies, and {MOST} are the most"
    for crate in wrong_bodies():
        yield from misfits(crate)
