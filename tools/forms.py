#!/usr/bin/env python3
"""Counts the places of src/ where an older form stands, by the points of docs/DESIGN-PASS.md.

forms.py [TOP]      a line for each point, with how many places it has
forms.py -v [TOP]   the places too

A place is not a fault: that page says which of them stay, and why."""
import collections
import pathlib
import re
import sys

sys.path.insert(0, str(pathlib.Path(__file__).resolve().parent.parent / "tests"))
from source import blanked, closing, functions  # noqa: E402

KEYWORDS = set(
    "fn let mut if else match return while for in loop pub crate self Self as true false impl struct enum use const break continue ref move where".split()
)
# what a case is called that stands for a refusal or for nothing
REFUSALS = re.compile(
    r"(Bad[A-Z]\w*|Refused|Unknown|Nothing|No|None|Fault|Faulty|Unread|Unreadable|PastLast|NoRoom|NoPacket|NoRequest|WrongLength|Stopped|Stop"
    r"|InVain|Unsound|NotBegun|GaveUp|TooLong)\b"
)
# a function's words are alike from so many on; fewer are too short to tell
SHORTEST = 18


def shape(body):
    """The words of a body, with names, numbers and texts in the order in which they first come."""
    names, out = {}, []
    for word in re.findall(r'"[^"]*"|[A-Za-z_]\w*|\d\w*|\S', body):
        if word in KEYWORDS:
            out.append(word)
        elif word[0].isdigit():
            out.append("0")
        elif word[0].isalpha() or word[0] == "_":
            out.append(names.setdefault(word, len(names)))
        else:
            out.append(word)
    return tuple(out)


def parameters(held):
    """The parameters of a function as it writes them, `self` left out."""
    out, depth = [""], 0
    for k, c in enumerate(held):
        depth += (c in "([{<") - (c in ")]}" or c == ">" and held[k - 1] != "-")
        if c == "," and depth == 0:
            out.append("")
        else:
            out[-1] += c
    return [re.sub(r"\s+|<'\w+>|'\w+ ", " ", p).strip() for p in out if ":" in p]


class Found:
    """The places of each point."""

    def __init__(self):
        self.places = collections.OrderedDict()

    def add(self, point, place):
        self.places.setdefault(point, []).append(place)


def look(top):
    found = Found()
    # the error enum of a Result is today's form, and no place
    errors = {name for path in top.glob("crates/*/src/*.rt") for name in re.findall(r"Result<.*?, (\w+)>", path.read_text())}
    shapes, clauses, pairs = (collections.defaultdict(list) for _ in range(3))
    for path in sorted(top.glob("crates/*/src/*.rt")):
        crate = path.parts[-3]
        if path.name == "tables.rt" or crate == "exports_c":
            continue
        name = f"{crate}/src/{path.name}"
        source = path.read_text()
        text = blanked(source)
        lines = text.split("\n")
        for m in re.finditer(r"\benum\s+(\w+)[^{]*\{", text):
            body = text[m.end() : closing(text, m.end() - 1)]
            cases = [c for c in re.findall(r"^    (\w+)\b", body, re.M) if REFUSALS.fullmatch(c)]
            if cases and m.group(1) not in errors:
                found.add("1 enums with a case for a refusal or for nothing", f"{name}: {m.group(1)} ({', '.join(cases)})")
        for i, line in enumerate(lines, 1):
            if re.search(r"usize::MAX|\bisize\b|\bNONE\b|\bNO_SUM\b", line) and "const" not in line:
                found.add("1 numbers that stand for nothing or for a refusal", f"{name}:{i}")
            if re.match(r"\s*(while|loop)\b", line):
                found.add("3 loops that count by hand", f"{name}:{i}")
            if re.search(r"(number|code)\([^()]*\)\s*==\s*[\w:]*(number|code)\(", line):
                found.add("4 equality by numbers", f"{name}:{i}")
            if re.search(r"\bio::count\(", line):
                found.add("6 a room cut by a length beside it", f"{name}:{i}")
        for m in re.finditer(r"\bstruct\s+(\w+)[^{;]*\{", text):
            body = text[m.end() : closing(text, m.end() - 1)]
            if re.search(r": \[", body) and re.search(r"^\s*(?:pub(?:\([^)]*\))? )?(count|held|\w*lent|length|size|answered): ", body, re.M):
                found.add("6 structs of arrays with a length beside", f"{name}: {m.group(1)}")
        for m in re.finditer(r"\bmatch\s+[^{]*\{", text):
            body = text[m.end() : closing(text, m.end() - 1)]
            arms = re.findall(r"=>\s*([^,\n]*)", body)
            calls = [a for a in arms if re.match(r"(?:\w+::)*\w+\(.*", a) and not re.match(r"[A-Z]\w*::[A-Z]", a)]
            if len(calls) >= 4:
                found.add("7 switches on which step to run", f"{name}:{text.count(chr(10), 0, m.start()) + 1}")
        for f in functions(text):
            place = f"{name}: {f.name}"
            body = source[f.body[0] : f.body[1]]
            body = re.sub(r"//[^\n]*", "", body)
            body = re.sub(r'b?"(?:\\.|[^"\\])*"', '"t"', body)
            words = shape(body)
            if len(words) >= SHORTEST:
                shapes[words].append(place)
            if re.search(r"_(number|code|byte)$", f.name) and re.search(r"\bmatch\b", body):
                found.add("4 conversions by hand", place)
            for clause in f.requires:
                for part in re.split(r" × ", clause):
                    part = re.sub(r"\.(now|old|new|entry)\b", "", part).strip(" ()")
                    clauses[crate, part].append(place)
            held = sorted(set(parameters(f.held)))
            for i, a in enumerate(held):
                for b in held[i + 1 :]:
                    pairs[crate, a, b].append(place)
    for group in shapes.values():
        if len(group) > 1:
            found.add("2 functions alike but for names, types and numbers", "; ".join(group))
    for (crate, clause), group in clauses.items():
        if len(set(group)) >= 3:
            found.add("5 facts in three contracts or more", f"{crate}: {clause} ({len(set(group))})")
    for (crate, a, b), group in pairs.items():
        if len(set(group)) >= 5:
            found.add("5 parameters that travel together", f"{crate}: {a} | {b} ({len(set(group))})")
    answers = list(top.glob("crates/*/proofs/*/Answers.antt")) + list(top.glob("crates/*/proofs/*/*/Answers.antt"))
    for path in sorted(answers):
        found.add("8 files of answers", "/".join(path.parts[len(top.parts) + 1 :]))
    return found


def main():
    words = [w for w in sys.argv[1:] if w != "-v"]
    top = pathlib.Path(words[0] if words else pathlib.Path(__file__).resolve().parent.parent)
    places = look(top).places
    for point in sorted(places):
        print(f"{point}: {len(places[point])}")
        if "-v" in sys.argv:
            for place in places[point]:
                print(f"    {place}")


main()
