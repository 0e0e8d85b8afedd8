"""The must-fail edits of a crate: what each file claims, and which function or definition each claim breaks.

A file with one claim says it in its comment, and the file's name is the claim's label. A file with several has a line in front of each,
    # LABEL (FUNCTION): what holds, and is broken by what follows
or the name of the definition that it edits in the function's place; then `file:`, `old:` and `new:` as `rt must-fail` takes them. One check of the crate
then tries them all. So of code each breaks another function, within its body or in a constant that no other of them names."""
import collections
import re

from source import Fault, blanked, constants, functions, methods

# `breaks` is the function or definition as a claim of several names it, and `pairs` are its replacements: [(file, old, new), ..]
Claim = collections.namedtuple("Claim", "label breaks words pairs")
# `where` is 'body', 'head' (with the contract), 'constant' or None, and `names` are the functions that it touches, as a log names them
Place = collections.namedtuple("Place", "where names")

NAMED = re.compile(r"# (\w+) \(([^\s()]+)\): (\S.*)")


def claims(text, name):
    """The claims of a file of edits, which is called `name`."""
    lines = text.split("\n")
    several = any(NAMED.fullmatch(line) for line in lines)
    out, file, old = [] if several else [Claim(name, None, [], [])], None, None
    for line in lines:
        named = NAMED.fullmatch(line)
        if named:
            out.append(Claim(named.group(1), named.group(2), [named.group(3)], []))
            file = None
        elif line.startswith("# ") and out:
            out[-1].words.append(line[2:])
        elif line.startswith("file: "):
            file = line[6:]
        elif line.startswith("old: "):
            old = line[5:]
        elif line.startswith("new:"):
            if not (out and file and old):
                raise Fault("a 'new:' with no claim, no 'file:' or no 'old:' of its own")
            out[-1].pairs.append((file, old, line[4:].removeprefix(" ")))
            old = None
        elif line:
            raise Fault(f"a line that is none of an edit: {line}")
    for claim in out:
        if not claim.words or not claim.pairs:
            raise Fault(f"the claim {claim.label} has no words or no 'old:' and 'new:'")
    if several and len(out) == 1:
        raise Fault("a file of one claim has its name for a label")
    if len({claim.label for claim in out}) < len(out):
        raise Fault("two claims have one label")
    return out


def module(path):
    """The modules that a source file is, from the crate's root."""
    parts = path.removeprefix("src/").removesuffix(".rt").split("/")
    return [] if parts in (["lib"], ["main"]) else parts[:-1] if parts[-1] == "mod" else parts


def held(crate, files):
    """(path, from, body, to, whole name) of each function of a crate, whose files are {path: text}. A method goes by the module of its type."""
    sources = {path: blanked(text) for path, text in files.items() if path.startswith("src/")}
    types = {name: module(path) for path, text in sources.items() for name in re.findall(r"\b(?:struct|enum)\s+(\w+)", text)}
    out = []
    for path, text in sources.items():
        blocks = list(methods(text))
        for function in functions(text):
            owner = next((name for name, start, end in blocks if start < function.head < end), None)
            parts = types.get(owner, module(path)) + [owner] if owner else module(path)
            out.append((path, function.head, *function.body, "::".join([crate, *parts, function.name])))
    return out


def naming(crate, files, constant):
    """The functions that name a constant, straight or through other constants."""
    wanted, sources = {constant}, {path: blanked(text) for path, text in files.items() if path.startswith("src/")}
    others = [(name, text[start:end]) for text in sources.values() for name, start, end in constants(text)]
    while True:
        word = re.compile(rf"\b(?:{'|'.join(wanted)})\b")
        more = {name for name, text in others if word.search(text)} - wanted
        if not more:
            return {name for path, start, _, end, name in held(crate, files) if word.search(sources[path][start:end])}
        wanted |= more


def place(crate, files, path, old):
    """The Place of a text of a source file, which has to stand there once."""
    text = files.get(path)
    if text is None or text.count(old) != 1:
        raise Fault(f"not once in {path}: {old}")
    first = text.index(old) + len(old) - len(old.lstrip())
    last = text.index(old) + len(old.rstrip()) - 1
    for where, start, body, end, name in held(crate, files):
        if where == path and start <= first and last < end:
            return Place("body" if body <= first else "head", {name})
    for name, start, end in constants(blanked(text)):
        if start <= first and last < end:
            return Place("constant", naming(crate, files, name))
    return Place(None, set())


def tried(crate, files, told):
    """What becomes of a crate's files with every claim of a file of edits, and each claim with the Places of its source texts, or None for
    those of specs/ and proofs/."""
    files, places = dict(files), []
    for claim in told:
        at = []
        for path, old, new in claim.pairs:
            at.append(place(crate, files, path, old) if path.startswith("src/") else None)
            if files.get(path, "").count(old) != 1:
                raise Fault(f"not once in {path}: {old}")
            files[path] = files[path].replace(old, new)
        places.append(at)
    return files, places
