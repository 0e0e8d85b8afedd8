"""What a declaration of a crate's definitions and proofs rests on, and what the proof of a function does, read off the words of their texts.

A word stands for every declaration that it can name where it stands: one of its own file, or one that a `use` line of its file brings. A variable of
that name counts too, so that what is found may be too much and is never too little. The fields of a record are not followed, since whatever
has one names the record or rests on what does. Of a function a proof sees the contract, and its code where it is the function's own.

A declaration is (file, name), a contract ('contract', FUNCTION), as a log names the function."""
import re

from source import blanked, functions

WORD = re.compile(r"[^\s(){}\[\],;.:`\"]+")
LEADING = {"pub", "abbrev", "unfoldable", "opaque", "private", "record", "data"}
USE = re.compile(r"^(?:ghost )?use\s+([^\s{;]+?)(?:\.\{([^}]*)\})?(?:\s+as\s+(\S+?))?;?$", re.M)


def words(text):
    return set(WORD.findall(text))


def stripped(text):
    return re.sub(r"--.*", "", text)


def declared(text):
    """{name: [(from, to), ..]} of the declarations of a file, and {constructor: name}. What a block of parameters says belongs to each within."""
    out, owners, blocks, last, at = {}, {}, [], None, 0
    for line in text.split("\n"):
        start, at = at, at + len(line) + 1
        code = stripped(line)
        if not code.strip():
            continue
        indent = len(code) - len(code.lstrip())
        while blocks and indent <= blocks[-1][0]:
            blocks.pop()
            last = None
        own = blocks[-1][1] if blocks else 0
        if own is None:  # the first line within a block says how deep it is, or goes on with its parameters
            if blocks[-1][3]:
                blocks[-1] = (blocks[-1][0], indent, blocks[-1][2], True)
                own = indent
            else:
                blocks[-1][2].append((start, at))
                blocks[-1] = (*blocks[-1][:3], bool(re.search(r"\bwhere\s*$", code)))
                continue
        parts = code.split()
        if indent == own and parts[0] == "module":
            blocks.append((indent, None, [(start, at)], bool(re.search(r"\bwhere\s*$", code))))
            last = None
            continue
        if indent == own and parts[0] not in ("use", "mod", "unfolding", "}") and parts[:2] != ["pub", "mod"]:
            plain = [part for part in parts if part not in LEADING]
            new = plain and (len(plain) < len(parts) or plain[1:2] == [":"] or plain[0] in out)
            if new:
                last = plain[0]
                out.setdefault(last, []).extend(part for _, _, held, _ in blocks for part in held)
        elif indent == own and parts[0] in ("use", "mod", "pub"):
            last = None
        if last is not None:
            out[last].append((start, at))
            made = re.match(r"\s+(\S+)\s*:", code)
            if made and indent > own:
                owners.setdefault(made.group(1), last)
    return out, owners


class Crate:
    """A crate's files, {path: text}; `held` are its functions as tests/edits.py finds them: (path, from, body, to, whole name)."""

    def __init__(self, name, files, held):
        self.name, self.files, self.held = name, files, held
        self.antt = {path: text for path, text in files.items() if path.endswith(".antt")}
        self.parts = {path: declared(text) for path, text in self.antt.items()}
        self.names = {path: self.brought(text) for path, text in files.items()}
        self.contracts, self.calls = {}, {}
        for path, start, body, end, whole in held:
            text = files[path]
            self.contracts[whole] = (path, text[start:body])
            self.calls[whole] = set(re.findall(r"\b(\w+)\s*\(", blanked(text)[body:end]))
        self.simple = {}
        for whole in self.contracts:
            self.simple.setdefault(whole.split("::")[-1], set()).add(whole)
        self.found = {}

    def file(self, module):
        """What a module of this crate is: a file of its definitions or proofs, or the functions that its name leads to; None of another crate's."""
        own = re.fullmatch(rf"Rattle\.{re.escape(self.name)}\.(specs|proofs)(?:\.(.*))?", module)
        if not own:
            return None
        parts = (own.group(2) or "Lib").split(".")
        path = f"{own.group(1)}/{'/'.join(parts)}.antt"
        return path if path in self.files else parts

    def brought(self, text):
        """{word: [(module, name or None for all of it)]} of what the `use` lines of a file bring."""
        out = {}
        for module, names, alias in USE.findall(text):
            for name in filter(None, (name.strip() for name in names.split(","))):
                name, _, other = name.partition(" as ")
                out.setdefault((other or name).strip(), []).append((module, name.strip()))
            if not names:
                out.setdefault(alias or module.split(".")[-1], []).append((module, None))
        return out

    def meant(self, path, word):
        """The declarations and contracts that a word can name in a file."""
        out = set()
        if path in self.parts:
            names, owners = self.parts[path]
            for name in {word, owners.get(word)} & set(names):
                out.add((path, name))
        for module, name in self.names.get(path, {}).get(word, ()):
            file = self.file(module)
            if isinstance(file, list):
                out |= {("contract", whole) for part in file for whole in self.simple.get(part, ())}
            elif file:
                names, owners = self.parts[file]
                out |= {(file, each) for each in ({name, owners.get(name)} & set(names) if name else names)}
        return out

    def own(self, path):
        """The function whose proof a file is, if it is one."""
        return next((whole for whole in self.contracts if path.rpartition("/")[0] == "proofs/" + "/".join(whole.split("::")[1:])), None)

    def stated(self, function):
        """What the proof of a function is about: its contract and the contracts of what it calls."""
        called = {whole for name in self.calls.get(function, ()) for whole in self.simple.get(name, ())}
        return {("contract", whole) for whole in called | {function}}

    def proof(self, function):
        """That, and the proof's own declarations."""
        return self.stated(function) | {(path, name) for path in self.parts if self.own(path) == function for name in self.parts[path][0]}

    def straight(self, node):
        if node[0] == "contract":
            path, text = self.contracts[node[1]]
            return {each for word in words(text) for each in self.meant(path, word)}
        path, name = node
        spans = self.parts.get(path, ({}, {}))[0].get(name, [])
        text = stripped("".join(self.antt[path][start:end] for start, end in spans))
        out = {each for word in words(text) for each in self.meant(path, word)}
        function = self.own(path)
        return out | self.stated(function) if function else out

    def rests(self, nodes):
        """All that some declarations and contracts rest on, they themselves among it."""
        seen, left = set(), list(nodes)
        while left:
            node = left.pop()
            if node not in seen:
                seen.add(node)
                if node not in self.found:
                    self.found[node] = self.straight(node)
                left += self.found[node]
        return seen

    def at(self, path, old):
        """The declaration that a text of a file of definitions stands in, or None for one that stands in none (a `use` line, a comment)."""
        first = self.antt[path].index(old) + len(old) - len(old.lstrip())
        for name, spans in self.parts[path][0].items():
            if any(start <= first < end for start, end in spans) and not stripped(old).isspace() and stripped(old):
                return path, name
        return None
