#!/usr/bin/env python3
"""Brings the repository's own definitions and lemmas to today's spelling; run once, at the top, on what port.py made.

Words go to snake case (`checksumOf` and `fold-append` become `checksum_of` and `fold_append`), a relation `X·Is` becomes `IsX`, and
`X·Out` becomes `XOut`. Functions of src/, exported names, strings, inputs and outputs keep their names. A name that two would share is
told, and nothing is written.
"""
import glob
import re
import subprocess
import sys

DECLARED = re.compile(r"^(?:unfoldable |abbrev )?(?:pub )?(?:(?:record|data) )?([^\s(){}\[\],;.:]+)(?: [^:\n]*)? :", re.M)
FIELD = re.compile(r"^  (?:pub )?([^\s(){}\[\],;.:]+) :", re.M)
TOKEN = re.compile(r"[^\s(){}\[\],;.`]+")
USE = re.compile(r"^(?:ghost )?use (\S+?)\.\{([^}]*)\}", re.M)
# what the proof of a function calls its goals: these follow the code, and not this script
GOAL = re.compile(r"^(?:abbrev )?(?:pub )?([^\s(){}\[\],;.:]+) : (?:tie|goal)\.", re.M)
# lemmas that would have their function's name
LEMMAS = set("""
    all-bytes all-refused answer-said beside-says bit-xor blank-outside by-stand bytes-at contents-said count-says crc-place first-of
    from-opener in-bank in-mode in-write lent-good line-bytes mode-ended none-received own-result packet-says place-says plan-number
    read-control read-write request-made request-says response-says six-in slots-taken step-says table-end take-says text-read upper-at
    word-bytes wrong_answer
""".split())
# fields and constructors that would have the name of a word that they cite
CITING = {"is-in": "it_is_in", "next-body": "next_body_is", "no-request": "no_request_is"}


def spelt(name):
    """A name in today's spelling, or itself."""
    if name in CITING:
        return CITING[name]
    if name in LEMMAS:
        return name.replace("-", "_") + "_lem"
    if name.endswith(("·Is", "-as-Is")):
        stem = re.sub(r"(·|-as-)Is$", "", name)
        return stem if re.match(r"Is[A-Z]", stem) else "Is" + stem
    if name.endswith("·Out"):
        return name[:-4] + "Out"
    if not re.match(r"^[a-z][A-Za-z0-9_'₀-₉-]*$", name):
        return name
    words = re.sub(r"(?<=[a-z0-9'])([A-Z])", lambda m: "_" + m[1].lower(), name)
    words = re.sub(r"([A-Z])", lambda m: m[1].lower(), words)
    return words.replace("-", "_")


def imported(text, own):
    """What a file's `use` lines bring, by name: whether it is the repository's own."""
    brought = {}
    for module, names in USE.findall(text):
        parts = module.split(".")
        mine = parts[0] == "Rattle" and len(parts) > 1 and parts[1] in own
        for name in names.split(","):
            words = name.split()
            if words:
                brought.setdefault(words[0], mine)
                if len(words) == 3:
                    brought.setdefault(words[2], mine)
    return brought


def moved():
    """The compiler now makes a module `specs.contracts` of each crate, so `demands/specs/Contracts.antt` takes the word for what contracts do."""
    subprocess.run(["git", "mv", "crates/demands/specs/Contracts.antt", "crates/demands/specs/Allowed.antt"], check=True)
    said = [("Rattle.demands.specs.Contracts", "Rattle.demands.specs.Allowed"), ("demands/specs/Contracts.antt", "demands/specs/Allowed.antt")]
    for path in subprocess.run(["git", "ls-files", "*.md", "*.antt"], capture_output=True, text=True, check=True).stdout.split():
        text = new = open(path, encoding="utf-8").read()
        for old, now in said:
            new = new.replace(old, now)
        if path == "crates/demands/specs/Lib.antt":
            new = re.sub(r"^pub mod Contracts$", "pub mod Allowed", new, flags=re.M)
        if new != text:
            open(path, "w", encoding="utf-8").write(new)


def hex_text():
    """The toolchain has a library named hex, so the crate `hex` is called `hex_text`. docs/CHANGES.md speaks of its own day and keeps the old name."""
    subprocess.run(["git", "mv", "crates/hex", "crates/hex_text"], check=True)
    for path in subprocess.run(["git", "ls-files", "crates.txt", "*.rt", "*.antt", "*.edit", "*.md"], capture_output=True, text=True, check=True).stdout.split():
        text = new = open(path, encoding="utf-8").read()
        if path == "crates.txt":
            new = re.sub(r"^(?!#)(.*)$", lambda m: re.sub(r"\bhex\b", "hex_text", m[0]), new, flags=re.M)
        elif path.endswith(".md"):
            if path != "docs/CHANGES.md":
                new = re.sub(r"(?<![\w/])hex/(?=src|specs|proofs|must-fail)", "hex_text/", new).replace("`hex`", "`hex_text`")
        else:
            new = re.sub(r"(?<![\w:])hex(?=::)", "hex_text", new).replace("Rattle.hex.", "Rattle.hex_text.")
        if new != text:
            open(path, "w", encoding="utf-8").write(new)


def main():
    own = {path.split("/")[1] for path in glob.glob("crates/*/src")}
    antt = sorted(glob.glob("crates/*/specs/**/*.antt", recursive=True) + glob.glob("crates/*/proofs/**/*.antt", recursive=True))
    rt = sorted(glob.glob("crates/*/src/*.rt"))
    texts = {path: open(path, encoding="utf-8").read() for path in antt + rt}
    declared, fields = {}, set()
    for path in antt:
        goals = set(GOAL.findall(texts[path])) if "/proofs/" in path else set()
        for name in DECLARED.findall(texts[path]):
            if name not in goals and not (path.endswith("Proof.antt") and name.endswith("-spec")):
                declared.setdefault(name, set()).add(path)
        for name in FIELD.findall(texts[path]):
            declared.setdefault(name, set()).add(path)
            fields.add(name)
    # names that only a `use .. as` of this repository gives
    for path in antt + rt:
        for _, names in USE.findall(texts[path]):
            for name in re.findall(r" as (\S+)", names):
                if spelt(name) != name:
                    declared.setdefault(name, set()).add(path)
    turned = {name: spelt(name) for name in declared if spelt(name) != name}
    bad = []
    for name, new in sorted(turned.items()):
        both = [p for p in declared.get(new, ()) if p in declared[name]]
        if both:
            bad.append(f"{name} and {new} in {both[0]}")
    seen = {}
    for name, new in turned.items():
        for other in seen.get(new, []):
            both = declared[other] & declared[name]
            if both:
                bad.append(f"{name} and {other} in {sorted(both)[0]}")
        seen.setdefault(new, []).append(name)
    out = {}
    for path in antt + rt:
        text = texts[path]
        brought = imported(text, own)
        goals = set(GOAL.findall(text)) if path.endswith("Proof.antt") else set()
        kept = {name for name, mine in brought.items() if not mine} | (goals - set(n for n, mine in brought.items() if mine))
        used = set()
        lines = []
        clause = path.endswith(".antt")
        for line in text.split("\n"):
            mark = re.match(r"^(?:ghost )?use (\S+?)\.\{", line)
            if mark and not (mark[1].split(".")[0] == "Rattle" and mark[1].split(".")[1] in own):
                lines.append(line)
                continue
            stop = line.find("--") if path.endswith(".antt") else line.find("//")
            code, said = (line, "") if stop < 0 else (line[:stop], line[stop:])
            within = clause or re.match(r"^\s*(ghost|requires|ensures)\b", code)

            def turn(m, code=code):
                name = m[0]
                before = code[m.start() - 1] if m.start() else ""
                if name not in turned or name in kept:
                    return name
                if before == ".":
                    if code[: m.start()].endswith("tie.") or code[: m.start()].endswith("goal."):
                        return name
                    if name not in fields and not re.match(r"^\s*(ghost )?use ", code) and path.endswith("Proof.antt"):
                        return name
                if "-" in name and not within:
                    return name
                used.add(name)
                return turned[name]

            code = TOKEN.sub(turn, code)
            said = re.sub(r"`([^`]*)`", lambda m: "`" + TOKEN.sub(lambda n: turned.get(n[0], n[0]), m[1]) + "`", said)
            lines.append(code + said)
        out[path] = "\n".join(lines)
        tokens = set(TOKEN.findall(re.sub(r"(--|//).*", "", text)))
        both = {}
        for name in used | {t for t in tokens if t not in turned}:
            both.setdefault(turned.get(name, name), set()).add(name)
        for new, names in sorted(both.items()):
            if len(names) > 1 and new not in fields and not path.endswith((".rt", "Proof.antt")):
                bad.append(f"{path}: {' and '.join(sorted(names))} fall together")
        for name in sorted(used):
            new = turned[name]
            # a field lies in its record, and a definition may be called as the function that it is of
            if new not in fields and new in tokens and turned.get(new, new) == new and not path.endswith((".rt", "Proof.antt")):
                bad.append(f"{path}: {name} falls together with {new}")
    if bad:
        print("\n".join(bad), file=sys.stderr)
        if "--anyway" not in sys.argv:
            return 1
    for path, text in out.items():
        if text != texts[path]:
            open(path, "w", encoding="utf-8").write(text)
    moved()
    hex_text()
    # the pages say the names in backticks
    for path in subprocess.run(["git", "ls-files", "*.md"], capture_output=True, text=True, check=True).stdout.split():
        text = open(path, encoding="utf-8").read()
        new = re.sub(r"`([^`\n]*)`", lambda m: "`" + TOKEN.sub(lambda n: turned.get(n[0], n[0]) if ("·" in n[0] or re.search(r"[a-z][A-Z]", n[0]) or ".antt" in m[1]) else n[0], m[1]) + "`", text)
        if new != text:
            open(path, "w", encoding="utf-8").write(new)
    print(f"{len(turned)} names")
    return 0


if __name__ == "__main__":
    sys.exit(main())
