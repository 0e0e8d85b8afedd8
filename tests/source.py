"""What the checks read of a Rattle source: its functions with their contracts, its blocks of methods and its constants."""
import collections
import re


class Fault(Exception):
    pass


# `head` is where a function's words begin and `body` where its braces stand, (from, to); `held` are its parameters as written, and `generic` those of
# its types and constants
Function = collections.namedtuple("Function", "name public head body held returns requires ensures generic")


def blanked(source):
    """The source with comments and literals blanked out, so that no bracket or word in them counts."""
    pattern = r"""//[^\n]*|/\*.*?\*/|b?"(?:\\.|[^"\\])*"|b?'(?:\\.[^']*|[^'\\])'"""

    def blank(found):
        return found.group(0) if found.group(0) == '"C"' else re.sub(r"[^\n]", " ", found.group(0))

    return re.sub(pattern, blank, source, flags=re.S)


def closing(text, at):
    """The index just past the bracket that closes the one at `at`."""
    pairs = {"(": ")", "{": "}", "[": "]", "<": ">"}
    left, right, depth = text[at], pairs[text[at]], 0
    for i in range(at, len(text)):
        arrow = right == ">" and text[i - 1] == "-"
        if text[i] == left:
            depth += 1
        elif text[i] == right and not arrow:
            depth -= 1
            if depth == 0:
                return i + 1
    raise Fault("brackets do not match")


def functions(text):
    """Each function of a blanked source, in the order of the text."""
    for found in re.finditer(r'(?:\b(pub)(\s*\([^)]*\))?\s+)?(?:(?:const|unsafe)\s+)*(?:extern\s+"C"\s+)?\bfn\s+(\w+)\s*', text):
        at, generic = found.end(), ""
        if text[at] == "<":
            generic = text[at + 1 : closing(text, at) - 1]
            at = closing(text, at)
            at += len(text[at:]) - len(text[at:].lstrip())
        end = closing(text, at)
        held = text[at + 1 : end - 1]
        result = re.match(r"\s*(->\s*(.*?))?\s*(?=\b(?:ghost|requires|ensures|where)\b|\{)", text[end:], re.S)
        at = end + result.end()
        clauses = {"ghost": [], "requires": [], "ensures": []}
        while True:
            clause = re.match(r"\s*(ghost|requires|ensures)\b[^{;]*", text[at:])
            if not clause:
                break
            at += clause.end()
            end = closing(text, at)
            clauses[clause.group(1)].append(text[at + 1 : end - 1].strip())
            at = end
        at = text.index("{", at)
        returns = bool(result.group(1)) and result.group(2).strip() != "()"
        requires = clauses["requires"] + clauses["ghost"]
        name, public = found.group(3), bool(found.group(1)) and not found.group(2)
        yield Function(name, public, found.start(), (at, closing(text, at)), held, returns, requires, clauses["ensures"], generic)


def methods(text):
    """(type, from, to) of each block of methods of a blanked source. A trait's are called as a log calls them, `U8FromBank` for `From<Bank> for u8`."""
    # a parameter's type, as `&impl Env`, begins no line
    for found in re.finditer(r"(?m)^[ \t]*impl\b\s*(?:<[^>]*>)?\s*(?:(?:\w+::)*(\w+)(?:<(\w+)>)?\s+for\s+)?(\w+)[^{;]*", text):
        trait, other, name = found.groups("")
        yield "".join(word[:1].upper() + word[1:] for word in (name, trait, other)), found.start(), closing(text, found.end())


def constants(text):
    """(name, from, to) of each constant of a blanked source. A const parameter, which stands behind `<` or a comma, is none."""
    for found in re.finditer(r"(?<![<,])(?<![<,]\s)(?:\bpub(?:\s*\([^)]*\))?\s+)?\bconst\s+(\w+)\s*:", text):
        at = found.end()
        while text[at] != ";":
            at = closing(text, at) if text[at] in "([{" else at + 1
        yield found.group(1), found.start(), at + 1
