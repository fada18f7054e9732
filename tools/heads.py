"""Parses the heads of functions and blocks, and the exports of a library, in the proved sources.

`tests/proof/specification` and `tools/promises` use it to find the public functions. A head in an unknown form raises
`Unread`, so no function is overlooked.
"""
import re

FUNCTION = re.compile(r'( *)(pub(?:\([^)]*\))? )?(?:(?:final|const|unsafe|async|extern "C") )*fn (\w+)')
BLOCK = re.compile(r"(pub(?:\([^)]*\))? )?(?:unsafe )?(impl|trait)\b *")
EXPORT = re.compile(r"pub use (?:\w+::)+(\{[\w\s,]*\}|\w+);")
# Everything else that lib.rt can contain.
OTHER = re.compile(r"pub mod (\w+);|(?:ghost )?(?:use|mod) [^;]*;|#!?\[[^\]]*\]|//[^\n]*|\s")


class Unread(Exception):
    """A line in an unknown form."""


def function(line):
    """Returns the indent, the visibility and the name of the function whose head starts in a line, or None."""
    if found := FUNCTION.match(line):
        return found[1], found[2] or "", found[3]
    if re.search(r"\bfn [a-z_]\w* *[(<]", re.sub(r'//.*|"[^"]*"', "", line)):
        raise Unread(f"unknown form of a function: {line.strip()}")
    return None


def split(text):
    """Splits a text at spaces outside of `<..>`. The `>` of an arrow does not close a bracket."""
    depth, found = 0, [""]
    for at, sign in enumerate(text):
        depth += (sign == "<") - (sign == ">" and text[at - 1] not in "-=")
        if sign == " " and not depth:
            found.append("")
        else:
            found[-1] += sign
    return [it for it in found if it]


def owner(line):
    """Returns the owner of the block that starts in a line, and whether its functions are as public as it, or None."""
    found = BLOCK.match(line)
    if not found:
        return None
    head = split(line[found.end() :])
    if not head or head[-1] not in ("{", "{}"):
        raise Unread(f"head with several lines: {line}")
    if found[2] == "trait":
        return re.match(r"\w+", head[0])[0], found[1] == "pub "
    words = [it for it in head[:-1] if not it.startswith("<")]
    kind = words[-1] if len(words) in (1, 3) and words[-2:-1] in ([], ["for"]) else ""
    name = re.fullmatch(r"(?:\w+::)*(\w+)(?:<.*>)?", kind)
    if not name:
        raise Unread(f"unknown form of a head: {line}")
    return name[1], len(words) == 3


def paths_of(tree, before=""):
    """Yields the full paths of an import: `a.b` and `a.c as d` for `a.{b, c as d}`."""
    depth, part = 0, ""
    for sign in f"{tree},":
        depth += {"{": 1, "}": -1}.get(sign, 0)
        if sign != "," or depth:
            part += sign
            continue
        head, opened, inside = part.strip().partition("{")
        if opened:
            yield from paths_of(inside.rpartition("}")[0], before + head)
        elif head:
            yield before + head
        part = ""


def exports(text):
    names, modules, at = set(), set(), 0
    while at < len(text):
        if found := EXPORT.match(text, at):
            names.update(re.findall(r"\w+", found[1]))
        elif found := OTHER.match(text, at):
            modules.update(filter(None, [found[1]]))
        elif text.startswith("pub ", at):
            raise Unread(f"unknown form of an export in lib.rt: {text[at:].splitlines()[0]}")
        else:
            found = re.compile(r"[^\n]*\n?").match(text, at)
        at = found.end()
    return names, modules
