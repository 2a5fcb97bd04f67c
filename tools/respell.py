#!/usr/bin/env python3
"""Brings the repository's own definitions and lemmas to today's spelling: words in snake case, types and modules in camel case.

usage: python3 tools/respell.py         in the repository, once, after the toolchain's port.py
       python3 tools/respell.py --list  prints the names, old and new, and writes nothing

A name is respelled where a file of specs/ or proofs/ of some crate defines it (a definition, a lemma, a label, a case or a local name) and it begins with a
small letter: each capital inside becomes an underscore and a small letter, and a dash an underscore, but for a dash beside a type's name or a sign, which
stays, as in `Filled-none`. What the toolchain makes (the names of goals, invariants and measures in proofs/FUNCTION/Proof.antt) is left alone, and so are
the names of the library, of functions of src/, of files, edits and crates. The pages and the edits are respelled with the rest, the pages between backticks
and in indented text alone.
"""
import re
import sys
from pathlib import Path

TOP = Path(__file__).resolve().parent.parent
# what may not stand in a name of antt
TOKEN = re.compile(r"[^\s(){}\[\].,;:`\"@|/?!<>=≔∷+*&]+")
DEFINED = re.compile(r"^[ ]*(?:(?:pub|abbrev|unfoldable|pattern)\s+)*((?:[^\s(){}\[\].,;:`\"@|]+\s+)*?[^\s(){}\[\].,;:`\"@|]+)(?:\s*\{[^{}:=]*\})?\s+:\s", re.M)
LOCAL = re.compile(r"(?:\blet\s+|λ\s*\(?)([^\s(){}\[\].,;:`\"@|]+)")
WORDS = {"pub", "abbrev", "unfoldable", "pattern", "data", "record", "module", "where", "use", "let", "in", "unfolding", "mod"}
MADE = re.compile(r"^(?:Need|invariant|decreases|In|At|After|Then|Else)-|^μ")


def antt_files():
    return [f for f in sorted(TOP.glob("crates/*/*/**/*.antt")) if "out" not in f.parts]


def bare(text):
    """The text without its comments."""
    return re.sub(r"--.*", "", text)


def goals():
    """The names of goals, which the toolchain makes."""
    found = set()
    for f in TOP.glob("crates/*/proofs/**/Proof.antt"):
        text = f.read_text()
        found |= set(re.findall(r"Need-([^\s().]+)", text))
        found |= {n for n in re.findall(r"^([^\s().:]+) : tie\.", text, re.M)}
    return found


def names():
    """Every name that a file of specs/ or proofs/ defines."""
    found = set()
    for f in antt_files():
        text = bare(f.read_text())
        for line in DEFINED.findall(text):
            found |= set(line.split())
        for group in re.findall(r"[({]((?:[^\s(){}\[\].,;:]+ )+): ", text):
            found |= set(group.split())
        found |= set(LOCAL.findall(text))
    return found - WORDS - brought()


def brought():
    """The names that a file brings from the library."""
    own = {f.name for f in (TOP / "crates").iterdir()}
    found = set()
    for f in antt_files() + sorted(TOP.glob("crates/*/src/**/*.rt")):
        for path, group in re.findall(r"\buse\s+([^\s{};]+)\.\{([^}]*)\}", f.read_text()):
            words = path.split(".")
            if words[0] != "Rattle" or words[1] not in own:
                found |= {name.split(" as ")[0].strip() for name in group.split(",")}
    return found


def snake(name):
    """The name in today's spelling."""
    parts = name.split("-")
    out = []
    for part in parts:
        part = re.sub(r"(?<=[a-z0-9₀-₉])([A-Z])(?=[a-z]|$|[^A-Za-z])", lambda m: "_" + m[1].lower(), part) if part[:1].islower() else part
        part = re.sub(r"(?<=[a-z0-9₀-₉])([A-Z]+)(?![a-z])", lambda m: "_" + m[1].lower(), part) if part[:1].islower() else part
        out.append(part)
    text = out[0]
    for before, after in zip(out, out[1:]):
        plain = before[-1:].isalnum() and before[:1].islower() and (after[:1].islower() or after[:1].isdigit())
        text += ("_" if plain else "-") + after
    return text.replace("′", "'")


def respelling():
    made = goals()
    turned = {}
    for name in sorted(names()):
        if not TOKEN.fullmatch(name) or not name[:1].isalpha() or not name[:1].islower() or MADE.match(name) or name in made or not re.search(r"[a-z]", name):
            continue
        new = snake(name)
        if new != name:
            turned[name] = new
    return parted(turned)


def parted(turned):
    """Where names fall together, the definition has the plain name, and a lemma named after it ends in _lem."""
    known, defined = names(), stated()
    there = {}
    for old, new in turned.items():
        there.setdefault(new, []).append(old)
    for new, olds in there.items():
        olds += [new] if new in known else []
        if len(olds) == 1:
            continue
        first = [n for n in olds if n in defined] or [n for n in olds if "-" not in n and n != new] or [n for n in olds if "-" not in n]
        if len(first) != 1:
            print("by hand:", new, olds, first)
        for n in olds:
            if n != first[0]:
                turned[n] = new + "_lem"
    return turned


def stated():
    """The names that a file of specs/ defines."""
    found = set()
    for f in TOP.glob("crates/*/specs/**/*.antt"):
        for line in DEFINED.findall(bare(f.read_text())):
            found |= set(line.split())
    return found


def pages(text, turn):
    """A page: what stands between backticks, in fenced and in indented text."""
    out, fenced = [], False
    for line in text.split("\n"):
        if line.startswith("```"):
            fenced = not fenced
            out.append(line)
        elif fenced or line.startswith("    "):
            out.append(turn(line))
        else:
            # what is said to be gone keeps the name that it had
            out.append(re.sub(r"~~.*?~~|`[^`]+`", lambda m: m[0] if m[0].startswith("~~") else turn(m[0]), line))
    return "\n".join(out)


def main():
    turned = respelling()
    if "--list" in sys.argv:
        for old, new in sorted(turned.items()):
            print(old, new)
        return
    edits = {f.stem for f in TOP.glob("crates/*/must-fail/*.edit")}
    # a name that was in snake case may be a function's of src/ as well: such a one is left alone there, and in paths
    shared = {old for old in turned if "-" not in old and old == old.lower()}

    def turn(text, source=False):
        def one(m):
            if m[0] in shared and (source or m.string[m.start() - 1 : m.start()] == "."):
                return m[0]
            return turned.get(m[0], m[0])

        return TOKEN.sub(one, text)

    known = (names() - set(turned)) | set(turned.values())

    def turn_loose(text):
        """A page or an edit: what the toolchain's script respelled in the crates is respelled here too."""

        def one(m):
            word = m[0]
            if word in edits | shared | known or not word[:1].islower():
                return word
            return turned.get(word) or (snake(word) if snake(word) in known else word)

        return TOKEN.sub(one, text)

    for f in antt_files() + sorted(TOP.glob("crates/*/src/**/*.rt")) + sorted(TOP.glob("crates/*/must-fail/*.edit")):
        text = f.read_text()
        new = turn_loose(text) if f.suffix == ".edit" else turn(text, f.suffix == ".rt")
        if new != text:
            f.write_text(new)
    for f in [TOP / "README.md", *sorted(TOP.glob("docs/*.md")), *sorted(TOP.glob("docs/landings/*.md"))]:
        text = f.read_text()
        new = pages(text, turn_loose)
        if new != text:
            f.write_text(new)


main()
