#!/usr/bin/env python3
"""Spells the repository's own names as today's Rattle does.

usage: python3 tools/respell.py [--check]      at the top of the repository

A definition, lemma, field or case that crates/NAME/specs or crates/NAME/proofs declares with a dash gets
underscores, as text_line for text-line; a type or a fact gets camel case, as WellWritten for Well-written.
It turns the files that declare such a name, and those that import it from a crate of this repository: the
code of .antt files, and of .rt files the clauses and 'ghost use' lines, names quoted there too. Comments, strings, names of the
library and labels that Rattle makes (what stands behind 'goal.', 'c.', 'l.' or 'w.') stay.
It stops, and writes nothing, where two names of .antt would fall together. A second run changes nothing.
"""

import pathlib
import re
import sys

WORD = re.compile(r'[^\s(){}.;,@"«»]+')
DECLARED = re.compile(r"^\s*(?:(?:abbrev|unfoldable|pub|data|record)\s+)*([^\s(){}.;,@\"«»:]+)(?:\s+[({][^:]*?:.*?)?\s+:\s+(.*)$")
USE = re.compile(r"^(?:ghost use|(?:pub )?use) (Rattle\.[\w.]+)\.\{(.*?)\};?$", re.M)
LABELS = {"goal", "c", "l", "w"}
OUTSIDE = {"where", "let", "in", "elim", "module", "use", "mutual"}


def respelled(name):
    if name[0].isupper():
        return "".join(part[:1].upper() + part[1:] for part in name.split("-"))
    return re.sub(r"(?<=[a-z0-9])[A-Z]", lambda hump: "_" + hump[0].lower(), name).replace("-", "_")


def declared_in(text):
    """The names with a dash that a file of antt declares, but for answers to goals."""
    names = set()
    for line in text.split("\n"):
        found = DECLARED.match(line.split("--")[0])
        if found and "-" in found[1] and not found[2].startswith("goal.") and found[1] not in OUTSIDE:
            names.add(found[1])
    return {n for n in names if re.fullmatch(r"[A-Za-z][\w']*(-[\w']+)+", n)}


def aliased(text):
    """A file's own names for what it imports, written with a dash: they turn, and need no quotes then."""
    return re.sub(r"«([A-Za-z]\w*(?:-\w+)+)»", lambda name: respelled(name[1]), text)


def imported(text, own):
    """The names that a file imports from the crates of this repository, and those it has from elsewhere."""
    ours, others = set(), set()
    for path, items in USE.findall(text):
        words = set(WORD.findall(items)) - {"as"}
        (ours if path.split(".")[1] in own else others).update(words)
    return ours, others


def code_parts(path, text):
    """Pairs of a piece and whether names turn in it."""
    cut = r'--[^\n]*|"(?:[^"\\\n]|\\.)*"' if path.suffix == ".antt" else r'//[^\n]*|b?"(?:[^"\\\n]|\\.)*"'
    at = 0
    for skipped in re.finditer(cut, text):
        yield text[at : skipped.start()], True
        yield skipped[0], False
        at = skipped.end()
    yield text[at:], True


def turned(path, text, names):
    pieces = []
    for piece, is_code in code_parts(path, text):
        if not is_code:
            pieces.append(piece)
            continue
        out, at = [], 0
        for word in WORD.finditer(piece):
            before = piece[: word.start()]
            holder = re.search(r'([^\s(){}.;,@"«»]+)\.$', before)
            behind_label = holder and (holder[1] in LABELS or holder[1].startswith(("loop-", "in-", "if-")))
            if word[0] in names and not behind_label:
                out.append(piece[at : word.start()] + respelled(word[0]))
                at = word.end()
        pieces.append("".join(out) + piece[at:])
    return "".join(pieces)


def main():
    crates = pathlib.Path("crates")
    own = {p.name for p in crates.iterdir() if p.is_dir()}
    files = [p for p in sorted(crates.rglob("*")) if p.suffix in (".rt", ".antt") and "out" not in p.parts]
    texts = {p: p.read_text(encoding="utf-8") for p in files}
    by_crate, everywhere = {}, set()
    for p, text in texts.items():
        if p.suffix == ".antt":
            by_crate.setdefault(p.parts[1], set()).update(declared_in(text))
    for names in by_crate.values():
        everywhere |= names
    new, clashes = {}, []
    for p, text in texts.items():
        ours, others = imported(text, own)
        names = ((by_crate.get(p.parts[1], set()) | (ours & everywhere)) - others)
        words = set(WORD.findall("".join(piece for piece, is_code in code_parts(p, text) if is_code)))
        meets = [f"{p}: {n} and {respelled(n)}" for n in sorted(names & words) if respelled(n) in words]
        if p.suffix == ".antt":
            clashes += meets
        else:  # a function of the program may have the name of the definition that it computes
            print("".join(f"look: {m}\n" for m in meets), end="")
        turn = aliased(turned(p, text, names))
        if turn != text:
            new[p] = turn
    if clashes:
        print("\n".join(clashes))
        sys.exit("names would fall together; nothing is written")
    for p, text in new.items():
        print(p)
        if "--check" not in sys.argv:
            p.write_text(text, encoding="utf-8")
    for crate, names in sorted(by_crate.items()):
        print(f"{crate}: " + ", ".join(f"{n} → {respelled(n)}" for n in sorted(names)))


main()
