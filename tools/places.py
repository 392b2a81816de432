#!/usr/bin/env python3
"""Lists places in crates/*/src that today's language may write better.

    tools/places.py [FOLDER]

FOLDER is a checkout (the current one if left out). A row is a place to look at, and no verdict:
docs/DESIGN-PASS.md says which rows are places of a point, and what became of them.
"""
import collections
import pathlib
import re
import sys

root = pathlib.Path(sys.argv[1] if len(sys.argv) > 1 else ".")
files = sorted(root.glob("crates/*/src/**/*.rt"))
FN = re.compile(r"^( *)(?:pub(?:\(crate\))? )?fn (\w+)")


def functions(path):
    """Each function as (name, first line, its text)."""
    lines = path.read_text().split("\n")
    for i, line in enumerate(lines):
        m = FN.match(line)
        if not m:
            continue
        end = i
        while end < len(lines) and lines[end] != m.group(1) + "}":
            end += 1
        yield m.group(2), i + 1, "\n".join(lines[i : end + 1])


def code_of(text):
    """A function without its clauses and comments."""
    keep = [l for l in text.split("\n") if not re.match(r"\s*(requires|ensures|ghost|//)", l)]
    return "\n".join(keep)


def show(title, rows):
    print(f"== {title}: {len(rows)}")
    for row in rows:
        print("  ", row)


def by_line(pattern, skip=None):
    out = []
    for path in files:
        for i, line in enumerate(path.read_text().split("\n"), 1):
            if re.match(r"\s*//", line) or (skip and re.search(skip, line)):
                continue
            if re.search(pattern, line):
                out.append(f"{path.relative_to(root)}:{i}: {line.strip()[:90]}")
    return out


every = [(p.relative_to(root), n, i, t) for p in files for n, i, t in functions(p)]

# 1: numbers for kinds, and matches that `?` and the methods of Option and Result do
show("1 numbers for kinds", by_line(r"const [A-Z_]+: u(8|32) = \d+;|fn (layer|kind|code|opcode)\w*\(.*-> u\d"))
show("1 matches on an Option or a Result", by_line(r"(None|Err\(\w*\)) => (None|Err|return)|Some\(_\) => Err|Err\(_\) =>|Err\(cause\) =>"))
show("1 refusals written out", by_line(r"Err\(Refusal \{|= Refusal \{|^\s*Refusal \{$"))

# 2: functions of one shape, up to names, types and numbers
shapes = collections.defaultdict(list)
for path, name, line, text in every:
    body = code_of(text)
    body = body[body.find("{") :] if "{" in body else body
    shape = re.sub(r"b?\"[^\"]*\"|b?'.'|\d[\d_]*|\w+", lambda m: m.group(0) if m.group(0) in {"let", "if", "else", "match", "for", "in", "while", "return", "mut", "as"} else "_", body)
    shape = re.sub(r"(_::)+_|\s+", lambda m: "_" if m.group(0).strip() else " ", shape)
    shapes[(str(path).split("/")[1], shape)].append(f"{path}:{line} {name}")
show("2 functions of one shape", [", ".join(v) for (_, s), v in sorted(shapes.items()) if len(v) > 1 and s.count("_") > 2])
show("2 newtypes", by_line(r"pub struct \w+\(pub \w+\);"))

# 3: loops
show("3 loops", by_line(r"^\s*(while\b|loop\b|for \w+ in .*\.\.)"))

# 4: casts, and functions that convert, compare or print
show("4 casts", by_line(r"\bas (u8|u16|u32|u64|u128|usize|i32|i64|i128)\b", r"^\s*(ghost )?use "))
show("4 functions that convert, compare or print", [f"{p}:{i} {n}" for p, n, i, t in every if re.match(r"(as_|to_|same_|is_same|digit|byte_of|print_verdict|type_of|operator$|of$)", n)])

# 5: clauses that stand at three functions or more, and parameters that travel together
clauses, pairs = collections.defaultdict(set), collections.defaultdict(set)
for path, name, line, text in every:
    where = (str(path).split("/")[1], name, line)
    for clause in re.findall(r"requires(?: \w+)? \{(.*)\}\s*$|ensures (?:well|few|inside|from) \{(.*)\}\s*$", text, re.M):
        clauses[(where[0], " ".join((clause[0] or clause[1]).split()))].add(where)
    head = text[: text.find("{")]
    params = re.findall(r"(\w+): ([^,)]+)", head[: head.find("->")] if "->" in head else head)
    for a in params:
        for b in params:
            if a < b:
                pairs[(where[0], f"{a[0]}: {a[1].strip()}, {b[0]}: {b[1].strip()}")].add(where)
show("5 facts in three contracts or more", [f"{k[0]}: {len(v)} times {k[1][:100]}" for k, v in sorted(clauses.items()) if len(v) > 2])
show("5 parameters together in three functions or more", [f"{k[0]}: {len(v)} times {k[1]}" for k, v in sorted(pairs.items()) if len(v) > 2])

# 6: arrays, and numbers that are places in a buffer
show("6 arrays and lengths", by_line(r"^\s*(pub(\(crate\))? )?\w+: (\[.*; \w+\]|usize),$"))
show("6 places in a buffer as parameters", by_line(r"\b(at|place|end|start|begin): usize[,)]"))

# 7: switches on a step
show("7 switches on a step", by_line(r"match \(|: fn\("))

# 8: proofs
answers = sorted(root.glob("crates/*/proofs/**/Answers.antt"))
print("== 8 answers:", sum(len(re.findall(r"^pub [\w+-]+ ?:", a.read_text(), re.M)) for a in answers), "in", len(answers), "files")
lemmas = [p for p in root.glob("crates/*/proofs/*.antt") if p.name != "Lib.antt"]
print("== 8 lemma files:", len(lemmas), "with", sum(len(p.read_text().split("\n")) for p in lemmas), "lines")
