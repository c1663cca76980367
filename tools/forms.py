#!/usr/bin/env python3
"""Counts the places of older forms in crates/*/src, point by point (docs/DESIGN-PASS.md), and with -v lists them.

    python3 tools/forms.py [-v] [FOLDER]
"""
import glob
import re
import sys
from collections import defaultdict

verbose = "-v" in sys.argv
rest = [a for a in sys.argv[1:] if a != "-v"]
top = rest[0] if rest else "."


def files(kind):
    return sorted(glob.glob(f"{top}/crates/*/{kind}", recursive=True))


def named(path):
    return path[len(top) + 8 :]


sources = {named(f): open(f).read() for f in files("src/**/*.rt")}

FN = re.compile(r"^( *)((?:pub(?:\([a-z]+\))? )?(?:const )?(?:extern \"C\" )?)fn (\w+)", re.M)


def functions():
    """Each function: file, name, whether it is public, its signature with clauses, its body."""
    for f, t in sources.items():
        for m in FN.finditer(t):
            end = re.search(r"^" + m.group(1) + r"\}", t[m.start() :], re.M)
            if not end:
                continue
            text = t[m.start() : m.start() + end.end()]
            cut = re.search(r"^" + m.group(1) + r"\{$", text, re.M)
            at = cut.start() if cut else text.index("{")
            yield f, m.group(3), "pub" in m.group(2), text[:at], text[at:]


FNS = list(functions())


def head(text):
    """A signature without its clauses, on one line."""
    return re.sub(r"\s+", " ", re.split(r"\n\s*(?:requires|ensures)\b", text)[0]).strip()


found = defaultdict(list)

# 1: own enums like Option and Result, flags beside a value, and numbers for refusals
for f, t in sources.items():
    for m in re.finditer(r"^(?:pub )?enum (\w+)(?:<[^>]*>)? \{\n(.*?)^\}", t, re.M | re.S):
        names = re.findall(r"^    (\w+)", m.group(2), re.M)
        if len(names) <= 3 and set(names) & {"Refused", "Missing", "Nothing", "Gap", "Left", "Absent", "No", "Unfit", "Bad", "Wrong"}:
            found["1 enums like Option or Result"].append(f"{f} {m.group(1)}")
        elif set(names) == {"Less", "Equal", "Greater"}:
            found["1 enums like Option or Result"].append(f"{f} {m.group(1)}")
    for m in re.finditer(r"^(?:pub )?struct (\w+) \{\n(.*?)^\}", t, re.M | re.S):
        names = re.findall(r"^    (?:pub )?(\w+): (\w+)", m.group(2), re.M)
        if any(n in ("code", "known", "asked", "formed", "number", "found", "refused") or n.startswith("has_") or n.endswith("_hash") and "pending" in n for n, _ in names):
            found["1 a flag or a number beside a value"].append(f"{f} {m.group(1)}")
for f, name, public, sig, body in FNS:
    if f.startswith("boundary"):
        continue
    h = head(sig)
    if re.search(r"-> u32$", h) and re.search(r"ensures[^\n]*\b(code|number_of|fault)\b|ensures[^\n]* result commits", sig) and "Refusal" not in f and "refusal.rt" not in f:
        found["1 functions that answer a number for a refusal"].append(f"{f} {name}")
    if h.endswith("-> Reply") and not f.startswith(("arguments", "tablereplies")) and "put_" not in name:
        found["1 functions that answer the C reply below the boundary"].append(f"{f} {name}")


# 2: functions that are alike but for names and numbers
def shape(body):
    b = re.sub(r"//[^\n]*", "", body)
    b = re.sub(r"\b[A-Za-z_]\w*\b", lambda m: m.group(0) if m.group(0) in KEYS else "x", b)
    b = re.sub(r"\b\d+\b", "n", b)
    return re.sub(r"\s+", "", b)


KEYS = {"if", "else", "while", "for", "in", "let", "mut", "return", "match", "true", "false", "loop", "usize", "u64", "u32", "u8"}
alike = defaultdict(list)
for f, name, public, sig, body in FNS:
    if f.startswith(("boundary_c/", "boundary/")) or body.count("\n") < 6:
        continue
    alike[shape(body)].append(f"{f} {name}")
for group in alike.values():
    if len(group) > 1:
        found["2 functions alike but for names and numbers (bodies of five lines and more)"].append(", ".join(group))

# 3: loops that count an index by hand
for f, t in sources.items():
    for m in re.finditer(r"^\s*(while|loop)\b[^\n]*", t, re.M):
        line = t.count("\n", 0, m.start() + 1) + 1
        found["3 `while` and `loop`"].append(f"{f}:{line} {m.group(0).strip()}")

# 4: equality, order, copying, conversion and printing by hand
for f, name, public, sig, body in FNS:
    if f.startswith("boundary"):
        continue
    if re.match(r"(compare|same|is_equal|then_by|lower|wide|turned|max_of|min_of)", name) and "wrong" not in name:
        found["4 comparisons and conversions by hand"].append(f"{f} {name}")
    fields = re.findall(r"let (\w+) = self\.\1;", body)
    if len(fields) >= 2:
        found["4 a value rebuilt field by field"].append(f"{f} {name}")
for f, t in sources.items():
    for m in re.finditer(r"^(?:pub )?(?:struct|enum) (\w+)", t, re.M):
        before = t[: m.start()].rstrip().split("\n")[-1]
        if before.startswith("#[derive") and "PartialEq" not in before or not before.startswith("#["):
            found["4 types without derives beyond Clone and Copy"].append(f"{f} {m.group(1)}")


# 5: facts in the contracts of three functions and more, and parameters that travel together
def conjuncts(sig):
    for clause in re.findall(r"requires(?: \w+)? \{ (.*) \}", sig):
        for part in re.split(r" × (?![^()]*\))", clause):
            yield re.sub(r"^\((.*)\)$", r"\1", part.strip())


facts, groups = defaultdict(set), defaultdict(set)
for f, name, public, sig, body in FNS:
    if f.startswith("boundary"):
        continue
    for fact in conjuncts(sig):
        m = re.match(r"(\w+_ok|well_ordered|is_left|IsCommit|normal|Known|Inside|rises|frames_ok|name_length)\b", fact)
        if m:
            facts[m.group(1)].add(f"{f} {name}")
    names = re.findall(r"(\w+): ", head(sig).split("->")[0])
    for trio in (("stride", "klen"), ("tags", "masks", "marks"), ("commits", "checkpoints", "index"), ("vid", "local", "remote"), ("commits", "path", "count"), ("lo", "hi")):
        if all(n in names for n in trio):
            groups[" ".join(trio)].add(f"{f} {name}")
for fact, where in sorted(facts.items()):
    if len(where) >= 3:
        found["5 a fact in the contracts of three functions and more"] += [f"{fact}: {w}" for w in sorted(where)]
for trio, where in sorted(groups.items()):
    if len(where) >= 3:
        found["5 parameters that travel together"] += [f"{trio}: {w}" for w in sorted(where)]

# 6: buffers with a length beside, parallel arrays
for f, t in sources.items():
    for m in re.finditer(r"^(?:pub )?struct (\w+) \{\n(.*?)^\}", t, re.M | re.S):
        if re.search(r": \[[^\]]*; \w+\]", m.group(2)) and re.search(r"\b(len|listed|n|count|used|size): (usize|u32)", m.group(2)):
            found["6 a buffer with its length beside"].append(f"{f} {m.group(1)}")

# 7: a switch on which step to run
for f, name, public, sig, body in FNS:
    if f.startswith("boundary"):
        continue
    if re.search(r"\b(inside|test|which|kind|step|mode): (bool|RangeTest|u8|u32|\w*Kind)\b", head(sig)):
        found["7 a switch on which step to run"].append(f"{f} {name}")

# 8: answers of the proofs, and local facts repeated in them
answers = goals = lets = 0
for f in files("proofs/**/Answers.antt"):
    t = open(f).read()
    answers += 1
    goals += len(re.findall(r"^pub [\w-]+ : goal\.", t, re.M))
    lets += len(re.findall(r"^\s+let \w+ :", t, re.M))
found["8 files of answers"] = [""] * answers
found["8 answers"] = [""] * goals
found["8 typed local facts in answers"] = [""] * lets

for kind, places in found.items():
    print(f"{len(places):5} {kind}")
    if verbose and places and places[0]:
        for place in places:
            print(f"        {place}")
