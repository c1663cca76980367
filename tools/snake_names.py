#!/usr/bin/env python3
"""Turns the repository's own names of definitions and lemmas into snake case, and renames the crate core.

usage: snake_names.py [--check]      at the top of the repository

A name is turned where the repository's .antt files declare or bind it, it begins with a small letter and holds a dash or
a capital, and no file takes a name of that spelling from the kit: allZero and if-true become all_zero and if_true. Functions
of src/, types, modules, strings, inputs and outputs keep their names. The files are those of src/, specs/, proofs/ and
must-fail/, and the pages, where a name stands between backticks. The crate core becomes basics, since the kit has a
library of that name, and paths that were taken for the kit's lead to it again. Where two names fall together, the lemma
of the two ends in _lem. --check writes nothing, and lists the names and those that fall together.
"""
import collections
import glob
import os
import re
import sys

OLD_CRATE, NEW_CRATE = "core", "basics"
# a name; a dash stands inside it where letters or digits stand on both sides
NAME = re.compile(r"(?<![\w'′₀-₉·-])[^\W\d_][\w'₀-₉]*(?:-[\w'₀-₉]+)*")
# what a name gets at its end where another name of the repository or the library has its new spelling already
APART = "_lem"


def read(path):
    with open(path, encoding="utf-8", newline="") as f:
        return f.read()


def names_in(text):
    return NAME.findall(text)


def is_old(name):
    return name[0].islower() and bool(re.search(r"-|[a-z0-9][A-Z]", name))


def snake(name):
    words = []
    for part in name.split("-"):
        part = re.sub(r"([a-z0-9])([A-Z])", r"\1_\2", part)
        words.append(part.lower())
    return "_".join(words)


def without_comments(text):
    return "\n".join(line for line in text.split("\n") if not line.lstrip().startswith("--"))


def own_paths(text, of_numbers):
    """Leads the paths into the crate core, which were taken for the kit's core and std, to its new name."""
    mine = r"(?:Answers|Hashes|Orders|Says|declared\.(?:keys|lsn|logref|page_count|pageidx|commit_hash|id))\b"
    text = re.sub(rf"\bRattle\.(?:core|std)\.specs\.(?={mine})", f"Rattle.{NEW_CRATE}.specs.", text)
    text = re.sub(
        r"\bRattle\.(?:core|std)\.proofs\.(?=(?:AskLaws|HashLaws|NumberLaws|OrderLaws)\b)", f"Rattle.{NEW_CRATE}.proofs.", text
    )
    text = re.sub(r"\bRattle\.core\.proofs\.", f"Rattle.{NEW_CRATE}.proofs.", text)

    def split(m):
        head, names, end = m[1], [it.strip() for it in m[3].split(",")], m[4]
        ours = [it for it in names if it.split(" as ")[0] in of_numbers]
        rest = [it for it in names if it not in ours]
        lines = [f"{head}Rattle.{NEW_CRATE}.specs.Numbers.{{{', '.join(ours)}}}{end}"] if ours else []
        lines += [f"{head}Rattle.std.specs.Int.{{{', '.join(rest)}}}{end}"] if rest else []
        return "\n".join(lines)

    text = re.sub(r"^([ \t]*(?:ghost )?(?:pub )?use )Rattle\.(core|std)\.specs\.Int\.\{([^}]*)\}(;?)", split, text, flags=re.M)
    return re.sub(r"\bRattle\.core\.specs\.Prelude\b", "Rattle.std.specs.Prelude", text)


def lemma_scope(name, antt):
    """The files in which an older lemma's name stands for that lemma: where it is declared, and where it is imported."""
    found = {}
    for path in antt:
        text = without_comments(read(path))
        if "/proofs/" in path and re.search(rf"^\s*(?:pub )?{name} :", text, re.M):
            crate, module = path.split("/")[1], path.split("/proofs/")[1][:-5].replace("/", ".")
            found.setdefault(path, set()).add("")
            where = rf"Rattle\.{crate}\.proofs\.{re.escape(module)}"
            for other in antt:
                text = without_comments(read(other))
                if re.search(rf"{where}\.\{{[^}}]*\b{name}\b", text):
                    found.setdefault(other, set()).add("")
                m = re.search(rf"use {where} as (\S+)", text)
                if m:
                    found.setdefault(other, set()).add(m[1])
    return found


def declared(paths):
    """The names that the files declare by a signature or bind in a let, a binder or a clause."""
    found = collections.Counter()
    for path in paths:
        text = without_comments(read(path))
        for line in text.split("\n"):
            m = re.match(r"^\s*(?:(?:abbrev|unfoldable|pattern|pub|ruleset|let)\s+)*([^\s:(){}=]+)\s*(?::|=)(?=\s|$)", line)
            if m:
                found[m[1]] += 1
        for m in re.finditer(r"\blet\s+([^\s:(){}=]+)\s*(?::|=)", text):
            found[m[1]] += 1
        for m in re.finditer(r"λ\s*([^.:()]+)\.", text):
            for it in m[1].split():
                found[it] += 1
        for m in re.finditer(r"[({]([^(){}:]+) :", text):
            for it in m[1].split():
                found[it] += 1
        for m in re.finditer(r"↦|\bpub ruleset ([^\s=]+)", text):
            if m[1]:
                found[m[1]] += 1
    return found


def is_kits(path):
    """Whether the path of a use line leads into the kit's libraries. The crate core is ours, but for its Prelude."""
    top = path.split(".")
    if top[0] != "Rattle":
        return True
    if top[1] in ("core", "std"):
        ours = "Answers Hashes Orders Says declared AskLaws HashLaws NumberLaws OrderLaws".split()
        return len(top) < 4 or top[3] not in ours
    return not os.path.isdir(os.path.join("crates", top[1]))


def kit_names(paths):
    """The names that the files take from the kit's libraries, by a list of names or behind a module."""
    found = set()
    for path in paths:
        text = read(path)
        for m in re.finditer(r"^\s*(?:ghost )?(?:pub )?use ([^\s{]+)\.\{([^}]*)\}", text, re.M):
            if is_kits(m[1]):
                found.update(part for it in m[2].split(",") for part in it.strip().split(" as "))
        for m in re.finditer(r"^\s*(?:pub )?use ([^\s{;]+?)(?: as (\S+?))?;?$", text, re.M):
            if is_kits(m[1]):
                short = re.escape(m[2] or m[1].split(".")[-1])
                found.update(re.findall(rf"(?<![\w.-]){short}\.([\w'-]+)", text))
    return found - numbers()


def numbers():
    """What crates/core/specs/Numbers.antt declares. The paths to it were taken for those of std's Int."""
    return set(re.findall(r"^(?:\w+ )*(\w+) :", read(f"crates/{OLD_CRATE}/specs/Numbers.antt"), re.M))


def by_plain(names, plain):
    found = collections.defaultdict(list)
    for it in names:
        found[plain[it]].append(it)
    return found


def main():
    check = "--check" in sys.argv[1:]
    antt = sorted(
        glob.glob("crates/*/specs/**/*.antt", recursive=True) + glob.glob("crates/*/proofs/**/*.antt", recursive=True)
    )
    decl = declared(antt)
    kit = kit_names(antt + sorted(glob.glob("crates/*/src/**/*.rt", recursive=True)))
    mine = {it for it in decl if is_old(it) and it not in kit and NAME.fullmatch(it)}
    plain = {it: snake(it) for it in mine}
    taken = {it for it in decl if not is_old(it)} | kit
    camel = {it for it in mine if "-" not in it}
    new = dict(plain)
    for it in sorted(mine):
        if it in camel:
            if plain[it] in taken:
                print("a definition's new name is taken:", it)
        elif plain[it] in taken or any(plain[c] == plain[it] for c in by_plain(camel, plain).get(plain[it], ())):
            new[it] = plain[it] + APART
    if check:
        print("apart:", sorted(it for it in mine if new[it] != plain[it]))
        clash = collections.defaultdict(set)
        for path in antt:
            here = set(names_in(re.sub(r"Rattle\.[\w.+-]+", "", without_comments(read(path)))))
            made = collections.defaultdict(set)
            for it in here:
                if it in new:
                    made[new[it]].add(it)
            for it, olds in made.items():
                if it in here or len(olds) > 1:
                    clash[path].add((it, tuple(sorted(olds)), it in here))
        for path in sorted(clash):
            for it in sorted(clash[path]):
                print("together", path, it)
        print(len(new), "names;", "kit's spelling:", sorted(it for it in decl if is_old(it) and it in kit)[:200])
        return
    of_numbers = numbers()
    older = collections.defaultdict(dict)
    for name in sorted(plain[it] for it in camel if plain[it] in taken):
        for path, by in lemma_scope(name, antt).items():
            older[path][name] = by
            print("lemma", name, "ends in _lem in", path, sorted(by))
    sources = antt + sorted(glob.glob("crates/*/src/**/*.rt", recursive=True)) + sorted(glob.glob("crates/*/must-fail/*.edit"))
    pages = ["README.md", "NOTICE"] + sorted(glob.glob("docs/*.md")) + sorted(glob.glob("host/**/*.md", recursive=True))
    said = 0

    def turned(text):
        def one(m):
            # a field of a record keeps its plain name; behind a module stands a lemma
            before = re.search(r"([\w'₀-₉-]+)\.$", text[: m.start()])
            field = before and not before[1][0].isupper()
            return (plain if field else new).get(m[0], m[0])

        return NAME.sub(one, text)

    def outside_strings(line):
        parts = re.split(r'(b?"(?:[^"\\]|\\.)*")', line)
        return "".join(it if k % 2 else turned(it) for k, it in enumerate(parts))

    for path in sources + pages:
        if not os.path.exists(path):
            continue
        text = read(path)
        if path in pages:
            out = re.sub(r"`[^`\n]+`", lambda m: turned(m[0]), text)
            out = re.sub(r"\bcrates/core\b", f"crates/{NEW_CRATE}", out)
            out = re.sub(r"`core`", f"`{NEW_CRATE}`", out)
        else:
            for name, by in older.get(path, {}).items():
                if "" in by:
                    text = re.sub(rf"(?<![\w.·-]){name}(?![\w.·-])", f"{name}{APART}", text)
                for alias in by - {""}:
                    text = re.sub(rf"(?<![\w.]){alias}\.{name}(?![\w-])", f"{alias}.{name}{APART}", text)
            out = "\n".join(outside_strings(it) for it in own_paths(text, of_numbers).split("\n"))
            if path.endswith((".rt", ".edit")):
                out = re.sub(r"(?<![\w:])(?<!//)core::(?=[a-z_{A-Z])", f"{NEW_CRATE}::", out)
        if out != read(path):
            said += 1
            with open(path, "w", encoding="utf-8", newline="") as f:
                f.write(out)
    text = read("crates.txt")
    out = "\n".join(
        it if it.startswith("#") else re.sub(r"(?<![\w])core(?![\w])", NEW_CRATE, it) for it in text.split("\n")
    )
    if out != text:
        with open("crates.txt", "w", encoding="utf-8") as f:
            f.write(out)
    if os.path.isdir(f"crates/{OLD_CRATE}"):
        os.rename(f"crates/{OLD_CRATE}", f"crates/{NEW_CRATE}")
    print(f"{len(new)} names turned; {said} files written")


if __name__ == "__main__":
    main()
