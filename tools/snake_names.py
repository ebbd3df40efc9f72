#!/usr/bin/env python3
"""Brings this repository's own definitions and lemmas to the spelling of today's Rattle. Run once, at the top, after the kit's port.py.

A definition is in snake case: sameSymbol becomes same_symbol. In a lemma's name a dash joins two names, and a plain word is added with _:
all-same-iff becomes all_same_iff, and length-take stays, if length and take are names. Where a lemma would get its definition's name, it gets _lem.
It goes by whole words, in the code of .antt, .rt and must-fail files, in code spans of comments and in code spans of the documents on what stands today.
Names of src/, exported names, strings, inputs and outputs stay. It writes what it turned to docs/names.tsv: old, a tab, new. That page has since been
made anew, by crate and with the names that port.py turned: crate, old, new.
"""

import collections
import glob
import os
import re
import sys

TOP = os.path.dirname(os.path.dirname(os.path.abspath(__file__)))
WORD = re.compile(r"[^\s(){}\[\].;,\"«»`]+")
DOCS = ["README.md", "DEVELOPING.md", "docs/SPEC-MAP.md", "docs/PROOFS.md", "docs/DECISIONS.md", "docs/PICS.md", "docs/gather.md"]


def read(path):
    with open(path, encoding="utf-8") as f:
        return f.read()


def antt_files():
    return sorted(f for f in glob.glob(TOP + "/crates/*/**/*.antt", recursive=True) if "/out/" not in f)


def is_walk(path):
    """The proof of one function, whose goals Rattle names."""
    return os.path.basename(path) in ("Proof.antt", "Answers.antt", "Invariants.antt")


def declared(text):
    """The names that a file declares, and whether each is a field or a constructor."""
    names = {}
    inside = None  # the indentation of a record's or a data type's head
    for line in text.split("\n"):
        if not line.strip() or line.strip().startswith("--"):
            continue
        depth = len(line) - len(line.lstrip())
        head = re.match(r"\s*(?:pub )?(?:data|record)\s+(\S+)", line)
        if head:
            names[head[1]] = False
            inside = depth
            continue
        if inside is not None and depth <= inside:
            inside = None
        m = re.match(r"\s*(?:unfoldable |abbrev |pub |opaque )*((?:[^\s(){}\[\].;,\"«»:]+ )+): ", line)
        if m:
            for n in m[1].split():
                names[n] = inside is not None
    return names


def imported(text):
    """The names that a file takes from a library."""
    own = tuple("Rattle." + c + "." for c in os.listdir(TOP + "/crates"))
    names = set()
    for m in re.finditer(r"^(?:pub )?(?:ghost )?use ([^\s{]+)\.\{([^}]*)\}", text, re.M):
        if not m[1].startswith(own):
            for item in m[2].split(","):
                names.add(item.strip().split(" as ")[-1])
    return names


def camel(name):
    return bool(re.search(r"[a-z0-9][A-Z]", name)) and name[0].islower()


def table():
    definitions, lemmas, fields, known = set(), set(), set(), set()
    for path in antt_files():
        text = read(path)
        known |= {n for n in imported(text) if "-" not in n}
        if is_walk(path):
            continue
        for name, field in declared(text).items():
            (definitions if "/specs/" in path else lemmas).add(name)
            if field:
                fields.add(name)

    def words(part):
        return re.sub(r"(?<=[a-z0-9])(?=[A-Z])", "_", part).lower() if camel(part) else part

    names = {d for d in definitions if "-" not in d} | {n for n in known if len(n) > 1}

    def lemma(name):
        parts = name.split("-")
        out = words(parts[0])
        for i in range(1, len(parts)):
            joined = any("-".join(parts[j:i]) in names for j in range(i)) and any("-".join(parts[i:j]) in names for j in range(i + 1, len(parts) + 1))
            out += ("-" if joined else "_") + words(parts[i])
        return out

    turned = {}
    for name in sorted(definitions | lemmas):
        if not (camel(name) or ("-" in name and name.strip("-") and re.match(r"[a-z]", name))):
            continue
        new = lemma(name) if "-" in name else words(name)
        if new != name:
            turned[name] = new
    # lemmas that fall together with another name
    taken = (definitions | lemmas) - set(turned)
    by_new = collections.defaultdict(list)
    for old, new in turned.items():
        by_new[new].append(old)
    for new, olds in sorted(by_new.items()):
        rest = [o for o in olds if "-" in o]
        if len(olds) > 1 or new in taken:
            for old in rest:
                turned[old] = new + "_lem"
            if new in taken and len(olds) > len(rest) and new not in definitions:
                turned[new] = new + "_lem"
            elif len(olds) - len(rest) > 1 or len(rest) > 1 or (new in taken and len(olds) > len(rest)):
                sys.exit(f"fall together: {new}: {olds}")
    return turned, fields


def main():
    turned, fields = table()
    functions = {}
    for path in glob.glob(TOP + "/crates/*/src/**/*.rt", recursive=True):
        for m in re.finditer(r"\bfn (\w+)", read(path)):
            functions.setdefault(m[1], path)
    for old, new in turned.items():
        if new in functions:
            print(f"look: {old} is now {new}, as the function in {os.path.relpath(functions[new], TOP)}")

    def turn(text, stay, aliases=None, plain_stay=False):
        """Each whole word that is in the table. In a walk, where aliases are given, not behind a dot, where Rattle's own names stand, unless it is a field
        or a module's name stands before the dot. Of a use line only what stands in braces; of source files no word that may be a function's."""

        def one(m):
            word = m[0]
            if word not in turned or word in stay or (plain_stay and re.fullmatch(r"[a-z0-9_]+", word)):
                return word
            if re.match(r"\s*(pub )?use ", text) and "{" not in text[: m.start()]:
                return word
            if aliases is not None and m.start() and text[m.start() - 1] == "." and word not in fields:
                before = re.search(r"([^\s(){}\[\].;,]+)\.$", text[: m.start()])
                if not (before and before[1] in aliases):
                    return word
            return turned[word]

        return WORD.sub(one, text)

    def spans(text):
        return re.sub(r"`[^`\n]*`", lambda m: turn(m[0], set()), text)

    def file(path, text):
        stay = imported(text)
        aliases = set(re.findall(r"^use \S+ as (\S+)", text, re.M)) - {"tie", "goal"} if is_walk(path) else None
        out = []
        for line in text.split("\n"):
            cut = re.search(r"(?:^|\s)--(?:\s|$)" if path.endswith(".antt") else r"(?:^|\s)//", line)
            at = cut.start() if cut else len(line)
            parts = re.split(r'("(?:[^"\\]|\\.)*")', line[:at]) if path.endswith(".rt") else [line[:at]]
            out.append("".join(p if p.startswith('"') else turn(p, stay, aliases, path.endswith(".rt")) for p in parts) + spans(line[at:]))
        return "\n".join(out)

    count = 0
    paths = antt_files() + sorted(glob.glob(TOP + "/crates/*/src/**/*.rt", recursive=True))
    for path in paths:
        text = read(path)
        new = file(path, text)
        if new != text:
            count += 1
            with open(path, "w", encoding="utf-8") as f:
                f.write(new)
    for path in sorted(glob.glob(TOP + "/crates/*/must-fail/*.edit")):
        text = read(path)
        new = "\n".join(turn(l, set()) if re.match(r"(old|new):", l) else spans(l) for l in text.split("\n"))
        if new != text:
            with open(path, "w", encoding="utf-8") as f:
                f.write(new)
    for name in DOCS:
        path = os.path.join(TOP, name)
        if os.path.exists(path):
            text = read(path)
            new = spans(text)
            if new != text:
                with open(path, "w", encoding="utf-8") as f:
                    f.write(new)
    with open(TOP + "/docs/names.tsv", "w", encoding="utf-8") as f:
        f.write("".join(f"{old}\t{new}\n" for old, new in sorted(turned.items())))
    print(f"{len(turned)} names, {count} files")


main()
