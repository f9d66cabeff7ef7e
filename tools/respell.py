#!/usr/bin/env python3
"""Brings the repository's own definitions and lemmas to the spelling of today's Rattle: words in snake case, `checkOf` as `check_of`, `holds-bind` as `holds_bind`.

usage: tools/respell.py [--list] [FOLDER]      FOLDER is a checkout's top, this one if none is given; --list prints the names and writes nothing

Run once, right after the kit's own scripts. A name is the repository's own where a file of specs/ or proofs/ declares it (its signature, a field of a
record, a constructor). It is respelled wherever it stands in specs/, proofs/, a contract, an edit that must fail, or between the back quotes of a page.
Types and modules keep their capitals; functions of src/, what the library and the check name, strings, inputs and outputs are left alone.
Two names that would fall together are reported, and nothing is written.
"""

import os
import re
import sys

TOKEN = r"[^\s(){}.;,@\"«»\[\]\\`]+"
OWN_CODE = re.compile(r"^Rattle\.(\w+)\.(?:specs|proofs)\.(?!.*\b(?:declared|TheVariants|Goals|Given|Tie|Statement|Lts|Reads)\b)")
SIGNATURE = re.compile(r"^ *(?:(?:abbrev|unfoldable|opaque|private|pub) )*([^\s:(){},.;]+) : ", re.M)
FIELDS = re.compile(r"^ +(?:pub )?([^\s:(){},.;]+(?: [^\s:(){},.;]+)*) : ", re.M)


# Lemmas in the new spelling already, under the name that a definition now gets.
LEMMAS = {n: n + "_lem" for n in ("all_stay", "block_size", "in_order", "some_below")}
LEMMAS["in-main"] = "in_main_lem"
# Names of one file alone that would otherwise be taken for a definition's.
HERE = {"crates/theory/proofs/Safety.antt": {"is_free": "is_free_there"}, "crates/steps/proofs/Entering.antt": {"is-call": "is_call_lem"}}


def respelled(name):
    """The name in snake case, or as it is where it begins with a capital, holds a sign, or is one word."""
    if not re.match(r"^[a-zℕ][\w'′₀-₉-]*$", name) or name in ("λ",):
        return name
    name = re.sub(r"([a-z0-9])([A-Z])", lambda m: m.group(1) + "_" + m.group(2).lower(), name)
    name = re.sub(r"[A-Z]", lambda m: m.group(0).lower(), name)
    return name.replace("-", "_").replace("′", "'")


def files(top, ends):
    for folder, dirs, names in os.walk(top):
        dirs[:] = sorted(d for d in dirs if d not in ("out", ".git", "target"))
        for name in sorted(names):
            if name.endswith(ends):
                yield os.path.join(folder, name)


def read(path):
    with open(path, encoding="utf-8", newline="") as f:
        return f.read()


def here(path, top, text):
    for a, b in HERE.get(os.path.relpath(path, top), {}).items():
        text = re.sub(rf"(?<![\w-]){a}(?![\w-])", b, text)
    return text


def shared(path):
    """A file of definitions or lemmas, and not the proof of one function."""
    return "/specs/" in path or os.path.dirname(path).endswith("/proofs")


def declared(top):
    names = set()
    for path in files(os.path.join(top, "crates"), ".antt"):
        if shared(path):
            text = re.sub(r"--[^\n]*", "", read(path))
            names.update(SIGNATURE.findall(text))
            names.update(n for it in FIELDS.findall(text) for n in it.split())
    return names


def imported(text):
    """What the file's `use` lines take from elsewhere than this repository's definitions and lemmas."""
    out = set()
    for path, items in re.findall(r"use ([^\s{;]+?)\.\{([^}]*)\}", text):
        if not OWN_CODE.match(path + "."):
            out.update(part for it in items.split(",") for part in it.replace(" as ", " ").split())
    return out


def turned(text, table, keep, comments="--"):
    """Each own name respelled; in a comment only one with a capital inside, or one between back quotes."""
    out = []
    for part in re.split(r"(--[^\n]*|//[^\n]*)" if comments else r"(\Z)", text):
        comment = part.startswith(("--", "//"))

        def one(m):
            name = m.group(0)
            if name in keep or name not in table:
                return name
            before = part[max(0, m.start() - 4) : m.start()]
            if before.endswith("tie.") or before.endswith("al."):
                return name
            quoted = part[: m.start()].count("`") % 2 == 1
            if comment and "-" in name and not quoted:
                return name
            return table[name]

        out.append(re.sub(TOKEN, one, part))
    return "".join(out)


def clauses(text, table, keep):
    """A source file: own names with a capital inside anywhere, those with a dash on `ghost use` lines and in clauses."""
    camel = {a: b for a, b in table.items() if "-" not in a}
    text = re.sub(TOKEN, lambda m: camel.get(m.group(0), m.group(0)) if m.group(0) not in keep else m.group(0), text)
    dash = {a: b for a, b in table.items() if "-" in a}
    lines = text.split("\n")
    for i, line in enumerate(lines):
        if re.search(r"ghost use|requires|ensures|ghost \w+:|^ +[×→]|invariant", line):
            lines[i] = re.sub(TOKEN, lambda m: dash.get(m.group(0), m.group(0)), line)
    return "\n".join(lines)


def main(argv):
    listing = "--list" in argv
    rest = [a for a in argv if a != "--list"]
    top = rest[0] if rest else os.path.dirname(os.path.dirname(os.path.abspath(__file__)))
    names = declared(top)
    table = {n: respelled(n) for n in names if respelled(n) != n}
    # In one file a lemma and what it is about may get one name: then the lemma's, the one with a dash, gets `_lem` everywhere.
    texts = {p: here(p, top, re.sub(r"--[^\n]*", "", read(p))) for p in files(os.path.join(top, "crates"), ".antt")}
    for path in filter(shared, texts):
        text = texts[path]
        there, by = set(re.findall(TOKEN, text)) - imported(text), {}
        for n in there:
            by.setdefault(table.get(n, n), []).append(n)
        for it in by.values():
            for n in it:
                if len(it) > 1 and "-" in n and n in table:
                    table[n] = respelled(n) + "_lem"
    table.update(LEMMAS)
    fallen = []
    for path in filter(shared, texts):  # a source file may have a definition under the name of its function
        text = texts[path]
        keep, words, there = imported(text), set(re.findall(TOKEN, text)), {}
        for a in sorted(words & set(table) - keep):
            there.setdefault(table[a], []).append(a)
        for b, them in sorted(there.items()):
            if len(them) > 1 or (b in words and table.get(b, b) == b):
                fallen.append((f"{path}: {them}", b))
    if listing:
        print("\n".join(f"{a} {b}" for a, b in sorted(table.items())))
    for a, b in fallen:
        print(f"together: {a} and what stands there become {b}", file=sys.stderr)
    if listing or fallen:
        return len(fallen)
    changed = 0
    for path in files(top, (".antt", ".rt", ".edit", ".md")):
        inside = path.startswith(os.path.join(top, "crates") + "/") or path.startswith(os.path.join(top, "tests") + "/")
        text = read(path)
        text = here(path, top, text)
        if path.endswith(".antt"):
            new = turned(text, table, imported(text))
        elif path.endswith(".rt"):
            new = clauses(text, table, imported(text))
        elif path.endswith(".edit") and inside:
            new = "\n".join(turned(l, table, set(), None) if l.startswith(("old:", "new:")) else l for l in text.split("\n"))
        elif path.endswith(".md") and "/landings/" not in path:
            new = re.sub(r"`[^`\n]*`", lambda m: re.sub(TOKEN, lambda t: table.get(t.group(0), t.group(0)) if not (t.group(0)[0].islower() and "-" in t.group(0) and " " in m.group(0)) else t.group(0), m.group(0)), text)
        else:
            new = text
        if new != text:
            with open(path, "w", encoding="utf-8", newline="") as f:
                f.write(new)
            changed += 1
    print(f"respell: {len(table)} names, {changed} files")
    return 0


if __name__ == "__main__":
    raise SystemExit(main(sys.argv[1:]))
