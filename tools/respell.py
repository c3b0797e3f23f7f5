#!/usr/bin/env python3
"""Respells this repository's own definitions and lemmas after port.py: words in snake case, a dash only between two names of definitions.

usage: python3 tools/respell.py [--list]      at the top of the repository, once, right after port.py

The crate `core` becomes `core_search`, since the library has a crate of that name. Functions of src/, exported names and strings keep theirs.
--list prints old and new names and changes nothing.
"""

import os
import re
import sys

CORE = "core_search"
# A name as antt reads it: whatever stands between spaces, brackets and the signs of its own.
TOKEN = re.compile(r"[^\s(){}\[\];,.λ⟦⟧«»:\"⌜⌝!]+")
DECLARED = re.compile(r"^(\s*)(?:module _ )?((?:(?:pub|abbrev|unfoldable|pattern|data|record)\s+)*)([^\s(){}:;.]+)(?=(?:\s*\{[^}]*\})?(?:\s+\([^)]*\)|\s+\{[^}]*\})*\s*:(?:\s|$))", re.M)
# where a lemma has a definition's name, or two names fall together
TOGETHER = {"only_code": "only_code_lem", "no_kind": "no_kind_lem", "class-at": "class_at_lem", "walk-of": "walk_of_lem", "goesOn": "turn_goes_on"}
IN_FILE = {"constants/proofs/Constants.antt": {"all_known": "all_known_lem"}}
# words of the library that a lemma's name may join by a dash
STD = set("length append drop take map get_or set cond not eqb ltb leb bit_and bit_or bit_xor le lt mod div mul add sub zero suc one all reverse sum".split())


def files(root, ends):
    for folder, dirs, names in os.walk(os.path.join(root, "crates")):
        dirs[:] = sorted(d for d in dirs if d != "out")
        for name in sorted(names):
            if name.endswith(ends):
                yield os.path.join(folder, name)


def read(path):
    with open(path, encoding="utf-8") as f:
        return f.read()


def write(path, text):
    with open(path, "w", encoding="utf-8") as f:
        f.write(text)


def without_comments(text):
    return re.sub(r"(?m)^\s*--.*$|\s--\s.*$", "", text)


def part_of(root, path):
    """specs, proofs (lemmas) or function (the proof of a function)."""
    words = os.path.relpath(path, os.path.join(root, "crates")).split(os.sep)
    if len(words) == 3:
        return words[1]
    return "function" if words[1] == "proofs" else words[1]


def generated(text):
    """Names in a function's proof that the prover made."""
    return set(re.findall(r"(?m)^\s*(?:abbrev\s+)?(?:pub\s+)?(\S+)\s*:[^\n]*\b(?:\w+-lts|tie|lts)\.(?:Need|invariant|decreases)", text)) | set(re.findall(r"(\S+-spec)\b", text))


def snake(word):
    if not re.match(r"[a-z]", word):
        return word
    return re.sub(r"([a-z0-9])([A-Z])", lambda m: m[1] + "_" + m[2].lower(), word)


def spelled(name, words):
    parts = [snake(p) for p in name.split("-")]
    if "" in parts:
        return name
    out = parts[0]
    for before, after in zip(parts, parts[1:]):
        joins = before in words and after in words
        out += ("-" if joins else "_") + after
    return out


def declarations(root):
    """Each declared name, and whether a definition of specs/ has it."""
    found, defined = {}, set()
    for path in files(root, ".antt"):
        text = without_comments(read(path))
        part = part_of(root, path)
        own = generated(text) if part == "function" else set()
        for m in DECLARED.finditer(text):
            name = m[3]
            if name in own or name in ("_", "where", "module"):
                continue
            # an indented one is a field, a constructor or a lemma of a section, unless it binds
            found.setdefault(name, set()).add(path)
            if part == "specs" and not m[1]:
                defined.add(name)
    return found, defined


def renames(root):
    found, defined = declarations(root)
    types = {n for n in found if n[0].isupper()}
    words = {snake(n) for n in defined if "-" not in n} | STD | types
    out = {}
    for name in found:
        new = spelled(name, words)
        if new != name and re.match(r"[a-z+]", name):
            out[name] = new
    out.update({old: new for old, new in TOGETHER.items() if old in found})
    # a lemma that would have a definition's name
    for name, new in list(out.items()):
        if "-" in name and any(other != name and out.get(other, other) == new for other in found):
            out[name] = new + "_lem"
    return out


def uncore(root):
    """The crate core, and what port.py took for the library's."""
    old, new = os.path.join(root, "crates", "core"), os.path.join(root, "crates", CORE)
    if os.path.isdir(old):
        os.rename(old, new)
    path = os.path.join(root, "crates.txt")
    write(path, re.sub(r"\bcore\b", CORE, read(path)))
    here = os.path.join(root, "crates", CORE) + os.sep
    for path in files(root, (".antt", ".rt", ".edit")):
        text = read(path)
        if path.startswith(here):
            text = text.replace("Rattle.core.specs.Prelude", "Rattle.std.specs.Prelude").replace("Rattle.core.", f"Rattle.{CORE}.")
        else:
            text = re.sub(r"Rattle\.std\.(specs\.(?:Core|Codes|Lent|declared\.Cored)|proofs\.(?:Entry|Theorems|Cards))\b", rf"Rattle.{CORE}.\1", text)
            text = re.sub(r"Rattle·core\.", f"Rattle.{CORE}.", text)
        if path.endswith(".rt"):
            text = re.sub(r"\bcore::", f"{CORE}::", text)
        write(path, text)


def turn(text, table):
    return TOKEN.sub(lambda m: table.get(m[0], m[0]), text)


def turn_rt(text, table):
    """A source's clauses and ghost imports; its code and strings stay."""
    out = []
    for line in text.split("\n"):
        clause = re.match(r"\s*(?:requires|ensures)\b|ghost ", line)
        out.append(turn(line, table) if clause else line)
    return "\n".join(out)


def turn_edit(text, table):
    kind = re.search(r"(?m)^file: (\S+)", text)
    return turn_rt_edit(text, table) if kind and kind[1].endswith(".rt") else turn(text, table)


def turn_rt_edit(text, table):
    return "\n".join(turn(line, table) if re.match(r"(?:old|new):\s*(?:requires|ensures|ghost)\b", line) else line for line in text.split("\n"))


def together(root, table):
    """Names that would fall together in a file."""
    bad = []
    back = {}
    for old, new in table.items():
        back.setdefault(new, []).append(old)
    for new, olds in sorted(back.items()):
        if len(olds) > 1:
            bad.append((new, olds, ""))
    for path in files(root, (".antt", ".rt")):
        text = read(path)
        if path.endswith(".rt"):
            text = "\n".join(l for l in text.split("\n") if re.match(r"\s*(?:requires|ensures)\b|ghost ", l))
        tokens = set(TOKEN.findall(text))
        for old in tokens & set(table):
            if table[old] in tokens:
                bad.append((table[old], [old], os.path.relpath(path, root)))
    return bad


def main(argv):
    root = os.getcwd()
    if argv == ["--list"]:
        table = renames(root)
        for old, new in sorted(table.items()):
            print(old, new)
        for new, olds, where in together(root, table):
            print("together:", new, olds, where)
        return 0
    uncore(root)
    table = renames(root)
    for path in files(root, ".antt"):
        text = read(path)
        own = table | IN_FILE.get(os.path.relpath(path, os.path.join(root, "crates")), {})
        if part_of(root, path) == "function":
            kept = generated(text)
            own = {old: new for old, new in own.items() if old not in kept}
        write(path, turn(text, own))
    for path in files(root, ".rt"):
        write(path, turn_rt(read(path), table))
    for path in files(root, ".edit"):
        write(path, turn_edit(read(path), table))
    return 0


if __name__ == "__main__":
    raise SystemExit(main(sys.argv[1:]))
