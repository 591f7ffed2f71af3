#!/usr/bin/env python3
"""Brings the repository's own definitions and lemmas to the spelling of the installed Rattle: words in snake case.

usage: tools/respell.py [TREE]

What an .antt file of a crate's specs/ or proofs/ declares, names that are bound in a `let`, a `where` or a type, and what a field or a constructor is called, gets
underscores in the place of dashes and of inner capitals: `cellLength` becomes `cell_length`, `kept-cell` becomes `kept_cell`. A name that begins
with a capital is a type or a lemma on one, and keeps its dashes. A name stays in a file that imports it from a library of the kit, and in
proofs/F/, whose goals and steps Rattle names, a name with a dash turns only where a file of lemmas or definitions declares it.
A lemma that would have its definition's name gets `_lem`. A definition may have the name of a Rust function or module.
A second run changes nothing. It stops, and writes nothing, where two names would fall together.
"""

import collections
import os
import re
import sys

WORD = re.compile(r'"(?:[^"\\\n]|\\.)*"|--[^\n]*|//[^\n]*|[^\s(){}.;,@"«»]+')
TICKED = re.compile(r"`[^`\n]*`")
DECLARED = re.compile(
    r'(?m)^[ \t]*(?:(?:abbrev|unfoldable|pub|private|infixl|infixr|data|record|ruleset)[ \t]+)*'
    r'([^\s(){}.;,@"«»]+)(?:[ \t]+[({][^(){}\n]*[)}])*[ \t]+:(?=\s)'
)
GROUP = re.compile(r"(?m)^[ \t]*(?:abbrev |unfoldable |pub )*((?:[a-z][^\s(){}.;,@\"«»:]*[ \t]+)+[a-z][^\s(){}.;,@\"«»:]*)[ \t]+:(?=\s)")
LET = re.compile(r"\blet ([^\s(){}.;,@\"«»]+)(?= (?:=|:)(?:\s|$))")
FIELD = re.compile(r"[{;(]\s*([a-z][^\s(){}.;,@\"«»]*) [:=](?=\s)")
BOUND = re.compile(r"[({]((?:[a-z][^\s(){}.;,@\"«»:]* )+):(?=\s)")
USE = re.compile(r"(?m)^[ \t]*(?:pub )?use ([^\s{;]+?)(?:\.\{([^}]*)\})?(?: as \S+)?;?[ \t]*$")

# Names that fall together and state nothing that `_lem` fits, each with its new name; and one that is so called in one file alone.
SPECIAL = {"workspace-after": "workspace_left", "no-pattern": "has_no_pattern"}
ALONE = {"crates/model/proofs/MirrorCases.antt": {"pair_of": "table_of_pair"}}


def own(path):
    """Is the file the proof of a function, whose goals Rattle names?"""
    return re.search(r"/proofs/.+/(Proof|Answers|Invariants)\.antt$", path)


def files(tree):
    for folder, dirs, names in os.walk(os.path.join(tree, "crates")):
        dirs[:] = sorted(d for d in dirs if d != "out")
        for name in sorted(names):
            if name.endswith((".antt", ".rt")):
                yield os.path.join(folder, name)


def snake(name):
    """The new spelling, or the name itself."""
    if not re.match(r"[a-z]", name) or name.startswith(("invariant-", "decreases-")):
        return name
    name = re.sub(r"(?<=[a-z0-9])([A-Z])", lambda m: "_" + m[1].lower(), name)
    return re.sub(r"(?<=[\w'])-(?=\w)", "_", name)


def stripped(text):
    return re.sub(r"(?m)--[^\n]*$", "", text)


def declared(text):
    """The names that a file of definitions or lemmas makes."""
    text = stripped(text)
    names = set(DECLARED.findall(text)) | set(LET.findall(text)) | set(FIELD.findall(text))
    for group in GROUP.findall(text) + BOUND.findall(text):
        names |= set(group.split())
    return names


def imported(text, crates):
    """The names that a file imports from a library of the kit."""
    names = set()
    for module, items in USE.findall(stripped(text)):
        parts = module.split(".")
        if items and not (parts[0] == "Rattle" and len(parts) > 1 and parts[1] in crates):
            names |= {it.strip().split(" ")[0] for it in items.split(",")}
    return names


def turned(text, table, comments):
    def word(m):
        it = m[0]
        if it.startswith('"'):
            return it
        if it.startswith(("--", "//")):
            return TICKED.sub(lambda t: WORD.sub(word, t[0]), it) if comments else it
        if it.startswith("`") or it.endswith("`"):
            core = it.strip("`")
            return it.replace(core, table.get(core, core)) if core else it
        return table.get(it, it)

    return WORD.sub(word, text)


def main(argv):
    tree = argv[0] if argv else os.path.dirname(os.path.dirname(os.path.abspath(__file__)))
    crates = set(os.listdir(os.path.join(tree, "crates")))
    texts = {}
    for path in files(tree):
        with open(path, encoding="utf-8", newline="") as it:
            texts[path] = it.read()
    table = {}
    all_names = set()
    for path, names in ALONE.items():
        path = os.path.join(tree, path)
        texts[path] = turned(texts[path], names, False)
    for path, text in texts.items():
        if path.endswith(".antt") and not own(path):
            names = declared(text)
            all_names |= names
            for name in names:
                if SPECIAL.get(name, snake(name)) != name:
                    table[name] = SPECIAL.get(name, snake(name))
    words = {path: set(WORD.findall(re.sub(r"(?m)(--|//)[^\n]*$", "", text))) for path, text in texts.items()}
    rust = set().union(*(re.findall(r"\bfn (\w+)", text) for path, text in texts.items() if path.endswith(".rt")))
    rust |= {os.path.basename(path)[:-3] for path in texts if path.endswith(".rt")}
    fall = collections.defaultdict(set)
    for name in all_names:
        fall[table.get(name, name)].add(name)
    for new, olds in fall.items():
        met = {old for old in olds if any(old in here and len(olds & here) > 1 for here in words.values())}
        # The definition, which had an inner capital, or else an underscore, keeps the name.
        for old in sorted(met, key=lambda it: ("-" in it, "_" in it))[1:]:
            table[old] = new + "_lem"
    clash = []
    for path, here in words.items():
        for old, new in table.items():
            may = new in rust and (path.endswith(".rt") or own(path))
            if old in here and new in here and not may and new not in table:
                clash.append(f"{path}: {old} would meet {new}")
    if clash:
        print("\n".join(clash))
        print(f"{len(clash)} names would fall together: nothing was written")
        return 1
    count = 0
    for path, text in texts.items():
        stay = imported(text, crates) if path.endswith(".antt") else set()
        # What had its new spelling already may be a Rust name elsewhere.
        mine = declared(text)
        here = {old: new for old, new in table.items() if old not in stay and (snake(old) != old or old in mine)}
        new = turned(text, here, True)
        if new != text or os.path.relpath(path, tree) in ALONE:
            count += 1
            with open(path, "w", encoding="utf-8", newline="") as it:
                it.write(new)
    print(f"{len(table)} names, {count} files")
    return 0


if __name__ == "__main__":
    sys.exit(main(sys.argv[1:]))
