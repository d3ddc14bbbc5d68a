#!/usr/bin/env python3
"""Spells the names that this repository's own specs/ and proofs/ declare as today's Rattle does, after port.py has spelled the library's.

usage: python3 tools/respell.py       at the top of the repository, once

A name of a definition, a lemma or a field is in snake case. A dash joins two names, of definitions or of words of the library; any other word is joined by
an underscore. The proof of a function f is f_spec. A lemma that would have a definition's name gets _lem. A namespace is a module, and no middle dot in
a name. Types, modules and the functions of src/ keep their names. A name that would meet another stays, and is printed.
"""

import os
import re
import sys

WORD = re.compile(r'[^\s(){}.;,@"«»`]+')
QUIET = re.compile(r'"(?:[^"\\\n]|\\.)*"|(?<![^\s(){}.;,@"«»])--[^\n]*')
DECLARED = re.compile(r'(?m)^ *(?:\w+ )*?([^\s(){}.;,@"«»]+)(?: \{[^{}\n]*\})* :')
BARE = re.compile(r'(?<![^\s(){},;@"«»])[^\s(){}.;,@"«»`]+(?!\.)')
PARAMETER = re.compile(r"(?:\blet (?:mut )?|[(,|]\s*(?:mut )?)([a-z]\w*)\s*[:=]")
RULESET = re.compile(r'(?m)^ *(?:pub )?ruleset ([^\s(){}.;,@"«»]+) =')
IMPORT = re.compile(r"(?m)^ *(?:ghost )?use ([^\s;{]+)\.\{([^}]*)\}")
# What begins the name of a goal, an invariant or a measure, which Rattle itself makes.
MADE = ("invariant-", "decreases-")
ALIAS = re.compile(r"(?m)^ghost use (\S+)\.(\w+)\.\{(\w+) as \2·\3\};$")


def files():
    for folder, folders, names in os.walk("crates"):
        folders[:] = sorted(it for it in folders if it != "out")
        for name in sorted(names):
            if name.endswith((".antt", ".rt")):
                yield os.path.join(folder, name)


def snake(part):
    return re.sub(r"(?<=[a-z0-9])[A-Z]", lambda m: "_" + m[0].lower(), part) if re.match(r"[a-z][a-z0-9_]*[A-Z]", part) else part


def main():
    texts = {path: open(path, encoding="utf-8").read() for path in files()}
    declared, plain, library, words, lent = set(), set(), set(), set(), {}
    for path, text in texts.items():
        code = QUIET.sub(" ", text)
        if path.endswith(".antt"):
            words.update(BARE.findall(code))
        else:
            code = re.sub(r"//[^\n]*", " ", code)
            for it in PARAMETER.findall(code):
                lent.setdefault(it, []).append(path)
        for where, names in IMPORT.findall(code):
            if not where.startswith("Rattle.") or where.startswith("Rattle.std."):
                library.update(WORD.findall(names))
        if path.endswith(".antt"):
            here = DECLARED.findall(code) + RULESET.findall(code)
            declared.update(it for it in here if not it.startswith(MADE + ("+",)))
            if "/specs/" in path:
                plain.update(snake(it) for it in here if "-" not in it)
    plain.update(it for it in library if "-" not in it)
    declared -= library

    def joined(name):
        if name.endswith("-spec"):
            return name.replace("-", "_")
        parts = [snake(it) for it in name.split("-")]
        made = parts[0]
        for left, right in zip(parts, parts[1:]):
            named = all(it in plain or it[:1].isupper() for it in (left, right))
            made += ("-" if named else "_") + right
        return made

    table = {it: joined(it) for it in declared if joined(it) != it}
    # A lemma that stands in the way of a definition's or a field's name, and no path's part of that name.
    lemmas = {new for old, new in table.items() if "-" not in old and new in words and new in declared}
    words -= lemmas
    taken = {}
    for old, new in sorted(table.items(), key=lambda it: "-" in it[0]):
        if "-" in old and (new in taken or new in words):
            new += "_lem"
        if new in taken or new in words:
            print(f"stays: {old}, for {new}")
            del table[old]
            continue
        taken[new] = old
        table[old] = new
        if new in lent and "-" not in old:
            print(f"look: {new}, a parameter or a local of {' '.join(sorted(set(lent[new])))}")
    for path, text in texts.items():
        for _, module, name in ALIAS.findall(text):
            text = text.replace(f"{module}·{name}", f"{module}.{name}")
        text = re.sub(r"(?m)^ghost use (\S+)\.(\w+)\.\{(\w+) as \2\.\3\};$", r"ghost use \1.\2;", text)
        kept = [m.span() for m in re.finditer(r'"(?:[^"\\\n]|\\.)*"', text)] if path.endswith(".rt") else []
        inside = lambda at: any(a <= at < b for a, b in kept)
        if path.endswith(".antt"):
            text = BARE.sub(lambda m: m[0] + "_lem" if m[0] in lemmas else m[0], text)
        new = WORD.sub(lambda m: m[0] if inside(m.start()) else table.get(m[0], m[0]), text)
        if new != texts[path]:
            with open(path, "w", encoding="utf-8") as f:
                f.write(new)
    print(f"{len(table)} names, and as lemmas {', '.join(sorted(lemmas))}")
    with open("/tmp/respelled.txt", "w", encoding="utf-8") as f:
        f.writelines(f"{old}\t{new}\n" for old, new in sorted(table.items()))


sys.exit(main())
