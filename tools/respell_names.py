#!/usr/bin/env python3
"""Respells the repository's own definitions, lemmas, constructors and fields in snake case.

usage: tools/respell_names.py [--list] [TOP]      TOP is the repository, the current folder if it is not given
       --list writes nothing and prints each name, old and new

It goes by text, over every .rt and .antt file below crates/. A name that begins with a small letter changes if it is defined here,
is imported from nowhere else, and holds a capital; or if it is a constructor or a field and holds a dash. A dash in a lemma's name
joins two names, and stays, as does one whose name without it is taken. Left alone: goals that Rattle names, functions of src/, strings, and in comments every word but names in
camel case. It stops where two names would fall together.
"""

import os
import re
import sys

IDENT = r"[^\W\d][\w'\-]*"
HEAD = re.compile(r"^\s*(?:(?:abbrev|unfoldable|pub|data|record|ruleset|ghost)\s+)*(" + IDENT + r")((?:\s+[({][^:]*:[^)}]*[)}])*)\s*:(?!:)\s*(.*)")
# a name where it may stand for itself: not in a path, and no call of a function of src/
TAKEN = r"(?<![.\w'-])" + IDENT + r"(?![\w'(:-])(?!\.[A-Za-z])"
IMPORT = re.compile(r"\buse\s+([\w.'+\u00b7-]+)\.\{([^}]*)\}", re.S)
# Names that would fall together with another one, or with a parameter, once they are respelled.
CHOSEN = {"wholeIn": "whole_part"}


def files(top):
    for folder, dirs, names in os.walk(os.path.join(top, "crates")):
        dirs[:] = sorted(d for d in dirs if d not in ("out", "data", "must-fail"))
        for n in sorted(names):
            if n.endswith((".rt", ".antt")):
                yield os.path.join(folder, n)


def snake(name):
    name = re.sub(r"(?<=[a-z0-9])([A-Z])", r"_\1", name)
    return re.sub(r"([A-Z])(?=[A-Z][a-z])", r"\1_", name).lower()


def parts(path, text):
    """The text as pairs (kind, piece): code, comment or string."""
    mark = "--" if path.endswith(".antt") else "//"
    piece = re.compile(r'("(?:[^"\\\n]|\\.)*")|((?<!\S)--[^\n]*)' if mark == "--" else r'("(?:[^"\\\n]|\\.)*")|(//[^\n]*)')
    at = 0
    for m in piece.finditer(text):
        yield "code", text[at : m.start()]
        yield ("string" if m.group(1) else "comment"), m.group(0)
        at = m.end()
    yield "code", text[at:]


def defined(top):
    own, inner, foreign, tokens = {}, set(), set(), {}
    crates = set(os.listdir(os.path.join(top, "crates")))
    for path in files(top):
        with open(path, encoding="utf-8") as f:
            text = f.read()
        code = "".join(p for kind, p in parts(path, text) if kind == "code")
        for m in IMPORT.finditer(code):
            words = m.group(1).split(".")
            if words[0] != "Rattle" or words[1] not in crates:
                foreign.update(w.split(" as ")[0].strip() for w in m.group(2).split(","))
        for name in re.findall(r"\bas ([a-z]\w*[A-Z]\w*)", code):
            own.setdefault(name, path)
        for t in re.findall(TAKEN, code):
            tokens.setdefault(t, set()).add(path)
        if path.endswith(".antt"):
            answers = os.path.basename(path) == "Proof.antt"
            for line in code.split("\n"):
                m = HEAD.match(line)
                if m and not (answers and (m.group(3).startswith("tie.") or m.group(1).endswith(("-spec", "_spec")))):
                    own.setdefault(m.group(1), path)
                    if not answers and line[0] == " ":
                        inner.add(m.group(1))
    return own, inner, foreign, tokens


def parameters(top):
    """The names of parameters in src/: a parameter hides a definition of its name."""
    found = set()
    for path in files(top):
        if path.endswith(".rt"):
            with open(path, encoding="utf-8") as f:
                for m in re.finditer(r"\bfn \w+(?:<[^>]*>)?\(([^{;]*?)\)", f.read()):
                    found.update(re.findall(r"(?:^|[,(\s])(?:mut )?(\w+):", m.group(1)))
    return found


def renamed(top):
    own, inner, foreign, tokens = defined(top)
    params = parameters(top)
    new, bad = {}, []
    for name in sorted(own):
        if not re.match("[a-z]", name) or name in foreign or not re.search("[A-Z]", name):
            continue
        to = CHOSEN.get(name, snake(name))
        if to in new.values() or to in foreign or to in params:
            bad.append(f"{name} -> {to}: taken")
        new[name] = to
    for name in sorted(new.values()):
        if name in own:
            # a lemma that would have its function's name
            new[name] = name + "_lem"
            if name + "_lem" in own or name in foreign:
                bad.append(f"{name} -> {name}_lem: taken")
        elif any(p.endswith(".antt") and not p.endswith("Proof.antt") for p in tokens.get(name, ())):
            bad.append(f"{name}: a name of {[p for p in sorted(tokens[name]) if p.endswith('.antt')][:4]}")
    taken = set(new.values()) | (set(own) - set(new)) | params | set(tokens)
    for name in sorted(inner):
        to = name.replace("-", "_")
        if to != name and re.match("[a-z]", name) and name not in new and name not in foreign and to not in taken:
            new[name] = to
            taken.add(to)
    return new, bad


def turned(path, text, new):
    # a lemma gives way to a definition of its name; functions of src/ and the modules named after them keep theirs
    lemmas = path.endswith(".antt")
    to = {n: t for n, t in new.items() if lemmas or not t.endswith("_lem")}

    def word(m):
        if to.get(m.group(0), "").endswith("_lem") and re.match(r"\.[A-Za-z]", m.string[m.end() : m.end() + 2]):
            return m.group(0)
        return to.get(m.group(0), m.group(0))

    out = []
    for kind, piece in parts(path, text):
        if kind == "code":
            piece = re.sub(IDENT, word, piece)
        elif kind == "comment":
            piece = re.sub(IDENT, lambda m: to.get(m.group(0), m.group(0)) if re.search("[a-z][A-Z]", m.group(0)) else m.group(0), piece)
        out.append(piece)
    return "".join(out)


def main(argv):
    listing = "--list" in argv
    rest = [a for a in argv if a != "--list"]
    top = rest[0] if rest else "."
    new, bad = renamed(top)
    for line in bad:
        print("together: " + line)
    if listing:
        for name in sorted(new):
            print(f"{name} {new[name]}")
        return 0
    if bad:
        return 1
    n = 0
    for path in files(top):
        with open(path, encoding="utf-8") as f:
            text = f.read()
        after = turned(path, text, new)
        if after != text:
            n += 1
            with open(path, "w", encoding="utf-8") as f:
                f.write(after)
    print(f"{len(new)} names, {n} files")
    return 0


if __name__ == "__main__":
    raise SystemExit(main(sys.argv[1:]))
