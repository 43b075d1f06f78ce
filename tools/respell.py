#!/usr/bin/env python3
"""Brings this repository's own antt names to today's spelling.

usage: python3 tools/respell.py [KIT]     at the top of the repository; KIT is the kit's library

Words are in snake case, and a prime is an apostrophe. A dash stays only between two names of definitions, and becomes `_` elsewhere.
An arrow, as in a→b, becomes b_from_a. Types, modules, the kit's names and the names that Rattle makes stay as they are.
It goes over crates/*/specs, crates/*/proofs, the ghost text of crates/*/src, and what stands between backticks in comments and documents.
A lemma that would have the name of a definition that stands in one file with it gets `_lem`.
A second run changes nothing. If other names would fall together, it says which and writes nothing; TABLE parts them.
"""

import os
import re
import subprocess
import sys

def kit():
    """The kit's library, beside the page that `rt doc` names."""
    page = subprocess.run(["rt", "doc"], check=True, stdout=subprocess.PIPE, text=True).stdout.strip()
    return os.path.join(os.path.dirname(page), "rattle")


KIT = sys.argv[1] if len(sys.argv) > 1 else kit()

# Names whose rule would give one that is taken where they stand.
TABLE = {
    "of-pairs": "only_pairs",
    "positions-before": "positions_fit_before",
    "channels-before": "channels_fit_before",
    "positions-after": "positions_fit_after",
    "channels-after": "channels_fit_after",
}

# What the kit's names join beside its functions: operators by their words, and constructors.
WORDS = "add sub mul div mod neg pow le lt ge gt eq ne append true false zero suc".split()
FACTS = re.compile(r"[≡≢≤<≥>↔⊥¬]|\bT\b|(?<!\S)∥")
DECLARES = re.compile(r"^(\s*)((?:abbrev |unfoldable |opaque |pub )*)([^\s()\[\]{};,.:=\"]+(?: [^\s()\[\]{};,.:=\"]+)*) : (.*)$")
TYPES = re.compile(r"^\s*(?:pub )?(?:record|data) ")
IMPORT = re.compile(r"\buse ([^\s;{]+?)(?:\.\{([^}]*)\}|(?: as (\S+?))?(?=;|\s|$))")
PIECES = re.compile(r"(?P<string>\"(?:\\.|[^\"\\\n])*\")|(?P<comment>(?<![^\s()\[\]{};,.])--[^\n]*|(?<![^\s()\[\]{};,.])//[^\n]*)|(?P<name>[^\s()\[\]{};,.\"]+)|(?P<dot>\.)|(?P<other>.)", re.S)
CLAUSE = re.compile(r"\b(?:requires|ensures|ghost)\b[^{};()]*\{")


def read(path):
    with open(path, encoding="utf-8") as f:
        return f.read()


def walk(top, *ends):
    for folder, dirs, files in os.walk(top):
        dirs[:] = sorted(d for d in dirs if d != "out")
        yield from (os.path.join(folder, f) for f in sorted(files) if f.endswith(ends))


def declared(text):
    """The names that a file declares, each with what stands before it (`field` in a record or a data type) and its type."""
    lines, inside = text.split("\n"), None
    for i, line in enumerate(lines):
        indent = len(line) - len(line.lstrip())
        if TYPES.match(line):
            inside = indent
        elif inside is not None and line.strip() and indent <= inside:
            inside = None
        m = DECLARES.match(line)
        if not m or line.lstrip().startswith("--"):
            continue
        kind, j = m[4], i + 1
        while j < len(lines) and lines[j].lstrip().startswith("→"):
            kind, j = kind + " " + lines[j].strip(), j + 1
        before = m[1] + m[2] if inside is None else "field"
        yield from ((name, before, kind) for name in m[3].split(" "))


def is_definition(name, before, kind):
    return len(name) > 1 and "pub" in before and not name[0].isupper() and "◌" not in name and not FACTS.search(kind.split("→")[-1])


def snake(word):
    word = word.replace("′", "'")
    if word[:1].isupper() or not re.search(r"[a-z0-9'][A-Z]", word):
        return word
    return re.sub(r"(?<=[a-z0-9'])(?=[A-Z])|(?<=[A-Z])(?=[A-Z][a-z])", "_", word).lower()


class Names:
    """What this repository and the kit declare."""

    def __init__(self):
        self.texts = {p: read(p) for p in walk("crates", ".antt")}
        self.own, self.fields, definitions, self.mentioned = {}, set(), set(), {}  # own: each name with its files
        for path, text in self.texts.items():
            told = list(declared(text))
            for n, before, kind in told:
                if not path.endswith("/Proof.antt"):
                    self.own.setdefault(n, set()).add(path)
                    self.fields |= {n} if before == "field" else set()
                self.mentioned.setdefault(n, set()).update(snake(t).replace("-", "_") for t in re.findall(r"[^\s()\[\]{};,.]+", kind))
            if "/specs/" in path:
                definitions |= {snake(n).replace("-", "_") for n, before, kind in told if is_definition(n, before, kind)}
        self.rust = {f for p in walk("crates", ".rt") for f in re.findall(r"\bfn (\w+)", read(p))}
        self.kit = set()
        for part in ("std", "core", "logic", "antt/lib"):
            for path in walk(os.path.join(KIT, part), ".antt"):
                told = list(declared(read(path)))
                self.kit |= {n for n, before, _ in told if not before.startswith("     ")}
                if part == "std" and "/specs/" in path or "/logic/Lib/" in path:
                    definitions |= {n for n, before, kind in told if is_definition(n, before, kind) and "-" not in n}
        self.definitions = definitions | {f for f in self.rust if len(f) > 1}
        self.today = {self.new(n) for n in self.own}
        self.lemmas = set()  # the path and the name of each that gets `_lem`

    def new(self, name):
        if name in TABLE:
            return TABLE[name]
        if name in self.kit or not re.match(r"[^\W\d_]", name) or name == "→":
            return name
        if "→" in name.strip("→"):
            a, b = name.split("→", 1)
            return "_".join(snake(b).split("-")) + "_from_" + "_".join(snake(a).split("-"))
        words, out, joined, i = re.split("([-_])", "-".join(snake(p) for p in name.split("-"))), "", False, 0
        while i < len(words):
            ends = [j for j in range(len(words), i, -2) if self.joins(name, re.sub("-", "_", "".join(words[i:j])))]
            j = ends[0] if ends else i + 1
            out += "" if not i else "-" if joined and ends and words[i - 1] == "-" else "_"
            out += "".join(words[i:j]).replace("-", "_")
            joined, i = bool(ends), j + 1
        return out

    def joins(self, name, part):
        """Whether a part of a name is a name itself: a word of the kit's names, or a definition that the type mentions."""
        return part in WORDS or part in self.definitions and part in self.mentioned.get(name, ())


class File:
    """One file's renaming: old names with their new ones, and what falls together."""

    def __init__(self, names, path, text):
        self.names, self.path = names, path
        self.proof = path.endswith("/Proof.antt")
        self.kept, self.foreign, self.near = set(), {"tie"}, {}
        self.home = {n: path for n, before, _ in declared(text) if "/proofs/" in path and not re.search("abbrev|unfoldable", before)}
        for module, items, alias in IMPORT.findall(text):
            home = os.path.join("crates", *module.split(".")[1:]) + ".antt"
            if module.startswith("Rattle.") and home in names.texts:
                self.home |= {i.strip(): home for i in items.split(",")}
                self.near[alias] = home
            else:
                self.kept |= {i.strip() for i in items.split(",") if " as " not in i}
                self.foreign.add(alias)
        if self.proof:
            self.kept |= {n for n, _, kind in declared(text) if "/+" in path or kind.startswith("tie.") or ".Need-" in kind}
            self.kept |= self.foreign
        self.spelled = {}

    def turned(self, name, dotted, before):
        """What a name becomes; dotted says that it follows a dot, and before is the name left of that dot."""
        names = self.names
        if dotted and before not in self.near:
            if before in self.foreign or name not in (names.fields if self.proof else names.own):
                return name
            if self.proof and name.replace("-", "_") in names.rust:
                return name
        elif (self.near[before] if dotted else self.home.get(name), name) in names.lemmas:
            return names.new(name) + "_lem"
        elif name in self.kept or self.path.endswith(".rt") and name not in names.own:
            return name
        return names.new(name)

    def turn(self, text):
        out, dotted, before, last = [], False, None, None
        for m in PIECES.finditer(text):
            piece, kind = m[0], m.lastgroup
            if kind == "comment":
                piece = ticked(self.names, piece)
            elif kind == "name":
                piece = self.turned(m[0], dotted, before)
                if not dotted:
                    self.spelled.setdefault(piece, set()).add(m[0])
            out.append(piece)
            dotted, before = kind == "dot" and last is not None, last
            last = m[0] if kind == "name" else None
        return "".join(out)

    def turn_rust(self, text):
        """Only comments, `ghost use` and clauses."""
        out, at = [], 0
        for m in re.finditer(r"(?P<string>\"(?:\\.|[^\"\\])*\")|(?P<comment>//[^\n]*)|(?P<use>ghost use [^;]*;)|(?P<clause>" + CLAUSE.pattern + ")", text):
            if m.start() < at:
                continue
            out.append(text[at : m.start()])
            at = m.end()
            if m.lastgroup == "clause":
                depth = 1
                while depth:
                    depth += {"{": 1, "}": -1}.get(text[at], 0)
                    at += 1
            piece = text[m.start() : at]
            out.append({"string": str, "comment": lambda t: ticked(self.names, t)}.get(m.lastgroup, self.turn)(piece))
        return "".join(out) + text[at:]

    def clashes(self):
        return [(self.path, new, sorted(olds)) for new, olds in sorted(self.spelled.items()) if len(olds) > 1]

    def lemmas(self):
        """Those of the names that fall together that are lemmas, with the files that declare them."""
        found = {(self.home[old], old) for _, _, olds in self.clashes() for old in olds if old in self.home}
        return {(home, old) for home, old in found if File(self.names, home, self.names.texts[home]).home.get(old) == home}


def ticked(names, text):
    """Own names between backticks."""

    def word(m):
        name = m[0]
        if name in names.own:
            return names.new(name) + "_lem" * all((home, name) in names.lemmas for home in names.own[name])
        snakes = [n for n in (names.new(name), snake(name).replace("-", "_")) if n in names.today]
        return snakes[0] if snakes else name

    return re.sub(r"`[^`\n]+`", lambda m: re.sub(r"[^\s()\[\]{};,.`:/]+", word, m[0]), text)


def main():
    names = Names()
    while True:
        written, bad, lemmas = {}, [], set()
        for path in [*names.texts, *walk("crates", ".rt")]:
            text = read(path)
            file = File(names, path, text)
            written[path] = file.turn_rust(text) if path.endswith(".rt") else file.turn(text)
            bad += file.clashes()
            lemmas |= file.lemmas()
        if lemmas <= names.lemmas:
            break
        names.lemmas |= lemmas
    documents = [p for p in walk("docs", ".md") if "/history/" not in p] + [p for p in ("README.md", "CONTRIBUTING.md", ".ci/rules", ".ci/run") if os.path.exists(p)]
    for path in documents:
        written[path] = ticked(names, read(path))
    if bad:
        print("\n".join(f"{path}: {new}: {' '.join(olds)}" for path, new, olds in bad), file=sys.stderr)
        return 1
    turned = {n: names.new(n) for n in names.own if names.new(n) != n}
    changed = [p for p, text in written.items() if read(p) != text]
    for path in changed:
        with open(path, "w", encoding="utf-8") as f:
            f.write(written[path])
    print(f"respell: {len(turned)} names, {len(changed)} files")
    return 0


if __name__ == "__main__":
    sys.exit(main())
