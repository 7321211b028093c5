#!/usr/bin/env python3
"""Brings the names of this repository's own definitions, lemmas and fields to the spelling of today's Rattle.

usage: python3 tools/respell_names.py [--dry]      at the top of the repository, once, right after the kit's port.py

Words are in snake case, types in camel case, a prime is an apostrophe. A name counts as ours if a file of specs/ or
proofs/ declares it. A name that a file takes from a library stays as it is there; so do Rust's names, the names that
Rattle makes (a step, a goal, a label), and English words in comments. With --dry it only says which names fall together.
"""

import collections
import os
import re
import sys

WORD = r"[^\s(){}\[\],;.:\"|`]+"
TOKEN = re.compile(r"(?<![^\s(){}\[\],;.:\"|`])" + WORD)
DECLARED = re.compile(r"^(\s*)((?:(?:abbrev|unfoldable|pub|opaque|data|record|axiom|ruleset)\s+)*)(" + WORD + r")\s*((?:\{[^}]*\}\s*|\([^)]*\)\s*)*):(?:\s|$)")
OURS = re.compile(r"^use\s+Rattle\.(\w+)\.")
USE = re.compile(r"^\s*(?:pub\s+|ghost\s+|open\s+)*use\s+(.*?);?\s*$")
PLAIN = {"A"}  # an image worked by hand; as a name of a value it says no more in small letters
BY_HAND = {
    "tooMany": "too_many_tour",  # `too_many` is a case of a refused walk
    "is-refused": "is_refused",
    "bit-or": "bit_or_lem",  # a library has the plain name
    "is-nan": "is_nan_lem",
}
# a lemma that would have the name of the definition beside it
IN_FILE = {
    "crates/accepted/proofs/Tours.antt": {"handed_out": "handed_out_lem"},
    "crates/accepted/proofs/Reading.antt": {"is_pointer": "is_pointer_lem"},
    "crates/path/proofs/DecodePathLaws.antt": {"key_step": "key_step_lem"},
}
# Rattle makes a module of this name in each crate
MOVED = {"crates/claims/specs/Contracts.antt": "crates/claims/specs/Promised.antt"}
MOVED_PATHS = [("Rattle.claims.specs.Contracts", "Rattle.claims.specs.Promised"), ("pub mod Contracts", "pub mod Promised")]


def files(root):
    for folder, dirs, names in os.walk(os.path.join(root, "crates")):
        dirs[:] = sorted(d for d in dirs if d != "out")
        for n in sorted(names):
            if n.endswith((".antt", ".rt")):
                yield os.path.join(folder, n)


def snake(name):
    name = name.replace("′", "'").replace("-", "_")
    name = re.sub(r"([a-z0-9])([A-Z])", r"\1_\2", name)
    return name.lower()


def camel(name):
    parts = name.replace("′", "'").split("-")
    return parts[0] + "".join(p[:1].upper() + p[1:] for p in parts[1:])


def declared(text):
    """The names that a file declares, each with whether it is a type."""
    lines = text.split("\n")
    for i, line in enumerate(lines):
        m = DECLARED.match(line)
        if not m or line.lstrip().startswith(("--", "use ", "let ", "in ")):
            continue
        yield m.group(3)


def respelled(name):
    if name in BY_HAND:
        return BY_HAND[name]
    if name in PLAIN or not re.match(r"[A-Za-z]", name):
        return name
    if name[0].isupper() and not re.match(r"A-", name):
        return camel(name)
    return snake(name)


def taken(text, crates):
    """The names that a file takes from libraries, and its aliases of modules."""
    library, aliases = set(), set()
    for line in text.split("\n"):
        m = USE.match(line)
        if not m:
            continue
        words = m.group(1)
        a = re.search(r"\sas\s+(" + WORD + r")$", words)
        if a:
            aliases.add(a.group(1))
        else:
            last = re.match(r"([\w.+\-]+)$", words)
            if last:
                aliases.add(words.split(".")[-1])
        ours = OURS.match("use " + words)
        if ours and ours.group(1) in crates:
            continue
        g = re.search(r"\{(.*)\}", words)
        if g:
            for n in g.group(1).split(","):
                n = n.strip()
                library.add(n.split(" as ")[-1].strip())
    return library, aliases


def comment_at(line, rt):
    mark = "//" if rt else "--"
    if not rt:
        m = re.search(r"(^|\s)--(\s|$)", line)
        return m.start() + len(m.group(1)) if m else len(line)
    k = line.find(mark)
    return k if k >= 0 else len(line)


def turn(text, path, names, fields, library, aliases, seen=None):
    rt = path.endswith(".rt")
    proof = os.path.basename(path) == "Proof.antt"
    out = []
    for line in text.split("\n"):
        k = comment_at(line, rt)
        code, comment = line[:k], line[k:]

        def one(m):
            w = m.group(0)
            if w not in names or w in library or names[w] == w:
                return w
            before = code[: m.start()]
            if before.endswith("."):
                head = re.search(r"([^\s(){}\[\],;\"|]+)\.$", before)
                path_of = head.group(1) if head else ""
                own = path_of.startswith("Rattle.") or path_of.split(".")[0] in aliases
                if not own and w not in fields:
                    return w
            if seen is not None:
                seen[w] += 1
            return names[w]

        code = TOKEN.sub(one, code)
        comment = re.sub(r"`([^`]+)`", lambda m: "`" + TOKEN.sub(lambda t: names.get(t.group(0), t.group(0)), m.group(1)) + "`", comment)
        comment = re.sub(r"(?<![\w`.-])[a-z0-9]+(?:[A-Z][a-z0-9]*)+(?![\w`-])", lambda m: names.get(m.group(0), m.group(0)), comment)
        out.append(code + comment)
    return "\n".join(out)


def turn_edit(text, path, names):
    """A must-fail edit: its lines are code of the file that it names."""
    out = []
    for line in text.split("\n"):
        m = re.match(r"(old:|new:)(.*)$", line)
        out.append(m.group(1) + turn(m.group(2), path, names, set(names), set(), set()) if m else line)
    return "\n".join(out)


def turn_page(text, names):
    """A page: names behind a module, and names that stand alone between backticks."""
    text = re.sub(r"(?<![\w/])(\w+/[A-Z]\w*\.)([\w'-]+)", lambda m: m.group(1) + names.get(m.group(2), m.group(2)), text)
    return re.sub(r"`([\w'-]+)`", lambda m: "`" + names.get(m.group(1), m.group(1)) + "`", text)


def main():
    root = os.getcwd()
    dry = "--dry" in sys.argv
    crates = set(os.listdir(os.path.join(root, "crates")))
    texts = {os.path.relpath(p, root): open(p, encoding="utf-8").read() for p in files(root)}
    ours = {n for p, t in texts.items() if p.endswith(".antt") and os.path.basename(p) != "Proof.antt" for n in declared(t)}
    names = {n: respelled(n) for n in ours}
    together = collections.defaultdict(set)
    for n, m in names.items():
        together[m].add(n)
    for m, ns in sorted(together.items()):
        if len(ns) > 1:
            for n in ns:
                if "-" in n and n not in BY_HAND:
                    names[n] = m + "_lem"
            print("together:", m, "<-", " ".join(sorted(ns)))
    fields = set(names)
    changed = {n: m for n, m in names.items() if n != m}
    for p, t in texts.items():
        library, aliases = taken(t, crates)
        words = set(TOKEN.findall("\n".join(l[: comment_at(l, p.endswith(".rt"))] for l in t.split("\n"))))
        for w in sorted(words):
            if w in changed and w not in library and changed[w] in words:
                print("meets:", p, w, "->", changed[w])
    print(len(names), "names,", len(changed), "respelled")
    if dry:
        return
    for p, t in texts.items():
        library, aliases = taken(t, crates)
        here = dict(names)
        for a in aliases:
            if "-" in a:
                here[a] = snake(a)
        here.update(IN_FILE.get(p, {}))
        new = turn(t, p, here, fields, library, aliases)
        for old, now in MOVED_PATHS:
            new = new.replace(old, now)
        if new != t:
            with open(os.path.join(root, p), "w", encoding="utf-8") as f:
                f.write(new)
    for old, now in MOVED.items():
        if os.path.exists(os.path.join(root, old)):
            os.rename(os.path.join(root, old), os.path.join(root, now))
    for folder, dirs, found in os.walk(os.path.join(root, "crates")):
        dirs[:] = [d for d in dirs if d != "out"]
        for n in found:
            p = os.path.join(folder, n)
            if n.endswith(".edit"):
                t = open(p, encoding="utf-8").read()
                rewrite(p, t, turn_edit(t, "x.rt" if ".rt" in t.split("\n")[0] else "x.antt", names))
    pages = [os.path.join(root, "README.md")] + [os.path.join(root, "docs", d) for d in os.listdir(os.path.join(root, "docs"))]
    for p in pages:
        t = open(p, encoding="utf-8").read()
        rewrite(p, t, turn_page(t, names))


def rewrite(path, old, new):
    if new != old:
        with open(path, "w", encoding="utf-8") as f:
            f.write(new)


main()
