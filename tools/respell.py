#!/usr/bin/env python3
"""Brings the repository's own names in antt to today's spelling: definitions, lemmas, fields and variables in snake case.

usage: python3 tools/respell.py [FOLDER]     once, right after the kit's port.py, at the top of the repository

- A word in camel case becomes snake case: `isOneOf` -> `is_one_of`. Types, records, facts and modules keep their capitals.
- A dash in a name of several words becomes `_`: `or-idle` -> `or_idle`. It stays between the names of two functions, as in `length-put`.
- A lemma that would then have a definition's name, or a variable's of its own file, gets `_lem`.
- `first_of` is a tactic today: the definition is called `first_members`.
Functions of src/, exported names, strings, inputs and outputs keep their names. Names that Rattle makes (goals, steps) are left to the proofs' own change.
"""
import collections
import glob
import os
import re
import sys

ROOT = sys.argv[1] if len(sys.argv) > 1 else "."
os.chdir(ROOT)
NAME = r"[^\s(){}\[\].,;:λ→×⊎¬←∷=↦|·∗⌜⌝\"`#/!?<>&]+"
TOKEN = re.compile(rf"({NAME})")
STRING_OR_COMMENT = re.compile(r'("(?:[^"\\\n]|\\.)*")|(--[^\n]*)')
ANTT = sorted(glob.glob("crates/*/specs/**/*.antt", recursive=True) + glob.glob("crates/*/proofs/**/*.antt", recursive=True))
WALKED = {p for p in ANTT if p.endswith("/Proof.antt")}
RT = sorted(glob.glob("crates/*/src/**/*.rt", recursive=True))
EDITS = sorted(glob.glob("crates/*/must-fail/*.edit") + glob.glob("tests/mutations/*/*.edit"))
PAGES = sorted(glob.glob("docs/*.md") + glob.glob("docs/landings/*.md") + ["README.md", "tests/worked"])
STD = {"length", "map", "take", "drop", "set", "get_or", "replicate", "sum", "append"}
RESERVED = {"data", "record", "deriving", "module", "where", "use", "mod", "pub", "package", "open", "as", "unfoldable", "abbrev", "axiom", "unfold", "unfolding", "ruleset", "mutual", "infix", "infixl", "infixr", "elim", "let", "in", "do", "Type", "search", "assumption", "omega", "simp", "rw", "cc", "grind", "hlevel", "first_of", "ground"}


def read(path):
    with open(path, encoding="utf-8", newline="") as f:
        return f.read()


def bare(text):
    return STRING_OR_COMMENT.sub(" ", text)


def snake(word):
    return re.sub(r"(?<=[a-z0-9])([A-Z])", lambda m: "_" + m.group(1).lower(), word)


texts = {p: read(p) for p in ANTT}
functions = set(re.findall(r"\bfn (\w+)", "".join(read(p) for p in RT)))
DEFINED = re.compile(rf"^( *)(?:(?:abbrev|unfoldable|data|record|pub) )*({NAME}) (?:[({{][^\n]*)?:(?: |$)", re.M)
defined, in_specs, fields, makes = collections.Counter(), set(), set(), collections.defaultdict(set)
for p, t in texts.items():
    for m in DEFINED.finditer(bare(t)):
        name = m.group(2)
        if p in WALKED and re.match(r"tie\.", bare(t)[m.end():].lstrip()):
            makes[p].add(name)
            continue
        if p in WALKED and "-" in name:
            makes[p].add(name)
            continue
        defined[name] += 1
        if m.group(1):
            fields.add(name)
        elif "/specs/" in p:
            in_specs.add(name)
words = collections.Counter()
for t in texts.values():
    words.update(set(TOKEN.findall(bare(t))))

turned = {"is_below": "is_below_lem", "len_off": "len_off_lem", "one_byte": "one_byte_lem", "none_done": "none_done_lem", "has_room": "has_room_lem", "all_done": "every_done", "at_rest": "rests", "no-message": "nobody_waits", "is-run": "runs_by"}
not_after_dot = {"is_below", "len_off", "one_byte", "none_done", "has_room"}
turned["first_of"] = "first_members"
not_after_dot.add("first_of")
for w in sorted(words):
    if re.fullmatch(r"[a-z][a-z0-9]*(?:[A-Z][a-z0-9]*)+[0-9₀-₉']*", w) and (w in defined or w == "isRun"):
        turned[w] = snake(w)
heads = {snake(w) for w in in_specs if "-" not in w and len(w) > 2} | STD
taken = {turned.get(w, w) for w in words if "-" not in w} | {turned.get(w, w) for w in defined if "-" not in w}
for w in sorted(defined):
    if w in turned or "-" not in w or w.startswith("+") or not re.match(r"[A-Za-z]", w) or re.search(r"-Inv-", w) or w.endswith("-spec"):
        continue
    parts = [snake(x) for x in w.split("-")]
    new = parts[0]
    for a, b in zip(parts, parts[1:]):
        new += ("-" if a in heads and b in heads else "_") + b
    if new in taken or new in RESERVED or new in STD or turned.get(new, new) in in_specs:
        new += "_lem"
    taken.add(new)
    turned[w] = new
fell = [n for n, k in collections.Counter(turned.values()).items() if k > 1]
assert not fell, fell


def respelt(path, text):
    """The text with each whole name turned; in a walk of a function no name that Rattle made."""
    walked = path in WALKED
    mine = makes.get(path, ())

    def name(m):
        w = m.group(1)
        if w not in turned:
            return w
        dotted = m.start() > 0 and text[m.start() - 1] == "."
        if w in not_after_dot and dotted and not re.search(r"specs\.\w+\.$", text[: m.start()]):
            return w
        if walked and "-" in w:
            if w in mine or (dotted and (w not in fields or w.replace("-", "_") in functions)):
                return w
        return turned[w]

    return TOKEN.sub(name, text)


def parts_respelt(path, text):
    """The same outside strings; a comment's names in backticks too."""
    out, at = [], 0
    for m in STRING_OR_COMMENT.finditer(text):
        out.append(respelt(path, text[at : m.start()]))
        out.append(m.group(1) or re.sub(r"`[^`\n]*`", lambda k: respelt(path, k.group(0)), m.group(2)))
        at = m.end()
    out.append(respelt(path, text[at:]))
    return "".join(out)


def write(path, text, old):
    if text != old:
        with open(path, "w", encoding="utf-8", newline="") as f:
            f.write(text)


CAMEL = re.compile(r"\b[a-z][a-z0-9]*(?:[A-Z][a-z0-9]*)+\b")
for p in ANTT:
    write(p, parts_respelt(p, texts[p]), texts[p])
for p in RT:
    t = read(p)
    new = CAMEL.sub(lambda m: turned.get(m.group(0), m.group(0)), t)
    # In a clause or an import `first_of` is the definition; in code the function.
    new = re.sub(r"(?m)^(ghost use .*|\s*(?:ensures|requires)\b.*)$", lambda m: re.sub(r"\bfirst_of\b", "first_members", m.group(0)), new)
    write(p, new, t)
for p in EDITS:
    t = read(p)
    antt = re.search(r"^file: (specs|proofs)/", t, re.M)
    lines = []
    for line in t.split("\n"):
        if re.match(r"(old|new):", line):
            line = parts_respelt(p, line) if antt else CAMEL.sub(lambda m: turned.get(m.group(0), m.group(0)), line)
        lines.append(line)
    write(p, "\n".join(lines), t)
for p in PAGES:
    t = read(p)
    if p.endswith(".md"):
        new = re.sub(r"`[^`\n]*`", lambda k: respelt(p, k.group(0)) if not re.search(r"\s", k.group(0)) or CAMEL.search(k.group(0)) else k.group(0), t)
    else:
        new = CAMEL.sub(lambda m: turned.get(m.group(0), m.group(0)), t)
    write(p, new, t)
print(len(turned), "names")
