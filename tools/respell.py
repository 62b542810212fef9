#!/usr/bin/env python3
"""Brings the repository's own definitions, lemmas, record fields and constructors to the spelling of today's Rattle.

usage: tools/respell.py [--list]     at the top of the repository, once, after the toolchain's own port.py

A word is in snake case: each dash in a name of this repository's becomes an underscore. A dash stays where it joins two
names, as in `length-less`, the length of `less`. What the toolchain makes (names of goals and loops) and functions of
src/ keep their names. A name that would fall together with another one, or with a function, constant or parameter of a
file that uses it, stops the script before it writes anything.
"""

import os
import re
import sys

TOP = os.path.dirname(os.path.dirname(os.path.realpath(__file__)))
CRATES = os.path.join(TOP, "crates")
NAME = r"[^\s(){}\[\],;.:=@\"]+"
TOKEN = re.compile(r"[^\s(){}\[\],;.:=@\"]+")
DEFINED = re.compile(r"\s*(?:(?:abbrev|pub|unfoldable|opaque)\s+)*(?:(record|data)\s+)?(" + NAME + r")(?:\s+[^=:]*)?\s*:(?:\s|$)")
WORDS = {"use", "mod", "let", "open", "module", "λ"}

# a lemma named after the function that it speaks of and a name that stands under it keeps the dash between the two
HEADS = ("length", "total")
PLACES = ("getD", "slice_index")

# names that would otherwise be those of a function in a file that uses both, or that the library gave another spelling
OTHERS = {
    "length_cut": "length-cut",
    "letters-of": "letters_of",
    "by-fields": "kind_by_fields",
    "kind-of": "line_kind",
    "of_one": "kind_of_one",
    "of_two": "kind_of_two",
    "of_three": "kind_of_three",
    "of_four": "kind_of_four",
    "is_digit": "is_decimal_digit",
    "is-class": "is_class_number",
    "is-reserved": "is_reserved_number",
}

# there are two `letters-of`: of a form, and of a field of a line. A function of casefile has the second one's other name
FIELDS = re.compile(r"Rattle\.casefile\.specs\.Calls\.\{[^}]*letters-of|abbrev pub letters-of : List ℕ → Option")

# a clash that stood before: a parameter of one function, a definition in the clauses of another
KNOWN = {("transcript/calls.rt", "answer")}


# names that are bound inside a proof or a definition
LOCAL = (
    "all-pressed", "answer-is", "as-decimal", "as-made", "claims-are", "claims-long", "class-passes", "classes-long",
    "cut-others", "cut-own", "due-e", "given-part", "given-rest", "hand-is", "held-is", "is-a", "is-d", "is-e",
    "less-left", "long-left", "long-mine", "long-others", "long-part", "long-right", "long-xy", "long-xz", "loss-is",
    "mark-passes", "more-held", "no-refusal", "not-it", "number-passes", "others-none", "out-passes", "own-filled",
    "own-rights", "own-total", "part-is", "reached-others", "read-too", "rest-filled", "rest-own", "room-passes",
    "same-amount", "same-front", "table-passes", "told-so", "turned-share", "with-form", "with-total", "worked-are",
    "yes-to-all", "zero-first", "zero-sum",
)


def antt_files(*folders):
    for crate in sorted(os.listdir(CRATES)):
        for folder in folders:
            for where, dirs, files in os.walk(os.path.join(CRATES, crate, folder)):
                dirs[:] = sorted(d for d in dirs if d != "out")
                for f in sorted(files):
                    if f.endswith(".antt"):
                        yield crate, os.path.join(where, f)


def answers(path):
    """Whether a file answers the toolchain's goals, whose names are not ours."""
    return os.path.basename(path) in ("Answers.antt", "Invariants.antt", "Proof.antt", "Choices.antt")


def defined():
    names = set()
    for _, path in antt_files("specs", "proofs"):
        if answers(path):
            continue
        for line in open(path, encoding="utf-8"):
            m = DEFINED.match(line)
            if m and m[2] not in WORDS and not line.lstrip().startswith("--"):
                names.add(m[2])
    return names


def turned(name, bases):
    if name in OTHERS:
        return OTHERS[name]
    plain = name.replace("-", "_").replace("′", "'")
    head, _, rest = name.replace("′", "'").partition("-")
    below = rest.replace("-", "_")
    if rest and below in bases:
        if head in HEADS:
            return head + "-" + below
        if head in PLACES:
            return "slice_index-" + below
    if head == "getD":
        return "slice_index_" + below
    return plain


def table():
    names = defined()
    bases = {n.replace("-", "_") for n in names} | {"take", "drop", "map"}
    out = {}
    for n in sorted(names):
        if "-" in n or "′" in n or n in OTHERS:
            to = turned(n, bases)
            if to != n:
                out[n] = to
    for n in LOCAL:
        out[n] = n.replace("-", "_")
    seen = {n: n for n in names if n not in out}
    for n, to in out.items():
        if to in seen:
            sys.exit(f"respell: {n} and {seen[to]} would both be {to}")
        seen[to] = n
    return out


def clashes(out):
    """Names of a .rt file's ghost imports that would be those of its own functions, constants, fields or parameters."""
    found = []
    for crate in sorted(os.listdir(CRATES)):
        for where, _, files in os.walk(os.path.join(CRATES, crate, "src")):
            for f in sorted(files):
                if not f.endswith(".rt"):
                    continue
                text = open(os.path.join(where, f), encoding="utf-8").read()
                ghosts = set()
                for m in re.finditer(r"ghost use [^;]*?\{([^}]*)\};", text):
                    ghosts |= {w.strip().split(" as ")[-1] for w in m[1].split(",")}
                code = re.sub(r"ghost use [^;]*;", "", text)
                own = set(re.findall(r"\b(?:fn|const|struct|enum|let|mut)\s+(\w+)", code)) | set(re.findall(r"\b(\w+)\s*:(?!:)", code)) | set(re.findall(r"\buse [^;]*?(\w+);", code))
                for g in sorted(ghosts):
                    to = "field_letters" if g == "letters-of" and FIELDS.search(text) else out.get(g, g)
                    if to in own and (os.path.join(crate, f), g) not in KNOWN:
                        found.append((os.path.join(crate, f), g, to))
    return found


def respelled(path, text, out):
    """The text with the names turned. A name without a dash may also be that of a function, so in code and in paths it stays."""
    if FIELDS.search(text):
        out = dict(out, **{"letters-of": "field_letters"})
    dashed = {n: to for n, to in out.items() if "-" in n or "′" in n}
    plain = {n: to for n, to in out.items() if n not in dashed}
    text = TOKEN.sub(lambda m: dashed.get(m[0], m[0]), text)
    if path.endswith(".antt"):
        return re.sub(r"(?<![\w.'-])\w+(?![\w.'-])", lambda m: plain.get(m[0], m[0]), text)
    if path.endswith(".rt"):
        return re.sub(r"(?m)^(?:ghost use [^;]*;|\s*(?:requires|ensures|ghost)\b.*)$", lambda l: re.sub(r"\w+", lambda m: plain.get(m[0], m[0]), l[0]), text)
    return text


def main():
    out = table()
    if "--list" in sys.argv:
        for n, to in out.items():
            print(n, to)
    clash = clashes(out)
    for c in clash:
        print("respell: clash", *c)
    if "--list" in sys.argv:
        return
    if clash:
        sys.exit(1)
    changed = 0
    for crate in sorted(os.listdir(CRATES)):
        for folder in ("src", "specs", "proofs", "must-fail"):
            for where, dirs, files in os.walk(os.path.join(CRATES, crate, folder)):
                for f in sorted(files):
                    if not f.endswith((".rt", ".antt", ".edit")):
                        continue
                    path = os.path.join(where, f)
                    text = open(path, encoding="utf-8").read()
                    new = respelled(path, text, out)
                    if new != text:
                        open(path, "w", encoding="utf-8").write(new)
                        changed += 1
    pages = [os.path.join(TOP, "README.md")] + [os.path.join(TOP, "docs", f) for f in sorted(os.listdir(os.path.join(TOP, "docs"))) if f.endswith(".md")]
    for path in pages:
        text = open(path, encoding="utf-8").read()
        new = re.sub(r"`[^`\n]*`", lambda code: re.sub(r"[^\s(){}\[\],;.:=@\"`]+", lambda m: out.get(m[0], m[0]), code[0]), text)
        if new != text:
            open(path, "w", encoding="utf-8").write(new)
            changed += 1
    print(f"respell: {len(out)} names, {changed} files")


main()
