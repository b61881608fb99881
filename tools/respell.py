#!/usr/bin/env python3
"""Brings the repository's own names to today's spelling: words in snake case, types and modules in camel case.

usage: python3 tools/respell.py     at the top of the checkout, once, right after port.py of the kit

A name is a word of antt's as it stands between blanks, brackets, dots and commas. It is respelled where it is lower camel case (`elementAt`) or
has a dash between letters (`rows-length`), in every .antt and .rt file, in the edits of definitions, and between backticks in the pages. Names
of the library stay: whatever a file brings from outside the repository, and what stands behind a dot after such a module. Where one file would
have two names become one, that is printed; with --force it goes on (a function of src/ and the word that its contract cites may share a name,
and so may a field and a function).
"""

import collections
import os
import re
import sys

WORD = re.compile(r"[^\s(){}\[\],;.:\"`⟨⟩⌜⌝@#|∣\\/*!?&=<>+]+")
USE = re.compile(r"^\s*(pub )?(ghost )?use ([^\s{;]+?)(?:\.\{([^}]*)\})?(?: as (\S+?))?;?$")
# what stands in comments alone and is no name: differences, and words of prose
STAY = set("21-l K-1 L-1 L-l T1-T0 T2-T1 base-8 k-th x-h y-h z-h".split())
# a lemma that would fall together with the word it is about, and what it becomes
GIVEN = {
    w: re.sub(r"-", "_", re.sub(r"(?<=[a-z])([A-Z])", lambda m: "_" + m.group(1).lower(), w)) + "_lem"
    for w in (
        "all_digits at-root columns_of compare-result grid-of in-float grid-result in-range inPlan in_order is_digit leading-zero line-result near-levels "
        "number-result numberOf-child old-read pass-result point-result position_at prism-result same_key step-to triangle-result truth-result"
    ).split()
}
# the same, in one crate's proofs alone: elsewhere the word is a field's
GIVEN_IN = {("crates/index/proofs", "type-above"): "type_above_lem"}


def texts():
    for folder, dirs, files in os.walk("crates"):
        dirs[:] = sorted(d for d in dirs if d != "out")
        for f in sorted(files):
            if f.endswith((".antt", ".rt")):
                yield os.path.join(folder, f)


def edits():
    for crate in sorted(os.listdir("crates")):
        folder = os.path.join("crates", crate, "must-fail")
        for f in sorted(os.listdir(folder)) if os.path.isdir(folder) else []:
            p = os.path.join(folder, f)
            if f.endswith(".edit") and not re.search(r"(?m)^file: src/", open(p, encoding="utf-8").read()):
                yield p


def own(module):
    it = re.match(r"Rattle\.(\w+)(\.|$)", module)
    return bool(it) and os.path.isdir(os.path.join("crates", it.group(1)))


def snake(name):
    name = re.sub(r"(?<=[\w'₀-₉])-(?=[\w'])", "_", name)
    parts = name.split("_")
    if re.match(r"[a-z]", parts[0]):
        parts = [re.sub(r"(?<=[a-z0-9])([A-Z])(?=[a-z])", lambda m: "_" + m.group(1).lower(), p) if p[:1].islower() else p for p in parts]
    return "_".join(parts)


def given(path, name):
    for (folder, word), new in GIVEN_IN.items():
        if word == name and path.startswith(folder + "/"):
            return new
    return GIVEN.get(name) if "/proofs/" in path else None


def outside(lines):
    """What the repository's files bring from outside, and the modules from outside that they name."""
    names, modules = set(), set()
    for line in lines:
        it = USE.match(line.rstrip())
        if not it or own(it.group(3)):
            continue
        if not (it.group(2) or not line.rstrip().endswith(";")):
            continue
        if it.group(4):
            names |= {n.strip().split(" as ")[0] for n in it.group(4).split(",")}
        else:
            modules.add(it.group(5) or it.group(3).split(".")[-1])
    return names, modules


def main():
    files = {p: open(p, encoding="utf-8").read() for p in texts()}
    names, modules = set(), set()
    for text in files.values():
        n, m = outside(text.splitlines())
        names |= n
        modules |= m
    seen = set()
    for text in files.values():
        for line in text.splitlines():
            seen |= set(WORD.findall(line))
    turned = {w: snake(w) for w in seen if w not in names and w not in STAY and snake(w) != w}
    bad = 0
    for p, text in files.items():
        back = collections.defaultdict(set)
        for line in text.splitlines():
            for it in WORD.finditer(line):
                if line[: it.start()].endswith("."):
                    continue
                w = it.group(0)
                back[given(p, w) or turned.get(w, w)].add(w)
        for new, olds in sorted(back.items()):
            if len(olds) > 1:
                print(f"fall together: {p}: {', '.join(sorted(olds))} -> {new}")
                bad += 1
    if "--list" in sys.argv:
        for old, new in sorted(turned.items()):
            print(old, new)
        return 0
    if bad and "--force" not in sys.argv:
        return 1
    after = re.compile(r"(?:" + "|".join(re.escape(m) for m in sorted(modules, key=len, reverse=True)) + r")\.$") if modules else None

    def turn(p, line):
        def one(m):
            if after and after.search(line[: m.start()]):
                return m.group(0)
            if not line[: m.start()].endswith("."):
                new = given(p, m.group(0))
                if new:
                    return new
            return turned.get(m.group(0), m.group(0))
        return WORD.sub(one, line)

    changed = 0
    for p, text in files.items():
        new = "".join(turn(p, l) for l in text.splitlines(keepends=True))
        if new != text:
            changed += 1
            with open(p, "w", encoding="utf-8") as f:
                f.write(new)
    # pages: names between backticks; edits of definitions and proofs
    pages = ["README.md"] + [os.path.join("docs", f) for f in sorted(os.listdir("docs")) if f.endswith(".md")]
    for p in pages + list(edits()):
        text = open(p, encoding="utf-8").read()
        new = text if p.endswith(".edit") else re.sub(r"`[^`\n]*`", lambda m: turn(p, m.group(0)), text)
        if p.endswith(".edit"):
            new = "".join(l if l.startswith("#") else turn(p, l) for l in text.splitlines(keepends=True))
        if new != text:
            changed += 1
            with open(p, "w", encoding="utf-8") as f:
                f.write(new)
    print(f"respelled {len(turned)} names in {changed} files")
    return 0


if __name__ == "__main__":
    raise SystemExit(main())
