#!/usr/bin/env python3
"""Brings the definitions and lemmas of this repository to the spelling of the Rattle library: words in snake case, types
and modules in camel case.

usage: python3 tools/respell.py          at the top of the repository, once, after the kit's port.py

A word is what a file of specs/ or proofs/ declares with a small first letter: a definition, a lemma, a field, a
constructor; or what an import calls one. Goals, steps and functions of src/ keep their names. The script stops, and
writes nothing, where two names would fall together.
"""

import glob
import re
import sys

# Where the plain respelling of a word is taken already, by another word or by a name of src/.
CHOSEN = {
    "all-at": "all_at_lem",
    "at-cell": "at_cell_lem",
    "at-term": "at_term_lem",
    "bit-and": "bit_of_and",
    "bit-or": "bit_of_or",
    "expr-in": "expr_in_lem",
    "field-from": "field_from_lem",
    "inOrder": "element_in_order",
    "in-range": "numbers_in_range",
    "number-at": "number_at_lem",
    "numberCut": "cut_of_number",
    "sides-of": "sides_of_lem",
    "sign-byte": "sign_byte_lem",
    "stored-bit": "stored_bit_lem",
    "terms-of": "terms_of_lem",
}

# Functions of src/ that a definition mirrors, or that another crate has: a clause cannot name a function, so nothing
# is hidden.
MIRRORED = {"big_endian", "bytes_for", "field_bit", "in_box", "is_sign", "run_end", "sample_bytes", "term_start", "told_apart"}

TOKEN = re.compile(r"[^\s(){}\[\],;.:=|\"`«»λ⌜⌝∥]+")
DECLARED = re.compile(r"^\s*(?:(?:pub|abbrev|unfoldable|data|record|ruleset)\s+)*([^\s(){}\[\]:,;=.|λ\"]+)\s*(?:\{[^}]*\}\s*|\([^)]*\)\s*)*:(?!=)")


def sources(kind):
    if kind == "antt":
        return sorted(glob.glob("crates/*/specs/**/*.antt", recursive=True) + glob.glob("crates/*/proofs/**/*.antt", recursive=True))
    return sorted(glob.glob("crates/*/src/**/*.rt", recursive=True))


def read(path):
    with open(path, encoding="utf-8") as f:
        return f.read()


def snake(name):
    parts = [re.sub(r"(?<=[a-z0-9])([A-Z])", lambda m: "_" + m.group(1).lower(), p) if p[:1].islower() else p for p in name.split("-")]
    return "_".join(parts).replace("′", "'")


def declared():
    words = set()
    for path in sources("antt"):
        for line in read(path).splitlines():
            m = DECLARED.match(line)
            if m and not re.search(r":\s*goal\.", line):
                words.add(m.group(1))
    for path in sources("antt") + sources("rt"):
        words |= set(re.findall(r"\bas ([a-z]\w*[A-Z]\w*)", re.sub(r"//.*", "", read(path))))
    return {w for w in words if w[:1].islower() and re.search(r"[a-z]", w)}


def imported():
    """Names that come from the library, which an own name must not take in a file that imports it."""
    names = set()
    for path in sources("antt") + sources("rt"):
        for m in re.finditer(r"use (?!Rattle\.(?!std\.))[\w.·]*\.\{([^}]*)\}", read(path)):
            names |= {n.strip().split(" as ")[-1] for n in m.group(1).split(",")}
    return names


def plan(words):
    new = {w: CHOSEN.get(w, snake(w)) for w in words}
    changed = {w: n for w, n in new.items() if w != n}
    taken = {}
    for w, n in new.items():
        taken.setdefault(n, []).append(w)
    code = set()
    for path in sources("rt"):
        text = re.sub(r"//.*", "", read(path))
        code |= set(re.findall(r"\b[a-z_][a-z0-9_]*\b", text))
    library = imported()
    bad = [f"{n}: {' '.join(sorted(ws))}" for n, ws in sorted(taken.items()) if len(ws) > 1]
    bad += [f"{n}: {w} and a name of src/" for w, n in sorted(changed.items()) if n in code - MIRRORED]
    bad += [f"{n}: {w} and a name of the library" for w, n in sorted(changed.items()) if n in library]
    return changed, bad


def respelled(text, changed, code):
    """The text with its words respelled; in code, strings stay, and only camel-case words are looked for."""

    def turn(m):
        w = m.group(0)
        if w not in changed or (code and "-" in w and not w[:1].islower()):
            return w
        before = text[: m.start()]
        if re.search(r"(?<![\w-])c\.$", before):
            return w
        if code and before[before.rfind("\n") + 1 :].count('"') % 2:
            return w
        return changed[w]

    return TOKEN.sub(turn, text)


def main():
    changed, bad = plan(declared())
    if bad:
        print("\n".join(bad))
        print(f"respell: {len(bad)} names fall together; nothing was written")
        return 1
    n = 0
    for kind in ("antt", "rt"):
        for path in sources(kind):
            old = read(path)
            new = respelled(old, changed, kind == "rt")
            if new != old:
                with open(path, "w", encoding="utf-8") as f:
                    f.write(new)
                n += 1
    for path in sorted(glob.glob("crates/*/must-fail/*.edit")):
        old = read(path)
        new = respelled(old, {w: s for w, s in changed.items() if "-" not in w}, True)
        if new != old:
            with open(path, "w", encoding="utf-8") as f:
                f.write(new)
            n += 1
    for path in ["README.md", "CONTRIBUTING.md"] + sorted(glob.glob("docs/*.md")):
        old = read(path)
        new = re.sub(r"`[^`\n]+`", lambda m: respelled(m.group(0), changed, False), old)
        if new != old:
            with open(path, "w", encoding="utf-8") as f:
                f.write(new)
            n += 1
    print(f"respell: {len(changed)} words in {n} files")
    return 0


if __name__ == "__main__":
    sys.exit(main())
