#!/usr/bin/env python3
"""Respells the repository's own names in crates/*/specs, crates/*/proofs, the clauses of crates/*/src and the pages.

A name that begins with a capital loses its dashes and underscores and keeps a capital for each word (`Read-as-made` becomes
`ReadAsMade`); in any other name a dash becomes an underscore (`mask-of` becomes `mask_of`). Names of the library, of the
toolchain's generated modules and of the code are left alone, and so are comments, strings and must-fail edits.

usage: tools/respell.py [FOLDER]     FOLDER is the top of a checkout; this one if it is not given

Run it once, after the toolchain's port.py. A second run changes nothing. It stops if two names would fall together.
"""
import os
import re
import sys

OWN = ("ei", "host", "store", "records", "tables", "law", "converter", "sessions", "wording", "showing", "script", "listing", "replay")
NAME = r"[A-Za-z_ℕℤ][^\s(){}\[\],;.:⌜⌝«»\"`|]*"
TOKEN = re.compile(r"(?<![\w'-])" + NAME)
DEFINED = [
    re.compile(r"^(?:abbrev |unfoldable )?(?:pub )?(?:abbrev )?(" + NAME + r")\s+:(?!:)(.*)$", re.M),
    re.compile(r"^(?:pub )?(?:data|record) (" + NAME + r")()", re.M),
    re.compile(r"^  (?:pub )?(" + NAME + r") :(?!:)()", re.M),
    re.compile(r"^ +abbrev (?:pub )?(" + NAME + r") :(?!:)()", re.M),
]
IMPORTED = re.compile(r"use (?!Rattle\.(?:" + "|".join(OWN) + r")\.)[^\n]*?\{([^}]*)\}")
ALIAS = re.compile(r"(?<= as )([a-z]\w*-[\w-]+)(?=[,};])")
COMMENT = re.compile(r"(?:^|(?<=\s))--(?=\s|$)[^\n]*", re.M)
ASIDE = re.compile(r'//[^\n]*|b?"(?:[^"\\]|\\.)*"|b?\'(?:[^\'\\\n]|\\.)\'')


def respelled(name):
    if name[0].isupper():
        return "".join(word[:1].upper() + word[1:] for word in re.split("[-_]", name))
    return name.replace("-", "_")


def files(top, ending):
    for folder, folders, names in os.walk(os.path.join(top, "crates")):
        folders[:] = sorted(f for f in folders if f != "out")
        for name in sorted(names):
            if name.endswith(ending):
                yield os.path.join(folder, name)


def read(path):
    with open(path, encoding="utf-8") as file:
        return file.read()


def is_answer(path):
    return os.path.basename(path) in ("Answers.antt", "Invariants.antt")


def own_names(top):
    """Each name that the repository defines: definitions, lemmas, fields and constructors. An answer to a goal is none."""
    own = set()
    for path in files(top, ".antt"):
        for form in DEFINED:
            for found in form.finditer(read(path)):
                if not (is_answer(path) and found[2].strip().startswith("goal.")):
                    own.add(found[1])
    return own


def imported_names(text):
    return {item.strip().split(" as ")[-1] for found in IMPORTED.finditer(text) for item in found[1].split(",")}


def bound_names(text):
    """The names with a dash that a lemma file binds itself: parameters, pattern variables, lets and module aliases."""
    taken = imported_names(text)
    made = re.compile(r"in-[A-Z0-9]|returns-|loop-|then-|else-|if-")
    return {w for w in TOKEN.findall(text) if "-" in w and w not in taken and not made.match(w) and re.fullmatch(r"[\w'-]+", w)}


def outside(apart, text, change):
    """The text with every part outside of what `apart` matches put through `change`."""
    out, at = [], 0
    for found in apart.finditer(text):
        out += [change(text[at : found.start()]), found[0]]
        at = found.end()
    return "".join(out) + change(text[at:])


def main(top):
    own = {name for name in own_names(top) if respelled(name) != name}
    plain = own_names(top) - own
    together = sorted(name for name in own if respelled(name) in plain)
    together += sorted(a for a in own for b in own if a < b and respelled(a) == respelled(b))
    if together:
        raise SystemExit("these names would fall together with others: " + ", ".join(together))
    changed = 0
    for path in [*files(top, ".antt"), *files(top, ".rt")]:
        text = read(path)
        words = own - imported_names(text)
        words |= {w for w in ALIAS.findall(text) if respelled(w) != w}
        if path.endswith(".antt") and not is_answer(path):
            words |= bound_names(COMMENT.sub("", text))
        turn = lambda part: TOKEN.sub(lambda m: respelled(m[0]) if m[0] in words else m[0], part)
        new = outside(COMMENT if path.endswith(".antt") else ASIDE, text, turn)
        if new != text:
            changed += 1
            with open(path, "w", encoding="utf-8") as file:
                file.write(new)
    pages = [os.path.join(top, "README.md")] + [os.path.join(top, "docs", f) for f in sorted(os.listdir(os.path.join(top, "docs"))) if f.endswith(".md") and not f.startswith("PORT")]
    for path in pages:
        text = read(path)
        new = re.sub(r"`[^`\n]+`", lambda q: TOKEN.sub(lambda m: respelled(m[0]) if m[0] in own else m[0], q[0]), text)
        if new != text:
            changed += 1
            with open(path, "w", encoding="utf-8") as file:
                file.write(new)
    print(f"respell: {len(own)} names, {changed} files")


if __name__ == "__main__":
    main(sys.argv[1] if len(sys.argv) > 1 else os.path.dirname(os.path.dirname(os.path.realpath(__file__))))
