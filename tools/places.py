#!/usr/bin/env python3
"""Lists the places of the design pass (docs/DESIGN-PASS.md) in a tree: python3 tools/places.py [FOLDER]

Each row of POINTS is a point, a word for its kind and a pattern that is sought in every line of crates/*/src. `twins` is sought otherwise:
functions whose texts are the same once each name is one letter and each number or string another.
"""
import collections
import pathlib
import re
import sys

POINTS = [
    ("1", "an own enum with a case for nothing", r"^    (None|Nothing)(,|\()"),
    ("1", "a match that only passes nothing or a refusal on",
     r"(None|Err\([a-z_]+\)) => (None|false|0|Ok\(None\)|Err\()|Ok\(\(\)\) => 0"),
    ("1", "a number for a kind, a refusal or a set", r"\b(answer|kind|set): u(8|64)\b|\(.*\bu8\),$|error\.number\(\)"),
    ("1", "a yes or no with a value left in a place", r"place: &mut EiEvent\) -> bool"),
    ("2", "an impl of an own trait", r"^impl.* (Numbered|Interface|InterfaceKind|Host|Row|Handled|Record|Field) for "),
    ("3", "a loop that counts", r"\bfor \w+ in [\w.]+\.\.|^ *for \(i, .*enumerate\(\)|^ *(while|loop)\b.*\{$"),
    ("4", "equality or conversion by hand", r"fn (same|number|from_number|from_bits|index|within|with_zeros|hex_char)\("),
    ("4", "printing by hand", r"impl.*fmt::Display for"),
    ("5", "three ghost members together", r"(reading|steadied H.Host.reading\)?) (\(from_below )?(H.Host.)?(kept_|tape_)?notes"),
    ("5", "number and standing together", r"number: u64, standing: Standing|\(number, standing"),
    ("5", "words and scratch together", r"^    words: &mut Words,|words: &mut Words, scratch"),
    ("5", "the record of a handle, spelled out", r"\(first \((seat|device)_by_handle"),
    ("6", "an array or a buffer in a type", r"^    (pub )?\w+: (\[.*; \w+\]|Vec<.*>|VecDeque<.*>),$"),
    ("6", "a length beside it", r"^    (count|len): usize,"),
    ("7", "steps as values", r"enum \w*(Step|Stage)\b|fn step\w*\("),
]

FUNCTION = re.compile(r"^( *)(?:pub(?:\([a-z]+\))? )?fn (\w+)", re.M)


def functions(text):
    """Each function's name, line and text, from `fn` to the brace that ends it."""
    for found in FUNCTION.finditer(text):
        end = text.find("\n" + found.group(1) + "}\n", found.start())
        semicolon = text.find(";\n", found.start())
        brace = text.find("{\n", found.start())
        if end < 0 or brace < 0 or (0 <= semicolon < brace):
            continue
        yield found.group(2), text.count("\n", 0, found.start()) + 1, text[found.start():end]


KEPT = set("if else match for in let return mut ref break self Some None Ok Err true false".split())


def shape(text):
    """The text without clauses, with one letter for each name and one for each number or string."""
    text = re.sub(r"^ *(requires|ensures).*$", "", text, flags=re.M)
    text = re.sub(r"//.*$", "", text, flags=re.M)
    text = re.sub(r'b?"[^"]*"|\b\d\w*', "9", text)
    text = re.sub(r"[A-Za-z_]\w*(::[A-Za-z_]\w*)*", lambda m: m.group(0) if m.group(0) in KEPT else "x", text)
    return re.sub(r"[\s,]+", " ", text)


def main():
    folder = pathlib.Path(sys.argv[1] if len(sys.argv) > 1 else ".")
    files = sorted(folder.glob("crates/*/src/**/*.rt"))
    lines = [(f, n, line) for f in files for n, line in enumerate(f.read_text().splitlines(), 1)]
    for point, kind, pattern in POINTS:
        hits = [(f, n, line) for f, n, line in lines if not line.strip().startswith("//") and re.search(pattern, line)]
        print(f"point {point}, {kind}: {len(hits)}")
        for f, n, line in hits:
            print(f"    {f.relative_to(folder)}:{n}: {line.strip()[:110]}")
    alike = collections.defaultdict(list)
    for f in files:
        for name, line, text in functions(f.read_text()):
            alike[shape(text)].append(f"{f.relative_to(folder)}:{line}: {name}")
    groups = [places for text, places in alike.items() if len(places) > 1 and len(text) > 30]
    print(f"point 2, twins: {sum(len(places) for places in groups)} functions in {len(groups)} groups")
    for places in groups:
        print("    " + ", ".join(places))


main()
