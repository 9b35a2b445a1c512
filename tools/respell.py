#!/usr/bin/env python3
"""Brings this repository's own definitions, lemmas and labels to snake case, and its types and laws to camel case.

usage: python3 tools/respell.py [ROOT]     once, after port.py, at the top of the repository

It goes by words of code: comments and strings stay, but for names in backticks. Functions of src/, exported names,
inputs and outputs are in snake case already and are not touched. Names that a file imports from the kit stay, and in the
proofs of a function so do the names that the check makes. Names that would fall together are given apart below.
"""

import os
import re
import sys

# Names that would fall together with another: each gets a name of its own.
APART = {
    "number-of": "fault_number",      # of a fault; number_of is a refusal's
    "type-of": "type_of_tree",        # a local equation; type_of is the type of a kind
    "child-at": "subtree_at",         # of an expression; child_at is a record's
    "columnType": "column_with_type", # of an input line; column_type is a schema's
}

WORD = re.compile(r"[^\W\d](?:[\w']|-(?=\w))*")
CAMEL = re.compile(r"^[a-z][a-z0-9']*[A-Z]")
# What is passed over: comments, strings, byte strings, characters.
RUST = re.compile(r'//[^\n]*|b?"(?:\\.|[^"\\])*"|b?\'(?:\\.|[^\'\\])\'')
SPECS = re.compile(r"(?<!\S)--[^\n]*")
TICKS = re.compile(r"`[^`\n]+`")


# Two words of one name in one crate: the bytes of a value, of Comparing, apart from the bytes of a text, of HostCode.
VALUE_BYTES = re.compile(r"\buse Rattle\.meaning\.specs\.Comparing\.\{[^}]*\bbytes_of\b|^abbrev pub bytes_of : Value ", re.M)

# An import: a path and the names in its braces.
IMPORT = re.compile(r"\buse ([\w.'·-]+)\.\{([^}]*)\}")


def of_the_kit(text, crates):
    """The names that a file imports from elsewhere than the repository's crates."""
    kit = set()
    for path, names in IMPORT.findall(text):
        parts = path.split(".")
        if parts[0] != "Rattle" or len(parts) < 2 or parts[1] not in crates:
            kit.update(WORD.findall(names))
    return kit


def respelled(word):
    if word in APART:
        return APART[word]
    if "-" in word and word[0].isupper():
        return "".join(p[:1].upper() + p[1:] for p in word.split("-"))
    if "-" in word or CAMEL.match(word):
        word = word.replace("-", "_")
        return re.sub(r"(?<=[a-z0-9'])([A-Z])", lambda m: "_" + m.group(1).lower(), word)
    return word


def code(text, stays):
    return WORD.sub(lambda m: m.group() if stays(m.group()) else respelled(m.group()), text)


def comment(text, stays):
    return TICKS.sub(lambda m: code(m.group(), stays), text)


def turned(text, skip, stays):
    out, at = [], 0
    for m in skip.finditer(text):
        out.append(code(text[at:m.start()], stays))
        kept = m.group()
        out.append(comment(kept, stays) if kept.startswith(("//", "--")) else kept)
        at = m.end()
    out.append(code(text[at:], stays))
    return "".join(out)


def files(root):
    for folder, dirs, names in os.walk(os.path.join(root, "crates")):
        dirs[:] = sorted(d for d in dirs if d != "out")
        for name in sorted(names):
            if name.endswith((".rt", ".antt")):
                yield os.path.join(folder, name)


def of_a_function(path):
    """Whether a file is part of a function's proof, where other names than its own are the check's."""
    parts = path.split(os.sep)
    return parts[-2] not in ("specs", "proofs") and path.endswith(".antt")


def main():
    root = sys.argv[1] if len(sys.argv) > 1 else "."
    crates = set(os.listdir(os.path.join(root, "crates")))
    texts = {}
    for path in files(root):
        with open(path, encoding="utf-8") as f:
            texts[path] = f.read()
    own = set()
    for path, text in texts.items():
        if path.endswith(".antt") and not of_a_function(path):
            own.update(WORD.findall(SPECS.sub("", text)))
            own -= of_the_kit(text, crates)
    changed = 0
    for path, old in texts.items():
        kit = of_the_kit(old, crates)
        made = of_a_function(path)
        new = turned(old, RUST if path.endswith(".rt") else SPECS, lambda w: w in kit or (made and w not in own))
        if VALUE_BYTES.search(new):
            new = re.sub(r"\bbytes_of\b", "value_bytes", new)
        if new != old:
            with open(path, "w", encoding="utf-8") as f:
                f.write(new)
            changed += 1
    print(f"respell: {changed} files changed")


main()
