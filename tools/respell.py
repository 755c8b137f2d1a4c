#!/usr/bin/env python3
# Brings the names of this repository's own definitions and lemmas to the spelling of the installed Rattle: words in
# snake case. Run once, at the top, after port.py. It also renames the crate `check`, since the kit has a library of
# that name, and respells nothing of src/ but what stands there from specs/ and proofs/.
import glob, os, re, sys

WORD = r"[\w'◌∷≡≤+*/^-]+"

# A dash stays where it joins two names: a function, and what it is taken of.
JOINED = {
    "inside-drop", "writable-drop", "length-cleared", "length-held",
    "follow-stop", "follow-again", "played-stop", "played-again", "settles-stop", "settles-again",
}
# Lemmas that would get their function's name, and names that hold an older name of the library.
GIVEN = {
    "first-line": "first_line_lem", "input-line": "input_line_lem", "node-line": "node_line_lem",
    "newest-first": "newest_first_lem", "getD-five": "get_or_five",
}
CRATE = ("check", "checker")


def files():
    for place in ("specs", "proofs", "src"):
        for end in ("antt", "rt"):
            for path in glob.glob(f"crates/*/{place}/**/*.{end}", recursive=True):
                yield path


def own_names():
    """Every name that a signature in specs/ or proofs/ declares, but for answers to goals."""
    signature = re.compile(r"^\s*(?:abbrev pub|abbrev|unfoldable pub|unfoldable|pub)?\s*(" + WORD + r")\s*:(?:\s|$)")
    found = set()
    for path in files():
        if not path.endswith(".antt") or os.path.basename(path) in ("Answers.antt", "Invariants.antt"):
            continue
        for line in open(path):
            match = signature.match(line)
            if match and not line.lstrip().startswith(("--", "use")):
                found.add(match.group(1))
    return found


def answer_lemmas():
    """Lemmas that stand beside answers: names that no goal has."""
    found = set()
    for path in files():
        if os.path.basename(path) != "Answers.antt":
            continue
        for line in open(path):
            match = re.match(r"^(" + WORD + r") : (?!goal\.)", line)
            if match:
                found.add(match.group(1))
    return found


def snake(name):
    if name in GIVEN:
        return GIVEN[name]
    if name in JOINED:
        return name
    name = re.sub(r"([a-z0-9])([A-Z])", lambda m: m.group(1) + "_" + m.group(2).lower(), name)
    return name.replace("-", "_")


def renames():
    table = {}
    for name in own_names() | answer_lemmas():
        if name[0].isupper() or not re.match(r"^[a-z]", name):
            continue
        new = snake(name)
        if new != name:
            table[name] = new
    return table


def main():
    table = renames()
    if "--list" in sys.argv:
        for old in sorted(table):
            print(old, table[old])
        return
    for path in list(files()):
        text = open(path).read()
        new = re.sub(WORD, lambda m: table.get(m.group(0), m.group(0)), text)
        if new != text:
            open(path, "w").write(new)
    rename_crate()


def rename_crate():
    old, new = CRATE
    if not os.path.isdir(f"crates/{old}"):
        return
    os.rename(f"crates/{old}", f"crates/{new}")
    for path in list(files()):
        text = open(path).read()
        changed = text.replace(f"Rattle.{old}.", f"Rattle.{new}.")
        if path.endswith(".rt") and not path.startswith(f"crates/{new}/"):
            changed = re.sub(rf"\buse {old}::", f"use {new}::", changed)
        if changed != text:
            open(path, "w").write(changed)
    lines = open("crates.txt").read().split("\n")
    lines = [line if line.startswith("#") else re.sub(rf"\b{old}\b", new, line) for line in lines]
    open("crates.txt", "w").write("\n".join(lines))


if __name__ == "__main__":
    main()
