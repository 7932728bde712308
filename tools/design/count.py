#!/usr/bin/env python3
"""count.py [COMMIT]: counts, for docs/DESIGN-PASS.md, the places of each point in crates/*/src and the proofs by hand, in the tree or at a commit.

Each line is a point, what is counted, and how many; with -v the places themselves."""
import re, subprocess, sys

words = [w for w in sys.argv[1:] if w != "-v"]
show = "-v" in sys.argv


def files():
    """Path and text of every source and proof file."""
    if words:
        names = subprocess.run(["git", "ls-tree", "-r", "--name-only", words[0], "crates"], stdout=subprocess.PIPE, text=True, check=True).stdout.split("\n")
        read = lambda n: subprocess.run(["git", "show", words[0] + ":" + n], stdout=subprocess.PIPE, text=True).stdout
    else:
        names = subprocess.run(["git", "ls-files", "crates"], stdout=subprocess.PIPE, text=True, check=True).stdout.split("\n")
        read = lambda n: open(n, encoding="utf-8").read()
    for name in names:
        if name.endswith(".rt"):
            yield name, read(name)
        elif name.endswith("/Proof.antt"):
            yield name, ""


FUNCTION = re.compile(r"((?:^ *//[^\n]*\n)*)^ *(?:pub )?(?:extern \"C\" )?fn (\w+)(.*?)^ *\{$", re.M | re.S)
STRUCT = re.compile(r"^ *(?:pub )?struct (\w+)[^{;]*\{\n(.*?)\n\}", re.M | re.S)
ENUM = re.compile(r"^ *(?:pub )?enum (\w+)[^{]*\{\n(.*?)\n\}", re.M | re.S)

found = {}


def note(point, what, place):
    found.setdefault((point, what), []).append(place)


for name, text in files():
    short = name[len("crates/"):].replace("/src/", "/")
    if name.endswith("/Proof.antt"):
        note("8", "proofs that walk the code by hand (proofs/F/Proof.antt)", short)
        continue
    for comment, fn, head in FUNCTION.findall(text):
        result = re.search(r"\) -> (u8|u32|u64)\s*(?:\n|$)", head)
        if result and re.search(r"refus|_number|told by|if none applies|if nothing is", comment + fn + head) and "extern" not in comment:
            note("1", "functions whose result is the number of a refusal, a kind or an answer", short + " " + fn)
        for valid in re.findall(r"requires[^{]*\{[^}]*\b(Valid|Sized|Readable|Lookable) ", head):
            note("5", "clauses that ask for %s" % valid, short + " " + fn)
        if len(re.findall(r"\b(?:sectors|written|durable): &", head)) == 3:
            note("5", "functions that take sectors, written and durable side by side", short + " " + fn)
    for struct, fields in STRUCT.findall(text):
        if re.search(r"^ *(?:pub )?refusal: u8", fields, re.M):
            note("1", "fields that hold the number of a refusal", short + " " + struct)
        bools = re.findall(r"^ *(?:pub )?(\w+): bool", fields, re.M)
        if bools and len(re.findall(r"^ *(?:pub )?\w+:", fields, re.M)) > len(bools):
            note("1", "structs with a flag beside values", short + " " + struct + " " + "/".join(bools))
        arrays = re.findall(r"^ *(?:pub )?\w+: \[[^;]*; (\w+)\]", fields, re.M)
        if any(arrays.count(a) > 1 for a in arrays):
            note("6", "structs with arrays side by side", short + " " + struct)
    for enum, variants in ENUM.findall(text):
        count = len(re.findall(r"^    \w+", variants, re.M))
        note("1", "own enums", short + " %s (%d)" % (enum, count))
    for at, line in enumerate(text.split("\n"), 1):
        code = line.split("//")[0]
        place = "%s:%d" % (short, at)
        if re.search(r"\bwhile\b(?! let)", code):
            note("3", "`while` with a test", place)
        if re.search(r"\bwhile let\b|\bloop \{", code):
            note("3", "`while let` and `loop`", place)
        if re.search(r"(?<![\w.])255(?!\d)", code) and "{" not in code.split("255")[0][-1:]:
            note("1", "255 for no drive, or for unfinished", place)
        if re.search(r"\[0u?\d*; (4096|152|MAX_CELLS)\]", code):
            note("6", "buffers of the largest size, used as far as a length", place)
        if re.search(r"^ *(pub )?fn (is_\w+|\w+_number|\w+_of_number|condition_of|owner_of|min|max|choose\w*|one_\w+|number_if|widen|wide)\(", code):
            note("4", "tests, conversions and choices written as functions", place)
        if re.search(r"\bQuery::\w+", code):
            note("7", "places that name a step to run (`Query`)", place)

for point, what in sorted(found):
    print("%s | %s | %d" % (point, what, len(found[point, what])))
    if show:
        for place in found[point, what]:
            print("      " + place)
