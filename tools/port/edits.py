#!/usr/bin/env python3
"""Turns the wrong programs, crates/*/wrong/*.edit and crates/*/must-fail/*.edit, to the spelling of today's files.

usage: python3 tools/port/edits.py [--dry] [EDIT]...     at the top of the repository, once, after names.py

A text of an .antt file has the names of names.txt, operators with circles (`_+_` becomes `◌+◌`) and projections written tight: `(g .drives)` becomes `g.drives`,
`k .zone z .pointer` becomes `(k.zone z).pointer`. In texts of .rt files and in comments a name is turned where it is in lower camel case. What does not
stand in its file exactly once afterwards is printed: imports, and proofs that were written anew, are turned by hand."""
import glob, os, re, sys

LIST = os.path.join(os.path.dirname(os.path.realpath(__file__)), "names.txt")
NAMES = dict(line.split() for line in open(LIST, encoding="utf-8"))
NAMES.update({"getD": "get_or", "setAt": "set_at"})
here = set()  # the words of the file that a text is of
TOKEN = re.compile(r"\\n|\s+|[(){}\[\],;]|[^\s(){}\[\],;\\]+")
WORDS = {"let", "in", "rw", "at", "λ", "record", "where", "omega", "unfolding", "use"}


class Group(list):
    """The items of one bracket: strings, and groups."""

    def __init__(self, open_, items=()):
        super().__init__(items)
        self.open, self.close = open_, {"(": ")", "{": "}", "[": "]", "": ""}[open_]


def text_of(item):
    return item if isinstance(item, str) else item.open + "".join(map(text_of, item)) + item.close


def is_space(item):
    return isinstance(item, str) and (item.isspace() or item == "\\n")


def is_break(item):
    """Whether a spine of applications ends here: an operator, a keyword, a binder's dot."""
    if not isinstance(item, str):
        return False
    return item in WORDS or item in ",;" or item.endswith(".") or not re.search(r"[\w∅]", item) or item in ("≡", "∷", "→", "∙")


def snake(name):
    return re.sub(r"(?<=[a-z0-9'])([A-Z])", r"_\1", name).replace("-", "_").lower()


def word(name):
    """A name as today's file spells it; port.py has turned some too."""
    if not re.match(r"[a-zα-ω]", name) or name in here and NAMES.get(name) not in here:
        return name
    return NAMES.get(name) or (snake(name) if snake(name) in here else name)


def spell(token):
    if token.endswith("."):
        return spell(token[:-1]) + "." if len(token) > 1 else token
    if "." in token[1:]:
        return ".".join(map(word, token.split(".")))
    if re.fullmatch(r"_\S+_", token):
        return "◌" + token[1:-1] + "◌"
    return word(token)


def tight(items):
    """The items with each projection written tight: it applies to the whole spine before it."""
    out, spine = [], 0
    for item in items:
        if isinstance(item, Group):
            out.append(tight_group(item))
        elif re.fullmatch(r"\.[\w'-]+", item) and out and len(out) > spine:
            while out and is_space(out[-1]):
                out.pop()
            field = "." + word(item[1:])
            atoms = out[spine:]
            if len(atoms) == 1:
                out[spine:] = [text_of(atoms[0]) + field]
            else:
                out[spine:] = ["(" + "".join(map(text_of, atoms)) + ")" + field]
        elif is_space(item):
            out.append(item)
            spine = spine + 1 if len(out) == spine + 1 else spine
        else:
            out.append(spell(item))
            if is_break(item):
                spine = len(out)
    return out


def tight_group(group):
    items = tight(group)
    if group.open == "(" and len(items) == 1 and isinstance(items[0], str) and re.search(r"[\w)]\.[\w'-]+$", items[0]) and any(isinstance(i, str) and i.startswith(".") for i in group):
        return items[0]
    return Group(group.open, items)


def antt(text):
    stack = [Group("")]
    for token in TOKEN.findall(text):
        if token in "([{":
            stack.append(Group(token))
        elif token in ")]}" and len(stack) > 1 and stack[-1].close == token:
            group = stack.pop()
            stack[-1].append(group)
        elif token in ")]}":
            # a text may begin inside brackets
            left = stack.pop() if len(stack) == 1 else stack[0]
            left = Group("", ["".join(map(text_of, tight(left))), token])
            stack = [left]
        else:
            stack[-1].append(token)
    done = "".join(map(text_of, tight(stack[0])))
    for group in stack[1:]:
        done += group.open + "".join(map(text_of, tight(group)))
    return done


def camel(text):
    return re.sub(r"(?<![\w'·-])[a-z][a-z0-9']*[A-Z][A-Za-z0-9']*(?![\w-])", lambda m: NAMES.get(m.group(0), m.group(0)), text)


def turn(path):
    lines, file = [], ""
    for line in open(path, encoding="utf-8").read().split("\n"):
        key, space, text = line.partition(" ")
        if key == "file:":
            file = text
            today = os.path.join(os.path.dirname(os.path.dirname(path)), file)
            here.clear()
            here.update(re.findall(r"[^\s(){}\[\],;.]+", open(today, encoding="utf-8").read()) if os.path.isfile(today) else ())
        if key in ("old:", "new:") and space:
            line = key + " " + (antt(text) if file.endswith(".antt") else camel(text))
        elif line.startswith("#"):
            line = camel(line)
        lines.append(line)
    return "\n".join(lines)


def missing(path):
    """The old texts of an edit that do not stand in their files exactly once."""
    crate, file, found = os.path.dirname(os.path.dirname(path)), None, []
    for line in open(path, encoding="utf-8").read().split("\n"):
        if line.startswith("file: "):
            file = os.path.join(crate, line[6:])
        elif line.startswith("old: "):
            text = open(file, encoding="utf-8").read() if os.path.isfile(file) else ""
            times = text.count(line[5:].replace("\\n", "\n"))
            if times != 1:
                found.append("%s, %d times: %s" % (os.path.relpath(file, crate), times, line[5:]))
    return found


def main():
    words = [w for w in sys.argv[1:] if w != "--dry"]
    for path in words or sorted(glob.glob("crates/*/wrong/*.edit") + glob.glob("crates/*/must-fail/*.edit")):
        text = turn(path)
        if "--dry" in sys.argv:
            print(text)
            continue
        if text != open(path, encoding="utf-8").read():
            open(path, "w", encoding="utf-8").write(text)
        for line in missing(path):
            print(path[7:], line)


if __name__ == "__main__":
    main()
