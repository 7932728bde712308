#!/usr/bin/env python3
"""Spells the repository's own definitions and lemmas in snake case: `stripeOf` becomes `stripe_of`, `size-last` becomes `size_last`.

usage: python3 tools/port/names.py [--dry]     at the top of the repository, once, after port.py

A name is the repository's own if a file of specs/ or proofs/ declares it. A token of that spelling is turned in every .antt file, but where the file takes
the name from a library or declares it for itself alone in a proof of a function; and in .rt files, comments too, where it is in lower camel case. Two names
that would fall together: the lemma, which has dashes or stood in snake case before, gets `_lem`. What was turned is kept in
names.txt beside this script, and a later run, as on another commit, turns those names alike. Functions of src/, their fields and variants keep their names."""
import os, re, sys, json, collections

OWN = ("tables", "logs", "volume", "mounting", "compacting", "rebuilding", "promise", "grouped", "zrv", "zrv_promise", "replaying", "replay", "grouped_replay",
       "placement_cases", "log_walks")
LIST = os.path.join(os.path.dirname(os.path.realpath(__file__)), "names.txt")
BREAK = "\\s(){}\\[\\]\",;."
TOKEN = re.compile("[^" + BREAK + "]+")
DECL = re.compile(r"^\s*(?:(?:pub|abbrev|unfoldable|rec|private)\s+)*([^" + BREAK + r":]+(?:\s+[^" + BREAK + r":]+)*)\s+:(?:\s|$)")
HEAD = re.compile(r"^\s*(?:pub\s+)?(?:record|data|module)\s+([^" + BREAK + r"]+)")
USE = re.compile(r"^\s*(?:pub\s+)?use\s+([^\s{]+?)(?:\.\{([^}]*)\})?(?:\s+as\s+(\S+))?\s*$")
CAMEL = re.compile(r"^[a-zα-ω][a-z0-9'₀-₉]*[A-Z]")


def snake(name):
    name = re.sub(r"(?<=[a-z0-9'])([A-Z])", lambda m: "_" + m.group(1), name)
    name = re.sub(r"([A-Z])([A-Z][a-z])", r"\1_\2", name)
    name = name.replace("-", "_")
    return name.lower() if CAMEL.match(name) or "_" in name else name


def turns(name):
    """Whether a name is of the older spelling: lower camel case, or with dashes."""
    if not re.match(r"^[a-zα-ωℓ]", name):
        return False
    return bool(re.search(r"[a-z0-9'₀-₉][A-Z]", name)) or bool(re.search(r"[^\W_]['₀-₉]*-[^\W_]", name))


def strip(line):
    i = line.find("--")
    while i >= 0:
        if i == 0 or line[i - 1].isspace():
            return line[:i], line[i:]
        i = line.find("--", i + 2)
    return line, ""


def files(ends):
    for c in sorted(os.listdir("crates")):
        for folder, dirs, names in os.walk(os.path.join("crates", c)):
            dirs[:] = sorted(d for d in dirs if d != "out")
            for f in sorted(names):
                if f.endswith(ends):
                    yield os.path.join(folder, f)


def is_function_proof(path):
    return "/proofs/" in path and os.path.basename(path) in ("Proof.antt", "Answers.antt", "Invariants.antt")


def read(path):
    return open(path, encoding="utf-8").read()


def uses(text):
    """The names that a file imports: from the repository, and from elsewhere."""
    own, outer, modules = {}, set(), {}
    for line in text.split("\n"):
        m = USE.match(strip(line)[0])
        if not m:
            continue
        path, names, alias = m.groups()
        parts = path.split(".")
        mine = parts[0] == "Rattle" and len(parts) > 1 and parts[1] in OWN
        if names is None:
            continue
        for n in names.split(","):
            n = n.strip()
            if " as " in n:
                n, a = n.split(" as ")
                outer.add(a.strip())
            if mine and (len(parts) < 4 or parts[3] not in ("declared", "contracts")) and parts[2:3] != ["proofs"] or mine and "proofs" in parts and not re.search(r"\.(Tie|Statement|Goals|Given|Lts|Code)$", path):
                own[n] = path
            else:
                outer.add(n)
    return own, outer


def declared(text):
    found = []
    for line in text.split("\n"):
        code, _ = strip(line)
        m = DECL.match(code)
        if m:
            for n in m.group(1).split():
                if n not in ("pub", "abbrev", "unfoldable"):
                    found.append(n)
    return found



def parts_of(line):
    """The code of a line without the path of a `use`, and its comment."""
    code, comment = strip(line)
    m = re.match(r"^(\s*(?:pub\s+)?use\s+)([^\s{]+?)(\.\{.*)?$", code.rstrip("\n"))
    if m:
        return m.group(1) + m.group(2), m.group(3) or "", comment
    return "", code, comment


def fields(text):
    """The fields of a file's records."""
    found, inside = set(), None
    for line in text.split("\n"):
        code, _ = strip(line)
        if not code.strip():
            continue
        indent = len(code) - len(code.lstrip())
        if re.match(r"^\s*(?:pub\s+)?record\s.*\swhere\s*$", code):
            inside = indent
        elif inside is not None and indent <= inside:
            inside = None
        elif inside is not None:
            m = DECL.match(code)
            if m:
                found |= set(m.group(1).split())
    return found


def calls():
    """The functions of src/, as the older check spelled them in a proof."""
    return {n.replace("_", "-") for p in files(".rt") for n in re.findall(r"\bfn (\w+)", read(p))}


def main():
    dry = "--dry" in sys.argv
    antt = list(files(".antt"))
    texts = {p: read(p) for p in antt}
    decls = {p: declared(t) for p, t in texts.items()}
    scope = {p: uses(t) for p, t in texts.items()}
    tokens = {p: collections.Counter(t for line in texts[p].split("\n") for t in TOKEN.findall(parts_of(line)[1])) for p in antt}
    own = set()
    for p in antt:
        if not is_function_proof(p):
            own |= {n for n in decls[p] if turns(n)} | {t for t in tokens[p] if turns(t) and t not in scope[p][1]}
    # two names that would fall together: the lemma's, which has dashes, gets `_lem`
    falls = collections.defaultdict(set)
    for n in own:
        falls[snake(n)].add(n)
    stands = collections.Counter()
    for p in antt:
        stands.update({t: 1 for t in decls[p] if not turns(t)} if not is_function_proof(p) else {})
        stands.update({t: 1 for t in scope[p][0] if not turns(t)})
        if not is_function_proof(p):
            stands.update({t: 1 for t in scope[p][1] if not turns(t)})
    outside = set().union(*(scope[p][1] for p in antt if not is_function_proof(p)))
    target = {}
    for s, names in falls.items():
        dashed = [n for n in names if "-" in n]
        plain = [n for n in names if "-" not in n]
        if len(dashed) > 1 or len(plain) > 1:
            print("more than two:", s, names)
        for n in plain:
            target[n] = s
            if s in stands:
                target[s] = s + "_lem"
                if dashed or s in outside:
                    print("three:", s, names, s in outside)
        for n in dashed:
            target[n] = s + ("_lem" if plain or s in stands else "")
    if os.path.isfile(LIST):
        target.update(line.split() for line in read(LIST).splitlines())
    for n in sorted(target):
        if snake(n) != target[n]:
            print("falls:", n, "->", target[n], stands.get(snake(n)), [p for p in antt if snake(n) in decls[p] and not is_function_proof(p)][:2], [p for p in antt if snake(n) in scope[p][0] or snake(n) in scope[p][1]][:2])
    own_fields = set().union(*(fields(texts[p]) for p in antt if not is_function_proof(p)))
    steps = calls()
    doubtful = collections.Counter()
    changed = 0
    for p in antt:
        proof = is_function_proof(p)
        mine, outer = scope[p]
        local = set(decls[p]) if proof else set()
        lines = []
        for line in texts[p].split("\n"):
            path, code, comment = parts_of(line)
            at = 0
            out = []
            for m in TOKEN.finditer(code):
                t = m.group(0)
                dot = m.start() > 0 and code[m.start() - 1] == "."
                turn = t in target and (t not in outer or dot)
                if proof and turn:
                    if dot:
                        before = re.search(r"([^" + BREAK + r"]+)\.$", code[: m.start()])
                        step = t in steps and re.match(r"\.(ensures|result|new|old|exit)\b", code[m.end() :])
                        turn = t in own_fields and not step and not (before and before.group(1) == "tie")
                        if t in own_fields and t in steps:
                            doubtful[t, bool(step)] += 1
                    else:
                        turn = t in mine or t not in local
                if turn:
                    out.append(code[at : m.start()] + target[t])
                    at = m.end()
            lines.append(path + "".join(out) + code[at:] + turn_comment(comment, target))
        text = "\n".join(lines)
        if text != texts[p]:
            changed += 1
            if not dry:
                open(p, "w", encoding="utf-8").write(text)
    for p in files(".rt"):
        text = read(p)
        turned = re.sub(r"(?<![\w'·-])[a-z][a-z0-9']*[A-Z][A-Za-z0-9']*(?![\w-])", lambda m: target.get(m.group(0), m.group(0)), text)
        if turned != text:
            changed += 1
            if not dry:
                open(p, "w", encoding="utf-8").write(turned)
    if not dry:
        with open(LIST, "w", encoding="utf-8") as f:
            f.write("".join("%s %s\n" % (n, target[n]) for n in sorted(target)))
    print("fields that are functions too:", sorted(doubtful.items()))
    print(len(target), "names,", changed, "files")


def turn_comment(comment, target):
    """In a comment a name is turned where it stands in backquotes, or in lower camel case."""
    comment = re.sub(r"`([^`\s]+)`", lambda m: "`" + target.get(m.group(1), m.group(1)) + "`", comment)
    return re.sub(r"(?<![\w'·-])[a-z][a-z0-9']*[A-Z][A-Za-z0-9']*(?![\w-])", lambda m: target.get(m.group(0), m.group(0)), comment)


if __name__ == "__main__":
    main()
