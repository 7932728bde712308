#!/usr/bin/env python3
"""Mends the proofs of functions by what a check says of them: a step under another name, one `.before` too many.

usage: python3 tools/port/mend.py LOG     in a crate's folder; LOG is what `rt check` said. Says how many places it changed."""
import re, sys, collections

edits, raw = collections.defaultdict(dict), {}
for line in open(sys.argv[1], encoding="utf-8"):
    line = re.sub(r"^so far: ", "", line)
    m = re.match(r"(\S+?\.antt):(\d+):(\d+): error: `([^`]+)`: (.*)", line)
    if m:
        edits[m.group(1)][int(m.group(2)), int(m.group(3))] = m.group(5)
        raw[m.group(1), int(m.group(2)), int(m.group(3))] = line
count = 0
for path, places in edits.items():
    if "/proofs/" not in path:
        continue
    text = open(path, encoding="utf-8").read().split("\n")
    for (at, col), said in sorted(places.items(), reverse=True):
        line = text[at - 1]
        new = None
        f = re.search(r"record `[^`]*` has no field `([^`]+)`", said)
        r = re.search(r"`([^`]+)` is not a field of record", said)
        t = re.search(r"module `[^`]*` has no `([^`]+)` that can be named from here \(did you mean `([^`]+)`\?\)", said)
        if f and ("leave out the `.before`" in said or f.group(1) == "before"):
            for k in (line.find(".before", max(0, col - 9)), line.rfind(".before", 0, col + 8)):
                if k >= 0:
                    new = line[:k] + line[k + len(".before") :]
                    break
        elif f and f.group(1).isdigit() and "are `" in said:
            known = re.findall(r"`([^`]+)`", said.split("here are ", 1)[1])
            k = line.find("." + f.group(1), max(0, col - 3))
            if k >= 0 and int(f.group(1)) < len(known):
                new = line[:k] + "." + known[int(f.group(1))] + line[k + 1 + len(f.group(1)) :]
        elif f:
            name = f.group(1)
            near = re.search(r"\(nearest: \.([^\s,)]+)", said)
            k = line.find("." + name, max(0, col - 2 - len(name)))
            if k >= 0 and re.match(r".*-\d+$", name) and near and near.group(1) == re.sub(r"-\d+$", "", name):
                new = line[:k] + "." + near.group(1) + line[k + 1 + len(name) :]
            elif k >= 0 and "." + name.replace("-", "_") in re.findall(r"\.[\w'-]+", said.split("(nearest:", 1)[-1]) and "-" in name:
                new = line[:k] + "." + name.replace("-", "_") + line[k + 1 + len(name) :]
            elif k >= 0 and near and near.group(1).replace("_", "-").lower().startswith(name.replace("_", "-").lower()):
                new = line[:k] + "." + near.group(1) + line[k + 1 + len(name) :]
        elif r and "-" in r.group(1):
            k = line.find(r.group(1), max(0, col - 1 - len(r.group(1))))
            if k >= 0:
                new = line[:k] + r.group(1).replace("-", "_") + line[k + len(r.group(1)) :]
        elif t:
            k = line.find(t.group(1), max(0, col - 1))
            if k >= 0:
                new = line[:k] + t.group(2) + line[k + len(t.group(1)) :]
        # a step that the goal's own record has: it is taken from there
        if f and not new and re.search(r"[-_]", f.group(1)):
            k = line.find("." + f.group(1), max(0, col - 2 - len(f.group(1))))
            v = re.search(r"(?<![\w'.-])([\w'-]+)((?:\.before)*)$", line[:k]) if k >= 0 else None
            decl = re.match(r".*error: `([^`]+)`", raw.get((path, at, col), ""))
            head = [re.match(re.escape(decl.group(1)) + r" ([\w'-]+)", l) for l in text[:at]] if decl else []
            head = [h for h in head if h]
            if v and head and v.group(1) != head[-1].group(1):
                new = line[: v.start()] + head[-1].group(1) + line[k:]
        if new and new != line:
            text[at - 1] = new
            count += 1
    open(path, "w", encoding="utf-8").write("\n".join(text))
print(count, "places mended")
