#!/usr/bin/env python3
"""Writes the cases that a check asks for ('write the clause ..') into the lemmas.

usage: python3 tools/port/clauses.py LOG     in a crate's folder; LOG is what `rt check` said"""
import re, sys, collections

asked = collections.OrderedDict()
lines = open(sys.argv[1], encoding="utf-8").read().split("\n")
lines = [re.sub(r"^so far: ", "", l) for l in lines]
for i, line in enumerate(lines):
    m = re.match(r"(\S+?\.antt):(\d+):(\d+): error: `([^`]+)`: write the clauses?(?: `(.*)`)?$", line)
    if not m:
        continue
    path, at, _, name, one = m.groups()
    found = [one] if one else []
    if not one:
        for l in lines[i + 1 :]:
            if not l.startswith("  "):
                break
            if " = " in l and not l.strip().startswith("no clause"):
                found.append(l.strip())
    asked[path, int(at), name] = found
by = collections.defaultdict(list)
for (path, at, name), found in asked.items():
    by[path].append((at, name, found))
for path, items in by.items():
    text = open(path, encoding="utf-8").read().split("\n")
    for at, name, found in sorted(items, reverse=True):
        sig = text[at - 1]
        indent = len(sig) - len(sig.lstrip())
        end = at
        for k in range(at, len(text)):
            l = text[k]
            if not l.strip():
                continue
            ind = len(l) - len(l.lstrip())
            if ind <= indent and not re.match(re.escape(name) + r"(\s|$)", l.strip()) and not l.strip().startswith("unfolding ") and not l.strip().startswith("where"):
                break
            if ind < indent:
                break
            end = k + 1
        text[end:end] = [" " * indent + f for f in found]
        print(path, name, len(found))
    open(path, "w", encoding="utf-8").write("\n".join(text))
