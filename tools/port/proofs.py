#!/usr/bin/env python3
"""Turns the proofs of functions, proofs/F/Proof.antt, to the names that today's check makes.

usage: python3 tools/port/proofs.py NAMES.json LANDED CRATE [FUNCTION..]     at the top of the repository, once a crate

NAMES.json is what `rt check --generated DIR --old-names` writes in the crate's folder; LANDED is a commit that has the proofs as they were: there goals,
places and steps have the older names, in the same order."""
import json, os, re, subprocess, sys

WORD = r"[^\s(){}\[\]\",;.]+"


def norm(name):
    return name.replace("_", "-")


def landed(commit, path):
    r = subprocess.run(["git", "show", commit + ":" + path], capture_output=True, text=True)
    return r.stdout if r.returncode == 0 else ""


def goals(text):
    return re.findall(r"\btie\s?\.Need-(" + WORD + ")", text)


def left_by(text, old, names):
    """Turns `.last .1 .0`, what a call left in its second argument, to the argument's name."""
    was = re.findall(r"\.(?:last|kept)((?:\s\.[01])*\s\.[01])(?!\s\.[01])", old)
    now = list(re.finditer(r"\.(new|auto|last(?=\.[01])|kept(?=\.[01]))(?![\w'-])((?:\.[\w'-]+)*)", text))
    if len(was) != len(now):
        return text, ["what calls leave: %d, %d" % (len(was), len(now))] if was else []
    callee = {}
    for p in names["places"]:
        if p[3]:
            callee[norm(p[2][0])] = p[3]
    done, at, said = [], 0, []
    for path, m in zip(was, now):
        before = re.search(r"([\w'-]+)$", text[: m.start()]).group(1)
        if norm(before) not in callee:
            lets = re.findall(r"let " + re.escape(before) + r" = [\w'.-]*?\.([\w'-]+) in", text[: m.start()])
            before = lets[-1] if lets else before
        f = callee.get(norm(before).lower())
        digits = path.replace(" ", "").replace(".", "")
        params = names["params"].get(f)
        k = len(digits) - 1 if digits.endswith("0") else len(digits)
        if params and k < len(params):
            # digits past the argument stay
            done.append(text[at : m.start()] + "." + {"last": "new", "kept": "auto"}.get(m.group(1), m.group(1)) + "." + params[k])
            at = m.end()
        else:
            said.append("what %s leaves at %s" % (before, digits))
    return "".join(done) + text[at:], said


def need_at(names, spelled, key):
    """The place where a goal is asked, by its name as a proof has it."""
    at = {}
    for (o, _), (place, _) in zip(names["needs"], names["asked_at"]):
        at.setdefault(norm(o), place)
    return lambda name: at.get(key(spelled.get(name, name)))


def spec_lambdas(block, names):
    """The goals that are proved where they are listed, `(λ c. ..)`: where each stands, its variable, and the place where it is asked."""
    m = re.search(r"tie\.spec(?![\w-])", block)
    if not m:
        return []
    found, at, k = [], m.end(), 0
    skip = 2 * len(names["loops"])
    while at < len(block):
        if block[at].isspace():
            at += 1
            continue
        if block[at] == ")":
            break
        end, depth = at, 0
        while end < len(block) and (depth or not block[end].isspace() and block[end] != ")"):
            depth += {"(": 1, ")": -1}.get(block[end], 0)
            end += 1
        lam = re.match(r"\(λ ([\w'-]+)", block[at:end])
        if lam and k >= skip and k - skip < len(names["asked_at"]):
            found.append((at, end, lam.group(1), names["asked_at"][k - skip][0]))
        k += 1
        at = end
    return found


def climb(text, names, place_of_need):
    """Turns `.before.before`: the places of an arm are one place now, so a proof climbs fewer."""
    up = {p[0]: p[1] for p in names["places"]}
    depth = {p[0]: (a[1] if a else 0) for p, a in zip(names["places"], names["arms"])}
    by_norm = {norm(p): p for p in up}

    def climbs(place, n):
        for _ in range(n):
            if up.get(place) is None:
                break
            place = up[place]
        return place

    def new_up(place):
        return climbs(place, max(depth.get(place, 0), 1))

    def new_distance(place, goal):
        # inside one arm no step is left
        k, at = 0, place
        while at is not None and at != goal:
            inside, a = set(), at
            for _ in range(max(depth.get(at, 0) - 1, 0)):
                a = up.get(a)
                inside.add(a)
            if goal in inside:
                return k
            if up.get(at) is None:
                return None
            at = new_up(at)
            k += 1
        return k if at == goal else None

    helpers = {}
    for m in re.finditer(r"(?m)^(?:abbrev )?([^\s(){}]+) : (?:\([\w'-]+ : )?tie\.([A-Z]" + WORD + ")", text):
        if not m.group(2).startswith("Need-") and norm(m.group(2)) in by_norm:
            helpers[m.group(1)] = by_norm[norm(m.group(2))]
    called = "|".join(re.escape(h) for h in sorted(helpers, key=len, reverse=True)) or "(?!)"
    lines = text.split("\n")
    i = 0
    while i < len(lines):
        j = i + 1
        if lines[i].startswith(("use ", "--")) or not lines[i].strip():
            i = j
            continue
        while j < len(lines) and lines[j].strip() and not lines[j].startswith("--"):
            j += 1
        block = "\n".join(lines[i:j])
        env = {}
        for v, place in re.findall(r"\(([\w'-]+)\s:\stie\.([A-Z]" + WORD + ")", block):
            if norm(place) in by_norm:
                env[v] = by_norm[norm(place)]
        head = re.match(r"(?:abbrev )?([^\s(){}]+) : tie\.(Need-)?(" + WORD + ")", block)
        if head:
            name, is_need, word = head.groups()
            first = re.search(r"(?m)^" + re.escape(name) + r" ([\w'-]+)", block[head.end() :])
            place = place_of_need(word) if is_need else by_norm.get(norm(word))
            if first and place:
                env[first.group(1)] = place
        # a lemma from one place to another is the climb between them
        jump = re.match(r"(?:abbrev )?([^\s(){}]+) : tie\.([A-Z]" + WORD + ")[^→\n]*→ tie\\.([A-Z]" + WORD + ")[^→\\n]*\n\\1 ([\\w'-]+) = \\4((?:\\.before)*)$", block)
        if jump and norm(jump.group(2)) in by_norm and norm(jump.group(3)) in by_norm:
            k = new_distance(by_norm[norm(jump.group(2))], by_norm[norm(jump.group(3))])
            if k is not None:
                lines[i:j] = (block[: jump.start(5)] + ".before" * k).split("\n")
                i = j
                continue
        # a goal that is proved in the list of all goals
        in_list = spec_lambdas(block, names)
        # a chain from each variable whose place is known, in the order of the text, so that a `let` is known to what follows
        done, at = [], 0
        for m in re.finditer(r"(let ([\w'-]+) = )?(?<![\w.'-])([\w'-]+)((?:\.before)*)(?![\w'-])(\s+in\b)?", block):
            let, new, var, chain, ends = m.groups()
            for a, b, v, place in in_list:
                if a <= m.start() < b and v == var:
                    env = dict(env, **{v: place})
            if var not in env:
                continue
            n = chain.count(".before")
            goal = climbs(env[var], n)
            if let and ends:
                use = re.search(r"(?<![\w'.-])(" + called + r") \(?" + re.escape(new) + r"(?![\w'.-])", block[m.end() :])
                if use:
                    goal = helpers[use.group(1)]
            else:
                use = re.search(r"(?<![\w'.-])(" + called + r") \(?$", block[: m.start(3)])
                if use and not re.match(r"\.[\w]", block[m.end(4) :]):
                    goal = helpers[use.group(1)]
            k = new_distance(env[var], goal)
            if let and ends:
                env[new] = goal
            if (n or use) and k is not None and k != n:
                done.append(block[at : m.start(4)] + ".before" * k)
                at = m.end(4)
        block = "".join(done) + block[at:]
        lines[i:j] = block.split("\n")
        i = j
    return "\n".join(lines)


def turn(text, old, names, function):
    said = []
    needs = {}
    for o, n in names["needs"]:
        needs.setdefault(norm(o), []).append(n)
    now, was = goals(text), goals(old)
    if len(now) == len(was):
        spelled = dict(zip(now, was))
    else:
        said.append("goals differ in number: %d, %d" % (len(was), len(now)))
        spelled = {}

    alias = {"loop-holds": "loop-init", "loop-again": "loop-preserved", "loop-less": "loop-smaller"}

    def key(x):
        x = norm(x)
        m = re.match(r"(.*)-(holds|again|less|decreases)((?:-\d+)?)$", x)
        if m and m.group(1) in loops:
            return m.group(1) + "-" + {"holds": "init", "again": "preserved", "less": "smaller", "decreases": "smaller"}[m.group(2)] + m.group(3)
        return x

    loops = {norm(l[0][0]): l[0][1] for l in names["loops"]}

    def need(m):
        o = key(spelled.get(m.group(1), m.group(1)))
        if o in needs:
            return "tie.Need-" + needs[o][0]
        said.append("no goal " + m.group(1) + " / " + o)
        return m.group(0)

    places, steps, inner = {}, {}, {}
    for i, (o, up, field, callee, renamed) in enumerate(names["places"]):
        places[norm(o)] = names["places_by_name"][i]
        if field[0]:
            steps.setdefault(norm(field[0]), field[1])
            for a, b in renamed:
                inner.setdefault(field[1], {})[a] = b

    def place(m):
        o = norm(m.group(1))
        if o.startswith("Need-"):
            return m.group(0)
        if o in places:
            return "tie." + places[o]
        return m.group(0)

    arms = {}
    for arm in names["arms"]:
        if arm:
            for field, at, path in arm[2]:
                if path:
                    arms.setdefault(norm(at), {})["".join("." + x for x in path)] = "." + arm[0] + "." + field

    def by_arm(m):
        known = arms.get(norm(m.group(1)).lower())
        if not known:
            return m.group(0)
        for path in sorted(known, key=len, reverse=True):
            if m.group(2) == path or m.group(2).startswith(path + "."):
                return known[path] + m.group(2)[len(path) :]
        return m.group(0)

    # an alias of a step that an arm holds now is written out
    for e, chain, at in re.findall(r"let ([\w'-]+) = ([\w'-]+(?:\.before)*)\.([\w'-]+) in", text):
        if norm(at).lower() in arms and re.search(r"(?<![\w'.-])" + re.escape(e) + r"\.given", text):
            text = re.sub(r"let " + re.escape(e) + " = " + re.escape(chain + "." + at) + r" in\n? *", "", text)
            text = re.sub(r"(?<![\w'.-])" + re.escape(e) + r"\.given", chain + "." + at + ".given", text)
    for o, n in names["args"]:
        if o.startswith(".args ."):
            text = re.sub(r"\." + re.escape(o[7:]) + r"(?![\w'-])", "." + n[7:], text)
    text, more = left_by(text, old, names)
    said += more
    text = climb(text, names, need_at(names, spelled, key))
    flat = "|".join(re.escape(x) for x in sorted({"args", "requires", "ranges"} | {s for s in steps.values() if "-" in s or "_" in s} | {a[0] for a in names["arms"] if a}, key=len, reverse=True))

    def loop(m):
        o = norm(m.group(2))
        return "tie." + m.group(1) + "-" + loops.get(o, m.group(2))

    def step(m):
        o = norm(m.group(1)).lower()
        if o.endswith("-lem") and o not in steps:
            o = o[:-4]
        rest = m.group(2)
        after = m.string[m.end(1) :]
        called = re.match(r"\.(ensures|result|new|old|exit|invariant)(?![^\s(){}\[\]\",;.])", after)
        if o not in steps or "_" in m.group(1) and not called and m.group(1).islower():
            return m.group(0)
        new = steps[o]
        if after.startswith(".now") or new == m.group(1) + "-1" and not after.startswith((".given", ".before")):
            return m.group(0)
        if rest and rest[1:] in inner.get(new, {}):
            rest = "." + inner[new][rest[1:]]
        return "." + new + (rest or "")

    out = []
    for line in text.split("\n"):
        if line.startswith("use "):
            out.append(line)
            continue
        line = re.sub(r"\btie\.Need-(" + WORD + ")", need, line)
        line = re.sub(r"\btie\.(invariant|decreases)-(loop" + r"[^\s(){}\[\]\",;.]*)", loop, line)
        line = re.sub(r"\btie\.([A-Z]" + WORD + ")", place, line)
        line = re.sub(r"\.pre(?=[\s.,(){}\[\]]|$)", ".requires", line)
        line = re.sub(r"\.inv(?=[\s.,(){}\[\]]|$)", ".invariant", line)
        line = re.sub(r"(?<=[\w)'₀-₉])\.(" + WORD + r")((?:\.(?:given|\d+))+)(?![^\s(){}\[\]\",;.])", by_arm, line)
        line = re.sub(r"(?<=[\w)'₀-₉])\.(" + WORD + r")(\.(?:true|false|fact))?(?![^\s(){}\[\]\",;.])", step, line)
        line = re.sub(r"(?<=[\w)'₀-₉-])(?:\.before)+\.(" + flat + r")(?![^\s(){}\[\]\",;.])", r".\1", line)
        line = re.sub(r"(?<![^\s(])" + re.escape(norm(function)) + "-spec(?![^\\s(){}])", function + "_spec", line)
        out.append(line)
    return "\n".join(out), said


def main():
    names = json.load(open(sys.argv[1]))
    commit, crate = sys.argv[2:4]
    only = sys.argv[4:]
    for module in sorted(names):
        m = re.match(r"Rattle-" + crate + r"-proofs\.(.*)\.Lts$", module)
        if not m:
            continue
        path = os.path.join("crates", crate, "proofs", *m.group(1).split("."), "Proof.antt")
        if not os.path.isfile(path) or only and not any(o in path for o in only):
            continue
        text = open(path, encoding="utf-8").read()
        new, said = turn(text, landed(commit, path), names[module], m.group(1).split(".")[-1])
        for s in said:
            print(path + ": " + s)
        if new != text:
            open(path, "w", encoding="utf-8").write(new)


main()
