#!/usr/bin/env python3
"""Turns a crate's hand-built Proof.antt files into Invariants.antt and Answers.antt.

usage: answers.py NAMES CRATE_FOLDER
NAMES is the names.json that `rattle check --generated DIR --old-names` writes for the crate: of each function the goals and the places in their
old and new names. A path `c.before.before.loop.invariant` becomes `c.loop-i.invariant`; a lemma that took a place of the code as its argument is
written out where it is used. What it cannot turn it names in a line that begins 'left:'.
"""
import json
import os
import re
import shutil
import sys

CH = r"[^\s(){}.;,@\"«»\[\]\\]"
WORD = re.compile(CH + "+")
norm = lambda s: re.sub(r"[-_]", "", s)
LEFT = []
OLDER = {"inv": "invariant", "post": "ensures", "left": "true", "right": "false"}
ROOTS = {"args": "args", "pre": "requires", "requires": "requires", "ranges": "ranges", "wellformed": "well_formed", "captures": "captures", "utf8": "utf8"}


def left(where, why):
    LEFT.append(f"left: {where}: {why}")


class Function:
    crates = None

    def typed(self, callee):
        """The parameters of a function of the repository, with their types."""
        if not callee:
            return []
        parts = callee.split("::")
        return typed_params(os.path.join(self.crates, parts[0]), parts[1:])

    def __init__(self, names, params, cycle):
        self.cycle = cycle
        self.n = names
        self.places = {norm(p[0]): i for i, p in enumerate(names["places"])}
        self.params = params
        self.groups = {}
        for arm in names["arms"]:
            if arm:
                got = self.groups.setdefault(arm[0], {})
                for new, old, path in arm[2]:
                    got[(norm(old), tuple(path))] = new

    def up(self, i):
        parent = self.n["places"][i][1]
        return None if parent is None else self.places[norm(parent)]

    def resolve(self, i, segs):
        """From the place i along the old path: ('place', j) or ('path', segments from the goal's own c)."""
        segs = [s for s in segs if s != "before"]
        if not segs:
            return "place", i
        label, rest = segs[0], segs[1:]
        if norm(label) in ROOTS:
            new = ROOTS[norm(label)]
            # in a cycle the first part was what is said of the measure
            if new == "requires" and self.cycle and rest and rest[0] in ("0", "1"):
                if rest[0] == "0":
                    return "bad", segs
                rest = rest[1:]
            if new in ("args", "ranges") and rest:
                rest = [rest[0].replace("-", "_")] + rest[1:]
            return "path", [new] + rest
        j = i
        while j is not None:
            if norm(self.n["places"][j][2][0]) == norm(label):
                break
            j = self.up(j)
        if j is None:
            return "bad", segs
        _, _, (old, new), callee, _ = self.n["places"][j]
        rest = ["type_inv" if s == "type-inv" else s for s in rest]
        if rest and rest[0] in OLDER:
            rest[0] = OLDER[rest[0]]
        if rest and rest[0] in ("kept", "auto") and not norm(old).startswith("loop"):
            rest[0] = "auto"
            lent = [p for p, t in self.typed(callee) if t.startswith("&mut [")]
            if (len(rest) == 1 or not re.fullmatch(r"[01]", rest[1])) and len(lent) == 1:
                rest = ["auto", lent[0]] + rest[1:]
        if len(rest) > 1 and rest[0] == "new":
            rest[1] = rest[1].replace("-", "_")
        if len(rest) > 1 and rest[0] == "auto" and rest[1].isdigit():
            k = 1
            while k < len(rest) and rest[k] == "1":
                k += 1
            params = self.n["params"].get(callee) or []
            if k < len(rest) and rest[k] == "0" and k - 1 < len(params):
                rest = ["auto", params[k - 1]] + rest[k + 1 :]
        if norm(old).startswith("loop") and rest and rest[0] not in ("invariant", "true", "false", "auto"):
            rest[0] = rest[0].replace("-", "_")
        arm = self.n["arms"][j]
        if arm:
            group = self.groups[arm[0]]
            best = None
            for (lab, path), field in group.items():
                if lab == norm(label) and tuple(rest[: len(path)]) == path and path:
                    if best is None or len(path) > len(best[0]):
                        best = (path, field)
            if best:
                return "path", [arm[0], best[1]] + rest[len(best[0]) :]
            if (norm(label), ()) in group:
                return "path", [arm[0], group[(norm(label), ())]] + rest
        return "path", [new] + rest


def split_decls(text):
    """Header comments, use lines, and declarations: (name, comment, signature, clauses, raw)."""
    lines = text.split("\n")
    header, uses, items = [], [], []
    i = 0
    while i < len(lines) and (lines[i].startswith("--") or not lines[i].strip()):
        if lines[i].strip():
            header.append(lines[i])
        i += 1
    pending = []
    while i < len(lines):
        l = lines[i]
        if not l.strip():
            i += 1
            continue
        if l.startswith("--"):
            pending.append(l)
            i += 1
            continue
        if re.match(r"(pub )?use ", l):
            uses.append(l)
            i += 1
            continue
        if re.match(r"(pub )?mod ", l):
            i += 1
            continue
        block = [l]
        i += 1
        while i < len(lines) and (not lines[i].strip() or lines[i].startswith((" ", ")", "}"))):
            block.append(lines[i])
            i += 1
        while block and not block[-1].strip():
            block.pop()
        items.append((pending, "\n".join(block)))
        pending = []
    return header, uses, items


SIG = re.compile(r"^(?:(?:abbrev|unfoldable|pub)\s+)*(" + CH + r"+)\s*:(?=\s)")


def group_items(items):
    """Joins a signature, its unfolding line and its clauses into one declaration."""
    out = []
    for comment, block in items:
        m = SIG.match(block)
        if m and not block.startswith(("data ", "record ", "pub data", "pub record", "module ")):
            out.append({"name": m[1], "comment": comment, "sig": block, "clauses": [], "unfolding": None, "kind": "decl"})
        elif block.startswith("unfolding ") and out:
            out[-1]["unfolding"] = block
        elif out and out[-1]["kind"] == "decl" and re.match(re.escape(out[-1]["name"]) + r"(?=[\s=])", block):
            out[-1]["clauses"].append(block)
        else:
            out.append({"name": None, "comment": comment, "sig": block, "clauses": [], "unfolding": None, "kind": "raw"})
    return out


def flatten_modules(items, names):
    """A module over the measure t alone is taken apart."""
    out = []
    for comment, block in items:
        if re.match(r"module _ \(t : ℕ\) where", block):
            inner = "\n".join(l[2:] if l.startswith("  ") else l for l in block.split("\n")[1:])
            _, _, inside = split_decls("\n" + inner)
            out += flatten_modules(inside, names)
        else:
            out.append((comment, block))
    return out


def arguments(text):
    """The arguments of an application, as strings."""
    args, i = [], 0
    while i < len(text):
        if text[i].isspace():
            i += 1
            continue
        if text[i] == "(":
            depth, j = 0, i
            while j < len(text):
                if text[j] == "(":
                    depth += 1
                elif text[j] == ")":
                    depth -= 1
                    if depth == 0:
                        break
                j += 1
            args.append(text[i : j + 1])
            i = j + 1
        elif text[i] == ")":
            break
        else:
            j = i
            while j < len(text) and not text[j].isspace() and text[j] not in "()":
                j += 1
            args.append(text[i:j])
            i = j
    return args


class Turner:
    def __init__(self, function, helpers, steps, where):
        self.f, self.helpers, self.steps, self.where = function, helpers, steps, where
        self.done = []

    def hide(self, text):
        self.done.append(text)
        return f"\x00{len(self.done) - 1}\x00"

    def turn(self, body, env, root="c"):
        self.done = []
        body = self.inner(body, dict(env), root)
        while "\x00" in body:
            body = re.sub("\x00(\\d+)\x00", lambda m: self.done[int(m[1])], body)
        return body

    def plain(self, body):
        """Leaves out the functions from a place to an earlier one: a fact has one name from wherever it is seen."""
        atom = r"(" + CH + r"+(?:\." + CH + r"+)*)"
        while True:
            old = body
            for name in self.steps:
                n = r"(?<!" + CH + r")(?<!\.)" + re.escape(name)
                body = re.sub(r"\(" + n + r" " + atom + r"\)", r"\1", body)
                body = re.sub(n + r" " + atom, r"\1", body)
            if body == old:
                return body

    def inner(self, body, env, root):
        body = self.plain(body)
        path = re.compile(r"(?<!" + CH + r")(?<!\.)(" + CH + r"+)((?:\." + CH + r"+)*)")
        let = re.compile(r"(?<!" + CH + r")let (" + CH + r"+) = (" + CH + r"+)((?:\." + CH + r"+)*) in(?!" + CH + r")\s*")
        at = 0
        while True:
            m = let.search(body, at)
            if not m:
                break
            if m[2] in env:
                place, segs = env[m[2]]
                env[m[1]] = (place, segs + [s for s in m[3].split(".") if s])
                body = body[: m.start()] + body[m.end() :]
                at = m.start()
            else:
                at = m.end()
        for name, helper in self.helpers.items():
            call = re.compile(r"(?<!" + CH + r")(?<!\.)" + re.escape(name) + r"(?: t)? (" + CH + r"+)((?:\." + CH + r"+)*)")
            while True:
                m = call.search(body)
                if not m:
                    break
                if m[1] not in env:
                    left(self.where, f"{name} is given {m[1]}{m[2]}")
                    break
                place = env[m[1]][0]
                text = self.inner(helper["body"], {helper["var"]: (place, [])}, root)
                if helper["more"]:
                    text = "λ " + " ".join(helper["more"]) + ". " + text
                typ = self.inner(helper["type"], {helper["var"]: (place, [])}, root)
                body = body[: m.start()] + self.hide(f"(let it : {typ} = {text} in it)") + body[m.end() :]

        def one(m):
            if m[1] not in env:
                return m[0]
            place, segs = env[m[1]]
            kind, it = self.f.resolve(place, segs + [s for s in m[2].split(".") if s])
            if kind != "path":
                left(self.where, f"{m[0]} is {'a place' if kind == 'place' else 'unknown: ' + '.'.join(it)}")
                return m[0]
            return self.hide(root + "." + ".".join(it))

        return path.sub(one, body)


def params_of(crate, path):
    return [p for p, _ in typed_params(crate, path)]


def typed_params(crate, path):
    """The parameters of a function and their types, read from the source: path as ['walk', 'node']."""
    mods, name = path[:-1], path[-1]
    for file in ([os.path.join(crate, "src", *mods) + ".rt"] if mods else []) + [os.path.join(crate, "src", "lib.rt"), os.path.join(crate, "src", "main.rt")]:
        if os.path.isfile(file):
            text = open(file, encoding="utf-8").read()
            m = re.search(r"\bfn " + re.escape(name) + r"\s*(?:<[^>]*>)?\s*\(([^)]*)\)", text)
            if m:
                return [tuple(x.strip() for x in re.sub(r"^\s*(mut )?", "", p).split(":", 1)) for p in m[1].split(",") if ":" in p]
    return []


def tokens_in(text):
    return set(WORD.findall(text)) | set(re.findall(r"[^\w\s(){}.;,@\"«»\[\]\\]+", text))


def uses_for(uses, text):
    body = text
    out = []
    seen = tokens_in(body)
    for u in uses:
        if re.search(r"\.Statement\.\{|\.Tie\b|\.Reads as|\.Kinds as|\.Lts\b|\.Lts-|borrow\.Fn\.|\.Proof\.|\.\{statement\}|\.Lts", u):
            continue
        m = re.match(r"use ([^{]*)\.\{(.*)\}$", u)
        if m:
            kept = []
            for n in (n.strip() for n in m[2].split(",")):
                shown = n.split(" as ")[-1].strip()
                parts = [p for p in shown.split("◌") if p]
                if ("◌" in shown and all(p in body for p in parts)) or shown in seen:
                    kept.append(n)
            if kept:
                out.append(f"use {m[1]}.{{{', '.join(kept)}}}")
        else:
            m = re.match(r"use (\S+)(?: as (\S+))?$", u)
            alias = m[2] or m[1].split(".")[-1]
            if re.search(r"(?<!" + CH + r")" + re.escape(alias) + r"\.", body):
                out.append(u)
    return out


def lambda_of(arg):
    m = re.match(r"\(λ ([^.]*)\.\s*(.*)\)$", arg, re.S)
    if not m:
        return None
    return m[1].split(), m[2]


def turn_file(crate, name, folder, names, cycle):
    where = os.path.relpath(folder, os.path.join(crate, ".."))
    text = open(os.path.join(folder, "Proof.antt"), encoding="utf-8").read()
    header, uses, items = split_decls(text)
    extra = os.path.join(folder, "Proof")
    if os.path.isdir(extra):
        for f in sorted(os.listdir(extra)):
            _, u, it = split_decls(open(os.path.join(extra, f), encoding="utf-8").read())
            uses += [x for x in u if x not in uses]
            items = it + items
    items = flatten_modules(items, names)
    decls = group_items(items)
    by_name = {d["name"]: d for d in decls if d["name"]}
    path = os.path.relpath(folder, os.path.join(crate, "proofs")).split(os.sep)
    if cycle:
        members = {k.rsplit(".Lts-", 1)[1]: v for k, v in names.items()}
    else:
        members = {None: next(iter(names.values()))}
    functions = {m: Function(v, params_of(crate, path[:-1] + [m] if cycle else path), cycle) for m, v in members.items()}
    spec = [d for d in decls if d["name"] and re.search(r"-spec$|_spec$", d["name"]) and "statement" in d["sig"]]
    if len(spec) != 1 or len(spec[0]["clauses"]) != 1:
        left(where, "no one spec")
        return
    spec = spec[0]
    body = spec["clauses"][0].split("=", 1)[1]
    calls = []
    if cycle:
        for m in re.finditer(r"\(λ t\.\s*(" + CH + r"+)\.spec\s", body):
            depth, j = 0, m.start()
            while True:
                depth += {"(": 1, ")": -1}.get(body[j], 0)
                j += 1
                if depth == 0:
                    break
            member = re.sub(r"-lts$", "", m[1])
            member = next((x for x in members if norm(x) == norm(member)), None)
            if member is None:
                left(where, f"no member {m[1]}")
                return
            calls.append((member, arguments(body[m.end() : j - 1])[3:]))
    else:
        m = re.search(r"tie\.spec(?=[\s)])", body)
        if not m:
            left(where, "no tie.spec")
            return
        calls.append((None, arguments(body[m.end() :])))
    # helpers that take a place
    place_type = re.compile(r"^(?:pub )?" + CH + r"+ : \((" + CH + r"+) : (?:tie|" + CH + r"+-lts)\.(" + CH + r"+)(?:\s[^→]*?)?\)\s*→\s*(.*)$", re.S)
    step_type = re.compile(r"^(?:abbrev |pub )*(" + CH + r"+) : [^→]*?(?:tie|" + CH + r"+-lts)\.[^→]*→\s*(?:tie|" + CH + r"+-lts)\.[^→]*$", re.S)
    helpers_of = {m: {} for m in members}
    gone, steps = set(), []
    for d in decls:
        if d["kind"] == "decl" and ".Need-" not in d["sig"] and step_type.match(d["sig"]):
            steps.append(d["name"])
            gone.add(d["name"])
    for d in decls:
        if d["kind"] != "decl" or not d["clauses"] or ".Need-" in d["sig"] or d["name"] in steps:
            continue
        m = place_type.match(d["sig"])
        if m:
            member = None
            if cycle:
                lts = re.search(r": (" + CH + r"+)-lts\.", d["sig"])[1]
                member = next((x for x in members if norm(x) == norm(lts)), None)
            clause = d["clauses"][0]
            head, b = clause.split("=", 1)
            ps = head.split()[1:]
            # the type's variable and the clause's may differ
            typ = m[3]
            if ps and ps[0] != m[1]:
                typ = re.sub(r"(?<!" + CH + r")(?<!\.)" + re.escape(m[1]) + r"(?=[.\s)])", ps[0], typ)
            helpers_of[member][d["name"]] = {"var": ps[0] if ps else m[1], "more": ps[1:], "body": b.strip(), "type": typ.strip()}
            gone.add(d["name"])
    answers, invariants, used = [], [], {spec["name"]}
    for member, args in calls:
        f = functions[member]
        stem = f.n["stem"]
        loops = f.n["loops"]
        turner = Turner(f, helpers_of[member], steps, where)
        needs, at = f.n["needs"], f.n["asked_at"]
        exact = len(args) == 2 * len(loops) + len(needs)
        by_need = {norm(n[0]): k for k, n in enumerate(needs)}
        if not exact:
            left(where, f"look: {member or ''}: {len(args)} arguments for {len(loops)} loops and {len(needs)} goals")
        for a in args[: 2 * len(loops)]:
            a = a.strip("()").split()[0].split(".")[-1]
            d = by_name.get(a)
            if not d:
                left(where, f"invariant {a}")
                continue
            used.add(a)
            m = re.search(r"\.(invariant|decreases)-(" + CH + r"+)\s*$", d["sig"].split("(")[0].rstrip())
            k = next((k for k, l in enumerate(loops) if m and norm(l[0][0]) == norm(m[2])), None)
            if k is None or len(d["clauses"]) != 1:
                left(where, f"loop of {a}")
                continue
            (old, new), vars_ = loops[k]
            changed = f.n["changed"][k]
            head, b = d["clauses"][0].split("=", 1)
            ps = head.split()[1:]
            later = [v for v, c in zip(vars_, changed) if c]
            want = ["l.initial." + v if c else "l." + v for v, c in zip(vars_, changed)] + ["l." + v for v in later]
            if len(ps) != len(want):
                left(where, f"{a}: {len(ps)} parameters for {len(want)}")
                continue
            table = dict(zip(ps, want))
            b = re.sub(r"(?<!" + CH + r")(?<!\.)(" + CH + r"+)", lambda m: table.get(m[1], m[0]), b)
            g = f"{m[1]}-{stem}{new}"
            invariants.append("\n".join(d["comment"] + [f"abbrev pub {g} : goal.{g}"] + ([d["unfolding"]] if d["unfolding"] else []) + [f"{g} l ={b}"]))
        for k, a in enumerate(args[2 * len(loops) :]):
            comment, unfolding = [], None
            lam = lambda_of(a)
            if lam and not exact:
                if lam[1].strip() not in ("search rules", "(search rules)"):
                    left(where, f"answer {a[:100]}")
                continue
            if not lam:
                d = by_name.get(a.strip("()").split()[0].split(".")[-1])
                m = d and re.search(r"\.Need-(" + CH + r"+)", d["sig"])
                k2 = by_need.get(norm(m[1])) if m else None
                if k2 is not None:
                    k = k2
                elif not exact:
                    left(where, f"answer {a[:100]}")
                    continue
            new = stem + needs[k][1]
            place = f.places[norm(at[k][0])]
            if lam:
                var, b = lam[0][0], lam[1]
            else:
                ref = a.strip("()").split()[0].split(".")[-1]
                d = by_name.get(ref)
                if not d or len(d["clauses"]) != 1:
                    left(where, f"answer {a[:60]} of {new}")
                    continue
                used.add(ref)
                head, b = d["clauses"][0].split("=", 1)
                ps = head.split()[1:]
                if not ps:
                    left(where, f"answer {ref} of {new} takes nothing")
                    continue
                var, comment, unfolding = ps[0], d["comment"], d["unfolding"]
            if b.strip() in ("search rules", "(search rules)"):
                continue
            if re.match(r"enum_(known|told)", needs[k][1]):
                continue
            # one argument in place of two, where a call's ghost value was the second
            b = turner.turn(b, {var: (place, [])})
            tc = "t c" if cycle else "c"
            answers.append("\n".join(comment + [f"pub {new} : goal.{new}"] + ([unfolding] if unfolding else []) + [f"{new} {tc} ={b if b[:1] in (' ', chr(10)) else ' ' + b}"]))
    if cycle:
        for member, f in functions.items():
            d = next((d for d in decls if d["name"] and norm(d["name"]) == "μ" + norm(member)), None)
            if not d or len(d["clauses"]) != 1:
                left(where, f"measure of {member}")
                continue
            used.add(d["name"])
            b = d["clauses"][0].split("=", 1)[1]

            def param(m):
                k = m[1].count(".1")
                return "l." + f.params[k] if k < len(f.params) else m[0]

            b = re.sub(r"(?<!" + CH + r")(?<!\.)a((?:\.1)*)\.0(?!" + CH + r")", param, b)
            g = f"decreases-{member}"
            invariants.insert(0, "\n".join(d["comment"] + [f"abbrev pub {g} : goal.{g}", f"{g} l ={b}"]))
    rest = []
    for d in decls:
        if d["kind"] == "decl" and (d["name"] in used or d["name"] in gone):
            continue
        raw = "\n".join(d["comment"] + [d["sig"]] + ([d["unfolding"]] if d["unfolding"] else []) + d["clauses"])
        if re.search(r"\btie\.|-lts\.|-kinds\.ps", raw):
            if ".Need-" not in raw and not re.search(r"(-calls|_calls|-at|_at) :", raw.split("\n")[-2] if "\n" in raw else raw):
                left(where, "not carried: " + raw.split("\n")[len(d["comment"])][:100])
            continue
        rest.append(raw)
    module = "Rattle." + name + ".proofs." + ".".join(path)
    inv_text, ans_text = "\n\n".join(invariants), "\n\n".join(answers)
    inv_rest = [r for r in rest if any(re.search(r"(?<!" + CH + r")" + re.escape(n) + r"(?!" + CH + r")", inv_text) for n in [group_items([([], r.split("\n", 1)[0])])[0]["name"]] if n)]
    if inv_rest:
        inv_text = "\n\n".join(inv_rest) + "\n\n" + inv_text
    rest_text = "\n\n".join(rest)
    only = [r for r in rest if r not in inv_rest or any(re.search(r"(?<!" + CH + r")" + re.escape(n) + r"(?!" + CH + r")", ans_text) for n in [group_items([([], r.split("\n", 1)[0])])[0]["name"]] if n)]
    rest_text = "\n\n".join(only)
    if only and answers:
        ans_text = rest_text + "\n\n" + ans_text
    elif rest and not answers:
        # lemmas that nothing cites any more
        pass
    os.remove(os.path.join(folder, "Proof.antt"))
    if os.path.isdir(extra):
        shutil.rmtree(extra)
    if inv_text:
        us = uses_for(uses, inv_text) + [f"use {module}.Given as goal"]
        with open(os.path.join(folder, "Invariants.antt"), "w", encoding="utf-8") as o:
            o.write("\n".join(header + us) + "\n\n" + inv_text + "\n")
    if answers:
        us = uses_for(uses, ans_text) + [f"use {module}.Goals as goal"]
        with open(os.path.join(folder, "Answers.antt"), "w", encoding="utf-8") as o:
            o.write("\n".join(header + us) + "\n\n" + ans_text + "\n")
    if not os.listdir(folder):
        os.rmdir(folder)


def main():
    names = json.load(open(sys.argv[1], encoding="utf-8"))
    crate = os.path.normpath(sys.argv[2])
    name = os.path.basename(os.path.abspath(crate))
    Function.crates = os.path.dirname(os.path.abspath(crate))
    prefix = f"Rattle-{name}-proofs."
    for folder, dirs, files in list(os.walk(os.path.join(crate, "proofs"))):
        if "Proof.antt" not in files:
            continue
        path = ".".join(os.path.relpath(folder, os.path.join(crate, "proofs")).split(os.sep))
        cycle = os.path.basename(folder).startswith("+")
        found = {k: v for k, v in names.items() if (k.startswith(prefix + path + ".Lts-") if cycle else k == prefix + path + ".Lts")}
        if not found:
            left(path, "no names")
            continue
        try:
            turn_file(crate, name, folder, found, cycle)
        except Exception as e:
            left(path, f"failed: {type(e).__name__}: {e}")
    print("\n".join(LEFT))


main()
