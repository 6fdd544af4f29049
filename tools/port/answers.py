#!/usr/bin/env python3
"""Turns a crate's old Proof.antt files, which walk the code by hand, to Invariants.antt and Answers.antt.

usage: python3 tools/port/answers.py NAMES CRATE [FUNCTION-FOLDER..]

NAMES is the names.json that `rt check --generated DIR --old-names` leaves in DIR, run in the crate's folder. Goals that
the old proof gave to a tactic alone are left to the check; they are kept in the folder of temporary files for a goal that it
then leaves open (`again`, below).

       python3 tools/port/answers.py again CRATE LOG   adds those answers for the goals that the check's LOG names
"""

import json
import os
import re
import sys
import tempfile

IDENT = r"[A-Za-z_][\w'-]*"
LABELS = {"walk::recall": {"0": "noted", "1": "seen"}, "solver::answer": {"0": "said", "1": "cleared", "2": "wrote"}}
TRIVIAL = re.compile(r"(?:omega arith|search rules|tt|refl|omega \(arith\)|search \(rules\))$")


def kept_in(crate):
    return os.path.join(tempfile.gettempdir(), f"answers-{crate}.json")


def norm(s):
    return s.replace("-", "_")


class Names:
    def __init__(self, entry):
        self.places, self.parent = {}, {}
        for old, parent, (of, nf), callee, _ in entry["places"]:
            self.places[norm(old)] = (of, nf, callee)
            self.parent[norm(old)] = norm(parent) if parent else None
        self.new_place = {norm(p[0]): n for p, n in zip(entry["places"], entry["places_by_name"])}
        self.needs = [(norm(o), n) for o, n in entry["needs"]]
        self.asked = [norm(o) for o, _ in entry["asked_at"]]
        self.need = {}
        for i, (o, n) in enumerate(self.needs):
            self.need[o] = (n, self.asked[i] if i < len(self.asked) else None)
        for i, (o, n) in enumerate(self.needs):
            self.need.setdefault(norm(n), self.need[o])
            self.need.setdefault("overflow_" + o, self.need[o])
        self.arms = {norm(p[0]): a for p, a in zip(entry["places"], entry["arms"]) if a}
        self.loops = entry["loops"]
        self.changed = entry["changed"]
        self.params = entry["params"]
        self.taken_by = {}  # a helper of the file: the place that it takes

    def up(self, place, n):
        for _ in range(n):
            place = self.parent.get(place) or place
        return place

    def arm(self, place, fields):
        """What an arm calls a path in the old spelling: its fields, and how many of the path they stand for."""
        p = place
        while p is not None:
            if p in self.arms:
                name, _, entries = self.arms[p]
                for new, step, path in sorted(entries, key=lambda e: -len(e[2])):
                    if norm(step) == norm(fields[0]) and [norm(x) for x in path] == [norm(x) for x in fields[1 : 1 + len(path)]]:
                        return [name, new], 1 + len(path)
            p = self.parent.get(p)
        return None

    def find(self, place, field):
        """The place at or above `place` whose own step is `field` in the old spelling."""
        f = norm(field)
        p = place
        while p is not None:
            of, nf, callee = self.places[p]
            if norm(of) == f:
                return nf, callee
            p = self.parent.get(p)
        return None


def lent_to(callee):
    """The parameters of a function that are lent for writing."""
    crate, name = callee.split("::")[0], callee.split("::")[-1]
    for folder, _, files in os.walk(os.path.join("crates", crate, "src")):
        for f in files:
            m = re.search(r"fn " + name + r"\b(?:<[^>]*>)?\(([^)]*)\)", open(os.path.join(folder, f), encoding="utf-8").read())
            if m:
                return re.findall(r"(\w+)\s*:\s*&mut", m.group(1))
    return []


def fix_field(names, nf, callee, rest):
    """The fields behind a step."""
    if callee and rest and rest[0] == "new":
        i = 1
        while i < len(rest) and rest[i] == "1":
            i += 1
        k = i - 1
        params = names.params.get(callee)
        if i < len(rest) and rest[i] == "0" and params and k < len(params):
            return ["new", params[k]] + rest[i + 1:]
    if callee and rest[:1] == ["auto"]:
        lent = lent_to(callee)
        k = 1
        while k < len(rest) and rest[k] == "1":
            k += 1
        if len(lent) == 1 and k < len(rest) and rest[k] == "0":
            return ["auto", lent[0]] + rest[k + 1:]
    if callee and rest[:1] == ["ensures"] and len(rest) > 1 and callee in LABELS and rest[1] in LABELS[callee]:
        return ["ensures", LABELS[callee][rest[1]]] + rest[2:]
    return rest


WARN = []
START = ("args", "requires", "ranges", "lifetimes", "auto", "type_inv", "loop", "well_formed")


def convert(text, names, places, where, goal=None):
    """Turns every path of a variable in `places` (its name to its old place). `goal`: the answer's, if it is one."""
    places, steps = {v: (v, p) for v, p in places.items()}, {}
    out, at = [], 0
    path = re.compile(r"(?<![\w.'-])(" + IDENT + r")((?:\.(?:\d+|" + IDENT + r"))*)")
    for m in path.finditer(text):
        if m.start() < at:
            continue
        var, fields = m.group(1), [f for f in m.group(2).split(".") if f]
        if var in steps and fields:
            out.append(text[at : m.start()])
            at = m.end()
            out.append(".".join([var] + fix_field(names, None, steps[var], fields)))
            continue
        if var not in places:
            continue
        root, place = places[var]
        n = 0
        while n < len(fields) and fields[n] == "before":
            n += 1
        there = names.up(place, n)
        if there is None:
            WARN.append(f"{where}: {m.group(0)} goes above the start")
            continue
        rest = [{"pre": "requires", "left": "false", "taken": "true"}.get(f, f) for f in fields[n:]]
        # a place that a let binds: its names are `root`'s own now
        bound = re.search(r"let (" + IDENT + r") = $", text[: m.start()])
        if not rest and bound and re.match(r"\s+in\s", text[m.end():]):
            places[bound.group(1)] = (root, there)
            out.append(text[at : bound.start()])
            at = m.end() + re.match(r"\s+in\s\s*", text[m.end():]).end()
            continue
        out.append(text[at : m.start()])
        at = m.end()
        if not rest:
            helper = re.search(r"(?<![\w.'-])(" + IDENT + r") $", text[: m.start()])
            if helper and helper.group(1) in names.taken_by:
                there = names.taken_by[helper.group(1)]
            if there == places[root][1]:
                out.append(root)
            elif goal:
                out.append(f"(goal.at.{goal} {root}).{names.new_place[there]}")
            else:
                WARN.append(f"{where}: a helper passes on {names.new_place[there]}")
                out.append(f"(UP {root}).{names.new_place[there]}")
            continue
        arm = names.arm(there, rest)
        found = names.find(there, rest[0]) or names.find(place, rest[0])
        arm = arm or names.arm(place, rest)
        if not arm and not found and rest[0] not in START and names.places[there][2] is None:
            WARN.append(f"{where}: {m.group(0)} is not found")
        if arm:
            out.append(".".join([root] + arm[0] + rest[arm[1]:]))
        elif found:
            nf, callee = found
            if bound and len(rest) == 1:
                steps[bound.group(1)] = callee
            out.append(".".join([root, nf] + fix_field(names, nf, callee, rest[1:])))
        else:
            out.append(".".join([root] + rest))
    out.append(text[at:])
    # the test of an `if !x` is known as one of x
    return re.sub(r"\bnot-(?:true|false) (?:[^\s()]+|\([^()]*\)) (" + IDENT + r"\.if-not-[\w'-]*\.(?:true|false))", r"\1", "".join(out))


def declarations(text):
    """Top-level blocks: (comments, name, signature, unfolding lines, clauses), and the use lines."""
    uses, blocks, cur, notes = [], [], None, []
    for line in text.split("\n"):
        if line.startswith("use "):
            uses.append(line)
        elif line.startswith("--"):
            if cur:
                blocks.append(cur)
                cur = None
            notes.append(line)
        elif not line.strip():
            if cur:
                blocks.append(cur)
                cur = None
            elif notes and not blocks and not uses:
                pass
        elif line[0] in ")]}" and cur is not None and cur["clauses"]:
            cur["clauses"][-1] += "\n" + line
        elif line[0] != " ":
            m = re.match(r"((?:pub |abbrev |unfoldable )*)(" + IDENT + r") : (.*)", line)
            if m and not line.startswith("unfolding"):
                if cur:
                    blocks.append(cur)
                cur = {"notes": notes, "how": m.group(1), "name": m.group(2), "sig": m.group(3), "unfolding": [], "clauses": []}
                notes = []
            elif cur is None:
                blocks.append({"notes": notes, "raw": [line], "name": None})
                notes = []
            elif line.startswith("unfolding "):
                cur["unfolding"].append(line)
            else:
                cur["clauses"].append(line)
        elif cur is not None:
            if cur["clauses"]:
                cur["clauses"][-1] += "\n" + line
            else:
                cur["sig"] += "\n" + line
        elif blocks:
            blocks[-1].setdefault("raw", []).append(line)
    if cur:
        blocks.append(cur)
    return uses, blocks


def arguments(text):
    """The arguments of `tie.spec`, split at the outermost level."""
    at = text.index("tie.spec") + len("tie.spec")
    depth, args, cur = 0, [], ""
    for ch in text[at:]:
        if ch in "([{":
            depth += 1
        elif ch in ")]}":
            depth -= 1
            if depth < 0:
                break
        if ch.isspace() and depth == 0:
            if cur:
                args.append(cur)
            cur = ""
        else:
            cur += ch
    if cur:
        args.append(cur)
    return args


def split_clause(name, clause):
    """`name a b = body`: the patterns and the body."""
    m = re.match(re.escape(name) + r"(.*?) =(?=\s)", clause, re.S)
    if not m:
        sys.exit(f"answers: not a clause of {name}: {clause[:120]}")
    body = clause[m.end():]
    return m.group(1).split(), body if body.startswith("\n") else body.lstrip(" ")


def convert_function(crate, folder, names, reserve):
    path = os.path.join(folder, "Proof.antt")
    text = open(path, encoding="utf-8").read()
    where = os.path.relpath(folder, "crates")
    uses, blocks = declarations(text)
    spec = [b for b in blocks if b["name"] and any("tie.spec" in c for c in b["clauses"])]
    if len(spec) != 1:
        WARN.append(f"{where}: no tie.spec")
        return
    spec = spec[0]
    args = arguments("\n".join(spec["clauses"]))
    by_name = {b["name"]: b for b in blocks if b["name"]}
    loop_args = []
    while args and args[0] in by_name and re.match(r"tie\.(invariant|decreases)", by_name[args[0]]["sig"]):
        loop_args.append(args.pop(0))
    if len(args) != len(names.needs):
        WARN.append(f"{where}: {len(args)} answers for {len(names.needs)} goals: {[n for _, n in names.needs]}")
    # the module path of the function
    module = "Rattle." + crate + ".proofs." + os.path.relpath(folder, os.path.join("crates", crate, "proofs")).replace("/", ".")
    # invariants
    invariants, taken, loop_names = [], set(), {}
    for la in loop_args:
        b = by_name[la]
        taken.add(la)
        m = re.match(r"tie\.(invariant|decreases)-(" + IDENT + r")", b["sig"])
        kind, label = m.group(1), m.group(2)
        hit = [(i, it) for i, it in enumerate(names.loops) if norm(it[0][0]) == norm(label)]
        if not hit:
            WARN.append(f"{where}: no loop {label}")
            continue
        i, ((_, new), live) = hit[0]
        changed = names.changed[i]
        head, body = split_clause(la, b["clauses"][0])
        to = {}
        want = [("initial", v) if ch else ("same", v) for v, ch in zip(live, changed)] + [("now", v) for v, ch in zip(live, changed) if ch]
        if len(head) != len(want):
            WARN.append(f"{where}: {la} has {len(head)} variables for {len(want)}: {want}")
        for h, (how, v) in zip(head, want):
            to[h] = f"l.initial.{v}" if how == "initial" else f"l.{v}"
        body = re.sub(r"(?<![\w.'])(" + IDENT + r"[₀-₉]?)(?![\w'])", lambda m: to.get(m.group(1), m.group(1)), body)
        loop_names[la] = (kind, new)
        invariants.append((b["notes"], f"{kind}-{new}", b["unfolding"], body))
    for b in blocks:
        m = b["name"] and re.search(r"\((" + IDENT + r") : tie\.(" + IDENT + r")([^()]*)\)", b["sig"])
        if m and norm(m.group(2)) in names.places:
            names.taken_by[b["name"]] = norm(m.group(2))
    goal_of = {}
    for b in blocks:
        m = b["name"] and re.match(r"tie\.Need-(\S+)", b["sig"])
        if m and norm(m.group(1)) in names.need:
            goal_of[b["name"]] = names.need[norm(m.group(1))]
        elif m:
            WARN.append(f"{where}: no goal {m.group(1)}")
    rename = {k: v[0] for k, v in goal_of.items()}

    def words(t):
        return re.sub(r"(?<![\w.'-])(" + IDENT + r")", lambda m: rename.get(m.group(1), m.group(1)), t)

    def drop_loops(t):
        for la in loop_args:
            t = re.sub(r"(?<![\w.'-])" + re.escape(la) + r"(?![\w'-])", "", t)
        return re.sub(r"  +", " ", t)

    helpers, inv_helpers, shared = [], [], set()
    # declarations that the invariants name go beside them
    inv_text = "\n".join(b for _, _, _, b in invariants)
    for b in blocks:
        if b["name"] is None:
            WARN.append(f"{where}: left: {b['raw'][:1]}")
            continue
        if b is spec or b["name"] in taken or b["name"] in goal_of:
            continue
        sig = b["sig"]
        m = re.search(r"\((" + IDENT + r") : tie\.(" + IDENT + r")([^()]*)\)", sig)
        if m:
            old = norm(m.group(2))
            if old not in names.places:
                WARN.append(f"{where}: {b['name']}: no place {m.group(2)}")
            place = old if old in names.places else None
            shared.add(names.new_place.get(old, m.group(2)))
            sig = sig[: m.start()] + f"({m.group(1)} : {names.new_place.get(old, m.group(2))})" + sig[m.end():]
            sig = drop_loops(sig)
            if place:
                sig = convert(sig, names, {m.group(1): place}, where)
                var = m.group(1)
                clauses = [convert(c, names, {var: place}, where) for c in b["clauses"]]
            else:
                clauses = b["clauses"]
            helpers.append((b["notes"], b["how"], b["name"], sig, b["unfolding"], [words(c) for c in clauses]))
        else:
            it = (b["notes"], b["how"], b["name"], sig, b["unfolding"], [words(c) for c in b["clauses"]])
            if re.search(r"(?<![\w.'-])" + re.escape(b["name"]) + r"(?![\w'-])", inv_text):
                inv_helpers.append(it)
            else:
                helpers.append(it)
    spare = {}
    order = []
    for i, arg in enumerate(args):
        if i >= len(names.needs):
            break
        old, new = names.needs[i]
        place = names.asked[i] if i < len(names.asked) else None
        if arg in goal_of:
            if goal_of[arg][0] == new:
                b = by_name[arg]
                cl = []
                for c in b["clauses"]:
                    head, body = split_clause(arg, c)
                    if "κs" in head:
                        head.remove("κs")
                    if head != ["c"]:
                        WARN.append(f"{where}: {arg} takes {head}")
                    cl.append((" ".join([new] + head), words(convert(body, names, {head[0] if head else "c": place}, where, new))))
                order.append((b["notes"], new, b["unfolding"], cl))
                continue
            order.append(([], new, [], [(new + " c", f"{rename[arg]} c")]))
            continue
        m = re.match(r"\(λ ([^.()]*)\. (.*)\)$", arg, re.S)
        if m:
            head = m.group(1).split()
            body = m.group(2)
            if "κs" in head:
                head.remove("κs")
            var = head[0] if head else "c"
            body = words(convert(body, names, {var: place}, where, new))
            one = ([], new, spec["unfolding"], [(new + " " + " ".join(head), body)])
            if TRIVIAL.match(body.strip()):
                spare[new] = f"{new} {' '.join(head)} = {body}"
                continue
            order.append(one)
        else:
            order.append(([], new, [], [(new + " c", f"{words(arg)} c")]))
    keep = [u for u in uses if not re.search(r"\.(Statement|Tie)\b", u)]
    reserve[where] = {"module": module, "folder": folder, "spare": spare}
    # write
    inv_lines = []
    if invariants:
        for notes, new, unf, body in invariants:
            inv_lines += notes + [f"abbrev pub {new} : goal.{new}"] + unf + [f"{new} l = {body}" if not body.startswith("\n") else f"{new} l ={body}", ""]
        before = []
        for notes, how, name, sig, unf, cl in inv_helpers:
            how = how if "pub" in how else (how.replace("abbrev ", "abbrev pub ").replace("unfoldable ", "unfoldable pub ") if how else "pub ")
            before += notes + [f"{how}{name} : {sig}"] + unf + cl + [""]
        inv_text = "\n".join(keep + [f"use {module}.Given as goal", ""] + before + inv_lines)
        open(os.path.join(folder, "Invariants.antt"), "w", encoding="utf-8").write(inv_text.rstrip("\n") + "\n")
    body = []
    for notes, how, name, sig, unf, cl in helpers:
        body += notes + [f"{how}{name} : {sig}"] + unf + cl + [""]
    for notes, new, unf, cl in order:
        body += notes + [f"pub {new} : goal.{new}"] + unf
        for h, bd in cl:
            body.append(f"{h} = {bd}" if not bd.startswith("\n") else f"{h} ={bd}")
        body.append("")
    if body:
        more = []
        if inv_helpers:
            more = [f"use {module}.Invariants.{{{', '.join(it[2] for it in inv_helpers)}}}"]
        if shared:
            more.append(f"use {module}.Goals.{{{', '.join(sorted(shared))}}}")
        t = "\n".join(keep + more + [f"use {module}.Goals as goal", ""] + body)
        open(os.path.join(folder, "Answers.antt"), "w", encoding="utf-8").write(t.rstrip("\n") + "\n")
    os.remove(path)


def again(crate, log):
    """Adds the kept answers for goals that the check leaves open."""
    reserve = json.load(open(kept_in(crate)))
    said = open(log, encoding="utf-8", errors="replace").read()
    n = 0
    for m in re.finditer(r"expected answers in (?:\./)?(proofs/\S+)/Answers\.antt; `search` did not prove (.*)", said):
        where = crate + "/" + m.group(1)
        it = reserve.get(where)
        if not it:
            continue
        p = os.path.join(it["folder"], "Answers.antt")
        for goal in re.findall(r"`([^`]+)`", m.group(2)):
            if goal not in it["spare"]:
                continue
            text = open(p, encoding="utf-8").read() if os.path.exists(p) else "use native.Mathlib.Omega.{arith}\nuse borrow.Author.Rules.{rules}\n" + f"use {it['module']}.Goals as goal\n"
            if f"pub {goal} :" in text:
                continue
            n += 1
            open(p, "w", encoding="utf-8").write(text.rstrip("\n") + f"\n\npub {goal} : goal.{goal}\n{it['spare'][goal]}\n")
    print(f"again: {n} answers")


def main(argv):
    if argv[:1] == ["again"]:
        return again(argv[1], argv[2])
    data = json.load(open(argv[0]))
    crate = argv[1]
    want = argv[2:]
    reserve = {}
    kept = kept_in(crate)
    if os.path.exists(kept):
        reserve = json.load(open(kept))
    for key, entry in data.items():
        m = re.match(r"Rattle-" + re.escape(crate) + r"-proofs\.(.*)\.Lts$", key)
        if not m:
            continue
        folder = os.path.join("crates", crate, "proofs", *m.group(1).split("."))
        if want and not any(folder.endswith("/" + w) for w in want):
            continue
        if os.path.exists(os.path.join(folder, "Proof.antt")):
            convert_function(crate, folder, Names(entry), reserve)
    json.dump(reserve, open(kept, "w"))
    print("\n".join(WARN) or "answers: nothing left")


main(sys.argv[1:])
