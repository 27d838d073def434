#!/usr/bin/env python3
"""Turns the walks of one crate, proofs/F/Proof.antt, to Invariants.antt and Answers.antt.

usage: tools/turn_proofs.py CRATE NAMES [F ..]    in the repository; NAMES is names.json, which `rt check --generated FOLDER --old-names` writes in the crate's folder

A function that NAMES lacks keeps its walk: it has callees that are not proved yet. Answers that Rattle finds itself are left out, and what could not be turned is printed.
It goes by text: rt check decides.
"""
import json
import os
import re
import sys

PATH = re.compile(r"(?<![A-Za-z0-9_'.-])c((?:\.before)*)((?:\.[A-Za-z0-9_'-]+)+)")
GIVEN_AWAY = ("search rules", "omega arith")


def plain(name):
    return name.replace("_", "-")


def blocks(text):
    """The imports, the comments before them, and each declaration as (comment, signature, unfolding, body)."""
    lines = text.split("\n")
    head, items, i = [], [], 0
    while i < len(lines) and not re.match(r"(abbrev |pub |unfoldable )*[^\s-]\S* ?:", lines[i].replace("{", " {")) :
        head.append(lines[i])
        i += 1
    # comment lines that stand right before the first declaration belong to it
    tail = []
    while head and (head[-1].startswith("--") or not head[-1].strip()) and any(l.startswith("use ") for l in head):
        tail.insert(0, head.pop())
    rest = tail + lines[i:]
    now = []
    for line in rest:
        if not line.strip():
            if now:
                items.append(now)
            now = []
            continue
        now.append(line)
    if now:
        items.append(now)
    # paragraphs that go on with the declaration before them
    joined = []
    for it in items:
        body = [l for l in it if not l.startswith("--")]
        if joined and body and body[0][0] in " ":
            joined[-1] += [""] + it
        else:
            joined.append(it)
    return head, joined


def tuple_path(n, i):
    return ["1"] * i + (["0"] if i < n - 1 else [])


def named(fields, steps):
    """The steps of a projection out of nested pairs, by the names of clauses."""
    for i, field in enumerate(fields):
        at = tuple_path(len(fields), i)
        if steps[: len(at)] == at:
            return [field] + steps[len(at) :]
    return steps


def parts(text):
    """The parts of a tuple in parentheses, or None."""
    text = text.strip()
    if not (text.startswith("(") and text.endswith(")")):
        return None
    depth, found, at = 0, [], 1
    for i, ch in enumerate(text):
        if ch in "([{":
            depth += 1
        elif ch in ")]}":
            depth -= 1
            if depth == 0 and i != len(text) - 1:
                return None
        elif ch == "," and depth == 1:
            found.append(text[at:i])
            at = i + 1
    found.append(text[at:-1])
    found = [it.strip() for it in found]
    if found and not found[-1]:
        found.pop()
    return found if len(found) > 1 else None


def as_record(text, fields):
    """A tuple of nested pairs as a record of the clauses."""
    lets = ""
    it = text.strip()
    if re.match(r"(search|omega|grind) ", it):
        return "record { " + "; ".join(f"{f} = {it}" for f in fields) + " }"
    while True:
        at = re.match(r"let (.|\n)*? in(?=[\s(])", it)
        if not at:
            break
        lets += at[0] + "\n    "
        it = it[at.end() :].strip()
    values = [it]
    while len(values) < len(fields):
        got = parts(values[-1])
        if got is None or len(values) - 1 + len(got) > len(fields):
            return lets + f"let asked = {it} in record {{ " + "; ".join(f"{f} = asked.{'.'.join(tuple_path(len(fields), k))}" for k, f in enumerate(fields)) + " }"
        values = values[:-1] + got
    return lets + "record { " + "; ".join(f"{f} = {v}" for f, v in zip(fields, values)) + " }"


class Turner:
    def __init__(self, key, data):
        self.key, self.d = key, data
        self.needs = {plain(old): (new, at[0], old) for (old, new), at in zip(data["needs"], data["asked_at"])}
        self.steps = {}
        self.place = {}
        for k, (name, before, step, callee, _) in enumerate(data["places"]):
            self.place[name] = k
            self.steps.setdefault(plain(step[0]), []).append((step[1], data["clauses"][k] if k < len(data["clauses"]) else None, callee, dict((plain(a), b) for a, b in data["places"][k][4])))
        self.left = []
        self.more = set()

    def typed(self, place, step):
        k = self.place.get(place)
        while k is not None:
            for var, old in self.d["typed"][k]:
                if plain(old) == step:
                    return var
            before = self.d["places"][k][1]
            k = self.place.get(before)
        for row in self.d["typed"]:
            for var, old in row:
                if plain(old) == step:
                    return var
        return None

    def arm(self, place, step, rest):
        """What an arm of a match binds, and that the value is that variant."""
        k = self.place.get(place)
        while k is not None:
            here = self.d["arms"][k] if k < len(self.d["arms"]) else None
            for field, old, at in sorted(here[2], key=lambda it: -len(it[2])) if here else []:
                if at and plain(old) == step and rest[: len(at)] == at:
                    return [here[0], field] + rest[len(at) :]
            k = self.place.get(self.d["places"][k][1])
        return None

    def path(self, found, place):
        steps = found[2].split(".")[1:]
        head = plain(steps[0])
        pre = self.d["pre"]
        if steps[0] == "args":
            return "c." + ".".join(steps)
        if steps[0] == "requires":
            if pre and len(steps) > 1:
                steps = ["requires"] + named(pre["fields"], steps[1:])
            return "c." + ".".join(steps)
        if len(steps) > 1 and steps[1] == "given":
            var = self.typed(place, head)
            if var:
                return ".".join(["c.type_inv", var] + steps[2:])
            arm = self.arm(place, head, steps[1:])
            if arm:
                return ".".join(["c"] + arm)
            self.left.append(f"{found[0]}: whose range?")
            return "c.type_inv." + head
        if steps == ["well-formed"]:
            return "c.well_formed"
        if head not in self.steps:
            # the step that several share
            self.left.append(f"{found[0]}: no step {head}")
            return "c." + ".".join(steps)
        choice = self.steps[head][0]
        news = {it[0] for it in self.steps[head]}
        if len(news) > 1:
            k = self.place.get(place)
            for _ in range(found[1].count(".before")):
                k = self.place.get(self.d["places"][k][1]) if k is not None else None
            step = self.d["places"][k][2] if k is not None else None
            if step and plain(step[0]) == head:
                choice = next(it for it in self.steps[head] if it[0] == step[1])
            else:
                self.left.append(f"{found[0]}: one of {sorted(news)}")
        new, clauses = choice[:2]
        if len(steps) > 1 and re.fullmatch(r"keys[0-9]+", steps[1]):
            steps[1] = "is"
        if len(steps) > 1 and steps[1] == "rest" and new.startswith("in_default"):
            steps = [steps[0], new + "-own"] + steps[1:]
        callee, kept = choice[2:]
        if len(steps) > 1 and plain(steps[1]) in kept:
            steps = [steps[0], kept[plain(steps[1])].replace("long-", "auto.", 1)] + steps[2:]
        if len(steps) > 2 and steps[1] == "auto" and callee in self.d["params"]:
            k = 0
            while k + 2 < len(steps) and steps[k + 2] == "1":
                k += 1
            if k + 2 < len(steps) and steps[k + 2] == "0" and k < len(self.d["params"][callee]):
                steps = [steps[0], "auto", self.d["params"][callee][k]] + steps[k + 3 :]
            elif k == len(self.d["params"][callee]) - 1:
                steps = [steps[0], "auto", self.d["params"][callee][k]] + steps[k + 2 :]
        if clauses and isinstance(clauses, dict) and len(steps) > 2 - (len(clauses["fields"]) == 1) and steps[1] == "ensures":
            steps = [steps[0], "ensures"] + named(clauses["fields"], steps[2:])
        elif clauses and isinstance(clauses, list) and len(steps) > 2 and steps[1] == "ensures":
            steps = [steps[0], "ensures"] + named(clauses, steps[2:])
        # the form that the walk had
        if new.startswith("if-not-") and steps[1:2] == ["false"]:
            steps[1] = "false-raw"
        if steps[1:2] == ["branch"]:
            steps[1] = "branch-raw"
        return ".".join(["c", new] + steps[1:])

    def paths(self, text, place):
        # names for places further up
        while True:
            at = re.search(r"let (\w+) = (c(?:\.before)*) in\s+", text)
            if not at:
                break
            rest = text[at.end() :]
            rest = re.sub(rf"(?<![\w.'-]){at[1]}(?=[\s.)]|$)", at[2], rest)
            text = text[: at.start()] + rest
        # names for what an arm binds
        while True:
            at = re.search(r"let (\w+) = (c(?:\.before)*\.[A-Za-z0-9_'-]+\.given(?:\.[01])*) in\s+", text)
            if not at or self.arm(place, plain(at[2].split(".given")[0].split(".")[-1]), ["given", "1"]) is None:
                break
            rest = text[at.end() :]
            rest = re.sub(rf"(?<![\w.'-]){at[1]}(?=[\s.),]|$)", at[2], rest)
            text = text[: at.start()] + rest
        # names for what a callee promised
        for name, step in re.findall(r"let ([a-z]\w*) = c(?:\.before)*\.([A-Za-z0-9_'-]+)\.ensures in", text):
            clauses = next((it[1] for it in self.steps.get(plain(step), []) if isinstance(it[1], dict)), None)
            if clauses and len(clauses["fields"]) > 1:
                text = re.sub(rf"(?<![\w.'-]){name}((?:\.[01])+)", lambda m: ".".join([name] + named(clauses["fields"], m[1].split(".")[1:])), text)
        # a name for what is required
        pre = self.d["pre"]
        if pre:
            for name in re.findall(r"let ([a-z]\w*) = c(?:\.before)*\.requires in", text):
                text = re.sub(rf"(?<![\w.'-]){name}((?:\.[01])+)", lambda m: ".".join([name] + named(pre["fields"], m[1].split(".")[1:])), text)
        return PATH.sub(lambda m: self.path(m, place), text)


def turn(crate, folder, key, data):
    src = f"{folder}/Proof.antt"
    with open(src, encoding="utf-8") as it:
        text = it.read()
    t = Turner(key, data)
    path = key[len(f"Rattle-{crate}-proofs.") : -len(".Lts")]
    head, items = blocks(text)
    imports = [l for l in head if not re.search(r"\.(Statement|Tie|Lts|Code|Proof)(\.\{| as |$)", l)]
    comments = [l for l in imports if l.startswith("--")]
    imports = [l for l in imports if l.startswith("use ")]
    answers, invariants, k = [], [], 0
    loops = data["loops"]
    seen = {}
    for it in items:
        notes = [l for l in it if l.startswith("--")]
        rest = [l for l in it if not l.startswith("--")]
        if not rest:
            comments += notes
            continue
        sig = rest[0]
        if re.match(r"pub \S*[-_]spec :", sig) or "statement M" in sig:
            continue
        inv = re.match(r"abbrev (?:pub )?((invariant|decreases)\S*) : tie\.(invariant|decreases)(\S*)", sig)
        need = re.match(r"(?:pub )?(\S+) : tie\.Need-(\S+)", sig)
        if inv:
            kind = inv[2]
            n = seen.get(kind, 0)
            seen[kind] = n + 1
            if not loops:
                # a recursion's measure
                t.left.append(f"{sig}: a measure by hand")
                invariants.append("\n".join("-- " + l for l in rest))
                continue
            names = [plain(l[0][0]) for l in loops]
            want = re.sub(r"^(invariant|decreases)-", "", inv[1])
            at = names.index(plain(want)) if plain(want) in names else n
            (old, new), variables = loops[at]
            changed = data["changed"][at]
            body = "\n".join(rest[1:])
            found = re.match(r"\s*\S+((?: [^\s=]+)*) =", body)
            params = found[1].split()
            body = body[found.end() :]
            subst = {}
            order = [("l." if not ch else "l.initial.") + v for v, ch in zip(variables, changed)] + ["l." + v for v, ch in zip(variables, changed) if ch]
            if len(order) != len(params):
                t.left.append(f"{new}: {len(params)} parameters for {order}")
            for p, v in zip(params, order):
                subst[p] = v
            body = re.sub(r"(?<![A-Za-z0-9_'.₀-])[A-Za-z_][A-Za-z0-9_'₀-]*", lambda m: subst.get(m[0], m[0]) if m[0] != "_" else "_", body)
            name = f"{kind}-{new}"
            invariants.append("\n".join(notes + [f"abbrev pub {name} : goal.{name}", f"{name} l ={body}"]))
            continue
        if need:
            name, old = need[1], need[2]
            here = t.needs.get(plain(name))
            if here is None:
                # port.py gave the local name or the need a new spelling
                for other in (old, old.replace("overflow-", ""), old.replace("slice-bounds-", "part-")):
                    here = here or t.needs.get(plain(other))
            if here is None and not re.match(r"same[-_]length", name) :
                short = " ".join(rest[1:])
                if not any(short.endswith("= " + g) for g in GIVEN_AWAY):
                    t.left.append(f"{name}: no such goal now: {short[:150]}")
                continue
            if here is None:
                continue
            new, place, then = here
            unfolding = [l for l in rest[1:] if l.startswith("unfolding ")]
            body = "\n".join(l for l in rest[1:] if not l.startswith("unfolding "))
            found = re.match(r"\s*\S+ (c|_)( κs| _)? =", body)
            if not found:
                t.left.append(f"{name}: body not read: {body[:100]}")
                continue
            value = body[found.end() :].strip("\n")
            if value.strip() in GIVEN_AWAY and not unfolding:
                continue
            value = re.sub(r"(?<=\.type)-(?![\w-])", "_", t.paths(value, place))
            fields = data["asked"].get(then) or data["asked"].get(new) or (data["asked"].get("returns") if new.startswith("returns") else None)
            if fields:
                value = "\n    " + as_record(value, fields)
            if not value.startswith(("\n", " ")):
                value = " " + value
            if "\n" in value.strip() and not value.startswith("\n"):
                value = "\n    " + value.strip()
            answers.append("\n".join(notes + [f"pub {new} : goal.{new}"] + unfolding + [f"{new} {found[1]} ={value}"]))
            continue
        answers.append("\n".join(it))
    module = f"Rattle.{crate}.proofs.{path}"

    def write(name, made, goals):
        out = comments[:] + imports + sorted(t.more if goals == "Goals" else []) + [f"use {module}.{goals} as goal", ""] + ["\n\n".join(made), ""]
        with open(f"{folder}/{name}", "w", encoding="utf-8") as it:
            it.write("\n".join(out))

    os.remove(src)
    if invariants:
        write("Invariants.antt", invariants, "Given")
    if any(a for a in answers):
        write("Answers.antt", answers, "Goals")
    if not os.listdir(folder):
        os.rmdir(folder)
    for it in t.left:
        print(f"left: {path}: {it}")
    print(f"turned: {path}: {len(answers)} answers, {len(invariants)} invariants")


def main():
    crate, names, only = sys.argv[1], json.load(open(sys.argv[2], encoding="utf-8")), sys.argv[3:]
    for key, data in names.items():
        if not key.startswith(f"Rattle-{crate}-proofs.") or not key.endswith(".Lts"):
            continue
        path = key[len(f"Rattle-{crate}-proofs.") : -len(".Lts")]
        folder = f"crates/{crate}/proofs/" + path.replace(".", "/")
        if (only and path not in only) or not os.path.isfile(f"{folder}/Proof.antt"):
            continue
        turn(crate, folder, key, data)


main()
