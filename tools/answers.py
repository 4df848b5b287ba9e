#!/usr/bin/env python3
"""Turns the proofs that walk a function's goals in order (proofs/F/Proof.antt, `tie.spec a b ..`) into Invariants.antt and Answers.antt.

usage: tools/answers.py CRATE..      at the top of the repository, once the crates below CRATE are proved

The kit says which goal is which: `rt check --generated FOLDER --old-names`. Goals that its own search closes get no answer here. What cannot be
turned is left as it is and named.
"""
import glob
import json
import os
import re
import subprocess
import sys
import tempfile

NAME = re.compile(r"[^\W\d][^\s(){}.;,\[\]λ]*|[^\s(){}.;,\[\]λ\w][^\s(){}.;,\[\]λ]*")
TRIVIAL = {"omega arith", "search rules", "tt", "search (rules)"}
HEAD = re.compile(r"^((?:(?:pub|abbrev|unfoldable) )*)([^\s:(){}]+) :(?: |$)")


def names_of(root, crate):
    out = tempfile.mkdtemp()
    subprocess.run(["rt", "check", "--generated", out, "--old-names"], cwd=os.path.join(root, "crates", crate), stdout=subprocess.PIPE, stderr=subprocess.STDOUT)
    return json.load(open(os.path.join(out, "names.json")))


def blocks(text):
    """The head of the file (comments and use lines), then each top-level declaration with the comment above it."""
    lines = text.split("\n")
    at = 0
    while at < len(lines) and (lines[at].startswith(("--", "use ")) or not lines[at].strip()):
        at += 1
    while at > 0 and lines[at - 1].startswith("--"):
        at -= 1
    head, rest, found = lines[:at], lines[at:], []
    said = []
    for line in rest:
        if line.startswith("--"):
            said.append(line)
        elif line.startswith("use "):
            head.append(line)
        elif HEAD.match(line) or line.startswith("module "):
            found.append((said, [line]))
            said = []
        elif found:
            found[-1][1].extend(said)
            said = []
            found[-1][1].append(line)
    return head, [(s, trimmed(b)) for s, b in found]


def trimmed(lines):
    while lines and not lines[-1].strip():
        lines.pop()
    return lines


def arguments(text):
    """The arguments of `tie.spec`, as texts."""
    i, out, n = 0, [], len(text)
    while i < n:
        if text[i].isspace():
            i += 1
            continue
        start = i
        depth = 0
        while i < n and (depth or not text[i].isspace()):
            if text[i] in "([{":
                depth += 1
            if text[i] in ")]}":
                depth -= 1
                if depth < 0:
                    return out + ([text[start:i]] if i > start else [])
            i += 1
        out.append(text[start:i])
    return out


def dashed(name):
    """The older kit wrote a dash for each underscore of the source."""
    return name.replace("_", "-")


def lifted(found):
    """A module over one place: each of its members becomes a helper that takes the place."""
    out = []
    for said, lines in found:
        m = re.match(r"^module _ \((\S+) : (tie\.[^()]*)\) where$", lines[0])
        if not m:
            out.append((said, lines))
            continue
        _, members = blocks("\n".join(l[2:] if l.startswith("  ") else l for l in lines[1:]))
        names = [HEAD.match(b[0])[2] for _, b in members]
        for note, body in members:
            name = HEAD.match(body[0])[2]
            text = "\n".join(body)
            head = re.match(rf"((?:(?:pub|abbrev|unfoldable) )*{re.escape(name)}) :(.*?)\n((?:unfolding [^\n]*\n)?){re.escape(name)}(?= )", text, re.S)
            inner = lambda s: re.sub(r"(?<![\w.'-])(" + "|".join(map(re.escape, names)) + r")(?![\w'-])", lambda k: f"({k[1]} {m[1]})", s)
            text = f"{head[1]} : ({m[1]} : {m[2]}) →{inner(head[2])}\n{head[3]}{name} {m[1]}{inner(text[head.end() :])}"
            out.append((said + note if body is members[0][1] else note, text.split("\n")))
    return out


class Function:
    """The old and the new names of one function's goals and of the places and steps that its answers speak of.

    An old answer walked from its goal back, `c.before.before.loop`; today all steps before a goal are fields of `c`. A helper that only walks is
    written out; one that states a fact at an earlier place is stated at the place of the goal that cites it.
    """

    def __init__(self, entry, idents):
        self.entry, self.idents = entry, idents
        self.needs = {dashed(old): new for old, new in entry["needs"]}
        self.place, self.anywhere, self.calls = {}, {}, {}
        for (name, parent, (old, new), callee, *_), now, arm in zip(entry["places"], entry["places_by_name"], entry["arms"]):
            fields = {}
            for field, step, path in arm[2] if arm else []:
                if step == old:
                    fields[tuple(path)] = field
            self.place[dashed(name)] = (parent and dashed(parent), dashed(old), new, now, fields, arm[0] if arm else new)
            if old:
                self.anywhere.setdefault(dashed(old), new)
            if callee:
                self.calls[new] = entry["params"].get(callee, [])
        self.walks, self.facts, self.used = {}, {}, set()

    def learn(self, name, lines):
        """Takes note of a helper whose first argument is a place."""
        whole = "\n".join(lines)
        m = re.match(
            rf"((?:(?:pub|abbrev|unfoldable) )*){re.escape(name)} :(.*?)\n((?:unfolding [^\n]*\n)?){re.escape(name)}((?: [^\s=]+)*) =(\s*)(.*)$",
            whole,
            re.S,
        )
        if not m:
            return False
        at = re.search(r"tie\.([^\s(){}.;,]+)((?: (?:invariant|decreases)-[^\s(){};,]+)*)", m[2])
        if not at or at[1].startswith("Need-") or not m[4].split():
            return False
        result = re.fullmatch(r".*→\s*tie\.([^\s(){}.;,]+)(?: (?:invariant|decreases)-[^\s(){};,]+)*\s*", m[2], re.S)
        given = m[4].split()[0]
        if result and dashed(result[1]) in self.place:
            self.walks[name] = dashed(result[1])
        else:
            self.facts[name] = (dashed(at[1]), given, whole)
        return True

    def types(self, text):
        def one(m):
            name = dashed(m[1])
            if name.startswith("Need-"):
                return "goal." + self.needs.get(name[5:], name[5:])
            return "goal." + (self.place[name][3] if name in self.place else name)

        return re.sub(r"(?<!\w)tie\.([^\s(){}.;,]+)((?: (?:invariant|decreases)-[^\s(){};,]+)*)", one, text)

    def field(self, step):
        if "-" in step and step.replace("-", "_") in self.idents:
            return step.replace("-", "_")
        return {"inv": "invariant", "pre": "requires", "post": "ensures", "good": "well_formed", "well-formed": "well_formed", "type-inv": "type_inv", "taken": "true", "left": "false"}.get(step, step)

    def rest(self, place, steps):
        """The fields of a path from a place on, in new names."""
        step, later = steps[0], steps[1:]
        known = self.place.get(place)
        if step[:1].isupper() and dashed(step) not in self.anywhere:
            step = step[0].lower() + step[1:]
        out = []
        if known and dashed(step) == known[1]:
            out = [known[2]]
            for path, field in known[4].items():
                if tuple(later[: len(path)]) == path:
                    out = [known[5], field]
                    later = later[len(path) :]
                    break
        elif dashed(step) in self.anywhere:
            out = [self.anywhere[dashed(step)]]
        else:
            out = [self.field(step)]
        out += [self.field(s) for s in later]
        return self.numbered(out)

    def numbered(self, out):
        """A call's `new` and `auto` were nested pairs, one a parameter."""
        for i in range(1, len(out)):
            if out[i - 1] in self.calls:
                out[i] = {"last": "new", "kept": "auto"}.get(out[i], out[i])
        i = 2
        while i < len(out):
            parameters = self.calls.get(out[i - 2])
            if out[i - 1] in ("auto", "new") and parameters:
                end = i
                while end < len(out) and out[end] == "1":
                    end += 1
                if end < len(out) and out[end] == "0" and end - i < len(parameters):
                    out[i : end + 1] = [parameters[end - i]]
            i += 1
        return out

    def parse(self, text, i, env):
        """A path at i: its root, its place, its later steps and its end."""
        m = re.compile(r"\(\s*([^\s(){}.;,]+)\s+").match(text, i)
        if m and m[1] in self.walks:
            inner = self.parse(text, m.end(), env)
            if inner and not inner[2] and re.compile(r"\s*\)").match(text, inner[3]):
                end = re.compile(r"\s*\)").match(text, inner[3]).end()
                return self.moved(inner[0], self.walks[m[1]], text, end)
            return None
        m = NAME.match(text, i)
        if not m:
            return None
        if m[0] in env and not (text[:i].rstrip()[-1:] in "{;" and re.compile(r"\s+=\s").match(text, m.end())):
            return self.moved(*env[m[0]], text, m.end())
        if m[0] in self.walks:
            gap = re.compile(r"\s+").match(text, m.end())
            inner = gap and self.parse(text, gap.end(), env)
            if inner and not inner[2]:
                return inner[0], self.walks[m[0]], [], inner[3]
        return None

    def moved(self, root, place, text, end):
        m = re.compile(r"(?:\.[^\s(){}.;,]+)*").match(text, end)
        steps = m[0][1:].split(".") if m[0] else []
        while steps and steps[0] == "before":
            place, steps = self.place[place][0] if place in self.place else None, steps[1:]
        return root, place, steps, m.end()

    def path(self, text, env, goal):
        """A body in new names: env has the root and the place of each variable, goal is the place of the goal."""
        env, steps_of, out, i = dict(env), {}, "", 0
        depth, hidden = 0, []
        while i < len(text):
            depth += {"(": 1, "[": 1, "{": 1, ")": -1, "]": -1, "}": -1}.get(text[i], 0)
            while hidden and hidden[-1][0] > depth:
                _, name, value = hidden.pop()
                env[name] = value
            if text[i] == "λ":
                for name in re.compile(r"λ([^.]*)\.").match(text, i)[1].replace("(", " ").split():
                    if name in env:
                        hidden.append((depth, name, env.pop(name)))
            m = re.compile(r"let ([^\s(){}:]+) =\s+").match(text, i)
            if m and (i == 0 or not re.match(r"[\w'-]", text[i - 1])):
                got = self.parse(text, m.end(), env)
                end = got and re.compile(r"\s+in\b\s*").match(text, got[3])
                if end and not got[2]:
                    env[m[1]] = (got[0], got[1])
                    i = end.end()
                    continue
                if end and len(got[2]) == 1:
                    steps_of[m[1]] = self.rest(got[1], got[2])[0]
            if i == 0 or not re.match(r"[\w.'-]", text[i - 1]):
                got = self.parse(text, i, env)
                if got:
                    out += got[0] + ("." + ".".join(self.rest(got[1], got[2])) if got[2] else "")
                    i = got[3]
                    continue
            m = NAME.match(text, i)
            if m:
                name = m[0]
                field = text[:i].rstrip()[-1:] in "{;" and re.compile(r"\s+=\s").match(text, m.end())
                if name in self.facts and (i == 0 or text[i - 1] != ".") and not field:
                    name = self.cited(name, goal)
                tail = re.compile(r"(?:\.[^\s(){}.;,]+)+").match(text, m.end())
                out += name
                i = m.end()
                if tail:
                    fields = [self.field(s) for s in tail[0][1:].split(".")]
                    if name in steps_of:
                        fields = self.numbered([steps_of[name]] + fields)[1:]
                    out += "." + ".".join(fields)
                    i = tail.end()
                continue
            out += text[i]
            i += 1
        return self.tests(self.types(out))

    def tests(self, text):
        """The test of `!f(x)` says what f's answer is: nothing is turned round."""
        text = re.sub(r"\.[^\s.()]+-in-([A-Z]\w*)-\d+\.given\.1(?![\w.])", r".in-\1.is", text)
        return re.sub(r"not-(?:true|false) [^\s()]+ (\S*\.if-not-[^\s()]+\.(?:true|false))(?![\w.])", r"\1", text)

    def cited(self, name, goal):
        self.used.add((name, goal))
        return name if goal is None else f"{name}@{goal}@"

    def stated(self, name, goal):
        """A helper's fact at the place of a goal."""
        place, given, whole = self.facts[name]
        head = re.match(rf"((?:(?:pub|abbrev|unfoldable) )*){re.escape(name)} :(.*?)\n((?:unfolding [^\n]*\n)?){re.escape(name)}(?= )", whole, re.S)
        sig = re.sub(
            r"tie\.([^\s(){}.;,]+)((?: (?:invariant|decreases)-[^\s(){};,]+)*)",
            lambda m: "goal." + self.place[goal][3] if dashed(m[1]) == place else m[0],
            head[2],
        )
        env = {given: (given, place)}
        binder = re.search(r"\(([^\s():]+) : (?:goal|tie)\.", head[2])
        if binder:
            env[binder[1]] = (binder[1], place)
        mine = f"{name}@{goal}@"
        return f"{head[1]}{mine} :{self.path(sig, env, goal)}\n{head[3]}{mine}" + self.path(whole[head.end() :], env, goal)


def invariants(entry, found):
    """The text of each invariant and measure, over the record of the loop's variables."""
    out, names = [], []
    for ((old, new), variables), changed in zip(entry["loops"], entry["changed"]):
        for kind in ("invariant", "decreases"):
            name = f"{kind}-{old}"
            for said, lines in found:
                m = HEAD.match(lines[0])
                if not m or m[2] != name:
                    continue
                names.append(name)
                body = "\n".join(lines[1:])
                k = re.match(rf"{re.escape(name)}((?:\s+[^\s=]+)*?)\s+=\s*(.*)$", body, re.S)
                if not k:
                    raise ValueError(f"{name}: no clause")
                given, text = k[1].split(), k[2]
                meant = [f"l.initial.{v}" if c else f"l.{v}" for v, c in zip(variables, changed)]
                meant += [f"l.{v}" for v, c in zip(variables, changed) if c]
                if len(given) != len(meant):
                    raise ValueError(f"{name}: {given} for {meant}")
                bound = {w for b in re.findall(r"λ ([^.]*)\.", text) for w in b.split()}
                for b in sorted(bound & set(given)):
                    text = re.sub(rf"\(λ {re.escape(b)}\. ([^()]*(?:\([^()]*\)[^()]*)*)\)", lambda m: "(λ k. " + re.sub(rf"(?<![\w.'-]){re.escape(b)}(?![\w₀'-])", "k", m[1]) + ")", text)
                for g, w in zip(given, meant):
                    text = re.sub(rf"(?<![\w.'-]){re.escape(g)}(?![\w₀'-])", lambda m: w, text)
                sep = "\n    " if "\n" in text else " "
                out.append(said + [f"abbrev pub {kind}-{new} : goal.{kind}-{new}", f"{kind}-{new} l ={sep}{text}"])
    return out, names


def convert(root, crate, folder, key, entry, idents):
    path = os.path.join(folder, "Proof.antt")
    text = open(path, encoding="utf-8").read()
    text = re.sub(r"(?<![\w.])lts\.([^\s(){}.;,]+) (?:claims )?reads\.Pre reads\.Post", r"tie.\1", text)
    head, found = blocks(text)
    head = [l for l in head if not re.match(r"use \S+\.(?:Reads as reads|Lts as lts)$", l)]
    spec = None
    for said, lines in found:
        whole = "\n".join(lines)
        m = re.search(r"tie\.spec\b", whole)
        if m:
            spec = (whole, m.end())
    if spec is None:
        return "no tie.spec"
    found = lifted(found)
    if any(lines[0].startswith("module ") for _, lines in found):
        return "a module"
    args = arguments(spec[0][spec[1] :])
    args = [a for a in args if not re.match(r"^(invariant|decreases)-", a)]
    needs = entry["needs"]
    if len(args) != len(needs):
        return f"{len(args)} arguments and {len(needs)} goals"
    f = Function(entry, idents)
    stated, taken = invariants(entry, found)
    where = {new: dashed(old) for (_, new), (old, _) in zip(needs, entry["asked_at"])}
    named = {}
    for (old, new), arg in zip(needs, args):
        if not arg.startswith("("):
            named.setdefault(arg, []).append(new)
    kept, result = [], []
    for said, lines in found:
        name = HEAD.match(lines[0])[2] if HEAD.match(lines[0]) else None
        if "tie.spec" in "\n".join(lines) or name in taken:
            continue
        if name in named and f" : tie.Need-" not in lines[0]:
            for new in named.pop(name):
                args[[n for _, n in needs].index(new)] = f"(λ c. {name} c)"
        helper = name and name not in named and f.learn(name, lines)
        if not (helper and name in f.walks):
            kept.append((said, lines, name, helper))
    for said, lines, name, helper in kept:
        whole = "\n".join(lines)
        if helper:
            result.append((name, said))
        elif name in named:
            for new in named[name]:
                clause = re.search(rf"(?m)^{re.escape(name)} (\S+)(?: κs)?((?: [^\s=]+)*) =(\s*)", whole)
                opened = [l for l in lines[1:] if l.startswith("unfolding ")]
                if clause and whole[clause.end() :].strip() in TRIVIAL and not opened:
                    continue
                if not clause:
                    return f"{name} is no clause of one argument"
                body = f.path(whole[clause.end() :], {clause[1]: (clause[1], where[new])}, where[new])
                result.append(said + [f"pub {new} : goal.{new}"] + opened + [f"{new} {clause[1]}{clause[2]} ={clause[3]}{body}"])
        else:
            need = name and re.match(rf"{re.escape(name)} : tie\.Need-([^\s]+)[^\n]*\n((?:unfolding [^\n]*\n)?){re.escape(name)} (\S+)(?: κs)? =(\s*)", whole)
            if need and dashed(need[1]) in f.needs:
                new = f.needs[dashed(need[1])]
                body = f.path(whole[need.end() :], {need[3]: (need[3], where[new])}, where[new])
                result.append(said + [f"{name} : goal.{new}\n{need[2]}{name} {need[3]} ={need[4]}{body}"])
            else:
                result.append(said + [f.types(whole)])
    opened = [l for l in spec[0].split("\n") if l.startswith("unfolding ")]
    for (old, new), arg in zip(needs, args):
        if arg.startswith("("):
            m = re.match(r"^\(λ ([^.]*)\.\s+(.*)\)$", arg, re.S)
            if not m:
                result.append([f"pub {new} : goal.{new}", f"{new} = {f.path(arg, {}, where[new])}"])
            elif m[2].strip() not in TRIVIAL or opened and m[2].strip() != "tt":
                c, *more = (x for x in m[1].split() if x != "κs")
                body = f.path(m[2], {c: (c, where[new])}, where[new])
                result.append([f"pub {new} : goal.{new}"] + opened + [f"{' '.join([new, c, *more])} = {body}"])
    done, texts = set(), {}
    while f.used - done:
        for name, goal in sorted(f.used - done):
            done.add((name, goal))
            texts[name, goal] = f.stated(name, goal)
    final, short = [], {}
    for name in f.facts:
        goals = sorted(g for n, g in done if n == name)
        for i, g in enumerate(goals):
            short[f"{name}@{g}@"] = name if i == 0 else f"{name}-{i + 1}"
    for part in result:
        if isinstance(part, tuple):
            for g in sorted(g for n, g in done if n == part[0]):
                final.append(part[1] + [texts[part[0], g]])
        else:
            final.append(part)
    result = [[re.sub(r"[^\s(){}.;,@]+@[^\s@]+@", lambda m: short[m[0]], l) for l in part] for part in final]
    uses = [l for l in head if l.startswith("use ") and ".Statement." not in l and not l.endswith("Tie as tie")]
    comment = [l for l in head if l.startswith("--")]
    module = key.replace(".Lts", "").replace(f"Rattle-{crate}-proofs", f"Rattle.{crate}.proofs")
    os.remove(path)

    def write(name, named, parts):
        with open(os.path.join(folder, name), "w", encoding="utf-8") as o:
            text = "\n\n".join("\n".join(p) for p in parts)
            o.write("\n".join(comment + uses + [f"use {module}.{named} as goal"]) + "\n\n" + text + "\n")

    if stated:
        write("Invariants.antt", "Given", stated)
    if result:
        write("Answers.antt", "Goals", result)
    if not os.listdir(folder):
        os.rmdir(folder)
    return None


def main():
    root = os.getcwd()
    for crate in sys.argv[1:]:
        names, idents = names_of(root, crate), set()
        for path in glob.glob(os.path.join(root, "crates", "*", "src", "*.rt")):
            idents.update(re.findall(r"\w+_\w+", open(path, encoding="utf-8").read()))
        for key, entry in sorted(names.items()):
            m = re.match(rf"^Rattle-{crate}-proofs\.(.*)\.Lts$", key)
            if not m:
                continue
            folder = os.path.join(root, "crates", crate, "proofs", *m[1].split("."))
            if not os.path.exists(os.path.join(folder, "Proof.antt")):
                continue
            try:
                said = convert(root, crate, folder, key, entry, idents)
            except ValueError as e:
                said = str(e)
            if said:
                print(f"left: {crate} {m[1]}: {said}")


if __name__ == "__main__":
    main()
