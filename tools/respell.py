#!/usr/bin/env python3
"""Brings the names of the definitions and lemmas in crates/ to one spelling, after the older spelling was turned by the kit's script.

usage: tools/respell.py [--list]      at the top of the repository; --list prints each name with its new spelling and writes nothing

A name that begins in lower case is in snake case: flatMap is flat_map, eqZ is eq_z. A definition, a field and a constructor have no dash;
in the name of a lemma a dash joins, as in below-member. A lemma that would have the name of a definition ends in _lem.
Types, modules, names of the source and what the prover makes are left alone, and so is what stands between quotation marks.
"""
import os
import re
import sys

WORD = re.compile(r"[^\s(){}.;,@\"«»`\[\]|]+")
SIGNATURE = re.compile(r"^\s*(?:(?:unfoldable|abbrev|pub|record|data|where|do|let) +)*([^\s:(){}|=λ,.→]+)((?: \([^)]*\)| \{[^}]*\})*) :(?: |$)")
LISTED = re.compile(r"^\s*(?:pub )?(?:record|data|module) ([^\s:(){}|=λ,.→]+)")
BINDERS = re.compile(r"[({]([^(){}:→≡λ.,;=]+) : ")
CAMEL = re.compile(r"^[a-z][A-Za-z0-9]*[A-Z][A-Za-z0-9]*'*$")
DEFINITION = re.compile(r"^\s*(?:(?:unfoldable|abbrev) |pub (?=\S+ :))")
# the field of a record of specs/ beside the field of the source that it describes
SHARED = {"parts_at", "few_rules", "few_parts", "action_at", "condition_at"}
# constructors that stand several on a line, and names that a `let` binds
OTHERS = "aTruth anOwnChannel aFarChannel aLiteralByte gotCount ofPool ofUpdates onePart overParts".split()
MADE = re.compile(r"^(?:loop|returns|overflow|index|shared|if|then|else|in|arm|match|invariant|decreases|cast|bounds|call|clause|mut|range)-|-requires$|-spec$|-\d+$")


def files(root, ends):
    for folder, folders, names in os.walk(os.path.join(root, "crates")):
        folders[:] = sorted(f for f in folders if f not in ("out", "data"))
        for name in sorted(names):
            if name.endswith(ends):
                yield os.path.join(folder, name)


def of_function(path):
    """A file of a function's own proof: proofs/F/.."""
    return re.search(r"/proofs/[^/]+/[^/]+$", path) is not None and not re.search(r"/proofs/[A-Z][^/]*/", path)


def snake(word):
    word = re.sub(r"([a-z0-9])([A-Z])", r"\1_\2", word)
    return re.sub(r"[A-Z]", lambda m: m[0].lower(), word)


def segment(part):
    if part == "getD":
        return "get_or"
    return snake(part) if CAMEL.match(part) else part


def defined(root):
    """All names, and those of definitions, fields and constructors."""
    names, plain = set(), set()
    for path in files(root, ".antt"):
        own, inside = of_function(path), None
        for line in open(path, encoding="utf-8"):
            line = re.split(r"(?:^|\s)--", line, maxsplit=1)[0]
            if line.strip():
                head = re.match(r"^( *)(?:(?:unfoldable|abbrev|pub) )*(record|data) ", line)
                depth = len(line) - len(line.lstrip())
                if head:
                    inside = depth
                elif inside is not None and depth <= inside:
                    inside = None
            found = [m[1] for m in (SIGNATURE.match(line), LISTED.match(line)) if m]
            if not own and (inside is not None or re.match(r"^ *(?:unfoldable|abbrev) ", line)):
                plain.update(found)
            found += [w for m in BINDERS.finditer(line) for w in m[1].split()]
            names.update(n for n in found if not own or CAMEL.match(n))
    return names, plain


def table(root):
    names, plain = defined(root)
    names.update(OTHERS)
    turned = {}
    for name in names:
        if name[0].isupper() and "-" not in name or MADE.search(name):
            continue
        new = ("_" if name in plain else "-").join(segment(p) for p in name.split("-"))
        if new != name:
            turned[name] = new
    taken = {}
    for name in names:
        taken.setdefault(turned.get(name, name), []).append(name)
    for new, olds in sorted(taken.items()):
        if len(olds) > 1 and new not in SHARED:
            first = [o for o in olds if CAMEL.match(o)] or [o for o in olds if "-" not in o]
            for old in olds:
                if old != first[0]:
                    turned[old] = new + "_lem"
                    print(f"look: {old} is {turned[old]}, since {first[0]} is {new}")
    for new in set(turned.values()):
        if sum(1 for n in names if turned.get(n, n) == new) > 1 and new not in SHARED:
            print(f"look: more than one name is {new}")
    return {o: n for o, n in turned.items() if o != n}


def turn(text, names, dotted):
    """The text with each name turned; behind a dot only where dotted lets it."""

    def one(m):
        word = m[0]
        if text[m.start() - 1 : m.start()] == "." and not dotted(word):
            return word
        if word in names:
            return names[word]
        return word

    return WORD.sub(one, text)


def comment(text, names):
    """Code spans of a comment, and its bare words in camel case, but nothing between quotation marks."""

    def piece(m):
        if m[0][0] == '"':
            return m[0]
        return turn(m[0], names, lambda w: True)

    def bare(t):
        return WORD.sub(lambda m: names.get(m[0], m[0]) if CAMEL.match(m[0]) else m[0], t)

    out, at = "", 0
    for m in re.finditer(r'"[^"]*"|`[^`]*`', text):
        out += bare(text[at : m.start()]) + piece(m)
        at = m.end()
    return out + bare(text[at:])


def rewrite(path, names, fields):
    with open(path, encoding="utf-8") as f:
        old = f.read()
    mark = "--" if path.endswith(".antt") else "//"
    own = of_function(path)
    dotted = (lambda w: w in fields or CAMEL.match(w)) if own else (lambda w: True)
    lines = []
    for line in old.split("\n"):
        m = re.search(r"(?:^|(?<=\s))" + mark + r".*$", line)
        code, said = (line[: m.start()], m[0]) if m else (line, "")
        if path.endswith(".rt"):
            code = "".join(p if i % 2 else turn(p, names, dotted) for i, p in enumerate(re.split(r'("(?:[^"\\]|\\.)*")', code)))
        else:
            code = turn(code, names, dotted)
        lines.append(code + comment(said, names))
    new = "\n".join(lines)
    if new != old:
        with open(path, "w", encoding="utf-8") as f:
            f.write(new)
        return 1
    return 0


def main():
    root = os.getcwd()
    names = table(root)
    if "--list" in sys.argv:
        for old, new in sorted(names.items()):
            print(f"{old}\t{new}")
        return
    fields = set(names)
    changed = sum(rewrite(p, names, fields) for p in files(root, (".antt", ".rt")))
    print(f"respell: {len(names)} names, {changed} files")


if __name__ == "__main__":
    main()
