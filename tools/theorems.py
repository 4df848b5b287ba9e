#!/usr/bin/env python3
"""Compares the statements of an older checkout's specs/ with today's, wherever they stand now, and lists the moved ones.

usage: tools/theorems.py OLD            each declaration of OLD's specs/ and lemma files of proofs/ that is not here word for word, old and new
       tools/theorems.py OLD --moved    the statements that stood in specs/ and stand in proofs/, by file, as docs/PORT.md has them

OLD is a folder with crates/ in today's spelling. Paths of modules, line breaks and the order of use lines do not count; proofs do not either,
but of a definition all counts.
"""
import os
import re
import sys

HEAD = re.compile(r"^( *)((?:(?:unfoldable|abbrev|pub|pattern) )*)(record |data )?([^\s:(){}|=λ,]+)(?=(?: [({]| :|$))")
PATH = re.compile(r"Rattle\.\w+\.(?:specs|proofs)\.(?:[A-Z]\w*\.)*")


def signature(lines, at, end):
    """Whether a declaration's arguments end in a colon, and not in an equals sign: a clause is none."""
    text = " ".join(l.strip() for l in lines[at : at + 12])
    i = text.find(end) + len(end)
    while i < len(text):
        if text[i] in "({":
            depth = 0
            while i < len(text):
                depth += {"(": 1, "{": 1, ")": -1, "}": -1}.get(text[i], 0)
                i += 1
                if not depth:
                    break
        elif text[i] == " ":
            i += 1
        else:
            return text[i] == ":" and text[i : i + 2] in (": ", ":")
    return False


def declarations(path):
    """name -> text, in order: of a definition, a record and a data type all of it, of a lemma its statement."""
    lines = [re.sub(r"(?:^|(?<=\s))--.*$", "", l).rstrip() for l in open(path, encoding="utf-8")]
    found, at, outer, mutual = [], 0, [], None
    while at < len(lines):
        line = lines[at]
        if not line.strip() or line.startswith("use "):
            at += 1
            continue
        depth = len(line) - len(line.lstrip())
        module = re.match(r"^ *module (\S+)(.*)$", line)
        if module:
            text = line.strip()
            while not text.endswith("where") and at + 1 < len(lines) and lines[at + 1].strip():
                at += 1
                text += " " + lines[at].strip()
            outer = [(d, t) for d, t in outer if d < depth] + [(depth, text)]
            at += 1
            continue
        outer = [(d, t) for d, t in outer if d < depth]
        mutual = mutual if mutual is not None and mutual < depth else None
        if re.match(r"^ *(?:(?:unfoldable|abbrev) )*mutual$", line):
            mutual = depth
            at += 1
            continue
        m = HEAD.match(line)
        if not m or re.match(r"^ *(let|elim|where|in)(?=\s|$)", line) or not signature(lines, at, m[4]):
            at += 1
            continue
        block = [line]
        k = at + 1
        while k < len(lines):
            inner = len(lines[k]) - len(lines[k].lstrip())
            begins = (HEAD.match(lines[k]) and signature(lines, k, HEAD.match(lines[k])[4])) or re.match(r"^ *module |^ *(?:unfoldable )*mutual$", lines[k])
            if lines[k].strip() and (inner < depth or inner == depth and begins):
                break
            block.append(lines[k])
            k += 1
        whole = m[3] or re.search(r"unfoldable|abbrev", m[2]) or mutual is not None
        if not whole:
            statement = [block[0]]
            for l in block[1:]:
                if not l.strip() or len(l) - len(l.lstrip()) <= depth:
                    break
                statement.append(l)
            block = statement
        text = "\n".join(l for l in block if l.strip() and not l.strip().startswith("unfolding "))
        inside = " ".join(t for d, t in outer)
        found.append((m[4], (inside + " | " if inside else "") + text))
        at = k
    return found


def flat(text):
    return re.sub(r"\s+", " ", PATH.sub("", text)).strip()


def files(root, crate):
    for part in ("specs", "proofs"):
        for folder, _, names in os.walk(os.path.join(root, "crates", crate, part)):
            for name in sorted(names):
                path = os.path.join(folder, name)
                own = part == "proofs" and re.search(r"/proofs/(?:[a-z+]\S*)/[^/]+$", path)
                if name.endswith(".antt") and not own:
                    yield path


def main():
    old = sys.argv[1]
    moved, gone = [], 0
    for crate in sorted(os.listdir(os.path.join(old, "crates"))):
        here = {}
        for path in files(".", crate):
            for name, text in declarations(path):
                here.setdefault(name, []).append((flat(text), path))
        for path in files(old, crate):
            lines = []
            for name, text in declarations(path):
                same = [p for t, p in here.get(name, []) if t == flat(text)]
                if not same:
                    gone += 1
                    if "--moved" not in sys.argv:
                        print(f"== {os.path.relpath(path, old)}: {name}\nold: {flat(text)}")
                        print("\n".join(f"new: {t} ({p})" for t, p in here.get(name, [])) or "new: none")
                elif "/specs/" in path and all("/proofs/" in p for p in same):
                    lines.append((same[0], text))
            if lines:
                moved.append((path, lines))
    if "--moved" in sys.argv:
        for path, lines in moved:
            print(f"\n`{os.path.relpath(path, old)}`, now `{lines[0][0][2:]}`:\n\n```")
            for _, text in lines:
                inside, _, own = text.rpartition(" | ")
                print((f"-- in {inside}\n" if inside else "") + re.sub(r"\n\s*", "\n    ", own.strip()))
            print("```")
    else:
        print(f"{gone} differ")


if __name__ == "__main__":
    main()
