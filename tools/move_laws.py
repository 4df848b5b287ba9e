#!/usr/bin/env python3
"""Moves theorems of crates from specs/ to proofs/, so that an edit of a definition that they rest on is refused and not unreadable.

usage: tools/move_laws.py      at the top of the repository, once

Of each crate below specs/Laws/, specs/Laws.antt and specs/*Cases.antt go to proofs/, with all paths to them. No statement changes. Definitions
among the laws that specs/ or a contract names go to a file of specs/ of their own (KEPT).
"""
import os
import re
import subprocess

CRATES = "calls charge clamped conversion conversion_orders deck expression firing graph orders passing pool pool_holes".split()
# crate, file of the definitions, what its head says, its use lines, and of each definition the file it stood in, its name and its first line
KEPT = [
    ("expression", "Bytes", "Lists of bytes: every element is below 256. Assumes nothing.", [
        "use Rattle.std.specs.Prelude.{ℕ, ◌≡◌, true, List, ltb}",
        "use Rattle.lists.specs.Lists.{all_of}",
    ], [("Bytes", "Bytes", "abbrev pub Bytes :")]),
    ("deck", "Facts", "What is known of a deck that is well formed, and of what stands at an offset of its bytes. Assumes nothing.", [
        "use Rattle.std.specs.Prelude.{ℕ, ◌≤◌, ◌≡◌, true, Bool, List, [], eqb, ltb, length, drop}",
        "use Rattle.lists.specs.Lists.{all_of, distinct}",
        "use Rattle.refusals.specs.Outcome.{accepted}",
        "use Rattle.expression.specs.Reading.{Scope}",
        "use Rattle.expression.specs.Encoding.{good_num, good_truth}",
        "use Rattle.deck.specs.Deck.{Action, Deck, R, M, N, rule_at, part_at, targets}",
        "use Rattle.deck.specs.Reader.{Reader}",
        "use Rattle.deck.specs.Layout.{own_only, task_scope}",
    ], [
        ("Formed", "Sound", "pub record Sound "), ("Formed", "Formed", "pub record Formed "), ("Scoped", "all_in", "abbrev pub all_in :"),
        ("Scoped", "Scoped", "pub record Scoped "), ("Forms", "NoDefaults", "abbrev pub NoDefaults :"), ("Points", "ReadsAt", "abbrev pub ReadsAt :"),
    ]),
    ("graph", "Acyclic", "What is known of a deck whose rules assign known channels, and of one without cycles. Assumes nothing.", [
        "use Rattle.std.specs.Prelude.{ℕ, ◌<◌, ◌≡◌, true}",
        "use Rattle.deck.specs.Deck.{Deck, R}",
        "use Rattle.graph.specs.Graph.{Reaches, assigns, edge}",
    ], [("Cycles", "KnownTargets", "pub record KnownTargets "), ("Cycles", "Acyclic", "abbrev pub Acyclic :")]),
    ("pool", "Fine", "What is known of a good state. Assumes nothing.", [
        "use Rattle.std.specs.Prelude.{ℕ, ◌≤◌, ◌≡◌, Bool, true, leb, length}",
        "use Rattle.lists.specs.Lists.{all_of}",
        "use Rattle.deck.specs.Deck.{Deck}",
        "use Rattle.pool.specs.Updates.{Update, all_different, charge}",
        "use Rattle.pool.specs.States.{Machine, unused_zero, known}",
    ], [("Places", "short", "unfoldable pub short :"), ("Good", "Fine", "pub record Fine ")]),
    ("conversion", "Fits", "What is known of the length that a conversion answers. Assumes nothing.", [
        "use Rattle.std.specs.Prelude.{ℕ, ◌≤◌}",
        "use Rattle.conversion.specs.declared.ConvertAnswer.{ConvertAnswer}",
        "use Rattle.conversion.specs.declared.ConvertAnswer.TheVariants.{Converted, Refused}",
    ], [("Tests", "Fits", "abbrev pub Fits :")]),
]


def read(path):
    with open(path, encoding="utf-8") as f:
        return f.read()


def write(path, text):
    with open(path, "w", encoding="utf-8") as f:
        f.write(text)


def cut(path, first):
    """Takes a definition out of a file, with the comment above it."""
    lines = read(path).split("\n")
    at = next(i for i, l in enumerate(lines) if l.startswith(first))
    begin = at
    while lines[begin - 1].startswith("--"):
        begin -= 1
    end = at
    while lines[end].strip():
        end += 1
    block = lines[begin:end]
    write(path, "\n".join(lines[:begin] + lines[end + 1 :]))
    return block


def texts(ends):
    for folder, folders, files in os.walk("crates"):
        folders[:] = [f for f in folders if f != "out"]
        for file in files:
            if file.endswith(ends):
                yield os.path.join(folder, file)


def keep():
    """The definitions that stay in specs/, and each use of them from where they stand now."""
    moved = {}
    for crate, name, said, uses, items in KEPT:
        blocks = []
        for file, item, first in items:
            blocks.append(cut(f"crates/{crate}/specs/Laws/{file}.antt", first))
            moved[f"Rattle.{crate}.specs.Laws.{file}", item] = f"Rattle.{crate}.specs.{name}"
        text = "\n".join([f"-- {said}"] + uses) + "\n\n" + "\n\n".join("\n".join(b) for b in blocks) + "\n"
        write(f"crates/{crate}/specs/{name}.antt", text)
        lib = f"crates/{crate}/specs/Lib.antt"
        write(lib, read(lib).rstrip("\n") + f"\npub mod {name}\n")
    homes = {}
    for (module, item), new in moved.items():
        homes.setdefault(module, {})[item] = new
    for path in texts((".antt", ".rt")):
        old = read(path)
        here = "Rattle." + path[len("crates/") : -5].replace(os.sep, ".")
        end = ";" if path.endswith(".rt") else ""

        def one(m):
            home = homes.get(m[2])
            if not home:
                return m[0]
            names = m[3].split(", ")
            stay = [n for n in names if n.split(" ")[0] not in home]
            lines = [f"{m[1]}{m[2]}.{{{', '.join(stay)}}}{end}"] if stay else []
            for new in sorted({home[n.split(" ")[0]] for n in names if n.split(" ")[0] in home}):
                lines.append(f"{m[1]}{new}.{{{', '.join(n for n in names if home.get(n.split(' ')[0]) == new)}}}{end}")
            return "\n".join(lines)

        new = re.sub(r"(?m)^((?:ghost )?use )(\S+)\.\{([^}]*)\}" + end + "$", one, old)
        if here in homes:
            gone = sorted(homes[here])
            lines = new.split("\n")
            last = max(i for i, l in enumerate(lines) if l.startswith("use "))
            for target in sorted(set(homes[here].values())):
                lines.insert(last + 1, f"use {target}.{{{', '.join(g for g in gone if homes[here][g] == target)}}}")
            new = "\n".join(lines)
        if new != old:
            write(path, new)


def git(*words):
    subprocess.run(["git", *words], check=True)


def move(crate):
    specs, proofs = f"crates/{crate}/specs", f"crates/{crate}/proofs"
    os.makedirs(proofs, exist_ok=True)
    names = sorted({f.split(".")[0] for f in os.listdir(specs) if f in ("Laws", "Laws.antt") or f.endswith("Cases.antt")})
    for name in names:
        for end in ("", ".antt"):
            if os.path.exists(f"{specs}/{name}{end}"):
                git("mv", f"{specs}/{name}{end}", f"{proofs}/{name}{end}")
    lib = read(f"{specs}/Lib.antt")
    write(f"{specs}/Lib.antt", "\n".join(l for l in lib.split("\n") if l not in [f"pub mod {n}" for n in names]))
    own = read(f"{proofs}/Lib.antt") if os.path.exists(f"{proofs}/Lib.antt") else f"-- The laws of the definitions of `{crate}`, and their cases.\n"
    write(f"{proofs}/Lib.antt", own.rstrip("\n") + "\n" + "".join(f"pub mod {n}\n" for n in names))
    return names


def main():
    keep()
    turned = {}
    for crate in CRATES:
        for name in move(crate):
            turned[f"Rattle.{crate}.specs.{name}"] = f"Rattle.{crate}.proofs.{name}"
    pattern = re.compile("(" + "|".join(map(re.escape, sorted(turned, key=len, reverse=True))) + r")(?![\w])")
    for path in texts((".antt", ".rt", ".edit")):
        old = read(path)
        new = pattern.sub(lambda m: turned[m[1]], old)
        if path.endswith(".edit") and path.split("/")[1] in CRATES:
            new = re.sub(r"(?m)^file: specs/(Laws|\w*Cases)(?=[/.])", r"file: proofs/\1", new)
        if new != old:
            write(path, new)


if __name__ == "__main__":
    main()
