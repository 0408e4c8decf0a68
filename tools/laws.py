#!/usr/bin/env python3
"""Moves the laws that must-fail edits of definitions meet from specs/ to proofs/, statements and proofs as they are; may run again at any time.

usage: python3 tools/laws.py          moves what is still to move
       python3 tools/laws.py --list   prints each law that was moved, whole

An edit of a definition whose laws stand in specs/ can't be tried, since the text of specs/ is no longer right. MOVED names these files by crate.
Run again after a merge: it turns each path that still has the old folder, in proofs, sources, edits and lists of modules.
"""

import os
import re
import sys

MOVED = {
    "ground": ["MaskLaws", "Inclusion", "Collect", "UpTo", "Sizes"],
    "votes": ["VoteLaws", "JoinLaws", "MemberLaws"],
    "xorshift": ["XorshiftLaws"],
    "records": ["ByteLaws", "CodecLaws", "FrameLaws"],
    "generator": ["FileLaws", "ReplyLaws", "OutputLaws"],
    "bench_report": ["Room"],
    # and the theorem of specs/Examples.antt, whose table stays: proofs/ExamplesRight.antt
    "levels": ["PairLaws", "EndsLaws"],
    "tariff": ["TariffLaws", "ChargeLaws"],
    "dues": ["PiecesLaws"],
    "schedule_text": ["Lengths"],
    "protocol": ["CallLaws"],
}


def read(path):
    with open(path, encoding="utf-8") as f:
        return f.read()


def write(path, text):
    with open(path, "w", encoding="utf-8") as f:
        f.write(text)


def laws(text):
    """The statements of a file, and its definitions with their bodies, with the parameters of the modules that they stand in; words in `where` and helpers that are local to a proof are none."""
    found, modules, lines, i = [], [], text.split("\n"), 0
    while i < len(lines):
        l = lines[i]
        depth = len(l) - len(l.lstrip())
        if l.strip() and not l.lstrip().startswith("--"):
            modules = [m for m in modules if m[0] < depth]
            if re.match(r"\s*module _ ", l):
                modules.append((depth, l.strip()))
            elif re.match(r"\s*(?:abbrev |unfoldable |pub )*(?:record|data|abbrev|unfoldable|pub) ", l) and not re.match(r"\s*pub [^\s()]+ : ", l) and depth == (modules[-1][0] + 2 if modules else 0):
                # a definition, with its body
                k = i + 1
                while k < len(lines) and lines[k].strip():
                    k += 1
                found.append(([m[1] for m in modules], "\n".join(x[depth:] for x in lines[i:k])))
                i = k
                continue
            elif (m := re.match(r"\s*(pub )?([^\s()]+) : ", l)) and m.group(2) not in ("abbrev", "unfoldable") and depth == (modules[-1][0] + 2 if modules else 0):
                k = i + 1
                while k < len(lines) and lines[k].strip() and len(lines[k]) - len(lines[k].lstrip()) > depth:
                    k += 1
                found.append(([m[1] for m in modules], " ".join(x.strip() for x in lines[i:k])))
                i = k
                continue
        i += 1
    return found


def listed():
    for crate, names in MOVED.items():
        for name in names:
            print(f"\n{crate}: specs/{name}.antt is proofs/{name}.antt\n")
            last = []
            for modules, statement in laws(read(f"crates/{crate}/proofs/{name}.antt")):
                if modules != last:
                    print("".join(f"    in {m}\n" for m in modules), end="")
                    last = modules
                print("    " + statement.replace("\n", "\n    "))
    print("\nlevels: specs/Examples.antt is proofs/ExamplesRight.antt\n")
    for _, statement in laws(read("crates/levels/proofs/ExamplesRight.antt")):
        print("    " + statement.replace("\n", "\n    "))
    return 0


def main(argv):
    if "--list" in argv:
        return listed()
    for crate, names in MOVED.items():
        here = f"crates/{crate}"
        if not os.path.isdir(here):
            continue
        for name in names:
            old, new = f"{here}/specs/{name}.antt", f"{here}/proofs/{name}.antt"
            if os.path.exists(old):
                os.makedirs(f"{here}/proofs", exist_ok=True)
                os.replace(old, new)
        lib = f"{here}/specs/Lib.antt"
        rows = [l for l in read(lib).split("\n") if not (l.startswith("pub mod ") and l[8:] in names)]
        if rows != read(lib).split("\n"):
            write(lib, "\n".join(rows))
        lib = f"{here}/proofs/Lib.antt"
        rows = read(lib).rstrip("\n").split("\n") if os.path.exists(lib) else []
        gone = [l for l in rows if l not in [k + n for n in names for k in ("mod ", "pub mod ")]]
        new = "\n".join([f"pub mod {n}" for n in names] + [l for l in gone if l]) + "\n"
        if not os.path.exists(lib) or read(lib) != new:
            write(lib, new)
    paths = [(re.compile(rf"\bRattle\.{c}\.specs\.({'|'.join(ns)})(?![\w'-])"), c) for c, ns in MOVED.items()]
    for folder, dirs, files in os.walk("crates"):
        dirs[:] = sorted(d for d in dirs if d != "out")
        for f in sorted(files):
            if not f.endswith((".antt", ".rt", ".edit")):
                continue
            path = os.path.join(folder, f)
            text = new = read(path)
            for pattern, c in paths:
                new = pattern.sub(rf"Rattle.{c}.proofs.\1", new)
            crate = path.split("/")[1]
            if f.endswith(".edit") and crate in MOVED:
                new = re.sub(rf"(?m)^file: specs/({'|'.join(MOVED[crate])})\.antt$", r"file: proofs/\1.antt", new)
            if new != text:
                write(path, new)
    return 0


if __name__ == "__main__":
    raise SystemExit(main(sys.argv[1:]))
