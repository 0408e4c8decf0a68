#!/usr/bin/env python3
"""Brings the must-fail edits over to today's spelling, as tools/spelling.py brought the text that they edit.

usage: python3 tools/edits.py           once: respells each edit, prints the pairs that are left by hand
       python3 tools/edits.py --map     prints old and new names
       python3 tools/edits.py --check   writes nothing; looks at the edits as they stand

The names come from the text itself: each definition's and lemma's file at LANDED beside the same file at the commit in which port.py ran (the
first two lines of docs/PORT.md). --check: there are as many edits as at LANDED, with as many pairs; each old: stands once in its file of today,
and old: and new: are LANDED's, token for token, up to spelling. It prints those of which that isn't so.
"""

import difflib
import glob
import os
import re
import subprocess
import sys

NAME = r"[^\s(){}.;,@\"«»\[\]\\`]+"
TOKEN = re.compile(r'"(?:[^"\\]|\\.)*"|' + NAME + r"|\S")
CAMEL = re.compile(r"(?<![\w'-])[a-z][a-z0-9]*[A-Z]\w*(?:-[\w']+)*")


def read(path):
    if not os.path.exists(path):
        return None
    with open(path, encoding="utf-8") as f:
        return f.read()


def git(*words):
    return subprocess.run(["git", *words], capture_output=True, text=True, check=True).stdout


def commits():
    return read("docs/PORT.md").split("\n")[:2]


def at(commit, path):
    r = subprocess.run(["git", "show", f"{commit}:{path}"], capture_output=True, text=True)
    return r.stdout if r.returncode == 0 else None


def group_end(s, i):
    """The place after the bracket that closes the one at i, or None."""
    depth = 0
    for k in range(i, len(s)):
        depth += {"(": 1, ")": -1}.get(s[k], 0)
        if depth == 0:
            return k + 1
    return None


def begins(s, end):
    """Where the application that ends at end begins, and how many terms it has: names and groups with blanks between them."""
    i, n = end, 0
    while True:
        k = i
        if k and s[k - 1] == ")":
            depth = 0
            while k:
                k -= 1
                depth += {")": 1, "(": -1}.get(s[k], 0)
                if depth == 0:
                    break
            if depth:
                return i, n
        else:
            m = re.search(r"[^\W\d_][\w'-]*$|\d+$", s[:i])
            if not m or m.group(0) in ("λ", "let", "in", "record", "new", "old"):
                return end if n == 0 else i + 1, n
            k = m.start()
        i, n = k, n + 1
        if not i or s[i - 1] != " ":
            return i, n
        i -= 1


def tighten(s):
    """`(c .help .votes)` is `c.help.votes`, `f c .votes` is `(f c).votes`, `«word»` is `word`."""
    s = re.sub(r"«([^»]*)»", r"\1", s)
    at = 0
    while m := re.compile(r"(?<=[^\s({\[;,]) +(?=\.\w)").search(s, at):
        i, n = begins(s, m.start())
        if n > 1:
            s = s[:i] + "(" + s[i : m.start()] + ")" + s[m.end() :]
        at = m.start() + 1
    s = re.sub(r"(?<=[^\s({\[;,]) +\.(?=[\w])", ".", s)
    i = 0
    while i < len(s):
        if s[i] == "(" and (i == 0 or s[i - 1] in " (,"):
            end = group_end(s, i)
            if end:
                inside = s[i + 1 : end - 1]
                k = group_end(inside, 0) if inside.startswith("(") else (re.match(NAME, inside) or re.match("", inside)).end()
                if k and re.fullmatch(r"(\.[\w'-]+)+", inside[k:]) and not s[end : end + 1] == ".":
                    s = s[:i] + inside + s[end:]
                    continue
        i += 1
    return s


def tokens(s):
    return TOKEN.findall(s)


def body(text):
    """The lines of a module without imports and comments."""
    lines = [l.split("--")[0] for l in text.split("\n") if not l.startswith("use ")]
    return "\n".join(lines)


def names_of(old, new):
    """How often each name of old stands where new has another."""
    a, b = tokens(tighten(body(old))), tokens(body(new))
    found = {}
    for kind, i1, i2, j1, j2 in difflib.SequenceMatcher(None, a, b, autojunk=False).get_opcodes():
        if i2 - i1 == j2 - j1:
            for x, y in zip(a[i1:i2], b[j1:j2]):
                if re.match(NAME + "$", x) and re.match(NAME + "$", y):
                    found.setdefault(x, {}).setdefault(y, 0)
                    found[x][y] += 1
    return found


def best(found):
    return {x: max(ys, key=lambda y: ys[y]) for x, ys in found.items()}


def merged(parts):
    out = {}
    for found in parts:
        for x, ys in found.items():
            for y, n in ys.items():
                out.setdefault(x, {}).setdefault(y, 0)
                out[x][y] += n
    return out


def name_maps():
    """For each file its own names, for each crate the names of all its files, and the names of all crates."""
    landed, ported = commits()
    by_file, by_crate = {}, {}
    for path in git("ls-tree", "-r", "--name-only", landed, "crates").split("\n"):
        m = re.match(r"crates/(\w+)/(specs|proofs)/.*\.antt$", path)
        if not m or path.endswith("/Proof.antt"):
            continue
        old, new = at(landed, path), at(ported, path)
        if old is None or new is None:
            continue
        found = names_of(old, new)
        by_file[path] = best(found)
        by_crate.setdefault(m.group(1), []).append(found)
    whole = best(merged(f for fs in by_crate.values() for f in fs))
    return by_file, {c: best(merged(fs)) for c, fs in by_crate.items()}, whole


def turned(text, maps):
    def turn(m):
        for names in maps:
            if m.group(0) in names:
                return names[m.group(0)]
        return m.group(0)

    parts = re.split(r'("(?:[^"\\]|\\.)*")', tighten(text))
    return "".join(p if k % 2 else re.sub(NAME, turn, p) for k, p in enumerate(parts))


def pairs(path):
    return pairs_of(read(path))


def pairs_of(text):
    """The lines of an edit, each with its file."""
    out, f = [], None
    for l in text.rstrip("\n").split("\n"):
        if l.startswith("file: "):
            f = l[6:]
        out.append((f, l))
    return out


def main(argv):
    by_file, by_crate, whole = name_maps()
    if "--map" in argv:
        for x, y in sorted(whole.items()):
            if x != y:
                print(x, y)
        return 0
    if "--check" in argv:
        return check(by_file, by_crate, whole)
    left = 0
    for path in sorted(glob.glob("crates/*/must-fail/*.edit")):
        crate = path.split("/")[1]
        out, texts = [], {}
        for f, l in pairs(path):
            m = re.match(r"(old|new): (.*)$", l)
            spot = f and f"crates/{crate}/{f}"
            if l.startswith("#"):
                out.append(comment(l, [by_crate.get(crate, {}), whole]))
            elif m and f.endswith(".antt") and not f.endswith("/Proof.antt"):
                maps = [by_file.get(spot, {}), by_crate.get(crate, {}), whole]
                out.append(m.group(1) + ": " + turned(m.group(2), maps))
                if m.group(1) == "new" and out[-2].startswith("old: use ") and m.group(2).startswith("use "):
                    out[-2:] = imports(read(spot), out[-2][5:], out[-1][5:])
            else:
                out.append(l)
        new = "\n".join(out) + "\n"
        if new != read(path):
            with open(path, "w", encoding="utf-8") as f:
                f.write(new)
        left += stands(path)
    print(f"{left} pairs left by hand")
    return 0


def imports(text, old, new):
    """An import of the library: what was a line for each of its modules is one line now; names that come are put where those that go stood."""
    items = lambda l: [x.strip().replace("_", "◌") if re.match(r"_\S+_$", x.strip()) else x.strip() for x in re.search(r"\{(.*)\}", l).group(1).split(",")]
    a, b = items(old), items(new)
    gone, come = [x for x in a if x not in b], [x for x in b if x not in a]
    for line in text.split("\n"):
        if line.startswith("use ") and set(a) <= set(items(line)):
            names = items(line)
            come = [x for x in come if x not in names]
            if gone:
                k = names.index(gone[0])
                names = [x for x in names[:k] if x not in gone] + come + [x for x in names[k:] if x not in gone]
            else:
                k = names.index(a[-1]) + 1
                names = names[:k] + come + names[k:]
            return ["old: " + line, "new: " + line[: line.index("{")] + "{" + ", ".join(names) + "}"]
    return ["old: " + old, "new: " + new]


def comment(l, maps):
    """Names in a comment: those in quotes or brackets, and those in camel case wherever they stand."""
    def turn(m):
        for names in maps:
            if m.group(0) in names:
                return names[m.group(0)]
        return m.group(0)

    return CAMEL.sub(turn, re.sub(r"(?<=`)[a-z][\w'-]*(?=`)|(?<=\()[a-z]\w*-[\w'-]*(?=[),])", turn, l))


def check(by_file, by_crate, whole):
    landed, bad = commits()[0], 0
    then = [p for p in git("ls-tree", "-r", "--name-only", landed, "crates").split("\n") if re.match(r"crates/\w+/must-fail/[^/]+\.edit$", p)]
    now = sorted(glob.glob("crates/*/must-fail/*.edit"))
    for path in sorted(set(then) ^ set(now)):
        print(f"{path}: {'gone' if path in then else 'new'}")
    for path in [p for p in now if p in then]:
        crate = path.split("/")[1]
        bad += stands(path)
        rows = [[(f, l) for f, l in lines if l.startswith(("old: ", "new: "))] for lines in (pairs_of(at(landed, path)), pairs(path))]
        if [f for f, _ in rows[0]] != [f for f, _ in rows[1]]:
            print(f"{path}: other files or another number of pairs")
            bad += 1
            continue
        for (f, x), (_, y) in zip(*rows):
            maps = [by_file.get(f"crates/{crate}/{f}", {}), by_crate.get(crate, {}), whole]
            if x != y and (not f.endswith(".antt") or tokens(turned(x, maps)) != tokens(y)):
                print(f"{path}: {f}: differs by more than spelling\n    LANDED {x}\n    today  {y}")
                bad += 1
        for k in range(0, len(rows[1]), 2):
            if rows[1][k][1][5:] == rows[1][k + 1][1][5:]:
                print(f"{path}: old: and new: are the same")
                bad += 1
    print(f"{len(now)} edits, {len(then)} at LANDED; {bad} to look at")
    return 0


def stands(path, say=True):
    crate, texts, left, old = path.split("/")[1], {}, 0, None
    for f, l in pairs(path):
        if l.startswith("old: "):
            old = l[5:]
        elif l.startswith("new: "):
            spot = f"crates/{crate}/{f}"
            if spot not in texts:
                texts[spot] = read(spot)
            n = -1 if texts[spot] is None else texts[spot].count(old)
            if n == 1:
                texts[spot] = texts[spot].replace(old, l[5:])
            else:
                left += 1
                if say:
                    print(f"{path}: {f}: {'no such file' if n < 0 else f'stands {n} times'}\n    old: {old}\n    new: {l[5:]}")
    return left


if __name__ == "__main__":
    raise SystemExit(main(sys.argv[1:]))
