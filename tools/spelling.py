#!/usr/bin/env python3
"""Brings the names of this repository's definitions and lemmas to today's spelling; run once, after the toolchain's port.py, at the top.

usage: python3 tools/spelling.py [--list]

Words are in snake case. A dash joins two names, a plain word is added with an underscore: the separator before a part is a dash where
the part is the name of a definition, a field, a constructor or one of the library's words. Types, modules, names of the source and
names that the toolchain makes stay. A name whose new spelling is taken already keeps the old one. --list prints old and new.
"""

import os
import re
import sys

NAME = r"[^\s(){}.;,@\"«»\[\]\\`]+"
DEFINED = re.compile(r"^\s*((?:(?:unfoldable|abbrev|pub|data|record)\s+)*)(" + NAME + r")((?:\s+(?:\([^)]*\)|\{[^}]*\}))*) : ")
LIBRARY = set(
    "length take drop get_or map reverse set min max cond not true false zero suc replicate concat append refl sym inl inr bit_or bit_and bit_xor pow sum all any lookup fst snd cons nil".split()
)
# New spellings that would fall together with a field or a lemma of the same place.
GIVEN = {
    "by_heads": "by_heads_lem",
    "byHeads": "by_heads",
    "sameWord": "same_word",
    "tooLong": "too_long",
    "isMove": "says_move",
    "openGates": "open_gates_of",
    "plainName": "plain_name",
    "plain-name": "plain_name_lem",
    "in-range": "in_range_lem",
    "may-give": "may_give_lem",
    "may-open": "may_open_lem",
    "too_long": "too_long_lem",
    "same_word": "same_word_lem",
    "standsBy": "does_stand_by",
    "noOther": "no_other_word",
    "ofOwner": "is_of_owner",
    "lastWord": "last_word_of",
    "passedOver": "passing_over",
    "topWord": "top_word_of",
    "isWord": "is_word_of",
}
# Words of the toolchain's own that look like ours.
KEEP = set("returns args ranges requires ensures before c l".split())


def texts(*endings):
    for top in ("crates",):
        for folder, dirs, files in os.walk(top):
            dirs[:] = sorted(d for d in dirs if d not in ("out", ".git"))
            for f in sorted(files):
                if f.endswith(endings):
                    yield os.path.join(folder, f)


def read(path):
    with open(path, encoding="utf-8") as f:
        return f.read()


def snake(word):
    if not re.match(r"[a-z]", word):
        return word
    word = re.sub(r"getD", "get_or", word)
    return re.sub(r"(?<=[a-z0-9])([A-Z])(?=[a-z]|$|[0-9])", lambda m: "_" + m.group(1).lower(), word)


def defined():
    """The names that are defined here, and those among them that stand for something and are no lemma."""
    all_names, words = set(), set(LIBRARY)
    for path in texts(".antt"):
        if os.path.basename(path) in ("Proof.antt", "Answers.antt", "Invariants.antt"):
            continue
        in_record = False
        for line in read(path).split("\n"):
            line = line.split("--")[0]
            if line.startswith("use "):
                all_names |= set(re.findall(r" as ([a-z][a-z0-9]*[A-Z]\w*)", line))
            if re.match(r"\s*(pub )?(record|data) .*where\s*$", line):
                in_record = len(line) - len(line.lstrip())
            elif line.strip() and in_record is not False and len(line) - len(line.lstrip()) <= in_record:
                in_record = False
            m = DEFINED.match(line)
            if not m or m.group(2) in KEEP or m.group(2).startswith(("-", "|", "λ")):
                continue
            name, marks = m.group(2), m.group(1)
            if name in ("let", "in", "record", "use", "module"):
                continue
            all_names.add(name)
            if in_record is not False or re.search(r"unfoldable|abbrev|data|record", marks):
                words.add(name)
    return all_names, words


def spelled(name, words):
    if name.startswith(("◌", "-")) or name.endswith("-") or "◌" in name or not re.match(r"[a-z]", name):
        # a fact's capital stays: Fact-word
        parts = name.split("-") if re.match(r"[A-Z]", name) else None
        if not parts or len(parts) < 2:
            return name
    parts = name.split("-")
    out = snake(parts[0])
    for p in parts[1:]:
        out += ("-" if p in words or re.match(r"[A-Z]", p) else "_") + snake(p)
    return out


def meets_alone(spots, old, new):
    """Whether a file that has the old name has the new one already."""
    return any(old in found and (new in hidden or (new in found and not hidden)) for found, hidden in spots)


def main(argv):
    names, words = defined()
    # What the source and the library call by these names keeps its spelling.
    source = set()
    for path in texts(".rt"):
        source |= set(re.findall(r"\w+", read(path)))
    imported = set()
    for path in texts(".antt"):
        for line in read(path).split("\n"):
            m = re.match(r"use ([^{]*)\.\{(.*)\}", line)
            if m and not re.match(r"Rattle\.(" + "|".join(os.listdir("crates")) + r")\.", m.group(1)):
                imported |= {x.split(" as ")[0].strip() for x in m.group(2).split(",")}
    turned = {}
    for name in sorted(names):
        new = spelled(name, words)
        if new != name and name not in imported:
            turned[name] = new
    # A new spelling is taken where a file has both, or where a parameter in the source would hide it; a lemma then gets `_lem`.
    spots = []
    for path in texts(".antt"):
        if os.path.basename(path) == "Proof.antt":
            continue
        text = re.sub(r"(?m)^use [\w.+'-]*|--.*", "", read(path))
        text = re.sub(r"(?<=[\w'])\.[^\s(){}.;,]+", "", text)
        spots.append((set(re.findall(NAME, text)), set()))
    for path in texts(".rt"):
        text = read(path)
        heads = " ".join(re.findall(r"fn \w+(?:<[^>]*>)?\(([^)]*)\)", text))
        spots.append((set(re.findall(NAME, text)), set(re.findall(r"(\w+): ", heads)) | {""}))

    def meets(old, new):
        for found, hidden in spots:
            if old in found and (new in hidden or (new in found and not hidden) or any(n in found and turned.get(n) == new for n in others.get(new, ()) if n != old)):
                return True
        return False

    others = {}
    for old, new in turned.items():
        others.setdefault(new, set()).add(old)
    for old, new in GIVEN.items():
        others.get(turned.get(old), set()).discard(old)
        turned[old] = new
    taken = {}
    for old, new in sorted(turned.items()):
        if old not in GIVEN and meets(old, new):
            taken[old] = new
    for old, new in taken.items():
        lemma = new + "_lem"
        if old not in words and not meets(old, lemma):
            turned[old] = lemma
        elif old in words and not any(meets_alone(spots, old, new) for _ in (0,)) and all(o not in words for o in others[new] if o != old):
            pass
        else:
            del turned[old]
    if "--list" in argv:
        for old, new in turned.items():
            print(old, new)
        for old, new in taken.items():
            print("lemma:" if turned.get(old, "").endswith("_lem") else "turned:" if old in turned else "stays:", old, new)
        return 0
    token = re.compile(r"(?<![^\s(){}.;,@\"«»\[\]\\`])(" + NAME + r")")

    def turn(text):
        return token.sub(lambda m: turned.get(m.group(1), m.group(1)), text)

    for path in texts(".antt"):
        old = read(path)
        if os.path.basename(path) == "Proof.antt":
            # names after `tie.` and of facts are the toolchain's
            new = re.sub(r"(?<!tie\.)(?<![^\s(){}.;,@\"«»\[\]\\`])(" + NAME + r")", lambda m: turned.get(m.group(1), m.group(1)), old)
        else:
            new = "\n".join(
                (lambda code, dash, note: turn(code) + dash + re.sub(r"`[^`]*`", lambda m: turn(m.group(0)), camels(note, turned)))(*line.partition("--")) for line in old.split("\n")
            )
        if new != old:
            open(path, "w", encoding="utf-8").write(new)
    for path in texts(".rt"):
        old = read(path)
        lines = []
        for line in old.split("\n"):
            if re.match(r"\s*(pub )?ghost |\s*(requires|ensures)\b", line) or re.search(r"\b(requires|ensures)\b[^{]*\{", line):
                line = turn(line)
            else:
                line = camels(line, turned)
            lines.append(line)
        new = "\n".join(lines)
        if new != old:
            open(path, "w", encoding="utf-8").write(new)
    return 0


def camels(text, turned):
    """Names in camel case are ours wherever they stand."""
    return re.sub(r"(?<![\w'-])[a-z][a-z0-9]*[A-Z]\w*(?:-[\w']+)*", lambda m: turned.get(m.group(0), m.group(0)), text)


if __name__ == "__main__":
    raise SystemExit(main(sys.argv[1:]))
