#!/usr/bin/env python3
"""Counts the places in src/ where today's Rattle may have a plainer form, by the points of docs/DESIGN-PASS.md.

    tools/forms.py [FOLDER] [--list POINT]

FOLDER is a checkout (here, if none is given). Each point has a rule that looks at the text alone, so a place that it finds need not be one;
docs/DESIGN-PASS.md says what became of each. A line `// stays (WHY): ..` says why a place stays; `--list stays` shows these."""
import collections
import pathlib
import re
import sys

WHYS = ("C interface", "promise", "rule", "speed", "proof", "no plainer")


def sources(root):
    for path in sorted(pathlib.Path(root).glob("crates/*/src/**/*.rt")):
        yield path.relative_to(root), path.read_text()


def line_of(text, at):
    return text.count("\n", 0, at) + 1


def block(text, at):
    """The text between the braces that open at or after a place."""
    start = text.index("{", at)
    depth = 0
    for i in range(start, len(text)):
        depth += (text[i] == "{") - (text[i] == "}")
        if depth == 0:
            return text[start + 1:i], i + 1
    return text[start + 1:], len(text)


class Function:
    def __init__(self, path, line, name, params, result, clauses, body):
        self.path, self.line, self.name, self.params = path, line, name, params
        self.result, self.clauses, self.body = result, clauses, body


def functions(path, text):
    for m in re.finditer(r"^[ \t]*(?:pub(?:\([a-z]+\))? )?(?:extern \"C\" )?fn (\w+)(<[^(]*>)?\(", text, re.M):
        depth, i = 1, m.end()
        while depth:
            depth += (text[i] in "([{") - (text[i] in ")]}")
            i += 1
        params = re.findall(r"(\w+): ([^,()\[\]]+(?:\[[^\]]*\])?[^,]*)", text[m.end():i - 1])
        result = re.match(r"\s*->\s*([^{]*?)\s*(?=\{|requires|ensures|ghost|where|$)", text[i:], re.S)
        result = " ".join(result.group(1).split()) if result else ""
        clauses = []
        while True:
            c = re.match(r"[^{]*?\b(requires|ensures)\b[^{]*\{", text[i:])
            if not c or "\n{" in text[i:i + c.end()]:
                break
            inner, end = block(text, i + c.end() - 1)
            clauses.append((c.group(1), " ".join(inner.split())))
            i = end
        if "{" not in text[i:]:
            continue
        body, _ = block(text, i)
        yield Function(path, line_of(text, m.start()), m.group(1), params, result, clauses, body)


def enums(text):
    for m in re.finditer(r"^(?:pub(?:\([a-z]+\))? )?enum (\w+)[^{]*\{", text, re.M):
        inner, _ = block(text, m.start())
        inner = re.sub(r"//[^\n]*", "", inner)
        variants = re.findall(r"(\w+)\s*(\([^)]*\)|\{[^}]*\})?\s*(?:=\s*\d+)?\s*(?:,|$)", inner)
        yield m.start(), m.group(1), variants


def structs(text):
    for m in re.finditer(r"^(?:pub(?:\([a-z]+\))? )?struct (\w+)[^{;]*\{", text, re.M):
        inner, _ = block(text, m.start())
        inner = re.sub(r"//[^\n]*", "", inner)
        yield m.start(), m.group(1), re.findall(r"(\w+): ([^,]+)", inner)


def shape(body):
    """A body with its names by order of appearance and its numbers left out."""
    names = {}

    def name(m):
        word = m.group(0)
        if word in ("if", "else", "return", "let", "mut", "while", "for", "in", "match", "true", "false", "loop", "as"):
            return word
        return names.setdefault(word, f"v{len(names)}")
    body = re.sub(r"//[^\n]*", "", body)
    return re.sub(r"\s+", " ", re.sub(r"[A-Za-z_]\w*", name, re.sub(r"\b\d[\w_]*", "0", body))).strip()


def places(root):
    found = collections.defaultdict(list)
    shapes, pairs, facts = (collections.defaultdict(list) for _ in range(3))
    for path, text in sources(root):
        for at, name, variants in enums(text):
            bare = [v for v, held in variants if not held]
            holding = [v for v, held in variants if held]
            refusing = [v for v in holding if v in ("Refused", "Unexpected", "Contradicted")]
            if len(variants) <= 4 and holding and (refusing or (len(holding) == 1 and len(bare) == 1)):
                found["1 enums"].append(f"{path}:{line_of(text, at)} {name} {{{', '.join(v for v, _ in variants)}}}")
        for at, name, fields in structs(text):
            flags = [f for f, t in fields if t.strip().removeprefix("pub ") == "bool"]
            numbers = [f for f, t in fields if f.removeprefix("pub ") == "answer" and t.strip() == "u8"]
            if (flags and len(fields) > len(flags)) or numbers:
                found["1 flags"].append(f"{path}:{line_of(text, at)} {name} ({', '.join(flags + numbers)})")
            arrays = [f for f, t in fields if t.strip().startswith("[")]
            lengths = [f for f, t in fields if t.strip() == "usize"]
            if (arrays and lengths) or len(arrays) > 1:
                found["6"].append(f"{path}:{line_of(text, at)} {name} ({', '.join(arrays + lengths)})")
        for f in functions(path, text):
            where = f"{f.path}:{f.line} {f.name}"
            says = " ".join(c for _, c in f.clauses)
            if f.result == "u8" and re.search(r"\bnumber\b|_number\b|refusal|answer_to|PutUnless|_reply\b|\.number", says):
                found["1 numbers"].append(where)
            for w in re.finditer(r"^\s*(while|loop)\b[^\n]*", f.body, re.M):
                found["3"].append(f"{f.path}:{f.line} {f.name}: {w.group(0).strip()}")
            flat = " ".join(re.sub(r"//[^\n]*", "", f.body).split())
            m = re.fullmatch(r"match (\w+) \{ ((?:[\w:]+(?:\(_\)| \{ \.\. \})? => (?:[\w:]+|b?'.'),? )+)\}", flat)
            if m:
                found["4"].append(f"{where}: by a match")
            elif re.fullmatch(r"\(?\w+ as \w+\)?", flat) or re.fullmatch(r"\(\w+ % \d+\) as u8", flat):
                found["4"].append(f"{where}: a conversion")
            elif re.match(r"same_|rebuilt|is_(none|stay|move)$", f.name):
                found["4"].append(f"{where}: equality or copy")
            if re.fullmatch(r"if (\w+) \{ return [^;{}]*\([^;{}]*\); \} [^;{}]*\([^;{}]*\)", flat) or re.fullmatch(r"match \w+ \{ (\w+::\w+(?:\(_\)| \{[^}]*\})? => (?:\{ )?[\w:]+\([^{}]*\),?(?: \})? )+\}", flat):
                found["7"].append(where)
            lines = [x for x in f.body.splitlines() if x.strip() and not x.strip().startswith("//")]
            if len(lines) >= 3:
                shapes[shape(f.body)].append(where)
            names = sorted(set((n, " ".join(t.split())) for n, t in f.params))
            for i, p in enumerate(names):
                for q in names[i + 1:]:
                    pairs[p, q].append(where)
            for kind, c in f.clauses:
                for part in re.split(r" × ", c):
                    part = part.strip("() ")
                    if kind == "requires" or "length" in part:
                        facts[part].append(where)
        for m in re.finditer(r"// stays \(([^)]*)\)[^\n]*", text):
            found["stays"].append(f"{path}:{line_of(text, m.start())} {m.group(0)[3:]}")
    for group in shapes.values():
        if len(group) > 1:
            found["2"] += [f"{g}  [like {group[0].split()[-1]}]" for g in group]
    for (p, q), group in sorted(pairs.items()):
        if len(group) >= 5:
            found["5 pairs"].append(f"{p[0]}: {p[1]}, {q[0]}: {q[1]}: {len(group)} functions")
    for fact, group in sorted(facts.items()):
        if len(group) >= 3:
            found["5 facts"].append(f"{fact}: {len(group)} functions")
    return found


def main():
    args = sys.argv[1:]
    shown = args[args.index("--list") + 1] if "--list" in args else None
    folders = [a for i, a in enumerate(args) if a != "--list" and (i == 0 or args[i - 1] != "--list")]
    found = places(folders[0] if folders else ".")
    if shown:
        print("\n".join(x for k in sorted(found) if k.startswith(shown) for x in found[k]))
        return
    for point in ("1 enums", "1 flags", "1 numbers", "2", "3", "4", "5 pairs", "5 facts", "6", "7", "stays"):
        print(f"{point:10} {len(found[point]):4}")


if __name__ == "__main__":
    main()
