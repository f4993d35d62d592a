#!/usr/bin/env python3
"""Respells the definitions and lemmas of this repository as today's Rattle spells names; run once, after the kit's port.py, at the top.

Types, facts and modules stay in upper camel case. All other names that specs/ and proofs/ declare become snake case. A dash of a lemma's name stays
where it joins two names of definitions, as in length-placed, and is `_` elsewhere. The standard's own field names (LBox, METH, EnumCS) stay, and so do
the names of src/, strings, inputs and outputs. What is respelled in crates/ is respelled in the papers too, where it stands between backquotes.
It stops where two names would fall together in a file. tools/respelled.tsv has each name, old and new.
"""

import os
import re
import sys

TOKEN = re.compile(r"[^\s(){}\[\],;.:\"`]+")
SIGNATURE = re.compile(r"^\s*(?:(?:unfoldable|abbrev|pub)\s+)*([^\s(){}\[\],;:]+(?:\s+[^\s(){}\[\],;:]+)*)\s+:\s")
WORDS = {"let", "use", "in", "module", "record", "data", "where"}
# Names of the standard library that a lemma's name may begin with.
LIBRARY = {"length", "take", "drop", "set", "append", "map", "get_or", "replicate"}
# Written out, where the rule would split a name of the field.
KEPT = {"sRGB": "srgb", "sYCC": "sycc", "jPBox": "jp_box", "length-drop": "length-drop", "length-take": "length-take", "getD-swap": "get_or-swap", "getD-swapped": "get_or-swapped", "headerLength": "length_of_header", "frontLength": "length_of_front"}


def files(root):
    for folder, dirs, names in os.walk(os.path.join(root, "crates")):
        dirs[:] = sorted(d for d in dirs if d != "out")
        for n in sorted(names):
            if n.endswith((".antt", ".rt")):
                yield os.path.join(folder, n)


def read(path):
    with open(path, encoding="utf-8") as f:
        return f.read()


def snake(name):
    s = re.sub(r"([A-Z]+)([A-Z][a-z])", r"\1_\2", name)
    s = re.sub(r"([a-z0-9])([A-Z])", r"\1_\2", s)
    return s.lower()


def lower_camel(name):
    return re.match(r"[a-z]", name) and re.search(r"[a-z0-9][A-Z]", name) and re.fullmatch(r"[A-Za-z0-9_'-]+", name)


def declared(root):
    names, definitions = set(), set()
    for p in files(root):
        if not p.endswith(".antt") or p.endswith("/Proof.antt"):
            continue
        for line in read(p).split("\n"):
            if line.lstrip().startswith("--"):
                continue
            m = SIGNATURE.match(line)
            if not m:
                continue
            words = m.group(1).split()
            if words[0] in WORDS:
                continue
            for w in words:
                names.add(w)
                if re.match(r"(unfoldable|abbrev)\s", line.strip()) or re.match(r"\s+(pub )?\S+ :", line):
                    definitions.add(w)
    return names, definitions


def table(root):
    names, definitions = declared(root)
    known = {d.replace("-", "_") for d in definitions} | {snake(d) for d in definitions} | LIBRARY
    new = {}
    for n in names:
        if n in KEPT:
            new[n] = KEPT[n]
        elif re.fullmatch(r"[A-Za-z0-9_'-]+", n) and re.match(r"[a-z]", n) and ("-" in n or lower_camel(n)):
            parts = [snake(x) for x in n.split("-")]
            out = None
            for i in range(1, len(parts)):
                a, b = "_".join(parts[:i]), "_".join(parts[i:])
                if a in known and b in known:
                    out = a + "-" + b
                    break
            new[n] = out or "_".join(parts)
            # A lemma that would have its function's name.
            if "-" in n and not out and new[n] in {snake(d) for d in definitions if "-" not in d and d[0].islower()}:
                new[n] += "_lem"
    return {a: b for a, b in new.items() if a != b}


def turn_antt(text, new):
    """Names of the table, and every word in lower camel case; not what follows a dot, but for words in lower camel case and names behind a module's alias."""
    aliases = set(re.findall(r"^use Rattle\.\w+\.[\w.]+ as (\w+)", text, re.M))
    out = []
    local = set()
    for line in text.split("\n"):
        m = SIGNATURE.match(line)
        if m and re.search(r":\s*tie\.", line):
            local |= set(m.group(1).split())
    for line in text.split("\n"):
        res, at = [], 0
        for m in TOKEN.finditer(line):
            t = m.group(0)
            res.append(line[at:m.start()])
            at = m.end()
            before = line[:m.start()]
            dotted = before.endswith(".")
            head = re.search(r"([\w'-]+)\.$", before)
            if line.startswith(("mod ", "pub mod ")) or (dotted and line.startswith("use ") and "{" not in before):
                res.append(t)
            elif t in local:
                res.append(t)
            elif t in new and (not dotted or (head and head.group(1) in aliases) or lower_camel(t)):
                res.append(new[t])
            elif lower_camel(t) and "-" not in t:
                res.append(KEPT.get(t) or snake(t))
            else:
                res.append(t)
        res.append(line[at:])
        out.append("".join(res))
    return "\n".join(out)


def turn_rt(text, new):
    out = []
    for line in text.split("\n"):
        code, quote = [], False
        pieces = re.split(r'(b?"(?:[^"\\]|\\.)*")', line)
        for i, piece in enumerate(pieces):
            if i % 2:
                code.append(piece)
                continue
            code.append(re.sub(r"(?<![\w'])[a-z][A-Za-z0-9]*[A-Z][A-Za-z0-9]*(?![\w'])", lambda m: new.get(m.group(0)) or (KEPT.get(m.group(0)) or snake(m.group(0)) if lower_camel(m.group(0)) and not re.match(r"[bx]\d*[A-Z]", m.group(0)) and m.group(0) != "jP" else m.group(0)), piece))
        out.append("".join(code))
    return "\n".join(out)


def turn_paper(text, new):
    def quoted(m):
        return re.sub(r"[A-Za-z][A-Za-z0-9_'-]*", lambda w: new[w.group(0)] if w.group(0) in new else w.group(0), m.group(0))

    return re.sub(r"`[^`\n]+`", quoted, text)


def fall_together(path, text, new):
    seen = {}
    for line in text.split("\n"):
        if line.lstrip().startswith("--"):
            continue
        for m in TOKEN.finditer(line):
            t = m.group(0)
            to = new.get(t, t)
            if seen.setdefault(to, t) != t:
                yield f"{path}: {seen[to]} and {t} are both {to}"


def main(root):
    new = table(root)
    bad = []
    for p in files(root):
        if p.endswith(".antt"):
            bad += sorted(set(fall_together(p, read(p), new)))
    for b in bad:
        print("respell: " + b)
    if bad and "--force" not in sys.argv:
        return 1
    n = 0
    papers = [os.path.join(root, "README.md")] + [os.path.join(d, f) for d, _, fs in os.walk(os.path.join(root, "docs")) for f in fs if f.endswith(".md")]
    for p in list(files(root)) + [p for p in papers if os.path.exists(p)]:
        t = read(p)
        u = turn_antt(t, new) if p.endswith(".antt") else turn_rt(t, new) if p.endswith(".rt") else turn_paper(t, new)
        if u != t:
            with open(p, "w", encoding="utf-8") as f:
                f.write(u)
            n += 1
    with open(os.path.join(root, "tools", "respelled.tsv"), "w", encoding="utf-8") as f:
        f.writelines(f"{a}\t{b}\n" for a, b in sorted(new.items()))
    print(f"respell: {len(new)} names, {n} files")
    return 0


if __name__ == "__main__":
    sys.exit(main("."))
