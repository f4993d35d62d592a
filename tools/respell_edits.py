#!/usr/bin/env python3
"""Brings the must-fail edits to today's spelling, after respell.py: python3 tools/respell_edits.py LANDED [CRATE..]

LANDED is the commit whose edits still fit its own files. For each pair of an edit, the place of its old text in LANDED's file is looked up in today's
file, by the letters and digits of the line; what stands there is today's old text. The new text differs from it in the words in which LANDED's did,
each respelled. What is not found, or not found once, is named and left for the hand.
"""

import glob
import os
import re
import subprocess
import sys

sys.path.insert(0, os.path.dirname(os.path.realpath(__file__)))
import respell

DROPPED = set(" ()._-·'\u2018\u2019«»\t")


def letters(text):
    out = "".join(c.lower() for c in text if c not in DROPPED)
    out = out.replace("getd", "getor").replace("specsspecs", "specs")
    return out


def names():
    table = {}
    with open(os.path.join(os.path.dirname(os.path.realpath(__file__)), "respelled.tsv"), encoding="utf-8") as f:
        for line in f:
            a, b = line.rstrip("\n").split("\t")
            table[a] = b
    return table


NAMES = names()


def spelled(text):
    def word(m):
        w = m.group(0)
        if w in NAMES:
            return NAMES[w]
        if respell.lower_camel(w):
            return respell.KEPT.get(w) or respell.snake(w)
        return w

    t = re.sub(r"[A-Za-z][A-Za-z0-9_'-]*", word, text)
    t = re.sub(r"\((\w[\w']*) ((?:\.[\w«»]+ ?)+)\)", lambda m: m.group(1) + m.group(2).replace(" ", ""), t)
    t = re.sub(r"(?<=[\w')]) \.(?=[\w«])", ".", t)
    t = t.replace("·specs.specs", ".specs").replace("·", ".").replace("the-variants", "TheVariants").replace("getD", "get_or")
    t = re.sub(r"(?<![\w◌])_([^\w\s]+)_(?![\w◌])", r"◌\1◌", t)
    return t


def landed(commit, path):
    r = subprocess.run(["git", "show", f"{commit}:{path}"], capture_output=True, text=True)
    return r.stdout if r.returncode == 0 else None


def span(line, want):
    """The shortest part of the line whose letters are those wanted; its ends are no dropped letters but for what the wanted text begins with."""
    for i in range(len(line)):
        if line[i] in DROPPED and line[i] not in "(":
            continue
        acc = ""
        for j in range(i + 1, len(line) + 1):
            acc = letters(line[i:j])
            if acc == want:
                return i, j
            if not want.startswith(acc):
                break
    return None


def depth(text):
    return text.count("(") - text.count(")")


def split(text):
    return re.findall(r"[A-Za-z0-9_'-]+|\s+|[^A-Za-z0-9_'\s-]", text)


def changed(old, new, today):
    """today's old text, changed where new differs from old."""
    a, b = split(old), split(new)
    p = 0
    while p < min(len(a), len(b)) and a[p] == b[p]:
        p += 1
    q = 0
    while q < min(len(a), len(b)) - p and a[len(a) - 1 - q] == b[len(b) - 1 - q]:
        q += 1
    head, tail = "".join(a[:p]), "".join(a[len(a) - q:]) if q else ""
    middle = "".join(b[p:len(b) - q])
    h = 0
    want = letters(head)
    while h < len(today) and letters(today[:h]) != want:
        h += 1
    # take what is dropped, as far as the head had it at its end
    while h < len(today) and today[h] in DROPPED and (head and head[-1] in DROPPED or not head) and letters(today[:h + 1]) == want:
        h += 1
    t = len(today)
    want = letters(tail)
    while t > h and letters(today[t:]) != want:
        t -= 1
    while t > h and today[t - 1] in DROPPED and tail and tail[0] in DROPPED and letters(today[t - 1:]) == want:
        t -= 1
    return today[:h] + spelled(middle) + today[t:]


def main():
    commit, crates = sys.argv[1], sys.argv[2:]
    edits = sorted(glob.glob("crates/*/must-fail/*.edit"))
    left = 0
    for e in edits:
        crate = e.split("/")[1]
        if crates and crate not in crates:
            continue
        text = landed(commit, e)
        if text is None:
            continue
        out, file, old, bad = [], None, None, []
        cache = {}
        for line in text.split("\n"):
            if line.startswith("file: "):
                file = line[6:].strip()
                out.append(line)
            elif line.startswith("old: "):
                old = line[5:]
                path = f"crates/{crate}/{file}"
                was = landed(commit, path)
                is_ = cache.get(path) or (open(path, encoding="utf-8").read() if os.path.exists(path) else "")
                plain = spelled(old)
                if is_.count(old) == 1:
                    today, how = old, "same"
                elif is_.count(plain) == 1:
                    today, how = plain, "plain"
                else:
                    how = "found"
                    today = None
                    if was and was.count(old) == 1:
                        at = was.index(old)
                        start = was.rfind("\n", 0, at) + 1
                        end = was.find("\n", at)
                        want = letters(was[start:end])
                        lines = [l for l in is_.split("\n") if letters(l) == want]
                        if len(lines) != 1:
                            lines = [l for l in is_.split("\n") if span(l, letters(old))]
                        if len(lines) == 1:
                            s = span(lines[0], letters(old))
                            if s:
                                today = lines[0][s[0]:s[1]]
                                if today.count("(") != today.count(")") and old.count("(") == old.count(")"):
                                    if lines[0][s[1]:s[1] + 1] == ")":
                                        today += ")"
                                if is_.count(today) != 1:
                                    today = lines[0].strip()
                                    bad.append("whole line: " + old)
                    if today is None or is_.count(today) != 1:
                        bad.append("not found once: " + old)
                        today = None
                out.append("old: " + (today if today is not None else spelled(old)))
            elif line.startswith("new: "):
                new = line[5:]
                path = f"crates/{crate}/{file}"
                if today is None or how == "plain":
                    n = spelled(new)
                elif how == "same":
                    n = new if file.startswith("src/") and "·" not in new else spelled(new)
                else:
                    n = changed(old, new, today)
                if today is not None and depth(n) - depth(today) != depth(new) - depth(old):
                    bad.append("brackets: " + n)
                out.append("new: " + n)
                if today is not None:
                    is_ = cache.get(path) or open(path, encoding="utf-8").read()
                    cache[path] = is_.replace(today, n, 1)
            else:
                out.append(line)
        with open(e, "w", encoding="utf-8") as f:
            f.write("\n".join(out))
        if bad:
            left += 1
            print(e, *bad, sep="\n    ")
    print(f"edits: {left} left for the hand")


if __name__ == "__main__":
    main()
