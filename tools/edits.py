#!/usr/bin/env python3
"""Brings the must-fail edits to the spelling of the files that they change.

usage: python3 tools/edits.py OLD [MAP]      at the top of the repository

OLD is a checkout of the repository in the older spelling, MAP the table of names that tools/respell.py wrote.

The words of an edit are respelled as the lines of its file were. Where its old text then stands in the file just once, the edit is
written; each other one is printed, and left for a hand.
"""
import collections
import difflib
import os
import re
import sys

TOKEN = re.compile(r"[\w'′·₀-₉]+(?:-[\w'′₀-₉]+)*|\S")


def learnt(old, new):
    """Which word of the old file stands as which in the new one."""
    found = collections.defaultdict(collections.Counter)
    tight = [re.sub(r" \.(?=[a-z0-9])", ".", line) for line in old]
    for tag, a, b, c, d in difflib.SequenceMatcher(None, tight, new, autojunk=False).get_opcodes():
        if tag == "replace" and b - a == d - c:
            for x, y in zip(tight[a:b], new[c:d]):
                xs, ys = TOKEN.findall(x), TOKEN.findall(y)
                if len(xs) == len(ys):
                    for p, q in zip(xs, ys):
                        found[p][q] += 1
                else:
                    for t, i, j, k, l in difflib.SequenceMatcher(None, xs, ys, autojunk=False).get_opcodes():
                        if t == "replace" and j - i == l - k:
                            for p, q in zip(xs[i:j], ys[k:l]):
                                found[p][q] += 1
    return {p: q.most_common(1)[0][0] for p, q in found.items()}


def respelt(text, words):
    text = re.sub(r" \.(?=[a-z0-9])", ".", text)
    text = TOKEN.sub(lambda it: words.get(it[0], it[0]), text)
    text = re.sub(r"(?<!\w)\(([\w']+(?:\.[\w'-]+)+)\)", r"\1", text)
    return text


def spelt(texts):
    """Several ways to write a text: the brackets of a clause may be gone."""
    yield texts
    yield re.sub(r"\s*⌜ (.*) ⌝\s*", r" \1 ", texts).replace("λ r. ", "")
    yield re.sub(r"(?<![\w'])r(?![\w'])", "result", re.sub(r"\s*⌜ (.*) ⌝\s*", r" \1 ", texts).replace("λ r. ", ""))


def main():
    landed = sys.argv[1]
    every = {}
    for line in open(sys.argv[2], encoding="utf-8") if len(sys.argv) > 2 else ():
        old, new = line.rstrip("\n").split("\t")
        every[old] = new
    done = 0
    for folder, _, names in sorted(os.walk("crates")):
        if not folder.endswith("/must-fail"):
            continue
        crate = os.path.dirname(folder)
        for name in sorted(names):
            path = os.path.join(folder, name)
            with open(os.path.join(landed, path), encoding="utf-8") as it:
                lines = it.read().split("\n")
            out, file, now, good = [], None, None, True
            word = None
            for line in lines:
                if line.startswith("file: "):
                    file = line[6:].strip()
                    with open(os.path.join(landed, crate, file), encoding="utf-8") as it:
                        old = it.read().split("\n")
                    with open(os.path.join(crate, file), encoding="utf-8") as it:
                        now = it.read()
                    words = {**every, **learnt(old, now.split("\n"))}
                    out.append(line)
                elif line.startswith(("old: ", "new: ")):
                    text = line[5:]
                    if line.startswith("old: "):
                        word = None
                        for index, way in enumerate([text, respelt(text, words), *[s for s in spelt(respelt(text, words))]]):
                            if now.count(way) == 1:
                                word = index
                                out.append("old: " + way)
                                break
                        if word is None:
                            good = False
                            print(f"{path}: {respelt(text, words)}")
                            out.append(line)
                    else:
                        made = [text, respelt(text, words), *[s for s in spelt(respelt(text, words))]]
                        out.append("new: " + made[word if word is not None else 1])
                else:
                    out.append(line)
            if good:
                done += 1
                with open(path, "w", encoding="utf-8") as to:
                    to.write("\n".join(out))
    print(f"{done} edits")


if __name__ == "__main__":
    main()
