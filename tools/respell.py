#!/usr/bin/env python3
"""Brings the definitions and lemmas of crates/ to snake case, once, after the spelling of the language was brought up to date.

usage: python3 tools/respell.py [MAP]      at the top of the repository

A name that the repository's own .antt files declare and that has a capital inside or a dash gets an underscore there: monthLength
is month_length, row-wide is row_wide. Types and modules keep their capitals, functions of src/ their names. In each file the names
that it brings in from the library stay. Plain structs and enums of src/ become `Clone, Copy`, as they always were copied, and each
root file gets the line that has the check try its tactics. With MAP the old and new names are written to that file.
"""
import collections
import os
import re
import sys

LIBRARY = re.compile(r"^\s*(?:ghost )?(?:pub )?use (?!Rattle\.(?!std\b))[\w.'·]+\.\{([^}]*)\}", re.M)
DECLARED = re.compile(r"^\s*(?:(?:pub|abbrev|unfoldable|ruleset) )*([^\s:(){}=,;.\"]+)(?: (?:\([^()]*\)|\{[^{}]*\}))* ?(?::|=)(?!:)")
TOKEN = re.compile(r"[^\s(){}\[\].,:;\"`]+")


def sources(root):
    for folder, dirs, names in os.walk(os.path.join(root, "crates")):
        dirs[:] = sorted(d for d in dirs if d not in ("out", "must-fail"))
        for name in sorted(names):
            if name.endswith((".antt", ".rt")):
                yield os.path.join(folder, name)


def snake(word):
    word = re.sub(r"(?<=[a-z0-9])([A-Z])", lambda it: "_" + it[1].lower(), word)
    return re.sub(r"(?<=[\w'₀-₉])-(?=[\w'])", "_", word)


def declared(texts):
    found = set()
    for path, text in texts.items():
        if not path.endswith(".antt"):
            continue
        for line in text.split("\n"):
            it = DECLARED.match(line)
            if it and not (path.endswith("/Proof.antt") and ": tie." in line) and re.match(r"[a-zα-ω]", it[1]):
                found.add(it[1])
    return found


def renamed(texts):
    names = declared(texts)
    table = {it: snake(it) for it in names if snake(it) != it}
    # A lemma that would have its function's name gets `_lem`.
    functions = {new for old, new in table.items() if "-" not in old}
    for old, new in sorted(table.items()):
        if "-" in old and (new in functions or new in names):
            table[old] = new + "_lem"
    taken = collections.Counter(table.values())
    for old, new in sorted(table.items()):
        if taken[new] > 1 or new in names:
            print(f"falls together: {old} and {new}")
            del table[old]
    return table


def turned(line, table, kept, is_proof):
    """The line with the names of the table replaced, but for names kept and, in a walk of code by hand, steps of that code."""
    code, mark, comment = line, "", ""
    at = re.search(r"(?:^|\s)(--|//)(?=\s|$)", line)
    if at:
        code, mark, comment = line[: at.start(1)], at[1], line[at.end(1) :]

    def put(it):
        word = it[0]
        if word not in table or word in kept:
            return word
        if it.start() and it.string[it.start() - 1] == "." and is_proof and "-" in word:
            return word
        return table[word]

    code = TOKEN.sub(put, code)
    # In prose a name is one that has a capital inside, or stands in backticks.
    comment = re.sub(r"`[^`]+`", lambda it: "`" + TOKEN.sub(put, it[0][1:-1]) + "`", comment)
    comment = re.sub(r"[A-Za-z]\w*", lambda it: table.get(it[0], it[0]) if re.search("[a-z0-9][A-Z]", it[0]) else it[0], comment)
    return code + mark + comment


def derived(text, is_root):
    text = re.sub(r"(?m)^#\[derive\([^)]*\)\]\n(?=(?:pub )?(?:struct|enum) )", "", text)
    text = re.sub(r"(?m)^((?:pub )?(?:struct|enum) )", r"#[derive(Clone, Copy)]\n\1", text)
    if is_root and "#![tactic(auto)]" not in text:
        lines = text.split("\n")
        at = 0
        while at < len(lines) and lines[at].startswith(("//", "#![")):
            at += 1
        lines[at:at] = ["#![tactic(auto)]"] + ([""] if lines[at : at + 1] != [""] else [])
        text = "\n".join(lines)
    return text


def main():
    texts = {path: open(path, encoding="utf-8").read() for path in sources(".")}
    table = renamed(texts)
    if len(sys.argv) > 1:
        with open(sys.argv[1], "w", encoding="utf-8") as out:
            out.writelines(f"{old}\t{new}\n" for old, new in sorted(table.items()))
    changed = 0
    for path, text in texts.items():
        kept = set()
        for it in LIBRARY.finditer(text):
            kept |= {name.strip() for name in it[1].split(",")}
        new = "\n".join(turned(line, table, kept, path.endswith("/Proof.antt")) for line in text.split("\n"))
        new = re.sub(r"\b(\w+) as \1\b", r"\1", new)
        if path.endswith(".rt"):
            new = derived(new, path.endswith(("/src/lib.rt", "/src/main.rt")))
        if new != text:
            changed += 1
            with open(path, "w", encoding="utf-8") as out:
                out.write(new)
    print(f"{len(table)} names, {changed} files")


if __name__ == "__main__":
    main()
