#!/usr/bin/env python3
"""Turns proofs that walk the code by hand into Invariants and Answers.

usage: python3 tools/answers.py NAMES CRATE..      at the top of the repository

NAMES is a folder that `rt names NAMES` wrote. For each proofs/F/Proof.antt of the crates it writes proofs/F/Invariants.antt and
proofs/F/Answers.antt and removes the walk: invariants over the record of live variables, and an answer for each goal that was
answered by more than the search, with its facts cited by the names of the steps. What it can't tell stays as it was written and
is printed.
"""
import json
import os
import re
import sys

LOOPS = {"loop_holds": "init", "loop_less": "smaller", "loop_again": "preserved"}
TRIVIAL = {"search rules", "tt", "search needs", "search (rules)"}


def clauses():
    """The names of each function's clauses, where a kind has several: of requires and of ensures."""
    found = {}
    for crate in sorted(os.listdir("crates")):
        for folder, _, files in os.walk(f"crates/{crate}/src"):
            for name in files:
                if not name.endswith(".rt"):
                    continue
                with open(os.path.join(folder, name), encoding="utf-8") as it:
                    text = it.read()
                module = os.path.relpath(os.path.join(folder, name), f"crates/{crate}/src")[:-3].replace("/", "::")
                path = [crate] if module in ("lib", "main") else [crate, *module.split("::")]
                owner = None
                function = None
                for line in text.split("\n"):
                    at = re.match(r"impl(?:<[^>]*>)? (\w+)", line)
                    owner = at[1] if at else None if line == "}" else owner
                    at = re.match(r"\s*(?:pub )?(?:extern \"C\" )?fn (\w+)", line)
                    if at:
                        function = "::".join([*path, *([owner] if owner else []), at[1]])
                        found[function] = ([], [])
                    at = re.match(r"\s+(requires|ensures) (\w+) \{", line)
                    if at and function:
                        found[function][at[1] == "ensures"].append(at[2])
    return found


def plain(word):
    return word.replace("-", "_")


class Function:
    def __init__(self, names):
        self.names = names
        self.needs = {}
        self.callee = {entry[2][1]: entry[3] for entry in names["places"] if entry[3]}
        for index, (old, new) in enumerate(names["needs"]):
            self.needs.setdefault(plain(old), (new, index))
        self.by_new = {new: index for index, (old, new) in enumerate(names["needs"])}
        self.places = {}
        self.new_place = {}
        for index, (place, parent, step, _, _) in enumerate(names["places"]):
            self.places[plain(place)] = (plain(place), plain(parent) if parent else None, plain(step[0]), step[1])
            self.new_place[plain(place)] = names["places_by_name"][index]
        self.loops = {plain(old): (new, live, changed) for ((old, new), live), changed in zip(names["loops"], names["changed"])}
        self.arms = {plain(entry[0]): arm for entry, arm in zip(names["places"], names["arms"])}

    def goal(self, old):
        word = plain(old)
        for prefix in ("overflow_", "nonzero_"):
            if word not in self.needs and word.startswith(prefix):
                word = word[len(prefix) :]
        return self.needs.get(word)

    def asked_at(self, index):
        return plain(self.names["asked_at"][index][0])

    def up(self, place, count):
        for _ in range(count):
            place = self.places[place][1] if place in self.places else None
            if place is None:
                return None
        return place

    def above(self, place):
        while place:
            yield place
            place = self.places[place][1] if place in self.places else None

    def step(self, place, parts):
        """The new path of an old one, a step and fields of it, at the place or above it."""
        word, fields = plain(parts[0]).lower(), parts[1:]
        best = None
        for at in self.above(place):
            arm = self.arms.get(at)
            for new, old, path in arm[2] if arm else ():
                if plain(old).lower() == word and fields[: len(path)] == path and (best is None or len(path) > best[0]):
                    best = len(path), [arm[0], new, *fields[len(path) :]]
        if best:
            return best[1]
        for at in self.above(place):
            if at in self.places and self.places[at][2].lower() == word:
                return [self.places[at][3], *fields]
        return None


CHAIN = re.compile(r"(?<![\w'.\-₀-₉])([A-Za-zα-ω][\w'₀-₉]*)((?:\.(?:[\w'«»₀-₉]+(?:-[\w'₀-₉]+)*))+)")


class Turner:
    """Turns the body of one answer or lemma, in which c stands at a place."""

    def __init__(self, function, place, said, typed_names, goal=None, used=None):
        self.f = function
        self.goal = goal
        self.used = used
        self.helpers = []
        is_goal = goal is not None
        self.place = place
        self.said = said
        self.is_goal = is_goal
        self.alias = {"c": (place, 0)}
        self.typed = typed_names

    def chain(self, head, parts, bound):
        place, _ = bound[head]
        at = 0
        while at < len(parts) and parts[at] == "before":
            at += 1
        rest = parts[at:]
        if not rest:
            return None, (self.f.up(place, at), at)
        first = rest[0].strip("«»")
        rest = [it.replace("type-inv", "type_inv").replace("well-formed", "well_formed") for it in rest]
        if plain(first) in ("args", "requires", "ranges", "well_formed", "type_inv"):
            return ".".join(["c"] + rest), None
        known = {plain(step): name for name, step in self.typed}
        turned = None
        for at in (place, self.place):
            for word in (first, re.sub("_lem$", "", first)):
                turned = turned or self.f.step(at, [word, *rest[1:]])
        if turned is None:
            self.said.append(f"no step {first} above {place}")
            return ".".join([head] + parts), None
        new = turned[0]
        if self.is_goal and plain(first) in known and len(rest) > 1 and rest[1] == "given":
            return ".".join(["c", "type_inv", known[plain(first)]] + rest[2:]), None
        if "_known" in new or "_told" in new:
            self.said.append(f"names {new}")
        return ".".join(["c", *turned]), None

    def labels(self, text, path, table):
        """Clauses by their names where a function has several of a kind."""
        text = self.fields(text)
        own = table.get(path, ((), ()))[0]
        if len(own) > 1:
            text = re.sub(r"(?<![\w'.])c\.requires\.(\d+)", lambda it: f"c.requires.{own[int(it[1])]}" if int(it[1]) < len(own) else it[0], text)
        steps = {step: table.get(callee, ((), ()))[1] for step, callee in self.f.callee.items()}
        alias = {it[1]: it[2] for it in re.finditer(r"let ([\w']+) = c\.([\w\-]+) in", text)}

        def put(it):
            step = alias.get(it[1], it[1][2:] if it[1].startswith("c.") else None)
            names = steps.get(step, ())
            at = int(it[2])
            return f"{it[1]}.ensures.{names[at]}" if len(names) > 1 and at < len(names) else it[0]

        return re.sub(r"(?<![\w'.\-])((?:c\.)?[\w\-']+)\.ensures\.(\d+)", put, text)

    def fields(self, text):
        """Fields of the repository's own records, which tools/respell.py gave underscores."""

        def put(it):
            parts = it[0].split(".")
            if parts[0] in ("goal", "tie"):
                return it[0]
            own = parts[0] != "c"
            for at, part in enumerate(parts):
                own = own or part in ("ensures", "invariant", "requires", "at")
                if at and own and "-" in part and re.fullmatch(r"[a-z]+(?:-[a-z]+)+", part):
                    parts[at] = plain(part)
            return ".".join(parts)

        return re.sub(r"(?<![\w'.\-])[A-Za-z][\w']*(?:\.[\w'\-]+)+", put, text)

    def bare(self, place, count):
        if self.goal and place in self.f.new_place:
            new = self.f.new_place[place]
            self.used.append(new)
            return f"(goal.at.{self.goal} c).{new}"
        return "c" + ".before" * count

    def text(self, body):
        """Body with each chain from a place spelled from c. Lets that only name a place go where nothing else needs them."""
        bound = {"c": (self.place, 0)}
        counts = {"c": 0}
        lines = body
        out = []
        pos = 0
        # Lets that name a place, in order.
        let = re.compile(r"let ([A-Za-z][\w'₀-₉]*) = ([A-Za-z][\w'₀-₉]*)((?:\.before)*) in(?:\s+|(?=\())")
        while True:
            it = let.search(lines, pos)
            if not it:
                break
            name, head, befores = it[1], it[2], it[3].count(".before")
            if head not in bound or (not befores and head == "c"):
                pos = it.end()
                continue
            place = self.f.up(bound[head][0], befores)
            bound[name] = (place, 0)
            counts[name] = counts[head] + befores
            lines = lines[: it.start()] + lines[it.end() :]
            pos = it.start()

        def put(it):
            head, parts = it[1], it[2][1:].split(".")
            if head not in bound:
                return it[0]
            new, place = self.chain(head, parts, bound)
            if new is not None:
                return new
            return self.bare(place[0], counts[head] + parts.count("before"))

        lines = CHAIN.sub(put, lines)
        if self.goal and self.helpers:
            # The place itself, passed on to a lemma.
            one = "|".join(re.escape(h) for h in self.helpers)
            lines = re.sub(rf"(?<![\w'.\-])({one}) c(?![\w'.\-])", lambda it: f"{it[1]} {self.bare(self.place, 0)}", lines)
        # A place that is passed on by its own name.
        for name in bound:
            if name != "c":
                alone = rf"(?<![\w'.\-«]){re.escape(name)}(?![\w'₀-₉\-:]|\s*=)"
                if re.search(alone, lines):
                    lines = re.sub(alone, self.bare(bound[name][0], counts[name]), lines)
        return lines


def blocks(text):
    """The head's comment and imports, and each declaration: its comment, signature, unfolding line and body."""
    lines = text.split("\n")
    head, at = [], 0
    while at < len(lines) and (lines[at].startswith(("--", "use ")) or not lines[at].strip()):
        if lines[at].startswith("--") and head and any(l.startswith("use ") for l in head):
            break
        head.append(lines[at])
        at += 1
    rest = "\n".join(lines[at:])
    return head, [b for b in re.split(r"\n\n+(?=\S)", rest.strip()) if b.strip()]


def parted(block):
    comment = []
    lines = block.split("\n")
    while lines and lines[0].startswith("--"):
        comment.append(lines.pop(0))
    text = "\n".join(lines)
    it = re.match(r"((?:pub |abbrev |unfoldable )*)(\S+)(?= ?:| \(| \{)", text)
    return comment, text, it[2] if it else None


def split_args(text):
    """The arguments of `tie.spec`, at the top level."""
    found, depth, word = [], 0, ""
    for ch in text:
        if ch in "([{":
            depth += 1
        if ch in ")]}":
            depth -= 1
            if depth < 0:
                break
        if ch.isspace() and depth == 0:
            if word:
                found.append(word)
            word = ""
        else:
            word += ch
    return found + ([word] if word else [])


def invariant(f, name, text, said):
    """An invariant or a measure over the record l."""
    it = re.match(r"(?:abbrev )?(?:pub )?(\S+) : tie\.(invariant|decreases)-(\S+)\n((?:unfolding .*\n)?)(\S+)((?: \S+)*?) =\s*(.*)\Z", text, re.S)
    if not it:
        return None
    kind, loop, unfolding, args, body = it[2], plain(it[3]), it[4], it[6].split(), it[7]
    if loop not in f.loops:
        said.append(f"no loop {loop}")
        return None
    new, live, changed = f.loops[loop]
    begun = {a[:-1] for a in args if a.endswith("₀")}
    table = {}
    for a in args:
        if a.endswith("₀"):
            table[a] = f"l.initial.{a[:-1]}"
        elif a in live or a.replace("_", "-") in live:
            table[a] = f"l.{a}"
        else:
            table[a] = f"l.fn.{a}"

    def put(it):
        return table.get(it[0], it[0])

    body = re.sub(r"(?<![\w'.\-«])[A-Za-zα-ω_][\w'₀-₉]*(?:-[\w'₀-₉]+)*", put, body)
    sep = "\n    " if "\n" in body or len(body) > 100 else " "
    return f"abbrev pub {kind}-{new} : goal.{kind}-{new}\n{unfolding}{kind}-{new} l ={sep}{body.strip()}\n"


def convert(crate, folder, names, table):
    path = os.path.join(folder, "Proof.antt")
    with open(path, encoding="utf-8") as it:
        text = it.read()
    inner = os.path.relpath(folder, f"crates/{crate}/proofs").replace("/", ".")
    rust = "::".join([crate, *inner.split(".")])
    key = f"Rattle-{crate}-proofs.{inner}.Lts"
    if key not in names:
        print(f"{path}: no names")
        return
    f = Function(names[key])
    said = []
    head, found = blocks(text)
    comment = [l for l in head if l.startswith("--")]
    uses = [l for l in head if l.startswith("use ") and ".Statement." not in l and not l.endswith(" as tie")]
    invariants, answers = [], []
    local = {}
    goals = {}
    spec = None
    helpers = []
    for block in found:
        com, body, name = parted(block)
        if name is None:
            said.append("unread: " + block.split("\n")[0])
            answers.append((None, block))
            continue
        if re.search(r"tie\.(invariant|decreases)-", body.split("\n")[0]):
            new = invariant(f, name, body, said)
            if new:
                invariants.append("\n".join(com + [new]) if com else new)
            else:
                said.append("unread: " + body.split("\n")[0])
            continue
        if "tie.spec" in body:
            spec = body[body.index("tie.spec") + 8 :]
            continue
        it = re.match(r"(\S+) : tie\.Need-(\S+)(?: \S+)*\n((?:unfolding .*\n)?)\1((?: [^=\s]+)*) =(\s.*)\Z", body, re.S)
        if it:
            goals[name] = it
            answers.append((name, (com, it)))
            continue
        answers.append((name, (com, body)))
        helpers.append(name)
    offered = {new for _, new in f.names["asked_at"]}
    ties = []
    all_text = []
    raw = {plain(entry[0]): entry[0] for entry in f.names["places"]}

    def typed_at(place):
        for index, entry in enumerate(f.names["places"]):
            if plain(entry[0]) == place:
                return f.names["typed"][index]
        return []

    order = [old for old, _ in f.names["needs"]]
    done, out = set(), []
    mentioned = "\n".join(b[1] if isinstance(b[1], str) else b[1][5] for _, b in answers if isinstance(b, tuple))
    renamed = {}
    for name, it in goals.items():
        goal = f.goal(it[2])
        if goal:
            renamed[name] = goal[0]
    for name in helpers:
        if "-" in name and name not in goals:
            renamed[name] = plain(name)
    inline = []
    if spec:
        inline = split_args(spec)

    def place_of(word):
        word = plain(word)
        return f.new_place.get(word)

    def branches(body):
        """An elimination of a sum where branches join, as one of the branches that came there."""
        found = re.search(r"⊎_elim\s+", body)
        if not found or ".branch" not in body:
            return body
        at, parts = found.end(), []
        while len(parts) < 3 and at < len(body):
            if body[at].isspace():
                at += 1
                continue
            start, depth = at, 0
            while at < len(body) and (depth or not (body[at].isspace() or body[at] in ")],;")):
                depth += body[at] in "([{"
                depth -= body[at] in ")]}"
                at += 1
            if at == start:
                break
            parts.append(body[start:at])
        if len(parts) < 3:
            return body
        it = re.match(r"c\.(if-[^.]+)\.branch\Z", parts[2])
        arms = [re.match(r"\(λ (?:\()?([\w]+)(?: : [^)]*\))?\. (.*)\)\Z", part, re.S) for part in parts[:2]]
        if not it or not all(arms):
            return body
        condition = it[1][3:]
        ties.extend([f"then-{condition}", f"else-{condition}"])
        names_ = set(re.findall(rf"c\.if-{re.escape(condition)}\.([a-z]\w*)", "\n".join(all_text))) - {"branch", "auto"}
        cases = []
        for word, arm in zip(("then", "else"), arms):
            inner = arm[2]
            if len(names_) == 1:
                inner = re.sub(rf"(?<![\w'.]){arm[1]}\.1(?![\w.])", f"{arm[1]}.{min(names_)}-is", inner)
            cases.append(f"{word}-{condition} {arm[1]} ↦ {inner}")
        return body[: found.start()] + f"elim {parts[2]} [ {' | '.join(cases)} ]" + body[at:]

    def respell(body):
        def put(it):
            new = place_of(it[1])
            if new is None:
                said.append(f"no place {it[1]}")
                return it[0]
            ties.append(new)
            return new

        body = re.sub(r"tie\.((?:After|Then|Else|At|In|Joined|Start|Arm)[\w\-]*)(?: invariant_\w+| decreases_\w+)*", put, body)
        body = re.sub(r"(?<![\w'.\-])[A-Za-z][\w']*(?:-[\w']+)*(?![\w'\-])", lambda w: renamed.get(w[0], w[0]), body)
        body = body.replace(".type-inv", ".type_inv").replace(".well-formed", ".well_formed")
        all_text.append(body)
        return branches(body)

    for name, what in answers:
        if name is None:
            out.append(what)
            continue
        com, it = what
        if isinstance(it, str):
            body = it
            at = re.search(r"\(c : tie\.([\w\-]+)", body)
            if at:
                place = plain(at[1])
                # In the type and in the body c stands at the same place.
                turner = Turner(f, place, said, typed_at(place))
                lines = body.split("\n")
                cut = next((i for i, l in enumerate(lines) if i and re.match(rf"{re.escape(name)}(?: |$)", l)), 1)
                body = turner.text("\n".join(lines[:cut])) + "\n" + turner.text("\n".join(lines[cut:]))
                body = turner.labels(body, rust, table)
            out.append("\n".join(com + [respell(body)]))
            continue
        goal = f.goal(it[2])
        if goal is None:
            if it[5].strip() not in TRIVIAL:
                said.append(f"no goal {it[2]} (settled?)")
            continue
        new, index = goal
        done.add(new)
        body = it[5].rstrip("\n")
        used = re.search(rf"(?<![\w'\-.]){re.escape(name)}(?![\w'\-])", mentioned)
        if body.strip() in TRIVIAL and not (used and len(re.findall(rf"(?<![\w'\-.]){re.escape(name)}(?![\w'\-])", mentioned)) > 0):
            continue
        place = f.asked_at(index)
        args = it[4].split()
        if args and args[-1] == "κs":
            args = args[:-1]
        turner = Turner(f, place, said, typed_at(place), new, ties)
        turner.helpers = [h for h in helpers if h not in goals]
        text_ = turner.text(body)
        text_ = turner.labels(respell(text_), rust, table)
        if not text_.startswith("\n"):
            text_ = "\n    " + text_.strip() if "\n" in text_.strip() else " " + text_.strip()
        out.append("\n".join(com + [f"pub {new} : goal.{new}", it[3] + f"{new}{''.join(' ' + a for a in args)} ={text_}"]))
    # Answers that stood in the list of the walk itself.
    loops = 2 * len(f.loops)
    listed = inline[loops:]
    last = -1
    for position, word in enumerate(listed):
        if word in goals:
            goal = f.goal(goals[word][2])
            last = goal[1] if goal else last
            continue
        it = re.match(r"\(λ ((?:\S+ )*?)?(\S+)\. (.*)\)\Z", word, re.S)
        if not it:
            said.append(f"in the list: {word[:60]}")
            continue
        if it[3].strip() in TRIVIAL:
            continue
        following = [f.goal(goals[w][2])[1] for w in listed[position + 1 :] if w in goals and f.goal(goals[w][2])]
        upto = following[0] if following else len(order)
        free = [i for i in range(last + 1, upto) if f.names["needs"][i][1] not in done]
        run = [w for w in listed[position:] if w not in goals or not f.goal(goals[w][2])]
        # Only where it is plain which one is meant.
        before = 0
        at = position - 1
        while at >= 0 and listed[at] not in goals:
            before += 1
            at -= 1
        after = 0
        at = position + 1
        while at < len(listed) and listed[at] not in goals:
            after += 1
            at += 1
        span = [i for i in range(last + 1, upto)]
        if len(span) == before + after + 1:
            index = span[before]
            new = f.names["needs"][index][1]
            place = f.asked_at(index)
            turner = Turner(f, place, said, typed_at(place), new, ties)
            out.append(f"pub {new} : goal.{new}\n{new} c = {turner.labels(respell(turner.text(it[3])), rust, table)}")
            done.add(new)
        else:
            said.append(f"in the list, not placed: {word[:80]}")
    if any("to_z-of_z" in u and ("Common" in u or "Math.Facts" in u) for u in uses):
        out = [o.replace("to_z-of_z (", "to_z-of_z {w = w64} (") for o in out]
        if any("{w = w64}" in o for o in out) and not any(re.search(r"\bw64\b", u) for u in uses):
            uses.append("use Rattle.std.specs.Int.{w64}")
    os.remove(path)
    module = f"Rattle.{crate}.proofs.{inner}"
    if invariants:
        with open(os.path.join(folder, "Invariants.antt"), "w", encoding="utf-8") as to:
            to.write("\n".join(comment + uses + [f"use {module}.Given as goal", ""] + ["\n".join(invariants)]).rstrip() + "\n")
    if out:
        with open(os.path.join(folder, "Answers.antt"), "w", encoding="utf-8") as to:
            more = [f"use {module}.Goals.{{{', '.join(sorted(set(ties)))}}}"] if ties else []
            to.write("\n".join(comment + uses + [f"use {module}.Goals as goal"] + more + ["", "\n\n".join(out)]).rstrip() + "\n")
    for line in said:
        print(f"{folder}: {line}")


def main():
    where, crates = sys.argv[1], sys.argv[2:]
    table = clauses()
    for crate in crates:
        with open(f"{where}/crates/{crate}/names.json", encoding="utf-8") as it:
            names = json.load(it)
        for folder, _, files in sorted(os.walk(f"crates/{crate}/proofs")):
            if "Proof.antt" in files and "/+" not in folder:
                convert(crate, folder, names, table)


if __name__ == "__main__":
    main()
