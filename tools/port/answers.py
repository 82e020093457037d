#!/usr/bin/env python3
"""Turns the proofs of functions from a walk (`Proof.antt`) to Invariants.antt and Answers.antt.

usage: tools/port/answers.py CRATE NAMES.json [FUNCTION..], at the top of the repository

NAMES.json is what `rt check --generated FOLDER --old-names` writes of the crate. A path through the places of a walk, as
`c.before.before.loop.invariant`, becomes the field of the step, as `c.loop-i.invariant`; a `let` that names a place goes. What is answered
by the search alone is left out. Lines with LOOK are to be done by hand.
"""
import json, pathlib, re, sys

ROOT = pathlib.Path.cwd()
NAME = r"[^\W\d][\w\-'₀-₉]*"
PATH = re.compile(r"(?<![\w.\-'])(" + NAME + r")((?:\.[\w\-'₀-₉·]+)*)")
TRIVIAL = {"search rules", "tt", "(search rules)"}
looks = []


def norm(name):
    return name.replace("-", "_")


class Walk:
    def __init__(self, data):
        self.places = data["places"]
        self.index = {place[0]: number for number, place in enumerate(self.places)}
        self.arms = data["arms"]
        self.needs = data["needs"]
        self.asked_at = [at for at, _ in data["asked_at"]]
        self.loops = data["loops"]
        self.changed = data["changed"]
        self.typed = data["typed"]

    def goal(self, word):
        for number, (old, new) in enumerate(self.needs):
            if norm(old) == norm(word):
                return number
        return None

    def resolve(self, place, fields):
        """A place, or the path in today's form; None where it is not told."""
        fields = list(fields)
        while fields and fields[0] == "before":
            parent = self.places[place][1]
            if parent is None:
                return None
            place = self.index[parent]
            fields.pop(0)
        if not fields:
            return place
        step, rest = fields[0], fields[1:]
        here = self.places[place]
        if here[1] is None:
            first = {"pre": "requires", "fits": "ranges", "good": "ranges"}.get(fields[0], fields[0])
            return ".".join(["c", first, *fields[1:]])
        arm = self.arms[place]
        if arm:
            for name, old, path in sorted(arm[2], key=lambda it: -len(it[2])):
                if norm(old) == norm(step) and rest[: len(path)] == path and path:
                    return ".".join(["c", arm[0], name, *rest[len(path) :]])
        if norm(here[2][0]) == norm(step):
            if rest:
                rest[0] = {"taken": "true", "left": "false", "inv": "invariant", "entry": "initial", "kept": "auto", "last": "new"}.get(rest[0], rest[0])
            known = {norm(old): name for name, old in self.typed[place]}
            if rest and rest[0] == "given" and norm(step) in known:
                return ".".join(["c.type_inv", known[norm(step)], *rest[1:]])
            return ".".join(["c", here[2][1], *rest])
        return None


def body_of(walk, place, text, where):
    env = {"c": place}

    def path(found):
        word, fields = found[1], found[2].split(".")[1:]
        if word not in env:
            return found[0]
        got = walk.resolve(env[word], fields)
        if isinstance(got, str):
            return got
        looks.append(f"{where}: {found[0]}")
        return f"LOOK {found[0]}" if got is None else f"LOOK-PLACE {found[0]}"

    out, at = [], 0
    lets = re.compile(r"let (" + NAME + r") = (" + NAME + r")((?:\.before)*) in\s*")
    while True:
        found = lets.search(text, at)
        piece = text[at : found.start()] if found else text[at:]
        out.append(PATH.sub(path, piece))
        if not found:
            break
        word, start, befores = found[1], found[2], found[3].split(".")[1:]
        got = walk.resolve(env[start], befores) if start in env else None
        if isinstance(got, int):
            env[word] = got
        else:
            env.pop(word, None)
            out.append(PATH.sub(path, found[0]))
        at = found.end()
    # a test of `!x` says now what x is
    return re.sub(r"\(?not-(?:true|false) _ \(?(c\.[\w\-']*if-not-[\w\-]*\.(?:true|false))\)?(?(1))", told, "".join(out)).rstrip()


def told(found):
    text, path = found[0], found[1]
    opened, closed = text.count("("), text.count(")")
    return "(" * max(opened - closed, 0) + path + ")" * max(closed - opened, 0)


def invariant_of(walk, number, params, text):
    """The body of an invariant with l's fields in place of parameters."""
    live, changed = walk.loops[number][1], walk.changed[number]
    fields = {}
    names = params.split()
    wanted = len(live) + sum(changed)
    if len(names) != wanted:
        looks.append(f"{len(names)} parameters for {wanted}: {params}")
    after = [name for name, is_changed in zip(live, changed) if is_changed]
    for name, param in zip(live, names):
        fields[param] = f"l.initial.{name}" if name in after else f"l.{name}"
    for name, param in zip(after, names[len(live) :]):
        fields[param] = f"l.{name}"

    def name(found):
        word, rest = found[1], found[2]
        if word in fields and not re.match(r"\s=\s", found.string[found.end() :]):
            return fields[word] + rest
        return found[0]

    return PATH.sub(name, text)


def split_top(text):
    """The arguments of tie.spec."""
    found, depth, word = [], 0, ""
    for sign in text:
        if sign in "([{":
            depth += 1
        if sign in ")]}":
            depth -= 1
            if depth < 0:
                break
        if sign.isspace() and depth == 0:
            if word:
                found.append(word)
            word = ""
        else:
            word += sign
    if word:
        found.append(word)
    return found


def declarations(text):
    """The head of a file, and its declarations, each from its comment to its end."""
    lines = text.split("\n")
    start = 0
    while start < len(lines) and (lines[start].startswith(("--", "use ", "pub use ")) or not lines[start].strip()):
        start += 1
    head, blocks, block = lines[:start], [], []
    for line in lines[start:]:
        if not line.strip():
            if block:
                block.append(line)
            continue
        # a declaration begins with a line at the margin behind an empty one
        if block and not block[-1].strip() and not line.startswith(" "):
            blocks.append(block)
            block = []
        block.append(line)
    if block:
        blocks.append(block)
    return head, ["\n".join(block).rstrip() for block in blocks]


def convert(crate, function, data):
    folder = ROOT / "crates" / crate / "proofs" / function.replace(".", "/")
    source = folder / "Proof.antt"
    if not source.exists():
        return
    where = f"{crate}.{function}"
    walk = Walk(data)
    head, blocks = declarations(source.read_text())
    comments = [line for line in head if line.startswith("--")]
    uses = [line for line in head if line.startswith(("use ", "pub use ")) and ".Statement." not in line and not line.endswith(" as tie")]
    module = f"Rattle.{crate}.proofs.{function}"
    helpers, answers, invariants, seen = [], [], [], set()
    spec = ""
    by_name = {}
    for block in blocks:
        text = "\n".join(line for line in block.split("\n") if not line.startswith("--"))
        first = text.lstrip().split("\n")[0]
        if re.match(r"(pub )?\w[\w']*_spec : \{M", first) or "tie.close" in text:
            spec = text
        elif found := re.match(r"abbrev (\S+) : tie\.(invariant|decreases)-(\S+)", first):
            by_name[found[1]] = (found[2], found[3])
            rest = text.split("\n", 1)[1]
            unfold = ""
            while rest.startswith("unfolding"):
                line, rest = rest.split("\n", 1)
                unfold += line + "\n"
            said = re.match(r"(\S+)((?: \S+)*?) =(?=\s)(.*)\Z", rest, re.S)
            number = next((k for k, it in enumerate(walk.loops) if norm(it[0][0]) == norm(found[3])), None)
            if number is None or not said:
                looks.append(f"{where}: loop {found[3]} is not known")
                invariants.append("-- LOOK\n" + text)
                continue
            new = f"{found[2]}-{walk.loops[number][0][1]}"
            body = invariant_of(walk, number, said[2], said[3])
            invariants.append(f"abbrev pub {new} : goal.{new}\n{unfold}{new} l ={body}")
        elif found := re.match(r"(\S+) : tie\.Need-(\S+)", first):
            number = walk.goal(found[2])
            rest = text.lstrip().split("\n", 1)[1]
            unfold = ""
            while rest.startswith("unfolding"):
                line, rest = rest.split("\n", 1)
                unfold += line + "\n"
            said = re.match(r"(\S+) c(?: κs\d*)* =(?=\s)(.*)\Z", rest, re.S)
            comment = "".join(line + "\n" for line in block.split("\n") if line.startswith("--"))
            if said and said[2].strip() in TRIVIAL:
                continue
            if number is None or not said:
                looks.append(f"{where}: goal {found[2]} is not known and left out")
                continue
            new = walk.needs[number][1]
            place = walk.index[walk.asked_at[number]]
            body = body_of(walk, place, said[2], where + "." + new)
            answers.append(f"{comment}pub {new} : goal.{new}\n{unfold}{new} c ={body}")
            seen.add(number)
        else:
            helpers.append(block)
    # what tie.spec is given in place
    found = re.search(r"tie\.spec(.*)\Z", spec, re.S)
    given = split_top(found[1]) if found else []
    given = [it for it in given if it not in by_name]
    if len(given) == len(walk.needs):
        for number, it in enumerate(given):
            lam = re.match(r"\(λ c(?: κs\d*)*\. (.*)\)\Z", it, re.S)
            if lam and lam[1].strip() not in TRIVIAL and number not in seen:
                new = walk.needs[number][1]
                body = body_of(walk, walk.index[walk.asked_at[number]], lam[1], where + "." + new)
                unfold = "".join(line + "\n" for line in spec.split("\n") if line.startswith("unfolding"))
                answers.append(f"pub {new} : goal.{new}\n{unfold}{new} c = {body}")
    else:
        odd = [it for it in given if it.startswith("(λ") and not re.search(r"\. (tt|search rules)\)\Z", it)]
        if odd:
            looks.append(f"{where}: {len(given)} given, {len(walk.needs)} wanted: {odd}")
    source.unlink()
    top = "\n".join(comments)

    # a helper goes where it is used; what the invariants need is there, and the answers import it
    def write(name, parts, goal, more, imported=()):
        if parts:
            lines = [*uses, *([f"use {module}.Invariants.{{{', '.join(imported)}}}"] if imported else []), f"use {module}.{goal} as goal"]
            use = "\n".join(lines)
            text = "\n\n".join([top + "\n" + use if top else use, *more, *parts]) + "\n"
            (folder / name).write_text(text)

    named = {number: names_of(helper) for number, helper in enumerate(helpers)}
    for_loops = reached(named, helpers, "\n".join(invariants))
    for_answers = reached(named, helpers, "\n".join(answers)) - for_loops
    used = "\n".join([*answers, *(helpers[k] for k in for_answers)])
    imported = [name for k in sorted(for_loops) for name in named[k] if mentions(used, name)]
    write("Invariants.antt", invariants, "Given", [opened(helpers[k]) for k in sorted(for_loops)])
    write("Answers.antt", answers, "Goals", [helpers[k] for k in sorted(for_answers)], imported)
    if len(for_loops | for_answers) < len(helpers):
        looks.append(f"{where}: {len(helpers) - len(for_loops | for_answers)} helpers are left out")


def mentions(text, name):
    return re.search(r"(?<![\w.\-'])" + re.escape(name) + r"(?![\w\-'])", text)


def names_of(helper):
    lines = [line for line in helper.split("\n") if not line.strip().startswith("--")]
    if lines and lines[0].startswith("module _"):
        body = "\n".join(lines)
        # a section in a section too
        names = re.findall(r"^(?:  )+(?:abbrev |unfoldable )?(?:pub )?(?:record |data )?(\S+) (?:\(.*\) )?: ", body, re.M)
        return list(dict.fromkeys(names))
    found = re.match(r"(?:abbrev |unfoldable )?(?:pub )?(?:record |data )?(\S+)", lines[0]) if lines else None
    names = [found[1]] if found else []
    if lines and re.match(r"(pub )?data ", lines[0]):
        names += re.findall(r"^  (\S+) : ", helper, re.M)
    if lines and lines[0].startswith("open "):
        names = re.findall(r"[\w\-']+", lines[0].partition("{")[2])
    return names


def reached(named, helpers, text):
    need, grew = set(), True
    while grew:
        grew = False
        for number, names in named.items():
            if number not in need and any(mentions(text, name) for name in names):
                need.add(number)
                text += "\n" + helpers[number]
                grew = True
    return need


def opened(helper):
    """A helper whose names other files may have."""
    lines, in_record = [], None
    margin = "  " if helper.lstrip().startswith("module _") or "\nmodule _" in helper else ""
    for line in helper.split("\n"):
        indent = len(line) - len(line.lstrip())
        if in_record is not None and line.strip() and indent <= in_record:
            in_record = None
        if re.match(r"\s*(pub )?record .* where", line):
            in_record = indent
        elif in_record is not None and indent == in_record + 2 and " : " in line and not line.lstrip().startswith(("pub ", "--")):
            line = " " * indent + "pub " + line.lstrip()
        found = re.match(r"((?:  )*)((?:abbrev |unfoldable )?)((?:record |data )?)(\S+ (?:\(.*\) )?: .*|\S+ :)\Z", line)
        if found and " pub " not in line and not line.lstrip().startswith(("pub ", "--", "module ")) and (found[1] == margin or margin and len(found[1]) <= 4 and not found[4].startswith("→")):
            line = f"{found[1]}{found[2]}pub {found[3]}{found[4]}"
        lines.append(line)
    return "\n".join(lines)


def main():
    crate, names, *functions = sys.argv[1:]
    data = json.loads(pathlib.Path(names).read_text())
    head = f"Rattle-{crate}-proofs."
    for key, value in data.items():
        if key.startswith(head) and key.endswith(".Lts"):
            function = key[len(head) : -4]
            if not functions or function in functions:
                convert(crate, function, value)
    for line in looks:
        print("look:", line)


main()
