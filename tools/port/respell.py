#!/usr/bin/env python3
"""Brings the repository's own definitions and lemmas to today's spelling, behind /opt/rattle/port/port.py: words in snake case. Types,
modules, Rust's names and the kit's keep theirs.

usage: tools/port/respell.py, at the top of the repository

Where a lemma would get the name of a definition, or of a word of the kit, it gets `_lem` behind it. Edits are left as they are.
It prints each name that it gave that way.
"""
import collections, pathlib, re

ROOT = pathlib.Path.cwd()
OWN = sorted(path.name for path in (ROOT / "crates").iterdir())
PART = r"[^\s(){}\[\].;,λ\"|↦`:=]+"
IMPORT = re.compile(r"^(?:pub )?use ([\w.·+\-]+)\.\{(.*)\}")
DECLARED = re.compile(r"(?:^|[\s({])(?:abbrev |unfoldable )?(?:pub )?(?:record |data )?([^\s(){}:;,.]+)(?: [^\s(){}:;,.=]+)*\s+:\s")
BOUND = re.compile(r"let ([^\s(){}:;,.]+) (?:=|:)")
FIELD = re.compile(r"^\s+([^\s(){}:;,.]+)\s*:\s")


def antt_files():
    return [path for path in sorted(ROOT.glob("crates/*/*/**/*.antt")) if path.relative_to(ROOT).parts[2] in ("specs", "proofs")]


def code(line):
    """A line and its comment."""
    found = re.search(r"(?:^|\s)--", line)
    return (line, "") if not found else (line[: found.start()], line[found.start() :])


def is_camel(name):
    return re.match(r"[a-z]", name) and re.search(r"[a-z0-9][A-Z]", name)


def is_dashed(name):
    return re.match(r"[^\W\d_A-Z]", name) and re.search(r"\w-\w", name)


def snake(name):
    name = re.sub(r"(?<=\w)-(?=\w)", "_", name)
    return re.sub(r"(?<=[a-z0-9])([A-Z])", lambda m: "_" + m[1].lower(), name)


def imports(line):
    """The module and the names of a line that imports, each as it is there and as it is called here."""
    found = IMPORT.match(line)
    if found:
        for item in found[2].split(","):
            there, _, here = item.strip().partition(" as ")
            yield found[1], there, here


def is_own(module):
    return any(module.startswith(f"Rattle.{crate}.") for crate in OWN)


def survey():
    """The declared names, each with the files; the names of record fields; the kit's names, by file."""
    declared, fields, kit = collections.defaultdict(set), set(), collections.defaultdict(set)
    for path in antt_files():
        inside = False
        for line in path.read_text().splitlines():
            line = code(line)[0]
            if IMPORT.match(line):
                for module, there, here in imports(line):
                    if not is_own(module):
                        kit[path].add(here or there)
                    if here:
                        declared[here].add(path)
                continue
            for pattern in (DECLARED, BOUND):
                for found in pattern.finditer(line):
                    declared[found[1]].add(path)
            if re.match(r"\s*(?:pub )?record .*where", line):
                inside = True
            elif not line.startswith(" ") and line.strip():
                inside = False
            if inside and (found := FIELD.match(line)):
                fields.add(found[1])
    return declared, fields, kit


def naming(declared, kit):
    """New names by old ones."""
    words = set().union(*kit.values())
    camels = {name: snake(name) for name in declared if is_camel(name)}
    new = dict(camels)
    for name in set(camels.values()) & declared.keys():
        new[name] = name + "_lem"
    for name in declared:
        if is_dashed(name):
            to = snake(name)
            new[name] = to + "_lem" if to in camels.values() or to in declared or to in words else to
    return new


def turned(text, new, fields, kept, loose=False):
    """A text with the new names; behind a dot only fields are renamed. Loose text is prose: a name with dashes is one in backticks alone."""

    def name(found):
        dot, word = found[1], found[2]
        if word not in new or word in kept or dot and word not in fields:
            return found[0]
        if loose and not is_camel(word) and not (found.string[found.start() - 1 : found.start()] == "`" or found[1]):
            return found[0]
        return dot + new[word]

    return re.sub(r"(\.?)(" + PART + ")", name, text)


def line_of_antt(line, new, fields, kept):
    found = IMPORT.match(line)
    if found:
        module = found[1]
        if is_own(module):
            return line.replace("{" + found[2] + "}", "{" + turned(found[2], new, fields, set()) + "}", 1)
        return re.sub(r" as (" + PART + ")", lambda m: " as " + new.get(m[1], m[1]), line)
    text, comment = code(line)
    return turned(text, new, fields, kept) + turned(comment, new, fields, set(), loose=True)


def line_of_rust(line, new, fields):
    at = line.find("//")
    text, comment = (line, "") if at < 0 else (line[:at], line[at:])
    return turned(text, new, fields, set()) + turned(comment, new, fields, set(), loose=True)


def rust_names(new):
    """Names that Rust text may have: those with a dash are clauses' alone, and are never in Rust."""
    return {name: to for name, to in new.items() if is_camel(name) or is_dashed(name)}


def main():
    declared, fields, kit = survey()
    new = naming(declared, kit)
    in_rust = rust_names(new)
    for path in antt_files():
        lines = path.read_text().split("\n")
        kept = kit[path]
        text = "\n".join(line_of_antt(line, new, fields, kept) for line in lines)
        path.write_text(text)
    for path in sorted(ROOT.glob("crates/*/src/**/*.rt")):
        path.write_text("\n".join(line_of_rust(line, in_rust, fields) for line in path.read_text().split("\n")))
    for name, to in sorted(new.items()):
        if to.endswith("_lem"):
            print(f"{name}: {to}")


main()
