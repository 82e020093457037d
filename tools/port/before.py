#!/usr/bin/env python3
"""What has to be so before /opt/rattle/port/port.py: a `src` that is a link becomes a copy, and the constructor `result` of Outcome is
called `outcome`, since a clause calls what a function returns `result`.

usage: tools/port/before.py, at the top of the repository
"""
import pathlib, re, shutil

ROOT = pathlib.Path.cwd()
WORD = re.compile(r"(?<![\w.\-·′])result(?![\w\-′])")
CLAUSE = re.compile(r"^\s*(?:ghost use|requires|ensures)\b|⌜")


def of_a_proof(line):
    """A line of specs/ or proofs/ with the other name; what the kit's records call .result stays."""
    text, dash, comment = line.partition("--")
    return WORD.sub("outcome", text) + dash + comment


def of_code(line):
    return WORD.sub("outcome", line) if CLAUSE.search(line) and not line.lstrip().startswith("//") else line


def of_an_edit(lines):
    code = None
    for line in lines:
        if line.startswith("file: "):
            code = line.rstrip().endswith(".rt")
        if line.startswith(("old: ", "new: ")):
            head, body = line[:5], line[5:]
            line = head + (of_code(body) if code else of_a_proof(body))
        yield line


def main():
    for link in sorted(ROOT.glob("crates/*/src")):
        if link.is_symlink():
            target = link.resolve()
            link.unlink()
            shutil.copytree(target, link)
    for file in sorted(ROOT.glob("crates/**/*")):
        if not file.is_file() or "out" in file.relative_to(ROOT).parts:
            continue
        if file.suffix not in (".antt", ".rt", ".edit"):
            continue
        lines = file.read_text().splitlines(keepends=True)
        if file.suffix == ".edit":
            turned = list(of_an_edit(lines))
        else:
            turned = [of_a_proof(line) if file.suffix == ".antt" else of_code(line) for line in lines]
        if turned != lines:
            file.write_text("".join(turned))


main()
