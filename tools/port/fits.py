#!/usr/bin/env python3
"""Whether the edits, those of the gate (must-fail/) and those outside it (edits/), still fit the text: each old text stands once in its file, in turn.

usage: tools/port/fits.py, at the top of the repository
"""
import pathlib, sys

ROOT = pathlib.Path.cwd()


def misfit(edit):
    crate, texts, file = edit.relative_to(ROOT).parts[1], {}, None
    for line in edit.read_text().split("\n"):
        word, _, text = line.partition(": ")
        if word == "file":
            file = ROOT / "crates" / crate / text.strip()
        if word == "old":
            old = text
        if word == "new":
            here = texts.get(file) or file.read_text()
            if here.count(old) != 1:
                return f"{old!r} stands {here.count(old)} times in {file.relative_to(ROOT)}"
            texts[file] = here.replace(old, text, 1)
    return None if texts else "it changes nothing"


def main():
    edits = sorted(ROOT.glob("crates/*/must-fail/*.edit")) + sorted(ROOT.glob("crates/*/edits/**/*.edit"))
    bad = {edit: why for edit in edits if (why := misfit(edit))}
    for edit, why in bad.items():
        print(f"{edit.relative_to(ROOT)}: {why}")
    print(f"{len(edits) - len(bad)} passed, {len(bad)} failed")
    sys.exit(bool(bad))


main()
