#!/usr/bin/env python3
"""Each signature, clause, definition and edit that differs between two states, old and new side by side, as markdown.

    tools/design/changed.py OLD NEW

OLD and NEW are folders with crates/. What is found again, and where, is said by the kit's port/contracts.py; the statements of lemmas in proofs/
are compared here.
"""
import json
import re
import subprocess
import sys
from pathlib import Path

OLD, NEW = map(Path, sys.argv[1:3])
KIT = "/opt/rattle/port/contracts.py"
found = json.loads(subprocess.run([sys.executable, KIT, str(OLD), str(NEW), "--json"], capture_output=True, text=True, check=True).stdout)


def clauses(some):
    return " · ".join((f"{name}: " if name else "") + " ".join(text.split()) for name, text in some) or "none"


def row(title, old, new):
    print(f"- {title}")
    print(f"  - old `{' '.join(old.split())}`")
    print(f"  - new `{' '.join(new.split())}`")


print(f"\n### Signatures ({len(found['signatures changed'])})\n")
for name, old, new in found["signatures changed"]:
    row(name, old, new)
print(f"\n### Clauses ({len(found['contracts changed'])})\n")
for name, old_requires, old_ensures, new_requires, new_ensures in found["contracts changed"]:
    print(f"- {name}")
    if clauses(old_requires) != clauses(new_requires):
        print(f"  - old requires `{clauses(old_requires)}`")
        print(f"  - new requires `{clauses(new_requires)}`")
    if clauses(old_ensures) != clauses(new_ensures):
        print(f"  - old ensures `{clauses(old_ensures)}`")
        print(f"  - new ensures `{clauses(new_ensures)}`")
print(f"\n### Functions of which none is found under that name ({len(found['functions not found again'])})\n")
for name in found["functions not found again"]:
    print(f"- {name}")
for what in ("ghost items and constants", "definitions"):
    part = found[what]
    changed, gone = part.get("changed", []), part.get("gone", [])
    print(f"\n### {what.capitalize()}: {len(changed)} changed, {len(gone)} gone\n")
    for *name, old, new in changed:
        row(" ".join(name), old if isinstance(old, str) else " ".join(old), new if isinstance(new, str) else " ".join(new))
    for name in gone:
        print(f"- gone: {name if isinstance(name, str) else ' '.join(name)}")


def lemmas(root):
    """The statements of the pub lemmas that lie right in proofs/ or in a folder of laws there, by crate and name. Those of a module, and the fields of a record, stand
    further in; what follows a statement stands further in than it."""
    stated = {}
    for path in sorted(root.glob("crates/*/proofs/**/*.antt")):
        if path.name in ("Answers.antt", "Invariants.antt", "Proof.antt", "Lib.antt") and path.parent.name != "proofs":
            continue
        crate = path.relative_to(root).parts[1]
        for m in re.finditer(r"^( *)(?:abbrev |unfoldable )?pub (\w[^\s:]*) : (.*(?:\n\1    .*)*)", path.read_text(), re.M):
            stated.setdefault((crate, m.group(2)), []).append(" ".join(m.group(3).split()))
    return stated


old, new = lemmas(OLD), lemmas(NEW)
changed = [(k, old[k], new[k]) for k in sorted(old) if k in new and sorted(old[k]) != sorted(new[k])]
gone = [k for k in sorted(old) if k not in new]
print(f"\n### Lemmas of proofs/: {len(changed)} changed, {len(gone)} gone\n")
for (crate, name), a, b in changed:
    row(f"{crate} {name}", " · ".join(x for x in a if x not in b) or "none besides", " · ".join(x for x in b if x not in a) or "none besides")
for crate, name in gone:
    print(f"- gone: {crate} {name}")
