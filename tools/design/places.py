#!/usr/bin/env python3
"""Places in crates/*/src where a form of the language could be plainer, counted by their text.

    tools/design/places.py [--list] [COMMIT]

Of the files as they stand, or of a commit. With --list each place is named. What a pattern cannot see a reader has to; docs/DESIGN-PASS.md has
both.
"""
import difflib
import re
import subprocess
import sys
from collections import defaultdict
from pathlib import Path

ROOT = Path(__file__).resolve().parents[2]
listing = "--list" in sys.argv
commit = next((a for a in sys.argv[1:] if not a.startswith("-")), None)


def files():
    if commit is None:
        for path in sorted(ROOT.glob("crates/*/src/**/*.rt")):
            yield str(path.relative_to(ROOT)), path.read_text()
        return
    names = subprocess.run(["git", "ls-tree", "-r", "--name-only", commit, "crates"], cwd=ROOT, capture_output=True, text=True, check=True).stdout
    for name in sorted(names.splitlines()):
        if re.match(r"crates/[^/]+/src/.*\.rt$", name):
            yield name, subprocess.run(["git", "show", f"{commit}:{name}"], cwd=ROOT, capture_output=True, text=True, check=True).stdout


class Function:
    def __init__(self, file, line, head, body):
        self.file, self.line, self.head, self.body = file, line, head, body
        self.name = re.search(r"\bfn (\w+)", head).group(1)
        inside = head[head.index("(") + 1:]
        depth, end = 1, 0
        while depth:
            depth += {"(": 1, ")": -1}.get(inside[end], 0)
            end += 1
        # a comma inside of <> or [] separates no parameters
        flat, depth = "", 0
        for c in inside[: end - 1]:
            depth += {"<": 1, "[": 1, "(": 1, ">": -1, "]": -1, ")": -1}.get(c, 0)
            flat += ";" if c == "," and depth <= 0 else c
        self.parameters = [re.sub(r"\s+", " ", p).strip() for p in flat.split(";") if p.strip()]
        self.requires = re.findall(r"requires(?: \w+)? \{ (.*?) \}\n", head, re.S)

    def place(self):
        return f"{self.file}:{self.line} {self.name}"


def functions(name, text):
    lines = text.split("\n")
    i = 0
    while i < len(lines):
        found = re.match(r"(\s*)(?:pub(?:\([a-z]+\))? )?(?:extern \"C\" )?(?:final )?fn \w+", lines[i])
        if not found:
            i += 1
            continue
        indent = found.group(1)
        start = i
        if lines[i].endswith(";"):
            i += 1
            continue
        while not (lines[i] in (indent + "{", indent + "{}") or lines[i].startswith(indent) and lines[i].endswith("{") and not re.search(r"(requires|ensures)\b", lines[i]) and lines[i].count("{") > lines[i].count("}")):
            i += 1
        head = "\n".join(lines[start:i + 1])
        opened = i
        while lines[i] not in (indent + "}", indent + "{}"):
            i += 1
        yield Function(name, start + 1, head, "\n".join(lines[opened + 1:i]))
        i += 1


every = [(name, text) for name, text in files()]
texts = {name: re.sub(r"(?m)^\s*//.*$", "", text) for name, text in every}
all_functions = [f for name, text in every for f in functions(name, text)]
counts = {}


def count(point, what, places):
    places = list(places)
    counts.setdefault(point, []).append((what, len(places)))
    print(f"{point}  {len(places):4}  {what}")
    if listing:
        for place in places:
            print(f"        {place}")


def matches(pattern, only=lambda name: True):
    for name, text in texts.items():
        if only(name):
            for m in re.finditer(pattern, text, re.M):
                yield f"{name}:{text.count(chr(10), 0, m.start()) + 1} {m.group(0).strip()[:90]}"


# 1
enums = [(n, m) for n, t in texts.items() for m in re.finditer(r"^\s*(?:pub )?enum (\w+) \{\n(.*?)\n\}", t, re.M | re.S)]
count(1, "own enums of which a variant holds a value", (f"{n} {m.group(1)}" for n, m in enums if re.search(r"\w+(\(| \{)", m.group(2))))
structs = [(n, m) for n, t in texts.items() for m in re.finditer(r"^\s*(?:pub(?:\([a-z]+\))? )?struct (\w+)[^\n]*\{\n(.*?)\n\}", t, re.M | re.S)]
count(1, "flags beside values in a struct", (f"{n} {m.group(1)}.{b}" for n, m in structs if len(re.findall(r":", m.group(2))) > 1 and re.search(r": (?!bool)", m.group(2)) for b in re.findall(r"(\w+): bool", m.group(2))))
count(1, "uses of a number that stands for no number", matches(r".*(\b(UNUSED|BLANK|WRONG)\b(?!:)|\.k [!=]= 0|== 0x7ff8).*", lambda n: True))
count(1, "numbers for kinds, operations and refusals", matches(r"\b(operation|family|kind|status|got|refusal)\b: (u8|u32|u64|f64)\b|\bfn (number|kind_number|refusal|hit_status|flag_number|front_flag|number_count|slot_count)\b"))


# 2
def shape(f):
    text = re.sub(r"(requires|ensures)[^\n]*", "", f.head) + f.body
    text = re.sub(r"\b" + f.name + r"\b", "F", text)
    text = re.sub(r"\b(f64|f32|u8|u32|u64|usize|i32|i64)\b", "N", text)
    text = re.sub(r"\b(Vec3d|Vec4d|Vec3i)\b", "V", text)
    text = re.sub(r"\b(0x)?[0-9][0-9a-f_.]*\b", "0", text)
    return re.findall(r"\w+|[^\w\s]", text)


shaped = [(f, shape(f)) for f in all_functions if f.body.count("\n") >= 2]
twins = []
for i, (f, a) in enumerate(shaped):
    for g, b in shaped[i + 1:]:
        if abs(len(a) - len(b)) * 8 > len(a):
            continue
        m = difflib.SequenceMatcher(None, a, b, autojunk=False)
        if m.quick_ratio() > 0.9 and m.ratio() > 0.9:
            twins.append(f"{f.place()} | {g.place()}")
count(2, "functions of three lines or more that are alike by nine words in ten to another", sorted({p for t in twins for p in t.split(" | ")}))
count(2, "pairs of these", twins)

# 3
count(3, "while loops", matches(r"^\s*while .*"))

# 4
choice = re.compile(r"^\s*if [^{]+\{\n\s*return [^;{]{1,60};\n\s*\}\n\s*[^;{]{1,60}$")
count(4, "functions that are one choice between two values", (f.place() for f in all_functions if choice.match(f.body)))
count(4, "matches from kinds to numbers or back", matches(r"^\s*(\w+::\w+ => [0-9.]+,|[0-9]+ => [0-9]+,)"))
count(4, "bytes by arithmetic", matches(r".*(256 \*|/ 256|% 256|65536 \*|16777216|4294967296 \*).*", lambda n: "limits" not in n))
count(4, "defaults, sizes, widenings and prints as functions of their own", (f.place() for f in all_functions if re.fullmatch(r"default|wide|size|put_decimal|put_number|print_\w+|narrowed|widened|whole", f.name)))

# 5
conjuncts = defaultdict(list)
for f in all_functions:
    for clause in f.requires:
        for part in re.split(r" × ", re.sub(r"\s+", " ", clause)):
            part = part.strip()
            while part.startswith("(") and part.endswith(")"):
                part = part[1:-1]
            conjuncts[re.sub(r"\.(now|old)\b", "", part)].append(f)
count(5, "facts that three or more contracts require", (f"{len(fs)} {part}" for part, fs in sorted(conjuncts.items(), key=lambda x: -len(x[1])) if len(fs) > 2))
pairs = defaultdict(list)
for f in all_functions:
    if "/gf/" in f.file:
        continue
    ps = [p for p in f.parameters if ":" in p]
    for i in range(len(ps)):
        for j in range(i + 1, len(ps)):
            pairs[(f.file.split("/")[1], ps[i], ps[j])].append(f)
count(5, "pairs of parameters that three or more functions of a crate take", (f"{len(fs)} {c}: {a}, {b}" for (c, a, b), fs in sorted(pairs.items(), key=lambda x: -len(x[1])) if len(fs) > 2))

# 6
count(6, "functions that take a slice and beside it a count or a place in it", (f.place() for f in all_functions if "/gf/" not in f.file and any(re.search(r"&(mut )?(\[|Rows)", p) for p in f.parameters) and any(re.match(r"(count|at|size|n|planes|found|taken|length): (usize|u32)", p) for p in f.parameters)))
count(6, "structs of a buffer and its length", (f"{n} {m.group(1)}" for n, m in structs if re.search(r": \[", m.group(2)) and re.search(r": (usize|u32)", m.group(2))))

# 7
count(7, "bool parameters", (f"{f.place()} {p}" for f in all_functions for p in f.parameters if re.search(r": bool$", p)))
count(7, "matches on a number", matches(r"^.*match (operation|family|count|length|trial|at)\b.*\{"))
