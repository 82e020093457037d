"""What the scripts beside it share: the edits of crates/*/must-fail and crates/*/edits, and a copy of the repository in which they are tried."""
import contextlib, pathlib, shutil, subprocess, tempfile

ROOT = pathlib.Path(__file__).resolve().parent.parent
GATE, MORE, HARMLESS = "must-fail", "edits/more", "edits/harmless"


def named(folder):
    """The names of all edits in a folder of the crates, CRATE/LABEL."""
    return sorted(f"{file.relative_to(ROOT).parts[1]}/{file.stem}" for file in ROOT.glob(f"crates/*/{folder}/*.edit"))


def crate_of(edit):
    return edit.split("/")[0]


def file_of(edit, *folders):
    """An edit's file, in the first of these folders of its crate that has it."""
    crate, _, label = edit.partition("/")
    files = [ROOT / "crates" / crate / folder / (label + ".edit") for folder in folders]
    return next((file for file in files if file.exists()), None)


def pairs(path):
    """Of each replacement of an edit the file, the part that it takes away and the part that it puts there."""
    said = {}
    for line in path.read_text().splitlines():
        if line and not line.startswith("#"):
            word, text = line.split(": ", 1)
            said[word] = text
            if word == "new":
                yield said["file"], said["old"], text


class Misfit(Exception):
    """Why an edit cannot be made, or what is made of it cannot be read."""


@contextlib.contextmanager
def made(copy, edit, path):
    """An edit is made in a copy, and taken back at the end."""
    root, before = copy / "crates" / crate_of(edit), {}
    try:
        for file, old, new in pairs(path):
            text = (root / file).read_text()
            if text.count(old) != 1:
                raise Misfit(f"its old text occurs {text.count(old)} times in {file}")
            before.setdefault(file, text)
            (root / file).write_text(text.replace(old, new))
        yield
    finally:
        for file, text in before.items():
            (root / file).write_text(text)


@contextlib.contextmanager
def copied():
    """A copy of what is proved, without edits. There `rt` begins with what checks on this machine kept of the same crates."""
    with tempfile.TemporaryDirectory() as folder:
        copy = pathlib.Path(folder)
        for name in "crates.txt", "HANDLES":
            if (ROOT / name).exists():
                shutil.copyfile(ROOT / name, copy / name)
        for part in "src", "specs", "proofs":
            for source in ROOT.glob(f"crates/*/{part}"):
                shutil.copytree(source, copy / source.relative_to(ROOT))
        yield copy


def ran(folder, *words):
    """How rt ends in a folder, and what it says."""
    run = subprocess.run(["rt", *words], cwd=folder, stdin=subprocess.DEVNULL, stdout=subprocess.PIPE, stderr=subprocess.STDOUT, text=True)
    return run.returncode, run.stdout


def checked(copy, crate):
    """Whether a crate is proved, and what the check says first if not."""
    status, said = ran(copy / "crates" / crate, "check")
    told = [line for line in said.splitlines() if ": error: " in line or line.endswith("no proof")]
    facts = [line for line in told if "was not admitted" not in line]
    return status == 0, (facts or told or [said[-300:]])[0]


def count(answers, good):
    """Prints an edit's answer on a line, and counts at the end as the gate does. The exit status tells whether all passed."""
    passed = failed = 0
    for edit, (ok, said) in answers:
        passed, failed = passed + ok, failed + (not ok)
        print(good if ok else "FAILED", edit, "|", said[:300], flush=True)
    print(f"{passed} passed, {failed} failed")
    return failed > 0
