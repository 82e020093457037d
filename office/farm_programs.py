"""The programs that the office's tools run: where each is found, and what it prints for some bytes."""
import os
import shutil
import subprocess
from pathlib import Path

HERE = Path(__file__).resolve().parent


class Unanswered(Exception):
    """Why a program gives no answer: it is not found, does not run, or ends badly."""


def beside(name):
    """Where a program stands beside the tools: in the repository, or as `install` puts both under a prefix."""
    return HERE.parent / "crates" / name / "out" / name if HERE.name == "office" else HERE.parent.parent / "bin" / name


def found(name):
    """The program to run: the one that the variable of its name names, the one beside the tools, or the first in PATH."""
    program = os.environ.get(name.upper()) or (str(beside(name)) if beside(name).is_file() else shutil.which(name))
    if not program:
        raise Unanswered(f"the program {name} is not found: `rt run` in crates/{name} makes it, or {name.upper()} names it")
    return program


def answer(name, given):
    """The program that was run, and all that it prints for these bytes."""
    program = found(name)
    try:
        return program, subprocess.run([program], input=given, stdout=subprocess.PIPE, check=True).stdout
    except OSError as problem:
        raise Unanswered(f"the program {name}, {program}: {problem.strerror}") from None
    except subprocess.CalledProcessError:
        raise Unanswered(f"{program} ends badly, as {name} never does") from None
