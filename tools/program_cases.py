"""Runs a program of this repository on many inputs.

It is built once, without proof, unless the environment variable PROGRAM names a built one.
"""

import os
import re
import subprocess
import tempfile
from dataclasses import dataclass
from pathlib import Path

# How long a case may take.
SECONDS = 60
TOP = Path(__file__).resolve().parent.parent


@dataclass
class Case:
    """An input, the arguments of the program, and, once it ran, its status and what it wrote."""

    name: str
    content: bytes
    arguments: list
    status: int = None
    output: bytes = b""
    errors: bytes = b""


def run_cases(crate, cases):
    """Runs the program of a crate on each case, whose input is its standard input."""
    if program := os.environ.get("PROGRAM"):
        run_built(os.path.abspath(program), cases)
    else:
        build_and_run(crate, cases)


def run_built(program, cases):
    """Runs a program that is built already."""
    with tempfile.TemporaryDirectory() as folder:
        for case in cases:
            ran = subprocess.run(
                [program, *case.arguments],
                input=case.content,
                cwd=folder,
                capture_output=True,
                timeout=SECONDS,
                check=False,
            )
            case.status, case.output, case.errors = ran.returncode, ran.stdout, ran.stderr


def build_and_run(crate, cases):
    """Builds the program of a crate, and runs it."""
    with tempfile.TemporaryDirectory() as folder:
        for case in cases:
            Path(folder, case.name).write_bytes(case.content)
            arguments = "".join(word + "\n" for word in case.arguments)
            Path(folder, f"{case.name}.args").write_text(arguments, encoding="utf-8")
        ran = subprocess.run(
            ["rt", "try", "--cases", folder],
            capture_output=True,
            check=False,
            cwd=TOP / "crates" / crate,
        )
    by_name = {case.name: case for case in cases}
    take_outputs(by_name, ran.stdout)
    if not take_ends(by_name, ran.stderr):
        raise SystemExit(ran.stderr.decode("utf-8", "replace"))


def take_outputs(by_name, output):
    """Takes what each case wrote, which is after a line with its name."""
    case = None
    for line in output.splitlines(keepends=True):
        if line.startswith(b"== ") and line[3:-1].decode() in by_name:
            case = by_name[line[3:-1].decode()]
        elif case:
            case.output += line


def take_ends(by_name, errors):
    """Takes the status of each case, and its errors, which come before. Returns whether any ran."""
    place = 0
    for end in re.finditer(rb"^case=(\S+) run=ended status=([0-9]+) .*\n", errors, re.M):
        case = by_name[end[1].decode()]
        case.status, case.errors = int(end[2]), errors[place : end.start()]
        place = end.end()
    return place > 0
