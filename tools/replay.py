"""Runs scripts by a program: streams that come to a connection, and what it tells.

The program is proved and built once, unless the environment variable PROGRAM names a built one.
What a script may say is at the head of the program, as in crates/wt_recorded/src/main.rt.
"""

import os
import subprocess
from pathlib import Path

TOP = Path(__file__).resolve().parent.parent
# How long a run may take.
SECONDS = 600


def built_program(name):
    """Returns the path of a program, which PROGRAM may say, and which is built otherwise."""
    if program := os.environ.get("PROGRAM"):
        return os.path.abspath(program)
    crate = TOP / "crates" / name
    ran = subprocess.run(["rt", "run"], cwd=crate, input=b"", capture_output=True, check=False)
    if ran.returncode:
        raise SystemExit(ran.stdout.decode() + ran.stderr.decode())
    return str(crate / "out" / name)


def replayed(program, script):
    """Returns the lines of the events of each connection of a script."""
    ran = subprocess.run(
        [program], input=script.encode(), capture_output=True, timeout=SECONDS, check=False
    )
    if ran.returncode:
        raise SystemExit(f"the program ended with {ran.returncode}: {ran.stderr.decode()}")
    connections = []
    for line in ran.stdout.decode().splitlines():
        if line == "connection":
            connections.append([])
        else:
            connections[-1].append(line)
    return connections


def ends_connection(event):
    """Returns whether an event is an error that ends the connection."""
    return event[0] == "fault" and event[2] == "connection"
