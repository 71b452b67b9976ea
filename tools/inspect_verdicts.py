#!/usr/bin/env -S python3 -B
"""Tests what `wt_inspect connection` says of the rules that a connection breaks across its streams,
and of how its sessions went.

    tools/inspect_verdicts.py [DIR]

Each row of tools/verdict_rows.py and tools/summary_rows.py is a list of recordings that are made
for it. The sessions of each are those that an independent reader finds
(tools/session_summaries.py), and those of the latter rows are written there, too. Then come the
connections of DIR (default: tools/recordings.d), whose streams are still open: no real stack breaks
a rule. The program is built once, without proof, or is the one named by the environment variable
PROGRAM. Ends with a line 'N passed, M failed'.
"""

import json
import re
import sys
import tempfile
from pathlib import Path

from outcomes import Outcomes
from program_cases import TOP, Case, run_cases
from recorded_lists import connections_of, list_of
from session_summaries import Recording, as_found, is_summary, summaries_of
from summary_rows import LINES
from summary_rows import ROWS as SUMMARY_ROWS
from verdict_rows import CLIENT, NOTES, ROWS, SERVER

MARK = "\u258c "
# The runs in which a test put bytes there that no stack sends, and what is wrong with them: a value
# with line feeds (RFC 9110, section 5.5), and a byte after the close of a session
# (draft-ietf-webtrans-http3-02, section 5).
MADE = {
    "pylines": [("malformed message", "server", 0, 0x10E)],
    "pyodd": [("stream error", "server", 20, 0x10E)],
}


def write_list(folder, row):
    """Writes the files of a row, and returns the list of them."""
    lines = []
    for number, ((stream, end), content) in enumerate(row.sent.items()):
        path = folder / f"{row.name}-{number}.bin"
        path.write_bytes(content)
        lines.append(f"{stream} {end} {path}\n")
    return "".join(lines).encode()


def is_reason(verdict, why):
    """Returns whether the reason of a verdict cites the section of its rule. The end of a session
    breaks none."""
    cited = re.search(r" \((?:RFC [0-9]+|draft-[a-z0-9-]+), sections? [0-9.]+", why)
    return bool(why and (cited or verdict in ("closed session", "lost session")))


def verdicts_in(case):
    """Returns the verdicts in the lines of JSON, each as it stands in a row."""
    found = []
    for line in case.output.splitlines():
        item = json.loads(line)
        if "verdict" in item:
            assert is_reason(item["verdict"], item["why"]), item
            place = item["stream"] if "stream" in item else "datagram"
            found.append((item["verdict"], item["by"], place, item.get("code")))
    return found


def words_of(verdict):
    """Returns how the line of a verdict begins: what the end that judges would do, or which end
    closed a session."""
    kind, by, *_ = verdict
    if kind == "closed session":
        closer = SERVER if by == CLIENT else CLIENT
        return f"{MARK}the {closer} closed the session: "
    return f"{MARK}the {by} would "


def text_fault(case, verdicts):
    """Returns what is wrong with the text of these verdicts, after all else."""
    *_, text = case.output.decode().rpartition(f"{MARK}== verdicts\n")
    lines = text.splitlines()
    if not verdicts:
        return None if lines == [f"{MARK}no error"] else f"the text {lines}"
    wanted = [words_of(verdict) for verdict in verdicts]
    is_right = len(lines) == len(wanted) and all(map(str.startswith, lines, wanted))
    return None if is_right else f"the text {lines}"


def sessions_fault(row, as_json, as_text):
    """Returns what is wrong with what is said of the sessions of a row, in JSON before the
    verdicts, and in the text as the part before them."""
    recording = Recording([(at, end, content) for (at, end), content in row.sent.items()])
    wanted = summaries_of(recording, row.options == "--open")
    items = [json.loads(line) for line in as_json.output.splitlines()]
    last = [item for item in items if "item" not in item]
    found = [as_found(item) for item in last[: len(wanted)] if is_summary(item)]
    if found != [one.shown() for one in wanted] or any(map(is_summary, last[len(wanted) :])):
        return f"wanted {[one.shown() for one in wanted]}, found {last}"
    words = [one.words() for one in wanted]
    if words != LINES.get(row.name, words):
        return f"the reader finds {words}"
    lines = ["== sessions", *words] if words else []
    part = "".join(f"{MARK}{line}\n" for line in [*lines, "== verdicts"])
    text = as_text.output.decode()
    is_right = f"\n{part}" in text and text.count("== sessions") == min(1, len(words))
    return None if is_right else f"wanted {part}, found {text}"


def row_fault(row, as_json, as_text):
    """Returns what is wrong with a row."""
    if fault := sessions_fault(row, as_json, as_text):
        return fault
    found = verdicts_in(as_json)
    if row.name in LINES:
        return text_fault(as_text, found)
    if found != row.verdicts:
        return f"wanted {row.verdicts}, found {found}; {as_json.errors}"
    if row.status() == 2 and (as_json.status, as_text.status) != (2, 2):
        return f"status {as_json.status} and {as_text.status}"
    return text_fault(as_text, found)


def recorded_fault(name, case):
    """Returns what is wrong with the faults of a recorded connection."""
    found = [one for one in verdicts_in(case) if one[0] not in NOTES]
    wanted = MADE.get(name, [])
    return None if found == wanted else f"wanted {wanted}, found {found}; {case.errors}"


def main():
    folder = Path(sys.argv[1]) if len(sys.argv) > 1 else TOP / "tools/recordings.d"
    outcomes = Outcomes("connection")
    with tempfile.TemporaryDirectory() as place:
        place = Path(place)
        place.chmod(0o755)
        cases = {}
        for row in [*ROWS, *SUMMARY_ROWS]:
            content, options = write_list(place, row), row.options.split()
            cases[row.name, "json"] = Case(row.name, content, ["connection", "--json", *options])
            cases[row.name, "text"] = Case(f"{row.name}-text", content, ["connection", *options])
        connections = connections_of(folder)
        for name, entries in connections.items():
            content = list_of(folder, entries).encode()
            cases[name, "json"] = Case(name, content, ["connection", "--json", "--open"])
        run_cases("wt_inspect", list(cases.values()))
    for row in [*ROWS, *SUMMARY_ROWS]:
        fault = row_fault(row, cases[row.name, "json"], cases[row.name, "text"])
        outcomes.add(row.name, fault)
    for name in connections:
        outcomes.add(name, recorded_fault(name, cases[name, "json"]))
    return outcomes.end()


if __name__ == "__main__":
    sys.exit(main())
