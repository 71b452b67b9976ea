"""Opens browsers on the test page, and says what each page and the server have to see.

The page does one thing for each row and reports what it saw. A browser that cannot do a row has it
in LEFT_OUT, with the reason.
"""
from __future__ import annotations

import contextlib
import os
import subprocess
import tempfile
import time
from typing import TYPE_CHECKING, Iterator

from client import ask, log_of

if TYPE_CHECKING:
    from checks import Report

HERE = os.path.dirname(os.path.abspath(__file__))
SIZES = (0, 1, 4096, 100_000)
CODES = (0, 7, 29, 30, 255, 4294967295)
PAGE_CODES = CODES[:-1]  # Chromium's pages have codes of one byte
WHOLE = [[size, True] for size in SIZES]
EMPTY = WHOLE[:1]
PATIENCE = 60  # seconds for a browser
NO_CODE = "Firefox tells the page no code of a reset"
LEFT_OUT = {  # by the name of the row: why
    "chromium": {},
    "firefox": {
        **{f"page: {who} resets {code}": NO_CODE for who in ("page", "server") for code in CODES},
        "page: server stops 4294967295": "Firefox tells the page 0",
        "server: codes of stops that came": "Firefox stops a stream only when the session ends, "
        "with H3_REQUEST_CANCELLED",
        "server: GREASE survived, setting": "Firefox sends none",
        "server: GREASE survived, capsule": "Firefox sends none",
    },
}


def page_rows(page: int) -> Iterator[tuple[str, object]]:
    """(name, what the page has to see). `page` is the size of the page that is fetched."""
    yield "session accepted", "ready"
    yield "denied with 404", "refused"
    yield "denied with 403", "refused"
    yield "streams of the page, both ways", WHOLE
    yield "streams of the page, one way, and back", WHOLE[1:]
    yield "an empty stream of the page, one way, and back", EMPTY
    yield "datagrams", [[1, True], [1000, True]]
    yield "an empty datagram", "sent"
    for name, streams in (("streams and a datagram", WHOLE[1:]), ("empty streams", EMPTY)):
        yield name + " of the server", {"both": streams, "one": streams, "datagram": 24}
    for code in PAGE_CODES:
        yield f"page resets {code}", code
        yield f"page stops {code}", "cancelled"
    for code in CODES:
        yield f"server resets {code}", code
        yield f"server stops {code}", code
    yield "closed by the page", "closed"
    yield "closed by the server", [4294967295, "tschüß 界"]
    yield "several sessions at once", ["session 0", "session 1", "session 2"]
    yield "fetch of a page", [200, page, "h3"]
    yield "fetch of what is not there", [404, 10, "h3"]


def server_rows(log: dict) -> Iterator[tuple[str, object, object]]:
    """(name, what the server saw, what it has to see) while the browser was there."""
    rows = log["rows"]

    def values(path: str, what: str) -> list[list]:
        return [row[2:] for row in rows if row[:2] == [path, what]]

    yield "codes of resets that came", values("/echo", "reset"), [[code] for code in PAGE_CODES]
    yield "codes of stops that came", values("/echo", "stopped"), [[code] for code in PAGE_CODES]
    yield "codes by which the page resets what is stopped", values("/commands", "reset"), [
        [code] for code in CODES
    ]
    yield "streams that the page sent back", sorted(values("/push", "pushed")), WHOLE[1:]
    yield "empty streams that the page sent back", values("/push?empty", "pushed"), EMPTY
    yield "sizes of datagrams that came", values("/echo", "datagram"), [[1], [1000]]
    yield "an empty datagram that came", values("/echo?empty", "datagram"), [[0]]
    yield "close by the page", values("/echo?closes", "closed"), [[4660, "bye, wörld ✓"]]
    denials = {row[0]: row[2] for row in rows if row[1] == "denied"}
    yield "statuses of denials", denials, {"/deny/404": 404, "/deny/403": 403}
    for what in ("setting", "frame", "capsule"):
        yield f"GREASE survived, {what}", log["counts"].get("reserved " + what, 0) > 0, True
    for what in ("entries of tables", "bytes of instructions", "sections acknowledged"):
        yield f"QPACK, {what}", log["counts"].get(what, 0) > 0, True


@contextlib.contextmanager
def opened(browser: str, port: int, out: str) -> Iterator[None]:
    """A browser on the test page, with a profile of its own. It is ended by its process ID."""
    with tempfile.TemporaryDirectory(ignore_cleanup_errors=True) as profile, open(
        os.path.join(out, browser + ".log"), "wb"
    ) as log:
        command = [os.path.join(HERE, "browse"), browser, str(port), out, profile, "/test"]
        with subprocess.Popen(command, stdout=log, stderr=log, stdin=subprocess.DEVNULL) as process:
            try:
                yield
            finally:
                process.terminate()
                try:
                    process.wait(10)
                except subprocess.TimeoutExpired:
                    process.kill()


def check(report: Report, browser: str, port: int, out: str) -> None:
    """Opens a browser, waits for its rows, and asserts them and what the server saw."""
    ask(port, "/clear", b"")
    with opened(browser, port, out):
        deadline, log = time.monotonic() + PATIENCE, log_of(port)
        while not log["done"] and time.monotonic() < deadline:
            time.sleep(0.5)
            log = log_of(port)
    size = len(ask(port, "/"))
    saw = {row["row"]: row["saw"] for row in log["page"]}
    rows = [("page: " + name, saw.get(name, "nothing"), wanted) for name, wanted in page_rows(size)]
    rows += [("server: " + name, came, wanted) for name, came, wanted in server_rows(log)]
    for name, came, wanted in rows:
        reason = LEFT_OUT[browser].get(name)
        if reason:
            report.leave_out(f"{browser}, {name}", reason)
        else:
            report.check(f"{browser}, {name}", came, wanted)
