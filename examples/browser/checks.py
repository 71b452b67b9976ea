"""Asserts what browsers, clients, load and peers with faults see of a server.

    checks.py PORT PID OUT FRAMES PROXY BROWSER...

PORT and PID are the server's, OUT has its certificate and its log, FRAMES is the program wt_frames,
and PROXY the port of a proxy that drops, delays and reorders packets for the server.
Each browser is opened on the test page. Ends with 'N passed, M failed'.
"""
from __future__ import annotations

import asyncio
import os
import sys

import browsers
import faults
import limits
import load
import loss
import rules
import tables
from client import client_of, log_of, number, settle

GROWTH = 512  # KiB that the server may grow by, over 900 sessions
HEAP_GROWTH = 16  # KiB that its heap may grow by, from when it is smallest


class Report:
    """Counts what was checked."""

    def __init__(self) -> None:
        self.passed = self.failed = self.left_out = 0

    def check(self, name: str, saw: object, wanted: object) -> None:
        holds = saw == wanted
        self.expect(name, holds, f"{saw!r}" if holds else f"{saw!r} and not {wanted!r}")

    def expect(self, name: str, holds: bool, saw: str) -> None:
        self.passed, self.failed = self.passed + bool(holds), self.failed + (not holds)
        print(f"{'ok  ' if holds else 'FAIL'}  {name}: {saw}", flush=True)

    def leave_out(self, name: str, reason: str) -> None:
        self.left_out += 1
        print(f"left  {name}: {reason}", flush=True)


async def check_load(report: Report, port: int, pid: int) -> None:
    closed, echoed, datagrams, again, seconds, left, memory, heap = await load.run(port, pid)
    sessions = load.CONNECTIONS * load.SESSIONS
    report.check("load: sessions closed", closed, sessions)
    report.check("load: streams echoed", echoed, sessions * load.STREAMS)
    report.check("load: datagrams echoed", datagrams, sessions)
    counts = log_of(port)["counts"]
    report.check("load: sessions that the server saw close", counts.get("load, closed"), sessions)
    report.check(
        "load: streams that the server saw end",
        counts.get("load, end of stream"),
        sessions * load.STREAMS,
    )
    report.check(
        "load: sessions, streams and readers that are left of each connection",
        left,
        [[0, 0, 1]] * load.CONNECTIONS,
    )  # a reader of the control stream
    heap = [size // 1024 for size in heap]
    for name, sizes, most in (("memory", memory, GROWTH), ("heap", heap, HEAP_GROWTH)):
        report.expect(
            f"load: the {name} is flat",
            sizes[-1] - min(sizes) <= most,
            f"KiB after each 100 sessions: {sizes}",
        )
    print(f"      {seconds:.1f} s, datagrams sent again: {again}")


async def check_loss(report: Report, port: int, proxy: int) -> None:
    closed, came, server_closed, server_came, left = await loss.run(port, proxy)
    sessions = loss.CONNECTIONS * loss.SESSIONS
    report.check("loss: sessions closed", (closed, server_closed), (sessions, sessions))
    streams = sessions * loss.STREAMS
    report.check("loss: streams echoed", (came, server_came), (streams, streams))
    report.check("loss: sessions, streams and readers that are left", left, [0, 0, 0])


async def check_faults(report: Report, port: int, frames: str) -> None:
    async with client_of(port) as bystander:
        session = await bystander.open_session(b"/echo")
        for row in faults.ROWS:
            wanted = ("stream" if row.ends_stream else "connection", row.code)
            report.check("fault: " + row.name, await faults.answer(port, row), wanted)
            if row.listing:
                report.check(f"wt_frames: {row.name}", faults.listed(frames, row), row.code)
        for row in faults.LISTED:
            report.check(f"wt_frames: {row.name}", faults.listed(frames, row), row.code)
        saw = await faults.endless_frame(port)
        report.check("fault: an unknown frame of 2^40 bytes", saw, "goes on")
        goes_on = await bystander.echoes(session, b"still here")
        report.check("fault: a session of another connection goes on", goes_on, True)


async def check_rules(report: Report, port: int) -> None:
    for row in rules.FAULTS:
        wanted = ("stream" if row.ends_stream else "connection", row.code)
        report.check("rule: " + row.name, await faults.answer(port, row), wanted)
    for name, action, wanted in rules.ROWS:
        report.check("rule: " + name, await action(port), wanted)


async def check_tables(report: Report, port: int) -> None:
    for name, action, wanted in tables.ROWS:
        report.check("table: " + name, await action(port), wanted)


async def check_limits(report: Report, port: int) -> None:
    async with client_of(port) as bystander:
        session = await bystander.open_session(b"/echo")
        for name, action, wanted in limits.ROWS:
            report.check("limit: " + name, await action(port), (wanted, True))
        goes_on = await bystander.echoes(session, b"still here")
        report.check("limit: a session of another connection goes on", goes_on, True)


async def check_sessions(report: Report, port: int) -> None:
    """What Chromium does not do: several sessions on one connection, GREASE streams, a stream that
    comes before its session, an empty datagram that comes back."""
    before = log_of(port)["counts"].get("reserved stream", 0)
    async with client_of(port) as client:
        client.open(number(0x21 + 0x1F * 5) + b"grease", one_way=True)
        early = client.open(number(0x41) + number(8) + b"early", end=True)
        numbers = [await client.open_session(b"/echo") for _ in range(3)]
        echoed = [await client.echoes(n, f"session {n}".encode()) for n in numbers]
        report.check("client: several sessions on one connection", echoed, [True] * 3)
        await client.until(lambda: client.stream(early).is_ended)
        report.check("client: a stream before its session", client.stream(early).data, b"early")
        client.send_datagram(number(numbers[0] // 4))
        came = await client.until(lambda: client.datagrams[number(numbers[0] // 4)])
        report.check("client: an empty datagram", came, True)
    streams = log_of(port)["counts"].get("reserved stream", 0) - before
    report.check("client: GREASE survived, streams", streams, 1)


def check_rest(report: Report, port: int, log_file: str) -> None:
    """What the server still holds when all clients are gone."""
    log = settle(port)
    report.check(
        "end: sessions, streams and readers that are left",
        [log["sessions"], log["streams"], log["readers"]],
        [0, 0, 0],
    )
    with open(log_file, encoding="utf-8") as file:
        report.check("end: lines of errors in the server's log", file.read().count("\n") - 1, 0)
    report.check("end: most undecided bytes of a frame", log["undecided"], limits.FRAME)


def main() -> None:
    out, frames, proxy, *names = sys.argv[3:]
    port, pid, report = int(sys.argv[1]), int(sys.argv[2]), Report()
    for name in names:
        browsers.check(report, name, port, out)
    asyncio.run(check_sessions(report, port))
    asyncio.run(check_load(report, port, pid))
    asyncio.run(check_loss(report, port, int(proxy)))
    asyncio.run(check_limits(report, port))
    asyncio.run(check_faults(report, port, frames))
    asyncio.run(check_rules(report, port))
    asyncio.run(check_tables(report, port))
    check_rest(report, port, os.path.join(out, "server.log"))
    if report.left_out:
        print(f"{report.left_out} left out, neither passed nor failed")
    print(f"{report.passed} passed, {report.failed} failed")
    sys.exit(report.failed > 0 or report.passed == 0)


if __name__ == "__main__":
    main()
