"""Sessions through a proxy that drops, delays and reorders packets (examples/server-c/proxy.py).

Each session's streams follow its request at once, so that some of them overtake it. A session has
no more of them than may wait.
"""
from __future__ import annotations

import asyncio

from client import Client, client_of, close_capsule, frame, log_of, number, session_request, settle

CONNECTIONS, SESSIONS, STREAMS = 8, 12, 10  # sessions on each connection, streams in each session
PATIENCE = 60  # seconds: what is lost is sent again


async def use_session(client: Client, name: str) -> tuple[bool, int]:
    """One session: whether its close came back, and how many streams did."""
    session = client.open(session_request(b"/echo?load"))
    texts = [f"{name} stream {i}".encode() * (1 + i * i) for i in range(STREAMS)]
    head = number(0x41) + number(session)
    streams = [client.stream(client.open(head + text, end=True)) for text in texts]
    await client.until(lambda: all(stream.is_ended for stream in streams), PATIENCE)
    came = [stream.is_ended and stream.data == text for stream, text in zip(streams, texts)]
    client.send(session, frame(0x21, b"grease") + close_capsule(7), end=True)
    return await client.until(lambda: client.stream(session).is_ended, PATIENCE), sum(came)


async def use_connection(port: int, name: str) -> tuple[int, int]:
    """One session after another: how many closes and streams came back."""
    async with client_of(port) as client:
        done = [await use_session(client, f"{name} session {s}") for s in range(SESSIONS)]
        closed, came = zip(*done)
        return sum(closed), sum(came)


async def run(port: int, proxy: int) -> tuple[int, int, int, int, list[int]]:
    """Runs all through the proxy, and returns how many closes and streams came back, how many the
    server saw, and the sessions, streams and readers that it has then."""
    before = log_of(port)["counts"]
    names = [f"connection {c}" for c in range(CONNECTIONS)]
    done = await asyncio.gather(*(use_connection(proxy, name) for name in names))
    closed, came = (sum(column) for column in zip(*done))
    log = await asyncio.to_thread(settle, port)
    saw = [
        log["counts"].get(what, 0) - before.get(what, 0)
        for what in ("load, closed", "load, end of stream")
    ]
    return closed, came, *saw, [log["sessions"], log["streams"], log["readers"]]
