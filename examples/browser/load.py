"""1,000 sessions and 10,000 streams of one client after another, and what they cost the server."""
from __future__ import annotations

import asyncio
import time

from client import Client, ask, client_of, close_capsule, log_of, number, settle

CONNECTIONS, SESSIONS, STREAMS = 10, 100, 10  # sessions on each connection, streams in each session
AT_ONCE = 10  # sessions at the same time


def resident(pid: int) -> int:
    """The memory of a process, in KiB."""
    with open(f"/proc/{pid}/status", encoding="ascii") as file:
        return next(int(line.split()[1]) for line in file if line.startswith("VmRSS:"))


async def use_session(client: Client, name: str) -> tuple[bool, int, bool, int]:
    """One session: streams both ways and one way, a datagram, the close. Returns what came back:
    whether the close did, the streams, the datagram, and how often that was sent again."""
    session = await client.open_session(b"/echo?load")
    texts = [f"{name} stream {i}".encode() * (1 + i * i) for i in range(STREAMS)]
    both = [client.open(number(0x41) + number(session) + text, end=True) for text in texts[::2]]
    for text in texts[1::2]:
        client.open(number(0x54) + number(session) + text, end=True, one_way=True)
    await client.until(lambda: all(client.stream(stream).is_ended for stream in both))
    came = [client.take(stream).data == text for stream, text in zip(both, texts[::2])]
    head = number(0x54) + number(session)
    await client.until(lambda: all(client.one_way[head + text] for text in texts[1::2]))
    came += [client.one_way.pop(head + text, 0) == 1 for text in texts[1::2]]
    datagram, again = number(session // 4) + name.encode(), -1
    while not client.datagrams[datagram] and again < 5:  # QUIC may lose it (RFC 9221, section 5)
        client.send_datagram(datagram)
        again += 1
        await client.until(lambda: client.datagrams[datagram], 1)
    client.send(session, close_capsule(7), end=True)
    is_closed = await client.until(lambda: client.stream(session).is_ended)
    client.take(session)
    return is_closed, sum(came), client.datagrams.pop(datagram, 0) > 0, again


async def run(port: int, pid: int) -> tuple:
    """Runs all; returns the counts, the seconds, and for each connection: the sessions, streams and
    readers that the server has when all sessions are closed, and its memory in KiB and the bytes of
    its heap when the connection is."""
    settle(port)
    sums, left, memory, heap, began = [0] * 4, [], [], [], time.monotonic()
    for c in range(CONNECTIONS):
        async with client_of(port) as client:
            for s in range(0, SESSIONS, AT_ONCE):
                names = [f"connection {c} session {s + i}" for i in range(AT_ONCE)]
                done = await asyncio.gather(*(use_session(client, name) for name in names))
                sums = [sum(column) for column in zip(sums, *done)]
            log = log_of(port)
            left.append([log["sessions"], log["streams"], log["readers"]])
        settle(port)
        memory.append(resident(pid))
        heap.append(int(ask(port, "/heap")))
    return *sums, time.monotonic() - began, left, memory, heap
