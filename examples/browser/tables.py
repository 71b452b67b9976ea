"""Peers that allow the server QPACK's dynamic table: what it sends with it, and what it does about
the bytes of their decoder streams (RFC 9204).

The server inserts one entry for the answers to these sessions, and refers to it in each, beside
`:status: 200` of the static table. Each function of ROWS returns what the client saw.
"""
from __future__ import annotations

import asyncio
from functools import partial
from typing import Awaitable, Callable

from client import Client, client_of, frame, number

# HEADERS of an answer that refers to the entry: Required Insert Count 1, Base 1, and two indexed
# lines (sections 4.5.1 and 4.5.2); and the prefix of one that refers to none.
REFERRING, WITHOUT = frame(0x01, b"\x02\x00\xd9\x80"), b"\x00\x00"
# Instructions of a decoder stream, after its type (section 4.4).
TYPE, ACKNOWLEDGED, INCREMENT = b"\x03", b"\x80", b"\x01"
SECTIONS = 64  # that refer to the entry and are not acknowledged: at most so many
PAUSE = 0.1  # seconds, in which the server reads what was sent


def settings(capacity: int, blocked: int) -> bytes:
    """A control stream that allows sessions, and a table."""
    numbers = (0x33, 1, 0x2B603742, 1, 0x01, capacity, 0x07, blocked)
    return b"\x00" + frame(0x04, b"".join(map(number, numbers)))


def encoder_stream(client: Client) -> int | None:
    """The server's encoder stream, once an insertion came on it."""
    streams = client.incoming.items()
    found = [i for i, s in streams if i % 4 == 3 and s.data[:1] == b"\x02" and len(s.data) > 4]
    return found[0] if found else None


async def instructions(client: Client) -> bytes:
    """What came on the server's encoder stream."""
    await client.until(lambda: encoder_stream(client) is not None)
    return client.stream(encoder_stream(client)).data


async def answer(client: Client) -> bytes:
    """Opens a session: the answer."""
    return client.stream(await client.open_session(b"/echo")).data


async def capacity(port: int, limit: int) -> tuple[bytes, bytes]:
    """Some table is allowed: the instruction that sets the capacity (section 4.3.1)."""
    async with client_of(port, settings(limit, 16)) as client:
        saw = await answer(client)
        return (await instructions(client))[:4], saw


async def no_table(port: int) -> tuple[bytes, int]:
    """No table is allowed: the prefix of an answer, and how many streams the server opened."""
    async with client_of(port, settings(0, 16)) as client:
        saw = await answer(client)
        return saw[2:4], len([i for i in client.incoming if i % 4 == 3])


async def no_blocked(port: int) -> tuple[bytes, bytes]:
    """No stream may be blocked: an answer before the entry is acknowledged, and one after that."""
    async with client_of(port, settings(4096, 0)) as client:
        early = (await answer(client))[2:4]
        await instructions(client)
        client.open(TYPE + INCREMENT, one_way=True)
        await asyncio.sleep(PAUSE)
        return early, await answer(client)


async def unacknowledged(port: int) -> tuple[int, bytes, bytes]:
    """Sections are not acknowledged: how many refer to the entry, the prefix of the next one, and
    the answer after one of them was acknowledged."""
    async with client_of(port, settings(4096, 1)) as client:
        referring, decoder = 0, client.open(TYPE, one_way=True)
        while (saw := await answer(client)) == REFERRING and referring < 100:
            if referring == 0:  # the entry came, so no more sections block
                client.send(decoder, INCREMENT)
                await asyncio.sleep(PAUSE)
            referring += 1
        client.send(decoder, ACKNOWLEDGED)
        await asyncio.sleep(PAUSE)
        return referring, saw[2:4], await answer(client)


async def code(port: int, pieces: tuple[bytes, ...], last: str = "") -> tuple[int | None, bool]:
    """What becomes of a connection after stream 0 was answered, and a decoder stream came in these
    pieces, and ended or was reset: its code, and whether its session goes on."""
    async with client_of(port, settings(4096, 16)) as client:
        session = await client.open_session(b"/echo")
        await instructions(client)
        stream = client.open(pieces[0], one_way=True)
        for piece in pieces[1:]:
            await asyncio.sleep(PAUSE)
            client.send(stream, piece)
        if last == "end":
            client.send(stream, b"", end=True)
        elif last == "reset":
            client.reset(stream, 0x10C)
        echo = client.stream(client.open(number(0x41) + number(session) + b"still here", end=True))
        await client.until(lambda: echo.is_ended or client.closed_by is not None)
        return client.closed_by, echo.data == b"still here"


async def cancels(port: int) -> bool:
    """A session is reset whose answer is not acknowledged, and cancelled: whether others go on."""
    async with client_of(port, settings(4096, 16)) as client:
        session = await client.open_session(b"/echo")
        client.open(TYPE + b"\x40", one_way=True)
        client.reset(session, 0x10C)
        return await client.echoes(await client.open_session(b"/echo"), b"still here")


async def stops_encoder(port: int) -> int | None:
    """The server's encoder stream is stopped: the code of the connection."""
    async with client_of(port, settings(4096, 16)) as client:
        await answer(client)
        await instructions(client)
        client.stop(encoder_stream(client), 0x10C)
        await client.until(lambda: client.closed_by is not None)
        return client.closed_by


Action = Callable[[int], Awaitable[object]]


def told(name: str, *pieces: bytes, last: str = "", wanted: int | None = None) -> tuple:
    """The row of a decoder stream that came in these pieces."""
    return name, partial(code, pieces=pieces, last=last), (wanted, wanted is None)


ROWS: list[tuple[str, Action, object]] = [
    ("a table of 4096 bytes", partial(capacity, limit=4096), (b"\x02\x3f\xe1\x1f", REFERRING)),
    ("a table of 65536 bytes", partial(capacity, limit=65536), (b"\x02\x3f\xe1\x1f", REFERRING)),
    ("a table of 200 bytes", partial(capacity, limit=200), (b"\x02\x3f\xa9\x01", REFERRING)),
    ("no table", no_table, (WITHOUT, 1)),
    ("no stream that may be blocked", no_blocked, (WITHOUT, REFERRING)),
    ("sections that are not acknowledged", unacknowledged, (SECTIONS, WITHOUT, REFERRING)),
    ("a session that is reset, and cancelled", cancels, True),
    ("an encoder stream of the server that is stopped", stops_encoder, 0x104),
    # section 4.4
    told("an acknowledgment", TYPE + ACKNOWLEDGED),
    told("an increment, and an acknowledgment", TYPE + INCREMENT + ACKNOWLEDGED),
    told("a type that is cut, and an acknowledgment", b"\x40", TYPE + ACKNOWLEDGED),
    told("a cancellation that is cut", TYPE + b"\x7f", b"\x04"),
    told("an acknowledgment of no section", TYPE + b"\x84", wanted=0x202),
    told("a second acknowledgment", TYPE + ACKNOWLEDGED, ACKNOWLEDGED, wanted=0x202),
    told("an acknowledgment of what was cancelled", TYPE + b"\x40" + ACKNOWLEDGED, wanted=0x202),
    told("an increment of 0", TYPE + b"\x00", wanted=0x202),
    told("an increment above what was inserted", TYPE + b"\x02", wanted=0x202),
    told("an increment by what was acknowledged", TYPE + ACKNOWLEDGED + INCREMENT, wanted=0x202),
    told("an increment of more than 62 bits", TYPE + b"\x3f" + b"\xff" * 10, wanted=0x202),
    told("a decoder stream that ends", TYPE + ACKNOWLEDGED, last="end", wanted=0x104),
    told("a decoder stream that is reset", TYPE + ACKNOWLEDGED, last="reset", wanted=0x104),
]
