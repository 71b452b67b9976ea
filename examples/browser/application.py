"""What a server does with requests and sessions."""
from __future__ import annotations

from typing import TYPE_CHECKING

from wtransport import Fields

if TYPE_CHECKING:
    from sessions import Session, Stream


class Application:
    """The methods by which a server is told of what comes. Each may be left as it is."""

    def request(self, fields: Fields) -> tuple[int, Fields, bytes]:
        """Answers a request that has ended: (status, fields, content)."""
        return 404, [], b"not found\n"

    def session(self, session: Session, fields: Fields) -> int:
        """Answers the request of a session: its status. 200 accepts it."""
        return 200

    def opened(self, session: Session) -> None:
        """A session is open."""

    def received(self, stream: Stream, data: bytes, end: bool) -> None:
        """Bytes of a stream of a session came, or its end."""

    def was_reset(self, stream: Stream, code: int | None) -> None:
        """The peer reset a stream of a session, with an application's code if it has one."""

    def was_stopped(self, stream: Stream, code: int | None) -> None:
        """The peer asked to send no more on a stream of a session."""

    def datagram(self, session: Session, payload: bytes) -> None:
        """A datagram of a session came."""

    def closed(self, session: Session, code: int | None, reason: str) -> None:
        """A session is over. Without a code it was not closed, but lost."""

    def settings(self, settings: dict[int, int]) -> None:
        """The SETTINGS of the peer came."""
