"""aioquic's sending part of a stream, with changes that a server for browsers needs."""
from __future__ import annotations

from aioquic.quic import packet, stream


class Sender(stream.QuicStreamSender):
    """It is reset when the peer stops it, before that is reported: what is written from then on is
    dropped, and a second reset changes nothing. An end without bytes waits for a packet with room,
    where aioquic 1.2 forgets it. The end of a stream is never in the frame with its first byte, so
    not in that with its header, for which Firefox closes the connection."""

    def get_frame(
        self, max_size: int, max_offset: int | None = None
    ) -> packet.QuicStreamFrame | None:
        frame = super().get_frame(max_size, max_offset) if max_size >= 0 else None
        if frame and frame.fin and frame.data and frame.offset == 0:
            frame.fin, self._pending_eof = False, True
        return frame

    def write(self, data: bytes, end_stream: bool = False) -> None:
        if self._reset_error_code is None:
            super().write(data, end_stream)

    def reset(self, error_code: int) -> None:
        if self._reset_error_code is None:
            super().reset(error_code)


def install() -> None:
    """Makes it the sending part of every stream."""
    stream.QuicStreamSender = Sender
