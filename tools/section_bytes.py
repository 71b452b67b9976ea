"""The field sections in the bytes of a recorded stream."""

HEADERS = 1


def number_at(content, at):
    """Returns the number at an offset, and the offset after it."""
    size = 1 << (content[at] >> 6)
    value = int.from_bytes(content[at : at + size], "big") & ((1 << (8 * size - 2)) - 1)
    return value, at + size


def sections_in(content):
    """Yields the field sections of the HEADERS frames in the bytes of a stream."""
    at = 0
    while at < len(content):
        kind, at = number_at(content, at)
        size, at = number_at(content, at)
        if at + size > len(content):
            return
        if kind == HEADERS:
            yield content[at : at + size]
        at += size
