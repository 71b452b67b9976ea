"""What a decoder of QPACK sends back to an encoder (RFC 9204, section 4.4)."""

ACKNOWLEDGMENT, CANCELLATION, INCREMENT = "acknowledgment", "cancellation", "increment"


def number_in(content, bits):
    """Returns the integer after a mark, and the bytes after it (RFC 7541, section 5.1)."""
    most = (1 << bits) - 1
    value, at, shift = content[0] & most, 1, 0
    if value == most:
        while content[at - 1] & 0x80 or at == 1:
            value += (content[at] & 0x7F) << shift
            at, shift = at + 1, shift + 7
    return value, content[at:]


def instructions_in(content):
    """Yields the name of each instruction, and the stream or the increment that it says."""
    while content:
        if content[0] & 0x80:
            name, bits = ACKNOWLEDGMENT, 7
        else:
            name, bits = CANCELLATION if content[0] & 0x40 else INCREMENT, 6
        value, content = number_in(content, bits)
        yield name, value
