"""What tshark reads of a capture: the UDP datagrams, and the QUIC packets and frames in them.

    reading = Reading(capture, keys)
    for datagram in reading.datagrams(): ..
    reading.complaints      # what tshark says of the file, once they are read

Tried with tshark 4.0.17 and 4.4.19.
"""

import json
import os
import subprocess
import tempfile
from dataclasses import dataclass, field

# The packet number spaces of the types of packets that have frames (RFC 9000, sections 12.3 and
# 17.2; RFC 9369, section 3.2).
APPLICATION = "Application"
TYPES = {
    "quic.long.packet_type": {0: "Initial", 1: APPLICATION, 2: "Handshake"},
    "quic.long.packet_type_v2": {1: "Initial", 2: APPLICATION, 3: "Handshake"},
}
LAYERS = "frame ip ipv6 udp quic"
# Messages of ICMP repeat the packets that they are about.
PACKETS = "udp and not icmp and not icmpv6"
# What tshark writes whatever the file is.
USUAL = "Running as user"


class Incomplete(Exception):
    """A frame ends early."""


class Tree(list):
    """An object of tshark's JSON, in which names are repeated: a list of pairs."""

    def all(self, name):
        """Returns the values of a name."""
        return [value for key, value in self if key == name]

    def trees(self, name):
        """Returns the values of a name that are objects. tshark writes a text instead of one where
        a packet is cut or malformed."""
        return [value for value in self.all(name) if isinstance(value, Tree)]

    def get(self, name, otherwise=None):
        """Returns the first value of a name."""
        return next((value for key, value in self if key == name), otherwise)

    def number(self, name):
        """Returns the first value of a name as a number, or None."""
        value = self.get(name)
        return None if value is None else int(value, 0)

    def need(self, name):
        """Returns the first value of a name as a number.

        Raises Incomplete if there is none."""
        value = self.number(name)
        if value is None:
            raise Incomplete
        return value

    def numbers(self, name):
        """Returns the values of a name as numbers."""
        return [int(value, 0) for value in self.all(name)]

    def content(self, name):
        """Returns the first value of a name as bytes; there are none if tshark leaves it out."""
        return bytes.fromhex(self.get(name, "").replace(":", ""))

    def find(self, name):
        """Returns the first value of a name at any depth, or None."""
        for key, value in self:
            if key == name:
                return value
            if isinstance(value, Tree) and (found := value.find(name)) is not None:
                return found
        return None


@dataclass
class Packet:
    """A QUIC packet: its number space, its number, and its frames. One that could not be decrypted
    has none. (A packet has at least one frame: RFC 9000, section 12.4.)"""

    space: str
    number: int = None
    frames: list = field(default_factory=list)


@dataclass
class Datagram:
    """A UDP datagram: the number of its frame in the capture, its addresses, its bytes, whether the
    capture has it whole, the number of its connection in tshark, its QUIC packets and whether one
    more is a Retry, whether tshark calls something in it malformed, and whether it is of a protocol
    that is not QUIC."""

    number: int
    source: tuple
    destination: tuple
    content: bytes
    is_whole: bool
    connection: int = None
    packets: list = field(default_factory=list)
    has_retry: bool = False
    is_malformed: bool = False
    is_other: bool = False

    def is_like_quic(self):
        """Returns whether it may be of a QUIC connection, and is nothing that tshark knows: it has
        the fixed bit (RFC 9000, section 17.3)."""
        return not self.is_other and bool(self.content) and bool(self.content[0] & 0x40)


class Reading:
    """A capture, read with a key log."""

    def __init__(self, capture, keys):
        self.capture, self.keys, self.complaints = capture, keys, []

    def command(self):
        """Returns the command. HTTP/3 is not read, so that no fault in it ends a packet early, and
        names are not looked up."""
        command = ["tshark", "-n", "-r", self.capture, "-o", f"tls.keylog_file:{self.keys}"]
        return [*command, "--disable-protocol", "http3", "-Y", PACKETS, "-T", "json", "-J", LAYERS]

    def datagrams(self):
        """Yields the datagrams. tshark has a folder of its own for settings, so those of the user
        do not count."""
        with tempfile.TemporaryDirectory() as folder, tempfile.TemporaryFile("w+") as errors:
            with subprocess.Popen(
                self.command(),
                env={**os.environ, "WIRESHARK_CONFIG_DIR": folder, "LC_ALL": "C.UTF-8"},
                stdout=subprocess.PIPE,
                stderr=errors,
                text=True,
                errors="replace",
            ) as process:
                for tree in trees_in(process.stdout):
                    yield datagram_of(tree.get("_source").get("layers"))
            errors.seek(0)
            lines = (line.strip() for line in errors)
            self.complaints = [line for line in lines if line and not line.startswith(USUAL)]
            if process.returncode and not self.complaints:
                self.complaints = [f"tshark ended with status {process.returncode}"]


def trees_in(lines):
    """Yields the objects of tshark's JSON, a list in which each begins and ends on a line of its
    own."""
    part = []
    for line in lines:
        if line.startswith("  "):
            part.append(line)
            if line.startswith("  }"):
                yield json.loads("".join(part).rstrip().rstrip(","), object_pairs_hook=Tree)
                part = []


def datagram_of(layers):
    """Returns the datagram of a packet of the capture, by the layers that tshark shows."""
    frame, udp = layers.get("frame"), layers.get("udp")
    ip = layers.get("ip") or layers.get("ipv6") or Tree()
    family = "ip" if layers.get("ip") else "ipv6"
    ends = [
        (ip.get(f"{family}.{end}", "?"), udp.number(f"udp.{end}port")) for end in ("src", "dst")
    ]
    datagram = Datagram(
        frame.number("frame.number"),
        *ends,
        udp.content("udp.payload"),
        frame.number("frame.cap_len") == frame.number("frame.len"),
        is_malformed=layers.get("_ws.malformed") is not None,
        is_other=not frame.get("frame.protocols", "").endswith(("udp:data", "udp:quic")),
    )
    for quic in layers.trees("quic"):
        information = quic.get("QUIC Connection information")
        if information and datagram.connection is None:
            datagram.connection = information.number("quic.connection.number")
        datagram.has_retry |= quic.get("quic.retry_token") is not None
        if packet := packet_of(quic):
            datagram.packets.append(packet)
    return datagram


def packet_of(quic):
    """Returns the QUIC packet, or None for what has no frames: Retry, Version Negotiation, and
    bytes after the packets."""
    short = quic.get("quic.short")
    space = APPLICATION if short is not None else None
    for name, spaces in TYPES.items():
        if quic.get(name) is not None and quic.number("quic.version") != 0:
            space = spaces.get(quic.number(name))
    if space is None or is_padding(quic):
        return None
    number = (quic if short is None else short).number("quic.packet_number")
    return Packet(space, number, quic.trees("quic.frame"))


def is_padding(quic):
    """Returns whether these are bytes after the packets of a datagram, which some stacks fill with
    zeros. tshark takes them for a packet with a short header."""
    short = quic.get("quic.short") or Tree()
    rest = quic.content("quic.remaining_payload")
    return short.get("quic.fixed_bit") == "0" and bool(rest) and not rest.strip(b"\0")
