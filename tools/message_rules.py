"""Which field sections of messages are malformed, by RFC 9114, sections 4.1.2 to 4.4, RFC 9110, RFC
8441 and RFC 9297, section 3.2.

A field is a pair of bytes. It shares no code with the programs.
"""

import re

TOKEN = re.compile(rb"[!#$%&'*+.^_`|~0-9A-Za-z-]+")
SCHEME = re.compile(rb"[A-Za-z][A-Za-z0-9+.-]*")
# A host and maybe a port (RFC 3986, sections 3.2.2 and 3.2.3); of an IP literal only its bytes.
AUTHORITY = re.compile(
    rb"(?:\[(?:[0-9A-Fa-f:.]+|[vV][\w.~!$&'()*+,;=:-]*)\]"
    rb"|(?:%[0-9A-Fa-f]{2}|[\w.~!$&'()*+,;=-])+)(?::(?P<port>[0-9]*))?",
    re.ASCII,
)
CONTROL = re.compile(rb"[\x00-\x08\x0a-\x1f\x7f]")
OF_CONNECTION = {b"connection", b"keep-alive", b"proxy-connection", b"upgrade"}
OF_CONNECTION |= {b"transfer-encoding"}
OF_REQUEST = {b":method", b":scheme", b":authority", b":path", b":protocol"}
PSEUDO = {
    "request": OF_REQUEST, "response": {b":status"}, "tunnel": {b":status"}, "trailers": set()
}
LONGEST = 2**62 - 1


def is_malformed_section(fields, kind):
    """Returns whether a section breaks a rule of all sections of this kind."""
    seen, has_regular = set(), False
    for name, value in fields:
        if CONTROL.search(value) or value.strip(b" \t") != value:
            return True
        if name.startswith(b":"):
            if name not in PSEUDO[kind] or name in seen or has_regular:
                return True
            seen.add(name)
            continue
        has_regular = True
        if not TOKEN.fullmatch(name) or name.lower() != name or name in OF_CONNECTION:
            return True
        if name == b"te" and (kind != "request" or value.lower() != b"trailers"):
            return True
    # (one in trailers is dropped, and one in the response that opens a tunnel: RFC 9110, sections
    # 6.5.1 and 9.3.6)
    return kind not in ("trailers", "tunnel") and content_length(fields) is False


def content_length(fields):
    """Returns the announced length, None if there is none, and False if it is invalid (RFC 9110,
    section 8.6)."""
    lengths = set()
    for name, value in fields:
        if name == b"content-length":
            for part in value.split(b","):
                part = part.strip(b" \t")
                if not re.fullmatch(rb"[0-9]+", part) or int(part) > LONGEST:
                    return False
                lengths.add(int(part))
    if len(lengths) > 1:
        return False
    return lengths.pop() if lengths else None


def is_malformed_request(fields, extended):
    """Returns whether a request is malformed. `extended`: extended CONNECT is allowed."""
    if is_malformed_section(fields, "request"):
        return True
    first = dict(reversed(fields))
    method, protocol = first.get(b":method"), first.get(b":protocol")
    if method is None or not TOKEN.fullmatch(method):
        return True
    if protocol is not None:
        if method != b"CONNECT" or not extended or not TOKEN.fullmatch(protocol):
            return True
    elif method == b"CONNECT":
        # (a host alone is not enough: RFC 9114, section 4.4)
        if b":scheme" in first or b":path" in first or b":authority" not in first:
            return True
        return has_wrong_authority(fields) or not port_of(first[b":authority"])
    scheme, path = first.get(b":scheme"), first.get(b":path")
    if scheme is None or path is None or not SCHEME.fullmatch(scheme):
        return True
    is_http = scheme.lower() in (b"http", b"https")
    if is_http and is_wrong_path(path, method):
        return True
    if (is_http or method == b"CONNECT") and has_wrong_authority(fields):
        return True
    if protocol == b"webtransport":
        return scheme.lower() != b"https" or has_content_fields(first)
    return False


def has_content_fields(first):
    return b"content-length" in first or b"content-type" in first


def is_wrong_path(path, method):
    """Returns whether it is no path of an http or https URI (RFC 9114, section 4.3.1)."""
    if path == b"*":
        return method != b"OPTIONS"
    return not path.startswith(b"/") or bool(re.search(rb"[\x00-\x20\x7f#]", path))


def has_wrong_authority(fields):
    """Returns whether there is no authority, or an invalid one, or two that differ (RFC 3986,
    sections 3.2.2 and 3.2.3)."""
    given = [value for name, value in fields if name == b":authority"]
    hosts = [value for name, value in fields if name == b"host"]
    both = {value.lower() for value in given + hosts}
    if len(both) != 1 or len(hosts) > 1:
        return True
    return not all(AUTHORITY.fullmatch(value) for value in both)


def port_of(authority):
    """Returns the digits of a valid authority's port, or None (RFC 9110, section 9.3.6)."""
    return AUTHORITY.fullmatch(authority)["port"]


def status_of(fields):
    """Returns the status, or None if it is missing or invalid (RFC 9110, section 15; RFC 9114,
    section 4.5)."""
    text = dict(reversed(fields)).get(b":status", b"")
    is_valid = re.fullmatch(rb"[1-9][0-9][0-9]", text) and text != b"101"
    return int(text) if is_valid else None


def is_malformed_response(fields, asked):
    """Returns whether a response to a request that asked for this is malformed."""
    status = status_of(fields)
    is_tunnel = asked == "connect" and status is not None and 200 <= status < 300
    if is_malformed_section(fields, "tunnel" if is_tunnel else "response") or status is None:
        return True
    if asked == "session" and 200 <= status < 300:
        return status in (204, 205, 206) or has_content_fields(dict(fields))
    return False


def expected_length(fields, status=None, asked=""):
    """Returns how many bytes of content a message has to have, or None if any number is right. A
    request has no status (RFC 9110, sections 6.4.1, 8.6 and 9.3.6)."""
    if status is not None:
        if asked in ("connect", "session") and 200 <= status < 300:
            return None
        if asked == "head" or status in (204, 304):
            return 0
    return content_length(fields)
