"""Field lines of requests that are hard to show: they imitate what wt_inspect writes, control a
terminal, change the direction of text, are not seen, are markup, or are long."""

GET = [(b":method", b"GET"), (b":scheme", b"https"), (b":authority", b"a"), (b":path", b"/")]

# What changes the direction of text, or is not seen, and what looks like other text.
DIRECTIONS = [
    ("x-rlo", "user\u202egnp.exe"),
    ("x-rli", "a\u2067b\u2066c"),
    ("x-lre", "\u202aabc"),
    ("x-pdf", "\u202c"),
    ("x-rlm", "\u200fabc \u05d0\u05d1"),
    ("x-unclosed", "\u202e 0 end whole \u2067"),
    ("after", "this line is plain"),
    ("\u202eeman", "v"),
    ("x-zero-width", "a\u200bb\u200cc\u200dd\ufeffe\u2060f"),
    ("x-line-sep", "one\u2028two\u2029three"),
    ("x-nel", "one\u0085two"),
    ("x-soft-hyphen", "a\u00adb"),
    ("x-tag", "a\U000e0041\U000e0042b"),
    ("x-combining", "Z" + "\u0301\u0336\u0489" * 40),
    ("x-emoji", "\U0001f469\u200d\U0001f4bb"),
    ("x-homoglyph", "p\u0430ypal"),
    ("x-surrogate", b"\xed\xa0\x80"),
    ("x-overlong", b"\xc0\xaf"),
    ("x-noncharacter", "\uffff\U0010ffff"),
    ("x-annot", "\ufff9a\ufffab\ufffb"),
    ("x-hangul-filler", "a\u3164b\u115f"),
]
MARKUP = [
    ("x-1", "</script><script>document.title=\"pwned\"</script>"),
    ("x-2", "<!--"),
    ("x-3", "-->"),
    ("x-4", "<!-- <script>"),
    ("x-5", "]]><![CDATA["),
    ("x-6", "\"><img src=x onerror=document.title=1>"),
    ("x-7", "' onmouseover='document.title=1"),
    ("x-8", "&lt;&#60;&amp;&nbsp;"),
    ("x-9", "</pre></span></main></body></html>"),
    ("<b>", "x"),
    ("x-10", "${1}`"),
    ("x-11", "<style>*{display:none}</style>"),
    ("x-12", "<meta http-equiv=refresh content=\"0;url=http://127.0.0.1:9/\">"),
    ("x-13", "<base href=//evil>"),
    ("x-14", "<plaintext>"),
    ("x-15", "</title><h1>"),
    ("x-16", b"\xc0\xbcscript\xc0\xbe"),
    ("x-17", "+ADw-script+AD4-"),
]
TERMINAL = [
    ("x-csi", "\x1b[31;5mred\x1b[2J\x1b[H"),
    ("x-osc", "\x1b]0;pwned\x07\x1b]8;;http://evil\x1b\\link"),
    ("x-dcs", "\x1bP+q\x1b\\"),
    ("x-c1", "\u009b31m\u009d0;t\u009c"),
    ("x-raw-c1", b"\x9b31m"),
    ("x-bell", "\x07"),
    ("x-bs", "abc\x08\x08\x08xyz"),
    ("x-cr", "aaa\rbbb"),
    ("x-lf", "a\n0     fault     H3_NO_ERROR (0x100): nothing\nb"),
    ("x-nul", "a\0b"),
    ("x-tab", "a\tb"),
    ("x-del", "\x7f"),
    ("x-vt", "\v\f"),
    ("x-inv", b"\xff\xfe\xc3("),
    ("x-back", "\\x1b[31m"),
    ("x-empty", ""),
    ("x-space", "  v  "),
    ("x-eq = y", "z"),
    ("", "empty name"),
    ("x-sp", " = "),
    ("X-UP", "1"),
]
# Lines of the output, at the columns at which a terminal and a page may wrap the value.
LINES = "".join(
    (
        f"{'ok':71}",
        f"{'56    DATA               5 bytes':88}",
        f"{'63    fault              InternalError (0x102): server said so':88}",
        "63    end",
    )
)
LONG_VALUES = [
    (
        "user-agent",
        "Mozilla/5.0 (X11; Linux x86_64) AppleWebKit/537.36 (KHTML, like Gecko) Chrome/156.0.0.0"
        " Safari/537.36",
    ),
    ("cookie", "session=" + "0123456789abcdef" * 128),
    ("authorization", "Bearer " + "eyJhbGciOi" * 60),
    ("accept", "*/*"),
]


def as_fields(lines):
    """Returns a request with these lines, each as bytes."""
    encoded = [[part if isinstance(part, bytes) else part.encode() for part in x] for x in lines]
    return GET + [tuple(line) for line in encoded]


FIELDS = {
    "directions": as_fields(DIRECTIONS),
    "markup": as_fields(MARKUP),
    "terminal": as_fields(TERMINAL),
    "imitated-lines": as_fields([("x-fake", LINES)]),
    "long-values": as_fields(LONG_VALUES),
    "long-name": as_fields([("n" * 61440, "v"), ("x", "w" * 61440)]),
    "long-escapes": as_fields([("x", "\x1b" * 61440)]),
}
