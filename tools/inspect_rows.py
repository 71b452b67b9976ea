"""Inputs of wt_inspect that break a rule, or are of another kind than the named one, and what is
shown of them.

Each row has a name, the bytes as hexadecimal digits, the arguments, the status, and what the text
has. The words are those of docs/INSPECTOR.md and of the RFCs.
"""

# HEADERS of a GET, of an extended CONNECT for WebTransport, and responses
GET = (
    "0134000027003a6d6574686f640347455427003a736368656d6505687474707327033a617574686f72697479016125"
)
GET += "3a70617468012f"
SESSION = (
    "014050000027003a6d6574686f6407434f4e4e45435427023a70726f746f636f6c0c7765627472616e73706f7274"
)
SESSION += "27003a736368656d6505687474707327033a617574686f726974790161253a70617468012f"
WEBSOCKET = "01404d000027003a6d6574686f6407434f4e4e45435427023a70726f746f636f6c09776562736f636b6574"
WEBSOCKET += "27003a736368656d6505687474707327033a617574686f726974790161253a70617468012f"
OK = "010f000027003a73746174757303323030"
OK_CAPSULES = "0124000027003a73746174757303323030270963617073756c652d70726f746f636f6c023f30"
REFUSED = "0124000027003a73746174757303343034270963617073756c652d70726f746f636f6c023f31"
# a DATA frame with the close of a session, code 7 and reason "bye"
CLOSE = "000a68430700000007627965"
TRAILERS = "0106000021780179"
# the instructions of the examples of RFC 9204, appendix B
INSERTIONS = "023fbd01c00f7777772e6578616d706c652e636f6dc10c2f73616d706c652f706174684a637573746f6d"
INSERTIONS += "2d6b65790c637573746f6d2d76616c756502810d637573746f6d2d76616c756532"
ACKNOWLEDGMENTS = "03840148"
# the head of a control stream and an empty SETTINGS
SETTINGS = "000400"
CLOSED = ("CLOSE_WEBTRANSPORT_SESSION, 7 bytes", "code = 7", "reason = bye")


def late_session(before, item):
    """Returns what is shown of a WebTransport stream of 6 bytes after this frame of a request."""
    place = len(before) // 2
    return (
        f" {item}\n",
        f"\u258c {place:<5} not read           6 bytes\n",
        f"\u258c {place:<5} fault              H3_FRAME_ERROR (0x106): only the first bytes of a",
        "(draft-ietf-webtrans-http3-02, section 4.2)\n",
    )


# the line below a capsule whose value is wrong
WRONG_VALUE = "\u258c         warning: H3_MESSAGE_ERROR: the value of a capsule is not"

ROWS = [
    # capsules of a session's response
    ("close-of-a-response", OK + CLOSE, "session-response", 0, CLOSED),
    ("close-behind-dynamic", "01040200d980" + CLOSE, "session-response", 0, CLOSED),
    ("hint-of-capsules", OK + CLOSE, "response", 0, ("hint: the payload reads as capsules",)),
    ("hint-behind-dynamic", "01040200d980" + CLOSE, "response", 0, ("hint: the payload reads",)),
    ("no-hint-of-text", OK + "000568656c6c6f", "response --strict", 0, ("DATA",)),
    # capsules only where the protocol has them
    ("websocket", WEBSOCKET + "000b818537fa213d7f9f4d5158", "bi", 0, ("11 bytes", "93    end")),
    ("capsule-protocol-false", OK_CAPSULES + CLOSE, "response", 0, ("10 bytes", "50    end")),
    ("session-refused", REFUSED + "00096e6f7420666f756e64", "response", 0, ("49    end",)),
    ("refused-session", REFUSED + "00096e6f7420666f756e64", "session-response", 0, ("49    end",)),
    # the order of frames
    (
        "data-after-trailers",
        GET + "0003616263" + TRAILERS + "0003616263",
        "bi",
        0,
        ("H3_FRAME_UNEXPECTED: DATA comes after trailers (RFC 9114, section 4.1)",),
    ),
    (
        "headers-after-trailers",
        GET + TRAILERS + TRAILERS,
        "bi --strict",
        2,
        ("H3_FRAME_UNEXPECTED: HEADERS comes after trailers (RFC 9114, section 4.1)",),
    ),
    (
        "headers-in-session",
        SESSION + TRAILERS,
        "bi",
        0,
        ("H3_FRAME_UNEXPECTED: only DATA follows a CONNECT",),
    ),
    ("forbidden-and-cut", "040533", "bi", 2, ("H3_FRAME_UNEXPECTED (0x105)",)),
    ("forbidden-and-open", "040533", "bi --open", 2, ("H3_FRAME_UNEXPECTED (0x105)",)),
    # frames of the control stream
    (
        "control-frames",
        SETTINGS + "0701040d0109030102800f07000400753d31",
        "uni --open --strict",
        0,
        ("ID 4", "ID 9", "ID 2", "ID 0", "priority = u=1"),
    ),
    (
        "empty-goaway",
        SETTINGS + "0700",
        "uni --open",
        0,
        ("H3_FRAME_ERROR: the payload is not one variable-length integer",),
    ),
    ("long-goaway", SETTINGS + "07020404", "uni --open", 0, ("H3_FRAME_ERROR",)),
    (
        "growing-goaway",
        SETTINGS + "070104070108",
        "uni --open",
        0,
        ("H3_ID_ERROR: the ID is greater",),
    ),
    (
        "shrinking-push-id",
        SETTINGS + "0d01080d0104",
        "uni --open",
        0,
        ("H3_ID_ERROR: the ID is less",),
    ),
    ("push-promise", "0506030000d1d7c1" + OK, "response", 0, ("push 3", ":method = GET")),
    (
        "second-settings",
        SETTINGS + "0400",
        "uni --open",
        0,
        ("H3_FRAME_UNEXPECTED: SETTINGS is sent",),
    ),
    # settings
    (
        "values-of-settings",
        "000406330208050701",
        "uni --open",
        0,
        ("(0x33) = 2, which is neither 0 nor 1", "H3_SETTINGS_ERROR: a setting is neither 0 nor 1"),
    ),
    (
        "repeated-unknown",
        "00040a80ffd2770180ffd27702",
        "uni --open",
        0,
        ("which is repeated", "warning: H3_SETTINGS_ERROR: a setting is repeated"),
    ),
    (
        "settings-of-drafts",
        "00042494e9cd29016b61106b64106b6510ac7cf00001c0000000c671706a0180ffd27701427601",
        "uni --open",
        0,
        (
            "SETTINGS_WT_MAX_SESSIONS",
            "SETTINGS_WT_INITIAL_MAX_DATA",
            "SETTINGS_WT_ENABLED",
            "SETTINGS_H3_DATAGRAM_DRAFT04",
        ),
    ),
    (
        "faults-of-settings-json",
        "0004083304070107020200",
        "uni --open --json",
        2,
        (
            '"name":"SETTINGS_H3_DATAGRAM","value":4,"fault":"value"}',
            '"value":2,"fault":"repeated"}',
            '"name":"HTTP/2 setting","value":0,"fault":"http2"}',
            '"code":265,"name":"H3_SETTINGS_ERROR"',
        ),
    ),
    # numbers up to 2^53 - 1, which each reader of JSON has exactly, and larger ones
    (
        "large-numbers-json",
        "00041c06ffffffffffffffff21c01fffffffffffff4040c020000000000000",
        "uni --open --json",
        0,
        (
            '"name":"SETTINGS_MAX_FIELD_SECTION_SIZE","value":"4611686018427387903"}',
            '"id":33,"name":"reserved","value":9007199254740991}',
            '"id":64,"name":"reserved","value":"9007199254740992"}',
        ),
    ),
    (
        "large-type-json",
        "c4088242d83959fa00",
        "bi --open --json",
        0,
        ('"type":"unknown","number":"290625399572486650"',),
    ),
    (
        "capsules-of-drafts",
        "990b4d3d0105990b4d400105990b4d440105800078ae00000105",
        "capsules",
        0,
        (
            "WT_MAX_DATA",
            "WT_MAX_STREAMS_UNI",
            "WT_STREAMS_BLOCKED_UNI",
            "DRAIN_WEBTRANSPORT_SESSION",
            "DATAGRAM",
        ),
    ),
    # bytes of another kind
    ("control-stream-as-bi", "00040433013301", "bi --open", 0, ("hint: ", "KIND is uni")),
    (
        "response-as-bi",
        OK_CAPSULES.replace("3f30", "3f31") + "000178",
        "bi",
        0,
        ("hint: the bytes are a response",),
    ),
    ("request-as-response", GET, "response", 0, ("hint: the bytes are a request",)),
    ("request-as-uni", GET, "uni --open", 0, ("hint: the bytes also read as a request",)),
    # how streams end
    (
        "ended-control-stream",
        SETTINGS,
        "uni",
        0,
        ("H3_CLOSED_CRITICAL_STREAM: the control stream ends (RFC 9114, section 6.2.1)",),
    ),
    ("cut-control-stream", "00040533", "uni", 2, ("H3_FRAME_ERROR (0x106)",)),
    ("open-control-stream", "00040533", "uni --open", 0, ("cut ", "at least 4 bytes missing")),
    ("ended-encoder-stream", "023fe11f", "uni", 0, ("H3_CLOSED_CRITICAL_STREAM: the encoder",)),
    (
        "capsule-cut-by-the-end",
        SESSION + "00086843070000000762",
        "bi",
        2,
        ("H3_MESSAGE_ERROR (0x10e): the stream ends within a capsule (RFC 9297, section 3.3)",),
    ),
    (
        "capsule-cut-and-open",
        SESSION + "00086843070000000762",
        "bi --open",
        0,
        ("cut ", "capsule, at least 2 bytes missing"),
    ),
    (
        "data-after-close",
        SESSION + CLOSE + "0003000178",
        "bi",
        0,
        ("H3_MESSAGE_ERROR: bytes follow the close of the session",),
    ),
    # push streams
    (
        "push-stream",
        "0105010f000027003a7374617475730332303000026869",
        "uni",
        0,
        ("push, type 0x1, push 5", ":status = 200", "DATA               2 bytes"),
    ),
    # malformed messages
    (
        "no-authority",
        "0126000027003a6d6574686f640347455427003a736368656d65056874747073253a70617468012f",
        "bi",
        0,
        ("there is no :authority or host",),
    ),
    (
        "empty-authority",
        "0133000027003a6d6574686f640347455427003a736368656d6505687474707327033a617574686f"
        "7269747900253a70617468012f",
        "bi",
        0,
        ("there is no :authority or host",),
    ),
    (
        "empty-path",
        "0133000027003a6d6574686f640347455427003a736368656d6505687474707327033a617574686f"
        "726974790161253a7061746800",
        "bi",
        0,
        (":path is empty or invalid (RFC 9114, section 4.3.1)",),
    ),
    (
        "connect-without-authority",
        "014042000027003a6d6574686f6407434f4e4e45435427023a70726f746f636f6c0c776562747261"
        "6e73706f727427003a736368656d65056874747073253a70617468012f",
        "bi",
        0,
        ("there is no :authority or host",),
    ),
    (
        "control-in-value",
        "014045000027003a6d6574686f640347455427003a736368656d6505687474707327033a61757468"
        "6f726974790161253a70617468012f217806611b5b33316d2179017f217a0101",
        "bi",
        0,
        ("field 5: H3_MESSAGE_ERROR: a field value has a control character",),
    ),
    (
        "control-in-value-json",
        "014045000027003a6d6574686f640347455427003a736368656d6505687474707327033a61757468"
        "6f726974790161253a70617468012f217806611b5b33316d2179017f217a0101",
        "bi --json",
        0,
        ('"line":5,"code":270,"name":"H3_MESSAGE_ERROR"', '"line":7,'),
    ),
    (
        "status-of-text",
        "010f000027003a73746174757303616263",
        "response",
        0,
        (":status is not of three digits",),
    ),
    (
        "status-101",
        "010f000027003a73746174757303313031",
        "response",
        0,
        (":status is not of three digits",),
    ),
    (
        "no-final-response",
        "010f000027003a73746174757303313033",
        "response",
        0,
        ("the stream ends without a final response",),
    ),
    (
        "short-content",
        "014046000027003a6d6574686f640347455427003a736368656d6505687474707327033a61757468"
        "6f726974790161253a70617468012f2707636f6e74656e742d6c656e67746801350003616263",
        "bi",
        0,
        ("the content is shorter than content-length",),
    ),
    (
        "two-lengths",
        "014058000027003a6d6574686f640347455427003a736368656d6505687474707327033a61757468"
        "6f726974790161253a70617468012f2707636f6e74656e742d6c656e67746801332707636f6e7465"
        "6e742d6c656e67746801340003616263",
        "bi",
        0,
        ("content-length is not a number, or there are two",),
    ),
    (
        "host-differs",
        "013e000027003a6d6574686f640347455427003a736368656d6505687474707327033a617574686f"
        "726974790161253a70617468012f24686f7374046576696c",
        "bi",
        0,
        (":authority and host differ",),
    ),
    # whole control streams, and settings and capsules
    (
        "ended-control-frames",
        "0004000701040d0109030102800f07000500753d3107020404",
        "uni",
        2,
        ("ID 4", "ID 9", "ID 2", "ID 0", "H3_FRAME_UNEXPECTED (0x105): the frame type is one of"),
    ),
    (
        "bad-ids-of-frames",
        "000400070204040701080701100d020505",
        "uni --strict",
        2,
        (
            "H3_FRAME_ERROR: the payload is not one variable-length integer",
            "ID 8",
            "ID 16",
            "H3_ID_ERROR: the ID is greater than that of the last GOAWAY (RFC 9114, section 5.2)",
            "H3_CLOSED_CRITICAL_STREAM: the control stream ends",
        ),
    ),
    (
        "priority",
        "000400800f07000600753d312c69",
        "uni",
        0,
        ("PRIORITY_UPDATE    6 bytes", "ID 0", "priority = u=1,i"),
    ),
    (
        "ended-insertions",
        "023fe11fc0036162634461626364027879",
        "uni",
        0,
        ("QPACK encoder, type 0x2", "        abcd = xy\n", "the encoder or decoder stream"),
    ),
    (
        "all-capsules-of-drafts",
        "990b4d3d0105990b4d3e020405990b4d3f0105990b4d400105990b4d410105990b4d42020405990b4d43"
        "0105990b4d440105800078ae00000105",
        "capsules --strict",
        0,
        (
            "WT_MAX_STREAM_DATA",
            "WT_MAX_STREAMS_BIDI",
            "WT_DATA_BLOCKED",
            "WT_STREAM_DATA_BLOCKED",
            "WT_STREAMS_BLOCKED_BIDI",
            "58    end",
        ),
    ),
    (
        "capsules-of-one-number",
        "990b4d3d0105990b4d3e0105990b4d3f0105990b4d400105990b4d410105990b4d420105990b4d430105"
        "990b4d440105800078ae0105000105",
        "capsules --strict",
        2,
        (
            f"WT_MAX_STREAM_DATA, 1 byte\n{WRONG_VALUE}",
            f"WT_STREAM_DATA_BLOCKED, 1 byte\n{WRONG_VALUE}",
            f"DRAIN_WEBTRANSPORT_SESSION, 1 byte\n{WRONG_VALUE}",
            "54    capsule            DATAGRAM, 1 byte\n\u258c 57    end\n",
        ),
    ),
    # a close that announces more than its code and 1024 bytes is too long, however it goes on
    (
        "long-close-is-cut",
        "68434405" + "00000007627965",
        "capsules --open",
        2,
        ("CLOSE_WEBTRANSPORT_SESSION, 1029 bytes", "0     fault", "H3_DATAGRAM_ERROR"),
    ),
    (
        "longest-close-is-cut",
        "68434404" + "00000007627965",
        "capsules --open",
        0,
        ("CLOSE_WEBTRANSPORT_SESSION, 1028 bytes", "cut", "at least 1021 bytes missing"),
    ),
    # reasons of a close that are hard to show
    (
        "reason-with-direction",
        "6843120000000062796520e280ae676e702e657865",
        "capsules",
        0,
        (r"reason = bye \xe2\x80\xaegnp.exe",),
    ),
    (
        "reason-with-markup",
        SESSION + "001e68431b0000000762796520e280ae3c2f7363726970743e3c212d2d20c285",
        "bi --strict",
        0,
        ("code = 7", r"reason = bye \xe2\x80\xae</script><!-- \xc2\x85"),
    ),
    (
        "reason-with-lines",
        SESSION + "001968431600000007627965201b5b33316d070a30206661756c74",
        "bi --strict",
        0,
        (r"reason = bye \x1b[31m\x07\x0a0 fault",),
    ),
    # more messages
    (
        "capsule-protocol-of-get",
        "014049000027003a6d6574686f640347455427003a736368656d6505687474707327033a617574686f"
        "726974790161253a70617468012f270963617073756c652d70726f746f636f6c023f310003000178",
        "bi",
        0,
        (" request            HEADERS", "DATA               3 bytes", "81    end"),
    ),
    (
        "session-of-later-drafts",
        "014053000027003a6d6574686f6407434f4e4e45435427023a70726f746f636f6c0f776562747261"
        "6e73706f72742d683327003a736368656d6505687474707327033a617574686f726974790161253a"
        "70617468012f000768430400000001",
        "bi --strict",
        0,
        ("session request", "CLOSE_WEBTRANSPORT_SESSION, 4 bytes", "code = 1"),
    ),
    (
        "two-frames-of-websocket",
        WEBSOCKET + "000b818537fa213d7f9f4d5158000b888537fa213d7f9f4d5158",
        "bi --strict",
        0,
        ("80    DATA               11 bytes", "93    DATA               11 bytes", "106   end"),
    ),
    (
        "trailers-after-content",
        GET + "0003616263" + TRAILERS + TRAILERS,
        "bi --strict",
        2,
        ("H3_FRAME_UNEXPECTED: HEADERS comes after trailers",),
    ),
    (
        "trailers-in-session",
        SESSION + CLOSE + TRAILERS,
        "bi --strict",
        2,
        CLOSED + ("H3_FRAME_UNEXPECTED: only DATA follows a CONNECT",),
    ),
    (
        "data-after-interim-response",
        OK.replace("323030", "313033") + "000178",
        "response --strict",
        2,
        (
            "17    DATA               1 byte\n",
            "DATA comes before HEADERS (RFC 9114, section 4.1)\n\u258c 20    end\n",
        ),
    ),
    (
        "data-before-headers",
        "0003616263",
        "bi --strict",
        2,
        ("H3_FRAME_UNEXPECTED: DATA comes before HEADERS (RFC 9114, section 4.1)",),
    ),
    (
        "two-final-responses",
        OK + OK,
        "response --strict",
        2,
        ("field 1: H3_MESSAGE_ERROR: a trailer section has a pseudo-header",),
    ),
    # heads of WebTransport streams
    (
        "session-in-a-response",
        "404100616263",
        "response",
        2,
        ("not read           6 bytes", "H3_FRAME_UNEXPECTED (0x105): only the first bytes of"),
    ),
    (
        "session-of-no-frame",
        "404100616263",
        "bi --strict",
        0,
        ("0     WebTransport       session 0\n", "3     payload            3 bytes\n"),
    ),
    *(
        (f"session-after-{name}", before + "404100616263", "bi", 2, late_session(before, item))
        for name, before, item in (
            ("unknown", "404200", "unknown frame      0x42, 0 bytes"),
            ("reserved", "2100", "reserved frame     0x21, 0 bytes"),
            ("goaway", "070104", "GOAWAY             1 byte"),
            ("unknown-and-reserved", "4042016121024142", "reserved frame     0x21, 2 bytes"),
            ("data", "0000", "DATA               0 bytes"),
        )
    ),
    ("odd-session-after-unknown", "404200404101", "bi", 2, ("H3_ID_ERROR (0x108): a session ID",)),
    (
        "session-3",
        "405403616263",
        "uni",
        2,
        ("H3_ID_ERROR (0x108): a session ID is a multiple of 4",),
    ),
    # instructions
    (
        "encoder-stream",
        INSERTIONS,
        "uni --open --strict",
        0,
        (
            "1     instruction        Set Dynamic Table Capacity 220, 3 bytes\n",
            "4     instruction        Insert with Name Reference, static 0, 17 bytes\n",
            "        :authority = www.example.com\n",
            "21    instruction        Insert with Name Reference, static 1, 14 bytes\n",
            "        :path = /sample/path\n",
            "35    instruction        Insert with Literal Name, 24 bytes\n",
            "        custom-key = custom-value\n",
            "59    instruction        Duplicate, 1 byte\n",
            "        (dynamic 2)\n",
            "60    instruction        Insert with Name Reference, 15 bytes\n",
            "        (dynamic 1) = custom-value2\n",
            "75    end",
        ),
    ),
    (
        "encoder-stream-json",
        INSERTIONS,
        "uni --open --json",
        0,
        (
            '"item":"instruction","type":"Set Dynamic Table Capacity","capacity":220}',
            '"static":1,"field":[":path","/sample/path"]}',
            '"type":"Insert with Literal Name","field":["custom-key","custom-value"]}',
            '"type":"Duplicate","field":[{"dynamic":2}]}',
            '"field":[{"dynamic":1},"custom-value2"]}',
        ),
    ),
    (
        "encoder-stream-page",
        INSERTIONS,
        "uni --open --html",
        0,
        ("Insert with Literal Name, 24 bytes", "custom-key = custom-value"),
    ),
    (
        "decoder-stream",
        ACKNOWLEDGMENTS,
        "uni --open --strict",
        0,
        (
            "1     instruction        Section Acknowledgment, stream 4, 1 byte\n",
            "2     instruction        Insert Count Increment 1, 1 byte\n",
            "3     instruction        Stream Cancellation, stream 8, 1 byte\n",
            "4     end",
        ),
    ),
    (
        "decoder-stream-json",
        ACKNOWLEDGMENTS,
        "uni --open --json",
        0,
        (
            '"type":"Section Acknowledgment","stream":4}',
            '"type":"Insert Count Increment","increment":1}',
            '"type":"Stream Cancellation","stream":8}',
        ),
    ),
    *(
        (f"cut-instruction-{length}", INSERTIONS[: 2 * length], "uni", 0, (f"{at}     cut ",))
        for at, lengths in ((1, range(2, 4)), (4, range(5, 21)))
        for length in lengths
    ),
    ("cut-acknowledgment", "03ff80", "uni --open", 0, ("1     cut ", "at least 1 byte missing")),
    (
        "long-capacity",
        "023fffffffffffffffffff02",
        "uni --open",
        2,
        ("QPACK_ENCODER_STREAM_ERROR (0x201): an integer is above 2^64 - 1",),
    ),
    (
        "no-static-entry",
        "02ff240161",
        "uni --open",
        2,
        ("QPACK_ENCODER_STREAM_ERROR (0x201): the static table has no entry of this index",),
    ),
    ("last-static-entry", "02ff230161", "uni --open", 0, ("static 98", "x-frame-options = a")),
    (
        "no-huffman-text",
        "0241618100",
        "uni --open",
        2,
        ("QPACK_ENCODER_STREAM_ERROR (0x201): a string is not Huffman text",),
    ),
    (
        "no-increment",
        "03018400",
        "uni --open",
        2,
        ("3     fault", "QPACK_DECODER_STREAM_ERROR (0x202): an increment is 0"),
    ),
    (
        "long-acknowledgment",
        "03ffffffffffffffffffff02",
        "uni --open",
        2,
        ("QPACK_DECODER_STREAM_ERROR (0x202): an integer is above 2^64 - 1",),
    ),
    # the values of capsules
    (
        "limits",
        "990b4d3d0480010000990b4d3e030840c8990b4d400103990b4d410480000005",
        "capsules --strict",
        0,
        (
            "WT_MAX_DATA, 4 bytes\n",
            "            limit = 65536\n",
            "WT_MAX_STREAM_DATA, 3 bytes\n",
            "            stream = 8\n",
            "            limit = 200\n",
            "WT_MAX_STREAMS_UNI, 1 byte\n",
            "            limit = 3\n",
            "WT_DATA_BLOCKED, 4 bytes\n",
            "            limit = 5\n",
        ),
    ),
    (
        "limits-in-data",
        SESSION + "0007990b4d42030840" + "000164" + "0006990b4d430107",
        "bi --open",
        0,
        ("            stream = 8\n", "            limit = 100\n", "limit = 7\n"),
    ),
    (
        "limits-in-data-json",
        SESSION + "0008990b4d4203084064",
        "bi --open --json",
        0,
        ('"type":"WT_STREAM_DATA_BLOCKED","number":420171074,"payload":3,"stream":8,"limit":100}',),
    ),
    *(
        (
            f"no-limit-{number}",
            digits,
            "capsules --strict",
            2,
            ("H3_MESSAGE_ERROR: the value of a capsule is not that of its type (RFC 9297",),
        )
        for number, digits in enumerate(
            ("990b4d3d00", "990b4d3d020101", "990b4d3e0108", "990b4d3e03080101", "800078ae0100")
        )
    ),
    ("empty-drain", "800078ae00", "capsules --strict", 0, ("DRAIN_WEBTRANSPORT_SESSION, 0",)),
    ("datagram-capsule", "0003616263", "capsules --strict", 0, ("DATAGRAM, 3 bytes",)),
    (
        "no-limit-in-data",
        SESSION + "0005990b4d3d00",
        "bi --open --strict",
        2,
        ("H3_MESSAGE_ERROR: the value of a capsule is not that of its type",),
    ),
    # datagrams and field sections
    (
        "quarter-too-large",
        "d000000000000000",
        "datagram",
        2,
        ("H3_DATAGRAM_ERROR (0x33): a quarter stream ID is below 2^60 (RFC 9297, section 2.1)",),
    ),
    (
        "reference-with-count-0",
        "0000d180",
        "section",
        2,
        (":method = GET", "QPACK_DECOMPRESSION_FAILED (0x200): a line refers to an entry"),
    ),
    (
        "negative-base",
        "0080d1d7",
        "section",
        2,
        ("QPACK_DECOMPRESSION_FAILED (0x200): the Base is negative (RFC 9204, section 4.5.1.2)",),
    ),
    (
        "huge-insert-count",
        "ffffffffffff7f00d1",
        "section --json",
        0,
        ('[":method","GET"]', '"insert_count":4398046511358'),
    ),
    # no bytes
    ("no-capsules", "", "capsules --strict", 0, ("0     end",)),
    ("no-stream-type", "", "uni --strict", 0, ("0     end",)),
    ("no-request", "", "bi --strict", 0, ("0     end",)),
    ("no-datagram", "", "datagram", 2, ("H3_DATAGRAM_ERROR (0x33): a datagram begins with",)),
    ("no-section", "", "section", 2, ("QPACK_DECOMPRESSION_FAILED (0x200): a field section",)),
]
