package vesgrauf

// The numbers of the header.

// #include <wtransport.h>
import "C"

// The sides of a connection.
const (
	SideClient Side = C.WT_SIDE_CLIENT
	SideServer Side = C.WT_SIDE_SERVER
)

// What an own request asks for.
const (
	// AskedOther is any other request.
	AskedOther Asked = C.WT_ASKED_OTHER
	// AskedHead is a HEAD request, whose responses have no content.
	AskedHead Asked = C.WT_ASKED_HEAD
	// AskedConnect is a CONNECT request other than for a session, whose 2xx response opens a tunnel.
	AskedConnect Asked = C.WT_ASKED_CONNECT
	// AskedSession is a request for a session.
	AskedSession Asked = C.WT_ASKED_SESSION
)

// What is known of the session of a stream or a datagram.
const (
	// KnownComing says that its request has not come, or has no answer yet.
	KnownComing Known = C.WT_KNOWN_COMING
	// KnownOpen says that it is open.
	KnownOpen Known = C.WT_KNOWN_OPEN
	// KnownOver says that it is over.
	KnownOver Known = C.WT_KNOWN_OVER
	// KnownRefused says that its request was refused, or ended before its HEADERS.
	KnownRefused Known = C.WT_KNOWN_REFUSED
	// KnownOther says that its request asked for no session.
	KnownOther Known = C.WT_KNOWN_OTHER
	// KnownImpossible says that no session can have this ID.
	KnownImpossible Known = C.WT_KNOWN_IMPOSSIBLE
)

// What is to be done with a datagram.
const (
	// DatagramDeliver says that it is the application's.
	DatagramDeliver DatagramFor = C.WT_DATAGRAM_DELIVER
	// DatagramEarly says that its session is to come. It may be kept for about a round trip, and otherwise is
	// to be dropped. Limit how many are kept.
	DatagramEarly DatagramFor = C.WT_DATAGRAM_EARLY
	// DatagramDiscard says that it is to be dropped.
	DatagramDiscard DatagramFor = C.WT_DATAGRAM_DROP
	// DatagramEndStream says that it is to be dropped, and the stream with the session's ID is to be reset
	// and stopped with H3DatagramError.
	DatagramEndStream DatagramFor = C.WT_DATAGRAM_END_STREAM
)

// What a stream of the peer is for.
const (
	PurposeControl Purpose = C.WT_PURPOSE_CONTROL
	// PurposeEncoder and PurposeDecoder are the streams of QPACK.
	PurposeEncoder Purpose = C.WT_PURPOSE_ENCODER
	PurposeDecoder Purpose = C.WT_PURPOSE_DECODER
	// PurposeSession is a stream of a session, of Connection.Stopped alone: of what comes EventJoins tells.
	PurposeSession Purpose = C.WT_PURPOSE_SESSION
	// PurposeMessage is a request, on a stream that a client opened.
	PurposeMessage Purpose = C.WT_PURPOSE_MESSAGE
	// PurposeIgnored is a stream of an unknown or a reserved type.
	PurposeIgnored Purpose = C.WT_PURPOSE_IGNORED
)

// What a field section of a message is.
const (
	HeadersRequest HeadersKind = C.WT_HEADERS_REQUEST
	// HeadersInterim is the header section of an interim response, with a status from 100 to 199. Another
	// response follows.
	HeadersInterim  HeadersKind = C.WT_HEADERS_INTERIM
	HeadersResponse HeadersKind = C.WT_HEADERS_RESPONSE
	HeadersTrailers HeadersKind = C.WT_HEADERS_TRAILERS
)

// Why a stream waits.
const (
	WaitsNothing WaitsFor = C.WT_WAITS_NOTHING
	// WaitsSession is for a session, until Connection.Join says what became of it.
	WaitsSession WaitsFor = C.WT_WAITS_SESSION
	// WaitsSettings is for the SETTINGS of the peer: the stream has a request for a session
	// (draft-ietf-webtrans-http3-07, section 3.1).
	WaitsSettings WaitsFor = C.WT_WAITS_SETTINGS
	// WaitsAnswer is for the answer to its CONNECT request, until Stream.Answer.
	WaitsAnswer WaitsFor = C.WT_WAITS_ANSWER
)

// The kinds of frames.
const (
	FrameData     FrameKind = C.WT_FRAME_DATA
	FrameHeaders  FrameKind = C.WT_FRAME_HEADERS
	FrameSettings FrameKind = C.WT_FRAME_SETTINGS
	// FrameWebTransport is at the start of a bidirectional stream of a session. It has no payload: all bytes
	// after it are the application's.
	FrameWebTransport FrameKind = C.WT_FRAME_WEBTRANSPORT
)

// The roles of a stream whose frames are read.
const (
	// RoleBiRemote is a bidirectional stream that the peer opened: DATA, HEADERS, and a WebTransport frame as
	// the first.
	RoleBiRemote StreamRole = C.WT_READ_BI_REMOTE
	// RoleBiLocal is a bidirectional stream that was opened here: DATA, HEADERS.
	RoleBiLocal StreamRole = C.WT_READ_BI_LOCAL
	// RoleUniRemote is the peer's control stream, after its header: SETTINGS.
	RoleUniRemote StreamRole = C.WT_READ_CONTROL
	// RoleSession is the stream of a session, after the request or the response: DATA, HEADERS.
	RoleSession StreamRole = C.WT_READ_SESSION
)

// What a FrameCursor and a CapsuleCursor read and leave.
const (
	// MaxFramePayload is the longest payload that FrameCursor.Next reads: a longer one is an error.
	MaxFramePayload = C.WT_MAX_FRAME_PAYLOAD
	// MaxFrameRest is the most bytes that FrameCursor.Next leaves to be passed again.
	MaxFrameRest = C.WT_MAX_FRAME_REST
	// MaxCapsuleValue is the longest value that CapsuleCursor.Next reads.
	MaxCapsuleValue = C.WT_MAX_CAPSULE_VALUE
	// MaxCapsuleRest is the most bytes that CapsuleCursor.Next leaves to be passed again.
	MaxCapsuleRest = C.WT_MAX_CAPSULE_REST
	// MaxCloseReason is the longest reason of a CloseWebTransportSession, in bytes.
	MaxCloseReason = C.WT_MAX_CLOSE_REASON
)

// noGoaway is the last ID before the first GOAWAY.
const noGoaway = C.WT_NO_GOAWAY

// The kinds of unidirectional streams.
const (
	StreamControl      StreamKind = C.WT_STREAM_CONTROL
	StreamQPACKEncoder StreamKind = C.WT_STREAM_QPACK_ENCODER
	StreamQPACKDecoder StreamKind = C.WT_STREAM_QPACK_DECODER
	StreamWebTransport StreamKind = C.WT_STREAM_WEBTRANSPORT
)

// The settings with a name.
const (
	// SettingQPACKMaxTableCapacity is the largest capacity of the dynamic table, in bytes (RFC 9204, section 5).
	SettingQPACKMaxTableCapacity SettingID = C.WT_SETTING_QPACK_MAX_TABLE_CAPACITY
	// SettingMaxFieldSectionSize is the largest field section, in bytes (RFC 9114, section 7.2.4.1).
	SettingMaxFieldSectionSize SettingID = C.WT_SETTING_MAX_FIELD_SECTION_SIZE
	// SettingQPACKBlockedStreams says how many streams may be blocked (RFC 9204, section 5).
	SettingQPACKBlockedStreams SettingID = C.WT_SETTING_QPACK_BLOCKED_STREAMS
	// SettingEnableConnectProtocol says that extended CONNECT is supported (RFC 9220, section 3).
	SettingEnableConnectProtocol SettingID = C.WT_SETTING_ENABLE_CONNECT_PROTOCOL
	// SettingH3Datagram says that datagrams are supported (RFC 9297, section 2.1.1).
	SettingH3Datagram SettingID = C.WT_SETTING_H3_DATAGRAM
	// SettingEnableWebTransport says that WebTransport is supported (draft-ietf-webtrans-http3-02, section 3.1).
	SettingEnableWebTransport SettingID = C.WT_SETTING_ENABLE_WEBTRANSPORT
	// SettingWebTransportMaxSessions says how many sessions may be open at once (draft-ietf-webtrans-http3-07).
	SettingWebTransportMaxSessions SettingID = C.WT_SETTING_WEBTRANSPORT_MAX_SESSIONS
)

// The registered error codes (RFC 9114, section 8.1; RFC 9204, section 6; RFC 9297, section 5.2;
// draft-ietf-webtrans-http3-07; the last three of later drafts).
const (
	H3DatagramError                    Code = C.WT_H3_DATAGRAM_ERROR
	H3NoError                          Code = C.WT_H3_NO_ERROR
	H3GeneralProtocolError             Code = C.WT_H3_GENERAL_PROTOCOL_ERROR
	H3InternalError                    Code = C.WT_H3_INTERNAL_ERROR
	H3StreamCreationError              Code = C.WT_H3_STREAM_CREATION_ERROR
	H3ClosedCriticalStream             Code = C.WT_H3_CLOSED_CRITICAL_STREAM
	H3FrameUnexpected                  Code = C.WT_H3_FRAME_UNEXPECTED
	H3FrameError                       Code = C.WT_H3_FRAME_ERROR
	H3ExcessiveLoad                    Code = C.WT_H3_EXCESSIVE_LOAD
	H3IDError                          Code = C.WT_H3_ID_ERROR
	H3SettingsError                    Code = C.WT_H3_SETTINGS_ERROR
	H3MissingSettings                  Code = C.WT_H3_MISSING_SETTINGS
	H3RequestRejected                  Code = C.WT_H3_REQUEST_REJECTED
	H3RequestCancelled                 Code = C.WT_H3_REQUEST_CANCELLED
	H3RequestIncomplete                Code = C.WT_H3_REQUEST_INCOMPLETE
	H3MessageError                     Code = C.WT_H3_MESSAGE_ERROR
	H3ConnectError                     Code = C.WT_H3_CONNECT_ERROR
	H3VersionFallback                  Code = C.WT_H3_VERSION_FALLBACK
	QPACKDecompressionFailed           Code = C.WT_QPACK_DECOMPRESSION_FAILED
	QPACKEncoderStreamError            Code = C.WT_QPACK_ENCODER_STREAM_ERROR
	QPACKDecoderStreamError            Code = C.WT_QPACK_DECODER_STREAM_ERROR
	WebTransportBufferedStreamRejected Code = C.WT_WEBTRANSPORT_BUFFERED_STREAM_REJECTED
	WebTransportSessionGone            Code = C.WT_WEBTRANSPORT_SESSION_GONE
	WTFlowControlError                 Code = C.WT_WT_FLOW_CONTROL_ERROR
	WTALPNError                        Code = C.WT_WT_ALPN_ERROR
	WTRequirementsNotMet               Code = C.WT_WT_REQUIREMENTS_NOT_MET
)

// What an error ends.
const (
	ScopeStream     ErrorScope = C.WT_SCOPE_STREAM
	ScopeConnection ErrorScope = C.WT_SCOPE_CONNECTION
	// ScopeEither says that the rule that is violated decides.
	ScopeEither ErrorScope = C.WT_SCOPE_EITHER
)

// The rules of messages (RFC 9114, sections 4.1 to 4.4; RFC 9297, section 3.2).
const (
	// RuleInvalidName: the name of a field is empty, has an upper-case letter or is not a token.
	RuleInvalidName Malformed = C.WT_RULE_INVALID_NAME
	// RuleInvalidValue: a value has a control character other than a tab, or a space or a tab at an end.
	RuleInvalidValue Malformed = C.WT_RULE_INVALID_VALUE
	// RuleConnectionField: there is a field that is specific to a connection of HTTP/1.1.
	RuleConnectionField Malformed = C.WT_RULE_CONNECTION_FIELD
	// RuleInvalidTe: there is a te field outside of a request, or with another value than trailers.
	RuleInvalidTe            Malformed = C.WT_RULE_INVALID_TE
	RuleUnknownPseudoHeader  Malformed = C.WT_RULE_UNKNOWN_PSEUDO_HEADER
	RuleLatePseudoHeader     Malformed = C.WT_RULE_LATE_PSEUDO_HEADER
	RuleRepeatedPseudoHeader Malformed = C.WT_RULE_REPEATED_PSEUDO_HEADER
	RuleInvalidContentLength Malformed = C.WT_RULE_INVALID_CONTENT_LENGTH
	RuleMissingMethod        Malformed = C.WT_RULE_MISSING_METHOD
	RuleInvalidMethod        Malformed = C.WT_RULE_INVALID_METHOD
	RuleMissingScheme        Malformed = C.WT_RULE_MISSING_SCHEME
	RuleInvalidScheme        Malformed = C.WT_RULE_INVALID_SCHEME
	RuleMissingPath          Malformed = C.WT_RULE_MISSING_PATH
	RuleInvalidPath          Malformed = C.WT_RULE_INVALID_PATH
	RuleMissingAuthority     Malformed = C.WT_RULE_MISSING_AUTHORITY
	RuleInvalidAuthority     Malformed = C.WT_RULE_INVALID_AUTHORITY
	// RuleConnectWithTarget: a CONNECT request without :protocol has a :scheme or a :path.
	RuleConnectWithTarget Malformed = C.WT_RULE_CONNECT_WITH_TARGET
	// RuleUnexpectedProtocol: there is a :protocol in a request other than CONNECT, or at an endpoint that does
	// not allow extended CONNECT.
	RuleUnexpectedProtocol Malformed = C.WT_RULE_UNEXPECTED_PROTOCOL
	RuleInvalidProtocol    Malformed = C.WT_RULE_INVALID_PROTOCOL
	// RuleContentField: a request for a session, or a response that accepts it, has a field of content.
	RuleContentField     Malformed = C.WT_RULE_CONTENT_FIELD
	RuleMissingStatus    Malformed = C.WT_RULE_MISSING_STATUS
	RuleInvalidStatus    Malformed = C.WT_RULE_INVALID_STATUS
	RuleUnexpectedStatus Malformed = C.WT_RULE_UNEXPECTED_STATUS
	// RuleMissingHead: the message ended before the header section of the request or the final response.
	RuleMissingHead     Malformed = C.WT_RULE_MISSING_HEAD
	RuleContentTooLong  Malformed = C.WT_RULE_CONTENT_TOO_LONG
	RuleContentTooShort Malformed = C.WT_RULE_CONTENT_TOO_SHORT
)

// Why something may not be sent (RFC 9114, sections 4.1, 4.2.2, 4.4, 5.2 and 7.1).
const (
	// SendUnexpected: this may not be sent now.
	SendUnexpected SendError = C.WT_SEND_UNEXPECTED
	// SendDataMissing: bytes of the last DATA frame are still to be sent.
	SendDataMissing SendError = C.WT_SEND_DATA_MISSING
	// SendDataExceeded: there are more bytes than the DATA frame has left.
	SendDataExceeded SendError = C.WT_SEND_DATA_EXCEEDED
	// SendEmptyData: a DATA frame would have no bytes.
	SendEmptyData SendError = C.WT_SEND_EMPTY_DATA
	// SendTooLarge: a section is larger than the peer accepts, a frame would have 2^62 bytes or more, SETTINGS more
	// than 4,096 bytes, or a reason more than 1,024.
	SendTooLarge SendError = C.WT_SEND_TOO_LARGE
	// SendTooManyInterim: there were 64 interim responses, as many as a Connection reads.
	SendTooManyInterim SendError = C.WT_SEND_TOO_MANY_INTERIM
	// SendInvalidID: the ID of a GOAWAY is not that of a request, or it is 2^62 or more.
	SendInvalidID SendError = C.WT_SEND_INVALID_ID
	// SendIDRises: the ID of a GOAWAY is above that of the last one.
	SendIDRises SendError = C.WT_SEND_ID_RISES
	// SendUnsupported: the peer does not support what a request asks for.
	SendUnsupported SendError = C.WT_SEND_UNSUPPORTED
)

// Why a field section is not the request for a session.
const (
	// RequestOK: it is one.
	RequestOK                      RequestFault = C.WT_REQUEST_OK
	RequestMissingMethod           RequestFault = C.WT_REQUEST_MISSING_METHOD
	RequestMethodNotConnect        RequestFault = C.WT_REQUEST_METHOD_NOT_CONNECT
	RequestMissingScheme           RequestFault = C.WT_REQUEST_MISSING_SCHEME
	RequestSchemeNotHTTPS          RequestFault = C.WT_REQUEST_SCHEME_NOT_HTTPS
	RequestMissingProtocol         RequestFault = C.WT_REQUEST_MISSING_PROTOCOL
	RequestProtocolNotWebTransport RequestFault = C.WT_REQUEST_PROTOCOL_NOT_WEBTRANSPORT
	RequestMissingAuthority        RequestFault = C.WT_REQUEST_MISSING_AUTHORITY
	RequestMissingPath             RequestFault = C.WT_REQUEST_MISSING_PATH
)
