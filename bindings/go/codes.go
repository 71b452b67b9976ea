package vesgrauf

import (
	"errors"
	"fmt"
)

// The errors that are no codes.
var (
	// ErrMore says that more bytes are needed.
	ErrMore = errors.New("vesgrauf: more bytes are needed")
	// ErrInvalid says that an argument is not allowed; the call says which are. Nothing was appended.
	ErrInvalid = errors.New("vesgrauf: an argument is not allowed")
	// ErrMemory says that allocation failed in the library. The call can be repeated.
	ErrMemory = errors.New("vesgrauf: out of memory")
	// ErrDropped says that a datagram is to be dropped.
	ErrDropped = errors.New("vesgrauf: the datagram is to be dropped")
	// ErrInvalidEndpoint says that a limit or a remembered setting is out of its range, or that the library has
	// another version of its states (WT_ABI).
	ErrInvalidEndpoint = errors.New(
		"vesgrauf: a limit or a setting is out of its range, or libwtransport is of another version")
	// ErrOver says that an error ended the connection: no message is begun.
	ErrOver = errors.New("vesgrauf: an error ended the connection")
	// ErrGoAway says that GOAWAY of the server came: no request is sent after it (RFC 9114, section 5.2).
	ErrGoAway = errors.New("vesgrauf: the server goes away")
	// ErrInvalidID says that an ID is not that of a bidirectional stream of a client, or that the message is one of
	// the other side.
	ErrInvalidID = errors.New("vesgrauf: this endpoint sends no such message on a stream with this ID")
	// ErrSessionNotOpen says that a session is not open: it has no answer with a 2xx status, or this end closed it.
	ErrSessionNotOpen = errors.New("vesgrauf: the session is not open")
)

// Code is an error code of HTTP/3: any number, whether it is registered or not (RFC 9114, section 8.1). As an error
// it is a fault in what was read.
type Code uint64

// Name returns the name, such as H3_FRAME_UNEXPECTED, or "" if no code is registered with this number. It is then to
// be treated as H3_NO_ERROR (RFC 9114, section 9).
func (code Code) Name() string { return cCodeName(code) }

// Error returns the name and the number, as H3_FRAME_UNEXPECTED (0x105).
func (code Code) Error() string {
	if name := code.Name(); name != "" {
		return fmt.Sprintf("%s (%#x)", name, uint64(code))
	}
	return fmt.Sprintf("%#x", uint64(code))
}

// String returns what Error does.
func (code Code) String() string { return code.Error() }

// ErrorScope is what an error ends: one of ScopeStream, ScopeConnection and ScopeEither.
type ErrorScope int

// Scope returns what a registered code ends, and whether it is registered.
func (code Code) Scope() (scope ErrorScope, registered bool) {
	number := cCodeScope(code)
	return ErrorScope(number), number >= 0
}

// ApplicationCode returns the code with which a stream of a session is reset or stopped, for a code of the
// application (draft-ietf-webtrans-http3-02, section 4.3).
func ApplicationCode(code uint32) Code { return cApplicationCodeTo(code) }

// Application returns the code of the application, if one has this number.
func (code Code) Application() (its uint32, is bool) { return cApplicationCodeFrom(code) }

// Malformed is the rule that a message breaks (RFC 9114, section 4.1.2): one of RuleInvalidName and the others. Each
// is an error of its stream alone, with the code H3MessageError. Of several rules that a field section breaks, any
// may be reported. As an error of a [Sending] it is the rule that a message would break, which is not sent.
type Malformed uint32

var rules = map[Malformed]string{
	RuleInvalidName:          "a field has an invalid name",
	RuleInvalidValue:         "a field has an invalid value",
	RuleConnectionField:      "a field is specific to a connection",
	RuleInvalidTe:            "the te field is invalid",
	RuleUnknownPseudoHeader:  "a pseudo-header field is not defined here",
	RuleLatePseudoHeader:     "a pseudo-header field follows another field",
	RuleRepeatedPseudoHeader: "a pseudo-header field is repeated",
	RuleInvalidContentLength: "the content-length is invalid",
	RuleMissingMethod:        "there is no :method",
	RuleInvalidMethod:        "the :method is invalid",
	RuleMissingScheme:        "there is no :scheme",
	RuleInvalidScheme:        "the :scheme is invalid",
	RuleMissingPath:          "there is no :path",
	RuleInvalidPath:          "the :path is invalid",
	RuleMissingAuthority:     "there is no authority",
	RuleInvalidAuthority:     "the authority is invalid",
	RuleConnectWithTarget:    "a CONNECT request has a :scheme or a :path",
	RuleUnexpectedProtocol:   "the :protocol is not allowed",
	RuleInvalidProtocol:      "the :protocol is invalid",
	RuleContentField:         "a session's message has a field of content",
	RuleMissingStatus:        "there is no :status",
	RuleInvalidStatus:        "the :status is invalid",
	RuleUnexpectedStatus:     "the :status does not go with a session",
	RuleMissingHead:          "there is no header section",
	RuleContentTooLong:       "the content is longer than announced",
	RuleContentTooShort:      "the content is shorter than announced",
}

// Error says what is wrong.
func (rule Malformed) Error() string { return "vesgrauf: " + rule.String() }

// String says what is wrong.
func (rule Malformed) String() string {
	if text, ok := rules[rule]; ok {
		return text
	}
	return fmt.Sprintf("rule %d", uint32(rule))
}
