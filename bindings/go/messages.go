package vesgrauf

import "strconv"

// What messages are made of: settings, fields, requests and responses, GOAWAY.

// SettingID is the identifier of a setting: one of SettingH3Datagram and the others, or any number.
type SettingID uint64

// Name returns the name, such as SETTINGS_H3_DATAGRAM, or "" if the setting is unknown. One that is reserved for
// exercise has its number as its name.
func (id SettingID) Name() string { return cSettingName(id) }

// Setting is a setting with its value.
type Setting struct {
	ID    SettingID
	Value uint64
}

// Settings are the settings of a connection, in the order of the SETTINGS frame, unknown ones too.
type Settings []Setting

// Set sets a setting, in place of its previous value.
func (settings Settings) Set(id SettingID, value uint64) Settings {
	for i := range settings {
		if settings[i].ID == id {
			settings[i].Value = value
			return settings
		}
	}
	return append(settings, Setting{id, value})
}

// Get returns the value of a setting, and whether it is set. Of an unknown one that is repeated it is the first.
func (settings Settings) Get(id SettingID) (value uint64, set bool) {
	for _, one := range settings {
		if one.ID == id {
			return one.Value, true
		}
	}
	return 0, false
}

// ReadSettings reads the payload of a SETTINGS frame. A value may be any number: whether the setting allows it is
// for the caller to check, or for [Connection].
//
// The error is H3FrameError if the payload is cut; H3SettingsError for an identifier of HTTP/2, or a known or
// reserved one that is repeated; and [ErrMemory].
func ReadSettings(payload []byte) (Settings, error) { return cSettingsRead(payload) }

// Append appends the payload of a SETTINGS frame. The error is [ErrInvalid] if a number is 2^62 or more, an
// identifier is one of HTTP/2, or a known or reserved one is repeated; and [ErrMemory].
func (settings Settings) Append(out []byte) ([]byte, error) { return cSettingsWrite(out, settings) }

// AppendControlStream appends what a control stream starts with: its header and the SETTINGS frame. A
// [ControlSending] does so once. The errors are those of Append.
func (settings Settings) AppendControlStream(out []byte) ([]byte, error) {
	payload, err := settings.Append(nil)
	if err != nil {
		return out, err
	}
	larger, err := StreamHeader{Kind: StreamControl}.Append(out)
	if err != nil {
		return out, err
	}
	return AppendFrame(larger, FrameSettings, payload)
}

// PeerSettings are the settings of the peer: the value of each setting that has a name, which is its default until
// SETTINGS come. It can be stored with a ticket of TLS, for [ResumeConnection].
type PeerSettings struct {
	// QPACKMaxTableCapacity is the largest capacity of the peer's dynamic table, in bytes (0x01; RFC 9204,
	// section 5).
	QPACKMaxTableCapacity uint64
	// MaxFieldSectionSize is the largest field section that the peer accepts, in bytes (0x06; RFC 9114, section
	// 7.2.4.1), if HasMaxFieldSectionSize. Otherwise there is no limit.
	MaxFieldSectionSize    uint64
	HasMaxFieldSectionSize bool
	// QPACKBlockedStreams is how many streams may be blocked at the peer (0x07; RFC 9204, section 5).
	QPACKBlockedStreams uint64
	// EnableConnectProtocol says that extended CONNECT is supported (0x08; RFC 9220, section 3).
	EnableConnectProtocol bool
	// H3Datagram says that datagrams are supported (0x33; RFC 9297, section 2.1.1).
	H3Datagram bool
	// EnableWebTransport says that WebTransport is supported (0x2b603742; draft-ietf-webtrans-http3-02, section
	// 3.1).
	EnableWebTransport bool
	// WebTransportMaxSessions is how many sessions may be open at once (0xc671706a;
	// draft-ietf-webtrans-http3-07).
	WebTransportMaxSessions uint64
	// WTMaxSessions is the same in later drafts (0x14e9cd29).
	WTMaxSessions uint64
	// Came says whether SETTINGS of the peer came.
	Came bool
}

// Field is a field of a message. Its texts are bytes, and need not be UTF-8.
type Field struct{ Name, Value string }

// FieldList is a list of fields. Names may be repeated. The order is that of the section.
type FieldList []Field

// DecodeFields reads a field section, the payload of a HEADERS frame (RFC 9204, section 4.5). Whether a message may
// have these fields is for the caller to check (RFC 9114, sections 4.2 and 4.3), or for [Connection].
//
// The section may decode to many times its size: a caller who reads those of a peer bounds them first, as [Limits]
// do. The error is QPACKDecompressionFailed or [ErrMemory].
func DecodeFields(section []byte) (FieldList, error) { return cFieldsRead(section) }

// Append appends the field section of the list, in as few bytes as is possible with the static table only. Fields whose
// values an attacker could guess, as authorization and short cookies, are never indexed. That a message may have these
// fields is for the caller to check: a [Sending] does so. The error is [ErrInvalid] if a name or a value is not UTF-8,
// and [ErrMemory].
func (list FieldList) Append(out []byte) ([]byte, error) { return cFieldsWrite(out, list) }

// First returns the first value of a name, and whether there is one.
func (list FieldList) First(name string) (value string, found bool) {
	for _, field := range list {
		if field.Name == name {
			return field.Value, true
		}
	}
	return "", false
}

// Last returns the last value of a name, and whether there is one.
func (list FieldList) Last(name string) (value string, found bool) {
	for i := len(list); i > 0; i-- {
		if list[i-1].Name == name {
			return list[i-1].Value, true
		}
	}
	return "", false
}

// All returns the values of a name.
func (list FieldList) All(name string) []string {
	var values []string
	for _, field := range list {
		if field.Name == name {
			values = append(values, field.Value)
		}
	}
	return values
}

// SessionRequest is the request for a session, as a client sends it (RFC 9220, section 3;
// draft-ietf-webtrans-http3-02, section 3.3).
type SessionRequest struct {
	// URL is that of the session, which is read as the URL Standard describes.
	URL string
	// Fields follow the pseudo-header fields. Names may be repeated.
	Fields FieldList
}

// Head returns the fields of the request, for [Sending.AppendHeaders]: the pseudo-header fields, and then Fields. The
// errors are those of Append.
func (request SessionRequest) Head() (FieldList, error) {
	frame, err := request.Append(nil)
	if err != nil {
		return nil, err
	}
	// after the type, which is one byte, and the length
	_, size := FirstVarint(frame[1:])
	return DecodeFields(frame[1+size:])
}

// Append appends the HEADERS frame of the request, for programs with a connection of their own: what Head says,
// encoded.
//
// The error is [ErrInvalid] if the URL is not one, or its scheme is not https; if the name of a field is empty,
// starts with a colon, has an upper-case letter or is no token; or if a value has a control character other than a
// tab, or starts or ends with a space or a tab. Or it is [ErrMemory].
func (request SessionRequest) Append(out []byte) ([]byte, error) {
	return cRequestWrite(out, []byte(request.URL), request.Fields)
}

// RequestTarget is the target of a request for a session.
type RequestTarget struct{ Authority, Path string }

// ReadRequestTarget reads the request in a field section, the payload of a HEADERS frame. A [Connection] checks more
// rules, and returns the fields.
//
// The error is QPACKDecompressionFailed, or H3MessageError for a section that is not a request for a session, of
// which [CheckRequest] says why; or [ErrMemory].
func ReadRequestTarget(section []byte) (RequestTarget, error) {
	authority, path, err := cRequestRead(section)
	return RequestTarget{authority, path}, err
}

// RequestFault is why a field section is not the request for a session: one of RequestMissingMethod and the others.
// The checks run in their order (RFC 9114, section 4.3.1; RFC 9220, section 3).
type RequestFault int

// CheckRequest returns why a field section is not the request for a session, or RequestOK if it is one. The error is
// QPACKDecompressionFailed or [ErrMemory].
func CheckRequest(section []byte) (RequestFault, error) { return cRequestCheck(section) }

// String returns the name of the fault, such as MissingMethod.
func (fault RequestFault) String() string {
	if fault == RequestOK {
		return "OK"
	}
	return cRequestFaultName(fault)
}

// SessionResponse is the response to a request, as a server sends it.
type SessionResponse struct {
	Status uint32
	// Fields follow :status. Names may be repeated.
	Fields FieldList
}

// AcceptSession returns the response that accepts a session: 200, with the field that says by which draft. Browsers
// of today read it.
func AcceptSession() SessionResponse {
	return SessionResponse{200, FieldList{{"sec-webtransport-http3-draft", "draft02"}}}
}

// Head returns the fields of the response, for [Sending.AppendHeaders], which checks them: :status, and then Fields.
func (response SessionResponse) Head() FieldList {
	head := FieldList{{":status", strconv.FormatUint(uint64(response.Status), 10)}}
	return append(head, response.Fields...)
}

// Append appends the HEADERS frame of the response, for programs with a connection of their own. The error is [ErrInvalid] if the status is not from 100 to 599,
// or for a field that [SessionRequest.Append] rejects; and [ErrMemory].
func (response SessionResponse) Append(out []byte) ([]byte, error) {
	return cResponseWrite(out, response.Status, response.Fields)
}

// ReadStatus returns the status of the response in a field section, the payload of a HEADERS frame. The error is
// QPACKDecompressionFailed, or H3MessageError for a section without a :status of three digits from 100 to 599; or
// [ErrMemory].
func ReadStatus(section []byte) (uint32, error) { return cResponseRead(section) }

// Goaway is the state of an endpoint that sends GOAWAY (RFC 9114, sections 5.2 and 7.2.6). [NewGoaway] makes one.
//
// A server that ends a connection sends LargestRequest first, and when no more requests can be under way, the ID
// after the last one that it processed.
type Goaway struct {
	side Side
	last uint64
}

// LargestRequest is the largest ID of a request, with which a server announces that it will end the connection.
const LargestRequest = 1<<62 - 4

// NewGoaway creates the state of an endpoint of this side that has sent no GOAWAY.
func NewGoaway(side Side) *Goaway { return &Goaway{side, noGoaway} }

// Last returns the ID of the last GOAWAY, and whether there was one. At a server requests on streams from it on are to
// be rejected: reset and stop them with H3RequestRejected.
func (goaway *Goaway) Last() (id uint64, sent bool) {
	if goaway.last == noGoaway {
		return 0, false
	}
	return goaway.last, true
}

// Append appends a GOAWAY frame with this ID. An ID may be sent again, and a lower one. The error is [ErrInvalid] if
// the ID is 2^62 or more or above the last one, or at a server if it is not that of a bidirectional stream that a
// client opened.
func (goaway *Goaway) Append(out []byte, id uint64) ([]byte, error) {
	return cGoawayWrite(out, goaway.side, id, &goaway.last)
}

// RequestBudget counts how many requests of a connection were answered, and how many its client reset before their
// answer (RFC 9114, sections 4.1.1 and 10.5).
//
// A client that sends requests and resets them at once costs a server work, and QUIC's limit of streams does not
// bound it: a stream that is reset makes room for the next one. A server keeps one budget for all requests of a
// connection.
type RequestBudget struct{ state cBudget }

// NewRequestBudget creates the budget of a connection without requests. At most excess more requests may be reset
// before their answer than are answered: 100, say.
func NewRequestBudget(excess uint64) *RequestBudget {
	budget := new(RequestBudget)
	budget.setExcess(excess)
	return budget
}

// Answered counts a request that was answered: one whose final response was sent. Nothing changes once too many were
// reset.
func (budget *RequestBudget) Answered() { cRequestAnswered(&budget.state) }

// ResetUnanswered counts a request that its client reset before it was answered. The error is H3ExcessiveLoad if more
// were reset than were answered and the excess together: close the connection with it. Every later call then returns
// it too, and counts nothing.
func (budget *RequestBudget) ResetUnanswered() error { return cRequestReset(&budget.state) }
