package vesgrauf

import "errors"

// SendError is why something may not be sent, by itself: one of SendUnexpected and the others.
type SendError uint32

// String returns the name, such as DataMissing.
func (e SendError) String() string { return cSendReasonName(uint32(e)) }

var sendErrors = map[SendError]string{
	SendUnexpected:     "this may not be sent now",
	SendDataMissing:    "bytes of a DATA frame are missing",
	SendDataExceeded:   "there are more bytes than the DATA frame has left",
	SendEmptyData:      "a DATA frame would have no bytes",
	SendTooLarge:       "it is too large",
	SendTooManyInterim: "there are too many interim responses",
	SendInvalidID:      "the ID is not that of a request",
	SendIDRises:        "the ID is above the last one",
	SendUnsupported:    "the peer does not support this",
}

// Error says what is wrong.
func (e SendError) Error() string { return "vesgrauf: " + sendErrors[e] }

// Sending is the sending side of the stream of a request: at a client the request, and at a server the response.
// [Connection.Request] and [Connection.Response] make one. It has no bytes.
//
// It says what may be sent next on its stream. A call that may not be made now returns an error, appends nothing and
// changes nothing: a [SendError], the rule that the message would break as a [Malformed], [ErrSessionNotOpen] or
// [ErrMemory]. The bytes that calls append are to be sent on the stream in their order.
//
// It is not told what becomes of its stream: nothing more is sent on one that was reset, or whose connection is over.
type Sending struct{ state cSending }

// AskedOf returns what a request with these fields asks for, by its :method: one that came as [EventHeaders]. One that
// came as [EventSessionRequested] is AskedSession.
func AskedOf(fields FieldList) Asked {
	switch method, _ := fields.First(":method"); method {
	case "HEAD":
		return AskedHead
	case "CONNECT":
		return AskedConnect
	}
	return AskedOther
}

// Request begins a request, at a client, by the ID of its stream. What may be sent is by the settings of the server as
// they are now: before they came each has its default, with which no session is possible.
//
// The error is [ErrOver]; [ErrInvalidID] at a server, and for the ID of another stream than a bidirectional one of a
// client; or [ErrGoAway].
func (c *Connection) Request(id uint64) (*Sending, error) {
	sending := new(Sending)
	if err := c.begun(cSendingRequest(c, id, &sending.state)); err != nil {
		return nil, err
	}
	return sending, nil
}

// Response begins the response to a request that came, at a server, by the ID of its stream and by what it asks for:
// AskedSession after [EventSessionRequested], and [AskedOf] its fields after [EventHeaders].
//
// The error is [ErrOver], or [ErrInvalidID] at a client, and for the ID of another stream than a bidirectional one of
// a client.
func (c *Connection) Response(id uint64, asked Asked) (*Sending, error) {
	sending := new(Sending)
	if err := c.begun(cSendingResponse(c, id, asked, &sending.state)); err != nil {
		return nil, err
	}
	return sending, nil
}

// begun returns why no message is begun, by what the library says.
func (c *Connection) begun(err error) error {
	if err == nil || err == ErrInvalidID {
		return err
	}
	// a stop of the own control stream would be an error of the connection, but none comes after another: a copy of
	// the state is asked
	again := Connection{state: c.state}
	if again.Stopped(PurposeControl) != nil {
		return ErrGoAway
	}
	return ErrOver
}

// Owed returns how many bytes of the last DATA frame are still to be sent.
func (s *Sending) Owed() uint64 { return cSendingOwed(&s.state) }

// AppendHeaders appends a HEADERS frame: that of a request, of an interim response, or of the final one. The fields are
// those of the message, with its pseudo-header fields first. They are checked by the rules of their message, and
// written in their order; their bytes need not be UTF-8.
//
// Content or the end may follow a request, but a CONNECT waits for its answer. A 2xx response to a request for a
// session opens it: call [Stream.Answer] too.
//
// The error is a [Malformed] with a rule that the fields break; SendUnexpected after the head of the message;
// SendTooLarge for more than the peer accepts; SendUnsupported for a session; SendTooManyInterim; or [ErrMemory].
func (s *Sending) AppendHeaders(out []byte, fields FieldList) ([]byte, error) {
	return cSendingHeaders(&s.state, out, fields)
}

// AppendData appends the head of a DATA frame with so many bytes. Send these bytes right after it, in as many pieces as
// you like, and count them by Sent: they are not passed, and need not be copied.
//
// The error is SendUnexpected where no content may be; SendDataMissing; SendEmptyData; SendTooLarge from 2^62 on; or
// RuleContentTooLong for more than content-length announced.
func (s *Sending) AppendData(out []byte, length uint64) ([]byte, error) {
	return cSendingData(&s.state, out, length)
}

// Sent counts bytes of the last DATA frame that were sent. The error is SendDataExceeded if fewer are still to be sent.
func (s *Sending) Sent(length uint64) error { return cSendingSent(&s.state, length) }

// AppendContent appends a DATA frame with these bytes, as AppendData and Sent do. Without bytes it appends nothing. The
// errors are those of AppendData.
func (s *Sending) AppendContent(out, bytes []byte) ([]byte, error) {
	if len(bytes) == 0 {
		return out, nil
	}
	larger, err := s.AppendData(out, uint64(len(bytes)))
	if err != nil {
		return out, err
	}
	return append(larger, bytes...), s.Sent(uint64(len(bytes)))
}

// AppendTrailers appends the HEADERS frame of trailers, after which the message ends. The errors are those of
// AppendHeaders, of which SendUnexpected where no trailers may be; SendDataMissing; and RuleContentTooShort for less
// content than content-length announced.
func (s *Sending) AppendTrailers(out []byte, fields FieldList) ([]byte, error) {
	return cSendingTrailers(&s.state, out, fields)
}

// Finish ends the message: the QUIC stream is to be ended after the last bytes that were appended.
//
// The error is SendDataMissing; RuleMissingHead before the head of the message; RuleContentTooShort; or SendUnexpected
// after the end.
func (s *Sending) Finish() error { return cSendingFinish(&s.state) }

// Connected opens the session or the tunnel, at a client: a 2xx response to the CONNECT of this stream came, as
// [EventSessionReady] says of a session. The error is SendUnexpected on another stream, and after the first time.
func (s *Sending) Connected() error { return cSendingConnected(&s.state) }

// AppendUnidirectional appends the first bytes of a unidirectional stream of the session. All that follows is the
// application's. The error, here and in the next four calls, is [ErrSessionNotOpen] if the session is not open: it has
// no answer with a 2xx status, or this end closed it.
func (s *Sending) AppendUnidirectional(out []byte) ([]byte, error) {
	return inSession(cSendingUnidirectional(&s.state, out))
}

// AppendBidirectional appends the first bytes of a bidirectional stream of the session. All that follows is the
// application's. The peer's half of the stream is [StreamOfSession].
func (s *Sending) AppendBidirectional(out []byte) ([]byte, error) {
	return inSession(cSendingBidirectional(&s.state, out))
}

// AppendDatagram appends the first bytes of a datagram of the session. The payload is all that follows.
func (s *Sending) AppendDatagram(out []byte) ([]byte, error) {
	return inSession(cSendingDatagram(&s.state, out))
}

// AppendDrain appends, for the session's own stream, a DATA frame with the capsule that says that the session is to be
// closed soon. Everything may be sent as before.
func (s *Sending) AppendDrain(out []byte) ([]byte, error) {
	return inSession(cSendingDrain(&s.state, out))
}

// AppendClose appends, for the session's own stream, a DATA frame with the capsule that closes the session. End the
// QUIC stream after it, call [Connection.Abandon], and reset the streams of the session. The error is also
// SendTooLarge for a reason of more than 1,024 bytes, [ErrInvalid] for one that is not UTF-8, and [ErrMemory].
func (s *Sending) AppendClose(out []byte, code uint32, reason string) ([]byte, error) {
	return inSession(cSendingClose(&s.state, out, code, []byte(reason)))
}

// inSession returns the result of a call for which the session is to be open.
func inSession(out []byte, err error) ([]byte, error) {
	if errors.Is(err, SendUnexpected) {
		err = ErrSessionNotOpen
	}
	return out, err
}

// ControlSending is the own control stream, which is never ended. [Connection.Control] makes one. It has no bytes.
//
// A call that may not be made now returns an error, appends nothing and changes nothing.
type ControlSending struct {
	state    cControl
	last     uint64
	goesAway bool
}

// Control creates the control stream of this end of the connection. Nothing is sent yet.
func (c *Connection) Control() *ControlSending {
	control := new(ControlSending)
	cControlNew(c, &control.state)
	return control
}

// AppendSettings appends the type of the stream and SETTINGS, its first bytes: these settings in their order.
//
// The error is SendUnexpected after the first time; SendTooLarge for more than the 4,096 bytes of settings that a
// [Connection] reads; [ErrInvalid] for those that [Settings.Append] rejects; or [ErrMemory].
func (control *ControlSending) AppendSettings(out []byte, settings Settings) ([]byte, error) {
	return cControlSettings(&control.state, out, settings)
}

// AppendGoAway appends GOAWAY (RFC 9114, section 5.2). At a server requests on streams from this ID on are not
// processed: LargestRequest first, and when no more of them can be under way, the ID after the last one that was
// processed. At a client pushes from this push ID on are not: 0. An ID may be sent again, and a lower one.
//
// The error is SendUnexpected before SETTINGS; SendInvalidID; or SendIDRises.
func (control *ControlSending) AppendGoAway(out []byte, id uint64) ([]byte, error) {
	larger, err := cControlGoaway(&control.state, out, id)
	if err == nil {
		control.last, control.goesAway = id, true
	}
	return larger, err
}

// LastGoAway returns the ID of the last GOAWAY, and whether there was one. At a server requests on streams from it on
// are to be rejected: reset and stop them with H3RequestRejected.
func (control *ControlSending) LastGoAway() (id uint64, sent bool) {
	return control.last, control.goesAway
}
