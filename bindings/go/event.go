package vesgrauf

// Purpose is what a stream of the peer is for: one of PurposeControl and the others.
type Purpose uint32

// HeadersKind is what a field section of a message is: one of HeadersRequest and the others.
type HeadersKind uint32

// Event is what is next on a stream: one of the types below whose names begin with Event. The comment of each says
// what it requires of the caller.
type Event interface{ isEvent() }

type (
	// EventOpened says what the stream is for, other than a session.
	EventOpened struct{ Purpose Purpose }

	// EventJoins says that the stream belongs to the session with this ID. Pass what [Connection.Known] says of
	// it to [Connection.Join].
	EventJoins struct{ Session uint64 }

	// EventJoined says that the stream belongs to the session with this ID, which is open: its bytes follow, as
	// EventStreamData.
	EventJoined struct{ Session uint64 }

	// EventSettings says that SETTINGS of the peer came, with this payload: [ReadSettings] reads it. Read again
	// the streams that wait for WaitsSettings.
	EventSettings struct{ Payload []byte }

	// EventGoAway is GOAWAY: at a client the ID of the first request that is not processed, at a server that of
	// a push (RFC 9114, section 5.2). A client sends no new request. What is sent is
	// [ControlSending.AppendGoAway].
	EventGoAway struct{ ID uint64 }

	// EventFrame is another frame of the control stream.
	EventFrame struct {
		Type    uint64
		Payload []byte
	}

	// EventHeaders is a field section of the message. At a server a CONNECT request waits then for
	// [Stream.Answer].
	EventHeaders struct {
		Kind HeadersKind
		// Status is that of a response, and otherwise 0.
		Status uint32
		Fields FieldList
	}

	// EventSessionRequested is, at a server, the header section of a request for a session. Send a
	// [SessionResponse] by a [Sending], and then call [Stream.Answer].
	EventSessionRequested struct{ Fields FieldList }

	// EventSessionReady is, at a client, the header section of the response that accepts a session: call
	// [Sending.Connected].
	EventSessionReady struct {
		Status uint32
		Fields FieldList
	}

	// EventRejected is, at a client, that of a final response that does not accept a session. What follows is
	// the rest of an ordinary response.
	EventRejected struct {
		Status uint32
		Fields FieldList
	}

	// EventSessionClosed says that the peer closed the session whose own stream this is, with an error code and
	// a reason of its application. Reset and stop the streams of the session ([Stream.Belongs]) with
	// WebTransportSessionGone, and end the own half of this one.
	EventSessionClosed struct {
		Code   uint32
		Reason string
	}

	// EventSessionLost says that the session whose own stream this is ended otherwise. Reset and stop its
	// streams, as for EventSessionClosed.
	//
	// Each session ends once, with this event or with EventSessionClosed, unless EventConnectionError comes
	// first.
	EventSessionLost struct{}

	// EventDatagram is a datagram of the session whose own stream this is, which came in a capsule (RFC 9297,
	// section 3.5). It is as one that [Connection.Datagram] returns.
	EventDatagram struct{ Payload []byte }

	// EventDraining says that the peer asks to end the session whose own stream this is soon. Until then it goes
	// on (draft-ietf-webtrans-http3-07, section 4.6).
	EventDraining struct{}

	// EventSkipped says that the bytes had nothing for the application.
	EventSkipped struct{}

	// EventData is a piece of the content of the message, of at least one byte.
	EventData struct{ Bytes []byte }

	// EventStreamData is a piece of a stream of a session, of at least one byte.
	EventStreamData struct{ Bytes []byte }

	// EventTooLarge is a field section that is larger than the limits. The section is skipped. If it is not the
	// trailer section nothing more of the message is given: a server may respond with status 431 (RFC 9114,
	// section 4.2.2), and a client cancels the request.
	EventTooLarge struct {
		// Size is its encoded size, or 0 if that is within the limits.
		Size uint64
	}

	// EventMalformed says that the message is malformed, by this rule. It is an error of its stream, with the
	// code H3MessageError: reset and stop the stream. A server may first respond with status 400.
	EventMalformed struct{ Rule Malformed }

	// EventStreamError is an error of the stream: reset and stop it with the code. If it is the own stream of an
	// open session, the next call of [Connection.Receive] returns EventSessionLost.
	EventStreamError struct{ Code Code }

	// EventConnectionError is an error of the connection: close it with the code. No event follows on any
	// stream, and every session is lost.
	EventConnectionError struct{ Code Code }

	// EventReset says that the peer reset the stream before its last event. For a stream of a session ResetOwn
	// is false: what becomes of the own half is the application's to decide, and [Code.Application] says which
	// of its codes QUIC's is.
	EventReset struct {
		// ResetOwn says that the own half, if there is one, is to be reset with Code.
		ResetOwn bool
		Code     Code
	}

	// EventEnd says that the stream ended, without an error.
	EventEnd struct{}

	// EventNoMemory says that allocation failed in the library. The call can be repeated, with the bytes that
	// were not consumed.
	EventNoMemory struct{}

	// EventWaits says that the bytes that are left wait. Pass them again when the wait is over.
	EventWaits struct{ Waits }

	// EventMore says that more bytes are needed. Pass those that are left again, with more bytes after them.
	// From a call other than Receive: there is nothing to do.
	EventMore struct{}
)

func (EventOpened) isEvent()           {}
func (EventJoins) isEvent()            {}
func (EventJoined) isEvent()           {}
func (EventSettings) isEvent()         {}
func (EventGoAway) isEvent()           {}
func (EventFrame) isEvent()            {}
func (EventHeaders) isEvent()          {}
func (EventSessionRequested) isEvent() {}
func (EventSessionReady) isEvent()     {}
func (EventRejected) isEvent()         {}
func (EventSessionClosed) isEvent()    {}
func (EventSessionLost) isEvent()      {}
func (EventDatagram) isEvent()         {}
func (EventDraining) isEvent()         {}
func (EventSkipped) isEvent()          {}
func (EventData) isEvent()             {}
func (EventStreamData) isEvent()       {}
func (EventTooLarge) isEvent()         {}
func (EventMalformed) isEvent()        {}
func (EventStreamError) isEvent()      {}
func (EventConnectionError) isEvent()  {}
func (EventReset) isEvent()            {}
func (EventEnd) isEvent()              {}
func (EventNoMemory) isEvent()         {}
func (EventWaits) isEvent()            {}
func (EventMore) isEvent()             {}
