package vesgrauf

import "fmt"

// Side is a side of a connection: SideClient or SideServer.
type Side uint8

// Limits say what is read at most. There are no defaults.
//
// Besides these, a connection lets 16 streams wait for sessions that are to come, reads 64 interim responses,
// 1,024 frames in a row without anything for the caller, and SETTINGS of 4,096 bytes.
type Limits struct {
	// MaxSection is the largest encoded field section, in bytes: 65,536, say. A larger one is EventTooLarge.
	MaxSection uint32
	// MaxFields is the largest decoded field section: for each field the lengths of its name and its value,
	// and 32. It is announced as SETTINGS_MAX_FIELD_SECTION_SIZE.
	MaxFields uint64
	// MaxDatagram is the longest datagram of a capsule, at most 65,535. A longer one is dropped.
	MaxDatagram uint64
}

// Endpoint is the own endpoint: which side it is, what its SETTINGS enable, and its limits.
type Endpoint struct {
	Side Side
	// WebTransport says whether its SETTINGS enable WebTransport. If not, 0x41 is an unknown frame type.
	WebTransport bool
	// Datagrams says whether its SETTINGS enable HTTP datagrams. If not, those that come are dropped.
	Datagrams bool
	// Extended says whether its SETTINGS allow extended CONNECT, as those of a server for sessions do (RFC
	// 9220, section 3).
	Extended bool
	Limits   Limits
}

// ServerEndpoint returns a server with WebTransport, datagrams and extended CONNECT.
func ServerEndpoint(limits Limits) Endpoint {
	return Endpoint{Side: SideServer, WebTransport: true, Datagrams: true, Extended: true, Limits: limits}
}

// ClientEndpoint returns a client with WebTransport and datagrams.
func ClientEndpoint(limits Limits) Endpoint {
	return Endpoint{Side: SideClient, WebTransport: true, Datagrams: true, Limits: limits}
}

// Settings returns the SETTINGS that say so to the peer, which has to read them before it opens sessions:
// [Settings.AppendControlStream] appends what the own control stream starts with. sessions is how many sessions
// the peer may open at once; Chromium opens none at a server that says 0.
func (endpoint Endpoint) Settings(sessions uint64) Settings {
	limit := endpoint.Limits.MaxFields
	if limit >= 1<<62 {
		limit = 1<<62 - 1
	}
	settings := Settings{{SettingMaxFieldSectionSize, limit}}
	if endpoint.Extended {
		settings = settings.Set(SettingEnableConnectProtocol, 1)
	}
	if endpoint.Datagrams {
		settings = settings.Set(SettingH3Datagram, 1)
	}
	if endpoint.WebTransport {
		settings = settings.Set(SettingEnableWebTransport, 1)
		settings = settings.Set(SettingWebTransportMaxSessions, sessions)
	}
	return settings
}

// Asked is what a request asks for, as far as the meaning of its response depends on it: one of AskedOther,
// AskedHead, AskedConnect and AskedSession.
type Asked uint32

// Known is what is known of the session of a stream or a datagram: one of KnownComing and the others.
type Known uint32

// DatagramFor is what is to be done with a datagram: one of DatagramDeliver and the others.
type DatagramFor uint32

// DatagramFor returns what is to be done with a datagram, by what is known of its session.
func (known Known) DatagramFor() DatagramFor { return cDatagramUse(known) }

// Connection is the receiving half of a connection: what is next on each stream of the peer, with messages and
// sessions. It has no socket and no table of streams: the caller keeps a [Stream] for each stream, and the bytes
// that were not consumed. What is sent is a [Sending]'s.
//
// [NewConnection] and [ResumeConnection] make one. It must not be copied. A call panics only if the library
// breaks what its header says.
type Connection struct {
	state cConnection
	// memory for the event, the fields, the texts, reasons and datagrams of one call
	event  cEvent
	fields []cField
	out    []byte
}

// NewConnection creates a connection. The error is [ErrInvalidEndpoint].
func NewConnection(endpoint Endpoint) (*Connection, error) {
	c := new(Connection)
	if !cConnectionNew(endpoint, &c.state) {
		return nil, ErrInvalidEndpoint
	}
	return c, nil
}

// ResumeConnection creates the connection of a client that resumes a session of TLS and sends early data (0-RTT).
//
// remembered is what [Connection.Settings] returned in that session: these are the server's settings until its
// SETTINGS come, which must keep them; otherwise the event is [EventConnectionError]. If no SETTINGS came in that
// session, nothing is remembered, and this is [NewConnection]; at a server too. The error is [ErrInvalidEndpoint],
// also if a number of remembered is 2^62 or more.
//
// Sessions are possible once SETTINGS came: a request for one is not sent as early data.
func ResumeConnection(endpoint Endpoint, remembered PeerSettings) (*Connection, error) {
	c := new(Connection)
	if !cConnectionResuming(endpoint, remembered, &c.state) {
		return nil, ErrInvalidEndpoint
	}
	return c, nil
}

// EarlyDataRefused says that the server did not accept early data: until its SETTINGS come each setting has its
// default again, and they need not keep what is remembered. Nothing changes after its SETTINGS, and if no session
// is resumed.
func (c *Connection) EarlyDataRefused() { cEarlyDataRefused(&c.state) }

// Settings returns the settings of the peer: those of its SETTINGS, from [EventSettings] on. Before it each has
// its default, or is the one remembered.
func (c *Connection) Settings() PeerSettings { return cConnectionSettings(&c.state) }

// Accept creates the state of a stream that the peer opened, by its ID (RFC 9000, section 2.1).
func (c *Connection) Accept(id uint64) *Stream {
	s := new(Stream)
	cStreamAccept(&c.state, id, &s.state)
	return s
}

// Open creates the state of the response to an own request, by what the request asks for.
func (c *Connection) Open(asked Asked) *Stream {
	s := new(Stream)
	cStreamOfRequest(&c.state, asked, &s.state)
	return s
}

// AllowsSessions returns whether the settings of both ends allow sessions, which they do not before the SETTINGS
// of the peer came: both enable HTTP datagrams and WebTransport, and the server extended CONNECT. A client asks
// before it sends a request for one.
func (c *Connection) AllowsSessions() bool { return cConnectionAllowsSessions(&c.state) }

// IsUnprocessed returns, at a client, whether a request with this ID is not processed by the server, as its
// GOAWAY says. It may be sent again on another connection (RFC 9114, section 5.2).
func (c *Connection) IsUnprocessed(id uint64) bool { return cConnectionUnprocessed(&c.state, id) }

// Received is the next event of a stream, and how many bytes are consumed with it.
type Received struct {
	// Consumed is how many bytes are consumed: the credit for QUIC's flow control.
	Consumed int
	// Event is the event. The bytes of an event are a part of those that were passed.
	Event Event
}

// Receive returns what is next in the bytes of a stream that follow those consumed before. fin: the stream ends
// right after bytes. Call it until [EventMore] or [EventWaits].
//
// After EventMore and [EventNoMemory] the bytes that were not consumed are to be passed again, after EventMore
// with more bytes after them. After EventWaits they are to be passed again when the wait is over. With an error
// all bytes are consumed. After an error of the connection every call consumes all bytes of every stream and
// returns EventMore.
//
// How many bytes wait is not bounded: say of a stream of which more wait than you keep that it overflows
// ([Connection.Overflow]).
func (c *Connection) Receive(s *Stream, bytes []byte, fin bool) Received {
	for {
		switch answer := cReceive(c, s, bytes, fin); answer {
		case answerOK:
			return Received{int(c.event.consumed), c.eventIn(bytes)}
		case answerBufferTooSmall:
			c.makeRoom(s)
		case answerMemory:
			return Received{0, EventNoMemory{}}
		default:
			panic(fmt.Sprintf("libwtransport returned %d", answer))
		}
	}
}

// makeRoom makes room for what comes with the event of the last call, which is within the limits.
func (c *Connection) makeRoom(s *Stream) {
	grew := false
	if needed := int(c.event.fields); needed > len(c.fields) {
		c.fields, grew = make([]cField, needed+len(c.fields)), true
	}
	if needed := int(c.event.used); needed > len(c.out) {
		c.out, grew = make([]byte, needed+len(c.out)), true
	}
	if needed := int(c.event.held); needed > len(s.held) {
		larger := make([]byte, needed+len(s.held))
		copy(larger, s.held)
		s.held, grew = larger, true
	}
	if !grew {
		panic("libwtransport needs no more room")
	}
}

// Known returns what is known of a session. its is the stream with that ID, or nil if the caller does not have
// it. A client keeps the stream of each session that it asked for as long as the connection lives.
func (c *Connection) Known(session uint64, its *Stream) Known {
	return cSessionKnown(&c.state, session, its)
}

// Join says what is known of the session of a stream: after [EventJoins], and when it changes for a stream that
// waits for it.
//
// It returns [EventJoined], and the bytes of the stream follow; [EventWaits], and they are to be passed again
// after the next call; [EventStreamError] or [EventConnectionError]; or [EventMore] if nothing changes.
func (c *Connection) Join(s *Stream, known Known) Event {
	cStreamJoin(c, &s.state, known)
	return c.eventOfNumbers()
}

// Reset says that the peer reset a stream: what was not read of it is lost.
//
// It returns [EventSessionLost], [EventReset], [EventConnectionError], or [EventMore] if the stream was over
// before.
func (c *Connection) Reset(s *Stream) Event {
	cStreamReset(c, &s.state)
	return c.eventOfNumbers()
}

// Stop says that the peer asked to stop the own half of a bidirectional stream (STOP_SENDING): reset that half.
// Of a unidirectional stream see [Connection.Stopped].
//
// It returns [EventSessionLost] if an open session ends by that, and otherwise [EventMore]. No session can follow
// a stop before the answer: a server then abandons the stream; a client reads on, and abandons it after
// [EventSessionReady].
func (c *Connection) Stop(s *Stream) Event {
	cStreamStop(c, &s.state)
	return c.eventOfNumbers()
}

// Abandon says that a stream is read no further, for a reason of the application. So a session is closed, after
// its capsule and the end were written.
//
// It returns [EventSessionLost] if an open session ends by that, and otherwise [EventMore]. Later bytes of the
// stream are consumed. The control stream and those of QPACK stay as they are.
func (c *Connection) Abandon(s *Stream) Event {
	cStreamAbandon(c, &s.state)
	return c.eventOfNumbers()
}

// Overflow says that more bytes of a stream wait than the caller keeps: it is over.
//
// It returns [EventStreamError] if it waits for its session, and otherwise [EventConnectionError]; or
// [EventMore] if it was over.
func (c *Connection) Overflow(s *Stream) Event {
	cStreamOverflow(c, &s.state)
	return c.eventOfNumbers()
}

// Stopped says that the peer asked to stop a unidirectional stream that was opened here: reset it. own is what it
// is for: PurposeControl, PurposeEncoder, PurposeDecoder or PurposeSession; another one panics.
//
// The error, a [Code], is one of the connection, which is to be closed with it.
func (c *Connection) Stopped(own Purpose) error { return cStopped(&c.state, own) }

// Datagram returns the session of a QUIC datagram and its payload, a part of bytes. What is known of the session
// ([Connection.Known]) says what is to be done with it ([Known.DatagramFor]).
//
// The error is [ErrDropped] if the datagram is to be dropped, and otherwise a [Code]: an error of the connection,
// which is to be closed with it.
func (c *Connection) Datagram(bytes []byte) (session uint64, payload []byte, err error) {
	cDatagramReceive(c, bytes)
	return c.datagram(bytes)
}
