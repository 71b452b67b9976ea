package vesgrauf

// Stream is the state of a stream of the peer: of a QUIC stream that the peer opened, or of the peer's half of one
// that was opened here.
//
// [Connection.Accept] makes that of a stream that the peer opened, [Connection.Open] that of the response to a
// request, and [StreamOfSession] that of a bidirectional stream that was opened here for a session. A
// unidirectional stream that was opened here has none. It belongs to the connection that made it: one of another
// connection is not noticed.
type Stream struct {
	state cStream
	// the bytes of a capsule that is cut between two calls
	held []byte
}

// StreamOfSession creates the state of the peer's half of a bidirectional stream that was opened here for a
// session: it has no header.
func StreamOfSession(session uint64) *Stream {
	s := new(Stream)
	cStreamOfSession(session, &s.state)
	return s
}

// Answer says that the CONNECT request of the stream is answered with this status, after the answer was written:
// with 2xx its session is open. A status from 100 to 199 changes nothing. Read the stream again afterwards, and
// join those that wait for the session ([Connection.Join]).
func (s *Stream) Answer(status uint32) { cStreamAnswer(&s.state, status) }

// WaitsFor is why a stream waits: one of WaitsNothing and the others.
type WaitsFor uint32

// Waits is what a stream waits for.
type Waits struct {
	For WaitsFor
	// Session is the session's ID, with WaitsSession, and otherwise 0.
	Session uint64
}

// Waits returns what the stream waits for.
func (s *Stream) Waits() Waits { return cStreamWaits(&s.state) }

// Belongs returns the session to which the stream belongs, or for which it waits, if there is one. The own stream
// of a session belongs to none.
func (s *Stream) Belongs() (session uint64, belongs bool) { return cStreamBelongs(&s.state) }
