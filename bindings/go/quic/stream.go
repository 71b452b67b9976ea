package quic

import (
	"errors"
	"io"
	"sync"

	"github.com/lucas-clemente/quic-go"

	"vesgrauf"
)

var (
	errClosed = errors.New("the connection is closed")
	errStream = errors.New("the stream has an error")
)

// ResetError says that the peer reset a stream of a session with a code of the application, or with another code.
type ResetError struct {
	Code          uint32
	IsApplication bool
	Number        vesgrauf.Code
}

func (e *ResetError) Error() string { return "the stream was reset with " + e.Number.String() }

func resetError(number quic.StreamErrorCode) *ResetError {
	code, is := vesgrauf.Code(number).Application()
	return &ResetError{code, is, vesgrauf.Code(number)}
}

// Stream is a stream of a session, or of a message.
type Stream struct {
	id         uint64
	connection *Connection
	isOfClient bool              // it is that of a session that was asked for here
	session    *Session          // of a stream that was opened here
	state      *vesgrauf.Stream  // guarded by the connection's mutex; nil if nothing is received
	message    *vesgrauf.Sending // guarded by it if the message opens a session

	// of the goroutine that reads
	receive quic.ReceiveStream
	bytes   []byte // those that were not consumed
	data    []byte // content that was consumed, and that the application did not read yet
	fin     bool

	sending sync.Mutex // one goroutine writes or ends the own half at a time
	send    quic.SendStream
	isEnded bool
}

func newStream(
	c *Connection, id uint64, state *vesgrauf.Stream, send quic.SendStream, receive quic.ReceiveStream,
) *Stream {
	return &Stream{id: id, connection: c, state: state, send: send, receive: receive}
}

// Write writes bytes on the own half.
func (s *Stream) Write(bytes []byte) (int, error) {
	s.sending.Lock()
	defer s.sending.Unlock()
	size, err := s.send.Write(bytes)
	var canceled *quic.StreamError
	if errors.As(err, &canceled) {
		err = resetError(canceled.ErrorCode)
	}
	return size, err
}

// Close ends the own half.
func (s *Stream) Close() error {
	s.sending.Lock()
	defer s.sending.Unlock()
	if s.send == nil || s.isEnded {
		return nil
	}
	s.isEnded = true
	return s.send.Close()
}

// Reset resets the own half with a code of the application.
func (s *Stream) Reset(code uint32) { s.resetWith(vesgrauf.ApplicationCode(code)) }

func (s *Stream) resetWith(code vesgrauf.Code) {
	if s.send != nil {
		// a write that waits returns
		s.send.CancelWrite(quic.StreamErrorCode(code))
		s.sending.Lock()
		s.isEnded = true
		s.sending.Unlock()
	}
}

// cancel resets the own half and stops the peer's. It does not wait.
func (s *Stream) cancel(code vesgrauf.Code) {
	if s.receive != nil {
		s.receive.CancelRead(quic.StreamErrorCode(code))
	}
	if s.send != nil {
		s.send.CancelWrite(quic.StreamErrorCode(code))
	}
}

// Read reads content of a message, or bytes of a stream of a session. The error is io.EOF after the last byte, and a
// *ResetError if the peer reset the stream.
func (s *Stream) Read(to []byte) (int, error) {
	for len(s.data) == 0 {
		event, err := s.next()
		if err != nil {
			return 0, err
		}
		switch event := event.(type) {
		case vesgrauf.EventData:
			s.data = event.Bytes
		case vesgrauf.EventStreamData:
			s.data = event.Bytes
		case vesgrauf.EventEnd:
			return 0, io.EOF
		}
	}
	size := copy(to, s.data)
	s.data = s.data[size:]
	return size, nil
}

// next waits for the next event of the stream that is not of the connection alone. Its bytes are valid until the
// next call. The errors are those of Read.
func (s *Stream) next() (vesgrauf.Event, error) {
	for {
		event, changed := s.step()
		switch event := event.(type) {
		case vesgrauf.EventMore:
			if s.fin {
				return nil, io.EOF
			}
			if err := s.readMore(); err != nil {
				return nil, err
			}
		case vesgrauf.EventWaits:
			select {
			case <-changed:
			case <-s.connection.quic.Context().Done():
				return nil, errClosed
			}
		case vesgrauf.EventStreamError:
			s.cancel(event.Code)
		case vesgrauf.EventMalformed:
			s.cancel(vesgrauf.H3MessageError)
			return nil, errStream
		case vesgrauf.EventConnectionError:
			s.connection.Close(event.Code)
			return nil, event.Code
		case vesgrauf.EventNoMemory:
			s.connection.Close(vesgrauf.H3InternalError)
			return nil, vesgrauf.ErrMemory
		case vesgrauf.EventOpened, vesgrauf.EventSkipped, vesgrauf.EventFrame, vesgrauf.EventGoAway:
		default:
			return event, nil
		}
	}
}

// step makes one call of the library, and does what an event asks for of the connection. The channel is closed when
// something changes for which the stream may wait.
func (s *Stream) step() (vesgrauf.Event, <-chan struct{}) {
	c := s.connection
	c.mutex.Lock()
	defer c.mutex.Unlock()
	changed := c.changed
	if waits := s.state.Waits(); waits.For == vesgrauf.WaitsSession {
		if event := c.h3.Join(s.state, c.known(waits.Session)); event != (vesgrauf.EventMore{}) {
			return event, changed
		}
	}
	received := c.h3.Receive(s.state, s.bytes, s.fin)
	s.bytes = s.bytes[received.Consumed:]
	switch event := received.Event.(type) {
	case vesgrauf.EventJoins:
		return c.h3.Join(s.state, c.known(event.Session)), changed
	case vesgrauf.EventSettings:
		close(c.isReady)
		c.change()
	case vesgrauf.EventHeaders:
		s.respondTo(vesgrauf.AskedOf(event.Fields))
	case vesgrauf.EventSessionRequested:
		s.respondTo(vesgrauf.AskedSession)
	case vesgrauf.EventTooLarge:
		s.respondTo(vesgrauf.AskedOther)
	case vesgrauf.EventDatagram:
		c.deliver(s.id, event.Payload)
	case vesgrauf.EventSessionClosed:
		c.endSession(s.id, Ending{Code: event.Code, Reason: event.Reason})
	case vesgrauf.EventSessionLost:
		c.endSession(s.id, Ending{Lost: true})
	}
	return received.Event, changed
}

// respondTo begins the response to a request, once; a client has begun its request. The mutex is locked.
func (s *Stream) respondTo(asked vesgrauf.Asked) {
	if s.message == nil {
		s.message, _ = s.connection.h3.Response(s.id, asked) // no error ended the connection
	}
}

// readMore appends what comes next on the stream. quic-go credits the peer with what is read.
func (s *Stream) readMore() error {
	const piece = 16_384
	// the bytes that the application has of the last event are no longer used
	bytes := append(make([]byte, 0, len(s.bytes)+piece), s.bytes...)
	size, err := s.receive.Read(bytes[len(bytes):cap(bytes)])
	s.bytes = bytes[:len(bytes)+size]
	var reset *quic.StreamError
	switch {
	case err == io.EOF:
		s.fin = true
	case errors.As(err, &reset):
		s.wasReset()
		return resetError(reset.ErrorCode)
	case err != nil:
		return err
	}
	return nil
}

// wasReset says that the peer reset the stream.
func (s *Stream) wasReset() {
	c := s.connection
	c.mutex.Lock()
	defer c.mutex.Unlock()
	switch event := c.h3.Reset(s.state).(type) {
	case vesgrauf.EventSessionLost:
		c.endSession(s.id, Ending{Lost: true})
	case vesgrauf.EventConnectionError:
		c.Close(event.Code)
	case vesgrauf.EventReset:
		if event.ResetOwn && s.send != nil {
			s.send.CancelWrite(quic.StreamErrorCode(event.Code))
		}
	}
}
