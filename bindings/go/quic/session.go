package quic

import (
	"context"
	"fmt"
	"io"

	"github.com/lucas-clemente/quic-go"

	"vesgrauf"
)

// Request is a request other than for a session, at a server. Its content is read from it, and the content of the
// response is written to it, after Respond.
type Request struct {
	*Stream
	Fields vesgrauf.FieldList
}

// Respond writes the header section of the response.
func (request *Request) Respond(response vesgrauf.SessionResponse) error {
	bytes, err := request.message.AppendHeaders(nil, response.Head())
	if err != nil {
		return err
	}
	_, err = request.Stream.Write(bytes)
	c := request.connection
	c.mutex.Lock()
	defer c.mutex.Unlock()
	request.state.Answer(response.Status) // for CONNECT
	c.budget.Answered()
	return err
}

// Write writes content of the response, in a DATA frame.
func (request *Request) Write(bytes []byte) (int, error) {
	frame, err := request.message.AppendContent(nil, bytes)
	if err == nil {
		_, err = request.Stream.Write(frame)
	}
	return len(bytes), err
}

// Ending is how a session ended.
type Ending struct {
	// Code and Reason are the application's, of the end that closed the session.
	Code   uint32
	Reason string
	// Lost says that the session ended otherwise.
	Lost bool
}

// Session is a session.
type Session struct {
	// Fields are those of its request at a server, and of its response at a client.
	Fields     vesgrauf.FieldList
	stream     *Stream
	connection *Connection
	incoming   chan *Stream
	datagrams  chan []byte
	done       chan struct{}
	ending     Ending           // once done is closed
	own        map[*Stream]bool // its streams that were opened here; guarded by the connection's mutex
}

// newSession creates a session that is open. The mutex of the connection is locked.
func newSession(s *Stream, fields vesgrauf.FieldList) *Session {
	session := &Session{
		Fields: fields, stream: s, connection: s.connection, incoming: make(chan *Stream, 16),
		datagrams: make(chan []byte, 64), done: make(chan struct{}), own: map[*Stream]bool{},
	}
	s.connection.sessions[s.id] = session
	s.connection.change()
	return session
}

// Done is closed when the session is over.
func (session *Session) Done() <-chan struct{} { return session.done }

// Ending returns how the session ended, once it is over.
func (session *Session) Ending() Ending { <-session.done; return session.ending }

// Accept waits for the next stream that the peer opens. Writing to a unidirectional one is not possible: see
// Stream.IsUnidirectional.
func (session *Session) Accept(ctx context.Context) (*Stream, error) {
	select {
	case s := <-session.incoming:
		return s, nil
	case <-session.done:
		return nil, errClosed
	case <-ctx.Done():
		return nil, ctx.Err()
	}
}

// IsUnidirectional returns whether the stream has no own half.
func (s *Stream) IsUnidirectional() bool { return s.send == nil }

// Open opens a bidirectional stream of the session.
func (session *Session) Open(ctx context.Context) (*Stream, error) {
	stream, err := session.connection.quic.OpenStreamSync(ctx)
	if err != nil {
		return nil, err
	}
	state := vesgrauf.StreamOfSession(session.stream.id)
	s := newStream(session.connection, uint64(stream.StreamID()), state, stream, stream)
	return session.begin(s, session.stream.message.AppendBidirectional)
}

// OpenUni opens a unidirectional stream of the session.
func (session *Session) OpenUni(ctx context.Context) (*Stream, error) {
	stream, err := session.connection.quic.OpenUniStreamSync(ctx)
	if err != nil {
		return nil, err
	}
	s := newStream(session.connection, uint64(stream.StreamID()), nil, stream, nil)
	return session.begin(s, session.stream.message.AppendUnidirectional)
}

// begin registers a stream that was opened here, and writes what it begins with.
func (session *Session) begin(s *Stream, head func(out []byte) ([]byte, error)) (*Stream, error) {
	c := session.connection
	s.session = session
	c.mutex.Lock()
	session.own[s] = true
	bytes, err := head(nil)
	if c.sessions[session.stream.id] != session {
		err = errClosed
	}
	c.mutex.Unlock()
	if err != nil {
		s.cancel(vesgrauf.WebTransportSessionGone)
		return nil, err
	}
	_, err = s.Write(bytes)
	return s, err
}

// Send sends a datagram. It waits until quic-go has put it in a packet.
func (session *Session) Send(payload []byte) error {
	c := session.connection
	c.mutex.Lock()
	head, err := session.stream.message.AppendDatagram(nil)
	c.mutex.Unlock()
	if err != nil {
		return err
	}
	return c.quic.SendMessage(append(head, payload...))
}

// Datagrams has the datagrams that come.
func (session *Session) Datagrams() <-chan []byte { return session.datagrams }

// Close closes the session, with a code and a reason of the application.
func (session *Session) Close(code uint32, reason string) error {
	c := session.connection
	c.mutex.Lock()
	bytes, err := session.stream.message.AppendClose(nil, code, reason)
	c.mutex.Unlock()
	if err != nil {
		return err
	}
	if _, err = session.stream.Write(bytes); err == nil {
		err = session.stream.Close()
	}
	c.mutex.Lock()
	defer c.mutex.Unlock()
	c.h3.Abandon(session.stream.state)
	c.endSession(session.stream.id, Ending{Code: code, Reason: reason})
	return err
}

// Open asks the server for the session at a URL, and waits for its answer.
func (c *Connection) Open(ctx context.Context, url string) (*Session, error) {
	fields, err := vesgrauf.SessionRequest{URL: url}.Head()
	if err != nil {
		return nil, err
	}
	stream, err := c.quic.OpenStreamSync(ctx)
	if err != nil {
		return nil, err
	}
	c.mutex.Lock()
	s := newStream(c, uint64(stream.StreamID()), c.h3.Open(vesgrauf.AskedSession), stream, stream)
	s.isOfClient = true
	c.streams[s.id] = s
	var bytes []byte
	if s.message, err = c.h3.Request(s.id); err == nil {
		bytes, err = s.message.AppendHeaders(nil, fields)
	}
	c.mutex.Unlock()
	if err == nil {
		_, err = s.Write(bytes)
	}
	if err != nil {
		s.cancel(vesgrauf.H3RequestCancelled)
		return nil, err
	}
	for {
		event, err := s.next()
		if err != nil {
			return nil, err
		}
		switch event := event.(type) {
		case vesgrauf.EventSessionReady:
			c.mutex.Lock()
			session, err := newSession(s, event.Fields), s.message.Connected()
			c.mutex.Unlock()
			go c.follow(s)
			return session, err
		case vesgrauf.EventRejected:
			s.Close()
			go c.follow(s)
			return nil, fmt.Errorf("the server answered %d", event.Status)
		case vesgrauf.EventTooLarge:
			s.cancel(vesgrauf.H3RequestCancelled)
			return nil, errStream
		}
	}
}

// follow reads the stream of a session to its end.
func (c *Connection) follow(s *Stream) {
	defer c.forget(s)
	defer s.Close()
	go c.watch(s)
	for {
		event, err := s.next()
		if err != nil {
			return
		}
		switch event.(type) {
		case vesgrauf.EventSessionClosed, vesgrauf.EventSessionLost, vesgrauf.EventEnd:
			s.Close()
		}
	}
}

// watch tells when the peer stops the own half of a session's stream. quic-go tells it by the context of the stream,
// which is also done when the own half ends.
func (c *Connection) watch(s *Stream) {
	<-s.send.Context().Done()
	s.sending.Lock()
	isEnded := s.isEnded
	s.sending.Unlock()
	c.mutex.Lock()
	defer c.mutex.Unlock()
	if isEnded || c.sessions[s.id] == nil {
		return
	}
	if _, lost := c.h3.Stop(s.state).(vesgrauf.EventSessionLost); lost {
		c.endSession(s.id, Ending{Lost: true})
	}
}

// serve reads a stream of the peer up to what it is for.
func (c *Connection) serve(s *Stream) {
	for {
		event, err := s.next()
		if err != nil {
			c.afterError(s, err)
			return
		}
		switch event := event.(type) {
		case vesgrauf.EventHeaders:
			request := &Request{s, event.Fields}
			c.handler.Request(request)
			if s.message.Finish() != nil {
				s.resetWith(vesgrauf.H3InternalError) // the response is not whole
			}
			s.Close()
			io.Copy(io.Discard, s) // what is left of its content
			c.forget(s)
			return
		case vesgrauf.EventSessionRequested:
			c.answer(s, event.Fields)
			return
		case vesgrauf.EventTooLarge:
			s.refuse(431)
			c.forget(s)
			return
		case vesgrauf.EventJoined:
			c.join(s, event.Session)
			return
		case vesgrauf.EventEnd:
			c.forget(s)
			return
		}
	}
}

// afterError counts a request that was reset before its answer, and forgets the stream.
func (c *Connection) afterError(s *Stream, err error) {
	if _, reset := err.(*ResetError); reset && s.send != nil {
		c.mutex.Lock()
		if code, is := c.budget.ResetUnanswered().(vesgrauf.Code); is {
			c.Close(code)
		}
		c.mutex.Unlock()
	}
	c.forget(s)
}

// answer answers a request for a session, and follows its stream if it is accepted.
func (c *Connection) answer(s *Stream, fields vesgrauf.FieldList) {
	response := c.handler.Accept(fields)
	request := &Request{s, fields}
	accepted := response.Status >= 200 && response.Status <= 299
	var session *Session
	if accepted {
		// streams that wait join when the answer is written
		c.mutex.Lock()
		session = newSession(s, fields)
		c.mutex.Unlock()
	}
	if err := request.Respond(response); err != nil || !accepted {
		s.Close()
		c.forget(s)
		return
	}
	c.mutex.Lock()
	c.change()
	c.mutex.Unlock()
	go c.handler.Session(session)
	c.follow(s)
}

// refuse answers a request with a status alone.
func (s *Stream) refuse(status uint32) {
	request := &Request{Stream: s}
	if request.Respond(vesgrauf.SessionResponse{Status: status}) == nil {
		s.Close()
	}
	s.receive.CancelRead(quic.StreamErrorCode(vesgrauf.H3NoError))
}

// join gives a stream to its session, whose application reads it to its end.
func (c *Connection) join(s *Stream, id uint64) {
	c.mutex.Lock()
	session := c.sessions[id]
	c.mutex.Unlock()
	if session == nil {
		s.cancel(vesgrauf.WebTransportSessionGone)
		c.forget(s)
		return
	}
	select {
	case session.incoming <- s:
	case <-session.done:
		c.forget(s)
	}
}

// Forget says that a stream of a session is over for the application, which has read it to its end or not.
func (s *Stream) Forget() {
	if s.session == nil {
		s.connection.forget(s)
		return
	}
	s.connection.mutex.Lock()
	defer s.connection.mutex.Unlock()
	delete(s.session.own, s)
}
