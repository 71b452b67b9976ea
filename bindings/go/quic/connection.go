// Package quic is an example of WebTransport over quic-go, with the package vesgrauf: connections of HTTP/3, at a
// server or a client, with their requests and sessions.
package quic

import (
	"context"
	"sync"

	"github.com/lucas-clemente/quic-go"

	"vesgrauf"
)

// What a connection reads at most. quic-go's windows of streams, 512 KiB and more, are larger than MaxSection and 16
// bytes.
var limits = vesgrauf.Limits{MaxSection: 65_536, MaxFields: 65_536, MaxDatagram: 1_500}

// How many sessions a client may open at once.
const maxSessions = 64

// Config returns what quic-go is configured with, at both ends.
func Config() *quic.Config {
	return &quic.Config{EnableDatagrams: true, MaxIncomingStreams: 256, MaxIncomingUniStreams: 256}
}

// Handler has what a server does.
type Handler struct {
	// Accept returns the response to a request for a session. With 2xx the session is open.
	Accept func(fields vesgrauf.FieldList) vesgrauf.SessionResponse
	// Session is called for each session that was accepted, in a goroutine of its own.
	Session func(*Session)
	// Request is called for each other request, in a goroutine of its own. When it returns, the response ends.
	Request func(*Request)
}

// Connection is a connection of HTTP/3.
type Connection struct {
	quic    quic.Connection
	handler Handler
	isReady chan struct{} // closed when SETTINGS of the peer came

	mutex sync.Mutex // guards what follows
	h3    *vesgrauf.Connection
	// the streams of the peer that were not read to their end, and at a client those of its sessions
	streams  map[uint64]*Stream
	sessions map[uint64]*Session
	budget   *vesgrauf.RequestBudget
	changed  chan struct{} // closed when something changes for which a stream may wait
}

// Serve serves a connection until it ends.
func Serve(connection quic.Connection, handler Handler) error {
	c, err := begin(connection, vesgrauf.ServerEndpoint(limits), handler)
	if err != nil {
		return err
	}
	<-c.quic.Context().Done()
	return nil
}

// Connect begins a connection at a client, and waits for the SETTINGS of the server.
func Connect(ctx context.Context, connection quic.Connection) (*Connection, error) {
	c, err := begin(connection, vesgrauf.ClientEndpoint(limits), Handler{})
	if err != nil {
		return nil, err
	}
	select {
	case <-c.isReady:
	case <-c.quic.Context().Done():
		return nil, errClosed
	case <-ctx.Done():
		return nil, ctx.Err()
	}
	return c, nil
}

func begin(connection quic.Connection, endpoint vesgrauf.Endpoint, handler Handler) (*Connection, error) {
	h3, err := vesgrauf.NewConnection(endpoint)
	if err != nil {
		return nil, err
	}
	c := &Connection{
		quic: connection, handler: handler, isReady: make(chan struct{}), h3: h3,
		streams: map[uint64]*Stream{}, sessions: map[uint64]*Session{},
		budget: vesgrauf.NewRequestBudget(100), changed: make(chan struct{}),
	}
	control, err := connection.OpenUniStream()
	if err != nil {
		return nil, err
	}
	bytes, err := h3.Control().AppendSettings(nil, endpoint.Settings(maxSessions))
	if err != nil {
		return nil, err
	}
	if _, err = control.Write(bytes); err != nil {
		return nil, err
	}
	go c.watchControl(control)
	go c.acceptStreams()
	go c.acceptUniStreams()
	go c.receiveDatagrams()
	return c, nil
}

// Close closes the connection with a code.
func (c *Connection) Close(code vesgrauf.Code) {
	c.quic.CloseWithError(quic.ApplicationErrorCode(code), code.Name())
}

// watchControl tells when the peer stops the own control stream.
func (c *Connection) watchControl(control quic.SendStream) {
	select {
	case <-c.quic.Context().Done():
	case <-control.Context().Done():
		c.mutex.Lock()
		defer c.mutex.Unlock()
		if code, is := c.h3.Stopped(vesgrauf.PurposeControl).(vesgrauf.Code); is {
			c.Close(code)
		}
	}
}

func (c *Connection) acceptStreams() {
	for {
		stream, err := c.quic.AcceptStream(c.quic.Context())
		if err != nil {
			c.end()
			return
		}
		s := c.accept(uint64(stream.StreamID()), stream, stream)
		go c.serve(s)
	}
}

func (c *Connection) acceptUniStreams() {
	for {
		stream, err := c.quic.AcceptUniStream(c.quic.Context())
		if err != nil {
			return
		}
		go c.serve(c.accept(uint64(stream.StreamID()), nil, stream))
	}
}

func (c *Connection) accept(id uint64, send quic.SendStream, receive quic.ReceiveStream) *Stream {
	c.mutex.Lock()
	defer c.mutex.Unlock()
	s := newStream(c, id, c.h3.Accept(id), send, receive)
	c.streams[id] = s
	return s
}

// end ends all sessions, when the connection is closed.
func (c *Connection) end() {
	c.mutex.Lock()
	defer c.mutex.Unlock()
	for id := range c.sessions {
		c.endSession(id, Ending{Lost: true})
	}
}

// change wakes the streams that wait. The mutex is locked.
func (c *Connection) change() {
	close(c.changed)
	c.changed = make(chan struct{})
}

// known returns what is known of a session. The mutex is locked.
func (c *Connection) known(session uint64) vesgrauf.Known {
	if its := c.streams[session]; its != nil {
		return c.h3.Known(session, its.state)
	}
	return c.h3.Known(session, nil)
}

// forget drops the stream of a goroutine that reads it no further. A client keeps those of its sessions.
func (c *Connection) forget(s *Stream) {
	c.mutex.Lock()
	defer c.mutex.Unlock()
	if _, lost := c.h3.Abandon(s.state).(vesgrauf.EventSessionLost); lost {
		c.endSession(s.id, Ending{Lost: true})
	}
	if !s.isOfClient {
		delete(c.streams, s.id)
	}
	c.change()
}

// endSession ends the streams of a session, and its own half of its own stream. The mutex is locked.
func (c *Connection) endSession(id uint64, ending Ending) {
	session := c.sessions[id]
	if session == nil {
		return
	}
	delete(c.sessions, id)
	for its, s := range c.streams {
		if of, belongs := s.state.Belongs(); belongs && of == id {
			s.cancel(vesgrauf.WebTransportSessionGone)
			delete(c.streams, its)
		}
	}
	for s := range session.own {
		s.cancel(vesgrauf.WebTransportSessionGone)
	}
	session.ending = ending
	close(session.done)
	c.change()
}

func (c *Connection) receiveDatagrams() {
	for {
		bytes, err := c.quic.ReceiveMessage()
		if err != nil {
			return
		}
		c.receiveDatagram(bytes)
	}
}

func (c *Connection) receiveDatagram(bytes []byte) {
	c.mutex.Lock()
	defer c.mutex.Unlock()
	session, payload, err := c.h3.Datagram(bytes)
	if code, is := err.(vesgrauf.Code); is {
		c.Close(code)
	}
	if err != nil {
		return
	}
	switch c.known(session).DatagramFor() {
	case vesgrauf.DatagramDeliver:
		c.deliver(session, payload)
	case vesgrauf.DatagramEndStream:
		if its := c.streams[session]; its != nil {
			its.cancel(vesgrauf.H3DatagramError)
		}
	}
	// those that come before their session is accepted are dropped
}

// deliver gives a datagram to a session, or drops it if too many wait. The mutex is locked.
func (c *Connection) deliver(session uint64, payload []byte) {
	if its := c.sessions[session]; its != nil {
		select {
		case its.datagrams <- payload:
		default:
		}
	}
}
