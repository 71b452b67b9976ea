package vesgrauf

import "fmt"

// PushedStream is a stream whose bytes come once, in chunks: its state, and the bytes that were not consumed, which
// are held until more come. [Connection.ReceivePushed] reads it.
type PushedStream struct {
	// Stream is the state of the stream, for the other calls of a Connection.
	Stream *Stream
	hold   cHold
	room   []byte
	most   int
}

// NewPushedStream holds the bytes of a stream from its start on: at most most.
//
// 16 more than Limits.MaxSection, and at least 4,112, suffice for each stream that does not wait. One that waits
// for its session or for an answer needs as many as you keep of one. Memory is taken as it is needed.
func NewPushedStream(s *Stream, most int) *PushedStream {
	return &PushedStream{Stream: s, most: most}
}

// Held returns how many bytes are held. They were not consumed, and are not yet to be credited to the peer.
func (p *PushedStream) Held() int { return int(p.hold.end - p.hold.start) }

// Discard drops the bytes that are held, and returns how many they are. Call it after the stream was reset,
// abandoned or overflowed: no event consumes them, so that they are to be credited to the peer now.
func (p *PushedStream) Discard() int {
	held := p.Held()
	p.hold, p.room = cHold{}, nil
	return held
}

// grow makes more room for what is held and more bytes. It returns whether there is some now.
func (p *PushedStream) grow(more int) bool {
	old, larger := len(p.room), p.Held()+more
	if larger < 2*old {
		larger = 2 * old
	}
	if larger > p.most {
		larger = p.most
	}
	if larger <= old {
		return false
	}
	room := make([]byte, larger)
	copy(room, p.room)
	p.room = room
	return true
}

// Pushed is the next event of a stream whose bytes come in chunks.
type Pushed struct {
	// Taken is how many bytes of the chunk were taken. The next call is to be made with the others.
	Taken int
	// Consumed is how many bytes are consumed with the event, of the chunk or of those held before: the credit
	// for QUIC's flow control.
	Consumed int
	// Event is the event. Its bytes are valid until the next call with the stream.
	Event Event
}

// ReceivePushed returns what is next on a stream of a QUIC library that gives each byte once, in chunks: in the
// bytes that are held, and those of the chunk. fin: the stream ends right after chunk, which need not be said again
// with the bytes that were not taken.
//
// Call it until [EventMore] or [EventWaits], each time with the bytes of the chunk that were not taken. If some are
// left then, the stream would hold more than it may: say that it overflows ([Connection.Overflow]). When a wait is
// over, call it with an empty chunk. With [EventNoMemory] nothing is taken: repeat the call, with the same fin.
//
// When the stream is reset, abandoned or overflows, no event consumes what is held and what is left of the chunk:
// credit the peer with these bytes ([PushedStream.Discard]).
func (c *Connection) ReceivePushed(p *PushedStream, chunk []byte, fin bool) Pushed {
	var pushed Pushed
	for {
		rest := chunk[pushed.Taken:]
		if !c.push(p, rest, fin) {
			pushed.Event = EventNoMemory{}
			return pushed
		}
		pushed.Taken += int(p.hold.taken)
		pushed.Consumed += int(c.event.consumed)
		left := len(chunk) - pushed.Taken
		if left > 0 && c.isLast() && p.grow(left) {
			continue
		}
		bytes := rest
		if p.hold.in_array == 1 {
			bytes = p.room
		}
		pushed.Event = c.eventIn(bytes)
		return pushed
	}
}

// isLast returns whether nothing is next after the last call.
func (c *Connection) isLast() bool {
	switch c.eventKind() {
	case eventMore, eventWaits:
		return true
	}
	return false
}

// push makes one call. It returns whether it succeeded: otherwise allocation failed.
func (c *Connection) push(p *PushedStream, chunk []byte, fin bool) bool {
	for {
		switch answer := cReceivePushed(c, p, chunk, fin); answer {
		case answerOK:
			return true
		case answerBufferTooSmall:
			c.makeRoom(p.Stream)
		case answerMemory:
			return false
		default:
			panic(fmt.Sprintf("libwtransport returned %d", answer))
		}
	}
}
