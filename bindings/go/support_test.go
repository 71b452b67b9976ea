package vesgrauf

// What tests have in common: random numbers, and a connection that is read in pieces.

import (
	"fmt"
	"os"
	"sort"
	"strconv"
	"strings"
	"testing"
)

var testLimits = Limits{MaxSection: 65_536, MaxFields: 16_384, MaxDatagram: 1_200}

// times returns how many times a test is done: fewer with VESGRAUF_CUTS, which divides it.
func times(number int) int {
	cuts, err := strconv.Atoi(os.Getenv("VESGRAUF_CUTS"))
	if err != nil || cuts < 1 {
		return number
	}
	if number < cuts {
		return 1
	}
	return number / cuts
}

// random has numbers by a seed (splitmix64).
type random uint64

// below returns a number below bound.
func (r *random) below(bound int) int {
	*r += 0x9e37_79b9_7f4a_7c15
	z := uint64(*r)
	z = (z ^ z>>30) * 0xbf58_476d_1ce4_e5b9
	z = (z ^ z>>27) * 0x94d0_49bb_1331_11eb
	return int((z ^ z>>31) % uint64(bound))
}

// pieces cuts bytes into pieces at random places.
func (r *random) pieces(bytes []byte) [][]byte {
	most := 1
	if len(bytes) > 0 {
		most += r.below(len(bytes))
	}
	var pieces [][]byte
	for len(bytes) > 0 {
		size := 1 + r.below(most)
		if size > len(bytes) {
			size = len(bytes)
		}
		pieces = append(pieces, bytes[:size])
		bytes = bytes[size:]
	}
	return pieces
}

// steps cuts bytes into pieces of a size.
func steps(bytes []byte, size int) [][]byte {
	var pieces [][]byte
	for len(bytes) > size {
		pieces = append(pieces, bytes[:size])
		bytes = bytes[size:]
	}
	return append(pieces, bytes)
}

func sizes(pieces [][]byte) []int {
	var sizes []int
	for _, piece := range pieces {
		sizes = append(sizes, len(piece))
	}
	return sizes
}

// reading is a stream of the peer: what was not consumed, whether it ended, and its events as text.
type reading struct {
	pushed *PushedStream
	bytes  []byte
	fin    bool
	// all of the content, and how much of it is not in the text yet
	content []byte
	data    int
	text    strings.Builder
}

// player is a connection whose streams come in pieces. Requests for sessions are answered with a status.
type player struct {
	t          *testing.T
	connection *Connection
	streams    map[uint64]*reading
	status     uint32
	// whether each piece is pushed once; otherwise what was not consumed is passed again
	pushes bool
	// whether something changed for which a stream may wait
	changed bool
}

func newPlayer(t *testing.T, endpoint Endpoint, status uint32) *player {
	t.Helper()
	connection, err := NewConnection(endpoint)
	if err != nil {
		t.Fatal(err)
	}
	return &player{t: t, connection: connection, streams: map[uint64]*reading{}, status: status}
}

func (p *player) add(id uint64, stream *Stream) {
	p.streams[id] = &reading{pushed: NewPushedStream(stream, 16+int(testLimits.MaxSection))}
}

func (p *player) accept(id uint64) { p.add(id, p.connection.Accept(id)) }

// receive passes the next bytes of a stream.
func (p *player) receive(id uint64, piece []byte, fin bool) {
	p.streams[id].fin = p.streams[id].fin || fin
	p.read(id, piece)
	for p.changed {
		p.changed = false
		var waiting []uint64
		for id, read := range p.streams {
			if read.pushed.Stream.Waits().For != WaitsNothing {
				waiting = append(waiting, id)
			}
		}
		sort.Slice(waiting, func(i, j int) bool { return waiting[i] < waiting[j] })
		for _, id := range waiting {
			p.wake(id)
		}
	}
}

// play passes all bytes of a stream, in these pieces.
func (p *player) play(id uint64, pieces [][]byte, fin bool) {
	for _, piece := range pieces {
		p.receive(id, piece, false)
	}
	if fin {
		p.receive(id, nil, true)
	}
}

// text returns the events of a stream as text, in which pieces of content that follow each other are one.
func (p *player) text(id uint64) string {
	p.streams[id].flush()
	return p.streams[id].text.String()
}

func (p *player) wake(id uint64) {
	stream := p.streams[id].pushed.Stream
	switch waits := stream.Waits(); waits.For {
	case WaitsSession:
		p.join(id, waits.Session)
	case WaitsAnswer:
		stream.Answer(p.status)
		p.changed = true
	}
	p.read(id, nil)
}

func (p *player) join(id, session uint64) {
	var its *Stream
	if read := p.streams[session]; read != nil {
		its = read.pushed.Stream
	}
	read := p.streams[id]
	switch event := p.connection.Join(read.pushed.Stream, p.connection.Known(session, its)).(type) {
	case EventMore, EventWaits:
	default:
		read.tell(event)
	}
}

// read reads what is next, with a piece that was not passed before.
func (p *player) read(id uint64, piece []byte) {
	p.t.Helper()
	read := p.streams[id]
	for turn := 0; turn < 10_000; turn++ {
		var event Event
		if p.pushes {
			pushed := p.connection.ReceivePushed(read.pushed, piece, read.fin)
			piece, event = piece[pushed.Taken:], pushed.Event
		} else {
			// memory of exactly this size, that is used once
			bytes := append(append(make([]byte, 0, len(read.bytes)+len(piece)), read.bytes...), piece...)
			received := p.connection.Receive(read.pushed.Stream, bytes, read.fin)
			piece, read.bytes, event = nil, bytes[received.Consumed:], received.Event
		}
		switch event := event.(type) {
		case EventMore:
			p.expectEmpty(piece)
			return
		case EventWaits:
			p.expectEmpty(piece)
			if event.For == WaitsAnswer {
				p.wake(id)
			}
			return
		case EventJoins:
			p.join(id, event.Session)
		case EventData, EventStreamData:
			read.tell(event)
		default:
			p.changed = true
			read.tell(event)
		}
	}
	p.t.Fatalf("the stream %d does not end", id)
}

func (p *player) expectEmpty(piece []byte) {
	if len(piece) > 0 {
		p.t.Fatalf("%d bytes were not taken", len(piece))
	}
}

// tell appends an event to the text of its stream.
func (read *reading) tell(event Event) {
	switch event := event.(type) {
	case EventData:
		read.add(event.Bytes)
	case EventStreamData:
		read.add(event.Bytes)
	case EventOpened, EventSkipped:
	default:
		read.flush()
		read.text.WriteString(textOf(event) + "; ")
	}
}

func (read *reading) add(piece []byte) {
	read.content = append(read.content, piece...)
	read.data += len(piece)
}

func (read *reading) flush() {
	if read.data > 0 {
		fmt.Fprintf(&read.text, "data %d; ", read.data)
		read.data = 0
	}
}

// textOf returns an event as the rows have it.
func textOf(event Event) string {
	switch event := event.(type) {
	case EventSettings:
		return fmt.Sprintf("settings %x", event.Payload)
	case EventFrame:
		return fmt.Sprintf("frame %#x %x", event.Type, event.Payload)
	case EventHeaders:
		switch event.Kind {
		case HeadersRequest:
			return "request " + textOfFields(event.Fields)
		case HeadersInterim:
			return fmt.Sprintf("interim %d %s", event.Status, textOfFields(event.Fields))
		case HeadersResponse:
			return fmt.Sprintf("response %d %s", event.Status, textOfFields(event.Fields))
		}
		return "trailers " + textOfFields(event.Fields)
	case EventSessionRequested:
		return "requested " + textOfFields(event.Fields)
	case EventSessionReady:
		return fmt.Sprintf("ready %d %s", event.Status, textOfFields(event.Fields))
	case EventRejected:
		return fmt.Sprintf("rejected %d %s", event.Status, textOfFields(event.Fields))
	case EventSessionClosed:
		return fmt.Sprintf("closed %d %s", event.Code, event.Reason)
	case EventSessionLost:
		return "lost"
	case EventDatagram:
		return fmt.Sprintf("datagram %q", event.Payload)
	case EventDraining:
		return "draining"
	case EventMalformed:
		return "malformed: " + event.Rule.String()
	case EventStreamError:
		return "stream error " + event.Code.String()
	case EventConnectionError:
		return "connection error " + event.Code.String()
	case EventEnd:
		return "end"
	}
	return fmt.Sprintf("%T%v", event, event)
}

func textOfFields(list FieldList) string {
	var texts []string
	for _, field := range list {
		texts = append(texts, field.Name+"="+field.Value)
	}
	return "[" + strings.Join(texts, " ") + "]"
}
