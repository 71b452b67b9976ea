package vesgrauf

// Both ends of a connection, each of this package: messages, tunnels and sessions whose calls and lengths are random,
// and whose streams come in random pieces and in a random order. What one end was allowed to send, the other end
// receives as these events; what was refused changes nothing.

import (
	"bytes"
	"fmt"
	"strconv"
	"strings"
	"testing"
)

// sentStream is what was sent on a stream, and the events that the other end is to have.
type sentStream struct {
	bytes  []byte
	fin    bool
	events reading
}

// addContent sends so many bytes of content, which are numbered.
func (sent *sentStream) addContent(length int) {
	piece := make([]byte, length)
	for i := range piece {
		piece[i] = byte(len(sent.events.content) + i)
	}
	sent.bytes = append(sent.bytes, piece...)
	sent.events.add(piece)
}

func (sent *sentStream) end() {
	sent.fin = true
	sent.events.tell(EventEnd{})
}

// end is one end of the connection: what it receives, and the states of what it sends.
type end struct {
	*player
	random   *random
	control  *ControlSending
	sendings map[uint64]*Sending
	sent     map[uint64]*sentStream
}

func newEnd(t *testing.T, endpoint Endpoint, status uint32, r *random) *end {
	t.Helper()
	p := newPlayer(t, endpoint, status)
	p.pushes = r.below(2) == 0
	return &end{p, r, p.connection.Control(), map[uint64]*Sending{}, map[uint64]*sentStream{}}
}

// of returns what was sent on a stream.
func (e *end) of(id uint64) *sentStream {
	if e.sent[id] == nil {
		e.sent[id] = new(sentStream)
	}
	return e.sent[id]
}

// attempt makes a call. If it is refused, nothing was appended and nothing changed.
func (e *end) attempt(id uint64, call call) error {
	e.t.Helper()
	s, sent := e.sendings[id], e.of(id)
	before, length := *s, len(sent.bytes)
	out, err := call(s, sent.bytes)
	if err != nil && (*s != before || len(out) != length) {
		e.t.Fatalf("stream %d: %v changed something", id, err)
	}
	sent.bytes = out
	return err
}

// mustNot makes a call that is to be refused.
func (e *end) mustNot(id uint64, wanted error, calls ...call) {
	e.t.Helper()
	for _, call := range calls {
		equal(e.t, e.attempt(id, call), wanted)
	}
}

func (e *end) must(id uint64, call call) {
	e.t.Helper()
	equal(e.t, e.attempt(id, call), nil)
}

// request begins a request, whose response is read.
func (e *end) request(id uint64, asked Asked) {
	e.add(id, e.connection.Open(asked))
	e.sendings[id] = requestOn(e.t, e.connection, id)
}

// section sends a section of a message. It returns why it is not allowed now.
func (e *end) section(id uint64, fields FieldList, event Event) error {
	its, is := event.(EventHeaders)
	err := e.attempt(id, func(s *Sending, out []byte) ([]byte, error) {
		if is && its.Kind == HeadersTrailers {
			return s.AppendTrailers(out, fields)
		}
		return s.AppendHeaders(out, fields)
	})
	if err == nil {
		e.of(id).events.tell(event)
	}
	return err
}

// data sends a DATA frame in random pieces. It returns why it is not allowed now.
func (e *end) data(id uint64, length int) error {
	if err := e.attempt(id, data(uint64(length))); err != nil {
		return err
	}
	for s := e.sendings[id]; s.Owed() > 0; {
		e.mustNot(id, SendDataExceeded, sent(s.Owed()+1), sent(1<<64-1))
		e.mustNot(id, SendDataMissing, finish)
		piece := 1 + e.random.below(int(s.Owed()))
		e.of(id).addContent(piece)
		e.must(id, sent(uint64(piece)))
	}
	return nil
}

func (e *end) finish(id uint64) error {
	err := e.attempt(id, finish)
	if err == nil {
		e.of(id).end()
	}
	return err
}

// message makes random calls of a message with these heads, and then those that end it.
func (e *end) message(id uint64, heads []EventHeaders) {
	sums := FieldList{{"x-sum", "1"}, {"x-sum", "2"}}
	for n := e.random.below(12); n > 0; n-- {
		switch e.random.below(8) {
		case 0, 1:
			head := heads[e.random.below(len(heads))]
			e.section(id, head.Fields, head)
		case 2, 3, 4:
			e.data(id, e.random.below(9))
		case 5:
			e.section(id, sums, EventHeaders{Kind: HeadersTrailers, Fields: sums})
		case 6:
			if e.finish(id) == nil {
				return
			}
		default:
			if e.section(id, FieldList{{":status", "200"}, {"Upper", "x"}}, EventEnd{}) == nil {
				e.t.Fatal("fields that break a rule are sent")
			}
		}
	}
	// the last head is a final one without content-length; and what is missing of another's content
	head := heads[len(heads)-1]
	e.section(id, head.Fields, head)
	for e.finish(id) != nil {
		equal(e.t, e.data(id, 1), nil)
	}
}

// stream sends a stream of a session whole.
func (e *end) stream(id, session uint64) {
	head := e.sendings[session].AppendBidirectional
	if id&2 != 0 {
		head = e.sendings[session].AppendUnidirectional
	}
	out, err := head(nil)
	equal(e.t, err, nil)
	sent := e.of(id)
	sent.bytes = out
	sent.events.tell(EventJoined{session})
	sent.addContent(e.random.below(300))
	sent.end()
}

// deliver delivers what was sent on some streams to the other end, in random pieces and order, and compares the
// events.
func (e *end) deliver(to *end, ids ...uint64) {
	e.t.Helper()
	left, pieces := append([]uint64{}, ids...), map[uint64][][]byte{}
	for _, id := range ids {
		sent := e.of(id)
		pieces[id] = e.random.pieces(sent.bytes)
		if sent.fin && (len(pieces[id]) == 0 || e.random.below(2) == 0) {
			pieces[id] = append(pieces[id], nil) // the end comes alone
		}
	}
	for len(left) > 0 {
		place := e.random.below(len(left))
		id := left[place]
		if len(pieces[id]) == 0 {
			left = append(left[:place], left[place+1:]...)
			continue
		}
		piece := pieces[id][0]
		pieces[id] = pieces[id][1:]
		to.receive(id, piece, e.of(id).fin && len(pieces[id]) == 0)
	}
	for _, id := range ids {
		sent := e.of(id)
		sent.bytes = nil
		sent.events.flush()
		if found, wanted := to.text(id), sent.events.text.String(); found != wanted {
			e.t.Fatalf("stream %d: %s, wanted %s", id, found, wanted)
		}
		equal(e.t, bytes.Equal(to.streams[id].content, sent.events.content), true)
	}
}

const tunnel = 12

var (
	messages = []struct {
		method string
		asked  Asked
	}{{"GET", AskedOther}, {"POST", AskedOther}, {"HEAD", AskedHead}}
	sessions    = []uint64{16, 20}
	ofRequests  = []uint64{0, 4, 8, tunnel, 16, 20}
	ofSession   = []call{unidirectional, bidirectional, datagram, drain, closing(7, "bye")}
	sessionHead = listOf(":method CONNECT\n:scheme https\n:authority a\n:path /b?c\n:protocol webtransport")
)

// requestHeads are those of a request, and responseHeads of a response; the last one has no content-length.
func requestHeads(method string) []EventHeaders {
	start := ":method " + method + "\n:scheme https\n:authority a\n:path /x?y\n"
	return []EventHeaders{
		{HeadersRequest, 0, listOf(start + "content-length 7\nx caf\xe9")},
		{HeadersRequest, 0, listOf(start + "cookie a=1\ncookie b")},
	}
}

var responseHeads = []EventHeaders{
	{HeadersInterim, 103, listOf(":status 103\nlink </a>\nlink </b>")},
	{HeadersResponse, 206, listOf(":status 206\ncontent-length 5")},
	{HeadersResponse, 404, listOf(":status 404\nset-cookie a=1\nset-cookie b=2")},
}

// configure sends the own SETTINGS, which the other end reads.
func (e *end) configure(to *end, id uint64, endpoint Endpoint) {
	settings, sent := endpoint.Settings(16), e.of(id)
	payload, err := settings.Append(nil)
	equal(e.t, err, nil)
	sent.bytes, err = e.control.AppendSettings(nil, settings)
	equal(e.t, err, nil)
	sent.events.tell(EventSettings{payload})
	to.accept(id)
	e.deliver(to, id)
	equal(e.t, to.connection.AllowsSessions(), true)
}

// ask sends the requests of the client.
func (e *end) ask(server *end) {
	for i, one := range messages {
		e.request(uint64(4*i), one.asked)
		e.message(uint64(4*i), requestHeads(one.method))
	}
	e.request(tunnel, AskedConnect)
	fields := listOf(":method CONNECT\n:authority a:1")
	equal(e.t, e.section(tunnel, fields, EventHeaders{HeadersRequest, 0, fields}), nil)
	e.mustNot(tunnel, SendUnexpected, data(1))
	for _, id := range sessions {
		e.request(id, AskedSession)
		equal(e.t, e.section(id, sessionHead, EventSessionRequested{sessionHead}), nil)
		e.mustNot(id, ErrSessionNotOpen, ofSession...)
		e.mustNot(id, SendUnexpected, data(1))
	}
	for _, id := range ofRequests {
		server.accept(id)
	}
	e.deliver(server, ofRequests...)
}

// answer sends the responses of the server, to CONNECT with its status, and streams of its sessions.
func (e *end) answer(client *end) {
	for i, one := range messages {
		e.sendings[uint64(4*i)] = responseOn(e.t, e.connection, uint64(4*i), one.asked)
		e.message(uint64(4*i), responseHeads)
	}
	fields := FieldList{{":status", strconv.Itoa(int(e.status))}}
	e.sendings[tunnel] = responseOn(e.t, e.connection, tunnel, AskedConnect)
	equal(e.t, e.section(tunnel, fields, EventHeaders{HeadersResponse, e.status, fields}), nil)
	equal(e.t, e.data(tunnel, 5), nil)
	equal(e.t, e.finish(tunnel), nil)
	ids := append([]uint64{}, ofRequests...)
	for i, session := range sessions {
		e.sendings[session] = responseOn(e.t, e.connection, session, AskedSession)
		e.mustNot(session, ErrSessionNotOpen, ofSession...)
		if e.status == 404 {
			equal(e.t, e.section(session, fields, EventRejected{404, fields}), nil)
			e.mustNot(session, ErrSessionNotOpen, ofSession...)
			equal(e.t, e.data(session, 9), nil)
			equal(e.t, e.finish(session), nil)
			continue
		}
		equal(e.t, e.section(session, fields, EventSessionReady{e.status, fields}), nil)
		for _, id := range [][]uint64{{1, 7}, {5, 11}}[i] {
			e.stream(id, session)
			client.accept(id)
			ids = append(ids, id)
		}
	}
	e.deliver(client, ids...)
}

// goOn is what the client does after the answers: with its tunnel and its sessions, or with their ends.
func (e *end) goOn(server *end) {
	ids := []uint64{tunnel}
	if server.status != 404 {
		e.must(tunnel, connected)
		equal(e.t, e.data(tunnel, 7), nil)
	}
	equal(e.t, e.finish(tunnel), nil)
	for i, session := range sessions {
		if server.status == 404 {
			equal(e.t, e.finish(session), nil)
			ids = append(ids, session)
			continue
		}
		e.must(session, connected)
		for _, id := range [][]uint64{{6, 24}, {10, 28}}[i] {
			e.stream(id, session)
			server.accept(id)
			ids = append(ids, id)
		}
	}
	e.deliver(server, ids...)
}

// closeSession announces and closes the first session, after a datagram.
func (e *end) closeSession(to *end) {
	id := sessions[0]
	out, err := e.sendings[id].AppendDatagram(nil)
	equal(e.t, err, nil)
	session, payload, err := to.connection.Datagram(append(out, "abc"...))
	equal(e.t, fmt.Sprintf("%d %s %v", session, payload, err), "16 abc <nil>")
	e.must(id, drain)
	reason := strings.Repeat("r", e.random.below(1_024))
	e.must(id, closing(1<<32-1, reason))
	sent := e.of(id)
	sent.events.tell(EventDraining{})
	sent.events.tell(EventSessionClosed{1<<32 - 1, reason})
	sent.end()
	equal(e.t, e.connection.Abandon(e.streams[id].pushed.Stream), EventSessionLost{})
	e.mustNot(id, ErrSessionNotOpen, ofSession...)
	e.deliver(to, id)
}

// goAway sends GOAWAY, after which the client begins no request.
func (e *end) goAway(client *end) {
	sent, err := e.of(3), error(nil)
	for _, id := range []uint64{LargestRequest, 24} {
		sent.bytes, err = e.control.AppendGoAway(sent.bytes, id)
		equal(e.t, err, nil)
		sent.events.tell(EventGoAway{id})
	}
	e.deliver(client, 3)
	_, err = client.connection.Request(24)
	equal(e.t, err, error(ErrGoAway))
}

func TestEachEndReadsWhatTheOtherSends(t *testing.T) {
	for seed := 0; seed < times(500); seed++ {
		r := random(seed)
		clientEnd, serverEnd := ClientEndpoint(testLimits), ServerEndpoint(testLimits)
		client := newEnd(t, clientEnd, 0, &r)
		server := newEnd(t, serverEnd, []uint32{200, 299, 404}[r.below(3)], &r)
		client.configure(server, 2, clientEnd)
		server.configure(client, 3, serverEnd)
		client.ask(server)
		server.answer(client)
		client.goOn(server)
		if server.status != 404 {
			if r.below(2) == 0 {
				client.closeSession(server)
			} else {
				server.closeSession(client)
			}
			// the other session ends with the client's stream
			client.of(sessions[1]).events.tell(EventSessionClosed{})
			equal(t, client.finish(sessions[1]), nil)
			client.deliver(server, sessions[1])
		}
		server.goAway(client)
	}
}
