package vesgrauf

// Streams of messages and sessions, whole, in pieces of every size and cut at random places: the rows of
// c/tests/connection_rows.c (draft-ietf-webtrans-http3-02, sections 3 and 5; RFC 9297, section 3.3; RFC 9114,
// section 4).

import (
	"bytes"
	"fmt"
	"testing"
)

const (
	// CONNECT https://a/ for a session, in a HEADERS frame
	aRequest = "\x01\x20\x00\x00\xcf\xd7\xc1\x50\x01a\x27\x02:protocol\x0cwebtransport"
	// a control stream with WebTransport and datagrams, as Chromium's
	aControl = "\x00\x04\x07\xab\x60\x37\x42\x01\x33\x01"

	requested = "requested [:method=CONNECT :scheme=https :path=/ :authority=a :protocol=webtransport]; "
	// the code of what is malformed (RFC 9297, section 3.3; RFC 9114, section 4.1.2)
	streamError = "stream error H3_MESSAGE_ERROR (0x10e); "
)

// what comes on a stream: a request; the response to a request for a session; or, at a server that answers with
// status, what follows a request for a session, after SETTINGS or before them
type what struct {
	kind   string
	status uint32
}

var (
	request  = what{"request", 200}
	response = what{"response", 200}
	session  = what{"session", 200}
	early    = what{"early", 200}
)

// Each row: what comes, its bytes, and the events after the request.
var rows = []struct {
	what   what
	bytes  string
	events string
}{
	// the stream ends; CLOSE with the code 1 and a reason, whole and in two DATA frames
	{session, "", "closed 0 ; end; "},
	{session, "\x00\x09\x68\x43\x06\x00\x00\x00\x01ab", "closed 1 ab; end; "},
	{what{"session", 299}, "\x00\x04\x68\x43\x06\x00\x00\x05\x00\x00\x01ab", "closed 1 ab; end; "},
	// a byte, a reserved frame and HEADERS after CLOSE
	{session, "\x00\x0a\x68\x43\x06\x00\x00\x00\x01ab\x00", "closed 1 ab; " + streamError},
	{session, "\x00\x09\x68\x43\x06\x00\x00\x00\x01ab\x21\x00", "closed 1 ab; " + streamError},
	{session, "\x00\x07\x68\x43\x04\x00\x00\x00\x01\x01\x06\x00\x00\x21\x78\x01\x79", "closed 1 ; " + streamError},
	// CLOSE of three bytes, with a reason that is not UTF-8, of 1029 bytes, and cut
	{session, "\x00\x06\x68\x43\x03\x00\x00\x00", streamError + "lost; "},
	{session, "\x00\x08\x68\x43\x05\x00\x00\x00\x01\xff", streamError + "lost; "},
	{session, "\x00\x04\x68\x43\x44\x05", streamError + "lost; "},
	{session, "\x00\x04\x68\x43\x06\x00", streamError + "lost; "},
	// a reserved capsule
	{session, "\x00\x04\x17\x02\x01\x02", "closed 0 ; end; "},
	// datagrams: one, over three DATA frames, before other capsules, and cut by the end
	{session, "\x00\x04\x00\x02ab", "datagram \"ab\"; closed 0 ; end; "},
	{
		session, "\x00\x04\x00\x01a\x00\x00\x02\x00\x40\x00\x03\x00\x01b",
		"datagram \"a\"; datagram \"\"; datagram \"b\"; closed 0 ; end; ",
	},
	{
		session, "\x00\x0f\x00\x01a\x17\x01\xff\x68\x43\x06\x00\x00\x00\x01ab",
		"datagram \"a\"; closed 1 ab; end; ",
	},
	{session, "\x00\x03\x00\x02a", streamError + "lost; "},
	// DRAIN, and with a value
	{session, "\x00\x08\x80\x00\x78\xae\x00\x00\x01a", "draining; datagram \"a\"; closed 0 ; end; "},
	{session, "\x00\x06\x80\x00\x78\xae\x01a", streamError + "lost; "},
	// a DATA frame that is cut; HEADERS in an open session; a session that is refused
	{session, "\x00\x05\x00\x01a", "datagram \"a\"; connection error H3_FRAME_ERROR (0x106); "},
	{session, "\x01\x06\x00\x00\x21\x78\x01\x79", "connection error H3_FRAME_UNEXPECTED (0x105); "},
	{what{"session", 404}, "\x00\x01a", "data 1; end; "},
	// a request before SETTINGS
	{early, "\x00\x09\x68\x43\x06\x00\x00\x00\x01ab", "closed 1 ab; end; "},
	// responses: accepted, refused, after an interim one, with trailers, malformed by two rules, and none
	{
		response, "\x01\x03\x00\x00\xd9\x00\x09\x68\x43\x06\x00\x00\x00\x01ab",
		"ready 200 [:status=200]; closed 1 ab; end; ",
	},
	{response, "\x01\x03\x00\x00\xdb\x00\x01a", "rejected 404 [:status=404]; data 1; end; "},
	{
		response, "\x01\x03\x00\x00\xd8\x01\x03\x00\x00\xd9",
		"interim 103 [:status=103]; ready 200 [:status=200]; closed 0 ; end; ",
	},
	{
		response, "\x01\x03\x00\x00\xdb\x00\x01a\x01\x06\x00\x00\x21\x78\x01\x79",
		"rejected 404 [:status=404]; data 1; trailers [x=y]; end; ",
	},
	{response, "\x01\x04\x00\x00\xff\x01", "malformed: the :status does not go with a session; "},
	{response, "\x01\x04\x00\x00\xd9\xf4", "malformed: a session's message has a field of content; "},
	{response, "", streamError},
	// a request without :path, one whose section cannot be decoded, and one with content
	{request, "\x01\x07\x00\x00\xd1\xd7\x50\x01a", "malformed: there is no :path; "},
	{request, "\x01\x03\x02\x00\xd1", "connection error QPACK_DECOMPRESSION_FAILED (0x200); "},
	{
		request, "\x01\x08\x00\x00\xd1\xd7\xc1\x50\x01a\x00\x02hi",
		"request [:method=GET :scheme=https :path=/ :authority=a]; data 2; end; ",
	},
}

// playRow returns the events of a row whose bytes come in these pieces. pushes: each piece comes once.
func playRow(t *testing.T, row what, pieces [][]byte, pushes bool) string {
	t.Helper()
	endpoint := ServerEndpoint(testLimits)
	switch row.kind {
	case "response":
		endpoint = ClientEndpoint(testLimits)
	case "request":
		endpoint.WebTransport = false
	}
	p := newPlayer(t, endpoint, row.status)
	p.pushes = pushes
	control := func() {
		p.accept(2)
		p.receive(2, []byte(aControl), false)
	}
	if row.kind == "session" {
		control()
	}
	if row.kind == "response" {
		p.add(0, p.connection.Open(AskedSession))
	} else {
		p.accept(0)
	}
	p.play(0, pieces, true)
	if row.kind == "early" {
		if text := p.text(0); text != "" {
			t.Fatalf("%s before SETTINGS", text)
		}
		control()
	}
	return p.text(0)
}

func TestRows(t *testing.T) {
	for i, row := range rows {
		t.Run(fmt.Sprint(i), func(t *testing.T) {
			whole, wanted := []byte(row.bytes), row.events
			if row.what.kind == "session" || row.what.kind == "early" {
				whole, wanted = []byte(aRequest+row.bytes), requested+row.events
			}
			check := func(pieces [][]byte, pushes bool) {
				if found := playRow(t, row.what, pieces, pushes); found != wanted {
					t.Fatalf("%x in %v: %s, wanted %s", whole, sizes(pieces), found, wanted)
				}
			}
			r := random(i)
			for _, pushes := range []bool{false, true} {
				check([][]byte{whole}, pushes)
				for size := 1; size <= times(len(whole)); size++ {
					check(steps(whole, size), pushes)
				}
				for turn := 0; turn < times(100); turn++ {
					check(r.pieces(whole), pushes)
				}
			}
		})
	}
}

func newServer(t *testing.T) *Connection {
	t.Helper()
	return newPlayer(t, ServerEndpoint(testLimits), 200).connection
}

// equal checks that a test found what it wanted.
func equal(t *testing.T, found, wanted any) {
	t.Helper()
	if fmt.Sprintf("%#v", found) != fmt.Sprintf("%#v", wanted) {
		t.Fatalf("%#v, wanted %#v", found, wanted)
	}
}

// a bidirectional stream of the session 0
var of0 = []byte("\x40\x41\x00ab")

func TestStreamsJoinTheirSession(t *testing.T) {
	c := newServer(t)
	s := c.Accept(4)
	_, belongs := s.Belongs()
	equal(t, belongs, false)
	equal(t, c.Receive(s, of0, true), Received{3, EventJoins{0}})
	equal(t, c.Known(0, nil), KnownComing)
	equal(t, c.Known(1, nil), KnownImpossible)
	waits := Waits{For: WaitsSession}
	equal(t, c.Join(s, KnownComing), EventWaits{waits})
	its, belongs := s.Belongs()
	equal(t, []any{s.Waits(), its, belongs}, []any{waits, uint64(0), true})
	equal(t, c.Receive(s, []byte("ab"), true), Received{0, EventWaits{waits}})
	equal(t, c.Join(s, KnownOpen), EventJoined{0})
	equal(t, c.Receive(s, []byte("ab"), true), Received{2, EventStreamData{[]byte("ab")}})
	equal(t, c.Receive(s, nil, true), Received{0, EventEnd{}})
}

func TestStreamsOfNoSessionAreRefused(t *testing.T) {
	c := newServer(t)
	s := c.Accept(8)
	c.Receive(s, of0, false)
	equal(t, c.Join(s, KnownOver), EventStreamError{WebTransportSessionGone})
	equal(t, c.Reset(s), EventMore{})
	// 16 wait, and the next one is refused
	for id := uint64(0); id < 17; id++ {
		s := c.Accept(12 + 4*id)
		c.Receive(s, of0, false)
		var wanted Event = EventWaits{Waits{For: WaitsSession}}
		if id == 16 {
			wanted = EventStreamError{WebTransportBufferedStreamRejected}
		}
		equal(t, c.Join(s, KnownComing), wanted)
	}
	// an ID that no session has ends the connection
	s = c.Accept(96)
	c.Receive(s, of0, false)
	equal(t, c.Join(s, KnownImpossible), EventConnectionError{H3IDError})
	equal(t, c.Receive(s, []byte("abc"), false), Received{3, EventMore{}})
}

func TestEachCallThatEndsASessionTellsItOnce(t *testing.T) {
	for _, end := range []func(*Connection, *Stream) Event{
		(*Connection).Reset, (*Connection).Stop, (*Connection).Abandon,
	} {
		p := newPlayer(t, ServerEndpoint(testLimits), 200)
		p.accept(2)
		p.receive(2, []byte(aControl), false)
		equal(t, p.connection.AllowsSessions(), true)
		p.accept(0)
		p.receive(0, []byte(aRequest), false)
		// a datagram of a capsule that is cut is held: it is lost with the session
		p.receive(0, []byte("\x00\x09\x00\x05abc"), false)
		s := p.streams[0].pushed.Stream
		equal(t, p.connection.Known(0, s), KnownOpen)
		equal(t, end(p.connection, s), EventSessionLost{})
		equal(t, p.connection.Known(0, s), KnownOver)
		equal(t, p.connection.Reset(s), EventMore{})
	}
}

func TestDatagramsOfSessions(t *testing.T) {
	c := newServer(t)
	its, payload, err := c.Datagram([]byte("\x01ab"))
	equal(t, []any{its, string(payload), err}, []any{uint64(4), "ab", nil})
	for known, wanted := range map[Known]DatagramFor{
		KnownOpen: DatagramDeliver, KnownComing: DatagramEarly, KnownOver: DatagramDiscard,
		KnownOther: DatagramEndStream,
	} {
		equal(t, known.DatagramFor(), wanted)
	}
	equal(t, c.Stopped(PurposeSession), nil)
	equal(t, c.Stopped(PurposeControl), H3ClosedCriticalStream)
	c = newServer(t)
	_, _, err = c.Datagram(nil)
	equal(t, err, H3DatagramError)
	_, _, err = c.Datagram([]byte("\x01ab"))
	if err != ErrDropped {
		t.Fatal(err)
	}
}

func TestAClientReadsWhatAServerSays(t *testing.T) {
	p := newPlayer(t, ClientEndpoint(testLimits), 0)
	equal(t, p.connection.AllowsSessions(), false)
	// SETTINGS with WebTransport, datagrams and extended CONNECT, and GOAWAY with the ID 4
	p.accept(3)
	p.receive(3, []byte("\x00\x04\x09\xab\x60\x37\x42\x01\x33\x01\x08\x01\x07\x01\x04"), false)
	equal(t, p.connection.AllowsSessions(), true)
	equal(t, []bool{p.connection.IsUnprocessed(0), p.connection.IsUnprocessed(4)}, []bool{false, true})
	received := p.connection.Receive(StreamOfSession(0), []byte("hi"), true)
	equal(t, received, Received{2, EventStreamData{[]byte("hi")}})
}

func TestLimitsAreKept(t *testing.T) {
	p := newPlayer(t, ServerEndpoint(Limits{MaxSection: 16, MaxFields: 40, MaxDatagram: 2}), 200)
	p.accept(0)
	p.receive(0, []byte(aRequest), false) // 32 bytes
	equal(t, p.text(0), "vesgrauf.EventTooLarge{32}; ")
	p.accept(4)
	p.play(4, [][]byte{[]byte("\x01\x08\x00\x00\xd1\xd7\xc1\x50\x01a")}, true) // four fields
	equal(t, p.text(4), "vesgrauf.EventTooLarge{0}; ")
	limits := testLimits
	limits.MaxDatagram = 65_536
	if _, err := NewConnection(ServerEndpoint(limits)); err != ErrInvalidEndpoint {
		t.Fatal(err)
	}
}

// Pieces of an event are a part of the bytes that were passed, and nothing is written there.
func TestBytesStayAsTheyAre(t *testing.T) {
	c := newServer(t)
	s := c.Accept(0)
	passed := []byte("\x01\x08\x00\x00\xd1\xd7\xc1\x50\x01a\x00\x02hi")
	same := append([]byte{}, passed...)
	for rest := passed; ; {
		received := c.Receive(s, rest, false)
		rest = rest[received.Consumed:]
		if data, is := received.Event.(EventData); is {
			equal(t, &data.Bytes[0] == &passed[12], true)
			break
		}
	}
	equal(t, bytes.Equal(passed, same), true)
}
