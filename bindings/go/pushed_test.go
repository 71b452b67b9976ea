package vesgrauf

// Streams whose bytes come once, in chunks: what is held, and how much (the rows of c/tests/connection_pushes.c;
// draft-ietf-webtrans-http3-07, section 4.5). That their events are those of the same bytes whole is in
// rows_test.go and recordings_test.go.

import "testing"

var waits0 = EventWaits{Waits{For: WaitsSession}}

// waiting begins a stream of the session 0, which is to come, and holds at most so many bytes.
func waiting(t *testing.T, c *Connection, most int) *PushedStream {
	t.Helper()
	p := NewPushedStream(c.Accept(4), most)
	equal(t, c.ReceivePushed(p, []byte("\x40\x41\x00ab"), false), Pushed{3, 3, EventJoins{0}})
	equal(t, c.Join(p.Stream, KnownComing), waits0)
	return p
}

// wait passes a chunk to a stream that waits. It returns how many of its bytes were taken.
func wait(t *testing.T, c *Connection, p *PushedStream, chunk string, fin bool) int {
	t.Helper()
	next := c.ReceivePushed(p, []byte(chunk), fin)
	equal(t, []any{next.Event, next.Consumed}, []any{waits0, 0})
	return next.Taken
}

func TestAStreamThatWaitsHoldsItsBytesAndItsEnd(t *testing.T) {
	c := newServer(t)
	p := waiting(t, c, 8)
	equal(t, wait(t, c, p, "ab", false), 2)
	equal(t, wait(t, c, p, "cdefg", true), 5)
	equal(t, p.Held(), 7)
	equal(t, c.Join(p.Stream, KnownOpen), EventJoined{0})
	// the end need not be said again
	equal(t, c.ReceivePushed(p, nil, false), Pushed{0, 7, EventStreamData{[]byte("abcdefg")}})
	equal(t, c.ReceivePushed(p, nil, false).Event, EventEnd{})
	equal(t, p.Held(), 0)
}

func TestNoMoreIsHeldThanMayBe(t *testing.T) {
	c := newServer(t)
	p := waiting(t, c, 4)
	equal(t, wait(t, c, p, "abc", false), 3)
	equal(t, wait(t, c, p, "defg", true), 0)
	equal(t, p.Held(), 3)
	equal(t, c.Overflow(p.Stream), EventStreamError{WebTransportBufferedStreamRejected})
	equal(t, p.Discard(), 3)
	equal(t, p.Held(), 0)
	equal(t, c.ReceivePushed(p, []byte("defg"), true), Pushed{4, 4, EventMore{}})
}

func TestWhatIsHeldIsConsumedToo(t *testing.T) {
	c := newServer(t)
	p := waiting(t, c, 4)
	equal(t, wait(t, c, p, "abc", false), 3)
	equal(t, wait(t, c, p, "defg", true), 0)
	c.Overflow(p.Stream)
	// if it is not dropped: first as much as there is room for
	equal(t, c.ReceivePushed(p, []byte("defg"), true), Pushed{1, 4, EventSkipped{}})
	equal(t, c.ReceivePushed(p, []byte("efg"), true), Pushed{3, 3, EventMore{}})
}

func TestRequestsComeByteByByte(t *testing.T) {
	// GET https://a/ with the fields of RFC 9114, section 4.3.1, and content
	bytes := []byte("\x01\x08\x00\x00\xd1\xd7\xc1\x50\x01a\x00\x02hi")
	c := newServer(t)
	p := NewPushedStream(c.Accept(0), 4_112)
	consumed, seen := 0, []string{}
	for at := range bytes {
		chunk, more := bytes[at:at+1], true
		for more {
			next := c.ReceivePushed(p, chunk, at+1 == len(bytes))
			chunk = chunk[next.Taken:]
			consumed += next.Consumed
			switch event := next.Event.(type) {
			case EventMore:
				more = false
			case EventHeaders:
				authority, _ := event.Fields.First(":authority")
				seen = append(seen, authority)
			case EventData:
				seen = append(seen, string(event.Bytes))
			case EventEnd:
				seen = append(seen, "end")
			case EventOpened, EventSkipped:
			default:
				t.Fatal(event)
			}
		}
		equal(t, len(chunk), 0)
		equal(t, p.Held(), at+1-consumed)
	}
	equal(t, []any{seen, consumed}, []any{[]string{"a", "h", "i", "end"}, len(bytes)})
}
