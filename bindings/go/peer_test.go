package vesgrauf

// The settings of the peer, connections that resume a session, GOAWAY, and requests that are reset: the rows of
// c/tests/connection_peer.c (RFC 9114, sections 5.2, 7.2.4.2, 7.2.6 and 10.5; RFC 9204, section 3.2.3; RFC 9297,
// section 2.1.1).

import "testing"

const (
	// the control stream of Chromium 156
	ofChromium = "\x00\x04\x32\x01\x80\x01\x00\x00\x06\x80\x00\x40\x00\x07\x40\x64" +
		"\x33\x01\x80\xff\xd2\x77\x01\xab\x60\x37\x42\x01\xc0\x00\x00\x00" +
		"\xc6\x71\x70\x6a\x10\xc0\x00\x00\x18\x89\xc2\x49\xb7\xc0\x00\x00" +
		"\x00\xb6\x10\xa4\xb3\xc0\x00\x00\x14\x8d\x8f\xcb\xdc\x01\xcd"
	// each setting with a name, and a reserved one
	allSettings = "\x00\x04\x1f\x01\x0a\x06\x0b\x07\x0c\x08\x01\x33\x01" +
		"\xab\x60\x37\x42\x01\xc0\x00\x00\x00\xc6\x71\x70\x6a\x0d\x94\xe9\xcd\x29\x0e\x21\x0f"
)

// readControl reads the peer's control stream. It returns the error that ends the connection.
func readControl(t *testing.T, c *Connection, id uint64, bytes string) error {
	t.Helper()
	s, rest := c.Accept(id), []byte(bytes)
	for {
		received := c.Receive(s, rest, false)
		rest = rest[received.Consumed:]
		switch event := received.Event.(type) {
		case EventMore:
			return nil
		case EventConnectionError:
			return event.Code
		case EventOpened, EventSettings, EventGoAway:
		default:
			t.Fatal(event)
		}
	}
}

func newClient(t *testing.T) *Connection {
	t.Helper()
	return newPlayer(t, ClientEndpoint(testLimits), 200).connection
}

func resumed(t *testing.T, endpoint Endpoint, kept PeerSettings) *Connection {
	t.Helper()
	c, err := ResumeConnection(endpoint, kept)
	equal(t, err, nil)
	return c
}

func TestSettingsOfThePeer(t *testing.T) {
	server := newServer(t)
	equal(t, server.Settings(), PeerSettings{})
	equal(t, readControl(t, server, 2, ofChromium), nil)
	equal(t, server.Settings(), PeerSettings{
		QPACKMaxTableCapacity: 65_536, MaxFieldSectionSize: 16_384, HasMaxFieldSectionSize: true,
		QPACKBlockedStreams: 100, H3Datagram: true, EnableWebTransport: true, WebTransportMaxSessions: 16,
		Came: true,
	})
	client := newClient(t)
	equal(t, readControl(t, client, 3, allSettings), nil)
	all := PeerSettings{
		QPACKMaxTableCapacity: 10, MaxFieldSectionSize: 11, HasMaxFieldSectionSize: true,
		QPACKBlockedStreams: 12, EnableConnectProtocol: true, H3Datagram: true, EnableWebTransport: true,
		WebTransportMaxSessions: 13, WTMaxSessions: 14, Came: true,
	}
	equal(t, client.Settings(), all)
	again := resumed(t, ClientEndpoint(testLimits), all)
	all.Came = false
	equal(t, again.Settings(), all)
}

// The SETTINGS of a session, those of the one that resumes it, and the error.
var resumedRows = []struct {
	first, second string
	err           error
}{
	{"\x00", "\x00", nil},
	{"\x06\x01\x09\x06\x09\x33\x01", "\x06\x33\x01\x06\x09\x01\x09", nil},
	{"\x02\x06\x09", "\x02\x06\x0a", nil},
	{"\x02\x06\x09", "\x02\x06\x08", H3SettingsError},
	{"\x02\x06\x09", "\x00", H3SettingsError},
	{"\x00", "\x02\x06\x09", H3SettingsError},
	{"\x02\x07\x09", "\x02\x07\x08", H3SettingsError},
	{"\x02\x33\x01", "\x02\x33\x00", H3SettingsError},
	{"\x02\x08\x01", "\x00", H3SettingsError},
	{"\x02\x08\x00", "\x02\x08\x01", nil},
	{"\x05\xab\x60\x37\x42\x01", "\x00", H3SettingsError},
	{"\x05\x94\xe9\xcd\x29\x02", "\x05\x94\xe9\xcd\x29\x01", H3SettingsError},
	{"\x02\x01\x09", "\x02\x01\x0a", QPACKDecoderStreamError},
	{"\x02\x01\x00", "\x02\x01\x09", nil},
}

func TestResumedSessionsKeepTheirSettings(t *testing.T) {
	for _, row := range resumedRows {
		c := newClient(t)
		equal(t, readControl(t, c, 3, "\x00\x04"+row.first), nil)
		kept := c.Settings()
		equal(t, kept.Came, true)
		c = resumed(t, ClientEndpoint(testLimits), kept)
		same := kept
		same.Came = false
		equal(t, []any{c.Settings(), c.AllowsSessions()}, []any{same, false})
		equal(t, readControl(t, c, 3, "\x00\x04"+row.second), row.err)
		// the server did not accept early data
		c = resumed(t, ClientEndpoint(testLimits), kept)
		c.EarlyDataRefused()
		equal(t, c.Settings(), PeerSettings{})
		equal(t, readControl(t, c, 3, "\x00\x04"+row.second), nil)
		settings := c.Settings()
		c.EarlyDataRefused()
		equal(t, []any{settings.Came, c.Settings()}, []any{true, settings})
	}
}

func TestWhatIsNotRememberedNeedNotBeKept(t *testing.T) {
	// a ticket that came before SETTINGS: the defaults apply, and no limit of fields is remembered
	c := resumed(t, ClientEndpoint(testLimits), newClient(t).Settings())
	equal(t, readControl(t, c, 3, "\x00\x04\x02\x06\x09"), nil)
	// a server remembers nothing
	kept := PeerSettings{H3Datagram: true, Came: true}
	equal(t, resumed(t, ServerEndpoint(testLimits), kept).Settings(), PeerSettings{})
	// a number is none of QUIC's
	for _, limit := range []uint64{1 << 62, 1<<64 - 1} {
		fields, blocked := kept, kept
		fields.MaxFieldSectionSize, fields.HasMaxFieldSectionSize = limit, true
		blocked.QPACKBlockedStreams = limit
		for _, wrong := range []PeerSettings{fields, blocked} {
			if _, err := ResumeConnection(ClientEndpoint(testLimits), wrong); err != ErrInvalidEndpoint {
				t.Fatal(err)
			}
		}
	}
}

func TestGoawayNeverRises(t *testing.T) {
	goaway := NewGoaway(SideServer)
	for _, id := range []uint64{1, 2, 3, 5, 1 << 62, 1<<64 - 1} {
		refused(t, func(out []byte) ([]byte, error) { return goaway.Append(out, id) })
	}
	_, sent := goaway.Last()
	equal(t, sent, false)
	expect(t, func(out []byte) ([]byte, error) { return goaway.Append(out, LargestRequest) },
		"\x07\x08\xff\xff\xff\xff\xff\xff\xff\xfc")
	var out []byte
	for _, row := range []struct {
		id  uint64
		err error
	}{{4, nil}, {8, ErrInvalid}, {4, nil}, {0, nil}} {
		var err error
		if out, err = goaway.Append(out, row.id); err != row.err {
			t.Fatal(err)
		}
	}
	last, sent := goaway.Last()
	equal(t, []any{last, sent, string(out)}, []any{uint64(0), true, "\x07\x01\x04\x07\x01\x04\x07\x01\x00"})
	goaway = NewGoaway(SideClient)
	for _, row := range []struct {
		id  uint64
		err error
	}{{1 << 62, ErrInvalid}, {5, nil}, {6, ErrInvalid}} {
		if _, err := goaway.Append(nil, row.id); err != row.err {
			t.Fatal(err)
		}
	}
	last, _ = goaway.Last()
	equal(t, last, uint64(5))
}

func TestAClientReadsGoaway(t *testing.T) {
	bytes, err := NewGoaway(SideServer).Append([]byte("\x00\x04\x00"), 8)
	equal(t, err, nil)
	c := newClient(t)
	equal(t, readControl(t, c, 3, string(bytes)), nil)
	equal(t, []bool{c.IsUnprocessed(4), c.IsUnprocessed(8)}, []bool{false, true})
}

func TestBudgetsOfRequests(t *testing.T) {
	// answers, and then resets that may be, of which the next one is too many
	for _, row := range []struct {
		excess          uint64
		answers, resets int
	}{{100, 0, 100}, {100, 1, 101}, {3, 150, 153}, {0, 0, 0}, {0, 2, 2}} {
		budget := NewRequestBudget(row.excess)
		for i := 0; i < row.answers; i++ {
			budget.Answered()
		}
		for i := 0; i < row.resets; i++ {
			equal(t, budget.ResetUnanswered(), nil)
		}
		equal(t, budget.ResetUnanswered(), H3ExcessiveLoad)
		same := *budget
		budget.Answered()
		equal(t, budget.ResetUnanswered(), H3ExcessiveLoad)
		equal(t, *budget, same)
	}
}
