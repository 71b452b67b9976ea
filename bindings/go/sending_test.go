package vesgrauf

// What may be sent and what is refused: the rows of c/tests/sending_messages.c, sending_sessions.c and
// sending_words.c. The bytes are those of RFC 9114, section 7.2; RFC 9204, section 4.5 and appendix A; RFC 7541,
// appendix B; draft-ietf-webtrans-http3-02, sections 4 and 5; draft-ietf-webtrans-http3-07, section 4.6; and RFC
// 9297, section 2.1.

import (
	"strings"
	"testing"
)

// call is a call of a Sending.
type call func(s *Sending, out []byte) ([]byte, error)

// listOf returns fields from lines "name value".
func listOf(lines string) FieldList {
	var list FieldList
	for _, line := range strings.Split(strings.TrimSuffix(lines, "\n"), "\n") {
		name, value, _ := strings.Cut(line, " ")
		list = append(list, Field{name, value})
	}
	return list
}

func headers(lines string) call {
	return func(s *Sending, out []byte) ([]byte, error) { return s.AppendHeaders(out, listOf(lines)) }
}

func trailers(lines string) call {
	return func(s *Sending, out []byte) ([]byte, error) { return s.AppendTrailers(out, listOf(lines)) }
}

func data(length uint64) call {
	return func(s *Sending, out []byte) ([]byte, error) { return s.AppendData(out, length) }
}

func sent(length uint64) call {
	return func(s *Sending, out []byte) ([]byte, error) { return out, s.Sent(length) }
}

func closing(code uint32, reason string) call {
	return func(s *Sending, out []byte) ([]byte, error) { return s.AppendClose(out, code, reason) }
}

func finish(s *Sending, out []byte) ([]byte, error)    { return out, s.Finish() }
func connected(s *Sending, out []byte) ([]byte, error) { return out, s.Connected() }

var (
	unidirectional call = (*Sending).AppendUnidirectional
	bidirectional  call = (*Sending).AppendBidirectional
	datagram       call = (*Sending).AppendDatagram
	drain          call = (*Sending).AppendDrain
	accepts             = headers(":status 200")
	hints               = headers(":status 103")
	sniff               = trailers("x-content-type-options nosniff")
	get                 = headers(":method GET\n:scheme https\n:authority a\n:path /")
	getOfAB             = headers(":method GET\n:scheme https\n:authority ab\n:path /")
)

const (
	sessionLines = ":method CONNECT\n:scheme https\n:authority a\n:path /\n:protocol webtransport"
	// the bytes of the responses 200 and 103
	acceptBytes = "\x01\x03\x00\x00\xd9"
	hintBytes   = "\x01\x03\x00\x00\xd8"
)

// sendRow is a call, and what it appends or its error.
type sendRow struct {
	call  call
	bytes string
	err   error
}

// send makes calls one after another. One that is refused appends nothing and changes nothing.
func sendRows(t *testing.T, s *Sending, rows ...sendRow) {
	t.Helper()
	for place, row := range rows {
		before := *s
		out, err := row.call(s, []byte("before"))
		if err != row.err || string(out) != "before"+row.bytes || err != nil && *s != before {
			t.Fatalf("row %d: %q, %v", place, out, err)
		}
	}
}

func requestOn(t *testing.T, c *Connection, id uint64) *Sending {
	t.Helper()
	s, err := c.Request(id)
	equal(t, err, nil)
	return s
}

func responseOn(t *testing.T, c *Connection, id uint64, asked Asked) *Sending {
	t.Helper()
	s, err := c.Response(id, asked)
	equal(t, err, nil)
	return s
}

// clientAfter returns a client that has read the control stream of a server with these settings.
func clientAfter(t *testing.T, settings string) *Connection {
	t.Helper()
	client := newClient(t)
	equal(t, readControl(t, client, 3, "\x00\x04"+settings), nil)
	return client
}

func TestSendingResponse(t *testing.T) {
	s := responseOn(t, newServer(t), 0, AskedOther)
	sendRows(t, s,
		sendRow{hints, hintBytes, nil},
		sendRow{data(3), "", SendUnexpected},
		sendRow{sniff, "", SendUnexpected},
		sendRow{finish, "", RuleMissingHead},
		sendRow{headers(":status 200\ncontent-length 5"), "\x01\x06\x00\x00\xd9\x54\x015", nil},
		sendRow{accepts, "", SendUnexpected},
		sendRow{data(0), "", SendEmptyData},
		sendRow{data(1 << 62), "", SendTooLarge},
		sendRow{data(6), "", RuleContentTooLong},
		sendRow{data(3), "\x00\x03", nil},
	)
	equal(t, s.Owed(), uint64(3))
	sendRows(t, s,
		sendRow{data(2), "", SendDataMissing},
		sendRow{sniff, "", SendDataMissing},
		sendRow{finish, "", SendDataMissing},
		sendRow{sent(4), "", SendDataExceeded},
		sendRow{sent(1), "", nil},
		sendRow{sent(2), "", nil},
		sendRow{finish, "", RuleContentTooShort},
		sendRow{sniff, "", RuleContentTooShort},
		sendRow{data(2), "\x00\x02", nil},
		sendRow{sent(2), "", nil},
		sendRow{trailers(":status 200"), "", RuleUnknownPseudoHeader},
		sendRow{sniff, "\x01\x03\x00\x00\xfd", nil},
		sendRow{sniff, "", SendUnexpected},
		sendRow{data(2), "", SendUnexpected},
		sendRow{finish, "", nil},
		sendRow{finish, "", SendUnexpected},
		sendRow{accepts, "", SendUnexpected},
	)
}

func TestSendingByWhatWasAsked(t *testing.T) {
	s := responseOn(t, newServer(t), 4, AskedHead)
	for i := 0; i < 64; i++ {
		sendRows(t, s, sendRow{hints, hintBytes, nil})
	}
	sendRows(t, s,
		sendRow{hints, "", SendTooManyInterim},
		sendRow{accepts, acceptBytes, nil},
		sendRow{data(3), "", RuleContentTooLong},
		sendRow{finish, "", nil},
	)
	s = responseOn(t, newServer(t), 8, AskedConnect)
	sendRows(t, s, sendRow{accepts, acceptBytes, nil}, sendRow{sniff, "", SendUnexpected},
		sendRow{data(3), "\x00\x03", nil})
	for method, asked := range map[string]Asked{
		"GET": AskedOther, "HEAD": AskedHead, "CONNECT": AskedConnect, "head": AskedOther,
	} {
		equal(t, AskedOf(FieldList{{":method", method}}), asked)
	}
	equal(t, AskedOf(nil), AskedOther)
}

func TestTunnelWaitsForItsAnswer(t *testing.T) {
	sendRows(t, requestOn(t, clientAfter(t, "\x00"), 8),
		sendRow{connected, "", SendUnexpected},
		sendRow{headers(":method CONNECT\n:authority a:1"), "\x01\x08\x00\x00\xcf\x50\x03a:1", nil},
		sendRow{data(3), "", SendUnexpected},
		sendRow{connected, "", nil},
		sendRow{connected, "", SendUnexpected},
		sendRow{unidirectional, "", ErrSessionNotOpen},
		sendRow{data(1<<62 - 1), "\x00\xff\xff\xff\xff\xff\xff\xff\xff", nil},
		sendRow{finish, "", SendDataMissing},
		sendRow{sent(1<<62 - 1), "", nil},
		sendRow{sniff, "", SendUnexpected},
		sendRow{finish, "", nil},
	)
}

const getLines = ":method GET\n:scheme https\n:authority a\n:path /\n"

// ruleRows have lines of which the last breaks a rule: of a request, or of the response to what was asked.
var ruleRows = []struct {
	isRequest bool
	asked     Asked
	rule      Malformed
	lines     string
}{
	{true, 0, RuleInvalidName, getLines + "A b"},
	{true, 0, RuleInvalidName, getLines + "a(b c"},
	{true, 0, RuleInvalidValue, getLines + "a b\r"},
	{true, 0, RuleInvalidValue, getLines + "a b "},
	{true, 0, RuleConnectionField, getLines + "transfer-encoding chunked"},
	{true, 0, RuleConnectionField, getLines + "connection close"},
	{true, 0, RuleInvalidTe, getLines + "te gzip"},
	{true, 0, RuleUnknownPseudoHeader, getLines + ":status 200"},
	{true, 0, RuleLatePseudoHeader, ":method GET\n:scheme https\n:authority a\nb c\n:path /"},
	{true, 0, RuleRepeatedPseudoHeader, getLines + ":path /"},
	{true, 0, RuleInvalidContentLength, getLines + "content-length -1"},
	{true, 0, RuleMissingMethod, ":scheme https\n:authority a\n:path /"},
	{true, 0, RuleInvalidMethod, ":method G T\n:scheme https\n:authority a\n:path /"},
	{true, 0, RuleMissingScheme, ":method GET\n:authority a\n:path /"},
	{true, 0, RuleInvalidScheme, ":method GET\n:scheme 1\n:authority a\n:path /"},
	{true, 0, RuleMissingPath, ":method GET\n:scheme https\n:authority a"},
	{true, 0, RuleInvalidPath, ":method GET\n:scheme https\n:authority a\n:path b"},
	{true, 0, RuleMissingAuthority, ":method GET\n:scheme https\n:path /"},
	{true, 0, RuleInvalidAuthority, ":method GET\n:scheme https\n:authority u@a\n:path /"},
	{true, 0, RuleConnectWithTarget, ":method CONNECT\n:authority a:1\n:path /"},
	{true, 0, RuleUnexpectedProtocol, sessionLines},
	{false, AskedOther, RuleMissingStatus, "a b"},
	{false, AskedOther, RuleInvalidStatus, ":status 101"},
	{false, AskedOther, RuleInvalidStatus, ":status 20"},
	{false, AskedOther, RuleInvalidTe, ":status 200\nte trailers"},
	{false, AskedSession, RuleUnexpectedStatus, ":status 204"},
	{false, AskedSession, RuleContentField, ":status 200\ncontent-type a/b"},
	// RFC 9110, sections 8.6 and 9.3.6: they may be received
	{false, AskedOther, RuleInvalidContentLength, ":status 103\ncontent-length 5"},
	{false, AskedHead, RuleInvalidContentLength, ":status 204\ncontent-length 5"},
	{false, AskedConnect, RuleInvalidContentLength, ":status 200\ncontent-length 5"},
}

func TestSendingRules(t *testing.T) {
	client, server := newClient(t), newServer(t)
	for _, row := range ruleRows {
		if row.isRequest {
			sendRows(t, requestOn(t, client, 0), sendRow{headers(row.lines), "", row.rule})
		} else {
			sendRows(t, responseOn(t, server, 0, row.asked), sendRow{headers(row.lines), "", row.rule},
				sendRow{accepts, acceptBytes, nil})
		}
	}
}

func TestSendingByTheSettingsOfThePeer(t *testing.T) {
	// sections of 167 bytes; then each setting has its default, and then extended CONNECT without sessions
	sendRows(t, requestOn(t, clientAfter(t, "\x03\x06\x40\xa7"), 4),
		sendRow{getOfAB, "", SendTooLarge},
		sendRow{get, "\x01\x08\x00\x00\xd1\xd7\x50\x01a\xc1", nil},
		sendRow{trailers("a " + strings.Repeat("1", 140)), "", SendTooLarge},
	)
	sendRows(t, requestOn(t, newClient(t), 0),
		sendRow{getOfAB, "\x01\x09\x00\x00\xd1\xd7\x50\x02ab\xc1", nil},
		sendRow{headers(sessionLines), "", SendUnexpected},
	)
	sendRows(t, requestOn(t, clientAfter(t, "\x02\x08\x01"), 4), sendRow{headers(sessionLines), "", SendUnsupported})
}

// closedRows are those of a session that is not open, and openRows of that of the stream 4, until it is closed.
var (
	closedRows = []sendRow{
		{unidirectional, "", ErrSessionNotOpen}, {bidirectional, "", ErrSessionNotOpen},
		{datagram, "", ErrSessionNotOpen}, {drain, "", ErrSessionNotOpen},
		{closing(7, "bye"), "", ErrSessionNotOpen},
	}
	openRows = []sendRow{
		{unidirectional, "\x40\x54\x04", nil}, {bidirectional, "\x40\x41\x04", nil}, {datagram, "\x01", nil},
		{drain, "\x00\x05\x80\x00\x78\xae\x00", nil}, {data(1), "", SendUnexpected}, {sniff, "", SendUnexpected},
		{closing(7, "\xff"), "", ErrInvalid}, {closing(7, strings.Repeat("a", 1_025)), "", SendTooLarge},
		{closing(7, "bye"), "\x00\x0a\x68\x43\x07\x00\x00\x00\x07bye", nil},
	}
)

func TestSendingSessions(t *testing.T) {
	server := newServer(t)
	s := responseOn(t, server, 4, AskedSession)
	sendRows(t, s, closedRows...)
	sendRows(t, s, sendRow{hints, hintBytes, nil})
	sendRows(t, s, closedRows...)
	sendRows(t, s, sendRow{accepts, acceptBytes, nil}, sendRow{connected, "", SendUnexpected})
	sendRows(t, s, openRows...)
	sendRows(t, s, closedRows...)
	sendRows(t, s, sendRow{finish, "", SendUnexpected})
	s = responseOn(t, server, 4, AskedSession)
	sendRows(t, s, sendRow{headers(":status 404"), "\x01\x03\x00\x00\xdb", nil})
	sendRows(t, s, closedRows...)
	sendRows(t, s, sendRow{data(1), "\x00\x01", nil})
	sendRows(t, responseOn(t, server, 1<<62-4, AskedSession), // an ID of eight bytes
		sendRow{accepts, acceptBytes, nil},
		sendRow{unidirectional, "\x40\x54\xff\xff\xff\xff\xff\xff\xff\xfc", nil},
		sendRow{bidirectional, "\x40\x41\xff\xff\xff\xff\xff\xff\xff\xfc", nil},
		sendRow{datagram, "\xcf\xff\xff\xff\xff\xff\xff\xff", nil},
		sendRow{closing(1, ""), "\x00\x07\x68\x43\x04\x00\x00\x00\x01", nil},
	)
	s = requestOn(t, clientAfter(t, "\x09\x08\x01\x33\x01\xab\x60\x37\x42\x01"), 4)
	fields, err := SessionRequest{URL: "https://a/"}.Head()
	equal(t, err, nil)
	equal(t, textOfFields(fields), "[:method=CONNECT :scheme=https :protocol=webtransport :authority=a :path=/]")
	_, err = s.AppendHeaders(nil, fields)
	equal(t, err, nil)
	sendRows(t, s, closedRows...)
	sendRows(t, s, sendRow{data(1), "", SendUnexpected}, sendRow{connected, "", nil})
	sendRows(t, s, openRows...)
	sendRows(t, s, closedRows...)
}

func TestNoMessageBegins(t *testing.T) {
	client, server := newClient(t), newServer(t)
	leaving := newPlayer(t, Endpoint{Side: SideClient, Limits: testLimits}, 200).connection // without datagrams
	request := func(c *Connection, id uint64) error { _, err := c.Request(id); return err }
	response := func(c *Connection, id uint64, asked Asked) error { _, err := c.Response(id, asked); return err }
	for _, id := range []uint64{1, 2, 3, 1 << 62} {
		equal(t, request(client, id), error(ErrInvalidID))
		equal(t, response(server, id, AskedOther), error(ErrInvalidID))
	}
	equal(t, response(server, 0, 4), error(ErrInvalidID))
	equal(t, request(server, 0), error(ErrInvalidID))
	equal(t, response(client, 0, AskedOther), error(ErrInvalidID))
	equal(t, request(client, 4), nil)
	equal(t, readControl(t, leaving, 3, "\x00\x04\x00\x07\x01\x08"), nil)
	equal(t, request(leaving, 4), error(ErrGoAway))
	for _, c := range []*Connection{client, leaving, server} {
		c.Stopped(PurposeEncoder)
	}
	equal(t, request(client, 4), error(ErrOver))
	equal(t, request(leaving, 4), error(ErrOver))
	equal(t, response(server, 0, AskedOther), error(ErrOver))
}

func TestControlStream(t *testing.T) {
	settings := Settings{{SettingH3Datagram, 1}, {SettingMaxFieldSectionSize, 64}, {0x14e9cd29, 1}}
	control := newServer(t).Control()
	type goAwayRow struct {
		id    uint64
		bytes string
		err   error
	}
	goAway := func(rows ...goAwayRow) {
		t.Helper()
		for _, row := range rows {
			before := *control
			out, err := control.AppendGoAway(nil, row.id)
			equal(t, err, row.err)
			equal(t, string(out), row.bytes)
			equal(t, err == nil || *control == before, true)
		}
	}
	goAway(goAwayRow{0, "", SendUnexpected})
	out, err := control.AppendSettings(nil, settings)
	equal(t, err, nil)
	equal(t, string(out), "\x00\x04\x0a\x33\x01\x06\x40\x40\x94\xe9\xcd\x29\x01")
	_, err = control.AppendSettings(nil, settings)
	equal(t, err, error(SendUnexpected))
	_, sent := control.LastGoAway()
	equal(t, sent, false)
	goAway(
		goAwayRow{LargestRequest, "\x07\x08\xff\xff\xff\xff\xff\xff\xff\xfc", nil},
		goAwayRow{6, "", SendInvalidID}, goAwayRow{1 << 62, "", SendInvalidID},
		goAwayRow{8, "\x07\x01\x08", nil}, goAwayRow{8, "\x07\x01\x08", nil},
		goAwayRow{12, "", SendIDRises}, goAwayRow{0, "\x07\x01\x00", nil}, goAwayRow{4, "", SendIDRises},
	)
	last, sent := control.LastGoAway()
	equal(t, last, uint64(0))
	equal(t, sent, true)
}

func TestSettingsThatAPeerRefuses(t *testing.T) {
	control := newClient(t).Control()
	before := *control
	for _, one := range []Setting{{0x02, 1}, {0x21, 1 << 62}, {1 << 62, 0}} {
		_, err := control.AppendSettings(nil, Settings{one})
		equal(t, err, error(ErrInvalid))
	}
	var many Settings
	for n := SettingID(0); n < 500; n++ {
		many = append(many, Setting{0x21 + 0x1f*n, 1 << 61})
	}
	_, err := control.AppendSettings(nil, many)
	equal(t, err, error(SendTooLarge))
	equal(t, *control == before, true)
	out, err := control.AppendSettings(nil, nil)
	equal(t, err, nil)
	equal(t, string(out), "\x00\x04\x00")
	// at a client GOAWAY names a push
	_, err = control.AppendGoAway(nil, 1)
	equal(t, err, nil)
}

func TestReasonsAndMessages(t *testing.T) {
	names := map[SendError]string{
		SendUnexpected: "Unexpected", SendDataMissing: "DataMissing", SendDataExceeded: "DataExceeded",
		SendEmptyData: "EmptyData", SendTooLarge: "TooLarge", SendTooManyInterim: "TooManyInterim",
		SendInvalidID: "InvalidId", SendIDRises: "IdRises", SendUnsupported: "Unsupported",
	}
	for reason, name := range names {
		equal(t, reason.String(), name)
		equal(t, len(reason.Error()) > len("vesgrauf: "), true)
	}
	equal(t, len(names), len(sendErrors))
	response := SessionResponse{200, FieldList{{"set-cookie", "a=1"}, {"set-cookie", "b=2"}}}
	equal(t, textOfFields(response.Head()), "[:status=200 set-cookie=a=1 set-cookie=b=2]")
	_, err := SessionRequest{URL: "http://a/"}.Head()
	equal(t, err, error(ErrInvalid))
	// content is a DATA frame with its bytes, or nothing
	s := responseOn(t, newServer(t), 0, AskedOther)
	content := func(bytes string) call {
		return func(s *Sending, out []byte) ([]byte, error) { return s.AppendContent(out, []byte(bytes)) }
	}
	sendRows(t, s, sendRow{content("a"), "", SendUnexpected}, sendRow{accepts, acceptBytes, nil},
		sendRow{content(""), "", nil}, sendRow{content("abc"), "\x00\x03abc", nil})
	equal(t, s.Owed(), uint64(0))
}
