package vesgrauf

// The codec by rows of the standards: RFC 9000, appendix A.1; RFC 9114, sections 6.2 and 7; RFC 9204, appendix B;
// RFC 9297; draft-ietf-webtrans-http3-02. They are those of c/tests.

import (
	"bytes"
	"reflect"
	"strings"
	"testing"
)

// written returns what a call appends after what there was, as text, and its error.
func appended(t *testing.T, call func(out []byte) ([]byte, error)) (string, error) {
	t.Helper()
	// with room of every kind
	var found []string
	var last error
	for _, room := range []int{6, 7, 4_096} {
		before := append(make([]byte, 0, room), "before"...)
		out, err := call(before)
		if !bytes.HasPrefix(out, []byte("before")) || err != nil && len(out) != 6 {
			t.Fatalf("%q, %v", out, err)
		}
		found, last = append(found, string(out[6:])), err
	}
	equal(t, found[1:], []string{found[0], found[0]})
	return found[0], last
}

func expect(t *testing.T, call func(out []byte) ([]byte, error), wanted string) {
	t.Helper()
	found, err := appended(t, call)
	equal(t, []any{found, err}, []any{wanted, nil})
}

func refused(t *testing.T, call func(out []byte) ([]byte, error)) {
	t.Helper()
	if _, err := appended(t, call); err != ErrInvalid {
		t.Fatal(err)
	}
}

func TestNumbers(t *testing.T) {
	for _, row := range []struct {
		bytes string
		value uint64
	}{
		{"\xc2\x19\x7c\x5e\xff\x14\xe8\x8c", 151_288_809_941_952_652},
		{"\x9d\x7f\x3e\x7d", 494_878_333},
		{"\x7b\xbd", 15_293},
		{"\x25", 37},
		{"\x40\x25", 37},
	} {
		value, size := FirstVarint([]byte(row.bytes))
		equal(t, []any{value, size}, []any{row.value, len(row.bytes)})
		_, size = FirstVarint([]byte(row.bytes[:len(row.bytes)-1]))
		equal(t, size, 0)
		shortest := row.bytes
		if row.value == 37 {
			shortest = "\x25"
		}
		expect(t, func(out []byte) ([]byte, error) { return AppendVarint(out, row.value) }, shortest)
		equal(t, VarintSize(row.value), len(shortest))
	}
	refused(t, func(out []byte) ([]byte, error) { return AppendVarint(out, 1<<62) })
	equal(t, []int{VarintSize(1 << 62), VarintSize(1<<62 - 1)}, []int{0, 8})
}

func TestStreamHeaders(t *testing.T) {
	for _, row := range []struct {
		header StreamHeader
		bytes  string
	}{
		{StreamHeader{Kind: StreamControl}, "\x00"},
		{StreamHeader{Kind: StreamQPACKEncoder}, "\x02"},
		{StreamHeader{Kind: StreamQPACKDecoder}, "\x03"},
		{StreamHeader{StreamWebTransport, 4}, "\x40\x54\x04"},
		{StreamHeader{Kind: 0x21}, "\x21"},
	} {
		expect(t, row.header.Append, row.bytes)
		header, size, err := ReadStreamHeader([]byte(row.bytes))
		equal(t, []any{header, size, err}, []any{row.header, len(row.bytes), nil})
		if _, _, err = ReadStreamHeader([]byte(row.bytes[:len(row.bytes)-1])); err != ErrMore {
			t.Fatal(err)
		}
	}
	_, _, err := ReadStreamHeader([]byte("\x01"))
	equal(t, err, H3StreamCreationError)
	_, _, err = ReadStreamHeader([]byte("\x40\x54\x05"))
	equal(t, err, H3IDError)
	refused(t, StreamHeader{StreamWebTransport, 6}.Append)
	refused(t, StreamHeader{Kind: 7}.Append)
	refused(t, StreamHeader{StreamControl, 4}.Append)
}

func TestDatagrams(t *testing.T) {
	datagram := Datagram{8, []byte("hi")}
	expect(t, datagram.Append, "\x02hi")
	expect(t, func(out []byte) ([]byte, error) { return AppendDatagramHead(out, 256) }, "\x40\x40")
	read, err := ReadDatagram([]byte("\x02hi"))
	equal(t, []any{read, err}, []any{datagram, nil})
	read, err = ReadDatagram([]byte("\x02"))
	equal(t, []any{len(read.Payload), err}, []any{0, nil})
	// none, and a quarter stream ID of 2^60 (RFC 9297, section 2.1)
	for _, wrong := range []string{"", "\xd0\x00\x00\x00\x00\x00\x00\x00"} {
		_, err = ReadDatagram([]byte(wrong))
		equal(t, err, H3DatagramError)
	}
	refused(t, Datagram{Session: 1}.Append)
}

func TestFrames(t *testing.T) {
	for _, row := range []struct {
		kind           FrameKind
		payload, bytes string
	}{
		{FrameData, "hello", "\x00\x05hello"},
		{FrameHeaders, "\x00\x00", "\x01\x02\x00\x00"},
		{FrameSettings, "\x33\x01", "\x04\x02\x33\x01"},
		{0x21, "x", "\x21\x01x"},
		{0x40, "x", "\x40\x40\x01x"},
		{FrameData, "", "\x00\x00"},
	} {
		payload := []byte(row.payload)
		expect(t, func(out []byte) ([]byte, error) { return AppendFrame(out, row.kind, payload) }, row.bytes)
		expect(t, func(out []byte) ([]byte, error) {
			return AppendFrameHead(out, row.kind, uint64(len(payload)))
		}, strings.TrimSuffix(row.bytes, row.payload))
	}
	// reserved, since HTTP/2 used it (RFC 9114, section 7.2.8); GOAWAY is no reserved type
	for _, kind := range []FrameKind{FrameWebTransport, 2, 7} {
		refused(t, func(out []byte) ([]byte, error) { return AppendFrame(out, kind, nil) })
	}
	expect(t, func(out []byte) ([]byte, error) { return AppendWebTransport(out, 4) }, "\x40\x41\x04")
	refused(t, func(out []byte) ([]byte, error) { return AppendWebTransport(out, 6) })
}

func TestFramesThatAreRead(t *testing.T) {
	cursor := NewFrameCursor(RoleBiRemote)
	// 0x02 is unknown here, and skipped
	frame, consumed, err := cursor.Next([]byte("\x02\x01x\x00\x03abc\x01"))
	equal(t, []any{frame, consumed, err}, []any{Frame{FrameData, 0, []byte("abc")}, 8, nil})
	_, consumed, err = cursor.Next([]byte("\x01"))
	equal(t, []any{consumed, err == ErrMore}, []any{0, true})
	equal(t, cursor.Finish([]byte("\x01")), H3FrameError)
	equal(t, cursor.Finish(nil), nil)
	frame, consumed, err = NewFrameCursor(RoleBiRemote).Next([]byte("\x40\x41\x04rest"))
	equal(t, []any{frame, consumed, err}, []any{Frame{FrameWebTransport, 4, []byte{}}, 3, nil})
	for _, row := range []struct {
		role  StreamRole
		bytes string
		code  Code
	}{
		{RoleBiRemote, "\x04\x00", H3FrameUnexpected},
		{RoleUniRemote, "\x00\x00", H3FrameUnexpected},
		{RoleBiRemote, "\x40\x41\x05", H3IDError},
		{RoleBiLocal, "\x40\x41\x04", H3FrameUnexpected},
		{RoleBiRemote, "\x00\x50\x01", H3ExcessiveLoad},
	} {
		_, consumed, err = NewFrameCursor(row.role).Next([]byte(row.bytes))
		equal(t, []any{consumed, err}, []any{0, row.code})
	}
	// one of a session that is not the first (draft-ietf-webtrans-http3-02, section 4.2)
	_, _, err = cursor.Next([]byte("\x40\x41\x04"))
	equal(t, err, H3FrameError)
}

func TestCapsules(t *testing.T) {
	all := []byte("\x17\x03abc\x00\x01x\x68\x43\x07\x00\x00\x12\x34bye")
	var cursor CapsuleCursor
	value, consumed, err := cursor.Next(all)
	equal(t, []any{consumed, err}, []any{18, nil})
	closing, err := ReadClose(value)
	equal(t, []any{closing, err}, []any{CloseWebTransportSession{0x1234, "bye"}, nil})
	expect(t, closing.Append, string(all[8:]))
	// an unknown one in pieces
	_, consumed, err = cursor.Next([]byte("\x17\x03a"))
	equal(t, []any{consumed, err == ErrMore}, []any{3, true})
	equal(t, cursor.Finish(nil), H3MessageError)
	_, consumed, err = cursor.Next([]byte("bc"))
	equal(t, []any{consumed, err == ErrMore}, []any{2, true})
	equal(t, cursor.Finish(nil), nil)
	// a value of 1029 bytes
	_, _, err = cursor.Next([]byte("\x68\x43\x44\x05"))
	equal(t, err, H3DatagramError)
	closing.Reason = strings.Repeat("r", MaxCloseReason)
	if _, err = closing.Append(nil); err != nil {
		t.Fatal(err)
	}
	closing.Reason += "r"
	refused(t, closing.Append)
	closing.Reason = "\xff"
	refused(t, closing.Append)
	for _, wrong := range []string{"\x00\x00\x00", "\x00\x00\x00\x00\xff", strings.Repeat("\x00", 1029)} {
		_, err = ReadClose([]byte(wrong))
		equal(t, err, H3DatagramError)
	}
}

func TestSettings(t *testing.T) {
	// an unknown identifier, 0x0d, twice, and one reserved for exercise, 0x21
	payload := "\x33\x01\x0d\x00\x08\x01\x0d\x05\x21\x40\x40"
	settings, err := ReadSettings([]byte(payload))
	wanted := Settings{{0x33, 1}, {0x0d, 0}, {0x08, 1}, {0x0d, 5}, {0x21, 64}}
	equal(t, []any{settings, err}, []any{wanted, nil})
	expect(t, settings.Append, payload)
	for id, wanted := range map[SettingID]uint64{SettingH3Datagram: 1, 0x0d: 0} {
		value, set := settings.Get(id)
		equal(t, []any{value, set}, []any{wanted, true})
	}
	_, set := settings.Get(SettingEnableWebTransport)
	equal(t, set, false)
	equal(t, SettingH3Datagram.Name(), "SETTINGS_H3_DATAGRAM")
	equal(t, SettingID(0x0d).Name(), "")
	settings, err = ReadSettings(nil)
	equal(t, []any{len(settings), err}, []any{0, nil})
	expect(t, settings.Append, "")
	for _, row := range []struct {
		payload string
		code    Code
	}{
		{"\x33", H3FrameError},
		{"\x33\x40", H3FrameError},
		{"\x33\x01\x33\x01", H3SettingsError},
		{"\x21\x01\x21\x01", H3SettingsError},
		{"\x02\x00", H3SettingsError},
	} {
		_, err = ReadSettings([]byte(row.payload))
		equal(t, err, row.code)
	}
	refused(t, Settings{{4, 1}}.AppendControlStream)
	refused(t, Settings{{0x33, 1 << 62}}.AppendControlStream)
	expect(t, Settings{}.Set(SettingH3Datagram, 0).Set(SettingH3Datagram, 1).AppendControlStream, "\x00\x04\x02\x33\x01")
}

func TestFields(t *testing.T) {
	// RFC 9204, appendix B.1: a literal with a reference to the static table
	list, err := DecodeFields([]byte("\x00\x00\x51\x0b/index.html"))
	equal(t, []any{list, err}, []any{FieldList{{":path", "/index.html"}}, nil})
	// a value that is not UTF-8 is read, and not written
	list, err = DecodeFields([]byte("\x00\x00\xd9\x21x\x01\xe9"))
	equal(t, []any{list, err}, []any{FieldList{{":status", "200"}, {"x", "\xe9"}}, nil})
	refused(t, list.Append)
	for _, wrong := range []string{"", "\x00\x00\xff", "\x02\x00\x80", "\x00\x00\x51\x0b/index"} {
		_, err = DecodeFields([]byte(wrong))
		equal(t, err, QPACKDecompressionFailed)
	}
	// of any size
	r := random(5)
	text := func(longest int) string {
		text := make([]byte, r.below(longest))
		for i := range text {
			text[i] = byte(' ' + r.below(95))
		}
		return string(text)
	}
	for turn := 0; turn < times(200); turn++ {
		list := FieldList{}
		for count := r.below(60); count > 0; count-- {
			list = append(list, Field{text(20), text(600)})
		}
		section, err := list.Append(nil)
		equal(t, err, nil)
		read, err := DecodeFields(section)
		equal(t, []any{reflect.DeepEqual(read, list), err}, []any{true, nil})
		for _, field := range list {
			all := read.All(field.Name)
			first, _ := read.First(field.Name)
			last, _ := read.Last(field.Name)
			equal(t, []string{first, last}, []string{all[0], all[len(all)-1]})
		}
		_, found := read.First("\x00")
		_, foundLast := read.Last("\x00")
		equal(t, []any{found, foundLast, len(read.All("\x00"))}, []any{false, false, 0})
	}
}

// section returns the section of a HEADERS frame.
func section(t *testing.T, frame []byte, err error) []byte {
	t.Helper()
	equal(t, err, nil)
	found, _, err := NewFrameCursor(RoleBiRemote).Next(frame)
	equal(t, err, nil)
	return found.Payload
}

func TestRequests(t *testing.T) {
	request := SessionRequest{
		URL:    "https://EXAMPLE.com:443/chat?room=1#there",
		Fields: FieldList{{"cookie", "a=1"}, {"cookie", "b=2"}},
	}
	frame, err := request.Append(nil)
	its := section(t, frame, err)
	target, err := ReadRequestTarget(its)
	equal(t, []any{target, err}, []any{RequestTarget{"example.com", "/chat?room=1"}, nil})
	fault, err := CheckRequest(its)
	equal(t, []any{fault, err}, []any{RequestOK, nil})
	fields, err := DecodeFields(its)
	equal(t, []any{fields.All("cookie"), err}, []any{[]string{"a=1", "b=2"}, nil})
	for _, wrong := range []string{"http://example.com/", "/chat", "https://"} {
		refused(t, SessionRequest{URL: wrong}.Append)
	}
	for _, wrong := range (FieldList{{"Name", ""}, {":path", "/"}, {"a", "b\r\n"}, {"a", " b"}}) {
		refused(t, SessionRequest{"https://example.com/", FieldList{wrong}}.Append)
	}
	// :method GET alone (RFC 9220, section 3)
	fault, err = CheckRequest([]byte("\x00\x00\xd1"))
	equal(t, []any{fault, fault.String(), err}, []any{RequestMethodNotConnect, "MethodNotConnect", nil})
	_, err = ReadRequestTarget([]byte("\x00\x00\xd1"))
	equal(t, err, H3MessageError)
	_, err = CheckRequest([]byte("\x00"))
	equal(t, err, QPACKDecompressionFailed)
}

func TestResponses(t *testing.T) {
	response := AcceptSession()
	response.Fields = append(response.Fields, Field{"server", "test"})
	frame, err := response.Append(nil)
	status, err := ReadStatus(section(t, frame, err))
	equal(t, []any{status, err}, []any{uint32(200), nil})
	for _, status := range []uint32{99, 600} {
		refused(t, SessionResponse{Status: status}.Append)
	}
	_, err = ReadStatus([]byte("\x00\x00\xd1"))
	equal(t, err, H3MessageError)
}

func TestFaultsOfRequestsHaveTheirNames(t *testing.T) {
	for fault, name := range map[RequestFault]string{
		RequestMissingMethod: "MissingMethod", RequestMethodNotConnect: "MethodNotConnect",
		RequestMissingScheme: "MissingScheme", RequestSchemeNotHTTPS: "SchemeNotHttps",
		RequestMissingProtocol: "MissingProtocol", RequestProtocolNotWebTransport: "ProtocolNotWebTransport",
		RequestMissingAuthority: "MissingAuthority", RequestMissingPath: "MissingPath",
	} {
		equal(t, fault.String(), name)
	}
}

func TestCodes(t *testing.T) {
	equal(t, H3FrameUnexpected.String(), "H3_FRAME_UNEXPECTED (0x105)")
	equal(t, []string{Code(0x21).String(), Code(0x21).Name()}, []string{"0x21", ""})
	for code, wanted := range map[Code]ErrorScope{
		H3RequestCancelled: ScopeStream, H3SettingsError: ScopeConnection,
	} {
		scope, registered := code.Scope()
		equal(t, []any{scope, registered}, []any{wanted, true})
	}
	_, registered := Code(0x21).Scope()
	equal(t, registered, false)
	// draft-ietf-webtrans-http3-02, section 4.3
	for code, number := range map[uint32]Code{0: 0x52e4_a40f_a8db, 1<<32 - 1: 0x52e5_ac98_3162} {
		equal(t, ApplicationCode(code), number)
		its, is := number.Application()
		equal(t, []any{its, is}, []any{code, true})
	}
	_, is := H3NoError.Application()
	equal(t, is, false)
	equal(t, len(rules), 26)
	equal(t, Malformed(27).String(), "rule 27")
}

func TestVersion(t *testing.T) {
	if version := LibraryVersion(); version < 0x000800 || version >= 0x010000 {
		t.Fatalf("%#x", version)
	}
}
