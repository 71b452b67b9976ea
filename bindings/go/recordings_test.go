package vesgrauf

// Bytes of real browsers and servers (tools/recordings.d), compared with what these say of them and with what an
// independent reader found, by index.tsv; whole, cut, and with wrong bytes.

import (
	"bytes"
	"encoding/json"
	"errors"
	"os"
	"reflect"
	"strconv"
	"strings"
	"testing"
)

const folder = "../../tools/recordings.d/"

// item is a JSON object of the index, with its first name.
type item struct {
	first string
	all   map[string]any
}

func (it *item) UnmarshalJSON(text []byte) error {
	decoder := json.NewDecoder(bytes.NewReader(text))
	for i := 0; i < 2; i++ {
		token, err := decoder.Token()
		if err != nil {
			return err
		}
		it.first, _ = token.(string)
	}
	decoder = json.NewDecoder(bytes.NewReader(text))
	decoder.UseNumber()
	return decoder.Decode(&it.all)
}

func (it item) number(name string) int { return int(numberOf(it.all[name])) }

func numberOf(value any) uint64 {
	text, _ := value.(json.Number)
	number, err := strconv.ParseUint(text.String(), 10, 64)
	if err != nil {
		panic(err)
	}
	return number
}

// recorded is a line of the index.
type recorded struct {
	name, direction, kind string
	stream                uint64
	isStream, fin         bool
	bytes                 []byte
	said, read            []item
}

func recordedBytes(t *testing.T, name string) []byte {
	t.Helper()
	bytes, err := os.ReadFile(folder + name)
	if err != nil {
		t.Fatal(err)
	}
	return bytes
}

func index(t *testing.T) []recorded {
	t.Helper()
	text, err := os.ReadFile(folder + "index.tsv")
	if err != nil {
		t.Fatal(err)
	}
	var list []recorded
	for _, line := range strings.Split(strings.TrimSpace(string(text)), "\n")[1:] {
		cells := strings.Split(line, "\t")
		row := recorded{name: cells[0], direction: cells[2], kind: cells[4], fin: cells[5] == "fin"}
		if row.isStream = strings.HasPrefix(cells[3], "stream "); row.isStream {
			row.stream, err = strconv.ParseUint(strings.TrimPrefix(cells[3], "stream "), 10, 64)
		}
		for i, items := range []*[]item{&row.said, &row.read} {
			if cell := cells[7+i]; cell != "" && err == nil {
				err = json.Unmarshal([]byte(cell), items)
			}
		}
		if err != nil {
			t.Fatal(line, err)
		}
		row.bytes = recordedBytes(t, row.name)
		list = append(list, row)
	}
	if len(list) <= 50 {
		t.Fatal("the index is short")
	}
	return list
}

// isText returns whether bytes are those of a text of the index, in which some stacks have a character for each
// byte.
func isText(bytes, text string) bool {
	if bytes == text {
		return true
	}
	var latin []byte
	for _, letter := range text {
		if letter > 0xff {
			return false
		}
		latin = append(latin, byte(letter))
	}
	return bytes == string(latin)
}

// framesOf reads the frames of a stream that comes in these pieces. It returns them with their payloads, what is
// left without a fault, and a fault.
func framesOf(t *testing.T, role StreamRole, pieces [][]byte) (found []Frame, held []byte, fault error) {
	t.Helper()
	cursor := NewFrameCursor(role)
	for at, piece := range pieces {
		held = append(append([]byte{}, held...), piece...)
		for {
			frame, consumed, err := cursor.Next(held)
			if err != nil && err != ErrMore {
				return found, nil, err
			}
			held = held[consumed:]
			if err == ErrMore {
				if len(held) > MaxFrameRest {
					t.Fatalf("%d bytes are left", len(held))
				}
				break
			}
			found = append(found, frame)
			if frame.Kind == FrameWebTransport {
				return found, append(held, bytes.Join(pieces[at+1:], nil)...), nil
			}
		}
	}
	return found, held, nil
}

// checkFrames checks the frames of a stream, whole and cut, and their field sections. It returns them.
func checkFrames(t *testing.T, role StreamRole, its []byte, said, read []item) []Frame {
	t.Helper()
	found, held, fault := framesOf(t, role, [][]byte{its})
	r := random(7)
	for turn := 0; turn < times(20); turn++ {
		pieces := r.pieces(its)
		frames, rest, code := framesOf(t, role, pieces)
		if !reflect.DeepEqual(frames, found) || !bytes.Equal(rest, held) || code != fault {
			t.Fatalf("other frames in %v", sizes(pieces))
		}
	}
	names := map[FrameKind]string{FrameData: "DATA", FrameHeaders: "HEADERS", FrameSettings: "SETTINGS"}
	place, wantsFault := 0, false
	for _, it := range read {
		name := strings.Split(it.first, " ")[0]
		if name != "DATA" && name != "HEADERS" && name != "SETTINGS" && name != "reserved" {
			continue
		}
		if it.number(it.first) > MaxFramePayload {
			wantsFault = true
			break
		}
		if place == len(found) {
			t.Fatalf("there is no frame %v", it)
		}
		frame := found[place]
		its, named := names[frame.Kind]
		if !named {
			its = "reserved"
		}
		equal(t, []any{its, len(frame.Payload)}, []any{name, it.number(it.first)})
		place++
	}
	equal(t, place, len(found))
	equal(t, fault == H3ExcessiveLoad, wantsFault)
	var sections []FieldList
	for _, it := range said {
		if lines, is := it.all["HEADERS"].([]any); is {
			list := FieldList{}
			for _, line := range lines {
				pair := line.([]any)
				list = append(list, Field{pair[0].(string), pair[1].(string)})
			}
			sections = append(sections, list)
		}
	}
	for _, frame := range found {
		if frame.Kind == FrameHeaders && len(sections) > 0 {
			checkSection(t, frame.Payload, sections[0])
			sections = sections[1:]
		}
	}
	return found
}

func checkSection(t *testing.T, section []byte, lines FieldList) {
	t.Helper()
	list, err := DecodeFields(section)
	if err != nil {
		// it needs the dynamic table
		if err != QPACKDecompressionFailed || section[0] == 0 && section[1]&0x80 == 0 {
			t.Fatal(err)
		}
		return
	}
	equal(t, len(list), len(lines))
	for i, line := range lines {
		if !isText(list[i].Name, line.Name) || !isText(list[i].Value, line.Value) {
			t.Fatalf("%v, wanted %v", list[i], line)
		}
	}
}

// closesOf reads the capsules that close a session, in data that comes in these pieces.
func closesOf(t *testing.T, pieces [][]byte) (found []CloseWebTransportSession, ending error) {
	t.Helper()
	var cursor CapsuleCursor
	var held []byte
	for _, piece := range pieces {
		held = append(append([]byte{}, held...), piece...)
		for {
			value, consumed, err := cursor.Next(held)
			if err != nil && err != ErrMore {
				return found, err
			}
			held = held[consumed:]
			if err == ErrMore {
				break
			}
			closing, err := ReadClose(value)
			if err != nil {
				t.Fatal(err)
			}
			found = append(found, closing)
		}
	}
	return found, cursor.Finish(held)
}

// checkCapsules returns how many lists of capsules the index has of a stream.
func checkCapsules(t *testing.T, row recorded, frames []Frame) int {
	t.Helper()
	var data []byte
	for _, frame := range frames {
		if frame.Kind == FrameData {
			data = append(data, frame.Payload...)
		}
	}
	lists, r := 0, random(3)
	for _, it := range row.read {
		capsules, is := it.all["capsules"].([]any)
		if !is {
			continue
		}
		lists++
		var wanted []CloseWebTransportSession
		var ending error
		for _, capsule := range capsules {
			parts, is := capsule.([]any)
			if !is {
				ending = H3MessageError // it is cut
			} else if parts[0] == "CLOSE_WEBTRANSPORT_SESSION" {
				wanted = append(wanted, CloseWebTransportSession{uint32(numberOf(parts[1])), parts[2].(string)})
			}
		}
		for turn := 0; turn < times(50); turn++ {
			found, its := closesOf(t, r.pieces(data))
			if !reflect.DeepEqual(found, wanted) || its != ending {
				t.Fatalf("%v and %v, wanted %v and %v", found, its, wanted, ending)
			}
		}
	}
	return lists
}

func checkOneWay(t *testing.T, row recorded) {
	t.Helper()
	what := row.read[0].all["stream"].(string)
	header, size, err := ReadStreamHeader(row.bytes)
	switch {
	case what == "push" || strings.HasPrefix(what, "unknown"):
		equal(t, err, H3StreamCreationError)
	case err != nil:
		t.Fatal(err)
	case header.Kind == StreamWebTransport:
		equal(t, int(header.Session), row.read[0].number("session"))
		equal(t, len(row.bytes)-size, row.read[0].number("bytes"))
	case header.Kind == StreamControl:
		frames := checkFrames(t, RoleUniRemote, row.bytes[size:], row.said, row.read[1:])
		settings, err := ReadSettings(frames[0].Payload)
		if err != nil {
			t.Fatal(err)
		}
		var wanted Settings
		for _, pair := range row.read[1].all["is"].([]any) {
			id, err := strconv.ParseUint(pair.([]any)[0].(string), 0, 64)
			if err != nil {
				t.Fatal(err)
			}
			wanted = append(wanted, Setting{SettingID(id), numberOf(pair.([]any)[1])})
		}
		equal(t, settings, wanted)
	default:
		if !strings.HasPrefix(what, "QPACK") && !strings.HasPrefix(what, "reserved") {
			t.Fatal(what, header)
		}
	}
}

func TestStreamsAndDatagramsAreThoseOfTheIndex(t *testing.T) {
	kinds, capsules := map[string]bool{}, 0
	for _, row := range index(t) {
		first := strings.FieldsFunc(row.kind, func(r rune) bool { return strings.ContainsRune(" :,", r) })[0]
		t.Run(row.name, func(t *testing.T) {
			switch first {
			case "datagram":
				datagram, err := ReadDatagram(row.bytes)
				equal(t, err, nil)
				equal(t, int(datagram.Session), 4*row.read[0].number("quarter stream id"))
				equal(t, len(datagram.Payload), row.read[0].number("bytes"))
			case "unidirectional":
				checkOneWay(t, row)
			case "WebTransport":
				if !strings.Contains(row.kind, "opened by this") {
					return
				}
				found, rest, err := framesOf(t, RoleBiRemote, [][]byte{row.bytes})
				equal(t, []any{err, found[0].Kind}, []any{nil, FrameWebTransport})
				equal(t, len(rest), row.read[0].number("application bytes"))
			case "session", "request":
				frames := checkFrames(t, RoleBiRemote, row.bytes, row.said, row.read)
				capsules += checkCapsules(t, row, frames)
			case "response":
				checkFrames(t, RoleBiLocal, row.bytes, row.said, row.read)
			default:
				t.Fatal(row.kind)
			}
			kinds[first] = true
		})
	}
	if len(kinds) != 6 || capsules == 0 {
		t.Fatal(kinds, capsules)
	}
}

// playRecorded returns the events of a stream alone at the end that received it, in these pieces. pushes: each
// piece comes once.
func playRecorded(t *testing.T, row recorded, pieces [][]byte, pushes bool) string {
	t.Helper()
	toServer := row.direction == "c2s"
	endpoint, control := ClientEndpoint(testLimits), uint64(3)
	if toServer {
		endpoint, control = ServerEndpoint(testLimits), 2
	}
	p := newPlayer(t, endpoint, 200)
	p.pushes = pushes
	if !strings.Contains(row.kind, "control") {
		p.accept(control)
		p.receive(control, []byte(aControl), false)
	}
	switch own := (row.stream&1 == 1) == toServer; {
	case !own:
		p.accept(row.stream)
	case strings.HasPrefix(row.kind, "WebTransport"):
		p.add(row.stream, StreamOfSession(0))
	default:
		p.add(row.stream, p.connection.Open(AskedOther))
	}
	p.play(row.stream, pieces, row.fin)
	return p.text(row.stream)
}

func TestCutsMakeNoDifference(t *testing.T) {
	r := random(11)
	for _, row := range index(t) {
		if !row.isStream {
			continue
		}
		t.Run(row.name, func(t *testing.T) {
			whole := playRecorded(t, row, [][]byte{row.bytes}, false)
			equal(t, playRecorded(t, row, [][]byte{row.bytes}, true), whole)
			for turn := 0; turn < times(20); turn++ {
				pieces := r.pieces(row.bytes)
				if played := playRecorded(t, row, pieces, turn%2 == 0); played != whole {
					t.Fatalf("%s, wanted %s, in %v", played, whole, sizes(pieces))
				}
			}
		})
	}
}

func TestCutsOfWrongBytesMakeNoDifference(t *testing.T) {
	var streams []recorded
	for _, row := range index(t) {
		if row.isStream {
			streams = append(streams, row)
		}
	}
	r, errs := random(13), map[string]bool{}
	for turn := 0; turn < times(2_000); turn++ {
		row := streams[r.below(len(streams))]
		row.bytes = append([]byte{}, row.bytes...)
		for count := r.below(3); count >= 0; count-- {
			most := len(row.bytes)
			if most > 200 {
				most = 200
			}
			row.bytes[r.below(most)] = byte(r.below(256))
		}
		whole, pieces := playRecorded(t, row, [][]byte{row.bytes}, false), r.pieces(row.bytes)
		for _, pushes := range []bool{false, true} {
			if played := playRecorded(t, row, pieces, pushes); played != whole {
				t.Fatalf("%s: %s, wanted %s, of %x in %v", row.name, played, whole, row.bytes, sizes(pieces))
			}
		}
		events := strings.Split(strings.TrimSuffix(whole, "; "), "; ")
		if last := events[len(events)-1]; strings.Contains(last, "error") {
			errs[last] = true
		}
	}
	if len(errs) <= 3 {
		t.Fatal(errs)
	}
}

// What a server receives in the session of Chromium that is recorded: each stream, and its events.
var chromium = []struct {
	id   uint64
	file string
	fin  bool
	text string
}{
	{2, "chr07-0-c2s-2.bin", false, "settings "},
	{10, "chr07-0-c2s-10.bin", false, ""},
	{0, "chr07-0-c2s-0.bin", true, "requested ["},
	{1, "chr07-0-c2s-1.bin", true, "data 29; end; "},
	{4, "chr07-0-c2s-4.bin", true, "vesgrauf.EventJoined{0}; data 20; end; "},
	{14, "chr07-0-c2s-14.bin", true, "vesgrauf.EventJoined{0}; data 13; end; "},
	{18, "chr07-0-c2s-18.bin", true, "vesgrauf.EventJoined{0}; end; "},
}

// The size of the HEADERS frame of the request: 131 bytes, by the index, after three.
const requestSize = 134

// playSession plays the session with its streams cut and mixed at random, and returns the events of each.
func playSession(t *testing.T, r *random) []string {
	t.Helper()
	p := newPlayer(t, ServerEndpoint(testLimits), 200)
	p.pushes = r.below(2) == 1
	rest, open, endLength := make([][][]byte, len(chromium)), []int{}, 0
	for at, row := range chromium {
		its := recordedBytes(t, row.file)
		if row.id == 0 {
			// its request, and what closes it
			rest[at] = r.pieces(its[:requestSize])
			end := r.pieces(its[requestSize:])
			rest[at], endLength = append(rest[at], end...), len(end)
		} else {
			rest[at] = r.pieces(its)
		}
		if row.id == 1 {
			p.add(1, StreamOfSession(0))
		} else {
			p.accept(row.id)
		}
		open = append(open, at)
	}
	for len(open) > 0 {
		place := r.below(len(open))
		at := open[place]
		row := chromium[at]
		// the session ends, and its streams with it, when all of them were read
		if row.id == 0 && len(open) > 1 && len(rest[at]) <= endLength {
			continue
		}
		if len(rest[at]) > 0 {
			p.receive(row.id, rest[at][0], false)
			rest[at] = rest[at][1:]
			continue
		}
		if row.fin {
			p.receive(row.id, nil, true)
		}
		open = append(open[:place], open[place+1:]...)
	}
	var texts []string
	for _, row := range chromium {
		texts = append(texts, p.text(row.id))
	}
	return texts
}

func TestASessionOfChromiumInAnyOrder(t *testing.T) {
	r := random(17)
	for turn := 0; turn < times(300); turn++ {
		for at, text := range playSession(t, &r) {
			switch row := chromium[at]; row.id {
			case 0:
				if !strings.HasPrefix(text, row.text) || !strings.Contains(text, " :path=/chat?room=1&x=%C3%A9 ") ||
					!strings.HasSuffix(text, "; closed 4660 bye, w\u00f6rld; end; ") {
					t.Fatal(text)
				}
			case 2:
				if !strings.HasPrefix(text, row.text) {
					t.Fatal(text)
				}
			default:
				equal(t, text, row.text)
			}
		}
	}
}

func TestErrorsAreCodes(t *testing.T) {
	var code Code
	_, err := ReadDatagram(nil)
	if !errors.As(err, &code) || code != H3DatagramError {
		t.Fatal(err)
	}
}
