package vesgrauf

// The calls that read a connection.

/*
#include <wtransport.h>
*/
import "C"

import "fmt"

func (endpoint Endpoint) c() C.wt_endpoint {
	return C.wt_endpoint{
		side:         C.uint8_t(endpoint.Side),
		webtransport: flag(endpoint.WebTransport),
		datagrams:    flag(endpoint.Datagrams),
		extended:     flag(endpoint.Extended),
		max_section:  C.uint32_t(endpoint.Limits.MaxSection),
		max_fields:   C.uint64_t(endpoint.Limits.MaxFields),
		max_datagram: C.uint64_t(endpoint.Limits.MaxDatagram),
	}
}

func cConnectionNew(endpoint Endpoint, state *cConnection) bool {
	words := endpoint.c()
	return C.wt_connection_new(C.WT_ABI, &words, state) == answerOK
}

func cConnectionResuming(endpoint Endpoint, remembered PeerSettings, state *cConnection) bool {
	words := endpoint.c()
	limit := C.uint64_t(remembered.MaxFieldSectionSize)
	if !remembered.HasMaxFieldSectionSize {
		limit = ^C.uint64_t(0)
	} else if remembered.MaxFieldSectionSize >= 1<<62 {
		return false
	}
	kept := C.wt_peer_settings{
		qpack_max_table_capacity:  C.uint64_t(remembered.QPACKMaxTableCapacity),
		max_field_section_size:    limit,
		qpack_blocked_streams:     C.uint64_t(remembered.QPACKBlockedStreams),
		webtransport_max_sessions: C.uint64_t(remembered.WebTransportMaxSessions),
		wt_max_sessions:           C.uint64_t(remembered.WTMaxSessions),
		enable_connect_protocol:   flag(remembered.EnableConnectProtocol),
		h3_datagram:               flag(remembered.H3Datagram),
		enable_webtransport:       flag(remembered.EnableWebTransport),
		came:                      flag(remembered.Came),
	}
	return C.wt_connection_resuming(C.WT_ABI, &words, &kept, state) == answerOK
}

func cConnectionSettings(state *cConnection) PeerSettings {
	var settings C.wt_peer_settings
	expectOK(C.wt_connection_settings(state, &settings))
	peer := PeerSettings{
		QPACKMaxTableCapacity:   uint64(settings.qpack_max_table_capacity),
		QPACKBlockedStreams:     uint64(settings.qpack_blocked_streams),
		EnableConnectProtocol:   settings.enable_connect_protocol == 1,
		H3Datagram:              settings.h3_datagram == 1,
		EnableWebTransport:      settings.enable_webtransport == 1,
		WebTransportMaxSessions: uint64(settings.webtransport_max_sessions),
		WTMaxSessions:           uint64(settings.wt_max_sessions),
		Came:                    settings.came == 1,
	}
	if settings.max_field_section_size != ^C.uint64_t(0) {
		peer.MaxFieldSectionSize = uint64(settings.max_field_section_size)
		peer.HasMaxFieldSectionSize = true
	}
	return peer
}

func cEarlyDataRefused(state *cConnection) { expectOK(C.wt_early_data_refused(state)) }

// isTrue returns an answer that is 1 or 0.
func isTrue(answer C.int) bool {
	if answer < 0 {
		expectOK(answer)
	}
	return answer == 1
}

func cConnectionAllowsSessions(state *cConnection) bool {
	return isTrue(C.wt_connection_allows_sessions(state))
}

func cConnectionUnprocessed(state *cConnection, id uint64) bool {
	return isTrue(C.wt_connection_unprocessed(state, C.uint64_t(id)))
}

func cStreamAccept(state *cConnection, id uint64, stream *cStream) {
	expectOK(C.wt_stream_accept(state, C.uint64_t(id), stream))
}

func cStreamOfRequest(state *cConnection, asked Asked, stream *cStream) {
	expectOK(C.wt_stream_of_request(state, C.uint32_t(asked), stream))
}

func cStreamOfSession(session uint64, stream *cStream) {
	expectOK(C.wt_stream_of_session(C.uint64_t(session), stream))
}

func cReceive(c *Connection, s *Stream, bytes []byte, fin bool) C.int {
	return C.wt_receive(&c.state, &s.state, start(s.held), size(s.held), nil, 0, start(bytes), size(bytes),
		flag(fin), &c.event, startOfFields(c.fields), C.size_t(len(c.fields)), start(c.out), size(c.out))
}

func cReceivePushed(c *Connection, p *PushedStream, chunk []byte, fin bool) C.int {
	s := p.Stream
	return C.wt_receive_pushed(&c.state, &s.state, start(s.held), size(s.held), nil, 0, &p.hold,
		start(p.room), size(p.room), start(chunk), size(chunk), flag(fin), &c.event,
		startOfFields(c.fields), C.size_t(len(c.fields)), start(c.out), size(c.out))
}

func cStreamAnswer(stream *cStream, status uint32) {
	expectOK(C.wt_stream_answer(stream, C.uint32_t(status)))
}

func cSessionKnown(state *cConnection, session uint64, its *Stream) Known {
	var known C.uint32_t
	if its == nil {
		expectOK(C.wt_session_known(state, C.uint64_t(session), nil, 0, &known))
	} else {
		expectOK(C.wt_session_known(state, C.uint64_t(session), &its.state, 1, &known))
	}
	return Known(known)
}

func cStreamJoin(c *Connection, stream *cStream, known Known) {
	expectOK(C.wt_stream_join(&c.state, stream, C.uint32_t(known), &c.event))
}

func cStreamWaits(stream *cStream) Waits {
	var waits C.uint32_t
	var session C.uint64_t
	expectOK(C.wt_stream_waits(stream, &waits, &session))
	return Waits{For: WaitsFor(waits), Session: uint64(session)}
}

func cStreamBelongs(stream *cStream) (uint64, bool) {
	var belongs C.uint32_t
	var session C.uint64_t
	expectOK(C.wt_stream_belongs(stream, &belongs, &session))
	return uint64(session), belongs == 1
}

func cStreamReset(c *Connection, stream *cStream) {
	expectOK(C.wt_stream_reset(&c.state, stream, &c.event))
}

func cStreamStop(c *Connection, stream *cStream) {
	expectOK(C.wt_stream_stop(&c.state, stream, &c.event))
}

func cStreamAbandon(c *Connection, stream *cStream) {
	expectOK(C.wt_stream_abandon(&c.state, stream, &c.event))
}

func cStreamOverflow(c *Connection, stream *cStream) {
	expectOK(C.wt_stream_overflow(&c.state, stream, &c.event))
}

func cStopped(state *cConnection, purpose Purpose) error {
	var code C.uint64_t
	return readError(C.wt_stopped(state, C.uint32_t(purpose), &code), code)
}

func cDatagramReceive(c *Connection, bytes []byte) {
	expectOK(C.wt_datagram_receive(&c.state, start(bytes), size(bytes), &c.event))
}

func cDatagramUse(known Known) DatagramFor {
	return DatagramFor(C.wt_datagram_use(C.uint32_t(known)))
}

// The events after which nothing is next.
const (
	eventMore  = C.WT_EVENT_MORE
	eventWaits = C.WT_EVENT_WAITS
)

func (c *Connection) eventKind() C.uint32_t { return c.event.kind }

// eventIn returns the event of the last call, with what it refers to in the bytes, the fields and the output.
func (c *Connection) eventIn(bytes []byte) Event {
	e := &c.event
	if int(e.fields) > len(c.fields) || int(e.used) > len(c.out) {
		panic("libwtransport wrote beyond its room")
	}
	piece := func() []byte { return bytes[e.offset : e.offset+e.length : e.offset+e.length] }
	out := c.out[:e.used]
	list := func() FieldList { return fieldList(c.fields[:e.fields], out) }
	status := uint32(e.number)
	switch e.kind {
	case C.WT_EVENT_SETTINGS:
		return EventSettings{piece()}
	case C.WT_EVENT_FRAME:
		return EventFrame{uint64(e.detail), piece()}
	case C.WT_EVENT_HEADERS:
		return EventHeaders{HeadersKind(e.detail), status, list()}
	case C.WT_EVENT_SESSION_REQUESTED:
		return EventSessionRequested{list()}
	case C.WT_EVENT_SESSION_READY:
		return EventSessionReady{status, list()}
	case C.WT_EVENT_REJECTED:
		return EventRejected{status, list()}
	case C.WT_EVENT_SESSION_CLOSED:
		return EventSessionClosed{uint32(e.number), string(out)}
	case C.WT_EVENT_DATAGRAM:
		return EventDatagram{append([]byte{}, out...)}
	case C.WT_EVENT_DATA:
		return EventData{piece()}
	case C.WT_EVENT_STREAM_DATA:
		return EventStreamData{piece()}
	}
	return c.eventOfNumbers()
}

// eventOfNumbers returns an event that has numbers alone.
func (c *Connection) eventOfNumbers() Event {
	e := &c.event
	number, code, detail := uint64(e.number), Code(e.number), uint32(e.detail)
	switch e.kind {
	case C.WT_EVENT_MORE:
		return EventMore{}
	case C.WT_EVENT_WAITS:
		return EventWaits{Waits{For: WaitsFor(detail), Session: number}}
	case C.WT_EVENT_OPENED:
		return EventOpened{Purpose(detail)}
	case C.WT_EVENT_JOINS:
		return EventJoins{number}
	case C.WT_EVENT_JOINED:
		return EventJoined{number}
	case C.WT_EVENT_GOAWAY:
		return EventGoAway{number}
	case C.WT_EVENT_SESSION_LOST:
		return EventSessionLost{}
	case C.WT_EVENT_DRAINING:
		return EventDraining{}
	case C.WT_EVENT_SKIPPED:
		return EventSkipped{}
	case C.WT_EVENT_TOO_LARGE:
		return EventTooLarge{number}
	case C.WT_EVENT_MALFORMED:
		return EventMalformed{Malformed(detail)}
	case C.WT_EVENT_STREAM_ERROR:
		return EventStreamError{code}
	case C.WT_EVENT_CONNECTION_ERROR:
		return EventConnectionError{code}
	case C.WT_EVENT_RESET:
		return EventReset{ResetOwn: detail == 1, Code: code}
	case C.WT_EVENT_END:
		return EventEnd{}
	}
	panic(fmt.Sprintf("libwtransport returned the event %d", e.kind))
}

// datagram returns the session of a datagram and where its payload is, by the event of the last call.
func (c *Connection) datagram(bytes []byte) (uint64, []byte, error) {
	e := &c.event
	switch e.kind {
	case C.WT_EVENT_DATAGRAM:
		return uint64(e.number), bytes[e.offset : e.offset+e.length], nil
	case C.WT_EVENT_SKIPPED, C.WT_EVENT_MORE:
		return 0, nil, ErrDropped
	case C.WT_EVENT_CONNECTION_ERROR:
		return 0, nil, Code(e.number)
	}
	panic(fmt.Sprintf("libwtransport returned the event %d", e.kind))
}
