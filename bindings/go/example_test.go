package vesgrauf_test

import (
	"fmt"
	"log"

	"vesgrauf"
)

var limits = vesgrauf.Limits{MaxSection: 65_536, MaxFields: 65_536, MaxDatagram: 1_500}

// last reads all that is next on a stream, and returns the event before the last one.
func last(c *vesgrauf.Connection, s *vesgrauf.Stream, bytes []byte) vesgrauf.Event {
	var last vesgrauf.Event
	for {
		received := c.Receive(s, bytes, false)
		bytes = bytes[received.Consumed:]
		switch event := received.Event.(type) {
		case vesgrauf.EventMore, vesgrauf.EventWaits:
			return last
		case vesgrauf.EventConnectionError:
			log.Fatal("close the connection: ", event.Code)
		default:
			last = event
		}
	}
}

func must[T any](value T, err error) T {
	if err != nil {
		log.Fatal(err)
	}
	return value
}

// A client asks a server for a session, without a network in between.
func Example() {
	serverEnd, clientEnd := vesgrauf.ServerEndpoint(limits), vesgrauf.ClientEndpoint(limits)
	server := must(vesgrauf.NewConnection(serverEnd))
	client := must(vesgrauf.NewConnection(clientEnd))

	// each sends its SETTINGS on its first unidirectional stream: the client on 2, the server on 3
	last(server, server.Accept(2), must(client.Control().AppendSettings(nil, clientEnd.Settings(0))))
	last(client, client.Accept(3), must(server.Control().AppendSettings(nil, serverEnd.Settings(16))))
	fmt.Println("allowed:", client.AllowsSessions())

	// the client asks on its stream 0, and may not send on the session before the answer
	asking, asked := client.Open(vesgrauf.AskedSession), server.Accept(0)
	request := must(client.Request(0))
	head := must(vesgrauf.SessionRequest{URL: "https://localhost/chat"}.Head())
	bytes := must(request.AppendHeaders(nil, head))
	_, err := request.AppendBidirectional(nil)
	fmt.Println("too early:", err)
	if event, is := last(server, asked, bytes).(vesgrauf.EventSessionRequested); is {
		path, _ := event.Fields.First(":path")
		fmt.Println("requested:", path)
	}

	// the server accepts
	response := must(server.Response(0, vesgrauf.AskedSession))
	bytes = must(response.AppendHeaders(nil, vesgrauf.AcceptSession().Head()))
	asked.Answer(200)
	if event, is := last(client, asking, bytes).(vesgrauf.EventSessionReady); is {
		fmt.Println("ready:", event.Status, request.Connected())
	}

	// a bidirectional stream of the session: 4 at the client
	bytes = append(must(request.AppendBidirectional(nil)), "hello"...)
	stream := server.Accept(4)
	received := server.Receive(stream, bytes, true)
	if event, is := received.Event.(vesgrauf.EventJoins); is {
		server.Join(stream, server.Known(event.Session, asked))
	}
	received = server.Receive(stream, bytes[received.Consumed:], true)
	if event, is := received.Event.(vesgrauf.EventStreamData); is {
		fmt.Printf("data: %s\n", event.Bytes)
	}

	// the server closes the session
	bytes = must(response.AppendClose(nil, 7, "bye"))
	server.Abandon(asked)
	if event, is := last(client, asking, bytes).(vesgrauf.EventSessionClosed); is {
		fmt.Println("closed:", event.Code, event.Reason)
	}
	// Output:
	// allowed: true
	// too early: vesgrauf: the session is not open
	// requested: /chat
	// ready: 200 <nil>
	// data: hello
	// closed: 7 bye
}

// A response with content, whose bytes are sent in two pieces.
func ExampleSending() {
	connection := must(vesgrauf.NewConnection(vesgrauf.ServerEndpoint(limits)))
	sending := must(connection.Response(0, vesgrauf.AskedOther))
	_, err := sending.AppendData(nil, 5)
	fmt.Println("no head yet:", err == vesgrauf.SendUnexpected)
	out := must(sending.AppendHeaders(nil, vesgrauf.FieldList{
		{Name: ":status", Value: "200"}, {Name: "content-length", Value: "5"},
	}))
	out = must(sending.AppendData(out, 5)) // the head of a DATA frame
	out = append(out, "he"...)
	fmt.Println("sent:", sending.Sent(2), sending.Owed())
	fmt.Println("missing:", sending.Finish() == vesgrauf.SendDataMissing)
	out = append(out, "llo"...)
	fmt.Println("sent:", sending.Sent(3), sending.Owed())
	_, err = sending.AppendData(out, 1)
	fmt.Println("too long:", err == vesgrauf.RuleContentTooLong)
	fmt.Println("finished:", sending.Finish()) // the QUIC stream is to be ended after out
	fmt.Printf("%q\n", out[len(out)-7:])
	// Output:
	// no head yet: true
	// sent: <nil> 3
	// missing: true
	// sent: <nil> 0
	// too long: true
	// finished: <nil>
	// "\x00\x05hello"
}

func ExampleControlSending() {
	endpoint := vesgrauf.ServerEndpoint(limits)
	control := must(vesgrauf.NewConnection(endpoint)).Control()
	out := must(control.AppendSettings(nil, endpoint.Settings(16))) // the first bytes of the stream
	_, err := control.AppendSettings(out, endpoint.Settings(16))
	fmt.Println("again:", err)
	// the connection is to end: no more requests are to come, and the one on the stream 0 was the last
	out = must(control.AppendGoAway(out, vesgrauf.LargestRequest))
	out = must(control.AppendGoAway(out, 4))
	_, err = control.AppendGoAway(out, 8)
	fmt.Println("8:", err)
	fmt.Println(control.LastGoAway())
	// Output:
	// again: vesgrauf: this may not be sent now
	// 8: vesgrauf: the ID is above the last one
	// 4 true
}

func ExampleConnection_Receive() {
	connection := must(vesgrauf.NewConnection(vesgrauf.ServerEndpoint(limits)))
	// the control stream of a client: type 0, and a SETTINGS frame
	stream, bytes := connection.Accept(2), []byte("\x00\x04\x02\x33\x01")
	for more := true; more; {
		received := connection.Receive(stream, bytes, false)
		bytes = bytes[received.Consumed:]
		switch event := received.Event.(type) {
		case vesgrauf.EventOpened:
			fmt.Println("control:", event.Purpose == vesgrauf.PurposeControl)
		case vesgrauf.EventSettings:
			fmt.Printf("settings: %x\n", event.Payload)
		case vesgrauf.EventMore:
			more = false
		}
	}
	// Output:
	// control: true
	// settings: 3301
}

func ExampleConnection_ReceivePushed() {
	connection := must(vesgrauf.NewConnection(vesgrauf.ServerEndpoint(limits)))
	stream := vesgrauf.NewPushedStream(connection.Accept(2), 65_552)
	// the control stream of a client, in three chunks
	for _, chunk := range []string{"\x00\x04", "\x02\x33", "\x01"} {
		rest := []byte(chunk)
		for more := true; more; {
			pushed := connection.ReceivePushed(stream, rest, false)
			rest = rest[pushed.Taken:]
			switch event := pushed.Event.(type) {
			case vesgrauf.EventSettings:
				fmt.Printf("settings: %x\n", event.Payload)
			case vesgrauf.EventMore, vesgrauf.EventWaits:
				more = false
			}
		}
		fmt.Println("left:", len(rest)) // if there are some: connection.Overflow(stream.Stream)
	}
	// Output:
	// left: 0
	// left: 0
	// settings: 3301
	// left: 0
}

func ExampleCloseWebTransportSession() {
	// what ends a session: the capsule in a DATA frame, and then the end of the stream
	capsule := must(vesgrauf.CloseWebTransportSession{Code: 7, Reason: "bye"}.Append(nil))
	frame := must(vesgrauf.AppendFrame(nil, vesgrauf.FrameData, capsule))
	fmt.Printf("%x\n", frame)
	// Output: 000a68430700000007627965
}

func ExampleDatagram() {
	bytes := must(vesgrauf.Datagram{Session: 8, Payload: []byte("hi")}.Append(nil))
	fmt.Printf("%q\n", bytes) // the ID is sent divided by 4
	datagram := must(vesgrauf.ReadDatagram(bytes))
	fmt.Printf("%d %s\n", datagram.Session, datagram.Payload)
	// Output:
	// "\x02hi"
	// 8 hi
}

func ExampleStreamHeader() {
	bytes := must(vesgrauf.StreamHeader{Kind: vesgrauf.StreamWebTransport, Session: 4}.Append(nil))
	fmt.Printf("%x\n", bytes)
	// Output: 405404
}

func ExampleFieldList() {
	list := vesgrauf.FieldList{{Name: ":status", Value: "200"}, {Name: "set-cookie", Value: "a=1"}}
	list = append(list, vesgrauf.Field{Name: "set-cookie", Value: "b=2"})
	read := must(vesgrauf.DecodeFields(must(list.Append(nil))))
	fmt.Println(read.All("set-cookie"))
	// Output: [a=1 b=2]
}

func ExampleSettings() {
	settings := vesgrauf.Settings{{ID: vesgrauf.SettingH3Datagram, Value: 1}}
	payload := must(settings.Set(vesgrauf.SettingEnableConnectProtocol, 1).Append(nil))
	fmt.Printf("%x\n", payload)
	value, set := must(vesgrauf.ReadSettings(payload)).Get(vesgrauf.SettingH3Datagram)
	fmt.Println(value, set)
	// Output:
	// 33010801
	// 1 true
}

func ExampleSessionRequest() {
	request := vesgrauf.SessionRequest{URL: "https://example.com:4433/chat?room=1"}
	request.Fields = vesgrauf.FieldList{{Name: "origin", Value: "https://example.com"}}
	head := must(request.Head())
	fmt.Println(head.First(":authority"))
	fmt.Println(head.First(":path"))
	fmt.Println(head.First("origin"))
	// Output:
	// example.com:4433 true
	// /chat?room=1 true
	// https://example.com true
}

func ExampleFrameCursor() {
	cursor, bytes := vesgrauf.NewFrameCursor(vesgrauf.RoleBiRemote), []byte("\x00\x03abc\x00")
	frame, consumed, err := cursor.Next(bytes)
	fmt.Println(frame.Kind == vesgrauf.FrameData, string(frame.Payload), err)
	_, _, err = cursor.Next(bytes[consumed:])
	fmt.Println(err == vesgrauf.ErrMore)
	// Output:
	// true abc <nil>
	// true
}

func ExampleGoaway() {
	goaway := vesgrauf.NewGoaway(vesgrauf.SideServer)
	bytes := must(goaway.Append(nil, vesgrauf.LargestRequest))
	bytes = must(goaway.Append(bytes, 4)) // the request on the stream 0 was the last one
	fmt.Printf("%x\n", bytes)
	_, err := goaway.Append(nil, 8)
	fmt.Println(err == vesgrauf.ErrInvalid)
	// Output:
	// 0708fffffffffffffffc070104
	// true
}

func ExampleRequestBudget() {
	budget := vesgrauf.NewRequestBudget(1)
	budget.Answered()
	fmt.Println(budget.ResetUnanswered(), budget.ResetUnanswered())
	fmt.Println(budget.ResetUnanswered())
	// Output:
	// <nil> <nil>
	// H3_EXCESSIVE_LOAD (0x107)
}

func ExampleCode() {
	fmt.Println(vesgrauf.H3FrameUnexpected)
	number := vesgrauf.ApplicationCode(7)
	its, is := number.Application()
	fmt.Println(its, is)
	// Output:
	// H3_FRAME_UNEXPECTED (0x105)
	// 7 true
}

func ExampleFirstVarint() {
	fmt.Println(vesgrauf.FirstVarint([]byte{0x7b, 0xbd, 0xff})) // RFC 9000, section A.1
	_, size := vesgrauf.FirstVarint([]byte{0x7b})
	fmt.Println(size)
	// Output:
	// 15293 2
	// 0
}
