// Command server is a server over quic-go: a page, POST, 404, 501, and sessions that send back what comes. What a
// stream of a session says after an exclamation mark is a command, for the page and the client of the test.
//
//	server PORT SECONDS CERTIFICATE KEY PAGE
//
// It listens on 127.0.0.1, and ends after SECONDS, with its standard input, or after a POST of /done.
package main

import (
	"context"
	"crypto/tls"
	"errors"
	"fmt"
	"io"
	"log"
	"os"
	"strconv"
	"strings"
	"sync/atomic"
	"time"

	quicgo "github.com/lucas-clemente/quic-go"

	"vesgrauf"
	"vesgrauf/quic"
)

var (
	opened, closed atomic.Int64
	done           = make(chan struct{}, 1)
	page           []byte
)

func main() {
	log.SetFlags(0)
	if len(os.Args) != 6 {
		log.Fatal("usage: server PORT SECONDS CERTIFICATE KEY PAGE")
	}
	seconds, err := strconv.Atoi(os.Args[2])
	if err != nil {
		log.Fatal(err)
	}
	if page, err = os.ReadFile(os.Args[5]); err != nil {
		log.Fatal(err)
	}
	certificate, err := tls.LoadX509KeyPair(os.Args[3], os.Args[4])
	if err != nil {
		log.Fatal(err)
	}
	config := &tls.Config{
		Certificates: []tls.Certificate{certificate},
		NextProtos:   []string{vesgrauf.WebTransportALPN},
		MinVersion:   tls.VersionTLS13,
	}
	listener, err := quicgo.ListenAddr("127.0.0.1:"+os.Args[1], config, quic.Config())
	if err != nil {
		log.Fatal(err)
	}
	fmt.Println("listening")
	go accept(listener)
	go func() {
		io.Copy(io.Discard, os.Stdin)
		done <- struct{}{}
	}()
	select {
	case <-done:
	case <-time.After(time.Duration(seconds) * time.Second):
	}
	time.Sleep(100 * time.Millisecond) // for the last acknowledgments
	listener.Close()
	time.Sleep(100 * time.Millisecond)
	fmt.Printf("%d sessions, %d closed\n", opened.Load(), closed.Load())
}

func accept(listener quicgo.Listener) {
	handler := quic.Handler{Accept: acceptSession, Session: serveSession, Request: serveRequest}
	for {
		connection, err := listener.Accept(context.Background())
		if err != nil {
			return
		}
		go quic.Serve(connection, handler)
	}
}

func acceptSession(fields vesgrauf.FieldList) vesgrauf.SessionResponse {
	if path, _ := fields.First(":path"); path != "/echo" {
		return vesgrauf.SessionResponse{Status: 404}
	}
	opened.Add(1)
	return vesgrauf.AcceptSession()
}

func serveRequest(request *quic.Request) {
	method, _ := request.Fields.First(":method")
	path, _ := request.Fields.First(":path")
	name, query, _ := strings.Cut(path, "?")
	switch {
	case method == "GET" && name == "/":
		respond(request, 200, "text/html; charset=utf-8", page)
	case method == "POST":
		size, err := io.Copy(io.Discard, request)
		if err != nil {
			return
		}
		respond(request, 200, "text/plain", []byte(fmt.Sprintf("%d bytes\n", size)))
		switch name {
		case "/result":
			fmt.Println(query)
		case "/done":
			done <- struct{}{}
		}
	case method == "CONNECT": // a tunnel by another protocol
		respond(request, 501, "text/plain", []byte("not implemented\n"))
	case method == "GET":
		respond(request, 404, "text/plain", []byte("not found\n"))
	default:
		respond(request, 405, "text/plain", []byte("not allowed\n"))
	}
}

func respond(request *quic.Request, status uint32, kind string, content []byte) {
	err := request.Respond(vesgrauf.SessionResponse{Status: status, Fields: vesgrauf.FieldList{
		{Name: "content-type", Value: kind},
		{Name: "content-length", Value: strconv.Itoa(len(content))},
	}})
	if err == nil {
		request.Write(content)
	}
}

func serveSession(session *quic.Session) {
	go func() {
		for {
			select {
			case payload := <-session.Datagrams():
				session.Send(payload)
			case <-session.Done():
				closed.Add(1)
				return
			}
		}
	}()
	for {
		s, err := session.Accept(context.Background())
		if err != nil {
			return
		}
		go serveStream(session, s)
	}
}

func serveStream(session *quic.Session, s *quic.Stream) {
	defer s.Forget()
	out, buffer := s, make([]byte, 16_384)
	for isFirst := true; ; isFirst = false {
		size, err := s.Read(buffer)
		if size > 0 && isFirst && buffer[0] == '!' && !s.IsUnidirectional() {
			rest, _ := io.ReadAll(s)
			command(session, s, string(buffer[:size])+string(rest))
			return
		}
		if isFirst && s.IsUnidirectional() {
			var failed error
			if out, failed = session.OpenUni(context.Background()); failed != nil {
				return
			}
			defer out.Forget()
		}
		if size > 0 {
			if _, failed := out.Write(buffer[:size]); failed != nil {
				return
			}
		}
		var reset *quic.ResetError
		switch {
		case err == io.EOF:
			out.Close()
			return
		case errors.As(err, &reset):
			out.Reset(reset.Code)
			return
		case err != nil:
			return
		}
	}
}

// command does what a stream of a session asks for.
func command(session *quic.Session, s *quic.Stream, line string) {
	words := strings.SplitN(line, " ", 3)
	var code uint64
	if len(words) > 1 {
		code, _ = strconv.ParseUint(words[1], 10, 32)
	}
	switch words[0] {
	case "!open":
		io.WriteString(s, "opened")
		s.Close()
		own, err := session.Open(context.Background())
		if err != nil {
			return
		}
		defer own.Forget()
		io.WriteString(own, "hello")
		own.Close()
		io.Copy(io.Discard, own)
	case "!close":
		session.Close(uint32(code), strings.Join(words[2:], ""))
	case "!reset":
		s.Reset(uint32(code))
	default:
		s.Close()
	}
}
