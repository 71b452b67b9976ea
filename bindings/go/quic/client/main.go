// Command client sends sessions to the server of this example, and checks what comes back.
//
//	client PORT SECONDS CERTIFICATE SESSIONS SEED
//
// Each session has ten streams of random sizes, unidirectional ones among them, one more that is reset, a stream of
// the server and a datagram; half of them are closed by the server. It ends after SECONDS, and its last line is
// 'N passed, M failed', where a session counts once.
package main

import (
	"bytes"
	"context"
	"crypto/tls"
	"crypto/x509"
	"errors"
	"fmt"
	"io"
	"log"
	"math/rand"
	"os"
	"strconv"
	"sync"
	"time"

	quicgo "github.com/lucas-clemente/quic-go"

	"vesgrauf"
	"vesgrauf/quic"
)

// How many sessions run at once, each on one of so many connections.
const (
	atOnce      = 20
	connections = 5
)

func main() {
	log.SetFlags(0)
	if len(os.Args) != 6 {
		log.Fatal("usage: client PORT SECONDS CERTIFICATE SESSIONS SEED")
	}
	numbers := make([]int, 4)
	for i, at := range []int{1, 2, 4, 5} {
		number, err := strconv.Atoi(os.Args[at])
		if err != nil {
			log.Fatal(err)
		}
		numbers[i] = number
	}
	certificate, err := os.ReadFile(os.Args[3])
	if err != nil {
		log.Fatal(err)
	}
	roots := x509.NewCertPool()
	if !roots.AppendCertsFromPEM(certificate) {
		log.Fatal("there is no certificate")
	}
	config := &tls.Config{
		RootCAs: roots, ServerName: "localhost", NextProtos: []string{vesgrauf.WebTransportALPN},
	}
	ctx, cancel := context.WithTimeout(context.Background(), time.Duration(numbers[1])*time.Second)
	defer cancel()
	var opened []*quic.Connection
	for i := 0; i < connections; i++ {
		connection, err := quicgo.DialAddrContext(ctx, "127.0.0.1:"+os.Args[1], config, quic.Config())
		if err != nil {
			log.Fatal(err)
		}
		c, err := quic.Connect(ctx, connection)
		if err != nil {
			log.Fatal(err)
		}
		defer c.Close(vesgrauf.H3NoError)
		opened = append(opened, c)
	}
	passed, failed := sendSessions(ctx, opened, "https://localhost:"+os.Args[1], numbers[2], numbers[3])
	refused := false
	if _, err := opened[0].Open(ctx, "https://localhost:"+os.Args[1]+"/nothing"); err != nil {
		refused = err.Error() == "the server answered 404"
	}
	if refused {
		passed++
	} else {
		failed++
		fmt.Println("FAILED: a session at another path is not answered with 404")
	}
	fmt.Printf("%d passed, %d failed\n", passed, failed)
	if failed > 0 {
		os.Exit(1)
	}
}

// sendSessions sends so many sessions, and returns how many passed and failed.
func sendSessions(
	ctx context.Context, opened []*quic.Connection, origin string, sessions, seed int,
) (passed, failed int) {
	numbers, results := make(chan int), make(chan error)
	for i := 0; i < atOnce; i++ {
		go func() {
			for number := range numbers {
				random := rand.New(rand.NewSource(int64(seed)<<32 + int64(number)))
				err := sendSession(ctx, opened[number%len(opened)], origin, random, number%2 == 0)
				if err != nil {
					err = fmt.Errorf("session %d: %w", number, err)
				}
				results <- err
			}
		}()
	}
	go func() {
		for number := 0; number < sessions; number++ {
			numbers <- number
		}
		close(numbers)
	}()
	for i := 0; i < sessions; i++ {
		if err := <-results; err != nil {
			failed++
			fmt.Println("FAILED:", err)
		} else {
			passed++
		}
	}
	return passed, failed
}

func randomBytes(random *rand.Rand, most int) []byte {
	bytes := make([]byte, random.Intn(most))
	random.Read(bytes)
	if len(bytes) > 0 && bytes[0] == '!' {
		bytes[0] = '.'
	}
	return bytes
}

func sendSession(
	ctx context.Context, c *quic.Connection, origin string, random *rand.Rand, closesHere bool,
) error {
	session, err := c.Open(ctx, origin+"/echo")
	if err != nil {
		return err
	}
	// unidirectional ones come back in any order
	count := random.Intn(4)
	if err = sendOneWay(ctx, session, random, count); err != nil {
		return fmt.Errorf("unidirectional streams: %w", err)
	}
	var group sync.WaitGroup
	errs := make([]error, 10-count)
	for i := range errs {
		payload := randomBytes(random, 4_000)
		if random.Intn(20) == 0 {
			payload = randomBytes(random, 400_000)
		}
		group.Add(1)
		go func(i int) {
			defer group.Done()
			errs[i] = sendEcho(ctx, session, payload)
		}(i)
	}
	group.Wait()
	for _, err := range errs {
		if err != nil {
			return fmt.Errorf("an echo: %w", err)
		}
	}
	if err = sendReset(ctx, session, random.Uint32(), random.Intn(2) == 0); err != nil {
		return fmt.Errorf("a reset: %w", err)
	}
	if err = sendDatagram(ctx, session, append([]byte("d"), randomBytes(random, 1_000)...)); err != nil {
		return fmt.Errorf("a datagram: %w", err)
	}
	if err = openByServer(ctx, session); err != nil {
		return fmt.Errorf("a stream of the server: %w", err)
	}
	code, reason := random.Uint32(), "bye, wörld"
	if closesHere {
		return session.Close(code, reason)
	}
	s, err := session.Open(ctx)
	if err != nil {
		return err
	}
	fmt.Fprintf(s, "!close %d %s", code, reason)
	s.Close()
	select {
	case <-session.Done():
	case <-ctx.Done():
		return ctx.Err()
	}
	if ending := session.Ending(); ending != (quic.Ending{Code: code, Reason: reason}) {
		return fmt.Errorf("it ended with %v", ending)
	}
	return nil
}

// exchange opens a stream, sends bytes and its end, and returns all that comes back.
func exchange(ctx context.Context, session *quic.Session, payload []byte) ([]byte, error) {
	s, err := session.Open(ctx)
	if err != nil {
		return nil, err
	}
	defer s.Forget()
	sent := make(chan error, 1)
	go func() {
		_, err := s.Write(payload)
		if err == nil {
			err = s.Close()
		}
		sent <- err
	}()
	came, err := io.ReadAll(s)
	if err == nil {
		err = <-sent
	}
	return came, err
}

func sendEcho(ctx context.Context, session *quic.Session, payload []byte) error {
	came, err := exchange(ctx, session, payload)
	if err == nil && !bytes.Equal(came, payload) {
		err = fmt.Errorf("%d bytes came back of %d", len(came), len(payload))
	}
	return err
}

func sendOneWay(ctx context.Context, session *quic.Session, random *rand.Rand, count int) error {
	wanted := map[string]int{}
	for i := 0; i < count; i++ {
		payload := randomBytes(random, 3_000)
		wanted[string(payload)]++
		s, err := session.OpenUni(ctx)
		if err != nil {
			return err
		}
		if _, err = s.Write(payload); err != nil {
			return err
		}
		s.Close()
		s.Forget()
	}
	for i := 0; i < count; i++ {
		s, err := session.Accept(ctx)
		if err != nil {
			return err
		}
		came, err := io.ReadAll(s)
		s.Forget()
		if err != nil {
			return err
		}
		if wanted[string(came)]--; wanted[string(came)] < 0 {
			return errors.New("other bytes came back")
		}
	}
	return nil
}

// sendReset resets a stream with a code, or lets the server do so. The server's half is then reset with the same.
func sendReset(ctx context.Context, session *quic.Session, code uint32, here bool) error {
	s, err := session.Open(ctx)
	if err != nil {
		return err
	}
	defer s.Forget()
	if here {
		if _, err = io.WriteString(s, "x"); err == nil {
			_, err = io.ReadFull(s, make([]byte, 1))
		}
		if err != nil {
			return err
		}
		s.Reset(code)
	} else {
		fmt.Fprintf(s, "!reset %d", code)
		s.Close()
	}
	var reset *quic.ResetError
	if _, err = io.ReadAll(s); !errors.As(err, &reset) || !reset.IsApplication || reset.Code != code {
		return fmt.Errorf("%v, wanted the code %d", err, code)
	}
	return nil
}

// sendDatagram sends a datagram until it comes back: it may be lost.
func sendDatagram(ctx context.Context, session *quic.Session, payload []byte) error {
	for turn := 0; turn < 10; turn++ {
		if err := session.Send(payload); err != nil {
			return err
		}
		select {
		case came := <-session.Datagrams():
			if !bytes.Equal(came, payload) {
				return errors.New("another one came back")
			}
			return nil
		case <-session.Done():
			return errors.New("the session is over")
		case <-time.After(time.Second):
		}
	}
	return errors.New("it did not come back")
}

func openByServer(ctx context.Context, session *quic.Session) error {
	came, err := exchange(ctx, session, []byte("!open"))
	if err != nil {
		return err
	}
	s, err := session.Accept(ctx)
	if err != nil {
		return err
	}
	defer s.Forget()
	hello, err := io.ReadAll(s)
	if err != nil || string(came)+string(hello) != "openedhello" {
		return fmt.Errorf("%q, %q, %v", came, hello, err)
	}
	if _, err = io.WriteString(s, "back"); err == nil {
		err = s.Close()
	}
	return err
}
