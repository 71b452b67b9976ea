// Command client sends a request by quic-go, with a key log and a qlog.
//
//	client URL CERTIFICATE KEYS FOLDER
//
// KEYS gets the secrets of the connection, and FOLDER a file client.qlog, which has the frames of each packet without
// their content.
package main

import (
	"bufio"
	"crypto/tls"
	"crypto/x509"
	"io"
	"log"
	"net/http"
	"os"
	"path/filepath"

	quic "github.com/lucas-clemente/quic-go"
	"github.com/lucas-clemente/quic-go/http3"
	"github.com/lucas-clemente/quic-go/logging"
	"github.com/lucas-clemente/quic-go/qlog"
)

type writer struct {
	*bufio.Writer
	file io.Closer
}

func (w writer) Close() error {
	if err := w.Flush(); err != nil {
		return err
	}
	return w.file.Close()
}

func main() {
	log.SetFlags(0)
	if len(os.Args) != 5 {
		log.Fatal("usage: client URL CERTIFICATE KEYS FOLDER")
	}
	certificate, err := os.ReadFile(os.Args[2])
	if err != nil {
		log.Fatal(err)
	}
	roots := x509.NewCertPool()
	roots.AppendCertsFromPEM(certificate)
	keys, err := os.Create(os.Args[3])
	if err != nil {
		log.Fatal(err)
	}
	defer keys.Close()
	tracer := qlog.NewTracer(func(logging.Perspective, []byte) io.WriteCloser {
		file, err := os.Create(filepath.Join(os.Args[4], "client.qlog"))
		if err != nil {
			log.Fatal(err)
		}
		return writer{bufio.NewWriter(file), file}
	})
	transport := &http3.RoundTripper{
		TLSClientConfig: &tls.Config{RootCAs: roots, KeyLogWriter: keys},
		QuicConfig:      &quic.Config{Tracer: tracer},
	}
	response, err := (&http.Client{Transport: transport}).Get(os.Args[1])
	if err != nil {
		log.Fatal(err)
	}
	content, err := io.ReadAll(response.Body)
	if err != nil {
		log.Fatal(err)
	}
	log.Printf("%s, %d bytes", response.Status, len(content))
	if err := transport.Close(); err != nil {
		log.Fatal(err)
	}
}
