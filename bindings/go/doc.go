// Package vesgrauf is WebTransport over HTTP/3 without IO: Go over Vesgrauf's C library, libwtransport, whose
// calls are proved to do what their definitions say.
//
// It has no socket, no clock and no goroutine. Bytes of streams and datagrams go in, events come out, and what
// is sent is appended to slices. The folder quic beside this package has a server and a client over quic-go.
//
// # What is where
//
//   - a whole connection: [Connection], [Stream], [Event]
//   - what is read at most: [Limits], in an [Endpoint]
//   - a QUIC library that gives each byte once: [PushedStream], [Connection.ReceivePushed]
//   - the settings of the peer, 0-RTT: [PeerSettings], [ResumeConnection]
//   - what is sent: [Sending] for a message and its session, [ControlSending]; what they do not send is an error
//   - clients that reset their requests: [RequestBudget]
//   - fields of messages: [FieldList], [SessionRequest], [SessionResponse]
//   - error codes, their names, those of applications: [Code], [ApplicationCode]
//   - one stream, below a connection of your own: [FrameCursor], [CapsuleCursor], [AppendFrame],
//     [AppendWebTransport], [StreamHeader], [Datagram], [CloseWebTransportSession], [Goaway], [Settings],
//     [FirstVarint]
//
// # A server
//
// QUIC is configured with the ALPN protocol [WebTransportALPN], with datagrams, and so that the peer may open at
// least three unidirectional streams beside those of its sessions. For each QUIC connection a server keeps a
// [Connection] and a [ControlSending], for each stream a [Stream] with the bytes that were not consumed, and for
// each request a [Sending].
//
//  1. At the start it opens a unidirectional stream and sends what [ControlSending.AppendSettings] appends. The
//     stream stays open.
//  2. For each stream of the peer: [Connection.Accept], and [Connection.Receive] with its bytes.
//  3. It does what the comment of each [Event] says. It answers a request by a [Sending]: the bytes of
//     [Sending.AppendHeaders], and after those of a CONNECT [Stream.Answer]. The Sending of a session has the
//     first bytes of its streams and datagrams.
//  4. It reads streams that wait ([EventWaits]) again: for a session after that was answered or ended, for
//     SETTINGS after they came, for an answer after [Stream.Answer]. One that waits for its session is given to
//     [Connection.Join] first.
//  5. A reset of a stream, a request to stop it and a datagram go to [Connection.Reset], [Connection.Stop] (or
//     [Connection.Stopped]) and [Connection.Datagram].
//  6. To close a session it sends what [Sending.AppendClose] appends on the session's stream, ends its half of
//     the stream, and calls [Connection.Abandon]. It reads the peer's half on to its end: if that is stopped, the
//     peer may see the stop before the close. In each case the streams of a session that is over are reset and
//     stopped, and its [Sending] is dropped. The QUIC connection is closed only when both halves of the session's
//     stream have ended, or after a limit of time: the close may otherwise not be sent.
//  7. After the end of a stream its [Stream] may be dropped, that of a session too: a server's [Connection] knows
//     which requests have begun. A client keeps those of its sessions. One that is dropped before its end is
//     given to [Connection.Abandon] first.
//  8. It counts requests that are answered, and those that are reset before, in a [RequestBudget].
//  9. To end the connection it sends what [ControlSending.AppendGoAway] appends, answers the requests that it
//     processes, and closes the connection with [H3NoError].
//
// # A client
//
// Its [Connection] is that of a [ClientEndpoint]. Steps 1, 2, 4 and 5 of a server are its own too, and it does what
// the comment of each [Event] says. Then:
//
//  1. After [EventSettings], if [Connection.AllowsSessions], it opens a bidirectional stream for each session, whose
//     ID is that of the stream: what it sends on it is a [Sending] of [Connection.Request], with the fields of a
//     [SessionRequest], and what it receives on it is read with a [Stream] of [Connection.Open].
//  2. [EventSessionReady] on that stream opens the session: it calls [Sending.Connected]. After [EventRejected] no
//     session follows, and it ends its half of the stream.
//  3. A stream of the session begins with what [Sending.AppendBidirectional] or [Sending.AppendUnidirectional]
//     appends, and the application's bytes follow. What it receives on a bidirectional one is read with a [Stream]
//     of [StreamOfSession], and comes as [EventStreamData].
//  4. It closes the session as a server does, in step 6.
//
// # Both
//
// Only the bytes that were consumed are to be credited to the peer, so that QUIC's flow control bounds what
// waits: with a library such as quic-go, which credits what is read, a stream is read no further while bytes of
// it wait.
//
// # Building
//
// The package uses cgo. It asks pkg-config for the library wtransport, which is linked as a shared library. In a
// build folder of the library PKG_CONFIG_PATH names the folder. With the build tag wtransport_static it links
// the archive libwtransport.a, of a folder of the system or of CGO_CFLAGS and CGO_LDFLAGS. The library requires
// x86-64 with SSE4.2 and POPCNT.
//
// # Goroutines and memory
//
// Calls that share no [Connection] and no [Stream] may run at the same time. A Connection is used with all of
// its streams, so that a program guards both by one mutex. It has no table and no queue: it keeps memory for one
// field section, a datagram and a reason, within its [Limits], and a Stream that of a capsule that is cut.
//
// What is proved is proved of the library, in its repository. Of this package nothing is proved.
package vesgrauf

// WebTransportALPN is the ALPN protocol ID that a QUIC connection for WebTransport negotiates (RFC 9114,
// section 3.1).
const WebTransportALPN = "h3"

// LibraryVersion returns the version of the library that is linked, a byte for each part: 0x000800 is 0.8.0.
func LibraryVersion() uint32 { return cVersion() }
