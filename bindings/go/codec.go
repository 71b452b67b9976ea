package vesgrauf

// The codec, below a connection of your own: numbers, headers of streams, datagrams and frames.

// FirstVarint returns the integer at the start of the bytes and the size of its encoding, which is 0 if there are
// too few bytes (RFC 9000, section 16). Every encoding is read, not only the shortest.
func FirstVarint(bytes []byte) (value uint64, size int) { return cVarintRead(bytes) }

// AppendVarint appends the shortest encoding of an integer. The error is [ErrInvalid] if it is 2^62 or more.
func AppendVarint(out []byte, value uint64) ([]byte, error) { return cVarintWrite(out, value) }

// VarintSize returns the size of the shortest encoding, 1, 2, 4 or 8, or 0 if the integer is 2^62 or more.
func VarintSize(value uint64) int { return cVarintSize(value) }

// StreamKind is the kind of a unidirectional stream: one of StreamControl and the others, or a reserved type, 0x21 +
// 0x1f * n, after which what follows is to be ignored (RFC 9114, section 6.2.3).
type StreamKind uint64

// StreamHeader is the header of a unidirectional stream (RFC 9114, section 6.2; draft-ietf-webtrans-http3-02,
// section 4.1).
type StreamHeader struct {
	Kind StreamKind
	// Session is the session ID of a StreamWebTransport, and otherwise 0.
	Session uint64
}

// ReadStreamHeader returns the header at the start of a stream, and its size.
//
// The error is [ErrMore] if there are too few bytes, H3StreamCreationError for an unknown type, after which the
// stream alone is no longer read, or H3IDError for an invalid session ID.
func ReadStreamHeader(bytes []byte) (header StreamHeader, size int, err error) {
	kind, session, size, err := cStreamHeaderRead(bytes)
	if err != nil {
		return StreamHeader{}, 0, err
	}
	return StreamHeader{StreamKind(kind), session}, size, nil
}

// Append appends the header. The error is [ErrInvalid] if the kind is none, if the session of a StreamWebTransport
// is not one, or if that of another stream is not 0.
func (header StreamHeader) Append(out []byte) ([]byte, error) {
	return cStreamHeaderWrite(out, uint64(header.Kind), header.Session)
}

// Datagram is a datagram of a session (RFC 9297, section 2.1).
type Datagram struct {
	Session uint64
	Payload []byte
}

// ReadDatagram reads the payload of a QUIC datagram, which the Payload is a part of. [Connection.Datagram] does so
// by the rules of a connection. The error is H3DatagramError.
func ReadDatagram(bytes []byte) (Datagram, error) {
	session, offset, err := cDatagramRead(bytes)
	if err != nil {
		return Datagram{}, err
	}
	return Datagram{session, bytes[offset:]}, nil
}

// Append appends the datagram. The error is [ErrInvalid] if the number is not that of a session.
func (datagram Datagram) Append(out []byte) ([]byte, error) {
	return cDatagramWrite(out, datagram.Session, datagram.Payload)
}

// AppendDatagramHead appends what comes before the payload of a datagram, so that the payload need not be copied.
func AppendDatagramHead(out []byte, session uint64) ([]byte, error) {
	return cDatagramWriteHead(out, session)
}

// FrameKind is the type of a frame: one of FrameData and the others, or a reserved type, 0x21 + 0x1f * n, which is to
// be ignored (RFC 9114, section 7.2.8).
type FrameKind uint64

// AppendFrame appends a frame with a payload. The error is [ErrInvalid] if the kind is FrameWebTransport, or any
// other that is neither named nor reserved.
func AppendFrame(out []byte, kind FrameKind, payload []byte) ([]byte, error) {
	return cFrameWrite(out, uint64(kind), payload)
}

// AppendFrameHead appends what comes before the payload of a frame, its type and the length of its payload, so that
// the payload need not be copied. The error is that of AppendFrame, and [ErrInvalid] if the length is 2^62 or more.
func AppendFrameHead(out []byte, kind FrameKind, length uint64) ([]byte, error) {
	return cFrameWriteHead(out, uint64(kind), length)
}

// AppendWebTransport appends the frame at the start of a bidirectional stream of a session. The error is
// [ErrInvalid] if the number is not that of a session.
func AppendWebTransport(out []byte, session uint64) ([]byte, error) {
	return cSessionFrameWrite(out, session)
}

// StreamRole is the role of a stream whose frames are read: one of RoleBiRemote and the others.
type StreamRole uint8

// Frame is a frame that was read. Its payload is a part of the bytes that were passed.
type Frame struct {
	Kind FrameKind
	// Session is the session ID of a FrameWebTransport, and otherwise 0.
	Session uint64
	Payload []byte
}

// FrameCursor is the state of an incremental frame reader. It stores no bytes: the caller passes those that were not
// consumed again, followed by new ones.
type FrameCursor struct{ state cReader }

// NewFrameCursor creates a cursor at the start of a stream with this role, which is one of RoleBiRemote and the
// others; another one panics.
func NewFrameCursor(role StreamRole) *FrameCursor {
	state, ok := cReaderNew(role)
	if !ok {
		panic("vesgrauf: a stream has no such role")
	}
	return &FrameCursor{state}
}

// Next finds the next frame in the bytes after those consumed before, and returns it and how many bytes are
// consumed. Unknown frames are skipped, even if they arrive in parts. After a FrameWebTransport all bytes are the
// application's: do not pass them.
//
// Which frame may follow which is for the caller to check, as that HEADERS come before DATA; only a
// FrameWebTransport has to be the first.
//
// The error is [ErrMore] if more bytes are needed: those that were not consumed, at most MaxFrameRest, are to be
// passed again. Otherwise it is a [Code]: H3FrameUnexpected and H3FrameError for a frame that is not permitted here,
// H3IDError for an invalid session ID, and H3ExcessiveLoad for a payload above MaxFramePayload bytes. The cursor is
// then unchanged, and no byte is consumed.
func (cursor *FrameCursor) Next(bytes []byte) (frame Frame, consumed int, err error) {
	found, consumed, err := cReadFrame(&cursor.state, bytes)
	if err == nil {
		payload := bytes[found.offset : found.offset+found.length]
		frame = Frame{FrameKind(found._type), uint64(found.session), payload}
	}
	return frame, consumed, err
}

// Finish checks that the stream may end after rest, the bytes that were not consumed. The error is H3FrameError if a
// frame has begun.
func (cursor *FrameCursor) Finish(rest []byte) error { return cReadEnd(&cursor.state, rest) }

// CapsuleCursor is the state of an incremental reader of capsules (RFC 9297, section 3.2), from the payloads of a
// stream's DATA frames. It stores no bytes. Its zero value is at the first capsule of a stream's data.
type CapsuleCursor struct{ state cCapsuleReader }

// Next finds the next capsule that closes a session in the bytes after those consumed before, and returns its value
// and how many bytes are consumed. Others are skipped, even if they arrive in parts.
//
// The error is [ErrMore] if more bytes are needed: those that were not consumed, at most MaxCapsuleRest, are to be
// passed again. Otherwise it is H3DatagramError, for a value above MaxCapsuleValue bytes.
func (cursor *CapsuleCursor) Next(bytes []byte) (value []byte, consumed int, err error) {
	length, consumed, err := cCapsuleRead(&cursor.state, bytes)
	if err == nil {
		value = bytes[consumed-length : consumed]
	}
	return value, consumed, err
}

// Finish checks that the data may end after rest, the bytes that were not consumed. The error is H3MessageError if a
// capsule has begun (RFC 9297, section 3.3).
func (cursor *CapsuleCursor) Finish(rest []byte) error { return cCapsuleEnd(&cursor.state, rest) }

// CloseWebTransportSession closes a session, with an error code and a reason of the application
// (draft-ietf-webtrans-http3-02, section 5).
type CloseWebTransportSession struct {
	Code   uint32
	Reason string
}

// ReadClose reads the value of such a capsule. The error is H3DatagramError if it has fewer than 4 or more than 1028
// bytes, or a reason that is not UTF-8.
func ReadClose(value []byte) (CloseWebTransportSession, error) {
	code, err := cCloseRead(value)
	if err != nil {
		return CloseWebTransportSession{}, err
	}
	return CloseWebTransportSession{code, string(value[4:])}, nil
}

// Append appends the capsule. It is the last of the payloads of DATA frames on the session's stream, after which the
// own half of the stream ends. The error is [ErrInvalid] if the reason is not UTF-8 or has more than MaxCloseReason
// bytes, and [ErrMemory].
func (closing CloseWebTransportSession) Append(out []byte) ([]byte, error) {
	return cCloseWrite(out, closing.Code, []byte(closing.Reason))
}
