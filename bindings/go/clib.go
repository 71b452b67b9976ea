package vesgrauf

// The calls of the C library: clib.go has what they share and the codec, clib_connections.go the calls that read a
// connection, and clib_sending.go those that send on it. This file has all code that uses unsafe. What makes the
// calls safe is that each pointer is that of a slice whose length goes with it, or of one value; that the structs
// hold plain numbers and no pointers; that what a call writes is in memory of its own; and that the library keeps no
// pointer.

/*
#cgo !wtransport_static pkg-config: wtransport
#cgo wtransport_static LDFLAGS: -l:libwtransport.a
#include <wtransport.h>
#if WT_VERSION_NUMBER < 0x000800 || WT_VERSION_NUMBER >= 0x010000
#error "this package is for libwtransport from 0.8 on, below 1"
#endif
*/
import "C"

import (
	"fmt"
	"unsafe"
)

// The structs of the library.
type (
	cConnection    = C.wt_connection
	cStream        = C.wt_stream
	cEvent         = C.wt_event
	cField         = C.wt_field
	cHold          = C.wt_hold
	cReader        = C.wt_reader
	cCapsuleReader = C.wt_capsule_reader
	cBudget        = C.wt_request_budget
	cSending       = C.wt_sending
	cControl       = C.wt_control
)

// The answers of calls.
const (
	answerOK             = C.WT_OK
	answerMore           = C.WT_MORE
	answerError          = C.WT_ERROR
	answerBufferTooSmall = C.WT_BUFFER_TOO_SMALL
	answerInvalid        = C.WT_INVALID
	answerMemory         = C.WT_MEMORY
	answerRefused        = C.WT_REFUSED
)

func start(bytes []byte) *C.uint8_t {
	if len(bytes) == 0 {
		return nil
	}
	return (*C.uint8_t)(unsafe.Pointer(&bytes[0]))
}

func startOfText(text []byte) *C.char {
	return (*C.char)(unsafe.Pointer(start(text)))
}

func startOfFields(fields []cField) *cField {
	if len(fields) == 0 {
		return nil
	}
	return &fields[0]
}

func size(bytes []byte) C.size_t {
	return C.size_t(len(bytes))
}

func flag(is bool) C.uint8_t {
	if is {
		return 1
	}
	return 0
}

// expectOK panics if the library rejects a state that it made.
func expectOK(answer C.int) {
	if answer != answerOK {
		panic(fmt.Sprintf("libwtransport rejected a state of its own: %d", answer))
	}
}

// grow returns out with room for at least more bytes after its length.
func grow(out []byte, more int) []byte {
	if cap(out)-len(out) >= more {
		return out
	}
	larger := make([]byte, len(out), len(out)+more+len(out)/2)
	copy(larger, out)
	return larger
}

// appendBy appends what a call writes into the room that it is given. guess is how many bytes it is likely to
// write. With an answer other than WT_OK, out is unchanged.
func appendBy(out []byte, guess int, call func(to []byte, used *C.size_t) C.int) ([]byte, C.int) {
	larger := grow(out, guess)
	for {
		room := larger[len(larger):cap(larger)]
		var used C.size_t
		switch answer := call(room, &used); answer {
		case answerOK:
			return larger[:len(larger)+int(used)], answerOK
		case answerBufferTooSmall:
			larger = grow(larger, int(used))
		default:
			return out, answer
		}
	}
}

// written returns what is appended and the error that an answer means.
func written(out []byte, answer C.int) ([]byte, error) {
	switch answer {
	case answerOK:
		return out, nil
	case answerInvalid:
		return out, ErrInvalid
	case answerMemory:
		return out, ErrMemory
	}
	panic(fmt.Sprintf("libwtransport returned %d", answer))
}

// readError returns the error that an answer of a call that reads means.
func readError(answer C.int, code C.uint64_t) error {
	switch answer {
	case answerOK:
		return nil
	case answerMore:
		return ErrMore
	case answerError:
		return Code(code)
	case answerMemory:
		return ErrMemory
	}
	panic(fmt.Sprintf("libwtransport returned %d", answer))
}

// name returns the name that a call writes, or "" if there is none.
func name(call func(to []byte, used *C.size_t) C.int) string {
	text, answer := appendBy(nil, 64, call)
	if answer != answerOK {
		return ""
	}
	return string(text)
}

func cVersion() uint32 { return uint32(C.wt_version()) }

// ---- The codec

func cVarintRead(bytes []byte) (uint64, int) {
	var value C.uint64_t
	var consumed C.size_t
	if C.wt_varint_read(start(bytes), size(bytes), &value, &consumed) != answerOK {
		return 0, 0
	}
	return uint64(value), int(consumed)
}

func cVarintWrite(out []byte, value uint64) ([]byte, error) {
	return written(appendBy(out, 8, func(to []byte, used *C.size_t) C.int {
		return C.wt_varint_write(C.uint64_t(value), start(to), size(to), used)
	}))
}

func cVarintSize(value uint64) int { return int(C.wt_varint_size(C.uint64_t(value))) }

func cStreamHeaderRead(bytes []byte) (kind, session uint64, consumed int, err error) {
	var header C.wt_stream_header
	var used C.size_t
	var code C.uint64_t
	answer := C.wt_stream_header_read(start(bytes), size(bytes), &used, &header, &code)
	return uint64(header._type), uint64(header.session), int(used), readError(answer, code)
}

func cStreamHeaderWrite(out []byte, kind, session uint64) ([]byte, error) {
	header := C.wt_stream_header{_type: C.uint64_t(kind), session: C.uint64_t(session)}
	return written(appendBy(out, 16, func(to []byte, used *C.size_t) C.int {
		return C.wt_stream_header_write(&header, start(to), size(to), used)
	}))
}

func cDatagramRead(bytes []byte) (session uint64, offset int, err error) {
	var its, code C.uint64_t
	var at C.size_t
	answer := C.wt_datagram_read(start(bytes), size(bytes), &its, &at, &code)
	return uint64(its), int(at), readError(answer, code)
}

func cDatagramWrite(out []byte, session uint64, payload []byte) ([]byte, error) {
	return written(appendBy(out, len(payload)+8, func(to []byte, used *C.size_t) C.int {
		return C.wt_datagram_write(C.uint64_t(session), start(payload), size(payload), start(to), size(to), used)
	}))
}

func cDatagramWriteHead(out []byte, session uint64) ([]byte, error) {
	return written(appendBy(out, 8, func(to []byte, used *C.size_t) C.int {
		return C.wt_datagram_write_head(C.uint64_t(session), start(to), size(to), used)
	}))
}

func cReaderNew(role StreamRole) (cReader, bool) {
	var reader cReader
	answer := C.wt_reader_new(C.uint8_t(role), &reader)
	return reader, answer == answerOK
}

func cReadFrame(reader *cReader, bytes []byte) (frame C.wt_frame, consumed int, err error) {
	var used C.size_t
	var code C.uint64_t
	answer := C.wt_read_frame(reader, start(bytes), size(bytes), &used, &frame, &code)
	return frame, int(used), readError(answer, code)
}

func cReadEnd(reader *cReader, rest []byte) error {
	var code C.uint64_t
	return readError(C.wt_read_end(reader, start(rest), size(rest), &code), code)
}

func cFrameWrite(out []byte, kind uint64, payload []byte) ([]byte, error) {
	return written(appendBy(out, len(payload)+16, func(to []byte, used *C.size_t) C.int {
		return C.wt_frame_write(C.uint64_t(kind), start(payload), size(payload), start(to), size(to), used)
	}))
}

func cFrameWriteHead(out []byte, kind, length uint64) ([]byte, error) {
	return written(appendBy(out, 16, func(to []byte, used *C.size_t) C.int {
		return C.wt_frame_write_head(C.uint64_t(kind), C.uint64_t(length), start(to), size(to), used)
	}))
}

func cSessionFrameWrite(out []byte, session uint64) ([]byte, error) {
	return written(appendBy(out, 16, func(to []byte, used *C.size_t) C.int {
		return C.wt_session_frame_write(C.uint64_t(session), start(to), size(to), used)
	}))
}

func cSettingsRead(payload []byte) (Settings, error) {
	// each setting has at least two bytes
	list := make([]C.wt_setting, len(payload)/2+1)
	var count C.size_t
	var code C.uint64_t
	answer := C.wt_settings_read(start(payload), size(payload), &list[0], C.size_t(len(list)), &count, &code)
	if err := readError(answer, code); err != nil {
		return nil, err
	}
	settings := make(Settings, count)
	for i, one := range list[:count] {
		settings[i] = Setting{SettingID(one.id), uint64(one.value)}
	}
	return settings, nil
}

func cSettingsWrite(out []byte, settings Settings) ([]byte, error) {
	list := settings.c()
	return written(appendBy(out, 64, func(to []byte, used *C.size_t) C.int {
		return C.wt_settings_write(&list[0], C.size_t(len(settings)), start(to), size(to), used)
	}))
}

// c returns settings as calls take them, with room for one more: there is a first one.
func (settings Settings) c() []C.wt_setting {
	list := make([]C.wt_setting, len(settings)+1)
	for i, one := range settings {
		list[i] = C.wt_setting{id: C.uint64_t(one.ID), value: C.uint64_t(one.Value)}
	}
	return list
}

func cSettingName(id SettingID) string {
	return name(func(to []byte, used *C.size_t) C.int {
		return C.wt_setting_name(C.uint64_t(id), startOfText(to), size(to), used)
	})
}

func cFieldsRead(section []byte) (FieldList, error) {
	fields, texts := make([]cField, 32), make([]byte, 2*len(section)+256)
	for {
		var count, used C.size_t
		var code C.uint64_t
		answer := C.wt_fields_read(start(section), size(section), startOfFields(fields), C.size_t(len(fields)),
			start(texts), size(texts), &count, &used, &code)
		if answer != answerBufferTooSmall {
			if err := readError(answer, code); err != nil {
				return nil, err
			}
			return fieldList(fields[:count], texts[:used]), nil
		}
		fields, texts = make([]cField, count), make([]byte, used)
	}
}

// fieldList returns the list of what a call found.
func fieldList(fields []cField, texts []byte) FieldList {
	list, all := make(FieldList, len(fields)), string(texts)
	for i, field := range fields {
		list[i] = Field{
			Name:  all[field.name_offset : field.name_offset+field.name_length],
			Value: all[field.value_offset : field.value_offset+field.value_length],
		}
	}
	return list
}

// parts returns a list as calls take it.
func (list FieldList) parts() ([]cField, []byte) {
	fields, texts := make([]cField, len(list)), []byte(nil)
	for i, field := range list {
		at := C.size_t(len(texts))
		texts = append(append(texts, field.Name...), field.Value...)
		fields[i] = cField{
			name_offset: at, name_length: C.size_t(len(field.Name)),
			value_offset: at + C.size_t(len(field.Name)), value_length: C.size_t(len(field.Value)),
		}
	}
	return fields, texts
}

func cFieldsWrite(out []byte, list FieldList) ([]byte, error) {
	fields, texts := list.parts()
	return written(appendBy(out, len(texts)+64, func(to []byte, used *C.size_t) C.int {
		return C.wt_fields_write(startOfFields(fields), C.size_t(len(fields)), start(texts), size(texts),
			start(to), size(to), used)
	}))
}

func cRequestWrite(out []byte, url []byte, list FieldList) ([]byte, error) {
	fields, texts := list.parts()
	return written(appendBy(out, len(texts)+len(url)+64, func(to []byte, used *C.size_t) C.int {
		return C.wt_request_write(start(url), size(url), startOfFields(fields), C.size_t(len(fields)),
			start(texts), size(texts), start(to), size(to), used)
	}))
}

func cRequestRead(section []byte) (authority, path string, err error) {
	var split C.size_t
	var code C.uint64_t
	text, answer := appendBy(nil, len(section), func(to []byte, used *C.size_t) C.int {
		return C.wt_request_read(start(section), size(section), start(to), size(to), &split, used, &code)
	})
	if err := readError(answer, code); err != nil {
		return "", "", err
	}
	return string(text[:split]), string(text[split:]), nil
}

func cRequestCheck(section []byte) (RequestFault, error) {
	var fault C.int
	var code C.uint64_t
	answer := C.wt_request_check(start(section), size(section), &fault, &code)
	return RequestFault(fault), readError(answer, code)
}

func cRequestFaultName(fault RequestFault) string {
	return name(func(to []byte, used *C.size_t) C.int {
		return C.wt_request_fault_name(C.int(fault), startOfText(to), size(to), used)
	})
}

func cResponseWrite(out []byte, status uint32, list FieldList) ([]byte, error) {
	fields, texts := list.parts()
	return written(appendBy(out, len(texts)+64, func(to []byte, used *C.size_t) C.int {
		return C.wt_response_write(C.uint32_t(status), startOfFields(fields), C.size_t(len(fields)),
			start(texts), size(texts), start(to), size(to), used)
	}))
}

func cResponseRead(section []byte) (uint32, error) {
	var status C.uint16_t
	var code C.uint64_t
	answer := C.wt_response_read(start(section), size(section), &status, &code)
	return uint32(status), readError(answer, code)
}

func cCapsuleRead(reader *cCapsuleReader, bytes []byte) (length, consumed int, err error) {
	var capsule C.wt_capsule
	var used C.size_t
	var code C.uint64_t
	answer := C.wt_capsule_read(reader, start(bytes), size(bytes), &used, &capsule, &code)
	return int(capsule.length), int(used), readError(answer, code)
}

func cCapsuleEnd(reader *cCapsuleReader, rest []byte) error {
	var code C.uint64_t
	return readError(C.wt_capsule_end(reader, start(rest), size(rest), &code), code)
}

func cCloseRead(value []byte) (uint32, error) {
	var its C.uint32_t
	var code C.uint64_t
	answer := C.wt_close_read(start(value), size(value), &its, &code)
	return uint32(its), readError(answer, code)
}

func cCloseWrite(out []byte, code uint32, reason []byte) ([]byte, error) {
	return written(appendBy(out, len(reason)+16, func(to []byte, used *C.size_t) C.int {
		return C.wt_close_write(C.uint32_t(code), start(reason), size(reason), start(to), size(to), used)
	}))
}

func cCodeName(code Code) string {
	return name(func(to []byte, used *C.size_t) C.int {
		return C.wt_code_name(C.uint64_t(code), startOfText(to), size(to), used)
	})
}

func cCodeScope(code Code) int { return int(C.wt_code_scope(C.uint64_t(code))) }

func cApplicationCodeTo(code uint32) Code {
	return Code(C.wt_application_code_to_http3(C.uint32_t(code)))
}

func cApplicationCodeFrom(number Code) (uint32, bool) {
	var code C.uint32_t
	answer := C.wt_application_code_from_http3(C.uint64_t(number), &code)
	return uint32(code), answer == answerOK
}

func cGoawayWrite(out []byte, side Side, id uint64, last *uint64) ([]byte, error) {
	its := C.uint64_t(*last)
	larger, answer := appendBy(out, 16, func(to []byte, used *C.size_t) C.int {
		return C.wt_goaway_write(C.uint8_t(side), C.uint64_t(id), &its, start(to), size(to), used)
	})
	*last = uint64(its)
	return written(larger, answer)
}

func (budget *RequestBudget) setExcess(excess uint64) { budget.state.excess = C.uint64_t(excess) }

func cRequestAnswered(budget *cBudget) { expectOK(C.wt_request_answered(budget)) }

func cRequestReset(budget *cBudget) error {
	var code C.uint64_t
	return readError(C.wt_request_reset(budget, &code), code)
}
