package vesgrauf

// The calls that send.

/*
#include <wtransport.h>
*/
import "C"

import "fmt"

// unsent returns the error that an answer and its reason mean. invalid is that of WT_INVALID, and nil where the
// library rejects nothing but states that it did not make.
func unsent(answer C.int, why C.uint32_t, invalid error) error {
	switch {
	case answer == answerOK:
		return nil
	case answer == answerRefused && why >= C.WT_SEND_UNEXPECTED:
		return SendError(why)
	case answer == answerRefused:
		return Malformed(why)
	case answer == answerMemory:
		return ErrMemory
	case answer == answerInvalid && invalid != nil:
		return invalid
	}
	panic(fmt.Sprintf("libwtransport returned %d", answer))
}

// send appends what a call writes, as appendBy does it.
func send(
	out []byte, guess int, invalid error, call func(to []byte, used *C.size_t, why *C.uint32_t) C.int,
) ([]byte, error) {
	var why C.uint32_t
	larger, answer := appendBy(out, guess, func(to []byte, used *C.size_t) C.int { return call(to, used, &why) })
	return larger, unsent(answer, why, invalid)
}

func cSendReasonName(why uint32) string {
	return name(func(to []byte, used *C.size_t) C.int {
		return C.wt_send_reason_name(C.uint32_t(why), startOfText(to), size(to), used)
	})
}

func cControlNew(c *Connection, state *cControl) { expectOK(C.wt_control_new(&c.state, state)) }

func cControlSettings(state *cControl, out []byte, settings Settings) ([]byte, error) {
	list := settings.c()
	return send(out, 64, ErrInvalid, func(to []byte, used *C.size_t, why *C.uint32_t) C.int {
		return C.wt_control_settings(state, &list[0], C.size_t(len(settings)), start(to), size(to), used, why)
	})
}

func cControlGoaway(state *cControl, out []byte, id uint64) ([]byte, error) {
	return send(out, 10, SendInvalidID, func(to []byte, used *C.size_t, why *C.uint32_t) C.int {
		return C.wt_control_goaway(state, C.uint64_t(id), start(to), size(to), used, why)
	})
}

func cSendingRequest(c *Connection, id uint64, state *cSending) error {
	var why C.uint32_t
	return unsent(C.wt_sending_request(&c.state, C.uint64_t(id), state, &why), why, ErrInvalidID)
}

func cSendingResponse(c *Connection, id uint64, asked Asked, state *cSending) error {
	var why C.uint32_t
	answer := C.wt_sending_response(&c.state, C.uint64_t(id), C.uint32_t(asked), state, &why)
	return unsent(answer, why, ErrInvalidID)
}

func cSendingHeaders(state *cSending, out []byte, list FieldList) ([]byte, error) {
	fields, texts := list.parts()
	return send(out, len(texts)+64, nil, func(to []byte, used *C.size_t, why *C.uint32_t) C.int {
		return C.wt_sending_headers(state, startOfFields(fields), C.size_t(len(fields)), start(texts), size(texts),
			start(to), size(to), used, why)
	})
}

func cSendingTrailers(state *cSending, out []byte, list FieldList) ([]byte, error) {
	fields, texts := list.parts()
	return send(out, len(texts)+64, nil, func(to []byte, used *C.size_t, why *C.uint32_t) C.int {
		return C.wt_sending_trailers(state, startOfFields(fields), C.size_t(len(fields)), start(texts), size(texts),
			start(to), size(to), used, why)
	})
}

func cSendingData(state *cSending, out []byte, length uint64) ([]byte, error) {
	return send(out, 9, nil, func(to []byte, used *C.size_t, why *C.uint32_t) C.int {
		return C.wt_sending_data(state, C.uint64_t(length), start(to), size(to), used, why)
	})
}

func cSendingSent(state *cSending, length uint64) error {
	var why C.uint32_t
	return unsent(C.wt_sending_sent(state, C.uint64_t(length), &why), why, nil)
}

func cSendingOwed(state *cSending) uint64 {
	var owed C.uint64_t
	expectOK(C.wt_sending_owed(state, &owed))
	return uint64(owed)
}

func cSendingFinish(state *cSending) error {
	var why C.uint32_t
	return unsent(C.wt_sending_finish(state, &why), why, nil)
}

func cSendingConnected(state *cSending) error {
	var why C.uint32_t
	return unsent(C.wt_sending_connected(state, &why), why, nil)
}

func cSendingUnidirectional(state *cSending, out []byte) ([]byte, error) {
	return send(out, 10, nil, func(to []byte, used *C.size_t, why *C.uint32_t) C.int {
		return C.wt_sending_unidirectional(state, start(to), size(to), used, why)
	})
}

func cSendingBidirectional(state *cSending, out []byte) ([]byte, error) {
	return send(out, 10, nil, func(to []byte, used *C.size_t, why *C.uint32_t) C.int {
		return C.wt_sending_bidirectional(state, start(to), size(to), used, why)
	})
}

func cSendingDatagram(state *cSending, out []byte) ([]byte, error) {
	return send(out, 8, nil, func(to []byte, used *C.size_t, why *C.uint32_t) C.int {
		return C.wt_sending_datagram(state, start(to), size(to), used, why)
	})
}

func cSendingDrain(state *cSending, out []byte) ([]byte, error) {
	return send(out, 7, nil, func(to []byte, used *C.size_t, why *C.uint32_t) C.int {
		return C.wt_sending_drain(state, start(to), size(to), used, why)
	})
}

func cSendingClose(state *cSending, out []byte, code uint32, reason []byte) ([]byte, error) {
	return send(out, len(reason)+16, ErrInvalid, func(to []byte, used *C.size_t, why *C.uint32_t) C.int {
		return C.wt_sending_close(state, C.uint32_t(code), start(reason), size(reason), start(to), size(to), used, why)
	})
}
