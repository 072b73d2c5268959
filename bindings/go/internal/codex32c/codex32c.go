// Package codex32c calls the functions of codex32.h, with Go's types, and wipes the stack behind each. Each returns the number
// of a refusal, or 0.
package codex32c

/*
#cgo CFLAGS: -O2 -I${SRCDIR} -I${SRCDIR}/../../../../dist
#include "codex32.h"

// A call, and then zeros on the stack that it used.
#define WIPED(call)          \
    uint32_t number = call;  \
    codex32_wipe_stack();    \
    return number

static uint32_t go_parse(const uint8_t *text, size_t text_length, uint32_t *threshold, uint32_t *share_index,
                         size_t *payload_length) {
    WIPED(codex32_parse(text, text_length, threshold, share_index, payload_length));
}

static uint32_t go_encode(uint32_t threshold, const uint8_t *identifier, size_t identifier_length,
                          uint32_t share_index, const uint8_t *bytes, size_t bytes_length, uint8_t *text,
                          size_t text_room, size_t *text_length) {
    WIPED(codex32_encode(threshold, identifier, identifier_length, share_index, bytes, bytes_length, text, text_room,
                         text_length));
}

static uint32_t go_encode_payload(uint32_t threshold, const uint8_t *identifier, size_t identifier_length,
                                  uint32_t share_index, const uint8_t *payload, size_t payload_length, uint8_t *text,
                                  size_t text_room, size_t *text_length) {
    WIPED(codex32_encode_payload(threshold, identifier, identifier_length, share_index, payload, payload_length, text,
                                 text_room, text_length));
}

static uint32_t go_share(const uint8_t *text, size_t length, uint32_t *threshold, uint8_t *identifier, uint32_t *index,
                         uint8_t *bytes, size_t room, size_t *count) {
    WIPED(codex32_share(text, length, threshold, identifier, index, bytes, room, count));
}

static uint32_t go_derive(uint32_t index, const uint8_t *texts, size_t all, const size_t *lengths, size_t count,
                          uint8_t *text, size_t room, size_t *length) {
    WIPED(codex32_derive(index, texts, all, lengths, count, text, room, length));
}

static uint32_t go_split(uint32_t threshold, const uint8_t *identifier, size_t identifier_length,
                         const uint8_t *secret, size_t secret_length, const uint8_t *random, size_t random_length,
                         size_t count, uint8_t *texts, size_t room, size_t *length) {
    WIPED(codex32_split(threshold, identifier, identifier_length, secret, secret_length, random, random_length, count,
                        texts, room, length));
}

static uint32_t go_recover(const uint8_t *texts, size_t all, const size_t *lengths, size_t count, uint8_t *bytes,
                           size_t room, size_t *length) {
    WIPED(codex32_recover(texts, all, lengths, count, bytes, room, length));
}

// Memory that is lent begins at a multiple of 16.
static uint32_t go_propose(int is_long, const uint8_t *text, size_t length, uint8_t *start, size_t size,
                           uint8_t *proposed, size_t room, size_t *proposed_length) {
    size_t left_out = (0u - (uintptr_t)start) % 16u;
    codex32_memory memory = {start + left_out, size - left_out};
    WIPED((is_long ? codex32_propose_long : codex32_propose)(text, length, &memory, proposed, room, proposed_length));
}

static size_t go_memory(size_t length) { return CODEX32_MEMORY(length) + 15u; }

static void go_wipe(uint8_t *bytes, size_t length) { codex32_wipe(bytes, length); }
*/
import "C"

import "unsafe"

// Sizes and numbers of codex32.h.
const (
	TextSize         = C.CODEX32_TEXT_SIZE
	BytesSize        = C.CODEX32_BYTES_SIZE
	MaxShares        = C.CODEX32_MAX_SHARES
	MaxSplit         = C.CODEX32_MAX_SPLIT
	IdentifierAt     = C.CODEX32_IDENTIFIER_AT
	IdentifierLength = C.CODEX32_IDENTIFIER_LENGTH
	PayloadAt        = C.CODEX32_PAYLOAD_AT
	NoNearest        = C.CODEX32_NO_NEAREST
)

func first(bytes []byte) *C.uint8_t {
	if len(bytes) == 0 {
		return nil
	}
	return (*C.uint8_t)(unsafe.Pointer(&bytes[0]))
}

func lengthOf(bytes []byte) C.size_t { return C.size_t(len(bytes)) }

// Message returns the sentence of a refusal.
func Message(number uint32) string {
	var message [C.CODEX32_MAX_MESSAGE]byte
	var length C.size_t
	C.codex32_message(C.uint32_t(number), first(message[:]), C.size_t(len(message)), &length)
	return string(message[:length])
}

// Version returns the version of the library.
func Version() uint32 { return uint32(C.codex32_version()) }

// Wipe fills bytes with zeros.
func Wipe(bytes []byte) { C.go_wipe(first(bytes), lengthOf(bytes)) }

// Parse calls codex32_parse, and returns threshold, shareIndex and payloadLength.
func Parse(text []byte) (uint32, uint32, int, uint32) {
	var payloadLength C.size_t
	var threshold, shareIndex C.uint32_t
	number := C.go_parse(first(text), C.size_t(len(text)), &threshold, &shareIndex, &payloadLength)
	return uint32(threshold), uint32(shareIndex), int(payloadLength), uint32(number)
}

// Encode calls codex32_encode, and returns text.
func Encode(threshold uint32, identifier []byte, shareIndex uint32, bytes []byte) ([]byte, uint32) {
	text := make([]byte, TextSize)
	var textLength C.size_t
	number := C.go_encode(C.uint32_t(threshold), first(identifier), C.size_t(len(identifier)),
		C.uint32_t(shareIndex), first(bytes), C.size_t(len(bytes)), first(text), TextSize, &textLength)
	return text[:textLength:textLength], uint32(number)
}

// EncodePayload calls codex32_encode_payload, and returns text.
func EncodePayload(threshold uint32, identifier []byte, shareIndex uint32, payload []byte) ([]byte, uint32) {
	text := make([]byte, TextSize)
	var textLength C.size_t
	number := C.go_encode_payload(C.uint32_t(threshold), first(identifier), C.size_t(len(identifier)),
		C.uint32_t(shareIndex), first(payload), C.size_t(len(payload)), first(text), TextSize, &textLength)
	return text[:textLength:textLength], uint32(number)
}

// Share calls codex32_share: threshold, identifier, share index and bytes.
func Share(text []byte) (uint32, string, uint32, []byte, uint32) {
	var threshold, index C.uint32_t
	var identifier [IdentifierLength]byte
	bytes := make([]byte, BytesSize)
	var count C.size_t
	number := C.go_share(first(text), lengthOf(text), &threshold, first(identifier[:]), &index, first(bytes), BytesSize,
		&count)
	return uint32(threshold), string(identifier[:]), uint32(index), bytes[:count:count], uint32(number)
}

// gathered has texts one behind another, and their lengths.
func gathered(texts [][]byte) ([]byte, []C.size_t) {
	size, lengths := 0, make([]C.size_t, len(texts))
	for at, text := range texts {
		size += len(text)
		lengths[at] = lengthOf(text)
	}
	all := make([]byte, 0, size)
	for _, text := range texts {
		all = append(all, text...)
	}
	return all, lengths
}

func firstSize(sizes []C.size_t) *C.size_t {
	if len(sizes) == 0 {
		return nil
	}
	return &sizes[0]
}

// Derive calls codex32_derive.
func Derive(index uint32, texts [][]byte) ([]byte, uint32) {
	all, lengths := gathered(texts)
	defer Wipe(all)
	text := make([]byte, TextSize)
	var length C.size_t
	number := C.go_derive(C.uint32_t(index), first(all), lengthOf(all), firstSize(lengths), C.size_t(len(lengths)),
		first(text), TextSize, &length)
	return text[:length:length], uint32(number)
}

// Recover calls codex32_recover.
func Recover(texts [][]byte) ([]byte, uint32) {
	all, lengths := gathered(texts)
	defer Wipe(all)
	bytes := make([]byte, BytesSize)
	var length C.size_t
	number := C.go_recover(first(all), lengthOf(all), firstSize(lengths), C.size_t(len(lengths)), first(bytes), BytesSize,
		&length)
	return bytes[:length:length], uint32(number)
}

// Split calls codex32_split: the shares, each with its own memory.
func Split(threshold uint32, identifier, secret, random []byte, count int) ([][]byte, uint32) {
	texts := make([]byte, MaxSplit*TextSize)
	defer Wipe(texts)
	var length C.size_t
	number := C.go_split(C.uint32_t(threshold), first(identifier), lengthOf(identifier), first(secret), lengthOf(secret),
		first(random), lengthOf(random), C.size_t(count), first(texts), lengthOf(texts), &length)
	if number != 0 {
		return nil, uint32(number)
	}
	shares := make([][]byte, count)
	for at := range shares {
		shares[at] = append(make([]byte, 0, length), texts[at*int(length):(at+1)*int(length)]...)
	}
	return shares, 0
}

// Propose calls codex32_propose, or codex32_propose_long.
func Propose(isLong bool, text []byte) ([]byte, uint32) {
	memory := make([]byte, C.go_memory(lengthOf(text)))
	defer Wipe(memory)
	proposed := make([]byte, TextSize)
	var length C.size_t
	which := C.int(0)
	if isLong {
		which = 1
	}
	number := C.go_propose(which, first(text), lengthOf(text), first(memory), lengthOf(memory), first(proposed), TextSize,
		&length)
	return proposed[:length:length], uint32(number)
}
