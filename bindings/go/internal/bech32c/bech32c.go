// Package bech32c calls the functions of bech32.h, with Go's types. Each returns the number of a refusal, or 0.
package bech32c

/*
#cgo CFLAGS: -O2 -I${SRCDIR} -I${SRCDIR}/../../../../dist
#include "bech32.h"

static const uint8_t *at(_GoString_ text) { return (const uint8_t *)_GoStringPtr(text); }

// Memory that is lent begins at a multiple of 16.
static bech32_memory lent(uint8_t *start, size_t size) {
    size_t left_out = (0u - (uintptr_t)start) % 16u;
    bech32_memory memory = {start, 0};
    if (size > left_out) {
        memory.start = start + left_out;
        memory.size = size - left_out;
    }
    return memory;
}

static uint32_t go_check(uint32_t checksum, _GoString_ text, size_t *hrp_length, size_t *data_length) {
    return bech32_check(checksum, at(text), _GoStringLen(text), hrp_length, data_length);
}

static uint32_t go_fault(uint32_t checksum, _GoString_ text, size_t *place) {
    return bech32_fault(checksum, at(text), _GoStringLen(text), place);
}

static uint32_t go_segwit_encode(_GoString_ hrp, uint32_t version, const uint8_t *program, size_t program_length,
                                 uint8_t *text, size_t text_room, size_t *text_length) {
    return bech32_segwit_encode(at(hrp), _GoStringLen(hrp), version, program, program_length, text, text_room,
                                text_length);
}

static uint32_t go_segwit_decode(_GoString_ text, uint8_t *hrp, size_t hrp_room, size_t *hrp_length,
                                 uint32_t *version, uint8_t *program, size_t program_room, size_t *program_length) {
    return bech32_segwit_decode(at(text), _GoStringLen(text), hrp, hrp_room, hrp_length, version, program,
                                program_room, program_length);
}

static uint32_t go_descriptor_checksum(_GoString_ text, uint8_t *checksum, size_t checksum_room,
                                       size_t *checksum_length, size_t *place) {
    return bech32_descriptor_checksum(at(text), _GoStringLen(text), checksum, checksum_room, checksum_length, place);
}

static uint32_t go_descriptor_check(_GoString_ text, size_t *place) {
    return bech32_descriptor_check(at(text), _GoStringLen(text), place);
}

static uint32_t go_encode(uint32_t checksum, _GoString_ hrp, const uint8_t *data, size_t length, uint8_t *text,
                          size_t room, size_t *text_length) {
    return bech32_encode(checksum, at(hrp), _GoStringLen(hrp), data, length, text, room, text_length);
}

static uint32_t go_decode(_GoString_ text, uint8_t *hrp, size_t hrp_room, size_t *hrp_length, uint8_t *data,
                          size_t room, size_t *length) {
    return bech32_decode(at(text), _GoStringLen(text), hrp, hrp_room, hrp_length, data, room, length);
}

static uint32_t go_decode_strict(uint32_t checksum, _GoString_ text, uint8_t *hrp, size_t hrp_room,
                                 size_t *hrp_length, uint8_t *data, size_t room, size_t *length) {
    return bech32_decode_strict(checksum, at(text), _GoStringLen(text), hrp, hrp_room, hrp_length, data, room,
                                length);
}

static uint32_t go_decode_elements(uint32_t checksum, _GoString_ text, uint8_t *hrp, size_t hrp_room,
                                   size_t *hrp_length, uint8_t *data, size_t room, size_t *length) {
    return bech32_decode_elements(checksum, at(text), _GoStringLen(text), hrp, hrp_room, hrp_length, data, room,
                                  length);
}

static uint32_t go_encode_elements(uint32_t checksum, _GoString_ hrp, const uint8_t *elements, size_t length,
                                   size_t *place, uint8_t *text, size_t room, size_t *text_length) {
    return bech32_encode_elements(checksum, at(hrp), _GoStringLen(hrp), elements, length, place, text, room,
                                  text_length);
}

static uint32_t go_correct(uint32_t checksum, _GoString_ text, const size_t *erasures, size_t count,
                           size_t *locations, uint8_t *values, size_t *found, uint8_t *mended, size_t room,
                           size_t *length) {
    return bech32_correct(checksum, at(text), _GoStringLen(text), erasures, count, locations, BECH32_MAX_LISTED,
                          values, BECH32_MAX_LISTED, found, mended, room, length);
}

static uint32_t go_nearest(uint32_t checksum, _GoString_ text, const size_t *erasures, size_t count, size_t errors,
                           uint8_t *start, size_t size, uint8_t *texts, size_t room, size_t *found) {
    bech32_memory memory = lent(start, size);
    return bech32_nearest(checksum, at(text), _GoStringLen(text), erasures, count, errors, &memory, texts, room,
                          found);
}

static uint32_t go_near_edits(uint32_t checksum, _GoString_ text, uint8_t *start, size_t size, uint8_t *kinds,
                              size_t *locations, size_t most, uint8_t *texts, size_t room, size_t *found) {
    bech32_memory memory = lent(start, size);
    return bech32_near_edits(checksum, at(text), _GoStringLen(text), &memory, kinds, most, locations, most, texts,
                             room, found);
}

static uint32_t go_suggest(_GoString_ text, _GoString_ hrp, uint8_t *start, size_t size, uint8_t *kinds,
                           size_t *places, size_t most, uint8_t *texts, size_t room, size_t *found) {
    bech32_memory memory = lent(start, size);
    return bech32_suggest(at(text), _GoStringLen(text), at(hrp), _GoStringLen(hrp), &memory, kinds, most, places,
                          most, texts, room, found);
}

static uint32_t go_liquid_encode(_GoString_ hrp, uint32_t version, const uint8_t *key, const uint8_t *program,
                                 size_t length, uint8_t *text, size_t room, size_t *text_length) {
    return bech32_liquid_encode(at(hrp), _GoStringLen(hrp), version, key, program, length, text, room, text_length);
}

static uint32_t go_liquid_decode(_GoString_ text, uint8_t *hrp, size_t hrp_room, size_t *hrp_length,
                                 uint32_t *version, uint8_t *key, uint8_t *program, size_t room, size_t *length) {
    return bech32_liquid_decode(at(text), _GoStringLen(text), hrp, hrp_room, hrp_length, version, key, program, room,
                                length);
}

static uint32_t go_liquid_nearest(_GoString_ text, const size_t *erasures, size_t count, size_t errors,
                                  uint8_t *start, size_t size, uint8_t *texts, size_t room, size_t *found) {
    bech32_memory memory = lent(start, size);
    return bech32_liquid_nearest(at(text), _GoStringLen(text), erasures, count, errors, &memory, texts, room, found);
}

static uint32_t go_descriptor_mend(_GoString_ text, size_t changed, uint8_t *start, size_t size, uint8_t *kinds,
                                   size_t *places, size_t most, uint8_t *texts, size_t room, size_t *found) {
    bech32_memory memory = lent(start, size);
    return bech32_descriptor_mend(at(text), _GoStringLen(text), changed, &memory, kinds, most, places, 2 * most,
                                  texts, room, found);
}

static uint32_t go_descriptor_mend_two(_GoString_ text, uint8_t *start, size_t size, size_t *places, size_t most,
                                       uint8_t *texts, size_t room, size_t *found) {
    bech32_memory memory = lent(start, size);
    return bech32_descriptor_mend_two(at(text), _GoStringLen(text), &memory, places, 2 * most, texts, room, found);
}

// A column, of which Go's memory is pinned for a call.
static bech32_column column_of(const uint8_t *bytes, size_t length, const void *offsets, size_t offsets_length,
                               const uint8_t *validity, size_t validity_length, size_t rows, uint32_t layout) {
    bech32_column column = {bytes, length, offsets, offsets_length, validity, validity_length, rows, 0, layout};
    return column;
}

static uint32_t go_check_many(uint32_t checksum, const uint8_t *bytes, size_t length, const void *offsets,
                              size_t offsets_length, const uint8_t *validity, size_t validity_length, size_t rows,
                              uint32_t layout, size_t first, uint8_t *numbers, size_t count) {
    bech32_column texts =
        column_of(bytes, length, offsets, offsets_length, validity, validity_length, rows, layout);
    return bech32_check_many(checksum, &texts, first, numbers, count);
}

static uint32_t go_segwit_decode_many(const uint8_t *bytes, size_t length, const void *offsets, size_t offsets_length,
                                      const uint8_t *validity, size_t validity_length, size_t rows, uint32_t layout,
                                      size_t first, _GoString_ hrp, uint8_t *numbers, size_t count, uint8_t *versions,
                                      uint8_t *hrp_lengths, int32_t *program_offsets, uint8_t *programs, size_t room,
                                      size_t *done) {
    bech32_column texts =
        column_of(bytes, length, offsets, offsets_length, validity, validity_length, rows, layout);
    return bech32_segwit_decode_many(&texts, first, at(hrp), _GoStringLen(hrp), numbers, count, versions, count,
                                     hrp_lengths, count, program_offsets, count + 1, programs, room, done);
}

static uint32_t go_segwit_encode_many(_GoString_ hrp, const uint8_t *versions, const uint8_t *bytes, size_t length,
                                      const void *offsets, size_t offsets_length, const uint8_t *validity,
                                      size_t validity_length, size_t rows, uint32_t layout, size_t first,
                                      uint8_t *numbers, size_t count, int32_t *text_offsets, uint8_t *texts,
                                      size_t room, size_t *done) {
    bech32_column programs =
        column_of(bytes, length, offsets, offsets_length, validity, validity_length, rows, layout);
    return bech32_segwit_encode_many(at(hrp), _GoStringLen(hrp), versions, count, &programs, first, numbers, count,
                                     text_offsets, count + 1, texts, room, done);
}

// The macros of memory that suffices, as functions.
static size_t go_nearest_memory(size_t length) { return BECH32_NEAREST_FEW_MEMORY(length); }
static size_t go_nearest_texts(size_t length) { return BECH32_NEAREST_FEW_TEXTS(length); }
static size_t go_near_edits_memory(size_t length) { return BECH32_NEAR_EDITS_MEMORY(length); }
static size_t go_liquid_memory(size_t length) { return BECH32_LIQUID_NEAREST_MEMORY(length); }
static size_t go_mend_memory(size_t length) { return BECH32_DESCRIPTOR_MEND_MEMORY(length); }
static size_t go_mend_two_memory(size_t length) { return BECH32_DESCRIPTOR_TWO_MEMORY(length); }
*/
import "C"

import "unsafe"

// Sizes and numbers of bech32.h.
const (
	MaxText           = C.BECH32_MAX_TEXT
	MaxHRP            = C.BECH32_MAX_HRP
	MaxBytes          = C.BECH32_MAX_BYTES
	MaxElements       = C.BECH32_MAX_ELEMENTS
	MaxLongText       = C.BECH32_MAX_LONG_TEXT
	MaxLongBytes      = C.BECH32_MAX_LONG_BYTES
	MaxLongElements   = C.BECH32_MAX_LONG_ELEMENTS
	MaxAddress        = C.BECH32_MAX_SEGWIT_TEXT
	MaxProgram        = C.BECH32_MAX_SEGWIT_PROGRAM
	MaxListed         = C.BECH32_MAX_LISTED
	MaxErrors         = C.BECH32_MAX_ERRORS
	MaxLiquidText     = C.BECH32_MAX_LIQUID_TEXT
	MaxLiquidProgram  = C.BECH32_MAX_LIQUID_PROGRAM
	LiquidKeyLength   = C.BECH32_LIQUID_KEY_LENGTH
	MaxLiquidErrors   = C.BECH32_MAX_LIQUID_ERRORS
	DescriptorLength  = C.BECH32_DESCRIPTOR_CHECKSUM
	MaxDescriptor     = C.BECH32_MAX_DESCRIPTOR
	MaxDescriptorTwo  = C.BECH32_MAX_DESCRIPTOR_TWO
	Suggestions       = C.BECH32_SUGGESTIONS
	NearEditsLeast    = C.BECH32_NEAR_EDITS
	Alphabet          = C.BECH32_ALPHABET
	FirstLongChecksum = C.BECH32_LONG_BECH32
)

// What an edit does.
const (
	Unchanged = C.BECH32_UNCHANGED
	Swapped   = C.BECH32_SWAPPED
	LeftOut   = C.BECH32_LEFT_OUT
	PutIn     = C.BECH32_PUT_IN
	Replaced  = C.BECH32_REPLACED
)

// Refusals that the packages look at.
const (
	NoCorrection    = C.BECH32_NO_CORRECTION
	NoMemory        = C.BECH32_NO_MEMORY
	NoRoom          = C.BECH32_NO_ROOM
	BadElement      = C.BECH32_BAD_ELEMENT
	NotInDescriptor = C.BECH32_NOT_IN_DESCRIPTOR
	NoBlindingKey   = C.BECH32_NO_BLINDING_KEY
	BadNumber       = C.BECH32_BAD_NUMBER
)

func first(bytes []byte) *C.uint8_t {
	if len(bytes) == 0 {
		return nil
	}
	return (*C.uint8_t)(unsafe.Pointer(&bytes[0]))
}

func firstSize(sizes []C.size_t) *C.size_t {
	if len(sizes) == 0 {
		return nil
	}
	return &sizes[0]
}

func sizesOf(numbers []int) []C.size_t {
	sizes := make([]C.size_t, len(numbers))
	for at, number := range numbers {
		sizes[at] = C.size_t(number)
	}
	return sizes
}

func intsOf(sizes []C.size_t) []int {
	numbers := make([]int, len(sizes))
	for at, size := range sizes {
		numbers[at] = int(size)
	}
	return numbers
}

// Message returns the sentence of a refusal.
func Message(number uint32) string {
	var message [C.BECH32_MAX_MESSAGE]byte
	var length C.size_t
	C.bech32_message(C.uint32_t(number), first(message[:]), C.size_t(len(message)), &length)
	return string(message[:length])
}

// Version returns the version of the library.
func Version() uint32 { return uint32(C.bech32_version()) }

// Check calls bech32_check, and returns hrpLength and dataLength.
func Check(checksum uint32, text string) (int, int, uint32) {
	var hrpLength, dataLength C.size_t
	number := C.go_check(C.uint32_t(checksum), text, &hrpLength, &dataLength)
	return int(hrpLength), int(dataLength), uint32(number)
}

// Fault calls bech32_fault, and returns place.
func Fault(checksum uint32, text string) (int, uint32) {
	var place C.size_t
	number := C.go_fault(C.uint32_t(checksum), text, &place)
	return int(place), uint32(number)
}

// SegwitEncode calls bech32_segwit_encode, and returns text.
func SegwitEncode(hrp string, version uint32, program []byte) (string, uint32) {
	var text [MaxAddress]byte
	var textLength C.size_t
	number := C.go_segwit_encode(hrp, C.uint32_t(version), first(program), C.size_t(len(program)), first(text[:]),
		MaxAddress, &textLength)
	return string(text[:textLength]), uint32(number)
}

// SegwitDecode calls bech32_segwit_decode, and returns hrp, version and program.
func SegwitDecode(text string) (string, uint32, []byte, uint32) {
	var hrp [MaxHRP]byte
	program := make([]byte, MaxProgram)
	var hrpLength, programLength C.size_t
	var version C.uint32_t
	number := C.go_segwit_decode(text, first(hrp[:]), MaxHRP, &hrpLength, &version, first(program), MaxProgram,
		&programLength)
	return string(hrp[:hrpLength]), uint32(version), program[:programLength:programLength], uint32(number)
}

// DescriptorChecksum calls bech32_descriptor_checksum, and returns checksum and place.
func DescriptorChecksum(text string) (string, int, uint32) {
	var checksum [DescriptorLength]byte
	var checksumLength, place C.size_t
	number := C.go_descriptor_checksum(text, first(checksum[:]), DescriptorLength, &checksumLength, &place)
	return string(checksum[:checksumLength]), int(place), uint32(number)
}

// DescriptorCheck calls bech32_descriptor_check, and returns place.
func DescriptorCheck(text string) (int, uint32) {
	var place C.size_t
	number := C.go_descriptor_check(text, &place)
	return int(place), uint32(number)
}

// Encode calls bech32_encode, with room for every text.
func Encode(checksum uint32, hrp string, data []byte) (string, uint32) {
	text := make([]byte, min(len(hrp)+7+(8*len(data)+4)/5, MaxLongText))
	var length C.size_t
	number := C.go_encode(C.uint32_t(checksum), hrp, first(data), C.size_t(len(data)), first(text),
		C.size_t(len(text)), &length)
	return string(text[:length]), uint32(number)
}

// EncodeElements calls bech32_encode_elements. The place is that of an element above 31.
func EncodeElements(checksum uint32, hrp string, elements []byte) (string, int, uint32) {
	text := make([]byte, min(len(hrp)+7+len(elements), MaxLongText))
	var length, place C.size_t
	number := C.go_encode_elements(C.uint32_t(checksum), hrp, first(elements), C.size_t(len(elements)), &place,
		first(text), C.size_t(len(text)), &length)
	return string(text[:length]), int(place), uint32(number)
}

// Decode calls bech32_decode.
func Decode(text string) (string, []byte, uint32) {
	var hrp [MaxHRP]byte
	data := make([]byte, min(5*len(text)/8, MaxBytes))
	var hrpLength, length C.size_t
	number := C.go_decode(text, first(hrp[:]), MaxHRP, &hrpLength, first(data), C.size_t(len(data)), &length)
	return string(hrp[:hrpLength]), data[:length:length], uint32(number)
}

// DecodeStrict calls bech32_decode_strict.
func DecodeStrict(checksum uint32, text string) (string, []byte, uint32) {
	var hrp [MaxHRP]byte
	data := make([]byte, min(5*len(text)/8, MaxLongBytes))
	var hrpLength, length C.size_t
	number := C.go_decode_strict(C.uint32_t(checksum), text, first(hrp[:]), MaxHRP, &hrpLength, first(data),
		C.size_t(len(data)), &length)
	return string(hrp[:hrpLength]), data[:length:length], uint32(number)
}

// DecodeElements calls bech32_decode_elements.
func DecodeElements(checksum uint32, text string) (string, []byte, uint32) {
	var hrp [MaxHRP]byte
	elements := make([]byte, min(len(text), MaxLongElements))
	var hrpLength, length C.size_t
	number := C.go_decode_elements(C.uint32_t(checksum), text, first(hrp[:]), MaxHRP, &hrpLength, first(elements),
		C.size_t(len(elements)), &length)
	return string(hrp[:hrpLength]), elements[:length:length], uint32(number)
}

// Correct calls bech32_correct: the mended text, and the locations and values of what was added.
func Correct(checksum uint32, text string, erasures []int) (string, []int, []byte, uint32) {
	var locations [MaxListed]C.size_t
	values := make([]byte, MaxListed)
	mended := make([]byte, min(len(text), MaxText))
	known := sizesOf(erasures)
	var count, length C.size_t
	number := C.go_correct(C.uint32_t(checksum), text, firstSize(known), C.size_t(len(known)), &locations[0],
		first(values), &count, first(mended), C.size_t(len(mended)), &length)
	return string(mended[:length]), intsOf(locations[:count]), values[:count], uint32(number)
}

// The most memory that a search is lent, 16 MiB. A text can need more (bech32.h): its search is refused then.
const mostMemory = 1 << 24

// found searches with more room for texts where there are more, and with more memory where it did not suffice. The
// texts, of a length each, are cut.
func found(memory, most, each int, search func(memory, texts []byte, count *C.size_t) C.uint32_t) ([]string, uint32) {
	for {
		texts := make([]byte, most*each)
		var count C.size_t
		number := uint32(search(make([]byte, memory+15), texts, &count))
		switch {
		case number == NoRoom:
			most = int(count)
		case number == NoMemory && memory < mostMemory:
			memory = min(2*memory, mostMemory)
		case number != 0:
			return nil, number
		default:
			listed := make([]string, count)
			for at := range listed {
				listed[at] = string(texts[at*each : (at+1)*each])
			}
			return listed, 0
		}
	}
}

// Nearest calls bech32_nearest.
func Nearest(checksum uint32, text string, erasures []int, errors int) ([]string, uint32) {
	known, length := sizesOf(erasures), C.size_t(min(len(text), MaxText))
	return found(int(C.go_nearest_memory(length)), int(C.go_nearest_texts(length)), len(text),
		func(memory, texts []byte, count *C.size_t) C.uint32_t {
			return C.go_nearest(C.uint32_t(checksum), text, firstSize(known), C.size_t(len(known)),
				C.size_t(errors), first(memory), C.size_t(len(memory)), first(texts), C.size_t(len(texts)), count)
		})
}

// LiquidNearest calls bech32_liquid_nearest.
func LiquidNearest(text string, erasures []int, errors int) ([]string, uint32) {
	known := sizesOf(erasures)
	return found(int(C.go_liquid_memory(C.size_t(min(len(text), MaxText)))), 8, len(text),
		func(memory, texts []byte, count *C.size_t) C.uint32_t {
			return C.go_liquid_nearest(text, firstSize(known), C.size_t(len(known)), C.size_t(errors), first(memory),
				C.size_t(len(memory)), first(texts), C.size_t(len(texts)), count)
		})
}

// Edited is a text, what was done to make it, and where, as the call says it.
type Edited struct {
	Text  string
	Kind  int
	Where []int
}

// editsFound searches like found, and cuts the texts by what was done.
func editsFound(memory, most, length, places int,
	search func(memory, kinds []byte, where []C.size_t, texts []byte, count *C.size_t) C.uint32_t) ([]Edited, uint32) {
	for {
		kinds, where := make([]byte, most), make([]C.size_t, places*most)
		texts := make([]byte, most*(length+1))
		var count C.size_t
		number := uint32(search(make([]byte, memory+15), kinds, where, texts, &count))
		switch {
		case number == NoRoom:
			most = int(count)
		case number == NoMemory && memory < mostMemory:
			memory = min(2*memory, mostMemory)
		case number != 0:
			return nil, number
		default:
			edits := make([]Edited, count)
			for at := range edits {
				size := length
				switch kinds[at] {
				case LeftOut:
					size--
				case PutIn:
					size++
				}
				edits[at] = Edited{string(texts[:size]), int(kinds[at]), intsOf(where[places*at : places*(at+1)])}
				texts = texts[size:]
			}
			return edits, 0
		}
	}
}

// NearEdits calls bech32_near_edits: locations are from the end.
func NearEdits(checksum uint32, text string) ([]Edited, uint32) {
	memory := int(C.go_near_edits_memory(C.size_t(min(len(text), MaxText))))
	return editsFound(memory, NearEditsLeast, len(text), 1,
		func(memory, kinds []byte, where []C.size_t, texts []byte, count *C.size_t) C.uint32_t {
			return C.go_near_edits(C.uint32_t(checksum), text, first(memory), C.size_t(len(memory)), first(kinds),
				firstSize(where), C.size_t(len(kinds)), first(texts), C.size_t(len(texts)), count)
		})
}

// Suggest calls bech32_suggest: places are from the front.
func Suggest(text, hrp string) ([]Edited, uint32) {
	return editsFound(C.BECH32_SUGGEST_MEMORY, Suggestions, len(text), 1,
		func(memory, kinds []byte, where []C.size_t, texts []byte, count *C.size_t) C.uint32_t {
			return C.go_suggest(text, hrp, first(memory), C.size_t(len(memory)), first(kinds), firstSize(where),
				C.size_t(len(kinds)), first(texts), C.size_t(len(texts)), count)
		})
}

// LiquidEncode calls bech32_liquid_encode. The key has LiquidKeyLength bytes.
func LiquidEncode(hrp string, version uint32, key, program []byte) (string, uint32) {
	var text [MaxLiquidText]byte
	var length C.size_t
	number := C.go_liquid_encode(hrp, C.uint32_t(version), first(key[:LiquidKeyLength]), first(program),
		C.size_t(len(program)), first(text[:]), C.size_t(len(text)), &length)
	return string(text[:length]), uint32(number)
}

// LiquidDecode calls bech32_liquid_decode.
func LiquidDecode(text string) (string, uint32, []byte, []byte, uint32) {
	var hrp [MaxHRP]byte
	key, program := make([]byte, LiquidKeyLength), make([]byte, MaxLiquidProgram)
	var hrpLength, length C.size_t
	var version C.uint32_t
	number := C.go_liquid_decode(text, first(hrp[:]), MaxHRP, &hrpLength, &version, first(key), first(program),
		MaxLiquidProgram, &length)
	return string(hrp[:hrpLength]), uint32(version), key, program[:length:length], uint32(number)
}

// DescriptorMend calls bech32_descriptor_mend: two places for each text, from the front.
func DescriptorMend(text string, changed int) ([]Edited, uint32) {
	memory := int(C.go_mend_memory(C.size_t(min(len(text), MaxDescriptor))))
	return editsFound(memory, NearEditsLeast, len(text), 2,
		func(memory, kinds []byte, where []C.size_t, texts []byte, count *C.size_t) C.uint32_t {
			return C.go_descriptor_mend(text, C.size_t(changed), first(memory), C.size_t(len(memory)), first(kinds),
				firstSize(where), C.size_t(len(kinds)), first(texts), C.size_t(len(texts)), count)
		})
}

// DescriptorMendTwo calls bech32_descriptor_mend_two: two places for each text, from the front. It puts no kinds.
func DescriptorMendTwo(text string) ([]Edited, uint32) {
	memory := int(C.go_mend_two_memory(C.size_t(min(len(text), MaxDescriptorTwo))))
	return editsFound(memory, NearEditsLeast, len(text), 2,
		func(memory, kinds []byte, where []C.size_t, texts []byte, count *C.size_t) C.uint32_t {
			return C.go_descriptor_mend_two(text, first(memory), C.size_t(len(memory)), firstSize(where),
				C.size_t(len(kinds)), first(texts), C.size_t(len(texts)), count)
		})
}

// Rows at most in one call of a column: their addresses have less than 2^31 bytes.
const mostRows = 1 << 16

// Column has rows as the library takes them: the bytes of all, offsets of 32 or of 64 bits, and bits of which one is 0
// where a row is null, or none.
type Column struct {
	Bytes    []byte
	Offsets  []int32
	Large    []int64
	Validity []byte
	First    int
	Rows     int
}

// ColumnOf puts the rows of a list one behind another.
func ColumnOf[Row string | []byte](rows []Row) *Column {
	size := 0
	for _, row := range rows {
		size += len(row)
	}
	column := &Column{Bytes: make([]byte, 0, size), Large: make([]int64, len(rows)+1), Rows: len(rows)}
	for at, row := range rows {
		column.Bytes = append(column.Bytes, row...)
		column.Large[at+1] = int64(len(column.Bytes))
	}
	return column
}

// Count is the number of rows.
func (c *Column) Count() int { return c.Rows }

// The offsets, their length in bytes, how many rows they are of, and the layout.
func (c *Column) laid() (unsafe.Pointer, C.size_t, C.size_t, C.uint32_t) {
	if c.Large != nil {
		count := len(c.Large)
		if count == 0 {
			return nil, 0, 0, C.BECH32_OFFSETS_64
		}
		return unsafe.Pointer(&c.Large[0]), C.size_t(8 * count), C.size_t(count - 1), C.BECH32_OFFSETS_64
	}
	count := len(c.Offsets)
	if count == 0 {
		return nil, 0, 0, C.BECH32_OFFSETS_32
	}
	return unsafe.Pointer(&c.Offsets[0]), C.size_t(4 * count), C.size_t(count - 1), C.BECH32_OFFSETS_32
}

// CheckMany calls bech32_check_many: the number of each row. Of a checksum that there is not, the refusal's.
func CheckMany(checksum uint32, column *Column) ([]byte, uint32) {
	numbers := make([]byte, column.Count())
	offsets, size, rows, layout := column.laid()
	number := C.go_check_many(C.uint32_t(checksum), first(column.Bytes), C.size_t(len(column.Bytes)), offsets, size,
		first(column.Validity), C.size_t(len(column.Validity)), rows, layout, C.size_t(column.First), first(numbers),
		C.size_t(len(numbers)))
	return numbers, uint32(number)
}

// Rows are what is made of rows: their numbers, and bytes one behind another.
type Rows struct {
	Numbers []byte
	Offsets []int64
	Bytes   []byte
}

func newRows(count int) *Rows { return &Rows{make([]byte, count), make([]int64, count+1), nil} }

func (r *Rows) add(start int, offsets []C.int32_t, made []byte) {
	before := int64(len(r.Bytes))
	for at, offset := range offsets {
		r.Offsets[start+at] = before + int64(offset)
	}
	r.Bytes = append(r.Bytes, made[:offsets[len(offsets)-1]]...)
}

// SegwitDecodeMany calls bech32_segwit_decode_many, for at most mostRows rows at once: also the versions, the lengths of the
// human-readable parts, and the number of a wanted part that is none.
func SegwitDecodeMany(column *Column, hrp string) (*Rows, []byte, []byte, uint32) {
	count := column.Count()
	decoded, versions, lengths := newRows(count), make([]byte, count), make([]byte, count)
	most := min(count, mostRows)
	own, programs := make([]C.int32_t, most+1), make([]byte, most*MaxProgram)
	offsets, size, rows, layout := column.laid()
	// A column without rows has one call as well, which tests the part.
	for start := 0; start == 0 || start < count; start += mostRows {
		end := min(start+mostRows, count)
		var done C.size_t
		number := C.go_segwit_decode_many(first(column.Bytes), C.size_t(len(column.Bytes)), offsets, size, first(column.Validity),
			C.size_t(len(column.Validity)), rows, layout, C.size_t(column.First+start), hrp,
			first(decoded.Numbers[start:end]), C.size_t(end-start), first(versions[start:end]), first(lengths[start:end]),
			&own[0], first(programs), C.size_t(len(programs)), &done)
		if number != 0 {
			return nil, nil, nil, uint32(number)
		}
		decoded.add(start, own[:end-start+1], programs)
	}
	return decoded, versions, lengths, 0
}

// SegwitEncodeMany calls bech32_segwit_encode_many, for at most mostRows rows at once. Of a version that no element has, the
// number is that of one above 16.
func SegwitEncodeMany(hrp string, versions []byte, column *Column) *Rows {
	count := column.Count()
	given := make([]byte, count)
	for at := range given {
		given[at] = byte(min(int(versions[at]), 31))
	}
	encoded, most := newRows(count), min(count, mostRows)
	own, made := make([]C.int32_t, most+1), make([]byte, most*MaxAddress)
	offsets, size, rows, layout := column.laid()
	for start := 0; start < count; start += mostRows {
		end := min(start+mostRows, count)
		var done C.size_t
		C.go_segwit_encode_many(hrp, first(given[start:end]), first(column.Bytes), C.size_t(len(column.Bytes)), offsets,
			size, first(column.Validity), C.size_t(len(column.Validity)), rows, layout, C.size_t(column.First+start),
			first(encoded.Numbers[start:end]), C.size_t(end-start), &own[0], first(made), C.size_t(len(made)), &done)
		encoded.add(start, own[:end-start+1], made)
	}
	return encoded
}

// ValidityOf calls bech32_validity_of: a bit for each number, 1 where it is 0, and how many are.
func ValidityOf(numbers []byte) ([]byte, int) {
	validity := make([]byte, (len(numbers)+7)/8)
	var accepted C.size_t
	C.bech32_validity_of(first(numbers), C.size_t(len(numbers)), first(validity), C.size_t(len(validity)), &accepted)
	return validity, int(accepted)
}

func min(one, other int) int {
	if one < other {
		return one
	}
	return other
}
