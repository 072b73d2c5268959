package bech32proved

import (
	"fmt"
	"sort"
	"strings"

	"bech32proved/internal/bech32c"
)

// Alphabet has the characters of the elements from 0 to 31, in lower case.
const Alphabet = bech32c.Alphabet

// Checksum is that of a text.
type Checksum uint32

// The checksums. The long ones are the same for texts of up to 7,089 characters, as invoices, nostr and age have them:
// above 1,023 nothing is promised of wrong characters, and no text is mended.
const (
	Bech32      Checksum = 1
	Bech32m     Checksum = 2
	LongBech32  Checksum = 3
	LongBech32m Checksum = 4
)

// String returns the name of the checksum.
func (c Checksum) String() string {
	switch c {
	case Bech32:
		return "Bech32"
	case Bech32m:
		return "Bech32m"
	case LongBech32:
		return "LongBech32"
	case LongBech32m:
		return "LongBech32m"
	}
	return fmt.Sprintf("Checksum(%d)", uint32(c))
}

// Encode makes the text of bytes under a human-readable part, in lower case.
//
// Refusals, the first that applies: BadNumber (no checksum), NotUtf8, HrpEmpty, HrpTooLong, HrpNotAscii, HrpInvalid,
// HrpMixedCase, EncodedTooLong.
func Encode(checksum Checksum, hrp string, data []byte) (string, error) {
	text, number := bech32c.Encode(uint32(checksum), hrp, data)
	if number != 0 {
		return "", &Refused{Number(number), hrp, -1}
	}
	return text, nil
}

// EncodeElements makes the text of elements, from 0 to 31 each, under a human-readable part, in lower case.
//
// Refusals: those of Encode, and then BadElement, whose place is that of the first element above 31.
func EncodeElements(checksum Checksum, hrp string, elements []byte) (string, error) {
	text, place, number := bech32c.EncodeElements(uint32(checksum), hrp, elements)
	if number == bech32c.BadElement {
		return "", &Refused{Number(number), "", place}
	}
	if number != 0 {
		return "", &Refused{Number(number), hrp, -1}
	}
	return text, nil
}

// Decode reads a text that Bech32m or Bech32 accepts: its human-readable part, in the case of the text, and its bytes.
// Bits behind the last whole byte are dropped. Decode an address by segwit.Decode, and what identifies something by
// DecodeStrict: this accepts several spellings of the same bytes.
//
// Refusals, the first that applies: NotUtf8, InvalidCharacter, MixedCase, NoSeparator, HrpEmpty, HrpTooLong, HrpNotAscii,
// HrpInvalid, HrpMixedCase, TextTooLong, NoChecksum, WrongChecksum.
func Decode(text string) (hrp string, data []byte, err error) {
	hrp, data, number := bech32c.Decode(text)
	if number != 0 {
		return "", nil, RefusedText(number, text)
	}
	return hrp, data, nil
}

// DecodeStrict reads a text that a checksum accepts as Decode does, and refuses bits behind the last whole byte that are
// more than four, or not all zero: so the text is, in its case, the only one of its part and its bytes.
//
// Refusals: BadNumber (no checksum), those of Decode, and then PaddingTooLong, PaddingNotZero.
func DecodeStrict(checksum Checksum, text string) (hrp string, data []byte, err error) {
	hrp, data, number := bech32c.DecodeStrict(uint32(checksum), text)
	if number != 0 {
		return "", nil, RefusedText(number, text)
	}
	return hrp, data, nil
}

// DecodeElements reads a text that a checksum accepts to the elements of its data part, without those of the checksum:
// what is not bytes alone, as addresses of silent payments (BIP-352) and invoices (BOLT 11).
//
// Refusals: BadNumber (no checksum), and those of Decode.
func DecodeElements(checksum Checksum, text string) (hrp string, elements []byte, err error) {
	hrp, elements, number := bech32c.DecodeElements(uint32(checksum), text)
	if number != 0 {
		return "", nil, RefusedText(number, text)
	}
	return hrp, elements, nil
}

// Check tests that a checksum accepts a text, and returns its human-readable part and its data part, without the checksum.
//
// Refusals: BadNumber (no checksum), and those of Decode.
func Check(checksum Checksum, text string) (hrp, dataPart string, err error) {
	length, data, number := bech32c.Check(uint32(checksum), text)
	if number != 0 {
		return "", "", RefusedText(number, text)
	}
	return text[:length], text[length+1 : length+1+data], nil
}

// Fault says why a checksum does not accept a text, and where, or returns nil.
func Fault(checksum Checksum, text string) *Refused {
	if _, _, number := bech32c.Check(uint32(checksum), text); number != 0 {
		return RefusedText(number, text)
	}
	return nil
}

// Change is a character of a mistyped text, and the one that is in its place in the mended one. Where it was known to be
// wrong they may be the same.
type Change struct {
	// Place is where it stands, from 0.
	Place int
	// From and To are what stands there in the mistyped text, `?` if that cannot be read, and in the mended one.
	From, To byte
}

// String says the change, for people.
func (c Change) String() string {
	if c.From == c.To {
		return fmt.Sprintf("character %d: %c stays", c.Place+1, c.To)
	}
	return fmt.Sprintf("character %d: %c becomes %c", c.Place+1, c.From, c.To)
}

// Correction is how a mistyped text is mended.
type Correction struct {
	// Text is the mended text, in the case of the mistyped one.
	Text string
	// Changes are in rising places; what was known to be wrong is among them.
	Changes []Change
}

// typed is a mistyped text as the library reads it, with the locations of what is known to be wrong.
type typed struct {
	text, read string
	known      []int
}

// asTyped makes a `?` behind the last `1` an erasure, and places those of characters from the end.
func asTyped(text string, places []int) (*typed, error) {
	read := []byte(text)
	var known []int
	for at := strings.LastIndexByte(text, '1') + 1; at < len(text) && strings.IndexByte(text, '1') >= 0; at++ {
		if text[at] == '?' {
			read[at] = Alphabet[0]
			if strings.ToUpper(text) == text && strings.ToLower(text) != text {
				read[at] = strings.ToUpper(Alphabet)[0]
			}
			known = append(known, len(text)-1-at)
		}
	}
	for _, place := range places {
		if place < 0 || place >= len(text) {
			return nil, fmt.Errorf("bech32proved: the text has no place %d", place)
		}
		known = append(known, len(text)-1-place)
	}
	return &typed{text, string(read), known}, nil
}

// inCase is a text of the library in the case of what was typed.
func (t *typed) inCase(text string) string {
	if strings.ToUpper(t.text) == t.text && strings.ToLower(t.text) != t.text {
		return strings.ToUpper(text)
	}
	return text
}

// correction is the mended text, with what changed in it and at the locations that were known.
func (t *typed) correction(mended string) Correction {
	text, low := t.inCase(mended), strings.ToLower(t.read)
	at := map[int]bool{}
	for _, location := range t.known {
		if location < len(text) {
			at[len(text)-1-location] = true
		}
	}
	for place := range text {
		if low[place] != mended[place] {
			at[place] = true
		}
	}
	changes := make([]Change, 0, len(at))
	typedInCase := t.inCase(strings.ToLower(t.text))
	for place := range at {
		changes = append(changes, Change{place, typedInCase[place], text[place]})
	}
	sort.Slice(changes, func(one, other int) bool { return changes[one].Place < changes[other].Place })
	return Correction{text, changes}
}

// Correct mends a mistyped text, in its case. Each `?` behind the last `1` is a character that cannot be read; places are
// those of other characters that are known to be wrong. It finds one wrong character; or one, beside one that is known to
// be wrong; or up to three that are known to be. Within these bounds there is at most one correction. It may not be what
// was meant: show it, and ask.
//
// Refusals, the first that applies: BadNumber (no checksum, or a long one), those of Decode but WrongChecksum, NoCorrection.
func Correct(checksum Checksum, text string, places ...int) (*Correction, error) {
	it, err := asTyped(text, places)
	if err != nil {
		return nil, err
	}
	mended, locations, _, number := bech32c.Correct(uint32(checksum), it.read, it.known)
	if number == 0 && len(locations) == 0 && len(it.text) > 0 && !it.correctable() {
		number = bech32c.NoCorrection
	}
	if number != 0 {
		return nil, RefusedText(number, it.read)
	}
	correction := it.correction(mended)
	if len(locations) == 0 && it.text == it.read {
		correction.Changes = nil
	}
	return &correction, nil
}

// correctable is whether what cannot be read is at most what a correction changes: asked where what was read there in its
// place was right.
func (t *typed) correctable() bool {
	if t.text == t.read {
		return true
	}
	size, known := len(t.text)-1-strings.LastIndexByte(t.text, '1'), map[int]bool{}
	for _, location := range t.known {
		if location >= size {
			return false
		}
		known[location] = true
	}
	return len(known) <= bech32c.MaxListed
}

// Nearest lists the texts near to a mistyped one, in its case: all that a checksum accepts and that differ from it in at
// most errors characters, 0 to 2, behind the separator and beside what is known to be wrong, of which there may be three: each
// `?` behind the last `1`, and the places. bech32.h says their order, how many there may be, and how long it takes. It may be
// that none is what was meant: show them, and ask.
//
// Refusals, the first that applies: BadNumber (no checksum, a long one, or more errors), those of Decode but WrongChecksum,
// NoMemory.
func Nearest(checksum Checksum, text string, errors int, places ...int) ([]Correction, error) {
	return nearest(text, places, func(read string, known []int) ([]string, uint32) {
		if errors < 0 {
			return nil, bech32c.BadNumber
		}
		return bech32c.Nearest(uint32(checksum), read, known, errors)
	})
}

// NearestBy lists what a search lists as near to a mistyped text. The packages beside this one call it.
func NearestBy(text string, places []int, search func(read string, known []int) ([]string, uint32)) ([]Correction, error) {
	return nearest(text, places, search)
}

func nearest(text string, places []int, search func(read string, known []int) ([]string, uint32)) ([]Correction, error) {
	it, err := asTyped(text, places)
	if err != nil {
		return nil, err
	}
	near, number := search(it.read, it.known)
	if number != 0 {
		return nil, RefusedText(number, it.read)
	}
	listed := make([]Correction, len(near))
	for at, mended := range near {
		listed[at] = it.correction(mended)
	}
	return listed, nil
}
