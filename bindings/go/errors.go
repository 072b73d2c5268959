package bech32proved

import (
	"fmt"
	"unicode/utf8"

	"bech32proved/internal/bech32c"
)

// Number is that of a refusal in bech32.h, and an error with its sentence.
type Number uint32

// Error returns the sentence of the refusal.
func (n Number) Error() string { return bech32c.Message(uint32(n)) }

// Refused says why a call refuses what it was given. errors.Is(err, WrongChecksum) and the like tell refusals apart.
type Refused struct {
	// Number is that of the refusal.
	Number Number
	// Text is the text that is refused, where one is.
	Text string
	// Place is that of the character at fault, in bytes from 0, or -1 where no single one is.
	Place int
}

// Unwrap returns the number.
func (r *Refused) Unwrap() error { return r.Number }

// Character returns the character at fault, where a single one is.
func (r *Refused) Character() (rune, bool) {
	if r.Place < 0 || r.Place >= len(r.Text) {
		return 0, false
	}
	character, _ := utf8.DecodeRuneInString(r.Text[r.Place:])
	return character, true
}

// Error returns the sentence of the refusal, and the character at fault, counted from 1. What would not show, or may be
// taken for another, has its code point.
func (r *Refused) Error() string {
	character, is := r.Character()
	if !is {
		return r.Number.Error()
	}
	shown := string(character)
	if character < '!' || character > '~' {
		shown = fmt.Sprintf("%U", character)
	}
	return fmt.Sprintf("%s: character %d, %s", r.Number.Error(), utf8.RuneCountInString(r.Text[:r.Place])+1, shown)
}

// Whether a single character is at fault, and Fault says which.
func hasPlace(number Number) bool {
	return number == HrpNotAscii || number == HrpInvalid || number == InvalidCharacter || number == MixedCase
}

// RefusedText is the refusal of a text by its number, with the place of the character at fault. The packages beside this
// one call it.
func RefusedText(number uint32, text string) *Refused {
	refused := &Refused{Number(number), text, -1}
	if hasPlace(refused.Number) {
		if place, same := bech32c.Fault(uint32(Bech32), text); same == number {
			refused.Place = place
		}
	}
	return refused
}
