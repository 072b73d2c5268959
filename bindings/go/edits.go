package bech32proved

import (
	"fmt"

	"bech32proved/internal/bech32c"
)

// Kind is what an edit does.
type Kind int

// What is done to a text. Unchanged and Replaced are of segwit.Suggest alone, and Changed of descriptor.Mend.
const (
	Unchanged Kind = bech32c.Unchanged
	Swapped   Kind = bech32c.Swapped
	LeftOut   Kind = bech32c.LeftOut
	PutIn     Kind = bech32c.PutIn
	Replaced  Kind = bech32c.Replaced
)

// Edit is what is done to a mistyped text to make another of it.
type Edit struct {
	Kind Kind
	// Place is where, from 0: the first of two that are swapped; of a character that is left out, its place in the mistyped
	// text; of one that is put in, its place in the new text.
	Place int
	// Characters are the one that is left out or put in, or the two that are swapped, as the mistyped text has them.
	Characters string
}

// String says the edit, for people.
func (e Edit) String() string {
	switch e.Kind {
	case Swapped:
		return fmt.Sprintf("characters %d and %d: %c and %c are swapped", e.Place+1, e.Place+2, e.Characters[0], e.Characters[1])
	case LeftOut:
		return fmt.Sprintf("character %d: %s is left out", e.Place+1, e.Characters)
	case PutIn:
		return fmt.Sprintf("character %d: %s is put in", e.Place+1, e.Characters)
	}
	return ""
}

// EditOf is the edit of a kind at a place, of a text and the one that it makes. The packages beside this one call it.
func EditOf(kind Kind, place int, text, made string) Edit {
	switch kind {
	case Swapped:
		return Edit{kind, place, text[place : place+2]}
	case LeftOut:
		return Edit{kind, place, text[place : place+1]}
	case PutIn:
		return Edit{kind, place, made[place : place+1]}
	}
	return Edit{kind, place, ""}
}

// NearEdit is a text that one edit makes of a mistyped one, in its case.
type NearEdit struct {
	Text string
	Edit Edit
}

// NearEdits lists the other texts that a checksum accepts and that one edit makes of a text: two neighbours behind the
// separator are swapped, one of its characters is left out, or one is put in. bech32.h says their order. It may be that none is
// what was meant: show them, and ask.
//
// Refusals, the first that applies: BadNumber (no checksum, or a long one), NotUtf8, InvalidCharacter, MixedCase, NoSeparator,
// HrpEmpty, HrpTooLong, HrpNotAscii, HrpInvalid, HrpMixedCase, NoMemory.
func NearEdits(checksum Checksum, text string) ([]NearEdit, error) {
	edits, number := bech32c.NearEdits(uint32(checksum), text)
	if number != 0 {
		return nil, RefusedText(number, text)
	}
	it := &typed{text: text}
	listed := make([]NearEdit, len(edits))
	for at, edit := range edits {
		kind, last := Kind(edit.Kind), len(text)-1
		if kind == PutIn {
			last = len(edit.Text) - 1
		}
		place := last - edit.Where[0]
		if kind == Swapped {
			place--
		}
		made := it.inCase(edit.Text)
		listed[at] = NearEdit{made, EditOf(kind, place, text, made)}
	}
	return listed, nil
}
