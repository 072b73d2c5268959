// Package descriptor computes, tests and mends the checksums of output descriptors (BIP-380). What a descriptor says is not
// read. It may hold private keys: these functions take and return strings, of which the garbage collector keeps copies, so
// run them where that does no harm.
package descriptor

import (
	"fmt"

	"bech32proved"
	"bech32proved/internal/bech32c"
)

// Changed is the kind of an edit that changes a character.
const Changed = bech32proved.Replaced

// Checksum computes the checksum of a descriptor without one: the text, `#` and these eight characters are the descriptor.
//
// Refusals: NotInDescriptor, with the place.
func Checksum(text string) (string, error) {
	checksum, place, number := bech32c.DescriptorChecksum(text)
	if number != 0 {
		return "", refused(number, text, place)
	}
	return checksum, nil
}

// Check tests a descriptor with its checksum, and returns it without.
//
// Refusals, the first that applies: NoDescriptorChecksum, NotInDescriptor (with the place), WrongChecksum.
func Check(text string) (string, error) {
	place, number := bech32c.DescriptorCheck(text)
	if number != 0 {
		return "", refused(number, text, place)
	}
	return text[:len(text)-bech32c.DescriptorLength-1], nil
}

func refused(number uint32, text string, place int) error {
	if number != bech32c.NotInDescriptor {
		place = -1
	}
	return &bech32proved.Refused{Number: bech32proved.Number(number), Text: text, Place: place}
}

// Mended is a text with a right checksum, and what is done to the mistyped one to make it.
type Mended struct {
	Text string
	Kind bech32proved.Kind
	// Place is where, from 0, and From and To are what stands there in the mistyped text and in this one: two characters
	// each where two are swapped, none in To where one is left out, none in From where one is put in.
	Place    int
	From, To string
}

// String says what is done, for people.
func (m Mended) String() string {
	if m.Kind == Changed {
		return fmt.Sprintf("character %d: %s becomes %s", m.Place+1, m.From, m.To)
	}
	return bech32proved.Edit{Kind: m.Kind, Place: m.Place, Characters: m.characters()}.String()
}

func (m Mended) characters() string {
	if m.Kind == bech32proved.PutIn {
		return m.To
	}
	return m.From
}

// Mend lists the other texts with a right checksum that one mistake makes of a text: a character is changed (unless changed,
// the most characters that may be, is 0), two neighbours are swapped, a character is left out, or one is put in. bech32.h
// says their order. It may be that none is what was meant: compare the wallet's addresses.
//
// Refusals, the first that applies: BadNumber (changed is above 1), DescriptorTooLong, NoMemory.
func Mend(text string, changed int) ([]Mended, error) {
	if changed < 0 {
		return nil, &bech32proved.Refused{Number: bech32proved.BadNumber, Place: -1}
	}
	edits, number := bech32c.DescriptorMend(text, changed)
	if number != 0 {
		return nil, &bech32proved.Refused{Number: bech32proved.Number(number), Text: text, Place: -1}
	}
	listed := make([]Mended, len(edits))
	for at, edit := range edits {
		kind, first, end := bech32proved.Kind(edit.Kind), edit.Where[0], edit.Where[1]+1
		listed[at] = Mended{Text: edit.Text, Kind: kind, Place: first}
		if kind != bech32proved.PutIn {
			listed[at].From = text[first:end]
		}
		if kind != bech32proved.LeftOut {
			listed[at].To = edit.Text[first:end]
		}
	}
	return listed, nil
}

// MendedTwice is a text with a right checksum that comes from a mistyped one by two characters changed.
type MendedTwice struct {
	Text string
	// Places are where, from 0, the lower one first, and From and To are what stands there in the mistyped text and in this
	// one: a character for each place.
	Places   [2]int
	From, To string
}

// String says what is done, for people.
func (m MendedTwice) String() string {
	return fmt.Sprintf("characters %d and %d: %s becomes %s, %s becomes %s",
		m.Places[0]+1, m.Places[1]+1, m.From[:1], m.To[:1], m.From[1:], m.To[1:])
}

// MendTwo lists the texts with a right checksum that come from a text by two of its characters changed. Either may be in the
// checksum, or be the `#`. Try Mend first: where two characters are wrong, it takes about a 15th of the time at 30 characters
// and a 150th at 1,400, and less memory. A text has at most 1,400 characters, so that of 100 that are no mistyped descriptors
// at most one is expected to be answered with any. bech32.h says their order. It may be that none is what was meant: compare
// the wallet's addresses.
//
// Refusals, the first that applies: DescriptorTooLong (more than 1,400 characters), NoMemory.
func MendTwo(text string) ([]MendedTwice, error) {
	found, number := bech32c.DescriptorMendTwo(text)
	if number != 0 {
		return nil, &bech32proved.Refused{Number: bech32proved.Number(number), Text: text, Place: -1}
	}
	listed := make([]MendedTwice, len(found))
	for at, it := range found {
		first, second := it.Where[0], it.Where[1]
		listed[at] = MendedTwice{
			Text: it.Text, Places: [2]int{first, second},
			From: text[first:first+1] + text[second:second+1],
			To:   it.Text[first:first+1] + it.Text[second:second+1],
		}
	}
	return listed, nil
}
