// Package segwit writes, reads and guesses segwit addresses (BIP-173, BIP-350).
package segwit

import (
	"strings"

	"bech32proved"
	"bech32proved/internal/bech32c"
)

// Address is a human-readable part, in the case of its text, a witness version and a program.
type Address struct {
	HRP     string
	Version int
	Program []byte
}

// Encode makes an address, in lower case: version 0 by Bech32, 1 to 16 by Bech32m.
//
// Refusals, the first that applies: BadNumber (a version below 0 or above 31), NotUtf8, HrpEmpty, HrpTooLong, HrpNotAscii,
// HrpInvalid, HrpMixedCase, EncodedBadVersion, ProgramTooShort, ProgramTooLong, ProgramNotV0, EncodedAddressTooLong.
func Encode(hrp string, version int, program []byte) (string, error) {
	if version < 0 || version > 31 {
		return "", &bech32proved.Refused{Number: bech32proved.BadNumber, Place: -1}
	}
	text, number := bech32c.SegwitEncode(hrp, uint32(version), program)
	if number != 0 {
		return "", &bech32proved.Refused{Number: bech32proved.Number(number), Text: hrp, Place: -1}
	}
	return text, nil
}

// Decode reads an address. Any human-readable part is accepted: compare it, in lower case, with that of your network.
//
// Refusals, the first that applies: NotUtf8, AddressTooLong, InvalidCharacter, MixedCase, NoSeparator, HrpEmpty, HrpTooLong,
// HrpNotAscii, HrpInvalid, HrpMixedCase, NoData, BadVersion, NoChecksum, WrongChecksum, NoData, PaddingTooLong,
// PaddingNotZero, ProgramTooShort, ProgramTooLong, ProgramNotV0.
func Decode(text string) (Address, error) {
	hrp, version, program, number := bech32c.SegwitDecode(text)
	if number != 0 {
		return Address{}, bech32proved.RefusedText(number, text)
	}
	return Address{hrp, int(version), program}, nil
}

// Suggestion is an address that may have been meant, in the case of what was typed.
type Suggestion struct {
	Text string
	// Kind is what was done, and Place the first place, from 0, at which the address and the text differ.
	Kind  bech32proved.Kind
	Place int
	// Changes are the characters that are replaced (bech32proved.Replaced), in rising places, each `?` with them.
	Changes []bech32proved.Change
}

// Suggest lists the addresses of a network, that of hrp in either case, that someone may have meant who typed a text. Each `?`
// in it is a character that cannot be read. They are of forms in use (version 0 with 20 or 32 bytes, version 1 with 32), but for
// the text itself, which is listed if it is an address of the network. Each is a guess: show it, and let people compare it with the source before it
// is paid to. bech32.h says which texts are tried, and in which order.
//
// Refusals, the first that applies: of hrp NotUtf8, HrpEmpty, HrpTooLong, HrpNotAscii, HrpInvalid, HrpMixedCase; of the text
// NotUtf8, InvalidCharacter, MixedCase, NoSeparator, and the same; NoMemory.
func Suggest(text, hrp string) ([]Suggestion, error) {
	edits, number := bech32c.Suggest(text, hrp)
	if number != 0 {
		return nil, &bech32proved.Refused{Number: bech32proved.Number(number), Place: -1}
	}
	listed := make([]Suggestion, len(edits))
	for at, edit := range edits {
		made, typed := edit.Text, strings.ToLower(text)
		if strings.ToUpper(text) == text && typed != text {
			made, typed = strings.ToUpper(made), text
		}
		listed[at] = Suggestion{Text: made, Kind: bech32proved.Kind(edit.Kind), Place: edit.Where[0]}
		for place := 0; listed[at].Kind == bech32proved.Replaced && place < len(made); place++ {
			if typed[place] != made[place] {
				change := bech32proved.Change{Place: place, From: typed[place], To: made[place]}
				listed[at].Changes = append(listed[at].Changes, change)
			}
		}
	}
	return listed, nil
}
