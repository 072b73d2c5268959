// Package liquid writes, reads and mends confidential addresses of Liquid, of witness version 0, by the checksum Blech32.
package liquid

import (
	"bech32proved"
	"bech32proved/internal/bech32c"
)

// KeyLength is the number of bytes of a blinding key.
const KeyLength = bech32c.LiquidKeyLength

// Address is a human-readable part, in the case of its text, a witness version, a blinding key and a program.
type Address struct {
	HRP     string
	Version int
	// Key is the blinding key. That it is a point of the curve is not tested.
	Key     []byte
	Program []byte
}

// Encode makes an address, in lower case.
//
// Refusals, the first that applies: NoBlindingKey (a key of another length than KeyLength), BadNumber (a version below 0 or
// above 31), NotUtf8, HrpEmpty, HrpTooLong, HrpNotAscii, HrpInvalid, HrpMixedCase, EncodedBadVersion, UnsupportedVersion,
// ProgramTooShort, ProgramTooLong, ProgramNotV0.
func Encode(hrp string, version int, key, program []byte) (string, error) {
	if len(key) != KeyLength {
		return "", &bech32proved.Refused{Number: bech32proved.NoBlindingKey, Place: -1}
	}
	if version < 0 || version > 31 {
		return "", &bech32proved.Refused{Number: bech32proved.BadNumber, Place: -1}
	}
	text, number := bech32c.LiquidEncode(hrp, uint32(version), key, program)
	if number != 0 {
		return "", &bech32proved.Refused{Number: bech32proved.Number(number), Text: hrp, Place: -1}
	}
	return text, nil
}

// Decode reads an address. Any human-readable part is accepted: compare it, in lower case, with that of your network (lq).
//
// Refusals, the first that applies: NotUtf8, InvalidCharacter, MixedCase, NoSeparator, HrpEmpty, HrpTooLong, HrpNotAscii,
// HrpInvalid, HrpMixedCase, NoData, BadVersion, UnsupportedVersion, TextTooLong, NoChecksum, WrongChecksum, NoData,
// PaddingTooLong, PaddingNotZero, NoBlindingKey, ProgramTooShort, ProgramTooLong, ProgramNotV0.
func Decode(text string) (Address, error) {
	hrp, version, key, program, number := bech32c.LiquidDecode(text)
	if number != 0 {
		return Address{}, bech32proved.RefusedText(number, text)
	}
	return Address{hrp, int(version), key, program}, nil
}

// Nearest lists the texts near to a mistyped one, as bech32proved.Nearest does, by Blech32: with at most errors other
// characters, 0 to 3, beside at most six that are known to be wrong. Twice errors, with their number, may be at most seven.
// Where it is at most six, there is one text at most: with three errors beside none that are known to be wrong, two beside
// one or two, one beside three or four, and none beside five or six. It need not be an address: decode it.
//
// Refusals, the first that applies: BadNumber (more errors), those of Decode up to HrpMixedCase, TextTooLong, NoChecksum,
// NoMemory.
func Nearest(text string, errors int, places ...int) ([]bech32proved.Correction, error) {
	return bech32proved.NearestBy(text, places, func(read string, known []int) ([]string, uint32) {
		if errors < 0 {
			return nil, bech32c.BadNumber
		}
		return bech32c.LiquidNearest(read, known, errors)
	})
}
