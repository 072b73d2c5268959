// Made by tools/make from docs/refusals.tsv; do not edit.

package bech32proved

// The refusals.
const (
	// NullRow: the row is null.
	NullRow Number = 1

	// NotUtf8: a text or a human-readable part is not UTF-8.
	NotUtf8 Number = 2

	// BadNumber: the number of no checksum, an element above 31, too many errors, or no such rows.
	BadNumber Number = 4

	// HrpEmpty: the human-readable part is empty.
	HrpEmpty Number = 11

	// HrpTooLong: the human-readable part has more than 83 bytes.
	HrpTooLong Number = 12

	// HrpNotAscii: the human-readable part has a character that is not ASCII.
	HrpNotAscii Number = 13

	// HrpInvalid: the human-readable part has a byte that is not from 33 to 126.
	HrpInvalid Number = 14

	// HrpMixedCase: the human-readable part has letters of both cases.
	HrpMixedCase Number = 15

	// InvalidCharacter: a character behind the separator may not stand there.
	InvalidCharacter Number = 21

	// MixedCase: the text has letters of both cases.
	MixedCase Number = 22

	// NoSeparator: the text has no separator, `1`.
	NoSeparator Number = 23

	// TextTooLong: the text has more than 1023 characters (7089 by a long checksum).
	TextTooLong Number = 31

	// NoChecksum: too few characters for a checksum stand behind the separator.
	NoChecksum Number = 32

	// WrongChecksum: the checksum is wrong.
	WrongChecksum Number = 33

	// NoCorrection: no correction of the data part mends the text.
	NoCorrection Number = 34

	// AddressTooLong: the text has more than 90 characters.
	AddressTooLong Number = 41

	// NoData: the address has no witness version.
	NoData Number = 42

	// BadVersion: its witness version is above 16.
	BadVersion Number = 43

	// PaddingTooLong: more than four bits stand behind the last whole byte.
	PaddingTooLong Number = 44

	// PaddingNotZero: the bits behind the last whole byte are not all zero.
	PaddingNotZero Number = 45

	// ProgramTooShort: the program has less than 2 bytes.
	ProgramTooShort Number = 46

	// ProgramTooLong: the program has more than 40 bytes.
	ProgramTooLong Number = 47

	// ProgramNotV0: in version 0 the program has neither 20 nor 32 bytes.
	ProgramNotV0 Number = 48

	// OtherHrp: the address has another human-readable part than is wanted.
	OtherHrp Number = 49

	// EncodedTooLong: the text would have more than 1023 characters (7089 by a long checksum).
	EncodedTooLong Number = 51

	// EncodedBadVersion: the witness version is above 16.
	EncodedBadVersion Number = 52

	// EncodedAddressTooLong: the address would have more than 90 characters.
	EncodedAddressTooLong Number = 53

	// BadElement: an element is above 31.
	BadElement Number = 67

	// UnsupportedVersion: a confidential address of another witness version than 0 is not supported.
	UnsupportedVersion Number = 70

	// NoBlindingKey: a confidential address has less than 33 bytes behind its version.
	NoBlindingKey Number = 79

	// NotInDescriptor: a character may not stand in a descriptor, or not in its checksum.
	NotInDescriptor Number = 80

	// NoDescriptorChecksum: the text does not end in `#` and eight characters.
	NoDescriptorChecksum Number = 88

	// DescriptorTooLong: the text has more than 7500 characters (1400 for two changes), too many to be mended.
	DescriptorTooLong Number = 89

	// NoMemory: the lent memory did not suffice.
	NoMemory Number = 91

	// NoRoom: a buffer is too small.
	NoRoom Number = 92
)
