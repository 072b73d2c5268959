// Made by tools/make from docs/refusals.tsv; do not edit.

package codex32

// The refusals.
const (
	// NotUtf8: a text or a human-readable part is not UTF-8.
	NotUtf8 Number = 2

	// BadLengths: there are more than 32 texts, or their lengths do not add up to that of all.
	BadLengths Number = 4

	// HrpEmpty: the human-readable part is empty.
	HrpEmpty Number = 11

	// HrpTooLong: the human-readable part has more than 83 bytes.
	HrpTooLong Number = 12

	// HrpNotAscii: the human-readable part has a character that is not ASCII.
	HrpNotAscii Number = 13

	// HrpInvalid: the human-readable part has a byte that is not from 33 to 126.
	HrpInvalid Number = 14

	// HrpMixedCase: the human-readable part has letters of both cases.
	HrpMixedCase Number = 15

	// InvalidCharacter: a character behind the separator may not stand there.
	InvalidCharacter Number = 21

	// MixedCase: the text has letters of both cases.
	MixedCase Number = 22

	// NoSeparator: the text has no separator, `1`.
	NoSeparator Number = 23

	// WrongChecksum: the checksum is wrong.
	WrongChecksum Number = 33

	// NoNearest: there is no nearest text.
	NoNearest Number = 34

	// BadSize: there are neither 16 to 44 bytes nor 63 or 64.
	BadSize Number = 56

	// BadRandom: there are not as many random bytes as characters are drawn.
	BadRandom Number = 66

	// EqualRandom: the random bytes are all equal.
	EqualRandom Number = 68

	// TooFewShares: there are fewer shares than the threshold.
	TooFewShares Number = 74

	// OtherSet: a share has another threshold, identifier or length than the first.
	OtherSet Number = 75

	// IndexTwice: two shares have one index.
	IndexTwice Number = 76

	// Contradiction: the shares contradict each other.
	Contradiction Number = 77

	// BadCount: there are fewer shares than the threshold, or more than 31.
	BadCount Number = 78

	// NotMs: the human-readable part is not `ms`.
	NotMs Number = 81

	// BadLength: a codex32 string has 48 to 93 characters, a long one 125 to 127.
	BadLength Number = 82

	// BadThreshold: the threshold is neither 0 nor a digit from 2 to 9.
	BadThreshold Number = 83

	// BadShareIndex: the threshold is 0, and the share index is not `s`.
	BadShareIndex Number = 84

	// BadIdentifier: the identifier is not four characters of the alphabet in one case.
	BadIdentifier Number = 85

	// NoShareIndex: the share index is not one character of the alphabet.
	NoShareIndex Number = 86

	// BitsLeftOver: more than four bits stand behind the bytes of the payload.
	BitsLeftOver Number = 87

	// NoMemory: the lent memory did not suffice.
	NoMemory Number = 91

	// NoRoom: a buffer is too small.
	NoRoom Number = 92
)
